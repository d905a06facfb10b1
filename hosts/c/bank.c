/* A bank: many threads carry out orders of four transfers each.
 *
 * An order is a topaction and each of its transfers a subaction, which pays in before it pays out.
 * The last transfer of each order asks for more than the whole bank has, so it aborts alone. Each
 * tenth order is aborted at its end, and its committed transfers with it. One more thread audits:
 * whatever one topaction reads is of one moment, so the sum is always the same. */
#include "clock.h"
#include "draws.h"
#include "modes.h"
#include "store.h"

#include <inttypes.h>
#include <stdio.h>
#include <stdlib.h>

enum { ACCOUNTS = 16, THREADS = 4, AUDITS = 20, TRANSFERS = 4 };

static const int64_t BALANCE = 1000000000;
static const int64_t ALL = 16000000000;

static const double PATIENCE = 100;

/* The journal is folded after this many entries. */
static const int64_t FOLD_AFTER = 10000;

typedef struct transfer {
    uint32_t from, to;
    int64_t amount;
} transfer;

typedef struct counts {
    uint32_t carried_out, cancelled, made, refused, made_in_vain;
} counts;

/* The arguments of a thread, and its results. */
typedef struct clerk {
    pthread_t thread;
    store *bank;
    uint64_t draws;
    uint32_t orders;
    counts counts;
} clerk;

typedef struct auditor {
    pthread_t thread;
    store *bank;
    uint32_t right;
} auditor;

/* Draws four transfers, of which the last can't be made. */
static void draw_order(uint64_t *draws, transfer order[TRANSFERS]) {
    for (int at = 0; at < TRANSFERS; at++) {
        order[at].from = draws_below(draws, ACCOUNTS);
        order[at].to = (order[at].from + 1 + draws_below(draws, ACCOUNTS - 1)) % ACCOUNTS;
        order[at].amount = 1 + (int64_t)draws_below(draws, 10);
    }
    order[TRANSFERS - 1].amount = ALL + 1;
}

/* Ends the process if the lock wasn't taken. This doesn't happen: locks are taken in one order, and
 * patience is long. */
static void be_locked(int is_had) {
    if (!is_had) {
        fprintf(stderr, "no lock\n");
        exit(1);
    }
}

static int64_t balance_of(store *bank, const store_action *action, uint32_t account) {
    int64_t balance;
    be_locked(store_get(bank, action, account, &balance));
    return balance;
}

/* Makes the transfer in a subaction. If the account has too little, aborts the subaction, so that
 * nothing is left of it, and returns 0. */
static int make(store *bank, const store_action *top, const transfer *it) {
    store_action sub = store_begin_sub(bank, top);
    be_locked(store_set(bank, &sub, it->to, balance_of(bank, &sub, it->to) + it->amount));
    int64_t balance = balance_of(bank, &sub, it->from);
    if (balance < it->amount) {
        store_abort(bank, &sub);
        return 0;
    }
    be_locked(store_set(bank, &sub, it->from, balance - it->amount));
    store_commit(bank, &sub);
    return 1;
}

/* Locks all accounts of the order, in the order of their numbers. */
static void lock_accounts(store *bank, const store_action *top, const transfer order[TRANSFERS]) {
    int is_named[ACCOUNTS] = {0};
    for (int at = 0; at < TRANSFERS; at++) is_named[order[at].from] = is_named[order[at].to] = 1;
    for (uint32_t account = 0; account < ACCOUNTS; account++)
        if (is_named[account]) be_locked(store_lock(bank, top, account));
}

/* Carries out an order, or aborts it at its end. */
static void carry_out(store *bank, const transfer order[TRANSFERS], int is_cancelled, counts *sum) {
    store_action top = store_begin_top(bank);
    uint32_t made = 0;
    lock_accounts(bank, &top, order);
    for (int at = 0; at < TRANSFERS; at++) made += (uint32_t)make(bank, &top, &order[at]);
    sum->refused += TRANSFERS - made;
    if (is_cancelled) {
        store_abort(bank, &top);
        sum->cancelled++;
        sum->made_in_vain += made;
    } else {
        store_commit(bank, &top);
        sum->carried_out++;
        sum->made += made;
    }
}

static void *work(void *given) {
    clerk *it = given;
    transfer order[TRANSFERS];
    for (uint32_t number = 0; number < it->orders; number++) {
        draw_order(&it->draws, order);
        carry_out(it->bank, order, number % 10 == 9, &it->counts);
    }
    return NULL;
}

/* Counts how many audits find the sum with which the bank began. */
static void *audit(void *given) {
    auditor *it = given;
    for (int number = 0; number < AUDITS; number++) {
        store_action top = store_begin_top(it->bank);
        int64_t sum = 0;
        for (uint32_t account = 0; account < ACCOUNTS; account++) sum += balance_of(it->bank, &top, account);
        store_commit(it->bank, &top);
        if (sum == ALL) it->right++;
    }
    return NULL;
}

static void start(pthread_t *thread, void *(*what)(void *), void *given) {
    if (pthread_create(thread, NULL, what, given) != 0) {
        fprintf(stderr, "no thread\n");
        exit(1);
    }
}

/* Runs all threads, and adds up what they did. */
static counts run(store *bank, uint32_t orders, uint32_t *right) {
    counts sum = {0};
    clerk clerks[THREADS];
    auditor one = {.bank = bank};
    start(&one.thread, audit, &one);
    for (int at = 0; at < THREADS; at++) {
        clerks[at] = (clerk){.bank = bank, .draws = (uint64_t)at, .orders = orders};
        start(&clerks[at].thread, work, &clerks[at]);
    }
    for (int at = 0; at < THREADS; at++) {
        pthread_join(clerks[at].thread, NULL);
        sum.carried_out += clerks[at].counts.carried_out;
        sum.cancelled += clerks[at].counts.cancelled;
        sum.made += clerks[at].counts.made;
        sum.refused += clerks[at].counts.refused;
        sum.made_in_vain += clerks[at].counts.made_in_vain;
    }
    pthread_join(one.thread, NULL);
    *right = one.right;
    return sum;
}

/* Prints the committed balances: their sum, and the sum of each balance times its place from 1
 * on. */
static void print_balances(store *bank) {
    int64_t sum = 0, weighed = 0;
    for (uint32_t account = 0; account < ACCOUNTS; account++) {
        int64_t balance = store_base(bank, account);
        sum += balance;
        weighed += balance * (account + 1);
    }
    printf("sum %" PRId64 "\nweighed %" PRId64 "\n", sum, weighed);
}

int bank(uint32_t orders) {
    store accounts;
    uint32_t right;
    store_open(&accounts, FOLD_AFTER);
    accounts.patience = PATIENCE;
    for (int account = 0; account < ACCOUNTS; account++) store_declare(&accounts, BALANCE);
    int64_t before = store_entries(&accounts);
    double begin = clock_seconds();
    counts sum = run(&accounts, orders, &right);
    double taken = clock_seconds() - begin, calls = (double)(store_entries(&accounts) - before);
    fprintf(stderr, "%.0f calls in %.2f s, %.0f a second\n", calls, taken, calls / taken);
    printf("accounts %d, threads %d\n", ACCOUNTS, THREADS);
    printf("orders %" PRIu32 ": %" PRIu32 " carried out, %" PRIu32 " cancelled\n", THREADS * orders, sum.carried_out,
           sum.cancelled);
    printf("transfers %" PRIu32 ": %" PRIu32 " made, %" PRIu32 " refused, %" PRIu32 " cancelled with their order\n",
           THREADS * orders * TRANSFERS, sum.made, sum.refused, sum.made_in_vain);
    printf("audits %d, %" PRIu32 " of them find %" PRId64 "\n", AUDITS, right, ALL);
    print_balances(&accounts);
    store_fold(&accounts);
    printf("nothing is live\n");
    store_close(&accounts);
    return 0;
}
