/* The orders of the bank in SQLite: a transaction each, a savepoint for each account. WAL, synchronous=FULL. One mutex
 * around each order, so that nobody waits in vain for SQLite's own lock. With synchronous=OFF nothing is synced.
 *
 *   sqlite_bank FOLDER full|off CLIENTS SECONDS [append]
 *
 * With `append` it makes no orders, but only writes what a log writes of each: a row with the lines of 12 entries, 474
 * bytes, and where the log ends then. No log that does so in SQLite makes more orders a second with one client.
 *
 * It prints what log-bench prints: `sqlite-FULL CLIENTS ORDERS-A-SECOND P50 P99`, times in milliseconds. */
#define _POSIX_C_SOURCE 200809L
#include <pthread.h>
#include <sqlite3.h>
#include <stdint.h>
#include <stdio.h>
#include <stdlib.h>
#include <string.h>
#include <sys/stat.h>
#include <time.h>

enum { ACCOUNTS = 1000, MOST = 400000 };
static const int64_t BALANCE = 1000000000;

enum { BEGIN, SAVEPOINT, RELEASE, COMMIT, READ, WRITE, MOVE, PUT, STATEMENTS };
static const char *const TEXTS[STATEMENTS] = {
    "begin immediate", "savepoint part", "release part", "commit",
    "select balance from account where id = ?1", "update account set balance = ?2 where id = ?1",
    "update log set next_entry = ?1, sum = ?2 where next_entry = ?3", "insert into batch values (?1, ?2, ?3)",
};
/* What an order's entries take in a log, and how many they are. */
enum { BYTES = 474, ENTRIES = 12 };

typedef struct client {
    pthread_t thread;
    uint32_t number;
    sqlite3 *connection;
    sqlite3_stmt *statements[STATEMENTS];
    double *each;
    size_t count;
} client;

static pthread_mutex_t turn = PTHREAD_MUTEX_INITIALIZER;
static double end;
static int64_t next_entry;
static int appends;

static double now(void) {
    struct timespec time;
    clock_gettime(CLOCK_MONOTONIC, &time);
    return (double)time.tv_sec + (double)time.tv_nsec / 1e9;
}

static void must(int status, int wanted, const char *what) {
    if (status == wanted) return;
    fprintf(stderr, "sqlite_bank: %s: %s\n", what, sqlite3_errstr(status));
    exit(1);
}

static void run(client *it, int statement) {
    must(sqlite3_step(it->statements[statement]), SQLITE_DONE, TEXTS[statement]);
    sqlite3_reset(it->statements[statement]);
}

static int64_t balance(client *it, uint32_t account) {
    sqlite3_stmt *read = it->statements[READ];
    int64_t found;
    sqlite3_bind_int64(read, 1, account);
    must(sqlite3_step(read), SQLITE_ROW, "a balance");
    found = sqlite3_column_int64(read, 0);
    sqlite3_reset(read);
    return found;
}

static void set_balance(client *it, uint32_t account, int64_t number) {
    sqlite3_bind_int64(it->statements[WRITE], 1, account);
    sqlite3_bind_int64(it->statements[WRITE], 2, number);
    run(it, WRITE);
}

static void add(client *it, uint32_t account, int64_t amount) {
    run(it, SAVEPOINT);
    set_balance(it, account, balance(it, account) + amount);
    run(it, RELEASE);
}

/* As src/orders.rs has it. */
static uint32_t draw(uint64_t *state) {
    *state = *state * 6364136223846793005u + 1442695040888963407u;
    return (uint32_t)(*state >> 33);
}

static void carry_out(client *it, uint64_t number) {
    uint64_t state = (uint64_t)it->number * 1000003 + number;
    uint32_t from = draw(&state) % ACCOUNTS;
    uint32_t to = (from + 1 + draw(&state) % (ACCOUNTS - 1)) % ACCOUNTS;
    int64_t amount = 1 + draw(&state) % 10;
    pthread_mutex_lock(&turn);
    run(it, BEGIN);
    add(it, from, -amount);
    add(it, to, amount);
    run(it, COMMIT);
    pthread_mutex_unlock(&turn);
}

/* The sum is any number: what is measured is SQLite. */
static void append(client *it, const char *lines) {
    sqlite3_stmt *move = it->statements[MOVE], *put = it->statements[PUT];
    int64_t sum;
    pthread_mutex_lock(&turn);
    sum = next_entry * 48271 % 2147483647;
    run(it, BEGIN);
    sqlite3_bind_int64(move, 1, next_entry + ENTRIES);
    sqlite3_bind_int64(move, 2, sum);
    sqlite3_bind_int64(move, 3, next_entry);
    run(it, MOVE);
    sqlite3_bind_int64(put, 1, next_entry);
    sqlite3_bind_text(put, 2, lines, BYTES, SQLITE_STATIC);
    sqlite3_bind_int64(put, 3, sum);
    run(it, PUT);
    run(it, COMMIT);
    next_entry += ENTRIES;
    pthread_mutex_unlock(&turn);
}

static void *work(void *given) {
    char lines[BYTES];
    memset(lines, '7', sizeof lines);
    client *it = given;
    for (uint64_t number = 0; now() < end && it->count < MOST; number++) {
        double begin = now();
        if (appends) append(it, lines);
        else carry_out(it, number);
        it->each[it->count++] = now() - begin;
    }
    return NULL;
}

static void connect_to(client *it, const char *path, const char *mode) {
    char text[64];
    snprintf(text, sizeof text, "pragma journal_mode=wal; pragma synchronous=%s", mode);
    must(sqlite3_open(path, &it->connection), SQLITE_OK, path);
    must(sqlite3_exec(it->connection, text, NULL, NULL, NULL), SQLITE_OK, text);
}

static void prepare(client *it) {
    for (int k = 0; k < STATEMENTS; k++)
        must(sqlite3_prepare_v2(it->connection, TEXTS[k], -1, &it->statements[k], NULL), SQLITE_OK, TEXTS[k]);
    it->each = calloc(MOST, sizeof *it->each);
    if (it->each == NULL) must(SQLITE_NOMEM, SQLITE_OK, "times");
}

static void set_up(client *it) {
    static const char *const text =
        "create table account (id integer primary key, balance integer not null);"
        "create table log (id integer primary key, next_entry integer not null, sum integer not null);"
        "create table batch (first integer primary key, lines text not null, sum integer not null);"
        "insert into log values (0, 0, 0);"
        "with recursive n(i) as (select 0 union all select i + 1 from n where i < 999)"
        " insert into account select i, 1000000000 from n";
    must(sqlite3_exec(it->connection, text, NULL, NULL, NULL), SQLITE_OK, "the accounts");
}

/* Whole orders leave the sum as it was. */
static void check(client *it) {
    sqlite3_stmt *sum = NULL;
    must(sqlite3_prepare_v2(it->connection, "select sum(balance) from account", -1, &sum, NULL), SQLITE_OK, "a sum");
    must(sqlite3_step(sum), SQLITE_ROW, "a sum");
    if (sqlite3_column_int64(sum, 0) != ACCOUNTS * BALANCE) must(SQLITE_CORRUPT, SQLITE_OK, "the sum");
    sqlite3_finalize(sum);
}

static int ascending(const void *one, const void *other) {
    double difference = *(const double *)one - *(const double *)other;
    return (difference > 0) - (difference < 0);
}

static void print(client *clients, uint32_t count, const char *mode, double taken) {
    size_t orders = 0;
    double *all;
    for (uint32_t k = 0; k < count; k++) orders += clients[k].count;
    all = calloc(orders + 1, sizeof *all);
    if (all == NULL) must(SQLITE_NOMEM, SQLITE_OK, "times");
    orders = 0;
    for (uint32_t k = 0; k < count; k++) {
        memcpy(all + orders, clients[k].each, clients[k].count * sizeof *all);
        orders += clients[k].count;
    }
    qsort(all, orders, sizeof *all, ascending);
    printf("sqlite-%s %u %.0f %.3f %.3f\n", mode, (unsigned)count, (double)orders / taken, 1e3 * all[orders / 2],
           1e3 * all[orders * 99 / 100]);
    free(all);
}

int main(int argc, char **argv) {
    char path[4096];
    uint32_t count;
    client *clients;
    double begin;
    appends = argc == 6 && strcmp(argv[5], "append") == 0;
    if (argc != 5 && !appends) return fprintf(stderr, "sqlite_bank FOLDER full|off CLIENTS SECONDS [append]\n"), 2;
    count = (uint32_t)strtoul(argv[3], NULL, 10);
    clients = calloc(count, sizeof *clients);
    if (clients == NULL || count == 0) return 2;
    mkdir(argv[1], 0755);
    snprintf(path, sizeof path, "%s/bank.db", argv[1]);
    for (uint32_t k = 0; k < count; k++) {
        clients[k].number = k;
        connect_to(&clients[k], path, argv[2]);
        if (k == 0) set_up(&clients[k]);
        prepare(&clients[k]);
    }
    begin = now();
    end = begin + strtod(argv[4], NULL);
    for (uint32_t k = 0; k < count; k++) pthread_create(&clients[k].thread, NULL, work, &clients[k]);
    for (uint32_t k = 0; k < count; k++) pthread_join(clients[k].thread, NULL);
    begin = now() - begin;
    check(&clients[0]);
    print(clients, count, argv[2], begin);
    return 0;
}
