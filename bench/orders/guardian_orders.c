/* Orders by a guardian in C: each is a topaction, and each seat of it a subaction. It prints how many it carries out a
 * second of processor time, and what the seats hold at the end.
 *
 *     guardian_orders ORDERS */
#define _POSIX_C_SOURCE 199309L
#include "orders.h"

#include <argus.h>
#include <inttypes.h>

/* So many orders are carried out between two folds of the journal, and two renewals. */
enum { FOLD_AFTER = 1000, RENEW_AFTER = 100000 };

static int64_t must(argus_answer answer, uint32_t status, const char *what) {
    if (answer.status == status) return answer.number;
    fprintf(stderr, "guardian_orders: %s: %s\n", what, argus_answer_name(answer));
    exit(1);
}

static void declare_seats(argus_guardian *shop) {
    uint32_t top = (uint32_t)must(argus_begin_top(shop), ARGUS_ACTION, "begin");
    for (uint32_t seat = 0; seat < SEATS; seat++) {
        must(argus_declare(shop, "atomic_record[holder:int]"), ARGUS_OBJECT, "declare");
        must(argus_alter(shop, top, seat, ARGUS_CREATE, 0, 0, "{0}"), ARGUS_DONE, "create");
    }
    must(argus_commit(shop, top), ARGUS_DONE, "commit");
}

/* Takes a seat over for an order, from an earlier one. */
static void take(argus_guardian *shop, uint32_t top, uint32_t seat, uint32_t order) {
    uint32_t sub = (uint32_t)must(argus_begin_sub(shop, top), ARGUS_ACTION, "begin");
    must(argus_lock(shop, sub, seat), ARGUS_DONE, "lock");
    if (must(argus_ask(shop, sub, seat, ARGUS_FIELD, 0), ARGUS_NUMBER, "read") < order)
        must(argus_alter(shop, sub, seat, ARGUS_SET_FIELD_INT, 0, order, NULL), ARGUS_DONE, "set");
    must(argus_commit(shop, sub), ARGUS_DONE, "commit");
}

static void carry_out(argus_guardian *shop, uint32_t order) {
    uint32_t top = (uint32_t)must(argus_begin_top(shop), ARGUS_ACTION, "begin");
    for (uint32_t at = 0; at < EACH; at++) take(shop, top, seat_of(order, at), order);
    must(argus_commit(shop, top), ARGUS_DONE, "commit");
    if (order % RENEW_AFTER == 0) must(argus_renew(shop), ARGUS_DONE, "renewal");
    else if (order % FOLD_AFTER == 0) must(argus_checkpoint(shop), ARGUS_DONE, "checkpoint");
}

static int64_t held(argus_guardian *shop) {
    int64_t sum = 0;
    uint32_t top = (uint32_t)must(argus_begin_top(shop), ARGUS_ACTION, "begin");
    for (uint32_t seat = 0; seat < SEATS; seat++)
        sum = weighed(sum, seat, must(argus_ask(shop, top, seat, ARGUS_FIELD, 0), ARGUS_NUMBER, "read"));
    must(argus_commit(shop, top), ARGUS_DONE, "commit");
    return sum;
}

int main(int count, char **words) {
    argus_guardian shop = ARGUS_CLOSED;
    uint32_t orders = orders_named(count, words);
    must(argus_open(&shop), ARGUS_DONE, "open");
    declare_seats(&shop);
    double begin = processor_seconds();
    for (uint32_t order = 1; order <= orders; order++) carry_out(&shop, order);
    double taken = processor_seconds() - begin;
    printf("%.0f %" PRId64 "\n", orders / taken, held(&shop));
    must(argus_close(&shop), ARGUS_DONE, "close");
    return 0;
}
