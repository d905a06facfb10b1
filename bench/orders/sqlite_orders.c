/* The orders of guardian_orders.c over SQLite in memory: each is a transaction, and each seat of it a savepoint. It
 * prints the same.
 *
 *     sqlite_orders ORDERS */
#define _POSIX_C_SOURCE 199309L
#include "orders.h"

#include <inttypes.h>
#include <sqlite3.h>

enum { BEGIN, SAVEPOINT, READ, WRITE, RELEASE, COMMIT, STATEMENTS };
static const char *const TEXTS[STATEMENTS] = {
    "begin",
    "savepoint seat",
    "select holder from seat where number = ?1",
    "update seat set holder = ?2 where number = ?1",
    "release seat",
    "commit",
};

static sqlite3 *shop;
static sqlite3_stmt *statements[STATEMENTS];

static void must(int status, int wanted, const char *what) {
    if (status == wanted) return;
    fprintf(stderr, "sqlite_orders: %s: %s\n", what, sqlite3_errmsg(shop));
    exit(1);
}

static void run(int statement) {
    must(sqlite3_step(statements[statement]), SQLITE_DONE, TEXTS[statement]);
    sqlite3_reset(statements[statement]);
}

static void make_seats(void) {
    must(sqlite3_open(":memory:", &shop), SQLITE_OK, "open");
    const char *table = "create table seat (number integer primary key, holder integer not null)";
    must(sqlite3_exec(shop, table, NULL, NULL, NULL), SQLITE_OK, table);
    for (uint32_t seat = 0; seat < SEATS; seat++) {
        char text[64];
        snprintf(text, sizeof text, "insert into seat values (%" PRIu32 ", 0)", seat);
        must(sqlite3_exec(shop, text, NULL, NULL, NULL), SQLITE_OK, text);
    }
    for (int at = 0; at < STATEMENTS; at++)
        must(sqlite3_prepare_v2(shop, TEXTS[at], -1, &statements[at], NULL), SQLITE_OK, TEXTS[at]);
}

static int64_t holder_of(uint32_t seat) {
    sqlite3_stmt *read = statements[READ];
    sqlite3_bind_int64(read, 1, seat);
    must(sqlite3_step(read), SQLITE_ROW, TEXTS[READ]);
    int64_t holder = sqlite3_column_int64(read, 0);
    sqlite3_reset(read);
    return holder;
}

static void take(uint32_t seat, uint32_t order) {
    run(SAVEPOINT);
    if (holder_of(seat) < order) {
        sqlite3_bind_int64(statements[WRITE], 1, seat);
        sqlite3_bind_int64(statements[WRITE], 2, order);
        run(WRITE);
    }
    run(RELEASE);
}

static void carry_out(uint32_t order) {
    run(BEGIN);
    for (uint32_t at = 0; at < EACH; at++) take(seat_of(order, at), order);
    run(COMMIT);
}

int main(int count, char **words) {
    uint32_t orders = orders_named(count, words);
    int64_t sum = 0;
    make_seats();
    double begin = processor_seconds();
    for (uint32_t order = 1; order <= orders; order++) carry_out(order);
    double taken = processor_seconds() - begin;
    for (uint32_t seat = 0; seat < SEATS; seat++) sum = weighed(sum, seat, holder_of(seat));
    printf("%.0f %" PRId64 "\n", orders / taken, sum);
    for (int at = 0; at < STATEMENTS; at++) sqlite3_finalize(statements[at]);
    sqlite3_close(shop);
    return 0;
}
