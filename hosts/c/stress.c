/* Many calls, with a checkpoint now and then. A checkpoint frees everything that the journal took:
 * after each one, hardly more memory is in use than before the first call.
 *
 * A turn is a topaction with two subactions, of which one aborts: 3 actions and 32 calls. So
 * 10,000,000 calls begin 937,500 of the 1,000,000 actions that a guardian has. */
#include "clock.h"
#include "draws.h"
#include "modes.h"
#include "store.h"

#include <inttypes.h>
#include <malloc.h>
#include <stdio.h>

enum { RECORDS = 100, CALLS_A_TURN = 32 };

/* How many calls are made from one checkpoint to the next. */
static const uint64_t CALLS_A_FOLD = 100000;

/* How many bytes more than before the first call may be in use after a checkpoint. The lists of an
 * object's readers and versions keep the space that they once needed. A byte for each call would be
 * far more. */
static const size_t SLACK = 65536;

/* Reads and sets this many records. */
static void touch(store *it, uint64_t *draws, const store_action *action, int count) {
    for (int at = 0; at < count; at++) {
        uint32_t object = draws_below(draws, RECORDS);
        int64_t number = 0;
        /* There is one thread, so each lock is free. */
        store_get(it, action, object, &number);
        store_set(it, action, object, number + 1);
    }
}

static void turn(store *it, uint64_t *draws) {
    store_action top = store_begin_top(it);
    touch(it, draws, &top, 5);
    store_action sub = store_begin_sub(it, &top);
    touch(it, draws, &sub, 4);
    store_commit(it, &sub);
    sub = store_begin_sub(it, &top);
    touch(it, draws, &sub, 4);
    store_abort(it, &sub);
    store_commit(it, &top);
}

/* How many bytes malloc has handed out and not got back. */
static size_t in_use(void) {
    struct mallinfo2 info = mallinfo2();
    return info.uordblks + info.hblkhd;
}

/* Makes the calls up to the next checkpoint, and the checkpoint. Returns the bytes in use after it,
 * and sets *before to those before it. */
static size_t fold_after(store *it, uint64_t *draws, uint64_t calls, size_t *before) {
    for (uint64_t made = 0; made < calls; made += CALLS_A_TURN) turn(it, draws);
    *before = in_use();
    store_fold(it);
    return in_use();
}

int stress(uint64_t calls) {
    store records;
    uint64_t draws = 42;
    size_t most = 0, most_after = 0;
    store_open(&records, 0);
    for (int at = 0; at < RECORDS; at++) store_declare(&records, 0);
    size_t start = in_use();
    double begin = clock_seconds();
    for (uint64_t made = 0; made < calls; made += CALLS_A_FOLD) {
        size_t before, after = fold_after(&records, &draws, CALLS_A_FOLD, &before);
        if (before > most) most = before;
        if (after > most_after) most_after = after;
    }
    double taken = clock_seconds() - begin, entries = (double)store_entries(&records);
    int64_t sum = 0;
    for (uint32_t object = 0; object < RECORDS; object++) sum += store_base(&records, object);
    fprintf(stderr, "%.0f calls in %.1f s, %.0f a second\n", entries, taken, entries / taken);
    fprintf(stderr, "bytes in use: %zu before the first call, %zu at most before a checkpoint, %zu at most after one\n",
            start, most, most_after);
    int is_given_back = most_after <= start + SLACK;
    printf("entries %.0f, sum %" PRId64 ", memory %s\n", entries, sum, is_given_back ? "given back" : "held");
    store_close(&records);
    return is_given_back ? 0 : 1;
}
