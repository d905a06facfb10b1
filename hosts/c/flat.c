/* The flat work of crates/argus_bench: a topaction reads and sets 4 of 1,000 records, in 10 calls,
 * which are made one by one or as a list. The calls, their order and the sum are the same as there,
 * so the difference in time is the cost of calling through C. There is no mutex. */
#include "argus.h"
#include "clock.h"
#include "draws.h"
#include "modes.h"
#include "store.h"

#include <inttypes.h>
#include <stdio.h>
#include <stdlib.h>

enum { RECORDS = 1000, STEP = 251 };

/* The number of an answer. Ends the process if the status is another one. */
static int64_t number_of(argus_answer answer, uint32_t status) {
    if (answer.status != status) {
        fprintf(stderr, "flat: %s\n", argus_answer_name(answer));
        exit(1);
    }
    return answer.number;
}

static int64_t get(argus_guardian *guardian, uint32_t action, uint32_t object) {
    return number_of(argus_ask(guardian, action, object, ARGUS_FIELD, 0), ARGUS_NUMBER);
}

static int64_t turn(argus_guardian *guardian, uint64_t *draws, int64_t number) {
    uint32_t object = draws_below(draws, RECORDS);
    int64_t sum = 0;
    uint32_t top = (uint32_t)number_of(argus_begin_top(guardian), ARGUS_ACTION);
    for (int place = 0; place < 4; place++) {
        sum += get(guardian, top, object);
        number_of(argus_call(guardian, ARGUS_SET_FIELD_INT, top, object, 0, 4 * number + place, NULL, 0), ARGUS_DONE);
        object = (object + STEP) % RECORDS;
    }
    number_of(argus_commit(guardian, top), ARGUS_DONE);
    return sum;
}

/* The sum of the integers that a list has read. */
static int64_t sum_read(const argus_listed_call *calls, size_t count) {
    int64_t sum = 0;
    for (size_t place = 0; place < count; place++)
        if (calls[place].status == ARGUS_NUMBER) sum += calls[place].number;
    return sum;
}

/* The same turn as one list of calls. */
static int64_t turn_listed(argus_guardian *guardian, uint64_t *draws, int64_t number) {
    argus_listed_call calls[10] = {{.kind = ARGUS_BEGIN_TOP}};
    uint32_t object = draws_below(draws, RECORDS);
    for (int place = 0; place < 4; place++) {
        calls[2 * place + 1] = (argus_listed_call){.kind = ARGUS_FIELD, .begun_by = 1, .object = object};
        calls[2 * place + 2] = (argus_listed_call){.kind = ARGUS_SET_FIELD_INT, .begun_by = 1, .object = object,
                                                   .second = 4 * number + place};
        object = (object + STEP) % RECORDS;
    }
    calls[9] = (argus_listed_call){.kind = ARGUS_COMMIT, .begun_by = 1};
    number_of(argus_call_each(guardian, calls, 10), ARGUS_DONE);
    return sum_read(calls, 10);
}

/* The sum of the committed integers, each times its record's place from 1 on. */
static int64_t weigh(argus_guardian *guardian) {
    int64_t sum = 0;
    uint32_t top = (uint32_t)number_of(argus_begin_top(guardian), ARGUS_ACTION);
    for (uint32_t object = 0; object < RECORDS; object++) sum += get(guardian, top, object) * (object + 1);
    number_of(argus_commit(guardian, top), ARGUS_DONE);
    return sum;
}

int flat(uint32_t turns, int is_listed) {
    store records;
    uint64_t draws = 42;
    int64_t sum = 0;
    store_open(&records, 0);
    for (int at = 0; at < RECORDS; at++) store_declare(&records, 0);
    double begin = clock_seconds();
    for (uint32_t number = 0; number < turns; number++) {
        argus_guardian *guardian = &records.guardian;
        sum += is_listed ? turn_listed(guardian, &draws, number) : turn(guardian, &draws, number);
    }
    double nanos = (clock_seconds() - begin) * 1e9;
    sum += weigh(&records.guardian);
    printf("flat turns n=%" PRIu32 " ns_each=%.1f sum=%" PRId64 "\n", turns, turns ? nanos / turns : 0.0, sum);
    store_close(&records);
    return 0;
}
