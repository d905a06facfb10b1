/* The modes of the host. Each function returns the exit status of the process. */
#ifndef MODES_H
#define MODES_H

#include <stdint.h>

/* A bank: each of four threads carries out this many orders, with audits beside them. */
int bank(uint32_t orders);

/* Makes this many calls, with a checkpoint now and then, and checks the memory in use after each
 * checkpoint. */
int stress(uint64_t calls);

/* The flat work of crates/argus_bench: this many turns, with their time and their sum, call by
 * call, or with one list of calls for each topaction. */
int flat(uint32_t turns, int is_listed);

/* Tests of lists of calls. */
int each(void);

/* Tests that each status of the header is returned. */
int statuses(void);

/* Tests of values and contents, written and read by argus_values.h. */
int values(void);

/* Calls inside calls, of a handler and of a thread without the mutex, three times for so many seconds. */
int inside(uint32_t seconds);

/* Two threads call one guardian without a mutex, one after the other: a program's mistake, which
 * ThreadSanitizer reports. Returns 0 if it isn't reported. */
int careless(void);

/* Tests of the store and of the header. Returns 0 if all pass. */
int tests(void);

#endif
