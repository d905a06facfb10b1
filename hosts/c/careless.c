/* A mistake that a program may make, for tools/hosts_memory.sh: two threads call one guardian
 * without a mutex. */
#include "argus.h"
#include "modes.h"

#include <pthread.h>
#include <stdatomic.h>
#include <stdio.h>

/* Set when it is the second thread's turn. A relaxed atomic orders no other access, so the two
 * calls are a data race, although they aren't made at the same time. */
static atomic_int turn;

static void *begin_second(void *guardian) {
    while (atomic_load_explicit(&turn, memory_order_relaxed) == 0) continue;
    argus_begin_top(guardian);
    return NULL;
}

int careless(void) {
    argus_guardian guardian = ARGUS_CLOSED;
    pthread_t other;
    if (argus_open(&guardian).status != ARGUS_DONE) return 1;
    if (pthread_create(&other, NULL, begin_second, &guardian) != 0) return 1;
    argus_begin_top(&guardian);
    atomic_store_explicit(&turn, 1, memory_order_relaxed);
    pthread_join(other, NULL);
    printf("two actions were begun, by two threads without a mutex\n");
    return argus_close(&guardian).status == ARGUS_DONE ? 0 : 1;
}
