/* A guardian that threads share: a mutex around each call, and a condition variable that is
 * signalled when an action ends. */
#ifndef STORE_H
#define STORE_H

#include "argus.h"

#include <pthread.h>
#include <stdint.h>

/* An action, and its parent if it is a subaction, otherwise NULL. Don't move the parent while this
 * one is live. */
typedef struct store_action {
    uint32_t number;
    const struct store_action *parent;
} store_action;

/* An action that waits to write an object. */
typedef struct store_writer {
    const store_action *action;
    uint32_t object;
    struct store_writer *next;
} store_writer;

typedef struct store {
    argus_guardian guardian;
    pthread_mutex_t lock;  /* held around each call, and the reply that belongs to it */
    pthread_cond_t ended;  /* signalled after each commit, each abort and each fold */
    double patience;       /* how many seconds an access waits for its lock at most; one at first. INFINITY: for
                            * ever */
    int64_t fold_after;    /* the journal is folded after this many entries; 0: never by itself */
    int64_t folded_at;     /* how many entries there were at the last fold */
    int is_folding;        /* a fold waits until no action is live, and no topaction begins */
    store_writer *writing; /* the actions that wait to write */
} store;

/* Opens a guardian, with its mutex and its condition variable. Each call here ends the process if
 * the reply isn't the one that it expects: a program that goes on after running out of memory has
 * to test the status itself. */
void store_open(store *it, int64_t fold_after);
void store_close(store *it);

/* Declares a record of one integer, and creates it by a topaction of its own. */
uint32_t store_declare(store *it, int64_t number);

/* Begins an action. Before a topaction the journal is folded if that is due, and actions are numbered
 * from 0 again if half of the numbers are used. This waits until all live topactions have ended, so
 * don't begin a topaction in a thread that has a live action. */
store_action store_begin_top(store *it);
store_action store_begin_sub(store *it, const store_action *parent);

/* Ends an action, and wakes the threads that wait. */
void store_commit(store *it, const store_action *action);
void store_abort(store *it, const store_action *action);

/* Each of these takes a lock, which the action keeps to its end, and waits for it until patience
 * ends. It returns 0 if it didn't get the lock, and then nothing was done: abort the topaction, and
 * begin it again. The action is the caller's own, and live: no other thread ends it.
 *
 * Two topactions wait for each other in one of two ways. Both have read an object, and both want to
 * write it: then the second is refused at once. If an action will write what it reads, call
 * store_lock before it reads; then they take turns. Or each has locked what the other wants: take
 * locks in one order, such as by the number of the object. If that isn't possible, both wait until
 * patience ends. */

/* Takes the write lock. */
int store_lock(store *it, const store_action *action, uint32_t object);

/* Reads a record's integer, with a read lock, which others may have too. */
int store_get(store *it, const store_action *action, uint32_t object, int64_t *number);

/* Sets a record's integer, with the write lock. */
int store_set(store *it, const store_action *action, uint32_t object, int64_t number);

/* A record's base: what the committed topactions have left in it. */
int64_t store_base(store *it, uint32_t object);

/* How many entries the journal has had since actions were numbered from 0. */
int64_t store_entries(store *it);

/* Folds the journal. No action may be live. */
void store_fold(store *it);

#endif
