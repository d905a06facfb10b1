/* The modes of the tests of logs. Each function returns the exit status of the process; each path is one of a file that
 * isn't there yet, and a few beside it. */
#ifndef LOG_MODES_H
#define LOG_MODES_H

#include <stdint.h>

/* What the calls of a log do. */
int log_calls(const char *path);

/* What is wrong with a database is told, each fault by its own status, and nothing is changed then. */
int log_faults(const char *path);

/* A bank with so many clients is killed so often. */
int log_kills(const char *path, int64_t kills, uint32_t clients);

/* Each allocation of an opening, of orders, of checkpoints and of a backup is refused. */
int log_memory(const char *path);

/* Carries out orders of a client, up to this one, in a log that is there or not; prints what the accounts have. */
int log_orders(const char *path, int64_t last);

/* Makes a checkpoint. */
int log_fold(const char *path);

/* Has the log until the standard input ends. */
int log_hold(const char *path);

#endif
