/* A bank over a log, for the tests of logs: **this is the part to copy**. */
#ifndef LOG_BANK_H
#define LOG_BANK_H

#include "argus_log.h"

#include <pthread.h>
#include <stdint.h>

/* Objects 0 to 2 are accounts, which have 100 at first; each client has the number of its last order behind them. */
enum { ACCOUNTS = 3, CLIENTS = 4, OBJECTS = ACCOUNTS + CLIENTS, BALANCE = 100 };

typedef struct bank {
    argus_guardian guardian;
    pthread_mutex_t lock;
    argus_log *log;
} bank;

/* Opens the bank's log, or makes a new one. Ends the process if that can't be done. */
void bank_open(bank *it, const char *path);
void bank_close(bank *it);

/* Opens the log in a file alone; the status. */
uint32_t bank_open_log(bank *it, const char *path, const argus_log_options *options);

/* Carries out an order, which pays 1 from one account to the next, in the guardian; how many entries there are then. */
uint64_t bank_begin_order(bank *it, uint32_t client, int64_t number);

/* The same, and returns when it is on disk; the status. */
uint32_t bank_order(bank *it, uint32_t client, int64_t number);

/* The number in an object's base. */
int64_t bank_number(bank *it, uint32_t object);

/* Whether the accounts have what these clients' orders have left in them. */
int bank_is_right(bank *it);

/* Ends the process if this doesn't hold. */
void want(int is_so, const char *what);

/* Ends the process if the answer isn't this one; its number. */
int64_t want_answer(argus_answer answer, uint32_t status, const char *what);

/* Ends the process unless the log says this. */
void want_words(argus_log *log, const char *words);

#endif
