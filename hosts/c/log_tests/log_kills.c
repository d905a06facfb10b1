/* A bank that is killed under load, with checkpoints and openings under way: no acknowledged order is lost or doubled,
 * and none is there in part. */
#include "log_bank.h"
#include "log_modes.h"

#include <inttypes.h>
#include <signal.h>
#include <stdio.h>
#include <stdlib.h>
#include <sys/wait.h>
#include <unistd.h>

enum { FOLD_AFTER = 60 };

typedef struct client {
    bank *bank;
    uint32_t number;
    int pipe;
} client;

static void *serve(void *argument) {
    client *it = argument;
    for (int64_t number = bank_number(it->bank, ACCOUNTS + it->number) + 1;; number++) {
        want(bank_order(it->bank, it->number, number) == ARGUS_DONE, "an order is acknowledged");
        int64_t said[2] = {it->number, number};
        if (write(it->pipe, said, sizeof said) != sizeof said) exit(1);
    }
    return NULL;
}

/* The process that is killed: it says which orders are acknowledged. */
static void serve_all(const char *path, uint32_t count, int pipe) {
    bank it;
    client clients[CLIENTS];
    pthread_t thread;
    bank_open(&it, path);
    for (uint32_t n = 0; n < count; n++) {
        clients[n] = (client){&it, n, pipe};
        want(pthread_create(&thread, NULL, serve, &clients[n]) == 0, "a thread begins");
    }
    for (;;) {
        uint64_t begun = argus_log_counted(it.log).next_entry;
        while (argus_log_counted(it.log).next_entry < begun + FOLD_AFTER) usleep(1000);
        want_answer(argus_log_checkpoint(it.log), ARGUS_DONE, "checkpoint");
    }
}

/* One in five is killed while it opens the log. */
static useconds_t delay_of(int64_t kill_number) {
    return (useconds_t)(kill_number % 5 == 0 ? 100 * (kill_number % 97) : 15000 + 37000 * kill_number % 250000);
}

/* How many orders it has acknowledged before it was killed. */
static int64_t kill_once(const char *path, uint32_t count, int64_t kill_number, int64_t *acknowledged) {
    int ends[2], status;
    int64_t said[2], orders = 0;
    want(pipe(ends) == 0, "a pipe");
    pid_t child = fork();
    if (child == 0) serve_all(path, count, ends[1]);
    close(ends[1]);
    usleep(delay_of(kill_number));
    kill(child, SIGKILL);
    for (; read(ends[0], said, sizeof said) == sizeof said; orders++) acknowledged[said[0]] = said[1];
    close(ends[0]);
    want(waitpid(child, &status, 0) == child && WIFSIGNALED(status), "it was killed, and didn't fail before");
    return orders;
}

/* By the last order of each client, as far as it is acknowledged. */
static int check(bank *it, int64_t *acknowledged) {
    for (uint32_t n = 0; n < CLIENTS; n++) {
        int64_t standing = bank_number(it, ACCOUNTS + n);
        want(standing >= acknowledged[n], "no acknowledged order is lost");
        want(standing <= acknowledged[n] + 1, "none is there that wasn't sent");
        acknowledged[n] = standing;
    }
    want(bank_is_right(it), "orders are whole");
    return argus_first_entry(&it->guardian).number > 0;
}

int log_kills(const char *path, int64_t kills, uint32_t count) {
    int64_t acknowledged[CLIENTS] = {0}, orders = 0, total = 0, folded = 0;
    want(count <= CLIENTS, "no more clients than the bank has");
    for (int64_t n = 0; n < kills; n++) {
        bank it;
        orders += kill_once(path, count, n, acknowledged);
        bank_open(&it, path);
        folded += check(&it, acknowledged);
        bank_close(&it);
    }
    for (uint32_t n = 0; n < CLIENTS; n++) total += acknowledged[n];
    want(total > 0, "orders were carried out");
    printf("%" PRId64 " kills, %" PRIu32 " clients: %" PRId64 " orders acknowledged, %" PRId64 " carried out; %" PRId64
           " logs began with an opening\n",
           kills, count, orders, total, folded);
    return 0;
}
