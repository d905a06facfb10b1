/* A bank over a log. An order is a topaction with a subaction, a transfer; it also sets the number of the client's last
 * order. So what the accounts hold follows from these numbers. */
#include "log_bank.h"

#include <inttypes.h>
#include <stdio.h>
#include <stdlib.h>
#include <string.h>

static const char SHAPE[] = "atomic_record[n:int]";
static const char *const NAMES[OBJECTS] = {"first", "second", "third", "ann", "bob", "cyd", "dan"};

void want(int is_so, const char *what) {
    if (is_so) return;
    fprintf(stderr, "not so: %s\n", what);
    exit(1);
}

int64_t want_answer(argus_answer answer, uint32_t status, const char *what) {
    if (answer.status == status) return answer.number;
    fprintf(stderr, "%s: %s, %" PRId64 "\n", what, argus_log_status_name(answer.status), answer.number);
    exit(1);
}

void want_words(argus_log *log, const char *words) {
    char said[1024];
    argus_log_words(log, said, sizeof said);
    if (strstr(said, words) != NULL) return;
    fprintf(stderr, "not so: the log says `%s`; it said: %s\n", words, said);
    exit(1);
}

uint32_t bank_open_log(bank *it, const char *path, const argus_log_options *options) {
    *it = (bank){.guardian = ARGUS_CLOSED, .lock = PTHREAD_MUTEX_INITIALIZER};
    it->log = argus_log_new(&it->guardian, &it->lock);
    return it->log == NULL ? (uint32_t)ARGUS_NO_MEMORY : argus_log_open(it->log, path, options).status;
}

static void create_all(bank *it) {
    uint32_t top = (uint32_t)want_answer(argus_begin_top(&it->guardian), ARGUS_ACTION, "begin");
    for (uint32_t object = 0; object < OBJECTS; object++) {
        const char *content = object < ACCOUNTS ? "{100}" : "{0}";
        want_answer(argus_alter(&it->guardian, top, object, ARGUS_CREATE, 0, 0, content), ARGUS_DONE, "create");
    }
    want_answer(argus_log_commit(it->log, top), ARGUS_DONE, "commit");
}

static int is_created(bank *it) {
    char room[32];
    want_answer(argus_base(&it->guardian, 0), ARGUS_TEXT, "base");
    want_answer(argus_reply(&it->guardian, room, sizeof room), ARGUS_DONE, "reply");
    return room[0] == '{';
}

void bank_open(bank *it, const char *path) {
    uint32_t status = bank_open_log(it, path, NULL);
    if (status == ARGUS_LOG_NO_LOG) {
        want_answer(argus_log_create(it->log, path), ARGUS_DONE, "create");
        status = argus_log_open(it->log, path, NULL).status;
    }
    if (status != ARGUS_DONE) {
        char words[1024];
        argus_log_words(it->log, words, sizeof words);
        fprintf(stderr, "%s: %s\n", argus_log_status_name(status), words);
        exit(1);
    }
    for (int64_t object = argus_objects(&it->guardian).number; object < OBJECTS; object++)
        want_answer(argus_log_declare_named(it->log, NAMES[object], SHAPE), ARGUS_OBJECT, "declare");
    if (!is_created(it)) create_all(it);
}

void bank_close(bank *it) {
    argus_log_free(it->log);
    argus_close(&it->guardian);
    pthread_mutex_destroy(&it->lock);
}

static int64_t get(bank *it, uint32_t action, uint32_t object) {
    return want_answer(argus_ask(&it->guardian, action, object, ARGUS_FIELD, 0), ARGUS_NUMBER, "field");
}

static void set(bank *it, uint32_t action, uint32_t object, int64_t number) {
    want_answer(argus_alter(&it->guardian, action, object, ARGUS_SET_FIELD_INT, 0, number, NULL), ARGUS_DONE, "set");
}

/* Takes the locks of an order. */
static void lock_all(bank *it, uint32_t top, uint32_t last, uint32_t from, uint32_t to) {
    const uint32_t objects[] = {last, from < to ? from : to, from < to ? to : from};
    for (int at = 0; at < 3; at++) want_answer(argus_lock(&it->guardian, top, objects[at]), ARGUS_DONE, "lock");
}

uint64_t bank_begin_order(bank *it, uint32_t client, int64_t number) {
    uint32_t from = (uint32_t)(number % ACCOUNTS), to = (uint32_t)((number + 1) % ACCOUNTS);
    pthread_mutex_lock(&it->lock);
    uint32_t top = (uint32_t)want_answer(argus_begin_top(&it->guardian), ARGUS_ACTION, "begin");
    lock_all(it, top, ACCOUNTS + client, from, to);
    uint32_t sub = (uint32_t)want_answer(argus_begin_sub(&it->guardian, top), ARGUS_ACTION, "begin");
    set(it, sub, from, get(it, sub, from) - 1);
    set(it, sub, to, get(it, sub, to) + 1);
    want_answer(argus_commit(&it->guardian, sub), ARGUS_DONE, "commit");
    set(it, top, ACCOUNTS + client, number);
    want_answer(argus_commit(&it->guardian, top), ARGUS_DONE, "commit");
    uint64_t entries = (uint64_t)argus_entries(&it->guardian).number;
    pthread_mutex_unlock(&it->lock);
    return entries;
}

uint32_t bank_order(bank *it, uint32_t client, int64_t number) {
    return argus_log_wait(it->log, bank_begin_order(it, client, number)).status;
}

int64_t bank_number(bank *it, uint32_t object) {
    char room[32];
    pthread_mutex_lock(&it->lock);
    want_answer(argus_base(&it->guardian, object), ARGUS_TEXT, "base");
    int64_t size = want_answer(argus_reply(&it->guardian, room, sizeof room - 1), ARGUS_DONE, "reply");
    pthread_mutex_unlock(&it->lock);
    room[size] = '\0';
    return strtoll(room + 1, NULL, 10);
}

int bank_is_right(bank *it) {
    int64_t wanted[ACCOUNTS] = {BALANCE, BALANCE, BALANCE};
    int is_right = 1;
    for (uint32_t client = 0; client < CLIENTS; client++) {
        /* Of three orders in a row nothing is left in any account. */
        for (int64_t last = bank_number(it, ACCOUNTS + client), number = last - last % ACCOUNTS + 1; number <= last;
             number++) {
            wanted[number % ACCOUNTS]--;
            wanted[(number + 1) % ACCOUNTS]++;
        }
    }
    for (uint32_t object = 0; object < ACCOUNTS; object++) is_right &= bank_number(it, object) == wanted[object];
    return is_right;
}
