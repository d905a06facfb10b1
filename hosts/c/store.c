/* A guardian that threads share. A call that returns another status than expected ends the process;
 * a call whose lock isn't free waits for it. */
#include "store.h"

#include <inttypes.h>
#include <stdio.h>
#include <stdlib.h>
#include <string.h>
#include <time.h>

/* Some thirty years: whoever is willing to wait for longer, also for ever, waits as long as that. */
static const double LONGEST_PATIENCE = 1e9;

/* Ends the process if the call returned another status. */
static int64_t expect(argus_answer answer, uint32_t status, const char *what) {
    if (answer.status != status) {
        fprintf(stderr, "%s: %s, number %" PRId64 "\n", what, argus_answer_name(answer), answer.number);
        exit(1);
    }
    return answer.number;
}

static void be_had(int error, const char *what) {
    if (error != 0) {
        fprintf(stderr, "%s: error %d\n", what, error);
        exit(1);
    }
}

/* A condition variable whose timeouts use the monotonic clock, which nobody sets. */
static void make_condition(pthread_cond_t *it) {
    pthread_condattr_t how;
    be_had(pthread_condattr_init(&how), "condition");
    be_had(pthread_condattr_setclock(&how, CLOCK_MONOTONIC), "condition");
    be_had(pthread_cond_init(it, &how), "condition");
    pthread_condattr_destroy(&how);
}

void store_open(store *it, int64_t fold_after) {
    *it = (store){.guardian = ARGUS_CLOSED, .fold_after = fold_after, .patience = 1};
    expect(argus_open(&it->guardian), ARGUS_DONE, "open");
    be_had(pthread_mutex_init(&it->lock, NULL), "mutex");
    make_condition(&it->ended);
}

void store_close(store *it) {
    expect(argus_close(&it->guardian), ARGUS_DONE, "close");
    pthread_cond_destroy(&it->ended);
    pthread_mutex_destroy(&it->lock);
}

/* The integer in the text of the last call or question, which is 7 or {7}. */
static int64_t number_told(argus_guardian *guardian) {
    char room[32];
    int64_t size = expect(argus_reply(guardian, room, sizeof room - 1), ARGUS_DONE, "reply");
    room[size] = '\0';
    return strtoll(room[0] == '{' ? room + 1 : room, NULL, 10);
}

uint32_t store_declare(store *it, int64_t number) {
    char content[32];
    snprintf(content, sizeof content, "{%" PRId64 "}", number);
    pthread_mutex_lock(&it->lock);
    argus_guardian *guardian = &it->guardian;
    uint32_t object = (uint32_t)expect(argus_declare(guardian, "atomic_record[n:int]"), ARGUS_OBJECT, "declare");
    uint32_t top = (uint32_t)expect(argus_begin_top(guardian), ARGUS_ACTION, "begin");
    expect(argus_alter(guardian, top, object, ARGUS_CREATE, 0, 0, content), ARGUS_DONE, "create");
    expect(argus_commit(guardian, top), ARGUS_DONE, "commit");
    pthread_mutex_unlock(&it->lock);
    return object;
}

/* Half of the numbers that a guardian has for actions. */
enum { HALF_OF_ACTIONS = 500000 };

/* A fold was made. Where half of the numbers for actions are used, they begin anew. The mutex is held. */
static void note_fold(store *it) {
    if (expect(argus_actions(&it->guardian), ARGUS_NUMBER, "actions") >= HALF_OF_ACTIONS)
        expect(argus_renew(&it->guardian), ARGUS_DONE, "renew");
    it->folded_at = expect(argus_entries(&it->guardian), ARGUS_NUMBER, "entries");
    pthread_cond_broadcast(&it->ended);
}

/* Folds the journal if it has grown by fold_after entries. It waits until all live topactions have
 * ended; until then no topaction begins. The mutex is held. */
static void fold_where_due(store *it) {
    argus_answer answer;
    while (it->is_folding) pthread_cond_wait(&it->ended, &it->lock);
    int64_t entries = expect(argus_entries(&it->guardian), ARGUS_NUMBER, "entries");
    if (it->fold_after == 0 || entries - it->folded_at < it->fold_after) return;
    it->is_folding = 1;
    while ((answer = argus_checkpoint(&it->guardian)).status == ARGUS_BUSY)
        pthread_cond_wait(&it->ended, &it->lock);
    expect(answer, ARGUS_DONE, "checkpoint");
    it->is_folding = 0;
    note_fold(it);
}

store_action store_begin_top(store *it) {
    pthread_mutex_lock(&it->lock);
    fold_where_due(it);
    int64_t number = expect(argus_begin_top(&it->guardian), ARGUS_ACTION, "begin");
    pthread_mutex_unlock(&it->lock);
    return (store_action){(uint32_t)number, NULL};
}

store_action store_begin_sub(store *it, const store_action *parent) {
    pthread_mutex_lock(&it->lock);
    int64_t number = expect(argus_begin_sub(&it->guardian, parent->number), ARGUS_ACTION, "begin");
    pthread_mutex_unlock(&it->lock);
    return (store_action){(uint32_t)number, parent};
}

void store_commit(store *it, const store_action *action) {
    pthread_mutex_lock(&it->lock);
    expect(argus_commit(&it->guardian, action->number), ARGUS_DONE, "commit");
    pthread_cond_broadcast(&it->ended);
    pthread_mutex_unlock(&it->lock);
}

void store_abort(store *it, const store_action *action) {
    pthread_mutex_lock(&it->lock);
    expect(argus_abort(&it->guardian, action->number), ARGUS_DONE, "abort");
    pthread_cond_broadcast(&it->ended);
    pthread_mutex_unlock(&it->lock);
}

/* The text of the last question. The caller frees it. */
static char *text_told(argus_guardian *guardian) {
    argus_answer answer = argus_reply(guardian, NULL, 0);
    char *text = malloc((size_t)answer.number + 1);
    be_had(text == NULL, "memory");
    expect(argus_reply(guardian, text, (size_t)answer.number), ARGUS_DONE, "reply");
    text[answer.number] = '\0';
    return text;
}

/* Whether this is the number of the action, or of one of its ancestors. */
static int is_in_lineage(uint32_t number, const store_action *action) {
    while (action != NULL && action->number != number) action = action->parent;
    return action != NULL;
}

static const char *next_line(const char *line) {
    const char *end = strchr(line, '\n');
    return end == NULL ? "" : end + 1;
}

/* Whether each of the two, to write, has to wait for a read lock of the other's. The readers are a
 * line each, such as a7. */
static int wait_for_each_other(const store_action *one, const store_action *other, const char *readers) {
    int is_first_held = 0, is_second_held = 0;
    for (const char *line = readers; *line == 'a'; line = next_line(line)) {
        uint32_t reader = (uint32_t)strtoul(line + 1, NULL, 10);
        int is_of_one = is_in_lineage(reader, one), is_of_other = is_in_lineage(reader, other);
        is_first_held |= is_of_other && !is_of_one;
        is_second_held |= is_of_one && !is_of_other;
    }
    return is_first_held && is_second_held;
}

/* Whether a writer that waits for the object, and this action, would wait for each other. */
static int is_in_vain(store *it, const store_action *action, uint32_t object) {
    int is_found = 0;
    if (it->writing == NULL) return 0;
    expect(argus_readers(&it->guardian, object), ARGUS_TEXT, "readers");
    char *readers = text_told(&it->guardian);
    for (const store_writer *one = it->writing; one != NULL; one = one->next)
        is_found |= one->object == object && wait_for_each_other(one->action, action, readers);
    free(readers);
    return is_found;
}

/* Whether the lock is free for the action. The question is ARGUS_CAN_READ or ARGUS_CAN_WRITE. */
static int may_be_had(store *it, uint32_t question, const store_action *action, uint32_t object) {
    return expect(argus_tell(&it->guardian, question, action->number, object, 0), ARGUS_FLAG, "question") != 0;
}

/* Waits until the lock is free. Returns 0 if patience ends first. */
static int wait_until_had(store *it, uint32_t question, const store_action *action, uint32_t object) {
    struct timespec limit;
    clock_gettime(CLOCK_MONOTONIC, &limit);
    double patience = it->patience < LONGEST_PATIENCE ? it->patience : LONGEST_PATIENCE;
    int64_t nanos = limit.tv_nsec + (int64_t)(patience * 1e9);
    limit.tv_sec += (time_t)(nanos / 1000000000);
    limit.tv_nsec = (long)(nanos % 1000000000);
    while (!may_be_had(it, question, action, object))
        if (pthread_cond_timedwait(&it->ended, &it->lock, &limit) != 0)
            return may_be_had(it, question, action, object);
    return 1;
}

static void leave(store *it, const store_writer *writer) {
    store_writer **at = &it->writing;
    while (*at != writer) at = &(*at)->next;
    *at = writer->next;
}

/* Waits until the write lock is free. Returns 0 if patience ends first, or if two would wait for
 * each other. */
static int wait_to_write(store *it, const store_action *action, uint32_t object) {
    if (is_in_vain(it, action, object)) return 0;
    store_writer writer = {action, object, it->writing};
    it->writing = &writer;
    int is_had = wait_until_had(it, ARGUS_CAN_WRITE, action, object);
    leave(it, &writer);
    return is_had;
}

static int is_conflict(argus_answer answer) {
    return answer.status == ARGUS_REFUSED && answer.number == ARGUS_CONFLICT;
}

/* Makes a change, maybe by a number. If the lock isn't free, waits for it and tries once more. */
static int alter(store *it, const store_action *action, uint32_t object, uint32_t change, int64_t number) {
    pthread_mutex_lock(&it->lock);
    argus_answer answer = argus_alter(&it->guardian, action->number, object, change, 0, number, NULL);
    if (is_conflict(answer) && wait_to_write(it, action, object))
        answer = argus_alter(&it->guardian, action->number, object, change, 0, number, NULL);
    int is_had = !is_conflict(answer);
    if (is_had) expect(answer, ARGUS_DONE, "change");
    pthread_mutex_unlock(&it->lock);
    return is_had;
}

int store_lock(store *it, const store_action *action, uint32_t object) {
    return alter(it, action, object, ARGUS_TOUCH, 0);
}

int store_set(store *it, const store_action *action, uint32_t object, int64_t number) {
    return alter(it, action, object, ARGUS_SET_FIELD_INT, number);
}

int store_get(store *it, const store_action *action, uint32_t object, int64_t *number) {
    pthread_mutex_lock(&it->lock);
    argus_answer answer = argus_ask(&it->guardian, action->number, object, ARGUS_FIELD, 0);
    if (is_conflict(answer) && wait_until_had(it, ARGUS_CAN_READ, action, object))
        answer = argus_ask(&it->guardian, action->number, object, ARGUS_FIELD, 0);
    int is_had = !is_conflict(answer);
    if (is_had) *number = expect(answer, ARGUS_NUMBER, "get");
    pthread_mutex_unlock(&it->lock);
    return is_had;
}

int64_t store_base(store *it, uint32_t object) {
    pthread_mutex_lock(&it->lock);
    expect(argus_base(&it->guardian, object), ARGUS_TEXT, "base");
    int64_t number = number_told(&it->guardian);
    pthread_mutex_unlock(&it->lock);
    return number;
}

int64_t store_entries(store *it) {
    pthread_mutex_lock(&it->lock);
    int64_t number = expect(argus_entries(&it->guardian), ARGUS_NUMBER, "entries");
    pthread_mutex_unlock(&it->lock);
    return number;
}

void store_fold(store *it) {
    pthread_mutex_lock(&it->lock);
    expect(argus_checkpoint(&it->guardian), ARGUS_DONE, "checkpoint");
    note_fold(it);
    pthread_mutex_unlock(&it->lock);
}
