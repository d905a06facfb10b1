/* What libargus.a and libargus.so have beside the proved archive: the functions of argus.h that aren't its exports, for
 * programs in C and for bindings. tools/dist.sh compiles this file. Nothing in it is proved. */
#include "argus.h"

#include <pthread.h>
#include <stdlib.h>

static argus_answer argus_answer_of(uint32_t status, int64_t number) {
    argus_answer answer;
    answer.status = status;
    answer.number = number;
    return answer;
}

/* ThreadSanitizer's, if the program is compiled for it. The library isn't: so it says by itself that each call writes to
 * its handle, and two threads that are in one guardian at the same time are a race that the sanitizer sees. */
extern void __tsan_write4(void *at) __attribute__((weak));

/* Sets a mark to ARGUS_HELD, in one step, into which neither a handler nor a thread comes. Returns what it was. */
static uint32_t argus_hold_mark(uint32_t *mark) {
    if (__tsan_write4 != NULL) __tsan_write4(mark);
    return __atomic_exchange_n(mark, (uint32_t)ARGUS_HELD, __ATOMIC_ACQUIRE);
}

/* Moves what a handle has into one that only this call knows. Returns 0 if it is inside another call. */
static int argus_enter(argus_guardian *guardian, argus_guardian *held) {
    held->mark = argus_hold_mark(&guardian->mark);
    if (held->mark == ARGUS_HELD) return 0;
    held->at = guardian->at;
    return 1;
}

/* Moves it back. */
static void argus_leave(argus_guardian *guardian, const argus_guardian *held) {
    guardian->at = held->at;
    __atomic_store_n(&guardian->mark, held->mark, __ATOMIC_RELEASE);
}

/* The same for a guardian whose commit is ready. */
static int argus_enter_ready(argus_ready *ready, argus_ready *held) {
    held->mark = argus_hold_mark(&ready->mark);
    if (held->mark == ARGUS_HELD) return 0;
    held->at = ready->at;
    return 1;
}

static void argus_leave_ready(argus_ready *ready, const argus_ready *held) {
    ready->at = held->at;
    __atomic_store_n(&ready->mark, held->mark, __ATOMIC_RELEASE);
}

/* The same for a call that was read. */
static int argus_enter_parsed(argus_parsed *parsed, argus_parsed *held) {
    held->mark = argus_hold_mark(&parsed->mark);
    if (held->mark == ARGUS_HELD) return 0;
    held->at = parsed->at;
    return 1;
}

static void argus_leave_parsed(argus_parsed *parsed, const argus_parsed *held) {
    parsed->at = held->at;
    __atomic_store_n(&parsed->mark, held->mark, __ATOMIC_RELEASE);
}

/* The same for a guardian and what is ready of it. */
static int argus_enter_both(argus_guardian *guardian, argus_guardian *held, argus_ready *ready,
                            argus_ready *held_ready) {
    if (!argus_enter(guardian, held)) return 0;
    if (argus_enter_ready(ready, held_ready)) return 1;
    argus_leave(guardian, held);
    return 0;
}

static void argus_leave_both(argus_guardian *guardian, const argus_guardian *held, argus_ready *ready,
                             const argus_ready *held_ready) {
    argus_leave_ready(ready, held_ready);
    argus_leave(guardian, held);
}

argus_answer argus_hold(argus_guardian *guardian, argus_guardian *held) {
    argus_guardian moved;
    if (guardian == NULL || held == NULL) return argus_answer_of(ARGUS_NULL, 0);
    if (held->mark == 1) return argus_answer_of(ARGUS_OCCUPIED, 0);
    if (!argus_enter(guardian, &moved)) return argus_answer_of(ARGUS_REENTERED, 0);
    if (moved.mark != 1) {
        argus_leave(guardian, &moved);
        return argus_answer_of(ARGUS_NOT_OPEN, 0);
    }
    *held = moved;
    return argus_answer_of(ARGUS_DONE, 0);
}

argus_answer argus_release(argus_guardian *guardian, argus_guardian *held) {
    argus_guardian moved;
    if (guardian == NULL || held == NULL) return argus_answer_of(ARGUS_NULL, 0);
    if (__atomic_load_n(&guardian->mark, __ATOMIC_RELAXED) == 1) return argus_answer_of(ARGUS_OCCUPIED, 0);
    if (!argus_enter(held, &moved)) return argus_answer_of(ARGUS_REENTERED, 0);
    held->mark = 0;
    argus_leave(guardian, &moved);
    return argus_answer_of(ARGUS_DONE, 0);
}

/* Each heap has a word that is never freed (docs/DECISIONS.md, "A budget's word is never freed").
 * So all guardians share the word of this one, which stays open and reachable from here
 * as long as the process runs. */
static argus_guardian first = ARGUS_CLOSED;
static pthread_mutex_t turn = PTHREAD_MUTEX_INITIALIZER;

static uint32_t argus_open_beside_first(argus_guardian *held) {
    argus_guardian none = ARGUS_CLOSED;
    uint32_t status = ARGUS_DONE;
    pthread_mutex_lock(&turn);
    if (first.mark != 1) status = argus_c_open(&first, &none);
    if (status == ARGUS_DONE) status = argus_c_open(held, &first);
    pthread_mutex_unlock(&turn);
    return status;
}

argus_answer argus_open(argus_guardian *guardian) {
    argus_guardian held;
    uint32_t status;
    if (guardian == NULL) return argus_answer_of(ARGUS_NULL, 0);
    if (!argus_enter(guardian, &held)) return argus_answer_of(ARGUS_REENTERED, 0);
    status = argus_open_beside_first(&held);
    argus_leave(guardian, &held);
    return argus_answer_of(status, 0);
}

argus_answer argus_open_beside(argus_guardian *guardian, argus_guardian *other) {
    argus_guardian held, beside;
    uint32_t status = ARGUS_REENTERED;
    if (guardian == NULL || other == NULL) return argus_answer_of(ARGUS_NULL, 0);
    if (guardian == other) return argus_answer_of(ARGUS_NOT_OPEN, 0);
    if (!argus_enter(guardian, &held)) return argus_answer_of(ARGUS_REENTERED, 0);
    if (argus_enter(other, &beside)) {
        status = beside.mark == 1 ? argus_c_open(&held, &beside) : (uint32_t)ARGUS_NOT_OPEN;
        argus_leave(other, &beside);
    }
    argus_leave(guardian, &held);
    return argus_answer_of(status, 0);
}

argus_answer argus_close(argus_guardian *guardian) {
    argus_guardian held;
    uint32_t status;
    if (guardian == NULL) return argus_answer_of(ARGUS_NULL, 0);
    if (!argus_enter(guardian, &held)) return argus_answer_of(ARGUS_REENTERED, 0);
    status = argus_c_close(&held);
    argus_leave(guardian, &held);
    return argus_answer_of(status, 0);
}

argus_answer argus_call(argus_guardian *guardian, uint32_t kind, uint32_t action, uint32_t object,
                        int64_t first, int64_t second, const void *text, size_t text_size) {
    argus_guardian held;
    int64_t number = 0;
    uint32_t status;
    static const uint8_t empty[1] = {0};
    if (guardian == NULL || (text == NULL && text_size != 0)) return argus_answer_of(ARGUS_NULL, 0);
    if (!argus_enter(guardian, &held)) return argus_answer_of(ARGUS_REENTERED, 0);
    status = argus_c_call(&held, kind, action, object, first, second, text == NULL ? empty : (const uint8_t *)text,
                          text_size, &number);
    argus_leave(guardian, &held);
    return argus_answer_of(status, number);
}

argus_answer argus_parse(argus_parsed *parsed, uint32_t kind, uint32_t action, uint32_t object, int64_t first_number,
                         int64_t second, const void *text, size_t text_size) {
    argus_parsed held;
    /* Whose memory the call is put into. */
    argus_guardian beside = ARGUS_CLOSED;
    int64_t number = 0;
    uint32_t status;
    static const uint8_t empty[1] = {0};
    if (parsed == NULL || (text == NULL && text_size != 0)) return argus_answer_of(ARGUS_NULL, 0);
    if (!argus_enter_parsed(parsed, &held)) return argus_answer_of(ARGUS_REENTERED, 0);
    status = argus_open_beside_first(&beside);
    if (status == ARGUS_DONE)
        status = argus_c_parse(&beside, &held, kind, action, object, first_number, second,
                               text == NULL ? empty : (const uint8_t *)text, text_size, &number);
    argus_c_close(&beside);
    argus_leave_parsed(parsed, &held);
    return argus_answer_of(status, number);
}

argus_answer argus_call_parsed(argus_guardian *guardian, argus_parsed *parsed) {
    argus_guardian held;
    argus_parsed held_call;
    int64_t number = 0;
    uint32_t status = ARGUS_REENTERED;
    if (guardian == NULL || parsed == NULL) return argus_answer_of(ARGUS_NULL, 0);
    if (!argus_enter(guardian, &held)) return argus_answer_of(ARGUS_REENTERED, 0);
    if (argus_enter_parsed(parsed, &held_call)) {
        status = argus_c_call_parsed(&held, &held_call, &number);
        argus_leave_parsed(parsed, &held_call);
    }
    argus_leave(guardian, &held);
    return argus_answer_of(status, number);
}

argus_answer argus_drop_parsed(argus_parsed *parsed) {
    argus_parsed held;
    uint32_t status;
    if (parsed == NULL) return argus_answer_of(ARGUS_NULL, 0);
    if (!argus_enter_parsed(parsed, &held)) return argus_answer_of(ARGUS_REENTERED, 0);
    status = argus_c_drop_parsed(&held);
    argus_leave_parsed(parsed, &held);
    return argus_answer_of(status, 0);
}

/* Points each text that is null at an empty one. Returns how many calls come before the first that has a null text
 * with a size. */
static size_t argus_texts_given(argus_listed_call *calls, size_t count) {
    static const uint8_t empty[1] = {0};
    size_t at;
    for (at = 0; at < count; at++) {
        if (calls[at].text == NULL && calls[at].text_size != 0) break;
        if (calls[at].text == NULL) calls[at].text = empty;
    }
    return at;
}

argus_answer argus_call_each(argus_guardian *guardian, argus_listed_call *calls, size_t count) {
    argus_guardian held;
    static argus_listed_call none;
    size_t made = 0, given;
    uint32_t status;
    if (guardian == NULL || (calls == NULL && count != 0)) return argus_answer_of(ARGUS_NULL, 0);
    if (!argus_enter(guardian, &held)) return argus_answer_of(ARGUS_REENTERED, 0);
    given = argus_texts_given(calls, count);
    status = argus_c_call_each(&held, calls == NULL ? &none : calls, given, &made);
    argus_leave(guardian, &held);
    if (status == ARGUS_DONE && given < count) {
        status = ARGUS_NULL;
        calls[given].status = ARGUS_NULL;
        calls[given].number = 0;
    }
    return argus_answer_of(status, (int64_t)made);
}

argus_answer argus_tell(argus_guardian *guardian, uint32_t question, uint32_t action, uint32_t object,
                        uint64_t entry) {
    argus_guardian held;
    int64_t number = 0;
    uint32_t status;
    if (guardian == NULL) return argus_answer_of(ARGUS_NULL, 0);
    if (!argus_enter(guardian, &held)) return argus_answer_of(ARGUS_REENTERED, 0);
    status = argus_c_tell(&held, question, action, object, entry, &number);
    argus_leave(guardian, &held);
    return argus_answer_of(status, number);
}

argus_answer argus_abort_live(argus_guardian *guardian) {
    argus_guardian held;
    uint32_t status;
    if (guardian == NULL) return argus_answer_of(ARGUS_NULL, 0);
    if (!argus_enter(guardian, &held)) return argus_answer_of(ARGUS_REENTERED, 0);
    status = argus_c_abort_live(&held);
    argus_leave(guardian, &held);
    return argus_answer_of(status, 0);
}

argus_answer argus_checkpoint(argus_guardian *guardian) {
    argus_guardian held;
    uint32_t status;
    if (guardian == NULL) return argus_answer_of(ARGUS_NULL, 0);
    if (!argus_enter(guardian, &held)) return argus_answer_of(ARGUS_REENTERED, 0);
    status = argus_c_checkpoint(&held);
    argus_leave(guardian, &held);
    return argus_answer_of(status, 0);
}

argus_answer argus_renew(argus_guardian *guardian) {
    argus_guardian held;
    uint32_t status;
    if (guardian == NULL) return argus_answer_of(ARGUS_NULL, 0);
    if (!argus_enter(guardian, &held)) return argus_answer_of(ARGUS_REENTERED, 0);
    status = argus_c_renew(&held);
    argus_leave(guardian, &held);
    return argus_answer_of(status, 0);
}

argus_answer argus_resume(argus_guardian *guardian, const void *text, size_t text_size, size_t *bytes,
                          size_t *lines) {
    argus_guardian held;
    int64_t number = 0;
    uint32_t status;
    static const uint8_t empty[1] = {0};
    if (guardian == NULL || bytes == NULL || lines == NULL || (text == NULL && text_size != 0))
        return argus_answer_of(ARGUS_NULL, 0);
    if (!argus_enter(guardian, &held)) return argus_answer_of(ARGUS_REENTERED, 0);
    status = argus_c_resume(&held, text == NULL ? empty : (const uint8_t *)text, text_size, bytes, lines, &number);
    argus_leave(guardian, &held);
    return argus_answer_of(status, number);
}

argus_answer argus_resumed(argus_guardian *guardian) {
    argus_guardian held;
    uint64_t dropped = 0;
    uint32_t status;
    if (guardian == NULL) return argus_answer_of(ARGUS_NULL, 0);
    if (!argus_enter(guardian, &held)) return argus_answer_of(ARGUS_REENTERED, 0);
    status = argus_c_resumed(&held, &dropped);
    argus_leave(guardian, &held);
    return argus_answer_of(status, (int64_t)dropped);
}

argus_answer argus_lines(argus_guardian *guardian, uint64_t from, void *room, size_t room_size,
                         uint64_t *count) {
    argus_guardian held;
    size_t size = 0;
    uint32_t status;
    uint8_t none[1];
    if (guardian == NULL || count == NULL || (room == NULL && room_size != 0)) return argus_answer_of(ARGUS_NULL, 0);
    if (!argus_enter(guardian, &held)) return argus_answer_of(ARGUS_REENTERED, 0);
    status = argus_c_lines(&held, from, room == NULL ? none : (uint8_t *)room, room_size, &size, count);
    argus_leave(guardian, &held);
    return argus_answer_of(status, (int64_t)size);
}

uint32_t argus_version(void) {
    return argus_c_version();
}

argus_answer argus_reply(argus_guardian *guardian, void *room, size_t room_size) {
    argus_guardian held;
    size_t size = 0;
    uint32_t status;
    uint8_t none[1];
    if (guardian == NULL || (room == NULL && room_size != 0)) return argus_answer_of(ARGUS_NULL, 0);
    if (!argus_enter(guardian, &held)) return argus_answer_of(ARGUS_REENTERED, 0);
    status = argus_c_reply(&held, room == NULL ? none : (uint8_t *)room, room_size, &size);
    argus_leave(guardian, &held);
    return argus_answer_of(status, (int64_t)size);
}

argus_answer argus_ready_commit(argus_guardian *guardian, argus_ready *ready, uint32_t action) {
    argus_guardian held;
    argus_ready held_ready;
    uint32_t status;
    if (guardian == NULL || ready == NULL) return argus_answer_of(ARGUS_NULL, 0);
    if (!argus_enter_both(guardian, &held, ready, &held_ready)) return argus_answer_of(ARGUS_REENTERED, 0);
    status = argus_c_ready_commit(&held, &held_ready, action);
    argus_leave_both(guardian, &held, ready, &held_ready);
    return argus_answer_of(status, 0);
}

argus_answer argus_ready_line(argus_ready *ready, void *room, size_t room_size) {
    argus_ready held;
    size_t size = 0;
    uint32_t status;
    uint8_t none[1];
    if (ready == NULL || (room == NULL && room_size != 0)) return argus_answer_of(ARGUS_NULL, 0);
    if (!argus_enter_ready(ready, &held)) return argus_answer_of(ARGUS_REENTERED, 0);
    status = argus_c_ready_line(&held, room == NULL ? none : (uint8_t *)room, room_size, &size);
    argus_leave_ready(ready, &held);
    return argus_answer_of(status, (int64_t)size);
}

argus_answer argus_make_ready(argus_ready *ready, argus_guardian *guardian) {
    argus_guardian held;
    argus_ready held_ready;
    int64_t number = 0;
    uint32_t status;
    if (ready == NULL || guardian == NULL) return argus_answer_of(ARGUS_NULL, 0);
    if (!argus_enter_both(guardian, &held, ready, &held_ready)) return argus_answer_of(ARGUS_REENTERED, 0);
    status = argus_c_make_ready(&held_ready, &held, &number);
    argus_leave_both(guardian, &held, ready, &held_ready);
    return argus_answer_of(status, number);
}

argus_answer argus_cancel_ready(argus_ready *ready, argus_guardian *guardian) {
    argus_guardian held;
    argus_ready held_ready;
    uint32_t status;
    if (ready == NULL || guardian == NULL) return argus_answer_of(ARGUS_NULL, 0);
    if (!argus_enter_both(guardian, &held, ready, &held_ready)) return argus_answer_of(ARGUS_REENTERED, 0);
    status = argus_c_cancel_ready(&held_ready, &held);
    argus_leave_both(guardian, &held, ready, &held_ready);
    return argus_answer_of(status, 0);
}

/* The text of an object's shape, in new memory, which the caller frees; NULL at another status than ARGUS_DONE. */
static char *shape_of(argus_guardian *held, uint32_t object, size_t *size, uint32_t *status) {
    int64_t number;
    uint8_t none[1];
    char *shape;
    *status = argus_c_tell(held, ARGUS_SHAPE, 0, object, 0, &number);
    if (*status != ARGUS_TEXT) return NULL;
    *status = argus_c_reply(held, none, 0, size);
    if (*status != ARGUS_TOO_SMALL) return NULL;
    shape = malloc(*size);
    *status = shape == NULL ? (uint32_t)ARGUS_NO_MEMORY : argus_c_reply(held, (uint8_t *)shape, *size, size);
    if (*status == ARGUS_DONE) return shape;
    free(shape);
    return NULL;
}

/* Which of a shape's own names this is, from 0 on, as in atomic_record[balance:int,owner:struct[name:text]]; or -1. */
static int64_t place_in(const char *shape, size_t size, const char *name) {
    size_t length = strlen(name), at, depth = 0;
    int64_t place = 0;
    int begins = 0;
    for (at = 0; at < size; at++) {
        if (begins && size - at > length && memcmp(shape + at, name, length) == 0 && shape[at + length] == ':')
            return place;
        if (shape[at] == '[') depth++;
        if (shape[at] == ']') depth--;
        place += shape[at] == ',' && depth == 1;
        begins = depth == 1 && (shape[at] == '[' || shape[at] == ',');
    }
    return -1;
}

argus_answer argus_field(argus_guardian *guardian, uint32_t object, const char *name) {
    argus_guardian held;
    size_t size = 0;
    uint32_t status;
    int64_t place;
    char *shape;
    if (guardian == NULL || name == NULL) return argus_answer_of(ARGUS_NULL, 0);
    if (!argus_enter(guardian, &held)) return argus_answer_of(ARGUS_REENTERED, 0);
    shape = shape_of(&held, object, &size, &status);
    argus_leave(guardian, &held);
    if (status != ARGUS_DONE) return argus_answer_of(status, 0);
    place = place_in(shape, size, name);
    free(shape);
    return place < 0 ? argus_answer_of(ARGUS_NOT_THERE, 0) : argus_answer_of(ARGUS_NUMBER, place);
}
