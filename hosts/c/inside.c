/* Calls inside calls: a handler each half millisecond, and a thread without the mutex, make calls while the guardian is
 * inside one. Each is refused as ARGUS_REENTERED or has its own answer, and so has the call that is under way. */
#include "argus.h"
#include "clock.h"
#include "modes.h"

#include <inttypes.h>
#include <pthread.h>
#include <signal.h>
#include <stdatomic.h>
#include <stdio.h>
#include <string.h>
#include <sys/time.h>

/* A record that one party alone uses, and how often its number was committed one higher. */
typedef struct owned {
    uint32_t object;
    int64_t number;
    char text[32]; /* as the library writes it */
} owned;

static argus_guardian shared = ARGUS_CLOSED;
static owned mine, others;
static atomic_int is_over;
static atomic_long calls_inside, reentered, wrong;
static const char *volatile first_wrong;

/* Notes what isn't as it should be. A handler may call this. */
static void want(int is_so, const char *what) {
    if (is_so) return;
    if (atomic_fetch_add(&wrong, 1) == 0) first_wrong = what;
}

/* Whether the guardian was held for this; if not, it was inside another call. */
static int hold(argus_guardian *held) {
    argus_answer answer = argus_hold(&shared, held);
    want(answer.status == ARGUS_DONE || answer.status == ARGUS_REENTERED, "argus_hold");
    return answer.status == ARGUS_DONE;
}

/* Whether the text that is kept is this one. */
static int is_reply(argus_guardian *guardian, const char *text) {
    char room[64];
    argus_answer answer = argus_reply(guardian, room, sizeof room);
    size_t size = strlen(text);
    return answer.status == ARGUS_DONE && answer.number == (int64_t)size && memcmp(room, text, size) == 0;
}

/* Reads the text of the record, and sets its number one higher, by a topaction. The guardian is held. */
static void increment(argus_guardian *held, owned *it) {
    char next[24];
    argus_answer top = argus_begin_top(held);
    uint32_t action = (uint32_t)top.number;
    want(top.status == ARGUS_ACTION, "a begin");
    want(argus_ask(held, action, it->object, ARGUS_FIELD, 1).status == ARGUS_VALUE, "a text");
    want(is_reply(held, it->text), "the text is its own");
    argus_answer number = argus_ask(held, action, it->object, ARGUS_FIELD, 0);
    want(number.status == ARGUS_NUMBER && number.number == it->number, "the number is its own");
    snprintf(next, sizeof next, "%" PRId64, it->number + 1);
    want(argus_alter(held, action, it->object, ARGUS_SET_FIELD, 0, 0, next).status == ARGUS_DONE, "a change");
    want(argus_commit(held, action).status == ARGUS_DONE, "a commit");
    it->number++;
}

/* The same by one list of calls. */
static void increment_listed(argus_guardian *held, owned *it) {
    char next[24];
    int size = snprintf(next, sizeof next, "%" PRId64, it->number + 1);
    argus_listed_call calls[] = {
        {.kind = ARGUS_BEGIN_TOP},
        {.kind = ARGUS_FIELD, .begun_by = 1, .object = it->object, .first = 1},
        {.kind = ARGUS_SET_FIELD, .begun_by = 1, .object = it->object, .text = next, .text_size = (size_t)size},
        {.kind = ARGUS_COMMIT, .begun_by = 1},
    };
    char line[40];
    snprintf(line, sizeof line, "%s\n", it->text);
    argus_answer made = argus_call_each(held, calls, 4);
    want(made.status == ARGUS_DONE && made.number == 4, "a list");
    want(is_reply(held, line), "the list's text is its own");
    it->number++;
}

/* The same by a commit in two steps. */
static void increment_ready(argus_guardian *held, owned *it) {
    char next[24], line[64];
    argus_ready ready = ARGUS_NOTHING_READY;
    uint32_t action = (uint32_t)argus_begin_top(held).number;
    snprintf(next, sizeof next, "%" PRId64, it->number + 1);
    want(argus_alter(held, action, it->object, ARGUS_SET_FIELD, 0, 0, next).status == ARGUS_DONE, "a change");
    want(argus_ready_commit(held, &ready, action).status == ARGUS_DONE, "a commit is ready");
    argus_answer size = argus_ready_line(&ready, line, sizeof line);
    want(size.status == ARGUS_DONE && strstr(line, " -> done\n") != NULL, "its line");
    want(argus_make_ready(&ready, held).status == ARGUS_DONE, "it is made");
    it->number++;
}

/* Whether there is a live action, and so no fold, or there was one. */
static int is_folded(argus_answer answer) {
    return answer.status == ARGUS_DONE || answer.status == ARGUS_BUSY;
}

/* Questions, a checkpoint, and the journal's lines. */
static void ask(argus_guardian *held, owned *it) {
    char base[64], room[256];
    uint64_t count = 0;
    argus_answer entries = argus_entries(held);
    int size = snprintf(base, sizeof base, "{%" PRId64 ",%s}", it->number, it->text);
    want(argus_base(held, it->object).status == ARGUS_TEXT, "a base");
    want(size > 0 && is_reply(held, base), "the base is its own");
    want(argus_lines(held, (uint64_t)entries.number, room, sizeof room, &count).status == ARGUS_DONE, "the lines");
    want(count == 0, "no line comes after the last");
    want(is_folded(argus_checkpoint(held)), "a checkpoint");
    if (argus_actions(held).number > 500000) want(is_folded(argus_renew(held)), "a renewal");
}

/* One turn of a party on its record, if the guardian isn't inside a call. Returns whether it isn't. */
static int turn(owned *it, unsigned which) {
    static void (*const turns[])(argus_guardian *, owned *) = {increment, increment_listed, increment_ready, ask};
    argus_guardian held = ARGUS_CLOSED;
    if (!hold(&held)) return 0;
    turns[which % 4](&held, it);
    want(argus_release(&shared, &held).status == ARGUS_DONE, "argus_release");
    return 1;
}

/* What a call on the handle itself returns inside another call. */
static void be_refused(void) {
    argus_listed_call none;
    argus_guardian held = ARGUS_CLOSED;
    char room[8];
    size_t bytes, lines;
    uint64_t count;
    want(argus_begin_top(&shared).status == ARGUS_REENTERED, "argus_call");
    want(argus_call_each(&shared, &none, 0).status == ARGUS_REENTERED, "argus_call_each");
    want(argus_objects(&shared).status == ARGUS_REENTERED, "argus_tell");
    want(argus_reply(&shared, room, sizeof room).status == ARGUS_REENTERED, "argus_reply");
    want(argus_lines(&shared, 0, room, sizeof room, &count).status == ARGUS_REENTERED, "argus_lines");
    want(argus_checkpoint(&shared).status == ARGUS_REENTERED, "argus_checkpoint");
    want(argus_renew(&shared).status == ARGUS_REENTERED, "argus_renew");
    want(argus_abort_live(&shared).status == ARGUS_REENTERED, "argus_abort_live");
    want(argus_resume(&shared, room, 0, &bytes, &lines).status == ARGUS_REENTERED, "argus_resume");
    want(argus_resumed(&shared).status == ARGUS_REENTERED, "argus_resumed");
    want(argus_open(&shared).status == ARGUS_REENTERED, "argus_open");
    want(argus_open_beside(&held, &shared).status == ARGUS_REENTERED, "argus_open_beside an inside one");
    want(argus_open_beside(&shared, &held).status == ARGUS_REENTERED, "argus_open_beside into an inside one");
    want(argus_close(&shared).status == ARGUS_REENTERED, "argus_close");
    want(held.mark == 0, "the other handle is as it was");
}

/* A commit that is ready, and a call inside a call on it: both handles stay as they are. */
static void be_refused_when_ready(void) {
    argus_guardian closed = ARGUS_CLOSED;
    argus_ready ready = ARGUS_NOTHING_READY, inside = {ARGUS_HELD, NULL};
    char room[8];
    want(argus_ready_commit(&shared, &ready, 0).status == ARGUS_REENTERED, "argus_ready_commit");
    want(argus_ready_commit(&closed, &inside, 0).status == ARGUS_REENTERED, "argus_ready_commit into an inside one");
    want(argus_ready_line(&inside, room, sizeof room).status == ARGUS_REENTERED, "argus_ready_line");
    want(argus_make_ready(&inside, &closed).status == ARGUS_REENTERED, "argus_make_ready");
    want(argus_make_ready(&ready, &shared).status == ARGUS_REENTERED, "argus_make_ready into an inside one");
    want(argus_cancel_ready(&inside, &closed).status == ARGUS_REENTERED, "argus_cancel_ready");
    want(ready.mark == 0 && closed.mark == 0 && inside.mark == ARGUS_HELD, "the handles are as they were");
}

/* argus_hold and argus_release, and what they return. */
static void hold_and_release(void) {
    argus_guardian held = ARGUS_CLOSED, closed = ARGUS_CLOSED;
    want(argus_release(&shared, &held).status == ARGUS_OCCUPIED, "nothing is held");
    want(argus_hold(&closed, &held).status == ARGUS_NOT_OPEN && closed.mark == 0, "a closed one isn't held");
    want(argus_hold(NULL, &held).status == ARGUS_NULL && argus_hold(&shared, NULL).status == ARGUS_NULL, "null");
    want(argus_release(NULL, &held).status == ARGUS_NULL && argus_release(&shared, NULL).status == ARGUS_NULL, "null");
    want(argus_hold(&shared, &held).status == ARGUS_DONE, "it is held");
    want(argus_hold(&shared, &closed).status == ARGUS_REENTERED && closed.mark == 0, "once");
    want(argus_hold(&shared, &held).status == ARGUS_OCCUPIED, "into an empty handle");
    be_refused();
    be_refused_when_ready();
    want(argus_c_checkpoint(&shared) == ARGUS_NOT_OPEN, "the exports take it for closed");
    want(argus_objects(&held).number == 2, "the held one can be used");
    want(argus_release(&shared, &held).status == ARGUS_DONE && held.mark == 0, "it is given back");
    want(argus_objects(&shared).number == 2, "and can be used");
}

static void handle(int number) {
    static unsigned which;
    (void)number;
    atomic_fetch_add(&calls_inside, 1);
    if (turn(&others, which++)) return;
    atomic_fetch_add(&reentered, 1);
    be_refused();
}

static void *without_mutex(void *none) {
    for (unsigned which = 0; !atomic_load(&is_over); which++) {
        atomic_fetch_add(&calls_inside, 1);
        if (!turn(&others, which)) atomic_fetch_add(&reentered, 1);
    }
    return none;
}

static void make_owned(owned *it, const char *text, int64_t number) {
    char content[64];
    snprintf(it->text, sizeof it->text, "%s", text);
    snprintf(content, sizeof content, "{%" PRId64 ",%s}", number, text);
    it->number = number;
    it->object = (uint32_t)argus_declare(&shared, "atomic_record[n:int,t:text]").number;
    uint32_t top = (uint32_t)argus_begin_top(&shared).number;
    want(argus_alter(&shared, top, it->object, ARGUS_CREATE, 0, 0, content).status == ARGUS_DONE, "a creation");
    want(argus_commit(&shared, top).status == ARGUS_DONE, "its commit");
}

/* Makes turns for so long: each call on the guardian is one that may be interrupted. */
static void work(double seconds) {
    double end = clock_seconds() + seconds;
    for (unsigned which = 0; clock_seconds() < end; which++) turn(&mine, which);
}

/* Calls by themselves: each is held alone, so that a handler may come between them. */
static void work_by_calls(double seconds) {
    double end = clock_seconds() + seconds;
    while (clock_seconds() < end) {
        argus_answer top = argus_begin_top(&shared), number;
        want(top.status == ARGUS_ACTION, "a begin by itself");
        for (int again = 0; again < 20; again++) {
            number = argus_ask(&shared, (uint32_t)top.number, mine.object, ARGUS_FIELD, 0);
            want(number.status == ARGUS_NUMBER && number.number == mine.number, "a number by itself");
        }
        want(argus_abort(&shared, (uint32_t)top.number).status == ARGUS_DONE, "an abort by itself");
    }
}

/* Whether each party's record has what it committed. The count of refused calls begins again. */
static void look(const char *what) {
    int is_some = atomic_exchange(&reentered, 0) > 0, is_right = 1;
    long inside = atomic_exchange(&calls_inside, 0);
    for (int at = 0; at < 2; at++) {
        char base[64];
        owned *it = at == 0 ? &mine : &others;
        snprintf(base, sizeof base, "{%" PRId64 ",%s}", it->number, it->text);
        argus_base(&shared, it->object);
        is_right &= is_reply(&shared, base);
    }
    want(is_right, "what was committed is there");
    want(is_some, "some calls were refused");
    fprintf(stderr, "inside: %s, %ld calls inside, %ld wrong\n", what, inside, atomic_load(&wrong));
}

static void with_handler(void (*calls)(double), double seconds, const char *what) {
    struct itimerval period = {{0, 500}, {0, 500}}, none = {{0, 0}, {0, 0}};
    struct sigaction action = {.sa_handler = handle, .sa_flags = SA_RESTART}, before;
    sigaction(SIGALRM, &action, &before);
    setitimer(ITIMER_REAL, &period, NULL);
    calls(seconds);
    setitimer(ITIMER_REAL, &none, NULL);
    sigaction(SIGALRM, &before, NULL);
    look(what);
}

static void with_thread(double seconds) {
    pthread_t other;
    atomic_store(&is_over, 0);
    if (pthread_create(&other, NULL, without_mutex, NULL) != 0) {
        want(0, "a thread");
        return;
    }
    work(seconds);
    atomic_store(&is_over, 1);
    pthread_join(other, NULL);
    look("a thread without the mutex");
}

int inside(uint32_t seconds) {
    want(argus_open(&shared).status == ARGUS_DONE, "open");
    make_owned(&mine, "\"aaaaaaaa\"", 0);
    make_owned(&others, "\"bbbbbbbb\"", 1000);
    hold_and_release();
    with_handler(work, seconds, "a handler each half millisecond, calls with their replies");
    with_handler(work_by_calls, seconds, "a handler each half millisecond, calls by themselves");
    with_thread(seconds);
    want(argus_close(&shared).status == ARGUS_DONE, "close");
    if (atomic_load(&wrong) != 0) fprintf(stderr, "inside: not as it should be: %s\n", first_wrong);
    return atomic_load(&wrong) != 0;
}
