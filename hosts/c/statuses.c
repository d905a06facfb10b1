/* Each status, signal and refusal of argus.h, returned once, and null pointers passed to the
 * functions that look for them. Those of lists are left out: each.c tests them. */
#include "argus.h"
#include "modes.h"

#include <inttypes.h>
#include <stdio.h>
#include <stdlib.h>
#include <string.h>
#include <sys/resource.h>
#include <sys/wait.h>
#include <unistd.h>

/* Ends the process if this doesn't hold. */
static void want(int is_so, const char *what) {
    if (!is_so) {
        fprintf(stderr, "statuses: not as it should be: %s\n", what);
        exit(1);
    }
}

static void want_answer(argus_answer answer, uint32_t status, int64_t number, const char *what) {
    if (answer.status != status || answer.number != number)
        fprintf(stderr, "statuses: %s %" PRId64 "\n", argus_status_name(answer.status), answer.number);
    want(answer.status == status && answer.number == number, what);
}

/* A call with its text, and the status and the number of its answer. */
typedef struct step {
    uint32_t kind, action, object;
    int64_t first, second;
    const char *text;
    uint32_t status;
    int64_t number;
} step;

static const step STEPS[] = {
    {ARGUS_DECLARE, 0, 0, 0, 0, "atomic_record[n:int,is:bool,t:text]", ARGUS_OBJECT, 0},
    {ARGUS_DECLARE, 0, 0, 0, 0, "atomic_array[int]", ARGUS_OBJECT, 1},
    {ARGUS_DECLARE, 0, 0, 0, 0, "atomic_variant[no:null,yes:int]", ARGUS_OBJECT, 2},
    {ARGUS_BEGIN_TOP, 0, 0, 0, 0, "", ARGUS_ACTION, 0},
    {ARGUS_CREATE, 0, 0, 0, 0, "{5,true,\"a\"}", ARGUS_DONE, 0},
    {ARGUS_FIELD, 0, 0, 0, 0, "", ARGUS_NUMBER, 5},
    {ARGUS_FIELD, 0, 0, 1, 0, "", ARGUS_FLAG, 1},
    {ARGUS_FIELD, 0, 0, 2, 0, "", ARGUS_VALUE, 0},
    {ARGUS_WHOLE, 0, 0, 0, 0, "", ARGUS_CONTENT, 0},
    {ARGUS_SIZE, 0, 1, 0, 0, "", ARGUS_SIGNAL, ARGUS_ABSENT},
    {ARGUS_CREATE, 0, 1, 0, 0, "1[10]", ARGUS_DONE, 0},
    {ARGUS_CREATE, 0, 1, 0, 0, "1[]", ARGUS_SIGNAL, ARGUS_EXISTS},
    {ARGUS_FETCH, 0, 1, 9, 0, "", ARGUS_SIGNAL, ARGUS_BOUNDS},
    {ARGUS_TRIM, 0, 1, 1, -1, "", ARGUS_SIGNAL, ARGUS_NEGATIVE_SIZE},
    {ARGUS_SET_LOW, 0, 1, INT64_C(4294967296), 0, "", ARGUS_SIGNAL, ARGUS_LIMITS},
    {ARGUS_CREATE, 0, 2, 0, 0, "<0:null>", ARGUS_DONE, 0},
    {ARGUS_TAG_VALUE, 0, 2, 1, 0, "", ARGUS_SIGNAL, ARGUS_WRONG_TAG},
    {ARGUS_COMMIT, 7, 0, 0, 0, "", ARGUS_REFUSED, ARGUS_NO_ACTION},
    {ARGUS_BEGIN_SUB, 0, 0, 0, 0, "", ARGUS_ACTION, 1},
    {ARGUS_FIELD, 0, 0, 0, 0, "", ARGUS_REFUSED, ARGUS_SUSPENDED},
    {ARGUS_FIELD, 1, 9, 0, 0, "", ARGUS_REFUSED, ARGUS_NO_OBJECT},
    {ARGUS_FIELD, 1, 1, 0, 0, "", ARGUS_REFUSED, ARGUS_ILL_TYPED},
    {ARGUS_BEGIN_TOP, 0, 0, 0, 0, "", ARGUS_ACTION, 2},
    {ARGUS_FIELD, 2, 0, 0, 0, "", ARGUS_REFUSED, ARGUS_CONFLICT},
    {ARGUS_ABORT_OTHERS, 2, 0, 0, 0, "", ARGUS_REFUSED, ARGUS_NO_SIBLINGS},
    {ARGUS_ABORT, 2, 0, 0, 0, "", ARGUS_DONE, 0},
    {ARGUS_COMMIT, 2, 0, 0, 0, "", ARGUS_REFUSED, ARGUS_OVER},
    {ARGUS_DECLARE, 0, 0, 0, 0, "int", ARGUS_BAD_SHAPE, 0},
    {ARGUS_SET_FIELD, 1, 0, 0, 0, "[1,", ARGUS_BAD_TEXT, 3},
    {ARGUS_SET_FIELD, 1, 0, 0, 0, "\xff", ARGUS_NOT_UTF8, 0},
    {ARGUS_FIELD, 1, 0, 256, 0, "", ARGUS_BAD_NUMBER, 0},
    {ARGUS_CHANGE_TAG_BOOL + 1, 1, 0, 0, 0, "", ARGUS_BAD_KIND, 0},
};

static argus_answer made(argus_guardian *bank, const step *it) {
    return argus_call(bank, it->kind, it->action, it->object, it->first, it->second, it->text, strlen(it->text));
}

static void make_steps(argus_guardian *bank) {
    for (size_t at = 0; at < sizeof STEPS / sizeof STEPS[0]; at++) {
        int64_t entries = argus_entries(bank).number;
        want_answer(made(bank, &STEPS[at]), STEPS[at].status, STEPS[at].number, "a call's answer");
        int is_made = STEPS[at].status <= ARGUS_REFUSED;
        want(argus_entries(bank).number == entries + is_made, "the journal is longer by a call that was made");
    }
}

/* An action may have 64 ancestors, itself included, and a guardian 65,535 objects: one more is
 * refused. */
static void reach_limits(argus_guardian *bank) {
    argus_answer below = argus_begin_top(bank);
    for (int depth = 1; depth < 64; depth++) below = argus_begin_sub(bank, (uint32_t)below.number);
    want_answer(argus_begin_sub(bank, (uint32_t)below.number), ARGUS_REFUSED, ARGUS_TOO_DEEP, "a 65th ancestor");
    while (argus_objects(bank).number < 65535) argus_declare(bank, "atomic_array[int]");
    want_answer(argus_declare(bank, "atomic_array[int]"), ARGUS_REFUSED, ARGUS_TOO_MANY, "a 65,536th object");
}

/* What questions and a reply return. A buffer into which nothing is copied stays as it is. */
static void ask_and_copy(argus_guardian *bank) {
    char room[3] = "???";
    size_t size = 99;
    want_answer(argus_can_read(bank, 1, 0), ARGUS_FLAG, 1, "a lock that may be had");
    want_answer(argus_base(bank, 0), ARGUS_TEXT, 0, "a base");
    want_answer(argus_reply(bank, room, sizeof room), ARGUS_TOO_SMALL, 6, "a room that is too small");
    want(memcmp(room, "???", sizeof room) == 0, "such a room stays as it is");
    want_answer(argus_tell(bank, ARGUS_FIRST_ENTRY + 1, 0, 0, 0), ARGUS_BAD_KIND, 0, "no such question");
    want_answer(argus_entry(bank, 1000000), ARGUS_NOT_THERE, 0, "no such entry");
    want_answer(argus_checkpoint(bank), ARGUS_BUSY, 0, "a checkpoint while an action is live");
    want(argus_begin_top(bank).status == ARGUS_ACTION, "a call whose reply has no text");
    want(argus_c_reply(bank, (uint8_t *)room, sizeof room, &size) == ARGUS_NOT_THERE && size == 0, "no text");
    want(memcmp(room, "???", sizeof room) == 0, "a room without a text stays as it is");
}

/* Checks that the reply is this text. */
static void want_reply(argus_guardian *bank, const char *text) {
    char room[64];
    want_answer(argus_reply(bank, room, sizeof room), ARGUS_DONE, (int64_t)strlen(text), text);
    want(memcmp(room, text, strlen(text)) == 0, text);
}

/* Questions about shapes and actions: a0 and its subaction a1 are live, and a2 was aborted. */
static void ask_of_actions(argus_guardian *bank) {
    want_answer(argus_shape(bank, 2), ARGUS_TEXT, 0, "a shape");
    want_reply(bank, "atomic_variant[no:null,yes:int]");
    want_answer(argus_shape(bank, 9), ARGUS_NOT_THERE, 0, "the shape of no object");
    want_answer(argus_status_of(bank, 1), ARGUS_NUMBER, ARGUS_LIVE, "a live action");
    want_answer(argus_status_of(bank, 2), ARGUS_NUMBER, ARGUS_ABORTED, "one that was aborted");
    want_answer(argus_status_of(bank, 9), ARGUS_NOT_THERE, 0, "one that isn't begun");
    want_answer(argus_first_live(bank, 0), ARGUS_ACTION, 0, "the first live action");
    want_answer(argus_first_live(bank, 1), ARGUS_ACTION, 1, "the next one");
    want_answer(argus_first_live(bank, 2), ARGUS_NOT_THERE, 0, "none from there on");
    want_answer(argus_first_entry(bank), ARGUS_NUMBER, 0, "the first entry");
}

/* The journal's first three lines. */
static const char FIRST_LINES[] = "0 declare atomic_record[n:int,is:bool,t:text] -> o0\n"
                                  "1 declare atomic_array[int] -> o1\n"
                                  "2 declare atomic_variant[no:null,yes:int] -> o2\n";

/* Copies as many whole lines as fit, and leaves the reply as it is. */
static void copy_lines(argus_guardian *bank) {
    char room[sizeof FIRST_LINES];
    uint64_t count = 99, entries = (uint64_t)argus_entries(bank).number;
    size_t first = (size_t)(strchr(FIRST_LINES, '\n') - FIRST_LINES) + 1;
    memset(room, '?', sizeof room);
    want_answer(argus_base(bank, 0), ARGUS_TEXT, 0, "a text that is kept");
    want_answer(argus_lines(bank, 0, room, first - 1, &count), ARGUS_TOO_SMALL, (int64_t)first, "too small a room");
    want(count == 0 && room[0] == '?', "such a room stays as it is");
    want_answer(argus_lines(bank, 0, room, first, &count), ARGUS_DONE, (int64_t)first, "a room for one line");
    want(count == 1 && memcmp(room, FIRST_LINES, first) == 0 && room[first] == '?', "the line is there");
    want_answer(argus_lines(bank, 0, room, sizeof FIRST_LINES - 1, &count), ARGUS_DONE,
                (int64_t)sizeof FIRST_LINES - 1, "a room for three lines");
    want(count == 3 && memcmp(room, FIRST_LINES, sizeof FIRST_LINES - 1) == 0, "they are there");
    want_answer(argus_lines(bank, entries, NULL, 0, &count), ARGUS_DONE, 0, "the journal's end");
    want(count == 0, "no line is there");
    want_answer(argus_lines(bank, entries + 1, room, sizeof room, &count), ARGUS_NOT_THERE, 0, "past its end");
    want_reply(bank, "absent");
}

/* After a renewal objects stay, and entries are numbered on; actions are numbered from 0 again. */
static void begin_anew(argus_guardian *bank) {
    uint64_t count = 99, entries;
    want(argus_begin_top(bank).status == ARGUS_ACTION, "an action");
    want_answer(argus_renew(bank), ARGUS_BUSY, 0, "a renewal while an action is live");
    want_answer(argus_abort_live(bank), ARGUS_DONE, 0, "its abort");
    entries = (uint64_t)argus_entries(bank).number;
    want_answer(argus_renew(bank), ARGUS_DONE, 0, "a renewal");
    want_answer(argus_actions(bank), ARGUS_NUMBER, 0, "no action is begun");
    want_answer(argus_objects(bank), ARGUS_NUMBER, 65535, "all objects are there");
    want_answer(argus_first_entry(bank), ARGUS_NUMBER, (int64_t)entries, "the entries go on");
    want_answer(argus_lines(bank, entries - 1, NULL, 0, &count), ARGUS_NOT_THERE, 0, "a line that is folded away");
    want_answer(argus_begin_top(bank), ARGUS_ACTION, 0, "the first action");
    want_answer(argus_commit(bank, 0), ARGUS_DONE, 0, "its commit");
    want_answer(argus_status_of(bank, 0), ARGUS_NUMBER, ARGUS_COMMITTED, "it has committed");
    want_answer(argus_checkpoint(bank), ARGUS_DONE, 0, "a checkpoint");
    want_answer(argus_status_of(bank, 0), ARGUS_NUMBER, ARGUS_FOLDED, "it is folded");
}

/* Aborts everything live, so that a checkpoint can be made. */
static void abort_all(argus_guardian *bank) {
    want(argus_begin_nested(bank, (uint32_t)argus_begin_top(bank).number).status == ARGUS_ACTION, "a nested topaction");
    want_answer(argus_abort_live(bank), ARGUS_DONE, 0, "an abort of all that is live");
    want_answer(argus_checkpoint(bank), ARGUS_DONE, 0, "a checkpoint after it");
    want_answer(argus_abort_live(bank), ARGUS_DONE, 0, "an abort of nothing");
}

/* Checks that the prepared commit has this line, and that a buffer too small for it stays as it
 * is. */
static void want_line(argus_ready *ready, const char *text) {
    char room[64] = "???";
    int64_t size = (int64_t)strlen(text);
    want_answer(argus_ready_line(ready, room, 3), ARGUS_TOO_SMALL, size, "a room that is too small for the line");
    want(memcmp(room, "???", 4) == 0, "such a room stays as it is");
    want_answer(argus_ready_line(ready, room, sizeof room), ARGUS_DONE, size, text);
    want(memcmp(room, text, strlen(text)) == 0, text);
}

/* A commit in two steps: each status of each step. If a step isn't made, both handles are as
 * before. */
static void commit_in_two_steps(void) {
    argus_guardian bank = ARGUS_CLOSED, other = ARGUS_CLOSED;
    argus_ready ready = ARGUS_NOTHING_READY;
    want_answer(argus_ready_commit(&bank, &ready, 0), ARGUS_NOT_OPEN, 0, "a commit of a closed one");
    want_answer(argus_make_ready(&ready, &bank), ARGUS_NOT_OPEN, 0, "nothing is ready to be made");
    want_answer(argus_cancel_ready(&ready, &bank), ARGUS_NOT_OPEN, 0, "nothing is ready to be cancelled");
    want_answer(argus_ready_line(&ready, NULL, 0), ARGUS_NOT_OPEN, 0, "nothing is ready that has a line");
    want(argus_open(&bank).status == ARGUS_DONE, "opening one");
    want(argus_open_beside(&other, &bank).status == ARGUS_DONE, "and one beside it");
    want_answer(argus_begin_top(&bank), ARGUS_ACTION, 0, "an action");
    want_answer(argus_make_ready(&ready, &bank), ARGUS_NOT_OPEN, 0, "nothing is ready for an open one");
    want_answer(argus_ready_commit(&bank, &ready, 0), ARGUS_DONE, 0, "a commit that is ready");
    want_answer(argus_entries(&bank), ARGUS_NOT_OPEN, 0, "a question meanwhile");
    want_answer(argus_close(&bank), ARGUS_NOT_OPEN, 0, "closing meanwhile");
    want_answer(argus_ready_commit(&other, &ready, 0), ARGUS_OCCUPIED, 0, "a second one that is ready");
    want_answer(argus_make_ready(&ready, &other), ARGUS_OCCUPIED, 0, "made into an open one");
    want_answer(argus_cancel_ready(&ready, &other), ARGUS_OCCUPIED, 0, "cancelled into an open one");
    want_answer(argus_entries(&other), ARGUS_NUMBER, 0, "the other one is as before");
    want_line(&ready, "1 commit a0 -> done\n");
    want_answer(argus_cancel_ready(&ready, &bank), ARGUS_DONE, 0, "cancelled");
    want_answer(argus_entries(&bank), ARGUS_NUMBER, 1, "all is as before");
    want_answer(argus_ready_commit(&bank, &ready, 0), ARGUS_DONE, 0, "ready again");
    want_answer(argus_make_ready(&ready, &bank), ARGUS_DONE, 0, "made");
    want_answer(argus_status_of(&bank, 0), ARGUS_NUMBER, ARGUS_COMMITTED, "it has committed");
    want_answer(argus_ready_commit(&bank, &ready, 0), ARGUS_DONE, 0, "one that is going to be refused");
    want_line(&ready, "2 commit a0 -> refused Over\n");
    want_answer(argus_make_ready(&ready, &bank), ARGUS_REFUSED, ARGUS_OVER, "its refusal");
    want_answer(argus_entries(&bank), ARGUS_NUMBER, 3, "which is an entry");
    want_answer(argus_begin_top(&bank), ARGUS_ACTION, 1, "another action");
    want_answer(argus_ready_commit(&bank, &ready, 1), ARGUS_DONE, 0, "its commit is ready");
    want_line(&ready, "4 commit a1 -> done\n");
    want_answer(argus_cancel_ready(&ready, &bank), ARGUS_DONE, 0, "its commit is cancelled");
    want_answer(argus_status_of(&bank, 1), ARGUS_NUMBER, ARGUS_LIVE, "it is live");
    want(argus_close(&bank).status == ARGUS_DONE && argus_close(&other).status == ARGUS_DONE, "both are closed");
}

/* A line that can't come after the lines before it, and the status that says why. */
typedef struct bad_line {
    const char *before, *line;
    uint32_t status;
    int64_t number;
} bad_line;

static const bad_line BAD_LINES[] = {
    {"0 begin_top -> a0\n", "1 \xff\n", ARGUS_NOT_UTF8, 2},
    {"0 begin_top -> a0\n", "opening entries 1 actions 0\n", ARGUS_NOT_AN_OPENING, 0},
    {"0 begin_top -> a0\n", "1 comit a0 -> done\n", ARGUS_NO_LINE, 5},
    {"0 begin_top -> a0\n", "2 commit a0 -> done\n", ARGUS_NOT_NEXT, 1},
    {"opening entries 4 actions 1\n", "4 begin_sub a0 -> a1\n", ARGUS_NOT_THE_REPLY, 0},
    {"opening entries 4 actions 1\nopening o0 atomic_array[atomic] 1[@1]\n", "4 begin_top -> a1\n", ARGUS_NOT_SOUND, 0},
};

/* The held guardian stays as it is until that of the lines replaces it. */
static void resume_bad_line(argus_guardian *bank, const bad_line *it) {
    char text[128];
    size_t bytes = 99, lines = 99, size = strlen(it->before);
    argus_guardian again = ARGUS_CLOSED;
    snprintf(text, sizeof text, "%s%s", it->before, it->line);
    want(argus_open_beside(&again, bank).status == ARGUS_DONE, "one beside");
    want_answer(argus_begin_top(&again), ARGUS_ACTION, 0, "its action");
    want_answer(argus_resume(&again, text, strlen(text), &bytes, &lines), it->status, it->number, it->line);
    want(bytes == size && lines == (it->status == ARGUS_NOT_SOUND ? 2 : 1), "the lines before it are taken");
    want_answer(argus_entries(&again), ARGUS_NUMBER, 1, "the one that is held");
    if (it->status == ARGUS_NOT_THE_REPLY) want_reply(&again, "refused Over");
    want_answer(argus_resumed(&again), ARGUS_DONE, it->status == ARGUS_NOT_SOUND ? 38 : 0, "the lines' guardian");
    want(argus_entries(&again).number == (it->before[0] == '0' ? 1 : 4), "it has their entries");
    want_answer(argus_close(&again), ARGUS_DONE, 0, "closing it");
}

/* A listing in two pieces, of which the first ends in the middle of a line. After argus_resumed,
 * lines begin from nothing again. */
static void resume_lines(argus_guardian *bank) {
    size_t bytes = 99, lines = 99, size = sizeof FIRST_LINES - 1;
    argus_guardian again = ARGUS_CLOSED;
    want(argus_open_beside(&again, bank).status == ARGUS_DONE, "one beside");
    want_answer(argus_resume(&again, NULL, 0, &bytes, &lines), ARGUS_DONE, 0, "no text");
    want(bytes == 0 && lines == 0, "nothing is taken of it");
    want_answer(argus_resume(&again, FIRST_LINES, size - 1, &bytes, &lines), ARGUS_DONE, 0, "a torn text");
    want(bytes < size - 1 && lines == 2, "its whole lines are taken");
    want_answer(argus_resume(&again, FIRST_LINES + bytes, size - bytes, &bytes, &lines), ARGUS_DONE, 0, "the rest");
    want(lines == 1, "the last line is taken");
    want_answer(argus_resumed(&again), ARGUS_DONE, 0, "the guardian of three lines");
    want_answer(argus_objects(&again), ARGUS_NUMBER, 3, "its objects");
    want_answer(argus_begin_top(&again), ARGUS_ACTION, 0, "it goes on");
    want_answer(argus_resumed(&again), ARGUS_DONE, 0, "the guardian of no line");
    want_answer(argus_objects(&again), ARGUS_NUMBER, 0, "it has no object");
    want_answer(argus_close(&again), ARGUS_DONE, 0, "closing it");
    for (size_t at = 0; at < sizeof BAD_LINES / sizeof BAD_LINES[0]; at++) resume_bad_line(bank, &BAD_LINES[at]);
}

/* A journal whose next entry has a greater number than any from which a journal begins. */
static void be_full(argus_guardian *bank) {
    static const char opening[] = "opening entries 9223372036854775807 actions 0\n";
    size_t bytes = 99, lines = 99;
    argus_guardian full = ARGUS_CLOSED;
    want(argus_open_beside(&full, bank).status == ARGUS_DONE, "one beside");
    want_answer(argus_resume(&full, opening, sizeof opening - 1, &bytes, &lines), ARGUS_DONE, 0, "an opening");
    want_answer(argus_resumed(&full), ARGUS_DONE, 0, "its guardian");
    want_answer(argus_declare(&full, "atomic_array[int]"), ARGUS_OBJECT, 0, "an entry");
    want_answer(argus_checkpoint(&full), ARGUS_FULL, 0, "no journal begins with the next one");
    want_answer(argus_renew(&full), ARGUS_FULL, 0, "nor a guardian");
    want_answer(argus_close(&full), ARGUS_DONE, 0, "closing it");
}

static void be_closed(argus_guardian *bank) {
    size_t size = 99, lines = 99;
    uint64_t count = 99;
    int64_t number = 99;
    uint8_t room[1] = {'?'};
    want_answer(argus_close(bank), ARGUS_DONE, 0, "closing");
    want_answer(argus_close(bank), ARGUS_NOT_OPEN, 0, "closing twice");
    want_answer(argus_begin_top(bank), ARGUS_NOT_OPEN, 0, "a call of a closed one");
    want_answer(argus_objects(bank), ARGUS_NOT_OPEN, 0, "a question of a closed one");
    want_answer(argus_checkpoint(bank), ARGUS_NOT_OPEN, 0, "a checkpoint of a closed one");
    want_answer(argus_abort_live(bank), ARGUS_NOT_OPEN, 0, "an abort of a closed one");
    want_answer(argus_renew(bank), ARGUS_NOT_OPEN, 0, "a renewal of a closed one");
    want_answer(argus_lines(bank, 0, room, 1, &count), ARGUS_NOT_OPEN, 0, "lines of a closed one");
    want(count == 0 && room[0] == '?', "no lines of a closed one");
    want(argus_c_reply(bank, room, 1, &size) == ARGUS_NOT_OPEN && size == 0 && room[0] == '?', "its reply");
    want(argus_open_beside(bank, bank).status == ARGUS_NOT_OPEN, "one beside itself");
    size = 99;
    want(argus_c_resume(bank, room, 1, &size, &lines, &number) == ARGUS_NOT_OPEN, "lines for a closed one");
    want(size == 0 && lines == 0 && number == 0, "none is taken");
    count = 99;
    want(argus_c_resumed(bank, &count) == ARGUS_NOT_OPEN && count == 0, "a guardian in a closed one");
}

static void be_null(argus_guardian *bank) {
    uint64_t count;
    size_t size;
    want(argus_open(NULL).status == ARGUS_NULL, "argus_open");
    want(argus_open_beside(NULL, bank).status == ARGUS_NULL, "argus_open_beside");
    want(argus_open_beside(bank, NULL).status == ARGUS_NULL, "argus_open_beside a null one");
    want(argus_close(NULL).status == ARGUS_NULL, "argus_close");
    want(argus_call(NULL, ARGUS_BEGIN_TOP, 0, 0, 0, 0, NULL, 0).status == ARGUS_NULL, "argus_call");
    want(argus_call(bank, ARGUS_DECLARE, 0, 0, 0, 0, NULL, 1).status == ARGUS_NULL, "argus_call with a null text");
    want(argus_declare(bank, NULL).status == ARGUS_NULL, "argus_declare with a null shape");
    want(argus_tell(NULL, ARGUS_OBJECTS, 0, 0, 0).status == ARGUS_NULL, "argus_tell");
    want(argus_checkpoint(NULL).status == ARGUS_NULL, "argus_checkpoint");
    want(argus_abort_live(NULL).status == ARGUS_NULL, "argus_abort_live");
    want(argus_renew(NULL).status == ARGUS_NULL, "argus_renew");
    want(argus_lines(NULL, 0, NULL, 0, &count).status == ARGUS_NULL, "argus_lines");
    want(argus_lines(bank, 0, NULL, 1, &count).status == ARGUS_NULL, "argus_lines into a null room");
    want(argus_lines(bank, 0, NULL, 0, NULL).status == ARGUS_NULL, "argus_lines with a null count");
    argus_ready ready = ARGUS_NOTHING_READY;
    want(argus_ready_commit(NULL, &ready, 0).status == ARGUS_NULL, "argus_ready_commit");
    want(argus_ready_commit(bank, NULL, 0).status == ARGUS_NULL, "argus_ready_commit into a null one");
    want(argus_ready_line(NULL, NULL, 0).status == ARGUS_NULL, "argus_ready_line");
    want(argus_ready_line(&ready, NULL, 1).status == ARGUS_NULL, "argus_ready_line into a null room");
    want(argus_make_ready(NULL, bank).status == ARGUS_NULL, "argus_make_ready");
    want(argus_make_ready(&ready, NULL).status == ARGUS_NULL, "argus_make_ready into a null one");
    want(argus_cancel_ready(NULL, bank).status == ARGUS_NULL, "argus_cancel_ready");
    want(argus_cancel_ready(&ready, NULL).status == ARGUS_NULL, "argus_cancel_ready into a null one");
    want(argus_resume(NULL, NULL, 0, &size, &size).status == ARGUS_NULL, "argus_resume");
    want(argus_resume(bank, NULL, 1, &size, &size).status == ARGUS_NULL, "argus_resume of a null text");
    want(argus_resume(bank, NULL, 0, NULL, &size).status == ARGUS_NULL, "argus_resume with null bytes");
    want(argus_resume(bank, NULL, 0, &size, NULL).status == ARGUS_NULL, "argus_resume with null lines");
    want(argus_resumed(NULL).status == ARGUS_NULL, "argus_resumed");
    want(argus_reply(NULL, NULL, 0).status == ARGUS_NULL, "argus_reply");
    want(argus_reply(bank, NULL, 1).status == ARGUS_NULL, "argus_reply into a null room");
    want(argus_alter(bank, 0, 0, ARGUS_WHOLE, 0, 0, NULL).status == ARGUS_BAD_KIND, "argus_alter by a query");
    want(argus_ask(bank, 0, 0, ARGUS_TOUCH, 0).status == ARGUS_BAD_KIND, "argus_ask by a change");
    want(argus_list(bank, ARGUS_OBJECTS).status == ARGUS_BAD_KIND, "argus_list by another question");
}

/* In a process that gets no more memory: prepares and makes commits until one can't be prepared.
 * This one changes nothing, and a prepared commit is made without memory. */
static int find_no_memory_for_a_commit(void) {
    argus_guardian bank = ARGUS_CLOSED;
    argus_ready ready = ARGUS_NOTHING_READY;
    struct rlimit none = {0, 0};
    argus_answer answer = argus_open(&bank);
    setrlimit(RLIMIT_AS, &none);
    for (int calls = 0; calls < 1000000 && answer.status == ARGUS_DONE; calls++) {
        int64_t entries = argus_entries(&bank).number;
        answer = argus_ready_commit(&bank, &ready, 7);
        if (answer.status == ARGUS_DONE && argus_make_ready(&ready, &bank).status != ARGUS_REFUSED) return 2;
        if (argus_entries(&bank).number != entries + (answer.status == ARGUS_DONE)) return 3;
    }
    return answer.status == ARGUS_NO_MEMORY && argus_close(&bank).status == ARGUS_DONE ? 0 : 1;
}

/* In a process that gets no more memory: the call that runs out of it changes nothing. */
static int find_no_memory(void) {
    argus_guardian bank = ARGUS_CLOSED;
    struct rlimit none = {0, 0};
    argus_answer answer = argus_open(&bank);
    setrlimit(RLIMIT_AS, &none);
    for (int calls = 0; calls < 1000000 && answer.status <= ARGUS_REFUSED; calls++) {
        int64_t entries = argus_entries(&bank).number;
        answer = argus_begin_top(&bank);
        if (argus_entries(&bank).number != entries + (answer.status <= ARGUS_REFUSED)) return 2;
    }
    return answer.status == ARGUS_NO_MEMORY && answer.number == 0 && argus_close(&bank).status == ARGUS_DONE ? 0 : 1;
}

static void want_memory(int (*find)(void)) {
    int status = 0;
    fflush(NULL);
    pid_t child = fork();
    if (child == 0) _exit(find());
    want(child > 0 && waitpid(child, &status, 0) == child && status == 0, "want of memory");
}

int statuses(void) {
    argus_guardian bank = ARGUS_CLOSED;
    want_memory(find_no_memory);
    want_memory(find_no_memory_for_a_commit);
    commit_in_two_steps();
    want(argus_open(&bank).status == ARGUS_DONE, "opening");
    be_null(&bank);
    make_steps(&bank);
    ask_of_actions(&bank);
    copy_lines(&bank);
    resume_lines(&bank);
    ask_and_copy(&bank);
    reach_limits(&bank);
    abort_all(&bank);
    begin_anew(&bank);
    be_full(&bank);
    be_closed(&bank);
    printf("each status is returned\n");
    return 0;
}
