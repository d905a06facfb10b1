/* Lists of calls: a whole topaction in one list, what ends a list, and what an ended list
 * leaves. */
#include "argus.h"
#include "modes.h"

#include <inttypes.h>
#include <stdio.h>
#include <stdlib.h>
#include <string.h>

/* Ends the process if this doesn't hold. */
static void want(int is_so, const char *what) {
    if (!is_so) {
        fprintf(stderr, "each: %s\n", what);
        exit(1);
    }
}

static int is_answer(argus_answer answer, uint32_t status, int64_t number) {
    return answer.status == status && answer.number == number;
}

static int has_outcome(const argus_listed_call *call, uint32_t status, int64_t number) {
    return call->status == status && call->number == number;
}

static argus_listed_call call_with(uint32_t kind, uint32_t begun_by, uint32_t object, const char *text) {
    size_t size = text == NULL ? 0 : strlen(text);
    return (argus_listed_call){
        .kind = kind, .begun_by = begun_by, .object = object, .text = text, .text_size = size};
}

/* Whether this is the text of the last reply. */
static int is_kept(argus_guardian *bank, const char *text) {
    char room[64];
    argus_answer copied = argus_reply(bank, room, sizeof room);
    return is_answer(copied, ARGUS_DONE, (int64_t)strlen(text)) && memcmp(room, text, strlen(text)) == 0;
}

/* Five calls in one list, by the action that the first call begins. A reply that is an integer is
 * in the call's number, a content is a line of the text. */
static void make_whole(argus_guardian *bank, uint32_t account) {
    argus_listed_call calls[] = {
        {.kind = ARGUS_BEGIN_TOP},
        call_with(ARGUS_FIELD, 1, account, NULL),
        call_with(ARGUS_SET_FIELD, 1, account, "7"),
        call_with(ARGUS_WHOLE, 1, account, NULL),
        {.kind = ARGUS_COMMIT, .begun_by = 1},
    };
    want(is_answer(argus_call_each(bank, calls, 5), ARGUS_DONE, 5), "a list isn't whole");
    want(has_outcome(&calls[0], ARGUS_ACTION, 1) && has_outcome(&calls[1], ARGUS_NUMBER, 5), "its beginning");
    want(has_outcome(&calls[2], ARGUS_DONE, 0) && has_outcome(&calls[3], ARGUS_CONTENT, 0), "its middle");
    want(has_outcome(&calls[4], ARGUS_DONE, 0), "its commit");
    want(is_kept(bank, "{7}\n"), "its texts");
    want(is_answer(argus_base(bank, account), ARGUS_TEXT, 0) && is_kept(bank, "{7}"), "what it has left");
}

/* A conflict ends a list. No call after it is made or gets a status. */
static void end_at_conflict(argus_guardian *bank, uint32_t account) {
    int64_t holder = argus_begin_top(bank).number;
    argus_alter(bank, (uint32_t)holder, account, ARGUS_TOUCH, 0, 0, NULL);
    int64_t entries = argus_entries(bank).number;
    argus_listed_call calls[] = {
        {.kind = ARGUS_BEGIN_TOP},
        call_with(ARGUS_SET_FIELD, 1, account, "8"),
        {.kind = ARGUS_COMMIT, .begun_by = 1, .status = 99, .number = 99},
    };
    want(is_answer(argus_call_each(bank, calls, 3), ARGUS_UNMET, 2), "a conflict doesn't end a list");
    want(has_outcome(&calls[1], ARGUS_REFUSED, ARGUS_CONFLICT), "the conflict");
    want(has_outcome(&calls[2], 99, 99), "the call after it gets a status");
    want(argus_entries(bank).number == entries + 2, "the call after it is made");
    calls[1] = (argus_listed_call){.kind = ARGUS_ABORT, .action = (uint32_t)holder};
    calls[0] = (argus_listed_call){.kind = ARGUS_ABORT, .action = (uint32_t)calls[0].number};
    want(is_answer(argus_call_each(bank, calls, 2), ARGUS_DONE, 2), "two actions aren't aborted");
}

/* An invalid call ends a list, with the status that a single call would return. The calls before it
 * stay made. */
static void end_at_bad_ones(argus_guardian *bank, uint32_t account) {
    const struct {
        argus_listed_call call;
        uint32_t status;
        int64_t number;
    } bad[] = {
        {call_with(ARGUS_SET_FIELD, 1, account, "[1,"), ARGUS_BAD_TEXT, 3},
        {call_with(ARGUS_SET_FIELD, 1, account, "\xff"), ARGUS_NOT_UTF8, 0},
        {call_with(ARGUS_DECLARE, 0, 0, "int"), ARGUS_BAD_SHAPE, 0},
        {{.kind = ARGUS_FIELD, .begun_by = 1, .first = 256}, ARGUS_BAD_NUMBER, 0},
        {{.kind = ARGUS_CHANGE_TAG_BOOL + 1}, ARGUS_BAD_KIND, 0},
        {{.kind = ARGUS_COMMIT, .begun_by = 2}, ARGUS_NOT_BEGUN, 0},
        {{.kind = ARGUS_COMMIT, .demand = 3}, ARGUS_BAD_DEMAND, 0},
        {{.kind = ARGUS_SET_FIELD, .begun_by = 1, .text_size = 1}, ARGUS_NULL, 0},
    };
    for (size_t at = 0; at < sizeof bad / sizeof bad[0]; at++) {
        argus_listed_call calls[] = {{.kind = ARGUS_BEGIN_TOP}, bad[at].call, {.kind = ARGUS_ABORT, .begun_by = 1}};
        want(is_answer(argus_call_each(bank, calls, 3), bad[at].status, 1), "a bad call doesn't end a list");
        want(has_outcome(&calls[1], bad[at].status, bad[at].number), "a bad call gets another status");
        want(argus_abort(bank, (uint32_t)calls[0].number).status == ARGUS_DONE, "the call before it isn't made");
    }
}

/* A list without calls, null pointers, a closed guardian, and a demand that a signal doesn't
 * meet. */
static void end_at_once(argus_guardian *bank) {
    argus_guardian closed = ARGUS_CLOSED;
    uint32_t absent = (uint32_t)argus_declare(bank, "atomic_record[n:int]").number;
    argus_listed_call calls[] = {
        {.kind = ARGUS_BEGIN_TOP},
        {.kind = ARGUS_FIELD, .begun_by = 1, .object = absent},
        {.kind = ARGUS_FIELD, .begun_by = 1, .object = absent, .demand = ARGUS_NO_SIGNAL},
    };
    want(is_answer(argus_call_each(bank, NULL, 0), ARGUS_DONE, 0), "a list of none");
    want(is_answer(argus_call_each(bank, NULL, 1), ARGUS_NULL, 0), "a null list");
    want(is_answer(argus_call_each(NULL, calls, 3), ARGUS_NULL, 0), "a null guardian");
    want(is_answer(argus_call_each(&closed, calls, 3), ARGUS_NOT_OPEN, 0), "a closed guardian");
    want(is_answer(argus_call_each(bank, calls, 3), ARGUS_UNMET, 3), "a signal doesn't end a list");
    want(has_outcome(&calls[1], ARGUS_SIGNAL, ARGUS_ABSENT), "a signal that may come ends a list");
}

int each(void) {
    argus_guardian bank = ARGUS_CLOSED;
    want(argus_open(&bank).status == ARGUS_DONE, "no guardian");
    uint32_t account = (uint32_t)argus_declare(&bank, "atomic_record[balance:int]").number;
    argus_listed_call calls[] = {
        {.kind = ARGUS_BEGIN_TOP},
        call_with(ARGUS_CREATE, 1, account, "{5}"),
        {.kind = ARGUS_COMMIT, .begun_by = 1},
    };
    want(is_answer(argus_call_each(&bank, calls, 3), ARGUS_DONE, 3), "the account isn't created");
    make_whole(&bank, account);
    end_at_conflict(&bank, account);
    end_at_bad_ones(&bank, account);
    end_at_once(&bank);
    argus_close(&bank);
    printf("lists of calls end as they should\n");
    return 0;
}
