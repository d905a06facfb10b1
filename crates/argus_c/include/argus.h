/* A guardian of atomic objects under nested transactions, for programs in C and in any language that calls C.
 *
 * The functions argus_c_* are those of the proved archive, from which libargus.a and libargus.so are made. That the
 * declarations below are those of its source isn't proved: hosts/declarations.py compares the texts. They take no null
 * pointer. The functions after them are what a program calls: they return ARGUS_NULL for a null pointer, and each
 * answer as a status and a number. Nothing here is inline.
 *
 *     // Declares an account and creates it with this content. Returns 1; or says why not, and returns 0.
 *     int open_account(argus_guardian *bank, const char *content) {
 *         argus_answer account = argus_declare(bank, "atomic_record[balance:int]"), top, answer;
 *         if (account.status != ARGUS_OBJECT) return fprintf(stderr, "%s\n", argus_answer_name(account)), 0;
 *         top = argus_begin_top(bank);
 *         if (top.status != ARGUS_ACTION) return fprintf(stderr, "%s\n", argus_answer_name(top)), 0;
 *         answer = argus_alter(bank, (uint32_t)top.number, (uint32_t)account.number, ARGUS_CREATE, 0, 0, content);
 *         if (answer.status == ARGUS_DONE) answer = argus_commit(bank, (uint32_t)top.number);
 *         if (answer.status == ARGUS_DONE) return 1;
 *         argus_abort(bank, (uint32_t)top.number);
 *         return fprintf(stderr, "%s\n", argus_answer_name(answer)), 0;
 *     }
 *
 *     argus_guardian bank = ARGUS_CLOSED;
 *     if (argus_open(&bank).status != ARGUS_DONE) return 1;
 *     open_account(&bank, "{5}");
 *     argus_close(&bank);
 *
 * Test each status before you use its number: that of a refused begin is the refusal's, and would be read as
 * another action's.
 *
 * Threads: only one call at a time may have a guardian. Threads that share one hold a mutex of their own around each
 * call and the reply that belongs to it. A guardian may be opened on one thread, used on others, and closed on another.
 *
 * Signal handlers: while a guardian is inside a call, each other call on its handle returns ARGUS_REENTERED at once, in
 * a handler that has interrupted the call, and in another thread that holds no mutex, too. Nothing is done, and the call
 * goes on to its own answer. A handler may also come between a call and its argus_reply, where a call of its own takes
 * the place of the text that is kept: argus_hold holds the guardian for both. Calls allocate, and malloc isn't made for
 * handlers: so a handler that makes calls may interrupt calls of the library, and nothing else that allocates or holds
 * the mutex. No handler calls argus_open, and none leaves by longjmp, which leaves the guardian held for ever.
 *
 * Processes: a forked process has a copy of each guardian, and the copies go their own ways; so let only one process
 * use it. No thread may be in a call while another one forks, unless the child only calls exec. Nothing is saved when a
 * process ends; a guardian that wasn't closed ends with it.
 *
 * Memory: all of it comes from malloc. What a guardian takes grows with its journal until a checkpoint. argus_close
 * frees all of it. The first argus_open of a process allocates some 600 bytes more, which all guardians share. They are
 * never freed but stay reachable, so a leak checker reports nothing. If malloc returns NULL the status is
 * ARGUS_NO_MEMORY, and the guardian is unchanged (argus_abort_live keeps the aborts that it has made).
 *
 * Values are written and read by the functions of argus_values.h, which includes this file.
 *
 * Texts are UTF-8, without spaces outside quotes, and each thing has one written form:
 *
 *     value     null  true  false  -5  "text"  @3  [1,2]  {1,true}  <1:"no">
 *               which are of the types null, bool, int (64 bits), text, atomic (a reference to object 3, which is
 *               declared), sequence, struct (its fields in order) and oneof (tag 1, counted from 0, with its value)
 *     content   {5,"a"} of a record, 1[10,20] of an array (its low bound before its items), <0:5> of a variant
 *     shape     atomic_record[balance:int,owner:text]  atomic_array[int]  atomic_variant[no:null,yes:int]
 *               with types such as null bool int text atomic sequence[int] struct[a:int,b:text] oneof[no:null,yes:int]
 *
 * In a text a quote, a backslash and a line feed are written \" \\ and \n, all other characters as they are. An
 * integer has no +, no -0 and no leading zero.
 *
 * Limits: a value and a type have a depth of at most 16 (a scalar has 1); a list of names 1 to 64, all distinct, of 1
 * to 32 bytes a-z, 0-9 and _ each; an array at most 65,535 items, at indexes from -2^31 to 2^31 - 1; an action at most
 * 64 ancestors, itself included. A guardian declares 65,535 objects, and begins 1,000,000 actions until it is renewed.
 */
#ifndef ARGUS_H
#define ARGUS_H

#include <stddef.h>
#include <stdint.h>
#include <string.h>

#ifdef __cplusplus
extern "C" {
#endif

/* The version of this header. */
#define ARGUS_VERSION_MAJOR 0
#define ARGUS_VERSION_MINOR 1
#define ARGUS_VERSION_PATCH 0
#define ARGUS_VERSION "0.1.0"
/* The same in one number, which argus_version() of this header's library returns. */
#define ARGUS_VERSION_NUMBER 100

/* A guardian, or none. It is in the program's memory and begins as ARGUS_CLOSED (all bytes zero will do).
 * Both fields are the library's: a program writes neither. One that is open is moved, never copied: of two copies
 * that are both used or closed, the second is a use of freed memory. */
typedef struct argus_guardian {
    uint32_t mark; /* 1 if a guardian is open, ARGUS_HELD if it is inside a call; any other number: closed */
    void *at;      /* what the library keeps, if it is open */
} argus_guardian;

/* A guardian whose commit is ready (argus_ready_commit), or none. It begins as ARGUS_NOTHING_READY (all bytes zero will
 * do), both fields are the library's, and it is moved, never copied, as argus_guardian. */
typedef struct argus_ready {
    uint32_t mark; /* 1 if a commit is ready, ARGUS_HELD if it is inside a call; any other number: none */
    void *at;      /* what the library keeps, if one is */
} argus_ready;

/* A call that was read and isn't made yet (argus_parse), or none. It begins as ARGUS_NOTHING_PARSED (all bytes zero will
 * do), both fields are the library's, and it is moved, never copied, as argus_guardian. */
typedef struct argus_parsed {
    uint32_t mark; /* 1 if it has a call, ARGUS_HELD if it is inside one; any other number: none */
    void *at;      /* what the library keeps, if it has one */
} argus_parsed;

/* The mark of a handle whose guardian is inside a call. The functions argus_c_* take it for a closed one, and mark it
 * so; who calls them refuses calls inside calls by other means. */
#define ARGUS_HELD 2

#ifdef __cplusplus
#define ARGUS_CLOSED argus_guardian{0, nullptr}
#define ARGUS_NOTHING_READY argus_ready{0, nullptr}
#define ARGUS_NOTHING_PARSED argus_parsed{0, nullptr}
#else
#define ARGUS_CLOSED {0, NULL}
#define ARGUS_NOTHING_READY {0, NULL}
#define ARGUS_NOTHING_PARSED {0, NULL}
#endif

/* What came of a call. From ARGUS_DONE to ARGUS_REFUSED the call was made: a journalled call is one more entry of the
 * journal. From ARGUS_NO_MEMORY on nothing was made, and the guardian is unchanged. In a list that holds of the call
 * that failed (at ARGUS_UNMET none failed, and all calls up to the one that isn't as demanded were made), in a listing
 * (argus_resume) of the line that wasn't taken, and in argus_abort_live of the first abort that wasn't made. */
typedef enum argus_status {
    ARGUS_DONE = 0,        /* made; there is nothing more to say. The number is 0 */
    ARGUS_OBJECT = 1,      /* an object was declared; the number is its own, from 0 */
    ARGUS_ACTION = 2,      /* an action was begun; the number is its own, from 0 */
    ARGUS_NUMBER = 3,      /* an integer, which is the number: a bound, a size, a count, or a value of type int */
    ARGUS_FLAG = 4,        /* the number is 1 for true, 0 for false: of a test, or a value of type bool */
    ARGUS_VALUE = 5,       /* a value of another type; argus_reply returns its written form */
    ARGUS_CONTENT = 6,     /* a content; argus_reply returns its written form */
    ARGUS_TEXT = 7,        /* a text, of argus_tell; argus_reply returns it */
    ARGUS_SIGNAL = 8,      /* the operation signalled: its lock was granted, the content is unchanged. The number says
                              which signal, as argus_signal has them */
    ARGUS_REFUSED = 9,     /* the call was refused and took no lock; it is in the journal. The number says which
                              refusal, as argus_refusal has them */
    ARGUS_NO_MEMORY = 10,  /* there was no memory */
    ARGUS_NOT_OPEN = 11,   /* the handle has no guardian: never opened, or closed */
    ARGUS_NOT_UTF8 = 12,   /* the text isn't UTF-8; for a listing the line isn't, and the number is the length in bytes
                              of its longest prefix that is */
    ARGUS_BAD_TEXT = 13,   /* the text isn't a written form of a value (or of a content, for ARGUS_CREATE). The number
                              is the length in bytes of its longest prefix that some written form begins with */
    ARGUS_BAD_SHAPE = 14,  /* the text isn't the written form of a shape that can be made */
    ARGUS_BAD_NUMBER = 15, /* a field's or tag's number isn't within 0 to 255 */
    ARGUS_BAD_KIND = 16,   /* no call, query, change or question has this number */
    ARGUS_TOO_SMALL = 17,  /* the room is too small for the reply, or for the journal's first line, and unchanged. The
                              number is the size of that in bytes: ask again with more room. The reply stays */
    ARGUS_NOT_THERE = 18,  /* the object isn't declared; no entry has this number (or only one before the last
                              checkpoint had); the action wasn't begun; none is live; there is no reply with a text,
                              or no call that was read */
    ARGUS_BUSY = 19,       /* a checkpoint, or a renewal, while an action is live */
    ARGUS_FULL = 20,       /* a checkpoint, or a renewal, whose next entry's number would be above 2^63 - 1 */
    ARGUS_NULL = 21,       /* a pointer was null. No function argus_c_* returns it */
    ARGUS_UNMET = 22,      /* of a list only: the outcome of the last call that was made isn't as demanded */
    ARGUS_NOT_BEGUN = 23,  /* of a call of a list: begun_by names no earlier call, or one that began no action */
    ARGUS_BAD_DEMAND = 24, /* of a call of a list: no demand has this number */
    /* why a line of a listing isn't the next one of the journal whose lines were taken: the first that applies */
    ARGUS_NOT_AN_OPENING = 25, /* it begins like one of an opening, and can't be its next one */
    ARGUS_NO_LINE = 26,        /* it isn't the line of an entry. The number is the length in bytes of its longest prefix
                                  that begins one, or of what comes before a shape that can't be made */
    ARGUS_NOT_NEXT = 27,       /* it is the line of an entry, and another one comes next: the number is that one's */
    ARGUS_NOT_SOUND = 28,      /* it is the next entry's line, and the opening refers to objects that aren't there */
    ARGUS_NOT_THE_REPLY = 29,  /* it is the next entry's line, but another reply to its call follows from the journal:
                                  argus_reply returns that one, as it is after the arrow of an entry's line */
    ARGUS_OCCUPIED = 30,   /* the handle that a guardian should go to has one already. Both handles are unchanged */
    ARGUS_REENTERED = 31   /* the guardian is inside a call, which a signal handler has interrupted or another thread
                              makes, or it is held (argus_hold). No function argus_c_* returns it */
} argus_status;

/* The signals of operations. An operation of another kind than the content signals ARGUS_ABSENT; the guardian refuses
 * it before as ARGUS_ILL_TYPED. */
typedef enum argus_signal {
    ARGUS_ABSENT = 1,        /* there is no content yet */
    ARGUS_EXISTS = 2,        /* ARGUS_CREATE of an object that has a content */
    ARGUS_BOUNDS = 3,        /* an index outside the array, or an end of an empty one */
    ARGUS_WRONG_TAG = 4,     /* the variant has another tag */
    ARGUS_NEGATIVE_SIZE = 5, /* ARGUS_TRIM to a negative number of items */
    ARGUS_LIMITS = 6         /* a bound or size past the limits of arrays */
} argus_signal;

/* Why a call was refused: the first of these that applies. */
typedef enum argus_refusal {
    ARGUS_NO_ACTION = 1,  /* the action wasn't begun */
    ARGUS_OVER = 2,       /* the action has committed or was aborted */
    ARGUS_SUSPENDED = 3,  /* the action has a live child */
    ARGUS_NO_OBJECT = 4,  /* the object isn't declared */
    ARGUS_ILL_TYPED = 5,  /* the operation, or its value, doesn't suit the object's shape */
    ARGUS_CONFLICT = 6,   /* another action holds the object: wait for its end, or abort */
    ARGUS_TOO_DEEP = 7,   /* the parent has 64 ancestors, itself included */
    ARGUS_TOO_MANY = 8,   /* 1,000,000 actions were begun, or 65,535 objects declared; a checkpoint frees none, and a
                             renewal (argus_renew) the numbers of actions */
    ARGUS_NO_SIBLINGS = 9 /* ARGUS_ABORT_OTHERS of an action with neither parent nor creator */
} argus_refusal;

/* The journalled calls, with what each takes besides the guardian and what it returns if it isn't refused. What a
 * call doesn't take is ignored. A field or a tag is a number from 0, in the order of the shape's names. */
typedef enum argus_kind {
    ARGUS_DECLARE = 0,      /* text: a shape, such as atomic_record[balance:int]. ARGUS_OBJECT */
    ARGUS_BEGIN_TOP = 1,    /* nothing. ARGUS_ACTION */
    ARGUS_BEGIN_SUB = 2,    /* action: the parent. ARGUS_ACTION */
    ARGUS_BEGIN_NESTED = 3, /* action: the creator of a nested topaction. ARGUS_ACTION */
    ARGUS_COMMIT = 4,       /* action. ARGUS_DONE */
    ARGUS_ABORT = 5,        /* action. ARGUS_DONE */
    ARGUS_ABORT_OTHERS = 6, /* action: its live siblings are aborted. ARGUS_DONE */
    ARGUS_TEST_READ = 7,    /* action, object: the read lock if it is free. ARGUS_FLAG */
    ARGUS_TEST_WRITE = 8,   /* action, object: the write lock if it is free. ARGUS_FLAG */
    /* queries: action, object and what the line says; each needs a read lock */
    ARGUS_WHOLE = 9,       /* the content. ARGUS_CONTENT */
    ARGUS_FIELD = 10,      /* first: a field of a record. ARGUS_VALUE */
    ARGUS_LOW = 11,        /* the low bound of an array. ARGUS_NUMBER */
    ARGUS_HIGH = 12,       /* its high bound. ARGUS_NUMBER */
    ARGUS_SIZE = 13,       /* its size. ARGUS_NUMBER */
    ARGUS_FETCH = 14,      /* first: an index. ARGUS_VALUE */
    ARGUS_BOTTOM = 15,     /* the first item. ARGUS_VALUE */
    ARGUS_TOP = 16,        /* the last item. ARGUS_VALUE */
    ARGUS_IS_TAG = 17,     /* first: a tag of a variant. ARGUS_FLAG */
    ARGUS_TAG_VALUE = 18,  /* first: a tag of a variant. ARGUS_VALUE */
    /* changes: action, object and what the line says; each needs a write lock */
    ARGUS_CREATE = 19,     /* text: a content, such as {5}, 1[10,20] or <0:"a">. ARGUS_DONE */
    ARGUS_SET_FIELD = 20,  /* first: a field; text: its value. ARGUS_DONE */
    ARGUS_STORE = 21,      /* first: an index; text: the item's value. ARGUS_DONE */
    ARGUS_ADDH = 22,       /* text: the value of an item that becomes the last. ARGUS_DONE */
    ARGUS_ADDL = 23,       /* text: the value of an item that becomes the first. ARGUS_DONE */
    ARGUS_REMH = 24,       /* the last item is removed. ARGUS_VALUE */
    ARGUS_REML = 25,       /* the first item is removed. ARGUS_VALUE */
    ARGUS_SET_LOW = 26,    /* first: the new low bound. ARGUS_DONE */
    ARGUS_TRIM = 27,       /* first: where the items that stay begin; second: how many at most. ARGUS_DONE */
    ARGUS_CHANGE_TAG = 28, /* first: a tag; text: its value. ARGUS_DONE */
    ARGUS_TOUCH = 29,      /* takes the write lock, and changes nothing: argus_lock. ARGUS_DONE */
    /* the same changes where the value is a number, which needs neither a text nor memory. The journal has them as
     * those above. second: an integer; first as above. ARGUS_DONE */
    ARGUS_SET_FIELD_INT = 30,
    ARGUS_STORE_INT = 31,
    ARGUS_ADDH_INT = 32,
    ARGUS_ADDL_INT = 33,
    ARGUS_CHANGE_TAG_INT = 34,
    /* second: a truth value, false if it is 0 and otherwise true; first as above. ARGUS_DONE */
    ARGUS_SET_FIELD_BOOL = 35,
    ARGUS_STORE_BOOL = 36,
    ARGUS_ADDH_BOOL = 37,
    ARGUS_ADDL_BOOL = 38,
    ARGUS_CHANGE_TAG_BOOL = 39
} argus_kind;

/* What the outcome of a call of a list must be for the calls after it to be made. */
typedef enum argus_demand {
    ARGUS_NO_REFUSAL = 0, /* no refusal */
    ARGUS_NOTHING = 1,    /* it may be anything */
    ARGUS_NO_SIGNAL = 2   /* neither a refusal nor a signal */
} argus_demand;

/* One call of a list: what a call takes, and what came of it. What an initialiser leaves out is 0:
 *
 *     argus_listed_call calls[] = {
 *         {.kind = ARGUS_BEGIN_TOP},
 *         {.kind = ARGUS_FIELD, .begun_by = 1, .object = account},
 *         {.kind = ARGUS_SET_FIELD_INT, .begun_by = 1, .object = account, .second = 7},
 *         {.kind = ARGUS_COMMIT, .begun_by = 1},
 *     };
 *     argus_answer made = argus_call_each(&bank, calls, 4);      // ARGUS_DONE, 4
 */
typedef struct argus_listed_call {
    uint32_t kind;     /* which call: argus_kind */
    uint32_t demand;   /* what its outcome must be for the calls after it to be made: argus_demand */
    uint32_t action;   /* the action, if begun_by is 0 */
    uint32_t begun_by; /* 1, 2 and so on: the action is the one that this call of the list began, counted from 1 */
    uint32_t object;
    uint32_t status;   /* written after it was made, or failed: the status that a single call would have had */
    int64_t first;
    int64_t second;
    int64_t number;    /* written with the status: the number that goes with it */
    const void *text;
    size_t text_size;  /* in bytes */
} argus_listed_call;

/* The questions, which aren't journalled. A text takes the place of the reply that is kept for argus_c_reply; nothing
 * else changes. */
typedef enum argus_question {
    ARGUS_CAN_READ = 0,     /* action, object: whether ARGUS_TEST_READ would return true now; 0, too, if it would be
                               refused. ARGUS_FLAG */
    ARGUS_CAN_WRITE = 1,    /* action, object: the same of ARGUS_TEST_WRITE. ARGUS_FLAG */
    ARGUS_OBJECTS = 2,      /* how many objects are declared. ARGUS_NUMBER */
    ARGUS_ACTIONS = 3,      /* how many actions are begun: the next one's number. ARGUS_NUMBER */
    ARGUS_ENTRIES = 4,      /* how many entries the journal has had: the next one's number. ARGUS_NUMBER */
    ARGUS_BASE = 5,         /* object: its base, its committed content, or absent. ARGUS_TEXT */
    ARGUS_READERS = 6,      /* object: its read holders, in increasing number, a line each, as a1. ARGUS_TEXT */
    ARGUS_VERSIONS = 7,     /* object: its write holders, from ancestor to descendant, a line each with what it
                               sees, as a1 {7}. ARGUS_TEXT */
    ARGUS_ENTRY = 8,        /* entry: its line without an end, as 3 commit a0 -> done. ARGUS_TEXT */
    ARGUS_LIST_BASES = 9,   /* the listing of bases; objects are named o0, o1 and so on. ARGUS_TEXT */
    ARGUS_LIST_STACKS = 10, /* the listing of bases, readers and versions. ARGUS_TEXT */
    ARGUS_LIST_JOURNAL = 11, /* the listing of the journal. ARGUS_TEXT */
    ARGUS_LIST_AUDIT = 12,  /* the listing of the audit, made from the journal. ARGUS_TEXT */
    ARGUS_SHAPE = 13,       /* object: the shape with which it was declared. ARGUS_TEXT */
    ARGUS_ACTION_STATUS = 14, /* action: what became of it, as argus_action_status has it. ARGUS_NUMBER */
    ARGUS_FIRST_LIVE = 15,  /* action: the first live action from this number on. ARGUS_ACTION */
    ARGUS_FIRST_ENTRY = 16  /* the number of the journal's first entry: that which was next at the last checkpoint.
                               ARGUS_NUMBER */
} argus_question;

/* What became of an action that was begun. */
typedef enum argus_action_status {
    ARGUS_LIVE = 1,      /* neither it nor an ancestor of it has ended */
    ARGUS_COMMITTED = 2, /* it has committed, and none of its ancestors was aborted */
    ARGUS_ABORTED = 3,   /* it was aborted, or an ancestor of it, whether it had committed or not */
    ARGUS_FOLDED = 4     /* it was over at the last checkpoint, which has forgotten it */
} argus_action_status;

/* ---- What the numbers are called, for messages: a name that stands above, or "?" of a number that has none. ---- */

const char *argus_signal_name(int64_t signal);
const char *argus_refusal_name(int64_t refusal);
const char *argus_status_name(uint32_t status);

/* ---- What the library exports. No pointer is null, except that of an empty text; no two overlap. ---- */

/* Opens a guardian without objects, actions and entries. What was open in the handle is closed once the new one is
 * made, and stays at ARGUS_NO_MEMORY. If `beside` is open, both share one word for their memory; if it isn't, the new
 * one leaves 8 bytes behind. `beside` is another handle, and is unchanged. ARGUS_DONE, ARGUS_NO_MEMORY. */
uint32_t argus_c_open(argus_guardian *guardian, argus_guardian *beside);

/* Closes the guardian and frees its memory. ARGUS_DONE; ARGUS_NOT_OPEN if it is closed already. */
uint32_t argus_c_close(argus_guardian *guardian);

/* Makes one call. Every reply, refusals included, is one entry of the journal. The reply is kept for argus_c_reply
 * until something else is kept (see there). `number` is written at each status: as the status says, otherwise 0. It
 * doesn't overlap the handle.
 * What `kind` says, or ARGUS_SIGNAL, ARGUS_REFUSED, or the first of these that applies: ARGUS_NOT_UTF8, ARGUS_NOT_OPEN,
 * ARGUS_BAD_KIND, ARGUS_BAD_NUMBER (of a kind that takes a field or a tag), ARGUS_BAD_TEXT and ARGUS_BAD_SHAPE (of a
 * kind that takes such a text), or ARGUS_NO_MEMORY, which may come in place of these two. */
uint32_t argus_c_call(argus_guardian *guardian, uint32_t kind, uint32_t action, uint32_t object, int64_t first,
                      int64_t second, const uint8_t *text, size_t text_size, int64_t *number);

/* Makes `count` calls one after another, up to the first whose outcome isn't as demanded. Each is a call of its own:
 * one entry of the journal. `made` is written at each status: how many were made. Each call that was made gets its
 * status and its number, and so does the one that failed; the others are unchanged.
 * ARGUS_DONE: all were made. ARGUS_UNMET: the last one that was made isn't as demanded. Any other status is that of the
 * call after those that were made, which failed: it changes nothing, and the outcomes of those before it stay.
 * It is the first of these that applies: ARGUS_BAD_DEMAND, ARGUS_NOT_BEGUN, ARGUS_NOT_UTF8, ARGUS_BAD_KIND,
 * ARGUS_BAD_NUMBER, ARGUS_BAD_TEXT and ARGUS_BAD_SHAPE, or ARGUS_NO_MEMORY, which may come in place of these two (and
 * of any at the first call, if there is no memory for as many replies). ARGUS_NOT_OPEN is that of the handle: no call
 * gets a status.
 * What is kept for argus_c_reply is a line, with its line feed, for each reply that has a text, in their order; no
 * written form has a line feed in it. If no call was made, what was kept stays. */
uint32_t argus_c_call_each(argus_guardian *guardian, argus_listed_call *calls, size_t count, size_t *made);

/* Answers a question. A text is kept in place of the reply, as a reply is. `number` is written at each status.
 * What `question` says, or the first of these that applies: ARGUS_BAD_KIND, ARGUS_NOT_OPEN, ARGUS_NOT_THERE, or
 * ARGUS_NO_MEMORY, which may come in place of a text. */
uint32_t argus_c_tell(argus_guardian *guardian, uint32_t question, uint32_t action, uint32_t object, uint64_t entry,
                      int64_t *number);

/* Aborts all live actions: one call ARGUS_ABORT for each live topaction, nested ones too, in increasing number, each an
 * entry of the journal. What is kept stays. ARGUS_DONE; ARGUS_NOT_OPEN; ARGUS_NO_MEMORY: the first ones were aborted,
 * or none, and at least one is still live; another call aborts the others. */
uint32_t argus_c_abort_live(argus_guardian *guardian);

/* Folds the journal's entries away: objects keep their bases, and entries and actions their numbers.
 * ARGUS_DONE, ARGUS_NO_MEMORY, ARGUS_NOT_OPEN, ARGUS_BUSY, ARGUS_FULL. */
uint32_t argus_c_checkpoint(argus_guardian *guardian);

/* Starts over: objects keep their numbers, their shapes and their bases, and entries their numbers; actions are
 * numbered from 0 again. The entries are folded away, as by a checkpoint. So the number of an earlier action is, from
 * then on, that of another one or of none. ARGUS_DONE, ARGUS_NO_MEMORY, ARGUS_NOT_OPEN, ARGUS_BUSY,
 * ARGUS_FULL. */
uint32_t argus_c_renew(argus_guardian *guardian);

/* Takes whole lines of a journal's listing from the front of the text, up to the first that isn't the next one. The
 * listing is that of ARGUS_LIST_JOURNAL: after a checkpoint it begins with lines of what the objects hold, and then
 * come those of the entries, which argus_c_lines returns. Lines add to those that were taken before, and
 * argus_c_resumed makes a guardian from them; until then the guardian that is held is unchanged, and can be used.
 * `bytes` and `lines` are how much was taken: what is left may be passed in again, with more after it. They are written
 * at each status, and so is `number`: as the status says, otherwise 0. Handle, text, `bytes`, `lines` and `number`
 * don't overlap.
 * ARGUS_DONE: all whole lines of the text were taken; what is left, if anything is, has no line feed. ARGUS_NO_MEMORY:
 * the same text goes on from there. ARGUS_NOT_OPEN. The other statuses say what is wrong with the line after those
 * that were taken: ARGUS_NOT_UTF8, ARGUS_NOT_AN_OPENING, ARGUS_NO_LINE, ARGUS_NOT_NEXT, ARGUS_NOT_SOUND,
 * ARGUS_NOT_THE_REPLY. What is kept for argus_c_reply stays, except at the last of these. The first line that is taken
 * after that one costs the time and the memory of all entries before it. */
uint32_t argus_c_resume(argus_guardian *guardian, const uint8_t *text, size_t text_size, size_t *bytes, size_t *lines,
                        int64_t *number);

/* Puts the guardian whose journal's listing was taken in place of the one that is held; what comes next is taken for
 * another one, from its first line on. No text is kept. If the opening came without entries and refers to objects that
 * didn't come, the guardian has the longest prefix of its objects in which none refers to one outside it, and
 * `dropped` is how many bytes the lines of the others have; otherwise it is 0. `dropped` doesn't overlap the handle.
 * ARGUS_DONE; ARGUS_NO_MEMORY: nothing has changed; ARGUS_NOT_OPEN. */
uint32_t argus_c_resumed(argus_guardian *guardian, uint64_t *dropped);

/* Puts as many whole lines of the journal's listing at the front of the room as fit, from the entry with this number
 * on, each with its line feed. `size` is how many bytes they have, and `count` of how many entries they are: the next
 * number to ask for is from + count. At the end of the journal both are 0. What is kept for argus_c_reply stays.
 * Handle, room, `size` and `count` don't overlap.
 * ARGUS_DONE; ARGUS_TOO_SMALL, with the size that the first line needs; ARGUS_NOT_THERE, if `from` is below the
 * number of the first entry (ARGUS_FIRST_ENTRY), or above that of the next one (ARGUS_ENTRIES); ARGUS_NO_MEMORY,
 * ARGUS_NOT_OPEN. If it isn't ARGUS_DONE the room is unchanged, the count is 0, and so is the size except at
 * ARGUS_TOO_SMALL. */
uint32_t argus_c_lines(argus_guardian *guardian, uint64_t from, uint8_t *room, size_t room_size, size_t *size,
                       uint64_t *count);

/* The version of the library in one number, ARGUS_VERSION_NUMBER of its header. */
uint32_t argus_c_version(void);

/* Puts the text that is kept at the front of the room, without an end of its own, and writes its size. It can be read
 * again as long as it is kept. `size` overlaps neither the handle nor the room.
 * The last of these decides what is kept: a call that was made, whose reply has a text at ARGUS_VALUE and
 * ARGUS_CONTENT alone; a question whose answer is ARGUS_TEXT; a list of which a call was made, whose texts are one
 * text, empty if no reply has one; an argus_resume that ended with ARGUS_NOT_THE_REPLY; an argus_resumed that ended
 * with ARGUS_DONE, which has no text.
 * ARGUS_DONE; ARGUS_TOO_SMALL, with the size that it needs; ARGUS_NOT_THERE, if no text is kept, ARGUS_NO_MEMORY and
 * ARGUS_NOT_OPEN, with the size 0. */
uint32_t argus_c_reply(argus_guardian *guardian, uint8_t *room, size_t room_size, size_t *size);

/* Prepares the commit of an action, so that a program can log it before anybody can see what it leaves. The guardian
 * goes from its handle to `ready`. Until it is back its handle is closed, and each call of it returns ARGUS_NOT_OPEN. A
 * commit that will be refused is prepared, too.
 * ARGUS_DONE; ARGUS_NO_MEMORY; ARGUS_NOT_OPEN; ARGUS_OCCUPIED if `ready` has a guardian already. If it isn't ARGUS_DONE
 * both handles are unchanged. */
uint32_t argus_c_ready_commit(argus_guardian *guardian, argus_ready *ready, uint32_t action);

/* Puts the line that the commit will have in the journal's listing, with its line feed, at the front of the room, and
 * writes its size. A room that is too small is unchanged. `size` overlaps neither the handle nor the room.
 * ARGUS_DONE; ARGUS_TOO_SMALL, with the size that it needs; ARGUS_NO_MEMORY, and ARGUS_NOT_OPEN if nothing is ready,
 * with the size 0. */
uint32_t argus_c_ready_line(argus_ready *ready, uint8_t *room, size_t room_size, size_t *size);

/* Makes the commit that is ready, which takes no memory. The guardian goes back to the handle, and the commit is the
 * newest entry of its journal. `number` is written at each status: the refusal's, otherwise 0. Handles and `number`
 * don't overlap.
 * ARGUS_DONE; ARGUS_REFUSED; ARGUS_NOT_OPEN if nothing is ready; ARGUS_OCCUPIED if the handle has a guardian. At the
 * last two both handles are unchanged. */
uint32_t argus_c_make_ready(argus_ready *ready, argus_guardian *guardian, int64_t *number);

/* Puts the guardian back into the handle unchanged, without the commit; it takes no memory. ARGUS_DONE; ARGUS_NOT_OPEN
 * if nothing is ready, and ARGUS_OCCUPIED if the handle has a guardian: both handles are unchanged. */
uint32_t argus_c_cancel_ready(argus_ready *ready, argus_guardian *guardian);

/* Reads a call, and makes nothing of it. `beside` is an open guardian, in whose memory the call is put, and is
 * unchanged. One that the call shall not keep waiting is another one, opened beside it (argus_c_open). What `parsed` had
 * is dropped once the new call is there, and stays otherwise. `number` is written at each status. Handles and `number`
 * don't overlap.
 * ARGUS_DONE; ARGUS_NOT_OPEN if `beside` isn't; or why argus_c_call would make no call. */
uint32_t argus_c_parse(argus_guardian *beside, argus_parsed *parsed, uint32_t kind, uint32_t action, uint32_t object,
                       int64_t first, int64_t second, const uint8_t *text, size_t text_size, int64_t *number);

/* Makes the call that was read, as argus_c_call makes one, and leaves `parsed` empty.
 * What the kind says, or ARGUS_SIGNAL, ARGUS_REFUSED, or ARGUS_NO_MEMORY: then it isn't made, and is dropped.
 * ARGUS_NOT_THERE if `parsed` has none; ARGUS_NOT_OPEN, which alone leaves the call where it is. */
uint32_t argus_c_call_parsed(argus_guardian *guardian, argus_parsed *parsed, int64_t *number);

/* Drops the call that was read. ARGUS_DONE; ARGUS_NOT_THERE if there is none. */
uint32_t argus_c_drop_parsed(argus_parsed *parsed);

/* ---- What a C program calls. ---- */

/* The status of a call, one of argus_status, and its number. */
typedef struct argus_answer {
    uint32_t status;
    int64_t number;
} argus_answer;

/* What an answer says: the name of its refusal or signal if it is one, otherwise of its status. */
const char *argus_answer_name(argus_answer answer);

/* Moves the guardian into another handle, `held`, for several calls on that, until argus_release. Meanwhile each call
 * on its own handle returns ARGUS_REENTERED, so that no handler comes between a call and its reply:
 *
 *     // Puts an object's base into the room. ARGUS_REENTERED if this is a handler that came into another call.
 *     argus_answer base_of(argus_guardian *bank, uint32_t object, void *room, size_t size) {
 *         argus_guardian held = ARGUS_CLOSED;
 *         argus_answer answer = argus_hold(bank, &held);
 *         if (answer.status != ARGUS_DONE) return answer;
 *         answer = argus_base(&held, object);
 *         if (answer.status == ARGUS_TEXT) answer = argus_reply(&held, room, size);
 *         argus_release(bank, &held);
 *         return answer;
 *     }
 *
 * ARGUS_DONE; ARGUS_REENTERED; ARGUS_NOT_OPEN; ARGUS_OCCUPIED if `held` has a guardian already. */
argus_answer argus_hold(argus_guardian *guardian, argus_guardian *held);

/* Moves back what argus_hold has moved, also if it was closed meanwhile. ARGUS_DONE; ARGUS_OCCUPIED if the handle has
 * its guardian. */
argus_answer argus_release(argus_guardian *guardian, argus_guardian *held);

/* Opens a guardian without objects, actions and entries. A guardian that is open in the handle is closed once the new
 * one is made, and stays open at ARGUS_NO_MEMORY. Several threads may call it at the same time. */
argus_answer argus_open(argus_guardian *guardian);

/* The same, but the new guardian shares with `other`, which is open, what argus_open lets all guardians share. At
 * ARGUS_NOT_OPEN the other one isn't open, or is the same handle. */
argus_answer argus_open_beside(argus_guardian *guardian, argus_guardian *other);

/* Closes a guardian. */
argus_answer argus_close(argus_guardian *guardian);

/* Makes one call, with a text of this size in bytes; a size of 0 may come with a null text. */
argus_answer argus_call(argus_guardian *guardian, uint32_t kind, uint32_t action, uint32_t object,
                        int64_t first, int64_t second, const void *text, size_t text_size);

/* Reads a call, for argus_call_parsed to make it. It uses no guardian of the program's: so a long text is read while other
 * threads use theirs.
 *
 *     // Creates an object whose content has a long text. `lock` is held around each call of the bank.
 *     argus_answer create(argus_guardian *bank, pthread_mutex_t *lock, uint32_t action, uint32_t object,
 *                         const char *content) {
 *         argus_parsed parsed = ARGUS_NOTHING_PARSED;
 *         argus_answer answer = argus_parse(&parsed, ARGUS_CREATE, action, object, 0, 0, content, strlen(content));
 *         if (answer.status != ARGUS_DONE) return answer;
 *         pthread_mutex_lock(lock);
 *         answer = argus_call_parsed(bank, &parsed);
 *         pthread_mutex_unlock(lock);
 *         return answer;
 *     }
 *
 * What `parsed` had is dropped once the new call is there. A call that isn't made in the end is dropped
 * (argus_drop_parsed). No signal handler calls this, as argus_open. */
argus_answer argus_parse(argus_parsed *parsed, uint32_t kind, uint32_t action, uint32_t object, int64_t first,
                         int64_t second, const void *text, size_t text_size);

/* Makes the call that was read. `parsed` is empty then, unless the guardian isn't open, or is inside a call. */
argus_answer argus_call_parsed(argus_guardian *guardian, argus_parsed *parsed);

/* Drops the call that was read. */
argus_answer argus_drop_parsed(argus_parsed *parsed);

/* Makes `count` calls one after another, as argus_c_call_each does; the number is how many were made. A text of size 0
 * may be null: then it is pointed at an empty one. A null text with a size fails as ARGUS_NULL. */
argus_answer argus_call_each(argus_guardian *guardian, argus_listed_call *calls, size_t count);

/* Answers a question. */
argus_answer argus_tell(argus_guardian *guardian, uint32_t question, uint32_t action, uint32_t object,
                        uint64_t entry);

/* Aborts all live actions. */
argus_answer argus_abort_live(argus_guardian *guardian);

/* Folds the journal's entries away. */
argus_answer argus_checkpoint(argus_guardian *guardian);

/* Starts over, with action numbers from 0 and the same objects. */
argus_answer argus_renew(argus_guardian *guardian);

/* Takes whole lines of a journal's listing from the front of the text: `bytes` bytes and `lines` lines, all that are
 * whole at ARGUS_DONE. A size of 0 may come with a null text.
 *
 *     // The guardian of a journal that a file keeps, in `bank`, which is open. What comes after the last line feed
 *     // was cut off as it was written. Returns 0 if a line is longer than the buffer, or the file can't be read.
 *     int read_bank(argus_guardian *bank, FILE *file) {
 *         char text[4096];
 *         size_t held = 0, read, bytes, lines;
 *         argus_answer taken;
 *         while ((read = fread(text + held, 1, sizeof text - held, file)) > 0) {
 *             held += read;
 *             taken = argus_resume(bank, text, held, &bytes, &lines);
 *             if (taken.status != ARGUS_DONE) return fprintf(stderr, "%s\n", argus_answer_name(taken)), 0;
 *             memmove(text, text + bytes, held -= bytes);
 *         }
 *         if (!feof(file)) return 0;
 *         return argus_resumed(bank).status == ARGUS_DONE;
 *     }
 */
argus_answer argus_resume(argus_guardian *guardian, const void *text, size_t text_size, size_t *bytes,
                          size_t *lines);

/* Puts the guardian of what was taken in place of the one that is held; the number is how many bytes were dropped. */
argus_answer argus_resumed(argus_guardian *guardian);

/* Puts as many whole lines of the journal into the room as fit, from this entry on; the number is their size in bytes,
 * and `count` of how many entries they are. No zero is put after them. */
argus_answer argus_lines(argus_guardian *guardian, uint64_t from, void *room, size_t room_size,
                         uint64_t *count);

/* The version of the library: a program that was built with this header compares it with ARGUS_VERSION_NUMBER. */
uint32_t argus_version(void);

/* Puts the reply's text into the room; the number is its size in bytes. No zero is put after it. */
argus_answer argus_reply(argus_guardian *guardian, void *room, size_t room_size);

/* A commit in two steps, so that it is in a log before anybody can see it:
 *
 *     // Commits the action, once its line is in the log. Returns whether it has committed.
 *     int commit_logged(argus_guardian *bank, uint32_t action, FILE *log) {
 *         char line[64];
 *         argus_ready ready = ARGUS_NOTHING_READY;
 *         argus_answer answer = argus_ready_commit(bank, &ready, action);
 *         if (answer.status != ARGUS_DONE) return fprintf(stderr, "%s\n", argus_answer_name(answer)), 0;
 *         answer = argus_ready_line(&ready, line, sizeof line);
 *         if (answer.status == ARGUS_DONE && fwrite(line, (size_t)answer.number, 1, log) == 1 && fflush(log) == 0)
 *             return argus_make_ready(&ready, bank).status == ARGUS_DONE;
 *         argus_cancel_ready(&ready, bank);
 *         return 0;
 *     }
 *
 * Such a line, as "3 commit a0 -> done", has at most 61 bytes with its line feed. Threads that share the guardian hold
 * their mutex from argus_ready_commit on, until it is back. A program that ends with a commit ready cancels it, and
 * then closes the guardian, which gives its memory back. */

/* Makes all ready for the commit of an action. The guardian is in `ready` from then on, and its handle is closed. */
argus_answer argus_ready_commit(argus_guardian *guardian, argus_ready *ready, uint32_t action);

/* Puts the line that the commit will have into the room; the number is its size in bytes. No zero is put after it. */
argus_answer argus_ready_line(argus_ready *ready, void *room, size_t room_size);

/* Makes the commit that is ready, and gives the guardian back to the handle. */
argus_answer argus_make_ready(argus_ready *ready, argus_guardian *guardian);

/* Gives the guardian back to the handle as it was. */
argus_answer argus_cancel_ready(argus_ready *ready, argus_guardian *guardian);

/* The calls by name. A text ends at its first zero byte. */

argus_answer argus_declare(argus_guardian *guardian, const char *shape);
argus_answer argus_begin_top(argus_guardian *guardian);
argus_answer argus_begin_sub(argus_guardian *guardian, uint32_t parent);
argus_answer argus_begin_nested(argus_guardian *guardian, uint32_t creator);
argus_answer argus_commit(argus_guardian *guardian, uint32_t action);
argus_answer argus_abort(argus_guardian *guardian, uint32_t action);
argus_answer argus_abort_others(argus_guardian *guardian, uint32_t action);
argus_answer argus_test_read(argus_guardian *guardian, uint32_t action, uint32_t object);
argus_answer argus_test_write(argus_guardian *guardian, uint32_t action, uint32_t object);

/* A query: ARGUS_WHOLE to ARGUS_TAG_VALUE, with its number where it takes one. */
argus_answer argus_ask(argus_guardian *guardian, uint32_t action, uint32_t object, uint32_t query,
                       int64_t first);

/* A change: ARGUS_CREATE to ARGUS_CHANGE_TAG_BOOL, with its numbers and its text where it takes them (else 0 and NULL):
 *
 *     argus_alter(&bank, top, account, ARGUS_SET_FIELD_INT, balance, 7, NULL);
 */
argus_answer argus_alter(argus_guardian *guardian, uint32_t action, uint32_t object, uint32_t change,
                         int64_t first, int64_t second, const char *text);

/* Takes the write lock, and changes nothing. Of two topactions that have read an object, and both want to change it,
 * each is refused ARGUS_CONFLICT as long as the other one is live. So it comes before reading what will be changed. */
argus_answer argus_lock(argus_guardian *guardian, uint32_t action, uint32_t object);

/* The questions by name. */

argus_answer argus_can_read(argus_guardian *guardian, uint32_t action, uint32_t object);
argus_answer argus_can_write(argus_guardian *guardian, uint32_t action, uint32_t object);
argus_answer argus_objects(argus_guardian *guardian);
argus_answer argus_actions(argus_guardian *guardian);
argus_answer argus_entries(argus_guardian *guardian);
argus_answer argus_base(argus_guardian *guardian, uint32_t object);
argus_answer argus_readers(argus_guardian *guardian, uint32_t object);
argus_answer argus_versions(argus_guardian *guardian, uint32_t object);
argus_answer argus_entry(argus_guardian *guardian, uint64_t entry);
argus_answer argus_shape(argus_guardian *guardian, uint32_t object);

/* The number of a record's field, or of a variant's tag, by its name in the object's shape. A program looks it up once,
 * and keeps it:
 *
 *     int64_t balance = argus_field(&bank, account, "balance").number;
 *     argus_ask(&bank, top, account, ARGUS_FIELD, balance);
 *
 * ARGUS_NUMBER; ARGUS_NOT_THERE if the object isn't declared, or has no such name; ARGUS_NO_MEMORY. The shape takes the
 * place of the reply that is kept. */
argus_answer argus_field(argus_guardian *guardian, uint32_t object, const char *name);

argus_answer argus_status_of(argus_guardian *guardian, uint32_t action);

/* With the number after the one that is found it leads to all live actions. */
argus_answer argus_first_live(argus_guardian *guardian, uint32_t from);

argus_answer argus_first_entry(argus_guardian *guardian);

/* A listing: ARGUS_LIST_BASES to ARGUS_LIST_AUDIT. */
argus_answer argus_list(argus_guardian *guardian, uint32_t listing);

#ifdef __cplusplus
}
#endif

#endif
