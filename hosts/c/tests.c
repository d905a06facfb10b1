/* Tests of the store and of the header's functions. All are run, and each check that fails
 * is printed. */
#include "clock.h"
#include "modes.h"
#include "store.h"

#include <inttypes.h>
#include <math.h>
#include <stdio.h>
#include <stdlib.h>
#include <string.h>
#include <sys/wait.h>
#include <unistd.h>

static int failed;

#define CHECK(fact) check((fact) != 0, #fact, __func__)

static void check(int is_so, const char *fact, const char *where) {
    if (is_so) return;
    failed = 1;
    fprintf(stderr, "%s: not %s\n", where, fact);
}

/* A thread that reads a record and then sets it, itself or by a subaction. */
typedef struct upgrade {
    store *it;
    uint32_t object;
    int is_by_subaction, is_had;
    pthread_barrier_t *both_have_read;
} upgrade;

static void *read_and_set(void *given) {
    upgrade *it = given;
    int64_t number;
    store_action top = store_begin_top(it->it), sub;
    CHECK(store_get(it->it, &top, it->object, &number));
    pthread_barrier_wait(it->both_have_read);
    if (it->is_by_subaction) sub = store_begin_sub(it->it, &top);
    it->is_had = store_set(it->it, it->is_by_subaction ? &sub : &top, it->object, number + 1);
    if (it->is_had && it->is_by_subaction) store_commit(it->it, &sub);
    if (it->is_had)
        store_commit(it->it, &top);
    else
        store_abort(it->it, &top);
    return NULL;
}

/* Of two that read a record and want to set it, one is refused at once, and the other goes on. */
static void test_upgrade(int is_by_subaction) {
    store records;
    pthread_t threads[2];
    pthread_barrier_t both;
    upgrade upgrades[2];
    store_open(&records, 0);
    records.patience = is_by_subaction ? 60 : INFINITY;
    uint32_t object = store_declare(&records, 5);
    pthread_barrier_init(&both, NULL, 2);
    double begin = clock_seconds();
    for (int at = 0; at < 2; at++) {
        upgrades[at] = (upgrade){&records, object, is_by_subaction, 0, &both};
        CHECK(pthread_create(&threads[at], NULL, read_and_set, &upgrades[at]) == 0);
    }
    for (int at = 0; at < 2; at++) pthread_join(threads[at], NULL);
    CHECK(clock_seconds() - begin < 30);
    CHECK(upgrades[0].is_had + upgrades[1].is_had == 1);
    CHECK(store_base(&records, object) == 6);
    pthread_barrier_destroy(&both);
    store_close(&records);
}

/* A call waits for a held lock as long as patience lasts, and then gives up. */
static void test_patience(void) {
    store records;
    int64_t number;
    store_open(&records, 0);
    records.patience = 0.02;
    uint32_t object = store_declare(&records, 5);
    store_action holder = store_begin_top(&records), waiter = store_begin_top(&records);
    CHECK(store_lock(&records, &holder, object));
    double begin = clock_seconds();
    CHECK(!store_get(&records, &waiter, object, &number));
    CHECK(!store_lock(&records, &waiter, object));
    CHECK(clock_seconds() - begin >= 0.04);
    store_close(&records);
}

/* A fold that is asked for counts as the last one. */
static void test_fold(void) {
    store records;
    store_open(&records, 1000);
    store_declare(&records, 5);
    CHECK(records.folded_at == 0);
    store_fold(&records);
    CHECK(records.folded_at == store_entries(&records));
    store_close(&records);
}

/* More topactions than a guardian has numbers for. */
static void test_renewal(void) {
    store records;
    store_open(&records, 1000);
    uint32_t object = store_declare(&records, 5);
    for (int turn = 0; turn < 1100000; turn++) {
        store_action top = store_begin_top(&records);
        store_abort(&records, &top);
    }
    CHECK(argus_actions(&records.guardian).number < 1000000);
    CHECK(store_base(&records, object) == 5);
    store_close(&records);
}

/* The example of argus.h: opens an account with this content. If that fails, prints why and returns
 * 0. */
static int open_account(argus_guardian *bank, const char *content) {
    argus_answer account = argus_declare(bank, "atomic_record[balance:int]"), top, answer;
    if (account.status != ARGUS_OBJECT) return fprintf(stderr, "%s\n", argus_answer_name(account)), 0;
    top = argus_begin_top(bank);
    if (top.status != ARGUS_ACTION) return fprintf(stderr, "%s\n", argus_answer_name(top)), 0;
    answer = argus_alter(bank, (uint32_t)top.number, (uint32_t)account.number, ARGUS_CREATE, 0, 0, content);
    if (answer.status == ARGUS_DONE) answer = argus_commit(bank, (uint32_t)top.number);
    if (answer.status == ARGUS_DONE) return 1;
    argus_abort(bank, (uint32_t)top.number);
    return fprintf(stderr, "%s\n", argus_answer_name(answer)), 0;
}

static void test_example(void) {
    argus_guardian bank = ARGUS_CLOSED;
    CHECK(argus_open(&bank).status == ARGUS_DONE);
    CHECK(open_account(&bank, "{5}"));
    /* Neither is a content of that shape. The topaction is aborted, so a checkpoint can be made. */
    CHECK(!open_account(&bank, "{true}"));
    CHECK(!open_account(&bank, "{"));
    CHECK(argus_checkpoint(&bank).status == ARGUS_DONE);
    CHECK(argus_close(&bank).status == ARGUS_DONE);
}

/* The example of argus.h: writes the action's commit to the log and then makes it. Returns 1 if it
 * has committed. */
static int commit_logged(argus_guardian *bank, uint32_t action, FILE *log) {
    char line[64];
    argus_ready ready = ARGUS_NOTHING_READY;
    argus_answer answer = argus_ready_commit(bank, &ready, action);
    if (answer.status != ARGUS_DONE) return fprintf(stderr, "%s\n", argus_answer_name(answer)), 0;
    answer = argus_ready_line(&ready, line, sizeof line);
    if (answer.status == ARGUS_DONE && fwrite(line, (size_t)answer.number, 1, log) == 1 && fflush(log) == 0)
        return argus_make_ready(&ready, bank).status == ARGUS_DONE;
    argus_cancel_ready(&ready, bank);
    return 0;
}

/* An account with 5, which topaction 0 has created and not yet committed. */
static void create_account(argus_guardian *bank) {
    CHECK(argus_open(bank).status == ARGUS_DONE);
    CHECK(argus_declare(bank, "atomic_record[balance:int]").status == ARGUS_OBJECT);
    CHECK(argus_begin_top(bank).status == ARGUS_ACTION);
    CHECK(argus_alter(bank, 0, 0, ARGUS_CREATE, 0, 0, "{5}").status == ARGUS_DONE);
}

/* Whether the object's base is this text. */
static int base_is(argus_guardian *bank, uint32_t object, const char *text) {
    char room[16];
    argus_answer answer = argus_base(bank, object);
    if (answer.status == ARGUS_TEXT) answer = argus_reply(bank, room, sizeof room);
    return answer.status == ARGUS_DONE && (size_t)answer.number == strlen(text) && !memcmp(room, text, strlen(text));
}

/* The log has the lines that the journal then has: of a commit, and of one that is refused. */
static void test_commit_logged(void) {
    argus_guardian bank = ARGUS_CLOSED;
    static const char wanted[] = "3 commit a0 -> done\n4 commit a0 -> refused Over\n";
    char logged[sizeof wanted] = "", listed[sizeof wanted] = "";
    uint64_t count = 0;
    FILE *log = tmpfile();
    CHECK(log != NULL);
    if (log == NULL) return;
    create_account(&bank);
    CHECK(commit_logged(&bank, 0, log));
    CHECK(base_is(&bank, 0, "{5}"));
    CHECK(!commit_logged(&bank, 0, log));
    rewind(log);
    CHECK(fread(logged, 1, sizeof wanted, log) == sizeof wanted - 1 && strcmp(logged, wanted) == 0);
    CHECK(argus_lines(&bank, 3, listed, sizeof wanted - 1, &count).status == ARGUS_DONE && count == 2);
    CHECK(strcmp(listed, wanted) == 0);
    CHECK(fclose(log) == 0);
    CHECK(argus_close(&bank).status == ARGUS_DONE);
}

/* If the log can't be written, nothing is committed, and the action stays live. */
static void test_commit_cancelled(void) {
    argus_guardian bank = ARGUS_CLOSED;
    FILE *log = fopen("/dev/full", "w");
    CHECK(log != NULL);
    if (log == NULL) return;
    create_account(&bank);
    CHECK(!commit_logged(&bank, 0, log));
    CHECK(argus_entries(&bank).number == 3 && argus_status_of(&bank, 0).number == ARGUS_LIVE);
    CHECK(base_is(&bank, 0, "absent"));
    CHECK(argus_commit(&bank, 0).status == ARGUS_DONE);
    CHECK(base_is(&bank, 0, "{5}"));
    fclose(log);
    CHECK(argus_close(&bank).status == ARGUS_DONE);
}

/* The example of argus.h: the guardian of a journal that a file keeps, in `bank`, which is open.
 * What comes after the last line feed was cut off as it was written. Returns 0 if a line is longer
 * than the buffer, or the file can't be read. */
static int read_bank(argus_guardian *bank, FILE *file) {
    char text[4096];
    size_t held = 0, read, bytes, lines;
    argus_answer taken;
    while ((read = fread(text + held, 1, sizeof text - held, file)) > 0) {
        held += read;
        taken = argus_resume(bank, text, held, &bytes, &lines);
        if (taken.status != ARGUS_DONE) return fprintf(stderr, "%s\n", argus_answer_name(taken)), 0;
        memmove(text, text + bytes, held -= bytes);
    }
    if (!feof(file)) return 0;
    return argus_resumed(bank).status == ARGUS_DONE;
}

/* Reads the guardian of a file with a text of this length in a line, and with a line that was cut off. */
static int read_back(argus_guardian *bank, size_t length) {
    FILE *file = tmpfile();
    int is_read = 0;
    if (file == NULL) return 0;
    fputs("0 declare atomic_record[t:text] -> o0\n1 begin_top -> a0\n2 alter a0 o0 create {\"", file);
    for (size_t written = 0; written < length; written++) fputc('x', file);
    fputs("\"} -> done\n3 commit a0 -> done\n4 begin_top -> a", file);
    rewind(file);
    is_read = argus_open(bank).status == ARGUS_DONE && read_bank(bank, file);
    fclose(file);
    return is_read;
}

static void test_read_bank(void) {
    argus_guardian bank = ARGUS_CLOSED;
    CHECK(read_back(&bank, 3000));
    CHECK(argus_entries(&bank).number == 4 && argus_status_of(&bank, 0).number == ARGUS_COMMITTED);
    CHECK(argus_close(&bank).status == ARGUS_DONE);
    CHECK(!read_back(&bank, 5000));
    CHECK(argus_entries(&bank).number == 0);
    CHECK(argus_close(&bank).status == ARGUS_DONE);
}

/* Two guardians side by side: each has what its own calls left, and no text before its first
 * reply. */
static void test_beside(void) {
    argus_guardian bank = ARGUS_CLOSED, branch = ARGUS_CLOSED;
    CHECK(argus_open(&bank).status == ARGUS_DONE);
    CHECK(open_account(&bank, "{5}"));
    CHECK(argus_open_beside(&branch, &bank).status == ARGUS_DONE);
    CHECK(argus_reply(&branch, NULL, 0).status == ARGUS_NOT_THERE);
    CHECK(argus_objects(&branch).number == 0 && argus_actions(&branch).number == 0);
    CHECK(argus_objects(&bank).number == 1 && argus_actions(&bank).number == 1);
    CHECK(open_account(&branch, "{6}"));
    CHECK(argus_close(&branch).status == ARGUS_DONE);
    CHECK(argus_objects(&bank).number == 1 && argus_actions(&bank).number == 1);
    CHECK(argus_close(&bank).status == ARGUS_DONE);
}

static void test_names(void) {
    for (uint32_t status = ARGUS_DONE; status <= ARGUS_BAD_DEMAND; status++)
        CHECK(strncmp(argus_status_name(status), "ARGUS_", 6) == 0);
    for (int64_t signal = ARGUS_ABSENT; signal <= ARGUS_LIMITS; signal++)
        CHECK(strncmp(argus_signal_name(signal), "ARGUS_", 6) == 0);
    for (int64_t refusal = ARGUS_NO_ACTION; refusal <= ARGUS_NO_SIBLINGS; refusal++)
        CHECK(strncmp(argus_refusal_name(refusal), "ARGUS_", 6) == 0);
    CHECK(strcmp(argus_status_name(ARGUS_BAD_TEXT), "ARGUS_BAD_TEXT") == 0);
    CHECK(strcmp(argus_status_name(ARGUS_OCCUPIED), "ARGUS_OCCUPIED") == 0);
    CHECK(strcmp(argus_status_name(32), "?") == 0);
    CHECK(strcmp(argus_signal_name(0), "?") == 0 && strcmp(argus_refusal_name(10), "?") == 0);
    CHECK(strcmp(argus_answer_name((argus_answer){ARGUS_REFUSED, ARGUS_CONFLICT}), "ARGUS_CONFLICT") == 0);
    CHECK(strcmp(argus_answer_name((argus_answer){ARGUS_SIGNAL, ARGUS_BOUNDS}), "ARGUS_BOUNDS") == 0);
    CHECK(strcmp(argus_answer_name((argus_answer){ARGUS_ACTION, 6}), "ARGUS_ACTION") == 0);
}

static void test_version(void) {
    char version[32];
    snprintf(version, sizeof version, "%d.%d.%d", ARGUS_VERSION_MAJOR, ARGUS_VERSION_MINOR, ARGUS_VERSION_PATCH);
    CHECK(strcmp(version, ARGUS_VERSION) == 0);
    CHECK(ARGUS_VERSION_NUMBER == 10000 * ARGUS_VERSION_MAJOR + 100 * ARGUS_VERSION_MINOR + ARGUS_VERSION_PATCH);
    CHECK(argus_version() == ARGUS_VERSION_NUMBER);
}

static uint32_t declared(argus_guardian *guardian, const char *shape) {
    return argus_declare(guardian, shape).status;
}

/* What the header says about written forms and limits. */
static void test_grammar(void) {
    argus_guardian guardian = ARGUS_CLOSED;
    CHECK(argus_open(&guardian).status == ARGUS_DONE);
    CHECK(declared(&guardian, "atomic_record[a:null,b:bool,c:int,d:text,e:atomic,f:sequence[int],"
                              "g:struct[a:int,b:bool],h:oneof[no:null,yes:text]]") == ARGUS_OBJECT);
    CHECK(declared(&guardian, "atomic_array[int]") == ARGUS_OBJECT);
    CHECK(declared(&guardian, "atomic_variant[no:null,yes:int]") == ARGUS_OBJECT);
    CHECK(declared(&guardian, "atomic_record[a:int, b:int]") == ARGUS_BAD_SHAPE);
    CHECK(declared(&guardian, "atomic_record[a:int,a:int]") == ARGUS_BAD_SHAPE);
    CHECK(declared(&guardian, "atomic_record[A:int]") == ARGUS_BAD_SHAPE);
    CHECK(declared(&guardian, "atomic_record[abcdefghijklmnopqrstuvwxyz_0123456:int]") == ARGUS_BAD_SHAPE);
    uint32_t top = (uint32_t)argus_begin_top(&guardian).number;
    const char *content = "{null,true,-5,\"a \\\"\\\\\\n\",@2,[1,2],{1,true},<1:\"no\">}";
    CHECK(argus_alter(&guardian, top, 0, ARGUS_CREATE, 0, 0, content).status == ARGUS_DONE);
    CHECK(argus_alter(&guardian, top, 1, ARGUS_CREATE, 0, 0, "1[10,20]").status == ARGUS_DONE);
    CHECK(argus_alter(&guardian, top, 2, ARGUS_CREATE, 0, 0, "<1:5>").status == ARGUS_DONE);
    for (int at = 0; at < 4; at++) {
        static const char *const numbers[] = {"+1", "-0", "01", "1 "};
        CHECK(argus_alter(&guardian, top, 1, ARGUS_STORE, 1, 0, numbers[at]).status == ARGUS_BAD_TEXT);
    }
    CHECK(argus_alter(&guardian, top, 1, ARGUS_SET_LOW, INT64_C(2147483647), 0, NULL).number == ARGUS_LIMITS);
    CHECK(argus_lock(&guardian, top, 1).status == ARGUS_DONE);
    CHECK(argus_lock(&guardian, top, 3).number == ARGUS_NO_OBJECT);
    CHECK(argus_lock(NULL, top, 1).status == ARGUS_NULL);
    CHECK(argus_close(&guardian).status == ARGUS_DONE);
}

static int is_answer(argus_answer answer, uint32_t status, int64_t number) {
    return answer.status == status && answer.number == number;
}

/* Fields and tags by their names: those of the shape itself, and not those of types in it. */
static void test_fields(void) {
    static const char *const names[] = {"a", "bc", "d", "b"};
    argus_guardian guardian = ARGUS_CLOSED, held = ARGUS_CLOSED;
    CHECK(is_answer(argus_field(&guardian, 0, "a"), ARGUS_NOT_OPEN, 0));
    CHECK(argus_open(&guardian).status == ARGUS_DONE);
    CHECK(declared(&guardian, "atomic_record[a:struct[x:int,d:int],bc:oneof[n:null],d:int,b:int]") == ARGUS_OBJECT);
    CHECK(declared(&guardian, "atomic_variant[no:null,yes:struct[no:int]]") == ARGUS_OBJECT);
    CHECK(declared(&guardian, "atomic_array[struct[a:int]]") == ARGUS_OBJECT);
    for (int64_t at = 0; at < 4; at++) CHECK(is_answer(argus_field(&guardian, 0, names[at]), ARGUS_NUMBER, at));
    CHECK(is_answer(argus_field(&guardian, 1, "yes"), ARGUS_NUMBER, 1));
    CHECK(is_answer(argus_field(&guardian, 0, "x"), ARGUS_NOT_THERE, 0));
    CHECK(is_answer(argus_field(&guardian, 0, "c"), ARGUS_NOT_THERE, 0));
    CHECK(is_answer(argus_field(&guardian, 0, ""), ARGUS_NOT_THERE, 0));
    CHECK(is_answer(argus_field(&guardian, 0, "d:int"), ARGUS_NOT_THERE, 0));
    CHECK(is_answer(argus_field(&guardian, 2, "a"), ARGUS_NOT_THERE, 0));
    CHECK(is_answer(argus_field(&guardian, 3, "a"), ARGUS_NOT_THERE, 0));
    CHECK(is_answer(argus_field(NULL, 0, "a"), ARGUS_NULL, 0));
    CHECK(is_answer(argus_field(&guardian, 0, NULL), ARGUS_NULL, 0));
    CHECK(argus_hold(&guardian, &held).status == ARGUS_DONE);
    CHECK(is_answer(argus_field(&guardian, 0, "a"), ARGUS_REENTERED, 0));
    CHECK(argus_release(&guardian, &held).status == ARGUS_DONE);
    CHECK(argus_close(&guardian).status == ARGUS_DONE);
}

/* A call is read while its guardian is in another call, and made once that is over. */
static void test_parsed(void) {
    argus_guardian bank = ARGUS_CLOSED, held = ARGUS_CLOSED;
    argus_parsed parsed = ARGUS_NOTHING_PARSED;
    CHECK(argus_open(&bank).status == ARGUS_DONE);
    CHECK(declared(&bank, "atomic_record[n:int]") == ARGUS_OBJECT);
    CHECK(argus_begin_top(&bank).status == ARGUS_ACTION);
    CHECK(argus_hold(&bank, &held).status == ARGUS_DONE);
    CHECK(is_answer(argus_parse(&parsed, ARGUS_CREATE, 0, 0, 0, 0, "{5}", 3), ARGUS_DONE, 0));
    /* What can't be read leaves what was. */
    CHECK(is_answer(argus_parse(&parsed, ARGUS_CREATE, 0, 0, 0, 0, "{6", 2), ARGUS_BAD_TEXT, 2));
    CHECK(is_answer(argus_call_parsed(&bank, &parsed), ARGUS_REENTERED, 0));
    CHECK(argus_release(&bank, &held).status == ARGUS_DONE);
    CHECK(argus_entries(&bank).number == 2);
    CHECK(is_answer(argus_call_parsed(&bank, &parsed), ARGUS_DONE, 0));
    CHECK(is_answer(argus_ask(&bank, 0, 0, ARGUS_FIELD, 0), ARGUS_NUMBER, 5));
    CHECK(is_answer(argus_call_parsed(&bank, &parsed), ARGUS_NOT_THERE, 0));
    /* What is read later takes the place of what was. */
    CHECK(is_answer(argus_parse(&parsed, ARGUS_SET_FIELD, 0, 0, 0, 0, "6", 1), ARGUS_DONE, 0));
    CHECK(is_answer(argus_parse(&parsed, ARGUS_SET_FIELD, 0, 0, 0, 0, "7", 1), ARGUS_DONE, 0));
    CHECK(is_answer(argus_call_parsed(&bank, &parsed), ARGUS_DONE, 0));
    CHECK(is_answer(argus_ask(&bank, 0, 0, ARGUS_FIELD, 0), ARGUS_NUMBER, 7));
    CHECK(argus_close(&bank).status == ARGUS_DONE);
}

/* A call that is read and not made. */
static void test_parsed_and_dropped(void) {
    argus_guardian bank = ARGUS_CLOSED;
    argus_parsed parsed = ARGUS_NOTHING_PARSED;
    CHECK(is_answer(argus_drop_parsed(&parsed), ARGUS_NOT_THERE, 0));
    CHECK(is_answer(argus_parse(&parsed, ARGUS_BEGIN_TOP, 0, 0, 0, 0, NULL, 0), ARGUS_DONE, 0));
    CHECK(is_answer(argus_call_parsed(&bank, &parsed), ARGUS_NOT_OPEN, 0));
    CHECK(is_answer(argus_drop_parsed(&parsed), ARGUS_DONE, 0));
    CHECK(is_answer(argus_drop_parsed(&parsed), ARGUS_NOT_THERE, 0));
    CHECK(is_answer(argus_parse(NULL, ARGUS_BEGIN_TOP, 0, 0, 0, 0, NULL, 0), ARGUS_NULL, 0));
    CHECK(is_answer(argus_parse(&parsed, ARGUS_DECLARE, 0, 0, 0, 0, NULL, 1), ARGUS_NULL, 0));
    CHECK(is_answer(argus_call_parsed(NULL, &parsed), ARGUS_NULL, 0));
    CHECK(is_answer(argus_call_parsed(&bank, NULL), ARGUS_NULL, 0));
    CHECK(is_answer(argus_drop_parsed(NULL), ARGUS_NULL, 0));
}

/* The example of argus_parse. */
static argus_answer create(argus_guardian *bank, pthread_mutex_t *lock, uint32_t action, uint32_t object,
                           const char *content) {
    argus_parsed parsed = ARGUS_NOTHING_PARSED;
    argus_answer answer = argus_parse(&parsed, ARGUS_CREATE, action, object, 0, 0, content, strlen(content));
    if (answer.status != ARGUS_DONE) return answer;
    pthread_mutex_lock(lock);
    answer = argus_call_parsed(bank, &parsed);
    pthread_mutex_unlock(lock);
    return answer;
}

static void test_create(void) {
    argus_guardian bank = ARGUS_CLOSED;
    pthread_mutex_t lock = PTHREAD_MUTEX_INITIALIZER;
    CHECK(argus_open(&bank).status == ARGUS_DONE);
    CHECK(declared(&bank, "atomic_record[n:int]") == ARGUS_OBJECT);
    CHECK(argus_begin_top(&bank).status == ARGUS_ACTION);
    CHECK(is_answer(create(&bank, &lock, 0, 0, "{5}"), ARGUS_DONE, 0));
    CHECK(is_answer(create(&bank, &lock, 0, 0, "{5}"), ARGUS_SIGNAL, ARGUS_EXISTS));
    CHECK(argus_close(&bank).status == ARGUS_DONE);
}

/* A forked process has a guardian of its own: what one process does, the other doesn't see. */
static void test_fork(void) {
    argus_guardian guardian = ARGUS_CLOSED;
    int status = 0;
    CHECK(argus_open(&guardian).status == ARGUS_DONE);
    CHECK(declared(&guardian, "atomic_array[int]") == ARGUS_OBJECT);
    fflush(NULL);
    pid_t child = fork();
    if (child == 0) {
        int is_so = declared(&guardian, "atomic_array[int]") == ARGUS_OBJECT && argus_objects(&guardian).number == 2;
        _exit(is_so && argus_close(&guardian).status == ARGUS_DONE ? 0 : 1);
    }
    CHECK(child > 0 && waitpid(child, &status, 0) == child && status == 0);
    CHECK(argus_objects(&guardian).number == 1);
    CHECK(argus_close(&guardian).status == ARGUS_DONE);
    CHECK(argus_close(&guardian).status == ARGUS_NOT_OPEN);
    CHECK(argus_entries(&guardian).status == ARGUS_NOT_OPEN);
}

int tests(void) {
    test_fork();
    test_example();
    test_commit_logged();
    test_commit_cancelled();
    test_read_bank();
    test_beside();
    test_names();
    test_version();
    test_grammar();
    test_fields();
    test_parsed();
    test_parsed_and_dropped();
    test_create();
    test_upgrade(0);
    test_upgrade(1);
    test_patience();
    test_fold();
    test_renewal();
    return failed;
}
