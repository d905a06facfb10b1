/* What the calls of a log do: opening, waiting, names, checkpoints, copies, several threads, other processes, and
 * what breaks a log. */
#include "log_bank.h"
#include "log_files.h"
#include "log_modes.h"

#include <inttypes.h>
#include <signal.h>
#include <sqlite3.h>
#include <stdio.h>
#include <stdlib.h>
#include <string.h>
#include <sys/resource.h>
#include <sys/wait.h>
#include <unistd.h>

enum { THREADS = 16, COMMITS = 20, MANY = 20000, LARGE = 1000000, HALF_OF_NUMBERS = 500000, FULL_SIZE = 400000 };

static const char SHAPE[] = "atomic_record[n:int]";
static const char *path;

/* The path with something after it, in one of two rooms. */
static const char *beside(const char *suffix) {
    static char rooms[2][4096];
    static int turn;
    turn = !turn;
    snprintf(rooms[turn], sizeof rooms[turn], "%s%s", path, suffix);
    return rooms[turn];
}

static void start_anew(void) {
    static const char *const suffixes[] = {"", "-wal", "-shm", "-journal", "-owner", ".copy", ".link"};
    for (size_t at = 0; at < sizeof suffixes / sizeof suffixes[0]; at++) file_remove(beside(suffixes[at]));
}

static uint32_t begin(bank *it) {
    return (uint32_t)want_answer(argus_begin_top(&it->guardian), ARGUS_ACTION, "begin");
}

static uint64_t entries_of(bank *it) {
    return (uint64_t)argus_entries(&it->guardian).number;
}

static void try_opened_again(void) {
    bank it;
    start_anew();
    bank_open(&it, path);
    want(bank_order(&it, 1, 1) == ARGUS_DONE, "an order");
    uint32_t top = begin(&it);
    want_answer(argus_alter(&it.guardian, top, 0, ARGUS_SET_FIELD, 0, 0, "7"), ARGUS_DONE, "set");
    uint64_t entries = entries_of(&it);
    want_answer(argus_log_wait(it.log, entries), ARGUS_DONE, "wait");
    bank_close(&it);
    bank_open(&it, path);
    char words[64];
    snprintf(words, sizeof words, "the next one is %" PRIu64, entries);
    want_words(it.log, words);
    want(entries_of(&it) == entries + 1, "what was live is aborted");
    want(bank_is_right(&it) && bank_number(&it, ACCOUNTS + 1) == 1, "it is as it was");
    bank_close(&it);
}

static void try_made_and_opened(void) {
    bank it, other;
    start_anew();
    want(bank_open_log(&it, path, NULL) == ARGUS_LOG_NO_LOG, "no log is there");
    want_answer(argus_log_create(it.log, "/nowhere/bank.db"), ARGUS_LOG_UNREAD, "no folder is there");
    want_words(it.log, "/nowhere/bank.db can't be made");
    want_answer(argus_log_open(it.log, "/dev/null/bank.db", NULL), ARGUS_LOG_UNREAD, "no folder");
    want_answer(argus_log_create(it.log, path), ARGUS_DONE, "create");
    want_answer(argus_log_create(it.log, path), ARGUS_LOG_EXISTS, "create once more");
    want_answer(argus_log_open(it.log, path, NULL), ARGUS_DONE, "open");
    want_words(it.log, "0 entries in 0 batches, the next one is 0");
    want(strlen(argus_log_name(it.log)) == 32, "it has a name");
    want_answer(argus_log_open(it.log, path, NULL), ARGUS_OCCUPIED, "open once more");
    const char *slash = strrchr(path, '/');
    want(symlink(slash == NULL ? path : slash + 1, beside(".link")) == 0, "a link");
    want(bank_open_log(&other, beside(".link"), NULL) == ARGUS_LOG_LOCKED, "another part of the process has it");
    want_words(other.log, "another process has the log, or another part of this one");
    bank_close(&other);
    bank_close(&it);
    want(bank_open_log(&it, beside("?mode=memory#%20"), NULL) == ARGUS_LOG_NO_LOG, "a strange name");
    want_answer(argus_log_create(it.log, beside("?mode=memory#%20")), ARGUS_DONE, "a strange name");
    want_answer(argus_log_open(it.log, beside("?mode=memory#%20"), NULL), ARGUS_DONE, "a strange name");
    bank_close(&it);
    file_remove(beside("?mode=memory#%20"));
    file_remove(beside("?mode=memory#%20-owner"));
}

static void try_nothing(void) {
    bank it = {.guardian = ARGUS_CLOSED, .lock = PTHREAD_MUTEX_INITIALIZER};
    want(argus_log_new(NULL, &it.lock) == NULL && argus_log_new(&it.guardian, NULL) == NULL, "a null pointer");
    it.log = argus_log_new(&it.guardian, &it.lock);
    want_answer(argus_log_wait(it.log, 0), ARGUS_NOT_OPEN, "wait");
    want_answer(argus_log_commit(it.log, 0), ARGUS_NOT_OPEN, "commit");
    want_answer(argus_log_checkpoint(it.log), ARGUS_NOT_OPEN, "checkpoint");
    want_answer(argus_log_backup(it.log, path), ARGUS_NOT_OPEN, "backup");
    want_answer(argus_log_declare_named(it.log, "a", SHAPE), ARGUS_NOT_OPEN, "declare");
    want_answer(argus_log_wait(NULL, 0), ARGUS_NULL, "wait");
    want_answer(argus_log_commit(NULL, 0), ARGUS_NULL, "commit");
    want_answer(argus_log_checkpoint(NULL), ARGUS_NULL, "checkpoint");
    want_answer(argus_log_open(it.log, NULL, NULL), ARGUS_NULL, "open");
    want_answer(argus_log_create(it.log, NULL), ARGUS_NULL, "create");
    want_answer(argus_log_backup(it.log, NULL), ARGUS_NULL, "backup");
    want_answer(argus_log_declare_named(it.log, NULL, SHAPE), ARGUS_NULL, "declare");
    want(argus_log_name(NULL)[0] == '\0' && !argus_log_broken(NULL), "no log");
    want(strcmp(argus_log_status_name(ARGUS_LOG_CUT), "ARGUS_LOG_CUT") == 0, "a name");
    want(strcmp(argus_log_status_name(ARGUS_BUSY), "ARGUS_BUSY") == 0, "a name of argus.h");
    want(strcmp(argus_log_status_name(1000), "?") == 0, "no name");
    argus_log_free(NULL);
    bank_close(&it);
}

static void try_waits(void) {
    bank it;
    start_anew();
    bank_open(&it, path);
    uint32_t top = begin(&it);
    want_answer(argus_log_wait(it.log, entries_of(&it)), ARGUS_DONE, "wait");
    want_answer(argus_log_wait(it.log, entries_of(&it) + 1), ARGUS_NOT_THERE, "no such entry");
    want_answer(argus_log_commit(it.log, top), ARGUS_DONE, "commit");
    argus_answer again = argus_log_commit(it.log, top);
    want(again.status == ARGUS_REFUSED && again.number == ARGUS_OVER, "the guardian's refusal");
    want_answer(argus_log_wait(it.log, entries_of(&it)), ARGUS_DONE, "wait");
    want(argus_log_counted(it.log).next_entry == entries_of(&it), "all entries are in the log");
    bank_close(&it);
}

static void try_names(void) {
    static const char ODD[] = "Gr\xc3\xbc\xc3\x9f' \"e";
    bank it;
    start_anew();
    bank_open(&it, path);
    int64_t number = want_answer(argus_log_declare_named(it.log, ODD, SHAPE), ARGUS_OBJECT, "name");
    want(number == OBJECTS, "the next number");
    want_answer(argus_log_declare_named(it.log, "ann", "atomic_array[int]"), ARGUS_LOG_OTHER_SHAPE, "another shape");
    want_answer(argus_log_declare_named(it.log, "new", "int"), ARGUS_BAD_SHAPE, "no shape");
    want_answer(argus_log_declare_named(it.log, "", SHAPE), ARGUS_BAD_TEXT, "no name");
    want_answer(argus_log_declare_named(it.log, "\xff", SHAPE), ARGUS_NOT_UTF8, "not UTF-8");
    for (int n = 0; n < 3; n++) {
        int64_t objects = argus_objects(&it.guardian).number;
        want(want_answer(argus_log_declare_named(it.log, "first", SHAPE), ARGUS_OBJECT, "name") == 0, "as before");
        want(want_answer(argus_log_declare_named(it.log, "dan", SHAPE), ARGUS_OBJECT, "name") == 6, "as before");
        want(want_answer(argus_log_declare_named(it.log, ODD, SHAPE), ARGUS_OBJECT, "name") == number, "as before");
        want(argus_objects(&it.guardian).number == objects, "nothing is declared");
        if (n == 1) want_answer(argus_log_checkpoint(it.log), ARGUS_DONE, "checkpoint");
        bank_close(&it);
        bank_open(&it, path);
    }
    want_answer(argus_log_declare_named(it.log, "new", SHAPE), ARGUS_OBJECT, "after a checkpoint");
    bank_close(&it);
}

static void try_checkpoints(void) {
    bank it;
    start_anew();
    bank_open(&it, path);
    want(bank_order(&it, 0, 1) == ARGUS_DONE, "an order");
    uint32_t top = begin(&it);
    want_answer(argus_log_checkpoint(it.log), ARGUS_BUSY, "an action is live");
    want_answer(argus_abort(&it.guardian, top), ARGUS_DONE, "abort");
    want_answer(argus_log_checkpoint(it.log), ARGUS_DONE, "checkpoint");
    int64_t entries = argus_entries(&it.guardian).number;
    want(argus_first_entry(&it.guardian).number == entries, "the journal is folded");
    want(argus_log_counted(it.log).next_entry == (uint64_t)entries, "the log has it");
    want(bank_order(&it, 0, 2) == ARGUS_DONE, "an order");
    bank_close(&it);
    bank_open(&it, path);
    want(argus_first_entry(&it.guardian).number == entries, "so it is after an opening");
    want(bank_is_right(&it), "orders are whole");
    for (int n = 0; n < HALF_OF_NUMBERS; n++) argus_abort(&it.guardian, begin(&it));
    want_answer(argus_log_checkpoint(it.log), ARGUS_DONE, "checkpoint");
    want(argus_actions(&it.guardian).number == 0, "the guardian is renewed");
    bank_close(&it);
    bank_open(&it, path);
    want(bank_is_right(&it) && bank_number(&it, ACCOUNTS) == 2, "it is as it was");
    bank_close(&it);
}

/* A program that folds the journal itself. */
static void try_folded_by_others(void) {
    bank it;
    start_anew();
    bank_open(&it, path);
    want_answer(argus_checkpoint(&it.guardian), ARGUS_DONE, "all entries are in the log by then");
    want(bank_order(&it, 0, 1) == ARGUS_DONE, "an order");
    uint64_t entries = bank_begin_order(&it, 0, 2);
    want_answer(argus_checkpoint(&it.guardian), ARGUS_DONE, "these aren't");
    want_answer(argus_log_wait(it.log, entries), ARGUS_LOG_IN_DOUBT, "its entries are gone");
    want_words(it.log, "folded by another call");
    want(argus_log_broken(it.log), "it is broken");
    want_answer(argus_log_wait(it.log, entries), ARGUS_LOG_IN_DOUBT, "still");
    want_answer(argus_log_commit(it.log, begin(&it)), ARGUS_LOG_BROKEN, "no commit is made");
    want_answer(argus_log_checkpoint(it.log), ARGUS_LOG_BROKEN, "no checkpoint");
    want_answer(argus_log_declare_named(it.log, "new", SHAPE), ARGUS_LOG_BROKEN, "nothing is declared");
    want(argus_log_counted(it.log).in_doubt == 2, "that is counted");
    bank_close(&it);
    bank_open(&it, path);
    want(bank_number(&it, ACCOUNTS) == 1, "it has what it had");
    bank_close(&it);
}

/* Somebody has removed the lock, and another process has opened the log. */
static void try_lock_removed(void) {
    bank it, other;
    start_anew();
    bank_open(&it, path);
    file_remove(beside("-owner"));
    bank_open(&other, path);
    want(bank_order(&other, 1, 1) == ARGUS_DONE, "the second one has it");
    want(bank_order(&it, 0, 1) == ARGUS_LOG_IN_DOUBT, "the first one is refused");
    want_words(it.log, "another process has opened it");
    bank_close(&it);
    want(bank_order(&other, 1, 2) == ARGUS_DONE, "the second one goes on");
    bank_close(&other);
    bank_open(&it, path);
    want(bank_number(&it, ACCOUNTS) == 0 && bank_number(&it, ACCOUNTS + 1) == 2, "what stands");
    bank_close(&it);
}

/* Ends a child; the parent has waited for it. */
static void want_child(pid_t child, const char *what) {
    int status = 1;
    want(child > 0 && waitpid(child, &status, 0) == child && status == 0, what);
}

static void try_forked(void) {
    bank it, other;
    start_anew();
    bank_open(&it, path);
    pid_t child = fork();
    if (child == 0) {
        int is_closed = argus_log_wait(it.log, 0).status == ARGUS_NOT_OPEN &&
                        argus_log_checkpoint(it.log).status == ARGUS_NOT_OPEN && !argus_log_broken(it.log);
        argus_log_free(it.log);
        _exit(!is_closed);
    }
    want_child(child, "a forked process has none");
    want(bank_open_log(&other, path, NULL) == ARGUS_LOG_LOCKED, "it is still locked");
    bank_close(&other);
    want(bank_order(&it, 0, 1) == ARGUS_DONE, "the parent goes on");
    bank_close(&it);
    bank_open(&it, path);
    want(bank_number(&it, ACCOUNTS) == 1, "it has what it had");
    bank_close(&it);
}

/* A file that may not grow, as on a full disk. */
static void try_full(void) {
    bank it;
    int ends[2];
    int64_t number = 0, said = 0;
    start_anew();
    want(pipe(ends) == 0, "a pipe");
    pid_t child = fork();
    if (child == 0) {
        bank_open(&it, path);
        signal(SIGXFSZ, SIG_IGN);
        setrlimit(RLIMIT_FSIZE, &(struct rlimit){FULL_SIZE, FULL_SIZE});
        while (bank_order(&it, 0, number + 1) == ARGUS_DONE) number++;
        int is_broken = argus_log_broken(it.log) && write(ends[1], &number, sizeof number) == sizeof number;
        bank_close(&it);
        _exit(!is_broken);
    }
    want_child(child, "the log is broken");
    want(read(ends[0], &said, sizeof said) == sizeof said && said > 3, "some orders were acknowledged");
    close(ends[0]), close(ends[1]);
    bank_open(&it, path);
    number = bank_number(&it, ACCOUNTS);
    want((number == said || number == said + 1) && bank_is_right(&it), "they are there");
    bank_close(&it);
}

/* Several threads at once, each with a client of its own. */
typedef struct client {
    bank *bank;
    int64_t object;
} client;

static void *commit_often(void *argument) {
    client *it = argument;
    for (int number = 1; number <= COMMITS; number++) {
        char text[16];
        snprintf(text, sizeof text, "%d", number);
        pthread_mutex_lock(&it->bank->lock);
        uint32_t top = begin(it->bank);
        argus_alter(&it->bank->guardian, top, (uint32_t)it->object, ARGUS_SET_FIELD, 0, 0, text);
        pthread_mutex_unlock(&it->bank->lock);
        want_answer(argus_log_commit(it->bank->log, top), ARGUS_DONE, "commit");
    }
    return NULL;
}

/* Finds or declares a name that all want, and the client's own. */
static void *declare_both(void *argument) {
    client *it = argument;
    char name[16];
    snprintf(name, sizeof name, "client %d", (int)(it->object % 4));
    it->object = want_answer(argus_log_declare_named(it->bank->log, name, SHAPE), ARGUS_OBJECT, "declare");
    want(want_answer(argus_log_declare_named(it->bank->log, "all", SHAPE), ARGUS_OBJECT, "declare") != it->object,
         "another one");
    return NULL;
}

static void begin_all(client *clients, pthread_t *threads, void *(*work)(void *)) {
    for (int n = 0; n < THREADS; n++) want(pthread_create(&threads[n], NULL, work, &clients[n]) == 0, "a thread");
}

static void end_all(const pthread_t *threads) {
    for (int n = 0; n < THREADS; n++) pthread_join(threads[n], NULL);
}

static void *commit_once(void *argument) {
    client *it = argument;
    pthread_mutex_lock(&it->bank->lock);
    uint32_t top = begin(it->bank);
    pthread_mutex_unlock(&it->bank->lock);
    want_answer(argus_log_commit(it->bank->log, top), ARGUS_DONE, "commit");
    return NULL;
}

/* While another program has the database locked, all commits wait. Then they are written together, but for those that
 * one thread had taken before. */
static void try_together(bank *it, client *clients) {
    pthread_t threads[THREADS];
    sqlite3 *other;
    uint64_t batches = argus_log_counted(it->log).batches;
    pthread_mutex_lock(&it->lock);
    uint64_t all = entries_of(it) + 2 * THREADS, entries = 0;
    pthread_mutex_unlock(&it->lock);
    want(sqlite3_open(path, &other) == SQLITE_OK, "a connection");
    want(sqlite3_exec(other, "BEGIN IMMEDIATE", NULL, NULL, NULL) == SQLITE_OK, "a lock");
    begin_all(clients, threads, commit_once);
    while (entries < all) {
        usleep(1000);
        pthread_mutex_lock(&it->lock);
        entries = entries_of(it);
        pthread_mutex_unlock(&it->lock);
    }
    want(argus_log_counted(it->log).batches == batches, "no commit is acknowledged");
    want(sqlite3_exec(other, "ROLLBACK", NULL, NULL, NULL) == SQLITE_OK, "the lock is given up");
    end_all(threads);
    sqlite3_close(other);
    want(argus_log_counted(it->log).batches <= batches + 2, "commits have waited together");
}

static void try_threads(void) {
    bank it;
    client clients[THREADS];
    pthread_t threads[THREADS];
    start_anew();
    bank_open(&it, path);
    uint32_t top = begin(&it);
    for (int n = 0; n < THREADS; n++) {
        clients[n] = (client){&it, argus_declare(&it.guardian, SHAPE).number};
        argus_alter(&it.guardian, top, (uint32_t)clients[n].object, ARGUS_CREATE, 0, 0, "{0}");
    }
    want_answer(argus_log_commit(it.log, top), ARGUS_DONE, "commit");
    argus_log_counts before = argus_log_counted(it.log);
    begin_all(clients, threads, commit_often);
    end_all(threads);
    argus_log_counts counts = argus_log_counted(it.log);
    want(counts.entries - before.entries == 3 * THREADS * COMMITS, "all entries are in the log");
    try_together(&it, clients);
    bank_close(&it);
    bank_open(&it, path);
    for (int n = 0; n < THREADS; n++)
        want(bank_number(&it, (uint32_t)clients[n].object) == COMMITS, "each has its last commit");
    begin_all(clients, threads, declare_both);
    end_all(threads);
    want(argus_objects(&it.guardian).number == OBJECTS + THREADS + 5, "each name has one object");
    bank_close(&it);
}

static void try_many_entries(void) {
    bank it;
    start_anew();
    bank_open(&it, path);
    uint32_t top = begin(&it);
    uint64_t batches = argus_log_counted(it.log).batches;
    for (int n = 0; n < MANY; n++) argus_alter(&it.guardian, top, ACCOUNTS, ARGUS_SET_FIELD, 0, 0, "3");
    want_answer(argus_log_commit(it.log, top), ARGUS_DONE, "commit");
    want(argus_log_counted(it.log).batches > batches + 1, "they are several batches");
    char *large = malloc(LARGE);
    want(large != NULL, "memory");
    memset(large, 'x', LARGE);
    memcpy(large, "{\"", 2);
    memcpy(large + LARGE - 2, "\"}", 2);
    argus_answer text = argus_log_declare_named(it.log, "text", "atomic_record[t:text]");
    int64_t object = want_answer(text, ARGUS_OBJECT, "text");
    top = begin(&it);
    argus_answer made = argus_call(&it.guardian, ARGUS_CREATE, top, (uint32_t)object, 0, 0, large, LARGE);
    want_answer(made, ARGUS_DONE, "create");
    want_answer(argus_log_commit(it.log, top), ARGUS_DONE, "a line that is longer than a piece");
    free(large);
    bank_close(&it);
    bank_open(&it, path);
    want(bank_number(&it, ACCOUNTS) == 3, "they are there");
    bank_close(&it);
}

static void try_without_wal(void) {
    bank it;
    start_anew();
    want(bank_open_log(&it, path, NULL) == ARGUS_LOG_NO_LOG, "none");
    want_answer(argus_log_create(it.log, path), ARGUS_DONE, "create");
    bank_close(&it);
    pid_t child = fork();
    if (child == 0) {
        want(bank_open_log(&it, path, &(argus_log_options){.is_without_wal = 1}) == ARGUS_DONE, "open");
        want_answer(argus_log_declare_named(it.log, "a", SHAPE), ARGUS_OBJECT, "declare");
        /* As if it were killed. */
        _exit(access(beside("-wal"), F_OK) == 0);
    }
    want_child(child, "there is no WAL");
    bank_open(&it, path);
    want(want_answer(argus_log_declare_named(it.log, "a", SHAPE), ARGUS_OBJECT, "declare") == 0, "it is there");
    bank_close(&it);
}

static void *orders(void *argument) {
    for (int64_t number = 1; number <= COMMITS; number++)
        want(bank_order(argument, 0, number) == ARGUS_DONE, "an order");
    return NULL;
}

static void try_backups(void) {
    bank it, copy;
    pthread_t thread;
    start_anew();
    bank_open(&it, path);
    want(pthread_create(&thread, NULL, orders, &it) == 0, "a thread");
    for (int n = 0; n < 4; n++) {
        file_remove(beside(".copy"));
        want_answer(argus_log_backup(it.log, beside(".copy")), ARGUS_DONE, "backup");
        want(bank_open_log(&copy, beside(".copy"), NULL) == ARGUS_DONE, "the copy is a log");
        want(bank_is_right(&copy) && strcmp(argus_log_name(copy.log), argus_log_name(it.log)) == 0, "the same one");
        bank_close(&copy);
    }
    pthread_join(thread, NULL);
    want_answer(argus_log_backup(it.log, beside(".copy")), ARGUS_LOG_EXISTS, "a file is there");
    bank_close(&it);
    file_remove(beside(".copy-owner"));
}

/* Programs that read, and one that writes, beside the log. */
static void try_others(void) {
    bank it;
    sqlite3 *other;
    start_anew();
    bank_open(&it, path);
    want(sqlite3_open(path, &other) == SQLITE_OK, "a connection");
    want(sqlite3_exec(other, "BEGIN; SELECT * FROM log", NULL, NULL, NULL) == SQLITE_OK, "a reader that stays");
    want(bank_order(&it, 0, 1) == ARGUS_DONE, "an order");
    want_answer(argus_log_checkpoint(it.log), ARGUS_DONE, "checkpoint");
    bank_close(&it);
    bank_open(&it, path);
    want(bank_order(&it, 0, 2) == ARGUS_DONE, "an order");
    want(sqlite3_exec(other, "COMMIT; UPDATE log SET next_entry = next_entry + 1", NULL, NULL, NULL) == SQLITE_OK,
         "a program that writes");
    want(bank_order(&it, 0, 3) == ARGUS_LOG_IN_DOUBT, "is noticed");
    bank_close(&it);
    /* It is the last one to close the database, and so moves the WAL. */
    want(sqlite3_exec(other, "UPDATE log SET next_entry = next_entry - 1, is_open = 0", NULL, NULL, NULL) == SQLITE_OK,
         "undone");
    sqlite3_close(other);
    bank_open(&it, path);
    want(bank_number(&it, ACCOUNTS) == 2, "what stands");
    bank_close(&it);
}

int log_calls(const char *at) {
    path = at;
    try_nothing();
    try_opened_again();
    try_made_and_opened();
    try_waits();
    try_names();
    try_checkpoints();
    try_folded_by_others();
    try_lock_removed();
    try_forked();
    try_full();
    try_threads();
    try_many_entries();
    try_without_wal();
    try_backups();
    try_others();
    printf("each call does what it says\n");
    return 0;
}
