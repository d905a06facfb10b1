/* Memory that is refused: each allocation in turn, and all after it, of an opening, orders, names, a checkpoint and a
 * copy. The linker puts what stands here before malloc, calloc and realloc; SQLite's come here, too. */
#include "log_bank.h"
#include "log_files.h"
#include "log_modes.h"

#include <inttypes.h>
#include <sqlite3.h>
#include <stdio.h>
#include <stdlib.h>

void *__real_malloc(size_t size);
void *__real_calloc(size_t count, size_t size);
void *__real_realloc(void *old, size_t size);
void *__wrap_malloc(size_t size);
void *__wrap_calloc(size_t count, size_t size);
void *__wrap_realloc(void *old, size_t size);

/* How many allocations are still allowed; below 0 any number is. */
static int64_t left = -1;
static int64_t refusals;
/* How often something was tried. */
static int64_t turn;

static int is_refused(void) {
    if (left == 0) {
        refusals++;
        return 1;
    }
    if (left > 0) left--;
    return 0;
}

void *__wrap_malloc(size_t size) {
    return is_refused() ? NULL : __real_malloc(size);
}

void *__wrap_calloc(size_t count, size_t size) {
    return is_refused() ? NULL : __real_calloc(count, size);
}

void *__wrap_realloc(void *old, size_t size) {
    return is_refused() ? NULL : __real_realloc(old, size);
}

/* SQLite's allocations, each with its size before it. */
enum { BEFORE = 16 };

static void *sqlite_malloc(int size) {
    char *at = is_refused() ? NULL : __real_malloc((size_t)size + BEFORE);
    if (at == NULL) return NULL;
    *(int *)(void *)at = size;
    return at + BEFORE;
}

static void sqlite_free(void *at) {
    if (at != NULL) free((char *)at - BEFORE);
}

static void *sqlite_realloc(void *old, int size) {
    char *at = is_refused() ? NULL : __real_realloc((char *)old - BEFORE, (size_t)size + BEFORE);
    if (at == NULL) return NULL;
    *(int *)(void *)at = size;
    return at + BEFORE;
}

static int sqlite_size(void *at) {
    return at == NULL ? 0 : *(int *)(void *)((char *)at - BEFORE);
}

static int sqlite_round(int size) {
    return (size + 7) / 8 * 8;
}

static int sqlite_begin(void *unused) {
    (void)unused;
    return SQLITE_OK;
}

static void sqlite_end(void *unused) {
    (void)unused;
}

/* What is done with a log while memory is refused; whether all of it was done. What fails says ARGUS_NO_MEMORY, or that
 * the log is broken. */
typedef int work(bank *it, const char *path);

static int is_done(uint32_t status, const char *what) {
    if (status == ARGUS_DONE || status == ARGUS_OBJECT) return 1;
    if (status != ARGUS_NO_MEMORY && status != ARGUS_LOG_IN_DOUBT && status != ARGUS_LOG_BROKEN)
        fprintf(stderr, "%s: %s\n", what, argus_log_status_name(status));
    want(status == ARGUS_NO_MEMORY || status == ARGUS_LOG_IN_DOUBT || status == ARGUS_LOG_BROKEN, what);
    return 0;
}

static int open_it(bank *it, const char *path) {
    return is_done(it->log == NULL ? (uint32_t)ARGUS_NO_MEMORY : argus_log_open(it->log, path, NULL).status, "open");
}

static int write_it(bank *it, const char *path) {
    (void)path;
    uint64_t entries = (uint64_t)argus_entries(&it->guardian).number;
    return is_done(argus_log_wait(it->log, entries).status, "wait");
}

static int name_it(bank *it, const char *path) {
    char name[32];
    (void)path;
    snprintf(name, sizeof name, "new %" PRId64, turn);
    return is_done(argus_log_declare_named(it->log, name, "atomic_array[int]").status, "declare");
}

static int fold_it(bank *it, const char *path) {
    (void)path;
    return is_done(argus_log_checkpoint(it->log).status, "checkpoint");
}

static int copy_it(bank *it, const char *path) {
    char copy[4096];
    snprintf(copy, sizeof copy, "%s.copy", path);
    int is_made = is_done(argus_log_backup(it->log, copy).status, "backup");
    file_remove(copy);
    return is_made;
}

/* Does it with so many allocations. */
static int allowed(int64_t count, work *what, bank *it, const char *path) {
    left = count;
    int is_made = what(it, path);
    left = -1;
    return is_made;
}

/* What is done before memory is refused. */
static int64_t prepare(bank *it, const char *path, work *what) {
    if (what == open_it) {
        *it = (bank){.guardian = ARGUS_CLOSED, .lock = PTHREAD_MUTEX_INITIALIZER};
        it->log = argus_log_new(&it->guardian, &it->lock);
        return 0;
    }
    bank_open(it, path);
    int64_t number = bank_number(it, ACCOUNTS) + 1;
    if (what != write_it && what != fold_it) return number - 1;
    uint64_t entries = bank_begin_order(it, 0, number);
    if (what == write_it) return number - 1;
    want_answer(argus_log_wait(it->log, entries), ARGUS_DONE, "wait");
    return number;
}

/* Each allocation in turn is the first that is refused, until none is. What was acknowledged is there afterwards. */
static void try_each(const char *path, work *what, const char *name) {
    int is_made = 0;
    int64_t count = 0, in_doubt = 0;
    for (; !is_made; count++, turn++) {
        bank it;
        int64_t number = prepare(&it, path, what), before = refusals;
        is_made = allowed(count, what, &it, path);
        want(is_made || refusals > before, "nothing else fails");
        int is_broken = argus_log_broken(it.log);
        in_doubt += is_broken;
        /* What had no memory, and broke nothing, is done when there is some. */
        if (!is_made && !is_broken) want(what(&it, path), "it is done with memory");
        if (!is_broken && what == write_it) number++;
        bank_close(&it);
        bank_open(&it, path);
        want(bank_number(&it, ACCOUNTS) >= number && bank_is_right(&it), "what was acknowledged is there");
        bank_close(&it);
    }
    printf("%s: %" PRId64 " allocations, of which %" PRId64 " broke the log\n", name, count - 1, in_doubt);
}

int log_memory(const char *path) {
    static const sqlite3_mem_methods methods = {sqlite_malloc, sqlite_free,  sqlite_realloc, sqlite_size,
                                                sqlite_round,  sqlite_begin, sqlite_end,     NULL};
    want(sqlite3_config(SQLITE_CONFIG_MALLOC, &methods) == SQLITE_OK, "SQLite takes its memory here");
    /* No pool that is allocated beforehand. */
    sqlite3_config(SQLITE_CONFIG_LOOKASIDE, 0, 0);
    sqlite3_config(SQLITE_CONFIG_PAGECACHE, NULL, 0, 0);
    try_each(path, write_it, "a batch");
    try_each(path, open_it, "an opening");
    try_each(path, name_it, "a name");
    try_each(path, fold_it, "a checkpoint");
    try_each(path, open_it, "an opening after a checkpoint");
    try_each(path, copy_it, "a copy");
    return 0;
}
