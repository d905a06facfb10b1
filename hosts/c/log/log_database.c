/* The transactions by which a log is written. */
#include "log_database.h"

#include "log_connection.h"

#include <inttypes.h>
#include <string.h>
#include <time.h>

/* What a transaction does beside moving the log's end. */
typedef struct deed {
    const log_batch *batch;
    const log_text *opening; /* in place of all rows, if it isn't NULL */
} deed;

/* A transaction that found no memory is made again later. After any other fault nothing is tried again, because a
 * system may forget what it couldn't write, and say of the next sync that all is well. */
static uint32_t failed(log_words *words, sqlite3 *database) {
    if (sqlite3_errcode(database) == SQLITE_NOMEM) return log_fail_as_sqlite(words, NULL);
    return log_fail(words, ARGUS_LOG_BROKEN, "the log couldn't be written: %s", sqlite3_errmsg(database));
}

static uint32_t prepare(sqlite3 *database, const char *text, sqlite3_stmt **statement, log_words *words) {
    if (sqlite3_prepare_v3(database, text, -1, SQLITE_PREPARE_PERSISTENT, statement, NULL) == SQLITE_OK)
        return ARGUS_DONE;
    return log_fail_as_sqlite(words, database);
}

uint32_t log_database_begin(log_database *it, const log_head *head, log_words *words) {
    memcpy(it->name, head->name, sizeof it->name);
    it->epoch = head->epoch;
    it->is_open = head->is_open;
    it->end = (log_end){head->next_entry, head->sum};
    uint32_t status = prepare(it->writing, "BEGIN IMMEDIATE", &it->begin, words);
    if (status == ARGUS_DONE)
        status = prepare(it->writing,
                         "UPDATE log SET next_entry=?, sum=?, is_open=?, epoch=?, version=?"
                         " WHERE epoch=? AND next_entry=? AND sum=?",
                         &it->move, words);
    if (status == ARGUS_DONE) status = prepare(it->writing, "INSERT INTO batch VALUES (?, ?, ?)", &it->insert, words);
    if (status == ARGUS_DONE) status = prepare(it->writing, "COMMIT", &it->commit, words);
    /* Beforehand, since there may be no memory for it then. */
    if (status == ARGUS_DONE) status = prepare(it->writing, "ROLLBACK", &it->rollback, words);
    return status;
}

/* Carries out a statement, and makes it ready for another time. */
static int stepped(sqlite3_stmt *statement) {
    int code = sqlite3_step(statement);
    int reset = sqlite3_reset(statement);
    return code == SQLITE_ROW || code == SQLITE_DONE ? code : reset;
}

/* The same when other processes have given up their locks: until then nothing has changed. */
static int stepped_patiently(sqlite3_stmt *statement) {
    int code;
    do code = stepped(statement);
    while (code == SQLITE_BUSY);
    return code;
}

/* Moves the log's end. Nothing is done if the end isn't ours. */
static uint32_t move(log_database *it, log_end end, int64_t epoch, log_words *words) {
    int64_t numbers[] = {end.next_entry, end.sum, it->is_open, epoch};
    int64_t wanted[] = {it->epoch, it->end.next_entry, it->end.sum};
    int code = sqlite3_bind_text(it->move, 5, ARGUS_VERSION, -1, SQLITE_STATIC);
    for (int at = 0; at < 4 && code == SQLITE_OK; at++) code = sqlite3_bind_int64(it->move, at + 1, numbers[at]);
    for (int at = 0; at < 3 && code == SQLITE_OK; at++) code = sqlite3_bind_int64(it->move, at + 6, wanted[at]);
    if (code != SQLITE_OK || stepped(it->move) != SQLITE_DONE) return failed(words, it->writing);
    if (sqlite3_changes(it->writing) == 1) return ARGUS_DONE;
    return log_fail(words, ARGUS_LOG_BROKEN, "the log couldn't be written: another process has opened it");
}

/* Where the log ends with these lines, after where it ended before them. */
static log_end end_after(const log_database *it, const log_batch *batch, log_end before) {
    if (batch->entries == 0) return before;
    return (log_end){batch->first + batch->entries,
                     log_summed(it->name, batch->first, before.sum, batch->lines, batch->size)};
}

/* Writes the lines, if there are any, with the sum of the chain that they end. */
static uint32_t insert(log_database *it, const log_batch *batch, int64_t sum, log_words *words) {
    if (batch->entries == 0) return ARGUS_DONE;
    int code = sqlite3_bind_int64(it->insert, 1, batch->first);
    if (code == SQLITE_OK)
        code = sqlite3_bind_text64(it->insert, 2, batch->lines, batch->size, SQLITE_STATIC, SQLITE_UTF8);
    if (code == SQLITE_OK) code = sqlite3_bind_int64(it->insert, 3, sum);
    if (code == SQLITE_OK && stepped(it->insert) == SQLITE_DONE) return ARGUS_DONE;
    return failed(words, it->writing);
}

/* Writes names. The rows of objects are those of the last checkpoint, so that of this one may be missing. */
static uint32_t write_names(sqlite3 *database, const log_batch *batch, log_words *words) {
    static const char TEXT[] = "INSERT INTO object (number, name, shape) VALUES (?, ?, ?)"
                               " ON CONFLICT (number) DO UPDATE SET name = excluded.name";
    sqlite3_stmt *row;
    int code = SQLITE_DONE;
    const log_name *at = batch->names;
    if (batch->names_count == 0) return ARGUS_DONE;
    if (sqlite3_prepare_v2(database, TEXT, -1, &row, NULL) != SQLITE_OK) return failed(words, database);
    for (size_t left = batch->names_count; left > 0 && code == SQLITE_DONE; left--) {
        code = sqlite3_bind_int64(row, 1, at->object);
        if (code == SQLITE_OK) code = sqlite3_bind_text(row, 2, at->name, -1, SQLITE_STATIC);
        if (code == SQLITE_OK) code = sqlite3_bind_text(row, 3, at->shape, -1, SQLITE_STATIC);
        if (code == SQLITE_OK) code = stepped(row);
        if (left > 1) at = at->next;
    }
    uint32_t status = code == SQLITE_DONE ? (uint32_t)ARGUS_DONE : failed(words, database);
    sqlite3_finalize(row);
    return status;
}

/* Writes a line of the opening, and what it says of an object, as in `opening o0 atomic_record[balance:int] {5}`. */
static int write_line(sqlite3_stmt *line, sqlite3_stmt *object, int64_t number, const char *text, size_t size) {
    int code = sqlite3_bind_int64(line, 1, number);
    if (code == SQLITE_OK) code = sqlite3_bind_text64(line, 2, text, size, SQLITE_STATIC, SQLITE_UTF8);
    if (code == SQLITE_OK) code = stepped(line);
    if (number == 0 || code != SQLITE_DONE) return code;
    const char *end = text + size, *name = memchr(text, ' ', size);
    const char *shape = name == NULL ? NULL : memchr(name + 1, ' ', (size_t)(end - name - 1));
    const char *base = shape == NULL ? NULL : memchr(shape + 1, ' ', (size_t)(end - shape - 1));
    if (base == NULL) return SQLITE_INTERNAL;
    int is_absent = end - base == 7 && memcmp(base, " absent", 7) == 0;
    code = sqlite3_bind_int64(object, 1, number - 1);
    if (code == SQLITE_OK) code = sqlite3_bind_text(object, 2, shape + 1, (int)(base - shape - 1), SQLITE_STATIC);
    if (code == SQLITE_OK && is_absent) code = sqlite3_bind_null(object, 3);
    else if (code == SQLITE_OK)
        code = sqlite3_bind_text64(object, 3, base + 1, (sqlite3_uint64)(end - base - 1), SQLITE_STATIC, SQLITE_UTF8);
    return code == SQLITE_OK ? stepped(object) : code;
}

/* Writes the opening's lines. Objects keep the names that they have. */
static int write_lines(sqlite3 *database, const log_text *opening) {
    sqlite3_stmt *line = NULL, *object = NULL;
    const char *at = opening->bytes, *end = at + opening->size;
    int code = sqlite3_prepare_v2(database, "INSERT INTO opening VALUES (?, ?)", -1, &line, NULL);
    if (code == SQLITE_OK)
        code = sqlite3_prepare_v2(database,
                                  "INSERT INTO object (number, shape, base) VALUES (?, ?, ?) ON CONFLICT (number)"
                                  " DO UPDATE SET shape = excluded.shape, base = excluded.base",
                                  -1, &object, NULL);
    if (code == SQLITE_OK) code = SQLITE_DONE;
    for (int64_t number = 0; code == SQLITE_DONE && at < end; number++) {
        const char *feed = memchr(at, '\n', (size_t)(end - at));
        if (feed == NULL) feed = end;
        code = write_line(line, object, number, at, (size_t)(feed - at));
        at = feed + 1;
    }
    sqlite3_finalize(line);
    sqlite3_finalize(object);
    return code;
}

/* Puts an opening in place of all rows. */
static uint32_t write_opening(sqlite3 *database, const log_text *opening, log_words *words) {
    static const char EMPTIED[] = "DELETE FROM batch; DELETE FROM opening";
    int code = sqlite3_exec(database, EMPTIED, NULL, NULL, NULL);
    if (code == SQLITE_OK && write_lines(database, opening) == SQLITE_DONE) return ARGUS_DONE;
    return failed(words, database);
}

static double seconds_now(void) {
    struct timespec now;
    clock_gettime(CLOCK_MONOTONIC, &now);
    return (double)now.tv_sec + (double)now.tv_nsec / 1e9;
}

static uint32_t write_all(log_database *it, const deed *what, int64_t sum, log_words *words) {
    uint32_t status = ARGUS_DONE;
    if (what->opening != NULL) status = write_opening(it->writing, what->opening, words);
    if (status == ARGUS_DONE) status = insert(it, what->batch, sum, words);
    return status == ARGUS_DONE ? write_names(it->writing, what->batch, words) : status;
}

static uint32_t commit(log_database *it, log_words *words) {
    double started = seconds_now();
    int code = stepped_patiently(it->commit);
    it->sync_seconds += seconds_now() - started;
    if (code == SQLITE_DONE) return ARGUS_DONE;
    /* Nobody knows whether it is on disk. */
    failed(words, it->writing);
    return ARGUS_LOG_BROKEN;
}

/* One transaction, which moves the log's end: all of it is made, or nothing, or that isn't known. */
static uint32_t change(log_database *it, const deed *what, log_end end, int64_t epoch, log_words *words) {
    if (stepped_patiently(it->begin) != SQLITE_DONE) return failed(words, it->writing);
    uint32_t status = move(it, end, epoch, words);
    if (status == ARGUS_DONE && what != NULL) status = write_all(it, what, end.sum, words);
    if (status == ARGUS_DONE) status = commit(it, words);
    if (status == ARGUS_DONE) {
        it->end = end;
        it->epoch = epoch;
        return status;
    }
    log_database_give_up(it);
    return sqlite3_get_autocommit(it->writing) ? status : (uint32_t)ARGUS_LOG_BROKEN;
}

uint32_t log_database_take_over(log_database *it, int is_open, log_words *words) {
    it->is_open = is_open;
    return change(it, NULL, it->end, it->epoch + 1, words);
}

uint32_t log_database_append(log_database *it, const log_batch *batch, log_words *words) {
    const deed what = {.batch = batch};
    return change(it, &what, end_after(it, batch, it->end), it->epoch, words);
}

uint32_t log_database_replace(log_database *it, const log_text *opening, const log_batch *batch, log_words *words) {
    const deed what = {.batch = batch, .opening = opening};
    log_end begins = {batch->first, log_summed(it->name, batch->first, 0, opening->bytes, opening->size)};
    return change(it, &what, end_after(it, batch, begins), it->epoch, words);
}

void log_database_give_up(log_database *it) {
    if (it->writing != NULL && !sqlite3_get_autocommit(it->writing)) stepped(it->rollback);
}

/* Says in the file that it has no WAL. If it can't be said, the WAL stays, as after a kill. */
static void settle(log_database *it) {
    log_words words;
    it->is_open = 0;
    if (change(it, NULL, it->end, it->epoch, &words) != ARGUS_DONE) return;
    /* The last connection that can write moves the WAL, if there is no other. */
    sqlite3_close(it->keeping);
    it->keeping = NULL;
}

void log_database_close(log_database *it, int is_sound) {
    if (is_sound) settle(it);
    else log_database_give_up(it);
    sqlite3_finalize(it->begin);
    sqlite3_finalize(it->move);
    sqlite3_finalize(it->insert);
    sqlite3_finalize(it->commit);
    sqlite3_finalize(it->rollback);
    sqlite3_close(it->writing);
    sqlite3_close(it->keeping);
    sqlite3_close(it->owner);
    *it = (log_database){0};
}

void log_database_leave_behind(log_database *it) {
    *it = (log_database){0};
}
