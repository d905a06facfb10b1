/* How a log is opened. */
#include "log_opening.h"

#include "log_connection.h"
#include "log_wal.h"

#include <errno.h>
#include <inttypes.h>
#include <stdio.h>
#include <stdlib.h>
#include <string.h>
#include <sys/stat.h>

/* What an opening is about. */
typedef struct opening {
    log_database *database;
    const char *path;
    const argus_log_options *options;
    argus_guardian *guardian;
    log_names *names;
    log_found *found;
    log_words *words;
    char *wal, *journal, *owner; /* the paths beside it */
    int is_seen_alone;           /* whether the file can be read without its WAL */
    log_head alone, head;        /* what it says without, and with it */
} opening;

/* A file's size; -1 if it isn't there. */
static int64_t size_of(const char *path) {
    struct stat found;
    return stat(path, &found) == 0 ? (int64_t)found.st_size : -1;
}

/* Refuses what isn't a file: a pipe would have SQLite wait. */
static uint32_t refuse_others(const char *path, log_words *words) {
    struct stat found;
    if (stat(path, &found) != 0 || S_ISREG(found.st_mode)) return ARGUS_DONE;
    return log_fail(words, ARGUS_LOG_NOT_A_LOG, "it isn't a file: %s", path);
}

static uint32_t refuse_all_others(opening *it) {
    const char *const paths[] = {it->path, it->wal, it->journal, it->owner};
    if (it->wal == NULL || it->journal == NULL || it->owner == NULL) return log_fail_as_sqlite(it->words, NULL);
    uint32_t status = ARGUS_DONE;
    for (int at = 0; at < 4 && status == ARGUS_DONE; at++) status = refuse_others(paths[at], it->words);
    return status;
}

/* Locks a second database, in which nothing is ever written: the process has the lock until it ends. */
static uint32_t lock(opening *it) {
    uint32_t status = log_connect(&it->database->owner, it->owner, "mode=rwc", 0, it->words);
    if (status == ARGUS_DONE)
        status = log_run(it->database->owner, "PRAGMA journal_mode=OFF; BEGIN EXCLUSIVE", it->words);
    if (status != ARGUS_LOG_LOCKED) return status;
    return log_fail(it->words, status, "another process has the log, or another part of this one: %s", it->path);
}

/* Whether a transaction without a WAL was broken off, so that its journal has to be rolled back. */
static int is_hot(const opening *it) {
    static const char none[8];
    char begins[8] = {0};
    FILE *journal = size_of(it->wal) >= 0 ? NULL : fopen(it->journal, "rb");
    if (journal == NULL) return 0;
    size_t size = fread(begins, 1, sizeof begins, journal);
    fclose(journal);
    return size != 0 && memcmp(begins, none, sizeof begins) != 0;
}

/* SQLite does this when it is opened by who can write. */
static uint32_t roll_back(opening *it) {
    sqlite3 *database = NULL;
    log_head head;
    uint32_t status = log_connect(&database, it->path, "mode=rw", LOG_BUSY_MILLISECONDS, it->words);
    if (status == ARGUS_DONE) status = log_read_head(database, &head, it->words);
    sqlite3_close(database);
    return status;
}

/* What the file says without its WAL, if it can be read so: it can't in the midst of a move. */
static uint32_t look_alone(opening *it) {
    sqlite3 *database = NULL;
    uint32_t status = log_connect(&database, it->path, "mode=ro&immutable=1", 0, it->words);
    if (status == ARGUS_DONE) status = log_check_format(database, it->words);
    if (status == ARGUS_DONE) status = log_read_head(database, &it->alone, it->words);
    sqlite3_close(database);
    it->is_seen_alone = status == ARGUS_DONE;
    return status == ARGUS_NO_MEMORY ? status : (uint32_t)ARGUS_DONE;
}

/* Whether the WAL of a log that wasn't closed is there, and whether it has rotted. */
static uint32_t check_wal(opening *it) {
    int is_open = it->is_seen_alone && it->alone.is_open != 0;
    if (size_of(it->wal) >= LOG_WAL_HEADER)
        return log_check_wal(it->wal, it->is_seen_alone && !is_open, it->words);
    if (!is_open) return ARGUS_DONE;
    return log_fail(it->words, ARGUS_LOG_WAL_MISSING,
                    "the log wasn't closed, and %s isn't there, or is empty: what it had is gone. If nothing was in it,"
                    " since sqlite3 has moved that, or this is a whole copy, `UPDATE log SET is_open = 0` says so",
                    it->wal);
}

/* Whether it is the log that is wanted. */
static uint32_t compare_wanted(const opening *it) {
    const log_head *head = &it->head;
    const argus_log_options *wanted = it->options;
    if (wanted->name != NULL && strcmp(wanted->name, head->name) != 0)
        return log_fail(it->words, ARGUS_LOG_OTHER_LOG, "the log's name is %s, and that of the one that is wanted %s",
                        head->name, wanted->name);
    if (head->next_entry < 0 || (uint64_t)head->next_entry < wanted->at_least)
        return log_fail(it->words, ARGUS_LOG_OLD,
                        "the log has %" PRId64 " entries, and had %" PRIu64 ": it is an older copy", head->next_entry,
                        wanted->at_least);
    return ARGUS_DONE;
}

/* Whether the WAL belongs to the file. */
static uint32_t compare_alone(const opening *it) {
    const log_head *head = &it->head, *alone = &it->alone;
    if (!it->is_seen_alone) return ARGUS_DONE;
    if (strcmp(alone->name, head->name) != 0)
        return log_fail(it->words, ARGUS_LOG_OTHER_LOG, "the file is the log %s, and the WAL beside it that of %s",
                        alone->name, head->name);
    if (alone->epoch < head->epoch || (alone->epoch == head->epoch && alone->next_entry <= head->next_entry))
        return ARGUS_DONE;
    return log_fail(it->words, ARGUS_LOG_OLD,
                    "the file has %" PRId64 " entries, and with its WAL %" PRId64 ": that is older", alone->next_entry,
                    head->next_entry);
}

/* What is wrong with a line, by the status of argus_resume. */
static uint32_t tell_line(opening *it, argus_answer answer, const char *what, size_t number, const char *line,
                          size_t size) {
    char reply[256];
    const char *end = memchr(line, '\n', size);
    int length = end == NULL || end - line > 512 ? 512 : (int)(end - line);
    if (answer.status != ARGUS_NOT_THE_REPLY)
        return log_fail(it->words, ARGUS_LOG_OTHER_REPLY, "%s, line %zu, `%.*s`: %s", what, number, length, line,
                        argus_answer_name(answer));
    argus_answer kept = argus_reply(it->guardian, reply, sizeof reply - 1);
    reply[kept.status == ARGUS_DONE ? kept.number : 0] = '\0';
    return log_fail(it->words, ARGUS_LOG_OTHER_REPLY, "%s, `%.*s`: the journal before it gives the reply %s", what,
                    length, line, reply);
}

/* Has the guardian take the lines of a row. */
static uint32_t take(void *host, const char *what, const char *lines, size_t size, log_words *words) {
    opening *it = host;
    size_t bytes = 0, count = 0;
    argus_answer answer = argus_resume(it->guardian, lines, size, &bytes, &count);
    if (answer.status == ARGUS_DONE) return ARGUS_DONE;
    if (answer.status == ARGUS_NO_MEMORY) return log_fail_as_sqlite(words, NULL);
    return tell_line(it, answer, what, count, lines + bytes, size - bytes);
}

/* Makes the guardian of what was taken. */
static uint32_t resume(opening *it) {
    argus_answer answer = argus_resumed(it->guardian);
    if (answer.status == ARGUS_NO_MEMORY) return log_fail_as_sqlite(it->words, NULL);
    if (answer.status != ARGUS_DONE) return log_fail(it->words, answer.status, "%s", argus_answer_name(answer));
    if (answer.number != 0)
        return log_fail(it->words, ARGUS_LOG_OTHER_REPLY, "the opening refers to objects that didn't come");
    if (argus_entries(it->guardian).number == it->head.next_entry) return ARGUS_DONE;
    return log_fail(it->words, ARGUS_LOG_OTHER_REPLY, "the lines are those of fewer entries than the log has");
}

/* Reads and compares everything. All rows are compared before the first one is taken. */
static uint32_t read_all(opening *it) {
    sqlite3 *database = it->database->keeping;
    log_words *words = it->words;
    uint32_t status = log_run(database, "BEGIN", words);
    if (status == ARGUS_DONE) status = log_check_format(database, words);
    if (status == ARGUS_DONE) status = log_check_pages(database, words);
    if (status == ARGUS_DONE) status = log_read_head(database, &it->head, words);
    if (status == ARGUS_DONE) status = compare_wanted(it);
    if (status == ARGUS_DONE) status = compare_alone(it);
    if (status == ARGUS_DONE) status = log_read_rows(database, &it->head, NULL, NULL, it->found, words);
    if (status == ARGUS_DONE) status = log_read_rows(database, &it->head, take, it, it->found, words);
    if (status == ARGUS_DONE) status = resume(it);
    if (status == ARGUS_DONE) status = log_names_read(it->names, database, it->guardian, words);
    return status == ARGUS_DONE ? log_run(database, "COMMIT", words) : status;
}

static uint32_t set_journal(opening *it, const char *mode) {
    char statement[64], said[16];
    snprintf(statement, sizeof statement, "PRAGMA journal_mode=%s", mode);
    uint32_t status = log_first_text(it->database->writing, statement, said, sizeof said, it->words);
    if (status != ARGUS_DONE || sqlite3_stricmp(said, mode) == 0) return status;
    return log_fail(it->words, ARGUS_LOG_UNREAD,
                    "the database can't have a journal of the kind %s: SQLite says %s", mode, said);
}

/* With a WAL. What was read and isn't on disk, since whoever wrote it was killed, is on disk then; and the file says
 * that there is a WAL. */
static uint32_t take_over_with_wal(opening *it) {
    log_head head;
    uint32_t status = set_journal(it, "WAL");
    /* From here on this one, too, reads by way of the WAL, and so holds it. */
    if (status == ARGUS_DONE) status = log_read_head(it->database->keeping, &head, it->words);
    if (status == ARGUS_DONE) status = log_database_take_over(it->database, 1, it->words);
    /* As far as no reader is in the way: it waits for none. */
    if (status == ARGUS_DONE) status = log_run(it->database->writing, "PRAGMA wal_checkpoint(PASSIVE)", it->words);
    return status;
}

static uint32_t take_over_without_wal(opening *it) {
    uint32_t status = log_database_take_over(it->database, 0, it->words);
    if (status != ARGUS_DONE) return status;
    sqlite3_close(it->database->keeping);
    it->database->keeping = NULL;
    return set_journal(it, "PERSIST");
}

/* Makes the log this process's, which is the first change. */
static uint32_t take_over(opening *it) {
    log_database *database = it->database;
    uint32_t status = log_connect(&database->writing, it->path, "mode=rw", LOG_BUSY_MILLISECONDS, it->words);
    if (status == ARGUS_DONE) status = log_make_durable(database->writing, it->words);
    if (status == ARGUS_DONE) status = log_database_begin(database, &it->head, it->words);
    if (status != ARGUS_DONE) return status;
    return it->options->is_without_wal ? take_over_without_wal(it) : take_over_with_wal(it);
}

static uint32_t open_all(opening *it) {
    uint32_t status = refuse_all_others(it);
    if (status == ARGUS_DONE) status = lock(it);
    if (status == ARGUS_DONE && is_hot(it)) status = roll_back(it);
    if (status == ARGUS_DONE) status = look_alone(it);
    if (status == ARGUS_DONE) status = check_wal(it);
    /* What can't write doesn't move the WAL when it is closed, into a log that is refused. */
    if (status == ARGUS_DONE)
        status = log_connect(&it->database->keeping, it->path, "mode=ro", LOG_BUSY_MILLISECONDS, it->words);
    if (status == ARGUS_DONE) status = read_all(it);
    return status == ARGUS_DONE ? take_over(it) : status;
}

uint32_t log_open(log_database *database, const char *path, const argus_log_options *options, argus_guardian *guardian,
                  log_names *names, log_found *found, log_words *words) {
    opening it = {.database = database, .path = path, .options = options, .guardian = guardian, .names = names,
                  .found = found, .words = words, .wal = log_path_with(path, "-wal"),
                  .journal = log_path_with(path, "-journal"), .owner = log_path_with(path, "-owner")};
    uint32_t status = open_all(&it);
    free(it.wal);
    free(it.journal);
    free(it.owner);
    return status;
}
