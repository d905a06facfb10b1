/* Connections to a log's database. */
#include "log_connection.h"

#include <stdio.h>
#include <stdlib.h>
#include <string.h>

char *log_path_with(const char *path, const char *suffix) {
    size_t size = strlen(path) + strlen(suffix) + 1;
    char *whole = malloc(size);
    if (whole != NULL) snprintf(whole, size, "%s%s", path, suffix);
    return whole;
}

/* A file's URI, in which each character of the path that means something there is written as a number. */
static char *uri_of(const char *path, const char *mode) {
    const char *begins = path[0] == '/' ? "file://" : "file:./";
    char *uri = malloc(strlen(begins) + 3 * strlen(path) + strlen(mode) + 2), *at = uri;
    if (uri == NULL) return NULL;
    at += sprintf(at, "%s", begins);
    for (; *path != '\0'; path++) {
        if (strchr("%?#", *path) != NULL) at += sprintf(at, "%%%02X", (unsigned)*path);
        else *at++ = *path;
    }
    sprintf(at, "?%s", mode);
    return uri;
}

uint32_t log_connect(sqlite3 **database, const char *path, const char *mode, int milliseconds, log_words *words) {
    int flags = SQLITE_OPEN_URI | SQLITE_OPEN_READWRITE | SQLITE_OPEN_CREATE | SQLITE_OPEN_NOMUTEX;
    char *uri = uri_of(path, mode);
    if (uri == NULL) return log_fail_as_sqlite(words, NULL);
    int code = sqlite3_open_v2(uri, database, flags, NULL);
    free(uri);
    if (code != SQLITE_OK) return log_fail_as_sqlite(words, *database);
    sqlite3_busy_timeout(*database, milliseconds);
    return ARGUS_DONE;
}

uint32_t log_make_durable(sqlite3 *database, log_words *words) {
    /* Debian's SQLite writes zeros over all that is deleted: a checkpoint would write the whole log once more. A WAL
     * that a reader has kept from being moved becomes short again. It never becomes empty: that would be a loss. And
     * nothing is written before a commit, so that a transaction that is rolled back leaves no frames in the WAL. */
    return log_run(database,
                   "PRAGMA synchronous=FULL; PRAGMA fullfsync=1; PRAGMA secure_delete=FAST;"
                   "PRAGMA journal_size_limit=16777216; PRAGMA cache_spill=OFF",
                   words);
}

uint32_t log_run(sqlite3 *database, const char *statements, log_words *words) {
    int code = sqlite3_exec(database, statements, NULL, NULL, NULL);
    return code == SQLITE_OK ? (uint32_t)ARGUS_DONE : log_fail_as_sqlite(words, database);
}

/* Prepares a statement, and makes its first step. The caller finalizes it. */
static uint32_t first_row(sqlite3 *database, const char *text, sqlite3_stmt **statement, log_words *words) {
    *statement = NULL;
    if (sqlite3_prepare_v2(database, text, -1, statement, NULL) != SQLITE_OK)
        return log_fail_as_sqlite(words, database);
    int code = sqlite3_step(*statement);
    if (code == SQLITE_ROW) return ARGUS_DONE;
    if (code == SQLITE_DONE) return log_fail(words, ARGUS_LOG_UNREAD, "SQLite says nothing to `%s`", text);
    return log_fail_as_sqlite(words, database);
}

uint32_t log_number(sqlite3 *database, const char *text, int64_t *number, log_words *words) {
    sqlite3_stmt *statement;
    uint32_t status = first_row(database, text, &statement, words);
    if (status == ARGUS_DONE) *number = sqlite3_column_int64(statement, 0);
    sqlite3_finalize(statement);
    return status;
}

uint32_t log_first_text(sqlite3 *database, const char *text, char *room, size_t size, log_words *words) {
    sqlite3_stmt *statement;
    uint32_t status = first_row(database, text, &statement, words);
    if (status == ARGUS_DONE) {
        const unsigned char *said = sqlite3_column_text(statement, 0);
        snprintf(room, size, "%s", said == NULL ? "" : (const char *)said);
    }
    sqlite3_finalize(statement);
    return status;
}
