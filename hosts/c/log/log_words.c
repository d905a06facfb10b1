/* What is wrong with a log, in words, and SQLite's errors by statuses of ours. */
#include "log_words.h"

#include <stdarg.h>
#include <stdio.h>
#include <string.h>

uint32_t log_fail(log_words *words, uint32_t status, const char *format, ...) {
    va_list given;
    va_start(given, format);
    vsnprintf(words->text, sizeof words->text, format, given);
    va_end(given);
    return status;
}

/* Where the schema has rotted, only the words say so. */
static int is_damage(sqlite3 *database) {
    const char *said = sqlite3_errmsg(database);
    return sqlite3_errcode(database) == SQLITE_CORRUPT || strncmp(said, "no such ", 8) == 0 ||
           strstr(said, "malformed") != NULL;
}

uint32_t log_fail_as_sqlite(log_words *words, sqlite3 *database) {
    int code = database == NULL ? SQLITE_NOMEM : sqlite3_errcode(database);
    if (code == SQLITE_NOMEM) return log_fail(words, ARGUS_NO_MEMORY, "out of memory");
    const char *path = sqlite3_db_filename(database, "main"), *said = sqlite3_errmsg(database);
    if (path == NULL) path = "";
    if (code == SQLITE_NOTADB) return log_fail(words, ARGUS_LOG_NOT_A_LOG, "%s: %s", path, said);
    if (is_damage(database)) return log_fail(words, ARGUS_LOG_PAGES_DAMAGED, "%s: %s", path, said);
    if (code == SQLITE_BUSY || code == SQLITE_LOCKED)
        return log_fail(words, ARGUS_LOG_LOCKED, "another process has locked %s", path);
    return log_fail(words, ARGUS_LOG_UNREAD, "the log can't be read: %s: %s", path, said);
}

#define NAMED(it) \
    case it: \
        return #it

const char *argus_log_status_name(uint32_t status) {
    switch (status) {
        NAMED(ARGUS_LOG_NO_LOG);
        NAMED(ARGUS_LOG_EXISTS);
        NAMED(ARGUS_LOG_NOT_A_LOG);
        NAMED(ARGUS_LOG_OTHER_FORMAT);
        NAMED(ARGUS_LOG_LOCKED);
        NAMED(ARGUS_LOG_UNREAD);
        NAMED(ARGUS_LOG_ROW_CHANGED);
        NAMED(ARGUS_LOG_ROW_MISSING);
        NAMED(ARGUS_LOG_ROW_DOUBLED);
        NAMED(ARGUS_LOG_ROW_SWAPPED);
        NAMED(ARGUS_LOG_CUT);
        NAMED(ARGUS_LOG_OLD);
        NAMED(ARGUS_LOG_OTHER_LOG);
        NAMED(ARGUS_LOG_PAGES_DAMAGED);
        NAMED(ARGUS_LOG_WAL_MISSING);
        NAMED(ARGUS_LOG_WAL_DAMAGED);
        NAMED(ARGUS_LOG_OTHER_REPLY);
        NAMED(ARGUS_LOG_IN_DOUBT);
        NAMED(ARGUS_LOG_BROKEN);
        NAMED(ARGUS_LOG_OTHER_SHAPE);
    default:
        return argus_status_name(status);
    }
}
