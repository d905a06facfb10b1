/* The database of a log that this process writes: its connections, and the transactions by which it is written. One
 * thread at a time calls these. */
#ifndef LOG_DATABASE_H
#define LOG_DATABASE_H

#include "log_names.h"
#include "log_rows.h"

/* Where the log ends: the number of the next entry, and the chain's last sum. */
typedef struct log_end {
    int64_t next_entry, sum;
} log_end;

/* One that is all zeros is closed. */
typedef struct log_database {
    sqlite3 *writing;
    sqlite3 *keeping; /* it can't write: so SQLite leaves the WAL where it is if the first one is closed in the midst of
                         something */
    sqlite3 *owner;   /* it has the lock */
    sqlite3_stmt *begin, *move, *insert, *commit, *rollback;
    char name[LOG_NAME_SIZE];
    int64_t epoch, is_open;
    log_end end;
    double sync_seconds;
} log_database;

/* What is written together: lines of the journal, without the last line feed, and names. */
typedef struct log_batch {
    const char *lines;
    size_t size;
    int64_t first, entries;
    const log_name *names; /* the first of so many */
    size_t names_count;
} log_batch;

/* Prepares its statements for what was read. */
uint32_t log_database_begin(log_database *it, const log_head *head, log_words *words);

/* Makes the log this process's: from now on whoever had it before is refused. */
uint32_t log_database_take_over(log_database *it, int is_open, log_words *words);

/* Appends a batch. */
uint32_t log_database_append(log_database *it, const log_batch *batch, log_words *words);

/* Puts an opening, before the first entry of the batch, and the batch in place of all rows. The opening's lines have no
 * last line feed. */
uint32_t log_database_replace(log_database *it, const log_text *opening, const log_batch *batch, log_words *words);

/* Rolls back what is under way, so that others may write: the log has failed. */
void log_database_give_up(log_database *it);

/* Closes the connections; if all is well, the file then says that it has no WAL. The owner's comes last. */
void log_database_close(log_database *it, int is_sound);

/* In a forked process: SQLite's connections are the parent's, and mustn't even be closed. */
void log_database_leave_behind(log_database *it);

#endif
