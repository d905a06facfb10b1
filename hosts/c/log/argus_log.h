/* SPDX-License-Identifier: MIT */
/* The log of a guardian in a SQLite database, so that it outlives its process: libargus_log.a, over libsqlite3 and
 * zlib. It isn't proved. docs/DURABLE.md says what a log promises, what its tables are, and what to do when it fails.
 *
 * The guardian and its mutex are the program's own (argus.h). The program makes its calls as without a log; a commit is
 * acknowledged, so that others may be told of it, when argus_log_wait has returned ARGUS_DONE for the entries up to it:
 *
 *     argus_guardian bank = ARGUS_CLOSED;
 *     pthread_mutex_t lock = PTHREAD_MUTEX_INITIALIZER;
 *     argus_log *log = argus_log_new(&bank, &lock);
 *     argus_log_create(log, "bank.db");                              // ARGUS_LOG_EXISTS from the second time on
 *     if (argus_log_open(log, "bank.db", NULL).status != ARGUS_DONE) return 1;
 *     argus_answer account = argus_log_declare_named(log, "account", "atomic_record[balance:int]");
 *     ..                                                             // argus_begin_top, argus_alter, under the mutex
 *     if (argus_log_commit(log, action).status == ARGUS_DONE) ..     // it is on disk
 *     argus_log_free(log);
 *     argus_close(&bank);
 *
 * Threads may share a log once it is open: those that wait at the same time are served by one write and one sync. No
 * thread calls it with the mutex held, or from a signal handler. Each call returns a status of argus.h or one of those
 * below; ARGUS_NULL for a null pointer, ARGUS_NOT_OPEN if the log isn't open.
 *
 * The log alone folds the journal: a program that calls argus_checkpoint or argus_renew itself breaks the log, unless
 * all entries are in it by then.
 *
 * A forked process has a copy of the log, which is closed there: it may only free it. No thread may be in a call of the
 * log while another one forks. */
#ifndef ARGUS_LOG_H
#define ARGUS_LOG_H

#include "argus.h"

#include <pthread.h>

#ifdef __cplusplus
extern "C" {
#endif

typedef struct argus_log argus_log;

/* What a call returns beside the statuses of argus.h. */
typedef enum argus_log_status {
    /* why a log isn't opened or made: nothing was changed */
    ARGUS_LOG_NO_LOG = 64,       /* no file is there */
    ARGUS_LOG_EXISTS = 65,       /* of making one: a file is there */
    ARGUS_LOG_NOT_A_LOG = 66,    /* the file is no database, or one of another program */
    ARGUS_LOG_OTHER_FORMAT = 67, /* another version has written it, in a format that this one doesn't know */
    ARGUS_LOG_LOCKED = 68,       /* another process has the log, or another part of this one */
    ARGUS_LOG_UNREAD = 69,       /* the system or SQLite can't read it, or can't make it */
    /* it isn't as it was written */
    ARGUS_LOG_ROW_CHANGED = 70,   /* a row hasn't the sum that the chain has for it, or what it says can't be */
    ARGUS_LOG_ROW_MISSING = 71,   /* rows aren't there, while later ones are */
    ARGUS_LOG_ROW_DOUBLED = 72,   /* a row is there once more, in another place */
    ARGUS_LOG_ROW_SWAPPED = 73,   /* the lines of a later row are in the place of an earlier one */
    ARGUS_LOG_CUT = 74,           /* the last rows aren't there */
    ARGUS_LOG_OLD = 75,           /* an older copy is in the place of the database, of its WAL or of a row; or the log
                                     is shorter than `at_least` says */
    ARGUS_LOG_OTHER_LOG = 76,     /* it is another log than `name` says, or the WAL beside the file is another's */
    ARGUS_LOG_PAGES_DAMAGED = 77, /* SQLite finds that the file isn't a sound database */
    ARGUS_LOG_WAL_MISSING = 78,   /* the log wasn't closed, and its WAL, which has the newest work, isn't there */
    ARGUS_LOG_WAL_DAMAGED = 79,   /* a frame of the WAL has changed that was on disk before later ones were written */
    ARGUS_LOG_OTHER_REPLY = 80,   /* the rows are as they were written, and no guardian of this version has such a
                                     journal */
    /* of a log that is open */
    ARGUS_LOG_IN_DOUBT = 81,   /* the log failed in a wait: what was waited for is in the log, or it isn't. End the
                                  process, open the log again, and send the order again under its key */
    ARGUS_LOG_BROKEN = 82,     /* it failed earlier, and nothing is tried again: the call wasn't made */
    ARGUS_LOG_OTHER_SHAPE = 83 /* the object of that name has another shape */
} argus_log_status;

/* The name of a status of argus.h or of this header, or "?". */
const char *argus_log_status_name(uint32_t status);

/* How a log is opened. What an initialiser leaves out is 0. */
typedef struct argus_log_options {
    const char *name;    /* the name that the log has to have (argus_log_name), or NULL */
    uint64_t at_least;   /* how many entries it has to have */
    int is_without_wal;  /* 1: SQLite's older journal, so that all is in one file. A commit takes some three times as
                            long */
} argus_log_options;

/* A log that isn't open yet, for a guardian that isn't either, and its mutex. Both stay where they are until
 * argus_log_free. NULL if there is no memory. */
argus_log *argus_log_new(argus_guardian *guardian, pthread_mutex_t *lock);

/* Closes the log and frees it; NULL is allowed. What isn't on disk is lost, and the guardian is left as it is. No
 * thread may be in a call of the log. */
void argus_log_free(argus_log *log);

/* Makes an empty log in a new file, and doesn't open it. ARGUS_DONE, ARGUS_NO_MEMORY, ARGUS_LOG_EXISTS,
 * ARGUS_LOG_UNREAD. */
argus_answer argus_log_create(argus_log *log, const char *path);

/* Opens the log in a file that is there. Each call in it is made again by a new guardian, and its reply compared; then
 * actions that were live are aborted, and the guardian is in the program's handle. The options may be NULL. If it isn't
 * ARGUS_DONE, argus_log_words says why, the handle is closed, and the log may be opened again. ARGUS_OCCUPIED if the
 * log or the guardian is open. */
argus_answer argus_log_open(argus_log *log, const char *path, const argus_log_options *options);

/* Puts into the room what was found when the log was opened, or why it wasn't, or why it is broken. The text ends with
 * a zero, and is cut off if the room is too small. */
void argus_log_words(argus_log *log, char *room, size_t size);

/* The log's name, which was drawn when it was made: its copies have the same. Empty before it is opened. */
const char *argus_log_name(const argus_log *log);

/* Returns when all entries before `until`, a number that argus_entries has returned, are on disk. ARGUS_DONE;
 * ARGUS_LOG_IN_DOUBT; ARGUS_NO_MEMORY if there was none for the lines: they aren't on disk yet, and another call tries
 * it again; ARGUS_NOT_THERE if the journal hasn't so many entries. */
argus_answer argus_log_wait(argus_log *log, uint64_t until);

/* Commits an action, and returns when that is on disk. What argus_commit returns, unless that is ARGUS_DONE: then what
 * argus_log_wait returns. ARGUS_LOG_BROKEN: the commit wasn't made, and the action is live. */
argus_answer argus_log_commit(argus_log *log, uint32_t action);

/* The object of this name, which the database keeps: ARGUS_OBJECT and its number. If there is none it is declared, and
 * the call returns when that is on disk. ARGUS_LOG_OTHER_SHAPE if it was declared with another shape; ARGUS_BAD_TEXT if
 * the name is empty, ARGUS_NOT_UTF8 if it isn't UTF-8; ARGUS_LOG_BROKEN; else what argus_declare or argus_log_wait
 * returns. */
argus_answer argus_log_declare_named(argus_log *log, const char *name, const char *shape);

/* Folds the journal, and puts what the objects hold in place of the log's batches. If half of the numbers for actions
 * are used, the guardian is renewed, too (argus_renew). ARGUS_DONE; ARGUS_BUSY while an action is live, and ARGUS_FULL:
 * nothing was done; ARGUS_NO_MEMORY: nothing was done, or the next write does the rest; ARGUS_LOG_BROKEN. */
argus_answer argus_log_checkpoint(argus_log *log);

/* Copies the log into a new file, as it is at one moment, while others go on, and compares the copy's rows. What
 * argus_log_create returns, and each status of damage. */
argus_answer argus_log_backup(argus_log *log, const char *path);

/* Whether the log is broken: 1 or 0. */
int argus_log_broken(argus_log *log);

/* What a log has done since it was opened. */
typedef struct argus_log_counts {
    uint64_t next_entry; /* all entries before this one are in the log */
    uint64_t batches, entries, bytes, checkpoints;
    uint64_t in_doubt;   /* how many calls were in doubt at their end */
    double sync_seconds; /* how long its commits took, which write and sync */
} argus_log_counts;

argus_log_counts argus_log_counted(argus_log *log);

#ifdef __cplusplus
}
#endif

#endif
