/* The log of a guardian: threads that wait together for what one of them writes, checkpoints, and names of objects. */
#include "argus_log.h"

#include "log_making.h"
#include "log_opening.h"

#include <errno.h>
#include <inttypes.h>
#include <stdio.h>
#include <stdlib.h>
#include <string.h>
#include <sys/types.h>
#include <unistd.h>

/* The most bytes that a row has, if its first line isn't longer; and how many actions are begun before a checkpoint
 * also renews the guardian. */
enum { PIECE = 1 << 18, RENEW_AT = 500000 };

struct argus_log {
    argus_guardian *guardian;
    pthread_mutex_t *lock; /* the guardian's; the names' too */
    log_names names;

    pthread_mutex_t turn;   /* held for moments, to look at what stands here */
    pthread_cond_t written; /* signalled when a write has ended */
    int is_writing;         /* a thread has the database and what stands with it, and no other one */
    int folds;              /* how many checkpoints want that next: until then nobody else begins to write */
    int is_open, is_broken;
    pid_t process;
    char *path; /* that has no links */
    argus_log_counts counts;
    log_words words;

    log_database database;
    log_text lines;  /* that are written */
    int is_folded;   /* the guardian's journal is folded, and the log isn't: the next write is of the whole */
};

static argus_answer answer_of(uint32_t status) {
    return (argus_answer){status, 0};
}

/* Whether the log is open, in this process. */
static int is_usable(const argus_log *log) {
    return log->is_open && log->process == getpid();
}

argus_log *argus_log_new(argus_guardian *guardian, pthread_mutex_t *lock) {
    argus_log *log = guardian == NULL || lock == NULL ? NULL : calloc(1, sizeof *log);
    if (log == NULL) return NULL;
    log->guardian = guardian;
    log->lock = lock;
    log->process = getpid();
    if (pthread_mutex_init(&log->turn, NULL) != 0) return free(log), NULL;
    if (pthread_cond_init(&log->written, NULL) == 0) return log;
    pthread_mutex_destroy(&log->turn);
    return free(log), NULL;
}

/* Closes what is open. */
static void close_log(argus_log *log, int is_sound) {
    if (log->process == getpid()) log_database_close(&log->database, is_sound);
    else log_database_leave_behind(&log->database);
    log_names_free(&log->names);
    log_text_free(&log->lines);
    free(log->path);
    log->path = NULL;
    log->is_open = 0;
}

void argus_log_free(argus_log *log) {
    if (log == NULL) return;
    close_log(log, log->is_open && !log->is_broken);
    pthread_cond_destroy(&log->written);
    pthread_mutex_destroy(&log->turn);
    free(log);
}

/* Keeps the words, and returns the status. */
static argus_answer told(argus_log *log, uint32_t status, const log_words *words) {
    pthread_mutex_lock(&log->turn);
    if (!log->is_broken) log->words = *words;
    pthread_mutex_unlock(&log->turn);
    return answer_of(status);
}

argus_answer argus_log_create(argus_log *log, const char *path) {
    log_words words = {{0}};
    if (log == NULL || path == NULL) return answer_of(ARGUS_NULL);
    uint32_t status = log_make(path, &words);
    return status == ARGUS_DONE ? answer_of(status) : told(log, status, &words);
}

/* Finds the file itself: SQLite puts the WAL beside that, where the path is a link to it. */
static uint32_t resolve(argus_log *log, const char *path, log_words *words) {
    log->path = realpath(path, NULL);
    if (log->path != NULL) return ARGUS_DONE;
    if (errno == ENOMEM) return log_fail_as_sqlite(words, NULL);
    if (errno == ENOENT) return log_fail(words, ARGUS_LOG_NO_LOG, "no log is there: %s", path);
    return log_fail(words, ARGUS_LOG_UNREAD, "the log can't be read: %s: %s", path, strerror(errno));
}

/* Makes the guardian, and the database this process's. */
static uint32_t open_both(argus_log *log, const argus_log_options *options, log_words *words) {
    log_found found = {0};
    uint32_t status = argus_open(log->guardian).status;
    if (status != ARGUS_DONE) return log_fail(words, status, "%s", argus_status_name(status));
    status = log_open(&log->database, log->path, options, log->guardian, &log->names, &found, words);
    if (status != ARGUS_DONE) return status;
    int64_t next = log->database.end.next_entry;
    log_fail(words, status, "%" PRId64 " entries in %" PRId64 " batches, the next one is %" PRId64,
             next - found.first_entry, found.batches, next);
    log->counts = (argus_log_counts){.next_entry = (uint64_t)next};
    log->is_open = 1;
    return status;
}

/* The lines of the journal from where the log ends, as many as a row has, and the names declared by them. */
static uint32_t gather(argus_log *log, log_batch *batch) {
    uint64_t count = 0;
    int64_t from = log->database.end.next_entry;
    argus_answer answer = {ARGUS_TOO_SMALL, PIECE};
    while (answer.status == ARGUS_TOO_SMALL) {
        if (!log_text_reserve(&log->lines, (size_t)answer.number)) return ARGUS_NO_MEMORY;
        pthread_mutex_lock(log->lock);
        answer = argus_lines(log->guardian, (uint64_t)from, log->lines.bytes, log->lines.room, &count);
        batch->names = log->names.unwritten;
        batch->names_count = log_names_due(&log->names, from + (int64_t)count);
        pthread_mutex_unlock(log->lock);
    }
    batch->first = from;
    batch->entries = (int64_t)count;
    batch->lines = log->lines.bytes;
    /* Without the last line feed. */
    batch->size = count == 0 ? 0 : (size_t)answer.number - 1;
    return answer.status;
}

/* The names of what was written are in the database. */
static void note_names(argus_log *log, const log_batch *batch) {
    if (batch->names_count == 0) return;
    pthread_mutex_lock(log->lock);
    log_names_written(&log->names, batch->names_count);
    pthread_mutex_unlock(log->lock);
}

/* Lists the journal: an opening, and the entries since then. */
static uint32_t list_whole(argus_log *log, log_batch *batch) {
    pthread_mutex_lock(log->lock);
    uint32_t status = argus_list(log->guardian, ARGUS_LIST_JOURNAL).status;
    if (status == ARGUS_TEXT) status = log_text_of_reply(&log->lines, log->guardian);
    int64_t next = argus_entries(log->guardian).number;
    batch->first = argus_first_entry(log->guardian).number;
    batch->entries = next - batch->first;
    batch->names = log->names.unwritten;
    batch->names_count = log_names_due(&log->names, next);
    pthread_mutex_unlock(log->lock);
    return status;
}

/* The size of the lines that belong to the opening, with their line feeds. */
static size_t opening_in(const log_text *lines) {
    static const char BEGINS[] = "opening ";
    const char *at = lines->bytes, *end = at + lines->size;
    while (end - at > 8 && memcmp(at, BEGINS, 8) == 0) at = (const char *)memchr(at, '\n', (size_t)(end - at)) + 1;
    return (size_t)(at - lines->bytes);
}

/* Puts the journal's listing in place of all rows. */
static uint32_t write_whole(argus_log *log, log_batch *batch, log_words *words) {
    uint32_t status = list_whole(log, batch);
    if (status != ARGUS_DONE) return status;
    size_t split = opening_in(&log->lines);
    log_text opening = {.bytes = log->lines.bytes, .size = split == 0 ? 0 : split - 1};
    batch->lines = log->lines.bytes + split;
    batch->size = batch->entries == 0 ? 0 : log->lines.size - split - 1;
    status = log_database_replace(&log->database, &opening, batch, words);
    if (status == ARGUS_DONE) log->is_folded = 0;
    /* All that the objects hold isn't kept in memory once more. */
    if (log->lines.room > 4 * PIECE) log_text_free(&log->lines);
    return status;
}

/* Writes what comes next: a batch. */
static uint32_t append(argus_log *log, log_batch *batch, log_words *words) {
    if (log->is_folded) return write_whole(log, batch, words);
    uint32_t status = gather(log, batch);
    if (status == ARGUS_NOT_THERE)
        return log_fail(words, ARGUS_LOG_BROKEN, "the journal was folded by another call than the log's checkpoint");
    if (status == ARGUS_DONE && batch->entries == 0) return ARGUS_NOT_THERE;
    return status == ARGUS_DONE ? log_database_append(&log->database, batch, words) : status;
}

/* Folds the guardian's journal. */
static uint32_t fold(argus_log *log) {
    pthread_mutex_lock(log->lock);
    int is_renewed = argus_actions(log->guardian).number >= RENEW_AT;
    uint32_t status = (is_renewed ? argus_renew(log->guardian) : argus_checkpoint(log->guardian)).status;
    pthread_mutex_unlock(log->lock);
    if (status == ARGUS_DONE) log->is_folded = 1;
    return status;
}

static uint32_t fold_and_write(argus_log *log, log_batch *batch, log_words *words) {
    uint32_t status = fold(log);
    return status == ARGUS_DONE ? write_whole(log, batch, words) : status;
}

typedef uint32_t writing(argus_log *log, log_batch *batch, log_words *words);

/* Writes, as the only thread that does. The mutex `turn` is held before and after, and not meanwhile. */
static uint32_t in_turn(argus_log *log, writing *write) {
    log_batch batch = {0};
    log_words words = {{0}};
    log->is_writing = 1;
    pthread_mutex_unlock(&log->turn);
    uint32_t status = write(log, &batch, &words);
    if (status == ARGUS_DONE) note_names(log, &batch);
    pthread_mutex_lock(&log->turn);
    log->is_writing = 0;
    if (status == ARGUS_DONE) {
        log->counts.next_entry = (uint64_t)log->database.end.next_entry;
        log->counts.batches += batch.entries != 0;
        log->counts.entries += (uint64_t)batch.entries;
        log->counts.bytes += batch.entries == 0 ? 0 : batch.size + 1;
        log->counts.sync_seconds = log->database.sync_seconds;
    } else if (status == ARGUS_LOG_BROKEN) {
        log->is_broken = 1;
        log->words = words;
    }
    pthread_cond_broadcast(&log->written);
    return status;
}

argus_answer argus_log_wait(argus_log *log, uint64_t until) {
    uint32_t status = ARGUS_DONE;
    if (log == NULL) return answer_of(ARGUS_NULL);
    if (!is_usable(log)) return answer_of(ARGUS_NOT_OPEN);
    pthread_mutex_lock(&log->turn);
    while (status == ARGUS_DONE && log->counts.next_entry < until) {
        if (log->is_broken) status = ARGUS_LOG_IN_DOUBT;
        else if (log->is_writing || log->folds > 0) pthread_cond_wait(&log->written, &log->turn);
        else status = in_turn(log, append);
    }
    if (status == ARGUS_LOG_BROKEN) status = ARGUS_LOG_IN_DOUBT;
    log->counts.in_doubt += status == ARGUS_LOG_IN_DOUBT;
    pthread_mutex_unlock(&log->turn);
    return answer_of(status);
}

argus_answer argus_log_checkpoint(argus_log *log) {
    if (log == NULL) return answer_of(ARGUS_NULL);
    if (!is_usable(log)) return answer_of(ARGUS_NOT_OPEN);
    pthread_mutex_lock(&log->turn);
    log->folds++;
    while (log->is_writing) pthread_cond_wait(&log->written, &log->turn);
    log->folds--;
    uint32_t status = log->is_broken ? (uint32_t)ARGUS_LOG_BROKEN : in_turn(log, fold_and_write);
    pthread_cond_broadcast(&log->written);
    log->counts.checkpoints += status == ARGUS_DONE;
    pthread_mutex_unlock(&log->turn);
    return answer_of(status);
}

argus_answer argus_log_commit(argus_log *log, uint32_t action) {
    if (log == NULL) return answer_of(ARGUS_NULL);
    if (!is_usable(log)) return answer_of(ARGUS_NOT_OPEN);
    if (argus_log_broken(log)) return answer_of(ARGUS_LOG_BROKEN);
    pthread_mutex_lock(log->lock);
    argus_answer answer = argus_commit(log->guardian, action);
    uint64_t entries = (uint64_t)argus_entries(log->guardian).number;
    pthread_mutex_unlock(log->lock);
    return answer.status == ARGUS_DONE ? argus_log_wait(log, entries) : answer;
}

/* Declares an object, and notes its name. The guardian's mutex is held. */
static argus_answer declare(argus_log *log, const char *text, const char *shape, log_name **name) {
    *name = log_names_add(&log->names, text, shape);
    if (*name == NULL) return answer_of(ARGUS_NO_MEMORY);
    int64_t entry = argus_entries(log->guardian).number;
    argus_answer answer = argus_declare(log->guardian, shape);
    if (answer.status == ARGUS_OBJECT) log_names_note(&log->names, *name, (uint32_t)answer.number, entry);
    else log_names_drop(&log->names, *name);
    return answer;
}

/* Finds the name, or declares its object. The guardian's mutex is held. */
static argus_answer find_or_declare(argus_log *log, const char *text, const char *shape, int64_t *entry) {
    log_name *name = log_names_find(&log->names, text);
    argus_answer answer = {ARGUS_OBJECT, name == NULL ? 0 : name->object};
    if (name == NULL) answer = declare(log, text, shape, &name);
    else if (strcmp(name->shape, shape) != 0) answer = answer_of(ARGUS_LOG_OTHER_SHAPE);
    if (answer.status == ARGUS_OBJECT) *entry = name->entry;
    return answer;
}

argus_answer argus_log_declare_named(argus_log *log, const char *name, const char *shape) {
    argus_guardian none = ARGUS_CLOSED;
    int64_t entry = -1;
    if (log == NULL || name == NULL || shape == NULL) return answer_of(ARGUS_NULL);
    if (!is_usable(log)) return answer_of(ARGUS_NOT_OPEN);
    if (*name == '\0') return answer_of(ARGUS_BAD_TEXT);
    /* A guardian that isn't open looks at the text first. */
    argus_answer answer = argus_call(&none, ARGUS_DECLARE, 0, 0, 0, 0, name, strlen(name));
    if (answer.status == ARGUS_NOT_UTF8) return answer;
    if (argus_log_broken(log)) return answer_of(ARGUS_LOG_BROKEN);
    pthread_mutex_lock(log->lock);
    answer = find_or_declare(log, name, shape, &entry);
    pthread_mutex_unlock(log->lock);
    if (answer.status != ARGUS_OBJECT) return answer;
    /* Another thread may have declared it just now. */
    argus_answer waited = argus_log_wait(log, (uint64_t)(entry + 1));
    return waited.status == ARGUS_DONE ? answer : waited;
}

/* Aborts what was live. */
static uint32_t abort_live(argus_log *log, log_words *words) {
    argus_answer answer = argus_abort_live(log->guardian);
    if (answer.status == ARGUS_DONE)
        answer = argus_log_wait(log, (uint64_t)argus_entries(log->guardian).number);
    if (answer.status == ARGUS_LOG_IN_DOUBT) *words = log->words;
    else if (answer.status != ARGUS_DONE) log_fail(words, answer.status, "%s", argus_answer_name(answer));
    return answer.status;
}

argus_answer argus_log_backup(argus_log *log, const char *path) {
    log_words words = {{0}};
    if (log == NULL || path == NULL) return answer_of(ARGUS_NULL);
    if (!is_usable(log)) return answer_of(ARGUS_NOT_OPEN);
    uint32_t status = log_copy(log->path, path, &words);
    return status == ARGUS_DONE ? answer_of(status) : told(log, status, &words);
}

argus_answer argus_log_open(argus_log *log, const char *path, const argus_log_options *options) {
    static const argus_log_options none;
    log_words words = {{0}};
    uint32_t status;
    if (log == NULL || path == NULL) return answer_of(ARGUS_NULL);
    if (log->process != getpid()) return answer_of(ARGUS_NOT_OPEN);
    if (log->is_open || argus_entries(log->guardian).status != ARGUS_NOT_OPEN) return answer_of(ARGUS_OCCUPIED);
    log->is_broken = log->is_folded = 0;
    status = resolve(log, path, &words);
    if (status == ARGUS_DONE) status = open_both(log, options == NULL ? &none : options, &words);
    if (status == ARGUS_DONE) status = abort_live(log, &words);
    if (status != ARGUS_DONE) {
        close_log(log, 0);
        argus_close(log->guardian);
        log->is_broken = 0;
    }
    return told(log, status, &words);
}

void argus_log_words(argus_log *log, char *room, size_t size) {
    if (log == NULL || room == NULL || size == 0) return;
    pthread_mutex_lock(&log->turn);
    snprintf(room, size, "%s", log->words.text);
    pthread_mutex_unlock(&log->turn);
}

const char *argus_log_name(const argus_log *log) {
    return log == NULL || !is_usable(log) ? "" : log->database.name;
}

int argus_log_broken(argus_log *log) {
    if (log == NULL || !is_usable(log)) return 0;
    pthread_mutex_lock(&log->turn);
    int is_broken = log->is_broken;
    pthread_mutex_unlock(&log->turn);
    return is_broken;
}

argus_log_counts argus_log_counted(argus_log *log) {
    if (log == NULL || !is_usable(log)) return (argus_log_counts){0};
    pthread_mutex_lock(&log->turn);
    argus_log_counts counts = log->counts;
    pthread_mutex_unlock(&log->turn);
    return counts;
}
