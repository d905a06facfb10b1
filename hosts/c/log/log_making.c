/* How a database is made that is whole before it has its name. */
#include "log_making.h"

#include "log_connection.h"
#include "log_rows.h"

#include <errno.h>
#include <fcntl.h>
#include <inttypes.h>
#include <stdio.h>
#include <stdlib.h>
#include <string.h>
#include <sys/stat.h>
#include <unistd.h>

enum { NAME_BYTES = 16, SUFFIX_BYTES = 8 };

/* What a new database is filled with. */
typedef uint32_t filling(sqlite3 *database, const char *from, log_words *words);

/* So many random bytes in hexadecimal digits, and a zero. */
static void draw(char *digits, int bytes) {
    unsigned char drawn[NAME_BYTES];
    sqlite3_randomness(bytes, drawn);
    for (int at = 0; at < bytes; at++) snprintf(digits + (ptrdiff_t)2 * at, 3, "%02x", drawn[at]);
}

static uint32_t fill_new(sqlite3 *database, const char *from, log_words *words) {
    char name[LOG_NAME_SIZE];
    (void)from;
    draw(name, NAME_BYTES);
    char *tables = log_tables();
    char *text = tables == NULL
                     ? NULL
                     : sqlite3_mprintf("BEGIN IMMEDIATE; PRAGMA application_id=%d; PRAGMA user_version=%d; %s"
                                       "INSERT INTO log VALUES (0, %Q, %Q, 0, 0, 0, %lld); COMMIT;",
                                       LOG_APPLICATION, LOG_FORMAT, tables, name, ARGUS_VERSION,
                                       (long long)log_summed(name, 0, 0, NULL, 0));
    uint32_t status = text == NULL ? log_fail_as_sqlite(words, NULL) : log_run(database, text, words);
    sqlite3_free(text);
    free(tables);
    return status;
}

/* Copies all pages, in one step. */
static uint32_t copy_pages(sqlite3 *from, sqlite3 *database, log_words *words) {
    sqlite3_backup *copying = sqlite3_backup_init(database, "main", from, "main");
    int code = SQLITE_BUSY;
    if (copying == NULL) return log_fail_as_sqlite(words, database);
    while (code == SQLITE_BUSY || code == SQLITE_LOCKED) code = sqlite3_backup_step(copying, -1);
    sqlite3_backup_finish(copying);
    return code == SQLITE_DONE ? (uint32_t)ARGUS_DONE : log_fail_as_sqlite(words, database);
}

static uint32_t fill_copy(sqlite3 *database, const char *from, log_words *words) {
    sqlite3 *source = NULL;
    log_head head;
    log_found found;
    uint32_t status = log_connect(&source, from, "mode=ro", LOG_BUSY_MILLISECONDS, words);
    if (status == ARGUS_DONE) status = copy_pages(source, database, words);
    sqlite3_close(source);
    if (status == ARGUS_DONE)
        status = log_run(database, "PRAGMA journal_mode=DELETE; UPDATE log SET is_open=0", words);
    if (status == ARGUS_DONE) status = log_read_head(database, &head, words);
    if (status == ARGUS_DONE) status = log_check_pages(database, words);
    if (status == ARGUS_DONE) status = log_read_rows(database, &head, NULL, NULL, &found, words);
    return status;
}

static uint32_t make_new(const char *path, filling *fill, const char *from, log_words *words) {
    sqlite3 *database = NULL;
    uint32_t status = log_connect(&database, path, "mode=rwc", LOG_BUSY_MILLISECONDS, words);
    if (status == ARGUS_DONE) status = log_make_durable(database, words);
    if (status == ARGUS_DONE) status = fill(database, from, words);
    sqlite3_close(database);
    return status;
}

/* Syncs the folder, so that the name outlives a power cut. */
static int sync_folder(const char *path) {
    char *folder = strdup(path), *slash = folder == NULL ? NULL : strrchr(folder, '/');
    if (folder == NULL) return errno = ENOMEM, 0;
    if (slash != NULL) slash[slash == folder ? 1 : 0] = '\0';
    int opened = open(slash == NULL ? "." : folder, O_RDONLY | O_DIRECTORY | O_CLOEXEC);
    int is_done = opened >= 0 && fsync(opened) == 0;
    if (opened >= 0) close(opened);
    free(folder);
    return is_done;
}

/* Gives the new database its name. Of two that make it at once one is refused. */
static uint32_t name_it(const char *new, const char *path, log_words *words) {
    if (link(new, path) == 0 && sync_folder(path)) return ARGUS_DONE;
    if (errno == EEXIST) return log_fail(words, ARGUS_LOG_EXISTS, "a file is there: %s", path);
    return log_fail(words, errno == ENOMEM ? (uint32_t)ARGUS_NO_MEMORY : (uint32_t)ARGUS_LOG_UNREAD,
                    "%s can't be made: %s", path, strerror(errno));
}

/* A name beside the path that nobody else uses, in memory that has room for what SQLite puts behind it. */
static char *first_name(const char *path) {
    size_t size = strlen(path) + strlen("-new-");
    char *name = malloc(size + (size_t)2 * SUFFIX_BYTES + sizeof "-journal");
    if (name == NULL) return NULL;
    sprintf(name, "%s-new-", path);
    draw(name + size, SUFFIX_BYTES);
    return name;
}

/* Removes this name, and what SQLite may have left beside it. */
static void remove_all(char *name) {
    static const char *const suffixes[] = {"", "-journal", "-wal", "-shm"};
    char *end = name + strlen(name);
    for (int at = 0; at < 4; at++) {
        strcpy(end, suffixes[at]);
        unlink(name);
    }
}

static uint32_t make(const char *path, filling *fill, const char *from, log_words *words) {
    struct stat found;
    if (lstat(path, &found) == 0) return log_fail(words, ARGUS_LOG_EXISTS, "a file is there: %s", path);
    char *name = first_name(path);
    if (name == NULL) return log_fail_as_sqlite(words, NULL);
    uint32_t status = make_new(name, fill, from, words);
    if (status == ARGUS_LOG_UNREAD) {
        log_words why = *words;
        log_fail(words, status, "%s can't be made: %s", path, why.text);
    }
    if (status == ARGUS_DONE) status = name_it(name, path, words);
    remove_all(name);
    free(name);
    return status;
}

uint32_t log_make(const char *path, log_words *words) {
    return make(path, fill_new, NULL, words);
}

uint32_t log_copy(const char *from, const char *path, log_words *words) {
    return make(path, fill_copy, from, words);
}
