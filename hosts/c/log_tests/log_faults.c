/* What is wrong with a log's database: each fault is told by its own status, and nothing is changed then. */
#include "log_bank.h"
#include "log_files.h"
#include "log_modes.h"

#include <inttypes.h>
#include <signal.h>
#include <sqlite3.h>
#include <stdio.h>
#include <stdlib.h>
#include <string.h>
#include <sys/stat.h>
#include <sys/wait.h>
#include <unistd.h>

enum { FRAME = 24 + 4096, WAL_HEADER = 32, ORDERS = 5, LATER_ORDERS = 29 };

/* A log with five orders, that was closed; and where it is opened. */
static file made;
static const char *path;
static char wal[4096], index_of_wal[4096];

/* Carries out statements; the number in the first column of the last row. */
static int keep_number(void *number, int count, char **columns, char **names) {
    (void)count, (void)names;
    if (columns[0] != NULL) *(int64_t *)number = strtoll(columns[0], NULL, 10);
    return 0;
}

static int64_t sql_at(const char *at, const char *statements) {
    sqlite3 *database;
    int64_t number = -1;
    char *words = NULL;
    want(sqlite3_open(at, &database) == SQLITE_OK, "a connection");
    if (sqlite3_exec(database, statements, keep_number, &number, &words) != SQLITE_OK) {
        fprintf(stderr, "%s: %s\n", statements, words);
        exit(1);
    }
    sqlite3_close(database);
    return number;
}

static int64_t sql(const char *statements) {
    return sql_at(path, statements);
}

/* Puts the log there as it was made. */
static void put_back(void) {
    file_remove(wal);
    file_remove(index_of_wal);
    file_write(path, &made);
}

/* The log isn't opened, for this reason, and is as it was; so it is refused again. */
static void refuse_with(uint32_t status, const char *words, const argus_log_options *options) {
    file before = file_read(path), before_wal = file_read(wal);
    for (int n = 0; n < 2; n++) {
        bank it;
        uint32_t had = bank_open_log(&it, path, options);
        if (had != status) fprintf(stderr, "%s\n", argus_log_status_name(had));
        want_words(it.log, words);
        want(had == status, argus_log_status_name(status));
        want(argus_close(&it.guardian).status == ARGUS_NOT_OPEN, "no guardian is left");
        bank_close(&it);
        want(file_is(path, &before) && file_is(wal, &before_wal), "the log is as it was");
    }
    file_free(&before);
    file_free(&before_wal);
}

static void refuse(uint32_t status, const char *words) {
    refuse_with(status, words, NULL);
}

/* The log is opened, and the client's last order is this one. */
static void open_with(int64_t last) {
    bank it;
    bank_open(&it, path);
    want(bank_number(&it, ACCOUNTS) == last, "the last order");
    want(bank_is_right(&it), "orders are whole");
    bank_close(&it);
}

/* A process opens the log, does this with it, and is killed. */
typedef void work(bank *it);

static void crash(work *what) {
    pid_t child = fork();
    if (child == 0) {
        bank it;
        bank_open(&it, path);
        what(&it);
        kill(getpid(), SIGKILL);
    }
    want(waitpid(child, NULL, 0) == child, "a child");
}

static void later_orders(bank *it) {
    for (int64_t number = ORDERS + 1; number <= LATER_ORDERS; number++)
        want(bank_order(it, 0, number) == ARGUS_DONE, "an order");
}

static void fold(bank *it) {
    want_answer(argus_log_checkpoint(it->log), ARGUS_DONE, "checkpoint");
}

/* What is changed, and how that is told. */
typedef struct fault {
    const char *change;
    uint32_t status;
    const char *words;
} fault;

/* The first entry of a batch, counted from the last one. */
#define ROW(n) "(SELECT first FROM batch ORDER BY first DESC LIMIT 1 OFFSET " #n ")"

static const fault FAULTS[] = {
    {"PRAGMA application_id = 7", ARGUS_LOG_NOT_A_LOG, "no log of a guardian"},
    {"PRAGMA user_version = 2", ARGUS_LOG_OTHER_FORMAT, "format 2"},
    {"DROP TABLE object", ARGUS_LOG_PAGES_DAMAGED, "no such table: object"},
    {"DROP TABLE batch", ARGUS_LOG_PAGES_DAMAGED, "no such table: batch"},
    {"ALTER TABLE log RENAME COLUMN epoch TO other", ARGUS_LOG_PAGES_DAMAGED, "no such column: epoch"},
    {"DELETE FROM log", ARGUS_LOG_ROW_MISSING, "`log` has no row"},
    {"UPDATE log SET sum = sum + 1", ARGUS_LOG_ROW_CHANGED, "another sum than the last batch"},
    {"UPDATE log SET name = 'another'", ARGUS_LOG_ROW_CHANGED, "isn't one of a log"},
    {"UPDATE log SET name = '0123456789abcdef0123456789abcdef'", ARGUS_LOG_ROW_CHANGED, "batch 0 hasn't the sum"},
    {"UPDATE log SET next_entry = next_entry + 1", ARGUS_LOG_CUT, "the log ends before entry"},
    {"UPDATE log SET next_entry = next_entry - 1", ARGUS_LOG_OLD, "older than the batches"},
    {"UPDATE batch SET lines = replace(lines, '{100}', '{900}')", ARGUS_LOG_ROW_CHANGED, "it was changed"},
    {"UPDATE batch SET lines = lines || ' ' WHERE first = " ROW(0), ARGUS_LOG_ROW_CHANGED, "it was changed"},
    {"UPDATE batch SET lines = CAST(x'30ff' AS TEXT) WHERE first = 0", ARGUS_LOG_ROW_CHANGED, "batch 0"},
    {"UPDATE batch SET lines = '' WHERE first = 0", ARGUS_LOG_ROW_CHANGED, "batch 0"},
    {"DELETE FROM batch WHERE first = " ROW(2), ARGUS_LOG_ROW_MISSING, "aren't there"},
    {"DELETE FROM batch WHERE first = 0", ARGUS_LOG_ROW_MISSING, "the entries 0 to"},
    {"INSERT INTO batch SELECT first + 1, lines, sum FROM batch WHERE first = " ROW(2), ARGUS_LOG_ROW_DOUBLED,
     "comes where entry"},
    {"UPDATE batch SET (lines, sum) = (SELECT lines, sum FROM batch WHERE first = " ROW(2) ") WHERE first = " ROW(1),
     ARGUS_LOG_ROW_DOUBLED, "once more"},
    {"INSERT INTO batch SELECT (SELECT next_entry FROM log), lines, sum FROM batch WHERE first = 0",
     ARGUS_LOG_ROW_DOUBLED, "once more"},
    {"UPDATE batch SET (lines, sum) = (SELECT lines, sum FROM batch WHERE first = " ROW(0) ") WHERE first = " ROW(2),
     ARGUS_LOG_ROW_SWAPPED, "those after it"},
    {"DELETE FROM batch WHERE first >= " ROW(1), ARGUS_LOG_CUT, "before entry"},
    {"DELETE FROM batch", ARGUS_LOG_CUT, "before entry 0"},
    {"UPDATE object SET shape = 'atomic_array[int]' WHERE name = 'ann'", ARGUS_LOG_ROW_CHANGED, "row 3 of `object`"},
    {"INSERT INTO object VALUES (99, 'nobody', 'atomic_array[int]', NULL)", ARGUS_LOG_ROW_CHANGED,
     "row 99 of `object`"},
};

static const fault FAULTS_OF_OPENINGS[] = {
    {"UPDATE opening SET text = replace(text, '{5}', '{6}')", ARGUS_LOG_ROW_CHANGED, "another sum"},
    {"DELETE FROM opening WHERE line = 2", ARGUS_LOG_ROW_MISSING, "line 2 of the opening"},
    {"DELETE FROM opening WHERE line = 7", ARGUS_LOG_ROW_CHANGED, "another sum"},
    {"DELETE FROM opening WHERE line = 0", ARGUS_LOG_ROW_MISSING, "line 0 of the opening"},
    {"UPDATE opening SET text = 'opening' WHERE line = 0", ARGUS_LOG_ROW_CHANGED, "before which entry"},
    {"UPDATE opening SET text = 'opening entries 99999999999999999999 actions 0' WHERE line = 0", ARGUS_LOG_ROW_CHANGED,
     "before which entry"},
    {"DELETE FROM opening", ARGUS_LOG_CUT, "before entry 0"},
};

static void try_all(const file *begins, const fault *faults, size_t count) {
    for (size_t at = 0; at < count; at++) {
        put_back();
        file_write(path, begins);
        sql(faults[at].change);
        refuse(faults[at].status, faults[at].words);
    }
}

/* Rows are changed, removed, doubled and swapped; of a log that begins with an opening, too. */
static void try_rows(void) {
    bank it;
    try_all(&made, FAULTS, sizeof FAULTS / sizeof FAULTS[0]);
    put_back();
    bank_open(&it, path);
    fold(&it);
    bank_close(&it);
    open_with(ORDERS);
    file folded = file_read(path);
    try_all(&folded, FAULTS_OF_OPENINGS, sizeof FAULTS_OF_OPENINGS / sizeof FAULTS_OF_OPENINGS[0]);
    file_free(&folded);
}

/* What isn't a database of ours, or no file. */
static void try_files(void) {
    char text[] = "some text, and more of it than a head of a page has, which is a hundred bytes: so it goes on and on";
    const file empty = {"", 0};
    put_back();
    file_remove(path);
    refuse(ARGUS_LOG_NO_LOG, "no log is there");
    file_write(path, &empty);
    refuse(ARGUS_LOG_NOT_A_LOG, "no log of a guardian");
    file_write(path, &(file){text, sizeof text});
    refuse(ARGUS_LOG_NOT_A_LOG, "not a database");
    file_remove(path);
    want(mkfifo(path, 0600) == 0, "a pipe");
    bank it;
    want(bank_open_log(&it, path, NULL) == ARGUS_LOG_NOT_A_LOG, "a pipe is no log");
    bank_close(&it);
    file_remove(path);
    want(mkdir(path, 0700) == 0, "a folder");
    want(bank_open_log(&it, path, NULL) == ARGUS_LOG_NOT_A_LOG, "a folder is no log");
    bank_close(&it);
    rmdir(path);
}

/* The log that is asked for by its name and its length. */
static void try_wanted(void) {
    char name[64];
    bank it;
    put_back();
    bank_open(&it, path);
    snprintf(name, sizeof name, "%s", argus_log_name(it.log));
    uint64_t entries = argus_log_counted(it.log).next_entry;
    bank_close(&it);
    refuse_with(ARGUS_LOG_OTHER_LOG, "that of the one that is wanted 0123", &(argus_log_options){.name = "0123"});
    refuse_with(ARGUS_LOG_OLD, "it is an older copy", &(argus_log_options){.at_least = entries + 1});
    want(bank_open_log(&it, path, &(argus_log_options){.name = name, .at_least = entries}) == ARGUS_DONE, "as wanted");
    bank_close(&it);
}

/* The sums are right, and no guardian has such a journal. */
static void try_other_reply(void) {
    static const char FORGED[] = "0 declare atomic_record[n:int] -> o7";
    char statement[512], name[64];
    bank it;
    put_back();
    bank_open(&it, path);
    snprintf(name, sizeof name, "%s", argus_log_name(it.log));
    bank_close(&it);
    uint32_t first = file_sum(name, 0, 0, ""), sum = file_sum(name, 0, first, FORGED);
    snprintf(statement, sizeof statement,
             "DELETE FROM batch; INSERT INTO batch VALUES (0, '%s', %" PRIu32 ");"
             "UPDATE log SET next_entry = 1, sum = %" PRIu32, FORGED, sum, sum);
    sql(statement);
    refuse(ARGUS_LOG_OTHER_REPLY,
           "batch 0, `0 declare atomic_record[n:int] -> o7`: the journal before it gives the reply o0");
}

static int is_damage(uint32_t status) {
    return status == ARGUS_LOG_NOT_A_LOG || status == ARGUS_LOG_OTHER_FORMAT ||
           (status >= ARGUS_LOG_ROW_CHANGED && status <= ARGUS_LOG_OTHER_REPLY);
}

/* The page with the root of `batch` isn't one any more; and any byte is another one: pages have bytes that count for
 * nothing, so it is told, or nothing is missing. */
static void try_pages(void) {
    int refused = 0;
    put_back();
    int64_t root = sql("SELECT rootpage FROM sqlite_master WHERE name = 'batch'");
    file content = file_read(path);
    content.bytes[(root - 1) * 4096] = 77;
    file_write(path, &content);
    refuse(ARGUS_LOG_PAGES_DAMAGED, "");
    content.bytes[(root - 1) * 4096] = made.bytes[(root - 1) * 4096];
    for (size_t at = 7; at < content.size; at += content.size / 151) {
        bank it;
        content.bytes[at] ^= (char)(1 << at % 8);
        file_write(path, &content);
        uint32_t status = bank_open_log(&it, path, NULL);
        want(status != ARGUS_DONE || bank_number(&it, ACCOUNTS) == ORDERS, "nothing is missing");
        want(status == ARGUS_DONE || is_damage(status), "damage has its name");
        refused += status != ARGUS_DONE;
        bank_close(&it);
        content.bytes[at] ^= (char)(1 << at % 8);
        put_back();
    }
    want(refused > 10, "some are told");
    file_free(&content);
}

/* A killed process leaves a WAL, which is removed, emptied, or moved by another program. */
static void try_missing_wal(void) {
    put_back();
    crash(later_orders);
    file kept = file_read(wal), alone = file_read(path);
    file_remove(wal);
    refuse(ARGUS_LOG_WAL_MISSING, "what it had is gone");
    file_write(wal, &(file){"", 0});
    bank it;
    want(bank_open_log(&it, path, NULL) == ARGUS_LOG_WAL_MISSING, "an empty WAL has nothing");
    bank_close(&it);
    file_write(wal, &kept);
    open_with(LATER_ORDERS);
    file_write(path, &alone);
    file_write(wal, &kept);
    file_remove(index_of_wal);
    sql("SELECT * FROM log");
    refuse(ARGUS_LOG_WAL_MISSING, "UPDATE log SET is_open = 0");
    sql("UPDATE log SET is_open = 0");
    open_with(LATER_ORDERS);
    file_free(&kept);
    file_free(&alone);
}

/* Each frame of the WAL rots, in its page and in its head, but for those of the last commit. */
static void try_rotten_wal(void) {
    put_back();
    crash(later_orders);
    file kept = file_read(wal);
    size_t frames = (kept.size - WAL_HEADER) / FRAME;
    want(frames > 20, "there are frames");
    for (size_t at = 0; at < 2 * (frames - 6); at++) {
        char words[64];
        size_t byte = WAL_HEADER + at / 2 * FRAME + (at % 2 == 0 ? 1000 : 9);
        snprintf(words, sizeof words, "frame %zu has changed", at / 2 + 1);
        kept.bytes[byte] ^= 1;
        file_write(wal, &kept);
        refuse(ARGUS_LOG_WAL_DAMAGED, words);
        kept.bytes[byte] ^= 1;
    }
    kept.bytes[20] ^= 1;
    file_write(wal, &kept);
    refuse(ARGUS_LOG_WAL_DAMAGED, "the header");
    kept.bytes[20] ^= 1;
    file_write(wal, &kept);
    open_with(LATER_ORDERS);
    file_free(&kept);
}

/* The last commit is torn. Nobody can tell that from a write that was never acknowledged: what is before it is
 * there. */
static void try_torn_wal(void) {
    put_back();
    crash(later_orders);
    file kept = file_read(wal), alone = file_read(path);
    for (int n = 0; n < 2; n++) {
        file torn = {kept.bytes, kept.size - (n == 0 ? 100 : FRAME)};
        file_write(path, &alone);
        file_write(wal, &torn);
        file_remove(index_of_wal);
        open_with(LATER_ORDERS - 1);
    }
    file_free(&kept);
    file_free(&alone);
}

/* The WAL is that of another log, or an older one. */
static void try_other_wal(void) {
    char other[4096 + 16], of_other[4096 + 32];
    put_back();
    crash(later_orders);
    file kept = file_read(wal), alone = file_read(path);
    snprintf(other, sizeof other, "%s.other", path);
    snprintf(of_other, sizeof of_other, "%s-wal", other);
    const char *here = path;
    path = other;
    crash(later_orders);
    path = here;
    file foreign = file_read(of_other);
    file_write(wal, &foreign);
    file_remove(index_of_wal);
    refuse(ARGUS_LOG_OTHER_LOG, "the WAL beside it");
    file_write(path, &alone);
    file_write(wal, &kept);
    file_remove(index_of_wal);
    crash(fold);
    file_write(wal, &kept);
    file_remove(index_of_wal);
    refuse(ARGUS_LOG_OLD, "that is older");
    file_free(&kept);
    file_free(&alone);
    file_free(&foreign);
}

int log_faults(const char *at) {
    bank it;
    path = at;
    snprintf(wal, sizeof wal, "%s-wal", path);
    snprintf(index_of_wal, sizeof index_of_wal, "%s-shm", path);
    bank_open(&it, path);
    for (int64_t number = 1; number <= ORDERS; number++) want(bank_order(&it, 0, number) == ARGUS_DONE, "an order");
    bank_close(&it);
    made = file_read(path);
    try_rows();
    try_files();
    try_wanted();
    try_other_reply();
    try_pages();
    try_missing_wal();
    try_rotten_wal();
    try_torn_wal();
    try_other_wal();
    file_free(&made);
    printf("each fault is told\n");
    return 0;
}
