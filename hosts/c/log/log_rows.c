/* The rows of a log, which are read and compared one after another. */
#include "log_rows.h"

#include "log_connection.h"

#include <inttypes.h>
#include <stdio.h>
#include <stdlib.h>
#include <string.h>
#include <zlib.h>

/* Between the tables' ends stands what makes their types strict, where SQLite can do that. */
static const char *const TABLES[] = {
    "CREATE TABLE log     (id INTEGER PRIMARY KEY CHECK (id = 0), name TEXT NOT NULL, version TEXT NOT NULL,\n"
    "                      epoch INTEGER NOT NULL, is_open INTEGER NOT NULL, next_entry INTEGER NOT NULL,\n"
    "                      sum INTEGER NOT NULL)",
    "CREATE TABLE opening (line INTEGER PRIMARY KEY, text TEXT NOT NULL)",
    "CREATE TABLE batch   (first INTEGER PRIMARY KEY, lines TEXT NOT NULL, sum INTEGER NOT NULL)",
    "CREATE TABLE object  (number INTEGER PRIMARY KEY, name TEXT UNIQUE, shape TEXT NOT NULL, base TEXT)",
};

char *log_tables(void) {
    const char *end = sqlite3_libversion_number() >= 3037000 ? " STRICT;" : ";";
    log_text text = {0};
    int is_had = 1;
    for (size_t at = 0; at < sizeof TABLES / sizeof TABLES[0]; at++)
        is_had = is_had && log_text_add(&text, TABLES[at], strlen(TABLES[at])) && log_text_add(&text, end, strlen(end));
    is_had = is_had && log_text_add(&text, "", 1);
    if (!is_had) log_text_free(&text);
    return text.bytes;
}

int64_t log_summed(const char *name, int64_t first, int64_t before, const char *text, size_t size) {
    char head[LOG_NAME_SIZE + 48];
    int length = snprintf(head, sizeof head, "%s %" PRId64 " %" PRId64 "\n", name, first, before);
    uLong sum = crc32_z(0, (const Bytef *)head, (z_size_t)length);
    return (int64_t)(size == 0 ? sum : crc32_z(sum, (const Bytef *)text, size));
}

uint32_t log_check_format(sqlite3 *database, log_words *words) {
    int64_t application, format;
    uint32_t status = log_number(database, "PRAGMA application_id", &application, words);
    if (status == ARGUS_DONE) status = log_number(database, "PRAGMA user_version", &format, words);
    if (status != ARGUS_DONE) return status;
    if (application != LOG_APPLICATION) return log_fail(words, ARGUS_LOG_NOT_A_LOG, "the file is no log of a guardian");
    if (format == LOG_FORMAT) return ARGUS_DONE;
    return log_fail(words, ARGUS_LOG_OTHER_FORMAT, "it has format %" PRId64 ", which isn't known", format);
}

uint32_t log_check_pages(sqlite3 *database, log_words *words) {
    char said[256];
    uint32_t status = log_first_text(database, "PRAGMA quick_check(1)", said, sizeof said, words);
    if (status != ARGUS_DONE || strcmp(said, "ok") == 0) return status;
    return log_fail(words, ARGUS_LOG_PAGES_DAMAGED, "the database isn't sound: %s", said);
}

static int is_name(const char *name) {
    return strlen(name) == LOG_NAME_SIZE - 1 && strspn(name, "0123456789abcdef") == LOG_NAME_SIZE - 1;
}

/* The columns of the row of `log`. */
static uint32_t take_head(sqlite3_stmt *row, log_head *head, log_words *words) {
    int64_t *const numbers[] = {&head->epoch, &head->is_open, &head->next_entry, &head->sum};
    const char *name = (const char *)sqlite3_column_text(row, 0);
    int is_sound = name != NULL && is_name(name);
    for (int at = 0; at < 4; at++) {
        is_sound &= sqlite3_column_type(row, at + 1) == SQLITE_INTEGER;
        *numbers[at] = sqlite3_column_int64(row, at + 1);
    }
    if (!is_sound) return log_fail(words, ARGUS_LOG_ROW_CHANGED, "the row of `log` isn't one of a log");
    memcpy(head->name, name, LOG_NAME_SIZE);
    return ARGUS_DONE;
}

uint32_t log_read_head(sqlite3 *database, log_head *head, log_words *words) {
    static const char TEXT[] = "SELECT name, epoch, is_open, next_entry, sum FROM log";
    sqlite3_stmt *row;
    if (sqlite3_prepare_v2(database, TEXT, -1, &row, NULL) != SQLITE_OK) return log_fail_as_sqlite(words, database);
    int code = sqlite3_step(row);
    uint32_t status = code == SQLITE_ROW    ? take_head(row, head, words)
                      : code == SQLITE_DONE ? log_fail(words, ARGUS_LOG_ROW_MISSING, "`log` has no row")
                                            : log_fail_as_sqlite(words, database);
    sqlite3_finalize(row);
    return status;
}

/* How far the chain was compared, and who takes its lines. */
typedef struct chain {
    const log_head *head;
    log_take *take;
    void *host;
    int64_t entry, sum, batches;
    log_text lines; /* of the row that is compared */
} chain;

/* Puts the text of a row's column behind the lines. The types of old tables aren't strict. */
static uint32_t add_text(sqlite3_stmt *row, int column, const char *what, log_text *lines, log_words *words) {
    if (sqlite3_column_type(row, column) != SQLITE_TEXT)
        return log_fail(words, ARGUS_LOG_ROW_CHANGED, "%s has no text", what);
    const unsigned char *text = sqlite3_column_text(row, column);
    if (text == NULL || !log_text_add(lines, text, (size_t)sqlite3_column_bytes(row, column)))
        return log_fail_as_sqlite(words, NULL);
    return ARGUS_DONE;
}

/* Has the row's lines taken, with a line feed behind the last one. */
static uint32_t take_lines(chain *it, const char *what, log_words *words) {
    if (it->take == NULL) return ARGUS_DONE;
    if (!log_text_add(&it->lines, "\n", 1)) return log_fail_as_sqlite(words, NULL);
    return it->take(it->host, what, it->lines.bytes, it->lines.size, words);
}

/* Whether the word is a number, of 20 digits at most. */
static int number_in(const char *word, size_t size, uint64_t *number) {
    char digits[21];
    if (size == 0 || size >= sizeof digits) return 0;
    memcpy(digits, word, size);
    digits[size] = '\0';
    *number = strtoull(digits, NULL, 10);
    return strspn(digits, "0123456789") == size;
}

static size_t size_to(const char *text, size_t size, char end) {
    const char *found = size == 0 ? NULL : memchr(text, end, size);
    return found == NULL ? size : (size_t)(found - text);
}

/* The number of the entry before which an opening stands, as in `opening entries 9 actions 2`. */
static uint32_t entry_of(const log_text *opening, int64_t *entry, log_words *words) {
    static const char BEGINS[] = "opening entries ";
    size_t line = size_to(opening->bytes, opening->size, '\n'), begins = sizeof BEGINS - 1;
    uint64_t number = 0;
    *entry = 0;
    if (opening->size == 0) return ARGUS_DONE;
    if (line < begins || memcmp(opening->bytes, BEGINS, begins) != 0 ||
        !number_in(opening->bytes + begins, size_to(opening->bytes + begins, line - begins, ' '), &number) ||
        number > INT64_MAX)
        return log_fail(words, ARGUS_LOG_ROW_CHANGED,
                        "line 0 of the opening doesn't say before which entry it stands");
    *entry = (int64_t)number;
    return ARGUS_DONE;
}

/* The lines of the opening, whose numbers are those from 0 on. */
static uint32_t gather_opening(sqlite3 *database, sqlite3_stmt *row, log_text *lines, log_words *words) {
    uint32_t status = ARGUS_DONE;
    int code = SQLITE_DONE;
    for (int64_t line = 0; status == ARGUS_DONE && (code = sqlite3_step(row)) == SQLITE_ROW; line++) {
        if (sqlite3_column_int64(row, 0) != line)
            return log_fail(words, ARGUS_LOG_ROW_MISSING, "line %" PRId64 " of the opening isn't there", line);
        if (line != 0 && !log_text_add(lines, "\n", 1)) return log_fail_as_sqlite(words, NULL);
        status = add_text(row, 1, "the opening", lines, words);
    }
    return status != ARGUS_DONE || code == SQLITE_DONE ? status : log_fail_as_sqlite(words, database);
}

static uint32_t read_opening(sqlite3 *database, chain *it, log_words *words) {
    static const char TEXT[] = "SELECT line, text FROM opening ORDER BY line";
    sqlite3_stmt *row;
    if (sqlite3_prepare_v2(database, TEXT, -1, &row, NULL) != SQLITE_OK) return log_fail_as_sqlite(words, database);
    uint32_t status = gather_opening(database, row, &it->lines, words);
    sqlite3_finalize(row);
    if (status == ARGUS_DONE) status = entry_of(&it->lines, &it->entry, words);
    if (status != ARGUS_DONE) return status;
    it->sum = log_summed(it->head->name, it->entry, 0, it->lines.bytes, it->lines.size);
    return it->lines.size == 0 ? (uint32_t)ARGUS_DONE : take_lines(it, "the opening", words);
}

/* Whether this batch comes next, and its lines are in their place. */
static uint32_t check_place(const chain *it, int64_t first, log_words *words) {
    uint64_t begins = 0;
    if (first > it->entry)
        return log_fail(words, ARGUS_LOG_ROW_MISSING,
                        "the entries %" PRId64 " to %" PRId64 " aren't there: batch %" PRId64 " comes next", it->entry,
                        first - 1, first);
    if (first < it->entry)
        return log_fail(words, ARGUS_LOG_ROW_DOUBLED, "batch %" PRId64 " comes where entry %" PRId64 " comes next",
                        first, it->entry);
    if (!number_in(it->lines.bytes, size_to(it->lines.bytes, it->lines.size, ' '), &begins)) return ARGUS_DONE;
    if (begins > (uint64_t)first)
        return log_fail(words, ARGUS_LOG_ROW_SWAPPED,
                        "in the place of batch %" PRId64 " are the lines of entry %" PRIu64 " and those after it",
                        first, begins);
    if (begins < (uint64_t)first)
        return log_fail(words, ARGUS_LOG_ROW_DOUBLED,
                        "in the place of batch %" PRId64 " are the lines of entry %" PRIu64 " once more", first,
                        begins);
    return ARGUS_DONE;
}

static int64_t lines_in(const log_text *text) {
    int64_t lines = 1;
    const char *end = text->bytes + text->size;
    for (const char *at = text->bytes; at < end; at++) lines += *at == '\n';
    return lines;
}

static uint32_t read_batch(sqlite3_stmt *row, chain *it, log_words *words) {
    char what[32];
    int64_t first = sqlite3_column_int64(row, 0);
    snprintf(what, sizeof what, "batch %" PRId64, first);
    it->lines.size = 0;
    uint32_t status = add_text(row, 1, what, &it->lines, words);
    if (status == ARGUS_DONE) status = check_place(it, first, words);
    if (status != ARGUS_DONE) return status;
    it->sum = log_summed(it->head->name, first, it->sum, it->lines.bytes, it->lines.size);
    if (sqlite3_column_type(row, 2) != SQLITE_INTEGER || sqlite3_column_int64(row, 2) != it->sum)
        return log_fail(words, ARGUS_LOG_ROW_CHANGED,
                        "%s hasn't the sum that it says: it was changed, or what is before it", what);
    it->entry += lines_in(&it->lines);
    it->batches++;
    return take_lines(it, what, words);
}

static uint32_t read_batches(sqlite3 *database, chain *it, log_words *words) {
    static const char TEXT[] = "SELECT first, lines, sum FROM batch ORDER BY first";
    sqlite3_stmt *row;
    uint32_t status = ARGUS_DONE;
    int code = SQLITE_DONE;
    if (sqlite3_prepare_v2(database, TEXT, -1, &row, NULL) != SQLITE_OK) return log_fail_as_sqlite(words, database);
    while (status == ARGUS_DONE && (code = sqlite3_step(row)) == SQLITE_ROW) status = read_batch(row, it, words);
    if (status == ARGUS_DONE && code != SQLITE_DONE) status = log_fail_as_sqlite(words, database);
    sqlite3_finalize(row);
    return status;
}

static uint32_t check_end(const chain *it, log_words *words) {
    const log_head *head = it->head;
    if (it->entry < head->next_entry)
        return log_fail(words, ARGUS_LOG_CUT,
                        "the log ends before entry %" PRId64 ", and `log` says that entry %" PRId64 " comes next",
                        it->entry, head->next_entry);
    if (it->entry > head->next_entry)
        return log_fail(words, ARGUS_LOG_OLD,
                        "the row of `log` is older than the batches: it says %" PRId64 ", in place of %" PRId64,
                        head->next_entry, it->entry);
    if (it->sum == head->sum) return ARGUS_DONE;
    return log_fail(words, ARGUS_LOG_ROW_CHANGED,
                    "the row of `log` has another sum than the last batch, or the opening: one was changed");
}

uint32_t log_read_rows(sqlite3 *database, const log_head *head, log_take *take, void *host, log_found *found,
                       log_words *words) {
    chain it = {.head = head, .take = take, .host = host};
    uint32_t status = read_opening(database, &it, words);
    found->first_entry = it.entry;
    if (status == ARGUS_DONE) status = read_batches(database, &it, words);
    if (status == ARGUS_DONE) status = check_end(&it, words);
    found->batches = it.batches;
    log_text_free(&it.lines);
    return status;
}
