/* The rows of a log: their tables, the chain of their sums, and how they are read and compared. */
#ifndef LOG_ROWS_H
#define LOG_ROWS_H

#include "log_text.h"
#include "log_words.h"

enum {
    LOG_APPLICATION = 0x41524755, /* "ARGU" in ASCII */
    LOG_FORMAT = 1,
    LOG_NAME_SIZE = 33 /* of a name: 32 hexadecimal digits and a zero */
};

/* What makes the tables. The caller frees it; NULL if there is no memory. */
char *log_tables(void);

/* The row of `log`: whose it is, who writes it, whether it is open, the next entry, and the chain's last sum. */
typedef struct log_head {
    char name[LOG_NAME_SIZE];
    int64_t epoch, is_open, next_entry, sum;
} log_head;

/* What is in the other tables. */
typedef struct log_found {
    int64_t first_entry, batches;
} log_found;

/* A link of the chain: of a batch after the sum before it; of the opening, whose sum before it is 0. */
int64_t log_summed(const char *name, int64_t first, int64_t before, const char *text, size_t size);

/* Whether the database is a log, of this format. */
uint32_t log_check_format(sqlite3 *database, log_words *words);

/* Whether SQLite finds that its pages are sound. */
uint32_t log_check_pages(sqlite3 *database, log_words *words);

uint32_t log_read_head(sqlite3 *database, log_head *head, log_words *words);

/* Takes the lines of the opening or of a batch, each with its line feed; `what` says which it is. */
typedef uint32_t log_take(void *host, const char *what, const char *lines, size_t size, log_words *words);

/* Compares the opening and each batch, and then has them taken, unless `take` is NULL. */
uint32_t log_read_rows(sqlite3 *database, const log_head *head, log_take *take, void *host, log_found *found,
                       log_words *words);

#endif
