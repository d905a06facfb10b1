/* What is wrong with a log, in words: a function that fails returns a status, and writes these. */
#ifndef LOG_WORDS_H
#define LOG_WORDS_H

#include "argus_log.h"

#include <sqlite3.h>

typedef struct log_words {
    char text[1024];
} log_words;

/* Writes the words, and returns the status. */
uint32_t log_fail(log_words *words, uint32_t status, const char *format, ...) __attribute__((format(printf, 3, 4)));

/* The status of what SQLite has said last, with its words. The connection may be NULL: then there was no memory. */
uint32_t log_fail_as_sqlite(log_words *words, sqlite3 *database);

#endif
