/* Connections to a log's database, and short statements. */
#ifndef LOG_CONNECTION_H
#define LOG_CONNECTION_H

#include "log_words.h"

/* How long SQLite itself waits for a lock. */
enum { LOG_BUSY_MILLISECONDS = 5000 };

/* Opens a connection, which one thread at a time uses: `mode=ro`; `mode=rw`, which makes no file; `mode=rwc`;
 * `mode=ro&immutable=1`, which sees no WAL. It is the caller's to close, also at a fault. */
uint32_t log_connect(sqlite3 **database, const char *path, const char *mode, int milliseconds, log_words *words);

/* From now on each commit of this connection is on disk when it returns. */
uint32_t log_make_durable(sqlite3 *database, log_words *words);

/* Carries out statements whose rows nobody wants. */
uint32_t log_run(sqlite3 *database, const char *statements, log_words *words);

/* The integer, or the text, in the first column of a statement's first row. */
uint32_t log_number(sqlite3 *database, const char *statement, int64_t *number, log_words *words);
uint32_t log_first_text(sqlite3 *database, const char *statement, char *room, size_t size, log_words *words);

/* The path, and something after it, in new memory; NULL if there is none. */
char *log_path_with(const char *path, const char *suffix);

#endif
