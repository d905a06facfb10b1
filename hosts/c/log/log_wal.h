/* Whether a frame of SQLite's write-ahead log (WAL) that was once on disk has changed. */
#ifndef LOG_WAL_H
#define LOG_WAL_H

#include "log_words.h"

/* The size of a WAL's header. A file that is smaller has nothing. */
enum { LOG_WAL_HEADER = 32 };

/* ARGUS_LOG_WAL_DAMAGED if a frame that was on disk has changed. The header of a WAL that is new may be torn, and then
 * nothing is in it. */
uint32_t log_check_wal(const char *path, int may_be_new, log_words *words);

#endif
