/* How a database is made that is whole before it has its name: a new log, and a copy of one. */
#ifndef LOG_MAKING_H
#define LOG_MAKING_H

#include "log_words.h"

/* Makes an empty log. */
uint32_t log_make(const char *path, log_words *words);

/* Copies the log as it is at one moment, and compares the copy's rows. */
uint32_t log_copy(const char *from, const char *path, log_words *words);

#endif
