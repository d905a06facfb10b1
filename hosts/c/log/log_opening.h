/* How a log is opened: it is read first, and nothing is changed if anything is wrong with it. */
#ifndef LOG_OPENING_H
#define LOG_OPENING_H

#include "log_database.h"

/* Opens the log in a file, whose path has no links, makes its guardian in a handle that is open, and reads the names.
 * The caller closes both, also at a fault. */
uint32_t log_open(log_database *database, const char *path, const argus_log_options *options, argus_guardian *guardian,
                  log_names *names, log_found *found, log_words *words);

#endif
