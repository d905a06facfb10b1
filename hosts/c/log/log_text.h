/* A text that grows. One that is all zeros is empty, and log_text_free makes it so again. */
#ifndef LOG_TEXT_H
#define LOG_TEXT_H

#include "argus.h"

#include <stddef.h>

typedef struct log_text {
    char *bytes;
    size_t size, room;
} log_text;

/* Makes room for so many bytes in all. 0 if there is no memory: then it is as it was. */
int log_text_reserve(log_text *it, size_t room);

/* Adds these bytes. 0 if there is no memory: then it is as it was. */
int log_text_add(log_text *it, const void *bytes, size_t size);

/* Makes it the reply that the guardian keeps; the status of argus_reply. */
uint32_t log_text_of_reply(log_text *it, argus_guardian *guardian);

void log_text_free(log_text *it);

#endif
