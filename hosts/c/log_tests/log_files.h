/* Files as tests put them there, and look at them. */
#ifndef LOG_FILES_H
#define LOG_FILES_H

#include <stddef.h>
#include <stdint.h>

typedef struct file {
    char *bytes;
    size_t size;
} file;

/* What is in a file; one that isn't there is empty. */
file file_read(const char *path);
void file_write(const char *path, const file *it);
void file_remove(const char *path);
void file_free(file *it);

/* Whether the file has this. */
int file_is(const char *path, const file *it);

/* A sum of a log's chain, by the rule of docs/DURABLE.md. */
uint32_t file_sum(const char *name, int64_t first, uint32_t before, const char *lines);

#endif
