/* The names of objects, which the database keeps. Each call is made with the guardian's mutex held. */
#ifndef LOG_NAMES_H
#define LOG_NAMES_H

#include "log_words.h"

typedef struct log_name {
    struct log_name *next; /* the one that was declared after it */
    const char *name, *shape;
    uint32_t object;
    int64_t entry; /* that of its declaration; -1 if the log had it when it was opened */
    char texts[];  /* the name and the shape */
} log_name;

/* One that is all zeros has no names. */
typedef struct log_names {
    void *tree;                         /* of tsearch */
    log_name *first, *last;             /* all, in the order in which they were declared */
    log_name *unwritten;                /* from here on they aren't in the database; NULL: all are */
} log_names;

/* The one of this name, or NULL. */
log_name *log_names_find(const log_names *it, const char *name);

/* A name that isn't there yet; NULL if there is no memory. Its object is noted later, or it is dropped. */
log_name *log_names_add(log_names *it, const char *name, const char *shape);
void log_names_drop(log_names *it, log_name *name);

/* Notes a name's object, and the entry of its declaration: then it has to be written. */
void log_names_note(log_names *it, log_name *name, uint32_t object, int64_t entry);

/* How many of the unwritten ones were declared before this entry; and that so many are in the database now. */
size_t log_names_due(const log_names *it, int64_t before);
void log_names_written(log_names *it, size_t count);

/* Reads those of a database, and compares their shapes with the guardian's. */
uint32_t log_names_read(log_names *it, sqlite3 *database, argus_guardian *guardian, log_words *words);

void log_names_free(log_names *it);

#endif
