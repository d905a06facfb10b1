/* The names of objects: a list in the order of declaration, and a tree in which they are found. */
#include "log_names.h"

#include "log_text.h"

#include <inttypes.h>
#include <search.h>
#include <stdlib.h>
#include <string.h>

static int compare(const void *one, const void *other) {
    return strcmp(((const log_name *)one)->name, ((const log_name *)other)->name);
}

log_name *log_names_find(const log_names *it, const char *name) {
    const log_name wanted = {.name = name};
    log_name *const *found = tfind(&wanted, &it->tree, compare);
    return found == NULL ? NULL : *found;
}

log_name *log_names_add(log_names *it, const char *name, const char *shape) {
    size_t name_size = strlen(name) + 1, shape_size = strlen(shape) + 1;
    log_name *made = malloc(sizeof *made + name_size + shape_size);
    if (made == NULL) return NULL;
    *made = (log_name){.name = made->texts, .shape = made->texts + name_size, .entry = -1};
    memcpy(made->texts, name, name_size);
    memcpy(made->texts + name_size, shape, shape_size);
    if (tsearch(made, &it->tree, compare) != NULL) return made;
    free(made);
    return NULL;
}

void log_names_drop(log_names *it, log_name *name) {
    tdelete(name, &it->tree, compare);
    free(name);
}

/* Puts a name behind those that are there. */
static void append(log_names *it, log_name *name) {
    if (it->last == NULL) it->first = name;
    else it->last->next = name;
    it->last = name;
}

void log_names_note(log_names *it, log_name *name, uint32_t object, int64_t entry) {
    name->object = object;
    name->entry = entry;
    append(it, name);
    if (it->unwritten == NULL) it->unwritten = name;
}

size_t log_names_due(const log_names *it, int64_t before) {
    size_t count = 0;
    for (const log_name *at = it->unwritten; at != NULL && at->entry < before; at = at->next) count++;
    return count;
}

void log_names_written(log_names *it, size_t count) {
    while (count-- > 0) it->unwritten = it->unwritten->next;
}

/* Whether the guardian has this object, with this shape. */
static uint32_t check_shape(argus_guardian *guardian, int64_t object, const char *shape, log_words *words) {
    log_text text = {0};
    uint32_t number = object >= 0 && object < UINT32_MAX ? (uint32_t)object : UINT32_MAX;
    uint32_t status = argus_shape(guardian, number).status;
    if (status == ARGUS_TEXT) status = log_text_of_reply(&text, guardian);
    int is_same = text.size != 0 && text.size == strlen(shape) && memcmp(text.bytes, shape, text.size) == 0;
    log_text_free(&text);
    if (status == ARGUS_NO_MEMORY) return log_fail_as_sqlite(words, NULL);
    if (is_same) return ARGUS_DONE;
    return log_fail(words, ARGUS_LOG_ROW_CHANGED, "row %" PRId64 " of `object` isn't as the journal has the object",
                    object);
}

/* The name in a row. */
static uint32_t take_row(log_names *it, sqlite3_stmt *row, argus_guardian *guardian, log_words *words) {
    int64_t object = sqlite3_column_int64(row, 0);
    const char *name = (const char *)sqlite3_column_text(row, 1), *shape = (const char *)sqlite3_column_text(row, 2);
    if (name == NULL || shape == NULL) return log_fail_as_sqlite(words, NULL);
    uint32_t status = check_shape(guardian, object, shape, words);
    if (status != ARGUS_DONE) return status;
    log_name *made = log_names_add(it, name, shape);
    if (made == NULL) return log_fail_as_sqlite(words, NULL);
    made->object = (uint32_t)object;
    append(it, made);
    return ARGUS_DONE;
}

uint32_t log_names_read(log_names *it, sqlite3 *database, argus_guardian *guardian, log_words *words) {
    static const char TEXT[] = "SELECT number, name, shape FROM object WHERE name IS NOT NULL ORDER BY number";
    sqlite3_stmt *row;
    uint32_t status = ARGUS_DONE;
    int code = SQLITE_DONE;
    if (sqlite3_prepare_v2(database, TEXT, -1, &row, NULL) != SQLITE_OK) return log_fail_as_sqlite(words, database);
    while (status == ARGUS_DONE && (code = sqlite3_step(row)) == SQLITE_ROW)
        status = take_row(it, row, guardian, words);
    if (status == ARGUS_DONE && code != SQLITE_DONE) status = log_fail_as_sqlite(words, database);
    sqlite3_finalize(row);
    return status;
}

void log_names_free(log_names *it) {
    for (log_name *at = it->first, *next; at != NULL; at = next) {
        next = at->next;
        tdelete(at, &it->tree, compare);
        free(at);
    }
    *it = (log_names){0};
}
