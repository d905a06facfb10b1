/* Files as tests put them there, and look at them. */
#include "log_files.h"

#include "log_bank.h"

#include <inttypes.h>
#include <stdio.h>
#include <stdlib.h>
#include <string.h>
#include <unistd.h>
#include <zlib.h>

file file_read(const char *path) {
    file it = {NULL, 0};
    FILE *opened = fopen(path, "rb");
    if (opened == NULL) return it;
    fseek(opened, 0, SEEK_END);
    it.size = (size_t)ftell(opened);
    rewind(opened);
    it.bytes = malloc(it.size + 1);
    want(it.bytes != NULL && fread(it.bytes, 1, it.size, opened) == it.size, "a file is read");
    fclose(opened);
    return it;
}

void file_write(const char *path, const file *it) {
    FILE *opened = fopen(path, "wb");
    want(opened != NULL && fwrite(it->bytes, 1, it->size, opened) == it->size && fclose(opened) == 0,
         "a file is written");
}

void file_remove(const char *path) {
    unlink(path);
}

void file_free(file *it) {
    free(it->bytes);
    *it = (file){NULL, 0};
}

int file_is(const char *path, const file *it) {
    file found = file_read(path);
    int is_same = found.size == it->size && (it->size == 0 || memcmp(found.bytes, it->bytes, it->size) == 0);
    file_free(&found);
    return is_same;
}

uint32_t file_sum(const char *name, int64_t first, uint32_t before, const char *lines) {
    char text[512];
    int size = snprintf(text, sizeof text, "%s %" PRId64 " %" PRIu32 "\n%s", name, first, before, lines);
    return (uint32_t)crc32(0, (const Bytef *)text, (uInt)size);
}
