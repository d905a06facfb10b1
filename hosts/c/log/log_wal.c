/* Whether a frame of SQLite's write-ahead log (WAL) that was once on disk has changed.
 *
 * SQLite takes a WAL up to the first frame that doesn't verify, and drops what is behind it without a word. That is
 * right of a write that was torn, and wrong of a frame that rotted. Each commit is on disk before the next one's frames
 * are written, so they can be distinguished: behind the end of a torn commit there are no frames of this WAL.
 *
 * The format is SQLite's (sqlite.org/fileformat2.html, "The WAL File Format"). */
#include "log_wal.h"

#include <errno.h>
#include <stdio.h>
#include <stdlib.h>
#include <string.h>

enum { FRAME = 24, SMALLEST_PAGE = 512, LARGEST_PAGE = 65536 };

typedef struct wal_sum {
    int is_big; /* whether the words that are added are big-endian */
    uint32_t first, second;
} wal_sum;

static uint32_t word_at(const unsigned char *at, int is_big) {
    if (is_big) return (uint32_t)at[0] << 24 | (uint32_t)at[1] << 16 | (uint32_t)at[2] << 8 | at[3];
    return (uint32_t)at[3] << 24 | (uint32_t)at[2] << 16 | (uint32_t)at[1] << 8 | at[0];
}

static void add(wal_sum *sum, const unsigned char *bytes, size_t size) {
    for (size_t at = 0; at + 8 <= size; at += 8) {
        sum->first += word_at(bytes + at, sum->is_big) + sum->second;
        sum->second += word_at(bytes + at + 4, sum->is_big) + sum->first;
    }
}

/* Whether these are the two words of the sum, which are big-endian always. */
static int is_sum(const wal_sum *sum, const unsigned char *at) {
    return word_at(at, 1) == sum->first && word_at(at + 4, 1) == sum->second;
}

/* Whether the header is one, whose sum begins the frames'. */
static int is_header(const unsigned char *header, wal_sum *sum) {
    uint32_t magic = word_at(header, 1), size = word_at(header + 8, 1);
    *sum = (wal_sum){.is_big = magic & 1};
    add(sum, header, FRAME);
    return (magic & ~1u) == 0x377F0682 && word_at(header + 4, 1) == 3007000 && is_sum(sum, header + FRAME) &&
           size >= SMALLEST_PAGE && size <= LARGEST_PAGE && (size & (size - 1)) == 0;
}

/* The number of the first frame that has changed, from 1 on, or -1. */
static long damaged_frame(FILE *wal, const unsigned char *header, wal_sum sum, unsigned char *frame) {
    size_t size = FRAME + word_at(header + 8, 1);
    long number = 0, damaged = -1;
    int is_ended = 0;
    while (fread(frame, 1, size, wal) == size) {
        int is_own = memcmp(frame + 8, header + 16, 8) == 0;
        number++;
        if (damaged < 0) {
            add(&sum, frame, 8);
            add(&sum, frame + FRAME, size - FRAME);
            if (!is_own || !is_sum(&sum, frame + 16)) damaged = number;
        }
        if (damaged >= 0 && is_own && is_ended) return damaged;
        /* Of a commit that was torn, the frame with which it ends may be there. */
        if (damaged >= 0 && is_own) is_ended = word_at(frame + 4, 1) != 0;
    }
    return -1;
}

static uint32_t check(FILE *wal, const char *path, unsigned char *frame, int may_be_new, log_words *words) {
    unsigned char header[LOG_WAL_HEADER];
    wal_sum sum;
    long number;
    size_t size = fread(header, 1, sizeof header, wal);
    if (size == sizeof header && is_header(header, &sum)) {
        number = damaged_frame(wal, header, sum, frame);
        if (ferror(wal)) return log_fail(words, ARGUS_LOG_UNREAD, "%s can't be read: %s", path, strerror(errno));
        if (number < 0) return ARGUS_DONE;
        return log_fail(words, ARGUS_LOG_WAL_DAMAGED,
                        "%s: frame %ld has changed, and later work was written behind it", path, number);
    }
    if (may_be_new) return ARGUS_DONE;
    return log_fail(words, ARGUS_LOG_WAL_DAMAGED, "%s: the header has changed, and later work was written behind it",
                    path);
}

uint32_t log_check_wal(const char *path, int may_be_new, log_words *words) {
    FILE *wal = fopen(path, "rb");
    if (wal == NULL) return log_fail(words, ARGUS_LOG_UNREAD, "%s can't be read: %s", path, strerror(errno));
    unsigned char *frame = malloc(FRAME + LARGEST_PAGE);
    uint32_t status =
        frame == NULL ? log_fail_as_sqlite(words, NULL) : check(wal, path, frame, may_be_new, words);
    free(frame);
    fclose(wal);
    return status;
}
