/* A text that grows. */
#include "log_text.h"

#include <stdint.h>
#include <stdlib.h>
#include <string.h>

int log_text_reserve(log_text *it, size_t room) {
    if (room <= it->room) return 1;
    char *bytes = realloc(it->bytes, room);
    if (bytes == NULL) return 0;
    it->bytes = bytes;
    it->room = room;
    return 1;
}

int log_text_add(log_text *it, const void *bytes, size_t size) {
    if (size > SIZE_MAX / 4 || it->size > SIZE_MAX / 4) return 0;
    size_t needed = it->size + size;
    if (needed > it->room && !log_text_reserve(it, needed < 4096 ? 4096 : needed * 2)) return 0;
    if (size != 0) memcpy(it->bytes + it->size, bytes, size);
    it->size = needed;
    return 1;
}

uint32_t log_text_of_reply(log_text *it, argus_guardian *guardian) {
    argus_answer answer = argus_reply(guardian, NULL, 0);
    it->size = 0;
    if (answer.status == ARGUS_TOO_SMALL) {
        if (!log_text_reserve(it, (size_t)answer.number)) return ARGUS_NO_MEMORY;
        answer = argus_reply(guardian, it->bytes, it->room);
    }
    if (answer.status == ARGUS_DONE) it->size = (size_t)answer.number;
    return answer.status;
}

void log_text_free(log_text *it) {
    free(it->bytes);
    *it = (log_text){0};
}
