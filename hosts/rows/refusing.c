/* Stands before malloc and realloc in the library for rows (the linker's --wrap), so that each allocation of a call can
 * be refused in turn. One thread uses it. */
#include <stdint.h>
#include <stdlib.h>

void *__real_malloc(size_t size);
void *__real_realloc(void *old, size_t size);
void *__wrap_malloc(size_t size);
void *__wrap_realloc(void *old, size_t size);
void allow(int64_t count);
uint64_t refused(void);

/* How many allocations are still allowed; below 0 any number is. */
static int64_t left = -1;
static uint64_t refusals;

/* From now on so many allocations are allowed, and then each is refused; below 0 none is. */
void allow(int64_t count) {
    left = count;
}

/* How many were refused since the library was loaded. */
uint64_t refused(void) {
    return refusals;
}

static int is_refused(void) {
    if (left == 0) {
        refusals++;
        return 1;
    }
    if (left > 0) left--;
    return 0;
}

void *__wrap_malloc(size_t size) {
    return is_refused() ? NULL : __real_malloc(size);
}

void *__wrap_realloc(void *old, size_t size) {
    return is_refused() ? NULL : __real_realloc(old, size);
}
