/* A program in C that holds a guardian: host [bank [ORDERS] | each | statuses | values | stress
 * [CALLS] | flat [TURNS] | listed [TURNS] | inside [SECONDS] | careless | test]. */
#include "modes.h"

#include <errno.h>
#include <stdio.h>
#include <stdlib.h>
#include <string.h>

static int usage(void) {
    fprintf(stderr, "host [bank [ORDERS] | each | statuses | values | stress [CALLS] | flat [TURNS] | listed [TURNS] | "
                    "inside [SECONDS] | careless | test]\n");
    return 2;
}

int main(int count, char **words) {
    const char *mode = count > 1 ? words[1] : "bank";
    unsigned long long number = 0;
    if (count > 3) return usage();
    if (count == 3) {
        char *end;
        errno = 0;
        number = strtoull(words[2], &end, 10);
        if (*end != '\0' || end == words[2] || errno != 0 || number > 1000000000) return usage();
    }
    if (strcmp(mode, "bank") == 0) return bank(count == 3 ? (uint32_t)number : 250);
    if (strcmp(mode, "stress") == 0) return stress(count == 3 ? number : 10000000);
    if (strcmp(mode, "flat") == 0) return flat(count == 3 ? (uint32_t)number : 90000, 0);
    if (strcmp(mode, "listed") == 0) return flat(count == 3 ? (uint32_t)number : 90000, 1);
    if (strcmp(mode, "inside") == 0) return inside(count == 3 ? (uint32_t)number : 1);
    if (strcmp(mode, "each") == 0 && count <= 2) return each();
    if (strcmp(mode, "statuses") == 0 && count == 2) return statuses();
    if (strcmp(mode, "values") == 0 && count == 2) return values();
    if (strcmp(mode, "careless") == 0 && count == 2) return careless();
    if (strcmp(mode, "test") == 0 && count == 2) return tests();
    return usage();
}
