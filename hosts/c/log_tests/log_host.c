/* Tests of logs: log_tests calls PATH | faults PATH | kills PATH KILLS CLIENTS | memory PATH | orders PATH LAST | fold
 * PATH | hold PATH. */
#include "log_bank.h"
#include "log_modes.h"

#include <inttypes.h>
#include <stdio.h>
#include <stdlib.h>
#include <string.h>

int log_orders(const char *path, int64_t last) {
    bank it;
    bank_open(&it, path);
    for (int64_t number = bank_number(&it, ACCOUNTS) + 1; number <= last; number++)
        want(bank_order(&it, 0, number) == ARGUS_DONE, "an order is acknowledged");
    want(bank_is_right(&it), "orders are whole");
    for (uint32_t object = 0; object <= ACCOUNTS; object++) printf("%" PRId64 "\n", bank_number(&it, object));
    bank_close(&it);
    return 0;
}

int log_fold(const char *path) {
    bank it;
    bank_open(&it, path);
    want_answer(argus_log_checkpoint(it.log), ARGUS_DONE, "checkpoint");
    bank_close(&it);
    return 0;
}

int log_hold(const char *path) {
    bank it;
    bank_open(&it, path);
    puts("open");
    fflush(stdout);
    while (getchar() != EOF) continue;
    bank_close(&it);
    return 0;
}

int main(int count, char **words) {
    const char *mode = count > 2 ? words[1] : "";
    if (strcmp(mode, "calls") == 0) return log_calls(words[2]);
    if (strcmp(mode, "faults") == 0) return log_faults(words[2]);
    if (strcmp(mode, "memory") == 0) return log_memory(words[2]);
    if (strcmp(mode, "fold") == 0) return log_fold(words[2]);
    if (strcmp(mode, "hold") == 0) return log_hold(words[2]);
    if (strcmp(mode, "orders") == 0 && count == 4) return log_orders(words[2], strtoll(words[3], NULL, 10));
    if (strcmp(mode, "kills") == 0 && count == 5)
        return log_kills(words[2], strtoll(words[3], NULL, 10), (uint32_t)strtoul(words[4], NULL, 10));
    fprintf(stderr, "log_tests calls PATH | faults PATH | kills PATH KILLS CLIENTS | memory PATH | orders PATH LAST | "
                    "fold PATH | hold PATH\n");
    return 2;
}
