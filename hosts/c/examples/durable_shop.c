/* A shop whose orders outlive its process: durable_shop shop.db CUSTOMER SEAT.. */
#include <argus_log.h>
#include <argus_values.h>
#include <stdio.h>
#include <stdlib.h>

/* How many seats one order may have; and the number of a seat's field. */
enum { SEATS = 40, HOLDER = 0 };

/* The number of an answer, which has to have this status. */
static uint32_t expect(argus_answer answer, uint32_t status) {
    if (answer.status == status) return (uint32_t)answer.number;
    fprintf(stderr, "%s\n", argus_log_status_name(answer.status));
    exit(1);
}

/* Whether nobody has the seat, which is created when it is sold for the first time. */
static int is_free(argus_guardian *shop, uint32_t top, uint32_t seat) {
    char holder[2];
    argus_answer created = argus_alter(shop, top, seat, ARGUS_CREATE, 0, 0, "{\"\"}");
    if (created.status != ARGUS_SIGNAL) expect(created, ARGUS_DONE);
    expect(argus_ask(shop, top, seat, ARGUS_FIELD, HOLDER), ARGUS_VALUE);
    return argus_reply(shop, holder, sizeof holder).status == ARGUS_DONE;
}

/* Sells all of these seats, or none; whether it could. */
static int sell(argus_guardian *shop, argus_log *log, const uint32_t *seats, int count, const char *customer) {
    char holder[256];
    argus_text_quote(holder, sizeof holder, customer, strlen(customer));
    uint32_t top = expect(argus_begin_top(shop), ARGUS_ACTION);
    for (int n = 0; n < count; n++)
        if (!is_free(shop, top, seats[n])) return expect(argus_abort(shop, top), ARGUS_DONE), 0;
    for (int n = 0; n < count; n++)
        expect(argus_alter(shop, top, seats[n], ARGUS_SET_FIELD, HOLDER, 0, holder), ARGUS_DONE);
    expect(argus_log_commit(log, top), ARGUS_DONE); /* here it is on disk */
    return 1;
}

int main(int count, char **words) {
    char text[256];
    uint32_t seats[SEATS];
    argus_guardian shop = ARGUS_CLOSED;
    pthread_mutex_t lock = PTHREAD_MUTEX_INITIALIZER;
    argus_log *log = argus_log_new(&shop, &lock);
    if (log == NULL || count < 4 || count > SEATS + 3 || strlen(words[2]) > 100) return 2;
    argus_log_create(log, words[1]); /* ARGUS_LOG_EXISTS from the second time on */
    if (argus_log_open(log, words[1], NULL).status != ARGUS_DONE) {
        argus_log_words(log, text, sizeof text);
        return fprintf(stderr, "%s\n", text), 1;
    }
    for (int n = 3; n < count; n++) {
        snprintf(text, sizeof text, "seat %s", words[n]);
        seats[n - 3] = expect(argus_log_declare_named(log, text, "atomic_record[holder:text]"), ARGUS_OBJECT);
    }
    puts(sell(&shop, log, seats, count - 3, words[2]) ? "sold" : "taken");
    argus_log_free(log);
    return argus_close(&shop).status != ARGUS_DONE;
}
