/* The script of README.md as a program in C: a subaction sets 7 and gives up, so 5 is in the account for good. */
#include <argus.h>
#include <stdio.h>
#include <stdlib.h>

/* The number of an answer whose status is as wanted. Else the program says why not, and ends. */
static uint32_t number_of(argus_answer answer, argus_status wanted) {
    if (answer.status == (uint32_t)wanted) return (uint32_t)answer.number;
    fprintf(stderr, "first: %s\n", argus_answer_name(answer));
    exit(1);
}

int main(void) {
    argus_guardian guardian = ARGUS_CLOSED;
    uint32_t account, top, sub, size;
    char text[64];

    number_of(argus_open(&guardian), ARGUS_DONE);
    account = number_of(argus_declare(&guardian, "atomic_record[balance:int]"), ARGUS_OBJECT);
    top = number_of(argus_begin_top(&guardian), ARGUS_ACTION);
    number_of(argus_alter(&guardian, top, account, ARGUS_CREATE, 0, 0, "{5}"), ARGUS_DONE);
    sub = number_of(argus_begin_sub(&guardian, top), ARGUS_ACTION);
    number_of(argus_alter(&guardian, sub, account, ARGUS_SET_FIELD, 0, 0, "7"), ARGUS_DONE);
    number_of(argus_abort(&guardian, sub), ARGUS_DONE);
    number_of(argus_commit(&guardian, top), ARGUS_DONE);
    number_of(argus_base(&guardian, account), ARGUS_TEXT);
    size = number_of(argus_reply(&guardian, text, sizeof text), ARGUS_DONE);
    printf("account %.*s\n", (int)size, text);
    number_of(argus_close(&guardian), ARGUS_DONE);
    return 0;
}
