/* The functions of argus.h that name what the numbers mean. tools/dist.sh compiles this file. Nothing in it is proved. */
#include "argus.h"

#define NAMED(it) \
    case it: \
        return #it

const char *argus_signal_name(int64_t signal) {
    switch (signal) {
        NAMED(ARGUS_ABSENT);
        NAMED(ARGUS_EXISTS);
        NAMED(ARGUS_BOUNDS);
        NAMED(ARGUS_WRONG_TAG);
        NAMED(ARGUS_NEGATIVE_SIZE);
        NAMED(ARGUS_LIMITS);
    default:
        return "?";
    }
}

const char *argus_refusal_name(int64_t refusal) {
    switch (refusal) {
        NAMED(ARGUS_NO_ACTION);
        NAMED(ARGUS_OVER);
        NAMED(ARGUS_SUSPENDED);
        NAMED(ARGUS_NO_OBJECT);
        NAMED(ARGUS_ILL_TYPED);
        NAMED(ARGUS_CONFLICT);
        NAMED(ARGUS_TOO_DEEP);
        NAMED(ARGUS_TOO_MANY);
        NAMED(ARGUS_NO_SIBLINGS);
    default:
        return "?";
    }
}

const char *argus_status_name(uint32_t status) {
    switch (status) {
        NAMED(ARGUS_DONE);
        NAMED(ARGUS_OBJECT);
        NAMED(ARGUS_ACTION);
        NAMED(ARGUS_NUMBER);
        NAMED(ARGUS_FLAG);
        NAMED(ARGUS_VALUE);
        NAMED(ARGUS_CONTENT);
        NAMED(ARGUS_TEXT);
        NAMED(ARGUS_SIGNAL);
        NAMED(ARGUS_REFUSED);
        NAMED(ARGUS_NO_MEMORY);
        NAMED(ARGUS_NOT_OPEN);
        NAMED(ARGUS_NOT_UTF8);
        NAMED(ARGUS_BAD_TEXT);
        NAMED(ARGUS_BAD_SHAPE);
        NAMED(ARGUS_BAD_NUMBER);
        NAMED(ARGUS_BAD_KIND);
        NAMED(ARGUS_TOO_SMALL);
        NAMED(ARGUS_NOT_THERE);
        NAMED(ARGUS_BUSY);
        NAMED(ARGUS_FULL);
        NAMED(ARGUS_NULL);
        NAMED(ARGUS_UNMET);
        NAMED(ARGUS_NOT_BEGUN);
        NAMED(ARGUS_BAD_DEMAND);
        NAMED(ARGUS_NOT_AN_OPENING);
        NAMED(ARGUS_NO_LINE);
        NAMED(ARGUS_NOT_NEXT);
        NAMED(ARGUS_NOT_SOUND);
        NAMED(ARGUS_NOT_THE_REPLY);
        NAMED(ARGUS_OCCUPIED);
        NAMED(ARGUS_REENTERED);
    default:
        return "?";
    }
}

const char *argus_answer_name(argus_answer answer) {
    if (answer.status == ARGUS_REFUSED) return argus_refusal_name(answer.number);
    if (answer.status == ARGUS_SIGNAL) return argus_signal_name(answer.number);
    return argus_status_name(answer.status);
}
