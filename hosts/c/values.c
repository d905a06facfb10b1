/* Values and contents, written and read by argus_values.h. The expected texts are written by hand,
 * after docs/LANGUAGE.md. */
#include "argus_values.h"
#include "modes.h"

#include <stdio.h>
#include <stdlib.h>
#include <string.h>

/* Ends the process if this doesn't hold. */
static void want(int is_so, const char *what) {
    if (!is_so) {
        fprintf(stderr, "values: not as it should be: %s\n", what);
        exit(1);
    }
}

static void want_written(argus_writer *it, const char *text) {
    const char *made = argus_written(it);
    want(made != NULL && strcmp(made, text) == 0 && it->size == strlen(text), text);
}

/* A value of each kind: [null,true,-5,"a\"b\\\n",@3,{},<255:[1,2]>]. */
static const char EACH[] = "[null,true,-5,\"a\\\"b\\\\\\n\",@3,{},<255:[1,2]>]";

static void write_each(void) {
    char room[64];
    argus_writer it = argus_writer_of(room, sizeof room);
    argus_write_open(&it, '[');
    argus_write_null(&it);
    argus_write_bool(&it, 1);
    argus_write_int(&it, -5);
    argus_write_text(&it, "a\"b\\\n", 5);
    argus_write_reference(&it, 3);
    argus_write_open(&it, '{');
    argus_write_close(&it);
    argus_write_tag(&it, 255);
    argus_write_open(&it, '[');
    argus_write_int(&it, 1);
    argus_write_int(&it, 2);
    argus_write_close(&it);
    argus_write_close(&it);
    want(argus_written(&it) == NULL, "a bracket is open");
    argus_write_close(&it);
    want_written(&it, EACH);
}

static void read_each(void) {
    char room[8];
    size_t size;
    int is_so = 0;
    int64_t number = 0;
    uint32_t object = 0;
    uint8_t tag = 0;
    argus_reader it = argus_reader_of(EACH, strlen(EACH));
    want(argus_read_form(&it) == ARGUS_IS_SEQUENCE && !argus_read_open(&it, '{'), "a sequence is no struct");
    want(argus_read_open(&it, '[') && argus_read_form(&it) == ARGUS_IS_NULL, "a sequence");
    want(!argus_read_bool(&it, &is_so) && argus_read_null(&it), "null");
    want(argus_read_form(&it) == ARGUS_IS_BOOL && argus_read_bool(&it, &is_so) && is_so == 1, "true");
    want(argus_read_form(&it) == ARGUS_IS_INT && argus_read_int(&it, &number) && number == -5, "-5");
    want(argus_read_form(&it) == ARGUS_IS_TEXT && !argus_read_text(&it, room, 5, &size) && size == 5, "no room");
    want(argus_read_text(&it, room, 6, &size) && size == 5 && strcmp(room, "a\"b\\\n") == 0, "a text");
    want(argus_read_form(&it) == ARGUS_IS_REFERENCE && argus_read_reference(&it, &object) && object == 3, "@3");
    want(argus_read_form(&it) == ARGUS_IS_STRUCT && argus_read_open(&it, '{') && argus_read_close(&it), "a struct");
    want(argus_read_form(&it) == ARGUS_IS_ONEOF && argus_read_tag(&it, &tag) && tag == 255, "a tag");
    want(argus_read_open(&it, '[') && argus_read_int(&it, &number) && number == 1, "1");
    want(argus_read_int(&it, &number) && number == 2 && argus_read_form(&it) == ARGUS_IS_CLOSED, "2");
    want(!argus_read_int(&it, &number) && number == 2, "no third one");
    want(argus_read_close(&it) && argus_read_close(&it) && !argus_read_end(&it), "two brackets");
    want(argus_read_close(&it) && argus_read_end(&it) && argus_read_form(&it) == ARGUS_IS_END, "the end");
}

/* The bounds of integers, and texts that aren't integers. */
static void integers(void) {
    static const char *const none[] = {"", "-", "-0", "01", "9223372036854775808", "-9223372036854775809", "+1", "a"};
    char room[21];
    int64_t number = 7;
    want(argus_value_int(room, sizeof room, INT64_MIN) == 20, "the size of the least");
    want(strcmp(room, "-9223372036854775808") == 0, "the least");
    argus_reader it = argus_reader_of(room, 20);
    want(argus_read_int(&it, &number) && number == INT64_MIN && argus_read_end(&it), "the least, read");
    want(argus_value_int(room, sizeof room, INT64_MAX) == 19 && strcmp(room, "9223372036854775807") == 0, "the most");
    it = argus_reader_of(room, 19);
    want(argus_read_int(&it, &number) && number == INT64_MAX && argus_read_end(&it), "the most, read");
    want(argus_value_int(room, sizeof room, 0) == 1 && strcmp(room, "0") == 0, "0");
    want(argus_value_int(NULL, 0, 12) == 2, "a size without a room");
    for (size_t at = 0; at < sizeof none / sizeof none[0]; at++) {
        it = argus_reader_of(none[at], strlen(none[at]));
        int is_read = argus_read_int(&it, &number);
        want(is_read ? at == 3 && !argus_read_end(&it) : it.at == 0, none[at]);
    }
}

/* What doesn't fit into its buffer, a bracket too many, and brackets that are too deep. */
static void rooms(void) {
    char room[4] = "???";
    want(argus_text_quote(room, sizeof room, "ab", 2) == 4, "a text that doesn't fit, by its zero");
    want(argus_text_quote(room, sizeof room, "a", 1) == 3 && strcmp(room, "\"a\"") == 0, "one that fits");
    want(argus_text_quote(room, sizeof room, NULL, 0) == 2 && strcmp(room, "\"\"") == 0, "an empty one");
    argus_writer it = argus_writer_of(room, sizeof room);
    argus_write_close(&it);
    want(argus_written(&it) == NULL, "one bracket too many");
    char wide[64];
    it = argus_writer_of(wide, sizeof wide);
    for (int depth = 0; depth < ARGUS_DEPTH; depth++) argus_write_open(&it, '[');
    for (int depth = 0; depth < ARGUS_DEPTH; depth++) argus_write_close(&it);
    want_written(&it, "[[[[[[[[[[[[[[[[[]]]]]]]]]]]]]]]]]");
    it = argus_writer_of(wide, sizeof wide);
    for (int depth = 0; depth <= ARGUS_DEPTH; depth++) argus_write_open(&it, '[');
    for (int depth = 0; depth < ARGUS_DEPTH; depth++) argus_write_close(&it);
    want(argus_written(&it) == NULL, "too deep");
}

static void read_what_is_none(void) {
    static const char *const none[] = {"\"a", "\"\\x\"", "\"a\n\"", "a"};
    char room[8] = "?";
    size_t size = 9;
    uint8_t tag;
    for (size_t at = 0; at < sizeof none / sizeof none[0]; at++) {
        argus_reader it = argus_reader_of(none[at], strlen(none[at]));
        want(!argus_read_text(&it, room, sizeof room, &size) && size == 0 && it.at == 0, none[at]);
    }
    argus_reader it = argus_reader_of("<256:1>", 7);
    want(!argus_read_tag(&it, &tag), "a tag that is too large");
    it = argus_reader_of("absent", 6);
    want(argus_read_form(&it) == ARGUS_IS_OTHER, "no content");
    it = argus_reader_of(NULL, 0);
    want(argus_read_end(&it) && argus_read_form(&it) == ARGUS_IS_END, "no text");
}

/* The examples of argus_values.h. */
static int set_owner(argus_guardian *bank, uint32_t action, uint32_t account, const char *name) {
    char value[128];
    if (argus_text_quote(value, sizeof value, name, strlen(name)) >= sizeof value) return 0;
    return argus_alter(bank, action, account, ARGUS_SET_FIELD, 1, 0, value).status == ARGUS_DONE;
}

static int create_account(argus_guardian *bank, uint32_t action, uint32_t account, int64_t balance, const char *name) {
    char room[128];
    argus_writer it = argus_writer_of(room, sizeof room);
    argus_write_open(&it, '{');
    argus_write_int(&it, balance);
    argus_write_text(&it, name, strlen(name));
    argus_write_close(&it);
    if (argus_written(&it) == NULL) return 0;
    return argus_alter(bank, action, account, ARGUS_CREATE, 0, 0, room).status == ARGUS_DONE;
}

static int read_account(argus_guardian *bank, int64_t *balance, char *name, size_t name_size) {
    char room[128];
    size_t size;
    argus_reader it;
    if (argus_read_reply(bank, room, sizeof room, &it).status != ARGUS_DONE) return 0;
    return argus_read_open(&it, '{') && argus_read_int(&it, balance) && argus_read_text(&it, name, name_size, &size) &&
           argus_read_close(&it) && argus_read_end(&it);
}

/* The guardian returns what was written. */
static void accounts(argus_guardian *bank) {
    char name[8], long_name[128];
    int64_t balance = 0;
    want(argus_declare(bank, "atomic_record[balance:int,owner:text]").status == ARGUS_OBJECT, "a record");
    want(create_account(bank, 0, 0, 5, "\"\n"), "an account");
    want(argus_ask(bank, 0, 0, ARGUS_WHOLE, 0).status == ARGUS_CONTENT, "what it holds");
    want(read_account(bank, &balance, name, sizeof name) && balance == 5 && strcmp(name, "\"\n") == 0, "both fields");
    want(!read_account(bank, &balance, name, 2), "too small a room for the owner");
    memset(long_name, 'a', sizeof long_name - 1);
    long_name[sizeof long_name - 1] = '\0';
    want(!set_owner(bank, 0, 0, long_name) && !create_account(bank, 0, 0, 5, long_name), "an owner that doesn't fit");
    want(set_owner(bank, 0, 0, "b\\") && argus_ask(bank, 0, 0, ARGUS_WHOLE, 0).status == ARGUS_CONTENT, "an owner");
    want(read_account(bank, &balance, name, sizeof name) && strcmp(name, "b\\") == 0, "another owner");
}

static void arrays(argus_guardian *bank) {
    char room[64];
    int64_t number = 0;
    argus_reader it;
    argus_writer content = argus_writer_of(room, sizeof room);
    argus_write_array(&content, -1);
    argus_write_int(&content, 10);
    argus_write_int(&content, 20);
    argus_write_close(&content);
    want_written(&content, "-1[10,20]");
    want(argus_declare(bank, "atomic_array[int]").status == ARGUS_OBJECT, "an array");
    want(argus_alter(bank, 0, 1, ARGUS_CREATE, 0, 0, room).status == ARGUS_DONE, "its content");
    want(argus_ask(bank, 0, 1, ARGUS_WHOLE, 0).status == ARGUS_CONTENT, "what it holds");
    want(argus_read_reply(bank, room, 3, &it).status == ARGUS_TOO_SMALL && argus_read_end(&it), "too small a room");
    want(argus_read_reply(bank, room, sizeof room, &it).status == ARGUS_DONE, "its reply");
    want(argus_read_array(&it, &number) && number == -1, "its low bound");
    for (int64_t wanted = 10; !argus_read_close(&it); wanted += 10)
        want(argus_read_int(&it, &number) && number == wanted, "an item");
    want(number == 20 && argus_read_end(&it), "its items");
    want(argus_read_reply(bank, room, sizeof room, NULL).status == ARGUS_NULL, "a null reader");
    want(argus_read_reply(NULL, room, sizeof room, &it).status == ARGUS_NULL, "a null guardian");
}

static void by_a_guardian(void) {
    argus_guardian bank = ARGUS_CLOSED;
    want(argus_open(&bank).status == ARGUS_DONE, "open");
    want(argus_begin_top(&bank).status == ARGUS_ACTION, "a topaction");
    accounts(&bank);
    arrays(&bank);
    want(argus_close(&bank).status == ARGUS_DONE, "close");
}

int values(void) {
    write_each();
    read_each();
    integers();
    rooms();
    read_what_is_none();
    by_a_guardian();
    printf("values are written and read\n");
    return 0;
}
