/* Values and contents, written for calls and read from replies, without quoting by hand. argus.h says how they are
 * written; a program that includes this file needs no room but its own.
 *
 *     // Sets the owner of an account to this name.
 *     int set_owner(argus_guardian *bank, uint32_t action, uint32_t account, const char *name) {
 *         char value[128];
 *         if (argus_text_quote(value, sizeof value, name, strlen(name)) >= sizeof value) return 0;
 *         return argus_alter(bank, action, account, ARGUS_SET_FIELD, 1, 0, value).status == ARGUS_DONE;
 *     }
 *
 *     // Creates the account of atomic_record[balance:int,owner:text].
 *     int create_account(argus_guardian *bank, uint32_t action, uint32_t account, int64_t balance, const char *name) {
 *         char room[128];
 *         argus_writer it = argus_writer_of(room, sizeof room);
 *         argus_write_open(&it, '{');
 *         argus_write_int(&it, balance);
 *         argus_write_text(&it, name, strlen(name));
 *         argus_write_close(&it);
 *         if (argus_written(&it) == NULL) return 0;
 *         return argus_alter(bank, action, account, ARGUS_CREATE, 0, 0, room).status == ARGUS_DONE;
 *     }
 *
 *     // What the account holds, after ARGUS_CONTENT, ARGUS_VALUE or ARGUS_TEXT: how much, and whose it is.
 *     int read_account(argus_guardian *bank, int64_t *balance, char *name, size_t name_size) {
 *         char room[128];
 *         size_t size;
 *         argus_reader it;
 *         if (argus_read_reply(bank, room, sizeof room, &it).status != ARGUS_DONE) return 0;
 *         return argus_read_open(&it, '{') && argus_read_int(&it, balance) &&
 *                argus_read_text(&it, name, name_size, &size) && argus_read_close(&it) && argus_read_end(&it);
 *     }
 *
 * A text that has a zero byte in it is handed to argus_call with its size, since argus_alter takes a text up to its
 * first zero byte. The guardian checks whether a value suits its object's shape and is UTF-8. A reader is for what
 * the library has written: it doesn't look whether each bracket is closed by its own kind. Pass no null pointer unless
 * a function's comment allows it: most of these don't check.
 */
#ifndef ARGUS_VALUES_H
#define ARGUS_VALUES_H

#include "argus.h"

#ifdef __cplusplus
extern "C" {
#endif

/* ---- Writing. ---- */

/* How deep brackets may nest: 16 for a value, and one for the content around it. */
enum { ARGUS_DEPTH = 17 };

/* A text that is put together in a room of the program. It begins as argus_writer_of. */
typedef struct argus_writer {
    char *room;
    size_t room_size;
    size_t size;                /* how many bytes the text has, whether they are in the room or not */
    uint32_t depth;             /* how many brackets are open */
    char brackets[ARGUS_DEPTH]; /* how these are closed */
    char wants_comma;           /* whether something stands before what comes next */
    char is_wrong;              /* whether too many brackets were opened, or closed */
} argus_writer;

/* Begins a text in a room of this many bytes; a size of 0 may come with a null room. */
argus_writer argus_writer_of(char *room, size_t room_size);

void argus_write_null(argus_writer *it);

void argus_write_bool(argus_writer *it, int is_so);

void argus_write_int(argus_writer *it, int64_t number);

/* A reference to an object. */
void argus_write_reference(argus_writer *it, uint32_t object);

/* A text of this many bytes, with its quotes. A size of 0 may come with a null text. */
void argus_write_text(argus_writer *it, const char *text, size_t text_size);

/* Opens a sequence by '[', or a struct or the content of a record by '{'. */
void argus_write_open(argus_writer *it, char bracket);

/* Opens a oneof or the content of a variant, by its tag; one value comes next. */
void argus_write_tag(argus_writer *it, uint8_t tag);

/* Opens the content of an array, by its low bound. */
void argus_write_array(argus_writer *it, int64_t low);

/* Closes what was opened last. */
void argus_write_close(argus_writer *it);

/* The text, with a zero after it. NULL where both don't fit into the room, a bracket is open, one too many was closed,
 * or they are too deep. */
const char *argus_written(argus_writer *it);

/* Puts the written form of an integer into the room, with a zero after it. Returns its size without the zero; if that
 * isn't less than the room's size, it didn't fit. 21 bytes hold any integer. */
size_t argus_value_int(char *room, size_t room_size, int64_t number);

/* The same for a text, with its quotes; 2 * text_size + 3 bytes hold any. */
size_t argus_text_quote(char *room, size_t room_size, const char *text, size_t text_size);

/* ---- Reading. Each returns 1 if it has read what its name says. Otherwise it returns 0, the reader is unchanged, and
 * another function may read what is there. ---- */

/* What is left to read of a text. It begins as argus_reader_of. */
typedef struct argus_reader {
    const char *text;
    size_t size;
    size_t at;        /* where it goes on */
    char wants_comma; /* whether a comma stands before what comes next */
} argus_reader;

/* What comes next. */
typedef enum argus_form {
    ARGUS_IS_NULL = 0,
    ARGUS_IS_BOOL = 1,
    ARGUS_IS_INT = 2,       /* or the content of an array, which argus_read_array tries */
    ARGUS_IS_TEXT = 3,
    ARGUS_IS_REFERENCE = 4,
    ARGUS_IS_SEQUENCE = 5,
    ARGUS_IS_STRUCT = 6,    /* or the content of a record */
    ARGUS_IS_ONEOF = 7,     /* or the content of a variant */
    ARGUS_IS_CLOSED = 8,    /* a closing bracket, which argus_read_close takes */
    ARGUS_IS_END = 9,       /* nothing: the text is at its end */
    ARGUS_IS_OTHER = 10     /* nothing that is part of a value; a content that isn't there yet is written `absent` */
} argus_form;

argus_reader argus_reader_of(const void *text, size_t text_size);

/* Puts the reply's text into the room, as argus_reply does, and begins to read it. */
argus_answer argus_read_reply(argus_guardian *guardian, void *room, size_t room_size, argus_reader *it);

/* What comes next. It takes nothing. */
argus_form argus_read_form(const argus_reader *it);

int argus_read_null(argus_reader *it);

/* 1 for true, 0 for false. */
int argus_read_bool(argus_reader *it, int *is_so);

int argus_read_int(argus_reader *it, int64_t *number);

/* A reference to an object. */
int argus_read_reference(argus_reader *it, uint32_t *object);

/* A text, without quotes and escapes, which is put into the room with a zero after it. `text_size` is how many bytes it
 * has, without the zero; it may have zeros in it. Where it doesn't fit, nothing is read, the room has a part of it, and
 * `text_size` isn't below the room's size. Where no whole text is there, nothing is read, and it is 0; of a text
 * without its closing quote the room may have a part. */
int argus_read_text(argus_reader *it, char *room, size_t room_size, size_t *text_size);

/* Opens a sequence by '[', or a struct or the content of a record by '{'. What is in it comes next. */
int argus_read_open(argus_reader *it, char bracket);

/* Opens a oneof or the content of a variant, and gives its tag; its value comes next. */
int argus_read_tag(argus_reader *it, uint8_t *tag);

/* Opens the content of an array, and gives its low bound; its items come next. */
int argus_read_array(argus_reader *it, int64_t *low);

/* A closing bracket, whichever it is:
 *
 *     while (!argus_read_close(&it)) if (!argus_read_int(&it, &number)) return 0;
 */
int argus_read_close(argus_reader *it);

/* Whether nothing is left. */
int argus_read_end(const argus_reader *it);

#ifdef __cplusplus
}
#endif

#endif
