/* The functions of argus_values.h, in libargus.a and libargus.so. tools/dist.sh compiles this file. Nothing in it is
 * proved. */
#include "argus_values.h"

argus_writer argus_writer_of(char *room, size_t room_size) {
    argus_writer it;
    memset(&it, 0, sizeof it);
    it.room = room;
    it.room_size = room == NULL ? 0 : room_size;
    return it;
}

static void argus_put(argus_writer *it, char byte) {
    if (it->size < it->room_size) it->room[it->size] = byte;
    it->size++;
}

static void argus_put_word(argus_writer *it, const char *word) {
    for (; *word != '\0'; word++) argus_put(it, *word);
}

/* Puts a comma where something stands before. */
static void argus_put_comma(argus_writer *it) {
    if (it->wants_comma) argus_put(it, ',');
    it->wants_comma = 1;
}

static void argus_put_number(argus_writer *it, uint64_t number) {
    char digits[20];
    size_t count = 0;
    do {
        digits[count++] = (char)('0' + number % 10);
        number /= 10;
    } while (number != 0);
    for (; count > 0; count--) argus_put(it, digits[count - 1]);
}

static void argus_put_int(argus_writer *it, int64_t number) {
    if (number < 0) argus_put(it, '-');
    argus_put_number(it, number < 0 ? 0 - (uint64_t)number : (uint64_t)number);
}

static void argus_put_open(argus_writer *it, char closing) {
    it->wants_comma = 0;
    if (it->depth == ARGUS_DEPTH) {
        it->is_wrong = 1;
        return;
    }
    it->brackets[it->depth++] = closing;
}

void argus_write_null(argus_writer *it) {
    argus_put_comma(it);
    argus_put_word(it, "null");
}

void argus_write_bool(argus_writer *it, int is_so) {
    argus_put_comma(it);
    argus_put_word(it, is_so ? "true" : "false");
}

void argus_write_int(argus_writer *it, int64_t number) {
    argus_put_comma(it);
    argus_put_int(it, number);
}

void argus_write_reference(argus_writer *it, uint32_t object) {
    argus_put_comma(it);
    argus_put(it, '@');
    argus_put_number(it, object);
}

void argus_write_text(argus_writer *it, const char *text, size_t text_size) {
    size_t at;
    argus_put_comma(it);
    argus_put(it, '"');
    for (at = 0; at < text_size; at++) {
        if (text[at] == '"' || text[at] == '\\' || text[at] == '\n') argus_put(it, '\\');
        argus_put(it, text[at] == '\n' ? 'n' : text[at]);
    }
    argus_put(it, '"');
}

void argus_write_open(argus_writer *it, char bracket) {
    argus_put_comma(it);
    argus_put(it, bracket);
    if (bracket != '[' && bracket != '{') it->is_wrong = 1;
    argus_put_open(it, bracket == '[' ? ']' : '}');
}

void argus_write_tag(argus_writer *it, uint8_t tag) {
    argus_put_comma(it);
    argus_put(it, '<');
    argus_put_number(it, tag);
    argus_put(it, ':');
    argus_put_open(it, '>');
}

void argus_write_array(argus_writer *it, int64_t low) {
    argus_put_comma(it);
    argus_put_int(it, low);
    argus_put(it, '[');
    argus_put_open(it, ']');
}

void argus_write_close(argus_writer *it) {
    it->wants_comma = 1;
    if (it->depth == 0) {
        it->is_wrong = 1;
        return;
    }
    argus_put(it, it->brackets[--it->depth]);
}

const char *argus_written(argus_writer *it) {
    if (it->size >= it->room_size || it->depth != 0 || it->is_wrong) return NULL;
    it->room[it->size] = '\0';
    return it->room;
}

size_t argus_value_int(char *room, size_t room_size, int64_t number) {
    argus_writer it = argus_writer_of(room, room_size);
    argus_write_int(&it, number);
    argus_written(&it);
    return it.size;
}

size_t argus_text_quote(char *room, size_t room_size, const char *text, size_t text_size) {
    argus_writer it = argus_writer_of(room, room_size);
    argus_write_text(&it, text, text_size);
    argus_written(&it);
    return it.size;
}

argus_reader argus_reader_of(const void *text, size_t text_size) {
    argus_reader it;
    it.text = (const char *)text;
    it.size = text == NULL ? 0 : text_size;
    it.at = 0;
    it.wants_comma = 0;
    return it;
}

argus_answer argus_read_reply(argus_guardian *guardian, void *room, size_t room_size, argus_reader *it) {
    argus_answer answer = {ARGUS_NULL, 0};
    if (it == NULL) return answer;
    answer = argus_reply(guardian, room, room_size);
    *it = argus_reader_of(room, answer.status == ARGUS_DONE ? (size_t)answer.number : 0);
    return answer;
}

/* The byte at a place, or 0 past the end. */
static char argus_byte_at(const argus_reader *it, size_t at) {
    return it->at + at < it->size ? it->text[it->at + at] : '\0';
}

/* Whether the rest begins so; then it is taken. */
static int argus_take(argus_reader *it, const char *word) {
    size_t size = strlen(word);
    if (it->size - it->at < size || memcmp(it->text + it->at, word, size) != 0) return 0;
    it->at += size;
    return 1;
}

/* Takes the comma where one has to be. */
static int argus_take_comma(argus_reader *it) {
    if (it->wants_comma && !argus_take(it, ",")) return 0;
    it->wants_comma = 1;
    return 1;
}

/* Takes digits, of a number up to `most`: without a zero before others. */
static int argus_take_number(argus_reader *it, uint64_t most, uint64_t *number) {
    char first = argus_byte_at(it, 0), byte = first;
    *number = 0;
    if (first < '0' || first > '9') return 0;
    for (; byte >= '0' && byte <= '9'; byte = argus_byte_at(it, 0)) {
        uint64_t digit = (uint64_t)(byte - '0');
        if (*number > (most - digit) / 10) return 0;
        *number = *number * 10 + digit;
        it->at++;
        if (first == '0') return 1;
    }
    return 1;
}

/* Takes an integer of 64 bits. */
static int argus_take_int(argus_reader *it, int64_t *number) {
    uint64_t found;
    int is_negative = argus_take(it, "-");
    if (!argus_take_number(it, (uint64_t)INT64_MAX + (uint64_t)is_negative, &found)) return 0;
    if (is_negative && found == 0) return 0;
    *number = is_negative ? -(int64_t)(found - 1) - 1 : (int64_t)found;
    return 1;
}

argus_form argus_read_form(const argus_reader *it) {
    char byte = argus_byte_at(it, 0);
    if (it->at == it->size) return ARGUS_IS_END;
    if (byte == ',' && it->wants_comma) byte = argus_byte_at(it, 1);
    else if (it->wants_comma && byte != ']' && byte != '}' && byte != '>') return ARGUS_IS_OTHER;
    if (byte == '-' || (byte >= '0' && byte <= '9')) return ARGUS_IS_INT;
    switch (byte) {
    case 'n': return ARGUS_IS_NULL;
    case 't':
    case 'f': return ARGUS_IS_BOOL;
    case '"': return ARGUS_IS_TEXT;
    case '@': return ARGUS_IS_REFERENCE;
    case '[': return ARGUS_IS_SEQUENCE;
    case '{': return ARGUS_IS_STRUCT;
    case '<': return ARGUS_IS_ONEOF;
    case ']':
    case '}':
    case '>': return ARGUS_IS_CLOSED;
    default: return ARGUS_IS_OTHER;
    }
}

int argus_read_null(argus_reader *it) {
    argus_reader then = *it;
    if (!argus_take_comma(&then) || !argus_take(&then, "null")) return 0;
    *it = then;
    return 1;
}

int argus_read_bool(argus_reader *it, int *is_so) {
    argus_reader then = *it;
    int is_true;
    if (!argus_take_comma(&then)) return 0;
    is_true = argus_take(&then, "true");
    if (!is_true && !argus_take(&then, "false")) return 0;
    *it = then;
    *is_so = is_true;
    return 1;
}

int argus_read_int(argus_reader *it, int64_t *number) {
    argus_reader then = *it;
    int64_t found;
    if (!argus_take_comma(&then) || !argus_take_int(&then, &found)) return 0;
    *it = then;
    *number = found;
    return 1;
}

int argus_read_reference(argus_reader *it, uint32_t *object) {
    argus_reader then = *it;
    uint64_t found;
    if (!argus_take_comma(&then) || !argus_take(&then, "@") || !argus_take_number(&then, UINT32_MAX, &found)) return 0;
    *it = then;
    *object = (uint32_t)found;
    return 1;
}

/* Takes one character of a text, or one of its bytes. 0 at the quote that ends it, and where none may stand. */
static int argus_take_byte(argus_reader *it, char *byte) {
    *byte = argus_byte_at(it, 0);
    if (it->at == it->size || *byte == '"' || *byte == '\n') return 0;
    if (*byte == '\\') {
        char escaped = argus_byte_at(it, 1);
        if (escaped != '"' && escaped != '\\' && escaped != 'n') return 0;
        *byte = escaped == 'n' ? '\n' : escaped;
        it->at++;
    }
    it->at++;
    return 1;
}

int argus_read_text(argus_reader *it, char *room, size_t room_size, size_t *text_size) {
    argus_reader then = *it;
    size_t size = 0;
    char byte;
    *text_size = 0;
    if (!argus_take_comma(&then) || !argus_take(&then, "\"")) return 0;
    for (; argus_take_byte(&then, &byte); size++)
        if (size < room_size) room[size] = byte;
    if (!argus_take(&then, "\"")) return 0;
    *text_size = size;
    if (size >= room_size) return 0;
    room[size] = '\0';
    *it = then;
    return 1;
}

int argus_read_open(argus_reader *it, char bracket) {
    argus_reader then = *it;
    char word[2] = {0, 0};
    word[0] = bracket;
    if ((bracket != '[' && bracket != '{') || !argus_take_comma(&then) || !argus_take(&then, word)) return 0;
    then.wants_comma = 0;
    *it = then;
    return 1;
}

int argus_read_tag(argus_reader *it, uint8_t *tag) {
    argus_reader then = *it;
    uint64_t found;
    if (!argus_take_comma(&then) || !argus_take(&then, "<") || !argus_take_number(&then, UINT8_MAX, &found)) return 0;
    if (!argus_take(&then, ":")) return 0;
    then.wants_comma = 0;
    *it = then;
    *tag = (uint8_t)found;
    return 1;
}

int argus_read_array(argus_reader *it, int64_t *low) {
    argus_reader then = *it;
    int64_t found;
    if (!argus_take_comma(&then) || !argus_take_int(&then, &found) || !argus_take(&then, "[")) return 0;
    then.wants_comma = 0;
    *it = then;
    *low = found;
    return 1;
}

int argus_read_close(argus_reader *it) {
    if (!argus_take(it, "]") && !argus_take(it, "}") && !argus_take(it, ">")) return 0;
    it->wants_comma = 1;
    return 1;
}

int argus_read_end(const argus_reader *it) {
    return it->at == it->size;
}
