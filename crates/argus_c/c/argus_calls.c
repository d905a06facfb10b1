/* The calls and the questions by name, over argus_call and argus_tell. Nothing in it is proved. */
#include "argus.h"

static const argus_answer null = {ARGUS_NULL, 0}, bad_kind = {ARGUS_BAD_KIND, 0};

argus_answer argus_declare(argus_guardian *guardian, const char *shape) {
    if (shape == NULL) return null;
    return argus_call(guardian, ARGUS_DECLARE, 0, 0, 0, 0, shape, strlen(shape));
}

argus_answer argus_begin_top(argus_guardian *guardian) {
    return argus_call(guardian, ARGUS_BEGIN_TOP, 0, 0, 0, 0, NULL, 0);
}

argus_answer argus_begin_sub(argus_guardian *guardian, uint32_t parent) {
    return argus_call(guardian, ARGUS_BEGIN_SUB, parent, 0, 0, 0, NULL, 0);
}

argus_answer argus_begin_nested(argus_guardian *guardian, uint32_t creator) {
    return argus_call(guardian, ARGUS_BEGIN_NESTED, creator, 0, 0, 0, NULL, 0);
}

argus_answer argus_commit(argus_guardian *guardian, uint32_t action) {
    return argus_call(guardian, ARGUS_COMMIT, action, 0, 0, 0, NULL, 0);
}

argus_answer argus_abort(argus_guardian *guardian, uint32_t action) {
    return argus_call(guardian, ARGUS_ABORT, action, 0, 0, 0, NULL, 0);
}

argus_answer argus_abort_others(argus_guardian *guardian, uint32_t action) {
    return argus_call(guardian, ARGUS_ABORT_OTHERS, action, 0, 0, 0, NULL, 0);
}

argus_answer argus_test_read(argus_guardian *guardian, uint32_t action, uint32_t object) {
    return argus_call(guardian, ARGUS_TEST_READ, action, object, 0, 0, NULL, 0);
}

argus_answer argus_test_write(argus_guardian *guardian, uint32_t action, uint32_t object) {
    return argus_call(guardian, ARGUS_TEST_WRITE, action, object, 0, 0, NULL, 0);
}

argus_answer argus_ask(argus_guardian *guardian, uint32_t action, uint32_t object, uint32_t query,
                       int64_t first) {
    if (query < ARGUS_WHOLE || query > ARGUS_TAG_VALUE) return bad_kind;
    return argus_call(guardian, query, action, object, first, 0, NULL, 0);
}

argus_answer argus_alter(argus_guardian *guardian, uint32_t action, uint32_t object, uint32_t change,
                         int64_t first, int64_t second, const char *text) {
    if (change < ARGUS_CREATE || change > ARGUS_CHANGE_TAG_BOOL) return bad_kind;
    return argus_call(guardian, change, action, object, first, second, text, text == NULL ? 0 : strlen(text));
}

argus_answer argus_lock(argus_guardian *guardian, uint32_t action, uint32_t object) {
    return argus_alter(guardian, action, object, ARGUS_TOUCH, 0, 0, NULL);
}

argus_answer argus_can_read(argus_guardian *guardian, uint32_t action, uint32_t object) {
    return argus_tell(guardian, ARGUS_CAN_READ, action, object, 0);
}

argus_answer argus_can_write(argus_guardian *guardian, uint32_t action, uint32_t object) {
    return argus_tell(guardian, ARGUS_CAN_WRITE, action, object, 0);
}

argus_answer argus_objects(argus_guardian *guardian) {
    return argus_tell(guardian, ARGUS_OBJECTS, 0, 0, 0);
}

argus_answer argus_actions(argus_guardian *guardian) {
    return argus_tell(guardian, ARGUS_ACTIONS, 0, 0, 0);
}

argus_answer argus_entries(argus_guardian *guardian) {
    return argus_tell(guardian, ARGUS_ENTRIES, 0, 0, 0);
}

argus_answer argus_base(argus_guardian *guardian, uint32_t object) {
    return argus_tell(guardian, ARGUS_BASE, 0, object, 0);
}

argus_answer argus_readers(argus_guardian *guardian, uint32_t object) {
    return argus_tell(guardian, ARGUS_READERS, 0, object, 0);
}

argus_answer argus_versions(argus_guardian *guardian, uint32_t object) {
    return argus_tell(guardian, ARGUS_VERSIONS, 0, object, 0);
}

argus_answer argus_entry(argus_guardian *guardian, uint64_t entry) {
    return argus_tell(guardian, ARGUS_ENTRY, 0, 0, entry);
}

argus_answer argus_shape(argus_guardian *guardian, uint32_t object) {
    return argus_tell(guardian, ARGUS_SHAPE, 0, object, 0);
}

argus_answer argus_status_of(argus_guardian *guardian, uint32_t action) {
    return argus_tell(guardian, ARGUS_ACTION_STATUS, action, 0, 0);
}

argus_answer argus_first_live(argus_guardian *guardian, uint32_t from) {
    return argus_tell(guardian, ARGUS_FIRST_LIVE, from, 0, 0);
}

argus_answer argus_first_entry(argus_guardian *guardian) {
    return argus_tell(guardian, ARGUS_FIRST_ENTRY, 0, 0, 0);
}

argus_answer argus_list(argus_guardian *guardian, uint32_t listing) {
    if (listing < ARGUS_LIST_BASES || listing > ARGUS_LIST_AUDIT) return bad_kind;
    return argus_tell(guardian, listing, 0, 0, 0);
}
