/* The functions that strkw.h declares. Each sees to it that no pointer is NULL, and calls the proved function of
   crates/strkw_c with `nonnull` in its name. Nothing is read or written at what is put for a NULL with a count of 0.
   A strkw_schema is kept here: the bytes of a schema object, and handles in which proved functions have compiled it. */
#include "strkw.h"

#include <stdatomic.h>
#include <stdlib.h>
#include <string.h>

static const uint8_t no_text[1] = {0};
static const size_t no_ends[1] = {0};
static const uint32_t no_ends32[1] = {0};

/* Whether a pointer leads to so many items; one to none may be NULL. */
static bool leads(const void *pointer, size_t count) { return pointer != NULL || count == 0; }

static const uint8_t *text_at(const uint8_t *text) { return text != NULL ? text : no_text; }

#define FORMAT(name)                                                          \
    bool strkw_nonnull_##name(const uint8_t *text, size_t count);             \
    bool strkw_##name(const uint8_t *text, size_t count) {                    \
        if (text == NULL) return count == 0 && strkw_nonnull_##name(no_text, 0); \
        return strkw_nonnull_##name(text, count);                             \
    }

FORMAT(is_date)
FORMAT(is_date_time)
FORMAT(is_duration)
FORMAT(is_hostname)
FORMAT(is_hostname_draft4)
FORMAT(is_ipv4)
FORMAT(is_ipv6)
FORMAT(is_iri)
FORMAT(is_iri_reference)
FORMAT(is_json_pointer)
FORMAT(is_relative_json_pointer)
FORMAT(is_time)
FORMAT(is_uri)
FORMAT(is_uri_reference)
FORMAT(is_uri_template)
FORMAT(is_uuid)
FORMAT(is_email)

#define DECISION(name)                                                            \
    uint8_t strkw_nonnull_##name(const uint8_t *text, size_t count);              \
    uint8_t strkw_##name(const uint8_t *text, size_t count) {                     \
        return leads(text, count) ? strkw_nonnull_##name(text_at(text), count) : 0; \
    }

DECISION(is_idn_email)
DECISION(is_idn_hostname)
DECISION(is_regex)
DECISION(is_base64)
DECISION(is_base64url)
DECISION(is_base32)
DECISION(is_base32hex)
DECISION(is_base16)
DECISION(is_json)

uint8_t strkw_nonnull_answer(const uint8_t *requests, size_t count, uint8_t *out, size_t room, size_t *written);

uint8_t strkw_answer(const uint8_t *requests, size_t count, uint8_t *out, size_t room, size_t *written) {
    uint8_t no_room[1] = {0};
    if (!leads(requests, count) || !leads(out, room) || written == NULL) return STRKW_NULL;
    return strkw_nonnull_answer(text_at(requests), count, out != NULL ? out : no_room, room, written);
}

uint8_t strkw_nonnull_check(uint32_t draft, uint32_t options, const uint8_t *schema, size_t schema_count,
                            const uint8_t *texts, size_t texts_count, const size_t *ends, size_t ends_count,
                            uint8_t *verdicts, size_t room);

uint8_t strkw_check(uint32_t draft, uint32_t options, const uint8_t *schema, size_t schema_count, const uint8_t *texts,
                    size_t texts_count, const size_t *ends, size_t ends_count, uint8_t *verdicts, size_t room) {
    uint8_t no_verdicts[1] = {0};
    if (!leads(schema, schema_count) || !leads(texts, texts_count)) return STRKW_NULL;
    if (!leads(ends, ends_count) || !leads(verdicts, room)) return STRKW_NULL;
    return strkw_nonnull_check(draft, options, text_at(schema), schema_count, text_at(texts), texts_count,
                               ends != NULL ? ends : no_ends, ends_count,
                               verdicts != NULL ? verdicts : no_verdicts, room);
}

#define CHECK_OFFSETS(name, number, none)                                                                            \
    uint8_t strkw_nonnull_##name(uint32_t draft, uint32_t options, const uint8_t *schema, size_t schema_count,        \
                                 const uint8_t *texts, size_t texts_count, const number *offsets,                     \
                                 size_t offsets_count, uint8_t *verdicts, size_t room);                               \
    uint8_t strkw_##name(uint32_t draft, uint32_t options, const uint8_t *schema, size_t schema_count,                \
                         const uint8_t *texts, size_t texts_count, const number *offsets, size_t offsets_count,       \
                         uint8_t *verdicts, size_t room) {                                                            \
        uint8_t no_verdicts[1] = {0};                                                                                 \
        if (!leads(schema, schema_count) || !leads(texts, texts_count)) return STRKW_NULL;                            \
        if (!leads(offsets, offsets_count) || !leads(verdicts, room)) return STRKW_NULL;                              \
        return strkw_nonnull_##name(draft, options, text_at(schema), schema_count, text_at(texts), texts_count,       \
                                    offsets != NULL ? offsets : none, offsets_count,                                  \
                                    verdicts != NULL ? verdicts : no_verdicts, room);                                 \
    }

CHECK_OFFSETS(check_offsets, size_t, no_ends)
CHECK_OFFSETS(check_offsets32, uint32_t, no_ends32)

uint8_t strkw_nonnull_refusal(uint32_t draft, uint32_t options, const uint8_t *schema, size_t schema_count,
                              uint8_t *out, size_t room, size_t *written);

uint8_t strkw_refusal(uint32_t draft, uint32_t options, const uint8_t *schema, size_t schema_count, uint8_t *out,
                      size_t room, size_t *written) {
    uint8_t no_room[1] = {0};
    if (!leads(schema, schema_count) || !leads(out, room) || written == NULL) return STRKW_NULL;
    return strkw_nonnull_refusal(draft, options, text_at(schema), schema_count, out != NULL ? out : no_room, room,
                                 written);
}

uint8_t strkw_nonnull_errors(uint32_t draft, uint32_t options, const uint8_t *schema, size_t schema_count,
                             const uint8_t *text, size_t text_count, uint8_t *out, size_t room, size_t *written);

uint8_t strkw_errors(uint32_t draft, uint32_t options, const uint8_t *schema, size_t schema_count, const uint8_t *text,
                     size_t text_count, uint8_t *out, size_t room, size_t *written) {
    uint8_t no_room[1] = {0};
    if (!leads(schema, schema_count) || !leads(text, text_count)) return STRKW_NULL;
    if (!leads(out, room) || written == NULL) return STRKW_NULL;
    return strkw_nonnull_errors(draft, options, text_at(schema), schema_count, text_at(text), text_count,
                                out != NULL ? out : no_room, room, written);
}

/* What crates/strkw_c keeps a compiled schema object in, as its src/handle.rt has it. One of zeroed memory keeps
   nothing. One call at a time has a handle. */
struct handle {
    bool is_full;
    void *at;
};

uint8_t strkw_nonnull_schema_compile(uint32_t draft, uint32_t options, const uint8_t *schema, size_t schema_count,
                                     struct handle *handle);
uint8_t strkw_nonnull_schema_check(struct handle *handle, const uint8_t *texts, size_t texts_count, const size_t *ends,
                                   size_t ends_count, uint8_t *verdicts, size_t room);
uint8_t strkw_nonnull_schema_errors(struct handle *handle, const uint8_t *text, size_t text_count, uint8_t *out,
                                    size_t room, size_t *written);
void strkw_nonnull_schema_free(struct handle *handle);

/* How many handles a schema holds on to: as many calls at once compile nothing. */
enum { HANDLES = 16 };

struct strkw_schema {
    uint32_t draft;
    uint32_t options;
    struct handle *_Atomic handles[HANDLES];
    size_t count;
    uint8_t bytes[];
};

static void free_handle(struct handle *handle) {
    if (handle == NULL) return;
    strkw_nonnull_schema_free(handle);
    free(handle);
}

/* Makes a handle of a schema object. */
static uint8_t compile(uint32_t draft, uint32_t options, const uint8_t *schema, size_t count, struct handle **made) {
    struct handle compiled = {false, NULL};
    uint8_t status = strkw_nonnull_schema_compile(draft, options, schema, count, &compiled);
    if (status != STRKW_DONE) return status;
    struct handle *handle = malloc(sizeof *handle);
    if (handle == NULL) {
        strkw_nonnull_schema_free(&compiled);
        return STRKW_OUT_OF_MEMORY;
    }
    *handle = compiled;
    *made = handle;
    return STRKW_DONE;
}

/* Takes a handle of a schema, which no other call has then, or makes one where others have all. NULL: out of memory. */
static struct handle *take(strkw_schema *schema) {
    struct handle *handle = NULL;
    for (size_t i = 0; handle == NULL && i < HANDLES; i++) handle = atomic_exchange(&schema->handles[i], NULL);
    if (handle == NULL) compile(schema->draft, schema->options, schema->bytes, schema->count, &handle);
    return handle;
}

/* Gives a handle back. Where the schema holds on to others already, it is freed. */
static void give_back(strkw_schema *schema, struct handle *handle) {
    for (size_t i = 0; handle != NULL && i < HANDLES; i++) {
        struct handle *none = NULL;
        if (atomic_compare_exchange_strong(&schema->handles[i], &none, handle)) handle = NULL;
    }
    free_handle(handle);
}

/* The status of a call by a handle, or by an empty one where making one was out of memory. */
static uint8_t status_by(const struct handle *handle, uint8_t status) {
    return handle == NULL && status == STRKW_NO_SCHEMA ? STRKW_OUT_OF_MEMORY : status;
}

uint8_t strkw_schema_compile(uint32_t draft, uint32_t options, const uint8_t *schema, size_t schema_count,
                             strkw_schema **made) {
    if (made == NULL || !leads(schema, schema_count)) return STRKW_NULL;
    struct handle *handle = NULL;
    uint8_t status = compile(draft, options, text_at(schema), schema_count, &handle);
    if (status != STRKW_DONE) return status;
    strkw_schema *kept = calloc(1, sizeof *kept + schema_count);
    if (kept == NULL) {
        free_handle(handle);
        return STRKW_OUT_OF_MEMORY;
    }
    kept->draft = draft;
    kept->options = options;
    kept->count = schema_count;
    memcpy(kept->bytes, schema, schema_count);
    atomic_init(&kept->handles[0], handle);
    *made = kept;
    return STRKW_DONE;
}

uint8_t strkw_schema_check(const strkw_schema *schema, const uint8_t *texts, size_t texts_count, const size_t *ends,
                           size_t ends_count, uint8_t *verdicts, size_t room) {
    uint8_t no_verdicts[1] = {0};
    struct handle empty = {false, NULL};
    if (schema == NULL || !leads(texts, texts_count)) return STRKW_NULL;
    if (!leads(ends, ends_count) || !leads(verdicts, room)) return STRKW_NULL;
    struct handle *handle = take((strkw_schema *)schema);
    uint8_t status = strkw_nonnull_schema_check(handle != NULL ? handle : &empty, text_at(texts), texts_count,
                                                ends != NULL ? ends : no_ends, ends_count,
                                                verdicts != NULL ? verdicts : no_verdicts, room);
    give_back((strkw_schema *)schema, handle);
    return status_by(handle, status);
}

uint8_t strkw_schema_errors(const strkw_schema *schema, const uint8_t *text, size_t text_count, uint8_t *out,
                            size_t room, size_t *written) {
    uint8_t no_room[1] = {0};
    struct handle empty = {false, NULL};
    if (schema == NULL || !leads(text, text_count)) return STRKW_NULL;
    if (!leads(out, room) || written == NULL) return STRKW_NULL;
    struct handle *handle = take((strkw_schema *)schema);
    uint8_t status = strkw_nonnull_schema_errors(handle != NULL ? handle : &empty, text_at(text), text_count,
                                                 out != NULL ? out : no_room, room, written);
    give_back((strkw_schema *)schema, handle);
    return status_by(handle, status);
}

void strkw_schema_free(strkw_schema *schema) {
    if (schema == NULL) return;
    for (size_t i = 0; i < HANDLES; i++) free_handle(atomic_load(&schema->handles[i]));
    free(schema);
}
