/* Calls the functions of strkw.h that take memory. bindings/test_calls refuses them each growth in turn.

   refused NAME      runs the row of the function strkw_NAME; the status is one of those below
   refused --list    the name of each row

   A row has to be right where no growth is refused. Where one is, it may also end as out of memory: then a call has
   told so, and what it was lent is as it was. A row itself takes no memory of the allocator. */
#define _DEFAULT_SOURCE
#include "rooms.h"
#include "strkw.h"

#include <stdio.h>
#include <string.h>

#define COUNT_OF(list) (sizeof(list) / sizeof *(list))

/* What a row comes to, and a call of it. */
enum outcome { RIGHT = 0, WRONG = 1, NO_ROW = 2, OUT_OF_MEMORY = 3 };

/* What a call comes to that may be out of memory, or else right. Of one that is neither it is told what was asked. */
static enum outcome outcome_of(bool is_out_of_memory, bool is_right, const char *asked) {
    if (is_out_of_memory) return OUT_OF_MEMORY;
    if (is_right) return RIGHT;
    fprintf(stderr, "refused: %s\n", asked);
    return WRONG;
}

/* Texts with their answers, of functions that answer by 0, 1 or 2: encodings of "foob" (RFC 4648, section 10), JSON
   (RFC 8259), internationalised mail addresses (RFC 6531) and host names (RFC 5890), patterns (ECMA-262 2024, 22.2.1),
   and texts that are none. */
static const struct {
    const char *name;
    uint8_t (*check)(const uint8_t *, size_t);
    const char *text;
    uint8_t answer;
} decisions[] = {
    {"is_base64", strkw_is_base64, "Zm9vYg==", 1},
    {"is_base64", strkw_is_base64, "Zm9vYg=", 0},
    {"is_base64url", strkw_is_base64url, "Zm9vYg==", 1},
    {"is_base64url", strkw_is_base64url, "Zm9v+g==", 0},
    {"is_json", strkw_is_json, "{\"a\":[1,\"x\"]}", 1},
    {"is_json", strkw_is_json, "[1,", 0},
    {"is_idn_email", strkw_is_idn_email, "j\303\274rgen@b\303\274cher.example", 1},
    {"is_idn_email", strkw_is_idn_email, "\"j\303\274rgen\"@xn--bcher-kva.example", 1},
    {"is_idn_email", strkw_is_idn_email, "j\303\274rgen@bu\314\210cher.example", 0},
    {"is_idn_hostname", strkw_is_idn_hostname, "b\303\274cher.example", 1},
    {"is_idn_hostname", strkw_is_idn_hostname, "xn--bcher-kva.example", 1},
    {"is_idn_hostname", strkw_is_idn_hostname, "b\303\274cher-.example", 0},
    {"is_regex", strkw_is_regex, "(?<year>\\d{4})-\\k<year>", 1},
    {"is_regex", strkw_is_regex, "(?<year>\\d{4})-\\k<month>", 0},
    {"is_regex", strkw_is_regex, "(?<n>)|(?<n>)", 0},
};

static enum outcome decide(const char *name) {
    enum outcome outcome = NO_ROW;
    for (size_t i = 0; i < COUNT_OF(decisions) && (outcome == NO_ROW || outcome == RIGHT); i++) {
        const char *text = decisions[i].text;
        if (strcmp(decisions[i].name, name) != 0) continue;
        uint8_t answer = decisions[i].check(text_of(text), strlen(text));
        outcome = outcome_of(answer == 2, answer == decisions[i].answer, text);
    }
    return outcome;
}

/* A buffer, and the count of bytes that a call has put into it. */
enum { ROOM = 200, UNTOUCHED = 77 };

struct buffer {
    uint8_t *bytes;
    size_t written;
};

static struct buffer new_buffer(void) { return (struct buffer){room_of(ROOM), UNTOUCHED}; }

/* What a call comes to that puts a text into a buffer, with this status. */
static enum outcome put(uint8_t answer, uint8_t status, const struct buffer *out, const char *wanted,
                        const char *asked) {
    bool is_untouched = out->written == UNTOUCHED && !is_written(out->bytes, ROOM);
    bool is_whole = out->written == strlen(wanted) && memcmp(out->bytes, wanted, out->written) == 0;
    return outcome_of(answer == STRKW_OUT_OF_MEMORY && is_untouched, answer == status && is_whole, asked);
}

static enum outcome answer(void) {
    static const char *requests = "{\"draft\":7,\"schema\":{\"format\":\"date\"},\"instance\":\"2024-02-29\"}\n{}\n";
    struct buffer out = new_buffer();
    uint8_t answer = strkw_answer(text_of(requests), strlen(requests), out.bytes, ROOM, &out.written);
    return put(answer, STRKW_DONE, &out, "valid\nnote /format: \"date\"\nend\nbad request\nend\n", requests);
}

/* What a call with verdicts comes to. */
static enum outcome judged(uint8_t answer, const char *wanted, const uint8_t *verdicts, size_t count,
                           const char *asked) {
    bool is_out_of_memory = answer == STRKW_OUT_OF_MEMORY && !is_written(verdicts, count);
    return outcome_of(is_out_of_memory, answer == STRKW_DONE && memcmp(verdicts, wanted, count) == 0, asked);
}

/* Schema objects of draft 2020-12, and their verdicts on a date, a text that is none, and the byte 255. */
static const struct {
    uint32_t options;
    const char *schema, *verdicts;
} checked[] = {
    {0, "{\"format\":\"date\",\"minLength\":2}", "\1\0\2"},
    {0, "{\"pattern\":\"^2023\"}", "\0\1\2"},
    {0, "{\"pattern\":\"^\\\\d{3}4\"}", "\1\0\2"},
    {0, "{\"pattern\":\"(?<=20)(?=24)\"}", "\1\0\2"},
    {STRKW_COMPANION_FORMATS, "{\"format\":\"email\"}", "\0\0\2"},
    {STRKW_COMPANION_FORMATS, "{\"format\":\"regex\"}", "\1\1\2"},
    {STRKW_COMPANION_FORMATS, "{\"format\":\"idn-email\"}", "\0\0\2"},
    {STRKW_COMPANION_FORMATS, "{\"format\":\"idn-hostname\"}", "\1\1\2"},
};

static const size_t ENDS[] = {10, 20, 21};

static const uint8_t *dates(void) { return text_of("2024-02-292023-02-29\377"); }

static enum outcome check(void) {
    enum outcome outcome = RIGHT;
    for (size_t i = 0; outcome == RIGHT && i < COUNT_OF(checked); i++) {
        const char *schema = checked[i].schema;
        uint8_t *verdicts = room_of(3);
        uint8_t answer = strkw_check(202012, checked[i].options, text_of(schema), strlen(schema), dates(), 21, ENDS, 3,
                                     verdicts, 3);
        outcome = judged(answer, checked[i].verdicts, verdicts, 3, schema);
    }
    return outcome;
}

static const char *DATE = "{\"format\":\"date\"}";

/* A date and the byte 255, behind a byte that is of neither. */
static const uint8_t *date_behind(void) { return text_of("-2024-02-29\377"); }

static enum outcome check_offsets(void) {
    static const size_t offsets[] = {1, 11, 12};
    uint8_t *verdicts = room_of(2);
    uint8_t answer =
        strkw_check_offsets(7, 0, text_of(DATE), strlen(DATE), date_behind(), 12, offsets, 3, verdicts, 2);
    return judged(answer, "\1\2", verdicts, 2, "texts between offsets of 64 bits");
}

static enum outcome check_offsets32(void) {
    static const uint32_t offsets[] = {1, 11, 12};
    uint8_t *verdicts = room_of(2);
    uint8_t answer =
        strkw_check_offsets32(7, 0, text_of(DATE), strlen(DATE), date_behind(), 12, offsets, 3, verdicts, 2);
    return judged(answer, "\1\2", verdicts, 2, "texts between offsets of 32 bits");
}

/* Schema objects of draft 7 that are refused, and the text of each refusal. */
static const struct {
    const char *schema, *why;
} refusals[] = {
    {"{\"format\":\"email\"}",
     "/format: Unknown format: 'email'. Adjust configuration to ignore unrecognized formats"},
    {"{\"maxLength\":-1}", "/maxLength: the limit is not a non-negative whole number of 64 bits"},
    {"{\"pattern\":\"(a|b)c\\\\1\"}", "/pattern: the pattern \"(a|b)c\\\\1\" is not taken: it has a back reference"},
    {"{\"contentEncoding\":[5]}", "/contentEncoding: [5] is not of type \"string\""},
};

static enum outcome refusal(void) {
    enum outcome outcome = RIGHT;
    for (size_t i = 0; outcome == RIGHT && i < COUNT_OF(refusals); i++) {
        const char *schema = refusals[i].schema;
        struct buffer out = new_buffer();
        uint8_t answer = strkw_refusal(7, 0, text_of(schema), strlen(schema), out.bytes, ROOM, &out.written);
        outcome = put(answer, STRKW_REFUSED, &out, refusals[i].why, schema);
    }
    return outcome;
}

/* Schema objects of draft 7, and the lines of the text 2023-02-29 by each. */
static const struct {
    const char *schema, *lines;
} told[] = {
    {"{\"format\":\"date\",\"maxLength\":5}",
     "error /format: \"2023-02-29\" is not a \"date\"\nerror /maxLength: \"2023-02-29\" is longer than 5 characters\n"
     "note /format: \"date\"\n"},
    {"{\"pattern\":\"a\\n*b\"}", "error /pattern: \"2023-02-29\" does not match \"a *b\"\n"},
    {"{\"minLength\":5}", ""},
};

static enum outcome errors(void) {
    enum outcome outcome = RIGHT;
    for (size_t i = 0; outcome == RIGHT && i < COUNT_OF(told); i++) {
        const char *schema = told[i].schema;
        struct buffer out = new_buffer();
        uint8_t answer = strkw_errors(7, 0, text_of(schema), strlen(schema), text_of("2023-02-29"), 10, out.bytes,
                                      ROOM, &out.written);
        outcome = put(answer, STRKW_DONE, &out, told[i].lines, schema);
    }
    return outcome;
}

/* Makes a schema of DATE. Out of memory there is none. */
static enum outcome compile(strkw_schema **made) {
    uint8_t answer = strkw_schema_compile(7, 0, text_of(DATE), strlen(DATE), made);
    return outcome_of(answer == STRKW_OUT_OF_MEMORY && *made == NULL, answer == STRKW_DONE && *made != NULL, DATE);
}

static enum outcome schema_compile(void) {
    strkw_schema *made = NULL;
    enum outcome outcome = compile(&made);
    strkw_schema_free(made);
    return outcome;
}

static enum outcome schema_check(void) {
    strkw_schema *made = NULL;
    enum outcome outcome = compile(&made);
    if (outcome == RIGHT) {
        uint8_t *verdicts = room_of(3);
        uint8_t answer = strkw_schema_check(made, dates(), 21, ENDS, 3, verdicts, 3);
        outcome = judged(answer, "\1\0\2", verdicts, 3, DATE);
    }
    strkw_schema_free(made);
    return outcome;
}

static enum outcome schema_errors(void) {
    strkw_schema *made = NULL;
    enum outcome outcome = compile(&made);
    if (outcome == RIGHT) {
        struct buffer out = new_buffer();
        uint8_t answer = strkw_schema_errors(made, text_of("2024-02-29"), 10, out.bytes, ROOM, &out.written);
        outcome = put(answer, STRKW_DONE, &out, "note /format: \"date\"\n", DATE);
    }
    strkw_schema_free(made);
    return outcome;
}

static const struct {
    const char *name;
    enum outcome (*run)(void);
} rows[] = {
    {"answer", answer},
    {"check", check},
    {"check_offsets", check_offsets},
    {"check_offsets32", check_offsets32},
    {"refusal", refusal},
    {"errors", errors},
    {"schema_compile", schema_compile},
    {"schema_check", schema_check},
    {"schema_errors", schema_errors},
};

static void list(void) {
    for (size_t i = 0; i < COUNT_OF(decisions); i++)
        if (i == 0 || strcmp(decisions[i].name, decisions[i - 1].name) != 0) puts(decisions[i].name);
    for (size_t i = 0; i < COUNT_OF(rows); i++) puts(rows[i].name);
}

int main(int count, char **words) {
    if (count != 2) return NO_ROW;
    if (strcmp(words[1], "--list") == 0) {
        list();
        return RIGHT;
    }
    for (size_t i = 0; i < COUNT_OF(rows); i++)
        if (strcmp(rows[i].name, words[1]) == 0) return rows[i].run();
    return decide(words[1]);
}
