/* Calls the library from C: every row of a table, a file of requests against its stored answers, texts by one schema,
   why a schema is refused, the errors of a text, a schema that is kept, and NULL.
   caller FORMATS REQUESTS ANSWERS; status 0 where all is as it is stored. */
#include "strkw.h"

#include <stdio.h>
#include <stdlib.h>
#include <string.h>

typedef bool (*format_check)(const uint8_t *, size_t);
typedef uint8_t (*decision)(const uint8_t *, size_t);

static const struct {
    const char *name;
    format_check check;
} formats[] = {
    {"date", strkw_is_date},
    {"date-time", strkw_is_date_time},
    {"duration", strkw_is_duration},
    {"hostname", strkw_is_hostname},
    {"hostname-draft4", strkw_is_hostname_draft4},
    {"ipv4", strkw_is_ipv4},
    {"ipv6", strkw_is_ipv6},
    {"iri", strkw_is_iri},
    {"iri-reference", strkw_is_iri_reference},
    {"json-pointer", strkw_is_json_pointer},
    {"relative-json-pointer", strkw_is_relative_json_pointer},
    {"time", strkw_is_time},
    {"uri", strkw_is_uri},
    {"uri-reference", strkw_is_uri_reference},
    {"uri-template", strkw_is_uri_template},
    {"uuid", strkw_is_uuid},
    {"email", strkw_is_email},
};

static const struct {
    const char *name;
    decision check;
} decisions[] = {
    {"base64", strkw_is_base64},       {"base64url", strkw_is_base64url}, {"base32", strkw_is_base32},
    {"base32hex", strkw_is_base32hex}, {"base16", strkw_is_base16},       {"json", strkw_is_json},
    {"idn-email", strkw_is_idn_email}, {"idn-hostname", strkw_is_idn_hostname},
    {"regex", strkw_is_regex},
};

static int failed = 0;

static void expect(bool holds, const char *what) {
    if (!holds) {
        fprintf(stderr, "caller.c: %s\n", what);
        failed = 1;
    }
}

/* 0 or 1, or any other number for a name that is none, or out of memory. */
static int ask(const char *name, const uint8_t *text, size_t count) {
    for (size_t i = 0; i < sizeof formats / sizeof *formats; i++)
        if (strcmp(formats[i].name, name) == 0) return formats[i].check(text, count);
    for (size_t i = 0; i < sizeof decisions / sizeof *decisions; i++)
        if (strcmp(decisions[i].name, name) == 0) return decisions[i].check(text, count);
    return -1;
}

static uint8_t *read_file(const char *path, size_t *count) {
    FILE *file = fopen(path, "rb");
    uint8_t *bytes = malloc(1 << 20);
    if (file == NULL || bytes == NULL) exit(2);
    *count = fread(bytes, 1, 1 << 20, file);
    fclose(file);
    return bytes;
}

static size_t check_rows(const char *path) {
    char row[1024];
    size_t rows = 0;
    FILE *file = fopen(path, "r");
    if (file == NULL) exit(2);
    while (fgets(row, sizeof row, file) != NULL) {
        row[strcspn(row, "\n")] = 0;
        char *want = strchr(row, '\t');
        char *text = want == NULL ? NULL : strchr(want + 1, '\t');
        if (text == NULL) exit(2);
        *want++ = 0;
        *text++ = 0;
        expect(ask(row, (const uint8_t *)text, strlen(text)) == (strcmp(want, "yes") == 0), row);
        rows++;
    }
    fclose(file);
    return rows;
}

static void check_answers(const char *requests_path, const char *answers_path) {
    size_t count, length, written = 7;
    uint8_t *requests = read_file(requests_path, &count);
    uint8_t *answers = read_file(answers_path, &length);
    uint8_t *out = malloc(length);
    if (out == NULL) exit(2);
    memset(out, '?', length);
    expect(strkw_answer(requests, count, out, length - 1, &written) == 2, "too little room is status 2");
    expect(written == length && out[0] == '?', "too little room tells the room and writes nothing");
    expect(strkw_answer(requests, count, out, length, &written) == 0, "the requests are answered");
    expect(written == length && memcmp(out, answers, length) == 0, "the answers are the stored ones");
    expect(strkw_answer(requests, 0, out, length, &written) == 0 && written == 0, "no request has no answer");
    free(requests);
    free(answers);
    free(out);
}

static uint8_t check_dates(uint32_t draft, uint32_t options, const char *schema, const size_t *ends,
                           uint8_t *verdicts) {
    static const uint8_t texts[] = "2024-02-292023-02-29\xFF";
    const uint8_t *bytes = (const uint8_t *)schema;
    return strkw_check(draft, options, bytes, strlen(schema), texts, sizeof texts - 1, ends, 4, verdicts, 4);
}

/* Four texts: a date, one that is none, bytes that are not UTF-8, and no byte at all. */
static void check_many(void) {
    static const char *date = "{\"format\":\"date\"}";
    static const char *mail = "{\"format\":\"email\"}", *idn_mail = "{\"format\":\"idn-email\"}";
    static const size_t ends[] = {10, 20, 21, 21};
    static const size_t falling[] = {10, 9, 21, 21};
    static const size_t past[] = {10, 20, 21, 22};
    uint8_t verdicts[] = {7, 7, 7, 7};
    expect(check_dates(5, 8, "[]", falling, verdicts) == STRKW_NO_ROOM, "ends that fall");
    expect(check_dates(7, 0, date, past, verdicts) == STRKW_NO_ROOM, "an end past the texts");
    expect(check_dates(5, 8, "[]", ends, verdicts) == STRKW_NO_DRAFT, "draft 5");
    expect(check_dates(7, 8, "[]", ends, verdicts) == STRKW_NO_OPTION, "an option that is none");
    expect(check_dates(7, 0, "[]", ends, verdicts) == STRKW_NO_SCHEMA, "a schema that is no object");
    expect(check_dates(7, 0, "{\"maxLength\":-1}", ends, verdicts) == STRKW_REFUSED, "a negative limit");
    expect(check_dates(7, 0, mail, ends, verdicts) == STRKW_REFUSED, "draft 7 knows no email");
    expect(check_dates(202012, 0, mail, ends, verdicts) == STRKW_REFUSED, "nor does draft 2020-12");
    expect(memcmp(verdicts, "\7\7\7\7", 4) == 0, "these leave the verdicts as they were");
    expect(check_dates(7, 0, date, ends, verdicts) == STRKW_DONE, "draft 7 has dates");
    expect(memcmp(verdicts, "\1\0\2\0", 4) == 0, "draft 7 checks dates");
    expect(check_dates(202012, 0, date, ends, verdicts) == STRKW_DONE, "draft 2020-12 has dates");
    expect(memcmp(verdicts, "\1\0\2\0", 4) == 0, "they are checked");
    expect(check_dates(202012, STRKW_FORMATS_AS_DRAFT, date, ends, verdicts) == STRKW_DONE, "dates as the draft says");
    expect(memcmp(verdicts, "\1\1\2\1", 4) == 0, "draft 2020-12 only notes them");
    expect(check_dates(7, STRKW_IGNORE_UNKNOWN_FORMATS, mail, ends, verdicts) == STRKW_DONE, "email is passed over");
    expect(memcmp(verdicts, "\1\1\2\1", 4) == 0, "an unknown format lets every text pass");
    expect(check_dates(7, STRKW_COMPANION_FORMATS, mail, ends, verdicts) == STRKW_DONE, "email is known");
    expect(memcmp(verdicts, "\0\0\2\0", 4) == 0, "no date is a mail address");
    expect(check_dates(6, STRKW_COMPANION_FORMATS, idn_mail, ends, verdicts) == STRKW_REFUSED, "6 knows no idn-email");
    expect(check_dates(7, STRKW_COMPANION_FORMATS, idn_mail, ends, verdicts) == STRKW_DONE, "idn-email is known");
    expect(memcmp(verdicts, "\0\0\2\0", 4) == 0, "no date is an internationalised one");
}

static uint8_t tell(uint32_t draft, uint32_t options, const char *schema, uint8_t *out, size_t room, size_t *written) {
    return strkw_refusal(draft, options, (const uint8_t *)schema, strlen(schema), out, room, written);
}

static void check_refusal(uint32_t options, const char *schema, const char *want) {
    size_t count = strlen(want), written = 0;
    uint8_t *out = malloc(count + 1);
    if (out == NULL) exit(2);
    memset(out, '?', count + 1);
    expect(tell(7, options, schema, out, count - 1, &written) == STRKW_NO_ROOM && written == count, want);
    expect(out[0] == '?', "too little room writes nothing");
    expect(tell(7, options, schema, out, count + 1, &written) == STRKW_REFUSED && written == count, want);
    expect(memcmp(out, want, count) == 0 && out[count] == '?', want);
    free(out);
}

static void check_refusals(void) {
    uint8_t out[] = {'?'};
    size_t written = 7;
    check_refusal(0, "{\"pattern\":\"(a|b)c\\\\1\"}",
                  "/pattern: the pattern \"(a|b)c\\\\1\" is not taken: "
                  "it has a back reference");
    check_refusal(0, "{\"minLength\":-1}", "/minLength: the limit is not a non-negative whole number of 64 bits");
    check_refusal(1, "{\"format\":5}", "/format: 5 is not of type \"string\"");
    check_refusal(1, "{\"format\":\"uuid\"}",
                  "/format: Unknown format: 'uuid'. Adjust configuration to ignore unrecognized formats");
    expect(tell(5, 8, "[]", out, 1, &written) == STRKW_NO_DRAFT, "no refusal by draft 5");
    expect(tell(7, 8, "[]", out, 1, &written) == STRKW_NO_OPTION, "no refusal by an option that is none");
    expect(tell(7, 0, "[]", out, 1, &written) == STRKW_NO_SCHEMA, "no refusal of what is no object");
    expect(written == 7, "these leave the count as it was");
    expect(tell(7, 2, "{\"format\":\"uuid\"}", out, 1, &written) == STRKW_DONE, "nothing is refused");
    expect(written == 0 && out[0] == '?', "and nothing is written");
}

static uint8_t errors_of(uint32_t options, const char *schema, const char *text, uint8_t *out, size_t room,
                         size_t *written) {
    const uint8_t *object = (const uint8_t *)schema, *bytes = (const uint8_t *)text;
    return strkw_errors(7, options, object, strlen(schema), bytes, strlen(text), out, room, written);
}

/* The errors of a date that is none, twice: by an object, and by one that is kept. */
static void check_errors(void) {
    static const char *schema = "{\"format\":\"date\",\"pattern\":\"^[0-9-]{4,9}$\"}";
    static const char *want = "error /format: \"2023-02-29\" is not a \"date\"\n"
                              "error /pattern: \"2023-02-29\" does not match \"^[0-9-]{4,9}$\"\n"
                              "note /format: \"date\"\n";
    const uint8_t *date = (const uint8_t *)"2023-02-29";
    size_t count = strlen(want), written = 7;
    uint8_t out[200] = {'?'};
    strkw_schema *kept = NULL;
    expect(errors_of(0, schema, "2023-02-29", out, count - 1, &written) == STRKW_NO_ROOM, "errors need room");
    expect(written == count && out[0] == '?', "too little room writes no error");
    expect(errors_of(0, schema, "2023-02-29", out, sizeof out, &written) == STRKW_DONE, "errors are written");
    expect(written == count && memcmp(out, want, count) == 0, "these are the errors");
    expect(errors_of(8, "[]", "\xFF", out, 1, &written) == STRKW_NO_OPTION, "no errors by an option that is none");
    expect(errors_of(0, "[]", "\xFF", out, 1, &written) == STRKW_NOT_UTF8, "no errors of what is not UTF-8");
    expect(errors_of(0, "[]", "a", out, 1, &written) == STRKW_NO_SCHEMA, "no errors by what is no object");
    expect(errors_of(0, "{\"maxLength\":-1}", "a", out, 1, &written) == STRKW_REFUSED, "no errors by a refused object");
    expect(written == count, "these leave the count as it was");
    expect(strkw_schema_compile(7, 0, (const uint8_t *)"[]", 2, &kept) == STRKW_NO_SCHEMA, "no object is kept");
    expect(strkw_schema_compile(7, 0, NULL, 2, &kept) == STRKW_NULL && kept == NULL, "nor is NULL");
    const uint8_t *object = (const uint8_t *)schema;
    expect(strkw_schema_compile(7, 0, object, strlen(schema), NULL) == STRKW_NULL, "nowhere to keep it");
    expect(strkw_schema_compile(7, 0, object, strlen(schema), &kept) == STRKW_DONE, "an object is kept");
    memset(out, '?', sizeof out);
    expect(strkw_schema_errors(kept, date, 10, out, sizeof out, &written) == STRKW_DONE, "it has errors");
    expect(written == count && memcmp(out, want, count) == 0, "and they are the same");
    expect(strkw_schema_check(kept, date, 10, &(size_t){10}, 1, out, 1) == STRKW_DONE && out[0] == 0, "and a verdict");
    expect(strkw_schema_check(NULL, date, 10, &(size_t){10}, 1, out, 1) == STRKW_NULL, "NULL has no verdict");
    expect(strkw_schema_errors(NULL, date, 10, out, 1, &written) == STRKW_NULL, "NULL has no errors");
    strkw_schema_free(kept);
    strkw_schema_free(NULL);
}

/* NULL with a count of 0 is an empty text; with another count it has no format and is no encoding. */
static void check_null(void) {
    static const uint8_t empty[] = {'?'};
    for (size_t i = 0; i < sizeof formats / sizeof *formats; i++) {
        expect(formats[i].check(NULL, 0) == formats[i].check(empty, 0), formats[i].name);
        expect(!formats[i].check(NULL, 10), formats[i].name);
    }
    for (size_t i = 0; i < sizeof decisions / sizeof *decisions; i++) {
        expect(decisions[i].check(NULL, 0) == decisions[i].check(empty, 0), decisions[i].name);
        expect(decisions[i].check(NULL, 10) == 0, decisions[i].name);
    }
}

/* Of each of the other functions, each pointer in turn. */
static void check_null_apart(void) {
    static const uint8_t object[] = {'{', '}'};
    static const size_t ends[] = {2};
    uint8_t out[] = {'?'};
    size_t written = 7;
    expect(strkw_answer(NULL, 10, out, 1, &written) == STRKW_NULL, "no requests");
    expect(strkw_answer(object, 2, NULL, 10, &written) == STRKW_NULL, "no room for answers");
    expect(strkw_answer(object, 2, out, 1, NULL) == STRKW_NULL, "no count of answers");
    expect(strkw_check(7, 0, NULL, 10, object, 2, ends, 1, out, 1) == STRKW_NULL, "no schema");
    expect(strkw_check(7, 0, object, 2, NULL, 2, ends, 1, out, 1) == STRKW_NULL, "no texts");
    expect(strkw_check(7, 0, object, 2, object, 2, NULL, 1, out, 1) == STRKW_NULL, "no ends");
    expect(strkw_check(7, 0, object, 2, object, 2, ends, 1, NULL, 1) == STRKW_NULL, "no verdicts");
    expect(strkw_refusal(7, 0, NULL, 10, out, 1, &written) == STRKW_NULL, "no schema that is refused");
    expect(strkw_refusal(7, 0, object, 2, NULL, 10, &written) == STRKW_NULL, "no room for a refusal");
    expect(strkw_refusal(7, 0, object, 2, out, 1, NULL) == STRKW_NULL, "no count of a refusal");
    expect(strkw_errors(7, 0, NULL, 10, object, 2, out, 1, &written) == STRKW_NULL, "no schema of errors");
    expect(strkw_errors(7, 0, object, 2, NULL, 2, out, 1, &written) == STRKW_NULL, "no text that has errors");
    expect(strkw_errors(7, 0, object, 2, object, 2, NULL, 10, &written) == STRKW_NULL, "no room for errors");
    expect(strkw_errors(7, 0, object, 2, object, 2, out, 1, NULL) == STRKW_NULL, "no count of errors");
    expect(written == 7 && out[0] == '?', "NULL leaves all as it was");
    expect(strkw_answer(object, 2, NULL, 0, &written) == STRKW_NO_ROOM && written == 16, "NULL has no room");
    expect(strkw_answer(NULL, 0, NULL, 0, &written) == STRKW_DONE && written == 0, "NULL has no request");
    expect(strkw_check(7, 0, NULL, 0, NULL, 0, NULL, 0, NULL, 0) == STRKW_NO_SCHEMA, "NULL is no object");
    expect(strkw_check(7, 0, object, 2, NULL, 0, NULL, 0, NULL, 0) == STRKW_DONE, "NULL has no text");
    expect(strkw_refusal(7, 0, object, 2, NULL, 0, &written) == STRKW_DONE, "an object that is not refused");
}

int main(int argc, char **argv) {
    if (argc != 4) {
        fprintf(stderr, "caller FORMATS REQUESTS ANSWERS\n");
        return 2;
    }
    size_t rows = check_rows(argv[1]);
    static const uint8_t not_utf8[] = {'a', ':', 0xC3, 0x28};
    expect(!strkw_is_iri(not_utf8, 4) && !strkw_is_uri_template(not_utf8, 4), "bytes that are not UTF-8");
    expect(strkw_is_json((const uint8_t *)"\"\xFF\"", 3) == 0, "JSON that is not UTF-8");
    expect(!strkw_is_uri((const uint8_t *)"a:\0b", 4), "a zero byte does not end a text");
    check_answers(argv[2], argv[3]);
    check_many();
    check_refusals();
    check_errors();
    check_null();
    check_null_apart();
    if (!failed) printf("caller.c: %zu rows\n", rows);
    return failed;
}
