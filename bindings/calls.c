/* Calls each function of strkw.h with inputs that it takes, that it finds wrong, and that it refuses. One byte read or
   written too far ends the program, as rooms.h says.

   calls           runs the rows; the last line is `N passed, M failed`, the status 1 where a row fails. With PROVED
                   defined there are those of functions that the static library alone has
   calls --list    the function and the kind of each row: right, wrong or refused */
#define _DEFAULT_SOURCE
#include "rooms.h"
#include "strkw.h"

#include <pthread.h>
#include <stdatomic.h>
#include <stdio.h>
#include <stdlib.h>
#include <string.h>
#include <sys/wait.h>
#include <time.h>
#include <unistd.h>

enum { THREADS = 8, MORE_THREADS = 24, ROUNDS = 25 };

static bool lists = false;
static unsigned passed = 0, failed = 0;

/* Counts a row, or lists it. */
static void row(const char *function, const char *kind, const char *what, bool holds) {
    if (lists) {
        printf("%s %s\n", function, kind);
    } else if (holds) {
        passed++;
    } else {
        failed++;
        printf("calls: %s, %s: %s\n", function, kind, what);
    }
}

/* Formats, with a text of each and one that is none: RFC 3339, 5321, 1123, 2673, 4291, 3987, 6901, 3986, 6570, 9562. */
static const struct {
    const char *name;
    bool (*check)(const uint8_t *, size_t);
    const char *right, *wrong;
} formats[] = {
    {"is_date", strkw_is_date, "2024-02-29", "2023-02-29"},
    {"is_date_time", strkw_is_date_time, "1985-04-12T23:20:50.52Z", "1985-04-12T24:00:00Z"},
    {"is_duration", strkw_is_duration, "P4DT12H30M5S", "P4DT"},
    {"is_email", strkw_is_email, "a.b@example.com", "a..b@example.com"},
    {"is_hostname", strkw_is_hostname, "www.example.com", "-a.example"},
    {"is_hostname_draft4", strkw_is_hostname_draft4, "ab--c", "a_b"},
    {"is_ipv4", strkw_is_ipv4, "192.0.2.1", "192.0.2.256"},
    {"is_ipv6", strkw_is_ipv6, "2001:db8::1", "2001:db8::1::2"},
    {"is_iri", strkw_is_iri, "http://example.org/r\303\251sum\303\251", "/r\303\251sum\303\251"},
    {"is_iri_reference", strkw_is_iri_reference, "/r\303\251sum\303\251", "/a b"},
    {"is_json_pointer", strkw_is_json_pointer, "/a~1b", "/a~2b"},
    {"is_relative_json_pointer", strkw_is_relative_json_pointer, "1/foo", "01/foo"},
    {"is_time", strkw_is_time, "23:20:50.52Z", "23:20:50.52"},
    {"is_uri", strkw_is_uri, "ftp://ftp.is.co.za/rfc/rfc1808.txt", "http://example.org/\303\251"},
    {"is_uri_reference", strkw_is_uri_reference, "//example.com/a?b#c", "http://[::1"},
    {"is_uri_template", strkw_is_uri_template, "/{var}{?q*}", "/{var"},
    {"is_uuid", strkw_is_uuid, "f81d4fae-7dec-11d0-a765-00a0c91e6bf6", "f81d4fae7dec11d0a76500a0c91e6bf6"},
};

/* What answers by 0, 1 or 2: encodings, with "foob" in each (RFC 4648, section 10) and a text that is none; JSON (RFC
   8259); internationalised mail addresses (RFC 6531) and host names (RFC 5890); patterns (ECMA-262 2024, 22.2.1). */
static const struct {
    const char *name;
    uint8_t (*check)(const uint8_t *, size_t);
    const char *right, *wrong;
} decisions[] = {
    {"is_base64", strkw_is_base64, "Zm9vYg==", "Zm9vYg="},
    {"is_base64url", strkw_is_base64url, "Zm9vYg==", "Zm9v+g=="},
    {"is_base32", strkw_is_base32, "MZXW6YQ=", "MZXW6YQ"},
    {"is_base32hex", strkw_is_base32hex, "CPNMUOG=", "CPNMUOZ="},
    {"is_base16", strkw_is_base16, "666F6F62", "666F6F6"},
    {"is_json", strkw_is_json, "{\"a\":[1,null]}", "{\"a\":}"},
    {"is_idn_email", strkw_is_idn_email, "j\303\274rgen@b\303\274cher.example", "j\303\274rgen@B\303\274cher.example"},
    {"is_idn_hostname", strkw_is_idn_hostname, "b\303\274cher.example", "b\303\274cher-.example"},
    {"is_regex", strkw_is_regex, "(?<year>\\d{4})-\\k<year>", "(?<year>\\d{4})-\\k<month>"},
};

/* Texts that are of one kind and not of another that is near it: RFC 3339, 3986, 3987, 5321 and 6531, 6901, 1123. */
static const struct {
    const char *name;
    bool (*check)(const uint8_t *, size_t);
    const char *text;
    bool is_right;
} near_formats[] = {
    {"is_date", strkw_is_date, "2024-02-29T12:00:00Z", false},
    {"is_time", strkw_is_time, "2024-02-29T12:00:00Z", false},
    {"is_date_time", strkw_is_date_time, "2024-02-29", false},
    {"is_date_time", strkw_is_date_time, "12:00:00Z", false},
    {"is_duration", strkw_is_duration, "12:00:00Z", false},
    {"is_hostname", strkw_is_hostname, "ab--c", false},
    {"is_hostname", strkw_is_hostname, "b\303\274cher.example", false},
    {"is_hostname_draft4", strkw_is_hostname_draft4, "b\303\274cher.example", false},
    {"is_ipv4", strkw_is_ipv4, "::1", false},
    {"is_ipv6", strkw_is_ipv6, "192.0.2.1", false},
    {"is_uri", strkw_is_uri, "/a", false},
    {"is_uri", strkw_is_uri, "http://{a}", false},
    {"is_uri_reference", strkw_is_uri_reference, "/r\303\251sum\303\251", false},
    {"is_uri_reference", strkw_is_uri_reference, "/{var}", false},
    {"is_iri", strkw_is_iri, "//example.com/a", false},
    {"is_iri", strkw_is_iri, "ftp://ftp.is.co.za/rfc/rfc1808.txt", true},
    {"is_iri_reference", strkw_is_iri_reference, "/{var}", false},
    {"is_iri_reference", strkw_is_iri_reference, "//example.com/a?b#c", true},
    {"is_json_pointer", strkw_is_json_pointer, "1/foo", false},
    {"is_json_pointer", strkw_is_json_pointer, "/a b", true},
    {"is_relative_json_pointer", strkw_is_relative_json_pointer, "/foo", false},
    {"is_relative_json_pointer", strkw_is_relative_json_pointer, "0#", true},
    {"is_email", strkw_is_email, "j\303\274rgen@example.com", false},
};

static void call_formats(void) {
    for (size_t i = 0; i < sizeof near_formats / sizeof *near_formats; i++) {
        const char *text = near_formats[i].text;
        bool is_right = near_formats[i].is_right;
        row(near_formats[i].name, is_right ? "right" : "wrong", text,
            near_formats[i].check(text_of(text), strlen(text)) == is_right);
    }
    for (size_t i = 0; i < sizeof formats / sizeof *formats; i++) {
        const char *name = formats[i].name, *right = formats[i].right, *wrong = formats[i].wrong;
        row(name, "right", right, formats[i].check(text_of(right), strlen(right)));
        row(name, "wrong", wrong, !formats[i].check(text_of(wrong), strlen(wrong)));
        row(name, "refused", "NULL and a count", !formats[i].check(NULL, strlen(right)));
        row(name, "refused", "no UTF-8", !formats[i].check(bytes_of("/\377", 2), 2));
        row(name, "right", "an empty text", formats[i].check(NULL, 0) == formats[i].check(text_of(""), 0));
    }
}

/* The same of what answers by a number: the alphabets of RFC 4648 (sections 4 to 8), RFC 5890 and 6531. */
static const struct {
    const char *name;
    uint8_t (*check)(const uint8_t *, size_t);
    const char *text;
    uint8_t answer;
} near_decisions[] = {
    {"is_base64", strkw_is_base64, "/+8=", 1},
    {"is_base64", strkw_is_base64, "_-8=", 0},
    {"is_base64url", strkw_is_base64url, "_-8=", 1},
    {"is_base64url", strkw_is_base64url, "/+8=", 0},
    {"is_base32", strkw_is_base32, "CPNMUO18", 0},
    {"is_base32", strkw_is_base32, "CPNMUOWZ", 1},
    {"is_base32hex", strkw_is_base32hex, "CPNMUO18", 1},
    {"is_base32hex", strkw_is_base32hex, "CPNMUOWZ", 0},
    {"is_base16", strkw_is_base16, "MZXW6YQ2", 0},
    {"is_json", strkw_is_json, "Zm9v", 0},
    {"is_json", strkw_is_json, "\357\273\277{}", 0},
    {"is_idn_email", strkw_is_idn_email, "ada@example.com", 1},
    {"is_idn_email", strkw_is_idn_email, "b\303\274cher.example", 0},
    {"is_idn_hostname", strkw_is_idn_hostname, "www.example.com", 1},
    {"is_idn_hostname", strkw_is_idn_hostname, "ab--c", 0},
};

static void call_decisions(void) {
    for (size_t i = 0; i < sizeof near_decisions / sizeof *near_decisions; i++) {
        const char *text = near_decisions[i].text;
        uint8_t answer = near_decisions[i].answer;
        row(near_decisions[i].name, answer == 1 ? "right" : "wrong", text,
            near_decisions[i].check(text_of(text), strlen(text)) == answer);
    }
    for (size_t i = 0; i < sizeof decisions / sizeof *decisions; i++) {
        const char *name = decisions[i].name, *right = decisions[i].right, *wrong = decisions[i].wrong;
        row(name, "right", right, decisions[i].check(text_of(right), strlen(right)) == 1);
        row(name, "wrong", wrong, decisions[i].check(text_of(wrong), strlen(wrong)) == 0);
        row(name, "refused", "NULL and a count", decisions[i].check(NULL, strlen(right)) == 0);
        row(name, "refused", "no UTF-8", decisions[i].check(bytes_of("\"\377\"", 3), 3) == 0);
        row(name, "right", "an empty text", decisions[i].check(NULL, 0) == decisions[i].check(text_of(""), 0));
    }
}

/* Texts, and behind each the functions that say yes, by the standards above: all others say no. */
static const struct {
    const char *text, *yes;
} kinds[] = {
    {"2024-02-29", " date hostname hostname_draft4 iri_reference uri_reference uri_template idn_hostname regex "},
    {"23:20:50Z", " time uri_template regex "},
    {"1985-04-12T23:20:50.52Z", " date_time uri_template regex "},
    {"P4DT12H30M5S",
        " duration hostname hostname_draft4 iri_reference uri_reference uri_template base64 base64url "
        "idn_hostname regex "},
    {"a.b@example.com", " email iri_reference uri_reference uri_template idn_email regex "},
    {"www.example.com", " hostname hostname_draft4 iri_reference uri_reference uri_template idn_hostname regex "},
    {"ab--c", " hostname_draft4 iri_reference uri_reference uri_template regex "},
    {"192.0.2.1", " hostname hostname_draft4 ipv4 iri_reference uri_reference uri_template idn_hostname regex "},
    {"2001:db8::1", " ipv6 uri_template regex "},
    {"http://example.org/r\303\251sum\303\251", " iri iri_reference uri_template regex "},
    {"/r\303\251sum\303\251", " iri_reference json_pointer uri_template regex "},
    {"ftp://ftp.is.co.za/rfc/rfc1808.txt", " iri iri_reference uri uri_reference uri_template regex "},
    {"//example.com/a?b#c", " iri_reference json_pointer uri_reference uri_template regex "},
    {"/{var}{?q*}", " json_pointer uri_template "},
    {"/a~1b", " iri_reference json_pointer uri_reference uri_template regex "},
    {"1/foo", " iri_reference relative_json_pointer uri_reference uri_template regex "},
    {"0#", " iri_reference relative_json_pointer uri_reference uri_template regex "},
    {"f81d4fae-7dec-11d0-a765-00a0c91e6bf6",
        " hostname hostname_draft4 iri_reference uri_reference uri_template uuid base64url idn_hostname "
        "regex "},
    {"j\303\274rgen@b\303\274cher.example", " iri_reference uri_template idn_email regex "},
    {"b\303\274cher.example", " iri_reference uri_template idn_hostname regex "},
    {"Zm9vYg==", " iri_reference uri_reference uri_template base64 base64url regex "},
    {"/+8=", " iri_reference json_pointer uri_reference uri_template base64 regex "},
    {"_-8=", " iri_reference uri_reference uri_template base64url regex "},
    {"MZXW6YQ=", " iri_reference uri_reference uri_template base64 base64url base32 regex "},
    {"CPNMUO18",
        " hostname hostname_draft4 iri_reference uri_reference uri_template base64 base64url base32hex "
        "idn_hostname regex "},
    {"CPNMUOWZ",
        " hostname hostname_draft4 iri_reference uri_reference uri_template base64 base64url base32 "
        "idn_hostname regex "},
    {"666F6F62",
        " hostname hostname_draft4 iri_reference uri_reference uri_template base64 base64url base32 "
        "base32hex base16 idn_hostname regex "},
    {"{\"a\":1}", " json "},
    {"1",
        " hostname hostname_draft4 iri_reference relative_json_pointer uri_reference uri_template json "
        "idn_hostname regex "},
    {"\\d{4}", " regex "},
    {"", " iri_reference json_pointer uri_reference uri_template base64 base64url base32 base32hex base16 regex "},
    {"a b", " regex "},
    {"(", " iri_reference uri_reference uri_template "},
    {"null",
        " hostname hostname_draft4 iri_reference uri_reference uri_template base64 base64url json "
        "idn_hostname regex "},
    {"/a?b#c", " iri_reference json_pointer uri_reference uri_template regex "},
    {"/a/", " iri_reference json_pointer uri_reference uri_template regex "},
    {"/a/i", " iri_reference json_pointer uri_reference uri_template base64 regex "},
    {"/(/", " iri_reference json_pointer uri_reference uri_template "},
    {"\"a\"", " json regex "},
    {"'a'", " iri_reference uri_reference uri_template regex "},
    {"<a@b.c>", " regex "},
    {"<http://a/>", " regex "},
    {"%31%39%32.0.2.1", " iri_reference uri_reference uri_template regex "},
    {"2024%2D02%2D29", " iri_reference uri_reference uri_template regex "},
    {"{f81d4fae-7dec-11d0-a765-00a0c91e6bf6}", " "},
    {"urn:uuid:f81d4fae-7dec-11d0-a765-00a0c91e6bf6", " iri iri_reference uri uri_reference uri_template regex "},
    {"[::1]", " uri_template regex "},
    {"www.example.com.", " iri_reference uri_reference uri_template regex "},
    {"a.b@example.com.", " iri_reference uri_reference uri_template regex "},
    {"Zm9v\nYmFy", " regex "},
    {"Zm9v YmFy", " regex "},
};

/* Whether a function is among those that say yes. */
static bool says_yes(const char *yes, const char *name) {
    char wanted[40];
    snprintf(wanted, sizeof wanted, " %s ", name + strlen("is_"));
    return strstr(yes, wanted) != NULL;
}

static void call_kinds(void) {
    for (size_t k = 0; k < sizeof kinds / sizeof *kinds; k++) {
        const char *text = kinds[k].text;
        const uint8_t *bytes = text_of(text);
        for (size_t i = 0; i < sizeof formats / sizeof *formats; i++) {
            bool yes = says_yes(kinds[k].yes, formats[i].name);
            row(formats[i].name, yes ? "right" : "wrong", text, formats[i].check(bytes, strlen(text)) == yes);
        }
        for (size_t i = 0; i < sizeof decisions / sizeof *decisions; i++) {
            bool yes = says_yes(kinds[k].yes, decisions[i].name);
            row(decisions[i].name, yes ? "right" : "wrong", text, decisions[i].check(bytes, strlen(text)) == yes);
        }
    }
}

/* What ends a text for others, or is passed over around it: a zero byte alone and with a letter behind it, blanks and
   ends of lines, U+FEFF, U+00A0, and a byte that is no UTF-8. Behind each stand how JSON writes it, and the functions
   that say yes of their right text with it in front and with it behind: a pattern may have any character (ECMA-262), a
   JSON pointer too (RFC 6901), JSON has blanks around it (RFC 8259), and both characters past ASCII stand in an IRI
   (RFC 3987), in a template (RFC 6570) and in a local part (RFC 6531). */
static const struct {
    const char *sign;
    size_t count;
    const char *shown, *before, *behind;
} signs[] = {
    {"\0", 1, "\\u0000", " regex ", " json_pointer relative_json_pointer regex "},
    {"\0a", 2, "\\u0000a", " regex ", " json_pointer relative_json_pointer regex "},
    {"\n", 1, "\\n", " json regex ", " json json_pointer relative_json_pointer regex "},
    {"\r\n", 2, "\\r\\n", " json regex ", " json json_pointer relative_json_pointer regex "},
    {" ", 1, " ", " json regex ", " json json_pointer relative_json_pointer regex "},
    {"\t", 1, "\\t", " json regex ", " json json_pointer relative_json_pointer regex "},
    {"\f", 1, "\\f", " regex ", " json_pointer relative_json_pointer regex "},
    {"\177", 1, "\177", " regex ", " json_pointer relative_json_pointer regex "},
    {"\357\273\277", 3, "\357\273\277", " iri_reference uri_template idn_email regex ",
        " iri iri_reference json_pointer relative_json_pointer uri_template regex "},
    {"\302\240", 2, "\302\240", " iri_reference uri_template idn_email regex ",
        " iri iri_reference json_pointer relative_json_pointer uri_template regex "},
    {"\377", 1, NULL, " ", " "},
};
enum { SIGNS = sizeof signs / sizeof *signs, LONGEST = 200 };

/* A text with a sign in front or behind, and its count of bytes. */
static size_t signed_text(char *out, const char *text, size_t sign, bool is_behind) {
    const size_t count = strlen(text), more = signs[sign].count;
    memcpy(out + (is_behind ? 0 : more), text, count);
    memcpy(out + (is_behind ? count : 0), signs[sign].sign, more);
    return count + more;
}

static void call_signs(void) {
    char text[LONGEST];
    for (size_t place = 0; place < 2 * SIGNS; place++) {
        const size_t sign = place / 2;
        const bool is_behind = place % 2 == 1;
        const char *yes = is_behind ? signs[sign].behind : signs[sign].before;
        for (size_t i = 0; i < sizeof formats / sizeof *formats; i++) {
            const size_t count = signed_text(text, formats[i].right, sign, is_behind);
            const bool is_right = says_yes(yes, formats[i].name);
            row(formats[i].name, is_right ? "right" : "wrong", "its right text with a sign at an end",
                formats[i].check(bytes_of(text, count), count) == is_right);
        }
        for (size_t i = 0; i < sizeof decisions / sizeof *decisions; i++) {
            const size_t count = signed_text(text, decisions[i].right, sign, is_behind);
            const bool is_right = says_yes(yes, decisions[i].name);
            row(decisions[i].name, is_right ? "right" : "wrong", "its right text with a sign at an end",
                decisions[i].check(bytes_of(text, count), count) == is_right);
        }
    }
}

/* strkw_answer on these requests, with room for so many bytes: what it answers, the count, and the bytes. */
static bool answers(const char *requests, size_t room, uint8_t status, size_t count, const char *wanted) {
    uint8_t *out = room_of(room);
    size_t written = 77;
    bool is_status = strkw_answer(text_of(requests), strlen(requests), out, room, &written) == status;
    bool is_whole = wanted == NULL ? !is_written(out, room) : memcmp(out, wanted, strlen(wanted)) == 0;
    return is_status && is_whole && written == count;
}

static void call_answer(void) {
    static const char *request = "{\"draft\":7,\"schema\":{\"format\":\"date\"},\"instance\":\"2024-02-29\"}\n";
    uint8_t *out = room_of(8);
    size_t written = 77;
    row("answer", "right", "a request", answers(request, 31, STRKW_DONE, 31, "valid\nnote /format: \"date\"\nend\n"));
    row("answer", "right", "no request", answers("", 0, STRKW_DONE, 0, NULL));
    row("answer", "wrong", "a line that is no request", answers("{}\n", 20, STRKW_DONE, 16, "bad request\nend\n"));
    row("answer", "refused", "too little room", answers("{}\n", 15, STRKW_NO_ROOM, 16, NULL));
    /* Only a line feed ends a line, and the last line may have none: a zero byte stands in one as others do. */
    static const char lines[] = "{\"draft\":7,\"schema\":{},\"instance\":0}\n"
                                "{\"draft\":7,\"schema\":{},\"instance\":0}\0\n\0\n"
                                "{\"draft\":7,\"schema\":{},\"instance\":0}";
    static const char *told = "valid\nend\nbad request\nend\nbad request\nend\nvalid\nend\n";
    uint8_t *lines_out = room_of(strlen(told));
    size_t lines_written = 77;
    row("answer", "right", "zero bytes in lines, and a last line without a line feed",
        strkw_answer(bytes_of(lines, sizeof lines - 1), sizeof lines - 1, lines_out, strlen(told), &lines_written)
                == STRKW_DONE
            && lines_written == strlen(told) && memcmp(lines_out, told, lines_written) == 0);
    row("answer", "wrong", "a last line that is no request", answers("{}", 16, STRKW_DONE, 16, "bad request\nend\n"));
    row("answer", "wrong", "an empty line", answers("\n", 16, STRKW_DONE, 16, "bad request\nend\n"));
    row("answer", "wrong", "blanks without a line feed", answers(" ", 16, STRKW_DONE, 16, "bad request\nend\n"));
    row("answer", "refused", "no room at all", answers("{}\n", 0, STRKW_NO_ROOM, 16, NULL));
    row("answer", "refused", "no room at all by NULL",
        strkw_answer(text_of("{}\n"), 3, NULL, 0, &lines_written) == STRKW_NO_ROOM && lines_written == 16);
    row("answer", "refused", "NULL and a count", strkw_answer(NULL, 3, out, 8, &written) == STRKW_NULL);
    row("answer", "refused", "no room", strkw_answer(text_of("{}"), 2, NULL, 8, &written) == STRKW_NULL);
    row("answer", "refused", "no count", strkw_answer(text_of("{}"), 2, out, 8, NULL) == STRKW_NULL);
    row("answer", "refused", "nothing was written", written == 77 && !is_written(out, 8));
}

static const char *MAIL = "{\"format\":\"email\"}", *IDN_HOST = "{\"format\":\"idn-hostname\"}";
/* JSON begins with no byte order mark (RFC 8259, section 2). */
static const char *MARKED = "\357\273\277{\"format\":\"date\"}";
static const char *IDN_MAIL = "{\"format\":\"idn-email\"}", *REGEX = "{\"format\":\"regex\"}";

static bool checks_between(uint32_t draft, uint32_t options, const char *schema, uint8_t status, const char *verdicts);

/* The same by strkw_schema_compile and strkw_schema_check. */
static bool checks_kept(uint32_t draft, uint32_t options, const char *schema, uint8_t status, const char *verdicts) {
    static const size_t ends[] = {10, 20, 21, 21, 21};
    strkw_schema *made = NULL;
    if (strkw_schema_compile(draft, options, text_of(schema), strlen(schema), &made) != status) return false;
    if (status != STRKW_DONE) return made == NULL;
    uint8_t *room = room_of(5);
    const uint8_t *texts = bytes_of("2024-02-292023-02-29\377", 21);
    uint8_t answer = strkw_schema_check(made, texts, 21, ends, 5, room, 5);
    strkw_schema_free(made);
    return answer == STRKW_DONE && memcmp(room, verdicts, 5) == 0;
}

/* strkw_check on five texts: a date, one that is none, one that is no UTF-8, and two empty ones. The calls with offsets
   and those by a kept schema have to answer alike. */
static bool checks(uint32_t draft, uint32_t options, const char *schema, uint8_t status, const char *verdicts) {
    static const size_t ends[] = {10, 20, 21, 21, 21};
    const void *ends_at_the_end = bytes_of((const char *)ends, sizeof ends);
    const uint8_t *texts = bytes_of("2024-02-292023-02-29\377", 21);
    uint8_t *room = room_of(5);
    uint8_t answer =
        strkw_check(draft, options, text_of(schema), strlen(schema), texts, 21, ends_at_the_end, 5, room, 5);
    return answer == status && (verdicts == NULL ? !is_written(room, 5) : memcmp(room, verdicts, 5) == 0)
        && checks_between(draft, options, schema, status, verdicts)
        && checks_kept(draft, options, schema, status, verdicts);
}

static bool checks_ends(size_t first, size_t second, size_t room, uint8_t status) {
    const size_t ends[] = {first, second};
    uint8_t *verdicts = room_of(room);
    strkw_schema *made = NULL;
    if (strkw_schema_compile(7, 0, text_of("{}"), 2, &made) != STRKW_DONE) return false;
    uint8_t *kept = room_of(room), answer = strkw_schema_check(made, text_of("ab"), 2, ends, 2, kept, room);
    strkw_schema_free(made);
    return strkw_check(7, 0, text_of("{}"), 2, text_of("ab"), 2, ends, 2, verdicts, room) == status && answer == status
        && is_written(verdicts, room) == (status == STRKW_DONE) && is_written(kept, room) == (status == STRKW_DONE);
}

/* The same texts between offsets of 64 bits and of 32, the first text behind a byte that is none of them. */
static bool checks_between(uint32_t draft, uint32_t options, const char *schema, uint8_t status, const char *verdicts) {
    static const size_t wide[] = {1, 11, 21, 22, 22, 22};
    static const uint32_t narrow[] = {1, 11, 21, 22, 22, 22};
    const void *wide_at_the_end = bytes_of((const char *)wide, sizeof wide);
    const void *narrow_at_the_end = bytes_of((const char *)narrow, sizeof narrow);
    const uint8_t *object = text_of(schema), *texts = bytes_of("22024-02-292023-02-29\377", 22);
    const size_t count = strlen(schema);
    uint8_t *room = room_of(5), *room32 = room_of(5);
    if (strkw_check_offsets(draft, options, object, count, texts, 22, wide_at_the_end, 6, room, 5) != status)
        return false;
    if (strkw_check_offsets32(draft, options, object, count, texts, 22, narrow_at_the_end, 6, room32, 5) != status)
        return false;
    if (verdicts == NULL) return !is_written(room, 5) && !is_written(room32, 5);
    return memcmp(room, verdicts, 5) == 0 && memcmp(room32, verdicts, 5) == 0;
}

/* Two calls on the texts of `ab` between three offsets. */
static bool checks_offsets(uint32_t first, uint32_t second, uint32_t third, size_t room, uint8_t status) {
    const size_t wide[] = {first, second, third};
    const uint32_t narrow[] = {first, second, third};
    uint8_t *verdicts = room_of(room), *verdicts32 = room_of(room);
    return strkw_check_offsets(7, 0, text_of("{}"), 2, text_of("ab"), 2, wide, 3, verdicts, room) == status
        && strkw_check_offsets32(7, 0, text_of("{}"), 2, text_of("ab"), 2, narrow, 3, verdicts32, room) == status
        && is_written(verdicts, room) == (status == STRKW_DONE)
        && is_written(verdicts32, room) == (status == STRKW_DONE);
}

/* What both calls answer of these pointers and counts, or 99 where they differ. */
static uint8_t between(const uint8_t *schema, const uint8_t *texts, size_t count, bool has_offsets, size_t offsets,
                       uint8_t *verdicts, size_t room) {
    static const size_t wide[] = {0, 2};
    static const uint32_t narrow[] = {0, 2};
    const size_t *of_64 = has_offsets ? wide : NULL;
    const uint32_t *of_32 = has_offsets ? narrow : NULL;
    uint8_t answer = strkw_check_offsets(7, 0, schema, 2, texts, count, of_64, offsets, verdicts, room);
    uint8_t other = strkw_check_offsets32(7, 0, schema, 2, texts, count, of_32, offsets, verdicts, room);
    return answer == other ? answer : 99;
}

/* A row of both functions. */
static void row_between(const char *kind, const char *what, bool holds) {
    row("check_offsets", kind, what, holds);
    row("check_offsets32", kind, what, holds);
}

static void call_check_offsets(void) {
    static const char *date = "{\"format\":\"date\"}";
    static const size_t past[] = {3};
    static const uint32_t past32[] = {3};
    const uint8_t *object = text_of("{}"), *ab = text_of("ab");
    uint8_t *out = room_of(1);
    row_between("right", "dates", checks_between(7, 0, date, STRKW_DONE, "\1\0\2\0\0"));
    row_between("wrong", "texts that are too short",
        checks_between(4, 0, "{\"minLength\":11}", STRKW_DONE, "\0\0\2\0\0"));
    row_between("refused", "draft 5", checks_between(5, 0, date, STRKW_NO_DRAFT, NULL));
    row_between("refused", "option 8", checks_between(7, 8, date, STRKW_NO_OPTION, NULL));
    row_between("refused", "draft 5 and option 8", checks_between(5, 8, date, STRKW_NO_DRAFT, NULL));
    row_between("refused", "option 8 and no object", checks_between(7, 8, "[]", STRKW_NO_OPTION, NULL));
    row_between("refused", "no object", checks_between(7, 0, "[]", STRKW_NO_SCHEMA, NULL));
    row_between("refused", "a limit that is none", checks_between(7, 0, "{\"maxLength\":-1}", STRKW_REFUSED, NULL));
    row_between("right", "two texts", checks_offsets(0, 1, 2, 2, STRKW_DONE));
    row_between("right", "two empty texts at the end", checks_offsets(2, 2, 2, 2, STRKW_DONE));
    row_between("refused", "offsets that fall", checks_offsets(0, 2, 1, 2, STRKW_NO_ROOM));
    row_between("refused", "a first offset that is more", checks_offsets(1, 0, 2, 2, STRKW_NO_ROOM));
    row_between("refused", "an offset past the texts", checks_offsets(0, 1, 3, 2, STRKW_NO_ROOM));
    row_between("refused", "offsets past the texts", checks_offsets(3, 3, 3, 2, STRKW_NO_ROOM));
    row_between("refused", "a number below 0", checks_offsets(0, (uint32_t)-1, (uint32_t)-1, 2, STRKW_NO_ROOM));
    row_between("refused", "room for one verdict", checks_offsets(0, 1, 2, 1, STRKW_NO_ROOM));
    row_between("refused", "room for three verdicts", checks_offsets(0, 1, 2, 3, STRKW_NO_ROOM));
    row_between("right", "one offset and no text", between(object, ab, 2, true, 1, NULL, 0) == STRKW_DONE);
    row("check_offsets", "refused", "one offset past the texts",
        strkw_check_offsets(7, 0, object, 2, ab, 2, past, 1, NULL, 0) == STRKW_NO_ROOM);
    row("check_offsets32", "refused", "one offset past the texts",
        strkw_check_offsets32(7, 0, object, 2, ab, 2, past32, 1, NULL, 0) == STRKW_NO_ROOM);
    row_between("refused", "a byte order mark before the object",
        checks_between(7, 0, MARKED, STRKW_NO_SCHEMA, NULL));
    row_between("refused", "no bytes of an object", checks_between(7, 0, "", STRKW_NO_SCHEMA, NULL));
    row_between("refused", "no offset", between(object, ab, 2, false, 0, NULL, 0) == STRKW_NO_ROOM);
    row_between("refused", "no schema", between(NULL, ab, 2, true, 2, out, 1) == STRKW_NULL);
    row_between("refused", "no texts", between(object, NULL, 2, true, 2, out, 1) == STRKW_NULL);
    row_between("refused", "no offsets", between(object, ab, 2, false, 2, out, 1) == STRKW_NULL);
    row_between("refused", "no verdicts", between(object, ab, 2, true, 2, NULL, 1) == STRKW_NULL);
}

static void call_check(void) {
    static const char *date = "{\"format\":\"date\"}", *other = "{\"format\":\"no-format\"}";
    static const uint32_t as_draft = STRKW_FORMATS_AS_DRAFT, ignored = STRKW_IGNORE_UNKNOWN_FORMATS;
    static const uint32_t companions = STRKW_COMPANION_FORMATS;
    static const size_t ends[] = {2};
    const uint8_t *object = text_of("{}");
    uint8_t *out = room_of(1);
    row("check", "right", "dates", checks(7, 0, date, STRKW_DONE, "\1\0\2\0\0"));
    row("check", "right", "dates that are noted", checks(202012, as_draft, date, STRKW_DONE, "\1\1\2\1\1"));
    row("check", "right", "a format that is ignored", checks(7, ignored, other, STRKW_DONE, "\1\1\2\1\1"));
    row("check", "wrong", "texts that are too short", checks(4, 0, "{\"minLength\":11}", STRKW_DONE, "\0\0\2\0\0"));
    row("check", "refused", "draft 5", checks(5, 0, date, STRKW_NO_DRAFT, NULL));
    row("check", "wrong", "mail addresses", checks(4, companions, MAIL, STRKW_DONE, "\0\0\2\0\0"));
    row("check", "wrong", "internationalised mail addresses",
        checks(7, companions, IDN_MAIL, STRKW_DONE, "\0\0\2\0\0"));
    row("check", "refused", "internationalised mail addresses in draft 6",
        checks(6, companions, IDN_MAIL, STRKW_REFUSED, NULL));
    row("check", "refused", "host names in draft 6", checks(6, companions, IDN_HOST, STRKW_REFUSED, NULL));
    row("check", "refused", "mail addresses with no option", checks(4, 0, MAIL, STRKW_REFUSED, NULL));
    row("check", "right", "patterns", checks(4, companions, REGEX, STRKW_DONE, "\1\1\2\1\1"));
    row("check", "refused", "patterns with no option", checks(4, 0, REGEX, STRKW_REFUSED, NULL));
    row("check", "right", "an unknown format that is ignored, beside mail addresses",
        checks(7, companions | ignored, other, STRKW_DONE, "\1\1\2\1\1"));
    row("check", "wrong", "mail addresses, beside unknown formats that are ignored",
        checks(7, companions | ignored, MAIL, STRKW_DONE, "\0\0\2\0\0"));
    row("check", "right", "mail addresses that are noted",
        checks(202012, companions | as_draft, MAIL, STRKW_DONE, "\1\1\2\1\1"));
    row("check", "right", "an unknown format, with each option",
        checks(202012, companions | as_draft | ignored, other, STRKW_DONE, "\1\1\2\1\1"));
    row("check", "right", "mail addresses that are noted, with each option",
        checks(202012, companions | as_draft | ignored, MAIL, STRKW_DONE, "\1\1\2\1\1"));
    row("check", "refused", "option 8", checks(7, 8, date, STRKW_NO_OPTION, NULL));
    row("check", "refused", "draft 5 and option 8", checks(5, 8, date, STRKW_NO_DRAFT, NULL));
    row("check", "refused", "option 8 and no object", checks(7, 8, "[]", STRKW_NO_OPTION, NULL));
    row("check", "refused", "no object", checks(7, 0, "[]", STRKW_NO_SCHEMA, NULL));
    row("check", "refused", "no JSON", checks(7, 0, "{", STRKW_NO_SCHEMA, NULL));
    /* The bytes are JSON (RFC 8259) as serde_json reads it: nothing stands behind the object, no name is left bare. */
    row("check", "right", "blanks around an object",
        checks(7, 0, " \t\r\n{} \n", STRKW_DONE, "\1\1\2\1\1"));
    row("check", "right", "a member that stands twice, of which the last counts",
        checks(7, 0, "{\"minLength\":99,\"minLength\":0}", STRKW_DONE, "\1\1\2\1\1"));
    row("check", "right", "the same by an escape",
        checks(7, 0, "{\"minLength\":99,\"min\\u004cength\":0}", STRKW_DONE, "\1\1\2\1\1"));
    row("check", "right", "members of other names",
        checks(7, 0, "{\"\":{},\"a\\u0000b\":[null,1e308,-0.0]}", STRKW_DONE, "\1\1\2\1\1"));
    row("check", "refused", "an object and more", checks(7, 0, "{}{}", STRKW_NO_SCHEMA, NULL));
    row("check", "refused", "an object and a comma", checks(7, 0, "{},", STRKW_NO_SCHEMA, NULL));
    row("check", "refused", "an object and a letter", checks(7, 0, "{} x", STRKW_NO_SCHEMA, NULL));
    row("check", "refused", "an object and a form feed", checks(7, 0, "{}\f", STRKW_NO_SCHEMA, NULL));
    row("check", "refused", "a comma behind a member", checks(7, 0, "{\"maxLength\":1,}", STRKW_NO_SCHEMA, NULL));
    row("check", "refused", "apostrophes", checks(7, 0, "{'maxLength':1}", STRKW_NO_SCHEMA, NULL));
    row("check", "refused", "a name without quotes", checks(7, 0, "{maxLength:1}", STRKW_NO_SCHEMA, NULL));
    row("check", "refused", "a comment", checks(7, 0, "{}//", STRKW_NO_SCHEMA, NULL));
    row("check", "refused", "a number that is out of range", checks(7, 0, "{\"x\":1e400}", STRKW_NO_SCHEMA, NULL));
    row("check", "refused", "half of a surrogate pair", checks(7, 0, "{\"x\":\"\\ud800\"}", STRKW_NO_SCHEMA, NULL));
    row("check", "refused", "a byte that is no UTF-8", checks(7, 0, "{\"x\":\"\377\"}", STRKW_NO_SCHEMA, NULL));
    row("check", "refused", "an end of a line in a text", checks(7, 0, "{\"x\":\"\n\"}", STRKW_NO_SCHEMA, NULL));
    row("check", "refused", "no number", checks(7, 0, "{\"x\":NaN}", STRKW_NO_SCHEMA, NULL));
    row("check", "refused", "no bytes", checks(7, 0, "", STRKW_NO_SCHEMA, NULL));
    row("check", "refused", "a text", checks(7, 0, "\"{}\"", STRKW_NO_SCHEMA, NULL));
    row("check", "refused", "null", checks(7, 0, "null", STRKW_NO_SCHEMA, NULL));
    row("check", "refused", "true", checks(7, 0, "true", STRKW_NO_SCHEMA, NULL));
    row("check", "refused", "a number", checks(7, 0, "1", STRKW_NO_SCHEMA, NULL));
    row("check", "refused", "an object in an array", checks(7, 0, "[{}]", STRKW_NO_SCHEMA, NULL));
    row("check", "refused", "no bytes of an object", checks(7, 0, "", STRKW_NO_SCHEMA, NULL));
    row("check", "refused", "a byte order mark before the object", checks(7, 0, MARKED, STRKW_NO_SCHEMA, NULL));
    row("check", "refused", "an unknown format that is not ignored, where the draft says whether formats are checked",
        checks(7, as_draft, other, STRKW_REFUSED, NULL));
    row("check", "right", "an unknown format that is ignored, where the draft says whether formats are checked",
        checks(7, as_draft | ignored, other, STRKW_DONE, "\1\1\2\1\1"));
    row("check", "right", "an unknown format that is not checked", checks(201909, as_draft, other, STRKW_DONE,
        "\1\1\2\1\1"));
    row("check", "refused", "an unknown format", checks(7, 0, other, STRKW_REFUSED, NULL));
    row("check", "refused", "a limit that is none", checks(7, 0, "{\"maxLength\":-1}", STRKW_REFUSED, NULL));
    row("check", "right", "two texts", checks_ends(1, 2, 2, STRKW_DONE));
    row("check", "refused", "ends that fall", checks_ends(2, 1, 2, STRKW_NO_ROOM));
    row("check", "refused", "an end past the texts", checks_ends(1, 3, 2, STRKW_NO_ROOM));
    row("check", "refused", "room for one verdict", checks_ends(1, 2, 1, STRKW_NO_ROOM));
    row("check", "refused", "room for three verdicts", checks_ends(1, 2, 3, STRKW_NO_ROOM));
    row("check", "refused", "other room, draft 5",
        strkw_check(5, 8, object, 2, object, 2, ends, 1, out, 0) == STRKW_NO_ROOM);
    row("check", "refused", "no schema, no room", strkw_check(5, 8, NULL, 2, object, 2, ends, 1, out, 0) == STRKW_NULL);
    row("check", "refused", "no schema", strkw_check(7, 0, NULL, 2, object, 2, ends, 1, out, 1) == STRKW_NULL);
    row("check", "refused", "no texts", strkw_check(7, 0, object, 2, NULL, 2, ends, 1, out, 1) == STRKW_NULL);
    row("check", "refused", "no ends", strkw_check(7, 0, object, 2, object, 2, NULL, 1, out, 1) == STRKW_NULL);
    row("check", "refused", "no verdicts", strkw_check(7, 0, object, 2, object, 2, ends, 1, NULL, 1) == STRKW_NULL);
    row("check", "right", "no texts are none", strkw_check(7, 0, object, 2, NULL, 0, NULL, 0, NULL, 0) == STRKW_DONE);
}

/* strkw_refusal of a schema object of draft 7, with room for so many bytes. */
static bool tells(uint32_t draft, uint32_t options, const char *schema, size_t room, uint8_t status, size_t count,
                  const char *wanted) {
    uint8_t *out = room_of(room);
    size_t written = 77;
    bool is_status = strkw_refusal(draft, options, text_of(schema), strlen(schema), out, room, &written) == status;
    bool is_whole = wanted == NULL ? !is_written(out, room) : memcmp(out, wanted, strlen(wanted)) == 0;
    return is_status && is_whole && written == count;
}

static void call_refusal(void) {
    static const char *pattern = "{\"pattern\":\"(a|b)c\\\\1\"}";
    static const char *why = "/pattern: the pattern \"(a|b)c\\\\1\" is not taken: "
                             "it has a back reference";
    /* The name has U+000A, U+0009 and U+007F. */
    static const char *unknown = "{\"format\":\"a\\nb\\tc\\u007f\"}";
    static const char *as_it_is = "/format: Unknown format: 'a\nb\tc\177'. "
                                  "Adjust configuration to ignore unrecognized formats";
    const size_t count = strlen(why), named = strlen(as_it_is);
    const uint8_t *object = text_of("{}");
    uint8_t *out = room_of(1);
    size_t written = 77;
    row("refusal", "right", "no refusal", tells(7, 0, "{\"maxLength\":1}", 9, STRKW_DONE, 0, NULL));
    row("refusal", "wrong", "a pattern", tells(7, 0, pattern, count, STRKW_REFUSED, count, why));
    row("refusal", "wrong", "a pattern, and more room", tells(7, 0, pattern, 99, STRKW_REFUSED, count, why));
    row("refusal", "wrong", "the name of an unknown format stands as it is",
        tells(7, 0, unknown, named, STRKW_REFUSED, named, as_it_is));
    row("refusal", "refused", "too little room", tells(7, 0, pattern, count - 1, STRKW_NO_ROOM, count, NULL));
    row("refusal", "refused", "draft 5", tells(5, 0, pattern, 99, STRKW_NO_DRAFT, 77, NULL));
    row("refusal", "refused", "option 8", tells(7, 8, pattern, 99, STRKW_NO_OPTION, 77, NULL));
    row("refusal", "refused", "draft 5 and option 8", tells(5, 8, pattern, 99, STRKW_NO_DRAFT, 77, NULL));
    row("refusal", "refused", "option 8 and no object", tells(7, 8, "[]", 99, STRKW_NO_OPTION, 77, NULL));
    row("refusal", "refused", "no object, no room", tells(7, 0, "[]", 0, STRKW_NO_SCHEMA, 77, NULL));
    row("refusal", "refused", "no object", tells(7, 0, "[]", 99, STRKW_NO_SCHEMA, 77, NULL));
    row("refusal", "refused", "a byte order mark before the object",
        tells(7, 0, MARKED, 99, STRKW_NO_SCHEMA, 77, NULL));
    row("refusal", "refused", "no schema", strkw_refusal(7, 0, NULL, 2, out, 1, &written) == STRKW_NULL);
    row("refusal", "refused", "no room", strkw_refusal(7, 0, object, 2, NULL, 1, &written) == STRKW_NULL);
    row("refusal", "refused", "no count", strkw_refusal(7, 0, object, 2, out, 1, NULL) == STRKW_NULL);
    row("refusal", "refused", "nothing was written", written == 77 && !is_written(out, 1));
}

/* strkw_schema_errors of a text by a schema object that is compiled, with room for so many bytes. */
static bool writes_kept(uint32_t draft, uint32_t options, const char *schema, const char *text, size_t room,
                        uint8_t status, size_t count, const char *wanted) {
    strkw_schema *made = NULL;
    uint8_t *out = room_of(room);
    size_t written = 77;
    if (strkw_schema_compile(draft, options, text_of(schema), strlen(schema), &made) != STRKW_DONE) return false;
    uint8_t answer = strkw_schema_errors(made, text_of(text), strlen(text), out, room, &written);
    strkw_schema_free(made);
    bool is_whole = wanted == NULL ? !is_written(out, room) : memcmp(out, wanted, strlen(wanted)) == 0;
    return answer == status && is_whole && written == count;
}

/* strkw_errors of a text by a schema object, with room for so many bytes. Where the object is compiled,
   strkw_schema_errors has to answer alike. */
static bool writes(uint32_t draft, uint32_t options, const char *schema, const char *text, size_t room, uint8_t status,
                   size_t count, const char *wanted) {
    uint8_t *out = room_of(room);
    size_t written = 77;
    uint8_t answer = strkw_errors(draft, options, text_of(schema), strlen(schema), text_of(text), strlen(text), out,
                                  room, &written);
    bool is_whole = wanted == NULL ? !is_written(out, room) : memcmp(out, wanted, strlen(wanted)) == 0;
    strkw_schema *made = NULL;
    bool is_compiled =
        strkw_schema_compile(draft, options, text_of(schema), strlen(schema), &made) == STRKW_DONE;
    strkw_schema_free(made);
    return answer == status && is_whole && written == count
        && (!is_compiled || writes_kept(draft, options, schema, text, room, status, count, wanted));
}

static const char *DATE = "{\"format\":\"date\"}", *NO_FORMAT = "{\"format\":\"no-format\"}";
static const char *NOTED = "note /format: \"date\"\n";
static const char *WRONG = "error /format: \"2023-02-29\" is not a \"date\"\nnote /format: \"date\"\n";

/* A pattern with U+0000, U+0009, U+000A, U+001F and U+007F. */
static const char *CONTROLS = "{\"pattern\":\"^a\\u0000\\tb\\n\\u001fc\\u007f\"}";
static const char *NO_CONTROLS = "error /pattern: \"x\" does not match \"^a  b  c\177\"\n";
static const char *NO_MAIL = "error /format: \"ada\" is not a \"email\"\nnote /format: \"email\"\n";
static const char *NO_REGEX = "error /format: \"(\" is not a \"regex\"\nnote /format: \"regex\"\n";
static const char *HOST = "note /format: \"idn-hostname\"\n", *NOTED_MAIL = "note /format: \"idn-email\"\n";

static void call_errors(void) {
    const size_t noted = strlen(NOTED), wrong = strlen(WRONG), no_mail = strlen(NO_MAIL), host = strlen(HOST);
    const size_t mail = strlen(NOTED_MAIL), no_regex = strlen(NO_REGEX), no_controls = strlen(NO_CONTROLS);
    const uint32_t companions = STRKW_COMPANION_FORMATS;
    const uint8_t *object = text_of("{}");
    uint8_t *out = room_of(1);
    size_t written = 77;
    row("errors", "right", "a date", writes(7, 0, DATE, "2024-02-29", noted, STRKW_DONE, noted, NOTED));
    row("errors", "right", "nothing to write", writes(7, 0, "{}", "a", 0, STRKW_DONE, 0, NULL));
    row("errors", "wrong", "no date", writes(7, 0, DATE, "2023-02-29", wrong, STRKW_DONE, wrong, WRONG));
    row("errors", "wrong", "a space for each character below U+0020",
        writes(7, 0, CONTROLS, "x", no_controls, STRKW_DONE, no_controls, NO_CONTROLS));
    row("errors", "wrong", "no mail address",
        writes(7, companions, MAIL, "ada", no_mail, STRKW_DONE, no_mail, NO_MAIL));
    row("errors", "wrong", "no pattern", writes(7, companions, REGEX, "(", no_regex, STRKW_DONE, no_regex, NO_REGEX));
    row("errors", "right", "an internationalised mail address",
        writes(7, companions, IDN_MAIL, "j\303\274rgen@b\303\274cher.example", mail, STRKW_DONE, mail, NOTED_MAIL));
    row("errors", "right", "a host name",
        writes(7, companions, IDN_HOST, "b\303\274cher.example", host, STRKW_DONE, host, HOST));
    row("errors", "refused", "too little room",
        writes(7, 0, DATE, "2023-02-29", wrong - 1, STRKW_NO_ROOM, wrong, NULL));
    row("errors", "refused", "draft 5", writes(5, 0, DATE, "a", 99, STRKW_NO_DRAFT, 77, NULL));
    row("errors", "refused", "option 8", writes(7, 8, DATE, "a", 99, STRKW_NO_OPTION, 77, NULL));
    row("errors", "refused", "no UTF-8", writes(7, 0, DATE, "\377", 99, STRKW_NOT_UTF8, 77, NULL));
    row("errors", "refused", "draft 5 and option 8", writes(5, 8, DATE, "a", 99, STRKW_NO_DRAFT, 77, NULL));
    row("errors", "refused", "option 8 and no UTF-8", writes(7, 8, DATE, "\377", 99, STRKW_NO_OPTION, 77, NULL));
    row("errors", "refused", "no UTF-8 and no object", writes(7, 0, "[]", "\377", 99, STRKW_NOT_UTF8, 77, NULL));
    row("errors", "refused", "an unknown format, no room", writes(7, 0, NO_FORMAT, "a", 0, STRKW_REFUSED, 77, NULL));
    row("errors", "refused", "no object", writes(7, 0, "[]", "a", 99, STRKW_NO_SCHEMA, 77, NULL));
    row("errors", "refused", "a byte order mark before the object",
        writes(7, 0, MARKED, "a", 99, STRKW_NO_SCHEMA, 77, NULL));
    row("errors", "refused", "an unknown format", writes(7, 0, NO_FORMAT, "a", 99, STRKW_REFUSED, 77, NULL));
    row("errors", "refused", "no schema", strkw_errors(7, 0, NULL, 2, object, 2, out, 1, &written) == STRKW_NULL);
    row("errors", "refused", "no text", strkw_errors(7, 0, object, 2, NULL, 2, out, 1, &written) == STRKW_NULL);
    row("errors", "refused", "no room", strkw_errors(7, 0, object, 2, object, 2, NULL, 1, &written) == STRKW_NULL);
    row("errors", "refused", "no count", strkw_errors(7, 0, object, 2, object, 2, out, 1, NULL) == STRKW_NULL);
    row("errors", "refused", "nothing was written", written == 77 && !is_written(out, 1));
}

/* Formats with the first draft that has each, as docs/CALLING.md tells, and whether it is a companion. No draft has the
   last. */
static const struct {
    const char *schema;
    uint32_t first;
    bool is_companion;
} known[] = {
    {"{\"format\":\"date\"}", 4, false},           {"{\"format\":\"uri-reference\"}", 6, false},
    {"{\"format\":\"iri\"}", 7, false},            {"{\"format\":\"uuid\"}", 201909, false},
    {"{\"format\":\"email\"}", 4, true},           {"{\"format\":\"regex\"}", 4, true},
    {"{\"format\":\"idn-email\"}", 7, true},       {"{\"format\":\"idn-hostname\"}", 7, true},
    {"{\"format\":\"no-format\"}", 999999, false},
};

/* Whether each function that takes a schema object has this status for it, and this verdict on a text of no format. */
static bool all_answer(uint32_t draft, uint32_t options, const char *schema, uint8_t status, uint8_t verdict) {
    static const uint8_t text[] = {'(', ' '};
    static const size_t ends[] = {2}, wide[] = {0, 2};
    static const uint32_t narrow[] = {0, 2};
    const uint8_t *object = (const uint8_t *)schema;
    const size_t count = strlen(schema);
    const bool done = status == STRKW_DONE;
    uint8_t verdicts[] = {7, 7, 7, 7}, lines[99] = {0}, kept[99] = {0}, why[199];
    size_t written = 77, written_kept = 77, told = 77;
    strkw_schema *made = NULL;
    bool right = strkw_check(draft, options, object, count, text, 2, ends, 1, verdicts, 1) == status
        && strkw_check_offsets(draft, options, object, count, text, 2, wide, 2, verdicts + 1, 1) == status
        && strkw_check_offsets32(draft, options, object, count, text, 2, narrow, 2, verdicts + 2, 1) == status
        && strkw_errors(draft, options, object, count, text, 2, lines, sizeof lines, &written) == status
        && strkw_refusal(draft, options, object, count, why, sizeof why, &told) == status
        && strkw_schema_compile(draft, options, object, count, &made) == status && (made != NULL) == done;
    if (made != NULL)
        right = right && strkw_schema_check(made, text, 2, ends, 1, verdicts + 3, 1) == STRKW_DONE
            && strkw_schema_errors(made, text, 2, kept, sizeof kept, &written_kept) == STRKW_DONE;
    strkw_schema_free(made);
    for (size_t i = 0; i < 4; i++) right = right && verdicts[i] == (done ? verdict : 7);
    const bool has_error = memcmp(lines, "error /format: ", 15) == 0;
    return right && written == written_kept && memcmp(lines, kept, sizeof lines) == 0
        && has_error == (done && verdict == 0) && (told == 0) == done;
}

static void call_options(void) {
    static const uint32_t drafts[] = {4, 6, 7, 201909, 202012};
    row("check", "right", "the numbers of options and statuses, as docs/CALLING.md has them",
        STRKW_FORMATS_AS_DRAFT == 1 && STRKW_IGNORE_UNKNOWN_FORMATS == 2 && STRKW_COMPANION_FORMATS == 4
            && STRKW_DONE == 0 && STRKW_OUT_OF_MEMORY == 1 && STRKW_NO_ROOM == 2 && STRKW_NO_DRAFT == 3
            && STRKW_NO_SCHEMA == 4 && STRKW_REFUSED == 5 && STRKW_NO_OPTION == 6 && STRKW_NULL == 7
            && STRKW_NOT_UTF8 == 8);
    for (size_t d = 0; d < sizeof drafts / sizeof *drafts; d++)
        for (uint32_t options = 0; options < 8; options++)
            for (size_t k = 0; k < sizeof known / sizeof *known; k++) {
                const bool is_checked = (options & STRKW_FORMATS_AS_DRAFT) == 0 || drafts[d] <= 7;
                const bool is_known = known[k].first <= drafts[d]
                    && (!known[k].is_companion || (options & STRKW_COMPANION_FORMATS) != 0);
                const bool is_refused = is_checked && !is_known && (options & STRKW_IGNORE_UNKNOWN_FORMATS) == 0;
                const uint8_t verdict = is_checked && is_known ? 0 : 1;
                const uint8_t status = is_refused ? STRKW_REFUSED : STRKW_DONE;
                row("check", verdict == 1 ? "right" : "wrong", known[k].schema,
                    all_answer(drafts[d], options, known[k].schema, status, verdict));
            }
}

/* Whether each function that takes a schema object has this status for these bytes. */
static bool all_say(const char *schema, size_t count, uint8_t status) {
    static const size_t ends[] = {1}, wide[] = {0, 1};
    static const uint32_t narrow[] = {0, 1};
    const uint8_t *object = bytes_of(schema, count), *text = text_of("a");
    uint8_t verdict = 7, out[LONGEST];
    size_t written = 77;
    strkw_schema *made = NULL;
    bool holds = strkw_check(7, 0, object, count, text, 1, ends, 1, &verdict, 1) == status
        && strkw_check_offsets(7, 0, object, count, text, 1, wide, 2, &verdict, 1) == status
        && strkw_check_offsets32(7, 0, object, count, text, 1, narrow, 2, &verdict, 1) == status
        && strkw_refusal(7, 0, object, count, out, sizeof out, &written) == status
        && strkw_errors(7, 0, object, count, text, 1, out, sizeof out, &written) == status
        && strkw_schema_compile(7, 0, object, count, &made) == status && (made != NULL) == (status == STRKW_DONE);
    strkw_schema_free(made);
    return holds;
}

/* Whether all calls with a text ask a date of the whole of it: they tell a verdict, or write these lines. */
static bool all_ask(const char *text, size_t count, uint8_t verdict, const char *wanted) {
    const size_t ends[] = {count}, wide[] = {0, count};
    const uint32_t narrow[] = {0, (uint32_t)count};
    const uint8_t *object = text_of("{\"format\":\"date\"}"), *bytes = bytes_of(text, count);
    uint8_t verdicts[] = {7, 7, 7, 7}, lines[LONGEST], kept[LONGEST];
    size_t written = 77, written_kept = 77;
    strkw_schema *made = NULL;
    if (strkw_schema_compile(7, 0, object, 17, &made) != STRKW_DONE) return false;
    bool holds = strkw_check(7, 0, object, 17, bytes, count, ends, 1, verdicts, 1) == STRKW_DONE
        && strkw_check_offsets(7, 0, object, 17, bytes, count, wide, 2, verdicts + 1, 1) == STRKW_DONE
        && strkw_check_offsets32(7, 0, object, 17, bytes, count, narrow, 2, verdicts + 2, 1) == STRKW_DONE
        && strkw_schema_check(made, bytes, count, ends, 1, verdicts + 3, 1) == STRKW_DONE;
    for (size_t i = 0; i < 4; i++) holds = holds && verdicts[i] == verdict;
    uint8_t status = strkw_errors(7, 0, object, 17, bytes, count, lines, sizeof lines, &written);
    uint8_t other = strkw_schema_errors(made, bytes, count, kept, sizeof kept, &written_kept);
    strkw_schema_free(made);
    if (wanted == NULL) return holds && status == STRKW_NOT_UTF8 && other == STRKW_NOT_UTF8;
    return holds && status == STRKW_DONE && other == STRKW_DONE && written == strlen(wanted)
        && written_kept == written && memcmp(lines, wanted, written) == 0 && memcmp(kept, wanted, written) == 0;
}

/* Texts and schema objects with a sign in front or behind: all of it counts, in each call. */
static void call_signed(void) {
    char text[LONGEST], wanted[LONGEST];
    for (size_t place = 0; place < 2 * SIGNS; place++) {
        const size_t sign = place / 2;
        const bool is_behind = place % 2 == 1;
        const char *shown = signs[sign].shown, *before = is_behind ? "" : shown, *behind = is_behind ? shown : "";
        const size_t count = signed_text(text, "2024-02-29", sign, is_behind);
        if (shown != NULL)
            snprintf(wanted, sizeof wanted, "error /format: \"%s2024-02-29%s\" is not a \"date\"\n%s", before, behind,
                NOTED);
        row("errors", "wrong", "a date with a sign at an end",
            all_ask(text, count, shown != NULL ? 0 : 2, shown != NULL ? wanted : NULL));
        const bool is_blank = says_yes(signs[sign].behind, "is_json");
        const size_t size = signed_text(text, "{\"maxLength\":1}", sign, is_behind);
        row("errors", is_blank ? "right" : "refused", "an object with a sign at an end",
            all_say(text, size, is_blank ? STRKW_DONE : STRKW_NO_SCHEMA));
    }
    row("errors", "right", "a date", all_ask("2024-02-29", 10, 1, NOTED));
    /* One offset alone bounds no text, wherever in the bytes it is. */
    for (uint32_t offset = 0; offset < 4; offset++) {
        const size_t wide[] = {offset};
        const uint32_t narrow[] = {offset};
        const uint8_t status = offset <= 2 ? STRKW_DONE : STRKW_NO_ROOM;
        const uint8_t *object = text_of("{}"), *ab = text_of("ab");
        row_between(offset <= 2 ? "right" : "refused", "one offset",
            strkw_check_offsets(7, 0, object, 2, ab, 2, wide, 1, NULL, 0) == status
                && strkw_check_offsets32(7, 0, object, 2, ab, 2, narrow, 1, NULL, 0) == status);
    }
    /* With no room at all the count is told too. */
    const size_t wrong = strlen(WRONG);
    size_t written = 77;
    row("errors", "refused", "no room at all", writes(7, 0, DATE, "2023-02-29", 0, STRKW_NO_ROOM, wrong, NULL));
    row("errors", "refused", "no room at all by NULL",
        strkw_errors(7, 0, text_of(DATE), strlen(DATE), text_of("2023-02-29"), 10, NULL, 0, &written) == STRKW_NO_ROOM
            && written == wrong);
    static const char *none = "/maxLength: the limit is not a non-negative whole number of 64 bits";
    row("refusal", "refused", "no room at all",
        tells(7, 0, "{\"maxLength\":-1}", 0, STRKW_NO_ROOM, strlen(none), NULL));
    row("refusal", "refused", "no room at all by NULL",
        strkw_refusal(7, 0, text_of("{\"maxLength\":-1}"), 16, NULL, 0, &written) == STRKW_NO_ROOM
            && written == strlen(none));
    row("refusal", "refused", "just as much room",
        tells(7, 0, "{\"maxLength\":-1}", strlen(none), STRKW_REFUSED, strlen(none), none));
}

/* strkw_schema_compile, and whether it made nothing: the place for it is as it was. */
static bool makes_none(uint32_t draft, uint32_t options, const char *schema, uint8_t status) {
    strkw_schema *none = NULL, *other = (strkw_schema *)&lists;
    const size_t count = strlen(schema);
    return strkw_schema_compile(draft, options, text_of(schema), count, &none) == status && none == NULL
        && strkw_schema_compile(draft, options, text_of(schema), count, &other) == status
        && other == (strkw_schema *)&lists;
}

/* strkw_schema_check on a date and a text that is none, and strkw_schema_errors on one of them. */
static bool checks_by(const strkw_schema *schema, const char *verdicts) {
    static const size_t ends[] = {10, 20};
    uint8_t *room = room_of(2);
    return strkw_schema_check(schema, text_of("2024-02-292023-02-29"), 20, ends, 2, room, 2) == STRKW_DONE
        && memcmp(room, verdicts, 2) == 0;
}

static bool writes_by(const strkw_schema *schema, const char *text, const char *wanted) {
    uint8_t *out = room_of(99);
    size_t written = 77;
    return strkw_schema_errors(schema, text_of(text), strlen(text), out, 99, &written) == STRKW_DONE
        && written == strlen(wanted) && memcmp(out, wanted, written) == 0;
}

/* The functions by a kept schema with a NULL for each pointer in turn: with a count of 0 it is an empty one, and with
   another count it is refused, and nothing is written. */
static void call_schemas_with_null(const strkw_schema *date, const strkw_schema *any) {
    static const size_t one[] = {1}, none[] = {0};
    const uint8_t *text = text_of("a"), *object = text_of("{}");
    uint8_t *out = room_of(8);
    size_t written = 77;
    strkw_schema *made = (strkw_schema *)&lists;
    row("schema_compile", "refused", "no bytes and a count",
        strkw_schema_compile(7, 0, NULL, 2, &made) == STRKW_NULL && made == (strkw_schema *)&lists);
    row("schema_compile", "refused", "no bytes, a count and nowhere",
        strkw_schema_compile(7, 0, NULL, 2, NULL) == STRKW_NULL);
    row("schema_compile", "refused", "nowhere, before a wrong draft",
        strkw_schema_compile(5, 0, object, 2, NULL) == STRKW_NULL);
    row("schema_compile", "refused", "no bytes, before a wrong option",
        strkw_schema_compile(7, 8, NULL, 2, &made) == STRKW_NULL && made == (strkw_schema *)&lists);
    row("schema_compile", "refused", "no bytes and no count",
        strkw_schema_compile(7, 0, NULL, 0, &made) == STRKW_NO_SCHEMA && made == (strkw_schema *)&lists);
    row("schema_check", "refused", "no texts", strkw_schema_check(date, NULL, 1, one, 1, out, 1) == STRKW_NULL);
    row("schema_check", "refused", "no ends", strkw_schema_check(date, text, 1, NULL, 1, out, 1) == STRKW_NULL);
    row("schema_check", "refused", "no verdicts", strkw_schema_check(date, text, 1, one, 1, NULL, 1) == STRKW_NULL);
    row("schema_check", "refused", "no schema and nothing else",
        strkw_schema_check(NULL, NULL, 0, NULL, 0, NULL, 0) == STRKW_NULL);
    row("schema_check", "refused", "no texts, before too little room",
        strkw_schema_check(date, NULL, 1, one, 1, out, 0) == STRKW_NULL);
    row("schema_check", "refused", "no ends, before too much room",
        strkw_schema_check(date, text, 1, NULL, 1, out, 2) == STRKW_NULL);
    row("schema_check", "refused", "no ends and no count, and a verdict",
        strkw_schema_check(date, text, 1, NULL, 0, out, 1) == STRKW_NO_ROOM);
    row("schema_check", "refused", "an end, and no verdicts and no count",
        strkw_schema_check(date, text, 1, one, 1, NULL, 0) == STRKW_NO_ROOM);
    row("schema_check", "refused", "no texts and no count, and an end past them",
        strkw_schema_check(date, NULL, 0, one, 1, out, 1) == STRKW_NO_ROOM);
    row("schema_check", "refused", "nothing was written", !is_written(out, 8));
    row("schema_check", "right", "no texts, no ends and no verdicts",
        strkw_schema_check(date, NULL, 0, NULL, 0, NULL, 0) == STRKW_DONE);
    row("schema_check", "right", "texts behind the last end, of which there is none",
        strkw_schema_check(date, text, 1, NULL, 0, NULL, 0) == STRKW_DONE);
    row("schema_check", "wrong", "an empty text, and no texts",
        strkw_schema_check(date, NULL, 0, none, 1, out, 1) == STRKW_DONE && out[0] == 0);
    row("schema_check", "right", "an empty text, and no texts",
        strkw_schema_check(any, NULL, 0, none, 1, out, 1) == STRKW_DONE && out[0] == 1);
    uint8_t *lines = room_of(8);
    row("schema_errors", "refused", "no text", strkw_schema_errors(date, NULL, 1, lines, 8, &written) == STRKW_NULL);
    row("schema_errors", "refused", "no room", strkw_schema_errors(date, text, 1, NULL, 8, &written) == STRKW_NULL);
    row("schema_errors", "refused", "no count", strkw_schema_errors(any, text, 1, lines, 8, NULL) == STRKW_NULL);
    row("schema_errors", "refused", "no count, and no room of no bytes",
        strkw_schema_errors(any, text, 1, NULL, 0, NULL) == STRKW_NULL);
    row("schema_errors", "refused", "no text, before too little room",
        strkw_schema_errors(date, NULL, 1, lines, 0, &written) == STRKW_NULL);
    row("schema_errors", "refused", "no room, before a text that is no UTF-8",
        strkw_schema_errors(date, bytes_of("\377", 1), 1, NULL, 1, &written) == STRKW_NULL);
    row("schema_errors", "refused", "no schema and no text",
        strkw_schema_errors(NULL, NULL, 0, NULL, 0, &written) == STRKW_NULL);
    row("schema_errors", "refused", "nothing was written", written == 77 && !is_written(lines, 8));
    row("schema_errors", "right", "no text and no count",
        strkw_schema_errors(any, NULL, 0, lines, 8, &written) == STRKW_DONE && written == 0 && !is_written(lines, 8));
    written = 77;
    row("schema_errors", "right", "no room and no count, and no lines",
        strkw_schema_errors(any, text, 1, NULL, 0, &written) == STRKW_DONE && written == 0);
    written = 77;
    row("schema_errors", "refused", "no room and no count, and lines",
        strkw_schema_errors(date, text, 1, NULL, 0, &written) == STRKW_NO_ROOM
            && written == strlen("error /format: \"a\" is not a \"date\"\n") + strlen(NOTED));
}

static void call_schemas(void) {
    static const size_t ends[] = {1};
    strkw_schema *made = NULL;
    uint8_t *out = room_of(1);
    size_t written = 77;
    row("schema_compile", "right", "a date",
        strkw_schema_compile(7, 0, text_of(DATE), strlen(DATE), &made) == STRKW_DONE);
    row("schema_check", "right", "a date", checks_by(made, "\1\0"));
    row("schema_check", "wrong", "no date", checks_by(made, "\1\0"));
    row("schema_errors", "right", "a date", writes_by(made, "2024-02-29", NOTED));
    row("schema_errors", "wrong", "no date", writes_by(made, "2023-02-29", WRONG));
    row("schema_check", "refused", "too little room",
        strkw_schema_check(made, text_of("a"), 1, ends, 1, out, 0) == STRKW_NO_ROOM);
    row("schema_errors", "refused", "too little room",
        strkw_schema_errors(made, text_of("a"), 1, out, 1, &written) == STRKW_NO_ROOM);
    row("schema_check", "refused", "no schema",
        strkw_schema_check(NULL, text_of("a"), 1, ends, 1, out, 1) == STRKW_NULL);
    row("schema_errors", "refused", "no schema",
        strkw_schema_errors(NULL, text_of("a"), 1, out, 1, &written) == STRKW_NULL);
    row("schema_compile", "wrong", "an unknown format", makes_none(7, 0, NO_FORMAT, STRKW_REFUSED));
    row("schema_compile", "refused", "draft 5", makes_none(5, 0, DATE, STRKW_NO_DRAFT));
    row("schema_compile", "refused", "option 8", makes_none(7, 8, DATE, STRKW_NO_OPTION));
    row("schema_compile", "refused", "draft 5 and option 8", makes_none(5, 8, DATE, STRKW_NO_DRAFT));
    row("schema_compile", "refused", "option 8 and no object", makes_none(7, 8, "[]", STRKW_NO_OPTION));
    row("schema_compile", "refused", "no object", makes_none(7, 0, "[]", STRKW_NO_SCHEMA));
    row("schema_compile", "refused", "a byte order mark before the object", makes_none(7, 0, MARKED, STRKW_NO_SCHEMA));
    row("schema_compile", "refused", "no bytes of an object", makes_none(7, 0, "", STRKW_NO_SCHEMA));
    row("schema_compile", "refused", "nowhere", strkw_schema_compile(7, 0, text_of("{}"), 2, NULL) == STRKW_NULL);
    strkw_schema *any = NULL;
    row("schema_compile", "right", "an empty object", strkw_schema_compile(7, 0, text_of("{}"), 2, &any) == STRKW_DONE);
    call_schemas_with_null(made, any);
    row("schema_check", "right", "it is as it was", checks_by(made, "\1\0"));
    /* The sanitiser of addresses tells of one that is freed twice or not at all. */
    strkw_schema_free(made);
    strkw_schema_free(any);
    strkw_schema_free(NULL);
}

#ifdef PROVED
/* ---- the proved functions that strkw_schema stands on, which the shared library does not show. They keep a schema
   object in a handle of the caller's, and one of zeroed memory keeps nothing. */
struct handle {
    bool is_full;
    void *at;
};

uint8_t strkw_nonnull_schema_compile(uint32_t draft, uint32_t options, const uint8_t *schema, size_t schema_count,
                                     struct handle *handle);
uint8_t strkw_nonnull_schema_check(struct handle *handle, const uint8_t *texts, size_t texts_count, const size_t *ends,
                                   size_t ends_count, uint8_t *verdicts, size_t room);
uint8_t strkw_nonnull_schema_errors(struct handle *handle, const uint8_t *text, size_t text_count, uint8_t *out,
                                    size_t room, size_t *written);
void strkw_nonnull_schema_free(struct handle *handle);

static uint8_t keeps(struct handle *handle, uint32_t draft, uint32_t options, const char *schema) {
    return strkw_nonnull_schema_compile(draft, options, text_of(schema), strlen(schema), handle);
}

/* The status of a check of two texts, whose verdicts are these, or are as they were where there is none. */
static bool checks_in(struct handle *handle, size_t second, size_t room, uint8_t status, const char *verdicts) {
    const size_t ends[] = {10, second};
    uint8_t *made = room_of(2);
    return strkw_nonnull_schema_check(handle, text_of("2024-02-292023-02-29"), 20, ends, 2, made, room) == status
        && (verdicts == NULL ? !is_written(made, 2) : memcmp(made, verdicts, 2) == 0);
}

/* The status of the errors of a text, after which nothing is written. */
static bool tells_none(struct handle *handle, const char *text, uint8_t status) {
    uint8_t *out = room_of(9);
    size_t written = 77;
    return strkw_nonnull_schema_errors(handle, text_of(text), strlen(text), out, 9, &written) == status
        && written == 77 && !is_written(out, 9);
}

/* What a handle that keeps nothing is told. */
static void call_empty(const char *what, struct handle *handle) {
    static const size_t none[] = {0};
    uint8_t *room = room_of(1);
    row("schema_check", "refused", what, checks_in(handle, 20, 2, STRKW_NO_SCHEMA, NULL));
    row("schema_check", "refused", "an end past the texts, first", checks_in(handle, 21, 2, STRKW_NO_ROOM, NULL));
    row("schema_check", "refused", "an end before another, first", checks_in(handle, 9, 2, STRKW_NO_ROOM, NULL));
    row("schema_check", "refused", "too little room, first", checks_in(handle, 20, 1, STRKW_NO_ROOM, NULL));
    row("schema_check", "refused", "no text, no end and no verdict",
        strkw_nonnull_schema_check(handle, text_of(""), 0, none, 0, room_of(0), 0) == STRKW_NO_SCHEMA);
    row("schema_check", "refused", "texts, no end and no verdict",
        strkw_nonnull_schema_check(handle, text_of("a"), 1, none, 0, room_of(0), 0) == STRKW_NO_SCHEMA);
    row("schema_check", "refused", "an empty text",
        strkw_nonnull_schema_check(handle, text_of(""), 0, none, 1, room, 1) == STRKW_NO_SCHEMA);
    row("schema_check", "refused", "no end and a verdict, first",
        strkw_nonnull_schema_check(handle, text_of(""), 0, none, 0, room, 1) == STRKW_NO_ROOM && !is_written(room, 1));
    row("schema_errors", "refused", what, tells_none(handle, "a", STRKW_NO_SCHEMA));
    row("schema_errors", "refused", "an empty text", tells_none(handle, "", STRKW_NO_SCHEMA));
    row("schema_errors", "refused", "no UTF-8, first", tells_none(handle, "\377", STRKW_NOT_UTF8));
}

static void call_handles(void) {
    struct handle handle = {false, NULL};
    call_empty("a handle of zeroed memory", &handle);
    row("schema_compile", "refused", "into none", keeps(&handle, 7, 0, NO_FORMAT) == STRKW_REFUSED);
    call_empty("nothing that was refused is kept", &handle);
    row("schema_compile", "right", "into a handle", keeps(&handle, 7, 0, DATE) == STRKW_DONE);
    row("schema_check", "right", "by a handle", checks_in(&handle, 20, 2, STRKW_DONE, "\1\0"));
    row("schema_check", "refused", "an end past the texts", checks_in(&handle, 21, 2, STRKW_NO_ROOM, NULL));
    row("schema_errors", "refused", "no UTF-8", tells_none(&handle, "\377", STRKW_NOT_UTF8));
    row("schema_compile", "refused", "draft 5, into a full one", keeps(&handle, 5, 0, "{}") == STRKW_NO_DRAFT);
    row("schema_check", "right", "it is as it was", checks_in(&handle, 20, 2, STRKW_DONE, "\1\0"));
    row("schema_compile", "refused", "option 8, into a full one", keeps(&handle, 7, 8, "{}") == STRKW_NO_OPTION);
    row("schema_check", "right", "it is as it was", checks_in(&handle, 20, 2, STRKW_DONE, "\1\0"));
    row("schema_compile", "refused", "no object, into a full one", keeps(&handle, 7, 0, "[]") == STRKW_NO_SCHEMA);
    row("schema_check", "right", "it is as it was", checks_in(&handle, 20, 2, STRKW_DONE, "\1\0"));
    row("schema_compile", "refused", "an unknown format", keeps(&handle, 7, 0, NO_FORMAT) == STRKW_REFUSED);
    row("schema_check", "right", "it is as it was", checks_in(&handle, 20, 2, STRKW_DONE, "\1\0"));
    row("schema_compile", "right", "another one", keeps(&handle, 7, 0, "{\"pattern\":\"^2023\"}") == STRKW_DONE);
    row("schema_check", "right", "by the other one", checks_in(&handle, 20, 2, STRKW_DONE, "\0\1"));
    strkw_nonnull_schema_free(&handle);
    call_empty("what was freed is kept no more", &handle);
    strkw_nonnull_schema_free(&handle);
    call_empty("what was freed twice", &handle);
}
#endif

/* ---- one strkw_schema, and one schema object, of several threads and after a fork */

static const char *SLUG = "{\"pattern\":\"^[a-z]+(-[a-z]+)*$\"}";
static const char *NO_SLUG = "error /pattern: \"a--slug\" does not match \"^[a-z]+(-[a-z]+)*$\"\n";

/* Whether a kept schema finds the first of two texts right and the second wrong, with buffers of its own. */
static bool judges(const strkw_schema *slug) {
    static const size_t ends[] = {6, 13};
    uint8_t verdicts[] = {7, 7};
    return strkw_schema_check(slug, (const uint8_t *)"a-sluga--slug", 13, ends, 2, verdicts, 2) == STRKW_DONE
        && verdicts[0] == 1 && verdicts[1] == 0;
}

/* Whether it writes the error of the second, and nothing of the first. */
static bool tells_slugs(const strkw_schema *slug) {
    static const uint8_t *right = (const uint8_t *)"a-slug", *wrong = (const uint8_t *)"a--slug";
    uint8_t lines[99];
    size_t none = 77, written = 77;
    return strkw_schema_errors(slug, right, 6, lines, sizeof lines, &none) == STRKW_DONE && none == 0
        && strkw_schema_errors(slug, wrong, 7, lines, sizeof lines, &written) == STRKW_DONE
        && written == strlen(NO_SLUG) && memcmp(lines, NO_SLUG, written) == 0;
}

/* The same verdicts by the bytes of the schema object. */
static bool judges_anew(void) {
    static const size_t ends[] = {6, 13};
    const uint8_t *object = (const uint8_t *)SLUG, *texts = (const uint8_t *)"a-sluga--slug";
    uint8_t verdicts[] = {7, 7};
    return strkw_check(7, 0, object, strlen(SLUG), texts, 13, ends, 2, verdicts, 2) == STRKW_DONE && verdicts[0] == 1
        && verdicts[1] == 0;
}

/* Whether a schema that is kept with an option finds a mail address right and another text wrong. */
static bool judges_mail(const strkw_schema *mail) {
    static const size_t ends[] = {3, 6};
    uint8_t verdicts[] = {7, 7};
    return strkw_schema_check(mail, (const uint8_t *)"a@ba-b", 6, ends, 2, verdicts, 2) == STRKW_DONE
        && verdicts[0] == 1 && verdicts[1] == 0;
}

/* A schema object, whether drafts 4 and 6, draft 7, and later ones find the text `ab--c` right by it, and options. By
   docs/CALLING.md the encoding is checked in drafts 6 and 7, `hostname` is one format up to draft 6 and another later,
   and `uuid` is one from 2019-09 on. */
static const struct {
    const char *schema;
    uint32_t options;
    bool in4, in6, in7, later;
} by_drafts[] = {
    {"{\"contentEncoding\":\"base64\"}", 0, true, false, false, true},
    {"{\"format\":\"hostname\"}", 0, true, true, false, false},
    {"{\"format\":\"hostname\"}", STRKW_FORMATS_AS_DRAFT, true, true, false, true},
    {"{\"format\":\"uuid\"}", STRKW_IGNORE_UNKNOWN_FORMATS, true, true, true, false},
    {"{\"format\":\"uuid\"}", STRKW_IGNORE_UNKNOWN_FORMATS | STRKW_FORMATS_AS_DRAFT, true, true, true, true},
    {"{\"format\":\"email\"}", STRKW_COMPANION_FORMATS, false, false, false, false},
    {"{\"format\":\"email\"}", STRKW_IGNORE_UNKNOWN_FORMATS, true, true, true, true},
    {"{\"format\":\"email\"}", STRKW_COMPANION_FORMATS | STRKW_FORMATS_AS_DRAFT, false, false, false, true},
    {"{\"format\":\"idn-email\"}", STRKW_COMPANION_FORMATS | STRKW_IGNORE_UNKNOWN_FORMATS, true, true, false, false},
};

/* A thread that has the one compiled object of a schema most of the time: it checks many texts, until it is told to
   end. */
static struct {
    const strkw_schema *schema;
    atomic_bool has_begun, ends;
} busy;

static void *checks_many(void *none) {
    enum { COUNT = 20000 };
    static size_t ends[COUNT];
    static uint8_t verdicts[COUNT];
    while (!atomic_load(&busy.ends)) {
        atomic_store(&busy.has_begun, true);
        strkw_schema_check(busy.schema, NULL, 0, ends, COUNT, verdicts, COUNT);
    }
    return none;
}

/* Whether an object that a call makes beside another one has the draft and the options of the schema: it finds the text
   as the draft does, and writes the lines that strkw_errors writes by the bytes of the object. */
static bool makes_alike(uint32_t draft, uint32_t options, const char *schema, bool is_right) {
    static const size_t end[] = {5};
    const uint8_t *text = (const uint8_t *)"ab--c", *object = (const uint8_t *)schema;
    uint8_t lines[99] = {0}, wanted[99] = {0};
    size_t count = 0;
    bool are_alike = strkw_errors(draft, options, object, strlen(schema), text, 5, wanted, 99, &count) == STRKW_DONE;
    strkw_schema *kept = NULL;
    pthread_t thread;
    if (strkw_schema_compile(draft, options, object, strlen(schema), &kept) != STRKW_DONE) return false;
    busy.schema = kept;
    atomic_store(&busy.has_begun, false);
    atomic_store(&busy.ends, false);
    if (pthread_create(&thread, NULL, checks_many, NULL) != 0) exit(2);
    while (!atomic_load(&busy.has_begun)) usleep(10);
    for (unsigned round = 0; round < ROUNDS; round++) {
        uint8_t verdict = 7;
        size_t written = 77;
        are_alike = are_alike && strkw_schema_check(kept, text, 5, end, 1, &verdict, 1) == STRKW_DONE
            && verdict == is_right && strkw_schema_errors(kept, text, 5, lines, 99, &written) == STRKW_DONE
            && written == count && memcmp(lines, wanted, count) == 0;
        usleep(10);
    }
    atomic_store(&busy.ends, true);
    if (pthread_join(thread, NULL) != 0) exit(2);
    strkw_schema_free(kept);
    return are_alike;
}

static void call_beside(void) {
    for (size_t i = 0; i < sizeof by_drafts / sizeof *by_drafts; i++) {
        const char *schema = by_drafts[i].schema;
        const uint32_t options = by_drafts[i].options;
        row("schema_check", "right", schema, makes_alike(4, options, schema, by_drafts[i].in4));
        row("schema_check", "right", schema, makes_alike(6, options, schema, by_drafts[i].in6));
        row("schema_check", "right", schema, makes_alike(7, options, schema, by_drafts[i].in7));
        row("schema_check", "right", schema, makes_alike(201909, options, schema, by_drafts[i].later));
        row("schema_check", "right", schema, makes_alike(202012, options, schema, by_drafts[i].later));
    }
}

/* What a thread does with the schema that all of them have. It answers NULL where one of its calls was wrong. */
static void *asks_verdicts(void *slug) {
    for (unsigned round = 0; round < ROUNDS; round++)
        if (!judges(slug)) return NULL;
    return slug;
}

static void *asks_mail(void *mail) {
    for (unsigned round = 0; round < ROUNDS; round++)
        if (!judges_mail(mail)) return NULL;
    return mail;
}

static void *asks_errors(void *slug) {
    for (unsigned round = 0; round < ROUNDS; round++)
        if (!tells_slugs(slug)) return NULL;
    return slug;
}

static void *asks_anew(void *slug) {
    for (unsigned round = 0; round < ROUNDS; round++)
        if (!judges_anew()) return NULL;
    return slug;
}

/* Whether so many threads at once have right answers only. */
static bool threads_agree(unsigned count, void *(*asks)(void *), strkw_schema *slug) {
    pthread_t threads[MORE_THREADS];
    bool agree = true;
    for (unsigned i = 0; i < count; i++)
        if (pthread_create(&threads[i], NULL, asks, slug) != 0) exit(2);
    for (unsigned i = 0; i < count; i++) {
        void *answer = NULL;
        if (pthread_join(threads[i], &answer) != 0) exit(2);
        agree = agree && answer == slug;
    }
    return agree;
}

/* Whether a hundred checks by a kept schema take less processor time than ten that compile its object, which takes a
   millisecond and more. */
static bool compiles_once(void) {
    static const char *dear = "{\"pattern\":\"a{1000}a{1000}\"}";
    static const size_t ends[] = {1};
    const uint8_t *object = (const uint8_t *)dear, *text = (const uint8_t *)"a";
    uint8_t verdict = 7;
    strkw_schema *made = NULL;
    if (strkw_schema_compile(7, 0, object, strlen(dear), &made) != STRKW_DONE) return false;
    clock_t began = clock();
    bool are_right = true;
    for (unsigned i = 0; i < 100; i++)
        are_right = are_right && strkw_schema_check(made, text, 1, ends, 1, &verdict, 1) == STRKW_DONE && verdict == 0;
    clock_t kept = clock() - began;
    for (unsigned i = 0; i < 10; i++)
        are_right = are_right && strkw_check(7, 0, object, strlen(dear), text, 1, ends, 1, &verdict, 1) == STRKW_DONE;
    strkw_schema_free(made);
    return are_right && kept < clock() - began - kept;
}

/* Whether a forked child has right answers, by a schema that its parent compiled. The process has one thread then. */
static bool child_agrees(const strkw_schema *slug) {
    int status = 0;
    pid_t child = fork();
    if (child == 0) _exit(judges(slug) && tells_slugs(slug) && judges_anew() ? 0 : 1);
    if (child < 0 || waitpid(child, &status, 0) != child) exit(2);
    return WIFEXITED(status) && WEXITSTATUS(status) == 0;
}

static void call_together(void) {
    strkw_schema *slug = NULL;
    row("schema_compile", "right", "a pattern",
        strkw_schema_compile(7, 0, text_of(SLUG), strlen(SLUG), &slug) == STRKW_DONE);
    row("schema_check", "right", "eight threads at once", threads_agree(THREADS, asks_verdicts, slug));
    row("schema_errors", "right", "eight threads at once", threads_agree(THREADS, asks_errors, slug));
    row("schema_check", "right", "more threads at once than it holds objects for",
        threads_agree(MORE_THREADS, asks_verdicts, slug));
    row("schema_check", "right", "no object compiled anew", compiles_once());
    row("check", "right", "eight threads at once", threads_agree(THREADS, asks_anew, slug));
    row("schema_check", "right", "in a child after a fork", child_agrees(slug));
    row("schema_check", "right", "in the parent after a fork", judges(slug) && tells_slugs(slug));
    strkw_schema_free(slug);
    strkw_schema *mail = NULL;
    row("schema_compile", "right", "a format of an option",
        strkw_schema_compile(4, STRKW_COMPANION_FORMATS, text_of(MAIL), strlen(MAIL), &mail) == STRKW_DONE);
    row("schema_check", "right", "an option that is kept", judges_mail(mail));
    row("schema_check", "right", "an option that objects made later have too",
        threads_agree(MORE_THREADS, asks_mail, mail));
    strkw_schema_free(mail);
}

/* Schemas, and what each comes to where nothing else is wrong. */
static const struct {
    const char *schema;
    uint8_t status;
    const char *lines, *why;
} schemas_in_order[] = {
    {"{}", STRKW_DONE, "", NULL},
    {"{\"format\":\"date\"}", STRKW_DONE,
     "error /format: \"a\" is not a \"date\"\nnote /format: \"date\"\n", NULL},
    {"", STRKW_NO_SCHEMA, NULL, NULL},
    {"[]", STRKW_NO_SCHEMA, NULL, NULL},
    {"{\"format\":\"date\"", STRKW_NO_SCHEMA, NULL, NULL},
    {"{\"format\":\"\377\"}", STRKW_NO_SCHEMA, NULL, NULL},
    {"{\"format\":\"no-format\"}", STRKW_REFUSED, NULL,
     "/format: Unknown format: 'no-format'. Adjust configuration to ignore unrecognized formats"},
    {"{\"maxLength\":-1}", STRKW_REFUSED, NULL,
     "/maxLength: the limit is not a non-negative whole number of 64 bits"},
};

/* The calls on the texts of `ab` with these ends, or behind a first offset of 0, and room for so many verdicts. */
static bool judges_in_order(uint32_t draft, uint32_t options, const char *schema, size_t first, size_t second,
                            size_t room, uint8_t status) {
    const size_t ends[] = {first, second}, wide[] = {0, first, second}, count = strlen(schema);
    const uint32_t narrow[] = {0, (uint32_t)first, (uint32_t)second};
    const uint8_t *object = text_of(schema), *texts = text_of("ab");
    uint8_t *by_ends = room_of(room), *by_wide = room_of(room), *by_narrow = room_of(room);
    const bool is_done = status == STRKW_DONE;
    return strkw_check(draft, options, object, count, texts, 2, ends, 2, by_ends, room) == status
        && strkw_check_offsets(draft, options, object, count, texts, 2, wide, 3, by_wide, room) == status
        && strkw_check_offsets32(draft, options, object, count, texts, 2, narrow, 3, by_narrow, room) == status
        && is_written(by_ends, room) == is_done && is_written(by_wide, room) == is_done
        && is_written(by_narrow, room) == is_done;
}

/* Where several things are wrong, the first is told: the texts, the draft, the options, the one text, the schema. */
static void call_in_order(void) {
    static const uint32_t drafts[] = {7, 202012, 0, 5};
    static const uint32_t choices[] = {0, 4, 8, UINT32_C(0x80000000)};
    static const size_t ends[][3] = {{1, 2, 2}, {1, 3, 2}, {2, 1, 2}, {1, 2, 1}, {1, 2, 3}};
    for (size_t d = 0; d < 4; d++)
        for (size_t c = 0; c < 4; c++)
            for (size_t s = 0; s < sizeof schemas_in_order / sizeof *schemas_in_order; s++) {
                const uint32_t draft = drafts[d], options = choices[c];
                const char *schema = schemas_in_order[s].schema, *lines = schemas_in_order[s].lines;
                const char *why = schemas_in_order[s].why;
                const uint8_t wrong = d > 1 ? STRKW_NO_DRAFT : c > 1 ? STRKW_NO_OPTION : STRKW_DONE;
                const uint8_t first = wrong != STRKW_DONE ? wrong : schemas_in_order[s].status;
                const uint8_t of_bytes = wrong != STRKW_DONE ? wrong : STRKW_NOT_UTF8;
                const bool is_done = first == STRKW_DONE, is_told = first == STRKW_REFUSED;
                const char *kind = is_done ? "right" : "refused";
                for (size_t e = 0; e < 5; e++)
                    row("check", kind, schema,
                        judges_in_order(draft, options, schema, ends[e][0], ends[e][1], ends[e][2],
                                        e > 0 ? STRKW_NO_ROOM : first));
                row("schema_compile", kind, schema, is_done || makes_none(draft, options, schema, first));
                row("errors", kind, schema,
                    writes(draft, options, schema, "a", 99, first, is_done ? strlen(lines) : 77,
                           is_done && *lines != 0 ? lines : NULL));
                row("errors", "refused", schema, writes(draft, options, schema, "\377", 99, of_bytes, 77, NULL));
                row("errors", "refused", schema, writes(draft, options, schema, "a\300\257", 0, of_bytes, 77, NULL));
                row("refusal", kind, schema,
                    tells(draft, options, schema, 99, first, is_told ? strlen(why) : is_done ? 0 : 77,
                          is_told ? why : NULL));
                row("refusal", "refused", schema,
                    tells(draft, options, schema, is_told ? strlen(why) - 1 : 0, is_told ? STRKW_NO_ROOM : first,
                          is_told ? strlen(why) : is_done ? 0 : 77, NULL));
            }
}

int main(int count, char **words) {
    lists = count == 2 && strcmp(words[1], "--list") == 0;
    call_formats();
    call_decisions();
    call_kinds();
    call_signs();
    call_answer();
    call_check();
    call_check_offsets();
    call_refusal();
    call_errors();
    call_options();
    call_in_order();
    call_signed();
    call_schemas();
#ifdef PROVED
    call_handles();
#endif
    call_together();
    call_beside();
    if (!lists) printf("%u passed, %u failed\n", passed, failed);
    return failed == 0 ? 0 : 1;
}
