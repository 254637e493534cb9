/* The string checks of Neldrafi, from C. Link libstrkw.a or libstrkw.so, which ./build makes.

   email, regex, idn-email and idn-hostname are formats that a schema object knows by STRKW_COMPANION_FORMATS alone.
   strkw_is_email, strkw_is_regex, strkw_is_idn_email and strkw_is_idn_hostname are calls by themselves.

   A text is bytes and their count: no zero byte ends it, and it may hold zero bytes. Bytes that are not UTF-8 have no
   format and are no encoding. NULL with a count of 0 is an empty text, list or buffer everywhere. NULL with another
   count is refused: a format and an encoding answer no, the other functions STRKW_NULL.

   A call took at most 80 KB of stack as far as measured: a thread with a stack of 64 KB is too small.

   Nothing is kept between calls but a strkw_schema. Any number of threads may call at once, also with the same
   strkw_schema, each with buffers of its own. There is no lock. A fork changes nothing of that. The formats that answer
   by a bool, and the encodings base32, base32hex and base16, take no memory. All other functions call malloc, realloc
   and free: call them from no signal handler, nor in the forked child of a process with several threads. */
#ifndef STRKW_H
#define STRKW_H

#include <stdbool.h>
#include <stddef.h>
#include <stdint.h>

#ifdef __cplusplus
extern "C" {
#endif

/* Formats. strkw_is_hostname is that of draft 7 and later, strkw_is_hostname_draft4 that of drafts 4 and 6. */
bool strkw_is_date(const uint8_t *text, size_t count);
bool strkw_is_date_time(const uint8_t *text, size_t count);
bool strkw_is_duration(const uint8_t *text, size_t count);
bool strkw_is_hostname(const uint8_t *text, size_t count);
bool strkw_is_hostname_draft4(const uint8_t *text, size_t count);
bool strkw_is_ipv4(const uint8_t *text, size_t count);
bool strkw_is_ipv6(const uint8_t *text, size_t count);
bool strkw_is_iri(const uint8_t *text, size_t count);
bool strkw_is_iri_reference(const uint8_t *text, size_t count);
bool strkw_is_json_pointer(const uint8_t *text, size_t count);
bool strkw_is_relative_json_pointer(const uint8_t *text, size_t count);
bool strkw_is_time(const uint8_t *text, size_t count);
bool strkw_is_uri(const uint8_t *text, size_t count);
bool strkw_is_uri_reference(const uint8_t *text, size_t count);
bool strkw_is_uri_template(const uint8_t *text, size_t count);
bool strkw_is_uuid(const uint8_t *text, size_t count);

/* A mail address: Mailbox of RFC 5321, section 4.1.2, as joe.bloggs@example.com. */
bool strkw_is_email(const uint8_t *text, size_t count);

/* An internationalised mail address: Mailbox as RFC 6531, section 3.3, extends it. 0: no. 1: yes. 2: out of memory. */
uint8_t strkw_is_idn_email(const uint8_t *text, size_t count);

/* An internationalised host name, by RFC 5890 to 5893 and Unicode 18.0. 0: no. 1: yes. 2: out of memory. */
uint8_t strkw_is_idn_hostname(const uint8_t *text, size_t count);

/* A pattern of ECMA-262 2024, section 22.2.1, in Unicode mode, also one that `pattern` does not take. 0: no. 1: yes. 2:
   out of memory. */
uint8_t strkw_is_regex(const uint8_t *text, size_t count);

/* Encodings of RFC 4648, and JSON. 0: no. 1: yes. 2: out of memory, but for base32, base32hex and base16. */
uint8_t strkw_is_base64(const uint8_t *text, size_t count);
uint8_t strkw_is_base64url(const uint8_t *text, size_t count);
uint8_t strkw_is_base32(const uint8_t *text, size_t count);
uint8_t strkw_is_base32hex(const uint8_t *text, size_t count);
uint8_t strkw_is_base16(const uint8_t *text, size_t count);
uint8_t strkw_is_json(const uint8_t *text, size_t count);

/* What the functions below answer. Where several hold, the calls with many texts tell the first of 7, 2, 3, 6, 1, 4,
   5, strkw_refusal the first of 7, 3, 6, 1, 4, 2, 5, and strkw_errors the first of 7, 3, 6, 8, 1, 4, 5, 2.
   strkw_schema_compile tells the first of 7, 3, 6, 1, 4, 5, strkw_schema_check the first of 7, 2, 1, and
   strkw_schema_errors the first of 7, 8, 1, 2. */
enum {
    STRKW_DONE = 0,
    STRKW_OUT_OF_MEMORY = 1, /* nothing was written */
    STRKW_NO_ROOM = 2,       /* too little room; with many texts: none lie so, or there is other room than for them */
    STRKW_NO_DRAFT = 3,      /* the draft is none of 4, 6, 7, 201909, 202012 */
    STRKW_NO_SCHEMA = 4,     /* the schema is no JSON object, or not UTF-8 */
    STRKW_REFUSED = 5,       /* the schema object is refused; strkw_refusal tells why */
    STRKW_NO_OPTION = 6,     /* a bit of the options is none of the three below */
    STRKW_NULL = 7,          /* a pointer is NULL, and its count is not 0 */
    STRKW_NOT_UTF8 = 8       /* the one text whose errors are asked for is not UTF-8 */
};

/* Answers requests, one a line, as the program strkw does. requests, out and written do not overlap.
   STRKW_DONE: the answers are at the head of out, and their count of bytes is in *written.
   STRKW_NO_ROOM: out is as it was; *written is the room that is needed.
   After any other, out and *written are as they were. written is never NULL. */
uint8_t strkw_answer(const uint8_t *requests, size_t count, uint8_t *out, size_t room, size_t *written);

/* Options of the functions below. By 0 the formats are checked in every draft, and an unknown one is refused. */
#define STRKW_FORMATS_AS_DRAFT UINT32_C(1)       /* drafts 4, 6 and 7 check formats, 2019-09 and 2020-12 do not */
#define STRKW_IGNORE_UNKNOWN_FORMATS UINT32_C(2) /* an unknown format lets every text pass */
#define STRKW_COMPANION_FORMATS UINT32_C(4)      /* email and regex are known, from draft 7 on the two of IDN too */

/* Checks many texts by one schema object, which is compiled once: JSON, of a draft.
   A pattern is one of ECMA-262 in Unicode mode, of a part of its syntax: no back reference, 2,000 characters, groups
   250 deep, counts of 5,000 and 5,200 steps at most. A backslash may also stand before any other character of ASCII
   that is no letter and no digit, as in \_ and \@, and counts as four characters with it. To compile it takes up to
   some 12 milliseconds; a search then takes a bounded number of steps for each character of a text.
   The texts stand one after the other: text i begins at texts[ends[i - 1]], the first at texts[0], and ends before
   texts[ends[i]].
   verdicts has as much room as there are ends, and overlaps nothing else.
   STRKW_DONE: verdicts has 1 for each text that is valid, 0 for one that is not, 2 for bytes that are not UTF-8.
   STRKW_NO_ROOM: an end is less than the one before it or more than texts_count, or room is not ends_count.
   After any but STRKW_DONE, verdicts is as it was. */
uint8_t strkw_check(uint32_t draft, uint32_t options, const uint8_t *schema, size_t schema_count, const uint8_t *texts,
                    size_t texts_count, const size_t *ends, size_t ends_count, uint8_t *verdicts, size_t room);

/* The same of texts that lie between offsets, as those of an array of Apache Arrow do (Columnar Format, "Variable-size
   Binary Layout"): text i begins at texts[offsets[i]] and ends before texts[offsets[i + 1]]. The offsets of a `string`
   have 32 bits, those of a `large_string` 64. Arrow's are signed, and none is below 0. Nothing is copied.
   verdicts has room for one less than there are offsets.
   STRKW_NO_ROOM: there is no offset, one is less than the one before it or more than texts_count, or room is not
   offsets_count - 1. */
uint8_t strkw_check_offsets(uint32_t draft, uint32_t options, const uint8_t *schema, size_t schema_count,
                            const uint8_t *texts, size_t texts_count, const size_t *offsets, size_t offsets_count,
                            uint8_t *verdicts, size_t room);
uint8_t strkw_check_offsets32(uint32_t draft, uint32_t options, const uint8_t *schema, size_t schema_count,
                              const uint8_t *texts, size_t texts_count, const uint32_t *offsets, size_t offsets_count,
                              uint8_t *verdicts, size_t room);

/* Tells why strkw_check refuses a schema object. schema, out and written do not overlap.
   STRKW_REFUSED: the text is at the head of out, and its count of bytes is in *written. It is UTF-8: the JSON pointer
   of the keyword, a colon, a space and the reason, as
       /pattern: the pattern "(a|b)c\\1" is not taken: it has a back reference
   The name of an unknown format stands in it as it is, with a zero byte or a line feed if it has one.
   STRKW_DONE: the schema object is not refused; *written is 0.
   STRKW_NO_ROOM: it is refused, and out is as it was; *written is the room that is needed.
   After any other, out and *written are as they were. written is never NULL. */
uint8_t strkw_refusal(uint32_t draft, uint32_t options, const uint8_t *schema, size_t schema_count, uint8_t *out,
                      size_t room, size_t *written);

/* Writes the errors of one text by a schema object, and then what the object notes of it. schema, text, out and written
   do not overlap.
   STRKW_DONE: a line for each is at the head of out, and their count of bytes is in *written. Each ends with a line
   feed:
       error /format: "2023-02-29" is not a "date"
       note /format: "date"
   Behind the JSON pointer of the keyword stands what is wrong, with a space for each character below U+0020, or the
   value that is noted, as compact JSON. A text is valid where it has no line of an error.
   STRKW_NO_ROOM: out is as it was; *written is the room that is needed.
   After any other, out and *written are as they were. written is never NULL. */
uint8_t strkw_errors(uint32_t draft, uint32_t options, const uint8_t *schema, size_t schema_count, const uint8_t *text,
                     size_t text_count, uint8_t *out, size_t room, size_t *written);

/* A schema object that is compiled and kept, with its draft and options. It holds a compiled object for each call that
   has run at the same time, 16 at most, and a copy of the bytes. A call has one of the objects to itself. Only where
   other calls have all of them it compiles the bytes, which takes up to some 12 milliseconds for a pattern. */
typedef struct strkw_schema strkw_schema;

/* Makes one. STRKW_DONE: it is in *made, for strkw_schema_free. After any other, *made is as it was: made is NULL
   (STRKW_NULL), or a status of strkw_check, and strkw_refusal tells why the object is refused. */
uint8_t strkw_schema_compile(uint32_t draft, uint32_t options, const uint8_t *schema, size_t schema_count,
                             strkw_schema **made);

/* strkw_check and strkw_errors by it. STRKW_NULL where schema is NULL. */
uint8_t strkw_schema_check(const strkw_schema *schema, const uint8_t *texts, size_t texts_count, const size_t *ends,
                           size_t ends_count, uint8_t *verdicts, size_t room);
uint8_t strkw_schema_errors(const strkw_schema *schema, const uint8_t *text, size_t text_count, uint8_t *out,
                            size_t room, size_t *written);

/* Frees it, once no call has it any more. NULL is passed over. */
void strkw_schema_free(strkw_schema *schema);

#ifdef __cplusplus
}
#endif

#endif
