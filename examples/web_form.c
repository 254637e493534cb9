/* Checks one field of a form that a browser sends, as a CGI program: the field `born` of the body has to be a date, and
   not before 1900. It reads standard input, and writes the answer. */
#include <stdio.h>
#include <string.h>
#include <strkw.h>

enum { LONGEST_BODY = 1000, LONGEST_ERRORS = 16000 };

static const char field[] = "born=";
static const char schema[] = "{\"format\": \"date\", \"pattern\": \"^(19|20)\"}";

static int digit(char c) {
    if (c >= '0' && c <= '9') return c - '0';
    return c >= 'A' && c <= 'F' ? c - 'A' + 10 : c >= 'a' && c <= 'f' ? c - 'a' + 10 : -1;
}

/* Decodes a value of a form where it stands, up to the next field, and counts its bytes; -1 for a wrong one. */
static long decode(char *value, const char *end) {
    long count = 0;
    for (const char *at = value; at < end && *at != '&'; at++) {
        char c = *at == '+' ? ' ' : *at;
        if (*at == '%') {
            int high = end - at > 2 ? digit(at[1]) : -1, low = high >= 0 ? digit(at[2]) : -1;
            if (low < 0) return -1;
            c = (char)(high * 16 + low);
            at += 2;
        }
        value[count++] = c;
    }
    return count;
}

/* The value of the field in a body that ends with a zero byte, or NULL. */
static char *find(char *body) {
    size_t length = sizeof field - 1;
    for (char *at = body; at != NULL; at = strchr(at, '&')) {
        at += *at == '&';
        if (strncmp(at, field, length) == 0) return at + length;
    }
    return NULL;
}

/* Writes the answer: its status, and so many bytes of a text. */
static int answer(const char *status, const void *text, size_t count) {
    printf("Status: %s\r\nContent-Type: text/plain; charset=utf-8\r\n\r\n", status);
    fwrite(text, 1, count, stdout);
    return fflush(stdout) == 0 ? 0 : 1;
}

static int refuse(const char *why) { return answer("400 Bad Request", why, strlen(why)); }

/* What is wrong with the value: a line for each error. The lines behind them, of what is noted, are left out. */
static int judge(const char *value, size_t count) {
    static uint8_t lines[LONGEST_ERRORS + 1];
    size_t written = 0;
    uint8_t status = strkw_errors(202012, 0, (const uint8_t *)schema, sizeof schema - 1, (const uint8_t *)value, count,
                                  lines, LONGEST_ERRORS, &written);
    if (status == STRKW_NOT_UTF8) return refuse("the field is not UTF-8\n");
    if (status != STRKW_DONE) return answer("500 Internal Server Error", "", 0);
    if (strncmp((const char *)lines, "error ", 6) != 0) return answer("200 OK", "thank you\n", 10);
    const char *notes = strstr((const char *)lines, "\nnote ");
    size_t told = notes == NULL ? written : (size_t)(notes + 1 - (const char *)lines);
    return answer("422 Unprocessable Content", lines, told);
}

int main(void) {
    static char body[LONGEST_BODY + 2];
    size_t length = fread(body, 1, LONGEST_BODY + 1, stdin);
    if (length > LONGEST_BODY || strlen(body) != length) return refuse("the form is too long, or has a zero byte\n");
    char *value = find(body);
    long count = value == NULL ? -1 : decode(value, body + length);
    return count < 0 ? refuse("the form has no such field, or a wrong one\n") : judge(value, (size_t)count);
}
