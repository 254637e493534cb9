/* Times calls of strkw.h from C. bench/calls.py builds and runs it over bindings/out/libstrkw.a.

   calls [ROUNDS]     rows of the tables in bench/README.md: nanoseconds a call, and milliseconds for a million texts,
                      each as the least of so many rounds (1,000, and a fortieth of that for the million texts) */
#define _POSIX_C_SOURCE 199309L
#include "strkw.h"

#include <stdio.h>
#include <stdlib.h>
#include <string.h>
#include <time.h>

enum { KINDS = 8, SIZES = 3, LONGEST = 10000, MILLION = 1000000, DATE = 10, BATCH = 100 };

static const size_t sizes[SIZES] = {10, 100, LONGEST};
static const char *const object = "{\"format\":\"uri\",\"maxLength\":10000}";
static const char *const of_dates = "{\"format\":\"date\"}";
static strkw_schema *kept = NULL;

static const uint8_t *bytes(const char *text) { return (const uint8_t *)text; }

/* Formats whose functions tell where they are out of memory. */
static bool is_idn_host_name(const uint8_t *text, size_t count) { return strkw_is_idn_hostname(text, count) == 1; }
static bool is_regex(const uint8_t *text, size_t count) { return strkw_is_regex(text, count) == 1; }

/* By an object that is kept: its bytes are compiled each time. */
static bool by_object(const uint8_t *text, size_t count) {
    uint8_t verdict = 0;
    return strkw_schema_check(kept, text, count, &count, 1, &verdict, 1) == STRKW_DONE && verdict == 1;
}

/* By an object, of a hundred texts at once. */
static bool by_object_in_batch(const uint8_t *text, size_t count) {
    static uint8_t texts[BATCH * LONGEST], verdicts[BATCH];
    static size_t ends[BATCH], filled = 0;
    if (filled != count)
        for (size_t i = 0; i < BATCH; i++) memcpy(texts + i * count, text, count), ends[i] = (i + 1) * count;
    filled = count;
    return strkw_schema_check(kept, texts, BATCH * count, ends, BATCH, verdicts, BATCH) == STRKW_DONE && verdicts[0];
}

/* What is timed, how many texts a call has, and whether they have labels. A text of each size begins so, and then has
   letters. */
static const struct {
    const char *name;
    bool (*check)(const uint8_t *, size_t);
    double texts;
    bool has_labels;
    const char *shortest, *front;
} kinds[KINDS] = {
    {"`strkw_is_date`", strkw_is_date, 1, false, "2024-02-29", "2024-02-29"},
    {"`strkw_is_uri`", strkw_is_uri, 1, false, "http://b.c", "http://b.c/"},
    {"`strkw_is_email`", strkw_is_email, 1, true, "joe@exa.mp", "joe@example."},
    {"`strkw_is_hostname`", strkw_is_hostname, 1, true, "www.exa.mp", "www.example."},
    {"`strkw_is_idn_hostname`", is_idn_host_name, 1, true, "www.exa.mp", "www.example."},
    {"`strkw_is_regex`", is_regex, 1, false, "^[a-z]+\\d$", "^[a-z]+\\d"},
    {"`strkw_schema_check`, one text", by_object, 1, false, "http://b.c", "http://b.c/"},
    {"`strkw_schema_check`, a text of 100", by_object_in_batch, BATCH, false, "http://b.c", "http://b.c/"},
};

static double now(void) {
    struct timespec at;
    clock_gettime(CLOCK_MONOTONIC, &at);
    return (double)at.tv_sec * 1e9 + (double)at.tv_nsec;
}

/* The text of a kind and a size, in room that holds the longest. */
static void fill(uint8_t *text, size_t kind, size_t size) {
    const char *front = size == DATE ? kinds[kind].shortest : kinds[kind].front;
    memset(text, 'a', size);
    memcpy(text, front, strlen(front));
    /* A label of a host name has at most 63 letters. */
    for (size_t i = 60; kinds[kind].has_labels && i < size; i += 60) text[i] = '.';
}

/* Nanoseconds for a text of a kind and a size. */
static double of_a_call(size_t kind, size_t size, unsigned rounds) {
    static uint8_t text[LONGEST];
    bool (*const check)(const uint8_t *, size_t) = kinds[kind].check;
    fill(text, kind, size);
    const unsigned calls = 20 + (unsigned)(20000 / (size * kinds[kind].texts));
    double least = 1e18;
    for (unsigned round = 0; round < rounds; round++) {
        unsigned taken = 0;
        const double start = now();
        for (unsigned i = 0; i < calls; i++) taken += check(text, size);
        const double spent = now() - start;
        if (spent < least && taken <= calls) least = spent;
    }
    return least / (calls * kinds[kind].texts);
}

/* A million texts, a date and one that is none by turns: where they end, and the offsets of 64 bits and of 32. */
static struct {
    uint8_t texts[MILLION * DATE], verdicts[MILLION];
    size_t offsets[MILLION + 1];
    uint32_t narrow[MILLION + 1];
} million;

static void fill_million(void) {
    for (unsigned i = 0; i < MILLION; i++) {
        char text[DATE + 1];
        if (i % 2) snprintf(text, sizeof text, "%04u-%02u-%02u", i % 9000 + 1000, i % 12 + 1, i % 28 + 1);
        else snprintf(text, sizeof text, "%04u-02-30", i % 9000 + 1000);
        memcpy(million.texts + i * DATE, text, DATE);
        million.offsets[i + 1] = million.narrow[i + 1] = (i + 1) * DATE;
    }
}

/* One call on them. */
static uint8_t check_million(int way) {
    const uint8_t *schema = bytes(of_dates), *texts = million.texts;
    const size_t count = strlen(of_dates), all = sizeof million.texts, *ends = million.offsets + 1;
    uint8_t *made = million.verdicts;
    switch (way) {
    case 0: return strkw_check(7, 0, schema, count, texts, all, ends, MILLION, made, MILLION);
    case 1: return strkw_check_offsets(7, 0, schema, count, texts, all, million.offsets, MILLION + 1, made, MILLION);
    default: return strkw_check_offsets32(7, 0, schema, count, texts, all, million.narrow, MILLION + 1, made, MILLION);
    }
}

/* Milliseconds for a million texts. */
static double of_a_million(int way, unsigned rounds) {
    double least = 1e18;
    for (unsigned round = 0; round < rounds; round++) {
        const double start = now();
        if (check_million(way) != STRKW_DONE || million.verdicts[0] != 0 || million.verdicts[1] != 1) exit(1);
        const double spent = now() - start;
        if (spent < least) least = spent;
    }
    return least / 1e6;
}

int main(int count, char **words) {
    static const char *const ways[] = {"`strkw_check`", "`strkw_check_offsets`", "`strkw_check_offsets32`"};
    const unsigned rounds = count == 2 ? (unsigned)strtoul(words[1], NULL, 10) : 1000;
    if (count > 2 || rounds < 40) return fprintf(stderr, "calls [ROUNDS], 40 at least\n"), 2;
    if (strkw_schema_compile(7, 0, bytes(object), strlen(object), &kept) != STRKW_DONE) return 1;
    puts("| Called from C, nanoseconds a text | 10 bytes | 100 bytes | 10,000 bytes |\n|---|---|---|---|");
    for (size_t kind = 0; kind < KINDS; kind++) {
        printf("| %s |", kinds[kind].name);
        for (size_t size = 0; size < SIZES; size++) {
            const double spent = of_a_call(kind, sizes[size], rounds);
            printf(spent < 100 ? " %.1f |" : " %.0f |", spent);
        }
        putchar('\n');
        fflush(stdout);
    }
    fill_million();
    puts("\n| A million texts | Milliseconds |\n|---|---|");
    for (int way = 0; way < 3; way++) printf("| %s from C | %.1f |\n", ways[way], of_a_million(way, rounds / 40));
    strkw_schema_free(kept);
    return 0;
}
