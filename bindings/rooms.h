/* Memory for the calls of calls.c and refused.c. It is taken by no malloc, and it is never given back.

   Each text and each room ends where its page ends, and the page behind cannot be touched. A text cannot be written to
   either. So one byte read or written too far ends the program. */
#ifndef ROOMS_H
#define ROOMS_H

#include <stdbool.h>
#include <stdint.h>
#include <stdlib.h>
#include <string.h>
#include <sys/mman.h>
#include <unistd.h>

enum { MOST = 4096 };

/* Room for so many bytes, at most MOST, at the end of pages that no others follow. */
static inline uint8_t *room_of(size_t count) {
    uint8_t *pages = mmap(NULL, 2 * MOST, PROT_READ | PROT_WRITE, MAP_PRIVATE | MAP_ANONYMOUS, -1, 0);
    if (pages == MAP_FAILED || count > MOST || sysconf(_SC_PAGESIZE) > MOST) exit(2);
    if (mprotect(pages + MOST, MOST, PROT_NONE) != 0) exit(2);
    memset(pages, '?', MOST);
    return pages + MOST - count;
}

/* These bytes, in such room, which is not to be written to. */
static inline const uint8_t *bytes_of(const char *bytes, size_t count) {
    uint8_t *room = room_of(count);
    memcpy(room, bytes, count);
    if (mprotect(room + count - MOST, MOST, PROT_READ) != 0) exit(2);
    return room;
}

static inline const uint8_t *text_of(const char *text) { return bytes_of(text, strlen(text)); }

/* Whether room was written to. */
static inline bool is_written(const uint8_t *room, size_t count) {
    for (size_t i = 0; i < count; i++)
        if (room[i] != '?') return true;
    return false;
}

#endif
