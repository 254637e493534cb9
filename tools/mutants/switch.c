/* Answers which change is chosen: the number in CHANGE. Each that is asked for is noted in the file REACHED. */

extern char *getenv(const char *);
extern int open(const char *, int, ...);
extern long write(int, const void *, unsigned long);
extern int close(int);

enum { MOST = 65536, CREATE = 0101 | 01000 };
static unsigned char reached[MOST];
static unsigned chosen;

_Bool strkw_switch_is(unsigned change) {
    reached[change % MOST] = 1;
    return change == chosen;
}

__attribute__((constructor)) static void choose(void) {
    const char *digits = getenv("CHANGE");
    for (; digits && *digits; digits++) chosen = 10 * chosen + (unsigned)(*digits - '0');
}

__attribute__((destructor)) static void tell(void) {
    const char *path = getenv("REACHED");
    int file = path ? open(path, CREATE, 0600) : -1;
    if (file < 0) return;
    write(file, reached, MOST);
    close(file);
}
