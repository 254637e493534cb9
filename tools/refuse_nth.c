/* Preloaded into a built program: one call of it fails. The variables of the environment count from 1, and each
   kind of call has its own count:
     REFUSE_GROWTH   the malloc or realloc of this number is refused
     FAIL_MOVE       the read or write of this number fails with an error of input or output
     INTERRUPT_MOVE  the read or write of this number is interrupted, and moves nothing
     SHORTEN_MOVE    the read or write of this number moves one byte
   At the exit descriptor 9 is told how many growths there were and how many of them were refused, and how many
   reads and writes there were and how many of them were not as asked. */
typedef unsigned long size;
typedef long moved;

extern void *__libc_malloc(size), *__libc_realloc(void *, size);
extern char *getenv(const char *);
extern long atol(const char *);
extern long syscall(long, ...);
extern int *__errno_location(void);

enum { READ_CALL = 0, WRITE_CALL = 1, TELL_AT = 9, INTERRUPTED = 4, INPUT_OUTPUT_ERROR = 5 };

static long refused_growth, failing_move, interrupted_move, shortened_move;
static long growths, refusals, moves, failures;

static long number_in(const char *name) {
    char *word = getenv(name);
    return word ? atol(word) : 0;
}

__attribute__((constructor)) static void start(void) {
    refused_growth = number_in("REFUSE_GROWTH");
    failing_move = number_in("FAIL_MOVE");
    interrupted_move = number_in("INTERRUPT_MOVE");
    shortened_move = number_in("SHORTEN_MOVE");
    growths = refusals = moves = failures = 0;
}

static void tell(long number, char behind) {
    char digits[24];
    int at = sizeof digits;
    digits[--at] = behind;
    do {
        digits[--at] = (char)('0' + number % 10);
        number /= 10;
    } while (number);
    syscall(WRITE_CALL, TELL_AT, digits + at, sizeof digits - at);
}

__attribute__((destructor)) static void stop(void) {
    tell(growths, ' ');
    tell(refusals, ' ');
    tell(moves, ' ');
    tell(failures, '\n');
}

static int is_refused(void) {
    if (++growths != refused_growth)
        return 0;
    ++refusals;
    return 1;
}

void *malloc(size bytes) {
    return is_refused() ? 0 : __libc_malloc(bytes);
}

void *realloc(void *block, size bytes) {
    return is_refused() ? 0 : __libc_realloc(block, bytes);
}

static moved move(long call, int device, const void *bytes, size room) {
    ++moves;
    if (moves == failing_move || moves == interrupted_move) {
        ++failures;
        *__errno_location() = moves == failing_move ? INPUT_OUTPUT_ERROR : INTERRUPTED;
        return -1;
    }
    if (moves == shortened_move) {
        ++failures;
        room = room ? 1 : 0;
    }
    return syscall(call, device, bytes, room);
}

moved read(int device, void *bytes, size room) { return move(READ_CALL, device, bytes, room); }
moved write(int device, const void *bytes, size room) { return move(WRITE_CALL, device, bytes, room); }
