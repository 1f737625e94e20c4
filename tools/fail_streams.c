// Preloaded below a program: READ_MOST bytes at most are read at a time; the read after READS reads fails; standard output
// (FILE=1, else the stream of that number) has ROOM bytes, and then a write fails, or takes none where TAKES_NONE is set;
// every second call is interrupted where INTERRUPTS is set.
typedef unsigned long size;
extern void *dlsym(void *, const char *);
extern char *getenv(const char *);
extern long atol(const char *);
extern int *__errno_location(void);
#define NEXT ((void *)-1L)
enum { INTERRUPTED = 4, FAILED = 5 };

static long number(const char *name, long absent) {
    const char *text = getenv(name);
    return text ? atol(text) : absent;
}

static long refuse(int why) {
    *__errno_location() = why;
    return -1;
}

static int is_interrupted(void) {
    static int calls;
    return getenv("INTERRUPTS") && ++calls % 2;
}

long read(int file, void *bytes, size count) {
    static long (*next)(int, void *, size);
    static long reads;
    if (!next) next = (long (*)(int, void *, size))dlsym(NEXT, "read");
    if (file) return next(file, bytes, count);
    if (is_interrupted()) return refuse(INTERRUPTED);
    long most = number("READ_MOST", 1L << 40), last = number("READS", -1);
    if (last >= 0 && reads++ >= last) return refuse(FAILED);
    return next(file, bytes, count < (size)most ? count : (size)most);
}

long write(int file, const void *bytes, size count) {
    static long (*next)(int, const void *, size);
    static long room = -1;
    if (!next) next = (long (*)(int, const void *, size))dlsym(NEXT, "write");
    if (file != number("FILE", 1)) return next(file, bytes, count);
    if (is_interrupted()) return refuse(INTERRUPTED);
    if (room < 0) room = number("ROOM", 1L << 40);
    if (!room && count) return getenv("TAKES_NONE") ? 0 : refuse(FAILED);
    if (count > (size)room) count = (size)room;
    room -= (long)count;
    return next(file, bytes, count);
}
