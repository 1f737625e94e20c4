// Preloaded below a program: the growth whose number stands in REFUSE_AT, from 1, is refused. Growths are counted from the
// line `opened`, or from the start where REFUSE_FROM_START is set, up to the line `worked`. When the program ends, the last
// line of standard error has how many blocks it then took and did not give back, and the number of growths.
typedef unsigned long size;
extern void *dlsym(void *, const char *);
extern char *getenv(const char *);
extern long atol(const char *);
extern int memcmp(const void *, const void *, size);
extern int dprintf(int, const char *, ...);

#define NEXT ((void *)-1L)

static int opened;
static long growths, blocks;

__attribute__((constructor)) static void begin(void) { opened = getenv("REFUSE_FROM_START") != 0; }

static int is_refused(void) {
    const char *at = getenv("REFUSE_AT");
    return opened && __sync_add_and_fetch(&growths, 1) == (at ? atol(at) : 0);
}

static void *taken(void *block) {
    if (opened && block) __sync_add_and_fetch(&blocks, 1);
    return block;
}

void *malloc(size bytes) {
    static void *(*next)(size);
    if (!next) next = (void *(*)(size))dlsym(NEXT, "malloc");
    return is_refused() ? 0 : taken(next(bytes));
}

void free(void *block) {
    static void (*next)(void *);
    if (!next) next = (void (*)(void *))dlsym(NEXT, "free");
    if (opened && block) __sync_sub_and_fetch(&blocks, 1);
    next(block);
}

void *realloc(void *block, size bytes) {
    static void *(*next)(void *, size);
    if (!next) next = (void *(*)(void *, size))dlsym(NEXT, "realloc");
    if (is_refused()) return 0;
    return block ? next(block, bytes) : taken(next(block, bytes));
}

long write(int file, const void *bytes, size count) {
    static long (*next)(int, const void *, size);
    if (!next) next = (long (*)(int, const void *, size))dlsym(NEXT, "write");
    if (count >= 6 && memcmp(bytes, "opened", 6) == 0) opened = 1;
    if (count >= 6 && memcmp(bytes, "worked", 6) == 0) opened = 0;
    return next(file, bytes, count);
}

__attribute__((destructor)) static void tell(void) { dprintf(2, "%ld %ld\n", blocks, growths); }

// (a program that may start threads ends by this call, past all destructors)
void _exit(int status) {
    static void (*next)(int);
    if (!next) next = (void (*)(int))dlsym(NEXT, "_exit");
    tell();
    next(status);
    __builtin_unreachable();
}
