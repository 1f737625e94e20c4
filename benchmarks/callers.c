/* callers HOW THREADS RATE SECONDS: calls of f(1) from C in so many threads, for so many seconds, while one more thread gives f an
   equal tree at the rate a second and shows it, or not at all where the rate is 0. HOW is `callers`, each thread through a caller of
   its own, which looks after each thousand calls where something new is shown; or `locked`, all through one machine with a lock round
   it. Each worker stands apart, since a call writes to the handle that it is given, and threads whose handles share a line of the
   cache wait for each other. It prints the calls of all threads, the nanoseconds that they took, the sum of the threads, and the
   changes. */
#include "mhlink.h"
#include <inttypes.h>
#include <pthread.h>
#include <stdatomic.h>
#include <stdio.h>
#include <stdlib.h>
#include <string.h>
#include <time.h>

enum { MOST = 64, STRETCH = 1000, FLUSH = 500, APART = 128 };

static const char tree[] =
    "[\"point\", \"a\", [\"guard\", [\"insert\", [\"op\", \"ieq\"], 1, [1]], [\"drop\", [\"const\", \"int\", 100], 0, [\"int\"]],"
    " [\"insert\", [\"op\", \"iadd\"], 1, [1]]], [\"op\", \"ineg\"]]";
static pthread_mutex_t lock = PTHREAD_MUTEX_INITIALIZER;
static mhlink_machine machine;
static mhlink_desk desk;
static int is_locked;
static atomic_int stopped;
static atomic_uint_fast64_t newest;

typedef struct worker {
    _Alignas(APART) mhlink_caller caller;
    pthread_t thread;
    uint32_t number, status;
    uint64_t calls, nanoseconds;
} worker;

static const uint8_t *bytes(const char *it) { return (const uint8_t *)it; }

static uint64_t now(void) {
    struct timespec t;
    clock_gettime(CLOCK_MONOTONIC, &t);
    return (uint64_t)t.tv_sec * 1000000000u + (uint64_t)t.tv_nsec;
}

static uint32_t open_both(uint32_t threads, mhlink_caller *callers) {
    char text[1024];
    const mhlink_limits widest = MHLINK_WIDEST_LIMITS;
    uint64_t part;
    int length = snprintf(text, sizeof text,
        "{\"version\": 2, \"points\": [{\"name\": \"a\", \"cost\": 5}], \"sites\": [{\"name\": \"f\", \"type\": \"(int)int\", \"key\": 0,"
        " \"target\": %s, \"links\": [{\"when\": 1, \"weight\": 3, \"needs\": [\"a\"]}]}]}", tree);
    uint32_t status = mhlink_open(bytes(text), (size_t)length, threads, &widest, &machine, &part);
    return status ? status : mhlink_desk_open(bytes(text), (size_t)length, &widest, callers, threads, &desk, &part);
}

/* A thousand calls through a caller, or through the machine, with the lock round each. */
static uint32_t stretch(worker *own) {
    const mhlink_value one = {MHLINK_INT, 1};
    mhlink_reply reply = {0, 0, 0};
    uint32_t status = MHLINK_OK;
    for (int made = 0; made < STRETCH && !status; made++) {
        if (is_locked) {
            pthread_mutex_lock(&lock);
            status = mhlink_call(&machine, own->number, 0, &one, 1, bytes(""), 0, &reply);
            pthread_mutex_unlock(&lock);
        } else {
            status = mhlink_caller_call(&own->caller, 0, &one, 1, bytes(""), 0, &reply);
        }
        if (reply.number != 100) status = UINT32_MAX;
    }
    own->calls += STRETCH;
    return status;
}

/* Between stretches a caller looks where something new is shown, and each flushes after each half million calls. */
static uint32_t pause_of(worker *own, uint64_t *seen) {
    uint64_t shown = atomic_load(&newest);
    uint32_t status = MHLINK_OK;
    int flushes = own->calls / STRETCH % FLUSH == 0;
    if (!flushes && (is_locked || shown == *seen)) return MHLINK_OK;
    pthread_mutex_lock(&lock);
    if (flushes) status = is_locked ? mhlink_flush(&machine, own->number) : mhlink_desk_flush(&desk, &own->caller);
    if (!status && !is_locked) status = mhlink_caller_look(&own->caller, &desk);
    pthread_mutex_unlock(&lock);
    *seen = shown;
    return status;
}

static void *work(void *given) {
    worker *own = given;
    uint64_t began = now(), seen = 0;
    while (!atomic_load(&stopped) && !own->status) {
        own->status = stretch(own);
        if (!own->status) own->status = pause_of(own, &seen);
    }
    own->nanoseconds = now() - began;
    return NULL;
}

static uint32_t change(void) {
    pthread_mutex_lock(&lock);
    uint64_t part = 0;
    uint32_t status = is_locked ? mhlink_target(&machine, 0, bytes(tree), strlen(tree), &part)
                                : mhlink_desk_target(&desk, 0, bytes(tree), strlen(tree), &part);
    if (!status && !is_locked) status = mhlink_desk_show(&desk);
    pthread_mutex_unlock(&lock);
    atomic_fetch_add(&newest, 1);
    return status;
}

int main(int count, char **words) {
    if (count < 5) return 2;
    static worker workers[MOST];
    mhlink_caller callers[MOST];
    is_locked = !strcmp(words[1], "locked");
    uint32_t threads = (uint32_t)atoi(words[2]);
    uint64_t rate = strtoull(words[3], NULL, 10), lasts = (uint64_t)(atof(words[4]) * 1e9), changes = 0, calls = 0, nanoseconds = 0;
    if (threads < 1 || threads > MOST || open_both(threads, callers)) return 1;
    uint64_t began = now();
    for (uint32_t each = 0; each < threads; each++) {
        workers[each].number = each;
        workers[each].caller = callers[each];
        if (pthread_create(&workers[each].thread, NULL, work, &workers[each])) return 1;
    }
    while (now() - began < lasts) {
        uint64_t next = began + (rate ? (changes + 1) * (1000000000u / rate) : lasts), at = now();
        if (next > at) {
            struct timespec t = {(time_t)((next - at) / 1000000000u), (long)((next - at) % 1000000000u)};
            nanosleep(&t, NULL);
        }
        if (rate && change()) return 1;
        if (rate) changes++;
    }
    atomic_store(&stopped, 1);
    for (uint32_t each = 0; each < threads; each++) {
        pthread_join(workers[each].thread, NULL);
        if (workers[each].status) return 1;
        calls += workers[each].calls;
        nanoseconds += workers[each].nanoseconds;
        mhlink_caller_close(workers[each].caller);
    }
    mhlink_desk_close(desk);
    mhlink_close(machine);
    printf("calls %" PRIu64 " nanoseconds %" PRIu64 " changes %" PRIu64 "\n", calls, nanoseconds, changes);
    return 0;
}
