/* Two million sends through one site whose tree tests the receiver's class, one guard after another, as a host writes them, beside
   an inline cache written by hand: the four classes that came first by comparison, and all others by a table (Hölzle, Chambers,
   Ungar 1991). `dispatch CLASSES` prints how many answers were not those of the table; with `timed` behind it, the nanoseconds
   that a send took in both ways as well. Receivers come in an order that is drawn once, each class as often as any other. */
#include "mhlink.h"
#include <inttypes.h>
#include <stdio.h>
#include <stdlib.h>
#include <string.h>
#include <time.h>

enum { MOST = 60, ROOM = 64, FEW = 4, RECEIVERS = 4096, ROUNDS = 500, CALLS = RECEIVERS * ROUNDS };

static int32_t receivers[RECEIVERS];

/* The cache by hand. */
static struct { int32_t class, method; } first[FEW], all[ROOM];
static int filled;

static int32_t method_of(int32_t class) { return 1000 + 7 * class; }

static void fill(int classes) {
    uint32_t drawn = 1;
    for (int class = 1; class <= classes; class++) all[class].class = class, all[class].method = method_of(class);
    for (filled = 0; filled < FEW && filled < classes; filled++) first[filled].class = filled + 1, first[filled].method = method_of(filled + 1);
    for (int at = 0; at < RECEIVERS; at++) {
        drawn = drawn * 1664525 + 1013904223;
        receivers[at] = 1 + (int32_t)((drawn >> 16) % (uint32_t)classes);
    }
}

static int32_t by_hand(int32_t class) {
    for (int at = 0; at < filled; at++)
        if (first[at].class == class) return first[at].method;
    return all[class & (ROOM - 1)].class == class ? all[class & (ROOM - 1)].method : -1;
}

/* A site whose tree gives the number of a class's method behind the point on which it rests, and -1 for any other class. */
static void write_definition(char *to, int classes) {
    to += sprintf(to, "{\"version\":2,\"points\":[{\"name\":\"methods\",\"cost\":1}],\"sites\":[{\"name\":\"send\",\"type\":\"(int)int\","
                      "\"key\":0,\"target\":[\"point\",\"methods\",");
    for (int class = 1; class <= classes; class++)
        to += sprintf(to, "[\"guard\",[\"insert\",[\"op\",\"ieq\"],1,[%d]],[\"drop\",[\"const\",\"int\",%" PRId32 "],0,[\"int\"]],", class,
                      method_of(class));
    to += sprintf(to, "[\"drop\",[\"const\",\"int\",-1],0,[\"int\"]]");
    for (int class = 1; class <= classes; class++) *to++ = ']';
    sprintf(to, ",[\"drop\",[\"const\",\"int\",-1],0,[\"int\"]]],\"links\":[]}]}");
}

static int32_t by_call(mhlink_machine *machine, int32_t class) {
    const mhlink_value value = {MHLINK_INT, class};
    mhlink_reply reply;
    return mhlink_call(machine, 0, 0, &value, 1, (const uint8_t *)"", 0, &reply) ? -2 : (int32_t)reply.number;
}

static double now(void) {
    struct timespec it;
    clock_gettime(CLOCK_MONOTONIC, &it);
    return (double)it.tv_sec * 1e9 + (double)it.tv_nsec;
}

int main(int count, char **words) {
    static char definition[1 << 14];
    mhlink_limits limits = {1000, 1000, 1000};
    mhlink_machine machine;
    uint64_t part, differ = 0;
    int64_t sum = 0, wanted = 0;
    int classes = count > 1 ? atoi(words[1]) : 0;
    if (classes < 1 || classes > MOST) return 2;
    fill(classes);
    write_definition(definition, classes);
    if (mhlink_open((const uint8_t *)definition, strlen(definition), 1, &limits, &machine, &part)) return 1;
    for (int at = 0; at < RECEIVERS; at++) differ += by_call(&machine, receivers[at]) != method_of(receivers[at]);
    double began = now();
    for (int round = 0; round < ROUNDS; round++)
        for (int at = 0; at < RECEIVERS; at++) sum += by_call(&machine, receivers[at]);
    double called = now();
    for (int round = 0; round < ROUNDS; round++)
        for (int at = 0; at < RECEIVERS; at++) wanted += by_hand(receivers[at]);
    double ended = now();
    differ += sum != wanted;
    mhlink_close(machine);
    printf("differ %" PRIu64 "\n", differ);
    if (count > 2 && !strcmp(words[2], "timed")) printf("call %.2f ns, by hand %.2f ns\n", (called - began) / CALLS, (ended - called) / CALLS);
    return differ != 0;
}
