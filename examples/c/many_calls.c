/* Ten million calls of f(1) through one machine, with a flush after each hundred thousand. It prints the sum of what the calls
   gave and the total of hits; with the argument `timed`, the nanoseconds that a call took as well. */
#include "mhlink.h"
#include <inttypes.h>
#include <stdio.h>
#include <string.h>
#include <time.h>

static const char definition[] =
    "{\"version\": 1, \"points\": [{\"name\": \"a\", \"cost\": 5}], \"sites\": ["
    "{\"name\": \"f\", \"type\": \"(int)int\", \"key\": 0,"
    " \"target\": [\"point\", \"a\", [\"guard\", [\"insert\", [\"op\", \"ieq\"], 1, [1]],"
    "   [\"drop\", [\"const\", \"int\", 100], 0, [\"int\"]], [\"insert\", [\"op\", \"iadd\"], 1, [1]]], [\"op\", \"ineg\"]],"
    " \"links\": [{\"when\": 1, \"weight\": 3, \"needs\": [\"a\"]}]}]}";

enum { CALLS = 10000000, BETWEEN_FLUSHES = 100000 };

static uint32_t run(mhlink_machine *machine, int64_t *sum) {
    const mhlink_value one = {MHLINK_INT, 1};
    for (int made = 1; made <= CALLS; made++) {
        mhlink_reply reply;
        uint32_t status = mhlink_call(machine, 0, 0, &one, 1, (const uint8_t *)"", 0, &reply);
        if (!status && made % BETWEEN_FLUSHES == 0) status = mhlink_flush(machine, 0);
        if (status) return status;
        *sum += reply.number;
    }
    return MHLINK_OK;
}

int main(int count, char **words) {
    mhlink_limits limits = {1000, BETWEEN_FLUSHES, (uint64_t)1 << 40};
    mhlink_machine machine;
    uint64_t part, total = 0;
    int64_t sum = 0;
    uint32_t status = mhlink_open((const uint8_t *)definition, strlen(definition), 1, &limits, &machine, &part);
    if (status) return 1;
    struct timespec began, ended;
    clock_gettime(CLOCK_MONOTONIC, &began);
    status = run(&machine, &sum);
    clock_gettime(CLOCK_MONOTONIC, &ended);
    if (!status) status = mhlink_total(&machine, 0, &total);
    mhlink_close(machine);
    printf("status %" PRIu32 ", sum %" PRId64 ", total %" PRIu64 "\n", status, sum, total);
    double took = (double)(ended.tv_sec - began.tv_sec) * 1e9 + (double)(ended.tv_nsec - began.tv_nsec);
    if (count > 1 && !strcmp(words[1], "timed")) printf("%.2f ns a call\n", took / CALLS);
    return status != 0;
}
