/* How long a renewal of a machine takes, beside closing it and opening another on the same definition. `renewals SITES` prints the
   milliseconds of both, the least of several runs. Each site tests a class and has a link for it; every tenth has another tree
   than it was declared with. */
#include "mhlink.h"
#include <inttypes.h>
#include <stdio.h>
#include <stdlib.h>
#include <string.h>
#include <time.h>

enum { MOST = 4096, RUNS = 9, LONGEST = 1 << 20 };

static char definition[LONGEST];

static const uint8_t *bytes(const char *text) { return (const uint8_t *)text; }

static size_t write_definition(int sites) {
    char *to = definition + sprintf(definition, "{\"version\":2,\"points\":[{\"name\":\"p\",\"cost\":1}],\"sites\":[");
    for (int site = 0; site < sites; site++)
        to += sprintf(to,
                      "%s{\"name\":\"s%d\",\"type\":\"(int)int\",\"key\":0,\"target\":[\"point\",\"p\",[\"guard\",[\"insert\",[\"op\",\"ieq\"],1,[%d]],"
                      "[\"op\",\"ineg\"],[\"id\",\"int\"]],[\"id\",\"int\"]],\"links\":[{\"when\":1,\"weight\":1,\"needs\":[\"p\"]}]}",
                      site ? "," : "", site, site);
    return (size_t)(to + sprintf(to, "]}") - definition);
}

static double now(void) {
    struct timespec it;
    clock_gettime(CLOCK_MONOTONIC, &it);
    return (double)it.tv_sec * 1e3 + (double)it.tv_nsec / 1e6;
}

static uint32_t open_machine(size_t length, int sites, mhlink_machine *machine) {
    static const char tree[] = "[\"insert\",[\"op\",\"iadd\"],1,[1]]";
    mhlink_limits limits = MHLINK_WIDEST_LIMITS;
    uint64_t part;
    uint32_t status = mhlink_open(bytes(definition), length, 1, &limits, machine, &part);
    for (size_t site = 0; !status && site < (size_t)sites; site += 10)
        status = mhlink_target(machine, site, bytes(tree), strlen(tree), &part);
    return status;
}

int main(int count, char **words) {
    int sites = count > 1 ? atoi(words[1]) : 0;
    double renewed = 1e9, opened = 1e9;
    if (sites < 1 || sites > MOST) return 2;
    size_t length = write_definition(sites);
    for (int run = 0; run < RUNS; run++) {
        mhlink_machine machine;
        uint32_t status = open_machine(length, sites, &machine);
        double began = now();
        if (!status) status = mhlink_renew(&machine, NULL, 0, MHLINK_KEEP_HITS);
        double took = now() - began;
        if (status) return 1;
        renewed = took < renewed ? took : renewed;
        began = now();
        mhlink_close(machine);
        status = open_machine(length, sites, &machine);
        took = now() - began;
        if (status) return 1;
        opened = took < opened ? took : opened;
        mhlink_close(machine);
    }
    printf("renewed %.2f ms, closed and opened %.2f ms\n", renewed, opened);
    return 0;
}
