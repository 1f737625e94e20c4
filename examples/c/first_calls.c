/* What crates/example_calls does, from C: a machine is opened, called, linked, and changed. It prints a line for each step. */
#include "mhlink.h"
#include <inttypes.h>
#include <stdio.h>
#include <string.h>

static const char definition[] =
    "{\"version\": 2, \"points\": [{\"name\": \"a\", \"cost\": 5}], \"sites\": ["
    "{\"name\": \"f\", \"type\": \"(int)int\", \"key\": 0,"
    " \"target\": [\"point\", \"a\", [\"guard\", [\"insert\", [\"op\", \"ieq\"], 1, [1]],"
    "   [\"drop\", [\"const\", \"int\", 100], 0, [\"int\"]], [\"insert\", [\"op\", \"iadd\"], 1, [1]]], [\"op\", \"ineg\"]],"
    " \"links\": [{\"when\": 1, \"weight\": 3, \"needs\": [\"a\"]}]},"
    "{\"name\": \"g\", \"type\": \"(int)int\", \"level\": 1,"
    " \"target\": [\"return\", [\"invoke\", \"f\"], [\"op\", \"ineg\"]], \"links\": []}]}";

static const char one_less[] = "[\"insert\", [\"op\", \"isub\"], 1, [1]]";

static const uint8_t *bytes(const char *text) { return (const uint8_t *)text; }

static int failed(const char *what, uint32_t status) {
    printf("%s: status %" PRIu32 "\n", what, status);
    return 1;
}

static int call(mhlink_machine *machine, const char *name, size_t site, int32_t argument) {
    mhlink_value value = {MHLINK_INT, argument};
    mhlink_reply reply;
    uint32_t status = mhlink_call(machine, 0, site, &value, 1, bytes(""), 0, &reply);
    if (status) return failed(name, status);
    printf("%s(%" PRId32 "): %" PRId64 "\n", name, argument, reply.number);
    return 0;
}

static int run(mhlink_machine *machine) {
    uint64_t f, g, a, snapshot, plan, linked, part;
    uint32_t status;
    if ((status = mhlink_site(machine, bytes("f"), 1, &f)) || (status = mhlink_site(machine, bytes("g"), 1, &g))
        || (status = mhlink_point(machine, bytes("a"), 1, &a)))
        return failed("names", status);
    if (call(machine, "f", f, 1) || call(machine, "f", f, 1) || call(machine, "f", f, 2)) return 1;
    if ((status = mhlink_flush(machine, 0))) return failed("flush", status);
    puts("flush: ok");
    if ((status = mhlink_snapshot(machine, &snapshot))) return failed("snapshot", status);
    printf("snapshot: %" PRIu64 "\n", snapshot);
    if ((status = mhlink_plan(machine, snapshot, &plan))) return failed("publish", status);
    printf("publish: plan %" PRIu64 "\n", plan);
    if ((status = mhlink_install(machine, plan, &linked, &part))) return failed("install", status);
    printf("install: linked %" PRIu64 "\n", linked);
    if (call(machine, "f", f, 1) || call(machine, "f", f, 2)) return 1;
    uint32_t points[] = {(uint32_t)a};
    if ((status = mhlink_invalidate(machine, points, 1))) return failed("invalidate a", status);
    puts("invalidate a: ok");
    if (call(machine, "f", f, 1)) return 1;
    if ((status = mhlink_target(machine, f, bytes(one_less), strlen(one_less), &part))) return failed("target f", status);
    puts("target f: ok");
    return call(machine, "f", f, 1) || call(machine, "g", g, 3);
}

int main(void) {
    mhlink_limits limits = MHLINK_WIDEST_LIMITS;
    mhlink_machine machine;
    uint64_t part;
    uint32_t status = mhlink_open(bytes(definition), strlen(definition), 1, &limits, &machine, &part);
    if (status) return failed("open", status);
    int result = run(&machine);
    mhlink_close(machine);
    return result;
}
