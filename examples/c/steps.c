/* Counts the nodes that calls evaluate, by a site that tests its argument against six classes in turn: as declared, through the
   inline cache of four classes that an installation makes, and after the point of these classes became invalid. It prints a line for
   each call. A test enters three nodes (guard, insert, ieq), a class two (drop, const), the point one, and ineg one. */
#include "mhlink.h"
#include <inttypes.h>
#include <stdio.h>
#include <string.h>

#define TEST(class, rest) "[\"guard\",[\"insert\",[\"op\",\"ieq\"],1,[" #class "]],[\"drop\",[\"const\",\"int\"," #class "],0,[\"int\"]]," rest "]"
#define LINK(class) "{\"when\":" #class ",\"weight\":5,\"needs\":[\"p\"]}"

static const char definition[] =
    "{\"version\":2,\"points\":[{\"name\":\"p\",\"cost\":1}],\"sites\":[{\"name\":\"f\",\"type\":\"(int)int\",\"key\":0,\"target\":"
    TEST(10, TEST(20, TEST(30, TEST(40, TEST(50, TEST(60, "[\"op\",\"ineg\"]"))))))
    ",\"links\":[" LINK(60) "," LINK(50) "," LINK(40) "," LINK(30) "]}]}";

static const uint8_t none[1];

static int failed(const char *what, uint32_t status) {
    printf("%s: status %" PRIu32 "\n", what, status);
    return 1;
}

static int call_each(mhlink_machine *machine, const char *when) {
    static const int32_t arguments[] = {10, 20, 30, 40, 50, 60, 7};
    puts(when);
    for (size_t at = 0; at < sizeof arguments / sizeof *arguments; at++) {
        const mhlink_value value = {MHLINK_INT, arguments[at]};
        mhlink_reply reply;
        const uint32_t status = mhlink_call(machine, 0, 0, &value, 1, none, 0, &reply);
        if (status) return failed("call", status);
        printf("f(%" PRId32 "): %" PRId64 " in %" PRIu64 " steps\n", arguments[at], reply.number, reply.steps);
    }
    return 0;
}

static int run(mhlink_machine *machine) {
    uint64_t snapshot, plan, linked, part;
    const uint32_t points[] = {0};
    uint32_t status;
    if (call_each(machine, "as declared")) return 1;
    if ((status = mhlink_flush(machine, 0)) || (status = mhlink_snapshot(machine, &snapshot)) || (status = mhlink_plan(machine, snapshot, &plan))
        || (status = mhlink_install(machine, plan, &linked, &part)))
        return failed("install", status);
    if (call_each(machine, "through a cache of four classes")) return 1;
    if ((status = mhlink_invalidate(machine, points, 1))) return failed("invalidate", status);
    return call_each(machine, "after the point became invalid");
}

int main(void) {
    const mhlink_limits limits = MHLINK_WIDEST_LIMITS;
    mhlink_machine machine;
    uint64_t part;
    const uint32_t status = mhlink_open((const uint8_t *)definition, strlen(definition), 1, &limits, &machine, &part);
    if (status) return failed("open", status);
    const int result = run(&machine);
    mhlink_close(machine);
    return result;
}
