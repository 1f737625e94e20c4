/* All that a machine does, where one growth of memory is refused: tools/refuse_growth.c, preloaded, refuses the one that REFUSE_AT
   names. A call that is refused with MHLINK_NO_MEMORY is made again, and then gives what it always gives. */
#include "mhlink.h"
#include <inttypes.h>
#include <stdio.h>
#include <string.h>
#include <unistd.h>

static const char definition[] =
    "{\"version\": 2, \"points\": [{\"name\": \"a\", \"cost\": 5}], \"sites\": ["
    "{\"name\": \"f\", \"type\": \"(int)int\", \"key\": 0,"
    " \"target\": [\"point\", \"a\", [\"guard\", [\"insert\", [\"op\", \"ieq\"], 1, [1]],"
    "   [\"drop\", [\"const\", \"int\", 100], 0, [\"int\"]], [\"insert\", [\"op\", \"iadd\"], 1, [1]]], [\"op\", \"ineg\"]],"
    " \"links\": [{\"when\": 1, \"weight\": 3, \"needs\": [\"a\"]}]},"
    "{\"name\": \"join\", \"type\": \"(String,String)String\", \"target\": [\"op\", \"concat\"]}]}";
static const char plan_json[] = "{\"links\": [0], \"points\": [0], \"value\": 1, \"flow\": [[0, 0, 5]]}";
static const char further[] =
    "{\"points\": [{\"name\": \"b\", \"cost\": 2}], \"sites\": [{\"name\": \"g\", \"type\": \"(int)int\", \"level\": 1, \"key\": 0,"
    " \"target\": [\"point\", \"b\", [\"insert\", [\"op\", \"imul\"], 1, [7]], [\"invoke\", \"f\"]],"
    " \"links\": [{\"when\": 1, \"weight\": 2, \"needs\": [\"a\", \"b\"]}]}]}";
static const char one_less[] = "[\"insert\", [\"op\", \"isub\"], 1, [1]]";

static const uint8_t *bytes(const char *text) { return (const uint8_t *)text; }

static unsigned refusals;

#define ASK(CALL) tell(#CALL, again(CALL) ? (CALL) : MHLINK_OK)

/* Whether a call has to be made again. Any other refusal is printed when it is made again. */
static int again(uint32_t status) {
    if (status == MHLINK_NO_MEMORY) refusals++;
    return status != MHLINK_OK;
}

static void tell(const char *what, uint32_t status) {
    if (status) printf("%s: status %" PRIu32 "\n", what, status);
}

/* A plan from arrays, with its flow. */
static void plan_arrays(void) {
    static const uint64_t costs[] = {5};
    static const uint32_t needs[] = {0};
    static const mhlink_problem_link links[] = {{8, 1, 0, 1, 1}};
    uint32_t chosen[1], needed[1];
    uint64_t paid[1], given[1], gets[1];
    size_t length, needed_length;
    int64_t value = 0;
    ASK(mhlink_plan_problem_flow(costs, 1, links, 1, needs, 1, chosen, 1, &length, &value, needed, 1, &needed_length, paid, 1, given, 1,
                                 gets, 1));
    printf("value %" PRId64 ", paid %" PRIu64 ", given %" PRIu64 "\n", value, paid[0], given[0]);
}

int main(void) {
    if (write(STDOUT_FILENO, "opened\n", 7) != 7) return 1;
    static char room[4096]; /* so that printf asks for no memory */
    setvbuf(stdout, room, _IOFBF, sizeof room);
    const mhlink_limits widest = MHLINK_WIDEST_LIMITS;
    const mhlink_value one = {MHLINK_INT, 1}, texts[] = {{MHLINK_STRING, 2}, {MHLINK_STRING, 1}};
    const uint32_t point = 0;
    mhlink_machine machine = {NULL};
    mhlink_reply reply = {0, 0, 0};
    uint64_t number = 0, linked = 0, part;
    uint8_t buffer[128];
    size_t length = 0;
    ASK(mhlink_open(bytes(definition), strlen(definition), 1, &widest, &machine, &part));
    if (!machine.at) return 1;
    ASK(mhlink_call(&machine, 0, 0, &one, 1, bytes(""), 0, &reply));
    printf("f(1): %" PRId64 "\n", reply.number);
    ASK(mhlink_call(&machine, 0, 0, &one, 1, bytes(""), 0, &reply));
    ASK(mhlink_call(&machine, 0, 1, texts, 2, bytes("abc"), 3, &reply));
    ASK(mhlink_text(&machine, buffer, sizeof buffer, &length));
    printf("join(ab, c): %.*s\n", (int)length, (const char *)buffer);
    ASK(mhlink_flush(&machine, 0));
    ASK(mhlink_snapshot(&machine, &number));
    ASK(mhlink_certificate(&machine, number, buffer, sizeof buffer, &length));
    printf("%.*s\n", (int)length, (const char *)buffer);
    ASK(mhlink_plan(&machine, 1, &number));
    ASK(mhlink_offer(&machine, 1, bytes(plan_json), strlen(plan_json), &number, &part));
    ASK(mhlink_install(&machine, number, &linked, &part));
    printf("plan %" PRIu64 " links %" PRIu64 "\n", number, linked);
    ASK(mhlink_call(&machine, 0, 0, &one, 1, bytes(""), 0, &reply));
    printf("f(1): %" PRId64 "\n", reply.number);
    ASK(mhlink_target(&machine, 0, bytes(one_less), strlen(one_less), &part));
    ASK(mhlink_invalidate(&machine, &point, 1));
    ASK(mhlink_call(&machine, 0, 0, &one, 1, bytes(""), 0, &reply));
    ASK(mhlink_hits(&machine, 0, 0, &number));
    ASK(mhlink_total(&machine, 0, &part));
    printf("f(1): %" PRId64 ", hits %" PRIu64 ", total %" PRIu64 "\n", reply.number, number, part);
    mhlink_usage used = {0, 0, 0};
    ASK(mhlink_renew(&machine, &point, 1, MHLINK_HALVE_HITS));
    ASK(mhlink_used(&machine, &used));
    ASK(mhlink_call(&machine, 0, 0, &one, 1, bytes(""), 0, &reply));
    ASK(mhlink_hits(&machine, 0, 0, &number));
    ASK(mhlink_total(&machine, 0, &part));
    printf("renewed: f(1) %" PRId64 ", hits %" PRIu64 ", total %" PRIu64 ", records %" PRIu64 "\n", reply.number, number, part,
           used.records);
    ASK(mhlink_extend(&machine, bytes(further), strlen(further), &part));
    ASK(mhlink_used(&machine, &used));
    ASK(mhlink_call(&machine, 0, 2, &one, 1, bytes(""), 0, &reply));
    ASK(mhlink_hits(&machine, 0, 1, &number));
    ASK(mhlink_total(&machine, 0, &part));
    printf("extended: g(1) %" PRId64 ", hits %" PRIu64 ", total %" PRIu64 ", records %" PRIu64 "\n", reply.number, number, part,
           used.records);
    mhlink_close(machine);
    plan_arrays();
    if (refusals > 1) printf("%u refusals\n", refusals);
    return 0;
}
