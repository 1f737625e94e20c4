/* Callers that are wrong in every way that C allows within the contract of mhlink.h: numbers out of range, lengths of 0, values
   of no kind, texts past the limits, JSON cut anywhere. Each answer is a status, and the machine is as before: f(1) gives 100,
   and no hit is counted. It prints the number of refused calls, and of wrong answers, which is to be 0. */
#include "mhlink.h"
#include <inttypes.h>
#include <stdio.h>
#include <stdlib.h>
#include <string.h>

static const char definition[] =
    "{\"version\": 2, \"points\": [{\"name\": \"a\", \"cost\": 5}], \"sites\": ["
    "{\"name\": \"f\", \"type\": \"(int)int\", \"key\": 0,"
    " \"target\": [\"point\", \"a\", [\"guard\", [\"insert\", [\"op\", \"ieq\"], 1, [1]],"
    "   [\"drop\", [\"const\", \"int\", 100], 0, [\"int\"]], [\"insert\", [\"op\", \"iadd\"], 1, [1]]], [\"op\", \"ineg\"]],"
    " \"links\": [{\"when\": 1, \"weight\": 3, \"needs\": [\"a\"]}]},"
    "{\"name\": \"twice\", \"type\": \"(String)String\","
    " \"target\": [\"permute\", [\"op\", \"concat\"], \"(String)String\", [0, 0]]},"
    "{\"name\": \"all\", \"type\": \"(long,boolean,String)long\","
    " \"target\": [\"drop\", [\"id\", \"long\"], 1, [\"boolean\", \"String\"]]}]}";

static const char tree[] = "[\"insert\", [\"op\", \"isub\"], 1, [1]]";
static const mhlink_limits widest = MHLINK_WIDEST_LIMITS;
static const size_t numbers[] = {3, 4, 1u << 20, UINT32_MAX, (size_t)1 << 32, SIZE_MAX / 2, SIZE_MAX};
enum { NUMBERS = sizeof numbers / sizeof *numbers };

static unsigned refused, wrong;
static mhlink_machine machine;

static const uint8_t *bytes(const char *text) { return (const uint8_t *)text; }

/* The machine is as it was opened. */
static int is_as_before(void) {
    const mhlink_value two = {MHLINK_INT, 2};
    mhlink_reply reply = {0, 0, 0};
    uint64_t hits = 1, total = 1, links = 1;
    return mhlink_call(&machine, 0, 0, &two, 1, bytes(""), 0, &reply) == MHLINK_OK && reply.number == 3
        && mhlink_hits(&machine, 0, 0, &hits) == MHLINK_OK && hits == 0
        && mhlink_total(&machine, 0, &total) == MHLINK_OK && total == 0
        && mhlink_linked(&machine, 0, &links) == MHLINK_OK && links == 0;
}

static void expect(const char *what, uint32_t status, uint32_t wanted) {
    if (status == wanted && is_as_before()) {
        refused++;
    } else {
        wrong++;
        printf("%s: status %" PRIu32 ", and not %" PRIu32 "\n", what, status, wanted);
    }
}

static uint32_t call(uint32_t worker, size_t site, const mhlink_value *values, size_t count, const char *texts, size_t length) {
    mhlink_reply reply;
    return mhlink_call(&machine, worker, site, values, count, bytes(texts), length, &reply);
}

static void wrong_numbers(void) {
    const mhlink_value one = {MHLINK_INT, 1};
    uint64_t out, part;
    uint32_t point = 1;
    for (int i = 0; i < NUMBERS; i++) {
        size_t n = numbers[i];
        expect("site", call(0, n, &one, 1, "", 0), MHLINK_NO_SITE);
        expect("worker", call(UINT32_MAX >> i, 0, &one, 1, "", 0), MHLINK_NO_WORKER);
        expect("target", mhlink_target(&machine, n, bytes(tree), strlen(tree), &part), MHLINK_NO_SITE);
        expect("link", mhlink_link(&machine, n, &one, bytes(""), 0, &out), MHLINK_UNKNOWN);
        expect("hits of a link", mhlink_hits(&machine, 0, n, &out), MHLINK_UNKNOWN);
        expect("hits of a worker", mhlink_hits(&machine, 1 + i, 0, &out), MHLINK_UNKNOWN);
        expect("total", mhlink_total(&machine, n, &out), MHLINK_UNKNOWN);
        expect("linked", mhlink_linked(&machine, n, &out), MHLINK_UNKNOWN);
        expect("plan", mhlink_plan(&machine, n, &out), MHLINK_NO_SNAPSHOT);
        expect("install", mhlink_install(&machine, n, &out, &part), MHLINK_NO_PLAN);
        expect("flush", mhlink_flush(&machine, 1 + i), MHLINK_NO_WORKER);
        expect("invalidate", mhlink_invalidate(&machine, &point, 1), MHLINK_NO_POINT);
        expect("renew", mhlink_renew(&machine, NULL, 0, i ? UINT32_MAX >> i : 3), MHLINK_UNKNOWN);
        expect("again", mhlink_renew(&machine, &point, 1, MHLINK_KEEP_HITS), MHLINK_NO_POINT);
        point = UINT32_MAX >> i;
    }
}

static void wrong_values(void) {
    const mhlink_value values[] = {{0, 1}, {5, 1}, {6, 1}, {UINT32_MAX, 1}, {MHLINK_INT, (int64_t)INT32_MAX + 1}, {MHLINK_INT, INT64_MIN},
                                   {MHLINK_BOOLEAN, 2}, {MHLINK_BOOLEAN, -1}, {MHLINK_STRING, -1}, {MHLINK_STRING, 1},
                                   {MHLINK_STRING, INT64_MAX}, {MHLINK_STRING, 65537}};
    for (size_t i = 0; i < sizeof values / sizeof *values; i++) expect("value", call(0, 0, &values[i], 1, "", 0), MHLINK_BAD_VALUE);
    const mhlink_value lawful[] = {{MHLINK_LONG, 1}, {MHLINK_BOOLEAN, 1}, {MHLINK_STRING, 0}};
    for (int i = 0; i < 3; i++) expect("kind", call(0, 0, &lawful[i], 1, "", 0), MHLINK_WRONG_TYPE);
    expect("count", call(0, 0, lawful, 0, "", 0), MHLINK_WRONG_TYPE);
    expect("count", call(0, 0, lawful, 3, "", 0), MHLINK_WRONG_TYPE);
    const mhlink_value text = {MHLINK_STRING, 2};
    expect("text", call(0, 1, &text, 1, "\xff\xfe", 2), MHLINK_BAD_VALUE);
    expect("text", call(0, 1, &text, 1, "a\n", 2), MHLINK_BAD_VALUE);
    expect("text", call(0, 1, &text, 1, "ab", 1), MHLINK_BAD_VALUE);
    uint8_t buffer[4];
    size_t length = 9;
    expect("all kinds", call(0, 2, lawful, 3, "", 0), MHLINK_OK);
    expect("no text", mhlink_text(&machine, buffer, 4, &length), MHLINK_UNKNOWN);
}

/* A text comes back whole, and a short buffer is left alone. */
static void texts(void) {
    mhlink_value text = {MHLINK_STRING, 3};
    uint8_t buffer[] = "......";
    size_t length = 0;
    mhlink_reply reply = {0, 0, 0};
    for (size_t room = 0; room <= 6; room++) {
        uint32_t status = mhlink_call(&machine, 0, 1, &text, 1, bytes("abc"), 3, &reply);
        if (!status) status = mhlink_text(&machine, buffer, room, &length);
        int left = memcmp(buffer, room < 6 ? "......" : "abcabc", 6) == 0;
        if (status == (room < 6 ? MHLINK_SHORT : MHLINK_OK) && length == 6 && reply.kind == MHLINK_STRING && reply.number == 6 && left) refused++;
        else wrong++;
    }
    char *longest = malloc(65536);
    if (!longest) exit(1);
    memset(longest, 'x', 65536);
    text.number = 65536;
    uint32_t status = mhlink_call(&machine, 0, 1, &text, 1, bytes(longest), 65536, &reply);
    if (status == MHLINK_OK && reply.kind == MHLINK_THROWN && reply.number == 2) refused++;
    else wrong++;
    free(longest);
}

/* So does the report, which changes nothing. */
static void reports(void) {
    static const char wanted[] =
        "point a cost 5 valid links 0\n"
        "site f type (int)int retargeted 0 installed 0\n"
        "site twice type (String)String retargeted 0 installed 0\n"
        "site all type (long,boolean,String)long retargeted 0 installed 0\n"
        "link 0 site f when int 1 weight 3 hits 0 flushed 0 unflushed 0 gain 0 installed no\n";
    uint8_t buffer[sizeof wanted];
    size_t length = 0;
    expect("no room", mhlink_report(&machine, NULL, 0, &length), MHLINK_SHORT);
    if (length != strlen(wanted)) wrong++;
    expect("short", mhlink_report(&machine, buffer, length - 1, &length), MHLINK_SHORT);
    expect("report", mhlink_report(&machine, buffer, sizeof buffer, &length), MHLINK_OK);
    if (length != strlen(wanted) || memcmp(buffer, wanted, length)) wrong++;
}

static void cut_json(void) {
    uint64_t out, part;
    mhlink_machine other = {NULL};
    for (size_t length = 0; length < strlen(definition); length++)
        expect("definition", mhlink_open(bytes(definition), length, 1, &widest, &other, &part), MHLINK_NOT_JSON);
    for (size_t length = 0; length < strlen(tree); length++)
        expect("tree", mhlink_target(&machine, 0, bytes(tree), length, &part), MHLINK_NOT_JSON);
    static const char plan[] = "{\"links\": [0], \"points\": [0], \"value\": 1, \"flow\": [[0, 0, 5]]}";
    for (size_t length = 0; length < strlen(plan); length++)
        expect("plan", mhlink_offer(&machine, 1, bytes(plan), length, &out, &part), MHLINK_NOT_JSON);
    expect("plan", mhlink_offer(&machine, 1, bytes(plan), strlen(plan), &out, &part), MHLINK_NO_SNAPSHOT);
    static const char *trees[] = {"1", "null", "{}", "[\"op\"]", "[\"op\", \"iadd\"], 1", "[\"ref\", \"x\"]"};
    static const uint32_t faults[] = {104, 104, 104, 104, 103, 106};
    for (int i = 0; i < 6; i++) expect(trees[i], mhlink_target(&machine, 0, bytes(trees[i]), strlen(trees[i]), &part), faults[i]);
    if (part) wrong++;
    expect("type", mhlink_target(&machine, 0, bytes("[\"op\", \"iadd\"]"), 14, &part), MHLINK_WRONG_TYPE);
    static const char past[] = "[\"insert\", [\"op\", \"ineg\"], 1, [5]]";
    expect("place", mhlink_target(&machine, 0, bytes(past), strlen(past), &part), MHLINK_BAD_TREE);
    if (part != 2) wrong++;
    if (other.at) wrong++;
}

static void wrong_openings(void) {
    const mhlink_limits limits[] = {{(1u << 20) + 1, 1, 0}, {0, 0, 0}, {0, (1u << 20) + 1, 0}, {0, 1, ((uint64_t)1 << 40) + 1}};
    mhlink_machine other = {NULL};
    uint64_t part;
    for (int i = 0; i < 4; i++)
        expect("limits", mhlink_open(bytes(definition), strlen(definition), 1, &limits[i], &other, &part), MHLINK_BAD_LIMITS);
    expect("workers", mhlink_open(bytes(definition), strlen(definition), 0, &widest, &other, &part), MHLINK_BAD_LIMITS);
    expect("workers", mhlink_open(bytes(definition), strlen(definition), 65, &widest, &other, &part), MHLINK_BAD_LIMITS);
    expect("empty", mhlink_open(bytes("{}"), 2, 1, &widest, &other, &part), MHLINK_BAD_SHAPE);
    uint8_t *zeros = calloc(1, (1 << 20) + 1);
    if (!zeros) exit(1);
    expect("long", mhlink_open(zeros, (1 << 20) + 1, 1, &widest, &other, &part), MHLINK_TOO_LONG);
    free(zeros);
    uint64_t number;
    expect("name", mhlink_site(&machine, bytes("g"), 1, &number), MHLINK_UNKNOWN);
    expect("name", mhlink_site(&machine, bytes("f"), 0, &number), MHLINK_UNKNOWN);
    expect("name", mhlink_point(&machine, bytes("ab"), 2, &number), MHLINK_UNKNOWN);
}

/* A history without room for its first records is not begun anew, and a machine that was renewed is as before. */
static void renewals(void) {
    const mhlink_limits limits = {1, 1, 1};
    mhlink_machine short_one = {NULL};
    mhlink_usage used = {9, 9, 9};
    uint64_t part;
    expect("open", mhlink_open(bytes(definition), strlen(definition), 1, &limits, &short_one, &part), MHLINK_OK);
    for (uint32_t hits = MHLINK_KEEP_HITS; hits <= MHLINK_DROP_HITS; hits++)
        expect("no room", mhlink_renew(&short_one, NULL, 0, hits), MHLINK_HISTORY_FULL);
    expect("no number", mhlink_renew(&short_one, NULL, 0, MHLINK_DROP_HITS + 1), MHLINK_UNKNOWN);
    expect("used", mhlink_used(&short_one, &used), MHLINK_OK);
    if (used.records || used.snapshots || used.plans) wrong++;
    mhlink_close(short_one);
    for (uint32_t hits = MHLINK_KEEP_HITS; hits <= MHLINK_DROP_HITS; hits++) expect("renew", mhlink_renew(&machine, NULL, 0, hits), MHLINK_OK);
    expect("used", mhlink_used(&machine, &used), MHLINK_OK);
    if (used.records != 2 || used.snapshots || used.plans) wrong++;
}

static uint32_t resume(uint32_t workers, mhlink_limits limits, uint32_t invalid, size_t links, mhlink_machine *resumed) {
    static const uint64_t totals[] = {7, 7};
    uint64_t part;
    return mhlink_resume(bytes(definition), strlen(definition), workers, &limits, &invalid, 1, totals, links, resumed, &part);
}

/* A machine does not go on from what is not there or past a limit, and one that goes on has the points and totals of before. */
static void resumptions(void) {
    const mhlink_limits short_one = {1, 1, 7}, narrow = {2, 1, 6};
    const mhlink_value one = {MHLINK_INT, 1};
    mhlink_machine resumed = {NULL};
    mhlink_reply reply = {0, 0, 0};
    mhlink_usage used = {9, 9, 9};
    uint64_t total = 0;
    expect("resume without a worker", resume(0, widest, 0, 1, &resumed), MHLINK_BAD_LIMITS);
    expect("resume without a point", resume(1, widest, 1, 1, &resumed), MHLINK_NO_POINT);
    expect("resume without a total", resume(1, widest, 0, 0, &resumed), MHLINK_UNKNOWN);
    expect("resume with two totals", resume(1, widest, 0, 2, &resumed), MHLINK_UNKNOWN);
    expect("resume without room", resume(1, short_one, 0, 1, &resumed), MHLINK_HISTORY_FULL);
    expect("resume past a limit", resume(1, narrow, 0, 1, &resumed), MHLINK_TOTAL_TOO_LARGE);
    expect("resume", resume(1, widest, 0, 1, &resumed), MHLINK_OK);
    expect("resumed total", mhlink_total(&resumed, 0, &total), MHLINK_OK);
    expect("resumed call", mhlink_call(&resumed, 0, 0, &one, 1, bytes(""), 0, &reply), MHLINK_OK);
    expect("resumed records", mhlink_used(&resumed, &used), MHLINK_OK);
    if (total != 7 || reply.number != -1 || used.records != 2) wrong++;
    mhlink_close(resumed);
}

static void wrong_problems(void) {
    const uint64_t costs[] = {5};
    const uint32_t needs[] = {0, 0, 1};
    const mhlink_problem_link links[] = {{7, 0, 0, 1, 1}, {1, 0, 0, 4, 1}, {1, 0, 4, 0, 1}, {1, 0, SIZE_MAX, 1, 1}, {1, 0, 1, SIZE_MAX, 1},
                                         {1, 0, 0, 2, 1}, {1, 0, 2, 1, 1}};
    uint32_t chosen[1];
    size_t length = 9;
    int64_t value = 0;
    for (int i = 1; i < 5; i++)
        expect("needs", mhlink_plan_problem(costs, 1, &links[i], 1, needs, 3, chosen, 1, &length, &value), MHLINK_UNKNOWN);
    for (int i = 5; i < 7; i++) {
        uint32_t status = mhlink_plan_problem(costs, 1, &links[i], 1, needs, 3, chosen, 1, &length, &value);
        if (status > MHLINK_PROBLEM && status < MHLINK_UNKNOWN) refused++;
        else wrong++;
    }
    expect("short", mhlink_plan_problem(costs, 1, links, 1, needs, 3, chosen, 0, &length, &value), MHLINK_SHORT);
    expect("planned", mhlink_plan_problem(costs, 1, links, 1, needs, 3, chosen, 1, &length, &value), MHLINK_OK);
    if (length != 1 || chosen[0] != 0 || value != 2) wrong++;
}

/* What a plan with its flow is written to: two links have one need, for which they cannot pay; a third pays its charge and its point. */
typedef struct flow_arrays {
    int64_t value;
    uint64_t paid[3], given[2], gets[2];
    uint32_t chosen[1], needed[1];
} flow_arrays;

static const size_t enough[] = {1, 1, 3, 2, 2};
static const mhlink_problem_link sharing[] = {{4, 0, 0, 1, 1}, {3, 0, 0, 1, 1}, {8, 1, 1, 1, 1}};

static uint32_t plan_flow(flow_arrays *to, const mhlink_problem_link *links, size_t count, const size_t *room, size_t *lengths) {
    static const uint64_t costs[] = {9, 5};
    static const uint32_t needs[] = {0, 1};
    return mhlink_plan_problem_flow(costs, 2, links, count, needs, 2, to->chosen, room[0], &lengths[0], &to->value, to->needed, room[1],
                                    &lengths[1], to->paid, room[2], to->given, room[3], to->gets, room[4]);
}

static void flows(void) {
    static const mhlink_problem_link faulty[] = {{1, 0, 1, 2, 1}, {1, 0, SIZE_MAX, 1, 1}, {UINT64_MAX, 0, 0, 1, 1}};
    static const uint32_t faults[] = {MHLINK_UNKNOWN, MHLINK_UNKNOWN, MHLINK_PROBLEM + 2};
    flow_arrays arrays, before;
    size_t lengths[] = {9, 9};
    memset(&arrays, 0xee, sizeof arrays);
    memset(&before, 0xee, sizeof before);
    for (int i = 0; i < 3; i++) expect("flow", plan_flow(&arrays, &faulty[i], 1, enough, lengths), faults[i]);
    if (lengths[0] != 9 || lengths[1] != 9) wrong++;
    for (int i = 0; i < 5; i++) {
        size_t room[5];
        memcpy(room, enough, sizeof room);
        room[i]--;
        expect("short", plan_flow(&arrays, sharing, 3, room, lengths), MHLINK_SHORT);
    }
    if (memcmp(&arrays, &before, sizeof arrays) || lengths[0] != 1 || lengths[1] != 1) wrong++;
    expect("flow", plan_flow(&arrays, sharing, 3, enough, lengths), MHLINK_OK);
    const flow_arrays wanted = {2, {0, 0, 1}, {7, 5}, {7, 5}, {2}, {1}};
    if (memcmp(&arrays, &wanted, sizeof arrays) || lengths[0] != 1 || lengths[1] != 1) wrong++;
}

int main(void) {
    uint64_t part;
    uint32_t status = mhlink_open(bytes(definition), strlen(definition), 1, &widest, &machine, &part);
    if (status) {
        printf("open: status %" PRIu32 ", part %" PRIu64 "\n", status, part);
        return 1;
    }
    wrong_numbers();
    wrong_values();
    texts();
    reports();
    cut_json();
    wrong_openings();
    renewals();
    resumptions();
    wrong_problems();
    flows();
    mhlink_close(machine);
    printf("%u wrong\n", wrong);
    return refused == 0 || wrong != 0;
}
