/* How an interpreter dispatches by mhlink: methods are functions of the host, and a call site answers a method's number. A number
   stands behind the point on which it rests: that the method is not redefined, or that a class has no subclass. The answer -1 asks
   the host, which looks the method up in its classes, as an interpreter without inline caches does at each send, and gives the
   site a tree that knows it. Each method that a site answers is compared with the one that the classes have. */
#include "mhlink.h"
#include <inttypes.h>
#include <stdio.h>
#include <string.h>

enum { CIRCLE, SQUARE, RING, CLASSES };
enum { AREA, CENTRE, SITES };
enum { ASK = -1, OBJECTS = 90, ROUNDS = 40 };

typedef struct {
    int class;
    int64_t size, hole;
} object;

/* The methods, by number. */
static int64_t area_of_circle(const object *it) { return 3 * it->size * it->size; }
static int64_t area_of_square(const object *it) { return it->size * it->size; }
static int64_t area_of_ring(const object *it) { return 3 * (it->size * it->size - it->hole * it->hole); }
static int64_t area_in_feet(const object *it) { return 11 * it->size * it->size; }
static int64_t centre_of_circle(const object *it) { return it->size; }
static int64_t centre_of_ring(const object *it) { return it->size - it->hole; }
static int64_t (*const methods[])(const object *) = {area_of_circle, area_of_square, area_of_ring, area_in_feet, centre_of_circle, centre_of_ring};

/* The classes of the host: the number of each method, and the point on which a site's answer with it rests. */
static int32_t numbers[SITES][CLASSES] = {{0, 1, 2}, {4, ASK, 5}};
static const char *points[SITES][CLASSES] = {
    {"Circle.area", "Square.area", "Ring.area"},
    {"Circle.has-no-subclass", NULL, NULL},
};
static int known[SITES][CLASSES] = {{1, 1, 0}, {1, 0, 0}};

static mhlink_machine machine;
static object objects[OBJECTS];
static uint64_t sends, asked, differ;
static char text[4096];

static const uint8_t *bytes(const char *it) { return (const uint8_t *)it; }

/* The answer with a number, behind its point. */
static char *put_answer(char *to, int32_t number, const char *point) {
    if (point) to += sprintf(to, "[\"point\",\"%s\",", point);
    to += sprintf(to, "[\"drop\",[\"const\",\"int\",%" PRId32 "],0,[\"int\"]]", number);
    if (point) to += sprintf(to, ",[\"drop\",[\"const\",\"int\",%d],0,[\"int\"]]]", ASK);
    return to;
}

/* The tree of a site: a test of each class that it knows, one in the fallback of another, and last the host is asked. Circles alone
   send "centre" as long as Circle has no subclass, so that nothing is tested there. */
static size_t put_tree(char *to, int site) {
    const char *begin = to;
    int tests = 0;
    if (site == CENTRE && !known[CENTRE][RING]) return (size_t)(put_answer(to, numbers[CENTRE][CIRCLE], points[CENTRE][CIRCLE]) - begin);
    for (int class = 0; class < CLASSES; class++) {
        if (!known[site][class]) continue;
        to += sprintf(to, "[\"guard\",[\"insert\",[\"op\",\"ieq\"],1,[%d]],", class);
        to = put_answer(to, numbers[site][class], points[site][class]);
        *to++ = ',';
        tests++;
    }
    to = put_answer(to, ASK, NULL);
    while (tests--) *to++ = ']';
    *to = 0;
    return (size_t)(to - begin);
}

static uint32_t open_machine(void) {
    static const char *const names[] = {"Circle.area", "Square.area", "Ring.area", "Square.area-in-feet", "Circle.has-no-subclass"};
    char *to = text + sprintf(text, "{\"version\":2,\"points\":[");
    for (size_t point = 0; point < sizeof names / sizeof *names; point++)
        to += sprintf(to, "%s{\"name\":\"%s\",\"cost\":100}", point ? "," : "", names[point]);
    to += sprintf(to, "],\"sites\":[{\"name\":\"area\",\"type\":\"(int)int\",\"key\":0,\"target\":");
    to += put_tree(to, AREA);
    to += sprintf(to, ",\"links\":[{\"when\":%d,\"weight\":4,\"needs\":[\"Circle.area\"]},", CIRCLE);
    to += sprintf(to, "{\"when\":%d,\"weight\":4,\"needs\":[\"Square.area\"]}]},", SQUARE);
    to += sprintf(to, "{\"name\":\"centre\",\"type\":\"(int)int\",\"target\":");
    to += put_tree(to, CENTRE);
    to += sprintf(to, ",\"links\":[]}]}");
    const mhlink_limits limits = {1000, 1u << 20, (uint64_t)1 << 40};
    uint64_t part;
    return mhlink_open(bytes(text), (size_t)(to - text), 1, &limits, &machine, &part);
}

/* A send: the site's answer, or that of the host, which teaches the site the class. */
static uint32_t send(size_t site, const object *receiver, int64_t *result) {
    const mhlink_value value = {MHLINK_INT, receiver->class};
    mhlink_reply reply;
    uint32_t status = mhlink_call(&machine, 0, site, &value, 1, bytes(""), 0, &reply);
    if (status) return status;
    const int32_t number = numbers[site][receiver->class];
    sends++;
    if (reply.number == ASK) {
        asked++;
        known[site][receiver->class] = 1;
        uint64_t part = 0;
        status = mhlink_target(&machine, site, bytes(text), put_tree(text, (int)site), &part);
    } else if (reply.kind != MHLINK_INT || reply.number != number) {
        differ++;
    }
    *result = methods[number](receiver);
    return status;
}

/* A round: each object is asked for its area, and each that is a circle or a ring for its centre. */
static uint32_t run_round(int64_t *sum) {
    for (int at = 0; at < OBJECTS; at++) {
        int64_t area = 0, centre = 0;
        uint32_t status = send(AREA, &objects[at], &area);
        if (!status && objects[at].class != SQUARE) status = send(CENTRE, &objects[at], &centre);
        if (status) return status;
        *sum += area + centre;
    }
    return MHLINK_OK;
}

/* What a point says holds no longer. */
static uint32_t invalidate(const char *name) {
    uint64_t found;
    uint32_t status = mhlink_point(&machine, bytes(name), strlen(name), &found);
    const uint32_t point = (uint32_t)found;
    return status ? status : mhlink_invalidate(&machine, &point, 1);
}

/* Square.area is redefined: the next square that is sent "area" asks the host. */
static uint32_t redefine(void) {
    numbers[AREA][SQUARE] = 3;
    points[AREA][SQUARE] = "Square.area-in-feet";
    return invalidate("Square.area");
}

/* Ring, a subclass of Circle, is loaded: a third of the circles are rings from now on. */
static uint32_t load_ring(void) {
    for (int at = 0; at < OBJECTS; at += 3)
        if (objects[at].class == CIRCLE) objects[at] = (object){RING, objects[at].size, 1};
    points[CENTRE][CIRCLE] = NULL;
    return invalidate("Circle.has-no-subclass");
}

/* The links whose gain is more than the points that they need are the site's inline cache. */
static uint32_t link_sites(uint64_t *linked) {
    uint64_t snapshot, plan, part;
    uint32_t status = mhlink_flush(&machine, 0);
    if (!status) status = mhlink_snapshot(&machine, &snapshot);
    if (!status) status = mhlink_plan(&machine, snapshot, &plan);
    return status ? status : mhlink_install(&machine, plan, linked, &part);
}

static uint32_t run(void) {
    int64_t sum = 0;
    uint64_t linked = 0;
    uint32_t status = MHLINK_OK;
    for (int round = 0; round < ROUNDS && !status; round++) {
        if (round == 10) status = link_sites(&linked);
        if (round == 20) status = redefine();
        if (round == 30) status = load_ring();
        if (!status) status = run_round(&sum);
    }
    printf("%" PRIu64 " sites linked, the sum of all rounds is %" PRId64 "\n", linked, sum);
    return status;
}

int main(void) {
    for (int at = 0; at < OBJECTS; at++) objects[at] = (object){at % 3 == 1 ? SQUARE : CIRCLE, 2, 0};
    uint32_t status = open_machine();
    if (status) {
        printf("open: status %" PRIu32 "\n", status);
        return 1;
    }
    status = run();
    printf("%" PRIu64 " sends, of which %" PRIu64 " asked the host\n", sends, asked);
    printf("status %" PRIu32 ", %" PRIu64 " differ\n", status, differ);
    mhlink_close(machine);
    return status != 0 || differ != 0;
}
