/* What can be asked of a machine and of a desk: what is declared, what stands, and what a plan has. */
#include "mhlink.h"
#include <inttypes.h>
#include <stdio.h>
#include <string.h>

static const char definition[] =
    "{\"version\": 2, \"points\": [{\"name\": \"a\", \"cost\": 5}, {\"name\": \"b\", \"cost\": 9}], \"sites\": ["
    "{\"name\": \"e\", \"type\": \"()String\", \"target\": [\"const\", \"String\", \"\"], \"links\": []},"
    "{\"name\": \"f\", \"type\": \"(long,int)boolean\", \"level\": 2, \"key\": 1,"
    " \"target\": [\"drop\", [\"const\", \"boolean\", true], 0, [\"long\", \"int\"]],"
    " \"links\": [{\"when\": 1, \"weight\": 6, \"needs\": [\"a\"]}, {\"when\": 2, \"weight\": 3, \"charge\": 4, \"needs\": [\"a\", \"b\"]}]},"
    "{\"name\": \"g\", \"type\": \"(String)String\", \"key\": 0, \"target\": [\"id\", \"String\"],"
    " \"links\": [{\"when\": \"none\", \"weight\": 1, \"needs\": []}]}]}";

static mhlink_machine machine;

/* Prints a detail of the header: of one number, and where it has places, at each up to the first that is none. */
static void tell(const char *name, uint32_t detail, size_t number, int has_places) {
    uint64_t told = 0;
    uint32_t status = MHLINK_OK;
    printf("%s of %zu:", name, number);
    for (size_t place = 0; place == 0 || has_places; place++) {
        if ((status = mhlink_detail(&machine, detail, number, place, &told))) break;
        printf(" %" PRIu64, told);
    }
    puts(status == MHLINK_UNKNOWN && !has_places ? " none" : "");
}

static void tell_declared(void) {
    static const char *kinds[] = {"", "int", "long", "boolean", "String"};
    uint64_t points = 0, sites = 0, links = 0, kind = 0;
    mhlink_detail(&machine, MHLINK_POINTS, 0, 0, &points);
    mhlink_detail(&machine, MHLINK_SITES, 0, 0, &sites);
    mhlink_detail(&machine, MHLINK_LINKS, 0, 0, &links);
    printf("%" PRIu64 " points, %" PRIu64 " sites, %" PRIu64 " links\n", points, sites, links);
    for (size_t site = 0; site < sites; site++) {
        printf("site %zu: (", site);
        for (size_t place = 0; !mhlink_detail(&machine, MHLINK_SITE_PARAMETER, site, place, &kind); place++)
            printf("%s%s", place ? "," : "", kinds[kind]);
        mhlink_detail(&machine, MHLINK_SITE_RESULT, site, 0, &kind);
        printf(")%s\n", kinds[kind]);
        tell("parameters", MHLINK_SITE_PARAMETERS, site, 0);
        tell("level", MHLINK_SITE_LEVEL, site, 0);
        tell("key", MHLINK_SITE_KEY, site, 0);
        tell("links", MHLINK_SITE_LINKS, site, 0);
        tell("link", MHLINK_SITE_LINK, site, 1);
    }
    tell("cost", MHLINK_POINT_COST, 1, 0);
    tell("cost", MHLINK_POINT_COST, 2, 0);
    tell("site", MHLINK_LINK_SITE, 1, 0);
    tell("weight", MHLINK_LINK_WEIGHT, 1, 0);
    tell("charge", MHLINK_LINK_CHARGE, 1, 0);
    tell("needs", MHLINK_LINK_NEEDS, 1, 0);
    tell("need", MHLINK_LINK_NEED, 1, 1);
}

/* The keys of all links, ints as their numbers and texts in quotes; the last is a text, for which three bytes are no room. */
static void tell_keys(void) {
    mhlink_value key = {0, 0};
    uint8_t text[16];
    size_t length = 0, links = 0;
    printf("keys:");
    while (!mhlink_key(&machine, links, &key, text, sizeof text, &length)) {
        if (key.kind == MHLINK_STRING) printf(" \"%.*s\"", (int)length, (const char *)text);
        else printf(" %" PRId64, key.number);
        links++;
    }
    length = 0;
    uint32_t status = mhlink_key(&machine, links - 1, &key, text, 3, &length);
    printf("\nin 3 bytes: status %" PRIu32 ", %zu wanted\n", status, length);
}

static void tell_standing(void) {
    tell("valid", MHLINK_POINT_IS_VALID, 0, 0);
    tell("valid", MHLINK_POINT_IS_VALID, 1, 0);
    tell("retargetings", MHLINK_SITE_RETARGETINGS, 1, 0);
    tell("held links", MHLINK_SITE_HELD_LINKS, 1, 0);
    tell("held link", MHLINK_SITE_HELD_LINK, 1, 1);
}

/* Three calls with the first key: their gain of 18 is worth the point of 5, and the second link gains nothing. */
static uint32_t link_first(uint64_t *plan) {
    const mhlink_value values[] = {{MHLINK_LONG, 7}, {MHLINK_INT, 1}};
    mhlink_reply reply;
    uint64_t snapshot = 0, linked = 0, part = 0;
    uint32_t status = MHLINK_OK;
    for (int i = 0; i < 3 && !status; i++) status = mhlink_call(&machine, 0, 1, values, 2, (const uint8_t *)"", 0, &reply);
    if (!status) status = mhlink_flush(&machine, 0);
    if (!status) status = mhlink_snapshot(&machine, &snapshot);
    if (!status) status = mhlink_plan(&machine, snapshot, plan);
    if (!status) status = mhlink_install(&machine, *plan, &linked, &part);
    return status;
}

/* From now on an installation of the plan would skip the site. */
static uint32_t retarget_second(void) {
    static const char tree[] = "[\"drop\", [\"const\", \"boolean\", false], 0, [\"long\", \"int\"]]";
    uint64_t part = 0;
    return mhlink_target(&machine, 1, (const uint8_t *)tree, strlen(tree), &part);
}

static uint32_t ask_desk(void) {
    const mhlink_limits limits = MHLINK_WIDEST_LIMITS;
    mhlink_caller caller;
    mhlink_desk desk;
    uint64_t part = 0, sites = 0;
    mhlink_value key = {0, 0};
    size_t length = 0;
    uint32_t status = mhlink_desk_open((const uint8_t *)definition, strlen(definition), &limits, &caller, 1, &desk, &part);
    if (status) return status;
    status = mhlink_desk_detail(&desk, MHLINK_SITES, 0, 0, &sites);
    if (!status) status = mhlink_desk_key(&desk, 1, &key, NULL, 0, &length);
    printf("a desk: %" PRIu64 " sites, key %" PRId64 " of link 1, detail 26: status %" PRIu32 "\n", sites, key.number,
           mhlink_desk_detail(&desk, 26, 0, 0, &part));
    mhlink_caller_close(caller);
    mhlink_desk_close(desk);
    return status;
}

int main(void) {
    const mhlink_limits limits = MHLINK_WIDEST_LIMITS;
    const uint32_t second[] = {1};
    uint64_t part = 0, plan = 0;
    uint32_t status = mhlink_open((const uint8_t *)definition, strlen(definition), 1, &limits, &machine, &part);
    if (status) return printf("open: status %" PRIu32 "\n", status);
    tell_declared();
    tell_keys();
    tell("plan's links", MHLINK_PLAN_LINKS, 1, 0);
    status = link_first(&plan);
    if (!status) status = mhlink_invalidate(&machine, second, 1);
    puts("linked, and the second point invalid");
    tell_standing();
    tell("plan's links", MHLINK_PLAN_LINKS, (size_t)plan, 0);
    tell("plan's link", MHLINK_PLAN_LINK, (size_t)plan, 1);
    tell("plan's points", MHLINK_PLAN_POINTS, (size_t)plan, 0);
    tell("plan's point", MHLINK_PLAN_POINT, (size_t)plan, 1);
    tell("eligible", MHLINK_LINK_IS_ELIGIBLE, 0, 0);
    tell("eligible", MHLINK_LINK_IS_ELIGIBLE, 1, 0);
    tell("plan is current", MHLINK_PLAN_IS_CURRENT, (size_t)plan, 1);
    if (!status) status = retarget_second();
    puts("the second site retargeted");
    tell("held links", MHLINK_SITE_HELD_LINKS, 1, 0);
    tell("plan is current", MHLINK_PLAN_IS_CURRENT, (size_t)plan, 1);
    mhlink_close(machine);
    if (!status) status = ask_desk();
    return (int)status;
}
