/* A host that never ends: an interpreter whose four classes are redefined in every round, whose call sites are planned and linked
   in every round, and which begins a new history whenever mhlink_used says that the one it has is nearly used up. Points on which
   methods rested are given back then, so that it needs no more of them than one history uses, and code is loaded: a further site
   and a point of its own. Each answer, total and number is compared with what plain arrays say, and the resident memory at the end
   with that after the first renewal. `endless ROUNDS` makes so many rounds, and else 2,000. */
#include "mhlink.h"
#include <inttypes.h>
#include <stdio.h>
#include <stdlib.h>
#include <string.h>

enum { SITES = 4, CLASSES = 5, LINKED = 4, POINTS = 128, CALLS = 5000, HISTORY = 600, ROUND = 7 };

/* What the host knows: the method of each class at each site, on which point it rests, or none, and whether that is valid; the
   points that it may use anew; and the hits of each link, flushed and not. The last class of a site has no link. */
static int32_t methods[SITES][CLASSES];
static uint32_t rests_on[SITES] = {POINTS, POINTS, POINTS, POINTS}, free_points[POINTS], free_count;
static int is_valid[SITES];
static uint64_t flushed[SITES][LINKED], unflushed[SITES][LINKED];

static mhlink_machine machine;
static uint64_t calls, changes, plans, renewals, loads, differ, pages_then;
static char text[1 << 16];

static const uint8_t *bytes(const char *it) { return (const uint8_t *)it; }

static void same(uint64_t got, uint64_t wanted) {
    if (got != wanted) differ++;
}

/* The tree of a site: the method of each class by a test of its number, behind the point on which they rest; -1 asks the host. */
static char *put_tree(char *to, uint32_t site) {
    if (rests_on[site] < POINTS) to += sprintf(to, "[\"point\",\"p%" PRIu32 "\",", rests_on[site]);
    for (int class = 1; class < CLASSES; class++)
        to += sprintf(to, "[\"guard\",[\"insert\",[\"op\",\"ieq\"],1,[%d]],[\"drop\",[\"const\",\"int\",%" PRId32 "],0,[\"int\"]],", class,
                      methods[site][class - 1]);
    to += sprintf(to, "[\"drop\",[\"const\",\"int\",%" PRId32 "],0,[\"int\"]]", methods[site][CLASSES - 1]);
    for (int class = 1; class < CLASSES; class++) *to++ = ']';
    if (rests_on[site] < POINTS) to += sprintf(to, ",[\"drop\",[\"const\",\"int\",-1],0,[\"int\"]]]");
    *to = 0;
    return to;
}

/* All points on which no site rests may be used anew, the first one first. */
static void free_others(void) {
    free_count = 0;
    for (uint32_t point = POINTS; point-- > 0;) {
        int rests = 0;
        for (int site = 0; site < SITES; site++) rests |= rests_on[site] == point;
        if (!rests) free_points[free_count++] = point;
    }
}

/* The methods of a site rest on a point that may be used, as long as there is one. */
static void rest_on_next(uint32_t site) {
    rests_on[site] = free_count ? free_points[--free_count] : POINTS;
    is_valid[site] = 1;
}

static uint32_t open_machine(void) {
    char *to = text + sprintf(text, "{\"version\":2,\"points\":[");
    for (int point = 0; point < POINTS; point++) to += sprintf(to, "%s{\"name\":\"p%d\",\"cost\":1}", point ? "," : "", point);
    to += sprintf(to, "],\"sites\":[");
    free_others();
    for (uint32_t site = 0; site < SITES; site++) {
        for (int class = 1; class <= CLASSES; class++) methods[site][class - 1] = (int32_t)site * 10 + class;
        rest_on_next(site);
        to += sprintf(to, "%s{\"name\":\"s%" PRIu32 "\",\"type\":\"(int)int\",\"key\":0,\"target\":", site ? "," : "", site);
        to = put_tree(to, site);
        to += sprintf(to, ",\"links\":[");
        for (int class = 1; class <= LINKED; class++)
            to += sprintf(to, "%s{\"when\":%d,\"weight\":1,\"charge\":40,\"needs\":[]}", class > 1 ? "," : "", class);
        to += sprintf(to, "]}");
    }
    to += sprintf(to, "]}");
    mhlink_limits limits = {HISTORY, 1u << 20, (uint64_t)1 << 40};
    uint64_t part;
    return mhlink_open(bytes(text), (size_t)(to - text), 1, &limits, &machine, &part);
}

/* A call gives the method of the class, or -1 where that does not stand any more; its link is hit in any case. */
static uint32_t send(uint32_t site, int32_t class) {
    const mhlink_value value = {MHLINK_INT, class};
    mhlink_reply reply = {MHLINK_THROWN, 0, 0};
    uint32_t status = mhlink_call(&machine, 0, site, &value, 1, bytes(""), 0, &reply);
    if (status) return status;
    calls++;
    int32_t wanted = is_valid[site] ? methods[site][class - 1] : -1;
    if (reply.kind != MHLINK_INT || reply.number != wanted) differ++;
    if (class <= LINKED) unflushed[site][class - 1]++;
    return MHLINK_OK;
}

/* Sends to receivers of changing classes, some of which are more frequent at a site than others. */
static uint32_t send_all(void) {
    static uint32_t state = 1;
    for (int made = 0; made < CALLS; made++) {
        state = state * 1664525u + 1013904223u;
        uint32_t site = state >> 30, class = (state >> 16) % 9;
        uint32_t status = send(site, (int32_t)(class < CLASSES ? class : site) + 1);
        if (status) return status;
    }
    return MHLINK_OK;
}

/* A class of a site is redefined: the point on which its methods rest becomes invalid, and then the site gets another tree. */
static uint32_t redefine(uint32_t site, uint32_t class) {
    if (rests_on[site] < POINTS) {
        uint32_t status = mhlink_invalidate(&machine, &rests_on[site], 1);
        if (status) return status;
        changes++;
        is_valid[site] = 0;
        status = send(site, CLASSES);
        if (status) return status;
    }
    methods[site][class] += 100;
    rest_on_next(site);
    uint64_t part = 0;
    uint32_t status = mhlink_target(&machine, site, bytes(text), (size_t)(put_tree(text, site) - text), &part);
    if (!status) changes++;
    return status;
}

/* The totals of all links, as the host counts them. */
static uint32_t compare_totals(void) {
    for (size_t link = 0; link < SITES * LINKED; link++) {
        uint64_t total = 0, hits = 0;
        uint32_t status = mhlink_total(&machine, link, &total);
        if (!status) status = mhlink_hits(&machine, 0, link, &hits);
        if (status) return status;
        same(total, flushed[link / LINKED][link % LINKED]);
        same(hits, unflushed[link / LINKED][link % LINKED]);
    }
    return MHLINK_OK;
}

static uint32_t flush(void) {
    uint32_t status = mhlink_flush(&machine, 0);
    if (status) return status;
    for (int link = 0; link < SITES * LINKED; link++) {
        flushed[link / LINKED][link % LINKED] += unflushed[link / LINKED][link % LINKED];
        unflushed[link / LINKED][link % LINKED] = 0;
    }
    return compare_totals();
}

/* The best plan for a snapshot of now is installed. Snapshots and plans have the next number of their history. */
static uint32_t plan_and_install(void) {
    mhlink_usage used = {0, 0, 0};
    uint64_t snapshot = 0, plan = 0, linked, part;
    uint32_t status = mhlink_used(&machine, &used);
    if (!status) status = mhlink_snapshot(&machine, &snapshot);
    if (!status) status = mhlink_plan(&machine, snapshot, &plan);
    if (!status) status = mhlink_install(&machine, plan, &linked, &part);
    if (status) return status;
    same(snapshot, used.snapshots + 1);
    same(plan, used.plans + 1);
    plans++;
    return MHLINK_OK;
}

/* Whether another round could find the history used up. */
static uint32_t is_nearly_used(int *nearly) {
    mhlink_usage used;
    uint32_t status = mhlink_used(&machine, &used);
    if (!status) *nearly = used.records + ROUND > HISTORY || used.snapshots >= MHLINK_MOST_SNAPSHOTS || used.plans >= MHLINK_MOST_PLANS;
    return status;
}

/* The pages of memory that stand in this process, or 0 where the system does not tell. */
static uint64_t resident(void) {
    uint64_t all = 0, pages = 0;
    FILE *file = fopen("/proc/self/statm", "r");
    if (!file) return 0;
    if (fscanf(file, "%" SCNu64 " %" SCNu64, &all, &pages) != 2) pages = 0;
    fclose(file);
    return pages;
}

/* The methods of a site do not stand any more, and it has no other tree yet: it asks the host. */
static uint32_t leave_to_host(uint32_t site) {
    uint32_t status = mhlink_invalidate(&machine, &rests_on[site], 1);
    if (status) return status;
    changes++;
    is_valid[site] = 0;
    rests_on[site] = POINTS;
    return MHLINK_OK;
}

/* The text of loaded code: a point, and a site with one link that rests on it, and that asks the first site where it does not
   stand. */
static size_t put_code(char *to, uint64_t load) {
    return (size_t)sprintf(to, "{\"points\":[{\"name\":\"c%" PRIu64 "\",\"cost\":1}],"
        "\"shared\":[[\"own\",[\"drop\",[\"const\",\"int\",%" PRIu64 "],0,[\"int\"]]]],"
        "\"sites\":[{\"name\":\"l%" PRIu64 "\",\"type\":\"(int)int\",\"level\":1,\"key\":0,"
        "\"target\":[\"point\",\"c%" PRIu64 "\",[\"ref\",\"own\"],[\"invoke\",\"s0\"]],"
        "\"links\":[{\"when\":1,\"weight\":1,\"needs\":[\"c%" PRIu64 "\"]}]}]}", load, 1000 + load, load, load, load);
}

/* The numbers of the point, the site and the link that were loaded last are the next ones. */
static uint32_t find_loaded(void) {
    char name[16];
    uint64_t site = 0, point = 0, link = 0;
    const mhlink_value key = {MHLINK_INT, 1};
    size_t length = (size_t)sprintf(name, "l%" PRIu64, loads);
    uint32_t status = mhlink_site(&machine, bytes(name), length, &site);
    name[0] = 'c';
    if (!status) status = mhlink_point(&machine, bytes(name), length, &point);
    if (!status) status = mhlink_link(&machine, site, &key, bytes(""), 0, &link);
    same(site, SITES + loads);
    same(point, POINTS + loads);
    same(link, SITES * LINKED + loads);
    return status;
}

/* A call of the site that was loaded last. */
static uint32_t call_loaded(int64_t wanted) {
    const mhlink_value value = {MHLINK_INT, 1};
    mhlink_reply reply = {MHLINK_THROWN, 0, 0};
    uint32_t status = mhlink_call(&machine, 0, SITES + loads, &value, 1, bytes(""), 0, &reply);
    calls++;
    if (reply.kind != MHLINK_INT || reply.number != wanted) differ++;
    return status;
}

/* Code is loaded: the machine gets a further point and a further site, and its history begins anew, with all hits. The names are
   there then, so that the same text is refused, and nothing changes. Once the point is invalid, the site asks the first one. */
static uint32_t load(void) {
    const uint32_t point = (uint32_t)(POINTS + loads);
    size_t length = put_code(text, loads);
    uint64_t part = 9;
    uint32_t status = mhlink_extend(&machine, bytes(text), length, &part);
    same(part, 0);
    if (!status) status = find_loaded();
    if (!status) status = call_loaded(1000 + (int64_t)loads);
    if (status) return status;
    same(mhlink_extend(&machine, bytes(text), length, &part), MHLINK_INPUT + 8);
    same(part, 7);
    status = mhlink_invalidate(&machine, &point, 1);
    changes++;
    if (!status) status = call_loaded(is_valid[0] ? methods[0][0] : -1);
    loads++;
    return status ? status : compare_totals();
}

/* A new history, in which hits of the totals weigh half, and points on which no site rests are valid again. Nothing of it is used
   up but its first two records, hits that were not flushed are still there, and no site holds a link. */
static uint32_t renew(void) {
    mhlink_usage used = {9, 9, 9};
    uint32_t status = leave_to_host(0);
    free_others();
    if (!status) status = mhlink_renew(&machine, free_points, free_count, MHLINK_HALVE_HITS);
    if (!status) status = mhlink_used(&machine, &used);
    if (!status) status = send(0, CLASSES);
    if (status) return status;
    if (!renewals++) pages_then = resident();
    same(used.records, 2);
    same(used.snapshots, 0);
    same(used.plans, 0);
    for (size_t site = 0; site < SITES; site++) {
        uint64_t links = 9;
        for (int link = 0; link < LINKED; link++) flushed[site][link] /= 2;
        status = mhlink_linked(&machine, site, &links);
        if (status) return status;
        same(links, 0);
    }
    status = compare_totals();
    if (!status) status = load();
    return status ? status : plan_and_install();
}

static uint32_t run(uint64_t rounds) {
    for (uint64_t round = 0; round < rounds; round++) {
        int nearly = 0;
        uint32_t status = send_all();
        if (!status) status = is_nearly_used(&nearly);
        if (!status && nearly) status = renew();
        if (!status) status = redefine(round % SITES, round / SITES % CLASSES);
        if (!status) status = flush();
        if (!status) status = plan_and_install();
        if (status) return status;
    }
    return MHLINK_OK;
}

int main(int count, char **words) {
    uint32_t status = open_machine();
    if (status) {
        printf("open: status %" PRIu32 "\n", status);
        return 1;
    }
    status = run(count > 1 ? strtoull(words[1], NULL, 10) : 2000);
    if (renewals) same(resident() > 2 * pages_then, 0);
    mhlink_close(machine);
    printf("%" PRIu64 " calls, %" PRIu64 " changes, %" PRIu64 " plans, %" PRIu64 " renewals, %" PRIu64 " loads\n", calls, changes, plans,
           renewals, loads);
    printf("status %" PRIu32 ", %" PRIu64 " differ\n", status, differ);
    return status != 0 || differ != 0;
}
