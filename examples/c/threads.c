/* Threads over one desk: four call without a lock, one redefines methods and invalidates the points on which they rested, and one
   plans and installs. Each caller looks at what the desk shows at safepoints of its own, and each answer has to be that of the
   methods that stood at its last look, whatever is installed. Once in a while all callers wait at a safepoint, with hits that they
   have not flushed, until a new history has begun, in which the points that fell may be used again, with half of the flushed hits,
   none, or all. At the end the totals are what the callers counted. `threads ROUNDS` makes so many rounds in each thread, and else
   200. */
#include "mhlink.h"
#include <inttypes.h>
#include <pthread.h>
#include <stdio.h>
#include <stdlib.h>
#include <string.h>

enum { CALLERS = 4, SITES = 4, CLASSES = 5, LINKED = 4, POINTS = 64, CALLS = 400, NAMES = SITES, MOST_ROUNDS = 1000 };
/* The rounds from one renewal to the next, in which no more points fall than there are, and the first that ends with one. */
enum { RENEWED_EACH = 40, FIRST_RENEWED = 5 };

/* The method of each class at each site, and whether it stands: if not, the site answers -1. */
typedef struct methods {
    int32_t of[SITES][CLASSES];
    int stand[SITES];
} methods;

/* What the lock guards: the desk, the methods by its records, and those of the world that it shows; the free points; how many callers
   are not at a safepoint, and whether they are to wait there. */
static pthread_mutex_t lock = PTHREAD_MUTEX_INITIALIZER;
static pthread_cond_t stopped = PTHREAD_COND_INITIALIZER, renewed = PTHREAD_COND_INITIALIZER;
static mhlink_desk desk;
static methods recorded, shown;
static uint32_t rests_on[SITES] = {0, 1, 2, 3};
static uint32_t free_points[POINTS], free_count;
static int running = CALLERS, stop_asked;

/* What one thread calls through, with what it knows of the world of its last look, and what it counts. */
typedef struct worker {
    mhlink_caller caller;
    methods seen;
    uint64_t hits[SITES * LINKED], unflushed[SITES * LINKED];
    uint64_t calls, looks, differ;
    uint32_t state, status;
} worker;

static worker workers[CALLERS];
static uint32_t rounds = 200;
static uint64_t changes, plans, plans_of_history, shows, renewals;

static const char no_links[] = "{\"links\": [], \"points\": [], \"value\": 0, \"flow\": []}";

static const uint8_t *bytes(const char *it) { return (const uint8_t *)it; }

/* The tree of a site: the method of each class by a test of its number, behind the point on which they rest; -1 asks the host. */
static size_t put_tree(char *text, uint32_t site) {
    char *to = text;
    if (rests_on[site] < POINTS) to += sprintf(to, "[\"point\",\"p%" PRIu32 "\",", rests_on[site]);
    for (int class = 1; class < CLASSES; class++)
        to += sprintf(to, "[\"guard\",[\"insert\",[\"op\",\"ieq\"],1,[%d]],[\"drop\",[\"const\",\"int\",%" PRId32 "],0,[\"int\"]],", class,
                      recorded.of[site][class - 1]);
    to += sprintf(to, "[\"drop\",[\"const\",\"int\",%" PRId32 "],0,[\"int\"]]", recorded.of[site][CLASSES - 1]);
    for (int class = 1; class < CLASSES; class++) *to++ = ']';
    if (rests_on[site] < POINTS) to += sprintf(to, ",[\"drop\",[\"const\",\"int\",-1],0,[\"int\"]]]");
    return (size_t)(to - text);
}

/* Each point is free on which no site rests. */
static void free_others(void) {
    free_count = 0;
    for (uint32_t point = POINTS; point-- > 0;) {
        int taken = 0;
        for (int site = 0; site < SITES; site++) taken |= rests_on[site] == point;
        if (!taken) free_points[free_count++] = point;
    }
}

/* The desk with its callers: a point for each version of a site's methods, and a site that answers a text. */
static uint32_t open_desk(void) {
    static char text[1 << 16];
    mhlink_caller callers[CALLERS];
    const mhlink_limits widest = MHLINK_WIDEST_LIMITS;
    uint64_t part;
    char *to = text + sprintf(text, "{\"version\":2,\"points\":[");
    for (int point = 0; point < POINTS; point++) to += sprintf(to, "%s{\"name\":\"p%d\",\"cost\":1}", point ? "," : "", point);
    to += sprintf(to, "],\"sites\":[");
    for (uint32_t site = 0; site < SITES; site++) {
        for (int class = 1; class <= CLASSES; class++) recorded.of[site][class - 1] = (int32_t)site * 10 + class;
        recorded.stand[site] = 1;
        to += sprintf(to, "{\"name\":\"s%" PRIu32 "\",\"type\":\"(int)int\",\"key\":0,\"target\":", site);
        to += put_tree(to, site);
        to += sprintf(to, ",\"links\":[");
        for (int class = 1; class <= LINKED; class++)
            to += sprintf(to, "%s{\"when\":%d,\"weight\":1,\"charge\":40,\"needs\":[]}", class > 1 ? "," : "", class);
        to += sprintf(to, "]},");
    }
    to += sprintf(to, "{\"name\":\"names\",\"type\":\"()String\",\"target\":[\"const\",\"String\",\"a name that takes more than 32 bytes\"]}]}");
    uint32_t status = mhlink_desk_open(bytes(text), (size_t)(to - text), &widest, callers, CALLERS, &desk, &part);
    shown = recorded;
    free_others();
    for (uint32_t each = 0; each < CALLERS && !status; each++) {
        workers[each].caller = callers[each];
        workers[each].seen = shown;
        workers[each].state = each;
    }
    return status;
}

/* By the lock: callers see all that was recorded, from their next look on. */
static uint32_t show(void) {
    uint32_t status = mhlink_desk_show(&desk);
    if (!status) shown = recorded;
    if (!status) shows++;
    return status;
}

/* A call gives the method of the class as it stood at the last look; its link is hit in any case. */
static uint32_t send(worker *own, uint32_t site, int32_t class) {
    const mhlink_value value = {MHLINK_INT, class};
    mhlink_reply reply = {MHLINK_THROWN, 0, 0};
    uint32_t status = mhlink_caller_call(&own->caller, site, &value, 1, bytes(""), 0, &reply);
    if (status) return status;
    own->calls++;
    int32_t wanted = own->seen.stand[site] ? own->seen.of[site][class - 1] : -1;
    if (reply.kind != MHLINK_INT || reply.number != wanted) own->differ++;
    if (class <= LINKED) own->unflushed[site * LINKED + (uint32_t)class - 1]++;
    return MHLINK_OK;
}

/* A call that gives a text, which all callers share. */
static uint32_t name(worker *own) {
    uint8_t buffer[64];
    size_t length = 0;
    mhlink_reply reply = {MHLINK_THROWN, 0, 0};
    uint32_t status = mhlink_caller_call(&own->caller, NAMES, NULL, 0, bytes(""), 0, &reply);
    if (!status) status = mhlink_caller_text(&own->caller, buffer, sizeof buffer, &length);
    own->calls++;
    if (reply.kind != MHLINK_STRING || length != 36 || memcmp(buffer, "a name", 6)) own->differ++;
    return status;
}

static uint32_t call_all(worker *own) {
    for (int made = 0; made < CALLS; made++) {
        own->state = own->state * 1664525u + 1013904223u;
        uint32_t site = own->state >> 30, class = (own->state >> 16) % 9;
        uint32_t status = send(own, site, (int32_t)(class < CLASSES ? class : site) + 1);
        if (status) return status;
    }
    return name(own);
}

/* By the lock: the caller waits where a new history is to begin. */
static void wait_for_renewal(void) {
    running--;
    pthread_cond_signal(&stopped);
    while (stop_asked) pthread_cond_wait(&renewed, &lock);
    running++;
}

/* By the lock: the caller's hits go to the totals, and it looks. */
static uint32_t flush_and_look(worker *own) {
    uint32_t status = mhlink_desk_flush(&desk, &own->caller);
    if (!status) status = mhlink_caller_look(&own->caller, &desk);
    if (status) return status;
    own->seen = shown;
    own->looks++;
    for (int link = 0; link < SITES * LINKED; link++) {
        own->hits[link] += own->unflushed[link];
        own->unflushed[link] = 0;
    }
    return MHLINK_OK;
}

/* A safepoint. */
static uint32_t stop(worker *own) {
    pthread_mutex_lock(&lock);
    if (stop_asked) wait_for_renewal();
    uint32_t status = flush_and_look(own);
    pthread_mutex_unlock(&lock);
    return status;
}

/* The hits that the caller has not flushed are those that its thread counts. */
static uint32_t compare_hits(worker *own) {
    for (size_t link = 0; link < SITES * LINKED; link++) {
        uint64_t hits = 0;
        uint32_t status = mhlink_caller_hits(&own->caller, link, &hits);
        if (status) return status;
        if (hits != own->unflushed[link]) own->differ++;
    }
    return MHLINK_OK;
}

static void *work(void *given) {
    worker *own = given;
    for (uint32_t round = 0; round < rounds && !own->status; round++) {
        own->status = call_all(own);
        if (!own->status) own->status = compare_hits(own);
        if (!own->status) own->status = stop(own);
    }
    pthread_mutex_lock(&lock);
    running--;
    pthread_cond_signal(&stopped);
    pthread_mutex_unlock(&lock);
    return NULL;
}

/* By the lock: a class of a site is redefined. The point on which its methods rest becomes invalid and is shown, so that callers
   ask the host; then the site gets a tree with the new method, behind another point, as long as there is one. */
static uint32_t redefine(uint32_t site, uint32_t class) {
    uint32_t status = MHLINK_OK;
    uint64_t part = 0;
    char text[4096];
    if (rests_on[site] < POINTS) {
        status = mhlink_desk_invalidate(&desk, &rests_on[site], 1);
        if (status) return status;
        recorded.stand[site] = 0;
        changes++;
        status = show();
    }
    recorded.of[site][class] += 100;
    recorded.stand[site] = 1;
    rests_on[site] = free_count ? free_points[--free_count] : POINTS;
    if (!status) status = mhlink_desk_target(&desk, site, bytes(text), put_tree(text, site), &part);
    if (!status) changes++;
    return status;
}

/* By the lock, while all callers wait: a new history, in which each point is valid on which no site rests. What it leaves of the hits
   that each caller has flushed is counted here too. */
static uint32_t begin_anew(void) {
    static const uint32_t kinds[] = {MHLINK_HALVE_HITS, MHLINK_DROP_HITS, MHLINK_KEEP_HITS};
    mhlink_caller callers[CALLERS];
    uint32_t hits = kinds[renewals % 3];
    for (int each = 0; each < CALLERS; each++) callers[each] = workers[each].caller;
    free_others();
    uint32_t status = mhlink_desk_renew(&desk, callers, CALLERS, free_points, free_count, hits);
    for (int each = 0; each < CALLERS; each++) {
        workers[each].caller = callers[each];
        for (int link = 0; link < SITES * LINKED && !status; link++) {
            if (hits == MHLINK_HALVE_HITS) workers[each].hits[link] /= 2;
            if (hits == MHLINK_DROP_HITS) workers[each].hits[link] = 0;
        }
    }
    if (status) return status;
    renewals++;
    plans_of_history = 0;
    return show();
}

/* By the lock: all callers are asked to wait at their next safepoints, until a new history has begun. */
static uint32_t renew(void) {
    stop_asked = 1;
    while (running) pthread_cond_wait(&stopped, &lock);
    uint32_t status = begin_anew();
    stop_asked = 0;
    pthread_cond_broadcast(&renewed);
    return status;
}

static void *redefine_all(void *given) {
    uint32_t *status = given;
    for (uint32_t round = 0; round < rounds && !*status; round++) {
        pthread_mutex_lock(&lock);
        *status = redefine(round % SITES, round / SITES % CLASSES);
        pthread_mutex_unlock(&lock);
        pthread_mutex_lock(&lock);
        if (!*status) *status = show();
        if (!*status && round % RENEWED_EACH == FIRST_RENEWED) *status = renew();
        pthread_mutex_unlock(&lock);
    }
    return NULL;
}

/* By the lock: the best plan for a snapshot of now is installed, and what it links is shown. */
static uint32_t plan_and_install(void) {
    uint64_t snapshot = 0, plan = 0, linked, part;
    uint32_t status = mhlink_desk_snapshot(&desk, &snapshot);
    if (!status) status = mhlink_desk_plan(&desk, snapshot, &plan);
    if (!status) status = mhlink_desk_install(&desk, plan, &linked, &part);
    if (!status) plans++;
    if (!status) plans_of_history++;
    return status ? status : show();
}

static void *plan_all(void *given) {
    uint32_t *status = given;
    for (uint32_t round = 0; round < rounds && !*status; round++) {
        pthread_mutex_lock(&lock);
        *status = plan_and_install();
        pthread_mutex_unlock(&lock);
    }
    return NULL;
}

static int begin(pthread_t *thread, void *(*body)(void *), void *given) {
    int fault = pthread_create(thread, NULL, body, given);
    if (fault) printf("a thread was not begun: %s\n", strerror(fault));
    return fault;
}

/* All threads run beside each other, until each has made its rounds. */
static uint32_t run(void) {
    pthread_t threads[CALLERS + 2];
    uint32_t redefined = MHLINK_OK, planned = MHLINK_OK, status;
    for (int each = 0; each < CALLERS; each++)
        if (begin(&threads[each], work, &workers[each])) exit(1);
    if (begin(&threads[CALLERS], redefine_all, &redefined) || begin(&threads[CALLERS + 1], plan_all, &planned)) exit(1);
    for (int each = 0; each < CALLERS + 2; each++) pthread_join(threads[each], NULL);
    status = redefined ? redefined : planned;
    for (int each = 0; each < CALLERS && !status; each++) status = workers[each].status;
    return status;
}

/* The totals are what all callers counted, and the numbers by name are those of the definition. A plan whose text is cut short is
   refused. */
static uint32_t compare_totals(uint64_t *differ) {
    const mhlink_value key = {MHLINK_INT, LINKED};
    mhlink_usage used = {0, 0, 0};
    uint64_t number = 0, links = 0, part = 0;
    uint32_t status = MHLINK_OK;
    for (size_t link = 0; link < SITES * LINKED && !status; link++) {
        uint64_t wanted = 0, total = 0;
        for (int each = 0; each < CALLERS; each++) wanted += workers[each].hits[link];
        status = mhlink_desk_total(&desk, link, &total);
        if (total != wanted) ++*differ;
    }
    if (!status) status = mhlink_desk_site(&desk, bytes("names"), 5, &number);
    if (number != NAMES) ++*differ;
    if (!status) status = mhlink_desk_point(&desk, bytes("p63"), 3, &number);
    if (number != POINTS - 1) ++*differ;
    if (!status) status = mhlink_desk_link(&desk, SITES - 1, &key, bytes(""), 0, &number);
    if (number != SITES * LINKED - 1) ++*differ;
    if (!status) status = mhlink_desk_linked(&desk, 0, &links);
    if (links > LINKED) ++*differ;
    if (!status) status = mhlink_desk_used(&desk, &used);
    if (used.plans != plans_of_history || used.snapshots != plans_of_history) ++*differ;
    if (!status && mhlink_desk_offer(&desk, 1, bytes(no_links), strlen(no_links) - 1, &number, &part) != MHLINK_NOT_JSON) ++*differ;
    return status;
}

/* A caller of another desk is refused by this one, and goes on. That desk has no links, so that the plan without any is the best. */
static uint32_t try_stranger(uint64_t *differ) {
    static const char text[] = "{\"version\":2,\"points\":[],\"sites\":[]}";
    const mhlink_limits widest = MHLINK_WIDEST_LIMITS;
    mhlink_caller stranger[2];
    mhlink_desk other;
    uint64_t part, snapshot = 0, plan = 0;
    uint32_t status = mhlink_desk_open(bytes(text), sizeof text - 1, &widest, stranger, 2, &other, &part);
    if (status) return status;
    if (mhlink_desk_snapshot(&other, &snapshot) || snapshot != 1) ++*differ;
    if (mhlink_desk_offer(&other, snapshot, bytes(no_links), strlen(no_links), &plan, &part) || plan != 1) ++*differ;
    if (mhlink_caller_look(&stranger[1], &desk) != MHLINK_NO_WORKER) ++*differ;
    if (mhlink_desk_flush(&desk, &stranger[1]) != MHLINK_NO_WORKER) ++*differ;
    if (mhlink_desk_renew(&desk, stranger, 2, free_points, 0, MHLINK_KEEP_HITS) != MHLINK_NO_WORKER) ++*differ;
    if (mhlink_desk_renew(&other, stranger, 2, free_points, 0, MHLINK_DROP_HITS + 1) != MHLINK_UNKNOWN) ++*differ;
    if (mhlink_desk_renew(&other, stranger, 2, free_points, 1, MHLINK_DROP_HITS) != MHLINK_NO_POINT) ++*differ;
    if (mhlink_desk_renew(&other, stranger, 2, free_points, 0, MHLINK_DROP_HITS) != MHLINK_OK) ++*differ;
    mhlink_desk_close(other);
    mhlink_caller_close(stranger[0]);
    mhlink_caller_close(stranger[1]);
    return MHLINK_OK;
}

int main(int count, char **words) {
    uint64_t calls = 0, looks = 0, differ = 0;
    if (count > 1) rounds = (uint32_t)strtoul(words[1], NULL, 10);
    if (rounds > MOST_ROUNDS) rounds = MOST_ROUNDS;
    uint32_t status = open_desk();
    if (status) {
        printf("open: status %" PRIu32 "\n", status);
        return 1;
    }
    status = run();
    if (!status) status = compare_totals(&differ);
    if (!status) status = try_stranger(&differ);
    for (int each = 0; each < CALLERS; each++) {
        calls += workers[each].calls;
        looks += workers[each].looks;
        differ += workers[each].differ;
        if (each == 1) mhlink_desk_close(desk);
        mhlink_caller_close(workers[each].caller);
    }
    printf("%" PRIu64 " calls, %" PRIu64 " looks, %" PRIu64 " changes, %" PRIu64 " plans, %" PRIu64 " shows, %" PRIu64 " renewals\n", calls,
           looks, changes, plans, shows, renewals);
    printf("status %" PRIu32 ", %" PRIu64 " differ\n", status, differ);
    return status != 0 || differ != 0;
}
