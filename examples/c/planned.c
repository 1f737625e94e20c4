/* A problem from arrays, and what its plan rests on: which links are chosen and which points they need, and by the flow what each
   link pays of its charge, gives to its points, and keeps, and what each point gets of its cost. */
#include "mhlink.h"
#include <inttypes.h>
#include <stdio.h>

enum { LINKS = 5, NEEDS = 5, POINTS = 3 };

static const uint64_t costs[POINTS] = {4, 6, 10};
static const uint32_t needs[NEEDS] = {0, 1, 2, 2, 0};
static const mhlink_problem_link links[LINKS] = {
    {15, 2, 0, 2, 1}, /* it is worth 15 - 2 - 4 - 6 */
    {5, 0, 2, 1, 1},  /* the third point costs more than both that need it gain */
    {3, 0, 3, 1, 1},
    {100, 1, 4, 1, 0}, /* it may not be chosen, so its gain counts as 0 */
    {7, 9, 5, 0, 1},   /* it is charged more than it gains */
};

static void list(const char *what, const uint32_t *numbers, size_t count) {
    printf("%s", what);
    for (size_t i = 0; i < count; i++) printf(" %" PRIu32, numbers[i]);
    putchar('\n');
}

int main(void) {
    uint32_t chosen[LINKS], needed[POINTS];
    uint64_t paid[LINKS], given[NEEDS], gets[POINTS];
    size_t count = 0, needed_count = 0;
    int64_t value = 0;
    uint32_t status = mhlink_plan_problem_flow(costs, POINTS, links, LINKS, needs, NEEDS, chosen, LINKS, &count, &value, needed, POINTS,
                                               &needed_count, paid, LINKS, given, NEEDS, gets, POINTS);
    if (status) {
        printf("plan: status %" PRIu32 "\n", status);
        return 1;
    }
    list("links", chosen, count);
    list("points", needed, needed_count);
    printf("value %" PRId64 "\n", value);
    for (int j = 0; j < LINKS; j++) {
        uint64_t gain = links[j].eligible ? links[j].gain : 0, left = gain - paid[j];
        printf("link %d: gain %" PRIu64 ", pays %" PRIu64 ", gives", j, gain, paid[j]);
        for (size_t k = links[j].first; k < links[j].first + links[j].count; k++) {
            printf(" %" PRIu64 " to point %" PRIu32 ",", given[k], needs[k]);
            left -= given[k];
        }
        printf("%s keeps %" PRIu64 "\n", links[j].count ? "" : " nothing,", left);
    }
    for (int p = 0; p < POINTS; p++) printf("point %d: cost %" PRIu64 ", gets %" PRIu64 "\n", p, costs[p], gets[p]);
    return 0;
}
