#include <mhlink.h>
#include <stdio.h>
int main(void) {
    /* cost of each assumption: 0, A has no subclass; 1, m is not redefined; 2, B has no subclass */
    const uint64_t costs[] = {2500, 400, 900};
    const uint32_t needs[] = {0, 0, 1, 2};
    /* gain (hits x saving), charge, first need, number of needs, eligible */
    const mhlink_problem_link links[] = {{1500, 0, 0, 1, 1}, {1600, 0, 1, 2, 1}, {500, 0, 3, 1, 1}};
    uint32_t chosen[3];
    size_t count;
    int64_t value;
    if (mhlink_plan_problem(costs, 3, links, 3, needs, 4, chosen, 3, &count, &value)) return 1;
    for (size_t i = 0; i < count; i++) printf("install entry %u\n", (unsigned)chosen[i]);
    printf("net gain %lld\n", (long long)value);
}
