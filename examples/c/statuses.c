/* What each status means, in words. */
#include "mhlink.h"
#include <inttypes.h>
#include <stdio.h>

/* The words of a status, with a part where it is not 0; nothing of a number that is no status. */
static void tell(uint32_t status, uint64_t part) {
    uint8_t text[100];
    size_t length = 0, again = 0;
    uint32_t told = mhlink_fault_text(status, part, text, sizeof text, &length);
    if (told == MHLINK_UNKNOWN) return;
    if (told) {
        printf("%" PRIu32 ": status %" PRIu32 "\n", status, told);
        return;
    }
    printf("%" PRIu32 ": %.*s\n", status, (int)length, (const char *)text);
    if (mhlink_fault_text(status, part, text, length - 1, &again) != MHLINK_SHORT || again != length) printf("the length is wrong\n");
}

int main(void) {
    for (uint32_t status = 0; status < 1000; status++) tell(status, 0);
    tell(MHLINK_PLAN_REFUSED, 3);
    tell(MHLINK_OLD_PLAN, 1024);
    tell(MHLINK_INPUT + 7, 2);
    tell(MHLINK_INPUT + 8, UINT64_MAX);
    tell(UINT32_MAX, 1);
    return 0;
}
