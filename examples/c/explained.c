/* Why a text cannot be read: where its first fault is, what stands there, and why it is one. */
#include "mhlink.h"
#include <inttypes.h>
#include <stdio.h>
#include <string.h>

static const char *const definition =
    "{\"version\": 2, \"points\": [], \"sites\": [{\"name\": \"f\", \"type\": \"(int)int\", \"target\": [\"ineg\"]}]}";

/* The lines of a text, and that a buffer of a byte less is too short for them. */
static void explain(const char *title, uint32_t form, const char *text) {
    uint8_t lines[1000];
    size_t length = 0, again = 0;
    uint32_t status = mhlink_explain(form, (const uint8_t *)text, strlen(text), lines, sizeof lines, &length);
    printf("%s: status %" PRIu32 "\n%.*s", title, status, (int)length, (const char *)lines);
    if (length == 0) return;
    status = mhlink_explain(form, (const uint8_t *)text, strlen(text), lines, length - 1, &again);
    if (status != MHLINK_SHORT || again != length) printf("the length is wrong\n");
}

/* What a host does with a definition that is refused. */
static void open_or_explain(const char *text) {
    const mhlink_limits limits = MHLINK_WIDEST_LIMITS;
    mhlink_machine machine;
    uint64_t part = 0;
    uint32_t status = mhlink_open((const uint8_t *)text, strlen(text), 1, &limits, &machine, &part);
    if (status > MHLINK_INPUT) explain("a definition", MHLINK_FORM_DEFINITION, text);
    else if (!status) mhlink_close(machine);
}

int main(void) {
    open_or_explain(definition);
    explain("a script that retargets", MHLINK_FORM_SCRIPT,
            "{\"definition\": {\"version\": 2, \"points\": [], \"sites\": [{\"name\": \"f\", \"type\": \"(int)int\","
            " \"target\": [\"op\", \"ineg\"]}]}, \"workers\": 1, \"events\": [[\"target\", \"f\", [\"id\", \"it\"]]]}");
    explain("a problem", MHLINK_FORM_PROBLEM, "{\"version\": 2, \"costs\": 5, \"links\": []}");
    explain("a problem with a plan", MHLINK_FORM_PROBLEM_WITH_PLAN, "{\"problem\": {\"version\": 2, \"costs\": [], \"links\": []}}");
    explain("a lawful one", MHLINK_FORM_PROBLEM, "{\"version\": 2, \"costs\": [], \"links\": []}");
    explain("of no form", 4, "{}");
    return 0;
}
