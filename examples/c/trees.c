/* A tree that is read once and given to many sites, of a machine and of a desk, what is told where it does not fit, and the trees
   that sites have, as texts. */
#include "mhlink.h"
#include <inttypes.h>
#include <stdio.h>
#include <string.h>

enum { SITES = 3 };

static const char definition[] =
    "{\"version\": 2, \"points\": [{\"name\": \"a\", \"cost\": 5}], \"sites\": ["
    "{\"name\": \"f\", \"type\": \"(int)int\", \"target\": [\"id\", \"int\"], \"links\": []},"
    "{\"name\": \"g\", \"type\": \"(int)int\", \"level\": 1, \"target\": [\"id\", \"int\"], \"links\": []},"
    "{\"name\": \"h\", \"type\": \"(long)long\", \"target\": [\"id\", \"long\"], \"links\": []}]}";

/* What the argument is above 1, as long as `a` is valid, and else its negation. */
static const char one_less[] = "[\"point\", \"a\", [\"insert\", [\"op\", \"isub\"], 1, [1]], [\"op\", \"ineg\"]]";

static const uint8_t *bytes(const char *text) { return (const uint8_t *)text; }

/* The answers of the first two sites to a number. */
static void call_both(mhlink_machine *machine, int32_t number) {
    const mhlink_value value = {MHLINK_INT, number};
    mhlink_reply reply = {0, 0, 0};
    for (size_t site = 0; site < 2; site++) {
        uint32_t status = mhlink_call(machine, 0, site, &value, 1, bytes(""), 0, &reply);
        printf("%s(%" PRId32 "): %" PRId64 ", status %" PRIu32 "\n", site ? "g" : "f", number, reply.number, status);
    }
}

/* Trees of all forms, as mhlink writes them. */
static const char *const forms[] = {
    "[\"id\",\"int\"]",
    "[\"insert\",[\"op\",\"isub\"],1,[-1]]",
    "[\"drop\",[\"const\",\"int\",-2147483648],0,[\"int\"]]",
    "[\"insert\",[\"drop\",[\"op\",\"ineg\"],1,[\"long\",\"boolean\",\"String\"]],1,[9223372036854775807,true,\"\"]]",
    "[\"return\",[\"drop\",[\"const\",\"String\",\"a \\\"b\\\\\"],0,[\"int\"]],[\"op\",\"len\"]]",
    "[\"permute\",[\"filter\",[\"op\",\"iadd\"],0,[null,[\"op\",\"ineg\"]]],\"(int)int\",[0,0]]",
    "[\"fold\",[\"op\",\"iadd\"],[\"op\",\"ineg\"]]",
    "[\"guard\",[\"insert\",[\"op\",\"ieq\"],1,[7]],[\"op\",\"ineg\"],[\"id\",\"int\"]]",
    "[\"point\",\"a\",[\"op\",\"ineg\"],[\"invoke\",\"f\"]]",
};

/* Gives a site each of these, and asks for its tree: the text is the same. */
static void give_all_forms(mhlink_machine *machine) {
    const size_t count = sizeof forms / sizeof *forms;
    uint8_t text[200];
    size_t same = 0, length = 0, again = 0;
    uint64_t part = 0;
    for (size_t form = 0; form < count; form++) {
        uint32_t status = mhlink_target(machine, 1, bytes(forms[form]), strlen(forms[form]), &part);
        if (!status) status = mhlink_tree_text(machine, 1, text, sizeof text, &length);
        if (!status && length == strlen(forms[form]) && !memcmp(text, forms[form], length)) same++;
        else printf("%s: status %" PRIu32 "\n", forms[form], status);
        if (mhlink_tree_text(machine, 1, text, length - 1, &again) != MHLINK_SHORT || again != length) puts("the length is wrong");
    }
    printf("%zu of %zu trees have the text that gave them\n", same, count);
    printf("of site 2: status %" PRIu32, mhlink_tree_text(machine, 2, text, sizeof text, &length));
    printf(", %.*s\n", (int)length, (const char *)text);
    printf("of site 3: status %" PRIu32 "\n", mhlink_tree_text(machine, 3, text, sizeof text, &length));
}

static void give_to_machine(mhlink_machine *machine) {
    const uint32_t point = 0;
    mhlink_tree tree = {NULL};
    uint64_t part = 0;
    uint32_t status = mhlink_tree_read(machine, bytes(one_less), strlen(one_less) - 1, &tree, &part);
    printf("read without its end: status %" PRIu32 "\n", status);
    status = mhlink_tree_read(machine, bytes(one_less), strlen(one_less), &tree, &part);
    printf("read: status %" PRIu32 "\n", status);
    if (status) return;
    for (size_t site = 0; site <= SITES; site++)
        printf("given to site %zu: status %" PRIu32 "\n", site, mhlink_target_tree(machine, site, &tree, &part));
    call_both(machine, 7);
    printf("invalidated: status %" PRIu32 "\n", mhlink_invalidate(machine, &point, 1));
    mhlink_tree_close(tree);
    call_both(machine, 7);
}

static void tell_tree_of_desk(mhlink_desk *desk, size_t site) {
    uint8_t text[100];
    size_t length = 0;
    uint32_t status = mhlink_desk_tree_text(desk, site, text, sizeof text, &length);
    printf("a desk: status %" PRIu32 ", %.*s\n", status, (int)length, (const char *)text);
}

static uint32_t give_to_desk(void) {
    const mhlink_limits limits = MHLINK_WIDEST_LIMITS;
    const mhlink_value value = {MHLINK_INT, 7};
    mhlink_reply reply = {0, 0, 0};
    mhlink_caller caller;
    mhlink_desk desk;
    mhlink_tree tree = {NULL};
    uint64_t part = 0;
    uint32_t status = mhlink_desk_open(bytes(definition), strlen(definition), &limits, &caller, 1, &desk, &part);
    if (status) return status;
    status = mhlink_desk_tree_read(&desk, bytes(one_less), strlen(one_less), &tree, &part);
    if (!status) status = mhlink_desk_target_tree(&desk, 1, &tree, &part);
    if (tree.at) mhlink_tree_close(tree);
    tell_tree_of_desk(&desk, 1);
    if (!status) status = mhlink_desk_show(&desk);
    if (!status) status = mhlink_caller_look(&caller, &desk);
    if (!status) status = mhlink_caller_call(&caller, 1, &value, 1, bytes(""), 0, &reply);
    printf("by a caller of a desk, g(7): %" PRId64 "\n", reply.number);
    mhlink_caller_close(caller);
    mhlink_desk_close(desk);
    return status;
}

int main(void) {
    const mhlink_limits limits = MHLINK_WIDEST_LIMITS;
    mhlink_machine machine;
    uint64_t part = 0;
    uint32_t status = mhlink_open(bytes(definition), strlen(definition), 1, &limits, &machine, &part);
    if (status) return 1;
    give_to_machine(&machine);
    give_all_forms(&machine);
    mhlink_close(machine);
    return (int)give_to_desk();
}
