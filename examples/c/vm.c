/* A small interpreter whose sends go through mhlink. Its program adds up what `m` gives for a thousand receivers of two
   classes. It runs three times: as it stands, with the inline cache that the planner chose, and once class A was changed. */
#include "mhlink.h"
#include <inttypes.h>
#include <stdio.h>
#include <string.h>

/* `m` of class A (1) is 3 * x, and of class B (2) it is x + 5, while A.m is as it was compiled; then it is -x. */
static const char definition[] =
    "{\"version\": 2, \"points\": [{\"name\": \"A.m\", \"cost\": 50}], \"sites\": ["
    "{\"name\": \"m\", \"type\": \"(int,int)int\", \"key\": 0,"
    " \"target\": [\"point\", \"A.m\", [\"guard\", [\"insert\", [\"op\", \"ieq\"], 1, [1]],"
    "   [\"drop\", [\"insert\", [\"op\", \"imul\"], 1, [3]], 0, [\"int\"]],"
    "   [\"drop\", [\"insert\", [\"op\", \"iadd\"], 1, [5]], 0, [\"int\"]]],"
    "  [\"drop\", [\"op\", \"ineg\"], 0, [\"int\"]]],"
    " \"links\": [{\"when\": 1, \"weight\": 4, \"needs\": [\"A.m\"]}, {\"when\": 2, \"weight\": 1, \"needs\": [\"A.m\"]}]}]}";

enum op { PUSH, LOAD, STORE, ADD, LESS, CLASS, SEND, JUMP_IF_NOT, JUMP, HALT };
struct code { enum op op; int64_t operand; };

/* sum = 0; i = 0; while (i < 1000) { sum = sum + send m(class of i, i); i = i + 1; } */
enum { SUM, I };
static const struct code program[] = {
    {PUSH, 0}, {STORE, SUM}, {PUSH, 0}, {STORE, I},
    {LOAD, I}, {PUSH, 1000}, {LESS, 0}, {JUMP_IF_NOT, 18},
    {LOAD, SUM}, {LOAD, I}, {CLASS, 0}, {LOAD, I}, {SEND, 0}, {ADD, 0}, {STORE, SUM},
    {LOAD, I}, {PUSH, 1}, {JUMP, 19},
    {HALT, 0},
    {ADD, 0}, {STORE, I}, {JUMP, 4},
};

struct vm {
    mhlink_machine machine;
    size_t site;
    uint32_t status; /* of the last send that was refused, or 0 */
    int64_t stack[16], locals[2];
};

/* A send: the receiver's class and the argument, from the top of the stack. */
static int64_t send(struct vm *vm, int64_t class, int64_t argument) {
    mhlink_value values[] = {{MHLINK_INT, class}, {MHLINK_INT, argument}};
    mhlink_reply reply = {MHLINK_INT, 0, 0};
    uint32_t status = mhlink_call(&vm->machine, 0, vm->site, values, 2, (const uint8_t *)"", 0, &reply);
    if (status) vm->status = status;
    return reply.number;
}

static int64_t interpret(struct vm *vm) {
    int64_t *top = vm->stack;
    for (const struct code *at = program;; at++) {
        switch (at->op) {
        case PUSH: *top++ = at->operand; break;
        case LOAD: *top++ = vm->locals[at->operand]; break;
        case STORE: vm->locals[at->operand] = *--top; break;
        case ADD: top--; top[-1] += top[0]; break;
        case LESS: top--; top[-1] = top[-1] < top[0]; break;
        case CLASS: top[-1] = top[-1] % 10 == 9 ? 2 : 1; break;
        case SEND: top--; top[-1] = send(vm, top[-1], top[0]); break;
        case JUMP_IF_NOT: if (!*--top) at = program + at->operand - 1; break;
        case JUMP: at = program + at->operand - 1; break;
        case HALT: return vm->locals[SUM];
        }
    }
}

/* The hits so far go to the totals, and the best plan for them is installed. */
static uint32_t link_sites(struct vm *vm, uint64_t *linked) {
    uint64_t snapshot, plan, part;
    uint32_t status = mhlink_flush(&vm->machine, 0);
    if (!status) status = mhlink_snapshot(&vm->machine, &snapshot);
    if (!status) status = mhlink_plan(&vm->machine, snapshot, &plan);
    if (!status) status = mhlink_install(&vm->machine, plan, linked, &part);
    return status;
}

static uint32_t run(struct vm *vm) {
    uint64_t site, point, hits[2], linked, held;
    uint32_t status = mhlink_site(&vm->machine, (const uint8_t *)"m", 1, &site);
    if (!status) status = mhlink_point(&vm->machine, (const uint8_t *)"A.m", 3, &point);
    if (status) return status;
    vm->site = site;
    printf("sum %" PRId64 "\n", interpret(vm));
    status = mhlink_hits(&vm->machine, 0, 0, &hits[0]);
    if (!status) status = mhlink_hits(&vm->machine, 0, 1, &hits[1]);
    if (!status) status = link_sites(vm, &linked);
    if (!status) status = mhlink_linked(&vm->machine, vm->site, &held);
    if (status) return status;
    printf("hits %" PRIu64 " %" PRIu64 ", linked %" PRIu64 " site by %" PRIu64 " links\n", hits[0], hits[1], linked, held);
    printf("sum %" PRId64 "\n", interpret(vm));
    uint32_t changed[] = {(uint32_t)point};
    status = mhlink_invalidate(&vm->machine, changed, 1);
    if (status) return status;
    printf("A.m is redefined\nsum %" PRId64 "\n", interpret(vm));
    status = mhlink_flush(&vm->machine, 0);
    if (!status) status = mhlink_total(&vm->machine, 0, &hits[0]);
    if (!status) status = mhlink_total(&vm->machine, 1, &hits[1]);
    if (status) return status;
    printf("totals %" PRIu64 " %" PRIu64 "\n", hits[0], hits[1]);
    return vm->status;
}

int main(void) {
    struct vm vm = {{NULL}, 0, 0, {0}, {0}};
    mhlink_limits limits = MHLINK_WIDEST_LIMITS;
    uint64_t part;
    uint32_t status = mhlink_open((const uint8_t *)definition, strlen(definition), 1, &limits, &vm.machine, &part);
    if (status) {
        printf("open: status %" PRIu32 ", part %" PRIu64 "\n", status, part);
        return 1;
    }
    status = run(&vm);
    if (status) printf("status %" PRIu32 "\n", status);
    mhlink_close(vm.machine);
    return status != 0;
}
