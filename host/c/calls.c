/* The header and the library, from C: every call once, each kind of answer, and a refusal. Ends with 0 where all is right, else with the
 * number of the first step that is not. */
#include "selectors_vm.h"

#include <stdio.h>
#include <string.h>

/* Ids 3 on `p`, 64 on `[x]`. */
static const uint8_t sheet[] = {1, 0, 0, 0, 39, 0, 2, 0, 2, 0, 13, 1, 3,  1, 0, 0, 0, 0,  0, 0,
                                3, 3, 0, 'p', 0, 13, 1, 64, 0, 1, 0, 0, 0, 0, 0, 3, 18, 0, 'x'};

static uint32_t program[2 * SELECTORS_VM_PLACE];
static uint32_t rows[SELECTORS_VM_ROWS];
static uint8_t names[SELECTORS_VM_NAMES];
static uint64_t ids[SELECTORS_VM_IDS];
static uint16_t nodes[SELECTORS_VM_NODES];
static uint64_t popped[SELECTORS_VM_POPPED];

#define SHEET sheet, sizeof sheet
#define PROGRAM program, sizeof program / sizeof *program
#define STATE rows, SELECTORS_VM_ROWS, names, SELECTORS_VM_NAMES, ids, SELECTORS_VM_IDS, nodes, SELECTORS_VM_NODES

enum { HTML = 0, SVG = 1 };
enum { OFF = 0, ON = 256 }; /* any number but 0 is on */

static selectors_vm_told start(uint32_t name_space, const char *name) {
    return selectors_vm_start(SHEET, PROGRAM, STATE, name_space, (const uint8_t *)name, strlen(name));
}

static selectors_vm_told attributes(uint32_t closing, const char *tag, const uint32_t *outlines, size_t count) {
    return selectors_vm_attributes(SHEET, PROGRAM, STATE, closing, (const uint8_t *)tag, strlen(tag), outlines, count);
}

static selectors_vm_told end(const char *name, size_t room) {
    return selectors_vm_end(SHEET, PROGRAM, STATE, (const uint8_t *)name, strlen(name), popped, room);
}

static int is(selectors_vm_told told, uint32_t kind, uint32_t refusal, uint64_t value, uint64_t low, uint64_t high) {
    return told.kind == kind && told.refusal == refusal && told.value == value && told.low == low && told.high == high;
}

/* The number of the first step that goes wrong, or 0. */
static int run(void) {
    static const uint32_t outline[] = {3, 4, 5, 6};

    if (!is(selectors_vm_fresh(sheet, 38, PROGRAM, STATE, OFF), SELECTORS_VM_REFUSED, 4, 0, 0, 0)) return 1;
    if (!is(selectors_vm_fresh(SHEET, program, 15, STATE, OFF), SELECTORS_VM_REFUSED, 15, 0, 0, 0)) return 2;
    if (!is(selectors_vm_fresh(SHEET, PROGRAM, STATE, ON), SELECTORS_VM_MADE, 0, 0, 0, 0)) return 3;
    if (!is(selectors_vm_id_set(SHEET, PROGRAM, STATE), SELECTORS_VM_NOTHING_OPEN, 0, 0, 0, 0)) return 4;
    if (!is(start(HTML, "p"), SELECTORS_VM_WAITS, 0, 0, 0, 0)) return 5;
    if (!is(end("p", SELECTORS_VM_POPPED), SELECTORS_VM_REFUSED, 22, 0, 0, 0)) return 6;
    if (!is(attributes(ON, "<p x=1>", outline, 3), SELECTORS_VM_REFUSED, 24, 0, 0, 0)) return 7;
    if (!is(attributes(ON, "<p x=1>", outline, 4), SELECTORS_VM_MATCH, 0, 1, 8, 1)) return 8;
    if (!is(selectors_vm_id_set(SHEET, PROGRAM, STATE), SELECTORS_VM_TOP, 0, 0, 8, 1)) return 9;
    if (!is(start(HTML, "esi:include"), SELECTORS_VM_WAITS, 0, 0, 0, 0)) return 10;
    if (!is(attributes(OFF, "", outline, 0), SELECTORS_VM_MATCH, 0, 0, 0, 0)) return 11;
    if (!is(start(SVG, "p"), SELECTORS_VM_WAITS, 0, 0, 0, 0)) return 12;
    if (!is(attributes(ON, "", outline, 0), SELECTORS_VM_MATCH, 0, 0, 8, 0)) return 13;
    if (!is(end("P", 1), SELECTORS_VM_REFUSED, 29, 0, 0, 0)) return 14;
    if (!is(end("P", 2), SELECTORS_VM_ENDED, 0, 1, 0, 0) || popped[0] != 8 || popped[1] != 1) return 15;
    if (!is(end("P", 0), SELECTORS_VM_ENDED, 0, 0, 0, 0)) return 16;
    return 0;
}

int main(void) {
    int wrong = run();
    if (wrong) fprintf(stderr, "step %d is wrong\n", wrong);
    return wrong;
}
