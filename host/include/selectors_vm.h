/* The selector machine as C functions: link target/staticlib/libselectors_vm.a, which tools/library writes (x86-64 Linux).
 *
 * Slices. Each is a pointer and a number of ELEMENTS (not bytes). The pointer is aligned for its type and is not null, also where
 * the number is 0. In one call, no slice that is written (a pointer without const) may overlap another slice.
 *
 * Ownership. Every slice is the caller's. A call borrows it until it returns and keeps nothing: no memory is allocated, no pointer is
 * stored, there is no state outside the slices. Machines with stores of their own may be used in different threads at a time.
 *
 * Stack. selectors_vm_fresh takes at most 8 KiB, _start and _attributes 3 KiB, _end and _id_set 64 bytes (tools/stack).
 *
 * Stores of a machine, at least so many elements (longer ones are taken; a machine neither reads nor writes past the size):
 *   program  SELECTORS_VM_PLACE for each node that the sheet announces in its bytes 5 and 6 (fewer: refusal 15)
 *   rows, names, ids, nodes  the sizes below (fewer: refusal 31)
 * They need not be cleared before selectors_vm_fresh. Between calls they are left alone and lent again, together with THE SAME
 * SHEET. Whatever they hold, a call is answered or refused: it never reads or writes outside the slices, never runs for ever.
 * Stores that break a shape rule (docs/SHAPE.md), or a sheet of another length, are refused with 30. Another sheet of the same length,
 * or stores that were changed and still pass, are answered, but not by what was meant.
 *
 * Flags (esi, self_closing) are off at 0 and on otherwise.
 *
 * A refused call has changed no slice and hands out no id.
 */
#ifndef SELECTORS_VM_H
#define SELECTORS_VM_H

#include <stddef.h>
#include <stdint.h>

#ifdef __cplusplus
extern "C" {
#endif

#define SELECTORS_VM_PLACE 8     /* uint32_t of program for each node; at most 1,024 nodes */
#define SELECTORS_VM_ROWS 3096   /* uint32_t */
#define SELECTORS_VM_NAMES 49216 /* uint8_t */
#define SELECTORS_VM_IDS 514     /* uint64_t */
#define SELECTORS_VM_NODES 6144  /* uint16_t */
#define SELECTORS_VM_POPPED 512  /* uint64_t: two words for each of 256 open elements, enough for any end tag */

/* What an answer is. */
enum {
    SELECTORS_VM_REFUSED = 0,     /* refusal has the number; value the place of a sheet's fault, else 0 */
    SELECTORS_VM_MADE = 1,        /* from selectors_vm_fresh */
    SELECTORS_VM_MATCH = 2,       /* low and high have the ids; value is 1 if the element has content (it is open now), else 0 */
    SELECTORS_VM_WAITS = 3,       /* the tag waits for its attributes; no id yet */
    SELECTORS_VM_ENDED = 4,       /* value elements were popped, 0 where no open element has the name */
    SELECTORS_VM_TOP = 5,         /* low and high have the ids of the top open element */
    SELECTORS_VM_NOTHING_OPEN = 6 /* from selectors_vm_id_set */
};

/* Numbers of refusals (document 01, section 2).
 *  1 the sheet has fewer than 9 bytes                          2 it has more than 65,536
 *  3 its version is not 1                                      4 its length field differs from its length
 *  5 more than 1,024 nodes                                     6 a node deeper than 32
 *  7 more nodes than announced                                 8 a record or a piece runs past its holder, or bytes stay over in a record
 *  9 ids not strictly rising, or above 127                    10 no test at all
 * 11 kind unknown, or in the other group                      12 another fault in a test
 * 13 bytes left over, or fewer nodes than announced           15 program has too few places
 * 20 a tag name of 0 or over 63 bytes                         21 a namespace other than 0, 1, 2
 * 22 a tag is waiting for attributes                          23 attributes given, none waited for
 * 24 outlines not in fours, over 256, input over 65,536 bytes, a start past its end or an end past the input
 * 25 the parent has 2,147,483,647 children                    26 nth-of-type in use and 512 pairs of name and level live
 * 27 256 elements are open                                    28 over 4,096 matched nodes with child trees held by open elements
 * 29 popped has fewer than two words for each popped element  30 stores, program or sheet break a shape rule
 * 31 a state store is shorter than its size */

/* An answer, by value. Id i is bit i of low, or bit i - 64 of high; both are 0 unless kind is MATCH or TOP. */
typedef struct {
    uint32_t kind;
    uint32_t refusal;
    uint64_t value;
    uint64_t low;
    uint64_t high;
} selectors_vm_told;

/* Makes a machine of a sheet, whatever its stores held; writes program and rows. Refused with 31, 1 to 13, 15.
 * esi: `esi:include` and `esi:comment` are void names too. To start another document, make the machine anew. */
selectors_vm_told selectors_vm_fresh(const uint8_t *sheet, size_t sheet_len, uint32_t *program, size_t program_len,
                                     uint32_t *rows, size_t rows_len, const uint8_t *names, size_t names_len,
                                     const uint64_t *ids, size_t ids_len, const uint16_t *nodes, size_t nodes_len,
                                     uint32_t esi);

/* A start tag: name_space 0 HTML, 1 SVG, 2 MathML; a name of 1 to 63 bytes, in any case. MATCH or WAITS; writes the four state stores.
 * Refused with 31, 30, 22, 20, 21, 25, 26, then 27, 28 unless it waits. */
selectors_vm_told selectors_vm_start(const uint8_t *sheet, size_t sheet_len, const uint32_t *program, size_t program_len,
                                     uint32_t *rows, size_t rows_len, uint8_t *names, size_t names_len, uint64_t *ids,
                                     size_t ids_len, uint16_t *nodes, size_t nodes_len, uint32_t name_space,
                                     const uint8_t *name, size_t name_len);

/* The attributes of the tag that waits. outlines: four numbers for each attribute (name start, name end, value start, value end),
 * places in input; outlines_len counts numbers. MATCH; writes the four state stores. Refused with 31, 30, 23, 24, 27, 28; the tag waits on
 * then. A tag that waits while 256 elements are open and would be pushed gets 27 for ever: only selectors_vm_fresh helps. */
selectors_vm_told selectors_vm_attributes(const uint8_t *sheet, size_t sheet_len, const uint32_t *program, size_t program_len,
                                          uint32_t *rows, size_t rows_len, uint8_t *names, size_t names_len, uint64_t *ids,
                                          size_t ids_len, uint16_t *nodes, size_t nodes_len, uint32_t self_closing,
                                          const uint8_t *input, size_t input_len, const uint32_t *outlines,
                                          size_t outlines_len);

/* An end tag: pops through the nearest open element of that name. ENDED; writes rows, and to popped two id words (low, high) for each
 * popped element in opening order, the closed one first; words past them stay. Refused with 31, 30, 22, 20, 29. */
selectors_vm_told selectors_vm_end(const uint8_t *sheet, size_t sheet_len, const uint32_t *program, size_t program_len,
                                   uint32_t *rows, size_t rows_len, const uint8_t *names, size_t names_len,
                                   const uint64_t *ids, size_t ids_len, const uint16_t *nodes, size_t nodes_len,
                                   const uint8_t *name, size_t name_len, uint64_t *popped, size_t popped_len);

/* The ids of the top open element, never of the waiting tag. TOP or NOTHING_OPEN; writes nothing. Refused with 31, 30. */
selectors_vm_told selectors_vm_id_set(const uint8_t *sheet, size_t sheet_len, const uint32_t *program, size_t program_len,
                                      const uint32_t *rows, size_t rows_len, const uint8_t *names, size_t names_len,
                                      const uint64_t *ids, size_t ids_len, const uint16_t *nodes, size_t nodes_len);

#ifdef __cplusplus
}
#endif

#endif
