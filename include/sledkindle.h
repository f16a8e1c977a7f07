/* Sledkindle: routines of an emulated disc drive, read, marked, checked and run in lent memory.
 *
 * Link with libsledkindle.a (`tools/build`). No call allocates, keeps a pointer, writes to
 * standard output or changes anything but the marking or memory that is lent to it. Any file, marking,
 * fuel and lent length gets an answer; a refused call writes nothing.
 *
 * What a host must see to:
 * - each pointer has at least as many bytes or entries behind it as its length says, aligned for its
 *   type; where a length is 0 the pointer may be anything but must not be NULL;
 * - what is lent to be written (the marking of sledkindle_infer, the memory of sledkindle_run) overlaps
 *   no other argument, and nobody else touches it during the call;
 * - 1 MiB of stack is enough for every call, on whatever thread makes it.
 */
#ifndef SLEDKINDLE_H
#define SLEDKINDLE_H

#include <stddef.h>
#include <stdint.h>

#ifdef __cplusplus
extern "C" {
#endif

/* number: 0 where nothing was refused, and place is then 0; else what was refused:
 *   1 the file ends before a count or row that is due is whole   place: first byte of that count or row
 *   2 a count is over its limit, or there are no commands        place: the count
 *   3 a row has an unknown tag, a nonzero unused field, or a number out of its range   place: the row
 *   4 bytes follow the start values                              place: the first of them
 *   5 the homes have more than 4,096 cells                       place: the home row that passes it
 *   6 an operand is an int where a reference is needed, or the reverse, or a start value is for a cell
 *     of reference type                                          place: the row
 *   7 the marking's length is not the number of types, or a byte is above 2   place: the lesser length,
 *     or the index from 0 of the first bad byte
 *   8 the marking breaks a kind rule                             place: the row
 *   9 what was lent is too short                                 place: the length needed
 *  10 a start value's row does not rise, by home, then cell      place: the row
 * The places of 1 to 6, 8 and 10 are byte offsets in the file. The first refusal met is given: 1 to 4
 * front to back, then 5, 10, 6, 7, 8, 9. */
struct sledkindle_answer {
    uint32_t number;
    uint32_t place;
};

/* number: as above. Where it is 0 the routine ran:
 * outcome: how the run ended
 *   0 done                                                       place: 0
 *   1 an access by the address 0, null                           place: the row that made the check
 *   2 an offset at or past the size of its home                  place: that row
 *   3 an access through a pair of home 0: a number, not a pointer   place: that row
 *   4 a division or remainder by zero                            place: that row
 *   5 the fuel ran out                                           place: the row that was not entered
 * units: the rows entered, at most the fuel given. */
struct sledkindle_ran {
    uint32_t number;
    uint32_t place;
    uint32_t outcome;
    uint32_t units;
};

/* Reads a file: refusals 1 to 6 and 10. A file that earns none is well-formed. */
struct sledkindle_answer sledkindle_read(const uint8_t *file, size_t file_len);

/* Checks a marking, a byte for each type (0 SAFE, 1 SEQ, 2 DYNAMIC): refusals 1 to 8 and 10. */
struct sledkindle_answer sledkindle_check(const uint8_t *file, size_t file_len,
                                          const uint8_t *marking, size_t marking_len);

/* Writes the lowest acceptable marking, one byte for each type, over the first bytes of the lent
 * marking; the others stay. Refusals 1 to 6 and 10, and 9 with the number of types. */
struct sledkindle_answer sledkindle_infer(const uint8_t *file, size_t file_len,
                                          uint8_t *marking, size_t marking_len);

/* Runs a file under a marking. The starting memory, with the file's start values in it, is written over
 * the first entries of the lent memory, one for each cell in address order; the others stay. Refusals 1
 * to 8 and 10, and 9 with the number of cells. An entry's low half is a number or an offset; its high
 * half is 0 for a plain number, 1 + g for a pair of home g. */
struct sledkindle_ran sledkindle_run(const uint8_t *file, size_t file_len,
                                     const uint8_t *marking, size_t marking_len,
                                     uint32_t fuel, uint64_t *memory, size_t memory_len);

#ifdef __cplusplus
}
#endif

#endif
