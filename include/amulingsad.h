/*
 * Amulingsad: the machine of document 01 on a memory that the caller lends. Nothing is allocated and nothing is kept between calls.
 *
 * Every function returns document 01's number: 0 for done, else why it was refused. A refused call leaves all memory that it was lent
 * as found, the answers behind pointers too. Of several reasons the first in the order that stands beside the function is given.
 *
 * The caller sees to this: a pointer is not null, even with length 0, and points to as many bytes as are named with it (an answer: to one
 * value); memory that a call may write overlaps nothing else that it is lent. Numbers asked for may be of any size.
 *
 *   24 the state memory has another length than AMUL_STATE_SIZE
 *    1 the state isn't sound
 *    2 record number over 31, or record free                   3 record waiting
 *    4 no instruction at the record's place                    5 fewer stack values than needed
 *    6 stack or environment would pass 16                      7 no such environment place
 *    8 a slot over 7, empty, or not to be used so              9 sum or product outside 32 bits
 *   10 ends lost or doubled                                   11 stack not empty
 *   12 same names one slot twice, or two partners             13 queue has 8 items
 *   14 same: an own queue isn't empty                         15 too few free ends, or no free record
 *   16 end number over 63, or end free                        17 a queue of the pair is empty
 *   18 heads don't match                                      19 fork released with no free record
 *   20 image length not 512 times 1 to 16                     21 some block's check wrong
 *   22 first two bytes, code length or block count wrong      23 a nonzero byte after the code
 *   25 start position over 95
 *   26 code length not 1 to 8,156                             27 output shorter than the blocks
 */
#ifndef AMULINGSAD_H
#define AMULINGSAD_H

#include <stddef.h>
#include <stdint.h>

#ifdef __cplusplus
extern "C" {
#endif

/* The bytes of the state memory; docs/STATE.md says what stands where. */
#define AMUL_STATE_SIZE 16902

/* The most bytes of an image. */
#define AMUL_IMAGE_SIZE 8192

/* How a run came out. */
#define AMUL_SPENT 0    /* something can step */
#define AMUL_FINISHED 1 /* nothing can step, and no record and no end is in use */
#define AMUL_STUCK 2    /* nothing can step, and some record or some end is in use */

/*
 * Fills the state memory with the start state and the code of a method image.
 * 24, 20, 21, 22, 23. The state memory may hold anything before. The image is only read.
 */
uint8_t amul_load(uint8_t *state, size_t state_len, const uint8_t *image, size_t image_len);

/*
 * Writes the image of a code to the front of out: the fewest blocks of 512 bytes that hold 4 + code_len bytes of data, 510 in each.
 * 26, 27. Bytes of out past the blocks are kept. The code is only read.
 */
uint8_t amul_write(const uint8_t *code, size_t code_len, uint8_t *out, size_t out_len);

/*
 * Asks a record for a step.
 * 24, 1, 2 to 15.
 */
uint8_t amul_ask_record(uint8_t *state, size_t state_len, uint32_t record);

/*
 * Asks an end for a step; either end of a pair asks for the same one.
 * 24, 1, 16 to 19.
 */
uint8_t amul_ask_end(uint8_t *state, size_t state_len, uint32_t end);

/*
 * How many ends are free, and the lowest free end: 0 and 64 with none free. The state memory is only read.
 * 24, 1; then count and lowest are not written.
 */
uint8_t amul_free_ends(const uint8_t *state, size_t state_len, uint8_t *count, uint8_t *lowest);

/*
 * Makes steps until the budget is used or nothing can step. Positions 0 to 31 are records, 32 to 95 are ends 0 to 63; the first that can
 * step is taken, searching upward from start and around, and the search goes on after it. Answers the steps made, the next position (start
 * if none was made) and how the run came out, AMUL_SPENT, AMUL_FINISHED or AMUL_STUCK.
 * 24, 1, 25; then steps, next and verdict are not written.
 */
uint8_t amul_run(uint8_t *state, size_t state_len, uint16_t budget, uint32_t start,
                 uint16_t *steps, uint8_t *next, uint8_t *verdict);

#ifdef __cplusplus
}
#endif

#endif
