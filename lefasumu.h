/* Lefasumu, a parametric-stereo decoder (ISO/IEC 14496-3, 8.6.4), for C and C++.
 *
 * A decoder's whole state lies in memory that the caller lends, LEFASUMU_MEMORY doubles. Nothing else is kept between calls: nothing is
 * allocated, and a decoder is copied by copying its memory. Many decoders, each with its own memory, may run at once.
 *
 *     static double memory[LEFASUMU_MEMORY];
 *     lefasumu_start(memory, LEFASUMU_MEMORY, 32);
 *     answer = lefasumu_frame(memory, LEFASUMU_MEMORY, line, line_length, input, input_length, edge,
 *                             left, left_length, right, right_length);
 *
 * A pointer and the length after it say one buffer, a length in elements and not in bytes. Where the length is not 0, the pointer is to that
 * many elements. The buffers that a call writes (memory, left, right) overlap no other buffer of that call.
 *
 * After answer 0 the frame is done: both outputs are filled, and the memory holds the state after it. After any other answer every buffer is
 * as it was, the memory too.
 *
 * What a call assumes: IEEE 754 doubles, rounding to nearest, subnormals kept. In another rounding mode, or where subnormals are flushed to
 * zero, as audio hosts often set it, bits change, and the proofs do not speak of it. A frame call needs up to 128 KiB of stack;
 * docs/C-API.md has what was measured for each archive.
 */
#ifndef LEFASUMU_H
#define LEFASUMU_H

#include <stddef.h>
#include <stdint.h>

#ifdef __cplusplus
extern "C" {
#endif

/* The version of this interface. */
#define LEFASUMU_VERSION "0.1.0"

/* How many doubles the memory of a decoder has, for a static array. lefasumu_memory() says the same. */
#define LEFASUMU_MEMORY 2429

/* Frame done, or memory started. */
#define LEFASUMU_DONE 0u
/* Quiet: an empty line before any configuration. The input and the outputs were not looked at. */
#define LEFASUMU_QUIET 1u
/* The line has a character outside 0-9 a-f. */
#define LEFASUMU_CHARACTER 2u
/* The line is over 864 characters, or not as long as its own bytes say. */
#define LEFASUMU_LENGTH 3u
/* A field of the line is out of range. */
#define LEFASUMU_FIELD 4u
/* The length of a buffer: the memory's first, before all else; else the input's or an output's. */
#define LEFASUMU_BUFFERS 5u
/* A sample of the input that the frame reads is not finite, or above 1,048,576 in magnitude. */
#define LEFASUMU_SAMPLE 6u

/* How many doubles the memory of a decoder has: always LEFASUMU_MEMORY. */
size_t lefasumu_memory(void);

/* Makes memory that of a fresh decoder for an asked number of slots, which acts as 6 to 32; whatever the memory held, it is written whole.
 * Answers LEFASUMU_DONE, or LEFASUMU_BUFFERS for a memory of another length, which is left as it is. */
uint32_t lefasumu_start(double *memory, size_t memory_length, size_t slots);

/* A frame.
 *   memory  as lefasumu_start or the call before left it. (Any other memory of that length is a state too, and gets an answer.)
 *   line    a cue line without its newline: lower-case hexadecimal; no characters where the frame brought no stereo data.
 *   input   QMF rows of 64 complex numbers, re then im: 128 doubles a row, slots + 6 rows or more; rows after those are not looked at.
 *   edge    the spectrum edge, kx + M; 64 and above act as 64.
 *   left, right  each slots x 128 doubles exactly: QMF rows in the same order.
 * Answers one of the numbers above. The memory is written after LEFASUMU_DONE alone. */
uint32_t lefasumu_frame(double *memory, size_t memory_length, const uint8_t *line, size_t line_length, const double *input, size_t input_length,
                        size_t edge, double *left, size_t left_length, double *right, size_t right_length);

#ifdef __cplusplus
}
#endif

#endif
