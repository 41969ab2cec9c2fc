/* Fishdavit: design images judged, read, written and run. C and C++ link target/staticlib/libfishdavit.a,
 * which tools/build library makes.
 *
 * Every call returns, whatever it is given. A pointer must be valid for as many elements as the length after it says, aligned for its
 * type and not null, even where the length is 0; the buffers of one call must not overlap. Nothing else is asked.
 */
#ifndef FISHDAVIT_H
#define FISHDAVIT_H

#include <stddef.h>
#include <stdint.h>

#ifdef __cplusplus
extern "C" {
#endif

/* What a call says. `line` counts from 0, an image's lines from its header; it is the line of the first fault or, where number is 0,
 * what was done.
 *
 *  number             line
 *  0 done             the count: frames for judge, words for read, bytes for write
 *  1 line             a line isn't sixteen digits 0-9a-f and 0a; also a last part without 0a (read)
 *  2 header           the first frame isn't a0, or a count is outside its range
 *  3 body             a due body frame isn't a1, has d, a, b not zero, or the lengths so far pass 1,024
 *  4 op               the op is unknown, or not allowed in that body
 *  5 field            an unused field isn't zero, or a used one is out of range
 *  6 short            the input ends with frames still due; the line is the count of whole frames
 *  7 extra            something follows the last due frame; the line is the count of frames before it
 *  8 room             the buffer to be filled is too short; the line is 0
 */
typedef struct fishdavit_verdict {
  uint32_t number;
  uint32_t line;
} fishdavit_verdict;

/* Judges the table of n frames, each one 64-bit number with its op in the top byte: 0 or 2 to 7. Nothing is written. */
fishdavit_verdict fishdavit_judge(const uint64_t *table, size_t n);

/* Reads the n bytes of an image's lines into the table of m words: 0 to 8. A table under 1,058 words is 8, before anything else.
 * 0: the first `line` words are the image's frames, the rest of the table is untouched. A refusal changes no word. */
fishdavit_verdict fishdavit_read(const uint8_t *bytes, size_t n, uint64_t *table, size_t m);

/* Writes the table of n frames as lines into the m bytes: 0 or 2 to 8. The table is judged first; then under 17 bytes a frame are 8.
 * 0: the first `line` bytes are the image's lines, the rest is untouched. A refusal changes no byte. */
fishdavit_verdict fishdavit_write(const uint64_t *table, size_t n, uint8_t *bytes, size_t m);

/* What a run answers. A refusal gives its number, body 0xff, the line as place, and zeros.
 *
 *  number             why the run ended
 *  0 quiet, 10 limit  the phase ended so, and main reached its end; body 0xff, place 0, as for 11, 20 and 21
 *  2 to 7             the table is refused, as by fishdavit_judge
 *  8 room             fewer than 256 cells
 *  9 job              over 4,096 choices (line 1), or over 1,024 inputs (line 2)
 *  11                 main ended without a start
 *  12 to 19, 22, 23   an instruction stopped the run; body and place name it
 *  20, 21             the choices are used up with a thread runnable; a choice names a thread that isn't runnable
 */
typedef struct fishdavit_answer {
  uint32_t number;
  uint32_t body;
  uint32_t place;
  uint32_t time;
  uint32_t instructions; /* completed */
  uint32_t choices;      /* accepted */
  uint32_t inputs;       /* taken */
  uint32_t threads;      /* not ended, thread 0 as bit 0 */
} fishdavit_answer;

/* Runs the design of the table of n frames: the c choices name the thread of each dispatch, the i inputs are taken in order, and at most
 * budget instructions are completed. The m cells are at least 256; the design's cells, the first of them, are set to 0 and then hold
 * what the last completed instruction left, the rest is untouched. A refusal (2 to 9) changes no cell. */
fishdavit_answer fishdavit_run(const uint64_t *table, size_t n, const uint8_t *choices, size_t c, const uint32_t *inputs, size_t i,
                               uint32_t budget, uint32_t *cells, size_t m);

#ifdef __cplusplus
}
#endif

#endif
