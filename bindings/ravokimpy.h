/*
 * The library for callers in C: a text of frames in, and out what clockmark prints for it, a verdict, or the text of its
 * table. The book of each call takes 4,096 nodes and 1,024 couplings, and a text has any length.
 *
 * A slice is passed as a pointer and a length. The pointer is not null, also where the length is 0, and what is lent for
 * writing overlaps nothing else that is lent to the call. No call allocates, keeps a pointer, or has a state of its own, so
 * calls may be made from several threads at once. A call wants two megabytes of stack.
 *
 * Where a function answers a status, it is 0 if the call is granted and else the number of its refusal, 1 to 14. A refused
 * call writes nothing.
 */
#ifndef RAVOKIMPY_H
#define RAVOKIMPY_H

#include <stddef.h>
#include <stdint.h>

#ifdef __cplusplus
extern "C" {
#endif

/* How many bytes the line of a verdict has, not spelled in digits. */
#define RAVOKIMPY_VERDICT_LENGTH 15

/* The coupling rules. */
#define RAVOKIMPY_NEVER 0
#define RAVOKIMPY_THREE_OCCURRENCES 1
#define RAVOKIMPY_ALWAYS 2

/*
 * Answers for how many bytes there has to be room in the output of a text: 138,271 for each line that asks for a verdict,
 * and 7 for every other line. A sum that leaves 64 bits stays at their end.
 */
size_t ravokimpy_room(const uint8_t *text, size_t text_length);

/*
 * Puts the lines of a text to a book that is not opened, and writes what is printed for them into the first places of
 * `out`; the other places keep what they hold. `written` is then how many bytes that is.
 * Refused with 11 where `out` is shorter than the room of the text.
 */
uint8_t ravokimpy_output(const uint8_t *text, size_t text_length, uint8_t *out, size_t out_length, size_t *written);

/*
 * As ravokimpy_output, but the tables of the book are overwritten by somebody else on the way: the text up to byte
 * `place` (all of it, if it is shorter) is read as one text and answered, then rows are overwritten, and then the rest is
 * read as another text and put to the same book.
 * `rows` is a list of records of 22 bytes each, with numbers highest byte first; bytes that are left over are left out.
 *
 *   byte 0         what is written: 0 a free row, 1 an input, 2 a gate, 3 a latch without a source, 4 a latch with one,
 *                  5 a coupling; for any other byte nothing is written
 *   bytes 1 to 2   the number of the row; for one past the table nothing is written
 *   byte 3         the phase of a node
 *   bytes 4 to 19  an input: earliest, latest (4 bytes each)
 *                  a gate: least, greatest (4 each), four sources (2 each)
 *                  a latch: least, greatest, setup, hold (4 each)
 *                  a coupling: victim, aggressor (2 each), assisting, opposing (4 each)
 *   bytes 20 to 21 the source of a latch; byte 21 alone the count of a gate's sources
 *
 * Whatever the rows hold, the call ends and stays within what it is lent.
 * Refused with 11 where `out` is shorter than the rooms of both parts together.
 */
uint8_t ravokimpy_output_overwritten(const uint8_t *text, size_t text_length, size_t place, const uint8_t *rows,
                                     size_t rows_length, uint8_t *out, size_t out_length, size_t *written);

/*
 * Loads a text, which seals its table, judges the table under the rule `times` times over, at least once, and writes the 15
 * bytes of the verdict's line into the first places of `verdict`: verdict 1 byte, latch 2, excess 8, rounds 2, flags set 2,
 * numbers highest byte first. `written` is then 15.
 * Refused by the first of these that applies: 13 where there is no such rule; the refusal of the first line that is
 * refused, which a line that asks for a verdict is, with 14; 14 where the table is not sealed; 11 where `verdict` has
 * fewer than 15 places.
 */
uint8_t ravokimpy_judge(const uint8_t *text, size_t text_length, uint8_t rule, uint32_t times, uint8_t *verdict,
                        size_t verdict_length, size_t *written);

/*
 * Loads a text and writes the table that it makes as a text into the first places of `out`: the schedule, the nodes, a feed
 * for each latch that has a source, and the couplings. `written` is then how many bytes that is, 224,533 at most; 0 for a
 * text without lines. A seal is not written.
 * Refused by the refusal of the first line that is refused, and else with 11 where `out` is shorter than the text.
 */
uint8_t ravokimpy_rebuild(const uint8_t *text, size_t text_length, uint8_t *out, size_t out_length, size_t *written);

#ifdef __cplusplus
}
#endif

#endif
