/* A ramp board for C and C++: every call, on a board that stands in memory of your own.
   Link target/bindings/libramp_board.a or target/bindings/libramp_board.so, which `bindings/build` makes.

   A frame, step by step:

       const uint8_t record[] = {0x01, 0x0A, 0x01, 0xFF, 0x3F, 0x01};       weight 1 is 1, the threshold 16,383, N is 1
       const uint16_t readings[] = {0, 16383};
       int32_t sums[2]; uint16_t words[2]; ramp_board board; size_t place;
       ramp_open(&board, RAMP_BOARD_WORDS, 2, 1, false, &place);            two columns, one row, not binned
       ramp_update(&board, RAMP_BOARD_WORDS, record, 6, &place);
       ramp_start(&board, RAMP_BOARD_WORDS, &place);
       ramp_feed(&board, RAMP_BOARD_WORDS, readings, 2, sums, 2, &place);   again and again, until the ramp has all its readings
       ramp_read_out(&board, RAMP_BOARD_WORDS, sums, 2, words, 2, &place);

   Each of these answers 0, and words is 32, 4127: a sum from 128 up to 132, and one from 16508 up to 16512.

   THE BOARD is a ramp_board: 29 numbers, whose content you need not know. ramp_open makes one, whatever stood there. It may lie anywhere:
   alone, in an array, in a struct of your own. All that a board is stands in it. So an assignment or memcpy makes a second board, and no
   call on one of the two changes the other; and a board that was moved, or written to disk and read back by the same version of the library on a
   machine of the same kind, goes on where it was. Bytes that were read back are copied into a ramp_board before a call, as it must be aligned. board_words is
   RAMP_BOARD_WORDS.
   A buffer that holds no board (never opened, damaged so that no board has such numbers, or of another length) is answered with 99 by every call
   but ramp_open, which gives 99 for another length alone. Numbers that were changed into those of another board are that board.

   LENT MEMORY. All memory is yours: the library allocates nothing, and keeps no pointer and nothing else from one call to the next. It reads and
   writes no more than the lengths say, which count entries and not bytes. Calls on different boards and buffers may be made at the same time. No
   pointer may be NULL, also where a length is 0; each is aligned for its type; and no two of one call may overlap.

   THE ANSWER of every function is 0 if the call is taken, and else the number of the refusal. *place is always written: the place of refusals 13
   and 14, and 0 with every other answer. Apart from it a refused call leaves everything as it was: the board, the sums, the words, and what the
   other pointers point to. docs/REFUSALS.md, the table of refusals, says when each number is given. Below, each function has its own in the order
   in which it checks, and the first that refuses is the answer. Any value of a number's type may be passed, and is answered.

   THE SUMS of a ramp have one entry for each pixel, row by row. Sample 1 sets an entry, whatever stood there, to 128 + weight x reading, and each
   further sample adds to it. A reading above the threshold at sample n makes it the mark 1,073,741,824 + n, which stays. From the first feed of a
   ramp to its read-out the same sums come with the board, unchanged: who copies a board in a ramp copies the sums too. After k samples an entry is
   possible if it lies from 128 - 245,745 x k to 128 + 245,745 x k, or is the mark of one of them; one that isn't is refused (14), and no other
   change is noticed.
   The entries are numbers of 32 bits, or else 64-bit floats, for which ramp_feed_floats and ramp_read_out_floats stand beside ramp_feed and
   ramp_read_out. Each float that is stored is exactly the whole number that the other kind would hold, marks too, and the words of the frame are the
   same. No number, an infinity, a fraction, minus zero and whatever is too large aren't possible. A ramp keeps to one kind from its first feed to
   its read-out; a board has no note of the kind, and one that changes is noticed no more than any other change.

   THE WORDS of a frame stand row by row: one for each pixel or, of a binned board, one for each square of four, in half as many rows and columns.
   ramp_read_word says what a word means. */
#ifndef RAMP_BOARD_H
#define RAMP_BOARD_H

#include <stdbool.h>
#include <stddef.h>
#include <stdint.h>

#ifdef __cplusplus
extern "C" {
#endif

#define RAMP_BOARD_WORDS 29

typedef struct {
    int64_t words[RAMP_BOARD_WORDS];
} ramp_board;

/* ---- The calls on a board ---- */

/* Opens a board of 1 to 1,024 columns (width) and rows (height), and binned (into squares of four) or not: that stays as it is. The settings are
   weights -4, -3, -2, -1, 0, 1, 2, 3, 4, threshold 13,087, r = 2, N = 9, and no ramp is running. Writes *board.
   Refused with 99: board_words isn't RAMP_BOARD_WORDS. 1: a side is 0 or above 1,024, or a binned board has an odd side. */
uint8_t ramp_open(ramp_board *board, size_t board_words, size_t width, size_t height, bool binned, size_t *place);

/* Changes the settings that the next ramp starts with, at any time; a running ramp keeps those that it started with. Writes *board.
   The record is two bytes of map, low byte first, and then the fields whose bits are set, in the order of the bits: bits 0 to 8 the weights of
   samples 1 to 9, one byte each (its size, 0 to 15, in bits 0 to 3, its sign in bit 4); bit 9 the threshold, two bytes, low byte first; bit 10 the
   truncation r, one byte; bit 11 the number of samples N, one byte. What it doesn't name stays as it is. A record is taken whole or not at all.
   Refused with 99: no board. 2: the record is under two bytes. 3: a bit from 12 to 15 of its map is set. 4: its length isn't what the map calls
   for. Then, for the first bad field, 5: a weight byte is above 31. 6: the threshold is above 16,383. 7: r isn't 1 to 3. 8: N isn't 1 to 9. */
uint8_t ramp_update(ramp_board *board, size_t board_words, const uint8_t *record, size_t record_length, size_t *place);

/* Starts a ramp, under the settings as the updates left them. It runs until a read-out or a drop is taken. Writes *board.
   Refused with 99: no board. 9: a ramp is running. */
uint8_t ramp_start(ramp_board *board, size_t board_words, size_t *place);

/* Feeds the next readings of the ramp, 0 to 16,383 each, as many as you like at a time. In all a ramp wants N x width x height: row by row, the
   whole array once for each sample. Writes *board and the sums. Without any readings it changes nothing.
   Refused with 99: no board. 10: no ramp is running. 11: sum_count isn't width x height. 12: there are more readings than the ramp still wants.
   13: a reading is above 16,383; the place is the index of the first such reading, from 0. 14: an entry that an earlier feed of the ramp wrote,
   and that gets a reading now, isn't possible after its samples so far; the place is the smallest such index in the sums, from 0. */
uint8_t ramp_feed(ramp_board *board, size_t board_words, const uint16_t *readings, size_t reading_count,
                  int32_t *sums, size_t sum_count, size_t *place);

/* Reads out the frame of a ramp that has all its readings, and ends the ramp. Writes *board and the words; the sums stay as they are.
   Refused with 99: no board. 10: no ramp is running. 11: sum_count isn't width x height. 15: readings are still wanted. 16: word_count isn't width
   x height or, of a binned board, a quarter of it. 14: an entry isn't possible after N samples; the place is the smallest such index in the sums,
   from 0. */
uint8_t ramp_read_out(ramp_board *board, size_t board_words, const int32_t *sums, size_t sum_count,
                      uint16_t *words, size_t word_count, size_t *place);

/* ramp_feed with the sums in floats: all that is said there holds. An entry that gets no reading stays as it was, bit for bit, and before sample 1 it
   may be anything, also no number.
   Refused as ramp_feed, with 99, 10, 11, 12, 13, 14. */
uint8_t ramp_feed_floats(ramp_board *board, size_t board_words, const uint16_t *readings, size_t reading_count,
                         double *sums, size_t sum_count, size_t *place);

/* ramp_read_out with the sums in floats: all that is said there holds.
   Refused as ramp_read_out, with 99, 10, 11, 15, 16, 14. */
uint8_t ramp_read_out_floats(ramp_board *board, size_t board_words, const double *sums, size_t sum_count,
                             uint16_t *words, size_t word_count, size_t *place);

/* Ends the ramp without a frame. The settings stay. Writes *board.
   Refused with 99: no board. 10: no ramp is running. */
uint8_t ramp_drop(ramp_board *board, size_t board_words, size_t *place);

/* Whether the settings in force are covered: *covered is 1 or 0. In force are those that the running ramp, or else the last one, started with, and
   before the first start those of ramp_open, which are covered. Only in a frame that was read out under covered settings does every word surely
   mean what ramp_read_word says: under others a sum may be too large for its word.
   Refused with 99: no board. */
uint8_t ramp_covered(const ramp_board *board, size_t board_words, uint8_t *covered, size_t *place);

/* ---- The words of a frame ---- */

/* The kinds of words. */
enum ramp_word_kind {
    RAMP_ORDINARY = 0,  /* the sum of the pixel, or the mean sum of the square, is *low or more, and below *high */
    RAMP_SATURATED = 1, /* a reading was above the threshold, first at sample *sample, 1 to 9 */
    RAMP_NEGATIVE = 2,  /* the sum is below 0 */
    RAMP_UNASSIGNED = 3 /* nothing */
};

/* What a word means, under the truncation r that was in force when its frame was read out: *kind is one of the four. Only of an ordinary word are
   *low and *high written, and only of a saturated one *sample; what isn't told stays as it is.
   Refused with 7: truncation isn't 1 to 3. */
uint8_t ramp_read_word(uint16_t truncation, uint16_t word, uint8_t *kind, double *low, double *high, uint16_t *sample, size_t *place);

/* The two questions about flags need no board: they look at words as a frame of width columns and height rows, which for a binned board are half
   of the board's. Rows and columns count from 0. A flag is a word that means saturated or negative: 32,753 to 32,761, or 32,767. */

/* The flag nearest to a place, by squared distance in rows and columns, and the first in row order among equals; a flag is its own nearest. *found
   is 1, and *flag_row and *flag_column are its place; or *found is 0, as there is no flag, and the other two stay as they are.
   Refused with 19: a side is 0 or above 1,024. 16: word_count isn't width x height. 19: the place is outside the frame. */
uint8_t ramp_nearest_flag(const uint16_t *words, size_t word_count, size_t width, size_t height, size_t row, size_t column,
                          size_t *found, size_t *flag_row, size_t *flag_column, size_t *place);

/* How many flags lie in a box, from its first row and column to its last, all counted in: *flags.
   Refused with 19: a side is 0 or above 1,024. 16: word_count isn't width x height. 19: a corner is outside the frame, or the first row or column
   is past the last. */
uint8_t ramp_count_flags(const uint16_t *words, size_t word_count, size_t width, size_t height,
                         size_t first_row, size_t first_column, size_t last_row, size_t last_column, size_t *flags, size_t *place);

/* ---- A frame in one call ---- */

/* Opens a board, updates it with the record, starts a ramp, feeds all readings and reads the frame out. Writes the sums and the words, if all of
   it is taken.
   Refused with the first refusal of those calls: 1. 2, 3, 4, one of 5 to 8. 11, 12, 13. 15, 16. */
uint8_t ramp_frame(size_t width, size_t height, bool binned, const uint8_t *record, size_t record_length,
                   const uint16_t *readings, size_t reading_count, int32_t *sums, size_t sum_count,
                   uint16_t *words, size_t word_count, size_t *place);

#ifdef __cplusplus
}
#endif

#endif
