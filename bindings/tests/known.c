/* Known answers of every function of ramp_board.h, each refusal among them. */
#include "calls.h"

#include <float.h>
#include <math.h>
#include <stdio.h>
#include <stdlib.h>
#include <string.h>

/* Lends an array, or its first entries. */
#define LEND(scene, part, array) lend(scene, part, array, COUNT(array))

/* The place must be the one told; what else holds of every call is checked by make. */
static void expect_answer(struct scene *scene, enum call call, uint8_t number, size_t place, const char *what) {
    uint8_t answer = make(scene, call);
    expect(answer == number && size_in(scene, PLACE) == place, "%s, %s: %d at %zu, and not %d at %zu", name_of(call), what, answer,
           size_in(scene, PLACE), number, place);
}

static void expect_taken(struct scene *scene, enum call call, const char *what) { expect_answer(scene, call, 0, 0, what); }

/* ---- Boards that users keep ---- */

static const uint8_t one_sample[] = {0x01, 0x0A, 0x01, 0xFF, 0x3F, 0x01}; /* weight 1 is 1, the threshold 16,383, N is 1 */
static const uint8_t nothing[] = {0x00, 0x00};

/* The example of the header, and the same in one call. */
static void example(void) {
    const uint16_t readings[] = {0, 16383};
    int32_t sums[2] = {77, 77};
    uint16_t words[2] = {7, 7};
    ramp_board board;
    size_t place = 5;
    memset(&board, 0xFF, sizeof board);
    expect(ramp_open(&board, RAMP_BOARD_WORDS, 2, 1, false, &place) == 0 && place == 0, "the example is opened");
    expect(ramp_update(&board, RAMP_BOARD_WORDS, one_sample, 6, &place) == 0, "the example is updated");
    expect(ramp_start(&board, RAMP_BOARD_WORDS, &place) == 0, "the example is started");
    expect(ramp_feed(&board, RAMP_BOARD_WORDS, readings, 2, sums, 2, &place) == 0, "the example is fed");
    expect(ramp_read_out(&board, RAMP_BOARD_WORDS, sums, 2, words, 2, &place) == 0, "the example is read out");
    expect(sums[0] == 128 && sums[1] == 16511, "the sums of the example are %d and %d", sums[0], sums[1]);
    expect(words[0] == 32 && words[1] == 4127, "the words of the example are %d and %d", words[0], words[1]);

    int32_t whole_sums[2] = {77, 77};
    uint16_t whole_words[2] = {7, 7};
    expect(ramp_frame(2, 1, false, one_sample, 6, readings, 2, whole_sums, 2, whole_words, 2, &place) == 0 && place == 0, "the frame is taken");
    expect(memcmp(sums, whole_sums, sizeof sums) == 0 && memcmp(words, whole_words, sizeof words) == 0, "the frame in one call is that of the example");
}

/* The example in floats, which hold nothing before. */
static void example_in_floats(void) {
    const uint16_t readings[] = {0, 16383};
    double sums[2] = {NAN, -0.5};
    uint16_t words[2] = {7, 7};
    ramp_board board;
    size_t place = 5;
    expect(ramp_open(&board, RAMP_BOARD_WORDS, 2, 1, false, &place) == 0, "the example in floats is opened");
    expect(ramp_update(&board, RAMP_BOARD_WORDS, one_sample, 6, &place) == 0, "the example in floats is updated");
    expect(ramp_start(&board, RAMP_BOARD_WORDS, &place) == 0, "the example in floats is started");
    expect(ramp_feed_floats(&board, RAMP_BOARD_WORDS, readings, 2, sums, 2, &place) == 0 && place == 0, "the example is fed in floats");
    expect(ramp_read_out_floats(&board, RAMP_BOARD_WORDS, sums, 2, words, 2, &place) == 0 && place == 0, "the example is read out in floats");
    expect(sums[0] == 128 && sums[1] == 16511, "the floats of the example are %g and %g", sums[0], sums[1]);
    expect(words[0] == 32 && words[1] == 4127, "the words of the example in floats are %d and %d", words[0], words[1]);
}

/* The settings that a board opens with: the threshold marks a reading of 13,088, and none of 13,087; they are covered. */
static void defaults(void) {
    uint16_t readings[9] = {13087, 13087, 13087, 13087, 13087, 13087, 13087, 13087, 13087};
    int32_t sum = 77;
    uint16_t word = 7;
    size_t place = 5;
    expect(ramp_frame(1, 1, false, nothing, 2, readings, 9, &sum, 1, &word, 1, &place) == 0 && sum == 128 && word == 32, "13,087 and the defaults");
    readings[8] = 13088;
    expect(ramp_frame(1, 1, false, nothing, 2, readings, 9, &sum, 1, &word, 1, &place) == 0 && word == 32761, "13,088 and the defaults");
    ramp_board board;
    uint8_t covered = 7;
    expect(ramp_open(&board, RAMP_BOARD_WORDS, 1, 1, false, &place) == 0, "a board of one pixel is opened");
    expect(ramp_covered(&board, RAMP_BOARD_WORDS, &covered, &place) == 0 && covered == 1, "the defaults are covered");
}

/* Two 4 x 2 boards of nine samples, with marks: a ramp of each whole, to compare parts with. */
static const uint8_t threshold[] = {0x00, 0x02, 0x00, 0x30}; /* 12,288; the default weights, r and N */

struct whole {
    uint16_t readings[72];
    int32_t sums[8];
    uint16_t words[8];
    size_t word_count;
};

static struct whole whole_ramp(bool binned, size_t seed) {
    struct whole whole = {.word_count = binned ? 2 : 8};
    for (size_t i = 0; i < 72; i += 1) {
        whole.readings[i] = (uint16_t)((i + seed) * 2477 % 12400);
    }
    size_t place;
    expect(ramp_frame(4, 2, binned, threshold, 4, whole.readings, 72, whole.sums, 8, whole.words, whole.word_count, &place) == 0, "the ramp at once");
    return whole;
}

/* A user's own struct: a board, and the sums that belong to its ramp, of one kind or the other. */
struct detector {
    char name[3];
    ramp_board board;
    bool in_floats;
    int32_t sums[8];
    double floats[8];
};

static void start(struct detector *detector, bool binned, bool in_floats) {
    size_t place;
    ramp_board *board = &detector->board;
    expect(ramp_open(board, RAMP_BOARD_WORDS, 4, 2, binned, &place) == 0, "a detector is opened");
    expect(ramp_update(board, RAMP_BOARD_WORDS, threshold, 4, &place) == 0, "a detector is updated");
    expect(ramp_start(board, RAMP_BOARD_WORDS, &place) == 0, "a detector is started");
    detector->in_floats = in_floats;
    for (size_t i = 0; i < 8; i += 1) {
        detector->sums[i] = INT32_MIN;
        detector->floats[i] = NAN;
    }
}

static void feed(struct detector *detector, const struct whole *whole, size_t from, size_t to) {
    size_t place;
    ramp_board *board = &detector->board;
    uint8_t number = detector->in_floats ? ramp_feed_floats(board, RAMP_BOARD_WORDS, whole->readings + from, to - from, detector->floats, 8, &place)
                                         : ramp_feed(board, RAMP_BOARD_WORDS, whole->readings + from, to - from, detector->sums, 8, &place);
    expect(number == 0 && place == 0, "readings %zu to %zu are refused with %d", from, to, number);
}

/* The detector's ramp must end with the frame of the whole ramp. */
static void expect_frame(struct detector *detector, const struct whole *whole, const char *what) {
    uint16_t words[8];
    size_t place;
    ramp_board *board = &detector->board;
    uint8_t number = detector->in_floats ? ramp_read_out_floats(board, RAMP_BOARD_WORDS, detector->floats, 8, words, whole->word_count, &place)
                                         : ramp_read_out(board, RAMP_BOARD_WORDS, detector->sums, 8, words, whole->word_count, &place);
    expect(number == 0, "%s: it is refused with %d", what, number);
    for (size_t i = 0; i < 8; i += 1) {
        const double entry = whole->sums[i];
        expect(detector->in_floats ? memcmp(&detector->floats[i], &entry, sizeof entry) == 0 : detector->sums[i] == whole->sums[i], "%s: entry %zu", what, i);
    }
    expect(memcmp(words, whole->words, whole->word_count * sizeof words[0]) == 0, "%s: the words", what);
}

/* Fed in parts of every length on one board, the ramp comes to the sums and words that ramp_frame leaves, in either kind. */
static void in_parts(bool binned, bool in_floats) {
    struct whole whole = whole_ramp(binned, 0);
    struct detector detector;
    for (size_t part = 1; part <= 72; part += 1) {
        start(&detector, binned, in_floats);
        for (size_t fed = 0; fed < 72; fed += part) {
            feed(&detector, &whole, fed, fed + part < 72 ? fed + part : 72);
        }
        expect_frame(&detector, &whole, "a ramp in parts");
    }
}

/* A board is copied in a ramp, and the two are fed other readings: each comes to its own frame. */
static void copied(void) {
    struct whole one = whole_ramp(false, 0), other = whole_ramp(false, 0);
    for (size_t i = 37; i < 72; i += 1) {
        other.readings[i] = (uint16_t)(12399 - other.readings[i]);
    }
    size_t place;
    expect(ramp_frame(4, 2, false, threshold, 4, other.readings, 72, other.sums, 8, other.words, 8, &place) == 0, "the other ramp at once");
    expect(memcmp(one.words, other.words, sizeof one.words) != 0, "the two ramps differ");

    struct detector first, second;
    start(&first, false, false);
    feed(&first, &one, 0, 37);
    second = first;
    feed(&first, &one, 37, 50);
    feed(&second, &other, 37, 72);
    expect_frame(&second, &other, "the copy");
    feed(&first, &one, 50, 72);
    expect_frame(&first, &one, "the board that was copied");
}

/* A board that was kept is brought back, as often as one likes: through a file, and to any place in memory. */
static void kept(bool binned, bool in_floats) {
    struct whole whole = whole_ramp(binned, 0);
    struct detector detector;
    start(&detector, binned, in_floats);
    feed(&detector, &whole, 0, 41);
    FILE *file = tmpfile();
    if (file == NULL || fwrite(&detector, sizeof detector, 1, file) != 1) {
        expect(false, "a temporary file can't be written");
        return;
    }
    feed(&detector, &whole, 41, 72);
    expect_frame(&detector, &whole, "a board that was kept goes on");
    for (size_t i = 0; i < 3; i += 1) {
        struct detector *detectors = malloc((i + 1) * sizeof *detectors);
        rewind(file);
        if (detectors == NULL || fread(&detectors[i], sizeof *detectors, 1, file) != 1) {
            expect(false, "a temporary file can't be read");
            break;
        }
        feed(&detectors[i], &whole, 41, 72);
        expect_frame(&detectors[i], &whole, "a board that was brought back");
        free(detectors);
    }
    fclose(file);
}

/* An update in a ramp leaves the ramp, and what is covered, as it is; the next ramp has it. A drop leaves it waiting. */
static void update_in_ramp(void) {
    const uint8_t large[] = {0xFF, 0x0F, 15, 15, 15, 15, 15, 15, 15, 15, 15, 0xFF, 0x3F, 1, 1}; /* all weights 15, threshold 16,383, r is 1, N is 1 */
    struct whole whole = whole_ramp(false, 0);
    struct detector detector;
    size_t place;
    uint8_t covered = 7;
    start(&detector, false, false);
    ramp_board *board = &detector.board;
    feed(&detector, &whole, 0, 20);
    expect(ramp_update(board, RAMP_BOARD_WORDS, large, sizeof large, &place) == 0, "an update in a ramp is taken");
    expect(ramp_covered(board, RAMP_BOARD_WORDS, &covered, &place) == 0 && covered == 1, "the settings in force are covered");
    feed(&detector, &whole, 20, 72);
    expect_frame(&detector, &whole, "an update in a ramp");
    expect(ramp_covered(board, RAMP_BOARD_WORDS, &covered, &place) == 0 && covered == 1, "they are so until the next ramp");
    expect(ramp_start(board, RAMP_BOARD_WORDS, &place) == 0, "the next ramp is started");
    expect(ramp_covered(board, RAMP_BOARD_WORDS, &covered, &place) == 0 && covered == 0, "the updated settings aren't covered");
    expect(ramp_drop(board, RAMP_BOARD_WORDS, &place) == 0, "the ramp is dropped");
    expect(ramp_start(board, RAMP_BOARD_WORDS, &place) == 0, "a further ramp is started");
    const uint16_t readings[8] = {1, 16383, 3, 4, 5, 6, 7, 8};
    expect(ramp_feed(board, RAMP_BOARD_WORDS, readings, 8, detector.sums, 8, &place) == 0, "one sample is all");
    for (size_t i = 0; i < 8; i += 1) {
        expect(detector.sums[i] == 128 + 15 * readings[i], "entry %zu is %d with weight 15", i, detector.sums[i]);
    }
}

/* ---- Refused calls. Each scene begins with all wrong at once, and is mended in the order of the checks, so that it shows the order too ---- */

/* The scene's board, of 2 x 1 pixels and so many samples, none of them fed: opened, updated and started by its own functions. */
static void lend_started(struct scene *scene, uint8_t samples) {
    const uint8_t record[] = {0x00, 0x08, samples};
    ramp_board board;
    size_t place;
    expect(ramp_open(&board, RAMP_BOARD_WORDS, 2, 1, false, &place) == 0, "2 x 1 pixels");
    expect(ramp_update(&board, RAMP_BOARD_WORDS, record, 3, &place) == 0, "%d samples", samples);
    expect(ramp_start(&board, RAMP_BOARD_WORDS, &place) == 0, "a ramp");
    lend(scene, BOARD, board.words, RAMP_BOARD_WORDS);
}

/* The same with one sample fed: the sums, and the same in floats. */
static void lend_fed(struct scene *scene, uint8_t samples) {
    const uint16_t readings[] = {10, 20};
    int32_t sums[2];
    size_t place;
    lend_started(scene, samples);
    expect(ramp_feed((ramp_board *)board_in(scene), RAMP_BOARD_WORDS, readings, 2, sums, 2, &place) == 0, "a sample");
    const double floats[] = {sums[0], sums[1]};
    LEND(scene, SUMS, sums);
    LEND(scene, FLOATS, floats);
}

/* The same with no ramp. */
static void lend_idle(struct scene *scene) {
    size_t place;
    lend_started(scene, 2);
    expect(ramp_drop((ramp_board *)board_in(scene), RAMP_BOARD_WORDS, &place) == 0, "no ramp");
}

/* A buffer that holds no board: zeroed, of any other length than a board's with a board at its beginning, and empty. Each call is refused with 99, whatever else
   is wrong; only Open takes the one of a board's length. */
static void refused_boards(struct scene *scene) {
    const int64_t zeros[RAMP_BOARD_WORDS] = {0};
    const size_t lengths[] = {0, 28, 30};
    for (enum call call = CALL_OPEN; call <= CALL_COVERED; call += 1) {
        for (size_t i = 0; i < COUNT(lengths); i += 1) {
            int64_t words[30] = {0};
            lend_started(scene, 1);
            memcpy(words, board_in(scene), sizeof(ramp_board));
            lend(scene, BOARD, words, lengths[i]);
            expect_answer(scene, call, 99, 0, "a buffer of another length");
        }
        if (call != CALL_OPEN) {
            LEND(scene, BOARD, zeros);
            expect_answer(scene, call, 99, 0, "a buffer of zeros");
        }
    }
}

static void expect_sides(struct scene *scene, size_t width, size_t height, bool binned, uint8_t number) {
    scene->width = width, scene->height = height, scene->binned = binned;
    expect_answer(scene, CALL_OPEN, number, 0, "sides");
}

static void refused_open(struct scene *scene) {
    const size_t wide = (size_t)1 << 32;
    lend_started(scene, 1);
    expect_sides(scene, 0, 1, false, 1);
    expect_sides(scene, 1, 0, false, 1);
    expect_sides(scene, 1025, 1, false, 1);
    expect_sides(scene, 1, 1025, false, 1);
    expect_sides(scene, wide, wide, false, 1);
    expect_sides(scene, wide + 1, 1, false, 1);
    expect_sides(scene, SIZE_MAX, SIZE_MAX, false, 1);
    expect_sides(scene, 0, 2, true, 1);
    expect_sides(scene, 3, 2, true, 1);
    expect_sides(scene, 2, 3, true, 1);
    expect_sides(scene, 1026, 2, true, 1);
    expect_taken(scene, CALL_DROP, "the board is there after the refusals, and its ramp");
    expect_sides(scene, 1, 1, false, 0);
    expect_sides(scene, 3, 3, false, 0);
    expect_sides(scene, 1024, 1, false, 0);
    expect_sides(scene, 1, 1024, false, 0);
    expect_sides(scene, 1024, 1024, false, 0);
    expect_sides(scene, 2, 2, true, 0);
    expect_taken(scene, CALL_START, "a board that was opened");
    expect_sides(scene, 1024, 1024, true, 0);
    expect_answer(scene, CALL_DROP, 10, 0, "a board that was opened anew runs no ramp");
}

static void expect_record(struct scene *scene, enum call call, const uint8_t *record, size_t length, uint8_t number, const char *what) {
    lend(scene, RECORD, record, length);
    expect_answer(scene, call, number, 0, what);
}

/* A record of which all is wrong, mended until it isn't: then N is 2. */
static void refused_records(struct scene *scene, enum call call) {
    uint8_t record[] = {0x09, 0x9E, 15, 32, 0x00, 0x40, 0, 10, 0}; /* bits 12 and 15, the weights of samples 1 and 4, the threshold, r, N, and a byte more */
    expect_record(scene, call, record, 0, 2, "no byte");
    expect_record(scene, call, record, 1, 2, "one byte");
    record[1] = 0x8E;
    expect_record(scene, call, record, 9, 3, "bit 15");
    record[1] = 0x1E;
    expect_record(scene, call, record, 9, 3, "bit 12");
    record[1] = 0x0E;
    expect_record(scene, call, record, 9, 4, "a byte more");
    expect_record(scene, call, record, 7, 4, "a byte less");
    expect_record(scene, call, record, 8, 5, "a weight byte of 32");
    record[3] = 31;
    expect_record(scene, call, record, 8, 6, "a threshold of 16,384");
    record[4] = 0xFF, record[5] = 0x3F;
    expect_record(scene, call, record, 8, 7, "r is 0");
    record[6] = 4;
    expect_record(scene, call, record, 8, 7, "r is 4");
    record[6] = 3;
    expect_record(scene, call, record, 8, 8, "N is 10");
    record[7] = 0;
    expect_record(scene, call, record, 8, 8, "N is 0");
    record[7] = 2;
    lend(scene, RECORD, record, 8);
}

static void refused_control(struct scene *scene) {
    lend_idle(scene);
    refused_records(scene, CALL_UPDATE);
    expect_taken(scene, CALL_UPDATE, "a record that was mended");
    expect_answer(scene, CALL_DROP, 10, 0, "no ramp");
    expect_taken(scene, CALL_START, "no ramp");
    expect_answer(scene, CALL_START, 9, 0, "a ramp");
    refused_records(scene, CALL_UPDATE);
    expect_taken(scene, CALL_UPDATE, "in a ramp");
    expect_taken(scene, CALL_DROP, "a ramp");
    expect_answer(scene, CALL_DROP, 10, 0, "the ramp was dropped");
    expect_taken(scene, CALL_COVERED, "no ramp");
}

static void refused_feed(struct scene *scene) {
    const uint16_t readings[] = {5, 16384, 65535, 7, 8};
    const int32_t sums[] = {77, 2000000000, 3};
    LEND(scene, READINGS, readings);
    lend_idle(scene);
    LEND(scene, SUMS, sums);
    expect_answer(scene, CALL_FEED, 10, 0, "no ramp");
    lend_fed(scene, 3);
    lend(scene, SUMS, sums, 0);
    expect_answer(scene, CALL_FEED, 11, 0, "no sums");
    lend(scene, SUMS, sums, 1);
    expect_answer(scene, CALL_FEED, 11, 0, "a sum less");
    lend(scene, SUMS, sums, 3);
    expect_answer(scene, CALL_FEED, 11, 0, "a sum more");
    lend(scene, SUMS, sums, 2);
    expect_answer(scene, CALL_FEED, 12, 0, "a reading more");
    lend(scene, READINGS, readings, 4);
    expect_answer(scene, CALL_FEED, 13, 1, "the second reading");
    const uint16_t mended[] = {5, 16383};
    LEND(scene, READINGS, mended);
    expect_answer(scene, CALL_FEED, 14, 1, "the second entry");
    lend(scene, READINGS, mended, 1);
    expect_taken(scene, CALL_FEED, "a reading for the first entry alone");
    expect(sums_in(scene)[1] == 2000000000, "an entry that gets no reading stays");
    lend(scene, READINGS, mended, 0);
    expect_taken(scene, CALL_FEED, "no reading");
    LEND(scene, READINGS, mended);
    expect_answer(scene, CALL_FEED, 14, 1, "the second entry, for the first reading");
    sums_in(scene)[1] = 128;
    expect_taken(scene, CALL_FEED, "a sum that was mended");
}

static void refused_read_out(struct scene *scene) {
    const uint16_t words[] = {7, 7, 7};
    const int32_t sums[] = {77, 2000000000, 3};
    lend_idle(scene);
    LEND(scene, SUMS, sums);
    LEND(scene, WORDS, words);
    expect_answer(scene, CALL_READ_OUT, 10, 0, "no ramp");
    lend_fed(scene, 2);
    LEND(scene, SUMS, sums);
    expect_answer(scene, CALL_READ_OUT, 11, 0, "a sum more");
    lend(scene, SUMS, sums, 2);
    expect_answer(scene, CALL_READ_OUT, 15, 0, "a sample is wanted");
    lend_fed(scene, 1);
    lend(scene, SUMS, sums, 2);
    expect_answer(scene, CALL_READ_OUT, 16, 0, "a word more");
    lend(scene, WORDS, words, 1);
    expect_answer(scene, CALL_READ_OUT, 16, 0, "a word less");
    lend(scene, WORDS, words, 0);
    expect_answer(scene, CALL_READ_OUT, 16, 0, "no words");
    lend(scene, WORDS, words, 2);
    expect_answer(scene, CALL_READ_OUT, 14, 1, "the second entry");
    sums_in(scene)[1] = 1073741826;
    expect_answer(scene, CALL_READ_OUT, 14, 1, "a mark of a sample that wasn't");
    sums_in(scene)[1] = 1073741825;
    expect_taken(scene, CALL_READ_OUT, "a sum that was mended");
    expect(words_in(scene)[0] == 19 && words_in(scene)[1] == 32753, "the words are %d and %d", words_in(scene)[0], words_in(scene)[1]);
    expect_answer(scene, CALL_READ_OUT, 10, 0, "it was read out");
}

/* Floats of which none is possible after one sample; the numbers among them are too large, or stand between two whole ones. */
static const double not_possible[] = {NAN,     -NAN,    INFINITY,   -INFINITY,  -0.0,         0.25,       -0.5,        128.5,        245872.5,   245874,
                                      -245618, DBL_MIN, DBL_MAX,    1073741824, 1073741825.5, 1073741826, 2147483648., -2147483648., 4294967424, 9007199254740993};
/* Floats that are: the bounds, 0, and the mark of sample 1. */
static const double possible[] = {245873, -245617, 0, 128, 1073741825};

static void refused_feed_floats(struct scene *scene) {
    const uint16_t readings[] = {5, 16384, 65535, 7, 8}, mended[] = {5, 16383};
    const double floats[] = {77, NAN, 3};
    LEND(scene, READINGS, readings);
    lend_idle(scene);
    LEND(scene, FLOATS, floats);
    expect_answer(scene, CALL_FEED_FLOATS, 10, 0, "no ramp");
    lend_fed(scene, 3);
    lend(scene, FLOATS, floats, 0);
    expect_answer(scene, CALL_FEED_FLOATS, 11, 0, "no sums");
    lend(scene, FLOATS, floats, 1);
    expect_answer(scene, CALL_FEED_FLOATS, 11, 0, "a sum less");
    lend(scene, FLOATS, floats, 3);
    expect_answer(scene, CALL_FEED_FLOATS, 11, 0, "a sum more");
    lend(scene, FLOATS, floats, 2);
    expect_answer(scene, CALL_FEED_FLOATS, 12, 0, "a reading more");
    lend(scene, READINGS, readings, 4);
    expect_answer(scene, CALL_FEED_FLOATS, 13, 1, "the second reading");
    LEND(scene, READINGS, mended);
    for (size_t i = 0; i < COUNT(not_possible); i += 1) {
        floats_in(scene)[1] = not_possible[i];
        expect_answer(scene, CALL_FEED_FLOATS, 14, 1, "the second entry");
        floats_in(scene)[0] = not_possible[i];
        expect_answer(scene, CALL_FEED_FLOATS, 14, 0, "both entries");
        floats_in(scene)[0] = 77;
    }
    floats_in(scene)[1] = 128;
    lend(scene, READINGS, mended, 0);
    expect_taken(scene, CALL_FEED_FLOATS, "no reading");
    LEND(scene, READINGS, mended);
    expect_taken(scene, CALL_FEED_FLOATS, "a sum that was mended");
    expect(floats_in(scene)[0] == 77 - 3 * 5 && floats_in(scene)[1] == 1073741826, "the floats are %g and %g", floats_in(scene)[0], floats_in(scene)[1]);
    for (size_t i = 0; i < COUNT(possible); i += 1) {
        lend_fed(scene, 3);
        floats_in(scene)[1] = possible[i];
        const double next = possible[i] == 1073741825 ? possible[i] : possible[i] - 3 * 20;
        const uint16_t further[] = {10, 20};
        LEND(scene, READINGS, further);
        expect_taken(scene, CALL_FEED_FLOATS, "an entry that is possible");
        expect(floats_in(scene)[1] == next, "%g becomes %g", possible[i], floats_in(scene)[1]);
    }
}

/* Entry 0 must be this float, and entry 1 have this pattern. */
static void expect_floats(const struct scene *scene, double first, uint64_t second, const char *what) {
    const double *floats = floats_in(scene);
    expect(memcmp(floats, &first, sizeof first) == 0 && memcmp(floats + 1, &second, sizeof second) == 0, "%s: the floats are %g and %g", what, floats[0],
           floats[1]);
}

/* An entry that gets no reading stays bit for bit, whatever it is; and one that sample 1 sets may be anything. */
static void any_floats(struct scene *scene) {
    const uint64_t patterns[] = {0x7FF8000000000000, 0x7FF0DEADBEEF0001, 0xFFF4000000000001, 0xFFFFFFFFFFFFFFFF, 0x7FF0000000000000,
                                 0x8000000000000000, 0x0000000000000001, 0x3FE0000000000000, 0x41F0000008000000};
    const uint16_t reading[] = {32};
    LEND(scene, READINGS, reading);
    for (size_t i = 0; i < COUNT(patterns); i += 1) {
        const uint64_t both[] = {patterns[i], patterns[i]};
        lend_started(scene, 2);
        LEND(scene, FLOATS, both);
        expect_taken(scene, CALL_FEED_FLOATS, "sample 1 of the first entry");
        expect_floats(scene, 0, patterns[i], "sample 1 of the first entry");
        expect_taken(scene, CALL_FEED_FLOATS, "sample 1 of the second entry");
        expect_floats(scene, 0, 0, "sample 1 of the second entry");
        memcpy(floats_in(scene) + 1, patterns + i, sizeof patterns[i]);
        expect_taken(scene, CALL_FEED_FLOATS, "sample 2 of the first entry");
        expect_floats(scene, -96, patterns[i], "sample 2 of the first entry");
        expect_answer(scene, CALL_FEED_FLOATS, 14, 1, "sample 2 of the second entry");
    }
}

/* A product of minus zero is never seen: weight 0, and a reading of 0 with a negative weight, over sums of 0 and of others. */
static void no_minus_zero(struct scene *scene) {
    const uint8_t record[] = {0x07, 0x08, 0x18, 0x10, 0x1F, 3}; /* weights -8, -0 and -15, and N is 3 */
    const uint16_t readings[3][2] = {{16, 0}, {7, 16}, {0, 0}};
    const uint64_t pedestal = 0x4060000000000000; /* 128 */
    size_t place;
    lend_idle(scene);
    ramp_board *board = (ramp_board *)board_in(scene);
    expect(ramp_update(board, RAMP_BOARD_WORDS, record, 6, &place) == 0 && ramp_start(board, RAMP_BOARD_WORDS, &place) == 0, "weights of minus zero");
    lend(scene, FLOATS, not_possible, 2);
    for (size_t sample = 0; sample < 3; sample += 1) {
        LEND(scene, READINGS, readings[sample]);
        expect_taken(scene, CALL_FEED_FLOATS, "a product of minus zero");
        expect_floats(scene, 0, pedestal, "a product of minus zero");
    }
}

static void refused_read_out_floats(struct scene *scene) {
    const uint16_t words[] = {7, 7, 7};
    const double floats[] = {77, NAN, 3};
    lend_idle(scene);
    LEND(scene, FLOATS, floats);
    LEND(scene, WORDS, words);
    expect_answer(scene, CALL_READ_OUT_FLOATS, 10, 0, "no ramp");
    lend_fed(scene, 2);
    LEND(scene, FLOATS, floats);
    expect_answer(scene, CALL_READ_OUT_FLOATS, 11, 0, "a sum more");
    lend(scene, FLOATS, floats, 2);
    expect_answer(scene, CALL_READ_OUT_FLOATS, 15, 0, "a sample is wanted");
    lend_fed(scene, 1);
    lend(scene, FLOATS, floats, 2);
    expect_answer(scene, CALL_READ_OUT_FLOATS, 16, 0, "a word more");
    lend(scene, WORDS, words, 1);
    expect_answer(scene, CALL_READ_OUT_FLOATS, 16, 0, "a word less");
    lend(scene, WORDS, words, 2);
    for (size_t i = 0; i < COUNT(not_possible); i += 1) {
        floats_in(scene)[1] = not_possible[i];
        expect_answer(scene, CALL_READ_OUT_FLOATS, 14, 1, "the second entry");
        floats_in(scene)[0] = not_possible[i];
        expect_answer(scene, CALL_READ_OUT_FLOATS, 14, 0, "both entries");
        floats_in(scene)[0] = 77;
    }
    floats_in(scene)[1] = 1073741825;
    expect_taken(scene, CALL_READ_OUT_FLOATS, "a sum that was mended");
    expect(words_in(scene)[0] == 19 && words_in(scene)[1] == 32753, "the words are %d and %d", words_in(scene)[0], words_in(scene)[1]);
    expect_answer(scene, CALL_READ_OUT_FLOATS, 10, 0, "it was read out");
}

/* A ramp that changes its kind: it is noticed by sums that aren't possible, and by nothing else. */
static void changed_kinds(struct scene *scene) {
    const uint16_t readings[] = {30, 40}, words[] = {7, 7};
    const int32_t other[] = {1073741826, 128};
    lend_fed(scene, 3);
    LEND(scene, READINGS, readings);
    LEND(scene, WORDS, words);
    expect_taken(scene, CALL_FEED_FLOATS, "fed on in floats");
    expect(floats_in(scene)[0] == 128 - 4 * 10 - 3 * 30 && floats_in(scene)[1] == 128 - 4 * 20 - 3 * 40, "the floats are %g and %g", floats_in(scene)[0],
           floats_in(scene)[1]);
    expect_taken(scene, CALL_FEED, "fed on in the sums of sample 1");
    floats_in(scene)[1] = 128.5;
    expect_answer(scene, CALL_READ_OUT_FLOATS, 14, 1, "floats that aren't possible");
    LEND(scene, SUMS, other);
    expect_taken(scene, CALL_READ_OUT, "other sums that are possible");
}

static void refused_frame(struct scene *scene) {
    const uint16_t readings[] = {5, 16384, 65535, 7, 8}, good[] = {5, 16383, 6, 7}, words[] = {7, 7, 7};
    const int32_t sums[] = {-1, -1, -1};
    const uint8_t record[] = {0x0F};
    LEND(scene, RECORD, record);
    LEND(scene, READINGS, readings);
    LEND(scene, SUMS, sums);
    LEND(scene, WORDS, words);
    scene->width = 3, scene->height = 2, scene->binned = true;
    expect_answer(scene, CALL_FRAME, 1, 0, "an odd side of squares");
    scene->width = 2, scene->height = 1, scene->binned = false;
    refused_records(scene, CALL_FRAME); /* N is 2 */
    expect_answer(scene, CALL_FRAME, 11, 0, "a sum more");
    lend(scene, SUMS, sums, 2);
    expect_answer(scene, CALL_FRAME, 12, 0, "a reading more");
    lend(scene, READINGS, readings, 3);
    expect_answer(scene, CALL_FRAME, 13, 1, "the second reading");
    lend(scene, READINGS, good, 3);
    expect_answer(scene, CALL_FRAME, 15, 0, "a reading is wanted");
    LEND(scene, READINGS, good);
    expect_answer(scene, CALL_FRAME, 16, 0, "a word more");
    lend(scene, WORDS, words, 2);
    expect_taken(scene, CALL_FRAME, "all was mended");
}

/* ---- The words of a frame ---- */

static void meanings(struct scene *scene) {
    const struct {
        uint16_t word;
        uint8_t kind;
    } known[] = {{0, RAMP_ORDINARY},       {4127, RAMP_ORDINARY},    {32751, RAMP_ORDINARY},   {32752, RAMP_UNASSIGNED}, {32753, RAMP_SATURATED},
                 {32761, RAMP_SATURATED},  {32762, RAMP_UNASSIGNED}, {32766, RAMP_UNASSIGNED}, {32767, RAMP_NEGATIVE},   {32768, RAMP_UNASSIGNED},
                 {32769, RAMP_UNASSIGNED}, {65521, RAMP_UNASSIGNED}, {65535, RAMP_UNASSIGNED}};
    const uint16_t refused[] = {0, 4, 255, 256, 257, 258, 65535};
    for (size_t i = 0; i < COUNT(known); i += 1) {
        uint16_t word = scene->word = known[i].word;
        for (scene->truncation = 1; scene->truncation <= 3; scene->truncation += 1) {
            double step = 1 << scene->truncation;
            expect_taken(scene, CALL_READ_WORD, "a word");
            expect(kind_in(scene) == known[i].kind, "%d is of kind %d", word, kind_in(scene));
            expect(known[i].kind != RAMP_ORDINARY || (low_in(scene) == word * step && high_in(scene) == (word + 1) * step), "%d means %f..%f", word,
                   low_in(scene), high_in(scene));
            expect(known[i].kind != RAMP_SATURATED || sample_in(scene) == word - 32752, "%d means sample %d", word, sample_in(scene));
        }
        for (size_t j = 0; j < COUNT(refused); j += 1) {
            scene->truncation = refused[j];
            expect_answer(scene, CALL_READ_WORD, 7, 0, "r");
        }
    }
}

/* Lends words as a frame of these sides. */
static void lend_frame(struct scene *scene, const uint16_t *words, size_t word_count, size_t width, size_t height) {
    lend(scene, WORDS, words, word_count);
    scene->width = width, scene->height = height;
}

/* The nearest flag must be this one. */
static void expect_nearest(struct scene *scene, size_t row, size_t column, size_t flag_row, size_t flag_column, const char *what) {
    scene->row = row, scene->column = column;
    expect_taken(scene, CALL_NEAREST_FLAG, what);
    expect(size_in(scene, FOUND) == 1 && size_in(scene, FLAG_ROW) == flag_row && size_in(scene, FLAG_COLUMN) == flag_column, "%s: %zu at %zu, %zu", what,
           size_in(scene, FOUND), size_in(scene, FLAG_ROW), size_in(scene, FLAG_COLUMN));
}

static void box(struct scene *scene, size_t first_row, size_t first_column, size_t last_row, size_t last_column) {
    scene->row = first_row, scene->column = first_column, scene->last_row = last_row, scene->last_column = last_column;
}

static void expect_count(struct scene *scene, size_t first_row, size_t first_column, size_t last_row, size_t last_column, size_t flags, const char *what) {
    box(scene, first_row, first_column, last_row, last_column);
    expect_taken(scene, CALL_COUNT_FLAGS, what);
    expect(size_in(scene, FLAGS) == flags, "%s: %zu flags", what, size_in(scene, FLAGS));
}

static const uint16_t flags[] = {32753, 32754, 32755, 32756, 32757, 32758, 32759, 32760, 32761, 32767};
static const uint16_t none[] = {0, 32751, 32752, 32762, 32763, 32764, 32765, 32766, 32768, 65521, 65535};

/* Frames of one word. */
static void single_flags(struct scene *scene) {
    for (size_t i = 0; i < COUNT(none); i += 1) {
        lend_frame(scene, none + i, 1, 1, 1);
        scene->row = scene->column = 0;
        expect_taken(scene, CALL_NEAREST_FLAG, "no flag");
        expect(size_in(scene, FOUND) == 0, "%d is found", none[i]);
        expect_count(scene, 0, 0, 0, 0, 0, "any other word is none");
    }
    for (size_t i = 0; i < COUNT(flags); i += 1) {
        lend_frame(scene, flags + i, 1, 1, 1);
        expect_nearest(scene, 0, 0, 0, 0, "a flag is its own nearest");
        expect_count(scene, 0, 0, 0, 0, 1, "a flag is one");
    }
}

/* The knight's moves around the middle of 5 x 5: all equally near, so that each is found when those before it are gone. */
static void equal_flags(struct scene *scene) {
    const uint16_t empty[25] = {0};
    const size_t ring[] = {1, 3, 5, 9, 15, 19, 21, 23};
    lend_frame(scene, empty, 25, 5, 5);
    uint16_t *words = words_in(scene);
    for (size_t i = 0; i < COUNT(ring); i += 1) {
        words[ring[i]] = flags[i];
    }
    words[0] = words[24] = 32767; /* the corners are farther */
    for (size_t i = 0; i < COUNT(ring); i += 1) {
        expect_nearest(scene, 2, 2, ring[i] / 5, ring[i] % 5, "the first of equals in row order");
        expect_count(scene, 0, 0, 4, 4, 10 - i, "the whole frame");
        words[ring[i]] = 32766;
    }
    expect_nearest(scene, 2, 2, 0, 0, "the first of two corners");
    expect_nearest(scene, 3, 2, 4, 4, "the nearer of two corners");
    expect_nearest(scene, 4, 0, 0, 0, "equally near along a row and along a column");
}

/* The same words as three columns and two rows, as one row and as one column. */
static void small_frames(struct scene *scene) {
    const uint16_t words[] = {32767, 5, 32753, 5, 32761, 5};
    lend_frame(scene, words, 6, 3, 2);
    expect_count(scene, 0, 0, 0, 2, 2, "one row");
    expect_count(scene, 0, 1, 1, 1, 1, "one column");
    expect_count(scene, 1, 2, 1, 2, 0, "one place");
    expect_count(scene, 0, 1, 1, 2, 2, "a box");
    expect_count(scene, 0, 0, 1, 2, 3, "all of it");
    lend_frame(scene, words, 6, 6, 1);
    expect_nearest(scene, 0, 5, 0, 4, "the same words in one row");
    lend_frame(scene, words, 6, 1, 6);
    expect_nearest(scene, 3, 0, 2, 0, "and in one column");
}

static void largest_frame(struct scene *scene) {
    static const uint16_t empty[1024 * 1024];
    lend_frame(scene, empty, COUNT(empty), 1024, 1024);
    uint16_t *words = words_in(scene);
    words[1023] = words[1023 * 1024] = words[1024 * 1024 - 1] = 32761;
    expect_nearest(scene, 0, 0, 0, 1023, "the first of two far corners");
    expect_nearest(scene, 512, 0, 1023, 0, "below");
    expect_nearest(scene, 600, 600, 1023, 1023, "the last place of the largest frame");
    expect_count(scene, 0, 0, 1023, 1023, 3, "the flags of the largest frame");
    expect_count(scene, 1, 1, 1022, 1022, 0, "without its edges");
    words[1023] = words[1023 * 1024] = 0;
    expect_nearest(scene, 0, 0, 1023, 1023, "from corner to corner");
}

/* Both questions are refused with a number. The box is of one place. */
static void expect_refused(struct scene *scene, uint8_t number, size_t word_count, size_t width, size_t height, size_t row, size_t column, const char *what) {
    const uint16_t words[] = {32767, 32767, 32767, 32767, 32767, 32767, 32767};
    lend_frame(scene, words, word_count, width, height);
    box(scene, row, column, row, column);
    expect_answer(scene, CALL_NEAREST_FLAG, number, 0, what);
    expect_answer(scene, CALL_COUNT_FLAGS, number, 0, what);
}

static void expect_box_refused(struct scene *scene, size_t first_row, size_t first_column, size_t last_row, size_t last_column, const char *what) {
    box(scene, first_row, first_column, last_row, last_column);
    expect_answer(scene, CALL_COUNT_FLAGS, 19, 0, what);
}

static void refused_flags(struct scene *scene) {
    const size_t wide = (size_t)1 << 32;
    expect_refused(scene, 19, 0, 0, 2, 0, 0, "no width, not 16 or 0");
    expect_refused(scene, 19, 0, 3, 0, 0, 0, "no height");
    expect_refused(scene, 19, 6, 1025, 2, 0, 0, "a width of 1,025, before 16");
    expect_refused(scene, 19, 6, 3, 1025, 5, 5, "a height of 1,025, before 16");
    expect_refused(scene, 19, 0, wide, wide, 0, 0, "sides whose product is 0 in 64 bits");
    expect_refused(scene, 19, 6, wide + 3, 2, 0, 0, "a width that is 3 in 32 bits");
    expect_refused(scene, 16, 5, 3, 2, 0, 0, "a word less");
    expect_refused(scene, 16, 7, 3, 2, 0, 0, "a word more");
    expect_refused(scene, 16, 0, 1024, 1024, 0, 0, "no words");
    expect_refused(scene, 16, 5, 3, 2, 2, 3, "words, before the place");
    expect_refused(scene, 19, 6, 3, 2, 2, 0, "a row outside");
    expect_refused(scene, 19, 6, 3, 2, 0, 3, "a column outside");
    expect_refused(scene, 19, 6, 3, 2, SIZE_MAX, SIZE_MAX, "the largest numbers");
    expect_box_refused(scene, 0, 0, 2, 2, "a last row outside");
    expect_box_refused(scene, 0, 0, 1, 3, "a last column outside");
    expect_box_refused(scene, 2, 0, 1, 2, "a first row outside");
    expect_box_refused(scene, 0, 3, 1, 2, "a first column outside");
    expect_box_refused(scene, 1, 0, 0, 2, "a first row past the last");
    expect_box_refused(scene, 0, 2, 1, 1, "a first column past the last");
}

int main(void) {
    example();
    example_in_floats();
    defaults();
    for (int kind = 0; kind < 4; kind += 1) {
        in_parts(kind % 2 == 1, kind / 2 == 1);
        kept(kind % 2 == 1, kind / 2 == 1);
    }
    copied();
    update_in_ramp();

    static void (*const scenes[])(struct scene *) = {
        refused_boards,      refused_open,  refused_control,         refused_feed,  refused_read_out, refused_feed_floats, any_floats,
        no_minus_zero,       changed_kinds, refused_read_out_floats, refused_frame, meanings,         single_flags,        equal_flags,
        small_frames,        largest_frame, refused_flags,
    };
    for (size_t i = 0; i < COUNT(scenes); i += 1) {
        struct scene scene;
        begin(&scene);
        scenes[i](&scene);
        end(&scene);
    }
    return report("C, known answers");
}
