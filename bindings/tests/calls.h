/* Every function of ramp_board.h as a call on a scene, in which all that a call is lent stands at its exact length. What holds of every call is checked at each:
   its answer is one of its own, the place is that of its number, a refused one leaves all that it was lent, and a taken one writes no more than it may. */
#ifndef CALLS_H
#define CALLS_H

#include "../ramp_board.h"

/* How many entries an array has. */
#define COUNT(array) (sizeof(array) / sizeof((array)[0]))

enum call {
    CALL_OPEN,
    CALL_UPDATE,
    CALL_START,
    CALL_FEED,
    CALL_READ_OUT,
    CALL_FEED_FLOATS,
    CALL_READ_OUT_FLOATS,
    CALL_DROP,
    CALL_COVERED,
    CALL_READ_WORD,
    CALL_NEAREST_FLAG,
    CALL_COUNT_FLAGS,
    CALL_FRAME,
    CALLS
};

/* What a call is lent: six buffers, and the single numbers that it writes. */
enum part {
    BOARD,
    RECORD,
    READINGS,
    SUMS,
    FLOATS,
    WORDS,
    COVERED,
    KIND,
    LOW,
    HIGH,
    SAMPLE,
    FOUND,
    FLAG_ROW,
    FLAG_COLUMN,
    FLAGS,
    PLACE,
    PARTS
};

struct lent {
    void *at;
    size_t count; /* of entries */
};

struct scene {
    struct lent parts[PARTS];
    size_t width, height; /* of a board, or of a frame of words */
    bool binned;
    uint16_t truncation, word;
    size_t row, column, last_row, last_column;
};

/* A scene with nothing in its buffers. */
void begin(struct scene *scene);
void end(struct scene *scene);

/* Lends new memory for a part, of so many entries, which are copied from there. */
void lend(struct scene *scene, enum part part, const void *from, size_t count);

int64_t *board_in(const struct scene *scene);
uint8_t *record_in(const struct scene *scene);
uint16_t *readings_in(const struct scene *scene);
int32_t *sums_in(const struct scene *scene);
double *floats_in(const struct scene *scene);
uint16_t *words_in(const struct scene *scene);
uint8_t covered_in(const struct scene *scene);
uint8_t kind_in(const struct scene *scene);
double low_in(const struct scene *scene);
double high_in(const struct scene *scene);
uint16_t sample_in(const struct scene *scene);
/* FOUND, FLAG_ROW, FLAG_COLUMN, FLAGS or PLACE. */
size_t size_in(const struct scene *scene, enum part part);

/* Makes a call, checks it, and gives its answer. */
uint8_t make(struct scene *scene, enum call call);

const char *name_of(enum call call);

/* Prints what failed, as printf does, and counts it, unless it is so. */
void expect(bool so, const char *format, ...) __attribute__((format(printf, 2, 3)));

/* Prints how often each function was taken, and refused with each of its numbers. */
void print_answers(void);

/* Sees that each function was taken, and refused with each of its numbers, prints how many failed, and gives the exit status. */
int report(const char *title);

#endif
