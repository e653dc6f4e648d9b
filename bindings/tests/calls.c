#include "calls.h"

#include <stdarg.h>
#include <stdio.h>
#include <stdlib.h>
#include <string.h>

#define BIT(part) (1u << (part))
#define SHOWN 20 /* failures that are printed */

struct rules {
    const char *name;
    unsigned writes;       /* the parts that it may write if taken, beside the place */
    uint8_t refusals[14];  /* in the order of the checks, then 0 */
};

static const struct rules rules[CALLS] = {
    [CALL_OPEN] = {"ramp_open", BIT(BOARD), {99, 1}},
    [CALL_UPDATE] = {"ramp_update", BIT(BOARD), {99, 2, 3, 4, 5, 6, 7, 8}},
    [CALL_START] = {"ramp_start", BIT(BOARD), {99, 9}},
    [CALL_FEED] = {"ramp_feed", BIT(BOARD) | BIT(SUMS), {99, 10, 11, 12, 13, 14}},
    [CALL_READ_OUT] = {"ramp_read_out", BIT(BOARD) | BIT(WORDS), {99, 10, 11, 15, 16, 14}},
    [CALL_FEED_FLOATS] = {"ramp_feed_floats", BIT(BOARD) | BIT(FLOATS), {99, 10, 11, 12, 13, 14}},
    [CALL_READ_OUT_FLOATS] = {"ramp_read_out_floats", BIT(BOARD) | BIT(WORDS), {99, 10, 11, 15, 16, 14}},
    [CALL_DROP] = {"ramp_drop", BIT(BOARD), {99, 10}},
    [CALL_COVERED] = {"ramp_covered", BIT(COVERED), {99}},
    [CALL_READ_WORD] = {"ramp_read_word", BIT(KIND) | BIT(LOW) | BIT(HIGH) | BIT(SAMPLE), {7}},
    [CALL_NEAREST_FLAG] = {"ramp_nearest_flag", BIT(FOUND) | BIT(FLAG_ROW) | BIT(FLAG_COLUMN), {19, 16}},
    [CALL_COUNT_FLAGS] = {"ramp_count_flags", BIT(FLAGS), {19, 16}},
    [CALL_FRAME] = {"ramp_frame", BIT(SUMS) | BIT(WORDS), {1, 2, 3, 4, 5, 6, 7, 8, 11, 12, 13, 15, 16}},
};

static const struct {
    const char *name;
    size_t size; /* of an entry */
} parts[PARTS] = {
    [BOARD] = {"the board", sizeof(int64_t)},
    [RECORD] = {"the record", sizeof(uint8_t)},
    [READINGS] = {"the readings", sizeof(uint16_t)},
    [SUMS] = {"the sums", sizeof(int32_t)},
    [FLOATS] = {"the sums in floats", sizeof(double)},
    [WORDS] = {"the words", sizeof(uint16_t)},
    [COVERED] = {"covered", sizeof(uint8_t)},
    [KIND] = {"kind", sizeof(uint8_t)},
    [LOW] = {"low", sizeof(double)},
    [HIGH] = {"high", sizeof(double)},
    [SAMPLE] = {"sample", sizeof(uint16_t)},
    [FOUND] = {"found", sizeof(size_t)},
    [FLAG_ROW] = {"flag_row", sizeof(size_t)},
    [FLAG_COLUMN] = {"flag_column", sizeof(size_t)},
    [FLAGS] = {"flags", sizeof(size_t)},
    [PLACE] = {"the place", sizeof(size_t)},
};

static unsigned long answers[CALLS][256];
static unsigned long failures;

void expect(bool so, const char *format, ...) {
    if (so) {
        return;
    }
    failures += 1;
    if (failures <= SHOWN) {
        va_list values;
        va_start(values, format);
        printf("failed: ");
        vprintf(format, values);
        printf("\n");
        va_end(values);
    }
}

/* Memory for so many entries of a part. Where there are none it has no byte, but isn't NULL. */
static void *memory(enum part part, size_t count) {
    void *at = malloc(count * parts[part].size);
    if (at == NULL) {
        fprintf(stderr, "no memory\n");
        exit(1);
    }
    return at;
}

void lend(struct scene *scene, enum part part, const void *from, size_t count) {
    void *at = memory(part, count);
    memcpy(at, from, count * parts[part].size);
    free(scene->parts[part].at);
    scene->parts[part] = (struct lent){at, count};
}

void begin(struct scene *scene) {
    static const uint64_t before = 0x4040404040404040; /* stands in each number until it is written */
    *scene = (struct scene){0};
    for (enum part part = 0; part < PARTS; part += 1) {
        lend(scene, part, &before, part > WORDS);
    }
}

void end(struct scene *scene) {
    for (enum part part = 0; part < PARTS; part += 1) {
        free(scene->parts[part].at);
    }
}

int64_t *board_in(const struct scene *scene) { return scene->parts[BOARD].at; }
uint8_t *record_in(const struct scene *scene) { return scene->parts[RECORD].at; }
uint16_t *readings_in(const struct scene *scene) { return scene->parts[READINGS].at; }
int32_t *sums_in(const struct scene *scene) { return scene->parts[SUMS].at; }
double *floats_in(const struct scene *scene) { return scene->parts[FLOATS].at; }
uint16_t *words_in(const struct scene *scene) { return scene->parts[WORDS].at; }
uint8_t covered_in(const struct scene *scene) { return *(const uint8_t *)scene->parts[COVERED].at; }
uint8_t kind_in(const struct scene *scene) { return *(const uint8_t *)scene->parts[KIND].at; }
double low_in(const struct scene *scene) { return *(const double *)scene->parts[LOW].at; }
double high_in(const struct scene *scene) { return *(const double *)scene->parts[HIGH].at; }
uint16_t sample_in(const struct scene *scene) { return *(const uint16_t *)scene->parts[SAMPLE].at; }
size_t size_in(const struct scene *scene, enum part part) { return *(const size_t *)scene->parts[part].at; }

static uint8_t answer_of(const struct scene *s, enum call call) {
    ramp_board *board = s->parts[BOARD].at;
    size_t board_words = s->parts[BOARD].count, record_length = s->parts[RECORD].count, reading_count = s->parts[READINGS].count;
    size_t sum_count = s->parts[SUMS].count, float_count = s->parts[FLOATS].count, word_count = s->parts[WORDS].count;
    size_t *place = s->parts[PLACE].at;
    switch (call) {
    case CALL_OPEN:
        return ramp_open(board, board_words, s->width, s->height, s->binned, place);
    case CALL_UPDATE:
        return ramp_update(board, board_words, record_in(s), record_length, place);
    case CALL_START:
        return ramp_start(board, board_words, place);
    case CALL_FEED:
        return ramp_feed(board, board_words, readings_in(s), reading_count, sums_in(s), sum_count, place);
    case CALL_READ_OUT:
        return ramp_read_out(board, board_words, sums_in(s), sum_count, words_in(s), word_count, place);
    case CALL_FEED_FLOATS:
        return ramp_feed_floats(board, board_words, readings_in(s), reading_count, floats_in(s), float_count, place);
    case CALL_READ_OUT_FLOATS:
        return ramp_read_out_floats(board, board_words, floats_in(s), float_count, words_in(s), word_count, place);
    case CALL_DROP:
        return ramp_drop(board, board_words, place);
    case CALL_COVERED:
        return ramp_covered(board, board_words, s->parts[COVERED].at, place);
    case CALL_READ_WORD:
        return ramp_read_word(s->truncation, s->word, s->parts[KIND].at, s->parts[LOW].at, s->parts[HIGH].at, s->parts[SAMPLE].at, place);
    case CALL_NEAREST_FLAG:
        return ramp_nearest_flag(words_in(s), word_count, s->width, s->height, s->row, s->column, s->parts[FOUND].at, s->parts[FLAG_ROW].at,
                                 s->parts[FLAG_COLUMN].at, place);
    case CALL_COUNT_FLAGS:
        return ramp_count_flags(words_in(s), word_count, s->width, s->height, s->row, s->column, s->last_row, s->last_column, s->parts[FLAGS].at, place);
    case CALL_FRAME:
        return ramp_frame(s->width, s->height, s->binned, record_in(s), record_length, readings_in(s), reading_count, sums_in(s), sum_count, words_in(s),
                          word_count, place);
    default:
        abort();
    }
}

/* The parts of which at least one byte isn't as it was. */
static unsigned changed(const struct scene *scene, void *const before[PARTS]) {
    unsigned found = 0;
    for (enum part part = 0; part < PARTS; part += 1) {
        if (memcmp(scene->parts[part].at, before[part], scene->parts[part].count * parts[part].size) != 0) {
            found |= BIT(part);
        }
    }
    return found;
}

/* The parts that a taken call that told something may have written: all that it may, but the limits, the sample and the flag's place only where it tells them. */
static unsigned may_write(const struct scene *scene, enum call call) {
    unsigned writes = rules[call].writes;
    if (call == CALL_READ_WORD && kind_in(scene) != RAMP_ORDINARY) {
        writes &= ~(BIT(LOW) | BIT(HIGH));
    }
    if (call == CALL_READ_WORD && kind_in(scene) != RAMP_SATURATED) {
        writes &= ~BIT(SAMPLE);
    }
    if (call == CALL_NEAREST_FLAG && size_in(scene, FOUND) == 0) {
        writes &= ~(BIT(FLAG_ROW) | BIT(FLAG_COLUMN));
    }
    return writes;
}

/* The number is 0 or one of the function's, and the place is the number's. */
static void check_answer(const struct scene *scene, enum call call, uint8_t number) {
    const char *name = rules[call].name;
    size_t place = size_in(scene, PLACE), first = 0;
    expect(number == 0 || memchr(rules[call].refusals, number, sizeof rules[call].refusals) != NULL, "%s answers %d, which isn't its own", name, number);
    if (number == 13) {
        while (first < scene->parts[READINGS].count && readings_in(scene)[first] <= 16383) {
            first += 1;
        }
        expect(place == first && first < scene->parts[READINGS].count, "%s answers 13 at %zu, and not at %zu", name, place, first);
    } else if (number == 14) {
        enum part sums = call == CALL_FEED_FLOATS || call == CALL_READ_OUT_FLOATS ? FLOATS : SUMS;
        expect(place < scene->parts[sums].count, "%s answers 14 at %zu, outside of the sums", name, place);
    } else {
        expect(place == 0, "%s answers %d at %zu, and not at 0", name, number, place);
    }
}

uint8_t make(struct scene *scene, enum call call) {
    void *before[PARTS];
    memset(scene->parts[PLACE].at, 0x40, sizeof(size_t));
    for (enum part part = 0; part < PARTS; part += 1) {
        size_t count = scene->parts[part].count;
        before[part] = memory(part, count);
        memcpy(before[part], scene->parts[part].at, count * parts[part].size);
    }
    uint8_t number = answer_of(scene, call);
    answers[call][number] += 1;
    check_answer(scene, call, number);
    unsigned wrong = changed(scene, before) & ~BIT(PLACE) & ~(number == 0 ? may_write(scene, call) : 0);
    for (enum part part = 0; part < PARTS; part += 1) {
        expect((wrong & BIT(part)) == 0, "%s answers %d and doesn't leave %s", rules[call].name, number, parts[part].name);
        free(before[part]);
    }
    return number;
}

const char *name_of(enum call call) { return rules[call].name; }

void print_answers(void) {
    for (enum call call = 0; call < CALLS; call += 1) {
        printf("%s: %lu taken; refused", rules[call].name, answers[call][0]);
        for (const uint8_t *number = rules[call].refusals; *number != 0; number += 1) {
            printf("%s %d: %lu", number == rules[call].refusals ? "" : ",", *number, answers[call][*number]);
        }
        printf("\n");
    }
}

int report(const char *title) {
    for (enum call call = 0; call < CALLS; call += 1) {
        expect(answers[call][0] > 0, "%s was never taken", rules[call].name);
        for (const uint8_t *number = rules[call].refusals; *number != 0; number += 1) {
            expect(answers[call][*number] > 0, "%s was never refused with %d", rules[call].name, *number);
        }
    }
    printf("%s: %lu failed\n", title, failures);
    return failures != 0;
}
