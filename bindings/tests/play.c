/* Plays a script of docs/REPLAY.md from standard input on one lent board, through ramp_board.h, and prints what the replay prints. The script must be well-formed:
   any other isn't noticed. */
#define _POSIX_C_SOURCE 200809L /* getline */
#include "../ramp_board.h"

#include <inttypes.h>
#include <stdio.h>
#include <stdlib.h>
#include <string.h>

#define MOST 4096 /* entries of a list, of the sums and of the words */
#define NUMBERS (MOST + 1)

struct numbers {
    long long at[NUMBERS];
    size_t count;
};

struct sums {
    int32_t at[MOST];
    size_t count;
};

struct floats {
    double at[MOST];
    size_t count;
};

static ramp_board board = {{0, 0, 0, 0, 0, -4, -3, -2, -1, 0, 1, 2, 3, 4, 13087, 2, 9, -4, -3, -2, -1, 0, 1, 2, 3, 4, 13087, 2, 9}};
static struct sums sums, spare;
static struct floats floats, spare_floats;
static uint16_t words[MOST];
static size_t word_count;

/* ---- What is printed ---- */

static void print_refused(uint8_t number, size_t place) { printf("refused %u %zu\n", (unsigned)number, place); }

/* The answer of a call that may change the board, and the board as it now is. */
static void print_answer(uint8_t number, size_t place) {
    if (number == 0) {
        printf("taken\n");
    } else {
        print_refused(number, place);
    }
    printf("board");
    for (size_t i = 0; i < RAMP_BOARD_WORDS; i += 1) {
        printf(" %" PRId64, board.words[i]);
    }
    printf("\n");
}

/* What stands after the number at this index of a list, ten to a line. */
static const char *after(size_t index, size_t count) { return index % 10 == 9 || index + 1 == count ? "\n" : " "; }

static void print_words(void) {
    for (size_t i = 0; i < word_count; i += 1) {
        printf("%u%s", (unsigned)words[i], after(i, word_count));
    }
}

static void print_sums(size_t start, size_t count) {
    if (start + count > sums.count) {
        printf("outside\n");
        return;
    }
    printf("taken\n");
    for (size_t i = 0; i < count; i += 1) {
        printf("%" PRId32 "%s", sums.at[start + i], after(i, count));
    }
}

/* A float as its pattern, in two numbers. All that is no number is shown as one pattern. */
static void print_floats(size_t start, size_t count) {
    if (start + count > floats.count) {
        printf("outside\n");
        return;
    }
    printf("taken\n");
    for (size_t i = 0; i < count; i += 1) {
        double entry = floats.at[start + i];
        uint64_t pattern = 0x7FF8000000000000;
        if (entry == entry) {
            memcpy(&pattern, &entry, sizeof pattern);
        }
        printf("%" PRIu64 " %" PRIu64 "%s", pattern >> 32, pattern & UINT32_MAX, after(2 * i + 1, 2 * count));
    }
}

/* ---- The calls on the board ---- */

static void play_open(const long long *n) {
    size_t place;
    uint8_t number = ramp_open(&board, RAMP_BOARD_WORDS, (size_t)n[0], (size_t)n[1], n[2] == 1, &place);
    print_answer(number, place);
}

static void play_board(const long long *n) {
    for (size_t i = 0; i < RAMP_BOARD_WORDS; i += 1) {
        board.words[i] = n[i];
    }
    print_answer(0, 0);
}

static void play_update(const long long *bytes, size_t count) {
    uint8_t record[MOST];
    size_t place;
    for (size_t i = 0; i < count; i += 1) {
        record[i] = (uint8_t)bytes[i];
    }
    uint8_t number = ramp_update(&board, RAMP_BOARD_WORDS, record, count, &place);
    print_answer(number, place);
}

static void play_start(void) {
    size_t place;
    uint8_t number = ramp_start(&board, RAMP_BOARD_WORDS, &place);
    print_answer(number, place);
}

static void play_feed(const uint16_t *readings, size_t count, bool in_floats) {
    size_t place;
    uint8_t number = in_floats ? ramp_feed_floats(&board, RAMP_BOARD_WORDS, readings, count, floats.at, floats.count, &place)
                               : ramp_feed(&board, RAMP_BOARD_WORDS, readings, count, sums.at, sums.count, &place);
    print_answer(number, place);
}

static void play_fill(size_t count, uint16_t reading, bool in_floats) {
    uint16_t readings[MOST];
    for (size_t i = 0; i < count; i += 1) {
        readings[i] = reading;
    }
    play_feed(readings, count, in_floats);
}

/* A taken one leaves its frame as the words, a refused one the words that were there. */
static void play_read_out(size_t count, bool in_floats) {
    uint16_t frame[MOST];
    size_t place;
    uint8_t number = in_floats ? ramp_read_out_floats(&board, RAMP_BOARD_WORDS, floats.at, floats.count, frame, count, &place)
                               : ramp_read_out(&board, RAMP_BOARD_WORDS, sums.at, sums.count, frame, count, &place);
    print_answer(number, place);
    if (number == 0) {
        word_count = count;
        memcpy(words, frame, count * sizeof frame[0]);
        print_words();
    }
}

static void play_drop(void) {
    size_t place;
    uint8_t number = ramp_drop(&board, RAMP_BOARD_WORDS, &place);
    print_answer(number, place);
}

static void play_covered(void) {
    uint8_t covered;
    size_t place;
    uint8_t number = ramp_covered(&board, RAMP_BOARD_WORDS, &covered, &place);
    if (number != 0) {
        print_refused(number, place);
    } else {
        printf("%s\n", covered ? "covered" : "uncovered");
    }
}

/* ---- The words ---- */

static void play_word(uint16_t word, uint16_t truncation) {
    uint8_t kind;
    double low, high;
    uint16_t sample;
    size_t place;
    uint8_t number = ramp_read_word(truncation, word, &kind, &low, &high, &sample, &place);
    if (number != 0) {
        print_refused(number, place);
    } else if (kind == RAMP_ORDINARY) {
        printf("%.0f..%.0f\n", low, high);
    } else if (kind == RAMP_SATURATED) {
        printf("sat %u\n", (unsigned)sample);
    } else {
        printf("%s\n", kind == RAMP_NEGATIVE ? "neg" : "none");
    }
}

static void play_words(const uint16_t *given, size_t count) {
    memcpy(words, given, count * sizeof words[0]);
    word_count = count;
    printf("taken\n");
}

static void play_nearest(const long long *n) {
    size_t found, row, column, place;
    uint8_t number = ramp_nearest_flag(words, word_count, (size_t)n[0], (size_t)n[1], (size_t)n[2], (size_t)n[3], &found, &row, &column, &place);
    if (number != 0) {
        print_refused(number, place);
    } else if (found == 1) {
        printf("flag %zu %zu\n", row, column);
    } else {
        printf("no flag\n");
    }
}

static void play_count(const long long *n) {
    size_t flags, place;
    uint8_t number = ramp_count_flags(words, word_count, (size_t)n[0], (size_t)n[1], (size_t)n[2], (size_t)n[3], (size_t)n[4], (size_t)n[5], &flags, &place);
    if (number != 0) {
        print_refused(number, place);
    } else {
        printf("flags %zu\n", flags);
    }
}

/* ---- The sums ---- */

static void play_sums(size_t count, int32_t entry) {
    sums.count = count;
    for (size_t i = 0; i < count; i += 1) {
        sums.at[i] = entry;
    }
    printf("taken\n");
}

static void play_poke(size_t index, int32_t entry) {
    if (index >= sums.count) {
        printf("outside\n");
        return;
    }
    sums.at[index] = entry;
    printf("taken\n");
}

static void play_swap(void) {
    struct sums old = sums;
    sums = spare;
    spare = old;
    printf("taken\n");
}

/* ---- The floats ---- */

/* The float of the pattern that stands in two numbers. */
static double float_in(const long long *n) {
    uint64_t pattern = (uint64_t)n[0] << 32 | (uint64_t)n[1];
    double entry;
    memcpy(&entry, &pattern, sizeof entry);
    return entry;
}

static void play_floats(size_t count, double entry) {
    floats.count = count;
    for (size_t i = 0; i < count; i += 1) {
        floats.at[i] = entry;
    }
    printf("taken\n");
}

static void play_poke_floats(size_t index, double entry) {
    if (index >= floats.count) {
        printf("outside\n");
        return;
    }
    floats.at[index] = entry;
    printf("taken\n");
}

static void play_swap_floats(void) {
    struct floats old = floats;
    floats = spare_floats;
    spare_floats = old;
    printf("taken\n");
}

/* ---- The script ---- */

/* The numbers of a line, up to the limits of this program. */
static void read_numbers(char *text, struct numbers *numbers) {
    numbers->count = 0;
    while (*text == ' ' && numbers->count < NUMBERS) {
        numbers->at[numbers->count] = strtoll(text, &text, 10);
        numbers->count += 1;
    }
}

/* The items of a list of readings or words. */
static const uint16_t *shorts(const long long *items, size_t count) {
    static uint16_t list[MOST];
    for (size_t i = 0; i < count; i += 1) {
        list[i] = (uint16_t)items[i];
    }
    return list;
}

/* Plays the command of this name. A list begins with its count, the items follow. */
static void play(const char *name, const struct numbers *numbers) {
    const long long *n = numbers->at;
    size_t items = numbers->count > 0 ? numbers->count - 1 : 0;
    if (strcmp(name, "open") == 0) {
        play_open(n);
    } else if (strcmp(name, "board") == 0) {
        play_board(n);
    } else if (strcmp(name, "update") == 0) {
        play_update(n + 1, items);
    } else if (strcmp(name, "start") == 0) {
        play_start();
    } else if (strcmp(name, "feed") == 0) {
        play_feed(shorts(n + 1, items), items, false);
    } else if (strcmp(name, "fill") == 0) {
        play_fill((size_t)n[0], (uint16_t)n[1], false);
    } else if (strcmp(name, "readout") == 0) {
        play_read_out((size_t)n[0], false);
    } else if (strcmp(name, "feed floats") == 0) {
        play_feed(shorts(n + 1, items), items, true);
    } else if (strcmp(name, "fill floats") == 0) {
        play_fill((size_t)n[0], (uint16_t)n[1], true);
    } else if (strcmp(name, "readout floats") == 0) {
        play_read_out((size_t)n[0], true);
    } else if (strcmp(name, "drop") == 0) {
        play_drop();
    } else if (strcmp(name, "covered") == 0) {
        play_covered();
    } else if (strcmp(name, "word") == 0) {
        play_word((uint16_t)n[0], (uint16_t)n[1]);
    } else if (strcmp(name, "words") == 0) {
        play_words(shorts(n + 1, items), items);
    } else if (strcmp(name, "nearest") == 0) {
        play_nearest(n);
    } else if (strcmp(name, "count") == 0) {
        play_count(n);
    } else if (strcmp(name, "sums") == 0) {
        play_sums((size_t)n[0], (int32_t)n[1]);
    } else if (strcmp(name, "poke") == 0) {
        play_poke((size_t)n[0], (int32_t)n[1]);
    } else if (strcmp(name, "swap") == 0) {
        play_swap();
    } else if (strcmp(name, "print sums") == 0) {
        print_sums((size_t)n[0], (size_t)n[1]);
    } else if (strcmp(name, "floats") == 0) {
        play_floats((size_t)n[0], float_in(n + 1));
    } else if (strcmp(name, "poke floats") == 0) {
        play_poke_floats((size_t)n[0], float_in(n + 1));
    } else if (strcmp(name, "swap floats") == 0) {
        play_swap_floats();
    } else if (strcmp(name, "print floats") == 0) {
        print_floats((size_t)n[0], (size_t)n[1]);
    }
}

/* Plays a line: one word or two, then numbers, each after a space. */
static void play_line(char *line) {
    static struct numbers numbers;
    line[strcspn(line, "\n")] = '\0';
    size_t length = strcspn(line, "-0123456789");
    length -= line[length] != '\0';
    read_numbers(line + length, &numbers);
    line[length] = '\0';
    play(line, &numbers);
}

int main(void) {
    char *line = NULL;
    size_t size = 0;
    while (getline(&line, &size, stdin) >= 0) {
        if (line[0] != '#') {
            play_line(line);
        }
    }
    free(line);
    return 0;
}
