/* Calls of every function of ramp_board.h from a seed, COUNT of them: mostly good ones in a sensible order, between them boards, sums, lengths, readings and
   records that are damaged. fuzz SEED COUNT, with a count of 60,000 or more, so that every function gives each of its answers. It is run where a read or a write
   outside of what is lent is noticed; beside what holds of every call, it checks that a buffer that holds no board is answered with 99, and no other, what a
   taken call leaves of the board, and that a call with sums in floats does what the one with their whole numbers does. */
#include "calls.h"

#include <float.h>
#include <math.h>
#include <stdio.h>
#include <stdlib.h>
#include <string.h>

#define MOST_SIDE 6 /* of most boards */
#define MOST_ENTRIES 4096

/* Where the numbers of a board stand, which a user need not know; and those of its settings, after the nine weights. */
enum { WIDTH, HEIGHT, BINNED, RUNNING, FED, WAITING, IN_FORCE = 17 };
enum { THRESHOLD = 9, TRUNCATION, SAMPLES, SETTINGS };

/* ---- Draws ---- */

static uint64_t state;

static uint64_t draw(void) {
    state += 0x9E3779B97F4A7C15;
    uint64_t mixed = state;
    mixed = (mixed ^ (mixed >> 30)) * 0xBF58476D1CE4E5B9;
    mixed = (mixed ^ (mixed >> 27)) * 0x94D049BB133111EB;
    return mixed ^ (mixed >> 31);
}

static size_t below(size_t limit) { return draw() % limit; }
static size_t between(size_t low, size_t high) { return low + below(high - low + 1); }
static bool chance(size_t percent) { return below(100) < percent; }

/* A count that is near to this one, but another. */
static size_t other_count(size_t count) {
    size_t other = chance(50) ? count + between(1, 3) : below(count + 3);
    return other == count ? count + 1 : other;
}

/* ---- What a board is ---- */

static bool in_range(int64_t number, int64_t low, int64_t high) { return low <= number && number <= high; }

static bool settings_in_range(const int64_t *settings) {
    for (size_t i = 0; i < 9; i += 1) {
        if (!in_range(settings[i], -15, 15)) {
            return false;
        }
    }
    return in_range(settings[THRESHOLD], 0, 16383) && in_range(settings[TRUNCATION], 1, 3) && in_range(settings[SAMPLES], 1, 9);
}

static size_t pixels_of(const int64_t *board) { return (size_t)(board[WIDTH] * board[HEIGHT]); }
static size_t wanted_of(const int64_t *board) { return (size_t)board[IN_FORCE + SAMPLES] * pixels_of(board) - (size_t)board[FED]; }
static size_t words_of(const int64_t *board) { return board[BINNED] == 1 ? pixels_of(board) / 4 : pixels_of(board); }

/* Whether a buffer holds a board. */
static bool holds_board(const int64_t *board, size_t count) {
    return count == RAMP_BOARD_WORDS && in_range(board[WIDTH], 1, 1024) && in_range(board[HEIGHT], 1, 1024) && in_range(board[BINNED], 0, 1) &&
           in_range(board[RUNNING], 0, 1) && (board[BINNED] == 0 || (board[WIDTH] % 2 == 0 && board[HEIGHT] % 2 == 0)) &&
           settings_in_range(board + WAITING) && settings_in_range(board + IN_FORCE) &&
           in_range(board[FED], 0, board[RUNNING] * board[IN_FORCE + SAMPLES] * board[WIDTH] * board[HEIGHT]);
}

static bool holds(const struct scene *scene) { return holds_board(board_in(scene), scene->parts[BOARD].count); }

/* The readings that the ramp still wants; some where none runs. */
static size_t wanted_in(const struct scene *scene) {
    const int64_t *board = board_in(scene);
    return holds(scene) && board[RUNNING] == 1 ? wanted_of(board) : 4;
}

/* What a taken call leaves of a board, but for the settings of an update. */
static void apply(const struct scene *scene, enum call call, int64_t *board) {
    static const int64_t defaults[SETTINGS] = {-4, -3, -2, -1, 0, 1, 2, 3, 4, 13087, 2, 9};
    switch (call) {
    case CALL_OPEN:
        memset(board, 0, sizeof(ramp_board));
        board[WIDTH] = (int64_t)scene->width;
        board[HEIGHT] = (int64_t)scene->height;
        board[BINNED] = scene->binned;
        memcpy(board + WAITING, defaults, sizeof defaults);
        memcpy(board + IN_FORCE, defaults, sizeof defaults);
        break;
    case CALL_START:
        board[RUNNING] = 1;
        memcpy(board + IN_FORCE, board + WAITING, sizeof defaults);
        break;
    case CALL_FEED:
    case CALL_FEED_FLOATS:
        board[FED] += (int64_t)scene->parts[READINGS].count;
        break;
    case CALL_READ_OUT:
    case CALL_READ_OUT_FLOATS:
    case CALL_DROP:
        board[RUNNING] = board[FED] = 0;
        break;
    default:
        break;
    }
}

/* ---- Calls, checked ---- */

/* A buffer that holds no board is answered with 99, and no other; by Open one of another length. */
static void check_refusal(const int64_t *board, size_t count, enum call call, uint8_t number) {
    bool refused = call == CALL_OPEN ? count != RAMP_BOARD_WORDS : !holds_board(board, count);
    expect((number == 99) == refused, "%s answers %d to a buffer that holds %s board", name_of(call), number, refused ? "no" : "a");
    if (number == 99 || call == CALL_OPEN) {
        return;
    }
    bool wants_ramp = CALL_FEED <= call && call <= CALL_DROP;
    expect((number == 10) == (wants_ramp && board[RUNNING] == 0), "%s answers %d, and a ramp runs: %d", name_of(call), number, (int)board[RUNNING]);
    expect((number == 9) == (call == CALL_START && board[RUNNING] == 1), "%s answers %d, and a ramp runs: %d", name_of(call), number, (int)board[RUNNING]);
}

/* A taken call leaves a board: the one before, as the call changes it. */
static void check_board(const struct scene *scene, enum call call, const int64_t *before) {
    int64_t expected[RAMP_BOARD_WORDS];
    const int64_t *board = board_in(scene);
    expect(holds(scene), "%s leaves no board", name_of(call));
    memcpy(expected, before, sizeof expected);
    apply(scene, call, expected);
    for (size_t i = 0; i < RAMP_BOARD_WORDS; i += 1) {
        bool updated = call == CALL_UPDATE && WAITING <= i && i < IN_FORCE;
        expect(updated || board[i] == expected[i], "%s leaves %lld as number %zu, and not %lld", name_of(call), (long long)board[i], i, (long long)expected[i]);
    }
}

/* Feed writes only entries that get a reading; the others stay bit for bit. */
static void check_sums(const struct scene *scene, enum call call, const int64_t *board, const int32_t *sums, const double *floats) {
    size_t pixels = pixels_of(board), count = scene->parts[READINGS].count;
    for (size_t i = count; i < pixels; i += 1) {
        size_t pixel = ((size_t)board[FED] + i) % pixels;
        bool stays = call == CALL_FEED ? sums_in(scene)[pixel] == sums[pixel] : memcmp(floats_in(scene) + pixel, floats + pixel, sizeof(double)) == 0;
        expect(stays, "%s writes entry %zu, which gets no reading", name_of(call), pixel);
    }
}

/* The whole number of 32 bits that a float is, or one that isn't possible, as the float isn't. */
static int32_t whole_of(double entry) {
    bool whole = INT32_MIN <= entry && entry <= INT32_MAX && entry == (int32_t)entry && !(entry == 0 && signbit(entry));
    return whole ? (int32_t)entry : INT32_MIN;
}

/* A call with the whole numbers of the sums in floats: what it is lent, its answer, and its place. */
struct twin {
    int64_t board[2 * RAMP_BOARD_WORDS];
    int32_t sums[MOST_ENTRIES];
    uint16_t words[MOST_ENTRIES];
    uint8_t number;
    size_t place;
};

static void make_twin(struct twin *twin, const struct scene *scene, enum call call) {
    size_t board_words = scene->parts[BOARD].count, sum_count = scene->parts[FLOATS].count, word_count = scene->parts[WORDS].count;
    memcpy(twin->board, board_in(scene), board_words * sizeof twin->board[0]);
    memcpy(twin->words, words_in(scene), word_count * sizeof twin->words[0]);
    for (size_t i = 0; i < sum_count; i += 1) {
        twin->sums[i] = whole_of(floats_in(scene)[i]);
    }
    ramp_board *board = (ramp_board *)twin->board;
    if (call == CALL_FEED_FLOATS) {
        twin->number = ramp_feed(board, board_words, readings_in(scene), scene->parts[READINGS].count, twin->sums, sum_count, &twin->place);
    } else {
        twin->number = ramp_read_out(board, board_words, twin->sums, sum_count, twin->words, word_count, &twin->place);
    }
}

/* The call with floats answers what its twin does, and leaves the same board, the same whole numbers where it fed, and the same words. */
static void check_twin(const struct twin *twin, const struct scene *scene, enum call call, uint8_t number, const int64_t *before) {
    size_t place = size_in(scene, PLACE);
    expect(number == twin->number && place == twin->place, "%s answers %d at %zu, and not %d at %zu", name_of(call), number, place, twin->number, twin->place);
    expect(memcmp(board_in(scene), twin->board, scene->parts[BOARD].count * sizeof twin->board[0]) == 0, "%s leaves another board", name_of(call));
    expect(memcmp(words_in(scene), twin->words, scene->parts[WORDS].count * sizeof twin->words[0]) == 0, "%s leaves other words", name_of(call));
    if (number != 0 || call == CALL_READ_OUT_FLOATS) {
        return;
    }
    size_t pixels = pixels_of(before), count = scene->parts[READINGS].count;
    for (size_t i = 0; i < count && i < pixels; i += 1) {
        size_t pixel = ((size_t)before[FED] + i) % pixels;
        const double entry = twin->sums[pixel];
        expect(memcmp(floats_in(scene) + pixel, &entry, sizeof entry) == 0, "ramp_feed_floats stores %g, and not %g", floats_in(scene)[pixel], entry);
    }
}

/* Read out gives words of 15 bits. */
static void check_words(const struct scene *scene, enum call call) {
    for (size_t i = 0; i < scene->parts[WORDS].count; i += 1) {
        expect(words_in(scene)[i] < 32768, "%s gives the word %d", name_of(call), words_in(scene)[i]);
    }
}

/* Makes a call on the scene's board. */
static uint8_t make_on_board(struct scene *scene, enum call call) {
    static struct twin twin;
    int64_t before[2 * RAMP_BOARD_WORDS] = {0};
    int32_t sums[MOST_ENTRIES];
    double floats[MOST_ENTRIES];
    size_t count = scene->parts[BOARD].count;
    bool with_floats = call == CALL_FEED_FLOATS || call == CALL_READ_OUT_FLOATS;
    memcpy(before, board_in(scene), count * sizeof before[0]);
    memcpy(sums, sums_in(scene), scene->parts[SUMS].count * sizeof sums[0]);
    memcpy(floats, floats_in(scene), scene->parts[FLOATS].count * sizeof floats[0]);
    if (with_floats) {
        make_twin(&twin, scene, call);
    }
    uint8_t number = make(scene, call);
    check_refusal(before, count, call, number);
    if (with_floats) {
        check_twin(&twin, scene, call, number, before);
    }
    if (number == 0) {
        check_board(scene, call, before);
    }
    if (number == 0 && (call == CALL_FEED || call == CALL_FEED_FLOATS)) {
        check_sums(scene, call, before, sums, floats);
    }
    if (number == 0 && (call == CALL_READ_OUT || call == CALL_READ_OUT_FLOATS)) {
        check_words(scene, call);
    }
    return number;
}

/* ---- What a call brings ---- */

static void lend_shorts(struct scene *scene, enum part part, size_t count, size_t top) {
    uint16_t shorts[MOST_ENTRIES];
    for (size_t i = 0; i < count; i += 1) {
        shorts[i] = (uint16_t)below(top);
    }
    lend(scene, part, shorts, count);
}

static void lend_sums(struct scene *scene, size_t count) {
    int32_t sums[MOST_ENTRIES];
    for (size_t i = 0; i < count; i += 1) {
        sums[i] = (int32_t)draw();
    }
    lend(scene, SUMS, sums, count);
}

/* Floats of any pattern, many of them no number. */
static void lend_floats(struct scene *scene, size_t count) {
    double floats[MOST_ENTRIES];
    for (size_t i = 0; i < count; i += 1) {
        uint64_t pattern = draw() | (chance(30) ? 0x7FF0000000000000 : 0);
        memcpy(floats + i, &pattern, sizeof pattern);
    }
    lend(scene, FLOATS, floats, count);
}

static void draw_sides(struct scene *scene) {
    size_t scale = chance(3) ? 5 : 1;
    scene->binned = chance(50);
    scene->width = scale * between(1, MOST_SIDE);
    scene->height = scale * between(1, MOST_SIDE);
    if (scene->binned) {
        scene->width += scene->width % 2;
        scene->height += scene->height % 2;
    }
}

static void spoil_sides(struct scene *scene) {
    const size_t wrong[] = {0, 1025, SIZE_MAX, (size_t)1 << 32, ((size_t)1 << 32) + 2};
    size_t *side = chance(50) ? &scene->width : &scene->height;
    *side = scene->binned && chance(40) ? *side + 1 : wrong[below(COUNT(wrong))];
}

#define FIELDS 12

/* A number of a field of the record, good or out of its range. */
static size_t field_number(size_t bit, bool good) {
    if (bit < 9) {
        return good ? below(32) : between(32, 255);
    }
    if (bit == 9) {
        return good ? (chance(50) ? 16383 : below(16384)) : between(16384, 65535);
    }
    size_t most = bit == 10 ? 3 : 9;
    return good ? between(1, chance(20) ? most : 3) : (chance(50) ? 0 : between(most + 1, 255));
}

/* A record of some fields, its map in the first two bytes; the bad field, if it is one, is among them. */
static void lend_record(struct scene *scene, size_t bad) {
    uint8_t record[16];
    size_t map = 0, length = 2;
    for (size_t bit = 0; bit < FIELDS; bit += 1) {
        if (bit == bad || chance(bit < 9 ? 20 : 50)) {
            size_t number = field_number(bit, bit != bad);
            map |= (size_t)1 << bit;
            record[length++] = (uint8_t)(number & 255);
            if (bit == 9) {
                record[length++] = (uint8_t)(number >> 8);
            }
        }
    }
    record[0] = (uint8_t)(map & 255);
    record[1] = (uint8_t)(map >> 8);
    lend(scene, RECORD, record, length);
}

/* Another length, a bit that no field has, or, mostly, a number out of its range. */
static void spoil_record(struct scene *scene) {
    uint8_t record[32] = {0};
    size_t length = scene->parts[RECORD].count;
    memcpy(record, record_in(scene), length);
    switch (below(8)) {
    case 0:
        lend(scene, RECORD, record, other_count(length));
        break;
    case 1:
        lend(scene, RECORD, record, below(2));
        break;
    case 2:
        record[1] |= (uint8_t)(1 << between(4, 7));
        lend(scene, RECORD, record, length);
        break;
    default:
        lend_record(scene, chance(30) ? below(9) : between(9, 11));
        break;
    }
}

/* Readings that the ramp still takes. */
static void lend_readings(struct scene *scene, size_t wanted) {
    const size_t tops[] = {10, 1000, 13100, 16384};
    size_t count = chance(30) ? wanted : below(wanted + 1);
    lend_shorts(scene, READINGS, count < MOST_ENTRIES ? count : MOST_ENTRIES, tops[below(COUNT(tops))]);
}

static void spoil_readings(struct scene *scene, size_t wanted) {
    size_t count = scene->parts[READINGS].count;
    if (count == 0 || chance(30)) {
        lend_shorts(scene, READINGS, (wanted + between(1, 3)) % MOST_ENTRIES, 16384);
    } else {
        readings_in(scene)[below(count)] = (uint16_t)between(16384, 65535);
    }
}

static void spoil_sums(struct scene *scene) {
    const int32_t entries[] = {0, -1, 1073741824, 1073741825, 1073741826, 1073741833, 1073741834, INT32_MAX, INT32_MIN, 245873, 245874, 2211833, 2211834};
    size_t count = scene->parts[SUMS].count;
    if (count == 0 || chance(20)) {
        lend_sums(scene, other_count(count) % MOST_ENTRIES);
    } else {
        sums_in(scene)[below(count)] = chance(80) ? entries[below(COUNT(entries))] : (int32_t)draw();
    }
}

static void spoil_floats(struct scene *scene) {
    const double entries[] = {0.0, -0.0, NAN, -NAN, INFINITY, -INFINITY, 0.5, -0.5, 128.25, 128.5, DBL_MIN, DBL_MAX, 245873, 245873.5, 245874, 2211833, 2211834,
                              1073741824, 1073741825, 1073741825.5, 1073741826, 1073741833, 1073741834, 2147483648, -2147483648.0, -2147483649.0, 4294967424};
    size_t count = scene->parts[FLOATS].count;
    if (count == 0 || chance(20)) {
        lend_floats(scene, other_count(count) % MOST_ENTRIES);
    } else {
        floats_in(scene)[below(count)] = chance(80) ? entries[below(COUNT(entries))] : (double)(int64_t)draw() / 1048576;
    }
}

/* One number of the board, or its length. */
static void spoil_board(struct scene *scene) {
    int64_t board[2 * RAMP_BOARD_WORDS] = {0};
    size_t count = scene->parts[BOARD].count;
    memcpy(board, board_in(scene), count * sizeof board[0]);
    int64_t *number = &board[below(RAMP_BOARD_WORDS)];
    switch (below(8)) {
    case 0:
        *number = 0;
        break;
    case 1:
        *number = -1;
        break;
    case 2:
        *number = (int64_t)draw();
        break;
    case 3:
        *number = (int64_t)below(20) - 10;
        break;
    case 4:
        *number = (int64_t)((uint64_t)*number + (chance(50) ? 1 : UINT64_MAX));
        break;
    case 5:
        *number = (int64_t)((uint64_t)*number ^ (uint64_t)1 << below(64));
        break;
    case 6:
        *number = (int64_t)below(20000);
        break;
    default:
        count = below(2 * RAMP_BOARD_WORDS);
        break;
    }
    lend(scene, BOARD, board, count);
}

/* ---- Steps: a call, and now and then something wrong with it ---- */

static bool in_floats; /* whether the ramp is summed in floats */

/* A call that fits the board, mostly the one that a ramp wants next. Where there is no board: any call, or Open in other memory. */
static enum call next_call(struct scene *scene) {
    const int64_t *board = board_in(scene);
    if (!holds(scene) && chance(50)) {
        const ramp_board any = {{(int64_t)draw(), (int64_t)draw()}};
        lend(scene, BOARD, any.words, RAMP_BOARD_WORDS);
        return CALL_OPEN;
    }
    if (!holds(scene) || chance(35)) {
        return (enum call)below(CALLS);
    }
    if (board[RUNNING] == 0) {
        in_floats = chance(50);
        return chance(60) ? CALL_START : CALL_UPDATE;
    }
    if (wanted_of(board) > 0) {
        return in_floats ? CALL_FEED_FLOATS : CALL_FEED;
    }
    return in_floats ? CALL_READ_OUT_FLOATS : CALL_READ_OUT;
}

/* From here on the ramp is summed in the other kind, from the same whole numbers. */
static void change_kind(struct scene *scene) {
    int32_t sums[MOST_ENTRIES];
    double floats[MOST_ENTRIES];
    size_t count = scene->parts[in_floats ? FLOATS : SUMS].count;
    for (size_t i = 0; i < count; i += 1) {
        sums[i] = in_floats ? whole_of(floats_in(scene)[i]) : sums_in(scene)[i];
        floats[i] = sums[i];
    }
    if (in_floats) {
        lend(scene, SUMS, sums, count);
    } else {
        lend(scene, FLOATS, floats, count);
    }
    in_floats = !in_floats;
}

/* What a call on a board brings, as the board wants it; the sums stay, but for those of the first feed. */
static void lend_for_board(struct scene *scene, enum call call) {
    const int64_t *board = board_in(scene);
    size_t sum_count = holds(scene) ? pixels_of(board) : 4, word_count = holds(scene) ? words_of(board) : 4;
    if (call == CALL_FEED && (!holds(scene) || board[FED] == 0)) {
        lend_sums(scene, sum_count < MOST_ENTRIES ? sum_count : 4);
    }
    if (call == CALL_FEED_FLOATS && (!holds(scene) || board[FED] == 0)) {
        lend_floats(scene, sum_count < MOST_ENTRIES ? sum_count : 4);
    }
    lend_readings(scene, wanted_in(scene));
    lend_shorts(scene, WORDS, word_count < MOST_ENTRIES ? word_count : 4, 65536);
    lend_record(scene, FIELDS);
    draw_sides(scene);
}

/* The sums that the call is lent. */
static void spoil_entries(struct scene *scene, enum call call) {
    if (call == CALL_FEED || call == CALL_READ_OUT) {
        spoil_sums(scene);
    } else {
        spoil_floats(scene);
    }
}

static void spoil_for_board(struct scene *scene, enum call call) {
    switch (call) {
    case CALL_OPEN:
        spoil_sides(scene);
        break;
    case CALL_UPDATE:
        spoil_record(scene);
        break;
    case CALL_FEED:
    case CALL_FEED_FLOATS:
        if (chance(50)) {
            spoil_readings(scene, wanted_in(scene));
            break;
        }
        spoil_entries(scene, call);
        break;
    case CALL_READ_OUT:
    case CALL_READ_OUT_FLOATS:
        if (chance(30)) {
            lend_shorts(scene, WORDS, other_count(scene->parts[WORDS].count) % MOST_ENTRIES, 65536);
            break;
        }
        spoil_entries(scene, call);
        break;
    default:
        spoil_board(scene);
        break;
    }
}

/* A call on the board. What was spoiled is mostly mended after a refusal, and otherwise it goes on with what it has. */
static void step_on_board(struct scene *scene, enum call call) {
    int64_t board[2 * RAMP_BOARD_WORDS];
    int32_t sums[MOST_ENTRIES];
    double floats[MOST_ENTRIES];
    size_t board_words = scene->parts[BOARD].count;
    bool spoiled = chance(25);
    memcpy(board, board_in(scene), board_words * sizeof board[0]);
    lend_for_board(scene, call);
    size_t sum_count = scene->parts[SUMS].count, float_count = scene->parts[FLOATS].count;
    memcpy(sums, sums_in(scene), sum_count * sizeof sums[0]);
    memcpy(floats, floats_in(scene), float_count * sizeof floats[0]);
    if (spoiled) {
        spoil_for_board(scene, call);
    }
    if (spoiled && chance(20)) {
        spoil_board(scene);
    }
    if (make_on_board(scene, call) != 0 && chance(90)) {
        lend(scene, BOARD, board, board_words);
        lend(scene, SUMS, sums, sum_count);
        lend(scene, FLOATS, floats, float_count);
    }
}

static void step_word(struct scene *scene) {
    scene->word = (uint16_t)(chance(50) ? between(32745, 32775) : draw());
    scene->truncation = (uint16_t)(chance(80) ? between(1, 3) : draw());
    if (make(scene, CALL_READ_WORD) == 0) {
        expect(kind_in(scene) <= RAMP_UNASSIGNED, "ramp_read_word gives kind %d", kind_in(scene));
    }
}

/* A frame of few flags or many, and a place and a box in it. */
static void lend_flags(struct scene *scene) {
    draw_sides(scene);
    size_t count = scene->width * scene->height, percent = below(3) * 10;
    lend_shorts(scene, WORDS, count, 32753);
    for (size_t i = 0; i < count; i += 1) {
        if (chance(percent)) {
            words_in(scene)[i] = (uint16_t)between(32753, 32767);
        }
    }
    scene->row = below(scene->height);
    scene->column = below(scene->width);
    scene->last_row = between(scene->row, scene->height - 1);
    scene->last_column = between(scene->column, scene->width - 1);
}

static void spoil_flags(struct scene *scene) {
    size_t *numbers[] = {&scene->row, &scene->column, &scene->last_row, &scene->last_column};
    switch (below(3)) {
    case 0:
        spoil_sides(scene);
        break;
    case 1:
        lend_shorts(scene, WORDS, other_count(scene->parts[WORDS].count), 65536);
        break;
    default:
        *numbers[below(4)] = chance(50) ? below(8) : (size_t)draw();
        break;
    }
}

static bool is_flag(uint16_t word) { return (32753 <= word && word <= 32761) || word == 32767; }

/* The nearest flag is one, and is found where there is any; a box has no more flags than the frame. */
static void check_flags(const struct scene *scene, enum call call) {
    size_t flags = 0;
    for (size_t i = 0; i < scene->parts[WORDS].count; i += 1) {
        flags += is_flag(words_in(scene)[i]);
    }
    if (call == CALL_COUNT_FLAGS) {
        expect(size_in(scene, FLAGS) <= flags, "ramp_count_flags counts %zu flags of %zu", size_in(scene, FLAGS), flags);
        return;
    }
    size_t row = size_in(scene, FLAG_ROW), column = size_in(scene, FLAG_COLUMN);
    expect(size_in(scene, FOUND) == (flags > 0), "ramp_nearest_flag finds %zu of %zu flags", size_in(scene, FOUND), flags);
    expect(flags == 0 || (row < scene->height && column < scene->width && is_flag(words_in(scene)[row * scene->width + column])),
           "ramp_nearest_flag finds row %zu, column %zu, which isn't a flag", row, column);
}

static void step_flags(struct scene *scene, enum call call) {
    lend_flags(scene);
    if (chance(30)) {
        spoil_flags(scene);
    }
    if (make(scene, call) == 0) {
        check_flags(scene, call);
    }
}

/* A whole frame; the record says how many readings it wants. */
static void step_frame(struct scene *scene) {
    uint8_t record[] = {0x00, 0x0C, (uint8_t)between(1, 3), (uint8_t)between(1, 9)};
    size_t spoiled = chance(40) ? 1 + below(6) : 0;
    draw_sides(scene);
    size_t pixels = scene->width * scene->height, wanted = pixels * record[3];
    lend(scene, RECORD, record, sizeof record);
    lend_shorts(scene, READINGS, wanted < MOST_ENTRIES ? wanted : pixels, 16384);
    lend_sums(scene, pixels);
    lend_shorts(scene, WORDS, scene->binned ? pixels / 4 : pixels, 65536);
    switch (spoiled) {
    case 1:
        spoil_sides(scene);
        break;
    case 2:
        lend_record(scene, FIELDS);
        spoil_record(scene);
        break;
    case 3:
        spoil_readings(scene, wanted);
        break;
    case 4:
        lend_shorts(scene, READINGS, below(wanted < MOST_ENTRIES ? wanted : pixels), 16384);
        break;
    case 5:
        lend_sums(scene, other_count(pixels));
        break;
    case 6:
        lend_shorts(scene, WORDS, other_count(scene->parts[WORDS].count), 65536);
        break;
    default:
        break;
    }
    make(scene, CALL_FRAME);
}

/* A step on the board that is kept, or one that needs none. */
static void step(struct scene *kept, struct scene *other) {
    enum call call = next_call(kept);
    if (chance(2)) {
        change_kind(kept);
    }
    switch (call) {
    case CALL_READ_WORD:
        step_word(other);
        break;
    case CALL_NEAREST_FLAG:
    case CALL_COUNT_FLAGS:
        step_flags(other, call);
        break;
    case CALL_FRAME:
        step_frame(other);
        break;
    default:
        step_on_board(kept, call);
        break;
    }
}

/* ---- What is tried before the draws ---- */

/* Each single number of some boards changed, and every call on it. */
static void damaged_boards(struct scene *scene) {
    const int64_t boards[][RAMP_BOARD_WORDS] = {
        {2, 2, 0, 0, 0, 1, -2, 3, -4, 5, -6, 7, -8, 9, 900, 1, 3, 9, 8, 7, 6, 5, 4, 3, 2, 1, 700, 3, 2},
        {2, 2, 1, 1, 5, 1, -2, 3, -4, 5, -6, 7, -8, 9, 900, 1, 3, 9, 8, 7, 6, 5, 4, 3, 2, 1, 700, 3, 2},
        {2, 2, 1, 1, 8, 1, -2, 3, -4, 5, -6, 7, -8, 9, 900, 1, 3, 9, 8, 7, 6, 5, 4, 3, 2, 1, 700, 3, 2},
    };
    const int64_t wide = (int64_t)1 << 32;
    for (size_t i = 0; i < COUNT(boards); i += 1) {
        for (size_t at = 0; at < RAMP_BOARD_WORDS; at += 1) {
            const int64_t old = boards[i][at];
            const int64_t numbers[] = {old, old + 1, old - 1, old + 256, old + 65536, old + wide, 0, -1, INT64_MAX, INT64_MIN, (int64_t)draw(),
                                       1, 2, 3, 4, 10, 15, 16, -15, -16, 1024, 1025, 16383, 16384};
            for (size_t j = 0; j < COUNT(numbers); j += 1) {
                for (enum call call = CALL_OPEN; call <= CALL_COVERED; call += 1) {
                    const int32_t sums[] = {128, 129, 130, 131};
                    const double floats[] = {128, 129, 130, 131};
                    int64_t board[RAMP_BOARD_WORDS];
                    memcpy(board, boards[i], sizeof board);
                    board[at] = numbers[j];
                    lend(scene, BOARD, board, RAMP_BOARD_WORDS);
                    lend_for_board(scene, call);
                    lend(scene, SUMS, sums, COUNT(sums));
                    lend(scene, FLOATS, floats, COUNT(floats));
                    make_on_board(scene, call);
                }
            }
        }
    }
}

/* New memory, which holds nothing yet: a board is opened in it, a first feed writes the sums, and a read-out the words; the same in floats. */
static void new_memory(void) {
    const uint8_t record[] = {0x00, 0x08, 2};
    const uint16_t readings[] = {1, 2, 3, 4, 5, 6, 7, 8};
    ramp_board *board = malloc(sizeof *board);
    int32_t *sums = malloc(4 * sizeof *sums);
    double *floats = malloc(4 * sizeof *floats);
    uint16_t *words = malloc(4 * sizeof *words);
    size_t *place = malloc(sizeof *place);
    expect(ramp_open(board, RAMP_BOARD_WORDS, 2, 2, false, place) == 0 && *place == 0, "new memory is opened");
    expect(ramp_update(board, RAMP_BOARD_WORDS, record, 3, place) == 0 && *place == 0, "new memory is updated");
    expect(ramp_start(board, RAMP_BOARD_WORDS, place) == 0 && *place == 0, "new memory is started");
    expect(ramp_feed(board, RAMP_BOARD_WORDS, readings, 3, sums, 4, place) == 0 && *place == 0, "new memory is fed");
    expect(ramp_feed(board, RAMP_BOARD_WORDS, readings + 3, 5, sums, 4, place) == 0 && *place == 0, "new memory is fed on");
    expect(ramp_read_out(board, RAMP_BOARD_WORDS, sums, 4, words, 4, place) == 0 && *place == 0, "new memory is read out");
    for (size_t i = 0; i < 4; i += 1) {
        int sum = 128 - 4 * readings[i] - 3 * readings[4 + i];
        expect(sums[i] == sum && words[i] == sum / 4, "new memory holds %d and %d, and not %d and %d", sums[i], words[i], sum, sum / 4);
    }
    expect(ramp_start(board, RAMP_BOARD_WORDS, place) == 0 && *place == 0, "a ramp in floats is started");
    expect(ramp_feed_floats(board, RAMP_BOARD_WORDS, readings, 3, floats, 4, place) == 0 && *place == 0, "new memory is fed in floats");
    expect(ramp_feed_floats(board, RAMP_BOARD_WORDS, readings + 3, 5, floats, 4, place) == 0 && *place == 0, "new memory is fed on in floats");
    expect(ramp_read_out_floats(board, RAMP_BOARD_WORDS, floats, 4, words, 4, place) == 0 && *place == 0, "floats are read out");
    for (size_t i = 0; i < 4; i += 1) {
        expect(floats[i] == sums[i] && words[i] == sums[i] / 4, "new memory holds %g and %d, and not %d and %d", floats[i], words[i], sums[i], sums[i] / 4);
    }
    free(board);
    free(sums);
    free(floats);
    free(words);
    free(place);
}

int main(int argc, char **argv) {
    if (argc != 3) {
        fprintf(stderr, "fuzz SEED COUNT\n");
        return 2;
    }
    state = strtoull(argv[1], NULL, 10);
    unsigned long long count = strtoull(argv[2], NULL, 10);
    struct scene kept, other;
    begin(&kept);
    begin(&other);
    new_memory();
    damaged_boards(&other);
    for (unsigned long long i = 0; i < count; i += 1) {
        step(&kept, &other);
    }
    end(&kept);
    end(&other);
    print_answers();
    return report("C, fuzz");
}
