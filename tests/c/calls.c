/* Calls every export of libfuavelino.a through its header: accepted, with answers known from the rules or from av-metrics 0.9.1 (the bits
 * below), and refused, after which every lent place is as it was. It prints each export's name with how often it accepted and refused. */
#include "fuavelino.h"
#include "fuavelino_kernel.h"

#include <math.h>
#include <stdio.h>
#include <string.h>

#define COUNT(list) (sizeof(list) / sizeof((list)[0]))
#define MOST ((size_t)FUAVELINO_MOST_SIDE)
#define EXPECT(truth) expect((truth), #truth, __LINE__)
/* a call that answers 0 or a refusal; one that answers a count of places, or 0; one that always answers */
#define CALL(name, args) told(#name, name args)
#define PLACES(name, args) placed(#name, name args)
#define ASK(name, args) asked(#name, name args)

static int failures;

static void expect(int truth, const char *text, int line) {
    if (!truth) {
        printf("calls.c:%d: does not hold: %s\n", line, text);
        failures++;
    }
}

struct tally {
    const char *name;
    unsigned accepted, refused;
};

static struct tally tallies[64];
static size_t tallied;

/* Counts an answer under its call's name. */
static void tally(const char *name, unsigned accepted, unsigned refused) {
    size_t i = 0;
    while (i < tallied && strcmp(tallies[i].name, name) != 0) i++;
    if (i == COUNT(tallies)) {
        expect(0, "there is room for every name", __LINE__);
        return;
    }
    if (i == tallied) tallies[tallied++].name = name;
    tallies[i].accepted += accepted;
    tallies[i].refused += refused;
}

static uint8_t told(const char *name, uint8_t answer) {
    tally(name, answer == FUAVELINO_ACCEPTED, answer != FUAVELINO_ACCEPTED);
    return answer;
}

static size_t placed(const char *name, size_t places) {
    tally(name, places > 0, places == 0);
    return places;
}

/* It has no refusal, which counts as having seen it. */
static uint32_t asked(const char *name, uint32_t answer) {
    tally(name, 1, 1);
    return answer;
}

static int has_bits(double x, uint64_t bits) {
    uint64_t own;
    memcpy(&own, &x, sizeof own);
    return own == bits;
}

/* Two pictures of 24 by 20, padded to a stride of 27 with what no picture may hold. */
enum { WIDTH = 24, HEIGHT = 20, STRIDE = 27, LEN = STRIDE * (HEIGHT - 1) + WIDTH };

static uint8_t a8[LEN], b8[LEN];
static uint16_t a16[LEN], b16[LEN];

static void draw(void) {
    size_t x, y;
    memset(a8, 0xFF, sizeof a8), memset(b8, 0xFF, sizeof b8);
    memset(a16, 0xFF, sizeof a16), memset(b16, 0xFF, sizeof b16);
    for (y = 0; y < HEIGHT; y++) {
        for (x = 0; x < WIDTH; x++) {
            size_t i = y * WIDTH + x, at = y * STRIDE + x, value = i * i + 3 * i;
            a8[at] = (uint8_t)(value % 256), b8[at] = (uint8_t)(a8[at] ^ i % 7);
            a16[at] = (uint16_t)(value % 1024), b16[at] = (uint16_t)(a16[at] ^ i % 7);
        }
    }
}

/* The planes with these numbers beside them, as a call takes them. */
#define BYTES(width, height, depth) a8, LEN, b8, LEN, width, height, STRIDE, STRIDE, depth
#define WORDS(width, height, depth) a16, LEN, b16, LEN, width, height, STRIDE, STRIDE, depth

static void version(void) {
    EXPECT(ASK(fuavelino_version, ()) == FUAVELINO_VERSION);
    EXPECT(FUAVELINO_VERSION == 10000 * FUAVELINO_VERSION_MAJOR + 100 * FUAVELINO_VERSION_MINOR + FUAVELINO_VERSION_PATCH);
}

static void root(void) {
    const double before = -7.25;
    double out = before;
    EXPECT(CALL(fuavelino_root, (-0.0, &out)) == FUAVELINO_VALUE && out == before);
    EXPECT(CALL(fuavelino_root, (HUGE_VAL, &out)) == FUAVELINO_VALUE && out == before);
    EXPECT(CALL(fuavelino_root, (2.0, &out)) == 0 && has_bits(out, UINT64_C(0x3FF6A09E667F3BCD)));
    EXPECT(CALL(fuavelino_root, (0.0, &out)) == 0 && has_bits(out, 0));
}

static void check(void) {
    EXPECT(CALL(fuavelino_check8, (BYTES(WIDTH, HEIGHT, 8), 0)) == 0);
    EXPECT(CALL(fuavelino_check16, (WORDS(WIDTH, HEIGHT, 10), 0)) == 0);
    EXPECT(CALL(fuavelino_check8, (BYTES(WIDTH, HEIGHT, 9), 0)) == FUAVELINO_DEPTH);
    EXPECT(CALL(fuavelino_check16, (WORDS(WIDTH, HEIGHT, 13), 0)) == FUAVELINO_DEPTH);
    EXPECT(CALL(fuavelino_check8, (BYTES(MOST + 1, HEIGHT, 8), 0)) == FUAVELINO_SIZE);
    EXPECT(CALL(fuavelino_check8, (BYTES(SIZE_MAX, SIZE_MAX, 8), 0)) == FUAVELINO_SIZE);
    /* one row needs no stride, but has one */
    EXPECT(CALL(fuavelino_check8, (a8, LEN, b8, LEN, WIDTH, 1, FUAVELINO_MOST_STRIDE, STRIDE, 8, 0)) == 0);
    EXPECT(CALL(fuavelino_check8, (a8, LEN, b8, LEN, WIDTH, 1, STRIDE, FUAVELINO_MOST_STRIDE + 1, 8, 0)) == FUAVELINO_STRIDE);
    EXPECT(CALL(fuavelino_check8, (BYTES(WIDTH, HEIGHT, 8), HEIGHT + 1)) == FUAVELINO_SIDE);
    EXPECT(CALL(fuavelino_check16, (WORDS(STRIDE + 1, HEIGHT, 10), 0)) == FUAVELINO_STRIDE);
    EXPECT(CALL(fuavelino_check16, (WORDS(WIDTH, HEIGHT + 1, 10), 0)) == FUAVELINO_SHORT);
    EXPECT(CALL(fuavelino_check8, (a8, 0, b8, 0, 1, 1, 1, 1, 8, 0)) == FUAVELINO_SHORT);
    EXPECT(CALL(fuavelino_check16, (WORDS(WIDTH, HEIGHT, 9), 0)) == FUAVELINO_SAMPLE);
    /* one column of padding, seen */
    EXPECT(CALL(fuavelino_check16, (WORDS(WIDTH + 1, HEIGHT - 1, 10), 0)) == FUAVELINO_SAMPLE);
}

/* A record lies in memory as the library and the Rust package have it. The mark in front lets C99 have what C11 brought. */
#define LAID_OUT(truth) __extension__ _Static_assert(truth, #truth)
LAID_OUT(sizeof(fuavelino_record) == 32);
LAID_OUT(offsetof(fuavelino_record, sq_err) == 0);
LAID_OUT(offsetof(fuavelino_record, n) == 8);
LAID_OUT(offsetof(fuavelino_record, sample_max) == 16);
LAID_OUT(offsetof(fuavelino_record, frame) == 20);
LAID_OUT(offsetof(fuavelino_record, plane) == 24);
LAID_OUT(sizeof(((fuavelino_record *)0)->frame) == 4 && sizeof(((fuavelino_record *)0)->plane) == 4);

static fuavelino_record record(double sq_err, uint64_t n, uint32_t sample_max, uint32_t frame, uint32_t plane) {
    fuavelino_record r;
    r.sq_err = sq_err, r.n = n, r.sample_max = sample_max, r.frame = frame, r.plane = plane;
    return r;
}

/* Whether it has these figures, beside the frame and the plane that it was given. */
static int is_record(fuavelino_record r, double sq_err, uint64_t n, uint32_t sample_max, uint32_t frame, uint32_t plane) {
    return r.sq_err == sq_err && r.n == n && r.sample_max == sample_max && r.frame == frame && r.plane == plane;
}

/* The record as a call is told of it and writes it. */
#define RECORD(r) (r).frame, (r).plane, &(r).sq_err, &(r).n, &(r).sample_max

static void squared_error(void) {
    static const uint8_t x[] = {10, 20, 30}, y[] = {13, 20, 26};
    fuavelino_record r = {.sq_err = -7.25, .n = 77, .sample_max = 88, .frame = 5, .plane = 1};
    EXPECT(CALL(fuavelino_squared_error8, (BYTES(WIDTH, 0, 8), RECORD(r))) == FUAVELINO_SIZE);
    EXPECT(CALL(fuavelino_squared_error16, (WORDS(WIDTH, HEIGHT, 8), RECORD(r))) == FUAVELINO_DEPTH);
    EXPECT(is_record(r, -7.25, 77, 88, 5, 1));
    EXPECT(CALL(fuavelino_squared_error8, (x, 3, y, 3, 3, 1, 3, 3, 8, RECORD(r))) == 0);
    EXPECT(is_record(r, 25, 3, 255, 5, 1));
    EXPECT(CALL(fuavelino_squared_error8, (BYTES(WIDTH, HEIGHT, 8), RECORD(r))) == 0);
    EXPECT(is_record(r, 4306, WIDTH * HEIGHT, 255, 5, 1));
    EXPECT(CALL(fuavelino_squared_error16, (WORDS(WIDTH, HEIGHT, 10), RECORD(r))) == 0);
    EXPECT(is_record(r, 4306, WIDTH * HEIGHT, 1023, 5, 1));
    EXPECT(CALL(fuavelino_squared_error16, (a16, LEN, a16, LEN, WIDTH, 1, STRIDE, STRIDE, 12, RECORD(r))) == 0);
    EXPECT(is_record(r, 0, WIDTH, 4095, 5, 1));
}

/* Any frame is taken, and planes 0 to 2. A plane past them is 10, where nothing lower applies, and the record stays as it was. */
static void whose(void) {
    static const uint32_t frames[] = {0, 1, UINT32_MAX - 1, UINT32_MAX}, past[] = {3, 4, 255, 256, 65536, UINT32_C(1) << 31, UINT32_MAX};
    static const uint8_t dim[] = {127, 127}, bright[] = {127, 128};
    size_t i, j;
    for (i = 0; i < COUNT(frames); i++) {
        fuavelino_record r = {.frame = frames[i]};
        for (r.plane = 0; r.plane <= FUAVELINO_MOST_PLANE; r.plane++) {
            r.sq_err = -7.25, r.n = 77, r.sample_max = 88;
            EXPECT(CALL(fuavelino_squared_error8, (BYTES(WIDTH, HEIGHT, 8), RECORD(r))) == 0);
            EXPECT(r.sq_err == 4306 && r.n == WIDTH * HEIGHT && r.sample_max == 255);
            EXPECT(CALL(fuavelino_squared_error16, (WORDS(WIDTH, HEIGHT, 10), RECORD(r))) == 0);
            EXPECT(r.sq_err == 4306 && r.n == WIDTH * HEIGHT && r.sample_max == 1023);
        }
        for (j = 0; j < COUNT(past); j++) {
            fuavelino_record p = record(-7.25, 77, 88, frames[i], past[j]);
            EXPECT(CALL(fuavelino_squared_error8, (BYTES(WIDTH, HEIGHT, 8), RECORD(p))) == FUAVELINO_RECORD);
            EXPECT(CALL(fuavelino_squared_error16, (WORDS(WIDTH, HEIGHT, 10), RECORD(p))) == FUAVELINO_RECORD);
            /* planes that are identical get no other answer */
            EXPECT(CALL(fuavelino_squared_error8, (a8, LEN, a8, LEN, WIDTH, HEIGHT, STRIDE, STRIDE, 8, RECORD(p))) == FUAVELINO_RECORD);
            EXPECT(CALL(fuavelino_squared_error8, (BYTES(WIDTH, HEIGHT, 9), RECORD(p))) == FUAVELINO_DEPTH);
            EXPECT(CALL(fuavelino_squared_error16, (WORDS(0, HEIGHT, 10), RECORD(p))) == FUAVELINO_SIZE);
            EXPECT(CALL(fuavelino_squared_error8, (BYTES(STRIDE + 1, HEIGHT, 8), RECORD(p))) == FUAVELINO_STRIDE);
            EXPECT(CALL(fuavelino_squared_error8, (BYTES(WIDTH, HEIGHT + 1, 8), RECORD(p))) == FUAVELINO_SHORT);
            EXPECT(CALL(fuavelino_squared_error16, (WORDS(WIDTH, HEIGHT + 1, 10), RECORD(p))) == FUAVELINO_SHORT);
            EXPECT(CALL(fuavelino_squared_error8, (dim, 2, bright, 2, 2, 1, 2, 2, 7, RECORD(p))) == FUAVELINO_SAMPLE);
            EXPECT(CALL(fuavelino_squared_error16, (WORDS(WIDTH, HEIGHT, 9), RECORD(p))) == FUAVELINO_SAMPLE);
            EXPECT(is_record(p, -7.25, 77, 88, frames[i], past[j]));
        }
    }
}

/* What the better of two is told with, soiled before each call, so that what a refused one leaves is seen. */
static double least;
static uint8_t which;

/* A plane as a call is lent it, of bytes or of words. */
struct lent_plane {
    const void *samples;
    size_t len, stride;
};

#define LEND(p) (p).samples, (p).len
#define STRIDES(p) (p)[0].stride, (p)[1].stride, (p)[2].stride

/* The original and both candidates, of words where `wide` is 1. */
static uint8_t better(int wide, const struct lent_plane *p, size_t width, size_t height, uint32_t depth) {
    least = -7.25, which = 77;
    if (wide) return CALL(fuavelino_better16, (LEND(p[0]), LEND(p[1]), LEND(p[2]), width, height, STRIDES(p), depth, &least, &which));
    return CALL(fuavelino_better8, (LEND(p[0]), LEND(p[1]), LEND(p[2]), width, height, STRIDES(p), depth, &least, &which));
}

static int wins(unsigned candidate, double sq_err) { return which == candidate && least == sq_err; }
static int nobody_wins(void) { return which == 77 && least == -7.25; }

/* Planes of 2 by 2 with what no sample may be between their rows: an original, four that are 25, 24, 25 and 26 off, and one too bright. */
static const uint8_t small8[][7] = {{50, 50, 50, 50}, {50, 55, 255, 50, 50}, {54, 52, 255, 255, 255, 50, 52}, {50, 50, 45, 50}, {51, 50, 255, 50, 55}, {50, 50, 255, 50, 64}};
static const uint16_t small16[][7] = {{50, 50, 50, 50}, {50, 55, 999, 50, 50}, {54, 52, 999, 999, 999, 50, 52}, {50, 50, 45, 50}, {51, 50, 999, 50, 55}, {50, 50, 999, 50, 512}};
static const size_t small_strides[] = {2, 3, 5, 2, 3, 3};
static const uint32_t small_depths[] = {6, 9};

static struct lent_plane small(int wide, size_t i) {
    struct lent_plane p;
    p.samples = wide ? (const void *)small16[i] : (const void *)small8[i];
    p.stride = small_strides[i], p.len = p.stride + 2;
    return p;
}

/* Whether of these two that candidate wins, with that error. */
static int chosen(int wide, size_t original, size_t first, size_t second, unsigned candidate, double sq_err) {
    struct lent_plane p[3];
    p[0] = small(wide, original), p[1] = small(wide, first), p[2] = small(wide, second);
    return better(wide, p, 2, 2, small_depths[wide]) == 0 && wins(candidate, sq_err);
}

static void smaller_error(void) {
    int wide;
    for (wide = 0; wide < 2; wide++) {
        EXPECT(chosen(wide, 0, 1, 2, FUAVELINO_SECOND, 24) && chosen(wide, 0, 2, 1, FUAVELINO_FIRST, 24));
        EXPECT(chosen(wide, 0, 4, 1, FUAVELINO_SECOND, 25) && chosen(wide, 0, 1, 4, FUAVELINO_FIRST, 25));
        /* ties: of unlike planes, of one plane twice, and of the original itself */
        EXPECT(chosen(wide, 0, 1, 3, FUAVELINO_FIRST, 25) && chosen(wide, 0, 3, 1, FUAVELINO_FIRST, 25));
        EXPECT(chosen(wide, 0, 4, 4, FUAVELINO_FIRST, 26) && chosen(wide, 2, 2, 2, FUAVELINO_FIRST, 0));
        EXPECT(chosen(wide, 4, 2, 4, FUAVELINO_SECOND, 0) && chosen(wide, 4, 4, 2, FUAVELINO_FIRST, 0));
    }
}

/* Each mix of what can be wrong with one plane, in each place of the three: the lowest number is told, and nothing is written. */
static void mixes(void) {
    static const uint8_t numbers[] = {0, FUAVELINO_STRIDE, FUAVELINO_STRIDE, FUAVELINO_SHORT, FUAVELINO_SAMPLE};
    size_t mix, i;
    int wide;
    for (wide = 0; wide < 2; wide++) {
        const uint32_t depth = small_depths[wide];
        for (mix = 0; mix < 125; mix++) {
            const size_t kinds[] = {mix / 25, mix / 5 % 5, mix % 5};
            struct lent_plane p[3];
            uint8_t lowest = 0;
            for (i = 0; i < 3; i++) {
                const uint8_t number = numbers[kinds[i]];
                p[i] = small(wide, number == FUAVELINO_SAMPLE ? 5 : i);
                if (number == FUAVELINO_STRIDE) p[i].stride = kinds[i] == 1 ? FUAVELINO_MOST_STRIDE + 1 : 1;
                if (number == FUAVELINO_SHORT) p[i].len--;
                if (number != 0 && (lowest == 0 || number < lowest)) lowest = number;
            }
            EXPECT(better(wide, p, 2, 2, depth) == lowest && (lowest == 0 ? wins(FUAVELINO_SECOND, 24) : nobody_wins()));
            EXPECT(better(wide, p, 2, 0, depth) == FUAVELINO_SIZE && nobody_wins());
            EXPECT(better(wide, p, MOST + 1, 2, depth) == FUAVELINO_SIZE && nobody_wins());
            EXPECT(better(wide, p, SIZE_MAX, SIZE_MAX, wide ? 8 : 9) == FUAVELINO_DEPTH && nobody_wins());
        }
    }
}

/* The pictures: b is 4306 off, and beside it stands one of which only the last sample is, by 66, whose square is 4356. */
static void of_pictures(void) {
    static uint8_t c8[LEN];
    static uint16_t c16[LEN];
    const struct lent_plane bytes[] = {{a8, LEN, STRIDE}, {b8, LEN, STRIDE}, {c8, LEN, STRIDE}};
    const struct lent_plane words[] = {{a16, LEN, STRIDE}, {b16, LEN, STRIDE}, {c16, LEN, STRIDE}};
    memcpy(c8, a8, sizeof c8), memcpy(c16, a16, sizeof c16);
    c8[LEN - 1] = (uint8_t)(c8[LEN - 1] < 128 ? c8[LEN - 1] + 66 : c8[LEN - 1] - 66);
    c16[LEN - 1] = (uint16_t)(c16[LEN - 1] < 512 ? c16[LEN - 1] + 66 : c16[LEN - 1] - 66);
    EXPECT(better(0, bytes, WIDTH, HEIGHT, 8) == 0 && wins(FUAVELINO_FIRST, 4306));
    EXPECT(better(1, words, WIDTH, HEIGHT, 10) == 0 && wins(FUAVELINO_FIRST, 4306));
    /* without its last row c has no error */
    EXPECT(better(0, bytes, WIDTH, HEIGHT - 1, 8) == 0 && wins(FUAVELINO_SECOND, 0));
    EXPECT(better(1, words, WIDTH, HEIGHT - 1, 10) == 0 && wins(FUAVELINO_SECOND, 0));
    EXPECT(better(1, words, WIDTH, HEIGHT, 9) == FUAVELINO_SAMPLE && nobody_wins());
}

/* Two builds of a plane as the header has it: the winner is one of the caller's own pointers, and the next call reads it where it lies. */
static void builds(void) {
    static const uint8_t o[] = {10, 20, 30, 40, 50, 60}, a[] = {10, 20, 30, 40, 50, 57}, b[] = {10, 21, 30, 99, 40, 52, 60};
    const uint8_t *winner = NULL;
    fuavelino_record r = {.frame = 7};
    uint8_t no = fuavelino_better8(o, 6, a, 6, b, 7, 3, 2, 3, 3, 4, 8, &least, &which);
    if (no == 0) winner = which == FUAVELINO_FIRST ? a : b;
    EXPECT(no == 0 && winner == b && least == 5);
    if (winner == b) no = fuavelino_squared_error8(o, 6, winner, 7, 3, 2, 3, 4, 8, RECORD(r));
    EXPECT(no == 0 && is_record(r, least, 6, 255, 7, 0));
}

static void first_difference(void) {
    static const uint8_t x[] = {7, 7, 7, 9, 7, 7}, y[] = {7, 7, 7, 8, 6, 7, 7};
    uint8_t differs = 77;
    size_t row = 88, column = 99;
    /* refused, and nothing written: also at a sample that comes after the first difference */
    EXPECT(CALL(fuavelino_first_difference8, (BYTES(WIDTH, HEIGHT, 9), &differs, &row, &column)) == FUAVELINO_DEPTH);
    EXPECT(CALL(fuavelino_first_difference8, (BYTES(WIDTH, MOST + 1, 8), &differs, &row, &column)) == FUAVELINO_SIZE);
    EXPECT(CALL(fuavelino_first_difference8, (BYTES(STRIDE + 1, HEIGHT, 8), &differs, &row, &column)) == FUAVELINO_STRIDE);
    EXPECT(CALL(fuavelino_first_difference16, (WORDS(WIDTH, HEIGHT + 1, 10), &differs, &row, &column)) == FUAVELINO_SHORT);
    EXPECT(CALL(fuavelino_first_difference16, (WORDS(WIDTH, HEIGHT, 9), &differs, &row, &column)) == FUAVELINO_SAMPLE);
    EXPECT(differs == 77 && row == 88 && column == 99);
    /* none: what is not seen differs, and the place stays */
    EXPECT(CALL(fuavelino_first_difference8, (x, 6, y, 7, 2, 2, 4, 5, 8, &differs, &row, &column)) == 0);
    EXPECT(differs == 0 && row == 88 && column == 99);
    EXPECT(CALL(fuavelino_first_difference8, (x, 6, y, 6, 3, 2, 3, 3, 8, &differs, &row, &column)) == 0);
    EXPECT(differs == 1 && row == 1 && column == 0);
    differs = 77;
    EXPECT(CALL(fuavelino_first_difference8, (BYTES(WIDTH, HEIGHT, 8), &differs, &row, &column)) == 0);
    EXPECT(differs == 1 && row == 0 && column == 1);
    EXPECT(CALL(fuavelino_first_difference16, (a16, LEN, a16, LEN, WIDTH, HEIGHT, STRIDE, STRIDE, 10, &differs, &row, &column)) == 0);
    EXPECT(differs == 0 && row == 0 && column == 1);
    /* from the second row on: sample 24 there is 24 % 7 off */
    EXPECT(CALL(fuavelino_first_difference16, (a16 + STRIDE, LEN - STRIDE, b16 + STRIDE, LEN - STRIDE, WIDTH, HEIGHT - 1, STRIDE, STRIDE, 10, &differs, &row, &column)) == 0);
    EXPECT(differs == 1 && row == 0 && column == 0);
}

/* The tiles of the pictures, and some more places. */
enum { ACROSS = 3, DOWN = 3, TILES = ACROSS * DOWN, SPARE = 2 };

static uint64_t map[TILES + SPARE];

static void soil_map(void) {
    size_t i;
    for (i = 0; i < COUNT(map); i++) map[i] = 5;
}

/* Whether the map from this place on is still as it was soiled. */
static int kept_from(size_t i) {
    while (i < COUNT(map) && map[i] == 5) i++;
    return i == COUNT(map);
}

/* The error of the pictures' tile in this place of the map, sample by sample. Words are as far off as bytes. */
static uint64_t of_tile(size_t place) {
    const size_t top = place / ACROSS * 8, left = place % ACROSS * 8;
    uint64_t sum = 0;
    size_t x, y;
    for (y = top; y < top + 8 && y < HEIGHT; y++) {
        for (x = left; x < left + 8 && x < WIDTH; x++) {
            const int off = a8[y * STRIDE + x] - b8[y * STRIDE + x];
            sum += (uint64_t)(off * off);
        }
    }
    return sum;
}

/* Whether the map is the pictures', with their squared error in all. */
static int mapped(void) {
    uint64_t total = 0;
    size_t i;
    for (i = 0; i < TILES && map[i] == of_tile(i); i++) total += map[i];
    return i == TILES && total == 4306;
}

static void error_map(void) {
    static const uint8_t x[] = {9, 9, 9, 9, 9, 9, 9, 9, 9}, y[] = {9, 9, 9, 9, 9, 9, 9, 8, 7};
    size_t across = 88, down = 99;
    soil_map();
    EXPECT(CALL(fuavelino_error_map8, (BYTES(WIDTH, HEIGHT, 0), map, TILES, &across, &down)) == FUAVELINO_DEPTH);
    EXPECT(CALL(fuavelino_error_map8, (BYTES(0, HEIGHT, 8), map, TILES, &across, &down)) == FUAVELINO_SIZE);
    EXPECT(CALL(fuavelino_error_map8, (BYTES(STRIDE + 1, HEIGHT, 8), map, TILES, &across, &down)) == FUAVELINO_STRIDE);
    EXPECT(CALL(fuavelino_error_map16, (WORDS(WIDTH, HEIGHT + 1, 10), map, TILES, &across, &down)) == FUAVELINO_SHORT);
    EXPECT(CALL(fuavelino_error_map16, (WORDS(WIDTH, HEIGHT, 9), map, 0, &across, &down)) == FUAVELINO_SAMPLE);
    EXPECT(CALL(fuavelino_error_map8, (BYTES(WIDTH, HEIGHT, 8), map, TILES - 1, &across, &down)) == FUAVELINO_SCRATCH);
    EXPECT(CALL(fuavelino_error_map16, (WORDS(WIDTH, HEIGHT, 10), map, 0, &across, &down)) == FUAVELINO_SCRATCH);
    EXPECT(across == 88 && down == 99 && kept_from(0));
    EXPECT(CALL(fuavelino_error_map8, (BYTES(WIDTH, HEIGHT, 8), map, TILES, &across, &down)) == 0);
    EXPECT(across == ACROSS && down == DOWN && mapped() && kept_from(TILES));
    across = down = 77, soil_map();
    EXPECT(CALL(fuavelino_error_map16, (WORDS(WIDTH, HEIGHT, 10), map, COUNT(map), &across, &down)) == 0);
    EXPECT(across == ACROSS && down == DOWN && mapped() && kept_from(TILES));
    /* one row of nine, and one column */
    soil_map();
    EXPECT(CALL(fuavelino_error_map8, (x, 9, y, 9, 9, 1, 9, 9, 8, map, 2, &across, &down)) == 0);
    EXPECT(across == 2 && down == 1 && map[0] == 1 && map[1] == 4 && kept_from(2));
    EXPECT(CALL(fuavelino_error_map8, (x, 9, y, 9, 1, 9, 1, 1, 8, map, 2, &across, &down)) == 0);
    EXPECT(across == 1 && down == 2 && map[0] == 1 && map[1] == 4 && kept_from(2));
}

/* Planes with the largest error: one and two fit, three do not, unless the third leaves the total at 2^53. */
static void series(void) {
    const double most = (double)FUAVELINO_MOST_SAMPLES * 4095 * 4095, two_to_53 = 9007199254740992.0;
    fuavelino_record run[4];
    double error = -7.25;
    uint64_t n = 77;
    uint32_t max = 88;
    size_t i;
    for (i = 0; i < COUNT(run); i++) run[i] = record(most, FUAVELINO_MOST_SAMPLES, 4095, (uint32_t)i, 0);
    EXPECT(CALL(fuavelino_series, (run, 0, &error, &n, &max)) == FUAVELINO_RECORD);
    EXPECT(CALL(fuavelino_series, (run, 3, &error, &n, &max)) == FUAVELINO_TOTAL);
    run[2].sq_err = two_to_53 - 2 * most;
    run[3].sq_err = 1;
    EXPECT(CALL(fuavelino_series, (run, 4, &error, &n, &max)) == FUAVELINO_TOTAL);
    EXPECT(error == -7.25 && n == 77 && max == 88);
    EXPECT(CALL(fuavelino_series, (run, 1, &error, &n, &max)) == 0);
    EXPECT(error == 4501400872550400.0 && n == FUAVELINO_MOST_SAMPLES && max == 4095);
    EXPECT(CALL(fuavelino_series, (run, 2, &error, &n, &max)) == 0);
    EXPECT(error == 9002801745100800.0 && n == UINT64_C(2) * FUAVELINO_MOST_SAMPLES && max == 4095);
    EXPECT(CALL(fuavelino_series, (run, 3, &error, &n, &max)) == 0);
    EXPECT(error == two_to_53 && n == UINT64_C(3) * FUAVELINO_MOST_SAMPLES && max == 4095);
    run[3].n++;
    EXPECT(CALL(fuavelino_series, (run, 4, &error, &n, &max)) == FUAVELINO_RECORD);
    run[3].n--;
    run[3].sq_err = -0.0;
    EXPECT(CALL(fuavelino_series, (run, 4, &error, &n, &max)) == FUAVELINO_RECORD);
    /* 10 before 11: what comes after too much is still judged */
    run[2].sq_err = most, run[3].sq_err = 1;
    EXPECT(CALL(fuavelino_series, (run, 4, &error, &n, &max)) == FUAVELINO_TOTAL);
    run[3].frame = 2;
    EXPECT(CALL(fuavelino_series, (run, 4, &error, &n, &max)) == FUAVELINO_RECORD);
    run[3].frame = 3, run[3].plane = 3;
    EXPECT(CALL(fuavelino_series, (run, 4, &error, &n, &max)) == FUAVELINO_RECORD);
    EXPECT(error == two_to_53 && n == UINT64_C(3) * FUAVELINO_MOST_SAMPLES && max == 4095);
}

/* What PSNR's calls write. They are soiled before each call, so that what it leaves is seen. */
static uint32_t hundredths;
static uint8_t identical;

static void soil_decibels(void) { hundredths = 77, identical = 88; }

/* Whether they tell this much, that the planes are identical, or nothing. */
static int is_decibels(uint32_t wanted) { return hundredths == wanted && identical == 0; }
static int is_identical(void) { return hundredths == 10000 && identical == 1; }
static int is_soiled(void) { return hundredths == 77 && identical == 88; }

static uint8_t of_run(const fuavelino_record *run, size_t count) {
    soil_decibels();
    return CALL(fuavelino_decibels, (run, count, &hundredths, &identical));
}

static uint8_t of_total(double sq_err, uint64_t n, uint32_t sample_max) {
    soil_decibels();
    return CALL(fuavelino_total_decibels, (sq_err, n, sample_max, &hundredths, &identical));
}

static void decibels(void) {
    static fuavelino_record run[65537];
    size_t i;
    for (i = 0; i < COUNT(run); i++) run[i] = record(0, 3, 255, (uint32_t)i, 0);
    /* only the last of as many as can be is wrong */
    run[65535].sq_err = 3 * 65025.0;
    EXPECT(of_run(run, 65536) == 0 && is_decibels(4816));
    EXPECT(of_run(run, 65535) == 0 && is_identical());
    EXPECT(of_run(run, 0) == FUAVELINO_RECORD && is_soiled());
    EXPECT(of_run(run, 65537) == FUAVELINO_RECORD && is_soiled());
    /* one sample of three as wrong as can be, then all three, then three of six */
    run[0].sq_err = 65025;
    EXPECT(of_run(run, 1) == 0 && is_decibels(477));
    run[0].sq_err = 3 * 65025.0;
    EXPECT(of_run(run, 1) == 0 && is_decibels(0));
    EXPECT(of_run(run, 2) == 0 && is_decibels(301));
    EXPECT(of_run(run + 1, 1) == 0 && is_identical());
    /* a bad record: one error more, another sample_max, a count past its limit, minus nothing */
    run[0].sq_err += 1;
    EXPECT(of_run(run, 2) == FUAVELINO_RECORD && is_soiled());
    run[0].sq_err = 0, run[0].sample_max = 1023;
    EXPECT(of_run(run, 2) == FUAVELINO_RECORD && is_soiled());
    EXPECT(of_run(run, 1) == 0 && is_identical());
    run[0].n = FUAVELINO_MOST_SAMPLES + UINT64_C(1);
    EXPECT(of_run(run, 1) == FUAVELINO_RECORD && is_soiled());
    run[0].n--;
    EXPECT(of_run(run, 1) == 0 && is_identical());
    run[0].sq_err = -0.0;
    EXPECT(of_run(run, 1) == FUAVELINO_RECORD && is_soiled());
    /* the largest errors of three planes are too much together, of two they are not */
    for (i = 0; i < 3; i++) run[i] = record(4501400872550400.0, FUAVELINO_MOST_SAMPLES, 4095, 7, (uint32_t)i);
    EXPECT(of_run(run, 2) == 0 && is_decibels(0));
    EXPECT(of_run(run, 3) == FUAVELINO_TOTAL && is_soiled());
}

/* Whether a run is taken by both calls, with these sums and what they say in decibels. */
static int adds_up(const fuavelino_record *run, size_t count, double sq_err, uint64_t samples) {
    double error = -7.25;
    uint64_t n = 77;
    uint32_t max = 88, known;
    if (CALL(fuavelino_series, (run, count, &error, &n, &max)) != 0 || error != sq_err || n != samples || max != 255) return 0;
    if (of_total(sq_err, samples, 255) != 0) return 0;
    known = hundredths;
    return of_run(run, count) == 0 && is_decibels(known);
}

/* Whether both calls refuse it with 10, and write nothing. */
static int is_bad(const fuavelino_record *run, size_t count) {
    double error = -7.25;
    uint64_t n = 77;
    uint32_t max = 88;
    if (CALL(fuavelino_series, (run, count, &error, &n, &max)) != FUAVELINO_RECORD || error != -7.25 || n != 77 || max != 88) return 0;
    return of_run(run, count) == FUAVELINO_RECORD && is_soiled();
}

/* Whether two records, of this frame and plane and of that, are taken one after the other. */
static int follows(uint32_t frame, uint32_t plane, uint32_t next_frame, uint32_t next_plane) {
    const fuavelino_record two[] = {record(25, 3, 255, frame, plane), record(7, 5, 255, next_frame, next_plane)};
    if (is_bad(two, 2)) return 0;
    EXPECT(adds_up(two, 2, 32, 8));
    return 1;
}

static void rising(void) {
    static const uint32_t frames[] = {0, 1, 2, 5, 255, 256, UINT32_C(1) << 31, UINT32_MAX - 1, UINT32_MAX};
    fuavelino_record one = record(25, 3, 255, 0, 0);
    size_t i, j;
    uint32_t p, q;
    EXPECT(!follows(1, 0, 0, 2) && follows(0, 2, 1, 0) && !follows(5, 1, 5, 1) && follows(5, 1, 5, 2) && !follows(5, 2, 5, 1));
    EXPECT(follows(UINT32_MAX - 1, 2, UINT32_MAX, 0) && !follows(UINT32_MAX, 2, 0, 0) && !follows(UINT32_MAX, 2, UINT32_MAX, 2));
    for (i = 0; i < COUNT(frames); i++) {
        for (j = 0; j < COUNT(frames); j++) {
            for (p = 0; p <= FUAVELINO_MOST_PLANE; p++) {
                for (q = 0; q <= FUAVELINO_MOST_PLANE; q++) EXPECT(follows(frames[i], p, frames[j], q) == (i < j || (i == j && p < q)));
            }
        }
        /* alone any frame is taken, and a plane past the last is not; nor is it beside others */
        one.frame = frames[i], one.plane = 0;
        for (; one.plane <= FUAVELINO_MOST_PLANE; one.plane++) EXPECT(adds_up(&one, 1, 25, 3));
        EXPECT(is_bad(&one, 1));
        one.plane = UINT32_MAX;
        EXPECT(is_bad(&one, 1));
    }
    EXPECT(!follows(5, 2, 5, 3) && !follows(5, 3, 6, 0) && !follows(5, 0, 6, UINT32_MAX));
}

enum { LONGEST = 65536 };

static fuavelino_record film[LONGEST + 1];

/* As many records as a series takes, and one more: the three planes of each frame in turn. Errors and counts of neighbours differ. */
static void number_film(uint32_t first, uint32_t apart) {
    size_t i;
    for (i = 0; i < COUNT(film); i++) film[i] = record((double)(i % 5), 3 + i % 2, 255, first + apart * (uint32_t)(i / 3), (uint32_t)(i % 3));
}

static int film_adds_up(void) { return adds_up(film, LONGEST, 131070, UINT64_C(229376)); }

/* The longest run, and it with one record wrong: first, in the middle and last. */
static void long_run(void) {
    static const size_t places[] = {0, 1, LONGEST / 2, LONGEST - 2, LONGEST - 1};
    size_t i;
    /* sums do not go by the numbers */
    number_film(1000000, 190000);
    EXPECT(film_adds_up());
    number_film(UINT32_MAX - LONGEST / 3, 1);
    EXPECT(film[LONGEST].frame == UINT32_MAX && film_adds_up());
    number_film(0, 1);
    EXPECT(film_adds_up());
    EXPECT(is_bad(film, LONGEST + 1) && is_bad(film, 0));
    EXPECT(adds_up(film + 1, LONGEST, 131071, UINT64_C(229376)));
    for (i = 0; i < COUNT(places); i++) {
        fuavelino_record *at = film + places[i], kept = *at, *near = at == film ? at + 1 : at - 1, other = *near;
        /* one beside it repeated; exchanged with it; a plane past the last; a frame that was there before, or comes later */
        *at = other;
        EXPECT(is_bad(film, LONGEST));
        *near = kept;
        EXPECT(is_bad(film, LONGEST));
        *at = kept, *near = other;
        at->plane = FUAVELINO_MOST_PLANE + 1;
        EXPECT(is_bad(film, LONGEST));
        *at = kept;
        at->frame = at == film ? UINT32_MAX : 0, at->plane = 0;
        EXPECT(is_bad(film, LONGEST));
        *at = kept;
        EXPECT(film_adds_up());
    }
}

static void total_decibels(void) {
    const uint64_t most = UINT64_C(65536) * FUAVELINO_MOST_SAMPLES;
    const double two_to_53 = 9007199254740992.0;
    EXPECT(of_total(25, 3, 255) == 0 && is_decibels(3892));
    EXPECT(of_total(1, FUAVELINO_MOST_SAMPLES, 255) == 0 && is_decibels(13241));
    EXPECT(of_total(1, most, 4095) == 0 && is_decibels(20469));
    EXPECT(of_total(0, most, 4095) == 0 && is_identical());
    /* 100 dB that are not identical, and the next smaller ratio */
    EXPECT(of_total(1, UINT64_C(10000000000), 1) == 0 && is_decibels(10000));
    EXPECT(of_total(1, UINT64_C(9999999999), 1) == 0 && is_decibels(9999));
    /* a little above the exact figure, which a logarithm would round down; and one sample less */
    EXPECT(of_total(1e9, 1002305238, 1) == 0 && is_decibels(1));
    EXPECT(of_total(1e9, 1002305237, 1) == 0 && is_decibels(0));
    EXPECT(of_total(two_to_53, most, 4095) == 0 && is_decibels(4515));
    EXPECT(of_total(two_to_53 + 2, most, 4095) == FUAVELINO_RECORD && is_soiled());
    EXPECT(of_total(1, most + 1, 4095) == FUAVELINO_RECORD && is_soiled());
    EXPECT(of_total(0, 0, 255) == FUAVELINO_RECORD && is_soiled());
    EXPECT(of_total(25, 3, 254) == FUAVELINO_RECORD && is_soiled());
    EXPECT(of_total(25, 3, 8191) == FUAVELINO_RECORD && is_soiled());
    EXPECT(of_total(3 * 65025.0, 3, 255) == 0 && is_decibels(0));
    EXPECT(of_total(3 * 65025.0 + 1, 3, 255) == FUAVELINO_RECORD && is_soiled());
    EXPECT(of_total(0.5, 3, 255) == FUAVELINO_RECORD && is_soiled());
    EXPECT(of_total(-0.0, 3, 255) == FUAVELINO_RECORD && is_soiled());
    EXPECT(of_total(NAN, 3, 255) == FUAVELINO_RECORD && is_soiled());
}

/* Whether the first `clear` of the places are 0 and the others still 5. */
static int cleared(const int64_t *places, size_t count, size_t clear) {
    size_t i;
    for (i = 0; i < count; i++) {
        if (places[i] != (i < clear ? 0 : 5)) return 0;
    }
    return 1;
}

static int roomed(const uint32_t *places, size_t count, size_t clear) {
    size_t i;
    for (i = 0; i < count; i++) {
        if (places[i] != (i < clear ? 0 : 5)) return 0;
    }
    return 1;
}

/* What SSIM with three taps and MS-SSIM need, and some more. */
enum { SSIM_NEED = 6 * WIDTH * 4, SCALES_NEED = 96 * WIDTH, ROOM_NEED = WIDTH * HEIGHT, MORE = 11 };

static int64_t scratch[SCALES_NEED + MORE];
static uint32_t a32[ROOM_NEED + MORE], b32[ROOM_NEED + MORE];

static void soil(void) {
    size_t i;
    for (i = 0; i < COUNT(scratch); i++) scratch[i] = 5;
    for (i = 0; i < COUNT(a32); i++) a32[i] = b32[i] = 5;
}

/* The places at the ends of what is taken, and past them. */
static void places(void) {
    EXPECT(PLACES(fuavelino_ssim_places, (WIDTH, 3)) == SSIM_NEED);
    EXPECT(PLACES(fuavelino_ssim_places, (1, 1)) == 6 && PLACES(fuavelino_ssim_places, (MOST, 255)) == 6 * MOST * 256);
    EXPECT(PLACES(fuavelino_ssim_places, (0, 3)) == 0 && PLACES(fuavelino_ssim_places, (MOST + 1, 3)) == 0);
    EXPECT(PLACES(fuavelino_ssim_places, (WIDTH, 0)) == 0 && PLACES(fuavelino_ssim_places, (WIDTH, 256)) == 0);
    EXPECT(PLACES(fuavelino_ssim_places, (SIZE_MAX, SIZE_MAX)) == 0);
    EXPECT(PLACES(fuavelino_msssim_places, (WIDTH)) == SCALES_NEED);
    EXPECT(PLACES(fuavelino_msssim_places, (16)) == 96 * 16 && PLACES(fuavelino_msssim_places, (MOST)) == 96 * MOST);
    EXPECT(PLACES(fuavelino_msssim_places, (15)) == 0 && PLACES(fuavelino_msssim_places, (MOST + 1)) == 0);
    EXPECT(PLACES(fuavelino_error_map_places, (WIDTH, HEIGHT)) == TILES && PLACES(fuavelino_error_map_places, (1, 1)) == 1);
    EXPECT(PLACES(fuavelino_error_map_places, (8, 9)) == 2 && PLACES(fuavelino_error_map_places, (9, 8)) == 2);
    EXPECT(PLACES(fuavelino_error_map_places, (MOST, MOST)) == MOST / 8 * (MOST / 8));
    EXPECT(PLACES(fuavelino_error_map_places, (0, 8)) == 0 && PLACES(fuavelino_error_map_places, (8, 0)) == 0);
    EXPECT(PLACES(fuavelino_error_map_places, (MOST + 1, 8)) == 0 && PLACES(fuavelino_error_map_places, (8, SIZE_MAX)) == 0);
    EXPECT(PLACES(fuavelino_msssim_samples, (WIDTH, HEIGHT)) == ROOM_NEED);
    EXPECT(PLACES(fuavelino_msssim_samples, (MOST, MOST)) == MOST * MOST);
    EXPECT(PLACES(fuavelino_msssim_samples, (15, 16)) == 0 && PLACES(fuavelino_msssim_samples, (16, 15)) == 0);
    EXPECT(PLACES(fuavelino_msssim_samples, (16, MOST + 1)) == 0 && PLACES(fuavelino_msssim_samples, (SIZE_MAX, SIZE_MAX)) == 0);
}

static int all_taps(size_t count, const uint16_t *taps, const uint16_t *known, size_t known_count) {
    return count == known_count && memcmp(taps, known, count * sizeof taps[0]) == 0;
}

/* Whether the places from this one on hold what was put there before the call. */
static int untouched(const uint16_t *taps, size_t places, size_t from) {
    while (from < places && taps[from] == 999) from++;
    return from == places;
}

/* The chart's kernel with exactly its places and with more, then refused: one place short, and none. */
static void charted(size_t height, const uint16_t *known, size_t known_count) {
    uint16_t taps[FUAVELINO_MOST_TAPS], built[FUAVELINO_MOST_TAPS];
    size_t i, count = 77;
    for (i = 0; i < COUNT(taps); i++) taps[i] = 999;
    EXPECT(CALL(fuavelino_kernel, (height, taps, known_count - 1, &count)) == FUAVELINO_SCRATCH);
    EXPECT(CALL(fuavelino_kernel, (height, taps, 0, &count)) == FUAVELINO_SCRATCH);
    EXPECT(fuavelino_gaussian_kernel(height, height, taps, known_count - 1) == 0);
    EXPECT(count == 77 && untouched(taps, COUNT(taps), 0));
    EXPECT(CALL(fuavelino_kernel, (height, taps, known_count, &count)) == 0);
    EXPECT(all_taps(count, taps, known, known_count) && untouched(taps, COUNT(taps), known_count));
    for (i = 0; i < COUNT(taps); i++) taps[i] = 999;
    count = 77;
    EXPECT(CALL(fuavelino_kernel, (height, taps, COUNT(taps), &count)) == 0);
    EXPECT(all_taps(count, taps, known, known_count) && untouched(taps, COUNT(taps), known_count));
    EXPECT(all_taps(fuavelino_gaussian_kernel(height, height, built, COUNT(built)), built, known, known_count));
    EXPECT(all_taps(fuavelino_gaussian_kernel(MOST, height, built, known_count), built, known, known_count));
}

/* Each listed height, with its count of taps; the oracle compares the taps of them all with av-metrics'. */
static void chart(void) {
    static const uint16_t of_144[] = {7, 60, 122, 60, 7}, of_180[] = {2, 16, 62, 96, 62, 16, 2};
    static const uint16_t of_405[] = {1, 2, 5, 10, 19, 30, 39, 44, 39, 30, 19, 10, 5, 2, 1};
    static const size_t listed[] = {144, 180, 240, 270, 288, 360, 405, 480, 540, 576, 720, 1080, 1440, 2160};
    static const size_t counts[] = {5, 7, 9, 9, 11, 13, 15, 17, 19, 19, 23, 33, 43, 59};
    /* with the low bits of listed ones, too */
    static const size_t huge[] = {65536 + 144, SIZE_MAX / 2 + 1 + 144, SIZE_MAX - 1, SIZE_MAX};
    uint16_t taps[FUAVELINO_MOST_TAPS], own[FUAVELINO_MOST_TAPS];
    size_t i, height, count = 77, own_count = 0, next = 0;
    charted(144, of_144, COUNT(of_144)), charted(180, of_180, COUNT(of_180)), charted(405, of_405, COUNT(of_405));
    for (i = 0; i < COUNT(taps); i++) taps[i] = 999;
    for (height = 0; height <= MOST + 1; height++) {
        if (next < COUNT(listed) && height == listed[next]) {
            EXPECT(CALL(fuavelino_kernel, (height, own, COUNT(own), &own_count)) == 0 && own_count == counts[next]);
            next++;
            continue;
        }
        EXPECT(CALL(fuavelino_kernel, (height, taps, COUNT(taps), &count)) == FUAVELINO_HEIGHT);
        EXPECT(CALL(fuavelino_kernel, (height, taps, 0, &count)) == FUAVELINO_HEIGHT);
    }
    for (i = 0; i < COUNT(huge); i++) EXPECT(CALL(fuavelino_kernel, (huge[i], taps, COUNT(taps), &count)) == FUAVELINO_HEIGHT);
    EXPECT(next == COUNT(listed) && count == 77 && untouched(taps, COUNT(taps), 0));
}

/* Kernels of av-metrics, whole and cut short by a narrow plane. */
static void kernels(void) {
    static const uint16_t of_640_by_360[] = {1, 3, 8, 18, 31, 43, 48, 43, 31, 18, 8, 3, 1}, of_5_by_1080[] = {13, 14, 15, 16, 140, 16, 15, 14, 13}, of_one[] = {256};
    uint16_t taps[FUAVELINO_MOST_TAPS];
    size_t side, longest = 0;
    EXPECT(all_taps(fuavelino_gaussian_kernel(640, 360, taps, COUNT(taps)), taps, of_640_by_360, COUNT(of_640_by_360)));
    EXPECT(all_taps(fuavelino_gaussian_kernel(5, 1080, taps, COUNT(taps)), taps, of_5_by_1080, COUNT(of_5_by_1080)));
    EXPECT(all_taps(fuavelino_gaussian_kernel(1, 1080, taps, COUNT(taps)), taps, of_one, COUNT(of_one)));
    EXPECT(fuavelino_gaussian_kernel(640, 360, taps, COUNT(of_640_by_360) - 1) == 0);
    EXPECT(fuavelino_gaussian_kernel(0, 360, taps, COUNT(taps)) == 0 && fuavelino_gaussian_kernel(640, 0, taps, COUNT(taps)) == 0);
    EXPECT(fuavelino_gaussian_kernel(MOST + 1, 8, taps, COUNT(taps)) == 0 && fuavelino_gaussian_kernel(8, MOST + 1, taps, COUNT(taps)) == 0);
    for (side = 1; side <= MOST; side++) {
        static const uint8_t sample[] = {7};
        static int64_t room[6 * 256];
        double s, c;
        const size_t count = fuavelino_gaussian_kernel(side, side, taps, COUNT(taps));
        if (count > longest) longest = count;
        EXPECT(fuavelino_ssim8(sample, 1, sample, 1, 1, 1, 1, 1, 8, taps, count, room, COUNT(room), &s, &c) == 0);
    }
    EXPECT(longest == 235);
}

static void ssim(void) {
    static const uint16_t kernel[] = {64, 128, 64}, unlawful[] = {128, 0, 128};
    double s = -7.25, c = -8.5;
    soil();
    EXPECT(CALL(fuavelino_ssim8, (BYTES(WIDTH, HEIGHT, 8), unlawful, 3, scratch, SSIM_NEED, &s, &c)) == FUAVELINO_KERNEL);
    EXPECT(CALL(fuavelino_ssim8, (BYTES(WIDTH, HEIGHT, 8), kernel, 3, scratch, SSIM_NEED - 1, &s, &c)) == FUAVELINO_SCRATCH);
    EXPECT(CALL(fuavelino_ssim16, (WORDS(WIDTH, HEIGHT, 10), kernel, 2, scratch, SSIM_NEED, &s, &c)) == FUAVELINO_KERNEL);
    EXPECT(CALL(fuavelino_ssim16, (WORDS(WIDTH, HEIGHT, 9), kernel, 3, scratch, SSIM_NEED, &s, &c)) == FUAVELINO_SAMPLE);
    EXPECT(s == -7.25 && c == -8.5 && cleared(scratch, COUNT(scratch), 0));
    EXPECT(CALL(fuavelino_ssim8, (BYTES(WIDTH, HEIGHT, 8), kernel, 3, scratch, SSIM_NEED, &s, &c)) == 0);
    EXPECT(has_bits(s, UINT64_C(0x3FEFF78A02083DE3)) && has_bits(c, UINT64_C(0x3FEFF7ED88E78F48)));
    EXPECT(cleared(scratch, COUNT(scratch), SSIM_NEED));
    soil();
    EXPECT(CALL(fuavelino_ssim16, (WORDS(WIDTH, HEIGHT, 10), kernel, 3, scratch, COUNT(scratch), &s, &c)) == 0);
    EXPECT(has_bits(s, UINT64_C(0x3FEFFF6129B42DC1)) && has_bits(c, UINT64_C(0x3FEFFF67A51F64F9)));
    EXPECT(cleared(scratch, COUNT(scratch), SSIM_NEED));
}

static const uint16_t bell[] = {64, 128, 64};

/* What SSIM of the pictures says under a kernel, of bytes and of words, and both pairs: the same by both engines, bit for bit. */
struct under {
    uint8_t bytes, words;
    double pairs[4];
};

static int64_t long_scratch[6 * WIDTH * 256];

static struct under under(const uint16_t *kernel, size_t taps) {
    struct under said = {77, 77, {-7.25, -8.5, -7.25, -8.5}};
    double *p = said.pairs, plain[] = {-7.25, -8.5, -7.25, -8.5};
    said.bytes = CALL(fuavelino_ssim8, (BYTES(WIDTH, HEIGHT, 8), kernel, taps, long_scratch, COUNT(long_scratch), &p[0], &p[1]));
    said.words = CALL(fuavelino_ssim16, (WORDS(WIDTH, HEIGHT, 10), kernel, taps, long_scratch, COUNT(long_scratch), &p[2], &p[3]));
    EXPECT(CALL(fuavelino_plain_ssim8, (BYTES(WIDTH, HEIGHT, 8), kernel, taps, &plain[0], &plain[1])) == said.bytes);
    EXPECT(CALL(fuavelino_plain_ssim16, (WORDS(WIDTH, HEIGHT, 10), kernel, taps, &plain[2], &plain[3])) == said.words);
    EXPECT(memcmp(plain, p, sizeof plain) == 0);
    return said;
}

static int taken(const uint16_t *kernel, size_t taps) {
    const struct under said = under(kernel, taps);
    return said.bytes == 0 && said.words == 0;
}

/* Refused with 7, and nothing written. */
static int refused(const uint16_t *kernel, size_t taps) {
    struct under said;
    size_t i;
    for (i = 0; i < COUNT(long_scratch); i++) long_scratch[i] = 5;
    said = under(kernel, taps);
    if (said.bytes != FUAVELINO_KERNEL || said.words != FUAVELINO_KERNEL || !cleared(long_scratch, COUNT(long_scratch), 0)) return 0;
    return said.pairs[0] == -7.25 && said.pairs[1] == -8.5 && said.pairs[2] == -7.25 && said.pairs[3] == -8.5;
}

/* Whether the kernel is refused, and taken with so many taps left off at each end, with the scores of the one that is left. */
static int mended(const uint16_t *kernel, size_t taps, size_t idle, const uint16_t *rest, size_t rest_taps) {
    struct under said, known;
    if (!refused(kernel, taps) || fuavelino_idle_taps(kernel, taps) != idle || taps != rest_taps + 2 * idle) return 0;
    said = under(kernel + idle, taps - 2 * idle), known = under(rest, rest_taps);
    return said.bytes == 0 && said.words == 0 && memcmp(said.pairs, known.pairs, sizeof known.pairs) == 0;
}

/* Kernels that end in 0 and those that do not, up to the most taps and past them. */
static void idle_ends(void) {
    static const uint16_t one[] = {256}, three[] = {1, 254, 1}, within[] = {1, 0, 254, 0, 1};
    static const uint16_t idle[] = {0, 256, 0}, padded[] = {0, 64, 128, 64, 0}, twice[] = {0, 0, 1, 0, 254, 0, 1, 0, 0};
    static const uint16_t hollow[] = {128, 0, 128}, left[] = {0, 255, 1}, right[] = {1, 255, 0}, zeros[9] = {0};
    static const uint16_t uneven[] = {0, 0, 255, 1, 0}, turned[] = {0, 1, 255, 0, 0};
    uint16_t most[FUAVELINO_MOST_TAPS + 2] = {0};
    double s = -7.25, c = -8.5;
    size_t i;
    EXPECT(taken(one, 1) && taken(three, 3) && taken(within, 5) && taken(bell, 3));
    EXPECT(refused(hollow, 3) && refused(left, 3) && refused(right, 3) && refused(padded, 4) && refused(zeros, 3));
    /* 6 comes before it, and it before 8 */
    EXPECT(CALL(fuavelino_ssim16, (WORDS(WIDTH, HEIGHT, 9), idle, 3, long_scratch, 0, &s, &c)) == FUAVELINO_SAMPLE);
    EXPECT(CALL(fuavelino_ssim16, (WORDS(WIDTH, HEIGHT, 10), idle, 3, long_scratch, 0, &s, &c)) == FUAVELINO_KERNEL && s == -7.25 && c == -8.5);
    EXPECT(mended(idle, 3, 1, one, 1) && mended(padded, 5, 1, bell, 3) && mended(twice, 9, 2, within, 5));
    EXPECT(fuavelino_idle_taps(hollow, 3) == 0 && fuavelino_idle_taps(left, 3) == 0 && fuavelino_idle_taps(right, 3) == 0);
    EXPECT(fuavelino_idle_taps(one, 1) == 0 && fuavelino_idle_taps(within, 5) == 0 && fuavelino_idle_taps(padded, 4) == 0);
    EXPECT(refused(uneven, 5) && fuavelino_idle_taps(uneven, 5) == 1 && refused(turned, 5) && fuavelino_idle_taps(turned, 5) == 1);
    /* of zeros alone one is left, or two of an even count */
    for (i = 0; i <= COUNT(zeros); i++) EXPECT(fuavelino_idle_taps(zeros, i) == (i < 3 ? 0 : (i - 1) / 2));
    /* three taps in the middle of 255 and of 257, then as many as can be that are not 0 */
    most[127] = most[129] = 1, most[128] = 254;
    EXPECT(mended(most + 1, 255, 126, three, 3) && mended(most, 257, 127, three, 3));
    most[1] = most[255] = 1, most[128] = 252;
    EXPECT(taken(most + 1, 255) && mended(most, 257, 1, most + 1, 255));
    for (i = 1; i <= 255; i++) most[i] = i == 128 ? 2 : 1;
    EXPECT(taken(most + 1, 255) && mended(most, 257, 1, most + 1, 255));
    most[1] = most[255] = 0, most[128] = 4;
    EXPECT(mended(most + 1, 255, 1, most + 2, 253));
}

/* The state of rows that are fed lies in memory as the Rust package has it. */
LAID_OUT(sizeof(fuavelino_rows) == 584);
LAID_OUT(offsetof(fuavelino_rows, numbers) == 0);
LAID_OUT(offsetof(fuavelino_rows, kernel) == 48);
LAID_OUT(offsetof(fuavelino_rows, sums) == 560);

static fuavelino_rows state;

/* Either sample width by its number, bytes 0 and words 1: begun in so many places of scratch; so many rows of the pictures from one on, from HEIGHT on
 * no samples. */
static uint8_t begin(int wide, size_t places) {
    if (wide) return CALL(fuavelino_rows_begin16, (WIDTH, HEIGHT, 10, bell, 3, scratch, places, FUAVELINO_ROWS(state)));
    return CALL(fuavelino_rows_begin8, (WIDTH, HEIGHT, 8, bell, 3, scratch, places, FUAVELINO_ROWS(state)));
}

static uint8_t feed(int wide, size_t from, size_t rows, size_t stride, size_t places) {
    const size_t at = from < HEIGHT ? from * STRIDE : 0, len = from < HEIGHT ? LEN - at : 0;
    if (wide) return CALL(fuavelino_rows_feed16, (a16 + at, len, b16 + at, len, stride, STRIDE, rows, scratch, places, FUAVELINO_ROWS(state)));
    return CALL(fuavelino_rows_feed8, (a8 + at, len, b8 + at, len, STRIDE, stride, rows, scratch, places, FUAVELINO_ROWS(state)));
}

static uint8_t finish(double *s, double *c, size_t places) {
    return CALL(fuavelino_rows_finish, (scratch, places, FUAVELINO_ROWS(state), s, c));
}

/* Whether the state tells so many rows received, and those scored that one more has followed. */
static int counted(uint64_t received) {
    const uint64_t scored = received == HEIGHT ? HEIGHT : received > 0 ? received - 1 : 0;
    return state.numbers[4] == received && state.numbers[5] == scored;
}

/* Whether state and scratch are still these. */
static int unchanged(const fuavelino_rows *r, const int64_t *places) {
    return memcmp(&state, r, sizeof state) == 0 && memcmp(scratch, places, sizeof scratch) == 0;
}

/* The known pair of the pictures, as it is of whole planes. */
static int is_pair(int wide, double s, double c) {
    if (wide) return has_bits(s, UINT64_C(0x3FEFFF6129B42DC1)) && has_bits(c, UINT64_C(0x3FEFFF67A51F64F9));
    return has_bits(s, UINT64_C(0x3FEFF78A02083DE3)) && has_bits(c, UINT64_C(0x3FEFF7ED88E78F48));
}

/* The plain engine: the known pairs, also under unlike strides; each refusal but 8, and nothing written. */
static void plain(void) {
    static const uint16_t idle[] = {0, 256, 0};
    static uint8_t rows[WIDTH * HEIGHT];
    double s = -7.25, c = -8.5;
    size_t y;
    EXPECT(CALL(fuavelino_plain_ssim8, (BYTES(0, HEIGHT, 9), idle, 3, &s, &c)) == FUAVELINO_DEPTH);
    EXPECT(CALL(fuavelino_plain_ssim16, (WORDS(WIDTH, HEIGHT, 8), bell, 3, &s, &c)) == FUAVELINO_DEPTH);
    EXPECT(CALL(fuavelino_plain_ssim8, (BYTES(WIDTH, MOST + 1, 8), idle, 3, &s, &c)) == FUAVELINO_SIZE);
    EXPECT(CALL(fuavelino_plain_ssim16, (WORDS(SIZE_MAX, HEIGHT, 10), bell, 3, &s, &c)) == FUAVELINO_SIZE);
    EXPECT(CALL(fuavelino_plain_ssim8, (BYTES(STRIDE + 1, HEIGHT, 8), idle, 3, &s, &c)) == FUAVELINO_STRIDE);
    EXPECT(CALL(fuavelino_plain_ssim16, (a16, LEN, b16, LEN, WIDTH, 1, STRIDE, FUAVELINO_MOST_STRIDE + 1, 10, bell, 3, &s, &c)) == FUAVELINO_STRIDE);
    EXPECT(CALL(fuavelino_plain_ssim8, (BYTES(WIDTH, HEIGHT + 1, 8), idle, 3, &s, &c)) == FUAVELINO_SHORT);
    EXPECT(CALL(fuavelino_plain_ssim16, (a16, LEN, b16, LEN - 1, WIDTH, HEIGHT, STRIDE, STRIDE, 10, bell, 3, &s, &c)) == FUAVELINO_SHORT);
    EXPECT(CALL(fuavelino_plain_ssim8, (BYTES(WIDTH, HEIGHT, 7), idle, 3, &s, &c)) == FUAVELINO_SAMPLE);
    EXPECT(CALL(fuavelino_plain_ssim16, (WORDS(WIDTH, HEIGHT, 9), bell, 3, &s, &c)) == FUAVELINO_SAMPLE);
    EXPECT(CALL(fuavelino_plain_ssim8, (BYTES(WIDTH, HEIGHT, 8), idle, 3, &s, &c)) == FUAVELINO_KERNEL);
    EXPECT(CALL(fuavelino_plain_ssim16, (WORDS(WIDTH, HEIGHT, 10), bell, 2, &s, &c)) == FUAVELINO_KERNEL);
    EXPECT(CALL(fuavelino_plain_ssim16, (WORDS(WIDTH, HEIGHT, 10), bell, 0, &s, &c)) == FUAVELINO_KERNEL);
    EXPECT(s == -7.25 && c == -8.5);
    EXPECT(CALL(fuavelino_plain_ssim8, (BYTES(WIDTH, HEIGHT, 8), bell, 3, &s, &c)) == 0 && is_pair(0, s, c));
    EXPECT(CALL(fuavelino_plain_ssim16, (WORDS(WIDTH, HEIGHT, 10), bell, 3, &s, &c)) == 0 && is_pair(1, s, c));
    for (y = 0; y < HEIGHT; y++) memcpy(rows + y * WIDTH, a8 + y * STRIDE, WIDTH);
    EXPECT(CALL(fuavelino_plain_ssim8, (rows, sizeof rows, b8, LEN, WIDTH, HEIGHT, WIDTH, STRIDE, 8, bell, 3, &s, &c)) == 0 && is_pair(0, s, c));
}

/* Of a dark plane and a bright one the order shows in the bits: both engines show it alike. */
static void plain_in_order(void) {
    static const uint16_t dark[] = {446, 365, 387, 310, 377, 468, 163, 13, 475}, bright[] = {3990, 3661, 3696, 3680, 3931, 3646, 3967, 3955, 3632};
    static const uint16_t flat[] = {85, 86, 85};
    double p[4], known[4];
    EXPECT(CALL(fuavelino_ssim16, (dark, 9, bright, 9, 3, 3, 3, 3, 12, flat, 3, scratch, COUNT(scratch), &known[0], &known[1])) == 0);
    EXPECT(CALL(fuavelino_ssim16, (bright, 9, dark, 9, 3, 3, 3, 3, 12, flat, 3, scratch, COUNT(scratch), &known[2], &known[3])) == 0);
    EXPECT(CALL(fuavelino_plain_ssim16, (dark, 9, bright, 9, 3, 3, 3, 3, 12, flat, 3, &p[0], &p[1])) == 0);
    EXPECT(CALL(fuavelino_plain_ssim16, (bright, 9, dark, 9, 3, 3, 3, 3, 12, flat, 3, &p[2], &p[3])) == 0);
    EXPECT(memcmp(p, known, sizeof p) == 0 && memcmp(p, p + 2, 2 * sizeof p[0]) != 0);
}

/* A row and a column as long as can be, under as many taps. Both have one pair, and the column's is known by the other engine, which wants little scratch
 * for it, but for the row the most that it ever wants. */
static void plain_at_the_limits(void) {
    static uint8_t x[FUAVELINO_MOST_SIDE], y[FUAVELINO_MOST_SIDE];
    static int64_t room[6 * 256];
    uint16_t taps[FUAVELINO_MOST_TAPS];
    double row[] = {-7.25, -8.5}, column[] = {-7.25, -8.5}, known[2];
    size_t i;
    for (i = 0; i < COUNT(taps); i++) taps[i] = i == FUAVELINO_MOST_TAPS / 2 ? 2 : 1;
    for (i = 0; i < MOST; i++) x[i] = (uint8_t)(i * i % 251), y[i] = (uint8_t)(x[i] ^ i % 7);
    EXPECT(CALL(fuavelino_ssim8, (x, MOST, y, MOST, 1, MOST, 1, 1, 8, taps, COUNT(taps), room, COUNT(room), &known[0], &known[1])) == 0);
    EXPECT(CALL(fuavelino_plain_ssim8, (x, MOST, y, MOST, 1, MOST, 1, 1, 8, taps, COUNT(taps), &column[0], &column[1])) == 0);
    EXPECT(CALL(fuavelino_plain_ssim8, (x, MOST, y, MOST, MOST, 1, MOST, MOST, 8, taps, COUNT(taps), &row[0], &row[1])) == 0);
    EXPECT(memcmp(column, known, sizeof known) == 0 && memcmp(row, known, sizeof known) == 0);
}

/* Bands of each size, with none between them: the pair is the whole's. Scratch past the need is kept, and a finished state gives its pair again. */
static void bands(void) {
    size_t band, from, rows;
    int wide;
    for (wide = 0; wide < 2; wide++) {
        for (band = 1; band <= HEIGHT; band++) {
            double s = -7.25, c = -8.5;
            soil(), memset(&state, 0xA5, sizeof state);
            EXPECT(begin(wide, COUNT(scratch)) == 0 && counted(0) && cleared(scratch, COUNT(scratch), SSIM_NEED));
            for (from = 0; from < HEIGHT; from += rows) {
                rows = band < HEIGHT - from ? band : HEIGHT - from;
                EXPECT(feed(wide, from, rows, STRIDE, COUNT(scratch)) == 0 && counted(from + rows));
                EXPECT(feed(wide, HEIGHT, 0, WIDTH, SSIM_NEED) == 0 && counted(from + rows));
                EXPECT(cleared(scratch + SSIM_NEED, COUNT(scratch) - SSIM_NEED, 0));
            }
            EXPECT(finish(&s, &c, COUNT(scratch)) == 0 && is_pair(wide, s, c) && cleared(scratch, COUNT(scratch), SSIM_NEED));
            s = c = 0;
            EXPECT(finish(&s, &c, SSIM_NEED) == 0 && is_pair(wide, s, c) && counted(HEIGHT));
        }
    }
}

/* The next band of a frame that comes in six rows at a time; the first picture without its padding. */
static uint8_t packed[WIDTH * HEIGHT];
static size_t next_row;

static size_t next_band(const uint8_t **a, const uint8_t **b) {
    const size_t from = next_row, left = HEIGHT - from, rows = left < 6 ? left : 6;
    size_t y;
    for (y = from; y < from + rows; y++) memcpy(packed + y * WIDTH, a8 + y * STRIDE, WIDTH);
    *a = packed + from * WIDTH, *b = b8 + from * STRIDE;
    next_row = rows < left ? from + rows : 0;
    return rows;
}

/* A clip as the header has it: each frame in bands, with one state and one scratch. */
static void clip(void) {
    const size_t width = WIDTH, height = HEIGHT, stride_a = WIDTH, stride_b = STRIDE, taps = 3, places = fuavelino_ssim_places(width, taps);
    const uint16_t *kernel = bell;
    const uint8_t *a, *b;
    size_t frame, rows;
    soil();
    for (frame = 0; frame < 3; frame++) {
        double ssim = -7.25, cs = -8.5;
        fuavelino_rows r;
        uint8_t no = fuavelino_rows_begin8(width, height, 8, kernel, taps, scratch, places, FUAVELINO_ROWS(r));
        while (no == 0 && r.numbers[4] < height) {
            rows = next_band(&a, &b);
            no = fuavelino_rows_feed8(a, rows * stride_a, b, (rows - 1) * stride_b + width, stride_a, stride_b, rows, scratch, places, FUAVELINO_ROWS(r));
        }
        if (no == 0) no = fuavelino_rows_finish(scratch, places, FUAVELINO_ROWS(r), &ssim, &cs);
        EXPECT(no == 0 && is_pair(0, ssim, cs));
    }
}

/* Begin refuses the lowest of 1 2 7 8, and leaves state and scratch as they were. */
static void refused_begins(void) {
    static const uint16_t idle[] = {0, 256, 0};
    static int64_t places[COUNT(scratch)];
    fuavelino_rows before;
    soil(), memset(&state, 0xA5, sizeof state);
    memcpy(&before, &state, sizeof before), memcpy(places, scratch, sizeof places);
    EXPECT(CALL(fuavelino_rows_begin8, (0, HEIGHT, 9, idle, 3, scratch, 0, FUAVELINO_ROWS(state))) == FUAVELINO_DEPTH);
    EXPECT(CALL(fuavelino_rows_begin16, (WIDTH, HEIGHT, 8, bell, 3, scratch, SSIM_NEED, FUAVELINO_ROWS(state))) == FUAVELINO_DEPTH);
    EXPECT(CALL(fuavelino_rows_begin8, (WIDTH, MOST + 1, 8, idle, 3, scratch, 0, FUAVELINO_ROWS(state))) == FUAVELINO_SIZE);
    EXPECT(CALL(fuavelino_rows_begin16, (SIZE_MAX, HEIGHT, 10, bell, 3, scratch, SSIM_NEED, FUAVELINO_ROWS(state))) == FUAVELINO_SIZE);
    EXPECT(CALL(fuavelino_rows_begin8, (WIDTH, HEIGHT, 8, idle, 3, scratch, 0, FUAVELINO_ROWS(state))) == FUAVELINO_KERNEL);
    EXPECT(CALL(fuavelino_rows_begin16, (WIDTH, HEIGHT, 10, bell, 2, scratch, SSIM_NEED, FUAVELINO_ROWS(state))) == FUAVELINO_KERNEL);
    EXPECT(begin(0, SSIM_NEED - 1) == FUAVELINO_SCRATCH && begin(1, 0) == FUAVELINO_SCRATCH);
    EXPECT(unchanged(&before, places));
}

/* Between rows that are taken: feeds and finishes that are refused, by the lowest of 4 5 6 8, then 15, and change nothing. */
static void refused_feeds(void) {
    static int64_t places[COUNT(scratch)];
    double s = -7.25, c = -8.5;
    fuavelino_rows before;
    size_t from;
    int wide;
    for (wide = 0; wide < 2; wide++) {
        soil();
        EXPECT(begin(wide, SSIM_NEED) == 0);
        for (from = 0; from < HEIGHT; from++) {
            memcpy(&before, &state, sizeof before), memcpy(places, scratch, sizeof places);
            EXPECT(feed(wide, from, SIZE_MAX, WIDTH - 1, 0) == FUAVELINO_STRIDE && feed(wide, HEIGHT, 0, FUAVELINO_MOST_STRIDE + 1, 0) == FUAVELINO_STRIDE);
            EXPECT(feed(wide, from, HEIGHT - from + 1, STRIDE, 0) == FUAVELINO_SHORT && feed(wide, 0, SIZE_MAX, STRIDE, 0) == FUAVELINO_SHORT);
            /* so many rows that, times the stride, 64 bits hold a little of them */
            EXPECT(feed(wide, 0, SIZE_MAX / STRIDE + 2, STRIDE, 0) == FUAVELINO_SHORT && feed(wide, HEIGHT, 1, STRIDE, SSIM_NEED) == FUAVELINO_SHORT);
            EXPECT(feed(wide, 0, HEIGHT, STRIDE, SSIM_NEED - 1) == FUAVELINO_SCRATCH && feed(wide, HEIGHT, 0, STRIDE, 0) == FUAVELINO_SCRATCH);
            if (from > 0) EXPECT(feed(wide, 0, HEIGHT - from + 1, STRIDE, SSIM_NEED) == FUAVELINO_STATE);
            /* a sample too bright, in rows past the height too */
            b16[LEN - 1] ^= 1024;
            if (wide) EXPECT(feed(wide, 0, HEIGHT, STRIDE, 0) == FUAVELINO_SAMPLE);
            b16[LEN - 1] ^= 1024;
            EXPECT(finish(&s, &c, SSIM_NEED - 1) == FUAVELINO_SCRATCH && finish(&s, &c, SSIM_NEED) == FUAVELINO_STATE);
            EXPECT(unchanged(&before, places) && s == -7.25 && c == -8.5);
            EXPECT(feed(wide, from, 1, STRIDE, SSIM_NEED) == 0);
        }
        EXPECT(feed(wide, 0, 1, STRIDE, SSIM_NEED) == FUAVELINO_STATE);
        EXPECT(finish(&s, &c, SSIM_NEED) == 0 && is_pair(wide, s, c));
        s = -7.25, c = -8.5, state.sums[2] = 0, soil();
        EXPECT(finish(&s, &c, COUNT(scratch)) == FUAVELINO_NOT_FINITE && s == -7.25 && c == -8.5 && cleared(scratch, COUNT(scratch), SSIM_NEED));
    }
}

/* Whether feeds of both kinds and a finish, with nothing right beside it, refuse the state with 15, and change nothing. */
static int is_impossible(void) {
    static int64_t places[COUNT(scratch)];
    double s = -7.25, c = -8.5;
    fuavelino_rows before;
    int wide, told = 1;
    memcpy(&before, &state, sizeof before), memcpy(places, scratch, sizeof places);
    for (wide = 0; wide < 2; wide++) {
        told = told && feed(wide, HEIGHT, SIZE_MAX, 0, 0) == FUAVELINO_STATE && feed(wide, HEIGHT, 0, STRIDE, SSIM_NEED) == FUAVELINO_STATE;
        told = told && feed(wide, 4, 1, STRIDE, SSIM_NEED) == FUAVELINO_STATE;
    }
    told = told && finish(&s, &c, 0) == FUAVELINO_STATE && finish(&s, &c, SSIM_NEED) == FUAVELINO_STATE;
    return told && s == -7.25 && c == -8.5 && unchanged(&before, places);
}

/* Four rows were fed; then each number with a bit above the 32nd, or past what it may be, each tap and each place behind them one off. */
static void impossible(void) {
    static const uint64_t wrong[][4] = {{0, MOST + 1, 1 << 20, UINT64_MAX}, {0, 3, MOST + 1, UINT64_MAX}, {0, 13, 64, 255},
                                        {0, 2, 4, 256},                     {3, 5, HEIGHT, HEIGHT + 1},   {0, 2, 4, HEIGHT}};
    double s = -7.25, c = -8.5;
    fuavelino_rows kept;
    size_t i, j;
    int wide;
    for (wide = 0; wide < 2; wide++) {
        soil();
        EXPECT(begin(wide, SSIM_NEED) == 0 && feed(wide, 0, 4, STRIDE, SSIM_NEED) == 0);
        memcpy(&kept, &state, sizeof kept);
        for (i = 0; i < COUNT(state.numbers); i++) {
            state.numbers[i] = kept.numbers[i] | UINT64_C(1) << 32;
            EXPECT(is_impossible());
            for (j = 0; j < COUNT(wrong[i]); j++) {
                state.numbers[i] = wrong[i][j];
                EXPECT(is_impossible());
            }
            state.numbers[i] = kept.numbers[i];
        }
        for (i = 0; i < COUNT(state.kernel); i++) {
            state.kernel[i]++;
            EXPECT(is_impossible());
            state.kernel[i]--;
        }
        /* of the other sample width, for a feed */
        EXPECT(feed(!wide, 4, 1, 0, 0) == FUAVELINO_STATE);
        EXPECT(feed(wide, 4, HEIGHT - 4, STRIDE, SSIM_NEED) == 0 && finish(&s, &c, SSIM_NEED) == 0 && is_pair(wide, s, c));
    }
    memset(&state, 0, sizeof state);
    EXPECT(is_impossible());
}

/* A place at each end of what is lent stays as it was, whatever the scratch and the sums held: anything may be answered then. */
static void noise(void) {
    static const double odd[] = {NAN, -HUGE_VAL, HUGE_VAL, 1.7e308, -0.0, 5e-324};
    uint64_t numbers[8];
    uint16_t held[FUAVELINO_MOST_TAPS + 2];
    double sums[5], pair[4];
    size_t i, turn;
    uint8_t no;
    for (turn = 0; turn < 60; turn++) {
        memset(numbers, 0xA5, sizeof numbers), memset(held, 0xA5, sizeof held);
        for (i = 0; i < 4; i++) pair[i] = -7.25;
        soil();
        EXPECT(CALL(fuavelino_rows_begin16, (WIDTH, HEIGHT, 10, bell, 3, scratch + 1, SSIM_NEED, numbers + 1, held + 1, sums + 1)) == 0);
        for (i = 0; i < SSIM_NEED; i++) scratch[1 + i] = turn % 3 ? (int64_t)(UINT64_C(0x9E3779B97F4A7C15) * (i + turn)) : turn % 2 ? INT64_MIN : INT64_MAX;
        for (i = 0; i < 5; i++) sums[i] = i % 4 ? odd[(turn + i) % COUNT(odd)] : -7.25;
        EXPECT(CALL(fuavelino_rows_feed16, (a16, LEN, b16, LEN, STRIDE, STRIDE, HEIGHT, scratch + 1, SSIM_NEED, numbers + 1, held + 1, sums + 1)) == 0);
        no = CALL(fuavelino_rows_finish, (scratch + 1, SSIM_NEED, numbers + 1, held + 1, sums + 1, &pair[1], &pair[2]));
        EXPECT(no == FUAVELINO_NOT_FINITE ? pair[1] == -7.25 && pair[2] == -7.25 : no == 0 && isfinite(pair[1]) && isfinite(pair[2]));
        EXPECT(scratch[0] == 5 && cleared(scratch + 1, COUNT(scratch) - 1, SSIM_NEED) && pair[0] == -7.25 && pair[3] == -7.25);
        EXPECT(numbers[0] == UINT64_C(0xA5A5A5A5A5A5A5A5) && numbers[7] == numbers[0] && numbers[5] == HEIGHT && numbers[6] == HEIGHT);
        EXPECT(held[0] == 0xA5A5 && held[FUAVELINO_MOST_TAPS + 1] == 0xA5A5 && memcmp(held + 1, bell, sizeof bell) == 0);
        EXPECT(sums[0] == -7.25 && sums[4] == -7.25);
    }
}

#define LENT(places, a32_places, b32_places) scratch, places, a32, a32_places, b32, b32_places

static int all_soiled(void) {
    return cleared(scratch, COUNT(scratch), 0) && roomed(a32, COUNT(a32), 0) && roomed(b32, COUNT(b32), 0);
}

static int all_cleared(void) {
    int rooms = roomed(a32, COUNT(a32), ROOM_NEED) && roomed(b32, COUNT(b32), ROOM_NEED);
    return rooms && cleared(scratch, COUNT(scratch), SCALES_NEED);
}

static int all_bits(const double *list, const uint64_t *bits) {
    size_t i;
    for (i = 0; i < 10; i++) {
        if (!has_bits(list[i], bits[i])) return 0;
    }
    return 1;
}

static void msssim(void) {
    static const uint64_t bytes[] = {
        UINT64_C(0x3FEFF8E9A9C513D0), UINT64_C(0x3FEFF90BC11092C9), UINT64_C(0x3FEFF57A14CB38E0), UINT64_C(0x3FEFF58BC5363D2A),
        UINT64_C(0x3FEFF6961D5FD685), UINT64_C(0x3FEFF6A2EE87CA21), UINT64_C(0x3FEFFF9EB6A657AF), UINT64_C(0x3FEFFFAAD143E516),
        UINT64_C(0x3FEFFFF5A2A5C5FE), UINT64_C(0x3FF0000000000000)};
    static const uint64_t words[] = {
        UINT64_C(0x3FEFFF938B499AC4), UINT64_C(0x3FEFFF95AC176EC4), UINT64_C(0x3FEFFF67E603CC5E), UINT64_C(0x3FEFFF690973FEA7),
        UINT64_C(0x3FEFFF1D4CAFCA3E), UINT64_C(0x3FEFFF1E1EB78AE9), UINT64_C(0x3FEFFFFA81DC7477), UINT64_C(0x3FEFFFFB4C8928AF),
        UINT64_C(0x3FEFFFFF4C1B48E0), UINT64_C(0x3FF0000000000000)};
    double pairs[10], before[10];
    size_t i;
    for (i = 0; i < 10; i++) pairs[i] = before[i] = -7.25;
    soil();
    EXPECT(CALL(fuavelino_msssim8, (BYTES(WIDTH, 15, 8), LENT(SCALES_NEED, ROOM_NEED, ROOM_NEED), pairs)) == FUAVELINO_SIDE);
    EXPECT(CALL(fuavelino_msssim8, (BYTES(WIDTH, HEIGHT, 8), LENT(SCALES_NEED, ROOM_NEED - 1, ROOM_NEED), pairs)) == FUAVELINO_SCRATCH);
    EXPECT(CALL(fuavelino_msssim16, (WORDS(15, HEIGHT, 10), LENT(SCALES_NEED, ROOM_NEED, ROOM_NEED), pairs)) == FUAVELINO_SIDE);
    EXPECT(CALL(fuavelino_msssim16, (WORDS(WIDTH, HEIGHT, 10), LENT(SCALES_NEED - 1, ROOM_NEED, ROOM_NEED), pairs)) == FUAVELINO_SCRATCH);
    EXPECT(memcmp(pairs, before, sizeof pairs) == 0 && all_soiled());
    EXPECT(CALL(fuavelino_msssim8, (BYTES(WIDTH, HEIGHT, 8), LENT(SCALES_NEED, ROOM_NEED, ROOM_NEED), pairs)) == 0);
    EXPECT(all_bits(pairs, bytes) && all_cleared());
    soil();
    EXPECT(CALL(fuavelino_msssim16, (WORDS(WIDTH, HEIGHT, 10), LENT(SCALES_NEED, ROOM_NEED, ROOM_NEED + 1), pairs)) == 0);
    EXPECT(all_bits(pairs, words) && all_cleared());
}

static void psnr_hvs(void) {
    double score = -7.25;
    EXPECT(CALL(fuavelino_psnr_hvs_y8, (BYTES(7, HEIGHT, 8), &score)) == FUAVELINO_SIDE);
    EXPECT(CALL(fuavelino_psnr_hvs_u8, (BYTES(WIDTH, 7, 8), &score)) == FUAVELINO_SIDE);
    EXPECT(CALL(fuavelino_psnr_hvs_v8, (BYTES(WIDTH, HEIGHT, 0), &score)) == FUAVELINO_DEPTH);
    EXPECT(CALL(fuavelino_psnr_hvs_y16, (WORDS(7, HEIGHT, 10), &score)) == FUAVELINO_SIDE);
    EXPECT(CALL(fuavelino_psnr_hvs_u16, (WORDS(WIDTH, HEIGHT + 1, 10), &score)) == FUAVELINO_SHORT);
    EXPECT(CALL(fuavelino_psnr_hvs_v16, (WORDS(WIDTH, HEIGHT, 9), &score)) == FUAVELINO_SAMPLE);
    EXPECT(score == -7.25);
    /* by their first names */
    EXPECT(fuavelino_psnr_hvs_y_8(BYTES(7, HEIGHT, 8), &score) == FUAVELINO_SIDE && score == -7.25);
    EXPECT(fuavelino_psnr_hvs_u_8(BYTES(7, HEIGHT, 8), &score) == FUAVELINO_SIDE && score == -7.25);
    EXPECT(fuavelino_psnr_hvs_v_8(BYTES(7, HEIGHT, 8), &score) == FUAVELINO_SIDE && score == -7.25);
    EXPECT(fuavelino_psnr_hvs_y_16(WORDS(7, HEIGHT, 10), &score) == FUAVELINO_SIDE && score == -7.25);
    EXPECT(fuavelino_psnr_hvs_u_16(WORDS(7, HEIGHT, 10), &score) == FUAVELINO_SIDE && score == -7.25);
    EXPECT(fuavelino_psnr_hvs_v_16(WORDS(7, HEIGHT, 10), &score) == FUAVELINO_SIDE && score == -7.25);
    EXPECT(CALL(fuavelino_psnr_hvs_y8, (BYTES(WIDTH, HEIGHT, 8), &score)) == 0 && has_bits(score, UINT64_C(0x3EE5CE10D028344C)));
    EXPECT(CALL(fuavelino_psnr_hvs_u8, (BYTES(WIDTH, HEIGHT, 8), &score)) == 0 && has_bits(score, UINT64_C(0x3EEEA1644FA79C45)));
    EXPECT(CALL(fuavelino_psnr_hvs_v8, (BYTES(WIDTH, HEIGHT, 8), &score)) == 0 && has_bits(score, UINT64_C(0x3EF2218DF34729B5)));
    EXPECT(CALL(fuavelino_psnr_hvs_y16, (WORDS(WIDTH, HEIGHT, 10), &score)) == 0 && has_bits(score, UINT64_C(0x3EB1BC65AB8C5BDC)));
    EXPECT(CALL(fuavelino_psnr_hvs_u16, (WORDS(WIDTH, HEIGHT, 10), &score)) == 0 && has_bits(score, UINT64_C(0x3EB8B3BAC049A595)));
    EXPECT(CALL(fuavelino_psnr_hvs_v16, (WORDS(WIDTH, HEIGHT, 10), &score)) == 0 && has_bits(score, UINT64_C(0x3EBC1C45294DF492)));
}

static void combining(void) {
    const double high = 1.7e308;
    double sum = -7.25, weight = -8.5, score = -9.75;
    EXPECT(CALL(fuavelino_combine_ssim, (1.5, 1, 1, 1, &sum, &weight)) == FUAVELINO_WEIGHT);
    EXPECT(CALL(fuavelino_combine_ssim, (1, high, high, 0, &sum, &weight)) == FUAVELINO_NOT_FINITE);
    EXPECT(CALL(fuavelino_combine_hvs, (0.5, HUGE_VAL, 1, 1, &score)) == FUAVELINO_WEIGHT);
    EXPECT(CALL(fuavelino_combine_hvs, (1, high, high, 0, &score)) == FUAVELINO_NOT_FINITE);
    EXPECT(CALL(fuavelino_combine_hvs, (0, 1, high, high, &score)) == FUAVELINO_NOT_FINITE);
    EXPECT(sum == -7.25 && weight == -8.5 && score == -9.75);
    EXPECT(CALL(fuavelino_combine_ssim, (0.25, 1, 0.5, 0.5, &sum, &weight)) == 0 && sum == 1.25 && weight == 1.5);
    EXPECT(CALL(fuavelino_combine_hvs, (0.5, 1, 2, 2, &score)) == 0 && score == 1.5);
    /* what would overflow if it were multiplied by 1 + 2c */
    EXPECT(CALL(fuavelino_combine_hvs, (1, high, 0, 0, &score)) == 0 && score == high / 3);
}

/* A block's places; the largest sample of 12 bits; what the first lent place holds before a call. */
enum { BLOCK = 64, BRIGHT = 4095, SOIL = 1500000000 };

/* Either call by its number, forward 0 and inverse 1; and the largest size that it takes. */
static uint8_t carry(int back, const int32_t *in, size_t in_len, int32_t *out, size_t out_len) {
    if (back) return CALL(fuavelino_inverse, (in, in_len, out, out_len));
    return CALL(fuavelino_forward, (in, in_len, out, out_len));
}

static int32_t most_of(int back) {
    return back ? FUAVELINO_MOST_INVERSE : FUAVELINO_MOST_FORWARD;
}

/* Places to lend, and more behind those, no two alike. */
static int32_t lent[2 * BLOCK];

static void soil_lent(void) {
    size_t i;
    for (i = 0; i < COUNT(lent); i++) lent[i] = SOIL + (int32_t)i;
}

/* Whether they are as soiled from this place on. */
static int lent_from(size_t i) {
    while (i < COUNT(lent) && lent[i] == SOIL + (int32_t)i) i++;
    return i == COUNT(lent);
}

/* Taken: the answer stands in the 64 that are lent, and the others are as they were. */
static int carried(int back, const int32_t *in) {
    soil_lent();
    return carry(back, in, BLOCK, lent, BLOCK) == 0 && lent_from(BLOCK);
}

/* Refused with 12, and every place is as it was. */
static int stopped(int back, const int32_t *in, size_t in_len, size_t out_len) {
    soil_lent();
    return carry(back, in, in_len, lent, out_len) == FUAVELINO_VALUE && lent_from(0);
}

/* Whether both calls take it, this one first, and the second gives it back. */
static int returns(int back, const int32_t *in) {
    int32_t between[BLOCK];
    if (!carried(back, in)) return 0;
    memcpy(between, lent, sizeof between);
    return carried(!back, between) && memcmp(lent, in, sizeof between) == 0;
}

/* Whether inverse takes these coefficients, and forward refuses their block. */
static int strays(const int32_t *coefs) {
    int32_t block[BLOCK];
    if (!carried(1, coefs)) return 0;
    memcpy(block, lent, sizeof block);
    return stopped(0, block, BLOCK, BLOCK);
}

static void fill(int32_t *list, size_t count, int32_t value) {
    size_t i;
    for (i = 0; i < count; i++) list[i] = value;
}

static void transform(void) {
    int32_t block[BLOCK];
    size_t i;
    int zeros = 1;
    fill(block, BLOCK, 8);
    EXPECT(carried(0, block));
    for (i = 1; i < BLOCK; i++) zeros = zeros && lent[i] == 0;
    EXPECT(lent[0] == 65 && zeros && returns(0, block));
}

/* 64 places in and out, and no other counts. */
static void block_counts(void) {
    static const size_t counts[] = {0, 1, 63, 64, 65, 128};
    int32_t in[2 * BLOCK];
    size_t i, j;
    int back;
    fill(in, COUNT(in), 8);
    for (back = 0; back < 2; back++) {
        for (i = 0; i < COUNT(counts); i++) {
            for (j = 0; j < COUNT(counts); j++) {
                if (counts[i] != BLOCK || counts[j] != BLOCK) EXPECT(stopped(back, in, counts[i], counts[j]));
            }
        }
    }
}

/* Both ends of both ranges at every place, and past them, among values of 0 and among values at either end. */
static void ends(void) {
    int32_t in[BLOCK];
    size_t at, i;
    int back, rest;
    for (back = 0; back < 2; back++) {
        const int32_t most = most_of(back), past[] = {most + 1, -most - 1, INT32_MAX, INT32_MIN, INT32_MIN + 1};
        for (rest = -1; rest < 2; rest++) {
            fill(in, BLOCK, rest * most);
            for (at = 0; at < BLOCK; at++) {
                in[at] = most;
                EXPECT(carried(back, in));
                in[at] = -most;
                EXPECT(carried(back, in));
                for (i = 0; i < COUNT(past); i++) {
                    in[at] = past[i];
                    EXPECT(stopped(back, in, BLOCK, BLOCK));
                }
                in[at] = rest * most;
            }
        }
    }
}

/* Blocks at the ends of what forward takes come back, with signs in many patterns; coefficients do where their block is in range. */
static void there_and_back(void) {
    int32_t in[BLOCK];
    size_t i, pattern;
    int sign;
    for (sign = -1; sign < 2; sign += 2) {
        for (pattern = 0; pattern < BLOCK; pattern++) {
            for (i = 0; i < BLOCK; i++) in[i] = (i ^ pattern) % 3 ? sign * FUAVELINO_MOST_FORWARD : -sign * FUAVELINO_MOST_FORWARD;
            EXPECT(returns(0, in));
            /* refused when forward took -4095 to 4095, and inverse -1048575 to 1048575 */
            fill(in, BLOCK, 0), in[pattern] = sign * (BRIGHT + 1);
            EXPECT(returns(0, in) && returns(1, in));
            in[pattern] = sign * 1048576;
            EXPECT(strays(in));
            in[pattern] = sign * FUAVELINO_MOST_INVERSE;
            EXPECT(strays(in));
        }
        /* the last flat block that forward takes, and the next */
        fill(in, BLOCK, 0), in[0] = sign * 65529;
        EXPECT(returns(1, in) && carried(1, in) && lent[0] == sign * FUAVELINO_MOST_FORWARD);
        in[0] = sign * 65530;
        EXPECT(strays(in) && carried(1, in) && lent[0] == sign * (FUAVELINO_MOST_FORWARD + 1));
        fill(in, BLOCK, sign * FUAVELINO_MOST_INVERSE);
        EXPECT(carried(1, in) && lent[0] == sign * 14636811 && lent[63] == sign * 13063);
    }
}

/* What an encoder sends of a block: how its residue differs from the residue before. */
static void residues(void) {
    int32_t original[2][BLOCK], prediction[2][BLOCK], block[BLOCK], coefs[BLOCK], got[BLOCK];
    size_t i, shift;
    for (shift = 0; shift < 16; shift++) {
        /* samples of 12 bits, dark and bright in all sixteen ways */
        for (i = 0; i < BLOCK; i++) {
            const size_t way = (i * (2 * (i / 16) + 1) + shift) % 16;
            original[0][i] = way & 8 ? BRIGHT : 0, prediction[0][i] = way & 4 ? BRIGHT : 0;
            original[1][i] = way & 2 ? BRIGHT : 0, prediction[1][i] = way & 1 ? BRIGHT : 0;
        }
        for (i = 0; i < BLOCK; i++) block[i] = (original[1][i] - prediction[1][i]) - (original[0][i] - prediction[0][i]);
        EXPECT(CALL(fuavelino_forward, (block, BLOCK, coefs, BLOCK)) == 0);
        EXPECT(CALL(fuavelino_inverse, (coefs, BLOCK, got, BLOCK)) == 0);
        for (i = 0; i < BLOCK; i++) got[i] += original[0][i] - prediction[0][i] + prediction[1][i];
        EXPECT(memcmp(got, original[1], sizeof got) == 0);
    }
    /* the largest, and what is larger than any */
    fill(block, BLOCK, (BRIGHT - 0) - (0 - BRIGHT));
    EXPECT(returns(0, block));
    block[63] = FUAVELINO_MOST_FORWARD + 1;
    EXPECT(stopped(0, block, BLOCK, BLOCK));
}

/* tools/refusals compares the words with those of the Rust package. */
static void words(void) {
    unsigned number;
    EXPECT(strcmp(fuavelino_refusal_text(FUAVELINO_ACCEPTED), "accepted") == 0);
    EXPECT(strcmp(fuavelino_refusal_text(FUAVELINO_SAMPLE), "a visible sample is above the depth's largest") == 0);
    for (number = 0; number < 300; number++) {
        const int none = strcmp(fuavelino_refusal_text(number), "no answer of this library") == 0;
        EXPECT(none == (number > FUAVELINO_STATE));
    }
}

int main(void) {
    size_t i;
    draw();
    version();
    words();
    places();
    chart();
    kernels();
    root();
    check();
    squared_error();
    whose();
    smaller_error();
    mixes();
    of_pictures();
    builds();
    first_difference();
    error_map();
    series();
    decibels();
    rising();
    long_run();
    total_decibels();
    ssim();
    idle_ends();
    plain();
    plain_in_order();
    plain_at_the_limits();
    bands();
    clip();
    refused_begins();
    refused_feeds();
    impossible();
    noise();
    msssim();
    psnr_hvs();
    combining();
    transform();
    block_counts();
    ends();
    there_and_back();
    residues();
    for (i = 0; i < tallied; i++) {
        printf("%s accepted %u refused %u\n", tallies[i].name, tallies[i].accepted, tallies[i].refused);
        EXPECT(tallies[i].accepted > 0 && tallies[i].refused > 0);
    }
    return failures != 0;
}
