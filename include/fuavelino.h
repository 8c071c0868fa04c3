/* Plane-level video quality scores whose every promise is proved: the calls of libfuavelino.a.
 *
 * A call answers 0 and writes its result, or answers the lowest refusal number that applies of its own and writes nothing, but that 9
 * leaves scratch as acceptance does, and that a state which cannot be is 15 before anything else. Any numbers may be passed; no caller
 * checks first. What is asked of the caller, since no proof reaches it:
 *   - a pointer is not null and is aligned for its type, also where its count is 0;
 *   - the places that a count promises are there;
 *   - what a call writes (scratch, rooms, results) overlaps nothing else that the call is lent. Planes may overlap each other.
 * Scratch and rooms may hold anything on entry, also what malloc gives; results need not be set. Only rows that are fed go on where the
 * call before left scratch and state.
 *
 * A plane is lent as a pointer, its count of samples, and a stride: sample (x, y) stands at y * stride + x. Bytes (8) carry depths
 * 1 to 8, words (16) carry 9 to 12. The planes of a call share width, height and depth; each has its own stride. Padding is never read.
 * No call allocates, keeps anything between calls, or fails but by a refusal. Calls on different threads may run at once, each with
 * scratch, rooms and results of its own; they may share what is only read: planes, kernels, records. */
#ifndef FUAVELINO_H
#define FUAVELINO_H

#include <stddef.h>
#include <stdint.h>

#ifdef __cplusplus
extern "C" {
#endif

/* The version that this header belongs to. fuavelino_version() is that of the library: 10000 * major + 100 * minor + patch. */
#define FUAVELINO_VERSION_MAJOR 0
#define FUAVELINO_VERSION_MINOR 1
#define FUAVELINO_VERSION_PATCH 0
#define FUAVELINO_VERSION (10000 * FUAVELINO_VERSION_MAJOR + 100 * FUAVELINO_VERSION_MINOR + FUAVELINO_VERSION_PATCH)
uint32_t fuavelino_version(void);

/* The limits: of width and of height (above it 2), of a stride (4), of the samples that a record counts (10), of a plane's number in its frame
 * (10), where 0 is luma, 1 and 2 are chroma, and of a number's size that forward takes, and inverse (12). */
#define FUAVELINO_MOST_SIDE 16384
#define FUAVELINO_MOST_STRIDE 32768
#define FUAVELINO_MOST_SAMPLES 268435456
#define FUAVELINO_MOST_PLANE 2
#define FUAVELINO_MOST_FORWARD 8191
#define FUAVELINO_MOST_INVERSE 2097151

/* What the calls answer. */
enum fuavelino_refusal {
    FUAVELINO_ACCEPTED = 0,
    FUAVELINO_DEPTH = 1,       /* the depth does not suit the sample width */
    FUAVELINO_SIZE = 2,        /* width or height is 0 or above FUAVELINO_MOST_SIDE */
    FUAVELINO_SIDE = 3,        /* a side is below the call's least */
    FUAVELINO_STRIDE = 4,      /* a stride is below the width or above FUAVELINO_MOST_STRIDE */
    FUAVELINO_SHORT = 5,       /* a plane has fewer than stride * (height - 1) + width samples */
    FUAVELINO_SAMPLE = 6,      /* a visible sample is above 2^depth - 1 */
    FUAVELINO_KERNEL = 7,      /* the kernel is unlawful */
    FUAVELINO_SCRATCH = 8,     /* lent scratch, or room lent for a map or a kernel, is too short */
    FUAVELINO_NOT_FINITE = 9,  /* nothing else applies, and the defined score is infinite or not a number */
    FUAVELINO_RECORD = 10,     /* a series of none or over 65536 records, or with one that is bad or out of order; decibels of a total that no
                                  series has; a squared error with a plane number above FUAVELINO_MOST_PLANE */
    FUAVELINO_TOTAL = 11,      /* a series whose exact total is above 2^53 */
    FUAVELINO_VALUE = 12,      /* a root or a transform of what it does not take */
    FUAVELINO_WEIGHT = 13,     /* a weight outside 0 to 1, or a number that is not finite */
    FUAVELINO_HEIGHT = 14,     /* a height for which the chart has no kernel */
    FUAVELINO_STATE = 15       /* a row-fed state that no begin and feeds could give, rows past the height, or a finish before the last row */
};

/* An answer in words, for messages. Any number may be asked for. */
static inline const char *fuavelino_refusal_text(unsigned number) {
    switch (number) {
    case FUAVELINO_ACCEPTED: return "accepted";
    case FUAVELINO_DEPTH: return "the depth does not suit the sample width";
    case FUAVELINO_SIZE: return "width or height is 0 or above 16384";
    case FUAVELINO_SIDE: return "a side is below the least that this score takes";
    case FUAVELINO_STRIDE: return "a stride is below the width or above 32768";
    case FUAVELINO_SHORT: return "a plane has too few samples";
    case FUAVELINO_SAMPLE: return "a visible sample is above the depth's largest";
    case FUAVELINO_KERNEL: return "the kernel is unlawful";
    case FUAVELINO_SCRATCH: return "lent scratch, or room lent for a map or a kernel, is too short";
    case FUAVELINO_NOT_FINITE: return "the score is infinite or not a number";
    case FUAVELINO_RECORD: return "a series of no records, of too many, or with one that is bad or out of order; a total that no series has; or a plane number above 2";
    case FUAVELINO_TOTAL: return "the exact total of a series is above 2^53";
    case FUAVELINO_VALUE: return "a value, or a count of values, is out of range";
    case FUAVELINO_WEIGHT: return "a weight is outside 0 to 1, or a number is not finite";
    case FUAVELINO_HEIGHT: return "the chart has no kernel for this height";
    case FUAVELINO_STATE: return "a row-fed state that no begin and feeds could give, rows past the height, or a finish before the last row";
    default: return "no answer of this library";
    }
}

/* What comparing two planes leaves, and which plane of which frame they are. An error of 0 says that they are identical: PSNR is called 100.
 * fuavelino_decibels has the PSNR of any other. The total of a series has no frame and plane. */
typedef struct fuavelino_record {
    double sq_err;       /* a whole number from 0 to n * sample_max^2 */
    uint64_t n;          /* samples compared, 1 to FUAVELINO_MOST_SAMPLES */
    uint32_t sample_max; /* 2^depth - 1 */
    uint32_t frame;      /* the frame's number, any */
    uint32_t plane;      /* the plane's number in its frame, 0 to FUAVELINO_MOST_PLANE */
} fuavelino_record;

/* The square root of x, the double nearest the exact one. 12: x is not +0 or positive and finite. */
uint8_t fuavelino_root(double x, double *out);

/* Judges two planes: 0, or the lowest of 1 2 3 4 5 6. `least` is the least side that is taken, 0 where any is. */
uint8_t fuavelino_check8(const uint8_t *a, size_t a_len, const uint8_t *b, size_t b_len, size_t width, size_t height,
                         size_t stride_a, size_t stride_b, uint32_t depth, size_t least);
uint8_t fuavelino_check16(const uint16_t *a, size_t a_len, const uint16_t *b, size_t b_len, size_t width, size_t height,
                          size_t stride_a, size_t stride_b, uint32_t depth, size_t least);

/* The squared error of two planes, with the count of samples and sample_max. With the frame and the plane that it is told, these are the record:
 *     fuavelino_record r = {.frame = f, .plane = p};
 *     no = fuavelino_squared_error8(.., depth, r.frame, r.plane, &r.sq_err, &r.n, &r.sample_max);
 * Refuses 1 2 4 5 6, and 10: plane is above 2. */
uint8_t fuavelino_squared_error8(const uint8_t *a, size_t a_len, const uint8_t *b, size_t b_len, size_t width, size_t height,
                                 size_t stride_a, size_t stride_b, uint32_t depth, uint32_t frame, uint32_t plane,
                                 double *sq_err, uint64_t *n, uint32_t *sample_max);
uint8_t fuavelino_squared_error16(const uint16_t *a, size_t a_len, const uint16_t *b, size_t b_len, size_t width, size_t height,
                                  size_t stride_a, size_t stride_b, uint32_t depth, uint32_t frame, uint32_t plane,
                                  double *sq_err, uint64_t *n, uint32_t *sample_max);

/* Which of two candidates, a or b, has the smaller squared error from the original o: *which is FUAVELINO_FIRST or FUAVELINO_SECOND, the first on a
 * tie, and *sq_err is that candidate's error, as fuavelino_squared_error8 or 16 gives it. The winning plane is the caller's own pointer, to be read on
 * without a copy:
 *     no = fuavelino_better8(.., depth, &sq_err, &which);
 *     if (no == 0) winner = which == FUAVELINO_FIRST ? a : b;
 * Refuses the lowest of 1 2 4 5 6 that applies to any of the three planes; *sq_err and *which are then as they were. */
#define FUAVELINO_FIRST 1
#define FUAVELINO_SECOND 2
uint8_t fuavelino_better8(const uint8_t *o, size_t o_len, const uint8_t *a, size_t a_len, const uint8_t *b, size_t b_len,
                          size_t width, size_t height, size_t stride_o, size_t stride_a, size_t stride_b, uint32_t depth,
                          double *sq_err, uint8_t *which);
uint8_t fuavelino_better16(const uint16_t *o, size_t o_len, const uint16_t *a, size_t a_len, const uint16_t *b, size_t b_len,
                           size_t width, size_t height, size_t stride_o, size_t stride_a, size_t stride_b, uint32_t depth,
                           double *sq_err, uint8_t *which);

/* The first sample, row by row, at which two planes differ: *differs is 1, and *row and *column, from 0 on, are its own; or *differs is 0, and
 * those two stay as they were. Refuses 1 2 4 5 6. */
uint8_t fuavelino_first_difference8(const uint8_t *a, size_t a_len, const uint8_t *b, size_t b_len, size_t width, size_t height,
                                    size_t stride_a, size_t stride_b, uint32_t depth, uint8_t *differs, size_t *row,
                                    size_t *column);
uint8_t fuavelino_first_difference16(const uint16_t *a, size_t a_len, const uint16_t *b, size_t b_len, size_t width, size_t height,
                                     size_t stride_a, size_t stride_b, uint32_t depth, uint8_t *differs, size_t *row,
                                     size_t *column);

/* The squared error of each tile of 8 by 8 samples, smaller at the right and at the bottom edge: that of the tile that starts at row 8 * j and
 * column 8 * i goes to map[j * *across + i]. *across and *down are how many tiles there are that way. `map` has at least
 * fuavelino_error_map_places(width, height) places; those past them stay as they were. Refuses 1 2 4 5 6 8. */
uint8_t fuavelino_error_map8(const uint8_t *a, size_t a_len, const uint8_t *b, size_t b_len, size_t width, size_t height,
                             size_t stride_a, size_t stride_b, uint32_t depth, uint64_t *map, size_t places, size_t *across,
                             size_t *down);
uint8_t fuavelino_error_map16(const uint16_t *a, size_t a_len, const uint16_t *b, size_t b_len, size_t width, size_t height,
                              size_t stride_a, size_t stride_b, uint32_t depth, uint64_t *map, size_t places, size_t *across,
                              size_t *down);

/* The places that the map must have, one for each tile. 0 where a side is not 1 to FUAVELINO_MOST_SIDE: such a call is refused by a lower
 * number, whatever is lent. */
size_t fuavelino_error_map_places(size_t width, size_t height);

/* Adds up the errors and counts of a run of records, under their one sample_max. The records rise strictly, by frame and then by plane, so that no
 * plane is counted twice. Refuses 10 11. */
uint8_t fuavelino_series(const fuavelino_record *records, size_t count, double *sq_err, uint64_t *n, uint32_t *sample_max);

/* PSNR of a run of records taken together, in whole hundredths of a decibel; with a count of 1 that of one record. They rise as for
 * fuavelino_series. Where the error is not 0, *identical is 0 and *hundredths is 1000 * log10(n * sample_max^2 / sq_err) of the total, rounded
 * down: less than 1 below the exact figure, and above it by five billionths of a decibel at most. Where it is 0, *identical is 1 and *hundredths
 * is 10000, the 100 dB that stand for it; an error that is not 0 can have 10000 too. A limit in hundredths is met where
 * *identical || *hundredths >= limit. Refuses 10 11. */
uint8_t fuavelino_decibels(const fuavelino_record *records, size_t count, uint32_t *hundredths, uint8_t *identical);

/* The same of a total, as fuavelino_series writes it, or of several totals that were added up. 10: no series adds up to this, since n is not 1 to
 * 65536 * FUAVELINO_MOST_SAMPLES, sample_max is no 2^depth - 1 with a depth of 1 to 12, or sq_err is not a whole number from 0 to
 * n * sample_max^2, at most 2^53. */
uint8_t fuavelino_total_decibels(double sq_err, uint64_t n, uint32_t sample_max, uint32_t *hundredths, uint8_t *identical);

/* So many places serve for every kernel: no lawful one has more taps, and who lends them is never told 8 by fuavelino_kernel. */
#define FUAVELINO_MOST_TAPS 255

/* The kernel that av-metrics builds, with weight 256, for a plane of this height and of no smaller width, from a chart that lists the heights 144,
 * 180, 240, 270, 288, 360, 405, 480, 540, 576, 720, 1080, 1440 and 2160. It goes to the first *count of `taps`; places past them stay as they were.
 * 8: the height is listed, and there are fewer places than taps. 14: the height is not listed, whatever is lent. */
uint8_t fuavelino_kernel(size_t height, uint16_t *taps, size_t places, size_t *count);

/* SSIM under a kernel: an odd count of taps from 1 to 255, each from 0 to 256, summing to 256, the same from both ends, the middle at least 1 and,
 * where there is more than one, the ends at least 1; any other is 7. `scratch` has at least fuavelino_ssim_places(width, taps) places; accepted,
 * and at 9, those are 0 after the call. Refuses 1 2 4 5 6 7 8 9. fuavelino_kernel.h has the kernel that av-metrics chooses for any plane, and tells
 * how many idle taps a kernel has at each end, to be left off. */
uint8_t fuavelino_ssim8(const uint8_t *a, size_t a_len, const uint8_t *b, size_t b_len, size_t width, size_t height,
                        size_t stride_a, size_t stride_b, uint32_t depth, const uint16_t *kernel, size_t taps, int64_t *scratch,
                        size_t places, double *ssim, double *cs);
uint8_t fuavelino_ssim16(const uint16_t *a, size_t a_len, const uint16_t *b, size_t b_len, size_t width, size_t height,
                         size_t stride_a, size_t stride_b, uint32_t depth, const uint16_t *kernel, size_t taps, int64_t *scratch,
                         size_t places, double *ssim, double *cs);

/* The places that the scratch of SSIM must have: 6 * width * L, L the least power of two not below the count of taps. 0 where width is not
 * 1 to FUAVELINO_MOST_SIDE or taps not 1 to FUAVELINO_MOST_TAPS: such a call is refused by a lower number, whatever is lent. */
size_t fuavelino_ssim_places(size_t width, size_t taps);

/* The same pair, bit for bit, with no scratch: the whole window is summed afresh at every centre. So the cost grows with the square of the count of
 * taps, where that of fuavelino_ssim8 and 16 grows with the count. Refuses 1 2 4 5 6 7 9, as they do, and never 8; *ssim and *cs are then as they were. */
uint8_t fuavelino_plain_ssim8(const uint8_t *a, size_t a_len, const uint8_t *b, size_t b_len, size_t width, size_t height,
                              size_t stride_a, size_t stride_b, uint32_t depth, const uint16_t *kernel, size_t taps, double *ssim,
                              double *cs);
uint8_t fuavelino_plain_ssim16(const uint16_t *a, size_t a_len, const uint16_t *b, size_t b_len, size_t width, size_t height,
                               size_t stride_a, size_t stride_b, uint32_t depth, const uint16_t *kernel, size_t taps, double *ssim,
                               double *cs);

/* SSIM of rows as they arrive, where nobody holds two whole planes: begin, feed any number of whole rows of both, finish. What stays between the
 * calls is the caller's: this state, and scratch of at least fuavelino_ssim_places(width, taps) places, both lent to each call. However the rows
 * are grouped, the pair is bit for bit that of fuavelino_ssim8 or 16. Two planes of bytes, in bands:
 *     fuavelino_rows r;
 *     no = fuavelino_rows_begin8(width, height, depth, kernel, taps, scratch, places, FUAVELINO_ROWS(r));
 *     while (no == 0 && r.numbers[4] < height) {
 *         rows = next_band(&a, &b);
 *         no = fuavelino_rows_feed8(a, a_len, b, b_len, stride_a, stride_b, rows, scratch, places, FUAVELINO_ROWS(r));
 *     }
 *     if (no == 0) no = fuavelino_rows_finish(scratch, places, FUAVELINO_ROWS(r), &ssim, &cs);
 * Any state may be lent: its numbers are judged at their full 64 bits, and one that no begin and feeds of the sample width could give is 15. The
 * sums are not judged. Who alters them or the scratch, or lends an older state, may be told any answer; still only what is lent is read or
 * written. */
typedef struct fuavelino_rows {
    uint64_t numbers[6];                  /* width, height, depth, taps, rows received, rows scored */
    uint16_t kernel[FUAVELINO_MOST_TAPS]; /* the taps, then zeros */
    double sums[3];                       /* running sums: of ssim, of cs and of the weights */
} fuavelino_rows;

/* A state as the calls take it. */
#define FUAVELINO_ROWS(r) (r).numbers, (r).kernel, (r).sums

/* Begins two planes of these sides, of bytes or of words, under a kernel that fuavelino_ssim8 takes. The needed places of scratch become 0, and the
 * state is that of no rows, whatever it was. Refuses 1 2 7 8, and then the state, too, is as it was. */
uint8_t fuavelino_rows_begin8(size_t width, size_t height, uint32_t depth, const uint16_t *kernel, size_t taps, int64_t *scratch,
                              size_t places, uint64_t numbers[6], uint16_t held[FUAVELINO_MOST_TAPS], double sums[3]);
uint8_t fuavelino_rows_begin16(size_t width, size_t height, uint32_t depth, const uint16_t *kernel, size_t taps, int64_t *scratch,
                               size_t places, uint64_t numbers[6], uint16_t held[FUAVELINO_MOST_TAPS], double sums[3]);

/* Takes the next `rows` rows of both planes; the first begins where a and b point. A row is scored as soon as half a kernel, taps / 2, of further
 * rows has come, or the last row has: numbers[5] says how many are. Scratch past the needed places stays as it was. No rows need no samples, and
 * leave the state as it was. Refuses 15 for the state; then 4 5 6 8, as of planes of that many rows, and 4 and 8 also of no rows; then 15 for more
 * rows than the height has left. A refused feed changed nothing, and may be repeated. */
uint8_t fuavelino_rows_feed8(const uint8_t *a, size_t a_len, const uint8_t *b, size_t b_len, size_t stride_a, size_t stride_b,
                             size_t rows, int64_t *scratch, size_t places, uint64_t numbers[6],
                             const uint16_t held[FUAVELINO_MOST_TAPS], double sums[3]);
uint8_t fuavelino_rows_feed16(const uint16_t *a, size_t a_len, const uint16_t *b, size_t b_len, size_t stride_a, size_t stride_b,
                              size_t rows, int64_t *scratch, size_t places, uint64_t numbers[6],
                              const uint16_t held[FUAVELINO_MOST_TAPS], double sums[3]);

/* The pair of all rows, of bytes or of words as the depth says. The needed places of scratch become 0, also at 9; the state stays, and gives its
 * pair again. Refuses 15 for the state; then 8; then 15 before the last row; then 9. */
uint8_t fuavelino_rows_finish(int64_t *scratch, size_t places, const uint64_t numbers[6], const uint16_t held[FUAVELINO_MOST_TAPS],
                              const double sums[3], double *ssim, double *cs);

/* MS-SSIM's five scales, the planes themselves first: ssim and cs of scale k, from 0 on, go to pairs[2 * k] and pairs[2 * k + 1]. Sides are at
 * least 16. `scratch` has at least fuavelino_msssim_places(width) places, a32 and b32 fuavelino_msssim_samples(width, height) each; accepted,
 * and at 9, those are 0 after the call. Refuses 1 2 3 4 5 6 8 9. */
uint8_t fuavelino_msssim8(const uint8_t *a, size_t a_len, const uint8_t *b, size_t b_len, size_t width, size_t height,
                          size_t stride_a, size_t stride_b, uint32_t depth, int64_t *scratch, size_t places, uint32_t *a32,
                          size_t a32_places, uint32_t *b32, size_t b32_places, double pairs[10]);
uint8_t fuavelino_msssim16(const uint16_t *a, size_t a_len, const uint16_t *b, size_t b_len, size_t width, size_t height,
                           size_t stride_a, size_t stride_b, uint32_t depth, int64_t *scratch, size_t places, uint32_t *a32,
                           size_t a32_places, uint32_t *b32, size_t b32_places, double pairs[10]);

/* The places that the scratch of MS-SSIM must have, 96 * width, and a32 and b32 each, width * height. 0 where a side is not 16 to
 * FUAVELINO_MOST_SIDE: such a call is refused by a lower number, whatever is lent. */
size_t fuavelino_msssim_places(size_t width);
size_t fuavelino_msssim_samples(size_t width, size_t height);

/* PSNR-HVS of two y, u or v planes: 0 where no error is seen. Sides are at least 8. Refuses 1 2 3 4 5 6 9. */
uint8_t fuavelino_psnr_hvs_y8(const uint8_t *a, size_t a_len, const uint8_t *b, size_t b_len, size_t width, size_t height,
                              size_t stride_a, size_t stride_b, uint32_t depth, double *score);
uint8_t fuavelino_psnr_hvs_u8(const uint8_t *a, size_t a_len, const uint8_t *b, size_t b_len, size_t width, size_t height,
                              size_t stride_a, size_t stride_b, uint32_t depth, double *score);
uint8_t fuavelino_psnr_hvs_v8(const uint8_t *a, size_t a_len, const uint8_t *b, size_t b_len, size_t width, size_t height,
                              size_t stride_a, size_t stride_b, uint32_t depth, double *score);
uint8_t fuavelino_psnr_hvs_y16(const uint16_t *a, size_t a_len, const uint16_t *b, size_t b_len, size_t width, size_t height,
                               size_t stride_a, size_t stride_b, uint32_t depth, double *score);
uint8_t fuavelino_psnr_hvs_u16(const uint16_t *a, size_t a_len, const uint16_t *b, size_t b_len, size_t width, size_t height,
                               size_t stride_a, size_t stride_b, uint32_t depth, double *score);
uint8_t fuavelino_psnr_hvs_v16(const uint16_t *a, size_t a_len, const uint16_t *b, size_t b_len, size_t width, size_t height,
                               size_t stride_a, size_t stride_b, uint32_t depth, double *score);

/* The names that these had first. */
#define fuavelino_psnr_hvs_y_8 fuavelino_psnr_hvs_y8
#define fuavelino_psnr_hvs_u_8 fuavelino_psnr_hvs_u8
#define fuavelino_psnr_hvs_v_8 fuavelino_psnr_hvs_v8
#define fuavelino_psnr_hvs_y_16 fuavelino_psnr_hvs_y16
#define fuavelino_psnr_hvs_u_16 fuavelino_psnr_hvs_u16
#define fuavelino_psnr_hvs_v_16 fuavelino_psnr_hvs_v16

/* Scores of three planes with chroma weight c, 0 to 1. SSIM: y + c * (u + v), and 1 + 2c. HVS: the average, (y + c * (u + v)) / (1 + 2c),
 * where av-metrics multiplies. Refuse 13, then 9. */
uint8_t fuavelino_combine_ssim(double c, double y, double u, double v, double *sum, double *weight);
uint8_t fuavelino_combine_hvs(double c, double y, double u, double v, double *score);

/* The transform of a block of 8 by 8 numbers from -8191 to 8191 (FUAVELINO_MOST_FORWARD); and the one block whose transform is these coefficients,
 * each from -2097151 to 2097151 (FUAVELINO_MOST_INVERSE). So forward takes samples, residues, which are differences of samples, and differences
 * of residues, and inverse gives them back:
 *     for (i = 0; i < 64; i++) block[i] = (original[i] - prediction[i]) - residue_before[i];
 *     no = fuavelino_forward(block, 64, coefs, 64);
 *     no = fuavelino_inverse(coefs, 64, block, 64);
 * Of other coefficients inverse may give what forward refuses. 12: not 64 places in and out, or a value out of range. */
uint8_t fuavelino_forward(const int32_t *block, size_t block_len, int32_t *out, size_t out_len);
uint8_t fuavelino_inverse(const int32_t *coefs, size_t coefs_len, int32_t *out, size_t out_len);

#ifdef __cplusplus
}
#endif

#endif
