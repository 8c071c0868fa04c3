/* Kernels for fuavelino_ssim8 and fuavelino_ssim16: the one that av-metrics 0.9.1 chooses for a plane, and how many taps of one are idle.
 *
 * For a plane whose height the chart of fuavelino_kernel lists, and whose width is no smaller, av-metrics' kernel is the chart's, and proved to be
 * lawful: link with libfuavelino.a. NOT PROVED, and no part of that library, are the others, a bell curve worked out by the host's pow and log (link
 * with -lm), step by step as av-metrics does; nor is the count of idle taps. SSIM judges the kernel that it is lent, and refuses an unlawful one
 * with 7. */
#ifndef FUAVELINO_KERNEL_H
#define FUAVELINO_KERNEL_H

#include "fuavelino.h"

#include <math.h>

#ifdef __cplusplus
extern "C" {
#endif

/* Writes the kernel for a plane of these sides to `taps`, and answers how many taps it has: an odd count. 0, and nothing is written, where a
 * side is not 1 to FUAVELINO_MOST_SIDE or there are fewer places than taps. FUAVELINO_MOST_TAPS places serve for any plane. */
static inline size_t fuavelino_gaussian_kernel(size_t width, size_t height, uint16_t *taps, size_t places) {
    const double e = 2.7182818284590452354, pi = 3.14159265358979323846;
    const double weight = 256, sigma = (double)height * 1.5 / 256;
    const double half = sqrt(0.5 * pi) * sigma * (1 / weight), peak = 1 / (sqrt(2 * pi) * sigma), fall = -0.5 / (sigma * sigma);
    const size_t shorter = width < height ? width : height;
    size_t side = 0, count, k;
    uint16_t middle = 256;
    if (places < 1 || shorter < 1 || width > FUAVELINO_MOST_SIDE || height > FUAVELINO_MOST_SIDE) return 0;
    if (width >= height) {
        const uint8_t said = fuavelino_kernel(height, taps, places, &count);
        if (said != FUAVELINO_HEIGHT) return said == FUAVELINO_ACCEPTED ? count : 0;
    }
    /* past this many from the middle a tap is less than half a unit of the weight */
    if (half < 1) side = (size_t)floor(sigma * sqrt(-2 * log(half)));
    if (side > shorter - 1) side = shorter - 1;
    if (2 * side + 1 > places) return 0;
    for (k = 1; k <= side; k++) {
        const uint16_t tap = (uint16_t)(weight * peak * pow(e, fall * (double)(k * k)) + 0.5);
        taps[side - k] = taps[side + k] = tap;
        middle = (uint16_t)(middle - 2 * tap);
    }
    taps[side] = middle;
    return 2 * side + 1;
}

/* How many taps at each end of a kernel are idle, that is 0 on both sides; the middle one never is, nor the two in the middle of an even count. SSIM
 * refuses a kernel of more than one tap that ends in 0. Left off, such ends change no bit of the scores, since 0 times a sample adds nothing, and
 * save time and scratch:
 *     idle = fuavelino_idle_taps(kernel, taps);
 *     said = fuavelino_ssim8(.., kernel + idle, taps - 2 * idle, scratch, fuavelino_ssim_places(width, taps - 2 * idle), &ssim, &cs);
 * Any taps may be asked about. Not proved. */
static inline size_t fuavelino_idle_taps(const uint16_t *kernel, size_t taps) {
    size_t idle = 0;
    while (2 * idle + 2 < taps && kernel[idle] == 0 && kernel[taps - 1 - idle] == 0) idle++;
    return idle;
}

#ifdef __cplusplus
}
#endif

#endif
