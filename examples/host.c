/* SPDX-License-Identifier: MIT OR Apache-2.0 */
/* A C host: loads a set of two measurements, asks a blended, an exact and a refused query, and prints what is answered. */
#include <math.h>
#include <stdio.h>

#include "sofa.h"

enum { M = 2, R = 2, N = 1 };

static const float positions[3 * M] = {1, 0, 0, -1, 0, 0};
static const float responses[M * R * N] = {0.5f, 0.25f, 1, 0};
static const float delays[M] = {375, 0};
static const float rate = 48000;

static uint16_t left[M], right[M], neighbours[6 * M];
static float cartesian[3 * M];

/* This thread has C's own floating-point environment. An audio thread has `sofa_enter` before its calls and `sofa_leave` behind them. */
static void ask(sofa_sizes sizes, sofa_lookup lookup, float x, float y, float z) {
    float out_left[N], out_right[N];
    sofa_filtered f = sofa_filter(sizes, lookup, cartesian, 3 * M, left, M, right, M, neighbours, 6 * M, responses, M * R * N,
                                  delays, M, rate, x, y, z, out_left, N, out_right, N);
    if (f.reason != 0) {
        printf("refused %u at %zu, samples %g %g\n", f.reason, f.place, out_left[0], out_right[0]);
        return;
    }
    sofa_found nearest = sofa_find(sizes, lookup, cartesian, 3 * M, left, M, right, M, x, y, z);
    printf("%s of %zu, nearest %u: left %g right %g, delays %g %g s\n", f.blended ? "blended" : "exact", f.points, nearest.number,
           out_left[0], out_right[0], f.ldelay, f.rdelay);
}

int main(void) {
    sofa_sizes sizes = {M, 3, R, N};
    sofa_loaded set = sofa_load(SOFA_CARTESIAN, sizes, positions, 3 * M, responses, M * R * N, 0.5f, 0.01f, rate, left, M, right, M,
                                neighbours, 6 * M, cartesian, 3 * M);
    if (set.reason != 0) {
        printf("load refused %u at %zu\n", set.reason, set.place);
        return 1;
    }
    ask(sizes, set.lookup, 2, 0, 0);
    ask(sizes, set.lookup, 1, 0, 0);
    ask(sizes, set.lookup, 0, NAN, 0);
    sofa_loaded unknown = sofa_load(7, sizes, positions, 3 * M, responses, M * R * N, 0.5f, 0.01f, rate, left, M, right, M, neighbours,
                                    6 * M, cartesian, 3 * M);
    printf("a load of kind 7 is refused %u at %zu\n", unknown.reason, unknown.place);
    return 0;
}
