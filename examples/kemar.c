/* SPDX-License-Identifier: MIT OR Apache-2.0 */
/*
 * A measured set: libmysofa reads a .sofa file (argument 1, or the MIT KEMAR set that Debian's libmysofa1 brings along), the lists that it
 * holds are lent to sofa_load as they are, and the filter at a point is asked, with the measurements that it comes from.
 *
 * Which variable of the file becomes which argument: SourcePosition the positions, its attribute Type the kind; Data.IR the responses;
 * Data.Delay the delays; Data.SamplingRate the rate; the dimensions M, C, R and N the sizes. Nothing is resampled or normalised.
 */
#include <mysofa.h>
#include <stdio.h>
#include <stdlib.h>
#include <string.h>

#include "sofa.h"

static const float ahead_left[3] = {1.1f, 0.7f, 0.2f}; /* metres: x ahead, y to the left, z up */

typedef struct {
    uint16_t *left, *right, *neighbours;
    float *cartesian, *out_left, *out_right;
} work;

/* What a load and the queries want lent: 28 bytes for each measurement, and the outputs. */
static int lend(work *w, size_t m, size_t n) {
    w->left = malloc(m * sizeof *w->left);
    w->right = malloc(m * sizeof *w->right);
    w->neighbours = malloc(6 * m * sizeof *w->neighbours);
    w->cartesian = malloc(3 * m * sizeof *w->cartesian);
    w->out_left = malloc((n + 1) * sizeof *w->out_left);
    w->out_right = malloc((n + 1) * sizeof *w->out_right);
    return w->left && w->right && w->neighbours && w->cartesian && w->out_left && w->out_right;
}

static void give_back(work *w) {
    free(w->left), free(w->right), free(w->neighbours), free(w->cartesian), free(w->out_left), free(w->out_right);
}

static void show(const char *name, const work *w, unsigned number) {
    if (number == SOFA_ABSENT) {
        printf("  %-12s none\n", name);
        return;
    }
    float at[3];
    memcpy(at, w->cartesian + 3 * number, sizeof at);
    sofa_to_spherical(at, 3);
    printf("  %-12s %3u: azimuth %5.1f, elevation %5.1f degrees, %.2f m\n", name, number, at[0], at[1], at[2]);
}

static int ask(const struct MYSOFA_HRTF *h, const work *w, sofa_sizes sizes, sofa_lookup k) {
    const float *p = ahead_left, rate = h->DataSamplingRate.values[0];
    sofa_found nearest = sofa_find(sizes, k, w->cartesian, 3 * sizes.m, w->left, sizes.m, w->right, sizes.m, p[0], p[1], p[2]);
    sofa_filtered f = sofa_filter(sizes, k, w->cartesian, 3 * sizes.m, w->left, sizes.m, w->right, sizes.m, w->neighbours, 6 * sizes.m,
                                  h->DataIR.values, h->DataIR.elements, h->DataDelay.values, h->DataDelay.elements, rate, p[0], p[1],
                                  p[2], w->out_left, sizes.n, w->out_right, sizes.n);
    if (nearest.reason != 0 || f.reason != 0) {
        printf("refused %u\n", f.reason != 0 ? f.reason : nearest.reason);
        return 1;
    }
    printf("filter at x %g, y %g, z %g: %s of %zu, delays %g and %g s; taps 20 to 23:\n", p[0], p[1], p[2], f.blended ? "blended" : "exact",
           f.points, f.ldelay, f.rdelay);
    for (size_t i = 20; i < 24 && i < sizes.n; i++)
        printf("  left %9.6f right %9.6f\n", w->out_left[i], w->out_right[i]);
    sofa_neighbors s = sofa_neighbors_of(sizes, w->neighbours, 6 * sizes.m, nearest.number);
    show("nearest", w, nearest.number);
    show("azimuth +", w, s.phi_plus);
    show("azimuth -", w, s.phi_minus);
    show("elevation +", w, s.theta_plus);
    show("elevation -", w, s.theta_minus);
    show("radius +", w, s.radius_plus);
    show("radius -", w, s.radius_minus);
    return 0;
}

static int load(const struct MYSOFA_HRTF *h) {
    char name[] = "Type";
    const char *type = mysofa_getAttribute(h->SourcePosition.attributes, name);
    if (type == NULL || h->DataSamplingRate.elements == 0) {
        printf("the file does not say its kind of positions, or its rate\n");
        return 1;
    }
    uint32_t kind = strcmp(type, "cartesian") == 0 ? SOFA_CARTESIAN : strcmp(type, "spherical") == 0 ? SOFA_SPHERICAL : 255;
    sofa_sizes sizes = {h->M, h->C, h->R, h->N};
    printf("%zu measurements, %zu receivers, %zu taps, %g Hz, %s\n", sizes.m, sizes.r, sizes.n, h->DataSamplingRate.values[0], type);
    work w;
    int status = 1;
    if (lend(&w, sizes.m, sizes.n)) {
        sofa_loaded set = sofa_load(kind, sizes, h->SourcePosition.values, h->SourcePosition.elements, h->DataIR.values,
                                    h->DataIR.elements, 0.5f, 0.01f, h->DataSamplingRate.values[0], w.left, sizes.m, w.right, sizes.m,
                                    w.neighbours, 6 * sizes.m, w.cartesian, 3 * sizes.m);
        if (set.reason != 0)
            printf("the load is refused %u at %zu\n", set.reason, set.place);
        else
            status = ask(h, &w, sizes, set.lookup);
    }
    give_back(&w);
    return status;
}

int main(int argc, char **argv) {
    const char *file = argc > 1 ? argv[1] : "/usr/share/libmysofa/MIT_KEMAR_normal_pinna.sofa";
    int error = 0;
    struct MYSOFA_HRTF *h = mysofa_load(file, &error);
    if (h == NULL) {
        printf("%s: libmysofa cannot read it (%d)\n", file, error);
        return 1;
    }
    int status = load(h);
    mysofa_free(h);
    return status;
}
