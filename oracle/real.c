/*
 * real FILE > DUMP: lets libmysofa read a .sofa file, and writes the set for the comparison and the times: as 32-bit words m, r, n, kind (0 cartesian,
 * 1 spherical), the counts of responses and delays, then as f32 positions, responses, delays and the rate.
 */
#include <mysofa.h>
#include <stdint.h>
#include <stdio.h>
#include <string.h>

static int spherical(const struct MYSOFA_ARRAY *a) {
    for (const struct MYSOFA_ATTRIBUTE *t = a->attributes; t; t = t->next)
        if (!strcmp(t->name, "Type"))
            return !strcmp(t->value, "spherical");
    return 0;
}

static void values(const struct MYSOFA_ARRAY *a, uint32_t count) {
    fwrite(a->values, sizeof(float), count, stdout);
}

int main(int argc, char **argv) {
    int error = 0;
    struct MYSOFA_HRTF *h = argc == 2 ? mysofa_load(argv[1], &error) : NULL;
    if (!h || h->C != 3 || h->SourcePosition.elements != 3 * h->M || h->DataIR.elements != h->M * h->R * h->N || h->DataSamplingRate.elements < 1) {
        fprintf(stderr, "real: no set could be read (%d)\n", error);
        return 1;
    }
    uint32_t head[6] = {h->M, h->R, h->N, (uint32_t)spherical(&h->SourcePosition), h->DataIR.elements, h->DataDelay.elements};
    fwrite(head, sizeof *head, 6, stdout);
    values(&h->SourcePosition, 3 * h->M);
    values(&h->DataIR, head[4]);
    values(&h->DataDelay, head[5]);
    values(&h->DataSamplingRate, 1);
    mysofa_free(h);
    return 0;
}
