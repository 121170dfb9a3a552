/* Compares the port's sine, cosine and arctangent with the C library's sinf, cosf and atan2f, and with
   the steps of docs/ANGLES.md written in C (steps.h), and times them. Build and run: oracle/run_angles.
   With -DMODEL the steps in C stand in for the archive: for a processor that the archive is not for. */
#include <stddef.h>
#include <stdio.h>
#include <stdlib.h>
#include <time.h>
#include "steps.h"

#ifdef MODEL
static float port_sine(float x) { return steps_sine(x); }
static float port_cosine(float x) { return steps_cosine(x); }
static float port_arctangent(float y, float x) { int f; return steps_arctangent(y, x, &f); }
#else
typedef struct { uint32_t reason; size_t place; float value; } sofa_value;
sofa_value sofa_sine(float x), sofa_cosine(float x), sofa_arctangent(float y, float x);
static float port_sine(float x) { return sofa_sine(x).value; }
static float port_cosine(float x) { return sofa_cosine(x).value; }
static float port_arctangent(float y, float x) { return sofa_arctangent(y, x).value; }
#endif

static uint64_t seed = 88172645463325252u;
static uint32_t next(void) { seed ^= seed << 13; seed ^= seed >> 7; seed ^= seed << 17; return (uint32_t)(seed >> 32); }

/* even over +-16; even over the exponents from 2^-20 to 16; even over the plane; any finite pattern */
static float even(void) { return (float)(int32_t)next() / 134217728.0f; }
static float by_exponent(void) { return float_of((next() & 0x807fffff) | (107 + next() % 24) << 23); }
static float plane(void) { return (float)(int32_t)next() / 1e9f; }
static float pattern(void) { float x; do x = float_of(next()); while (!isfinite(x)); return x; }

typedef struct { long n, library, steps, fell; } tally;

static int differ(float a, float b) { return bits_of(a) != bits_of(b); }

static void sine(tally *t, float x) {
    float v = port_sine(x);
    t->n++; t->library += differ(v, sinf(x)); t->steps += differ(v, steps_sine(x));
}

static void cosine(tally *t, float x) {
    float v = port_cosine(x);
    t->n++; t->library += differ(v, cosf(x)); t->steps += differ(v, steps_cosine(x));
}

static void arctangent(tally *t, float y, float x) {
    int fell;
    float v = port_arctangent(y, x);
    t->n++; t->library += differ(v, atan2f(y, x)); t->steps += differ(v, steps_arctangent(y, x, &fell)); t->fell += fell;
}

static void print(const char *what, tally t) {
    printf("%-44s %9ld  differ from the C library %ld, from the steps %ld, certificate failed %ld\n", what, t.n, t.library, t.steps, t.fell);
}

static const double steps[] = {0.5, 1, 2.5, 5};
static const float radii[] = {0.075f, 1.0f, 1.2f, 1.4f, 2.0f, 100.0f, 10000.0f};

static void grids(void) {
    float turn = 3.14159274101257324f / 180.0f;
    tally s = {0}, c = {0}, az = {0}, el = {0};
    for (int k = 0; k < 4; k++)
        for (long i = -(long)(720 / steps[k]); i * steps[k] <= 720; i++) {
            float x = (float)(i * steps[k]) * turn;
            sine(&s, x); cosine(&c, x);
        }
    for (int k = 0; k < 4; k++)
        for (int j = 0; j < 7; j++)
            for (double e = -90; e <= 90; e += steps[k])
                for (long i = 0; i * steps[k] < 360; i++) {
                    float a = (float)(i * steps[k]) * turn, b = (float)e * turn, r = radii[j];
                    float x = r * cosf(b) * cosf(a), y = r * cosf(b) * sinf(a), z = r * sinf(b);
                    arctangent(&az, y, x); arctangent(&el, z, sqrtf(x * x + y * y));
                }
    print("degree grids, sine", s); print("degree grids, cosine", c);
    print("degree grids, arctangent for the azimuth", az); print("degree grids, arctangent for the elevation", el);
}

/* ---- time: the least of many runs over the same random arguments */
enum { COUNT = 4096, RUNS = 200 };
static float first[COUNT], second[COUNT];

static double now(void) { struct timespec t; clock_gettime(CLOCK_MONOTONIC, &t); return t.tv_sec * 1e9 + t.tv_nsec; }

static double one(float (*f)(float)) {
    double least = 1e18;
    for (int k = 0; k < RUNS; k++) {
        float sum = 0; volatile float keep;
        double t = now();
        for (int i = 0; i < COUNT; i++) sum += f(first[i]);
        t = (now() - t) / COUNT; keep = sum; (void)keep;
        if (t < least) least = t;
    }
    return least;
}

static double two(float (*f)(float, float)) {
    double least = 1e18;
    for (int k = 0; k < RUNS; k++) {
        float sum = 0; volatile float keep;
        double t = now();
        for (int i = 0; i < COUNT; i++) sum += f(first[i], second[i]);
        t = (now() - t) / COUNT; keep = sum; (void)keep;
        if (t < least) least = t;
    }
    return least;
}

static void times(const char *what, double port, double library) {
    printf("%-12s %6.1f ns, the C library %6.1f ns, ratio %.2f\n", what, port, library, port / library);
}

int main(int count, char **word) {
    long n = count > 1 ? atol(word[1]) : 10000000;
    tally s = {0}, c = {0}, a = {0};
    for (long i = 0; i < n; i++) sine(&s, even());
    for (long i = 0; i < n; i++) cosine(&c, even());
    print("sine, even over +-16", s); print("cosine, even over +-16", c);
    s = c = a;
    for (long i = 0; i < n; i++) { float x = by_exponent(); if (fabsf(x) <= 16) sine(&s, x); }
    for (long i = 0; i < n; i++) { float x = by_exponent(); if (fabsf(x) <= 16) cosine(&c, x); }
    print("sine, even over exponents", s); print("cosine, even over exponents", c);
    for (long i = 0; i < n; i++) { float y = plane(); arctangent(&a, y, plane()); }
    print("arctangent, even over the plane", a);
    a = (tally){0};
    for (long i = 0; i < n; i++) { float y = by_exponent(); arctangent(&a, y, by_exponent()); }
    print("arctangent, even over exponents", a);
    a = (tally){0};
    for (long i = 0; i < n; i++) { float y = pattern(); arctangent(&a, y, pattern()); }
    print("arctangent, any finite bit patterns", a);
    grids();
    for (int i = 0; i < COUNT; i++) { first[i] = even(); second[i] = even(); }
    times("sine", one(port_sine), one(sinf));
    times("cosine", one(port_cosine), one(cosf));
    times("arctangent", two(port_arctangent), two(atan2f));
    return 0;
}
