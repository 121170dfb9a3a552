/* SPDX-License-Identifier: MIT OR Apache-2.0 */
/*
 * The floating-point environment: sofa_enter and sofa_leave around calls give the answers of a thread that changed nothing, bit for bit,
 * whatever the host has in force: flush-to-zero of results, of operands, of both, the three other rounding directions, exceptions that are
 * not masked, flags. Afterwards the host's environment is there again, the flags that were raised before and no others. Flushing and
 * rounding each change an answer where the two are left out, so that the comparison can fail; and what the header names is met: a refusal
 * that is lost, another measurement, a wrong root.
 */
#include <stdio.h>
#include <string.h>

#include "sofa.h"

/* ---- what a host may have in force */

#if defined(__x86_64__)

/* MXCSR, in which the flags stand too */
static const struct {
    const char *name;
    sofa_environment is;
} hosts[] = {
    {"flush-to-zero", {0x9fc0, 0}},
    {"flush-to-zero of results", {0x9f80, 0}},
    {"flush-to-zero of operands", {0x1fc0, 0}},
    {"down", {0x3f80, 0}},
    {"up", {0x5f80, 0}},
    {"toward zero", {0x7f80, 0}},
    {"exceptions not masked", {0x0000, 0}},
    {"all of these", {0xe040, 0}},
    {"flags raised before", {0x1fbf, 0}},
};
enum { FLUSHED = 0, CHANGED = 6 }; /* the first; and how many change an answer (the others may trap, or only have flags) */

static void set(sofa_environment e) {
    __asm__ __volatile__("ldmxcsr %0" : : "m"(e.control) : "memory");
}

static sofa_environment get(void) {
    sofa_environment e = {0, 0};
    __asm__ __volatile__("stmxcsr %0" : "=m"(e.control) : : "memory");
    return e;
}

#elif defined(__aarch64__)

/* FPCR, and FPSR with the flags: inexact is bit 4, and nearly every call raises it; 0x0800009f is all of them */
static const struct {
    const char *name;
    sofa_environment is;
} hosts[] = {
    {"flush-to-zero", {1u << 24, 0}},
    {"up", {1u << 22, 0}},
    {"down", {2u << 22, 0}},
    {"toward zero", {3u << 22, 1}},
    {"flush-to-zero and toward zero, flags raised before", {1u << 24 | 3u << 22, 0x0800009f}},
    {"flags raised before", {0, 0x0800009f}},
};
enum { FLUSHED = 0, CHANGED = 5 };

static void set(sofa_environment e) {
    uint64_t control = e.control, status = e.status;
    __asm__ __volatile__("msr fpcr, %0\n\tmsr fpsr, %1" : : "r"(control), "r"(status) : "memory");
}

static sofa_environment get(void) {
    sofa_environment e;
    uint64_t control, status;
    __asm__ __volatile__("mrs %0, fpcr\n\tmrs %1, fpsr" : "=r"(control), "=r"(status) : : "memory");
    e.control = (uint32_t)control, e.status = (uint32_t)status;
    return e;
}

#endif

enum { HOSTS = sizeof hosts / sizeof hosts[0] };

static int failed;

static void check(int holds, const char *what, const char *host) {
    if (holds)
        return;
    failed++;
    printf("failed: %s: %s\n", host, what);
}

/* ---- what is answered, as bytes: each field on its own, since what stands between fields is no part of an answer */

enum { ROOM = 1 << 20 };
typedef struct {
    size_t count;
    unsigned char bytes[ROOM];
} record;

static void keep(record *r, const void *from, size_t bytes) {
    if (r->count + bytes > ROOM) {
        check(0, "the record is full", "");
        return;
    }
    memcpy(r->bytes + r->count, from, bytes);
    r->count += bytes;
}

static void keep_bits(record *r, float f) {
    keep(r, &f, sizeof f);
}


static void keep_refusal(record *r, uint32_t reason, size_t place) {
    keep(r, &reason, sizeof reason);
    keep(r, &place, sizeof place);
}

static void keep_value(record *r, sofa_value v) {
    keep_refusal(r, v.reason, v.place);
    keep_bits(r, v.value);
}

static void keep_found(record *r, sofa_found f) {
    keep_refusal(r, f.reason, f.place);
    keep(r, &f.number, sizeof f.number);
}

static void keep_filtered(record *r, sofa_filtered f) {
    keep_refusal(r, f.reason, f.place);
    keep(r, &f.blended, sizeof f.blended);
    keep(r, &f.points, sizeof f.points);
    keep_bits(r, f.ldelay);
    keep_bits(r, f.rdelay);
}

/* Any pattern of a float, by its number: subnormal numbers, infinities and NaN among them. */
static float pattern(uint32_t number) {
    uint32_t bits = number * 2654435761u;
    float f;
    if (number % 4 == 0)
        bits &= 0x807fffffu; /* subnormal */
    memcpy(&f, &bits, sizeof f);
    return f;
}

/* A number of 20 bits in a unit. What is asked is the same in every environment: it is made in the default one. */
static float coordinate(uint32_t number, float unit) {
    int32_t whole = (int32_t)(number * 2654435761u >> 12) - (1 << 19);
    sofa_environment host = sofa_enter();
    volatile float f = (float)whole * unit;
    sofa_leave(host);
    return f;
}

enum { M = 96, R = 2, N = 5, ASKED = 48 };
typedef struct {
    float positions[3 * M], cartesian[3 * M], responses[M * R * N], delays[M * R];
    uint16_t left[M], right[M], neighbours[6 * M], numbers[M];
} set_lists;

static void ask_numbers(record *r) {
    for (uint32_t i = 0; i < 4000; i++) {
        keep_bits(r, sofa_root(pattern(i)));
        keep_value(r, sofa_sine(coordinate(i, 0x1p-16f)));
        keep_value(r, sofa_cosine(coordinate(i, 0x1p-15f)));
        keep_value(r, sofa_arctangent(pattern(i), pattern(i + 1)));
    }
}

static void ask_conversions(record *r, uint32_t kind) {
    static const float units[4] = {0x1p-10f, 0x1p-40f, 0x1p-80f, 0x1p-140f};
    float values[300];
    for (uint32_t i = 0; i < 300; i++)
        values[i] = coordinate(i, units[i / 3 % 4]);
    for (int i = 2; i < 300 && kind == SOFA_SPHERICAL; i += 3)
        values[i] = values[i] < 0 ? -values[i] : values[i];
    sofa_refusal f = kind == SOFA_SPHERICAL ? sofa_to_cartesian(values, 300) : sofa_to_spherical(values, 300);
    keep_refusal(r, f.reason, f.place);
    keep(r, values, sizeof values);
}

static void ask_tree(record *r, float unit) {
    static set_lists s;
    sofa_box box = {0, 0, 0, 0, 0, 0};
    memset(&s, 0, sizeof s);
    for (uint32_t i = 0; i < M; i++) {
        sofa_inserted in = sofa_tree_insert(i, box, s.positions, 3 * M, s.left, M, s.right, M, s.numbers, M, coordinate(3 * i, unit),
                                            coordinate(3 * i + 1, unit), coordinate(3 * i + 2, unit), (uint16_t)i);
        keep_refusal(r, in.reason, in.place);
        box = in.box;
        keep(r, &box, sizeof box);
    }
    keep(r, s.left, sizeof s.left);
    keep(r, s.right, sizeof s.right);
    for (uint32_t i = 500; i < 500 + ASKED; i++)
        keep_found(r, sofa_tree_nearest(M, box, s.positions, 3 * M, s.left, M, s.right, M, s.numbers, M, coordinate(3 * i, unit),
                                        coordinate(3 * i + 1, unit), coordinate(3 * i + 2, unit)));
}

static void ask_point(record *r, const set_lists *s, sofa_sizes sizes, sofa_lookup k, float x, float y, float z) {
    float point[3], out_left[N + 1], out_right[N + 1];
    point[0] = x, point[1] = y, point[2] = z;
    keep_found(r, sofa_find(sizes, k, s->cartesian, 3 * M, s->left, M, s->right, M, x, y, z));
    keep_found(r, sofa_find_mut(sizes, k, s->cartesian, 3 * M, s->left, M, s->right, M, point));
    keep(r, point, sizeof point);
    keep_filtered(r, sofa_filter(sizes, k, s->cartesian, 3 * M, s->left, M, s->right, M, s->neighbours, 6 * M, s->responses, M * R * N,
                                 s->delays, M * R, 44100, x, y, z, out_left, N + 1, out_right, N + 1));
    keep(r, out_left, sizeof out_left);
    keep(r, out_right, sizeof out_right);
    keep_filtered(r, sofa_filter_nointerp(sizes, k, s->cartesian, 3 * M, s->left, M, s->right, M, s->responses, M * R * N, s->delays,
                                          M * R, 44100, x, y, z, out_left, N + 1, out_right, N + 1));
    keep(r, out_left, sizeof out_left);
}

static void ask_set(record *r, uint32_t kind, float unit) {
    static set_lists s;
    sofa_sizes sizes = {M, 3, R, N};
    memset(&s, 0, sizeof s);
    for (uint32_t i = 0; i < 3 * M; i++)
        s.positions[i] = coordinate(i, unit);
    for (uint32_t i = 2; i < 3 * M && kind == SOFA_SPHERICAL; i += 3)
        s.positions[i] = 1 + (float)(i % 2);
    for (uint32_t i = 0; i < M * R * N; i++)
        s.responses[i] = coordinate(i, i % 3 == 0 ? 0x1p-148f : 0x1p-19f);
    for (uint32_t i = 0; i < M * R; i++)
        s.delays[i] = (float)i / 8;
    sofa_loaded k = sofa_load(kind, sizes, s.positions, 3 * M, s.responses, M * R * N, 5, 0.25f, 44100, s.left, M, s.right, M,
                              s.neighbours, 6 * M, s.cartesian, 3 * M);
    keep_refusal(r, k.reason, k.place);
    keep(r, &k.lookup, sizeof k.lookup);
    keep(r, &s, sizeof s);
    for (uint32_t i = 900; i < 900 + ASKED; i++)
        ask_point(r, &s, sizes, k.lookup, coordinate(3 * i, unit), coordinate(3 * i + 1, unit), coordinate(3 * i + 2, unit));
    for (size_t i = 0; i < M; i += 7) {
        float out_left[N], out_right[N];
        keep_filtered(r, sofa_filter_number(sizes, s.responses, M * R * N, s.delays, M * R, 44100, i, out_left, N, out_right, N));
        keep(r, out_right, sizeof out_right);
    }
    keep_value(r, sofa_max_delay(s.delays, M * R, 44100));
}

/* What the header names: a radius below 0 that is refused, the nearer of two that are close together, the root of a subnormal number. */
typedef struct {
    uint32_t reason;
    uint16_t number;
    float root;
} named;

static named ask_named(void) {
    float below[6] = {0, 0, 1, 0, 0, -1e-40f}, close[6] = {0, 0, 0, 1e-22f, 0, 0}, cartesian[6];
    uint16_t left[2], right[2], neighbours[12];
    sofa_sizes sizes = {2, 3, 2, 0};
    sofa_loaded refused = sofa_load(SOFA_SPHERICAL, sizes, below, 6, below, 0, 0.5f, 0.01f, 48000, left, 2, right, 2, neighbours, 12,
                                    cartesian, 6);
    sofa_loaded k = sofa_load(SOFA_CARTESIAN, sizes, close, 6, close, 0, 0.5f, 0.01f, 48000, left, 2, right, 2, neighbours, 12, cartesian,
                              6);
    named n;
    n.reason = refused.reason;
    n.number = sofa_find(sizes, k.lookup, cartesian, 6, left, 2, right, 2, 1e-22f, 0, 0).number;
    n.root = sofa_root(1e-40f);
    return n;
}

static __attribute__((noinline)) void ask(record *r) {
    r->count = 0;
    ask_numbers(r);
    ask_conversions(r, SOFA_CARTESIAN);
    ask_conversions(r, SOFA_SPHERICAL);
    ask_tree(r, 0x1p-18f);
    ask_tree(r, 0x1p-90f);
    ask_tree(r, 0x1p-149f);
    ask_set(r, SOFA_CARTESIAN, 0x1p-18f);
    ask_set(r, SOFA_CARTESIAN, 0x1p-90f);
    ask_set(r, SOFA_SPHERICAL, 0x1p-12f);
    named n = ask_named();
    keep(r, &n.reason, sizeof n.reason);
    keep(r, &n.number, sizeof n.number);
    keep_bits(r, n.root);
}

static void check_named(sofa_environment start) {
    named n = ask_named();
    check(n.reason == 4 && n.number == 1 && n.root > 9e-21f, "the answers that the header names", "the start");
    set(hosts[FLUSHED].is);
    n = ask_named();
    set(start);
    check(n.reason == 0, "a radius of -1e-40 is refused all the same", hosts[FLUSHED].name);
    check(n.number == 0, "the nearer of two is found all the same", hosts[FLUSHED].name);
    check(n.root < 9e-21f, "the root is right all the same", hosts[FLUSHED].name);
}


static record wanted, got;

int main(void) {
    sofa_environment start = get();
    ask(&wanted);
    for (int i = 0; i < HOSTS; i++) {
        set(hosts[i].is);
        sofa_environment host = sofa_enter();
        ask(&got);
        sofa_leave(host);
        sofa_environment after = get();
        set(start);
        check(after.control == hosts[i].is.control, "the host's environment is not back", hosts[i].name);
        check(after.status == hosts[i].is.status, "the host's flags are not back", hosts[i].name);
        check(got.count == wanted.count && memcmp(got.bytes, wanted.bytes, wanted.count) == 0, "an answer differs", hosts[i].name);
    }
    for (int i = 0; i < CHANGED; i++) {
        set(hosts[i].is);
        ask(&got);
        set(start);
        check(memcmp(got.bytes, wanted.bytes, wanted.count) != 0, "changes no answer: this test could not fail", hosts[i].name);
    }
    check_named(start);
    printf("environment: %zu bytes of answers the same in %d environments of a host, and other ones in %d of them without sofa_enter\n",
           wanted.count, (int)HOSTS, (int)CHANGED);
    return failed != 0;
}
