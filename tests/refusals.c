/* SPDX-License-Identifier: MIT OR Apache-2.0 */
/*
 * Each refusal, 1 to 9, met from C on every call that can give it, alone and together with each later one; and what each lent list holds
 * afterwards, byte for byte, with the bytes before and behind it. Then what successful calls write, and the ends of what is allowed.
 *
 * A fault spoils one argument of a call that would otherwise succeed. Each call is made once more with lists that end where memory ends, so
 * that reading past an end shows too; and where it is refused 1, 2 or 3, with lists that no one may read or write: sizes whose products
 * would wrap must not lead there.
 */
#include <math.h>
#include <stdio.h>
#include <stdlib.h>
#include <string.h>
#include <sys/mman.h>

#include "sofa.h"

enum { M = 4, R = 2, N = 3, SPARE = 5, GUARD = 64, ROOM = 256 };

/* ---- the lists that a host lends */

enum { POSITIONS, RESPONSES, DELAYS, LEFT, RIGHT, NEIGHBOURS, CARTESIAN, NUMBERS, POINT, VALUES, OUT_LEFT, OUT_RIGHT, LISTS };

static const size_t width[LISTS] = {4, 4, 4, 2, 2, 2, 4, 2, 4, 4, 4, 4};
static const char *const list_name[LISTS] = {"positions", "responses", "delays", "left", "right", "neighbours", "cartesian", "numbers",
                                             "coordinates", "values", "out_left", "out_right"};

typedef unsigned char memory[LISTS][GUARD + 4 * ROOM + GUARD];
static _Alignas(64) memory lent;
static memory before;
static unsigned char *closed;      /* pages that no one may read or write */
static unsigned char *edge[LISTS]; /* for each list an end of memory: such a page behind one that may be used */

typedef struct {
    uint32_t kind;
    sofa_sizes sizes;
    sofa_lookup lookup;
    unsigned char *at[LISTS];
    size_t length[LISTS];
    float angle_step, radius_step, rate, x, y, z;
    size_t number, count;
} arguments;

#define REALS(a, l) ((float *)(a)->at[l])
#define SHORTS(a, l) ((uint16_t *)(a)->at[l])
#define LEND_REALS(a, l) REALS(a, l), (a)->length[l]
#define LEND_SHORTS(a, l) SHORTS(a, l), (a)->length[l]
#define TREE(a) LEND_REALS(a, CARTESIAN), LEND_SHORTS(a, LEFT), LEND_SHORTS(a, RIGHT)
#define WORK(a) LEND_SHORTS(a, LEFT), LEND_SHORTS(a, RIGHT), LEND_SHORTS(a, NEIGHBOURS), LEND_REALS(a, CARTESIAN)
#define SOUND(a) LEND_REALS(a, RESPONSES), LEND_REALS(a, DELAYS), (a)->rate
#define OUT(a) LEND_REALS(a, OUT_LEFT), LEND_REALS(a, OUT_RIGHT)

/* ---- the calls, each answer as its refusal and whether every other field is what the header says of a refused one */

typedef struct {
    uint32_t reason;
    size_t place;
    int bare;
} answer;

static int plus_zero(float x) {
    return x == 0 && !signbit(x);
}

static int no_box(sofa_box b) {
    return plus_zero(b.min_x) && plus_zero(b.min_y) && plus_zero(b.min_z) && plus_zero(b.max_x) && plus_zero(b.max_y) && plus_zero(b.max_z);
}

static answer of_value(sofa_value v) {
    return (answer){v.reason, v.place, plus_zero(v.value)};
}

static answer of_found(sofa_found f) {
    return (answer){f.reason, f.place, f.number == SOFA_ABSENT};
}

static answer of_filtered(sofa_filtered f) {
    return (answer){f.reason, f.place, f.blended == 0 && f.points == 0 && plus_zero(f.ldelay) && plus_zero(f.rdelay)};
}

static answer of_part(sofa_part p) {
    return (answer){p.reason, p.place, p.start == 0 && p.count == 0};
}

static answer load(arguments *a) {
    sofa_loaded s = sofa_load(a->kind, a->sizes, LEND_REALS(a, POSITIONS), LEND_REALS(a, RESPONSES), a->angle_step, a->radius_step, a->rate,
                              WORK(a));
    sofa_lookup k = s.lookup;
    if (s.reason == 0)
        a->lookup = k;
    return (answer){s.reason, s.place, no_box(k.box) && plus_zero(k.phi_min) && plus_zero(k.phi_max) && plus_zero(k.theta_min)
                                           && plus_zero(k.theta_max) && plus_zero(k.radius_min) && plus_zero(k.radius_max)};
}

static answer find(arguments *a) {
    return of_found(sofa_find(a->sizes, a->lookup, TREE(a), a->x, a->y, a->z));
}

static answer find_mut(arguments *a) {
    return of_found(sofa_find_mut(a->sizes, a->lookup, TREE(a), REALS(a, POINT)));
}

static answer filter(arguments *a) {
    return of_filtered(sofa_filter(a->sizes, a->lookup, TREE(a), LEND_SHORTS(a, NEIGHBOURS), SOUND(a), a->x, a->y, a->z, OUT(a)));
}

static answer plain(arguments *a) {
    return of_filtered(sofa_filter_nointerp(a->sizes, a->lookup, TREE(a), SOUND(a), a->x, a->y, a->z, OUT(a)));
}

static answer by_number(arguments *a) {
    return of_filtered(sofa_filter_number(a->sizes, SOUND(a), a->number, OUT(a)));
}

static answer left_part(arguments *a) {
    return of_part(sofa_left_response(a->sizes, LEND_REALS(a, RESPONSES), a->number));
}

static answer right_part(arguments *a) {
    return of_part(sofa_right_response(a->sizes, LEND_REALS(a, RESPONSES), a->number));
}

static answer six(arguments *a) {
    sofa_neighbors s = sofa_neighbors_of(a->sizes, LEND_SHORTS(a, NEIGHBOURS), a->number);
    return (answer){s.reason, s.place, s.phi_plus == SOFA_ABSENT && s.phi_minus == SOFA_ABSENT && s.theta_plus == SOFA_ABSENT
                                           && s.theta_minus == SOFA_ABSENT && s.radius_plus == SOFA_ABSENT && s.radius_minus == SOFA_ABSENT};
}

static answer longest(arguments *a) {
    return of_value(sofa_max_delay(LEND_REALS(a, DELAYS), a->rate));
}

static answer to_spherical(arguments *a) {
    sofa_refusal r = sofa_to_spherical(LEND_REALS(a, VALUES));
    return (answer){r.reason, r.place, 1};
}

static answer to_cartesian(arguments *a) {
    sofa_refusal r = sofa_to_cartesian(LEND_REALS(a, VALUES));
    return (answer){r.reason, r.place, 1};
}

static answer insert(arguments *a) {
    sofa_inserted i = sofa_tree_insert(a->count, a->lookup.box, TREE(a), LEND_SHORTS(a, NUMBERS), a->x, a->y, a->z, 77);
    return (answer){i.reason, i.place, no_box(i.box)};
}

static answer nearest(arguments *a) {
    return of_found(sofa_tree_nearest(a->count, a->lookup.box, TREE(a), LEND_SHORTS(a, NUMBERS), a->x, a->y, a->z));
}

static answer sine(arguments *a) {
    return of_value(sofa_sine(a->x));
}

static answer cosine(arguments *a) {
    return of_value(sofa_cosine(a->x));
}

static answer arctangent(arguments *a) {
    return of_value(sofa_arctangent(a->x, a->y));
}

static const struct {
    const char *name;
    answer (*ask)(arguments *);
} calls[] = {
    {"load", load},
    {"find", find},
    {"find_mut", find_mut},
    {"filter", filter},
    {"filter_nointerp", plain},
    {"filter_number", by_number},
    {"left_response", left_part},
    {"right_response", right_part},
    {"neighbors_of", six},
    {"max_delay", longest},
    {"to_spherical", to_spherical},
    {"to_cartesian", to_cartesian},
    {"tree_insert", insert},
    {"tree_nearest", nearest},
    {"sine", sine},
    {"cosine", cosine},
    {"arctangent", arctangent},
};
enum { CALLS = sizeof calls / sizeof calls[0] };

enum {
    LOAD = 1,
    FIND = 2,
    FIND_MUT = 4,
    FILTER = 8,
    PLAIN = 16,
    NUMBER = 32,
    PARTS = 64 | 128,
    SIX = 256,
    LONGEST = 512,
    TO_SPHERICAL = 1024,
    TO_CARTESIAN = 2048,
    INSERT = 4096,
    NEAREST = 8192,
    WAVES = 16384 | 32768,
    ARCTANGENT = 65536,
    FILTERS = FILTER | PLAIN,
    SEARCHES = FIND | FIND_MUT | FILTERS,
    SIZED = LOAD | SEARCHES | NUMBER | PARTS | SIX,
    RATED = LOAD | FILTERS | NUMBER | LONGEST,
    LOUD = FILTERS | NUMBER /* calls that have outputs */
};

/* where a call stands among the calls */
static int index_of(unsigned call) {
    int index = 0;
    while ((call >> index & 1) == 0)
        index++;
    return index;
}

/* ---- the faults, in the order in which they are met */

enum { KIND, SIZE_M, SIZE_C, SIZE_R, SIZE_N, LENGTH, REAL, SHORT, ANGLE_STEP, RADIUS_STEP, RATE, X, Y, Z, A_NUMBER, COUNT, SHARED };

typedef struct {
    unsigned calls;
    uint32_t reason;
    size_t place;
    int what, list;
    size_t whole;
    float real;
} fault;

#define MOST SIZE_MAX
#define SIZE(what, value) {SIZED, 2, 0, what, 0, value, 0}
#define LONG(calls, list, length) {calls, 3, 0, LENGTH, list, length, 0}
#define VALUE(calls, list, index, value) {calls, 4, index, REAL, list, index, value}
#define STEP(what, place, value) {LOAD, 5, place, what, 0, 0, value}
#define BAD_RATE(value) {RATED, 6, 0, RATE, 0, 0, value}
#define AXIS(calls, place, what, value) {calls, 7, place, what, 0, 0, value}
#define POINT_AT(place, value) {FIND_MUT, 7, place, REAL, POINT, place, value}
#define NUMBERED(value) {NUMBER | PARTS | SIX, 8, value, A_NUMBER, 0, value, 0}
#define LINK(calls, list, index, value) {calls, 9, 0, SHORT, list, index, value}

static const fault faults[] = {
    {LOAD, 1, 2, KIND, 0, 2, 0},
    {LOAD, 1, 255, KIND, 0, 255, 0},
    {LOAD, 1, UINT32_MAX, KIND, 0, UINT32_MAX, 0},
    SIZE(SIZE_M, 0),
    SIZE(SIZE_M, 16385),
    SIZE(SIZE_M, MOST),
    SIZE(SIZE_M, MOST / 2 + 1),
    SIZE(SIZE_M, MOST / 3 + 1), /* 3m would be 2 */
    SIZE(SIZE_M, MOST / 6 + 1), /* 6m would be 2 */
    SIZE(SIZE_C, 0),
    SIZE(SIZE_C, 2),
    SIZE(SIZE_C, 4),
    SIZE(SIZE_C, MOST),
    SIZE(SIZE_R, 0),
    SIZE(SIZE_R, 1),
    SIZE(SIZE_R, 9),
    SIZE(SIZE_R, MOST),
    SIZE(SIZE_R, MOST / M + 1), /* m*r would be 0 */
    SIZE(SIZE_N, 8193),
    SIZE(SIZE_N, MOST),
    SIZE(SIZE_N, MOST / (M * R) + 1), /* m*r*n would be 0 */
    LONG(LOAD, POSITIONS, 3 * M - 1),
    LONG(LOAD, POSITIONS, 3 * M + 1),
    LONG(LOAD, POSITIONS, 0),
    LONG(LOAD | SEARCHES | NEAREST, CARTESIAN, 3 * M - 1),
    LONG(INSERT, CARTESIAN, 3 * M + 2),
    LONG(LOAD | SEARCHES | NEAREST, LEFT, M - 1),
    LONG(INSERT, LEFT, M),
    LONG(LOAD | SEARCHES | NEAREST, RIGHT, M - 1),
    LONG(INSERT, RIGHT, M),
    LONG(NEAREST, NUMBERS, M - 1),
    LONG(INSERT, NUMBERS, M),
    LONG(LOAD | FILTERS | NUMBER | PARTS, RESPONSES, M *R *N - 1),
    LONG(LOAD | FILTERS | NUMBER | PARTS, RESPONSES, 0),
    LONG(LOAD | FILTER | SIX, NEIGHBOURS, 6 * M - 1),
    LONG(LOAD | FILTER | SIX, NEIGHBOURS, 0),
    {INSERT, 3, 0, COUNT, 0, 16384, 0},
    {INSERT | NEAREST, 3, 0, COUNT, 0, 16385, 0},
    {INSERT | NEAREST, 3, 0, COUNT, 0, MOST, 0}, /* count + 1 would be 0 */
    {INSERT | NEAREST, 3, 0, COUNT, 0, MOST / 3 + 1, 0},
    VALUE(LOAD, POSITIONS, 0, NAN),
    VALUE(LOAD, POSITIONS, 4, 10000.001f),
    VALUE(LOAD, POSITIONS, 5, -10000.001f),
    VALUE(LOAD, POSITIONS, 3 * M - 1, INFINITY),
    VALUE(TO_SPHERICAL, VALUES, 1, 10000.001f),
    VALUE(TO_SPHERICAL, VALUES, 4, -INFINITY),
    VALUE(TO_SPHERICAL, VALUES, 5, NAN),
    VALUE(TO_CARTESIAN, VALUES, 0, 720.00006f),
    VALUE(TO_CARTESIAN, VALUES, 1, -720.00006f),
    VALUE(TO_CARTESIAN, VALUES, 2, -1e-45f),
    VALUE(TO_CARTESIAN, VALUES, 5, 10000.001f),
    STEP(ANGLE_STEP, 0, 0.099999994f),
    STEP(ANGLE_STEP, 0, 45.000004f),
    STEP(ANGLE_STEP, 0, NAN),
    STEP(RADIUS_STEP, 1, 0.0009999999f),
    STEP(RADIUS_STEP, 1, 1.0000001f),
    STEP(RADIUS_STEP, 1, -0.5f),
    BAD_RATE(999.99994f),
    BAD_RATE(384000.03f),
    BAD_RATE(0),
    BAD_RATE(NAN),
    BAD_RATE(INFINITY),
    AXIS(FIND | FILTERS | WAVES | ARCTANGENT, 0, X, NAN),
    AXIS(FIND | FILTERS | WAVES | ARCTANGENT, 0, X, INFINITY),
    AXIS(WAVES, 0, X, 16.000002f),
    AXIS(WAVES, 0, X, -16.000002f),
    AXIS(FIND | FILTERS | ARCTANGENT, 1, Y, -INFINITY),
    AXIS(FIND | FILTERS, 2, Z, NAN),
    POINT_AT(0, -INFINITY),
    POINT_AT(1, NAN),
    POINT_AT(2, INFINITY),
    NUMBERED(M),
    NUMBERED(65535),
    NUMBERED(MOST),
    LINK(SEARCHES | NEAREST, LEFT, 0, 0), /* not above its owner */
    LINK(SEARCHES | NEAREST, RIGHT, 0, M),
    LINK(SEARCHES | NEAREST, RIGHT, 0, 65534),
    LINK(INSERT, LEFT, 0, M),
    LINK(FILTER, NEIGHBOURS, 0, M),
    LINK(FILTER, NEIGHBOURS, 1, 65534), /* the second of a pair is met too */
    LINK(FILTER, NEIGHBOURS, 5, M),
    {SEARCHES | NEAREST, 9, 0, SHARED, 0, 0, 0}, /* each link is allowed, and visit m + 1 begins */
};
enum { FAULTS = sizeof faults / sizeof faults[0] };

/* Every place is linked twice to the next, and the box leaves no side out. */
static void share(arguments *a) {
    for (uint16_t i = 0; i < M; i++) {
        SHORTS(a, LEFT)[i] = SHORTS(a, RIGHT)[i] = i + 1 < M ? (uint16_t)(i + 1) : (uint16_t)SOFA_ABSENT;
        for (int axis = 0; axis < 3; axis++)
            REALS(a, CARTESIAN)[3 * i + axis] = 0;
    }
    a->lookup = (sofa_lookup){{-9, -9, -9, 9, 9, 9}, 0, 360, -90, 90, 0, 9};
    a->x = a->y = a->z = 1;
    for (int axis = 0; axis < 3; axis++)
        REALS(a, POINT)[axis] = 1;
}

static void spoil(arguments *a, const fault *f) {
    switch (f->what) {
    case KIND: a->kind = (uint32_t)f->whole; break;
    case SIZE_M: a->sizes.m = f->whole; break;
    case SIZE_C: a->sizes.c = f->whole; break;
    case SIZE_R: a->sizes.r = f->whole; break;
    case SIZE_N: a->sizes.n = f->whole; break;
    case LENGTH: a->length[f->list] = f->whole; break;
    case REAL: REALS(a, f->list)[f->whole] = f->real; break;
    case SHORT: SHORTS(a, f->list)[f->whole] = (uint16_t)f->real; break;
    case ANGLE_STEP: a->angle_step = f->real; break;
    case RADIUS_STEP: a->radius_step = f->real; break;
    case RATE: a->rate = f->real; break;
    case X: a->x = f->real; break;
    case Y: a->y = f->real; break;
    case Z: a->z = f->real; break;
    case A_NUMBER: a->number = f->whole; break;
    case COUNT: a->count = f->whole; break;
    case SHARED: share(a); break;
    }
}

/* ---- a set that is in order */

static const float points[3 * M] = {1, 0, 0, 0, 1, 0, -1, 0, 0, 0, 0, 1};
static const size_t length[LISTS] = {3 * M,         M * R * N, M * R,     M + SPARE, M + SPARE, 6 * M + SPARE,
                                     3 * M + SPARE, M + SPARE, 3,         8,         N + 2,     N + 1};

/* Each byte of all memory is one that tells its place, so that a write shows. */
static void paint(unsigned char seed) {
    unsigned char *bytes = (unsigned char *)lent;
    for (size_t i = 0; i < sizeof lent; i++)
        bytes[i] = (unsigned char)(seed + 37 * i);
}

static arguments made_ready(void) {
    arguments a = {SOFA_CARTESIAN, {M, 3, R, N}, {{0, 0, 0, 0, 0, 0}, 0, 0, 0, 0, 0, 0}, {0}, {0}, 45, 0.5f, 48000, 0.75f, 0.5f, 0.25f, 1, M};
    paint(0xa5);
    for (int l = 0; l < LISTS; l++) {
        a.at[l] = lent[l] + GUARD;
        a.length[l] = length[l];
    }
    memcpy(a.at[POSITIONS], points, sizeof points);
    for (int i = 0; i < M * R * N; i++)
        REALS(&a, RESPONSES)[i] = (float)i / 8 - 1;
    for (int i = 0; i < M * R; i++)
        REALS(&a, DELAYS)[i] = (float)(6 * i);
    for (int i = 0; i < 8; i++)
        REALS(&a, VALUES)[i] = (float)(i % 3 + 1);
    REALS(&a, POINT)[0] = 0.75f, REALS(&a, POINT)[1] = 0.5f, REALS(&a, POINT)[2] = 0.25f;
    for (int i = 0; i < M; i++)
        SHORTS(&a, NUMBERS)[i] = (uint16_t)(100 + i);
    answer ready = load(&a);
    if (ready.reason != 0) {
        printf("the set in order is refused %u\n", ready.reason);
        exit(1);
    }
    return a;
}

/* The loaded set, as it was after its load. */
static arguments in_order(void) {
    static memory kept;
    static arguments a;
    if (a.at[0] == NULL) {
        a = made_ready();
        memcpy(kept, lent, sizeof lent);
    }
    memcpy(lent, kept, sizeof lent);
    return a;
}

/* ---- checks */

static unsigned long checks, failed;

static void check(int holds, const char *call, const char *what, size_t first, size_t second) {
    checks++;
    if (holds)
        return;
    failed++;
    printf("failed: %s: %s (%zu, %zu)\n", call, what, first, second);
}

static int same(const unsigned char *a, const unsigned char *b, size_t bytes) {
    return memcmp(a, b, bytes) == 0;
}

/* A list as it was, guards and all, but for the first `silent` elements, which are +0. */
static void check_list(const char *call, int l, size_t silent, size_t first, size_t second) {
    static const unsigned char zeros[4 * ROOM];
    size_t bytes = silent * width[l];
    int kept = same(lent[l], before[l], GUARD) && same(lent[l] + GUARD, zeros, bytes)
               && same(lent[l] + GUARD + bytes, before[l] + GUARD + bytes, sizeof lent[l] - GUARD - bytes);
    check(kept, call, list_name[l], first, second);
}

static void check_lists(int call, const arguments *a, size_t first, size_t second) {
    int loud = (LOUD >> call) & 1;
    for (int l = 0; l < LISTS; l++)
        check_list(calls[call].name, l, loud && l >= OUT_LEFT ? a->length[l] : 0, first, second);
}

static void check_refused(int call, arguments *a, const fault *f, size_t first, size_t second) {
    memcpy(before, lent, sizeof lent);
    answer r = calls[call].ask(a);
    check(r.reason == f->reason, calls[call].name, "reason", first, second);
    check(r.place == f->place, calls[call].name, "place", first, second);
    check(r.bare, calls[call].name, "the rest of the answer", first, second);
    check_lists(call, a, first, second);
}

/* The same call over lists that may not be touched: all that have a length, but for the outputs, which are written in any case. */
static void check_untouched(int call, arguments *a, const fault *f, size_t index) {
    for (int l = 0; l < OUT_LEFT; l++)
        if (l != POINT)
            a->at[l] = closed;
    check_refused(call, a, f, index, index);
}

/* The same call over lists that end where memory ends. */
static void check_at_the_edge(int call, arguments *a, uint32_t reason, size_t place, size_t index) {
    for (int l = 0; l < LISTS; l++) {
        unsigned char *start = edge[l] - a->length[l] * width[l];
        memcpy(start, a->at[l], a->length[l] * width[l]);
        a->at[l] = start;
    }
    answer r = calls[call].ask(a);
    check(r.reason == reason && r.place == place, calls[call].name, "at the edge of memory", index, r.reason);
}

static void check_faults(void) {
    for (int call = 0; call < CALLS; call++)
        for (size_t i = 0; i < FAULTS; i++) {
            if (!((faults[i].calls >> call) & 1))
                continue;
            for (size_t j = i; j < FAULTS; j++) {
                if (!((faults[j].calls >> call) & 1) || (j != i && faults[i].what == SHARED))
                    continue;
                arguments a = in_order();
                spoil(&a, &faults[j]);
                spoil(&a, &faults[i]);
                check_refused(call, &a, &faults[i], i, j);
                if (i == j && faults[i].reason <= 3)
                    check_untouched(call, &a, &faults[i], i);
            }
            arguments a = in_order();
            spoil(&a, &faults[i]);
            check_at_the_edge(call, &a, faults[i].reason, faults[i].place, i);
        }
}

/* Every reason was met, and no call is refused where nothing is spoilt. */
static void check_table(void) {
    for (uint32_t reason = 1; reason <= 9; reason++) {
        int met = 0;
        for (size_t i = 0; i < FAULTS; i++)
            met |= faults[i].reason == reason;
        check(met, "the table", "a reason", reason, 0);
    }
    for (int call = 0; call < CALLS; call++) {
        arguments a = in_order();
        check(calls[call].ask(&a).reason == 0, calls[call].name, "is refused in order", 0, 0);
        a = in_order();
        check_at_the_edge(call, &a, 0, 0, 0);
    }
}

/* ---- what successful calls write */

/* A load writes every entry up to 3m, m, m and 6m, whatever was there, and none past them. */
static void check_load_writes(uint32_t kind) {
    static memory first;
    static const int work[4] = {LEFT, RIGHT, NEIGHBOURS, CARTESIAN};
    static const size_t written[4] = {M, M, 6 * M, 3 * M};
    for (int seed = 0; seed < 2; seed++) {
        arguments a = in_order();
        a.kind = kind;
        for (int i = 0; i < M && kind == SOFA_SPHERICAL; i++) {
            REALS(&a, POSITIONS)[3 * i] = 90 * (float)i;
            REALS(&a, POSITIONS)[3 * i + 1] = 30 * (float)(i % 2);
            REALS(&a, POSITIONS)[3 * i + 2] = 2;
        }
        for (int w = 0; w < 4; w++)
            memset(a.at[work[w]], seed == 0 ? 0x5a : 0xc3, a.length[work[w]] * width[work[w]]);
        memcpy(before, lent, sizeof lent);
        check(load(&a).reason == 0, "load", "is refused", kind, (size_t)seed);
        for (int w = 0; w < 4; w++) {
            int l = work[w];
            size_t bytes = written[w] * width[l];
            int rest = same(lent[l], before[l], GUARD)
                       && same(lent[l] + GUARD + bytes, before[l] + GUARD + bytes, sizeof lent[l] - GUARD - bytes);
            check(rest, "load", "writes past an end", kind, (size_t)l);
            check(seed == 0 || same(lent[l] + GUARD, first[l] + GUARD, bytes), "load", "leaves an entry", kind, (size_t)l);
            memcpy(before[l], lent[l], sizeof lent[l]);
        }
        check_lists(index_of(LOAD), &a, kind, (size_t)seed); /* all others as they were */
        memcpy(first, lent, sizeof lent);
    }
}

/* An output holds n samples, as far as it has room, and +0 in the rest. */
static void check_outputs(int call) {
    for (size_t room = 0; room <= N + 2; room++) {
        arguments a = in_order();
        a.x = 1, a.y = 0, a.z = 0, a.number = 0; /* measurement 0, in all three calls */
        a.length[OUT_LEFT] = a.length[OUT_RIGHT] = room;
        memcpy(before, lent, sizeof lent);
        check(calls[call].ask(&a).reason == 0, calls[call].name, "is refused", room, 0);
        for (size_t i = 0; i < room; i++) {
            float l = REALS(&a, OUT_LEFT)[i], r = REALS(&a, OUT_RIGHT)[i];
            check(i < N ? l == REALS(&a, RESPONSES)[i] : plus_zero(l), calls[call].name, "a left sample", room, i);
            check(i < N ? r == REALS(&a, RESPONSES)[N + i] : plus_zero(r), calls[call].name, "a right sample", room, i);
        }
        memcpy(before[OUT_LEFT] + GUARD, lent[OUT_LEFT] + GUARD, 4 * room);
        memcpy(before[OUT_RIGHT] + GUARD, lent[OUT_RIGHT] + GUARD, 4 * room);
        for (int l = 0; l < LISTS; l++)
            check_list(calls[call].name, l, 0, room, 0);
    }
}

/* Two values left over are neither read nor written. */
static void check_conversion_writes(void) {
    arguments a = in_order();
    REALS(&a, VALUES)[6] = NAN, REALS(&a, VALUES)[7] = 1e38f;
    memcpy(before, lent, sizeof lent);
    check(to_spherical(&a).reason == 0, "to_spherical", "is refused", 0, 0);
    memcpy(before[VALUES] + GUARD, lent[VALUES] + GUARD, 4 * 6);
    check_lists(index_of(TO_SPHERICAL), &a, 0, 0);
}

/* An insert writes its own cells and one link. */
static void check_insert_writes(void) {
    static const size_t first[LISTS] = {[LEFT] = M, [RIGHT] = M, [CARTESIAN] = 3 * M, [NUMBERS] = M};
    static const size_t cells[LISTS] = {[LEFT] = 1, [RIGHT] = 1, [CARTESIAN] = 3, [NUMBERS] = 1};
    arguments a = in_order();
    size_t linked = 0;
    memcpy(before, lent, sizeof lent);
    check(insert(&a).reason == 0, "tree_insert", "is refused", 0, 0);
    for (int i = 0; i < M; i++)
        for (int l = LEFT; l <= RIGHT; l++)
            if (SHORTS(&a, l)[i] == M) {
                linked++;
                memcpy(before[l] + GUARD + 2 * i, lent[l] + GUARD + 2 * i, 2);
            }
    const float *p = REALS(&a, CARTESIAN) + 3 * M;
    check(linked == 1, "tree_insert", "writes one link", linked, 0);
    check(SHORTS(&a, LEFT)[M] == SOFA_ABSENT && SHORTS(&a, RIGHT)[M] == SOFA_ABSENT, "tree_insert", "its own links", 0, 0);
    check(SHORTS(&a, NUMBERS)[M] == 77 && p[0] == a.x && p[1] == a.y && p[2] == a.z, "tree_insert", "number and position", 0, 0);
    for (int l = 0; l < LISTS; l++)
        memcpy(before[l] + GUARD + first[l] * width[l], lent[l] + GUARD + first[l] * width[l], cells[l] * width[l]);
    check_lists(index_of(INSERT), &a, 0, 0);
}

/* find_mut leaves the point drawn to the measured radii. */
static void check_find_mut_writes(void) {
    arguments a = in_order();
    float *p = REALS(&a, POINT);
    p[0] = 4, p[1] = 0, p[2] = 0;
    memcpy(before, lent, sizeof lent);
    check(sofa_find_mut(a.sizes, a.lookup, TREE(&a), p).number == 0, "find_mut", "number", 0, 0);
    check(p[0] == 1 && p[1] == 0 && p[2] == 0, "find_mut", "the point", 0, 0);
    memcpy(before[POINT] + GUARD, lent[POINT] + GUARD, 3 * width[POINT]);
    check_lists(index_of(FIND_MUT), &a, 0, 0);
}

/* An exact query meets no neighbour: a bad one does not refuse it. */
static void check_exact_meets_none(void) {
    arguments a = in_order();
    a.x = 1, a.y = 0, a.z = 0;
    SHORTS(&a, NEIGHBOURS)[0] = M;
    check(filter(&a).reason == 0, "filter", "exact over a bad neighbour", 0, 0);
    a.y = 1e-3f;
    check(filter(&a).reason == 9, "filter", "blended over a bad neighbour", 0, 0);
}

/* ---- the ends of what is allowed */

static void check_allowed(const char *what, unsigned mask, arguments *a) {
    for (int call = 0; call < CALLS; call++)
        if ((mask >> call) & 1)
            check(calls[call].ask(a).reason == 0, calls[call].name, what, 0, 0);
}

static void check_value_ends(void) {
    static const float rates[2] = {1000, 384000}, steps[2] = {0.1f, 45}, radius_steps[2] = {0.001f, 1}, waves[3] = {16, -16, -0.0f};
    arguments a;
    for (int i = 0; i < 2; i++) {
        a = in_order();
        a.rate = rates[i];
        check_allowed("a rate at the end", RATED, &a);
        a.angle_step = steps[i], a.radius_step = radius_steps[i];
        check_allowed("a step at the end", LOAD, &a);
        REALS(&a, POSITIONS)[0] = 10000, REALS(&a, POSITIONS)[4] = -10000;
        check_allowed("a position at the end", LOAD, &a);
    }
    for (int i = 0; i < 3; i++) {
        a = in_order();
        a.x = waves[i];
        check_allowed("an angle at the end", WAVES | ARCTANGENT, &a);
    }
    a = in_order();
    REALS(&a, VALUES)[0] = 720, REALS(&a, VALUES)[1] = -720, REALS(&a, VALUES)[2] = -0.0f, REALS(&a, VALUES)[5] = 10000;
    check_allowed("angles and radii at the ends", TO_CARTESIAN, &a);
}

static void check_size_ends(void) {
    arguments a = in_order();
    a.sizes = (sofa_sizes){1, 3, 8, 0}; /* nothing is read of the responses: an empty list will do */
    a.length[POSITIONS] = 3, a.length[RESPONSES] = 0, a.number = 0;
    check_allowed("sizes at the ends", SIZED, &a);
    a = in_order();
    a.number = M - 1;
    check_allowed("the last number", NUMBER | PARTS | SIX, &a);
    a.count = 0;
    check(sofa_tree_nearest(0, a.lookup.box, TREE(&a), LEND_SHORTS(&a, NUMBERS), 0, 0, 0).number == SOFA_ABSENT, "tree_nearest", "empty", 0, 0);
    SHORTS(&a, NUMBERS)[0] = SOFA_ABSENT; /* a place may keep it: the count alone tells this tree from an empty one */
    check(sofa_tree_nearest(1, a.lookup.box, TREE(&a), LEND_SHORTS(&a, NUMBERS), 0, 0, 0).number == SOFA_ABSENT, "tree_nearest", "65535 kept", 0, 0);
    check_allowed("an empty tree", INSERT | NEAREST, &a);
}

/* Beside a count of 0 a pointer is not used. */
static void check_no_pointers(void) {
    arguments a = in_order();
    a.sizes.n = a.count = 0;
    for (int l = 0; l < LISTS; l++)
        if (l == RESPONSES || l == DELAYS || l == VALUES || l >= OUT_LEFT)
            a.at[l] = NULL, a.length[l] = 0;
    check_allowed("no pointer beside a count of 0", LOAD | FILTERS | NUMBER | PARTS | LONGEST | TO_SPHERICAL | TO_CARTESIAN, &a);
    for (int l = 0; l < LISTS; l++)
        a.at[l] = NULL, a.length[l] = 0;
    check_allowed("no pointer beside a count of 0", NEAREST, &a);
}

/* 16384 measurements on a sphere are loaded, 16385 are refused 2; a step of 45 is allowed, the next float is refused 5. */
static void check_greatest(void) {
    enum { GREAT = 16384 };
    static float positions[3 * GREAT + 3], cartesian[3 * GREAT + 3];
    static uint16_t left[GREAT + 1], right[GREAT + 1], neighbours[6 * GREAT + 6];
    for (int i = 0; i < GREAT + 1; i++) {
        int k = i * 7919 % (GREAT + 1); /* in no order, so that the tree is not deep */
        float z = 1 - (2 * (float)k + 1) / (GREAT + 1), r = sqrtf(1 - z * z), turn = 2.3999632f * (float)k;
        positions[3 * i] = r * cosf(turn), positions[3 * i + 1] = r * sinf(turn), positions[3 * i + 2] = z;
    }
    for (size_t m = GREAT; m <= GREAT + 1; m++) {
        sofa_sizes sizes = {m, 3, 2, 0};
        float steps[2] = {45, 45.000004f};
        for (int s = 0; s < 2; s++) {
            sofa_loaded l = sofa_load(SOFA_CARTESIAN, sizes, positions, 3 * m, NULL, 0, steps[s], 0.5f, 48000, left, m, right, m, neighbours, 6 * m,
                                      cartesian, 3 * m);
            check(l.reason == (m > GREAT ? 2u : s == 0 ? 0u : 5u) && l.place == 0, "load", "the greatest set", m, (size_t)s);
            if (l.reason != 0)
                continue;
            const float *last = positions + 3 * (m - 1);
            sofa_found f = sofa_find(sizes, l.lookup, cartesian, 3 * m, left, m, right, m, last[0], last[1], last[2]);
            check(f.reason == 0 && f.number == m - 1, "find", "the last measurement", m, f.number);
        }
    }
}

int main(void) {
    enum { PAGES = 1 << 16 };
    closed = mmap(NULL, PAGES, PROT_NONE, MAP_PRIVATE | MAP_ANONYMOUS, -1, 0);
    if (closed == MAP_FAILED)
        return 2;
    for (int l = 0; l < LISTS; l++) {
        unsigned char *pages = mmap(NULL, 2 * PAGES, PROT_NONE, MAP_PRIVATE | MAP_ANONYMOUS, -1, 0);
        if (pages == MAP_FAILED || mprotect(pages, PAGES, PROT_READ | PROT_WRITE) != 0)
            return 2;
        edge[l] = pages + PAGES;
    }
    setvbuf(stdout, NULL, _IOLBF, 0);
    check_table();
    check_faults();
    check_load_writes(SOFA_CARTESIAN), check_load_writes(SOFA_SPHERICAL);
    check_outputs(index_of(FILTER)), check_outputs(index_of(PLAIN)), check_outputs(index_of(NUMBER));
    check_conversion_writes();
    check_insert_writes();
    check_find_mut_writes();
    check_exact_meets_none();
    check_value_ends();
    check_size_ends();
    check_no_pointers();
    check_greatest();
    printf("refusals from C: %lu checks, %lu failed\n", checks, failed);
    return failed != 0;
}
