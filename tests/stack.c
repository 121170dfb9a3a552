/* SPDX-License-Identifier: MIT OR Apache-2.0 */
/*
 * How much stack each call takes: it is made in a thread whose stack was painted, and the paint that is gone is measured. Searches and
 * inserts are made in chains of two depths, which gives the bytes of a level and the rest. Prints the call, the rest and the bytes of a
 * level; tests/hosts holds them to the header's figures for each call, and here they are held to the header's limits for all.
 */
#include <pthread.h>
#include <stdio.h>
#include <string.h>

#include "sofa.h"

enum { MOST = 16384, STACK = 8 << 20 };

static const uint64_t PAINT = 0x5ad7c35ad7c35ad7;

static float positions[3 * MOST], cartesian[3 * MOST], out[2][64];
static uint16_t left[MOST + 1], right[MOST + 1], numbers[MOST + 1], neighbours[6 * MOST];
static float responses[2 * 64];
static float values[6], coordinates[3];
static size_t depth; /* of the chain that the call is made in */
static sofa_sizes sizes;
static sofa_lookup lookup;
static uint32_t reason; /* of the last answer: every call is to succeed */

#define TREE cartesian, 3 * depth, left, depth, right, depth
#define OUT out[0], 64, out[1], 64

static void load(void) {
    reason |= sofa_load(SOFA_CARTESIAN, sizes, positions, 3 * depth, responses, 0, 45, 0.5f, 48000, left, depth, right, depth, neighbours,
                        6 * depth, cartesian, 3 * depth)
                  .reason;
}

static void load_spherical(void) {
    reason |= sofa_load(SOFA_SPHERICAL, sizes, positions, 3 * depth, responses, 0, 45, 0.5f, 48000, left, depth, right, depth, neighbours,
                        6 * depth, cartesian, 3 * depth)
                  .reason;
}

static void find(void) {
    reason |= sofa_find(sizes, lookup, TREE, 9, 9, 9).reason;
}

static void find_mut(void) {
    reason |= sofa_find_mut(sizes, lookup, TREE, coordinates).reason;
}

static void filter(void) {
    reason |= sofa_filter(sizes, lookup, TREE, neighbours, 6 * depth, responses, 0, values, 6, 48000, 9, 9, 9, OUT).reason;
}

/* One measurement that is its own neighbour on every side: a blend of four points. */
static void filter_four(void) {
    sofa_sizes s = {1, 3, 2, 64};
    memset(neighbours, 0, sizeof neighbours);
    sofa_filtered f = sofa_filter(s, lookup, cartesian, 3, left, 1, right, 1, neighbours, 6, responses, 2 * 64, values, 6, 48000, 9, 9, 9, OUT);
    reason |= f.reason | (f.points != 4);
}

static void filter_nointerp(void) {
    reason |= sofa_filter_nointerp(sizes, lookup, TREE, responses, 0, values, 6, 48000, 9, 9, 9, OUT).reason;
}

static void nearest(void) {
    reason |= sofa_tree_nearest(depth, lookup.box, TREE, numbers, depth, 9, 9, 9).reason;
}

static void insert(void) {
    reason |= sofa_tree_insert(depth - 1, lookup.box, TREE, numbers, depth, 9, 9, 9, 1).reason;
}

static void filter_number(void) {
    sofa_sizes s = {1, 3, 2, 64};
    reason |= sofa_filter_number(s, responses, 2 * 64, values, 6, 48000, 0, OUT).reason;
}

static void left_response(void) {
    sofa_sizes s = {1, 3, 2, 64};
    reason |= sofa_left_response(s, responses, 2 * 64, 0).reason;
}

static void right_response(void) {
    sofa_sizes s = {1, 3, 2, 64};
    reason |= sofa_right_response(s, responses, 2 * 64, 0).reason;
}

static void six(void) {
    reason |= sofa_neighbors_of(sizes, neighbours, 6 * depth, 0).reason;
}

static void longest(void) {
    reason |= sofa_max_delay(values, 6, 48000).reason;
}

static void to_spherical(void) {
    reason |= sofa_to_spherical(values, 6).reason;
}

static void to_cartesian(void) {
    reason |= sofa_to_cartesian(values, 6).reason;
}

static void version(void) {
    reason |= sofa_version() != SOFA_VERSION;
}

static void root(void) {
    volatile float x = sofa_root(2);
    (void)x;
}

static void sine(void) {
    reason |= sofa_sine(15.5f).reason;
}

static void cosine(void) {
    reason |= sofa_cosine(15.5f).reason;
}

static void arctangent(void) {
    static const float odd[6] = {1e-45f, 3e38f, 1, 0.33333f, -2.5f, 1e-20f};
    for (int i = 0; i < 36; i++)
        reason |= sofa_arctangent(odd[i / 6], odd[i % 6]).reason;
}

/* ---- painting */

typedef struct {
    uint64_t *stack;
    void (*call)(void);
    size_t bytes;
} task;

/* Paints all of the stack below this frame, makes the call, and finds how far down the paint is gone. No call stands between. */
static void *run(void *given) {
    task *t = given;
    volatile uint64_t *word, *top;
#ifdef __aarch64__
    __asm__ volatile("mov %0, sp" : "=r"(top));
#else
    __asm__ volatile("mov %%rsp, %0" : "=r"(top));
#endif
    for (word = t->stack; word < top; word++)
        *word = PAINT;
    t->call();
    for (word = t->stack; word < top && *word == PAINT; word++)
        ;
    t->bytes = (size_t)(top - word) * sizeof *word;
    return NULL;
}

static size_t used(void (*call)(void)) {
    static _Alignas(4096) uint64_t stack[STACK / sizeof(uint64_t)];
    task t = {stack, call, STACK};
    pthread_attr_t attributes;
    pthread_t thread;
    if (pthread_attr_init(&attributes) == 0 && pthread_attr_setstack(&attributes, stack, STACK) == 0
        && pthread_create(&thread, &attributes, run, &t) == 0)
        pthread_join(thread, NULL);
    return t.bytes;
}

/* A chain of places to the right along all three axes, and the lookup of its set. */
static void chain(size_t count) {
    depth = count;
    sizes = (sofa_sizes){count, 3, 2, 0};
    for (size_t i = 0; i < count; i++) {
        for (int axis = 0; axis < 3; axis++)
            positions[3 * i + axis] = cartesian[3 * i + axis] = (float)(i + 1) / MOST;
        left[i] = SOFA_ABSENT;
        right[i] = i + 1 < count ? (uint16_t)(i + 1) : (uint16_t)SOFA_ABSENT;
    }
    memset(neighbours, 0xff, sizeof neighbours);
    lookup = (sofa_lookup){{0, 0, 0, 1, 1, 1}, 0, 360, -90, 90, 0, 99};
    for (int axis = 0; axis < 3; axis++)
        coordinates[axis] = 9;
}

static int failed;

static void report(const char *name, size_t level, size_t most, size_t rest) {
    printf("%s %zu %zu\n", name, rest, level);
    failed |= level > most || rest > SOFA_STACK || reason != 0;
}

/* In chains of two depths. */
static void measure(const char *name, void (*call)(void), size_t most, size_t shallow, size_t deep) {
    size_t bytes[2], depths[2] = {shallow, deep};
    for (int i = 0; i < 2; i++) {
        chain(depths[i]);
        if (call == insert)
            right[depths[i] - 2] = SOFA_ABSENT; /* the last place is the one to be put in */
        bytes[i] = used(call);
    }
    size_t level = (bytes[1] - bytes[0]) / (deep - shallow);
    report(name, level, most, bytes[0] - level * shallow);
}

/* In a tree of one place, of which a search takes a level. */
static void measure_flat(const char *name, void (*call)(void), size_t level) {
    chain(1);
    for (int i = 0; i < 6; i++)
        values[i] = (float)(i % 3 + 1);
    report(name, level, level, used(call) - level);
}

int main(void) {
    measure("tree_nearest", nearest, SOFA_STACK_LEVEL, 16, MOST);
    measure("tree_insert", insert, SOFA_STACK_INSERT, 16, MOST);
    measure("find", find, SOFA_STACK_LEVEL, 16, MOST);
    measure("find_mut", find_mut, SOFA_STACK_LEVEL, 16, MOST);
    measure("filter", filter, SOFA_STACK_LEVEL, 16, MOST);
    measure("filter_nointerp", filter_nointerp, SOFA_STACK_LEVEL, 16, MOST);
    measure("load", load, SOFA_STACK_LOAD, 16, 528);
    measure_flat("load", load_spherical, SOFA_STACK_LOAD);
    measure_flat("filter", filter_four, SOFA_STACK_LEVEL);
    measure_flat("filter_number", filter_number, 0);
    measure_flat("left_response", left_response, 0);
    measure_flat("right_response", right_response, 0);
    measure_flat("neighbors_of", six, 0);
    measure_flat("max_delay", longest, 0);
    measure_flat("to_spherical", to_spherical, 0);
    measure_flat("to_cartesian", to_cartesian, 0);
    measure_flat("version", version, 0);
    measure_flat("root", root, 0);
    measure_flat("sine", sine, 0);
    measure_flat("cosine", cosine, 0);
    measure_flat("arctangent", arctangent, 0);
    return failed;
}
