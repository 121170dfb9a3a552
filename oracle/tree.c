/* Reads trees, queries and the source's answers (oracle/tree.rs) and asks the port the same, in a thread of 8 MiB. Each list has room for 16384
 * and is full of nonsense before the first insert. Prints how many queries were compared and how many differ. */
#include <pthread.h>
#include <stdint.h>
#include <stdio.h>
#include <stdlib.h>
#include <string.h>

typedef struct { float min_x, min_y, min_z, max_x, max_y, max_z; } sofa_box;
typedef struct { uint32_t reason; size_t place; sofa_box bounds; } sofa_inserted;
typedef struct { uint32_t reason; size_t place; uint16_t number; } sofa_found;

sofa_inserted sofa_tree_insert(size_t count, sofa_box bounds, float *positions, size_t positions_len, uint16_t *left, size_t left_len, uint16_t *right, size_t right_len,
                               uint16_t *numbers, size_t numbers_len, float x, float y, float z, uint16_t number);
sofa_found sofa_tree_nearest(size_t count, sofa_box bounds, const float *positions, size_t positions_len, const uint16_t *left, size_t left_len, const uint16_t *right,
                             size_t right_len, const uint16_t *numbers, size_t numbers_len, float x, float y, float z);

enum { MOST = 16384, STACK = 8 << 20 };

static float positions[3 * MOST];
static uint16_t left[MOST], right[MOST], numbers[MOST];
static uint64_t trees, compared, differ, refused;

static uint32_t word(void) {
    uint32_t w;
    if (fread(&w, 4, 1, stdin) != 1) {
        fputs("tree: the stream ends too early\n", stderr);
        exit(2);
    }
    return w;
}

static float value(void) {
    uint32_t w = word();
    float x;
    memcpy(&x, &w, 4);
    return x;
}

static sofa_box insert_all(uint32_t m) {
    sofa_box box;
    memset(&box, 0xff, sizeof box);
    for (uint32_t i = 0; i < m; i++) {
        float x = value(), y = value(), z = value();
        sofa_inserted a = sofa_tree_insert(i, box, positions, 3 * MOST, left, MOST, right, MOST, numbers, MOST, x, y, z, (uint16_t)word());
        if (a.reason != 0)
            refused++;
        box = a.bounds;
    }
    return box;
}

static void one_tree(uint32_t m) {
    memset(positions, 0xa5, sizeof positions);
    memset(left, 0x5a, sizeof left);
    memset(right, 0x5a, sizeof right);
    memset(numbers, 0x77, sizeof numbers);
    sofa_box box = insert_all(m);
    for (uint32_t queries = word(); queries > 0; queries--) {
        float x = value(), y = value(), z = value();
        uint32_t source = word();
        sofa_found f = sofa_tree_nearest(m, box, positions, 3 * MOST, left, MOST, right, MOST, numbers, MOST, x, y, z);
        uint32_t port = m == 0 ? (f.number == 65535 ? UINT32_MAX : f.number) : f.number;
        if ((f.reason != 0 || port != source) && differ++ < 10)
            printf("tree %llu of %u, query %a %a %a: source %u, port %u (reason %u)\n", (unsigned long long)trees, m, x, y, z, source, port, f.reason);
        compared++;
    }
    trees++;
}

static void *all_trees(void *unused) {
    (void)unused;
    for (uint32_t m = word(); m != UINT32_MAX; m = word())
        one_tree(m);
    return NULL;
}

int main(void) {
    pthread_attr_t attributes;
    pthread_t thread;
    pthread_attr_init(&attributes);
    pthread_attr_setstacksize(&attributes, STACK);
    if (pthread_create(&thread, &attributes, all_trees, NULL) != 0)
        return 2;
    pthread_join(thread, NULL);
    printf("tree: %llu queries in %llu trees compared with the source, %llu differ; %llu inserts refused; stack %d bytes\n", (unsigned long long)compared,
           (unsigned long long)trees, (unsigned long long)differ, (unsigned long long)refused, STACK);
    return differ != 0 || refused != 0;
}
