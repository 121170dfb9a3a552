/* Compares sofa_root with the C library's sqrtf over all 2^32 bit patterns. All NaNs compare as one value. */
#include <math.h>
#include <stdint.h>
#include <stdio.h>
#include <string.h>

float sofa_root(float x);

static float of_bits(uint32_t b) {
    float x;
    memcpy(&x, &b, sizeof x);
    return x;
}

static uint32_t to_bits(float x) {
    uint32_t b;
    memcpy(&b, &x, sizeof b);
    return x == x ? b : 0x7fc00000u;
}

int main(void) {
    uint64_t differ = 0;
    uint32_t b = 0;
    do {
        float x = of_bits(b);
        uint32_t ours = to_bits(sofa_root(x)), theirs = to_bits(sqrtf(x));
        if (ours != theirs && differ++ < 10)
            printf("%08x: %08x, sqrtf %08x\n", b, ours, theirs);
    } while (++b != 0);
    printf("root: 4294967296 patterns, %llu differ\n", (unsigned long long)differ);
    return differ != 0;
}
