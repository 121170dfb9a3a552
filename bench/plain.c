/* What is measured against beside the source: the plain blend loop and the C library's functions; and callgrind's requests, which do nothing elsewhere. */
#include <math.h>
#include <stddef.h>

void c_blend(float *restrict out, const float *restrict src, size_t a, size_t b, size_t c, size_t d, float w, float x,
             float y, float z, size_t n)
{
    for (size_t i = 0; i < n; i++)
        out[i] = 0.0f + src[a + i] * w + src[b + i] * x + src[c + i] * y + src[d + i] * z;
}

/* By pointers that the compiler cannot see through, so that the library's own code is called. */
float (*volatile c_sin)(float) = sinf;
float (*volatile c_cos)(float) = cosf;
float (*volatile c_sqrt)(float) = sqrtf;
float (*volatile c_atan2)(float, float) = atan2f;

void c_sines(const float *x, float *r, size_t n)
{
    float (*f)(float) = c_sin;
    for (size_t i = 0; i < n; i++)
        r[i] = f(x[i]);
}

void c_cosines(const float *x, float *r, size_t n)
{
    float (*f)(float) = c_cos;
    for (size_t i = 0; i < n; i++)
        r[i] = f(x[i]);
}

void c_roots(const float *x, float *r, size_t n)
{
    float (*f)(float) = c_sqrt;
    for (size_t i = 0; i < n; i++)
        r[i] = f(x[i]);
}

void c_arctangents(const float *y, const float *x, float *r, size_t n)
{
    float (*f)(float, float) = c_atan2;
    for (size_t i = 0; i < n; i++)
        r[i] = f(y[i], x[i]);
}

/* How deep the stack was used between the two, both called from one function: the paint that is gone. */
enum { ROOM = 12 << 20, PAINT = 0xa5 };

__attribute__((noinline)) void stack_paint(void)
{
    volatile unsigned char room[ROOM];
    for (size_t i = 0; i < ROOM; i++)
        room[i] = PAINT;
}

__attribute__((noinline)) size_t stack_used(void)
{
    volatile unsigned char room[ROOM];
    size_t i = 0;
    while (i < ROOM && room[i] == PAINT)
        i++;
    return ROOM - i;
}

#ifdef HAVE_CALLGRIND
#include <valgrind/callgrind.h>
void count_from(void)
{
    CALLGRIND_START_INSTRUMENTATION;
    CALLGRIND_ZERO_STATS;
}
void count_to(const char *name)
{
    CALLGRIND_DUMP_STATS_AT(name);
    CALLGRIND_STOP_INSTRUMENTATION;
}
#else
void count_from(void) {}
void count_to(const char *name) { (void)name; }
#endif
