/* The exact steps of docs/ANGLES.md, written a second time, in C. The comparison holds the archive
   to them, and counts how often the arctangent's certificate fails. Compile with -ffp-contract=off. */
#include <math.h>
#include <stdint.h>
#include <string.h>

static uint32_t bits_of(float x) { uint32_t b; memcpy(&b, &x, 4); return b; }
static float float_of(uint32_t b) { float x; memcpy(&x, &b, 4); return x; }

/* pi/4 in units of 2^-58, cut */
#define QUARTER 226375608064910088u

/* a 2^40, cut */
static uint64_t fixed_40(float a) { return (uint64_t)((double)a * 1099511627776.0); }

/* The first q from 0, at most 20, with x <= (q + 1) pi/4 in units of 2^-40, cut. */
static uint64_t eighth(uint64_t x) {
    uint64_t q = 0;
    while (q < 20 && (q + 1) * QUARTER / 262144 < x) q++;
    return q;
}

/* ---- sine and cosine */
static double sin_poly(double r) {
    double z = r * r, c = r * z;
    return (r - c * 0.16666654943701084) + c * z * (0.008332178146138854 - z * 0.00019517298981385725);
}

static double cos_poly(double r) {
    double z = r * r, y = z * z;
    return ((1.0 - z * 0.49999999725108224) + y * 0.041666623324344516)
        - y * z * (0.001388676379437604 - z * 2.4390450703564542e-05);
}

static double rest_of(uint64_t q, float a) { return fabs((double)a - (double)(q + q % 2) * 0.7853981633974483); }

static float steps_sine(float x) {
    float a = fabsf(x);
    if (a < 0x1p-12f) return x;
    uint64_t q = eighth(fixed_40(a));
    int minus = x < 0, down = q % 2;
    double r = rest_of(q, a), v = 0;
    switch ((q + 1) / 2 % 4) {
    case 0: v = sin_poly(r); minus ^= down; break;
    case 1: v = cos_poly(r); break;
    case 2: v = sin_poly(r); minus ^= !down; break;
    case 3: v = cos_poly(r); minus ^= 1; break;
    }
    return minus ? -(float)v : (float)v;
}

static float steps_cosine(float x) {
    float a = fabsf(x);
    if (a < 0x1p-12f) return 1.0f;
    uint64_t q = eighth(fixed_40(a));
    int minus = 0, down = q % 2;
    double r = rest_of(q, a), v = 0;
    switch ((q + 1) / 2 % 4) {
    case 0: v = cos_poly(r); break;
    case 1: v = sin_poly(r); minus = !down; break;
    case 2: v = cos_poly(r); minus = 1; break;
    case 3: v = sin_poly(r); minus = down; break;
    }
    return minus ? -(float)v : (float)v;
}

/* ---- the arctangent's guess, in binary32 */
static float tail(float u) {
    float v = u * u, w = v * v;
    float e = v * (0.3333333432674408f + w * (0.1428571492433548f + w * (0.09090887010097504f
        + w * (0.06661073118448257f + w * (0.049768779426813126f + w * 0.016285819932818413f)))));
    float o = w * (0.20000000298023224f + w * (0.1111111044883728f + w * (0.07691875845193863f
        + w * (0.05833570286631584f + w * 0.03653157129883766f))));
    return e - o;
}

static float raised(float h, float l, float u) { return h - ((u * tail(u) - l) - u); }

static float atan_guess(float x) {
    if (x < 0.4375f) return x < 0x1p-29f ? x : x - x * tail(x);
    if (x < 0.6875f) return raised(0.46364760398864746f, 5.01215824399992e-09f, (2.0f * x - 1.0f) / (2.0f + x));
    if (x < 1.1875f) return raised(0.7853981256484985f, 3.774894707930798e-08f, (x - 1.0f) / (x + 1.0f));
    if (x < 2.4375f) return raised(0.9827936887741089f, 3.447321716976148e-08f, (x - 1.5f) / (1.0f + 1.5f * x));
    if (x < 33554432.0f) {
        float t = 1.0f / x;
        return 1.570796251296997f - (t - (t * tail(t) + 7.549789415861596e-08f));
    }
    return 1.5707963705062866f;
}

/* ---- its certificate, on whole numbers */
static uint64_t level(uint64_t t, uint64_t h, uint64_t c) { return 1073741824 - t * h / 1073741824 / c; }

static uint64_t square(uint64_t a) { return a / 4 * (a / 4) / 17179869184u; }

static uint64_t sin_fix(uint64_t a) {
    static const uint64_t c[] = {156, 110, 72, 42, 20, 6};
    uint64_t t = square(a), h = 1073741824;
    for (int i = 0; i < 6; i++) h = level(t, h, c[i]);
    return a * h / 8589934592u;
}

static uint64_t cos_fix(uint64_t a) {
    static const uint64_t c[] = {182, 132, 90, 56, 30, 12, 2};
    uint64_t t = square(a), h = 1073741824;
    for (int i = 0; i < 7; i++) h = level(t, h, c[i]);
    return 2 * h;
}

static int certified(int back, uint64_t py, uint64_t px, float c) {
    if (!(c <= 3.1415927410125732f)) return 0;
    uint64_t x = fixed_40(c), q = eighth(x), base = (q + q % 2) * QUARTER / 1024;
    uint64_t a = (q % 2 ? base - x * 256 : x * 256 - base) / 16384;
    int64_t s = (int64_t)sin_fix(a), k = (int64_t)cos_fix(a), S = 0, C = 0;
    if (q % 2) s = -s;
    switch ((q + 1) / 2 % 4) {
    case 0: S = s; C = k; break;
    case 1: S = k; C = -s; break;
    case 2: S = -s; C = -k; break;
    case 3: S = -k; C = s; break;
    }
    __int128 y = py, z = back ? -(__int128)px : (__int128)px, d = y * C - z * S;
    return (d < 0 ? -d : d) <= 8796093022208 && z * C + y * S >= 1152921504606846976;
}

static float halved(int flat, int back, uint64_t t) {
    uint64_t lo = 0, hi = 13176795;
    for (int i = 0; i < 24; i++) {
        uint64_t m = (lo + hi) / 2;
        if (2147483648u * sin_fix(m * 1024) <= t * cos_fix(m * 1024)) lo = m; else hi = m;
    }
    uint64_t n = lo < 13176792 ? lo : 13176792, f = lo < 13176788 ? lo : 13176788;
    if (flat) return back ? (float)(13176794 - (f + 3) / 4) * 0x1p-22f : (float)lo * 0x1p-24f;
    return back ? (float)(6588398 + f / 4) * 0x1p-22f : (float)(13176794 - (n + 1) / 2) * 0x1p-23f;
}

/* *fell: 1 where the certificate fails */
static float steps_arctangent(float y, float x, int *fell) {
    *fell = 0;
    if (y == 0) return signbit(x) ? (signbit(y) ? -3.1415927410125732f : 3.1415927410125732f) : y;
    float p = fabsf(y), s = fabsf(x), z = atan_guess(p / s);
    int back = x < 0, flat = p <= s;
    if (back) z = 3.1415927410125732f - (z + 8.742277657347586e-08f);
    float c = fabsf(z);
    uint64_t t = (uint64_t)((flat ? p / s : s / p) * 2147483648.0f);
    if (!certified(back, flat ? t : 2147483648u, flat ? 2147483648u : t, c)) {
        *fell = 1;
        c = halved(flat, back, t);
    }
    return y < 0 ? -c : c;
}
