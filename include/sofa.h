/* SPDX-License-Identifier: MIT OR Apache-2.0 */
/*
 * sofa.h: what a C host can call. Each call answers for every input. A host sees to four things only:
 *
 *   lists        each pointer leads to as many elements as the count beside it says (beside a count of 0 it is not used), and stands where
 *                its type may stand: at a multiple of 4 bytes for float, of 2 for uint16_t. No wider alignment is asked for.
 *   overlap      a list that is written does not overlap another one.
 *   stack        the thread has the stack that the call wants.
 *   arithmetic   the thread's floating-point environment is the one that C starts a program with: rounding to nearest, subnormal numbers
 *                kept, nothing trapped. Audio threads often have another: sofa_enter and sofa_leave, below, see to it.
 *
 * A list is lent as a pointer and a count of elements. Nothing is allocated, nothing is kept between calls: a set is the lists that
 * the host holds and a sofa_lookup by value. Calls share no state: several threads may go by the same lists as long as none writes them.
 *
 * Coordinates: the origin is the middle of the head, x is ahead, y to the left, z up. Azimuth is in degrees, 0 ahead and 90 to the left;
 * a conversion answers it from 0 on and below 360, and takes any turn up to 720. Elevation is in degrees, 0 level, 90 up, -90 down; a
 * conversion answers it from -90 to 90, and takes any up to 720 as it takes a turn: beyond 90 it goes on over the top, so that azimuth 0
 * with elevation 100 is azimuth 180 with 80, but for roundings. Angles of sofa_sine, sofa_cosine and sofa_arctangent alone are in radians.
 * Lengths are in metres, as in SOFA files: radius, coordinates, the radius step.
 *
 * A measurement's number is its place in the set, from 0. Answers and lists hold it in 16 bits, m being at most 16384; SOFA_ABSENT stands
 * for none. Arguments take it as a size_t, as they take every count: nothing is cut off before it is looked at, and what is no number of
 * a measurement, SOFA_ABSENT too, is refused 8. An answer's number can be handed on as it is.
 *
 * An answer's `reason` is 0, or the number of the refusal that was met first:
 *
 *   1  the position kind is neither 0 (cartesian) nor 1 (spherical)                          place: the kind
 *   2  m, c, r or n is not allowed                                                           place: 0
 *   3  a lent list is too short, or the positions are not 3m long; a bare tree is full       place: 0
 *   4  a position value is not allowed                                                       place: its first index
 *   5  a step is not allowed                                                                 place: 0 angle, 1 radius
 *   6  the rate is not allowed                                                               place: 0
 *   7  a coordinate or an angle's argument is not finite; sine and cosine: beyond +-16       place: the axis, or the argument from 0
 *   8  a measurement number is m or more                                                     place: the number
 *   9  a link or a neighbour is bad, or a search would visit more places than there are      place: 0
 *
 * Allowed: m 1..16384, c exactly 3, r 2..8, n 0..8192; cartesian coordinates of magnitude at most 10000; angles in degrees of
 * magnitude at most 720, radius 0..10000; angle step 0.1..45, radius step 0.001..1; rate 1000..384000; responses and delays any float.
 *
 * A link is bad where it is neither SOFA_ABSENT nor above the place that it stands at and below m (below count in a bare tree), a
 * neighbour where it is neither SOFA_ABSENT nor below m. A search meets a link when it comes to that side, a blend all six neighbours of
 * the nearest measurement. In the lists as a load leaves them none is bad, and no query over them is refused 9.
 *
 * Where a field of a refused answer has nothing to say it is 0, or 65535 for a number. Each call below says:
 *
 *   lists    the least length of each; what each holds afterwards. One that is not named as written is only read.
 *   refused  the numbers, in the order in which they are checked, and what the lists then hold.
 *   stack    in bytes, as measured for the archive (tests/stack.c) and rounded up, the arguments that are handed over on it included. A
 *            level is one step down the tree: a set that comes in no order has about 35 for 16384 measurements, one that is sorted along
 *            all three axes as many as measurements. Where a host's symbols are bound late, the loader comes on top of it at the first
 *            call of memset (in a filter), and puts the processor's registers there. Seen were, at a first call of an earlier archive,
 *            3.1 KiB with glibc 2.36 on an x86-64 with AVX-512, and 1 KiB on a 64-bit Arm. Link with -z now, or count it, or make one
 *            such call on a roomier stack first.
 *
 * The archive, libsofa.a (bin/archive), is for Linux on x86-64 or on 64-bit Arm, any processor of the kind, and can stand in a shared
 * library. It needs the C library's memset, and nothing else. A shared library that should not hand these names on, a plug-in for one,
 * of which a process may hold two, is linked with -Wl,--exclude-libs,ALL (GNU ld and lld).
 *
 * Time (docs/SPEED.md): a find takes 0.5 to 3.7 microseconds, a filter of 512 taps 0.9 to 4.9. A load with steps 0.5 and 0.01 takes 8 ms
 * for 1000 measurements at random on a sphere and 0.14 s for 16384; on a grid 14 ms and 0.94 s. What makes it longer is order: a set sorted
 * along all three axes is one chain, 2.2 s for 4096, and four times as long for twice as many; one ring in order of azimuth, where most
 * points lie as near to many measurements, takes several times as long as the same ring in no order. Finer steps take longer, too. No load
 * belongs on an audio thread.
 */
#ifndef SOFA_H
#define SOFA_H

#include <stddef.h>
#include <stdint.h>

#ifdef __cplusplus
extern "C" {
#endif

/*
 * The version that this header is of. Within one first part of at least 1, and within one second part below that, what stands here stays
 * and more may come. While the first part is 0, with a new second part structs may have more fields at their end and calls more arguments:
 * a host is then compiled again, with that header. sofa_version says the same of the archive: where the two differ, one of them is another
 * version's.
 */
#define SOFA_VERSION_MAJOR 0
#define SOFA_VERSION_MINOR 1
#define SOFA_VERSION_PATCH 0
#define SOFA_VERSION (SOFA_VERSION_MAJOR * 65536u + SOFA_VERSION_MINOR * 256u + SOFA_VERSION_PATCH)

/* The lists' counts are of 64 bits in the archive: on a machine where they are not, this does not compile. */
typedef char sofa_is_for_64_bits[sizeof(size_t) == 8 ? 1 : -1];

#define SOFA_ABSENT 65535u
#define SOFA_CARTESIAN 0u
#define SOFA_SPHERICAL 1u

/*
 * The stack that a call wants at most, in bytes: SOFA_STACK, and SOFA_STACK_LEVEL more for each level of the tree that it searches,
 * SOFA_STACK_LOAD for each level of a load's tree, or SOFA_STACK_INSERT for each level that a bare insert goes down. 5.6 MiB are enough for
 * any call.
 */
#define SOFA_STACK 2048u
#define SOFA_STACK_LEVEL 352u
#define SOFA_STACK_LOAD 352u
#define SOFA_STACK_INSERT 112u

typedef struct { uint32_t reason; size_t place; } sofa_refusal;
typedef struct { uint32_t reason; size_t place; float value; } sofa_value;

/* m measurements, c coordinates (3), r receivers (the first two are used), n taps */
typedef struct { size_t m, c, r, n; } sofa_sizes;

typedef struct { float min_x, min_y, min_z, max_x, max_y, max_z; } sofa_box;

/* what a load hands back, to be given to each query: the box of the tree and the six bounds: azimuth (phi) and elevation (theta) in
   degrees, radius */
typedef struct {
    sofa_box box;
    float phi_min, phi_max, theta_min, theta_max, radius_min, radius_max;
} sofa_lookup;

typedef struct { uint32_t reason; size_t place; sofa_lookup lookup; } sofa_loaded;
typedef struct { uint32_t reason; size_t place; uint16_t number; } sofa_found;
typedef struct { uint32_t reason; size_t place; sofa_box box; } sofa_inserted;

/* blended 0: exact, points 1; blended 1: points 1 to 4; refused: points 0, both delays +0. Delays are in seconds. */
typedef struct {
    uint32_t reason;
    size_t place;
    uint32_t blended;
    size_t points;
    float ldelay, rdelay;
} sofa_filtered;

/* a part of the host's own response list: `count` taps from `start` on */
typedef struct { uint32_t reason; size_t place; size_t start, count; } sofa_part;

/* the numbers of the neighbours, SOFA_ABSENT for none: azimuth +, -, elevation +, -, radius +, - */
typedef struct {
    uint32_t reason;
    size_t place;
    uint16_t phi_plus, phi_minus, theta_plus, theta_minus, radius_plus, radius_minus;
} sofa_neighbors;

/* ---- the floating-point environment */

/*
 * What this header says is said of IEEE 754's arithmetic as C starts it. Many audio hosts set flush-to-zero for the threads on which they
 * call (FTZ and DAZ in MXCSR, FZ in Arm's FPCR), and some code leaves another rounding direction behind: then none of it holds. With
 * flush-to-zero a refusal is lost (a radius of -1e-40 is loaded, where it should be refused 4), another measurement is found (where two
 * are less than 1e-19 apart), a root is wrong (that of 1e-40 comes out as 1e-40). With another rounding direction the last bits of angles,
 * distances and blends differ, and so may the measurement. Where exceptions are not masked a call may trap.
 *
 *     sofa_environment host = sofa_enter();
 *     ..                                      any number of calls
 *     sofa_leave(host);
 *
 * sofa_enter puts the default environment in force for this thread and hands back the host's, sofa_leave puts that back in force: rounding,
 * flushing, masks and the flags that were raised before; what the calls between them raised is forgotten. Leave the host's own arithmetic
 * outside: a compiler may move it across either of the two. Both together take some 5 ns around a short call. A thread whose environment
 * nobody changed needs neither. They are for gcc and clang on x86-64 and on 64-bit Arm; elsewhere they are not declared, so that a host
 * that asks for them is not built.
 */
typedef struct { uint32_t control, status; } sofa_environment;

#if defined(__GNUC__) && defined(__x86_64__)

static inline sofa_environment sofa_enter(void) {
    sofa_environment host = {0, 0};
    uint32_t start = 0x1f80; /* MXCSR: all six exceptions masked, to nearest, no FTZ, no DAZ */
    __asm__ __volatile__("stmxcsr %0" : "=m"(host.control) : : "memory");
    start |= host.control & 0x3f; /* flags stay raised: a processor may take ten times as long where one is cleared and raised again */
    __asm__ __volatile__("ldmxcsr %0" : : "m"(start) : "memory");
    return host;
}

static inline void sofa_leave(sofa_environment host) {
    __asm__ __volatile__("ldmxcsr %0" : : "m"(host.control) : "memory");
}

#elif defined(__GNUC__) && defined(__aarch64__)

static inline sofa_environment sofa_enter(void) {
    sofa_environment host;
    uint64_t control, status, start = 0; /* FPCR: to nearest, nothing flushed, nothing trapped */
    __asm__ __volatile__("mrs %0, fpcr\n\tmrs %1, fpsr" : "=r"(control), "=r"(status) : : "memory");
    __asm__ __volatile__("msr fpcr, %0" : : "r"(start) : "memory");
    host.control = (uint32_t)control;
    host.status = (uint32_t)status;
    return host;
}

static inline void sofa_leave(sofa_environment host) {
    uint64_t control = host.control, status = host.status;
    __asm__ __volatile__("msr fpcr, %0\n\tmsr fpsr, %1" : : "r"(control), "r"(status) : "memory");
}

#endif

/* ---- numbers */

/*
 * The archive's SOFA_VERSION.
 * refused  never
 * stack    128
 */
uint32_t sofa_version(void);

/*
 * The correctly rounded square root, of every float; NaN below -0.
 * refused  never
 * stack    128
 */
float sofa_root(float x);

/*
 * Sine and cosine of an angle in radians.
 * refused  7, place 0: x is not finite or beyond +-16; the value is +0
 * stack    128
 */
sofa_value sofa_sine(float x);
sofa_value sofa_cosine(float x);

/*
 * The angle of the point (x, y) in radians: its sign is y's, its magnitude at most the float nearest pi.
 * refused  7: y (place 0), else x (place 1) is not finite; the value is +0
 * stack    256
 */
sofa_value sofa_arctangent(float y, float x);

/* ---- coordinates */

/*
 * In place, three values at a time: x, y, z to azimuth, elevation (degrees) and radius, and back.
 * lists    values: any length; whole triplets are converted. One or two values left over are neither read nor written.
 * refused  4: a value of a whole triplet is not allowed for the kind that it comes from; values stay as they were
 * stack    256
 */
sofa_refusal sofa_to_spherical(float *values, size_t count);
sofa_refusal sofa_to_cartesian(float *values, size_t count);

/* ---- the bare tree */

/*
 * A tree of `count` places over four lists: positions (3 values a place), left, right (links, SOFA_ABSENT for none) and numbers (the
 * number kept with each place, any of 16 bits). Any float may stand in it. Start with count 0 and any box; after each insert that is not
 * refused count is one more and the box is the answer's.
 *
 * lists    positions: 3(count + 1), the point is written at 3count, 3count + 1, 3count + 2
 *          left, right: count + 1 each, SOFA_ABSENT is written at count; for count above 0 also one absent link, to count
 *          numbers: count + 1, number is written at count
 *          Nothing else is written.
 * refused  3: a list is shorter than that, or count is 16384 or more; 9: a bad link on the way down. All lists stay as they were, the
 *          answer's box is all +0.
 * stack    384, and 112 a level; on a 64-bit Arm 448, and 112 a level
 */
sofa_inserted sofa_tree_insert(
    size_t count, sofa_box box,
    float *positions, size_t positions_count,
    uint16_t *left, size_t left_count,
    uint16_t *right, size_t right_count,
    uint16_t *numbers, size_t numbers_count,
    float x, float y, float z, uint16_t number);

/*
 * The number of the nearest place; SOFA_ABSENT with reason 0 for an empty tree. A place may keep 65535 too, which reads the same: a host
 * that keeps it tells the two apart by its own count, which is 0 for the empty tree alone. A NaN coordinate gives the root's number.
 *
 * lists    positions: 3count; left, right, numbers: count each
 * refused  3: a list is shorter than that, or count is above 16384; 9: a bad link is met, or visit count + 1 begins. The number is
 *          SOFA_ABSENT.
 * stack    384, and 352 a level
 */
sofa_found sofa_tree_nearest(
    size_t count, sofa_box box,
    const float *positions, size_t positions_count,
    const uint16_t *left, size_t left_count,
    const uint16_t *right, size_t right_count,
    const uint16_t *numbers, size_t numbers_count,
    float x, float y, float z);

/* ---- a set */

/*
 * Makes a set ready. kind is SOFA_CARTESIAN or SOFA_SPHERICAL. Responses are taps within receivers within measurements, the left ear's
 * receiver first. Keep the answer's lookup and the four lists that are written: the queries go by them.
 *
 * The steps are how far apart the points are at which a load looks for neighbours, which sofa_filter blends with. From each measurement it
 * goes in six directions: in azimuth and elevation by angle_step degrees at a time until 45 are reached, in radius by radius_step metres
 * at a time, at most 100 times and not beyond the measured radii. The first point to which another measurement is nearest names the
 * neighbour. A step that is larger than the distance between measurements may pass one over; a smaller one takes longer. Begin with 0.5f
 * and 0.01f, as the source library does. The rate is that of the responses and delays, in samples a second.
 *
 * lists    positions: exactly 3m; responses: m*r*n, not read
 *          cartesian: 3m, the positions are written to the first 3m, copied, or converted from spherical
 *          left, right: m each, the links of the tree are written to the first m, each SOFA_ABSENT or above its place and below m
 *          neighbours: 6m, six for each measurement are written to the first 6m, each SOFA_ABSENT or below m: azimuth +, -, elevation +, -,
 *          radius +, -
 *          Each of these entries is written, and nothing past them.
 * refused  1, 2, 3, 4, 5 (the angle step first), 6. All lists stay as they were, the lookup is all +0.
 * stack    1792, and 352 a level
 */
sofa_loaded sofa_load(
    uint32_t kind, sofa_sizes sizes,
    const float *positions, size_t positions_count,
    const float *responses, size_t responses_count,
    float angle_step, float radius_step, float rate,
    uint16_t *left, size_t left_count,
    uint16_t *right, size_t right_count,
    uint16_t *neighbours, size_t neighbours_count,
    float *cartesian, size_t cartesian_count);

/*
 * The number of the measurement nearest to a point, which is first drawn to the measured radii.
 *
 * lists    cartesian: 3m; left, right: m each
 * refused  2, 3, 7, and 9 on the way. The number is SOFA_ABSENT.
 * stack    640, and 352 a level
 */
sofa_found sofa_find(
    sofa_sizes sizes, sofa_lookup lookup,
    const float *cartesian, size_t cartesian_count,
    const uint16_t *left, size_t left_count,
    const uint16_t *right, size_t right_count,
    float x, float y, float z);

/*
 * The same of a point x, y, z in coordinates.
 *
 * lists    as sofa_find; coordinates: three values, the point drawn to the measured radii is written there
 * refused  as sofa_find; the coordinates stay as they were, for 9 too
 * stack    768, and 352 a level
 */
sofa_found sofa_find_mut(
    sofa_sizes sizes, sofa_lookup lookup,
    const float *cartesian, size_t cartesian_count,
    const uint16_t *left, size_t left_count,
    const uint16_t *right, size_t right_count,
    float *coordinates);

/*
 * The filter at a point: the nearest measurement as it is where the point is closer to it than 1e-6 (or all weights come to less than
 * 1e-10), else its blend with the closer neighbour of each pair.
 *
 * lists    cartesian: 3m; left, right: m each; neighbours: 6m; responses: m*r*n
 *          delays: any length, in samples: m of them are one per measurement for both ears, else m*r or more are per measurement and
 *          receiver, else r or more are the first two for all, else there is no delay; the answer's are in seconds
 *          out_left, out_right: any length; all of each is written, the first n samples, as far as there is room, and +0 in the rest
 * refused  2, 3, 6, 7, and 9 on the way. Every sample of both outputs is +0, those beyond n too.
 * stack    1280, and 352 a level
 */
sofa_filtered sofa_filter(
    sofa_sizes sizes, sofa_lookup lookup,
    const float *cartesian, size_t cartesian_count,
    const uint16_t *left, size_t left_count,
    const uint16_t *right, size_t right_count,
    const uint16_t *neighbours, size_t neighbours_count,
    const float *responses, size_t responses_count,
    const float *delays, size_t delays_count,
    float rate, float x, float y, float z,
    float *out_left, size_t out_left_count,
    float *out_right, size_t out_right_count);

/*
 * The filter of the nearest measurement as it is, always exact. It is given no neighbours.
 *
 * lists    cartesian: 3m; left, right: m each; responses: m*r*n; delays and outputs as in sofa_filter
 * refused  2, 3, 6, 7, and 9 on the way. Every sample of both outputs is +0, those beyond n too.
 * stack    768, and 352 a level
 */
sofa_filtered sofa_filter_nointerp(
    sofa_sizes sizes, sofa_lookup lookup,
    const float *cartesian, size_t cartesian_count,
    const uint16_t *left, size_t left_count,
    const uint16_t *right, size_t right_count,
    const float *responses, size_t responses_count,
    const float *delays, size_t delays_count,
    float rate, float x, float y, float z,
    float *out_left, size_t out_left_count,
    float *out_right, size_t out_right_count);

/*
 * The filter of a measurement by its number, always exact.
 *
 * lists    responses: m*r*n; delays and outputs as in sofa_filter
 * refused  2, 3, 6, 8. Every sample of both outputs is +0, those beyond n too.
 * stack    384
 */
sofa_filtered sofa_filter_number(
    sofa_sizes sizes,
    const float *responses, size_t responses_count,
    const float *delays, size_t delays_count,
    float rate, size_t number,
    float *out_left, size_t out_left_count,
    float *out_right, size_t out_right_count);

/*
 * Where a measurement's taps for the left or the right ear stand in responses: `count` (n) taps from `start` on.
 *
 * lists    responses: m*r*n, not read
 * refused  2, 3, 8. The part is empty, start and count 0.
 * stack    256
 */
sofa_part sofa_left_response(sofa_sizes sizes, const float *responses, size_t responses_count, size_t number);
sofa_part sofa_right_response(sofa_sizes sizes, const float *responses, size_t responses_count, size_t number);

/*
 * A measurement's six entries as they stand, bad ones too.
 *
 * lists    neighbours: 6m
 * refused  2, 3, 8. Each entry is SOFA_ABSENT.
 * stack    128; on a 64-bit Arm 192
 */
sofa_neighbors sofa_neighbors_of(sofa_sizes sizes, const uint16_t *neighbours, size_t neighbours_count, size_t number);

/*
 * The longest delay in seconds, from +0 on, passing over NaN. A blended delay can be longer by a rounding.
 *
 * lists    delays: any length, in samples
 * refused  6; the value is +0
 * stack    128
 */
sofa_value sofa_max_delay(const float *delays, size_t delays_count, float rate);

#ifdef __cplusplus
}
#endif

#endif
