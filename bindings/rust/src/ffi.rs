// SPDX-License-Identifier: MIT OR Apache-2.0
//! Every call of `include/sofa.h`, a slice for each pointer with its count: nothing is allocated, and the host keeps the lists.
//!
//! Each call is made in the default floating-point environment, and the host's is in force again afterwards.
//!
//! This module follows the header and is outside of the crate's promise about versions: where the header's structs get fields and its calls
//! arguments, these do too.
//!
//! All `unsafe` is here, but for the register of that environment. What makes each call sound is the same throughout:
//!
//! - **Pointers and counts.** Each pair is taken from one slice, so it leads to as many initialised elements as it says. An empty slice's
//!   pointer is not read, since its count is 0. `sofa_find_mut` takes three elements and is given an array of three.
//! - **Overlap.** The archive wants what it writes apart from its other lists: exclusive references are.
//! - **Values.** Each call answers for every input, refused or not, reads and writes within the counts and keeps no pointer: that is what
//!   the archive's contracts promise. Every bit pattern is a number of the types that cross.
//! - **Layout.** The structs are `repr(C)` with the header's fields in the header's order, and the declarations repeat its prototypes: a C
//!   compiler is asked whether they do (tests/layouts.rs).
//!
//! The stack that a call wants is that of [`crate::stack`].
use crate::environment::Aside;

/// A refusal alone: `reason` is 0 for none.
#[repr(C)]
#[derive(Clone, Copy, Debug, PartialEq)]
pub struct Refused {
    /// Document 01's number, 0 for none.
    pub reason: u32,
    /// Where it was met.
    pub place: usize,
}

/// A value, +0 where it is refused.
#[repr(C)]
#[derive(Clone, Copy, Debug, PartialEq)]
pub struct Value {
    /// Document 01's number, 0 for none.
    pub reason: u32,
    /// Where it was met.
    pub place: usize,
    /// The value.
    pub value: f32,
}

/// How large a set is.
#[repr(C)]
#[derive(Clone, Copy, Debug, PartialEq, Eq)]
pub struct Sizes {
    /// Measurements, 1 to 16384.
    pub m: usize,
    /// Coordinates of a position, exactly 3.
    pub c: usize,
    /// Receivers of a measurement, 2 to 8; the first two are used.
    pub r: usize,
    /// Taps of a response, 0 to 8192.
    pub n: usize,
}

/// A box by its six corner coordinates, in metres.
#[repr(C)]
#[derive(Clone, Copy, Debug, Default, PartialEq)]
#[allow(missing_docs)]
pub struct BoundingBox {
    pub min_x: f32,
    pub min_y: f32,
    pub min_z: f32,
    pub max_x: f32,
    pub max_y: f32,
    pub max_z: f32,
}

/// What a load hands back and each query goes by: the box of the tree and the six bounds of the positions, azimuth (phi) and elevation
/// (theta) in degrees, radius in metres.
#[repr(C)]
#[derive(Clone, Copy, Debug, Default, PartialEq)]
#[allow(missing_docs)]
pub struct Lookup {
    pub bounds: BoundingBox,
    pub phi_min: f32,
    pub phi_max: f32,
    pub theta_min: f32,
    pub theta_max: f32,
    pub radius_min: f32,
    pub radius_max: f32,
}

/// What a load answers; refused, the lookup is all +0.
#[repr(C)]
#[derive(Clone, Copy, Debug, PartialEq)]
pub struct Loaded {
    /// Document 01's number, 0 for none.
    pub reason: u32,
    /// Where it was met.
    pub place: usize,
    /// The box and the bounds.
    pub lookup: Lookup,
}

/// A number found, 65535 where there is none.
#[repr(C)]
#[derive(Clone, Copy, Debug, PartialEq)]
pub struct Found {
    /// Document 01's number, 0 for none.
    pub reason: u32,
    /// Where it was met.
    pub place: usize,
    /// The number of the measurement, or the one kept with a place.
    pub number: u16,
}

/// What an insert answers; refused, the box is all +0.
#[repr(C)]
#[derive(Clone, Copy, Debug, PartialEq)]
pub struct Inserted {
    /// Document 01's number, 0 for none.
    pub reason: u32,
    /// Where it was met.
    pub place: usize,
    /// The box with the new point in it.
    pub bounds: BoundingBox,
}

/// What a filter answers.
#[repr(C)]
#[derive(Clone, Copy, Debug, PartialEq)]
pub struct Filtered {
    /// Document 01's number, 0 for none.
    pub reason: u32,
    /// Where it was met.
    pub place: usize,
    /// 1 for a blend, 0 for an exact or a refused answer.
    pub blended: u32,
    /// How many points were blended; 1 exact, 0 refused.
    pub points: usize,
    /// The left delay in seconds, +0 refused.
    pub ldelay: f32,
    /// The right delay in seconds, +0 refused.
    pub rdelay: f32,
}

/// A part of the responses; refused, it is empty.
#[repr(C)]
#[derive(Clone, Copy, Debug, PartialEq)]
pub struct Part {
    /// Document 01's number, 0 for none.
    pub reason: u32,
    /// Where it was met.
    pub place: usize,
    /// Index of the first tap.
    pub start: usize,
    /// How many taps.
    pub count: usize,
}

/// Six neighbours, 65535 for absent; refused, each is.
#[repr(C)]
#[derive(Clone, Copy, Debug, PartialEq)]
pub struct Six {
    /// Document 01's number, 0 for none.
    pub reason: u32,
    /// Where it was met.
    pub place: usize,
    /// Azimuth +.
    pub phi_plus: u16,
    /// Azimuth −.
    pub phi_minus: u16,
    /// Elevation +.
    pub theta_plus: u16,
    /// Elevation −.
    pub theta_minus: u16,
    /// Radius +.
    pub radius_plus: u16,
    /// Radius −.
    pub radius_minus: u16,
}

/// A point or a query: x, y, z.
pub type Coordinates = [f32; 3];

/// The lists that a search goes by.
#[derive(Clone, Copy, Debug)]
pub struct Tree<'a> {
    /// Three coordinates for each place.
    pub positions: &'a [f32],
    /// Links to the left, 65535 for absent.
    pub left: &'a [u16],
    /// Links to the right, 65535 for absent.
    pub right: &'a [u16],
}

/// What a filter takes its samples and delays from.
#[derive(Clone, Copy, Debug)]
pub struct Sound<'a> {
    /// Taps of each receiver of each measurement.
    pub responses: &'a [f32],
    /// Delays in samples, of any count.
    pub delays: &'a [f32],
    /// Samples a second.
    pub rate: f32,
}

/// The lists that a load writes.
#[derive(Debug)]
pub struct Work<'a> {
    /// Links to the left.
    pub left: &'a mut [u16],
    /// Links to the right.
    pub right: &'a mut [u16],
    /// Six neighbours for each measurement.
    pub neighbours: &'a mut [u16],
    /// Three coordinates for each measurement.
    pub cartesian: &'a mut [f32],
}

mod c {
    use super::*;

    // This repeats include/sofa.h, to which tests/layouts.rs holds it. The archive itself has no types that it could be held to.
    #[rustfmt::skip]
    extern "C" {
        pub fn sofa_version() -> u32;
        pub fn sofa_root(x: f32) -> f32;
        pub fn sofa_sine(x: f32) -> Value;
        pub fn sofa_cosine(x: f32) -> Value;
        pub fn sofa_arctangent(y: f32, x: f32) -> Value;
        pub fn sofa_to_spherical(values: *mut f32, count: usize) -> Refused;
        pub fn sofa_to_cartesian(values: *mut f32, count: usize) -> Refused;
        pub fn sofa_tree_insert(
            count: usize, bounds: BoundingBox, positions: *mut f32, positions_count: usize, left: *mut u16, left_count: usize,
            right: *mut u16, right_count: usize, numbers: *mut u16, numbers_count: usize, x: f32, y: f32, z: f32, number: u16,
        ) -> Inserted;
        pub fn sofa_tree_nearest(
            count: usize, bounds: BoundingBox, positions: *const f32, positions_count: usize, left: *const u16, left_count: usize,
            right: *const u16, right_count: usize, numbers: *const u16, numbers_count: usize, x: f32, y: f32, z: f32,
        ) -> Found;
        pub fn sofa_load(
            kind: u32, sizes: Sizes, positions: *const f32, positions_count: usize, responses: *const f32, responses_count: usize,
            angle_step: f32, radius_step: f32, rate: f32, left: *mut u16, left_count: usize, right: *mut u16, right_count: usize,
            neighbours: *mut u16, neighbours_count: usize, cartesian: *mut f32, cartesian_count: usize,
        ) -> Loaded;
        pub fn sofa_find(
            sizes: Sizes, lookup: Lookup, cartesian: *const f32, cartesian_count: usize, left: *const u16, left_count: usize,
            right: *const u16, right_count: usize, x: f32, y: f32, z: f32,
        ) -> Found;
        pub fn sofa_find_mut(
            sizes: Sizes, lookup: Lookup, cartesian: *const f32, cartesian_count: usize, left: *const u16, left_count: usize,
            right: *const u16, right_count: usize, coordinates: *mut f32,
        ) -> Found;
        pub fn sofa_filter(
            sizes: Sizes, lookup: Lookup, cartesian: *const f32, cartesian_count: usize, left: *const u16, left_count: usize,
            right: *const u16, right_count: usize, neighbours: *const u16, neighbours_count: usize,
            responses: *const f32, responses_count: usize, delays: *const f32, delays_count: usize, rate: f32, x: f32, y: f32, z: f32,
            out_left: *mut f32, out_left_count: usize, out_right: *mut f32, out_right_count: usize,
        ) -> Filtered;
        pub fn sofa_filter_nointerp(
            sizes: Sizes, lookup: Lookup, cartesian: *const f32, cartesian_count: usize, left: *const u16, left_count: usize,
            right: *const u16, right_count: usize,
            responses: *const f32, responses_count: usize, delays: *const f32, delays_count: usize, rate: f32, x: f32, y: f32, z: f32,
            out_left: *mut f32, out_left_count: usize, out_right: *mut f32, out_right_count: usize,
        ) -> Filtered;
        pub fn sofa_filter_number(
            sizes: Sizes, responses: *const f32, responses_count: usize, delays: *const f32, delays_count: usize, rate: f32, number: usize,
            out_left: *mut f32, out_left_count: usize, out_right: *mut f32, out_right_count: usize,
        ) -> Filtered;
        pub fn sofa_left_response(sizes: Sizes, responses: *const f32, responses_count: usize, number: usize) -> Part;
        pub fn sofa_right_response(sizes: Sizes, responses: *const f32, responses_count: usize, number: usize) -> Part;
        pub fn sofa_neighbors_of(sizes: Sizes, neighbours: *const u16, neighbours_count: usize, number: usize) -> Six;
        pub fn sofa_max_delay(delays: *const f32, delays_count: usize, rate: f32) -> Value;
    }
}

/// Makes a call in the default floating-point environment.
#[inline]
fn call<T>(made: impl FnOnce() -> T) -> T {
    let _host = Aside::put();
    made()
}

/// The archive's version: 65536 times the first part, 256 times the second, and the third.
pub fn version() -> u32 {
    // SAFETY: a number by value only.
    call(|| unsafe { c::sofa_version() })
}

/// The correctly rounded square root, of every f32.
pub fn root(x: f32) -> f32 {
    // SAFETY: numbers by value only.
    call(|| unsafe { c::sofa_root(x) })
}

/// Refused 7 beyond ±16 or not finite.
pub fn sine(x: f32) -> Value {
    // SAFETY: numbers by value only.
    call(|| unsafe { c::sofa_sine(x) })
}

/// Refused 7 beyond ±16 or not finite.
pub fn cosine(x: f32) -> Value {
    // SAFETY: numbers by value only.
    call(|| unsafe { c::sofa_cosine(x) })
}

/// Refused 7 where y (place 0) or x (place 1) is not finite.
pub fn arctangent(y: f32, x: f32) -> Value {
    // SAFETY: numbers by value only.
    call(|| unsafe { c::sofa_arctangent(y, x) })
}

/// Cartesian triplets to spherical ones in place, or refusal 4.
pub fn to_spherical(values: &mut [f32]) -> Refused {
    // SAFETY: pointer and count of one exclusive slice.
    call(|| unsafe { c::sofa_to_spherical(values.as_mut_ptr(), values.len()) })
}

/// Spherical triplets to Cartesian ones in place, or refusal 4.
pub fn to_cartesian(values: &mut [f32]) -> Refused {
    // SAFETY: pointer and count of one exclusive slice.
    call(|| unsafe { c::sofa_to_cartesian(values.as_mut_ptr(), values.len()) })
}

/// A point for the next place of the bare tree, or refusal 3 or 9.
#[rustfmt::skip]
#[allow(clippy::too_many_arguments)]
pub fn tree_insert(
    count: usize, bounds: BoundingBox, positions: &mut [f32], left: &mut [u16], right: &mut [u16], numbers: &mut [u16], p: Coordinates, number: u16,
) -> Inserted {
    // SAFETY: pointers and counts of four exclusive slices.
    call(|| unsafe {
        c::sofa_tree_insert(
            count, bounds, positions.as_mut_ptr(), positions.len(), left.as_mut_ptr(), left.len(), right.as_mut_ptr(), right.len(),
            numbers.as_mut_ptr(), numbers.len(), p[0], p[1], p[2], number,
        )
    })
}

/// The number of the nearest place of the bare tree, 65535 where it is empty, or refusal 3 or 9.
#[rustfmt::skip]
pub fn tree_nearest(count: usize, bounds: BoundingBox, t: Tree, numbers: &[u16], q: Coordinates) -> Found {
    // SAFETY: pointers and counts of shared slices, which the archive only reads.
    call(|| unsafe {
        c::sofa_tree_nearest(
            count, bounds, t.positions.as_ptr(), t.positions.len(), t.left.as_ptr(), t.left.len(), t.right.as_ptr(), t.right.len(),
            numbers.as_ptr(), numbers.len(), q[0], q[1], q[2],
        )
    })
}

/// A set made ready, or refusal 1 to 6.
#[rustfmt::skip]
#[allow(clippy::too_many_arguments)]
pub fn load(
    kind: u32, sizes: Sizes, positions: &[f32], responses: &[f32], angle_step: f32, radius_step: f32, rate: f32, w: Work,
) -> Loaded {
    // SAFETY: pointers and counts of two shared slices, only read, and of four exclusive ones.
    call(|| unsafe {
        c::sofa_load(
            kind, sizes, positions.as_ptr(), positions.len(), responses.as_ptr(), responses.len(), angle_step, radius_step, rate,
            w.left.as_mut_ptr(), w.left.len(), w.right.as_mut_ptr(), w.right.len(), w.neighbours.as_mut_ptr(), w.neighbours.len(),
            w.cartesian.as_mut_ptr(), w.cartesian.len(),
        )
    })
}

/// The number of the nearest measurement, or refusal 2, 3, 7 or 9.
#[rustfmt::skip]
pub fn find(sizes: Sizes, lookup: Lookup, t: Tree, q: Coordinates) -> Found {
    // SAFETY: pointers and counts of shared slices, only read.
    call(|| unsafe {
        c::sofa_find(
            sizes, lookup, t.positions.as_ptr(), t.positions.len(), t.left.as_ptr(), t.left.len(), t.right.as_ptr(), t.right.len(),
            q[0], q[1], q[2],
        )
    })
}

/// The same, leaving the query drawn to the measured radii; refused, it stays.
#[rustfmt::skip]
pub fn find_mut(sizes: Sizes, lookup: Lookup, t: Tree, q: &mut Coordinates) -> Found {
    // SAFETY: as `find`; the coordinates are an exclusive array of three.
    call(|| unsafe {
        c::sofa_find_mut(
            sizes, lookup, t.positions.as_ptr(), t.positions.len(), t.left.as_ptr(), t.left.len(), t.right.as_ptr(), t.right.len(),
            q.as_mut_ptr(),
        )
    })
}

/// The filter at a query, or refusal 2, 3, 6, 7 or 9 with +0 in every sample.
#[rustfmt::skip]
#[allow(clippy::too_many_arguments)]
pub fn filter(
    sizes: Sizes, lookup: Lookup, t: Tree, neighbours: &[u16], s: Sound, q: Coordinates, left: &mut [f32], right: &mut [f32],
) -> Filtered {
    // SAFETY: pointers and counts of shared slices, only read, and of two exclusive ones.
    call(|| unsafe {
        c::sofa_filter(
            sizes, lookup, t.positions.as_ptr(), t.positions.len(), t.left.as_ptr(), t.left.len(), t.right.as_ptr(), t.right.len(),
            neighbours.as_ptr(), neighbours.len(), s.responses.as_ptr(), s.responses.len(), s.delays.as_ptr(), s.delays.len(), s.rate,
            q[0], q[1], q[2], left.as_mut_ptr(), left.len(), right.as_mut_ptr(), right.len(),
        )
    })
}

/// The nearest measurement's filter, nothing blended, or refusal 2, 3, 6, 7 or 9 with +0 in every sample.
#[rustfmt::skip]
pub fn filter_nointerp(
    sizes: Sizes, lookup: Lookup, t: Tree, s: Sound, q: Coordinates, left: &mut [f32], right: &mut [f32],
) -> Filtered {
    // SAFETY: pointers and counts of shared slices, only read, and of two exclusive ones.
    call(|| unsafe {
        c::sofa_filter_nointerp(
            sizes, lookup, t.positions.as_ptr(), t.positions.len(), t.left.as_ptr(), t.left.len(), t.right.as_ptr(), t.right.len(),
            s.responses.as_ptr(), s.responses.len(), s.delays.as_ptr(), s.delays.len(), s.rate,
            q[0], q[1], q[2], left.as_mut_ptr(), left.len(), right.as_mut_ptr(), right.len(),
        )
    })
}

/// A measurement's filter, or refusal 2, 3, 6 or 8 with +0 in every sample.
#[rustfmt::skip]
pub fn filter_number(sizes: Sizes, s: Sound, number: usize, left: &mut [f32], right: &mut [f32]) -> Filtered {
    // SAFETY: pointers and counts of shared slices, only read, and of two exclusive ones.
    call(|| unsafe {
        c::sofa_filter_number(
            sizes, s.responses.as_ptr(), s.responses.len(), s.delays.as_ptr(), s.delays.len(), s.rate, number,
            left.as_mut_ptr(), left.len(), right.as_mut_ptr(), right.len(),
        )
    })
}

/// Where a measurement's left taps stand, or refusal 2, 3 or 8.
pub fn left_response(sizes: Sizes, responses: &[f32], number: usize) -> Part {
    // SAFETY: pointer and count of one shared slice, only read.
    call(|| unsafe { c::sofa_left_response(sizes, responses.as_ptr(), responses.len(), number) })
}

/// Where a measurement's right taps stand, or refusal 2, 3 or 8.
pub fn right_response(sizes: Sizes, responses: &[f32], number: usize) -> Part {
    // SAFETY: pointer and count of one shared slice, only read.
    call(|| unsafe { c::sofa_right_response(sizes, responses.as_ptr(), responses.len(), number) })
}

/// A measurement's six entries as they stand, or refusal 2, 3 or 8.
pub fn neighbors_of(sizes: Sizes, neighbours: &[u16], number: usize) -> Six {
    // SAFETY: pointer and count of one shared slice, only read.
    call(|| unsafe { c::sofa_neighbors_of(sizes, neighbours.as_ptr(), neighbours.len(), number) })
}

/// The longest delay in seconds, or refusal 6.
pub fn max_delay(delays: &[f32], rate: f32) -> Value {
    // SAFETY: pointer and count of one shared slice, only read.
    call(|| unsafe { c::sofa_max_delay(delays.as_ptr(), delays.len(), rate) })
}
