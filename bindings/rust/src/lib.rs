// SPDX-License-Identifier: MIT OR Apache-2.0
//! Verified spatial-audio lookup for Rust: safe types over the archive `libsofa.a`.
//!
//! A [`Set`] is a head-related set made ready: ask it for the measurement nearest to a point, for the filter there, blended or plain, and
//! for what belongs to a measurement by its number. A [`Tree`] is the bare tree beneath it. No input makes a call panic, read or write out
//! of bounds, or run on: what is not allowed is a [`Refusal`], which says why in words and where.
//!
//! ```
//! use sofa::{Description, Kind, Set};
//!
//! let described = Description { kind: Kind::CARTESIAN, m: 2, n: 1, rate: 48000.0, ..Description::default() };
//! let positions = [1.0, 0.0, 0.0, -1.0, 0.0, 0.0]; // a metre ahead, and a metre behind
//! let responses = vec![0.5, 0.25, 1.0, 0.0]; // left and right ear of the first, then of the second
//! let delays = [375.0, 0.0]; // in samples
//! let set = Set::load(described, &positions, responses, delays)?;
//!
//! let (mut left, mut right) = ([0.0; 1], [0.0; 1]);
//! let told = set.filter([2.0, 0.0, 0.0], &mut left, &mut right)?;
//! assert_eq!((left, right, told.points()), ([0.5], [0.25], 1));
//! assert_eq!(told.delays().left.0, 375.0 / 48000.0);
//!
//! let nearest = set.find([-3.0, 0.5, 0.0])?.number;
//! assert_eq!((nearest, set.left_response(nearest)?), (1, &[1.0][..]));
//!
//! let refusal = set.filter([0.0, f32::NAN, 0.0], &mut left, &mut right).unwrap_err();
//! assert_eq!(refusal.to_string(), "a coordinate or an angle is not finite or out of range (refusal 7, place 1)");
//! # Ok::<(), sofa::Refusal>(())
//! ```
//!
//! # Axes and units
//!
//! Cartesian coordinates are metres from the middle of the head: x ahead, y to the left, z up. Spherical ones are azimuth, elevation and
//! radius. Azimuth is in degrees, counter-clockwise as seen from above: 0 ahead, 90 to the left, 270 to the right, and always below 360.
//! Elevation is in degrees from −90, below, over 0 to 90, above. Radius is in metres. A set may be given in either ([`Kind`]), with angles of
//! any turn up to ±720: an elevation beyond 90 goes on over the top, 100 at azimuth 0 being 80 at azimuth 180 but for roundings. Queries are
//! Cartesian, and [`to_cartesian`] makes them of spherical ones. The angles of [`sine`], [`cosine`] and [`arctangent`] alone are radians.
//!
//! Delays go in as samples and come out as [`Seconds`]. The rate is samples a second.
//!
//! ```
//! let mut point = [90.0, 0.0, 2.0]; // two metres to the left
//! sofa::to_cartesian(&mut point)?;
//! assert!(point[0].abs() < 1e-6 && point[1] == 2.0 && point[2] == 0.0);
//! # Ok::<(), sofa::Refusal>(())
//! ```
//!
//! # Steps
//!
//! A blend takes the nearest measurement and, of each pair of its six neighbours (azimuth, elevation, radius, up and down), the one closer to
//! the point. The load finds the neighbours: from each measurement it goes step by step in that direction, asks at each place for the nearest
//! measurement, and takes the first that is another one. It goes until 45 degrees are reached, or a hundred steps of radius, or the radius
//! leaves the measured ones by more than a step. So a step should be no wider than the measurements are apart, else some are passed over;
//! a finer one makes the load longer and no query. [`Description`] has the source's steps, 0.5 degrees and 0.01 metres, unless others are
//! given.
//!
//! # Refusals
//!
//! What is allowed stands at [`Description`] and [`Kind`]; responses and delays may be any f32. The [`Reason`]s are numbered, and each call
//! names the numbers that it can give. A refused load or conversion writes nothing; a refused filter has +0 in every sample. Over a set that
//! was loaded a query is refused for a coordinate that is not finite (7) or a number that is none of a measurement (8), and for nothing else.
//!
//! # Stack
//!
//! A load, and each call that searches, wants 2 KiB of stack and 352 bytes for each level of the tree: about 35 levels for 16384
//! measurements in no order, as many as there are measurements for those that are sorted along all three axes. 5.6 MiB are enough for any
//! call. [`stack`] has the figures, which are those of `include/sofa.h`.
//!
//! # Floating-point environment
//!
//! The archive is proved for IEEE 754 as it stands: rounding to nearest even, and subnormal numbers kept. A thread that renders audio often
//! has it otherwise (flush-to-zero, denormals-are-zero): then a refusal would be lost, another measurement found, a root wrong. So every
//! call of this crate puts the default environment in force, and the host's again before it returns (MXCSR on x86-64, FPCR and FPSR on
//! aarch64; nothing is written where the host has not changed it). A host in Rust has nothing to do, and is given the same bits whatever its
//! threads have set. `include/sofa.h` says the same to hosts in C, under "the floating-point environment", with two functions to do it by
//! hand.
//!
//! Beside a search this takes no time that can be measured. A call as short as [`root`], 6 ns, takes 1 ns more, and some 5 ns more where the
//! register is written (`cargo run --release --example cost`).
//!
//! # The archive
//!
//! A crate depends on this one by its path: `sofa = { path = "bindings/rust" }`.
//!
//! `bin/archive` of the repository writes `target/lib/x86_64/libsofa.a` or `target/lib/aarch64/libsofa.a`, for Linux on either machine.
//! `SOFA_LIB_DIR` names another folder, by its absolute path. Without the archive documentation builds and checks run, with a warning; what
//! links does not.
//!
//! The crate is for the archive of its own version: [`version`] says which is linked. A newer one may give reasons that have no name here
//! ([`Reason::Unknown`]). Later versions of the crate are meant to break no caller of its types: what may get a field cannot be written out
//! whole, and a pattern ends in `..`. Only [`ffi`] follows the header.
//!
//! The build script of a crate that depends on this one is told of the archive's folder as `DEP_SOFA_ROOT`, and of that of `sofa.h` as
//! `DEP_SOFA_INCLUDE`.
#![warn(missing_docs)]
#![deny(unsafe_code)]

mod description;
#[allow(unsafe_code)]
mod environment;
#[allow(unsafe_code)]
pub mod ffi;
mod index;
mod refusal;
mod set;
pub mod stack;
mod tree;

pub use description::{Description, Kind};
pub use ffi::{BoundingBox, Coordinates};
pub use index::{Index, Lookup};
pub use refusal::{Reason, Refusal};
pub use set::{Delays, Filtered, Found, Neighbors, Seconds, Set};
pub use tree::{Nearest, Tree};

use refusal::said;

/// The version of the archive that is linked, in its three parts. It should be the crate's own, and is that of the header beside it.
///
/// ```
/// assert_eq!(sofa::version().map(|part| part.to_string()).join("."), env!("CARGO_PKG_VERSION"));
/// ```
pub fn version() -> [u32; 3] {
    let version = ffi::version();
    [version >> 16, version >> 8 & 255, version & 255]
}

/// The correctly rounded square root, of every f32.
///
/// ```
/// assert_eq!(sofa::root(2.0), 2f32.sqrt());
/// ```
pub fn root(x: f32) -> f32 {
    ffi::root(x)
}

/// The sine of an angle in radians from −16 to 16.
///
/// ```
/// assert_eq!(sofa::sine(0.0), Ok(0.0));
/// assert!(sofa::sine(17.0).is_err());
/// ```
pub fn sine(x: f32) -> Result<f32, Refusal> {
    let v = ffi::sine(x);
    said(v.reason, v.place).map(|()| v.value)
}

/// The cosine of an angle in radians from −16 to 16.
pub fn cosine(x: f32) -> Result<f32, Refusal> {
    let v = ffi::cosine(x);
    said(v.reason, v.place).map(|()| v.value)
}

/// The angle of the point (x, y) in radians, from −π to π; both finite.
pub fn arctangent(y: f32, x: f32) -> Result<f32, Refusal> {
    let v = ffi::arctangent(y, x);
    said(v.reason, v.place).map(|()| v.value)
}

/// Cartesian coordinates, three values at a time, to azimuth and elevation in degrees and radius, in place. Refused 4, and the list stays as
/// it was then; one or two values left over are neither read nor written.
///
/// ```
/// let mut values = [0.0, 2.0, 0.0];
/// sofa::to_spherical(&mut values)?;
/// assert_eq!(values, [90.0, 0.0, 2.0]);
/// # Ok::<(), sofa::Refusal>(())
/// ```
pub fn to_spherical(values: &mut [f32]) -> Result<(), Refusal> {
    let r = ffi::to_spherical(values);
    said(r.reason, r.place)
}

/// The way back from [`to_spherical`]: azimuth, elevation and radius to x, y, z.
pub fn to_cartesian(values: &mut [f32]) -> Result<(), Refusal> {
    let r = ffi::to_cartesian(values);
    said(r.reason, r.place)
}

/// What later versions add to is nothing that a caller can write out, so that none breaks by it. The compiler refuses each of these:
///
/// ```compile_fail,E0639
/// sofa::Found { number: 0 };
/// ```
/// ```compile_fail,E0639
/// sofa::Nearest { number: 0 };
/// ```
/// ```compile_fail,E0639
/// sofa::Delays { left: sofa::Seconds(0.0), right: sofa::Seconds(0.0) };
/// ```
/// ```compile_fail,E0639
/// sofa::Neighbors { phi_plus: None, phi_minus: None, theta_plus: None, theta_minus: None, radius_plus: None, radius_minus: None };
/// ```
/// ```compile_fail,E0639
/// sofa::Refusal { reason: sofa::Reason::Rate, place: 0 };
/// ```
#[cfg(doctest)]
mod answers {}
