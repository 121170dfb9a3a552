// SPDX-License-Identifier: MIT OR Apache-2.0
//! What a host says of a set.
use crate::ffi::Sizes;

/// What the positions of a set are, as the number that a file gives. Any other number is refused 1.
#[derive(Clone, Copy, Debug, PartialEq, Eq, Hash)]
pub struct Kind(pub u32);

impl Kind {
    /// x, y, z in metres, each of magnitude at most 10000.
    pub const CARTESIAN: Kind = Kind(0);
    /// Azimuth and elevation in degrees, of magnitude at most 720, and a radius in metres from 0 to 10000.
    pub const SPHERICAL: Kind = Kind(1);
}

/// What a host says of a set, by name.
///
/// Four of the fields have to be given: `kind`, `m`, `n` and `rate`. The default holds values there that a load refuses, by 1, 2, 2 and 6, so
/// that none of them is forgotten in silence. The others need not be: two receivers, and the steps of the source.
///
/// ```
/// use sofa::{Description, Kind};
///
/// let described = Description { kind: Kind::SPHERICAL, m: 710, n: 256, rate: 44100.0, ..Description::default() };
/// assert_eq!((described.r, described.angle_step, described.radius_step), (2, 0.5, 0.01));
/// ```
///
/// Later versions have more fields, each with a default by which a set is what it was. They break no caller, since a description cannot be
/// written without its last part:
///
/// ```compile_fail,E0063
/// use sofa::{Description, Kind};
///
/// Description { kind: Kind::SPHERICAL, m: 710, r: 2, n: 256, angle_step: 0.5, radius_step: 0.01, rate: 44100.0 };
/// ```
#[derive(Clone, Copy, Debug, PartialEq)]
pub struct Description {
    /// What the positions are. To be given.
    pub kind: Kind,
    /// Measurements, 1 to 16384. To be given.
    pub m: usize,
    /// Receivers of a measurement, 2 to 8, of which the first two are the left and the right ear; 2 unless it is given.
    pub r: usize,
    /// Taps of a response, 0 to 8192. To be given.
    pub n: usize,
    /// How far apart the places are that the search for a neighbour in azimuth and elevation tries: 0.1 to 45 degrees; 0.5 unless it is given.
    pub angle_step: f32,
    /// The same in radius: 0.001 to 1 metre; 0.01 unless it is given.
    pub radius_step: f32,
    /// Samples a second, 1000 to 384000. To be given.
    pub rate: f32,
    /// Not to be named: write `..Description::default()`. It may be another field in any version.
    #[doc(hidden)]
    pub more: More,
}

/// Nothing, and there is nothing to write for it but a default. A struct with a field of it cannot be written without its last part.
#[doc(hidden)]
#[derive(Clone, Copy, Debug, Default, PartialEq)]
pub struct More(());

impl Default for Description {
    fn default() -> Description {
        let refused = usize::MAX;
        Description {
            kind: Kind(255), // document 01's number for a word that is no kind
            m: refused,
            r: 2,
            n: refused,
            angle_step: 0.5,
            radius_step: 0.01,
            rate: 0.0,
            more: More::default(),
        }
    }
}

impl Description {
    pub(crate) fn sizes(&self) -> Sizes {
        Sizes { m: self.m, c: 3, r: self.r, n: self.n }
    }
}
