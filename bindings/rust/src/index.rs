// SPDX-License-Identifier: MIT OR Apache-2.0
//! What a load works out, to be kept.
use crate::description::More;
use crate::ffi::{self, BoundingBox};

pub(crate) const ABSENT: u16 = 65535;

/// The box of a set's tree and the six bounds of its positions: azimuth (phi) and elevation (theta) in degrees, radius in metres. It can be
/// made of an [`ffi::Lookup`] and into one.
///
/// Later versions have more fields, as with [`Index`]: who writes one out ends it in `..Lookup::default()`, else it is not compiled.
///
/// ```compile_fail,E0063
/// use sofa::{BoundingBox, Lookup};
///
/// let bounds = BoundingBox::default();
/// Lookup { bounds, phi_min: 0.0, phi_max: 0.0, theta_min: 0.0, theta_max: 0.0, radius_min: 1.0, radius_max: 1.0 };
/// ```
#[derive(Clone, Copy, Debug, Default, PartialEq)]
#[allow(missing_docs)]
pub struct Lookup {
    pub bounds: BoundingBox,
    pub phi_min: f32,
    pub phi_max: f32,
    pub theta_min: f32,
    pub theta_max: f32,
    pub radius_min: f32,
    pub radius_max: f32,
    /// Not to be named: write `..Lookup::default()`. It may be another field in any version.
    #[doc(hidden)]
    pub more: More,
}

impl From<ffi::Lookup> for Lookup {
    fn from(told: ffi::Lookup) -> Lookup {
        let ffi::Lookup { bounds, phi_min, phi_max, theta_min, theta_max, radius_min, radius_max } = told;
        Lookup { bounds, phi_min, phi_max, theta_min, theta_max, radius_min, radius_max, more: More::default() }
    }
}

impl From<Lookup> for ffi::Lookup {
    fn from(kept: Lookup) -> ffi::Lookup {
        let Lookup { bounds, phi_min, phi_max, theta_min, theta_max, radius_min, radius_max, more: _ } = kept;
        ffi::Lookup { bounds, phi_min, phi_max, theta_min, theta_max, radius_min, radius_max }
    }
}

/// What a load works out and the queries go by: it can be kept, and given to [`Set::with_index`](crate::Set::with_index) in place of a load.
///
/// The queries refuse lists that are too short (3) and, when they meet them, bad links and neighbours (9). A box, bounds or positions that
/// are not a load's are refused by nothing: the answers are then what the arithmetic gives.
///
/// Later versions have more fields, here and in [`Lookup`], each with a default by which an index is what it was. They break no caller, since
/// who writes one out has to end it in `..Index::default()`:
///
/// ```
/// use sofa::{Index, Lookup};
///
/// let lookup = Lookup { radius_min: 1.0, radius_max: 1.0, ..Lookup::default() };
/// let cartesian = vec![1.0, 0.0, 0.0];
/// Index { lookup, left: vec![65535], right: vec![65535], neighbours: vec![65535; 6], cartesian, ..Index::default() };
/// ```
///
/// ```compile_fail,E0063
/// use sofa::{Index, Lookup};
///
/// let lookup = Lookup { radius_min: 1.0, radius_max: 1.0, ..Lookup::default() };
/// let cartesian = vec![1.0, 0.0, 0.0];
/// Index { lookup, left: vec![65535], right: vec![65535], neighbours: vec![65535; 6], cartesian };
/// ```
#[derive(Clone, Debug, Default, PartialEq)]
pub struct Index {
    /// The box of the tree and the six bounds.
    pub lookup: Lookup,
    /// Links to the left, one for each measurement; 65535 is absent, here and below.
    pub left: Vec<u16>,
    /// Links to the right, one for each measurement.
    pub right: Vec<u16>,
    /// Six neighbours for each measurement.
    pub neighbours: Vec<u16>,
    /// Cartesian positions, three coordinates for each measurement.
    pub cartesian: Vec<f32>,
    /// Not to be named: write `..Index::default()`. It may be another field in any version.
    #[doc(hidden)]
    pub more: More,
}

impl Index {
    /// Lists as long as so many measurements ask. More than are allowed get empty ones: a load refuses the sizes before it looks at a list.
    pub(crate) fn room(m: usize) -> Index {
        let m = if m <= 16384 { m } else { 0 };
        Index { left: vec![ABSENT; m], right: vec![ABSENT; m], neighbours: vec![ABSENT; 6 * m], cartesian: vec![0.0; 3 * m], ..Index::default() }
    }

    pub(crate) fn tree(&self) -> ffi::Tree<'_> {
        ffi::Tree { positions: &self.cartesian, left: &self.left, right: &self.right }
    }
}
