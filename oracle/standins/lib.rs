//! The root of the source's library for the comparison: its modules as they are, and the stand-ins for what they lean on and is not there.
#![allow(dead_code)]

pub mod angles;
pub mod filter;
pub mod hdf;
pub mod reader;

pub mod sofa {
    pub mod coords;
    pub mod error;
    pub mod interpolate;
    pub mod kdtree;
    pub mod lookup;
    pub mod neighbors;
    pub mod reader;
    pub mod types;

    pub use error::Error;
    pub use interpolate::{InterpolatedFilter, get_filter_nointerp, interpolate};
    pub use lookup::Lookup;
    pub use neighbors::Neighborhood;
    pub use reader::Hrtf;

    // Document 01 leaves these out: nothing is refused, and the two others are never reached (the rate asked for is the set's own, normalising is off).
    pub fn validate(_: &Hrtf) -> Result<(), String> {
        Ok(())
    }

    pub fn resample(_: &mut Hrtf, _: f32) -> Result<(), String> {
        unreachable!("resampling is left out")
    }

    pub fn normalize(_: &mut Hrtf) -> Result<(), String> {
        unreachable!("normalising is left out")
    }
}
