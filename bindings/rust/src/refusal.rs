// SPDX-License-Identifier: MIT OR Apache-2.0
//! What a call says no to.
use std::error::Error;
use std::fmt;

/// Why a call was refused: document 01's table, of which the first line that is met is given. Later versions have more of them.
#[derive(Clone, Copy, Debug, PartialEq, Eq, Hash)]
#[non_exhaustive]
pub enum Reason {
    /// 1: the position kind is neither Cartesian nor spherical. The place is the kind.
    Kind,
    /// 2: a size is not allowed.
    Sizes,
    /// 3: a list is too short, the positions are not three for each measurement, or the tree is full.
    Lists,
    /// 4: a position value is not allowed. The place is its first index.
    Position,
    /// 5: a step is not allowed. Place 0 is the angle step, 1 the radius step.
    Step,
    /// 6: the rate is not allowed.
    Rate,
    /// 7: a coordinate is not finite, or an angle is not finite or beyond ±16. The place is the axis or the argument.
    NotFinite,
    /// 8: there is no measurement of this number. The place is the number.
    Number,
    /// 9: a link or a neighbour is bad, or a search would visit more places than there are.
    Link,
    /// A number that this version has no name for, from an archive that is newer than the crate.
    #[non_exhaustive]
    Unknown {
        /// The archive's number.
        number: u32,
    },
}

impl Reason {
    /// In the order of their numbers, from 1 on.
    const NAMED: [Reason; 9] =
        [Reason::Kind, Reason::Sizes, Reason::Lists, Reason::Position, Reason::Step, Reason::Rate, Reason::NotFinite, Reason::Number, Reason::Link];

    /// The archive's number for it, as in document 01 and in `include/sofa.h`.
    pub fn number(self) -> u32 {
        match self {
            Reason::Kind => 1,
            Reason::Sizes => 2,
            Reason::Lists => 3,
            Reason::Position => 4,
            Reason::Step => 5,
            Reason::Rate => 6,
            Reason::NotFinite => 7,
            Reason::Number => 8,
            Reason::Link => 9,
            Reason::Unknown { number } => number,
        }
    }

    /// What the archive's number says: nothing for 0, which is no refusal.
    pub fn of(number: u32) -> Option<Reason> {
        match number {
            0 => None,
            _ => Some(Reason::NAMED.into_iter().find(|r| r.number() == number).unwrap_or(Reason::Unknown { number })),
        }
    }

    fn words(self) -> &'static str {
        match self {
            Reason::Kind => "the position kind is neither 0 (cartesian) nor 1 (spherical)",
            Reason::Sizes => "a size is not allowed: measurements 1 to 16384, coordinates 3, receivers 2 to 8, taps 0 to 8192",
            Reason::Lists => "a list is too short, the positions are not three for each measurement, or the tree is full",
            Reason::Position => "a position value is not allowed",
            Reason::Step => "a step is not allowed: angle 0.1 to 45, radius 0.001 to 1",
            Reason::Rate => "the rate is not allowed: 1000 to 384000",
            Reason::NotFinite => "a coordinate or an angle is not finite or out of range",
            Reason::Number => "there is no measurement of this number",
            Reason::Link => "a link or a neighbour is bad, or the search would visit more places than there are",
            Reason::Unknown { .. } => "a reason that this version has no words for",
        }
    }
}

/// A refused call: why, and where. It prints both in words.
///
/// ```
/// let refusal = sofa::sine(f32::INFINITY).unwrap_err();
/// assert_eq!((refusal.reason, refusal.place), (sofa::Reason::NotFinite, 0));
/// assert_eq!(refusal.to_string(), "a coordinate or an angle is not finite or out of range (refusal 7, place 0)");
/// assert_eq!(refusal, sofa::Refusal::new(sofa::Reason::NotFinite, 0));
/// ```
#[derive(Clone, Copy, Debug, PartialEq, Eq, Hash)]
#[non_exhaustive]
pub struct Refusal {
    /// The line of the table.
    pub reason: Reason,
    /// What the line names: an index, an axis, a number, or 0.
    pub place: usize,
}

impl Refusal {
    /// One that a host gives itself, or compares with.
    pub const fn new(reason: Reason, place: usize) -> Refusal {
        Refusal { reason, place }
    }
}

impl fmt::Display for Refusal {
    fn fmt(&self, f: &mut fmt::Formatter<'_>) -> fmt::Result {
        write!(f, "{} (refusal {}, place {})", self.reason.words(), self.reason.number(), self.place)
    }
}

impl Error for Refusal {}

/// An answer's first two fields.
pub(crate) fn said(reason: u32, place: usize) -> Result<(), Refusal> {
    match Reason::of(reason) {
        None => Ok(()),
        Some(reason) => Err(Refusal { reason, place }),
    }
}
