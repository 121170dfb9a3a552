// SPDX-License-Identifier: MIT OR Apache-2.0
//! A set made ready, and what it is asked.
use crate::description::Description;
use crate::ffi::{self, Coordinates};
use crate::index::{Index, ABSENT};
use crate::refusal::{said, Reason, Refusal};

/// Seconds, as all delays are that a set answers. Those that it is loaded with are in samples.
#[derive(Clone, Copy, Debug, PartialEq, PartialOrd)]
pub struct Seconds(pub f32);

/// The delays of both ears.
#[derive(Clone, Copy, Debug, PartialEq)]
#[non_exhaustive]
pub struct Delays {
    /// Of the left ear.
    pub left: Seconds,
    /// Of the right ear.
    pub right: Seconds,
}

/// What [`Set::find`] answers. Later versions tell more: a pattern ends in `..`, and who means the number alone compares that.
#[derive(Clone, Copy, Debug, PartialEq, Eq)]
#[non_exhaustive]
pub struct Found {
    /// The number of the nearest measurement, as every call by number takes it.
    pub number: usize,
}

fn found(f: ffi::Found) -> Result<Found, Refusal> {
    said(f.reason, f.place).map(|()| Found { number: usize::from(f.number) })
}

/// What a filter answers beside the samples: one of these two, in later versions too, since document 01 has no third beside a refusal. Each
/// may tell more then: a pattern ends in `..`.
#[derive(Clone, Copy, Debug, PartialEq)]
pub enum Filtered {
    /// One measurement as it is.
    #[non_exhaustive]
    Exact {
        /// The delays of both ears.
        delays: Delays,
    },
    /// Several points, each by its weight.
    #[non_exhaustive]
    Blended {
        /// The delays of both ears.
        delays: Delays,
        /// How many points were blended, 1 to 4.
        points: usize,
    },
}

impl Filtered {
    /// The delays of both ears.
    pub fn delays(self) -> Delays {
        match self {
            Filtered::Exact { delays } | Filtered::Blended { delays, .. } => delays,
        }
    }

    /// How many points were blended: 1 when exact.
    pub fn points(self) -> usize {
        match self {
            Filtered::Exact { .. } => 1,
            Filtered::Blended { points, .. } => points,
        }
    }

    /// Whether it is one measurement as it is.
    pub fn is_exact(self) -> bool {
        matches!(self, Filtered::Exact { .. })
    }
}

fn filtered(f: ffi::Filtered) -> Result<Filtered, Refusal> {
    said(f.reason, f.place)?;
    let delays = Delays { left: Seconds(f.ldelay), right: Seconds(f.rdelay) };
    Ok(match f.blended {
        0 => Filtered::Exact { delays },
        _ => Filtered::Blended { delays, points: f.points },
    })
}

/// The neighbours of a measurement in six directions, by number: azimuth (phi), elevation (theta), radius, each up and down.
#[derive(Clone, Copy, Debug, PartialEq, Eq)]
#[non_exhaustive]
#[allow(missing_docs)]
pub struct Neighbors {
    pub phi_plus: Option<usize>,
    pub phi_minus: Option<usize>,
    pub theta_plus: Option<usize>,
    pub theta_minus: Option<usize>,
    pub radius_plus: Option<usize>,
    pub radius_minus: Option<usize>,
}

/// A head-related set made ready for queries.
///
/// It owns what the load works out, the [`Index`]. Responses and delays are kept as the caller gives them, each in its own way, and never
/// copied: an owned `Vec<f32>` for a set that stands alone, a slice `&[f32]` for one that borrows, an `Arc<[f32]>` for several sets over the
/// same data, `[]` for none (anything that is `AsRef<[f32]>`). The positions are read by the load and not kept.
///
/// Responses are taps within receivers within measurements. Delays are in samples: as many as measurements are one for each and both ears;
/// else at least one for each measurement and receiver are that; else at least one for each receiver are the first two for all; else there
/// is no delay.
///
/// Measurements are numbered from 0 in the order of the positions: what a call answers as a number every other call takes.
///
/// Queries take `&self`, allocate nothing and keep the host's floating-point environment, so that a set can be asked from an audio thread,
/// and from several at once.
#[derive(Clone, Debug)]
pub struct Set<R, D = R> {
    described: Description,
    index: Index,
    responses: R,
    delays: D,
}

impl<R: AsRef<[f32]>, D: AsRef<[f32]>> Set<R, D> {
    /// Loads a set, or refuses 1 to 6.
    ///
    /// ```
    /// use sofa::{Description, Kind, Reason, Set};
    ///
    /// let one = Description { kind: Kind::SPHERICAL, m: 1, n: 0, rate: 48000.0, ..Description::default() };
    /// assert!(Set::load(one, &[30.0, 0.0, 1.5], [], []).is_ok());
    /// let refusal = Set::load(one, &[30.0, 0.0, -1.5], [], []).unwrap_err();
    /// assert_eq!((refusal.reason, refusal.place), (Reason::Position, 2));
    /// ```
    ///
    /// It allocates the lists of the index, 28 bytes for each measurement. It is not for an audio thread: by size, order and steps it takes
    /// from milliseconds to seconds, for which `include/sofa.h` has figures.
    ///
    /// Stack: 2 KiB, and 352 bytes for each level of the tree ([`crate::stack`]); 5.6 MiB are enough for any set.
    pub fn load(described: Description, positions: &[f32], responses: R, delays: D) -> Result<Set<R, D>, Refusal> {
        let mut index = Index::room(described.m);
        let work = ffi::Work { left: &mut index.left, right: &mut index.right, neighbours: &mut index.neighbours, cartesian: &mut index.cartesian };
        let Description { kind, angle_step, radius_step, rate, .. } = described;
        let told = ffi::load(kind.0, described.sizes(), positions, responses.as_ref(), angle_step, radius_step, rate, work);
        said(told.reason, told.place)?;
        index.lookup = told.lookup.into();
        Ok(Set::with_index(described, index, responses, delays))
    }

    /// A set over an index that was kept from an earlier load. It cannot fail, since nothing is checked here: the archive checks at each query
    /// what that goes by, the sizes, the rate and the lengths of lists, and refuses then. The same holds for what later versions let a set
    /// declare, such as a shape of its delays. Of the description the sizes and the rate are used, not the kind and the steps, which the
    /// index was made with.
    pub fn with_index(described: Description, index: Index, responses: R, delays: D) -> Set<R, D> {
        Set { described, index, responses, delays }
    }

    /// What the set was loaded with.
    pub fn description(&self) -> Description {
        self.described
    }

    /// Samples a second.
    pub fn rate(&self) -> f32 {
        self.described.rate
    }

    /// All responses, as they were given.
    pub fn responses(&self) -> &[f32] {
        self.responses.as_ref()
    }

    /// All delays in samples, as they were given.
    pub fn delays(&self) -> &[f32] {
        self.delays.as_ref()
    }

    /// What the load worked out.
    pub fn index(&self) -> &Index {
        &self.index
    }

    /// What the load worked out, to be kept when the set goes.
    pub fn into_index(self) -> Index {
        self.index
    }

    fn sound(&self) -> ffi::Sound<'_> {
        ffi::Sound { responses: self.responses(), delays: self.delays(), rate: self.rate() }
    }

    /// The measurement nearest to a point, which is first drawn to the measured radii. Refused 2, 3, 7, 9; over a loaded set only 7.
    ///
    /// Stack: 2 KiB, and 352 bytes for each level of the tree ([`crate::stack`]); 5.6 MiB are enough for any set.
    pub fn find(&self, at: Coordinates) -> Result<Found, Refusal> {
        found(ffi::find(self.described.sizes(), self.index.lookup.into(), self.index.tree(), at))
    }

    /// The same, and the point is left as it was drawn to the measured radii; refused, it stays. Stack: as [`Set::find`].
    pub fn find_mut(&self, at: &mut Coordinates) -> Result<Found, Refusal> {
        found(ffi::find_mut(self.described.sizes(), self.index.lookup.into(), self.index.tree(), at))
    }

    /// The filter at a point: the nearest measurement itself where the point is on it, else a blend with the closer neighbour in each
    /// direction. An output holds the taps as far as it has room, and +0 in the rest. Refused 2, 3, 6, 7, 9, over a loaded set only 7;
    /// every sample of both outputs is +0 then.
    ///
    /// Stack: 2 KiB, and 352 bytes for each level of the tree ([`crate::stack`]); 5.6 MiB are enough for any set.
    pub fn filter(&self, at: Coordinates, left: &mut [f32], right: &mut [f32]) -> Result<Filtered, Refusal> {
        let Index { lookup, neighbours, .. } = &self.index;
        let lookup = (*lookup).into();
        filtered(ffi::filter(self.described.sizes(), lookup, self.index.tree(), neighbours, self.sound(), at, left, right))
    }

    /// The filter of the nearest measurement as it is: always exact. Outputs, refusals and stack are those of [`Set::filter`].
    pub fn filter_nointerp(&self, at: Coordinates, left: &mut [f32], right: &mut [f32]) -> Result<Filtered, Refusal> {
        let lookup = self.index.lookup.into();
        filtered(ffi::filter_nointerp(self.described.sizes(), lookup, self.index.tree(), self.sound(), at, left, right))
    }

    /// The filter of a measurement: always exact. Refused 2, 3, 6, 8, over a loaded set only 8; the outputs are those of [`Set::filter`].
    pub fn filter_number(&self, number: usize, left: &mut [f32], right: &mut [f32]) -> Result<Filtered, Refusal> {
        filtered(ffi::filter_number(self.described.sizes(), self.sound(), number, left, right))
    }

    /// The left taps of a measurement: a view of the responses, not a copy. Refused 2, 3, 8, over a loaded set only 8.
    pub fn left_response(&self, number: usize) -> Result<&[f32], Refusal> {
        let responses = self.responses();
        view(responses, ffi::left_response(self.described.sizes(), responses, number))
    }

    /// The right taps of a measurement: a view of the responses, not a copy. Refused 2, 3, 8, over a loaded set only 8.
    pub fn right_response(&self, number: usize) -> Result<&[f32], Refusal> {
        let responses = self.responses();
        view(responses, ffi::right_response(self.described.sizes(), responses, number))
    }

    /// The Cartesian position of a measurement, converted by the load if the set is spherical. Refused 2, 3, 8, over a loaded set only 8.
    pub fn position(&self, number: usize) -> Result<Coordinates, Refusal> {
        // The archive has no call for it. Which sizes are allowed it says in any call by number, before it looks at a list.
        let judged = ffi::left_response(self.described.sizes(), &[], number);
        if judged.reason == Reason::Sizes.number() {
            return Err(Refusal::new(Reason::Sizes, judged.place));
        }
        let (triplets, m) = (self.index.cartesian.chunks_exact(3), self.described.m);
        if triplets.len() < m {
            return Err(Refusal::new(Reason::Lists, 0));
        }
        match triplets.take(m).nth(number) {
            Some(&[x, y, z]) => Ok([x, y, z]),
            _ => Err(Refusal::new(Reason::Number, number)),
        }
    }

    /// The neighbours of a measurement. Refused 2, 3, 8, over a loaded set only 8.
    pub fn neighbors_of(&self, number: usize) -> Result<Neighbors, Refusal> {
        let six = ffi::neighbors_of(self.described.sizes(), &self.index.neighbours, number);
        said(six.reason, six.place)?;
        let named = |entry: u16| Some(usize::from(entry)).filter(|_| entry != ABSENT);
        Ok(Neighbors {
            phi_plus: named(six.phi_plus),
            phi_minus: named(six.phi_minus),
            theta_plus: named(six.theta_plus),
            theta_minus: named(six.theta_minus),
            radius_plus: named(six.radius_plus),
            radius_minus: named(six.radius_minus),
        })
    }

    /// The longest delay of the set, from +0 on, passing over NaN. A blended delay can be longer by a rounding. Refused 6, over a loaded
    /// set never.
    pub fn max_delay(&self) -> Result<Seconds, Refusal> {
        let v = ffi::max_delay(self.delays(), self.rate());
        said(v.reason, v.place).map(|()| Seconds(v.value))
    }
}

/// The archive's part lies within the responses that it was asked over; nothing panics if another archive's does not.
fn view(responses: &[f32], part: ffi::Part) -> Result<&[f32], Refusal> {
    said(part.reason, part.place)?;
    let taps = responses.get(part.start..).and_then(|from| from.get(..part.count));
    taps.ok_or(Refusal::new(Reason::Lists, 0))
}
