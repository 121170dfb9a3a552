// SPDX-License-Identifier: MIT OR Apache-2.0
//! The bare tree.
use crate::ffi::{self, BoundingBox, Coordinates};
use crate::index::ABSENT;
use crate::refusal::{said, Refusal};

/// What [`Tree::nearest`] answers. Later versions tell more: a pattern ends in `..`, and who means the number alone compares that.
#[derive(Clone, Copy, Debug, PartialEq, Eq)]
#[non_exhaustive]
pub struct Nearest {
    /// The number that is kept with the point.
    pub number: u16,
}

/// Points with a number each, of any f32, and the nearest of them: up to 16384. The number is the host's own, 16 bits that are kept with the
/// point: several points may have the same.
///
/// ```
/// use sofa::Tree;
///
/// let mut tree = Tree::new();
/// assert_eq!(tree.nearest([0.0, 0.0, 0.0])?, None);
/// tree.insert([10.0, 0.0, 0.0], 7)?;
/// tree.insert([1.0, 0.0, 0.0], 8)?;
/// let nearest = tree.nearest([0.0, 0.0, 0.0])?.expect("the tree is not empty");
/// assert_eq!(nearest.number, 8);
/// # Ok::<(), sofa::Refusal>(())
/// ```
///
/// Stack: [`Tree::nearest`] wants 2 KiB, and 352 bytes for each level of the tree, [`Tree::insert`] 112 for each level that it goes down
/// ([`crate::stack`]); 5.6 MiB are enough for any tree.
#[derive(Clone, Debug, Default, PartialEq)]
pub struct Tree {
    bounds: BoundingBox,
    positions: Vec<f32>,
    left: Vec<u16>,
    right: Vec<u16>,
    numbers: Vec<u16>,
}

impl Tree {
    /// An empty tree.
    pub fn new() -> Tree {
        Tree::default()
    }

    /// How many points are in.
    pub fn len(&self) -> usize {
        self.numbers.len()
    }

    /// Whether none is in.
    pub fn is_empty(&self) -> bool {
        self.numbers.is_empty()
    }

    /// Takes a point in, with its number. It may allocate. Refused 3 where 16384 are in; the tree is as it was then.
    pub fn insert(&mut self, point: Coordinates, number: u16) -> Result<(), Refusal> {
        let count = self.len();
        self.room_for(count + 1);
        let told = ffi::tree_insert(count, self.bounds, &mut self.positions, &mut self.left, &mut self.right, &mut self.numbers, point, number);
        let done = said(told.reason, told.place);
        match done {
            Ok(()) => self.bounds = told.bounds,
            Err(_) => self.room_for(count),
        }
        done
    }

    fn room_for(&mut self, count: usize) {
        self.positions.resize(3 * count, 0.0);
        self.left.resize(count, ABSENT);
        self.right.resize(count, ABSENT);
        self.numbers.resize(count, ABSENT);
    }

    /// The nearest point, by document 01's rule for ties; `None` where the tree is empty. A NaN coordinate gives the first point. A tree that
    /// was filled by [`Tree::insert`] refuses nothing.
    pub fn nearest(&self, query: Coordinates) -> Result<Option<Nearest>, Refusal> {
        let lists = ffi::Tree { positions: &self.positions, left: &self.left, right: &self.right };
        let found = ffi::tree_nearest(self.len(), self.bounds, lists, &self.numbers, query);
        said(found.reason, found.place)?;
        Ok(if self.is_empty() { None } else { Some(Nearest { number: found.number }) })
    }
}
