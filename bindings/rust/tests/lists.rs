// SPDX-License-Identifier: MIT OR Apache-2.0
//! What each lent list holds after a call, bit for bit, and that nothing before or behind it is written. Over `sofa::ffi`, since there the
//! host lends every list.
use sofa::ffi::{self, BoundingBox, Lookup, Sizes, Sound, Tree, Work};

const M: usize = 4;
const SIZES: Sizes = Sizes { m: M, c: 3, r: 2, n: 3 };
const PAD: usize = 8;

/// A list with canaries on both sides.
#[derive(Clone)]
struct Lent<T>(Vec<T>);

impl<T: Copy> Lent<T> {
    fn new(inner: &[T], canary: T) -> Lent<T> {
        Lent([vec![canary; PAD], inner.to_vec(), vec![canary; PAD]].concat())
    }

    fn get(&self) -> &[T] {
        &self.0[PAD..self.0.len() - PAD]
    }

    fn lend(&mut self) -> &mut [T] {
        let end = self.0.len() - PAD;
        &mut self.0[PAD..end]
    }
}

fn reals(inner: &[f32]) -> Lent<f32> {
    Lent::new(inner, -7.25)
}

/// All that a host holds. Each work list has five places more than a load asks for.
#[derive(Clone)]
struct Host {
    sizes: Sizes,
    lookup: Lookup,
    kind: u32,
    angle_step: f32,
    radius_step: f32,
    rate: f32,
    at: [f32; 3],
    number: usize,
    count: usize,
    positions: Lent<f32>,
    responses: Lent<f32>,
    delays: Lent<f32>,
    left: Lent<u16>,
    right: Lent<u16>,
    neighbours: Lent<u16>,
    cartesian: Lent<f32>,
    numbers: Lent<u16>,
    values: Lent<f32>,
    out_left: Lent<f32>,
    out_right: Lent<f32>,
}

fn fresh() -> Host {
    let responses: Vec<f32> = (0..24).map(|i| i as f32 / 8.0).collect();
    Host {
        sizes: SIZES,
        lookup: Lookup::default(),
        kind: 0,
        angle_step: 45.0,
        radius_step: 1.0,
        rate: 48000.0,
        at: [0.75, 0.5, 0.25],
        number: 1,
        count: M,
        positions: reals(&[1.0, 0.0, 0.0, 0.0, 1.0, 0.0, -1.0, 0.0, 0.0, 0.0, 0.0, 1.0]),
        responses: reals(&responses),
        delays: reals(&[6.0, 12.0, 18.0, 24.0]),
        left: Lent::new(&[4242; M + 5], 4242),
        right: Lent::new(&[4242; M + 5], 4242),
        neighbours: Lent::new(&[4242; 6 * M + 5], 4242),
        cartesian: reals(&[-7.25; 3 * M + 5]),
        numbers: Lent::new(&[10, 11, 12, 13, 4242, 4242], 4242),
        values: reals(&[1.0, 2.0, 2.0, 3.0, 4.0, 0.0, f32::NAN, 1e38]),
        out_left: reals(&[9.0; 5]),
        out_right: reals(&[9.0; 4]),
    }
}

fn ready() -> Host {
    let mut host = fresh();
    assert_eq!(host.load(), (0, 0));
    host
}

impl Host {
    fn load(&mut self) -> (u32, usize) {
        let work = Work { left: self.left.lend(), right: self.right.lend(), neighbours: self.neighbours.lend(), cartesian: self.cartesian.lend() };
        let told = ffi::load(self.kind, self.sizes, self.positions.get(), self.responses.get(), self.angle_step, self.radius_step, self.rate, work);
        if told.reason == 0 {
            self.lookup = told.lookup;
        } else {
            assert_eq!(told.lookup, Lookup::default());
        }
        (told.reason, told.place)
    }

    fn tree(&self) -> Tree<'_> {
        Tree { positions: self.cartesian.get(), left: self.left.get(), right: self.right.get() }
    }

    fn sound(&self) -> Sound<'_> {
        Sound { responses: self.responses.get(), delays: self.delays.get(), rate: self.rate }
    }

    /// The three calls with outputs; the outputs are taken out and put back, so that the rest can be read beside them.
    fn filter(&mut self, which: usize) -> (u32, usize) {
        let (mut left, mut right) = (self.out_left.clone(), self.out_right.clone());
        let told = match which {
            0 => ffi::filter(self.sizes, self.lookup, self.tree(), self.neighbours.get(), self.sound(), self.at, left.lend(), right.lend()),
            1 => ffi::filter_nointerp(self.sizes, self.lookup, self.tree(), self.sound(), self.at, left.lend(), right.lend()),
            _ => ffi::filter_number(self.sizes, self.sound(), self.number, left.lend(), right.lend()),
        };
        (self.out_left, self.out_right) = (left, right);
        if told.reason != 0 {
            assert_eq!((told.blended, told.points, told.ldelay.to_bits(), told.rdelay.to_bits()), (0, 0, 0, 0));
        }
        (told.reason, told.place)
    }

    fn find(&mut self) -> (u32, usize) {
        let told = ffi::find(self.sizes, self.lookup, self.tree(), self.at);
        let mut at = self.at;
        let moved = ffi::find_mut(self.sizes, self.lookup, self.tree(), &mut at);
        assert_eq!(told, moved);
        if told.reason != 0 {
            assert_eq!((told.number, at.map(f32::to_bits)), (65535, self.at.map(f32::to_bits)));
        }
        (told.reason, told.place)
    }

    fn numbered(&mut self) -> (u32, usize) {
        let left = ffi::left_response(self.sizes, self.responses.get(), self.number);
        let right = ffi::right_response(self.sizes, self.responses.get(), self.number);
        assert_eq!((left.reason, left.place), (right.reason, right.place));
        if left.reason != 0 {
            assert_eq!((left.start, left.count, right.start, right.count), (0, 0, 0, 0));
        }
        (left.reason, left.place)
    }

    fn six(&mut self) -> (u32, usize) {
        let told = ffi::neighbors_of(self.sizes, self.neighbours.get(), self.number);
        let entries = [told.phi_plus, told.phi_minus, told.theta_plus, told.theta_minus, told.radius_plus, told.radius_minus];
        assert!(told.reason == 0 || entries == [65535; 6]);
        (told.reason, told.place)
    }

    fn insert(&mut self) -> (u32, usize) {
        let told = ffi::tree_insert(
            self.count,
            self.lookup.bounds,
            self.cartesian.lend(),
            self.left.lend(),
            self.right.lend(),
            self.numbers.lend(),
            self.at,
            99,
        );
        assert!(told.reason == 0 || told.bounds == BoundingBox::default());
        (told.reason, told.place)
    }

    fn nearest(&mut self) -> (u32, usize) {
        let told = ffi::tree_nearest(self.count, self.lookup.bounds, self.tree(), self.numbers.get(), self.at);
        assert!(told.reason == 0 || told.number == 65535);
        (told.reason, told.place)
    }

    fn longest(&mut self) -> (u32, usize) {
        let told = ffi::max_delay(self.delays.get(), self.rate);
        (told.reason, told.place)
    }

    fn make_spherical(&mut self) -> (u32, usize) {
        let told = ffi::to_spherical(self.values.lend());
        (told.reason, told.place)
    }

    fn make_cartesian(&mut self) -> (u32, usize) {
        let told = ffi::to_cartesian(self.values.lend());
        (told.reason, told.place)
    }

    /// Every bit of every list, canaries and all; the outputs apart.
    fn bits(&self) -> Vec<u32> {
        let floats = [&self.positions, &self.responses, &self.delays, &self.cartesian, &self.values];
        let shorts = [&self.left, &self.right, &self.neighbours, &self.numbers];
        let floats = floats.iter().flat_map(|l| l.0.iter().map(|x| x.to_bits()));
        floats.chain(shorts.iter().flat_map(|l| l.0.iter().map(|&x| u32::from(x)))).collect()
    }

    fn outputs(&self) -> Vec<u32> {
        self.out_left.0.iter().chain(&self.out_right.0).map(|x| x.to_bits()).collect()
    }
}

type Call = fn(&mut Host) -> (u32, usize);
type Spoil = fn(&mut Host);

const LOAD: Call = |h| h.load();
const FIND: Call = |h| h.find();
const FILTER: Call = |h| h.filter(0);
const PLAIN: Call = |h| h.filter(1);
const NUMBER: Call = |h| h.filter(2);
const PARTS: Call = |h| h.numbered();
const SIX: Call = |h| h.six();
const INSERT: Call = |h| h.insert();
const NEAREST: Call = |h| h.nearest();
const LONGEST: Call = |h| h.longest();
const TO_SPHERICAL: Call = |h| h.make_spherical();
const TO_CARTESIAN: Call = |h| h.make_cartesian();

/// The number, its place, what is spoilt, and the calls that say so.
const REFUSALS: [(u32, usize, Spoil, &[Call]); 30] = [
    (1, 7, |h| h.kind = 7, &[LOAD]),
    (2, 0, |h| h.sizes.m = 0, &[LOAD, FIND, FILTER, PLAIN, NUMBER, PARTS, SIX]),
    (2, 0, |h| h.sizes.m = usize::MAX / 6 + 1, &[LOAD, FIND, FILTER, PLAIN, NUMBER, PARTS, SIX]),
    (2, 0, |h| h.sizes.c = 4, &[LOAD, FIND, FILTER, PLAIN, NUMBER, PARTS, SIX]),
    (2, 0, |h| h.sizes.r = usize::MAX, &[LOAD, FIND, FILTER, PLAIN, NUMBER, PARTS, SIX]),
    (2, 0, |h| h.sizes.n = 8193, &[LOAD, FIND, FILTER, PLAIN, NUMBER, PARTS, SIX]),
    (3, 0, |h| h.positions = reals(&[0.5; 3 * M + 1]), &[LOAD]),
    (3, 0, |h| h.responses = reals(&[0.5; 23]), &[LOAD, FILTER, PLAIN, NUMBER, PARTS]),
    (3, 0, |h| h.left = Lent::new(&[65535; M - 1], 4242), &[LOAD, FIND, FILTER, PLAIN, INSERT, NEAREST]),
    (3, 0, |h| h.right = Lent::new(&[65535; M - 1], 4242), &[LOAD, FIND, FILTER, PLAIN, INSERT, NEAREST]),
    (3, 0, |h| h.cartesian = reals(&[0.5; 3 * M - 1]), &[LOAD, FIND, FILTER, PLAIN, INSERT, NEAREST]),
    (3, 0, |h| h.neighbours = Lent::new(&[65535; 6 * M - 1], 4242), &[LOAD, FILTER, SIX]),
    (3, 0, |h| h.numbers = Lent::new(&[1; M - 1], 4242), &[INSERT, NEAREST]),
    (3, 0, |h| h.left = Lent::new(&[65535; M], 4242), &[INSERT]),
    (3, 0, |h| h.count = usize::MAX, &[INSERT, NEAREST]),
    (4, 5, |h| h.positions.lend()[5] = f32::NAN, &[LOAD]),
    (4, 4, |h| h.values.lend()[4] = f32::INFINITY, &[TO_SPHERICAL, TO_CARTESIAN]),
    (4, 2, |h| h.values.lend()[2] = -1.0, &[TO_CARTESIAN]),
    (5, 0, |h| h.angle_step = f32::from_bits(0x42340001), &[LOAD]),
    (5, 1, |h| h.radius_step = 0.0, &[LOAD]),
    (6, 0, |h| h.rate = 999.0, &[LOAD, FILTER, PLAIN, NUMBER, LONGEST]),
    (7, 0, |h| h.at[0] = f32::NAN, &[FIND, FILTER, PLAIN]),
    (7, 1, |h| h.at[1] = f32::INFINITY, &[FIND, FILTER, PLAIN]),
    (7, 2, |h| h.at[2] = f32::NEG_INFINITY, &[FIND, FILTER, PLAIN]),
    (8, M, |h| h.number = M, &[NUMBER, PARTS, SIX]),
    (8, usize::MAX, |h| h.number = usize::MAX, &[NUMBER, PARTS, SIX]),
    (9, 0, |h| h.left.lend()[0] = 0, &[FIND, FILTER, PLAIN, INSERT, NEAREST]),
    (9, 0, |h| h.right.lend()[0] = M as u16, &[FIND, FILTER, PLAIN, NEAREST]),
    (9, 0, |h| h.neighbours.lend()[..6 * M].fill(65534), &[FILTER]),
    (9, 0, shared, &[FIND, FILTER, PLAIN, NEAREST]),
];

/// Links that are each allowed, and lead to the same places again and again: visit m + 1 begins.
fn shared(h: &mut Host) {
    for i in 0..M {
        let next = if i + 1 < M { i as u16 + 1 } else { 65535 };
        (h.left.lend()[i], h.right.lend()[i]) = (next, next);
    }
    h.cartesian.lend()[..3 * M].fill(0.0);
    h.at = [1.0; 3];
    h.lookup.radius_max = 9.0;
    h.lookup.bounds = BoundingBox { min_x: -9.0, min_y: -9.0, min_z: -9.0, max_x: 9.0, max_y: 9.0, max_z: 9.0 };
}

#[test]
fn a_refusal_leaves_every_list() {
    for (i, (reason, place, spoil, calls)) in REFUSALS.iter().enumerate() {
        for (j, call) in calls.iter().enumerate() {
            let mut host = ready();
            spoil(&mut host);
            let (before, outputs) = (host.bits(), host.outputs());
            assert_eq!(call(&mut host), (*reason, *place), "refusal {i}, call {j}");
            assert_eq!(host.bits(), before, "refusal {i}, call {j}");
            let silent: Vec<u32> = [reals(&[0.0; 5]).0, reals(&[0.0; 4]).0].concat().iter().map(|x| x.to_bits()).collect();
            assert!(host.outputs() == outputs || host.outputs() == silent, "refusal {i}, call {j}");
        }
    }
}

/// In particular: every sample of a refused filter is +0, and nothing behind the last.
#[test]
fn a_refused_filter_is_silent() {
    for which in 0..3 {
        let mut host = ready();
        host.rate = 0.0;
        assert_eq!(host.filter(which), (6, 0));
        assert_eq!(host.out_left.get().iter().map(|x| x.to_bits()).collect::<Vec<_>>(), [0; 5]);
        assert_eq!(host.out_right.get().iter().map(|x| x.to_bits()).collect::<Vec<_>>(), [0; 4]);
        assert!([&host.out_left, &host.out_right].iter().all(|l| l.0[..PAD] == [-7.25; PAD] && l.0[l.0.len() - PAD..] == [-7.25; PAD]));
    }
}

/// A load writes M links, M links, 6M neighbours and 3M coordinates, and nothing past them.
#[test]
fn a_load_writes_what_it_says() {
    let host = ready();
    let links: [&Lent<u16>; 2] = [&host.left, &host.right];
    assert!(links.iter().all(|l| l.get()[..M].iter().all(|&x| x == 65535 || (x as usize) < M)));
    assert!(links.iter().all(|l| l.0[..PAD] == [4242; PAD] && l.0[PAD + M..] == [4242; 5 + PAD]));
    assert!(host.neighbours.get()[..6 * M].iter().all(|&x| x == 65535 || (x as usize) < M));
    assert!(host.neighbours.0[..PAD] == [4242; PAD] && host.neighbours.0[PAD + 6 * M..] == [4242; 5 + PAD]);
    assert_eq!(host.cartesian.get()[..3 * M], *host.positions.get());
    assert!(host.cartesian.0[..PAD] == [-7.25; PAD] && host.cartesian.0[PAD + 3 * M..] == [-7.25; 5 + PAD]);
    let given = fresh();
    assert!(host.positions.0 == given.positions.0 && host.responses.0 == given.responses.0);
}

/// A conversion leaves the two values that are left over.
#[test]
fn a_conversion_leaves_the_rest() {
    let mut host = fresh();
    assert_eq!(host.make_spherical(), (0, 0));
    assert_eq!(host.values.get()[2..3], [3.0]);
    assert_eq!(
        host.values.0[PAD + 6..].iter().map(|x| x.to_bits()).collect::<Vec<_>>(),
        fresh().values.0[PAD + 6..].iter().map(|x| x.to_bits()).collect::<Vec<_>>()
    );
    assert_eq!(host.values.0[..PAD], [-7.25; PAD]);
}
