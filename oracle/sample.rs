//! Small sets with the answers that are due, for crates/try_replay: the source's answers, and document 01's refusals where a set or a query is outside its limits.
//! Nothing here asks the port but for its angles, through the redirected source.
//!
//! A record is a line of words, each eight hexadecimal digits; the first says how many follow. In order: kind, m, c, r, n; how many positions, taps and delays;
//! angle step, radius step, rate; the positions, taps, delays; the load's reason, place and twelve values; how many measurements the lists hold (0 when refused), and
//! left, right, neighbours, cartesian; the link that is put in the root's left before the queries (65536: none). Then the queries, numbers and the rest, as
//! the functions below write them. Every NaN is 7fc00000.

use crate::port::{Host, Lookup, Sizes};
use crate::refusals;
use crate::sets::{self, Random, Set};
use crate::{entries, open};
use sofar::filter::Filter;
use sofar::reader::Sofar;
use sofar::sofa::coords;

struct Record(Vec<u32>);

impl Record {
    fn number(&mut self, n: usize) {
        self.0.push(n.try_into().unwrap());
    }

    fn value(&mut self, v: f32) {
        self.0.push(if v.is_nan() { 0x7fc0_0000 } else { v.to_bits() });
    }

    fn values(&mut self, list: &[f32]) {
        list.iter().for_each(|v| self.value(*v));
    }

    fn refused(&mut self, (reason, place): (u32, usize)) {
        self.number(reason as usize);
        self.number(place);
    }
}

/// Reason, place, blended, points, two delays, then both outputs.
fn filter(refused: Option<(u32, usize)>, blended: usize, mut f: Filter, w: &mut Record) {
    w.refused(refused.unwrap_or((0, 0)));
    if refused.is_some() {
        f.left.fill(0.0);
        f.right.fill(0.0);
        (f.ldelay, f.rdelay) = (0.0, 0.0);
    }
    w.number((refused.is_none() && blended > 0) as usize);
    w.number(if refused.is_some() { 0 } else { blended.max(1) });
    w.values(&[f.ldelay, f.rdelay]);
    w.values(&f.left);
    w.values(&f.right);
}

/// Both outputs have three places, less or more than the taps: what stays free is +0.
fn outputs() -> Filter {
    let three = || vec![1.0; 3].into_boxed_slice();
    Filter { left: three(), right: three(), ldelay: 1.0, rdelay: 1.0 }
}

/// The coordinates; find: reason, place, number; find_mut: the same and the coordinates; the blended and the plain filter.
fn query(source: &Sofar, q: [f32; 3], refused: Option<(u32, usize)>, w: &mut Record) {
    let (mut blend, mut plain) = (outputs(), outputs());
    w.values(&q);
    let mut moved = q;
    arrayvec::walked();
    let number = match refused {
        Some(_) => 65535,
        None => {
            let number = source.lookup().find(&q).unwrap();
            assert!(source.lookup().find_mut(&mut moved).unwrap() == number);
            source.filter(q[0], q[1], q[2], &mut blend);
            source.filter_nointerp(q[0], q[1], q[2], &mut plain);
            number
        }
    };
    w.refused(refused.unwrap_or((0, 0)));
    w.number(number);
    w.refused(refused.unwrap_or((0, 0)));
    w.number(number);
    w.values(&moved);
    filter(refused, arrayvec::walked(), blend, w);
    filter(refused, 0, plain, w);
}

/// The number; the filter; of each response reason, place, start, count and the taps; the six neighbours.
fn number(set: &Set, source: &Sofar, number: usize, w: &mut Record) {
    let refused = if number < set.m { None } else { Some((8, number)) };
    let mut f = outputs();
    w.number(number);
    if refused.is_none() {
        source.filter_number(number, &mut f);
    }
    filter(refused, 0, f, w);
    let whole = sofar::sofa::get_filter_nointerp(source.hrtf(), number.min(set.m - 1)).unwrap();
    for (ear, taps) in [whole.left, whole.right].iter().enumerate() {
        let (start, count) = if refused.is_some() { (0, 0) } else { ((number * set.r + ear) * set.n, set.n) };
        w.refused(refused.unwrap_or((0, 0)));
        w.number(start);
        w.number(count);
        w.values(&taps[..count]);
    }
    w.refused(refused.unwrap_or((0, 0)));
    let six = if refused.is_some() { [65535; 6] } else { entries(source, number) };
    six.iter().for_each(|e| w.number(*e as usize));
}

/// Two triplets and two values left over, reason and place, and the list afterwards; from Cartesian (0) or spherical (1).
fn conversion(kind: u32, r: &mut Random, w: &mut Record) {
    let mut values = sets::loose(kind, 8, r);
    let mut refused = (0, 0);
    if r.below(4) == 0 {
        let i = r.below(6);
        values[i] = refusals::bad_value(kind, i % 3, r);
        refused = (4, i);
    }
    w.values(&values);
    w.refused(refused);
    match (refused.0, kind) {
        (0, 0) => coords::convert_array_to_spherical(&mut values),
        (0, _) => coords::convert_array_to_cartesian(&mut values),
        _ => {}
    }
    w.values(&values);
}

fn host(set: &Set) -> Host {
    Host {
        kind: set.kind,
        sizes: Sizes { m: set.m, c: 3, r: set.r, n: set.n },
        positions: set.positions.clone(),
        responses: set.responses.clone(),
        delays: set.delays.clone(),
        angle_step: set.angle_step,
        radius_step: set.radius_step,
        rate: set.rate,
        left: vec![],
        right: vec![],
        neighbours: vec![],
        cartesian: vec![],
        lookup: Lookup { corners: [0.0; 6], bounds: [0.0; 6] },
    }
}

fn given(h: &Host, w: &mut Record) {
    w.number(h.kind as usize);
    [h.sizes.m, h.sizes.c, h.sizes.r, h.sizes.n, h.positions.len(), h.responses.len(), h.delays.len()].iter().for_each(|n| w.number(*n));
    w.values(&[h.angle_step, h.radius_step, h.rate]);
    w.values(&h.positions);
    w.values(&h.responses);
    w.values(&h.delays);
}

/// Whether the sign of a least or greatest elevation, or of the longest delay, may be one that document 01 leaves open.
fn open_zero(set: &Set, source: &Sofar) -> bool {
    let elevations: Vec<f32> = source.hrtf().source_position.values.chunks(3).map(|p| coords::cartesian_to_spherical([p[0], p[1], p[2]])[1]).collect();
    let has = |list: &[f32], bits: u32| list.iter().any(|v| v.to_bits() == bits);
    has(&elevations, 0) && has(&elevations, 1 << 31) || source.max_delay() == 0.0 && has(&set.delays, 1 << 31)
}

/// What the load leaves, by the source.
fn loaded(set: &Set, source: &Sofar, w: &mut Record) {
    let (left, right) = source.lookup().tree().links(set.m);
    let l = source.lookup();
    w.refused((0, 0));
    w.values(&l.tree().corners());
    w.values(&[l.phi_min, l.phi_max, l.theta_min, l.theta_max, l.radius_min, l.radius_max]);
    w.number(set.m);
    left.iter().chain(&right).for_each(|e| w.number(*e as usize));
    (0..set.m).flat_map(|i| entries(source, i)).for_each(|e| w.number(e as usize));
    w.values(&source.hrtf().source_position.values);
}

/// A load outside the limits; nothing else is asked.
fn spoiled(set: &Set, number: u64, r: &mut Random, w: &mut Record) {
    let mut h = host(set);
    let wanted = match 1 + number as u32 / 8 % 6 {
        3 => {
            h.positions.push(0.0);
            (3, 0)
        }
        reason => refusals::spoil_load(reason, &mut h, r),
    };
    h.sizes.m = h.sizes.m.min(65535);
    given(&h, w);
    w.refused(wanted);
    w.values(&[0.0; 12]);
    // no measurements, no link put, no queries, no numbers
    [0, 65536, 0, 0].iter().for_each(|n| w.number(*n));
}

fn answered(set: &Set, source: &Sofar, bad_link: bool, r: &mut Random, w: &mut Record) {
    w.number(if bad_link { r.of(&[0, set.m, 65534]) } else { 65536 });
    w.number(5);
    for i in 0..5 {
        let mut q = sets::query(&source.hrtf().source_position.values, r);
        let mut refused = if bad_link { Some((9, 0)) } else { None };
        if i == 4 {
            let axis = r.below(3);
            q[axis] = r.of(&[f32::NAN, f32::INFINITY, f32::NEG_INFINITY]);
            refused = Some((7, axis));
        }
        query(source, q, refused, w);
    }
    w.number(2);
    number(set, source, r.below(set.m), w);
    number(set, source, set.m + r.below(3), w);
}

/// The record of a set, or none where it holds a zero of open sign.
fn record(number: u64, r: &mut Random) -> Option<Vec<u32>> {
    let set = sets::tiny(number, r);
    let mut w = Record(Vec::new());
    let mut rate = set.rate;
    let turn = (number + number / 16) % 8;
    if turn == 7 {
        spoiled(&set, number, r, &mut w);
        rate = 999.99994;
    } else {
        let source = open(&set);
        given(&host(&set), &mut w);
        if open_zero(&set, &source) {
            return None;
        }
        loaded(&set, &source, &mut w);
        answered(&set, &source, turn == 3, r, &mut w);
    }
    // the longest delay at a rate of its own: reason, place, value
    w.value(rate);
    if turn == 7 {
        w.refused((6, 0));
        w.value(0.0);
    } else {
        w.refused((0, 0));
        w.value(open(&set).max_delay());
    }
    conversion(0, r, &mut w);
    conversion(1, r, &mut w);
    Some(w.0)
}

pub fn write(seed: u64, wanted: u64) {
    let (mut number, mut written) = (0, 0);
    while written < wanted {
        let mut r = sets::random_of(seed, number);
        if let Some(words) = record(number, &mut r) {
            let line: Vec<String> = [words.len() as u32].iter().chain(&words).map(|w| format!("{w:08x}")).collect();
            println!("{}", line.join(" "));
            written += 1;
        }
        number += 1;
    }
}
