//! Inputs outside document 01's limits, where the source answers anything: the port's refusal against 01's table, and what the lists then hold.

use crate::Tally;
use crate::port::{Host, Outputs, Refusal, to_cartesian, to_spherical};
use crate::sets::Random;

fn told(call: &str, wanted: (u32, usize), a: Refusal, t: &mut Tally) {
    t.refusals += 1;
    t.number(&format!("{call} refused, reason"), 0, wanted.0 as usize, a.reason as usize);
    t.number(&format!("{call} refused, place"), 0, wanted.1, a.place);
}

fn bad_sizes(h: &mut Host, r: &mut Random) {
    match r.below(8) {
        0 => h.sizes.m = 0,
        1 => h.sizes.m = 16385,
        2 => h.sizes.c = 2,
        3 => h.sizes.c = 4,
        4 => h.sizes.r = 1,
        5 => h.sizes.r = 9,
        6 => h.sizes.n = 8193,
        _ => h.sizes.m = usize::MAX,
    }
}

/// A value that its place does not allow: coordinates by kind 0, angles and radius by kind 1.
pub fn bad_value(kind: u32, axis: usize, r: &mut Random) -> f32 {
    match (r.below(3), kind, axis) {
        (0, _, _) => f32::NAN,
        (1, _, _) => r.of(&[f32::INFINITY, f32::NEG_INFINITY]),
        (_, 1, 2) => r.of(&[-1e-45, 10000.001]),
        (_, 1, _) => r.of(&[720.00006, -720.00006]),
        _ => r.of(&[10000.001, -10000.001]),
    }
}

/// One thing wrong with a load; the number and place that document 01 gives it.
pub fn spoil_load(reason: u32, h: &mut Host, r: &mut Random) -> (u32, usize) {
    let m = h.sizes.m;
    match reason {
        1 => {
            h.kind = r.of(&[2, 255, u32::MAX]);
            (1, h.kind as usize)
        }
        2 => {
            bad_sizes(h, r);
            (2, 0)
        }
        3 => {
            match r.below(6) {
                0 => h.left.truncate(m - 1),
                1 => h.right.truncate(m - 1),
                2 => h.neighbours.truncate(6 * m - 1),
                3 => h.cartesian.truncate(3 * m - 1),
                4 => h.positions.push(0.0),
                _ => h.positions.truncate(3 * m - 1),
            }
            (3, 0)
        }
        4 => {
            let i = r.below(h.positions.len());
            h.positions[i] = bad_value(h.kind, i % 3, r);
            (4, i)
        }
        5 => {
            let (place, nan) = (r.below(2), r.below(3) == 0);
            let (low, high) = if place == 0 { (0.099999994, 45.000004) } else { (0.00099999993, 1.0000001) };
            let step = if nan { f32::NAN } else { r.of(&[low, high, -1.0, 0.0]) };
            *(if place == 0 { &mut h.angle_step } else { &mut h.radius_step }) = step;
            (5, place)
        }
        _ => {
            h.rate = r.of(&[999.99994, 384000.03, f32::NAN, f32::INFINITY, 0.0, -48000.0]);
            (6, 0)
        }
    }
}

/// Two things wrong at once: the first of the table is given, and nothing is written.
pub fn at_load(good: &Host, r: &mut Random, t: &mut Tally) {
    let mut h = good.clone();
    let (a, b) = (1 + r.below(6) as u32, 1 + r.below(6) as u32);
    let wanted = spoil_load(a.max(b), &mut h, r);
    let wanted = if a == b { wanted } else { spoil_load(a.min(b), &mut h, r) };
    let before = h.clone();
    let loaded = h.load();
    told("load", wanted, Refusal { reason: loaded.reason, place: loaded.place }, t);
    let same = before.left == h.left && before.right == h.right && before.neighbours == h.neighbours;
    t.number("refused load writes links or neighbours", 0, 0, !same as usize);
    t.values("refused load: cartesian", &before.cartesian, &h.cartesian);
    t.values("refused load: lookup", &[0.0; 12], &[loaded.lookup.corners, loaded.lookup.bounds].concat());
}

/// One thing wrong with a query of a loaded set.
fn spoil_query(reason: u32, h: &mut Host, q: &mut [f32; 3], r: &mut Random) -> (u32, usize) {
    let m = h.sizes.m;
    match reason {
        2 => bad_sizes(h, r),
        3 => match r.below(3) {
            0 => h.left.truncate(m - 1),
            1 => h.right.truncate(m - 1),
            _ => h.cartesian.truncate(3 * m - 1),
        },
        7 => {
            let axis = r.below(3);
            q[axis] = r.of(&[f32::NAN, f32::INFINITY, f32::NEG_INFINITY]);
            return (7, axis);
        }
        // Both sides of the root are come to in every search.
        _ => {
            let link = r.of(&[0, m as u16, 65534]);
            *(if r.below(2) == 0 { &mut h.left[0] } else { &mut h.right[0] }) = link;
        }
    }
    (reason, 0)
}

fn marked(n: usize) -> Outputs {
    Outputs { left: vec![1.0; n + 2], right: vec![1.0; n / 2] }
}

fn refused_filter(call: &str, wanted: (u32, usize), a: crate::port::Filtered, out: &Outputs, t: &mut Tally) {
    told(call, wanted, Refusal { reason: a.reason, place: a.place }, t);
    t.number(&format!("{call} refused, points"), 0, 0, a.points);
    t.values(&format!("{call} refused, delays"), &[0.0; 2], &[a.ldelay, a.rdelay]);
    t.values(&format!("{call} refused, left"), &vec![0.0; out.left.len()], &out.left);
    t.values(&format!("{call} refused, right"), &vec![0.0; out.right.len()], &out.right);
}

fn queries(good: &Host, r: &mut Random, t: &mut Tally) {
    let mut h = good.clone();
    let mut q = [20000.0, r.between(-1.0, 1.0), 0.5];
    let reason = r.of(&[2, 3, 7, 9]);
    let wanted = spoil_query(reason, &mut h, &mut q, r);
    let a = h.find(q);
    told("find", wanted, Refusal { reason: a.reason, place: a.place }, t);
    t.number("find refused, number", 0, 65535, a.number as usize);
    let mut moved = q;
    let a = h.find_mut(&mut moved);
    told("find_mut", wanted, Refusal { reason: a.reason, place: a.place }, t);
    t.values("find_mut refused, coordinates", &q, &moved);
    let mut out = marked(good.sizes.n);
    let a = h.filter(q, &mut out);
    refused_filter("filter", wanted, a, &out, t);
    let mut out = marked(good.sizes.n);
    let a = h.filter_nointerp(q, &mut out);
    refused_filter("plain", wanted, a, &out, t);
    // The rate comes after sizes and lists, before the query.
    h.rate = 384000.03;
    let wanted = if wanted.0 < 6 { wanted } else { (6, 0) };
    let mut out = marked(good.sizes.n);
    let a = h.filter(q, &mut out);
    refused_filter("filter", wanted, a, &out, t);
    let a = h.max_delay();
    told("max_delay", (6, 0), Refusal { reason: a.reason, place: a.place }, t);
}

/// A bad neighbour, met in the blend of a query that is far from every measurement.
fn neighbour(good: &Host, r: &mut Random, t: &mut Tally) {
    let mut h = good.clone();
    let q = [20000.0, 1.0, 0.5];
    let nearest = h.find(q).number as usize;
    h.neighbours[6 * nearest + r.below(6)] = r.of(&[h.sizes.m as u16, 65534]);
    let mut out = marked(h.sizes.n);
    let a = h.filter(q, &mut out);
    refused_filter("filter", (9, 0), a, &out, t);
}

fn numbers(h: &Host, r: &mut Random, t: &mut Tally) {
    let number = r.of(&[h.sizes.m, h.sizes.m + 1, 65535, 1 << 40, usize::MAX]);
    let mut out = marked(h.sizes.n);
    let a = h.filter_number(number, &mut out);
    refused_filter("number", (8, number), a, &out, t);
    for a in [h.left_response(number), h.right_response(number)] {
        told("response", (8, number), Refusal { reason: a.reason, place: a.place }, t);
        t.number("response refused, start and count", 0, 0, a.start + a.count);
    }
    let a = h.neighbors_of(number);
    told("neighbours", (8, number), Refusal { reason: a.reason, place: a.place }, t);
    t.number("neighbours refused, all absent", 0, 0, (a.entries != [65535; 6]) as usize);
}

fn conversions(r: &mut Random, t: &mut Tally) {
    for kind in 0..2 {
        let mut values: Vec<f32> = (0..3 + r.below(9)).map(|_| r.between(0.0, 700.0)).collect();
        let i = r.below(values.len() / 3 * 3);
        values[i] = bad_value(kind, i % 3, r);
        let before = values.clone();
        let a = if kind == 0 { to_spherical(&mut values) } else { to_cartesian(&mut values) };
        told("conversion", (4, i), a, t);
        t.values("conversion refused", &before, &values);
    }
}

pub fn after_load(h: &Host, r: &mut Random, t: &mut Tally) {
    queries(h, r, t);
    neighbour(h, r, t);
    numbers(h, r, t);
    conversions(r, t);
}
