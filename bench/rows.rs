//! The rows: what is timed.

use std::hint::black_box;

use crate::measure::Row;
use crate::port;
use crate::sets::{self, Random, Set};
use crate::sides::{Port, Redirected, Side, Unchanged};

/// Taken by `time` and `count`. A counted run, many times slower, keeps to the smallest sets; only a timed one takes the rows that show how cost grows.
pub fn each(timed: bool, whole: bool, only: &str, take: &mut dyn FnMut(&mut Row)) {
    let take: &mut dyn FnMut(&mut Row) = &mut |row: &mut Row| {
        if row.name.contains(only) {
            take(row);
        }
    };
    numbers(take);
    blend(take);
    for m in if timed { vec![1000, 4000, 16384] } else { vec![1000] } {
        for set in [sets::sphere(m), sets::grid(m)] {
            of_set(&[128, 512].map(|n| set.clone().taps(n)), only, take);
        }
    }
    if let Some(set) = sets::measured() {
        of_set(&[set], only, take);
    }
    if whole {
        growth(only, take);
    }
}

// ---- numbers

unsafe extern "C" {
    fn sofa_root(x: f32) -> f32;
    fn sofa_sine(x: f32) -> port::Value;
    fn sofa_cosine(x: f32) -> port::Value;
    fn sofa_arctangent(y: f32, x: f32) -> port::Value;
    fn c_sines(x: *const f32, r: *mut f32, n: usize);
    fn c_cosines(x: *const f32, r: *mut f32, n: usize);
    fn c_roots(x: *const f32, r: *mut f32, n: usize);
    fn c_arctangents(y: *const f32, x: *const f32, r: *mut f32, n: usize);
    fn c_blend(out: *mut f32, src: *const f32, a: usize, b: usize, c: usize, d: usize, w: f32, x: f32, y: f32, z: f32, n: usize);
    fn probe_blend(
        left: *mut f32, left_len: usize, right: *mut f32, right_len: usize, src: *const f32, src_len: usize, n: usize, a: usize, b: usize, c: usize,
        d: usize, w: f32, x: f32, y: f32, z: f32,
    ) -> bool;
}

const NUMBERS: usize = 1024;

/// One function over a list, by the port and by the C library.
fn number(name: &str, take: &mut dyn FnMut(&mut Row), port: &dyn Fn(usize) -> f32, c: &dyn Fn(&mut [f32])) {
    let (mut one, mut two) = (vec![0.0; NUMBERS], vec![0.0; NUMBERS]);
    let mut row = Row { name: name.to_string(), calls: NUMBERS, rounds: 1500, sides: Vec::new() };
    row.sides.push(("port", Box::new(move || {
        for (i, r) in one.iter_mut().enumerate() {
            *r = port(i);
        }
        black_box(&one);
    })));
    row.sides.push(("C library", Box::new(move || {
        c(&mut two);
        black_box(&two);
    })));
    take(&mut row);
}

fn numbers(take: &mut dyn FnMut(&mut Row)) {
    let mut r = Random(1);
    let mut list = |size: f32| -> Vec<f32> { (0..NUMBERS).map(|_| r.signed() * size).collect() };
    // turns as the conversions ask for them: up to two full ones
    let (x, y, turns) = (list(2.0), list(2.0), list(12.0));
    let squares: Vec<f32> = x.iter().map(|v| v * v).collect();
    let n = NUMBERS;
    number("sine", take, &|i| unsafe { sofa_sine(turns[i]).value }, &|r| unsafe { c_sines(turns.as_ptr(), r.as_mut_ptr(), n) });
    number("cosine", take, &|i| unsafe { sofa_cosine(turns[i]).value }, &|r| unsafe { c_cosines(turns.as_ptr(), r.as_mut_ptr(), n) });
    number("arctangent", take, &|i| unsafe { sofa_arctangent(y[i], x[i]).value }, &|r| unsafe { c_arctangents(y.as_ptr(), x.as_ptr(), r.as_mut_ptr(), n) });
    number("root", take, &|i| unsafe { sofa_root(squares[i]) }, &|r| unsafe { c_roots(squares.as_ptr(), r.as_mut_ptr(), n) });
}

// ---- the blend's inner loop

fn blend(take: &mut dyn FnMut(&mut Row)) {
    for n in [128usize, 512] {
        let taps: Vec<f32> = (0..64 * 2 * n).map(|i| ((i * 7919 % 1000) as f32 - 500.0) / 300.0).collect();
        let p = black_box([(3usize, 0.4f32), (17, 0.3), (40, 0.2), (63, 0.1)]);
        let (mut one, mut two) = ((vec![9.0f32; n], vec![9.0f32; n]), (vec![9.0f32; n], vec![9.0f32; n]));
        let source = &taps;
        let at = move |k: usize, e: usize| (p[k].0 * 2 + e) * n;
        let mut row = Row { name: format!("blend N={n}"), calls: 20, rounds: 4000, sides: Vec::new() };
        row.sides.push(("port", Box::new(move || {
            for _ in 0..20 {
                let (l, r) = (one.0.as_mut_ptr(), one.1.as_mut_ptr());
                unsafe { probe_blend(l, n, r, n, source.as_ptr(), source.len(), n, p[0].0, p[1].0, p[2].0, p[3].0, p[0].1, p[1].1, p[2].1, p[3].1) };
                black_box(&mut one);
            }
        })));
        row.sides.push(("C loop", Box::new(move || {
            for _ in 0..20 {
                for (e, out) in [&mut two.0, &mut two.1].into_iter().enumerate() {
                    let (o, s) = (out.as_mut_ptr(), source.as_ptr());
                    unsafe { c_blend(o, s, at(0, e), at(1, e), at(2, e), at(3, e), p[0].1, p[1].1, p[2].1, p[3].1, n) };
                }
                black_box(&mut two);
            }
        })));
        take(&mut row);
    }
}

// ---- sets

type Sides = Vec<(&'static str, Box<dyn Side>)>;

/// A row in which each side runs the same batch.
fn sides_row<'a>(name: String, calls: usize, rounds: usize, sides: &'a mut Sides, batch: impl Fn(&mut dyn Side) + Copy + 'a) -> Row<'a> {
    let sides = sides.iter_mut().map(|(name, side)| (*name, Box::new(move || batch(side.as_mut())) as Box<dyn FnMut() + 'a>)).collect();
    Row { name, calls, rounds, sides }
}

fn sides_of(set: &Set) -> Sides {
    #[allow(unused_mut)]
    let mut sides: Sides = vec![("port", Box::new(Port::new(set))), ("source", Box::new(Unchanged::new(set))), ("redirected", Box::new(Redirected::new(set)))];
    #[cfg(mysofa)]
    sides.push(("libmysofa", Box::new(crate::mysofa::Mysofa::new(set))));
    sides
}

/// The port and the redirected source answer alike, or the times would compare different work.
fn agree(set: &Set, sides: &mut Sides, queries: &[[f32; 3]]) {
    for q in queries {
        let mut told = Vec::new();
        for (name, side) in sides.iter_mut().filter(|(name, _)| ["port", "redirected"].contains(name)) {
            side.filter(*q);
            let bits: Vec<u32> = side.out().0.iter().chain(side.out().1).map(|v| v.to_bits()).collect();
            told.push((*name, side.find(*q), bits));
        }
        assert!(told[0].1 == told[1].1 && told[0].2 == told[1].2, "{} {} of {}: the sides differ at {q:?}", set.name, set.m, set.n);
    }
}

/// Different queries in a round, as a head that turns asks them; `find again` asks the same 64 in every round, to show whether a processor gains by learning them.
const QUERIES: usize = 4096;

/// One set, with responses of one length or of several.
fn of_set(lengths: &[Set], only: &str, take: &mut dyn FnMut(&mut Row)) {
    let label = format!("{} M={}", lengths[0].name, lengths[0].m);
    let names = ["load", "find", "filter", "plain"].map(|kind| format!("{kind} {label} N=128 N=512"));
    if !names.iter().any(|name| name.contains(only)) {
        return;
    }
    let queries = sets::queries(QUERIES, 5);
    for (i, set) in lengths.iter().enumerate() {
        let n = set.n;
        let mut sides = sides_of(set);
        agree(set, &mut sides, &queries);
        if i == 0 {
            take(&mut sides_row(format!("load {label}"), 1, 4 + 40000 / set.m, &mut sides, |s| s.load()));
            take(&mut sides_row(format!("find {label}"), QUERIES, 24, &mut sides, |s| {
                for q in &queries {
                    black_box(s.find(*q));
                }
            }));
            take(&mut sides_row(format!("find again {label}"), 64, 300, &mut sides, |s| {
                for q in &queries[..64] {
                    black_box(s.find(*q));
                }
            }));
        }
        take(&mut sides_row(format!("filter {label} N={n}"), QUERIES, 16, &mut sides, |s| {
            for q in &queries {
                s.filter(*q);
            }
        }));
        take(&mut sides_row(format!("plain {label} N={n}"), QUERIES, 16, &mut sides, |s| {
            for q in &queries {
                s.plain(*q);
            }
        }));
    }
}

// ---- how cost grows

fn growth(only: &str, take: &mut dyn FnMut(&mut Row)) {
    let queries = sets::queries(QUERIES, 6);
    for m in [256, 512, 1024, 2048, 4096, 8192, 16384] {
        for set in [sets::sphere(m), sets::chain(m)] {
            let label = format!("{} M={m}", set.name);
            if !["load", "find"].iter().any(|call| format!("growth {call} {label}").contains(only)) {
                continue;
            }
            let mut sides = sides_of(&set);
            let rounds = if set.name == "chain" { 2 } else { 3 + 12000 / m };
            // a load of a chain asks each place for all: past 4096 it takes many seconds on every side
            if set.name == "sphere" || m <= 4096 {
                take(&mut sides_row(format!("growth load {label}"), 1, rounds, &mut sides, |s| s.load()));
            }
            take(&mut sides_row(format!("growth find {label}"), QUERIES, 8, &mut sides, |s| {
                for q in &queries {
                    black_box(s.find(*q));
                }
            }));
        }
    }
    for n in [0, 32, 64, 128, 256, 512, 1024, 2048, 4096, 8192] {
        let set = sets::sphere(256).taps(n);
        let mut sides = sides_of(&set);
        take(&mut sides_row(format!("growth filter N={n}"), QUERIES, 8, &mut sides, |s| {
            for q in &queries {
                s.filter(*q);
            }
        }));
    }
}
