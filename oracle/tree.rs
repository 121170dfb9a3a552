//! Random trees and queries, with the answers of the source's kdtree.rs, to standard output; oracle/tree.c reads them and asks the port.
//!
//! One tree: its count, then for each measurement three f32 and a number, then the number of queries, then for each query three f32 and the
//! source's answer (u32::MAX for none). All values are little-endian words of 32 bits. A count of u32::MAX ends the stream.

#[allow(dead_code)]
#[path = "../target/oracle/kdtree.rs"]
mod kdtree;

use std::io::{self, BufWriter, Write};

/// Deep chains: the source frees and searches its boxes by recursion.
const STACK: usize = 1 << 30;

struct Random(u64);

impl Random {
    fn next(&mut self) -> u64 {
        // splitmix64
        self.0 = self.0.wrapping_add(0x9e37_79b9_7f4a_7c15);
        let mut z = self.0;
        z = (z ^ (z >> 30)).wrapping_mul(0xbf58_476d_1ce4_e5b9);
        z = (z ^ (z >> 27)).wrapping_mul(0x94d0_49bb_1331_11eb);
        z ^ (z >> 31)
    }

    fn below(&mut self, n: u64) -> u64 {
        self.next() % n
    }

    fn unit(&mut self) -> f32 {
        (self.next() >> 40) as f32 / (1u64 << 24) as f32
    }
}

/// How the coordinates of a tree and of its queries are drawn.
#[derive(Clone, Copy)]
enum Kind {
    Grid,
    Plain,
    Duplicates,
    AnyBits,
    Special,
    Huge,
    Sphere,
}

const KINDS: [Kind; 7] = [Kind::Grid, Kind::Plain, Kind::Duplicates, Kind::AnyBits, Kind::Special, Kind::Huge, Kind::Sphere];

const SPECIAL: [u32; 14] = [
    0x0000_0000, 0x8000_0000, 0x0000_0001, 0x8000_0001, 0x3f80_0000, 0xbf80_0000, 0x7f7f_ffff, 0xff7f_ffff, 0x7f80_0000, 0xff80_0000,
    0x7fc0_0000, 0xffc0_0000, 0x0080_0000, 0x7fa0_0000,
];

fn coordinate(kind: Kind, r: &mut Random) -> f32 {
    match kind {
        Kind::Grid => r.below(5) as f32 - 2.0,
        Kind::Plain => r.unit() * 2.0 - 1.0,
        Kind::Duplicates => r.below(3) as f32 * 0.25,
        Kind::AnyBits => f32::from_bits(r.next() as u32),
        Kind::Special => f32::from_bits(SPECIAL[r.below(SPECIAL.len() as u64) as usize]),
        Kind::Huge => (r.unit() * 2.0 - 1.0) * 3.0e38,
        Kind::Sphere => r.unit() * 2.0 - 1.0,
    }
}

fn point(kind: Kind, r: &mut Random) -> [f32; 3] {
    let p = [coordinate(kind, r), coordinate(kind, r), coordinate(kind, r)];
    if let Kind::Sphere = kind {
        let n = (p[0] * p[0] + p[1] * p[1] + p[2] * p[2]).sqrt();
        return [p[0] / n, p[1] / n, p[2] / n];
    }
    p
}

fn put(out: &mut impl Write, words: &[u32]) {
    for w in words {
        out.write_all(&w.to_le_bytes()).unwrap();
    }
}

fn bits(p: [f32; 3]) -> [u32; 3] {
    [p[0].to_bits(), p[1].to_bits(), p[2].to_bits()]
}

/// One tree with its queries; a query is one of the points, a point moved along one axis, or a fresh one.
fn tree(out: &mut impl Write, points: &[[f32; 3]], numbers: &[u16], kind: Kind, queries: u32, r: &mut Random) {
    let mut source = kdtree::KdTree::new();
    put(out, &[points.len() as u32]);
    for (p, n) in points.iter().zip(numbers) {
        source.insert(*p, *n as usize);
        put(out, &bits(*p));
        put(out, &[*n as u32]);
    }
    put(out, &[queries]);
    for _ in 0..queries {
        let mut q = point(kind, r);
        if !points.is_empty() && r.below(3) != 0 {
            q = points[r.below(points.len() as u64) as usize];
            if r.below(2) == 0 {
                q[r.below(3) as usize] = coordinate(kind, r);
            }
        }
        let answer = source.nearest(&q).map_or(u32::MAX, |n| n as u32);
        put(out, &bits(q));
        put(out, &[answer]);
    }
}

fn random_trees(out: &mut impl Write, r: &mut Random, wanted: u64) -> u64 {
    let mut asked = 0;
    let mut turn = 0usize;
    while asked < wanted {
        let kind = KINDS[turn % KINDS.len()];
        turn += 1;
        let most = match r.below(50) {
            0 => 2000,
            1..=9 => 200,
            10..=29 => 40,
            _ => 8,
        };
        let m = r.below(most + 1) as usize;
        let points: Vec<[f32; 3]> = (0..m).map(|_| point(kind, r)).collect();
        let numbers: Vec<u16> = (0..m).map(|_| r.next() as u16).collect();
        tree(out, &points, &numbers, kind, 100, r);
        asked += 100;
    }
    asked
}

/// Full trees: 16384 places in chains (sorted up, sorted down, all the same) and at random.
fn full_trees(out: &mut impl Write, r: &mut Random) -> u64 {
    let m = 16384usize;
    let up = |i: usize| i as f32;
    let down = |i: usize| -(i as f32);
    let chains: Vec<Vec<[f32; 3]>> = vec![
        (0..m).map(|i| [up(i), up(i), up(i)]).collect(),
        (0..m).map(|i| [down(i), down(i), down(i)]).collect(),
        (0..m).map(|_| [1.0, 1.0, 1.0]).collect(),
        (0..m).map(|_| point(Kind::Plain, r)).collect(),
        (0..m).map(|_| point(Kind::AnyBits, r)).collect(),
    ];
    let numbers: Vec<u16> = (0..m).map(|i| i as u16).collect();
    let mut asked = 0;
    for points in &chains {
        tree(out, points, &numbers, Kind::Plain, 60, r);
        asked += 60;
    }
    asked
}

fn main() {
    let wanted: u64 = std::env::args().nth(1).map_or(1_000_000, |s| s.parse().expect("a count of queries"));
    let work = move || {
        let mut out = BufWriter::with_capacity(1 << 20, io::stdout().lock());
        let mut r = Random(0x5eed);
        let full = full_trees(&mut out, &mut r);
        let random = random_trees(&mut out, &mut r, wanted);
        put(&mut out, &[u32::MAX]);
        out.flush().unwrap();
        eprintln!("tree: the source answered {} queries", full + random);
    };
    std::thread::Builder::new().stack_size(STACK).spawn(work).unwrap().join().unwrap();
}
