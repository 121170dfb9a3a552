//! The port's archive against the source, over seeded sets: every list, every answer, every bit. `oracle/run_all` builds and runs it; the source is the crate
//! `sofar`, either with its angle functions redirected to the port's or unchanged.
//!
//! all SEED SMALL LARGE [list]: prints the first twenty differences, with `list` each of them, and one line of counts.
//! all SEED QUERIES 0 real FILE: the same over the measured set of FILE (oracle/real.c), by the steps 0.5 and 0.01.
//! all SEED SETS 0 sample: writes the records that crates/try_replay asks the port again (sample.rs).

mod port;
mod real;
mod refusals;
mod sample;
mod sets;

use port::{Host, Lookup, Outputs, Sizes};
use sets::{Random, Set};
use sofar::filter::Filter;
use sofar::reader::{OpenOptions, Sofar};
use sofar::sofa::coords;

/// Deep chains: the source inserts, searches and frees its boxes by recursion.
const STACK: usize = 1 << 30;

/// What a lent list holds before a call, and past the lengths that a call may write.
const MARK: u16 = 0xa5a5;
const MARKED: f32 = -1.25e-3;

pub struct Tally {
    name: String,
    every: bool,
    pub sets: u64,
    pub queries: u64,
    pub values: u64,
    pub differ: u64,
    pub refusals: u64,
    /// Zeros whose sign document 01 leaves open.
    pub open: u64,
    /// Longest delays that were not compared on 64-bit Arm, for a signalling NaN among the delays.
    pub aside: u64,
    /// Filter queries: exact, and blended over 1 to 4 points.
    pub points: [u64; 5],
}

impl Tally {
    fn new(every: bool) -> Tally {
        Tally { name: String::new(), every, sets: 0, queries: 0, values: 0, differ: 0, refusals: 0, open: 0, aside: 0, points: [0; 5] }
    }

    fn told(&mut self, list: &str, index: usize, source: String, port: String) {
        self.differ += 1;
        if self.every || self.differ <= 20 {
            println!("{}: {list}[{index}]: source {source}, port {port}", self.name);
        }
    }

    pub fn number(&mut self, list: &str, index: usize, source: usize, port: usize) {
        self.values += 1;
        if source != port {
            self.told(list, index, source.to_string(), port.to_string());
        }
    }

    fn value(&mut self, list: &str, index: usize, source: f32, port: f32) {
        self.values += 1;
        if source.to_bits() != port.to_bits() && !(source.is_nan() && port.is_nan()) {
            self.told(list, index, format!("{:08x}", source.to_bits()), format!("{:08x}", port.to_bits()));
        }
    }

    pub fn values(&mut self, list: &str, source: &[f32], port: &[f32]) {
        self.number(&format!("length of {list}"), 0, source.len(), port.len());
        for (i, (s, p)) in source.iter().zip(port).enumerate() {
            self.value(list, i, *s, *p);
        }
    }

    fn numbers(&mut self, list: &str, source: &[u16], port: &[u16]) {
        self.number(&format!("length of {list}"), 0, source.len(), port.len());
        for (i, (s, p)) in source.iter().zip(port).enumerate() {
            self.number(list, i, *s as usize, *p as usize);
        }
    }

    /// A least or greatest value among `given`: where both zeros are met, Rust leaves the sign of the answer open.
    fn extreme(&mut self, list: &str, index: usize, source: f32, port: f32, given: impl Iterator<Item = f32>) {
        let (mut plus, mut minus) = (false, false);
        for v in given {
            plus |= v.to_bits() == 0;
            minus |= v.to_bits() == 1 << 31;
        }
        if source == 0.0 && port == 0.0 && plus && minus {
            self.open += 1;
        } else {
            self.value(list, index, source, port);
        }
    }
}

fn host(set: &Set, r: &mut Random) -> Host {
    let spare = if r.below(2) == 0 { 0 } else { 1 + r.below(7) };
    Host {
        kind: set.kind,
        sizes: Sizes { m: set.m, c: 3, r: set.r, n: set.n },
        positions: set.positions.clone(),
        responses: set.responses.clone(),
        delays: set.delays.clone(),
        angle_step: set.angle_step,
        radius_step: set.radius_step,
        rate: set.rate,
        left: vec![MARK; set.m + spare],
        right: vec![MARK; set.m + spare],
        neighbours: vec![MARK; 6 * set.m + spare],
        cartesian: vec![MARKED; 3 * set.m + spare],
        lookup: Lookup { corners: [0.0; 6], bounds: [0.0; 6] },
    }
}

/// The set through the source's own front door: its reader's bytes, by the stand-in for the parser.
fn open(set: &Set) -> Sofar {
    let mut bytes = Vec::new();
    for w in [set.m, set.r, set.n, set.kind as usize, set.responses.len(), set.delays.len()] {
        bytes.extend((w as u32).to_le_bytes());
    }
    for v in set.positions.iter().chain(&set.responses).chain(&set.delays).chain([&set.rate]) {
        bytes.extend(v.to_le_bytes());
    }
    let mut options = OpenOptions::new();
    options.sample_rate(set.rate).neighbor_angle_step(set.angle_step).neighbor_radius_step(set.radius_step).normalized(false);
    options.open_data(&bytes).map_err(|_| "refused").expect("the source opens every set of the domain")
}

fn entries(source: &Sofar, number: usize) -> [u16; 6] {
    let n = source.neighborhood().get(number).unwrap();
    [n.phi_plus, n.phi_minus, n.theta_plus, n.theta_minus, n.radius_plus, n.radius_minus].map(|e| e.map_or(65535, |e| e as u16))
}

fn compare_load(set: &Set, source: &Sofar, h: &Host, t: &mut Tally) {
    let m = set.m;
    t.values("cartesian", &source.hrtf().source_position.values, &h.cartesian[..3 * m]);
    let (left, right) = source.lookup().tree().links(m);
    t.numbers("left", &left, &h.left[..m]);
    t.numbers("right", &right, &h.right[..m]);
    t.values("box", &source.lookup().tree().corners(), &h.lookup.corners);
    let l = source.lookup();
    let bounds = [l.phi_min, l.phi_max, l.theta_min, l.theta_max, l.radius_min, l.radius_max];
    let spherical: Vec<[f32; 3]> = h.cartesian[..3 * m].chunks(3).map(|p| coords::cartesian_to_spherical([p[0], p[1], p[2]])).collect();
    for (i, (s, p)) in bounds.iter().zip(h.lookup.bounds).enumerate() {
        t.extreme("bounds", i, *s, p, spherical.iter().map(|v| v[i / 2]));
    }
    for i in 0..m {
        t.numbers(&format!("neighbours of {i}"), &entries(source, i), &h.neighbours[6 * i..6 * i + 6]);
    }
    t.values("positions", &set.positions, &h.positions);
    let past = h.left[m..].iter().chain(&h.right[m..]).chain(&h.neighbours[6 * m..]).all(|w| *w == MARK);
    let beyond = h.cartesian[3 * m..].iter().all(|v| v.to_bits() == MARKED.to_bits());
    t.number("written past a list", 0, 0, !(past && beyond) as usize);
}

/// Two outputs of lengths of their own, full of marks.
fn outputs(n: usize, r: &mut Random) -> (Filter, Outputs) {
    let mut length = || match r.below(6) {
        0 => 0,
        1 => r.below(n + 1),
        2 => n + 1 + r.below(4),
        _ => n,
    };
    let (left, right) = (vec![MARKED; length()], vec![MARKED; length()]);
    let filter = Filter { left: left.clone().into(), right: right.clone().into(), ldelay: MARKED, rdelay: MARKED };
    (filter, Outputs { left, right })
}

fn compare_filter(call: &str, source: &Filter, a: port::Filtered, out: &Outputs, blended: usize, t: &mut Tally) {
    t.number(&format!("{call}: reason"), 0, 0, a.reason as usize);
    t.number(&format!("{call}: blended"), 0, (blended > 0) as usize, a.blended as usize);
    t.number(&format!("{call}: points"), 0, blended.max(1), a.points);
    t.values(&format!("{call}: left"), &source.left, &out.left);
    t.values(&format!("{call}: right"), &source.right, &out.right);
    t.values(&format!("{call}: delays"), &[source.ldelay, source.rdelay], &[a.ldelay, a.rdelay]);
}

fn compare_query(set: &Set, source: &Sofar, h: &Host, q: [f32; 3], r: &mut Random, t: &mut Tally) {
    t.queries += 1;
    let f = h.find(q);
    t.number("find: reason", 0, 0, f.reason as usize);
    t.number("find", 0, source.lookup().find(&q).unwrap(), f.number as usize);
    let (mut theirs, mut ours) = (q, q);
    let number = source.lookup().find_mut(&mut theirs).unwrap();
    let f = h.find_mut(&mut ours);
    t.number("find_mut: reason", 0, 0, f.reason as usize);
    t.number("find_mut", 0, number, f.number as usize);
    t.values("find_mut: coordinates", &theirs, &ours);
    let (mut filter, mut out) = outputs(set.n, r);
    arrayvec::walked();
    source.filter(q[0], q[1], q[2], &mut filter);
    let blended = arrayvec::walked();
    t.points[blended.min(4)] += 1;
    compare_filter("filter", &filter, h.filter(q, &mut out), &out, blended, t);
    let (mut filter, mut out) = outputs(set.n, r);
    source.filter_nointerp(q[0], q[1], q[2], &mut filter);
    compare_filter("plain", &filter, h.filter_nointerp(q, &mut out), &out, 0, t);
}

fn compare_number(set: &Set, source: &Sofar, h: &Host, number: usize, r: &mut Random, t: &mut Tally) {
    let (mut filter, mut out) = outputs(set.n, r);
    source.filter_number(number, &mut filter);
    compare_filter("number", &filter, h.filter_number(number, &mut out), &out, 0, t);
    let whole = sofar::sofa::get_filter_nointerp(source.hrtf(), number).unwrap();
    for (call, taps, part) in [("left response", whole.left, h.left_response(number)), ("right response", whole.right, h.right_response(number))] {
        t.number(&format!("{call}: reason"), 0, 0, part.reason as usize);
        t.values(call, &taps, &h.responses[part.start..part.start + part.count]);
    }
    let around = h.neighbors_of(number);
    t.number("neighbours: reason", 0, 0, around.reason as usize);
    t.numbers("neighbours", &entries(source, number), &around.entries);
}

/// Lists with none, one or two values left over.
fn compare_conversions(r: &mut Random, t: &mut Tally) {
    let count = 3 * r.below(6) + r.below(3);
    let mut source = sets::loose(0, count, r);
    let mut port = source.clone();
    coords::convert_array_to_spherical(&mut source);
    t.number("to spherical: reason", 0, 0, port::to_spherical(&mut port).reason as usize);
    t.values("to spherical", &source, &port);
    let count = 3 * r.below(6) + r.below(3);
    let mut source = sets::loose(1, count, r);
    let mut port = source.clone();
    coords::convert_array_to_cartesian(&mut source);
    t.number("to cartesian: reason", 0, 0, port::to_cartesian(&mut port).reason as usize);
    t.values("to cartesian", &source, &port);
}

/// Compiled by Rust 1.95 for 64-bit Arm, `f32::max` loses what it had where it meets such a NaN; document 01 passes over every NaN.
fn signalling(v: &f32) -> bool {
    v.is_nan() && v.to_bits() & 0x0040_0000 == 0
}

fn compare(set: &Set, queries: usize, numbers: usize, r: &mut Random, t: &mut Tally) {
    t.sets += 1;
    let mut h = host(set, r);
    refusals::at_load(&h, r, t);
    let loaded = h.load();
    t.number("load: reason", 0, 0, loaded.reason as usize);
    let source = open(set);
    compare_load(set, &source, &h, t);
    let name = t.name.clone();
    for i in 0..queries {
        let q = sets::query(&h.cartesian[..3 * set.m], r);
        t.name = format!("{name}, query {i} ({:08x},{:08x},{:08x})", q[0].to_bits(), q[1].to_bits(), q[2].to_bits());
        compare_query(set, &source, &h, q, r, t);
    }
    for i in 0..set.m.min(numbers) {
        let number = if set.m <= numbers { i } else { r.below(set.m) };
        t.name = format!("{name}, number {number}");
        compare_number(set, &source, &h, number, r, t);
    }
    t.name = name;
    let longest = h.max_delay();
    t.number("max_delay: reason", 0, 0, longest.reason as usize);
    if cfg!(target_arch = "aarch64") && set.delays.iter().any(signalling) {
        t.aside += 1;
    } else {
        t.extreme("max_delay", 0, source.max_delay(), longest.value, set.delays.iter().copied().chain([0.0]));
    }
    compare_conversions(r, t);
    refusals::after_load(&h, r, t);
}

fn run(seed: u64, small: u64, large: u64, every: bool) -> Tally {
    let mut t = Tally::new(every);
    for number in 0..small + large {
        let mut r = sets::random_of(seed, number);
        let (size, set) = if number < small { ("small", sets::small(number, &mut r)) } else { ("large", sets::large(number - small, &mut r)) };
        t.name = format!("set {number} ({size}, {}, m {})", set.family, set.m);
        compare(&set, if number < small { 12 } else { 60 }, 8, &mut r, &mut t);
    }
    t
}

/// Every list of the measured set, every number, and as many queries as are asked for.
fn run_real(seed: u64, queries: usize, file: &str) -> Tally {
    let mut t = Tally::new(false);
    let mut r = sets::random_of(seed, 0);
    let real::Real { m, r: receivers, n, kind, positions, responses, delays, rate } = real::read(file);
    let set = Set { family: "measured", kind, m, r: receivers, n, positions, responses, delays, angle_step: 0.5, radius_step: 0.01, rate };
    t.name = format!("measured set, m {m}");
    compare(&set, queries, m, &mut r, &mut t);
    t
}

fn main() {
    let args: Vec<String> = std::env::args().collect();
    let count = |i: usize| args[i].parse::<u64>().expect("a whole number");
    let (seed, small, large) = (count(1), count(2), count(3));
    let every = args.get(4).is_some_and(|a| a == "list");
    if args.get(4).is_some_and(|a| a == "sample") {
        return sample::write(seed, small);
    }
    let real = args.get(4).is_some_and(|a| a == "real").then(|| args[5].clone());
    let work = move || match real {
        Some(file) => run_real(seed, small as usize, &file),
        None => run(seed, small, large, every),
    };
    let t = std::thread::Builder::new().stack_size(STACK).spawn(work).unwrap().join().unwrap();
    let [exact, blended @ ..] = t.points;
    println!("oracle: filters exact {exact}, blended over 1, 2, 3, 4 points {blended:?}; {} zeros of open sign; {} refusals as document 01 has them", t.open, t.refusals);
    if t.aside > 0 {
        println!("oracle: {} longest delays put aside, with a signalling NaN on 64-bit Arm", t.aside);
    }
    println!("oracle: {} sets, {} queries, {} values compared, {} differ (seed {seed})", t.sets, t.queries, t.values, t.differ);
    std::process::exit((t.differ != 0) as i32);
}
