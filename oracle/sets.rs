//! Seeded sets and queries, all of them inside document 01's limits.

pub struct Random(pub u64);

impl Random {
    pub fn next(&mut self) -> u64 {
        // splitmix64
        self.0 = self.0.wrapping_add(0x9e37_79b9_7f4a_7c15);
        let mut z = self.0;
        z = (z ^ (z >> 30)).wrapping_mul(0xbf58_476d_1ce4_e5b9);
        z = (z ^ (z >> 27)).wrapping_mul(0x94d0_49bb_1331_11eb);
        z ^ (z >> 31)
    }

    pub fn below(&mut self, n: usize) -> usize {
        (self.next() % n as u64) as usize
    }

    /// 0 up to 1.
    pub fn unit(&mut self) -> f32 {
        (self.next() >> 40) as f32 / (1u64 << 24) as f32
    }

    pub fn between(&mut self, a: f32, b: f32) -> f32 {
        (a + (b - a) * self.unit()).clamp(a, b)
    }

    pub fn of<T: Copy>(&mut self, list: &[T]) -> T {
        list[self.below(list.len())]
    }
}

pub struct Set {
    pub family: &'static str,
    pub kind: u32,
    pub m: usize,
    pub r: usize,
    pub n: usize,
    pub positions: Vec<f32>,
    pub responses: Vec<f32>,
    pub delays: Vec<f32>,
    pub angle_step: f32,
    pub radius_step: f32,
    pub rate: f32,
}

type Family = (&'static str, fn(usize, &mut Random) -> (u32, Vec<f32>));

/// How the positions of a set are drawn.
pub const FAMILIES: [Family; 16] = [
    ("sphere", sphere),
    ("grid of directions", directions),
    ("grid of points", points),
    ("duplicates", duplicates),
    ("chain", chain),
    ("several radii", several_radii),
    ("limits, cartesian", limits_cartesian),
    ("limits, spherical", limits_spherical),
    ("zeros", zeros),
    ("any direction", any_direction),
    ("cluster", cluster),
    ("ring", ring),
    ("below 0.001", below),
    ("measured", measured),
    ("plain", plain),
    ("any bits", any_bits),
];

fn direction(r: &mut Random) -> [f32; 3] {
    loop {
        let p = [r.between(-1.0, 1.0), r.between(-1.0, 1.0), r.between(-1.0, 1.0)];
        let d = (p[0] * p[0] + p[1] * p[1] + p[2] * p[2]).sqrt();
        if d > 0.01 && d <= 1.0 {
            return [p[0] / d, p[1] / d, p[2] / d];
        }
    }
}

fn many(m: usize, mut one: impl FnMut(usize) -> [f32; 3]) -> Vec<f32> {
    (0..m).flat_map(&mut one).collect()
}

fn sphere(m: usize, r: &mut Random) -> (u32, Vec<f32>) {
    let radius = r.of(&[1.0, 1.2, 0.05, 2.0, 9000.0]);
    (0, many(m, |_| direction(r).map(|v| v * radius)))
}

fn directions(m: usize, r: &mut Random) -> (u32, Vec<f32>) {
    let step = r.of(&[5.0, 10.0, 15.0, 30.0, 45.0, 90.0]);
    let radius = r.of(&[1.0, 1.5]);
    let turns = (360.0 / step) as usize;
    let heights = (180.0 / step) as usize + 1;
    let start = r.below(turns * heights);
    let one = |i: usize| {
        let at = start + i;
        [(at % turns) as f32 * step, ((at / turns) % heights) as f32 * step - 90.0, radius]
    };
    (1, many(m, one))
}

fn points(m: usize, r: &mut Random) -> (u32, Vec<f32>) {
    let unit = r.of(&[1.0, 0.5, 0.25, 0.1]);
    (0, many(m, |_| [0, 0, 0].map(|_: i32| (r.below(5) as f32 - 2.0) * unit)))
}

fn duplicates(m: usize, r: &mut Random) -> (u32, Vec<f32>) {
    let few: Vec<[f32; 3]> = (0..1 + r.below(4)).map(|_| direction(r)).collect();
    (0, many(m, |_| r.of(&few)))
}

fn chain(m: usize, r: &mut Random) -> (u32, Vec<f32>) {
    let sign = r.of(&[1.0, -1.0]);
    let step = r.of(&[0.01, 0.25, 0.5]);
    let still = r.below(4);
    let one = |i: usize| {
        let mut p = [i as f32 * step * sign; 3];
        if still < 3 {
            p[still] = 1.0;
        }
        p
    };
    (0, many(m, one))
}

fn several_radii(m: usize, r: &mut Random) -> (u32, Vec<f32>) {
    let radii = [r.between(0.05, 0.3), r.between(0.3, 0.6), r.between(0.6, 1.2), r.between(1.0, 3.0)];
    let few: Vec<[f32; 3]> = (0..1 + m / 3).map(|_| direction(r)).collect();
    (0, many(m, |_| {
        let radius = r.of(&radii);
        r.of(&few).map(|v| v * radius)
    }))
}

const EDGES: [f32; 12] = [10000.0, -10000.0, 9999.999, -9999.999, 0.0, -0.0, 1e-45, -1e-45, 1e-20, 0.001, 1.0, -1.0];

fn limits_cartesian(m: usize, r: &mut Random) -> (u32, Vec<f32>) {
    (0, many(m, |_| [r.of(&EDGES), r.of(&EDGES), r.of(&EDGES)]))
}

const ANGLES: [f32; 18] = [
    0.0, -0.0, 90.0, -90.0, 180.0, -180.0, 360.0, -360.0, 720.0, -720.0, 719.99994, -719.99994, 89.99999, 45.0, 1e-30, -1e-45, 270.0, 359.99997,
];

const RADII: [f32; 9] = [0.0, -0.0, 1e-45, 0.0005, 0.001, 1.0, 1.2, 9999.999, 10000.0];

fn limits_spherical(m: usize, r: &mut Random) -> (u32, Vec<f32>) {
    (1, many(m, |_| [r.of(&ANGLES), r.of(&ANGLES), r.of(&RADII)]))
}

fn zeros(m: usize, r: &mut Random) -> (u32, Vec<f32>) {
    let few = [0.0, -0.0, 0.0, -0.0, 1.0, -1.0];
    (0, many(m, |_| [r.of(&few), r.of(&few), r.of(&few)]))
}

fn any_direction(m: usize, r: &mut Random) -> (u32, Vec<f32>) {
    let most = r.of(&[1.0, 3.0, 10000.0]);
    (1, many(m, |_| [r.between(-720.0, 720.0), r.between(-720.0, 720.0), r.between(0.0, most)]))
}

fn cluster(m: usize, r: &mut Random) -> (u32, Vec<f32>) {
    let middle = direction(r);
    let wide = r.of(&[1e-7, 1e-6, 1e-5, 1e-3]);
    (0, many(m, |_| middle.map(|v| v + (r.unit() - 0.5) * wide)))
}

fn ring(m: usize, r: &mut Random) -> (u32, Vec<f32>) {
    let elevation = r.of(&[0.0, 30.0, -60.0, 90.0]);
    (1, many(m, |i| [i as f32 * (360.0 / m as f32), elevation, 1.0]))
}

fn below(m: usize, r: &mut Random) -> (u32, Vec<f32>) {
    let radius = r.of(&[0.0009, 0.0005, 1e-6, 1e-20, 1e-44]);
    (0, many(m, |_| direction(r).map(|v| v * radius)))
}

/// As a measured set has it: rings of fewer and fewer directions towards the poles, two distances.
fn measured(m: usize, r: &mut Random) -> (u32, Vec<f32>) {
    let step = r.of(&[5.0, 10.0, 20.0]);
    let mut all = Vec::new();
    let mut elevation = -40.0f32;
    while elevation <= 90.0 {
        let turns = ((1.0 - elevation * elevation / 8100.0) * 360.0 / step).floor().max(1.0);
        all.extend((0..turns as usize).map(|i| [i as f32 * (360.0 / turns), elevation, 1.4]));
        elevation += step;
    }
    let start = r.below(all.len());
    let near = r.of(&[1.4, 0.7]);
    (1, many(m, |i| {
        let p = all[(start + i) % all.len()];
        [p[0], p[1], if i < all.len() { p[2] } else { near }]
    }))
}

fn plain(m: usize, r: &mut Random) -> (u32, Vec<f32>) {
    let most = r.of(&[1.0, 2.0, 10000.0]);
    (0, many(m, |_| [r.between(-most, most), r.between(-most, most), r.between(-most, most)]))
}

/// Every binade below the limit, so that squares underflow.
fn any_bits(m: usize, r: &mut Random) -> (u32, Vec<f32>) {
    let mut one = || loop {
        let v = f32::from_bits(r.next() as u32);
        if v.abs() <= 10000.0 {
            return v;
        }
    };
    (0, many(m, |_| [one(), one(), one()]))
}

const ODD: [u32; 16] = [
    0x0000_0000, 0x8000_0000, 0x0000_0001, 0x8000_0001, 0x007f_ffff, 0x0080_0000, 0x3f80_0000, 0xbf80_0000, 0x7f7f_ffff, 0xff7f_ffff, 0x7f80_0000,
    0xff80_0000, 0x7fc0_0000, 0xffc0_0000, 0x7fa0_0000, 0x7149_f2ca,
];

/// A list of taps or delays: fractions, whole numbers, odd values, any bits.
fn values(count: usize, most: f32, r: &mut Random) -> Vec<f32> {
    let way = r.below(8);
    let one = |_| match way {
        0 => f32::from_bits(r.of(&ODD)),
        1 => f32::from_bits(r.next() as u32),
        2 if r.below(4) == 0 => f32::from_bits(r.of(&ODD)),
        3 => r.below(1 + most as usize) as f32,
        _ => r.between(-most, most),
    };
    (0..count).map(one).collect()
}

fn delay_count(m: usize, receivers: usize, r: &mut Random) -> usize {
    match r.below(8) {
        0 => 0,
        1 => r.below(receivers),
        2 => receivers,
        3 => receivers + r.below(m * receivers + 1 - receivers),
        4 => m * receivers + 1 + r.below(5),
        5 | 6 => m,
        _ => m * receivers,
    }
}

fn angle_step(r: &mut Random) -> f32 {
    match r.below(8) {
        0 => 0.1,
        1 => 45.0,
        2 => 0.5,
        3 => 44.999996,
        4 => 2.0,
        5 => r.between(0.1, 2.0),
        _ => r.between(1.0, 45.0),
    }
}

fn radius_step(r: &mut Random) -> f32 {
    match r.below(6) {
        0 => 0.001,
        1 => 1.0,
        2 | 3 => 0.01,
        4 => 0.99999994,
        _ => r.between(0.001, 1.0),
    }
}

fn rate(r: &mut Random) -> f32 {
    match r.below(6) {
        0 => 1000.0,
        1 => 384000.0,
        2 => 44100.0,
        3 => 48000.0,
        _ => r.between(1000.0, 384000.0),
    }
}

fn taps(m: usize, r: &mut Random) -> usize {
    match r.below(40) {
        0 => 8192 / m,
        1 => 512 / (1 + m / 16),
        2..=5 => 64 / (1 + m / 64),
        6..=9 => 0,
        _ => 1 + r.below(9),
    }
}

/// The generator of one set: by the run's seed and the set's number alone.
pub fn random_of(seed: u64, number: u64) -> Random {
    let mut r = Random(seed.wrapping_mul(0xd6e8_feb8_6659_fd93) ^ number);
    r.next();
    Random(r.next() ^ number.wrapping_mul(0xff51_afd7_ed55_8ccd))
}

fn with(family: Family, m: usize, n: usize, r: &mut Random) -> Set {
    let (kind, positions) = family.1(m, r);
    let receivers = if r.below(3) == 0 { 2 + r.below(7) } else { 2 };
    let spare = if r.below(4) == 0 { r.below(6) } else { 0 };
    let count = delay_count(m, receivers, r);
    Set {
        family: family.0,
        kind,
        m,
        r: receivers,
        n,
        positions,
        responses: values(m * receivers * n + spare, 1.0, r),
        delays: values(count, 900.0, r),
        angle_step: angle_step(r),
        radius_step: radius_step(r),
        rate: rate(r),
    }
}

pub fn small(number: u64, r: &mut Random) -> Set {
    let m = match r.below(20) {
        0 | 1 => 1 + r.below(2),
        2..=13 => 1 + r.below(12),
        14..=18 => 1 + r.below(40),
        _ => 1 + r.below(150),
    };
    let n = taps(m, r);
    with(FAMILIES[number as usize % FAMILIES.len()], m, n, r)
}

/// At most 8 measurements of 4 taps.
pub fn tiny(number: u64, r: &mut Random) -> Set {
    let (m, n) = (1 + r.below(8), r.below(5));
    with(FAMILIES[number as usize % FAMILIES.len()], m, n, r)
}

/// Families in which one search meets many ties or goes along a chain: large sets of these are kept short, and so are their searches.
const LONG: [&str; 8] = ["grid of points", "duplicates", "chain", "limits, cartesian", "limits, spherical", "zeros", "ring", "below 0.001"];

/// Up to 16384 measurements: each ninth is full where its family bears it, and so is one chain.
pub fn large(number: u64, r: &mut Random) -> Set {
    let family = FAMILIES[(number as usize * 7) % FAMILIES.len()];
    let long = LONG.contains(&family.0);
    let full = if long { family.0 == "chain" && number % 64 == 12 } else { number % 9 == 0 };
    let m = match (full, long) {
        (true, _) => 16384,
        (_, true) => 500 + r.below(1000),
        _ => 1000 + r.below(5000),
    };
    let n = r.of(&[0, 1, 3, 8]);
    let mut set = with(family, m, n, r);
    set.angle_step = if long { r.of(&[45.0, 30.0]) } else { r.between(0.5, 45.0) };
    if long {
        set.radius_step = 0.25;
    }
    set
}

const FAR: [f32; 12] = [f32::MAX, -f32::MAX, 3e38, -1e38, 1e30, -1e20, 1e15, 2e11, -1e10, 0.0, -0.0, 1.0];
const TINY: [f32; 8] = [1e-45, -1e-45, 1e-38, 1e-30, -1e-20, 0.0, -0.0, 1e-10];

fn moved(p: [f32; 3], r: &mut Random) -> [f32; 3] {
    let mut q = p;
    let axis = r.below(3);
    let bits = q[axis].to_bits() as i64 + r.below(9) as i64 - 4;
    let v = f32::from_bits(bits.clamp(0, u32::MAX as i64) as u32);
    q[axis] = if v.is_finite() { v } else { q[axis] };
    q
}

/// A query for a loaded set: on, near and between its points, far outside, at the origin, overflowing, any finite bits.
pub fn query(points: &[f32], r: &mut Random) -> [f32; 3] {
    let mut at = || {
        let i = r.below(points.len() / 3);
        [points[3 * i], points[3 * i + 1], points[3 * i + 2]]
    };
    let (p, o) = (at(), at());
    let scale = r.of(&[0.5, 2.0, 10.0, 1e3, 1e10, 1e20, 1e30, 0.999, 1.001]);
    let q = match r.below(13) {
        0 => p,
        1 => moved(p, r),
        2 => {
            let wide = r.of(&[1e-8, 1e-7, 1e-6, 2e-6, 1e-5, 1e-4]);
            p.map(|v| v + (r.unit() - 0.5) * wide)
        }
        3 => [(p[0] + o[0]) * 0.5, (p[1] + o[1]) * 0.5, (p[2] + o[2]) * 0.5],
        4 => {
            let d = (p[0] * p[0] + p[1] * p[1] + p[2] * p[2]).sqrt() * r.between(0.1, 3.0);
            direction(r).map(|v| v * d)
        }
        5 | 6 => p.map(|v| v * scale),
        7 => [0, 0, 0].map(|_: i32| r.of(&[0.0, -0.0])),
        8 => [r.of(&FAR), r.of(&FAR), r.of(&FAR)],
        9 => [r.of(&TINY), r.of(&TINY), r.of(&TINY)],
        10 => [0, 0, 0].map(|_: i32| (r.below(9) as f32 - 4.0) * 0.5),
        11 => direction(r),
        _ => [0, 0, 0].map(|_: i32| f32::from_bits(r.next() as u32)),
    };
    q.map(|v| if v.is_finite() { v } else { 1.0 })
}

/// A list for the conversions, from Cartesian (0) or spherical (1).
pub fn loose(kind: u32, count: usize, r: &mut Random) -> Vec<f32> {
    let one = |i: usize| match (kind, r.below(3), i % 3) {
        (0, 0, _) => r.of(&EDGES),
        (0, 1, _) => r.between(-10000.0, 10000.0),
        (0, _, _) => r.between(-2.0, 2.0),
        (_, 0, 2) => r.of(&RADII),
        (_, _, 2) => r.between(0.0, 10000.0),
        (_, 0, _) => r.of(&ANGLES),
        (_, _, _) => r.between(-720.0, 720.0),
    };
    (0..count).map(one).collect()
}
