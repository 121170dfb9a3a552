//! The sets that are timed, and the queries.

pub struct Random(pub u64);

impl Random {
    fn next(&mut self) -> u64 {
        // splitmix64
        self.0 = self.0.wrapping_add(0x9e37_79b9_7f4a_7c15);
        let mut z = self.0;
        z = (z ^ (z >> 30)).wrapping_mul(0xbf58_476d_1ce4_e5b9);
        z = (z ^ (z >> 27)).wrapping_mul(0x94d0_49bb_1331_11eb);
        z ^ (z >> 31)
    }

    /// From -1 up to 1.
    pub fn signed(&mut self) -> f32 {
        (self.next() >> 40) as f32 / (1u64 << 23) as f32 - 1.0
    }

    fn direction(&mut self) -> [f32; 3] {
        loop {
            let p = [self.signed(), self.signed(), self.signed()];
            let d = (p[0] * p[0] + p[1] * p[1] + p[2] * p[2]).sqrt();
            if d > 0.01 && d <= 1.0 {
                return p.map(|v| v / d);
            }
        }
    }
}

/// A set with two receivers and a delay for each.
#[derive(Clone)]
pub struct Set {
    pub name: &'static str,
    pub kind: u32,
    pub m: usize,
    pub n: usize,
    pub positions: Vec<f32>,
    pub responses: Vec<f32>,
    pub delays: Vec<f32>,
    pub angle_step: f32,
    pub radius_step: f32,
    pub rate: f32,
}

fn with(name: &'static str, kind: u32, positions: Vec<f32>) -> Set {
    let m = positions.len() / 3;
    let delays = (0..2 * m).map(|i| (i % 37) as f32).collect();
    Set { name, kind, m, n: 0, positions, responses: Vec::new(), delays, angle_step: 0.5, radius_step: 0.01, rate: 48000.0 }
}

impl Set {
    pub fn taps(mut self, n: usize) -> Set {
        self.n = n;
        self.responses = (0..self.m * 2 * n).map(|i| ((i * 7919 % 1000) as f32 - 500.0) / 300.0).collect();
        self
    }
}

/// The measured set that oracle/real.c wrote to $SOFA_MEASURED, where there is one.
pub fn measured() -> Option<Set> {
    let crate::real::Real { m, n, kind, positions, responses, delays, rate, .. } = crate::real::read(&std::env::var("SOFA_MEASURED").ok()?);
    Some(Set { name: "measured", kind, m, n, positions, responses, delays, angle_step: 0.5, radius_step: 0.01, rate })
}

/// Directions at random, one radius.
pub fn sphere(m: usize) -> Set {
    let mut r = Random(m as u64);
    with("sphere", 0, (0..m).flat_map(|_| r.direction()).collect())
}

/// Every 5 degrees of azimuth and elevation, both poles 72 times over; as many shells, 0.25 apart, as m asks.
pub fn grid(m: usize) -> Set {
    let one = |i: usize| {
        let (shell, at) = (i / 2664, i % 2664);
        [(at % 72) as f32 * 5.0, (at / 72) as f32 * 5.0 - 90.0, 1.0 + 0.25 * shell as f32]
    };
    with("grid", 1, (0..m).flat_map(one).collect())
}

/// Sorted along a line: the tree is one chain. Wide steps, or a load would ask half of the chain for each of hundreds of steps.
pub fn chain(m: usize) -> Set {
    let mut set = with("chain", 0, (0..m).flat_map(|i| [1.0 + i as f32 * 0.001; 3]).collect());
    (set.angle_step, set.radius_step) = (45.0, 1.0);
    set
}

/// Between and around the points of a set of radius 1: some are drawn to the measured radii.
pub fn queries(count: usize, seed: u64) -> Vec<[f32; 3]> {
    let mut r = Random(seed);
    (0..count)
        .map(|_| {
            let radius = 1.25 + r.signed() * 0.75;
            r.direction().map(|v| v * radius)
        })
        .collect()
}
