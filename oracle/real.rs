//! A measured set that oracle/real.c wrote.

pub struct Real {
    pub m: usize,
    pub r: usize,
    pub n: usize,
    pub kind: u32,
    pub positions: Vec<f32>,
    pub responses: Vec<f32>,
    pub delays: Vec<f32>,
    pub rate: f32,
}

pub fn read(path: &str) -> Real {
    let bytes = std::fs::read(path).expect("the set that oracle/real.c wrote");
    let mut words = bytes.chunks_exact(4).map(|w| u32::from_le_bytes(w.try_into().unwrap()));
    let mut word = || words.next().expect("the set is whole");
    let [m, r, n, kind, responses, delays] = std::array::from_fn(|_| word());
    let mut list = |count: u32| (0..count).map(|_| f32::from_bits(word())).collect::<Vec<f32>>();
    let (positions, responses, delays, rate) = (list(3 * m), list(responses), list(delays), list(1)[0]);
    Real { m: m as usize, r: r as usize, n: n as usize, kind, positions, responses, delays, rate }
}
