// SPDX-License-Identifier: MIT OR Apache-2.0
//! Whatever floating-point environment a host has in force, the answers are the same bits, and the host's environment is as it was.
//! tests/environment.c says the same of a C host.
use sofa::ffi::Value;
use sofa::{Description, Kind, Reason, Refusal, Set, Tree};

/// What a host may have in force. The first `CHANGED` change answers; the others trap, make NaNs one, or only have flags raised.
#[cfg(target_arch = "x86_64")]
mod host {
    pub const HOSTS: [(&str, u64); 9] = [
        ("flush-to-zero, denormals-are-zero", 0x9fc0),
        ("flush-to-zero", 0x9f80),
        ("denormals-are-zero", 0x1fc0),
        ("down", 0x3f80),
        ("up", 0x5f80),
        ("toward zero", 0x7f80),
        ("exceptions not masked", 0x0000),
        ("all of these", 0xe040),
        ("flags raised before", 0x1fbf),
    ];
    pub const CHANGED: usize = 6;

    pub fn get() -> u64 {
        let mut register = 0u32;
        unsafe { std::arch::asm!("stmxcsr [{}]", in(reg) std::ptr::addr_of_mut!(register), options(nostack)) };
        u64::from(register)
    }

    pub fn set(register: u64) {
        let register = register as u32;
        unsafe { std::arch::asm!("ldmxcsr [{}]", in(reg) std::ptr::addr_of!(register), options(nostack)) };
    }
}

/// FPCR, and above it FPSR: the calls raise flags there, which must be gone again.
#[cfg(target_arch = "aarch64")]
mod host {
    pub const HOSTS: [(&str, u64); 7] = [
        ("flush-to-zero", 1 << 24),
        ("up", 1 << 22),
        ("down", 2 << 22),
        ("toward zero", 3 << 22),
        ("one NaN", 1 << 25),
        ("all of these, and a flag raised before", 1 << 32 | 0x3c00000),
        ("flags raised before", 0x0800009f << 32),
    ];
    pub const CHANGED: usize = 4;

    pub fn get() -> u64 {
        let (control, status): (u64, u64);
        unsafe { std::arch::asm!("mrs {}, fpcr", "mrs {}, fpsr", out(reg) control, out(reg) status, options(nostack)) };
        status << 32 | control
    }

    pub fn set(registers: u64) {
        let (control, status) = (registers & 0xffffffff, registers >> 32);
        unsafe { std::arch::asm!("msr fpcr, {}", "msr fpsr, {}", in(reg) control, in(reg) status, options(nostack)) };
    }
}

/// Does something in a host's environment. No arithmetic may stand in it but that of the calls.
fn within<T>(register: u64, done: impl FnOnce() -> T) -> T {
    let start = host::get();
    host::set(register);
    let answer = done();
    host::set(start);
    answer
}

const M: usize = 64;
const N: usize = 3;

/// What is asked, made beforehand.
struct Asked {
    numbers: Vec<f32>,
    angles: Vec<f32>,
    spherical: Vec<f32>,
    /// Ordinary ones, some whose squares are below what is not subnormal, and some that are subnormal themselves.
    cartesian: [Vec<f32>; 3],
    responses: Vec<f32>,
    delays: Vec<f32>,
}

fn asked() -> Asked {
    let mut state = 1u32;
    let mut next = || {
        state = state.wrapping_mul(1664525).wrapping_add(1013904223);
        state
    };
    let mut list = |count: usize, unit: f32| -> Vec<f32> { (0..count).map(|_| ((next() >> 12) as f32 - 524288.0) * unit).collect() };
    let power = |e: i32| 2f32.powi(e);
    let mut spherical = list(3 * M, power(-12));
    spherical.iter_mut().skip(2).step_by(3).for_each(|radius| *radius = radius.abs() / 64.0);
    let cartesian = [power(-18), power(-90), f32::from_bits(1)].map(|unit| list(3 * M, unit));
    let (mut responses, angles, delays) = (list(M * 2 * N, power(-18)), list(400, power(-16)), list(2 * M, power(-10)));
    responses.iter_mut().step_by(3).for_each(|tap| *tap = f32::from_bits(tap.to_bits() & 0x807fffff));
    let numbers = (0..800).map(|i| f32::from_bits(if i % 2 == 0 { next() } else { next() & 0x807fffff })).collect();
    Asked { numbers, angles, spherical, cartesian, responses, delays }
}

/// The answers as bits, and whether the host's environment was there after each call.
struct Kept {
    host: u64,
    back: bool,
    bits: Vec<u32>,
}

impl Kept {
    fn keep(&mut self, bits: impl IntoIterator<Item = u32>) {
        self.back &= host::get() == self.host;
        self.bits.extend(bits);
    }

    fn keep_all(&mut self, values: &[f32]) {
        self.keep(values.iter().map(|x| x.to_bits()));
    }

    fn keep_refused<T>(&mut self, answer: Result<T, Refusal>, bits: impl FnOnce(T) -> Vec<u32>) {
        match answer {
            Ok(told) => self.keep(bits(told)),
            Err(refusal) => self.keep([u32::MAX, refusal.reason.number(), refusal.place as u32]),
        }
    }

    fn numbers(&mut self, asked: &Asked) {
        let one = |x: f32| vec![x.to_bits()];
        for pair in asked.numbers.chunks_exact(2) {
            self.keep([sofa::root(pair[0]).to_bits(), sofa::root(pair[1]).to_bits()]);
            self.keep_refused(sofa::arctangent(pair[0], pair[1]), one);
        }
        for &x in &asked.angles {
            self.keep_refused(sofa::sine(x), one);
            self.keep_refused(sofa::cosine(x), one);
        }
        for values in asked.cartesian.iter().chain([&asked.spherical]) {
            let (mut there, mut back) = (values.clone(), values.clone());
            self.keep_refused(sofa::to_spherical(&mut there), |()| vec![]);
            self.keep_refused(sofa::to_cartesian(&mut back), |()| vec![]);
            self.keep_all(&there);
            self.keep_all(&back);
        }
    }

    fn trees(&mut self, asked: &Asked) {
        for points in &asked.cartesian {
            let mut tree = Tree::new();
            let (inside, outside) = points.split_at(3 * M / 2);
            for (number, p) in inside.chunks_exact(3).enumerate() {
                self.keep_refused(tree.insert([p[0], p[1], p[2]], number as u16), |()| vec![]);
            }
            for q in outside.chunks_exact(3) {
                self.keep_refused(tree.nearest([q[0], q[1], q[2]]), |n| vec![n.map_or(0, |n| u32::from(n.number))]);
            }
        }
    }

    fn sets(&mut self, asked: &Asked) {
        let described = Description { m: M, n: N, angle_step: 5.0, radius_step: 0.25, rate: 44100.0, ..Description::default() };
        for (kind, positions) in asked.cartesian.iter().map(|p| (Kind::CARTESIAN, p)).chain([(Kind::SPHERICAL, &asked.spherical)]) {
            match Set::load(Description { kind, ..described }, positions, &asked.responses, &asked.delays) {
                Ok(set) => self.set(&set, asked),
                Err(refusal) => self.keep([u32::MAX, refusal.reason.number()]),
            }
        }
    }

    fn set(&mut self, set: &Set<&Vec<f32>>, asked: &Asked) {
        let index = set.index();
        self.keep_all(&index.cartesian);
        self.keep([&index.left, &index.right, &index.neighbours].into_iter().flatten().map(|&n| u32::from(n)));
        let (l, b) = (index.lookup, index.lookup.bounds);
        self.keep_all(&[b.min_x, b.min_y, b.min_z, b.max_x, b.max_y, b.max_z]);
        self.keep_all(&[l.phi_min, l.phi_max, l.theta_min, l.theta_max, l.radius_min, l.radius_max]);
        let told = |f: sofa::Filtered| vec![f.points() as u32, f.delays().left.0.to_bits(), f.delays().right.0.to_bits()];
        let (mut left, mut right) = ([0.0; N], [0.0; N + 1]);
        for q in asked.cartesian.iter().flat_map(|list| list.chunks_exact(3)) {
            let mut at = [q[0], q[1], q[2]];
            self.keep_refused(set.find(at), |f| vec![f.number as u32]);
            self.keep_refused(set.filter_nointerp(at, &mut left, &mut right), told);
            self.keep_all(&left);
            self.keep_refused(set.filter(at, &mut left, &mut right), told);
            self.keep_all(&left);
            self.keep_all(&right);
            self.keep_refused(set.find_mut(&mut at), |f| vec![f.number as u32]);
            self.keep_all(&at);
        }
        for number in 0..M + 1 {
            self.keep_refused(set.filter_number(number, &mut left, &mut right), told);
            self.keep_refused(set.left_response(number), |taps| taps.iter().map(|x| x.to_bits()).collect());
            self.keep_refused(set.right_response(number), |taps| taps.iter().map(|x| x.to_bits()).collect());
            self.keep_refused(set.neighbors_of(number), |around| vec![around.phi_plus.map_or(0, |n| n as u32)]);
        }
        self.keep_refused(set.max_delay(), |seconds| vec![seconds.0.to_bits()]);
    }
}

fn answers(asked: &Asked) -> Kept {
    let mut kept = Kept { host: host::get(), back: true, bits: vec![] };
    kept.numbers(asked);
    kept.trees(asked);
    kept.sets(asked);
    kept
}

#[test]
fn the_same_bits_in_every_environment() {
    let asked = asked();
    let wanted = answers(&asked).bits;
    for (name, register) in host::HOSTS {
        let kept = within(register, || answers(&asked));
        assert_eq!(kept.bits.len(), wanted.len(), "{name}");
        let differ = kept.bits.iter().zip(&wanted).filter(|(a, b)| a != b).count();
        assert_eq!(differ, 0, "{name}: of {} answers", wanted.len());
        assert!(kept.back, "{name}: the host's environment was not there after a call");
    }
}

/// What a thread that flushes would lose: a refusal, the nearer of two, a root.
#[test]
fn what_would_be_lost() {
    let two = Description { m: 2, n: 0, rate: 48000.0, ..Description::default() };
    let ask = || {
        let below = Set::load(Description { kind: Kind::SPHERICAL, ..two }, &[0.0, 0.0, 1.0, 0.0, 0.0, -1e-40], [], []).map(|_| ());
        let close = Set::load(Description { kind: Kind::CARTESIAN, ..two }, &[0.0, 0.0, 0.0, 1e-22, 0.0, 0.0], [], []);
        (below, close.and_then(|set| set.find([1e-22, 0.0, 0.0])).map(|f| f.number), sofa::root(1e-40).to_bits())
    };
    let wanted = (Err(Refusal::new(Reason::Position, 5)), Ok(1), 1e-40f32.sqrt().to_bits());
    assert_eq!(ask(), wanted);
    for (name, register) in host::HOSTS {
        assert_eq!(within(register, ask), wanted, "{name}");
    }
}

extern "C" {
    fn sofa_root(x: f32) -> f32;
    fn sofa_max_delay(delays: *const f32, count: usize, rate: f32) -> Value;
}

/// The archive as it is, without the crate: were its answers the same in every environment, the tests above could not fail.
#[test]
fn the_archive_alone_goes_by_the_host() {
    // SAFETY: a number by value.
    let root = || unsafe { sofa_root(1e-40) };
    // SAFETY: pointer and count of one array.
    let longest = |delay: f32| unsafe { sofa_max_delay([delay].as_ptr(), 1, 44100.0) }.value;
    let alone = || [root(), longest(1e-37), longest(1.0), longest(2.0), longest(3.0), longest(5.0)].map(f32::to_bits);
    let wanted = alone();
    for (name, register) in host::HOSTS.into_iter().take(host::CHANGED) {
        assert_ne!(within(register, alone), wanted, "{name}");
    }
}
