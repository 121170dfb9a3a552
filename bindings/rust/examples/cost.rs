// SPDX-License-Identifier: MIT OR Apache-2.0
//! What the floating-point environment costs beside a call: the archive's `sofa_find` and `sofa_root` as they are, by this crate, and by it in a
//! thread that flushes to zero. The ways take turns in one process, and the least time of each is printed. Build it with `--release`.
use sofa::ffi::{self, Found, Lookup, Sizes, Tree};
use sofa::{Description, Kind, Set};
use std::hint::black_box;
use std::time::Instant;

const QUERIES: usize = 1000;
const ROUNDS: usize = 301;

extern "C" {
    fn sofa_root(x: f32) -> f32;
    fn sofa_find(
        sizes: Sizes,
        lookup: Lookup,
        cartesian: *const f32,
        cartesian_count: usize,
        left: *const u16,
        left_count: usize,
        right: *const u16,
        right_count: usize,
        x: f32,
        y: f32,
        z: f32,
    ) -> Found;
}

/// As `sofa::ffi::find`, but for the environment.
#[inline(never)]
fn find_alone(sizes: Sizes, lookup: Lookup, t: Tree, [x, y, z]: [f32; 3]) -> Found {
    let (c, l, r) = (t.positions.as_ptr(), t.left.as_ptr(), t.right.as_ptr());
    // SAFETY: pointers and counts of shared slices, only read.
    unsafe { sofa_find(sizes, lookup, c, t.positions.len(), l, t.left.len(), r, t.right.len(), x, y, z) }
}

/// As `sofa::ffi::root`, but for the environment.
#[inline(never)]
fn root_alone(x: f32) -> f32 {
    // SAFETY: a number by value.
    unsafe { sofa_root(x) }
}

/// Nanoseconds for each call, if the thread flushes to zero meanwhile or not.
fn timed(flush: bool, calls: &mut dyn FnMut()) -> f64 {
    let host = if flush { flushing(None) } else { 0 };
    let start = Instant::now();
    calls();
    let took = start.elapsed();
    if flush {
        flushing(Some(host));
    }
    took.as_nanos() as f64 / QUERIES as f64
}

/// Puts flush-to-zero in force, or back what was there; answers what was there.
#[cfg(target_arch = "x86_64")]
fn flushing(back: Option<u64>) -> u64 {
    use std::arch::asm;
    let mut host = 0u32;
    // SAFETY: the four bytes of a local, and bits that each processor has.
    unsafe { asm!("stmxcsr [{}]", in(reg) std::ptr::addr_of_mut!(host), options(nostack)) };
    let register = back.map_or(host | 0x8040, |b| b as u32);
    unsafe { asm!("ldmxcsr [{}]", in(reg) std::ptr::addr_of!(register), options(nostack)) };
    u64::from(host)
}

#[cfg(target_arch = "aarch64")]
fn flushing(back: Option<u64>) -> u64 {
    use std::arch::asm;
    let host: u64;
    // SAFETY: a register that every thread may read and write.
    unsafe { asm!("mrs {}, fpcr", out(reg) host, options(nostack)) };
    unsafe { asm!("msr fpcr, {}", in(reg) back.unwrap_or(host | 1 << 24), options(nostack)) };
    host
}

/// The ways take turns; the least of each.
fn compare(name: &str, alone: &mut dyn FnMut(), crate_: &mut dyn FnMut()) {
    let mut least = [f64::MAX; 3];
    for _ in 0..ROUNDS {
        let round = [timed(false, alone), timed(false, crate_), timed(true, crate_)];
        least.iter_mut().zip(round).for_each(|(l, t)| *l = l.min(t));
    }
    let [alone, here, flushed] = least;
    println!(
        "{name}: alone {alone:.1} ns, by this crate {here:.1} ns ({:.3}), where the host flushes {flushed:.1} ns ({:.3})",
        here / alone,
        flushed / alone
    );
}

fn main() {
    let mut state = 1u32;
    let mut next = move || {
        state = state.wrapping_mul(1664525).wrapping_add(1013904223);
        (state >> 8) as f32 / (1 << 24) as f32
    };
    for m in [1000, 4000, 16384] {
        let mut sphere = |count: usize| -> Vec<f32> {
            let mut triplets: Vec<f32> = (0..count).flat_map(|_| [360.0 * next(), (2.0 * next() - 1.0).asin().to_degrees(), 1.5]).collect();
            sofa::to_cartesian(&mut triplets).expect("angles and radii that are allowed");
            triplets
        };
        let described = Description { kind: Kind::CARTESIAN, m, n: 0, angle_step: 45.0, rate: 48000.0, ..Description::default() };
        let index = Set::load(described, &sphere(m), [], []).expect("a set that is allowed").into_index();
        let (sizes, queries) = (Sizes { m, c: 3, r: 2, n: 0 }, sphere(QUERIES));
        let tree = Tree { positions: &index.cartesian, left: &index.left, right: &index.right };
        let each = |find: fn(Sizes, Lookup, Tree, [f32; 3]) -> Found| {
            for q in queries.chunks_exact(3) {
                black_box(find(sizes, index.lookup.into(), tree, [q[0], q[1], q[2]]));
            }
        };
        compare(&format!("find, M={m}"), &mut || each(find_alone), &mut || each(ffi::find));
    }
    let numbers: Vec<f32> = (0..QUERIES).map(|_| next()).collect();
    let each = |root: fn(f32) -> f32| {
        for &x in &numbers {
            black_box(root(x));
        }
    };
    compare("root", &mut || each(root_alone), &mut || each(ffi::root));
}
