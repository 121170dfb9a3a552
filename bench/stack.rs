//! The stack that a search takes: a find in chains of two lengths gives the bytes of a level.

use std::hint::black_box;

use crate::port::{Host, Lookup, Sizes};

unsafe extern "C" {
    fn stack_paint();
    fn stack_used() -> usize;
}

/// Places along a line, each linked to the next: a find beyond its end goes down all of them.
fn chain(m: usize) -> Host {
    let next = |i: usize| if i + 1 < m { i as u16 + 1 } else { 65535 };
    Host {
        kind: 0,
        sizes: Sizes { m, c: 3, r: 2, n: 0 },
        positions: Vec::new(),
        responses: Vec::new(),
        delays: Vec::new(),
        angle_step: 45.0,
        radius_step: 1.0,
        rate: 48000.0,
        left: vec![65535; m],
        right: (0..m).map(next).collect(),
        neighbours: Vec::new(),
        cartesian: (0..m).flat_map(|i| [i as f32; 3]).collect(),
        lookup: Lookup { corners: [0.0, 0.0, 0.0, m as f32, m as f32, m as f32], bounds: [0.0, 0.0, 0.0, 0.0, 0.0, 1e9] },
    }
}

#[inline(never)]
fn used(host: &Host) -> usize {
    let far = [host.sizes.m as f32; 3];
    unsafe { stack_paint() };
    assert_eq!(black_box(host.find(far)).number as usize, host.sizes.m - 1);
    unsafe { stack_used() }
}

/// A figure of the header.
fn planned(name: &str) -> usize {
    let text = include_str!("../include/sofa.h").lines().find_map(|l| l.strip_prefix(&format!("#define {name} ")));
    text.and_then(|figure| figure.trim_end_matches('u').parse().ok()).expect(name)
}

pub fn tell() {
    let (short, long) = (used(&chain(1024)), used(&chain(16384)));
    let measured = (long - short) / (16384 - 1024);
    let level = planned("SOFA_STACK_LEVEL");
    let most = ((planned("SOFA_STACK") + 16384 * level) as f64 / 104857.6).ceil() / 10.0;
    println!("To plan with are the header's figures: {level} bytes a level of the tree and {most} MiB for any call, for both machines.");
    println!("Measured in this run, on this machine alone: {measured} bytes a level of a search, and {long} bytes in all ({:.2} MiB)", long as f64 / 1048576.0);
    println!("of a `find` in a chain of 16384 places.");
}
