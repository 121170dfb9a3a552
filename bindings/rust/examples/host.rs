// SPDX-License-Identifier: MIT OR Apache-2.0
//! The C host of `examples/host.c` in Rust: loads a set of two measurements, asks a blended, an exact and a refused query, and prints the same.
use sofa::{Coordinates, Description, Filtered, Kind, Refusal, Set};

const POSITIONS: [f32; 6] = [1.0, 0.0, 0.0, -1.0, 0.0, 0.0];

fn load(kind: Kind) -> Result<Set<Vec<f32>>, Refusal> {
    let described = Description { kind, m: 2, n: 1, rate: 48000.0, ..Description::default() };
    Set::load(described, &POSITIONS, vec![0.5, 0.25, 1.0, 0.0], vec![375.0, 0.0])
}

fn ask(set: &Set<Vec<f32>>, at: Coordinates) -> Result<(), Refusal> {
    let (mut left, mut right) = ([0.0], [0.0]);
    let told = match set.filter(at, &mut left, &mut right) {
        Ok(told) => told,
        Err(refusal) => {
            println!("refused {} at {}, samples {} {}", refusal.reason.number(), refusal.place, left[0], right[0]);
            return Ok(());
        }
    };
    let (how, delays) = match told {
        Filtered::Exact { delays, .. } => ("exact", delays),
        Filtered::Blended { delays, .. } => ("blended", delays),
    };
    let (points, nearest) = (told.points(), set.find(at)?.number);
    println!("{how} of {points}, nearest {nearest}: left {} right {}, delays {} {} s", left[0], right[0], delays.left.0, delays.right.0);
    Ok(())
}

fn main() -> Result<(), Refusal> {
    let set = load(Kind::CARTESIAN)?;
    ask(&set, [2.0, 0.0, 0.0])?;
    ask(&set, [1.0, 0.0, 0.0])?;
    ask(&set, [0.0, f32::NAN, 0.0])?;
    if let Err(refusal) = load(Kind(7)) {
        println!("a load of kind 7 is refused {} at {}", refusal.reason.number(), refusal.place);
    }
    Ok(())
}
