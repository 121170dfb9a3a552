// SPDX-License-Identifier: MIT OR Apache-2.0
//! Borrowed responses, no delays: which of two measurements is nearer to a point on the left.
use sofa::{Description, Kind, Refusal, Set};

fn main() -> Result<(), Refusal> {
    let described = Description { kind: Kind::SPHERICAL, m: 2, n: 2, rate: 44100.0, ..Description::default() };
    let responses = [0.0, 1.0, 2.0, 3.0, 4.0, 5.0, 6.0, 7.0];
    let set = Set::load(described, &[0.0, 0.0, 1.5, 90.0, 0.0, 1.5], &responses, [])?;
    let nearest = set.find([0.5, 2.0, 0.0])?.number;
    println!("nearest {nearest}, its right taps {:?}", set.right_response(nearest)?);
    Ok(())
}
