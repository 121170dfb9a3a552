// SPDX-License-Identifier: MIT OR Apache-2.0
//! The deepest tree that there can be, one chain of 16384 places, fits a thread with the stack that `sofa::stack` gives for any call.
use sofa::{stack, Description, Index, Lookup, Set};

#[test]
fn a_chain_of_all() {
    const M: usize = 16384;
    const OWN: usize = 128 << 10; // the thread's and the test's own frames
    let index = Index {
        lookup: Lookup { radius_max: 2.0 * M as f32, ..Lookup::default() },
        left: vec![65535; M],
        right: (1..M as u16).chain([65535]).collect(),
        neighbours: vec![65535; 6 * M],
        cartesian: (0..M).flat_map(|i| [i as f32; 3]).collect(),
        ..Index::default()
    };
    let described = Description { m: M, n: 0, rate: 48000.0, ..Description::default() };
    let set: Set<Vec<f32>> = Set::with_index(described, index, vec![], vec![]);
    let ask = move || (set.find([16000.25; 3]).map(|f| f.number), set.filter([16000.25; 3], &mut [], &mut []).is_ok());
    let asked = std::thread::Builder::new().stack_size(stack::ANY + OWN).spawn(ask).unwrap();
    assert_eq!(asked.join().unwrap(), (Ok(16000), true));
}

/// One figure in all documents: 352 bytes a level, 5.6 MiB for any call. Those of the header are compared in layouts.rs.
#[test]
fn the_figures() {
    assert_eq!((stack::LEVEL, stack::LOAD), (352, 352));
    let tenths = stack::ANY as f64 * 10.0 / (1 << 20) as f64;
    assert_eq!(tenths.ceil(), 56.0);
}
