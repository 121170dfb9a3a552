// SPDX-License-Identifier: MIT OR Apache-2.0
//! Each refusal, 1 to 9, with its place; and the ends of what is allowed.
use sofa::{Description, Index, Kind, Reason, Refusal, Set, Tree};

const POSITIONS: [f32; 6] = [1.0, 0.0, 0.0, 0.0, 1.0, 0.0];
const RESPONSES: [f32; 4] = [0.5, 0.25, 1.0, 0.0];

type Slices = Set<&'static [f32], [f32; 0]>;

/// What a load is given, in order until a test changes it.
struct Given {
    described: Description,
    positions: Vec<f32>,
    responses: &'static [f32],
}

fn described() -> Description {
    Description { kind: Kind::CARTESIAN, m: 2, n: 1, angle_step: 45.0, radius_step: 0.5, rate: 48000.0, ..Description::default() }
}

fn given() -> Given {
    as_described(described())
}

fn as_described(described: Description) -> Given {
    Given { described, positions: POSITIONS.to_vec(), responses: &RESPONSES }
}

impl Given {
    fn load(self) -> Result<Slices, Refusal> {
        Set::load(self.described, &self.positions, self.responses, [])
    }

    fn refused(self) -> (Reason, usize) {
        match self.load() {
            Ok(_) => panic!("not refused"),
            Err(refusal) => (refusal.reason, refusal.place),
        }
    }
}

fn told<T: std::fmt::Debug>(answer: Result<T, Refusal>) -> (Reason, usize) {
    let refusal = answer.unwrap_err();
    (refusal.reason, refusal.place)
}

#[test]
fn reason_1_the_kind() {
    for kind in [2, 7, 255, u32::MAX] {
        assert_eq!(as_described(Description { kind: Kind(kind), ..described() }).refused(), (Reason::Kind, kind as usize));
    }
}

#[test]
fn reason_2_the_sizes() {
    for spoilt in [
        Description { m: 0, ..described() },
        Description { m: 16385, ..described() },
        Description { m: usize::MAX, ..described() },
        Description { m: usize::MAX / 3 + 1, ..described() },
        Description { r: 1, ..described() },
        Description { r: 9, ..described() },
        Description { n: 8193, ..described() },
        Description { n: usize::MAX / 4 + 1, ..described() },
    ] {
        assert_eq!(as_described(spoilt).refused(), (Reason::Sizes, 0));
        let set: Slices = Set::with_index(spoilt, given().load().unwrap().into_index(), &RESPONSES, []);
        let (mut left, mut right) = ([9.0; 2], [9.0; 1]);
        assert_eq!(told(set.find([1.0, 0.0, 0.0])), (Reason::Sizes, 0));
        assert_eq!(told(set.find_mut(&mut [1.0, 0.0, 0.0])), (Reason::Sizes, 0));
        assert_eq!(told(set.filter([1.0, 0.0, 0.0], &mut left, &mut right)), (Reason::Sizes, 0));
        assert_eq!(told(set.filter_nointerp([1.0, 0.0, 0.0], &mut left, &mut right)), (Reason::Sizes, 0));
        assert_eq!(told(set.filter_number(0, &mut left, &mut right)), (Reason::Sizes, 0));
        assert_eq!(told(set.left_response(0)), (Reason::Sizes, 0));
        assert_eq!(told(set.right_response(0)), (Reason::Sizes, 0));
        assert_eq!(told(set.neighbors_of(0)), (Reason::Sizes, 0));
        assert_eq!(told(set.position(0)), (Reason::Sizes, 0));
    }
}

#[test]
fn reason_3_the_lists() {
    assert_eq!(Given { positions: vec![0.0; 5], ..given() }.refused(), (Reason::Lists, 0));
    assert_eq!(Given { positions: vec![0.0; 7], ..given() }.refused(), (Reason::Lists, 0));
    assert_eq!(Given { responses: &RESPONSES[1..], ..given() }.refused(), (Reason::Lists, 0));
    let index = given().load().unwrap().into_index();
    let short: [fn(&mut Index); 4] = [|i| i.left.truncate(1), |i| i.right.truncate(1), |i| i.cartesian.truncate(5), |i| i.neighbours.truncate(11)];
    for (which, cut) in short.iter().enumerate() {
        let mut index = index.clone();
        cut(&mut index);
        let set: Slices = Set::with_index(described(), index, &RESPONSES, []);
        let (mut left, mut right) = ([9.0; 2], [9.0; 1]);
        assert_eq!(told(set.filter([1.0, 0.0, 0.0], &mut left, &mut right)), (Reason::Lists, 0));
        assert_eq!((left, right), ([0.0; 2], [0.0; 1]));
        assert_eq!(set.find([1.0, 0.0, 0.0]).is_err(), which < 3); // it is given no neighbours
        assert_eq!(set.neighbors_of(0).is_err(), which == 3); // it is given nothing else
        assert_eq!(set.position(1).err(), Some(Refusal::new(Reason::Lists, 0)).filter(|_| which == 2));
    }
}

#[test]
fn reason_3_a_full_tree() {
    let mut tree = Tree::new();
    let mut state = 1u32;
    let mut next = || {
        state = state.wrapping_mul(1664525).wrapping_add(1013904223);
        (state >> 8) as f32
    };
    for number in 0..16384 {
        tree.insert([next(), next(), next()], number).unwrap();
    }
    let full = tree.clone();
    assert_eq!(told(tree.insert([0.0; 3], 1)), (Reason::Lists, 0));
    assert_eq!(tree, full);
    assert!(tree.nearest([0.0; 3]).unwrap().is_some());
}

#[test]
fn reason_4_a_position() {
    for (index, value) in [(0, f32::NAN), (3, 10000.001), (5, f32::NEG_INFINITY)] {
        let mut positions = POSITIONS.to_vec();
        positions[index] = value;
        assert_eq!(Given { positions, ..given() }.refused(), (Reason::Position, index));
    }
    for (index, value) in [(0, 720.00006), (1, -720.00006), (5, -1e-45)] {
        let mut positions = vec![10.0, 20.0, 1.0, 30.0, 40.0, 1.0];
        positions[index] = value;
        let before = positions.clone();
        assert_eq!(told(sofa::to_cartesian(&mut positions)), (Reason::Position, index));
        assert_eq!(positions, before);
        assert_eq!(
            Given { described: Description { kind: Kind::SPHERICAL, ..described() }, positions, ..given() }.refused(),
            (Reason::Position, index)
        );
    }
    assert_eq!(told(sofa::to_spherical(&mut [1.0, 0.0, 0.0, 0.0, 1e38, 0.0])), (Reason::Position, 4));
}

#[test]
fn reason_5_a_step() {
    let up = f32::from_bits(0x42340001); // the next above 45
    for angle_step in [up, 0.099999994, f32::NAN] {
        assert_eq!(as_described(Description { angle_step, ..described() }).refused(), (Reason::Step, 0));
    }
    for radius_step in [1.0000001, 0.0009999999, -1.0] {
        assert_eq!(as_described(Description { radius_step, ..described() }).refused(), (Reason::Step, 1));
    }
    assert_eq!(as_described(Description { angle_step: up, radius_step: 2.0, ..described() }).refused(), (Reason::Step, 0));
    assert!(as_described(Description { angle_step: 45.0, ..described() }).load().is_ok());
    assert!(as_described(Description { angle_step: 0.1, radius_step: 0.001, ..described() }).load().is_ok());
}

#[test]
fn reason_6_the_rate() {
    for rate in [999.99994, 384000.03, f32::NAN, f32::INFINITY] {
        let spoilt = Description { rate, ..described() };
        assert_eq!(as_described(spoilt).refused(), (Reason::Rate, 0));
        let set: Slices = Set::with_index(spoilt, given().load().unwrap().into_index(), &RESPONSES, []);
        let (mut left, mut right) = ([9.0; 2], [9.0; 1]);
        assert_eq!(told(set.filter([1.0, 0.0, 0.0], &mut left, &mut right)), (Reason::Rate, 0));
        assert_eq!(told(set.filter_nointerp([1.0, 0.0, 0.0], &mut left, &mut right)), (Reason::Rate, 0));
        assert_eq!(told(set.filter_number(0, &mut left, &mut right)), (Reason::Rate, 0));
        assert_eq!(told(set.max_delay()), (Reason::Rate, 0));
        assert_eq!((left, right), ([0.0; 2], [0.0; 1]));
    }
    assert!(as_described(Description { rate: 1000.0, ..described() }).load().is_ok());
    assert!(as_described(Description { rate: 384000.0, ..described() }).load().is_ok());
}

#[test]
fn reason_7_not_finite() {
    let set = given().load().unwrap();
    for axis in 0..3 {
        let mut at = [0.5; 3];
        at[axis] = f32::INFINITY;
        let (mut left, mut right) = ([9.0; 2], [9.0; 1]);
        assert_eq!(told(set.find(at)), (Reason::NotFinite, axis));
        assert_eq!(told(set.filter(at, &mut left, &mut right)), (Reason::NotFinite, axis));
        assert_eq!(told(set.filter_nointerp(at, &mut left, &mut right)), (Reason::NotFinite, axis));
        assert_eq!((left, right), ([0.0; 2], [0.0; 1]));
        let before = at;
        assert_eq!(told(set.find_mut(&mut at)), (Reason::NotFinite, axis));
        assert_eq!(at, before);
    }
    for x in [16.000002, -16.000002, f32::NAN] {
        assert_eq!(told(sofa::sine(x)), (Reason::NotFinite, 0));
        assert_eq!(told(sofa::cosine(x)), (Reason::NotFinite, 0));
    }
    assert_eq!(told(sofa::arctangent(f32::NAN, 1.0)), (Reason::NotFinite, 0));
    assert_eq!(told(sofa::arctangent(1.0, f32::INFINITY)), (Reason::NotFinite, 1));
}

#[test]
fn reason_8_the_number() {
    let set = given().load().unwrap();
    for number in [2, 65535, usize::MAX] {
        let (mut left, mut right) = ([9.0; 2], [9.0; 1]);
        assert_eq!(told(set.filter_number(number, &mut left, &mut right)), (Reason::Number, number));
        assert_eq!((left, right), ([0.0; 2], [0.0; 1]));
        assert_eq!(told(set.left_response(number)), (Reason::Number, number));
        assert_eq!(told(set.right_response(number)), (Reason::Number, number));
        assert_eq!(told(set.neighbors_of(number)), (Reason::Number, number));
        assert_eq!(told(set.position(number)), (Reason::Number, number));
    }
}

#[test]
fn reason_9_a_link() {
    let index = given().load().unwrap().into_index();
    let bad: [fn(&mut Index); 3] = [|i| i.left[0] = 0, |i| i.right[0] = 2, |i| i.neighbours[..12].fill(2)];
    for (which, spoil) in bad.iter().enumerate() {
        let mut index = index.clone();
        spoil(&mut index);
        let set: Slices = Set::with_index(described(), index, &RESPONSES, []);
        let (mut left, mut right) = ([9.0; 2], [9.0; 1]);
        let mut at = [4.0, 3.0, 0.0];
        assert_eq!(told(set.filter(at, &mut left, &mut right)), (Reason::Link, 0));
        assert_eq!((left, right), ([0.0; 2], [0.0; 1]));
        assert_eq!(set.filter_nointerp(at, &mut left, &mut right).is_err(), which < 2);
        assert_eq!(set.find_mut(&mut at).is_err(), which < 2);
        assert_eq!(at == [4.0, 3.0, 0.0], which < 2); // refused, it stays
    }
}

/// Every reason prints its number and words of its own.
#[test]
fn refusals_in_words() {
    let said = |reason, place| Refusal::new(reason, place).to_string();
    let all = [
        said(Reason::Kind, 7),
        said(Reason::Sizes, 0),
        said(Reason::Lists, 0),
        said(Reason::Position, 4),
        said(Reason::Step, 1),
        said(Reason::Rate, 0),
        said(Reason::NotFinite, 2),
        said(Reason::Number, 9),
        said(Reason::Link, 0),
    ];
    assert_eq!(all[0], "the position kind is neither 0 (cartesian) nor 1 (spherical) (refusal 1, place 7)");
    for (i, words) in all.iter().enumerate() {
        assert!(words.contains(&format!("(refusal {}, place ", i + 1)), "{words}");
        assert!(words.len() > 40 && all.iter().filter(|w| *w == words).count() == 1);
    }
    let boxed: Box<dyn std::error::Error> = Box::new(Refusal::new(Reason::Rate, 0));
    assert_eq!(boxed.to_string(), "the rate is not allowed: 1000 to 384000 (refusal 6, place 0)");
}

/// Every number is a reason, one that has no name too; 0 is none.
#[test]
fn numbers_are_reasons() {
    assert_eq!(Reason::of(0), None);
    for number in (1..=300).chain([u32::MAX]) {
        let reason = Reason::of(number).unwrap();
        assert_eq!(reason.number(), number);
        assert_eq!(matches!(reason, Reason::Unknown { .. }), number > 9);
    }
    let newer = Refusal::new(Reason::of(4711).unwrap(), 3);
    assert_eq!(newer.to_string(), "a reason that this version has no words for (refusal 4711, place 3)");
}

/// 16384 measurements on a sphere are loaded; 16385 are refused. They come in no order, so that the tree is not deep.
#[test]
fn the_greatest_set() {
    let sphere = |m: usize| -> Vec<f32> {
        let at = |k: usize| [k as f32 * 137.50777 % 360.0, (1.0 - (2.0 * k as f32 + 1.0) / m as f32).asin().to_degrees(), 1.0];
        (0..m).flat_map(|i| at(i * 7919 % m)).collect()
    };
    for m in [16384, 16385] {
        let many = Description { kind: Kind::SPHERICAL, m, n: 0, ..described() };
        let loaded = Given { described: many, positions: sphere(m), responses: &[] }.load();
        if m == 16385 {
            assert_eq!(told(loaded), (Reason::Sizes, 0));
            continue;
        }
        let set = loaded.unwrap();
        let found = |number: usize| set.find(set.position(number).unwrap()).unwrap().number;
        assert_eq!((found(0), found(m - 1)), (0, 16383));
    }
}
