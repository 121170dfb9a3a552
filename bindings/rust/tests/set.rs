// SPDX-License-Identifier: MIT OR Apache-2.0
//! Known answers: a load, a blended, an exact and a refused query, and the calls by number.
use sofa::{Description, Filtered, Kind, Neighbors, Reason, Refusal, Seconds, Set, Tree};
use std::sync::Arc;

const POSITIONS: [f32; 6] = [1.0, 0.0, 0.0, -1.0, 0.0, 0.0];
static RESPONSES: [f32; 4] = [0.5, 0.25, 1.0, 0.0];
const DELAYS: [f32; 2] = [375.0, 0.0];

fn described(kind: Kind, m: usize, n: usize) -> Description {
    Description { kind, m, n, rate: 48000.0, ..Description::default() }
}

fn two() -> Set<&'static [f32]> {
    Set::load(described(Kind::CARTESIAN, 2, 1), &POSITIONS, &RESPONSES[..], &DELAYS[..]).unwrap()
}

fn both(seconds: f32) -> [Seconds; 2] {
    [Seconds(seconds); 2]
}

/// Whether it is exact, its points, its delays.
fn parts(told: Result<Filtered, Refusal>) -> Result<(bool, usize, [Seconds; 2]), Refusal> {
    told.map(|f| (f.is_exact(), f.points(), [f.delays().left, f.delays().right]))
}

fn six(n: Neighbors) -> [Option<usize>; 6] {
    [n.phi_plus, n.phi_minus, n.theta_plus, n.theta_minus, n.radius_plus, n.radius_minus]
}

/// The worked case of document 01's query program.
#[test]
fn a_blended_query() {
    let (mut left, mut right) = ([9.0; 1], [9.0; 1]);
    let told = two().filter([2.0, 0.0, 0.0], &mut left, &mut right);
    assert_eq!(parts(told), Ok((false, 1, both(0.0078125))));
    assert_eq!((left, right), ([0.5], [0.25]));
}

#[test]
fn an_exact_query() {
    let (mut left, mut right) = ([9.0; 3], [9.0; 0]);
    let told = two().filter([-1.0, 0.0, 0.0], &mut left, &mut right);
    assert_eq!(parts(told), Ok((true, 1, both(0.0))));
    assert_eq!(left, [1.0, 0.0, 0.0]);
}

#[test]
fn a_refused_query() {
    let (mut left, mut right) = ([9.0; 2], [9.0; 1]);
    let refusal = two().filter([0.0, f32::NAN, 0.0], &mut left, &mut right).unwrap_err();
    assert_eq!((refusal.reason, refusal.place), (Reason::NotFinite, 1));
    assert_eq!((left.map(f32::to_bits), right.map(f32::to_bits)), ([0; 2], [0; 1]));
}

/// Three points a quarter of a turn apart: the query between them is a blend of two, half and half.
#[test]
fn a_blend_of_two() {
    let wide = Description { angle_step: 45.0, radius_step: 1.0, ..described(Kind::SPHERICAL, 3, 2) };
    let positions = [0.0, 0.0, 1.0, 45.0, 0.0, 1.0, 90.0, 0.0, 1.0];
    let responses = vec![0.0, 1.0, 2.0, 3.0, 8.0, 9.0, 10.0, 11.0, 0.0, 0.0, 0.0, 0.0];
    let set = Set::load(wide, &positions, responses, vec![]).unwrap();
    let mut middle = [22.5, 0.0, 1.0];
    sofa::to_cartesian(&mut middle).unwrap();
    let (mut left, mut right) = ([9.0; 2], [9.0; 2]);
    let told = set.filter(middle, &mut left, &mut right);
    assert_eq!(parts(told), Ok((false, 2, both(0.0))));
    let near = |a: f32, b: f32| (a - b).abs() < 1e-4;
    assert!(near(left[0], 4.0) && near(left[1], 5.0) && near(right[0], 6.0) && near(right[1], 7.0), "{left:?} {right:?}");
    let plain = set.filter_nointerp(middle, &mut left, &mut right);
    assert_eq!(parts(plain), Ok((true, 1, both(0.0))));
    assert!(left == [0.0, 1.0] || left == [8.0, 9.0]);
}

#[test]
fn nearest_and_drawn_to_the_radii() {
    let set = two();
    assert_eq!(set.find([-3.0, 0.5, 0.0]).unwrap().number, 1);
    let mut at = [4.0, 0.0, 0.0];
    assert_eq!(set.find_mut(&mut at).unwrap().number, 0);
    assert_eq!(at, [1.0, 0.0, 0.0]);
    let mut bad = [0.5, 0.5, f32::INFINITY];
    assert_eq!(set.find_mut(&mut bad).unwrap_err().place, 2);
    assert_eq!(bad, [0.5, 0.5, f32::INFINITY]);
}

/// A response is a part of the list that was given, whoever owns it.
#[test]
fn responses_are_views() {
    let set = two();
    assert_eq!(set.left_response(1), Ok(&RESPONSES[2..3]));
    assert_eq!(set.right_response(1).unwrap().as_ptr(), RESPONSES[3..].as_ptr());
    let shared: Arc<[f32]> = Arc::from(&RESPONSES[..]);
    let owner = Set::load(described(Kind::CARTESIAN, 2, 1), &POSITIONS, shared.clone(), DELAYS.to_vec()).unwrap();
    assert_eq!(owner.left_response(0).unwrap().as_ptr(), shared.as_ptr());
    assert_eq!(owner.left_response(2).unwrap_err().to_string(), "there is no measurement of this number (refusal 8, place 2)");
}

#[test]
fn by_number() {
    let set = two();
    let (mut left, mut right) = ([9.0; 1], [9.0; 1]);
    assert_eq!(parts(set.filter_number(0, &mut left, &mut right)), Ok((true, 1, both(0.0078125))));
    assert_eq!((left, right), ([0.5], [0.25]));
    assert_eq!(set.max_delay(), Ok(Seconds(0.0078125)));
    assert_eq!(set.neighbors_of(0).map(six), Ok([None; 6]));
    let wide = Description { angle_step: 5.0, ..described(Kind::SPHERICAL, 3, 0) };
    let circle = Set::load(wide, &[0.0, 0.0, 1.0, 40.0, 0.0, 1.0, 320.0, 0.0, 1.0], [], []).unwrap();
    assert_eq!(circle.neighbors_of(0).map(six), Ok([Some(1), Some(2), None, None, None, None]));
}

/// What one call answers as a number the others take.
#[test]
fn one_type_of_number() {
    let wide = Description { angle_step: 5.0, ..described(Kind::SPHERICAL, 3, 1) };
    let circle = Set::load(wide, &[0.0, 0.0, 1.0, 40.0, 0.0, 1.0, 320.0, 0.0, 1.0], [0.0, 1.0, 2.0, 3.0, 4.0, 5.0], []).unwrap();
    let mut at = [3.0, 0.1, 0.0];
    let nearest = circle.find(at).unwrap().number;
    assert_eq!(circle.find_mut(&mut at).unwrap().number, nearest);
    let beside = circle.neighbors_of(nearest).unwrap().phi_minus.unwrap();
    assert_eq!((nearest, beside), (0, 2));
    assert_eq!((circle.left_response(beside), circle.right_response(beside)), (Ok(&[4.0][..]), Ok(&[5.0][..])));
    assert_eq!(circle.position(nearest), Ok([1.0, 0.0, 0.0]));
    assert_eq!(circle.find(circle.position(beside).unwrap()).unwrap().number, beside);
    assert!(circle.filter_number(beside, &mut [0.0], &mut [0.0]).is_ok());
}

/// Responses and delays may be kept in two ways, and are handed back as they were given.
#[test]
fn what_a_set_was_given() {
    let borrowed: Set<&[f32], Vec<f32>> = Set::load(described(Kind::CARTESIAN, 2, 1), &POSITIONS, &RESPONSES[..], DELAYS.to_vec()).unwrap();
    assert_eq!((borrowed.responses().as_ptr(), borrowed.responses().len()), (RESPONSES.as_ptr(), 4));
    assert_eq!((borrowed.delays(), borrowed.rate()), (&DELAYS[..], 48000.0));
    let boxed = Set::load(described(Kind::CARTESIAN, 2, 1), &POSITIONS, Box::<[f32]>::from(RESPONSES), []).unwrap();
    assert_eq!((boxed.delays(), boxed.max_delay()), (&[][..], Ok(Seconds(0.0))));
    assert_eq!((boxed.position(0), boxed.position(1)), (Ok([1.0, 0.0, 0.0]), Ok([-1.0, 0.0, 0.0])));
    assert_eq!(boxed.description(), described(Kind::CARTESIAN, 2, 1));
}

/// The steps are the source's, the receivers two; what has to be given is refused where it is not.
#[test]
fn what_is_not_described() {
    let given = described(Kind::CARTESIAN, 2, 1);
    assert_eq!((given.r, given.angle_step, given.radius_step), (2, 0.5, 0.01));
    let none = Description::default();
    let without = [
        (Reason::Kind, 255, Description { kind: none.kind, ..given }),
        (Reason::Sizes, 0, Description { m: none.m, ..given }),
        (Reason::Sizes, 0, Description { n: none.n, ..given }),
        (Reason::Rate, 0, Description { rate: none.rate, ..given }),
    ];
    assert!(Set::load(given, &POSITIONS, RESPONSES, DELAYS).is_ok());
    for (reason, place, described) in without {
        assert_eq!(Set::load(described, &POSITIONS, RESPONSES, DELAYS).unwrap_err(), Refusal::new(reason, place));
    }
}

/// A kept index stands for the load.
#[test]
fn an_index_can_be_kept() {
    let set = two();
    let again = Set::with_index(set.description(), set.clone().into_index(), RESPONSES, DELAYS);
    assert_eq!(again.index(), set.index());
    let (mut a, mut b, mut c, mut d) = ([0.0; 1], [0.0; 1], [0.0; 1], [0.0; 1]);
    for at in [[2.0, 0.0, 0.0], [0.0, 0.25, -3.0], [-1.0, 0.0, 0.0]] {
        assert_eq!(set.filter(at, &mut a, &mut b), again.filter(at, &mut c, &mut d));
        assert_eq!((a, b), (c, d));
    }
}

/// A set can be asked from several threads at once.
#[test]
fn sets_are_shared_between_threads() {
    let set = two();
    std::thread::scope(|scope| {
        for (number, x) in [1.0, -1.0].into_iter().enumerate() {
            let set = &set;
            scope.spawn(move || assert_eq!(set.find([x, 0.0, 0.0]).unwrap().number, number));
        }
    });
}

/// Document 01's examples P1 to P7.
#[test]
fn bare_trees() {
    let filled = |points: &[([f32; 3], u16)]| {
        let mut tree = Tree::new();
        for &(point, number) in points {
            tree.insert(point, number).unwrap();
        }
        tree
    };
    let number = |tree: &Tree, at| tree.nearest(at).unwrap().map(|n| n.number);
    assert_eq!(number(&filled(&[]), [0.0; 3]), None);
    let two = filled(&[([0.0; 3], 0), ([2.0, 0.0, 0.0], 1)]);
    assert_eq!(number(&two, [1.0, 0.0, 0.0]), Some(0));
    assert_eq!(number(&two, [f32::NAN, 0.0, 0.0]), Some(0));
    assert_eq!(number(&filled(&[([2.0, 0.0, 0.0], 1), ([0.0; 3], 0)]), [1.0, 0.0, 0.0]), Some(1));
    let three = filled(&[([10.0, 0.0, 0.0], 0), ([1.0, 0.0, 0.0], 1), ([-1.0, 0.0, 0.0], 2)]);
    assert_eq!(number(&three, [0.0; 3]), Some(1));
    assert_eq!(number(&filled(&[([0.0; 3], 0), ([0.0, 1.0, 0.0], 1)]), [0.0, 1.0, 0.0]), Some(1));
    assert_eq!(number(&filled(&[([3e38, 0.0, 0.0], 0), ([1e38, 0.0, 0.0], 1)]), [-3e38, 0.0, 0.0]), Some(0));
}

#[test]
fn numbers() {
    assert_eq!(sofa::root(2.0), std::f32::consts::SQRT_2);
    assert!(sofa::root(-1.0).is_nan());
    assert_eq!((sofa::sine(0.0), sofa::cosine(0.0)), (Ok(0.0), Ok(1.0)));
    assert_eq!(sofa::arctangent(1.0, 0.0), Ok(std::f32::consts::FRAC_PI_2));
    let mut values = [0.0, 2.0, 0.0, f32::NAN];
    assert_eq!(sofa::to_spherical(&mut values), Ok(()));
    assert_eq!(values[..3], [90.0, 0.0, 2.0]);
    assert!(values[3].is_nan());
}

/// Straight up and down are the ends of an answered elevation; a given one beyond them goes on over the top.
#[test]
fn elevations() {
    let mut ends = [0.0, 0.0, 2.0, 0.0, 0.0, -2.0];
    sofa::to_spherical(&mut ends).unwrap();
    assert_eq!((ends[1], ends[4]), (90.0, -90.0));
    let mut over = [0.0, 100.0, 1.0, 180.0, 80.0, 1.0];
    sofa::to_cartesian(&mut over).unwrap();
    assert!((0..3).all(|axis| (over[axis] - over[axis + 3]).abs() < 1e-6) && over[0] < -0.1, "{over:?}");
}
