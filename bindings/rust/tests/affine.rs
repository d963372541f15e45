//! Affine polynomials through the safe crate: the roots by evaluation at every element, every refusal and their
//! order, and what is written and what is not.
use locator::*;

const FIELDS: [(u16, usize); 3] = [(4, 16), (8, 256), (11, 2048)];

/// The value at x: the constant and the sum of c x^(2^i), by products alone.
fn value(m: u16, coeffs: &[u16], constant: u16, x: u16) -> u16 {
    let mut power = x;
    let mut sum = constant;
    for &c in coeffs {
        sum ^= product(m, c, power).unwrap();
        power = product(m, power, power).unwrap();
    }
    sum
}

/// Numbers below a bound, the same at every run.
fn numbers(seed: u32, below: usize) -> impl FnMut() -> u16 {
    let mut x = seed;
    move || {
        x = x.wrapping_mul(1664525).wrapping_add(1013904223);
        (x as usize >> 8) as u16 % below as u16
    }
}

#[test]
fn the_roots_are_those_of_every_element_tried_and_the_rest_is_not_written() {
    for (m, size) in FIELDS {
        let mut draw = numbers(m.into(), size);
        for number in 0..24 {
            let terms = if number % 3 == 0 { 2 } else { m };
            let coeffs: Vec<u16> = (0..m).map(|i| if i < terms { draw() } else { 0 }).collect();
            let constant = value(m, &coeffs, if number % 2 == 0 { 0 } else { draw() }, draw());
            let every: Vec<u16> = (0..size as u16)
                .filter(|&x| value(m, &coeffs, constant, x) == 0)
                .collect();
            let mut list = vec![999; size + 3];
            match affine(m, &coeffs, constant, &mut list).unwrap() {
                Space::None => assert!(every.is_empty()),
                Space::Roots { dimension, roots } => {
                    assert_eq!(roots, every);
                    assert_eq!(roots.len(), 1 << dimension);
                }
            }
            assert!(list[every.len()..].iter().all(|&x| x == 999));
        }
    }
}

#[test]
fn zeros_give_the_entire_field_and_beside_a_constant_none() {
    for (m, size) in FIELDS {
        let (zeros, mut list) = (vec![0; m.into()], [999; ELEMENTS]);
        let all: Vec<u16> = (0..size as u16).collect();
        let space = affine(m, &zeros, 0, &mut list).unwrap();
        assert_eq!(
            space,
            Space::Roots {
                dimension: m,
                roots: &all
            }
        );
        let mut list = [999; ELEMENTS];
        assert_eq!(affine(m, &zeros, 1, &mut list), Ok(Space::None));
        assert_eq!(list, [999; ELEMENTS]);
    }
}

#[test]
fn one_root_differs_from_none() {
    let mut list = [999; 16];
    let one = affine(4, &[0, 1, 0, 0], 2, &mut list).unwrap();
    assert_eq!(
        one,
        Space::Roots {
            dimension: 0,
            roots: &[5]
        }
    );
    assert_eq!(affine(4, &[1, 1, 0, 0], 8, &mut list), Ok(Space::None));
    assert_eq!(Space::None.roots(), &[] as &[u16]);
}

#[test]
fn the_whole_call_finds_the_same_within_its_limit() {
    let (mut list, mut short, mut mults) = ([0; ELEMENTS], [0; ROOTS], [0; ROOTS]);
    for constant in 0..2048 {
        let mut dense = [0; COEFFICIENTS];
        (dense[0], dense[1], dense[2], dense[16], dense[64]) = (constant, 7, 1000, 3, 1);
        let coeffs = [7, 1000, 0, 0, 3, 0, 1, 0, 0, 0, 0];
        let space = affine(11, &coeffs, constant, &mut list).unwrap();
        let whole = solve(11, &dense, 2, &mut short, &mut mults).unwrap();
        assert_eq!(space.roots(), whole.roots.distinct);
    }
}

#[test]
fn every_refusal_stands_in_its_order_and_writes_nothing() {
    let mut list = [999; ELEMENTS];
    let good = [1; 11];
    let large = [1, 1, 1, 2048, 1, 1, 1, 1, 1, 1, 1];
    let calls: [(u16, &[u16], u16, usize, Refusal); 9] = [
        (10, &good[..10], 1, 2048, Refusal::Field),
        (12, &[2048], 2048, 0, Refusal::Field),
        (11, &good[..10], 1, 2048, Refusal::Count),
        (11, &[1; 12], 1, 2048, Refusal::Count),
        (11, &[], 2048, 0, Refusal::Count),
        (11, &large, 1, 2048, Refusal::Element),
        (11, &good, 2048, 2047, Refusal::Element),
        (11, &good, 1, 2047, Refusal::Room),
        (11, &good, 2, 0, Refusal::Room),
    ];
    for (m, coeffs, constant, room, refusal) in calls {
        assert_eq!(affine(m, coeffs, constant, &mut list[..room]), Err(refusal));
        assert_eq!(list, [999; ELEMENTS]);
    }
    assert_eq!(affine(11, &good, 2, &mut list), Ok(Space::None));
    assert_eq!(list, [999; ELEMENTS]);
}
