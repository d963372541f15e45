//! Each call through the safe crate: values, every refusal, and what is written and what is not.
use locator::*;

const CUBIC: [u16; 4] = [6, 7, 0, 1];

#[test]
fn products_and_inverses_agree() {
    for (m, size) in [(4, 16), (8, 256), (11, 2048)] {
        for a in 1..size {
            assert_eq!(product(m, a, inverse(m, a).unwrap()), Ok(1));
        }
    }
}

#[test]
fn positions_are_exponents_of_two_and_mirrored_for_recorders() {
    for (m, size) in [(4, 16), (8, 256), (11, 2048)] {
        let mut power = 1;
        for j in 0..size - 1 {
            let mirrored = if j == 0 { 0 } else { size - 1 - j };
            assert_eq!(position(m, power, Convention::Goppa), Ok(j));
            assert_eq!(position(m, power, Convention::Recorders), Ok(mirrored));
            power = product(m, power, 2).unwrap();
        }
        assert_eq!(power, 1);
    }
}

/// The product of the factors c + dz, constant first.
fn multiplied(m: u16, factors: &[(u16, u16)]) -> Vec<u16> {
    let mut f = vec![1];
    for &(c, d) in factors {
        f.push(0);
        for i in (0..f.len()).rev() {
            let below = if i == 0 { 0 } else { f[i - 1] };
            f[i] = product(m, f[i], c).unwrap() ^ product(m, below, d).unwrap();
        }
    }
    f
}

#[test]
fn a_locator_gives_back_its_places_under_its_convention() {
    let places = [0, 17, 300, 1024, 2046];
    let bits: Vec<u16> = places
        .iter()
        .map(|&j| (0..j).fold(1, |x, _| product(11, x, 2).unwrap()))
        .collect();
    let goppa: Vec<_> = bits.iter().map(|&x| (x, 1)).collect();
    let recorders: Vec<_> = bits.iter().map(|&x| (1, x)).collect();
    for (factors, convention) in [
        (goppa, Convention::Goppa),
        (recorders, Convention::Recorders),
    ] {
        let (mut list, mut mults) = ([0; ROOTS], [0; ROOTS]);
        let found = solve(11, &multiplied(11, &factors), 2, &mut list, &mut mults).unwrap();
        let mut given: Vec<u16> = found
            .roots
            .distinct
            .iter()
            .map(|&r| position(11, r, convention).unwrap())
            .collect();
        given.sort();
        assert_eq!(given, places);
    }
}

#[test]
fn quadratics_have_none_a_double_or_two_roots() {
    assert_eq!(quadratic(4, 1, 8), Ok(Pair::None));
    assert_eq!(quadratic(4, 0, 2), Ok(Pair::Double(5)));
    assert_eq!(quadratic(4, 1, 6), Ok(Pair::Two(2, 3)));
    assert_eq!(quadratic(4, 0, 0), Ok(Pair::Double(0)));
}

#[test]
fn the_engines_agree_and_write_the_roots_only() {
    let (mut list, mut mults) = ([999; ROOTS + 8], [888; ROOTS + 8]);
    let (mut seen, mut counted) = ([999; ROOTS + 8], [888; ROOTS + 8]);
    let roots = Roots {
        distinct: &[1, 2, 3],
        multiplicities: &[1, 1, 1],
    };
    let found = solve(4, &CUBIC, 1, &mut list, &mut mults).unwrap();
    assert_eq!(found, Solved { roots, steps: 4 });
    assert_eq!(search(4, &CUBIC, &mut seen, &mut counted), Ok(roots));
    assert_eq!((list, mults), (seen, counted));
    assert!(list[3..].iter().all(|&x| x == 999));
    assert!(mults[3..].iter().all(|&x| x == 888));
}

#[test]
fn repeated_roots_have_their_multiplicity() {
    let shapes: [&[(u16, u16)]; 4] = [
        &[(7, 64)],
        &[(0, 2), (3, 3)],
        &[(1, 1), (5, 32), (9, 31)],
        &[(0, 63), (2, 1)],
    ];
    for m in [4, 8, 11] {
        for shape in shapes {
            let factors: Vec<(u16, u16)> = shape
                .iter()
                .flat_map(|&(r, e)| (0..e).map(move |_| (r, 1)))
                .collect();
            let coeffs = multiplied(m, &factors);
            let (mut list, mut mults) = ([0; ROOTS], [0; ROOTS]);
            let found = solve(m, &coeffs, 2, &mut list, &mut mults).unwrap();
            assert_eq!(found.roots.pairs().collect::<Vec<_>>(), shape);
            let (mut list, mut mults) = ([0; ROOTS], [0; ROOTS]);
            let seen = search(m, &coeffs, &mut list, &mut mults).unwrap();
            assert_eq!(seen.pairs().collect::<Vec<_>>(), shape);
        }
    }
}

#[test]
fn steps_until_done_give_the_whole_call() {
    for (cutoff, steps) in [(1, 4), (2, 3), (3, 0)] {
        let (mut table, mut list) = ([7; SLOTS], [0; ROOTS]);
        begin(4, &CUBIC, cutoff, &mut table).unwrap();
        let mut taken = 0;
        while step(&mut table) == Ok(Step::Taken) {
            taken += 1;
        }
        assert_eq!((taken, table[3]), (steps, steps));
        assert_eq!(finish(&table, &mut list), Ok(&[1, 2, 3][..]));
        assert_eq!(
            solve(4, &CUBIC, cutoff, &mut [0; ROOTS], &mut [0; ROOTS])
                .unwrap()
                .steps,
            steps
        );
    }
}

#[test]
fn a_stored_table_is_stepped_and_finished_under_its_own_limit() {
    let mut table = [0; STORED_SLOTS];
    table[..9].copy_from_slice(&[4, 1, 1, 0, 0, 3, 6, 7, 0]);
    let mut taken = 0;
    while step(&mut table) == Ok(Step::Taken) {
        taken += 1;
    }
    assert_eq!(taken, 4);
    assert_eq!(finish(&table, &mut [0; 32]), Err(Refusal::Room));
    assert_eq!(finish(&table, &mut [0; ROOTS]), Ok(&[1, 2, 3][..]));
    for (degree, slots, outcome) in [
        (32, STORED_SLOTS, Ok(Step::Taken)),
        (33, STORED_SLOTS, Err(Refusal::Unsound)),
        (64, SLOTS, Ok(Step::Taken)),
        (65, SLOTS, Err(Refusal::Unsound)),
    ] {
        let mut table = vec![0; slots];
        table[..6].copy_from_slice(&[11, 3, 1, 0, 0, degree]);
        assert_eq!(step(&mut table), outcome, "degree {degree}, {slots} slots");
    }
}

#[test]
fn every_refusal_has_its_number_and_writes_nothing() {
    let (mut list, mut mults) = ([999; ROOTS], [888; ROOTS]);
    let calls: [(u16, &[u16], u16); 6] = [
        (1120, &CUBIC, 2),
        (4, &[], 2),
        (4, &[1; COEFFICIENTS + 1], 2),
        (4, &[16, 1], 2),
        (4, &[0, 0], 2),
        (4, &CUBIC, 4),
    ];
    for (i, (m, coeffs, cutoff)) in calls.into_iter().enumerate() {
        assert_eq!(
            solve(m, coeffs, cutoff, &mut list, &mut mults)
                .unwrap_err()
                .number(),
            i as u16 + 1
        );
        assert_eq!((list, mults), ([999; ROOTS], [888; ROOTS]));
    }
    for (room, mult_room) in [(63, 64), (64, 63), (32, 32)] {
        let (roots, mults) = (&mut list[..room], &mut mults[..mult_room]);
        assert_eq!(solve(4, &CUBIC, 2, roots, mults), Err(Refusal::Room));
        assert_eq!(search(4, &CUBIC, roots, mults), Err(Refusal::Room));
    }
    for slots in [99, STORED_SLOTS, 101, 195, 197] {
        let mut table = vec![0; slots];
        assert_eq!(begin(4, &CUBIC, 2, &mut table), Err(Refusal::Room));
        if slots != STORED_SLOTS {
            assert_eq!(step(&mut table), Err(Refusal::Room));
            assert_eq!(finish(&table, &mut list), Err(Refusal::Room));
        }
    }
    assert_eq!(step(&mut [0; SLOTS]), Err(Refusal::Unsound));
    assert_eq!(step(&mut [0; STORED_SLOTS]), Err(Refusal::Unsound));
    let mut stuck = [0; SLOTS];
    stuck[..8].copy_from_slice(&[4, 1, 1, 0, 4, 2, 1, 1]);
    assert_eq!(step(&mut stuck), Err(Refusal::Stuck));
    assert_eq!(finish(&stuck, &mut list), Err(Refusal::NotDone));
    for convention in [Convention::Goppa, Convention::Recorders] {
        assert_eq!(position(5, 16, convention), Err(Refusal::Field));
        assert_eq!(position(4, 16, convention), Err(Refusal::Element));
        assert_eq!(position(4, 0, convention), Err(Refusal::OfZero));
    }
    assert_eq!((list, mults), ([999; ROOTS], [888; ROOTS]));
}

#[test]
fn salvage_keeps_what_can_be_kept() {
    let good = [0x4C, 0x52, 4, 1, 4, 6, 0, 7, 0, 0, 0, 1, 0];
    let unknown_field = [0x4C, 0x52, 5, 1, 1, 1, 0];
    let file = [&good[..], &unknown_field, &good, &[0x4C]].concat();
    let mut kept = [99; 40];
    assert_eq!(salvage(&file, &mut kept[..33]), Err(Refusal::Room));
    assert_eq!(kept, [99; 40]);
    let back = salvage(&file, &mut kept).unwrap().to_vec();
    assert_eq!(back, [good, good].concat());
    assert_eq!(kept[26..], [99; 14]);
    assert_eq!(salvage(&back, &mut kept), Ok(&back[..]));
    assert_eq!(salvage(&[], &mut []), Ok(&[][..]));
}

/// The coefficients of a record.
fn coefficients(record: &[u8]) -> Vec<u16> {
    record[5..]
        .chunks(2)
        .map(|c| u16::from(c[0]) | u16::from(c[1]) << 8)
        .collect()
}

#[test]
fn a_written_record_gives_its_roots_back() {
    for (m, most, step) in [(4, 16, 1), (8, 64, 3), (11, 64, 32)] {
        for n in 0..=most {
            let roots: Vec<u16> = (0..n).map(|k| k * step).collect();
            let factors: Vec<(u16, u16)> = roots.iter().map(|&r| (r, 1)).collect();
            let mut room = [99; RECORD + 5];
            let record = write(m, n % 4, &roots, &mut room).unwrap().to_vec();
            let head = [0x4C, 0x52, m as u8, (n % 4) as u8, n as u8 + 1];
            assert_eq!(record[..5], head);
            assert_eq!(coefficients(&record), multiplied(m, &factors));
            assert!(room[record.len()..].iter().all(|&b| b == 99));
            let mut kept = [0; RECORD];
            assert_eq!(salvage(&record, &mut kept), Ok(&record[..]));
            let (mut list, mut mults) = ([0; ROOTS], [0; ROOTS]);
            let found = solve(m, &coefficients(&record), n % 4, &mut list, &mut mults).unwrap();
            assert_eq!(found.roots.distinct, roots);
            assert!(found.roots.multiplicities.iter().all(|&e| e == 1));
        }
    }
}

#[test]
fn the_refusals_of_a_record_stand_in_their_order_and_write_nothing() {
    let many: Vec<u16> = (0..=ROOTS as u16).rev().collect();
    let calls: [(u16, u16, &[u16], usize, Refusal); 9] = [
        (260, 9, &many, 0, Refusal::Field),
        (8, 9, &many, 0, Refusal::Long),
        (11, 9, &[2048, 1], 0, Refusal::Element),
        (4, 0, &[1, 16], RECORD, Refusal::Element),
        (4, 9, &[2, 1], 0, Refusal::Order),
        (4, 0, &[1, 1], RECORD, Refusal::Order),
        (4, 4, &[1, 2], 0, Refusal::Cutoff),
        (4, 3, &[1, 2], 10, Refusal::Room),
        (4, 3, &[], 6, Refusal::Room),
    ];
    let mut room = [99; RECORD];
    for (m, cutoff, roots, bytes, refusal) in calls {
        assert_eq!(write(m, cutoff, roots, &mut room[..bytes]), Err(refusal));
        assert_eq!(room, [99; RECORD]);
    }
    let good = [0x4C, 0x52, 4, 1, 4, 6, 0, 7, 0, 0, 0, 1, 0];
    assert_eq!(write(4, 1, &[1, 2, 3], &mut room[..13]), Ok(&good[..]));
    assert_eq!(room[13..], [99; RECORD - 13]);
}

#[test]
fn numbers_and_refusals_are_one_to_one() {
    let known: Vec<u16> = (0..100)
        .filter(|&k| Refusal::from_number(k).is_some())
        .collect();
    assert_eq!(
        known,
        [1, 2, 3, 4, 5, 6, 7, 8, 9, 10, 13, 20, 22, 23, 24, 25]
    );
    assert!(known
        .iter()
        .all(|&k| Refusal::from_number(k).unwrap().number() == k));
}
