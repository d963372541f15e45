//! Claims of roots, made and checked.
use locator::{check, prove, Buffers, Claim, Refusal, COEFFICIENTS, ROOTS};

/// Slots of everything that a claim needs.
#[derive(Clone)]
struct Slots {
    lists: [[u16; ROOTS]; 2],
    polynomials: [[u16; COEFFICIENTS]; 3],
}

impl Slots {
    fn new() -> Slots {
        Slots {
            lists: [[7; ROOTS]; 2],
            polynomials: [[7; COEFFICIENTS]; 3],
        }
    }

    fn buffers(&mut self) -> Buffers<'_> {
        let [roots, multiplicities] = &mut self.lists;
        let [h, u, v] = &mut self.polynomials;
        Buffers {
            roots,
            multiplicities,
            h,
            u,
            v,
        }
    }
}

/// z^2 (z + 1)^2 (z^2 + z + 8) in field 4: the last factor has no root.
const F: [u16; 7] = [0, 0, 8, 1, 9, 1, 1];

#[test]
fn what_is_made_is_accepted() {
    let mut slots = Slots::new();
    let claim = prove(4, &F, slots.buffers()).unwrap();
    assert_eq!(claim.roots, [0, 1]);
    assert_eq!(claim.multiplicities, [2, 2]);
    assert_eq!(check(4, &F, claim), Ok(true));
}

#[test]
fn slips_are_turned_away() {
    let mut slots = Slots::new();
    let claim = prove(4, &F, slots.buffers()).unwrap();
    let dropped = Claim {
        roots: &claim.roots[1..],
        multiplicities: &claim.multiplicities[1..],
        ..claim
    };
    assert_eq!(check(4, &F, dropped), Ok(false));
    let raised = Claim {
        multiplicities: &[2, 3],
        ..claim
    };
    assert_eq!(check(4, &F, raised), Ok(false));
    let swapped = Claim {
        u: claim.v,
        v: claim.u,
        ..claim
    };
    assert_eq!(check(4, &F, swapped), Ok(false));
    let unpaired = Claim {
        multiplicities: &[2],
        ..claim
    };
    assert_eq!(check(4, &F, unpaired), Ok(false));
}

#[test]
fn refusals() {
    let mut slots = Slots::new();
    let claim = prove(4, &F, slots.buffers()).unwrap();
    assert_eq!(check(5, &F, claim), Err(Refusal::Field));
    assert_eq!(check(4, &F, Claim { u: &[], ..claim }), Err(Refusal::Empty));
    assert_eq!(
        check(
            4,
            &F,
            Claim {
                h: &[0; COEFFICIENTS + 1],
                ..claim
            }
        ),
        Err(Refusal::Long)
    );
    assert_eq!(
        check(
            4,
            &F,
            Claim {
                roots: &[0, 16],
                ..claim
            }
        ),
        Err(Refusal::Element)
    );
    assert_eq!(check(4, &[0, 0], claim), Err(Refusal::AllZero));
    let mut others = Slots::new();
    let before = others.clone();
    assert_eq!(prove(4, &[0], others.buffers()), Err(Refusal::AllZero));
    let mut short = others.buffers();
    short.v = &mut [];
    assert_eq!(prove(4, &F, short), Err(Refusal::Room));
    assert_eq!(
        (others.lists, others.polynomials),
        (before.lists, before.polynomials)
    );
}
