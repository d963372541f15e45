//! Safe calls of the proved root finder: the roots of polynomials over GF(2^m), m = 4, 8 or 11, of affine ones of any
//! degree, claims of roots checked and made, the block corrector and encoder, salvage of job files, and a writer of
//! their records. include/locator.h says what each call does; here a refusal is an error, a list is a slice, and what
//! is given back is typed. No call allocates, calls out or keeps state.
//!
//! ```
//! use locator::{Field, ROOTS};
//!
//! // z^3 + 7z + 6 in the field of 16 elements, the constant first
//! let (mut list, mut mults) = ([0; ROOTS], [0; ROOTS]);
//! let found = Field::Four.solve(&[6, 7, 0, 1], 1, &mut list, &mut mults)?;
//! assert_eq!(found.roots.distinct, [1, 2, 3]);
//! assert_eq!(found.steps, 4);
//! # Ok::<(), locator::Refusal>(())
//! ```
//!
//! A field is a [`Field`], whose methods cannot be refused under 1, or a number m for the functions of the same names.
#![cfg_attr(not(feature = "std"), no_std)]
#![warn(missing_docs)]

use core::fmt;

mod face;
mod field;
pub use field::Field;

/// The version, that of include/locator.h.
pub const VERSION: &str = env!("CARGO_PKG_VERSION");

/// The slots of a new work table.
pub const SLOTS: usize = 196;
/// The slots of a work table that was stored when polynomials had a degree of at most 32: [`step`] and [`finish`] take
/// it too.
pub const STORED_SLOTS: usize = 100;
/// The fewest slots of a root list.
pub const ROOTS: usize = 64;
/// The most coefficients of a polynomial.
pub const COEFFICIENTS: usize = 65;
/// Slots that are enough for the roots of an affine polynomial in any field.
pub const ELEMENTS: usize = 2048;
/// The bytes of a word of the block corrector and encoder.
pub const WORD: usize = 256;
/// The most bytes of a record that [`write()`] makes.
pub const RECORD: usize = 135;

/// Why an input is turned away, under its number (docs/RULES.md section 8). Numbers that no call of this crate can
/// give are not here: 11 and 12 are of job records, and 21 is of a convention that there is not, which a
/// [`Convention`] cannot be.
#[derive(Clone, Copy, Debug, PartialEq, Eq)]
#[repr(u16)]
pub enum Refusal {
    /// There is no field of this degree.
    Field = 1,
    /// There are no coefficients.
    Empty = 2,
    /// There are more than 65 coefficients, or more than 64 roots of a record.
    Long = 3,
    /// An element, a coefficient or a root is 2^m or more.
    Element = 4,
    /// Every coefficient is 0.
    AllZero = 5,
    /// The cutoff is above 3.
    Cutoff = 6,
    /// The root list has under 64 slots (of an affine polynomial under 2^m), the table has not 196 (for step and
    /// finish: nor 100), or the room for a salvaged file or a record is shorter than that.
    Room = 7,
    /// The table is not sound.
    Unsound = 8,
    /// The first factor above the cutoff has level m, or the steps are at their limit.
    Stuck = 9,
    /// The table is not done.
    NotDone = 10,
    /// An inverse or a position of 0.
    OfZero = 13,
    /// An affine polynomial has not m coefficients.
    Count = 20,
    /// The word has not 256 bytes, or its last bit is set.
    Block = 22,
    /// The strength is not 1 to 8.
    Strength = 23,
    /// No codeword is within the strength.
    Far = 24,
    /// The roots of a record are not strictly ascending.
    Order = 25,
}

impl Refusal {
    /// Its number (docs/RULES.md section 8.3).
    pub fn number(self) -> u16 {
        self as u16
    }

    /// The refusal of a number of these calls.
    pub fn from_number(number: u16) -> Option<Refusal> {
        use Refusal::*;
        [
            Field, Empty, Long, Element, AllZero, Cutoff, Room, Unsound, Stuck, NotDone, OfZero,
            Count, Block, Strength, Far, Order,
        ]
        .into_iter()
        .find(|r| r.number() == number)
    }

    /// What it means: the text that `locator_reason` gives in C.
    pub fn reason(self) -> &'static str {
        use Refusal::*;
        match self {
            Field => "there is no field of this degree",
            Empty => "there are no coefficients",
            Long => "there are more than 65 coefficients, or 64 roots of a record",
            Element => "an element, a coefficient or a root is 2^m or more",
            AllZero => "every coefficient is 0",
            Cutoff => "the cutoff is above 3",
            Room => "a buffer is too small, or a table has neither 196 nor 100 slots",
            Unsound => "the table is not sound",
            Stuck => "the table cannot be stepped",
            NotDone => "the table is not done",
            OfZero => "0 has no inverse and no position",
            Count => "an affine polynomial has not m coefficients",
            Block => "the word has not 256 bytes, or its last bit is set",
            Strength => "the strength is not 1 to 8",
            Far => "no codeword is within the strength",
            Order => "the roots of a record are not strictly ascending",
        }
    }
}

/// The reason, and the number in brackets.
///
/// ```
/// let refusal = locator::inverse(11, 0).unwrap_err();
/// assert_eq!(refusal.to_string(), "0 has no inverse and no position (13)");
/// ```
impl fmt::Display for Refusal {
    fn fmt(&self, f: &mut fmt::Formatter) -> fmt::Result {
        write!(f, "{} ({})", self.reason(), self.number())
    }
}

#[cfg(feature = "std")]
impl std::error::Error for Refusal {}

/// What an outcome's number says. The contracts admit no other number.
fn accepted(outcome: u16) -> Result<(), Refusal> {
    match outcome {
        0 => Ok(()),
        k => Err(Refusal::from_number(k).expect("a number that no call gives")),
    }
}

/// How a locator is built from the bad bits, with X = 2^place for each: this says which place a root stands for. The C
/// face takes it as a number and refuses any but 0 and 1 under 21. A value of this type is one of the two, so refusal
/// 21 cannot be met through this crate.
#[derive(Clone, Copy, Debug, PartialEq, Eq)]
#[repr(u16)]
pub enum Convention {
    /// Goppa codes: the product of (z + X), whose roots are the X. The root 2^j stands for place j.
    Goppa = 0,
    /// Recorders: the product of (1 + X z), whose roots are the inverses of the X. The root 2^j stands for place
    /// (2^m - 1 - j) modulo (2^m - 1), so that j = 0 stays 0.
    Recorders = 1,
}

/// The distinct roots of a quadratic, the lower first.
#[derive(Clone, Copy, Debug, PartialEq, Eq)]
pub enum Pair {
    /// No root.
    None,
    /// One root, double.
    Double(u16),
    /// Two roots.
    Two(u16, u16),
}

/// The distinct roots of a polynomial, ascending, and the multiplicity of each at the same place: the fronts of the two
/// lists that were lent.
#[derive(Clone, Copy, Debug, PartialEq, Eq)]
pub struct Roots<'a> {
    /// The roots, each once.
    pub distinct: &'a [u16],
    /// How often each is a root.
    pub multiplicities: &'a [u16],
}

impl<'a> Roots<'a> {
    /// Each root r with its multiplicity, the largest e for which (z + r)^e divides the polynomial.
    pub fn pairs(self) -> impl Iterator<Item = (u16, u16)> + 'a {
        self.distinct
            .iter()
            .copied()
            .zip(self.multiplicities.iter().copied())
    }
}

/// What the whole call finds: the roots, and the number of steps.
#[derive(Clone, Copy, Debug, PartialEq, Eq)]
pub struct Solved<'a> {
    /// The distinct roots, with their multiplicities.
    pub roots: Roots<'a>,
    /// How many splitting steps there are at this cutoff.
    pub steps: u16,
}

/// The roots of an affine polynomial: none, or one of them plus each element of a space over two values. That there is
/// none differs from a space of dimension 0, which is one root.
#[derive(Clone, Copy, Debug, PartialEq, Eq)]
pub enum Space<'a> {
    /// No root.
    None,
    /// 2^dimension roots, ascending, at the front of the list that was lent.
    Roots {
        /// Of the space that the roots differ by; 0 where there is one root.
        dimension: u16,
        /// The roots.
        roots: &'a [u16],
    },
}

impl<'a> Space<'a> {
    /// The roots, ascending: an empty slice where there is none.
    pub fn roots(self) -> &'a [u16] {
        match self {
            Space::None => &[],
            Space::Roots { roots, .. } => roots,
        }
    }
}

/// A claim about a polynomial f: its roots, ascending, and beside each its multiplicity; the cofactor h that is left
/// of f without them; and u and v with u h + v w = 1, where w is the remainder of z^(2^m) + z by h, or 0 if h is
/// constant.
#[derive(Clone, Copy, Debug, PartialEq, Eq)]
pub struct Claim<'a> {
    /// The roots.
    pub roots: &'a [u16],
    /// Their multiplicities.
    pub multiplicities: &'a [u16],
    /// What is left of f.
    pub h: &'a [u16],
    /// The factor of h in the sum that is 1.
    pub u: &'a [u16],
    /// The factor of w in it.
    pub v: &'a [u16],
}

/// Room for a claim: lists of at least [`ROOTS`] slots, and polynomials of at least [`COEFFICIENTS`].
#[derive(Debug)]
pub struct Buffers<'a> {
    /// For the roots.
    pub roots: &'a mut [u16],
    /// For their multiplicities.
    pub multiplicities: &'a mut [u16],
    /// For the cofactor.
    pub h: &'a mut [u16],
    /// For u.
    pub u: &'a mut [u16],
    /// For v.
    pub v: &'a mut [u16],
}

/// What a step does.
#[derive(Clone, Copy, Debug, PartialEq, Eq)]
pub enum Step {
    /// The first factor above the cutoff was replaced.
    Taken,
    /// There is none; nothing was written.
    Done,
}

/// The value of an element call.
fn value(v: face::Value) -> Result<u16, Refusal> {
    accepted(v.outcome).map(|()| v.value)
}

/// The product of a and b in the field of degree m.
pub fn product(m: u16, a: u16, b: u16) -> Result<u16, Refusal> {
    value(face::product(m, a, b))
}

/// The inverse of a.
pub fn inverse(m: u16, a: u16) -> Result<u16, Refusal> {
    value(face::inverse(m, a))
}

/// The position of a root r of a locator: the place, from 0 to 2^m - 2, where the bad bit stands. The places of a
/// polynomial's roots are those of bad bits only where it has as many distinct roots as its degree: see [`solve`].
pub fn position(m: u16, r: u16, convention: Convention) -> Result<u16, Refusal> {
    value(face::position(m, r, convention as u16))
}

/// The roots of z^2 + az + b.
pub fn quadratic(m: u16, a: u16, b: u16) -> Result<Pair, Refusal> {
    let p = face::quadratic(m, a, b);
    accepted(p.outcome).map(|()| match p.count {
        0 => Pair::None,
        1 => Pair::Double(p.lower),
        _ => Pair::Two(p.lower, p.upper),
    })
}

/// All distinct roots with their multiplicities, by splitting along the trace. A decoder must compare their number
/// with the degree of its locator: a polynomial is, up to a constant factor, the locator of a set of places exactly
/// if it has as many distinct roots as its degree, none of them 0. With fewer the word has more bad bits than its
/// code corrects, and the places mean nothing.
pub fn solve<'a>(
    m: u16,
    coeffs: &[u16],
    cutoff: u16,
    roots: &'a mut [u16],
    mults: &'a mut [u16],
) -> Result<Solved<'a>, Refusal> {
    let found = face::solve(m, coeffs, cutoff, roots, mults);
    accepted(found.outcome)?;
    Ok(Solved {
        roots: fronts(roots, mults, found.count.into()),
        steps: found.steps,
    })
}

/// All distinct roots with their multiplicities, by trying every element.
pub fn search<'a>(
    m: u16,
    coeffs: &[u16],
    roots: &'a mut [u16],
    mults: &'a mut [u16],
) -> Result<Roots<'a>, Refusal> {
    let found = face::search(m, coeffs, roots, mults);
    accepted(found.outcome)?;
    Ok(fronts(roots, mults, found.count.into()))
}

/// The fronts of two lists.
fn fronts<'a>(roots: &'a [u16], mults: &'a [u16], count: usize) -> Roots<'a> {
    Roots {
        distinct: &roots[..count],
        multiplicities: &mults[..count],
    }
}

/// The roots of the affine polynomial `constant + coeffs[0] z + coeffs[1] z^2 + coeffs[2] z^4 + ..` up to
/// z^(2^(m-1)): m coefficients, whose degree may be 1024. No element is tried. The list has at least 2^m slots,
/// however few the roots are ([`ELEMENTS`] is enough in any field); those behind the last root are not written. All
/// zeros give the entire field.
///
/// ```
/// // z^2 + z + 6 in the field of 16 elements: its two roots differ by 1
/// let mut list = [0; locator::ELEMENTS];
/// let space = locator::affine(4, &[1, 1, 0, 0], 6, &mut list)?;
/// assert_eq!(space.roots(), [2, 3]);
/// # Ok::<(), locator::Refusal>(())
/// ```
pub fn affine<'a>(
    m: u16,
    coeffs: &[u16],
    constant: u16,
    roots: &'a mut [u16],
) -> Result<Space<'a>, Refusal> {
    let space = face::affine(m, coeffs, constant, roots);
    accepted(space.outcome)?;
    Ok(match space.count {
        0 => Space::None,
        count => Space::Roots {
            dimension: space.dimension,
            roots: &roots[..count.into()],
        },
    })
}

/// Begins a work table of [`SLOTS`] slots.
pub fn begin(m: u16, coeffs: &[u16], cutoff: u16, table: &mut [u16]) -> Result<(), Refusal> {
    accepted(face::begin(m, coeffs, cutoff, table))
}

/// One step of a work table of [`SLOTS`] or [`STORED_SLOTS`] slots.
pub fn step(table: &mut [u16]) -> Result<Step, Refusal> {
    let stepped = face::step(table);
    accepted(stepped.outcome).map(|()| {
        if stepped.done == 0 {
            Step::Taken
        } else {
            Step::Done
        }
    })
}

/// The roots of a work table that is done, of [`SLOTS`] or [`STORED_SLOTS`] slots.
pub fn finish<'a>(table: &[u16], roots: &'a mut [u16]) -> Result<&'a [u16], Refusal> {
    let found = face::finish(table, roots);
    accepted(found.outcome)?;
    Ok(&roots[..found.count.into()])
}

/// The block corrector.
///
/// ```
/// // zeros are a codeword; two of its bits are wrong
/// let mut word = [0; locator::WORD];
/// word[3] = 0b1001;
/// assert_eq!(locator::correct(2, &mut word), Ok(2));
/// assert_eq!(word, [0; locator::WORD]);
/// ```
///
/// Makes the word the codeword of this strength, 1 to 8, that differs from it in at most so many
/// bits, and tells how many it flipped. `Refusal::Far` is given exactly if there is none; a refusal writes nothing.
pub fn correct(strength: u16, word: &mut [u8]) -> Result<u16, Refusal> {
    let corrected = face::correct(strength, word);
    accepted(corrected.outcome).map(|()| corrected.flips)
}

/// The block encoder: makes the word the codeword of this strength, 1 to 8, that has its data, the bits from 11 t on,
/// and tells how many check bits it wrote in front of them, 11 t. There is exactly one such codeword, whatever the
/// check bits held; a refusal writes nothing.
///
/// ```
/// let mut word = [0; locator::WORD];
/// word[200..204].copy_from_slice(b"data");
/// assert_eq!(locator::encode(8, &mut word)?, 88);
/// let kept = word;
/// word[17] ^= 1;
/// word[201] ^= 64;
/// assert_eq!((locator::correct(8, &mut word)?, word), (2, kept));
/// # Ok::<(), locator::Refusal>(())
/// ```
pub fn encode(strength: u16, word: &mut [u8]) -> Result<u16, Refusal> {
    let encoded = face::encode(strength, word);
    accepted(encoded.outcome).map(|()| encoded.checks)
}

/// Whether a partner's claim about f is right: what is accepted is the complete list of the roots of f, with their
/// multiplicities. Nothing is searched, and the partner need not be trusted.
pub fn check(m: u16, f: &[u16], claim: Claim) -> Result<bool, Refusal> {
    let checked = face::check(m, f, claim);
    accepted(checked.outcome).map(|()| checked.accepted != 0)
}

/// Makes the claim about f, which [`check`] accepts: the fronts of the buffers. What is behind them is not written.
///
/// ```
/// use locator::{check, prove, Buffers, Claim, COEFFICIENTS, ROOTS};
/// let (mut roots, mut mults) = ([0; ROOTS], [0; ROOTS]);
/// let (mut h, mut u, mut v) = ([0; COEFFICIENTS], [0; COEFFICIENTS], [0; COEFFICIENTS]);
/// let buffers = Buffers { roots: &mut roots, multiplicities: &mut mults, h: &mut h, u: &mut u, v: &mut v };
/// let claim = prove(4, &[6, 7, 0, 1], buffers)?;
/// assert!(check(4, &[6, 7, 0, 1], claim)?);
/// let short = Claim { roots: &[1, 2], multiplicities: &[1, 1], ..claim };
/// assert!(!check(4, &[6, 7, 0, 1], short)?);
/// # Ok::<(), locator::Refusal>(())
/// ```
pub fn prove<'a>(m: u16, f: &[u16], mut buffers: Buffers<'a>) -> Result<Claim<'a>, Refusal> {
    let proved = face::prove(m, f, &mut buffers);
    accepted(proved.outcome)?;
    let Buffers {
        roots,
        multiplicities,
        h,
        u,
        v,
    } = buffers;
    let count: usize = proved.count.into();
    Ok(Claim {
        roots: &roots[..count],
        multiplicities: &multiplicities[..count],
        h: &h[..COEFFICIENTS],
        u: &u[..COEFFICIENTS],
        v: &v[..COEFFICIENTS],
    })
}

/// Salvage of a damaged job file: the records that can be kept, unaltered and in order, at the front of `kept`, which
/// must be as long as the file. What is behind them is not written.
pub fn salvage<'a>(file: &[u8], kept: &'a mut [u8]) -> Result<&'a [u8], Refusal> {
    let salvaged = face::salvage(file, kept);
    accepted(salvaged.outcome)?;
    Ok(&kept[..salvaged.length])
}

/// The job record of a field, a cutoff and 0 to 64 strictly ascending roots, at the front of `room` ([`RECORD`] bytes
/// are enough for any): its polynomial is the monic one with exactly these roots, each simple. What is behind it is
/// not written.
///
/// ```
/// let mut room = [0; locator::RECORD];
/// let record = locator::write(4, 1, &[1, 2, 3], &mut room)?;
/// assert_eq!(record, [0x4C, 0x52, 4, 1, 4, 6, 0, 7, 0, 0, 0, 1, 0]);
/// # Ok::<(), locator::Refusal>(())
/// ```
pub fn write<'a>(
    m: u16,
    cutoff: u16,
    roots: &[u16],
    room: &'a mut [u8],
) -> Result<&'a [u8], Refusal> {
    let written = face::write(m, cutoff, roots, room);
    accepted(written.outcome)?;
    Ok(&room[..written.length.into()])
}
