//! The fields as a type, so that none can be asked for that there is not.
use crate::{Buffers, Claim, Convention, Pair, Refusal, Roots, Solved, Space};

/// A field of 2^m elements. An element is a number below its [`size`](Field::size), whose bits are coefficients.
///
/// ```
/// use locator::{Field, Refusal};
/// assert_eq!(Field::try_from(11), Ok(Field::Eleven));
/// assert_eq!(Field::try_from(5), Err(Refusal::Field));
/// assert_eq!(Field::Eight.size(), 256);
/// ```
#[derive(Clone, Copy, Debug, PartialEq, Eq, Hash, PartialOrd, Ord)]
#[repr(u16)]
pub enum Field {
    /// 16 elements, x^4 + x + 1.
    Four = 4,
    /// 256 elements, x^8 + x^4 + x^3 + x^2 + 1.
    Eight = 8,
    /// 2048 elements, x^11 + x^2 + 1.
    Eleven = 11,
}

impl Field {
    /// Every field, ascending.
    pub const ALL: [Field; 3] = [Field::Four, Field::Eight, Field::Eleven];

    /// Its degree m.
    pub fn degree(self) -> u16 {
        self as u16
    }

    /// How many elements it has, 2^m.
    pub fn size(self) -> usize {
        1 << self.degree()
    }

    /// [`crate::product`] in this field.
    pub fn product(self, a: u16, b: u16) -> Result<u16, Refusal> {
        crate::product(self.degree(), a, b)
    }

    /// [`crate::inverse`] in this field.
    pub fn inverse(self, a: u16) -> Result<u16, Refusal> {
        crate::inverse(self.degree(), a)
    }

    /// [`crate::position`] in this field.
    pub fn position(self, r: u16, convention: Convention) -> Result<u16, Refusal> {
        crate::position(self.degree(), r, convention)
    }

    /// [`crate::quadratic`] in this field.
    pub fn quadratic(self, a: u16, b: u16) -> Result<Pair, Refusal> {
        crate::quadratic(self.degree(), a, b)
    }

    /// [`crate::solve`] in this field.
    pub fn solve<'a>(
        self,
        coeffs: &[u16],
        cutoff: u16,
        roots: &'a mut [u16],
        mults: &'a mut [u16],
    ) -> Result<Solved<'a>, Refusal> {
        crate::solve(self.degree(), coeffs, cutoff, roots, mults)
    }

    /// [`crate::search`] in this field.
    pub fn search<'a>(
        self,
        coeffs: &[u16],
        roots: &'a mut [u16],
        mults: &'a mut [u16],
    ) -> Result<Roots<'a>, Refusal> {
        crate::search(self.degree(), coeffs, roots, mults)
    }

    /// [`crate::affine`] in this field.
    pub fn affine<'a>(
        self,
        coeffs: &[u16],
        constant: u16,
        roots: &'a mut [u16],
    ) -> Result<Space<'a>, Refusal> {
        crate::affine(self.degree(), coeffs, constant, roots)
    }

    /// [`crate::begin`] in this field.
    pub fn begin(self, coeffs: &[u16], cutoff: u16, table: &mut [u16]) -> Result<(), Refusal> {
        crate::begin(self.degree(), coeffs, cutoff, table)
    }

    /// [`crate::check`] in this field.
    pub fn check(self, f: &[u16], claim: Claim) -> Result<bool, Refusal> {
        crate::check(self.degree(), f, claim)
    }

    /// [`crate::prove`] in this field.
    pub fn prove<'a>(self, f: &[u16], buffers: Buffers<'a>) -> Result<Claim<'a>, Refusal> {
        crate::prove(self.degree(), f, buffers)
    }

    /// [`crate::write`] in this field.
    pub fn write<'a>(
        self,
        cutoff: u16,
        roots: &[u16],
        room: &'a mut [u8],
    ) -> Result<&'a [u8], Refusal> {
        crate::write(self.degree(), cutoff, roots, room)
    }
}

impl From<Field> for u16 {
    fn from(field: Field) -> u16 {
        field.degree()
    }
}

impl TryFrom<u16> for Field {
    type Error = Refusal;

    fn try_from(m: u16) -> Result<Field, Refusal> {
        Field::ALL
            .into_iter()
            .find(|field| field.degree() == m)
            .ok_or(Refusal::Field)
    }
}
