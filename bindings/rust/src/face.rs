//! The C face as include/locator.h declares it, each call over slices. A slice is a pointer to as many elements as
//! its length says, aligned, and a `&mut` slice overlaps no other: that is all that the calls ask for, so each is
//! safe.

#[repr(C)]
pub struct Value {
    pub outcome: u16,
    pub value: u16,
}

#[repr(C)]
pub struct Pair {
    pub outcome: u16,
    pub count: u16,
    pub lower: u16,
    pub upper: u16,
    pub doubled: u16,
}

#[repr(C)]
pub struct Found {
    pub outcome: u16,
    pub count: u16,
    pub steps: u16,
}

#[repr(C)]
pub struct Space {
    pub outcome: u16,
    pub count: u16,
    pub dimension: u16,
}

#[repr(C)]
pub struct Stepped {
    pub outcome: u16,
    pub done: u16,
}

#[repr(C)]
pub struct Corrected {
    pub outcome: u16,
    pub flips: u16,
}

#[repr(C)]
pub struct Encoded {
    pub outcome: u16,
    pub checks: u16,
}

#[repr(C)]
pub struct Checked {
    pub outcome: u16,
    pub accepted: u16,
}

#[repr(C)]
pub struct Proved {
    pub outcome: u16,
    pub count: u16,
}

#[repr(C)]
pub struct Salvaged {
    pub outcome: u16,
    pub length: usize,
}

#[repr(C)]
pub struct Written {
    pub outcome: u16,
    pub length: u16,
}

extern "C" {
    fn locator_product(m: u16, a: u16, b: u16) -> Value;
    fn locator_inverse(m: u16, a: u16) -> Value;
    fn locator_position(m: u16, r: u16, convention: u16) -> Value;
    fn locator_quadratic(m: u16, a: u16, b: u16) -> Pair;
    fn locator_solve(
        m: u16,
        coeffs: *const u16,
        n: usize,
        cutoff: u16,
        roots: *mut u16,
        room: usize,
        mults: *mut u16,
        mult_room: usize,
    ) -> Found;
    fn locator_search(
        m: u16,
        coeffs: *const u16,
        n: usize,
        roots: *mut u16,
        room: usize,
        mults: *mut u16,
        mult_room: usize,
    ) -> Found;
    fn locator_affine(
        m: u16,
        coeffs: *const u16,
        n: usize,
        constant: u16,
        roots: *mut u16,
        room: usize,
    ) -> Space;
    fn locator_begin(
        m: u16,
        coeffs: *const u16,
        n: usize,
        cutoff: u16,
        table: *mut u16,
        slots: usize,
    ) -> u16;
    fn locator_step(table: *mut u16, slots: usize) -> Stepped;
    fn locator_finish(table: *const u16, slots: usize, roots: *mut u16, room: usize) -> Found;
    fn locator_correct(strength: u16, word: *mut u8, bytes: usize) -> Corrected;
    fn locator_encode(strength: u16, word: *mut u8, bytes: usize) -> Encoded;
    fn locator_check(
        m: u16,
        f: *const u16,
        nf: usize,
        roots: *const u16,
        nr: usize,
        mults: *const u16,
        ne: usize,
        h: *const u16,
        nh: usize,
        u: *const u16,
        nu: usize,
        v: *const u16,
        nv: usize,
    ) -> Checked;
    fn locator_prove(
        m: u16,
        f: *const u16,
        nf: usize,
        roots: *mut u16,
        nr: usize,
        mults: *mut u16,
        ne: usize,
        h: *mut u16,
        nh: usize,
        u: *mut u16,
        nu: usize,
        v: *mut u16,
        nv: usize,
    ) -> Proved;
    fn locator_salvage(file: *const u8, n: usize, kept: *mut u8, room: usize) -> Salvaged;
    fn locator_write(
        m: u16,
        cutoff: u16,
        roots: *const u16,
        n: usize,
        record: *mut u8,
        room: usize,
    ) -> Written;
}

pub fn product(m: u16, a: u16, b: u16) -> Value {
    unsafe { locator_product(m, a, b) }
}

pub fn inverse(m: u16, a: u16) -> Value {
    unsafe { locator_inverse(m, a) }
}

pub fn position(m: u16, r: u16, convention: u16) -> Value {
    unsafe { locator_position(m, r, convention) }
}

pub fn quadratic(m: u16, a: u16, b: u16) -> Pair {
    unsafe { locator_quadratic(m, a, b) }
}

pub fn solve(m: u16, coeffs: &[u16], cutoff: u16, roots: &mut [u16], mults: &mut [u16]) -> Found {
    unsafe {
        locator_solve(
            m,
            coeffs.as_ptr(),
            coeffs.len(),
            cutoff,
            roots.as_mut_ptr(),
            roots.len(),
            mults.as_mut_ptr(),
            mults.len(),
        )
    }
}

pub fn search(m: u16, coeffs: &[u16], roots: &mut [u16], mults: &mut [u16]) -> Found {
    unsafe {
        locator_search(
            m,
            coeffs.as_ptr(),
            coeffs.len(),
            roots.as_mut_ptr(),
            roots.len(),
            mults.as_mut_ptr(),
            mults.len(),
        )
    }
}

pub fn affine(m: u16, coeffs: &[u16], constant: u16, roots: &mut [u16]) -> Space {
    unsafe {
        locator_affine(
            m,
            coeffs.as_ptr(),
            coeffs.len(),
            constant,
            roots.as_mut_ptr(),
            roots.len(),
        )
    }
}

pub fn begin(m: u16, coeffs: &[u16], cutoff: u16, table: &mut [u16]) -> u16 {
    unsafe {
        locator_begin(
            m,
            coeffs.as_ptr(),
            coeffs.len(),
            cutoff,
            table.as_mut_ptr(),
            table.len(),
        )
    }
}

pub fn step(table: &mut [u16]) -> Stepped {
    unsafe { locator_step(table.as_mut_ptr(), table.len()) }
}

pub fn finish(table: &[u16], roots: &mut [u16]) -> Found {
    unsafe { locator_finish(table.as_ptr(), table.len(), roots.as_mut_ptr(), roots.len()) }
}

pub fn correct(strength: u16, word: &mut [u8]) -> Corrected {
    unsafe { locator_correct(strength, word.as_mut_ptr(), word.len()) }
}

pub fn encode(strength: u16, word: &mut [u8]) -> Encoded {
    unsafe { locator_encode(strength, word.as_mut_ptr(), word.len()) }
}

pub fn check(m: u16, f: &[u16], claim: crate::Claim) -> Checked {
    unsafe {
        locator_check(
            m,
            f.as_ptr(),
            f.len(),
            claim.roots.as_ptr(),
            claim.roots.len(),
            claim.multiplicities.as_ptr(),
            claim.multiplicities.len(),
            claim.h.as_ptr(),
            claim.h.len(),
            claim.u.as_ptr(),
            claim.u.len(),
            claim.v.as_ptr(),
            claim.v.len(),
        )
    }
}

pub fn prove(m: u16, f: &[u16], buffers: &mut crate::Buffers) -> Proved {
    unsafe {
        locator_prove(
            m,
            f.as_ptr(),
            f.len(),
            buffers.roots.as_mut_ptr(),
            buffers.roots.len(),
            buffers.multiplicities.as_mut_ptr(),
            buffers.multiplicities.len(),
            buffers.h.as_mut_ptr(),
            buffers.h.len(),
            buffers.u.as_mut_ptr(),
            buffers.u.len(),
            buffers.v.as_mut_ptr(),
            buffers.v.len(),
        )
    }
}

pub fn salvage(file: &[u8], kept: &mut [u8]) -> Salvaged {
    unsafe { locator_salvage(file.as_ptr(), file.len(), kept.as_mut_ptr(), kept.len()) }
}

pub fn write(m: u16, cutoff: u16, roots: &[u16], record: &mut [u8]) -> Written {
    unsafe {
        locator_write(
            m,
            cutoff,
            roots.as_ptr(),
            roots.len(),
            record.as_mut_ptr(),
            record.len(),
        )
    }
}
