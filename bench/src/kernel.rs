//! A call, and the kernel's archive as include/gillgrater.h declares it.

use crate::buffer::Buffer;

pub const MAX_RANK: usize = 8;
pub const MAX_COUNT: usize = 16_384;

/// A rank and a length for each axis; only the first `rank` lengths count.
#[repr(C)]
#[derive(Clone, Copy, Debug, PartialEq)]
pub struct Shape {
    pub rank: usize,
    pub lens: [usize; MAX_RANK],
}

impl Shape {
    /// For at most `MAX_RANK` lengths.
    pub fn new(lengths: &[usize]) -> Shape {
        let mut lens = [0; MAX_RANK];
        lens[..lengths.len()].copy_from_slice(lengths);
        Shape { rank: lengths.len(), lens }
    }
}

/// A number, 0 for a success, and the result's shape.
#[repr(C)]
#[derive(Clone, Copy, Debug, PartialEq)]
pub struct Answer {
    pub number: usize,
    pub shape: Shape,
}

pub struct Operand {
    pub shape: Shape,
    pub elements: Buffer,
}

/// Primitive number, origin, axis number and the two operands.
pub struct Call {
    pub number: i32,
    pub g: i32,
    pub k: i32,
    pub l: Operand,
    pub r: Operand,
}

extern "C" {
    fn gillgrater_call(
        number: i32,
        g: i32,
        k: i32,
        ls: Shape,
        l: *const i32,
        l_length: usize,
        rs: Shape,
        r: *const i32,
        r_length: usize,
        out: *mut i32,
        out_length: usize,
    ) -> Answer;
}

/// The kernel's answer; the result's elements fill the front of `out`.
pub fn answer(call: &Call, out: &mut [i32]) -> Answer {
    let (l, r) = (&call.l, &call.r);
    // Each pointer goes with its slice's length, and `out` is borrowed alone.
    unsafe {
        gillgrater_call(
            call.number,
            call.g,
            call.k,
            l.shape,
            l.elements.as_ptr(),
            l.elements.len(),
            r.shape,
            r.elements.as_ptr(),
            r.elements.len(),
            out.as_mut_ptr(),
            out.len(),
        )
    }
}
