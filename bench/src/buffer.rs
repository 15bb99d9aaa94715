//! Buffers that start at a chosen quarter of a page. Some machines copy many times slower between two that start at nearly the same
//! distance from a page, and an allocator brings that about by chance.

use crate::kernel::MAX_COUNT;
use std::ops::{Deref, DerefMut};

const PAGE: usize = 1024;

#[repr(align(4096))]
struct Pages([i32; MAX_COUNT + PAGE]);

pub struct Buffer {
    pages: Box<Pages>,
    start: usize,
    length: usize,
}

impl Buffer {
    pub fn new(elements: &[i32], quarter: usize) -> Buffer {
        let mut buffer =
            Buffer { pages: Box::new(Pages([0; MAX_COUNT + PAGE])), start: quarter * PAGE / 4, length: elements.len() };
        buffer.copy_from_slice(elements);
        buffer
    }
}

impl Deref for Buffer {
    type Target = [i32];

    fn deref(&self) -> &[i32] {
        &self.pages.0[self.start..][..self.length]
    }
}

impl DerefMut for Buffer {
    fn deref_mut(&mut self) -> &mut [i32] {
        &mut self.pages.0[self.start..][..self.length]
    }
}
