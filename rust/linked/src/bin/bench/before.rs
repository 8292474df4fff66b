//! The tables and steps of an earlier commit, 4e16add or before, if that is linked:
//! a condition and the goal are tests with two ways on there, the goal's behind
//! the program's nodes.

use linked::{Place, Words, HEAD_CELLS, SET_WORDS};

use symbols::{before_prepare, before_settle, before_step};

/// The numbers of its nodes, four each.
const NODE_CELLS: usize = 8192;

pub struct Before {
    heads: Box<[u16; HEAD_CELLS]>,
    nodes: Box<[u16; NODE_CELLS]>,
    sets: Box<[u64; SET_WORDS]>,
}

impl Before {
    /// The tables of an accepted sheet.
    pub fn of(bytes: &[u8]) -> Option<Before> {
        if !cfg!(feature = "before") {
            return None;
        }
        let mut tables = Before {
            heads: Box::new([0; HEAD_CELLS]),
            nodes: Box::new([0; NODE_CELLS]),
            sets: Box::new([0; SET_WORDS]),
        };
        assert_eq!(tables.prepare(bytes, &mut [0; 4]), 0);
        Some(tables)
    }

    /// The reader's answer, and writes an accepted sheet's tables and start set.
    pub fn prepare(&mut self, bytes: &[u8], start: &mut Words) -> u8 {
        // SAFETY: the function has no precondition and touches only this memory.
        unsafe {
            before_prepare(
                bytes.as_ptr(),
                bytes.len(),
                &mut self.heads,
                &mut self.nodes,
                &mut self.sets,
                start,
            )
        }
    }

    #[inline]
    pub fn step(&self, set: &mut Words, action: usize, reply: usize) {
        // SAFETY: as above.
        unsafe { before_step(&self.heads, &self.sets, set, action, reply) }
    }

    #[inline]
    pub fn settle(&self, set: &Words, at: usize) -> Place {
        // SAFETY: as above.
        let number = unsafe { before_settle(&self.nodes, &self.sets, set, at) };
        Place::of_number(number)
    }
}

#[cfg(feature = "before")]
mod symbols {
    use super::{Words, HEAD_CELLS, NODE_CELLS, SET_WORDS};

    extern "C" {
        pub fn before_prepare(
            bytes: *const u8,
            length: usize,
            heads: &mut [u16; HEAD_CELLS],
            nodes: &mut [u16; NODE_CELLS],
            sets: &mut [u64; SET_WORDS],
            start: &mut Words,
        ) -> u8;

        pub fn before_step(
            heads: &[u16; HEAD_CELLS],
            sets: &[u64; SET_WORDS],
            set: &mut Words,
            action: usize,
            reply: usize,
        );

        pub fn before_settle(
            nodes: &[u16; NODE_CELLS],
            sets: &[u64; SET_WORDS],
            set: &Words,
            at: usize,
        ) -> u64;
    }
}

/// Never called.
#[cfg(not(feature = "before"))]
mod symbols {
    use super::{Words, HEAD_CELLS, NODE_CELLS, SET_WORDS};

    pub unsafe fn before_prepare(
        _: *const u8,
        _: usize,
        _: &mut [u16; HEAD_CELLS],
        _: &mut [u16; NODE_CELLS],
        _: &mut [u64; SET_WORDS],
        _: &mut Words,
    ) -> u8 {
        unreachable!()
    }

    pub unsafe fn before_step(
        _: &[u16; HEAD_CELLS],
        _: &[u64; SET_WORDS],
        _: &mut Words,
        _: usize,
        _: usize,
    ) {
        unreachable!()
    }

    pub unsafe fn before_settle(
        _: &[u16; NODE_CELLS],
        _: &[u64; SET_WORDS],
        _: &Words,
        _: usize,
    ) -> u64 {
        unreachable!()
    }
}
