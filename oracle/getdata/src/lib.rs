//! Getdata's payload (request 01) once more, from the request's text, BIP 144 and the CompactSize rule alone: the original has no writer or reader of it.
//! The reference, the cases on which another writer and reader is held against it, messages worked out by hand, and mistakes that the cases must notice.

mod branches;
pub mod cases;
pub mod comparison;
pub mod mistakes;
pub mod published;
pub mod reference;
mod standin;

use std::ops::Range;

/// What a call answers: the refusal's number or 0, and how many bytes or hashes were written.
#[derive(Clone, Copy, Debug, PartialEq, Eq)]
pub struct Answer {
    pub refused: u64,
    pub value: u64,
}

impl Answer {
    pub fn refused(number: u64) -> Self {
        Self { refused: number, value: 0 }
    }

    pub fn wrote(count: usize) -> Self {
        Self { refused: 0, value: count as u64 }
    }
}

/// A writer and reader. What is lent is the range of the memory; the rest of the memory is not the call's to touch.
pub trait Getdata {
    /// Four words a hash.
    fn write(&self, hashes: &[u64], memory: &mut [u8], lent: Range<usize>) -> Answer;
    fn read(&self, payload: &[u8], memory: &mut [u64], lent: Range<usize>) -> Answer;
}
