//! Getdata's payload through the library beside the reference of `getdata`, which was written from the request's text.

use crate::ffi::{Number, kofudile_read_getdata_words, kofudile_write_getdata_words};
use getdata::{Answer, Getdata};
use std::ops::Range;

/// The library's two functions.
pub struct Library;

impl Getdata for Library {
    fn write(&self, hashes: &[u64], memory: &mut [u8], lent: Range<usize>) -> Answer {
        let out = &mut memory[lent];
        said(unsafe { kofudile_write_getdata_words(hashes.as_ptr(), hashes.len(), out.as_mut_ptr(), out.len()) })
    }

    fn read(&self, payload: &[u8], memory: &mut [u64], lent: Range<usize>) -> Answer {
        let list = &mut memory[lent];
        said(unsafe { kofudile_read_getdata_words(payload.as_ptr(), payload.len(), list.as_mut_ptr(), list.len()) })
    }
}

fn said(Number { refused, value }: Number) -> Answer {
    Answer { refused, value }
}
