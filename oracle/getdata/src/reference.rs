//! The reference, from the text of request 01: "a CompactSize count in its shortest form, then for each entry the type 0x40000002 (BIP 144's witness
//! block) as four bytes, low byte first, and the 32 hash bytes. … At most 256 entries."

use crate::{Answer, Getdata};
use std::cmp::Ordering;
use std::ops::Range;

/// A hash as its bytes stand on the wire.
pub type Hash = [u8; 32];

/// Entries of a payload at most.
pub const MOST: usize = 256;
/// Type and hash.
pub const ENTRY: usize = 4 + 32;
/// BIP 144: MSG_BLOCK, which is 2, with MSG_WITNESS_FLAG, which is bit 30.
const WITNESS_BLOCK: u32 = 2 | 1 << 30;

/// What is wrong with a payload that is none.
#[derive(Clone, Copy, Debug, PartialEq, Eq)]
pub enum Wrong {
    NoCount,
    CutCount,
    /// A count that a shorter form has.
    LongCount,
    TooMany,
    TooShort,
    TooLong,
    Type,
}

/// The payload of a list, however long that is.
pub fn payload(hashes: &[Hash]) -> Vec<u8> {
    let mut bytes = compact_size(hashes.len() as u64);
    for hash in hashes {
        bytes.extend(WITNESS_BLOCK.to_le_bytes());
        bytes.extend(hash);
    }
    bytes
}

/// The list of a payload.
pub fn hashes(payload: &[u8]) -> Result<Vec<Hash>, Wrong> {
    let (count, entries) = read_compact_size(payload)?;
    if count > MOST as u64 {
        return Err(Wrong::TooMany);
    }
    match entries.len().cmp(&(count as usize * ENTRY)) {
        Ordering::Less => Err(Wrong::TooShort),
        Ordering::Greater => Err(Wrong::TooLong),
        Ordering::Equal => entries.chunks_exact(ENTRY).map(entry).collect(),
    }
}

fn entry(bytes: &[u8]) -> Result<Hash, Wrong> {
    let (kind, hash) = bytes.split_first_chunk().expect("an entry has a type");
    if u32::from_le_bytes(*kind) != WITNESS_BLOCK {
        return Err(Wrong::Type);
    }
    Ok(hash.try_into().expect("an entry has a hash after its type"))
}

/// The CompactSize rule whole: one byte up to 252; else 0xFD, 0xFE or 0xFF and the number in two, four or eight bytes, low byte first.
pub fn compact_size(number: u64) -> Vec<u8> {
    match number {
        0..=0xfc => vec![number as u8],
        0xfd..=0xffff => [&[0xfd], &number.to_le_bytes()[..2]].concat(),
        0x1_0000..=0xffff_ffff => [&[0xfe], &number.to_le_bytes()[..4]].concat(),
        _ => [&[0xff], &number.to_le_bytes()[..]].concat(),
    }
}

/// The number, which must stand in its shortest form, and what follows it.
pub fn read_compact_size(bytes: &[u8]) -> Result<(u64, &[u8]), Wrong> {
    let (first, rest) = bytes.split_first().ok_or(Wrong::NoCount)?;
    let (width, least) = match first {
        0xfd => (2, 0xfd),
        0xfe => (4, 0x1_0000),
        0xff => (8, 0x1_0000_0000),
        small => return Ok((u64::from(*small), rest)),
    };
    let (number, rest) = rest.split_at_checked(width).ok_or(Wrong::CutCount)?;
    let number = number.iter().rev().fold(0, |number, byte| number << 8 | u64::from(*byte));
    if number < least { Err(Wrong::LongCount) } else { Ok((number, rest)) }
}

/// The hashes of a list of words, four a hash, the first byte the highest of the first word; what is past the last whole hash is left out.
pub fn of_words(words: &[u64]) -> Vec<Hash> {
    let (whole, _) = words.as_chunks::<4>();
    whole.iter().map(|four| four.map(u64::to_be_bytes).concat().try_into().expect("four words are a hash")).collect()
}

pub fn to_words(hashes: &[Hash]) -> Vec<u64> {
    let (eights, _) = hashes.as_flattened().as_chunks();
    eights.iter().map(|eight| u64::from_be_bytes(*eight)).collect()
}

/// The two calls by the reference.
pub struct Reference;

impl Getdata for Reference {
    fn write(&self, hashes: &[u64], memory: &mut [u8], lent: Range<usize>) -> Answer {
        let hashes = of_words(hashes);
        if hashes.len() > MOST {
            return Answer::refused(8);
        }
        let bytes = payload(&hashes);
        match memory[lent].get_mut(..bytes.len()) {
            None => Answer::refused(10),
            Some(out) => {
                out.copy_from_slice(&bytes);
                Answer::wrote(bytes.len())
            }
        }
    }

    fn read(&self, payload: &[u8], memory: &mut [u64], lent: Range<usize>) -> Answer {
        let Ok(hashes) = hashes(payload) else {
            return Answer::refused(11);
        };
        if hashes.len() > lent.len() / 4 {
            return Answer::refused(10);
        }
        memory[lent][..4 * hashes.len()].copy_from_slice(&to_words(&hashes));
        Answer::wrote(hashes.len())
    }
}
