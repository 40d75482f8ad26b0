//! A plain writer and reader by places, whose every rule can be changed: with the rules as they are it equals the reference, with one of them changed it
//! is a mistake that the comparison must notice.

use crate::{Answer, Getdata};
use std::ops::Range;

/// The rules of both calls. `Default` has them right.
#[derive(Clone)]
pub struct Rules {
    pub write: Writing,
    pub read: Reading,
    /// The bytes of a word and back.
    pub to_bytes: fn(u64) -> [u8; 8],
    pub of_bytes: fn([u8; 8]) -> u64,
    /// The words of a hash, by rising place on the wire.
    pub order: [usize; 4],
}

#[derive(Clone)]
pub struct Writing {
    /// Hashes of a list of so many words.
    pub hashes: fn(usize) -> usize,
    /// What is kept of their count.
    pub kept: fn(usize) -> usize,
    pub most: usize,
    pub eight_first: bool,
    pub one_byte_most: usize,
    pub marker: u8,
    pub count: fn(u16) -> [u8; 2],
    pub kind: [u8; 4],
    pub kind_first: bool,
    /// Whether the output of this length has room for so many bytes.
    pub fits: fn(usize, usize) -> bool,
    /// What is answered, of bytes written and hashes; and on a refusal.
    pub answer: fn(usize, usize) -> usize,
    pub refused_value: fn(usize) -> usize,
    /// The entry that is written at each entry's place.
    pub entry: fn(usize) -> usize,
    /// Bytes set to 0 behind what is written, in the output or behind it.
    pub behind: usize,
    /// The refusal by which the first place is written all the same.
    pub touches_refused: u64,
}

#[derive(Clone)]
pub struct Reading {
    pub least_in_two: usize,
    pub most_in_one: usize,
    pub count: fn([u8; 2]) -> u16,
    /// Whether forms of four and of eight bytes are read too, of whatever number.
    pub four: bool,
    pub eight: bool,
    pub most: usize,
    pub least: usize,
    pub eleven_first: bool,
    /// Whether entries of so many bytes are those of so many.
    pub right_length: fn(usize, usize) -> bool,
    /// Where the entries begin, of the count's bytes.
    pub entries_at: fn(usize) -> usize,
    /// Whether this is the type of the entry with this number, of so many.
    pub right_kind: fn([u8; 4], usize, usize) -> bool,
    pub no_byte_is_empty: bool,
    /// Places of a list of so many words.
    pub places: fn(usize) -> usize,
    pub fits: fn(usize, usize) -> bool,
    pub answer: fn(usize) -> usize,
    pub refused_value: fn(usize) -> usize,
    pub entry: fn(usize) -> usize,
    pub behind: usize,
    /// The refusal by which the first place is written all the same.
    pub touches_refused: u64,
    /// What is read before a wrong type is written all the same.
    pub as_it_goes: bool,
}

const KIND: [u8; 4] = [0x02, 0x00, 0x00, 0x40];

impl Default for Rules {
    fn default() -> Self {
        Self {
            write: Writing::default(),
            read: Reading::default(),
            to_bytes: u64::to_be_bytes,
            of_bytes: u64::from_be_bytes,
            order: [0, 1, 2, 3],
        }
    }
}

impl Default for Writing {
    fn default() -> Self {
        Self {
            hashes: |words| words / 4,
            kept: |count| count,
            most: 256,
            eight_first: true,
            one_byte_most: 252,
            marker: 0xfd,
            count: u16::to_le_bytes,
            kind: KIND,
            kind_first: true,
            fits: |needed, length| needed <= length,
            answer: |bytes, _| bytes,
            refused_value: |_| 0,
            entry: |place| place,
            behind: 0,
            touches_refused: 0,
        }
    }
}

impl Default for Reading {
    fn default() -> Self {
        Self {
            least_in_two: 253,
            most_in_one: 252,
            count: u16::from_le_bytes,
            four: false,
            eight: false,
            most: 256,
            least: 0,
            eleven_first: true,
            right_length: |length, count| length == 36 * count,
            entries_at: |count_bytes| count_bytes,
            right_kind: |kind, _, _| kind == KIND,
            no_byte_is_empty: false,
            places: |words| words / 4,
            fits: |count, places| count <= places,
            answer: |count| count,
            refused_value: |_| 0,
            entry: |place| place,
            behind: 0,
            touches_refused: 0,
            as_it_goes: false,
        }
    }
}

impl Getdata for Rules {
    fn write(&self, hashes: &[u64], memory: &mut [u8], lent: Range<usize>) -> Answer {
        let rules = &self.write;
        let count = (rules.kept)((rules.hashes)(hashes.len()));
        let too_many = count > rules.most;
        let fits = (rules.fits)(if count > rules.one_byte_most { 3 } else { 1 } + 36 * count, lent.len());
        let number = match (too_many, fits) {
            (true, false) if !rules.eight_first => 10,
            (true, _) => 8,
            (false, false) => 10,
            (false, true) => 0,
        };
        if number > 0 {
            if rules.touches_refused == number && !lent.is_empty() {
                memory[lent.start] = 0;
            }
            return Answer { refused: number, value: (rules.refused_value)(36 * count + 1) as u64 };
        }
        let bytes = self.bytes(hashes, count);
        put(&mut memory[lent.start..], &bytes, rules.behind);
        Answer::wrote((rules.answer)(bytes.len(), count))
    }

    fn read(&self, payload: &[u8], memory: &mut [u64], lent: Range<usize>) -> Answer {
        let rules = &self.read;
        let places = (rules.places)(lent.len());
        let entries = self.entries(payload);
        let claimed = payload.first().map_or(0, |first| usize::from(*first));
        let number = match &entries {
            Err(_) if !rules.eleven_first && claimed > places => 10,
            Err(_) => 11,
            Ok(hashes) if !(rules.fits)(hashes.len() / 4, places) => 10,
            Ok(_) => 0,
        };
        let (Ok(words) | Err(words)) = entries;
        if number > 0 {
            if rules.touches_refused == number && !lent.is_empty() {
                memory[lent.start] = 0;
            }
            if rules.as_it_goes && number == 11 {
                put(&mut memory[lent], &words, 0);
            }
            return Answer { refused: number, value: (rules.refused_value)(claimed) as u64 };
        }
        put(&mut memory[lent.start..], &words, rules.behind);
        Answer::wrote((rules.answer)(words.len() / 4))
    }
}

/// Writes, as far as there is memory: a mistaken call may write behind what is lent.
fn put<T: Copy + Default>(memory: &mut [T], written: &[T], behind: usize) {
    let zeros = std::iter::repeat_n(T::default(), behind);
    memory.iter_mut().zip(written.iter().copied().chain(zeros)).for_each(|(place, value)| *place = value);
}

/// The type and the hash at a place, 0 where nothing is.
fn split(entries: &[u8], from: usize) -> ([u8; 4], [u8; 32]) {
    let mut entry = [0; 36];
    let there = &entries[from.min(entries.len())..];
    let length = there.len().min(36);
    entry[..length].copy_from_slice(&there[..length]);
    let (kind, hash) = entry.split_at(4);
    (kind.try_into().expect("four bytes"), hash.try_into().expect("32 bytes"))
}

impl Rules {
    fn bytes(&self, hashes: &[u64], count: usize) -> Vec<u8> {
        let rules = &self.write;
        let mut bytes = vec![count as u8];
        if count > rules.one_byte_most {
            bytes[0] = rules.marker;
            bytes.extend((rules.count)(count as u16));
        }
        for entry in 0..count {
            let from = 4 * (rules.entry)(entry);
            let word = |place: &usize| hashes.get(from + place).copied().unwrap_or(0);
            let hash = self.order.iter().flat_map(|place| (self.to_bytes)(word(place)));
            if rules.kind_first {
                bytes.extend(rules.kind);
            }
            bytes.extend(hash);
            if !rules.kind_first {
                bytes.extend(rules.kind);
            }
        }
        bytes
    }

    /// The words of a payload's hashes, or of those before the first wrong entry.
    fn entries(&self, payload: &[u8]) -> Result<Vec<u64>, Vec<u64>> {
        let rules = &self.read;
        if payload.is_empty() && rules.no_byte_is_empty {
            return Ok(Vec::new());
        }
        let (count, bytes) = self.count(payload).ok_or(Vec::new())?;
        if count > rules.most || count < rules.least || !(rules.right_length)(payload.len() - bytes, count) {
            return Err(Vec::new());
        }
        let entries = &payload[(rules.entries_at)(bytes)..];
        let mut words = Vec::with_capacity(4 * count);
        for entry in 0..count {
            let (kind, hash) = split(entries, 36 * (rules.entry)(entry));
            if !(rules.right_kind)(kind, entry, count) {
                return Err(words);
            }
            let (eights, _) = hash.as_chunks();
            words.extend(self.order.map(|place| (self.of_bytes)(eights[place])));
        }
        Ok(words)
    }

    /// The count, and how many bytes it has.
    fn count(&self, payload: &[u8]) -> Option<(usize, usize)> {
        let rules = &self.read;
        let first = usize::from(*payload.first()?);
        if first <= rules.most_in_one {
            return Some((first, 1));
        }
        let width = match first {
            253 => 2,
            254 if rules.four => 4,
            255 if rules.eight => 8,
            _ => return None,
        };
        let number = payload.get(1..1 + width)?;
        let count = usize::from((rules.count)([number[0], number[1]]));
        let fits = number[2..].iter().all(|byte| *byte == 0);
        (count >= rules.least_in_two && fits).then_some((count, 1 + width))
    }
}
