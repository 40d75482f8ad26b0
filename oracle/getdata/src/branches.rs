//! How often each branch of the two calls was met, and each kind of change: one that stays at 0 is a failure.

use crate::Answer;
use crate::reference::{ENTRY, MOST, Wrong, hashes, read_compact_size};
use std::collections::BTreeMap;

const NAMES: [&str; 48] = [
    "write: count in one byte",
    "write: count in three bytes",
    "write: no hash",
    "write: 256 hashes",
    "write: output of the very length",
    "write: output longer",
    "write: ragged list",
    "write: 8",
    "write: 8, and the output too short",
    "write: 10",
    "write: 10, one byte too few",
    "write: 10, no byte",
    "read: count in one byte",
    "read: count in three bytes",
    "read: no entry",
    "read: 256 entries",
    "read: list of the very length",
    "read: list longer",
    "read: ragged list",
    "read: 10",
    "read: 10, one word too few",
    "read: 10, no word",
    "read: 11, no count",
    "read: 11, count cut",
    "read: 11, longer form than needed, 0xFD",
    "read: 11, longer form than needed, 0xFE",
    "read: 11, longer form than needed, 0xFF",
    "read: 11, above 256, 0xFD",
    "read: 11, above 256, 0xFE",
    "read: 11, above 256, 0xFF",
    "read: 11, entries too short",
    "read: 11, entries too long",
    "read: 11, type of the first entry",
    "read: 11, type of a later entry",
    "read: 11, and the list too short",
    "there and back: list",
    "there and back: payload",
    "case: message worked out by hand",
    "case: byte of a count changed",
    "case: byte of a type changed",
    "case: byte of a hash changed",
    "case: type of another kind",
    "case: payload cut",
    "case: bytes behind a payload",
    "case: two-byte count",
    "case: first byte and a plausible tail",
    "case: random list",
    "case: random change of a payload",
];

pub struct Branches(BTreeMap<&'static str, u64>);

impl Default for Branches {
    fn default() -> Self {
        Self(NAMES.map(|name| (name, 0)).into())
    }
}

impl Branches {
    pub fn hit(&mut self, name: &'static str) {
        *self.0.get_mut(name).unwrap_or_else(|| panic!("{name} is not listed")) += 1;
    }

    fn hit_if(&mut self, name: &'static str, happened: bool) {
        if happened {
            self.hit(name);
        }
    }

    /// In the order of the list.
    pub fn table(&self) -> impl Iterator<Item = (&'static str, u64)> {
        NAMES.into_iter().map(|name| (name, self.0[name]))
    }

    /// A list of so many words, an output of so many bytes, and what the reference answered.
    pub fn written(&mut self, words: usize, length: usize, answer: Answer) {
        let count = words / 4;
        let needed = if count < 253 { 1 } else { 3 } + ENTRY * count;
        if answer.refused > 0 {
            self.hit_if("write: 8", answer.refused == 8);
            self.hit_if("write: 8, and the output too short", answer.refused == 8 && length < needed);
            self.hit_if("write: 10", answer.refused == 10);
            self.hit_if("write: 10, one byte too few", answer.refused == 10 && length + 1 == needed);
            self.hit_if("write: 10, no byte", answer.refused == 10 && length == 0);
            return;
        }
        self.hit(if count < 253 { "write: count in one byte" } else { "write: count in three bytes" });
        self.hit_if("write: no hash", count == 0);
        self.hit_if("write: 256 hashes", count == MOST);
        self.hit(if length == needed { "write: output of the very length" } else { "write: output longer" });
        self.hit_if("write: ragged list", !words.is_multiple_of(4));
    }

    /// A payload, a list of so many words, and what the reference answered.
    pub fn read(&mut self, payload: &[u8], words: usize, answer: Answer) {
        match answer.refused {
            11 => self.no_payload(payload, words),
            10 => {
                let entries = payload.len() / ENTRY;
                self.hit("read: 10");
                self.hit_if("read: 10, one word too few", words + 1 == 4 * entries);
                self.hit_if("read: 10, no word", words == 0);
            }
            _ => {
                let count = answer.value as usize;
                self.hit(if count < 253 { "read: count in one byte" } else { "read: count in three bytes" });
                self.hit_if("read: no entry", count == 0);
                self.hit_if("read: 256 entries", count == MOST);
                self.hit(if words == 4 * count { "read: list of the very length" } else { "read: list longer" });
                self.hit_if("read: ragged list", !words.is_multiple_of(4));
            }
        }
    }

    fn no_payload(&mut self, payload: &[u8], words: usize) {
        let Err(wrong) = hashes(payload) else { panic!("the reference reads this payload") };
        let first = payload.first().copied().unwrap_or(0);
        let by_form = |names: [&'static str; 3]| names[usize::from(first - 0xfd)];
        self.hit(match wrong {
            Wrong::NoCount => "read: 11, no count",
            Wrong::CutCount => "read: 11, count cut",
            Wrong::LongCount => by_form([
                "read: 11, longer form than needed, 0xFD",
                "read: 11, longer form than needed, 0xFE",
                "read: 11, longer form than needed, 0xFF",
            ]),
            Wrong::TooMany => by_form(["read: 11, above 256, 0xFD", "read: 11, above 256, 0xFE", "read: 11, above 256, 0xFF"]),
            Wrong::TooShort => "read: 11, entries too short",
            Wrong::TooLong => "read: 11, entries too long",
            Wrong::Type if type_of_first(payload) => "read: 11, type of a later entry",
            Wrong::Type => "read: 11, type of the first entry",
        });
        let count = read_compact_size(payload).map_or(1, |(count, _)| count);
        self.hit_if("read: 11, and the list too short", ((words / 4) as u64) < count);
    }
}

/// Whether the first entry has the type that it should have.
fn type_of_first(payload: &[u8]) -> bool {
    read_compact_size(payload).is_ok_and(|(_, entries)| entries.starts_with(&[0x02, 0x00, 0x00, 0x40]))
}
