//! Wrong writers and readers, each by one rule: does the comparison notice each?

use crate::cases::Cases;
use crate::comparison::{Comparison, Depth};
use crate::standin::Rules;

/// What is wrong, and the rule that makes it so.
type Mistake = (&'static str, fn(&mut Rules));

/// A mistake, and the first case that notices it.
pub struct Tried {
    pub what: &'static str,
    pub noticed: Option<String>,
}

/// Every mistake tried; before that how many comparisons the rules without one pass, or where they fail.
pub fn tried(seed: u64) -> (Result<u64, String>, Vec<Tried>) {
    let cases = Cases::new(seed);
    let all = WRITING.iter().chain(READING).chain(BOTH);
    let tried = all.map(|(what, put)| Tried { what, noticed: through(&cases, *put).err() }).collect();
    (through(&cases, |_| ()), tried)
}

/// How many comparisons the changed rules pass, or the first that they do not.
fn through(cases: &Cases, put: fn(&mut Rules)) -> Result<u64, String> {
    let mut rules = Rules::default();
    put(&mut rules);
    let mut comparison = Comparison::new(&rules, 1);
    comparison.run(cases, Depth::MISTAKES);
    comparison.failures.pop().map_or(Ok(comparison.passed), Err)
}

const WRITING: &[Mistake] = &[
    ("writing: 253 in one byte", |rules| rules.write.one_byte_most = 253),
    ("writing: 252 in three bytes", |rules| rules.write.one_byte_most = 251),
    ("writing: 256 in one byte", |rules| rules.write.one_byte_most = 256),
    ("writing: count always in three bytes", |rules| rules.write.one_byte_most = 0),
    ("writing: count high byte first", |rules| rules.write.count = u16::to_be_bytes),
    ("writing: count without its high byte", |rules| rules.write.count = |count| [count as u8, 0]),
    ("writing: 0xFE before a count of two bytes", |rules| rules.write.marker = 0xfe),
    ("writing: type high byte first", |rules| rules.write.kind = [0x40, 0x00, 0x00, 0x02]),
    ("writing: MSG_BLOCK for its type", |rules| rules.write.kind = [0x02, 0x00, 0x00, 0x00]),
    ("writing: MSG_WITNESS_TX for its type", |rules| rules.write.kind = [0x01, 0x00, 0x00, 0x40]),
    ("writing: type after the hash", |rules| rules.write.kind_first = false),
    ("writing: the first hash at every entry", |rules| rules.write.entry = |_| 0),
    ("writing: 10 before 8", |rules| rules.write.eight_first = false),
    ("writing: 257 accepted", |rules| rules.write.most = 257),
    ("writing: any number accepted", |rules| rules.write.most = usize::MAX),
    ("writing: 256 refused", |rules| rules.write.most = 255),
    ("writing: 16 bits of the count kept", |rules| rules.write.kept = |count| count & 0xffff),
    ("writing: 8 bits of the count kept", |rules| rules.write.kept = |count| count & 0xff),
    ("writing: ragged tail read", |rules| rules.write.hashes = |words| words.div_ceil(4)),
    ("writing: last hash of a ragged list left out", |rules| {
        rules.write.hashes = |words| words.saturating_sub(words % 4) / 4 - usize::from(words % 4 > 0 && words > 4)
    }),
    ("writing: output of the very length refused", |rules| rules.write.fits = |needed, length| needed < length),
    ("writing: output one byte short accepted", |rules| rules.write.fits = |needed, length| needed <= length + 1),
    ("writing: one byte of count reckoned with", |rules| rules.write.fits = |needed, length| needed / 36 * 36 < length),
    ("writing: answers how many hashes", |rules| rules.write.answer = |_, hashes| hashes),
    ("writing: answers without the count's bytes", |rules| rules.write.answer = |_, hashes| 36 * hashes),
    ("writing: a refusal answers the length", |rules| rules.write.refused_value = |needed| needed),
    ("writing: a byte behind what is written touched", |rules| rules.write.behind = 1),
    ("writing: refused by 8, and written", |rules| rules.write.touches_refused = 8),
    ("writing: refused by 10, and written", |rules| rules.write.touches_refused = 10),
];

const READING: &[Mistake] = &[
    ("reading: 253 taken for a one-byte count", |rules| rules.read.most_in_one = 253),
    ("reading: 252 not taken for a one-byte count", |rules| rules.read.most_in_one = 251),
    ("reading: each first byte a count", |rules| rules.read.most_in_one = 255),
    ("reading: any number in three bytes accepted", |rules| rules.read.least_in_two = 0),
    ("reading: 252 in three bytes accepted", |rules| rules.read.least_in_two = 252),
    ("reading: 253 in three bytes refused", |rules| rules.read.least_in_two = 254),
    ("reading: count high byte first", |rules| rules.read.count = u16::from_be_bytes),
    ("reading: high byte of the count ignored", |rules| rules.read.count = |[low, _]| low.into()),
    ("reading: either order of the count accepted", |rules| rules.read.count = either_order),
    ("reading: 0xFE accepted", |rules| rules.read.four = true),
    ("reading: 0xFF accepted", |rules| rules.read.eight = true),
    ("reading: 257 accepted", |rules| rules.read.most = 257),
    ("reading: any number accepted", |rules| rules.read.most = usize::MAX),
    ("reading: 256 refused", |rules| rules.read.most = 255),
    ("reading: 0 refused", |rules| rules.read.least = 1),
    ("reading: no byte taken for no entry", |rules| rules.read.no_byte_is_empty = true),
    ("reading: 10 before 11", |rules| rules.read.eleven_first = false),
    ("reading: one byte more accepted", |rules| {
        rules.read.right_length = |length, count| (36 * count..36 * count + 2).contains(&length)
    }),
    ("reading: one byte less accepted", |rules| {
        rules.read.right_length = |length, count| length == 36 * count || length + 1 == 36 * count
    }),
    ("reading: anything behind accepted", |rules| rules.read.right_length = |length, count| length >= 36 * count),
    ("reading: part of an entry behind accepted", |rules| rules.read.right_length = |length, count| length / 36 == count),
    ("reading: an entry more accepted", |rules| {
        rules.read.right_length = |length, count| length == 36 * count || length == 36 * count + 36
    }),
    ("reading: a cut payload accepted", |rules| rules.read.right_length = |length, count| length <= 36 * count),
    ("reading: 16 bits of the length kept", |rules| rules.read.right_length = |length, count| length & 0xffff == 36 * count),
    ("reading: 8 bits of the length kept", |rules| rules.read.right_length = |length, count| (length ^ (36 * count)) & 0xff == 0),
    ("reading: entries from the payload's begin", |rules| rules.read.entries_at = |_| 0),
    ("reading: entries after one byte of any count", |rules| rules.read.entries_at = |_| 1),
    ("reading: type not looked at", |rules| rules.read.right_kind = |_, _, _| true),
    ("reading: MSG_BLOCK accepted", |rules| rules.read.right_kind = |[a, b, c, d], _, _| [a, b, c, d & !0x40] == [2, 0, 0, 0]),
    ("reading: type high byte first", |rules| rules.read.right_kind = |kind, _, _| kind == [0x40, 0, 0, 2]),
    ("reading: type in either order accepted", |rules| {
        rules.read.right_kind = |kind, _, _| kind == [0x40, 0, 0, 2] || kind == [2, 0, 0, 0x40]
    }),
    ("reading: middle bytes of the type ignored", |rules| rules.read.right_kind = |[a, _, _, d], _, _| [a, d] == [2, 0x40]),
    ("reading: third byte of the type ignored", |rules| rules.read.right_kind = |[a, b, _, d], _, _| [a, b, d] == [2, 0, 0x40]),
    ("reading: type of the first entry alone", |rules| {
        rules.read.right_kind = |kind, entry, _| entry > 0 || kind == [2, 0, 0, 0x40]
    }),
    ("reading: type of the last entry not looked at", |rules| {
        rules.read.right_kind = |kind, entry, count| entry + 1 == count || kind == [2, 0, 0, 0x40]
    }),
    ("reading: type of entry 255 not looked at", |rules| {
        rules.read.right_kind = |kind, entry, _| entry == 255 || kind == [2, 0, 0, 0x40]
    }),
    ("reading: type of entry 100 not looked at", |rules| {
        rules.read.right_kind = |kind, entry, _| entry == 100 || kind == [2, 0, 0, 0x40]
    }),
    ("reading: the first hash at every place", |rules| rules.read.entry = |_| 0),
    ("reading: ragged place counted", |rules| rules.read.places = |words| words.div_ceil(4)),
    ("reading: each word a place", |rules| rules.read.places = |words| words),
    ("reading: ragged list refused", |rules| rules.read.places = |words| if words.is_multiple_of(4) { words / 4 } else { 0 }),
    ("reading: list of the very length refused", |rules| rules.read.fits = |count, places| count < places || count == 0),
    ("reading: list one place short accepted", |rules| rules.read.fits = |count, places| count <= places + 1),
    ("reading: list of 256 places always wanted", |rules| rules.read.fits = |_, places| places >= 256),
    ("reading: answers how many words", |rules| rules.read.answer = |count| 4 * count),
    ("reading: answers how many bytes", |rules| rules.read.answer = |count| 32 * count),
    ("reading: a refusal answers the count", |rules| rules.read.refused_value = |count| count),
    ("reading: a word behind what is written touched", |rules| rules.read.behind = 1),
    ("reading: refused by 10, and written", |rules| rules.read.touches_refused = 10),
    ("reading: entries before a wrong one written", |rules| rules.read.as_it_goes = true),
    ("reading: refused by 11, and written", |rules| rules.read.touches_refused = 11),
];

/// In both calls alike, so that there and back notices nothing.
const BOTH: &[Mistake] = &[
    ("both: words low byte first", |rules| (rules.to_bytes, rules.of_bytes) = (u64::to_le_bytes, u64::from_le_bytes)),
    ("both: words of a hash the other way round", |rules| rules.order = [3, 2, 1, 0]),
    ("both: hash the other way round", |rules| {
        rules.order = [3, 2, 1, 0];
        (rules.to_bytes, rules.of_bytes) = (u64::to_le_bytes, u64::from_le_bytes);
    }),
    ("both: type high byte first", |rules| {
        rules.write.kind = [0x40, 0, 0, 2];
        rules.read.right_kind = |kind, _, _| kind == [0x40, 0, 0, 2];
    }),
    ("both: MSG_BLOCK for the type", |rules| {
        rules.write.kind = [2, 0, 0, 0];
        rules.read.right_kind = |kind, _, _| kind == [2, 0, 0, 0];
    }),
    ("both: count high byte first", |rules| (rules.write.count, rules.read.count) = (u16::to_be_bytes, u16::from_be_bytes)),
    ("both: 253 in one byte", |rules| (rules.write.one_byte_most, rules.read.most_in_one) = (253, 253)),
    ("both: 257 accepted", |rules| (rules.write.most, rules.read.most) = (257, 257)),
];

/// 253 to 256 however they stand, else low byte first.
fn either_order(bytes: [u8; 2]) -> u16 {
    let (little, big) = (u16::from_le_bytes(bytes), u16::from_be_bytes(bytes));
    if (253..=256).contains(&big) { big } else { little }
}
