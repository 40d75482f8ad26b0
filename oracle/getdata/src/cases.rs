//! The cases, those that notice the most first.

use crate::comparison::{Comparison, Depth};
use crate::published::{self, Message};
use crate::reference::{ENTRY, Hash, MOST, compact_size, of_words, payload};
use calls::random::Random;
use std::ops::Range;

/// Counts whose payloads are changed at every byte: the smallest, both sides of the longer count form, the most.
const CHOSEN: [usize; 6] = [0, 1, 2, 252, 253, 256];
/// Counts above the most; the last ones are small where only 16 bits are kept.
const ABOVE: [usize; 8] = [257, 258, 509, 65_535, 65_536, 65_537, 65_536 + 253, 65_536 + 256];
/// The type as it should stand in front of each hash.
const TYPE: [u8; 4] = [0x02, 0x00, 0x00, 0x40];
/// How many bytes are put behind a payload; the last two are nothing where 8 or 16 bits of the length are kept.
const MORE: [usize; 12] = [1, 2, 3, 4, 31, 32, 35, 36, 37, 72, 256, 65_536];
/// A list that is long enough.
const ENOUGH: usize = 4 * MOST;

/// Hashes as words, more of them than any case needs, so that what follows a list looks like more of it.
struct Pool {
    words: Vec<u64>,
    hashes: Vec<Hash>,
}

impl Pool {
    fn new(random: &mut Random) -> Self {
        let words: Vec<u64> = (0..4 * (65_536 + 512)).map(|_| random.next()).collect();
        Self { hashes: of_words(&words), words }
    }

    /// The payload of the first hashes, and behind it so many more entries.
    fn payload(&self, count: usize, more: usize) -> Vec<u8> {
        let mut bytes = payload(&self.hashes[..count]);
        self.hashes[count..count + more].iter().for_each(|hash| bytes.extend([&TYPE[..], hash].concat()));
        bytes
    }
}

fn length(count: usize) -> usize {
    compact_size(count as u64).len() + ENTRY * count
}

/// What the cases of a seed are made of.
pub struct Cases {
    messages: Vec<Message>,
    pool: Pool,
    random: Random,
}

impl Cases {
    pub fn new(seed: u64) -> Self {
        let mut random = Random::new(seed ^ 0x6765_7464);
        Self { messages: published::messages(), pool: Pool::new(&mut random), random }
    }

    pub fn run(&self, to: &mut Comparison, depth: Depth) {
        let (pool, mut random) = (&self.pool, self.random.clone());
        for Message { what, payload, words } in &self.messages {
            if to.stopped() {
                return;
            }
            to.by_hand(what, payload, words.as_deref());
        }
        let parts = [counts, too_many, lent_lengths, cut_and_longer, other_types];
        parts.iter().for_each(|part| part(to, pool));
        changed_bytes(to, pool, depth.values, &mut random);
        first_bytes(to, pool);
        two_byte_counts(to, pool);
        at_random(to, pool, depth.random, &mut random);
    }
}

/// Every count up to the most: outputs and lists about as long as needed, ragged lists, there and back.
fn counts(to: &mut Comparison, pool: &Pool) {
    for count in 0..=MOST {
        let needed = length(count);
        for out in around(needed, 2..3).chain([0, 1, needed + 40, 10_000]) {
            to.write(format_args!("{count} hashes"), &pool.words[..4 * count], out);
        }
        for ragged in 1..4 {
            for out in [needed - 1, needed, needed + ENTRY] {
                to.write(format_args!("{count} hashes and {ragged} words"), &pool.words[..4 * count + ragged], out);
            }
        }
        let bytes = pool.payload(count, 0);
        for words in around(4 * count, 5..8).chain([0, ENOUGH, ENOUGH + 40]) {
            to.read(format_args!("{count} entries"), &bytes, words);
        }
        to.there_and_back(format_args!("{count} hashes"), &pool.words[..4 * count]);
    }
}

/// The numbers from so many below to so many above, as far as there are such.
fn around(number: usize, far: Range<usize>) -> impl Iterator<Item = usize> {
    number.saturating_sub(far.start)..=number + far.end
}

/// Lists and payloads above the most, alone and together with an output or a list that is too short.
fn too_many(to: &mut Comparison, pool: &Pool) {
    for count in ABOVE {
        for out in [0, 1, 3, 37, length(252), length(256), length(257) - 1, length(257), 16_000] {
            for ragged in [0, 1, 3] {
                to.write(format_args!("{count} hashes and {ragged} words"), &pool.words[..4 * count + ragged], out);
            }
        }
        let bytes = pool.payload(count, 0);
        for words in [0, 4, ENOUGH - 1, ENOUGH, ENOUGH + 4, 4 * 257, 2_000] {
            to.read(format_args!("{count} entries"), &bytes, words);
        }
    }
    for ragged in 1..4 {
        to.write(format_args!("256 hashes and {ragged} words"), &pool.words[..ENOUGH + ragged], length(256));
    }
}

/// For some counts every length of what is lent, or every one near to what is needed.
fn lent_lengths(to: &mut Comparison, pool: &Pool) {
    for count in CHOSEN {
        let (needed, bytes) = (length(count), pool.payload(count, 0));
        for out in (0..80).chain(around(needed, 80..80)) {
            to.write(format_args!("{count} hashes"), &pool.words[..4 * count], out);
        }
        for words in 0..4 * count + 40 {
            to.read(format_args!("{count} entries"), &bytes, words);
        }
    }
}

/// Payloads cut at every byte, what is cut off still lying behind, and payloads with more behind: more entries, or zeros. Each into a list that is long enough
/// and into none.
fn cut_and_longer(to: &mut Comparison, pool: &Pool) {
    for count in CHOSEN {
        let (needed, bytes) = (length(count), pool.payload(count, 2_000));
        for kept in 0..needed {
            to.branches.hit("case: payload cut");
            to.read(format_args!("{count} entries cut"), &bytes[..kept], ENOUGH);
            to.read(format_args!("{count} entries cut"), &bytes[..kept], 0);
        }
        let mut zeros = bytes[..needed].to_vec();
        zeros.resize(needed + 70_000, 0);
        for more in MORE {
            for longer in [&bytes, &zeros] {
                to.branches.hit("case: bytes behind a payload");
                to.read(format_args!("{count} entries and {more} bytes"), &longer[..needed + more], ENOUGH);
                to.read(format_args!("{count} entries and {more} bytes"), &longer[..needed + more], 0);
            }
        }
    }
}

/// Each entry's type as another one, whole: the other kinds of the protocol, the bytes in another order, 0 and all bits.
fn other_types(to: &mut Comparison, pool: &Pool) {
    let numbers = [0, 1, 2, 3, 4, 0x4000_0000, 0x4000_0001, 0x4000_0003, 0x4000_0004, 0xc000_0002, 0x4000_0102, u32::MAX];
    let orders = [[0x40, 0x00, 0x00, 0x02], [0x00, 0x02, 0x40, 0x00], [0x00, 0x40, 0x02, 0x00], [0x02, 0x40, 0x00, 0x00]];
    for count in CHOSEN {
        let mut bytes = pool.payload(count, 0);
        for entry in 0..count {
            let place = bytes.len() - ENTRY * (count - entry);
            for kind in numbers.map(u32::to_le_bytes).into_iter().chain(orders) {
                bytes[place..place + 4].copy_from_slice(&kind);
                to.branches.hit("case: type of another kind");
                to.read(format_args!("{count} entries, type {kind:x?} at {entry}"), &bytes, 4 * count);
            }
            bytes[place..place + 4].copy_from_slice(&TYPE);
        }
    }
}

/// Single bytes changed: all other values in small payloads, in the count and in some types of large ones, else some.
fn changed_bytes(to: &mut Comparison, pool: &Pool, values: usize, random: &mut Random) {
    for count in CHOSEN {
        // what follows looks like more entries, should a larger count be believed
        let (needed, mut bytes) = (length(count), pool.payload(count, 300));
        for place in 0..needed {
            if to.stopped() {
                return;
            }
            let old = bytes[place];
            let all = count < 3 || is_shown(count, place);
            for turn in 1..=if all { 255 } else { values } {
                let by = match turn {
                    _ if all => turn as u8,
                    1 => 1,
                    2 => 0x80,
                    3 => 0xff,
                    _ => 1 + random.below(255) as u8,
                };
                bytes[place] = old ^ by;
                to.branches.hit(part(count, place));
                to.read(format_args!("{count} entries, byte {place} {old:#x} to {:#x}", old ^ by), &bytes[..needed], 4 * count);
                if all && count < 3 {
                    to.read(format_args!("{count} entries, byte {place} {old:#x} to {:#x}", old ^ by), &bytes[..needed], 0);
                }
            }
            bytes[place] = old;
        }
    }
}

/// The count, and the types of the first two entries and of the last.
fn is_shown(count: usize, place: usize) -> bool {
    match place.checked_sub(compact_size(count as u64).len()) {
        None => true,
        Some(place) => place % ENTRY < 4 && (place / ENTRY < 2 || place / ENTRY + 1 == count),
    }
}

fn part(count: usize, place: usize) -> &'static str {
    match place.checked_sub(compact_size(count as u64).len()) {
        None => "case: byte of a count changed",
        Some(place) if place % ENTRY < 4 => "case: byte of a type changed",
        Some(_) => "case: byte of a hash changed",
    }
}

/// Every first byte, and every longer form with counts about its limits, before bodies that the count, read in one way or another, would have.
fn first_bytes(to: &mut Comparison, pool: &Pool) {
    let body = pool.payload(0, 600)[1..].to_vec();
    let mut tried = |what: &str, prefix: &[u8], entries: usize| {
        let mut bytes = [prefix, &body[..ENTRY * entries]].concat();
        for words in [ENOUGH, 0] {
            to.branches.hit("case: first byte and a plausible tail");
            to.read(format_args!("{what} {prefix:x?}, {entries} entries"), &bytes, words);
        }
        bytes.push(0);
        to.read(format_args!("{what} {prefix:x?}, {entries} entries and a byte"), &bytes, ENOUGH);
    };
    for first in 0..=255_u8 {
        for entries in around(first.into(), 1..1).chain([0, 256, 257]) {
            tried("count", &[first], entries);
        }
    }
    for count in [0, 1, 2, 251, 252, 253, 254, 255, 256, 257, 258, 512] {
        let (little, big) = ((count as u64).to_le_bytes(), (count as u64).to_be_bytes());
        for (first, width) in [(0xfd, 2), (0xfe, 2), (0xfe, 4), (0xff, 2), (0xff, 4), (0xff, 8)] {
            for entries in around(count, 1..1).chain([0]) {
                tried("count low byte first", &[&[first], &little[..width]].concat(), entries);
                tried("count high byte first", &[&[first], &big[8 - width..]].concat(), entries);
            }
        }
        for high in [0x1_0000_u64, 0x100_0000, 0x1_0000_0000, 1 << 48, 1 << 56, 1 << 63] {
            let number = high + count as u64;
            let wide = if high < 1 << 32 { [&[0xfe], &number.to_le_bytes()[..4]].concat() } else { compact_size(number) };
            tried("large count", &wide, count);
        }
    }
}

/// Each two-byte count before bodies of the length that it says, and of others.
fn two_byte_counts(to: &mut Comparison, pool: &Pool) {
    let mut bytes = pool.payload(65_536, 64)[2..].to_vec();
    for count in 0..=u16::MAX {
        if to.stopped() {
            return;
        }
        let [low, high] = count.to_le_bytes();
        bytes[..3].copy_from_slice(&[0xfd, low, high]);
        let said = 3 + ENTRY * usize::from(count);
        let others = [low.into(), high.into(), count.swap_bytes().into(), MOST].map(|entries: usize| 3 + ENTRY * entries);
        let words = if count < 300 { ENOUGH } else { usize::from(count % 3) * 4 };
        for length in [said, said - 1, said + 1, said.max(39) - ENTRY, said + ENTRY, 3].into_iter().chain(others) {
            to.branches.hit("case: two-byte count");
            to.read(format_args!("{count} in two bytes"), &bytes[..length], words);
        }
    }
}

/// Random lists and random outputs; their payloads whole and changed; bytes by chance.
fn at_random(to: &mut Comparison, pool: &Pool, times: u64, random: &mut Random) {
    for turn in 0..times {
        if to.stopped() {
            return;
        }
        let count = match random.below(4) {
            0 => random.below(258) as usize,
            1 => 250 + random.below(8) as usize,
            _ => random.below(12) as usize,
        };
        let from = random.below(200_000) as usize;
        let list = &pool.words[from..][..4 * count + random.below(4) as usize];
        let needed = length(count);
        to.branches.hit("case: random list");
        to.write(format_args!("random list {turn}"), list, near(random, needed));
        let whole = payload(&of_words(list));
        to.read(format_args!("random payload {turn}"), &whole, near(random, 4 * count));
        let changed = changed(random, whole, pool);
        to.branches.hit("case: random change of a payload");
        to.read(format_args!("random payload {turn}, changed"), &changed, near(random, 4 * count));
        let noise: Vec<u8> = (0..random.below(80)).map(|_| random.next() as u8 >> random.below(8)).collect();
        to.read(format_args!("bytes by chance {turn}"), &noise, near(random, 4));
    }
}

fn near(random: &mut Random, needed: usize) -> usize {
    match random.below(5) {
        0 => random.below(needed as u64 + 1) as usize,
        1 => needed,
        _ => (needed + random.below(9) as usize).saturating_sub(4),
    }
}

/// One to three changes: a byte set, taken out, put in or swapped, an entry doubled, the end cut, bytes put behind.
fn changed(random: &mut Random, mut bytes: Vec<u8>, pool: &Pool) -> Vec<u8> {
    for _ in 0..1 + random.below(3) {
        let place = random.below(bytes.len() as u64 + 1) as usize;
        let inside = place < bytes.len();
        match random.below(7) {
            0 if inside => bytes[place] = random.next() as u8,
            1 if inside => drop(bytes.remove(place)),
            2 => bytes.insert(place, random.pick(&[0, 1, 2, 0x40, 0xfd, 0xff])),
            3 if place > 0 && inside => bytes.swap(place - 1, place),
            4 => bytes.extend([&TYPE[..], &pool.hashes[place]].concat()),
            5 => bytes.truncate(place),
            _ => bytes.extend((0..random.below(4)).map(|_| 0)),
        }
    }
    bytes
}
