//! Closed checks of getdata's definitions: lists written and payloads read, with the answers and the lent output of the reference in `getdata`.

use crate::checks::digest;
use crate::spell;
use getdata::published::{Message, messages};
use getdata::reference::{Hash, MOST, Reference, hashes, of_words, payload, to_words};
use getdata::{Answer, Getdata};
use std::collections::BTreeSet;

/// Counts on either side of every limit. A call on a large one takes the checker a fifth of a second.
const COUNTS: [usize; 10] = [0, 1, 2, 3, 252, 253, 254, 255, 256, 257];
/// From here on a count is large.
const LARGE: usize = 250;
/// In one entry of so many of the payload of 253 a byte of the type and one of the hash are changed; of other large ones, in the first and the last.
const APART: usize = 36;
/// A list that is well above the most; the checker's stack is too small for one of 65,535.
const ABOVE: usize = 1_000;

/// The modules, by name and text, and how many calls they check.
pub fn modules() -> (Vec<(String, String)>, usize) {
    let mut checks = Checks::default();
    let parts: [Part; 5] = [
        ("GetdataWritten", written),
        ("GetdataRead", read),
        ("GetdataByHand", by_hand),
        ("GetdataChanged", changed),
        ("GetdataCut", cut),
    ];
    let modules = parts.map(|(name, part)| {
        part(&mut checks);
        (name.to_string(), std::mem::take(&mut checks.text))
    });
    (modules.into(), checks.calls)
}

/// A module's name, and what writes it.
type Part = (&'static str, fn(&mut Checks));

/// Places of a payload, and what they hold then.
type Change = Vec<(usize, u8)>;

#[derive(Default)]
struct Checks {
    text: String,
    calls: usize,
}

impl Checks {
    /// A list that theorems name.
    fn list(&mut self, name: &str, numbers: impl IntoIterator<Item = impl Into<u64>>) {
        let spelled = spell::list(numbers.into_iter().map(Into::into));
        self.text += &format!("unfoldable {name} : List ℕ\n{name} = {spelled}\n\n");
    }

    /// A theorem on a named list: a test that computes to `true`.
    fn theorem(&mut self, name: &str, list: &str, test: &str, arguments: &str, expected: Vec<u64>) {
        self.calls += expected.len();
        let expected = spell::list(expected);
        self.text +=
            &format!("{name} : {test} {list} {arguments} ({expected}) ≡ true\nunfolding {test} {list}\n{name} = refl\n\n");
    }

    /// The list into outputs of these lengths.
    fn writes(&mut self, words: &[u64], lengths: Vec<usize>) {
        let lengths: BTreeSet<usize> = lengths.into_iter().collect();
        let expected = lengths.iter().map(|length| write_digest(words, *length)).collect();
        let name = format!("words-{}", words.len());
        self.list(&name, words.iter().copied());
        let arguments = format!("({})", spell::list(lengths));
        self.theorem(&format!("written-{}", words.len()), &name, "writes_getdata", &arguments, expected);
    }

    /// The payload into lists of so many words.
    fn reads(&mut self, name: &str, list: &str, bytes: &[u8], rooms: Vec<usize>) {
        let rooms: BTreeSet<usize> = rooms.into_iter().collect();
        let expected = rooms.iter().map(|room| read_digest(bytes, *room)).collect();
        self.theorem(name, list, "reads_getdata", &format!("({})", spell::list(rooms)), expected);
    }

    /// The payload with single bytes changed.
    fn reads_changed(&mut self, name: &str, list: &str, bytes: &[u8], room: usize, changes: &[Change]) {
        let expected = changes.iter().map(|change| read_digest(&with(bytes, change), room)).collect();
        let numbers = |change: &Change| spell::list(change.iter().flat_map(|(place, byte)| [*place, (*byte).into()]));
        let spelled = spell::list(changes.iter().map(|change| format!("({})", numbers(change))));
        self.theorem(name, list, "reads_changed", &format!("{room} ({spelled})"), expected);
    }
}

/// `pattern` of Run.antt: what a lent output of this length holds beforehand.
fn pattern(length: usize) -> Vec<u64> {
    (0..length as u64).rev().map(|place| (place * 37 + 11) % 256).collect()
}

fn answer_words(answer: Answer) -> Vec<u64> {
    if answer.refused > 0 { vec![answer.refused] } else { vec![0, 0, 1, answer.value] }
}

/// The payload, where the list has one, the answer, and the output.
fn write_digest(words: &[u64], length: usize) -> u64 {
    let mut output: Vec<u8> = pattern(length).iter().map(|byte| *byte as u8).collect();
    let answer = Reference.write(words, &mut output, 0..length);
    let list = of_words(words);
    let bytes = if list.len() > MOST { Vec::new() } else { payload(&list) };
    let plain = |bytes: Vec<u8>| bytes.into_iter().map(u64::from).collect();
    digest(&[plain(bytes), answer_words(answer), plain(output)].concat())
}

/// Whether this is a payload, and its hashes; the answer, and the list.
fn read_digest(bytes: &[u8], room: usize) -> u64 {
    let mut output = pattern(room);
    let answer = Reference.read(bytes, &mut output, 0..room);
    let verdict = hashes(bytes).map_or(vec![0], |list| [vec![1], to_words(&list)].concat());
    digest(&[verdict, answer_words(answer), output].concat())
}

/// Hashes by a rule, no two words of them alike.
fn list(count: usize) -> Vec<Hash> {
    of_words(&words(4 * count))
}

fn words(number: usize) -> Vec<u64> {
    (1..=number as u64).map(|word| word.wrapping_mul(0x9e37_79b9_7f4a_7c15)).collect()
}

fn with(bytes: &[u8], change: &[(usize, u8)]) -> Vec<u8> {
    let mut bytes = bytes.to_vec();
    change.iter().for_each(|(place, byte)| bytes[*place] = *byte);
    bytes
}

/// Lists of every count of interest, whole and ragged, into outputs about as long as needed.
fn written(checks: &mut Checks) {
    for count in COUNTS {
        for ragged in if count < LARGE || count == MOST { 0..4 } else { 0..1 } {
            let words = words(4 * count + ragged);
            let needed = payload(&of_words(&words)).len();
            let about = match ragged {
                0 if count < LARGE => vec![0, 1, needed - 1, needed, needed + 1, needed + 7],
                0 => vec![0, needed - 1, needed + 7],
                _ => vec![needed],
            };
            checks.writes(&words, about);
        }
    }
    checks.writes(&words(4 * ABOVE), vec![0, 100]);
}

/// Their payloads into lists about as long as needed.
fn read(checks: &mut Checks) {
    for count in COUNTS {
        let (name, bytes, needed) = (format!("bytes-{count}"), payload(&list(count)), 4 * count);
        checks.list(&name, bytes.clone());
        let under = needed.saturating_sub(1);
        let rooms = if count < LARGE {
            vec![0, 3, under & !3, under, needed, needed + 1, needed + 3, needed + 9]
        } else {
            vec![0, under, needed, needed + 9]
        };
        checks.reads(&format!("read-{count}"), &name, &bytes, rooms);
    }
}

/// The messages worked out by hand.
fn by_hand(checks: &mut Checks) {
    for (number, Message { payload, .. }) in messages().into_iter().enumerate() {
        let name = format!("message-{number}");
        checks.list(&name, payload.clone());
        let rooms = if payload.len() < 200 { vec![0, 4 * MOST] } else { vec![4 * MOST] };
        checks.reads(&format!("by-hand-{number}"), &name, &payload, rooms);
    }
}

/// Single bytes changed: in small payloads every byte, in large ones the count's and some. Two-byte counts before few entries.
fn changed(checks: &mut Checks) {
    for count in 0..3 {
        let (name, bytes) = (format!("small-{count}"), payload(&list(count)));
        checks.list(&name, bytes.clone());
        // in the count and the first type of one entry every other value
        let all = |place| place == 0 || count == 1 && place < 5;
        let values = |place| if all(place) { (1..=255).collect() } else { vec![1, 2, 0x40, 0x80, 0xff] };
        let each = |place: usize| values(place).into_iter().map(|by| vec![(place, bytes[place] ^ by)]).collect::<Vec<_>>();
        let changes: Vec<Change> = (0..bytes.len()).flat_map(each).collect();
        checks.reads_changed(&format!("changed-{count}"), &name, &bytes, 4 * count, &changes);
    }
    let bytes = payload(&list(1));
    checks.reads_changed("two-byte-counts", "small-1", &bytes, 8, &two_byte_counts().collect::<Vec<_>>());
    for count in [252, 253, 256] {
        let (name, bytes) = (format!("large-{count}"), payload(&list(count)));
        checks.list(&name, bytes.clone());
        let first = bytes.len() - 36 * count;
        let apart = if count == 253 { APART } else { count };
        let entries = (0..count).step_by(apart).chain([count - 1]);
        let places =
            (0..first).chain(entries.flat_map(|entry| [first + 36 * entry + entry % 4, first + 36 * entry + 4 + entry % 32]));
        let changes: Vec<Change> = places.map(|place| vec![(place, bytes[place] ^ 1)]).collect();
        checks.reads_changed(&format!("changed-{count}"), &name, &bytes, 4 * count, &changes);
    }
}

/// 0xFD and two bytes: every low byte with some high ones.
fn two_byte_counts() -> impl Iterator<Item = Change> {
    [0, 1, 2, 0xfd].into_iter().flat_map(|high| (0..=255).map(move |low| vec![(0, 0xfd), (1, low), (2, high)]))
}

/// Payloads cut, and payloads with more behind, which is two further entries.
fn cut(checks: &mut Checks) {
    for count in [0, 1, 2, 252, 253, 256] {
        let (name, mut bytes) = (format!("longer-{count}"), payload(&list(count)));
        let needed = bytes.len();
        bytes.extend(&payload(&list(2))[1..]);
        checks.list(&name, bytes.clone());
        let near =
            (0..5).chain([36, 1, 0].map(|less| needed.saturating_sub(less))).chain([1, 2, 36, 37].map(|more| needed + more));
        let lengths: BTreeSet<usize> = if count < LARGE { (0..=bytes.len()).collect() } else { near.collect() };
        let expected = lengths.iter().map(|length| read_digest(&bytes[..*length], 4 * count)).collect();
        let arguments = format!("{} ({})", 4 * count, spell::list(&lengths));
        checks.theorem(&format!("cut-{count}"), &name, "reads_cut", &arguments, expected);
    }
}
