//! A writer and reader beside the reference: answers and all memory, what is lent and what lies around it.

use crate::branches::Branches;
use crate::cases::Cases;
use crate::reference::{Reference, of_words, payload, to_words};
use crate::{Answer, Getdata};
use calls::random::Random;
use std::fmt::{Arguments, Debug};

/// Elements before and after what is lent; before it up to seven more, so that a byte's address takes every remainder by eight.
const GUARDS: usize = 16;
/// Patterns that memory holds beforehand, taken in turn.
const PATTERNS: usize = 61;
/// More than any output that is lent.
const LENT_MOST: usize = 16_384;

/// How much is compared: other values a byte of a large payload, random lists and payloads.
#[derive(Clone, Copy)]
pub struct Depth {
    pub values: usize,
    pub random: u64,
}

impl Depth {
    pub const MISTAKES: Self = Self { values: 1, random: 1_000 };
    pub const SHORT: Self = Self { values: 3, random: 4_000 };
    pub const LONG: Self = Self { values: 16, random: 200_000 };
}

/// What a comparison came to.
pub struct Comparison<'a> {
    subject: &'a dyn Getdata,
    pub passed: u64,
    pub branches: Branches,
    pub failures: Vec<String>,
    /// After so many failures nothing more is tried.
    most: usize,
    turn: usize,
    bytes: Memory<u8>,
    words: Memory<u64>,
}

/// Memory as it is before a call, and twice for the call: the reference's and the subject's.
struct Memory<T> {
    pattern: Vec<T>,
    wanted: Vec<T>,
    found: Vec<T>,
}

impl<T: Copy + PartialEq> Memory<T> {
    fn new(pattern: Vec<T>) -> Self {
        Self { wanted: pattern.clone(), found: pattern.clone(), pattern }
    }

    /// So many elements, with a pattern of this turn.
    fn fresh(&mut self, length: usize, turn: usize) -> (&mut [T], &mut [T]) {
        let before = &self.pattern[turn % PATTERNS..][..length];
        self.wanted[..length].copy_from_slice(before);
        self.found[..length].copy_from_slice(before);
        (&mut self.wanted[..length], &mut self.found[..length])
    }
}

impl<'a> Comparison<'a> {
    pub fn new(subject: &'a dyn Getdata, most: usize) -> Self {
        let mut random = Random::new(0x6765_7464);
        let length = LENT_MOST + PATTERNS + 3 * GUARDS;
        let words: Vec<u64> = (0..length).map(|_| random.next()).collect();
        let bytes = words.iter().map(|word| *word as u8).collect();
        Self {
            subject,
            passed: 0,
            branches: Branches::default(),
            failures: Vec::new(),
            most,
            turn: 0,
            bytes: Memory::new(bytes),
            words: Memory::new(words),
        }
    }

    /// Every case.
    pub fn run(&mut self, cases: &Cases, depth: Depth) {
        cases.run(self, depth);
        if !self.stopped() {
            let missed = self.branches.table().filter(|(_, times)| *times == 0);
            self.failures.extend(missed.map(|(name, _)| format!("no case came to: {name}")));
        }
    }

    pub fn stopped(&self) -> bool {
        self.failures.len() >= self.most
    }

    /// The list written into an output of this length.
    pub fn write(&mut self, what: Arguments, hashes: &[u64], length: usize) {
        if self.stopped() {
            return;
        }
        self.turn += 1;
        let before = GUARDS + self.turn % 8;
        let lent = before..before + length;
        let (wanted_memory, found_memory) = self.bytes.fresh(lent.end + GUARDS, self.turn);
        let wanted = Reference.write(hashes, wanted_memory, lent.clone());
        let found = self.subject.write(hashes, found_memory, lent.clone());
        let problem = problem(wanted, found, wanted_memory, found_memory, lent.start);
        self.branches.written(hashes.len(), length, wanted);
        self.tell(what, "write", format_args!("{} words into {length} bytes", hashes.len()), problem);
    }

    /// The payload read into a list of so many words.
    pub fn read(&mut self, what: Arguments, payload: &[u8], words: usize) {
        if self.stopped() {
            return;
        }
        self.turn += 1;
        let lent = GUARDS..GUARDS + words;
        let (wanted_memory, found_memory) = self.words.fresh(lent.end + GUARDS, self.turn);
        let wanted = Reference.read(payload, wanted_memory, lent.clone());
        let found = self.subject.read(payload, found_memory, lent.clone());
        let problem = problem(wanted, found, wanted_memory, found_memory, lent.start);
        self.branches.read(payload, words, wanted);
        self.tell(what, "read", format_args!("{} bytes into {words} words", payload.len()), problem);
    }

    /// A list written and read is the list again, and its payload read and written its own bytes, by the subject alone.
    pub fn there_and_back(&mut self, what: Arguments, hashes: &[u64]) {
        if self.stopped() {
            return;
        }
        let mut bytes = vec![0xee; payload(&of_words(hashes)).len()];
        let length = bytes.len();
        let wrote = self.subject.write(hashes, &mut bytes, 0..length);
        let mut list = vec![0x5555; hashes.len()];
        let read = self.subject.read(&bytes, &mut list, 0..hashes.len());
        let same = wrote == Answer::wrote(length) && read == Answer::wrote(hashes.len() / 4) && list == hashes;
        self.branches.hit("there and back: list");
        let wrong = (!same).then(|| format!("{wrote:?}, {read:?}, not the list again"));
        self.tell(what, "there and back", format_args!("{} words", hashes.len()), wrong);
        let mut again = vec![0x77; length];
        let wrote = self.subject.write(&list, &mut again, 0..length);
        let same = wrote == Answer::wrote(length) && again == bytes;
        self.branches.hit("there and back: payload");
        let wrong = (!same).then(|| format!("{wrote:?}, not its own bytes"));
        self.tell(what, "back and there", format_args!("{length} bytes"), wrong);
    }

    /// A payload worked out by hand and its list: the reference and the subject both come to it.
    pub fn by_hand(&mut self, what: &str, payload: &[u8], words: Option<&[u64]>) {
        self.branches.hit("case: message worked out by hand");
        let reference = crate::reference::hashes(payload).ok().map(|hashes| to_words(&hashes));
        let wrong = (reference.as_deref() != words).then(|| format!("the reference reads {reference:?}"));
        self.tell(format_args!("{what}"), "by hand", format_args!("reference"), wrong);
        self.read(format_args!("{what}"), payload, 4 * 256);
        let Some(words) = words.filter(|_| !self.stopped()) else { return };
        let mut bytes = vec![0xee; payload.len()];
        let wrote = self.subject.write(words, &mut bytes, 0..payload.len());
        let same = wrote == Answer::wrote(payload.len()) && bytes == payload;
        let wrong = (!same).then(|| format!("{wrote:?}, not the bytes of the message"));
        self.tell(format_args!("{what}"), "by hand", format_args!("written"), wrong);
    }

    fn tell(&mut self, what: Arguments, call: &str, lent: Arguments, problem: Option<String>) {
        match problem {
            None => self.passed += 1,
            Some(problem) => self.failures.push(format!("{what}: {call}, {lent}: {problem}")),
        }
    }
}

/// What differs in the answer, or else the first place of the memory that does, counted from the first that is lent.
fn problem<T: PartialEq + Debug>(
    wanted: Answer,
    found: Answer,
    wanted_memory: &[T],
    found_memory: &[T],
    first: usize,
) -> Option<String> {
    if wanted != found {
        return Some(format!("{found:?}, and not {wanted:?}"));
    }
    if wanted_memory == found_memory {
        return None;
    }
    let place = wanted_memory.iter().zip(found_memory).position(|(wanted, found)| wanted != found)?;
    let (wanted, found) = (&wanted_memory[place], &found_memory[place]);
    Some(format!("place {} holds {found:x?}, and not {wanted:x?}", place as i64 - first as i64))
}
