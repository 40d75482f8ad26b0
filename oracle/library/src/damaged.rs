//! Damaged memory: random words, windows with one to four words changed, wrong lengths, short reports. Whether the words count as a
//! window is the independent reader's to say; those that still count are loaded into the original, and calls go through both.

use crate::beside::{difference, profile};
use crate::refused::answers;
use crate::window::Library;
use calls::figures::Loaded;
use calls::generator::Generator;
use calls::random::Random;
use calls::{Answer, Call, Outcome, State, Window};
use layout::{HEAD, WORDS, decode, encode, is_window};
use ordered::Original;

#[path = "../../../damage/windows.rs"]
#[allow(dead_code)]
mod windows;

/// Calls through both on words that still count.
const CALLS: u64 = 6;

#[derive(Default)]
pub struct Damaged {
    pub random: u64,
    pub changed: u64,
    pub made: u64,
    /// Changed or made ones that count as a window, and the calls on them.
    pub counted: u64,
    pub compared: u64,
    pub refused: u64,
    pub failures: Vec<String>,
}

impl Damaged {
    /// So many cases of each kind, along the windows of seeded calls.
    pub fn run(&mut self, cases: u64, seed: u64) {
        let mut random = Random::new(seed ^ 0xda3a6ed);
        let mut made = windows::Rng(random.next() | 1);
        let mut generator = Generator::new(seed, profile());
        let mut original = Original::default();
        let mut last: Option<Outcome> = None;
        for case in 0..cases {
            for _ in 0..1 + random.below(8) {
                let call = generator.next(last.as_ref());
                last = Some(original.call(&call));
            }
            let state = &last.as_ref().expect("a call was made").state;
            let words = encode(state);
            self.random += 1;
            self.one(&random_words(&mut random, &words), state, &generator, &mut random);
            self.changed += 1;
            self.one(&changed(&mut random, &words), state, &generator, &mut random);
            self.made += 1;
            let kind = windows::kind(&mut made, [0, 1, 2, 9, 40, 255, 256][case as usize % 7]);
            let mut words = windows::window(&mut made, &kind);
            if random.chance(50) {
                words = changed(&mut random, &words);
            }
            self.one(&words, state, &generator, &mut random);
        }
    }

    /// Calls that the state leads to; on other words those that the undamaged state leads to.
    fn one(&mut self, words: &[u64], state: &State, generator: &Generator, random: &mut Random) {
        let mut generator = generator.clone();
        match decode(words).filter(|_| is_window(words)) {
            Some(state) => {
                self.counted += 1;
                self.both(&state, &mut generator);
                self.short_report(words, &state, &mut generator, random);
            }
            None => {
                let call = next_call(&mut generator, state);
                self.refused(&call, words, random);
            }
        }
    }

    fn both(&mut self, state: &State, generator: &mut Generator) {
        let (mut original, mut library) = (Original::loaded(state), Library::loaded(state));
        let mut last = Outcome { answer: Answer::Done, gone: Vec::new(), state: original.state().clone() };
        if last.state != *state {
            self.failures.push(format!("the original does not hold {state:?}"));
            return;
        }
        for _ in 0..CALLS {
            let call = generator.next(Some(&last));
            let theirs = original.call(&call);
            self.compared += 1;
            match library.try_call(&call) {
                Ok(mine) if mine == theirs => last = mine,
                other => {
                    self.failures.push(format!("in {:?}\n{}", last.state, difference(&call, &theirs, other)));
                    return;
                }
            }
        }
    }

    fn short_report(&mut self, words: &[u64], state: &State, generator: &mut Generator, random: &mut Random) {
        let call = next_call(generator, state);
        let places = random.pick(&[0, 1, 128, 254, 255]);
        self.hold(&call, words, places);
    }

    fn refused(&mut self, call: &Call, words: &[u64], random: &mut Random) {
        let places = random.pick(&[0, 255, 256, 256, 256, 300]);
        self.hold(call, words, places);
    }

    fn hold(&mut self, call: &Call, words: &[u64], places: usize) {
        let raw = raw::Call::from(call);
        let number = raw::refusal(&raw, words, places);
        self.refused += u64::from(number > 0);
        if let Err(problem) = answers(&raw, words, places, number) {
            self.failures.push(format!("{call:?}, {places} places: {problem}\nwords {words:?}"));
        }
    }
}

fn next_call(generator: &mut Generator, state: &State) -> Call {
    let shown = Outcome { answer: Answer::Done, gone: Vec::new(), state: state.clone() };
    generator.next(Some(&shown))
}

/// Words by chance, whole ones or behind a true head; or a window's of another length.
fn random_words(random: &mut Random, window: &[u64]) -> Vec<u64> {
    let mut words = window.to_vec();
    match random.below(4) {
        0 => words.iter_mut().for_each(|word| *word = random.next()),
        1 => words.iter_mut().for_each(|word| *word = random.below(3)),
        2 => words[..HEAD].iter_mut().for_each(|word| *word = random.next() >> random.below(64)),
        _ => {
            let length = random.pick(&[0, 1, 2, HEAD, WORDS - 1, WORDS + 1, 2 * WORDS, 5_000]);
            words.resize(length, random.below(2));
        }
    }
    words
}

/// One to four words of the window changed, half of them in its head.
fn changed(random: &mut Random, window: &[u64]) -> Vec<u64> {
    let mut words = window.to_vec();
    for _ in 0..1 + random.below(4) {
        let place = match random.below(4) {
            0 | 1 => HEAD + random.below(100) as usize,
            2 => 256 * random.below(14) as usize + random.below(1 + words[HEAD + 1] % 257) as usize % 256,
            _ => random.below(WORDS as u64) as usize,
        };
        let (old, other) = (words[place], words[random.below(WORDS as u64) as usize]);
        let clock = words[HEAD + 2];
        words[place] = match random.below(12) {
            0 => 0,
            1 => random.next(),
            2 => old.wrapping_add(1),
            3 => old.wrapping_sub(1),
            4 => random.below(300),
            5 => old ^ (1 << random.below(64)),
            6 => other,
            7 => clock,
            8 => clock.wrapping_add(1),
            9 => random.below(clock.saturating_add(2)),
            10 => random.pick(&[8, 79, 80, 255, 256, 65_535, 65_536, u64::from(u32::MAX), 1 << 32, 1 << 40, 1 << 62]),
            _ => random.below(1 << 32),
        };
    }
    words
}
