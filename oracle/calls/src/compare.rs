//! Seeded runs: one window driven alone, or two side by side until they differ.

use crate::data::{Call, Outcome, Window};
use crate::generator::{Generator, Profile};
use crate::text;

/// Drives a window through a seed's calls and shows each with the outcome before and after it.
/// Returns how many sequences were begun.
pub fn run(
    window: &mut dyn Window,
    seed: u64,
    profile: Profile,
    calls: u64,
    mut each: impl FnMut(Option<&Outcome>, &Call, &Outcome),
) -> u64 {
    let mut generator = Generator::new(seed, profile);
    let mut last: Option<Outcome> = None;
    for _ in 0..calls {
        let call = generator.next(last.as_ref());
        let outcome = window.call(&call);
        each(last.as_ref(), &call, &outcome);
        last = Some(outcome);
    }
    generator.sequences()
}

/// Where two windows first differed.
pub struct Difference {
    /// 1 for the run's first call.
    pub call_number: u64,
    pub call: Call,
    /// The differing tokens of the two lines.
    pub tokens: Vec<(String, String)>,
    /// The calls of the sequence up to this one.
    pub sequence: Vec<Call>,
}

/// Drives both windows by the calls that the first one's outcomes lead to; returns the sequences begun.
pub fn first_difference(
    left: &mut dyn Window,
    right: &mut dyn Window,
    seed: u64,
    profile: Profile,
    calls: u64,
) -> Result<u64, Box<Difference>> {
    let mut generator = Generator::new(seed, profile);
    let mut last: Option<Outcome> = None;
    let mut sequence: Vec<Call> = Vec::new();
    for call_number in 1..=calls {
        let call = generator.next(last.as_ref());
        if matches!(call, Call::Open { .. }) {
            sequence.clear();
        }
        sequence.push(call.clone());
        let (mine, theirs) = (left.call(&call), right.call(&call));
        if mine != theirs {
            let tokens = text::differing_tokens(&text::line(&call, &mine), &text::line(&call, &theirs));
            return Err(Box::new(Difference { call_number, call, tokens, sequence }));
        }
        last = Some(mine);
    }
    Ok(generator.sequences())
}
