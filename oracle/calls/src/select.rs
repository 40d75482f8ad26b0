//! Few calls that show every event: some sequences chosen out of many.
//!
//! Where a call is dear to check, a run of a seed's first calls would leave rare events out. Sequences
//! are independent of each other, so a choice of them is a run as good as any.

use crate::compare;
use crate::data::{Call, Outcome, Window};
use crate::events;
use crate::generator::Profile;
use crate::tally::Tally;
use std::collections::{BTreeMap, BTreeSet};
use std::iter::repeat;

/// How many calls the sequences are chosen out of.
pub const POOL: u64 = 400_000;

/// A set of events: one bit each.
type Events = Vec<u64>;

struct Sequence {
    number: u64,
    calls: u64,
    events: Events,
}

/// The chosen sequences' numbers: first those that show the most new events a call, until none is
/// missing, then others in order, up to about `calls` calls. A sequence with a call that does not fit
/// is left out.
pub fn covering(
    window: &mut dyn Window,
    seed: u64,
    profile: Profile,
    calls: u64,
    fits: fn(&Call, &Outcome) -> bool,
) -> BTreeSet<u64> {
    let sequences = sequences(window, seed, profile, fits);
    let mut chosen = BTreeSet::new();
    let mut shown: Events = Vec::new();
    let mut total = 0;
    while let Some(best) = most_telling(&sequences, &shown) {
        total += best.calls;
        chosen.insert(best.number);
        shown.resize(shown.len().max(best.events.len()), 0);
        shown.iter_mut().zip(&best.events).for_each(|(shown, more)| *shown |= more);
    }
    for sequence in sequences {
        if total + sequence.calls <= calls && chosen.insert(sequence.number) {
            total += sequence.calls;
        }
    }
    chosen
}

/// Drives the window through all sequences and shows the chosen ones, each after the chosen one before.
pub fn run(
    window: &mut dyn Window,
    seed: u64,
    profile: Profile,
    chosen: &BTreeSet<u64>,
    mut each: impl FnMut(Option<&Outcome>, &Call, &Outcome),
) {
    let mut number = 0;
    let mut last: Option<Outcome> = None;
    compare::run(window, seed, profile, POOL, |_, call, outcome| {
        number += u64::from(matches!(call, Call::Open { .. }));
        if chosen.contains(&number) {
            each(last.as_ref(), call, outcome);
            last = Some(outcome.clone());
        }
    });
}

/// Every sequence of the pool that fits, with its events; the last one, which may be cut off, is left out.
fn sequences(window: &mut dyn Window, seed: u64, profile: Profile, fits: fn(&Call, &Outcome) -> bool) -> Vec<Sequence> {
    let mut sequences: Vec<Sequence> = Vec::new();
    let (mut number, mut fit) = (0, true);
    let mut places: BTreeMap<String, usize> = BTreeMap::new();
    let mut tally = Tally::default();
    let mut calls = 0;
    compare::run(window, seed, profile, POOL, |before, call, outcome| {
        if matches!(call, Call::Open { .. }) && before.is_some() {
            let events = as_bits(&std::mem::take(&mut tally), &mut places);
            number += 1;
            if fit {
                sequences.push(Sequence { number, calls, events });
            }
            (calls, fit) = (0, true);
        }
        calls += 1;
        fit &= fits(call, outcome);
        events::count(&mut tally, before, call, outcome);
    });
    sequences
}

/// Each event's bit is the place at which its name was first met.
fn as_bits(tally: &Tally, places: &mut BTreeMap<String, usize>) -> Events {
    let mut events: Events = Vec::new();
    for name in tally.happened() {
        let next = places.len();
        let place = *places.entry(name).or_insert(next);
        events.resize(events.len().max(place / 64 + 1), 0);
        events[place / 64] |= 1 << (place % 64);
    }
    events
}

fn most_telling<'a>(sequences: &'a [Sequence], shown: &Events) -> Option<&'a Sequence> {
    let news = |sequence: &Sequence| -> u64 {
        let words = sequence.events.iter().zip(shown.iter().chain(repeat(&0)));
        words.map(|(event, shown)| u64::from((event & !shown).count_ones())).sum()
    };
    let telling = sequences.iter().filter(|sequence| news(sequence) > 0);
    telling.max_by_key(|sequence| news(sequence) * 1_000 / sequence.calls)
}
