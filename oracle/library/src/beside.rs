//! The same seeded calls through the original and through the library: answers, releases in report order and whole states are equal.

use crate::window::Library;
use calls::events;
use calls::generator::{Generator, Planning, Profile};
use calls::tally::Tally;
use calls::{Call, Outcome, Window, sound, text};
use ordered::Original as Ordered;
use own_maps::Original as OwnMaps;
use std::collections::BTreeMap;

/// Plans are among the calls, where the library plans.
pub const PLANNING: Planning = if cfg!(planning) { Planning::Among } else { Planning::Without };

pub fn profile() -> Profile {
    Profile { planning: PLANNING, ..Profile::default() }
}

/// What runs came to.
#[derive(Default)]
pub struct Result {
    pub seeds: u64,
    pub calls: u64,
    pub sequences: u64,
    pub by_kind: BTreeMap<String, u64>,
    /// Entries in reports.
    pub released: u64,
    pub failures: Vec<String>,
    pub tally: Tally,
}

impl Result {
    pub fn run(&mut self, calls: u64, first_seed: u64, seeds: u64) {
        for seed in first_seed..first_seed + seeds {
            self.seeds += 1;
            let ordered = calls / seeds / 2;
            let distinct = Profile { distinct_heights: true, ..profile() };
            self.beside("ordered maps", &mut Ordered::default(), seed, profile(), ordered);
            self.beside("its own maps", &mut OwnMaps::default(), seed, distinct, calls / seeds - ordered);
        }
    }

    fn beside(&mut self, build: &str, original: &mut dyn Window, seed: u64, profile: Profile, calls: u64) {
        let mut library = Library::default();
        let mut generator = Generator::new(seed, profile);
        let mut last: Option<Outcome> = None;
        for number in 1..=calls {
            let call = generator.next(last.as_ref());
            let theirs = original.call(&call);
            let kind = raw::kind(&raw::Call::from(&call));
            match library.try_call(&call) {
                Ok(mine) if mine == theirs && sound::broken_promises(&call, &mine).is_empty() => {
                    events::count(&mut self.tally, last.as_ref(), &call, &mine);
                    self.calls += 1;
                    self.released += mine.gone.len() as u64;
                    *self.by_kind.entry(kind).or_default() += 1;
                    last = Some(mine);
                }
                other => {
                    self.failures.push(format!("seed {seed}, {build}, call {number}: {}", difference(&call, &theirs, other)));
                    break;
                }
            }
        }
        self.sequences += generator.sequences();
    }
}

/// The call, and what differs.
pub fn difference(call: &Call, theirs: &Outcome, mine: std::result::Result<Outcome, String>) -> String {
    let shown = match mine {
        Ok(mine) => text::differing_tokens(&text::line(call, theirs), &text::line(call, &mine))
            .iter()
            .map(|(theirs, mine)| format!("\n  the Rust    {theirs}\n  the library {mine}"))
            .collect(),
        Err(problem) => format!("\n  {problem}"),
    };
    format!("{call:?}{shown}")
}
