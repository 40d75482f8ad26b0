//! Plans over odd lists: hashes named twice, chains that do not hold together, staged hashes that are pending, ragged lists. What goes and the window after it
//! are the original's all the same, and so is the request, but where the original's own names a hash twice: there it is as request 02 says it. Request 02's
//! promises hold of every plan.

use crate::beside::difference;
use crate::lent::{Lent, Said};
use crate::window::{Library, release};
use calls::figures::Loaded;
use calls::generator::{Generator, Planning, Profile};
use calls::odd::{names_twice, spoiled};
use calls::random::Random;
use calls::{Answer, Call, Outcome, Release, State, Window, events, sound};
use layout::{decode, encode, is_window};
use ordered::Original;

#[derive(Default)]
pub struct OddLists {
    /// Plans over odd lists, those of them that came to a request, and those whose request in the Rust names a hash twice.
    pub plans: u64,
    pub requests: u64,
    pub twice: u64,
    /// The same call with ragged lists or room to spare: nothing differs.
    pub ragged: u64,
    pub failures: Vec<String>,
}

impl OddLists {
    pub fn run(&mut self, cases: u64, seed: u64) {
        let mut random = Random::new(seed ^ 0x0dd_1157);
        let profile = Profile { planning: Planning::Mostly, ..Profile::default() };
        let mut generator = Generator::new(seed, profile);
        let mut original = Original::default();
        let mut last: Option<Outcome> = None;
        let mut cases_left = cases;
        while cases_left > 0 {
            let call = generator.next(last.as_ref());
            if let (Some(_), Some(before)) = (call.plan(), &last) {
                cases_left -= 1;
                self.one(&spoiled(&mut random, &call, &before.state), &before.state);
                self.ragged(&mut random, &call, &before.state);
            }
            last = Some(original.call(&call));
        }
    }

    /// The original in this state has noted no tip, so it does not retarget.
    fn one(&mut self, call: &Call, state: &State) {
        self.plans += 1;
        let theirs = Original::loaded(state).call(call);
        let mine = Library::loaded(state).try_call(call);
        let Ok(outcome) = &mine else {
            self.failures.push(difference(call, &theirs, mine));
            return;
        };
        self.requests += u64::from(outcome.answer != Answer::Proposed(None));
        let broken = sound::broken_promises(call, outcome);
        if !broken.is_empty() {
            self.failures.push(format!("{broken:?} by {call:?}: {:?}", outcome.answer));
        }
        let before = Outcome { answer: Answer::Done, gone: Vec::new(), state: state.clone() };
        let told = Outcome { answer: events::told_plan(&before, call, &theirs), ..theirs.clone() };
        let twice = names_twice(&theirs.answer);
        self.twice += u64::from(twice);
        if told.answer != theirs.answer && !twice {
            self.failures.push(difference(call, &theirs, Ok(told)));
        } else if *outcome != told {
            self.failures.push(difference(call, &told, mine));
        }
    }

    /// Words past the last whole hash of a staged or refused list, and more room for the plan, change nothing.
    fn ragged(&mut self, random: &mut Random, call: &Call, state: &State) {
        self.ragged += 1;
        let (plain, mut ragged) = (raw::Call::from(call), raw::Call::from(call));
        let (lent, room) = ragged.plan_mut().expect("a plan");
        let known = lent.chain[..3].to_vec();
        lent.staged.extend(&known[..random.below(4) as usize]);
        lent.refused.extend(&known[..random.below(4) as usize]);
        room.hash_words += random.below(9) as usize;
        room.heights += random.below(9) as usize;
        let (plain, ragged) = (performed(&plain, state), performed(&ragged, state));
        if plain != ragged {
            self.failures.push(format!("ragged: {ragged:?}\nplain: {plain:?}\n{call:?}"));
        }
    }
}

/// Answer, what went, and the window after it.
fn performed(call: &raw::Call, state: &State) -> (Said, Option<Vec<Release>>, Option<State>) {
    let mut lent = Lent::new(&encode(state), 256);
    let said = lent.perform(call);
    let places = if let Said::Answered(_, places) = said { places as usize } else { 0 };
    let gone = lent.report()[..places.min(256)].iter().map(release).collect();
    (said, gone, decode(lent.words()).filter(|_| is_window(lent.words())))
}
