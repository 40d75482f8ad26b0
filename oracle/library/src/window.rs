//! The library behind `calls::Window`: words lent to it, read back by the independent reader of docs/LAYOUT.md.

use crate::ffi;
use crate::lent::{Lent, Said, plain_hash};
use calls::figures::Loaded;
use calls::{Call, Entry, Outcome, Reason, Release, State, Window};
use layout::{WORDS, decode, encode, is_window};

/// The report's length in all runs.
const PLACES: usize = 256;

pub struct Library {
    lent: Lent,
    before: Vec<u64>,
    turn: u64,
}

impl Default for Library {
    /// Memory that holds no window: an opening is to come.
    fn default() -> Self {
        Self { lent: Lent::new(&[u64::MAX; WORDS], PLACES), before: vec![0; WORDS], turn: 0 }
    }
}

impl Library {
    pub fn words(&self) -> &[u64] {
        self.lent.words()
    }

    /// A call that is to be accepted, or what was wrong.
    pub fn try_call(&mut self, call: &Call) -> Result<Outcome, String> {
        self.turn += 1;
        self.before.copy_from_slice(self.lent.words());
        let filler = self.lent.fill_report(self.turn);
        let said = self.lent.perform(&raw_call(call, self.turn));
        if !self.lent.guards_whole() {
            return Err("memory beside words and report was written".to_string());
        }
        let (answer, places) = match said {
            Said::Answered(answer, places) => (answer, places as usize),
            other => return Err(format!("{other:?}")),
        };
        if places > PLACES || self.lent.report()[places..].iter().any(|release| *release != filler) {
            return Err(format!("the report after its {places} places was written"));
        }
        if is_query(call) && self.before != self.lent.words() {
            return Err("a query wrote".to_string());
        }
        let gone: Option<Vec<Release>> = self.lent.report()[..places].iter().map(release).collect();
        let gone = gone.ok_or_else(|| format!("the report holds {:?}", &self.lent.report()[..places]))?;
        let state = decode(self.words()).filter(|_| is_window(self.words())).ok_or("the words are no window")?;
        Ok(Outcome { answer, gone, state })
    }
}

impl Window for Library {
    fn call(&mut self, call: &Call) -> Outcome {
        self.try_call(call).unwrap_or_else(|problem| panic!("{problem} after {call:?}"))
    }
}

impl Loaded for Library {
    fn loaded(state: &State) -> Self {
        let mut library = Self::default();
        library.lent.words_mut().copy_from_slice(&encode(state));
        library
    }
}

/// Queries are the calls that come after these in `calls::Call`.
pub fn is_query(call: &Call) -> bool {
    !matches!(
        call,
        Call::Open { .. }
            | Call::RetainOwnedBy { .. }
            | Call::CreditDuplicateDelivery { .. }
            | Call::ConfirmColdFrontHedge { .. }
            | Call::ClearPreferredPeer
    ) && call.sets_clock().is_none()
}

/// A flag is any number but 0; there may be more room for a plan than it needs.
fn raw_call(call: &Call, turn: u64) -> raw::Call {
    let mut raw = raw::Call::from(call);
    if let Some((_, room)) = raw.plan_mut() {
        room.hash_words += turn as usize % 6;
        room.heights += turn as usize % 5;
    }
    if let raw::Call::RetainOwnedBy { flags } = &mut raw {
        flags.iter_mut().zip(turn..).filter(|(flag, _)| **flag > 0).for_each(|(flag, k)| *flag = 1 << (k % 64));
    }
    raw
}

pub fn release(release: &ffi::Release) -> Option<Release> {
    const REASONS: [Reason; 10] = [
        Reason::Delivered,
        Reason::OwnerRejected,
        Reason::Retry,
        Reason::Released,
        Reason::Retired,
        Reason::OwnerTimedOut,
        Reason::PassedOver,
        Reason::SeatLost,
        Reason::PrefixRaceLost,
        Reason::HedgeLost,
    ];
    let ffi::Entry { hash, owner, time, height, estimate } = release.entry;
    let entry = Entry {
        hash: plain_hash(&hash),
        owner: owner.try_into().ok()?,
        requested_at: time,
        height: height.try_into().ok()?,
        estimated_bytes: estimate,
    };
    let reason = usize::try_from(release.reason).ok()?.checked_sub(1)?;
    Some(Release { entry, reason: *REASONS.get(reason)? })
}
