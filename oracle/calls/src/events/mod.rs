//! Which events a call makes happen, told from the state before it, the call and what came of it.
//!
//! Events are named after the Rust function whose arm or comparison they stand for. They are told
//! from plain data, so that they can be counted over any implementation.

mod deliveries;
mod letting_go;
mod planning;
mod queries;
mod races;
mod requests;
mod watching;

use crate::data::*;
use crate::tally::Tally;

/// One call with its surroundings.
pub(crate) struct Seen<'a> {
    /// What the call before answered.
    pub last: &'a Answer,
    pub before: &'a State,
    pub call: &'a Call,
    pub answer: &'a Answer,
    pub gone: &'a [Release],
    pub after: &'a State,
}

impl<'a> Seen<'a> {
    fn of(before: &'a Outcome, call: &'a Call, outcome: &'a Outcome) -> Self {
        Self {
            last: &before.answer,
            before: &before.state,
            call,
            answer: &outcome.answer,
            gone: &outcome.gone,
            after: &outcome.state,
        }
    }
}

/// What a plan comes to by request 02, of what it let go and left: on lists that name a hash twice the original's own answer may differ.
pub fn told_plan(before: &Outcome, call: &Call, outcome: &Outcome) -> Answer {
    planning::told(&mut Tally::default(), &Seen::of(before, call, outcome))
}

const JUMP: u64 = MAX_DURATION;

/// Counts the events of one call; `before` is missing for a run's first opening.
pub fn count(tally: &mut Tally, before: Option<&Outcome>, call: &Call, outcome: &Outcome) {
    if let Call::Open { clock, settings, keys } = call {
        opening(tally, before, *clock, settings, keys);
        return;
    }
    let Some(before) = before else {
        return;
    };
    let seen = Seen::of(before, call, outcome);
    everywhere(tally, &seen);
    requests::count(tally, &seen);
    deliveries::count(tally, &seen);
    letting_go::count(tally, &seen);
    races::count(tally, &seen);
    watching::count(tally, &seen);
    queries::count(tally, &seen);
    planning::count(tally, &seen);
}

fn opening(tally: &mut Tally, before: Option<&Outcome>, clock: Clock, settings: &Settings, keys: &[u8]) {
    tally.hit_if("open: at 2^62", clock == MAX_CLOCK);
    tally.hit_if("open: before the last clock", before.is_some_and(|before| clock < before.state.last_clock));
    tally.hit_if("open: over pending entries", before.is_some_and(|before| !before.state.pending.is_empty()));
    tally.hit_if("open: seats share a key", keys[0] == keys[3]);
    tally.compare("open: stall max against stall initial", settings.stall_timeout_max, settings.stall_timeout_initial);
    tally.hit_if("open: spacing 0", settings.block_spacing == 0);
    tally.hit_if("open: received timeout 0", settings.received_timeout == 0);
    tally.hit_if("open: stall initial 0", settings.stall_timeout_initial == 0);
    tally.hit_if("open: stall max 0", settings.stall_timeout_max == 0);
    tally.hit_if("open: cooldown 0", settings.staller_cooldown == 0);
    tally.hit_if("open: spacing 10^15", settings.block_spacing == MAX_DURATION);
    tally.hit_if("open: received timeout 10^15", settings.received_timeout == MAX_DURATION);
    tally.hit_if("open: stall initial 10^15", settings.stall_timeout_initial == MAX_DURATION);
    tally.hit_if("open: stall max 10^15", settings.stall_timeout_max == MAX_DURATION);
    tally.hit_if("open: cooldown 10^15", settings.staller_cooldown == MAX_DURATION);
}

fn everywhere(tally: &mut Tally, seen: &Seen) {
    if let Some(clock) = seen.call.sets_clock() {
        tally.either("clock: stands still", clock == seen.before.last_clock);
        tally.hit_if("clock: jumps by 10^15 or more", clock - seen.before.last_clock >= JUMP);
        tally.hit_if("clock: at 2^62", clock == MAX_CLOCK);
    }
    let heights: Vec<u32> = seen.after.pending.iter().map(|entry| entry.height).collect();
    let top = heights.iter().filter(|height| **height == u32::MAX).count();
    tally.hit_if("window: height 4294967295 pending", top >= 1);
    tally.hit_if("window: height 4294967295 pending twice", top >= 2);
    tally.hit_if("window: 256 pending", heights.len() == MAX_PENDING);
    tally.hit_if(
        "window: lowest height twice",
        heights.iter().min().is_some_and(|lowest| heights.iter().filter(|height| *height == lowest).count() > 1),
    );
    tally.hit_if("window: mean 80", seen.after.ewma_block_bytes == 80);
    tally.hit_if("window: mean at its top", seen.after.ewma_block_bytes == MAX_BODY - 7);
    for release in seen.gone {
        tally.hit(match release.reason {
            Reason::Delivered => "gone: 1 delivered",
            Reason::OwnerRejected => "gone: 2 owner's rejection",
            Reason::Retry => "gone: 3 retry",
            Reason::Released => "gone: 4 release",
            Reason::Retired => "gone: 5 retired",
            Reason::OwnerTimedOut => "gone: 6 owner's time out",
            Reason::PassedOver => "gone: 7 passed over",
            Reason::SeatLost => "gone: 8 seat lost",
            Reason::PrefixRaceLost => "gone: 9 prefix race lost",
            Reason::HedgeLost => "gone: 10 hedge lost",
        });
    }
}

impl State {
    pub(crate) fn entry(&self, hash: Hash) -> Option<&Entry> {
        self.pending.iter().find(|entry| entry.hash == hash)
    }

    pub(crate) fn lowest(&self) -> Option<&Entry> {
        self.pending.iter().min_by_key(|entry| entry.height)
    }

    pub(crate) fn start(&self, seat: Seat) -> Option<Clock> {
        at(&self.owner_downloading_since, seat)
    }

    pub(crate) fn last_body(&self, seat: Seat) -> Option<Clock> {
        at(&self.owner_last_body_at, seat)
    }

    pub(crate) fn owns_entries(&self, seat: Seat) -> bool {
        self.pending.iter().any(|entry| entry.owner == seat)
    }

    /// `effective_owner_timeout` of the window's own active count.
    pub(crate) fn owner_timeout(&self) -> u64 {
        let others = (self.owner_downloading_since.len() as u64).saturating_sub(1);
        self.settings.block_spacing * (2 + others) / 2
    }

    pub(crate) fn expired(&self, seat: Seat, clock: Clock) -> bool {
        self.start(seat).is_some_and(|since| clock - since >= self.owner_timeout())
    }

    pub(crate) fn passed_over(&self, entry: &Entry, clock: Clock) -> bool {
        clock - entry.requested_at >= self.stall_timeout
            && self.last_body(entry.owner).is_some_and(|last| last > entry.requested_at)
    }

    /// `stall_decay_floor`.
    pub(crate) fn decay_floor(&self) -> u64 {
        let twice = self.front_interval_ewma_ms.map_or(0, |mean| mean.saturating_mul(2_000_000));
        twice.max(self.settings.stall_timeout_initial).min(self.settings.stall_timeout_max)
    }
}

fn at(times: &[(u8, Clock)], seat: u8) -> Option<Clock> {
    times.iter().find(|(found, _)| *found == seat).map(|(_, time)| *time)
}

/// `owner_download_expired` for one seat.
pub(crate) fn owner_download_expired(tally: &mut Tally, state: &State, seat: Seat, clock: Clock) {
    match state.start(seat) {
        None => tally.hit("owner_download_expired: no start"),
        Some(since) => tally.compare("owner_download_expired: age against timeout", clock - since, state.owner_timeout()),
    }
}

/// `mark_peer_unresponsive`, from wherever it is called.
pub(crate) fn mark_peer_unresponsive(tally: &mut Tally, before: &State, source: Seat, clock: Clock) {
    for (_, fired_at) in &before.recent_stallers {
        tally.compare("mark_peer_unresponsive: age against cooldown", clock - fired_at, before.settings.staller_cooldown);
    }
    let key = before.keys[usize::from(source)];
    tally.either("mark_peer_unresponsive: key noted before", at(&before.recent_stallers, key).is_some());
}

/// `stall_decay_floor`.
pub(crate) fn stall_decay_floor(tally: &mut Tally, state: &State) {
    let settings = &state.settings;
    let twice = match state.front_interval_ewma_ms {
        None => {
            tally.hit("stall_decay_floor: no front mean");
            0
        }
        Some(mean) => {
            let twice = mean.saturating_mul(2_000_000);
            tally.compare("stall_decay_floor: twice the mean against stall initial", twice, settings.stall_timeout_initial);
            twice
        }
    };
    tally.compare("stall_decay_floor: against stall max", twice.max(settings.stall_timeout_initial), settings.stall_timeout_max);
}
