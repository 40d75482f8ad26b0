//! `observe_blocked` and its four steps.

use super::{Seen, State, mark_peer_unresponsive, owner_download_expired, stall_decay_floor};
use crate::data::*;
use crate::tally::Tally;

/// What an observation was told.
struct Look {
    clock: Clock,
    next: Option<u32>,
    frontier: Option<Hash>,
    busy: bool,
    staged_count: u64,
    staged_height: Option<u32>,
}

pub(crate) fn count(tally: &mut Tally, seen: &Seen) {
    match seen.call {
        Call::ObserveBlocked { clock, next_apply_height, frontier_hash, busy, staged_count, staged_height } => {
            let look = Look {
                clock: *clock,
                next: *next_apply_height,
                frontier: *frontier_hash,
                busy: *busy,
                staged_count: *staged_count,
                staged_height: *staged_height,
            };
            observe_blocked(tally, seen, &look);
        }
        Call::MarkPeerUnresponsive { clock, source } => {
            tally.hit("mark_peer_unresponsive: called by the host");
            mark_peer_unresponsive(tally, seen.before, *source, *clock);
        }
        _ => {}
    }
}

fn observe_blocked(tally: &mut Tally, seen: &Seen, look: &Look) {
    let before = seen.before;
    tally.either("observe_blocked: next height given", look.next.is_some());
    tally.either("observe_blocked: busy", look.busy);
    tally.hit(match seen.answer {
        Answer::Decided(Decision::Blame { reason: BlameReason::Staller, .. }) => "observe_blocked: blames a staller",
        Answer::Decided(Decision::Blame { reason: BlameReason::PendingTimeout, .. }) => {
            "observe_blocked: blames by pending timeout"
        }
        Answer::Decided(Decision::EvictStaged { .. }) => "observe_blocked: evicts",
        Answer::Decided(Decision::HedgeColdFront { .. }) => "observe_blocked: hedges",
        _ => "observe_blocked: nothing to do",
    });
    if let Some(next) = look.next {
        advance_apply_side_stuck(tally, before, look, next);
    }
    if look.busy {
        return busy(tally, before, look);
    }
    let mut blamed = false;
    if let Some(next) = look.next {
        let hedges = advance_cold_front(tally, before, look.clock, next);
        blamed = advance_stall(tally, seen, look, next);
        let timed_out = matches!(seen.answer, Answer::Decided(Decision::Blame { reason: BlameReason::PendingTimeout, .. }));
        tally.hit_if("observe_blocked: staller's blame before a hedge", hedges && blamed);
        tally.hit_if("observe_blocked: pending timeout's blame before a hedge", hedges && timed_out);
    } else {
        tally.hit_if("observe_blocked: no next height, episode stays", before.stall.is_some());
        tally.hit_if("observe_blocked: no next height, cold front stays", before.cold_front.is_some());
        tally.hit_if("observe_blocked: no next height, stuck frontier stays", before.apply_side_stuck.is_some());
    }
    if !blamed {
        advance_pending_timeout(tally, seen, look.clock);
    }
}

fn busy(tally: &mut Tally, before: &State, look: &Look) {
    tally.either("observe_blocked: busy clears an episode", before.stall.is_some());
    tally.either("observe_blocked: busy clears an observation", before.pending_timeout_observation.is_some());
    tally.hit(match before.cold_front {
        None => "observe_blocked: busy, no cold front",
        Some(ColdFront::Waiting { .. }) => "observe_blocked: busy clears a waiting front",
        Some(ColdFront::Racing { .. }) => "observe_blocked: busy leaves a racing front",
    });
    tally.hit_if("observe_blocked: busy without a next height", look.next.is_none());
}

fn advance_apply_side_stuck(tally: &mut Tally, before: &State, look: &Look, next: u32) {
    let Some(frontier) = look.frontier else {
        tally.either("advance_apply_side_stuck: no frontier hash, was stuck", before.apply_side_stuck.is_some());
        return;
    };
    let same = before.apply_side_stuck.filter(|stuck| stuck.height == next && stuck.frontier_hash == frontier);
    if let Some(stuck) = before.apply_side_stuck {
        tally
            .hit_if("advance_apply_side_stuck: same height, other hash", stuck.height == next && stuck.frontier_hash != frontier);
        tally
            .hit_if("advance_apply_side_stuck: same hash, other height", stuck.height != next && stuck.frontier_hash == frontier);
    }
    match (same, look.busy) {
        (Some(_), true) => tally.hit("advance_apply_side_stuck: still stuck, busy"),
        (Some(_), false) => tally.hit("advance_apply_side_stuck: still stuck, not busy"),
        (None, true) => tally.hit("advance_apply_side_stuck: newly stuck"),
        (None, false) => tally.either("advance_apply_side_stuck: not busy, cleared", before.apply_side_stuck.is_some()),
    }
    if look.busy {
        let since = same.map_or(look.clock, |stuck| stuck.since);
        tally.compare(
            "advance_apply_side_stuck: time against twice received timeout",
            look.clock - since,
            2 * before.settings.received_timeout,
        );
    }
}

/// Whether it would hedge.
fn advance_cold_front(tally: &mut Tally, before: &State, clock: Clock, next: u32) -> bool {
    if matches!(before.cold_front, Some(ColdFront::Racing { .. })) {
        tally.hit("advance_cold_front: racing");
        return false;
    }
    let waited = before.cold_front.is_some();
    if before.front_interval_ewma_ms.is_some() {
        tally.either("advance_cold_front: front mean known, was waiting", waited);
        return false;
    }
    if before.cold_hedged_fronts.len() >= 2 {
        tally.either("advance_cold_front: two hedged, was waiting", waited);
        return false;
    }
    let Some(front) = before.pending.iter().find(|entry| entry.height == next) else {
        tally.either("advance_cold_front: no entry at the height, was waiting", waited);
        return false;
    };
    tally.hit_if(
        "advance_cold_front: two entries at the height",
        before.pending.iter().filter(|entry| entry.height == next).count() > 1,
    );
    match before.cold_front {
        Some(ColdFront::Waiting { owner, hash, since }) if owner == front.owner && hash == front.hash => {
            tally.compare(
                "advance_cold_front: waited against stall initial",
                clock - since,
                before.settings.stall_timeout_initial,
            );
            return clock - since >= before.settings.stall_timeout_initial;
        }
        Some(ColdFront::Waiting { hash, .. }) if hash == front.hash => tally.hit("advance_cold_front: waiting for another owner"),
        Some(_) => tally.hit("advance_cold_front: waiting for another hash"),
        None => {
            tally.hit("advance_cold_front: starts to wait");
            tally.hit_if("advance_cold_front: starts to wait with stall initial 0", before.settings.stall_timeout_initial == 0);
        }
    }
    false
}

/// The front that blocks the window, by `window_blocked_on`.
fn window_blocked_on<'a>(tally: &mut Tally, before: &'a State, look: &Look, next: u32) -> Option<&'a Entry> {
    let Some(front) = before.lowest() else {
        tally.hit("window_blocked_on: nothing pending");
        return None;
    };
    tally.compare("window_blocked_on: lowest height against next", front.height, next);
    if front.height != next {
        return None;
    }
    let half = before.settings.max_received_blocks / 2;
    tally.compare("window_blocked_on: staged count against half", look.staged_count, half);
    if look.staged_count < half {
        return None;
    }
    match look.staged_height {
        None => {
            tally.hit("window_blocked_on: no staged height");
            None
        }
        Some(staged) => {
            tally.compare("window_blocked_on: staged height against front", staged, front.height);
            (staged > front.height).then_some(front)
        }
    }
}

/// Whether it blames.
fn advance_stall(tally: &mut Tally, seen: &Seen, look: &Look, next: u32) -> bool {
    let before = seen.before;
    let Some(front) = window_blocked_on(tally, before, look, next) else {
        tally.either("advance_stall: not blocked, clears an episode", before.stall.is_some());
        return false;
    };
    let same = before.stall.filter(|stall| stall.owner == front.owner && stall.front_hash == front.hash);
    match before.stall {
        None => tally.hit("advance_stall: starts an episode"),
        Some(_) if same.is_some() => tally.hit("advance_stall: same episode"),
        Some(stall) if stall.front_hash == front.hash => tally.hit("advance_stall: episode of another owner"),
        Some(_) => tally.hit("advance_stall: episode of another front"),
    }
    stall_decay_floor(tally, before);
    tally.compare("advance_stall: stall wait against floor", before.stall_timeout, before.decay_floor());
    let effective = before.stall_timeout.max(before.decay_floor());
    let since = same.map_or(look.clock, |stall| stall.since);
    tally.compare("advance_stall: age against wait", look.clock - since, effective);
    let fires = look.clock - since >= effective;
    if fires {
        tally.hit_if("advance_stall: blames in the look that starts the episode", same.is_none());
        tally.compare("advance_stall: doubled wait against stall max", 2 * effective, before.settings.stall_timeout_max);
        mark_peer_unresponsive(tally, before, front.owner, look.clock);
    }
    fires
}

fn advance_pending_timeout(tally: &mut Tally, seen: &Seen, clock: Clock) {
    let before = seen.before;
    let Some(observed) = before.pending_timeout_observation else {
        return arm(tally, before, clock);
    };
    if observed.expired_release {
        tally.hit("advance_pending_timeout: blames after a sweep");
        mark_peer_unresponsive(tally, before, observed.owner, clock);
        return;
    }
    match before.entry(observed.hash) {
        None => tally.hit("advance_pending_timeout: observed entry gone"),
        Some(entry) if entry.owner != observed.owner => tally.hit("advance_pending_timeout: observed entry of another owner"),
        Some(_) => {
            owner_download_expired(tally, before, observed.owner, clock);
            let expired = before.expired(observed.owner, clock);
            tally.either("advance_pending_timeout: observed owner still expired", expired);
            if expired {
                mark_peer_unresponsive(tally, before, observed.owner, clock);
            }
        }
    }
}

fn arm(tally: &mut Tally, before: &State, clock: Clock) {
    for entry in &before.pending {
        owner_download_expired(tally, before, entry.owner, clock);
    }
    let expired: Vec<&Entry> = before.pending.iter().filter(|entry| before.expired(entry.owner, clock)).collect();
    tally.either("advance_pending_timeout: arms", !expired.is_empty());
    if let (Some(lowest), Some(armed)) = (before.lowest(), expired.iter().map(|entry| entry.height).min()) {
        tally.either("advance_pending_timeout: arms at the lowest height", armed == lowest.height);
        tally.hit_if(
            "advance_pending_timeout: two expired at the lowest height",
            expired.iter().filter(|entry| entry.height == armed).count() > 1,
        );
    }
}
