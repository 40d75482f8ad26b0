//! Sweeps, retries, releases, retirement, the keeping of seats, and what a removal does to its seat.

use super::{Seen, State};
use crate::data::*;
use crate::tally::Tally;
use std::collections::BTreeMap;

pub(crate) fn count(tally: &mut Tally, seen: &Seen) {
    let before = seen.before;
    match seen.call {
        Call::MarkReceivedFrom { clock, hash, .. } => removed_alone(tally, before, *hash, *clock),
        Call::RejectDelivery { clock, hash, .. } if !seen.gone.is_empty() => removed_alone(tally, before, *hash, *clock),
        Call::RequeueForRetry { clock, hash, height } => {
            requeue_for_retry(tally, before, *hash, *height);
            removed_alone(tally, before, *hash, *clock);
        }
        Call::ReleasePending { clock, hash } => {
            tally.either("release_pending: pending", before.entry(*hash).is_some());
            removed_alone(tally, before, *hash, *clock);
        }
        Call::RetireBefore { clock, height } => retire_before(tally, seen, *clock, *height),
        Call::ExpirePending { clock } => expire_pending(tally, seen, *clock),
        Call::RetainOwnedBy { owns } => retain_owned_by(tally, seen, owns),
        _ => {}
    }
}

fn removed_alone(tally: &mut Tally, before: &State, hash: Hash, clock: Clock) {
    if let Some(entry) = before.entry(hash) {
        let left: Vec<&Entry> = before.pending.iter().filter(|other| other.hash != hash).collect();
        Starts::of(before).reset_owner_queue_start(tally, entry, &left, clock);
    }
}

/// The seats' starts and last bodies as they move through a row of removals.
struct Starts {
    since: BTreeMap<Seat, Clock>,
    last_body: BTreeMap<Seat, Clock>,
}

impl Starts {
    fn of(state: &State) -> Self {
        Self {
            since: state.owner_downloading_since.iter().copied().collect(),
            last_body: state.owner_last_body_at.iter().copied().collect(),
        }
    }

    /// One removal, with what is left after it.
    fn reset_owner_queue_start(&mut self, tally: &mut Tally, removed: &Entry, left: &[&Entry], clock: Clock) {
        let oldest = left.iter().filter(|entry| entry.owner == removed.owner).map(|entry| entry.requested_at).min();
        let start = self.since.get(&removed.owner).copied();
        match oldest {
            None => {
                self.since.remove(&removed.owner);
                let last = self.last_body.remove(&removed.owner);
                tally.either("reset_owner_queue_start: none left, had a last body", last.is_some());
            }
            Some(oldest) if removed.requested_at < oldest => {
                self.since.insert(removed.owner, clock);
                tally.hit("reset_owner_queue_start: removed older");
            }
            Some(oldest) if removed.requested_at == oldest => match start {
                None => tally.hit("reset_owner_queue_start: removed equal, no start"),
                Some(start) => {
                    self.since.insert(removed.owner, start.max(oldest));
                    tally.compare("reset_owner_queue_start: removed equal, start against oldest", start, oldest);
                }
            },
            Some(oldest) => {
                tally.hit("reset_owner_queue_start: removed newer");
                tally.hit_if(
                    "reset_owner_queue_start: removed newer, start above oldest",
                    start.is_some_and(|start| start > oldest),
                );
            }
        }
    }
}

fn requeue_for_retry(tally: &mut Tally, before: &State, hash: Hash, height: Option<u32>) {
    let pending = before.entry(hash).map(|entry| entry.height);
    let target = match (height, pending) {
        (Some(height), Some(pending)) => {
            tally.compare("requeue_for_retry: named height against the entry's", height, pending);
            height.min(pending)
        }
        (Some(height), None) => {
            tally.hit("requeue_for_retry: height, no entry");
            height
        }
        (None, Some(pending)) => {
            tally.hit("requeue_for_retry: entry, no height");
            pending
        }
        (None, None) => {
            tally.hit("requeue_for_retry: neither");
            return;
        }
    };
    tally.compare("requeue_for_retry: target against frontier", target, before.next_request_height);
}

fn retire_before(tally: &mut Tally, seen: &Seen, clock: Clock, height: u32) {
    let before = seen.before;
    for entry in &before.pending {
        tally.compare("retire_before: entry's height against it", entry.height, height);
    }
    tally.hit_if("retire_before: several retired", seen.gone.len() > 1);
    tally.hit_if(
        "retire_before: frontier above, stays",
        seen.gone.iter().any(|gone| gone.entry.height < before.next_request_height),
    );
    let mut left: Vec<&Entry> = before.pending.iter().collect();
    let mut starts = Starts::of(before);
    for gone in seen.gone {
        left.retain(|entry| entry.hash != gone.entry.hash);
        starts.reset_owner_queue_start(tally, &gone.entry, &left, clock);
    }
}

fn expire_pending(tally: &mut Tally, seen: &Seen, clock: Clock) {
    let before = seen.before;
    let timeout = before.owner_timeout();
    for (seat, since) in &before.owner_downloading_since {
        tally.compare("expire_pending: owner's age against timeout", clock - since, timeout);
        tally.hit_if("expire_pending: expired owner without entries", clock - since >= timeout && !before.owns_entries(*seat));
    }
    for entry in &before.pending {
        skipped(tally, before, entry, clock);
    }
    tally.either("expire_pending: something goes", !seen.gone.is_empty());
    let by = |reason: Reason| seen.gone.iter().any(|gone| gone.reason == reason);
    tally.hit_if("expire_pending: timed out and passed over in one sweep", by(Reason::OwnerTimedOut) && by(Reason::PassedOver));
    let both = |gone: &Release| gone.reason == Reason::OwnerTimedOut && before.passed_over(&gone.entry, clock);
    tally.hit_if("expire_pending: entry timed out and passed over", seen.gone.iter().any(both));
    tally.hit_if("expire_pending: all 256 go", seen.gone.len() == MAX_PENDING);
    swept_observation(tally, seen);
    if let Some(lowest) = seen.gone.iter().map(|gone| gone.entry.height).min() {
        tally.compare("expire_pending: lowest gone against frontier", lowest, before.next_request_height);
    }
    let left: Vec<&Entry> = seen.after.pending.iter().collect();
    let mut starts = Starts::of(before);
    for gone in seen.gone {
        starts.reset_owner_queue_start(tally, &gone.entry, &left, clock);
        tally.hit_if("expire_pending: owner keeps an entry", left.iter().any(|entry| entry.owner == gone.entry.owner));
    }
}

fn skipped(tally: &mut Tally, before: &State, entry: &Entry, clock: Clock) {
    let age = clock - entry.requested_at;
    tally.compare("expire_pending: entry's age against stall wait", age, before.stall_timeout);
    if age < before.stall_timeout {
        return;
    }
    match before.last_body(entry.owner) {
        None => tally.hit("expire_pending: old entry, owner without a last body"),
        Some(last) => tally.compare("expire_pending: old entry, last body against request", last, entry.requested_at),
    }
}

fn swept_observation(tally: &mut Tally, seen: &Seen) {
    let Some(observed) = seen.before.pending_timeout_observation else {
        tally.hit("expire_pending: no observation");
        return;
    };
    match seen.gone.iter().find(|gone| gone.entry.hash == observed.hash) {
        None => tally.hit("expire_pending: observed entry not swept"),
        Some(gone) => {
            tally.either("expire_pending: observed entry swept, of the observed owner", gone.entry.owner == observed.owner);
            let foreign = gone.entry.owner != observed.owner && !observed.expired_release;
            tally.hit_if("expire_pending: observed entry swept of another owner, observation left unmarked", foreign);
            tally.hit_if(
                "expire_pending: observation marked",
                seen.after.pending_timeout_observation.is_some_and(|after| after.expired_release) && !observed.expired_release,
            );
        }
    }
    tally.hit_if("expire_pending: observation marked before", observed.expired_release);
}

fn retain_owned_by(tally: &mut Tally, seen: &Seen, owns: &[bool]) {
    let before = seen.before;
    let owned = |seat: Seat| owns[usize::from(seat)];
    match before.cold_front {
        None => tally.hit("retain_owned_by: no cold front"),
        Some(ColdFront::Waiting { owner, .. }) => tally.either("retain_owned_by: waiting, owner kept", owned(owner)),
        Some(ColdFront::Racing { owner, alternate, .. }) => match (owned(owner), owned(alternate)) {
            (true, true) => tally.hit("retain_owned_by: racing, both kept"),
            (false, true) => tally.hit("retain_owned_by: racing, owner lost"),
            (true, false) => tally.hit("retain_owned_by: racing, alternate lost"),
            (false, false) => tally.hit("retain_owned_by: racing, both lost"),
        },
    }
    match before.preferred_peer {
        None => tally.hit("retain_owned_by: no preferred peer"),
        Some(peer) => tally.either("retain_owned_by: preferred peer kept", owned(peer)),
    }
    match before.prefix_probe_attempted_owner {
        None => tally.hit("retain_owned_by: no attempted owner"),
        Some(owner) => tally.either("retain_owned_by: attempted owner kept", owned(owner)),
    }
    probe_kept(tally, before, owned);
    seats_kept(tally, seen, owned);
}

fn probe_kept(tally: &mut Tally, before: &State, owned: impl Fn(Seat) -> bool) {
    let Some(probe) = &before.prefix_probe else {
        tally.hit("retain_owned_by: no probe");
        return;
    };
    if !owned(probe.owner) {
        tally.hit("retain_owned_by: probe's owner lost");
        return;
    }
    let kept = probe.racers.iter().filter(|(seat, _)| owned(*seat)).count();
    tally.compare("retain_owned_by: racers kept against 2", kept, 2);
    tally.hit_if("retain_owned_by: probe goes on with a racer lost", kept >= 2 && kept < probe.racers.len());
    tally.hit_if("retain_owned_by: probe of the owner alone cancelled", kept < 2 && kept == probe.racers.len());
}

fn seats_kept(tally: &mut Tally, seen: &Seen, owned: impl Fn(Seat) -> bool) {
    let before = seen.before;
    match before.pending_timeout_observation {
        None => tally.hit("retain_owned_by: no observation"),
        Some(observed) => tally.either("retain_owned_by: observed owner kept", owned(observed.owner)),
    }
    if let Some(stall) = before.stall {
        tally.either("retain_owned_by: episode's owner kept", owned(stall.owner));
    }
    for entry in &before.pending {
        tally.either("retain_owned_by: entry's owner kept", owned(entry.owner));
    }
    for (seat, _) in &before.owner_last_body_at {
        let idle = before.start(*seat).is_none();
        tally.hit_if("retain_owned_by: idle seat's last body dropped", idle && !owned(*seat));
    }
    if let Some(lowest) = seen.gone.iter().map(|gone| gone.entry.height).min() {
        tally.compare("retain_owned_by: lowest lost against frontier", lowest, before.next_request_height);
    }
}
