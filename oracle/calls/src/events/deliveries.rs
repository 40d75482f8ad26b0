//! Deliveries, credits and rejections.

use super::{Seen, State, stall_decay_floor};
use crate::data::*;
use crate::tally::Tally;

const LEAST_SAMPLE_MS: u64 = 50;

pub(crate) fn count(tally: &mut Tally, seen: &Seen) {
    match seen.call {
        Call::MarkReceivedFrom { clock, hash, bytes, source } => {
            mark_received_from(tally, seen, *hash, *bytes, *source);
            if let Some(source) = source {
                let height = seen.before.entry(*hash).map(|entry| entry.height);
                credit_delivery_from(tally, seen, *clock, *hash, *source, height);
            }
        }
        Call::CreditDeliveryFrom { clock, hash, source, pending_height } => {
            tally.either("credit_delivery_from: called while the entry is pending", seen.before.entry(*hash).is_some());
            late_credit(tally, seen.before, *hash);
            credit_delivery_from(tally, seen, *clock, *hash, *source, *pending_height);
        }
        Call::CreditDuplicateDelivery { hash, source } => match seen.before.pending_timeout_observation {
            None => tally.hit("credit_duplicate_delivery: no observation"),
            Some(observed) if observed.hash != *hash => tally.hit("credit_duplicate_delivery: observation of another hash"),
            Some(observed) => tally.either("credit_duplicate_delivery: observed owner", observed.owner == *source),
        },
        Call::RejectDelivery { hash, source, .. } => reject_delivery(tally, seen, *hash, *source),
        _ => {}
    }
}

fn mark_received_from(tally: &mut Tally, seen: &Seen, hash: Hash, bytes: u64, source: Option<Seat>) {
    let before = seen.before;
    match (before.entry(hash), source) {
        (Some(entry), Some(source)) => tally.either("mark_received_from: asked, from the owner", entry.owner == source),
        (Some(_), None) => tally.hit("mark_received_from: asked, from nobody"),
        (None, Some(_)) => tally.hit("mark_received_from: unasked, from a peer"),
        (None, None) => tally.hit("mark_received_from: unasked, from nobody"),
    }
    if source.is_none() {
        let racing = matches!(before.cold_front, Some(ColdFront::Racing { hash: front, .. }) if front == hash);
        tally.hit_if("mark_received_from: racing front from nobody, race stays", racing);
        tally.hit_if(
            "mark_received_from: probed block from nobody, probe stays",
            before.prefix_probe.as_ref().is_some_and(|probe| probe.hashes.contains(&hash)),
        );
        tally.hit_if(
            "mark_received_from: stalling front from nobody, episode stays",
            before.stall.is_some_and(|stall| stall.front_hash == hash),
        );
        tally.hit_if(
            "mark_received_from: observed block from nobody, observation stays",
            before.pending_timeout_observation.is_some_and(|seen| seen.hash == hash),
        );
    }
    tally.hit_if("mark_received_from: with 256 pending", before.pending.len() == MAX_PENDING);
    tally.hit_if("mark_received_from: body 0", bytes == 0);
    tally.hit_if("mark_received_from: body 4294967295", bytes == MAX_BODY);
    tally.hit_if("mark_received_from: mean rounded down", (7 * before.ewma_block_bytes + bytes) % 8 != 0);
    tally.compare("mark_received_from: new mean against 80", (7 * before.ewma_block_bytes + bytes) / 8, 80);
}

fn late_credit(tally: &mut Tally, before: &State, hash: Hash) {
    if before.entry(hash).is_some() {
        return;
    }
    let racing = matches!(before.cold_front, Some(ColdFront::Racing { hash: front, .. }) if front == hash);
    tally.hit_if("credit_delivery_from: late, on the racing front", racing);
    tally.hit_if(
        "credit_delivery_from: late, on a probed block",
        before.prefix_probe.as_ref().is_some_and(|probe| probe.hashes.contains(&hash)),
    );
    tally.hit_if(
        "credit_delivery_from: late, on the observed block",
        before.pending_timeout_observation.is_some_and(|seen| seen.hash == hash),
    );
}

fn credit_delivery_from(tally: &mut Tally, seen: &Seen, clock: Clock, hash: Hash, source: Seat, height: Option<u32>) {
    let before = seen.before;
    tally.either("credit_delivery_from: source has a last body", before.last_body(source).is_some());
    tally.either("credit_delivery_from: source has a start afterwards", seen.after.start(source).is_some());
    match before.pending_timeout_observation {
        None => tally.hit("credit_delivery_from: no observation"),
        Some(observed) if observed.hash != hash => tally.hit("credit_delivery_from: observation of another hash"),
        Some(observed) => tally.either("credit_delivery_from: observed owner", observed.owner == source),
    }
    tally.either("credit_delivery_from: height given", height.is_some());
    if let Some(height) = height {
        record_delivery_progress(tally, seen, clock, hash, source, height);
    }
}

fn record_delivery_progress(tally: &mut Tally, seen: &Seen, clock: Clock, hash: Hash, source: Seat, height: u32) {
    let (before, after) = (seen.before, seen.after);
    match before.stall.map(|stall| (stall.owner == source, stall.front_hash == hash)) {
        None => tally.hit("record_delivery_progress: no episode"),
        Some((true, true)) => tally.hit("record_delivery_progress: episode's owner and front"),
        Some((true, false)) => tally.hit("record_delivery_progress: episode's owner, another block"),
        Some((false, true)) => tally.hit("record_delivery_progress: episode's front, another peer"),
        Some((false, false)) => tally.hit("record_delivery_progress: episode of others"),
    }
    match after.lowest() {
        None => tally.hit("record_delivery_progress: nothing left pending"),
        Some(lowest) => tally.compare("record_delivery_progress: lowest left against height", lowest.height, height),
    }
    if after.pending.iter().any(|entry| entry.height <= height) {
        return;
    }
    front_sample(tally, before, clock);
    stall_decay_floor(tally, after);
    tally.compare("record_delivery_progress: lowered wait against floor", before.stall_timeout * 85 / 100, after.decay_floor());
}

fn front_sample(tally: &mut Tally, before: &State, clock: Clock) {
    let Some(previous) = before.last_front_advance else {
        tally.hit("record_delivery_progress: first front");
        return;
    };
    let elapsed = clock - previous;
    tally.compare("record_delivery_progress: sample against 50 ms", elapsed / 1_000_000, LEAST_SAMPLE_MS);
    tally.hit_if("record_delivery_progress: 1 ns under 50 ms", elapsed == LEAST_SAMPLE_MS * 1_000_000 - 1);
    if elapsed / 1_000_000 < LEAST_SAMPLE_MS {
        return;
    }
    match before.front_interval_ewma_ms {
        None => tally.hit("record_delivery_progress: first sample"),
        Some(mean) => {
            let sample = elapsed / 1_000_000;
            tally.compare("record_delivery_progress: sample against the mean", sample, mean);
            tally.hit_if("record_delivery_progress: quarter rounded down, upwards", sample > mean && (sample - mean) % 4 != 0);
            tally.hit_if("record_delivery_progress: quarter rounded down, downwards", sample < mean && (mean - sample) % 4 != 0);
        }
    }
}

fn reject_delivery(tally: &mut Tally, seen: &Seen, hash: Hash, source: Option<Seat>) {
    let before = seen.before;
    match before.pending_timeout_observation {
        None => tally.hit("reject_delivery: no observation"),
        Some(observed) if observed.hash != hash => tally.hit("reject_delivery: observation of another hash"),
        Some(_) if source.is_none() => tally.hit("reject_delivery: observed block from nobody"),
        Some(observed) => tally.either("reject_delivery: observed owner", Some(observed.owner) == source),
    }
    rejected_front(tally, before, hash, source);
    match (before.entry(hash), source) {
        (None, _) => tally.hit("reject_delivery: not pending"),
        (Some(_), None) => tally.hit("reject_delivery: pending, from nobody"),
        (Some(entry), Some(source)) if entry.owner == source => {
            tally.compare("reject_delivery: released, height against frontier", entry.height, before.next_request_height);
        }
        (Some(_), Some(_)) => tally.hit("reject_delivery: pending, from another peer"),
    }
}

fn rejected_front(tally: &mut Tally, before: &State, hash: Hash, source: Option<Seat>) {
    match before.cold_front {
        None => tally.hit("reject_delivery: no cold front"),
        Some(ColdFront::Waiting { hash: front, .. }) if front != hash => tally.hit("reject_delivery: waiting on another hash"),
        Some(ColdFront::Waiting { owner, .. }) => tally.either("reject_delivery: waiting, from its owner", source == Some(owner)),
        Some(ColdFront::Racing { hash: front, .. }) if front != hash => tally.hit("reject_delivery: racing on another hash"),
        Some(ColdFront::Racing { .. }) if source.is_none() => tally.hit("reject_delivery: racing, from nobody"),
        Some(ColdFront::Racing { owner, .. }) if source == Some(owner) => tally.hit("reject_delivery: racing, from the owner"),
        Some(ColdFront::Racing { alternate, .. }) => {
            tally.either("reject_delivery: racing, from the alternate", source == Some(alternate))
        }
    }
}
