//! Queries.

use super::{Seen, owner_download_expired, stall_decay_floor};
use crate::data::*;
use crate::tally::Tally;

pub(crate) fn count(tally: &mut Tally, seen: &Seen) {
    let state = seen.before;
    match seen.call {
        Call::ExpiredPendingCapacity { clock } => expired_pending_capacity(tally, seen, *clock),
        Call::PeerHasExpiredPending { source, clock } => {
            owner_download_expired(tally, state, *source, *clock);
            answered(tally, seen, "peer_has_expired_pending: yes", "peer_has_expired_pending: no");
        }
        Call::PeerInStallerCooldown { source, clock } => {
            let key = state.keys[usize::from(*source)];
            match state.recent_stallers.iter().find(|(noted, _)| *noted == key) {
                None => tally.hit("peer_in_staller_cooldown: key not noted"),
                Some((_, fired_at)) => tally.compare(
                    "peer_in_staller_cooldown: age against cooldown",
                    clock - fired_at,
                    state.settings.staller_cooldown,
                ),
            }
        }
        Call::StallingPeer => tally.either("stalling_peer: some", *seen.answer != Answer::MaybePair(None)),
        Call::PreferredPeer => tally.either("preferred_peer: some", *seen.answer != Answer::MaybeNumber(None)),
        Call::ProbeOffered { source, hash } => probe_offered(tally, seen, *source, *hash),
        Call::HedgeOffered { source, hash } => hedge_offered(tally, seen, *source, *hash),
        Call::ContainsPending { .. } => answered(tally, seen, "contains_pending: yes", "contains_pending: no"),
        Call::PendingOwner { .. } => tally.either("pending_owner: some", *seen.answer != Answer::MaybeNumber(None)),
        Call::IsDownloading { .. } => answered(tally, seen, "is_downloading: yes", "is_downloading: no"),
        Call::PendingCountFor { .. } => tally.either("pending_count_for: some", *seen.answer != Answer::Number(0)),
        Call::OwnerQueueStart { .. } => tally.either("owner_queue_start: some", *seen.answer != Answer::MaybeNumber(None)),
        Call::ProbeStartedAt => tally.either("probe_started_at: some", *seen.answer != Answer::MaybeNumber(None)),
        Call::FrontIntervalEwmaMs => tally.either("front_interval_ewma_ms: some", *seen.answer != Answer::MaybeNumber(None)),
        Call::EffectiveOwnerTimeout => effective_owner_timeout(tally, seen),
        Call::StallDecayFloor => stall_decay_floor(tally, state),
        plain => plain_query(tally, plain),
    }
}

fn answered(tally: &mut Tally, seen: &Seen, yes: &'static str, no: &'static str) {
    tally.hit(if *seen.answer == Answer::Flag(true) { yes } else { no });
}

fn plain_query(tally: &mut Tally, call: &Call) {
    match call {
        Call::FanoutActive => tally.hit("fanout_active: asked"),
        Call::PendingLen => tally.hit("pending_len: asked"),
        Call::PendingBytes => tally.hit("pending_bytes: asked"),
        Call::PendingHighWater => tally.hit("pending_high_water: asked"),
        Call::MaxPendingBlocks => tally.hit("max_pending_blocks: asked"),
        Call::MinPeersForFanout => tally.hit("min_peers_for_fanout: asked"),
        Call::EffectivePeerInflight => tally.hit("effective_peer_inflight: asked"),
        Call::HasRequestCapacity { .. } => tally.hit("has_request_capacity: asked"),
        Call::ComputeRequestCapacity { .. } => tally.hit("compute_request_capacity: asked"),
        Call::ActiveDownloadingPeers => tally.hit("active_downloading_peers: asked"),
        Call::RequestCursor => tally.hit("request_cursor: asked"),
        Call::StallTimeout => tally.hit("stall_timeout: asked"),
        Call::EwmaBlockBytes => tally.hit("ewma_block_bytes: asked"),
        _ => {}
    }
}

fn expired_pending_capacity(tally: &mut Tally, seen: &Seen, clock: Clock) {
    let state = seen.before;
    for entry in &state.pending {
        owner_download_expired(tally, state, entry.owner, clock);
    }
    tally.either("expired_pending_capacity: some expired", *seen.answer != Answer::Pair(0, 0));
    let left_out = |entry: &Entry| state.passed_over(entry, clock) && !state.expired(entry.owner, clock);
    tally.hit_if("expired_pending_capacity: a passed-over entry is not counted", state.pending.iter().any(left_out));
}

fn effective_owner_timeout(tally: &mut Tally, seen: &Seen) {
    let active = seen.before.owner_downloading_since.len() as u64;
    tally.hit(match active {
        0 => "effective_owner_timeout: active 0",
        1 => "effective_owner_timeout: active 1",
        2 => "effective_owner_timeout: active 2",
        _ => "effective_owner_timeout: active 3 or more",
    });
    let product = seen.before.settings.block_spacing * (2 + active.saturating_sub(1));
    tally.hit_if("effective_owner_timeout: rounded down", product % 2 == 1);
}

fn probe_offered(tally: &mut Tally, seen: &Seen, source: Seat, hash: Hash) {
    match &seen.before.prefix_probe {
        None => tally.hit("probe_offered: no probe"),
        Some(probe) if !probe.hashes.contains(&hash) => tally.hit("probe_offered: hash not planned"),
        Some(probe) => tally.either("probe_offered: planned, to a racer", probe.racers.iter().any(|(seat, _)| *seat == source)),
    }
}

fn hedge_offered(tally: &mut Tally, seen: &Seen, source: Seat, hash: Hash) {
    match seen.before.cold_front {
        Some(ColdFront::Racing { hash: front, .. }) if front != hash => tally.hit("hedge_offered: another hash"),
        Some(ColdFront::Racing { alternate, .. }) => {
            tally.either("hedge_offered: this hash, to the alternate", alternate == source)
        }
        Some(ColdFront::Waiting { .. }) => tally.hit("hedge_offered: waiting"),
        None => tally.hit("hedge_offered: no cold front"),
    }
}
