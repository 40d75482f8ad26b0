//! Requests, owned fetches and capacity.

use super::{Seen, State};
use crate::data::*;
use crate::tally::Tally;

pub(crate) fn count(tally: &mut Tally, seen: &Seen) {
    match seen.call {
        Call::MarkRequested { .. } => mark_requested(tally, seen),
        Call::MarkOwnedFetch { .. } => mark_owned_fetch(tally, seen),
        Call::HasRequestCapacity { byte_headroom, count_headroom } => {
            has_request_capacity(tally, seen.before, *byte_headroom, *count_headroom);
        }
        Call::ComputeRequestCapacity { source, byte_headroom, count_headroom } => {
            let _ = compute_request_capacity(tally, seen.before, *source, (*byte_headroom, *count_headroom));
        }
        Call::EffectivePeerInflight => drop(effective_peer_inflight(tally, seen.before)),
        _ => {}
    }
}

fn mark_requested(tally: &mut Tally, seen: &Seen) {
    let Call::MarkRequested { owner, entries, next_request_height, byte_headroom, count_headroom, .. } = seen.call else {
        return;
    };
    let (before, after) = (seen.before, seen.after);
    tally.either("mark_requested: lists entries", !entries.is_empty());
    attempted_owner(tally, before, !entries.is_empty());
    raised_high_waters(tally, before, after);
    if !entries.is_empty() {
        tally.either("mark_requested: owner has a start", before.start(*owner).is_some());
    }
    tally.compare("mark_requested: next height against frontier", *next_request_height, before.next_request_height);
    tally.hit_if(
        "mark_requested: empty and raises the frontier",
        entries.is_empty() && after.next_request_height > before.next_request_height,
    );
    tally.hit_if(
        "mark_requested: by a cooling peer",
        before.recent_stallers.iter().any(|(key, _)| *key == before.keys[usize::from(*owner)]),
    );
    tally.hit_if(
        "mark_requested: past the pending blocks setting",
        after.pending.len() as u64 > after.settings.max_pending_blocks && !entries.is_empty(),
    );
    tally.hit_if(
        "mark_requested: estimate differs from one pending",
        before.pending.iter().any(|entry| entry.estimated_bytes != before.ewma_block_bytes) && !entries.is_empty(),
    );
    has_request_capacity(tally, after, *byte_headroom, *count_headroom);
    planned(tally, seen);
    tally.either("mark_requested: answers capacity", *seen.answer == Answer::Flag(true));
}

/// A plan that is marked as it was answered.
fn planned(tally: &mut Tally, seen: &Seen) {
    let (Call::MarkRequested { clock, owner, entries, next_request_height, .. }, Answer::Proposed(Some(request))) =
        (seen.call, seen.last)
    else {
        return;
    };
    if (request.owner, &request.entries, request.next_request_height) == (*owner, entries, *next_request_height) {
        tally.either("mark_requested: a plan, at its own clock", *clock == seen.before.last_clock);
        let left = seen.after.next_request_height == *next_request_height;
        tally.hit_if("mark_requested: a plan, and the frontier is its next height", left);
        let within = entries.iter().any(|(_, height)| height >= next_request_height);
        tally.hit_if("mark_requested: a plan with an entry at its next height or above", within);
    }
}

fn attempted_owner(tally: &mut Tally, before: &State, lists_entries: bool) {
    let attempted = before.prefix_probe_attempted_owner.is_some();
    if !before.pending.is_empty() {
        tally.hit_if("mark_requested: attempted owner kept in a window with entries", attempted);
        return;
    }
    tally.either("mark_requested: into an empty window, lists entries", lists_entries);
    tally.hit_if("mark_requested: attempted owner cleared", attempted && lists_entries);
    tally.hit_if("mark_requested: attempted owner kept by an empty request", attempted && !lists_entries);
}

fn raised_high_waters(tally: &mut Tally, before: &State, after: &State) {
    tally.either(
        "mark_requested: raises the blocks' high water",
        after.pending_blocks_high_water > before.pending_blocks_high_water,
    );
    tally
        .either("mark_requested: raises the bytes' high water", after.pending_bytes_high_water > before.pending_bytes_high_water);
}

fn has_request_capacity(tally: &mut Tally, state: &State, byte_headroom: u64, count_headroom: u64) {
    let settings = &state.settings;
    let pending = state.pending.len() as u64;
    tally.compare("has_request_capacity: pending against the setting", pending, settings.max_pending_blocks);
    if pending >= settings.max_pending_blocks {
        return;
    }
    let bytes = state.pending_bytes + state.ewma_block_bytes;
    tally.compare("has_request_capacity: total and mean against the setting", bytes, settings.max_pending_bytes);
    if bytes > settings.max_pending_bytes {
        return;
    }
    tally.compare("has_request_capacity: byte headroom against the mean", byte_headroom, state.ewma_block_bytes);
    if byte_headroom >= state.ewma_block_bytes {
        tally.either("has_request_capacity: count headroom over 0", count_headroom > 0);
    }
}

fn mark_owned_fetch(tally: &mut Tally, seen: &Seen) {
    let Call::MarkOwnedFetch { owner, hash, staged, byte_headroom, count_headroom, .. } = seen.call else {
        return;
    };
    let before = seen.before;
    let held = before.entry(*hash).is_some();
    tally.hit_if("mark_owned_fetch: held", held);
    tally.hit_if("mark_owned_fetch: held and staged", held && *staged);
    tally.hit_if("mark_owned_fetch: staged", !held && *staged);
    if held || *staged {
        return;
    }
    has_request_capacity(tally, before, *byte_headroom, *count_headroom);
    tally.hit_if("mark_owned_fetch: no capacity with 256 pending", before.pending.len() == MAX_PENDING);
    let asked = *seen.answer == Answer::Owned(OwnedFetch::Asked);
    let capacity = before.pending.len() < before.settings.max_pending_blocks as usize
        && before.pending_bytes + before.ewma_block_bytes <= before.settings.max_pending_bytes
        && *byte_headroom >= before.ewma_block_bytes
        && *count_headroom > 0;
    tally.hit_if("mark_owned_fetch: no capacity in the window", !capacity);
    if capacity {
        let owned = before.pending.iter().filter(|entry| entry.owner == *owner).count() as u64;
        let inflight = effective_peer_inflight(tally, before);
        tally.compare("mark_owned_fetch: owned against inflight", owned, inflight);
    }
    tally.hit_if("mark_owned_fetch: asked", asked);
    let attempted = before.prefix_probe_attempted_owner.is_some();
    tally.hit_if(
        "mark_owned_fetch: asked into an empty window, attempted owner kept",
        asked && attempted && before.pending.is_empty(),
    );
    if asked {
        tally.either("mark_owned_fetch: asked, owner has a start", before.start(*owner).is_some());
    }
}

fn effective_peer_inflight(tally: &mut Tally, state: &State) -> u64 {
    let settings = &state.settings;
    tally.either("effective_peer_inflight: fan-out active", state.fanout_engaged);
    if !state.fanout_engaged {
        return settings.max_peer_inflight;
    }
    tally.hit_if("effective_peer_inflight: no eligible peer", state.fanout_eligible_peers == 0);
    let share = settings.max_pending_blocks.div_ceil(state.fanout_eligible_peers.max(1));
    tally.hit_if(
        "effective_peer_inflight: share rounded up",
        settings.max_pending_blocks % state.fanout_eligible_peers.max(1) != 0,
    );
    tally.compare("effective_peer_inflight: share against the setting", share, settings.fanout_peer_inflight);
    let share = share.max(settings.fanout_peer_inflight);
    tally.compare("effective_peer_inflight: against the peer limit", share, settings.max_peer_inflight);
    share.min(settings.max_peer_inflight)
}

/// `compute_request_capacity` with the two headrooms: batch and bytes.
pub(crate) fn compute_request_capacity(
    tally: &mut Tally,
    state: &State,
    source: Seat,
    headrooms: (u64, u64),
) -> Option<(u64, u64)> {
    let (settings, (byte_headroom, count_headroom)) = (&state.settings, headrooms);
    let owned = state.pending.iter().filter(|entry| entry.owner == source).count() as u64;
    let inflight = effective_peer_inflight(tally, state);
    tally.compare("compute_request_capacity: owned against inflight", owned, inflight);
    let pending = state.pending.len() as u64;
    tally.compare("compute_request_capacity: pending against the setting", pending, settings.max_pending_blocks);
    tally.compare("compute_request_capacity: total against the setting", state.pending_bytes, settings.max_pending_bytes);
    let room = settings.max_pending_blocks.saturating_sub(pending);
    tally.compare("compute_request_capacity: room against count headroom", room, count_headroom);
    let byte_room = settings.max_pending_bytes.saturating_sub(state.pending_bytes);
    tally.compare("compute_request_capacity: byte room against byte headroom", byte_room, byte_headroom);
    let (peer, blocks) = (inflight.saturating_sub(owned), room.min(count_headroom));
    tally.compare("compute_request_capacity: batch limit against the peer's room", settings.getdata_batch_limit, peer);
    let batch = settings.getdata_batch_limit.min(peer);
    tally.compare("compute_request_capacity: batch against blocks", batch, blocks);
    if batch.min(blocks) == 0 {
        tally.hit("compute_request_capacity: none, batch 0");
        return None;
    }
    let bytes = byte_room.min(byte_headroom);
    tally.compare("compute_request_capacity: bytes against the mean", bytes, state.ewma_block_bytes);
    tally.either("compute_request_capacity: some", bytes >= state.ewma_block_bytes);
    (bytes >= state.ewma_block_bytes).then_some((batch.min(blocks), bytes))
}

/// The same, uncounted.
pub(crate) fn request_capacity(state: &State, source: Seat, headrooms: (u64, u64)) -> Option<(u64, u64)> {
    compute_request_capacity(&mut Tally::default(), state, source, headrooms)
}
