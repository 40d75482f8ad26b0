//! the list of SPECIFICATION 9.2, which words are a window,, of states: what their words hold is told by the reader.

use crate::decode;
use calls::{Clock, ColdFront, MAX_BYTE_LIMIT, MAX_CLOCK, MAX_COUNT, MAX_DURATION, MAX_PENDING, Settings, State};
use std::ops::RangeInclusive;

/// The least an estimate can be, and the most.
const ESTIMATES: RangeInclusive<u64> = 80..=u32::MAX as u64;

/// No clocks give a front mean above this, in ms.
const MAX_FRONT_MEAN: u64 = MAX_CLOCK / 1_000_000;

/// Whether the words count as a window.
pub fn is_window(words: &[u64]) -> bool {
    decode(words).is_some_and(|state| counts(&state))
}

fn counts(state: &State) -> bool {
    let conditions = [
        state.pending.windows(2).all(|pair| pair[0].hash < pair[1].hash),
        state.last_clock <= MAX_CLOCK && times(state).iter().all(|time| *time <= state.last_clock),
        state.pending.iter().all(|entry| ESTIMATES.contains(&entry.estimated_bytes))
            && ESTIMATES.contains(&state.ewma_block_bytes),
        u128::from(state.pending_bytes) == state.pending.iter().map(|entry| u128::from(entry.estimated_bytes)).sum::<u128>(),
        state.pending_blocks_high_water >= state.pending.len() as u64 && state.pending_bytes_high_water >= state.pending_bytes,
        starts_belong(state),
        settings_in_range(&state.settings),
        state.front_interval_ewma_ms.is_none_or(|mean| mean <= MAX_FRONT_MEAN),
        state.stall_timeout <= MAX_DURATION,
    ];
    conditions.into_iter().all(|holds| holds)
}

/// Every time that a state holds.
fn times(state: &State) -> Vec<Clock> {
    let tables = [&state.owner_downloading_since, &state.owner_last_body_at, &state.recent_stallers];
    let mut times: Vec<Clock> = tables.into_iter().flatten().map(|(_, time)| *time).collect();
    times.extend(state.pending.iter().map(|entry| entry.requested_at));
    times.extend(state.last_front_advance);
    times.extend(state.stall.map(|stall| stall.since));
    times.extend(state.apply_side_stuck.map(|stuck| stuck.since));
    times.extend(state.prefix_probe.iter().map(|probe| probe.started_at));
    if let Some(ColdFront::Waiting { since, .. }) = state.cold_front {
        times.push(since);
    }
    times
}

/// A seat has a start time exactly when it owns a record, no earlier than its oldest.
fn starts_belong(state: &State) -> bool {
    (0..=u8::MAX).all(|seat| {
        let start = state.owner_downloading_since.iter().find(|(owner, _)| *owner == seat).map(|(_, start)| *start);
        let oldest = state.pending.iter().filter(|entry| entry.owner == seat).map(|entry| entry.requested_at).min();
        match (start, oldest) {
            (None, None) => true,
            (Some(start), Some(oldest)) => start >= oldest,
            _ => false,
        }
    })
}

/// SPECIFICATION 4.1, refusal 5: a duration, a byte limit, the pending blocks, another count.
pub fn settings_in_range(settings: &Settings) -> bool {
    let durations = [
        settings.block_spacing,
        settings.received_timeout,
        settings.stall_timeout_initial,
        settings.stall_timeout_max,
        settings.staller_cooldown,
    ];
    let counts = [
        settings.max_received_blocks,
        settings.max_peer_inflight,
        settings.fanout_peer_inflight,
        settings.min_peers_for_fanout,
        settings.getdata_batch_limit,
    ];
    durations.iter().all(|duration| *duration <= MAX_DURATION)
        && settings.max_pending_bytes <= MAX_BYTE_LIMIT
        && settings.max_pending_blocks <= MAX_PENDING as u64
        && counts.iter().all(|count| *count <= MAX_COUNT)
}
