//! What SPECIFICATION 9.2 says of every window made by calls, told of a state.

use crate::data::*;

const LEAST_ESTIMATE: u64 = 80;
const MOST_FRONT_MEAN_MS: u64 = MAX_CLOCK / 1_000_000;

/// The rules that a state breaks; none for a window made by accepted calls.
pub fn broken_rules(state: &State) -> Vec<&'static str> {
    let rules: [(&'static str, bool); 10] = [
        ("records rise strictly", state.pending.windows(2).all(|pair| pair[0].hash < pair[1].hash)),
        ("at most 256 records", state.pending.len() <= MAX_PENDING),
        ("estimates and mean lie in 80 to 4,294,967,295", estimates_in_range(state)),
        ("the total is the records' sum", state.pending_bytes == state.pending.iter().map(|entry| entry.estimated_bytes).sum()),
        ("high waters are no lower", high_waters_no_lower(state)),
        ("a start exactly where a record is owned, no earlier than the oldest", starts_fit(state)),
        ("times are at most the last clock", times(state).iter().all(|time| *time <= state.last_clock)),
        ("the front mean fits the clock", state.front_interval_ewma_ms.is_none_or(|mean| mean <= MOST_FRONT_MEAN_MS)),
        ("the stall wait is a duration", state.stall_timeout <= MAX_DURATION),
        ("races are within their bounds", races_fit(state)),
    ];
    rules.iter().filter(|(_, holds)| !holds).map(|(rule, _)| *rule).collect()
}

/// Which of request 02's promises an answered plan breaks; none, on whatever lists.
pub fn broken_promises(call: &Call, outcome: &Outcome) -> Vec<&'static str> {
    let (Some((_, source, lent)), Answer::Proposed(Some(request))) = (call.plan(), &outcome.answer) else {
        return Vec::new();
    };
    let (entries, settings) = (&request.entries, &outcome.state.settings);
    let none = |listed: &dyn Fn(&Hash) -> bool| entries.iter().all(|(hash, _)| !listed(hash));
    let twice = |place: usize| entries[..place].iter().any(|(hash, _)| *hash == entries[place].0);
    let count = entries.len() as u64;
    let rules: [(&'static str, bool); 10] = [
        ("a plan is the source's", request.owner == source),
        ("a plan has entries", count > 0),
        ("none planned is pending", none(&|hash| outcome.state.entry(*hash).is_some())),
        ("none planned is staged", none(&|hash| lent.staged.contains(hash))),
        ("none planned is refused", none(&|hash| lent.refused.contains(hash))),
        ("none is planned twice", !(0..entries.len()).any(twice)),
        ("none planned is under the floor", entries.iter().all(|(_, height)| *height >= lent.floor)),
        ("a plan is within the batch limit", count <= settings.getdata_batch_limit),
        ("a plan is within the window", outcome.state.pending.len() as u64 + count <= settings.max_pending_blocks),
        ("the next height is not below the frontier", request.next_request_height >= outcome.state.next_request_height),
    ];
    rules.iter().filter(|(_, holds)| !holds).map(|(rule, _)| *rule).collect()
}

fn estimates_in_range(state: &State) -> bool {
    let range = LEAST_ESTIMATE..=MAX_BODY;
    range.contains(&state.ewma_block_bytes) && state.pending.iter().all(|entry| range.contains(&entry.estimated_bytes))
}

fn high_waters_no_lower(state: &State) -> bool {
    state.pending_blocks_high_water >= state.pending.len() as u64 && state.pending_bytes_high_water >= state.pending_bytes
}

fn starts_fit(state: &State) -> bool {
    (0..=u8::MAX).all(|seat| {
        let oldest = state.pending.iter().filter(|entry| entry.owner == seat).map(|entry| entry.requested_at).min();
        match (oldest, state.start(seat)) {
            (None, None) => true,
            (Some(oldest), Some(start)) => start >= oldest,
            _ => false,
        }
    })
}

fn times(state: &State) -> Vec<Clock> {
    let mut times: Vec<Clock> = state.pending.iter().map(|entry| entry.requested_at).collect();
    for table in [&state.owner_downloading_since, &state.owner_last_body_at, &state.recent_stallers] {
        times.extend(table.iter().map(|(_, time)| *time));
    }
    times.extend(state.stall.map(|stall| stall.since));
    times.extend(state.apply_side_stuck.map(|stuck| stuck.since));
    times.extend(state.last_front_advance);
    times.extend(state.prefix_probe.as_ref().map(|probe| probe.started_at));
    if let Some(ColdFront::Waiting { since, .. }) = state.cold_front {
        times.push(since);
    }
    times
}

/// Two hedged fronts; four to eight planned hashes, progress and accepted bits among them, the owner
/// a racer, and no racer that has won already.
fn races_fit(state: &State) -> bool {
    let probe_fits = |probe: &PrefixProbe| {
        let planned = probe.hashes.len();
        let bits = |byte: u8| u32::from(byte) < 1 << planned;
        (4..=8).contains(&planned)
            && bits(probe.accepted)
            && probe.accepted & 15 != 15
            && probe.racers.iter().all(|(_, progress)| progress & !probe.accepted == 0)
            && probe.racers.iter().any(|(seat, _)| *seat == probe.owner)
    };
    state.cold_hedged_fronts.len() <= 2 && state.prefix_probe.as_ref().is_none_or(probe_fits)
}
