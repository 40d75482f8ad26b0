//! Words back to a state.

use crate::{BODIES, COOLING, HEAD, HEAD_USED, KEYS, PLACES, RACERS, STARTS, WORDS, encode};
use calls::{ApplySideStuck, Clock, ColdFront, Entry, Hash, Observation, PrefixProbe, Seat, Settings, StallEpisode, State};

/// The state that these words are, if they are some state's: a word that is not in use, or out of its
/// type's range, is not written by any.
pub fn decode(words: &[u64]) -> Option<State> {
    if words.len() != WORDS {
        return None;
    }
    let state = read(words)?;
    (encode(&state) == words).then_some(state)
}

fn read(words: &[u64]) -> Option<State> {
    let head = &words[HEAD..HEAD + HEAD_USED];
    let [_, count, last_clock, pending_bytes, blocks_high, bytes_high, mean, frontier] = *head.first_chunk()?;
    Some(State {
        settings: settings(head),
        last_clock,
        pending_bytes,
        pending_blocks_high_water: blocks_high,
        pending_bytes_high_water: bytes_high,
        ewma_block_bytes: mean,
        next_request_height: height(frontier)?,
        pending: pending(words, count)?,
        owner_downloading_since: times(&words[STARTS..]),
        owner_last_body_at: times(&words[BODIES..]),
        keys: words[KEYS..KEYS + PLACES].iter().map(|key| seat(*key)).collect::<Option<_>>()?,
        recent_stallers: times(&words[COOLING..]),
        fanout_eligible_peers: head[20],
        fanout_engaged: head[21] == 1,
        front_interval_ewma_ms: stored(head[22]),
        last_front_advance: stored(head[23]),
        stall_timeout: head[24],
        preferred_peer: stored_seat(head[25])?,
        prefix_probe_attempted_owner: stored_seat(head[26])?,
        stall: stall(&head[27..])?,
        apply_side_stuck: stuck(&head[33..])?,
        cold_front: cold_front(&head[39..])?,
        cold_hedged_fronts: hashes(&head[47..55], head[46])?,
        pending_timeout_observation: observation(&head[55..])?,
        prefix_probe: probe(&head[61..], &words[RACERS..RACERS + PLACES])?,
    })
}

fn settings(head: &[u64]) -> Settings {
    Settings {
        max_pending_blocks: head[8],
        max_pending_bytes: head[9],
        max_received_blocks: head[10],
        max_peer_inflight: head[11],
        fanout_peer_inflight: head[12],
        min_peers_for_fanout: head[13],
        getdata_batch_limit: head[14],
        block_spacing: head[15],
        received_timeout: head[16],
        stall_timeout_initial: head[17],
        stall_timeout_max: head[18],
        staller_cooldown: head[19],
    }
}

fn pending(words: &[u64], count: u64) -> Option<Vec<Entry>> {
    let count = usize::try_from(count).ok().filter(|count| *count <= PLACES)?;
    (0..count).map(|place| entry(|column| words[PLACES * column + place])).collect()
}

fn entry(word: impl Fn(usize) -> u64) -> Option<Entry> {
    Some(Entry {
        hash: hash(&[word(0), word(1), word(2), word(3)]),
        owner: seat(word(4))?,
        requested_at: word(5),
        height: height(word(6))?,
        estimated_bytes: word(7),
    })
}

fn stall(group: &[u64]) -> Option<Option<StallEpisode>> {
    let Some(since) = stored(group[0]) else { return Some(None) };
    Some(Some(StallEpisode { owner: seat(group[1])?, front_hash: hash(&group[2..]), since }))
}

fn stuck(group: &[u64]) -> Option<Option<ApplySideStuck>> {
    let Some(since) = stored(group[0]) else { return Some(None) };
    Some(Some(ApplySideStuck { height: height(group[1])?, frontier_hash: hash(&group[2..]), since }))
}

fn cold_front(group: &[u64]) -> Option<Option<ColdFront>> {
    let (third, hash) = (group[2], hash(&group[3..]));
    match group[0] {
        0 => Some(None),
        1 => Some(Some(ColdFront::Waiting { owner: seat(group[1])?, hash, since: stored(third)? })),
        2 => Some(Some(ColdFront::Racing { owner: seat(group[1])?, alternate: seat(third)?, hash })),
        _ => None,
    }
}

fn observation(group: &[u64]) -> Option<Option<Observation>> {
    match group[0] {
        0 => Some(None),
        tag @ 1..=2 => Some(Some(Observation { owner: seat(group[1])?, hash: hash(&group[2..]), expired_release: tag == 2 })),
        _ => None,
    }
}

fn probe(group: &[u64], racers: &[u64]) -> Option<Option<PrefixProbe>> {
    let Some(started_at) = stored(group[0]) else { return Some(None) };
    let racing = (0..=u8::MAX).zip(racers).filter(|(_, progress)| **progress > 0);
    Some(Some(PrefixProbe {
        owner: seat(group[1])?,
        hashes: hashes(&group[4..36], group[2])?,
        racers: racing.map(|(seat, progress)| Some((seat, u8::try_from(progress - 1).ok()?))).collect::<Option<_>>()?,
        accepted: u8::try_from(group[3]).ok()?,
        started_at,
    }))
}

/// Times by seat or key.
fn times(words: &[u64]) -> Vec<(u8, Clock)> {
    (0..=u8::MAX).zip(words).filter_map(|(index, word)| Some((index, stored(*word)?))).collect()
}

fn hash(words: &[u64]) -> Hash {
    let mut bytes = [0; 32];
    bytes.chunks_mut(8).zip(words).for_each(|(chunk, word)| chunk.copy_from_slice(&word.to_be_bytes()));
    Hash(bytes)
}

/// As many hashes as the count says, if there are places for them.
fn hashes(words: &[u64], count: u64) -> Option<Vec<Hash>> {
    let count = usize::try_from(count).ok().filter(|count| *count <= words.len() / 4)?;
    Some(words.chunks(4).take(count).map(hash).collect())
}

fn stored(word: u64) -> Option<u64> {
    word.checked_sub(1)
}

fn seat(word: u64) -> Option<Seat> {
    Seat::try_from(word).ok()
}

fn stored_seat(word: u64) -> Option<Option<Seat>> {
    stored(word).map_or(Some(None), |word| seat(word).map(Some))
}

fn height(word: u64) -> Option<u32> {
    u32::try_from(word).ok()
}
