//! docs/LAYOUT.md, written down once more, independently of the Rattle definitions: a state as 4,096 words.

mod reader;
mod window;

pub use reader::decode;
pub use window::{is_window, settings_in_range};

use calls::{ColdFront, Entry, Hash, State};

pub const WORDS: usize = 4096;
pub const PLACES: usize = 256;

const STARTS: usize = 2304;
const BODIES: usize = 2560;
const KEYS: usize = 2816;
const COOLING: usize = 3072;
const RACERS: usize = 3328;
/// Where the head begins.
pub const HEAD: usize = 3584;
/// How many words of the head are in use; the others are 0.
pub const HEAD_USED: usize = 97;

/// A hash as four words, the first bytes heaviest.
pub fn hash_words(hash: &Hash) -> [u64; 4] {
    std::array::from_fn(|i| u64::from_be_bytes(std::array::from_fn(|k| hash.0[8 * i + k])))
}

/// An entry as the eight words of its columns.
pub fn entry_words(entry: &Entry) -> [u64; 8] {
    let [a, b, c, d] = hash_words(&entry.hash);
    [a, b, c, d, entry.owner.into(), entry.requested_at, entry.height.into(), entry.estimated_bytes]
}

/// The words of a state.
pub fn encode(state: &State) -> Vec<u64> {
    let mut words = vec![0; WORDS];
    for (place, entry) in state.pending.iter().enumerate() {
        for (column, word) in entry_words(entry).into_iter().enumerate() {
            words[PLACES * column + place] = word;
        }
    }
    by_index(&mut words[STARTS..], &state.owner_downloading_since);
    by_index(&mut words[BODIES..], &state.owner_last_body_at);
    by_index(&mut words[COOLING..], &state.recent_stallers);
    for (seat, key) in state.keys.iter().enumerate() {
        words[KEYS + seat] = (*key).into();
    }
    for (seat, progress) in state.prefix_probe.iter().flat_map(|probe| &probe.racers) {
        words[RACERS + usize::from(*seat)] = u64::from(*progress) + 1;
    }
    words[HEAD..HEAD + HEAD_USED].copy_from_slice(&head(state));
    words
}

/// Times by seat or key: 0 for none, t + 1 for the time t.
fn by_index(words: &mut [u64], times: &[(u8, u64)]) {
    for (index, time) in times {
        words[usize::from(*index)] = time + 1;
    }
}

fn head(state: &State) -> [u64; HEAD_USED] {
    let mut head = [0; HEAD_USED];
    let mut group = |at: usize, words: &[u64]| head[at..at + words.len()].copy_from_slice(words);
    group(0, &counts(state));
    group(8, &settings(state));
    let engaged = state.fanout_engaged.into();
    group(20, &[state.fanout_eligible_peers, engaged]);
    group(22, &[stored(state.front_interval_ewma_ms), stored(state.last_front_advance), state.stall_timeout]);
    group(25, &[seat(state.preferred_peer), seat(state.prefix_probe_attempted_owner)]);
    if let Some(stall) = &state.stall {
        group(27, &[stall.since + 1, stall.owner.into()]);
        group(29, &hash_words(&stall.front_hash));
    }
    if let Some(stuck) = &state.apply_side_stuck {
        group(33, &[stuck.since + 1, stuck.height.into()]);
        group(35, &hash_words(&stuck.frontier_hash));
    }
    if let Some(cold) = &state.cold_front {
        group(39, &cold_front(cold));
    }
    group(46, &[state.cold_hedged_fronts.len() as u64]);
    group(47, &hashes(&state.cold_hedged_fronts));
    if let Some(observation) = &state.pending_timeout_observation {
        group(55, &[1 + u64::from(observation.expired_release), observation.owner.into()]);
        group(57, &hash_words(&observation.hash));
    }
    if let Some(probe) = &state.prefix_probe {
        group(61, &[probe.started_at + 1, probe.owner.into(), probe.hashes.len() as u64, probe.accepted.into()]);
        group(65, &hashes(&probe.hashes));
    }
    head
}

fn counts(state: &State) -> [u64; 8] {
    [
        1,
        state.pending.len() as u64,
        state.last_clock,
        state.pending_bytes,
        state.pending_blocks_high_water,
        state.pending_bytes_high_water,
        state.ewma_block_bytes,
        state.next_request_height.into(),
    ]
}

fn settings(state: &State) -> [u64; 12] {
    let settings = &state.settings;
    [
        settings.max_pending_blocks,
        settings.max_pending_bytes,
        settings.max_received_blocks,
        settings.max_peer_inflight,
        settings.fanout_peer_inflight,
        settings.min_peers_for_fanout,
        settings.getdata_batch_limit,
        settings.block_spacing,
        settings.received_timeout,
        settings.stall_timeout_initial,
        settings.stall_timeout_max,
        settings.staller_cooldown,
    ]
}

fn cold_front(cold: &ColdFront) -> Vec<u64> {
    let (tag, owner, third, hash) = match cold {
        ColdFront::Waiting { owner, hash, since } => (1, *owner, since + 1, hash),
        ColdFront::Racing { owner, alternate, hash } => (2, *owner, (*alternate).into(), hash),
    };
    [&[tag, owner.into(), third][..], &hash_words(hash)].concat()
}

fn hashes(hashes: &[Hash]) -> Vec<u64> {
    hashes.iter().flat_map(hash_words).collect()
}

/// A number that may be missing: 0 for none, n + 1 for n.
fn stored(number: Option<u64>) -> u64 {
    number.map_or(0, |number| number + 1)
}

fn seat(seat: Option<u8>) -> u64 {
    stored(seat.map(u64::from))
}
