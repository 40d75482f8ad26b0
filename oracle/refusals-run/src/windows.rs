//! Windows to try calls on, each with the calls that make it.

use calls::compare;
use calls::generator::Profile;
use calls::random::Random;
use calls::{Call, Clock, Hash, MAX_BYTE_LIMIT, MAX_CLOCK, MAX_PENDING, Outcome, SEATS, Settings, State, Window as _};
use ordered::Original;

pub struct Window {
    pub name: String,
    pub calls: Vec<Call>,
    pub state: State,
}

impl Window {
    fn after(name: &str, calls: Vec<Call>) -> Self {
        let mut original = Original::default();
        let outcomes: Vec<Outcome> = calls.iter().map(|call| original.call(call)).collect();
        let state = outcomes.last().expect("an opening at least").state.clone();
        Self { name: name.to_string(), calls, state }
    }
}

pub fn settings() -> Settings {
    Settings {
        max_pending_blocks: 256,
        max_pending_bytes: MAX_BYTE_LIMIT,
        max_received_blocks: 16,
        max_peer_inflight: 128,
        fanout_peer_inflight: 16,
        min_peers_for_fanout: 3,
        getdata_batch_limit: 64,
        block_spacing: 600_000_000_000,
        received_timeout: 3_000_000_000,
        stall_timeout_initial: 2_000_000_000,
        stall_timeout_max: 64_000_000_000,
        staller_cooldown: 10_000_000_000,
    }
}

/// Different hashes for different indices.
pub fn hash(index: u64) -> Hash {
    let mut bytes = [0x5a; 32];
    bytes[3..7].copy_from_slice(&(index as u32).wrapping_mul(0x9e37_79b1).to_be_bytes());
    bytes[24..].copy_from_slice(&index.to_be_bytes());
    Hash(bytes)
}

fn open(clock: Clock) -> Call {
    Call::Open { clock, settings: settings(), keys: (0..SEATS).map(|seat| (seat / 2) as u8).collect() }
}

fn request(clock: Clock, owner: u8, indices: std::ops::Range<u64>) -> Call {
    let entries = indices.map(|index| (hash(index), 100 + index as u32)).collect();
    Call::MarkRequested { clock, owner, entries, next_request_height: 100, byte_headroom: u64::MAX, count_headroom: u64::MAX }
}

/// Nothing pending; some pending; one place left; none left; the last clock there is.
pub fn chosen() -> Vec<Window> {
    let full = MAX_PENDING as u64;
    vec![
        Window::after("fresh", vec![open(1_000)]),
        Window::after("some", vec![open(1_000), request(2_000, 7, 0..3), request(3_000, 255, 3..5)]),
        Window::after("almost", vec![open(1_000), request(2_000, 7, 0..full - 1)]),
        Window::after("full", vec![open(1_000), request(2_000, 7, 0..full)]),
        Window::after("last-moment", vec![open(MAX_CLOCK), request(MAX_CLOCK, 7, 0..3)]),
    ]
}

/// Windows of generated calls: the first that shows each part of a window in use, then some at random.
pub fn generated(seed: u64) -> (Vec<Window>, Vec<Window>) {
    let mut random = Random::new(seed ^ 0x5eed);
    let mut wanted: Vec<fn(&State) -> bool> = vec![
        |state| state.prefix_probe.is_some() && state.owner_last_body_at.len() > 1,
        |state| matches!(state.cold_front, Some(calls::ColdFront::Racing { .. })) && state.cold_hedged_fronts.len() == 1,
        |state| matches!(state.cold_front, Some(calls::ColdFront::Waiting { .. })) && state.stall.is_some(),
        |state| state.apply_side_stuck.is_some() && !state.pending.is_empty(),
        |state| state.pending_timeout_observation.is_some_and(|seen| !seen.expired_release) && state.recent_stallers.len() > 1,
        |state| state.pending_timeout_observation.is_some_and(|seen| seen.expired_release),
        |state| state.cold_hedged_fronts.len() == 2 && state.preferred_peer.is_some(),
        |state| state.fanout_engaged && state.front_interval_ewma_ms.is_some() && state.owner_downloading_since.len() > 1,
    ];
    let (mut showing, mut others): (Vec<Window>, Vec<Window>) = (Vec::new(), Vec::new());
    let mut calls: Vec<Call> = Vec::new();
    let profile = Profile { mean_length: 18, table: 8, ..Profile::default() };
    compare::run(&mut Original::default(), seed, profile, 100_000, |_, call, outcome| {
        if matches!(call, Call::Open { .. }) {
            calls.clear();
        }
        calls.push(call.clone());
        let state = &outcome.state;
        if calls.len() > 30 || state.pending.len() > 20 {
            return;
        }
        let window = |name| Window { name, calls: calls.clone(), state: state.clone() };
        if let Some(place) = wanted.iter().position(|shows| shows(state)) {
            wanted.remove(place);
            showing.push(window(format!("showing-{}", showing.len())));
        } else if others.len() < 8 && random.below(2_000) == 0 {
            others.push(window(format!("other-{}", others.len())));
        }
    });
    assert!(wanted.is_empty(), "seed {seed} does not show {} of the wanted windows", wanted.len());
    (showing, others)
}
