//! One accepted call of each kind on a window, and the ways in which it can be spoiled.

use crate::windows::{hash, settings};
use calls::{Call as Query, Clock, Hash, MAX_BODY, MAX_BYTE_LIMIT, MAX_CLOCK, MAX_COUNT, MAX_DURATION, SEATS, Settings, State};
use layout::hash_words;
use raw::{Call, ENOUGH, Lent, Room};

/// A call on a window, with its report's places.
#[derive(Clone, Debug)]
pub struct Try {
    pub call: Call,
    pub places: usize,
}

/// Hashes that no window here has pending.
fn unknown(index: u64) -> Hash {
    hash(1_000_000 + index)
}

pub fn list(indices: std::ops::Range<u64>) -> Vec<u64> {
    indices.flat_map(|index| hash_words(&unknown(index))).collect()
}

/// Accepted at the window's last clock.
pub fn samples(state: &State) -> Vec<Call> {
    let clock = state.last_clock;
    let mut calls = vec![Call::Open { clock, settings: settings(), keys: vec![3; SEATS] }];
    calls.extend(changes(clock));
    calls.extend(queries(clock));
    calls
}

pub fn request(clock: Clock, hashes: Vec<u64>, heights: usize) -> Call {
    let heights = vec![500; heights];
    Call::MarkRequested { clock, owner: 9, hashes, heights, next_request_height: 0, byte_headroom: 1 << 30, count_headroom: 9 }
}

fn changes(clock: Clock) -> Vec<Call> {
    let hash = unknown(0);
    vec![
        request(clock, Vec::new(), 0),
        Call::MarkOwnedFetch { clock, owner: 9, hash, height: 5, staged: false, byte_headroom: 1 << 30, count_headroom: 9 },
        Call::MarkReceivedFrom { clock, hash, bytes: 1_000, source: Some(9) },
        Call::CreditDeliveryFrom { clock, hash, source: 9, pending_height: Some(5) },
        Call::CreditDuplicateDelivery { hash, source: 9 },
        Call::RejectDelivery { clock, hash, source: Some(9) },
        Call::ExpirePending { clock },
        Call::RequeueForRetry { clock, hash, height: None },
        Call::ReleasePending { clock, hash },
        Call::RetireBefore { clock, height: u32::MAX },
        Call::RetainOwnedBy { flags: vec![0; SEATS] },
        Call::MarkPeerUnresponsive { clock, source: 9 },
        Call::ConfirmPrefixProbe { clock, owner: 9, hashes: list(0..4), alternates: vec![1, 2] },
        Call::ConfirmColdFrontHedge { owner: 9, alternate: 8, hash },
        Call::ObserveBlocked {
            clock,
            next_apply_height: Some(1),
            frontier_hash: None,
            busy: false,
            staged_count: 0,
            staged_height: None,
        },
        Call::SetFanoutEligiblePeers { clock, count: 5 },
        Call::ClearPreferredPeer,
        Call::NextPeerRequest { clock, source: 9, lent: lending(), room: ENOUGH },
        Call::NextPeerRequestAllowingRetry { clock, source: 9, lent: lending(), room: ENOUGH },
    ]
}

/// A chain of three hashes, one more staged and one more refused.
fn lending() -> Lent {
    Lent {
        chain: list(10..13),
        tip: 2,
        staged: list(13..14),
        refused: list(14..15),
        start: 1,
        best: 2,
        floor: 0,
        exhausted: false,
        byte_headroom: 1 << 30,
        count_headroom: 9,
    }
}

fn queries(clock: Clock) -> Vec<Call> {
    let (hash, source) = (unknown(0), 9);
    let mut queries = vec![
        Call::ComputeRequestCapacity { source, byte_headroom: 1 << 30, count_headroom: 9 },
        Call::ExpiredPendingCapacity { clock },
        Call::PeerHasExpiredPending { source, clock },
        Call::PeerInStallerCooldown { source, clock },
        Call::ProbeOffered { source, hash },
        Call::HedgeOffered { source, hash },
        Call::IsDownloading { owner: source },
        Call::PendingCountFor { source },
        Call::OwnerQueueStart { owner: source },
    ];
    let plain = [
        Query::FanoutActive,
        Query::PendingLen,
        Query::PendingBytes,
        Query::PendingHighWater,
        Query::MaxPendingBlocks,
        Query::MinPeersForFanout,
        Query::HasRequestCapacity { byte_headroom: 1 << 30, count_headroom: 9 },
        Query::EffectivePeerInflight,
        Query::StallingPeer,
        Query::PreferredPeer,
        Query::PrefixProbePlan,
        Query::ContainsPending { hash },
        Query::PendingOwner { hash },
        Query::ActiveDownloadingPeers,
        Query::EffectiveOwnerTimeout,
        Query::StallDecayFloor,
        Query::RequestCursor,
        Query::StallTimeout,
        Query::FrontIntervalEwmaMs,
        Query::EwmaBlockBytes,
        Query::ProbeStartedAt,
    ];
    queries.extend(plain.into_iter().map(Call::Query));
    queries
}

/// Every way to spoil a call that the list of SPECIFICATION 4 looks at, on either side of each limit.
pub fn variations(call: &Call, state: &State) -> Vec<Try> {
    let plain = Try { call: call.clone(), places: 256 };
    let mut tries: Vec<Try> = [0, 255, 256, 257].map(|places| Try { places, ..plain.clone() }).to_vec();
    let altered = clocks(call, state).into_iter().chain(seats(call)).chain(lists(call)).chain(contents(call, state));
    tries.extend(altered.map(|call| Try { call, places: 256 }));
    tries
}

fn clocks(call: &Call, state: &State) -> Vec<Call> {
    let last = state.last_clock;
    let times = [last.saturating_sub(1), last, last + 1, 0, MAX_CLOCK, MAX_CLOCK + 1, u64::MAX];
    let at = |time| {
        let mut altered = call.clone();
        *altered.clock_mut()? = time;
        Some(altered)
    };
    times.into_iter().filter_map(at).collect()
}

/// Each seat or key of the call by itself, of long lists the first and the last.
fn seats(call: &Call) -> Vec<Call> {
    let count = call.clone().seats_mut().len();
    let mut altered = Vec::new();
    for place in (0..count).filter(|place| count < 4 || *place == 0 || *place == count - 1) {
        for seat in [0, 255, 256, u64::MAX] {
            let mut call = call.clone();
            *call.seats_mut()[place] = seat;
            altered.push(call);
        }
    }
    altered
}

fn lists(call: &Call) -> Vec<Call> {
    let lengths = [0, 1, 255, 256, 257];
    match call {
        Call::Open { clock, settings, .. } => {
            lengths.map(|length| Call::Open { clock: *clock, settings: *settings, keys: vec![255; length] }).to_vec()
        }
        Call::RetainOwnedBy { .. } => lengths.map(|length| Call::RetainOwnedBy { flags: vec![u64::MAX; length] }).to_vec(),
        Call::ConfirmPrefixProbe { clock, owner, hashes, .. } => {
            let with = |length| Call::ConfirmPrefixProbe {
                clock: *clock,
                owner: *owner,
                hashes: hashes.clone(),
                alternates: vec![255; length],
            };
            lengths.map(with).to_vec()
        }
        _ => Vec::new(),
    }
}

fn contents(call: &Call, state: &State) -> Vec<Call> {
    match call {
        Call::Open { clock, keys, .. } => {
            all_settings().into_iter().map(|settings| Call::Open { clock: *clock, settings, keys: keys.clone() }).collect()
        }
        Call::MarkRequested { clock, .. } => requests(*clock, state),
        Call::MarkReceivedFrom { clock, hash, source, .. } => [0, MAX_BODY, MAX_BODY + 1, u64::MAX]
            .into_iter()
            .flat_map(|bytes| [*source, None].map(|source| Call::MarkReceivedFrom { clock: *clock, hash: *hash, bytes, source }))
            .collect(),
        Call::RejectDelivery { clock, hash, .. } => vec![Call::RejectDelivery { clock: *clock, hash: *hash, source: None }],
        Call::NextPeerRequest { .. } | Call::NextPeerRequestAllowingRetry { .. } => lendings(call),
        Call::ConfirmPrefixProbe { clock, owner, alternates, .. } => [list(0..0), list(0..9), list(0..300), vec![1, 2, 3]]
            .map(|hashes| Call::ConfirmPrefixProbe { clock: *clock, owner: *owner, hashes, alternates: alternates.clone() })
            .to_vec(),
        _ => Vec::new(),
    }
}

/// Chains of other lengths and tips, ragged ones too; ragged staged and refused lists, which count by their whole hashes; and room for the plan on
/// either side of what it may need.
fn lendings(call: &Call) -> Vec<Call> {
    let with = |change: &dyn Fn(&mut Lent, &mut Room)| {
        let mut altered = call.clone();
        let (lent, room) = altered.plan_mut().expect("a plan");
        change(lent, room);
        altered
    };
    let chain = |words: usize, tip: u32| {
        with(&|lent, _| {
            lent.chain = list(10..14)[..words].to_vec();
            lent.tip = tip;
        })
    };
    let room = |hash_words, heights| with(&|_, room| *room = Room { hash_words, heights });
    let mut calls: Vec<Call> =
        [(0, 0), (4, 0), (4, 1), (8, 0), (8, 2), (11, 2), (12, 2), (13, 2), (15, 2), (16, 2), (3, 0), (5, 0), (4, u32::MAX)]
            .map(|(words, tip)| chain(words, tip))
            .to_vec();
    calls.extend(
        [(1024, 255), (1023, 256), (1025, 257), (1020, 256), (0, 256), (1024, 0), (0, 0)]
            .map(|(words, heights)| room(words, heights)),
    );
    calls.push(with(&|lent, _| lent.staged.truncate(3)));
    calls.push(with(&|lent, _| lent.refused.push(7)));
    calls
}

/// Lists around the room that is left, with a hash twice or pending, and ragged ones.
fn requests(clock: Clock, state: &State) -> Vec<Call> {
    let room = (256 - state.pending.len()) as u64;
    let twice = |length: u64| [list(0..length - 1), list(length - 2..length - 1)].concat();
    let of = |hashes: Vec<u64>| request(clock, hashes.clone(), hashes.len() / 4);
    let mut calls = vec![of(list(0..room)), of(list(0..room + 1)), of(list(0..257)), of(twice(2)), of(twice(258))];
    // the repeated hash is past the heights, then past the whole hashes; then more heights than hashes
    calls.extend([request(clock, twice(2), 1), request(clock, twice(2)[..7].to_vec(), 2), request(clock, list(0..1), 300)]);
    if let Some(entry) = state.pending.last() {
        let pending = hash_words(&entry.hash).to_vec();
        calls.extend([of(pending.clone()), of([list(0..1), pending.clone()].concat()), of([list(0..256), pending].concat())]);
    }
    calls
}

/// Each setting at its limit and above it, and at 0.
fn all_settings() -> Vec<Settings> {
    let fields: [(fn(&mut Settings) -> &mut u64, u64); 12] = [
        (|settings| &mut settings.max_pending_blocks, 256),
        (|settings| &mut settings.max_pending_bytes, MAX_BYTE_LIMIT),
        (|settings| &mut settings.max_received_blocks, MAX_COUNT),
        (|settings| &mut settings.max_peer_inflight, MAX_COUNT),
        (|settings| &mut settings.fanout_peer_inflight, MAX_COUNT),
        (|settings| &mut settings.min_peers_for_fanout, MAX_COUNT),
        (|settings| &mut settings.getdata_batch_limit, MAX_COUNT),
        (|settings| &mut settings.block_spacing, MAX_DURATION),
        (|settings| &mut settings.received_timeout, MAX_DURATION),
        (|settings| &mut settings.stall_timeout_initial, MAX_DURATION),
        (|settings| &mut settings.stall_timeout_max, MAX_DURATION),
        (|settings| &mut settings.staller_cooldown, MAX_DURATION),
    ];
    let with = |field: fn(&mut Settings) -> &mut u64, value| {
        let mut altered = settings();
        *field(&mut altered) = value;
        altered
    };
    fields.iter().flat_map(|(field, limit)| [0, *limit, limit + 1, u64::MAX].map(|value| with(*field, value))).collect()
}
