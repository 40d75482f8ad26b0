//! Hand-made sequences, for states that a run of some thousand generated calls may miss.

use crate::checks::Sequence;
use calls::{Call, Clock, Hash, Lent, MAX_BYTE_LIMIT, SEATS, Settings, Window};

/// Each through the given window, the original.
fn run(window: &mut dyn Window, all: Vec<Vec<Call>>) -> Vec<Sequence> {
    let through = |calls: Vec<Call>| {
        let outcomes = calls.iter().map(|call| window.call(call)).collect();
        Sequence { calls, outcomes }
    };
    all.into_iter().map(through).collect()
}

pub fn sequences(window: &mut dyn Window) -> Vec<Sequence> {
    // bodies that turn the first mean into 524,288 and 524,289
    let all = [
        few_eligible_peers(),
        plan_after(2_359_296),
        plan_after(2_359_304),
        no_plan_in_fanout(),
        plan_at_the_top(),
        staged_at_front(),
        passed_over_at_the_wait(),
        won_while_observed(),
        fanout_over_a_probe(),
        third_front(),
    ];
    run(window, all.to_vec())
}

/// Plans. Entries of the seat 3 time out 600 s after the request at 6.
pub fn plans(window: &mut dyn Window) -> Vec<Sequence> {
    let late = 600_000_000_006;
    let over = |length: u8| Lent { chain: (0..length).map(hash).collect(), ..nothing_lent() };
    let all = vec![
        // a swept one is refused, under the floor, and the clean stretch above it is not held back
        vec![open(8), request(&[1]), plan(late, Lent { refused: hashes(&[0]), floor: 2, ..over(9) })],
        // the same where something is staged: held back
        vec![open(8), request(&[1]), plan(late, Lent { refused: hashes(&[0]), floor: 2, staged: hashes(&[8]), ..over(9) })],
        // a chain of one hash, and nothing pending: the start, then above it
        vec![open(8), plan(6, over(1)), plan(6, Lent { start: 1, ..over(1) }), plan(6, Lent { start: 2, ..over(1) })],
        // two swept ones at one height, and one at the greatest
        vec![open(8), request(&[7, u32::MAX, 7]), plan(late, over(4)), plan(late, over(4))],
        // swept ones above the best, below the start and off the chain
        vec![open(8), request(&[2, 40, 3]), plan(late, Lent { start: 3, best: 2, ..over(5) })],
        // room for two blocks by bytes, three swept; then for one more than swept
        vec![open(8), request(&[2, 3, 4]), plan(late, Lent { byte_headroom: 2 * 262_144, ..over(9) })],
        vec![open(8), request(&[2, 3, 4]), plan(late, Lent { byte_headroom: 4 * 262_144 + 262_143, ..over(9) })],
        // by count: none, then one
        vec![
            open(8),
            request(&[2]),
            plan(late, Lent { count_headroom: 0, ..over(9) }),
            plan(late, Lent { count_headroom: 1, ..over(9) }),
        ],
        // rewound, and nothing is left to name: all but the start are past the best, and the start is refused
        vec![open(8), plan(6, Lent { start: 0, best: 0, refused: hashes(&[0]), ..over(9) }), Call::RequestCursor],
        // a refused one among the candidates, below and above what is taken
        vec![open(8), plan(6, Lent { staged: hashes(&[1]), refused: hashes(&[3]), count_headroom: 3, ..over(9) })],
        vec![open(8), plan(6, Lent { staged: hashes(&[1]), refused: hashes(&[5]), count_headroom: 3, ..over(9) })],
        vec![open(8), plan(6, Lent { staged: hashes(&[1]), refused: hashes(&[4]), count_headroom: 3, ..over(9) })],
        // an expired source: none, and nothing swept; allowing retry: its own again
        vec![open(8), request(&[2, 3]), of(3, late, over(9)), Call::PendingLen, retry_of(3, late, over(9)), Call::PendingLen],
        // staged bytes exhausted: nothing swept
        vec![open(8), request(&[2, 3]), plan(late, Lent { exhausted: true, ..over(9) }), Call::PendingLen],
    ];
    run(window, all)
}

fn nothing_lent() -> Lent {
    Lent {
        chain: Vec::new(),
        staged: Vec::new(),
        refused: Vec::new(),
        start: 1,
        best: u32::MAX,
        floor: 0,
        exhausted: false,
        byte_headroom: u64::MAX,
        count_headroom: u64::MAX,
        staging: None,
    }
}

fn hashes(indices: &[u8]) -> Vec<Hash> {
    indices.iter().copied().map(hash).collect()
}

fn plan(clock: Clock, lent: Lent) -> Call {
    of(7, clock, lent)
}

fn of(source: u8, clock: Clock, lent: Lent) -> Call {
    Call::NextPeerRequest { clock, source, lent }
}

fn retry_of(source: u8, clock: Clock, lent: Lent) -> Call {
    Call::NextPeerRequestAllowingRetry { clock, source, lent }
}

/// Fan-out active with no eligible peer and with one: the share is of one peer, and no other limit hides it.
fn few_eligible_peers() -> Vec<Call> {
    let mut calls = vec![open(0)];
    for count in [0, 1, 2, 3] {
        calls.push(Call::SetFanoutEligiblePeers { clock: 5, count });
        calls.push(Call::EffectivePeerInflight);
        calls.push(Call::ComputeRequestCapacity { source: 7, byte_headroom: u64::MAX, count_headroom: u64::MAX });
    }
    calls
}

/// A plan where the mean allows four hashes, or just does not; confirmed for another owner, then for its own.
fn plan_after(bytes: u64) -> Vec<Call> {
    let body = Call::MarkReceivedFrom { clock: 7, hash: hash(99), bytes, source: None };
    vec![open(8), request(&[100, 101, 102, 103, 104]), body, Call::PrefixProbePlan, confirm(4), confirm(3)]
}

/// Nothing but the fan-out stands against a plan.
fn no_plan_in_fanout() -> Vec<Call> {
    let fanout = Call::SetFanoutEligiblePeers { clock: 7, count: 0 };
    vec![open(0), request(&[100, 101, 102, 103, 104]), fanout, Call::PrefixProbePlan, confirm(3)]
}

/// After the greatest height the same is expected again.
fn plan_at_the_top() -> Vec<Call> {
    let top = u32::MAX;
    vec![open(8), request(&[top - 2, top - 1, top, top, top]), Call::PrefixProbePlan]
}

/// All blocks the window but for the staged height, which is the front's; then it is above.
fn staged_at_front() -> Vec<Call> {
    let look = |staged_height| Call::ObserveBlocked {
        clock: 8,
        next_apply_height: Some(100),
        frontier_hash: None,
        busy: false,
        staged_count: 16,
        staged_height,
    };
    vec![open(8), request(&[100, 101]), look(Some(100)), Call::StallingPeer, look(Some(101)), Call::StallingPeer]
}

/// The owner's last body is later than the request, and the entry's age reaches the stall wait.
fn passed_over_at_the_wait() -> Vec<Call> {
    let body = Call::CreditDeliveryFrom { clock: 7, hash: hash(99), source: 3, pending_height: None };
    let sweep = |age: u64| Call::ExpirePending { clock: 6 + age };
    vec![open(8), request(&[100, 101]), body, sweep(1_999_999_999), sweep(2_000_000_000)]
}

/// The owner wins the race while its entry at another height, which has timed out (after 600 s), is observed: the bodies came first, from nobody.
fn won_while_observed() -> Vec<Call> {
    let late = 600_000_000_009;
    let arrival = |index| Call::MarkReceivedFrom { clock: 9, hash: hash(index), bytes: 262_144, source: None };
    let look = Call::ObserveBlocked {
        clock: late,
        next_apply_height: None,
        frontier_hash: None,
        busy: false,
        staged_count: 0,
        staged_height: None,
    };
    let credit = |index| Call::CreditDeliveryFrom { clock: late, hash: hash(index), source: 3, pending_height: None };
    let race = [open(8), request(&[100, 101, 102, 103, 200]), confirm(3)].into_iter().chain((0..4).map(arrival));
    race.chain([look]).chain((0..4).map(credit)).collect()
}

/// Enough peers for fan-out while the probe is young, and when its age reaches the initial stall wait.
fn fanout_over_a_probe() -> Vec<Call> {
    let fanout = |age: u64| Call::SetFanoutEligiblePeers { clock: 8 + age, count: 2 };
    vec![open(2), request(&[100, 101, 102, 103]), confirm(3), fanout(1_999_999_999), Call::FanoutActive, fanout(2_000_000_000)]
}

/// Two fronts were hedged, each won by its owner, who has given no front: for a third there is no wait.
fn third_front() -> Vec<Call> {
    let look = |height| Call::ObserveBlocked {
        clock: 8,
        next_apply_height: Some(height),
        frontier_hash: None,
        busy: false,
        staged_count: 0,
        staged_height: None,
    };
    let hedge = |index| Call::ConfirmColdFrontHedge { owner: 3, alternate: 8, hash: hash(index) };
    let won = |index| Call::CreditDeliveryFrom { clock: 8, hash: hash(index), source: 3, pending_height: None };
    vec![open(8), request(&[100, 101, 102]), look(100), hedge(0), won(0), look(101), hedge(1), won(1), look(102)]
}

fn open(min_peers_for_fanout: u64) -> Call {
    let settings = Settings {
        max_pending_blocks: 256,
        max_pending_bytes: MAX_BYTE_LIMIT,
        max_received_blocks: 16,
        max_peer_inflight: 300,
        fanout_peer_inflight: 16,
        min_peers_for_fanout,
        getdata_batch_limit: 300,
        block_spacing: 600_000_000_000,
        received_timeout: 3_000_000_000,
        stall_timeout_initial: 2_000_000_000,
        stall_timeout_max: 64_000_000_000,
        staller_cooldown: 10_000_000_000,
    };
    Call::Open { clock: 5, settings, keys: vec![0; SEATS] }
}

fn hash(index: u8) -> Hash {
    Hash([index; 32])
}

/// Entries of these heights for the seat 3.
fn request(heights: &[u32]) -> Call {
    let entries = (0..).map(hash).zip(heights.iter().copied()).collect();
    let headroom = u64::MAX;
    Call::MarkRequested { clock: 6, owner: 3, entries, next_request_height: 0, byte_headroom: headroom, count_headroom: headroom }
}

/// The first four hashes, raced by the seats 8 and 9.
fn confirm(owner: u8) -> Call {
    Call::ConfirmPrefixProbe { clock: 8, owner, hashes: (0..4).map(hash).collect(), alternates: vec![8, 9] }
}
