//! The figures of SPECIFICATION 11 that speak of the Rust, and sentences near them, run on any window.

use crate::data::*;

const MS: u64 = 1_000_000;
const S: u64 = 1_000_000_000;

/// A window that can begin in any state that its memory can hold, whether calls reach it or not.
pub trait Loaded: Window + Default {
    fn loaded(state: &State) -> Self;
}

/// A window at a desk: calls by hand, and its last outcome.
struct Desk<W> {
    window: W,
    state: State,
    answer: Answer,
    gone: Vec<Release>,
}

impl<W: Loaded> Desk<W> {
    fn open(settings: Settings) -> Self {
        let mut window = W::default();
        let keys = (0..=u8::MAX).collect();
        let outcome = window.call(&Call::Open { clock: 0, settings, keys });
        Self { window, state: outcome.state, answer: outcome.answer, gone: outcome.gone }
    }

    fn call(&mut self, call: Call) -> &Answer {
        let outcome = self.window.call(&call);
        (self.state, self.answer, self.gone) = (outcome.state, outcome.answer, outcome.gone);
        &self.answer
    }

    fn request(&mut self, clock: Clock, owner: Seat, heights: std::ops::Range<u32>) {
        let entries = heights.map(|height| (hash(height), height)).collect();
        self.call(Call::MarkRequested {
            clock,
            owner,
            entries,
            next_request_height: 0,
            byte_headroom: u64::MAX,
            count_headroom: u64::MAX,
        });
    }

    fn deliver(&mut self, clock: Clock, height: u32, bytes: u64, source: Seat) {
        self.call(Call::MarkReceivedFrom { clock, hash: hash(height), bytes, source: Some(source) });
    }

    /// A body that nobody asked for and nobody sent moves the mean alone.
    fn body(&mut self, bytes: u64) -> u64 {
        let clock = self.state.last_clock;
        self.call(Call::MarkReceivedFrom { clock, hash: hash(u32::MAX), bytes, source: None });
        self.state.ewma_block_bytes
    }

    fn number(&mut self, query: Call) -> u64 {
        match self.call(query) {
            Answer::Number(number) => *number,
            other => panic!("{other:?} is no number"),
        }
    }

    fn observe(&mut self, clock: Clock, next: u32) -> Decision {
        let call = Call::ObserveBlocked {
            clock,
            next_apply_height: Some(next),
            frontier_hash: None,
            busy: false,
            staged_count: MAX_COUNT,
            staged_height: Some(u32::MAX),
        };
        match self.call(call) {
            Answer::Decided(decision) => *decision,
            other => panic!("{other:?} is no decision"),
        }
    }

    fn planned(&mut self) -> Option<Plan> {
        match self.call(Call::PrefixProbePlan) {
            Answer::Planned(plan) => plan.clone(),
            other => panic!("{other:?} is no plan"),
        }
    }

    fn start_probe(&mut self, alternate: Seat) -> Plan {
        let plan = self.planned().expect("a plan was set up");
        let clock = self.state.last_clock;
        self.call(Call::ConfirmPrefixProbe {
            clock,
            owner: plan.owner,
            hashes: plan.hashes.clone(),
            alternates: vec![alternate],
        });
        plan
    }
}

fn hash(height: u32) -> Hash {
    let mut bytes = [0; 32];
    bytes[28..].copy_from_slice(&height.to_be_bytes());
    Hash(bytes)
}

/// Request 12's settings: usual ones.
fn usual() -> Settings {
    Settings {
        max_pending_blocks: 256,
        max_pending_bytes: MAX_BYTE_LIMIT,
        max_received_blocks: 16,
        max_peer_inflight: 256,
        fanout_peer_inflight: 16,
        min_peers_for_fanout: 16,
        getdata_batch_limit: 16,
        block_spacing: 600 * S,
        received_timeout: 60 * S,
        stall_timeout_initial: 2 * S,
        stall_timeout_max: 64 * S,
        staller_cooldown: 600 * S,
    }
}

type Figure = (&'static str, fn() -> bool);

fn figures<W: Loaded>() -> Vec<Figure> {
    vec![
        ("* spacing 600 s: active 0 or 1, 600 s; 2, 900 s; 3, 1,200 s", owner_timeouts::<W>),
        ("* age equal to the timeout is expired; 1 ns less is not", expiry_at_equality::<W>),
        ("* mean 262,144, body 1,000,000: 354,376", || Desk::<W>::open(usual()).body(1_000_000) == 354_376),
        ("* mean 80, body 0: 80", mean_80::<W>),
        ("* mean 524,288: plan limit 4", || plan_at_mean::<W>(2_359_296) == (524_288, Some(4))),
        ("* mean 524,289: no plan", || plan_at_mean::<W>(2_359_304) == (524_289, None)),
        ("* no front mean: 49 ms leaves none", || front_mean::<W>(&[49]).is_none()),
        ("* no front mean: 50 ms gives 50", || front_mean::<W>(&[50]) == Some(50)),
        ("* mean 1,000, sample 1,400: 1,100", || front_mean::<W>(&[1_000, 1_400]) == Some(1_100)),
        ("* mean 1,100, sample 1,000: 1,075", || front_mean::<W>(&[1_100, 1_000]) == Some(1_075)),
        ("* stall wait 2 s, floor lower: 1.7 s after a front", lowered_stall_wait::<W>),
        ("* last body at the very request time: not passed over; 1 ns later it is", passed_over::<W>),
        ("* fan-out active, 256 blocks, 5 eligible, share 16, peer limit 128: inflight 52", inflight_52::<W>),
        ("* a fresh window: total 0, frontier 1, mean 262,144", fresh_window::<W>),
        ("a request with no entries starts no waiting time but may raise the frontier", empty_request::<W>),
        ("256 pending: an owned fetch of a new hash says no capacity", full_window::<W>),
        ("stall wait and decay floor both 0: the look that starts the episode blames", blame_at_once::<W>),
        ("a cold front never hedges in the look that starts it", no_hedge_at_once::<W>),
        ("a rejection by a peer that does not own the entry, or by nobody, lets nothing go", foreign_rejection::<W>),
        ("an unasked body moves the mean", || Desk::<W>::open(usual()).body(0) == 229_376),
        ("a prefix race is over the first four planned hashes", first_four::<W>),
        ("all four in without a winner ends the probe", nobody_wins::<W>),
        ("a newer entry's leaving does not raise a stored start", newer_leaves::<W>),
        ("a sample under 50 ms leaves the front mean, yet moves the last advance", short_sample::<W>),
        ("a body without a pending height is no front", no_height_no_front::<W>),
        ("a key is cooling while its age is under the cooldown", cooling::<W>),
        ("the forecast counts expired owners only", forecast::<W>),
        ("a confirmation of other hashes, or of over eight, changes only the last clock", wrong_confirmation::<W>),
        ("after height 4,294,967,295 it is expected again; the end height is one less", last_height::<W>),
        ("a retry that names a height lowers the frontier to it, entry or none", retry_without_entry::<W>),
        ("without a next height the stuck, cold front and stall records stay", no_next_height::<W>),
        ("a hedge won by an alternate that is the owner lets the owner's entries go", alternate_is_owner::<W>),
        ("should memory hold two racers that have won, the lower seat wins", two_winners::<W>),
    ]
}

/// Each figure, and whether it holds.
pub fn held<W: Loaded>() -> Vec<(&'static str, bool)> {
    figures::<W>().into_iter().map(|(figure, holds)| (figure, holds())).collect()
}

/// Prints one line a figure; returns how many held and how many did not.
pub fn run<W: Loaded>() -> (usize, usize) {
    let all = held::<W>();
    for (figure, holds) in &all {
        println!("{} {figure}", if *holds { "holds " } else { "FAILS " });
    }
    let held = all.iter().filter(|(_, holds)| *holds).count();
    (held, all.len() - held)
}

fn owner_timeouts<W: Loaded>() -> bool {
    let mut desk = Desk::<W>::open(usual());
    let mut timeouts = vec![desk.number(Call::EffectiveOwnerTimeout)];
    for seat in 0..3 {
        desk.request(0, seat, u32::from(seat)..u32::from(seat) + 1);
        timeouts.push(desk.number(Call::EffectiveOwnerTimeout));
    }
    timeouts == [600 * S, 600 * S, 900 * S, 1_200 * S]
}

fn expiry_at_equality<W: Loaded>() -> bool {
    let mut desk = Desk::<W>::open(usual());
    desk.request(5, 3, 7..8);
    let early = desk.call(Call::PeerHasExpiredPending { source: 3, clock: 600 * S + 4 }).clone();
    desk.call(Call::ExpirePending { clock: 600 * S + 4 });
    let nothing = desk.gone.is_empty();
    desk.call(Call::ExpirePending { clock: 600 * S + 5 });
    early == Answer::Flag(false) && nothing && desk.gone.len() == 1 && desk.gone[0].reason == Reason::OwnerTimedOut
}

fn mean_80<W: Loaded>() -> bool {
    let mut desk = Desk::<W>::open(usual());
    while desk.state.ewma_block_bytes > 80 {
        desk.body(0);
    }
    desk.state.ewma_block_bytes == 80 && desk.body(0) == 80
}

/// The mean after one body, and the number of planned hashes over ten entries in a row.
fn plan_at_mean<W: Loaded>(bytes: u64) -> (u64, Option<usize>) {
    let mut desk = Desk::<W>::open(usual());
    let mean = desk.body(bytes);
    desk.request(0, 3, 10..20);
    (mean, desk.planned().map(|plan| plan.hashes.len()))
}

/// The front mean after fronts that lie so many milliseconds apart.
fn front_mean<W: Loaded>(samples: &[u64]) -> Option<u64> {
    let mut desk = Desk::<W>::open(usual());
    desk.request(0, 3, 0..20);
    desk.deliver(S, 0, 0, 3);
    let mut clock = S;
    for (height, sample) in (1..).zip(samples) {
        clock += sample * MS;
        desk.deliver(clock, height, 0, 3);
    }
    desk.state.front_interval_ewma_ms
}

fn lowered_stall_wait<W: Loaded>() -> bool {
    let mut desk = Desk::<W>::open(Settings { stall_timeout_initial: S, ..usual() });
    desk.request(0, 3, 0..2);
    desk.observe(0, 0);
    let blamed = desk.observe(S, 0) == Decision::Blame { owner: 3, reason: BlameReason::Staller };
    let doubled = desk.state.stall_timeout;
    desk.deliver(S, 0, 0, 3);
    blamed && doubled == 2 * S && desk.state.stall_timeout == 1_700 * MS
}

fn passed_over<W: Loaded>() -> bool {
    let swept = |last_body: Clock| {
        let mut desk = Desk::<W>::open(usual());
        desk.request(0, 3, 0..1);
        desk.request(10, 3, 1..2);
        desk.deliver(10 + last_body, 0, 0, 3);
        desk.call(Call::ExpirePending { clock: 10 + 2 * S });
        desk.gone.iter().map(|gone| gone.reason).collect::<Vec<_>>()
    };
    swept(0).is_empty() && swept(1) == [Reason::PassedOver]
}

fn inflight_52<W: Loaded>() -> bool {
    let mut desk = Desk::<W>::open(Settings { max_peer_inflight: 128, min_peers_for_fanout: 5, ..usual() });
    desk.call(Call::SetFanoutEligiblePeers { clock: 0, count: 5 });
    desk.state.fanout_engaged && desk.number(Call::EffectivePeerInflight) == 52
}

fn fresh_window<W: Loaded>() -> bool {
    let state = Desk::<W>::open(usual()).state;
    (state.pending_bytes, state.next_request_height, state.ewma_block_bytes) == (0, 1, 262_144)
}

fn empty_request<W: Loaded>() -> bool {
    let mut desk = Desk::<W>::open(usual());
    desk.call(Call::MarkRequested {
        clock: 3,
        owner: 3,
        entries: vec![],
        next_request_height: 9,
        byte_headroom: 0,
        count_headroom: 0,
    });
    desk.state.owner_downloading_since.is_empty() && desk.state.next_request_height == 9
}

fn full_window<W: Loaded>() -> bool {
    let mut desk = Desk::<W>::open(usual());
    desk.request(0, 3, 0..256);
    let fetch = Call::MarkOwnedFetch {
        clock: 0,
        owner: 4,
        hash: hash(999),
        height: 999,
        staged: false,
        byte_headroom: u64::MAX,
        count_headroom: u64::MAX,
    };
    *desk.call(fetch) == Answer::Owned(OwnedFetch::NoCapacity) && desk.state.pending.len() == 256
}

fn blame_at_once<W: Loaded>() -> bool {
    let mut desk = Desk::<W>::open(Settings { stall_timeout_initial: 0, ..usual() });
    desk.request(0, 3, 0..1);
    desk.observe(0, 0) == Decision::Blame { owner: 3, reason: BlameReason::Staller }
}

fn no_hedge_at_once<W: Loaded>() -> bool {
    let mut desk = Desk::<W>::open(Settings { stall_timeout_initial: 0, ..usual() });
    desk.request(0, 3, 0..1);
    let look = Call::ObserveBlocked {
        clock: 0,
        next_apply_height: Some(0),
        frontier_hash: None,
        busy: false,
        staged_count: 0,
        staged_height: None,
    };
    let first = desk.call(look.clone()).clone();
    first == Answer::Decided(Decision::None)
        && *desk.call(look) == Answer::Decided(Decision::HedgeColdFront { owner: 3, front_hash: hash(0) })
}

fn foreign_rejection<W: Loaded>() -> bool {
    let mut desk = Desk::<W>::open(usual());
    desk.request(0, 3, 0..1);
    [Some(4), None].iter().all(|source| {
        *desk.call(Call::RejectDelivery { clock: 0, hash: hash(0), source: *source })
            == Answer::Rejected(Rejection::DiscardedUnsolicited)
            && desk.gone.is_empty()
    })
}

fn first_four<W: Loaded>() -> bool {
    let mut desk = Desk::<W>::open(usual());
    desk.request(0, 3, 0..8);
    desk.start_probe(4);
    for height in [0, 1, 2, 4] {
        desk.deliver(0, height, 262_144, 4);
    }
    let undecided = desk.state.preferred_peer.is_none() && desk.state.prefix_probe.is_some();
    desk.deliver(0, 3, 262_144, 4);
    undecided && desk.state.preferred_peer == Some(4) && desk.gone.len() == 4
}

fn nobody_wins<W: Loaded>() -> bool {
    let mut desk = Desk::<W>::open(usual());
    desk.request(0, 3, 0..8);
    desk.start_probe(4);
    for (height, source) in [(0, 3), (1, 3), (2, 4), (3, 4)] {
        desk.deliver(0, height, 262_144, source);
    }
    desk.state.prefix_probe.is_none() && desk.state.preferred_peer.is_none() && desk.state.pending.len() == 4
}

fn newer_leaves<W: Loaded>() -> bool {
    let mut desk = Desk::<W>::open(usual());
    desk.request(5, 3, 0..1);
    desk.request(9, 3, 1..2);
    desk.call(Call::ReleasePending { clock: 20, hash: hash(1) });
    desk.state.owner_downloading_since == [(3, 5)]
}

fn short_sample<W: Loaded>() -> bool {
    let mut desk = Desk::<W>::open(usual());
    desk.request(0, 3, 0..9);
    desk.deliver(S, 0, 0, 3);
    desk.deliver(S + 49 * MS, 1, 0, 3);
    desk.state.front_interval_ewma_ms.is_none() && desk.state.last_front_advance == Some(S + 49 * MS)
}

fn no_height_no_front<W: Loaded>() -> bool {
    let mut desk = Desk::<W>::open(usual());
    desk.call(Call::CreditDeliveryFrom { clock: S, hash: hash(0), source: 3, pending_height: None });
    let none = desk.state.last_front_advance;
    desk.call(Call::CreditDeliveryFrom { clock: S, hash: hash(0), source: 3, pending_height: Some(0) });
    none.is_none() && desk.state.last_front_advance == Some(S)
}

fn cooling<W: Loaded>() -> bool {
    let mut desk = Desk::<W>::open(usual());
    desk.call(Call::MarkPeerUnresponsive { clock: 0, source: 3 });
    let during = desk.call(Call::PeerInStallerCooldown { source: 3, clock: 600 * S - 1 }).clone();
    let after = desk.call(Call::PeerInStallerCooldown { source: 3, clock: 600 * S }).clone();
    (during, after) == (Answer::Flag(true), Answer::Flag(false))
}

fn forecast<W: Loaded>() -> bool {
    let mut desk = Desk::<W>::open(usual());
    desk.request(0, 3, 0..2);
    desk.deliver(1, 0, 262_144, 3);
    let foretold = desk.call(Call::ExpiredPendingCapacity { clock: 2 * S }).clone();
    desk.call(Call::ExpirePending { clock: 2 * S });
    foretold == Answer::Pair(0, 0) && desk.gone.len() == 1 && desk.gone[0].reason == Reason::PassedOver
}

fn wrong_confirmation<W: Loaded>() -> bool {
    let mut desk = Desk::<W>::open(usual());
    desk.request(0, 3, 0..10);
    let plan = desk.planned().expect("ten in a row");
    let before = State { last_clock: 7, ..desk.state.clone() };
    let swapped: Vec<Hash> = plan.hashes.iter().rev().copied().collect();
    let longer: Vec<Hash> = plan.hashes.iter().copied().chain([hash(8)]).collect();
    [swapped, longer].into_iter().all(|hashes| {
        desk.call(Call::ConfirmPrefixProbe { clock: 7, owner: 3, hashes, alternates: vec![4] });
        desk.state == before
    })
}

fn last_height<W: Loaded>() -> bool {
    let mut desk = Desk::<W>::open(usual());
    let top = u32::MAX;
    let heights = [top - 2, top - 1, top, top, top];
    let entries: Vec<(Hash, u32)> = (0..).map(hash).zip(heights).collect();
    desk.call(Call::MarkRequested { clock: 0, owner: 3, entries, next_request_height: 0, byte_headroom: 0, count_headroom: 0 });
    let plan = desk.planned();
    plan.is_some_and(|plan| plan.hashes.len() == 5 && plan.end_height == top - 1)
}

fn retry_without_entry<W: Loaded>() -> bool {
    let mut desk = Desk::<W>::open(usual());
    desk.call(Call::MarkRequested {
        clock: 0,
        owner: 3,
        entries: vec![],
        next_request_height: 50,
        byte_headroom: 0,
        count_headroom: 0,
    });
    desk.call(Call::RequeueForRetry { clock: 0, hash: hash(0), height: Some(20) });
    desk.state.next_request_height == 20
}

fn no_next_height<W: Loaded>() -> bool {
    let mut desk = Desk::<W>::open(usual());
    desk.request(0, 3, 0..1);
    let look = |next: Option<u32>, frontier: Option<Hash>, busy: bool| Call::ObserveBlocked {
        clock: 0,
        next_apply_height: next,
        frontier_hash: frontier,
        busy,
        staged_count: 8,
        staged_height: Some(1),
    };
    desk.call(look(Some(0), Some(hash(0)), true));
    desk.call(look(Some(0), Some(hash(0)), false));
    let before = desk.state.clone();
    let all = before.apply_side_stuck.is_some() && before.cold_front.is_some() && before.stall.is_some();
    desk.call(look(None, None, false));
    all && desk.state == before
}

fn alternate_is_owner<W: Loaded>() -> bool {
    let mut desk = Desk::<W>::open(usual());
    desk.request(0, 3, 0..4);
    desk.observe(0, 0);
    desk.call(Call::ConfirmColdFrontHedge { owner: 3, alternate: 3, hash: hash(0) });
    desk.deliver(0, 0, 262_144, 3);
    let hedged = desk.gone.iter().filter(|gone| gone.reason == Reason::HedgeLost).count();
    hedged == 3 && desk.state.pending.is_empty() && desk.state.preferred_peer == Some(3)
}

fn two_winners<W: Loaded>() -> bool {
    let mut desk = Desk::<W>::open(usual());
    desk.request(0, 5, 0..8);
    desk.start_probe(3);
    let mut state = desk.state.clone();
    let probe = state.prefix_probe.as_mut().expect("a probe was started");
    probe.racers = vec![(3, 15), (5, 15)];
    desk.window = W::loaded(&state);
    desk.call(Call::CreditDeliveryFrom { clock: 0, hash: hash(7), source: 9, pending_height: None });
    desk.state.preferred_peer == Some(3) && desk.gone.len() == 8
}
