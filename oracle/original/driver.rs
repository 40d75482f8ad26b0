// The driver: a child module of the original, so that it may call its private functions and read its
// private fields. It stands where the original's tests did (see substitutions.rs).

use super::super::shims::bitcoin_rs_execution::chain::{BlockTree, NodeId, TipSnapshot};
use super::super::shims::bitcoin_rs_wire::PeerEndpoint;
use super::super::shims::p2p::BlockStager;
use super::*;
use calls::{
    Answer, Call, Clock, Decision, Entry, Lent, Outcome, OwnedFetch, Plan, Reason, Rejection, Release, Request, Seat, Settings,
    Staging, State,
};
use std::collections::BTreeSet;

/// The original behind `calls::Window`. Clocks are read as so many nanoseconds after `base`.
pub struct Original {
    base: Instant,
    settings: Settings,
    keys: Vec<u8>,
    last_clock: Clock,
    window: DownloadWindow,
    state: State,
}

impl calls::Window for Original {
    fn call(&mut self, call: &Call) -> Outcome {
        if let Call::Open { clock, settings, keys } = call {
            *self = Self::opened(*clock, *settings, keys);
            return Outcome { answer: Answer::Done, gone: Vec::new(), state: self.state.clone() };
        }
        let expired = self.expired_owners(call);
        let answer = self.perform(call);
        self.last_clock = call.sets_clock().unwrap_or(self.last_clock);
        let after = self.snapshot();
        let before = std::mem::replace(&mut self.state, after);
        let gone = self.gone(call, &before, &expired);
        if let (Call::ExpirePending { .. }, Answer::Number(swept)) = (call, &answer) {
            assert_eq!(*swept as usize, gone.len(), "a sweep answers what went");
        }
        Outcome { answer, gone, state: self.state.clone() }
    }
}

impl calls::figures::Loaded for Original {
    fn loaded(state: &State) -> Self {
        Self::loaded(state)
    }
}

impl Default for Original {
    /// A window for the first opening to replace.
    fn default() -> Self {
        let zero = Settings {
            max_pending_blocks: 0,
            max_pending_bytes: 0,
            max_received_blocks: 0,
            max_peer_inflight: 0,
            fanout_peer_inflight: 0,
            min_peers_for_fanout: 0,
            getdata_batch_limit: 0,
            block_spacing: 0,
            received_timeout: 0,
            stall_timeout_initial: 0,
            stall_timeout_max: 0,
            staller_cooldown: 0,
        };
        Self::opened(0, zero, &[0; calls::SEATS])
    }
}

impl Original {
    fn opened(clock: Clock, settings: Settings, keys: &[u8]) -> Self {
        let window = DownloadWindow::new(budget(&settings));
        let base = Instant::now();
        let state = snapshot(&window, base, &settings, keys, clock);
        Self { base, settings, keys: keys.to_vec(), last_clock: clock, window, state }
    }

    /// A window in any state that the original's fields can hold, whether calls reach it or not.
    pub fn loaded(state: &State) -> Self {
        let mut original = Self::opened(state.last_clock, state.settings, &state.keys);
        original.load_tables(state);
        original.load_watch(state);
        original.load_races(state);
        original.state = original.snapshot();
        original
    }

    fn load_tables(&mut self, state: &State) {
        self.window.pending_bytes = state.pending_bytes as usize;
        self.window.pending_blocks_high_water = state.pending_blocks_high_water as usize;
        self.window.pending_bytes_high_water = state.pending_bytes_high_water as usize;
        self.window.ewma_block_bytes = state.ewma_block_bytes as usize;
        self.window.next_request_height = state.next_request_height;
        for entry in &state.pending {
            let pending = PendingBlock {
                owner: self.source(entry.owner),
                requested_at: self.at(entry.requested_at),
                height: entry.height,
                estimated_bytes: entry.estimated_bytes as usize,
            };
            self.window.pending.insert(original_hash(entry.hash), pending);
        }
        for (seat, since) in &state.owner_downloading_since {
            let (owner, since) = (self.source(*seat), self.at(*since));
            self.window.owner_downloading_since.insert(owner, since);
        }
        for (seat, last) in &state.owner_last_body_at {
            let (owner, last) = (self.source(*seat), self.at(*last));
            self.window.owner_last_body_at.insert(owner, last);
        }
        for (key, fired_at) in &state.recent_stallers {
            let fired_at = self.at(*fired_at);
            self.window.recent_stallers.insert(StallerKey::Endpoint(PeerEndpoint(*key)), fired_at);
        }
    }

    fn load_watch(&mut self, state: &State) {
        self.window.stall = state.stall.map(|stall| StallEpisode {
            owner: self.source(stall.owner),
            front_hash: original_hash(stall.front_hash),
            since: self.at(stall.since),
            info_logged: false,
        });
        self.window.apply_side_stuck = state.apply_side_stuck.map(|stuck| ApplySideStuck {
            height: stuck.height,
            frontier_hash: original_hash(stuck.frontier_hash),
            since: self.at(stuck.since),
        });
        self.window.front_interval_ewma_ms = state.front_interval_ewma_ms;
        self.window.last_front_advance = state.last_front_advance.map(|clock| self.at(clock));
        self.window.stall_timeout = Duration::from_nanos(state.stall_timeout);
        self.window.pending_timeout_observation = state.pending_timeout_observation.map(|seen| PendingTimeoutObservation {
            owner: self.source(seen.owner),
            hash: original_hash(seen.hash),
            expired_release: seen.expired_release,
        });
    }

    fn load_races(&mut self, state: &State) {
        self.window.fanout_eligible_peers = state.fanout_eligible_peers as usize;
        self.window.fanout_engaged = state.fanout_engaged;
        self.window.cold_front = state.cold_front.map(|front| match front {
            calls::ColdFront::Waiting { owner, hash, since } => {
                ColdFrontState::Waiting { owner: self.source(owner), hash: original_hash(hash), since: self.at(since) }
            }
            calls::ColdFront::Racing { owner, alternate, hash } => {
                ColdFrontState::Racing { owner: self.source(owner), alternate: self.source(alternate), hash: original_hash(hash) }
            }
        });
        self.window.cold_hedged_fronts = state.cold_hedged_fronts.iter().copied().map(original_hash).collect();
        self.window.preferred_peer = state.preferred_peer.map(|seat| self.source(seat));
        self.window.prefix_probe_attempted_owner = state.prefix_probe_attempted_owner.map(|seat| self.source(seat));
        self.window.prefix_probe = state.prefix_probe.as_ref().map(|probe| {
            let mut racers = HashMap::new();
            racers.extend(probe.racers.iter().map(|(seat, progress)| (self.source(*seat), *progress)));
            PrefixProbe {
                owner: self.source(probe.owner),
                hashes: probe.hashes.iter().copied().map(original_hash).collect(),
                racers,
                accepted: probe.accepted,
                started_at: self.at(probe.started_at),
            }
        });
    }

    /// The whole pending side as it stands.
    pub fn state(&self) -> &State {
        &self.state
    }

    fn snapshot(&self) -> State {
        snapshot(&self.window, self.base, &self.settings, &self.keys, self.last_clock)
    }

    fn source(&self, seat: Seat) -> PeerSource {
        PeerSource { seat, endpoint: Some(PeerEndpoint(self.keys[usize::from(seat)])) }
    }

    fn at(&self, clock: Clock) -> Instant {
        self.base + Duration::from_nanos(clock)
    }

    fn clock(&self, instant: Instant) -> Clock {
        clock_of(self.base, instant)
    }

    /// Seats whose entries a sweep lets go as timed out; asked before the sweep.
    fn expired_owners(&self, call: &Call) -> Vec<Seat> {
        let clock = match call {
            Call::ExpirePending { clock }
            | Call::NextPeerRequest { clock, .. }
            | Call::NextPeerRequestAllowingRetry { clock, .. } => clock,
            _ => return Vec::new(),
        };
        let active = self.window.active_downloading_peers();
        (0..=u8::MAX).filter(|seat| self.window.owner_download_expired(self.source(*seat), active, self.at(*clock))).collect()
    }

    /// The report (SPECIFICATION 3.4): what is no longer in the map, with its reason.
    fn gone(&self, call: &Call, before: &State, expired: &[Seat]) -> Vec<Release> {
        let mut gone: Vec<Release> = before
            .pending
            .iter()
            .filter(|entry| !self.window.pending.contains_key(&original_hash(entry.hash)))
            .map(|entry| Release { entry: *entry, reason: reason(call, entry, before, expired) })
            .collect();
        gone.sort_by_key(|release| (release.reason != Reason::Delivered, release.entry.hash));
        gone
    }

    fn perform(&mut self, call: &Call) -> Answer {
        match call {
            Call::MarkRequested { clock, owner, entries, next_request_height, byte_headroom, count_headroom } => {
                let owner = self.source(*owner);
                let entries = entries
                    .iter()
                    .map(|(hash, height)| PeerRequestEntry { hash: original_hash(*hash), height: *height })
                    .collect();
                let request = PeerRequest { owner, entries, next_request_height: *next_request_height };
                Answer::Flag(self.window.mark_requested(
                    &headroom(*byte_headroom, *count_headroom),
                    &request,
                    owner,
                    self.at(*clock),
                ))
            }
            Call::MarkOwnedFetch { .. } => self.mark_owned_fetch(call),
            Call::ConfirmPrefixProbe { clock, owner, hashes, alternates } => {
                let hashes = hashes.iter().copied().map(original_hash).collect();
                let alternates: Vec<PeerSource> = alternates.iter().map(|seat| self.source(*seat)).collect();
                self.window.confirm_prefix_probe(self.source(*owner), hashes, &alternates, self.at(*clock));
                Answer::Done
            }
            Call::ConfirmColdFrontHedge { owner, alternate, hash } => {
                self.window.confirm_cold_front_hedge(self.source(*owner), self.source(*alternate), original_hash(*hash));
                Answer::Done
            }
            Call::ObserveBlocked { .. } => self.observe_blocked(call),
            Call::SetFanoutEligiblePeers { clock, count } => {
                self.window.set_fanout_eligible_peers(*count as usize, self.at(*clock));
                Answer::Done
            }
            Call::ClearPreferredPeer => {
                self.window.clear_preferred_peer();
                Answer::Done
            }
            Call::MarkPeerUnresponsive { clock, source } => {
                self.window.mark_peer_unresponsive(self.source(*source), self.at(*clock));
                Answer::Done
            }
            _ => self.deliver_or_let_go(call),
        }
    }

    fn deliver_or_let_go(&mut self, call: &Call) -> Answer {
        match call {
            Call::MarkReceivedFrom { clock, hash, bytes, source } => {
                let source = source.map(|seat| self.source(seat));
                let height = self.window.mark_received_from(original_hash(*hash), *bytes as usize, source, self.at(*clock));
                Answer::MaybeNumber(height.map(u64::from))
            }
            Call::CreditDeliveryFrom { clock, hash, source, pending_height } => {
                self.window.credit_delivery_from(original_hash(*hash), self.source(*source), *pending_height, self.at(*clock));
                Answer::Done
            }
            Call::CreditDuplicateDelivery { hash, source } => {
                self.window.credit_duplicate_delivery(original_hash(*hash), self.source(*source));
                Answer::Done
            }
            Call::RejectDelivery { clock, hash, source } => {
                let source = source.map(|seat| self.source(seat));
                Answer::Rejected(match self.window.reject_delivery(original_hash(*hash), source, self.at(*clock)) {
                    RejectDelivery::ReleasedPending => Rejection::ReleasedPending,
                    RejectDelivery::DiscardedUnsolicited => Rejection::DiscardedUnsolicited,
                })
            }
            Call::ExpirePending { clock } => Answer::Number(self.window.expire_pending(self.at(*clock)).len() as u64),
            Call::RequeueForRetry { clock, hash, height } => {
                self.window.requeue_for_retry(&original_hash(*hash), *height, self.at(*clock));
                Answer::Done
            }
            Call::ReleasePending { clock, hash } => {
                self.window.release_pending(&original_hash(*hash), self.at(*clock));
                Answer::Done
            }
            Call::RetireBefore { clock, height } => {
                let tree = BlockTree::default();
                self.window.retire_before(&mut BlockStager::default(), *height, &tree, self.at(*clock));
                Answer::Done
            }
            Call::RetainOwnedBy { owns } => {
                self.window.retain_owned_by(|source| owns[usize::from(source.seat)]);
                Answer::Done
            }
            Call::NextPeerRequest { clock, source, lent } => self.next_peer_request(*clock, *source, lent, false),
            Call::NextPeerRequestAllowingRetry { clock, source, lent } => self.next_peer_request(*clock, *source, lent, true),
            query => self.query(query),
        }
    }

    fn mark_owned_fetch(&mut self, call: &Call) -> Answer {
        let Call::MarkOwnedFetch { clock, owner, hash, height, staged, byte_headroom, count_headroom } = call else {
            unreachable!("asked for owned fetches only")
        };
        let hash = original_hash(*hash);
        let held = self.window.pending.contains_key(&hash);
        let mut stager = BlockStager { staged: *staged, ..headroom(*byte_headroom, *count_headroom) };
        let owned = self.window.mark_owned_fetch(&mut stager, self.source(*owner), hash, *height, self.at(*clock));
        Answer::Owned(match (owned, stager.gate_cleared, held) {
            (false, ..) => OwnedFetch::NoCapacity,
            (true, true, _) => OwnedFetch::Staged,
            (true, false, true) => OwnedFetch::Held,
            (true, false, false) => OwnedFetch::Asked,
        })
    }

    /// Tree, tip and stager are made of the lent lists. The chains of a sequence only grow, so nothing is retargeted.
    fn next_peer_request(&mut self, clock: Clock, source: Seat, lent: &Lent, allowing_retry: bool) -> Answer {
        let tree = BlockTree { staged_height: None, chain: lent.chain.iter().copied().map(original_hash).collect() };
        let height = lent.tip();
        let tip = TipSnapshot { tip_id: NodeId(height), hash: tree.chain[height as usize], height };
        let mut stager = self.stager(lent);
        let refused: BTreeSet<Hash256> = lent.refused.iter().copied().map(original_hash).collect();
        let is_refused = |hash: Hash256| refused.contains(&hash);
        let mut refusals = RefusalFilter::new(&is_refused);
        let (now, seat) = (self.at(clock), self.source(source));
        let refused_peer = self.window.peer_has_expired_pending(seat, now) || self.window.peer_in_staller_cooldown(seat, now);
        let planned = if allowing_retry {
            self.window.next_peer_request_allowing_retry(
                &mut stager,
                seat,
                &tip,
                lent.start,
                lent.best,
                lent.floor,
                &tree,
                now,
                &mut refusals,
            )
        } else {
            self.window.next_peer_request(
                &mut stager,
                seat,
                &tip,
                lent.start,
                lent.best,
                lent.floor,
                &tree,
                now,
                &mut refusals,
            )
        };
        assert_eq!(self.window.staged_bytes_exhausted(&stager), lent.exhausted, "exhausted as the original finds it");
        if !lent.exhausted && (allowing_retry || !refused_peer) {
            // Planning opens no entry, so the window is still the swept one.
            let bytes = self.window.staged_byte_headroom(&stager) as u64;
            let count = self.window.staged_count_headroom(&stager, 0) as u64;
            assert_eq!((bytes, count), (lent.byte_headroom, lent.count_headroom), "headrooms as the original finds them");
        }
        Answer::Proposed(planned.map(|request| Request {
            owner: request.owner().seat,
            entries: request.entries().map(|(height, hash)| (plain_hash(hash), height)).collect(),
            next_request_height: request.next_request_height,
        }))
    }

    /// The staged hashes, with bytes and limit as said, or some that are exhausted or not and headrooms as handed in.
    fn stager(&mut self, lent: &Lent) -> BlockStager {
        let (staging, headrooms) = match lent.staging {
            Some(staging) => (staging, None),
            None => (Staging { bytes: lent.exhausted.into(), limit: 1 }, Some((lent.byte_headroom, lent.count_headroom))),
        };
        self.window.budget.max_received_bytes = staging.limit as usize;
        BlockStager {
            headrooms,
            staged_count: lent.staged.len() as u64,
            staged_bytes: staging.bytes,
            staged_hashes: lent.staged.iter().copied().map(original_hash).collect(),
            ..BlockStager::default()
        }
    }

    fn observe_blocked(&mut self, call: &Call) -> Answer {
        let Call::ObserveBlocked { clock, next_apply_height, frontier_hash, busy, staged_count, staged_height } = call else {
            unreachable!("asked for observations only")
        };
        let context = BlockedContext {
            next_apply_height: *next_apply_height,
            frontier_hash: frontier_hash.map(original_hash),
            apply_side_busy: *busy,
        };
        // Any one staged hash serves: the tree is asked for its height only.
        let staged_hash = staged_height.map(|_| Hash256([0; 32]));
        let stager = BlockStager { staged_count: *staged_count, staged_hash, ..BlockStager::default() };
        let tree = BlockTree { staged_height: *staged_height, chain: Vec::new() };
        Answer::Decided(match self.window.observe_blocked(context, &stager, &tree, self.at(*clock)) {
            BlockedDecision::Blame { owner, reason } => Decision::Blame {
                owner: owner.seat,
                reason: match reason {
                    BlameReason::Staller => calls::BlameReason::Staller,
                    BlameReason::PendingTimeout => calls::BlameReason::PendingTimeout,
                },
            },
            BlockedDecision::EvictStaged { height, hash, suppressed_for } => {
                Decision::EvictStaged { height, hash: plain_hash(hash), suppressed_for: nanoseconds(suppressed_for) }
            }
            BlockedDecision::HedgeColdFront { owner, front_hash } => {
                Decision::HedgeColdFront { owner: owner.seat, front_hash: plain_hash(front_hash) }
            }
            BlockedDecision::None => Decision::None,
        })
    }

    fn query(&self, call: &Call) -> Answer {
        let window = &self.window;
        match call {
            Call::FanoutActive => Answer::Flag(window.fanout_active()),
            Call::PendingLen => Answer::Number(window.pending_len() as u64),
            Call::PendingBytes => Answer::Number(window.pending_bytes() as u64),
            Call::PendingHighWater => {
                let (blocks, bytes) = window.pending_high_water();
                Answer::Pair(blocks as u64, bytes as u64)
            }
            Call::MaxPendingBlocks => Answer::Number(window.max_pending_blocks() as u64),
            Call::MinPeersForFanout => Answer::Number(window.min_peers_for_fanout() as u64),
            Call::EffectivePeerInflight => Answer::Number(window.effective_peer_inflight() as u64),
            Call::StallingPeer => Answer::MaybePair(
                window
                    .stalling_peer()
                    .map(|(endpoint, since)| (endpoint.map_or(u64::MAX, |key| u64::from(key.0)), self.clock(since))),
            ),
            Call::PreferredPeer => Answer::MaybeNumber(window.preferred_peer().map(|peer| u64::from(peer.seat))),
            Call::PrefixProbePlan => Answer::Planned(window.prefix_probe_plan().map(|(owner, hashes, end_height)| Plan {
                owner: owner.seat,
                hashes: hashes.iter().copied().map(plain_hash).collect(),
                end_height,
            })),
            Call::ActiveDownloadingPeers => Answer::Number(window.active_downloading_peers() as u64),
            Call::EffectiveOwnerTimeout => {
                Answer::Number(nanoseconds(window.effective_owner_timeout(window.active_downloading_peers())))
            }
            Call::StallDecayFloor => Answer::Number(nanoseconds(window.stall_decay_floor())),
            Call::RequestCursor => Answer::Number(u64::from(window.next_request_height)),
            Call::StallTimeout => Answer::Number(nanoseconds(window.stall_timeout)),
            Call::FrontIntervalEwmaMs => Answer::MaybeNumber(window.front_interval_ewma_ms),
            Call::EwmaBlockBytes => Answer::Number(window.ewma_block_bytes as u64),
            Call::ProbeStartedAt => Answer::MaybeNumber(window.prefix_probe.as_ref().map(|probe| self.clock(probe.started_at))),
            _ => self.query_with_arguments(call),
        }
    }

    fn query_with_arguments(&self, call: &Call) -> Answer {
        let window = &self.window;
        match call {
            Call::HasRequestCapacity { byte_headroom, count_headroom } => {
                Answer::Flag(window.has_request_capacity(&headroom(*byte_headroom, *count_headroom)))
            }
            Call::ComputeRequestCapacity { source, byte_headroom, count_headroom } => Answer::MaybePair(
                window
                    .compute_request_capacity(&headroom(*byte_headroom, *count_headroom), self.source(*source))
                    .map(|(batch, bytes)| (batch as u64, bytes as u64)),
            ),
            Call::ExpiredPendingCapacity { clock } => {
                let (blocks, bytes) = window.expired_pending_capacity(self.at(*clock));
                Answer::Pair(blocks as u64, bytes as u64)
            }
            Call::PeerHasExpiredPending { source, clock } => {
                Answer::Flag(window.peer_has_expired_pending(self.source(*source), self.at(*clock)))
            }
            Call::PeerInStallerCooldown { source, clock } => {
                Answer::Flag(window.peer_in_staller_cooldown(self.source(*source), self.at(*clock)))
            }
            Call::ProbeOffered { source, hash } => {
                Answer::Flag(window.probe_offered(self.source(*source), &original_hash(*hash)))
            }
            Call::HedgeOffered { source, hash } => {
                Answer::Flag(window.hedge_offered(self.source(*source), &original_hash(*hash)))
            }
            Call::ContainsPending { hash } => Answer::Flag(window.contains_pending(&original_hash(*hash))),
            Call::PendingOwner { hash } => {
                Answer::MaybeNumber(window.pending_owner(&original_hash(*hash)).map(|owner| u64::from(owner.seat)))
            }
            Call::IsDownloading { owner } => Answer::Flag(window.is_downloading(self.source(*owner))),
            Call::PendingCountFor { source } => Answer::Number(window.pending_count_for(self.source(*source)) as u64),
            Call::OwnerQueueStart { owner } => {
                Answer::MaybeNumber(window.owner_downloading_since.get(&self.source(*owner)).map(|since| self.clock(*since)))
            }
            changing => unreachable!("{changing:?} is performed elsewhere"),
        }
    }
}

/// Why an entry went, by the table of SPECIFICATION 5.1.
fn reason(call: &Call, entry: &Entry, before: &State, expired: &[Seat]) -> Reason {
    match call {
        Call::MarkReceivedFrom { hash, .. } if *hash == entry.hash => Reason::Delivered,
        Call::MarkReceivedFrom { hash, source, .. } => race_lost(before, *hash, *source),
        Call::CreditDeliveryFrom { hash, source, .. } => race_lost(before, *hash, Some(*source)),
        Call::RejectDelivery { .. } => Reason::OwnerRejected,
        Call::RequeueForRetry { .. } => Reason::Retry,
        Call::ReleasePending { .. } => Reason::Released,
        Call::RetireBefore { .. } => Reason::Retired,
        Call::ExpirePending { .. } | Call::NextPeerRequest { .. } | Call::NextPeerRequestAllowingRetry { .. } => {
            if expired.contains(&entry.owner) { Reason::OwnerTimedOut } else { Reason::PassedOver }
        }
        Call::RetainOwnedBy { .. } => Reason::SeatLost,
        other => panic!("{other:?} let an entry go"),
    }
}

/// A hedge lost ends the prefix race, so a body decides one of the two.
fn race_lost(before: &State, hash: calls::Hash, source: Option<Seat>) -> Reason {
    match before.cold_front {
        Some(calls::ColdFront::Racing { alternate, hash: racing, .. }) if racing == hash && source == Some(alternate) => {
            Reason::HedgeLost
        }
        _ => Reason::PrefixRaceLost,
    }
}

fn original_hash(hash: calls::Hash) -> Hash256 {
    Hash256(hash.0)
}

fn plain_hash(hash: Hash256) -> calls::Hash {
    calls::Hash(hash.0)
}

fn clock_of(base: Instant, instant: Instant) -> Clock {
    nanoseconds(instant.duration_since(base))
}

fn nanoseconds(duration: Duration) -> u64 {
    u64::try_from(duration.as_nanos()).expect("durations of accepted calls fit")
}

fn headroom(byte_headroom: u64, count_headroom: u64) -> BlockStager {
    BlockStager { headrooms: Some((byte_headroom, count_headroom)), ..BlockStager::default() }
}

/// Of the two byte limits that are no setting, a plan's call gives the one that is read.
fn budget(settings: &Settings) -> SyncBudget {
    SyncBudget {
        max_pending_blocks: settings.max_pending_blocks as usize,
        max_pending_bytes: settings.max_pending_bytes as usize,
        max_received_blocks: settings.max_received_blocks as usize,
        max_received_bytes: 0,
        max_retained_bytes: 0,
        max_peer_inflight: settings.max_peer_inflight as usize,
        fanout_peer_inflight: settings.fanout_peer_inflight as usize,
        min_peers_for_fanout: settings.min_peers_for_fanout as usize,
        getdata_batch_limit: settings.getdata_batch_limit as usize,
        block_spacing: Duration::from_nanos(settings.block_spacing),
        received_timeout: Duration::from_nanos(settings.received_timeout),
        stall_timeout_initial: Duration::from_nanos(settings.stall_timeout_initial),
        stall_timeout_max: Duration::from_nanos(settings.stall_timeout_max),
        staller_cooldown: Duration::from_nanos(settings.staller_cooldown),
    }
}

fn snapshot(window: &DownloadWindow, base: Instant, settings: &Settings, keys: &[u8], last_clock: Clock) -> State {
    State {
        settings: *settings,
        last_clock,
        pending_bytes: window.pending_bytes as u64,
        pending_blocks_high_water: window.pending_blocks_high_water as u64,
        pending_bytes_high_water: window.pending_bytes_high_water as u64,
        ewma_block_bytes: window.ewma_block_bytes as u64,
        next_request_height: window.next_request_height,
        pending: pending_entries(window, base),
        owner_downloading_since: seat_times(&window.owner_downloading_since, base),
        owner_last_body_at: seat_times(&window.owner_last_body_at, base),
        keys: keys.to_vec(),
        recent_stallers: cooling(window, base),
        fanout_eligible_peers: window.fanout_eligible_peers as u64,
        fanout_engaged: window.fanout_engaged,
        stall: window.stall.map(|stall| calls::StallEpisode {
            owner: stall.owner.seat,
            front_hash: plain_hash(stall.front_hash),
            since: clock_of(base, stall.since),
        }),
        apply_side_stuck: window.apply_side_stuck.map(|stuck| calls::ApplySideStuck {
            height: stuck.height,
            frontier_hash: plain_hash(stuck.frontier_hash),
            since: clock_of(base, stuck.since),
        }),
        front_interval_ewma_ms: window.front_interval_ewma_ms,
        last_front_advance: window.last_front_advance.map(|instant| clock_of(base, instant)),
        stall_timeout: nanoseconds(window.stall_timeout),
        cold_front: window.cold_front.map(|state| cold_front(state, base)),
        cold_hedged_fronts: window.cold_hedged_fronts.iter().copied().map(plain_hash).collect(),
        preferred_peer: window.preferred_peer.map(|peer| peer.seat),
        prefix_probe: window.prefix_probe.as_ref().map(|probe| prefix_probe(probe, base)),
        prefix_probe_attempted_owner: window.prefix_probe_attempted_owner.map(|owner| owner.seat),
        pending_timeout_observation: window.pending_timeout_observation.map(|seen| calls::Observation {
            owner: seen.owner.seat,
            hash: plain_hash(seen.hash),
            expired_release: seen.expired_release,
        }),
    }
}

fn pending_entries(window: &DownloadWindow, base: Instant) -> Vec<Entry> {
    let mut entries: Vec<Entry> = window
        .pending
        .iter()
        .map(|(hash, pending)| Entry {
            hash: plain_hash(*hash),
            owner: pending.owner.seat,
            requested_at: clock_of(base, pending.requested_at),
            height: pending.height,
            estimated_bytes: pending.estimated_bytes as u64,
        })
        .collect();
    entries.sort_by_key(|entry| entry.hash);
    entries
}

fn seat_times(times: &HashMap<PeerSource, Instant>, base: Instant) -> Vec<(Seat, Clock)> {
    let mut times: Vec<(Seat, Clock)> = times.iter().map(|(owner, at)| (owner.seat, clock_of(base, *at))).collect();
    times.sort_unstable();
    times
}

fn cooling(window: &DownloadWindow, base: Instant) -> Vec<(u8, Clock)> {
    let mut cooling: Vec<(u8, Clock)> = window
        .recent_stallers
        .iter()
        .map(|(key, at)| match key {
            StallerKey::Endpoint(endpoint) => (endpoint.0, clock_of(base, *at)),
            StallerKey::Unidentified(_) => unreachable!("every seat has a key"),
        })
        .collect();
    cooling.sort_unstable();
    cooling
}

fn cold_front(state: ColdFrontState, base: Instant) -> calls::ColdFront {
    match state {
        ColdFrontState::Waiting { owner, hash, since } => {
            calls::ColdFront::Waiting { owner: owner.seat, hash: plain_hash(hash), since: clock_of(base, since) }
        }
        ColdFrontState::Racing { owner, alternate, hash } => {
            calls::ColdFront::Racing { owner: owner.seat, alternate: alternate.seat, hash: plain_hash(hash) }
        }
    }
}

fn prefix_probe(probe: &PrefixProbe, base: Instant) -> calls::PrefixProbe {
    let mut racers: Vec<(Seat, u8)> = probe.racers.iter().map(|(peer, progress)| (peer.seat, *progress)).collect();
    racers.sort_unstable();
    calls::PrefixProbe {
        owner: probe.owner.seat,
        hashes: probe.hashes.iter().copied().map(plain_hash).collect(),
        racers,
        accepted: probe.accepted,
        started_at: clock_of(base, probe.started_at),
    }
}
