//! Seeded sequences of accepted calls that steer, by the state they are shown, towards rare states.

mod planning;

use crate::data::*;
use crate::random::Random;
use crate::world::{Theme, World};
use std::collections::BTreeSet;

/// What kind of run is wanted.
#[derive(Clone, Copy, Debug)]
pub struct Profile {
    /// About how many calls a sequence has.
    pub mean_length: u64,
    /// About how many entries are pending at most; the theme of full tables takes 256 nevertheless.
    pub table: u64,
    /// No two hashes of a sequence have one height, so that maps without an order agree too.
    pub distinct_heights: bool,
    pub planning: Planning,
}

/// Whether plans are among the calls.
#[derive(Clone, Copy, Debug, PartialEq, Eq)]
pub enum Planning {
    Without,
    Among,
    /// In every sequence most calls are plans.
    Mostly,
}

impl Default for Profile {
    fn default() -> Self {
        Self { mean_length: 60, table: 40, distinct_heights: false, planning: Planning::Among }
    }
}

/// Gives the calls of one seed, one by one.
#[derive(Clone)]
pub struct Generator {
    random: Random,
    profile: Profile,
    sequences: u64,
    left: u64,
    world: World,
}

#[derive(Clone, Copy)]
enum Action {
    Request,
    OwnedFetch,
    Deliver,
    Credit,
    Duplicate,
    Reject,
    Sweep,
    Retry,
    Release,
    Retire,
    Retain,
    Unresponsive,
    Plan,
    ConfirmProbe,
    ConfirmHedge,
    Observe,
    Fanout,
    ClearPreferred,
    Query,
    NextRequest,
}

impl Generator {
    pub fn new(seed: u64, profile: Profile) -> Self {
        let mut random = Random::new(seed);
        let world = World::new(&mut random, Theme::Mixed, &profile);
        Self { random, profile, sequences: 0, left: 0, world }
    }

    /// Sequences begun so far.
    pub fn sequences(&self) -> u64 {
        self.sequences
    }

    /// Two entries have one height, though heights are to be distinct: a plan may ask for a height at which another hash is pending.
    fn is_spoiled(&self, last: &Outcome) -> bool {
        let mut heights = BTreeSet::new();
        self.profile.distinct_heights && !last.state.pending.iter().all(|entry| heights.insert(entry.height))
    }

    /// The next call, after `last` came of the one before; the first of a sequence is an opening.
    pub fn next(&mut self, last: Option<&Outcome>) -> Call {
        let Some(last) = last.filter(|last| self.left > 0 && !self.is_spoiled(last)) else {
            return self.open();
        };
        self.left -= 1;
        if let Some(call) = self.follow_up(last) {
            return call;
        }
        let state = &last.state;
        match self.action(state) {
            Action::Request => self.request(state),
            Action::OwnedFetch => self.owned_fetch(state),
            Action::Deliver => self.deliver(state),
            Action::Credit => self.credit(state),
            Action::Duplicate => self.duplicate(state),
            Action::Reject => self.reject(state),
            Action::Sweep => Call::ExpirePending { clock: self.clock(state, &sweep_deadlines(state)) },
            Action::Retry => self.retry(state),
            Action::Release => {
                let hash = self.hash(state);
                Call::ReleasePending { clock: self.clock(state, &[]), hash }
            }
            Action::Retire => self.retire(state),
            Action::Retain => self.retain(state),
            Action::Unresponsive => {
                let source = self.seat(state);
                Call::MarkPeerUnresponsive { clock: self.clock(state, &cooling_deadlines(state)), source }
            }
            Action::Plan => Call::PrefixProbePlan,
            Action::ConfirmProbe => self.confirm_unplanned(state),
            Action::ConfirmHedge => self.confirm_hedge(state),
            Action::Observe => self.observe(state),
            Action::Fanout => self.fanout(state),
            Action::ClearPreferred => Call::ClearPreferredPeer,
            Action::Query => self.query(state),
            Action::NextRequest => self.next_request(state),
        }
    }

    fn open(&mut self) -> Call {
        let theme = Theme::of(self.sequences, self.profile.planning);
        self.sequences += 1;
        self.world = World::new(&mut self.random, theme, &self.profile);
        let usual = 1 + self.random.below(2 * self.profile.mean_length);
        self.left = usual.max(theme.least_length(&mut self.random));
        Call::Open { clock: self.world.first_clock, settings: self.world.settings, keys: self.world.keys.clone() }
    }

    /// An answered plan or hedge is mostly confirmed, sometimes with a mistake.
    fn follow_up(&mut self, last: &Outcome) -> Option<Call> {
        match &last.answer {
            Answer::Planned(Some(plan)) if self.random.chance(80) => Some(self.confirm_plan(&last.state, plan)),
            Answer::Proposed(Some(request)) if self.random.chance(70) => Some(self.mark_planned(&last.state, request)),
            Answer::Decided(Decision::HedgeColdFront { owner, front_hash }) if self.random.chance(75) => {
                let alternate = if self.random.chance(15) { *owner } else { self.world.other_seat(&mut self.random, *owner) };
                Some(Call::ConfirmColdFrontHedge { owner: *owner, alternate, hash: *front_hash })
            }
            _ => None,
        }
    }

    fn action(&mut self, state: &State) -> Action {
        let weights = self.weights(state);
        let mut ticket = self.random.below(weights.iter().map(|(_, weight)| weight).sum());
        for (action, weight) in weights {
            if ticket < weight {
                return action;
            }
            ticket -= weight;
        }
        Action::Query
    }

    /// Weights by theme, raised where the state is on its way to something rare.
    fn weights(&self, state: &State) -> [(Action, u64); 20] {
        let theme = self.world.theme;
        let pending = state.pending.len() as u64;
        let probe = state.prefix_probe.is_some();
        let racing = probe || matches!(state.cold_front, Some(ColdFront::Racing { .. }));
        let waiting = matches!(state.cold_front, Some(ColdFront::Waiting { .. }));
        let observed = state.pending_timeout_observation.is_some();
        let watched = state.stall.is_some() || state.cold_front.is_some() || observed || probe;
        let bodies = theme == Theme::LightBodies || theme == Theme::HeavyBodies;
        let races = theme == Theme::Races;
        let can_plan = races && state.preferred_peer.is_none() && !probe && pending >= 4;
        let fanout = theme == Theme::Capacity || probe || (races && state.fanout_engaged);
        let usual = when(pending == 0, 14, when(pending < 2 * self.world.table, 7, 2));
        let plans = when(theme == Theme::Plans, 90, when(bodies, 1, usual));
        [
            (Action::Request, when(pending == 0, 40, when(pending < self.world.table, 14, 1))),
            (Action::OwnedFetch, 5),
            (Action::Deliver, when(bodies, 150, when(racing, 45, 14))),
            (Action::Credit, when(racing, 20, 4)),
            (Action::Duplicate, when(observed, 6, 1)),
            (Action::Reject, 5),
            (Action::Sweep, when(asked_again(state), 40, when(theme == Theme::TimeOuts, 14, 4))),
            (Action::Retry, 4),
            (Action::Release, 3),
            (Action::Retire, 2),
            (Action::Retain, when(racing, 5, 3)),
            (Action::Unresponsive, 3),
            (Action::Plan, when(can_plan, 40, 3)),
            (Action::ConfirmProbe, when(races, 3, 1)),
            (Action::ConfirmHedge, when(waiting, 5, 1)),
            (Action::Observe, when(theme.watches(), 30, when(watched, 16, 7))),
            (Action::Fanout, when(fanout, 6, 2)),
            (Action::ClearPreferred, when(state.preferred_peer.is_some(), 6, 1)),
            (Action::Query, when(theme == Theme::Capacity, 25, when(racing, 12, 9))),
            (Action::NextRequest, when(self.profile.planning == Planning::Without, 0, plans)),
        ]
    }

    fn request(&mut self, state: &State) -> Call {
        let (owner, start) = self.asked_for(state);
        let room = MAX_PENDING - state.pending.len();
        let wanted = self.world.batch(&mut self.random, room);
        let mut entries: Vec<(Hash, u32)> = Vec::new();
        for index in start..self.world.pool {
            let hash = self.world.hash(index);
            let known = state.pending.iter().any(|entry| entry.hash == hash) || entries.iter().any(|(listed, _)| *listed == hash);
            if entries.len() == wanted {
                break;
            }
            if !known {
                entries.push((hash, self.world.height(&mut self.random, index)));
            }
        }
        if self.random.chance(20) {
            entries.reverse();
        }
        let top = entries.iter().map(|(_, height)| *height).max().unwrap_or(self.world.base);
        let above = top.saturating_add(1);
        let bottom = entries.iter().map(|(_, height)| *height).min().unwrap_or(self.world.base);
        let frontier = state.next_request_height;
        let next_request_height = self.random.pick(&[above, above, above, above, 0, top, bottom, bottom, frontier, u32::MAX]);
        let (byte_headroom, count_headroom) = self.headrooms(state);
        Call::MarkRequested { clock: self.clock(state, &[]), owner, entries, next_request_height, byte_headroom, count_headroom }
    }

    /// Who asks, and from which index on: an observed entry that is gone is often asked of another peer.
    fn asked_for(&mut self, state: &State) -> (Seat, u64) {
        if let Some(seen) = state.pending_timeout_observation
            && state.pending.iter().all(|entry| entry.hash != seen.hash)
            && self.random.chance(60)
        {
            return (self.world.other_seat(&mut self.random, seen.owner), self.world.index_of(seen.hash));
        }
        (self.seat_for_request(state), self.world.fresh_index(&mut self.random, state))
    }

    fn owned_fetch(&mut self, state: &State) -> Call {
        let owner = self.seat_for_request(state);
        let index = self.world.fresh_index(&mut self.random, state);
        let fresh = self.world.hash(index);
        let hash = if self.random.chance(25) { self.hash(state) } else { fresh };
        let height = match state.pending.iter().find(|entry| entry.hash == hash) {
            Some(entry) => entry.height,
            None => self.world.height_of(&mut self.random, hash),
        };
        let staged = self.random.chance(20);
        let (byte_headroom, count_headroom) = self.headrooms(state);
        Call::MarkOwnedFetch { clock: self.clock(state, &[]), owner, hash, height, staged, byte_headroom, count_headroom }
    }

    fn deliver(&mut self, state: &State) -> Call {
        let (hash, source) = self.delivery(state);
        let bytes = self.world.body(&mut self.random, state);
        let clock = self.clock(state, &front_deadlines(state));
        Call::MarkReceivedFrom { clock, hash, bytes, source }
    }

    fn credit(&mut self, state: &State) -> Call {
        let (hash, source) = self.delivery(state);
        let source = source.unwrap_or_else(|| self.seat(state));
        let lowest = state.pending.iter().map(|entry| entry.height).min().unwrap_or(self.world.base);
        let known = state.pending.iter().find(|entry| entry.hash == hash).map(|entry| entry.height);
        let pending_height = match self.random.below(5) {
            0 => known,
            1 => Some(lowest),
            2 => Some(lowest.saturating_sub(1)),
            3 => Some(self.random.pick(&[0, u32::MAX, self.world.base])),
            _ => None,
        };
        Call::CreditDeliveryFrom { clock: self.clock(state, &front_deadlines(state)), hash, source, pending_height }
    }

    fn duplicate(&mut self, state: &State) -> Call {
        let (mut hash, mut source) = (self.hash(state), self.seat(state));
        if let Some(seen) = state.pending_timeout_observation {
            hash = if self.random.chance(80) { seen.hash } else { hash };
            source = if self.random.chance(80) { seen.owner } else { source };
        }
        Call::CreditDuplicateDelivery { hash, source }
    }

    fn reject(&mut self, state: &State) -> Call {
        if let Some(ColdFront::Racing { owner, alternate, hash }) = state.cold_front
            && self.random.chance(60)
        {
            let third = self.world.other_seat(&mut self.random, owner);
            let source = self.random.pick(&[Some(owner), Some(alternate), Some(third), None]);
            return Call::RejectDelivery { clock: self.clock(state, &[]), hash, source };
        }
        let hash = self.hash(state);
        let owner = state.pending.iter().find(|entry| entry.hash == hash).map(|entry| entry.owner);
        let source = match self.random.below(10) {
            0..=4 => owner.or_else(|| self.someone_racing(state)),
            5..=6 => self.someone_racing(state),
            7..=8 => Some(self.seat(state)),
            _ => None,
        };
        Call::RejectDelivery { clock: self.clock(state, &[]), hash, source }
    }

    fn retry(&mut self, state: &State) -> Call {
        let hash = self.hash(state);
        let known = state.pending.iter().find(|entry| entry.hash == hash).map(|entry| entry.height);
        let height = match self.random.below(5) {
            0 => None,
            1 => known,
            2 => Some(known.unwrap_or(state.next_request_height).saturating_sub(1)),
            3 => Some(known.unwrap_or(state.next_request_height).saturating_add(1)),
            _ => Some(self.random.pick(&[0, state.next_request_height, u32::MAX])),
        };
        Call::RequeueForRetry { clock: self.clock(state, &[]), hash, height }
    }

    fn retire(&mut self, state: &State) -> Call {
        let heights: Vec<u32> = state.pending.iter().map(|entry| entry.height).collect();
        let near = self.random.maybe(&heights).unwrap_or(self.world.base);
        let height = match self.random.below(12) {
            0..=5 => near,
            6..=8 => near.saturating_add(1),
            9 => 0,
            10 => u32::MAX,
            _ => near.saturating_sub(1),
        };
        Call::RetireBefore { clock: self.clock(state, &[]), height }
    }

    /// Drops mostly one seat, of any role.
    fn retain(&mut self, state: &State) -> Call {
        let mut owns = vec![true; SEATS];
        match self.random.below(20) {
            0 => owns = vec![false; SEATS],
            1 => {}
            2..=3 => owns.iter_mut().for_each(|owned| *owned = self.random.chance(60)),
            _ => {
                let mut lost = self.seat(state);
                if let Some(ColdFront::Racing { owner, alternate, .. }) = state.cold_front
                    && self.random.chance(60)
                {
                    lost = self.random.pick(&[owner, alternate]);
                }
                owns[usize::from(lost)] = false;
                if self.random.chance(20) {
                    owns[usize::from(self.seat(state))] = false;
                }
            }
        }
        Call::RetainOwnedBy { owns }
    }

    fn confirm_plan(&mut self, state: &State, plan: &Plan) -> Call {
        let mut hashes = plan.hashes.clone();
        let mut owner = plan.owner;
        let mut alternates: Vec<Seat> =
            (0..1 + self.random.below(3)).map(|_| self.world.other_seat(&mut self.random, owner)).collect();
        match self.random.below(14) {
            0 => alternates.clear(),
            1 => alternates = vec![owner],
            2 => owner = self.seat(state),
            3 => hashes.swap(0, 1),
            4 => drop(hashes.pop()),
            5 => hashes.extend_from_within(..),
            6 => alternates = (0..=u8::MAX).collect(),
            _ => {}
        }
        Call::ConfirmPrefixProbe { clock: self.clock(state, &[]), owner, hashes, alternates }
    }

    /// Nobody asked for a plan: the hashes are of pending entries, by height, and seldom the plan's.
    fn confirm_unplanned(&mut self, state: &State) -> Call {
        let mut by_height: Vec<&Entry> = state.pending.iter().collect();
        by_height.sort_by_key(|entry| entry.height);
        let count = self.random.pick(&[0, 4, 5, 8, 9]);
        let hashes = by_height.iter().take(count).map(|entry| entry.hash).collect();
        let owner = by_height.first().map_or(0, |entry| entry.owner);
        let alternates = vec![self.seat(state)];
        Call::ConfirmPrefixProbe { clock: self.clock(state, &[]), owner, hashes, alternates }
    }

    fn confirm_hedge(&mut self, state: &State) -> Call {
        let (mut owner, mut hash) = (self.seat(state), self.hash(state));
        if let Some(ColdFront::Waiting { owner: waiting, hash: front, .. }) = state.cold_front {
            owner = if self.random.chance(80) { waiting } else { owner };
            hash = if self.random.chance(80) { front } else { hash };
        }
        let alternate = if self.random.chance(15) { owner } else { self.world.other_seat(&mut self.random, owner) };
        Call::ConfirmColdFrontHedge { owner, alternate, hash }
    }

    fn observe(&mut self, state: &State) -> Call {
        let front = state.pending.iter().min_by_key(|entry| entry.height);
        let heights: Vec<u32> = state.pending.iter().map(|entry| entry.height).collect();
        let lowest = front.map_or(self.world.base, |entry| entry.height);
        let stuck = state.apply_side_stuck;
        let next_apply_height = match self.random.below(20) {
            0 => None,
            1..=3 => self.random.maybe(&heights),
            _ if matches!(state.cold_front, Some(ColdFront::Waiting { .. })) => self.waiting_height(state).or(Some(lowest)),
            6..=16 if state.prefix_probe.is_some() => late_probed_height(state).or(Some(lowest)),
            4 => Some(self.world.base.saturating_sub(1)),
            5 => Some(stuck.map_or(lowest, |stuck| stuck.height)),
            _ => Some(lowest),
        };
        let frontier_hash = match self.random.below(10) {
            0 => None,
            1 => Some(self.hash(state)),
            2..=3 => front.map(|entry| entry.hash),
            _ => Some(stuck.map_or(self.world.hash(0), |stuck| stuck.frontier_hash)),
        };
        let busy = self.random.chance(if self.world.theme == Theme::Stuck { 70 } else { 8 });
        let half = state.settings.max_received_blocks / 2;
        let staged_count = self.random.pick(&[half, half, half + 1, half.saturating_sub(1), 0, MAX_COUNT, u64::MAX]);
        let above = lowest.saturating_add(1);
        let staged_height = self.random.pick(&[
            Some(above),
            Some(above),
            Some(above),
            Some(u32::MAX),
            Some(lowest),
            Some(lowest.saturating_sub(1)),
            None,
        ]);
        let clock = self.clock(state, &watch_deadlines(state));
        Call::ObserveBlocked { clock, next_apply_height, frontier_hash, busy, staged_count, staged_height }
    }

    /// The height that a waiting cold front waits at.
    fn waiting_height(&self, state: &State) -> Option<u32> {
        let Some(ColdFront::Waiting { hash, .. }) = state.cold_front else {
            return None;
        };
        state.pending.iter().find(|entry| entry.hash == hash).map(|entry| entry.height)
    }

    fn fanout(&mut self, state: &State) -> Call {
        let least = state.settings.min_peers_for_fanout;
        let shut_out = self.world.theme == Theme::Races && state.prefix_probe.is_none();
        let count = if shut_out {
            0
        } else {
            self.random.pick(&[0, 1, 5, least, least, least + 1, least.saturating_sub(1), least.saturating_sub(2), u64::MAX])
        };
        let deadlines: Vec<Clock> = state
            .prefix_probe
            .iter()
            .map(|probe| probe.started_at.saturating_add(state.settings.stall_timeout_initial))
            .collect();
        Call::SetFanoutEligiblePeers { clock: self.clock(state, &deadlines), count }
    }

    /// A query that matters while a race runs or several peers download.
    fn timely_query(&mut self, state: &State, source: Seat, hash: Hash) -> Option<Call> {
        if state.prefix_probe.is_some() && self.random.chance(40) {
            return Some(if self.random.chance(80) { Call::ProbeOffered { source, hash } } else { Call::ProbeStartedAt });
        }
        if state.cold_front.is_some() && self.random.chance(40) {
            return Some(Call::HedgeOffered { source, hash });
        }
        let planning = self.profile.planning != Planning::Without;
        if planning && state.owner_downloading_since.len() > 2 && self.random.chance(10) {
            return Some(Call::EffectiveOwnerTimeout);
        }
        if state.owner_downloading_since.len() > 1 && self.random.chance(15) {
            return Some(Call::PeerHasExpiredPending { source, clock: self.clock(state, &start_deadlines(state)) });
        }
        None
    }

    fn query(&mut self, state: &State) -> Call {
        let (source, hash) = (self.seat(state), self.hash(state));
        let (byte_headroom, count_headroom) = self.headrooms(state);
        if let Some(call) = self.timely_query(state, source, hash) {
            return call;
        }
        match self.random.below(32) {
            0 => Call::FanoutActive,
            1 => Call::PendingLen,
            2 => Call::PendingBytes,
            3 => Call::PendingHighWater,
            4 => Call::MaxPendingBlocks,
            5 => Call::MinPeersForFanout,
            6 => Call::HasRequestCapacity { byte_headroom, count_headroom },
            7..=8 => Call::ComputeRequestCapacity { source, byte_headroom, count_headroom },
            9 => Call::EffectivePeerInflight,
            10 => Call::ExpiredPendingCapacity { clock: self.clock(state, &sweep_deadlines(state)) },
            11 => Call::PeerHasExpiredPending { source, clock: self.clock(state, &start_deadlines(state)) },
            12..=13 => Call::PeerInStallerCooldown { source, clock: self.clock(state, &cooling_deadlines(state)) },
            14 => Call::StallingPeer,
            15 => Call::PreferredPeer,
            16 => Call::ProbeOffered { source, hash },
            17 => Call::HedgeOffered { source, hash },
            18 => Call::PrefixProbePlan,
            19 => Call::ContainsPending { hash },
            20 => Call::PendingOwner { hash },
            21 => Call::IsDownloading { owner: source },
            22 => Call::ActiveDownloadingPeers,
            23 => Call::EffectiveOwnerTimeout,
            24 => Call::StallDecayFloor,
            25 => Call::PendingCountFor { source },
            26 => Call::RequestCursor,
            27 => Call::StallTimeout,
            28 => Call::FrontIntervalEwmaMs,
            29 => Call::EwmaBlockBytes,
            30 => Call::ProbeStartedAt,
            _ => Call::OwnerQueueStart { owner: source },
        }
    }

    /// A body's hash and sender: of a race if there is one, else mostly of a pending entry.
    fn delivery(&mut self, state: &State) -> (Hash, Option<Seat>) {
        if let Some(ColdFront::Racing { owner, alternate, hash }) = state.cold_front
            && self.random.chance(when(state.prefix_probe.is_some(), 12, 45))
        {
            let other = self.seat(state);
            return (hash, self.random.pick(&[Some(owner), Some(alternate), Some(alternate), Some(other), None]));
        }
        if let Some(probe) = &state.prefix_probe
            && !probe.racers.is_empty()
            && !probe.hashes.is_empty()
            && self.random.chance(75)
        {
            return self.race_delivery(probe);
        }
        let hash = self.hash(state);
        let owner = state.pending.iter().find(|entry| entry.hash == hash).map(|entry| entry.owner);
        let source = match self.random.below(20) {
            0..=11 => owner.or_else(|| Some(self.seat(state))),
            12..=17 => Some(self.seat(state)),
            _ => None,
        };
        (hash, source)
    }

    /// Mostly the leading racer's next missing block, so that races end by a win.
    fn race_delivery(&mut self, probe: &PrefixProbe) -> (Hash, Option<Seat>) {
        let favourite = probe.racers[(probe.started_at % probe.racers.len() as u64) as usize];
        let random = self.random.pick(&probe.racers);
        let leader = probe.racers.iter().copied().max_by_key(|(_, progress)| (progress % 16).count_ones()).unwrap_or(random);
        let (seat, progress) = match self.random.below(20) {
            0..=5 => favourite,
            6..=16 => leader,
            _ => random,
        };
        let missing: Vec<Hash> =
            (0..probe.hashes.len()).filter(|index| progress >> index & 1 == 0).map(|index| probe.hashes[index]).collect();
        let among = if self.random.chance(85) { &missing[..missing.len().min(4)] } else { &probe.hashes[..] };
        let hash = self.random.maybe(among).unwrap_or(probe.hashes[0]);
        let source = if self.random.chance(4) {
            None
        } else if self.random.chance(5) {
            Some(self.world.seat(&mut self.random))
        } else {
            Some(seat)
        };
        (hash, source)
    }

    /// A hash: of a role, the lowest entry, any entry, one gone by, or an unknown one.
    fn hash(&mut self, state: &State) -> Hash {
        let lowest = state.pending.iter().min_by_key(|entry| entry.height).map(|entry| entry.hash);
        let pending: Vec<Hash> = state.pending.iter().map(|entry| entry.hash).collect();
        let roles = role_hashes(state);
        let stray = self.random.below(self.world.pool);
        let found = match self.random.below(10) {
            0..=2 => self.random.maybe(&roles).or(lowest),
            3..=5 => lowest,
            6..=7 => self.random.maybe(&pending),
            _ => None,
        };
        found.unwrap_or_else(|| self.world.hash(stray))
    }

    /// A seat: of a role, of an owner, or any.
    fn seat(&mut self, state: &State) -> Seat {
        let roles = role_seats(state);
        let owners: Vec<Seat> = state.owner_downloading_since.iter().map(|(seat, _)| *seat).collect();
        let found = match self.random.below(10) {
            0..=3 => self.random.maybe(&roles),
            4..=7 => self.random.maybe(&owners),
            _ => None,
        };
        found.unwrap_or_else(|| self.world.seat(&mut self.random))
    }

    /// Prefix races need one owner; otherwise any seat asks.
    fn seat_for_request(&mut self, state: &State) -> Seat {
        let races = self.world.theme == Theme::Races;
        match (&state.prefix_probe, state.pending.first()) {
            (None, Some(entry)) if races && self.random.chance(85) => entry.owner,
            (Some(probe), _) if !probe.racers.is_empty() && self.random.chance(60) => self.random.pick(&probe.racers).0,
            (Some(probe), _) => self.world.other_seat(&mut self.random, probe.owner),
            _ => self.seat(state),
        }
    }

    fn someone_racing(&mut self, state: &State) -> Option<Seat> {
        match state.cold_front {
            Some(ColdFront::Racing { owner, alternate, .. }) => Some(self.random.pick(&[owner, alternate])),
            Some(ColdFront::Waiting { owner, .. }) => Some(owner),
            None => Some(self.seat(state)),
        }
    }

    /// Mostly enough; else around the mean and around what the settings leave.
    fn headrooms(&mut self, state: &State) -> (u64, u64) {
        let mean = state.ewma_block_bytes;
        let byte_room = state.settings.max_pending_bytes.saturating_sub(state.pending_bytes);
        let room = state.settings.max_pending_blocks.saturating_sub(state.pending.len() as u64);
        let bytes = self.random.pick(&[u64::MAX, u64::MAX, MAX_BYTE_LIMIT, mean, mean + 1, mean - 1, 0, byte_room]);
        let count = self.random.pick(&[u64::MAX, u64::MAX, 16, 3, 1, 0, room]);
        (bytes, count)
    }

    /// Mostly a moment that some comparison turns on, or next to it; never before the last one.
    fn clock(&mut self, state: &State, own_deadlines: &[Clock]) -> Clock {
        let last = state.last_clock;
        let ahead = |times: &[Clock]| -> Vec<Clock> {
            times.iter().copied().filter(|time| *time >= last && *time <= MAX_CLOCK).collect()
        };
        let own = ahead(own_deadlines);
        let times = if own.is_empty() || self.random.chance(15) { ahead(&all_deadlines(state)) } else { own };
        let chosen = match self.random.below(100) {
            0..=29 => last,
            30..=69 => self.near_deadline(&times).unwrap_or(last),
            70..=89 => {
                last + self.random.pick(&[1, 2, 1_000_000, 49_999_999, 50_000_000, 300_000_000, 1_000_000_000, 2_000_000_000])
            }
            90..=97 => last + self.random.below(20_000_000_000),
            98 => last.saturating_add(self.random.below(4 * MAX_DURATION)),
            _ if self.world.theme == Theme::LastMoments => MAX_CLOCK,
            _ => last + 1,
        };
        chosen.clamp(last, MAX_CLOCK)
    }

    fn near_deadline(&mut self, times: &[Clock]) -> Option<Clock> {
        let any = self.random.maybe(times)?;
        let soonest = times.iter().copied().min()?;
        let time = if self.random.chance(65) { soonest } else { any };
        Some(match self.random.below(4) {
            0 => time.saturating_sub(1),
            1 => time + 1,
            _ => time,
        })
    }
}

fn when(condition: bool, then: u64, otherwise: u64) -> u64 {
    if condition { then } else { otherwise }
}

/// Whether an observed entry is pending by another owner than the observed one.
fn asked_again(state: &State) -> bool {
    let observed = state.pending_timeout_observation;
    observed.is_some_and(|seen| state.pending.iter().any(|entry| entry.hash == seen.hash && entry.owner != seen.owner))
}

/// A front past the four that decide a race, so that a hedge may still race when the probe is won.
fn late_probed_height(state: &State) -> Option<u32> {
    let late = state.prefix_probe.as_ref()?.hashes.get(4..)?;
    state.pending.iter().find(|entry| late.contains(&entry.hash)).map(|entry| entry.height)
}

fn owner_timeout(state: &State) -> u64 {
    let others = (state.owner_downloading_since.len() as u64).saturating_sub(1);
    state.settings.block_spacing * (2 + others) / 2
}

fn start_deadlines(state: &State) -> Vec<Clock> {
    let timeout = owner_timeout(state);
    state.owner_downloading_since.iter().map(|(_, since)| since.saturating_add(timeout)).collect()
}

fn sweep_deadlines(state: &State) -> Vec<Clock> {
    let entries = state.pending.iter().map(|entry| entry.requested_at.saturating_add(state.stall_timeout));
    start_deadlines(state).into_iter().chain(entries).collect()
}

fn cooling_deadlines(state: &State) -> Vec<Clock> {
    state.recent_stallers.iter().map(|(_, at)| at.saturating_add(state.settings.staller_cooldown)).collect()
}

/// Around the least sample of the front mean and around the mean itself.
fn front_deadlines(state: &State) -> Vec<Clock> {
    let Some(last) = state.last_front_advance else {
        return Vec::new();
    };
    let least = 50_000_000;
    let mean = state.front_interval_ewma_ms.unwrap_or(400).saturating_mul(1_000_000);
    [least, mean, mean.saturating_add(400_000_000)].iter().map(|step| last.saturating_add(*step)).collect()
}

fn watch_deadlines(state: &State) -> Vec<Clock> {
    let mut times = Vec::new();
    let floor = state.front_interval_ewma_ms.map_or(0, |mean| mean.saturating_mul(2_000_000));
    let floor = floor.max(state.settings.stall_timeout_initial).min(state.settings.stall_timeout_max);
    times.extend(state.stall.map(|stall| stall.since.saturating_add(state.stall_timeout.max(floor))));
    times.extend(state.apply_side_stuck.map(|stuck| stuck.since.saturating_add(2 * state.settings.received_timeout)));
    if let Some(ColdFront::Waiting { since, .. }) = state.cold_front {
        times.push(since.saturating_add(state.settings.stall_timeout_initial));
    }
    if times.is_empty() || state.pending_timeout_observation.is_some() {
        times.extend(sweep_deadlines(state));
    }
    times
}

fn all_deadlines(state: &State) -> Vec<Clock> {
    let mut times = watch_deadlines(state);
    times.extend(sweep_deadlines(state));
    times.extend(cooling_deadlines(state));
    times.extend(front_deadlines(state));
    times
}

fn role_hashes(state: &State) -> Vec<Hash> {
    let mut hashes: Vec<Hash> = state.cold_hedged_fronts.clone();
    hashes.extend(state.stall.map(|stall| stall.front_hash));
    hashes.extend(state.pending_timeout_observation.map(|seen| seen.hash));
    hashes.extend(state.cold_front.map(|front| match front {
        ColdFront::Waiting { hash, .. } | ColdFront::Racing { hash, .. } => hash,
    }));
    hashes.extend(state.prefix_probe.iter().flat_map(|probe| probe.hashes.iter().copied()));
    hashes
}

fn role_seats(state: &State) -> Vec<Seat> {
    let mut seats: Vec<Seat> = Vec::new();
    seats.extend(state.stall.map(|stall| stall.owner));
    seats.extend(state.pending_timeout_observation.map(|seen| seen.owner));
    match state.cold_front {
        Some(ColdFront::Waiting { owner, .. }) => seats.push(owner),
        Some(ColdFront::Racing { owner, alternate, .. }) => seats.extend([owner, alternate]),
        None => {}
    }
    seats.extend(state.preferred_peer);
    seats.extend(state.prefix_probe_attempted_owner);
    if let Some(probe) = &state.prefix_probe {
        seats.push(probe.owner);
        seats.extend(probe.racers.iter().take(4).map(|(seat, _)| *seat));
    }
    seats
}
