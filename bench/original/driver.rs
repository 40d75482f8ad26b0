// A child module of the original (it stands where its tests did), so that it may call private functions. Arguments come prepared: a call here is the
// original's call and nothing more.

use super::super::shims::bitcoin_rs_execution::chain::NodeId;
use super::super::shims::bitcoin_rs_wire::PeerEndpoint;
use super::*;

/// Settings: seven counts, five durations in nanoseconds.
pub struct Original {
    base: Instant,
    window: DownloadWindow,
    stager: BlockStager,
    tree: BlockTree,
    /// The last plan.
    planned: Option<PeerRequest>,
}

/// A request as the original takes it.
pub struct Prepared(PeerRequest);

/// What a plan is made over: the oracle's tree, and sets of the window's own maps.
pub struct Lists {
    tree: BlockTree,
    tip: TipSnapshot,
    start: u32,
    stager: BlockStager,
    refused: HashSet<Hash256>,
}

impl Lists {
    pub fn new(chain: &[[u8; 32]], start: u32, staged: &[[u8; 32]], refused: &[[u8; 32]]) -> Self {
        let height = chain.len() as u32 - 1;
        Self {
            tree: BlockTree { staged_height: None, chain: chain.iter().copied().map(Hash256).collect() },
            tip: TipSnapshot { tip_id: NodeId(height), hash: Hash256(chain[height as usize]), height },
            start,
            stager: BlockStager::with(staged.len(), staged.iter().copied().map(Hash256)),
            refused: refused.iter().copied().map(Hash256).collect(),
        }
    }
}

/// What a plan may change.
pub struct Kept {
    pending: HashMap<Hash256, PendingBlock>,
    pending_bytes: usize,
    next_request_height: u32,
    owner_downloading_since: HashMap<PeerSource, Instant>,
    owner_last_body_at: HashMap<PeerSource, Instant>,
}

impl Original {
    pub fn open(counts: [usize; 7], durations: [u64; 5]) -> Self {
        let [spacing, received, stall_initial, stall_max, cooldown] = durations.map(Duration::from_nanos);
        let window = DownloadWindow::new(SyncBudget {
            max_pending_blocks: counts[0],
            max_pending_bytes: counts[1],
            max_received_blocks: counts[2],
            max_received_bytes: usize::MAX,
            max_retained_bytes: 0,
            max_peer_inflight: counts[3],
            fanout_peer_inflight: counts[4],
            min_peers_for_fanout: counts[5],
            getdata_batch_limit: counts[6],
            block_spacing: spacing,
            received_timeout: received,
            stall_timeout_initial: stall_initial,
            stall_timeout_max: stall_max,
            staller_cooldown: cooldown,
        });
        let stager = BlockStager::with(200, [Hash256([0; 32])]);
        let tree = BlockTree { staged_height: Some(1 << 20), chain: Vec::new() };
        Self { base: Instant::now(), window, stager, tree, planned: None }
    }

    pub fn moment(&self, clock: u64) -> Instant {
        self.base + Duration::from_nanos(clock)
    }

    pub fn peer(seat: u8) -> PeerSource {
        PeerSource { seat, endpoint: Some(PeerEndpoint(seat)) }
    }

    pub fn prepare(owner: u8, entries: &[([u8; 32], u32)], next_request_height: u32) -> Prepared {
        let entries = entries.iter().map(|(hash, height)| PeerRequestEntry { hash: Hash256(*hash), height: *height }).collect();
        Prepared(PeerRequest { owner: Self::peer(owner), entries, next_request_height })
    }

    #[inline(never)]
    pub fn mark_requested(&mut self, request: &Prepared, now: Instant) -> bool {
        self.window.mark_requested(&self.stager, &request.0, request.0.owner, now)
    }

    #[inline(never)]
    pub fn mark_owned_fetch(&mut self, owner: PeerSource, hash: Hash256, height: u32, now: Instant) -> bool {
        self.window.mark_owned_fetch(&mut self.stager, owner, hash, height, now)
    }

    #[inline(never)]
    pub fn mark_received_from(&mut self, hash: Hash256, bytes: usize, source: PeerSource, now: Instant) -> Option<u32> {
        self.window.mark_received_from(hash, bytes, Some(source), now)
    }

    #[inline(never)]
    pub fn reject_delivery(&mut self, hash: Hash256, source: PeerSource, now: Instant) -> bool {
        self.window.reject_delivery(hash, Some(source), now) == RejectDelivery::ReleasedPending
    }

    #[inline(never)]
    pub fn release_pending(&mut self, hash: &Hash256, now: Instant) {
        self.window.release_pending(hash, now)
    }

    #[inline(never)]
    pub fn requeue_for_retry(&mut self, hash: &Hash256, now: Instant) {
        self.window.requeue_for_retry(hash, None, now)
    }

    #[inline(never)]
    pub fn expire_pending(&mut self, now: Instant) -> usize {
        self.window.expire_pending(now).len()
    }

    /// Nothing staged is retired here: the staged hashes are the host's.
    #[inline(never)]
    pub fn retire_before(&mut self, height: u32, now: Instant) {
        let mut stager = BlockStager::with(0, []);
        self.window.retire_before(&mut stager, height, &self.tree, now)
    }

    #[inline(never)]
    pub fn retain_owned_by(&mut self, flags: &[u64; 256]) {
        self.window.retain_owned_by(|source| flags[usize::from(source.seat)] != 0)
    }

    #[inline(never)]
    pub fn mark_peer_unresponsive(&mut self, source: PeerSource, now: Instant) {
        self.window.mark_peer_unresponsive(source, now)
    }

    /// 0 for none, else a number of the decision.
    #[inline(never)]
    pub fn observe_blocked(&mut self, next: u32, now: Instant) -> u64 {
        let context = BlockedContext { next_apply_height: Some(next), frontier_hash: None, apply_side_busy: false };
        match self.window.observe_blocked(context, &self.stager, &self.tree, now) {
            BlockedDecision::None => 0,
            BlockedDecision::Blame { reason: BlameReason::Staller, .. } => 1,
            BlockedDecision::Blame { reason: BlameReason::PendingTimeout, .. } => 2,
            BlockedDecision::EvictStaged { .. } => 3,
            BlockedDecision::HedgeColdFront { .. } => 4,
        }
    }

    #[inline(never)]
    pub fn expired_pending_capacity(&self, now: Instant) -> (usize, usize) {
        self.window.expired_pending_capacity(now)
    }

    #[inline(never)]
    pub fn contains_pending(&self, hash: &Hash256) -> bool {
        self.window.contains_pending(hash)
    }

    #[inline(never)]
    pub fn pending_count_for(&self, source: PeerSource) -> usize {
        self.window.pending_count_for(source)
    }

    #[inline(never)]
    pub fn has_request_capacity(&self) -> bool {
        self.window.has_request_capacity(&self.stager)
    }

    #[inline(never)]
    pub fn max_pending_blocks(&self) -> usize {
        self.window.max_pending_blocks()
    }

    /// How many entries the plan has. Nothing is retargeted: `restore` forgets the tip that the last plan noted.
    #[inline(never)]
    pub fn next_peer_request(&mut self, lists: &mut Lists, source: PeerSource, now: Instant) -> usize {
        let Lists { tree, tip, start, stager, refused } = lists;
        let is_refused = |hash: Hash256| refused.contains(&hash);
        let mut refusals = RefusalFilter::new(&is_refused);
        self.planned = self.window.next_peer_request(stager, source, tip, *start, tip.height, 0, tree, now, &mut refusals);
        self.planned.as_ref().map_or(0, PeerRequest::len)
    }

    pub fn kept(&self) -> Kept {
        let window = &self.window;
        Kept {
            pending: window.pending.clone(),
            pending_bytes: window.pending_bytes,
            next_request_height: window.next_request_height,
            owner_downloading_since: window.owner_downloading_since.clone(),
            owner_last_body_at: window.owner_last_body_at.clone(),
        }
    }

    /// As it was, and without the last plan, so that the next one drops none.
    pub fn restore(&mut self, kept: &Kept) {
        let window = &mut self.window;
        window.pending = kept.pending.clone();
        window.pending_bytes = kept.pending_bytes;
        window.next_request_height = kept.next_request_height;
        window.owner_downloading_since = kept.owner_downloading_since.clone();
        window.owner_last_body_at = kept.owner_last_body_at.clone();
        window.request_tip = None;
        self.planned = None;
    }

    /// The last plan's entries and next height.
    pub fn planned(&self) -> (Vec<([u8; 32], u32)>, u32) {
        let entries = |plan: &PeerRequest| plan.entries().map(|(height, hash)| (hash.0, height)).collect();
        self.planned.as_ref().map_or((Vec::new(), 0), |plan| (entries(plan), plan.next_request_height))
    }

    pub fn request_cursor(&self) -> u32 {
        self.window.next_request_height
    }

    pub fn pending_len(&self) -> usize {
        self.window.pending_len()
    }
}
