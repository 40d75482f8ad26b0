//! The data that every implementation of the window is driven and compared by.

use std::fmt;

/// 32 bytes, ordered from the first.
#[derive(Clone, Copy, PartialEq, Eq, PartialOrd, Ord, Hash)]
pub struct Hash(pub [u8; 32]);

impl fmt::Display for Hash {
    fn fmt(&self, formatter: &mut fmt::Formatter<'_>) -> fmt::Result {
        self.0.iter().try_for_each(|byte| write!(formatter, "{byte:02x}"))
    }
}

impl fmt::Debug for Hash {
    fn fmt(&self, formatter: &mut fmt::Formatter<'_>) -> fmt::Result {
        fmt::Display::fmt(self, formatter)
    }
}

/// Seats and keys are 0 to 255; a seat stands for the original's `PeerSource`.
pub type Seat = u8;

/// Nanoseconds since the host's clock began, at most 2^62.
pub type Clock = u64;

pub const SEATS: usize = 256;
pub const MAX_PENDING: usize = 256;
pub const MAX_CLOCK: Clock = 1 << 62;
pub const MAX_DURATION: u64 = 1_000_000_000_000_000;
pub const MAX_BYTE_LIMIT: u64 = 1 << 40;
pub const MAX_COUNT: u64 = 65_535;
pub const MAX_BODY: u64 = u32::MAX as u64;

/// The twelve settings that the ported functions read; durations in nanoseconds.
#[derive(Clone, Copy, Debug, PartialEq, Eq)]
pub struct Settings {
    pub max_pending_blocks: u64,
    pub max_pending_bytes: u64,
    pub max_received_blocks: u64,
    pub max_peer_inflight: u64,
    pub fanout_peer_inflight: u64,
    pub min_peers_for_fanout: u64,
    pub getdata_batch_limit: u64,
    pub block_spacing: u64,
    pub received_timeout: u64,
    pub stall_timeout_initial: u64,
    pub stall_timeout_max: u64,
    pub staller_cooldown: u64,
}

/// What is lent and said for one plan.
#[derive(Clone, Debug, PartialEq, Eq)]
pub struct Lent {
    /// From height 0 to the tip; never empty.
    pub chain: Vec<Hash>,
    pub staged: Vec<Hash>,
    pub refused: Vec<Hash>,
    /// `request_start_height`, `peer_best_height` and `servable_floor`.
    pub start: u32,
    pub best: u32,
    pub floor: u32,
    /// `staged_bytes_exhausted`.
    pub exhausted: bool,
    /// The two staged headrooms of after the sweep.
    pub byte_headroom: u64,
    pub count_headroom: u64,
    /// Where it is there, the original works the last three out of it by itself, and must find them so.
    pub staging: Option<Staging>,
}

impl Lent {
    pub fn tip(&self) -> u32 {
        self.chain.len() as u32 - 1
    }
}

/// The staged bytes and their limit.
#[derive(Clone, Copy, Debug, PartialEq, Eq)]
pub struct Staging {
    pub bytes: u64,
    pub limit: u64,
}

#[derive(Clone, Debug, PartialEq, Eq)]
pub enum Call {
    // The calls.
    Open {
        clock: Clock,
        settings: Settings,
        keys: Vec<u8>,
    },
    MarkRequested {
        clock: Clock,
        owner: Seat,
        entries: Vec<(Hash, u32)>,
        next_request_height: u32,
        byte_headroom: u64,
        count_headroom: u64,
    },
    MarkOwnedFetch {
        clock: Clock,
        owner: Seat,
        hash: Hash,
        height: u32,
        staged: bool,
        byte_headroom: u64,
        count_headroom: u64,
    },
    MarkReceivedFrom {
        clock: Clock,
        hash: Hash,
        bytes: u64,
        source: Option<Seat>,
    },
    CreditDeliveryFrom {
        clock: Clock,
        hash: Hash,
        source: Seat,
        pending_height: Option<u32>,
    },
    CreditDuplicateDelivery {
        hash: Hash,
        source: Seat,
    },
    RejectDelivery {
        clock: Clock,
        hash: Hash,
        source: Option<Seat>,
    },
    ExpirePending {
        clock: Clock,
    },
    RequeueForRetry {
        clock: Clock,
        hash: Hash,
        height: Option<u32>,
    },
    ReleasePending {
        clock: Clock,
        hash: Hash,
    },
    RetireBefore {
        clock: Clock,
        height: u32,
    },
    RetainOwnedBy {
        owns: Vec<bool>,
    },
    MarkPeerUnresponsive {
        clock: Clock,
        source: Seat,
    },
    ConfirmPrefixProbe {
        clock: Clock,
        owner: Seat,
        hashes: Vec<Hash>,
        alternates: Vec<Seat>,
    },
    ConfirmColdFrontHedge {
        owner: Seat,
        alternate: Seat,
        hash: Hash,
    },
    ObserveBlocked {
        clock: Clock,
        next_apply_height: Option<u32>,
        frontier_hash: Option<Hash>,
        busy: bool,
        staged_count: u64,
        staged_height: Option<u32>,
    },
    SetFanoutEligiblePeers {
        clock: Clock,
        count: u64,
    },
    ClearPreferredPeer,
    NextPeerRequest {
        clock: Clock,
        source: Seat,
        lent: Lent,
    },
    NextPeerRequestAllowingRetry {
        clock: Clock,
        source: Seat,
        lent: Lent,
    },
    // The queries.
    FanoutActive,
    PendingLen,
    PendingBytes,
    PendingHighWater,
    MaxPendingBlocks,
    MinPeersForFanout,
    HasRequestCapacity {
        byte_headroom: u64,
        count_headroom: u64,
    },
    ComputeRequestCapacity {
        source: Seat,
        byte_headroom: u64,
        count_headroom: u64,
    },
    EffectivePeerInflight,
    ExpiredPendingCapacity {
        clock: Clock,
    },
    PeerHasExpiredPending {
        source: Seat,
        clock: Clock,
    },
    PeerInStallerCooldown {
        source: Seat,
        clock: Clock,
    },
    StallingPeer,
    PreferredPeer,
    ProbeOffered {
        source: Seat,
        hash: Hash,
    },
    HedgeOffered {
        source: Seat,
        hash: Hash,
    },
    PrefixProbePlan,
    ContainsPending {
        hash: Hash,
    },
    PendingOwner {
        hash: Hash,
    },
    IsDownloading {
        owner: Seat,
    },
    ActiveDownloadingPeers,
    EffectiveOwnerTimeout,
    StallDecayFloor,
    PendingCountFor {
        source: Seat,
    },
    RequestCursor,
    StallTimeout,
    FrontIntervalEwmaMs,
    EwmaBlockBytes,
    OwnerQueueStart {
        owner: Seat,
    },
    ProbeStartedAt,
}

impl Call {
    /// The clock that an accepted changing call sets as the last one.
    pub fn sets_clock(&self) -> Option<Clock> {
        match self {
            Call::Open { clock, .. }
            | Call::MarkRequested { clock, .. }
            | Call::MarkOwnedFetch { clock, .. }
            | Call::MarkReceivedFrom { clock, .. }
            | Call::CreditDeliveryFrom { clock, .. }
            | Call::RejectDelivery { clock, .. }
            | Call::ExpirePending { clock }
            | Call::RequeueForRetry { clock, .. }
            | Call::ReleasePending { clock, .. }
            | Call::RetireBefore { clock, .. }
            | Call::MarkPeerUnresponsive { clock, .. }
            | Call::ConfirmPrefixProbe { clock, .. }
            | Call::ObserveBlocked { clock, .. }
            | Call::SetFanoutEligiblePeers { clock, .. }
            | Call::NextPeerRequest { clock, .. }
            | Call::NextPeerRequestAllowingRetry { clock, .. } => Some(*clock),
            _ => None,
        }
    }

    /// Of a plan: whose, and what is lent for it.
    pub fn plan(&self) -> Option<(Clock, Seat, &Lent)> {
        match self {
            Call::NextPeerRequest { clock, source, lent } | Call::NextPeerRequestAllowingRetry { clock, source, lent } => {
                Some((*clock, *source, lent))
            }
            _ => None,
        }
    }
}

#[derive(Clone, Copy, Debug, PartialEq, Eq)]
pub enum OwnedFetch {
    Held,
    Staged,
    Asked,
    NoCapacity,
}

#[derive(Clone, Copy, Debug, PartialEq, Eq)]
pub enum Rejection {
    ReleasedPending,
    DiscardedUnsolicited,
}

#[derive(Clone, Copy, Debug, PartialEq, Eq)]
pub enum BlameReason {
    Staller,
    PendingTimeout,
}

#[derive(Clone, Copy, Debug, PartialEq, Eq)]
pub enum Decision {
    Blame { owner: Seat, reason: BlameReason },
    EvictStaged { height: u32, hash: Hash, suppressed_for: u64 },
    HedgeColdFront { owner: Seat, front_hash: Hash },
    None,
}

#[derive(Clone, Debug, PartialEq, Eq)]
pub struct Plan {
    pub owner: Seat,
    pub hashes: Vec<Hash>,
    pub end_height: u32,
}

/// The Rust's `PeerRequest`.
#[derive(Clone, Debug, PartialEq, Eq)]
pub struct Request {
    pub owner: Seat,
    pub entries: Vec<(Hash, u32)>,
    pub next_request_height: u32,
}

#[derive(Clone, Debug, PartialEq, Eq)]
pub enum Answer {
    Done,
    Flag(bool),
    Number(u64),
    Pair(u64, u64),
    MaybeNumber(Option<u64>),
    MaybePair(Option<(u64, u64)>),
    Owned(OwnedFetch),
    Rejected(Rejection),
    Decided(Decision),
    Planned(Option<Plan>),
    Proposed(Option<Request>),
}

#[derive(Clone, Copy, Debug, PartialEq, Eq)]
pub struct Entry {
    pub hash: Hash,
    pub owner: Seat,
    pub requested_at: Clock,
    pub height: u32,
    pub estimated_bytes: u64,
}

/// The ten reasons (SPECIFICATION 5.1).
#[derive(Clone, Copy, Debug, PartialEq, Eq, PartialOrd, Ord)]
#[repr(u8)]
pub enum Reason {
    Delivered = 1,
    OwnerRejected = 2,
    Retry = 3,
    Released = 4,
    Retired = 5,
    OwnerTimedOut = 6,
    PassedOver = 7,
    SeatLost = 8,
    PrefixRaceLost = 9,
    HedgeLost = 10,
}

#[derive(Clone, Copy, Debug, PartialEq, Eq)]
pub struct Release {
    pub entry: Entry,
    pub reason: Reason,
}

#[derive(Clone, Copy, Debug, PartialEq, Eq)]
pub struct StallEpisode {
    pub owner: Seat,
    pub front_hash: Hash,
    pub since: Clock,
}

#[derive(Clone, Copy, Debug, PartialEq, Eq)]
pub struct ApplySideStuck {
    pub height: u32,
    pub frontier_hash: Hash,
    pub since: Clock,
}

#[derive(Clone, Copy, Debug, PartialEq, Eq)]
pub enum ColdFront {
    Waiting { owner: Seat, hash: Hash, since: Clock },
    Racing { owner: Seat, alternate: Seat, hash: Hash },
}

#[derive(Clone, Debug, PartialEq, Eq)]
pub struct PrefixProbe {
    pub owner: Seat,
    pub hashes: Vec<Hash>,
    /// Seat and progress byte, by rising seat.
    pub racers: Vec<(Seat, u8)>,
    pub accepted: u8,
    pub started_at: Clock,
}

#[derive(Clone, Copy, Debug, PartialEq, Eq)]
pub struct Observation {
    pub owner: Seat,
    pub hash: Hash,
    pub expired_release: bool,
}

/// The whole pending side; tables by rising hash, seat or key.
#[derive(Clone, Debug, PartialEq, Eq)]
pub struct State {
    pub settings: Settings,
    pub last_clock: Clock,
    pub pending_bytes: u64,
    pub pending_blocks_high_water: u64,
    pub pending_bytes_high_water: u64,
    pub ewma_block_bytes: u64,
    pub next_request_height: u32,
    pub pending: Vec<Entry>,
    pub owner_downloading_since: Vec<(Seat, Clock)>,
    pub owner_last_body_at: Vec<(Seat, Clock)>,
    pub keys: Vec<u8>,
    pub recent_stallers: Vec<(u8, Clock)>,
    pub fanout_eligible_peers: u64,
    pub fanout_engaged: bool,
    pub stall: Option<StallEpisode>,
    pub apply_side_stuck: Option<ApplySideStuck>,
    pub front_interval_ewma_ms: Option<u64>,
    pub last_front_advance: Option<Clock>,
    pub stall_timeout: u64,
    pub cold_front: Option<ColdFront>,
    pub cold_hedged_fronts: Vec<Hash>,
    pub preferred_peer: Option<Seat>,
    pub prefix_probe: Option<PrefixProbe>,
    pub prefix_probe_attempted_owner: Option<Seat>,
    pub pending_timeout_observation: Option<Observation>,
}

#[derive(Clone, Debug, PartialEq, Eq)]
pub struct Outcome {
    pub answer: Answer,
    /// The report (SPECIFICATION 3.4): the delivered one first, the others by rising hash.
    pub gone: Vec<Release>,
    pub state: State,
}

/// An implementation that is driven by accepted calls, the first of them an opening.
pub trait Window {
    fn call(&mut self, call: &Call) -> Outcome;
}
