//! A call with its arguments as they are handed in: seats and keys are any number, lists have any length.

use calls::{Clock, Hash, MAX_PENDING, Settings};
use layout::hash_words;

/// What is lent and said for one plan; four words a hash.
#[derive(Clone, Debug, PartialEq, Eq)]
pub struct Lent {
    pub chain: Vec<u64>,
    pub tip: u32,
    pub staged: Vec<u64>,
    pub refused: Vec<u64>,
    pub start: u32,
    pub best: u32,
    pub floor: u32,
    pub exhausted: bool,
    pub byte_headroom: u64,
    pub count_headroom: u64,
}

/// How much is lent for a plan itself.
#[derive(Clone, Copy, Debug, PartialEq, Eq)]
pub struct Room {
    pub hash_words: usize,
    pub heights: usize,
}

/// As much as a plan may need.
pub const ENOUGH: Room = Room { hash_words: 4 * MAX_PENDING, heights: MAX_PENDING };

#[derive(Clone, Debug, PartialEq, Eq)]
pub enum Call {
    Open {
        clock: Clock,
        settings: Settings,
        keys: Vec<u64>,
    },
    /// Four words a hash; as many entries as both lists hold whole.
    MarkRequested {
        clock: Clock,
        owner: u64,
        hashes: Vec<u64>,
        heights: Vec<u32>,
        next_request_height: u32,
        byte_headroom: u64,
        count_headroom: u64,
    },
    MarkOwnedFetch {
        clock: Clock,
        owner: u64,
        hash: Hash,
        height: u32,
        staged: bool,
        byte_headroom: u64,
        count_headroom: u64,
    },
    MarkReceivedFrom {
        clock: Clock,
        hash: Hash,
        bytes: u64,
        source: Option<u64>,
    },
    CreditDeliveryFrom {
        clock: Clock,
        hash: Hash,
        source: u64,
        pending_height: Option<u32>,
    },
    CreditDuplicateDelivery {
        hash: Hash,
        source: u64,
    },
    RejectDelivery {
        clock: Clock,
        hash: Hash,
        source: Option<u64>,
    },
    ExpirePending {
        clock: Clock,
    },
    RequeueForRetry {
        clock: Clock,
        hash: Hash,
        height: Option<u32>,
    },
    ReleasePending {
        clock: Clock,
        hash: Hash,
    },
    RetireBefore {
        clock: Clock,
        height: u32,
    },
    /// A flag a seat, nonzero for owned.
    RetainOwnedBy {
        flags: Vec<u64>,
    },
    MarkPeerUnresponsive {
        clock: Clock,
        source: u64,
    },
    /// Four words a hash.
    ConfirmPrefixProbe {
        clock: Clock,
        owner: u64,
        hashes: Vec<u64>,
        alternates: Vec<u64>,
    },
    ConfirmColdFrontHedge {
        owner: u64,
        alternate: u64,
        hash: Hash,
    },
    ObserveBlocked {
        clock: Clock,
        next_apply_height: Option<u32>,
        frontier_hash: Option<Hash>,
        busy: bool,
        staged_count: u64,
        staged_height: Option<u32>,
    },
    SetFanoutEligiblePeers {
        clock: Clock,
        count: u64,
    },
    ClearPreferredPeer,
    NextPeerRequest {
        clock: Clock,
        source: u64,
        lent: Lent,
        room: Room,
    },
    NextPeerRequestAllowingRetry {
        clock: Clock,
        source: u64,
        lent: Lent,
        room: Room,
    },
    // The queries that take a clock or a seat.
    ComputeRequestCapacity {
        source: u64,
        byte_headroom: u64,
        count_headroom: u64,
    },
    ExpiredPendingCapacity {
        clock: Clock,
    },
    PeerHasExpiredPending {
        source: u64,
        clock: Clock,
    },
    PeerInStallerCooldown {
        source: u64,
        clock: Clock,
    },
    ProbeOffered {
        source: u64,
        hash: Hash,
    },
    HedgeOffered {
        source: u64,
        hash: Hash,
    },
    IsDownloading {
        owner: u64,
    },
    PendingCountFor {
        source: u64,
    },
    OwnerQueueStart {
        owner: u64,
    },
    /// Any other query: nothing in it can be out of range.
    Query(calls::Call),
}

impl Call {
    /// The clock, of a call that takes one.
    pub fn clock_mut(&mut self) -> Option<&mut Clock> {
        match self {
            Call::Open { clock, .. }
            | Call::MarkRequested { clock, .. }
            | Call::MarkOwnedFetch { clock, .. }
            | Call::MarkReceivedFrom { clock, .. }
            | Call::CreditDeliveryFrom { clock, .. }
            | Call::RejectDelivery { clock, .. }
            | Call::ExpirePending { clock }
            | Call::RequeueForRetry { clock, .. }
            | Call::ReleasePending { clock, .. }
            | Call::RetireBefore { clock, .. }
            | Call::MarkPeerUnresponsive { clock, .. }
            | Call::ConfirmPrefixProbe { clock, .. }
            | Call::ObserveBlocked { clock, .. }
            | Call::SetFanoutEligiblePeers { clock, .. }
            | Call::NextPeerRequest { clock, .. }
            | Call::NextPeerRequestAllowingRetry { clock, .. }
            | Call::ExpiredPendingCapacity { clock }
            | Call::PeerHasExpiredPending { clock, .. }
            | Call::PeerInStallerCooldown { clock, .. } => Some(clock),
            _ => None,
        }
    }

    /// The seats and keys that a call names, those in its lists too.
    pub fn seats_mut(&mut self) -> Vec<&mut u64> {
        match self {
            Call::Open { keys, .. } => keys.iter_mut().collect(),
            Call::ConfirmPrefixProbe { owner, alternates, .. } => [owner].into_iter().chain(alternates).collect(),
            Call::ConfirmColdFrontHedge { owner, alternate, .. } => vec![owner, alternate],
            Call::MarkReceivedFrom { source, .. } | Call::RejectDelivery { source, .. } => source.iter_mut().collect(),
            Call::MarkRequested { owner: seat, .. }
            | Call::MarkOwnedFetch { owner: seat, .. }
            | Call::CreditDeliveryFrom { source: seat, .. }
            | Call::CreditDuplicateDelivery { source: seat, .. }
            | Call::MarkPeerUnresponsive { source: seat, .. }
            | Call::NextPeerRequest { source: seat, .. }
            | Call::NextPeerRequestAllowingRetry { source: seat, .. }
            | Call::ComputeRequestCapacity { source: seat, .. }
            | Call::PeerHasExpiredPending { source: seat, .. }
            | Call::PeerInStallerCooldown { source: seat, .. }
            | Call::ProbeOffered { source: seat, .. }
            | Call::HedgeOffered { source: seat, .. }
            | Call::IsDownloading { owner: seat }
            | Call::PendingCountFor { source: seat }
            | Call::OwnerQueueStart { owner: seat } => vec![seat],
            _ => Vec::new(),
        }
    }

    /// Of a plan: what is lent for it.
    pub fn plan(&self) -> Option<(&Lent, Room)> {
        match self {
            Call::NextPeerRequest { lent, room, .. } | Call::NextPeerRequestAllowingRetry { lent, room, .. } => {
                Some((lent, *room))
            }
            _ => None,
        }
    }

    /// The same, to be changed.
    pub fn plan_mut(&mut self) -> Option<(&mut Lent, &mut Room)> {
        match self {
            Call::NextPeerRequest { lent, room, .. } | Call::NextPeerRequestAllowingRetry { lent, room, .. } => {
                Some((lent, room))
            }
            _ => None,
        }
    }
}

/// A call's name, as the original has it.
pub fn kind(call: &Call) -> String {
    let text = match call {
        Call::Query(query) => format!("{query:?}"),
        call => format!("{call:?}"),
    };
    text.split([' ', '{', '(']).next().unwrap_or_default().to_string()
}

impl From<&calls::Call> for Call {
    fn from(call: &calls::Call) -> Self {
        use calls::Call as From;
        match call.clone() {
            From::Open { clock, settings, keys } => Call::Open { clock, settings, keys: numbers(&keys) },
            From::MarkRequested { clock, owner, entries, next_request_height, byte_headroom, count_headroom } => {
                let (hashes, heights): (Vec<Hash>, Vec<u32>) = entries.into_iter().unzip();
                let hashes = words(&hashes);
                Call::MarkRequested {
                    clock,
                    owner: owner.into(),
                    hashes,
                    heights,
                    next_request_height,
                    byte_headroom,
                    count_headroom,
                }
            }
            From::MarkOwnedFetch { clock, owner, hash, height, staged, byte_headroom, count_headroom } => {
                Call::MarkOwnedFetch { clock, owner: owner.into(), hash, height, staged, byte_headroom, count_headroom }
            }
            From::MarkReceivedFrom { clock, hash, bytes, source } => {
                Call::MarkReceivedFrom { clock, hash, bytes, source: source.map(u64::from) }
            }
            From::CreditDeliveryFrom { clock, hash, source, pending_height } => {
                Call::CreditDeliveryFrom { clock, hash, source: source.into(), pending_height }
            }
            From::CreditDuplicateDelivery { hash, source } => Call::CreditDuplicateDelivery { hash, source: source.into() },
            From::RejectDelivery { clock, hash, source } => Call::RejectDelivery { clock, hash, source: source.map(u64::from) },
            From::ExpirePending { clock } => Call::ExpirePending { clock },
            From::RequeueForRetry { clock, hash, height } => Call::RequeueForRetry { clock, hash, height },
            From::ReleasePending { clock, hash } => Call::ReleasePending { clock, hash },
            From::RetireBefore { clock, height } => Call::RetireBefore { clock, height },
            From::RetainOwnedBy { owns } => Call::RetainOwnedBy { flags: owns.into_iter().map(u64::from).collect() },
            other => race_look_or_query(other),
        }
    }
}

fn race_look_or_query(call: calls::Call) -> Call {
    use calls::Call as From;
    match call {
        From::MarkPeerUnresponsive { clock, source } => Call::MarkPeerUnresponsive { clock, source: source.into() },
        From::ConfirmPrefixProbe { clock, owner, hashes, alternates } => {
            Call::ConfirmPrefixProbe { clock, owner: owner.into(), hashes: words(&hashes), alternates: numbers(&alternates) }
        }
        From::ConfirmColdFrontHedge { owner, alternate, hash } => {
            Call::ConfirmColdFrontHedge { owner: owner.into(), alternate: alternate.into(), hash }
        }
        From::ObserveBlocked { clock, next_apply_height, frontier_hash, busy, staged_count, staged_height } => {
            Call::ObserveBlocked { clock, next_apply_height, frontier_hash, busy, staged_count, staged_height }
        }
        From::SetFanoutEligiblePeers { clock, count } => Call::SetFanoutEligiblePeers { clock, count },
        From::ClearPreferredPeer => Call::ClearPreferredPeer,
        From::NextPeerRequest { clock, source, lent } => {
            Call::NextPeerRequest { clock, source: source.into(), lent: (&lent).into(), room: ENOUGH }
        }
        From::NextPeerRequestAllowingRetry { clock, source, lent } => {
            Call::NextPeerRequestAllowingRetry { clock, source: source.into(), lent: (&lent).into(), room: ENOUGH }
        }
        From::ComputeRequestCapacity { source, byte_headroom, count_headroom } => {
            Call::ComputeRequestCapacity { source: source.into(), byte_headroom, count_headroom }
        }
        From::ExpiredPendingCapacity { clock } => Call::ExpiredPendingCapacity { clock },
        From::PeerHasExpiredPending { source, clock } => Call::PeerHasExpiredPending { source: source.into(), clock },
        From::PeerInStallerCooldown { source, clock } => Call::PeerInStallerCooldown { source: source.into(), clock },
        From::ProbeOffered { source, hash } => Call::ProbeOffered { source: source.into(), hash },
        From::HedgeOffered { source, hash } => Call::HedgeOffered { source: source.into(), hash },
        From::IsDownloading { owner } => Call::IsDownloading { owner: owner.into() },
        From::PendingCountFor { source } => Call::PendingCountFor { source: source.into() },
        From::OwnerQueueStart { owner } => Call::OwnerQueueStart { owner: owner.into() },
        query => Call::Query(query),
    }
}

impl From<&calls::Lent> for Lent {
    fn from(lent: &calls::Lent) -> Self {
        Self {
            chain: words(&lent.chain),
            tip: lent.tip(),
            staged: words(&lent.staged),
            refused: words(&lent.refused),
            start: lent.start,
            best: lent.best,
            floor: lent.floor,
            exhausted: lent.exhausted,
            byte_headroom: lent.byte_headroom,
            count_headroom: lent.count_headroom,
        }
    }
}

fn numbers(seats: &[u8]) -> Vec<u64> {
    seats.iter().map(|seat| u64::from(*seat)).collect()
}

fn words(hashes: &[Hash]) -> Vec<u64> {
    hashes.iter().flat_map(hash_words).collect()
}
