use std::fmt;
use std::time::{Duration, Instant};

use crate::ffi;

/// What a method answers that the library can refuse.
pub type Result<T> = std::result::Result<T, Refusal>;

/// The answer of a call that cannot be refused: the words are a window, since only accepted calls made them, and every list has its length.
pub(crate) fn answered<T>(refused: u64, answer: T) -> T {
    assert!(refused == 0, "refusal {refused}: the window's memory was changed from outside");
    answer
}

/// The host's number for a connection, in place of the original's `PeerSource`.
pub type Seat = u8;

/// A block's hash: 32 bytes, ordered from the first.
#[derive(Clone, Copy, PartialEq, Eq, PartialOrd, Ord, Hash)]
pub struct Hash256(pub [u8; 32]);

impl Hash256 {
    /// Four words, the first byte highest.
    pub(crate) fn words(self) -> [u64; 4] {
        let mut words = [0; 4];
        for (word, bytes) in words.iter_mut().zip(self.0.chunks_exact(8)) {
            *word = bytes.iter().fold(0, |word, byte| word << 8 | u64::from(*byte));
        }
        words
    }

    pub(crate) fn flat(self) -> ffi::Hash {
        ffi::Hash(self.words())
    }

    pub(crate) fn of(hash: ffi::Hash) -> Self {
        let mut bytes = [0; 32];
        for (bytes, word) in bytes.chunks_exact_mut(8).zip(hash.0) {
            bytes.copy_from_slice(&word.to_be_bytes());
        }
        Self(bytes)
    }
}

impl fmt::Display for Hash256 {
    fn fmt(&self, formatter: &mut fmt::Formatter<'_>) -> fmt::Result {
        self.0.iter().try_for_each(|byte| write!(formatter, "{byte:02x}"))
    }
}

impl fmt::Debug for Hash256 {
    fn fmt(&self, formatter: &mut fmt::Formatter<'_>) -> fmt::Result {
        fmt::Display::fmt(self, formatter)
    }
}

/// The limits that the window reads, by the original's names.
#[derive(Clone, Copy, Debug, PartialEq, Eq)]
pub struct SyncBudget {
    /// Blocks that may be pending, at most 256. A request may pass it; what a peer is asked for is capped by it.
    pub max_pending_blocks: usize,
    /// Bytes that may be pending, at most 2^40.
    pub max_pending_bytes: usize,
    /// Blocks that may be staged: from half of it on, a missing front counts as a stall.
    pub max_received_blocks: usize,
    /// Blocks that one peer may own without fan-out.
    pub max_peer_inflight: usize,
    /// Blocks that one peer may own at least with fan-out.
    pub fanout_peer_inflight: usize,
    /// Eligible peers from which fan-out engages.
    pub min_peers_for_fanout: usize,
    /// Blocks in one message to a peer.
    pub getdata_batch_limit: usize,
    /// The network's time between blocks: a peer alone may take this long.
    pub block_spacing: Duration,
    /// Twice this long stuck on one staged block, and it is to be evicted.
    pub received_timeout: Duration,
    /// The first stall wait, and the wait before a cold front is hedged.
    pub stall_timeout_initial: Duration,
    /// The longest stall wait.
    pub stall_timeout_max: Duration,
    /// How long a blamed peer cools.
    pub staller_cooldown: Duration,
}

/// The original's budget of this name; `block_spacing` is the network's, 600 s for Bitcoin's main one.
pub const fn default_sync_budget(block_spacing: Duration) -> SyncBudget {
    SyncBudget {
        max_pending_blocks: 256,
        max_pending_bytes: 512 << 20,
        max_received_blocks: 256,
        max_peer_inflight: 256,
        fanout_peer_inflight: 16,
        min_peers_for_fanout: 8,
        getdata_batch_limit: 256,
        block_spacing,
        received_timeout: Duration::from_secs(60),
        stall_timeout_initial: Duration::from_secs(2),
        stall_timeout_max: Duration::from_secs(64),
        staller_cooldown: Duration::from_secs(64),
    }
}

/// The original's budget of this name: fan-out from two peers on, eight blocks each.
pub const fn fast_sync_budget(block_spacing: Duration) -> SyncBudget {
    SyncBudget { fanout_peer_inflight: 8, min_peers_for_fanout: 2, ..default_sync_budget(block_spacing) }
}

impl SyncBudget {
    /// The same budget with at most this many bytes pending, as the original's; the host holds its staging area to the ceiling too.
    #[must_use]
    pub fn with_byte_ceiling(mut self, ceiling: usize) -> Self {
        self.max_pending_bytes = self.max_pending_bytes.min(ceiling);
        self
    }

    pub(crate) fn flat(&self) -> ffi::Settings {
        ffi::Settings {
            max_pending_blocks: self.max_pending_blocks as u64,
            max_pending_bytes: self.max_pending_bytes as u64,
            max_received_blocks: self.max_received_blocks as u64,
            max_peer_inflight: self.max_peer_inflight as u64,
            fanout_peer_inflight: self.fanout_peer_inflight as u64,
            min_peers_for_fanout: self.min_peers_for_fanout as u64,
            getdata_batch_limit: self.getdata_batch_limit as u64,
            block_spacing: nanoseconds(self.block_spacing),
            received_timeout: nanoseconds(self.received_timeout),
            stall_timeout_initial: nanoseconds(self.stall_timeout_initial),
            stall_timeout_max: nanoseconds(self.stall_timeout_max),
            staller_cooldown: nanoseconds(self.staller_cooldown),
        }
    }
}

/// Too long a duration is beyond every limit of the library, which then refuses it.
pub(crate) fn nanoseconds(duration: Duration) -> u64 {
    u64::try_from(duration.as_nanos()).unwrap_or(u64::MAX)
}

/// What may still be staged, as the host's staging area finds it.
#[derive(Clone, Copy, Debug, PartialEq, Eq)]
pub struct Headroom {
    /// Bytes.
    pub bytes: usize,
    /// Blocks.
    pub blocks: usize,
}

impl Headroom {
    /// Nothing is staged.
    pub const UNLIMITED: Self = Self { bytes: usize::MAX, blocks: usize::MAX };
}

/// What is staged, for a look at a blocked window.
#[derive(Clone, Copy, Debug, PartialEq, Eq)]
pub struct Staged {
    /// How many blocks.
    pub blocks: usize,
    /// The greatest height of a staged hash that the tree knows.
    pub highest: Option<u32>,
}

/// Where applying stands, for a look at a blocked window.
#[derive(Clone, Copy, Debug, PartialEq, Eq)]
pub struct BlockedContext {
    /// The height to be applied next, if known.
    pub next_apply_height: Option<u32>,
    /// The hash staged at that height, if any.
    pub frontier_hash: Option<Hash256>,
    /// Applying is at work.
    pub apply_side_busy: bool,
}

/// Why a peer is blamed.
#[derive(Clone, Copy, Debug, PartialEq, Eq)]
pub enum BlameReason {
    /// It holds up the whole window.
    Staller,
    /// Its time was out at a look, and at the next one too or its entry was swept between.
    PendingTimeout,
}

/// What a look at a blocked window decides.
#[derive(Clone, Copy, Debug, PartialEq, Eq)]
pub enum BlockedDecision {
    /// Drop this peer: it cools from now on.
    Blame {
        /// The peer.
        owner: Seat,
        /// Why.
        reason: BlameReason,
    },
    /// Applying is stuck on this staged block: drop the block.
    EvictStaged {
        /// Its height.
        height: u32,
        /// Its hash.
        hash: Hash256,
        /// For how long.
        suppressed_for: Duration,
    },
    /// Ask another peer for this block too, then confirm the hedge.
    HedgeColdFront {
        /// Who was asked for it.
        owner: Seat,
        /// Its hash.
        front_hash: Hash256,
    },
    /// Nothing.
    None,
}

/// What became of a rejected body.
#[derive(Clone, Copy, Debug, PartialEq, Eq)]
pub enum RejectDelivery {
    /// Its source owned the entry, which went.
    ReleasedPending,
    /// Its source did not own it: the body is only discarded.
    DiscardedUnsolicited,
}

/// What became of a fetch out of turn. The original says true, true, true, false.
#[derive(Clone, Copy, Debug, PartialEq, Eq)]
pub enum OwnedFetch {
    /// It was pending already.
    Held,
    /// Its body is staged.
    Staged,
    /// It is pending now: send the message.
    Asked,
    /// There is no room.
    NoCapacity,
}

/// A race that is worth while: ask others too for these blocks, then confirm it.
#[derive(Clone, Debug, PartialEq, Eq)]
pub struct PrefixProbePlan {
    /// Who was asked for them.
    pub owner: Seat,
    /// Four to eight of them, by rising height.
    pub hashes: Vec<Hash256>,
    /// The last one's height; one less where that is 4,294,967,295, as in the original.
    pub end_height: u32,
}

/// Why an entry went.
#[derive(Clone, Copy, Debug, PartialEq, Eq)]
#[non_exhaustive]
pub enum Reason {
    /// Its body came, from whomever.
    Delivered = 1,
    /// Its owner's body was rejected.
    OwnerRejected = 2,
    /// It is to be asked again.
    Retry = 3,
    /// It is no longer wanted.
    Released = 4,
    /// It lies below what is applied.
    Retired = 5,
    /// Its owner's time was out.
    OwnerTimedOut = 6,
    /// Its owner sent a later body, and the stall wait had passed.
    PassedOver = 7,
    /// Its owner is gone.
    SeatLost = 8,
    /// Its owner lost a prefix race.
    PrefixRaceLost = 9,
    /// Its owner lost the race for a cold front.
    HedgeLost = 10,
}

impl Reason {
    const ALL: [Self; 10] = [
        Self::Delivered,
        Self::OwnerRejected,
        Self::Retry,
        Self::Released,
        Self::Retired,
        Self::OwnerTimedOut,
        Self::PassedOver,
        Self::SeatLost,
        Self::PrefixRaceLost,
        Self::HedgeLost,
    ];

    /// 1 to 10.
    pub(crate) fn of(number: u64) -> Self {
        Self::ALL[number as usize - 1]
    }
}

/// A block that was asked for.
#[derive(Clone, Copy, Debug, PartialEq, Eq)]
#[non_exhaustive]
pub struct Entry {
    /// Its hash.
    pub hash: Hash256,
    /// Who was asked.
    pub owner: Seat,
    /// When.
    pub requested_at: Instant,
    /// Its height.
    pub height: u32,
    /// Its size as it was estimated then.
    pub estimated_bytes: usize,
}

/// An entry that went, and why.
#[derive(Clone, Copy, Debug, PartialEq, Eq)]
#[non_exhaustive]
pub struct Release {
    /// The entry as it was.
    pub entry: Entry,
    /// Why it went.
    pub reason: Reason,
}

/// Why a call was refused: it then changed nothing. Of several causes the first in this order is told, but where a payload is read `Payload` first,
/// and where a request is planned `Chain` before `ShortOutput`.
///
/// The window of this crate owns its words and its report and takes seats and keys as `u8`, so that its calls meet only `Clock`, `Settings`,
/// `Peer` (more than 256 alternates), `Duplicate`, `TooMany`, `BodySize` and `Chain`; [`from_words`](crate::DownloadWindow::from_words) meets `NoWindow`,
/// [`write_getdata`](crate::write_getdata) `TooMany` and [`read_getdata`](crate::read_getdata) `Payload`. A host that calls the raw layer
/// ([`ffi`](crate::ffi)) with memory of its own can meet the others.
#[derive(Clone, Copy, Debug, PartialEq, Eq)]
#[non_exhaustive]
pub enum Refusal {
    /// 1: the host lent memory that is not 4,096 words.
    WordsLength = 1,
    /// 2: the host lent words that are not a window.
    NoWindow = 2,
    /// 3: the host lent a report under 256 places.
    ShortReport = 3,
    /// 4: the host's clock went back, or is more than 2^62 ns after its start.
    Clock = 4,
    /// 5: the host's settings are out of range: a duration above 10^15 ns, `max_pending_bytes` above 2^40, `max_pending_blocks` above 256, another
    /// count above 65,535.
    Settings = 5,
    /// 6: whoever names a peer named none: a seat or key above 255, lists of seats of a wrong length.
    Peer = 6,
    /// 7: whoever built the request listed a hash that is pending already, or listed one twice.
    Duplicate = 7,
    /// 8: whoever built the request listed more than fit: 256 may be pending, and as many may be in one getdata message.
    TooMany = 8,
    /// 9: a peer sent a body above 4,294,967,295 bytes.
    BodySize = 9,
    /// 10: the host lent less memory than would be written.
    ShortOutput = 10,
    /// 11: a peer sent bytes that are no getdata payload for at most 256 witness blocks: a type, the length, the count or its form is another.
    Payload = 11,
    /// 12: the host lent a chain that is not the hashes from height 0 to the tip.
    Chain = 12,
}

impl Refusal {
    const ALL: [Self; 12] = [
        Self::WordsLength,
        Self::NoWindow,
        Self::ShortReport,
        Self::Clock,
        Self::Settings,
        Self::Peer,
        Self::Duplicate,
        Self::TooMany,
        Self::BodySize,
        Self::ShortOutput,
        Self::Payload,
        Self::Chain,
    ];

    /// 1 to 12.
    pub const fn number(self) -> u8 {
        self as u8
    }

    /// The answer where `refused` is 0.
    pub(crate) fn unless<T>(refused: u64, answer: impl FnOnce() -> T) -> Result<T> {
        match refused {
            0 => Ok(answer()),
            number => Err(Self::ALL[number as usize - 1]),
        }
    }
}

impl fmt::Display for Refusal {
    fn fmt(&self, formatter: &mut fmt::Formatter<'_>) -> fmt::Result {
        formatter.write_str(match self {
            Self::WordsLength => "the memory lent is not 4,096 words",
            Self::NoWindow => "the words lent are not a window",
            Self::ShortReport => "the report lent has fewer than 256 places",
            Self::Clock => "the clock went back, or is above 2^62 ns",
            Self::Settings => "a setting is out of range",
            Self::Peer => "a seat or key is above 255, or a list of them has a wrong length",
            Self::Duplicate => "a hash of the request is pending already, or listed twice",
            Self::TooMany => "more than 256 entries would be pending, or are listed for one getdata",
            Self::BodySize => "a body is above 4,294,967,295 bytes",
            Self::ShortOutput => "the memory lent is too short for what would be written",
            Self::Payload => "the bytes are no getdata payload for at most 256 witness blocks",
            Self::Chain => "the chain is not the hashes from height 0 to the tip",
        })
    }
}

impl std::error::Error for Refusal {}
