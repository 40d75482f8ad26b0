//! What is measured: the same calls, with arguments prepared in each one's own form. An answer is a number, so that answers can be compared.

use std::time::Instant;

pub const SETTINGS: ([usize; 7], [u64; 5]) =
    ([256, 1 << 40, 256, 256, 16, 300, 256], [600 * SECOND, 60 * SECOND, 2 * SECOND, 64 * SECOND, 64 * SECOND]);
pub const SECOND: u64 = 1_000_000_000;

pub type Entry = ([u8; 32], u32);

/// A chain from height 0 to the tip, the least height that is wanted, what is staged and what is refused.
pub struct Lent {
    pub chain: Vec<[u8; 32]>,
    pub start: u32,
    pub staged: Vec<[u8; 32]>,
    pub refused: Vec<[u8; 32]>,
}

pub trait Subject {
    type Hash: Copy;
    type Peer: Copy;
    type Moment: Copy;
    type Request;
    /// What a plan is made over.
    type Lists;
    /// What a plan may change.
    type Kept;

    /// With the batch limit that is said, else by SETTINGS.
    fn open_with(batch_limit: usize) -> Self;
    fn open() -> Self
    where
        Self: Sized,
    {
        Self::open_with(SETTINGS.0[6])
    }
    fn hash(bytes: [u8; 32]) -> Self::Hash;
    fn peer(seat: u8) -> Self::Peer;
    fn moment(&self, clock: u64) -> Self::Moment;
    fn prepare_with(owner: u8, entries: &[Entry], next: u32) -> Self::Request;
    /// One that leaves the frontier.
    fn prepare(owner: u8, entries: &[Entry]) -> Self::Request {
        Self::prepare_with(owner, entries, 0)
    }

    fn mark_requested(&mut self, request: &Self::Request, now: Self::Moment) -> u64;
    fn mark_owned_fetch(&mut self, owner: Self::Peer, hash: Self::Hash, height: u32, now: Self::Moment) -> u64;
    fn mark_received_from(&mut self, hash: Self::Hash, bytes: usize, source: Self::Peer, now: Self::Moment) -> u64;
    fn reject_delivery(&mut self, hash: Self::Hash, source: Self::Peer, now: Self::Moment) -> u64;
    fn release_pending(&mut self, hash: Self::Hash, now: Self::Moment) -> u64;
    fn requeue_for_retry(&mut self, hash: Self::Hash, now: Self::Moment) -> u64;
    fn expire_pending(&mut self, now: Self::Moment) -> u64;
    fn retire_before(&mut self, height: u32, now: Self::Moment) -> u64;
    fn retain_owned_by(&mut self, flags: &[u64; 256]) -> u64;
    fn mark_peer_unresponsive(&mut self, source: Self::Peer, now: Self::Moment) -> u64;
    fn observe_blocked(&mut self, next: u32, now: Self::Moment) -> u64;
    fn expired_pending_capacity(&self, now: Self::Moment) -> u64;
    fn contains_pending(&self, hash: Self::Hash) -> u64;
    fn pending_count_for(&self, source: Self::Peer) -> u64;
    fn has_request_capacity(&self) -> u64;
    fn max_pending_blocks(&self) -> u64;
    fn pending_len(&self) -> u64;

    fn lists(lent: &Lent) -> Self::Lists;
    fn kept(&self) -> Self::Kept;
    fn restore(&mut self, kept: &Self::Kept);
    /// How many entries the plan has.
    fn next_peer_request(&mut self, lists: &mut Self::Lists, source: Self::Peer, now: Self::Moment) -> u64;
    /// The last plan's entries and next height.
    fn planned(&self) -> (Vec<Entry>, u32);
    fn request_cursor(&self) -> u64;
}

/// The settings with a batch limit.
pub fn counts_with(batch_limit: usize) -> [usize; 7] {
    let mut counts = SETTINGS.0;
    counts[6] = batch_limit;
    counts
}

macro_rules! original {
    ($build:ident) => {
        impl Subject for $build::Original {
            type Hash = $build::Hash256;
            type Peer = $build::PeerSource;
            type Moment = Instant;
            type Request = $build::Prepared;
            type Lists = $build::Lists;
            type Kept = $build::Kept;

            fn open_with(batch_limit: usize) -> Self {
                $build::Original::open(counts_with(batch_limit), SETTINGS.1)
            }

            fn hash(bytes: [u8; 32]) -> Self::Hash {
                $build::Hash256(bytes)
            }

            fn peer(seat: u8) -> Self::Peer {
                $build::Original::peer(seat)
            }

            fn moment(&self, clock: u64) -> Instant {
                self.moment(clock)
            }

            fn prepare_with(owner: u8, entries: &[Entry], next: u32) -> Self::Request {
                $build::Original::prepare(owner, entries, next)
            }

            #[inline(always)]
            fn mark_requested(&mut self, request: &Self::Request, now: Instant) -> u64 {
                self.mark_requested(request, now).into()
            }

            #[inline(always)]
            fn mark_owned_fetch(&mut self, owner: Self::Peer, hash: Self::Hash, height: u32, now: Instant) -> u64 {
                self.mark_owned_fetch(owner, hash, height, now).into()
            }

            #[inline(always)]
            fn mark_received_from(&mut self, hash: Self::Hash, bytes: usize, source: Self::Peer, now: Instant) -> u64 {
                self.mark_received_from(hash, bytes, source, now).map_or(0, |height| 1 + u64::from(height))
            }

            #[inline(always)]
            fn reject_delivery(&mut self, hash: Self::Hash, source: Self::Peer, now: Instant) -> u64 {
                self.reject_delivery(hash, source, now).into()
            }

            #[inline(always)]
            fn release_pending(&mut self, hash: Self::Hash, now: Instant) -> u64 {
                self.release_pending(&hash, now);
                0
            }

            #[inline(always)]
            fn requeue_for_retry(&mut self, hash: Self::Hash, now: Instant) -> u64 {
                self.requeue_for_retry(&hash, now);
                0
            }

            #[inline(always)]
            fn expire_pending(&mut self, now: Instant) -> u64 {
                self.expire_pending(now) as u64
            }

            #[inline(always)]
            fn retire_before(&mut self, height: u32, now: Instant) -> u64 {
                self.retire_before(height, now);
                0
            }

            #[inline(always)]
            fn retain_owned_by(&mut self, flags: &[u64; 256]) -> u64 {
                self.retain_owned_by(flags);
                0
            }

            #[inline(always)]
            fn mark_peer_unresponsive(&mut self, source: Self::Peer, now: Instant) -> u64 {
                self.mark_peer_unresponsive(source, now);
                0
            }

            #[inline(always)]
            fn observe_blocked(&mut self, next: u32, now: Instant) -> u64 {
                self.observe_blocked(next, now)
            }

            #[inline(always)]
            fn expired_pending_capacity(&self, now: Instant) -> u64 {
                let (blocks, bytes) = self.expired_pending_capacity(now);
                (blocks + bytes) as u64
            }

            #[inline(always)]
            fn contains_pending(&self, hash: Self::Hash) -> u64 {
                self.contains_pending(&hash).into()
            }

            #[inline(always)]
            fn pending_count_for(&self, source: Self::Peer) -> u64 {
                self.pending_count_for(source) as u64
            }

            #[inline(always)]
            fn has_request_capacity(&self) -> u64 {
                self.has_request_capacity().into()
            }

            #[inline(always)]
            fn max_pending_blocks(&self) -> u64 {
                self.max_pending_blocks() as u64
            }

            fn pending_len(&self) -> u64 {
                self.pending_len() as u64
            }

            fn lists(lent: &Lent) -> Self::Lists {
                $build::Lists::new(&lent.chain, lent.start, &lent.staged, &lent.refused)
            }

            fn kept(&self) -> Self::Kept {
                self.kept()
            }

            fn restore(&mut self, kept: &Self::Kept) {
                self.restore(kept)
            }

            #[inline(always)]
            fn next_peer_request(&mut self, lists: &mut Self::Lists, source: Self::Peer, now: Instant) -> u64 {
                self.next_peer_request(lists, source, now) as u64
            }

            fn planned(&self) -> (Vec<Entry>, u32) {
                self.planned()
            }

            fn request_cursor(&self) -> u64 {
                self.request_cursor().into()
            }
        }
    };
}

original!(bench_own_maps);
original!(bench_cheap_hasher);
