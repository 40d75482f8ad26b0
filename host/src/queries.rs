use std::time::{Duration, Instant};

use crate::DownloadWindow;
use crate::calls::{LAST_CLOCK, PLACES, WORDS};
use crate::ffi;
use crate::types::{Entry, Hash256, Headroom, PrefixProbePlan, Refusal, Result, Seat, answered};

/// The word that counts the records (docs/LAYOUT.md).
const COUNT: usize = 3585;

/// The word of the setting (docs/LAYOUT.md).
const MAX_RECEIVED_BLOCKS: usize = 3594;

/// Columns of the records: each holds a word for each of 256 places.
const OWNERS: usize = 4 * PLACES;
const TIMES: usize = 5 * PLACES;
const HEIGHTS: usize = 6 * PLACES;
const ESTIMATES: usize = 7 * PLACES;

/// What is pending.
impl DownloadWindow {
    /// How many entries.
    pub fn pending_len(&self) -> usize {
        self.size(ffi::kofudile_pending_len)
    }

    /// The sum of their estimates.
    pub fn pending_bytes(&self) -> usize {
        self.size(ffi::kofudile_pending_bytes)
    }

    /// The most blocks and the most bytes that were pending at one time.
    pub fn pending_high_water(&self) -> (usize, usize) {
        let said = self.read(ffi::kofudile_pending_high_water);
        answered(said.refused, (said.first as usize, said.second as usize))
    }

    /// The entries, by rising hash.
    ///
    /// ```
    /// # use kofudile::{DownloadWindow, Hash256, Headroom, default_sync_budget};
    /// # use std::time::{Duration, Instant};
    /// # fn main() -> kofudile::Result<()> {
    /// # let now = Instant::now();
    /// # let keys: [u8; 256] = std::array::from_fn(|seat| seat as u8);
    /// # let mut window = DownloadWindow::new(default_sync_budget(Duration::from_secs(600)), &keys, now)?;
    /// window.mark_requested(Headroom::UNLIMITED, 3, &[(Hash256([9; 32]), 1), (Hash256([7; 32]), 2)], 3, now)?;
    /// let heights: Vec<u32> = window.entries().map(|entry| entry.height).collect();
    /// assert_eq!(heights, [2, 1]);
    /// # Ok(())
    /// # }
    /// ```
    pub fn entries(&self) -> impl ExactSizeIterator<Item = Entry> + '_ {
        let words = self.words();
        let count = words[COUNT] as usize;
        (0..count).map(|place| Entry {
            hash: Hash256::of(ffi::Hash([0, 1, 2, 3].map(|word| words[word * PLACES + place]))),
            owner: words[OWNERS + place] as Seat,
            requested_at: self.moment(words[TIMES + place]),
            height: words[HEIGHTS + place] as u32,
            estimated_bytes: words[ESTIMATES + place] as usize,
        })
    }

    /// Whether this hash is pending.
    pub fn contains_pending(&self, hash: &Hash256) -> bool {
        // SAFETY: the words are ours, and no call writes them while they are borrowed; so in every query.
        truth(unsafe { ffi::kofudile_contains_pending(self.words().as_ptr(), WORDS, hash.flat()) })
    }

    /// Who was asked for it.
    pub fn pending_owner(&self, hash: &Hash256) -> Option<Seat> {
        // SAFETY: as above.
        let said = unsafe { ffi::kofudile_pending_owner(self.words().as_ptr(), WORDS, hash.flat()) };
        perhaps(said).map(|seat| seat as Seat)
    }

    /// The frontier: the height from which to look for blocks to request next.
    pub fn request_cursor(&self) -> u32 {
        self.number(ffi::kofudile_request_cursor) as u32
    }

    /// The mean of block bytes, which the next entries are estimated by.
    pub fn ewma_block_bytes(&self) -> usize {
        self.size(ffi::kofudile_ewma_block_bytes)
    }

    /// The latest moment that an accepted call took. A call or query at an earlier one is refused.
    pub fn last_clock(&self) -> Instant {
        self.moment(self.words()[LAST_CLOCK])
    }
}

/// What may be asked for.
impl DownloadWindow {
    /// The setting.
    pub fn max_pending_blocks(&self) -> usize {
        self.size(ffi::kofudile_max_pending_blocks)
    }

    /// The setting.
    pub fn min_peers_for_fanout(&self) -> usize {
        self.size(ffi::kofudile_min_peers_for_fanout)
    }

    /// The setting.
    pub fn max_received_blocks(&self) -> usize {
        self.words()[MAX_RECEIVED_BLOCKS] as usize
    }

    /// Whether fan-out is engaged.
    pub fn fanout_active(&self) -> bool {
        truth(self.read(ffi::kofudile_fanout_active))
    }

    /// How many entries one peer may own now.
    pub fn effective_peer_inflight(&self) -> usize {
        self.size(ffi::kofudile_effective_peer_inflight)
    }

    /// Whether there is room for one more block.
    pub fn has_request_capacity(&self, headroom: Headroom) -> bool {
        let (bytes, blocks) = (headroom.bytes as u64, headroom.blocks as u64);
        // SAFETY: as above.
        truth(unsafe { ffi::kofudile_has_request_capacity(self.words().as_ptr(), WORDS, bytes, blocks) })
    }

    /// How many blocks the source may be asked for, and the bytes that there is room for.
    pub fn compute_request_capacity(&self, headroom: Headroom, source: Seat) -> Option<(usize, usize)> {
        let (bytes, blocks) = (headroom.bytes as u64, headroom.blocks as u64);
        // SAFETY: as above.
        let said = unsafe { ffi::kofudile_compute_request_capacity(self.words().as_ptr(), WORDS, source.into(), bytes, blocks) };
        perhaps_pair(said).map(|(batch, bytes)| (batch as usize, bytes as usize))
    }
}

/// Peers.
impl DownloadWindow {
    /// How many entries the source owns.
    pub fn pending_count_for(&self, source: Seat) -> usize {
        // SAFETY: as above.
        let said = unsafe { ffi::kofudile_pending_count_for(self.words().as_ptr(), WORDS, source.into()) };
        answered(said.refused, said.value as usize)
    }

    /// Whether it owns any.
    pub fn is_downloading(&self, owner: Seat) -> bool {
        // SAFETY: as above.
        truth(unsafe { ffi::kofudile_is_downloading(self.words().as_ptr(), WORDS, owner.into()) })
    }

    /// Since when it is waited for.
    pub fn owner_queue_start(&self, owner: Seat) -> Option<Instant> {
        // SAFETY: as above.
        let said = unsafe { ffi::kofudile_owner_queue_start(self.words().as_ptr(), WORDS, owner.into()) };
        perhaps(said).map(|clock| self.moment(clock))
    }

    /// How many peers own entries.
    pub fn active_downloading_peers(&self) -> usize {
        self.size(ffi::kofudile_active_downloading_peers)
    }

    /// How long an owner may take with so many peers active.
    pub fn effective_owner_timeout(&self) -> Duration {
        self.duration(ffi::kofudile_effective_owner_timeout)
    }

    /// Whether the source's time is out.
    ///
    /// # Errors
    /// [`Refusal::Clock`]
    pub fn peer_has_expired_pending(&self, source: Seat, now: Instant) -> Result<bool> {
        // SAFETY: as above.
        let said =
            unsafe { ffi::kofudile_peer_has_expired_pending(self.words().as_ptr(), WORDS, source.into(), self.clock(now)) };
        Refusal::unless(said.refused, || said.value == 1)
    }

    /// Whether the address behind the source cools.
    ///
    /// # Errors
    /// [`Refusal::Clock`]
    pub fn peer_in_staller_cooldown(&self, source: Seat, now: Instant) -> Result<bool> {
        // SAFETY: as above.
        let said =
            unsafe { ffi::kofudile_peer_in_staller_cooldown(self.words().as_ptr(), WORDS, source.into(), self.clock(now)) };
        Refusal::unless(said.refused, || said.value == 1)
    }

    /// The forecast: blocks and bytes of owners whose time is out. A sweep at that moment lets go these at least.
    ///
    /// # Errors
    /// [`Refusal::Clock`]
    pub fn expired_pending_capacity(&self, now: Instant) -> Result<(usize, usize)> {
        // SAFETY: as above.
        let said = unsafe { ffi::kofudile_expired_pending_capacity(self.words().as_ptr(), WORDS, self.clock(now)) };
        Refusal::unless(said.refused, || (said.first as usize, said.second as usize))
    }
}

/// Stalls and races.
impl DownloadWindow {
    /// The key that holds up the window, and since when.
    pub fn stalling_peer(&self) -> Option<(u8, Instant)> {
        perhaps_pair(self.read(ffi::kofudile_stalling_peer)).map(|(key, since)| (key as u8, self.moment(since)))
    }

    /// The stall wait.
    pub fn stall_timeout(&self) -> Duration {
        self.duration(ffi::kofudile_stall_timeout)
    }

    /// What the stall wait does not decay below.
    pub fn stall_decay_floor(&self) -> Duration {
        self.duration(ffi::kofudile_stall_decay_floor)
    }

    /// The mean time in ms between advances of the front.
    pub fn front_interval_ewma_ms(&self) -> Option<u64> {
        perhaps(self.read(ffi::kofudile_front_interval_ewma_ms))
    }

    /// The peer that won the last race.
    pub fn preferred_peer(&self) -> Option<Seat> {
        perhaps(self.read(ffi::kofudile_preferred_peer)).map(|seat| seat as Seat)
    }

    /// A race that is worth while now.
    pub fn prefix_probe_plan(&self) -> Option<PrefixProbePlan> {
        let plan = self.read(ffi::kofudile_prefix_probe_plan);
        if answered(plan.refused, plan.present) == 0 {
            return None;
        }
        let hashes = plan.hashes.into_iter().take(plan.count as usize).map(Hash256::of).collect();
        Some(PrefixProbePlan { owner: plan.owner as Seat, hashes, end_height: plan.end_height as u32 })
    }

    /// When the running prefix race began.
    pub fn active_prefix_probe_started_at(&self) -> Option<Instant> {
        perhaps(self.read(ffi::kofudile_active_prefix_probe_started_at)).map(|clock| self.moment(clock))
    }

    /// Whether the source races for this hash in the prefix race.
    pub fn probe_offered(&self, source: Seat, hash: &Hash256) -> bool {
        // SAFETY: as above.
        truth(unsafe { ffi::kofudile_probe_offered(self.words().as_ptr(), WORDS, source.into(), hash.flat()) })
    }

    /// Whether the source is the alternate in the race for this cold front.
    pub fn hedge_offered(&self, source: Seat, hash: &Hash256) -> bool {
        // SAFETY: as above.
        truth(unsafe { ffi::kofudile_hedge_offered(self.words().as_ptr(), WORDS, source.into(), hash.flat()) })
    }
}

impl DownloadWindow {
    /// A query that takes the words alone.
    fn read<T>(&self, query: unsafe extern "C" fn(ffi::Lent, usize) -> T) -> T {
        // SAFETY: as above.
        unsafe { query(self.words().as_ptr(), WORDS) }
    }

    fn number(&self, query: unsafe extern "C" fn(ffi::Lent, usize) -> ffi::Number) -> u64 {
        let said = self.read(query);
        answered(said.refused, said.value)
    }

    fn size(&self, query: unsafe extern "C" fn(ffi::Lent, usize) -> ffi::Number) -> usize {
        self.number(query) as usize
    }

    fn duration(&self, query: unsafe extern "C" fn(ffi::Lent, usize) -> ffi::Number) -> Duration {
        Duration::from_nanos(self.number(query))
    }
}

fn truth(said: ffi::Number) -> bool {
    answered(said.refused, said.value == 1)
}

fn perhaps(said: ffi::Perhaps) -> Option<u64> {
    answered(said.refused, (said.present == 1).then_some(said.value))
}

fn perhaps_pair(said: ffi::PerhapsPair) -> Option<(u64, u64)> {
    answered(said.refused, (said.present == 1).then_some((said.first, said.second)))
}
