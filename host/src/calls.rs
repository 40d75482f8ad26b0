use std::fmt;
use std::time::{Duration, Instant};

use crate::ffi;
use crate::types::{
    BlameReason, BlockedContext, BlockedDecision, Entry, Hash256, Headroom, OwnedFetch, Reason, Refusal, RejectDelivery, Release,
    Result, Seat, Staged, SyncBudget, answered, nanoseconds,
};

pub(crate) const WORDS: usize = 4096;
pub(crate) const PLACES: usize = 256;
/// The word of the last accepted clock (docs/LAYOUT.md).
pub(crate) const LAST_CLOCK: usize = 3586;
const SEATS: usize = 256;

const BLANK: ffi::Release =
    ffi::Release { entry: ffi::Entry { hash: ffi::Hash([0; 4]), owner: 0, time: 0, height: 0, estimate: 0 }, reason: 0 };

/// The window: what was asked for and is not in yet.
///
/// It owns the 4,096 words that the library works on, and the report of what the last accepted call let go ([`released`](Self::released); queries
/// do not count).
/// A method that the library can refuse answers a [`Result`]; a refused call changed nothing. A moment before the last accepted one
/// ([`last_clock`](Self::last_clock)) is refused ([`Refusal::Clock`]), in calls and in queries. The other methods answer plain values.
#[derive(Clone)]
pub struct DownloadWindow {
    words: Box<[u64; WORDS]>,
    report: Box<[ffi::Release; PLACES]>,
    /// How many of the report's places the last accepted call filled.
    places: usize,
    /// The moment at which the library's clock reads 0.
    clock_zero: Instant,
    /// A request's list as the library takes it; kept for its memory.
    hashes: Vec<u64>,
    heights: Vec<u32>,
}

/// Openings.
impl DownloadWindow {
    /// An empty window. `keys`: for each seat the number of the address behind it; seats of one address cool together.
    ///
    /// # Errors
    /// [`Refusal::Settings`]
    pub fn new(budget: SyncBudget, keys: &[u8; SEATS], now: Instant) -> Result<Self> {
        let mut window = Self::over(boxed(0), now);
        let keys = keys.map(u64::from);
        let (w, n) = window.lend();
        // SAFETY: the words are ours and lent for this call alone, as in every call below.
        let refused = unsafe { ffi::kofudile_open(w, n, budget.flat(), keys.as_ptr(), keys.len(), 0) };
        Refusal::unless(refused, || window)
    }

    /// The window that these words hold, saved from [`words`](Self::words); `clock_zero` is the moment that was
    /// [`clock_zero`](Self::clock_zero) then.
    ///
    /// The words hold times counted from that moment, and an `Instant` cannot be saved: save `clock_zero().elapsed()` with the words, and hand in
    /// `Instant::now() - elapsed`. The time between counts as none then. With a later moment, such as `Instant::now()`, every call that takes one
    /// is refused ([`Refusal::Clock`]) until the clock has caught up with the saved one.
    ///
    /// # Errors
    /// [`Refusal::NoWindow`]; [`Refusal::Clock`] where the saved last clock, counted from `clock_zero`, is past what an `Instant` can be.
    pub fn from_words(words: Box<[u64; WORDS]>, clock_zero: Instant) -> Result<Self> {
        let window = Self::over(words, clock_zero);
        // SAFETY: as in `new`.
        let last = unsafe { ffi::kofudile_pending_len(window.words.as_ptr(), WORDS) };
        Refusal::unless(last.refused, || ())?;
        clock_zero.checked_add(Duration::from_nanos(window.words[LAST_CLOCK])).map(|_| window).ok_or(Refusal::Clock)
    }

    /// The words, for saving; docs/LAYOUT.md says what each means.
    pub fn words(&self) -> &[u64; WORDS] {
        &self.words
    }

    /// The moment from which times in the words count.
    pub fn clock_zero(&self) -> Instant {
        self.clock_zero
    }

    fn over(words: Box<[u64; WORDS]>, clock_zero: Instant) -> Self {
        Self { words, report: boxed(BLANK), places: 0, clock_zero, hashes: Vec::new(), heights: Vec::new() }
    }
}

/// Requests.
impl DownloadWindow {
    /// The host sent a request: its entries, hash and height, are pending from now. The frontier is raised to `next_request_height`. The
    /// headroom is the one with the entries in. Answers whether there is room for more.
    ///
    /// # Errors
    /// [`Refusal::Clock`], [`Refusal::Duplicate`], [`Refusal::TooMany`]
    pub fn mark_requested(
        &mut self,
        headroom: Headroom,
        owner: Seat,
        entries: &[(Hash256, u32)],
        next_request_height: u32,
        now: Instant,
    ) -> Result<bool> {
        self.hashes.clear();
        self.heights.clear();
        for (hash, height) in entries {
            self.hashes.extend(hash.words());
            self.heights.push(*height);
        }
        let clock = self.clock(now);
        let (w, n) = self.lend();
        // SAFETY: the lists are the window's own, apart from the words, and live through the call.
        let said = unsafe {
            ffi::kofudile_mark_requested_words(
                w,
                n,
                owner.into(),
                self.hashes.as_ptr(),
                self.hashes.len(),
                self.heights.as_ptr(),
                self.heights.len(),
                next_request_height,
                headroom.bytes as u64,
                headroom.blocks as u64,
                clock,
            )
        };
        self.kept(said.refused)?;
        Ok(said.value == 1)
    }

    /// The host would fetch one block out of turn; `is_staged`: whether its body is staged. Only after [`OwnedFetch::Asked`] is a message to be sent.
    ///
    /// # Errors
    /// [`Refusal::Clock`]
    pub fn mark_owned_fetch(
        &mut self,
        headroom: Headroom,
        is_staged: bool,
        owner: Seat,
        hash: Hash256,
        height: u32,
        now: Instant,
    ) -> Result<OwnedFetch> {
        let clock = self.clock(now);
        let (w, n) = self.lend();
        // SAFETY: as in `new`.
        let said = unsafe {
            ffi::kofudile_mark_owned_fetch(
                w,
                n,
                owner.into(),
                hash.flat(),
                height,
                is_staged,
                headroom.bytes as u64,
                headroom.blocks as u64,
                clock,
            )
        };
        self.kept(said.refused)?;
        Ok(match said.value {
            0 => OwnedFetch::Held,
            1 => OwnedFetch::Staged,
            2 => OwnedFetch::Asked,
            _ => OwnedFetch::NoCapacity,
        })
    }
}

/// Deliveries.
impl DownloadWindow {
    /// A body came: its entry goes, whoever sent it; the source, if there is one, is credited, which may decide a race and let the losers' entries go;
    /// the mean moves. Answers the height at which it was pending.
    ///
    /// # Errors
    /// [`Refusal::Clock`], [`Refusal::BodySize`]
    pub fn mark_received_from(
        &mut self,
        hash: Hash256,
        bytes: usize,
        source_peer: Option<Seat>,
        now: Instant,
    ) -> Result<Option<u32>> {
        let (clock, (has, source)) = (self.clock(now), perhaps_seat(source_peer));
        let (w, n, r, m) = self.lend_both();
        // SAFETY: words and report are ours and apart, lent for this call alone, as in every call that lets go.
        let said = unsafe { ffi::kofudile_mark_received_from(w, n, r, m, hash.flat(), bytes as u64, has, source, clock) };
        self.filled(said.refused, said.places)?;
        Ok((said.present == 1).then_some(said.height as u32))
    }

    /// Credits the source of a body as [`mark_received_from`](Self::mark_received_from) does; the entry and the mean stay.
    ///
    /// # Errors
    /// [`Refusal::Clock`]
    pub fn credit_delivery_from(&mut self, hash: Hash256, source: Seat, pending_height: Option<u32>, now: Instant) -> Result<()> {
        let (clock, (has, height)) = (self.clock(now), perhaps_height(pending_height));
        let (w, n, r, m) = self.lend_both();
        // SAFETY: as in `mark_received_from`.
        let said = unsafe { ffi::kofudile_credit_delivery_from(w, n, r, m, hash.flat(), source.into(), has, height, clock) };
        self.filled(said.refused, said.places)
    }

    /// The source sent what was there already: it is no longer watched for this hash.
    pub fn credit_duplicate_delivery(&mut self, hash: Hash256, source: Seat) {
        let (w, n) = self.lend();
        // SAFETY: as in `new`.
        let refused = unsafe { ffi::kofudile_credit_duplicate_delivery(w, n, hash.flat(), source.into()) };
        answered(refused, ());
        self.places = 0;
    }

    /// A body was no good: if its source owned the entry, the entry goes.
    ///
    /// # Errors
    /// [`Refusal::Clock`]
    pub fn reject_delivery(&mut self, hash: Hash256, source_peer: Option<Seat>, now: Instant) -> Result<RejectDelivery> {
        let (clock, (has, source)) = (self.clock(now), perhaps_seat(source_peer));
        let (w, n, r, m) = self.lend_both();
        // SAFETY: as in `mark_received_from`.
        let said = unsafe { ffi::kofudile_reject_delivery(w, n, r, m, hash.flat(), has, source, clock) };
        self.filled(said.refused, said.places)?;
        Ok(if said.released == 1 { RejectDelivery::ReleasedPending } else { RejectDelivery::DiscardedUnsolicited })
    }
}

/// Letting go.
impl DownloadWindow {
    /// What the last accepted call let go: the delivered entry first, the others by rising hash; none after a call that lets nothing go. Queries
    /// and refused calls leave it, so read it after accepted calls alone.
    pub fn released(&self) -> impl ExactSizeIterator<Item = Release> + '_ {
        self.report[..self.places].iter().map(|release| {
            let ffi::Entry { hash, owner, time, height, estimate } = release.entry;
            let entry = Entry {
                hash: Hash256::of(hash),
                owner: owner as Seat,
                requested_at: self.moment(time),
                height: height as u32,
                estimated_bytes: estimate as usize,
            };
            Release { entry, reason: Reason::of(release.reason) }
        })
    }

    /// The sweep: entries of owners whose time is out, and entries passed over, go. Answers how many.
    ///
    /// # Errors
    /// [`Refusal::Clock`]
    pub fn expire_pending(&mut self, now: Instant) -> Result<usize> {
        let clock = self.clock(now);
        let (w, n, r, m) = self.lend_both();
        // SAFETY: as in `mark_received_from`.
        let said = unsafe { ffi::kofudile_expire_pending(w, n, r, m, clock) };
        self.filled(said.refused, said.places)?;
        Ok(self.places)
    }

    /// The block is to be asked again: its entry, if any, goes; the frontier is lowered to the height too, entry or none.
    ///
    /// # Errors
    /// [`Refusal::Clock`]
    pub fn requeue_for_retry(&mut self, hash: &Hash256, height: Option<u32>, now: Instant) -> Result<()> {
        let (clock, (has, height)) = (self.clock(now), perhaps_height(height));
        let (w, n, r, m) = self.lend_both();
        // SAFETY: as in `mark_received_from`.
        let said = unsafe { ffi::kofudile_requeue_for_retry(w, n, r, m, hash.flat(), has, height, clock) };
        self.filled(said.refused, said.places)
    }

    /// The block is no longer wanted: its entry, if any, goes; the frontier stays.
    ///
    /// # Errors
    /// [`Refusal::Clock`]
    pub fn release_pending(&mut self, hash: &Hash256, now: Instant) -> Result<()> {
        let clock = self.clock(now);
        let (w, n, r, m) = self.lend_both();
        // SAFETY: as in `mark_received_from`.
        let said = unsafe { ffi::kofudile_release_pending(w, n, r, m, hash.flat(), clock) };
        self.filled(said.refused, said.places)
    }

    /// Every entry below the height goes; the frontier stays. What is staged below it is the host's to drop.
    ///
    /// # Errors
    /// [`Refusal::Clock`]
    pub fn retire_before(&mut self, height: u32, now: Instant) -> Result<()> {
        let clock = self.clock(now);
        let (w, n, r, m) = self.lend_both();
        // SAFETY: as in `mark_received_from`.
        let said = unsafe { ffi::kofudile_retire_before(w, n, r, m, height, clock) };
        self.filled(said.refused, said.places)
    }

    /// Seats that are not owned are gone: their entries go, and races forget them. Asked once of each seat.
    pub fn retain_owned_by(&mut self, owns: impl Fn(Seat) -> bool) {
        let flags: [u64; SEATS] = std::array::from_fn(|seat| owns(seat as Seat).into());
        let (w, n, r, m) = self.lend_both();
        // SAFETY: as in `mark_received_from`.
        let said = unsafe { ffi::kofudile_retain_owned_by(w, n, r, m, flags.as_ptr(), flags.len()) };
        self.places = answered(said.refused, said.places as usize);
    }
}

/// Peers, races, the look at a blocked window.
impl DownloadWindow {
    /// The address behind the source cools from now on.
    ///
    /// # Errors
    /// [`Refusal::Clock`]
    pub fn mark_peer_unresponsive(&mut self, source: Seat, now: Instant) -> Result<()> {
        let clock = self.clock(now);
        let (w, n) = self.lend();
        // SAFETY: as in `new`.
        let refused = unsafe { ffi::kofudile_mark_peer_unresponsive(w, n, source.into(), clock) };
        self.kept(refused)
    }

    /// The host asked the alternates too for the blocks of [`prefix_probe_plan`](Self::prefix_probe_plan): the race begins. Does nothing if there
    /// is no alternate, or if owner and hashes are not those of the plan as it is now, and answers `Ok` all the same:
    /// [`active_prefix_probe_started_at`](Self::active_prefix_probe_started_at) says whether it began.
    ///
    /// # Errors
    /// [`Refusal::Clock`], [`Refusal::Peer`] (more than 256 alternates)
    pub fn confirm_prefix_probe(&mut self, owner: Seat, hashes: &[Hash256], alternates: &[Seat], now: Instant) -> Result<()> {
        let given: Vec<u64> = hashes.iter().flat_map(|hash| hash.words()).collect();
        let alternates: Vec<u64> = alternates.iter().copied().map(u64::from).collect();
        let clock = self.clock(now);
        let (w, n) = self.lend();
        // SAFETY: as in `new`; the lists live through the call.
        let refused = unsafe {
            ffi::kofudile_confirm_prefix_probe_words(
                w,
                n,
                owner.into(),
                given.as_ptr(),
                given.len(),
                alternates.as_ptr(),
                alternates.len(),
                clock,
            )
        };
        self.kept(refused)
    }

    /// The host asked the alternate too for the block of [`BlockedDecision::HedgeColdFront`]. Does nothing if the window waits for another, or hedged
    /// two fronts already, and answers `Ok` all the same: [`hedge_offered`](Self::hedge_offered) of alternate and hash says whether it began.
    pub fn confirm_cold_front_hedge(&mut self, owner: Seat, alternate: Seat, hash: Hash256) {
        let (w, n) = self.lend();
        // SAFETY: as in `new`.
        let refused = unsafe { ffi::kofudile_confirm_cold_front_hedge(w, n, owner.into(), alternate.into(), hash.flat()) };
        answered(refused, ());
        self.places = 0;
    }

    /// The look at a blocked window, to be made again and again: what to do.
    ///
    /// # Errors
    /// [`Refusal::Clock`]
    pub fn observe_blocked(&mut self, context: BlockedContext, staged: Staged, now: Instant) -> Result<BlockedDecision> {
        let clock = self.clock(now);
        let ((has_next, next), (has_highest, highest)) =
            (perhaps_height(context.next_apply_height), perhaps_height(staged.highest));
        let frontier = context.frontier_hash.unwrap_or(Hash256([0; 32])).flat();
        let (w, n) = self.lend();
        // SAFETY: as in `new`.
        let said = unsafe {
            ffi::kofudile_observe_blocked(
                w,
                n,
                has_next,
                next,
                context.frontier_hash.is_some(),
                frontier,
                context.apply_side_busy,
                staged.blocks as u64,
                has_highest,
                highest,
                clock,
            )
        };
        let (owner, hash) = (said.owner as Seat, Hash256::of(said.hash));
        self.kept(said.refused)?;
        Ok(match said.decision {
            1 => BlockedDecision::Blame { owner, reason: BlameReason::Staller },
            2 => BlockedDecision::Blame { owner, reason: BlameReason::PendingTimeout },
            3 => {
                let suppressed_for = Duration::from_nanos(said.suppressed);
                BlockedDecision::EvictStaged { height: said.height as u32, hash, suppressed_for }
            }
            4 => BlockedDecision::HedgeColdFront { owner, front_hash: hash },
            _ => BlockedDecision::None,
        })
    }

    /// So many peers may be asked. With `min_peers_for_fanout` of them fan-out engages, unless a prefix race is younger than
    /// `stall_timeout_initial`; with two fewer it ends. While it is engaged no prefix race runs.
    ///
    /// # Errors
    /// [`Refusal::Clock`]
    pub fn set_fanout_eligible_peers(&mut self, count: usize, now: Instant) -> Result<()> {
        let clock = self.clock(now);
        let (w, n) = self.lend();
        // SAFETY: as in `new`.
        let refused = unsafe { ffi::kofudile_set_fanout_eligible_peers(w, n, count as u64, clock) };
        self.kept(refused)
    }

    /// Forgets the winner of the last race.
    pub fn clear_preferred_peer(&mut self) {
        let (w, n) = self.lend();
        // SAFETY: as in `new`.
        let refused = unsafe { ffi::kofudile_clear_preferred_peer(w, n) };
        answered(refused, ());
        self.places = 0;
    }
}

impl DownloadWindow {
    fn lend(&mut self) -> (ffi::Words, usize) {
        (self.words.as_mut_ptr(), WORDS)
    }

    pub(crate) fn lend_both(&mut self) -> (ffi::Words, usize, ffi::Report, usize) {
        (self.words.as_mut_ptr(), WORDS, self.report.as_mut_ptr(), PLACES)
    }

    /// After a call that lets nothing go: there is no report, unless it was refused.
    fn kept(&mut self, refused: u64) -> Result<()> {
        self.filled(refused, 0)
    }

    /// After a call that lets go: its report counts from now, unless it was refused.
    pub(crate) fn filled(&mut self, refused: u64, places: u64) -> Result<()> {
        Refusal::unless(refused, || self.places = places as usize)
    }

    /// The library's clock. A moment before its start is beyond every limit, and so refused as a clock that went back.
    pub(crate) fn clock(&self, now: Instant) -> u64 {
        now.checked_duration_since(self.clock_zero).map_or(u64::MAX, nanoseconds)
    }

    /// No time in the words is past the last clock, and that is a moment: `from_words` sees to it, and later ones came as moments. So
    /// the sum is there.
    pub(crate) fn moment(&self, clock: u64) -> Instant {
        self.clock_zero.checked_add(Duration::from_nanos(clock)).unwrap_or(self.clock_zero)
    }
}

impl fmt::Debug for DownloadWindow {
    fn fmt(&self, formatter: &mut fmt::Formatter<'_>) -> fmt::Result {
        formatter
            .debug_struct("DownloadWindow")
            .field("pending_len", &self.pending_len())
            .field("pending_bytes", &self.pending_bytes())
            .field("request_cursor", &self.request_cursor())
            .finish_non_exhaustive()
    }
}

/// An array on the heap that never stood on the stack.
fn boxed<T: Copy, const N: usize>(value: T) -> Box<[T; N]> {
    let Ok(array) = vec![value; N].into_boxed_slice().try_into() else { unreachable!("it has N elements") };
    array
}

/// A missing one is not read.
fn perhaps_seat(seat: Option<Seat>) -> (bool, u64) {
    (seat.is_some(), seat.unwrap_or(0).into())
}

fn perhaps_height(height: Option<u32>) -> (bool, u32) {
    (height.is_some(), height.unwrap_or(0))
}
