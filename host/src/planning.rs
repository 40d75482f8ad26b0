use std::fmt;
use std::time::Instant;

use crate::DownloadWindow;
use crate::calls::PLACES;
use crate::ffi;
use crate::types::{Hash256, Headroom, Result, Seat};

const HASH_WORDS: usize = 4;

/// The chain's hashes from height 0 up, in place of the original's `BlockTree`. They are held as the library reads them, so that a plan copies none
/// of them, however long the chain is.
///
/// ```
/// use kofudile::{Chain, Hash256};
///
/// let mut chain: Chain = (0..4).map(|height| Hash256([height; 32])).collect();
/// chain.push(Hash256([4; 32]));
/// assert_eq!((chain.len(), chain.tip()), (5, Some(4)));
/// chain.truncate(3);
/// assert_eq!((chain.get(2), chain.get(3)), (Some(Hash256([2; 32])), None));
/// ```
#[derive(Clone, Default, PartialEq, Eq)]
pub struct Chain {
    words: Vec<u64>,
}

impl Chain {
    /// No hash.
    pub const fn new() -> Self {
        Self { words: Vec::new() }
    }

    /// The hash at the next height.
    pub fn push(&mut self, hash: Hash256) {
        self.words.extend(hash.words());
    }

    /// Keeps the heights below `len`, as where the chain turned.
    pub fn truncate(&mut self, len: usize) {
        self.words.truncate(len.saturating_mul(HASH_WORDS));
    }

    /// How many hashes: one more than the tip.
    pub fn len(&self) -> usize {
        self.words.len() / HASH_WORDS
    }

    /// Whether there is none.
    pub fn is_empty(&self) -> bool {
        self.words.is_empty()
    }

    /// The greatest height.
    pub fn tip(&self) -> Option<u32> {
        self.len().checked_sub(1).and_then(|height| u32::try_from(height).ok())
    }

    /// The hash at a height.
    pub fn get(&self, height: u32) -> Option<Hash256> {
        let words = self.words.get(HASH_WORDS * height as usize..)?.first_chunk()?;
        Some(Hash256::of(ffi::Hash(*words)))
    }

    /// The words of the heights up to the tip; all of them where they end below it, which the library refuses.
    fn up_to(&self, tip: u32) -> &[u64] {
        self.words.get(..HASH_WORDS * (tip as usize + 1)).unwrap_or(&self.words)
    }
}

impl Extend<Hash256> for Chain {
    fn extend<T: IntoIterator<Item = Hash256>>(&mut self, hashes: T) {
        self.words.extend(hashes.into_iter().flat_map(Hash256::words));
    }
}

impl FromIterator<Hash256> for Chain {
    fn from_iter<T: IntoIterator<Item = Hash256>>(hashes: T) -> Self {
        let mut chain = Self::new();
        chain.extend(hashes);
        chain
    }
}

impl fmt::Debug for Chain {
    fn fmt(&self, formatter: &mut fmt::Formatter<'_>) -> fmt::Result {
        formatter.debug_struct("Chain").field("tip", &self.tip()).finish_non_exhaustive()
    }
}

/// What is staged, in place of the original's `BlockStager`.
#[derive(Clone, Copy, Debug, PartialEq, Eq)]
pub struct Stager<'a> {
    /// The staged blocks, each once.
    pub hashes: &'a [Hash256],
    /// Their bytes.
    pub bytes: usize,
    /// Bytes that may be staged: the limit of this name in the original's budget. That of blocks, `max_received_blocks`, the window has.
    pub max_received_bytes: usize,
}

impl Stager<'_> {
    /// Nothing is staged, and any number of bytes may be.
    pub const EMPTY: Self = Self { hashes: &[], bytes: 0, max_received_bytes: usize::MAX };

    /// The original's `staged_bytes_exhausted`.
    fn is_exhausted(&self) -> bool {
        self.bytes >= self.max_received_bytes
    }

    /// The original's `staged_byte_headroom` and `staged_count_headroom`.
    fn headroom(&self, max_received_blocks: usize, pending_bytes: usize, pending_blocks: usize) -> Headroom {
        let left = |limit: usize, staged: usize, pending: usize| match staged {
            0 => usize::MAX,
            _ => limit.saturating_sub(staged).saturating_sub(pending),
        };
        Headroom {
            bytes: left(self.max_received_bytes, self.bytes, pending_bytes),
            blocks: left(max_received_blocks, self.hashes.len(), pending_blocks),
        }
    }
}

/// A planned request: what to ask of its owner next. Nothing is pending until it is marked:
/// `window.mark_requested(headroom, request.owner, &request.entries, request.next_request_height, now)`.
#[derive(Clone, Debug, PartialEq, Eq)]
pub struct PeerRequest {
    /// Whom to ask.
    pub owner: Seat,
    /// At least one, hash and height, no hash twice: first those that the sweep let go, by height, then the chain's, by height.
    pub entries: Vec<(Hash256, u32)>,
    /// The frontier once it is marked.
    pub next_request_height: u32,
}

impl PeerRequest {
    /// Whom to ask.
    pub fn owner(&self) -> Seat {
        self.owner
    }

    /// The original's accessor: height, then hash.
    pub fn entries(&self) -> impl ExactSizeIterator<Item = (u32, Hash256)> + '_ {
        self.entries.iter().map(|(hash, height)| (*height, *hash))
    }

    /// How many entries.
    pub fn len(&self) -> usize {
        self.entries.len()
    }

    /// Whether there is none: never of a planned one.
    pub fn is_empty(&self) -> bool {
        self.entries.is_empty()
    }
}

/// Planning.
impl DownloadWindow {
    /// Plans the next request to the source, and opens no entry. Arguments are in the original's order: `chain_tip` is the height up to which the
    /// `chain` counts, `refused` are the hashes that this peer is not to be asked for.
    ///
    /// The sweep is part of it: [`released`](Self::released) has what it let go, also where no request comes of it. A source whose time is out or
    /// whose address cools gets none, and nothing is swept; so it is where staged bytes are at their limit. The headrooms are worked out here, as
    /// the original finds them, which is after the sweep: do not sweep first.
    ///
    /// ```
    /// use kofudile::{Chain, DownloadWindow, Hash256, Stager, default_sync_budget};
    /// use std::time::{Duration, Instant};
    ///
    /// # fn main() -> kofudile::Result<()> {
    /// # let now = Instant::now();
    /// # let keys: [u8; 256] = std::array::from_fn(|seat| seat as u8);
    /// # let mut window = DownloadWindow::new(default_sync_budget(Duration::from_secs(600)), &keys, now)?;
    /// let chain: Chain = (0..=9).map(|height| Hash256([height; 32])).collect();
    /// let staged = [Hash256([2; 32])];
    /// let stager = Stager { hashes: &staged, bytes: 1_000_000, max_received_bytes: 64 << 20 };
    /// let refused = [Hash256([7; 32])];
    /// let request = window.next_peer_request(&stager, 3, 9, 1, 8, 0, &chain, now, &refused)?.expect("there is room");
    /// assert_eq!(request.entries().map(|(height, _)| height).collect::<Vec<_>>(), [1, 3, 4, 5, 6, 8]);
    /// assert_eq!(request.next_request_height, 7); // the refused block is asked of another peer
    /// let headroom = window.headroom(&stager, request.len());
    /// window.mark_requested(headroom, request.owner, &request.entries, request.next_request_height, now)?;
    /// assert_eq!((window.pending_len(), window.request_cursor()), (6, 7));
    /// # Ok(())
    /// # }
    /// ```
    ///
    /// # Errors
    /// [`Refusal::Clock`](crate::Refusal::Clock), [`Refusal::Chain`](crate::Refusal::Chain) (the chain ends below `chain_tip`)
    #[allow(clippy::too_many_arguments)]
    pub fn next_peer_request(
        &mut self,
        stager: &Stager<'_>,
        source: Seat,
        chain_tip: u32,
        request_start_height: u32,
        peer_best_height: u32,
        servable_floor: u32,
        chain: &Chain,
        now: Instant,
        refused: &[Hash256],
    ) -> Result<Option<PeerRequest>> {
        let heights = [chain_tip, request_start_height, peer_best_height, servable_floor];
        self.plan(false, stager, source, heights, chain, now, refused)
    }

    /// The same also of a source whose time is out or whose address cools.
    ///
    /// ```
    /// # use kofudile::{Chain, DownloadWindow, Hash256, Stager, default_sync_budget};
    /// # use std::time::{Duration, Instant};
    /// # fn main() -> kofudile::Result<()> {
    /// # let now = Instant::now();
    /// # let keys: [u8; 256] = std::array::from_fn(|seat| seat as u8);
    /// # let mut window = DownloadWindow::new(default_sync_budget(Duration::from_secs(600)), &keys, now)?;
    /// let chain: Chain = (0..=9).map(|height| Hash256([height; 32])).collect();
    /// window.mark_peer_unresponsive(3, now)?;
    /// assert_eq!(window.next_peer_request(&Stager::EMPTY, 3, 9, 1, 9, 0, &chain, now, &[])?, None);
    /// let request = window.next_peer_request_allowing_retry(&Stager::EMPTY, 3, 9, 1, 9, 0, &chain, now, &[])?;
    /// assert_eq!(request.map(|request| request.len()), Some(9));
    /// # Ok(())
    /// # }
    /// ```
    ///
    /// # Errors
    /// [`Refusal::Clock`](crate::Refusal::Clock), [`Refusal::Chain`](crate::Refusal::Chain) (the chain ends below `chain_tip`)
    #[allow(clippy::too_many_arguments)]
    pub fn next_peer_request_allowing_retry(
        &mut self,
        stager: &Stager<'_>,
        source: Seat,
        chain_tip: u32,
        request_start_height: u32,
        peer_best_height: u32,
        servable_floor: u32,
        chain: &Chain,
        now: Instant,
        refused: &[Hash256],
    ) -> Result<Option<PeerRequest>> {
        let heights = [chain_tip, request_start_height, peer_best_height, servable_floor];
        self.plan(true, stager, source, heights, chain, now, refused)
    }

    /// What may still be staged with so many entries more pending, as the original finds it: 0 for the window as it is, the number of its entries for
    /// a request that is to be marked.
    pub fn headroom(&self, stager: &Stager<'_>, more: usize) -> Headroom {
        let bytes = self.pending_bytes().saturating_add(more.saturating_mul(self.ewma_block_bytes()));
        stager.headroom(self.max_received_blocks(), bytes, self.pending_len().saturating_add(more))
    }

    /// The headroom where the original looks at it, found on a copy that is swept. The plan's own sweep must be the first on these words: a second one
    /// counts fewer active peers, and so has a shorter timeout.
    fn headroom_after_sweep(&self, stager: &Stager<'_>, now: Instant) -> Result<Headroom> {
        if stager.is_exhausted() || (stager.bytes == 0 && stager.hashes.is_empty()) {
            return Ok(Headroom::UNLIMITED);
        }
        let mut swept = self.clone();
        swept.expire_pending(now)?;
        Ok(swept.headroom(stager, 0))
    }

    #[allow(clippy::too_many_arguments)]
    fn plan(
        &mut self,
        allowing_retry: bool,
        stager: &Stager<'_>,
        source: Seat,
        [chain_tip, request_start_height, peer_best_height, servable_floor]: [u32; 4],
        chain: &Chain,
        now: Instant,
        refused: &[Hash256],
    ) -> Result<Option<PeerRequest>> {
        let headroom = self.headroom_after_sweep(stager, now)?;
        let (chain, staged, refused) = (chain.up_to(chain_tip), words_of(stager.hashes), words_of(refused));
        let (mut hashes, mut heights) = ([0; HASH_WORDS * PLACES], [0; PLACES]);
        let form = match allowing_retry {
            false => ffi::kofudile_next_peer_request_words,
            true => ffi::kofudile_next_peer_request_allowing_retry_words,
        };
        let clock = self.clock(now);
        let (w, n, r, m) = self.lend_both();
        // SAFETY: words, report and the plan's lists are ours and apart, lent for this call alone; the other lists live through it.
        let said = unsafe {
            form(
                w,
                n,
                r,
                m,
                hashes.as_mut_ptr(),
                hashes.len(),
                heights.as_mut_ptr(),
                heights.len(),
                source.into(),
                chain.as_ptr(),
                chain.len(),
                chain_tip,
                request_start_height,
                peer_best_height,
                servable_floor,
                staged.as_ptr(),
                staged.len(),
                refused.as_ptr(),
                refused.len(),
                stager.is_exhausted(),
                headroom.bytes as u64,
                headroom.blocks as u64,
                clock,
            )
        };
        self.filled(said.refused, said.places)?;
        let hash = |words: &[u64]| Hash256::of(ffi::Hash([words[0], words[1], words[2], words[3]]));
        let planned = hashes.chunks_exact(HASH_WORDS).map(hash).zip(heights).take(said.count as usize);
        let request = PeerRequest { owner: source, entries: planned.collect(), next_request_height: said.next_height as u32 };
        Ok((said.count > 0).then_some(request))
    }
}

fn words_of(hashes: &[Hash256]) -> Vec<u64> {
    hashes.iter().flat_map(|hash| hash.words()).collect()
}
