//! The library, as a host in C or Rust calls it.

use crate::subject::{Entry, Lent as LentLists, SETTINGS, Subject, counts_with};

#[repr(C)]
#[derive(Clone, Copy)]
pub struct Hash([u64; 4]);

#[repr(C)]
#[derive(Clone, Copy)]
struct Release([u64; 9]);

#[repr(C)]
struct Settings([u64; 12]);

#[repr(C)]
struct Two {
    refused: u64,
    value: u64,
}

#[repr(C)]
struct Three {
    refused: u64,
    first: u64,
    second: u64,
}

#[repr(C)]
struct Four {
    refused: u64,
    places: u64,
    present: u64,
    height: u64,
}

#[repr(C)]
struct Blocked {
    refused: u64,
    decision: u64,
    others: [u64; 7],
}

#[repr(C)]
#[derive(Default)]
struct Next {
    refused: u64,
    places: u64,
    count: u64,
    next_height: u64,
}

type Words = *mut u64;
type Lent = *const u64;
type Report = *mut Release;

#[rustfmt::skip]
unsafe extern "C" {
    fn kofudile_open(w: Words, n: usize, settings: Settings, keys: Lent, keys_len: usize, clock: u64) -> u64;
    fn kofudile_mark_requested_words(w: Words, n: usize, owner: u64, hash_words: Lent, hash_words_len: usize, heights: *const u32, heights_len: usize, next: u32, byte_headroom: u64, count_headroom: u64, clock: u64) -> Two;
    fn kofudile_mark_owned_fetch(w: Words, n: usize, owner: u64, hash: Hash, height: u32, is_staged: bool, byte_headroom: u64, count_headroom: u64, clock: u64) -> Two;
    fn kofudile_mark_received_from(w: Words, n: usize, r: Report, places: usize, hash: Hash, bytes: u64, has_source: bool, source: u64, clock: u64) -> Four;
    fn kofudile_reject_delivery(w: Words, n: usize, r: Report, places: usize, hash: Hash, has_source: bool, source: u64, clock: u64) -> Three;
    fn kofudile_expire_pending(w: Words, n: usize, r: Report, places: usize, clock: u64) -> Two;
    fn kofudile_requeue_for_retry(w: Words, n: usize, r: Report, places: usize, hash: Hash, has_height: bool, height: u32, clock: u64) -> Two;
    fn kofudile_release_pending(w: Words, n: usize, r: Report, places: usize, hash: Hash, clock: u64) -> Two;
    fn kofudile_retire_before(w: Words, n: usize, r: Report, places: usize, height: u32, clock: u64) -> Two;
    fn kofudile_retain_owned_by(w: Words, n: usize, r: Report, places: usize, flags: Lent, flags_len: usize) -> Two;
    fn kofudile_mark_peer_unresponsive(w: Words, n: usize, source: u64, clock: u64) -> u64;
    fn kofudile_observe_blocked(w: Words, n: usize, has_next: bool, next: u32, has_frontier: bool, frontier: Hash, busy: bool, staged: u64, has_highest: bool, highest: u32, clock: u64) -> Blocked;
    fn kofudile_expired_pending_capacity(w: Lent, n: usize, clock: u64) -> Three;
    fn kofudile_contains_pending(w: Lent, n: usize, hash: Hash) -> Two;
    fn kofudile_pending_count_for(w: Lent, n: usize, seat: u64) -> Two;
    fn kofudile_has_request_capacity(w: Lent, n: usize, byte_headroom: u64, count_headroom: u64) -> Two;
    fn kofudile_max_pending_blocks(w: Lent, n: usize) -> Two;
    fn kofudile_pending_len(w: Lent, n: usize) -> Two;
    fn kofudile_request_cursor(w: Lent, n: usize) -> Two;
    fn kofudile_next_peer_request_words(w: Words, n: usize, r: Report, places: usize, plan_hash_words: Words, plan_hash_words_len: usize, plan_heights: *mut u32, plan_heights_len: usize, source: u64, chain_words: Lent, chain_words_len: usize, tip: u32, start: u32, best: u32, floor: u32, staged_words: Lent, staged_words_len: usize, refused_words: Lent, refused_words_len: usize, exhausted: bool, byte_headroom: u64, count_headroom: u64, clock: u64) -> Next;
}

/// On a page of its own: times depend on how the words lie.
#[repr(align(4096))]
struct Page([u64; 4096]);

pub struct Ours {
    words: Box<Page>,
    report: Vec<Release>,
    /// Lent for a plan: its hashes and heights; and what the last one answered.
    plan_hashes: Vec<u64>,
    plan_heights: Vec<u32>,
    planned: Next,
}

/// A plan's lists in words.
pub struct Lists {
    chain: Vec<u64>,
    tip: u32,
    start: u32,
    staged: Vec<u64>,
    refused: Vec<u64>,
}

pub struct Request {
    owner: u64,
    hashes: Vec<u64>,
    heights: Vec<u32>,
    next: u32,
}

const N: usize = 4096;
const PLACES: usize = 256;
const FREE: u64 = u64::MAX;

impl Ours {
    pub fn over(words: &[u64]) -> Self {
        let mut page = Box::new(Page([0; N]));
        page.0.copy_from_slice(words);
        Self {
            words: page,
            report: vec![Release([0; 9]); PLACES],
            plan_hashes: vec![0; 4 * PLACES],
            plan_heights: vec![0; PLACES],
            planned: Next::default(),
        }
    }

    pub fn words(&self) -> &[u64] {
        &self.words.0
    }

    /// The cheapest query: the check of the words, and one of them read.
    #[inline(always)]
    pub fn check(&self) -> bool {
        (unsafe { kofudile_max_pending_blocks(self.words.0.as_ptr(), N) }).refused == 0
    }

    #[inline(always)]
    fn w(&mut self) -> Words {
        self.words.0.as_mut_ptr()
    }

    #[inline(always)]
    fn q(&self) -> Lent {
        self.words.0.as_ptr()
    }
}

/// A refused call would be measured in vain.
#[inline(always)]
fn accepted(refused: u64) {
    assert_eq!(refused, 0, "refused");
}

impl Subject for Ours {
    type Hash = Hash;
    type Peer = u64;
    type Moment = u64;
    type Request = Request;
    type Lists = Lists;
    type Kept = Vec<u64>;

    fn open_with(batch_limit: usize) -> Self {
        let mut ours = Self::over(&[0; N]);
        let (counts, durations) = (counts_with(batch_limit), SETTINGS.1);
        let mut settings = [0; 12];
        for (setting, value) in settings.iter_mut().zip(counts.iter().map(|count| *count as u64).chain(durations)) {
            *setting = value;
        }
        let keys: [u64; 256] = std::array::from_fn(|seat| seat as u64);
        accepted(unsafe { kofudile_open(ours.w(), N, Settings(settings), keys.as_ptr(), 256, 0) });
        ours
    }

    fn hash(bytes: [u8; 32]) -> Hash {
        Hash(words_of(&bytes))
    }

    fn peer(seat: u8) -> u64 {
        seat.into()
    }

    fn moment(&self, clock: u64) -> u64 {
        clock
    }

    fn prepare_with(owner: u8, entries: &[Entry], next: u32) -> Request {
        Request {
            owner: owner.into(),
            hashes: entries.iter().flat_map(|(hash, _)| words_of(hash)).collect(),
            heights: entries.iter().map(|(_, height)| *height).collect(),
            next,
        }
    }

    #[inline(always)]
    fn mark_requested(&mut self, request: &Request, now: u64) -> u64 {
        let Request { owner, hashes, heights, next } = request;
        let (w, h, g) = (self.w(), hashes.as_ptr(), heights.as_ptr());
        let said =
            unsafe { kofudile_mark_requested_words(w, N, *owner, h, hashes.len(), g, heights.len(), *next, FREE, FREE, now) };
        accepted(said.refused);
        said.value
    }

    #[inline(always)]
    fn mark_owned_fetch(&mut self, owner: u64, hash: Hash, height: u32, now: u64) -> u64 {
        let said = unsafe { kofudile_mark_owned_fetch(self.w(), N, owner, hash, height, false, FREE, FREE, now) };
        accepted(said.refused);
        (said.value < 3).into()
    }

    #[inline(always)]
    fn mark_received_from(&mut self, hash: Hash, bytes: usize, source: u64, now: u64) -> u64 {
        let (w, r) = (self.w(), self.report.as_mut_ptr());
        let said = unsafe { kofudile_mark_received_from(w, N, r, PLACES, hash, bytes as u64, true, source, now) };
        accepted(said.refused);
        said.present * (1 + said.height)
    }

    #[inline(always)]
    fn reject_delivery(&mut self, hash: Hash, source: u64, now: u64) -> u64 {
        let (w, r) = (self.w(), self.report.as_mut_ptr());
        let said = unsafe { kofudile_reject_delivery(w, N, r, PLACES, hash, true, source, now) };
        accepted(said.refused);
        said.second
    }

    #[inline(always)]
    fn release_pending(&mut self, hash: Hash, now: u64) -> u64 {
        let (w, r) = (self.w(), self.report.as_mut_ptr());
        accepted(unsafe { kofudile_release_pending(w, N, r, PLACES, hash, now) }.refused);
        0
    }

    #[inline(always)]
    fn requeue_for_retry(&mut self, hash: Hash, now: u64) -> u64 {
        let (w, r) = (self.w(), self.report.as_mut_ptr());
        accepted(unsafe { kofudile_requeue_for_retry(w, N, r, PLACES, hash, false, 0, now) }.refused);
        0
    }

    #[inline(always)]
    fn expire_pending(&mut self, now: u64) -> u64 {
        let (w, r) = (self.w(), self.report.as_mut_ptr());
        let said = unsafe { kofudile_expire_pending(w, N, r, PLACES, now) };
        accepted(said.refused);
        said.value
    }

    #[inline(always)]
    fn retire_before(&mut self, height: u32, now: u64) -> u64 {
        let (w, r) = (self.w(), self.report.as_mut_ptr());
        accepted(unsafe { kofudile_retire_before(w, N, r, PLACES, height, now) }.refused);
        0
    }

    #[inline(always)]
    fn retain_owned_by(&mut self, flags: &[u64; 256]) -> u64 {
        let (w, r) = (self.w(), self.report.as_mut_ptr());
        accepted(unsafe { kofudile_retain_owned_by(w, N, r, PLACES, flags.as_ptr(), 256) }.refused);
        0
    }

    #[inline(always)]
    fn mark_peer_unresponsive(&mut self, source: u64, now: u64) -> u64 {
        accepted(unsafe { kofudile_mark_peer_unresponsive(self.w(), N, source, now) });
        0
    }

    #[inline(always)]
    fn observe_blocked(&mut self, next: u32, now: u64) -> u64 {
        let none = Hash([0; 4]);
        let said = unsafe { kofudile_observe_blocked(self.w(), N, true, next, false, none, false, 200, true, 1 << 20, now) };
        accepted(said.refused);
        said.decision
    }

    #[inline(always)]
    fn expired_pending_capacity(&self, now: u64) -> u64 {
        let said = unsafe { kofudile_expired_pending_capacity(self.q(), N, now) };
        accepted(said.refused);
        said.first + said.second
    }

    #[inline(always)]
    fn contains_pending(&self, hash: Hash) -> u64 {
        unsafe { kofudile_contains_pending(self.q(), N, hash) }.value
    }

    #[inline(always)]
    fn pending_count_for(&self, source: u64) -> u64 {
        unsafe { kofudile_pending_count_for(self.q(), N, source) }.value
    }

    #[inline(always)]
    fn has_request_capacity(&self) -> u64 {
        unsafe { kofudile_has_request_capacity(self.q(), N, FREE, FREE) }.value
    }

    #[inline(always)]
    fn max_pending_blocks(&self) -> u64 {
        unsafe { kofudile_max_pending_blocks(self.q(), N) }.value
    }

    fn pending_len(&self) -> u64 {
        unsafe { kofudile_pending_len(self.q(), N) }.value
    }

    fn lists(lent: &LentLists) -> Lists {
        let words = |hashes: &[[u8; 32]]| hashes.iter().flat_map(words_of).collect();
        Lists {
            chain: words(&lent.chain),
            tip: lent.chain.len() as u32 - 1,
            start: lent.start,
            staged: words(&lent.staged),
            refused: words(&lent.refused),
        }
    }

    fn kept(&self) -> Vec<u64> {
        self.words.0.to_vec()
    }

    fn restore(&mut self, kept: &Vec<u64>) {
        self.words.0.copy_from_slice(kept);
    }

    #[inline(always)]
    fn next_peer_request(&mut self, lists: &mut Lists, source: u64, now: u64) -> u64 {
        let (w, r) = (self.w(), self.report.as_mut_ptr());
        let (h, g) = (self.plan_hashes.as_mut_ptr(), self.plan_heights.as_mut_ptr());
        let Lists { chain, tip, start, staged, refused } = lists;
        let (c, s, f) = (chain.as_ptr(), staged.as_ptr(), refused.as_ptr());
        self.planned = unsafe {
            kofudile_next_peer_request_words(
                w,
                N,
                r,
                PLACES,
                h,
                4 * PLACES,
                g,
                PLACES,
                source,
                c,
                chain.len(),
                *tip,
                *start,
                *tip,
                0,
                s,
                staged.len(),
                f,
                refused.len(),
                false,
                FREE,
                FREE,
                now,
            )
        };
        accepted(self.planned.refused);
        self.planned.count
    }

    fn planned(&self) -> (Vec<Entry>, u32) {
        let hashes = self.plan_hashes.chunks_exact(4).map(bytes_of);
        let entries = hashes.zip(self.plan_heights.iter().copied()).take(self.planned.count as usize);
        (entries.collect(), self.planned.next_height as u32)
    }

    fn request_cursor(&self) -> u64 {
        unsafe { kofudile_request_cursor(self.q(), N) }.value
    }
}

fn bytes_of(words: &[u64]) -> [u8; 32] {
    let mut bytes = [0; 32];
    bytes.chunks_exact_mut(8).zip(words).for_each(|(bytes, word)| bytes.copy_from_slice(&word.to_be_bytes()));
    bytes
}

fn words_of(hash: &[u8; 32]) -> [u64; 4] {
    let mut words = [0; 4];
    for (word, bytes) in words.iter_mut().zip(hash.chunks_exact(8)) {
        *word = u64::from_be_bytes(bytes.try_into().expect("eight bytes"));
    }
    words
}
