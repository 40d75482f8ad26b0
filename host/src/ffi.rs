//! The raw layer: include/kofudile.h as Rust, for a host that keeps the 4,096 words in memory of its own. The header says what each function
//! does, what is lent for how long, and what the caller must keep; every function is `unsafe` for that alone.
#![allow(missing_docs, clippy::missing_safety_doc)]

#[repr(C)]
#[derive(Clone, Copy, Debug, PartialEq, Eq)]
pub struct Hash(pub [u64; 4]);

#[repr(C)]
#[derive(Clone, Copy, Debug, PartialEq, Eq)]
pub struct Entry {
    pub hash: Hash,
    pub owner: u64,
    pub time: u64,
    pub height: u64,
    pub estimate: u64,
}

#[repr(C)]
#[derive(Clone, Copy, Debug, PartialEq, Eq)]
pub struct Release {
    pub entry: Entry,
    pub reason: u64,
}

#[repr(C)]
#[derive(Clone, Copy, Debug, PartialEq, Eq)]
pub struct Settings {
    pub max_pending_blocks: u64,
    pub max_pending_bytes: u64,
    pub max_received_blocks: u64,
    pub max_peer_inflight: u64,
    pub fanout_peer_inflight: u64,
    pub min_peers_for_fanout: u64,
    pub getdata_batch_limit: u64,
    pub block_spacing: u64,
    pub received_timeout: u64,
    pub stall_timeout_initial: u64,
    pub stall_timeout_max: u64,
    pub staller_cooldown: u64,
}

#[repr(C)]
#[derive(Clone, Copy, Debug, PartialEq, Eq)]
pub struct Number {
    pub refused: u64,
    pub value: u64,
}

#[repr(C)]
#[derive(Clone, Copy, Debug, PartialEq, Eq)]
pub struct Pair {
    pub refused: u64,
    pub first: u64,
    pub second: u64,
}

#[repr(C)]
#[derive(Clone, Copy, Debug, PartialEq, Eq)]
pub struct Perhaps {
    pub refused: u64,
    pub present: u64,
    pub value: u64,
}

#[repr(C)]
#[derive(Clone, Copy, Debug, PartialEq, Eq)]
pub struct PerhapsPair {
    pub refused: u64,
    pub present: u64,
    pub first: u64,
    pub second: u64,
}

#[repr(C)]
#[derive(Clone, Copy, Debug, PartialEq, Eq)]
pub struct Gone {
    pub refused: u64,
    pub places: u64,
}

#[repr(C)]
#[derive(Clone, Copy, Debug, PartialEq, Eq)]
pub struct Received {
    pub refused: u64,
    pub places: u64,
    pub present: u64,
    pub height: u64,
}

#[repr(C)]
#[derive(Clone, Copy, Debug, PartialEq, Eq)]
pub struct Rejected {
    pub refused: u64,
    pub places: u64,
    pub released: u64,
}

#[repr(C)]
#[derive(Clone, Copy, Debug, PartialEq, Eq)]
pub struct Blocked {
    pub refused: u64,
    pub decision: u64,
    pub owner: u64,
    pub height: u64,
    pub suppressed: u64,
    pub hash: Hash,
}

#[repr(C)]
#[derive(Clone, Copy, Debug, PartialEq, Eq)]
pub struct Plan {
    pub refused: u64,
    pub present: u64,
    pub owner: u64,
    pub count: u64,
    pub end_height: u64,
    pub hashes: [Hash; 8],
}

#[repr(C)]
#[derive(Clone, Copy, Debug, PartialEq, Eq)]
pub struct NextRequest {
    pub refused: u64,
    pub places: u64,
    pub count: u64,
    pub next_height: u64,
}

pub type Words = *mut u64;
pub type Lent = *const u64;
pub type Report = *mut Release;

unsafe extern "C" {
    pub fn kofudile_abi_1() -> u64;
    pub fn kofudile_open(w: Words, n: usize, settings: Settings, keys: Lent, keys_len: usize, clock: u64) -> u64;
    pub fn kofudile_mark_requested_words(
        w: Words,
        n: usize,
        owner: u64,
        hash_words: Lent,
        hash_words_len: usize,
        heights: *const u32,
        heights_len: usize,
        next: u32,
        byte_headroom: u64,
        count_headroom: u64,
        clock: u64,
    ) -> Number;
    pub fn kofudile_mark_owned_fetch(
        w: Words,
        n: usize,
        owner: u64,
        hash: Hash,
        height: u32,
        is_staged: bool,
        byte_headroom: u64,
        count_headroom: u64,
        clock: u64,
    ) -> Number;
    pub fn kofudile_mark_received_from(
        w: Words,
        n: usize,
        r: Report,
        places: usize,
        hash: Hash,
        bytes: u64,
        has_source: bool,
        source: u64,
        clock: u64,
    ) -> Received;
    pub fn kofudile_credit_delivery_from(
        w: Words,
        n: usize,
        r: Report,
        places: usize,
        hash: Hash,
        source: u64,
        has_height: bool,
        height: u32,
        clock: u64,
    ) -> Gone;
    pub fn kofudile_credit_duplicate_delivery(w: Words, n: usize, hash: Hash, source: u64) -> u64;
    pub fn kofudile_reject_delivery(
        w: Words,
        n: usize,
        r: Report,
        places: usize,
        hash: Hash,
        has_source: bool,
        source: u64,
        clock: u64,
    ) -> Rejected;
    pub fn kofudile_expire_pending(w: Words, n: usize, r: Report, places: usize, clock: u64) -> Gone;
    pub fn kofudile_requeue_for_retry(
        w: Words,
        n: usize,
        r: Report,
        places: usize,
        hash: Hash,
        has_height: bool,
        height: u32,
        clock: u64,
    ) -> Gone;
    pub fn kofudile_release_pending(w: Words, n: usize, r: Report, places: usize, hash: Hash, clock: u64) -> Gone;
    pub fn kofudile_retire_before(w: Words, n: usize, r: Report, places: usize, height: u32, clock: u64) -> Gone;
    pub fn kofudile_retain_owned_by(w: Words, n: usize, r: Report, places: usize, flags: Lent, flags_len: usize) -> Gone;
    pub fn kofudile_mark_peer_unresponsive(w: Words, n: usize, source: u64, clock: u64) -> u64;
    pub fn kofudile_confirm_prefix_probe_words(
        w: Words,
        n: usize,
        owner: u64,
        hash_words: Lent,
        hash_words_len: usize,
        alternates: Lent,
        alternates_len: usize,
        clock: u64,
    ) -> u64;
    pub fn kofudile_confirm_cold_front_hedge(w: Words, n: usize, owner: u64, alternate: u64, hash: Hash) -> u64;
    pub fn kofudile_observe_blocked(
        w: Words,
        n: usize,
        has_next: bool,
        next: u32,
        has_frontier: bool,
        frontier: Hash,
        busy: bool,
        staged: u64,
        has_highest: bool,
        highest: u32,
        clock: u64,
    ) -> Blocked;
    pub fn kofudile_set_fanout_eligible_peers(w: Words, n: usize, eligible: u64, clock: u64) -> u64;
    pub fn kofudile_clear_preferred_peer(w: Words, n: usize) -> u64;
    pub fn kofudile_next_peer_request_words(
        w: Words,
        n: usize,
        r: Report,
        places: usize,
        plan_hash_words: Words,
        plan_hash_words_len: usize,
        plan_heights: *mut u32,
        plan_heights_len: usize,
        source: u64,
        chain_words: Lent,
        chain_words_len: usize,
        tip: u32,
        start: u32,
        best: u32,
        floor: u32,
        staged_words: Lent,
        staged_words_len: usize,
        refused_words: Lent,
        refused_words_len: usize,
        exhausted: bool,
        byte_headroom: u64,
        count_headroom: u64,
        clock: u64,
    ) -> NextRequest;
    pub fn kofudile_next_peer_request_allowing_retry_words(
        w: Words,
        n: usize,
        r: Report,
        places: usize,
        plan_hash_words: Words,
        plan_hash_words_len: usize,
        plan_heights: *mut u32,
        plan_heights_len: usize,
        source: u64,
        chain_words: Lent,
        chain_words_len: usize,
        tip: u32,
        start: u32,
        best: u32,
        floor: u32,
        staged_words: Lent,
        staged_words_len: usize,
        refused_words: Lent,
        refused_words_len: usize,
        exhausted: bool,
        byte_headroom: u64,
        count_headroom: u64,
        clock: u64,
    ) -> NextRequest;

    pub fn kofudile_pending_len(w: Lent, n: usize) -> Number;
    pub fn kofudile_pending_bytes(w: Lent, n: usize) -> Number;
    pub fn kofudile_effective_peer_inflight(w: Lent, n: usize) -> Number;
    pub fn kofudile_active_downloading_peers(w: Lent, n: usize) -> Number;
    pub fn kofudile_stall_decay_floor(w: Lent, n: usize) -> Number;
    pub fn kofudile_request_cursor(w: Lent, n: usize) -> Number;
    pub fn kofudile_ewma_block_bytes(w: Lent, n: usize) -> Number;
    pub fn kofudile_effective_owner_timeout(w: Lent, n: usize) -> Number;
    pub fn kofudile_stall_timeout(w: Lent, n: usize) -> Number;
    pub fn kofudile_max_pending_blocks(w: Lent, n: usize) -> Number;
    pub fn kofudile_min_peers_for_fanout(w: Lent, n: usize) -> Number;
    pub fn kofudile_fanout_active(w: Lent, n: usize) -> Number;
    pub fn kofudile_has_request_capacity(w: Lent, n: usize, byte_headroom: u64, count_headroom: u64) -> Number;
    pub fn kofudile_pending_count_for(w: Lent, n: usize, seat: u64) -> Number;
    pub fn kofudile_is_downloading(w: Lent, n: usize, seat: u64) -> Number;
    pub fn kofudile_contains_pending(w: Lent, n: usize, hash: Hash) -> Number;
    pub fn kofudile_hedge_offered(w: Lent, n: usize, seat: u64, hash: Hash) -> Number;
    pub fn kofudile_probe_offered(w: Lent, n: usize, seat: u64, hash: Hash) -> Number;
    pub fn kofudile_peer_has_expired_pending(w: Lent, n: usize, seat: u64, clock: u64) -> Number;
    pub fn kofudile_peer_in_staller_cooldown(w: Lent, n: usize, seat: u64, clock: u64) -> Number;
    pub fn kofudile_pending_high_water(w: Lent, n: usize) -> Pair;
    pub fn kofudile_expired_pending_capacity(w: Lent, n: usize, clock: u64) -> Pair;
    pub fn kofudile_stalling_peer(w: Lent, n: usize) -> PerhapsPair;
    pub fn kofudile_compute_request_capacity(
        w: Lent,
        n: usize,
        seat: u64,
        byte_headroom: u64,
        count_headroom: u64,
    ) -> PerhapsPair;
    pub fn kofudile_preferred_peer(w: Lent, n: usize) -> Perhaps;
    pub fn kofudile_pending_owner(w: Lent, n: usize, hash: Hash) -> Perhaps;
    pub fn kofudile_owner_queue_start(w: Lent, n: usize, seat: u64) -> Perhaps;
    pub fn kofudile_front_interval_ewma_ms(w: Lent, n: usize) -> Perhaps;
    pub fn kofudile_active_prefix_probe_started_at(w: Lent, n: usize) -> Perhaps;
    pub fn kofudile_prefix_probe_plan(w: Lent, n: usize) -> Plan;

    pub fn kofudile_write_getdata_words(hash_words: Lent, hash_words_len: usize, out: *mut u8, out_len: usize) -> Number;
    pub fn kofudile_read_getdata_words(
        payload: *const u8,
        payload_len: usize,
        hash_words: Words,
        hash_words_len: usize,
    ) -> Number;
}

/// What links must be of this ABI: the linker misses the name where it is not.
#[used]
static ABI_REQUIRED: unsafe extern "C" fn() -> u64 = kofudile_abi_1;

/// Fields of 64 bits without gaps, as the library has them.
const _: () = {
    assert!(size_of::<Hash>() == 32);
    assert!(size_of::<Entry>() == 64);
    assert!(size_of::<Release>() == 72);
    assert!(size_of::<Settings>() == 96);
    assert!(size_of::<Number>() == 16);
    assert!(size_of::<Pair>() == 24);
    assert!(size_of::<Perhaps>() == 24);
    assert!(size_of::<PerhapsPair>() == 32);
    assert!(size_of::<Gone>() == 16);
    assert!(size_of::<Received>() == 32);
    assert!(size_of::<Rejected>() == 24);
    assert!(size_of::<Blocked>() == 72);
    assert!(size_of::<Plan>() == 296);
    assert!(size_of::<NextRequest>() == 32);
};
