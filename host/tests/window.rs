//! Every method through the library, each refusal that a host of this crate can meet, and the report.

use kofudile::{
    BlameReason, BlockedContext, BlockedDecision, Chain, DownloadWindow, Hash256, Headroom, OwnedFetch, Reason, Refusal,
    RejectDelivery, Result, Staged, Stager, SyncBudget, default_sync_budget, fast_sync_budget,
};
use std::time::{Duration, Instant};

const FREE: Headroom = Headroom::UNLIMITED;
const SECOND: Duration = Duration::from_secs(1);

fn budget() -> SyncBudget {
    SyncBudget {
        max_pending_blocks: 256,
        max_pending_bytes: 1 << 40,
        max_received_blocks: 16,
        max_peer_inflight: 128,
        fanout_peer_inflight: 16,
        min_peers_for_fanout: 4,
        getdata_batch_limit: 100,
        block_spacing: 600 * SECOND,
        received_timeout: 60 * SECOND,
        stall_timeout_initial: 2 * SECOND,
        stall_timeout_max: 64 * SECOND,
        staller_cooldown: 64 * SECOND,
    }
}

/// Key 9 is the address of seats 9 and 10.
fn keys() -> [u8; 256] {
    std::array::from_fn(|seat| if seat == 10 { 9 } else { seat as u8 })
}

fn opened() -> (DownloadWindow, Instant) {
    let now = Instant::now();
    (DownloadWindow::new(budget(), &keys(), now).unwrap(), now)
}

/// Hashes fall as heights rise, so that their orders differ.
fn block(height: u32) -> Hash256 {
    let mut bytes = [0xab; 32];
    bytes[..4].copy_from_slice(&(u32::MAX - height).to_be_bytes());
    Hash256(bytes)
}

fn entries(heights: impl IntoIterator<Item = u32>) -> Vec<(Hash256, u32)> {
    heights.into_iter().map(|height| (block(height), height)).collect()
}

/// Seat 1 owns blocks 1 to 4, seat 2 blocks 5 and 6.
fn six() -> (DownloadWindow, Instant) {
    let (mut window, now) = opened();
    assert_eq!(window.mark_requested(FREE, 1, &entries(1..=4), 5, now), Ok(true));
    assert_eq!(window.mark_requested(FREE, 2, &entries(5..=6), 7, now), Ok(true));
    (window, now)
}

fn gone(window: &DownloadWindow) -> Vec<(u32, u8, Reason)> {
    window.released().map(|release| (release.entry.height, release.entry.owner, release.reason)).collect()
}

fn context(next: u32) -> BlockedContext {
    BlockedContext { next_apply_height: Some(next), frontier_hash: None, apply_side_busy: false }
}

const NOTHING_STAGED: Staged = Staged { blocks: 0, highest: None };

#[test]
fn a_fresh_window() {
    let (window, now) = opened();
    assert_eq!((window.pending_len(), window.pending_bytes()), (0, 0));
    assert_eq!((window.request_cursor(), window.ewma_block_bytes()), (1, 262_144));
    assert_eq!((window.max_pending_blocks(), window.min_peers_for_fanout()), (256, 4));
    assert_eq!(window.max_received_blocks(), 16);
    assert_eq!((window.stall_timeout(), window.stall_decay_floor()), (2 * SECOND, 2 * SECOND));
    assert_eq!(window.effective_owner_timeout(), 600 * SECOND);
    assert_eq!((window.preferred_peer(), window.front_interval_ewma_ms()), (None, None));
    assert_eq!((window.prefix_probe_plan(), window.active_prefix_probe_started_at()), (None, None));
    assert_eq!((window.stalling_peer(), window.fanout_active()), (None, false));
    assert_eq!((window.released().len(), window.clock_zero()), (0, now));
    assert!(format!("{window:?}").contains("request_cursor: 1"));
}

#[test]
fn a_request() {
    let (window, now) = six();
    assert_eq!((window.pending_len(), window.pending_bytes()), (6, 6 * 262_144));
    assert_eq!((window.pending_high_water(), window.request_cursor()), ((6, 6 * 262_144), 7));
    assert_eq!((window.contains_pending(&block(4)), window.contains_pending(&block(7))), (true, false));
    assert_eq!((window.pending_owner(&block(5)), window.pending_owner(&block(7))), (Some(2), None));
    assert_eq!((window.pending_count_for(1), window.pending_count_for(3)), (4, 0));
    assert_eq!((window.is_downloading(2), window.is_downloading(3)), (true, false));
    assert_eq!((window.owner_queue_start(1), window.owner_queue_start(3)), (Some(now), None));
    assert_eq!((window.active_downloading_peers(), window.effective_owner_timeout()), (2, 900 * SECOND));
}

#[test]
fn an_empty_request_raises_the_frontier() {
    let (mut window, now) = opened();
    assert_eq!(window.mark_requested(FREE, 1, &[], 40, now), Ok(true));
    assert_eq!((window.request_cursor(), window.is_downloading(1)), (40, false));
}

#[test]
fn capacity() {
    let (mut window, now) = six();
    assert_eq!(window.has_request_capacity(FREE), true);
    assert_eq!(window.has_request_capacity(Headroom { bytes: 262_143, blocks: 1 }), false);
    assert_eq!(window.has_request_capacity(Headroom { bytes: 262_144, blocks: 0 }), false);
    assert_eq!(window.compute_request_capacity(Headroom { bytes: 500_000, blocks: 9 }, 1), Some((9, 500_000)));
    assert_eq!(window.compute_request_capacity(Headroom { bytes: 80, blocks: 9 }, 1), None);
    assert_eq!(window.effective_peer_inflight(), 128);
    window.set_fanout_eligible_peers(5, now).unwrap();
    assert_eq!((window.fanout_active(), window.effective_peer_inflight()), (true, 52));
    window.set_fanout_eligible_peers(2, now).unwrap();
    assert_eq!(window.fanout_active(), false);
}

#[test]
fn a_fetch_out_of_turn() {
    let (mut window, now) = six();
    assert_eq!(window.mark_owned_fetch(FREE, false, 3, block(4), 4, now), Ok(OwnedFetch::Held));
    assert_eq!(window.mark_owned_fetch(FREE, true, 3, block(9), 9, now), Ok(OwnedFetch::Staged));
    assert_eq!(window.mark_owned_fetch(FREE, false, 3, block(9), 9, now), Ok(OwnedFetch::Asked));
    assert_eq!(window.pending_owner(&block(9)), Some(3));
    let full = Headroom { bytes: 0, blocks: 0 };
    assert_eq!(window.mark_owned_fetch(full, false, 3, block(10), 10, now), Ok(OwnedFetch::NoCapacity));
}

#[test]
fn a_delivery_and_its_report() {
    let (mut window, now) = six();
    let later = now + SECOND;
    assert_eq!(window.mark_received_from(block(3), 1_000_000, Some(2), later), Ok(Some(3)));
    let released: Vec<_> = window.released().collect();
    assert_eq!(released.len(), 1);
    let (entry, reason) = (released[0].entry, released[0].reason);
    assert_eq!((entry.hash, entry.owner, entry.requested_at), (block(3), 1, now));
    assert_eq!((entry.height, entry.estimated_bytes, reason), (3, 262_144, Reason::Delivered));
    assert_eq!((window.ewma_block_bytes(), window.pending_len()), (354_376, 5));
    assert_eq!(window.mark_received_from(block(3), 1_000_000, None, later), Ok(None));
    assert_eq!(window.released().len(), 0);
}

/// A call that lets nothing go leaves no report of an earlier one, so that nobody counts that one twice.
fn lets_nothing_go<T: std::fmt::Debug>(call: impl FnOnce(&mut DownloadWindow, Instant) -> Result<T>) {
    let (mut window, now) = six();
    window.retire_before(3, now).unwrap();
    assert_eq!((window.pending_len(), window.released().len()), (4, 2));
    call(&mut window, now).unwrap();
    assert_eq!(window.released().len(), 0);
}

#[test]
fn an_accepted_call_that_lets_nothing_go_empties_the_report() {
    lets_nothing_go(|window, now| window.mark_requested(FREE, 3, &entries([9]), 10, now));
    lets_nothing_go(|window, now| window.mark_owned_fetch(FREE, false, 3, block(9), 9, now));
    lets_nothing_go(|window, now| window.mark_received_from(block(9), 80, Some(3), now));
    lets_nothing_go(|window, now| window.credit_delivery_from(block(9), 3, None, now));
    lets_nothing_go(|window, _| Ok(window.credit_duplicate_delivery(block(9), 3)));
    lets_nothing_go(|window, now| window.reject_delivery(block(9), Some(3), now));
    lets_nothing_go(|window, now| window.expire_pending(now));
    lets_nothing_go(|window, now| window.requeue_for_retry(&block(9), None, now));
    lets_nothing_go(|window, now| window.release_pending(&block(9), now));
    lets_nothing_go(|window, now| window.retire_before(3, now));
    lets_nothing_go(|window, _| Ok(window.retain_owned_by(|_| true)));
    lets_nothing_go(|window, now| window.mark_peer_unresponsive(9, now));
    lets_nothing_go(|window, now| window.confirm_prefix_probe(1, &[], &[], now));
    lets_nothing_go(|window, _| Ok(window.confirm_cold_front_hedge(1, 2, block(1))));
    lets_nothing_go(|window, now| window.observe_blocked(context(1), NOTHING_STAGED, now));
    lets_nothing_go(|window, now| window.set_fanout_eligible_peers(1, now));
    lets_nothing_go(|window, _| Ok(window.clear_preferred_peer()));
}

/// The records as the words hold them, beside what the queries say.
#[test]
fn entries_are_what_is_pending() {
    let (mut window, now) = six();
    window.mark_requested(FREE, 3, &entries([9]), 10, now + SECOND).unwrap();
    let entries: Vec<_> = window.entries().collect();
    assert_eq!((entries.len(), window.entries().len()), (window.pending_len(), 7));
    assert!(entries.windows(2).all(|pair| pair[0].hash < pair[1].hash));
    assert_eq!(entries.iter().map(|entry| entry.estimated_bytes).sum::<usize>(), window.pending_bytes());
    assert!(entries.iter().all(|entry| entry.hash == block(entry.height)));
    assert!(entries.iter().all(|entry| window.pending_owner(&entry.hash) == Some(entry.owner)));
    assert_eq!((entries[0].height, entries[0].requested_at, entries[6].requested_at), (9, now + SECOND, now));
}

#[test]
fn the_last_clock_is_that_of_accepted_calls() {
    let (mut window, now) = six();
    assert_eq!(window.last_clock(), now);
    window.expire_pending(now + SECOND).unwrap();
    window.peer_has_expired_pending(1, now + 2 * SECOND).unwrap();
    assert_eq!(window.expire_pending(now), Err(Refusal::Clock));
    assert_eq!(window.last_clock(), now + SECOND);
}

#[test]
fn the_originals_budgets() {
    let (default, fast) = (default_sync_budget(600 * SECOND), fast_sync_budget(600 * SECOND));
    assert_eq!((default.max_pending_blocks, default.max_pending_bytes), (256, 536_870_912));
    assert_eq!((default.fanout_peer_inflight, default.min_peers_for_fanout), (16, 8));
    assert_eq!(fast, SyncBudget { fanout_peer_inflight: 8, min_peers_for_fanout: 2, ..default });
    assert_eq!(default.with_byte_ceiling(1 << 20).max_pending_bytes, 1 << 20);
    assert_eq!(default.with_byte_ceiling(1 << 30), default);
    assert!(DownloadWindow::new(default, &keys(), Instant::now()).is_ok());
}

#[test]
fn a_query_leaves_the_report() {
    let (mut window, now) = six();
    window.retire_before(3, now).unwrap();
    assert_eq!((window.pending_bytes(), window.peer_has_expired_pending(1, now)), (4 * 262_144, Ok(false)));
    assert_eq!(gone(&window), [(2, 1, Reason::Retired), (1, 1, Reason::Retired)]);
}

#[test]
fn fronts_move_the_pace() {
    let (mut window, now) = six();
    assert_eq!(window.mark_received_from(block(1), 80, Some(1), now), Ok(Some(1)));
    assert_eq!(window.mark_received_from(block(2), 80, Some(1), now + SECOND), Ok(Some(2)));
    assert_eq!(window.front_interval_ewma_ms(), Some(1_000));
    assert_eq!(window.stall_decay_floor(), 2 * SECOND);
}

#[test]
fn credit_and_rejection() {
    let (mut window, now) = six();
    window.credit_delivery_from(block(1), 1, Some(1), now).unwrap();
    window.credit_duplicate_delivery(block(1), 1);
    assert_eq!((window.pending_len(), window.released().len()), (6, 0));
    assert_eq!(window.reject_delivery(block(2), Some(2), now), Ok(RejectDelivery::DiscardedUnsolicited));
    assert_eq!(window.reject_delivery(block(2), None, now), Ok(RejectDelivery::DiscardedUnsolicited));
    assert_eq!(window.reject_delivery(block(2), Some(1), now), Ok(RejectDelivery::ReleasedPending));
    assert_eq!(gone(&window), [(2, 1, Reason::OwnerRejected)]);
    assert_eq!(window.request_cursor(), 2);
}

#[test]
fn retry_release_retirement() {
    let (mut window, now) = six();
    window.requeue_for_retry(&block(5), None, now).unwrap();
    assert_eq!((gone(&window), window.request_cursor()), (vec![(5, 2, Reason::Retry)], 5));
    window.requeue_for_retry(&block(50), Some(3), now).unwrap();
    assert_eq!((gone(&window), window.request_cursor()), (vec![], 3));
    window.release_pending(&block(1), now).unwrap();
    assert_eq!((gone(&window), window.request_cursor()), (vec![(1, 1, Reason::Released)], 3));
    window.retire_before(4, now).unwrap();
    assert_eq!(gone(&window), [(3, 1, Reason::Retired), (2, 1, Reason::Retired)]);
    assert_eq!((window.pending_len(), window.request_cursor()), (2, 3));
}

#[test]
fn lost_seats() {
    let (mut window, _) = six();
    window.retain_owned_by(|seat| seat != 1);
    assert_eq!(gone(&window), [4, 3, 2, 1].map(|height| (height, 1, Reason::SeatLost)));
    assert_eq!((window.pending_len(), window.request_cursor()), (2, 1));
}

#[test]
fn the_sweep_and_its_forecast() {
    let (mut window, now) = six();
    let out = now + 900 * SECOND;
    let nearly = out - Duration::from_nanos(1);
    assert_eq!((window.peer_has_expired_pending(1, nearly), window.expired_pending_capacity(nearly)), (Ok(false), Ok((0, 0))));
    assert_eq!((window.peer_has_expired_pending(1, out), window.expired_pending_capacity(out)), (Ok(true), Ok((6, 6 * 262_144))));
    assert_eq!(window.expire_pending(nearly), Ok(0));
    assert_eq!(window.expire_pending(out), Ok(6));
    assert_eq!(gone(&window)[0], (6, 2, Reason::OwnerTimedOut));
    assert_eq!((window.pending_len(), window.request_cursor()), (0, 1));
}

#[test]
fn an_entry_passed_over() {
    let (mut window, now) = six();
    window.mark_received_from(block(2), 80, Some(1), now + SECOND).unwrap();
    assert_eq!(window.expire_pending(now + 2 * SECOND), Ok(3));
    assert_eq!(gone(&window), [4, 3, 1].map(|height| (height, 1, Reason::PassedOver)));
}

#[test]
fn cooling_goes_by_key() {
    let (mut window, now) = opened();
    window.mark_peer_unresponsive(9, now).unwrap();
    let nearly = now + 64 * SECOND - Duration::from_nanos(1);
    assert_eq!((window.peer_in_staller_cooldown(10, nearly), window.peer_in_staller_cooldown(8, nearly)), (Ok(true), Ok(false)));
    assert_eq!(window.peer_in_staller_cooldown(9, now + 64 * SECOND), Ok(false));
}

#[test]
fn a_stall_is_blamed() {
    let (mut window, now) = six();
    let staged = Staged { blocks: 8, highest: Some(20) };
    assert_eq!(window.observe_blocked(context(1), staged, now), Ok(BlockedDecision::None));
    assert_eq!(window.stalling_peer(), Some((1, now)));
    let blame = BlockedDecision::Blame { owner: 1, reason: BlameReason::Staller };
    assert_eq!(window.observe_blocked(context(1), staged, now + 2 * SECOND), Ok(blame));
    assert_eq!((window.stall_timeout(), window.stalling_peer()), (4 * SECOND, None));
    assert_eq!(window.peer_in_staller_cooldown(1, now + 2 * SECOND), Ok(true));
}

#[test]
fn a_time_out_is_blamed_at_the_second_look() {
    let (mut window, now) = six();
    let out = now + 900 * SECOND;
    let unknown = BlockedContext { next_apply_height: None, frontier_hash: None, apply_side_busy: false };
    assert_eq!(window.observe_blocked(unknown, NOTHING_STAGED, out), Ok(BlockedDecision::None));
    let blame = BlockedDecision::Blame { owner: 1, reason: BlameReason::PendingTimeout };
    assert_eq!(window.observe_blocked(unknown, NOTHING_STAGED, out), Ok(blame));
}

#[test]
fn a_stuck_block_is_evicted() {
    let (mut window, now) = six();
    let busy = BlockedContext { next_apply_height: Some(1), frontier_hash: Some(block(1)), apply_side_busy: true };
    assert_eq!(window.observe_blocked(busy, NOTHING_STAGED, now), Ok(BlockedDecision::None));
    let evict = BlockedDecision::EvictStaged { height: 1, hash: block(1), suppressed_for: 120 * SECOND };
    assert_eq!(window.observe_blocked(busy, NOTHING_STAGED, now + 120 * SECOND), Ok(evict));
}

#[test]
fn a_cold_front_is_hedged_and_lost() {
    let (mut window, now) = six();
    assert_eq!(window.observe_blocked(context(1), NOTHING_STAGED, now), Ok(BlockedDecision::None));
    let later = now + 2 * SECOND;
    let hedge = BlockedDecision::HedgeColdFront { owner: 1, front_hash: block(1) };
    assert_eq!(window.observe_blocked(context(1), NOTHING_STAGED, later), Ok(hedge));
    window.confirm_cold_front_hedge(1, 2, block(1));
    assert_eq!((window.hedge_offered(2, &block(1)), window.hedge_offered(1, &block(1))), (true, false));
    assert_eq!(window.mark_received_from(block(1), 80, Some(2), later), Ok(Some(1)));
    assert_eq!(
        gone(&window),
        [(1, 1, Reason::Delivered), (4, 1, Reason::HedgeLost), (3, 1, Reason::HedgeLost), (2, 1, Reason::HedgeLost)]
    );
    assert_eq!((window.preferred_peer(), window.peer_in_staller_cooldown(1, later)), (Some(2), Ok(true)));
    window.clear_preferred_peer();
    assert_eq!(window.preferred_peer(), None);
}

#[test]
fn a_prefix_race_is_won() {
    let (mut window, now) = opened();
    window.mark_requested(FREE, 1, &entries(1..=12), 13, now).unwrap();
    let plan = window.prefix_probe_plan().unwrap();
    assert_eq!((plan.owner, plan.end_height), (1, 8));
    assert_eq!(plan.hashes, (1..=8).map(block).collect::<Vec<_>>());
    window.confirm_prefix_probe(1, &plan.hashes[1..], &[2, 3], now).unwrap();
    assert_eq!(window.active_prefix_probe_started_at(), None);
    window.confirm_prefix_probe(1, &plan.hashes, &[2, 3], now).unwrap();
    assert_eq!(window.active_prefix_probe_started_at(), Some(now));
    assert_eq!((window.probe_offered(3, &block(8)), window.probe_offered(4, &block(8))), (true, false));
    for height in 1..=4 {
        assert_eq!(window.mark_received_from(block(height), 80, Some(3), now), Ok(Some(height)));
    }
    assert_eq!((window.released().len(), window.preferred_peer()), (9, Some(3)));
    assert_eq!(gone(&window)[1], (12, 1, Reason::PrefixRaceLost));
    assert_eq!(window.pending_len(), 0);
}

/// A refused call changes nothing, the report neither.
fn refused<T: std::fmt::Debug + PartialEq>(
    window: &mut DownloadWindow,
    refusal: Refusal,
    call: impl FnOnce(&mut DownloadWindow) -> Result<T>,
) {
    let before = (*window.words(), window.released().collect::<Vec<_>>());
    assert_eq!(call(window), Err(refusal));
    assert!(before == (*window.words(), window.released().collect()));
}

#[test]
fn a_clock_that_goes_back_is_refused_by_every_call_that_takes_one() {
    let (mut window, past) = six();
    window.mark_received_from(block(6), 80, Some(2), past + SECOND).unwrap();
    let (w, r) = (&mut window, Refusal::Clock);
    refused(w, r, |w| w.mark_requested(FREE, 1, &entries([9]), 9, past));
    refused(w, r, |w| w.mark_owned_fetch(FREE, false, 1, block(9), 9, past));
    refused(w, r, |w| w.mark_received_from(block(1), 80, Some(1), past));
    refused(w, r, |w| w.credit_delivery_from(block(1), 1, None, past));
    refused(w, r, |w| w.reject_delivery(block(1), Some(1), past));
    refused(w, r, |w| w.expire_pending(past));
    refused(w, r, |w| w.requeue_for_retry(&block(1), None, past));
    refused(w, r, |w| w.release_pending(&block(1), past));
    refused(w, r, |w| w.retire_before(9, past));
    refused(w, r, |w| w.mark_peer_unresponsive(1, past));
    refused(w, r, |w| w.confirm_prefix_probe(1, &[], &[], past));
    refused(w, r, |w| w.observe_blocked(context(1), NOTHING_STAGED, past));
    refused(w, r, |w| w.set_fanout_eligible_peers(1, past));
    refused(w, r, |w| w.next_peer_request(&Stager::EMPTY, 1, 0, 0, 0, 0, &Chain::new(), past, &[]));
    refused(w, r, |w| w.next_peer_request_allowing_retry(&Stager::EMPTY, 1, 0, 0, 0, 0, &Chain::new(), past, &[]));
    refused(w, r, |w| w.peer_has_expired_pending(1, past));
    refused(w, r, |w| w.peer_in_staller_cooldown(1, past));
    refused(w, r, |w| w.expired_pending_capacity(past));
}

#[test]
fn a_moment_before_the_opening_is_refused() {
    let now = Instant::now();
    let mut window = DownloadWindow::new(budget(), &keys(), now + SECOND).unwrap();
    refused(&mut window, Refusal::Clock, |window| window.expire_pending(now));
}

#[test]
fn settings_out_of_range() {
    let now = Instant::now();
    let open = |change: fn(&mut SyncBudget)| {
        let mut budget = budget();
        change(&mut budget);
        DownloadWindow::new(budget, &keys(), now).map(|_| ()).err()
    };
    assert_eq!(open(|_| ()), None);
    assert_eq!(open(|budget| budget.max_pending_blocks = 257), Some(Refusal::Settings));
    assert_eq!(open(|budget| budget.max_pending_bytes = (1 << 40) + 1), Some(Refusal::Settings));
    assert_eq!(open(|budget| budget.getdata_batch_limit = 65_536), Some(Refusal::Settings));
    assert_eq!(open(|budget| budget.block_spacing = Duration::from_nanos(1_000_000_000_000_001)), Some(Refusal::Settings));
    assert_eq!(open(|budget| budget.staller_cooldown = Duration::MAX), Some(Refusal::Settings));
}

#[test]
fn more_than_256_alternates() {
    let (mut window, now) = six();
    refused(&mut window, Refusal::Peer, |window| window.confirm_prefix_probe(1, &[], &[0; 257], now));
    assert_eq!(window.confirm_prefix_probe(1, &[], &[0; 256], now), Ok(()));
}

#[test]
fn requests_that_repeat_or_overflow() {
    let (mut window, now) = six();
    refused(&mut window, Refusal::Duplicate, |window| window.mark_requested(FREE, 3, &entries([7, 4]), 8, now));
    refused(&mut window, Refusal::Duplicate, |window| window.mark_requested(FREE, 3, &entries([7, 8, 7]), 8, now));
    refused(&mut window, Refusal::TooMany, |window| window.mark_requested(FREE, 3, &entries(7..=257), 8, now));
    assert_eq!(window.mark_requested(FREE, 3, &entries(7..=256), 257, now), Ok(false));
    assert_eq!(window.pending_len(), 256);
    assert_eq!(window.mark_owned_fetch(FREE, false, 3, block(300), 300, now), Ok(OwnedFetch::NoCapacity));
}

#[test]
fn a_body_too_large() {
    let (mut window, now) = six();
    let most = u32::MAX as usize;
    refused(&mut window, Refusal::BodySize, |window| window.mark_received_from(block(1), most + 1, Some(1), now));
    assert_eq!(window.mark_received_from(block(1), most, Some(1), now), Ok(Some(1)));
}

#[test]
fn words_saved_and_loaded() {
    let (window, now) = six();
    let loaded = DownloadWindow::from_words(Box::new(*window.words()), window.clock_zero()).unwrap();
    assert_eq!((loaded.pending_len(), loaded.owner_queue_start(1)), (6, Some(now)));
    let mut damaged = Box::new(*window.words());
    damaged[4095] = 1;
    assert_eq!(DownloadWindow::from_words(damaged, now).map(|_| ()), Err(Refusal::NoWindow));
}

/// As after a restart, which an `Instant` does not outlive.
#[test]
fn a_loaded_window_needs_its_clock() {
    let (mut window, now) = opened();
    let (stopped, started) = (now + 1_000 * SECOND, now + 5_000 * SECOND);
    window.mark_requested(FREE, 1, &entries([1]), 2, stopped).unwrap();
    let elapsed = stopped - window.clock_zero();
    let load = |clock_zero| DownloadWindow::from_words(Box::new(*window.words()), clock_zero).unwrap();
    assert_eq!(load(started).expire_pending(started + 999 * SECOND), Err(Refusal::Clock));
    assert_eq!(load(started).expire_pending(started + 1_000 * SECOND), Ok(0));
    assert_eq!(load(started - elapsed).expire_pending(started + 599 * SECOND), Ok(0));
    assert_eq!(load(started - elapsed).expire_pending(started + 600 * SECOND), Ok(1));
}

#[test]
fn refusals_say_their_number() {
    let all = [
        Refusal::WordsLength,
        Refusal::NoWindow,
        Refusal::ShortReport,
        Refusal::Clock,
        Refusal::Settings,
        Refusal::Peer,
        Refusal::Duplicate,
        Refusal::TooMany,
        Refusal::BodySize,
        Refusal::ShortOutput,
        Refusal::Payload,
        Refusal::Chain,
    ];
    assert_eq!(all.map(Refusal::number), [1, 2, 3, 4, 5, 6, 7, 8, 9, 10, 11, 12]);
    assert!(all.iter().all(|refusal| !refusal.to_string().is_empty()));
}

#[test]
fn a_window_may_go_to_another_thread() {
    let (mut window, now) = six();
    let sent = std::thread::spawn(move || window.mark_received_from(block(1), 80, Some(1), now).map(|_| window));
    assert_eq!(sent.join().unwrap().unwrap().pending_len(), 5);
}
