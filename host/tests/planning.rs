//! Plans through the library: what is handed in gets there, what is answered comes back, and the headrooms are those of after the sweep.

use kofudile::{
    Chain, DownloadWindow, Hash256, Headroom, PeerRequest, Reason, Refusal, Result, Stager, SyncBudget, default_sync_budget,
};
use std::time::{Duration, Instant};

const SECOND: Duration = Duration::from_secs(1);
const TIP: u32 = 40;
/// The estimate of a block, before any body came.
const MEAN: usize = 262_144;

/// Hashes fall as heights rise, so that their orders differ.
fn block(height: u32) -> Hash256 {
    let mut bytes = [0xab; 32];
    bytes[..4].copy_from_slice(&(u32::MAX - height).to_be_bytes());
    Hash256(bytes)
}

fn blocks(heights: impl IntoIterator<Item = u32>) -> Vec<Hash256> {
    heights.into_iter().map(block).collect()
}

fn chain() -> Chain {
    (0..=TIP).map(block).collect()
}

fn budget() -> SyncBudget {
    SyncBudget { max_received_blocks: 16, getdata_batch_limit: 8, ..default_sync_budget(600 * SECOND) }
}

fn opened(budget: SyncBudget) -> (DownloadWindow, Instant) {
    let (now, keys) = (Instant::now(), std::array::from_fn(|seat| seat as u8));
    (DownloadWindow::new(budget, &keys, now).unwrap(), now)
}

/// Seat 1 owns blocks 1 to 4.
fn four(budget: SyncBudget) -> (DownloadWindow, Instant) {
    let (mut window, now) = opened(budget);
    let entries: Vec<_> = (1..=4).map(|height| (block(height), height)).collect();
    window.mark_requested(Headroom::UNLIMITED, 1, &entries, 5, now).unwrap();
    (window, now)
}

fn staged(hashes: &[Hash256], bytes: usize) -> Stager<'_> {
    Stager { hashes, bytes, max_received_bytes: 64 * MEAN }
}

/// Of seat 2, from height 1 on, of a peer that has and serves all.
fn plan(window: &mut DownloadWindow, stager: &Stager, now: Instant, refused: &[Hash256]) -> Option<PeerRequest> {
    window.next_peer_request(stager, 2, TIP, 1, TIP, 0, &chain(), now, refused).unwrap()
}

fn heights(request: &PeerRequest) -> Vec<u32> {
    assert!(request.entries().all(|(height, hash)| hash == block(height)));
    assert_eq!((request.len(), request.is_empty()), (request.entries.len(), false));
    request.entries().map(|(height, _)| height).collect()
}

fn gone(window: &DownloadWindow) -> Vec<(u32, Reason)> {
    window.released().map(|release| (release.entry.height, release.reason)).collect()
}

#[test]
fn a_clean_stretch() {
    let (mut window, now) = opened(budget());
    let request = plan(&mut window, &Stager::EMPTY, now, &[]).unwrap();
    assert_eq!((request.owner(), heights(&request), request.next_request_height), (2, (1..=8).collect(), 9));
    assert_eq!((window.pending_len(), window.request_cursor(), window.released().len()), (0, 1, 0));
}

#[test]
fn a_plan_is_marked_and_the_next_goes_on() {
    let (mut window, now) = opened(budget());
    for first in [1, 9, 17, 25, 33] {
        let request = plan(&mut window, &Stager::EMPTY, now, &[]).unwrap();
        assert_eq!(heights(&request), (first..first + 8).collect::<Vec<_>>());
        let headroom = window.headroom(&Stager::EMPTY, request.len());
        assert_eq!(window.mark_requested(headroom, request.owner, &request.entries, request.next_request_height, now), Ok(true));
        assert_eq!(window.request_cursor(), request.next_request_height);
    }
    assert_eq!(plan(&mut window, &Stager::EMPTY, now, &[]), None);
}

#[test]
fn each_number_is_handed_on() {
    let (mut window, now) = opened(budget());
    let mut of = |tip, start, best, floor| {
        let request = window.next_peer_request(&Stager::EMPTY, 7, tip, start, best, floor, &chain(), now, &[]).unwrap();
        request.map(|request| (request.owner, request.entries[0].1, request.entries[request.len() - 1].1))
    };
    assert_eq!(of(TIP, 30, TIP, 0), Some((7, 30, 37)));
    assert_eq!(of(33, 30, TIP, 0), Some((7, 30, 33)));
    assert_eq!(of(TIP, 30, 34, 0), Some((7, 30, 34)));
    assert_eq!(of(TIP, 30, TIP, 35), Some((7, 35, 40)));
    assert_eq!(of(0, 0, 0, 0), Some((7, 0, 0)));
    assert_eq!(of(TIP, TIP + 1, TIP, 0), None);
}

#[test]
fn staged_refused_and_pending_are_passed_by() {
    let (mut window, now) = four(budget());
    let hashes = blocks([5, 9]);
    let request = plan(&mut window, &staged(&hashes, 2 * MEAN), now, &blocks([7, 11])).unwrap();
    assert_eq!((heights(&request), request.next_request_height), (vec![6, 8, 10, 12, 13, 14, 15, 16], 7));
}

#[test]
fn what_is_swept_is_planned_first_and_reported() {
    let (mut window, now) = four(budget());
    let late = now + 600 * SECOND;
    let request = plan(&mut window, &Stager::EMPTY, late, &blocks([3])).unwrap();
    assert_eq!((heights(&request), request.next_request_height), (vec![1, 2, 4, 5, 6, 7, 8], 3));
    assert_eq!(gone(&window), [4, 3, 2, 1].map(|height| (height, Reason::OwnerTimedOut)));
    assert_eq!((window.pending_len(), window.request_cursor(), window.last_clock()), (0, 1, late));
}

#[test]
fn the_window_is_swept_without_a_plan_too() {
    let (mut window, now) = four(SyncBudget { getdata_batch_limit: 0, ..budget() });
    assert_eq!(plan(&mut window, &Stager::EMPTY, now + 600 * SECOND, &[]), None);
    assert_eq!((window.released().len(), window.pending_len()), (4, 0));
}

#[test]
fn an_expired_or_cooling_peer_gets_a_plan_by_the_second_form_alone() {
    let late = 600 * SECOND;
    for cooling in [false, true] {
        let (mut window, now) = four(budget());
        if cooling {
            window.mark_peer_unresponsive(1, now + late).unwrap();
        }
        let mut twin = window.clone();
        let none = window.next_peer_request(&Stager::EMPTY, 1, TIP, 1, TIP, 0, &chain(), now + late, &[]);
        assert_eq!((none, window.pending_len(), window.released().len(), window.last_clock()), (Ok(None), 4, 0, now + late));
        let some = twin.next_peer_request_allowing_retry(&Stager::EMPTY, 1, TIP, 1, TIP, 0, &chain(), now + late, &[]);
        assert_eq!((heights(&some.unwrap().unwrap()), twin.released().len()), ((1..=8).collect(), 4));
    }
}

#[test]
fn exhausted_bytes_leave_all_as_it_was() {
    let (mut window, now) = four(budget());
    let (hashes, late) = (blocks([9]), now + 600 * SECOND);
    let full = Stager { hashes: &hashes, bytes: 5 * MEAN, max_received_bytes: 5 * MEAN };
    assert_eq!((plan(&mut window, &full, late, &[]), window.pending_len(), window.released().len()), (None, 4, 0));
    let one_less = Stager { bytes: 5 * MEAN - 1, ..full };
    assert_eq!((plan(&mut window, &one_less, late, &[]), window.pending_len(), window.released().len()), (None, 0, 4));
}

/// Twelve are staged and four pending, of 16. Before the sweep there is no room, after it there is for four.
#[test]
fn headrooms_are_those_of_after_the_sweep() {
    let (mut window, now) = four(budget());
    let hashes = blocks(20..32);
    let stager = staged(&hashes, 12 * MEAN);
    assert_eq!(window.headroom(&stager, 0), Headroom { bytes: 48 * MEAN, blocks: 0 });
    assert_eq!(plan(&mut window, &stager, now, &[]), None);
    let request = plan(&mut window, &stager, now + 600 * SECOND, &[]).unwrap();
    assert_eq!(heights(&request), [1, 2, 3, 4]);
    assert_eq!(window.headroom(&stager, 0), Headroom { bytes: 52 * MEAN, blocks: 4 });
    assert_eq!(window.headroom(&stager, 3), Headroom { bytes: 49 * MEAN, blocks: 1 });
    assert_eq!(window.headroom(&stager, usize::MAX), Headroom { bytes: 0, blocks: 0 });
}

/// Two active peers may take 900 s, one alone 600 s: were the window itself swept for the headrooms, the plan's own sweep would be a second one, and
/// block 2 would go too.
#[test]
fn the_window_is_swept_once() {
    let (mut window, now) = opened(budget());
    window.mark_requested(Headroom::UNLIMITED, 1, &[(block(1), 1)], 2, now).unwrap();
    window.mark_requested(Headroom::UNLIMITED, 3, &[(block(2), 2)], 3, now + 200 * SECOND).unwrap();
    let hashes = blocks([5]);
    let request = plan(&mut window, &staged(&hashes, MEAN), now + 900 * SECOND, &[]).unwrap();
    assert_eq!((gone(&window), heights(&request)), (vec![(1, Reason::OwnerTimedOut)], vec![1, 3, 4, 6, 7, 8, 9, 10]));
    let mut twin = window.clone();
    assert_eq!((twin.expire_pending(now + 900 * SECOND), gone(&twin)), (Ok(1), vec![(2, Reason::OwnerTimedOut)]));
}

#[test]
fn without_staged_blocks_there_is_no_limit() {
    let (mut window, now) = four(budget());
    assert_eq!(window.headroom(&Stager::EMPTY, 9), Headroom::UNLIMITED);
    assert_eq!(window.headroom(&staged(&[], 3 * MEAN), 1), Headroom { bytes: 56 * MEAN, blocks: usize::MAX });
    assert_eq!(window.headroom(&staged(&blocks([9]), 0), 1), Headroom { bytes: usize::MAX, blocks: 10 });
    assert_eq!(plan(&mut window, &staged(&blocks(20..30), 0), now, &[]).unwrap().len(), 2);
    assert_eq!(plan(&mut window, &staged(&[], 57 * MEAN), now, &[]).unwrap().len(), 3);
}

#[test]
fn the_frontier_falls_to_an_open_start() {
    let (mut window, now) = four(budget());
    window.mark_received_from(block(1), MEAN, Some(1), now).unwrap();
    let request = plan(&mut window, &Stager::EMPTY, now, &[]).unwrap();
    assert_eq!((heights(&request)[..2].to_vec(), window.request_cursor()), (vec![1, 5], 1));
}

/// Staged and refused lists of any length; a hash that a list names twice is no harm.
#[test]
fn long_lists() {
    let (mut window, now) = opened(SyncBudget { max_received_blocks: 65_535, ..budget() });
    let hashes = blocks((100..1_100).chain(1..=20).chain([3, 4]));
    let stager = Stager { hashes: &hashes, bytes: 1, max_received_bytes: usize::MAX };
    let request = plan(&mut window, &stager, now, &blocks((200..1_200).chain(23..=24))).unwrap();
    assert_eq!((heights(&request), request.next_request_height), (vec![21, 22, 25, 26, 27, 28, 29, 30], 23));
}

#[test]
fn a_chain_that_ends_below_its_tip() {
    let (mut window, now) = four(budget());
    window.retire_before(2, now).unwrap();
    let before = (*window.words(), gone(&window));
    let mut tried = |chain: &Chain, tip| -> Result<bool> {
        let said = window.next_peer_request(&Stager::EMPTY, 2, tip, 1, TIP, 0, chain, now + SECOND, &[]);
        if said.is_err() {
            assert!(before == (*window.words(), gone(&window)));
        }
        Ok(said?.is_some())
    };
    assert_eq!(tried(&Chain::new(), 0), Err(Refusal::Chain));
    assert_eq!(tried(&chain(), TIP + 1), Err(Refusal::Chain));
    assert_eq!(tried(&chain(), u32::MAX), Err(Refusal::Chain));
    assert_eq!(tried(&chain(), TIP), Ok(true));
}

#[test]
fn a_chain_of_hashes() {
    let mut grown = Chain::default();
    assert_eq!((grown.tip(), grown.is_empty(), grown.get(0)), (None, true, None));
    (0..=TIP).for_each(|height| grown.push(block(height)));
    assert_eq!((&grown, grown.tip(), grown.len()), (&chain(), Some(TIP), 41));
    assert_eq!((grown.get(0), grown.get(TIP), grown.get(TIP + 1)), (Some(block(0)), Some(block(TIP)), None));
    grown.truncate(30);
    assert_eq!((grown.tip(), grown.get(30)), (Some(29), None));
    grown.extend(blocks(30..=TIP));
    grown.truncate(usize::MAX);
    assert_eq!(grown, chain());
    assert_eq!(format!("{grown:?}"), "Chain { tip: Some(40), .. }");
}
