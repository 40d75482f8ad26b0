//! A made-up host that plans, marks and delivers until it has caught up by 600 blocks: from four peers, of which one falls silent, one has not every
//! block, and one is behind. Time is made up too, so that every run prints plan.stdout, as include/plan.c does.
//! From this folder: cargo run --example plan

use kofudile::{
    Chain, DownloadWindow, Hash256, PeerRequest, Reason, Result, Seat, Stager, SyncBudget, default_sync_budget, write_request,
};
use std::collections::{BTreeMap, VecDeque};
use std::time::{Duration, Instant};

const TIP: u32 = 600;
/// The headers that are known at first; the others come at step 40.
const FIRST_TIP: u32 = 400;
const STEP: Duration = Duration::from_millis(100);
const BODY: usize = 250_000;
/// Blocks that are applied in a step, at most.
const APPLIED: usize = 8;
const MAX_RECEIVED_BYTES: usize = 100 * BODY;

struct Peer {
    seat: Seat,
    /// Blocks that it sends in a step, and none after its last step.
    speed: usize,
    last_step: u32,
    /// The greatest height that it has.
    best: u32,
    /// It has not the blocks at multiples of this height; the hashes that it said so of.
    lacks: u32,
    refused: Vec<Hash256>,
    asked: VecDeque<u32>,
    sent: usize,
}

struct Host {
    window: DownloadWindow,
    chain: Chain,
    peers: Vec<Peer>,
    /// Bodies that came and wait to be applied, by height.
    staged: BTreeMap<u32, Hash256>,
    next_apply: u32,
    swept: usize,
}

fn main() -> Result<()> {
    let start = Instant::now();
    let keys: [u8; 256] = std::array::from_fn(|seat| seat as u8);
    let never = u32::MAX;
    let peers = [(1, 3, never, TIP, never), (2, 4, 15, TIP, never), (3, 2, never, TIP, 30), (4, 2, never, 250, never)];
    let peers = peers.map(|(seat, speed, last_step, best, lacks)| {
        let (refused, asked) = (Vec::new(), VecDeque::new());
        Peer { seat, speed, last_step, best, lacks, refused, asked, sent: 0 }
    });
    let mut host = Host {
        window: DownloadWindow::new(budget(), &keys, start)?,
        chain: (0..=FIRST_TIP).map(block).collect(),
        peers: peers.into(),
        staged: BTreeMap::new(),
        next_apply: 1,
        swept: 0,
    };
    let mut step = 0;
    while host.next_apply <= TIP {
        let now = start + STEP * step;
        if step == 40 {
            host.chain.extend((FIRST_TIP + 1..=TIP).map(block));
        }
        host.deliver(step, now)?;
        host.apply(now)?;
        for peer in 0..host.peers.len() {
            host.request(peer, step, now)?;
        }
        step += 1;
    }
    println!("step {step}: all {TIP} applied; {} swept; at most {} pending", host.swept, host.window.pending_high_water().0);
    for peer in &host.peers {
        println!("  seat {} sent {}, refused {}", peer.seat, peer.sent, peer.refused.len());
    }
    Ok(())
}

impl Host {
    fn deliver(&mut self, step: u32, now: Instant) -> Result<()> {
        for peer in self.peers.iter_mut().filter(|peer| step <= peer.last_step) {
            for height in peer.asked.drain(..peer.speed.min(peer.asked.len())) {
                let hash = block(height);
                if height % peer.lacks == 0 {
                    println!("step {step}: seat {} has not block {height}", peer.seat);
                    peer.refused.push(hash);
                    self.window.requeue_for_retry(&hash, Some(height), now)?;
                } else {
                    self.window.mark_received_from(hash, BODY, Some(peer.seat), now)?;
                    self.staged.insert(height, hash);
                    peer.sent += 1;
                }
            }
        }
        Ok(())
    }

    fn apply(&mut self, now: Instant) -> Result<()> {
        for _ in 0..APPLIED {
            if self.staged.remove(&self.next_apply).is_some() {
                self.next_apply += 1;
            }
        }
        self.window.retire_before(self.next_apply, now)
    }

    /// What the peer is to be asked for is planned, sent and marked. A peer whose blocks were swept cools.
    fn request(&mut self, peer: usize, step: u32, now: Instant) -> Result<()> {
        let Some(tip) = self.chain.tip() else { return Ok(()) };
        let hashes: Vec<Hash256> = self.staged.values().copied().collect();
        let stager = Stager { hashes: &hashes, bytes: BODY * hashes.len(), max_received_bytes: MAX_RECEIVED_BYTES };
        let Peer { seat, best, refused, .. } = &self.peers[peer];
        let planned = self.window.next_peer_request(&stager, *seat, tip, self.next_apply, *best, 0, &self.chain, now, refused)?;
        self.count_swept(step, now)?;
        let Some(PeerRequest { owner, entries, next_request_height }) = planned else { return Ok(()) };
        let headroom = self.window.headroom(&stager, entries.len());
        self.window.mark_requested(headroom, owner, &entries, next_request_height, now)?;
        let message = write_request(&entries)?;
        if step == 0 {
            println!("step 0: seat {owner} is asked for {} blocks, in {} bytes", entries.len(), message.len());
        }
        self.peers[peer].asked.extend(entries.iter().map(|(_, height)| height));
        Ok(())
    }

    fn count_swept(&mut self, step: u32, now: Instant) -> Result<()> {
        let swept: Vec<(Seat, Reason)> = self.window.released().map(|gone| (gone.entry.owner, gone.reason)).collect();
        let Some((owner, reason)) = swept.first().copied() else { return Ok(()) };
        println!("step {step}: {} of seat {owner} swept, the first as {reason:?}", swept.len());
        self.swept += swept.len();
        self.window.mark_peer_unresponsive(owner, now)
    }
}

/// A made-up hash.
fn block(height: u32) -> Hash256 {
    let mut bytes = [0; 32];
    bytes[..4].copy_from_slice(&height.wrapping_mul(2_654_435_761).to_be_bytes());
    Hash256(bytes)
}

/// Smaller messages than the original's default, so that the peers share the work, and shorter waits.
fn budget() -> SyncBudget {
    SyncBudget {
        max_peer_inflight: 16,
        getdata_batch_limit: 16,
        max_received_blocks: 100,
        ..default_sync_budget(Duration::from_secs(2))
    }
}
