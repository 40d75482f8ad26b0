//! A made-up host catches up by 2,000 blocks from three peers, one of which falls silent. Time is made up too, so that every run prints
//! catch_up.stdout. From this folder: cargo run --example catch_up

use kofudile::{
    BlockedContext, BlockedDecision, DownloadWindow, Hash256, Headroom, Result, Seat, Staged, SyncBudget, default_sync_budget,
};
use std::collections::{BTreeMap, VecDeque};
use std::time::{Duration, Instant};

const TIP: u32 = 2_000;
const STEP: Duration = Duration::from_millis(100);

/// A peer sends so many blocks a step, and none after its last step.
struct Peer {
    seat: Seat,
    speed: usize,
    last_step: u32,
    asked: VecDeque<u32>,
}

struct Host {
    window: DownloadWindow,
    peers: Vec<Peer>,
    /// Bodies that came and wait to be applied, by height.
    staged: BTreeMap<u32, Hash256>,
    next_apply: u32,
    released: usize,
}

fn main() -> Result<()> {
    let start = Instant::now();
    let keys: [u8; 256] = std::array::from_fn(|seat| seat as u8);
    let peers = [(1, 4, u32::MAX), (2, 3, 20), (3, 2, u32::MAX)];
    let peers = peers.map(|(seat, speed, last_step)| Peer { seat, speed, last_step, asked: VecDeque::new() });
    let mut host = Host {
        window: DownloadWindow::new(budget(), &keys, start)?,
        peers: peers.into(),
        staged: BTreeMap::new(),
        next_apply: 1,
        released: 0,
    };
    let mut step = 0;
    while host.next_apply <= TIP {
        let now = start + STEP * step;
        host.receive(step, now)?;
        host.sweep(step, now)?;
        host.look(step, now)?;
        host.request(now)?;
        step += 1;
    }
    let (blocks, bytes) = host.window.pending_high_water();
    println!(
        "step {step}: all {TIP} applied; {} let go and asked again; at most {blocks} blocks, {bytes} bytes pending",
        host.released
    );
    Ok(())
}

impl Host {
    fn receive(&mut self, step: u32, now: Instant) -> Result<()> {
        for peer in self.peers.iter_mut().filter(|peer| step <= peer.last_step) {
            for height in peer.asked.drain(..peer.speed.min(peer.asked.len())) {
                self.window.mark_received_from(block(height), 400_000, Some(peer.seat), now)?;
                self.staged.insert(height, block(height));
            }
        }
        while self.staged.remove(&self.next_apply).is_some() {
            self.next_apply += 1;
        }
        self.window.retire_before(self.next_apply, now)
    }

    /// Blocks whose owners are too late are asked again: the frontier went back to them.
    fn sweep(&mut self, step: u32, now: Instant) -> Result<()> {
        let swept = self.window.expire_pending(now)?;
        if swept > 0 {
            println!("step {step}: swept {swept}");
        }
        self.released += swept;
        Ok(())
    }

    fn look(&mut self, step: u32, now: Instant) -> Result<()> {
        let context = BlockedContext {
            next_apply_height: Some(self.next_apply),
            frontier_hash: self.staged.get(&self.next_apply).copied(),
            apply_side_busy: false,
        };
        let staged = Staged { blocks: self.staged.len(), highest: self.staged.keys().last().copied() };
        match self.window.observe_blocked(context, staged, now)? {
            BlockedDecision::Blame { owner, reason } => {
                self.peers.retain(|peer| peer.seat != owner);
                self.window.retain_owned_by(|seat| seat != owner);
                let lost = self.window.released().len();
                println!("step {step}: seat {owner} blamed ({reason:?}) and dropped with {lost} entries");
                self.released += lost;
            }
            BlockedDecision::HedgeColdFront { owner, front_hash } => {
                if let Some(other) = self.peers.iter_mut().find(|peer| peer.seat != owner) {
                    other.asked.push_front(self.next_apply);
                    self.window.confirm_cold_front_hedge(owner, other.seat, front_hash);
                    println!("step {step}: block {} asked of seat {} too", self.next_apply, other.seat);
                }
            }
            BlockedDecision::EvictStaged { height, .. } => println!("step {step}: block {height} is stuck"),
            BlockedDecision::None => {}
        }
        Ok(())
    }

    /// Every peer gets what it may have, from the frontier up.
    fn request(&mut self, now: Instant) -> Result<()> {
        for peer in &mut self.peers {
            if self.window.peer_in_staller_cooldown(peer.seat, now)? {
                continue;
            }
            let Some((batch, _)) = self.window.compute_request_capacity(Headroom::UNLIMITED, peer.seat) else { continue };
            let mut entries = Vec::new();
            let mut height = self.window.request_cursor().max(self.next_apply);
            while entries.len() < batch && height <= TIP {
                if !self.staged.contains_key(&height) && !self.window.contains_pending(&block(height)) {
                    entries.push((block(height), height));
                }
                height += 1;
            }
            self.window.mark_requested(Headroom::UNLIMITED, peer.seat, &entries, height, now)?;
            peer.asked.extend(entries.iter().map(|(_, height)| height));
        }
        Ok(())
    }
}

/// A made-up hash.
fn block(height: u32) -> Hash256 {
    let mut bytes = [0; 32];
    bytes[..4].copy_from_slice(&height.wrapping_mul(2_654_435_761).to_be_bytes());
    Hash256(bytes)
}

/// Smaller messages than the original's default, so that the three peers share the work.
fn budget() -> SyncBudget {
    SyncBudget { max_peer_inflight: 16, getdata_batch_limit: 16, ..default_sync_budget(Duration::from_secs(600)) }
}
