//! Plans: what is lent for one, around the heights that its comparisons turn on.
//!
//! Heights of the chain are low: it is lent whole, from height 0 to the tip, so that heights near 2^32 are those of entries, of the frontier and of the
//! three numbers that are said (start, best, floor), never of the chain. Where the Rust saturates above the chain, no call can show it.

use super::{Generator, cooling_deadlines, sweep_deadlines};
use crate::data::*;
use crate::world::Theme;

/// A window as its sweep leaves it.
struct Swept {
    gone: Vec<Entry>,
    left: Vec<Entry>,
    frontier: u32,
}

impl Swept {
    fn of(state: &State, clock: Clock) -> Self {
        let goes = |entry: &Entry| state.expired(entry.owner, clock) || state.passed_over(entry, clock);
        let (gone, left): (Vec<Entry>, Vec<Entry>) = state.pending.iter().copied().partition(goes);
        let frontier = gone.iter().map(|entry| entry.height).fold(state.next_request_height, u32::min);
        Self { gone, left, frontier }
    }
}

impl Generator {
    pub(super) fn next_request(&mut self, state: &State) -> Call {
        self.world.grow_chain(&mut self.random);
        let source = self.planning_seat(state);
        let times: Vec<Clock> = sweep_deadlines(state).into_iter().chain(cooling_deadlines(state)).collect();
        let clock = self.clock(state, &times);
        let lent = self.lent(state, &Swept::of(state, clock));
        if self.random.chance(45) {
            Call::NextPeerRequestAllowingRetry { clock, source, lent }
        } else {
            Call::NextPeerRequest { clock, source, lent }
        }
    }

    /// An answered request as it is marked: mostly at once.
    pub(super) fn mark_planned(&mut self, state: &State, request: &Request) -> Call {
        let clock = if self.random.chance(70) { state.last_clock } else { self.clock(state, &[]) };
        let (byte_headroom, count_headroom) = self.headrooms(state);
        Call::MarkRequested {
            clock,
            owner: request.owner,
            entries: request.entries.clone(),
            next_request_height: request.next_request_height,
            byte_headroom,
            count_headroom,
        }
    }

    /// Who asks: sometimes one whose key is cooling.
    fn planning_seat(&mut self, state: &State) -> Seat {
        let cooling: Vec<u8> = state.recent_stallers.iter().map(|(key, _)| *key).collect();
        if let Some(key) = self.random.maybe(&cooling)
            && self.random.chance(20)
        {
            let seat = state.keys.iter().position(|found| *found == key);
            return seat.map_or(key, |seat| seat as Seat);
        }
        if self.random.chance(60) { self.seat_for_request(state) } else { self.seat(state) }
    }

    fn lent(&mut self, state: &State, swept: &Swept) -> Lent {
        let chain = self.world.chain();
        let tip = chain.len() as u32 - 1;
        let (start, best) = (self.start_height(state, swept, tip), self.best_height(swept, tip));
        let mut floor = self.floor_height(swept, tip);
        let first = start.max(swept.frontier).max(floor);
        let (mut staged, mut refused) = (self.staged(swept, start, first), self.refused(swept, start, first));
        if !swept.gone.is_empty() && self.random.chance(15) {
            // every swept one is refused: nothing is taken, and what is planned comes of the chain alone
            refused = swept.gone.iter().map(|entry| entry.hash).collect();
            staged.clear();
            if self.random.chance(60) {
                floor = swept.gone.iter().map(|entry| entry.height).fold(0, u32::max).saturating_add(1);
            }
        }
        let mut lent = Lent {
            chain,
            staged,
            refused,
            start,
            best,
            floor,
            exhausted: false,
            byte_headroom: u64::MAX,
            count_headroom: u64::MAX,
            staging: None,
        };
        if self.random.chance(50) {
            self.hand_in(state, &mut lent)
        } else {
            self.stage(state, swept, &mut lent)
        }
        lent
    }

    fn start_height(&mut self, state: &State, swept: &Swept, tip: u32) -> u32 {
        let frontier = state.next_request_height;
        match self.random.below(20) {
            0..=3 => swept.frontier,
            4..=6 => frontier,
            7..=8 => swept.frontier.saturating_sub(1 + self.random.below(4) as u32),
            9 => swept.frontier.saturating_add(1 + self.random.below(3) as u32),
            10..=12 => self.random.below(u64::from(swept.frontier.min(tip)) + 1) as u32,
            13 => self.any_height(state),
            14 => tip,
            15 => tip + 1,
            16 => self.random.pick(&[0, 0, 1, u32::MAX]),
            17 => self.world.chain_base(),
            _ => self.random.below(u64::from(tip) + 3) as u32,
        }
    }

    fn best_height(&mut self, swept: &Swept, tip: u32) -> u32 {
        let near = swept.frontier.saturating_add(self.random.below(7) as u32);
        match self.random.below(14) {
            0..=5 => tip,
            6..=7 => u32::MAX,
            8 => tip + 3,
            9 => tip.saturating_sub(1),
            10..=11 => near,
            12 => swept.frontier.saturating_sub(1),
            _ => self.random.below(u64::from(tip) + 1) as u32,
        }
    }

    fn floor_height(&mut self, swept: &Swept, tip: u32) -> u32 {
        let gone: Vec<u32> = swept.gone.iter().map(|entry| entry.height).collect();
        let near = self.random.maybe(&gone).unwrap_or(swept.frontier);
        match self.random.below(16) {
            0..=8 => 0,
            9..=10 => near,
            11 => near.saturating_add(1),
            12 => swept.frontier.saturating_add(self.random.below(4) as u32),
            13 => self.random.below(u64::from(tip) + 2) as u32,
            14 => tip,
            _ => self.random.pick(&[1, 1, tip + 1, u32::MAX]),
        }
    }

    fn any_height(&mut self, state: &State) -> u32 {
        let heights: Vec<u32> = state.pending.iter().map(|entry| entry.height).collect();
        self.random.maybe(&heights).unwrap_or(state.next_request_height)
    }

    fn staged(&mut self, swept: &Swept, start: u32, first: u32) -> Vec<Hash> {
        let count = match self.world.theme {
            Theme::FullTable => self.random.pick(&[0, 0, 3, 40, 200]),
            _ => self.random.pick(&[0, 0, 0, 0, 0, 1, 1, 2, 3, 6]),
        };
        self.listed(count, swept, start, first)
    }

    fn refused(&mut self, swept: &Swept, start: u32, first: u32) -> Vec<Hash> {
        let count = self.random.pick(&[0, 0, 0, 0, 1, 1, 2, 3, 5]);
        self.listed(count, swept, start, first)
    }

    /// Hashes of the chain near a plan's first height, of swept and of pending entries, at the start height, and unknown ones; none twice.
    fn listed(&mut self, count: usize, swept: &Swept, start: u32, first: u32) -> Vec<Hash> {
        let (gone, left): (Vec<Hash>, Vec<Hash>) =
            (swept.gone.iter().map(|entry| entry.hash).collect(), swept.left.iter().map(|entry| entry.hash).collect());
        let reach = 8 + count as u64 + left.len() as u64;
        let mut hashes: Vec<Hash> = Vec::new();
        for _ in 0..count {
            let near = first.saturating_add(self.random.below(reach) as u32).saturating_sub(2);
            let found = match self.random.below(20) {
                0..=3 => self.random.maybe(&gone),
                4 => self.random.maybe(&left),
                5..=6 => Some(self.world.chain_hash(start)),
                7 => Some(self.world.stray_hash(&mut self.random)),
                _ => None,
            };
            let hash = found.unwrap_or_else(|| self.world.chain_hash(near));
            if !hashes.contains(&hash) {
                hashes.push(hash);
            }
        }
        hashes
    }

    /// Any headrooms: mostly enough; else some blocks' worth, or none.
    fn hand_in(&mut self, state: &State, lent: &mut Lent) {
        let mean = state.ewma_block_bytes;
        let some = mean * (1 + self.random.below(8));
        lent.exhausted = self.random.chance(8);
        lent.byte_headroom = match self.random.below(10) {
            0..=4 => u64::MAX,
            5..=6 => some,
            7 => some + self.random.below(mean),
            8 => some - 1,
            _ => self.random.pick(&[0, mean, mean - 1, mean + 1]),
        };
        lent.count_headroom = self.random.pick(&[u64::MAX, u64::MAX, u64::MAX, u64::MAX, 16, 5, 3, 2, 1, 0]);
    }

    /// Staged bytes and their limit, and what the Rust's formulas make of them on the swept window.
    fn stage(&mut self, state: &State, swept: &Swept, lent: &mut Lent) {
        let mean = state.ewma_block_bytes;
        let left: u64 = swept.left.iter().map(|entry| entry.estimated_bytes).sum();
        let bytes = if lent.staged.is_empty() && self.random.chance(90) { 0 } else { self.random.pick(&[1, mean, 3 * mean, 0]) };
        let room = left + mean * self.random.below(7) + self.random.pick(&[0, 0, 1, mean - 1]);
        let limit = self.random.pick(&[MAX_BYTE_LIMIT, MAX_BYTE_LIMIT, bytes + room, bytes + room, bytes + 1, bytes]);
        lent.staging = Some(Staging { bytes, limit });
        lent.exhausted = bytes >= limit;
        lent.byte_headroom = if bytes == 0 { u64::MAX } else { limit.saturating_sub(bytes).saturating_sub(left) };
        let (staged, pending) = (lent.staged.len() as u64, swept.left.len() as u64);
        let blocks = state.settings.max_received_blocks;
        lent.count_headroom = if staged == 0 { u64::MAX } else { blocks.saturating_sub(staged).saturating_sub(pending) };
    }
}
