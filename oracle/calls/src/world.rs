//! The surroundings of one generated sequence: its theme, settings, keys, seats, hashes and heights.

use crate::data::*;
use crate::generator::{Planning, Profile};
use crate::random::Random;

/// What a sequence is drawn towards. Sequences take the themes in turn.
#[derive(Clone, Copy, Debug, PartialEq, Eq)]
pub enum Theme {
    Mixed,
    Races,
    ColdFronts,
    Stalls,
    TimeOuts,
    Capacity,
    Stuck,
    TopHeights,
    FullTable,
    LightBodies,
    HeavyBodies,
    LastMoments,
    Plans,
}

impl Theme {
    /// The rare and long ones stand among several of the others.
    pub const ALL: [Theme; 24] = [
        Theme::Mixed,
        Theme::Races,
        Theme::ColdFronts,
        Theme::Stalls,
        Theme::TimeOuts,
        Theme::Capacity,
        Theme::Stuck,
        Theme::Races,
        Theme::TopHeights,
        Theme::ColdFronts,
        Theme::LastMoments,
        Theme::TimeOuts,
        Theme::Mixed,
        Theme::Races,
        Theme::LightBodies,
        Theme::ColdFronts,
        Theme::Stalls,
        Theme::TimeOuts,
        Theme::Capacity,
        Theme::Races,
        Theme::TopHeights,
        Theme::ColdFronts,
        Theme::FullTable,
        Theme::HeavyBodies,
    ];

    /// The theme of a sequence, the first of them 0; with plans every sixth is theirs.
    pub fn of(sequence: u64, planning: Planning) -> Theme {
        let sequence = sequence as usize;
        match planning {
            Planning::Mostly => Theme::Plans,
            Planning::Among if sequence % 6 == 5 => Theme::Plans,
            Planning::Among => Theme::ALL[(sequence - sequence / 6) % Theme::ALL.len()],
            Planning::Without => Theme::ALL[sequence % Theme::ALL.len()],
        }
    }

    pub fn watches(self) -> bool {
        matches!(self, Theme::ColdFronts | Theme::Stalls | Theme::Stuck | Theme::TimeOuts)
    }

    /// The mean needs about 60 empty bodies to fall to 80 and 150 greatest ones to rise to its top.
    pub fn least_length(self, random: &mut Random) -> u64 {
        match self {
            Theme::LightBodies => 80 + random.below(20),
            Theme::HeavyBodies => 210 + random.below(40),
            _ => 0,
        }
    }
}

const MILLISECOND: u64 = 1_000_000;
const SECOND: u64 = 1_000_000_000;

#[derive(Clone)]
pub struct World {
    pub theme: Theme,
    pub settings: Settings,
    pub keys: Vec<u8>,
    pub first_clock: Clock,
    /// Entries aimed at, at most.
    pub table: u64,
    /// Hashes in use: indices below this.
    pub pool: u64,
    /// The height of index 0.
    pub base: u32,
    seats: Vec<Seat>,
    hash_style: u64,
    distinct_heights: bool,
    chain: Chain,
}

/// The chain that plans are made over: the pool's hashes from one height on, others below and above.
#[derive(Clone)]
struct Chain {
    base: u32,
    /// From height 0 on; it only grows.
    length: u32,
}

/// The indices of the chain's hashes that are not of the pool.
const OTHERS: u64 = 1 << 20;

impl Chain {
    /// The pool stands at its own heights, where that makes no long chain for the profile; else low, or, on distinct heights, not at all.
    fn new(random: &mut Random, base: u32, pool: u64, profile: &Profile) -> Self {
        if profile.planning == Planning::Without {
            return Self { base, length: 1 };
        }
        let short = u64::from(base) <= 20 * profile.table;
        let base = if short || profile.distinct_heights { base } else { random.pick(&[0, 1, 3]) };
        let first = if short || !profile.distinct_heights { base } else { 0 };
        let some = first + 1 + random.below(pool) as u32;
        let length = random.pick(&[1, first + 1, first + 2, some, some, some, some, first + pool as u32]);
        Self { base, length }
    }
}

impl World {
    pub fn new(random: &mut Random, theme: Theme, profile: &Profile) -> Self {
        let table = match theme {
            Theme::FullTable => MAX_PENDING as u64,
            _ => 1 + random.below(profile.table.max(1)).max(random.below(9)),
        };
        let pool = table + 8 + random.below(12);
        let top = u32::MAX - pool as u32 + 1;
        let base = match theme {
            Theme::TopHeights if profile.distinct_heights => top,
            Theme::TopHeights => u32::MAX - random.below(pool) as u32,
            _ => random.pick(&[0, 1, 1, 700, 800_000, 1 << 31]),
        };
        let seat_count = match theme {
            Theme::FullTable => SEATS as u64,
            _ => random.pick(&[1, 2, 2, 3, 3, 4, 5, 6]),
        };
        let mut seats: Vec<Seat> = (0..seat_count).map(|_| random.next() as u8).collect();
        if random.chance(20) {
            seats.extend([0, 255]);
        }
        let chain = Chain::new(random, base, pool, profile);
        Self {
            theme,
            settings: settings(random, theme),
            keys: keys(random),
            first_clock: first_clock(random, theme),
            table,
            pool,
            base,
            seats,
            hash_style: random.below(5),
            distinct_heights: profile.distinct_heights,
            chain,
        }
    }

    /// The chain as it stands, from height 0 to the tip.
    pub fn chain(&self) -> Vec<Hash> {
        (0..self.chain.length).map(|height| self.chain_hash(height)).collect()
    }

    /// The height of the pool's first hash on the chain.
    pub fn chain_base(&self) -> u32 {
        self.chain.base
    }

    /// What the chain has, or will have, at a height.
    pub fn chain_hash(&self, height: u32) -> Hash {
        match height.checked_sub(self.chain.base) {
            Some(index) if u64::from(index) < self.pool => self.hash(index.into()),
            _ => self.hash(OTHERS + u64::from(height) % OTHERS),
        }
    }

    /// Sometimes a few hashes more, up to some past the pool's; on distinct heights never as high as other entries.
    pub fn grow_chain(&mut self, random: &mut Random) {
        let more = random.pick(&[0, 0, 0, 0, 0, 1, 1, 2, 5, self.pool as u32 / 3]);
        let pool = self.pool as u32;
        let most = if self.chain.base > 2_000 { pool } else { self.chain.base + pool + pool / 4 };
        if self.chain.length < most {
            self.chain.length += more;
        }
    }

    /// A hash that is nowhere on the chain.
    pub fn stray_hash(&self, random: &mut Random) -> Hash {
        self.hash(2 * OTHERS + random.below(4))
    }

    pub fn seat(&self, random: &mut Random) -> Seat {
        if random.chance(3) { random.next() as u8 } else { random.pick(&self.seats) }
    }

    /// Another seat than this one, if the world has one.
    pub fn other_seat(&self, random: &mut Random, seat: Seat) -> Seat {
        let others: Vec<Seat> = self.seats.iter().copied().filter(|other| *other != seat).collect();
        random.maybe(&others).unwrap_or(seat)
    }

    /// How many entries a request lists.
    pub fn batch(&self, random: &mut Random, room: usize) -> usize {
        let most = match self.theme {
            Theme::FullTable => random.pick(&[1, 16, 60, 200, 256]),
            Theme::Races => random.pick(&[0, 1, 4, 4, 5, 8, 9, 10]),
            _ => random.pick(&[0, 1, 1, 2, 3, 4, 5, 8, 12]),
        };
        let table_room = (self.table as usize).max(4);
        most.min(room).min(table_room)
    }

    /// Mostly the lowest index with no pending entry, so that heights follow each other.
    pub fn fresh_index(&self, random: &mut Random, state: &State) -> u64 {
        let lowest = (0..self.pool).find(|index| {
            let hash = self.hash(*index);
            !state.pending.iter().any(|entry| entry.hash == hash)
        });
        if random.chance(70) { lowest.unwrap_or(self.pool - 1) } else { random.below(self.pool) }
    }

    /// Different hashes for different indices; the styles differ in which bytes decide the order.
    pub fn hash(&self, index: u64) -> Hash {
        let mut bytes = [0_u8; 32];
        let short = (index as u32).to_be_bytes();
        match self.hash_style {
            0 => bytes[28..].copy_from_slice(&short),
            1 => bytes[..4].copy_from_slice(&(!(index as u32)).to_be_bytes()),
            2 => bytes[14..18].copy_from_slice(&short),
            3 => {
                for (part, chunk) in bytes.chunks_mut(8).enumerate() {
                    chunk.copy_from_slice(&Random::new(index * 4 + part as u64).next().to_be_bytes());
                }
            }
            _ => {
                bytes = [0xff; 32];
                bytes[(index % 32) as usize] = 0x80;
                bytes[((index / 32 + 7 * index) % 31) as usize] ^= (index / 32 + 1) as u8;
                bytes[28..].copy_from_slice(&short);
            }
        }
        Hash(bytes)
    }

    pub fn height(&self, random: &mut Random, index: u64) -> u32 {
        let own = self.base.saturating_add(index as u32);
        if self.distinct_heights || random.chance(88) {
            return own;
        }
        match random.below(4) {
            0 => self.base,
            1 => u32::MAX,
            _ => self.base.saturating_add(random.below(self.pool) as u32),
        }
    }

    /// Hashes come from the pool, but for those of memory that was lent otherwise.
    pub fn index_of(&self, hash: Hash) -> u64 {
        (0..self.pool).find(|index| self.hash(*index) == hash).unwrap_or(0)
    }

    /// The height that belongs to a hash of this world.
    pub fn height_of(&self, random: &mut Random, hash: Hash) -> u32 {
        self.height(random, self.index_of(hash))
    }

    pub fn body(&self, random: &mut Random, state: &State) -> u64 {
        match self.theme {
            Theme::LightBodies => random.pick(&[0, 0, 0, 0, 0, 0, 0, 0, 0, 80, 87]),
            Theme::HeavyBodies if random.chance(99) => MAX_BODY,
            Theme::Races => random.pick(&[0, 80, 1_000, 250_000, 250_000, 1_000_000]),
            _ => random.pick(&[0, 79, 1_000_000, 2_359_296, 2_359_304, 250_000, state.ewma_block_bytes, 4_000_000, MAX_BODY]),
        }
    }
}

fn settings(random: &mut Random, theme: Theme) -> Settings {
    let wild = theme == Theme::Mixed || random.chance(12);
    let duration = |random: &mut Random, usual: &[u64]| -> u64 {
        if wild && random.chance(40) {
            random.pick(&[0, 0, 1, 3, 50 * MILLISECOND, SECOND, 600 * SECOND, MAX_DURATION])
        } else {
            random.pick(usual)
        }
    };
    let usual_limits = theme != Theme::Capacity && !wild && !(theme == Theme::Plans && random.chance(60));
    let count = |random: &mut Random, usual: u64, odd: &[u64]| -> u64 {
        if usual_limits || random.chance(40) { usual } else { random.pick(odd) }
    };
    let no_fanout = theme == Theme::Races && random.chance(75);
    Settings {
        max_pending_blocks: count(random, 256, &[0, 1, 4, 8, 16, 128]),
        max_pending_bytes: count(random, MAX_BYTE_LIMIT, &[0, 262_144, 1 << 20, 1 << 22, 262_144 * 3]),
        max_received_blocks: random.pick(&[0, 1, 2, 3, 16, 256, MAX_COUNT]),
        max_peer_inflight: count(random, 256, &[0, 1, 2, 4, 16, 128, MAX_COUNT]),
        fanout_peer_inflight: count(random, 16, &[0, 1, 3, 200, MAX_COUNT]),
        min_peers_for_fanout: if no_fanout { 8 } else { random.pick(&[0, 1, 2, 3, 8, MAX_COUNT]) },
        getdata_batch_limit: count(random, 256, &[0, 1, 16, MAX_COUNT]),
        block_spacing: duration(random, &[3 * SECOND, 4 * SECOND, 600 * SECOND, 3]),
        received_timeout: duration(random, &[SECOND, 3 * SECOND, 5]),
        stall_timeout_initial: duration(random, &[SECOND, 2 * SECOND, 2 * SECOND, 100 * MILLISECOND, 7]),
        stall_timeout_max: duration(random, &[64 * SECOND, 64 * SECOND, 3 * SECOND, SECOND]),
        staller_cooldown: duration(random, &[10 * SECOND, 64 * SECOND, 5 * SECOND, 9]),
    }
}

/// One key a seat, few keys for all, or one key for all.
fn keys(random: &mut Random) -> Vec<u8> {
    let style = random.below(4);
    let shift = random.next() as u8;
    (0..=u8::MAX)
        .map(|seat| match style {
            0 => seat,
            1 => seat.wrapping_add(shift),
            2 => seat % 3,
            _ => shift,
        })
        .collect()
}

fn first_clock(random: &mut Random, theme: Theme) -> Clock {
    if theme == Theme::LastMoments {
        return MAX_CLOCK - random.pick(&[0, 1, SECOND, 20 * SECOND, 400 * SECOND]);
    }
    random.pick(&[0, 0, 1, 1_000 * SECOND, 77_777_777_777, 1 << 61])
}
