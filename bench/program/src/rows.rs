//! The calls that are timed, at a number of pending entries, on one subject.

use crate::subject::{Entry, SECOND, Subject};
use crate::ticks::timed;
use std::collections::BTreeMap;

/// Owners take turns: entry i is of seat i % OWNERS.
pub const OWNERS: usize = 8;
const LOWEST: u32 = 1_000;
/// The mean of a fresh window, so that bodies leave it as it is.
const BODY: usize = 262_144;

pub struct Random(pub u64);

impl Random {
    pub fn next(&mut self) -> u64 {
        self.0 ^= self.0 << 13;
        self.0 ^= self.0 >> 7;
        self.0 ^= self.0 << 17;
        self.0
    }

    pub fn below(&mut self, n: usize) -> usize {
        (self.next() % n as u64) as usize
    }

    pub fn hash(&mut self) -> [u8; 32] {
        let mut bytes = [0; 32];
        bytes.chunks_exact_mut(8).for_each(|chunk| chunk.copy_from_slice(&self.next().to_be_bytes()));
        bytes
    }
}

#[derive(Clone, Copy, Debug, PartialEq, Eq, PartialOrd, Ord)]
pub enum Row {
    Check,
    Delivery,
    RequestOne,
    RequestAll,
    Observation,
    Forecast,
    Sweep,
    OneOfEach,
    IdleSweep,
    OwnedFetch,
    Rejection,
    Release,
    Retry,
    Retirement,
    LostSeat,
    Unresponsive,
    Contains,
    CountFor,
    Capacity,
    Setting,
}

#[derive(Default)]
pub struct Samples {
    pub ticks: BTreeMap<Row, Vec<u64>>,
    /// Of all answers in turn.
    pub digest: u64,
}

impl Samples {
    #[inline(always)]
    fn add(&mut self, row: Row, (ticks, answer): (u64, u64)) {
        self.ticks.entry(row).or_default().push(ticks);
        self.digest = self.digest.wrapping_mul(31).wrapping_add(answer);
    }
}

/// One subject with so many pending: a window whose clock stands, and one that is swept and filled in turn.
pub struct Bench<S: Subject> {
    steady: S,
    swept: S,
    clock: u64,
    random: Random,
    entries: Vec<Entry>,
    single: Vec<S::Request>,
    by_owner: Vec<S::Request>,
    all: S::Request,
    pub samples: Samples,
}

impl<S: Subject> Bench<S> {
    pub fn new(pending: usize) -> Self {
        let mut random = Random(88_172_645_463_325_252 + pending as u64);
        let entries: Vec<Entry> = (0..pending as u32).map(|i| (random.hash(), LOWEST + i)).collect();
        let owned = |owner: usize| entries.iter().copied().skip(owner).step_by(OWNERS).collect::<Vec<Entry>>();
        let single = entries.iter().enumerate().map(|(i, entry)| S::prepare((i % OWNERS) as u8, &[*entry])).collect();
        let by_owner = (0..OWNERS).map(|owner| S::prepare(owner as u8, &owned(owner))).collect();
        let mut bench = Self {
            steady: S::open(),
            swept: S::open(),
            clock: SECOND,
            random,
            all: S::prepare(0, &entries),
            entries,
            single,
            by_owner,
            samples: Samples::default(),
        };
        let now = bench.steady.moment(SECOND);
        for request in &bench.by_owner {
            bench.steady.mark_requested(request, now);
            bench.swept.mark_requested(request, now);
        }
        bench
    }

    /// Every row, so many times. `only` names one.
    pub fn round(&mut self, times: usize, only: Option<Row>) {
        for row in [
            Row::Delivery,
            Row::Observation,
            Row::Forecast,
            Row::OneOfEach,
            Row::IdleSweep,
            Row::OwnedFetch,
            Row::Rejection,
            Row::Release,
            Row::Retry,
            Row::LostSeat,
            Row::Unresponsive,
            Row::Contains,
            Row::CountFor,
            Row::Capacity,
            Row::Setting,
            Row::Sweep,
            Row::Retirement,
        ] {
            if only.is_none_or(|only| only == row) {
                let long = matches!(row, Row::Sweep | Row::Retirement | Row::LostSeat);
                for _ in 0..if long { times / 5 } else { times } {
                    self.cycle(row);
                }
            }
        }
    }

    fn cycle(&mut self, row: Row) {
        match row {
            Row::Sweep | Row::Retirement => self.swept_cycle(row),
            Row::LostSeat => self.lost_seat(),
            Row::OneOfEach => self.one_of_each(),
            Row::Observation
            | Row::Forecast
            | Row::IdleSweep
            | Row::Contains
            | Row::CountFor
            | Row::Capacity
            | Row::Setting
            | Row::Unresponsive => self.still(row),
            _ => self.out_and_in(row),
        }
    }

    /// Calls that leave the entries.
    fn still(&mut self, row: Row) {
        let at = self.random.below(self.entries.len().max(1));
        let bytes = self.entries.get(at).map_or([7; 32], |entry| entry.0);
        let (hash, peer, now) = (S::hash(bytes), S::peer((at % OWNERS) as u8), self.steady.moment(SECOND));
        let window = &mut self.steady;
        let sample = match row {
            Row::Observation => timed(|| window.observe_blocked(LOWEST, now)),
            Row::Forecast => timed(|| window.expired_pending_capacity(now)),
            Row::IdleSweep => timed(|| window.expire_pending(now)),
            Row::Contains => timed(|| window.contains_pending(hash)),
            Row::CountFor => timed(|| window.pending_count_for(peer)),
            Row::Capacity => timed(|| window.has_request_capacity()),
            Row::Setting => timed(|| window.max_pending_blocks()),
            _ => timed(|| window.mark_peer_unresponsive(peer, now)),
        };
        self.samples.add(row, sample);
    }

    /// An entry at any place goes and comes back; with none pending, a hash that nobody asked for.
    fn out_and_in(&mut self, row: Row) {
        let now = self.steady.moment(SECOND);
        let window = &mut self.steady;
        let at = self.random.below(self.entries.len().max(1));
        let Some((bytes, height)) = self.entries.get(at).copied() else {
            let hash = S::hash([9; 32]);
            self.samples.add(row, take(window, row, hash, LOWEST, S::peer(0), now));
            if row == Row::Delivery {
                let request = S::prepare(0, &[([9; 32], LOWEST)]);
                self.samples.add(Row::RequestOne, timed(|| window.mark_requested(&request, now)));
            }
            window.release_pending(hash, now);
            return;
        };
        let (hash, peer) = (S::hash(bytes), S::peer((at % OWNERS) as u8));
        if row == Row::OwnedFetch {
            window.release_pending(hash, now);
            self.samples.add(row, take(window, row, hash, height, peer, now));
            return;
        }
        self.samples.add(row, take(window, row, hash, height, peer, now));
        let back = timed(|| window.mark_requested(&self.single[at], now));
        if row == Row::Delivery {
            self.samples.add(Row::RequestOne, back);
        }
    }

    /// The next request, a delivery at any place, a look, the forecast, in one go.
    fn one_of_each(&mut self) {
        let now = self.steady.moment(SECOND);
        let window = &mut self.steady;
        if self.entries.is_empty() {
            let request = S::prepare(0, &[([9; 32], LOWEST)]);
            let sample = timed(|| {
                window.mark_requested(&request, now);
                window.mark_received_from(S::hash([9; 32]), BODY, S::peer(0), now);
                window.observe_blocked(LOWEST, now) + window.expired_pending_capacity(now)
            });
            self.samples.add(Row::OneOfEach, sample);
            return;
        }
        let (at, next) = (self.random.below(self.entries.len()), self.random.below(self.entries.len()));
        let hash = S::hash(self.entries[next].0);
        window.release_pending(S::hash(self.entries[at].0), now);
        let (request, peer) = (&self.single[at], S::peer((next % OWNERS) as u8));
        let sample = timed(|| {
            window.mark_requested(request, now);
            window.mark_received_from(hash, BODY, peer, now);
            window.observe_blocked(LOWEST, now) + window.expired_pending_capacity(now)
        });
        self.samples.add(Row::OneOfEach, sample);
        window.mark_requested(&self.single[next], now);
    }

    /// One of the owners is lost, and its entries are asked of it again.
    fn lost_seat(&mut self) {
        let owner = self.random.below(OWNERS);
        let mut flags = [1; 256];
        flags[owner] = 0;
        let now = self.steady.moment(SECOND);
        let window = &mut self.steady;
        self.samples.add(Row::LostSeat, timed(|| window.retain_owned_by(&flags)));
        window.mark_requested(&self.by_owner[owner], now);
    }

    /// All entries go, timed out or retired; one request brings them all back; they go again and are asked of their owners.
    fn swept_cycle(&mut self, row: Row) {
        self.clock += 5_000 * SECOND;
        let now = self.swept.moment(self.clock);
        let window = &mut self.swept;
        let sample = match row {
            Row::Sweep => timed(|| window.expire_pending(now)),
            _ => timed(|| window.retire_before(u32::MAX, now)),
        };
        assert_eq!(window.pending_len(), 0);
        self.samples.add(row, sample);
        self.samples.add(Row::RequestAll, timed(|| window.mark_requested(&self.all, now)));
        self.clock += 5_000 * SECOND;
        let now = self.swept.moment(self.clock);
        self.swept.expire_pending(now);
        for request in &self.by_owner {
            self.swept.mark_requested(request, now);
        }
    }
}

#[inline(always)]
fn take<S: Subject>(window: &mut S, row: Row, hash: S::Hash, height: u32, peer: S::Peer, now: S::Moment) -> (u64, u64) {
    match row {
        Row::Delivery => timed(|| window.mark_received_from(hash, BODY, peer, now)),
        Row::Rejection => timed(|| window.reject_delivery(hash, peer, now)),
        Row::Release => timed(|| window.release_pending(hash, now)),
        Row::Retry => timed(|| window.requeue_for_retry(hash, now)),
        _ => timed(|| window.mark_owned_fetch(peer, hash, height, now)),
    }
}
