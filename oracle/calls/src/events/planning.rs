//! Plans: the planner's functions once more, each with its branches, told from the state before, what went, and the state after.
//!
//! A plan that is told otherwise than it was answered is an event that no list has. Heights of the chain are low (see generator/planning.rs), so that the
//! Rust's saturating sums above it have no events.

use super::requests::{compute_request_capacity, request_capacity};
use super::{Seen, owner_download_expired};
use crate::data::*;
use crate::tally::Tally;
use std::collections::BTreeSet;

pub(crate) fn count(tally: &mut Tally, seen: &Seen) {
    if let Some((_, _, lent)) = seen.call.plan() {
        surroundings(tally, seen, lent);
        let told = told(tally, seen);
        tally.hit_if("next_peer_request: told otherwise", told != *seen.answer);
    }
}

/// A plan's answer, told from the state before, what went, and the state after. A hash that is in the plan already is passed by.
pub(crate) fn told(tally: &mut Tally, seen: &Seen) -> Answer {
    let (clock, source, lent) = seen.call.plan().expect("asked for plans only");
    let planned = if sweeps(tally, seen, clock, source, lent) { Planner::new(tally, seen, source, lent).plan() } else { None };
    Answer::Proposed(planned)
}

fn surroundings(tally: &mut Tally, seen: &Seen, lent: &Lent) {
    let tip = lent.tip();
    tally.hit_if("next_peer_request: tip 0", tip == 0);
    tally.compare("next_peer_request: start against tip", lent.start, tip);
    tally.either("next_peer_request: something staged", !lent.staged.is_empty());
    tally.either("next_peer_request: something refused", !lent.refused.is_empty());
    tally.hit_if("next_peer_request: start 4294967295", lent.start == u32::MAX);
    tally.hit_if("next_peer_request: best 4294967295", lent.best == u32::MAX);
    tally.hit_if("next_peer_request: floor 4294967295", lent.floor == u32::MAX);
    tally.hit_if("next_peer_request: frontier 4294967295", seen.before.next_request_height == u32::MAX);
    tally.hit_if("next_peer_request: a staged hash is pending", lent.staged.iter().any(|hash| seen.after.entry(*hash).is_some()));
    tally.either("next_peer_request: headrooms handed in", lent.staging.is_none());
}

/// Whether the call comes to its sweep.
fn sweeps(tally: &mut Tally, seen: &Seen, clock: Clock, source: Seat, lent: &Lent) -> bool {
    let before = seen.before;
    let due = before.pending.iter().any(|entry| before.expired(entry.owner, clock) || before.passed_over(entry, clock));
    let expired = before.expired(source, clock);
    let key = before.keys[usize::from(source)];
    let fired_at = before.recent_stallers.iter().find(|(noted, _)| *noted == key).map(|(_, at)| *at);
    let cooling = fired_at.is_some_and(|at| clock - at < before.settings.staller_cooldown);
    if matches!(seen.call, Call::NextPeerRequest { .. }) {
        owner_download_expired(tally, before, source, clock);
        tally.either("next_peer_request: source expired", expired);
        if !expired {
            tally.either("next_peer_request: source cooling", cooling);
        }
        if expired || cooling {
            tally.hit_if("next_peer_request: none for this source, though some are due", due);
            return false;
        }
    } else {
        tally.hit_if("next_peer_request_allowing_retry: source expired", expired);
        tally.hit_if("next_peer_request_allowing_retry: source cooling", cooling);
    }
    tally.either("next_peer_request_allowing_retry: staged bytes exhausted", lent.exhausted);
    tally.hit_if("next_peer_request_allowing_retry: exhausted, though some are due", lent.exhausted && due);
    !lent.exhausted
}

struct Planner<'a> {
    tally: &'a mut Tally,
    seen: &'a Seen<'a>,
    source: Seat,
    lent: &'a Lent,
    pending: BTreeSet<Hash>,
    staged: BTreeSet<Hash>,
    refused: BTreeSet<Hash>,
    mean: u64,
    /// `min_refused`.
    low: Option<u32>,
    entries: Vec<(Hash, u32)>,
    /// What the chain's walk has met that might be asked for.
    met: BTreeSet<Hash>,
}

/// What the scan is about; `by_batch` and `by_bytes` are the two that its limit is the lesser of.
#[derive(Clone, Copy)]
struct Scan {
    height: u32,
    last: u32,
    by_batch: u64,
    by_bytes: u64,
    next: u32,
}

impl Scan {
    fn limit(&self) -> u64 {
        self.by_batch.min(self.by_bytes)
    }

    /// The last of so many heights, were the chain long enough.
    fn reach(&self, heights: u64) -> u64 {
        u64::from(self.height) + heights - 1
    }
}

impl<'a> Planner<'a> {
    fn new(tally: &'a mut Tally, seen: &'a Seen<'a>, source: Seat, lent: &'a Lent) -> Self {
        Self {
            tally,
            seen,
            source,
            lent,
            pending: seen.after.pending.iter().map(|entry| entry.hash).collect(),
            staged: lent.staged.iter().copied().collect(),
            refused: lent.refused.iter().copied().collect(),
            mean: seen.after.ewma_block_bytes,
            low: None,
            entries: Vec::new(),
            met: BTreeSet::new(),
        }
    }

    fn plan(mut self) -> Option<Request> {
        let (seen, lent) = (self.seen, self.lent);
        self.tally.either("next_peer_request_allowing_retry: something swept", !seen.gone.is_empty());
        let frontier = seen.gone.iter().map(|gone| gone.entry.height).fold(seen.before.next_request_height, u32::min);
        let headrooms = (lent.byte_headroom, lent.count_headroom);
        let Some((batch, mut bytes)) = compute_request_capacity(self.tally, seen.after, self.source, headrooms) else {
            self.tally.hit_if("next_peer_request_allowing_retry: no capacity, something swept", !seen.gone.is_empty());
            self.tally.hit_if("next_peer_request_allowing_retry: no capacity, start below frontier", lent.start < frontier);
            return None;
        };
        let before = request_capacity(seen.before, self.source, headrooms);
        self.tally.hit_if("next_peer_request_allowing_retry: capacity by the sweep alone", before.is_none());
        self.expired_request_entries(batch, &mut bytes);
        let rewound = self.maybe_rewind_request_frontier(frontier);
        let made = self.request_from(rewound, batch, bytes);
        self.tally.either("non_empty_request: some", made.is_some());
        self.tally.hit_if("non_empty_request: none, frontier rewound", made.is_none() && rewound < frontier);
        self.tally.hit_if("non_empty_request: none, something swept", made.is_none() && !seen.gone.is_empty());
        made
    }

    fn note(&mut self, height: u32) {
        self.low = Some(self.low.map_or(height, |low| low.min(height)));
    }

    fn expired_request_entries(&mut self, batch: u64, bytes: &mut u64) {
        let mut expired: Vec<Entry> = self.seen.gone.iter().map(|gone| gone.entry).collect();
        expired.sort_by_key(|entry| entry.height);
        let equal = expired.windows(2).any(|pair| pair[0].height == pair[1].height);
        self.tally.hit_if("expired_request_entries: equal heights", equal);
        for entry in expired {
            let (full, short) = (self.entries.len() as u64 >= batch, *bytes < self.mean);
            if full || short {
                self.tally.hit(match (full, short) {
                    (true, true) => "expired_request_entries: cut by batch and bytes",
                    (true, false) => "expired_request_entries: cut by the batch",
                    _ => "expired_request_entries: cut by the bytes",
                });
                break;
            }
            if self.swept_is_taken(&entry) {
                *bytes -= self.mean;
                self.entries.push((entry.hash, entry.height));
            }
        }
    }

    fn swept_is_taken(&mut self, entry: &Entry) -> bool {
        let (lent, height) = (self.lent, entry.height);
        let staged = self.staged.contains(&entry.hash);
        if self.refused.contains(&entry.hash) {
            self.note(height);
            self.tally.hit("expired_request_entries: refused");
            self.tally.hit_if("expired_request_entries: refused and under the floor", height < lent.floor);
            self.tally.hit_if("expired_request_entries: refused and staged", staged);
            return false;
        }
        self.tally.compare("expired_request_entries: height against floor", height, lent.floor);
        if height < lent.floor {
            return false;
        }
        self.tally.either("expired_request_entries: staged", staged);
        if staged {
            return false;
        }
        self.tally.hit_if("expired_request_entries: taken above the best", height > lent.best);
        self.tally.hit_if("expired_request_entries: taken above the tip", height > lent.tip());
        self.tally.hit_if("expired_request_entries: taken below the start", height < lent.start);
        self.tally.hit_if("expired_request_entries: taken, another hash on the chain", self.other_on_chain(entry));
        self.tally.hit_if("expired_request_entries: taken at 4294967295", height == u32::MAX);
        true
    }

    fn other_on_chain(&self, entry: &Entry) -> bool {
        self.lent.chain.get(entry.height as usize).is_some_and(|hash| *hash != entry.hash)
    }

    fn maybe_rewind_request_frontier(&mut self, frontier: u32) -> u32 {
        let start = self.lent.start;
        self.tally.compare("maybe_rewind_request_frontier: start against frontier", start, frontier);
        if start >= frontier {
            return frontier;
        }
        let Some(hash) = self.lent.chain.get(start as usize) else {
            self.tally.hit("maybe_rewind_request_frontier: start above the tip");
            return frontier;
        };
        match (self.pending.contains(hash), self.staged.contains(hash)) {
            (true, true) => self.tally.hit("maybe_rewind_request_frontier: pending and staged"),
            (true, false) => self.tally.hit("maybe_rewind_request_frontier: pending"),
            (false, true) => self.tally.hit("maybe_rewind_request_frontier: staged"),
            (false, false) => {
                self.tally.hit("maybe_rewind_request_frontier: rewound");
                self.tally.hit_if("maybe_rewind_request_frontier: rewound to a refused hash", self.refused.contains(hash));
                self.tally.hit_if("maybe_rewind_request_frontier: rewound to a hash of the plan", self.is_taken(hash));
                return start;
            }
        }
        frontier
    }

    fn is_taken(&self, hash: &Hash) -> bool {
        self.entries.iter().any(|(taken, _)| taken == hash)
    }

    fn request_from(&mut self, frontier: u32, batch: u64, bytes: u64) -> Option<Request> {
        let (lent, tip) = (self.lent, self.lent.tip());
        self.tally.compare("next_peer_request_allowing_retry: start against frontier", lent.start, frontier);
        let above = lent.start.max(frontier);
        self.tally.compare("next_peer_request_allowing_retry: floor against start and frontier", lent.floor, above);
        self.tally.compare("next_peer_request_allowing_retry: tip against best", tip, lent.best);
        let by_batch = batch - self.entries.len() as u64;
        let scan = Scan {
            height: above.max(lent.floor),
            last: tip.min(lent.best),
            by_batch,
            by_bytes: bytes / self.mean,
            next: frontier,
        };
        self.tally.compare("next_peer_request_allowing_retry: first height against last", scan.height, scan.last);
        self.tally.compare("next_peer_request_allowing_retry: batch left against bytes left", by_batch, scan.by_bytes);
        let mut next = frontier;
        if scan.height <= scan.last {
            self.tally.either("next_peer_request_allowing_retry: something wanted", scan.limit() > 0);
        }
        if scan.height <= scan.last && scan.limit() > 0 {
            if let Some(request) = self.clean_contiguous_peer_request(scan) {
                return Some(request);
            }
            next = self.extend_request_by_reverse_scan(scan);
        }
        let next = self.held_back(frontier, next);
        self.non_empty_request(next)
    }

    fn held_back(&mut self, frontier: u32, next: u32) -> u32 {
        let Some(low) = self.low else {
            self.tally.hit("RefusalFilter: none refused");
            return next;
        };
        self.tally.compare("RefusalFilter: lowest refused height against next height", low, next);
        self.tally.compare("RefusalFilter: lowest refused height against frontier", low, frontier);
        next.min(low).max(frontier)
    }

    fn non_empty_request(&self, next_request_height: u32) -> Option<Request> {
        let entries = self.entries.clone();
        (!entries.is_empty()).then_some(Request { owner: self.source, entries, next_request_height })
    }

    fn clean_contiguous_peer_request(&mut self, scan: Scan) -> Option<Request> {
        if !self.entries.is_empty() {
            self.tally.hit("clean_contiguous_peer_request: not tried");
            return None;
        }
        match (self.pending.is_empty(), self.staged.is_empty()) {
            (false, true) => self.tally.hit("clean_contiguous_peer_request: some pending"),
            (true, false) => self.tally.hit("clean_contiguous_peer_request: some staged"),
            (false, false) => self.tally.hit("clean_contiguous_peer_request: some pending and some staged"),
            (true, true) => return self.clean_stretch(scan),
        }
        None
    }

    fn clean_stretch(&mut self, scan: Scan) -> Option<Request> {
        let reach = scan.reach(scan.limit());
        self.tally.compare("clean_contiguous_peer_request: reach against last height", reach, scan.last.into());
        let end = reach.min(scan.last.into()) as u32;
        let mut stretch: Vec<(Hash, u32)> =
            (scan.height..=end).map(|height| (self.lent.chain[height as usize], height)).collect();
        let mut met = BTreeSet::new();
        stretch.retain(|(hash, _)| met.insert(*hash));
        let swept_low = self.low;
        let refused: Vec<u32> =
            stretch.iter().filter(|(hash, _)| self.refused.contains(hash)).map(|(_, height)| *height).collect();
        refused.iter().for_each(|height| self.note(*height));
        self.tally.either("clean_contiguous_peer_request: a refused hash in the stretch", !refused.is_empty());
        if !refused.is_empty() {
            return None;
        }
        let next = scan.next.max(end + 1);
        self.tally.hit_if("clean_contiguous_peer_request: past a refused swept one", swept_low.is_some_and(|low| low < next));
        self.limits(scan, u64::from(end - scan.height) + 1, Some(end), reach);
        self.entries = stretch;
        self.non_empty_request(next)
    }

    fn extend_request_by_reverse_scan(&mut self, scan: Scan) -> u32 {
        let taken = self.entries.len() as u64;
        self.tally.hit(match taken {
            0 => "SelectedHashes: none",
            1..=4 => "SelectedHashes: up to four",
            _ => "SelectedHashes: more than four",
        });
        let reach = scan.reach(scan.limit() + self.pending.len() as u64 + self.lent.staged.len() as u64 + taken);
        self.tally.compare("extend_request_by_reverse_scan: reach against last height", reach, scan.last.into());
        self.tally.hit_if("extend_request_by_reverse_scan: from height 0", scan.height == 0);
        let end = reach.min(scan.last.into()) as u32;
        let chain = &self.lent.chain;
        let looked_at = (scan.height..=end).map(|height| (chain[height as usize], height));
        let candidates: Vec<(Hash, u32)> = looked_at.filter(|entry| self.is_candidate(entry)).collect();
        let found = candidates.len() as u64;
        self.tally.compare("extend_request_by_reverse_scan: candidates against wanted", found, scan.limit());
        self.tally.hit_if("extend_request_by_reverse_scan: no candidate", found == 0);
        let first = &candidates[..found.min(scan.limit()) as usize];
        self.limits(scan, found, first.last().map(|(_, height)| *height), reach);
        let mut next = first.iter().fold(scan.next, |next, (_, height)| next.max(height + 1));
        if found < scan.limit() {
            next = next.max(scan.last + 1);
        }
        self.entries.extend(first);
        next
    }

    fn is_candidate(&mut self, (hash, height): &(Hash, u32)) -> bool {
        let refused = self.refused.contains(hash);
        let passed = [self.pending.contains(hash), self.staged.contains(hash), self.is_taken(hash)];
        self.tally.hit_if("extend_request_by_reverse_scan: pending one passed by", passed[0]);
        self.tally.hit_if("extend_request_by_reverse_scan: staged one passed by", passed[1]);
        self.tally.hit_if("extend_request_by_reverse_scan: taken one passed by", passed[2]);
        if passed.contains(&true) || !self.met.insert(*hash) {
            self.tally.hit_if("extend_request_by_reverse_scan: refused one passed by", refused);
            return false;
        }
        if refused {
            self.note(*height);
            self.tally.hit("extend_request_by_reverse_scan: refused one noted");
        }
        !refused
    }

    /// Which limit ends a plan over the chain: of `found` ones, `last` the last taken, with such a reach.
    fn limits(&mut self, scan: Scan, found: u64, last: Option<u32>, reach: u64) {
        if found < scan.limit() {
            self.tally.compare("request: fewer than wanted, reach against last height", reach, scan.last.into());
            return;
        }
        self.tally.compare("request: as many as wanted, batch left against bytes left", scan.by_batch, scan.by_bytes);
        self.tally.hit_if("request: as many as wanted, at the last height", last == Some(scan.last));
        self.tally.hit_if(
            "request: as many as wanted, at the end of the reach",
            last.map(u64::from) == Some(reach) && reach < scan.last.into(),
        );
    }
}
