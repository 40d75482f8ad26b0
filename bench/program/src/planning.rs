//! The next request, planned: ours beside the original. A plan changes the window, which is put back as it was before each call, untimed.

use crate::ours::Ours;
use crate::rows::{OWNERS, Random};
use crate::subject::{Entry, Lent, SECOND, Subject};
use crate::table::Medians;
use crate::ticks::{Timer, median, timed};
use bench_cheap_hasher::Original as CheapHasher;
use bench_own_maps::Original as OwnMaps;

/// The height from which blocks are wanted: what is pending, staged and refused begins there.
const START: u32 = 100;
const REFUSED: usize = 16;
const TIP: usize = 900_000;
/// The times at which the owners are asked: those who are swept at the first.
const EARLY: u64 = SECOND;
const LATE: u64 = 5_000 * SECOND;
/// An owner whose time is not out.
const SOURCE: u8 = OWNERS as u8 - 1;

/// What a plan is asked of. Owners take turns, as in the other rows, and a half of them are swept or none.
#[derive(Clone, Copy)]
pub struct Case {
    /// For `count`.
    row: &'static str,
    pub name: &'static str,
    pending: usize,
    half_swept: bool,
    batch_limit: usize,
    /// Heights among the others that may be asked for: more than are wanted.
    open: usize,
    /// The frontier stands past all that is pending and staged; else the scan begins at the lowest of it.
    frontier_past: bool,
    /// Of issue 20's bench point.
    pub aimed: bool,
}

const FULL: Case = Case {
    row: "PlanFull",
    name: "256 pending, none swept: no room",
    pending: 256,
    half_swept: false,
    batch_limit: 256,
    open: 32,
    frontier_past: false,
    aimed: true,
};
const BATCH_16: Case = Case { row: "Plan16", name: "128 pending, batch limit 16", pending: 128, batch_limit: 16, ..FULL };

pub const CASES: [Case; 5] = [
    FULL,
    Case { row: "PlanSwept", name: "256 pending, 128 of them swept", half_swept: true, ..FULL },
    BATCH_16,
    Case { row: "Plan128", name: "128 pending, batch limit 128", batch_limit: 128, open: 256, ..BATCH_16 },
    Case {
        row: "PlanPast",
        name: "128 pending, limit 16, past all",
        frontier_past: true,
        aimed: false,
        ..BATCH_16
    },
];
pub const STAGED: [usize; 2] = [256, 4_096];

/// The growth is that of one case.
pub const GROWING: Case = BATCH_16;
pub const GROWN_STAGED: [usize; 6] = [0, 256, 1_024, 4_096, 8_192, 16_384];
pub const GROWN_TIPS: [usize; 2] = [1_000, TIP];

#[derive(Clone, Copy, PartialEq)]
enum Kind {
    Pending,
    Staged,
    Refused,
    Open,
}

/// What the subjects are made of.
struct Scene {
    case: Case,
    pending: Vec<Entry>,
    lent: Lent,
    frontier: u32,
}

fn shuffle<T>(random: &mut Random, items: &mut [T]) {
    for last in (1..items.len()).rev() {
        items.swap(last, random.below(last + 1));
    }
}

impl Scene {
    /// From the start on, whose block is pending, heights of every kind in any order; above them all are open. Where a half is swept, half of the refused
    /// are swept ones. What a short chain has no height for is staged all the same.
    fn new(case: Case, staged: usize, tip: usize) -> Self {
        let mut random = Random(88_172_645_463_325_252 + (case.pending + staged) as u64);
        let chain: Vec<[u8; 32]> = (0..=tip).map(|_| random.hash()).collect();
        let refused_alone = if case.half_swept { REFUSED / 2 } else { REFUSED };
        let room = tip - START as usize - (case.pending + refused_alone + case.open);
        let mut kinds = Vec::new();
        for (kind, count) in [
            (Kind::Pending, case.pending),
            (Kind::Staged, staged.min(room)),
            (Kind::Refused, refused_alone),
            (Kind::Open, case.open),
        ] {
            kinds.extend(std::iter::repeat_n(kind, count));
        }
        shuffle(&mut random, &mut kinds[1..]);
        let of = |kind| -> Vec<Entry> {
            let heights = (START..).zip(&kinds).filter(|(_, found)| **found == kind).map(|(height, _)| height);
            heights.map(|height| (chain[height as usize], height)).collect()
        };
        let pending = of(Kind::Pending);
        let hashes = |entries: Vec<Entry>| entries.into_iter().map(|(hash, _)| hash).collect::<Vec<_>>();
        let (mut staged_hashes, mut refused) = (hashes(of(Kind::Staged)), hashes(of(Kind::Refused)));
        staged_hashes.extend((staged_hashes.len()..staged).map(|_| random.hash()));
        // Those of the first owner, who is swept.
        refused.extend(pending.iter().step_by(OWNERS).map(|entry| entry.0).take(REFUSED - refused_alone));
        shuffle(&mut random, &mut staged_hashes);
        shuffle(&mut random, &mut refused);
        let frontier = if case.frontier_past { START + kinds.len() as u32 } else { START };
        Self { case, pending, lent: Lent { chain, start: START, staged: staged_hashes, refused }, frontier }
    }
}

/// One subject in a scene.
struct Bench<S: Subject> {
    window: S,
    lists: S::Lists,
    kept: S::Kept,
    ticks: Vec<u64>,
    entries: u64,
    digest: u64,
}

impl<S: Subject> Bench<S> {
    fn new(scene: &Scene) -> Self {
        let mut window = S::open_with(scene.case.batch_limit);
        for owner in 0..OWNERS {
            let early = scene.case.half_swept && owner < OWNERS / 2;
            let entries: Vec<Entry> = scene.pending.iter().copied().skip(owner).step_by(OWNERS).collect();
            let now = window.moment(if early { EARLY } else { LATE });
            window.mark_requested(&S::prepare_with(owner as u8, &entries, scene.frontier), now);
        }
        let (lists, kept) = (S::lists(&scene.lent), window.kept());
        Self { window, lists, kept, ticks: Vec::new(), entries: 0, digest: 0 }
    }

    fn round(&mut self, times: usize) {
        let (source, now) = (S::peer(SOURCE), self.window.moment(LATE));
        for _ in 0..times {
            self.window.restore(&self.kept);
            let Self { window, lists, .. } = self;
            let (ticks, entries) = timed(|| window.next_peer_request(lists, source, now));
            self.ticks.push(ticks);
            self.entries = entries;
            self.note();
        }
    }

    /// The plan, and the window after it.
    fn note(&mut self) {
        let (entries, next) = self.window.planned();
        let mut add = |word: u64| self.digest = self.digest.wrapping_mul(31).wrapping_add(word);
        for (hash, height) in entries {
            hash.into_iter().for_each(|byte| add(byte.into()));
            add(height.into());
        }
        [self.entries, next.into(), self.window.pending_len(), self.window.request_cursor()].into_iter().for_each(add);
    }
}

/// One case's medians, and how many entries its plan has.
pub struct Planned {
    pub case: Case,
    pub staged: usize,
    pub tip: usize,
    pub entries: u64,
    pub medians: Medians,
}

/// The three take turns. The more is staged, the fewer calls a round has.
fn measure(timer: &Timer, rounds: usize, case: Case, staged: usize, tip: usize) -> Planned {
    let scene = Scene::new(case, staged, tip);
    let (mut ours, mut own_maps, mut cheap) =
        (Bench::<Ours>::new(&scene), Bench::<OwnMaps>::new(&scene), Bench::<CheapHasher>::new(&scene));
    let times = calls(staged);
    for _ in 0..rounds {
        ours.round(times);
        own_maps.round(times);
        cheap.round(times);
    }
    assert_eq!(ours.digest, own_maps.digest, "plans differ");
    assert_eq!(ours.digest, cheap.digest, "plans differ");
    let ns = |samples: &mut Vec<u64>| timer.ns(median(samples));
    let medians = Medians { ours: ns(&mut ours.ticks), own_maps: ns(&mut own_maps.ticks), cheap: ns(&mut cheap.ticks) };
    Planned { case, staged, tip, entries: ours.entries, medians }
}

/// In a round.
pub fn calls(staged: usize) -> usize {
    (50_000 / (500 + staged)).max(1)
}

/// The cases at both numbers staged, then one case as the lists grow.
pub fn measured(timer: &Timer, rounds: usize) -> (Vec<Planned>, Vec<Planned>) {
    let all = STAGED.iter().flat_map(|staged| CASES.map(|case| (case, *staged)));
    let cases = all.map(|(case, staged)| measure(timer, rounds, case, staged, TIP)).collect();
    let grown = GROWN_STAGED.iter().flat_map(|staged| GROWN_TIPS.map(|tip| (*staged, tip)));
    (cases, grown.map(|(staged, tip)| measure(timer, rounds, GROWING, staged, tip)).collect())
}

/// One case on one side, for a profiler, on a chain that is no longer than it has to be.
pub fn count(row: &str, subject: &str, staged: usize, times: usize) {
    let case = CASES.into_iter().find(|case| case.row == row).expect("a row of planning.rs");
    let scene = Scene::new(case, staged, 2_000 + 2 * staged);
    match subject {
        "ours" => Bench::<Ours>::new(&scene).round(times),
        "own-maps" => Bench::<OwnMaps>::new(&scene).round(times),
        "cheap-hasher" => Bench::<CheapHasher>::new(&scene).round(times),
        _ => panic!("ours, own-maps or cheap-hasher"),
    }
}
