//! Ours, through the library, beside the original with std's maps and with a cheap hasher: the same calls in one run, medians.
//! bench/run builds it and hands in where to write; `bench count ROW SUBJECT PENDING TIMES` runs one row on one of them, for callgrind.

mod getdata;
mod ours;
mod planning;
mod rows;
mod subject;
mod table;
mod ticks;
#[path = "../../check/twin.rs"]
mod twin;
#[path = "../../../damage/windows.rs"]
#[allow(dead_code)]
mod windows;

use bench_cheap_hasher::Original as CheapHasher;
use bench_own_maps::Original as OwnMaps;
use ours::Ours;
use rows::{Bench, Row};
use std::collections::BTreeMap;
use subject::Subject;
use table::{Medians, Results};
use ticks::{Timer, median, timed};

const PENDING: [usize; 4] = [0, 8, 128, 256];

fn main() {
    let arguments: Vec<String> = std::env::args().skip(1).collect();
    match arguments.iter().map(String::as_str).collect::<Vec<_>>()[..] {
        ["count", row @ ("Write" | "Read"), subject, hashes, times] => {
            getdata::count(row, subject, number(hashes), number(times))
        }
        ["count", row, subject, staged, times] if row.starts_with("Plan") => {
            planning::count(row, subject, number(staged), number(times))
        }
        ["count", row, subject, pending, times] => count(row, subject, number(pending), number(times)),
        [rounds, results, picture] => run(number(rounds), results, picture),
        _ => panic!("bench ROUNDS RESULTS PICTURE"),
    }
}

fn number(text: &str) -> usize {
    text.parse().expect("a number")
}

fn run(rounds: usize, results: &str, picture: &str) {
    let timer = Timer::new();
    let load = load();
    let mut medians = BTreeMap::new();
    for pending in PENDING {
        let mut ours = Bench::<Ours>::new(pending);
        let mut own_maps = Bench::<OwnMaps>::new(pending);
        let mut cheap = Bench::<CheapHasher>::new(pending);
        let check = check_window(pending);
        let (mut proved, mut twin) = (Vec::new(), Vec::new());
        for _ in 0..rounds {
            ours.round(100, None);
            own_maps.round(100, None);
            cheap.round(100, None);
            proved.extend((0..100).map(|_| timed(|| assert!(check.check())).0));
            twin.extend((0..100).map(|_| timed(|| assert!(twin::twin(check.words()))).0));
        }
        assert_eq!(ours.samples.digest, own_maps.samples.digest, "answers differ");
        assert_eq!(ours.samples.digest, cheap.samples.digest, "answers differ");
        let ns = |samples: &mut Vec<u64>| timer.ns(median(samples));
        for (row, samples) in &mut ours.samples.ticks {
            let theirs = own_maps.samples.ticks.get_mut(row).map(ns);
            let cheap = cheap.samples.ticks.get_mut(row).map(ns);
            medians.insert(
                (*row, pending),
                Medians { ours: ns(samples), own_maps: theirs.unwrap_or(0.0), cheap: cheap.unwrap_or(0.0) },
            );
        }
        let rust = ns(&mut twin);
        medians.insert((Row::Check, pending), Medians { ours: ns(&mut proved), own_maps: rust, cheap: rust });
    }
    let (plans, grown) = planning::measured(&timer, rounds);
    let results_text = Results { medians, payloads: getdata::measured(&timer, rounds), plans, grown, rounds, load };
    let text = results_text.text();
    println!("{text}");
    std::fs::write(results, text).expect("the results are written");
    std::fs::write(picture, results_text.picture()).expect("the picture is written");
}

/// A window with every group of its head, for the check alone.
fn check_window(records: usize) -> Ours {
    let kind = windows::Kind {
        records,
        seats: 256,
        clock: 1 << 40,
        differ: 4,
        stall: true,
        stuck: true,
        cold: 1,
        hedged: 2,
        observation: 1,
        probe: true,
        planned: 8,
    };
    Ours::over(&windows::window(&mut windows::Rng(88_172_645_463_325_252), &kind))
}

fn load() -> String {
    let text = std::fs::read_to_string("/proc/loadavg").unwrap_or_default();
    text.split(' ').next().unwrap_or("unknown").to_string()
}

/// One row on one subject, for a profiler.
fn count(row: &str, subject: &str, pending: usize, times: usize) {
    fn on<S: Subject>(row: Row, pending: usize, times: usize) {
        let mut bench = Bench::<S>::new(pending);
        (0..times).for_each(|_| bench.round(5, Some(row)));
    }
    let all = [
        Row::Delivery,
        Row::Observation,
        Row::Forecast,
        Row::OneOfEach,
        Row::IdleSweep,
        Row::OwnedFetch,
        Row::Rejection,
        Row::Release,
        Row::Retry,
        Row::Retirement,
        Row::LostSeat,
        Row::Unresponsive,
        Row::Contains,
        Row::CountFor,
        Row::Capacity,
        Row::Setting,
        Row::Sweep,
    ];
    let row = all.into_iter().find(|known| format!("{known:?}") == row).expect("a row of rows.rs");
    match subject {
        "ours" => on::<Ours>(row, pending, times),
        "own-maps" => on::<OwnMaps>(row, pending, times),
        "cheap-hasher" => on::<CheapHasher>(row, pending, times),
        _ => panic!("ours, own-maps or cheap-hasher"),
    }
}
