//! The results as text and as a picture.

use crate::getdata::Times;
use crate::planning::{GROWING, GROWN_STAGED, GROWN_TIPS, Planned, STAGED, calls};
use crate::rows::{OWNERS, Row};
use std::collections::BTreeMap;
use std::fmt::Write;

/// In nanoseconds; of the check, `own_maps` and `cheap` are the same check in Rust.
#[derive(Clone, Copy)]
pub struct Medians {
    pub ours: f64,
    pub own_maps: f64,
    pub cheap: f64,
}

pub struct Results {
    pub medians: BTreeMap<(Row, usize), Medians>,
    pub payloads: Vec<Times>,
    /// Plans, and one of them as its lists grow.
    pub plans: Vec<Planned>,
    pub grown: Vec<Planned>,
    pub rounds: usize,
    pub load: String,
}

/// Rows with a target.
const AIMED: [(Row, &str, &str); 11] = [
    (Row::Check, "window check alone, whole head", "≤ 1.0 of the check in Rust, ≤ 0.9 µs"),
    (Row::Delivery, "a delivery", "≤ 1.8 of the Rust, ≤ check + 0.5 µs"),
    (Row::Rejection, "rejection by the owner", "≤ check + 0.35 µs"),
    (Row::Retry, "retry of one", "≤ check + 0.35 µs"),
    (Row::Release, "release of one", "≤ check + 0.35 µs"),
    (Row::RequestOne, "request of one entry", "≤ check + 0.3 µs"),
    (Row::RequestAll, "request of 256 entries, empty window", "≤ 1.0 … 1.3 of the Rust"),
    (Row::Observation, "observation", "≤ 0.35 of the Rust"),
    (Row::Forecast, "forecast", "≤ 0.35 of the Rust"),
    (Row::Sweep, "sweep of 256 entries", "≤ 0.5 of the Rust"),
    (Row::OneOfEach, "one of each", "≤ 0.5 of the Rust"),
];

const OTHERS: [(Row, &str); 9] = [
    (Row::IdleSweep, "sweep that takes nothing"),
    (Row::OwnedFetch, "owned fetch, asked"),
    (Row::Retirement, "retirement of all"),
    (Row::LostSeat, "a seat of eight lost"),
    (Row::Unresponsive, "peer unresponsive"),
    (Row::Contains, "is a hash pending"),
    (Row::CountFor, "a seat's entries counted"),
    (Row::Capacity, "room for one more"),
    (Row::Setting, "a setting read: the check, in these windows"),
];

/// The nanoseconds over the check that a call on one entry may take.
fn over_check(row: Row) -> f64 {
    if row == Row::RequestOne { 300.0 } else { 350.0 }
}

/// What getdata's payload may take at most, of the same in Rust.
const MOST_OF_RUST: f64 = 1.2;

/// What a plan may take at most, of the Rust with its own maps and with the cheap hasher.
const MOST_OF_PLANS: [f64; 2] = [1.0, 1.5];

/// What was reached of one target.
struct Reached {
    /// For each condition, in the table's words.
    text: String,
    with_own_maps: bool,
    with_cheap: bool,
}

impl Results {
    fn at(&self, row: Row, pending: usize) -> Option<Medians> {
        self.medians.get(&(row, pending)).copied()
    }

    fn reached(&self, row: Row) -> Option<Reached> {
        let m = self.at(row, 256)?;
        let check = self.at(Row::Setting, 256)?.ours;
        let (own, cheap) = (m.ours / m.own_maps, m.ours / m.cheap);
        let ratio =
            |most: f64| Reached {
                text: format!("{own:.2} … {cheap:.2}"), with_own_maps: own <= most, with_cheap: cheap <= most
            };
        Some(match row {
            Row::Check => {
                let holds = own <= 1.0 && m.ours <= 900.0;
                Reached { text: format!("{own:.2}, {:.2} µs", m.ours / 1e3), with_own_maps: holds, with_cheap: holds }
            }
            Row::Delivery => {
                let over = m.ours <= check + 500.0;
                Reached {
                    text: format!("{own:.2} … {cheap:.2}, check + {:.2} µs", (m.ours - check) / 1e3),
                    with_own_maps: own <= 1.8 && over,
                    with_cheap: cheap <= 1.8 && over,
                }
            }
            Row::RequestOne | Row::Rejection | Row::Retry | Row::Release => {
                let over = m.ours <= check + over_check(row);
                Reached { text: format!("check + {:.2} µs", (m.ours - check) / 1e3), with_own_maps: over, with_cheap: over }
            }
            Row::RequestAll => Reached { with_cheap: cheap <= 1.3, ..ratio(1.0) },
            Row::Observation | Row::Forecast => ratio(0.35),
            _ => ratio(0.5),
        })
    }

    /// What ours may take at most, beside the Rust with its own maps.
    fn most(&self, row: Row) -> Option<f64> {
        let (m, check) = (self.at(row, 256)?, self.at(Row::Setting, 256)?.ours);
        Some(match row {
            Row::Check => m.own_maps.min(900.0),
            Row::Delivery => (1.8 * m.own_maps).min(check + 500.0),
            Row::RequestOne | Row::Rejection | Row::Retry | Row::Release => check + over_check(row),
            Row::RequestAll => m.own_maps,
            Row::Observation | Row::Forecast => 0.35 * m.own_maps,
            _ => 0.5 * m.own_maps,
        })
    }

    pub fn text(&self) -> String {
        let mut text = self.heading();
        let _ = writeln!(text, "\n## Against the targets: 256 pending\n");
        let _ = writeln!(text, "Where two numbers stand, beside the Rust with its own maps … with the cheap hasher.\n");
        let _ = writeln!(text, "| work | target | reached | met |\n|---|---|---|---|");
        for (row, name, target) in AIMED {
            let Some(reached) = self.reached(row) else {
                let _ = writeln!(text, "| {name} | {target} | not in the library yet | |");
                continue;
            };
            let said = |met| if met { "yes" } else { "no" };
            let met = match (row, reached.with_own_maps, reached.with_cheap) {
                (Row::Check | Row::RequestOne | Row::Rejection | Row::Retry | Row::Release, met, _) => said(met).to_string(),
                (_, own, cheap) => format!("{} … {}", said(own), said(cheap)),
            };
            let _ = writeln!(text, "| {name} | {target} | {} | {met} |", reached.text);
        }
        self.plans(&mut text);
        self.grown(&mut text);
        self.payloads(&mut text);
        self.times(&mut text, [0, 8]);
        self.times(&mut text, [128, 256]);
        text
    }

    /// The next request.
    fn plans(&self, text: &mut String) {
        let [own_most, cheap_most] = MOST_OF_PLANS;
        let _ = writeln!(text, "\n## The next request, planned\n");
        let _ = writeln!(
            text,
            "16 refused, tip 900,000. Ours / the Rust with its own maps / with a cheap hasher, µs. The target is at most {own_most:.1} … {cheap_most:.1} of the \
             Rust. Medians of {} calls with 256 staged, of {} with 4,096.\n",
            self.rounds * calls(STAGED[0]),
            self.rounds * calls(STAGED[1])
        );
        let _ = writeln!(text, "| window | staged | planned | µs | ratio | met |\n|---|---|---|---|---|---|");
        for Planned { case, staged, entries, medians, .. } in &self.plans {
            let (own, cheap) = (medians.ours / medians.own_maps, medians.ours / medians.cheap);
            let said = |met| if met { "yes" } else { "no" };
            let met = format!("{} … {}", said(own <= own_most), said(cheap <= cheap_most));
            let _ = writeln!(
                text,
                "| {} | {} | {entries} | {} | {own:.2} … {cheap:.2} | {} |",
                case.name,
                thousands(*staged),
                three(medians),
                if case.aimed { &met } else { "no target" }
            );
        }
    }

    /// One case as its lists grow.
    fn grown(&self, text: &mut String) {
        let _ = writeln!(text, "\n### As the lists grow\n");
        let _ = writeln!(
            text,
            "{}, none swept, as above, µs. Medians of {} calls with nothing staged, of {} with most.\n",
            GROWING.name,
            self.rounds * calls(0),
            self.rounds * calls(GROWN_STAGED[GROWN_STAGED.len() - 1])
        );
        let tips = GROWN_TIPS.map(|tip| format!("tip {}", thousands(tip)));
        let _ = writeln!(text, "| staged | {} | {} |\n|---|---|---|", tips[0], tips[1]);
        for staged in GROWN_STAGED {
            let cell = |tip| {
                let found = self.grown.iter().find(|planned| (planned.staged, planned.tip) == (staged, tip));
                found.map_or("–".to_string(), |planned| three(&planned.medians))
            };
            let _ = writeln!(text, "| {} | {} | {} |", thousands(staged), cell(GROWN_TIPS[0]), cell(GROWN_TIPS[1]));
        }
    }

    /// getdata's payload, which needs no window.
    fn payloads(&self, text: &mut String) {
        let _ = writeln!(text, "\n## getdata's payload\n");
        let _ = writeln!(
            text,
            "Ours / plain Rust with a vector that is kept / into a lent slice. The target is at most {MOST_OF_RUST} of it.\n"
        );
        let _ = writeln!(text, "| work | hashes | bytes | ns | GB/s, ours | ratio | met |\n|---|---|---|---|---|---|---|");
        for Times { work, hashes, bytes, ours, vec, slice } in &self.payloads {
            let (vec_ratio, slice_ratio) = (ours / vec, ours / slice);
            let met = |ratio| if ratio <= MOST_OF_RUST { "yes" } else { "no" };
            let _ = writeln!(
                text,
                "| {work} | {hashes} | {bytes} | {ours:.1} / {vec:.1} / {slice:.1} | {:.1} | {vec_ratio:.2} … {slice_ratio:.2} | {} … {} |",
                *bytes as f64 / ours,
                met(vec_ratio),
                met(slice_ratio)
            );
        }
    }

    /// The times at two numbers pending.
    fn times(&self, text: &mut String, pending: [usize; 2]) {
        let [few, many] = pending;
        let _ = writeln!(text, "\n## At {few} and {many} pending\n");
        let _ = writeln!(text, "Ours / the Rust with its own maps / with a cheap hasher, µs.\n");
        let _ = writeln!(text, "| work | {few} | {many} |\n|---|---|---|");
        let names = AIMED.iter().map(|(row, name, _)| (*row, name.replace("256 entries", "all entries")));
        for (row, name) in names.chain(OTHERS.iter().map(|(row, name)| (*row, name.to_string()))) {
            let cell = |pending| {
                self.at(row, pending).map_or("–".to_string(), |m| match row {
                    Row::Check => format!("{} / {}", short(m.ours), short(m.own_maps)),
                    _ => three(&m),
                })
            };
            let _ = writeln!(text, "| {name} | {} | {} |", cell(few), cell(many));
        }
    }

    fn heading(&self) -> String {
        let cpu = std::fs::read_to_string("/proc/cpuinfo").unwrap_or_default();
        let model = cpu.lines().find_map(|line| line.strip_prefix("model name\t: ")).unwrap_or("unknown").to_string();
        let cores = cpu.lines().filter(|line| line.starts_with("processor")).count();
        let calls = self.rounds * 100;
        let kit = std::env::var("KOFUDILE_KIT").unwrap_or_else(|_| "a kit that is not here".to_string());
        format!(
            "# Times beside the Rust\n\nWritten by `bench/run`; bench/README.md says how it measures. Medians of {calls} calls each ({} of sweeps, retirements and \
             lost seats), {OWNERS} owners, on {cores} cores ({model}), load {} at the start. Ours was built by {kit}.\n",
            calls / 5,
            self.load
        )
    }

    /// A bar for each of the three, row by row, each row to its own scale.
    pub fn picture(&self) -> String {
        let rows: Vec<(&str, Medians, Option<Reached>, Row)> =
            AIMED.iter().filter_map(|(row, name, _)| Some((*name, self.at(*row, 256)?, self.reached(*row), *row))).collect();
        let (width, left, room, step) = (860.0, 250.0, 440.0, 62.0);
        let height = 66.0 + step * rows.len() as f64;
        let mut svg = format!(
            "<svg xmlns=\"http://www.w3.org/2000/svg\" width=\"{width}\" height=\"{height}\" viewBox=\"0 0 {width} {height}\" \
             font-family=\"sans-serif\" font-size=\"12\">\n<rect width=\"100%\" height=\"100%\" fill=\"#ffffff\"/>\n\
             <text x=\"16\" y=\"24\" font-size=\"15\" font-weight=\"bold\">Medians at 256 pending, µs; each row to its own scale; red: the target, beside own maps</text>\n"
        );
        let legend = [
            ("#1b7f5c", "ours, with refusals and the whole check"),
            ("#8a8f98", "the Rust, own maps"),
            ("#c3c7cd", "the Rust, cheap hasher"),
        ];
        for (i, (colour, name)) in legend.iter().enumerate() {
            let x = 16.0 + 270.0 * i as f64;
            let _ = writeln!(
                svg,
                "<rect x=\"{x}\" y=\"36\" width=\"12\" height=\"12\" fill=\"{colour}\"/><text x=\"{}\" y=\"46\">{name}</text>",
                x + 18.0
            );
        }
        for (i, (name, m, reached, row)) in rows.iter().enumerate() {
            let top = 62.0 + step * i as f64;
            let target = self.most(*row).unwrap_or(0.0);
            let most = m.ours.max(m.own_maps).max(m.cheap).max(target);
            let _ = writeln!(svg, "<text x=\"{}\" y=\"{}\" text-anchor=\"end\">{name}</text>", left - 10.0, top + 28.0);
            let bars = [(m.ours, legend[0].0, 0.0), (m.own_maps, legend[1].0, 17.0), (m.cheap, legend[2].0, 34.0)];
            for (value, colour, down) in bars.iter().take(if *row == Row::Check { 2 } else { 3 }) {
                let long = (room * value / most).max(1.0);
                let _ = writeln!(
                    svg,
                    "<rect x=\"{left}\" y=\"{}\" width=\"{long:.1}\" height=\"14\" fill=\"{colour}\"/><text x=\"{:.1}\" y=\"{}\">{}</text>",
                    top + down,
                    left + long + 6.0,
                    top + down + 11.0,
                    short(*value)
                );
            }
            let at = left + room * target / most;
            let _ = writeln!(svg, "<rect x=\"{at:.1}\" y=\"{}\" width=\"2\" height=\"18\" fill=\"#c0392b\"/>", top - 2.0);
            if let Some(reached) = reached {
                let _ = writeln!(
                    svg,
                    "<text x=\"{}\" y=\"{}\" text-anchor=\"end\" fill=\"#555\">{}</text>",
                    left - 10.0,
                    top + 44.0,
                    reached.text
                );
            }
        }
        svg + "</svg>\n"
    }
}

fn three(m: &Medians) -> String {
    format!("{} / {} / {}", short(m.ours), short(m.own_maps), short(m.cheap))
}

/// With a comma.
fn thousands(number: usize) -> String {
    if number < 1_000 { number.to_string() } else { format!("{},{:03}", number / 1_000, number % 1_000) }
}

fn short(ns: f64) -> String {
    let us = ns / 1e3;
    if us < 10.0 { format!("{us:.2}") } else { format!("{us:.1}") }
}
