//! The window as a static library beside the original; oracle/compare builds and calls this.

mod beside;
mod damaged;
mod differences;
#[allow(clippy::too_many_arguments)]
mod ffi;
mod getdata;
mod lent;
mod planned;
mod record;
mod refused;
mod window;

use ::getdata::cases::Cases;
use ::getdata::comparison::{Comparison, Depth};
use ::getdata::mistakes;
use beside::{PLANNING, Result};
use calls::{figures, tally};
use damaged::Damaged;
use ordered::Original;
use planned::OddLists;
use refused::Refused;
use std::process::ExitCode;
use std::time::Instant;
use std::{env, fs};
use window::Library;

/// What a run found.
struct Found {
    title: &'static str,
    /// As they stand in docs/COMPARED.md.
    lines: Vec<String>,
    passed: u64,
    failures: Vec<String>,
    seconds: u64,
}

const USAGE: &str = "wanted: calls CALLS SEED SEEDS, refusals SEED, damage CASES SEED, plans CASES SEED, figures, differences, getdata SEED, getdata-mistakes SEED, \
                     vectors FOLDER, short CALLS SEED CASES, or all CALLS SEED SEEDS CASES DOCUMENT EVENTS COMMIT SUM";

fn main() -> ExitCode {
    let arguments: Vec<String> = env::args().skip(1).collect();
    let words: Vec<&str> = arguments.iter().map(String::as_str).collect();
    let found = match words[..] {
        ["calls", calls, seed, seeds] => vec![beside(number(calls), number(seed), number(seeds)).0],
        ["refusals", seed] => vec![refusals(number(seed))],
        ["damage", cases, seed] => vec![damage(number(cases), number(seed))],
        ["plans", cases, seed] => vec![odd_lists(number(cases), number(seed))],
        ["figures"] => vec![held_figures()],
        ["differences"] => vec![meant_to_differ()],
        ["getdata", seed] => vec![payloads(Depth::LONG, number(seed))],
        ["getdata-mistakes", seed] => vec![mistaken_payloads(number(seed))],
        ["vectors", folder] => return record::vectors(folder),
        ["short", calls, seed, cases] => {
            let seed = number(seed);
            vec![
                beside(number(calls), seed, 1).0,
                refusals(seed),
                damage(number(cases), seed),
                odd_lists(number(cases), seed),
                held_figures(),
                meant_to_differ(),
                payloads(Depth::SHORT, seed),
            ]
        }
        ["all", calls, seed, seeds, cases, document, events, commit, sum] => {
            let (compared, table) = beside(number(calls), number(seed), number(seeds));
            let seed = number(seed);
            let all = vec![
                compared,
                refusals(seed),
                damage(number(cases), seed),
                odd_lists(number(cases), seed),
                held_figures(),
                meant_to_differ(),
                payloads(Depth::LONG, seed),
            ];
            fs::write(events, table).unwrap_or_else(|error| panic!("{events}: {error}"));
            fs::write(document, text(&all, &arguments, commit, sum)).unwrap_or_else(|error| panic!("{document}: {error}"));
            all
        }
        _ => {
            eprintln!("{USAGE}");
            return ExitCode::from(2);
        }
    };
    for part in &found {
        println!("-- {} ({} s)", part.title, part.seconds);
        part.lines.iter().for_each(|line| println!("{line}"));
        part.failures.iter().take(20).for_each(|failure| println!("DIFFERS {failure}"));
    }
    let failed: usize = found.iter().map(|part| part.failures.len()).sum();
    println!("{} passed, {failed} failed", found.iter().map(|part| part.passed).sum::<u64>());
    if failed == 0 { ExitCode::SUCCESS } else { ExitCode::FAILURE }
}

fn number(text: &str) -> u64 {
    text.replace(['_', ','], "").parse().unwrap_or_else(|_| panic!("{text} is not a number"))
}

/// docs/COMPARED.md. `commit` ends in a + where files differed from it; `sum` is the library's.
fn text(all: &[Found], arguments: &[String], commit: &str, sum: &str) -> String {
    let mut text = format!(
        "# The library beside the Rust\n\nWritten by `oracle/compare {}` at commit {commit} (a + after it: with changes that were not committed); sha256 of \
         the library, libkofudile.a: {sum}. What is compared, and how, is in [oracle/README.md](../oracle/README.md).\n",
        arguments[..5].join(" ")
    );
    for part in all {
        let verdict = if part.failures.is_empty() { "all equal" } else { "NOT EQUAL" };
        text += &format!(
            "\n## {}: {} passed, {} failed, {verdict} ({} s)\n\n",
            part.title,
            part.passed,
            part.failures.len(),
            part.seconds
        );
        text += &part.lines.join("\n");
        text += "\n";
        part.failures.iter().take(20).for_each(|failure| text += &format!("\nDIFFERS {failure}\n"));
    }
    text
}

/// With the tally, an event a line.
fn beside(calls: u64, seed: u64, seeds: u64) -> (Found, String) {
    let (mut result, start) = (Result::default(), Instant::now());
    result.run(calls, seed, seeds);
    let table = result.tally.table();
    let reached = table.iter().filter(|(_, count)| *count > 0).count();
    let mut lines = vec![
        format!(
            "{calls} calls in {} sequences of {} seeds from {seed} on, half of them beside the build with ordered maps and half beside the build with its own \
             maps on distinct heights: {} calls equal in answer, in releases by report order and in whole state, with {} releases.",
            result.sequences, result.seeds, result.calls, result.released
        ),
        format!(
            "{reached} of {} events reached through the library; {} cannot be reached, as [EVENTS.md](../oracle/EVENTS.md) shows.",
            table.len(),
            tally::unreachable().len()
        ),
        String::new(),
        "| call or query | times |\n|---|---|".to_string(),
    ];
    lines.extend(result.by_kind.iter().map(|(kind, count)| format!("| {kind} | {count} |")));
    let mut failures = result.failures;
    failures.extend(result.tally.problems_of(PLANNING));
    let events = table.iter().map(|(name, count)| format!("{count:>10}  {name}\n")).collect();
    let passed = result.calls + reached as u64;
    (Found { title: "Seeded calls", lines, passed, failures, seconds: start.elapsed().as_secs() }, events)
}

fn refusals(seed: u64) -> Found {
    let (mut refused, start) = (Refused::default(), Instant::now());
    refused.run(seed);
    let mut lines = vec![
        format!(
            "{} calls tried on windows of seed {seed} and on other words: answered by the list of SPECIFICATION 4, written down independently (`oracle/raw`), and refused ones \
             left words and report as they were. By number (0: accepted), and how many sets of two causes or more.",
            refused.tries
        ),
        String::new(),
        format!(
            "| call or query | {} | sets |\n|---|{}---|",
            refused::NUMBERS.map(|number| number.to_string()).join(" | "),
            "---|".repeat(refused::NUMBERS.len())
        ),
    ];
    lines.extend(refused.table());
    let passed = refused.tries.saturating_sub(refused.failures.len() as u64);
    Found { title: "Refusals", lines, passed, failures: refused.failures, seconds: start.elapsed().as_secs() }
}

fn damage(cases: u64, seed: u64) -> Found {
    let (mut damaged, start) = (Damaged::default(), Instant::now());
    damaged.run(cases, seed);
    let Damaged { random, changed, made, counted, compared, refused, failures } = damaged;
    let line = format!(
        "{random} memories of random words or of a wrong length, {changed} windows of calls with one to four words changed, {made} windows made word by word, \
         half of these changed too (seed {seed}). {refused} calls refused as the independent reader says, reports too short among them, with nothing written. \
         {counted} memories still counted as a window and were loaded into the Rust: {compared} calls on them equal in answer, releases and whole state."
    );
    let passed = (random + changed + made).saturating_sub(failures.len() as u64);
    Found { title: "Damaged memory", lines: vec![line], passed, failures, seconds: start.elapsed().as_secs() }
}

/// Nothing, where the library does not plan.
fn odd_lists(cases: u64, seed: u64) -> Found {
    let (mut odd, start) = (OddLists::default(), Instant::now());
    if cfg!(planning) {
        odd.run(cases, seed);
    }
    let OddLists { plans, requests, twice, ragged, failures } = odd;
    let line = format!(
        "{plans} plans over lists that name hashes twice, chains that do not hold together and staged hashes that are pending (seed {seed}), {requests} of which came \
         to a request: what goes and the window after it as in the Rust, and so the request, but for {twice} in which the Rust's own names a hash twice, and which are as \
         request 02 says. Its promises hold of each. {ragged} plans with words past the whole hashes and with room to spare: as without."
    );
    let passed = (plans + ragged).saturating_sub(failures.len() as u64);
    Found { title: "Plans over odd lists", lines: vec![line], passed, failures, seconds: start.elapsed().as_secs() }
}

fn held_figures() -> Found {
    let start = Instant::now();
    let (original, library) = (figures::held::<Original>(), figures::held::<Library>());
    let mut lines = vec!["| figure or sentence | the Rust | the library |\n|---|---|---|".to_string()];
    let mut failures = Vec::new();
    let mut passed = 0;
    for ((figure, theirs), (_, mine)) in original.into_iter().zip(library) {
        lines.push(format!("| {} | {} | {} |", figure.replace('*', "\\*"), held(theirs), held(mine)));
        passed += u64::from(theirs && mine);
        failures.extend((!(theirs && mine)).then(|| figure.to_string()));
    }
    let (full, pending) = refused::one_more_than_256();
    lines.push(format!("| 256 pending: a request with one more hash is 8 | {pending} pending | {} |", held(full)));
    passed += u64::from(full);
    failures.extend((!full).then(|| "256 pending and one more".to_string()));
    Found { title: "The figures of SPECIFICATION 11 through both", lines, passed, failures, seconds: start.elapsed().as_secs() }
}

fn meant_to_differ() -> Found {
    let start = Instant::now();
    let shown = differences::shown();
    let mut lines = vec!["| difference | the Rust | the library |\n|---|---|---|".to_string()];
    lines.extend(shown.iter().map(|case| format!("| {} | {} | {} |", case.what, case.original, case.library)));
    let failures: Vec<String> = shown.iter().filter(|case| !case.holds).map(|case| case.what.to_string()).collect();
    let passed = (shown.len() - failures.len()) as u64;
    Found { title: "Where they are meant to differ", lines, passed, failures, seconds: start.elapsed().as_secs() }
}

/// With how many mistakes the cases notice.
fn payloads(depth: Depth, seed: u64) -> Found {
    let start = Instant::now();
    let mut comparison = Comparison::new(&getdata::Library, 1_000);
    comparison.run(&Cases::new(seed), depth);
    let Comparison { passed, branches, mut failures, .. } = comparison;
    let mistaken = mistaken_payloads(seed);
    let mut lines = vec![
        format!(
            "Request 01's two calls beside a reference written from its text (`oracle/getdata`), seed {seed}: {passed} calls equal in answer and in all memory, \
             what is lent and what lies around it. {} How often each branch was met:",
            mistaken.lines[0]
        ),
        String::new(),
        "| branch or case | times |\n|---|---|".to_string(),
    ];
    lines.extend(branches.table().map(|(name, times)| format!("| {name} | {times} |")));
    failures.extend(mistaken.failures);
    let passed = passed + mistaken.passed;
    Found { title: "Getdata's payload", lines, passed, failures, seconds: start.elapsed().as_secs() }
}

/// Their number, and then each mistake with the case that notices it.
fn mistaken_payloads(seed: u64) -> Found {
    let start = Instant::now();
    let (without, tried) = mistakes::tried(seed);
    let unnoticed = tried.iter().filter(|mistake| mistake.noticed.is_none());
    let mut failures: Vec<String> = unnoticed.map(|mistake| format!("not noticed: {}", mistake.what)).collect();
    let passed = (tried.len() - failures.len()) as u64;
    let mut lines = vec![format!(
        "Of {} wrong writers and readers, each by one rule, the same cases notice {passed}; the one without a mistake passes {} calls.",
        tried.len(),
        without.as_ref().map_or("not all".to_string(), |calls| format!("all {calls}"))
    )];
    let noticed = |mistake: &mistakes::Tried| mistake.noticed.clone().unwrap_or("nothing".to_string());
    lines.extend(tried.iter().map(|mistake| format!("{}: noticed at {}", mistake.what, noticed(mistake))));
    failures.extend(without.err().map(|problem| format!("without a mistake: {problem}")));
    Found { title: "Mistakes in getdata's payload", lines, passed, failures, seconds: start.elapsed().as_secs() }
}

fn held(holds: bool) -> &'static str {
    if holds { "holds" } else { "FAILS" }
}
