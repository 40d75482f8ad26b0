//! Writes seeded calls with the original's answers, gone entries and states as closed antt checks of the definitions.
//! definitions WHAT CALLS SEED MODEL OUT LENGTH TABLE CALLS-A-FILE: MODEL is the folder of the model's specs, OUT the crate folder to write. WHAT is `all`;
//! `plans`, for sequences that are mostly plans; or `getdata`, for getdata's checks alone.

use calls::compare;
use calls::events;
use calls::generator::{Planning, Profile};
use calls::odd::spoiled;
use calls::random::Random;
use calls::select;
use calls::tally::Tally;
use calls::{Answer, Call, Outcome, Window};
use definitions::checks::{self, Sequence};
use definitions::{closed, directed, getdata};
use ordered::Original;
use std::cmp::Reverse;
use std::collections::BTreeSet;
use std::path::Path;
use std::process::ExitCode;
use std::{env, fs, io};

/// In one sequence of so many, a call is checked on lent words too, which takes seconds.
const SEQUENCES_A_SAMPLE: usize = 20;

/// The numbers of the first hand-made sequences.
const DIRECTED: usize = 100_000;
const DIRECTED_PLANS: usize = 200_000;
/// And of those with odd lists.
const ODD: usize = 300_000;

/// Entries that one call sorts by height.
const MOST_SORTED: usize = 10;

/// A run of at least so many calls is made of sequences that show every event.
const LONG_RUN: u64 = 2_000;

fn main() -> io::Result<ExitCode> {
    let arguments: Vec<String> = env::args().skip(1).collect();
    let [what, calls, seed, model, out, length, table, a_file] = &arguments[..] else {
        eprintln!("wanted: all|plans|getdata CALLS SEED MODEL OUT LENGTH TABLE CALLS-A-FILE");
        std::process::exit(2);
    };
    let (only_getdata, only_plans) = (what == "getdata", what == "plans");
    let calls = if only_getdata { "0" } else { calls };
    let planning = if only_plans { Planning::Mostly } else { Planning::Among };
    let profile = Profile { mean_length: number(length), table: number(table), planning, ..Profile::default() };
    let mut tally = Tally::default();
    let sequences = record(number(calls), number(seed), profile, &mut tally);
    let (mut modules, index) = modules(&sequences, number(a_file) as usize);
    if !only_getdata && !only_plans {
        modules.push(("Directed".to_string(), directed(DIRECTED, directed::sequences)));
    }
    if !only_getdata {
        modules.push(("DirectedPlans".to_string(), directed(DIRECTED_PLANS, directed::plans)));
    }
    if only_plans {
        modules.extend(odd_plans(&sequences, number(seed), number(a_file) as usize));
    }
    let (of_getdata, cases) = if only_plans { (Vec::new(), 0) } else { getdata::modules() };
    modules.extend(of_getdata);
    closed::write(Path::new(out), Path::new(model), &modules)?;
    fs::write(Path::new(out).join("events.txt"), index)?;
    print_tally(&tally, planning, &sequences, cases);
    let complete = number(calls) < LONG_RUN || tally.problems_of(planning).is_empty();
    Ok(if complete { ExitCode::SUCCESS } else { ExitCode::FAILURE })
}

fn number(text: &str) -> u64 {
    text.parse().unwrap_or_else(|_| panic!("{text} is not a number"))
}

fn record(calls: u64, seed: u64, profile: Profile, tally: &mut Tally) -> Vec<Sequence> {
    let mut sequences: Vec<Sequence> = Vec::new();
    let each = |before: Option<&Outcome>, call: &Call, outcome: &Outcome| {
        events::count(tally, before, call, outcome);
        if matches!(call, Call::Open { .. }) {
            sequences.push(Sequence { calls: Vec::new(), outcomes: Vec::new() });
        }
        let sequence = sequences.last_mut().expect("a run begins with an opening");
        sequence.calls.push(call.clone());
        sequence.outcomes.push(outcome.clone());
    };
    let mut window = Original::default();
    if calls < LONG_RUN {
        compare::run(&mut window, seed, profile, calls, each);
    } else {
        let chosen = select::covering(&mut window, seed, profile, calls, is_cheap);
        select::run(&mut window, seed, profile, &chosen, each);
    }
    if calls >= LONG_RUN {
        return by_news(sequences);
    }
    let cheap =
        |sequence: &Sequence| sequence.calls.iter().zip(&sequence.outcomes).all(|(call, outcome)| is_cheap(call, outcome));
    sequences.into_iter().filter(cheap).collect()
}

/// The checker's time doubles with each entry that is sorted by height: those that a plan sweeps, and those that a prefix is looked for in.
fn is_cheap(call: &Call, outcome: &Outcome) -> bool {
    match call {
        Call::PrefixProbePlan => outcome.state.pending.len() <= MOST_SORTED,
        call => call.plan().is_none() || outcome.gone.len() <= MOST_SORTED,
    }
}

/// One module for some sequences, so that a difference names its file and its theorem; then one for each call by words. With them a line
/// for each module and each event that it shows.
fn modules(sequences: &[Sequence], a_file: usize) -> (Vec<(String, String)>, String) {
    let mut index = String::new();
    let mut modules: Vec<(String, String)> = Vec::new();
    let mut calls = a_file;
    for (number, sequence) in sequences.iter().enumerate() {
        if calls >= a_file {
            modules.push((format!("Runs{}", modules.len() + 1), String::new()));
            calls = 0;
        }
        let (name, text) = modules.last_mut().expect("a module was begun");
        *text += &checks::sequence(number, sequence);
        index.extend(events_of(sequence).iter().map(|event| format!("{name}\t{event}\n")));
        calls += sequence.calls.len();
    }
    for (number, sequence) in sequences.iter().enumerate().skip(SEQUENCES_A_SAMPLE / 2).step_by(SEQUENCES_A_SAMPLE) {
        modules.push((format!("Words{number}"), checks::by_words(number, sequence, place_by_words(number, sequence))));
    }
    (modules, index)
}

/// Hand-made sequences, after the others.
fn directed(first: usize, made: fn(&mut dyn Window) -> Vec<Sequence>) -> String {
    let sequences = made(&mut Original::default());
    (first..).zip(&sequences).map(|(number, sequence)| checks::sequence(number, sequence)).collect()
}

/// Each sequence up to one of its plans, with that one over odd lists; the answer is as request 02 says it.
fn odd_plans(sequences: &[Sequence], seed: u64, a_file: usize) -> Vec<(String, String)> {
    let mut random = Random::new(seed ^ 0x0dd);
    let mut modules: Vec<(String, String)> = Vec::new();
    let mut calls = a_file;
    for (number, sequence) in sequences.iter().enumerate() {
        let Some(place) = sequence.calls.iter().rposition(|call| call.plan().is_some()) else { continue };
        let before = &sequence.outcomes[place - 1];
        let call = spoiled(&mut random, &sequence.calls[place], &before.state);
        let mut outcome = Original::loaded(&before.state).call(&call);
        outcome.answer = events::told_plan(before, &call, &outcome);
        if calls >= a_file {
            modules.push((format!("Odd{}", modules.len() + 1), String::new()));
            calls = 0;
        }
        let odd = Sequence {
            calls: sequence.calls[..place].iter().cloned().chain([call]).collect(),
            outcomes: sequence.outcomes[..place].iter().cloned().chain([outcome]).collect(),
        };
        modules.last_mut().expect("a module was begun").1 += &checks::sequence(ODD + number, &odd);
        calls += odd.calls.len();
    }
    modules
}

/// The sequences that show the most new events a call come first.
fn by_news(sequences: Vec<Sequence>) -> Vec<Sequence> {
    let with_events = |sequence| (events_of(&sequence), sequence);
    let mut left: Vec<(BTreeSet<String>, Sequence)> = sequences.into_iter().map(with_events).collect();
    let mut shown: BTreeSet<String> = BTreeSet::new();
    let mut ordered = Vec::new();
    while !left.is_empty() {
        let news =
            |(events, sequence): &(BTreeSet<String>, Sequence)| 1_000 * events.difference(&shown).count() / sequence.calls.len();
        let best = (0..left.len()).max_by_key(|place| (news(&left[*place]), Reverse(*place))).expect("some are left");
        let (events, sequence) = left.remove(best);
        shown.extend(events);
        ordered.push(sequence);
    }
    ordered
}

fn events_of(sequence: &Sequence) -> BTreeSet<String> {
    let mut tally = Tally::default();
    let befores = [None].into_iter().chain(sequence.outcomes.iter().map(Some));
    for ((before, call), outcome) in befores.zip(&sequence.calls).zip(&sequence.outcomes) {
        events::count(&mut tally, before, call, outcome);
    }
    tally.happened()
}

/// In turn the last call that let something go, the last plan that came to a request, and the last call.
fn place_by_words(number: usize, sequence: &Sequence) -> usize {
    let letting_go = sequence.outcomes.iter().rposition(|outcome| !outcome.gone.is_empty());
    let planned = sequence.outcomes.iter().rposition(|outcome| matches!(outcome.answer, Answer::Proposed(Some(_))));
    let last = sequence.calls.len() - 1;
    match number / SEQUENCES_A_SAMPLE % 3 {
        0 => letting_go.unwrap_or(last),
        1 => planned.unwrap_or(last),
        _ => last,
    }
}

fn print_tally(tally: &Tally, planning: Planning, sequences: &[Sequence], cases: usize) {
    for (name, count) in tally.table() {
        println!("{count:>10}  {name}");
    }
    for problem in tally.problems_of(planning) {
        println!("{problem}");
    }
    let calls: usize = sequences.iter().map(|sequence| sequence.calls.len()).sum();
    let by_words = sequences.iter().skip(SEQUENCES_A_SAMPLE / 2).step_by(SEQUENCES_A_SAMPLE).count();
    let plans = sequences.iter().flat_map(|sequence| &sequence.calls).filter(|call| call.plan().is_some()).count();
    println!(
        "{} sequences, {calls} calls, {plans} of them plans; words at each sequence's end; {by_words} calls on lent words and a lent report; {cases} of getdata",
        sequences.len()
    );
}
