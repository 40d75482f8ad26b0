//! The oracle's commands; the scripts in oracle/ build and call this program.

mod arms;
mod mutants;
mod places;
#[path = "../../original/substitutions.rs"]
mod substitutions;

use calls::compare;
use calls::events;
use calls::figures;
use calls::generator::{Planning, Profile};
use calls::select;
use calls::sound;
use calls::tally::{self, Tally};
use calls::text;
use calls::{Call, Outcome};
use ordered::Original as Ordered;
use own_maps::Original as OwnMaps;
use places::Places;
use std::env;
use std::io::{self, BufWriter, Write};
use std::process::ExitCode;

fn main() -> ExitCode {
    let arguments: Vec<String> = env::args().skip(1).collect();
    let options = match Options::parse(&arguments) {
        Ok(options) => options,
        Err(problem) => {
            eprintln!("{problem}");
            return ExitCode::from(2);
        }
    };
    let all_passed = match options.command.as_str() {
        "record" => record(&options).is_ok(),
        "agree" => agree(&options),
        "tally" => tally(&options),
        "sound" => sound(&options),
        "figures" => {
            let (held, failed) = figures::run::<Ordered>();
            println!("{held} passed, {failed} failed");
            failed == 0
        }
        "mutants" => try_mutants(&options),
        "arms" => count_arms(&options),
        other => {
            eprintln!("unknown command {other}");
            false
        }
    };
    if all_passed { ExitCode::SUCCESS } else { ExitCode::FAILURE }
}

/// COMMAND CALLS SEED [--length N] [--table N] [--distinct] [--plans] [--without-plans] [--cover] [--only TEXT]
struct Options {
    command: String,
    calls: u64,
    seed: u64,
    profile: Profile,
    /// Choose sequences that show every event.
    cover: bool,
    /// Mutants whose line contains this.
    only: String,
}

impl Options {
    fn parse(arguments: &[String]) -> Result<Self, String> {
        let mut plain: Vec<&str> = Vec::new();
        let mut profile = Profile::default();
        let (mut cover, mut only) = (false, String::new());
        let mut rest = arguments.iter().map(String::as_str);
        while let Some(argument) = rest.next() {
            match argument {
                "--distinct" => profile.distinct_heights = true,
                "--plans" => profile.planning = Planning::Mostly,
                "--without-plans" => profile.planning = Planning::Without,
                "--length" => profile.mean_length = number(rest.next())?,
                "--table" => profile.table = number(rest.next())?,
                "--cover" => cover = true,
                "--only" => only = rest.next().unwrap_or("").to_string(),
                _ => plain.push(argument),
            }
        }
        let [command, calls, seed] = plain[..] else {
            return Err("wanted: COMMAND CALLS SEED [--length N] [--table N] [--distinct] [--plans] [--without-plans] [--cover] [--only TEXT]"
                .to_string());
        };
        Ok(Self { command: command.to_string(), calls: number(Some(calls))?, seed: number(Some(seed))?, profile, cover, only })
    }
}

fn number(text: Option<&str>) -> Result<u64, String> {
    let text = text.ok_or("a number is missing")?;
    text.replace(['_', ','], "").parse().map_err(|_| format!("{text} is not a number"))
}

/// The wanted calls through the original: the seed's first ones, or chosen ones that show every event.
/// Returns how many calls and sequences there were.
fn drive(options: &Options, mut each: impl FnMut(Option<&Outcome>, &Call, &Outcome)) -> (u64, u64) {
    let mut window = Ordered::default();
    if !options.cover {
        let sequences = compare::run(&mut window, options.seed, options.profile, options.calls, each);
        return (options.calls, sequences);
    }
    let chosen = select::covering(&mut window, options.seed, options.profile, options.calls, |_, _| true);
    let mut calls = 0;
    select::run(&mut window, options.seed, options.profile, &chosen, |before, call, outcome| {
        calls += 1;
        each(before, call, outcome);
    });
    (calls, chosen.len() as u64)
}

/// The lines go to standard output, the last line of the command to standard error.
fn record(options: &Options) -> io::Result<()> {
    let mut out = BufWriter::new(io::stdout().lock());
    let mut written = Ok(());
    let (calls, _) = drive(options, |_, call, outcome| {
        if written.is_ok() {
            written = writeln!(out, "{}", text::line(call, outcome));
        }
    });
    written.and_then(|()| out.flush())?;
    eprintln!("{calls} passed, 0 failed");
    Ok(())
}

/// The two builds side by side, on distinct heights.
fn agree(options: &Options) -> bool {
    let profile = Profile { distinct_heights: true, ..options.profile };
    let result =
        compare::first_difference(&mut Ordered::default(), &mut OwnMaps::default(), options.seed, profile, options.calls);
    match result {
        Ok(sequences) => {
            println!(
                "ordered maps and own maps: {} calls in {sequences} sequences (seed {}), equal in answer, gone entries and whole state",
                options.calls, options.seed
            );
            println!("{} passed, 0 failed", options.calls);
            true
        }
        Err(difference) => {
            println!("call {} differs: {:?}", difference.call_number, difference.call);
            for (ordered, own_maps) in &difference.tokens {
                println!("  ordered {ordered}\n  own     {own_maps}");
            }
            println!("{} passed, 1 failed", difference.call_number - 1);
            false
        }
    }
}

/// Counts the events of a run; one check is that no event is at 0 but those documented as unreachable.
fn tally(options: &Options) -> bool {
    let mut tally = Tally::default();
    let (calls, sequences) = drive(options, |before, call, outcome| events::count(&mut tally, before, call, outcome));
    let table = tally.table();
    for (name, count) in &table {
        println!("{count:>10}  {name}");
    }
    let problems = tally.problems_of(options.profile.planning);
    for problem in &problems {
        println!("{problem}");
    }
    println!(
        "{calls} calls in {sequences} sequences (seed {}), {} events, {} of them unreachable by EVENTS.md",
        options.seed,
        table.len(),
        tally::unreachable().len()
    );
    println!("{} passed, {} failed", table.len() - problems.len().min(table.len()), problems.len());
    problems.is_empty()
}

fn try_mutants(options: &Options) -> bool {
    let (passed, failed) = mutants::run(&Places::told(), options.calls, options.seed, &options.only);
    println!("{passed} passed, {failed} failed");
    failed == 0
}

fn count_arms(options: &Options) -> bool {
    match arms::run(&Places::told(), options.calls, options.seed) {
        Ok((passed, failed)) => {
            println!("{passed} passed, {failed} failed");
            failed == 0
        }
        Err(problem) => {
            println!("{problem}\n0 passed, 1 failed");
            false
        }
    }
}

/// Every state the original reaches keeps the rules of SPECIFICATION 9.2 of what counts as a window, and can be loaded into a fresh one; every plan keeps
/// request 02's promises.
fn sound(options: &Options) -> bool {
    let mut failed = 0;
    let (calls, sequences) = drive(options, |_, call, outcome| {
        let mut broken = sound::broken_rules(&outcome.state);
        broken.extend(sound::broken_promises(call, outcome));
        if *Ordered::loaded(&outcome.state).state() != outcome.state {
            broken.push("loads as it was");
        }
        if !broken.is_empty() {
            failed += 1;
            println!("{broken:?} after {call:?}");
        }
    });
    println!("{calls} states in {sequences} sequences (seed {}) held against SPECIFICATION 9.2, and loaded", options.seed);
    println!("{} passed, {failed} failed", calls - failed);
    failed == 0
}
