//! One-line mistakes put into a copy of the original, one at a time: does a seeded run notice each?

use crate::places::Places;
use crate::substitutions::{POLICY, WINDOW, body_of, substituted};
use std::fs;
use std::path::Path;
use std::process::{Command, Stdio};
use std::time::Instant;

const LIST: &str = include_str!("../../mutants.txt");

struct Mutant {
    function: &'static str,
    occurrence: usize,
    old: &'static str,
    new: &'static str,
    /// Why no calls can notice it, if none can.
    unnoticeable: Option<&'static str>,
}

enum Verdict {
    Noticed(String),
    Same,
    NotBuilt(String),
}

/// Tries every listed mutant whose line contains `only`; returns how many went as listed and how many did not.
pub fn run(places: &Places, calls: u64, seed: u64, only: &str) -> (usize, usize) {
    let begin = Instant::now();
    let mutants: Vec<Mutant> = LIST.lines().filter(|line| !line.starts_with('#') && line.contains(only)).map(parse).collect();
    let (mut noticed, mut listed, mut failed) = (0, 0, 0);
    for (number, mutant) in mutants.iter().enumerate() {
        let verdict = try_mutant(places, mutant, calls, seed);
        let text = match (&verdict, mutant.unnoticeable) {
            (Verdict::Noticed(place), None) => {
                noticed += 1;
                format!("noticed   {place}")
            }
            (Verdict::Same, Some(reason)) => {
                listed += 1;
                format!("no calls  {reason}")
            }
            (Verdict::Same, None) => "SURVIVES".to_string(),
            (Verdict::Noticed(place), Some(_)) => format!("LISTED AS UNNOTICEABLE, noticed {place}"),
            (Verdict::NotBuilt(problem), _) => format!("NOT BUILT {problem}"),
        };
        failed = number + 1 - noticed - listed;
        println!("{:>3} {} #{} `{}` -> `{}`: {text}", number + 1, mutant.function, mutant.occurrence, mutant.old, mutant.new);
    }
    println!(
        "{} mistakes: {noticed} noticed, {listed} listed as changing nothing by calls, {failed} others; {} s",
        mutants.len(),
        begin.elapsed().as_secs()
    );
    (noticed + listed, failed)
}

fn parse(line: &'static str) -> Mutant {
    let fields: Vec<&'static str> = line.split('\t').collect();
    let [function, occurrence, old, new] = fields[..4] else {
        panic!("a mutant's line has four or five fields: {line}");
    };
    Mutant {
        function,
        occurrence: occurrence.parse().expect("an occurrence is a number"),
        old,
        new,
        unnoticeable: fields.get(4).copied(),
    }
}

fn try_mutant(places: &Places, mutant: &Mutant, calls: u64, seed: u64) -> Verdict {
    let folder = places.target.join("mutant");
    match write(mutant, &folder).and_then(|()| places.compile(&folder, "runners/mutant.rs")) {
        Ok(program) => drive(&program, calls, seed),
        Err(problem) => Verdict::NotBuilt(problem),
    }
}

/// Writes the two files with the one edit.
fn write(mutant: &Mutant, folder: &Path) -> Result<(), String> {
    fs::create_dir_all(folder).map_err(|error| error.to_string())?;
    for (file, name) in [(WINDOW, "download_window.rs"), (POLICY, "policy.rs")] {
        let mut text = substituted(file)?;
        if (mutant.function == "policy") == (file == POLICY) {
            text = edited(&text, mutant)?;
        }
        fs::write(folder.join(name), text).map_err(|error| error.to_string())?;
    }
    Ok(())
}

fn edited(text: &str, mutant: &Mutant) -> Result<String, String> {
    let body = match mutant.function {
        "-" | "policy" => 0..text.len(),
        function => body_of(text, function)?,
    };
    let places: Vec<usize> = text[body.clone()].match_indices(mutant.old).map(|(at, _)| body.start + at).collect();
    let at = *places.get(mutant.occurrence - 1).ok_or(format!("{:?} occurs {} times", mutant.old, places.len()))?;
    Ok(format!("{}{}{}", &text[..at], mutant.new, &text[at + mutant.old.len()..]))
}

/// A mutant that panics is noticed too.
fn drive(program: &Path, calls: u64, seed: u64) -> Verdict {
    let output = Command::new(program).arg(calls.to_string()).arg(seed.to_string()).stderr(Stdio::null()).output();
    match output {
        Err(error) => Verdict::NotBuilt(error.to_string()),
        Ok(output) if !output.status.success() => Verdict::Noticed("by a panic".to_string()),
        Ok(output) => match String::from_utf8_lossy(&output.stdout).trim() {
            "same" => Verdict::Same,
            place => Verdict::Noticed(place.to_string()),
        },
    }
}
