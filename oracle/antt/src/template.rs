//! The antt files' fixed parts: `Run.antt`, completed by the names of every definition that a run unfolds, and a header.

use std::path::Path;
use std::{fs, io};

pub const HEADER: &str = include_str!("../Header.antt.txt");

/// `Run.antt`: its last definitions, the tests, open all that a run uses, so that a check names its test alone and is `refl`.
pub fn run(model: &Path) -> io::Result<String> {
    let modules = [
        "Lists",
        "Numbers",
        "Hash",
        "Window",
        "Records",
        "Seats",
        "Time",
        "Pace",
        "Cooling",
        "Capacity",
        "Reasons",
        "LettingGo",
        "Races",
        "Calls",
        "Planning",
        "Observation",
        "Layout",
        "Refusals",
        "Perform",
        "Getdata",
    ];
    let mut imports = String::new();
    let mut opened: Vec<String> = OWN.iter().map(ToString::to_string).collect();
    for module in modules {
        let names = unfoldable(&fs::read_to_string(model.join(format!("{module}.antt")))?);
        let more = EXTRA.iter().filter(|(of, _)| *of == module).map(|(_, name)| (*name).to_string());
        let all: Vec<String> = names.iter().cloned().chain(more).collect();
        imports += &format!("use Rattle.model.specs.{module}.{{{}}}\n", all.join(", "));
        opened.extend(names);
    }
    let opened = opened.join(" ");
    let tests: String = TESTS.iter().map(|(about, name, of, is)| test(about, name, of, is, &opened)).collect();
    Ok(include_str!("../Run.antt.txt").replace("@IMPORTS@", &imports).replace("@RUN@", &tests))
}

/// The tests: what is said of them, name, arguments with their types, and what must equal the last argument.
const TESTS: [(&str, &str, &[(&str, &str)], &str); 10] = [
    ("whether a run from an opening on gives these numbers", "runs", &[("cs", "List Call")], "digests cs nowhere"),
    ("whether its last call, by words, gives these", "ends", &[("cs", "List Call"), ("c", "Call")], "last_by_words cs c"),
    (
        "whether calls on the window that a run leaves, with reports of these lengths, are refused by these numbers",
        "refuses",
        &[("cs", "List Call"), ("rooms", "List ℕ"), ("xs", "List Call")],
        "refusals_in (end_of cs nowhere) rooms xs",
    ),
    (
        "the same on its words, n of them, some of them changed",
        "refuses_words",
        &[("cs", "List Call"), ("n", "ℕ"), ("l", "List ℕ"), ("rooms", "List ℕ"), ("xs", "List Call")],
        "refusals_by_words (cut n l (encode (end_of cs nowhere))) rooms xs",
    ),
    (
        "whether its table, changed in these ways, counts as a window",
        "counts_as",
        &[("cs", "List Call"), ("ls", "List (List ℕ)")],
        "verdicts (table (end_of cs nowhere)) ls",
    ),
    (
        "whether a call on its words, n of them, some of them changed, and on so many report places, answers and leaves these",
        "leaves",
        &[("cs", "List Call"), ("n", "ℕ"), ("l", "List ℕ"), ("room", "ℕ"), ("x", "Call")],
        "outcome_digests (perform x (cut n l (encode (end_of cs nowhere))) (replicate room lent))",
    ),
    (
        "whether a list of words, written as getdata into outputs of these lengths, answers and leaves these",
        "writes_getdata",
        &[("ws", "List ℕ"), ("lengths", "List ℕ")],
        "written_getdata ws lengths",
    ),
    (
        "whether a payload, read into lists of so many words, answers and leaves these",
        "reads_getdata",
        &[("p", "List ℕ"), ("rooms", "List ℕ")],
        "read_into p rooms",
    ),
    (
        "the same, changed in several ways",
        "reads_changed",
        &[("p", "List ℕ"), ("n", "ℕ"), ("ls", "List (List ℕ)")],
        "read_changed p n ls",
    ),
    ("the same, cut to several lengths", "reads_cut", &[("p", "List ℕ"), ("n", "ℕ"), ("ks", "List ℕ")], "read_cut p n ks"),
];

fn test(about: &str, name: &str, arguments: &[(&str, &str)], is: &str, opened: &str) -> String {
    let types: String = arguments.iter().map(|(_, kind)| format!("{kind} → ")).collect();
    let names: String = arguments.iter().map(|(name, _)| format!("{name} ")).collect();
    format!(
        "-- {about}\nunfoldable pub {name} : {types}List ℕ → Bool\nunfolding {opened}\n{name} {names}expected = equal ({is}) expected\n\n"
    )
}

/// Definitions of `Run.antt` itself, and of the library, that a run opens.
const OWN: [&str; 29] = [
    "equal",
    "digest",
    "filled",
    "entry_words",
    "entries_words",
    "gone_words",
    "state_words",
    "deed_words",
    "digests",
    "end_of",
    "plan_words",
    "outcome_digests",
    "last_by_words",
    "refusals_in",
    "changed_at",
    "cut",
    "refusals_by_words",
    "entry_changed",
    "table_changed",
    "table_with",
    "verdicts",
    "pattern",
    "written_words",
    "written_getdata",
    "read_words",
    "read_into",
    "read_changed",
    "read_cut",
    "ones ones_in",
];

/// Names that `Run.antt` uses beside the definitions it opens.
const EXTRA: [(&str, &str); 19] = [
    ("Layout", "Table"),
    ("Layout", "blank"),
    ("Window", "Window"),
    ("Hash", "hash"),
    ("Refusals", "Call"),
    ("Refusals", "opens"),
    ("Refusals", "changes"),
    ("Refusals", "queries"),
    ("Refusals", "checks"),
    ("Refusals", "query_checks"),
    ("Refusals", "refusal"),
    ("Perform", "Deed"),
    ("Perform", "does"),
    ("Perform", "Answer"),
    ("Perform", "refused"),
    ("Perform", "says"),
    ("Perform", "Outcome"),
    ("Observation", "Look"),
    ("Planning", "Lent"),
];

fn unfoldable(text: &str) -> Vec<String> {
    text.lines()
        .filter_map(|line| line.trim_start().strip_prefix("unfoldable pub "))
        .filter_map(|rest| rest.split(' ').next())
        .map(str::to_string)
        .collect()
}
