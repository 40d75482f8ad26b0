//! Writes closed antt checks of the definitions' refusals: every number from every call, two causes at once, and both sides of every
//! limit. What is expected comes from `raw`, the list of SPECIFICATION 4 written down independently.
//! refusals SEED MODEL OUT: MODEL is the folder of the model's specs, OUT the crate folder to write.

use calls::Answer;
use calls::random::Random;
use definitions::checks::{LENT, digest, lent_plan_words, theorem};
use definitions::{closed, spell};
use layout::{HEAD, WORDS, encode};
use raw::{Call, causes, kind, refusal};
use refusals::samples::{Try, samples, variations};
use refusals::tables;
use refusals::windows::{self, Window};
use std::collections::{BTreeMap, BTreeSet};
use std::path::Path;
use std::{env, io};

/// Numbers for which a call is performed in full, which takes seconds.
const PERFORMED: [u8; 7] = [1, 2, 3, 6, 9, 10, 12];

/// How often each call was refused by each number, 0 for accepted.
#[derive(Default)]
struct Counts(BTreeMap<String, BTreeMap<u8, usize>>);

/// Words that are lent: so many of a window's, some of them changed.
struct Lent<'a> {
    window: &'a Window,
    length: usize,
    changed: Vec<(usize, u64)>,
}

fn main() -> io::Result<()> {
    let arguments: Vec<String> = env::args().skip(1).collect();
    let [seed, model, out] = &arguments[..] else {
        eprintln!("wanted: SEED MODEL OUT");
        std::process::exit(2);
    };
    let seed: u64 = seed.parse().unwrap_or_else(|_| panic!("{seed} is not a number"));
    let mut counts = Counts::default();
    let (chosen, (showing, others)) = (windows::chosen(), windows::generated(seed));
    let mut modules: Vec<(String, String)> = Vec::new();
    for (number, window) in chosen.iter().enumerate() {
        modules.push((format!("Refusals{number}"), on_chosen(window, &mut counts)));
    }
    modules.push(("Generated".to_string(), on_generated(showing.iter().chain(&others), seed, &mut counts)));
    modules.push(("Lent".to_string(), on_words(&chosen[1], &mut counts)));
    modules.push(("Outcomes".to_string(), outcomes(&chosen[1])));
    let mut changes = 0;
    for (number, window) in chosen[1..2].iter().chain(&showing).enumerate() {
        let (text, count) = verdicts(window);
        modules.push((format!("Verdicts{number}"), text));
        changes += count;
    }
    closed::write(Path::new(out), Path::new(model), &modules)?;
    counts.print();
    println!(
        "{} calls tried, {changes} changes of a window's words judged, {} calls performed in full",
        counts.total(),
        PERFORMED.len()
    );
    Ok(())
}

/// Every way to spoil every call; on the windows with few places left those that ask for entries.
fn on_chosen(window: &Window, counts: &mut Counts) -> String {
    let narrow = window.state.pending.len() > 100;
    let mut text = String::new();
    for call in samples(&window.state) {
        let asks = matches!(call, Call::MarkRequested { .. } | Call::MarkOwnedFetch { .. });
        let opens = matches!(call, Call::Open { .. });
        if narrow && !asks || opens && window.name != "some" {
            continue;
        }
        let mut tries = variations(&call, &window.state);
        if window.name == "some" {
            tries.extend(combined(&call, window));
        }
        text += &refuses(window, &kind(&call), &tries, counts);
    }
    text
}

/// One call for each set of two causes or more that this call can have at once.
fn combined(call: &Call, window: &Window) -> Vec<Try> {
    let words = encode(&window.state);
    let mut found: BTreeMap<Vec<u8>, Try> = BTreeMap::new();
    for first in variations(call, &window.state) {
        for mut second in variations(&first.call, &window.state) {
            second.places = second.places.min(first.places);
            let causes = causes(&second.call, &words, second.places);
            if causes.len() > 1 {
                found.entry(causes).or_insert(second);
            }
        }
    }
    found.into_values().collect()
}

/// On windows of generated calls some of the ways, at random.
fn on_generated<'a>(windows: impl Iterator<Item = &'a Window>, seed: u64, counts: &mut Counts) -> String {
    let mut random = Random::new(seed);
    let mut text = String::new();
    for window in windows {
        let mut tries: Vec<Try> = Vec::new();
        for call in samples(&window.state).iter().filter(|call| !matches!(call, Call::Open { .. })) {
            let all = variations(call, &window.state);
            tries.extend((0..3).map(|_| all[random.below(all.len() as u64) as usize].clone()));
        }
        text += &refuses(window, "all", &tries, counts);
    }
    text
}

fn refuses(window: &Window, of: &str, tries: &[Try], counts: &mut Counts) -> String {
    let words = encode(&window.state);
    let expected: Vec<u8> = tries.iter().map(|tried| counts.of(tried, &words)).collect();
    let arguments = [
        spell::list(spell::calls(&window.calls)),
        places(tries),
        spell::list(tries.iter().map(|tried| spell::call(&tried.call))),
    ];
    theorem(&format!("{}-{of}", window.name), "refuses", &arguments.join(") ("), &spell::list(expected))
}

fn places(tries: &[Try]) -> String {
    spell::list(tries.iter().map(|tried| tried.places))
}

/// Words of a wrong length, or that are no window, from every call, and with other causes beside; words changed in each part.
fn on_words(window: &Window, counts: &mut Counts) -> String {
    let lent = |length, changed: &[(usize, u64)]| Lent { window, length, changed: changed.to_vec() };
    let all: Vec<Try> = samples(&window.state).into_iter().map(|call| Try { call, places: 256 }).collect();
    let spoiled: Vec<Try> = all.iter().flat_map(|tried| most_spoiled(&tried.call, window)).collect();
    let sweep: Vec<Try> = all.iter().filter(|tried| matches!(tried.call, Call::ExpirePending { .. })).cloned().collect();
    let mut text = String::new();
    for length in [0, 4095, 4097] {
        text += &refuses_words(&format!("length-{length}"), &lent(length, &[]), &all, counts);
    }
    text += &refuses_words("length-and-others", &lent(4095, &[]), &spoiled, counts);
    text += &refuses_words("format", &lent(WORDS, &[(HEAD, 2)]), &all, counts);
    text += &refuses_words("format-and-others", &lent(WORDS, &[(HEAD, 0)]), &spoiled, counts);
    text += &refuses_words("as-they-are", &lent(WORDS, &[]), &sweep, counts);
    for (word, value) in sample_of_parts() {
        text += &refuses_words(&format!("word-{word}"), &lent(WORDS, &[(word, value)]), &sweep, counts);
    }
    text
}

/// Every other cause at once, as far as the call can have them.
fn most_spoiled(call: &Call, window: &Window) -> Option<Try> {
    let words = encode(&window.state);
    let alone = variations(call, &window.state).into_iter().find(|tried| !causes(&tried.call, &words, tried.places).is_empty());
    combined(call, window).into_iter().max_by_key(|tried| causes(&tried.call, &words, tried.places).len()).or(alone)
}

/// A word of each column, each table and the head, changed so that the window has a record, a time, a key or a racer too few or too many.
fn sample_of_parts() -> Vec<(usize, u64)> {
    let columns = [(0, u64::MAX), (5 * 256, 1 << 62), (7 * 256 + 4, 79), (3 * 256 + 5, 1)];
    let tables = [(8 * 256 + 255, 1), (9 * 256 + 7, 0), (11 * 256, 256), (13 * 256, 1)];
    let head = [(HEAD + 96, 1), (HEAD + 511, 1)];
    [&columns[..], &tables, &head].concat()
}

fn refuses_words(name: &str, lent: &Lent, tries: &[Try], counts: &mut Counts) -> String {
    let words = lent.words();
    let expected: Vec<u8> = tries.iter().map(|tried| counts.of(tried, &words)).collect();
    let arguments = [lent.spelled(), places(tries), spell::list(tries.iter().map(|tried| spell::call(&tried.call)))].join(") (");
    theorem(name, "refuses_words", &arguments, &spell::list(expected))
}

impl Lent<'_> {
    fn words(&self) -> Vec<u64> {
        let mut words = encode(&self.window.state);
        self.changed.iter().for_each(|(word, value)| words[*word] = *value);
        words.resize(self.length, 0);
        words
    }

    fn spelled(&self) -> String {
        let changed = spell::list(self.changed.iter().flat_map(|(word, value)| [*word as u64, *value]));
        [spell::list(spell::calls(&self.window.calls)), self.length.to_string(), changed].join(") (")
    }
}

/// For some numbers a call in full: the answer is the number, words and report are as they were.
fn outcomes(window: &Window) -> String {
    let whole = encode(&window.state);
    let mut text = String::new();
    for number in PERFORMED {
        let length = if number == 1 { 4097 } else { WORDS };
        let changed = if number == 2 { vec![(HEAD + 511, 1)] } else { Vec::new() };
        let lent = Lent { window, length, changed };
        let refused = |tried: &Try| number < 3 || refusal(&tried.call, &whole, tried.places) == number;
        let every = samples(&window.state).into_iter().skip(usize::from(number == 2));
        let tries: Vec<Try> = every.flat_map(|call| variations(&call, &window.state)).filter(refused).collect();
        let tried = tries.last().expect("every number is provoked");
        assert_eq!(refusal(&tried.call, &lent.words(), tried.places), number, "{tried:?}");
        let report: Vec<u64> = (0..tried.places).flat_map(|_| LENT).collect();
        let plan = lent_plan_words(&Answer::Done);
        let expected = [vec![number.into()], lent.words(), report, plan].map(|words| digest(&words));
        let arguments = [lent.spelled(), tried.places.to_string(), spell::call(&tried.call)].join(") (");
        text += &theorem(&format!("outcome-{number}"), "leaves", &arguments, &spell::list(expected));
    }
    text
}

/// Changed words of a window, a check for each part, and how many there are.
fn verdicts(window: &Window) -> (String, usize) {
    let mut by_part: BTreeMap<usize, Vec<tables::Change>> = BTreeMap::new();
    for change in tables::changes(window) {
        by_part.entry(tables::part(change.words[0].0).0).or_default().push(change);
    }
    let count = by_part.values().map(Vec::len).sum();
    let check = |(part, changes): (usize, Vec<tables::Change>)| {
        let spelled = changes.iter().map(|change| format!("({})", spell::list(change.words.iter().flat_map(place_and_value))));
        let arguments = [spell::list(spell::calls(&window.calls)), spell::list(spelled)].join(") (");
        let expected = spell::list(changes.iter().map(|change| u8::from(change.counts)));
        theorem(&format!("{}-part-{part}", window.name), "counts_as", &arguments, &expected)
    };
    (by_part.into_iter().map(check).collect(), count)
}

fn place_and_value((word, value): &(usize, u64)) -> [u64; 3] {
    let (part, place) = tables::part(*word);
    [part as u64, place as u64, *value]
}

impl Counts {
    /// The number that a try is refused by, counted.
    fn of(&mut self, tried: &Try, words: &[u64]) -> u8 {
        let number = refusal(&tried.call, words, tried.places);
        *self.0.entry(kind(&tried.call)).or_default().entry(number).or_default() += 1;
        number
    }

    fn total(&self) -> usize {
        self.0.values().flat_map(BTreeMap::values).sum()
    }

    /// A line for each call: each number, and how often it came.
    fn print(&self) {
        for (kind, numbers) in &self.0 {
            let shown: Vec<String> = numbers.iter().map(|(number, count)| format!("{number}: {count}")).collect();
            println!("{kind:<26} {}", shown.join("  "));
        }
        let numbers: BTreeSet<u8> = self.0.values().flat_map(BTreeMap::keys).copied().collect();
        assert!(numbers.into_iter().eq((0..=10).chain([12])), "every number is provoked");
    }
}
