//! Counts of events by name, over the list in oracle/events.txt.

use crate::generator::Planning;
use std::cmp::Ordering;
use std::collections::{BTreeMap, BTreeSet};

const LIST: &str = include_str!("../../events.txt");
const PLANS: &str = "# planning.rs";
const DOCUMENT: &str = include_str!("../../EVENTS.md");

/// How often each event came.
#[derive(Default)]
pub struct Tally {
    counts: BTreeMap<(&'static str, &'static str), u64>,
}

impl Tally {
    pub fn hit(&mut self, name: &'static str) {
        self.count(name, "");
    }

    pub fn hit_if(&mut self, name: &'static str, happened: bool) {
        if happened {
            self.hit(name);
        }
    }

    pub fn either(&mut self, name: &'static str, yes: bool) {
        self.count(name, if yes { ": yes" } else { ": no" });
    }

    pub fn compare<T: Ord>(&mut self, name: &'static str, left: T, right: T) {
        let side = match left.cmp(&right) {
            Ordering::Less => ": less",
            Ordering::Equal => ": equal",
            Ordering::Greater => ": greater",
        };
        self.count(name, side);
    }

    fn count(&mut self, name: &'static str, side: &'static str) {
        *self.counts.entry((name, side)).or_insert(0) += 1;
    }

    /// The names of the events that came.
    pub fn happened(&self) -> BTreeSet<String> {
        self.by_name().into_keys().collect()
    }

    /// Every listed event with its count, in the list's order.
    pub fn table(&self) -> Vec<(String, u64)> {
        let counts = self.by_name();
        listed().into_iter().map(|name| (name.clone(), counts.get(&name).copied().unwrap_or(0))).collect()
    }

    /// What is wrong: an event that came and is not listed, one at 0 that is not documented as
    /// unreachable, one documented as unreachable that came or is not listed.
    pub fn problems(&self) -> Vec<String> {
        self.problems_of(Planning::Among)
    }

    /// The same of a run without plans, or of one that is made of them: the other events may be at 0 there.
    pub fn problems_of(&self, planning: Planning) -> Vec<String> {
        let in_question: BTreeSet<String> = listed_of(planning).into_iter().collect();
        let unreachable: BTreeSet<String> = unreachable().into_iter().map(|(name, _)| name).collect();
        let names: BTreeSet<String> = listed().into_iter().collect();
        let mut problems: Vec<String> =
            self.by_name().into_keys().filter(|name| !names.contains(name)).map(|name| format!("not listed: {name}")).collect();
        problems.extend(
            unreachable.iter().filter(|name| !names.contains(*name)).map(|name| format!("documented but not listed: {name}")),
        );
        for (name, count) in self.table().into_iter().filter(|(name, _)| in_question.contains(name)) {
            match (count, unreachable.contains(&name)) {
                (0, false) => problems.push(format!("at 0: {name}")),
                (1.., true) => problems.push(format!("documented as unreachable, came {count} times: {name}")),
                _ => {}
            }
        }
        problems
    }

    fn by_name(&self) -> BTreeMap<String, u64> {
        self.counts.iter().map(|((name, side), count)| (format!("{name}{side}"), *count)).collect()
    }
}

/// The list: `name` is one event, `name ?` two (yes, no), `name <=>` three (less, equal, greater).
fn listed() -> Vec<String> {
    listed_of(Planning::Among)
}

/// The events of calls but for plans, those of plans, or both; the list's last part is of plans.
fn listed_of(planning: Planning) -> Vec<String> {
    let (others, plans) = LIST.split_once(PLANS).expect("the list has a part for plans");
    let lines = match planning {
        Planning::Without => others.lines().chain("".lines()),
        Planning::Among => others.lines().chain(plans.lines()),
        Planning::Mostly => "".lines().chain(plans.lines()),
    };
    lines
        .map(str::trim)
        .filter(|line| !line.is_empty() && !line.starts_with('#'))
        .flat_map(|line| {
            let (name, sides): (&str, &[&str]) = if let Some(name) = line.strip_suffix(" <=>") {
                (name, &[": less", ": equal", ": greater"])
            } else if let Some(name) = line.strip_suffix(" ?") {
                (name, &[": yes", ": no"])
            } else {
                (line, &[""])
            };
            sides.iter().map(|side| format!("{name}{side}")).collect::<Vec<_>>()
        })
        .collect()
}

/// EVENTS.md's table of events that no calls can reach, with the reasons.
pub fn unreachable() -> Vec<(String, String)> {
    DOCUMENT
        .lines()
        .filter_map(|line| line.strip_prefix("| `")?.split_once("` | "))
        .map(|(name, reason)| (name.to_string(), reason.trim_end_matches(" |").to_string()))
        .collect()
}
