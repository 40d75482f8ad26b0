//! Every change made to the original's text before it is built: the one place that lists them.
//!
//! The original is read at build time. A substitution whose left side does not occur exactly as often as stated fails the build.

use std::env;
use std::fs;

/// The original's two files, each by the setting that holds its path: `find_source` of oracle/common.sh sets both.
pub const WINDOW: &str = "KOFUDILE_WINDOW";
pub const POLICY: &str = "KOFUDILE_POLICY";

pub enum Change {
    /// Puts a line before the file's first.
    Prepend(&'static str),
    /// Replaces `from`, which occurs `times` times.
    Replace { times: usize, from: &'static str, to: &'static str },
    /// Puts a statement before the first of the function of this name.
    First { function: &'static str, statement: &'static str },
}

pub struct Substitution {
    pub file: &'static str,
    pub change: Change,
    pub reason: &'static str,
}

pub const SUBSTITUTIONS: &[Substitution] = &[
    Substitution {
        file: WINDOW,
        change: Change::Prepend(
            "use super::shims::{bitcoin_rs_consensus, bitcoin_rs_execution, bitcoin_rs_wire, hashbrown, metrics, smallvec, tracing};",
        ),
        reason: "these crates are not available: the file's own `use` lines find our shims under the same names",
    },
    Substitution {
        file: POLICY,
        change: Change::Prepend(
            "use super::super::shims::{bitcoin, bitcoin_rs_consensus, bitcoin_rs_execution, bitcoin_rs_wire};",
        ),
        reason: "as above",
    },
    Substitution {
        file: WINDOW,
        change: Change::Replace { times: 1, from: "crate::p2p", to: "super::shims::p2p" },
        reason: "the stager lives in the node's crate, which is not here; ours hands in what SPECIFICATION 1.6 says is handed in",
    },
    Substitution {
        file: WINDOW,
        change: Change::Replace {
            times: 1,
            from: "mod policy;",
            to: "mod policy { include!(concat!(env!(\"OUT_DIR\"), \"/policy.rs\")); }",
        },
        reason: "the file is included from the build's folder, so the module needs its place said",
    },
    Substitution {
        file: WINDOW,
        change: Change::Replace {
            times: 1,
            from: "#[cfg(test)]\nmod tests;",
            to: "pub(crate) mod driver { include!(concat!(env!(\"CARGO_MANIFEST_DIR\"), \"/../driver.rs\")); }",
        },
        reason: "a child module may read private fields: the driver stands where the tests did",
    },
    Substitution {
        file: WINDOW,
        change: Change::Replace { times: 1, from: "sort_unstable_by_key", to: "sort_by_key" },
        reason: "a stable sort, so that runs can be repeated and the lower hash wins among equal heights",
    },
    Substitution {
        file: WINDOW,
        change: Change::Replace { times: 1, from: "PartialEq, Eq, Hash)]", to: "PartialEq, Eq, Hash, PartialOrd, Ord)]" },
        reason: "the staller key is a map's key, and the ordered maps need an order on it",
    },
    Substitution {
        file: WINDOW,
        change: Change::First {
            function: "staged_byte_headroom",
            statement: "if let Some(handed) = stager.byte_headroom() { return handed; }",
        },
        reason: "SPECIFICATION 1.6: the staged byte headroom is handed in; the original's own formula answers where a plan's call says what is staged",
    },
    Substitution {
        file: WINDOW,
        change: Change::First {
            function: "staged_count_headroom",
            statement: "if let Some(handed) = stager.count_headroom() { return handed; }",
        },
        reason: "SPECIFICATION 1.6: the staged count headroom is handed in, as above; the formula cannot make every number (it is tied to a setting)",
    },
];

/// Where the text of a function's body lies, braces included.
pub fn body_of(text: &str, function: &str) -> Result<std::ops::Range<usize>, String> {
    let heads: Vec<usize> = ["(", "<"]
        .iter()
        .flat_map(|open| text.match_indices(&format!("fn {function}{open}")).map(|(at, _)| at).collect::<Vec<_>>())
        .collect();
    let [head] = heads[..] else {
        return Err(format!("function {function} occurs {} times", heads.len()));
    };
    let open = text[head..].find('{').ok_or(format!("function {function} has no body"))? + head;
    let mut depth = 0_usize;
    for (at, byte) in text[open..].bytes().enumerate() {
        match byte {
            b'{' => depth += 1,
            b'}' => depth -= 1,
            _ => continue,
        }
        if depth == 0 {
            return Ok(open..open + at + 1);
        }
    }
    Err(format!("function {function} does not end"))
}

fn apply(text: &str, change: &Change) -> Result<String, String> {
    match change {
        Change::Prepend(line) => Ok(format!("{line}\n{text}")),
        Change::Replace { times, from, to } => {
            let found = text.matches(from).count();
            if found != *times {
                return Err(format!("{from:?} occurs {found} times, not {times}"));
            }
            Ok(text.replace(from, to))
        }
        Change::First { function, statement } => {
            let body = body_of(text, function)?;
            Ok(format!("{}{{ {statement}{}", &text[..body.start], &text[body.start + 1..]))
        }
    }
}

/// Where one file of the original stands.
pub fn path_of(file: &str) -> Result<String, String> {
    env::var(file).map_err(|_| format!("{file} is not set: use the scripts"))
}

/// The text of one file of the original after its substitutions.
pub fn substituted(file: &str) -> Result<String, String> {
    let path = path_of(file)?;
    let mut text = fs::read_to_string(&path).map_err(|error| format!("{path}: {error}"))?;
    for substitution in SUBSTITUTIONS.iter().filter(|substitution| substitution.file == file) {
        text = apply(&text, &substitution.change)
            .map_err(|problem| format!("{file}: {problem} (substitution: {})", substitution.reason))?;
    }
    Ok(text)
}
