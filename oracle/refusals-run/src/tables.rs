//! Windows with a word changed, on either side of each limit, and whether they still count as one by the independent reader.

use crate::windows::Window;
use calls::{Clock, MAX_CLOCK};
use layout::{HEAD, HEAD_USED, PLACES, encode, is_window};
use std::collections::BTreeSet;

/// Changed words with what they hold then, and whether the words still count.
pub struct Change {
    pub words: Vec<(usize, u64)>,
    pub counts: bool,
}

/// Part and place of a word, as the closed checks name them.
pub fn part(word: usize) -> (usize, usize) {
    if word < HEAD { (word / PLACES, word % PLACES) } else { (HEAD / PLACES, word - HEAD) }
}

/// For each word of interest the values on both sides of every limit, and the outermost ones.
pub fn changes(window: &Window) -> Vec<Change> {
    let words = encode(&window.state);
    let values = values(window);
    let mut changes: Vec<Change> = Vec::new();
    for word in places(window, &words) {
        let near = [words[word].saturating_sub(1), words[word], words[word].saturating_add(1)];
        let tried: BTreeSet<u64> = values.iter().copied().chain(near).collect();
        let verdicts: Vec<(u64, bool)> = tried.into_iter().map(|value| (value, counts(&words, &[(word, value)]))).collect();
        let at_limits = verdicts.windows(2).filter(|pair| pair[0].1 != pair[1].1).flatten();
        let kept: BTreeSet<&(u64, bool)> = at_limits.chain(verdicts.first()).chain(verdicts.last()).collect();
        changes.extend(kept.into_iter().map(|(value, counts)| Change { words: vec![(word, *value)], counts: *counts }));
    }
    changes.extend(together(window, &words));
    changes
}

fn counts(words: &[u64], changed: &[(usize, u64)]) -> bool {
    let mut words = words.to_vec();
    changed.iter().for_each(|(word, value)| words[*word] = *value);
    is_window(&words)
}

/// Every limit of docs/LAYOUT.md, and the window's own times.
fn values(window: &Window) -> BTreeSet<u64> {
    let state = &window.state;
    let limits =
        [0, 1, 2, 8, 79, 255, 256, 65_535, u64::from(u32::MAX), 1 << 40, 1_000_000_000_000_000, MAX_CLOCK / 1_000_000 + 1];
    let starts = state.owner_downloading_since.iter().map(|(_, start)| *start);
    let times: Vec<Clock> = state.pending.iter().map(|entry| entry.requested_at).chain(starts).collect();
    let clocks = [state.last_clock, MAX_CLOCK, state.pending.len() as u64, state.pending_bytes];
    let all = limits.into_iter().chain(times).chain(clocks);
    all.flat_map(|value| [value, value + 1, value + 2]).chain([u64::MAX]).collect()
}

/// The head's words and some behind; of each column and table some that are in use and some that are not.
fn places(window: &Window, words: &[u64]) -> BTreeSet<usize> {
    let count = window.state.pending.len();
    let mut places: BTreeSet<usize> = (HEAD..HEAD + HEAD_USED + 2).chain([HEAD + 102, HEAD + 103, HEAD + 511]).collect();
    for column in 0..9 {
        let of_interest = [0, 1, count.saturating_sub(1), count, PLACES - 1];
        places.extend(of_interest.map(|place| PLACES * column + place.min(PLACES - 1)));
    }
    for table in 9..14 {
        let first = PLACES * table;
        let filled: Vec<usize> = (first..first + PLACES).filter(|word| words[*word] > 0).collect();
        let empty: Vec<usize> = (first..first + PLACES).filter(|word| words[*word] == 0).collect();
        let owned = window.state.pending.iter().map(|entry| first + usize::from(entry.owner)).take(3);
        places.extend(filled.iter().take(3).chain(empty.iter().take(2)).copied().chain(owned).chain([first + PLACES - 1]));
    }
    places
}

/// An estimate with the total and the high water that belong to it; a high water alone.
fn together(window: &Window, words: &[u64]) -> Vec<Change> {
    let Some(entry) = window.state.pending.first() else { return Vec::new() };
    let others = window.state.pending_bytes - entry.estimated_bytes;
    [79, 80, 1 << 20, u64::from(u32::MAX), 1 << 32]
        .map(|estimate| {
            let total = others + estimate;
            let words_changed = vec![(7 * PLACES, estimate), (HEAD + 3, total), (HEAD + 5, total)];
            Change { counts: counts(words, &words_changed), words: words_changed }
        })
        .into()
}
