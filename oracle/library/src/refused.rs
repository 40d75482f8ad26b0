//! Refusals through the library against the list of SPECIFICATION 4, written down independently in `raw`: every number from every call, two causes at
//! once, both sides of every limit; words and report are as they were, to the byte.

use crate::lent::{Lent, Said};
use calls::{State, Window as _};
use layout::{HEAD, encode, is_window};
use ordered::Original;
use raw::{Call, causes, kind};
use refusals::samples::{Try, list, request, samples, variations};
use refusals::windows::{self, Window};
use std::collections::{BTreeMap, BTreeSet};

#[derive(Default)]
pub struct Refused {
    pub tries: u64,
    /// By call and number, 0 for accepted.
    pub counts: BTreeMap<String, BTreeMap<u8, u64>>,
    /// By call, the sets of two causes or more.
    pub together: BTreeMap<String, BTreeSet<Vec<u8>>>,
    pub failures: Vec<String>,
}

impl Refused {
    pub fn run(&mut self, seed: u64) {
        let (showing, others) = windows::generated(seed);
        for window in windows::chosen().iter().chain(&showing).chain(&others) {
            self.on_window(window);
        }
        for window in windows::chosen().iter().take(2).chain(&showing) {
            self.on_other_words(window);
        }
        self.look_for_gaps();
    }

    /// Every way to spoil every call, and every two of them.
    fn on_window(&mut self, window: &Window) {
        let words = encode(&window.state);
        for call in &tried(&window.state) {
            for first in variations(call, &window.state) {
                self.one(&first.call, &words, first.places);
            }
            for (_, tried) in combined(call, window) {
                self.one(&tried.call, &words, tried.places);
            }
        }
    }

    /// Words of a wrong length, or that are no window, with every other cause beside.
    fn on_other_words(&mut self, window: &Window) {
        let whole = encode(&window.state);
        let mut lent: Vec<Vec<u64>> = [0, 1, 4095, 4097, 8192].map(|length| resized(&whole, length)).to_vec();
        for (word, value) in [(HEAD, 0), (HEAD, 2), (HEAD + 511, 1), (2048, 1), (HEAD + 1, 257), (HEAD + 3, 1 << 50)] {
            lent.push(whole.clone());
            lent.last_mut().expect("one was pushed")[word] = value;
        }
        for call in &tried(&window.state) {
            let tries: Vec<Try> =
                variations(call, &window.state).into_iter().chain(combined(call, window).into_values()).collect();
            for words in &lent {
                tries.iter().for_each(|tried| self.one(&tried.call, words, tried.places));
            }
        }
    }

    pub fn one(&mut self, call: &Call, words: &[u64], places: usize) {
        let causes = causes(call, words, places);
        let number = causes.first().copied().unwrap_or(0);
        let kind = kind(call);
        self.tries += 1;
        *self.counts.entry(kind.clone()).or_default().entry(number).or_default() += 1;
        if causes.len() > 1 {
            self.together.entry(kind).or_default().insert(causes);
        }
        if let Err(problem) = answers(call, words, places, number) {
            self.failures.push(format!("{call:?} on {} words and {places} places: {problem}", words.len()));
        }
    }

    /// Every call meets every number that SPECIFICATION 4.3 has for it.
    fn look_for_gaps(&mut self) {
        for (kind, counts) in &self.counts {
            let met: BTreeSet<u8> = counts.keys().copied().collect();
            let wanted: BTreeSet<u8> = numbers(kind).into_iter().collect();
            if met != wanted {
                self.failures.push(format!("{kind} met {met:?}, and not {wanted:?}"));
            }
        }
    }

    pub fn table(&self) -> Vec<String> {
        let line = |(kind, counts): (&String, &BTreeMap<u8, u64>)| {
            let shown: Vec<String> = NUMBERS
                .into_iter()
                .map(|number| counts.get(&number).map_or("–".to_string(), |count| count.to_string()))
                .collect();
            let sets = self.together.get(kind).map_or(0, BTreeSet::len);
            format!("| {kind} | {} | {sets} |", shown.join(" | "))
        };
        self.counts.iter().map(line).collect()
    }
}

/// In the order in which they are asked for; 0 for accepted.
pub const NUMBERS: [u8; 12] = [0, 1, 2, 3, 4, 5, 6, 7, 8, 9, 12, 10];

/// Plans only where the library plans.
fn tried(state: &State) -> Vec<Call> {
    samples(state).into_iter().filter(|call| cfg!(planning) || call.plan().is_none()).collect()
}

fn resized(words: &[u64], length: usize) -> Vec<u64> {
    let mut words = words.to_vec();
    words.resize(length, 0);
    words
}

/// One call for each set of two causes or more that this call can have at once.
fn combined(call: &Call, window: &Window) -> BTreeMap<Vec<u8>, Try> {
    let words = encode(&window.state);
    let mut found: BTreeMap<Vec<u8>, Try> = BTreeMap::new();
    for first in variations(call, &window.state) {
        for mut second in variations(&first.call, &window.state) {
            second.places = second.places.min(first.places);
            let causes = causes(&second.call, &words, second.places);
            if causes.len() > 1 {
                found.entry(causes).or_insert(second);
            }
        }
    }
    found
}

/// The number is the wanted one; refused, nothing was written, and accepted, the words are a window.
pub fn answers(call: &Call, words: &[u64], places: usize, number: u8) -> Result<(), String> {
    let mut lent = Lent::new(words, places);
    let filler = lent.fill_report(words.len() as u64);
    let said = lent.perform(call);
    if !lent.guards_whole() {
        return Err("memory beside words and report was written".to_string());
    }
    match said {
        Said::Refused(given) if given == u64::from(number) && number > 0 => {
            let untouched = lent.words() == words && lent.report().iter().all(|release| *release == filler);
            untouched.then_some(()).ok_or_else(|| format!("refused by {number}, and wrote"))
        }
        Said::Answered(..) if number == 0 => is_window(lent.words()).then_some(()).ok_or("left no window".to_string()),
        other => Err(format!("{other:?}, and not {number}")),
    }
}

/// SPECIFICATION 4 and request 02: the numbers that each call can meet, and 0.
fn numbers(kind: &str) -> Vec<u8> {
    let timeless = [
        "CreditDuplicateDelivery",
        "RetainOwnedBy",
        "ConfirmColdFrontHedge",
        "ClearPreferredPeer",
        "ProbeOffered",
        "HedgeOffered",
    ];
    let seats = ["ComputeRequestCapacity", "IsDownloading", "PendingCountFor", "OwnerQueueStart"];
    match kind {
        "Open" => vec![0, 1, 4, 5, 6],
        "MarkRequested" => vec![0, 1, 2, 4, 6, 7, 8],
        "MarkReceivedFrom" => vec![0, 1, 2, 3, 4, 6, 9],
        "CreditDeliveryFrom" | "RejectDelivery" => vec![0, 1, 2, 3, 4, 6],
        "ExpirePending" | "RequeueForRetry" | "ReleasePending" | "RetireBefore" => vec![0, 1, 2, 3, 4],
        "RetainOwnedBy" => vec![0, 1, 2, 3, 6],
        "MarkOwnedFetch" | "MarkPeerUnresponsive" | "ConfirmPrefixProbe" => vec![0, 1, 2, 4, 6],
        "PeerHasExpiredPending" | "PeerInStallerCooldown" => vec![0, 1, 2, 4, 6],
        "ObserveBlocked" | "SetFanoutEligiblePeers" | "ExpiredPendingCapacity" => vec![0, 1, 2, 4],
        "ClearPreferredPeer" => vec![0, 1, 2],
        "NextPeerRequest" | "NextPeerRequestAllowingRetry" => vec![0, 1, 2, 3, 4, 6, 10, 12],
        kind if timeless.contains(&kind) || seats.contains(&kind) => vec![0, 1, 2, 6],
        _ => vec![0, 1, 2],
    }
}

/// The figure of SPECIFICATION 11: 256 pending, a request with one more hash is 8; and how many the Rust then has pending.
pub fn one_more_than_256() -> (bool, usize) {
    let window = &windows::chosen()[3];
    let call = request(window.state.last_clock, list(0..1), 1);
    let mut original = Original::loaded(&window.state);
    let asked = calls::Call::MarkRequested {
        clock: window.state.last_clock,
        owner: 9,
        entries: vec![(windows::hash(1_000_000), 500)],
        next_request_height: 0,
        byte_headroom: 1 << 30,
        count_headroom: 9,
    };
    (answers(&call, &encode(&window.state), 256, 8).is_ok(), original.call(&asked).state.pending.len())
}
