//! SPECIFICATION 4, and what request 02 adds to it.

use crate::Call;
use crate::data::ENOUGH;
use calls::{MAX_BODY, MAX_CLOCK, MAX_PENDING, SEATS, State};
use layout::{WORDS, decode, hash_words, is_window, settings_in_range};
use std::collections::BTreeSet;

/// The report's least length.
const LEAST_REPORT: usize = 256;

/// The number that a call answers on lent words and a report of so many places; 0 where it is accepted.
pub fn refusal(call: &Call, words: &[u64], places: usize) -> u8 {
    causes(call, words, places).first().copied().unwrap_or(0)
}

/// The numbers in the order in which they are asked for.
const ORDER: [u8; 11] = [1, 2, 3, 4, 5, 6, 7, 8, 9, 12, 10];

/// Every number that holds, in that order. What a window says is not asked of words that are none.
pub fn causes(call: &Call, words: &[u64], places: usize) -> Vec<u8> {
    let window = decode(words).filter(|_| is_window(words));
    let opening = matches!(call, Call::Open { .. });
    let last_clock = if opening { Some(0) } else { window.as_ref().map(|state| state.last_clock) };
    let clock = call.clone().clock_mut().copied();
    let holds = [
        words.len() != WORDS,
        !opening && window.is_none(),
        lets_go(call) && places < LEAST_REPORT,
        clock.is_some_and(|clock| clock > MAX_CLOCK || last_clock.is_some_and(|last| clock < last)),
        matches!(call, Call::Open { settings, .. } if !settings_in_range(settings)),
        !peers_in_range(call),
        window.as_ref().is_some_and(|state| lists_known(call, state)),
        window.as_ref().is_some_and(|state| lists_too_many(call, state)),
        matches!(call, Call::MarkReceivedFrom { bytes, .. } if *bytes > MAX_BODY),
        call.plan().is_some_and(|(lent, _)| lent.chain.len() as u64 != 4 * (u64::from(lent.tip) + 1)),
        call.plan().is_some_and(|(_, room)| room.hash_words < ENOUGH.hash_words || room.heights < ENOUGH.heights),
    ];
    ORDER.into_iter().zip(holds).filter(|(_, holds)| *holds).map(|(number, _)| number).collect()
}

/// 3: the calls that let go on some window.
fn lets_go(call: &Call) -> bool {
    matches!(
        call,
        Call::MarkReceivedFrom { .. }
            | Call::CreditDeliveryFrom { .. }
            | Call::RejectDelivery { .. }
            | Call::ExpirePending { .. }
            | Call::RequeueForRetry { .. }
            | Call::ReleasePending { .. }
            | Call::RetireBefore { .. }
            | Call::RetainOwnedBy { .. }
            | Call::NextPeerRequest { .. }
            | Call::NextPeerRequestAllowingRetry { .. }
    )
}

/// 6: seats and keys; 256 flags or keys; at most 256 alternates.
fn peers_in_range(call: &Call) -> bool {
    let lists_fit = match call {
        Call::Open { keys: list, .. } | Call::RetainOwnedBy { flags: list } => list.len() == SEATS,
        Call::ConfirmPrefixProbe { alternates, .. } => alternates.len() <= SEATS,
        _ => true,
    };
    lists_fit && call.clone().seats_mut().iter().all(|seat| **seat < SEATS as u64)
}

/// The hashes that a request lists.
fn listed(call: &Call) -> Vec<&[u64]> {
    match call {
        Call::MarkRequested { hashes, heights, .. } => hashes.chunks_exact(4).take(heights.len()).collect(),
        _ => Vec::new(),
    }
}

/// 7: a hash pending already or listed twice.
fn lists_known(call: &Call, state: &State) -> bool {
    let listed = listed(call);
    let different: BTreeSet<&[u64]> = listed.iter().copied().collect();
    different.len() < listed.len() || state.pending.iter().any(|entry| different.contains(&hash_words(&entry.hash)[..]))
}

/// 8: pending plus listed above 256.
fn lists_too_many(call: &Call, state: &State) -> bool {
    matches!(call, Call::MarkRequested { .. }) && state.pending.len() + listed(call).len() > MAX_PENDING
}
