//! A sequence as closed checks: the digests that the definitions must give, worked out from the original's outcomes.

use crate::spell;
use calls::{Answer, BlameReason, Call, Decision, Outcome, OwnedFetch, Plan, Rejection, Release, State};
use layout::{HEAD, HEAD_USED, entry_words, hash_words};
use raw::ENOUGH;

/// Places of the lent report in a check by words, and what each holds beforehand, by reason and entry.
const LENT_PLACES: usize = 258;
pub const LENT: [u64; 9] = [9, 1, 2, 3, 4, 5, 6, 7, 8];

/// Places of a list that is lent for a plan, past those that a plan may need.
const PAST: usize = 2;

/// Calls from an opening on, with the original's outcomes.
pub struct Sequence {
    pub calls: Vec<Call>,
    pub outcomes: Vec<Outcome>,
}

/// Each call on the window.
pub fn sequence(number: usize, sequence: &Sequence) -> String {
    let each = sequence.calls.iter().zip(&sequence.outcomes).map(|(call, outcome)| deed_words(call, outcome));
    let end = sequence.outcomes.last().map(|outcome| layout::encode(&outcome.state));
    let digests = each.chain(end).map(|words| digest(&words));
    theorem(&format!("run-{number}"), "runs", &spell::list(spell::calls(&sequence.calls)), &spell::list(digests))
}

/// A call of a sequence on lent words and a lent report.
pub fn by_words(number: usize, sequence: &Sequence, place: usize) -> String {
    let earlier = spell::list(spell::calls(&sequence.calls[..place]));
    let (call, outcome) = (&sequence.calls[place], &sequence.outcomes[place]);
    let expected = [
        answer_words(call, outcome),
        layout::encode(&outcome.state),
        report_words(&outcome.gone),
        lent_plan_words(&outcome.answer),
    ]
    .map(|words| digest(&words));
    let arguments = format!("{earlier}) ({}", spell::call(&call.into()));
    theorem(&format!("call-{place}-of-{number}"), "ends", &arguments, &spell::list(expected))
}

/// A test that computes to `true`: an equation of lists would be refused as well, but slowly.
pub fn theorem(name: &str, test: &str, arguments: &str, expected: &str) -> String {
    format!("{name} : {test} ({arguments}) ({expected}) ≡ true\nunfolding {test}\n{name} = refl\n\n")
}

/// One number for a list of words.
pub fn digest(words: &[u64]) -> u64 {
    const PRIME: u128 = (1 << 61) - 1;
    words.iter().fold(0, |digest, word| ((u128::from(digest) * 1_000_003 + u128::from(*word) + 1) % PRIME) as u64)
}

/// No refusal, the answer, what went, and the window.
fn deed_words(call: &Call, outcome: &Outcome) -> Vec<u64> {
    let mut words = answer_words(call, outcome);
    let (hashes, heights) = planned(&outcome.answer);
    words.extend(hashes.into_iter().chain(heights));
    words.extend(outcome.gone.iter().flat_map(release_words));
    words.extend(state_words(&outcome.state));
    words
}

/// A sweep's own answer is how many went, which every answer gives.
fn answer_words(call: &Call, outcome: &Outcome) -> Vec<u64> {
    let values = if matches!(call, Call::ExpirePending { .. }) { vec![] } else { values(&outcome.answer) };
    [vec![0, outcome.gone.len() as u64, values.len() as u64], values].concat()
}

/// The words of a plan's hashes, and its heights.
fn planned(answer: &Answer) -> (Vec<u64>, Vec<u64>) {
    let Answer::Proposed(Some(request)) = answer else {
        return (Vec::new(), Vec::new());
    };
    let hashes = request.entries.iter().flat_map(|(hash, _)| hash_words(hash)).collect();
    (hashes, request.entries.iter().map(|(_, height)| u64::from(*height)).collect())
}

/// The two lists that are lent for a plan, with what is planned in their first places.
pub fn lent_plan_words(answer: &Answer) -> Vec<u64> {
    let (hashes, heights) = planned(answer);
    let written = |list: Vec<u64>, room: usize| -> Vec<u64> {
        let rest = pattern(room).skip(list.len()).collect::<Vec<_>>();
        [list, rest].concat()
    };
    [written(hashes, ENOUGH.hash_words + PAST), written(heights, ENOUGH.heights + PAST)].concat()
}

/// What a lent list of this length holds beforehand.
fn pattern(length: usize) -> impl Iterator<Item = u64> {
    (0..length as u64).rev().map(|place| (place * 37 + 11) % 256)
}

fn report_words(gone: &[Release]) -> Vec<u64> {
    let mut words: Vec<u64> = gone.iter().flat_map(release_words).collect();
    for _ in gone.len()..LENT_PLACES {
        words.extend(LENT);
    }
    words
}

fn release_words(release: &Release) -> Vec<u64> {
    [&[release.reason as u64][..], &entry_words(&release.entry)].concat()
}

/// The head, the entries, and the places of the tables that are not 0.
fn state_words(state: &State) -> Vec<u64> {
    let all = layout::encode(state);
    let mut words = all[HEAD..HEAD + HEAD_USED].to_vec();
    words.extend(state.pending.iter().flat_map(entry_words));
    for (table, first) in [2304, 2560, 2816, 3072, 3328].into_iter().enumerate() {
        for place in (0..256).filter(|place| all[first + place] != 0) {
            words.extend([(1000 * table + place) as u64, all[first + place]]);
        }
    }
    words
}

/// The values by which the definitions say an answer.
fn values(answer: &Answer) -> Vec<u64> {
    match answer {
        Answer::Done => vec![],
        Answer::Flag(flag) => vec![(*flag).into()],
        Answer::Number(number) => vec![*number],
        Answer::Pair(first, second) => vec![*first, *second],
        Answer::MaybeNumber(number) => number.iter().copied().collect(),
        Answer::MaybePair(pair) => pair.iter().flat_map(|(first, second)| [*first, *second]).collect(),
        Answer::Owned(fetch) => vec![match fetch {
            OwnedFetch::Held => 0,
            OwnedFetch::Staged => 1,
            OwnedFetch::Asked => 2,
            OwnedFetch::NoCapacity => 3,
        }],
        Answer::Rejected(rejection) => vec![(*rejection == Rejection::ReleasedPending).into()],
        Answer::Decided(decision) => decision_values(decision),
        Answer::Planned(plan) => plan.iter().flat_map(plan_values).collect(),
        Answer::Proposed(request) => {
            request.iter().flat_map(|request| [request.entries.len() as u64, request.next_request_height.into()]).collect()
        }
    }
}

fn decision_values(decision: &Decision) -> Vec<u64> {
    match decision {
        Decision::None => vec![0],
        Decision::Blame { owner, reason: BlameReason::Staller } => vec![1, (*owner).into()],
        Decision::Blame { owner, reason: BlameReason::PendingTimeout } => vec![2, (*owner).into()],
        Decision::EvictStaged { height, hash, suppressed_for } => {
            [&[3, (*height).into(), *suppressed_for][..], &hash_words(hash)].concat()
        }
        Decision::HedgeColdFront { owner, front_hash } => [&[4, (*owner).into()][..], &hash_words(front_hash)].concat(),
    }
}

fn plan_values(plan: &Plan) -> Vec<u64> {
    let header = [plan.owner.into(), plan.hashes.len() as u64, plan.end_height.into()];
    header.into_iter().chain(plan.hashes.iter().flat_map(hash_words)).collect()
}
