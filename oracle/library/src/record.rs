//! Recorded calls for crates/vectors: sequences that show every event, as numbers. A number is how many bytes it has, and its bytes, the
//! highest first.
//!
//! A call is: its number in API.md; how many arguments, fields of its answer, releases and numbers of changed words follow; the arguments in
//! API.md's order (a slice of the call is its length and its elements, after the plain ones); the answer's fields; nine words a release; and
//! runs of changed words, each its place, its length and the words. A 0 ends the calls. The answers are the original's, flattened here once
//! more; the words are the original's state by `layout`. Seven records are made wrong, one for each thing that is compared, so that a replay which does
//! not compare it is noticed.

use calls::generator::{Planning, Profile};
use calls::{Answer, BlameReason, Call, Decision, Hash, Outcome, OwnedFetch, Rejection, Release, Settings, select};
use layout::{WORDS, encode, entry_words, hash_words};
use ordered::Original;
use std::fs;
use std::process::ExitCode;

/// Short sequences over small tables, so that few calls show every event. crates/vectors replays no plans.
const PROFILE: Profile = Profile { mean_length: 18, table: 8, distinct_heights: false, planning: Planning::Without };

/// A call, and what the original did.
struct Record {
    number: u64,
    arguments: Vec<u64>,
    said: Vec<u64>,
    /// Nine words a release, the last of them the reason.
    gone: Vec<[u64; 9]>,
    /// Runs of changed words.
    changed: Vec<u64>,
}

/// One wrong record for each thing that the replay compares: from which record on the first is taken that has the thing, and what is changed in it. Each
/// says whether the record had it.
const WRONG: [(usize, fn(&mut Record) -> bool); 7] = [
    (100, |record| changed(record.said.first_mut(), |refusal| refusal + 4)),
    (200, |record| changed(record.said.get_mut(1), |value| value + 1)),
    (300, |record| record.gone.pop().is_some()),
    (400, |record| record.gone.len() > 1 && swapped(&mut record.gone)),
    (500, |record| changed(record.gone.first_mut().map(|release| &mut release[7]), |estimate| estimate + 1)),
    (600, |record| changed(record.gone.last_mut().map(|release| &mut release[8]), |reason| reason % 10 + 1)),
    (700, |record| changed(record.changed.last_mut(), |word| word ^ 1)),
];

fn changed(value: Option<&mut u64>, change: fn(u64) -> u64) -> bool {
    value.map(|value| *value = change(*value)).is_some()
}

fn swapped(gone: &mut [[u64; 9]]) -> bool {
    let last = gone.len() - 1;
    gone.swap(0, last);
    true
}

/// The records, with some made wrong.
#[derive(Default)]
struct Recorder {
    numbers: Vec<u64>,
    records: usize,
    wrong: usize,
}

impl Recorder {
    fn add(&mut self, mut record: Record) -> Record {
        self.records += 1;
        if let Some((from, spoil)) = WRONG.get(self.wrong)
            && self.records >= *from
            && spoil(&mut record)
        {
            self.wrong += 1;
        }
        let Record { number, arguments, said, gone, changed } = &record;
        let sizes = [arguments.len(), said.len(), gone.len(), changed.len()].map(|size| size as u64);
        self.numbers
            .extend([*number].iter().chain(&sizes).chain(arguments).chain(said).chain(gone.as_flattened()).chain(changed));
        record
    }
}

pub fn vectors(file: &str) -> ExitCode {
    let mut recorder = Recorder::default();
    let mut words = vec![0; WORDS];
    let (mut calls, mut sequences) = (0, 0);
    let chosen = select::covering(&mut Original::default(), 1, PROFILE, 0, |_, _| true);
    select::run(&mut Original::default(), 1, PROFILE, &chosen, |_, call, outcome| {
        calls += 1;
        sequences += u64::from(matches!(call, Call::Open { .. }));
        let changed = runs(&words, &encode(&outcome.state));
        let (number, arguments) = spelled(call);
        let said = said(call, outcome);
        let gone = outcome.gone.iter().map(nine_words).collect();
        let record = recorder.add(Record { number, arguments, said, gone, changed });
        put_runs(&mut words, &record.changed);
        if let Answer::Planned(plan) = &outcome.answer {
            let mut said: Vec<u64> = plan.iter().flat_map(|plan| plan.hashes.iter().flat_map(hash_words)).collect();
            said.resize(32, 0);
            recorder.add(Record { number: 49, arguments: vec![], said, gone: vec![], changed: vec![] });
        }
    });
    assert_eq!(recorder.wrong, WRONG.len(), "each thing that is compared has a wrong record");
    recorder.numbers.push(0);
    let bytes: Vec<u8> = recorder.numbers.iter().flat_map(|number| spelled_out(*number)).collect();
    fs::write(file, &bytes).unwrap_or_else(|error| panic!("{file}: {error}"));
    println!(
        "{calls} calls in {sequences} sequences, {} records, {} of them wrong, {} numbers in {} bytes",
        recorder.records,
        recorder.wrong,
        recorder.numbers.len(),
        bytes.len()
    );
    ExitCode::SUCCESS
}

fn nine_words(release: &Release) -> [u64; 9] {
    let mut words = [0; 9];
    words[..8].copy_from_slice(&entry_words(&release.entry));
    words[8] = release.reason as u64;
    words
}

/// What a replay expects of the words after a record: a wrong word too, which the next record's runs put right.
fn put_runs(words: &mut [u64], changed: &[u64]) {
    let mut at = 0;
    while at < changed.len() {
        let (place, length) = (changed[at] as usize, changed[at + 1] as usize);
        words[place..place + length].copy_from_slice(&changed[at + 2..at + 2 + length]);
        at += 2 + length;
    }
}

fn spelled_out(number: u64) -> Vec<u8> {
    let bytes: Vec<u8> = number.to_be_bytes().into_iter().skip_while(|byte| *byte == 0).collect();
    [vec![bytes.len() as u8], bytes].concat()
}

/// Each run of words that changed: its place, its length, the words.
fn runs(before: &[u64], after: &[u64]) -> Vec<u64> {
    let mut runs = Vec::new();
    let mut word = 0;
    while word < WORDS {
        let length = (word..WORDS).take_while(|place| before[*place] != after[*place]).count();
        if length > 0 {
            runs.extend([word as u64, length as u64]);
            runs.extend(&after[word..word + length]);
        }
        word += length.max(1);
    }
    runs
}

/// The answer's fields, as API.md has them.
fn said(call: &Call, outcome: &Outcome) -> Vec<u64> {
    let places = outcome.gone.len() as u64;
    let lets_go = spelled(call).0;
    match &outcome.answer {
        Answer::Done if [5, 8, 9, 10, 11, 12].contains(&lets_go) => vec![0, places],
        Answer::Done => vec![0],
        Answer::Flag(flag) => vec![0, (*flag).into()],
        Answer::Number(_) if lets_go == 8 => vec![0, places],
        Answer::Number(number) => vec![0, *number],
        Answer::Pair(first, second) => vec![0, *first, *second],
        Answer::MaybeNumber(height) if lets_go == 4 => vec![0, places, height.is_some().into(), height.unwrap_or(0)],
        Answer::MaybeNumber(number) => vec![0, number.is_some().into(), number.unwrap_or(0)],
        Answer::MaybePair(pair) => {
            let (first, second) = pair.unwrap_or((0, 0));
            vec![0, pair.is_some().into(), first, second]
        }
        Answer::Owned(owned) => {
            let kinds = [OwnedFetch::Held, OwnedFetch::Staged, OwnedFetch::Asked, OwnedFetch::NoCapacity];
            vec![0, kinds.iter().position(|kind| kind == owned).expect("one of four") as u64]
        }
        Answer::Rejected(rejection) => vec![0, places, (*rejection == Rejection::ReleasedPending).into()],
        Answer::Decided(decision) => decided(decision),
        Answer::Planned(plan) => match plan {
            Some(plan) => vec![0, 1, plan.owner.into(), plan.hashes.len() as u64, plan.end_height.into()],
            None => vec![0; 5],
        },
        Answer::Proposed(_) => unreachable!("there are no plans among these calls"),
    }
}

fn decided(decision: &Decision) -> Vec<u64> {
    match decision {
        Decision::None => vec![0; 9],
        Decision::Blame { owner, reason } => {
            let number = if *reason == BlameReason::Staller { 1 } else { 2 };
            vec![0, number, (*owner).into(), 0, 0, 0, 0, 0, 0]
        }
        Decision::EvictStaged { height, hash, suppressed_for } => {
            [&[0, 3, 0, (*height).into(), *suppressed_for][..], &hash_words(hash)].concat()
        }
        Decision::HedgeColdFront { owner, front_hash } => [&[0, 4, (*owner).into(), 0, 0][..], &hash_words(front_hash)].concat(),
    }
}

/// A call's number in API.md, and its arguments in API.md's order.
fn spelled(call: &Call) -> (u64, Vec<u64>) {
    let h = |hash: &Hash| hash_words(hash).to_vec();
    let optional = |value: Option<u64>| vec![value.is_some().into(), value.unwrap_or(0)];
    let list = |values: Vec<u64>| [vec![values.len() as u64], values].concat();
    let one = |value: u64| vec![value];
    let (number, parts) = match call {
        Call::Open { clock, settings, keys } => {
            (1, vec![settings_words(settings), list(keys.iter().map(|key| u64::from(*key)).collect()), one(*clock)])
        }
        Call::MarkRequested { clock, owner, entries, next_request_height, byte_headroom, count_headroom } => {
            let hashes = list(entries.iter().flat_map(|(hash, _)| hash_words(hash)).collect());
            let heights = list(entries.iter().map(|(_, height)| u64::from(*height)).collect());
            let rest = vec![(*next_request_height).into(), *byte_headroom, *count_headroom, *clock];
            (2, vec![one((*owner).into()), rest, hashes, heights])
        }
        Call::MarkOwnedFetch { clock, owner, hash, height, staged, byte_headroom, count_headroom } => {
            let rest = vec![(*height).into(), (*staged).into(), *byte_headroom, *count_headroom, *clock];
            (3, vec![one((*owner).into()), h(hash), rest])
        }
        Call::MarkReceivedFrom { clock, hash, bytes, source } => {
            (4, vec![h(hash), one(*bytes), optional(source.map(u64::from)), one(*clock)])
        }
        Call::CreditDeliveryFrom { clock, hash, source, pending_height } => {
            (5, vec![h(hash), one((*source).into()), optional(pending_height.map(u64::from)), one(*clock)])
        }
        Call::CreditDuplicateDelivery { hash, source } => (6, vec![h(hash), one((*source).into())]),
        Call::RejectDelivery { clock, hash, source } => (7, vec![h(hash), optional(source.map(u64::from)), one(*clock)]),
        Call::ExpirePending { clock } => (8, vec![one(*clock)]),
        Call::RequeueForRetry { clock, hash, height } => (9, vec![h(hash), optional(height.map(u64::from)), one(*clock)]),
        Call::ReleasePending { clock, hash } => (10, vec![h(hash), one(*clock)]),
        Call::RetireBefore { clock, height } => (11, vec![one((*height).into()), one(*clock)]),
        Call::RetainOwnedBy { owns } => (12, vec![list(owns.iter().map(|owned| u64::from(*owned)).collect())]),
        Call::MarkPeerUnresponsive { clock, source } => (13, vec![one((*source).into()), one(*clock)]),
        Call::ConfirmPrefixProbe { clock, owner, hashes, alternates } => {
            let given = list(hashes.iter().flat_map(hash_words).collect());
            let others = list(alternates.iter().map(|seat| u64::from(*seat)).collect());
            (14, vec![one((*owner).into()), one(*clock), given, others])
        }
        Call::ConfirmColdFrontHedge { owner, alternate, hash } => {
            (15, vec![one((*owner).into()), one((*alternate).into()), h(hash)])
        }
        Call::ObserveBlocked { clock, next_apply_height, frontier_hash, busy, staged_count, staged_height } => {
            let frontier = frontier_hash.map_or(vec![0; 5], |hash| [vec![1], h(&hash)].concat());
            let (next, highest) = (optional(next_apply_height.map(u64::from)), optional(staged_height.map(u64::from)));
            (16, vec![next, frontier, vec![(*busy).into(), *staged_count], highest, one(*clock)])
        }
        Call::SetFanoutEligiblePeers { clock, count } => (17, vec![one(*count), one(*clock)]),
        Call::ClearPreferredPeer => (18, vec![]),
        query => query_spelled(query),
    };
    (number, parts.concat())
}

fn query_spelled(query: &Call) -> (u64, Vec<Vec<u64>>) {
    let h = |hash: &Hash| hash_words(hash).to_vec();
    let seat = |seat: &u8| vec![u64::from(*seat)];
    match query {
        Call::PendingLen => (19, vec![]),
        Call::PendingBytes => (20, vec![]),
        Call::EffectivePeerInflight => (21, vec![]),
        Call::ActiveDownloadingPeers => (22, vec![]),
        Call::StallDecayFloor => (23, vec![]),
        Call::RequestCursor => (24, vec![]),
        Call::EwmaBlockBytes => (25, vec![]),
        Call::EffectiveOwnerTimeout => (26, vec![]),
        Call::StallTimeout => (27, vec![]),
        Call::MaxPendingBlocks => (28, vec![]),
        Call::MinPeersForFanout => (29, vec![]),
        Call::FanoutActive => (30, vec![]),
        Call::HasRequestCapacity { byte_headroom, count_headroom } => (31, vec![vec![*byte_headroom, *count_headroom]]),
        Call::PendingCountFor { source } => (32, vec![seat(source)]),
        Call::IsDownloading { owner } => (33, vec![seat(owner)]),
        Call::ContainsPending { hash } => (34, vec![h(hash)]),
        Call::HedgeOffered { source, hash } => (35, vec![seat(source), h(hash)]),
        Call::ProbeOffered { source, hash } => (36, vec![seat(source), h(hash)]),
        Call::PeerHasExpiredPending { source, clock } => (37, vec![seat(source), vec![*clock]]),
        Call::PeerInStallerCooldown { source, clock } => (38, vec![seat(source), vec![*clock]]),
        Call::PendingHighWater => (39, vec![]),
        Call::ExpiredPendingCapacity { clock } => (40, vec![vec![*clock]]),
        Call::StallingPeer => (41, vec![]),
        Call::ComputeRequestCapacity { source, byte_headroom, count_headroom } => {
            (42, vec![seat(source), vec![*byte_headroom, *count_headroom]])
        }
        Call::PreferredPeer => (43, vec![]),
        Call::PendingOwner { hash } => (44, vec![h(hash)]),
        Call::OwnerQueueStart { owner } => (45, vec![seat(owner)]),
        Call::FrontIntervalEwmaMs => (46, vec![]),
        Call::ProbeStartedAt => (47, vec![]),
        Call::PrefixProbePlan => (48, vec![]),
        changing => unreachable!("{changing:?} is spelled elsewhere"),
    }
}

fn settings_words(settings: &Settings) -> Vec<u64> {
    vec![
        settings.max_pending_blocks,
        settings.max_pending_bytes,
        settings.max_received_blocks,
        settings.max_peer_inflight,
        settings.fanout_peer_inflight,
        settings.min_peers_for_fanout,
        settings.getdata_batch_limit,
        settings.block_spacing,
        settings.received_timeout,
        settings.stall_timeout_initial,
        settings.stall_timeout_max,
        settings.staller_cooldown,
    ]
}
