//! docs/DIFFERENCES.md: the smallest sequences that show an intended difference, through the Rust and through the library.

use crate::lent::{Lent, Said};
use crate::window::Library;
use calls::{Answer, Call, Clock, Decision, MAX_BODY, MAX_DURATION, Outcome, SEATS, Seat, Window};
use ordered::Original;
use own_maps::Original as OwnMaps;
use refusals::windows::{hash, settings};

/// What is shown, what the Rust came to and what the library said, and whether both are as DIFFERENCES.md has it.
pub struct Shown {
    pub what: &'static str,
    pub original: String,
    pub library: String,
    pub holds: bool,
}

pub fn shown() -> Vec<Shown> {
    let opened = || vec![open(10)];
    let asked = || vec![open(10), request(10, 1, &[(1, 5)])];
    let full: Vec<(u64, u32)> = (0..256).map(|index| (index, 100)).collect();
    vec![
        refused("a clock that goes back", opened(), Call::ExpirePending { clock: 9 }, 4, |after| {
            (format!("swept {:?}", after.gone.len()), after.state.last_clock == 9)
        }),
        refused("a setting out of range", opened(), wide_open(), 5, |after| {
            let spacing = after.state.settings.block_spacing;
            (format!("spacing {spacing}"), spacing > MAX_DURATION)
        }),
        refused("a hash that is pending already", asked(), request(10, 2, &[(1, 5)]), 7, |after| {
            let owner = after.state.pending[0].owner;
            (format!("owner {owner}, total of {} entries", entries_in_total(after)), owner == 2)
        }),
        refused("a hash that is listed twice", opened(), request(10, 1, &[(1, 5), (1, 6)]), 7, |after| {
            let count = after.state.pending.len();
            (format!("{count} pending, total of {} entries", entries_in_total(after)), count == 1)
        }),
        refused("256 pending and one more", vec![open(10), request(10, 1, &full)], request(10, 1, &[(999, 7)]), 8, |after| {
            let count = after.state.pending.len();
            (format!("{count} pending"), count == 257)
        }),
        refused("a body above the limit", opened(), body(MAX_BODY + 1), 9, |after| {
            let mean = after.state.ewma_block_bytes;
            (format!("mean {mean}"), mean > 262_144)
        }),
        equal_heights(),
        named_twice(),
        turned(),
    ]
}

fn open(clock: Clock) -> Call {
    Call::Open { clock, settings: settings(), keys: (0..SEATS).map(|seat| seat as u8).collect() }
}

fn wide_open() -> Call {
    let mut settings = settings();
    settings.block_spacing = MAX_DURATION + 1;
    Call::Open { clock: 10, settings, keys: vec![0; SEATS] }
}

fn request(clock: Clock, owner: Seat, entries: &[(u64, u32)]) -> Call {
    let entries = entries.iter().map(|(index, height)| (hash(*index), *height)).collect();
    Call::MarkRequested { clock, owner, entries, next_request_height: 0, byte_headroom: 1 << 40, count_headroom: 9 }
}

fn body(bytes: u64) -> Call {
    Call::MarkReceivedFrom { clock: 10, hash: hash(3), bytes, source: None }
}

/// A plan from height 1 to the tip, for seat 1, with nothing staged or refused.
fn plan(chain: &[u64]) -> Call {
    let chain: Vec<_> = chain.iter().map(|index| hash(*index)).collect();
    let best = chain.len() as u32 - 1;
    let lent = calls::Lent {
        chain,
        staged: Vec::new(),
        refused: Vec::new(),
        start: 1,
        best,
        floor: 0,
        exhausted: false,
        byte_headroom: 1 << 40,
        count_headroom: 9,
        staging: None,
    };
    Call::NextPeerRequest { clock: 10, source: 1, lent }
}

/// The total by the estimate of a fresh window.
fn entries_in_total(after: &Outcome) -> u64 {
    after.state.pending_bytes / 262_144
}

/// The library refuses the last call by the number, and the Rust takes it.
fn refused(what: &'static str, before: Vec<Call>, last: Call, number: u64, tell: fn(&Outcome) -> (String, bool)) -> Shown {
    let (mut original, mut library) = (Original::default(), Library::default());
    let alike = before.iter().all(|call| original.call(call) == library.call(call));
    let (told, as_said) = tell(&original.call(&last));
    let mut lent = Lent::new(library.words(), 256);
    let said = lent.perform(&raw::Call::from(&last));
    let holds = alike && as_said && said == Said::Refused(number) && lent.words() == library.words();
    Shown { what, original: told, library: format!("{said:?}"), holds }
}

/// Two entries of one height, and a look: whom the stall episode names.
fn equal_heights() -> Shown {
    let calls = [open(10), request(10, 1, &[(1, 5)]), request(10, 2, &[(2, 5)]), look()];
    let owner = |window: &mut dyn Window| {
        let last = last_of(window, &calls);
        assert_eq!(last.answer, Answer::Decided(Decision::None));
        last.state.stall.map(|stall| stall.owner)
    };
    let by_chance: Vec<Option<Seat>> = (0..200).map(|_| owner(&mut OwnMaps::default())).collect();
    let times = |seat| by_chance.iter().filter(|named| **named == Some(seat)).count();
    let lower = if hash(1) < hash(2) { 1 } else { 2 };
    let mine = owner(&mut Library::default());
    Shown {
        what: "the front of two at one height, in 200 runs",
        original: format!("seat 1 {}, seat 2 {}", times(1), times(2)),
        library: format!("seat {mine:?}, lower hash"),
        holds: times(1) > 0 && times(2) > 0 && mine == Some(lower) && owner(&mut Original::default()) == mine,
    }
}

/// What the last of some calls comes to.
fn last_of(window: &mut dyn Window, calls: &[Call]) -> Outcome {
    calls.iter().map(|call| window.call(call)).last().expect("some calls")
}

/// A chain that has one hash at heights 1 and 2.
fn named_twice() -> Shown {
    let calls = [open(10), plan(&[0, 1, 1])];
    let planned = |window: &mut dyn Window| match last_of(window, &calls).answer {
        Answer::Proposed(Some(request)) => request.entries,
        other => panic!("no request: {other:?}"),
    };
    let (original, library) = (planned(&mut Original::default()), planned(&mut Library::default()));
    Shown {
        what: "a hash that the chain names twice",
        original: format!("{} planned", original.len()),
        library: format!("{} planned", library.len()),
        holds: original == [(hash(1), 1), (hash(1), 2)] && library == [(hash(1), 1)],
    }
}

/// Block 1 is planned and asked for; then another block is at its height.
fn turned() -> Shown {
    let calls = [open(10), plan(&[0, 1]), request(10, 1, &[(1, 1)]), plan(&[0, 2])];
    let pending = |window: &mut dyn Window| last_of(window, &calls).state.pending.len();
    let (original, library) = (pending(&mut Original::default()), pending(&mut Library::default()));
    Shown {
        what: "a plan after the chain turned",
        original: format!("{original} pending"),
        library: format!("{library} pending"),
        holds: original == 0 && library == 1,
    }
}

fn look() -> Call {
    Call::ObserveBlocked {
        clock: 10,
        next_apply_height: Some(5),
        frontier_hash: None,
        busy: false,
        staged_count: 65_535,
        staged_height: Some(u32::MAX),
    }
}
