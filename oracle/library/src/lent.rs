//! Lent memory, and the library's functions called on it. Beside the words and the report lie guards that no call may touch.

use crate::ffi::*;
use calls::{Answer, BlameReason, Decision, OwnedFetch, Rejection};
use layout::hash_words;
use raw::{Call, Room};

const GUARD: u64 = 0xdead_beef_0bad_cafe;
/// Elements on either side.
const GUARDS: usize = 9;

const BLANK: Release = Release {
    entry: Entry {
        hash: Hash { a: GUARD, b: GUARD, c: GUARD, d: GUARD },
        owner: GUARD,
        time: GUARD,
        height: GUARD,
        estimate: GUARD,
    },
    reason: GUARD,
};

/// Memory of a host: a window's words and a report.
#[derive(Clone)]
pub struct Lent {
    words: Vec<u64>,
    report: Vec<Release>,
}

/// What a function answered.
#[derive(Clone, Debug, PartialEq, Eq)]
pub enum Said {
    Refused(u64),
    /// The answer, and how many places of the report were filled.
    Answered(Answer, u64),
    /// No answer of API.md.
    Malformed(String),
}

impl Lent {
    pub fn new(words: &[u64], places: usize) -> Self {
        let guard = [GUARD; GUARDS];
        Self { words: [&guard, words, &guard].concat(), report: vec![BLANK; places + 2 * GUARDS] }
    }

    pub fn words(&self) -> &[u64] {
        &self.words[GUARDS..self.words.len() - GUARDS]
    }

    pub fn words_mut(&mut self) -> &mut [u64] {
        let end = self.words.len() - GUARDS;
        &mut self.words[GUARDS..end]
    }

    pub fn report(&self) -> &[Release] {
        &self.report[GUARDS..self.report.len() - GUARDS]
    }

    fn report_mut(&mut self) -> &mut [Release] {
        let end = self.report.len() - GUARDS;
        &mut self.report[GUARDS..end]
    }

    /// Fills the report with a value of this turn.
    pub fn fill_report(&mut self, turn: u64) -> Release {
        let mut release = BLANK;
        release.reason = turn;
        release.entry.time = !turn;
        self.report_mut().fill(release);
        release
    }

    pub fn guards_whole(&self) -> bool {
        let (words, places) = (self.words.len(), self.report.len());
        let mut guards = self.words[..GUARDS].iter().chain(&self.words[words - GUARDS..]);
        let mut releases = self.report[..GUARDS].iter().chain(&self.report[places - GUARDS..]);
        guards.all(|word| *word == GUARD) && releases.all(|release| *release == BLANK)
    }

    pub fn perform(&mut self, call: &Call) -> Said {
        match call {
            Call::Open { clock, settings, keys } => self.open(*clock, settings, keys),
            Call::MarkRequested { clock, owner, hashes, heights, next_request_height, byte_headroom, count_headroom } => {
                let (w, n) = self.window();
                let (hash_list, height_list) = ((hashes.as_ptr(), hashes.len()), (heights.as_ptr(), heights.len()));
                number(
                    unsafe {
                        kofudile_mark_requested_words(
                            w,
                            n,
                            *owner,
                            hash_list.0,
                            hash_list.1,
                            height_list.0,
                            height_list.1,
                            *next_request_height,
                            *byte_headroom,
                            *count_headroom,
                            *clock,
                        )
                    },
                    flag,
                )
            }
            Call::MarkOwnedFetch { clock, owner, hash, height, staged, byte_headroom, count_headroom } => {
                let (w, n) = self.window();
                let hash = flat(hash);
                number(
                    unsafe {
                        kofudile_mark_owned_fetch(w, n, *owner, hash, *height, *staged, *byte_headroom, *count_headroom, *clock)
                    },
                    owned,
                )
            }
            Call::CreditDuplicateDelivery { hash, source } => {
                let (w, n) = self.window();
                done(unsafe { kofudile_credit_duplicate_delivery(w, n, flat(hash), *source) })
            }
            Call::MarkPeerUnresponsive { clock, source } => {
                let (w, n) = self.window();
                done(unsafe { kofudile_mark_peer_unresponsive(w, n, *source, *clock) })
            }
            Call::ConfirmPrefixProbe { clock, owner, hashes, alternates } => {
                let (w, n) = self.window();
                let (given, others) = ((hashes.as_ptr(), hashes.len()), (alternates.as_ptr(), alternates.len()));
                done(unsafe { kofudile_confirm_prefix_probe_words(w, n, *owner, given.0, given.1, others.0, others.1, *clock) })
            }
            Call::ConfirmColdFrontHedge { owner, alternate, hash } => {
                let (w, n) = self.window();
                done(unsafe { kofudile_confirm_cold_front_hedge(w, n, *owner, *alternate, flat(hash)) })
            }
            Call::ObserveBlocked { clock, next_apply_height, frontier_hash, busy, staged_count, staged_height } => {
                let (w, n) = self.window();
                let ((has_next, next), (has_highest, highest)) = (optional(*next_apply_height), optional(*staged_height));
                let frontier = frontier_hash.as_ref().map_or(Hash { a: 5, b: 6, c: 7, d: 8 }, flat);
                decided(unsafe {
                    kofudile_observe_blocked(
                        w,
                        n,
                        has_next,
                        next,
                        frontier_hash.is_some(),
                        frontier,
                        *busy,
                        *staged_count,
                        has_highest,
                        highest,
                        *clock,
                    )
                })
            }
            Call::SetFanoutEligiblePeers { clock, count } => {
                let (w, n) = self.window();
                done(unsafe { kofudile_set_fanout_eligible_peers(w, n, *count, *clock) })
            }
            Call::ClearPreferredPeer => {
                let (w, n) = self.window();
                done(unsafe { kofudile_clear_preferred_peer(w, n) })
            }
            Call::NextPeerRequest { clock, source, lent, room } => self.next_peer_request(*clock, *source, lent, *room, false),
            Call::NextPeerRequestAllowingRetry { clock, source, lent, room } => {
                self.next_peer_request(*clock, *source, lent, *room, true)
            }
            other => self.let_go_or_query(other),
        }
    }

    #[cfg(not(planning))]
    fn next_peer_request(&mut self, _: u64, _: u64, _: &raw::Lent, _: Room, _: bool) -> Said {
        Said::Malformed("the library does not plan".to_string())
    }

    #[cfg(planning)]
    fn next_peer_request(&mut self, clock: u64, source: u64, lent: &raw::Lent, room: Room, allowing_retry: bool) -> Said {
        let (w, n, r, m) = self.lent();
        let mut planned = Planned::new(room);
        let (hashes, heights) = (planned.hashes[GUARDS..].as_mut_ptr(), planned.heights[GUARDS..].as_mut_ptr());
        let (hash_words, height_places) = (room.hash_words, room.heights);
        let raw::Lent { chain, tip, staged, refused, start, best, floor, exhausted, byte_headroom, count_headroom } = lent;
        let function =
            if allowing_retry { kofudile_next_peer_request_allowing_retry_words } else { kofudile_next_peer_request_words };
        let given = unsafe {
            function(
                w,
                n,
                r,
                m,
                hashes,
                hash_words,
                heights,
                height_places,
                source,
                chain.as_ptr(),
                chain.len(),
                *tip,
                *start,
                *best,
                *floor,
                staged.as_ptr(),
                staged.len(),
                refused.as_ptr(),
                refused.len(),
                *exhausted,
                *byte_headroom,
                *count_headroom,
                clock,
            )
        };
        proposed(given, &planned, source)
    }

    fn window(&mut self) -> (*mut u64, usize) {
        let words = self.words_mut();
        (words.as_mut_ptr(), words.len())
    }

    fn lent(&mut self) -> (*mut u64, usize, *mut Release, usize) {
        let (w, n) = self.window();
        let report = self.report_mut();
        (w, n, report.as_mut_ptr(), report.len())
    }

    fn open(&mut self, clock: u64, settings: &calls::Settings, keys: &[u64]) -> Said {
        let (w, n) = self.window();
        done(unsafe { kofudile_open(w, n, settings_of(settings), keys.as_ptr(), keys.len(), clock) })
    }

    fn let_go_or_query(&mut self, call: &Call) -> Said {
        let (w, n, r, m) = self.lent();
        match call {
            Call::MarkReceivedFrom { clock, hash, bytes, source } => {
                let (has, source) = optional_seat(*source);
                let said = unsafe { kofudile_mark_received_from(w, n, r, m, flat(hash), *bytes, has, source, *clock) };
                received(said)
            }
            Call::CreditDeliveryFrom { clock, hash, source, pending_height } => {
                let (has, height) = optional(*pending_height);
                gone(unsafe { kofudile_credit_delivery_from(w, n, r, m, flat(hash), *source, has, height, *clock) }, false)
            }
            Call::RejectDelivery { clock, hash, source } => {
                let (has, source) = optional_seat(*source);
                rejected(unsafe { kofudile_reject_delivery(w, n, r, m, flat(hash), has, source, *clock) })
            }
            Call::ExpirePending { clock } => gone(unsafe { kofudile_expire_pending(w, n, r, m, *clock) }, true),
            Call::RequeueForRetry { clock, hash, height } => {
                let (has, height) = optional(*height);
                gone(unsafe { kofudile_requeue_for_retry(w, n, r, m, flat(hash), has, height, *clock) }, false)
            }
            Call::ReleasePending { clock, hash } => {
                gone(unsafe { kofudile_release_pending(w, n, r, m, flat(hash), *clock) }, false)
            }
            Call::RetireBefore { clock, height } => gone(unsafe { kofudile_retire_before(w, n, r, m, *height, *clock) }, false),
            Call::RetainOwnedBy { flags } => {
                gone(unsafe { kofudile_retain_owned_by(w, n, r, m, flags.as_ptr(), flags.len()) }, false)
            }
            query => self.query(query),
        }
    }

    fn query(&self, call: &Call) -> Said {
        let (w, n) = (self.words().as_ptr(), self.words().len());
        match call {
            Call::ComputeRequestCapacity { source, byte_headroom, count_headroom } => {
                perhaps_pair(unsafe { kofudile_compute_request_capacity(w, n, *source, *byte_headroom, *count_headroom) })
            }
            Call::ExpiredPendingCapacity { clock } => pair(unsafe { kofudile_expired_pending_capacity(w, n, *clock) }),
            Call::PeerHasExpiredPending { source, clock } => {
                number(unsafe { kofudile_peer_has_expired_pending(w, n, *source, *clock) }, flag)
            }
            Call::PeerInStallerCooldown { source, clock } => {
                number(unsafe { kofudile_peer_in_staller_cooldown(w, n, *source, *clock) }, flag)
            }
            Call::ProbeOffered { source, hash } => number(unsafe { kofudile_probe_offered(w, n, *source, flat(hash)) }, flag),
            Call::HedgeOffered { source, hash } => number(unsafe { kofudile_hedge_offered(w, n, *source, flat(hash)) }, flag),
            Call::IsDownloading { owner } => number(unsafe { kofudile_is_downloading(w, n, *owner) }, flag),
            Call::PendingCountFor { source } => number(unsafe { kofudile_pending_count_for(w, n, *source) }, plain),
            Call::OwnerQueueStart { owner } => perhaps(unsafe { kofudile_owner_queue_start(w, n, *owner) }),
            Call::Query(query) => self.plain_query(query),
            changing => unreachable!("{changing:?} is performed elsewhere"),
        }
    }

    fn plain_query(&self, query: &calls::Call) -> Said {
        use calls::Call as Query;
        let (w, n) = (self.words().as_ptr(), self.words().len());
        match query {
            Query::FanoutActive => number(unsafe { kofudile_fanout_active(w, n) }, flag),
            Query::PendingLen => number(unsafe { kofudile_pending_len(w, n) }, plain),
            Query::PendingBytes => number(unsafe { kofudile_pending_bytes(w, n) }, plain),
            Query::PendingHighWater => pair(unsafe { kofudile_pending_high_water(w, n) }),
            Query::MaxPendingBlocks => number(unsafe { kofudile_max_pending_blocks(w, n) }, plain),
            Query::MinPeersForFanout => number(unsafe { kofudile_min_peers_for_fanout(w, n) }, plain),
            Query::HasRequestCapacity { byte_headroom, count_headroom } => {
                number(unsafe { kofudile_has_request_capacity(w, n, *byte_headroom, *count_headroom) }, flag)
            }
            Query::EffectivePeerInflight => number(unsafe { kofudile_effective_peer_inflight(w, n) }, plain),
            Query::StallingPeer => perhaps_pair(unsafe { kofudile_stalling_peer(w, n) }),
            Query::PreferredPeer => perhaps(unsafe { kofudile_preferred_peer(w, n) }),
            Query::PrefixProbePlan => planned(unsafe { kofudile_prefix_probe_plan(w, n) }),
            Query::ContainsPending { hash } => number(unsafe { kofudile_contains_pending(w, n, flat(hash)) }, flag),
            Query::PendingOwner { hash } => perhaps(unsafe { kofudile_pending_owner(w, n, flat(hash)) }),
            Query::ActiveDownloadingPeers => number(unsafe { kofudile_active_downloading_peers(w, n) }, plain),
            Query::EffectiveOwnerTimeout => number(unsafe { kofudile_effective_owner_timeout(w, n) }, plain),
            Query::StallDecayFloor => number(unsafe { kofudile_stall_decay_floor(w, n) }, plain),
            Query::RequestCursor => number(unsafe { kofudile_request_cursor(w, n) }, plain),
            Query::StallTimeout => number(unsafe { kofudile_stall_timeout(w, n) }, plain),
            Query::FrontIntervalEwmaMs => perhaps(unsafe { kofudile_front_interval_ewma_ms(w, n) }),
            Query::EwmaBlockBytes => number(unsafe { kofudile_ewma_block_bytes(w, n) }, plain),
            Query::ProbeStartedAt => perhaps(unsafe { kofudile_active_prefix_probe_started_at(w, n) }),
            other => unreachable!("{other:?} is no query without seat and clock"),
        }
    }
}

/// What may be missing; a value beside the flag that nobody is to read.
fn optional(height: Option<u32>) -> (bool, u32) {
    (height.is_some(), height.unwrap_or(77))
}

fn optional_seat(seat: Option<u64>) -> (bool, u64) {
    (seat.is_some(), seat.unwrap_or(7_777))
}

fn flat(hash: &calls::Hash) -> Hash {
    let [a, b, c, d] = hash_words(hash);
    Hash { a, b, c, d }
}

pub fn plain_hash(hash: &Hash) -> calls::Hash {
    let mut bytes = [0; 32];
    let words = [hash.a, hash.b, hash.c, hash.d];
    bytes.chunks_mut(8).zip(words).for_each(|(chunk, word)| chunk.copy_from_slice(&word.to_be_bytes()));
    calls::Hash(bytes)
}

fn settings_of(settings: &calls::Settings) -> Settings {
    Settings {
        max_pending_blocks: settings.max_pending_blocks,
        max_pending_bytes: settings.max_pending_bytes,
        max_received_blocks: settings.max_received_blocks,
        max_peer_inflight: settings.max_peer_inflight,
        fanout_peer_inflight: settings.fanout_peer_inflight,
        min_peers_for_fanout: settings.min_peers_for_fanout,
        getdata_batch_limit: settings.getdata_batch_limit,
        block_spacing: settings.block_spacing,
        received_timeout: settings.received_timeout,
        stall_timeout_initial: settings.stall_timeout_initial,
        stall_timeout_max: settings.stall_timeout_max,
        staller_cooldown: settings.staller_cooldown,
    }
}

/// The lists that a plan is written into, between guards.
#[cfg_attr(not(planning), allow(dead_code))]
struct Planned {
    hashes: Vec<u64>,
    heights: Vec<u32>,
    room: Room,
}

#[cfg_attr(not(planning), allow(dead_code))]
impl Planned {
    fn new(room: Room) -> Self {
        let (hashes, heights) = (vec![GUARD; room.hash_words + 2 * GUARDS], vec![GUARD as u32; room.heights + 2 * GUARDS]);
        Self { hashes, heights, room }
    }

    /// The first so many hashes with their heights, where nothing else was written.
    fn entries(&self, count: usize) -> Option<Vec<(calls::Hash, u32)>> {
        if 4 * count > self.room.hash_words || count > self.room.heights {
            return None;
        }
        let (hashes, heights) = (GUARDS..GUARDS + 4 * count, GUARDS..GUARDS + count);
        let beside = |place: &usize, written: &std::ops::Range<usize>| !written.contains(place);
        let words_whole = (0..self.hashes.len()).filter(|place| beside(place, &hashes)).all(|place| self.hashes[place] == GUARD);
        let heights_whole =
            (0..self.heights.len()).filter(|place| beside(place, &heights)).all(|place| self.heights[place] == GUARD as u32);
        let hash = |words: &[u64]| plain_hash(&Hash { a: words[0], b: words[1], c: words[2], d: words[3] });
        let entries = self.hashes[hashes].chunks(4).map(hash).zip(self.heights[heights].iter().copied());
        (words_whole && heights_whole).then(|| entries.collect())
    }
}

// ---- answers; a refused one is 0 but for its number

/// The answer where it was accepted and is in range, else the refusal, or what was odd.
fn said(refused: u64, others: &[u64], shown: impl std::fmt::Debug, answer: Option<Answer>, places: u64) -> Said {
    match (refused, answer) {
        (0, Some(answer)) => Said::Answered(answer, places),
        (1.., _) if others.iter().all(|value| *value == 0) => Said::Refused(refused),
        _ => Said::Malformed(format!("{shown:?}")),
    }
}

fn done(refused: u64) -> Said {
    said(refused, &[], refused, Some(Answer::Done), 0)
}

fn number(given: Number, read: fn(u64) -> Option<Answer>) -> Said {
    said(given.refused, &[given.value], given, read(given.value), 0)
}

fn plain(value: u64) -> Option<Answer> {
    Some(Answer::Number(value))
}

fn flag(value: u64) -> Option<Answer> {
    (value < 2).then_some(Answer::Flag(value == 1))
}

fn owned(value: u64) -> Option<Answer> {
    let kinds = [OwnedFetch::Held, OwnedFetch::Staged, OwnedFetch::Asked, OwnedFetch::NoCapacity];
    kinds.get(usize::try_from(value).ok()?).map(|kind| Answer::Owned(*kind))
}

fn pair(given: Pair) -> Said {
    said(given.refused, &[given.first, given.second], given, Some(Answer::Pair(given.first, given.second)), 0)
}

fn perhaps(given: Perhaps) -> Said {
    let answer = maybe(given.present, given.value == 0, given.value).map(Answer::MaybeNumber);
    said(given.refused, &[given.present, given.value], given, answer, 0)
}

fn perhaps_pair(given: PerhapsPair) -> Said {
    let values = (given.first, given.second);
    let answer = maybe(given.present, values == (0, 0), values).map(Answer::MaybePair);
    said(given.refused, &[given.present, given.first, given.second], given, answer, 0)
}

/// A value that is there or, being 0, is not.
fn maybe<T>(present: u64, zero: bool, value: T) -> Option<Option<T>> {
    match present {
        0 if zero => Some(None),
        1 => Some(Some(value)),
        _ => None,
    }
}

/// A sweep answers its places, the others nothing more.
fn gone(given: Gone, counts: bool) -> Said {
    let answer = if counts { Answer::Number(given.places) } else { Answer::Done };
    said(given.refused, &[given.places], given, Some(answer), given.places)
}

fn received(given: Received) -> Said {
    let answer = maybe(given.present, given.height == 0, given.height).map(Answer::MaybeNumber);
    said(given.refused, &[given.places, given.present, given.height], given, answer, given.places)
}

fn rejected(given: Rejected) -> Said {
    let answer = match given.released {
        0 if given.places == 0 => Some(Rejection::DiscardedUnsolicited),
        1 => Some(Rejection::ReleasedPending),
        _ => None,
    };
    said(given.refused, &[given.places, given.released], given, answer.map(Answer::Rejected), given.places)
}

fn decided(given: Blocked) -> Said {
    let Blocked { refused, decision, owner, height, suppressed, hash } = given;
    let words = [hash.a, hash.b, hash.c, hash.d];
    let bare = height == 0 && suppressed == 0;
    let blame = |reason| Some(Decision::Blame { owner: owner.try_into().ok()?, reason });
    let answer = match decision {
        0 if bare && owner == 0 && words == [0; 4] => Some(Decision::None),
        1 if bare && words == [0; 4] => blame(BlameReason::Staller),
        2 if bare && words == [0; 4] => blame(BlameReason::PendingTimeout),
        3 if owner == 0 => u32::try_from(height).ok().map(|height| Decision::EvictStaged {
            height,
            hash: plain_hash(&hash),
            suppressed_for: suppressed,
        }),
        4 if bare => owner.try_into().ok().map(|owner| Decision::HedgeColdFront { owner, front_hash: plain_hash(&hash) }),
        _ => None,
    };
    let others = [&[decision, owner, height, suppressed][..], &words].concat();
    said(refused, &others, given, answer.map(Answer::Decided), 0)
}

fn planned(given: Plan) -> Said {
    let Plan { refused, present, owner, count, end_height, hashes } = given;
    let empty = Hash { a: 0, b: 0, c: 0, d: 0 };
    let (used, rest) = hashes.split_at(count.min(8) as usize);
    let plan = || {
        let hashes: Vec<calls::Hash> = used.iter().map(plain_hash).collect();
        let end_height = end_height.try_into().ok()?;
        Some(calls::Plan { owner: owner.try_into().ok()?, hashes, end_height })
    };
    let answer = match present {
        _ if rest.iter().any(|hash| *hash != empty) || count > 8 => None,
        0 if [owner, count, end_height] == [0; 3] => Some(Answer::Planned(None)),
        1 => plan().map(|plan| Answer::Planned(Some(plan))),
        _ => None,
    };
    let others = [present, owner, count, end_height, u64::from(hashes.iter().any(|hash| *hash != empty))];
    said(refused, &others, given, answer, 0)
}

/// A request has entries; without one, and where it is refused, nothing of the plan is written.
#[cfg_attr(not(planning), allow(dead_code))]
fn proposed(given: NextRequest, planned: &Planned, source: u64) -> Said {
    let NextRequest { refused, places, count, next_height } = given;
    let Some(listed) = usize::try_from(count).ok().and_then(|count| planned.entries(count)) else {
        return Said::Malformed(format!("{given:?}, and more was written for the plan"));
    };
    let request = || {
        let next_request_height = next_height.try_into().ok()?;
        Some(calls::Request { owner: source.try_into().ok()?, entries: listed, next_request_height })
    };
    let answer = match count {
        0 if next_height == 0 => Some(Answer::Proposed(None)),
        0 => None,
        _ => request().map(|request| Answer::Proposed(Some(request))),
    };
    said(refused, &[places, count, next_height], given, answer, places)
}
