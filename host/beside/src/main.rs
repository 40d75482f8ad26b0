//! beside CALLS SEED: the oracle's calls through the original and through this crate. Answers and releases are equal, so no argument of a method is
//! mixed up on its way. The words themselves are oracle/compare's to compare.

mod planning;

use calls::generator::{Generator, Profile};
use calls::{Answer, Call, Clock, Decision, Entry, Outcome, OwnedFetch, Plan, Reason, Rejection, Release, Window};
use kofudile::{
    BlameReason, BlockedContext, BlockedDecision, DownloadWindow, Hash256, Headroom, Refusal, RejectDelivery, Staged, SyncBudget,
};
use std::time::{Duration, Instant};

fn main() {
    let mut arguments = std::env::args().skip(1).map(|text| text.parse::<u64>().expect("a number"));
    let (calls, seed) = (arguments.next().unwrap_or(20_000), arguments.next().unwrap_or(1));
    let mut original = ordered::Original::default();
    let mut host = Host { base: Instant::now(), window: None };
    let mut generator = Generator::new(seed, Profile::default());
    let mut last: Option<Outcome> = None;
    for number in 1..=calls {
        let call = generator.next(last.as_ref());
        let theirs = original.call(&call);
        let mine = host.call(&call);
        let equal = mine.as_ref().is_ok_and(|(answer, gone)| *answer == theirs.answer && *gone == theirs.gone);
        if !equal {
            println!("call {number}: {call:?}\n  the Rust   {:?} {:?}\n  this crate {mine:?}", theirs.answer, theirs.gone);
            println!("{} passed, 1 failed", number - 1);
            std::process::exit(1);
        }
        last = Some(theirs);
    }
    println!("{calls} passed, 0 failed");
}

/// Clock t is the moment t nanoseconds after the base.
struct Host {
    base: Instant,
    window: Option<DownloadWindow>,
}

type Said = Result<(Answer, Vec<Release>), Refusal>;

impl Host {
    fn at(&self, clock: Clock) -> Instant {
        self.base + Duration::from_nanos(clock)
    }

    fn clock(&self, moment: Instant) -> Clock {
        moment.duration_since(self.base).as_nanos() as Clock
    }

    fn call(&mut self, call: &Call) -> Said {
        if let Call::Open { clock, settings, keys } = call {
            let keys: &[u8; 256] = keys.as_slice().try_into().expect("256 keys");
            self.window = Some(DownloadWindow::new(budget(settings), keys, self.at(*clock))?);
            return Ok((Answer::Done, Vec::new()));
        }
        let mut window = self.window.take().expect("an opening came first");
        let said = self
            .change(&mut window, call)
            .or_else(|| self.let_go(&mut window, call))
            .or_else(|| self.plan(&mut window, call))
            .unwrap_or_else(|| self.query(&window, call));
        self.window = Some(window);
        said
    }

    /// Calls that let nothing go.
    fn change(&self, window: &mut DownloadWindow, call: &Call) -> Option<Said> {
        let answer = match call {
            Call::MarkRequested { clock, owner, entries, next_request_height, byte_headroom, count_headroom } => {
                let entries: Vec<(Hash256, u32)> = entries.iter().map(|(hash, height)| (Hash256(hash.0), *height)).collect();
                let headroom = headroom(*byte_headroom, *count_headroom);
                window.mark_requested(headroom, *owner, &entries, *next_request_height, self.at(*clock)).map(Answer::Flag)
            }
            Call::MarkOwnedFetch { clock, owner, hash, height, staged, byte_headroom, count_headroom } => window
                .mark_owned_fetch(
                    headroom(*byte_headroom, *count_headroom),
                    *staged,
                    *owner,
                    Hash256(hash.0),
                    *height,
                    self.at(*clock),
                )
                .map(|fetch| {
                    Answer::Owned(match fetch {
                        kofudile::OwnedFetch::Held => OwnedFetch::Held,
                        kofudile::OwnedFetch::Staged => OwnedFetch::Staged,
                        kofudile::OwnedFetch::Asked => OwnedFetch::Asked,
                        kofudile::OwnedFetch::NoCapacity => OwnedFetch::NoCapacity,
                    })
                }),
            Call::CreditDuplicateDelivery { hash, source } => {
                done(Ok(window.credit_duplicate_delivery(Hash256(hash.0), *source)))
            }
            Call::MarkPeerUnresponsive { clock, source } => done(window.mark_peer_unresponsive(*source, self.at(*clock))),
            Call::ConfirmPrefixProbe { clock, owner, hashes, alternates } => {
                let hashes: Vec<Hash256> = hashes.iter().map(|hash| Hash256(hash.0)).collect();
                done(window.confirm_prefix_probe(*owner, &hashes, alternates, self.at(*clock)))
            }
            Call::ConfirmColdFrontHedge { owner, alternate, hash } => {
                done(Ok(window.confirm_cold_front_hedge(*owner, *alternate, Hash256(hash.0))))
            }
            Call::ObserveBlocked { clock, next_apply_height, frontier_hash, busy, staged_count, staged_height } => {
                let context = BlockedContext {
                    next_apply_height: *next_apply_height,
                    frontier_hash: frontier_hash.map(|hash| Hash256(hash.0)),
                    apply_side_busy: *busy,
                };
                let staged = Staged { blocks: *staged_count as usize, highest: *staged_height };
                window.observe_blocked(context, staged, self.at(*clock)).map(decided)
            }
            Call::SetFanoutEligiblePeers { clock, count } => {
                done(window.set_fanout_eligible_peers(*count as usize, self.at(*clock)))
            }
            Call::ClearPreferredPeer => done(Ok(window.clear_preferred_peer())),
            _ => return None,
        };
        Some(self.with_released(window, answer))
    }

    fn let_go(&self, window: &mut DownloadWindow, call: &Call) -> Option<Said> {
        let answer = match call {
            Call::MarkReceivedFrom { clock, hash, bytes, source } => window
                .mark_received_from(Hash256(hash.0), *bytes as usize, *source, self.at(*clock))
                .map(|height| Answer::MaybeNumber(height.map(u64::from))),
            Call::CreditDeliveryFrom { clock, hash, source, pending_height } => {
                done(window.credit_delivery_from(Hash256(hash.0), *source, *pending_height, self.at(*clock)))
            }
            Call::RejectDelivery { clock, hash, source } => {
                window.reject_delivery(Hash256(hash.0), *source, self.at(*clock)).map(|rejection| {
                    Answer::Rejected(match rejection {
                        RejectDelivery::ReleasedPending => Rejection::ReleasedPending,
                        RejectDelivery::DiscardedUnsolicited => Rejection::DiscardedUnsolicited,
                    })
                })
            }
            Call::ExpirePending { clock } => window.expire_pending(self.at(*clock)).map(number),
            Call::RequeueForRetry { clock, hash, height } => {
                done(window.requeue_for_retry(&Hash256(hash.0), *height, self.at(*clock)))
            }
            Call::ReleasePending { clock, hash } => done(window.release_pending(&Hash256(hash.0), self.at(*clock))),
            Call::RetireBefore { clock, height } => done(window.retire_before(*height, self.at(*clock))),
            Call::RetainOwnedBy { owns } => done(Ok(window.retain_owned_by(|seat| owns[usize::from(seat)]))),
            _ => return None,
        };
        Some(self.with_released(window, answer))
    }

    fn with_released(&self, window: &DownloadWindow, answer: Result<Answer, Refusal>) -> Said {
        answer.map(|answer| (answer, window.released().map(|release| self.plain(release)).collect()))
    }

    fn query(&self, window: &DownloadWindow, call: &Call) -> Said {
        let answer = match call {
            Call::ExpiredPendingCapacity { clock } => pair(window.expired_pending_capacity(self.at(*clock))?),
            Call::PeerHasExpiredPending { source, clock } => {
                Answer::Flag(window.peer_has_expired_pending(*source, self.at(*clock))?)
            }
            Call::PeerInStallerCooldown { source, clock } => {
                Answer::Flag(window.peer_in_staller_cooldown(*source, self.at(*clock))?)
            }
            timeless => self.timeless(window, timeless),
        };
        Ok((answer, Vec::new()))
    }

    /// Queries that take no clock: none can be refused.
    fn timeless(&self, window: &DownloadWindow, call: &Call) -> Answer {
        match call {
            Call::FanoutActive => Answer::Flag(window.fanout_active()),
            Call::PendingLen => number(window.pending_len()),
            Call::PendingBytes => number(window.pending_bytes()),
            Call::PendingHighWater => pair(window.pending_high_water()),
            Call::MaxPendingBlocks => number(window.max_pending_blocks()),
            Call::MinPeersForFanout => number(window.min_peers_for_fanout()),
            Call::HasRequestCapacity { byte_headroom, count_headroom } => {
                Answer::Flag(window.has_request_capacity(headroom(*byte_headroom, *count_headroom)))
            }
            Call::ComputeRequestCapacity { source, byte_headroom, count_headroom } => {
                let capacity = window.compute_request_capacity(headroom(*byte_headroom, *count_headroom), *source);
                Answer::MaybePair(capacity.map(|(batch, bytes)| (batch as u64, bytes as u64)))
            }
            Call::EffectivePeerInflight => number(window.effective_peer_inflight()),
            Call::StallingPeer => {
                Answer::MaybePair(window.stalling_peer().map(|(key, since)| (u64::from(key), self.clock(since))))
            }
            Call::PreferredPeer => seat(window.preferred_peer()),
            Call::ProbeOffered { source, hash } => Answer::Flag(window.probe_offered(*source, &Hash256(hash.0))),
            Call::HedgeOffered { source, hash } => Answer::Flag(window.hedge_offered(*source, &Hash256(hash.0))),
            Call::PrefixProbePlan => Answer::Planned(window.prefix_probe_plan().map(|plan| Plan {
                owner: plan.owner,
                hashes: plan.hashes.iter().map(|hash| calls::Hash(hash.0)).collect(),
                end_height: plan.end_height,
            })),
            Call::ContainsPending { hash } => Answer::Flag(window.contains_pending(&Hash256(hash.0))),
            Call::PendingOwner { hash } => seat(window.pending_owner(&Hash256(hash.0))),
            Call::IsDownloading { owner } => Answer::Flag(window.is_downloading(*owner)),
            Call::ActiveDownloadingPeers => number(window.active_downloading_peers()),
            Call::EffectiveOwnerTimeout => duration(window.effective_owner_timeout()),
            Call::StallDecayFloor => duration(window.stall_decay_floor()),
            Call::PendingCountFor { source } => number(window.pending_count_for(*source)),
            Call::RequestCursor => Answer::Number(window.request_cursor().into()),
            Call::StallTimeout => duration(window.stall_timeout()),
            Call::FrontIntervalEwmaMs => Answer::MaybeNumber(window.front_interval_ewma_ms()),
            Call::EwmaBlockBytes => number(window.ewma_block_bytes()),
            Call::OwnerQueueStart { owner } => self.moment(window.owner_queue_start(*owner)),
            Call::ProbeStartedAt => self.moment(window.active_prefix_probe_started_at()),
            changing => unreachable!("{changing:?} is made elsewhere"),
        }
    }

    fn moment(&self, moment: Option<Instant>) -> Answer {
        Answer::MaybeNumber(moment.map(|moment| self.clock(moment)))
    }

    fn plain(&self, release: kofudile::Release) -> Release {
        let kofudile::Entry { hash, owner, requested_at, height, estimated_bytes, .. } = release.entry;
        let requested_at = self.clock(requested_at);
        let entry = Entry { hash: calls::Hash(hash.0), owner, requested_at, height, estimated_bytes: estimated_bytes as u64 };
        let reason = match release.reason {
            kofudile::Reason::Delivered => Reason::Delivered,
            kofudile::Reason::OwnerRejected => Reason::OwnerRejected,
            kofudile::Reason::Retry => Reason::Retry,
            kofudile::Reason::Released => Reason::Released,
            kofudile::Reason::Retired => Reason::Retired,
            kofudile::Reason::OwnerTimedOut => Reason::OwnerTimedOut,
            kofudile::Reason::PassedOver => Reason::PassedOver,
            kofudile::Reason::SeatLost => Reason::SeatLost,
            kofudile::Reason::PrefixRaceLost => Reason::PrefixRaceLost,
            kofudile::Reason::HedgeLost => Reason::HedgeLost,
            other => unreachable!("{other:?} is no reason of the oracle"),
        };
        Release { entry, reason }
    }
}

fn decided(decision: BlockedDecision) -> Answer {
    Answer::Decided(match decision {
        BlockedDecision::Blame { owner, reason: BlameReason::Staller } => {
            Decision::Blame { owner, reason: calls::BlameReason::Staller }
        }
        BlockedDecision::Blame { owner, reason: BlameReason::PendingTimeout } => {
            Decision::Blame { owner, reason: calls::BlameReason::PendingTimeout }
        }
        BlockedDecision::EvictStaged { height, hash, suppressed_for } => {
            Decision::EvictStaged { height, hash: calls::Hash(hash.0), suppressed_for: suppressed_for.as_nanos() as u64 }
        }
        BlockedDecision::HedgeColdFront { owner, front_hash } => {
            Decision::HedgeColdFront { owner, front_hash: calls::Hash(front_hash.0) }
        }
        BlockedDecision::None => Decision::None,
    })
}

fn done(said: Result<(), Refusal>) -> Result<Answer, Refusal> {
    said.map(|()| Answer::Done)
}

fn number(value: usize) -> Answer {
    Answer::Number(value as u64)
}

fn pair((first, second): (usize, usize)) -> Answer {
    Answer::Pair(first as u64, second as u64)
}

fn seat(seat: Option<u8>) -> Answer {
    Answer::MaybeNumber(seat.map(u64::from))
}

fn duration(duration: Duration) -> Answer {
    Answer::Number(duration.as_nanos() as u64)
}

fn headroom(bytes: u64, blocks: u64) -> Headroom {
    Headroom { bytes: bytes as usize, blocks: blocks as usize }
}

fn budget(settings: &calls::Settings) -> SyncBudget {
    SyncBudget {
        max_pending_blocks: settings.max_pending_blocks as usize,
        max_pending_bytes: settings.max_pending_bytes as usize,
        max_received_blocks: settings.max_received_blocks as usize,
        max_peer_inflight: settings.max_peer_inflight as usize,
        fanout_peer_inflight: settings.fanout_peer_inflight as usize,
        min_peers_for_fanout: settings.min_peers_for_fanout as usize,
        getdata_batch_limit: settings.getdata_batch_limit as usize,
        block_spacing: Duration::from_nanos(settings.block_spacing),
        received_timeout: Duration::from_nanos(settings.received_timeout),
        stall_timeout_initial: Duration::from_nanos(settings.stall_timeout_initial),
        stall_timeout_max: Duration::from_nanos(settings.stall_timeout_max),
        staller_cooldown: Duration::from_nanos(settings.staller_cooldown),
    }
}
