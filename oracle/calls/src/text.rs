//! One line a call: tokens `key=value` parted by single spaces. README.md documents the format.

use crate::data::*;
use std::fmt::{Display, Write};

/// The line of one call: what was called, what it answered, what went, the state after it.
pub fn line(call: &Call, outcome: &Outcome) -> String {
    let mut line = Line::default();
    line.call(call);
    line.token("answer", answer(&outcome.answer));
    line.token("gone", list(&outcome.gone, |release| format!("{}:{}", release.reason as u8, entry(&release.entry))));
    line.state(&outcome.state);
    line.0
}

/// The tokens in which two lines differ, side by side.
pub fn differing_tokens(left: &str, right: &str) -> Vec<(String, String)> {
    left.split(' ')
        .zip(right.split(' '))
        .filter(|(left, right)| left != right)
        .map(|(left, right)| (left.to_string(), right.to_string()))
        .collect()
}

#[derive(Default)]
struct Line(String);

impl Line {
    fn token(&mut self, key: &str, value: impl Display) {
        if !self.0.is_empty() {
            self.0.push(' ');
        }
        write!(self.0, "{key}={value}").expect("writing to a string does not fail");
    }

    fn tokens(&mut self, tokens: &[(&str, &dyn Display)]) {
        for (key, value) in tokens {
            self.token(key, value);
        }
    }

    fn call(&mut self, call: &Call) {
        match call {
            Call::Open { clock, settings, keys } => {
                self.tokens(&[
                    ("call", &"open"),
                    ("a.clock", clock),
                    ("a.settings", &settings_text(settings)),
                    ("a.keys", &bytes(keys)),
                ]);
            }
            Call::MarkRequested { clock, owner, entries, next_request_height, byte_headroom, count_headroom } => self.tokens(&[
                ("call", &"mark_requested"),
                ("a.clock", clock),
                ("a.owner", owner),
                ("a.entries", &list(entries, |(hash, height)| format!("{hash}:{height}"))),
                ("a.next_request_height", next_request_height),
                ("a.byte_headroom", byte_headroom),
                ("a.count_headroom", count_headroom),
            ]),
            Call::MarkOwnedFetch { clock, owner, hash, height, staged, byte_headroom, count_headroom } => self.tokens(&[
                ("call", &"mark_owned_fetch"),
                ("a.clock", clock),
                ("a.owner", owner),
                ("a.hash", hash),
                ("a.height", height),
                ("a.staged", &flag(*staged)),
                ("a.byte_headroom", byte_headroom),
                ("a.count_headroom", count_headroom),
            ]),
            _ => self.delivery_call(call),
        }
    }

    fn delivery_call(&mut self, call: &Call) {
        match call {
            Call::MarkReceivedFrom { clock, hash, bytes, source } => {
                self.tokens(&[
                    ("call", &"mark_received_from"),
                    ("a.clock", clock),
                    ("a.hash", hash),
                    ("a.bytes", bytes),
                    ("a.source", &maybe(*source)),
                ]);
            }
            Call::CreditDeliveryFrom { clock, hash, source, pending_height } => {
                self.tokens(&[
                    ("call", &"credit_delivery_from"),
                    ("a.clock", clock),
                    ("a.hash", hash),
                    ("a.source", source),
                    ("a.pending_height", &maybe(*pending_height)),
                ]);
            }
            Call::CreditDuplicateDelivery { hash, source } => {
                self.tokens(&[("call", &"credit_duplicate_delivery"), ("a.hash", hash), ("a.source", source)]);
            }
            Call::RejectDelivery { clock, hash, source } => {
                self.tokens(&[("call", &"reject_delivery"), ("a.clock", clock), ("a.hash", hash), ("a.source", &maybe(*source))]);
            }
            _ => self.letting_go_call(call),
        }
    }

    fn letting_go_call(&mut self, call: &Call) {
        match call {
            Call::ExpirePending { clock } => self.tokens(&[("call", &"expire_pending"), ("a.clock", clock)]),
            Call::RequeueForRetry { clock, hash, height } => {
                self.tokens(&[
                    ("call", &"requeue_for_retry"),
                    ("a.clock", clock),
                    ("a.hash", hash),
                    ("a.height", &maybe(*height)),
                ]);
            }
            Call::ReleasePending { clock, hash } => {
                self.tokens(&[("call", &"release_pending"), ("a.clock", clock), ("a.hash", hash)])
            }
            Call::RetireBefore { clock, height } => {
                self.tokens(&[("call", &"retire_before"), ("a.clock", clock), ("a.height", height)])
            }
            Call::RetainOwnedBy { owns } => self
                .tokens(&[("call", &"retain_owned_by"), ("a.owns", &owns.iter().map(|owned| flag(*owned)).collect::<String>())]),
            Call::MarkPeerUnresponsive { clock, source } => {
                self.tokens(&[("call", &"mark_peer_unresponsive"), ("a.clock", clock), ("a.source", source)]);
            }
            _ => self.race_call(call),
        }
    }

    fn race_call(&mut self, call: &Call) {
        match call {
            Call::ConfirmPrefixProbe { clock, owner, hashes, alternates } => self.tokens(&[
                ("call", &"confirm_prefix_probe"),
                ("a.clock", clock),
                ("a.owner", owner),
                ("a.hashes", &list(hashes, Hash::to_string)),
                ("a.alternates", &list(alternates, Seat::to_string)),
            ]),
            Call::ConfirmColdFrontHedge { owner, alternate, hash } => {
                self.tokens(&[
                    ("call", &"confirm_cold_front_hedge"),
                    ("a.owner", owner),
                    ("a.alternate", alternate),
                    ("a.hash", hash),
                ]);
            }
            Call::ObserveBlocked { clock, next_apply_height, frontier_hash, busy, staged_count, staged_height } => {
                self.tokens(&[
                    ("call", &"observe_blocked"),
                    ("a.clock", clock),
                    ("a.next_apply_height", &maybe(*next_apply_height)),
                    ("a.frontier_hash", &maybe(*frontier_hash)),
                    ("a.busy", &flag(*busy)),
                    ("a.staged_count", staged_count),
                    ("a.staged_height", &maybe(*staged_height)),
                ])
            }
            Call::SetFanoutEligiblePeers { clock, count } => {
                self.tokens(&[("call", &"set_fanout_eligible_peers"), ("a.clock", clock), ("a.count", count)]);
            }
            Call::ClearPreferredPeer => self.token("call", "clear_preferred_peer"),
            Call::NextPeerRequest { clock, source, lent } => self.plan("next_peer_request", *clock, *source, lent),
            Call::NextPeerRequestAllowingRetry { clock, source, lent } => {
                self.plan("next_peer_request_allowing_retry", *clock, *source, lent);
            }
            _ => self.query(call),
        }
    }

    fn plan(&mut self, name: &str, clock: Clock, source: Seat, lent: &Lent) {
        self.tokens(&[
            ("call", &name),
            ("a.clock", &clock),
            ("a.source", &source),
            ("a.chain", &list(&lent.chain, Hash::to_string)),
            ("a.staged", &list(&lent.staged, Hash::to_string)),
            ("a.refused", &list(&lent.refused, Hash::to_string)),
            ("a.start", &lent.start),
            ("a.best", &lent.best),
            ("a.floor", &lent.floor),
            ("a.exhausted", &flag(lent.exhausted)),
            ("a.byte_headroom", &lent.byte_headroom),
            ("a.count_headroom", &lent.count_headroom),
            ("a.staging", &maybe(lent.staging.map(|staging| format!("{}:{}", staging.bytes, staging.limit)))),
        ]);
    }

    fn query(&mut self, call: &Call) {
        match call {
            Call::HasRequestCapacity { byte_headroom, count_headroom } => {
                self.tokens(&[
                    ("call", &"has_request_capacity"),
                    ("a.byte_headroom", byte_headroom),
                    ("a.count_headroom", count_headroom),
                ]);
            }
            Call::ComputeRequestCapacity { source, byte_headroom, count_headroom } => self.tokens(&[
                ("call", &"compute_request_capacity"),
                ("a.source", source),
                ("a.byte_headroom", byte_headroom),
                ("a.count_headroom", count_headroom),
            ]),
            Call::ExpiredPendingCapacity { clock } => self.tokens(&[("call", &"expired_pending_capacity"), ("a.clock", clock)]),
            Call::PeerHasExpiredPending { source, clock } => {
                self.tokens(&[("call", &"peer_has_expired_pending"), ("a.source", source), ("a.clock", clock)])
            }
            Call::PeerInStallerCooldown { source, clock } => {
                self.tokens(&[("call", &"peer_in_staller_cooldown"), ("a.source", source), ("a.clock", clock)])
            }
            Call::ProbeOffered { source, hash } => {
                self.tokens(&[("call", &"probe_offered"), ("a.source", source), ("a.hash", hash)])
            }
            Call::HedgeOffered { source, hash } => {
                self.tokens(&[("call", &"hedge_offered"), ("a.source", source), ("a.hash", hash)])
            }
            Call::ContainsPending { hash } => self.tokens(&[("call", &"contains_pending"), ("a.hash", hash)]),
            Call::PendingOwner { hash } => self.tokens(&[("call", &"pending_owner"), ("a.hash", hash)]),
            Call::IsDownloading { owner } => self.tokens(&[("call", &"is_downloading"), ("a.owner", owner)]),
            Call::PendingCountFor { source } => self.tokens(&[("call", &"pending_count_for"), ("a.source", source)]),
            Call::OwnerQueueStart { owner } => self.tokens(&[("call", &"owner_queue_start"), ("a.owner", owner)]),
            plain => self.token("call", plain_query(plain)),
        }
    }

    fn state(&mut self, state: &State) {
        self.tokens(&[
            ("s.settings", &settings_text(&state.settings)),
            ("s.last_clock", &state.last_clock),
            ("s.pending_bytes", &state.pending_bytes),
            ("s.pending_blocks_high_water", &state.pending_blocks_high_water),
            ("s.pending_bytes_high_water", &state.pending_bytes_high_water),
            ("s.ewma_block_bytes", &state.ewma_block_bytes),
            ("s.next_request_height", &state.next_request_height),
            ("s.pending", &list(&state.pending, entry)),
            ("s.owner_downloading_since", &pairs(&state.owner_downloading_since)),
            ("s.owner_last_body_at", &pairs(&state.owner_last_body_at)),
            ("s.keys", &bytes(&state.keys)),
            ("s.recent_stallers", &pairs(&state.recent_stallers)),
            ("s.fanout_eligible_peers", &state.fanout_eligible_peers),
            ("s.fanout_engaged", &flag(state.fanout_engaged)),
            ("s.stall", &maybe(state.stall.map(|stall| format!("{}:{}:{}", stall.owner, stall.front_hash, stall.since)))),
            (
                "s.apply_side_stuck",
                &maybe(state.apply_side_stuck.map(|stuck| format!("{}:{}:{}", stuck.height, stuck.frontier_hash, stuck.since))),
            ),
            ("s.front_interval_ewma_ms", &maybe(state.front_interval_ewma_ms)),
            ("s.last_front_advance", &maybe(state.last_front_advance)),
            ("s.stall_timeout", &state.stall_timeout),
            ("s.cold_front", &maybe(state.cold_front.map(cold_front))),
            ("s.cold_hedged_fronts", &list(&state.cold_hedged_fronts, Hash::to_string)),
            ("s.preferred_peer", &maybe(state.preferred_peer)),
            ("s.prefix_probe", &maybe(state.prefix_probe.as_ref().map(probe))),
            ("s.prefix_probe_attempted_owner", &maybe(state.prefix_probe_attempted_owner)),
            (
                "s.pending_timeout_observation",
                &maybe(
                    state
                        .pending_timeout_observation
                        .map(|seen| format!("{}:{}:{}", seen.owner, seen.hash, flag(seen.expired_release))),
                ),
            ),
        ]);
    }
}

fn plain_query(call: &Call) -> &'static str {
    match call {
        Call::FanoutActive => "fanout_active",
        Call::PendingLen => "pending_len",
        Call::PendingBytes => "pending_bytes",
        Call::PendingHighWater => "pending_high_water",
        Call::MaxPendingBlocks => "max_pending_blocks",
        Call::MinPeersForFanout => "min_peers_for_fanout",
        Call::EffectivePeerInflight => "effective_peer_inflight",
        Call::StallingPeer => "stalling_peer",
        Call::PreferredPeer => "preferred_peer",
        Call::PrefixProbePlan => "prefix_probe_plan",
        Call::ActiveDownloadingPeers => "active_downloading_peers",
        Call::EffectiveOwnerTimeout => "effective_owner_timeout",
        Call::StallDecayFloor => "stall_decay_floor",
        Call::RequestCursor => "request_cursor",
        Call::StallTimeout => "stall_timeout",
        Call::FrontIntervalEwmaMs => "front_interval_ewma_ms",
        Call::EwmaBlockBytes => "ewma_block_bytes",
        Call::ProbeStartedAt => "probe_started_at",
        with_arguments => unreachable!("{with_arguments:?} is written elsewhere"),
    }
}

fn answer(answer: &Answer) -> String {
    match answer {
        Answer::Done => "done".to_string(),
        Answer::Flag(value) => format!("flag:{}", flag(*value)),
        Answer::Number(value) => format!("number:{value}"),
        Answer::Pair(first, second) => format!("pair:{first}:{second}"),
        Answer::MaybeNumber(value) => format!("maybe:{}", maybe(*value)),
        Answer::MaybePair(value) => format!("maybe_pair:{}", maybe(value.map(|(first, second)| format!("{first}:{second}")))),
        Answer::Owned(OwnedFetch::Held) => "owned:held".to_string(),
        Answer::Owned(OwnedFetch::Staged) => "owned:staged".to_string(),
        Answer::Owned(OwnedFetch::Asked) => "owned:asked".to_string(),
        Answer::Owned(OwnedFetch::NoCapacity) => "owned:no_capacity".to_string(),
        Answer::Rejected(Rejection::ReleasedPending) => "rejected:released_pending".to_string(),
        Answer::Rejected(Rejection::DiscardedUnsolicited) => "rejected:discarded_unsolicited".to_string(),
        Answer::Decided(Decision::Blame { owner, reason: BlameReason::Staller }) => format!("blame:{owner}:staller"),
        Answer::Decided(Decision::Blame { owner, reason: BlameReason::PendingTimeout }) => {
            format!("blame:{owner}:pending_timeout")
        }
        Answer::Decided(Decision::EvictStaged { height, hash, suppressed_for }) => {
            format!("evict:{height}:{hash}:{suppressed_for}")
        }
        Answer::Decided(Decision::HedgeColdFront { owner, front_hash }) => format!("hedge:{owner}:{front_hash}"),
        Answer::Decided(Decision::None) => "none".to_string(),
        Answer::Planned(None) => "plan:-".to_string(),
        Answer::Planned(Some(plan)) => format!("plan:{}:{}:{}", plan.owner, plan.end_height, list(&plan.hashes, Hash::to_string)),
        Answer::Proposed(None) => "request:-".to_string(),
        Answer::Proposed(Some(request)) => {
            let entries = list(&request.entries, |(hash, height)| format!("{hash}/{height}"));
            format!("request:{}:{}:{entries}", request.owner, request.next_request_height)
        }
    }
}

fn flag(value: bool) -> char {
    if value { '1' } else { '0' }
}

fn maybe<T: Display>(value: Option<T>) -> String {
    value.map_or("-".to_string(), |value| value.to_string())
}

fn list<T>(items: &[T], text: impl Fn(&T) -> String) -> String {
    items.iter().map(text).collect::<Vec<_>>().join(",")
}

fn pairs(items: &[(u8, u64)]) -> String {
    list(items, |(seat, value)| format!("{seat}:{value}"))
}

fn bytes(items: &[u8]) -> String {
    items.iter().map(|byte| format!("{byte:02x}")).collect()
}

fn entry(entry: &Entry) -> String {
    format!("{}:{}:{}:{}:{}", entry.hash, entry.owner, entry.requested_at, entry.height, entry.estimated_bytes)
}

fn cold_front(state: ColdFront) -> String {
    match state {
        ColdFront::Waiting { owner, hash, since } => format!("waiting:{owner}:{hash}:{since}"),
        ColdFront::Racing { owner, alternate, hash } => format!("racing:{owner}:{alternate}:{hash}"),
    }
}

fn probe(probe: &PrefixProbe) -> String {
    let racers = list(&probe.racers, |(seat, progress)| format!("{seat}/{progress}"));
    let hashes = list(&probe.hashes, Hash::to_string);
    format!("{}:{}:{}:{hashes}:{racers}", probe.owner, probe.accepted, probe.started_at)
}

fn settings_text(settings: &Settings) -> String {
    [
        settings.max_pending_blocks,
        settings.max_pending_bytes,
        settings.max_received_blocks,
        settings.max_peer_inflight,
        settings.fanout_peer_inflight,
        settings.min_peers_for_fanout,
        settings.getdata_batch_limit,
        settings.block_spacing,
        settings.received_timeout,
        settings.stall_timeout_initial,
        settings.stall_timeout_max,
        settings.staller_cooldown,
    ]
    .map(|number| number.to_string())
    .join(",")
}
