//! Calls as antt spells them.

use calls::{Call as Reading, Hash, Settings};
use layout::hash_words;
use raw::{Call, Lent, Room};
use std::fmt::Display;

/// `a ∷ b ∷ []`
pub fn list(items: impl IntoIterator<Item = impl Display>) -> String {
    items.into_iter().map(|item| format!("{item} ∷ ")).chain(["[]".to_string()]).collect()
}

fn hash(hash: &Hash) -> String {
    let [a, b, c, d] = hash_words(hash);
    format!("(hash {a} {b} {c} {d})")
}

fn source(seat: Option<u64>) -> String {
    seat.map_or("None".to_string(), |seat| format!("(Some {seat})"))
}

fn height(height: Option<u32>) -> String {
    height.map_or("None".to_string(), |height| format!("(Some {height})"))
}

fn settings(settings: &Settings) -> String {
    let Settings {
        max_pending_blocks,
        max_pending_bytes,
        max_received_blocks,
        max_peer_inflight,
        fanout_peer_inflight,
        min_peers_for_fanout,
        getdata_batch_limit,
        block_spacing,
        received_timeout,
        stall_timeout_initial,
        stall_timeout_max,
        staller_cooldown,
    } = settings;
    format!(
        "(settings {max_pending_blocks} {max_pending_bytes} {max_received_blocks} {max_peer_inflight} {fanout_peer_inflight} {min_peers_for_fanout} \
         {getdata_batch_limit} {block_spacing} {received_timeout} {stall_timeout_initial} {stall_timeout_max} {staller_cooldown})"
    )
}

/// Accepted calls.
pub fn calls(calls: &[Reading]) -> Vec<String> {
    calls.iter().map(|accepted| call(&accepted.into())).collect()
}

/// A call of the model's `Call`.
pub fn call(call: &Call) -> String {
    if let Call::Open { clock, settings: given, keys } = call {
        return format!("opens {clock} {} ({})", settings(given), list(keys));
    }
    match change(call) {
        Some(change) => format!("changes ({change})"),
        None => format!("queries ({})", query(call)),
    }
}

fn change(call: &Call) -> Option<String> {
    Some(match call {
        Call::MarkRequested { clock, owner, hashes, heights, next_request_height, byte_headroom, count_headroom } => {
            let (hashes, heights) = (list(hashes), list(heights));
            format!("requests {clock} {owner} ({hashes}) ({heights}) {next_request_height} {byte_headroom} {count_headroom}")
        }
        Call::MarkOwnedFetch { clock, owner, hash: h, height, staged, byte_headroom, count_headroom } => {
            format!("fetches {clock} {owner} {} {height} {staged} {byte_headroom} {count_headroom}", hash(h))
        }
        Call::MarkReceivedFrom { clock, hash: h, bytes, source: from } => {
            format!("receives {clock} {} {bytes} {}", hash(h), source(*from))
        }
        Call::CreditDeliveryFrom { clock, hash: h, source, pending_height } => {
            format!("credits {clock} {} {source} {}", hash(h), height(*pending_height))
        }
        Call::CreditDuplicateDelivery { hash: h, source } => format!("credits_duplicate {} {source}", hash(h)),
        Call::RejectDelivery { clock, hash: h, source: from } => format!("rejects {clock} {} {}", hash(h), source(*from)),
        Call::ExpirePending { clock } => format!("expires {clock}"),
        Call::RequeueForRetry { clock, hash: h, height: named } => format!("requeues {clock} {} {}", hash(h), height(*named)),
        Call::ReleasePending { clock, hash: h } => format!("releases {clock} {}", hash(h)),
        Call::RetireBefore { clock, height } => format!("retires {clock} {height}"),
        Call::RetainOwnedBy { flags } => format!("retains ({})", list(flags)),
        Call::MarkPeerUnresponsive { clock, source } => format!("marks_unresponsive {clock} {source}"),
        _ => return race_or_look(call),
    })
}

fn race_or_look(call: &Call) -> Option<String> {
    Some(match call {
        Call::ConfirmPrefixProbe { clock, owner, hashes, alternates } => {
            format!("confirms_probe {clock} {owner} ({}) ({})", list(hashes), list(alternates))
        }
        Call::ConfirmColdFrontHedge { owner, alternate, hash: h } => format!("confirms_hedge {owner} {alternate} {}", hash(h)),
        Call::ObserveBlocked { clock, next_apply_height, frontier_hash, busy, staged_count, staged_height } => {
            let frontier = frontier_hash.as_ref().map_or("None".to_string(), |h| format!("(Some {})", hash(h)));
            format!(
                "observes {clock} (look {} {frontier} {busy} {staged_count} {})",
                height(*next_apply_height),
                height(*staged_height)
            )
        }
        Call::SetFanoutEligiblePeers { clock, count } => format!("sets_fanout {clock} {count}"),
        Call::ClearPreferredPeer => "clears_preferred".to_string(),
        Call::NextPeerRequest { clock, source, lent, room } => format!("plans {clock} {source} {}", lending(lent, *room)),
        Call::NextPeerRequestAllowingRetry { clock, source, lent, room } => {
            format!("plans_retry {clock} {source} {}", lending(lent, *room))
        }
        _ => return None,
    })
}

/// What is lent for a plan, and how much for the plan itself.
fn lending(lent: &Lent, room: Room) -> String {
    let Lent { chain, tip, staged, refused, start, best, floor, exhausted, byte_headroom, count_headroom } = lent;
    let (chain, staged, refused) = (list(chain), list(staged), list(refused));
    let said = format!("{start} {best} {floor} {exhausted} {byte_headroom} {count_headroom}");
    format!("(lending ({chain}) {tip} ({staged}) ({refused}) {said}) {} {}", room.hash_words, room.heights)
}

fn query(call: &Call) -> String {
    match call {
        Call::ComputeRequestCapacity { source, byte_headroom, count_headroom } => {
            format!("asks_compute_capacity {source} {byte_headroom} {count_headroom}")
        }
        Call::ExpiredPendingCapacity { clock } => format!("asks_expired_capacity {clock}"),
        Call::PeerHasExpiredPending { source, clock } => format!("asks_has_expired {source} {clock}"),
        Call::PeerInStallerCooldown { source, clock } => format!("asks_cooldown {source} {clock}"),
        Call::ProbeOffered { source, hash: h } => format!("asks_probe_offered {source} {}", hash(h)),
        Call::HedgeOffered { source, hash: h } => format!("asks_hedge_offered {source} {}", hash(h)),
        Call::IsDownloading { owner } => format!("asks_downloading {owner}"),
        Call::PendingCountFor { source } => format!("asks_count_for {source}"),
        Call::OwnerQueueStart { owner } => format!("asks_queue_start {owner}"),
        Call::Query(query) => plain_query(query),
        other => panic!("{other:?} is no query"),
    }
}

fn plain_query(query: &Reading) -> String {
    match query {
        Reading::HasRequestCapacity { byte_headroom, count_headroom } => {
            format!("asks_request_capacity {byte_headroom} {count_headroom}")
        }
        Reading::ContainsPending { hash: h } => format!("asks_contains {}", hash(h)),
        Reading::PendingOwner { hash: h } => format!("asks_owner {}", hash(h)),
        _ => format!("reads {}", reading(query)),
    }
}

fn reading(query: &Reading) -> &'static str {
    match query {
        Reading::FanoutActive => "fanout_active",
        Reading::PendingLen => "pending_len",
        Reading::PendingBytes => "pending_bytes",
        Reading::PendingHighWater => "pending_high_water",
        Reading::MaxPendingBlocks => "max_pending_blocks",
        Reading::MinPeersForFanout => "min_peers_for_fanout",
        Reading::EffectivePeerInflight => "peer_inflight",
        Reading::StallingPeer => "stalling_peer",
        Reading::PreferredPeer => "preferred_peer",
        Reading::PrefixProbePlan => "probe_plan",
        Reading::ActiveDownloadingPeers => "active_peers",
        Reading::EffectiveOwnerTimeout => "owner_timeout",
        Reading::StallDecayFloor => "decay_floor",
        Reading::RequestCursor => "request_cursor",
        Reading::StallTimeout => "stall_timeout",
        Reading::FrontIntervalEwmaMs => "front_interval_ewma_ms",
        Reading::EwmaBlockBytes => "ewma_block_bytes",
        Reading::ProbeStartedAt => "probe_start",
        other => panic!("{other:?} is no query"),
    }
}
