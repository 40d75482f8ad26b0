//! Prefix probes, cold-front hedges and what a body does to them; fan-out.

use super::{Seen, State, mark_peer_unresponsive};
use crate::data::*;
use crate::tally::Tally;

const WIN_MASK: u8 = 15;
const WIN_BLOCKS: u64 = 4;

pub(crate) fn count(tally: &mut Tally, seen: &Seen) {
    match seen.call {
        Call::MarkReceivedFrom { clock, hash, source: Some(source), .. }
        | Call::CreditDeliveryFrom { clock, hash, source, .. } => {
            resolve_cold_front_delivery(tally, seen, *clock, *hash, *source);
            if !hedge_won(seen.before, *hash, *source) {
                record_prefix_probe_delivery(tally, seen, *clock, *hash, *source);
            }
        }
        Call::PrefixProbePlan => prefix_probe_plan(tally, seen.before),
        Call::ConfirmPrefixProbe { .. } => confirm_prefix_probe(tally, seen),
        Call::ConfirmColdFrontHedge { .. } => confirm_cold_front_hedge(tally, seen),
        Call::SetFanoutEligiblePeers { clock, count } => set_fanout_eligible_peers(tally, seen, *clock, *count),
        Call::ClearPreferredPeer => tally.either("clear_preferred_peer: there was one", seen.before.preferred_peer.is_some()),
        _ => {}
    }
}

fn hedge_won(before: &State, hash: Hash, source: Seat) -> bool {
    matches!(before.cold_front, Some(ColdFront::Racing { alternate, hash: front, .. }) if front == hash && alternate == source)
}

fn resolve_cold_front_delivery(tally: &mut Tally, seen: &Seen, clock: Clock, hash: Hash, source: Seat) {
    let before = seen.before;
    match before.cold_front {
        None => tally.hit("resolve_cold_front_delivery: no cold front"),
        Some(ColdFront::Waiting { hash: front, .. }) => {
            tally.either("resolve_cold_front_delivery: waiting on this hash", front == hash)
        }
        Some(ColdFront::Racing { hash: front, .. }) if front != hash => {
            tally.hit("resolve_cold_front_delivery: racing on another hash")
        }
        Some(ColdFront::Racing { owner, alternate, .. }) if source != alternate => {
            tally.either("resolve_cold_front_delivery: hedge won by the owner, not by a third", source == owner);
        }
        Some(ColdFront::Racing { owner, alternate, .. }) => {
            tally.either("resolve_cold_front_delivery: alternate won, it is the owner", owner == alternate);
            tally.either("resolve_cold_front_delivery: alternate won over a probe", before.prefix_probe.is_some());
            tally.either(
                "resolve_cold_front_delivery: alternate won, owner loses entries",
                seen.gone.iter().any(|gone| gone.reason == Reason::HedgeLost),
            );
            let observed =
                before.pending_timeout_observation.is_some_and(|observed| observed.owner == owner && observed.hash != hash);
            tally.hit_if("resolve_cold_front_delivery: alternate won, owner's observation goes", observed);
            lost_heights(tally, seen, "resolve_cold_front_delivery: lowest lost against frontier");
            mark_peer_unresponsive(tally, before, owner, clock);
        }
    }
}

fn lost_heights(tally: &mut Tally, seen: &Seen, name: &'static str) {
    let lost = seen.gone.iter().filter(|gone| gone.reason != Reason::Delivered);
    if let Some(lowest) = lost.map(|gone| gone.entry.height).min() {
        tally.compare(name, lowest, seen.before.next_request_height);
    }
}

fn record_prefix_probe_delivery(tally: &mut Tally, seen: &Seen, clock: Clock, hash: Hash, source: Seat) {
    let before = seen.before;
    let Some(probe) = &before.prefix_probe else {
        tally.hit("record_prefix_probe_delivery: no probe");
        return;
    };
    let Some(index) = probe.hashes.iter().position(|planned| *planned == hash) else {
        tally.hit("record_prefix_probe_delivery: hash not planned");
        return;
    };
    tally.either("record_prefix_probe_delivery: among the first four", index < 4);
    let bit = 1_u8 << index;
    tally.either("record_prefix_probe_delivery: accepted before", probe.accepted & bit != 0);
    let racer = probe.racers.iter().find(|(seat, _)| *seat == source);
    tally.either("record_prefix_probe_delivery: from a racer", racer.is_some());
    let progress = racer.map_or(0, |(_, progress)| progress | bit);
    tally.hit_if(
        "record_prefix_probe_delivery: four blocks, not the first four",
        progress.count_ones() >= 4 && progress & WIN_MASK != WIN_MASK,
    );
    let accepted = probe.accepted | bit;
    if progress & WIN_MASK != WIN_MASK {
        tally.either("record_prefix_probe_delivery: nobody won, all four are in", accepted & WIN_MASK == WIN_MASK);
        return;
    }
    won(tally, seen, probe, source);
    if source != probe.owner {
        mark_peer_unresponsive(tally, before, probe.owner, clock);
    }
}

fn won(tally: &mut Tally, seen: &Seen, probe: &PrefixProbe, winner: Seat) {
    let before = seen.before;
    tally.either("record_prefix_probe_delivery: won by the owner, not an alternate", winner == probe.owner);
    let lost: Vec<&Release> = seen.gone.iter().filter(|gone| gone.reason == Reason::PrefixRaceLost).collect();
    tally.either("record_prefix_probe_delivery: win lets entries go", !lost.is_empty());
    tally.hit_if(
        "record_prefix_probe_delivery: win lets an alternate's entries go",
        lost.iter().any(|gone| gone.entry.owner != probe.owner),
    );
    tally.hit_if("record_prefix_probe_delivery: winner's entries stay", seen.after.owns_entries(winner));
    let stranger = |entry: &&Entry| !probe.racers.iter().any(|(seat, _)| *seat == entry.owner);
    tally.hit_if("record_prefix_probe_delivery: strangers' entries stay", seen.after.pending.iter().find(stranger).is_some());
    tally.hit_if("record_prefix_probe_delivery: win clears an observation", before.pending_timeout_observation.is_some());
    tally.hit_if(
        "record_prefix_probe_delivery: win clears a waiting front",
        matches!(before.cold_front, Some(ColdFront::Waiting { .. })),
    );
    tally.hit_if(
        "record_prefix_probe_delivery: win clears a racing front",
        matches!(before.cold_front, Some(ColdFront::Racing { .. })),
    );
    lost_heights(tally, seen, "record_prefix_probe_delivery: lowest lost against frontier");
}

/// `prefix_probe_plan`, asked or looked up by a confirmation.
fn prefix_probe_plan(tally: &mut Tally, state: &State) {
    if state.preferred_peer.is_some() {
        return tally.hit("prefix_probe_plan: preferred peer");
    }
    if state.prefix_probe.is_some() {
        return tally.hit("prefix_probe_plan: probe running");
    }
    if state.fanout_engaged {
        return tally.hit("prefix_probe_plan: fan-out active");
    }
    let Some(lowest) = state.lowest() else {
        return tally.hit("prefix_probe_plan: nothing pending");
    };
    if state.prefix_probe_attempted_owner == Some(lowest.owner) {
        return tally.hit("prefix_probe_plan: owner attempted");
    }
    tally.hit_if("prefix_probe_plan: another owner attempted", state.prefix_probe_attempted_owner.is_some());
    if state.pending.iter().any(|entry| entry.owner != lowest.owner) {
        return tally.hit("prefix_probe_plan: two owners");
    }
    let by_mean = 2_097_152 / state.ewma_block_bytes;
    tally.compare("prefix_probe_plan: limit by mean against 8", by_mean, 8);
    tally.compare("prefix_probe_plan: limit against 4", by_mean.min(8), WIN_BLOCKS);
    if by_mean >= WIN_BLOCKS {
        walk(tally, state, by_mean.min(8));
    }
}

/// The walk up from the lowest entry.
fn walk(tally: &mut Tally, state: &State, limit: u64) {
    let mut ordered: Vec<u32> = state.pending.iter().map(|entry| entry.height).collect();
    ordered.sort_unstable();
    let mut expected = ordered[0];
    let mut taken = 0;
    let mut ended = "prefix_probe_plan: walk to the last entry";
    for (place, height) in ordered.iter().enumerate() {
        if taken >= limit {
            ended = "prefix_probe_plan: walk to the limit";
            break;
        }
        if *height != expected {
            let again = place > 0 && ordered[place - 1] == *height;
            ended =
                if again { "prefix_probe_plan: walk ended by the same height" } else { "prefix_probe_plan: walk ended by a gap" };
            break;
        }
        taken += 1;
        tally.hit_if("prefix_probe_plan: height 4294967295 followed by itself", place > 0 && ordered[place - 1] == u32::MAX);
        expected = expected.saturating_add(1);
    }
    tally.hit(ended);
    tally.compare("prefix_probe_plan: walked against 4", taken, WIN_BLOCKS);
    tally.hit_if(
        "prefix_probe_plan: end height one less than the last",
        taken >= WIN_BLOCKS && ordered[taken as usize - 1] == u32::MAX,
    );
}

fn confirm_prefix_probe(tally: &mut Tally, seen: &Seen) {
    let Call::ConfirmPrefixProbe { owner, hashes, alternates, .. } = seen.call else {
        return;
    };
    tally.either("confirm_prefix_probe: alternates", !alternates.is_empty());
    if alternates.is_empty() {
        return;
    }
    prefix_probe_plan(tally, seen.before);
    let confirmed = seen.before.prefix_probe.is_none() && seen.after.prefix_probe.is_some();
    tally.either("confirm_prefix_probe: confirmed", confirmed);
    tally.hit_if("confirm_prefix_probe: more than eight hashes", hashes.len() > 8);
    if !confirmed {
        let lowest = seen.before.lowest();
        tally.hit_if("confirm_prefix_probe: another owner", lowest.is_some_and(|lowest| lowest.owner != *owner));
        tally.hit_if("confirm_prefix_probe: other hashes of the owner", lowest.is_some_and(|lowest| lowest.owner == *owner));
        return;
    }
    tally.hit_if("confirm_prefix_probe: only the owner as alternate", alternates.iter().all(|seat| seat == owner));
    let mut racers = alternates.clone();
    racers.sort_unstable();
    racers.dedup();
    tally.hit_if("confirm_prefix_probe: an alternate twice", racers.len() < alternates.len());
    tally.hit_if("confirm_prefix_probe: 256 racers", racers.len() == SEATS);
    tally.hit_if("confirm_prefix_probe: four hashes", hashes.len() == 4);
    tally.hit_if("confirm_prefix_probe: eight hashes", hashes.len() == 8);
}

fn confirm_cold_front_hedge(tally: &mut Tally, seen: &Seen) {
    let Call::ConfirmColdFrontHedge { owner, alternate, hash } = seen.call else {
        return;
    };
    let before = seen.before;
    match before.cold_front {
        None => tally.hit("confirm_cold_front_hedge: no cold front"),
        Some(ColdFront::Racing { .. }) => tally.hit("confirm_cold_front_hedge: racing already"),
        Some(ColdFront::Waiting { hash: front, .. }) if front != *hash => tally.hit("confirm_cold_front_hedge: another hash"),
        Some(ColdFront::Waiting { owner: waiting, .. }) if waiting != *owner => {
            tally.hit("confirm_cold_front_hedge: another owner")
        }
        Some(ColdFront::Waiting { .. }) => {
            let known = before.cold_hedged_fronts.contains(hash);
            tally.either("confirm_cold_front_hedge: hedged before", known);
            tally
                .either("confirm_cold_front_hedge: new hash, two hedged already", !known && before.cold_hedged_fronts.len() >= 2);
            tally.hit_if("confirm_cold_front_hedge: second front", !known && before.cold_hedged_fronts.len() == 1);
            tally.either("confirm_cold_front_hedge: alternate is the owner", alternate == owner);
        }
    }
}

fn set_fanout_eligible_peers(tally: &mut Tally, seen: &Seen, clock: Clock, count: u64) {
    let (before, settings) = (seen.before, &seen.before.settings);
    let least = settings.min_peers_for_fanout;
    tally.compare("set_fanout_eligible_peers: count against least", count, least);
    let young = match &before.prefix_probe {
        None => {
            tally.hit("set_fanout_eligible_peers: no probe");
            false
        }
        Some(probe) => {
            tally.compare(
                "set_fanout_eligible_peers: probe's age against stall initial",
                clock - probe.started_at,
                settings.stall_timeout_initial,
            );
            clock - probe.started_at < settings.stall_timeout_initial
        }
    };
    let engaging = count >= least && !young;
    tally.hit_if("set_fanout_eligible_peers: put off by a young probe", count >= least && young);
    tally.either("set_fanout_eligible_peers: engaged before", before.fanout_engaged);
    if engaging {
        tally.hit("set_fanout_eligible_peers: engages");
        tally.hit_if("set_fanout_eligible_peers: engaging ends a probe", before.prefix_probe.is_some());
        return;
    }
    tally.compare("set_fanout_eligible_peers: count and one against least", count.saturating_add(1), least);
    tally.hit_if("set_fanout_eligible_peers: disengages", before.fanout_engaged && !seen.after.fanout_engaged);
    tally.hit_if("set_fanout_eligible_peers: stays engaged one below", before.fanout_engaged && seen.after.fanout_engaged);
    tally.hit_if("set_fanout_eligible_peers: greatest count put off", count == u64::MAX);
}
