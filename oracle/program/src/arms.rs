//! A counter in every block of the ported functions: which arms of the Rust do seeded calls reach?
//!
//! This looks at the text itself, so it shows what the tally's list of events could have forgotten.

use crate::places::Places;
use crate::substitutions::{POLICY, WINDOW, body_of, substituted};
use std::fs;
use std::process::Command;

/// The functions that are ported and that have a block of their own.
const PORTED: &[&str] = &[
    "set_fanout_eligible_peers",
    "effective_peer_inflight",
    "has_request_capacity",
    "expired_pending_capacity",
    "peer_has_expired_pending",
    "observe_blocked",
    "advance_pending_timeout",
    "advance_apply_side_stuck",
    "advance_stall",
    "stall_decay_floor",
    "window_blocked_on",
    "stalling_peer",
    "advance_cold_front",
    "confirm_cold_front_hedge",
    "clear_preferred_peer",
    "probe_offered",
    "hedge_offered",
    "prefix_probe_plan",
    "confirm_prefix_probe",
    "mark_peer_unresponsive",
    "peer_in_staller_cooldown",
    "contains_pending",
    "pending_owner",
    "active_downloading_peers",
    "is_downloading",
    "effective_owner_timeout",
    "owner_download_expired",
    "reset_owner_queue_start",
    "retain_owned_by",
    "retire_before",
    "retain_peer_assignments",
    "compute_request_capacity",
    "record_prefix_probe_delivery",
    "resolve_cold_front_delivery",
    "mark_requested",
    "mark_received_from",
    "requeue_for_retry",
    "credit_delivery_from",
    "credit_duplicate_delivery",
    "record_delivery_progress",
    "reject_delivery",
    "expire_pending",
    "mark_owned_fetch",
    "release_pending",
    "remove_pending",
    "pending_count_for",
    "keep",
    "from_entries",
    "staged_bytes_exhausted",
    "staged_byte_headroom",
    "staged_count_headroom",
    "next_peer_request",
    "next_peer_request_allowing_retry",
    "maybe_rewind_request_frontier",
    "extend_request_by_reverse_scan",
    "expired_request_entries",
    "clean_contiguous_peer_request",
    "non_empty_request",
    "contiguous_request_entries",
];

/// Function and block in it, from 1: those that no calls reach, and why.
const UNREACHED: &[(&str, usize, &str)] = &[
    ("confirm_cold_front_hedge", 4, "a new front is never confirmed once two are hedged (EVENTS.md)"),
    ("effective_owner_timeout", 2, "the test override, left out (SPECIFICATION 1.7)"),
    ("retire_before", 3, "the stager's part, left out (SPECIFICATION 1.7)"),
    ("retire_before", 4, "the stager's part, left out (SPECIFICATION 1.7)"),
    ("record_prefix_probe_delivery", 4, "the index of one of eight hashes fits 32 bits"),
    ("extend_request_by_reverse_scan", 2, "it is called with something wanted only"),
    ("extend_request_by_reverse_scan", 3, "the chain has every height up to its tip"),
    ("contiguous_request_entries", 3, "the walk ends at the start height, which the chain has"),
];

struct Block {
    function: &'static str,
    /// From 1, in its function.
    place: usize,
    line: String,
}

/// Counts all blocks; returns how many were as listed and how many were not.
pub fn run(places: &Places, calls: u64, seed: u64) -> Result<(usize, usize), String> {
    let folder = places.target.join("arms");
    fs::create_dir_all(&folder).map_err(|error| error.to_string())?;
    let (text, blocks) = counted(&substituted(WINDOW)?)?;
    fs::write(folder.join("download_window.rs"), text).map_err(|error| error.to_string())?;
    fs::write(folder.join("policy.rs"), substituted(POLICY)?).map_err(|error| error.to_string())?;
    let program = places.compile(&folder, "runners/arms.rs")?;
    let numbers = [calls, seed, blocks.len() as u64].map(|number| number.to_string());
    let output = Command::new(program).args(numbers).output().map_err(|error| error.to_string())?;
    let counts = String::from_utf8_lossy(&output.stdout);
    let counts: Vec<u64> = counts.lines().filter_map(|line| line.parse().ok()).collect();
    if counts.len() != blocks.len() {
        return Err("the run with counters failed".to_string());
    }
    let failed = blocks.iter().zip(counts).filter(|(block, count)| !as_listed(block, *count)).count();
    Ok((blocks.len() - failed, failed))
}

fn as_listed(block: &Block, count: u64) -> bool {
    let listed = UNREACHED.iter().find(|(function, place, _)| *function == block.function && *place == block.place);
    let reason = listed.map_or("", |(_, _, reason)| *reason);
    println!("{count:>10}  {} #{}  {}  {reason}", block.function, block.place, block.line);
    (count == 0) == listed.is_some()
}

/// The text with a counter at the start of every block of the ported functions.
fn counted(text: &str) -> Result<(String, Vec<Block>), String> {
    let mut text = text.to_string();
    let mut blocks: Vec<Block> = Vec::new();
    for function in PORTED {
        let body = body_of(&text, function)?;
        let mut counted: Vec<String> = Vec::new();
        let mut place = 0;
        for (number, line) in text[body.clone()].lines().enumerate() {
            let opens = number == 0 || opens_block(line);
            if !opens {
                counted.push(line.to_string());
                continue;
            }
            place += 1;
            let counter = format!("{{ crate::reached({});", blocks.len());
            let at = line.rfind('{').expect("a block opens");
            counted.push(format!("{}{counter}{}", &line[..at], &line[at + 1..]));
            blocks.push(Block { function, place, line: line.trim().to_string() });
        }
        text.replace_range(body, &counted.join("\n"));
    }
    Ok((text, blocks))
}

/// A line that ends by opening a block of statements, and not a struct's fields or a match's arms.
fn opens_block(line: &str) -> bool {
    let line = line.trim();
    let Some(before) = line.strip_suffix('{').or_else(|| line.strip_suffix("=> {}").map(|_| "=>")) else {
        return false;
    };
    let last = before.trim().rsplit([' ', '(']).next().unwrap_or("");
    let name = last.rsplit("::").next().unwrap_or("");
    let is_type = name.starts_with(char::is_uppercase) && name.chars().all(char::is_alphanumeric);
    let is_match = line.starts_with("match ") || line.contains(" match ") || line.contains("(match ");
    !is_type && !is_match
}
