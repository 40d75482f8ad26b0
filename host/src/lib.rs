//! The blocks that a node has asked for and not yet received: which, of whom, since when, and how many bytes are still to come.
//!
//! [`DownloadWindow`] has the methods of the pending side of `DownloadWindow` of gosuda/bitcoin-rs, by the same names, over a library whose
//! every function is proved to do what its definition says. README.md in this folder says, method by method, how a host of the original changes over.
//! [`DownloadWindow::next_peer_request`] plans what to ask of a peer next; [`write_request`] and [`read_getdata`] are the message that a request is
//! sent by.
//!
//! ```
//! use kofudile::{DownloadWindow, Hash256, Headroom, default_sync_budget};
//! use std::time::{Duration, Instant};
//!
//! # fn main() -> kofudile::Result<()> {
//! let budget = default_sync_budget(Duration::from_secs(600));
//! let keys: [u8; 256] = std::array::from_fn(|seat| seat as u8);
//! let now = Instant::now();
//! let mut window = DownloadWindow::new(budget, &keys, now)?;
//! let block = Hash256([7; 32]);
//! window.mark_requested(Headroom::UNLIMITED, 3, &[(block, 1)], 2, now)?;
//! assert_eq!(window.pending_owner(&block), Some(3));
//! assert_eq!(window.mark_received_from(block, 1_000_000, Some(3), now)?, Some(1));
//! assert_eq!(window.released().count(), 1);
//! # Ok(())
//! # }
//! ```
#![warn(missing_docs, unsafe_op_in_unsafe_fn)]

#[cfg(not(all(target_arch = "x86_64", target_pointer_width = "64")))]
compile_error!("libkofudile.a is for x86-64");

mod calls;
pub mod ffi;
mod getdata;
mod planning;
mod queries;
mod types;

pub use calls::DownloadWindow;
pub use getdata::{GETDATA_HASHES, read_getdata, write_getdata, write_request};
pub use planning::{Chain, PeerRequest, Stager};
pub use types::{
    BlameReason, BlockedContext, BlockedDecision, Entry, Hash256, Headroom, OwnedFetch, PrefixProbePlan, Reason, Refusal,
    RejectDelivery, Release, Result, Seat, Staged, SyncBudget, default_sync_budget, fast_sync_budget,
};
