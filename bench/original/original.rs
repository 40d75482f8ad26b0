//! The original window, built from its text with the oracle's substitutions, with a driver that adds nothing to a call. Two packages build this
//! file: std's hash maps, and the same maps with a cheap hasher.

#[path = "../../oracle/original/shims.rs"]
#[cfg_attr(feature = "cheap-hasher", allow(unused_imports))]
mod shims;

#[cfg(feature = "cheap-hasher")]
mod cheap;

#[cfg(feature = "cheap-hasher")]
use cheap::hashbrown as maps;
#[cfg(not(feature = "cheap-hasher"))]
use shims::hashbrown as maps;

mod stager;

#[allow(warnings)]
mod download_window {
    include!(concat!(env!("OUT_DIR"), "/download_window.rs"));
}

pub use download_window::driver::{Kept, Lists, Original, Prepared};
pub use shims::bitcoin_rs_consensus::primitives::Hash256;
pub use shims::bitcoin_rs_wire::connection::PeerSource;
