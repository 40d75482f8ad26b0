//! The original window, built from its text with the listed substitutions, behind `calls::Window`.
//!
//! Two packages build this file: `ordered` (ordered maps, for runs that can be repeated) and `own-maps` (hash maps).

#[path = "shims.rs"]
mod shims;

#[allow(warnings)]
mod download_window {
    include!(concat!(env!("OUT_DIR"), "/download_window.rs"));
}

pub use download_window::driver::Original;
