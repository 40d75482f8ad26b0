//! Calls to try the refusals by, the windows to try them on, and windows with changed words.

pub mod samples;
pub mod tables;
pub mod windows;
