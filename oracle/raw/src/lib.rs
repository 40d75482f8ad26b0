//! Calls as a host can make them, with arguments that are refused too, and the list of refusals of SPECIFICATION 4 and of request 02 written down once more.

mod data;
mod refusal;

pub use data::{Call, ENOUGH, Lent, Room, kind};
pub use refusal::{causes, refusal};
