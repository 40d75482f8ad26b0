//! Closed antt checks of the definitions: calls as antt spells them, what they must give, and the crate folder that holds them.

pub mod checks;
pub mod closed;
pub mod directed;
pub mod getdata;
pub mod spell;
mod template;
