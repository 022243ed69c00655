//! An independent reading of docs/RULES.md in ordinary Rust, to compare the codec with.
//! It shares no text with the proved crates. All but `fast` goes by the definitions, not for speed.

pub mod block;
pub mod check;
pub mod cost;
pub mod decoder;
pub mod encode;
pub mod fast;
#[cfg(test)]
mod fixed_points;
pub mod material;
pub mod plan;
#[cfg(test)]
mod promises;
#[cfg(test)]
mod published;
pub mod recover;
pub mod refusal;
pub mod script;
pub mod store;
pub mod stored_scripts;
pub mod stored_walks;
pub mod walk;
