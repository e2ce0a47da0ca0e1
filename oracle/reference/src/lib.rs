//! What the programs of this workspace share: documents 01 and 02 as plain Rust, numbers at random, and the original's answer or panic.
pub mod arena;
pub mod document01;
mod edit;
pub mod finding;
pub mod months;
mod panics;
mod random;
pub mod reading;
pub mod survey;
pub mod tables;
mod volume;

pub use panics::{answer_or_panic, quiet};
pub use random::{Random, Seeds};
pub use volume::Volume;
