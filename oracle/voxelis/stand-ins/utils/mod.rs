//! Stand-in: declares the original's file.
pub mod common;
