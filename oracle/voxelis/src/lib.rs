//! The original crate, which build.rs puts together in ../target/original. Its lib.rs is a module here, whose names stand at this crate's root, as
//! the original's files expect.
#[cfg_attr(any(), rustfmt::skip)]
#[path = "../../target/original/lib.rs"]
mod original;

pub use original::*;
