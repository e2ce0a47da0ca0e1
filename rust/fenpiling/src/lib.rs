//! Voxel ground models as shared, interned octree nodes.
//!
//! A model is a [`Root`] in an [`Arena`]: a cube of 2^depth cells along each axis, each with a value from 0, nothing there, to 65,535. A root keeps its
//! model for as long as it lives. [`Root::edit`] answers a new root and leaves the old one as it is, and what two models have in common is stored once,
//! so that keeping last month's model costs what has changed since.
//!
//! ```
//! use fenpiling::{Arena, Cell};
//!
//! # fn main() -> Result<(), fenpiling::Refusal> {
//! let arena = Arena::new(512)?;
//! let october = arena.empty().edit(6, Cell::new(1, 2, 3), 9)?;
//! let november = october.edit(6, Cell::new(1, 2, 3), 0)?;
//! assert_eq!(october.lookup(6, Cell::new(1, 2, 3))?, 9);
//! assert_eq!(november.lookup(6, Cell::new(1, 2, 3))?, 0);
//! # Ok(())
//! # }
//! ```
//!
//! [`Root::changes`] lists the cells in which two models differ, and passes over what they share. [`Root::enter_all`] enters a list of changes. The lists of
//! two crews, for different cells, make the same root whichever comes first, on the terms that its page has.
//!
//! A surveyor's instrument writes metres: [`Root::enter`] enters a [`Reading`], and [`Root::enter_record`] a record as it stands in the instrument's file.
//!
//! The calls are those of libfenpiling.a, which are proved to meet the contracts that their comments here put into words. This crate owns the memory that
//! they work in, and counts the callers' holds: a [`Root`] is one hold, `clone` is one more, and dropping it gives it back. So a node is never released
//! twice, nor used after it has gone, and a root of one arena is refused by another.
//!
//! An arena and its roots stay in one thread:
//!
//! ```compile_fail,E0277
//! let arena = fenpiling::Arena::new(512).unwrap();
//! std::thread::spawn(move || arena.live());
//! ```
#![deny(missing_docs, unsafe_code, unsafe_op_in_unsafe_fn)]

mod arena;
mod cell;
mod changes;
#[allow(unsafe_code)]
mod ffi;
mod id;
mod list;
mod reading;
mod refusal;

pub use arena::{Arena, BranchRefused, Counts, Root};
pub use cell::Cell;
pub use changes::{Change, Changes};
pub use id::Id;
pub use list::ListRefused;
pub use reading::{Metres, Reading};
pub use refusal::Refusal;

/// The greatest depth of a model: 64 cells along each axis.
pub const MAX_DEPTH: u32 = 6;

/// The greatest edge of a reading: cells of 2^-6 metres.
pub const MAX_EDGE: u32 = 6;

#[cfg(doctest)]
#[doc = include_str!("../../../docs/USING.md")]
struct Using;
