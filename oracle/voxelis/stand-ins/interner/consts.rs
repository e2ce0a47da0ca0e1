//! Stand-in for the original's constants.
use crate::BlockId;

pub const MAX_CHILDREN: usize = 8;
pub const EMPTY_CHILD: [BlockId; MAX_CHILDREN] = [BlockId::EMPTY; MAX_CHILDREN];

// The original indexes its two maps by `is_leaf() as usize`.
pub const PATTERNS_TYPE_BRANCH: usize = 0;
pub const PATTERNS_TYPE_LEAF: usize = 1;

/// More nodes than one release can free in an arena of 65,536 slots.
pub const PREALLOCATED_STACK_SIZE: usize = 1 << 17;
pub const MAX_ALLOWED_DEPTH: usize = 7;

// The oracle's own names, reachable through the original's `pub use consts::*`.
pub use super::hash::HASH_MASK;
pub use super::macros::SlotView;
