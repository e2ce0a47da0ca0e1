//! Stand-in for the original's hashes.
use super::Children;
use crate::{BlockId, VoxelTrait};
use std::collections::HashMap;
use std::hash::{BuildHasher, Hasher};
use std::sync::atomic::{AtomicU64, Ordering::Relaxed};

/// The bits of a hash that count. A test clears some, so that two contents get one hash.
pub static HASH_MASK: AtomicU64 = AtomicU64::new(u64::MAX);

pub type PatternsHashmap = HashMap<u64, BlockId, IdentityHasherBuilder>;

/// The key is its own hash.
#[derive(Default)]
pub struct IdentityHasher(u64);

impl Hasher for IdentityHasher {
    #[inline(always)]
    fn finish(&self) -> u64 {
        self.0
    }

    fn write(&mut self, _: &[u8]) {
        unreachable!("the keys are u64")
    }

    #[inline(always)]
    fn write_u64(&mut self, key: u64) {
        self.0 = key
    }
}

#[derive(Clone, Copy, Default)]
pub struct IdentityHasherBuilder;

impl BuildHasher for IdentityHasherBuilder {
    type Hasher = IdentityHasher;

    #[inline(always)]
    fn build_hasher(&self) -> IdentityHasher {
        IdentityHasher(0)
    }
}

#[inline(always)]
fn mix(hash: u64, word: u64) -> u64 {
    (hash.rotate_left(5) ^ word).wrapping_mul(0x517c_c1b7_2722_0a95)
}

#[inline(always)]
fn finish(hash: u64) -> u64 {
    let hash = (hash ^ (hash >> 32)).wrapping_mul(0x9E37_79B9_7F4A_7C15);
    (hash ^ (hash >> 29)) & HASH_MASK.load(Relaxed)
}

#[inline(always)]
pub fn compute_leaf_hash_for_value<T: VoxelTrait>(value: &T) -> u64 {
    finish(mix(1, (*value).into()))
}

#[inline(always)]
pub fn compute_branch_hash_for_children(children: &Children, types: u8, mask: u8) -> u64 {
    let start = mix(2, (u64::from(types) << 8) | u64::from(mask));
    finish(
        children
            .iter()
            .fold(start, |hash, child| mix(hash, child.raw())),
    )
}

pub fn compute_empty_branch_hash() -> u64 {
    compute_branch_hash_for_children(&super::EMPTY_CHILD, 0, 0)
}
