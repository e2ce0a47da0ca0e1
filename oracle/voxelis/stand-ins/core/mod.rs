//! Stand-in: declares the original's `block_id`, and has the small types that the original's files name.
pub mod block_id;

pub use block_id::BlockId;

/// Named by the original's lib.rs; nothing here uses it.
pub struct Batch;

/// Named by the original's lib.rs; nothing here uses it.
pub struct Lod;

#[derive(Clone, Copy, Debug, PartialEq, Eq)]
pub struct MaxDepth(u8);

impl MaxDepth {
    pub const fn new(max: u8) -> Self {
        Self(max)
    }

    #[inline(always)]
    pub const fn max(&self) -> u8 {
        self.0
    }
}

#[derive(Clone, Copy, Debug, PartialEq, Eq)]
pub struct TraversalDepth {
    current: u8,
    max: u8,
}

impl TraversalDepth {
    pub const fn new(current: u8, max: u8) -> Self {
        Self { current, max }
    }

    #[inline(always)]
    pub const fn current(&self) -> u8 {
        self.current
    }

    #[inline(always)]
    pub const fn max(&self) -> u8 {
        self.max
    }
}

pub trait VoxelTrait:
    Copy + Default + PartialEq + std::fmt::Debug + std::fmt::Display + std::hash::Hash + Into<u64>
{
    fn average(values: &[Self; 8]) -> Self;
}

/// Document 01: the sum of the eight stored values divided by 8, rounded down.
impl VoxelTrait for u16 {
    #[inline(always)]
    fn average(values: &[u16; 8]) -> u16 {
        (values.iter().map(|value| u32::from(*value)).sum::<u32>() / 8) as u16
    }
}
