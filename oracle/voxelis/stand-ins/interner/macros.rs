//! Stand-in for the original's macro, and a look at the arena's private fields, which a child module may read.
use super::{Children, VoxInterner};
use crate::VoxelTrait;

/// Document 01: "Fresh slot: the last one freed, else the lowest never used."
#[macro_export]
macro_rules! get_next_index_macro {
    ($self:expr) => {{
        if let Some(index) = $self.free_indices.pop() {
            index
        } else {
            let index = $self.next_index;
            assert!((index as usize) < $self.capacity, "Arena is full");
            $self.next_index += 1;
            index
        }
    }};
}

/// What the original keeps of one slot, as far as document 01 speaks of it.
#[derive(Clone, Copy, Debug, PartialEq, Eq)]
pub struct SlotView<T> {
    pub ref_count: u32,
    pub generation: u16,
    pub children: Children,
    pub value: T,
}

impl<T: VoxelTrait> VoxInterner<T> {
    pub fn slot_view(&self, slot: u32) -> SlotView<T> {
        SlotView {
            ref_count: *self.ref_counts.get(slot),
            generation: *self.generations.get(slot),
            children: *self.children.get(slot),
            value: *self.values.get(slot),
        }
    }

    /// The freed slots, the last one freed at the end.
    pub fn freed(&self) -> &[u32] {
        &self.free_indices
    }

    /// The lowest slot never given out.
    pub fn next_slot(&self) -> u32 {
        self.next_index
    }
}
