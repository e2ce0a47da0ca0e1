//! Stand-in for the crate voxelis_memory: a pool of values addressed by a number, each access checked.

/// A block of values of one type, all of whose bits are 0 at first.
pub struct PoolAllocatorLite<T> {
    data: Box<[T]>,
}

impl<T: Copy> PoolAllocatorLite<T> {
    /// The original's pool hands out cleared memory, and writes every value before it reads it.
    pub fn new(capacity: usize) -> Self {
        // SAFETY: every type that the original keeps in a pool is made of integers, for which all bits 0 is a value.
        let data = unsafe { Box::<[T]>::new_zeroed_slice(capacity).assume_init() };
        Self { data }
    }

    #[inline(always)]
    pub fn get(&self, index: u32) -> &T {
        &self.data[index as usize]
    }

    #[inline(always)]
    pub fn get_mut(&mut self, index: u32) -> &mut T {
        &mut self.data[index as usize]
    }
}

impl<T> PoolAllocatorLite<T> {
    pub const fn block_size() -> usize {
        std::mem::size_of::<T>()
    }
}
