//! The arena's calls, as crates/fenpiling exports them, on tables that the caller lends.

/// An arena's state, which goes by value beside its tables: its capacity, and the lowest slot never given out with 2^32 times how many are freed.
#[repr(C)]
#[derive(Clone, Copy, Debug, PartialEq, Eq)]
pub struct Arena {
    pub capacity: usize,
    pub slots: u64,
}

impl Arena {
    /// The lowest slot never given out.
    #[inline]
    pub fn next(self) -> usize {
        self.slots as u32 as usize
    }

    /// How many slots are freed.
    #[inline]
    pub fn freed(self) -> usize {
        (self.slots >> 32) as usize
    }

    /// How many slots of a well-formed arena are live.
    #[inline]
    pub fn live(self) -> usize {
        self.next() - 1 - self.freed()
    }
}

/// The answer of a call that makes a node, with the state's slots afterwards.
#[repr(C)]
#[derive(Clone, Copy, Debug, PartialEq, Eq)]
pub struct Made {
    pub no: u32,
    pub id: u64,
    pub slots: u64,
}

/// The answer of a call that answers no id, with the state's slots afterwards.
#[repr(C)]
#[derive(Clone, Copy, Debug, PartialEq, Eq)]
pub struct Answer {
    pub no: u32,
    pub slots: u64,
}

#[repr(C)]
#[derive(Clone, Copy, Debug, PartialEq, Eq)]
pub struct Counted {
    pub no: u32,
    pub holds: u64,
    pub places: u64,
}

#[repr(C)]
struct Children {
    ids: [u64; 8],
}

/// The three lent tables.
pub struct Tables<'a> {
    pub kids: &'a mut [u64],
    pub facts: &'a mut [u32],
    pub find: &'a mut [u16],
}

// A slice goes as its address and its length.
unsafe extern "C" {
    fn fenpiling_fresh(
        capacity: usize,
        kids: *mut u64,
        kids_len: usize,
        facts: *mut u32,
        facts_len: usize,
        find: *mut u16,
        find_len: usize,
    ) -> Answer;
    fn fenpiling_intern_leaf(
        arena: Arena,
        kids: *mut u64,
        kids_len: usize,
        facts: *mut u32,
        facts_len: usize,
        find: *mut u16,
        find_len: usize,
        value: u16,
    ) -> Made;
    fn fenpiling_intern_branch(
        arena: Arena,
        kids: *mut u64,
        kids_len: usize,
        facts: *mut u32,
        facts_len: usize,
        find: *mut u16,
        find_len: usize,
        children: Children,
    ) -> Made;
    fn fenpiling_hold(
        arena: Arena,
        kids: *mut u64,
        kids_len: usize,
        facts: *mut u32,
        facts_len: usize,
        find: *mut u16,
        find_len: usize,
        id: u64,
    ) -> Answer;
    fn fenpiling_release(
        arena: Arena,
        kids: *mut u64,
        kids_len: usize,
        facts: *mut u32,
        facts_len: usize,
        find: *mut u16,
        find_len: usize,
        id: u64,
    ) -> Answer;
    fn fenpiling_counts(
        arena: Arena,
        kids: *const u64,
        kids_len: usize,
        facts: *const u32,
        facts_len: usize,
        find: *const u16,
        find_len: usize,
        id: u64,
    ) -> Counted;
}

#[inline]
pub fn fresh(capacity: usize, tables: &mut Tables) -> Answer {
    call!(fenpiling_fresh(capacity, tables))
}

#[inline]
pub fn intern_leaf(arena: Arena, tables: &mut Tables, value: u16) -> Made {
    call!(fenpiling_intern_leaf(arena, tables, value))
}

#[inline]
pub fn intern_branch(arena: Arena, tables: &mut Tables, children: [u64; 8]) -> Made {
    call!(fenpiling_intern_branch(
        arena,
        tables,
        Children { ids: children }
    ))
}

#[inline]
pub fn hold(arena: Arena, tables: &mut Tables, id: u64) -> Answer {
    call!(fenpiling_hold(arena, tables, id))
}

#[inline]
pub fn release(arena: Arena, tables: &mut Tables, id: u64) -> Answer {
    call!(fenpiling_release(arena, tables, id))
}

#[inline]
pub fn counts(arena: Arena, tables: &mut Tables, id: u64) -> Counted {
    call!(fenpiling_counts(arena, tables, id))
}
