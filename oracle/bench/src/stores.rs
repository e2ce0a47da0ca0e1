//! The port's arena and the original's behind one set of calls, so that one driver times both.
use port::arena::{self, Arena, Tables};
use reference::tables::lengths;
use voxelis::{BlockId, VoxInterner};

/// A branch to be interned. The original wants the two bytes from its caller; the port works them out.
#[derive(Clone, Copy)]
pub struct Branch {
    pub children: [u64; 8],
    types: u8,
    mask: u8,
}

impl Branch {
    pub fn new(children: [u64; 8]) -> Self {
        let bits =
            |is: fn(u64) -> bool| (0..8).fold(0, |byte, i| byte | u8::from(is(children[i])) << i);
        Self {
            children,
            types: bits(|id| id >> 63 == 1),
            mask: bits(|id| id != 0),
        }
    }
}

pub trait Store {
    fn fresh(capacity: usize) -> Self;
    fn leaf(&mut self, value: u16) -> u64;
    fn branch(&mut self, branch: &Branch) -> u64;
    fn hold(&mut self, id: u64);
    fn release(&mut self, id: u64);
}

/// The port's tables and state.
pub struct Port {
    pub arena: Arena,
    kids: Vec<u64>,
    facts: Vec<u32>,
    find: Vec<u16>,
}

impl Port {
    #[inline(always)]
    pub fn parts(&mut self) -> (Arena, Tables<'_>) {
        let tables = Tables {
            kids: &mut self.kids,
            facts: &mut self.facts,
            find: &mut self.find,
        };
        (self.arena, tables)
    }
}

impl Store for Port {
    fn fresh(capacity: usize) -> Self {
        let [kids, facts, find] = lengths(capacity);
        let mut port = Self {
            arena: Arena { capacity, slots: 0 },
            kids: vec![0; kids],
            facts: vec![0; facts],
            find: vec![0; find],
        };
        let (_, mut tables) = port.parts();
        port.arena.slots = arena::fresh(capacity, &mut tables).slots;
        port
    }

    #[inline(always)]
    fn leaf(&mut self, value: u16) -> u64 {
        let (state, mut tables) = self.parts();
        let made = arena::intern_leaf(state, &mut tables, value);
        assert_eq!(made.no, 0);
        self.arena.slots = made.slots;
        made.id
    }

    #[inline(always)]
    fn branch(&mut self, branch: &Branch) -> u64 {
        let (state, mut tables) = self.parts();
        let made = arena::intern_branch(state, &mut tables, branch.children);
        assert_eq!(made.no, 0);
        self.arena.slots = made.slots;
        made.id
    }

    #[inline(always)]
    fn hold(&mut self, id: u64) {
        let (state, mut tables) = self.parts();
        // A hold leaves the state as it is.
        let answer = arena::hold(state, &mut tables, id);
        assert_eq!(answer.no, 0);
    }

    #[inline(always)]
    fn release(&mut self, id: u64) {
        let (state, mut tables) = self.parts();
        let answer = arena::release(state, &mut tables, id);
        assert_eq!(answer.no, 0);
        self.arena.slots = answer.slots;
    }
}

impl Store for VoxInterner<u16> {
    fn fresh(capacity: usize) -> Self {
        VoxInterner::with_memory_budget(capacity * VoxInterner::<u16>::node_size())
    }

    #[inline(always)]
    fn leaf(&mut self, value: u16) -> u64 {
        self.get_or_create_leaf(value).raw()
    }

    #[inline(always)]
    fn branch(&mut self, branch: &Branch) -> u64 {
        let children = branch.children.map(BlockId::from_raw);
        self.get_or_create_branch(children, branch.types, branch.mask)
            .raw()
    }

    #[inline(always)]
    fn hold(&mut self, id: u64) {
        self.inc_ref(&BlockId::from_raw(id));
    }

    #[inline(always)]
    fn release(&mut self, id: u64) {
        self.dec_ref_recursive(&BlockId::from_raw(id));
    }
}
