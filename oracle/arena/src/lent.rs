//! The port's arena on tables that stand between guard words.
use crate::call::{Answered, Call, Entry};
use port::arena::{self, Arena, Tables};
use port::compare::{self, Compared, List};
use port::model::{self, Cell, Looked};
use port::readings;
use reference::document01::EMPTY;
use reference::tables::{Tables as View, WORDS, lengths, words_of};

/// How many guard words stand on each side of a table.
const GUARD: usize = 16;

/// Words between guard words.
#[derive(Clone)]
pub struct Guarded<T> {
    words: Vec<T>,
    guard: T,
}

impl<T: Copy + PartialEq> Guarded<T> {
    pub fn new(inside: &[T], guard: T) -> Self {
        let side = [guard; GUARD];
        Self {
            words: [&side[..], inside, &side[..]].concat(),
            guard,
        }
    }

    pub fn inside(&self) -> &[T] {
        &self.words[GUARD..self.words.len() - GUARD]
    }

    pub fn inside_mut(&mut self) -> &mut [T] {
        let end = self.words.len() - GUARD;
        &mut self.words[GUARD..end]
    }

    pub fn is_intact(&self) -> bool {
        let side = [self.guard; GUARD];
        self.words[..GUARD] == side && self.words[self.words.len() - GUARD..] == side
    }
}

/// The state and the three tables of an arena of the port.
#[derive(Clone)]
pub struct Lent {
    pub arena: Arena,
    kids: Guarded<u64>,
    facts: Guarded<u32>,
    find: Guarded<u16>,
}

impl Lent {
    /// Tables of these contents.
    pub fn new(arena: Arena, kids: &[u64], facts: &[u32], find: &[u16]) -> Self {
        Self {
            arena,
            kids: Guarded::new(kids, 0xA5A5_5A5A_C3C3_3C3C),
            facts: Guarded::new(facts, 0x5A5A_C3C3),
            find: Guarded::new(find, 0xA5C3),
        }
    }

    /// Tables of these lengths, each element the low bits of one number.
    pub fn full_of(arena: Arena, [kids, facts, find]: [usize; 3], number: u64) -> Self {
        Self::new(
            arena,
            &vec![number; kids],
            &vec![number as u32; facts],
            &vec![number as u16; find],
        )
    }

    /// A fresh arena, made by the port on tables full of ones.
    pub fn fresh(capacity: usize) -> Self {
        let arena = Arena { capacity, slots: 0 };
        let mut lent = Self::full_of(arena, lengths(capacity), u64::MAX);
        assert_eq!(lent.make_fresh(capacity), 0);
        lent
    }

    /// The same with `kids` (0), `facts` (1) or `find` (2) cut, or longer by elements with the low bits of a number.
    pub fn with_length(&self, table: usize, length: usize, number: u64) -> Self {
        let mut kids = self.kids().to_vec();
        let mut facts = self.facts().to_vec();
        let mut find = self.find().to_vec();
        match table {
            0 => kids.resize(length, number),
            1 => facts.resize(length, number as u32),
            _ => find.resize(length, number as u16),
        }
        Self::new(self.arena, &kids, &facts, &find)
    }

    pub fn kids(&self) -> &[u64] {
        self.kids.inside()
    }

    pub fn facts(&self) -> &[u32] {
        self.facts.inside()
    }

    /// The words of a slot in `facts`, by their numbers.
    pub fn words(&self, slot: usize) -> [u32; WORDS] {
        words_of(self.facts(), slot)
    }

    pub fn find(&self) -> &[u16] {
        self.find.inside()
    }

    pub fn tables(&mut self) -> Tables<'_> {
        Tables {
            kids: self.kids.inside_mut(),
            facts: self.facts.inside_mut(),
            find: self.find.inside_mut(),
        }
    }

    /// State and tables as document 01's reading takes them.
    pub fn view(&self) -> View<'_> {
        View {
            capacity: self.arena.capacity,
            slots: self.arena.slots,
            kids: self.kids(),
            facts: self.facts(),
            find: self.find(),
        }
    }

    /// Is every guard word as it was?
    pub fn is_intact(&self) -> bool {
        self.kids.is_intact() && self.facts.is_intact() && self.find.is_intact()
    }

    /// Have the two the same state and tables?
    pub fn is_same(&self, other: &Self) -> bool {
        self.arena == other.arena
            && self.kids.words == other.kids.words
            && self.facts.words == other.facts.words
            && self.find.words == other.find.words
    }

    /// A fresh arena over these tables: the number of the refusal, or 0.
    pub fn make_fresh(&mut self, capacity: usize) -> u32 {
        let answer = arena::fresh(capacity, &mut self.tables());
        self.arena = Arena {
            capacity,
            slots: answer.slots,
        };
        answer.no
    }

    /// What the arena check says.
    pub fn check(&mut self) -> bool {
        let state = self.arena;
        model::check(state, &mut self.tables())
    }

    pub fn call(&mut self, call: &Call<u64>) -> Answered {
        let state = self.arena;
        let mut tables = self.tables();
        let (answered, slots) = match *call {
            Call::Leaf(value) => {
                let made = arena::intern_leaf(state, &mut tables, value);
                (Answered::made(made.no, made.id), made.slots)
            }
            Call::Branch(children) => {
                let made = arena::intern_branch(state, &mut tables, children);
                (Answered::made(made.no, made.id), made.slots)
            }
            Call::Hold(id) => {
                let answer = arena::hold(state, &mut tables, id);
                (Answered::made(answer.no, EMPTY), answer.slots)
            }
            Call::Release(id) => {
                let answer = arena::release(state, &mut tables, id);
                (Answered::made(answer.no, EMPTY), answer.slots)
            }
            Call::Counts(id) => {
                let counted = arena::counts(state, &mut tables, id);
                (
                    Answered {
                        no: counted.no,
                        id: EMPTY,
                        holds: counted.holds,
                        places: counted.places,
                    },
                    state.slots,
                )
            }
            Call::Edit(root, voxel) => {
                let cell = cell_of(voxel.cell);
                let made =
                    model::set_voxel(state, &mut tables, root, voxel.depth, cell, voxel.value);
                (Answered::made(made.no, made.id), made.slots)
            }
        };
        self.arena.slots = slots;
        answered
    }

    pub fn enter(&mut self, entry: &Entry) -> Answered {
        let state = self.arena;
        let made = readings::enter(
            state,
            &mut self.tables(),
            entry.root,
            entry.depth,
            entry.edge,
            entry.record,
        );
        self.arena.slots = made.slots;
        Answered::made(made.no, made.id)
    }

    pub fn look(&mut self, id: u64, depth: u32, cell: [i32; 3]) -> Looked {
        let state = self.arena;
        model::get_at_depth(state, &mut self.tables(), id, depth, cell_of(cell))
    }

    /// Expansion into a lent cube: the number of the refusal, or 0.
    pub fn expand(&mut self, id: u64, depth: u32, cube: &mut [u16]) -> u32 {
        let state = self.arena;
        model::to_vec(state, &mut self.tables(), id, depth, cube)
    }

    /// Comparison of two roots into a lent list.
    pub fn compare(&mut self, left: u64, right: u64, depth: u32, list: &mut List) -> Compared {
        let state = self.arena;
        compare::compare(state, &mut self.tables(), left, right, depth, list)
    }
}

fn cell_of([x, y, z]: [i32; 3]) -> Cell {
    Cell { x, y, z }
}
