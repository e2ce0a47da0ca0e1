//! Calls at random, chosen by looking at document 01's arena, so that hits, misses, full arenas, shared and repeated children, recycled slots and
//! refusals all come often.
use crate::call::{Answered, Call, Traced};
use reference::Random;
use reference::arena::{Arena, TALLEST};
use reference::document01::{EMPTY, INVALID, index, is_leaf, new_leaf};
use reference::finding::{HOMES, home, leaf_hash};

/// How many ids of recycled nodes are remembered.
const REMEMBERED: usize = 64;

pub struct Sequence {
    random: Random,
    /// The values of leaves.
    values: Vec<u16>,
    /// For each slot a call that answered its id.
    answered_by: Vec<u32>,
    /// Ids of nodes that were recycled.
    gone: Vec<Traced>,
    /// Calls that have to come first, the next one at the end.
    waiting: Vec<Call<Traced>>,
    is_growing: bool,
    number: u32,
}

/// The values of the leaves of one sequence.
fn choose_values(capacity: usize, random: &mut Random) -> Vec<u16> {
    let many = 2 * capacity;
    let home_of = |value: u16| home(capacity, leaf_hash(value.into()));
    let any = |random: &mut Random| 1 + random.below(65_535) as u16;
    // In a large arena few values leave most slots unused.
    let kinds = if capacity <= 400 { 5 } else { 2 };
    match random.below(kinds) + 5 - kinds {
        // Few values: hits.
        0 => (1..=1 + random.below(6) as u16).collect(),
        // Values whose search begins at one cell.
        1 => {
            let home = home_of(any(random));
            let meets = |value: &u16| home_of(*value) == home;
            (1..=65_535).filter(meets).take(many.max(4)).collect()
        }
        // The ends of the range.
        2 => vec![1, 2, 7, 8, 9, 0x7FFF, 0x8000, 65_534, 65_535],
        // Values whose search begins near the last cell that is a home.
        3 => {
            let first = HOMES * capacity - (capacity / 16).max(2);
            let is_last = |value: &u16| home_of(*value) >= first;
            (1..=65_535).filter(is_last).take(many.max(4)).collect()
        }
        _ => (0..many.max(4)).map(|_| any(random)).collect(),
    }
}

impl Sequence {
    pub fn new(capacity: usize, seed: u64) -> Self {
        let mut random = Random::new(seed);
        let mut values = choose_values(capacity, &mut random);
        if values.is_empty() {
            values.push(1);
        }
        Self {
            random,
            values,
            answered_by: vec![0; capacity],
            gone: vec![],
            waiting: vec![],
            is_growing: true,
            number: 0,
        }
    }

    /// The next call and its number, from 1.
    pub fn next(&mut self, arena: &Arena) -> (u32, Call<Traced>) {
        self.number += 1;
        if let Some(call) = self.waiting.pop() {
            return (self.number, call);
        }
        self.turn(arena);
        // Leaf, new branch, known branch, hold, release, counts, odd: out of 100.
        let shares = if self.is_growing && arena.capacity() > 400 {
            [40, 32, 6, 3, 7, 6, 6]
        } else if self.is_growing {
            [25, 25, 12, 8, 18, 6, 6]
        } else {
            [8, 8, 6, 4, 62, 6, 6]
        };
        let mut roll = self.random.below(100);
        let chosen = shares.iter().position(|share| {
            let is_here = roll < *share;
            roll = roll.saturating_sub(*share);
            is_here
        });
        let call = match chosen {
            Some(0) => Some(self.leaf()),
            Some(1) => self.new_branch(arena),
            Some(2) => self.known_branch(arena),
            Some(3) => self.any_live(arena).map(Call::Hold),
            Some(4) => self.held(arena).map(Call::Release),
            Some(5) => self.any_live(arena).map(Call::Counts),
            _ => Some(self.odd(arena)),
        };
        (self.number, call.unwrap_or_else(|| self.leaf()))
    }

    /// Takes note of what document 01 answered to the last call.
    pub fn learn(&mut self, call: &Call<Traced>, answered: &Answered, arena: &Arena) {
        if answered.no != 0 {
            return;
        }
        if answered.id != EMPTY {
            self.answered_by[index(answered.id) as usize] = self.number;
        }
        if let Call::Release(id) = call
            && !arena.is_live(id.raw)
        {
            if self.gone.len() == REMEMBERED {
                let at = self.random.below(REMEMBERED);
                self.gone.swap_remove(at);
            }
            self.gone.push(*id);
        }
    }

    /// Now and then a full arena begins to shrink, and one that is nearly empty to grow.
    fn turn(&mut self, arena: &Arena) {
        let is_low = arena.live() <= arena.capacity() / 4;
        if self.random.once_in(2_000.max(40 * arena.capacity()))
            || self.is_growing && arena.is_full() && self.random.once_in(16)
            || !self.is_growing && is_low && self.random.once_in(4)
        {
            self.is_growing = !self.is_growing;
        }
    }

    fn trace(&self, id: u64) -> Traced {
        Traced {
            raw: id,
            answered_by: Some(self.answered_by[index(id) as usize]),
            turned: 0,
        }
    }

    /// A live node that meets the wish, if some tries find one. Every other try is among the lowest slots, so that some nodes are used again and again.
    fn find(&mut self, arena: &Arena, wish: impl Fn(u64) -> bool) -> Option<Traced> {
        let given_out = arena.next() - 1;
        if given_out == 0 {
            return None;
        }
        for attempt in 0..16 {
            let among = if attempt % 2 == 0 {
                given_out
            } else {
                given_out.min(8)
            };
            let id = arena.slot(1 + self.random.below(among)).id;
            if id != EMPTY && wish(id) {
                return Some(self.trace(id));
            }
        }
        None
    }

    fn any_live(&mut self, arena: &Arena) -> Option<Traced> {
        self.find(arena, |_| true)
    }

    fn held(&mut self, arena: &Arena) -> Option<Traced> {
        self.find(arena, |id| arena.node(id).holds > 0)
    }

    fn leaf(&mut self) -> Call<Traced> {
        Call::Leaf(self.random.one_of(&self.values))
    }

    /// A child for a new branch: sometimes the taller of two, so that trees grow up to the limit and beyond.
    fn child(&mut self, arena: &Arena) -> Option<Traced> {
        let one = self.any_live(arena)?;
        if self.random.once_in(3) {
            return Some(one);
        }
        let other = self.any_live(arena)?;
        let is_too_tall = arena.height(other.raw) >= TALLEST;
        if arena.height(other.raw) > arena.height(one.raw) && !is_too_tall {
            Some(other)
        } else {
            Some(one)
        }
    }

    /// A branch of one to four nodes in places at random, one node in all eight at times.
    fn new_branch(&mut self, arena: &Arena) -> Option<Call<Traced>> {
        let kinds = 1 + self.random.below(4);
        let mut nodes = vec![];
        for _ in 0..kinds {
            nodes.push(self.child(arena)?);
        }
        let mut children = [Traced::constant(EMPTY); 8];
        let is_filled = self.random.once_in(8);
        let share = 1 + self.random.below(4);
        for child in &mut children {
            if is_filled {
                *child = nodes[0];
            } else if self.random.below(4) < share {
                *child = self.random.one_of(&nodes);
            }
        }
        Some(self.with_holds(arena, children))
    }

    /// A branch that is there already.
    fn known_branch(&mut self, arena: &Arena) -> Option<Call<Traced>> {
        let branch = self.find(arena, |id| !is_leaf(id))?;
        let children = arena.node(branch.raw).children;
        let children = children.map(|id| {
            if id == EMPTY {
                Traced::constant(EMPTY)
            } else {
                self.trace(id)
            }
        });
        Some(self.with_holds(arena, children))
    }

    /// The branch, after the holds that its children still lack; at times one of them is forgotten.
    fn with_holds(&mut self, arena: &Arena, children: [Traced; 8]) -> Call<Traced> {
        self.waiting.push(Call::Branch(children));
        for (i, child) in children.iter().enumerate() {
            if child.raw == EMPTY {
                continue;
            }
            let earlier = children[..i].iter().filter(|other| other.raw == child.raw);
            let has_hold = (earlier.count() as u32) < arena.node(child.raw).holds;
            if !has_hold && !self.random.once_in(24) {
                self.waiting.push(Call::Hold(*child));
            }
        }
        self.waiting.pop().unwrap()
    }

    /// An id that is most often neither EMPTY nor live.
    fn odd_id(&mut self, arena: &Arena) -> Traced {
        let capacity = arena.capacity();
        let live = self.any_live(arena);
        match (self.random.below(9), live) {
            (0, _) => Traced::constant(INVALID),
            (1, _) => Traced::constant(EMPTY),
            (2, _) => Traced::constant(self.random.bits()),
            // A slot never used, or one past the end.
            (3, _) => {
                let beyond = self.random.below(4);
                let slot = self.random.one_of(&[arena.next(), capacity - 1, capacity]);
                Traced::constant(new_leaf((slot + beyond) as u32, 0).1)
            }
            // Slot 0, as a leaf or with a mask.
            (4, _) => Traced::constant(1 << (47 + self.random.below(17))),
            // A freed slot with the generation that it will have next.
            (5, _) if !arena.freed().is_empty() => {
                let slot = self.random.one_of(arena.freed());
                let generation = arena.slot(slot as usize).generation;
                Traced::constant(new_leaf(slot, generation).1)
            }
            (6, Some(live)) => live.turn(1 << self.random.below(64)),
            _ if !self.gone.is_empty() => self.random.one_of(&self.gone),
            (_, Some(live)) => live.turn(1 << 32),
            _ => Traced::constant(INVALID),
        }
    }

    /// A call that is most often refused: odd ids, value 0, eight EMPTY, a release of what only a parent holds.
    fn odd(&mut self, arena: &Arena) -> Call<Traced> {
        let id = self.odd_id(arena);
        match self.random.below(8) {
            0 => Call::Leaf(0),
            1 => Call::Branch([Traced::constant(EMPTY); 8]),
            2 => {
                let mut children = [Traced::constant(EMPTY); 8];
                for child in &mut children {
                    if let Some(live) = self.held(arena)
                        && self.random.once_in(2)
                    {
                        *child = live;
                    }
                }
                children[self.random.below(8)] = id;
                Call::Branch(children)
            }
            3 => {
                let unheld = self.find(arena, |id| arena.node(id).holds == 0);
                Call::Release(unheld.unwrap_or(id))
            }
            4 => {
                let tall = self.find(arena, |id| arena.height(id) == TALLEST);
                let mut children = [Traced::constant(EMPTY); 8];
                children[self.random.below(8)] = tall.unwrap_or(id);
                Call::Branch(children)
            }
            5 => Call::Hold(id),
            6 => Call::Release(id),
            _ => Call::Counts(id),
        }
    }
}
