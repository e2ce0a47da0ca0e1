//! The arena as document 01 has it, written from that paper alone: contents looked up in maps, counts kept apart, and every refusal. A switch turns
//! only the order in which one release frees nodes. What docs/TABLES.md writes down besides goes along and decides nothing: sums, hashes, the stack of freed slots
//! with what is left above it, and the finding table.
use crate::document01::{EMPTY, INVALID, index, is_leaf, new_branch, new_leaf};
use crate::finding::{Finding, branch_hash, leaf_hash};
use std::collections::{HashMap, VecDeque};

/// A caller's holds on one node are at most this many.
pub const MOST_HOLDS: u32 = 1_000_000;
/// A branch is at most this tall.
pub const TALLEST: u8 = 6;
/// A generation that would reach this is 0 again.
pub const GENERATIONS: u16 = 0x7FFE;

pub const LEAST_CAPACITY: usize = 2;
pub const MOST_CAPACITY: usize = 65_536;

/// In which order one release frees the nodes that die by it.
#[derive(Clone, Copy, Debug, PartialEq, Eq)]
pub enum Order {
    /// Document 01: a child that reaches zero is freed, with all below it, before the next child is taken.
    DepthFirst,
    /// The original: the children that reach zero wait in a queue.
    BreadthFirst,
}

/// What is known of one slot. A slot without a node has id EMPTY and is cleared but for its generation and its mark.
#[derive(Clone, Debug, Default, PartialEq, Eq)]
pub struct Slot {
    pub id: u64,
    pub generation: u16,
    pub value: u16,
    pub height: u8,
    /// The sum of the children's stored values.
    pub sum: u32,
    pub hash: u32,
    pub holds: u32,
    pub places: u32,
    /// The number of a freed slot on the stack.
    pub mark: u32,
    pub children: [u64; 8],
}

#[derive(Clone)]
pub struct Arena {
    order: Order,
    slots: Vec<Slot>,
    /// The stack of freed slots: so many entries from the first on, the last one freed at the end. The others keep what was last written there.
    freed: usize,
    entries: Vec<u32>,
    next: u32,
    leaves: HashMap<u16, u32>,
    branches: HashMap<[u64; 8], u32>,
    finding: Finding,
    pub(crate) touched: Vec<u32>,
}

impl Arena {
    /// A fresh arena, or the number of the refusal.
    pub fn fresh(capacity: usize, order: Order) -> Result<Self, u32> {
        if !(LEAST_CAPACITY..=MOST_CAPACITY).contains(&capacity) {
            return Err(1);
        }
        Ok(Self {
            order,
            slots: vec![Slot::default(); capacity],
            freed: 0,
            entries: vec![0; capacity],
            next: 1,
            leaves: HashMap::new(),
            branches: HashMap::new(),
            finding: Finding::fresh(capacity),
            touched: vec![],
        })
    }

    pub fn capacity(&self) -> usize {
        self.slots.len()
    }

    pub fn slot(&self, slot: usize) -> &Slot {
        &self.slots[slot]
    }

    /// The freed slots, the last one freed at the end.
    pub fn freed(&self) -> &[u32] {
        &self.entries[..self.freed]
    }

    /// Every entry of the stack of freed slots, those too that no longer stand for one.
    pub fn entries(&self) -> &[u32] {
        &self.entries
    }

    /// The cells of the finding table.
    pub fn finding(&self) -> &[u16] {
        self.finding.cells()
    }

    /// The lowest slot never given out.
    pub fn next(&self) -> usize {
        self.next as usize
    }

    pub fn live(&self) -> usize {
        self.next() - 1 - self.freed
    }

    pub fn is_full(&self) -> bool {
        self.live() == self.capacity() - 1
    }

    /// The slots of which the last call changed something.
    pub fn touched(&self) -> &[u32] {
        &self.touched
    }

    /// An id is live exactly if it is, in all 64 bits, the id of a node now in the arena.
    pub fn is_live(&self, id: u64) -> bool {
        id != EMPTY && (self.slots.get(index(id) as usize)).is_some_and(|slot| slot.id == id)
    }

    pub(crate) fn is_empty_or_live(&self, id: u64) -> bool {
        id == EMPTY || self.is_live(id)
    }

    /// The node of a live id.
    pub fn node(&self, id: u64) -> &Slot {
        &self.slots[index(id) as usize]
    }

    fn node_mut(&mut self, id: u64) -> &mut Slot {
        self.touched.push(index(id));
        &mut self.slots[index(id) as usize]
    }

    pub fn height(&self, id: u64) -> u8 {
        if id == EMPTY { 0 } else { self.node(id).height }
    }

    pub(crate) fn value(&self, id: u64) -> u16 {
        if id == EMPTY { 0 } else { self.node(id).value }
    }

    /// No branch at or below a root has eight times the same leaf.
    pub fn is_tidy(&self, root: u64) -> bool {
        if root == EMPTY || is_leaf(root) {
            return true;
        }
        let children = self.node(root).children;
        let is_one_leaf = is_leaf(children[0]) && children == [children[0]; 8];
        !is_one_leaf && children.iter().all(|child| self.is_tidy(*child))
    }

    /// The id of the live leaf of this value.
    pub fn leaf_of(&self, value: u16) -> Option<u64> {
        (self.leaves.get(&value)).map(|slot| self.slots[*slot as usize].id)
    }

    /// The id of the live branch with these children.
    pub fn branch_of(&self, children: &[u64; 8]) -> Option<u64> {
        (self.branches.get(children)).map(|slot| self.slots[*slot as usize].id)
    }

    /// Fresh slot: the last one freed, else the lowest never used.
    fn give_out(&mut self) -> u32 {
        let slot = if self.freed > 0 {
            self.freed -= 1;
            self.entries[self.freed]
        } else {
            self.next += 1;
            self.next - 1
        };
        self.touched.push(slot);
        slot
    }

    /// A call begins: it has touched nothing yet.
    pub(crate) fn begin(&mut self) {
        self.touched.clear();
    }

    /// One more hold on a node that is there.
    pub(crate) fn grant(&mut self, id: u64) -> (u32, u64) {
        self.node_mut(id).holds += 1;
        (0, id)
    }

    /// A fresh leaf, with no hold and no place yet, in an arena that is not full.
    pub(crate) fn fresh_leaf(&mut self, value: u16) -> u64 {
        let slot = self.give_out();
        let generation = self.slots[slot as usize].generation;
        let (_, id) = new_leaf(slot, generation);
        let hash = leaf_hash(value.into());
        self.slots[slot as usize] = Slot {
            id,
            generation,
            value,
            hash,
            ..Slot::default()
        };
        self.leaves.insert(value, slot);
        self.finding.insert(slot, hash);
        id
    }

    /// A fresh branch, with no hold and no place yet, in an arena that is not full. Each child place counts.
    pub(crate) fn fresh_branch(&mut self, children: [u64; 8]) -> u64 {
        for &id in children.iter().filter(|id| **id != EMPTY) {
            self.node_mut(id).places += 1;
        }
        let bits =
            |is: fn(u64) -> bool| -> u8 { (0..8).map(|i| u8::from(is(children[i])) << i).sum() };
        let (types, mask) = (bits(is_leaf), bits(|id| id != EMPTY));
        let sum: u32 = children.iter().map(|id| u32::from(self.value(*id))).sum();
        let tallest = children.iter().map(|id| self.height(*id)).max();
        let slot = self.give_out();
        let generation = self.slots[slot as usize].generation;
        let (_, id) = new_branch(slot, generation, types, mask);
        let hash = branch_hash(&children);
        self.slots[slot as usize] = Slot {
            id,
            generation,
            value: (sum / 8) as u16,
            height: tallest.unwrap() + 1,
            sum,
            hash,
            children,
            ..Slot::default()
        };
        self.branches.insert(children, slot);
        self.finding.insert(slot, hash);
        id
    }

    pub fn intern_leaf(&mut self, value: u16) -> (u32, u64) {
        self.begin();
        if value == 0 {
            return (6, INVALID);
        }
        if let Some(id) = self.leaf_of(value) {
            if self.node(id).holds >= MOST_HOLDS {
                return (10, INVALID);
            }
            return self.grant(id);
        }
        if self.is_full() {
            return (11, INVALID);
        }
        let id = self.fresh_leaf(value);
        self.grant(id)
    }

    /// The number of the refusal of interning a branch, or 0; the live node that has these children.
    fn branch_refusal(&self, children: &[u64; 8]) -> (u32, Option<u64>) {
        if children.iter().any(|id| !self.is_empty_or_live(*id)) {
            return (4, None);
        }
        let places_of = |id: u64| children.iter().filter(|child| **child == id).count();
        let lacks_holds = |id: u64| id != EMPTY && (self.node(id).holds as usize) < places_of(id);
        if children.iter().any(|id| lacks_holds(*id)) {
            return (5, None);
        }
        if *children == [EMPTY; 8] {
            return (7, None);
        }
        if children.iter().any(|id| self.height(*id) >= TALLEST) {
            return (8, None);
        }
        match self.branch_of(children) {
            Some(id) if self.node(id).holds >= MOST_HOLDS => (10, None),
            None if self.is_full() => (11, None),
            hit => (0, hit),
        }
    }

    pub fn intern_branch(&mut self, children: [u64; 8]) -> (u32, u64) {
        self.begin();
        let (refusal, hit) = self.branch_refusal(&children);
        if refusal != 0 {
            return (refusal, INVALID);
        }
        for &id in children.iter().filter(|id| **id != EMPTY) {
            self.node_mut(id).holds -= 1;
        }
        let id = hit.unwrap_or_else(|| self.fresh_branch(children));
        self.grant(id)
    }

    pub fn hold(&mut self, id: u64) -> u32 {
        self.begin();
        if !self.is_empty_or_live(id) {
            return 4;
        }
        if id == EMPTY {
            return 0;
        }
        if self.node(id).holds >= MOST_HOLDS {
            return 10;
        }
        self.node_mut(id).holds += 1;
        0
    }

    /// The number of the refusal, holds and places.
    pub fn counts(&mut self, id: u64) -> (u32, u64, u64) {
        self.begin();
        if !self.is_empty_or_live(id) {
            return (4, 0, 0);
        }
        if id == EMPTY {
            return (0, 0, 0);
        }
        let node = self.node(id);
        (0, node.holds.into(), node.places.into())
    }

    pub fn release(&mut self, id: u64) -> u32 {
        self.begin();
        if !self.is_empty_or_live(id) {
            return 4;
        }
        if id == EMPTY {
            return 0;
        }
        if self.node(id).holds == 0 {
            return 5;
        }
        self.node_mut(id).holds -= 1;
        if self.is_unused(id) {
            match self.order {
                Order::DepthFirst => self.free_depth_first(id),
                Order::BreadthFirst => self.free_breadth_first(id),
            }
        }
        0
    }

    fn is_unused(&self, id: u64) -> bool {
        self.node(id).holds == 0 && self.node(id).places == 0
    }

    /// Clears the slot of a node that nobody uses, puts it on top of the freed ones, and answers the children that the node had.
    fn recycle(&mut self, id: u64) -> [u64; 8] {
        let slot = index(id);
        let node = std::mem::take(self.node_mut(id));
        if is_leaf(id) {
            self.leaves.remove(&node.value);
        } else {
            self.branches.remove(&node.children);
        }
        let hash_of = |named: u16| self.slots[usize::from(named)].hash;
        self.finding.remove(slot, node.hash, hash_of);
        self.slots[slot as usize] = Slot {
            generation: match node.generation + 1 {
                GENERATIONS => 0,
                generation => generation,
            },
            mark: self.freed as u32,
            ..Slot::default()
        };
        self.entries[self.freed] = slot;
        self.freed += 1;
        node.children
    }

    /// The child's place ends. Is it unused then?
    fn leave(&mut self, child: u64) -> bool {
        if child == EMPTY {
            return false;
        }
        self.node_mut(child).places -= 1;
        self.is_unused(child)
    }

    fn free_depth_first(&mut self, id: u64) {
        for child in self.recycle(id) {
            if self.leave(child) {
                self.free_depth_first(child);
            }
        }
    }

    fn free_breadth_first(&mut self, id: u64) {
        let mut waiting = VecDeque::from([id]);
        while let Some(id) = waiting.pop_front() {
            for child in self.recycle(id) {
                if self.leave(child) {
                    waiting.push_back(child);
                }
            }
        }
    }
}
