//! The port's tables, as docs/TABLES.md lays them out, and what document 01 calls well formed, read from that paper.
use crate::arena::{GENERATIONS, LEAST_CAPACITY, MOST_CAPACITY, MOST_HOLDS, Slot, TALLEST};
use crate::document01::{EMPTY, generation, index, is_leaf, new_branch, new_leaf};
use crate::finding::{CELLS, hash, home};
use std::collections::{HashMap, HashSet};

/// A live node's own number is at least this; a generation alone is below it.
pub const FLOOR: u64 = 1 << 47;

/// Numbers of a slot's words in `facts`. Those below `ROW` stand in its row; the hash stands apart.
pub const OWN_LOW: usize = 0;
pub const OWN_HIGH: usize = 1;
pub const VALUE: usize = 2;
pub const HEIGHT: usize = 3;
pub const SUM: usize = 4;
pub const SPARE: usize = 5;
pub const HOLDS: usize = 6;
pub const PLACES: usize = 7;
pub const MARK: usize = 8;
/// An entry of the stack of freed slots, and no word of the slot's own.
pub const ENTRY: usize = 9;
const ROW: usize = 10;
pub const HASH: usize = 10;
/// How many words a slot has.
pub const WORDS: usize = 11;

/// The lengths of `kids`, `facts` and `find` for so many slots.
pub fn lengths(capacity: usize) -> [usize; 3] {
    [8, WORDS, CELLS].map(|each| each * capacity)
}

/// Where a word of a slot stands in `facts` of that length: rows from the start on, and the hashes backwards from the end.
pub fn place(length: usize, slot: usize, word: usize) -> usize {
    match word {
        HASH => length - 1 - slot,
        _ => ROW * slot + word,
    }
}

/// The words of a slot, by their numbers.
pub fn words_of(facts: &[u32], slot: usize) -> [u32; WORDS] {
    std::array::from_fn(|word| facts[place(facts.len(), slot, word)])
}

/// The two halves of an own number, the low one first.
pub fn halves(own: u64) -> [u32; 2] {
    [own as u32, (own >> 32) as u32]
}

/// The words that a slot has in `facts`, with the entry of the stack of freed slots that stands there.
pub fn words_for(slot: &Slot, entry: u32) -> [u32; WORDS] {
    let own = if slot.id == EMPTY {
        u64::from(slot.generation) << 32
    } else {
        slot.id
    };
    let [low, high] = halves(own);
    [
        low,
        high,
        slot.value.into(),
        slot.height.into(),
        slot.sum,
        0,
        slot.holds,
        slot.places,
        slot.mark,
        entry,
        slot.hash,
    ]
}

/// The state's number: the lowest slot never given out, and 2^32 times how many are freed.
pub fn slots_of(next: usize, freed: usize) -> u64 {
    next as u64 + ((freed as u64) << 32)
}

/// The state of an arena and its three tables.
#[derive(Clone, Copy)]
pub struct Tables<'a> {
    pub capacity: usize,
    pub slots: u64,
    pub kids: &'a [u64],
    pub facts: &'a [u32],
    pub find: &'a [u16],
}

impl<'a> Tables<'a> {
    /// Not refusal 1.
    pub fn fit(&self, capacity: usize) -> bool {
        (LEAST_CAPACITY..=MOST_CAPACITY).contains(&capacity)
            && [self.kids.len(), self.facts.len(), self.find.len()] == lengths(capacity)
    }

    /// The lowest slot never given out.
    fn next(&self) -> usize {
        self.slots as u32 as usize
    }

    /// How many slots are freed.
    fn freed(&self) -> usize {
        (self.slots >> 32) as usize
    }

    pub fn fact(&self, slot: usize, word: usize) -> u32 {
        self.facts[place(self.facts.len(), slot, word)]
    }

    /// The whole id of a live node in the slot, else the generation times 2^32.
    pub fn own(&self, slot: usize) -> u64 {
        let [low, high] = [OWN_LOW, OWN_HIGH].map(|word| u64::from(self.fact(slot, word)));
        high << 32 | low
    }

    fn children(&self, slot: usize) -> &'a [u64] {
        &self.kids[8 * slot..8 * slot + 8]
    }

    fn is_live_slot(&self, slot: usize) -> bool {
        self.own(slot) >= FLOOR
    }

    /// An id is live exactly if it is, in all 64 bits, the id of a node now in the arena.
    pub fn is_live(&self, id: u64) -> bool {
        let slot = index(id) as usize;
        id >= FLOOR && slot < self.capacity && self.own(slot) == id
    }

    /// The child of that number in the slot that a branch's id names. On tables that are not well formed, EMPTY where there is no such slot.
    pub fn child(&self, id: u64, number: u32) -> u64 {
        let at = 8 * index(id) as usize + number as usize;
        self.kids.get(at).copied().unwrap_or(EMPTY)
    }

    /// The stored value of an id; EMPTY has 0. On tables that are not well formed, the low 16 bits, and 0 where there is no such slot.
    pub fn value(&self, id: u64) -> u16 {
        if id == EMPTY {
            return 0;
        }
        let slot = index(id) as usize;
        if slot >= self.facts.len() / WORDS {
            return 0;
        }
        self.fact(slot, VALUE) as u16
    }

    /// The error names the first rule that is broken.
    pub fn well_formed(&self) -> Result<(), String> {
        if !self.fit(self.capacity) {
            return Err("capacity or lengths".to_string());
        }
        self.freed_once()?;
        let mut tally: HashMap<u64, u64> = HashMap::new();
        for id in self.kids {
            *tally.entry(*id).or_default() += 1;
        }
        let mut contents = HashSet::new();
        let mut live = 0;
        for slot in 0..self.capacity {
            let own = self.own(slot);
            if generation(own) >= GENERATIONS {
                return Err(format!("slot {slot}: generation"));
            }
            if self.fact(slot, SPARE) != 0 {
                return Err(format!("slot {slot}: spare word"));
            }
            if !self.is_live_slot(slot) {
                self.cleared(slot)?;
                continue;
            }
            live += 1;
            self.node(slot)?;
            if u64::from(self.fact(slot, PLACES)) != tally.get(&own).copied().unwrap_or(0) {
                return Err(format!("slot {slot}: places are not the tally"));
            }
            if !contents.insert((self.children(slot), self.fact(slot, VALUE))) {
                return Err(format!("slot {slot}: content of another"));
            }
        }
        if self.freed() + live + 1 != self.next() {
            return Err(format!(
                "{} freed and {live} live, and {} is next",
                self.freed(),
                self.next()
            ));
        }
        self.found_once(live)
    }

    /// The entries of the stack name slots of 1 to next - 1 that are not live, each of which has the entry's number as its mark; no other slot has a mark, and
    /// every other slot of 1 to next - 1 is live. Slot 0 and the slots from next on were never given out.
    fn freed_once(&self) -> Result<(), String> {
        if !(1..=self.capacity).contains(&self.next()) || self.freed() >= self.next() {
            return Err("next or freed".to_string());
        }
        let mut freed = HashSet::new();
        for number in 0..self.freed() {
            let slot = self.fact(number, ENTRY) as usize;
            let is_freed = (1..self.next()).contains(&slot) && !self.is_live_slot(slot);
            if !is_freed || self.fact(slot, MARK) as usize != number || !freed.insert(slot) {
                return Err(format!("entry {number} is slot {slot}"));
            }
        }
        for slot in 0..self.capacity {
            let was_given = (1..self.next()).contains(&slot);
            let own = self.own(slot);
            if !was_given && own != 0 {
                return Err(format!("slot {slot} was never given out"));
            }
            if was_given && own < FLOOR && !freed.contains(&slot) {
                return Err(format!("slot {slot} is neither live nor freed"));
            }
            if self.fact(slot, MARK) != 0 && !freed.contains(&slot) {
                return Err(format!("slot {slot} is marked and not freed"));
            }
        }
        Ok(())
    }

    /// Value 0, children EMPTY, both counts 0, and so what is kept with them; the own number is a generation alone.
    fn cleared(&self, slot: usize) -> Result<(), String> {
        let is_cleared = [VALUE, HEIGHT, SUM, HASH, HOLDS, PLACES]
            .iter()
            .all(|word| self.fact(slot, *word) == 0)
            && self.children(slot).iter().all(|id| *id == EMPTY)
            && index(self.own(slot)) == 0;
        if is_cleared {
            return Ok(());
        }
        Err(format!("slot {slot} is not cleared"))
    }

    /// Id, value, height, sum, hash and counts of a live node.
    fn node(&self, slot: usize) -> Result<(), String> {
        let broken = |rule: &str| Err(format!("slot {slot}: {rule}"));
        let own = self.own(slot);
        let children = self.children(slot);
        let [value, height, sum] = [VALUE, HEIGHT, SUM].map(|word| self.fact(slot, word));
        let of_child = |id: u64, word: usize| match id {
            EMPTY => 0,
            id => self.fact(index(id) as usize, word),
        };
        if is_leaf(own) {
            if own != new_leaf(slot as u32, generation(own)).1 {
                return broken("id of a leaf");
            }
            if value == 0 || height != 0 || sum != 0 || children.iter().any(|id| *id != EMPTY) {
                return broken("value, height, sum or children of a leaf");
            }
        } else {
            if children.iter().any(|id| *id != EMPTY && !self.is_live(*id)) {
                return broken("a child is not live");
            }
            let bits = |is: fn(u64) -> bool| {
                (0..8).fold(0, |byte, i| byte | u8::from(is(children[i])) << i)
            };
            let (types, mask) = (bits(is_leaf), bits(|id| id != EMPTY));
            if mask == 0 || own != new_branch(slot as u32, generation(own), types, mask).1 {
                return broken("id of a branch");
            }
            let values = children.iter().map(|id| u64::from(of_child(*id, VALUE)));
            let all: u64 = values.sum();
            if u64::from(sum) != all || u64::from(value) != all / 8 {
                return broken("sum or stored value");
            }
            let tallest = children.iter().map(|id| of_child(*id, HEIGHT)).max();
            if Some(height) != tallest.unwrap().checked_add(1) || height > TALLEST.into() {
                return broken("height");
            }
        }
        if self.fact(slot, HASH) != hash(own, children, value) {
            return broken("hash");
        }
        let (holds, places) = (self.fact(slot, HOLDS), self.fact(slot, PLACES));
        if value > 0xFFFF || holds > MOST_HOLDS {
            return broken("value or holds too large");
        }
        if holds == 0 && places == 0 {
            return broken("nobody uses it");
        }
        Ok(())
    }

    /// The finding table names live slots only, each once, with no empty cell from the home of its content up to it. So many are live.
    fn found_once(&self, live: usize) -> Result<(), String> {
        let mut named = HashSet::new();
        let mut first_of_row = 0;
        for (at, &cell) in self.find.iter().enumerate() {
            if cell == 0 {
                first_of_row = at + 1;
                continue;
            }
            let slot = usize::from(cell);
            if slot >= self.capacity || !self.is_live_slot(slot) || !named.insert(slot) {
                return Err(format!("cell {at} names slot {slot}"));
            }
            let hash = hash(self.own(slot), self.children(slot), self.fact(slot, VALUE));
            if !(first_of_row..=at).contains(&home(self.capacity, hash)) {
                return Err(format!("no search finds slot {slot} in cell {at}"));
            }
        }
        if named.len() != live {
            return Err("a live node is not named".to_string());
        }
        Ok(())
    }
}
