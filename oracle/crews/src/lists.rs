//! Lists of edits at random, and the orders in which one is entered.
use crate::cube::{Cell, Cube, Entry};
use reference::Random;
use std::collections::HashSet;

/// How the orders of a list come about.
#[derive(Clone, Copy, Debug, PartialEq, Eq)]
pub enum Kind {
    /// All cells distinct, in any order.
    Distinct,
    /// Two crews with no cell in common. Each list keeps its own order, in which cells may come again.
    Crews,
    /// Cells come again: another list with the same last values, and only the last values.
    Repeated,
}

pub const KINDS: [Kind; 3] = [Kind::Distinct, Kind::Crews, Kind::Repeated];

/// What entries are chosen by.
pub struct Choice<'a> {
    /// The cube that the list starts from, of depth 1 or more.
    pub cube: &'a Cube,
    /// The values of the run, 0 not among them.
    pub values: &'a [u16],
    pub longest: usize,
}

impl Choice<'_> {
    /// Two or three lists that have to end in the same cube.
    pub fn orders(&self, kind: Kind, random: &mut Random) -> Vec<Vec<Entry>> {
        let count = 2 + random.below(2);
        let mut taken = HashSet::new();
        match kind {
            Kind::Distinct => {
                let list = self.distinct(self.longest, &mut taken, random);
                (0..count).map(|_| shuffled(&list, random)).collect()
            }
            Kind::Crews => {
                let half = self.longest.div_ceil(2);
                let [one, other] = [(); 2].map(|()| {
                    let list = self.distinct(half, &mut taken, random);
                    match random.once_in(2) {
                        true => self.repeated(list, random),
                        false => list,
                    }
                });
                (0..count)
                    .map(|_| interleaved(&one, &other, random))
                    .collect()
            }
            Kind::Repeated => {
                let half = self.longest.div_ceil(2);
                let list = self.distinct(half, &mut taken, random);
                let list = self.repeated(list, random);
                let last = last_values(&list);
                let other = self.with_earlier_values(&last, random);
                let mut orders = vec![list, other, shuffled(&last, random)];
                if count == 2 {
                    orders.swap_remove(random.below(orders.len()));
                }
                shuffled(&orders, random)
            }
        }
    }

    /// At most so many entries of distinct cells that are not taken yet: here and there, near each other, or a whole block of one value, so that nodes merge.
    fn distinct(
        &self,
        longest: usize,
        taken: &mut HashSet<Cell>,
        random: &mut Random,
    ) -> Vec<Entry> {
        let depth = self.cube.depth;
        let count = 1 + random.below(longest);
        let is_of_one_value = random.once_in(4);
        let value = any_value(self.values, random);
        let mut list = vec![];
        let mut last = any_cell(depth, random);
        for _ in 0..2 * count {
            if random.once_in(12) && count - list.len() >= 8 {
                let value = any_value(self.values, random);
                let block = block(last).filter(|cell| taken.insert(*cell));
                list.extend(block.map(|cell| Entry { cell, value }));
            }
            last = match random.once_in(3) {
                true => any_cell(depth, random),
                false => near(last, depth, random),
            };
            if list.len() < count && taken.insert(last) {
                let value = match random.below(16) {
                    _ if is_of_one_value => value,
                    0 => self.cube.value(last),
                    _ => any_value(self.values, random),
                };
                list.push(Entry { cell: last, value });
            }
        }
        list
    }

    /// The list with some of its cells once more, anywhere in it.
    fn repeated(&self, mut list: Vec<Entry>, random: &mut Random) -> Vec<Entry> {
        if list.is_empty() {
            return list;
        }
        for _ in 0..1 + random.below(list.len()) {
            let Entry { cell, value } = random.one_of(&list);
            let value = match random.once_in(8) {
                true => value,
                false => any_value(self.values, random),
            };
            list.insert(random.below(list.len() + 1), Entry { cell, value });
        }
        list
    }

    /// Another list with these last values: in another order, and before some of them other values for the same cell.
    fn with_earlier_values(&self, last: &[Entry], random: &mut Random) -> Vec<Entry> {
        let mut list = shuffled(last, random);
        for _ in 0..random.below(1 + 2 * last.len()) {
            let at = random.below(list.len());
            let earlier = Entry {
                cell: list[at].cell,
                value: any_value(self.values, random),
            };
            list.insert(random.below(at + 1), earlier);
        }
        list
    }
}

pub fn any_cell(depth: u32, random: &mut Random) -> Cell {
    [(); 3].map(|()| random.below(1 << depth) as i32)
}

/// One of the values, or 0.
pub fn any_value(values: &[u16], random: &mut Random) -> u16 {
    match random.once_in(4) {
        true => 0,
        false => random.one_of(values),
    }
}

/// A neighbour of a cell; most often one in the same block of eight.
fn near(cell: Cell, depth: u32, random: &mut Random) -> Cell {
    let mut cell = cell;
    let axis = random.below(3);
    if random.once_in(4) {
        cell[axis] += random.one_of(&[-1, 1]);
    } else {
        cell[axis] ^= 1;
    }
    cell.map(|c| c.rem_euclid(1 << depth))
}

/// The eight cells of the block of two a side that the cell lies in.
fn block(cell: Cell) -> impl Iterator<Item = Cell> {
    let corner = cell.map(|c| c & !1);
    (0..8).map(move |n| [0, 1, 2].map(|axis| corner[axis] + (n >> axis & 1)))
}

pub fn shuffled<T: Clone>(list: &[T], random: &mut Random) -> Vec<T> {
    let mut list = list.to_vec();
    random.shuffle(&mut list);
    list
}

/// The two lists as one, each in its own order.
fn interleaved(one: &[Entry], other: &[Entry], random: &mut Random) -> Vec<Entry> {
    let (mut one, mut other) = (one.iter(), other.iter());
    let mut list = vec![];
    while one.len() + other.len() > 0 {
        let is_of_one = random.below(one.len() + other.len()) < one.len();
        let next = if is_of_one { one.next() } else { other.next() };
        list.extend(next);
    }
    list
}

/// The last entry of each cell, in the order of the list.
pub fn last_values(list: &[Entry]) -> Vec<Entry> {
    let mut seen = HashSet::new();
    let mut last: Vec<Entry> = (list.iter().rev().copied())
        .filter(|entry| seen.insert(entry.cell))
        .collect();
    last.reverse();
    last
}

/// Every order of a list.
pub fn every_order(list: &[Entry]) -> Vec<Vec<Entry>> {
    if list.is_empty() {
        return vec![vec![]];
    }
    (0..list.len())
        .flat_map(|at| {
            let mut rest = list.to_vec();
            let first = rest.remove(at);
            let orders = every_order(&rest).into_iter();
            orders.map(move |order| [vec![first], order].concat())
        })
        .collect()
}

/// Every way to enter two lists as one, each in its own order.
pub fn every_interleaving(one: &[Entry], other: &[Entry]) -> Vec<Vec<Entry>> {
    let (Some((first, one_rest)), Some((second, other_rest))) =
        (one.split_first(), other.split_first())
    else {
        return vec![[one, other].concat()];
    };
    let behind = |entry: Entry, ways: Vec<Vec<Entry>>| {
        (ways.into_iter()).map(move |way| [vec![entry], way].concat())
    };
    let from_one = behind(*first, every_interleaving(one_rest, other));
    let from_other = behind(*second, every_interleaving(one, other_rest));
    from_one.chain(from_other).collect()
}
