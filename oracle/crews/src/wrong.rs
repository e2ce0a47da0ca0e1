//! Ways to misread document 02's lists. Each has to be told from the right one by some of the orders that are entered.
use crate::cube::{Cell, Cube, Entry};

/// An order that was entered: the cube that it started from, its list, the holds on its end, and whether it was the first of its list.
pub struct Given<'a> {
    pub start: &'a Cube,
    pub list: &'a [Entry],
    pub holds: u64,
    pub is_first: bool,
}

/// What a reading makes of an order: the cube, and the holds on the end.
#[derive(PartialEq, Eq)]
pub struct Outcome {
    cube: Cube,
    holds: u64,
}

impl Given<'_> {
    /// What document 02 says.
    fn right(&self) -> Outcome {
        self.with(self.list)
    }

    /// What it would say of another list from the same start.
    fn with(&self, list: &[Entry]) -> Outcome {
        Outcome {
            cube: self.start.with(list),
            holds: self.holds,
        }
    }

    /// The list with one value for each cell, made of all that were entered for it.
    fn with_values(&self, value: impl Fn(&[u16]) -> u16) -> Outcome {
        let values_of = |cell: Cell| -> Vec<u16> {
            (self.list.iter())
                .filter(|entry| entry.cell == cell)
                .map(|entry| entry.value)
                .collect()
        };
        let list: Vec<Entry> = (self.list.iter())
            .map(|&Entry { cell, .. }| Entry {
                cell,
                value: value(&values_of(cell)),
            })
            .collect();
        self.with(&list)
    }

    /// Only those entries of the list.
    fn only(&self, is_entered: impl Fn(&Entry) -> bool) -> Outcome {
        let entered = self.list.iter().copied().filter(is_entered);
        self.with(&entered.collect::<Vec<Entry>>())
    }
}

type Wrong = fn(&Given) -> Outcome;

pub const WRONG: [(&str, Wrong); 10] = [
    ("lets the first value of a cell decide", first_decides),
    ("adds up the values of a cell", added_up),
    ("enters a list in rising order of cells and values", rising),
    (
        "enters a list in falling order of cells and values",
        falling,
    ),
    ("enters each entry into the start", each_alone),
    ("takes an entry of 0 for none", without_zeros),
    ("keeps what a cell had", kept),
    ("starts from EMPTY", from_empty),
    ("takes y for z", y_for_z),
    ("grants no hold where the end is there", no_hold),
];

/// Which of them say otherwise than document 02 does.
pub fn told(given: &Given) -> [bool; WRONG.len()] {
    let right = given.right();
    WRONG.map(|(_, wrong)| wrong(given) != right)
}

fn first_decides(given: &Given) -> Outcome {
    given.with_values(|values| values[0])
}

fn added_up(given: &Given) -> Outcome {
    given.with_values(|values| values.iter().fold(0, |sum, value| sum.wrapping_add(*value)))
}

fn rising(given: &Given) -> Outcome {
    let mut list = given.list.to_vec();
    list.sort();
    given.with(&list)
}

fn falling(given: &Given) -> Outcome {
    let mut list = given.list.to_vec();
    list.sort();
    list.reverse();
    given.with(&list)
}

fn each_alone(given: &Given) -> Outcome {
    given.with(&given.list[given.list.len() - 1..])
}

fn without_zeros(given: &Given) -> Outcome {
    given.only(|entry| entry.value != 0)
}

fn kept(given: &Given) -> Outcome {
    given.only(|entry| given.start.value(entry.cell) == 0)
}

fn from_empty(given: &Given) -> Outcome {
    let empty = Cube::uniform(given.start.depth, 0);
    Outcome {
        cube: empty.with(given.list),
        ..given.right()
    }
}

fn y_for_z(given: &Given) -> Outcome {
    let turned = given.list.iter().map(|&Entry { cell, value }| {
        let [x, y, z] = cell;
        let cell = [x, z, y];
        Entry { cell, value }
    });
    given.with(&turned.collect::<Vec<Entry>>())
}

/// EMPTY has no holds.
fn no_hold(given: &Given) -> Outcome {
    let granted = u64::from(!given.is_first && given.holds > 0);
    Outcome {
        holds: given.holds - granted,
        ..given.right()
    }
}
