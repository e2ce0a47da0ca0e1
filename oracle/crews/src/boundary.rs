//! Lists of which the end is worked out by hand, and lists in every order.
use crate::cube::{Cell, Cube, Entry};
use crate::judge::{self, Asked};
use crate::lists::{every_interleaving, every_order, shuffled};
use crate::site::{Site, Told};
use crate::tally::Tally;
use arena::call::Call;
use reference::Random;
use reference::arena::MOST_HOLDS;
use reference::document01::{EMPTY, is_leaf};
use reference::reading::{DEEPEST, cells};

type Case = fn(&mut Tally) -> Told;

pub const CASES: [(&str, Case); 9] = [
    ("the empty list, and lists of one entry", short_lists),
    ("entries that change nothing", nothing_changed),
    ("lists that end in EMPTY", to_empty),
    ("lists that come back to their start", back_to_start),
    ("three cells at every depth in every order", three_cells),
    ("two crews' lists in every interleaving", two_crews),
    (
        "the eight cells of depth 1 in all 40,320 orders",
        eight_cells,
    ),
    ("whole cubes of depth 2 in many orders", whole_cubes),
    ("an end with 1,000,000 holds", most_holds),
];

/// Orders of whole cubes of depth 2.
const ORDERS: usize = 500;

fn entry(cell: Cell, value: u16) -> Entry {
    Entry { cell, value }
}

/// A root with one hold, and its cube.
struct Start {
    root: u64,
    cube: Cube,
}

impl Start {
    fn empty(depth: u32) -> Self {
        Self {
            root: EMPTY,
            cube: Cube::uniform(depth, 0),
        }
    }

    /// A root of edits.
    fn made(site: &mut Site, depth: u32, list: &[Entry]) -> Result<Self, String> {
        Ok(Self {
            root: site.accept_list(EMPTY, depth, list)?,
            cube: Cube::uniform(depth, 0).with(list),
        })
    }
}

/// Enters each of the orders, every end held until the last one ends: all ends are one id with one hold for each, and the plain cube. Gives the ends back.
fn one_end(
    site: &mut Site,
    tally: &mut Tally,
    start: &Start,
    orders: &[Vec<Entry>],
) -> Result<u64, String> {
    let depth = start.cube.depth;
    let mut ends: Vec<u64> = vec![];
    let mut live = None;
    for list in orders {
        let end = site.accept_list(start.root, depth, list)?;
        tally.ended(list.len(), site.is_documented());
        tally.same += u64::from(!ends.is_empty());
        let asked = Asked {
            cells: list.iter().map(|entry| entry.cell).collect(),
            is_expanded: true,
        };
        let (roots, cube) = ([start.root, end], start.cube.with(list));
        let first = ends.first().copied();
        judge::compare(site, tally, roots, &asked, &cube, first, live)
            .map_err(|words| format!("{list:?}: {words}"))?;
        live = Some(site.live());
        ends.push(end);
    }
    for (list, end) in orders.iter().zip(&ends) {
        if !list.is_empty() {
            site.release(*end)?;
        }
    }
    ends.pop().ok_or("no order".to_string())
}

/// The end of these orders has to be this id.
fn end_is(end: u64, expected: u64) -> Told {
    if end == expected {
        return Ok(());
    }
    Err(format!("the end is {end:#x}, not {expected:#x}"))
}

fn short_lists(tally: &mut Tally) -> Told {
    let mut site = Site::documented(40);
    for depth in 0..=DEEPEST {
        let corner = [(1 << depth) - 1; 3];
        let made = Start::made(&mut site, depth, &[entry(corner, 9)])?;
        for start in [&Start::empty(depth), &made] {
            let end = one_end(&mut site, tally, start, &[vec![], vec![]])?;
            end_is(end, start.root)?;
            for cell in [[0; 3], corner] {
                let one = vec![entry(cell, 5)];
                one_end(&mut site, tally, start, &[one.clone(), one.clone()])?;
                // The same cell before with another value, and with the same.
                let before = [4, 5, 0].map(|value| vec![entry(cell, value), entry(cell, 5)]);
                one_end(&mut site, tally, start, &[&[one][..], &before[..]].concat())?;
            }
        }
        site.release(made.root)?;
    }
    site.nothing_live()
}

fn nothing_changed(tally: &mut Tally) -> Told {
    let mut site = Site::documented(40);
    let ground = [entry([0, 0, 0], 5), entry([3, 1, 2], 7)];
    let start = Start::made(&mut site, 2, &ground)?;
    let same = [ground[0], ground[1], entry([1, 0, 0], 0)];
    let end = one_end(&mut site, tally, &start, &every_order(&same))?;
    end_is(end, start.root)?;
    site.release(start.root)?;
    // EMPTY stays EMPTY.
    let nothing = vec![entry([0; 3], 0), entry([1; 3], 0)];
    let orders = every_order(&nothing);
    let end = one_end(&mut site, tally, &Start::empty(1), &orders)?;
    end_is(end, EMPTY)?;
    site.nothing_live()
}

fn to_empty(tally: &mut Tally) -> Told {
    let mut site = Site::documented(60);
    for depth in 1..=DEEPEST {
        let corner = (1 << depth) - 1;
        let ground = [
            entry([0; 3], 5),
            entry([corner, 0, 0], 6),
            entry([corner; 3], 5),
        ];
        let start = Start::made(&mut site, depth, &ground)?;
        let cleared = ground.map(|Entry { cell, .. }| entry(cell, 0));
        let orders = every_order(&cleared);
        end_is(one_end(&mut site, tally, &start, &orders)?, EMPTY)?;
        site.release(start.root)?;
        // From EMPTY, all that was entered is cleared again.
        let orders: Vec<_> = (every_order(&cleared).into_iter())
            .map(|order| [ground.to_vec(), order].concat())
            .collect();
        end_is(
            one_end(&mut site, tally, &Start::empty(depth), &orders)?,
            EMPTY,
        )?;
    }
    // A leaf that stands for eight cells, cleared cell by cell.
    let leaf = Start {
        root: site.accept(Call::Leaf(5))?,
        cube: Cube::uniform(1, 5),
    };
    let cleared: Vec<_> = cells(1).map(|cell| entry(cell, 0)).collect();
    let backward: Vec<_> = cleared.iter().rev().copied().collect();
    end_is(
        one_end(&mut site, tally, &leaf, &[cleared, backward])?,
        EMPTY,
    )?;
    site.release(leaf.root)?;
    site.nothing_live()
}

fn back_to_start(tally: &mut Tally) -> Told {
    let mut site = Site::documented(60);
    let ground = [entry([0; 3], 5), entry([2, 3, 1], 7)];
    let start = Start::made(&mut site, 2, &ground)?;
    let away = [entry([0; 3], 6), entry([2, 3, 1], 0)];
    let orders: Vec<_> = (every_order(&away).into_iter())
        .flat_map(|away| {
            let back = every_order(&ground).into_iter();
            back.map(move |back| [away.clone(), back].concat())
        })
        .collect();
    end_is(one_end(&mut site, tally, &start, &orders)?, start.root)?;
    site.release(start.root)?;
    // A leaf that stands for a cube of depth 2: one cell changed and changed back.
    let leaf = Start {
        root: site.accept(Call::Leaf(5))?,
        cube: Cube::uniform(2, 5),
    };
    let orders: Vec<_> = (cells(2))
        .map(|cell| vec![entry(cell, 6), entry(cell, 5)])
        .collect();
    end_is(one_end(&mut site, tally, &leaf, &orders)?, leaf.root)?;
    site.release(leaf.root)?;
    site.nothing_live()
}

fn three_cells(tally: &mut Tally) -> Told {
    let mut site = Site::documented(80);
    for depth in 1..=DEEPEST {
        let last = (1 << depth) - 1;
        let ground = [entry([last, 0, 0], 5), entry([0, last, 0], 6)];
        let made = Start::made(&mut site, depth, &ground)?;
        for values in [[5, 5, 5], [5, 6, 7], [0, 5, 0]] {
            // Far from each other; in one block of eight; changing what the start has.
            for three in [
                [[0; 3], [last; 3], [0, 0, last]],
                [[0; 3], [1, 0, 0], [1; 3]],
                [[last, 0, 0], [0, last, 0], [0; 3]],
            ] {
                let list = [0, 1, 2].map(|at| entry(three[at], values[at]));
                for start in [&Start::empty(depth), &made] {
                    one_end(&mut site, tally, start, &every_order(&list))?;
                }
            }
        }
        site.release(made.root)?;
    }
    site.nothing_live()
}

fn two_crews(tally: &mut Tally) -> Told {
    let mut site = Site::documented(80);
    // Each crew enters one of its cells twice; the cells of both fill one block.
    let one = [
        entry([0, 0, 0], 7),
        entry([1, 0, 0], 5),
        entry([0, 0, 0], 5),
        entry([0, 1, 0], 5),
    ];
    let other = [
        entry([1, 1, 0], 5),
        entry([0, 0, 1], 0),
        entry([1, 0, 1], 5),
        entry([0, 0, 1], 5),
    ];
    for depth in 1..=DEEPEST {
        let orders = every_interleaving(&one, &other);
        let ground = [entry([0, 1, 1], 5), entry([1, 1, 1], 5)];
        let made = Start::made(&mut site, depth, &ground)?;
        one_end(&mut site, tally, &Start::empty(depth), &orders)?;
        let end = one_end(&mut site, tally, &made, &orders)?;
        leaf_if(depth == 1, end)?;
        site.release(made.root)?;
    }
    site.nothing_live()
}

/// Every cell of a cube: all with one value, or each with its own.
fn whole_cube(depth: u32, is_of_one_value: bool) -> Vec<Entry> {
    (cells(depth).zip(1..))
        .map(|(cell, number)| entry(cell, if is_of_one_value { 5 } else { number }))
        .collect()
}

/// A whole cube of one value ends in that leaf, and no other does.
fn leaf_if(is_of_one_value: bool, end: u64) -> Told {
    match is_leaf(end) == is_of_one_value {
        true => Ok(()),
        false => Err(format!("the end is {end:#x}")),
    }
}

fn eight_cells(tally: &mut Tally) -> Told {
    for (capacity, is_of_one_value) in [(8, true), (24, false)] {
        let mut site = Site::fresh(capacity);
        let orders = every_order(&whole_cube(1, is_of_one_value));
        let end = one_end(&mut site, tally, &Start::empty(1), &orders)?;
        leaf_if(is_of_one_value, end)?;
        site.nothing_live()?;
    }
    Ok(())
}

fn whole_cubes(tally: &mut Tally) -> Told {
    let mut random = Random::new(7);
    for (capacity, is_of_one_value) in [(40, true), (200, false)] {
        let mut site = Site::fresh(capacity);
        let list = whole_cube(2, is_of_one_value);
        let made = Start::made(&mut site, 2, &[entry([1, 2, 3], 9)])?;
        let orders: Vec<_> = (0..ORDERS).map(|_| shuffled(&list, &mut random)).collect();
        for start in [&Start::empty(2), &made] {
            let end = one_end(&mut site, tally, start, &orders)?;
            leaf_if(is_of_one_value, end)?;
        }
        site.release(made.root)?;
        site.nothing_live()?;
    }
    Ok(())
}

/// An order that would be granted one hold more than there may be is refused at its last entry, and leaves the end as it is.
fn most_holds(tally: &mut Tally) -> Told {
    let mut site = Site::fresh(20);
    let list = [entry([0; 3], 5), entry([1; 3], 6)];
    let backward = [list[1], list[0]];
    let end = site.accept_list(EMPTY, 1, &list)?;
    while site.holds_of(end) < u64::from(MOST_HOLDS) - 1 {
        site.accept(Call::Hold(end))?;
    }
    end_is(site.accept_list(EMPTY, 1, &backward)?, end)?;
    tally.ended(list.len(), false);
    tally.ended(list.len(), false);
    tally.same += 1;
    for order in [list, backward] {
        site.expect_list(EMPTY, 1, &order, 10)?;
        site.same_holds(end)?;
    }
    site.is_cube(end, &Cube::uniform(1, 0).with(&list))?;
    while site.holds_of(end) > 0 {
        site.release(end)?;
    }
    site.nothing_live()
}
