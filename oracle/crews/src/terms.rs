//! What the terms of document 02 are for. Each is left out in a small case that is kept: two orders of one list end in different ids, or one of them is refused.
use crate::cube::{Cell, Cube, Entry};
use crate::lists::last_values;
use crate::site::{Site, Told, edit};
use arena::call::{Answered, Call};
use reference::arena::GENERATIONS;
use reference::document01::EMPTY;

type Case = fn() -> Told;

pub const KEPT: [(&str, Case); 9] = [
    (
        "the first end is released before the second order",
        end_released,
    ),
    (
        "the start is released before the second order",
        start_released,
    ),
    (
        "the start is released, and its id names other ground",
        start_renamed,
    ),
    ("a fresh arena is made between the orders", fresh_between),
    (
        "the start is not tidy, and a cell comes twice",
        untidy_start,
    ),
    ("the start is taller than the depth", tall_start),
    (
        "a passing root is released before the next is made",
        passing_early,
    ),
    ("a refused entry is passed over", passed_over),
    ("two orders of a list in which a cell comes twice", twice),
];

const A: Cell = [0, 0, 0];
const B: Cell = [1, 0, 0];
const C: Cell = [0, 1, 0];

fn entry(cell: Cell, value: u16) -> Entry {
    Entry { cell, value }
}

fn from_empty(list: &[Entry]) -> Cube {
    Cube::uniform(1, 0).with(list)
}

fn two_ids(one: u64, other: u64) -> Told {
    match one == other {
        true => Err(format!("both orders end in {one:#x}")),
        false => Ok(()),
    }
}

/// The fewest slots in which there is room for these lists: with an entry that changes nothing, of one value, and of two.
fn end_released() -> Told {
    for (slots, values) in [(3, [5, 0]), (4, [5, 5]), (5, [5, 7])] {
        let list = [entry(A, values[0]), entry(B, values[1])];
        let backward = [list[1], list[0]];
        Site::documented(slots - 1).expect_list(EMPTY, 1, &list, 11)?;
        let mut site = Site::documented(slots);
        let one = site.accept_list(EMPTY, 1, &list)?;
        site.is_cube(one, &from_empty(&list))?;
        // While it is held, the other order ends in it.
        let held = site.accept_list(EMPTY, 1, &backward)?;
        if held != one {
            return Err(format!("held, the ends are {one:#x} and {held:#x}"));
        }
        site.release(held)?;
        site.release(one)?;
        let other = site.accept_list(EMPTY, 1, &backward)?;
        site.is_cube(other, &from_empty(&list))?;
        two_ids(one, other)?;
    }
    Ok(())
}

fn start_released() -> Told {
    let list = [entry(B, 5), entry(C, 5)];
    let backward = [list[1], list[0]];
    let mut site = Site::documented(5);
    let start = site.accept_list(EMPTY, 1, &[entry(A, 5)])?;
    site.accept_list(start, 1, &list)?;
    site.release(start)?;
    site.expect_list(start, 1, &backward, 4).map(|_| ())
}

/// A leaf stands for the whole cube, goes, and comes again with another value after 32,766 recyclings of its slot.
fn start_renamed() -> Told {
    let list = [entry(A, 5), entry(B, 6)];
    let backward = [list[1], list[0]];
    let mut site = Site::fresh(8);
    let start = site.accept(Call::Leaf(5))?;
    let one = site.accept_list(start, 1, &list)?;
    let before = Cube::uniform(1, 5).with(&list);
    site.is_cube(one, &before)?;
    site.release(one)?;
    site.release(start)?;
    // The slot of the leaf was recycled once, and is on top of the freed ones.
    for _ in 1..GENERATIONS {
        let passing = site.accept(Call::Leaf(9))?;
        site.release(passing)?;
    }
    let renamed = site.accept(Call::Leaf(7))?;
    if renamed != start {
        return Err(format!("the leaf is {renamed:#x}, not {start:#x}"));
    }
    let other = site.accept_list(start, 1, &backward)?;
    match site.expand(other, 1)? == before {
        true => Err("both orders end in one cube".to_string()),
        false => Ok(()),
    }
}

/// The nodes of the second order are made from slot 1 on again, and in another order.
fn fresh_between() -> Told {
    let list = [entry(A, 5), entry(B, 7), entry(C, 5)];
    let other = [list[0], list[2], list[1]];
    let mut site = Site::fresh(5);
    let one = site.accept_list(EMPTY, 1, &list)?;
    site.is_cube(one, &from_empty(&list))?;
    site.begin_anew()?;
    let other = site.accept_list(EMPTY, 1, &other)?;
    site.is_cube(other, &from_empty(&list))?;
    two_ids(one, other)
}

/// A branch of eight times one leaf, interned by hand, at depth 1.
fn untidy_start() -> Told {
    let mut site = Site::documented(5);
    let untidy = eight_of(&mut site, 5)?.ok_or("no room")?;
    let list = [entry(A, 7), entry(A, 5)];
    let last = last_values(&list);
    let one = site.accept_list(untidy, 1, &list)?;
    let other = site.accept_list(untidy, 1, &last)?;
    site.is_cube(one, &Cube::uniform(1, 5))?;
    site.is_cube(other, &Cube::uniform(1, 5))?;
    two_ids(one, other)
}

fn tall_start() -> Told {
    let mut site = Site::documented(6);
    let start = site.accept_list(EMPTY, 2, &[entry([3, 0, 0], 5)])?;
    let list = [entry(A, 5), entry(B, 5)];
    site.expect_list(start, 1, &list, 8)?;
    let backward = [list[1], list[0]];
    site.expect_list(start, 1, &backward, 8).map(|_| ())
}

fn passing_early() -> Told {
    let mut site = Site::documented(3);
    let passing = site.accept(edit(EMPTY, 1, entry(A, 5)))?;
    site.release(passing)?;
    site.expect(edit(passing, 1, entry(B, 5)), 4).map(|_| ())
}

/// Three slots have room for one of two cells, whichever comes first.
fn passed_over() -> Told {
    let mut ends = vec![];
    for [first, second] in [[A, B], [B, A]] {
        let mut site = Site::documented(3);
        let root = site.accept(edit(EMPTY, 1, entry(first, 5)))?;
        site.expect(edit(root, 1, entry(second, 5)), 11)?;
        site.is_cube(root, &from_empty(&[entry(first, 5)]))?;
        ends.push(root);
    }
    two_ids(ends[0], ends[1])
}

fn twice() -> Told {
    let mut site = Site::documented(8);
    let list = [entry(A, 5), entry(A, 7)];
    let backward = [list[1], list[0]];
    let one = site.accept_list(EMPTY, 1, &list)?;
    let other = site.accept_list(EMPTY, 1, &backward)?;
    site.is_cube(one, &from_empty(&[list[1]]))?;
    site.is_cube(other, &from_empty(&[list[0]]))?;
    two_ids(one, other)
}

/// The branch of eight times one leaf; none if the arena is full.
pub fn eight_of(site: &mut Site, value: u16) -> Result<Option<u64>, String> {
    let leaf = match site.call(Call::Leaf(value))? {
        Answered { no: 0, id, .. } => id,
        _ => return Ok(None),
    };
    let answered = site.branch_of([leaf; 8])?;
    site.release(leaf)?;
    Ok((answered.no == 0).then_some(answered.id))
}
