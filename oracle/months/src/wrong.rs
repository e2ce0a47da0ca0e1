//! Ways to misread document 02. Each has to be told from the right one by some of the pairs that are compared.
use reference::arena::Arena;
use reference::document01::EMPTY;
use reference::months::{Comparison, Differences, cell_of, is_branch};

/// A wrong reading: what it finds where document 02 finds `found`.
type Wrong = fn(&Arena, u64, u64, &Differences) -> Differences;

pub const WRONG: [(&str, Wrong); 9] = [
    ("opens two branches only", two_branches),
    ("opens a branch on the left only", left_branch),
    ("opens any two ids that differ", any_two),
    ("passes over equal stored values", equal_values),
    ("passes over equal cubes", equal_cubes),
    ("does not count the roots", without_roots),
    ("lists a block of cells once", blocks_once),
    ("lists in the order of an expansion", in_expansion_order),
    ("takes z for x in the path code", z_for_x),
];

/// Which of them answer otherwise than document 02 does.
pub fn told(arena: &Arena, left: u64, right: u64, found: &Differences) -> [bool; WRONG.len()] {
    WRONG.map(|(_, wrong)| wrong(arena, left, right, found) != *found)
}

/// The eight places of an id.
fn places(arena: &Arena, id: u64) -> [u64; 8] {
    if is_branch(id) {
        arena.node(id).children
    } else {
        [id; 8]
    }
}

/// The pairs opened, where a pair is opened by another rule.
fn opened(arena: &Arena, left: u64, right: u64, opens: &dyn Fn(u64, u64) -> bool) -> u64 {
    if !opens(left, right) {
        return 0;
    }
    if !is_branch(left) && !is_branch(right) {
        return 1;
    }
    let below = places(arena, left).into_iter().zip(places(arena, right));
    1 + below
        .map(|(left, right)| opened(arena, left, right, opens))
        .sum::<u64>()
}

fn with_opened(found: &Differences, opened: u64) -> Differences {
    Differences {
        opened,
        ..found.clone()
    }
}

fn two_branches(arena: &Arena, left: u64, right: u64, found: &Differences) -> Differences {
    let opens = |left, right| left != right && is_branch(left) && is_branch(right);
    with_opened(found, opened(arena, left, right, &opens))
}

fn left_branch(arena: &Arena, left: u64, right: u64, found: &Differences) -> Differences {
    let opens = |left, right| left != right && is_branch(left);
    with_opened(found, opened(arena, left, right, &opens))
}

fn any_two(arena: &Arena, left: u64, right: u64, found: &Differences) -> Differences {
    with_opened(
        found,
        opened(arena, left, right, &|left, right| left != right),
    )
}

fn equal_values(arena: &Arena, left: u64, right: u64, found: &Differences) -> Differences {
    let value = |id: u64| match id {
        EMPTY => 0,
        id => arena.node(id).value,
    };
    let opens = |left, right| value(left) != value(right) && (is_branch(left) || is_branch(right));
    with_opened(found, opened(arena, left, right, &opens))
}

fn equal_cubes(arena: &Arena, left: u64, right: u64, found: &Differences) -> Differences {
    let differ = |left, right| {
        let depth = arena.height(left).max(arena.height(right));
        let comparison = Comparison::new(arena, left, right, depth.into());
        let found = comparison.answer([usize::MAX; 3]);
        found.is_ok_and(|found| !found.cells.is_empty())
    };
    let opens = |left, right| (is_branch(left) || is_branch(right)) && differ(left, right);
    with_opened(found, opened(arena, left, right, &opens))
}

fn without_roots(_: &Arena, _: u64, _: u64, found: &Differences) -> Differences {
    with_opened(found, found.opened.saturating_sub(1))
}

fn blocks_once(_: &Arena, _: u64, _: u64, found: &Differences) -> Differences {
    let mut found = found.clone();
    (found.cells).dedup_by_key(|cell| (cell.code >> 3, cell.left, cell.right));
    found
}

fn in_expansion_order(_: &Arena, _: u64, _: u64, found: &Differences) -> Differences {
    let mut found = found.clone();
    found.cells.sort_by_key(|cell| {
        let [x, y, z] = cell_of(cell.code);
        [y, z, x]
    });
    found
}

fn z_for_x(_: &Arena, _: u64, _: u64, found: &Differences) -> Differences {
    let mut found = found.clone();
    for cell in &mut found.cells {
        let every_third = |at: u32| cell.code >> at & 0o111_111_111;
        cell.code = every_third(2) | every_third(1) << 1 | every_third(0) << 2;
    }
    found.cells.sort_by_key(|cell| cell.code);
    found
}
