//! Lists of changes beside plain arrays and single edits, in other orders, with cells that come twice, and refused at every place.
mod numbers;

use fenpiling::{Arena, Cell, Change, Counts, ListRefused, MAX_DEPTH, Refusal, Root};
use numbers::Numbers;
use std::cell::RefCell;
use std::error::Error;
use std::panic::{AssertUnwindSafe, catch_unwind};

/// Changes of cells with low path codes, so that they meet, with values that make and dig out uniform blocks.
fn random_list(numbers: &mut Numbers, cells: u64, length: u64) -> Vec<(Cell, u16)> {
    let mut change = || {
        let cell = Cell::from_path(numbers.below(cells) as u32);
        (cell.expect("a low code"), numbers.below(3) as u16)
    };
    (0..length).map(|_| change()).collect()
}

/// Of each cell the last change.
fn last_values(list: &[(Cell, u16)]) -> Vec<(Cell, u16)> {
    let comes_again = |at: usize| list[at + 1..].iter().any(|later| later.0 == list[at].0);
    let places = (0..list.len()).filter(|&at| !comes_again(at));
    places.map(|at| list[at]).collect()
}

/// The list in another order.
fn shuffled(numbers: &mut Numbers, list: &[(Cell, u16)]) -> Vec<(Cell, u16)> {
    let mut list = list.to_vec();
    for at in 1..list.len() {
        list.swap(at, numbers.below(at as u64 + 1) as usize);
    }
    list
}

/// The list entered by single edits.
fn one_by_one(model: &Root, depth: u32, list: &[(Cell, u16)]) -> Result<Root, ListRefused> {
    let mut model = model.clone();
    for (at, &(cell, value)) in list.iter().enumerate() {
        let edited = model.edit(depth, cell, value);
        model = edited.map_err(|refusal| ListRefused { refusal, at })?;
    }
    Ok(model)
}

/// What can be seen of a root whose height is at most 3.
fn seen(root: &Root) -> (String, Counts, Vec<u16>) {
    let cube = root.expand(3).expect("depth 3");
    (root.to_string(), root.counts(), cube)
}

/// Is the list refused so, and is everything that can be seen as before?
fn refuses(roots: &[Root], at: usize, depth: u32, list: &[(Cell, u16)], expected: ListRefused) {
    let arena = roots[at].arena();
    let (live, before): (_, Vec<_>) = (arena.live(), roots.iter().map(seen).collect());
    let entered = roots[at].enter_all(depth, list.iter().copied());
    assert_eq!(entered, Err(expected), "{list:?}");
    assert_eq!(arena.live(), live);
    assert_eq!(roots.iter().map(seen).collect::<Vec<_>>(), before);
    assert!(arena.check());
}

#[test]
fn random_lists_beside_plain_arrays_and_single_edits() -> Result<(), Refusal> {
    let mut numbers = Numbers(5);
    for depth in 0..=4 {
        let cells = 1 << (3 * depth);
        let arena = Arena::new(16_384)?;
        let mut models = vec![(arena.empty(), vec![0; cells as usize])];
        for _ in 0..200 {
            let (model, plain) = &models[numbers.below(models.len() as u64) as usize];
            let mut plain = plain.clone();
            let length = numbers.below(24);
            let list = random_list(&mut numbers, cells, length);
            for &(Cell { x, y, z }, value) in &list {
                plain[((y << (2 * depth)) + (z << depth) + x) as usize] = value;
            }

            // one new hold, and nothing else
            let edited = one_by_one(model, depth, &list)?;
            let (live, holds) = (arena.live(), edited.counts().holds);
            let entered = model.enter_all(depth, list)?;
            assert_eq!(entered, edited);
            let granted = u64::from(entered != arena.empty());
            assert_eq!(entered.counts().holds, holds + granted);
            assert_eq!(arena.live(), live);
            assert_eq!(entered.expand(depth)?, plain);
            models.push((entered, plain));
        }
        for (model, plain) in &models {
            assert_eq!(model.expand(depth)?, *plain);
        }
        assert!(arena.check());
        drop(models);
        assert_eq!(arena.live(), 0);
        assert!(arena.check());
    }
    Ok(())
}

#[test]
fn any_two_orders_end_in_one_root() -> Result<(), Refusal> {
    let mut numbers = Numbers(6);
    let (mut orders, mut again) = (0, 0);
    for depth in 1..=MAX_DEPTH {
        let arena = Arena::new(4096)?;
        for turn in 0..300 {
            let cells = if turn % 2 == 0 { 8 } else { 1 << (3 * depth) };
            let ground = match turn % 3 {
                0 => arena.empty(),
                _ => arena
                    .empty()
                    .enter_all(depth, random_list(&mut numbers, cells, 20))?,
            };
            let length = 1 + numbers.below(20);
            let list = random_list(&mut numbers, cells, length);
            let lasts = last_values(&list);

            // the first end is kept, and each of the others goes before the next is made
            let first = ground.enter_all(depth, list.iter().copied())?;
            for _ in 0..4 {
                let other = shuffled(&mut numbers, &lasts);
                orders += usize::from(other != lasts);
                assert_eq!(ground.enter_all(depth, other)?, first);
            }
            again += list.len() - lasts.len();
            for &(cell, value) in &lasts {
                assert_eq!(first.lookup(depth, cell)?, value);
            }

            // and the other way about: the last values first
            drop(first);
            let first = ground.enter_all(depth, lasts)?;
            assert_eq!(ground.enter_all(depth, list)?, first);
        }
        assert!(arena.check());
        assert_eq!(arena.live(), 0);
    }
    assert!(orders > 5000 && again > 5000, "{orders}, {again}");
    Ok(())
}

#[test]
fn the_ids_can_differ_where_the_first_end_has_gone() -> Result<(), Refusal> {
    let arena = Arena::new(64)?;
    let ground = arena.empty().edit(3, Cell::new(7, 7, 7), 4)?;
    let list = [(Cell::new(1, 2, 3), 9), (Cell::new(4, 5, 6), 5)];
    let backward = list.into_iter().rev();
    let first = ground.enter_all(3, list)?;
    assert_eq!(ground.enter_all(3, backward.clone())?, first);

    let (id, cube) = (first.id(), first.expand(3)?);
    drop(first);
    let second = ground.enter_all(3, backward)?;
    assert_ne!(second.id(), id);
    assert_eq!(arena.hold(id), Err(Refusal::NotLive));
    assert_eq!(second.expand(3)?, cube);
    // now this one is the first
    assert_eq!(ground.enter_all(3, list)?, second);
    Ok(())
}

#[test]
fn an_untidy_model_can_end_in_two_roots() -> Result<(), Refusal> {
    let arena = Arena::new(16)?;
    let clay = arena.intern_leaf(5)?;
    let untidy = arena.intern_branch([(); 8].map(|()| clay.clone()))?;
    let cell = Cell::new(0, 0, 0);
    let whole = untidy.enter_all(1, [(cell, 9), (cell, 5)])?;
    let lasts = untidy.enter_all(1, [(cell, 5)])?;
    assert_eq!((&whole, &lasts), (&clay, &untidy));
    assert_eq!(whole.expand(1)?, lasts.expand(1)?);
    Ok(())
}

#[test]
fn an_empty_list_is_one_more_root() -> Result<(), Refusal> {
    let arena = Arena::new(16)?;
    let nothing: [(Cell, u16); 0] = [];
    // of a root that is taller than the depth too, and at any depth
    let model = arena.empty().edit(3, Cell::new(0, 0, 0), 5)?;
    for depth in [0, 3, MAX_DEPTH, 7, u32::MAX] {
        assert_eq!(arena.empty().enter_all(depth, nothing)?, arena.empty());
        let again = model.enter_all(depth, nothing)?;
        assert_eq!(again, model);
        assert_eq!(model.counts().holds, 2);
    }
    assert_eq!(model.counts().holds, 1);
    Ok(())
}

#[test]
fn room_for_one_node() -> Result<(), Refusal> {
    let arena = Arena::new(2)?;
    let empty = arena.empty();
    let origin = Cell::new(0, 0, 0);
    let values = |values: &[u16]| -> Vec<_> { values.iter().map(|&v| (origin, v)).collect() };
    for depth in 0..=MAX_DEPTH {
        assert_eq!(empty.enter_all(depth, values(&[0; 9]))?, empty);
    }
    assert_eq!(empty.enter_all(0, values(&[5, 5, 0, 7, 0]))?, empty);
    assert_eq!(arena.live(), 0);
    let clay = empty.enter_all(0, values(&[7, 0, 5, 5]))?;
    assert_eq!(clay, arena.intern_leaf(5)?);
    // a leaf stays as it is at every depth
    for depth in 0..=MAX_DEPTH {
        let same = clay.enter_all(depth, values(&[5; 9]))?;
        assert_eq!((same.counts().holds, &same), (2, &clay));
    }
    assert_eq!(clay.enter_all(0, values(&[0]))?, empty);
    // the next leaf is made while the passing one is there
    for list in [&[5, 7][..], &[5, 7, 0]] {
        let refused = Err(ListRefused {
            refusal: Refusal::Full,
            at: 1,
        });
        assert_eq!(empty.enter_all(0, values(list)), refused);
    }
    assert_eq!((clay.counts().holds, arena.live()), (1, 1));
    drop(clay);
    assert_eq!(arena.live(), 0);
    Ok(())
}

#[test]
fn a_whole_cube_is_filled_and_dug_out_in_any_order() -> Result<(), Refusal> {
    let mut numbers = Numbers(10);
    let arena = Arena::new(64)?;
    let cell = |code| Cell::from_path(code).expect("a low code");
    let whole: Vec<_> = (0..64).map(|code| (cell(code), 3)).collect();
    for _ in 0..20 {
        let full = arena.empty().enter_all(2, shuffled(&mut numbers, &whole))?;
        assert_eq!(full, arena.intern_leaf(3)?);
        let dug = shuffled(&mut numbers, &whole).into_iter();
        let end = full.enter_all(2, dug.map(|(cell, _)| (cell, 0)))?;
        assert_eq!((end, arena.live()), (arena.empty(), 1));
    }
    Ok(())
}

#[test]
fn other_models_come_and_go_between_the_changes() -> Result<(), Refusal> {
    let mut numbers = Numbers(11);
    for depth in 1..=MAX_DEPTH {
        let arena = Arena::new(4096)?;
        let mut others = Vec::new();
        let cells = 1 << (3 * depth);
        for turn in 0..100 {
            let ground = random_list(&mut numbers, cells, turn % 8);
            let ground = arena.empty().enter_all(depth, ground)?;
            let list = last_values(&random_list(&mut numbers, cells, 12));
            let first = ground.enter_all(depth, list.iter().copied())?;
            let other_order = shuffled(&mut numbers, &list);
            let beside = other_order.into_iter().inspect(|_| {
                let own = random_list(&mut numbers, 512, 6);
                let own = arena.empty().enter_all(3, own);
                others.push(own.expect("room"));
                if others.len() > 8 {
                    drop(others.swap_remove(numbers.below(8) as usize));
                }
            });
            assert_eq!(ground.enter_all(depth, beside)?, first);
        }
        assert_eq!(others.len(), 8);
        drop(others);
        assert!(arena.check());
        assert_eq!(arena.live(), 0);
    }
    Ok(())
}

#[test]
fn a_refusal_at_every_place() -> Result<(), Refusal> {
    let mut numbers = Numbers(7);
    let arena = Arena::new(512)?;
    let mut roots = vec![arena.empty(), arena.intern_leaf(1)?, arena.intern_leaf(2)?];
    for _ in 0..4 {
        let list = random_list(&mut numbers, 512, 12);
        roots.push(arena.empty().enter_all(3, list)?);
    }
    let outside = [(8, 0, 0), (0, -1, 0), (0, 0, i32::MAX), (i32::MIN, 9, 9)];
    for turn in 0..40 {
        let from = turn % roots.len();
        let list = random_list(&mut numbers, 512, 9);
        for at in 0..list.len() {
            for (x, y, z) in outside {
                let mut list = list.clone();
                list[at].0 = Cell::new(x, y, z);
                let refusal = Refusal::Position;
                refuses(&roots, from, 3, &list, ListRefused { refusal, at });
                // the first refused change decides
                list[8].0 = Cell::new(-1, -1, -1);
                refuses(&roots, from, 3, &list, ListRefused { refusal, at });
            }
        }
    }

    // the depth, and a root that is taller, are the first change's, and a position comes between the two
    let tall = roots.len();
    roots.push(arena.empty().edit(3, Cell::new(7, 7, 7), 3)?);
    let (inside, outside) = ((Cell::new(0, 0, 0), 1), (Cell::new(8, 8, 8), 1));
    let first = |refusal| ListRefused { refusal, at: 0 };
    for depth in [7, u32::MAX] {
        for list in [[inside, inside], [outside, inside]] {
            refuses(&roots, 0, depth, &list, first(Refusal::Depth));
            refuses(&roots, tall, depth, &list, first(Refusal::Depth));
        }
    }
    for depth in 0..3 {
        let (position, height) = (first(Refusal::Position), first(Refusal::Tall));
        refuses(&roots, tall, depth, &[outside, inside], position);
        refuses(&roots, tall, depth, &[inside, outside], height);
    }
    drop(roots);
    assert_eq!(arena.live(), 0);
    Ok(())
}

#[test]
fn a_full_arena_at_every_place() -> Result<(), Refusal> {
    const LENGTH: usize = 6;
    let mut numbers = Numbers(8);
    let (mut refused_at, mut accepted, mut by_order) = ([0; LENGTH], 0, 0);
    for capacity in 2..48 {
        let arena = Arena::new(capacity)?;
        let mut roots = vec![arena.empty()];
        roots.extend(arena.intern_leaf(1));
        for code in [0, 511] {
            roots.extend(arena.empty().edit(3, Cell::from_path(code)?, 2));
        }
        for turn in 0..120 {
            let from = turn % roots.len();
            let list = last_values(&random_list(&mut numbers, 512, LENGTH as u64));
            let verdicts = [list.clone(), shuffled(&mut numbers, &list)].map(|list| {
                // what single edits come to, and nothing of them stays
                let edited = one_by_one(&roots[from], 3, &list).map(|root| seen(&root).2);
                match edited {
                    Err(refused) => {
                        assert_eq!(refused.refusal, Refusal::Full);
                        refuses(&roots, from, 3, &list, refused);
                        refused_at[refused.at] += 1;
                        false
                    }
                    Ok(cube) => {
                        let entered = roots[from].enter_all(3, list);
                        assert_eq!(entered.map(|root| seen(&root).2), Ok(cube));
                        accepted += 1;
                        true
                    }
                }
            });
            by_order += usize::from(verdicts[0] != verdicts[1]);
        }
        drop(roots);
        assert_eq!(arena.live(), 0);
        // the state goes on: what there is room for is made
        let made = arena.empty().enter_all(3, [(Cell::new(0, 0, 0), 6)]);
        assert_eq!(made.is_ok(), capacity > 4);
        assert!(arena.check());
    }
    assert!(refused_at.iter().all(|&times| times > 20), "{refused_at:?}");
    assert!(accepted > 500 && by_order > 20, "{accepted}, {by_order}");
    Ok(())
}

#[test]
fn a_million_holds_on_the_first_root() -> Result<(), Refusal> {
    let arena = Arena::new(16)?;
    let cell = Cell::new(0, 0, 0);
    let model = arena.empty().edit(1, cell, 5)?;
    let mut roots: Vec<Root> = (1..1_000_000).map(|_| model.clone()).collect();
    let many = |at| {
        Err(ListRefused {
            refusal: Refusal::ManyHolds,
            at,
        })
    };
    let nothing: [(Cell, u16); 0] = [];
    assert_eq!(model.enter_all(1, nothing), many(0));
    // a list that leads elsewhere takes no hold on it, and one that comes by takes one for a while
    assert_eq!(model.enter_all(1, [(cell, 6)])?.lookup(1, cell), Ok(6));
    assert_eq!(model.enter_all(1, [(cell, 5), (cell, 6)]), many(0));
    assert_eq!(model.enter_all(1, [(cell, 6), (cell, 5)]), many(1));
    assert_eq!(
        model.enter_all(1, [(cell, 6), (cell, 7), (cell, 5)]),
        many(2)
    );
    assert_eq!((model.counts().holds, arena.live()), (1_000_000, 2));
    roots.pop();
    assert_eq!(model.enter_all(1, [(cell, 6), (cell, 5)])?, model);
    assert_eq!(model.enter_all(1, [(cell, 5)])?, model);
    assert_eq!(model.enter_all(1, nothing)?, model);
    // a passing root goes after the next is made: twice the same root has two holds for a while
    assert_eq!(model.enter_all(1, [(cell, 5), (cell, 5)]), many(1));
    assert_eq!(model.counts().holds, 999_999);
    assert!(arena.check());
    Ok(())
}

#[test]
fn what_has_changed_leads_from_one_month_to_the_next() -> Result<(), Refusal> {
    let mut numbers = Numbers(9);
    let mut changed = 0;
    for depth in 1..=MAX_DEPTH {
        let arena = Arena::new(4096)?;
        for _ in 0..200 {
            let october = random_list(&mut numbers, 64.min(1 << (3 * depth)), 30);
            let october = arena.empty().enter_all(depth, october)?;
            let list = random_list(&mut numbers, 1 << (3 * depth), 12);
            let november = october.enter_all(depth, list)?;
            let on = october.changes(&november, depth)?;
            changed += on.len();
            assert_eq!(october.enter_all(depth, on.clone())?, november);
            assert_eq!(october.enter_all(depth, on.clone().rev())?, november);
            let list = shuffled(&mut numbers, &on.map(Change::into).collect::<Vec<_>>());
            assert_eq!(october.enter_all(depth, list)?, november);
            let back = november.changes(&october, depth)?;
            assert_eq!(november.enter_all(depth, back)?, october);
        }
        assert_eq!(arena.live(), 0);
    }
    assert!(changed > 5000, "{changed}");
    Ok(())
}

#[test]
fn a_list_is_asked_for_a_change_at_a_time() -> Result<(), Refusal> {
    // room for one root on the way and the next
    let arena = Arena::new(5)?;
    let cell = Cell::new(1, 1, 1);
    let live = RefCell::new(Vec::new());
    let lazy = (1..100).map(|value| {
        // the list may look at the arena, and make a model of its own there
        live.borrow_mut().push(arena.live());
        let own = arena.empty().edit(1, cell, value);
        (cell, own.and_then(|own| own.lookup(1, cell)).unwrap_or(0))
    });
    let entered = arena.empty().enter_all(1, lazy)?;
    assert_eq!(entered.lookup(1, cell)?, 99);
    assert_eq!(entered.counts().holds, 1);
    // one passing root, of a leaf and a branch
    let one_passing: Vec<usize> = [0].into_iter().chain([2; 98]).collect();
    assert_eq!(live.take(), one_passing);
    assert_eq!(arena.live(), 2);

    // what comes after a refused change is not asked for, and a list without an end ends there
    let mut asked = 0;
    let endless = std::iter::repeat_with(|| {
        asked += 1;
        assert!(asked < 9, "asked on and on");
        (Cell::new(0, 0, asked), 3)
    });
    let refused = entered.enter_all(1, endless).unwrap_err();
    assert_eq!((refused.refusal, refused.at), (Refusal::Position, 1));
    assert_eq!(asked, 2);
    assert_eq!(arena.live(), 2);
    Ok(())
}

#[test]
fn a_list_that_panics_leaves_no_hold() -> Result<(), Refusal> {
    let arena = Arena::new(64)?;
    let roots = [
        arena.empty(),
        arena.intern_leaf(4)?,
        arena.empty().edit(3, Cell::new(7, 7, 7), 4)?,
    ];
    let before = roots.each_ref().map(seen);
    let live = arena.live();
    for root in &roots {
        for at in 0..6 {
            let broken = (0..6).map(|x| {
                assert_ne!(x, at, "a list that breaks off");
                (Cell::new(x, 1, 2), 4)
            });
            let entered = catch_unwind(AssertUnwindSafe(|| root.enter_all(3, broken)));
            assert!(entered.is_err());
            assert_eq!(arena.live(), live);
            assert_eq!(roots.each_ref().map(seen), before);
            assert!(arena.check());
        }
    }
    drop(roots);
    assert_eq!(arena.live(), 0);
    Ok(())
}

/// What a crew hands in.
struct Finding<'a> {
    borehole: &'a (i32, i32),
    level: i32,
    clay: bool,
}

impl From<Finding<'_>> for (Cell, u16) {
    fn from(finding: Finding<'_>) -> (Cell, u16) {
        let &(x, z) = finding.borehole;
        (Cell::new(x, finding.level, z), 5 * u16::from(finding.clay))
    }
}

#[test]
fn lists_of_many_kinds() -> Result<(), Refusal> {
    let arena = Arena::new(512)?;
    let (one, other) = (Cell::new(3, 8, 4), Cell::new(3, 9, 4));
    let ground = arena.empty().edit(6, one, 9)?;
    let list = [(one, 0), (other, 5)];
    let model = ground.enter_all(6, list)?;

    let borehole = (3, 4);
    let finding = |(level, clay)| Finding {
        borehole: &borehole,
        level,
        clay,
    };
    let findings = [(8, false), (9, true)].map(finding);
    assert_eq!(ground.enter_all(6, findings)?, model);
    assert_eq!(ground.enter_all(6, list.to_vec())?, model);
    assert_eq!(ground.enter_all(6, list.iter().copied())?, model);
    // in two parts, from one iterator
    let mut rest = list.into_iter();
    let part = ground.enter_all(6, rest.by_ref().take(1))?;
    assert_eq!(part.enter_all(6, &mut rest)?, model);
    assert_eq!(rest.next(), None);
    drop(part);
    let cells = [one, other];
    let values = |&cell: &Cell| (cell, if cell == one { 0 } else { 5 });
    assert_eq!(ground.enter_all(6, cells.iter().map(values))?, model);
    // the value before a change is not looked at
    let changes = list.map(|(cell, after)| Change {
        cell,
        before: 77,
        after,
    });
    assert_eq!(ground.enter_all(6, changes)?, model);
    assert_eq!(ground.enter_all(6, None::<Change>)?, ground);
    assert_eq!(model.counts().holds, 1);
    Ok(())
}

#[test]
fn a_refused_list_says_why_and_where() -> Result<(), Box<dyn Error>> {
    let arena = Arena::new(64)?;
    let list = [1, 2, 3, 64].map(|x| (Cell::new(x, 0, 0), 5));
    let enter = || arena.empty().enter_all(6, list);
    let refused = enter().unwrap_err();
    let copy = refused;
    assert_eq!(copy, refused);
    assert_eq!(
        refused.to_string(),
        "change 3 of the list: the place is outside the cube, or the path code too great"
    );
    let source = refused.source().and_then(|source| source.downcast_ref());
    assert_eq!(source, Some(&Refusal::Position));
    assert_eq!(Refusal::from(refused), Refusal::Position);

    // where a refusal is passed on, with its place or without
    let passed_on = || -> Result<Root, Refusal> { Ok(enter()?) };
    assert_eq!(passed_on(), Err(Refusal::Position));
    let passed_on = || -> Result<Root, Box<dyn Error>> { Ok(enter()?) };
    let boxed = passed_on().unwrap_err();
    assert_eq!(boxed.downcast_ref(), Some(&refused));
    Ok(())
}
