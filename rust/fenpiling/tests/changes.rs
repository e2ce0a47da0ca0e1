//! Comparisons beside the expansions of both models, their iterator, and the refusals.
mod numbers;

use fenpiling::{Arena, Cell, Change, MAX_DEPTH, Refusal, Root};
use numbers::Numbers;

/// The cells in which the expansions differ, in rising path code.
fn expanded(october: &Root, november: &Root, depth: u32) -> Result<Vec<Change>, Refusal> {
    let (before, after) = (october.expand(depth)?, november.expand(depth)?);
    let mut changes = Vec::new();
    for code in 0..1 << (3 * depth) {
        let cell = Cell::from_path(code)?;
        let place = ((cell.y << (2 * depth)) + (cell.z << depth) + cell.x) as usize;
        let (before, after) = (before[place], after[place]);
        if before != after {
            changes.push(Change {
                cell,
                before,
                after,
            });
        }
    }
    Ok(changes)
}

/// Are the changes those of the expansions, in both directions, with as many pairs opened? Answers how many.
fn compare(october: &Root, november: &Root, depth: u32) -> Result<usize, Refusal> {
    let (on, back) = (
        october.changes(november, depth)?,
        november.changes(october, depth)?,
    );
    let expected = expanded(october, november, depth)?;
    assert_eq!(on.opened(), back.opened());
    assert_eq!(on.collect::<Vec<_>>(), expected);
    let exchanged = expected.iter().map(|change| Change {
        before: change.after,
        after: change.before,
        ..*change
    });
    assert!(back.eq(exchanged));
    Ok(expected.len())
}

/// The model with the value in the first cells by path code.
fn filled(model: &Root, depth: u32, cells: u32, value: u16) -> Result<Root, Refusal> {
    (0..cells).try_fold(model.clone(), |model, code| {
        model.edit(depth, Cell::from_path(code)?, value)
    })
}

/// The branch of eight children of two kinds: `odd` where the sum of the place's coordinates is odd.
fn checkered(even: &Root, odd: &Root) -> Result<Root, Refusal> {
    let place = |child: u32| {
        if child.count_ones() % 2 == 1 {
            odd
        } else {
            even
        }
    };
    let children = [0, 1, 2, 3, 4, 5, 6, 7].map(|child| place(child).clone());
    Ok(even.arena().intern_branch(children)?)
}

#[test]
fn random_models_beside_their_expansions() -> Result<(), Refusal> {
    let mut numbers = Numbers(4);
    let (mut pairs, mut changed) = (0, 0);
    for depth in 0..=4 {
        let arena = Arena::new(8192)?;
        let side = 1 << depth;
        let mut edited = |mut model: Root, most| {
            let values = 1 + numbers.below(3);
            for _ in 0..numbers.below(most) {
                let [x, y, z] = [(); 3].map(|()| numbers.below(side) as i32);
                let value = numbers.below(1 + values) as u16;
                model = model.edit(depth, Cell::new(x, y, z), value)?;
            }
            Ok::<_, Refusal>(model)
        };
        for turn in 0..if depth < 4 { 1200 } else { 200 } {
            let october = edited(arena.empty(), 24)?;
            let from = if turn % 3 == 0 {
                arena.empty()
            } else {
                october.clone()
            };
            let november = edited(from, 12)?;
            let count = compare(&october, &november, depth)?;
            // a pair of models made by edits is opened only on the way to a change
            let opened = october.changes(&november, depth)?.opened();
            assert!(opened as usize <= depth as usize * count);
            assert_eq!(count == 0, october == november);
            pairs += 1;
            changed += count;
        }
        assert!(arena.check());
    }
    assert!(pairs == 5000 && changed > 10_000, "{pairs}, {changed}");
    Ok(())
}

#[test]
fn nothing_has_changed() -> Result<(), Refusal> {
    let arena = Arena::new(512)?;
    let october = arena.empty().edit(MAX_DEPTH, Cell::new(9, 8, 7), 6)?;
    let same = october.edit(MAX_DEPTH, Cell::new(9, 8, 7), 6)?;
    for model in [&arena.empty(), &october, &arena.intern_leaf(3)?] {
        let changes = model.changes(model, MAX_DEPTH)?;
        assert_eq!((changes.len(), changes.opened()), (0, 0));
    }
    assert_eq!(october.changes(&same, MAX_DEPTH)?.next(), None);
    for depth in 0..=MAX_DEPTH {
        let changes = arena.empty().changes(&arena.empty(), depth)?;
        assert_eq!((changes.len(), changes.opened()), (0, 0));
    }
    Ok(())
}

#[test]
fn a_uniform_block_is_listed_cell_by_cell_unopened() -> Result<(), Refusal> {
    let arena = Arena::new(512)?;
    let (clay, rock) = (arena.intern_leaf(5)?, arena.intern_leaf(9)?);
    for depth in 0..=MAX_DEPTH {
        for (october, november) in [(&arena.empty(), &clay), (&clay, &rock)] {
            assert_eq!(compare(october, november, depth)?, 1 << (3 * depth));
            assert_eq!(october.changes(november, depth)?.opened(), 0);
        }
    }
    // a block of 8 by 8 by 8 cells, with a cell of rock: the blocks beside that one on its way are no pairs to open
    let october = filled(&arena.empty(), MAX_DEPTH, 512, 5)?;
    let november = october.edit(MAX_DEPTH, Cell::new(1, 2, 3), 9)?;
    assert_eq!(compare(&arena.empty(), &october, MAX_DEPTH)?, 512);
    assert_eq!(arena.empty().changes(&october, MAX_DEPTH)?.opened(), 3);
    assert_eq!(compare(&october, &november, MAX_DEPTH)?, 1);
    assert_eq!(october.changes(&november, MAX_DEPTH)?.opened(), 6);
    Ok(())
}

#[test]
fn every_cell_has_changed() -> Result<(), Refusal> {
    let arena = Arena::new(512)?;
    let (empty, rock) = (arena.empty(), arena.intern_leaf(9)?);
    let mut board = checkered(&rock, &empty)?;
    let mut inverse = checkered(&empty, &rock)?;
    // every pair above the cells
    let mut opened = 1;
    for depth in 1..=MAX_DEPTH {
        assert_eq!(compare(&board, &inverse, depth)?, 1 << (3 * depth));
        assert_eq!(board.changes(&inverse, depth)?.opened(), opened);
        assert_eq!(compare(&board, &empty, depth)?, 1 << (3 * depth - 1));
        assert_eq!(board.changes(&empty, depth)?.opened(), opened);
        if depth < MAX_DEPTH {
            board = checkered(&board, &board)?;
            inverse = checkered(&inverse, &inverse)?;
            opened = 1 + 8 * opened;
        }
    }
    Ok(())
}

#[test]
fn the_list_becomes_as_long_as_it_has_to() -> Result<(), Refusal> {
    let arena = Arena::new(4096)?;
    let october = arena.empty().edit(MAX_DEPTH, Cell::new(63, 63, 63), 5)?;
    let mut november = october.clone();
    for cells in [511, 512, 513, 4095, 4096, 4097, 32_768, 32_769] {
        november = filled(&november, MAX_DEPTH, cells, 9)?;
        assert_eq!(compare(&october, &november, MAX_DEPTH)?, cells as usize);
    }
    Ok(())
}

#[test]
fn equal_cells_under_different_ids_are_opened_and_not_listed() -> Result<(), Refusal> {
    let arena = Arena::new(16)?;
    let clay = arena.intern_leaf(5)?;
    let eight = checkered(&clay, &clay)?;
    for depth in 1..=MAX_DEPTH {
        let changes = clay.changes(&eight, depth)?;
        assert_eq!((changes.len(), changes.opened()), (0, 1));
    }
    Ok(())
}

#[test]
fn changes_are_an_iterator_of_known_length() -> Result<(), Refusal> {
    let arena = Arena::new(64)?;
    let october = arena.empty();
    let november = filled(&october, 2, 3, 7)?;
    let change = |code| {
        let cell = Cell::from_path(code)?;
        let (before, after) = (0, 7);
        Ok::<_, Refusal>(Change {
            cell,
            before,
            after,
        })
    };
    let mut changes = october.changes(&november, 2)?;
    let all = changes.clone();
    assert_eq!(changes.len(), 3);
    assert_eq!(changes.next_back(), Some(change(2)?));
    assert_eq!((changes.len(), changes.size_hint()), (2, (2, Some(2))));
    assert_eq!(changes.next(), Some(change(0)?));
    assert_eq!(changes.next(), Some(change(1)?));
    assert_eq!((changes.next(), changes.next_back()), (None, None));
    assert_eq!(changes.opened(), 2);
    // they are there without the models too
    drop((october, november));
    let reversed: Vec<Change> = all.clone().rev().collect();
    assert_eq!(reversed, [change(2)?, change(1)?, change(0)?]);
    assert!(format!("{all:?}").contains("after: 7"));
    Ok(())
}

#[test]
fn refusals_in_their_order() -> Result<(), Refusal> {
    let (ours, theirs) = (Arena::new(64)?, Arena::new(64)?);
    let tall = ours.empty().edit(3, Cell::new(1, 2, 3), 4)?;
    let flat = ours.intern_leaf(4)?;
    let foreign = theirs.empty().edit(3, Cell::new(1, 2, 3), 4)?;
    // the same node's id in both arenas
    assert_eq!(tall.id(), foreign.id());
    let refusal = |october: &Root, november: &Root, depth| october.changes(november, depth).err();
    for other in [&tall, &flat, &foreign] {
        for depth in [7, 8, u32::MAX] {
            assert_eq!(refusal(&tall, other, depth), Some(Refusal::Depth));
            assert_eq!(refusal(other, &tall, depth), Some(Refusal::Depth));
        }
    }
    for depth in 0..=MAX_DEPTH {
        assert_eq!(refusal(&tall, &foreign, depth), Some(Refusal::NotLive));
        assert_eq!(refusal(&foreign, &tall, depth), Some(Refusal::NotLive));
    }
    for other in [&tall, &flat, &ours.empty(), &theirs.empty()] {
        for depth in 0..3 {
            assert_eq!(refusal(&tall, other, depth), Some(Refusal::Tall));
            assert_eq!(refusal(other, &tall, depth), Some(Refusal::Tall));
        }
        assert_eq!(refusal(&tall, other, 3), None);
    }

    // EMPTY is EMPTY everywhere
    assert_eq!(compare(&theirs.empty(), &tall, 3)?, 1);
    assert_eq!(compare(&ours.empty(), &theirs.empty(), 3)?, 0);

    // nothing is held by a comparison
    assert_eq!((tall.counts().holds, flat.counts().holds), (1, 1));
    assert!(ours.check() && theirs.check());
    Ok(())
}
