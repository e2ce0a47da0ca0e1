//! Models beside plain arrays, the ownership of holds, and the refusals.
mod numbers;

use fenpiling::{Arena, Cell, Counts, Id, MAX_DEPTH, Refusal, Root};
use numbers::Numbers;

fn eight(root: &Root) -> [Root; 8] {
    [(); 8].map(|()| root.clone())
}

#[test]
fn a_model_reads_as_a_plain_cube() -> Result<(), Refusal> {
    let mut numbers = Numbers(1);
    for depth in 0..=3 {
        let side = 1 << depth;
        let arena = Arena::new(4096)?;
        let mut model = arena.empty();
        let mut plain = vec![0; 1 << (3 * depth)];
        let mut kept = Vec::new();
        for turn in 0..400 {
            let [x, y, z] = [(); 3].map(|()| numbers.below(side) as usize);
            let value = numbers.below(3) as u16;
            let cell = Cell::new(x as i32, y as i32, z as i32);
            plain[(y << (2 * depth)) + (z << depth) + x] = value;
            model = model.edit(depth, cell, value)?;
            assert_eq!(model.lookup(depth, cell)?, value);
            assert_eq!(model.expand(depth)?, plain);
            if turn % 20 == 0 {
                kept.push((model.clone(), plain.clone()));
            }
        }
        for (model, plain) in &kept {
            assert_eq!(model.expand(depth)?, *plain);
        }
        assert!(arena.check());
        drop((model, kept));
        assert_eq!(arena.live(), 0);
        assert!(arena.check());
    }
    Ok(())
}

#[test]
fn the_order_of_edits_does_not_matter() -> Result<(), Refusal> {
    let mut numbers = Numbers(2);
    let arena = Arena::new(4096)?;
    let cells: Vec<Cell> = (0..40)
        .map(|_| Cell::from_path(numbers.below(1 << 18) as u32))
        .collect::<Result<_, _>>()?;
    let edit = |model: Root, &cell: &Cell| model.edit(MAX_DEPTH, cell, 1 + cell.x as u16 % 3);
    let forward = cells.iter().try_fold(arena.empty(), edit)?;
    let backward = cells.iter().rev().try_fold(arena.empty(), edit)?;
    assert_eq!(forward, backward);
    assert_eq!(forward.id(), backward.id());
    Ok(())
}

#[test]
fn holds_are_counted_by_roots() -> Result<(), Refusal> {
    let arena = Arena::new(16)?;
    let leaf = arena.intern_leaf(7)?;
    let branch = arena.intern_branch(eight(&leaf))?;
    assert_eq!(
        leaf.counts(),
        Counts {
            holds: 1,
            places: 8
        }
    );
    let again = arena.intern_branch(eight(&leaf))?;
    assert_eq!(branch, again);
    assert_eq!(
        branch.counts(),
        Counts {
            holds: 2,
            places: 0
        }
    );
    let id = leaf.id();
    drop((leaf, branch));
    assert_eq!(
        arena.counts(id),
        Ok(Counts {
            holds: 0,
            places: 8
        })
    );
    drop(again);
    assert_eq!(arena.counts(id), Err(Refusal::NotLive));
    assert_eq!(
        arena.counts(Id::EMPTY),
        Ok(Counts {
            holds: 0,
            places: 0
        })
    );
    assert_eq!(arena.live(), 0);
    Ok(())
}

#[test]
fn a_root_outlives_its_arena_and_keeps_the_store() -> Result<(), Refusal> {
    let root = Arena::new(16)?.empty().edit(1, Cell::new(1, 1, 1), 3)?;
    assert_eq!(root.lookup(1, Cell::new(1, 1, 1))?, 3);
    assert!(root.arena().check());
    Ok(())
}

#[test]
fn a_root_of_another_arena_is_refused() -> Result<(), Refusal> {
    let (ours, theirs) = (Arena::new(16)?, Arena::new(16)?);
    let (mine, other) = (ours.intern_leaf(7)?, theirs.intern_leaf(7)?);
    assert_eq!(mine.id(), other.id());
    assert_ne!(mine, other);
    let mut children = eight(&mine);
    children[3] = other.clone();
    let refused = ours.intern_branch(children).unwrap_err();
    assert_eq!(refused.refusal, Refusal::NotLive);
    assert_eq!((mine.counts().holds, other.counts().holds), (8, 2));
    drop(refused);
    assert_eq!((mine.counts().holds, other.counts().holds), (1, 1));

    // EMPTY is EMPTY everywhere
    let mut children = eight(&theirs.empty());
    children[0] = mine;
    assert!(ours.intern_branch(children).is_ok());
    assert!(ours.check() && theirs.check());
    Ok(())
}

#[test]
fn every_refusal_that_can_be_met() -> Result<(), Refusal> {
    let cell = Cell::new(0, 0, 0);
    for capacity in [0, 1, 65_537, usize::MAX] {
        assert_eq!(Arena::new(capacity).err(), Some(Refusal::Size));
    }
    let arena = Arena::new(8)?;
    let empty = arena.empty();
    assert_eq!(empty.lookup(7, cell), Err(Refusal::Depth));
    assert_eq!(empty.edit(7, cell, 1).err(), Some(Refusal::Depth));
    assert_eq!(empty.expand(7), Err(Refusal::Depth));
    assert_eq!(empty.expand(u32::MAX), Err(Refusal::Depth));
    for outside in [Cell::new(2, 0, 0), Cell::new(0, -1, 0)] {
        assert_eq!(empty.lookup(1, outside), Err(Refusal::Position));
        assert_eq!(empty.edit(1, outside, 1).err(), Some(Refusal::Position));
    }
    for dead in [Id::INVALID, Id::from_raw(1), Id::new_leaf(1, 0)?] {
        assert_eq!(arena.hold(dead).err(), Some(Refusal::NotLive));
        assert_eq!(arena.counts(dead), Err(Refusal::NotLive));
    }
    assert_eq!(arena.intern_leaf(0).err(), Some(Refusal::ZeroLeaf));
    let refused = arena.intern_branch(eight(&empty)).unwrap_err();
    assert_eq!(refused.refusal, Refusal::AllEmpty);
    assert_eq!(empty.expand_into(1, &mut [0; 7]), Err(Refusal::Cube));
    assert_eq!(Id::new_leaf(1, 0x7FFF), Err(Refusal::Generation));
    assert_eq!(Id::new_branch(1, 0x7FFF, 1, 1), Err(Refusal::Generation));

    let mut tallest = arena.intern_leaf(1)?;
    for _ in 0..MAX_DEPTH {
        let mut children = eight(&empty);
        children[0] = tallest;
        tallest = arena.intern_branch(children)?;
    }
    let mut children = eight(&empty);
    children[0] = tallest.clone();
    let refused = arena.intern_branch(children).unwrap_err();
    assert_eq!(refused.refusal, Refusal::Tall);
    assert_eq!(tallest.edit(5, cell, 2).err(), Some(Refusal::Tall));

    // the arena is full: a hit is answered, a miss refused
    assert_eq!(arena.free(), 0);
    assert!(arena.intern_leaf(1).is_ok());
    assert_eq!(arena.intern_leaf(2).err(), Some(Refusal::Full));
    assert_eq!(tallest.edit(6, cell, 2).err(), Some(Refusal::Full));
    assert_eq!(tallest.edit(6, cell, 0)?, empty);
    assert!(arena.check());
    Ok(())
}

#[test]
fn a_million_roots_of_one_node_and_one_more() -> Result<(), Refusal> {
    let arena = Arena::new(2)?;
    let leaf = arena.intern_leaf(1)?;
    let mut more: Vec<Root> = (1..1_000_000).map(|_| leaf.clone()).collect();
    assert_eq!(leaf.counts().holds, 1_000_000);
    assert_eq!(leaf.try_clone().err(), Some(Refusal::ManyHolds));
    assert_eq!(arena.intern_leaf(1).err(), Some(Refusal::ManyHolds));
    assert!(std::panic::catch_unwind(std::panic::AssertUnwindSafe(|| leaf.clone())).is_err());
    more.pop();
    assert!(leaf.try_clone().is_ok());
    Ok(())
}

#[test]
fn refusals_have_their_numbers() {
    let all = [
        Refusal::Size,
        Refusal::Depth,
        Refusal::Position,
        Refusal::NotLive,
        Refusal::FewHolds,
        Refusal::ZeroLeaf,
        Refusal::AllEmpty,
        Refusal::Tall,
        Refusal::Cube,
        Refusal::ManyHolds,
        Refusal::Full,
        Refusal::Generation,
        Refusal::Record,
        Refusal::NotFinite,
        Refusal::ShortList,
    ];
    for (refusal, number) in all.into_iter().zip(1..) {
        assert_eq!(refusal.number(), number);
    }
}

#[test]
fn ids_have_their_fields() -> Result<(), Refusal> {
    let id = Id::new_branch(2, 0x7FFE, 0x0F, 0x81)?;
    assert_eq!((id.index(), id.generation()), (2, 0x7FFE));
    assert_eq!((id.types(), id.mask()), (0x0F, 0x81));
    assert!(id.has_child(0) && id.has_child(7) && !id.has_child(1) && !id.has_child(8));
    assert!(id.is_branch() && !id.is_leaf() && id.is_valid() && !id.is_empty());
    assert!(Id::INVALID.is_invalid() && Id::EMPTY.is_empty());
    assert_eq!(Id::from_raw(id.raw()), id);
    assert_eq!(
        format!("{id:?}"),
        "Id(B, i: 00000002, g: 7FFE, m: 81, t: 0F)"
    );
    Ok(())
}
