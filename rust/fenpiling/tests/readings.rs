//! Readings in metres beside plain arrays and single edits, bars that are refused on their way, and the refusals in their order.
mod numbers;

use fenpiling::{Arena, Cell, Counts, MAX_DEPTH, MAX_EDGE, Metres, Reading, Refusal, Root};
use numbers::Numbers;

fn shot(x: f64, y: f64, z: f64, value: u16) -> Reading {
    let at = Metres::new(x, y, z);
    Reading::Shot { at, value }
}

fn bar(x: f64, second_x: f64, y: f64, z: f64, value: u16) -> Reading {
    Reading::Bar {
        from: Metres::new(x, y, z),
        second_x,
        value,
    }
}

/// A number in metres that lies in the cell: at its edge, or somewhere above it.
fn within(cell: u64, edge: u32, numbers: &mut Numbers) -> f64 {
    let part = match numbers.below(3) {
        0 => 0.0,
        1 => 1.0 - f64::EPSILON * 64.0,
        _ => numbers.below(1 << 20) as f64 / f64::from(1 << 20),
    };
    (cell as f64 + part) / f64::from(1 << edge)
}

#[test]
fn readings_read_as_a_plain_cube() -> Result<(), Refusal> {
    let mut numbers = Numbers(3);
    for depth in 0..=4 {
        let side = 1 << depth;
        let arena = Arena::new(8192)?;
        let mut model = arena.empty();
        let mut plain = vec![0; 1 << (3 * depth)];
        for _ in 0..300 {
            let edge = numbers.below(1 + u64::from(MAX_EDGE)) as u32;
            let [first, y, z] = [(); 3].map(|()| numbers.below(side));
            let last = first + numbers.below(side - first);
            let value = numbers.below(3) as u16;
            let mut metres = |cell| within(cell, edge, &mut numbers);
            let (x, y_metres, z_metres) = (metres(first), metres(y), metres(z));
            let (reading, last) = match numbers.below(5) {
                0 => (Reading::Pause, None),
                1 | 2 => (shot(x, y_metres, z_metres, value), Some(first)),
                _ => {
                    let second_x = within(last, edge, &mut numbers).max(x);
                    (bar(x, second_x, y_metres, z_metres, value), Some(last))
                }
            };
            for cell in last.map_or(0..0, |last| first..last + 1) {
                plain[((y << (2 * depth)) + (z << depth) + cell) as usize] = value;
            }
            model = model.enter(&reading, depth, edge)?;
            assert_eq!(model.expand(depth)?, plain, "{reading:?}");
        }
        assert!(arena.check());
        drop(model);
        assert_eq!(arena.live(), 0);
    }
    Ok(())
}

#[test]
fn a_bar_is_the_edits_of_its_cells() -> Result<(), Refusal> {
    let arena = Arena::new(4096)?;
    let ground = arena.empty().edit(MAX_DEPTH, Cell::new(20, 3, 5), 2)?;
    let barred = ground.enter(&bar(2.3, 8.0, 0.75, 1.3, 7), MAX_DEPTH, 2)?;
    let cells = (9..=32).map(|x| Cell::new(x, 3, 5));
    let edited = cells
        .clone()
        .try_fold(ground.clone(), |model, cell| model.edit(MAX_DEPTH, cell, 7))?;
    assert_eq!(barred, edited);
    // only the answers are held: no passing root is left
    drop(edited);
    assert_eq!(barred.counts().holds, 1);
    let dug = barred.enter(&bar(2.3, 8.0, 0.75, 1.3, 0), MAX_DEPTH, 2)?;
    assert_eq!(dug.lookup(MAX_DEPTH, Cell::new(20, 3, 5))?, 0);
    assert_eq!(dug, arena.empty());
    drop(barred);
    assert_eq!(arena.live(), 7);

    // both ends in one cell, at one point, or plus and minus zero
    for (x, second_x) in [(1.0, 1.2), (1.0, 1.0), (0.0, -0.0), (-0.0, 0.0)] {
        let one = ground.enter(&bar(x, second_x, 0.5, 0.5, 4), MAX_DEPTH, 2)?;
        assert_eq!(one, ground.enter(&shot(x, 0.5, 0.5, 4), MAX_DEPTH, 2)?);
    }
    Ok(())
}

#[test]
fn a_pause_is_one_more_root() -> Result<(), Refusal> {
    let arena = Arena::new(16)?;
    // of a root that is taller than the depth too
    let model = arena.empty().edit(3, Cell::new(0, 0, 0), 5)?;
    let again = model.enter(&Reading::Pause, 0, 0)?;
    assert_eq!(model, again);
    assert_eq!(model.counts().holds, 2);
    let empty = arena.empty();
    assert_eq!(empty.enter(&Reading::Pause, 6, 6)?, empty);

    let roots: Vec<Root> = (2..1_000_000).map(|_| model.clone()).collect();
    let refused = model.enter(&Reading::Pause, 3, 0);
    assert_eq!(refused.err(), Some(Refusal::ManyHolds));
    let refused = model.enter(&shot(0.0, 0.0, 0.0, 5), 3, 0);
    assert_eq!(refused.err(), Some(Refusal::ManyHolds));
    drop(roots);
    assert!(model.enter(&Reading::Pause, 3, 0).is_ok());
    Ok(())
}

/// What can be seen of a root.
fn seen(root: &Root) -> (String, Counts, Vec<u16>) {
    let cube = root.expand(3).expect("depth 3");
    (root.to_string(), root.counts(), cube)
}

#[test]
fn a_refused_bar_leaves_every_root() -> Result<(), Refusal> {
    let mut on_the_way = 0;
    for capacity in 2..60 {
        let arena = Arena::new(capacity)?;
        let mut roots = vec![arena.empty()];
        for x in 0..4 {
            roots.extend(roots[0].edit(3, Cell::new(x, 1, 1), 4));
        }
        for at in 0..roots.len() {
            let before: Vec<_> = roots.iter().map(seen).collect();
            let live = arena.live();
            let entered = roots[at].enter(&bar(0.0, 7.5, 1.0, 1.0, 6), 3, 0);
            match entered {
                Ok(root) => assert_eq!(root.lookup(3, Cell::new(7, 1, 1)), Ok(6)),
                Err(refusal) => {
                    assert_eq!(refusal, Refusal::Full);
                    on_the_way += 1;
                }
            }
            assert_eq!(arena.live(), live);
            assert_eq!(roots.iter().map(seen).collect::<Vec<_>>(), before);
            assert!(arena.check());
        }
        drop(roots);
        assert_eq!(arena.live(), 0);
        // the state goes on: what there is room for is made
        let made = arena.empty().edit(3, Cell::new(0, 0, 0), 6);
        assert_eq!(made.is_ok(), capacity > 4);
        assert!(arena.check());
    }
    assert!(on_the_way > 40, "{on_the_way}");
    Ok(())
}

#[test]
fn a_passing_root_with_a_million_holds_refuses_the_bar() -> Result<(), Refusal> {
    let arena = Arena::new(64)?;
    let empty = arena.empty();
    // the bar's root after two of its four cells
    let passing = empty.enter(&bar(0.0, 1.0, 0.0, 0.0, 6), 2, 0)?;
    let many: Vec<Root> = (1..1_000_000).map(|_| passing.clone()).collect();
    let (live, before) = (arena.live(), seen(&passing));
    let refused = empty.enter(&bar(0.0, 3.0, 0.0, 0.0, 6), 2, 0);
    assert_eq!(refused.err(), Some(Refusal::ManyHolds));
    assert_eq!((arena.live(), seen(&passing)), (live, before));
    assert!(arena.check());
    drop(many);
    let whole = empty.enter(&bar(0.0, 3.0, 0.0, 0.0, 6), 2, 0)?;
    assert_eq!(whole.lookup(2, Cell::new(3, 0, 0))?, 6);
    Ok(())
}

#[test]
fn refusals_in_their_order() -> Result<(), Refusal> {
    const NAN: f64 = f64::NAN;
    const INF: f64 = f64::INFINITY;
    let arena = Arena::new(8)?;
    let tall = arena.empty().edit(6, Cell::new(0, 0, 0), 1)?;
    let refusal = |reading: Reading, depth, edge| tall.enter(&reading, depth, edge).err();
    for (reading, depth, edge, expected) in [
        (bar(1.0, 0.5, NAN, 9e9, 5), 7, 0, Refusal::Depth),
        (bar(1.0, 0.5, NAN, 9e9, 5), 6, 7, Refusal::Depth),
        (Reading::Pause, 7, 0, Refusal::Depth),
        (Reading::Pause, 0, u32::MAX, Refusal::Depth),
        (bar(1.0, 0.5, NAN, 9e9, 5), 5, 0, Refusal::Record),
        (bar(1.0, -INF, 0.0, 9e9, 5), 5, 0, Refusal::Record),
        (bar(INF, 1.0, 0.0, 9e9, 5), 5, 0, Refusal::Record),
        (bar(NAN, 1.0, 0.0, 9e9, 5), 5, 0, Refusal::NotFinite),
        (bar(1.0, NAN, 0.0, 9e9, 5), 5, 0, Refusal::NotFinite),
        (bar(1.0, INF, 0.0, 9e9, 5), 5, 0, Refusal::NotFinite),
        (shot(1.0, -INF, 0.0, 5), 5, 0, Refusal::NotFinite),
        (shot(1.0, 0.0, 32.0, 5), 5, 0, Refusal::Position),
        (bar(31.0, 32.0, 0.0, 0.0, 5), 5, 0, Refusal::Position),
        (bar(-0.1, 3.0, 0.0, 0.0, 5), 5, 0, Refusal::Position),
        (shot(31.0, 0.0, 0.0, 5), 5, 0, Refusal::Tall),
        (shot(1.0, 0.0, 0.0, 5), 6, 0, Refusal::Full),
        (bar(1.0, 2.0, 0.0, 0.0, 5), 6, 0, Refusal::Full),
    ] {
        assert_eq!(
            refusal(reading, depth, edge),
            Some(expected),
            "{reading:?} at {depth}, {edge}"
        );
    }
    assert!(arena.check());
    Ok(())
}

#[test]
fn the_edges_of_cells() -> Result<(), Refusal> {
    let arena = Arena::new(64)?;
    let least = f64::from_bits(1);
    let below_one = 1.0 - f64::EPSILON / 2.0;
    let model = arena
        .empty()
        .enter(&shot(least, -0.0, below_one, 5), MAX_DEPTH, 6)?;
    assert_eq!(model.lookup(MAX_DEPTH, Cell::new(0, 0, 63))?, 5);
    for outside in [-least, 1.0, f64::MAX, f64::MIN] {
        let refused = model.enter(&shot(0.0, outside, 0.0, 5), MAX_DEPTH, 6);
        assert_eq!(refused, Err(Refusal::Position));
    }
    Ok(())
}

#[test]
fn records_are_read_as_they_are_written() {
    let readings = [
        Reading::Pause,
        shot(-0.0, f64::MAX, f64::from_bits(1), 65_535),
        bar(-2.5, 1e-300, 3.0, 4.0, 0),
    ];
    for (kind, reading) in (0..).zip(readings) {
        let record = reading.to_bytes();
        assert_eq!(record[0], kind);
        assert_eq!(Reading::from_bytes(&record), Ok(reading));
        for length in 0..Reading::LENGTH {
            let cut = Reading::from_bytes(&record[..length]);
            assert_eq!(cut, Err(Refusal::Record));
        }
        let long = [&record[..], &[0]].concat();
        assert_eq!(Reading::from_bytes(&long), Err(Refusal::Record));
        for spare in [1, 2, 3, 6, 7] {
            let mut record = record;
            record[spare] = 128;
            assert_eq!(Reading::from_bytes(&record), Err(Refusal::Record));
        }
    }
    // numbers that the kind does not use, minus zero and NaN among them; a pause's value; a kind that is none
    for (kind, from) in [(0, 8), (1, 32)] {
        for at in from..Reading::LENGTH {
            let mut record = [0; Reading::LENGTH];
            (record[0], record[at]) = (kind, 128);
            assert_eq!(Reading::from_bytes(&record), Err(Refusal::Record));
        }
    }
    for (at, byte) in [(0, 3), (0, 255), (4, 1), (5, 1)] {
        let mut record = [0; Reading::LENGTH];
        record[at] = byte;
        assert_eq!(Reading::from_bytes(&record), Err(Refusal::Record));
    }
}
