//! Month-end envelopes of a ground model: the root of a month is kept under its name, digging goes on, and the old root reads as before. At the next
//! month's end the two are compared: the planner pays by the cells that have changed.
use fenpiling::{Arena, Cell, MAX_DEPTH, Metres, Reading, Refusal, Root};

const CLAY: u16 = 5;
const ROCK: u16 = 9;
/// Cells of 2^-2 metres.
const EDGE: u32 = 2;

/// A model as it stood at a month's end.
struct Envelope {
    name: &'static str,
    root: Root,
}

impl Envelope {
    fn show(&self) -> Result<(), Refusal> {
        let cube = self.root.expand(MAX_DEPTH)?;
        let count = |value| cube.iter().filter(|&&cell| cell == value).count();
        println!(
            "{:8} {}, holds {}, clay {}, rock {}",
            self.name,
            self.root,
            self.root.counts().holds,
            count(CLAY),
            count(ROCK)
        );
        Ok(())
    }

    /// Lists the cells in which this model differs from an earlier one.
    fn show_changes(&self, earlier: &Envelope) -> Result<(), Refusal> {
        let changes = earlier.root.changes(&self.root, MAX_DEPTH)?;
        println!(
            "{} cells have changed, {} pairs opened",
            changes.len(),
            changes.opened()
        );
        for change in changes {
            let Cell { x, y, z } = change.cell;
            println!("  ({x}, {y}, {z}): {}, now {}", change.before, change.after);
        }
        Ok(())
    }
}

fn main() -> Result<(), Refusal> {
    let arena = Arena::new(512)?;

    // October: a block of clay of 4 by 4 by 4 cells, with one cell of rock
    let mut model = arena.empty();
    for code in 0..64 {
        model = model.edit(MAX_DEPTH, Cell::from_path(code)?, CLAY)?;
    }
    let rock = Cell::new(1, 2, 3);
    model = model.edit(MAX_DEPTH, rock, ROCK)?;
    let october = Envelope {
        name: "October",
        root: model.clone(),
    };
    october.show()?;

    // November: the rock is dug out, and more is found
    model = model.edit(MAX_DEPTH, rock, 0)?;
    model = model.edit(MAX_DEPTH, Cell::new(40, 50, 60), ROCK)?;
    model = model.edit(MAX_DEPTH, Cell::new(41, 50, 60), ROCK)?;
    let november = Envelope {
        name: "November",
        root: model,
    };
    november.show()?;
    october.show()?;
    println!(
        "cell (1, 2, 3): {} in October, {} now",
        october.root.lookup(MAX_DEPTH, rock)?,
        november.root.lookup(MAX_DEPTH, rock)?
    );
    november.show_changes(&october)?;

    // A cell outside the cube is refused, and nothing changes
    if let Err(refusal) = november.root.edit(MAX_DEPTH, Cell::new(64, 0, 0), ROCK) {
        println!("cell (64, 0, 0): refusal {}, {refusal}", refusal.number());
    }

    // December: the instrument reads a seam of rock from x = 5 metres to 7.4, and every cell on its way is rock
    let seam = Reading::Bar {
        from: Metres::new(5.0, 3.1, 7.6),
        second_x: 7.4,
        value: ROCK,
    };
    let december = Envelope {
        name: "December",
        root: november.root.enter(&seam, MAX_DEPTH, EDGE)?,
    };
    december.show()?;
    println!(
        "{} nodes live, well formed: {}",
        arena.live(),
        arena.check()
    );

    // With its last root October goes, and its id is refused
    let id = october.root.id();
    drop(october);
    println!(
        "October dropped: {} nodes live, its id: {:?}",
        arena.live(),
        arena.hold(id)
    );
    drop((november, december));
    println!(
        "November and December dropped: {} nodes live, well formed: {}",
        arena.live(),
        arena.check()
    );
    Ok(())
}
