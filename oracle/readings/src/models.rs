//! Models at random in one arena, of readings with other calls between: each is a root that is held, and beside it a plain array of numbers.
use crate::record::{PAUSE, any, bar, odd, shot, within};
use crate::sides::{Sides, Told};
use crate::tally::Tally;
use arena::call::{Answered, Call, Entry};
use arena::edit::Voxel;
use arena::lent::Guarded;
use reference::Random;
use reference::document01::{EMPTY, INVALID};
use reference::reading::DEEPEST;
use reference::survey::{self, FINEST};
use std::fmt;

/// How many cells all plain arrays of one run may have together.
const MOST_CELLS: usize = 1 << 20;
/// Cubes to this depth are read in full after each reading.
const ALWAYS_FULL: u32 = 3;

/// A held root, and the plain array of what its cells are.
#[derive(Clone)]
struct Model {
    root: u64,
    depth: u32,
    cube: Vec<u16>,
}

/// Cell (x,y,z) stands at y·4^d + z·2^d + x.
fn place(depth: u32, [x, y, z]: [i32; 3]) -> usize {
    ((y as usize) << (2 * depth)) + ((z as usize) << depth) + x as usize
}

/// What one run does.
pub struct Plan {
    pub capacity: usize,
    pub readings: u64,
    pub deepest: u32,
    pub seed: u64,
}

impl fmt::Display for Plan {
    fn fmt(&self, f: &mut fmt::Formatter<'_>) -> fmt::Result {
        write!(
            f,
            "capacity {}, depth to {}, seed {:#x}",
            self.capacity, self.deepest, self.seed
        )
    }
}

struct Models<'a> {
    sides: Sides<'a>,
    random: Random,
    models: Vec<Model>,
    values: Vec<u16>,
    deepest: u32,
    odd: Vec<u64>,
    /// The root released last; most often its node is gone.
    gone: u64,
    /// Refusals with 11 since the last reading that was accepted.
    stuck: u32,
}

/// Runs one plan to its end, and then releases every root: nothing is live then.
pub fn run(plan: &Plan, tally: &mut Tally) -> Told {
    let mut models = Models::new(plan, tally);
    let end = models.sides.tally.readings() + plan.readings;
    (|| {
        while models.sides.tally.readings() < end {
            models.step()?;
        }
        models.same_cubes()?;
        models.sides.same_everywhere()?;
        while !models.models.is_empty() {
            models.drop_model(0)?;
        }
        models.sides.same_everywhere()?;
        match models.sides.beside.document().live() {
            0 => Ok(()),
            live => Err(format!("{live} nodes are live that nobody holds")),
        }
    })()
    .map_err(|words: String| {
        let left = end.saturating_sub(models.sides.tally.readings());
        format!("{plan}, {left} readings before its end: {words}")
    })
}

impl<'a> Models<'a> {
    fn new(plan: &Plan, tally: &'a mut Tally) -> Self {
        let mut random = Random::new(plan.seed);
        let count = random.one_of(&[1, 2, 3, 5, 100]);
        Self {
            sides: Sides::fresh(plan.capacity, tally),
            values: (0..count)
                .map(|_| 1 + random.below(65_535) as u16)
                .collect(),
            random,
            models: vec![],
            deepest: plan.deepest,
            odd: odd(),
            gone: INVALID,
            stuck: 0,
        }
    }

    /// A reading, or one of the things that happen between.
    fn step(&mut self) -> Told {
        if self.models.is_empty() || self.random.once_in(30) {
            self.new_model()?;
        }
        let at = self.random.below(self.models.len());
        match self.random.below(100) {
            0..25 => self.read(at, false)?,
            25..60 => self.read(at, true)?,
            60..66 => self.pause(at)?,
            66..78 => self.odd_reading(at)?,
            78..88 => self.edit(at)?,
            88..92 => self.hold_and_release(at)?,
            92..96 => self.leaf()?,
            _ => self.drop_model(at)?,
        }
        if self.stuck > 4 && !self.models.is_empty() {
            self.stuck = 0;
            let at = self.random.below(self.models.len());
            self.drop_model(at)?;
        }
        Ok(())
    }

    fn value(&mut self) -> u16 {
        match self.random.below(4) {
            0 => 0,
            _ => self.random.one_of(&self.values),
        }
    }

    /// A model of EMPTY, or a root that is not tidy: a branch of eight times one leaf.
    fn new_model(&mut self) -> Told {
        let depth = self.random.below(1 + self.deepest as usize) as u32;
        self.make_room(depth)?;
        let mut model = Model {
            root: EMPTY,
            depth,
            cube: vec![0; 1 << (3 * depth)],
        };
        if depth > 0 && self.random.once_in(4) && self.sides.free() >= 2 {
            let value = self.random.one_of(&self.values);
            let mut leaf = EMPTY;
            for _ in 0..8 {
                leaf = self.sides.accept(Call::Leaf(value))?;
            }
            model.root = self.sides.accept(Call::Branch([leaf; 8]))?;
            model.cube.fill(value);
        }
        self.models.push(model);
        Ok(())
    }

    /// Drops models until one more of that depth has room.
    fn make_room(&mut self, depth: u32) -> Told {
        let cells = |models: &[Model]| models.iter().map(|model| model.cube.len()).sum::<usize>();
        while !self.models.is_empty() && cells(&self.models) + (1 << (3 * depth)) > MOST_CELLS {
            let at = self.random.below(self.models.len());
            self.drop_model(at)?;
        }
        Ok(())
    }

    fn drop_model(&mut self, at: usize) -> Told {
        let model = self.models.swap_remove(at);
        self.gone = model.root;
        self.sides.release(model.root)
    }

    /// A shot or a bar in a model, whose old root is released if it is accepted.
    fn read(&mut self, at: usize, is_bar: bool) -> Told {
        let depth = self.models[at].depth;
        let edge = self.random.below(1 + FINEST as usize) as u32;
        let side = 1 << depth;
        let [first, y, z] = [(); 3].map(|()| self.random.below(side) as i32);
        let last = match self.random.below(4) {
            0 => side as i32 - 1,
            1 => first,
            _ => first + self.random.below(side - first as usize) as i32,
        };
        let point = [first, y, z].map(|cell| within(cell, edge, &mut self.random));
        let value = self.value();
        let record = if is_bar {
            let second_x = within(last, edge, &mut self.random).max(point[0]);
            bar(point, second_x, value)
        } else {
            shot(point, value)
        };
        let last = if is_bar { last } else { first };
        let cells: Vec<[i32; 3]> = (first..=last).map(|x| [x, y, z]).collect();
        let answered = self.enter(at, edge, &record)?;
        self.go_on(at, answered, &cells, value)
    }

    /// Enters a record into a model, which stays as it is.
    fn enter(&mut self, at: usize, edge: u32, record: &[u8]) -> Result<Answered, String> {
        let (root, depth) = (self.models[at].root, self.models[at].depth);
        let answered = self.sides.enter(&Entry {
            root,
            depth,
            edge,
            record,
        })?;
        match answered.no {
            0 => self.stuck = 0,
            11 => self.stuck += 1,
            _ => {}
        }
        if answered.no != 0 {
            self.same_small_cubes()?;
        }
        Ok(answered)
    }

    /// The model with those cells set, if that was accepted; its old root is released before they are read or after.
    fn go_on(&mut self, at: usize, answered: Answered, cells: &[[i32; 3]], value: u16) -> Told {
        if answered.no != 0 {
            return Ok(());
        }
        let old = self.models[at].root;
        let is_old_first = self.random.once_in(2);
        if is_old_first {
            self.sides.release(old)?;
        }
        let model = &mut self.models[at];
        model.root = answered.id;
        for cell in cells {
            model.cube[place(model.depth, *cell)] = value;
        }
        self.same_cells(at, cells)?;
        if !is_old_first {
            self.sides.release(old)?;
        }
        self.gone = old;
        Ok(())
    }

    /// A second model with the same root, by a pause.
    fn pause(&mut self, at: usize) -> Told {
        let edge = self.random.below(1 + FINEST as usize) as u32;
        let mut copy = self.models[at].clone();
        let answered = self.enter(at, edge, &PAUSE)?;
        if answered.no != 0 {
            return Err(format!("a pause is refused with {}", answered.no));
        }
        copy.root = answered.id;
        self.make_room(copy.depth)?;
        self.models.push(copy);
        Ok(())
    }

    /// A record with odd numbers or damage, at an odd depth or edge, or of an odd root. If it is accepted, what document 02 says of its cells is seen to.
    fn odd_reading(&mut self, at: usize) -> Told {
        let depth = self.models[at].depth;
        let mut entry = Entry {
            root: self.models[at].root,
            depth,
            edge: self.random.below(1 + FINEST as usize) as u32,
            record: &[],
        };
        let numbers = [(); 4].map(|()| any(&self.odd, depth, entry.edge, &mut self.random));
        let [x, y, z, second_x] = numbers;
        let value = self.value();
        let mut record = match self.random.below(3) {
            0 => shot([x, y, z], value),
            _ => bar([x, y, z], second_x, value),
        };
        match self.random.below(10) {
            0 => entry.depth = self.random.one_of(&[0, 1, 6, 7, 8, 64, u32::MAX]),
            1 => entry.edge = self.random.one_of(&[7, 8, 64, 1 << 31, u32::MAX]),
            2 => entry.root = self.gone,
            3 => entry.root ^= 1 << self.random.below(64),
            4 | 5 => record[self.random.below(record.len())] ^= 1 << self.random.below(8),
            _ => {}
        }
        entry.record = &record;
        let answered = self.sides.enter(&entry)?;
        if answered.no != 0 {
            return self.same_small_cubes();
        }
        if (entry.root, entry.depth) != (self.models[at].root, depth) || entry.depth > DEEPEST {
            return self.sides.release(answered.id);
        }
        let reading = survey::parse(&record).map_err(|no| format!("{no}, and accepted"))?;
        let cells = reading.cells(depth, entry.edge);
        let (cells, value) = cells.map_err(|no| format!("{no}, and accepted"))?;
        self.go_on(at, answered, &cells, value)
    }

    /// A single edit.
    fn edit(&mut self, at: usize) -> Told {
        let depth = self.models[at].depth;
        let cell = [(); 3].map(|()| self.random.below(1 << depth) as i32);
        let value = self.value();
        let voxel = Voxel { depth, cell, value };
        let answered = self.sides.call(Call::Edit(self.models[at].root, voxel))?;
        self.go_on(at, answered, &[cell], value)
    }

    /// A reading of a root that has a second hold: it stays until that one is given back.
    fn hold_and_release(&mut self, at: usize) -> Told {
        let root = self.models[at].root;
        self.sides.accept(Call::Hold(root))?;
        self.read(at, true)?;
        self.sides.release(root)
    }

    /// A leaf as a model of depth 0.
    fn leaf(&mut self) -> Told {
        let value = self.random.one_of(&self.values);
        let answered = self.sides.call(Call::Leaf(value))?;
        if answered.no == 0 {
            self.models.push(Model {
                root: answered.id,
                depth: 0,
                cube: vec![value],
            });
        }
        Ok(())
    }

    /// The cells, and one cell anywhere; of a small model all.
    fn same_cells(&mut self, at: usize, cells: &[[i32; 3]]) -> Told {
        let depth = self.models[at].depth;
        if depth <= ALWAYS_FULL || self.random.once_in(100) {
            return self.same_cube(at);
        }
        let any = [(); 3].map(|()| self.random.below(1 << depth) as i32);
        for &cell in cells.iter().chain([&any]) {
            let model = &self.models[at];
            let expected = model.cube[place(depth, cell)];
            let looked = self.sides.beside.port.look(model.root, depth, cell);
            self.sides.tally.looked += 1;
            if (looked.no, looked.value) != (0, expected) {
                return Err(format!("cell {cell:?} is {looked:?}, not {expected}"));
            }
        }
        Ok(())
    }

    /// Expands a model into a buffer between guard words, and compares every cell.
    fn same_cube(&mut self, at: usize) -> Told {
        let model = &self.models[at];
        let mut read = Guarded::new(&vec![0xA5A5; model.cube.len()], 0xC35A);
        let port = &mut self.sides.beside.port;
        let no = port.expand(model.root, model.depth, read.inside_mut());
        self.sides.tally.cubes += 1;
        if no == 0 && read.is_intact() && read.inside() == model.cube {
            return Ok(());
        }
        Err(format!(
            "the cube of {:#x} at depth {}, expansion {no}, is not the plain array",
            model.root, model.depth
        ))
    }

    /// Every held root reads as it should, in full.
    fn same_cubes(&mut self) -> Told {
        (0..self.models.len()).try_for_each(|at| self.same_cube(at))
    }

    /// Every small model, and now and then every one, reads as before a refusal.
    fn same_small_cubes(&mut self) -> Told {
        let is_whole = self.random.once_in(50);
        for at in 0..self.models.len() {
            if is_whole || self.models[at].depth < ALWAYS_FULL {
                self.same_cube(at)?;
            }
        }
        Ok(())
    }
}
