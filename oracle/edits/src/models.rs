//! Models at random in one arena: each is a root that is held, and beside it a plain array of numbers.
use crate::tally::Tally;
use arena::beside::{Beside, Original};
use arena::call::{Answered, Call};
use arena::edit::Voxel;
use arena::lent::Guarded;
use reference::Random;
use reference::arena::TALLEST;
use reference::document01::{EMPTY, INVALID, child, index, is_leaf, new_leaf};
use std::fmt;

/// To this capacity every slot is compared after every call.
const ALWAYS_WHOLE: usize = 600;
/// How many ids of recycled nodes are remembered.
const REMEMBERED: usize = 64;
/// How many cells all plain arrays of one run may have together.
const MOST_CELLS: usize = 3 << 20;
/// Cubes to this depth are read in full after each edit.
const ALWAYS_FULL: u32 = 2;
/// All cubes are read in full after so many edits of models.
const FULL_AFTER: u32 = 500;
/// An arena of so many slots is filled on purpose, if one model can do it; smaller ones are full often enough.
const LARGE: usize = 2_000;

/// A held root, and the plain array of what its cells are.
#[derive(Clone)]
struct Model {
    root: u64,
    depth: u32,
    cube: Vec<u16>,
    is_tidy: bool,
}

impl Model {
    fn empty(depth: u32) -> Self {
        Self {
            root: EMPTY,
            depth,
            cube: vec![0; 1 << (3 * depth)],
            is_tidy: true,
        }
    }
}

/// Cell (x,y,z) stands at y·4^d + z·2^d + x.
fn place(depth: u32, [x, y, z]: [i32; 3]) -> usize {
    ((y as usize) << (2 * depth)) + ((z as usize) << depth) + x as usize
}

/// What one run does.
pub struct Plan {
    pub capacity: usize,
    pub edits: u64,
    pub deepest: u32,
    pub original: Original,
    pub seed: u64,
}

impl fmt::Display for Plan {
    fn fmt(&self, f: &mut fmt::Formatter<'_>) -> fmt::Result {
        write!(
            f,
            "capacity {}, depth to {}, seed {:#x}",
            self.capacity, self.deepest, self.seed
        )
    }
}

struct Models<'a> {
    beside: Beside,
    tally: &'a mut Tally,
    random: Random,
    models: Vec<Model>,
    values: Vec<u16>,
    deepest: u32,
    /// Ids of roots that were recycled.
    gone: Vec<u64>,
    /// The cell edited last; the next one is often near.
    last: [i32; 3],
    /// Edits until all cubes are read in full again.
    until_full: u32,
    /// Refusals with 11 since the last edit that was accepted.
    stuck: u32,
    read: Guarded<u16>,
}

type Told = Result<(), String>;

/// Runs one plan to its end, and then releases every root: nothing is live then.
pub fn run(plan: &Plan, tally: &mut Tally) -> Told {
    let mut models = Models::new(plan, tally);
    let end = models.tally.edits + plan.edits;
    let is_filled = plan.capacity >= LARGE && 1 << (3 * plan.deepest) > plan.capacity;
    (|| {
        if is_filled {
            models.fill_arena()?;
        }
        while models.tally.edits < end {
            if is_filled && models.random.once_in(plan.capacity) {
                models.fill_arena()?;
            }
            models.step()?;
        }
        models.same_cubes()?;
        models.same_everywhere()?;
        while !models.models.is_empty() {
            models.drop_model(0)?;
        }
        models.same_everywhere()?;
        match models.beside.document().live() {
            0 => Ok(()),
            live => Err(format!("{live} nodes are live that nobody holds")),
        }
    })()
    .map_err(|words| {
        let done = plan.edits - end.saturating_sub(models.tally.edits);
        format!("{plan}, after {done} edits: {words}")
    })
}

/// Shows on one run that the comparisons can fail: each of some changes to a word of the port's tables, and to a number of a plain array, has to be seen.
/// The answer is the number of changes.
pub fn see_changes(plan: &Plan, changes: u32) -> Result<u32, String> {
    let mut tally = Tally::default();
    let mut models = Models::new(plan, &mut tally);
    for _ in 0..plan.edits {
        (models.step()).map_err(|words| format!("{plan}: {words}"))?;
    }
    models.new_model()?;
    for change in 0..changes {
        let before = models.beside.port.clone();
        let bit: u16 = 1 << models.random.below(16);
        let tables = models.beside.port.tables();
        match change % 3 {
            0 => tables.kids[models.random.below(tables.kids.len())] ^= u64::from(bit),
            1 => tables.facts[models.random.below(tables.facts.len())] ^= u32::from(bit),
            _ => tables.find[models.random.below(tables.find.len())] ^= bit,
        }
        if models.same_everywhere().is_ok() {
            return Err(format!("change {change} of a table is not seen"));
        }
        models.beside.port = before;
        let at = models.random.below(models.models.len());
        let cell = models.random.below(models.models[at].cube.len());
        models.models[at].cube[cell] ^= bit;
        if models.same_cubes().is_ok() {
            return Err(format!("change {change} of a plain array is not seen"));
        }
        models.models[at].cube[cell] ^= bit;
    }
    models.same_cubes()?;
    models.same_everywhere()?;
    Ok(2 * changes)
}

/// The values of one run: few, so that nodes meet, or many.
fn choose_values(random: &mut Random) -> Vec<u16> {
    let count = random.one_of(&[1, 2, 2, 3, 5, 9, 200]);
    let any = |random: &mut Random| 1 + random.below(65_535) as u16;
    match random.below(3) {
        0 => (1..=count).collect(),
        1 => vec![1, 7, 8, 0x7FFF, 0x8000, 65_535],
        _ => (0..count).map(|_| any(random)).collect(),
    }
}

impl<'a> Models<'a> {
    fn new(plan: &Plan, tally: &'a mut Tally) -> Self {
        let mut random = Random::new(plan.seed);
        let values = if plan.capacity > 10_000 {
            (1..=65_535).collect()
        } else {
            choose_values(&mut random)
        };
        Self {
            beside: Beside::fresh(plan.capacity, plan.original).whole_to(ALWAYS_WHOLE),
            tally,
            random,
            models: vec![],
            values,
            deepest: plan.deepest,
            gone: vec![],
            last: [0; 3],
            until_full: FULL_AFTER,
            stuck: 0,
            read: Guarded::new(&[], 0),
        }
    }

    /// A call on all sides.
    fn call(&mut self, call: Call<u64>) -> Result<Answered, String> {
        self.tally.call(&mut self.beside, call)
    }

    /// Compares every slot, of all sides.
    fn same_everywhere(&mut self) -> Told {
        self.beside.same_everywhere(&mut self.tally.calls)
    }

    /// A refusal of a call that has to be accepted is an error.
    fn accept(&mut self, call: Call<u64>) -> Result<u64, String> {
        match self.call(call)? {
            Answered { no: 0, id, .. } => Ok(id),
            Answered { no, .. } => Err(format!("{call:x?} is refused with {no}")),
        }
    }

    fn release(&mut self, id: u64) -> Told {
        self.accept(Call::Release(id))?;
        if id != EMPTY && !self.beside.document().is_live(id) {
            if self.gone.len() == REMEMBERED {
                let at = self.random.below(REMEMBERED);
                self.gone.swap_remove(at);
            }
            self.gone.push(id);
        }
        Ok(())
    }

    fn drop_model(&mut self, at: usize) -> Told {
        let model = self.models.swap_remove(at);
        self.release(model.root)
    }

    /// Some edits, or one of the things that happen between.
    fn step(&mut self) -> Told {
        if self.models.is_empty() || self.random.once_in(40) {
            self.new_model()?;
        }
        let at = self.random.below(self.models.len());
        match self.random.below(100) {
            0..70 => {
                let voxel = self.voxel(at);
                self.edit(at, voxel)?;
            }
            70..75 => self.fill(at)?,
            75..80 => self.odd_edit(at)?,
            80..92 => self.both_orders(at)?,
            92..94 => self.hold_and_release(at)?,
            94..96 => self.change_depth(at)?,
            96..98 => self.keep(at)?,
            _ => self.drop_model(at)?,
        }
        if self.stuck > 6 && !self.models.is_empty() {
            self.stuck = 0;
            let at = self.random.below(self.models.len());
            self.drop_model(at)?;
        }
        if self.until_full == 0 {
            self.same_cubes()?;
        }
        Ok(())
    }

    /// A model of EMPTY, or a root that is not tidy: a branch, or a branch of branches, of eight times one leaf.
    fn new_model(&mut self) -> Told {
        self.make_room()?;
        let depth = self.random.below(1 + self.deepest as usize) as u32;
        let mut model = Model::empty(depth);
        if depth > 0 && self.random.once_in(4) {
            let value = self.random.one_of(&self.values);
            let Some(mut id) = self.eight_of(Call::Leaf(value))? else {
                self.models.push(model);
                return Ok(());
            };
            if depth > 1
                && self.random.once_in(2)
                && let Some(above) = self.eight_of(Call::Hold(id))?
            {
                self.release(id)?;
                id = above;
            }
            model.root = id;
            model.is_tidy = false;
            model.cube.fill(value);
        }
        self.models.push(model);
        Ok(())
    }

    /// The branch of eight times the node on which `one` grants a hold; none if the arena is full.
    fn eight_of(&mut self, one: Call<u64>) -> Result<Option<u64>, String> {
        let mut child = INVALID;
        for _ in 0..8 {
            let answered = self.call(one)?;
            child = match one {
                _ if answered.no != 0 => return Ok(None),
                Call::Hold(id) => id,
                _ => answered.id,
            };
        }
        match self.call(Call::Branch([child; 8]))? {
            Answered { no: 0, id, .. } => Ok(Some(id)),
            _ => {
                for _ in 0..8 {
                    self.release(child)?;
                }
                Ok(None)
            }
        }
    }

    /// Drops models until one more of the deepest has room.
    fn make_room(&mut self) -> Told {
        let cells = |models: &[Model]| models.iter().map(|model| model.cube.len()).sum::<usize>();
        while cells(&self.models) + (1 << (3 * self.deepest)) > MOST_CELLS {
            let at = self.random.below(self.models.len());
            self.drop_model(at)?;
        }
        Ok(())
    }

    /// Sets cells at random until the arena is full.
    fn fill_arena(&mut self) -> Told {
        self.make_room()?;
        self.models.push(Model::empty(self.deepest));
        let depth = self.deepest;
        loop {
            let at = self.random.below(self.models.len());
            if self.models[at].depth != depth {
                continue;
            }
            let cell = [(); 3].map(|()| self.random.below(1 << depth) as i32);
            let value = 1 + self.random.below(65_535) as u16;
            self.edit(at, Voxel { depth, cell, value })?;
            if self.stuck > 0 {
                return Ok(());
            }
        }
    }

    fn value(&mut self) -> u16 {
        if self.random.once_in(4) {
            0
        } else {
            self.random.one_of(&self.values)
        }
    }

    /// A cell of the depth, often near the last one.
    fn cell(&mut self, depth: u32) -> [i32; 3] {
        let side = 1 << depth;
        if self.random.once_in(2) {
            self.last = [(); 3].map(|()| self.random.below(side) as i32);
        } else {
            let axis = self.random.below(3);
            self.last[axis] += self.random.one_of(&[-1, 1]);
        }
        self.last.map(|c| c.rem_euclid(side as i32))
    }

    /// A voxel for a model; at times with the value that its cell has.
    fn voxel(&mut self, at: usize) -> Voxel {
        let depth = self.models[at].depth;
        let cell = self.cell(depth);
        let value = if self.random.once_in(12) {
            self.models[at].cube[place(depth, cell)]
        } else {
            self.value()
        };
        Voxel { depth, cell, value }
    }

    /// An edit on all sides, counted by what became of the way to its cell.
    fn ask(&mut self, root: u64, voxel: Voxel) -> Result<Answered, String> {
        let answered = self.call(Call::Edit(root, voxel))?;
        match answered.no {
            0 => {
                self.stuck = 0;
                let (before, old) = self.end_of_way(root, voxel);
                let (after, _) = self.end_of_way(answered.id, voxel);
                self.tally.collapsed += u64::from(after < before);
                self.tally.cut += u64::from(before < after && is_leaf(old));
            }
            11 => self.stuck += 1,
            _ => {}
        }
        Ok(answered)
    }

    /// The level at which the way to a voxel's cell ends, in EMPTY, a leaf, or at the depth; and the id there.
    fn end_of_way(&self, root: u64, voxel: Voxel) -> (u32, u64) {
        let [x, y, z] = voxel.cell;
        let mut id = root;
        for level in 0..voxel.depth {
            if id == EMPTY || is_leaf(id) {
                return (level, id);
            }
            let place = child(x, y, z, level, voxel.depth).1;
            id = self.beside.document().node(id).children[place as usize];
        }
        (voxel.depth, id)
    }

    /// Edits a model; its old root is released.
    fn edit(&mut self, at: usize, voxel: Voxel) -> Told {
        let old = self.models[at].root;
        let answered = self.ask(old, voxel)?;
        if answered.no != 0 {
            return Ok(());
        }
        self.tally.untidy += u64::from(!self.models[at].is_tidy);
        let is_old_first = self.random.once_in(2);
        if is_old_first {
            self.release(old)?;
        }
        let model = &mut self.models[at];
        model.root = answered.id;
        model.cube[place(voxel.depth, voxel.cell)] = voxel.value;
        self.same_cells(at, voxel.cell)?;
        if !is_old_first {
            self.release(old)?;
        }
        self.until_full = self.until_full.saturating_sub(1);
        Ok(())
    }

    /// Fills a cube of two or four a side with one value, cell by cell, so that nodes collapse.
    fn fill(&mut self, at: usize) -> Told {
        let depth = self.models[at].depth;
        let bits = self.random.one_of(&[1, 1, 1, 2]).min(depth);
        let corner = self.cell(depth).map(|c| c >> bits << bits);
        let value = self.value();
        let count = 1 << (3 * bits);
        let first = self.random.below(count);
        for number in 0..count {
            let n = ((number + first) % count) as i32;
            let within = [n, n >> bits, n >> (2 * bits)].map(|c| c & ((1 << bits) - 1));
            let cell = [0, 1, 2].map(|axis| corner[axis] + within[axis]);
            self.edit(at, Voxel { depth, cell, value })?;
        }
        Ok(())
    }

    /// A second model with the same root.
    fn keep(&mut self, at: usize) -> Told {
        let copy = self.models[at].clone();
        self.accept(Call::Hold(copy.root))?;
        self.models.push(copy);
        self.make_room()
    }

    /// An edit of a root that has a second hold: it stays until that one is given back.
    fn hold_and_release(&mut self, at: usize) -> Told {
        let root = self.models[at].root;
        self.accept(Call::Hold(root))?;
        let voxel = self.voxel(at);
        self.edit(at, voxel)?;
        self.release(root)
    }

    /// The same root as a model one level deeper or less deep: a cell is cut into eight, or eight equal ones are one.
    fn change_depth(&mut self, at: usize) -> Told {
        let height = u32::from(self.beside.document().height(self.models[at].root));
        let old = &self.models[at];
        let depth = if self.random.once_in(2) && old.depth > height {
            old.depth - 1
        } else {
            (old.depth + 1).min(self.deepest)
        };
        let mut model = Model::empty(depth);
        for y in 0..1 << depth {
            for z in 0..1 << depth {
                for x in 0..1 << depth {
                    let there = [x, y, z].map(|c: i32| c << old.depth >> depth);
                    model.cube[place(depth, [x, y, z])] = old.cube[place(old.depth, there)];
                }
            }
        }
        (model.root, model.is_tidy) = (old.root, old.is_tidy);
        self.models[at] = model;
        self.same_cube(at)?;
        self.make_room()
    }

    /// An edit with arguments that are most often refused.
    fn odd_edit(&mut self, at: usize) -> Told {
        let mut root = self.models[at].root;
        let mut voxel = self.voxel(at);
        let kind = self.random.below(6);
        if kind == 0 || self.random.once_in(5) {
            voxel.depth = self.random.one_of(&[7, 8, 31, 32, 64, u32::MAX]);
        }
        if kind == 1 || self.random.once_in(5) {
            let side = 1_i32.wrapping_shl(voxel.depth);
            let odd = [-1, side, side + 1, i32::MIN, i32::MAX, 64, 1 << 16];
            voxel.cell[self.random.below(3)] = self.random.one_of(&odd);
        }
        if kind == 2 || kind == 3 || self.random.once_in(5) {
            root = self.odd_id();
        }
        if kind == 4 || self.random.once_in(5) {
            // Any live node, most often no root of a model; at a depth that may be less than its height.
            let next = self.beside.document().next();
            if next > 1 {
                root = self
                    .beside
                    .document()
                    .slot(1 + self.random.below(next - 1))
                    .id;
            }
            voxel.depth = self.random.below(1 + TALLEST as usize) as u32;
            if self.random.once_in(2) {
                voxel.cell = self.cell(voxel.depth);
            }
        }
        match self.ask(root, voxel)? {
            Answered { no: 0, id, .. } => self.release(id),
            _ => Ok(()),
        }
    }

    /// An id that is most often neither EMPTY nor live.
    fn odd_id(&mut self) -> u64 {
        let document = self.beside.document();
        let root = self
            .random
            .one_of(&self.models.iter().map(|m| m.root).collect::<Vec<_>>());
        match self.random.below(7) {
            0 => INVALID,
            1 => self.random.bits(),
            2 => {
                let beyond = self.random.below(4);
                let slot = self.random.one_of(&[document.next(), document.capacity()]);
                new_leaf((slot + beyond) as u32, 0).1
            }
            // Slot 0, as a leaf or with a mask.
            3 => 1 << (47 + self.random.below(17)),
            4 => root ^ (1 << self.random.below(64)),
            5 if !document.freed().is_empty() => {
                let slot = self.random.one_of(document.freed());
                new_leaf(slot, document.slot(slot as usize).generation).1
            }
            _ if !self.gone.is_empty() => self.random.one_of(&self.gone),
            _ => u64::from(index(root)),
        }
    }

    /// Two edits of different cells from one tidy root, in both orders, nothing released between: the same id, and the old cube with those two cells
    /// changed.
    fn both_orders(&mut self, at: usize) -> Told {
        let depth = self.models[at].depth;
        if depth == 0 || !self.models[at].is_tidy {
            return Ok(());
        }
        let root = self.models[at].root;
        let one = self.voxel(at);
        let mut other = self.voxel(at);
        if self.random.once_in(2) {
            // In the same octant of the lowest level, where the two share every branch.
            other.cell = one.cell;
            other.cell[self.random.below(3)] ^= 1;
        }
        if other.cell == one.cell {
            return Ok(());
        }
        let mut roots = vec![];
        let mut ends = vec![];
        for (first, second) in [(one, other), (other, one)] {
            let between = self.ask(root, first)?;
            if between.no != 0 {
                break;
            }
            roots.push(between.id);
            let end = self.ask(between.id, second)?;
            if end.no != 0 {
                break;
            }
            roots.push(end.id);
            ends.push(end.id);
        }
        if let [first, second] = ends[..] {
            if first != second {
                return Err(format!(
                    "from {root:#x} {one:?} and {other:?} give {first:#x} in one order and {second:#x} in the other"
                ));
            }
            self.tally.orders += 1;
            let mut model = self.models[at].clone();
            model.root = first;
            model.cube[place(depth, one.cell)] = one.value;
            model.cube[place(depth, other.cell)] = other.value;
            self.accept(Call::Hold(first))?;
            self.models.push(model);
            let new = self.models.len() - 1;
            if depth <= 4 || self.random.once_in(16) {
                self.same_cube(new)?;
            }
            self.same_cells(new, one.cell)?;
            self.same_cells(new, other.cell)?;
            self.same_cells(at, one.cell)?;
            // One of the two models goes on.
            let left = self.random.one_of(&[at, new]);
            self.drop_model(left)?;
        }
        roots.into_iter().try_for_each(|id| self.release(id))
    }

    /// The cell, its neighbour, some cells at random, and a cell of some other model.
    fn same_cells(&mut self, at: usize, cell: [i32; 3]) -> Told {
        let depth = self.models[at].depth;
        if depth <= ALWAYS_FULL {
            self.same_cube(at)?;
        }
        let side = 1 << depth;
        let any = [(); 3].map(|()| self.random.below(side) as i32);
        let near = cell.map(|c| c ^ (1 & (side as i32 - 1)));
        for cell in [cell, any, near] {
            self.same_cell(at, cell)?;
        }
        let other = self.random.below(self.models.len());
        let side = 1 << self.models[other].depth;
        self.same_cell(other, cell.map(|c| c & (side - 1)))
    }

    fn same_cell(&mut self, at: usize, cell: [i32; 3]) -> Told {
        let model = &self.models[at];
        let expected = model.cube[place(model.depth, cell)];
        let looked = self.beside.port.look(model.root, model.depth, cell);
        self.tally.cells += 1;
        if (looked.no, looked.value) == (0, expected) {
            return Ok(());
        }
        Err(format!(
            "cell {cell:?} of {:#x} at depth {} is {looked:?}, not {expected}",
            model.root, model.depth
        ))
    }

    /// Expands a model into a buffer between guard words, and compares every cell.
    fn same_cube(&mut self, at: usize) -> Told {
        let model = &self.models[at];
        if self.read.inside().len() != model.cube.len() {
            self.read = Guarded::new(&vec![0xA5A5; model.cube.len()], 0xC35A);
        }
        let (root, depth) = (model.root, model.depth);
        let no = (self.beside.port).expand(root, depth, self.read.inside_mut());
        self.tally.cubes += 1;
        if no == 0 && self.read.is_intact() && self.read.inside() == model.cube {
            return Ok(());
        }
        Err(format!(
            "the cube of {root:#x} at depth {depth}, expansion {no}, is not the plain array"
        ))
    }

    /// Every held root reads as it should, in full.
    fn same_cubes(&mut self) -> Told {
        self.until_full = FULL_AFTER;
        (0..self.models.len()).try_for_each(|at| self.same_cube(at))
    }
}
