//! Held roots in one arena, made by calls that are compared with document 01, and pairs of them compared.
use crate::sides::{Places, Sides, Told};
use crate::tally::Tally;
use crate::wrong;
use arena::beside::{Beside, Original};
use arena::call::{Answered, Call};
use arena::edit::Voxel;
use arena::lent::Lent;
use reference::Random;
use reference::document01::{EMPTY, INVALID, is_leaf};
use reference::months::{Comparison, Differences, cell_of};
use std::collections::HashMap;

/// How many ids of released roots are remembered.
const REMEMBERED: usize = 16;
/// Wrong readings are tried at pairs of so many cells at most, one in so many.
const TOLD: usize = 64;
const TOLD_ONE_IN: usize = 32;

pub struct Roots<'a> {
    pub beside: Beside,
    calls: arena::tally::Tally,
    /// A copy of the port's tables, as long as they stay as they are.
    copy: Option<Lent>,
    /// Each has one hold; EMPTY is not among them.
    pub held: Vec<u64>,
    /// Roots that were released; most often their nodes are gone.
    gone: Vec<u64>,
    pub random: Random,
    sides: Sides<'a>,
}

impl<'a> Roots<'a> {
    pub fn fresh(capacity: usize, seed: u64, tally: &'a mut Tally, places: &'a Places) -> Self {
        Self {
            beside: Beside::fresh(capacity, Original::Absent),
            calls: arena::tally::Tally::default(),
            copy: None,
            held: vec![],
            gone: vec![],
            random: Random::new(seed),
            sides: Sides { tally, places },
        }
    }

    fn call(&mut self, call: Call<u64>) -> Result<Answered, String> {
        self.copy = None;
        (self.beside.call(&call, &mut self.calls)).map_err(|words| format!("{call:x?}: {words}"))
    }

    /// A refusal of a call that has to be accepted is an error.
    fn accept(&mut self, call: Call<u64>) -> Result<u64, String> {
        match self.call(call)? {
            Answered { no: 0, id, .. } => Ok(id),
            Answered { no, .. } => Err(format!("{call:x?} is refused with {no}")),
        }
    }

    fn release(&mut self, id: u64) -> Told {
        self.accept(Call::Release(id)).map(|_| ())
    }

    /// Keeps an answer's root, if there is one.
    fn keep(&mut self, answered: Answered) {
        if answered.no == 0 && answered.id != EMPTY {
            self.held.push(answered.id);
        }
    }

    pub fn drop_root(&mut self, at: usize) -> Told {
        let id = self.held.swap_remove(at);
        if self.gone.len() == REMEMBERED {
            self.gone.swap_remove(self.random.below(REMEMBERED));
        }
        self.gone.push(id);
        self.release(id)
    }

    /// Releases every root: then nothing is live.
    pub fn drop_all(&mut self) -> Told {
        while !self.held.is_empty() {
            self.drop_root(0)?;
        }
        self.beside.same_everywhere(&mut self.calls)?;
        match self.beside.document().live() {
            0 => Ok(()),
            live => Err(format!("{live} nodes are live that nobody holds")),
        }
    }

    /// A held root, or EMPTY.
    pub fn any(&mut self) -> u64 {
        match self.random.below(self.held.len() + 1) {
            0 => EMPTY,
            at => self.held[at - 1],
        }
    }

    /// An id that is most often neither EMPTY nor live.
    pub fn odd(&mut self) -> u64 {
        let any = self.any();
        match self.random.below(4) {
            0 => INVALID,
            1 if !self.gone.is_empty() => self.random.one_of(&self.gone),
            2 => any ^ 1 << self.random.below(64),
            _ => any.wrapping_sub(1 << 32),
        }
    }

    /// A root with so many of its cells edited one after the other, if there is room.
    pub fn edit(&mut self, root: u64, depth: u32, edits: usize, values: &[u16]) -> Told {
        let mut passing = None;
        for _ in 0..edits {
            let voxel = Voxel {
                depth,
                cell: [(); 3].map(|()| self.random.below(1 << depth) as i32),
                value: self.random.one_of(values),
            };
            if !self.step(root, &mut passing, voxel)? {
                return Ok(());
            }
        }
        self.held.extend(passing.filter(|id| *id != EMPTY));
        Ok(())
    }

    /// An edit of the passing root, or of the first one, and then the release of the passing root. Is it accepted?
    fn step(
        &mut self,
        first: u64,
        passing: &mut Option<u64>,
        voxel: Voxel,
    ) -> Result<bool, String> {
        let answered = self.call(Call::Edit(passing.unwrap_or(first), voxel))?;
        if let Some(id) = passing.take() {
            self.release(id)?;
        }
        *passing = (answered.no == 0).then_some(answered.id);
        Ok(answered.no == 0)
    }

    pub fn leaf(&mut self, value: u16) -> Told {
        let answered = self.call(Call::Leaf(value))?;
        self.keep(answered);
        Ok(())
    }

    /// A branch of these children, if there is room and it is no taller than that.
    pub fn branch(&mut self, children: [u64; 8], tallest: u8) -> Told {
        let document = self.beside.document();
        let below = children.iter().map(|id| document.height(*id)).max();
        if children == [EMPTY; 8] || below >= Some(tallest) || document.is_full() {
            return Ok(());
        }
        for id in children {
            self.accept(Call::Hold(id))?;
        }
        let answered = self.call(Call::Branch(children))?;
        self.keep(answered);
        Ok(())
    }

    /// The root of a cube of that depth with these values, each branch made once. A tidy one has no branch of eight times one leaf.
    pub fn make(
        &mut self,
        depth: u32,
        is_tidy: bool,
        value: &dyn Fn([i32; 3]) -> u16,
    ) -> Result<u64, String> {
        let mut made = Made::default();
        let root = self.octant(&mut made, is_tidy, value, [0; 3], 1 << depth)?;
        self.accept(Call::Hold(root))?;
        for id in made.leaves.into_values().chain(made.branches.into_values()) {
            self.release(id)?;
        }
        if root != EMPTY {
            self.held.push(root);
        }
        Ok(root)
    }

    fn octant(
        &mut self,
        made: &mut Made,
        is_tidy: bool,
        value: &dyn Fn([i32; 3]) -> u16,
        corner: [i32; 3],
        side: i32,
    ) -> Result<u64, String> {
        if side == 1 {
            return match value(corner) {
                0 => Ok(EMPTY),
                value => match made.leaves.get(&value) {
                    Some(id) => Ok(*id),
                    None => {
                        let id = self.accept(Call::Leaf(value))?;
                        made.leaves.insert(value, id);
                        Ok(id)
                    }
                },
            };
        }
        let half = side / 2;
        let mut children = [EMPTY; 8];
        for (number, child) in (0..).zip(&mut children) {
            let corner = [0, 1, 2].map(|axis| corner[axis] + half * (number >> axis & 1));
            *child = self.octant(made, is_tidy, value, corner, half)?;
        }
        let first = children[0];
        if children == [first; 8] && (first == EMPTY || is_tidy && is_leaf(first)) {
            return Ok(first);
        }
        if let Some(id) = made.branches.get(&children) {
            return Ok(*id);
        }
        for id in children {
            self.accept(Call::Hold(id))?;
        }
        let id = self.accept(Call::Branch(children))?;
        made.branches.insert(children, id);
        Ok(id)
    }

    /// Compares two ids at a depth on all sides. Answers what is found, if that is not refused.
    pub fn compare(
        &mut self,
        left: u64,
        right: u64,
        depth: u32,
    ) -> Result<Option<Differences>, String> {
        let tables = &self.beside.port;
        let copy = self.copy.get_or_insert_with(|| tables.clone());
        let document = self.beside.document();
        let comparison = Comparison::new(document, left, right, depth);
        let found = (self.sides).pair(tables, copy, &comparison, &mut self.random)?;
        let Some(found) = found else {
            return Ok(None);
        };
        if document.is_tidy(left) && document.is_tidy(right) {
            self.sides.tally.tidy += 1;
            if found.opened > u64::from(depth) * found.cells.len() as u64 {
                return Err(format!(
                    "tidy roots {left:#x} and {right:#x} at depth {depth}: {} pairs opened for {} cells",
                    found.opened,
                    found.cells.len()
                ));
            }
        }
        if found.cells.len() <= TOLD && self.random.once_in(TOLD_ONE_IN) {
            let told = wrong::told(document, left, right, &found);
            for (times, is_told) in self.sides.tally.told.iter_mut().zip(told) {
                *times += u64::from(is_told);
            }
        }
        Ok(Some(found))
    }

    /// Edits the cells of a list in the left root, one after the other: of two tidy roots the last answer is the right root.
    pub fn enter(&mut self, left: u64, right: u64, depth: u32, found: &Differences) -> Told {
        let document = self.beside.document();
        if !document.is_tidy(left) || !document.is_tidy(right) {
            return Ok(());
        }
        let mut passing = None;
        for cell in &found.cells {
            let voxel = Voxel {
                depth,
                cell: cell_of(cell.code),
                value: cell.right,
            };
            if !self.step(left, &mut passing, voxel)? {
                self.sides.tally.not_entered += 1;
                return Ok(());
            }
        }
        let entered = passing.unwrap_or(left);
        if entered != right {
            return Err(format!(
                "the list of {left:#x} and {right:#x} at depth {depth}, entered into the first, gives {entered:#x}"
            ));
        }
        if let Some(id) = passing {
            self.release(id)?;
        }
        self.sides.tally.entered += 1;
        Ok(())
    }
}

/// What a cube is made of so far: each leaf and each branch with one hold.
#[derive(Default)]
struct Made {
    leaves: HashMap<u16, u64>,
    branches: HashMap<[u64; 8], u64>,
}
