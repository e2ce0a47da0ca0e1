//! One arena of the port, alone or beside document 01, and the holds that its callers have.
use crate::cube::{Cell, Cube, Entry};
use arena::beside::{Beside, Original};
use arena::call::{self, Answered, Call};
use arena::edit::Voxel;
use arena::lent::{Guarded, Lent};
use reference::document01::{EMPTY, INVALID, index, is_leaf};
use reference::tables::HEIGHT;
use std::collections::HashMap;

pub type Told = Result<(), String>;

/// Values that stand in a cube before it is written, and beside it.
const BEFORE: u16 = 0xA5A5;
const GUARD: u16 = 0xC35A;

enum Sides {
    Port(Lent),
    /// Every call is compared with document 01, with every table.
    Documented(Box<Beside>),
}

pub struct Site {
    sides: Sides,
    calls: arena::tally::Tally,
    /// Holds granted and neither returned nor used, by id.
    holds: HashMap<u64, u64>,
}

impl Site {
    /// A fresh arena of the port alone.
    pub fn fresh(capacity: usize) -> Self {
        Self::new(Sides::Port(Lent::fresh(capacity)))
    }

    /// A fresh arena of the port beside document 01.
    pub fn documented(capacity: usize) -> Self {
        let beside = Beside::fresh(capacity, Original::Absent);
        Self::new(Sides::Documented(Box::new(beside)))
    }

    fn new(sides: Sides) -> Self {
        Self {
            sides,
            calls: arena::tally::Tally::default(),
            holds: HashMap::new(),
        }
    }

    pub fn is_documented(&self) -> bool {
        matches!(self.sides, Sides::Documented(_))
    }

    pub fn port(&self) -> &Lent {
        match &self.sides {
            Sides::Port(lent) => lent,
            Sides::Documented(beside) => &beside.port,
        }
    }

    pub fn port_mut(&mut self) -> &mut Lent {
        match &mut self.sides {
            Sides::Port(lent) => lent,
            Sides::Documented(beside) => &mut beside.port,
        }
    }

    pub fn live(&self) -> usize {
        self.port().arena.live()
    }

    pub fn capacity(&self) -> usize {
        self.port().arena.capacity
    }

    /// How many slots are free: slot 0 is given to no node.
    pub fn free(&self) -> usize {
        self.capacity() - 1 - self.live()
    }

    /// The height of EMPTY or of a live node.
    pub fn height(&self, id: u64) -> u32 {
        match id {
            EMPTY => 0,
            id => self.port().view().fact(index(id) as usize, HEIGHT),
        }
    }

    /// A live child of a live branch.
    pub fn child(&self, id: u64, number: u32) -> Option<u64> {
        if id == EMPTY || is_leaf(id) {
            return None;
        }
        Some(self.port().view().child(id, number)).filter(|child| *child != EMPTY)
    }

    /// The holds that callers have on an id.
    pub fn holds_of(&self, id: u64) -> u64 {
        self.holds.get(&id).copied().unwrap_or(0)
    }

    fn grant(&mut self, id: u64) {
        if id != EMPTY {
            *self.holds.entry(id).or_default() += 1;
        }
    }

    fn take(&mut self, id: u64) {
        if let Some(holds) = self.holds.get_mut(&id) {
            *holds -= 1;
            if *holds == 0 {
                self.holds.remove(&id);
            }
        }
    }

    /// A call, and what becomes of the callers' holds by it.
    pub fn call(&mut self, call: Call<u64>) -> Result<Answered, String> {
        let answered = match &mut self.sides {
            Sides::Port(lent) => lent.call(&call),
            Sides::Documented(beside) => (beside.call(&call, &mut self.calls))
                .map_err(|words| format!("{call:x?}: {words}"))?,
        };
        if answered.no != 0 {
            return Ok(answered);
        }
        match call {
            Call::Leaf(_) | Call::Edit(_, _) => self.grant(answered.id),
            Call::Branch(children) => {
                children.into_iter().for_each(|id| self.take(id));
                self.grant(answered.id);
            }
            Call::Hold(id) => self.grant(id),
            Call::Release(id) => self.take(id),
            Call::Counts(_) => {}
        }
        Ok(answered)
    }

    /// A reading in metres.
    pub fn enter(&mut self, entry: &call::Entry) -> Result<Answered, String> {
        let answered = match &mut self.sides {
            Sides::Port(lent) => lent.enter(entry),
            Sides::Documented(beside) => (beside.enter(entry, &mut self.calls))
                .map_err(|words| format!("{entry:x?}: {words}"))?,
        };
        if answered.no == 0 {
            self.grant(answered.id);
        }
        Ok(answered)
    }

    /// A call that has to answer this number. The answer is the id that it answers.
    pub fn expect(&mut self, call: Call<u64>, no: u32) -> Result<u64, String> {
        let answered = self.call(call)?;
        if answered.no != no {
            return Err(format!("{call:x?} answers {}, not {no}", answered.no));
        }
        let makes = matches!(call, Call::Leaf(_) | Call::Branch(_) | Call::Edit(_, _));
        if no != 0 && makes && answered.id != INVALID {
            return Err(format!("{call:x?}, refused, answers {:#x}", answered.id));
        }
        Ok(answered.id)
    }

    pub fn accept(&mut self, call: Call<u64>) -> Result<u64, String> {
        self.expect(call, 0)
    }

    pub fn release(&mut self, id: u64) -> Told {
        self.accept(Call::Release(id)).map(|_| ())
    }

    /// A branch of what is held, each child held once more for it. These holds are given back where it is refused.
    pub fn branch_of(&mut self, children: [u64; 8]) -> Result<Answered, String> {
        for id in children {
            self.accept(Call::Hold(id))?;
        }
        let answered = self.call(Call::Branch(children))?;
        if answered.no != 0 {
            for id in children {
                self.release(id)?;
            }
        }
        Ok(answered)
    }

    /// A list entered from a root at a depth, each passing root released once the next is made. The end has one hold more, unless the list is empty. A refused
    /// entry ends it: the answer is the refusal, and what was made on the way is given back.
    pub fn enter_list(
        &mut self,
        start: u64,
        depth: u32,
        list: &[Entry],
    ) -> Result<Answered, String> {
        let mut answered = Answered::made(0, start);
        for (at, entry) in list.iter().enumerate() {
            let root = answered.id;
            answered = self.call(edit(root, depth, *entry))?;
            if at > 0 {
                self.release(root)?;
            }
            if answered.no != 0 {
                break;
            }
        }
        Ok(answered)
    }

    /// A list that has to answer this number. The answer is its end.
    pub fn expect_list(
        &mut self,
        start: u64,
        depth: u32,
        list: &[Entry],
        no: u32,
    ) -> Result<u64, String> {
        match self.enter_list(start, depth, list)? {
            answered if answered.no == no => Ok(answered.id),
            answered => Err(format!(
                "{list:?} from {start:#x} at depth {depth} answers {}, not {no}",
                answered.no
            )),
        }
    }

    pub fn accept_list(&mut self, start: u64, depth: u32, list: &[Entry]) -> Result<u64, String> {
        self.expect_list(start, depth, list, 0)
    }

    pub fn look(&mut self, root: u64, depth: u32, cell: Cell) -> Result<u16, String> {
        match self.port_mut().look(root, depth, cell) {
            looked if looked.no == 0 => Ok(looked.value),
            looked => Err(format!(
                "looking up {cell:?} in {root:#x} at depth {depth} is refused with {}",
                looked.no
            )),
        }
    }

    /// What a root is when it is expanded, into values between guard words.
    pub fn expand(&mut self, root: u64, depth: u32) -> Result<Cube, String> {
        let mut lent = Guarded::new(&vec![BEFORE; 1 << (3 * depth)], GUARD);
        let no = self.port_mut().expand(root, depth, lent.inside_mut());
        if no != 0 || !lent.is_intact() {
            return Err(format!(
                "expanding {root:#x} at depth {depth} answers {no}, or writes outside"
            ));
        }
        let values = lent.inside().to_vec();
        Ok(Cube { depth, values })
    }

    /// A root expands to this cube.
    pub fn is_cube(&mut self, root: u64, cube: &Cube) -> Told {
        if self.expand(root, cube.depth)? == *cube {
            return Ok(());
        }
        Err(format!(
            "the expansion of {root:#x} at depth {} is not the plain cube",
            cube.depth
        ))
    }

    /// The callers' holds on an id are those that its counts say.
    pub fn same_holds(&mut self, id: u64) -> Told {
        let expected = self.holds_of(id);
        match self.call(Call::Counts(id))? {
            Answered { no: 0, holds, .. } if holds == expected => Ok(()),
            answered => Err(format!(
                "the counts of {id:#x} are {answered:x?}, callers have {expected} holds"
            )),
        }
    }

    /// A fresh arena of the port over the same tables: nobody holds anything.
    pub fn begin_anew(&mut self) -> Told {
        let capacity = self.capacity();
        self.holds.clear();
        match self.port_mut().make_fresh(capacity) {
            0 => Ok(()),
            no => Err(format!("a fresh arena is refused with {no}")),
        }
    }

    /// The tables stand inside their guard words, are well formed by the library's own check, and, beside document 01, the same as its.
    pub fn well_formed(&mut self) -> Told {
        if let Sides::Documented(beside) = &mut self.sides {
            beside.same_everywhere(&mut self.calls)?;
        }
        let port = self.port_mut();
        match port.is_intact() && port.check() {
            true => Ok(()),
            false => Err("the tables are not well formed, or were left".to_string()),
        }
    }

    /// Nothing is held any more: then nothing is live.
    pub fn nothing_live(&mut self) -> Told {
        self.well_formed()?;
        if !self.holds.is_empty() || self.live() != 0 {
            return Err(format!(
                "at the end {} ids are held and {} nodes are live",
                self.holds.len(),
                self.live()
            ));
        }
        Ok(())
    }
}

/// The edit of a root that an entry asks for.
pub fn edit(root: u64, depth: u32, entry: Entry) -> Call<u64> {
    let Entry { cell, value } = entry;
    Call::Edit(root, Voxel { depth, cell, value })
}
