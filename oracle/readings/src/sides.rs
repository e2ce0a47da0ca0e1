//! A reading on all sides: the port's call beside documents 01 and 02, and beside single calls on a copy of the port's tables.
use crate::tally::{Place, Tally};
use arena::beside::{Beside, Original};
use arena::call::{Answered, Call, Entry};
use arena::edit::Voxel;
use arena::lent::Lent;
use reference::document01::INVALID;
use reference::reading::DEEPEST;
use reference::survey::{self, FINEST, Reading};
use reference::tables::{ENTRY, FLOOR, WORDS};

pub type Told = Result<(), String>;

/// To this capacity every slot is compared after every call, and every reading runs on a copy of the tables too.
const ALWAYS_WHOLE: usize = 600;

pub struct Sides<'a> {
    pub beside: Beside,
    pub tally: &'a mut Tally,
}

impl<'a> Sides<'a> {
    pub fn fresh(capacity: usize, tally: &'a mut Tally) -> Self {
        let beside = Beside::fresh(capacity, Original::Absent).whole_to(ALWAYS_WHOLE);
        Self { beside, tally }
    }

    /// Some other call than a reading.
    pub fn call(&mut self, call: Call<u64>) -> Result<Answered, String> {
        self.tally.between += 1;
        (self.beside.call(&call, &mut self.tally.calls))
            .map_err(|words| format!("{call:x?}: {words}"))
    }

    /// A refusal of a call that has to be accepted is an error.
    pub fn accept(&mut self, call: Call<u64>) -> Result<u64, String> {
        match self.call(call)? {
            Answered { no: 0, id, .. } => Ok(id),
            Answered { no, .. } => Err(format!("{call:x?} is refused with {no}")),
        }
    }

    pub fn edit(
        &mut self,
        root: u64,
        depth: u32,
        cell: [i32; 3],
        value: u16,
    ) -> Result<u64, String> {
        self.accept(Call::Edit(root, Voxel { depth, cell, value }))
    }

    pub fn release(&mut self, id: u64) -> Told {
        self.accept(Call::Release(id)).map(|_| ())
    }

    /// Leaves of values from 60,000 on until so many slots are free.
    pub fn leave_free(&mut self, free: usize) -> Told {
        let mut value = 60_000;
        while self.free() > free {
            self.accept(Call::Leaf(value))?;
            value += 1;
        }
        Ok(())
    }

    pub fn free(&self) -> usize {
        self.beside.document().capacity() - 1 - self.beside.document().live()
    }

    /// Compares every slot.
    pub fn same_everywhere(&mut self) -> Told {
        self.beside.same_everywhere(&mut self.tally.calls)
    }

    /// Enters a reading on all sides. Refused, it leaves the live nodes as they are, with their counts.
    pub fn enter(&mut self, entry: &Entry) -> Result<Answered, String> {
        self.enter_all(entry)
            .map_err(|words| format!("{entry:x?}: {words}"))
    }

    fn enter_all(&mut self, entry: &Entry) -> Result<Answered, String> {
        let is_copied = self.beside.document().capacity() <= ALWAYS_WHOLE;
        let copy = is_copied.then(|| self.beside.port.clone());
        let answered = self.beside.enter(entry, &mut self.tally.calls)?;
        let no = answered.no;
        let asked = Asked::of(entry);
        self.count(entry, asked.as_ref(), no);
        let Some(mut copy) = copy else {
            return Ok(answered);
        };
        if no != 0 && live_nodes(&copy) != live_nodes(&self.beside.port) {
            return Err(format!("refused with {no}, it changes a live node"));
        }
        if let Some(asked) = asked {
            let (by_calls, edits) = asked.by_single_calls(&mut copy, entry);
            if by_calls != answered {
                return Err(format!("single calls answer {by_calls:x?}"));
            }
            self.count_stopped(&asked, no, edits);
        }
        if !copy.is_same(&self.beside.port) {
            return Err("single calls leave other tables".to_string());
        }
        self.tally.copied += 1;
        Ok(answered)
    }

    fn count(&mut self, entry: &Entry, asked: Option<&Asked>, no: u32) {
        let tally = &mut *self.tally;
        match survey::parse(entry.record) {
            Ok(Reading::Pause) => tally.pauses += 1,
            Ok(Reading::Shot { .. }) => tally.shots += 1,
            Ok(Reading::Bar { .. }) => tally.bars += 1,
            Err(_) => tally.others += 1,
        }
        match no {
            0 => {
                tally.accepted += 1;
                tally.cells += asked.map_or(0, |asked| asked.cells.len() as u64);
            }
            no => tally.refused[no as usize] += 1,
        }
    }

    /// Counts a bar that was refused at one of its cells.
    fn count_stopped(&mut self, asked: &Asked, no: u32, edits: usize) {
        if !asked.reading.is_bar() || !matches!(no, 10 | 11) {
            return;
        }
        let place = match edits {
            1 => Place::First,
            _ if edits == asked.cells.len() => Place::Last,
            _ => Place::Middle,
        };
        self.tally.stop(no, place);
    }
}

/// Of each slot with a live node, its number, its words of facts, with 0 for the entry, which is none of its own, and its children.
fn live_nodes(lent: &Lent) -> Vec<(usize, [u32; WORDS], &[u64])> {
    (lent.kids().chunks(8).enumerate())
        .filter(|(slot, _)| lent.view().own(*slot) >= FLOOR)
        .map(|(slot, kids)| {
            let mut words = lent.words(slot);
            words[ENTRY] = 0;
            (slot, words, kids)
        })
        .collect()
}

/// A reading that is not refused for its arguments alone.
struct Asked {
    reading: Reading,
    cells: Vec<[i32; 3]>,
    value: u16,
}

impl Asked {
    fn of(entry: &Entry) -> Option<Self> {
        if entry.depth > DEEPEST || entry.edge > FINEST {
            return None;
        }
        let reading = survey::parse(entry.record).ok()?;
        let (cells, value) = reading.cells(entry.depth, entry.edge).ok()?;
        Some(Self {
            reading,
            cells,
            value,
        })
    }

    /// Enters it by other calls: a hold for a pause; for each cell an edit, and then the release of the passing root. Answers the number of edits too.
    fn by_single_calls(&self, lent: &mut Lent, entry: &Entry) -> (Answered, usize) {
        let mut answered = Answered::made(0, entry.root);
        if self.reading == Reading::Pause {
            let no = lent.call(&Call::Hold(entry.root)).no;
            if no != 0 {
                answered = Answered::made(no, INVALID);
            }
            return (answered, 0);
        }
        let mut edits = 0;
        for &cell in &self.cells {
            let passing = answered.id;
            let voxel = Voxel {
                depth: entry.depth,
                cell,
                value: self.value,
            };
            answered = lent.call(&Call::Edit(passing, voxel));
            if edits > 0 {
                assert_eq!(lent.call(&Call::Release(passing)).no, 0);
            }
            edits += 1;
            if answered.no != 0 {
                break;
            }
        }
        (answered, edits)
    }
}
