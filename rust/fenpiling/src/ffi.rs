//! The tables of an arena with its state, and the library's calls on them. All unsafe code of this crate stands here.
use crate::{Cell, Change, Counts, Id, Metres, Reading, Refusal};
use fenpiling_sys as library;

/// The state of an arena and its three tables. They come from a fresh arena and are changed by the library's calls alone, which keep them well formed.
pub(crate) struct Tables {
    state: library::Arena,
    kids: Box<[u64]>,
    facts: Box<[u32]>,
    find: Box<[u16]>,
}

/// Calls a function of the library with the first argument given, then the tables, then the others.
macro_rules! call {
    ($function:ident($first:expr, $tables:ident $(, $other:expr)*)) => {
        // SAFETY: `$tables` is borrowed mutably, so that its three slices are there for this call alone. They don't overlap, and go with their own lengths.
        // Where the others are addresses with lengths, each is that of a slice of the caller, of a mutable one where the function writes it. The function
        // stays inside what it is lent.
        unsafe {
            library::$function(
                $first,
                $tables.kids.as_mut_ptr(),
                $tables.kids.len(),
                $tables.facts.as_mut_ptr(),
                $tables.facts.len(),
                $tables.find.as_mut_ptr(),
                $tables.find.len(),
                $($other),*
            )
        }
    };
}

impl Tables {
    /// The tables of a fresh arena. No memory is taken for a capacity that will be refused.
    pub(crate) fn fresh(capacity: usize) -> Result<Tables, Refusal> {
        let slots = if capacity <= 65_536 { capacity } else { 0 };
        let mut tables = Tables {
            state: library::Arena { capacity, slots: 0 },
            kids: vec![0; 8 * slots].into(),
            facts: vec![0; 11 * slots].into(),
            find: vec![0; 5 * slots].into(),
        };
        let answer = call!(fenpiling_fresh(capacity, tables));
        tables.accept(answer)?;
        Ok(tables)
    }

    /// Takes over the slots that a call answers, of a refused one too.
    fn accept(&mut self, answer: library::Answer) -> Result<(), Refusal> {
        self.state.slots = answer.slots;
        Refusal::accept(answer.no)
    }

    /// Takes over the slots that a call answers, of a refused one too, and the node it made.
    fn made(&mut self, made: library::Made) -> Result<Id, Refusal> {
        self.state.slots = made.slots;
        Refusal::accept(made.no)?;
        Ok(Id::from_raw(made.id))
    }

    pub(crate) fn capacity(&self) -> usize {
        self.state.capacity
    }

    /// The slots given out, slot 0 not among them, without those that are freed.
    pub(crate) fn live(&self) -> usize {
        let (next, freed) = (self.state.slots as u32, self.state.slots >> 32);
        next as usize - 1 - freed as usize
    }

    pub(crate) fn intern_leaf(&mut self, value: u16) -> Result<Id, Refusal> {
        let made = call!(fenpiling_intern_leaf(self.state, self, value));
        self.made(made)
    }

    pub(crate) fn intern_branch(&mut self, children: [Id; 8]) -> Result<Id, Refusal> {
        let children = library::Children {
            ids: children.map(Id::raw),
        };
        let made = call!(fenpiling_intern_branch(self.state, self, children));
        self.made(made)
    }

    pub(crate) fn hold(&mut self, id: Id) -> Result<(), Refusal> {
        let answer = call!(fenpiling_hold(self.state, self, id.raw()));
        self.accept(answer)
    }

    pub(crate) fn release(&mut self, id: Id) -> Result<(), Refusal> {
        let answer = call!(fenpiling_release(self.state, self, id.raw()));
        self.accept(answer)
    }

    pub(crate) fn counts(&mut self, id: Id) -> Result<Counts, Refusal> {
        let counted = call!(fenpiling_counts(self.state, self, id.raw()));
        Refusal::accept(counted.no)?;
        Ok(Counts {
            holds: counted.holds,
            places: counted.places,
        })
    }

    pub(crate) fn check(&mut self) -> bool {
        call!(fenpiling_check(self.state, self))
    }

    pub(crate) fn lookup(&mut self, id: Id, depth: u32, cell: Cell) -> Result<u16, Refusal> {
        let looked = call!(fenpiling_get_at_depth(
            self.state,
            self,
            id.raw(),
            depth,
            place(cell)
        ));
        Refusal::accept(looked.no)?;
        Ok(looked.value)
    }

    pub(crate) fn expand(&mut self, id: Id, depth: u32, cube: &mut [u16]) -> Result<(), Refusal> {
        Refusal::accept(call!(fenpiling_to_vec(
            self.state,
            self,
            id.raw(),
            depth,
            cube.as_mut_ptr(),
            cube.len()
        )))
    }

    pub(crate) fn edit(
        &mut self,
        root: Id,
        depth: u32,
        cell: Cell,
        value: u16,
    ) -> Result<Id, Refusal> {
        let made = call!(fenpiling_set_voxel(
            self.state,
            self,
            root.raw(),
            depth,
            place(cell),
            value
        ));
        self.made(made)
    }

    /// The cells in which two roots differ, and how many pairs of ids were opened. The list that is lent has so many places.
    pub(crate) fn compare(
        &mut self,
        left: Id,
        right: Id,
        depth: u32,
        places: usize,
    ) -> Result<(Vec<Change>, u32), Refusal> {
        let (mut codes, mut lefts, mut rights) =
            (vec![0; places], vec![0; places], vec![0; places]);
        let compared = call!(fenpiling_compare(
            self.state,
            self,
            left.raw(),
            right.raw(),
            depth,
            codes.as_mut_ptr(),
            codes.len(),
            lefts.as_mut_ptr(),
            lefts.len(),
            rights.as_mut_ptr(),
            rights.len()
        ));
        Refusal::accept(compared.no)?;
        let values = lefts.into_iter().zip(rights);
        let listed = codes.into_iter().zip(values).take(compared.count as usize);
        let changes = listed.map(|(code, (before, after))| {
            Cell::from_path(code).map(|cell| Change {
                cell,
                before,
                after,
            })
        });
        Ok((changes.collect::<Result<_, _>>()?, compared.opened))
    }

    pub(crate) fn enter(
        &mut self,
        root: Id,
        depth: u32,
        edge: u32,
        record: &[u8],
    ) -> Result<Id, Refusal> {
        let made = call!(fenpiling_enter_reading(
            self.state,
            self,
            root.raw(),
            depth,
            edge,
            record.as_ptr(),
            record.len()
        ));
        self.made(made)
    }
}

/// What a record says.
pub(crate) fn parse(record: &[u8]) -> Result<Reading, Refusal> {
    // SAFETY: the slice goes with its own length, and the function reads nothing else.
    let read = unsafe { library::fenpiling_parse_reading(record.as_ptr(), record.len()) };
    Refusal::accept(read.no)?;
    let (point, value) = (Metres::new(read.x, read.y, read.z), read.value);
    Ok(match read.kind {
        Reading::SHOT => Reading::Shot { at: point, value },
        Reading::BAR => Reading::Bar {
            from: point,
            second_x: read.second_x,
            value,
        },
        _ => Reading::Pause,
    })
}

/// A cell as the library takes it.
fn place(cell: Cell) -> library::Cell {
    library::Cell {
        x: cell.x,
        y: cell.y,
        z: cell.z,
    }
}
