use crate::ffi::Tables;
use crate::{Cell, Changes, Id, MAX_DEPTH, Reading, Refusal};
use std::cell::RefCell;
use std::fmt;
use std::rc::Rc;

/// A store of nodes with a fixed number of slots, of 118 bytes each. A clone is the same store, which stays as long as it or any of its roots does.
///
/// ```
/// use fenpiling::{Arena, Refusal};
///
/// let arena = Arena::new(512)?;
/// assert_eq!((arena.capacity(), arena.live()), (512, 0));
/// assert_eq!(Arena::new(1).err(), Some(Refusal::Size));
/// # Ok::<(), Refusal>(())
/// ```
#[derive(Clone)]
pub struct Arena {
    tables: Rc<RefCell<Tables>>,
}

/// The two counts of a node.
#[derive(Clone, Copy, Debug, PartialEq, Eq)]
pub struct Counts {
    /// The roots that hold it.
    pub holds: u64,
    /// The child places of live branches that name it.
    pub places: u64,
}

impl Arena {
    /// A fresh arena of so many slots, 2 to 65,536; slot 0 is never given out. Refusal: [`Size`](Refusal::Size).
    pub fn new(capacity: usize) -> Result<Arena, Refusal> {
        let tables = Tables::fresh(capacity)?;
        Ok(Arena {
            tables: Rc::new(RefCell::new(tables)),
        })
    }

    /// The number of slots.
    pub fn capacity(&self) -> usize {
        self.tables.borrow().capacity()
    }

    /// How many nodes are live.
    pub fn live(&self) -> usize {
        self.tables.borrow().live()
    }

    /// How many more nodes there is room for.
    pub fn free(&self) -> usize {
        self.capacity() - 1 - self.live()
    }

    /// The model with nothing in it.
    pub fn empty(&self) -> Root {
        self.own(Id::EMPTY)
    }

    /// The leaf of a value: the live one if there is one, else a fresh one. Refusals: [`ZeroLeaf`](Refusal::ZeroLeaf),
    /// [`ManyHolds`](Refusal::ManyHolds), [`Full`](Refusal::Full).
    pub fn intern_leaf(&self, value: u16) -> Result<Root, Refusal> {
        let id = self.tables.borrow_mut().intern_leaf(value)?;
        Ok(self.own(id))
    }

    /// The branch of eight children: the live one if there is one, else a fresh one. It uses up the children; where it refuses they come back.
    /// Refusals: [`NotLive`](Refusal::NotLive) for a root of another arena, [`AllEmpty`](Refusal::AllEmpty), [`Tall`](Refusal::Tall),
    /// [`ManyHolds`](Refusal::ManyHolds), [`Full`](Refusal::Full).
    ///
    /// ```
    /// use fenpiling::{Arena, Cell};
    ///
    /// # fn main() -> Result<(), fenpiling::Refusal> {
    /// let arena = Arena::new(512)?;
    /// let mut octants = [(); 8].map(|()| arena.empty());
    /// octants[1] = arena.intern_leaf(40)?;
    /// let model = arena.intern_branch(octants)?;
    /// assert_eq!(model.lookup(1, Cell::new(1, 0, 0))?, 40);
    /// assert_eq!(model.lookup(0, Cell::new(0, 0, 0))?, 5);
    /// # Ok(())
    /// # }
    /// ```
    ///
    /// ```compile_fail,E0382
    /// # let arena = fenpiling::Arena::new(512).unwrap();
    /// let octants = [(); 8].map(|()| arena.intern_leaf(40).unwrap());
    /// let model = arena.intern_branch(octants);
    /// println!("{}", octants[0]);
    /// ```
    pub fn intern_branch(&self, mut children: [Root; 8]) -> Result<Root, BranchRefused> {
        let foreign = |child: &Root| !child.id.is_empty() && !self.has(child);
        let made = if children.iter().any(foreign) {
            Err(Refusal::NotLive)
        } else {
            let ids = children.each_ref().map(Root::id);
            self.tables.borrow_mut().intern_branch(ids)
        };
        match made {
            Ok(id) => {
                // their holds are used up
                for child in &mut children {
                    child.id = Id::EMPTY;
                }
                Ok(self.own(id))
            }
            Err(refusal) => Err(BranchRefused {
                refusal,
                children: Box::new(children),
            }),
        }
    }

    /// One more root of a live node, or of EMPTY. Refusals: [`NotLive`](Refusal::NotLive), [`ManyHolds`](Refusal::ManyHolds).
    ///
    /// ```
    /// use fenpiling::{Arena, Refusal};
    ///
    /// let arena = Arena::new(512)?;
    /// let leaf = arena.intern_leaf(7)?;
    /// let id = leaf.id();
    /// assert_eq!(arena.hold(id)?, leaf);
    /// drop(leaf);
    /// assert_eq!(arena.hold(id).err(), Some(Refusal::NotLive));
    /// # Ok::<(), Refusal>(())
    /// ```
    pub fn hold(&self, id: Id) -> Result<Root, Refusal> {
        self.tables.borrow_mut().hold(id)?;
        Ok(self.own(id))
    }

    /// The counts of a node; 0 and 0 for EMPTY. Refusal: [`NotLive`](Refusal::NotLive).
    pub fn counts(&self, id: Id) -> Result<Counts, Refusal> {
        self.tables.borrow_mut().counts(id)
    }

    /// Is the arena well formed? All calls keep it so. It can't see a hold count that something outside changed to another one in range: only the calls
    /// know how many holds were granted.
    pub fn check(&self) -> bool {
        self.tables.borrow_mut().check()
    }

    /// Is the root one of this arena's?
    pub fn has(&self, root: &Root) -> bool {
        Rc::ptr_eq(&self.tables, &root.arena.tables)
    }

    /// The root that owns a hold just granted on the node, or that stands for EMPTY.
    fn own(&self, id: Id) -> Root {
        Root {
            arena: self.clone(),
            id,
        }
    }
}

/// A model: the id of its root node with one hold on it, which goes back when this is dropped.
///
/// Two roots are equal if they are of one arena and have the same id. Models made by edits alone have the same cells exactly then.
///
/// ```
/// use fenpiling::{Arena, Cell};
///
/// # fn main() -> Result<(), fenpiling::Refusal> {
/// let arena = Arena::new(512)?;
/// let (here, there) = (Cell::new(0, 0, 0), Cell::new(63, 63, 63));
/// let one = arena.empty().edit(6, here, 5)?.edit(6, there, 9)?;
/// let other = arena.empty().edit(6, there, 9)?.edit(6, here, 5)?;
/// assert_eq!(one, other);
/// assert_eq!(one.counts().holds, 2);
/// drop(other);
/// assert_eq!(one.counts().holds, 1);
/// drop(one);
/// assert_eq!(arena.live(), 0);
/// # Ok(())
/// # }
/// ```
pub struct Root {
    arena: Arena,
    id: Id,
}

impl Root {
    /// The id of the root node.
    pub fn id(&self) -> Id {
        self.id
    }

    /// The arena of the model.
    pub fn arena(&self) -> &Arena {
        &self.arena
    }

    /// One more root of the model. Refusal: [`ManyHolds`](Refusal::ManyHolds).
    pub fn try_clone(&self) -> Result<Root, Refusal> {
        self.arena.hold(self.id)
    }

    /// The counts of the root node.
    pub fn counts(&self) -> Counts {
        let counts = self.arena.counts(self.id);
        counts.expect("a root's node is live")
    }

    /// The value of a cell: down from the root to EMPTY (0), a leaf (its value) or level `depth` (the stored value, which is a branch's average).
    /// Refusals: [`Depth`](Refusal::Depth), [`Position`](Refusal::Position).
    pub fn lookup(&self, depth: u32, cell: Cell) -> Result<u16, Refusal> {
        self.arena.tables.borrow_mut().lookup(self.id, depth, cell)
    }

    /// The model that has this value in one cell, and in all others the values of this one. Refusals: [`Depth`](Refusal::Depth),
    /// [`Position`](Refusal::Position), [`Tall`](Refusal::Tall), [`ManyHolds`](Refusal::ManyHolds), [`Full`](Refusal::Full).
    ///
    /// ```
    /// use fenpiling::{Arena, Cell, Refusal};
    ///
    /// let arena = Arena::new(512)?;
    /// let model = arena.empty().edit(6, Cell::new(63, 0, 0), 5)?;
    /// assert_eq!(model.edit(6, Cell::new(64, 0, 0), 5).err(), Some(Refusal::Position));
    /// assert_eq!(model.edit(6, Cell::new(63, 0, 0), 0)?, arena.empty());
    /// # Ok::<(), Refusal>(())
    /// ```
    pub fn edit(&self, depth: u32, cell: Cell, value: u16) -> Result<Root, Refusal> {
        let mut tables = self.arena.tables.borrow_mut();
        let id = tables.edit(self.id, depth, cell, value)?;
        Ok(self.arena.own(id))
    }

    /// The model with a reading entered, where a cell's edge is 2^-`edge` metres: a coordinate lies in the cell of its product with 2^`edge`, rounded down,
    /// and minus zero in cell 0. A shot is an edit of its cell. A bar edits every cell from its first x to its second, in rising order. The answer of a
    /// pause is this model once more.
    ///
    /// Refusals, in the order in which they are tested: [`Depth`](Refusal::Depth), for an edge above 6 too; [`Record`](Refusal::Record) for a bar whose
    /// second x is below its first; [`NotFinite`](Refusal::NotFinite); [`Position`](Refusal::Position), tested for the whole bar first;
    /// [`Tall`](Refusal::Tall), [`ManyHolds`](Refusal::ManyHolds), [`Full`](Refusal::Full).
    ///
    /// ```
    /// use fenpiling::{Arena, Cell, Metres, Reading, Refusal};
    ///
    /// let arena = Arena::new(512)?;
    /// // cells of a quarter of a metre
    /// let shot = Reading::Shot { at: Metres::new(1.0, 2.3, 0.1), value: 9 };
    /// let model = arena.empty().enter(&shot, 6, 2)?;
    /// assert_eq!(model.lookup(6, Cell::new(4, 9, 0))?, 9);
    /// let bar = Reading::Bar { from: Metres::new(1.0, 2.3, 0.1), second_x: 1.6, value: 5 };
    /// let model = model.enter(&bar, 6, 2)?;
    /// let values = [3, 4, 5, 6, 7].map(|x| model.lookup(6, Cell::new(x, 9, 0)));
    /// assert_eq!(values, [Ok(0), Ok(5), Ok(5), Ok(5), Ok(0)]);
    /// assert_eq!(model.enter(&Reading::Pause, 6, 2)?, model);
    /// let outside = Reading::Shot { at: Metres::new(1.0, 2.3, -0.1), value: 9 };
    /// assert_eq!(model.enter(&outside, 6, 2), Err(Refusal::Position));
    /// # Ok::<(), Refusal>(())
    /// ```
    ///
    /// Where a cell of a bar is refused, with [`ManyHolds`](Refusal::ManyHolds) or [`Full`](Refusal::Full), the whole bar is. This model, its holds and its
    /// cube stay, and so does every other: each live node has the id, the content and the counts that it had, and no other is live. But slots were given
    /// out and freed again on the way, so that the next nodes may get other slots and generations than without the bar, and ids that were dead are a
    /// recycling or more further on their way to match again.
    ///
    /// ```
    /// use fenpiling::{Arena, Cell, Metres, Reading, Refusal};
    ///
    /// // room for a leaf and a branch over it, and not for the branch of two cells beside that one
    /// let arena = Arena::new(3)?;
    /// let bar = Reading::Bar { from: Metres::new(0.0, 0.0, 0.0), second_x: 1.0, value: 5 };
    /// assert_eq!(arena.empty().enter(&bar, 1, 0), Err(Refusal::Full));
    /// assert_eq!(arena.live(), 0);
    /// let model = arena.empty().edit(1, Cell::new(0, 0, 0), 5)?;
    /// assert_eq!(model.id().generation(), 1);
    /// # Ok::<(), Refusal>(())
    /// ```
    pub fn enter(&self, reading: &Reading, depth: u32, edge: u32) -> Result<Root, Refusal> {
        self.enter_record(&reading.to_bytes(), depth, edge)
    }

    /// The model with the reading of a record entered, as [`enter`](Root::enter) does. Refusals: as there, and [`Record`](Refusal::Record) also where
    /// [`Reading::from_bytes`] gives it.
    ///
    /// ```
    /// use fenpiling::{Arena, Metres, Reading, Refusal};
    ///
    /// let arena = Arena::new(512)?;
    /// let shots = [1.0, 1.5, 1.75].map(|x| Reading::Shot { at: Metres::new(x, 0.5, 0.5), value: 7 });
    /// let file = shots.map(|shot| shot.to_bytes()).concat();
    /// let mut model = arena.empty();
    /// for record in file.chunks(Reading::LENGTH) {
    ///     model = model.enter_record(record, 6, 2)?;
    /// }
    /// assert_eq!(model.expand(6)?.iter().filter(|&&value| value == 7).count(), 3);
    /// assert_eq!(model.enter_record(&file[..39], 6, 2), Err(Refusal::Record));
    /// # Ok::<(), Refusal>(())
    /// ```
    pub fn enter_record(&self, record: &[u8], depth: u32, edge: u32) -> Result<Root, Refusal> {
        let mut tables = self.arena.tables.borrow_mut();
        let id = tables.enter(self.id, depth, edge, record)?;
        Ok(self.arena.own(id))
    }

    /// The cells of a cube of the depth in which a later model differs from this one, each once, in rising [path code](Cell::path). What the two share
    /// is passed over, so that the time goes with the changes and not with the cells of the cube.
    ///
    /// Refusals: [`Depth`](Refusal::Depth); [`NotLive`](Refusal::NotLive) for a model of another arena, where EMPTY is of every arena;
    /// [`Tall`](Refusal::Tall) where one of the two is taller than the depth.
    ///
    /// October's model is kept, November's edits go on from it, and at the month's end the planner pays by the cells that have changed:
    ///
    /// ```
    /// use fenpiling::{Arena, Cell, Change, Refusal};
    ///
    /// let arena = Arena::new(512)?;
    /// let (seam, shaft) = (Cell::new(1, 2, 3), Cell::new(40, 50, 60));
    /// let october = arena.empty().edit(6, seam, 9)?.edit(6, shaft, 5)?;
    ///
    /// // the seam is dug out, and clay found beside the shaft; what was dug at the shaft is filled again
    /// let november = october.edit(6, seam, 0)?.edit(6, shaft, 0)?;
    /// let november = november.edit(6, shaft, 5)?.edit(6, Cell::new(41, 50, 60), 5)?;
    ///
    /// let changes: Vec<Change> = october.changes(&november, 6)?.collect();
    /// assert_eq!(changes, [
    ///     Change { cell: seam, before: 9, after: 0 },
    ///     Change { cell: Cell::new(41, 50, 60), before: 0, after: 5 },
    /// ]);
    /// let dug = changes.iter().filter(|change| change.after == 0).count();
    /// assert_eq!((dug, changes.len()), (1, 2));
    /// assert_eq!(october.changes(&november, 5).err(), Some(Refusal::Tall));
    /// # Ok::<(), Refusal>(())
    /// ```
    pub fn changes(&self, later: &Root, depth: u32) -> Result<Changes, Refusal> {
        let arena = if self.id.is_empty() {
            &later.arena
        } else {
            &self.arena
        };
        // what is of another arena has no id in this one
        let right = if later.id.is_empty() || arena.has(later) {
            later.id
        } else {
            Id::INVALID
        };
        Changes::of(&mut arena.tables.borrow_mut(), self.id, right, depth)
    }

    /// The values of all 8^depth cells; cell (x, y, z) stands at y·4^depth + z·2^depth + x. Refusal: [`Depth`](Refusal::Depth).
    ///
    /// ```
    /// use fenpiling::{Arena, Cell, Refusal};
    ///
    /// let model = Arena::new(512)?.empty().edit(1, Cell::new(0, 1, 0), 5)?;
    /// assert_eq!(model.expand(1)?, [0, 0, 0, 0, 5, 0, 0, 0]);
    /// # Ok::<(), Refusal>(())
    /// ```
    pub fn expand(&self, depth: u32) -> Result<Vec<u16>, Refusal> {
        // a depth that will be refused takes no memory
        let cells = if depth <= MAX_DEPTH {
            1 << (3 * depth)
        } else {
            0
        };
        let mut cube = vec![0; cells];
        self.expand_into(depth, &mut cube)?;
        Ok(cube)
    }

    /// Writes what [`expand`](Root::expand) answers into a buffer. Refusals: [`Depth`](Refusal::Depth), [`Cube`](Refusal::Cube).
    pub fn expand_into(&self, depth: u32, cube: &mut [u16]) -> Result<(), Refusal> {
        self.arena.tables.borrow_mut().expand(self.id, depth, cube)
    }
}

impl Clone for Root {
    /// One more root of the model.
    ///
    /// # Panics
    ///
    /// Where the node already has 1,000,000 holds; [`try_clone`](Root::try_clone) refuses there.
    fn clone(&self) -> Root {
        let clone = self.try_clone();
        clone.expect("at most 1,000,000 roots of one node")
    }
}

impl Drop for Root {
    fn drop(&mut self) {
        let released = self.arena.tables.borrow_mut().release(self.id);
        debug_assert_eq!(released, Ok(()), "a root has its hold");
    }
}

impl PartialEq for Root {
    fn eq(&self, other: &Root) -> bool {
        self.arena.has(other) && self.id == other.id
    }
}

impl Eq for Root {}

impl fmt::Display for Root {
    /// The text of the id.
    fn fmt(&self, f: &mut fmt::Formatter<'_>) -> fmt::Result {
        fmt::Display::fmt(&self.id, f)
    }
}

impl fmt::Debug for Root {
    fn fmt(&self, f: &mut fmt::Formatter<'_>) -> fmt::Result {
        fmt::Display::fmt(&self.id, f)
    }
}

impl fmt::Debug for Arena {
    fn fmt(&self, f: &mut fmt::Formatter<'_>) -> fmt::Result {
        f.debug_struct("Arena")
            .field("capacity", &self.capacity())
            .field("live", &self.live())
            .finish()
    }
}

/// A branch was refused: why, and its children.
#[derive(Debug)]
pub struct BranchRefused {
    /// Why.
    pub refusal: Refusal,
    /// The children, with their holds.
    pub children: Box<[Root; 8]>,
}

impl fmt::Display for BranchRefused {
    fn fmt(&self, f: &mut fmt::Formatter<'_>) -> fmt::Result {
        fmt::Display::fmt(&self.refusal, f)
    }
}

impl std::error::Error for BranchRefused {}

impl From<BranchRefused> for Refusal {
    fn from(refused: BranchRefused) -> Refusal {
        refused.refusal
    }
}
