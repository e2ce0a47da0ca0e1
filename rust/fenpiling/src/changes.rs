use crate::ffi::Tables;
use crate::{Cell, Id, Refusal};
use std::iter::FusedIterator;
use std::vec;

/// A cell in which two models differ.
#[derive(Clone, Copy, Debug, PartialEq, Eq, Hash)]
pub struct Change {
    /// The cell.
    pub cell: Cell,
    /// Its value in the earlier model.
    pub before: u16,
    /// Its value in the later one.
    pub after: u16,
}

/// The cells in which two models differ, in rising [path code](Cell::path): what [`Root::changes`](crate::Root::changes) answers.
///
/// ```
/// use fenpiling::{Arena, Cell, Refusal};
///
/// let arena = Arena::new(512)?;
/// let october = arena.empty();
/// let november = october.edit(6, Cell::new(1, 2, 3), 9)?;
/// let changes = october.changes(&november, 6)?;
/// assert_eq!((changes.len(), changes.opened()), (1, 6));
/// for change in changes {
///     println!("{:?}: {} before, {} after", change.cell, change.before, change.after);
/// }
/// # Ok::<(), Refusal>(())
/// ```
#[derive(Clone, Debug)]
pub struct Changes {
    rest: vec::IntoIter<Change>,
    opened: u32,
}

impl Changes {
    /// The first list has a place for each cell of a cube of this depth.
    const FIRST_ROOM: u32 = 3;

    /// The changes from one root to another, in a list that becomes longer until all find place.
    pub(crate) fn of(
        tables: &mut Tables,
        left: Id,
        right: Id,
        depth: u32,
    ) -> Result<Changes, Refusal> {
        // each list has a place for each cell of a cube of this depth, and the last one for each cell that could differ
        let mut room = depth.min(Changes::FIRST_ROOM);
        loop {
            match tables.compare(left, right, depth, 1 << (3 * room)) {
                Err(Refusal::ShortList) => room += 1,
                compared => {
                    let (changes, opened) = compared?;
                    return Ok(Changes {
                        rest: changes.into_iter(),
                        opened,
                    });
                }
            }
        }
    }

    /// How many pairs of ids were opened to find them. A pair is opened if its ids differ and at least one is a branch other than EMPTY, starting with the
    /// roots; then the pairs at its eight places are looked at in the same way, where a leaf or EMPTY stands for its own eight children.
    pub fn opened(&self) -> u32 {
        self.opened
    }
}

impl Iterator for Changes {
    type Item = Change;

    fn next(&mut self) -> Option<Change> {
        self.rest.next()
    }

    fn size_hint(&self) -> (usize, Option<usize>) {
        self.rest.size_hint()
    }
}

impl DoubleEndedIterator for Changes {
    fn next_back(&mut self) -> Option<Change> {
        self.rest.next_back()
    }
}

impl ExactSizeIterator for Changes {}

impl FusedIterator for Changes {}
