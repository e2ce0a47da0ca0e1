use crate::{Cell, Change, Refusal, Root};
use std::error::Error;
use std::fmt;

impl Root {
    /// The model with every change of a list entered, in the list's order: each is an [`edit`](Root::edit) of what the one before it made, and each passing
    /// root is dropped after the next is made. This root stays as it is, and the answer is one new root. A change is a cell with its new value, or a
    /// [`Change`], of which the value after it is entered; a list that is to be used again goes as `list.iter().copied()`.
    ///
    /// Two crews hand in their lists, and it does not matter whose comes first:
    ///
    /// ```
    /// use fenpiling::{Arena, Cell, Refusal};
    ///
    /// # fn main() -> Result<(), Refusal> {
    /// let arena = Arena::new(512)?;
    /// let october = arena.empty().edit(6, Cell::new(1, 2, 3), 9)?;
    /// let north = [(Cell::new(1, 2, 3), 0), (Cell::new(1, 2, 4), 5)];
    /// let south = [(Cell::new(40, 50, 60), 5), (Cell::new(41, 50, 60), 7)];
    /// let november = october.enter_all(6, north.into_iter().chain(south))?;
    /// assert_eq!(october.enter_all(6, south.into_iter().chain(north))?, november);
    /// assert_eq!(november.counts().holds, 1);
    ///
    /// // what has changed is such a list too
    /// assert_eq!(october.enter_all(6, october.changes(&november, 6)?)?, november);
    ///
    /// // a cell that comes twice has the last value entered for it: here those of the north's list
    /// let corrected = [(Cell::new(1, 2, 3), 8), (Cell::new(1, 2, 4), 5), (Cell::new(1, 2, 3), 0)];
    /// assert_eq!(october.enter_all(6, corrected)?, october.enter_all(6, north)?);
    /// # Ok(())
    /// # }
    /// ```
    ///
    /// # Orders
    ///
    /// Any two orders of a list in which no cell comes twice give equal roots. Where a cell comes twice, the last value entered for it decides, and
    /// the root is equal to that of a list of those last values alone, in any order. This is so on three terms:
    ///
    /// - Both lists are entered into one model, at one depth, and the model is kept from the first list to the second. It is tidy: none of its branches has
    ///   eight times the same leaf. EMPTY is tidy, and so is whatever edits, readings and lists make of a tidy model; [`Arena::intern_branch`](crate::Arena::intern_branch) can make others.
    /// - Every change of both lists is accepted.
    /// - The first answer is kept until the second is there. Else its nodes may have gone, and those made anew have other slots or generations: the ids can
    ///   differ then, though the cells are the same.
    ///
    /// ```
    /// # use fenpiling::{Arena, Cell, Refusal};
    /// # fn main() -> Result<(), Refusal> {
    /// # let arena = Arena::new(512)?;
    /// let list = [(Cell::new(1, 2, 3), 9), (Cell::new(40, 50, 60), 5)];
    /// let first = arena.empty().enter_all(6, list)?;
    /// let (id, cube) = (first.id(), first.expand(6)?);
    /// drop(first);
    /// let second = arena.empty().enter_all(6, list.into_iter().rev())?;
    /// assert_ne!(second.id(), id);
    /// assert_eq!(second.expand(6)?, cube);
    /// # Ok(())
    /// # }
    /// ```
    ///
    /// # Refusals
    ///
    /// The list ends at the first change that is refused, and the answer is its refusal with its place: [`Depth`](Refusal::Depth),
    /// [`Position`](Refusal::Position), [`Tall`](Refusal::Tall), [`ManyHolds`](Refusal::ManyHolds) or [`Full`](Refusal::Full), as of an
    /// [`edit`](Root::edit). What the list has after it is not asked for. The answer of a list with no change is this model once more, at any depth; where
    /// [`try_clone`](Root::try_clone) refuses, the place is 0.
    ///
    /// This model, its holds and its cube stay, and so does every other: each live node has the id, the content and the counts that it had, and no other is
    /// live (if the list, where it is worked out on the way, keeps and drops no root itself). But slots were given out and freed again on the way, so that the next nodes may get other slots and generations than without the list, and ids
    /// that were dead may be a recycling or more further on their way to match again.
    ///
    /// ```
    /// # use fenpiling::{Arena, Cell, ListRefused, Refusal};
    /// # fn main() -> Result<(), Refusal> {
    /// # let arena = Arena::new(512)?;
    /// # let october = arena.empty().edit(6, Cell::new(1, 2, 3), 9)?;
    /// let live = arena.live();
    /// let list = [(Cell::new(1, 2, 3), 5), (Cell::new(64, 0, 0), 5), (Cell::new(63, 0, 0), 5)];
    /// let refused = ListRefused { refusal: Refusal::Position, at: 1 };
    /// assert_eq!(october.enter_all(6, list), Err(refused));
    /// assert_eq!((arena.live(), october.counts().holds), (live, 1));
    /// assert_eq!(october.lookup(6, Cell::new(1, 2, 3))?, 9);
    /// # Ok(())
    /// # }
    /// ```
    ///
    /// Whether a list is accepted can depend on its order where the arena is nearly full, since the nodes of passing roots take slots on the way:
    ///
    /// ```
    /// # use fenpiling::{Arena, Cell, ListRefused, Refusal};
    /// # fn main() -> Result<(), Refusal> {
    /// // room for two leaves with a branch over each
    /// let arena = Arena::new(5)?;
    /// let october = arena.empty().edit(1, Cell::new(0, 0, 0), 5)?;
    /// let (dug, found) = ((Cell::new(0, 0, 0), 0), (Cell::new(1, 0, 0), 9));
    /// assert!(october.enter_all(1, [dug, found]).is_ok());
    /// // the branch of both leaves is on the way
    /// let refused = ListRefused { refusal: Refusal::Full, at: 1 };
    /// assert_eq!(october.enter_all(1, [found, dug]), Err(refused));
    /// # Ok(())
    /// # }
    /// ```
    pub fn enter_all(
        &self,
        depth: u32,
        changes: impl IntoIterator<Item: Into<(Cell, u16)>>,
    ) -> Result<Root, ListRefused> {
        let mut passing: Option<Root> = None;
        for (at, change) in changes.into_iter().enumerate() {
            let (cell, value) = change.into();
            let model = passing.as_ref().unwrap_or(self);
            match model.edit(depth, cell, value) {
                Ok(next) => passing = Some(next),
                Err(refusal) => return Err(ListRefused { refusal, at }),
            }
        }
        match passing {
            Some(last) => Ok(last),
            None => self
                .try_clone()
                .map_err(|refusal| ListRefused { refusal, at: 0 }),
        }
    }
}

impl From<Change> for (Cell, u16) {
    /// The cell with its value in the later model.
    fn from(change: Change) -> (Cell, u16) {
        (change.cell, change.after)
    }
}

/// A list of changes was refused: why, and at which of them. [`Root::enter_all`] says what stays then.
///
/// ```
/// use fenpiling::{ListRefused, Refusal};
///
/// let refused = ListRefused { refusal: Refusal::Full, at: 3 };
/// assert_eq!(refused.to_string(), "change 3 of the list: more new nodes than free slots");
/// ```
#[derive(Clone, Copy, Debug, PartialEq, Eq)]
pub struct ListRefused {
    /// Why.
    pub refusal: Refusal,
    /// The place of the refused change in the list. The first is 0, in the text too.
    pub at: usize,
}

impl fmt::Display for ListRefused {
    fn fmt(&self, f: &mut fmt::Formatter<'_>) -> fmt::Result {
        write!(f, "change {} of the list: {}", self.at, self.refusal)
    }
}

impl Error for ListRefused {
    fn source(&self) -> Option<&(dyn Error + 'static)> {
        Some(&self.refusal)
    }
}

impl From<ListRefused> for Refusal {
    fn from(refused: ListRefused) -> Refusal {
        refused.refusal
    }
}
