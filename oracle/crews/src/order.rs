//! One order of a list, entered entry by entry, and its end compared.
use crate::cube::{Cube, Entry};
use crate::judge::{self, Asked};
use crate::lists::any_cell;
use crate::site::{Told, edit};
use crate::wrong::{self, Given};
use crate::yard::Yard;
use arena::call::Answered;
use reference::document01::{EMPTY, is_leaf};

/// Cells at random that are looked up besides those of the list.
const OTHER_CELLS: usize = 4;
/// Of each depth, the ends are expanded and compared in full, one in so many.
const EXPANDED_ONE_IN: [usize; 7] = [1, 1, 1, 4, 16, 64, 64];
/// Wrong readings are tried on lists to this length, of cubes to this depth, one in so many.
const TOLD: usize = 40;
const TOLD_DEPTH: u32 = 3;
const TOLD_ONE_IN: usize = 16;
/// A reading that passes over refused edits is tried in arenas to this capacity.
const CARRIED_ON: usize = 100;

/// What becomes of an order's passing roots, once the next root is made.
#[derive(Clone, Copy, Debug, PartialEq, Eq)]
pub enum Passing {
    /// Each is released at once.
    AtOnce,
    /// They are released some time later, in any order.
    Late,
    /// They are held until all orders of the list have ended.
    Never,
}

pub const PASSING: [Passing; 3] = [Passing::AtOnce, Passing::Late, Passing::Never];

/// One order to be entered, of at least one entry.
pub struct Order<'a> {
    pub list: &'a [Entry],
    pub passing: Passing,
    /// Other calls come between the edits, one in so many; none do, if there is no number.
    pub busy: Option<usize>,
}

/// How an order ends.
enum End {
    Root(u64),
    /// The root that was reached, and how many entries are in it.
    Refused(u64, usize),
}

impl Yard<'_> {
    /// Enters one order from the start, whose cube this is, and compares its end. The cube is left as it was.
    pub fn order(&mut self, order: &Order, cube: &mut Cube) -> Told {
        let list = order.list;
        let live_before = self.site.live();
        let end = self.enter(order, cube.depth)?;
        let is_tried = cube.depth <= TOLD_DEPTH && list.len() <= TOLD;
        let is_tried = is_tried && self.random.once_in(TOLD_ONE_IN);
        match end {
            End::Root(end) => {
                let first = self.ends.first().copied();
                self.ends.push(end);
                self.count(order, end, first.is_some());
                // Nothing else was called, and all that the order made on its way is gone again.
                let is_alone = order.busy.is_none() && order.passing == Passing::AtOnce;
                let live = (first.is_some() && is_alone).then_some(live_before);
                let before = cube.assign(list);
                self.compare(list, end, first, live, cube)?;
                cube.take_back(list, &before);
                if is_tried {
                    self.tell(&Given {
                        start: cube,
                        list,
                        holds: self.site.holds_of(end),
                        is_first: first.is_none(),
                    });
                }
            }
            End::Refused(root, entered) => {
                self.stuck += 1;
                self.tally.refused += 1;
                self.tally.refused_edits += entered as u64;
                if is_tried && self.site.capacity() <= CARRIED_ON {
                    self.carry_on(root, cube, list, entered)?;
                }
            }
        }
        Ok(())
    }

    /// Only an arena with less room than an edit can need may refuse an entry: a leaf and a branch of each level are new at most.
    fn enter(&mut self, order: &Order, depth: u32) -> Result<End, String> {
        let mut root = self.start;
        for (at, entry) in order.list.iter().enumerate() {
            if let Some(times) = order.busy
                && self.random.once_in(times)
            {
                self.other_call()?;
            }
            let is_passing = at > 0;
            let next = match self.site.call(edit(root, depth, *entry))? {
                Answered { no: 0, id, .. } => id,
                Answered { no: 11, .. } if self.site.free() < depth as usize + 1 => {
                    self.passing.extend(is_passing.then_some(root));
                    return Ok(End::Refused(root, at));
                }
                Answered { no, .. } => {
                    return Err(format!("{entry:?} of {root:#x} is refused with {no}"));
                }
            };
            if is_passing {
                self.pass(root, order.passing)?;
            }
            root = next;
        }
        Ok(End::Root(root))
    }

    /// The root after a passing one is made.
    fn pass(&mut self, root: u64, passing: Passing) -> Told {
        match passing {
            Passing::AtOnce => self.site.release(root),
            Passing::Late => {
                self.passing.push(root);
                match self.random.once_in(2) {
                    true => self.release_passing(),
                    false => Ok(()),
                }
            }
            Passing::Never => {
                self.passing.push(root);
                Ok(())
            }
        }
    }

    /// Releases any one of the passing roots that are left, if there is one.
    pub fn release_passing(&mut self) -> Told {
        if self.passing.is_empty() {
            return Ok(());
        }
        let at = self.random.below(self.passing.len());
        let id = self.passing.swap_remove(at);
        self.site.release(id)
    }

    fn count(&mut self, order: &Order, end: u64, is_second: bool) {
        self.stuck = 0;
        let tally = &mut *self.tally;
        tally.ended(order.list.len(), self.site.is_documented());
        tally.passing[order.passing as usize] += 1;
        tally.same += u64::from(is_second);
        tally.to_empty += u64::from(end == EMPTY);
        tally.to_leaf += u64::from(is_leaf(end));
        tally.to_start += u64::from(end == self.start);
    }

    /// Compares the end of an order with the plain cube and with the first order's end.
    fn compare(
        &mut self,
        list: &[Entry],
        end: u64,
        first: Option<u64>,
        live: Option<usize>,
        cube: &Cube,
    ) -> Told {
        let depth = cube.depth;
        let mut cells: Vec<_> = list.iter().map(|entry| entry.cell).collect();
        for _ in 0..OTHER_CELLS {
            cells.push(any_cell(depth, &mut self.random));
        }
        let asked = Asked {
            cells,
            is_expanded: self.random.once_in(EXPANDED_ONE_IN[depth as usize]),
        };
        let roots = [self.start, end];
        judge::compare(&mut self.site, self.tally, roots, &asked, cube, first, live)
    }

    fn tell(&mut self, given: &Given) {
        for (times, is_told) in self.tally.told.iter_mut().zip(wrong::told(given)) {
            *times += u64::from(is_told);
        }
    }

    /// Carries on after a refused entry, on a copy of the tables, as a reading would that passes over it: most often another cube comes of it.
    fn carry_on(&mut self, root: u64, start: &Cube, list: &[Entry], entered: usize) -> Told {
        let mut copy = self.site.port().clone();
        let mut root = root;
        let mut accepted = list[..entered].to_vec();
        for entry in &list[entered..] {
            let answered = copy.call(&edit(root, start.depth, *entry));
            if answered.no == 0 {
                root = answered.id;
                accepted.push(*entry);
            }
        }
        let mut values = vec![0; start.values.len()];
        let no = copy.expand(root, start.depth, &mut values);
        if no != 0 || values != start.with(&accepted).values {
            return Err("the entries that are accepted do not make their cube".to_string());
        }
        self.tally.passed_over += u64::from(values != start.with(list).values);
        Ok(())
    }
}
