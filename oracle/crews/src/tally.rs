//! How often each thing happened, so that a reader sees what was compared.
use crate::lists::KINDS;
use crate::order::PASSING;
use crate::wrong::WRONG;
use std::fmt;

#[derive(Default)]
pub struct Tally {
    /// Lists by their depth, and by how their orders come about.
    pub lists: [u64; 7],
    pub kinds: [u64; KINDS.len()],
    /// Lists from EMPTY, and from a root.
    pub from_empty: u64,
    pub from_root: u64,
    /// Edits of orders that ended, and those of them that were compared with document 01.
    pub edits: u64,
    pub documented: u64,
    /// Orders that ended, and those of them that came after a first one of their list and ended in its id.
    pub ended: u64,
    pub same: u64,
    /// Orders that a full arena refused on their way, and the edits that they had entered by then.
    pub refused: u64,
    pub refused_edits: u64,
    /// Lists of which one order ended and another was refused.
    pub parted: u64,
    /// Orders by what becomes of their passing roots.
    pub passing: [u64; PASSING.len()],
    /// Orders that ended in EMPTY, in a leaf, and in the root that they started from.
    pub to_empty: u64,
    pub to_leaf: u64,
    pub to_start: u64,
    /// Other calls between the edits, and how many of these were refused.
    pub between: u64,
    pub between_refused: u64,
    /// Cells looked up, cubes expanded and compared in full, arena checks.
    pub cells: u64,
    pub cubes: u64,
    pub checks: u64,
    /// Orders that tell document 02 from each wrong reading.
    pub told: [u64; WRONG.len()],
    /// Refused orders that tell it from a reading that passes over refused edits.
    pub passed_over: u64,
}

/// Adds numbers to numbers, place by place.
fn add_all(all: &mut [u64], more: &[u64]) {
    for (all, more) in all.iter_mut().zip(more) {
        *all += more;
    }
}

impl Tally {
    /// An order of so many edits ended.
    pub fn ended(&mut self, edits: usize, is_documented: bool) {
        self.ended += 1;
        self.edits += edits as u64;
        if is_documented {
            self.documented += edits as u64;
        }
    }

    pub fn add(&mut self, other: &Tally) {
        add_all(&mut self.lists, &other.lists);
        add_all(&mut self.kinds, &other.kinds);
        add_all(&mut self.passing, &other.passing);
        add_all(&mut self.told, &other.told);
        self.from_empty += other.from_empty;
        self.from_root += other.from_root;
        self.edits += other.edits;
        self.documented += other.documented;
        self.ended += other.ended;
        self.same += other.same;
        self.refused += other.refused;
        self.refused_edits += other.refused_edits;
        self.parted += other.parted;
        self.to_empty += other.to_empty;
        self.to_leaf += other.to_leaf;
        self.to_start += other.to_start;
        self.between += other.between;
        self.between_refused += other.between_refused;
        self.cells += other.cells;
        self.cubes += other.cubes;
        self.checks += other.checks;
        self.passed_over += other.passed_over;
    }
}

impl fmt::Display for Tally {
    fn fmt(&self, f: &mut fmt::Formatter<'_>) -> fmt::Result {
        writeln!(
            f,
            "{} edits in {} orders that ended, {} of them in the first one's id; {} orders refused after {} edits; {} lists, by depth {:?}, distinct, of two crews, repeated {:?}; from EMPTY {}, from a root {}",
            self.edits,
            self.ended,
            self.same,
            self.refused,
            self.refused_edits,
            self.lists.iter().sum::<u64>(),
            self.lists,
            self.kinds,
            self.from_empty,
            self.from_root
        )?;
        write!(
            f,
            "    passing roots released at once, late, never {:?}; to EMPTY {}, to a leaf {}, to the start {}; of {} lists an order ended and another was refused; {} other calls, {} refused; {} cells looked up, {} cubes in full, {} checks",
            self.passing,
            self.to_empty,
            self.to_leaf,
            self.to_start,
            self.parted,
            self.between,
            self.between_refused,
            self.cells,
            self.cubes,
            self.checks
        )
    }
}
