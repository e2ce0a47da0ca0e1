//! How often each thing happened, so that a reader sees what was compared.
use crate::wrong::WRONG;
use std::fmt;

#[derive(Default)]
pub struct Tally {
    /// Pairs of roots by the depth; the last are those of depths above 6.
    pub pairs: [u64; 8],
    /// Calls of the port.
    pub comparisons: u64,
    /// Those calls at depth 6.
    pub deepest: u64,
    pub accepted: u64,
    /// Refused calls by their numbers.
    pub refused: [u64; 16],
    /// Cells that accepted calls listed.
    pub cells: u64,
    /// Pairs of roots that differ in no cell and were opened.
    pub in_vain: u64,
    /// Pairs of tidy roots, opened no more often than their depth for each cell.
    pub tidy: u64,
    /// Lists entered into the left root, and those for which there were too few free slots.
    pub entered: u64,
    pub not_entered: u64,
    /// Pairs that tell document 02 from each wrong reading.
    pub told: [u64; WRONG.len()],
}

impl Tally {
    pub fn all_pairs(&self) -> u64 {
        self.pairs.iter().sum()
    }

    pub fn add(&mut self, other: &Tally) {
        for (all, more) in self.pairs.iter_mut().zip(other.pairs) {
            *all += more;
        }
        for (all, more) in self.refused.iter_mut().zip(other.refused) {
            *all += more;
        }
        for (all, more) in self.told.iter_mut().zip(other.told) {
            *all += more;
        }
        self.comparisons += other.comparisons;
        self.deepest += other.deepest;
        self.accepted += other.accepted;
        self.cells += other.cells;
        self.in_vain += other.in_vain;
        self.tidy += other.tidy;
        self.entered += other.entered;
        self.not_entered += other.not_entered;
    }
}

impl fmt::Display for Tally {
    fn fmt(&self, f: &mut fmt::Formatter<'_>) -> fmt::Result {
        write!(
            f,
            "{} comparisons of {} pairs, by depth {:?}; accepted {} with {} cells, refused",
            self.comparisons,
            self.all_pairs(),
            self.pairs,
            self.accepted,
            self.cells
        )?;
        for (number, times) in self.refused.iter().enumerate() {
            if *times > 0 {
                write!(f, " {number}: {times}")?;
            }
        }
        write!(
            f,
            "\n    {} pairs were opened and differ nowhere; {} pairs of tidy roots; {} lists entered, {} more had no room",
            self.in_vain, self.tidy, self.entered, self.not_entered
        )
    }
}
