//! How often each thing happened in a run, so that a reader sees what was compared.
use arena::beside::Beside;
use arena::call::{Answered, Call};
use reference::document01::EMPTY;
use std::fmt;

#[derive(Default)]
pub struct Tally {
    /// What the comparison of each call counts.
    pub calls: arena::tally::Tally,
    pub edits: u64,
    accepted: u64,
    /// Accepted edits that answered the old root.
    unchanged: u64,
    /// Accepted edits that changed a cell and whose result was live already, EMPTY not counted.
    hits: u64,
    to_empty: u64,
    made: u64,
    /// Edits by which a leaf or EMPTY now stands for a cube that was cut before.
    pub collapsed: u64,
    /// Edits that cut a leaf above the cell into eight.
    pub cut: u64,
    /// Edits of roots that are not tidy.
    pub untidy: u64,
    /// Refused edits by their numbers.
    refused: [u64; 13],
    holds: u64,
    releases: u64,
    /// Cells looked up, and cubes expanded and compared in full.
    pub cells: u64,
    pub cubes: u64,
    /// Pairs of edits of which both orders were accepted and compared.
    pub orders: u64,
    /// Accepted edits on the original too, and how many of them gave the same id.
    original: u64,
    same_id: u64,
}

impl Tally {
    /// Runs a call on all sides, compares and counts. The error is the difference in words.
    pub fn call(&mut self, beside: &mut Beside, call: Call<u64>) -> Result<Answered, String> {
        let live_before = beside.document().live();
        let answered =
            (beside.call(&call, &mut self.calls)).map_err(|words| format!("{call:x?}: {words}"))?;
        let made = beside.document().live().saturating_sub(live_before);
        self.count(&call, &answered, made, beside);
        Ok(answered)
    }

    /// Counts a call that document 01 has answered, and by which `made` nodes were made.
    fn count(&mut self, call: &Call<u64>, answered: &Answered, made: usize, beside: &Beside) {
        let id = answered.id;
        match call {
            Call::Edit(_, _) if answered.no != 0 => {
                self.edits += 1;
                self.refused[answered.no as usize] += 1;
            }
            Call::Edit(root, _) => {
                self.edits += 1;
                self.accepted += 1;
                self.made += made as u64;
                self.to_empty += u64::from(id == EMPTY);
                self.unchanged += u64::from(id == *root);
                self.hits += u64::from(made == 0 && id != EMPTY && id != *root);
                let twin = beside.twin(id);
                self.original += u64::from(twin.is_some());
                self.same_id += u64::from(twin == Some(id));
            }
            Call::Hold(_) => self.holds += 1,
            Call::Release(_) => self.releases += 1,
            Call::Leaf(_) | Call::Branch(_) | Call::Counts(_) => {}
        }
    }

    pub fn add(&mut self, other: &Tally) {
        self.edits += other.edits;
        self.orders += other.orders;
        self.cubes += other.cubes;
        self.original += other.original;
    }

    /// What the whole program compared.
    pub fn summary(&self) -> String {
        format!(
            "{} edits compared with document 01, {} of them on the original too, {} cubes in full, {} pairs of edits in both orders",
            self.edits, self.original, self.cubes, self.orders
        )
    }
}

impl fmt::Display for Tally {
    fn fmt(&self, f: &mut fmt::Formatter<'_>) -> fmt::Result {
        write!(
            f,
            "{} edits: accepted {} (the old root {}, a live node {}, EMPTY {}; {} nodes made; collapsed {}, cut {}, of untidy roots {}), refused",
            self.edits,
            self.accepted,
            self.unchanged,
            self.hits,
            self.to_empty,
            self.made,
            self.collapsed,
            self.cut,
            self.untidy
        )?;
        for (number, times) in self.refused.iter().enumerate() {
            if *times > 0 {
                write!(f, " {number}: {times}")?;
            }
        }
        writeln!(f, "; holds {}, releases {}", self.holds, self.releases)?;
        write!(
            f,
            "    every word {} times, checked {} times; {} cells looked up, {} cubes in full; both orders {} times; on the original too {} edits, {} with the same id",
            self.calls.whole,
            self.calls.checks,
            self.cells,
            self.cubes,
            self.orders,
            self.original,
            self.same_id
        )
    }
}
