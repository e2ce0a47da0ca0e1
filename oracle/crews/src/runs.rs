//! Lists at random in one arena, one after the other.
use crate::site::Told;
use crate::tally::Tally;
use crate::yard::Yard;
use std::fmt;

/// Whether every call is compared with document 01 too.
#[derive(Clone, Copy, Debug, PartialEq, Eq)]
pub enum Document {
    Absent,
    Beside,
}

/// What one run does.
pub struct Plan {
    pub capacity: usize,
    /// Edits in orders.
    pub edits: u64,
    pub deepest: u32,
    /// Lists have at most so many entries, but for cells that come again.
    pub longest: usize,
    pub document: Document,
    pub seed: u64,
}

impl fmt::Display for Plan {
    fn fmt(&self, f: &mut fmt::Formatter<'_>) -> fmt::Result {
        write!(
            f,
            "capacity {}, depth to {}, lists to {}, document 01 {:?}, seed {:#x}",
            self.capacity, self.deepest, self.longest, self.document, self.seed
        )
    }
}

/// Runs one plan to its end, and then gives everything back: nothing is live then.
pub fn run(plan: &Plan, tally: &mut Tally) -> Told {
    let mut yard = Yard::new(plan, tally);
    // A small arena may refuse every order: each of these counts as one edit here.
    let done = |tally: &Tally| tally.edits + tally.refused;
    let end = done(yard.tally) + plan.edits;
    (|| {
        while done(yard.tally) < end {
            yard.list()?;
        }
        yard.close()
    })()
    .map_err(|words| format!("{plan}: {words}"))
}
