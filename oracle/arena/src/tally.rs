//! How often each thing happened in a run, so that a reader sees what was compared.
use crate::call::{Answered, Call};
use reference::arena::Arena;
use reference::document01::generation;
use std::fmt;

#[derive(Default)]
pub struct Tally {
    pub calls: u64,
    leaf_hits: u64,
    leaf_misses: u64,
    branch_hits: u64,
    branch_misses: u64,
    holds: u64,
    releases: u64,
    counts: u64,
    /// Accepted calls of which a child stood in several places.
    repeated: u64,
    /// Refusals by their numbers.
    refused: [u64; 13],
    recycled: u64,
    most_recycled: usize,
    reused: u64,
    most_generation: u16,
    /// How often every slot was compared after a call, and how often the arena check was asked.
    pub whole: u64,
    pub checks: u64,
    /// Accepted calls that ran on the original too.
    pub beside_original: u64,
    pub same_id: u64,
    pub other_id: u64,
    /// Sequences in which the two orders of freeing parted.
    pub orders_differ: u64,
    /// What the original with a weakened hash did first that document 01 does not say.
    pub departed: Option<String>,
}

impl Tally {
    /// Counts a call that document 01's arena has answered; before it `freed_before` slots were freed and `next_before` was the next one.
    pub fn count(
        &mut self,
        call: &Call<u64>,
        answered: &Answered,
        arena: &Arena,
        freed_before: usize,
        next_before: usize,
    ) {
        self.calls += 1;
        if answered.no != 0 {
            self.refused[answered.no as usize] += 1;
            return;
        }
        let was_reused = arena.freed().len() < freed_before;
        let is_fresh = was_reused || arena.next() > next_before;
        match call {
            Call::Leaf(_) if is_fresh => self.leaf_misses += 1,
            Call::Leaf(_) => self.leaf_hits += 1,
            Call::Branch(children) => {
                if is_fresh {
                    self.branch_misses += 1;
                } else {
                    self.branch_hits += 1;
                }
                let repeats = |i: usize| children[i] != 0 && children[..i].contains(&children[i]);
                self.repeated += u64::from((1..8).any(repeats));
            }
            Call::Hold(_) => self.holds += 1,
            Call::Release(_) => self.releases += 1,
            Call::Counts(_) => self.counts += 1,
            // The program `edits` counts these.
            Call::Edit(_, _) => {}
        }
        if is_fresh {
            self.most_generation = self.most_generation.max(generation(answered.id));
            self.reused += u64::from(was_reused);
        }
        let recycled = arena.freed().len().saturating_sub(freed_before);
        self.recycled += recycled as u64;
        self.most_recycled = self.most_recycled.max(recycled);
    }
}

impl fmt::Display for Tally {
    fn fmt(&self, f: &mut fmt::Formatter<'_>) -> fmt::Result {
        writeln!(
            f,
            "{} calls: leaf hit {} miss {}, branch hit {} miss {} (a child repeated {}), hold {}, release {}, counts {}",
            self.calls,
            self.leaf_hits,
            self.leaf_misses,
            self.branch_hits,
            self.branch_misses,
            self.repeated,
            self.holds,
            self.releases,
            self.counts
        )?;
        write!(f, "    refused")?;
        for (number, times) in self.refused.iter().enumerate() {
            if *times > 0 {
                write!(f, " {number}: {times}")?;
            }
        }
        writeln!(
            f,
            "; recycled {} slots, at most {} in one release; {} slots given out again, to generation {:#x}; every slot compared {} times; the arena check said yes {} times",
            self.recycled,
            self.most_recycled,
            self.reused,
            self.most_generation,
            self.whole,
            self.checks
        )?;
        write!(
            f,
            "    on the original too {} calls; the same id {} times, the same node in another slot {} times, after the orders of freeing parted in {} sequences",
            self.beside_original, self.same_id, self.other_id, self.orders_differ
        )
    }
}
