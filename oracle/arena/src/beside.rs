//! The port beside document 01, call by call; and beside them the original with document 01 in the original's order of freeing.
use crate::call::{Answered, Call, Entry, document};
use crate::check;
use crate::lent::Lent;
use crate::original::Companion;
use crate::tally::Tally;
use reference::arena::{Arena, Order};
use reference::tables::{slots_of, words_for};

/// To this capacity every byte of the tables is compared after every call.
const ALWAYS_WHOLE: usize = 100;
/// Above it every byte is compared after so many calls, and the slots that a call touches after each.
const WHOLE_EVERY: u64 = 1_000;

/// The arena check is asked after so many calls, or after 2 for each slot if these are more.
const CHECK_EVERY: usize = 64;

/// Whether the original runs beside, and how.
#[derive(Clone, Copy, Debug, PartialEq, Eq)]
pub enum Original {
    Absent,
    Beside,
    /// Its hash is weakened: it runs until it departs from document 01.
    Weakened,
}

pub struct Beside {
    pub port: Lent,
    document: Arena,
    companion: Option<Companion>,
    original: Original,
    /// Is every byte of the tables compared after every call?
    is_always_whole: bool,
    calls: u64,
}

impl Beside {
    pub fn fresh(capacity: usize, original: Original) -> Self {
        Self {
            port: Lent::fresh(capacity),
            document: Arena::fresh(capacity, Order::DepthFirst).unwrap(),
            companion: (original != Original::Absent).then(|| Companion::fresh(capacity)),
            original,
            is_always_whole: capacity <= ALWAYS_WHOLE,
            calls: 0,
        }
    }

    /// The same with every byte compared after every call to another capacity.
    pub fn whole_to(mut self, capacity: usize) -> Self {
        self.is_always_whole = self.document.capacity() <= capacity;
        self
    }

    pub fn document(&self) -> &Arena {
        &self.document
    }

    /// The id in the original of a node or of EMPTY, if the original runs beside.
    pub fn twin(&self, id: u64) -> Option<u64> {
        self.companion.as_ref().map(|companion| companion.twin(id))
    }

    /// The port's arena, and the original's if it runs beside.
    pub fn into_parts(self) -> (Lent, Option<Companion>) {
        (self.port, self.companion)
    }

    /// Runs a call on all sides and compares. The error is the difference in words.
    pub fn call(&mut self, call: &Call<u64>, tally: &mut Tally) -> Result<Answered, String> {
        let (freed_before, next_before) = (self.document.freed().len(), self.document.next());
        let port = self.port.call(call);
        let expected = document(&mut self.document, call);
        self.same(&port, &expected, freed_before, tally)?;
        tally.count(call, &expected, &self.document, freed_before, next_before);
        if let Some(companion) = &mut self.companion {
            match companion.call(call, &expected, &self.document, freed_before, tally) {
                Err(words) if self.original == Original::Weakened => {
                    tally.departed.get_or_insert(words);
                    self.companion = None;
                }
                told => told?,
            }
        }
        Ok(expected)
    }

    /// Enters a reading on the port and by documents 01 and 02, and compares. The original, which has no readings, does not run beside.
    pub fn enter(&mut self, entry: &Entry, tally: &mut Tally) -> Result<Answered, String> {
        assert_eq!(self.original, Original::Absent);
        let port = self.port.enter(entry);
        let (no, id) = (self.document).enter(entry.root, entry.depth, entry.edge, entry.record);
        let expected = Answered::made(no, id);
        // A bar may take slots that were freed long ago, and free them again: all of them are compared.
        self.same(&port, &expected, 0, tally)?;
        Ok(expected)
    }

    /// Holds a node until it has so many holds, on the port and by document 01; the tables are compared at the end alone.
    pub fn hold_until(&mut self, id: u64, holds: u32) -> Result<(), String> {
        assert_eq!(self.original, Original::Absent);
        let hold = Call::Hold(id);
        while self.document.node(id).holds < holds {
            let (port, expected) = (self.port.call(&hold), document(&mut self.document, &hold));
            if port != expected {
                return Err(format!("{hold:x?} answers {port:x?}, not {expected:x?}"));
            }
        }
        self.same_tables()
    }

    /// Compares the answers to a call, the states, and the tables; before it `freed_before` slots were freed.
    fn same(
        &mut self,
        port: &Answered,
        expected: &Answered,
        freed_before: usize,
        tally: &mut Tally,
    ) -> Result<(), String> {
        self.calls += 1;
        if port != expected {
            return Err(format!(
                "the port answers {port:x?}, the documents say {expected:x?}"
            ));
        }
        if !self.port.is_intact() {
            return Err("the port wrote outside its tables".to_string());
        }
        self.same_state()?;
        if self.is_always_whole || self.calls.is_multiple_of(WHOLE_EVERY) {
            self.same_tables()?;
            tally.whole += 1;
        } else {
            self.same_touched(freed_before)?;
        }
        let check_every = CHECK_EVERY.max(2 * self.document.capacity());
        if self.calls.is_multiple_of(check_every as u64) {
            self.well_formed(tally)?;
        }
        Ok(())
    }

    /// Sees that the port's tables are well formed, and that the arena check says so.
    fn well_formed(&mut self, tally: &mut Tally) -> Result<(), String> {
        tally.checks += 1;
        if check::judge(&mut self.port)? {
            return Ok(());
        }
        Err(format!(
            "the port's tables are not well formed: {:?}",
            self.port.view().well_formed()
        ))
    }

    /// Compares every slot, of all sides, and the finding table, and sees that the port's tables are well formed.
    pub fn same_everywhere(&mut self, tally: &mut Tally) -> Result<(), String> {
        self.same_tables()?;
        self.well_formed(tally)?;
        match &mut self.companion {
            Some(companion) if self.original == Original::Beside => {
                companion.same_everywhere(&self.document)
            }
            _ => Ok(()),
        }
    }

    fn same_state(&self) -> Result<(), String> {
        let (port, document) = (self.port.arena, &self.document);
        let slots = slots_of(document.next(), document.freed().len());
        if (port.capacity, port.slots) == (document.capacity(), slots) {
            return Ok(());
        }
        Err(format!(
            "the port has the state {port:x?}, by document 01 {} slots and {slots:#x}",
            document.capacity()
        ))
    }

    /// Compares the slots that the last call touched, and those in whose rows entries of freed slots were written. `freed_before` slots were freed before it.
    fn same_touched(&self, freed_before: usize) -> Result<(), String> {
        let written = freed_before..self.document.freed().len();
        let touched = self.document.touched().iter().map(|slot| *slot as usize);
        written
            .chain(touched)
            .try_for_each(|slot| self.same_slot(slot))
    }

    /// Compares every byte of the port's tables with document 01.
    fn same_tables(&self) -> Result<(), String> {
        (0..self.document.capacity()).try_for_each(|slot| self.same_slot(slot))?;
        let (found, expected) = (self.port.find(), self.document.finding());
        if found == expected {
            return Ok(());
        }
        let pairs = found.iter().zip(expected).enumerate();
        let others: Vec<_> = pairs.filter(|(_, (one, other))| one != other).collect();
        Err(format!(
            "cells of the port's finding table, and what they are by its rules: {others:?}"
        ))
    }

    /// Compares a slot's words of `facts` and of `kids` with document 01.
    fn same_slot(&self, slot: usize) -> Result<(), String> {
        let expected = self.document.slot(slot);
        let words = words_for(expected, self.document.entries()[slot]);
        let facts = self.port.words(slot);
        let kids = &self.port.kids()[8 * slot..8 * slot + 8];
        if facts == words && *kids == expected.children {
            return Ok(());
        }
        Err(format!(
            "slot {slot} of the port has the words {facts:x?} and the children {kids:x?}, by document 01 {words:x?} and {:x?}",
            expected.children
        ))
    }
}
