//! The original beside document 01 with the original's order of freeing, in lockstep; and that one beside document 01 proper, up to the numbers of
//! slots. The two orders free the same nodes, so contents and counts stay the same, but slots given out later may differ (D1).
use crate::call::{Answered, Call, document};
use crate::edit::{branch, set_voxel};
use crate::tally::Tally;
use reference::answer_or_panic;
use reference::arena::{Arena, Order};
use reference::document01::{EMPTY, index};
use voxelis::{BlockId, VoxInterner};

pub struct Companion {
    original: VoxInterner<u16>,
    /// Document 01 but for the order of freeing.
    queued: Arena,
    /// For each slot of document 01's arena with a node, the id of the same node here.
    twins: Vec<u64>,
    /// Have both orders given the same slots so far?
    orders_agree: bool,
}

/// An original arena of so many slots.
pub fn original_of(capacity: usize) -> VoxInterner<u16> {
    VoxInterner::with_memory_budget(capacity * VoxInterner::<u16>::node_size())
}

impl Companion {
    pub fn fresh(capacity: usize) -> Self {
        Self {
            original: original_of(capacity),
            queued: Arena::fresh(capacity, Order::BreadthFirst).unwrap(),
            twins: vec![EMPTY; capacity],
            orders_agree: true,
        }
    }

    /// The original's arena, and for each slot of the port's with a node the id of the same node in the original's.
    pub fn into_parts(self) -> (VoxInterner<u16>, Vec<u64>) {
        (self.original, self.twins)
    }

    /// The id here of a node of document 01's arena, or EMPTY.
    pub fn twin(&self, id: u64) -> u64 {
        match id {
            EMPTY => EMPTY,
            id => self.twins[index(id) as usize],
        }
    }

    /// Runs the call that document 01's arena `proper` has just answered with `answered`.
    pub fn call(
        &mut self,
        call: &Call<u64>,
        answered: &Answered,
        proper: &Arena,
        freed_before: usize,
        tally: &mut Tally,
    ) -> Result<(), String> {
        // An id that is not live has no twin; with such an id the call was refused, an edit perhaps for its depth or its cell.
        if matches!(answered.no, 2..=4) {
            return Ok(());
        }
        let here = call.map(|id| self.twin(id));
        let expected = document(&mut self.queued, &here);
        if (expected.no, expected.holds, expected.places)
            != (answered.no, answered.holds, answered.places)
        {
            return Err(format!(
                "the two orders of document 01 answer {answered:x?} and {expected:x?}"
            ));
        }
        // Where document 01 refuses, or is asked to hold or release EMPTY, the original has no answer (D3 to D7, D17, D19).
        let is_empty = matches!(
            here,
            Call::Hold(EMPTY) | Call::Release(EMPTY) | Call::Counts(EMPTY)
        );
        if expected.no != 0 || is_empty {
            return Ok(());
        }
        let original = &mut self.original;
        let given = answer_or_panic(|| on_original(original, &here))
            .map_err(|words| format!("the original panics: {words}"))?;
        let wanted = match here {
            Call::Counts(_) => expected.holds + expected.places,
            _ => expected.id,
        };
        if given != wanted {
            return Err(format!(
                "the original answers {given:#x}, document 01 in its order {wanted:#x}"
            ));
        }
        tally.beside_original += 1;
        self.same_lists(proper, freed_before, tally)?;
        self.pair(proper, answered.id, expected.id)?;
        if expected.id != EMPTY {
            if self.orders_agree && expected.id != answered.id {
                return Err(format!(
                    "the port gives {:#x}, the original {:#x}, and no order of freeing explains it",
                    answered.id, expected.id
                ));
            }
            tally.same_id += u64::from(expected.id == answered.id);
            tally.other_id += u64::from(expected.id != answered.id);
        }
        for &slot in proper.touched() {
            self.same_node(proper, slot)?;
        }
        for &slot in self.queued.touched() {
            self.same_slot(slot)?;
        }
        Ok(())
    }

    /// Notes the twins of the nodes at and below two ids that have to stand for the same content.
    fn pair(&mut self, proper: &Arena, id: u64, queued_id: u64) -> Result<(), String> {
        if (id == EMPTY) != (queued_id == EMPTY) {
            return Err(format!("{id:#x} has the twin {queued_id:#x}"));
        }
        if self.twin(id) == queued_id {
            return Ok(());
        }
        self.twins[index(id) as usize] = queued_id;
        let children = proper.node(id).children;
        let twins = self.queued.node(queued_id).children;
        (children.into_iter().zip(twins))
            .try_for_each(|(child, twin)| self.pair(proper, child, twin))
    }

    /// Compares every slot.
    pub fn same_everywhere(&mut self, proper: &Arena) -> Result<(), String> {
        for slot in 0..self.queued.next() as u32 {
            self.same_slot(slot)?;
        }
        for slot in 0..proper.next() as u32 {
            self.same_node(proper, slot)?;
        }
        if self.original.freed() != self.queued.freed() {
            return Err("the original's freed slots are others".to_string());
        }
        Ok(())
    }

    /// The original's freed slots and next slot, beside document 01 in its order; and whether the two orders freed alike.
    fn same_lists(
        &mut self,
        proper: &Arena,
        freed_before: usize,
        tally: &mut Tally,
    ) -> Result<(), String> {
        let (freed, next) = (self.queued.freed(), self.queued.next());
        let from = freed_before.min(freed.len()).saturating_sub(1);
        if self.original.freed().len() != freed.len()
            || self.original.freed()[from..] != freed[from..]
            || self.original.next_slot() as usize != next
        {
            return Err("the original's freed slots or its next slot are others".to_string());
        }
        if freed.len() != proper.freed().len() || next != proper.next() {
            return Err("the two orders free other numbers of slots".to_string());
        }
        if self.orders_agree && freed[from..] != proper.freed()[from..] {
            self.orders_agree = false;
            tally.orders_differ += 1;
        }
        Ok(())
    }

    /// One slot of the original beside document 01 in its order.
    fn same_slot(&self, slot: u32) -> Result<(), String> {
        let expected = self.queued.slot(slot as usize);
        let found = self.original.slot_view(slot);
        if found.ref_count == expected.holds + expected.places
            && found.generation == expected.generation
            && found.value == expected.value
            && found.children.map(|id| id.raw()) == expected.children
        {
            return Ok(());
        }
        Err(format!(
            "slot {slot} of the original is {found:?}, by document 01 in its order {expected:x?}"
        ))
    }

    /// The node in a slot of document 01's arena beside its twin, up to the numbers of slots.
    fn same_node(&mut self, proper: &Arena, slot: u32) -> Result<(), String> {
        let node = proper.slot(slot as usize);
        let twin = self.twins[slot as usize];
        if node.id == EMPTY {
            self.twins[slot as usize] = EMPTY;
            if self.queued.is_live(twin) {
                return Err(format!("slot {slot} was freed, and its twin was not"));
            }
            return Ok(());
        }
        let other = self.queued.node(twin);
        if other.id == twin
            && (other.value, other.height) == (node.value, node.height)
            && (other.holds, other.places) == (node.holds, node.places)
            && other.children == node.children.map(|id| self.twin(id))
        {
            return Ok(());
        }
        Err(format!(
            "the node in slot {slot} is {node:x?}, its twin {other:x?}"
        ))
    }
}

/// The call on the original: the id that it answers, or the count of references, or EMPTY.
fn on_original(original: &mut VoxInterner<u16>, call: &Call<u64>) -> u64 {
    match *call {
        Call::Leaf(value) => original.get_or_create_leaf(value).raw(),
        Call::Branch(children) => branch(original, children.map(BlockId::from_raw)).raw(),
        Call::Hold(id) => {
            original.inc_ref(&BlockId::from_raw(id));
            EMPTY
        }
        Call::Release(id) => {
            original.dec_ref_recursive(&BlockId::from_raw(id));
            EMPTY
        }
        Call::Counts(id) => original.get_ref(&BlockId::from_raw(id)).into(),
        Call::Edit(root, voxel) => set_voxel(original, BlockId::from_raw(root), voxel).raw(),
    }
}
