//! What others call between the edits of an order. No call of theirs takes a hold that they do not have, and none makes the arena fresh.
use crate::cube::Entry;
use crate::lists::{any_cell, any_value};
use crate::site::{Told, edit};
use crate::yard::Yard;
use arena::call::{self, Answered, Call};
use reference::document01::{EMPTY, INVALID};
use reference::reading::DEEPEST;
use reference::survey::RECORD;

/// How many holds others have at a time.
const MOST_OTHERS: usize = 12;

impl Yard<'_> {
    /// One call, or a few that belong together.
    pub fn other_call(&mut self) -> Told {
        self.tally.between += 1;
        if self.others.len() >= MOST_OTHERS {
            return self.release_other();
        }
        match self.random.below(12) {
            0 => {
                let value = self.random.one_of(&self.values);
                let answered = self.site.call(Call::Leaf(value))?;
                self.keep(answered)
            }
            1 => self.intern_branch(),
            2 => {
                let id = self.any();
                let answered = self.site.call(Call::Hold(id))?;
                self.keep(Answered { id, ..answered })
            }
            3 | 4 => self.release_other(),
            5 | 6 => self.edit_other(),
            7 | 8 => self.enter_bar(),
            9 => self.read(),
            10 => self.release_passing(),
            _ => self.refused_call(),
        }
    }

    /// An id that somebody holds, or EMPTY.
    fn any(&mut self) -> u64 {
        let mut ids = vec![EMPTY, self.start];
        ids.extend(&self.ends);
        ids.extend(&self.others);
        ids.extend(self.models.iter().map(|model| model.root));
        self.random.one_of(&ids)
    }

    /// Others keep what a call of theirs granted. It may be refused for eight EMPTY children, a branch or a root that is too tall, or a full arena.
    fn keep(&mut self, answered: Answered) -> Told {
        match answered.no {
            0 if answered.id == EMPTY => {}
            0 => self.others.push(answered.id),
            7 | 8 | 11 => self.tally.between_refused += 1,
            no => return Err(format!("a call of others is refused with {no}")),
        }
        Ok(())
    }

    fn release_other(&mut self) -> Told {
        if self.others.is_empty() {
            return Ok(());
        }
        let at = self.random.below(self.others.len());
        let id = self.others.swap_remove(at);
        self.site.release(id)
    }

    /// A branch of one to three of the ids that are held, tidy or not.
    fn intern_branch(&mut self) -> Told {
        let few = [self.any(), self.any(), EMPTY];
        let few = &few[..1 + self.random.below(3)];
        let children = [(); 8].map(|()| self.random.one_of(few));
        let answered = self.site.branch_of(children)?;
        self.keep(answered)
    }

    fn entry(&mut self, depth: u32) -> Entry {
        Entry {
            cell: any_cell(depth, &mut self.random),
            value: any_value(&self.values, &mut self.random),
        }
    }

    /// An edit of any root, at any depth; at times the answer is given back at once.
    fn edit_other(&mut self) -> Told {
        let root = self.any();
        let depth = self.random.below(1 + DEEPEST as usize) as u32;
        let entry = self.entry(depth);
        let answered = self.site.call(edit(root, depth, entry))?;
        if answered.no == 0 && self.random.once_in(2) {
            return self.site.release(answered.id);
        }
        self.keep(answered)
    }

    /// A bar in metres, entered into any root.
    fn enter_bar(&mut self) -> Told {
        let root = self.any();
        let depth = self.random.below(1 + DEEPEST as usize) as u32;
        let Entry { cell, value } = self.entry(depth);
        let second_x = cell[0] + self.random.below(((1 << depth) - cell[0]) as usize) as i32;
        let answered = self.site.enter(&call::Entry {
            root,
            depth,
            edge: 0,
            record: &bar(cell, second_x, value),
        })?;
        self.keep(answered)
    }

    /// Readings of any root: a lookup and its counts.
    fn read(&mut self) -> Told {
        let root = self.any();
        let depth = self.random.below(1 + DEEPEST as usize) as u32;
        let Entry { cell, .. } = self.entry(depth);
        self.site.look(root, depth, cell)?;
        self.site.same_holds(root)
    }

    /// A call that has to be refused with a number that is known.
    fn refused_call(&mut self) -> Told {
        self.tally.between_refused += 1;
        let root = self.any();
        // The same slot in another generation, or slot 0 in one.
        let gone = root ^ 1 << 32;
        let odd = self.random.one_of(&[INVALID, gone]);
        let entry = self.entry(1);
        let outside = Entry {
            cell: [0, 2, 0],
            ..entry
        };
        let child = self.site.child(root, self.random.below(8) as u32);
        let (call, no) = match self.random.below(9) {
            0 => (edit(root, DEEPEST + 1, entry), 2),
            1 => (edit(root, 1, outside), 3),
            2 => (edit(odd, 1, entry), 4),
            3 => (Call::Hold(odd), 4),
            4 => (Call::Release(odd), 4),
            5 => (Call::Leaf(0), 6),
            6 => (Call::Branch([EMPTY; 8]), 7),
            7 if self.site.height(root) > 1 => (edit(root, 1, entry), 8),
            _ => match child {
                Some(id) if self.site.holds_of(id) == 0 => (Call::Release(id), 5),
                _ => (Call::Branch([odd; 8]), 4),
            },
        };
        self.site.expect(call, no).map(|_| ())
    }
}

/// The record of a bar, with an edge of one metre: kind, value, two zero bytes, four numbers.
fn bar([x, y, z]: [i32; 3], second_x: i32, value: u16) -> [u8; RECORD] {
    let mut bytes = [0; RECORD];
    bytes[0] = 2;
    bytes[4..6].copy_from_slice(&value.to_le_bytes());
    let numbers = [x, y, z, second_x];
    for (at, number) in bytes[8..].chunks_exact_mut(8).zip(numbers) {
        let metres = f64::from(number) + 0.5;
        at.copy_from_slice(&metres.to_le_bytes());
    }
    bytes
}
