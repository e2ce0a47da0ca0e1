//! Calls that change an arena or count in it, and their answers.
use crate::edit::Voxel;
use reference::arena::Arena;
use reference::document01::{EMPTY, INVALID};
use std::fmt;

#[derive(Clone, Copy, Debug)]
pub enum Call<Id> {
    Leaf(u16),
    Branch([Id; 8]),
    Hold(Id),
    Release(Id),
    Counts(Id),
    /// The root with a voxel set.
    Edit(Id, Voxel),
}

impl<Id: Copy> Call<Id> {
    /// The same call with its ids in another form.
    pub fn map<Other>(&self, mut form: impl FnMut(Id) -> Other) -> Call<Other> {
        match *self {
            Call::Leaf(value) => Call::Leaf(value),
            Call::Branch(children) => Call::Branch(children.map(form)),
            Call::Hold(id) => Call::Hold(form(id)),
            Call::Release(id) => Call::Release(form(id)),
            Call::Counts(id) => Call::Counts(form(id)),
            Call::Edit(root, voxel) => Call::Edit(form(root), voxel),
        }
    }
}

/// A reading to be entered: the arguments of the call. The original has none like it.
#[derive(Clone, Copy, Debug)]
pub struct Entry<'a> {
    pub root: u64,
    pub depth: u32,
    /// Cells have an edge of 2^-edge metres.
    pub edge: u32,
    pub record: &'a [u8],
}

/// What a call answers. A call that answers no id has EMPTY here, and one that answers no counts has 0.
#[derive(Clone, Copy, Debug, PartialEq, Eq)]
pub struct Answered {
    pub no: u32,
    pub id: u64,
    pub holds: u64,
    pub places: u64,
}

impl Answered {
    pub fn made(no: u32, id: u64) -> Self {
        Self {
            no,
            id,
            holds: 0,
            places: 0,
        }
    }
}

/// The call on document 01's arena.
pub fn document(arena: &mut Arena, call: &Call<u64>) -> Answered {
    match *call {
        Call::Leaf(value) => {
            let (no, id) = arena.intern_leaf(value);
            Answered::made(no, id)
        }
        Call::Branch(children) => {
            let (no, id) = arena.intern_branch(children);
            Answered::made(no, id)
        }
        Call::Hold(id) => Answered::made(arena.hold(id), EMPTY),
        Call::Release(id) => Answered::made(arena.release(id), EMPTY),
        Call::Counts(id) => {
            let (no, holds, places) = arena.counts(id);
            Answered {
                no,
                id: EMPTY,
                holds,
                places,
            }
        }
        Call::Edit(root, voxel) => {
            let (no, id) = arena.edit(root, voxel.depth, voxel.cell, voxel.value);
            Answered::made(no, id)
        }
    }
}

/// An id with the number of a call that answered it, so that a sequence can be run again with some of its calls left out.
#[derive(Clone, Copy, Debug)]
pub struct Traced {
    pub raw: u64,
    /// The call that answered the id; none of an id that no call answered.
    pub answered_by: Option<u32>,
    /// The bits in which the id differs from that answer.
    pub turned: u64,
}

impl Traced {
    pub fn constant(raw: u64) -> Self {
        Self {
            raw,
            answered_by: None,
            turned: 0,
        }
    }

    pub fn turn(self, bits: u64) -> Self {
        Self {
            raw: self.raw ^ bits,
            turned: self.turned ^ bits,
            ..self
        }
    }
}

impl fmt::Display for Traced {
    fn fmt(&self, f: &mut fmt::Formatter<'_>) -> fmt::Result {
        match (self.answered_by, self.turned) {
            (Some(call), 0) => write!(f, "#{call}"),
            (Some(call), bits) => write!(f, "#{call}^{bits:#x}"),
            (None, _) if self.raw == EMPTY => write!(f, "-"),
            (None, _) if self.raw == INVALID => write!(f, "INVALID"),
            (None, _) => write!(f, "{:#x}", self.raw),
        }
    }
}

impl fmt::Display for Call<Traced> {
    fn fmt(&self, f: &mut fmt::Formatter<'_>) -> fmt::Result {
        match self {
            Call::Leaf(value) => write!(f, "leaf {value}"),
            Call::Branch(children) => {
                write!(f, "branch")?;
                children.iter().try_for_each(|id| write!(f, " {id}"))
            }
            Call::Hold(id) => write!(f, "hold {id}"),
            Call::Release(id) => write!(f, "release {id}"),
            Call::Counts(id) => write!(f, "counts {id}"),
            Call::Edit(root, voxel) => write!(f, "edit {root} {voxel:?}"),
        }
    }
}
