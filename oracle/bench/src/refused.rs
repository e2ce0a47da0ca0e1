//! Times of calls that are refused with 1, and so do nothing: what the way through the C boundary costs, with the state by value and three slices.
use crate::work::{BATCH, timed};
use crate::{ROUNDS, alone};
use port::arena::{self, Arena, Tables};

/// Times a call on an arena of no slots, which every call refuses; the state that it answers goes into the next, as a user's does.
fn row(name: &str, call: impl Fn(Arena, &mut Tables) -> (u32, u64)) {
    let mut state = Arena {
        capacity: 0,
        slots: 1,
    };
    let mut tables = Tables {
        kids: &mut [],
        facts: &mut [],
        find: &mut [],
    };
    alone(name, ROUNDS, || {
        timed(BATCH, || {
            for _ in 0..BATCH {
                let (no, slots) = call(state, &mut tables);
                assert_eq!(no, 1);
                state.slots = slots;
            }
        })
    });
}

pub fn rows() {
    row("intern leaf, refused with 1", |state, tables| {
        let made = arena::intern_leaf(state, tables, 1);
        (made.no, made.slots)
    });
    row("intern branch, refused with 1", |state, tables| {
        let made = arena::intern_branch(state, tables, [0; 8]);
        (made.no, made.slots)
    });
    row("hold, refused with 1", |state, tables| {
        let answer = arena::hold(state, tables, 0);
        (answer.no, answer.slots)
    });
    row("release, refused with 1", |state, tables| {
        let answer = arena::release(state, tables, 0);
        (answer.no, answer.slots)
    });
}
