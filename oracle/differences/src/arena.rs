//! The arena's departures, each at its smallest input. What the port does is what document 01's arena does at the same input.
use crate::reading::look;
use crate::show;
use reference::arena::{Arena, Order};
use reference::document01::{self, EMPTY};
use std::hint::black_box;
use std::sync::atomic::Ordering::Relaxed;
use voxelis::interner::{Children, HASH_MASK};
use voxelis::{BlockId, VoxInterner};

pub const NONE: BlockId = BlockId::EMPTY;

/// An original arena of so many slots.
pub fn original(capacity: usize) -> VoxInterner<u16> {
    VoxInterner::with_memory_budget(capacity * VoxInterner::<u16>::node_size())
}

/// An arena by document 01.
fn port(capacity: usize) -> Arena {
    Arena::fresh(capacity, Order::DepthFirst).unwrap()
}

fn bytes(children: &Children) -> (u8, u8) {
    let bits =
        |is: fn(&BlockId) -> bool| (0..8).fold(0, |byte, i| byte | u8::from(is(&children[i])) << i);
    (bits(BlockId::is_leaf), bits(|id| !id.is_empty()))
}

pub fn branch(arena: &mut VoxInterner<u16>, children: Children) -> BlockId {
    let (types, mask) = bytes(&children);
    arena.get_or_create_branch(children, types, mask)
}

/// Children of which the first are these.
pub fn first<const N: usize, Id: Copy>(given: [Id; N], none: Id) -> [Id; 8] {
    let mut children = [none; 8];
    children[..N].copy_from_slice(&given);
    children
}

fn number(no: u32) -> String {
    match no {
        0 => "accepts".to_string(),
        no => format!("refuses with {no}"),
    }
}

fn counts(arena: &VoxInterner<u16>) -> Vec<u32> {
    (0..arena.next_slot())
        .map(|slot| arena.slot_view(slot).ref_count)
        .collect()
}

fn freeing() {
    let build = |arena: &mut VoxInterner<u16>| {
        let one = arena.get_or_create_leaf(1);
        let below = branch(arena, first([one], NONE));
        let two = arena.get_or_create_leaf(2);
        branch(arena, first([below, two], NONE))
    };
    let mut mine = port(16);
    let one = mine.intern_leaf(1).1;
    let below = mine.intern_branch(first([one], EMPTY)).1;
    let two = mine.intern_leaf(2).1;
    let root = mine.intern_branch(first([below, two], EMPTY)).1;
    mine.release(root);
    show(
        "D1",
        "release [branch[leaf 1], leaf 2]: slots freed",
        || {
            let mut arena = original(16);
            let root = build(&mut arena);
            arena.dec_ref_recursive(&root);
            arena.freed().to_vec()
        },
        &format!("{:?}", mine.freed()),
    );
    show(
        "D1",
        "and then leaf 9",
        || {
            let mut arena = original(16);
            let root = build(&mut arena);
            arena.dec_ref_recursive(&root);
            arena.get_or_create_leaf(9)
        },
        &document01::text(mine.intern_leaf(9).1),
    );
}

/// Hashes cut to nothing: any two contents meet.
fn equal_hashes() {
    HASH_MASK.store(0, Relaxed);
    let mut mine = port(16);
    let one = mine.intern_leaf(1).1;
    let two = mine.intern_leaf(2).1;
    show(
        "D2",
        "leaf 1, leaf 2, of one hash",
        || {
            let mut arena = original(16);
            let one = arena.get_or_create_leaf(1);
            (one, arena.get_or_create_leaf(2))
        },
        &format!("({}, {})", document01::text(one), document01::text(two)),
    );
    show(
        "D2",
        "branch[leaf 1], of EMPTY's hash",
        || {
            let mut arena = original(16);
            let one = arena.get_or_create_leaf(1);
            (branch(&mut arena, first([one], NONE)), counts(&arena))
        },
        &document01::text(mine.intern_branch(first([one], EMPTY)).1),
    );
    HASH_MASK.store(u64::MAX, Relaxed);
}

fn missing_holds() {
    let mut mine = port(16);
    let leaf = mine.intern_leaf(7).1;
    mine.intern_branch(first([leaf], EMPTY));
    show(
        "D3",
        "leaf 7 once, branch[7] twice: slots freed",
        || {
            let mut arena = original(16);
            let leaf = arena.get_or_create_leaf(7);
            branch(&mut arena, first([leaf], NONE));
            branch(&mut arena, first([leaf], NONE));
            arena.freed().to_vec()
        },
        &number(mine.intern_branch(first([leaf], EMPTY)).0),
    );
    let mut mine = port(16);
    let leaf = mine.intern_leaf(7).1;
    show(
        "D3",
        "leaf 7 once, branch[7 x 8], release it: counts",
        || {
            let mut arena = original(16);
            let leaf = arena.get_or_create_leaf(7);
            let above = branch(&mut arena, [leaf; 8]);
            arena.dec_ref_recursive(&above);
            counts(&arena)
        },
        &number(mine.intern_branch([leaf; 8]).0),
    );
    let mut mine = port(16);
    let leaf = mine.intern_leaf(5).1;
    mine.intern_branch(first([leaf], EMPTY));
    show(
        "D4",
        "leaf 5, branch[5], release the leaf: slots freed",
        || {
            let mut arena = original(16);
            let leaf = arena.get_or_create_leaf(5);
            branch(&mut arena, first([leaf], NONE));
            arena.dec_ref_recursive(&leaf);
            arena.freed().to_vec()
        },
        &number(mine.release(leaf)),
    );
    let mut mine = port(16);
    let leaf = mine.intern_leaf(5).1;
    mine.release(leaf);
    show(
        "D4",
        "leaf 5, release it twice: counts",
        || {
            let mut arena = original(16);
            let leaf = arena.get_or_create_leaf(5);
            arena.dec_ref_recursive(&leaf);
            arena.dec_ref_recursive(&leaf);
            counts(&arena)
        },
        &number(mine.release(leaf)),
    );
}

fn empty() {
    let mut mine = port(8);
    show(
        "D5",
        "hold EMPTY: counts",
        || {
            let mut arena = original(8);
            arena.inc_ref(&NONE);
            counts(&arena)
        },
        &format!("{} and changes nothing", number(mine.hold(EMPTY))),
    );
    show(
        "D5",
        "hold EMPTY, release EMPTY, leaf 5",
        || {
            let mut arena = original(8);
            arena.inc_ref(&NONE);
            arena.dec_ref_recursive(&NONE);
            arena.get_or_create_leaf(5)
        },
        &document01::text(mine.intern_leaf(5).1),
    );
    show(
        "D6",
        "branch of eight EMPTY, and the counts",
        || {
            let mut arena = original(8);
            (branch(&mut arena, [NONE; 8]), counts(&arena))
        },
        &number(mine.intern_branch([EMPTY; 8]).0),
    );
    show(
        "D7",
        "leaf 0, read at depth 0",
        || {
            let mut arena = original(8);
            let leaf = arena.get_or_create_leaf(black_box(0));
            (leaf, look(&arena, leaf, [0; 3], 0))
        },
        &number(mine.intern_leaf(0).0),
    );
    show(
        "D8",
        "branch[leaf 3] with types 1, with types 0: equal?",
        || {
            let mut arena = original(8);
            let leaf = arena.get_or_create_leaf(3);
            arena.inc_ref(&leaf);
            let one = arena.get_or_create_branch(first([leaf], NONE), 1, 1);
            one == arena.get_or_create_branch(first([leaf], NONE), 0, 1)
        },
        "works the two bytes out: one node",
    );
}

fn liveness() {
    let valid = |raw: u64, prepare: fn(&mut VoxInterner<u16>)| {
        move || {
            let mut arena = original(8);
            prepare(&mut arena);
            arena.is_valid_block_id(&BlockId::from_raw(raw))
        }
    };
    let leaf_5 = |arena: &mut VoxInterner<u16>| {
        arena.get_or_create_leaf(5);
    };
    let leaf_5_gone = |arena: &mut VoxInterner<u16>| {
        let leaf = arena.get_or_create_leaf(5);
        arena.dec_ref_recursive(&leaf);
    };
    let mut mine = port(8);
    let leaf = mine.intern_leaf(5).1;
    show(
        "D14",
        "leaf 5 in slot 1; is raw 1 valid?",
        valid(leaf & !(1 << 63), leaf_5),
        &number(mine.hold(1)),
    );
    show(
        "D14",
        "is a leaf in slot 3, never used, valid?",
        valid(1 << 63 | 3, leaf_5),
        &number(mine.hold(1 << 63 | 3)),
    );
    show(
        "D14",
        "is slot 0 with a leaf flag valid?",
        valid(1 << 63, leaf_5),
        &number(mine.hold(1 << 63)),
    );
    show(
        "D14",
        "leaf 5 released; is its next generation valid?",
        valid(1 << 63 | 1 << 32 | 1, leaf_5_gone),
        &{
            mine.release(leaf);
            number(mine.hold(1 << 63 | 1 << 32 | 1))
        },
    );
}

fn limits() {
    let mut mine = port(2);
    mine.intern_leaf(1);
    show(
        "D17",
        "two slots: leaf 1, leaf 2",
        || {
            let mut arena = original(2);
            arena.get_or_create_leaf(1);
            arena.get_or_create_leaf(2)
        },
        &number(mine.intern_leaf(2).0),
    );
    for capacity in [1, 0, 65_537] {
        show(
            "D18",
            &format!("an arena of {capacity} slots"),
            || original(capacity).capacity(),
            &number(Arena::fresh(capacity, Order::DepthFirst).err().unwrap_or(0)),
        );
    }
    let mut mine = port(4);
    let leaf = mine.intern_leaf(1).1;
    let last = (0..1_000_000).map(|_| mine.hold(leaf)).last().unwrap();
    for count in [1_000_001, u32::MAX] {
        show(
            "D19",
            &format!("a leaf with {count} holds; one more"),
            || {
                let mut arena = original(4);
                let leaf = arena.get_or_create_leaf(1);
                arena.inc_ref_by(&leaf, count - 1);
                arena.inc_ref(&leaf);
                arena.get_ref(&leaf)
            },
            &format!("{} from 1,000,000 on", number(last)),
        );
    }
    let mut mine = port(4);
    let leaf = mine.intern_leaf(5).1;
    let above = mine.intern_branch(first([leaf], EMPTY)).1;
    mine.release(above);
    show(
        "D21",
        "branch[leaf 5], plain dec_ref: slots freed",
        || {
            let mut arena = original(8);
            let leaf = arena.get_or_create_leaf(5);
            let above = branch(&mut arena, first([leaf], NONE));
            arena.dec_ref(&above);
            arena.freed().to_vec()
        },
        &format!("{:?}: release alone", mine.freed()),
    );
}

pub fn all() {
    freeing();
    equal_hashes();
    missing_holds();
    empty();
    liveness();
    limits();
}
