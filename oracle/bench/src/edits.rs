//! Edits, each with the release of the old root: the port's call beside a path copy on the original. Each function prepares an arena once and answers
//! a round of edits, the same ones on both sides.
use crate::compare;
use crate::stores::{Port, Store};
use crate::work::{CAPACITY, Nanoseconds, SEED, timed};
use arena::edit::{Voxel, set_voxel};
use port::model::{self, Cell};
use reference::Random;
use voxelis::{BlockId, VoxInterner};

/// How many edits are timed together.
const EDITS: usize = 100;
const DEEPEST: u32 = 6;

pub trait Editing: Store {
    /// The root with the voxel set; the old root keeps its hold.
    fn edit(&mut self, root: u64, voxel: &Voxel) -> u64;
    fn live(&self) -> usize;
}

impl Editing for Port {
    #[inline(always)]
    fn edit(&mut self, root: u64, voxel: &Voxel) -> u64 {
        let [x, y, z] = voxel.cell;
        let (state, mut tables) = self.parts();
        let cell = Cell { x, y, z };
        let made = model::set_voxel(state, &mut tables, root, voxel.depth, cell, voxel.value);
        assert_eq!(made.no, 0);
        self.arena.slots = made.slots;
        made.id
    }

    fn live(&self) -> usize {
        self.arena.live()
    }
}

impl Editing for VoxInterner<u16> {
    #[inline(always)]
    fn edit(&mut self, root: u64, voxel: &Voxel) -> u64 {
        set_voxel(self, BlockId::from_raw(root), *voxel).raw()
    }

    fn live(&self) -> usize {
        self.next_slot() as usize - 1 - self.freed().len()
    }
}

/// One edit of a model, and the release of its old root.
#[inline(always)]
fn step<S: Editing>(store: &mut S, root: &mut u64, voxel: &Voxel) {
    let made = store.edit(*root, voxel);
    if *root != 0 {
        store.release(*root);
    }
    *root = made;
}

fn stream<S: Editing>(store: &mut S, root: &mut u64, voxels: &[Voxel]) -> Nanoseconds {
    timed(voxels.len(), || {
        for voxel in voxels {
            step(store, root, voxel);
        }
    })
}

/// Cells at random of a cube of that depth, with values to `most`; one in four is cleared.
fn anywhere(random: &mut Random, depth: u32, most: usize) -> Voxel {
    Voxel {
        depth,
        cell: [(); 3].map(|()| random.below(1 << depth) as i32),
        value: if random.once_in(4) {
            0
        } else {
            1 + random.below(most) as u16
        },
    }
}

/// The first edits of a model, from EMPTY; the arena holds nothing else.
fn from_empty<S: Editing>() -> impl FnMut() -> Nanoseconds {
    let mut store = S::fresh(CAPACITY);
    let mut random = Random::new(SEED);
    move || {
        let voxels: Vec<Voxel> = (0..EDITS)
            .map(|_| anywhere(&mut random, DEEPEST, 5))
            .collect();
        let mut root = 0;
        let time = stream(&mut store, &mut root, &voxels);
        if root != 0 {
            store.release(root);
        }
        time
    }
}

/// The height of the ground, in cells: a hill of 52 on a plain of 12.
fn ground(x: i32, z: i32) -> i32 {
    let away = (x - 32).pow(2) + (z - 32).pow(2);
    12 + 40 * (1024 - away).max(0) / 1024
}

/// The ground in layers of six cells.
fn layer(y: i32) -> u16 {
    1 + (y / 6) as u16
}

/// A layered hill, dug and heaped at its surface.
fn on_a_hill<S: Editing>() -> impl FnMut() -> Nanoseconds {
    let mut store = S::fresh(CAPACITY);
    let mut root = 0;
    for x in 0..64 {
        for z in 0..64 {
            for y in 0..ground(x, z) {
                let voxel = Voxel {
                    depth: DEEPEST,
                    cell: [x, y, z],
                    value: layer(y),
                };
                step(&mut store, &mut root, &voxel);
            }
        }
    }
    let mut random = Random::new(SEED);
    move || {
        let voxels: Vec<Voxel> = (0..EDITS)
            .map(|_| {
                let (x, z) = (random.below(64) as i32, random.below(64) as i32);
                let y = ground(x, z) - 2 + random.below(4) as i32;
                let value = random.one_of(&[0, layer(y)]);
                let cell = [x, y, z];
                Voxel {
                    depth: DEEPEST,
                    cell,
                    value,
                }
            })
            .collect();
        stream(&mut store, &mut root, &voxels)
    }
}

/// A model of that depth, with a few thousand edits behind it.
fn of_depth<S: Editing>(depth: u32) -> impl FnMut() -> Nanoseconds {
    let mut store = S::fresh(CAPACITY);
    let mut random = Random::new(SEED);
    let mut root = 0;
    let mut round = move |count: usize| {
        let voxels: Vec<Voxel> = (0..count)
            .map(|_| anywhere(&mut random, depth, 5))
            .collect();
        stream(&mut store, &mut root, &voxels)
    };
    round(3_000);
    move || round(EDITS)
}

/// A model of depth 6 in 4,096 of its cells, beside another that fills the arena up to so many nodes.
fn beside_others<S: Editing>(live: usize) -> impl FnMut() -> Nanoseconds {
    let mut store = S::fresh(CAPACITY);
    let mut random = Random::new(SEED);
    let mut other = 0;
    while store.live() < live {
        let voxel = anywhere(&mut random, DEEPEST, 65_535);
        step(&mut store, &mut other, &voxel);
    }
    let mut root = 0;
    let mut round = move |count: usize| {
        let voxels: Vec<Voxel> = (0..count)
            .map(|_| anywhere(&mut random, 4, 5))
            .map(|voxel| Voxel {
                depth: DEEPEST,
                cell: voxel.cell.map(|c| 4 * c),
                ..voxel
            })
            .collect();
        stream(&mut store, &mut root, &voxels)
    };
    round(300);
    move || round(EDITS)
}

/// Both sides of one function above.
macro_rules! both {
    ($name:expr, $work:ident($($argument:expr),*)) => {
        compare(
            $name,
            $work::<Port>($($argument),*),
            $work::<VoxInterner<u16>>($($argument),*),
        )
    };
}

/// The rows of the table.
pub fn rows() {
    both!("edit and release, depth 6 from EMPTY", from_empty());
    both!("edit and release, on a layered hill", on_a_hill());
    for depth in 1..=DEEPEST {
        let name = format!("edit and release, depth {depth}");
        both!(&name, of_depth(depth));
    }
    for live in [1_000, 30_000, 60_000] {
        let name = format!("edit and release, depth 6, {live} live beside");
        both!(&name, beside_others(live));
    }
}
