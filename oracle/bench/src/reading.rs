//! Times of lookup, expansion and the arena check. The models are made by the same calls on both sides, and every cell read is added up, so that the two
//! sides can be seen to read the same.
use crate::stores::{Branch, Port, Store};
use crate::work::{CAPACITY, Nanoseconds, SEED, timed, values};
use crate::{ROUNDS, alone, compare};
use glam::IVec3;
use port::model::{self, Cell};
use reference::Random;
use std::hint::black_box;
use voxelis::utils::common::{get_at_depth, to_vec};
use voxelis::{BlockId, MaxDepth, TraversalDepth, VoxInterner};

pub const DEPTH: u32 = 6;
const SIDE: i32 = 1 << DEPTH;
pub const CELLS: usize = 1 << (3 * DEPTH);
/// How many lookups are timed together.
const LOOKUPS: usize = 10_000;
/// How often the arena check is timed.
const CHECKS: usize = 30;

pub type Model = fn([i32; 3]) -> u16;

fn one_leaf(_: [i32; 3]) -> u16 {
    7
}

/// Every cell differs from its six neighbours.
pub fn checkerboard([x, y, z]: [i32; 3]) -> u16 {
    1 + ((x ^ y ^ z) & 1) as u16
}

/// Ground in layers of eight cells: y is up, and the height falls off from the middle.
pub fn hill([x, y, z]: [i32; 3]) -> u16 {
    let away = (x - SIDE / 2).pow(2) + (z - SIDE / 2).pow(2);
    if y < 8 + 44 * 400 / (400 + away) {
        1 + (y / 8) as u16
    } else {
        0
    }
}

/// One cell in sixteen, each with one of many values.
fn sparse([x, y, z]: [i32; 3]) -> u16 {
    let mixed = ((x * SIDE + y) * SIDE + z) as u64;
    let mixed = mixed.wrapping_mul(0x9E37_79B9_7F4A_7C15) >> 32;
    if mixed % 16 == 0 {
        1 + (mixed / 16 % 4_000) as u16
    } else {
        0
    }
}

/// The models and their names. The last is not expanded.
const MODELS: [(&str, Model); 4] = [
    ("one leaf", one_leaf),
    ("checkerboard", checkerboard),
    ("hill", hill),
    ("sparse", sparse),
];

/// The octant of that side at a corner, tidy, with one hold.
fn make<S: Store>(store: &mut S, model: Model, corner: [i32; 3], side: i32) -> u64 {
    if side == 1 {
        return match model(corner) {
            0 => 0,
            value => store.leaf(value),
        };
    }
    let half = side / 2;
    let mut children = [0; 8];
    for (number, child) in (0..).zip(&mut children) {
        let at = |axis: usize| corner[axis] + half * (number >> axis & 1);
        *child = make(store, model, [at(0), at(1), at(2)], half);
    }
    let first = children[0];
    if children == [first; 8] && (first == 0 || first >> 63 == 1) {
        (1..8)
            .filter(|_| first != 0)
            .for_each(|_| store.release(first));
        return first;
    }
    store.branch(&Branch::new(children))
}

/// A store that can be read.
trait Reader: Store {
    fn look(&mut self, id: u64, cell: &IVec3) -> u16;
    /// The expansion as a caller has it who wants a new cube: with making it.
    fn expand(&mut self, id: u64) -> Vec<u16>;
}

impl Port {
    /// The expansion into a lent cube.
    #[inline(always)]
    pub fn expand_into(&mut self, id: u64, cube: &mut [u16]) {
        let (state, mut tables) = self.parts();
        assert_eq!(model::to_vec(state, &mut tables, id, DEPTH, cube), 0);
    }
}

impl Reader for Port {
    #[inline(always)]
    fn look(&mut self, id: u64, cell: &IVec3) -> u16 {
        let (state, mut tables) = self.parts();
        let position = Cell {
            x: cell.x,
            y: cell.y,
            z: cell.z,
        };
        let looked = model::get_at_depth(state, &mut tables, id, DEPTH, position);
        assert_eq!(looked.no, 0);
        looked.value
    }

    fn expand(&mut self, id: u64) -> Vec<u16> {
        let mut cube = vec![0; CELLS];
        self.expand_into(id, &mut cube);
        cube
    }
}

impl Reader for VoxInterner<u16> {
    #[inline(always)]
    fn look(&mut self, id: u64, cell: &IVec3) -> u16 {
        let depths = TraversalDepth::new(0, DEPTH as u8);
        get_at_depth(self, BlockId::from_raw(id), cell, &depths).unwrap_or(0)
    }

    fn expand(&mut self, id: u64) -> Vec<u16> {
        to_vec(self, &BlockId::from_raw(id), MaxDepth::new(DEPTH as u8))
    }
}

/// The root of a model.
pub fn root_of<S: Store>(store: &mut S, model: Model) -> u64 {
    make(store, model, [0; 3], SIDE)
}

fn model_of<S: Store>(model: Model) -> (S, u64) {
    let mut store = S::fresh(CAPACITY);
    let root = root_of(&mut store, model);
    (store, root)
}

/// Lookups at cells at random.
fn lookups<S: Reader>(model: Model) -> impl FnMut() -> Nanoseconds {
    let (mut store, root) = model_of::<S>(model);
    let mut random = Random::new(SEED);
    move || {
        let cells: Vec<IVec3> = (0..LOOKUPS)
            .map(|_| {
                let [x, y, z] = [(); 3].map(|()| random.below(SIDE as usize) as i32);
                IVec3::new(x, y, z)
            })
            .collect();
        timed(LOOKUPS, || {
            let sum: u64 = (cells.iter())
                .map(|cell| u64::from(store.look(black_box(root), cell)))
                .sum();
            black_box(sum);
        })
    }
}

/// Expansions into a new cube, which is given back: allocation, clearing and freeing are in the time.
fn expansions<S: Reader>(model: Model) -> impl FnMut() -> Nanoseconds {
    let (mut store, root) = model_of::<S>(model);
    move || timed(1, || drop(black_box(store.expand(black_box(root)))))
}

/// Expansions of the port into one cube that stays, cleared first if wanted.
fn expansions_into(model: Model, is_cleared: bool) -> impl FnMut() -> Nanoseconds {
    let (mut port, root) = model_of::<Port>(model);
    let mut cube = vec![0; CELLS];
    move || {
        timed(1, || {
            if is_cleared {
                cube.fill(0);
            }
            port.expand_into(black_box(root), black_box(&mut cube));
        })
    }
}

/// The time for which this thread has had a processor, as Linux counts it: a busy machine does not lengthen it.
fn processor_time() -> Option<Nanoseconds> {
    let counted = std::fs::read_to_string("/proc/thread-self/schedstat").ok()?;
    counted.split(' ').next()?.parse().ok()
}

/// Both sides read the same of a model.
fn same(model: Model) {
    let (mut port, root) = model_of::<Port>(model);
    let (mut original, twin) = model_of::<VoxInterner<u16>>(model);
    assert!(port.expand(root) == original.expand(twin));
}

/// A full arena: leaves, and branches of eight of them at random.
fn full() -> Port {
    let mut port = Port::fresh(CAPACITY);
    let leaves: Vec<u64> = (values()[..8_000].iter())
        .map(|value| port.leaf(*value))
        .collect();
    let mut random = Random::new(SEED);
    while port.arena.live() < CAPACITY - 1 {
        let children = [(); 8].map(|()| random.one_of(&leaves));
        children.iter().for_each(|id| port.hold(*id));
        port.branch(&Branch::new(children));
    }
    port
}

/// The arena check of a full arena.
fn check() {
    let mut port = full();
    let before = processor_time();
    alone("arena check, 65,536 slots, all live", CHECKS, || {
        timed(1, || {
            let (state, mut tables) = port.parts();
            assert!(model::check(state, &mut tables));
        })
    });
    if let (Some(before), Some(after)) = (before, processor_time()) {
        println!(
            "arena check, 65,536 slots, all live: {:.1} ms of the processor's time",
            (after - before) / 1e6 / CHECKS as f64
        );
    }
}

/// Every line on reading and the check. Of an expansion the cube is said for the port and for the original: one that is lent and stays, the same cleared
/// first, or a new one for each call.
pub fn all() {
    for (name, model) in MODELS {
        same(model);
        compare(
            &format!("get_at_depth, depth 6, {name}"),
            lookups::<Port>(model),
            lookups::<VoxInterner<u16>>(model),
        );
    }
    for (name, model) in &MODELS[..3] {
        compare(
            &format!("to_vec, depth 6, {name}, lent / new"),
            expansions_into(*model, false),
            expansions::<VoxInterner<u16>>(*model),
        );
        compare(
            &format!("to_vec, depth 6, {name}, cleared / new"),
            expansions_into(*model, true),
            expansions::<VoxInterner<u16>>(*model),
        );
        compare(
            &format!("to_vec, depth 6, {name}, new / new"),
            expansions::<Port>(*model),
            expansions::<VoxInterner<u16>>(*model),
        );
    }
    let mut cube = vec![0u16; CELLS];
    alone("8^6 values filled with one, the limit", ROUNDS, || {
        timed(1, || black_box(&mut cube[..]).fill(black_box(7)))
    });
    check();
}
