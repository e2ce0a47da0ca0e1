//! What is timed. Each function prepares an arena once and answers a round: it times one kind of call on a batch, and puts the arena back. Every
//! round takes the next batch, so that a large arena is not found in the cache.
use crate::stores::{Branch, Store};
use reference::Random;
use std::hint::black_box;
use std::time::Instant;

pub const CAPACITY: usize = 65_536;
pub const SEED: u64 = 0x0A0B_0C0D_0E0F_1011;
/// How many calls are timed together. A batch is short, so that some rounds run undisturbed.
pub const BATCH: usize = 1_000;
/// How many leaves stand below the branches.
const LEAVES: usize = 2_000;
/// How many branches stand over them.
const BRANCHES: usize = 30_000;

/// Nanoseconds for each timed call.
pub type Nanoseconds = f64;

pub fn timed(count: usize, work: impl FnOnce()) -> Nanoseconds {
    let start = Instant::now();
    work();
    start.elapsed().as_nanos() as f64 / count as f64
}

/// A list cut into batches, which come round.
struct Batches<T> {
    list: Vec<T>,
    at: usize,
}

impl<T: Clone> Batches<T> {
    fn new(list: Vec<T>) -> Self {
        Self { list, at: 0 }
    }

    fn next(&mut self, size: usize) -> Vec<T> {
        if self.at + size > self.list.len() {
            self.at = 0;
        }
        self.at += size;
        self.list[self.at - size..self.at].to_vec()
    }
}

/// Different values, in an order at random.
pub fn values() -> Vec<u16> {
    let mut random = Random::new(SEED);
    let mut values: Vec<u16> = (1..=65_535).collect();
    for at in (1..values.len()).rev() {
        values.swap(at, random.below(at + 1));
    }
    values
}

/// Branches at random over the nodes.
fn branches(nodes: &[u64], places: usize, count: usize) -> Vec<Branch> {
    let mut random = Random::new(SEED);
    let step = 8 / places;
    (0..count)
        .map(|_| {
            let mut children = [0; 8];
            for place in 0..places {
                children[place * step + random.below(step)] = random.one_of(nodes);
            }
            Branch::new(children)
        })
        .collect()
}

/// A hold for each place of the branch.
fn hold_children<S: Store>(store: &mut S, branch: &Branch) {
    for id in branch.children.into_iter().filter(|id| *id != 0) {
        store.hold(id);
    }
}

fn make<S: Store>(store: &mut S, branch: &Branch) -> u64 {
    hold_children(store, branch);
    store.branch(branch)
}

pub fn leaf_hit<S: Store>(live: usize) -> impl FnMut() -> Nanoseconds {
    let mut store = S::fresh(CAPACITY);
    let values = values()[..live].to_vec();
    for value in &values {
        store.leaf(*value);
    }
    let mut batches = Batches::new(values);
    move || {
        let batch = batches.next(BATCH);
        let mut ids = vec![0; BATCH];
        let time = timed(BATCH, || {
            for (id, value) in ids.iter_mut().zip(&batch) {
                *id = store.leaf(*value);
            }
        });
        ids.iter().for_each(|id| store.release(*id));
        time
    }
}

/// An arena of so many leaves, the values that it lacks.
fn with_leaves<S: Store>(live: usize) -> (S, Vec<u64>, Vec<u16>) {
    let mut store = S::fresh(CAPACITY);
    let mut values = values();
    let others = values.split_off(live);
    let ids = values.iter().map(|value| store.leaf(*value)).collect();
    (store, ids, others)
}

pub fn leaf_miss<S: Store>(live: usize) -> impl FnMut() -> Nanoseconds {
    let (mut store, _, others) = with_leaves::<S>(live);
    let mut batches = Batches::new(others);
    move || {
        let batch = batches.next(BATCH);
        let mut ids = vec![0; BATCH];
        let time = timed(BATCH, || {
            for (id, value) in ids.iter_mut().zip(&batch) {
                *id = store.leaf(*value);
            }
        });
        ids.iter().for_each(|id| store.release(*id));
        time
    }
}

/// The last release of a leaf.
pub fn release_leaf<S: Store>(live: usize) -> impl FnMut() -> Nanoseconds {
    let (mut store, _, others) = with_leaves::<S>(live);
    let mut batches = Batches::new(others);
    move || {
        let ids: Vec<u64> = (batches.next(BATCH).iter())
            .map(|value| store.leaf(*value))
            .collect();
        timed(BATCH, || ids.iter().for_each(|id| store.release(*id)))
    }
}

/// An arena of branches over leaves, and further branches that it lacks.
fn with_branches<S: Store>(places: usize) -> (S, Vec<Branch>, Vec<Branch>) {
    let (mut store, leaves, _) = with_leaves::<S>(LEAVES);
    let mut known = branches(&leaves, places, 2 * BRANCHES);
    let others = known.split_off(BRANCHES);
    for branch in &known {
        make(&mut store, branch);
    }
    (store, known, others)
}

pub fn branch_hit<S: Store>(places: usize) -> impl FnMut() -> Nanoseconds {
    let (mut store, known, _) = with_branches::<S>(places);
    let mut batches = Batches::new(known);
    move || {
        let batch = batches.next(BATCH);
        batch
            .iter()
            .for_each(|branch| hold_children(&mut store, branch));
        let mut ids = vec![0; BATCH];
        let time = timed(BATCH, || {
            for (id, branch) in ids.iter_mut().zip(&batch) {
                *id = store.branch(branch);
            }
        });
        ids.iter().for_each(|id| store.release(*id));
        time
    }
}

pub fn branch_miss<S: Store>(places: usize) -> impl FnMut() -> Nanoseconds {
    let (mut store, _, others) = with_branches::<S>(places);
    let mut batches = Batches::new(others);
    move || {
        let batch = batches.next(BATCH);
        batch
            .iter()
            .for_each(|branch| hold_children(&mut store, branch));
        let mut ids = vec![0; BATCH];
        let time = timed(BATCH, || {
            for (id, branch) in ids.iter_mut().zip(&batch) {
                *id = store.branch(branch);
            }
        });
        ids.iter().for_each(|id| store.release(*id));
        time
    }
}

/// The last release of branches whose children stay: shared children.
pub fn release_branch<S: Store>(places: usize) -> impl FnMut() -> Nanoseconds {
    let (mut store, _, others) = with_branches::<S>(places);
    let mut batches = Batches::new(others);
    move || {
        let ids: Vec<u64> = (batches.next(BATCH).iter())
            .map(|branch| make(&mut store, branch))
            .collect();
        timed(BATCH, || ids.iter().for_each(|id| store.release(*id)))
    }
}

pub fn hold<S: Store>(live: usize) -> impl FnMut() -> Nanoseconds {
    let (mut store, ids, _) = with_leaves::<S>(live);
    let mut batches = Batches::new(ids);
    move || {
        let batch = batches.next(BATCH);
        let time = timed(BATCH, || batch.iter().for_each(|id| store.hold(*id)));
        batch.iter().for_each(|id| store.release(*id));
        time
    }
}

/// A release that leaves the node another hold.
pub fn release_one_of_two<S: Store>(live: usize) -> impl FnMut() -> Nanoseconds {
    let (mut store, ids, _) = with_leaves::<S>(live);
    let mut batches = Batches::new(ids);
    move || {
        let batch = batches.next(BATCH);
        batch.iter().for_each(|id| store.hold(*id));
        timed(BATCH, || batch.iter().for_each(|id| store.release(*id)))
    }
}

/// The last release of chains: six branches of one child each, above a leaf that goes too. The time is for each node freed.
pub fn release_chains<S: Store>() -> impl FnMut() -> Nanoseconds {
    const CHAINS: usize = 200;
    let (mut store, _, others) = with_branches::<S>(8);
    drop(others);
    let mut batches = Batches::new(values()[LEAVES..].to_vec());
    move || {
        let tops: Vec<u64> = (batches.next(CHAINS).iter())
            .map(|value| {
                (0..6).fold(store.leaf(*value), |id, level| {
                    let mut children = [0; 8];
                    children[level] = id;
                    store.branch(&Branch::new(children))
                })
            })
            .collect();
        timed(7 * CHAINS, || tops.iter().for_each(|id| store.release(*id)))
    }
}

/// The last release of whole trees of 1 + 8 + 64 nodes, none of them shared. The time is for each node freed.
pub fn release_trees<S: Store>() -> impl FnMut() -> Nanoseconds {
    const TREES: usize = 20;
    let (mut store, _, others) = with_branches::<S>(8);
    drop(others);
    let mut batches = Batches::new(values()[LEAVES..].to_vec());
    move || {
        let mut level: Vec<u64> = (batches.next(64 * TREES).iter())
            .map(|value| store.leaf(*value))
            .collect();
        for _ in 0..2 {
            level = (level.chunks_exact(8))
                .map(|eight| store.branch(&Branch::new(eight.try_into().unwrap())))
                .collect();
        }
        timed(73 * TREES, || {
            level.iter().for_each(|id| store.release(*id))
        })
    }
}

/// Cells set one after the other in a cube of 64 a side: a leaf and six branches interned, the other children held, the old root released. The
/// tree has some thousand nodes at first, and stays about as large.
pub fn path_copies<S: Store>() -> impl FnMut() -> Nanoseconds {
    const DEPTH: usize = 6;
    const EDITS: usize = 100;
    let mut store = S::fresh(CAPACITY);
    let mut random = Random::new(SEED);
    // The children of every branch made, by slot, as a reader of either arena would see them.
    let mut children_of = vec![[0; 8]; CAPACITY];
    let mut root = 0;
    let mut round = move |edits: usize| {
        let cells: Vec<([usize; DEPTH], u16)> = (0..edits)
            .map(|_| {
                let path = [(); DEPTH].map(|()| random.below(4));
                (path, 1 + random.below(5) as u16)
            })
            .collect();
        timed(edits, || {
            for (path, value) in &cells {
                let mut rows = [[0; 8]; DEPTH];
                let mut id = root;
                for level in 0..DEPTH {
                    if id != 0 {
                        rows[level] = children_of[id as u32 as usize];
                    }
                    id = rows[level][path[level]];
                }
                let mut made = store.leaf(*value);
                for level in (0..DEPTH).rev() {
                    let row = &mut rows[level];
                    row[path[level]] = 0;
                    for id in row.iter().filter(|id| **id != 0) {
                        store.hold(*id);
                    }
                    row[path[level]] = made;
                    made = store.branch(&Branch::new(*row));
                    children_of[made as u32 as usize] = *row;
                }
                if root != 0 {
                    store.release(root);
                }
                root = black_box(made);
            }
        })
    };
    round(5_000);
    move || round(EDITS)
}
