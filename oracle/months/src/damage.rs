//! Comparison on tables that no arena ever left. Every call has to end, to stay inside and to change no table; its answer is document 02's on what stands there.
use crate::sides::{Places, Sides, Told};
use crate::tally::Tally;
use arena::damage::{half, id, tables, well_formed, word};
use arena::lent::Lent;
use port::arena::Arena;
use reference::Random;
use reference::document01::{EMPTY, INVALID};
use reference::months::Comparison;
use reference::reading::DEEPEST;
use reference::tables::{
    FLOOR, HEIGHT, OWN_HIGH, OWN_LOW, WORDS, halves, lengths, place, slots_of,
};

/// How many pairs are compared on each set of tables.
const PAIRS: usize = 8;

/// The id of a slot as no arena gives it out: any bits above the index.
fn any_id(slot: usize, random: &mut Random) -> u64 {
    let bits = random.bits() << 32 | slot as u64;
    match random.below(3) {
        0 => bits | 1 << 63,
        _ => (bits & !(1 << 63)) | FLOOR,
    }
}

/// Tables full of live nodes whose children are each other and themselves, in slots that are there or not, with any values and any heights.
fn tangle(random: &mut Random) -> Lent {
    let capacity = random.one_of(&[2, 3, 5, 8, 20]);
    let ids: Vec<u64> = (0..capacity).map(|slot| any_id(slot, random)).collect();
    let [kids, facts, find] = lengths(capacity);
    let kids: Vec<u64> = (0..kids)
        .map(|_| match random.below(12) {
            0 | 1 => EMPTY,
            2 => word(random),
            3 => INVALID,
            4 => any_id(capacity + random.below(3), random),
            5 => random.one_of(&ids) ^ 1 << random.below(64),
            _ => random.one_of(&ids),
        })
        .collect();
    let few = [random.bits() as u32, random.bits() as u32, 0];
    let mut facts = vec![0; facts];
    for (slot, id) in ids.iter().enumerate() {
        for word in 0..WORDS {
            let at = place(facts.len(), slot, word);
            facts[at] = match (word, random.below(12)) {
                (OWN_LOW, 1..) => halves(*id)[0],
                (OWN_HIGH, 1..) => halves(*id)[1],
                (HEIGHT, 1..) => random.below(5) as u32,
                (_, 0) => half(random),
                _ => random.one_of(&few),
            };
        }
    }
    let slots = slots_of(capacity, 0);
    Lent::new(Arena { capacity, slots }, &kids, &facts, &vec![0; find])
}

/// An id that the tables name, most often a live one.
fn root(tables: &Lent, random: &mut Random) -> u64 {
    let view = tables.view();
    let ids = [(); 4].map(|()| id(tables, random));
    let is_fitting = view.fit(view.capacity);
    let live = ids.iter().find(|id| is_fitting && view.is_live(**id));
    *live.unwrap_or(&ids[0])
}

fn depth(random: &mut Random) -> u32 {
    match random.below(400) {
        0 => DEEPEST,
        1..4 => 5,
        4..30 => 4,
        30..40 => 7,
        40 => u32::MAX,
        _ => random.below(4) as u32,
    }
}

/// Compares pairs on one set of tables. The error has the set's seed.
pub fn run(seed: u64, places: &Places, tally: &mut Tally) -> Told {
    let mut random = Random::new(seed);
    let told = (|| {
        let tables = match random.once_in(2) {
            true => tangle(&mut random),
            false => tables(&mut random, well_formed)?,
        };
        let mut copy = tables.clone();
        let view = tables.view();
        let mut sides = Sides { tally, places };
        for _ in 0..PAIRS {
            let (left, right) = (root(&tables, &mut random), root(&tables, &mut random));
            let comparison = Comparison::new(&view, left, right, depth(&mut random));
            sides.pair(&tables, &mut copy, &comparison, &mut random)?;
        }
        Ok(())
    })();
    told.map_err(|words: String| format!("tables of seed {seed:#x}: {words}"))
}
