//! Tables that no arena ever left: damaged words, words at random, wrong lengths, capacities out of range. Every call has to end and to stay inside
//! its tables; a refusal changes nothing, and gives INVALID for a node; `hold`, `counts` and `fresh` answer by their definitions on any tables.
use crate::beside::{Beside, Original};
use crate::call::{Answered, Call};
use crate::check;
use crate::lent::Lent;
use crate::sequence::Sequence;
use crate::tally::Tally;
use port::arena::Arena;
use reference::Random;
use reference::arena::{MOST_CAPACITY, MOST_HOLDS};
use reference::document01::{EMPTY, INVALID, index};
use reference::tables::{HOLDS, PLACES, WORDS, lengths, place};

/// How many calls run on each set of tables.
const CALLS: usize = 24;

#[derive(Default)]
pub struct Damages {
    pub sets: u64,
    pub well_formed: u64,
    pub calls: u64,
    pub refused: u64,
    pub refused_with_1: u64,
    /// How often the arena check was asked, and how often it said yes.
    pub checks: u64,
    pub said_yes: u64,
}

impl Damages {
    /// Asks the arena check, and sees that it says what document 01 says. Are the tables well formed?
    fn check(&mut self, lent: &mut Lent) -> Result<bool, String> {
        let says = check::judge(lent)?;
        self.checks += 1;
        self.said_yes += u64::from(says);
        Ok(says)
    }
}

pub fn word(random: &mut Random) -> u64 {
    match random.below(6) {
        0 => random.bits(),
        1 => random.bits() & random.bits() & random.bits(),
        2 => u64::MAX,
        3 => 1 << random.below(64),
        4 => (1 << 63) | random.below(64) as u64,
        _ => random.below(20) as u64,
    }
}

/// The low or the high half of such a word.
pub fn half(random: &mut Random) -> u32 {
    (word(random) >> random.one_of(&[0, 32])) as u32
}

/// An arena after some calls at random.
pub fn well_formed(capacity: usize, random: &mut Random) -> Result<Lent, String> {
    let mut beside = Beside::fresh(capacity, Original::Absent);
    let mut sequence = Sequence::new(capacity, random.bits() | 1);
    let mut tally = Tally::default();
    for _ in 0..random.below(4 * capacity.min(40)) {
        let (_, call) = sequence.next(beside.document());
        let answered = beside.call(&call.map(|id| id.raw), &mut tally)?;
        sequence.learn(&call, &answered, beside.document());
    }
    Ok(beside.port)
}

/// The number of a state with its next slot, its freed slots or both at random.
fn another_state(slots: u64, random: &mut Random) -> u64 {
    let [next, freed] = [half(random), half(random)].map(u64::from);
    match random.below(3) {
        0 => slots >> 32 << 32 | next,
        1 => freed << 32 | slots & 0xFFFF_FFFF,
        _ => freed << 32 | next,
    }
}

/// Changes some words of the tables or of the state.
fn damage(lent: &mut Lent, random: &mut Random) {
    for _ in 0..1 + random.below(4) {
        let is_turned = random.once_in(2);
        let which = random.below(8);
        let tables = lent.tables();
        match which {
            0..=2 => {
                let at = random.below(tables.kids.len());
                tables.kids[at] = match is_turned {
                    true => tables.kids[at] ^ 1 << random.below(64),
                    false => word(random),
                };
            }
            3..=5 => {
                let at = random.below(tables.facts.len());
                tables.facts[at] = match is_turned {
                    true => tables.facts[at] ^ 1 << random.below(32),
                    false => half(random),
                };
            }
            6 => {
                let at = random.below(tables.find.len());
                tables.find[at] = match is_turned {
                    true => tables.find[at] ^ 1 << random.below(16),
                    false => word(random) as u16,
                };
            }
            _ => {
                let slots = &mut lent.arena.slots;
                *slots = match is_turned {
                    true => *slots ^ 1 << random.below(64),
                    false => another_state(*slots, random),
                };
            }
        }
    }
}

fn words(length: usize, random: &mut Random) -> Vec<u64> {
    (0..length).map(|_| word(random)).collect()
}

/// Tables of words at random.
fn at_random(capacity: usize, lengths: [usize; 3], random: &mut Random) -> Lent {
    let arena = Arena {
        capacity,
        slots: another_state(word(random), random),
    };
    let find: Vec<u16> = words(lengths[2], random)
        .iter()
        .map(|x| *x as u16)
        .collect();
    let kids = words(lengths[0], random);
    let facts: Vec<u32> = (0..lengths[1]).map(|_| half(random)).collect();
    Lent::new(arena, &kids, &facts, &find)
}

/// One set of tables, most often what `well_formed` gives for a capacity, and then damaged.
pub fn tables(
    random: &mut Random,
    well_formed: impl Fn(usize, &mut Random) -> Result<Lent, String>,
) -> Result<Lent, String> {
    let capacity = match random.below(5_000) {
        0 => MOST_CAPACITY,
        1..10 => 4_096,
        _ => random.one_of(&[2, 3, 4, 8, 16, 40, 100]),
    };
    let lengths = lengths(capacity);
    Ok(match random.below(8) {
        0..=3 => {
            let mut lent = well_formed(capacity, random)?;
            damage(&mut lent, random);
            lent
        }
        4 | 5 => at_random(capacity, lengths, random),
        // One table is shorter or longer.
        6 => {
            let lent = well_formed(capacity, random)?;
            let which = random.below(3);
            let length = match random.below(4) {
                0 => 0,
                1 => lengths[which] - 1,
                2 => lengths[which] + 1,
                _ => random.below(2 * lengths[which]),
            };
            lent.with_length(which, length, 1)
        }
        // A capacity that is not the tables', or none at all.
        _ => {
            let lent = well_formed(capacity, random)?;
            let other = random.one_of(&[
                0,
                1,
                capacity - 1,
                capacity + 1,
                MOST_CAPACITY,
                MOST_CAPACITY + 1,
                1 << 61,
                usize::MAX,
            ]);
            let arena = Arena {
                capacity: other,
                ..lent.arena
            };
            Lent::new(arena, lent.kids(), lent.facts(), lent.find())
        }
    })
}

/// An id that the tables name, or one at random.
pub fn id(lent: &Lent, random: &mut Random) -> u64 {
    match random.below(8) {
        0 => EMPTY,
        1 => INVALID,
        2 => word(random),
        3 if !lent.kids().is_empty() => random.one_of(lent.kids()),
        _ if lent.facts().len() >= WORDS => {
            let slot = random.below(lent.facts().len() / WORDS);
            lent.view().own(slot)
        }
        _ => random.bits(),
    }
}

fn call(lent: &Lent, random: &mut Random) -> Call<u64> {
    match random.below(8) {
        0 | 1 => Call::Leaf(random.one_of(&[0, 1, 2, 3, 7, 65_535])),
        2 | 3 => {
            let few = [id(lent, random), id(lent, random), EMPTY];
            Call::Branch([(); 8].map(|()| random.one_of(&few)))
        }
        4 => Call::Hold(id(lent, random)),
        5 | 6 => Call::Release(id(lent, random)),
        _ => Call::Counts(id(lent, random)),
    }
}

/// What `hold` or `counts` of an id answers on any tables, by its definition, and the place of the hold that it grants.
fn defined(lent: &Lent, call: &Call<u64>) -> Option<(Answered, Option<usize>)> {
    let (Call::Hold(id) | Call::Counts(id)) = *call else {
        return None;
    };
    let refused = |no| Some((Answered::made(no, EMPTY), None));
    if !lent.view().fit(lent.arena.capacity) {
        return refused(1);
    }
    if id == EMPTY {
        return refused(0);
    }
    if !lent.view().is_live(id) {
        return refused(4);
    }
    let slot = index(id) as usize;
    let holds = lent.view().fact(slot, HOLDS);
    let places = lent.view().fact(slot, PLACES);
    match call {
        Call::Hold(_) if holds >= MOST_HOLDS => refused(10),
        Call::Hold(_) => {
            let hold = place(lent.facts().len(), slot, HOLDS);
            Some((Answered::made(0, EMPTY), Some(hold)))
        }
        _ => Some((
            Answered {
                no: 0,
                id: EMPTY,
                holds: holds.into(),
                places: places.into(),
            },
            None,
        )),
    }
}

/// Runs one call and looks at what it left.
pub fn judge(lent: &mut Lent, call: &Call<u64>) -> Result<Answered, String> {
    let mut before = lent.clone();
    let expected = defined(lent, call);
    let answered = lent.call(call);
    if !lent.is_intact() {
        return Err(format!("{call:x?} wrote outside its tables"));
    }
    if (answered.no == 1) == before.view().fit(before.arena.capacity) {
        return Err(format!(
            "{call:x?} answers {answered:x?}: refusal 1 is wrong"
        ));
    }
    if answered.no != 0 {
        let makes = matches!(call, Call::Leaf(_) | Call::Branch(_) | Call::Edit(_, _));
        if makes && answered.id != INVALID {
            return Err(format!("{call:x?} is refused with {answered:x?}"));
        }
        if !lent.is_same(&before) {
            return Err(format!("{call:x?} is refused and changes something"));
        }
    }
    if let Some((wanted, hold)) = expected {
        if answered != wanted {
            return Err(format!(
                "{call:x?} answers {answered:x?}, by its definition {wanted:x?}"
            ));
        }
        if let Some(at) = hold {
            before.tables().facts[at] += 1;
        }
        if !lent.is_same(&before) {
            return Err(format!("{call:x?} leaves other tables than its definition"));
        }
    }
    Ok(answered)
}

/// A fresh arena over the tables.
fn judge_fresh(lent: &mut Lent, capacity: usize, damages: &mut Damages) -> Result<(), String> {
    let before = lent.clone();
    let is_fitting = lent.view().fit(capacity);
    let no = lent.make_fresh(capacity);
    damages.calls += 1;
    let state = Arena { capacity, slots: 1 };
    let is_right = if is_fitting {
        no == 0
            && lent.kids().iter().all(|id| *id == EMPTY)
            && lent.facts().iter().all(|word| *word == 0)
            && lent.find().iter().all(|cell| *cell == 0)
    } else {
        let mut unchanged = before.clone();
        unchanged.arena = state;
        no == 1 && lent.is_same(&unchanged)
    };
    if lent.is_intact() && lent.arena == state && is_right {
        return Ok(());
    }
    Err(format!(
        "a fresh arena of {capacity} slots over damaged tables answers {no}"
    ))
}

/// Runs calls on one set of tables. The error has the set's seed.
pub fn run(seed: u64, damages: &mut Damages) -> Result<(), String> {
    let mut random = Random::new(seed);
    let told = (|| {
        let mut lent = tables(&mut random, well_formed)?;
        damages.sets += 1;
        damages.well_formed += u64::from(damages.check(&mut lent)?);
        for _ in 0..CALLS {
            let call = call(&lent, &mut random);
            let answered = judge(&mut lent, &call)?;
            damages.calls += 1;
            damages.refused += u64::from(answered.no != 0);
            damages.refused_with_1 += u64::from(answered.no == 1);
        }
        damages.check(&mut lent)?;
        let own = lent.arena.capacity;
        let other = random.one_of(&[0, 1, 2, 3, MOST_CAPACITY, MOST_CAPACITY + 1, usize::MAX]);
        judge_fresh(&mut lent, other, damages)?;
        judge_fresh(&mut lent, own, damages)?;
        damages.check(&mut lent).map(|_| ())
    })();
    told.map_err(|words| format!("tables of seed {seed:#x}: {words}"))
}
