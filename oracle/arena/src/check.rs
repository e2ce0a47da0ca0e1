//! The arena check beside document 01's reading of the same tables: at edges written by hand, and on well-formed tables of which one thing is changed.
use crate::damage::{well_formed, word};
use crate::lent::Lent;
use reference::Random;
use reference::arena::{GENERATIONS, MOST_HOLDS, TALLEST};
use reference::document01::{EMPTY, generation, index, is_leaf, new_branch, new_leaf};
use reference::finding::{hash, home};
use reference::tables::{
    ENTRY, FLOOR, HASH, HEIGHT, HOLDS, MARK, OWN_HIGH, OWN_LOW, PLACES, SPARE, SUM, VALUE, WORDS,
    halves, place, slots_of,
};

/// Asks the arena check, which says yes exactly if the tables are well formed, and changes nothing. Are they?
pub fn judge(lent: &mut Lent) -> Result<bool, String> {
    let before = lent.clone();
    let says = lent.check();
    if !lent.is_intact() || !lent.is_same(&before) {
        return Err("the arena check changes something".to_string());
    }
    let found = lent.view().well_formed();
    if says != found.is_ok() {
        return Err(format!(
            "the arena check says {says}, document 01's reading of the tables {found:?}"
        ));
    }
    Ok(says)
}

fn fact(lent: &Lent, slot: usize, word: usize) -> u32 {
    lent.view().fact(slot, word)
}

fn put(lent: &mut Lent, slot: usize, word: usize, content: u32) {
    let facts = lent.tables().facts;
    facts[place(facts.len(), slot, word)] = content;
}

fn put_own(lent: &mut Lent, slot: usize, own: u64) {
    let [low, high] = halves(own);
    put(lent, slot, OWN_LOW, low);
    put(lent, slot, OWN_HIGH, high);
}

fn children(lent: &Lent, slot: usize) -> [u64; 8] {
    lent.kids()[8 * slot..8 * slot + 8].try_into().unwrap()
}

fn live_slots(lent: &Lent) -> Vec<usize> {
    (0..lent.arena.capacity)
        .filter(|slot| lent.view().own(*slot) >= FLOOR)
        .collect()
}

/// Writes the finding table anew: these slots, one after the other, each in the first empty cell from the home of its hash word on.
fn write_finding(lent: &mut Lent, slots: &[usize]) {
    let capacity = lent.arena.capacity;
    lent.tables().find.fill(0);
    for &slot in slots {
        let home = home(capacity, fact(lent, slot, HASH));
        let find = lent.tables().find;
        let free = (home..find.len()).find(|cell| find[*cell] == 0);
        find[free.unwrap()] = slot as u16;
    }
}

/// Writes what is worked out of the live nodes' contents anew: hashes, sums, and the finding table.
fn write_anew(lent: &mut Lent) {
    let slots = live_slots(lent);
    for &slot in &slots {
        let children = children(lent, slot);
        let hash = hash(lent.view().own(slot), &children, fact(lent, slot, VALUE));
        let below = children.into_iter().filter(|id| *id != EMPTY);
        let sum = below.map(|id| fact(lent, index(id) as usize, VALUE)).sum();
        put(lent, slot, HASH, hash);
        put(lent, slot, SUM, sum);
    }
    write_finding(lent, &slots);
}

/// The freed slots of well-formed tables, the one freed last at the end.
fn freed_slots(lent: &Lent) -> Vec<usize> {
    (0..lent.arena.freed())
        .map(|number| fact(lent, number, ENTRY) as usize)
        .collect()
}

/// Writes the stack of freed slots anew: the entries, the marks, and how many there are.
fn write_freed(lent: &mut Lent, slots: &[usize]) {
    for (number, &slot) in slots.iter().enumerate() {
        put(lent, number, ENTRY, slot as u32);
        put(lent, slot, MARK, number as u32);
    }
    lent.arena.slots = slots_of(lent.arena.next(), slots.len());
}

// ---- edges

/// Tables written by hand: every word as document 01 has it, but for what a case makes too large.
struct Hand(Lent);

impl Hand {
    fn new() -> Self {
        Self(Lent::fresh(16))
    }

    /// A node in the next slot, with one hold; its children have a place more.
    fn node(
        &mut self,
        id: impl Fn(u32) -> u64,
        children: [u64; 8],
        value: u32,
        height: u32,
    ) -> u64 {
        let slot = self.0.arena.next();
        self.0.arena.slots += 1;
        let id = id(slot as u32);
        self.0.tables().kids[8 * slot..8 * slot + 8].copy_from_slice(&children);
        put_own(&mut self.0, slot, id);
        for (word, content) in [(VALUE, value), (HEIGHT, height), (HOLDS, 1)] {
            self.put(id, word, content);
        }
        for child in children.into_iter().filter(|id| *id != EMPTY) {
            self.put(child, PLACES, self.fact(child, PLACES) + 1);
        }
        id
    }

    fn leaf(&mut self, value: u32) -> u64 {
        self.node(|slot| new_leaf(slot, 0).1, [EMPTY; 8], value, 0)
    }

    /// A branch of one child.
    fn over(&mut self, child: u64) -> u64 {
        let mut children = [EMPTY; 8];
        children[0] = child;
        let [value, height] = [VALUE, HEIGHT].map(|word| self.fact(child, word));
        let types = u8::from(is_leaf(child));
        let id = move |slot| new_branch(slot, 0, types, 1).1;
        self.node(id, children, value / 8, height + 1)
    }

    /// The next slot, given out and freed again, with this generation.
    fn freed(&mut self, given: u16) {
        let slot = self.0.arena.next();
        self.0.arena.slots += 1;
        put_own(&mut self.0, slot, u64::from(given) << 32);
        let mut slots = freed_slots(&self.0);
        slots.push(slot);
        write_freed(&mut self.0, &slots);
    }

    fn fact(&self, id: u64, word: usize) -> u32 {
        fact(&self.0, index(id) as usize, word)
    }

    fn put(&mut self, id: u64, word: usize, content: u32) {
        put(&mut self.0, index(id) as usize, word, content);
    }

    /// The check has to say this, and document 01's reading too, once what is worked out of the contents is written.
    fn expect(mut self, name: &str, expected: bool) -> Result<(), String> {
        write_anew(&mut self.0);
        expect(&mut self.0, name, expected)
    }
}

/// The check has to say this, and document 01's reading too.
fn expect(lent: &mut Lent, name: &str, expected: bool) -> Result<(), String> {
    if judge(lent).map_err(|words| format!("{name}: {words}"))? == expected {
        return Ok(());
    }
    Err(format!("{name}: the arena check says {}", !expected))
}

/// Each limit, met and passed by one; and each word raised by one. Answers how many cases there are.
pub fn edges() -> Result<u64, String> {
    Ok(limits()? + raised()?)
}

fn limits() -> Result<u64, String> {
    let mut cases = 0;
    let mut expect = |hand: Hand, name: &str, limit: u32, given: u32| {
        cases += 1;
        hand.expect(&format!("{name} {given}"), given <= limit)
    };
    for height in [0, 1, TALLEST, TALLEST + 1] {
        let mut hand = Hand::new();
        (0..height).fold(hand.leaf(5), |below, _| hand.over(below));
        expect(hand, "height", TALLEST.into(), height.into())?;
    }
    for value in [1, 0xFFFF, 0x1_0000] {
        let mut hand = Hand::new();
        hand.leaf(value);
        expect(hand, "value of a leaf", 0xFFFF, value)?;
    }
    for holds in [MOST_HOLDS, MOST_HOLDS + 1] {
        let mut hand = Hand::new();
        let leaf = hand.leaf(5);
        hand.put(leaf, HOLDS, holds);
        expect(hand, "holds", MOST_HOLDS, holds)?;
    }
    for unused in 0..2 {
        let mut hand = Hand::new();
        let leaf = hand.leaf(5);
        hand.put(leaf, HOLDS, 1 - unused);
        expect(hand, "nodes that nobody uses:", 0, unused)?;
    }
    for given in [GENERATIONS - 1, GENERATIONS, 0x7FFF] {
        let most = u32::from(GENERATIONS) - 1;
        let mut hand = Hand::new();
        let leaf = hand.leaf(5);
        put_own(&mut hand.0, 1, leaf | u64::from(given) << 32);
        expect(hand, "generation of a live slot", most, given.into())?;

        let mut hand = Hand::new();
        hand.leaf(5);
        hand.freed(given);
        expect(hand, "generation of a freed slot", most, given.into())?;
    }
    for twins in 0..2 {
        let mut hand = Hand::new();
        hand.leaf(5);
        hand.leaf(6 - twins);
        expect(hand, "nodes of another's content:", 0, twins)?;
    }
    for slots in [15, 16] {
        let mut hand = Hand::new();
        for value in 1..=15 {
            hand.leaf(value);
        }
        hand.0.arena.slots += slots - 15;
        expect(hand, "slots given out:", 15, slots as u32)?;
    }
    for above in 0..2 {
        let mut hand = Hand::new();
        hand.leaf(5);
        hand.0.arena.slots += above << 48;
        expect(hand, "above the number of freed slots", 0, above as u32)?;
    }
    Ok(cases)
}

/// A leaf in slot 1, a branch over it, and a freed slot: each word of each slot raised by one, of slot 0 and of slots never given out too.
fn raised() -> Result<u64, String> {
    let mut hand = Hand::new();
    let leaf = hand.leaf(5);
    hand.over(leaf);
    hand.freed(7);
    let mut lent = hand.0;
    write_anew(&mut lent);
    expect(&mut lent, "as written by hand", true)?;
    let mut cases = 1;
    for slot in 0..lent.arena.capacity {
        for word in 0..WORDS {
            let is_well_formed = match word {
                // The generation of a node that none names, and of a freed slot.
                OWN_HIGH => slot == 2 || slot == 3,
                // Nothing tells how many holds were granted.
                HOLDS => slot == 1 || slot == 2,
                // An entry above the only one.
                ENTRY => slot > 0,
                _ => false,
            };
            let mut lent = lent.clone();
            let raised = fact(&lent, slot, word) + 1;
            put(&mut lent, slot, word, raised);
            expect(
                &mut lent,
                &format!("word {word} of slot {slot}"),
                is_well_formed,
            )?;
            cases += 1;
        }
    }
    Ok(cases)
}

// ---- one thing changed

/// How often a change was tried, and how often the tables were well formed even so.
#[derive(Clone, Default)]
pub struct Outcome {
    pub tables: u64,
    pub well_formed: u64,
}

type Change = fn(&mut Lent, &mut Random);

pub const CHANGES: [(&str, Change); 27] = [
    ("a child", child),
    ("the low half of an own number", any_fact::<OWN_LOW>),
    ("the high half of an own number", any_fact::<OWN_HIGH>),
    ("a value", any_fact::<VALUE>),
    ("a height", any_fact::<HEIGHT>),
    ("a sum", any_fact::<SUM>),
    ("a spare word", any_fact::<SPARE>),
    ("a hash", any_fact::<HASH>),
    ("a hash, and the finding table by it", hash_believed),
    ("holds", any_fact::<HOLDS>),
    ("places", any_fact::<PLACES>),
    ("a mark", any_fact::<MARK>),
    ("an entry of the freed slots", entry),
    ("a cell of the finding table", cell),
    ("two cells of the finding table exchanged", cells_exchanged),
    ("the finding table in another order", finding_reordered),
    ("the freed slots in another order", freed_reordered),
    (
        "two entries of the freed slots exchanged",
        entries_exchanged,
    ),
    ("a freed slot left out", freed_left_out),
    ("a freed slot twice", freed_twice),
    ("a generation, in every place", generation_everywhere),
    ("a leaf's value for another's", value_copied),
    ("a child for another, with its place", child_for_another),
    ("next or freed", state),
    ("the capacity", capacity),
    ("a table's length", length),
    ("a node forgotten", forgotten),
];

/// A slot, most often one that was given out.
fn any_slot(lent: &Lent, random: &mut Random) -> usize {
    let capacity = lent.arena.capacity;
    if random.once_in(8) {
        return random.below(capacity);
    }
    random.below((lent.arena.next() + 1).min(capacity))
}

/// Another number of so many bits in place of this one: near it, a bit turned, a like one from elsewhere, or any.
fn another(old: u64, like: u64, bits: usize, random: &mut Random) -> u64 {
    match random.below(6) {
        0 => old.wrapping_add(1),
        1 => old.wrapping_sub(1),
        2 => old ^ 1 << random.below(bits),
        3 => like,
        4 => 0,
        _ => word(random) >> random.one_of(&[0, 64 - bits]),
    }
}

fn child(lent: &mut Lent, random: &mut Random) {
    let at = 8 * any_slot(lent, random) + random.below(8);
    let like = match random.below(2) {
        0 => lent.view().own(any_slot(lent, random)),
        _ => random.one_of(lent.kids()),
    };
    let kids = lent.tables().kids;
    kids[at] = another(kids[at], like, 64, random);
}

fn any_fact<const WORD: usize>(lent: &mut Lent, random: &mut Random) {
    let slot = any_slot(lent, random);
    let like = fact(lent, any_slot(lent, random), WORD);
    let old = fact(lent, slot, WORD);
    let other = another(old.into(), like.into(), 32, random);
    put(lent, slot, WORD, other as u32);
}

/// An entry of the stack, most often one that stands for a freed slot.
fn entry(lent: &mut Lent, random: &mut Random) {
    let freed = lent.arena.freed();
    if freed == 0 || random.once_in(4) {
        return any_fact::<ENTRY>(lent, random);
    }
    let number = random.below(freed);
    let like = any_slot(lent, random) as u64;
    let other = another(fact(lent, number, ENTRY).into(), like, 32, random);
    put(lent, number, ENTRY, other as u32);
}

/// Another hash of a live node, and the finding table as a search by the hash words wants it.
fn hash_believed(lent: &mut Lent, random: &mut Random) {
    let slots = live_slots(lent);
    if slots.is_empty() {
        return;
    }
    let (slot, like) = (random.one_of(&slots), random.one_of(&slots));
    let [old, like] = [slot, like].map(|slot| fact(lent, slot, HASH).into());
    put(lent, slot, HASH, another(old, like, 32, random) as u32);
    write_finding(lent, &slots);
}

/// A cell, most often one that names a slot.
fn any_cell(lent: &Lent, random: &mut Random) -> usize {
    let named: Vec<usize> = (0..lent.find().len())
        .filter(|at| lent.find()[*at] != 0)
        .collect();
    if named.is_empty() || random.once_in(3) {
        return random.below(lent.find().len());
    }
    random.one_of(&named)
}

fn cell(lent: &mut Lent, random: &mut Random) {
    let at = any_cell(lent, random);
    let like = lent.find()[any_cell(lent, random)];
    let find = lent.tables().find;
    find[at] = another(find[at].into(), like.into(), 16, random) as u16;
}

fn cells_exchanged(lent: &mut Lent, random: &mut Random) {
    let one = any_cell(lent, random);
    // Neighbours may well stand in either order.
    let other = match random.below(2) {
        0 => (one + 1).min(lent.find().len() - 1),
        _ => any_cell(lent, random),
    };
    lent.tables().find.swap(one, other);
}

fn finding_reordered(lent: &mut Lent, random: &mut Random) {
    let mut slots = live_slots(lent);
    random.shuffle(&mut slots);
    write_finding(lent, &slots);
}

fn freed_reordered(lent: &mut Lent, random: &mut Random) {
    let mut slots = freed_slots(lent);
    random.shuffle(&mut slots);
    write_freed(lent, &slots);
}

/// Two entries of the freed slots, which keep their marks.
fn entries_exchanged(lent: &mut Lent, random: &mut Random) {
    let slots = freed_slots(lent);
    if slots.is_empty() {
        return;
    }
    let [one, other] = [(); 2].map(|()| random.below(slots.len()));
    put(lent, one, ENTRY, slots[other] as u32);
    put(lent, other, ENTRY, slots[one] as u32);
}

fn freed_left_out(lent: &mut Lent, random: &mut Random) {
    let mut slots = freed_slots(lent);
    if slots.is_empty() {
        return;
    }
    let gone = slots.remove(random.below(slots.len()));
    put(lent, gone, MARK, 0);
    write_freed(lent, &slots);
}

/// A freed slot once more on top of the stack, and one more slot given out if there is one, so that the numbers agree.
fn freed_twice(lent: &mut Lent, random: &mut Random) {
    let slots = freed_slots(lent);
    if slots.is_empty() {
        return;
    }
    let again = random.one_of(&slots);
    put(lent, slots.len(), ENTRY, again as u32);
    let next = (lent.arena.next() + 1).min(lent.arena.capacity);
    lent.arena.slots = slots_of(next, slots.len() + 1);
}

fn generation_everywhere(lent: &mut Lent, random: &mut Random) {
    let slots = live_slots(lent);
    if slots.is_empty() {
        return;
    }
    let slot = random.one_of(&slots);
    let own = lent.view().own(slot);
    let any = random.below(0x8000) as u16;
    let given = random.one_of(&[0, 1, 0x7FFD, 0x7FFE, 0x7FFF, any]);
    let other = own ^ u64::from(generation(own) ^ given) << 32;
    put_own(lent, slot, other);
    for id in lent.tables().kids.iter_mut().filter(|id| **id == own) {
        *id = other;
    }
    write_anew(lent);
}

fn value_copied(lent: &mut Lent, random: &mut Random) {
    let leaves: Vec<usize> = (live_slots(lent).into_iter())
        .filter(|slot| is_leaf(lent.view().own(*slot)))
        .collect();
    if leaves.len() < 2 {
        return;
    }
    let one = random.below(leaves.len());
    let other = (one + 1 + random.below(leaves.len() - 1)) % leaves.len();
    let value = fact(lent, leaves[other], VALUE);
    put(lent, leaves[one], VALUE, value);
    write_anew(lent);
}

/// One live child for another node, the places counted along.
fn child_for_another(lent: &mut Lent, random: &mut Random) {
    let named: Vec<usize> = (0..lent.kids().len())
        .filter(|at| lent.kids()[*at] != EMPTY)
        .collect();
    let slots = live_slots(lent);
    if named.is_empty() {
        return;
    }
    let (at, slot) = (random.one_of(&named), random.one_of(&slots));
    let old = index(lent.kids()[at]) as usize;
    lent.tables().kids[at] = lent.view().own(slot);
    put(lent, old, PLACES, fact(lent, old, PLACES) - 1);
    put(lent, slot, PLACES, fact(lent, slot, PLACES) + 1);
    write_anew(lent);
}

fn state(lent: &mut Lent, random: &mut Random) {
    let arena = &mut lent.arena;
    let (next, freed) = (arena.next() as u64, arena.freed() as u64);
    let both = slots_of(1, 1);
    arena.slots = match random.below(4) {
        0 => freed << 32 | another(next, freed, 32, random) & 0xFFFF_FFFF,
        1 => another(freed, next, 32, random) << 32 | next,
        // As many live as before.
        2 => (arena.slots).wrapping_add(random.one_of(&[both, both.wrapping_neg()])),
        _ => another(arena.slots, next, 64, random),
    };
}

fn capacity(lent: &mut Lent, random: &mut Random) {
    let old = lent.arena.capacity as u64;
    lent.arena.capacity = another(old, 65_537, 64, random) as usize;
}

fn length(lent: &mut Lent, random: &mut Random) {
    let which = random.below(3);
    let old = [lent.kids().len(), lent.facts().len(), lent.find().len()][which];
    let any = random.below(2 * old);
    let length = random.one_of(&[0, old - 1, old + 1, any]);
    *lent = lent.with_length(which, length, 0);
}

/// A live node's slot becomes a freed one, whoever names it.
fn forgotten(lent: &mut Lent, random: &mut Random) {
    let mut slots = live_slots(lent);
    if slots.is_empty() {
        return;
    }
    let slot = slots.remove(random.below(slots.len()));
    for child in children(lent, slot).into_iter().filter(|id| *id != EMPTY) {
        let below = index(child) as usize;
        put(lent, below, PLACES, fact(lent, below, PLACES) - 1);
    }
    lent.tables().kids[8 * slot..8 * slot + 8].fill(EMPTY);
    for word in (0..WORDS).filter(|word| *word != ENTRY) {
        put(lent, slot, word, 0);
    }
    let mut freed = freed_slots(lent);
    freed.push(slot);
    write_freed(lent, &freed);
    write_finding(lent, &slots);
}

/// Makes each change to one well-formed set of tables. The error has the set's seed.
pub fn run(seed: u64, outcomes: &mut [Outcome]) -> Result<(), String> {
    let mut random = Random::new(seed);
    let told = (|| {
        let capacity = random.one_of(&[2, 3, 4, 8, 16, 40, 100, 400]);
        let whole = well_formed(capacity, &mut random)?;
        for ((name, change), outcome) in CHANGES.iter().zip(outcomes) {
            let mut lent = whole.clone();
            change(&mut lent, &mut random);
            if lent.is_same(&whole) {
                continue;
            }
            outcome.tables += 1;
            let says = judge(&mut lent).map_err(|words| format!("{name}: {words}"))?;
            outcome.well_formed += u64::from(says);
        }
        Ok(())
    })();
    told.map_err(|words: String| format!("tables of seed {seed:#x}: {words}"))
}
