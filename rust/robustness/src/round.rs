//! A round: tables made and damaged, and calls on them, each watched.
use crate::calls::{
    Call, ENTRY, HASH, HEIGHT, HOLDS, KINDS, List, MARK, OWN_HIGH, OWN_LOW, PLACES, Record, Tables,
    WORDS, hash, place, words_of,
};
use crate::lent::{Lent, Placing, Word};
use crate::numbers::Numbers;
use fenpiling_sys::{Arena, Cell};

/// The low half of a state's slots, which is the lowest slot never given out.
const LOW: u64 = 0xFFFF_FFFF;

/// How many calls of each kind answered each number.
pub type Seen = [[u64; 16]; KINDS.len()];

/// What the tables of a round are.
#[derive(Clone, Copy, Debug, PartialEq)]
enum Ground {
    /// Made by calls, and never touched by anything else.
    Whole,
    /// Made by calls, then changed here and there, the state too.
    Damaged,
    /// Words of no meaning, or of some.
    Noise,
    /// Tables of a wrong length.
    Unfit,
}

struct Round<'a> {
    numbers: Numbers,
    ground: Ground,
    tables: Tables,
    arena: Arena,
    /// Ids that calls have answered.
    ids: Vec<u64>,
    seen: &'a mut Seen,
}

/// Plays a round; the error tells what a call did wrong.
pub fn play(seed: u64, heap: bool, seen: &mut Seen) -> Result<(), String> {
    let mut numbers = Numbers(seed);
    let capacity = match numbers.below(40) {
        0 => 512,
        1 if numbers.once_in(100) => 65_536,
        2..20 => 2 + numbers.below(12),
        _ => 2 + numbers.below(62),
    };
    let ground = numbers.of(&[
        Ground::Whole,
        Ground::Whole,
        Ground::Damaged,
        Ground::Damaged,
        Ground::Damaged,
        Ground::Noise,
        Ground::Unfit,
    ]);
    let mut lengths = [8 * capacity, WORDS * capacity, 5 * capacity];
    if ground == Ground::Unfit {
        let table = numbers.below(3);
        lengths[table] = match numbers.below(4) {
            0 => 0,
            1 => lengths[table] - 1,
            2 => lengths[table] + 1,
            _ => numbers.below(2 * lengths[table]),
        };
    }
    let cells = 1 << (3 * shallow(&mut numbers));
    let cube = if numbers.once_in(8) { cells + 1 } else { cells };
    let places = if numbers.once_in(3) {
        numbers.below(20)
    } else {
        1 << (3 * shallow(&mut numbers))
    };
    let mut list = [places; 3];
    if numbers.once_in(6) {
        list[numbers.below(3)] = numbers.of(&[0, places / 2, places + 1]);
    }
    let record = if numbers.once_in(4) {
        numbers.below(1 + size_of::<Record>())
    } else {
        40
    };
    let placing = if heap {
        Placing::Heap
    } else {
        Placing::Paged {
            at_end: !numbers.once_in(3),
        }
    };
    let mut round = Round {
        numbers,
        ground,
        tables: Tables {
            kids: Lent::new(lengths[0], placing),
            facts: Lent::new(lengths[1], placing),
            find: Lent::new(lengths[2], placing),
            cube: Lent::new(cube, placing),
            list: List {
                codes: Lent::new(list[0], placing),
                lefts: Lent::new(list[1], placing),
                rights: Lent::new(list[2], placing),
            },
            record: Lent::new(record, placing),
        },
        arena: Arena { capacity, slots: 1 },
        ids: vec![0],
        seen,
    };
    round.fill_list();
    round.play().map_err(|fault| {
        format!(
            "seed {seed}, {ground:?} tables of {capacity} slots {lengths:?}, a list of {list:?} places: {fault}"
        )
    })
}

/// A depth from 0 to 6, more often a small one.
fn shallow(numbers: &mut Numbers) -> u32 {
    (0..3).map(|_| numbers.below(7) as u32).min().unwrap_or(0)
}

/// Changes some words of a table: bits, odd numbers, or other words of it.
fn damage<T: Word + Into<u64>>(numbers: &mut Numbers, words: &mut [T]) {
    if words.is_empty() {
        return;
    }
    for _ in 0..1 + numbers.below(3) {
        let at = numbers.below(words.len());
        let other = numbers.below(words.len());
        words[at] = match numbers.below(3) {
            0 => T::cut(words[at].into() ^ (1 << numbers.below(8 * size_of::<T>()))),
            1 => T::cut(numbers.odd() >> numbers.of(&[0, 32])),
            _ => words[other],
        };
    }
}

impl Round<'_> {
    fn play(&mut self) -> Result<(), String> {
        self.make(Call::Fresh(self.arena.capacity))?;
        if self.ground == Ground::Noise {
            self.noise();
        } else {
            for _ in 0..24 {
                let call = self.sensible();
                self.make(call)?;
            }
        }
        for _ in 0..64 {
            if self.ground == Ground::Damaged && self.numbers.once_in(6) {
                self.damage();
            }
            let call = if self.numbers.once_in(3) {
                self.sensible()
            } else {
                self.wild()
            };
            self.make(call)?;
        }
        if self.ground == Ground::Whole && self.tables.call(self.arena, Call::Check).no != 0 {
            return Err("the check says no after calls alone".into());
        }
        Ok(())
    }

    /// Makes a call and looks at what it did.
    fn make(&mut self, call: Call) -> Result<(), String> {
        let copied = (self.arena.capacity <= 512).then(|| self.tables.copy());
        let outcome = self.tables.call(self.arena, call);
        let fault = |what: &str| Err(format!("{call:?} on {:?} {what}", self.arena));
        if !self.tables.canaries_live() {
            return fault("wrote outside what it was lent");
        }
        if !KINDS[call.kind()].1.contains(&outcome.no) {
            return fault("answered a number that it never gives");
        }
        let refused = outcome.no != 0;
        let exact = self.ground == Ground::Whole || call.exact_on_any() || outcome.no == 1;
        if exact && outcome.spoils {
            return fault("refused and answered something");
        }
        let is_state_kept = matches!(call, Call::Fresh(_)) || outcome.slots == self.arena.slots;
        if exact && refused && !call.may_have_moved(outcome.no) && !is_state_kept {
            return fault("refused and changed the state");
        }
        if let Some(copied) = copied {
            if exact && call.may_have_moved(outcome.no) {
                if !self.tables.lives_as(&copied) {
                    return fault("changed a live node");
                }
            } else if exact && (refused || !call.changes()) && !self.tables.arena_as(&copied) {
                return fault("changed the arena's tables");
            }
            if (refused || !matches!(call, Call::ToVec(..))) && !self.tables.cube_as(&copied) {
                return fault("changed the cube");
            }
            if !self.tables.list_as(&copied, outcome.listed) {
                return fault("changed the list where it lists nothing");
            }
        }
        if let Call::Compare(left, right, depth) = call
            && !refused
        {
            if !self.tables.lists_cells(outcome.listed, depth) {
                return fault("listed what is no list of cells");
            }
            let codes = &self.tables.list.codes.words()[..outcome.listed];
            let ends = [codes.first().copied(), codes.last().copied()];
            let any = self.numbers.below(1 << (3 * depth)) as u32;
            for code in ends.into_iter().flatten().chain([any]) {
                let roots = [left, right];
                let tables = &mut self.tables;
                if !tables.lists_as_lookup(self.arena, roots, depth, outcome.listed, code) {
                    return fault("listed something else than lookup answers");
                }
            }
        }
        if let Call::ParseReading(bytes) | Call::EnterReading(_, _, _, bytes) = call
            && !self.tables.record_as(&bytes)
        {
            return fault("changed the record");
        }
        self.seen[call.kind()][outcome.no as usize] += 1;
        if !refused || call.may_have_moved(outcome.no) {
            self.arena.slots = outcome.slots;
            if let Call::Fresh(capacity) = call {
                self.arena.capacity = capacity;
            }
        }
        if !refused {
            self.ids.extend(outcome.id);
        }
        Ok(())
    }

    /// A call as a user makes it, mostly.
    fn sensible(&mut self) -> Call {
        let id = self.numbers.of(&self.ids);
        let depth = shallow(&mut self.numbers);
        match self.numbers.below(16) {
            0 | 1 => Call::InternLeaf(1 + self.numbers.below(3) as u16),
            2 => {
                let mut children = [0; 8];
                for child in &mut children {
                    if self.numbers.once_in(4) {
                        *child = self.numbers.of(&self.ids);
                    }
                }
                Call::InternBranch(children)
            }
            3 => Call::Hold(id),
            4..7 => Call::Release(id),
            7 => Call::GetAtDepth(id, depth, self.cell(depth)),
            8..11 => {
                let k = self.numbers.below(7) as u32;
                Call::EnterReading(id, depth, k, self.reading(depth, k))
            }
            11 => Call::Compare(id, self.numbers.of(&self.ids), depth.max(3)),
            _ => Call::SetVoxel(id, depth, self.cell(depth), self.numbers.below(4) as u16),
        }
    }

    /// Any call with any arguments.
    fn wild(&mut self) -> Call {
        let id = self.id();
        let depth = match self.numbers.below(10) {
            0 => 7,
            1 => self.numbers.any() as u32,
            _ => shallow(&mut self.numbers),
        };
        let cell = match self.numbers.below(4) {
            0 => Cell {
                x: self.coordinate(depth),
                y: self.coordinate(depth),
                z: self.coordinate(depth),
            },
            _ => self.cell(depth),
        };
        let value = self.numbers.odd() as u16;
        match self.numbers.below(29) {
            0 => {
                let capacity = self.numbers.of(&[0, 1, 2, 65_536, 65_537, usize::MAX]);
                Call::Fresh(capacity)
            }
            1..4 => Call::InternLeaf(value),
            4..6 => Call::InternBranch([(); 8].map(|()| self.id())),
            6 => {
                let mut children = [0; 8];
                children[self.numbers.below(8)] = id;
                Call::InternBranch(children)
            }
            7 | 8 => Call::Hold(id),
            9..12 => Call::Release(id),
            12 => Call::Counts(id),
            13 => Call::Check,
            14 | 15 => Call::GetAtDepth(id, depth, cell),
            16 => {
                let length = self.tables.cube.words().len();
                let fitting = (0..=6).find(|depth| 1 << (3 * depth) == length);
                Call::ToVec(
                    id,
                    fitting
                        .filter(|_| !self.numbers.once_in(4))
                        .unwrap_or(depth),
                )
            }
            17..20 => Call::Compare(id, self.id(), depth),
            20 => Call::ParseReading(self.record(depth, 3)),
            21..25 => {
                let k = self.numbers.below(8) as u32;
                Call::EnterReading(id, depth, k, self.record(depth, k))
            }
            _ => Call::SetVoxel(id, depth, cell, value),
        }
    }

    /// A record of a shot, a bar or a pause, with numbers in a cube of the depth.
    fn reading(&mut self, depth: u32, k: u32) -> Record {
        let kind = self.numbers.of(&[0, 1, 1, 2, 2, 2]);
        let [x, y, z, second_x] = [(); 4].map(|()| self.metres(depth, k));
        let (numbers, value) = match kind {
            0 => ([0.0; 4], 0),
            1 => ([x, y, z, 0.0], self.numbers.below(4) as u16),
            _ => (
                [x.min(second_x), y, z, x.max(second_x)],
                self.numbers.below(4) as u16,
            ),
        };
        let mut record = [0; 48];
        record[0] = kind;
        record[4..6].copy_from_slice(&value.to_le_bytes());
        for (bytes, number) in record[8..40].chunks_exact_mut(8).zip(numbers) {
            bytes.copy_from_slice(&number.to_le_bytes());
        }
        record
    }

    /// A number in a cell of a cube of the depth.
    fn metres(&mut self, depth: u32, k: u32) -> f64 {
        let cell = self.numbers.below(1 << depth.min(7)) as f64;
        let part = self.numbers.of(&[0.0, 0.5, 0.999]);
        (cell + part) / f64::from(1 << k.min(7))
    }

    /// Such a record with bytes changed, or with numbers of any bits, or any bytes.
    fn record(&mut self, depth: u32, k: u32) -> Record {
        let mut record = self.reading(depth, k);
        match self.numbers.below(4) {
            0 => record.fill_with(|| self.numbers.any() as u8),
            1 => {
                let number = self.numbers.below(4);
                let bits = match self.numbers.below(3) {
                    0 => self.numbers.odd(),
                    1 => self.numbers.any(),
                    _ => 0x7FF << 52 | self.numbers.odd(),
                };
                record[8 + 8 * number..16 + 8 * number].copy_from_slice(&bits.to_le_bytes());
            }
            2 => damage(&mut self.numbers, &mut record),
            _ => {}
        }
        record
    }

    /// An id that was answered, one that the tables name, or any number.
    fn id(&mut self) -> u64 {
        let slot = self.numbers.below(self.arena.capacity.clamp(1, 65_536));
        match self.numbers.below(8) {
            0 => self.numbers.odd(),
            1 => self.tables.kids.words().get(8 * slot).copied().unwrap_or(1),
            2 | 3 => {
                let facts = self.tables.facts.words();
                let half = |word| {
                    let at = place(facts.len(), slot, word);
                    facts.get(at).copied().unwrap_or(1)
                };
                u64::from(half(OWN_HIGH)) << 32 | u64::from(half(OWN_LOW))
            }
            _ => self.numbers.of(&self.ids),
        }
    }

    /// A cell of a cube of the depth.
    fn cell(&mut self, depth: u32) -> Cell {
        let side = 1 << depth.min(7);
        Cell {
            x: self.numbers.below(side) as i32,
            y: self.numbers.below(side) as i32,
            z: self.numbers.below(side) as i32,
        }
    }

    fn coordinate(&mut self, depth: u32) -> i32 {
        let edge = 1 << depth.min(30);
        let any = self.numbers.any() as i32;
        self.numbers
            .of(&[0, -1, edge - 1, edge, i32::MIN, i32::MAX, any])
    }

    /// Fills the list with numbers, so that a place that is written is seen.
    fn fill_list(&mut self) {
        let numbers = &mut self.numbers;
        let list = &mut self.tables.list;
        list.codes.words().fill_with(|| numbers.any() as u32);
        list.lefts.words().fill_with(|| numbers.any() as u16);
        list.rights.words().fill_with(|| numbers.any() as u16);
    }

    /// Changes words of the tables, or of the state.
    fn damage(&mut self) {
        let numbers = &mut self.numbers;
        match numbers.below(5) {
            0 => damage(numbers, self.tables.kids.words()),
            1 => damage(numbers, self.tables.facts.words()),
            2 => damage(numbers, self.tables.find.words()),
            // As many holds as a node can have.
            3 => {
                let facts = self.tables.facts.words();
                let slot = numbers.below(facts.len() / WORDS);
                facts[place(facts.len(), slot, HOLDS)] = 1_000_000;
            }
            _ => {
                let slots = self.arena.slots;
                let (next, freed) = (numbers.odd() & LOW, numbers.odd() << 32);
                match numbers.below(8) {
                    0 => self.arena.capacity = numbers.odd() as usize,
                    1..4 => self.arena.slots = slots & !LOW | next,
                    4..7 => self.arena.slots = freed | slots & LOW,
                    _ => self.arena.slots = freed | next,
                }
            }
        }
    }

    /// Fills the tables with numbers that lead somewhere: slots, ids of slots, odd ones; the state too.
    fn noise(&mut self) {
        let numbers = &mut self.numbers;
        let capacity = self.arena.capacity;
        let full = numbers.of(&[1, 2, 8]);
        let number = |numbers: &mut Numbers| match numbers.below(full + 2) {
            0 => numbers.odd(),
            1 => 0,
            _ => {
                let leaf = numbers.any() & (1 << 63);
                let kinds = numbers.any() & (0xFFFF << 47);
                leaf | kinds | numbers.below(capacity) as u64
            }
        };
        self.tables.kids.words().fill_with(|| number(numbers));
        let facts = self.tables.facts.words();
        facts.fill_with(|| numbers.odd() as u32);
        let kids = self.tables.kids.words().chunks_exact(8);
        for (slot, kids) in kids.enumerate().take(facts.len() / WORDS) {
            for (word, content) in [
                (OWN_LOW, number(numbers) as u32 & !0xFFFF | slot as u32),
                (OWN_HIGH, (number(numbers) >> 32) as u32),
                (HEIGHT, numbers.below(8) as u32),
                (HOLDS, numbers.below(3) as u32),
                (PLACES, numbers.below(3) as u32),
                (MARK, numbers.below(capacity) as u32),
                (ENTRY, numbers.below(capacity) as u32),
            ] {
                facts[place(facts.len(), slot, word)] = content;
            }
            // Most slots have the hash of what stands there, so that searches end at them.
            if !numbers.once_in(4) {
                facts[place(facts.len(), slot, HASH)] = hash(&words_of(facts, slot), kids);
            }
        }
        let find = self.tables.find.words();
        find.fill_with(|| numbers.below(capacity + capacity / 8) as u16);
        let (next, freed) = (numbers.below(capacity + 2), numbers.below(capacity + 1));
        let slots = (freed as u64) << 32 | next as u64;
        self.arena = Arena { capacity, slots };
    }
}
