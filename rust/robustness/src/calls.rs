//! The calls on lent tables, as values, so that they can be drawn, counted and told.
use crate::lent::Lent;
use fenpiling_sys::{
    Answer, Arena, Cell, Children, Made, Reading, fenpiling_check, fenpiling_compare,
    fenpiling_counts, fenpiling_decode_child_index_path, fenpiling_enter_reading, fenpiling_fresh,
    fenpiling_get_at_depth, fenpiling_hold, fenpiling_intern_branch, fenpiling_intern_leaf,
    fenpiling_parse_reading, fenpiling_release, fenpiling_set_voxel, fenpiling_to_vec,
};

/// The bytes of a record and some more; as many of them are lent as a round's records are long.
pub type Record = [u8; 48];

/// The words of a slot in facts, and some of their numbers. Those below `ROW` stand in its row.
pub const WORDS: usize = 11;
const ROW: usize = 10;
pub const OWN_LOW: usize = 0;
pub const OWN_HIGH: usize = 1;
const VALUE: usize = 2;
pub const HEIGHT: usize = 3;
pub const HOLDS: usize = 6;
pub const PLACES: usize = 7;
pub const MARK: usize = 8;
pub const ENTRY: usize = 9;
pub const HASH: usize = 10;

/// Where a word of a slot stands in facts of that length: rows from the start on, and the hashes backwards from the end.
pub fn place(length: usize, slot: usize, word: usize) -> usize {
    match word {
        HASH => length - 1 - slot,
        _ => ROW * slot + word,
    }
}

/// The words of a slot, by their numbers.
pub fn words_of(facts: &[u32], slot: usize) -> [u32; WORDS] {
    std::array::from_fn(|word| facts[place(facts.len(), slot, word)])
}

/// A call with its arguments beside the arena.
#[derive(Clone, Copy, Debug)]
pub enum Call {
    Fresh(usize),
    InternLeaf(u16),
    InternBranch([u64; 8]),
    Hold(u64),
    Release(u64),
    Counts(u64),
    Check,
    GetAtDepth(u64, u32, Cell),
    ToVec(u64, u32),
    SetVoxel(u64, u32, Cell, u16),
    Compare(u64, u64, u32),
    ParseReading(Record),
    EnterReading(u64, u32, u32, Record),
}

/// The names of the calls, and the numbers that each can answer.
pub const KINDS: [(&str, &[u32]); 13] = [
    ("fresh", &[0, 1]),
    ("intern_leaf", &[0, 1, 6, 10, 11]),
    ("intern_branch", &[0, 1, 4, 5, 7, 8, 10, 11]),
    ("hold", &[0, 1, 4, 10]),
    ("release", &[0, 1, 4, 5]),
    ("counts", &[0, 1, 4]),
    ("check", &[0, 1]),
    ("get_at_depth", &[0, 1, 2, 3, 4]),
    ("to_vec", &[0, 1, 2, 4, 9]),
    ("set_voxel", &[0, 1, 2, 3, 4, 8, 10, 11]),
    ("compare", &[0, 1, 2, 4, 8, 15]),
    ("parse_reading", &[0, 13, 14]),
    ("enter_reading", &[0, 1, 2, 3, 4, 8, 10, 11, 13, 14]),
];

impl Call {
    /// The call's place in `KINDS`.
    pub fn kind(&self) -> usize {
        match self {
            Call::Fresh(_) => 0,
            Call::InternLeaf(_) => 1,
            Call::InternBranch(_) => 2,
            Call::Hold(_) => 3,
            Call::Release(_) => 4,
            Call::Counts(_) => 5,
            Call::Check => 6,
            Call::GetAtDepth(..) => 7,
            Call::ToVec(..) => 8,
            Call::SetVoxel(..) => 9,
            Call::Compare(..) => 10,
            Call::ParseReading(_) => 11,
            Call::EnterReading(..) => 12,
        }
    }

    /// May the call change tables, where it is accepted?
    pub fn changes(&self) -> bool {
        !matches!(
            self,
            Call::Counts(_)
                | Call::Check
                | Call::GetAtDepth(..)
                | Call::ToVec(..)
                | Call::Compare(..)
                | Call::ParseReading(_)
        )
    }

    /// Does the call say what it does on any tables, and not only on well-formed ones?
    pub fn exact_on_any(&self) -> bool {
        !matches!(
            self,
            Call::InternLeaf(_)
                | Call::InternBranch(_)
                | Call::Release(_)
                | Call::SetVoxel(..)
                | Call::EnterReading(..)
        )
    }

    /// Has the call moved what no live node has, though it is refused with this number? A bar that was refused on its way may.
    pub fn may_have_moved(&self, no: u32) -> bool {
        matches!(self, Call::EnterReading(_, _, _, [2, ..])) && matches!(no, 10 | 11)
    }
}

/// What is lent to calls.
pub struct Tables {
    pub kids: Lent<u64>,
    pub facts: Lent<u32>,
    pub find: Lent<u16>,
    pub cube: Lent<u16>,
    pub list: List,
    pub record: Lent<u8>,
}

/// The list of a comparison: path codes, and the values on both sides.
pub struct List {
    pub codes: Lent<u32>,
    pub lefts: Lent<u16>,
    pub rights: Lent<u16>,
}

/// What was lent, before a call.
pub struct Copied {
    kids: Vec<u64>,
    facts: Vec<u32>,
    find: Vec<u16>,
    cube: Vec<u16>,
    codes: Vec<u32>,
    lefts: Vec<u16>,
    rights: Vec<u16>,
}

/// What a call answers: its number (of the check: 0 for yes, 1 for no), the state's slots, and the id or what stands for it.
pub struct Outcome {
    pub no: u32,
    pub slots: u64,
    pub id: Option<u64>,
    /// The value of the cell that it looked up.
    pub value: u16,
    /// How many cells it says that it has listed.
    pub listed: usize,
    /// A refusal that answers a value or counts other than 0.
    pub spoils: bool,
}

impl Tables {
    pub fn canaries_live(&self) -> bool {
        self.kids.canaries_live()
            && self.facts.canaries_live()
            && self.find.canaries_live()
            && self.cube.canaries_live()
            && self.list.codes.canaries_live()
            && self.list.lefts.canaries_live()
            && self.list.rights.canaries_live()
            && self.record.canaries_live()
    }

    pub fn copy(&mut self) -> Copied {
        Copied {
            kids: self.kids.words().to_vec(),
            facts: self.facts.words().to_vec(),
            find: self.find.words().to_vec(),
            cube: self.cube.words().to_vec(),
            codes: self.list.codes.words().to_vec(),
            lefts: self.list.lefts.words().to_vec(),
            rights: self.list.rights.words().to_vec(),
        }
    }

    /// Are the arena's tables as when they were copied?
    pub fn arena_as(&mut self, copied: &Copied) -> bool {
        self.kids.words() == copied.kids
            && self.facts.words() == copied.facts
            && self.find.words() == copied.find
    }

    /// Are the live nodes the same as when the tables were copied, with the same words?
    pub fn lives_as(&mut self, copied: &Copied) -> bool {
        live_nodes(self.facts.words(), self.kids.words())
            .eq(live_nodes(&copied.facts, &copied.kids))
    }

    /// Is the cube as when it was copied?
    pub fn cube_as(&mut self, copied: &Copied) -> bool {
        self.cube.words() == copied.cube
    }

    /// Are the places of the list from this one on as when they were copied?
    pub fn list_as(&mut self, copied: &Copied, from: usize) -> bool {
        let list = &mut self.list;
        list.codes.words().get(from..) == copied.codes.get(from..)
            && list.lefts.words().get(from..) == copied.lefts.get(from..)
            && list.rights.words().get(from..) == copied.rights.get(from..)
    }

    /// Are so many places of the list cells of a cube of the depth, in rising path code, with values that differ?
    pub fn lists_cells(&mut self, listed: usize, depth: u32) -> bool {
        let Some(codes) = self.list.codes.words().get(..listed) else {
            return false;
        };
        let values = self.list.lefts.words().iter().zip(self.list.rights.words());
        codes.is_sorted_by(|code, next| code < next)
            && codes.iter().all(|&code| code < 1 << (3 * depth))
            && values.take(listed).all(|(left, right)| left != right)
    }

    /// Is the cell of the path code listed with what lookup answers of both roots, or not listed and the same in both?
    pub fn lists_as_lookup(
        &mut self,
        arena: Arena,
        roots: [u64; 2],
        depth: u32,
        listed: usize,
        code: u32,
    ) -> bool {
        let decoded = fenpiling_decode_child_index_path(code);
        let (x, y, z) = (decoded.x, decoded.y, decoded.z);
        let lookup = |root| Call::GetAtDepth(root, depth, Cell { x, y, z });
        let [left, right] = roots.map(|root| self.call(arena, lookup(root)).value);
        match self.list.codes.words()[..listed].binary_search(&code) {
            Ok(place) => {
                let (lefts, rights) = (self.list.lefts.words(), self.list.rights.words());
                (left, right) == (lefts[place], rights[place])
            }
            Err(_) => left == right,
        }
    }

    /// Makes a call.
    pub fn call(&mut self, arena: Arena, call: Call) -> Outcome {
        let kids = self.kids.words();
        let facts = self.facts.words();
        let find = self.find.words();
        let cube = self.cube.words();
        let codes = self.list.codes.words();
        let lefts = self.list.lefts.words();
        let rights = self.list.rights.words();
        let record = self.record.words();
        macro_rules! lend {
            ($function:ident($first:expr $(, $other:expr)*)) => {
                // SAFETY: the slices go with their own lengths, and don't overlap.
                unsafe {
                    $function(
                        $first,
                        kids.as_mut_ptr(),
                        kids.len(),
                        facts.as_mut_ptr(),
                        facts.len(),
                        find.as_mut_ptr(),
                        find.len(),
                        $($other),*
                    )
                }
            };
        }
        match call {
            Call::Fresh(capacity) => answered(lend!(fenpiling_fresh(capacity))),
            Call::InternLeaf(value) => made(lend!(fenpiling_intern_leaf(arena, value))),
            Call::InternBranch(ids) => {
                made(lend!(fenpiling_intern_branch(arena, Children { ids })))
            }
            Call::Hold(id) => answered(lend!(fenpiling_hold(arena, id))),
            Call::Release(id) => answered(lend!(fenpiling_release(arena, id))),
            Call::Counts(id) => {
                let counted = lend!(fenpiling_counts(arena, id));
                let nothing = (counted.holds, counted.places) == (0, 0);
                read(arena, counted.no, nothing)
            }
            Call::Check => {
                let yes = lend!(fenpiling_check(arena));
                read(arena, u32::from(!yes), true)
            }
            Call::GetAtDepth(id, depth, cell) => {
                let looked = lend!(fenpiling_get_at_depth(arena, id, depth, cell));
                Outcome {
                    value: looked.value,
                    ..read(arena, looked.no, looked.value == 0)
                }
            }
            Call::ToVec(id, depth) => {
                let (address, length) = (cube.as_mut_ptr(), cube.len());
                let no = lend!(fenpiling_to_vec(arena, id, depth, address, length));
                read(arena, no, true)
            }
            Call::SetVoxel(root, depth, cell, value) => {
                made(lend!(fenpiling_set_voxel(arena, root, depth, cell, value)))
            }
            Call::Compare(left, right, depth) => {
                let compared = lend!(fenpiling_compare(
                    arena,
                    left,
                    right,
                    depth,
                    codes.as_mut_ptr(),
                    codes.len(),
                    lefts.as_mut_ptr(),
                    lefts.len(),
                    rights.as_mut_ptr(),
                    rights.len()
                ));
                let nothing = (compared.count, compared.opened) == (0, 0);
                Outcome {
                    listed: compared.count as usize,
                    ..read(arena, compared.no, nothing)
                }
            }
            Call::ParseReading(bytes) => {
                record.copy_from_slice(&bytes[..record.len()]);
                // SAFETY: the slice goes with its own length.
                let reading = unsafe { fenpiling_parse_reading(record.as_ptr(), record.len()) };
                read(arena, reading.no, says_nothing(&reading))
            }
            Call::EnterReading(root, depth, k, bytes) => {
                record.copy_from_slice(&bytes[..record.len()]);
                let (address, length) = (record.as_ptr(), record.len());
                made(lend!(fenpiling_enter_reading(
                    arena, root, depth, k, address, length
                )))
            }
        }
    }

    /// Is the record still the one that the last call was lent?
    pub fn record_as(&mut self, bytes: &Record) -> bool {
        let record = self.record.words();
        *record == bytes[..record.len()]
    }
}

/// The slots that have a live node, with their words of the facts, and their children. 0 for the entry of the stack of freed slots, which is no word of the
/// slot's own.
fn live_nodes<'a>(
    facts: &'a [u32],
    kids: &'a [u64],
) -> impl Iterator<Item = (usize, [u32; WORDS], &'a [u64])> {
    let slots = kids.chunks(8).enumerate().take(facts.len() / WORDS);
    slots
        .map(|(slot, kids)| {
            let mut words = words_of(facts, slot);
            words[ENTRY] = 0;
            (slot, words, kids)
        })
        .filter(|(_, words, _)| words[OWN_HIGH] >= 1 << 15)
}

/// The hash of a slot with these words of facts and these children, as docs/TABLES.md has it.
pub fn hash(facts: &[u32; WORDS], kids: &[u64]) -> u32 {
    const FACTORS: [u32; 8] = [
        0x9E37_79B1,
        0x85EB_CA77,
        0xC2B2_AE3D,
        0x27D4_EB2F,
        0x1656_67B1,
        0xD6E8_FEB9,
        0xA136_AAAD,
        0x7FEB_352D,
    ];
    if facts[OWN_HIGH] >= 1 << 31 {
        return facts[VALUE].wrapping_mul(FACTORS[0]);
    }
    let terms = kids.iter().zip(FACTORS);
    terms
        .map(|(id, factor)| (*id as u32).wrapping_mul(factor))
        .fold(0, u32::wrapping_add)
}

/// Is all of the reading 0 but its number?
fn says_nothing(reading: &Reading) -> bool {
    let numbers = [reading.x, reading.y, reading.z, reading.second_x];
    (reading.kind, reading.value) == (0, 0) && numbers.map(f64::to_bits) == [0; 4]
}

fn made(made: Made) -> Outcome {
    Outcome {
        no: made.no,
        slots: made.slots,
        id: Some(made.id),
        value: 0,
        listed: 0,
        spoils: made.no != 0 && made.id != u64::MAX,
    }
}

fn answered(answer: Answer) -> Outcome {
    Outcome {
        no: answer.no,
        slots: answer.slots,
        id: None,
        value: 0,
        listed: 0,
        spoils: false,
    }
}

fn read(arena: Arena, no: u32, nothing: bool) -> Outcome {
    Outcome {
        no,
        slots: arena.slots,
        id: None,
        value: 0,
        listed: 0,
        spoils: no != 0 && !nothing,
    }
}
