//! One pair of roots on all sides: the port's comparison into lists of several lengths and with its sides exchanged, beside document 02 and beside a scan of two
//! expansions.
use crate::list;
use crate::tally::Tally;
use arena::lent::{Guarded, Lent};
use reference::Random;
use reference::months::{Comparison, Differences, Differing, Nodes, cell_of};
use reference::reading::DEEPEST;

pub type Told = Result<(), String>;

/// What stands in a cube before an expansion, and around it.
const BEFORE: u16 = 0xBEEF;
const GUARD: u16 = 0x5AC3;

/// For each depth, where the cell of each path code stands in an expansion: cell (x, y, z) stands at y·4^d + z·2^d + x.
pub struct Places([Vec<usize>; DEEPEST as usize + 1]);

impl Places {
    pub fn new() -> Self {
        let place = |depth: usize, [x, y, z]: [i32; 3]| {
            ((y as usize) << (2 * depth)) + ((z as usize) << depth) + x as usize
        };
        Self(std::array::from_fn(|depth| {
            (0..1 << (3 * depth))
                .map(|code| place(depth, cell_of(code)))
                .collect()
        }))
    }

    pub fn of_depth(&self, depth: u32) -> &[usize] {
        &self.0[depth as usize]
    }
}

/// The lengths of lists that are lent to a comparison which finds so many cells, besides just enough: one too few, more, any other, and a part of another length.
fn lengths(cells: usize, depth: u32, random: &mut Random) -> Vec<[usize; 3]> {
    let whole = 1 << (3 * depth.min(DEEPEST));
    let more = cells + 1 + random.below(6);
    let any = random.one_of(&[0, cells / 2, whole - 1, whole, whole + 1]);
    let room = random.one_of(&[cells, more]);
    let mut apart = [room; 3];
    apart[random.below(3)] = random.one_of(&[room + 1, room.saturating_sub(1), 0, whole]);
    let mut lengths = vec![[more; 3], [any; 3], apart];
    if cells > 0 {
        lengths.push([cells - 1; 3]);
    }
    lengths
}

/// What pairs are compared with.
pub struct Sides<'a> {
    pub tally: &'a mut Tally,
    pub places: &'a Places,
}

impl Sides<'_> {
    /// Compares a pair whose nodes stand in the tables. The port works on a copy, which has to stay like them. Answers what is found, if it is not refused whatever
    /// the list.
    pub fn pair<N: Nodes>(
        &mut self,
        tables: &Lent,
        copy: &mut Lent,
        comparison: &Comparison<N>,
        random: &mut Random,
    ) -> Result<Option<Differences>, String> {
        let depth = comparison.depth;
        let found = comparison.answer([usize::MAX; 3]).ok();
        if let Some(found) = found {
            self.scan(copy, comparison, found)?;
            self.tally.in_vain += u64::from(found.cells.is_empty() && found.opened > 0);
        }
        let cells = found.map_or(random.below(4), |found| found.cells.len());
        for lengths in lengths(cells, depth, random) {
            self.call(copy, comparison, lengths, random.once_in(2), random.bits())?;
        }
        // Both ways round into a list that is just long enough.
        for is_exchanged in [false, true] {
            let bits = random.bits();
            self.call(copy, comparison, [cells; 3], is_exchanged, bits)?;
        }
        self.tally.pairs[depth.min(DEEPEST + 1) as usize] += 1;
        if !copy.is_intact() || !copy.is_same(tables) {
            return Err("a comparison changes the tables".to_string());
        }
        Ok(found.cloned())
    }

    /// One call of the port into a list of these lengths, with the sides exchanged if wanted.
    pub fn call<N: Nodes>(
        &mut self,
        copy: &mut Lent,
        comparison: &Comparison<N>,
        lengths: [usize; 3],
        is_exchanged: bool,
        marks: u64,
    ) -> Told {
        let expected = comparison.answer(lengths);
        let depth = comparison.depth;
        let (left, right) = match is_exchanged {
            false => (comparison.left, comparison.right),
            true => (comparison.right, comparison.left),
        };
        let mut list = list::Lent::new(lengths, marks);
        let answered = copy.compare(left, right, depth, &mut list.parts());
        self.tally.comparisons += 1;
        self.tally.deepest += u64::from(depth == DEEPEST);
        match expected {
            Ok(found) => {
                self.tally.accepted += 1;
                self.tally.cells += found.cells.len() as u64;
            }
            Err(no) => self.tally.refused[no as usize] += 1,
        }
        list.judge(&answered, expected, is_exchanged)
            .map_err(|words| {
                format!(
                    "{left:#x} and {right:#x} at depth {depth} into lists of {lengths:?}: {words}"
                )
            })
    }

    /// Both roots expanded by the port, and every cell compared: these cells have to be found.
    fn scan<N: Nodes>(
        &self,
        copy: &mut Lent,
        comparison: &Comparison<N>,
        found: &Differences,
    ) -> Told {
        let depth = comparison.depth;
        let places = self.places.of_depth(depth);
        let mut expand = |id: u64| {
            let mut cube = Guarded::new(&vec![BEFORE; places.len()], GUARD);
            match copy.expand(id, depth, cube.inside_mut()) {
                0 if cube.is_intact() => Ok(cube),
                no => Err(format!("expanding {id:#x} at depth {depth} answers {no}")),
            }
        };
        let (lefts, rights) = (expand(comparison.left)?, expand(comparison.right)?);
        let differing = (0..).zip(places).filter_map(|(code, place)| {
            let (left, right) = (lefts.inside()[*place], rights.inside()[*place]);
            (left != right).then_some(Differing { code, left, right })
        });
        if differing.eq(found.cells.iter().copied()) {
            return Ok(());
        }
        Err(format!(
            "{:#x} and {:#x} at depth {depth}: two expansions do not differ as document 02 says",
            comparison.left, comparison.right
        ))
    }
}
