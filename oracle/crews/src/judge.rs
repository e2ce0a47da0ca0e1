//! What the port shows after an order, and what it has to show.
use crate::cube::{Cell, Cube};
use crate::site::{Site, Told};
use crate::tally::Tally;
use arena::call::{Answered, Call};

#[derive(Clone, Debug)]
pub struct Shown {
    /// The root that the order ends in.
    pub end: u64,
    /// The holds on the root that the order starts from, and on its end.
    pub holds: [u64; 2],
    pub live: usize,
    /// What is looked up, in the order of the cells asked for.
    pub values: Vec<u16>,
    /// The expansion, where it is asked for.
    pub cube: Option<Cube>,
}

/// How much of an end is looked at.
pub struct Asked {
    pub cells: Vec<Cell>,
    pub is_expanded: bool,
}

pub struct Expected<'a> {
    /// The id of the first order's end; none for the first order itself.
    pub end: Option<u64>,
    pub holds: [u64; 2],
    /// How many nodes are live, where that is known.
    pub live: Option<usize>,
    pub cube: &'a Cube,
}

/// What the port shows of an order that started and ended in these roots, at a depth.
pub fn show(
    site: &mut Site,
    [start, end]: [u64; 2],
    depth: u32,
    asked: &Asked,
) -> Result<Shown, String> {
    let mut holds = [0; 2];
    for (holds, id) in holds.iter_mut().zip([start, end]) {
        *holds = match site.call(Call::Counts(id))? {
            Answered { no: 0, holds, .. } => holds,
            answered => return Err(format!("the counts of {id:#x} are {answered:x?}")),
        };
    }
    let values = (asked.cells.iter())
        .map(|cell| site.look(end, depth, *cell))
        .collect::<Result<_, _>>()?;
    let cube = match asked.is_expanded {
        true => Some(site.expand(end, depth)?),
        false => None,
    };
    Ok(Shown {
        end,
        holds,
        live: site.live(),
        values,
        cube,
    })
}

/// An order that started and ended in these roots has to show this cube, the first order's end, so many live nodes where that is known, and the holds that callers
/// have.
pub fn compare(
    site: &mut Site,
    tally: &mut Tally,
    roots: [u64; 2],
    asked: &Asked,
    cube: &Cube,
    end: Option<u64>,
    live: Option<usize>,
) -> Told {
    let expected = Expected {
        end,
        holds: roots.map(|id| site.holds_of(id)),
        live,
        cube,
    };
    tally.cells += asked.cells.len() as u64;
    tally.cubes += u64::from(asked.is_expanded);
    show(site, roots, cube.depth, asked)?.judge(asked, &expected)
}

impl Shown {
    /// The error is the first thing that is not as expected.
    pub fn judge(&self, asked: &Asked, expected: &Expected) -> Told {
        if let Some(end) = expected.end
            && self.end != end
        {
            return Err(format!(
                "the end is {:#x}, that of the first order {end:#x}",
                self.end
            ));
        }
        if self.holds != expected.holds {
            return Err(format!(
                "the start and the end have {:?} holds, not {:?}",
                self.holds, expected.holds
            ));
        }
        if let Some(live) = expected.live
            && self.live != live
        {
            return Err(format!("{} nodes are live, not {live}", self.live));
        }
        if self.values.len() != asked.cells.len() {
            return Err("not every cell is looked up".to_string());
        }
        for (cell, value) in asked.cells.iter().zip(&self.values) {
            if *value != expected.cube.value(*cell) {
                return Err(format!(
                    "cell {cell:?} of {:#x} is {value}, by plain assignment {}",
                    self.end,
                    expected.cube.value(*cell)
                ));
            }
        }
        match &self.cube {
            Some(cube) if cube != expected.cube => Err(format!(
                "the expansion of {:#x} is not the cube of plain assignment",
                self.end
            )),
            _ => Ok(()),
        }
    }
}
