//! Every pair of cubes of depth 1 with one value or nothing in each cell, into lists of every length.
use crate::sides::{Places, Sides, Told};
use crate::tally::Tally;
use arena::call::Call;
use arena::lent::Lent;
use reference::document01::EMPTY;
use reference::months::Comparison;

const VALUE: u16 = 5;
/// Lists to this length: one place more than there are cells.
const LONGEST: usize = 9;

/// EMPTY, the leaf, and a branch for every set of cells but none; all eight are there tidily and as a branch.
fn roots(lent: &mut Lent) -> Result<Vec<u64>, String> {
    let mut accept = |call: Call<u64>| match lent.call(&call) {
        answered if answered.no == 0 => Ok(answered.id),
        answered => Err(format!("{call:x?} is refused with {}", answered.no)),
    };
    let leaf = accept(Call::Leaf(VALUE))?;
    let mut roots = vec![EMPTY, leaf];
    for set in 1..256u32 {
        let children = std::array::from_fn(|cell| match set >> cell & 1 {
            0 => EMPTY,
            _ => leaf,
        });
        for id in children {
            accept(Call::Hold(id))?;
        }
        roots.push(accept(Call::Branch(children))?);
    }
    Ok(roots)
}

pub fn pairs(places: &Places, tally: &mut Tally) -> Told {
    let mut tables = Lent::fresh(258);
    let roots = roots(&mut tables)?;
    let mut copy = tables.clone();
    let mut sides = Sides { tally, places };
    for &left in &roots {
        for &right in &roots {
            let view = tables.view();
            let comparison = Comparison::new(&view, left, right, 1);
            for room in 0..=LONGEST {
                sides.call(&mut copy, &comparison, [room; 3], false, left ^ right)?;
            }
            sides.tally.pairs[1] += 1;
        }
        if !copy.is_intact() || !copy.is_same(&tables) {
            return Err("a comparison changes the tables".to_string());
        }
    }
    Ok(())
}
