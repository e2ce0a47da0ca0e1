//! The edit on tables that no arena ever left, made of what edits leave. Every call has to end and to stay inside its tables; a refusal changes
//! nothing; the arena check says what document 01's reading of the tables says.
use arena::call::Call;
use arena::check;
use arena::damage::{id, judge, tables};
use arena::edit::Voxel;
use arena::lent::{Guarded, Lent};
use reference::Random;
use reference::document01::EMPTY;

/// How many calls run on each set of tables.
const CALLS: usize = 24;
/// Expansion runs to this depth here.
const DEEPEST: u32 = 4;

#[derive(Default)]
pub struct Damages {
    pub sets: u64,
    pub well_formed: u64,
    pub edits: u64,
    pub accepted: u64,
    pub refused_with_1: u64,
    pub others: u64,
}

fn voxel(random: &mut Random) -> Voxel {
    let depth = random.below(7) as u32;
    Voxel {
        depth,
        cell: [(); 3].map(|()| random.below(1 << depth) as i32),
        value: random.one_of(&[0, 1, 2, 3, 65_535]),
    }
}

/// An arena after some edits at random; most old roots are released.
fn well_formed(capacity: usize, random: &mut Random) -> Result<Lent, String> {
    let mut lent = Lent::fresh(capacity);
    let mut root = EMPTY;
    for _ in 0..random.below(60) {
        let made = lent.call(&Call::Edit(root, voxel(random)));
        if made.no == 0 {
            if !random.once_in(4) {
                lent.call(&Call::Release(root));
            }
            root = made.id;
        } else if random.once_in(4) {
            lent.call(&Call::Release(root));
            root = EMPTY;
        }
    }
    Ok(lent)
}

/// Runs one call, most often an edit, and looks at what it left.
fn judge_any(lent: &mut Lent, random: &mut Random, damages: &mut Damages) -> Result<(), String> {
    let id = id(lent, random);
    let voxel = voxel(random);
    let call = match random.below(20) {
        0 => Call::Hold(id),
        1 => Call::Release(id),
        _ => Call::Edit(id, voxel),
    };
    let no = judge(lent, &call)?.no;
    if let Call::Edit(..) = call {
        damages.edits += 1;
        damages.accepted += u64::from(no == 0);
        damages.refused_with_1 += u64::from(no == 1);
    } else {
        damages.others += 1;
    }
    Ok(())
}

/// The calls that read: they leave every word, and the check answers by document 01's reading.
fn judge_reading(
    lent: &mut Lent,
    random: &mut Random,
    damages: &mut Damages,
) -> Result<(), String> {
    let before = lent.clone();
    let id = id(lent, random);
    let voxel = voxel(random);
    let looked = lent.look(id, voxel.depth, voxel.cell);
    let depth = voxel.depth.min(DEEPEST);
    let mut cube = Guarded::new(&vec![0; 1 << (3 * depth)], 0xC35A);
    let no = lent.expand(id, depth, cube.inside_mut());
    let is_fitting = before.view().fit(before.arena.capacity);
    damages.others += 3;
    if !cube.is_intact() || (no == 1) == is_fitting || (looked.no == 1) == is_fitting {
        return Err(format!("reading {id:#x} answers {looked:?} and {no}"));
    }
    if !lent.is_same(&before) {
        return Err(format!("reading {id:#x} changes something"));
    }
    check::judge(lent).map(|_| ())
}

/// Runs calls on one set of tables. The error has the set's seed.
pub fn run(seed: u64, damages: &mut Damages) -> Result<(), String> {
    let mut random = Random::new(seed);
    let told = (|| {
        let mut lent = tables(&mut random, well_formed)?;
        damages.sets += 1;
        damages.others += 1;
        damages.well_formed += u64::from(check::judge(&mut lent)?);
        for _ in 0..CALLS {
            judge_any(&mut lent, &mut random, damages)?;
        }
        judge_reading(&mut lent, &mut random, damages)
    })();
    told.map_err(|words| format!("tables of seed {seed:#x}: {words}"))
}
