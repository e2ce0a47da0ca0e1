//! Compares the port, linked from its static library, with the original and with document 01, on every function of ids and paths.
//!
//!     compare [--long N | --part N]     N times as many inputs at random, or an Nth of them
mod functions;
mod inputs;
mod judge;
mod run;

use functions::*;
use inputs::{edges, product, raw_ids};
use reference::{Random, Volume};
use run::Run;
use std::process::ExitCode;

/// The seed of all inputs at random.
const SEED: u64 = 0x0F0E_0D0C_0B0A_0908;
/// How many inputs each function gets at random.
const AT_RANDOM: u64 = 3_000_000;

/// The functions that take an id alone.
const OF_AN_ID: [&Function; 10] = [
    &INDEX,
    &GENERATION,
    &TYPES,
    &MASK,
    &IS_LEAF,
    &IS_BRANCH,
    &IS_INVALID,
    &IS_VALID,
    &IS_EMPTY,
    &TEXT,
];

/// An id at random: any bits, or a few bits, or all but a few. Most are branches, since at leaves the original often panics, which takes long.
fn random_raw(random: &mut Random) -> u64 {
    let raw = match random.bits() % 4 {
        0 => random.bits() & random.bits() & random.bits(),
        1 => random.bits() | random.bits() | random.bits(),
        _ => random.bits(),
    };
    match random.bits() % 2 {
        0 => raw & !(1 << 63),
        _ => raw,
    }
}

/// A generation at random: mostly one that packing accepts.
fn random_generation(random: &mut Random) -> i128 {
    match random.bits() % 8 {
        0 => random.between(0, 0xFFFF),
        _ => random.between(0, 0x7FFE),
    }
}

/// A coordinate at random: any, or near the cubes' sides.
fn random_coordinate(random: &mut Random) -> i128 {
    match random.bits() % 4 {
        0 => random.between(-2, 66),
        1 => random.between(-1030, 1030),
        _ => random.between(i32::MIN.into(), i32::MAX.into()),
    }
}

fn new_leaf(turns: u64, random: &mut Random) -> bool {
    let mut run = Run::new(&NEW_LEAF);
    for generation in 0..=0xFFFF {
        for index in [0, 1, 0xFFFF_FFFF] {
            run.compare(&[index, generation]);
        }
    }
    product(&[edges(0, 0xFFFF_FFFF), edges(0, 0xFFFF)], &mut |input| {
        run.compare(input)
    });
    for _ in 0..turns {
        run.compare(&[random.between(0, 0xFFFF_FFFF), random_generation(random)]);
    }
    run.finish()
}

fn new_branch(turns: u64, random: &mut Random) -> bool {
    let mut run = Run::new(&NEW_BRANCH);
    for generation in 0..=0xFFFF {
        for (index, types, mask) in [
            (0, 0, 0),
            (1, 1, 1),
            (0xFFFF_FFFF, 0xFF, 0xFF),
            (2, 0xAB, 0xCD),
        ] {
            run.compare(&[index, generation, types, mask]);
        }
    }
    for types in 0..=0xFF {
        for mask in 0..=0xFF {
            run.compare(&[0, 0, types, mask]);
            run.compare(&[0xFFFF_FFFF, 0x7FFE, types, mask]);
        }
    }
    let bytes = vec![0, 1, 0x7F, 0x80, 0xFE, 0xFF];
    let lists = [
        edges(0, 0xFFFF_FFFF),
        edges(0, 0xFFFF),
        bytes.clone(),
        bytes,
    ];
    product(&lists, &mut |input| run.compare(input));
    for _ in 0..turns {
        run.compare(&[
            random.between(0, 0xFFFF_FFFF),
            random_generation(random),
            random.between(0, 0xFF),
            random.between(0, 0xFF),
        ]);
    }
    run.finish()
}

/// Every id with fields at their edges, every generation and every pair of types and mask of leaf and branch, and ids at random.
fn of_an_id(function: &'static Function, turns: u64, random: &mut Random) -> bool {
    let mut run = Run::new(function);
    for raw in raw_ids() {
        run.compare(&[raw.into()]);
    }
    for leaf in [0, 1 << 63] {
        for generation in 0..=0x7FFF {
            for rest in [0, 1, 0xFFFF_FFFF, 0xFFFF << 47 | 0xFFFF_FFFF] {
                run.compare(&[leaf | generation << 32 | rest]);
            }
        }
        for types_and_mask in 0..=0xFFFF {
            for rest in [0, 1, 0x7FFF_FFFF_FFFF] {
                run.compare(&[leaf | types_and_mask << 47 | rest]);
            }
        }
    }
    for _ in 0..turns {
        run.compare(&[random_raw(random).into()]);
    }
    run.finish()
}

fn has_child(turns: u64, random: &mut Random) -> bool {
    let mut run = Run::new(&HAS_CHILD);
    for raw in raw_ids() {
        for child in (0..=9).chain([15, 16, 63, 64, 127, 128, 255]) {
            run.compare(&[raw.into(), child]);
        }
    }
    for mask in 0..=0xFF {
        for child in 0..=0xFF {
            run.compare(&[mask << 47, child]);
            run.compare(&[!(mask << 47) & 0x7FFF_FFFF_FFFF_FFFF, child]);
        }
    }
    for _ in 0..turns {
        let most = match random.bits() % 8 {
            0 => 0xFF,
            _ => 7,
        };
        run.compare(&[random_raw(random).into(), random.between(0, most)]);
    }
    run.finish()
}

fn encode(turns: u64, random: &mut Random) -> bool {
    let mut run = Run::new(&ENCODE);
    for a in 0..1024 {
        for b in 0..1024 {
            run.compare(&[a, b, 0]);
            run.compare(&[a, 0, b]);
            run.compare(&[0, a, b]);
        }
    }
    let axis = edges(i32::MIN.into(), i32::MAX.into());
    product(&[axis.clone(), axis.clone(), axis], &mut |input| {
        run.compare(input)
    });
    for a in -2050..=2050 {
        for (b, c) in [
            (0, 0),
            (-1, -1),
            (1023, 5),
            (i32::MIN.into(), i32::MAX.into()),
        ] {
            run.compare(&[a, b, c]);
            run.compare(&[b, a, c]);
            run.compare(&[b, c, a]);
        }
    }
    for _ in 0..turns {
        let cell = [(); 3].map(|()| random_coordinate(random));
        run.compare(&cell);
    }
    run.finish()
}

fn decode(turns: u64, random: &mut Random) -> bool {
    let mut run = Run::new(&DECODE);
    for code in 0..1 << 20 {
        run.compare(&[code]);
    }
    for code in edges(0, 0xFFFF_FFFF) {
        run.compare(&[code]);
        run.compare(&[code ^ 0x3FFF_FFFF]);
    }
    for near in -0x1000..0x1000 {
        run.compare(&[(1 << 30) + near]);
    }
    for turn in 0..turns {
        let most = if turn % 4 == 0 {
            0xFFFF_FFFF
        } else {
            (1 << 30) - 1
        };
        run.compare(&[random.between(0, most)]);
    }
    run.finish()
}

fn child_index2(turns: u64, random: &mut Random) -> bool {
    let mut run = Run::new(&CHILD_INDEX2);
    // Every cell of every cube to depth 4, with a layer around it, at every level; of the larger cubes the cells near the sides and the middle.
    for max in 0..=8 {
        let side = 1 << max;
        let axis: Vec<i128> = if max <= 4 {
            (-1..=side).collect()
        } else {
            let near = |place: i128| place - 2..=place + 1;
            let mut places: Vec<i128> = near(1).chain(near(side / 2)).chain(near(side)).collect();
            places.extend([side / 4, 3 * side / 4, -side, 2 * side]);
            places
        };
        let lists = [
            axis.clone(),
            axis.clone(),
            axis,
            (0..=8).collect(),
            vec![max],
        ];
        product(&lists, &mut |input| run.compare(input));
    }
    // Every cell of the largest cube, at every level.
    let axis: Vec<i128> = (0..64).collect();
    let lists = [axis.clone(), axis.clone(), axis, (0..6).collect(), vec![6]];
    product(&lists, &mut |input| run.compare(input));
    let ends: Vec<i128> = vec![i32::MIN.into(), -64, -1, 0, 1, 63, 64, i32::MAX.into()];
    let depths: Vec<i128> = edges(0, 0xFFFF_FFFF);
    let lists = [ends.clone(), ends.clone(), ends, depths.clone(), depths];
    product(&lists, &mut |input| {
        // The product of all is too many: of the levels and depths above 8, those of equal coordinates.
        if input[3] <= 8 && input[4] <= 8 || input[0] == input[1] && input[1] == input[2] {
            run.compare(input);
        }
    });
    for turn in 0..turns {
        let (current, max) = match turn % 8 {
            0 => (
                random.between(0, 0xFFFF_FFFF),
                random.between(0, 0xFFFF_FFFF),
            ),
            1 => (random.between(0, 9), random.between(0, 80)),
            _ => {
                let max = random.between(0, 7);
                (random.between(0, max), max)
            }
        };
        let cell = [(); 3].map(|()| match turn % 16 {
            3 => random_coordinate(random),
            4 => random.between(-2, 66),
            _ => random.between(0, (1 << max.min(6)) - 1),
        });
        run.compare(&[cell[0], cell[1], cell[2], current, max]);
    }
    run.finish()
}

fn main() -> ExitCode {
    let Some(volume) = Volume::asked("compare") else {
        return ExitCode::from(2);
    };
    let turns = volume.of(AT_RANDOM);
    println!("seed {SEED:#018x}, {turns} inputs at random for each function");
    reference::quiet();
    let mut random = Random::new(SEED);
    let mut all_well = true;
    all_well &= new_leaf(turns, &mut random);
    all_well &= new_branch(turns, &mut random);
    for function in OF_AN_ID {
        all_well &= of_an_id(function, turns, &mut random);
    }
    all_well &= has_child(turns, &mut random);
    all_well &= encode(turns, &mut random);
    all_well &= decode(turns, &mut random);
    all_well &= child_index2(turns, &mut random);
    if all_well {
        println!("no difference beyond the listed departures");
        ExitCode::SUCCESS
    } else {
        println!("DIFFERENT");
        ExitCode::FAILURE
    }
}
