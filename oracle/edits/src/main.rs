//! Compares the port's edit, linked from its static library, with document 01, with plain arrays of numbers and with a path copy on the original.
//!
//!     edits [--long N | --part N]     N times as many edits at random, or an Nth of them
mod boundary;
mod damage;
mod models;
mod tally;

use arena::beside::Original;
use damage::Damages;
use models::Plan;
use reference::arena::LEAST_CAPACITY;
use reference::{Random, Seeds, Volume};
use std::process::ExitCode;
use std::time::Instant;
use tally::Tally;

/// The first seed. Each run has its own, a step on from the one before.
const SEED: u64 = 0x0102_0304_0506_070B;

/// Capacity, runs, edits in each, deepest model, and whether the original runs beside: its checks look through all freed slots at each step.
const RUNS: [(usize, u64, u64, u32, Original); 14] = [
    (2, 4, 2_000, 6, Original::Beside),
    (3, 4, 2_000, 6, Original::Beside),
    (5, 6, 2_000, 6, Original::Beside),
    (8, 10, 2_000, 6, Original::Beside),
    (9, 10, 2_000, 4, Original::Beside),
    (16, 20, 2_000, 6, Original::Beside),
    (40, 20, 2_500, 5, Original::Beside),
    (100, 20, 2_500, 4, Original::Beside),
    (300, 10, 5_000, 6, Original::Beside),
    (600, 10, 5_000, 3, Original::Beside),
    (2_000, 4, 10_000, 4, Original::Beside),
    (8_192, 2, 40_000, 6, Original::Beside),
    (65_536, 1, 60_000, 6, Original::Beside),
    (65_536, 1, 100_000, 6, Original::Absent),
];
/// Runs of capacities and depths at random, and edits in each.
const OTHER_RUNS: (u64, u64) = (60, 1_500);

/// Sets of damaged tables.
const DAMAGED: u64 = 20_000;
/// Changes that the comparisons have to see.
const CHANGES: u32 = 300;

fn boundaries(all: &mut Tally) -> Result<(), String> {
    for (name, case) in boundary::CASES {
        let mut tally = Tally::default();
        case(&mut tally).map_err(|words| format!("{name}: {words}"))?;
        println!("{name}: as document 01 says, {} edits", tally.edits);
        all.add(&tally);
    }
    Ok(())
}

fn runs(volume: Volume, seeds: &mut Seeds, all: &mut Tally) -> Result<(), String> {
    for (capacity, count, edits, deepest, original) in RUNS {
        let start = Instant::now();
        let mut tally = Tally::default();
        let (count, edits) = volume.split(count, edits);
        for _ in 0..count {
            let plan = Plan {
                capacity,
                edits,
                deepest,
                original,
                seed: seeds.another(),
            };
            models::run(&plan, &mut tally)?;
        }
        println!(
            "capacity {capacity}, {count} runs, {:.1} s, {tally}",
            start.elapsed().as_secs_f64()
        );
        all.add(&tally);
    }
    Ok(())
}

/// Runs of capacities and depths at random.
fn other_runs(volume: Volume, seeds: &mut Seeds, all: &mut Tally) -> Result<(), String> {
    let start = Instant::now();
    let mut tally = Tally::default();
    let (count, edits) = (volume.of(OTHER_RUNS.0), OTHER_RUNS.1);
    for _ in 0..count {
        let seed = seeds.another();
        let mut random = Random::new(seed);
        let most = random.one_of(&[12, 60, 400, 3_000]);
        let plan = Plan {
            capacity: LEAST_CAPACITY + random.below(most),
            edits,
            deepest: random.below(7) as u32,
            original: Original::Beside,
            seed,
        };
        models::run(&plan, &mut tally)?;
    }
    println!(
        "capacities at random, {count} runs, {:.1} s, {tally}",
        start.elapsed().as_secs_f64()
    );
    all.add(&tally);
    Ok(())
}

fn damaged(volume: Volume, seeds: &mut Seeds) -> Result<(), String> {
    let mut damages = Damages::default();
    for _ in 0..volume.of(DAMAGED) {
        damage::run(seeds.another(), &mut damages)?;
    }
    println!(
        "damaged tables: {} sets, {} of them well formed even so, {} edits ({} accepted, {} refused with 1) and {} other calls, all ended and stayed inside",
        damages.sets,
        damages.well_formed,
        damages.edits,
        damages.accepted,
        damages.refused_with_1,
        damages.others
    );
    Ok(())
}

/// The comparisons see what is changed on purpose.
fn changes(seeds: &mut Seeds) -> Result<(), String> {
    let plan = Plan {
        capacity: 100,
        edits: 200,
        deepest: 3,
        original: Original::Beside,
        seed: seeds.another(),
    };
    let seen = models::see_changes(&plan, CHANGES)?;
    println!("{seen} changes of a table's word or a plain array's number, all seen");
    Ok(())
}

fn compare(volume: Volume) -> Result<String, String> {
    let mut seeds = Seeds::new(SEED);
    let mut all = Tally::default();
    changes(&mut seeds)?;
    boundaries(&mut all)?;
    runs(volume, &mut seeds, &mut all)?;
    other_runs(volume, &mut seeds, &mut all)?;
    damaged(volume, &mut seeds)?;
    Ok(all.summary())
}

fn main() -> ExitCode {
    let Some(volume) = Volume::asked("edits") else {
        return ExitCode::from(2);
    };
    println!("seed {SEED:#018x}");
    reference::quiet();
    match compare(volume) {
        Ok(summary) => {
            println!("{summary}, no difference");
            ExitCode::SUCCESS
        }
        Err(words) => {
            println!("DIFFERENT\n{words}");
            ExitCode::FAILURE
        }
    }
}
