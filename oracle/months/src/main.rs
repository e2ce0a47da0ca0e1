//! Compares the port's comparison of two roots, linked from its static library, with a plain reading of document 02 and with scans of two expansions.
//!
//!     months [--long N | --part N]     N times as many pairs at random, or an Nth of them
mod boundary;
mod changes;
mod damage;
mod every;
mod ground;
mod list;
mod roots;
mod sides;
mod tally;
mod trees;
mod wrong;

use reference::{Seeds, Volume};
use sides::Places;
use std::process::ExitCode;
use std::time::Instant;
use tally::Tally;
use wrong::WRONG;

/// The first seed. Each run has its own, a step on from the one before.
const SEED: u64 = 0x0102_0304_0506_070F;

/// Capacity, runs, pairs in each, deepest edits.
const TREES: [(usize, u64, u64, u32); 9] = [
    (2, 10, 1_000, 6),
    (3, 20, 1_000, 3),
    (5, 20, 2_000, 3),
    (8, 16, 4_000, 1),
    (12, 16, 4_000, 2),
    (20, 20, 2_000, 3),
    (40, 20, 3_000, 2),
    (40, 20, 2_000, 3),
    (100, 20, 2_000, 3),
];
/// Sets of models of depth 6.
const GROUND: u64 = 24;
/// Sets of damaged tables.
const DAMAGED: u64 = 4_000;

fn boundaries(places: &Places, all: &mut Tally) -> Result<(), String> {
    for (name, case) in boundary::CASES {
        let mut tally = Tally::default();
        case(places, &mut tally).map_err(|words| format!("{name}: {words}"))?;
        println!(
            "{name}: as document 02 says, {} comparisons",
            tally.comparisons
        );
        all.add(&tally);
    }
    let mut tally = Tally::default();
    every::pairs(places, &mut tally)?;
    println!("every pair of cubes of depth 1 with one value: {tally}");
    all.add(&tally);
    Ok(())
}

fn trees(
    volume: Volume,
    seeds: &mut Seeds,
    places: &Places,
    all: &mut Tally,
) -> Result<(), String> {
    for (capacity, count, pairs, deepest) in TREES {
        let start = Instant::now();
        let mut tally = Tally::default();
        let (count, pairs) = volume.split(count, pairs);
        for _ in 0..count {
            let plan = trees::Plan {
                capacity,
                deepest,
                pairs,
                seed: seeds.another(),
            };
            trees::run(&plan, places, &mut tally)?;
        }
        println!(
            "capacity {capacity}, {count} runs, {:.1} s, {tally}",
            start.elapsed().as_secs_f64()
        );
        all.add(&tally);
    }
    Ok(())
}

/// So many runs, each of a seed of its own.
fn seeded(
    name: &str,
    runs: u64,
    run: fn(u64, &Places, &mut Tally) -> Result<(), String>,
    seeds: &mut Seeds,
    places: &Places,
    all: &mut Tally,
) -> Result<(), String> {
    let start = Instant::now();
    let mut tally = Tally::default();
    for _ in 0..runs {
        run(seeds.another(), places, &mut tally)?;
    }
    println!(
        "{name}, {runs} sets, {:.1} s, {tally}",
        start.elapsed().as_secs_f64()
    );
    all.add(&tally);
    Ok(())
}

/// Every wrong reading was told from document 02.
fn told(all: &Tally) -> Result<(), String> {
    for ((name, _), times) in WRONG.iter().zip(all.told) {
        if times == 0 {
            return Err(format!(
                "no pair tells document 02 from a reading that {name}"
            ));
        }
        println!("    {times} pairs tell document 02 from a reading that {name}");
    }
    Ok(())
}

fn compare(volume: Volume) -> Result<Tally, String> {
    let mut seeds = Seeds::new(SEED);
    let mut all = Tally::default();
    let places = Places::new();
    let seen = changes::see()?;
    println!("{seen} changes of an answer, a list or a table on purpose, all seen");
    boundaries(&places, &mut all)?;
    trees(volume, &mut seeds, &places, &mut all)?;
    let ground = volume.of(GROUND);
    seeded(
        "models of depth 6",
        ground,
        ground::run,
        &mut seeds,
        &places,
        &mut all,
    )?;
    let sets = volume.of(DAMAGED);
    seeded(
        "damaged tables",
        sets,
        damage::run,
        &mut seeds,
        &places,
        &mut all,
    )?;
    told(&all)?;
    Ok(all)
}

fn main() -> ExitCode {
    let Some(volume) = Volume::asked("months") else {
        return ExitCode::from(2);
    };
    println!("seed {SEED:#018x}");
    match compare(volume) {
        Ok(all) => {
            println!(
                "{} comparisons of {} pairs beside document 02 and beside scans of expansions, {} of them at depth 6; {} lists entered, no difference",
                all.comparisons,
                all.all_pairs(),
                all.deepest,
                all.entered
            );
            ExitCode::SUCCESS
        }
        Err(words) => {
            println!("DIFFERENT\n{words}");
            ExitCode::FAILURE
        }
    }
}
