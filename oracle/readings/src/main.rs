//! Compares the port's readings in metres, linked from its static library, with a reading of document 02 in whole numbers, with single calls and with plain
//! arrays of numbers.
//!
//!     readings [--long N | --part N]     N times as many readings at random, or an Nth of them
mod bars;
mod boundary;
mod coordinates;
mod floats;
mod models;
mod record;
mod records;
mod sides;
mod tally;

use models::Plan;
use reference::{Seeds, Volume};
use std::process::ExitCode;
use std::time::Instant;
use tally::Tally;

/// The first seed. Each run has its own, a step on from the one before.
const SEED: u64 = 0x0102_0304_0506_070D;

/// Numbers at random beside floats, and in shots.
const BESIDE_FLOATS: u64 = 2_000_000;
const COORDINATES: u64 = 10_000_000;
/// Records at random.
const RECORDS: u64 = 1_000_000;
/// Rounds of bars in small arenas, and bars that come upon 1,000,000 holds.
const BAR_ROUNDS: u64 = 150;
const MANY_HOLDS: u64 = 300;

/// Capacity, runs, readings in each, deepest model.
const RUNS: [(usize, u64, u64, u32); 10] = [
    (2, 10, 2_000, 6),
    (3, 10, 2_000, 6),
    (5, 20, 2_000, 4),
    (8, 40, 2_000, 6),
    (12, 40, 2_000, 3),
    (20, 40, 2_000, 6),
    (40, 40, 2_000, 5),
    (100, 20, 2_000, 4),
    (600, 4, 5_000, 6),
    (4_096, 2, 20_000, 6),
];

fn floats(volume: Volume, seeds: &mut Seeds) -> Result<(), String> {
    let count = volume.of(BESIDE_FLOATS);
    let tell = floats::compare(seeds.another(), count)
        .map_err(|words| format!("document 02 beside floats: {words}"))?;
    println!(
        "document 02 in whole numbers beside floats: {count} numbers at random, cells and order the same"
    );
    for ((name, _), times) in floats::WRONG.iter().zip(tell) {
        println!("    {times} numbers at edges tell a cell from one {name}");
    }
    Ok(())
}

fn coordinates(volume: Volume, seeds: &mut Seeds, all: &mut Tally) -> Result<(), String> {
    let mut tally = Tally::default();
    let numbers = coordinates::at_every_edge(seeds.another(), &mut tally)?;
    println!("{numbers} numbers at edges, on each axis and as ends of bars: {tally}");
    all.add(&tally);
    let mut tally = Tally::default();
    coordinates::odd_pairs(seeds.another(), &mut tally)?;
    println!("pairs of odd numbers as ends of a bar: {tally}");
    all.add(&tally);
    let shots = coordinates::at_random(seeds.another(), volume.of(COORDINATES))?;
    println!(
        "numbers at random in shots: {} in a cell, {} outside the cube, {} not finite, as document 02 says",
        shots.inside, shots.outside, shots.not_finite
    );
    all.shots += shots.inside + shots.outside + shots.not_finite;
    Ok(())
}

fn records(volume: Volume, seeds: &mut Seeds, all: &mut Tally) -> Result<(), String> {
    let mut tally = Tally::default();
    let count = records::damaged(&mut tally)?;
    println!("{count} records of every length and damage: {tally}");
    all.add(&tally);
    let mut tally = Tally::default();
    let count = records::at_random(seeds.another(), volume.of(RECORDS), &mut tally)?;
    println!("{count} records at random: {tally}");
    all.add(&tally);
    Ok(())
}

fn boundaries(all: &mut Tally) -> Result<(), String> {
    for (name, case) in boundary::CASES {
        let mut tally = Tally::default();
        case(&mut tally).map_err(|words| format!("{name}: {words}"))?;
        println!("{name}: as document 02 says, {} readings", tally.readings());
        all.add(&tally);
    }
    Ok(())
}

/// Bars that end on their way, at each place and with each number.
fn bars(volume: Volume, seeds: &mut Seeds, all: &mut Tally) -> Result<(), String> {
    let mut tally = Tally::default();
    bars::small_arenas(seeds.another(), volume.of(BAR_ROUNDS), &mut tally)?;
    println!("bars in arenas of 2 to 40 slots: {tally}");
    all.add(&tally);
    let mut tally = Tally::default();
    bars::many_holds(seeds.another(), volume.of(MANY_HOLDS), &mut tally)?;
    println!("bars that come upon 1,000,000 holds: {tally}");
    all.add(&tally);
    if all.stopped.as_flattened().contains(&0) {
        return Err("no bar was refused at some place".to_string());
    }
    Ok(())
}

fn runs(volume: Volume, seeds: &mut Seeds, all: &mut Tally) -> Result<(), String> {
    for (capacity, count, readings, deepest) in RUNS {
        let start = Instant::now();
        let mut tally = Tally::default();
        let (count, readings) = volume.split(count, readings);
        for _ in 0..count {
            let plan = Plan {
                capacity,
                readings,
                deepest,
                seed: seeds.another(),
            };
            models::run(&plan, &mut tally)?;
        }
        println!(
            "capacity {capacity}, {count} runs, {:.1} s, {tally}",
            start.elapsed().as_secs_f64()
        );
        all.add(&tally);
    }
    Ok(())
}

fn compare(volume: Volume) -> Result<Tally, String> {
    let mut seeds = Seeds::new(SEED);
    let mut all = Tally::default();
    floats(volume, &mut seeds)?;
    coordinates(volume, &mut seeds, &mut all)?;
    records(volume, &mut seeds, &mut all)?;
    boundaries(&mut all)?;
    bars(volume, &mut seeds, &mut all)?;
    runs(volume, &mut seeds, &mut all)?;
    Ok(all)
}

fn main() -> ExitCode {
    let Some(volume) = Volume::asked("readings") else {
        return ExitCode::from(2);
    };
    println!("seed {SEED:#018x}");
    match compare(volume) {
        Ok(all) => {
            println!(
                "{} readings compared with document 02, {} of them bars, {} refused on their way; {} cubes in full, no difference",
                all.readings(),
                all.bars,
                all.stopped.as_flattened().iter().sum::<u64>(),
                all.cubes
            );
            ExitCode::SUCCESS
        }
        Err(words) => {
            println!("DIFFERENT\n{words}");
            ExitCode::FAILURE
        }
    }
}
