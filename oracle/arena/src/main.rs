//! Compares the port's arena, linked from its static library, with document 01 and with the original.
//!
//!     arena [--long N | --part N]     N times as many sequences at random, or an Nth of them
use arena::beside::Original;
use arena::damage::{self, Damages};
use arena::run::{Plan, drain, run};
use arena::tally::Tally;
use arena::{boundary, check};
use reference::{Seeds, Volume};
use std::process::ExitCode;
use std::sync::atomic::Ordering::Relaxed;
use std::time::Instant;
use voxelis::interner::HASH_MASK;

/// The first seed. Each sequence has its own, a step on from the one before.
const SEED: u64 = 0x0102_0304_0506_0709;

/// Capacity, sequences, calls in each.
const SEQUENCES: [(usize, u64, u64); 9] = [
    (2, 4, 600_000),
    (3, 80, 20_000),
    (4, 80, 20_000),
    (8, 120, 20_000),
    (16, 120, 20_000),
    (100, 80, 20_000),
    (400, 60, 40_000),
    (4_096, 8, 250_000),
    (65_536, 4, 600_000),
];
/// Arenas of so few slots that their sequences are compared whole where a part is asked for.
const SMALL: usize = 16;
/// Sets of damaged tables.
const DAMAGED: u64 = 20_000;
/// Arenas of which one thing is changed in every way of the check's list.
const CHANGED: u64 = 2_000;
/// What is left of the original's hashes where they are weakened.
const WEAK_MASK: u64 = 0x3F;

fn boundaries() -> Result<(), String> {
    for (name, case) in boundary::CASES {
        let mut tally = Tally::default();
        case(&mut tally).map_err(|words| format!("{name}: {words}"))?;
        println!("{name}: as document 01 says, {} calls", tally.calls);
    }
    Ok(())
}

fn sequences(volume: Volume, seeds: &mut Seeds) -> Result<u64, String> {
    let mut all = 0;
    for (capacity, count, calls) in SEQUENCES {
        let start = Instant::now();
        let mut tally = Tally::default();
        let volume = if capacity <= SMALL {
            volume.whole()
        } else {
            volume
        };
        let (count, calls) = volume.split(count, calls);
        for _ in 0..count {
            let seed = seeds.another();
            let plan = Plan {
                capacity,
                calls: calls as u32,
                seed,
                original: Original::Beside,
            };
            let mut beside = run(&plan, &mut tally)?;
            drain(&mut beside, &mut tally).map_err(|words| {
                format!("capacity {capacity}, seed {seed:#x}, at its end: {words}")
            })?;
        }
        println!(
            "capacity {capacity}, {count} sequences, {:.1} s, {tally}",
            start.elapsed().as_secs_f64()
        );
        all += tally.calls;
    }
    Ok(all)
}

/// The same sequences with the original's hash whole and weakened: the port ends with the same tables, and the original departs.
fn weakened(volume: Volume, seeds: &mut Seeds) -> Result<u64, String> {
    let (mut calls, mut departed) = (0, 0);
    let count = volume.of(20);
    for _ in 0..count {
        let mut plan = Plan {
            capacity: 400,
            calls: 5_000,
            seed: seeds.another(),
            original: Original::Absent,
        };
        let mut tally = Tally::default();
        let whole = run(&plan, &mut tally)?;
        HASH_MASK.store(WEAK_MASK, Relaxed);
        plan.original = Original::Weakened;
        let weak = run(&plan, &mut tally);
        HASH_MASK.store(u64::MAX, Relaxed);
        if !weak?.port.is_same(&whole.port) {
            return Err(format!(
                "seed {:#x}: the original's hash changes the port",
                plan.seed
            ));
        }
        calls += tally.calls;
        departed += u64::from(tally.departed.is_some());
    }
    println!(
        "the original's hash weakened to 6 bits: {count} sequences, {calls} calls, the port unchanged; the original departed in {departed} of them (D2)"
    );
    if departed == 0 {
        return Err("the weakened hash had no effect".to_string());
    }
    Ok(calls)
}

fn damaged(volume: Volume, seeds: &mut Seeds) -> Result<u64, String> {
    let mut damages = Damages::default();
    for _ in 0..volume.of(DAMAGED) {
        damage::run(seeds.another(), &mut damages)?;
    }
    println!(
        "damaged tables: {} sets, {} of them well formed even so, {} calls, all ended and stayed inside; {} refused, {} of them with 1",
        damages.sets, damages.well_formed, damages.calls, damages.refused, damages.refused_with_1
    );
    println!(
        "    the arena check on them, before the calls, after them and after a fresh arena: {} times, yes {} times, as document 01 says",
        damages.checks, damages.said_yes
    );
    Ok(damages.calls)
}

/// The arena check at its edges, and on tables of which one thing is changed. Answers how often it was asked.
fn checked(volume: Volume, seeds: &mut Seeds) -> Result<u64, String> {
    let edges = check::edges()?;
    println!("the arena check at {edges} edges, on tables written by hand: as document 01 says");
    let mut outcomes = vec![check::Outcome::default(); check::CHANGES.len()];
    for _ in 0..volume.of(CHANGED) {
        check::run(seeds.another(), &mut outcomes)?;
    }
    println!("the arena check on well-formed tables with one thing changed, as document 01 says:");
    for ((name, _), outcome) in check::CHANGES.iter().zip(&outcomes) {
        println!(
            "    {name}: {} tables, {} of them well formed even so",
            outcome.tables, outcome.well_formed
        );
    }
    Ok(edges + outcomes.iter().map(|outcome| outcome.tables).sum::<u64>())
}

fn compare(volume: Volume) -> Result<u64, String> {
    let mut seeds = Seeds::new(SEED);
    boundaries()?;
    let calls = sequences(volume, &mut seeds)?
        + weakened(volume, &mut seeds)?
        + damaged(volume, &mut seeds)?;
    Ok(calls + checked(volume, &mut seeds)?)
}

fn main() -> ExitCode {
    let Some(volume) = Volume::asked("arena") else {
        return ExitCode::from(2);
    };
    println!("seed {SEED:#018x}");
    reference::quiet();
    match compare(volume) {
        Ok(calls) => {
            println!("{calls} calls compared, no difference beyond the listed departures");
            ExitCode::SUCCESS
        }
        Err(words) => {
            println!("DIFFERENT\n{words}");
            ExitCode::FAILURE
        }
    }
}
