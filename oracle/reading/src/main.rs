//! Compares the port's lookup and expansion, linked from its static library, with document 01 and with the original.
//!
//!     reading [--long N | --part N]     N times as many models at random, or an Nth of them
mod compare;
mod model;
mod plan;
mod smallest;

use arena::damage;
use compare::Counts;
use model::Model;
use plan::{Cube, Plan};
use reference::document01::{EMPTY, index};
use reference::reading::DEEPEST;
use reference::tables::HEIGHT;
use reference::{Random, Seeds, Volume};
use std::process::ExitCode;
use std::time::Instant;

/// The first seed. Each model has its own, a step on from the one before.
const SEED: u64 = 0x0B0A_0908_0706_0501;

/// Models made of plans.
const PLANS: u64 = 200;
/// Models made by edits.
const EDITS: u64 = 40;
/// Models that sequences of calls at random leave.
const SEQUENCES: u64 = 40;
/// Sets of damaged tables.
const DAMAGED: u64 = 20_000;
/// Calls of each model most of which are refused.
const ODD: u64 = 400;
/// Nodes of a model that are read to the lesser depth, besides its root.
const OTHERS: usize = 24;
const LESSER: u32 = 3;

/// Reads a root at every depth, EMPTY and some other nodes at the lesser ones, and makes odd calls. The tables have to stay as they are.
fn read(
    model: &mut Model,
    root: u64,
    made_of: Option<&Cube>,
    random: &mut Random,
    counts: &mut Counts,
) -> Result<(), String> {
    let before = model.port.clone();
    for depth in 0..=DEEPEST {
        compare::whole(model, root, depth, counts)?;
        let slot = index(root) as usize;
        counts.taller += u64::from(model.port.view().fact(slot, HEIGHT) > depth);
        if let Some(cube) = made_of.filter(|cube| cube.depth <= depth) {
            compare::plain(model, root, depth, cube, counts)?;
        }
    }
    let live = model.live();
    for _ in 0..OTHERS.min(live.len()) {
        let id = random.one_of(&live);
        for depth in 0..=LESSER {
            compare::whole(model, id, depth, counts)?;
        }
    }
    for depth in 0..=LESSER {
        compare::whole(model, EMPTY, depth, counts)?;
    }
    compare::odd(model, ODD, random, counts)?;
    if !model.port.is_intact() || !model.port.is_same(&before) {
        return Err("reading changes something".to_string());
    }
    counts.models += 1;
    Ok(())
}

fn plans(volume: Volume, seeds: &mut Seeds, counts: &mut Counts) -> Result<(), String> {
    let mut kinds: Vec<(&str, u64)> = vec![];
    for _ in 0..volume.of(PLANS) {
        let seed = seeds.another();
        let mut random = Random::new(seed);
        let (kind, plan) = Plan::any(&mut random);
        Model::of_plan(&plan, &mut random)
            .and_then(|(mut model, root)| {
                read(&mut model, root, plan.cube.as_ref(), &mut random, counts)
            })
            .map_err(|words| format!("{kind}, seed {seed:#x}: {words}"))?;
        match kinds.iter_mut().find(|(name, _)| *name == kind) {
            Some((_, count)) => *count += 1,
            None => kinds.push((kind, 1)),
        }
    }
    let kinds: Vec<String> = (kinds.iter())
        .map(|(kind, count)| format!("{kind} {count}"))
        .collect();
    println!("models by kind: {}", kinds.join(", "));
    Ok(())
}

fn edits(volume: Volume, seeds: &mut Seeds, counts: &mut Counts) -> Result<(), String> {
    for _ in 0..volume.of(EDITS) {
        let seed = seeds.another();
        let mut random = Random::new(seed);
        Model::of_edits(&mut random)
            .and_then(|(mut model, root, cube)| {
                read(&mut model, root, Some(&cube), &mut random, counts)
            })
            .map_err(|words| format!("edits, seed {seed:#x}: {words}"))?;
    }
    Ok(())
}

fn sequences(volume: Volume, seeds: &mut Seeds, counts: &mut Counts) -> Result<(), String> {
    for _ in 0..volume.of(SEQUENCES) {
        let seed = seeds.another();
        let mut random = Random::new(seed);
        let capacity = random.one_of(&[4, 16, 100, 400]);
        let calls = 20 + random.below(4_000) as u32;
        Model::of_sequence(capacity, calls, seed)
            .and_then(|mut model| {
                let live = model.live();
                let root = if live.is_empty() {
                    EMPTY
                } else {
                    random.one_of(&live)
                };
                read(&mut model, root, None, &mut random, counts)
            })
            .map_err(|words| format!("calls at random, seed {seed:#x}: {words}"))?;
    }
    Ok(())
}

fn damaged(volume: Volume, seeds: &mut Seeds) -> Result<Counts, String> {
    let mut counts = Counts::default();
    for _ in 0..volume.of(DAMAGED) {
        let seed = seeds.another();
        let mut random = Random::new(seed);
        damage::tables(&mut random, damage::well_formed)
            .and_then(|mut lent| compare::damaged(&mut lent, &mut random, &mut counts))
            .map_err(|words| format!("damaged tables, seed {seed:#x}: {words}"))?;
    }
    Ok(counts)
}

/// The numbers that calls answered, and how often.
fn numbers(counts: &[u64; 10]) -> String {
    let times = |(number, times): (usize, &u64)| format!("{number}: {times}");
    let given: Vec<String> = (counts.iter().enumerate())
        .filter(|(_, count)| **count > 0)
        .map(times)
        .collect();
    given.join(" ")
}

fn compare_all(volume: Volume) -> Result<(), String> {
    smallest::all().map_err(|words| format!("a listed departure: {words}"))?;
    println!("the departures of reading at their smallest inputs: the port answers as listed");
    let mut seeds = Seeds::new(SEED);
    let mut counts = Counts::default();
    let mut start = Instant::now();
    let mut lap = || {
        std::mem::replace(&mut start, Instant::now())
            .elapsed()
            .as_secs_f64()
    };
    plans(volume, &mut seeds, &mut counts)?;
    println!("    {:.1} s", lap());
    edits(volume, &mut seeds, &mut counts)?;
    println!("models of edits: {}, {:.1} s", volume.of(EDITS), lap());
    sequences(volume, &mut seeds, &mut counts)?;
    println!(
        "models of calls at random: {}, {:.1} s",
        volume.of(SEQUENCES),
        lap()
    );
    println!(
        "{} models, {} cubes at depths 0 to 6 ({} of a root taller than the depth), {} cells: lookup and expansion of the port, of the original and of document 01 agree; nothing there at {} of them, where the original's lookup is None (D13)",
        counts.models, counts.cubes, counts.taller, counts.cells, counts.nothing
    );
    println!(
        "    {} cells as in the cube of which the model was made",
        counts.plain
    );
    println!(
        "odd calls: {}, answered as document 01 says; lookups by number {}, expansions {}",
        counts.odd,
        numbers(&counts.looked),
        numbers(&counts.expanded)
    );
    println!(
        "    on the original too: outside the cube {} (D9), deeper than 6 {} (D11), from a level on {} (D12), each as listed",
        counts.outside, counts.deeper, counts.from_level
    );
    let counts = damaged(volume, &mut seeds)?;
    println!(
        "damaged tables: {} sets, {} calls, {:.1} s, all ended, stayed inside, left the tables alone and answered as document 01 says on what stands there; lookups by number {}, expansions {}",
        volume.of(DAMAGED),
        counts.odd,
        lap(),
        numbers(&counts.looked),
        numbers(&counts.expanded)
    );
    Ok(())
}

fn main() -> ExitCode {
    let Some(volume) = Volume::asked("reading") else {
        return ExitCode::from(2);
    };
    println!("seed {SEED:#018x}");
    reference::quiet();
    match compare_all(volume) {
        Ok(()) => {
            println!("no difference beyond the listed departures");
            ExitCode::SUCCESS
        }
        Err(words) => {
            println!("DIFFERENT\n{words}");
            ExitCode::FAILURE
        }
    }
}
