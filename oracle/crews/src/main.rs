//! Enters lists of edits in several orders into the port, linked from its static library, and compares each end with the first one's and with a plain cube.
//!
//!     crews [--long N | --part N]     N times as many edits at random, or an Nth of them
mod boundary;
mod changes;
mod cube;
mod judge;
mod left_out;
mod lists;
mod order;
mod others;
mod runs;
mod site;
mod tally;
mod terms;
mod wrong;
mod yard;

use reference::arena::LEAST_CAPACITY;
use reference::{Random, Seeds, Volume};
use runs::{Document, Plan};
use std::process::ExitCode;
use std::time::Instant;
use tally::Tally;
use wrong::WRONG;

/// The first seed. Each run has its own, a step on from the one before.
const SEED: u64 = 0x0102_0304_0506_0711;

/// Capacity, runs, edits in each, deepest cube, longest list, and whether document 01 stands beside.
const RUNS: [(usize, u64, u64, u32, usize, Document); 17] = [
    (2, 4, 500, 3, 4, Document::Beside),
    (4, 10, 2_000, 2, 4, Document::Beside),
    (8, 20, 2_000, 3, 8, Document::Beside),
    (16, 20, 3_000, 6, 8, Document::Beside),
    (40, 20, 3_000, 3, 16, Document::Beside),
    (100, 10, 4_000, 6, 20, Document::Beside),
    (600, 4, 20_000, 4, 60, Document::Beside),
    (8_192, 1, 40_000, 6, 300, Document::Beside),
    (3, 20, 2_000, 3, 3, Document::Absent),
    (5, 20, 5_000, 1, 6, Document::Absent),
    (12, 20, 10_000, 2, 12, Document::Absent),
    (25, 20, 10_000, 4, 16, Document::Absent),
    (64, 20, 15_000, 6, 24, Document::Absent),
    (300, 10, 40_000, 3, 60, Document::Absent),
    (2_000, 8, 50_000, 5, 200, Document::Absent),
    (8_192, 4, 100_000, 6, 1_500, Document::Absent),
    (65_536, 2, 250_000, 6, 8_000, Document::Absent),
];
/// Runs of capacities, depths and lists at random, and edits in each.
const OTHER_RUNS: (u64, u64) = (100, 5_000);

/// Rounds of lists at random with a term of document 02 left out.
const ROUNDS: u64 = 5_000;

fn boundaries(all: &mut Tally) -> Result<(), String> {
    for (name, case) in boundary::CASES {
        let mut tally = Tally::default();
        case(&mut tally).map_err(|words| format!("{name}: {words}"))?;
        println!(
            "{name}: as document 02 says, {} orders with {} edits",
            tally.ended, tally.edits
        );
        all.add(&tally);
    }
    Ok(())
}

/// What document 02's terms are for.
fn terms(volume: Volume, seeds: &mut Seeds) -> Result<(), String> {
    println!("without a term of document 02 two orders part, or one is refused:");
    for (name, case) in terms::KEPT {
        case().map_err(|words| format!("{name}: {words}"))?;
        println!("    {name}: seen in the case that is kept");
    }
    let found = left_out::at_random(seeds.another(), volume.of(ROUNDS))?;
    println!(
        "    at random: the first end released, two ids of one cube {}; the start released, refused with 4 {}; a fresh arena between, two ids {}; the start not tidy, two ids from the same last values {}, two ids from distinct cells {}",
        found.end_released,
        found.start_released,
        found.fresh_between,
        found.untidy,
        found.untidy_distinct
    );
    Ok(())
}

/// So many runs of plans made from their seeds, and what they came to in one line.
fn group(
    name: &str,
    count: u64,
    seeds: &mut Seeds,
    all: &mut Tally,
    plan: impl Fn(u64) -> Plan,
) -> Result<(), String> {
    let start = Instant::now();
    let mut tally = Tally::default();
    for _ in 0..count {
        runs::run(&plan(seeds.another()), &mut tally)?;
    }
    println!(
        "{name}, {count} runs, {:.1} s, {tally}",
        start.elapsed().as_secs_f64()
    );
    all.add(&tally);
    Ok(())
}

fn runs(volume: Volume, seeds: &mut Seeds, all: &mut Tally) -> Result<(), String> {
    for (capacity, count, edits, deepest, longest, document) in RUNS {
        let beside = match document {
            Document::Absent => "",
            Document::Beside => " beside document 01",
        };
        let name = format!("capacity {capacity}{beside}");
        let (count, edits) = volume.split(count, edits);
        group(&name, count, seeds, all, |seed| Plan {
            capacity,
            edits,
            deepest,
            longest,
            document,
            seed,
        })?;
    }
    let (count, edits) = volume.split(OTHER_RUNS.0, OTHER_RUNS.1);
    group("capacities at random", count, seeds, all, |seed| {
        let mut random = Random::new(seed);
        let most = random.one_of(&[12, 60, 400, 3_000]);
        Plan {
            capacity: LEAST_CAPACITY + random.below(most),
            edits,
            deepest: 1 + random.below(6) as u32,
            longest: 2 + random.below(most),
            document: Document::Absent,
            seed,
        }
    })
}

/// Every wrong reading was told from document 02.
fn told(all: &Tally) -> Result<(), String> {
    let names = WRONG.iter().map(|(name, _)| *name);
    let readings = (names.zip(all.told)).chain([("passes over refused edits", all.passed_over)]);
    for (name, times) in readings {
        if times == 0 {
            return Err(format!(
                "no order tells document 02 from a reading that {name}"
            ));
        }
        println!("    {times} orders tell document 02 from a reading that {name}");
    }
    Ok(())
}

fn compare(volume: Volume) -> Result<Tally, String> {
    let mut seeds = Seeds::new(SEED);
    let mut all = Tally::default();
    let seen = changes::see()?;
    println!("{seen} changes of an answer, a cube, a hold or a table on purpose, all seen");
    boundaries(&mut all)?;
    terms(volume, &mut seeds)?;
    runs(volume, &mut seeds, &mut all)?;
    told(&all)?;
    Ok(all)
}

fn main() -> ExitCode {
    let Some(volume) = Volume::asked("crews") else {
        return ExitCode::from(2);
    };
    println!("seed {SEED:#018x}");
    match compare(volume) {
        Ok(all) => {
            println!(
                "{} edits entered in {} orders, {} of them in the first one's id; {} of the edits beside document 01; {} more orders refused by a full arena; {} cubes in full, no difference",
                all.edits, all.ended, all.same, all.documented, all.refused, all.cubes
            );
            ExitCode::SUCCESS
        }
        Err(words) => {
            println!("DIFFERENT\n{words}");
            ExitCode::FAILURE
        }
    }
}
