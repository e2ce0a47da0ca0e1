//! Sequences of calls run and compared; a sequence that shows a difference is made shorter.
use crate::beside::{Beside, Original};
use crate::call::{Call, Traced};
use crate::sequence::Sequence;
use crate::tally::Tally;
use reference::document01::{EMPTY, INVALID};
use std::collections::HashMap;
use std::time::{Duration, Instant};

/// How long a failing sequence is made shorter.
const SHORTENING: Duration = Duration::from_secs(30);

pub struct Plan {
    pub capacity: usize,
    pub calls: u32,
    pub seed: u64,
    pub original: Original,
}

/// Runs one sequence, and ends it by releasing all that is held. The error names the difference and the shortest sequence found that shows one.
pub fn run(plan: &Plan, tally: &mut Tally) -> Result<Beside, String> {
    match play(plan, tally, None) {
        Ok(beside) => Ok(beside),
        Err(words) => Err(report(plan, &words)),
    }
}

/// Plays the sequence, and records its calls if a record is given.
fn play(
    plan: &Plan,
    tally: &mut Tally,
    mut record: Option<&mut Vec<(u32, Call<Traced>)>>,
) -> Result<Beside, String> {
    let mut beside = Beside::fresh(plan.capacity, plan.original);
    let mut sequence = Sequence::new(plan.capacity, plan.seed);
    for _ in 0..plan.calls {
        let (number, call) = sequence.next(beside.document());
        if let Some(record) = &mut record {
            record.push((number, call));
        }
        let answered = beside.call(&call.map(|id| id.raw), tally)?;
        sequence.learn(&call, &answered, beside.document());
    }
    beside.same_everywhere(tally)?;
    Ok(beside)
}

/// Releases everything that is held: then nothing is live.
pub fn drain(beside: &mut Beside, tally: &mut Tally) -> Result<(), String> {
    for slot in 1..beside.document().next() {
        loop {
            let node = beside.document().slot(slot);
            if node.id == EMPTY || node.holds == 0 {
                break;
            }
            let id = node.id;
            beside.call(&Call::Release(id), tally)?;
        }
    }
    beside.same_everywhere(tally)?;
    if beside.document().live() != 0 {
        return Err("nodes are live that nobody holds".to_string());
    }
    Ok(())
}

/// Runs recorded calls again. An id is what the call that it names answers this time, or INVALID if that call is left out.
fn replay(plan: &Plan, calls: &[(u32, Call<Traced>)]) -> Result<(), String> {
    let mut tally = Tally::default();
    let mut beside = Beside::fresh(plan.capacity, plan.original);
    let mut answers: HashMap<u32, u64> = HashMap::new();
    for (number, call) in calls {
        let call = call.map(|id| match id.answered_by {
            Some(by) => answers.get(&by).map_or(INVALID, |raw| raw ^ id.turned),
            None => id.raw,
        });
        let answered = beside.call(&call, &mut tally)?;
        answers.insert(*number, answered.id);
    }
    beside.same_everywhere(&mut tally)
}

/// Leaves out calls, many at a time and then fewer, as long as a difference stays.
fn shorten(plan: &Plan, mut calls: Vec<(u32, Call<Traced>)>) -> Vec<(u32, Call<Traced>)> {
    let end = Instant::now() + SHORTENING;
    let mut size = calls.len().div_ceil(2);
    loop {
        let mut at = 0;
        let mut is_shorter = false;
        while at < calls.len() && Instant::now() < end {
            let until = (at + size).min(calls.len());
            let fewer: Vec<_> = [&calls[..at], &calls[until..]].concat();
            if replay(plan, &fewer).is_err() {
                calls = fewer;
                is_shorter = true;
            } else {
                at = until;
            }
        }
        if Instant::now() >= end || size == 1 && !is_shorter {
            return calls;
        }
        size = size.div_ceil(2);
    }
}

fn report(plan: &Plan, words: &str) -> String {
    let mut calls = vec![];
    let _ = play(plan, &mut Tally::default(), Some(&mut calls));
    let recorded = calls.len();
    let mut lines = vec![format!(
        "capacity {}, seed {:#x}, call {recorded}: {words}",
        plan.capacity, plan.seed
    )];
    if replay(plan, &calls).is_ok() {
        lines.push("    the same calls by number show no difference".to_string());
        return lines.join("\n");
    }
    let calls = shorten(plan, calls);
    lines.push(format!(
        "    shortest sequence found, {} calls:",
        calls.len()
    ));
    lines.extend((calls.iter()).map(|(number, call)| format!("    {number}: {call}")));
    if let Err(words) = replay(plan, &calls) {
        lines.push(format!("    {words}"));
    }
    lines.join("\n")
}
