//! Every call with damaged tables, random states, ids and arguments, through the C boundary. Each call is proved to end and to stay inside what it is
//! lent, on anything; here the compiled library is watched doing so.
//!
//! `robustness ROUNDS` lends memory whose neighbours can't be touched or are canaries. `robustness ROUNDS heap` lends blocks of the heap, for valgrind to
//! watch. A round has some ninety calls.
mod calls;
mod lent;
mod numbers;
mod round;

use calls::KINDS;
use fenpiling_sys::{
    fenpiling_child_index2, fenpiling_decode_child_index_path, fenpiling_encode_child_index_path,
    fenpiling_generation, fenpiling_has_child, fenpiling_index, fenpiling_is_branch,
    fenpiling_is_empty, fenpiling_is_invalid, fenpiling_is_leaf, fenpiling_is_valid,
    fenpiling_mask, fenpiling_new_branch, fenpiling_new_leaf, fenpiling_text, fenpiling_types,
};
use numbers::Numbers;
use std::process::ExitCode;

fn main() -> ExitCode {
    let words: Vec<String> = std::env::args().skip(1).collect();
    let words: Vec<&str> = words.iter().map(String::as_str).collect();
    let (rounds, heap) = match words[..] {
        [rounds] => (rounds.parse(), false),
        [rounds, "heap"] => (rounds.parse(), true),
        _ => (Ok(0), false),
    };
    match rounds {
        Ok(rounds) if rounds > 0 => run(rounds, heap),
        _ => {
            eprintln!("usage: robustness ROUNDS [heap]");
            ExitCode::from(2)
        }
    }
}

fn run(rounds: u64, heap: bool) -> ExitCode {
    let mut seen = round::Seen::default();
    for seed in 0..rounds {
        if let Err(fault) = round::play(seed, heap, &mut seen).and_then(|()| numbers_only(seed)) {
            println!("{fault}");
            return ExitCode::FAILURE;
        }
    }
    let mut missed = false;
    for ((name, can), numbers) in KINDS.iter().zip(&seen) {
        let told: Vec<String> = (0..)
            .zip(numbers)
            .filter(|(no, _)| can.contains(no))
            .map(|(no, count)| format!("{no}: {count}"))
            .collect();
        println!("{name:14} {}", told.join(", "));
        missed |= can.iter().any(|&no| numbers[no as usize] == 0);
    }
    let calls: u64 = seen.as_flattened().iter().sum();
    println!(
        "{rounds} rounds, {calls} calls on tables, {} on numbers: none stepped outside",
        rounds * CALLS_ON_NUMBERS
    );
    if missed && !heap {
        println!("some number was never answered");
        return ExitCode::FAILURE;
    }
    ExitCode::SUCCESS
}

const CALLS_ON_NUMBERS: u64 = 16;

/// The calls that take numbers alone, with any.
fn numbers_only(seed: u64) -> Result<(), String> {
    let mut numbers = Numbers(!seed);
    let id = numbers.odd();
    let (index, generation) = (numbers.any() as u32, numbers.odd() as u16);
    let (types, mask) = (numbers.any() as u8, numbers.any() as u8);
    let [x, y, z] = [(); 3].map(|()| numbers.odd() as i32);
    let (level, depth) = (numbers.below(9) as u32, numbers.below(9) as u32);
    let (leaf, branch) = (
        fenpiling_new_leaf(index, generation),
        fenpiling_new_branch(index, generation, types, mask),
    );
    let text = fenpiling_text(id);
    let code = fenpiling_encode_child_index_path(x, y, z);
    let cell = fenpiling_decode_child_index_path(code);
    let child = fenpiling_child_index2(x, y, z, level, depth);
    let fair = leaf.no == branch.no
        && (leaf.no != 0) == (generation > 0x7FFE)
        && (leaf.id == u64::MAX) == (leaf.no != 0)
        && fenpiling_index(branch.id) == if branch.no == 0 { index } else { u32::MAX }
        && fenpiling_generation(id) <= 0x7FFF
        && (!fenpiling_is_leaf(id) || (fenpiling_types(id), fenpiling_mask(id)) == (0, 0))
        && fenpiling_has_child(id, mask) <= (mask < 8)
        && fenpiling_is_leaf(id) != fenpiling_is_branch(id)
        && fenpiling_is_invalid(id) != fenpiling_is_valid(id)
        && fenpiling_is_empty(id) == (id == 0)
        && text.bytes[..text.length].ends_with(b")")
        && text.bytes[text.length..].iter().all(|&byte| byte == 0)
        && (cell.no, cell.x, cell.y, cell.z) == (0, x & 1023, y & 1023, z & 1023)
        && child.index < 8;
    if fair {
        Ok(())
    } else {
        Err(format!("seed {seed}: a call on numbers answered wrongly"))
    }
}
