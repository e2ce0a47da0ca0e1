//! Times the port's arena, reading and edits beside the original's, its readings in metres beside single edits, and its comparison of two roots beside a scan of
//! two expansions: the same driver on the same inputs, in turn, in one run. To be built with --profile unchecked, so that the original runs as in a user's release build.
mod edits;
mod months;
mod reading;
mod readings;
mod refused;
mod stores;
mod work;

use stores::Port;
use voxelis::VoxInterner;
use work::Nanoseconds;

/// How often each piece of work is timed on each side.
const ROUNDS: usize = 200;

/// The shortest time and the one in the middle.
fn summary(mut times: Vec<Nanoseconds>) -> (Nanoseconds, Nanoseconds) {
    times.sort_by(Nanoseconds::total_cmp);
    (times[0], times[times.len() / 2])
}

/// Times one piece of work on both sides in turn, and prints a line of the table.
fn compare(
    name: &str,
    mut port: impl FnMut() -> Nanoseconds,
    mut original: impl FnMut() -> Nanoseconds,
) {
    let (ports, originals) = (0..ROUNDS).map(|_| (port(), original())).unzip();
    let ((port, port_middle), (original, original_middle)) = (summary(ports), summary(originals));
    println!(
        "| {name:44} | {port:7.1} | {original:7.1} | {:5.2} | {port_middle:7.1} | {original_middle:7.1} | {:5.2} |",
        port / original,
        port_middle / original_middle,
    );
}

/// Prints a line of the table for what only the port has, or only the machine.
fn alone(name: &str, rounds: usize, mut work: impl FnMut() -> Nanoseconds) {
    let (least, middle) = summary((0..rounds).map(|_| work()).collect());
    println!("| {name:44} | {least:7.1} |         |       | {middle:7.1} |         |       |");
}

/// Both sides of one function of `work`.
macro_rules! both {
    ($name:expr, $work:ident($($argument:expr),*)) => {
        compare(
            $name,
            work::$work::<Port>($($argument),*),
            work::$work::<VoxInterner<u16>>($($argument),*),
        )
    };
}

fn main() {
    if cfg!(debug_assertions) {
        println!("the original's own checks are on: these times say nothing of its speed");
    }
    println!(
        "ns a call: the shortest of {ROUNDS} rounds, then the middle one; port, original, port / original"
    );
    println!(
        "| {:44} | port | original | ratio | port | original | ratio |",
        ""
    );
    println!("|---|---|---|---|---|---|---|");
    both!("intern leaf, hit, 1,000 live", leaf_hit(1_000));
    both!("intern leaf, hit, 60,000 live", leaf_hit(60_000));
    both!("intern leaf, miss, 1,000 live", leaf_miss(1_000));
    both!("intern leaf, miss, 60,000 live", leaf_miss(60_000));
    both!("intern branch, hit, 2 children", branch_hit(2));
    both!("intern branch, hit, 8 children", branch_hit(8));
    both!("intern branch, miss, 2 children", branch_miss(2));
    both!("intern branch, miss, 8 children", branch_miss(8));
    both!("hold, 60,000 live", hold(60_000));
    both!(
        "release, another hold left, 60,000 live",
        release_one_of_two(60_000)
    );
    both!("release, last of a leaf, 1,000 live", release_leaf(1_000));
    both!("release, last of a leaf, 60,000 live", release_leaf(60_000));
    both!("release, last of a branch of 2 shared", release_branch(2));
    both!("release, last of a branch of 8 shared", release_branch(8));
    both!("release of chains of 7, for each node", release_chains());
    both!("release of trees of 73, for each node", release_trees());
    both!("cell set by a path copy, old root released", path_copies());
    refused::rows();
    reading::all();
    edits::rows();
    readings::rows();
    months::rows();
}
