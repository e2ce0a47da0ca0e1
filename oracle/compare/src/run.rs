//! One function's comparison: its inputs counted, and the smallest input that shows a difference.
use crate::functions::Function;
use crate::judge::Outcome;
use std::collections::BTreeMap;

pub struct Run {
    function: &'static Function,
    compared: u64,
    departures: BTreeMap<&'static str, u64>,
    /// The first input that showed a difference. Nothing is compared after it.
    failed: Option<Vec<i128>>,
}

impl Run {
    pub fn new(function: &'static Function) -> Self {
        Self {
            function,
            compared: 0,
            departures: BTreeMap::new(),
            failed: None,
        }
    }

    pub fn compare(&mut self, input: &[i128]) {
        if self.failed.is_some() {
            return;
        }
        self.compared += 1;
        match (self.function.compare)(input) {
            Outcome::Equal => {}
            Outcome::Departure(name) => *self.departures.entry(name).or_default() += 1,
            Outcome::Different(_) => self.failed = Some(input.to_vec()),
        }
    }

    /// Prints the summary, and says whether all went well.
    pub fn finish(self) -> bool {
        let name = self.function.name;
        println!(
            "{name:24} {:>12} inputs compared, {}",
            self.compared,
            if self.failed.is_some() {
                "A DIFFERENCE"
            } else {
                "no difference"
            }
        );
        for (departure, count) in &self.departures {
            println!(
                "{:24} {count:>12} of them departures as listed: {departure}",
                ""
            );
        }
        let Some(input) = &self.failed else {
            return true;
        };
        let smallest = self.smallest(input.clone());
        let arguments: Vec<String> = (self.function.arguments.iter())
            .zip(&smallest)
            .map(|(argument, value)| match value {
                10.. => format!("{} = {value} ({value:#x})", argument.name),
                _ => format!("{} = {value}", argument.name),
            })
            .collect();
        println!("{:24} smallest input found: {}", "", arguments.join(", "));
        if let Outcome::Different(words) = (self.function.compare)(&smallest) {
            println!("{:24} {words}", "");
        }
        false
    }

    /// Makes one argument smaller at a time, as long as the difference stays.
    fn smallest(&self, mut input: Vec<i128>) -> Vec<i128> {
        'again: loop {
            for at in 0..input.len() {
                let value = input[at];
                for smaller in smaller_than(value) {
                    let argument = &self.function.arguments[at];
                    if !(argument.least..=argument.most).contains(&smaller) {
                        continue;
                    }
                    input[at] = smaller;
                    if matches!((self.function.compare)(&input), Outcome::Different(_)) {
                        continue 'again;
                    }
                }
                input[at] = value;
            }
            return input;
        }
    }
}

/// Numbers nearer to 0: of the opposite sign, halves, one bit less, one less.
fn smaller_than(value: i128) -> Vec<i128> {
    if value == 0 {
        return vec![];
    }
    let (sign, size) = (value.signum(), value.abs());
    let mut smaller = vec![0];
    if sign < 0 {
        smaller.push(size);
    }
    smaller.push(sign * (size / 2));
    smaller.extend(
        (0..64)
            .rev()
            .map(|n| 1 << n)
            .filter(|bit| size & bit != 0)
            .map(|bit| sign * (size - bit)),
    );
    smaller.push(sign * (size - 1));
    smaller
}
