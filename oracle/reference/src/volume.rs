//! How much a program compares.

/// All of it once; or, as an argument asks, several times as much or a part of it.
#[derive(Clone, Copy)]
pub struct Volume {
    times: u64,
    part: u64,
}

impl Volume {
    /// What the arguments of `program` ask for: nothing, `--long N` for N times as much, or `--part N` for an Nth. Says how they are given if they are not so.
    pub fn asked(program: &str) -> Option<Self> {
        let arguments: Vec<String> = std::env::args().skip(1).collect();
        let arguments: Vec<&str> = arguments.iter().map(String::as_str).collect();
        let (times, part) = match arguments[..] {
            [] => ("1", "1"),
            ["--long", times] => (times, "1"),
            ["--part", part] => ("1", part),
            _ => ("0", "0"),
        };
        match (times.parse(), part.parse()) {
            (Ok(times), Ok(part)) if times > 0 && part > 0 => Some(Self { times, part }),
            _ => {
                eprintln!("usage: {program} [--long N | --part N]");
                None
            }
        }
    }

    /// All of it, where a part is asked for too.
    pub fn whole(self) -> Self {
        Self { part: 1, ..self }
    }

    /// How many there are to be of what is `count` in all, and never none.
    pub fn of(self, count: u64) -> u64 {
        (count * self.times / self.part).max(1)
    }

    /// How many runs, and how long each, of `runs` with `each` in all: fewer runs first, then shorter ones.
    pub fn split(self, runs: u64, each: u64) -> (u64, u64) {
        let (all, runs) = (runs * each, self.of(runs));
        (runs, self.of(all) / runs)
    }
}
