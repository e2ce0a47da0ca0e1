//! How often each thing happened, so that a reader sees what was compared.
use std::fmt;

/// Where on its way a bar was refused.
#[derive(Clone, Copy)]
pub enum Place {
    First,
    Middle,
    Last,
}

#[derive(Default)]
pub struct Tally {
    /// What the comparison of each call counts.
    pub calls: arena::tally::Tally,
    pub shots: u64,
    pub bars: u64,
    pub pauses: u64,
    /// Records that are none of these.
    pub others: u64,
    pub accepted: u64,
    /// Cells that accepted readings edited.
    pub cells: u64,
    /// Refused readings by their numbers.
    pub refused: [u64; 15],
    /// Bars refused with 10, and with 11, by the place.
    pub stopped: [[u64; 3]; 2],
    /// Readings of which the tables afterwards were compared with those of single calls.
    pub copied: u64,
    /// Other calls between the readings.
    pub between: u64,
    /// Cells looked up, and cubes expanded and compared in full.
    pub looked: u64,
    pub cubes: u64,
}

impl Tally {
    pub fn readings(&self) -> u64 {
        self.shots + self.bars + self.pauses + self.others
    }

    /// A bar was refused with 10 or 11.
    pub fn stop(&mut self, no: u32, place: Place) {
        self.stopped[usize::from(no == 11)][place as usize] += 1;
    }

    pub fn add(&mut self, other: &Tally) {
        self.shots += other.shots;
        self.bars += other.bars;
        self.pauses += other.pauses;
        self.others += other.others;
        self.cubes += other.cubes;
        for (all, more) in
            (self.stopped.as_flattened_mut().iter_mut()).zip(other.stopped.as_flattened())
        {
            *all += more;
        }
    }
}

impl fmt::Display for Tally {
    fn fmt(&self, f: &mut fmt::Formatter<'_>) -> fmt::Result {
        write!(
            f,
            "{} readings: {} shots, {} bars, {} pauses, {} records that say nothing; accepted {} with {} cells, refused",
            self.readings(),
            self.shots,
            self.bars,
            self.pauses,
            self.others,
            self.accepted,
            self.cells
        )?;
        for (number, times) in self.refused.iter().enumerate() {
            if *times > 0 {
                write!(f, " {number}: {times}")?;
            }
        }
        write!(
            f,
            "\n    every byte as by single calls {} times",
            self.copied
        )?;
        if self.cubes > 0 {
            write!(
                f,
                "; {} other calls, {} cells looked up, {} cubes in full",
                self.between, self.looked, self.cubes
            )?;
        }
        let [with_10, with_11] = self.stopped;
        if self.stopped.as_flattened().iter().any(|times| *times > 0) {
            write!(
                f,
                "; bars refused at their first, a middle and their last cell: with 10 {with_10:?}, with 11 {with_11:?}"
            )?;
        }
        Ok(())
    }
}
