//! Records of every length and damaged in every bit, and at random: what the port says that a record says, and what it does with it.
use crate::record::{PAUSE, any, bar, odd, shot};
use crate::sides::{Sides, Told};
use crate::tally::Tally;
use arena::call::Entry;
use port::readings;
use reference::Random;
use reference::document01::EMPTY;
use reference::survey::{self, Metres, RECORD, Reading};

/// Records are tried to this length.
const LONGEST: usize = 80;
const DEPTH: u32 = 3;
const EDGE: u32 = 2;

/// Records, of which some are refused for their numbers.
fn samples() -> Vec<[u8; RECORD]> {
    let number = |x: f64| x.to_bits();
    let point = [0.5, 1.75, 0.0].map(number);
    let odd = |x: f64| [number(0.5), number(1.75), number(x)];
    vec![
        PAUSE,
        shot(point, 7),
        shot(odd(-0.0), 0),
        shot(odd(2.0), 7),
        shot(odd(f64::INFINITY), 7),
        bar(point, number(1.9), 3),
        bar(point, point[0], 65_535),
        bar(point, number(0.25), 3),
        bar(odd(f64::NAN), number(0.25), 3),
        bar(odd(f64::NAN), number(1.0), 3),
    ]
}

/// Every sample cut and made longer, with each bit turned, and with each byte set to every number. Answers how many records there were.
pub fn damaged(tally: &mut Tally) -> Result<u64, String> {
    let mut records = Records::new(tally)?;
    for sample in samples() {
        for length in 0..=LONGEST {
            for filling in [0, 1, 255] {
                let mut record = sample.to_vec();
                record.resize(length, filling);
                records.try_one(&record)?;
            }
        }
        for bit in 0..8 * RECORD {
            let mut record = sample;
            record[bit / 8] ^= 1 << (bit % 8);
            records.try_one(&record)?;
        }
        for at in 0..RECORD {
            for byte in 0..=255 {
                let mut record = sample;
                record[at] = byte;
                records.try_one(&record)?;
            }
        }
    }
    records.finish()
}

/// Records at random: bytes at random, kinds and numbers at random, and damage.
pub fn at_random(seed: u64, count: u64, tally: &mut Tally) -> Result<u64, String> {
    let mut random = Random::new(seed);
    let odd = odd();
    let mut records = Records::new(tally)?;
    for _ in 0..count {
        let mut record = if random.once_in(8) {
            let any = random.below(1 + LONGEST);
            let length = random.one_of(&[RECORD, any]);
            (0..length).map(|_| random.bits() as u8).collect()
        } else {
            let numbers = [(); 4].map(|()| any(&odd, DEPTH, EDGE, &mut random));
            written(numbers, &mut random).to_vec()
        };
        if random.once_in(3) {
            damage(&mut record, &mut random);
        }
        records.try_one(&record)?;
    }
    records.finish()
}

/// A record of these numbers, as far as its kind uses them.
fn written([x, y, z, second_x]: [u64; 4], random: &mut Random) -> [u8; RECORD] {
    let value = random.one_of(&[0, 1, 2, 65_535]);
    match random.below(8) {
        0 => PAUSE,
        1..4 => shot([x, y, z], value),
        _ if random.once_in(8) => bar([x, y, z], second_x, value),
        _ if Metres(second_x).is_below(Metres(x)) => bar([second_x, y, z], x, value),
        _ => bar([x, y, z], second_x, value),
    }
}

/// Changes some bytes, most often one, or the length.
fn damage(record: &mut Vec<u8>, random: &mut Random) {
    if random.once_in(6) {
        record.resize(random.below(1 + LONGEST), random.bits() as u8);
    }
    for _ in 0..random.one_of(&[1, 1, 1, 2, 3]) {
        if !record.is_empty() {
            let (at, any) = (random.below(record.len()), random.bits() as u8);
            record[at] = random.one_of(&[0, 1, 2, 0x80, 0xFF, any]);
        }
    }
}

/// Records one after the other on one root.
struct Records<'a> {
    sides: Sides<'a>,
    root: u64,
    count: u64,
}

impl<'a> Records<'a> {
    fn new(tally: &'a mut Tally) -> Result<Self, String> {
        let mut sides = Sides::fresh(64, tally);
        let root = sides.edit(EMPTY, DEPTH, [2, 7, 0], 9)?;
        Ok(Self {
            sides,
            root,
            count: 0,
        })
    }

    /// Reads a record, enters it, and releases what it made.
    fn try_one(&mut self, record: &[u8]) -> Told {
        self.count += 1;
        same_words(record)?;
        let answered = self.sides.enter(&Entry {
            root: self.root,
            depth: DEPTH,
            edge: EDGE,
            record,
        })?;
        match answered.no {
            0 => self.sides.release(answered.id),
            _ => Ok(()),
        }
    }

    fn finish(mut self) -> Result<u64, String> {
        self.sides.same_everywhere()?;
        Ok(self.count)
    }
}

/// The port says of a record what document 02 says; of a refused one all but the number is 0.
fn same_words(record: &[u8]) -> Told {
    let port = readings::parse(record);
    let (no, kind, value, numbers) = match survey::parse(record) {
        Err(no) => (no, 0, 0, [Metres(0); 4]),
        Ok(Reading::Pause) => (0, 0, 0, [Metres(0); 4]),
        Ok(Reading::Shot {
            at: [x, y, z],
            value,
        }) => (0, 1, value, [x, y, z, Metres(0)]),
        Ok(Reading::Bar {
            from: [x, y, z],
            second_x,
            value,
        }) => (0, 2, value, [x, y, z, second_x]),
    };
    let said = [port.x, port.y, port.z, port.second_x].map(|x| Metres(x.to_bits()));
    if (port.no, port.kind, port.value, said) == (no, kind, value, numbers) {
        return Ok(());
    }
    Err(format!("of {record:x?} the port says {port:?}, not {no}"))
}
