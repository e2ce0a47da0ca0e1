//! What the program `survey` has to write, by a plain reading of documents 01 and 02 (`reference::survey`), and readings for it.
use reference::Random;
use reference::arena::{Arena, Order};
use reference::document01::{EMPTY, text};
use reference::survey::RECORD;
use std::io::Write;

use crate::{DEPTH, SIDE, SLOTS};

type Record = [u8; RECORD];

const PAUSE: Record = [0; RECORD];

fn record(kind: u32, value: u16, numbers: [f64; 4]) -> Record {
    let mut bytes = PAUSE;
    bytes[..4].copy_from_slice(&kind.to_le_bytes());
    bytes[4..6].copy_from_slice(&value.to_le_bytes());
    for (at, number) in bytes[8..].chunks_exact_mut(8).zip(numbers) {
        at.copy_from_slice(&number.to_le_bytes());
    }
    bytes
}

fn shot([x, y, z]: [f64; 3], value: u16) -> Record {
    record(1, value, [x, y, z, 0.0])
}

fn bar([x, y, z]: [f64; 3], second_x: f64, value: u16) -> Record {
    record(2, value, [x, y, z, second_x])
}

/// The listing of a file's readings, with an edge of 2^-edge metres. A cut last record is entered like any other.
pub fn list(bytes: &[u8], edge: u32, out: &mut impl Write) -> std::io::Result<()> {
    let mut arena = Arena::fresh(SLOTS, Order::DepthFirst).unwrap();
    let mut root = EMPTY;
    for (number, record) in bytes.chunks(RECORD).enumerate() {
        let (refusal, answer) = arena.enter(root, DEPTH, edge, record);
        if refusal == 0 {
            assert_eq!(arena.release(root), 0);
            root = answer;
        }
        writeln!(out, "{} {refusal} {}", number + 1, text(root))?;
    }
    writeln!(out, "live {}", arena.live())?;
    out.flush()
}

/// samples/survey.bin, to be read with an edge of a quarter of a metre: the cube is sixteen metres wide.
pub fn sample(out: &mut impl Write) -> std::io::Result<()> {
    let inside = [1.0, 1.0, 1.0];
    let least = f64::from_bits(1);
    let mut spare_byte = shot(inside, 5);
    spare_byte[6] = 1;

    let accepted = [
        PAUSE,
        shot([0.1, 0.2, 0.2], 5),
        shot([0.3, 0.0, 0.0], 5),
        PAUSE,
        // Eight cells; both ends in one cell, which has the value; minus zero is cell 0, which has its value too.
        bar([0.0, 0.5, 0.5], 1.9, 7),
        bar([0.6, 0.5, 0.5], 0.7, 7),
        shot([-0.0, 0.1, 0.1], 5),
        // From side to side; over half of that; one cell dug out; the whole bar dug out.
        bar([0.0, 0.5, 0.5], 15.9, 9),
        bar([0.0, 0.5, 0.5], 7.9, 7),
        shot([0.3, 0.0, 0.0], 0),
        bar([0.0, 0.5, 0.5], 15.99, 0),
    ];
    let outside = [
        shot([-least, 1.0, 1.0], 5),
        shot([1.0, 16.0, 1.0], 5),
        shot([1.0, 1.0, 1e308], 5),
        bar([15.0, 1.0, 1.0], 16.0, 5),
    ];
    let not_finite = [
        shot([f64::NAN, 1.0, 1.0], 5),
        shot([1.0, f64::INFINITY, 1.0], 5),
        bar([f64::NEG_INFINITY, 1.0, 1.0], 1.0, 5),
        bar(inside, f64::NAN, 5),
    ];
    let malformed = [
        record(3, 5, [1.0, 1.0, 1.0, 0.0]),
        spare_byte,
        record(0, 1, [0.0; 4]),
        record(0, 0, [-0.0, 0.0, 0.0, 0.0]),
        record(1, 5, [1.0, 1.0, 1.0, 2.0]),
        bar([2.0, 1.0, 1.0], 1.0, 5),
        bar(inside, f64::NEG_INFINITY, 5),
    ];
    // Shots of one value each, far apart, until hardly a slot is free.
    let steps = [0.0, 4.0, 8.0, 12.0];
    let corners = [2.0, 0.0].into_iter().flat_map(move |first| {
        let points = steps
            .into_iter()
            .flat_map(move |z| steps.into_iter().map(move |y| (y, z)))
            .flat_map(move |(y, z)| steps.into_iter().map(move |x| [x, y, z]));
        points.map(move |point| point.map(|metres| first + metres))
    });
    let filling = corners.zip(1000..1107).map(|(at, value)| shot(at, value));
    let full = [
        // A bar that finds room for its first cells only; shots with room and without; three dug out, and then there is room.
        bar([0.0, 3.0, 3.0], 15.9, 8),
        shot([15.0, 15.0, 15.0], 65_535),
        shot([15.0, 1.0, 15.0], 65_534),
        shot([15.0, 15.0, 1.0], 65_533),
        PAUSE,
        shot([2.0, 2.0, 2.0], 0),
        shot([6.0, 2.0, 2.0], 0),
        shot([10.0, 2.0, 2.0], 0),
        shot([15.0, 15.0, 1.0], 65_533),
    ];
    let records = accepted
        .into_iter()
        .chain(outside)
        .chain(not_finite)
        .chain(malformed)
        .chain(filling)
        .chain(full);
    for record in records {
        out.write_all(&record)?;
    }
    out.write_all(&shot(inside, 5)[..RECORD - 1])?;
    out.flush()
}

/// Readings at random, in corners of several sizes and of few or many values, so that nodes are shared, cubes fill up and so does the arena; at times
/// what was entered is dug out again, and at times a number lies at an odd place or a bit of the record is turned. The last one is cut.
pub fn random(count: usize, seed: u64, edge: u32, out: &mut impl Write) -> std::io::Result<()> {
    let mut random = Random::new(seed);
    let cell = f64::from(1 << edge).recip();
    let odd = [
        f64::NAN,
        f64::INFINITY,
        f64::NEG_INFINITY,
        f64::from_bits(1),
        -f64::from_bits(1),
        -0.0,
        1e300,
        SIDE as f64 * cell,
    ];
    let (mut side, mut values, mut digging) = (2, 2, false);
    let mut entered: Vec<Record> = vec![];
    for _ in 0..count {
        if random.once_in(100) {
            side = random.one_of(&[1, 2, 4, 16, SIDE]);
            values = random.one_of(&[1, 2, 3, 1000, 65_536]);
            digging = random.once_in(2);
        }
        if let Some(mut record) = digging.then(|| entered.pop()).flatten() {
            record[4..6].fill(0);
            out.write_all(&record)?;
            continue;
        }
        let mut numbers = [0.0; 4].map(|_| {
            let thousandths = random.below(1000 * side) as f64;
            thousandths / 1000.0 * cell
        });
        numbers[3] = numbers[3].max(numbers[0]);
        if random.once_in(50) {
            numbers[random.below(4)] = random.one_of(&odd);
        }
        let value = random.below(values) as u16;
        let [x, y, z, second_x] = numbers;
        let mut record = match random.below(10) {
            0 => PAUSE,
            1..6 => shot([x, y, z], value),
            _ => bar([x, y, z], second_x, value),
        };
        if random.once_in(50) {
            record[random.below(RECORD)] ^= 1 << random.below(8);
        }
        entered.push(record);
        out.write_all(&record)?;
    }
    out.write_all(&PAUSE[..random.below(RECORD)])?;
    out.flush()
}
