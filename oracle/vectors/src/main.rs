//! The sample of the program crates/texts: its records (crates/texts/stdin) and the lines that it has to write (crates/texts/stdout), worked out from
//! the original and, where the original has no answer or document 01 refuses, from document 01. Nothing of the port is used.
//!
//!     vectors             writes both files
//!     vectors --check     says whether both files are as they would be written
mod record;

use record::Record;
use reference::{Random, document01};
use std::fs;
use std::path::Path;
use std::process::ExitCode;

/// The seed of the records at random.
const SEED: u64 = 0x0102_0304_0506_0708;
/// The bytes of the cut record that ends the sample.
const CUT: usize = 13;

/// W1 to W11 of document 01, with what it says of each.
fn worked_examples() -> Vec<(Record, &'static str)> {
    let path = |x, y, z| Record::Path { x, y, z };
    vec![
        (path(0, 0, 0), "path 0 0 0: 0"),
        (path(1, 0, 0), "path 1 0 0: 1"),
        (path(0, 1, 0), "path 0 1 0: 2"),
        (path(0, 0, 1), "path 0 0 1: 4"),
        (path(3, 0, 0), "path 3 0 0: 9"),
        (path(7, 7, 7), "path 7 7 7: 511"),
        (path(1023, 1023, 1023), "path 1023 1023 1023: 1073741823"),
        (path(1024, 0, 0), "path 1024 0 0: 0"),
        (path(-1, 0, 0), "path -1 0 0: 153391689"),
        (
            Record::Leaf {
                index: 1,
                generation: 0,
            },
            "leaf 1 0: 8000000000000001",
        ),
        (
            Record::Branch {
                index: 2,
                generation: 0,
                types: 1,
                mask: 1,
            },
            "branch 2 0 1 1: 0080800000000002",
        ),
    ]
}

fn ids(random: &mut Random) -> Vec<Record> {
    let mut records: Vec<Record> = [
        document01::EMPTY,
        document01::INVALID,
        0x8000_0000_0000_0001,
        0x0080_8000_0000_0002,
        0x8000_0000_0000_0000,
        0x7FFF_FFFF_FFFF_FFFF,
        0xFFFF_FFFF_FFFF_FFFE,
        0xFFFF_FFFE_FFFF_FFFF,
        0xFFFF_8000_0000_0000,
        0x1234_5678_9ABC_DEF0,
        0xFEDC_BA98_7654_3210,
    ]
    .map(Record::Text)
    .into();
    records.extend((0..64).map(|n| Record::Text(1 << n)));
    records.extend((0..40).map(|_| Record::Text(random.bits())));
    let indices = [0, 1, 0x7FFF_FFFF, 0x8000_0000, u32::MAX];
    let generations = [0, 1, 0x7FFD, 0x7FFE, 0x7FFF, 0x8000, u16::MAX];
    for generation in generations {
        for index in indices {
            records.push(Record::Leaf { index, generation });
        }
        for (index, types, mask) in [
            (0, 0, 0),
            (1, 0x80, 1),
            (2, 1, 0x80),
            (u32::MAX, 0xFF, 0xFF),
        ] {
            records.push(Record::Branch {
                index,
                generation,
                types,
                mask,
            });
        }
    }
    for _ in 0..20 {
        let bits = random.bits();
        let (index, generation) = (random.bits() as u32, (bits >> 48) as u16);
        let (types, mask) = (bits as u8, (bits >> 8) as u8);
        records.push(Record::Leaf { index, generation });
        records.push(Record::Branch {
            index,
            generation: generation & 0x3FFF,
            types,
            mask,
        });
    }
    records
}

fn paths(random: &mut Random) -> Vec<Record> {
    let mut records = vec![];
    let ends = [
        i32::MIN,
        i32::MIN + 1,
        -1025,
        -1024,
        -2,
        -1,
        2,
        511,
        512,
        1023,
        1024,
        1025,
        i32::MAX,
    ];
    for end in ends {
        records.push(Record::Path { x: end, y: 0, z: 0 });
        records.push(Record::Path { x: 0, y: end, z: 0 });
        records.push(Record::Path { x: 0, y: 0, z: end });
    }
    for _ in 0..30 {
        let [x, y, z] = [(); 3].map(|()| random.bits() as i32);
        records.push(Record::Path { x, y, z });
    }
    let codes = [
        0,
        1,
        2,
        4,
        9,
        511,
        (1 << 30) - 1,
        1 << 30,
        (1 << 30) + 1,
        1 << 31,
        u32::MAX,
    ];
    records.extend(codes.map(Record::Cell));
    records.extend((0..30).map(|n| Record::Cell(1 << n)));
    records.extend((0..30).map(|_| Record::Cell(random.bits() as u32 >> 2)));
    records
}

fn children(random: &mut Random) -> Vec<Record> {
    let child = |[x, y, z]: [i32; 3], level, depth| Record::Child {
        x,
        y,
        z,
        level,
        depth,
    };
    let mut records = vec![];
    for depth in 0..=8 {
        for level in 0..=depth {
            records.push(child([0, 0, 0], level, depth));
        }
    }
    for depth in 0..=7 {
        let side = 1 << depth;
        for far in [side - 1, side] {
            for cell in [[far, 0, 0], [0, far, 0], [0, 0, far], [far, far, far]] {
                records.push(child(cell, 0, depth));
            }
        }
    }
    for cell in [
        [-1, 0, 0],
        [0, -1, 0],
        [0, 0, -1],
        [i32::MIN, 0, 0],
        [0, 0, i32::MAX],
    ] {
        records.push(child(cell, 0, 6));
        records.push(child(cell, 6, 6));
    }
    for (level, depth) in [
        (0, u32::MAX),
        (u32::MAX, 6),
        (u32::MAX, u32::MAX),
        (u32::MAX - 1, u32::MAX),
    ] {
        records.push(child([5, 3, 2], level, depth));
    }
    for _ in 0..60 {
        let depth = random.between(1, 6) as u32;
        let level = random.between(0, i128::from(depth) - 1) as u32;
        let cell = [(); 3].map(|()| random.between(0, (1 << depth) - 1) as i32);
        records.push(child(cell, level, depth));
    }
    records
}

/// The bytes of the sample, and its lines.
fn sample() -> (Vec<u8>, String) {
    let mut random = Random::new(SEED);
    let mut records = vec![];
    for (record, said) in worked_examples() {
        assert_eq!(
            record.line(),
            said,
            "the original does not answer what document 01 says"
        );
        records.push(record);
    }
    records.extend(ids(&mut random));
    records.extend(paths(&mut random));
    records.extend(children(&mut random));
    records.extend([6, 7, u32::MAX].map(Record::Unknown));
    let (mut bytes, mut lines) = (vec![], String::new());
    for (number, record) in records.iter().enumerate() {
        // What a record does not use is 0 in one half of the records and anything in the other.
        bytes.extend(record.bytes(|| {
            if number % 2 == 0 {
                0
            } else {
                random.bits() as u8
            }
        }));
        lines += &record.line();
        lines.push('\n');
    }
    bytes.extend([1; CUT]);
    lines += &format!("short {CUT}\n");
    (bytes, lines)
}

fn main() -> ExitCode {
    reference::quiet();
    let folder = Path::new(env!("CARGO_MANIFEST_DIR")).join("../../crates/texts");
    let (bytes, lines) = sample();
    let files = [("stdin", bytes), ("stdout", lines.into_bytes())];
    match std::env::args().skip(1).collect::<Vec<_>>()[..] {
        [] => {
            for (name, contents) in &files {
                fs::write(folder.join(name), contents)
                    .unwrap_or_else(|e| panic!("crates/texts/{name}: {e}"));
            }
        }
        [ref word] if word == "--check" => {
            for (name, contents) in &files {
                if !fs::read(folder.join(name)).is_ok_and(|there| there == *contents) {
                    println!(
                        "crates/texts/{name} is not what the original and document 01 give: run vectors to write it"
                    );
                    return ExitCode::FAILURE;
                }
            }
        }
        _ => {
            eprintln!("usage: vectors [--check]");
            return ExitCode::from(2);
        }
    }
    let count = files[1].1.iter().filter(|byte| **byte == b'\n').count();
    println!(
        "crates/texts/stdin and stdout: {count} lines, as the original and document 01 give them"
    );
    ExitCode::SUCCESS
}
