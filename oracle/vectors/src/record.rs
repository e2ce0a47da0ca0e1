//! A record of the program crates/texts, as its bytes and as the line that it has to give.
use glam::IVec3;
use reference::{answer_or_panic, document01};
use voxelis::BlockId;
use voxelis::utils::common::{child_index2, encode_child_index_path};

pub enum Record {
    /// The text of a raw id.
    Text(u64),
    Leaf {
        index: u32,
        generation: u16,
    },
    Branch {
        index: u32,
        generation: u16,
        types: u8,
        mask: u8,
    },
    Path {
        x: i32,
        y: i32,
        z: i32,
    },
    /// The cell of a path code.
    Cell(u32),
    Child {
        x: i32,
        y: i32,
        z: i32,
        level: u32,
        depth: u32,
    },
    /// A kind that the program does not know.
    Unknown(u32),
}

impl Record {
    /// The kind, and the record's fields: bytes, and the place of the first.
    fn fields(&self) -> (u32, Vec<(usize, Vec<u8>)>) {
        let word = |at: usize, n: u32| (at, n.to_le_bytes().to_vec());
        let signed = |at: usize, n: i32| (at, n.to_le_bytes().to_vec());
        match *self {
            Record::Text(raw) => (0, vec![(4, raw.to_le_bytes().to_vec())]),
            Record::Leaf { index, generation } => (
                1,
                vec![word(4, index), (8, generation.to_le_bytes().to_vec())],
            ),
            Record::Branch {
                index,
                generation,
                types,
                mask,
            } => (
                2,
                vec![
                    word(4, index),
                    (8, generation.to_le_bytes().to_vec()),
                    (12, vec![types]),
                    (16, vec![mask]),
                ],
            ),
            Record::Path { x, y, z } => (3, vec![signed(4, x), signed(8, y), signed(12, z)]),
            Record::Cell(code) => (4, vec![word(4, code)]),
            Record::Child {
                x,
                y,
                z,
                level,
                depth,
            } => (
                5,
                vec![
                    signed(4, x),
                    signed(8, y),
                    signed(12, z),
                    word(16, level),
                    word(20, depth),
                ],
            ),
            Record::Unknown(kind) => (kind, vec![]),
        }
    }

    /// The 32 bytes; `rest` gives those that the record does not use.
    pub fn bytes(&self, mut rest: impl FnMut() -> u8) -> [u8; 32] {
        let mut bytes = [(); 32].map(|()| rest());
        let (kind, fields) = self.fields();
        bytes[..4].copy_from_slice(&kind.to_le_bytes());
        for (at, field) in fields {
            bytes[at..at + field.len()].copy_from_slice(&field);
        }
        bytes
    }

    /// The line, from the original's answer, or from document 01 where that refuses.
    pub fn line(&self) -> String {
        match *self {
            Record::Text(raw) => format!("id {raw:016x}: {}", BlockId::from_raw(raw)),
            Record::Leaf { index, generation } => {
                let id = answer_or_panic(|| BlockId::new_leaf(index, generation).raw());
                let answer = packed(document01::new_leaf(index, generation), id);
                format!("leaf {index} {generation}: {answer}")
            }
            Record::Branch {
                index,
                generation,
                types,
                mask,
            } => {
                let id =
                    answer_or_panic(|| BlockId::new_branch(index, generation, types, mask).raw());
                let answer = packed(document01::new_branch(index, generation, types, mask), id);
                format!("branch {index} {generation} {types} {mask}: {answer}")
            }
            Record::Path { x, y, z } => {
                let code = encode_child_index_path(&IVec3::new(x, y, z));
                format!("path {x} {y} {z}: {code}")
            }
            Record::Cell(code) => match document01::cell(code) {
                (0, x, y, z) => {
                    assert_eq!(encode_child_index_path(&IVec3::new(x, y, z)), code);
                    format!("cell {code}: {x} {y} {z}")
                }
                (refusal, ..) => format!("cell {code}: refused {refusal}"),
            },
            Record::Child {
                x,
                y,
                z,
                level,
                depth,
            } => {
                let answer = match document01::child_refusal(x, y, z, level, depth) {
                    0 => child_index2(&IVec3::new(x, y, z), level as usize, depth as usize)
                        .to_string(),
                    refusal => format!("refused {refusal}"),
                };
                format!("child {x} {y} {z} at {level} of {depth}: {answer}")
            }
            Record::Unknown(kind) => format!("unknown {kind}"),
        }
    }
}

/// The original's id, which is also document 01's, or its refusal, at which the original panics.
fn packed(document01: (u32, u64), original: Result<u64, String>) -> String {
    match (document01, original) {
        ((0, said), Ok(id)) if said == id => format!("{id:016x}"),
        ((refusal, _), Err(_)) if refusal != 0 => format!("refused {refusal}"),
        (said, original) => panic!("document 01 says {said:?}, the original {original:?}"),
    }
}
