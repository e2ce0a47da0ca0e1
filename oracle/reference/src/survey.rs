//! Readings in metres as document 02 has them, written from that paper alone. A number in metres is its 64 bits, and the cell it lies in is worked out in
//! whole numbers: nothing here computes with a float.
use crate::arena::Arena;
use crate::document01::INVALID;
use crate::reading::DEEPEST;

/// An edge is 2^-k metres, with k at most this.
pub const FINEST: u32 = 6;
/// The bytes of a record.
pub const RECORD: usize = 40;

/// A number in metres, by the bits of its f64: sign, eleven of exponent, 52 of fraction.
#[derive(Clone, Copy, Debug, PartialEq, Eq)]
pub struct Metres(pub u64);

impl Metres {
    fn is_negative(self) -> bool {
        self.0 >> 63 == 1
    }

    fn exponent(self) -> u64 {
        self.0 >> 52 & 0x7FF
    }

    fn fraction(self) -> u64 {
        self.0 & ((1 << 52) - 1)
    }

    /// Neither NaN nor infinite.
    pub fn is_finite(self) -> bool {
        self.exponent() != 0x7FF
    }

    fn is_nan(self) -> bool {
        !self.is_finite() && self.fraction() != 0
    }

    /// Is this number less than the other? No where one is a NaN; the two zeros are equal.
    pub fn is_below(self, other: Self) -> bool {
        let order = |number: Self| {
            let size = (number.0 & (u64::MAX >> 1)) as i64;
            if number.is_negative() { -size } else { size }
        };
        !self.is_nan() && !other.is_nan() && order(self) < order(other)
    }

    /// The cell of a finite number: the number times 2^edge, rounded down. Cells further than 2^100 from 0 come as nearer ones, beyond every cube too.
    ///
    /// The number times 2^edge is digits·2^power, and the digits have at most 53 bits. Where the power is 0 or more they have all 53, and a product cut
    /// short at 2^60 is as far outside; where it is below -100 they are divided away to 0 or -1, as by 2^100.
    pub fn cell(self, edge: u32) -> i128 {
        let (hidden, exponent) = match self.exponent() {
            0 => (0, 1),
            exponent => (1 << 52, exponent),
        };
        let size = i128::from(hidden + self.fraction());
        let digits = if self.is_negative() { -size } else { size };
        let power = exponent as i32 - 1075 + edge as i32;
        if power >= 0 {
            digits << power.min(60)
        } else {
            digits.div_euclid(1 << (-power).min(100))
        }
    }
}

/// What a record says.
#[derive(Clone, Copy, Debug, PartialEq, Eq)]
pub enum Reading {
    Pause,
    /// A point: x, y, z.
    Shot {
        at: [Metres; 3],
        value: u16,
    },
    /// A point and a second x, not below the first.
    Bar {
        from: [Metres; 3],
        second_x: Metres,
        value: u16,
    },
}

/// What the record says, or the number of the refusal: 13, then 14.
pub fn parse(record: &[u8]) -> Result<Reading, u32> {
    if record.len() != RECORD || record[6] != 0 || record[7] != 0 {
        return Err(13);
    }
    let kind = u32::from_le_bytes(record[..4].try_into().unwrap());
    let value = u16::from_le_bytes(record[4..6].try_into().unwrap());
    let number = |i: usize| {
        let bytes = &record[8 + 8 * i..16 + 8 * i];
        Metres(u64::from_le_bytes(bytes.try_into().unwrap()))
    };
    let numbers = [0, 1, 2, 3].map(number);
    let [x, y, z, second_x] = numbers;
    let (used, reading) = match kind {
        0 => (0, Reading::Pause),
        1 => {
            let at = [x, y, z];
            (3, Reading::Shot { at, value })
        }
        2 => {
            let from = [x, y, z];
            let bar = Reading::Bar {
                from,
                second_x,
                value,
            };
            (4, bar)
        }
        _ => return Err(13),
    };
    let is_spare_set = numbers[used..].iter().any(|number| number.0 != 0);
    let is_pause_with_value = reading == Reading::Pause && value != 0;
    let is_backward = kind == 2 && second_x.is_below(x);
    if is_spare_set || is_pause_with_value || is_backward {
        return Err(13);
    }
    if numbers[..used].iter().any(|number| !number.is_finite()) {
        return Err(14);
    }
    Ok(reading)
}

impl Reading {
    pub fn is_bar(&self) -> bool {
        matches!(self, Reading::Bar { .. })
    }

    /// The cells that it edits, in rising order, and their value; refusal 3 if any lies outside the cube. A pause has no cell.
    pub fn cells(&self, depth: u32, edge: u32) -> Result<(Vec<[i32; 3]>, u16), u32> {
        let (point, second_x, value) = match *self {
            Reading::Pause => return Ok((vec![], 0)),
            Reading::Shot { at, value } => (at, at[0], value),
            Reading::Bar {
                from,
                second_x,
                value,
            } => (from, second_x, value),
        };
        let [first, y, z] = point.map(|number| number.cell(edge));
        let last = second_x.cell(edge);
        let is_outside = |cell: i128| cell < 0 || cell >= 1 << depth;
        if [first, last, y, z].into_iter().any(is_outside) {
            return Err(3);
        }
        let cells = (first..=last).map(|x| [x, y, z].map(|cell| cell as i32));
        Ok((cells.collect(), value))
    }
}

impl Arena {
    /// The number of the refusal and INVALID, or 0 and the root with the reading entered. A bar that is refused on its way has moved slots.
    pub fn enter(&mut self, root: u64, depth: u32, edge: u32, record: &[u8]) -> (u32, u64) {
        self.begin();
        if depth > DEEPEST || edge > FINEST {
            return (2, INVALID);
        }
        match parse(record) {
            Err(no) => (no, INVALID),
            Ok(Reading::Pause) => match self.hold(root) {
                0 => (0, root),
                no => (no, INVALID),
            },
            Ok(reading) => match reading.cells(depth, edge) {
                Err(no) => (no, INVALID),
                Ok((cells, value)) => self.draw(root, depth, &cells, value),
            },
        }
    }

    /// Edits the cells one after the other. A passing root is released after the next is made, or refused.
    fn draw(&mut self, root: u64, depth: u32, cells: &[[i32; 3]], value: u16) -> (u32, u64) {
        let mut touched = vec![];
        let mut answer = (0, root);
        for (at, cell) in cells.iter().enumerate() {
            let (_, passing) = answer;
            answer = self.edit(passing, depth, *cell, value);
            touched.append(&mut self.touched);
            if at > 0 {
                assert_eq!(self.release(passing), 0);
                touched.append(&mut self.touched);
            }
            if answer.0 != 0 {
                break;
            }
        }
        self.touched = touched;
        answer
    }
}
