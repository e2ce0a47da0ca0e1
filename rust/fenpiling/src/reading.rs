use crate::{Refusal, ffi};

/// A point in metres.
#[derive(Clone, Copy, Debug, PartialEq)]
pub struct Metres {
    /// Along the first axis.
    pub x: f64,
    /// Along the second axis.
    pub y: f64,
    /// Along the third axis.
    pub z: f64,
}

impl Metres {
    /// The point at (x, y, z).
    pub fn new(x: f64, y: f64, z: f64) -> Metres {
        Metres { x, y, z }
    }
}

/// What a surveyor's instrument has read. [`Root::enter`](crate::Root::enter) enters it into a model.
///
/// A record of it has 40 bytes, all numbers low byte first: kind (4 bytes; 0 pause, 1 shot, 2 bar), value (2), two zero bytes, then x, y, z and second x
/// as `f64` (8 each). Numbers that the kind does not use are all zero bits, and so is a pause's value.
///
/// ```
/// use fenpiling::{Metres, Reading, Refusal};
///
/// let bar = Reading::Bar { from: Metres::new(1.0, 2.0, 3.0), second_x: 4.5, value: 9 };
/// let record = bar.to_bytes();
/// assert_eq!(record[..8], [2, 0, 0, 0, 9, 0, 0, 0]);
/// assert_eq!(Reading::from_bytes(&record), Ok(bar));
/// assert_eq!(Reading::from_bytes(&record[1..]), Err(Refusal::Record));
/// ```
#[derive(Clone, Copy, Debug, PartialEq)]
pub enum Reading {
    /// Nothing was read, and nothing changes.
    Pause,
    /// A point: its cell gets the value; value 0 digs it out.
    Shot {
        /// The point.
        at: Metres,
        /// The value of the cell.
        value: u16,
    },
    /// A bar along the first axis: every cell from one x to another gets the value.
    Bar {
        /// The point at which it begins.
        from: Metres,
        /// Where it ends, not below the x at which it begins.
        second_x: f64,
        /// The value of the cells.
        value: u16,
    },
}

impl Reading {
    /// The bytes of a record.
    pub const LENGTH: usize = 40;

    const PAUSE: u32 = 0;
    pub(crate) const SHOT: u32 = 1;
    pub(crate) const BAR: u32 = 2;

    /// What a record says. Refusals, in the order in which they are tested:
    ///
    /// - [`Record`](Refusal::Record): it is not 40 bytes long or of no known kind; a byte that has to be zero is not, or a number that is not used, in
    ///   any bit, or a pause's value; or a bar's second x is below its first, where a NaN is below nothing.
    /// - [`NotFinite`](Refusal::NotFinite): one of the numbers is a NaN or infinite.
    ///
    /// ```
    /// use fenpiling::{Metres, Reading, Refusal};
    ///
    /// let shot = |x| Reading::Shot { at: Metres::new(x, 0.0, 0.0), value: 9 }.to_bytes();
    /// assert_eq!(Reading::from_bytes(&shot(f64::NAN)), Err(Refusal::NotFinite));
    /// let mut record = shot(1.0);
    /// record[6] = 1;
    /// assert_eq!(Reading::from_bytes(&record), Err(Refusal::Record));
    /// assert_eq!(Reading::from_bytes(&[0; 40]), Ok(Reading::Pause));
    /// ```
    pub fn from_bytes(record: &[u8]) -> Result<Reading, Refusal> {
        ffi::parse(record)
    }

    /// The record of the reading. [`from_bytes`](Reading::from_bytes) gives the reading back, unless it refuses it: a number that is not finite, or a bar
    /// that runs backward.
    pub fn to_bytes(&self) -> [u8; Reading::LENGTH] {
        let nowhere = Metres::new(0.0, 0.0, 0.0);
        let (kind, value, point, second_x) = match *self {
            Reading::Pause => (Reading::PAUSE, 0, nowhere, 0.0),
            Reading::Shot { at, value } => (Reading::SHOT, value, at, 0.0),
            Reading::Bar {
                from,
                second_x,
                value,
            } => (Reading::BAR, value, from, second_x),
        };
        let mut record = [0; Reading::LENGTH];
        record[..4].copy_from_slice(&kind.to_le_bytes());
        record[4..6].copy_from_slice(&value.to_le_bytes());
        let numbers = [point.x, point.y, point.z, second_x];
        for (bytes, number) in record[8..].chunks_exact_mut(8).zip(numbers) {
            bytes.copy_from_slice(&number.to_le_bytes());
        }
        record
    }
}
