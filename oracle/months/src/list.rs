//! A list lent to a comparison, its three parts between guard words, with marks at every place; and what a comparison has to leave in it.
use arena::lent::Guarded;
use port::compare::{Compared, List};
use reference::months::{Differences, Differing};

/// A step from one place's mark to the next.
const STEP: u64 = 0x9E37_79B9_7F4A_7C15;

pub struct Lent {
    pub codes: Guarded<u32>,
    pub lefts: Guarded<u16>,
    pub rights: Guarded<u16>,
    /// The mark of the first place.
    first: u64,
}

/// What stands at a place before the call, in all three parts.
fn mark(first: u64, place: usize) -> Differing {
    let mark = first.wrapping_add(STEP.wrapping_mul(place as u64));
    Differing {
        code: (mark >> 32) as u32,
        left: (mark >> 16) as u16,
        right: mark as u16,
    }
}

impl Lent {
    /// A list with parts of these lengths.
    pub fn new([codes, lefts, rights]: [usize; 3], first: u64) -> Self {
        let marks = |length: usize| (0..length).map(|place| mark(first, place));
        let codes: Vec<u32> = marks(codes).map(|mark| mark.code).collect();
        let lefts: Vec<u16> = marks(lefts).map(|mark| mark.left).collect();
        let rights: Vec<u16> = marks(rights).map(|mark| mark.right).collect();
        Self {
            codes: Guarded::new(&codes, 0xA5C3_3C5A),
            lefts: Guarded::new(&lefts, 0xA5C3),
            rights: Guarded::new(&rights, 0x5A3C),
            first,
        }
    }

    pub fn parts(&mut self) -> List<'_> {
        List {
            codes: self.codes.inside_mut(),
            lefts: self.lefts.inside_mut(),
            rights: self.rights.inside_mut(),
        }
    }

    /// Is the answer the expected one, with the cells at the start of the list, both sides exchanged if wanted, and every other place as it was?
    pub fn judge(
        &self,
        answered: &Compared,
        expected: Result<&Differences, u32>,
        is_exchanged: bool,
    ) -> Result<(), String> {
        let (no, cells, opened) = match expected {
            Ok(found) => (0, &found.cells[..], found.opened),
            Err(no) => (no, &[][..], 0),
        };
        let numbers = (answered.count as usize, u64::from(answered.opened));
        if answered.no != no || numbers != (cells.len(), opened) {
            return Err(format!(
                "the port answers {answered:?}, document 02 {no} with {} cells and {opened} pairs opened",
                cells.len()
            ));
        }
        if !self.codes.is_intact() || !self.lefts.is_intact() || !self.rights.is_intact() {
            return Err("the port writes outside its list".to_string());
        }
        let wanted = |place: usize| match cells.get(place) {
            Some(&cell) if is_exchanged => Differing {
                left: cell.right,
                right: cell.left,
                ..cell
            },
            Some(&cell) => cell,
            None => mark(self.first, place),
        };
        let same = |(place, is): (usize, bool)| match is {
            true => Ok(()),
            false => Err(format!(
                "place {place} of the list has not {:x?}",
                wanted(place)
            )),
        };
        let codes = (self.codes.inside().iter().enumerate())
            .map(|(place, code)| (place, *code == wanted(place).code));
        let lefts = (self.lefts.inside().iter().enumerate())
            .map(|(place, value)| (place, *value == wanted(place).left));
        let rights = (self.rights.inside().iter().enumerate())
            .map(|(place, value)| (place, *value == wanted(place).right));
        codes.chain(lefts).chain(rights).try_for_each(same)
    }
}
