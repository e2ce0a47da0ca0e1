use std::fmt;

/// Why a call was refused: the lowest number that applies, where 13 and 14 count as between 2 and 3. A refused call has changed nothing, but for a bar or a
/// list that is refused on its way: [`Root::enter`](crate::Root::enter) and [`Root::enter_all`](crate::Root::enter_all) say what stays then, and what may
/// have moved.
#[derive(Clone, Copy, Debug, PartialEq, Eq, Hash)]
#[repr(u32)]
pub enum Refusal {
    /// The capacity is not 2 to 65,536.
    Size = 1,
    /// The depth is above 6, or the edge is; or a child number is asked at a level not below the depth.
    Depth = 2,
    /// A coordinate is below 0 or at least 2^depth, or a path code is 2^30 or more.
    Position = 3,
    /// An id is neither EMPTY nor live in this arena.
    NotLive = 4,
    /// Fewer holds than the call would take. Roots have their holds, so that this crate never meets it.
    FewHolds = 5,
    /// A leaf of value 0.
    ZeroLeaf = 6,
    /// Eight EMPTY children.
    AllEmpty = 7,
    /// The new branch would be taller than 6, or a root to edit or to compare is taller than the depth.
    Tall = 8,
    /// The expansion buffer is not 8^depth long.
    Cube = 9,
    /// One hold more than the 1,000,000 that a node can have.
    ManyHolds = 10,
    /// More nodes of the result are not yet live than there are free slots.
    Full = 11,
    /// Packing with a generation above 0x7FFE.
    Generation = 12,
    /// A record is not 40 bytes long or of no known kind, what is spare in it or a pause's value is not zero, or a bar's second x is below its first.
    Record = 13,
    /// A number of a reading is a NaN or infinite.
    NotFinite = 14,
    /// More cells differ than the list of a comparison has places. [`Root::changes`](crate::Root::changes) makes room, so that this crate never meets it.
    ShortList = 15,
}

impl Refusal {
    const ALL: [Refusal; 15] = [
        Refusal::Size,
        Refusal::Depth,
        Refusal::Position,
        Refusal::NotLive,
        Refusal::FewHolds,
        Refusal::ZeroLeaf,
        Refusal::AllEmpty,
        Refusal::Tall,
        Refusal::Cube,
        Refusal::ManyHolds,
        Refusal::Full,
        Refusal::Generation,
        Refusal::Record,
        Refusal::NotFinite,
        Refusal::ShortList,
    ];

    /// The refusal's number, 1 to 15.
    pub fn number(self) -> u32 {
        self as u32
    }

    /// What the number of an answer says: 0 is accepted.
    pub(crate) fn accept(number: u32) -> Result<(), Refusal> {
        match Refusal::ALL
            .iter()
            .find(|refusal| refusal.number() == number)
        {
            None if number == 0 => Ok(()),
            None => unreachable!("the library gives no number {number}"),
            Some(&refusal) => Err(refusal),
        }
    }
}

impl fmt::Display for Refusal {
    fn fmt(&self, f: &mut fmt::Formatter<'_>) -> fmt::Result {
        f.write_str(match self {
            Refusal::Size => "the capacity is out of range",
            Refusal::Depth => "the depth or the edge is above 6, or the level not below the depth",
            Refusal::Position => "the place is outside the cube, or the path code too great",
            Refusal::NotLive => "the id is neither EMPTY nor live in this arena",
            Refusal::FewHolds => "fewer holds than the call would take",
            Refusal::ZeroLeaf => "a leaf of value 0",
            Refusal::AllEmpty => "eight EMPTY children",
            Refusal::Tall => {
                "the branch would be taller than 6, or the root is taller than the depth"
            }
            Refusal::Cube => "the buffer is not 8^depth long",
            Refusal::ManyHolds => "the node already has 1,000,000 holds",
            Refusal::Full => "more new nodes than free slots",
            Refusal::Generation => "the generation is above 0x7FFE",
            Refusal::Record => "the record is not one of the instrument's",
            Refusal::NotFinite => "a number is a NaN or infinite",
            Refusal::ShortList => "more cells differ than the list has places",
        })
    }
}

impl std::error::Error for Refusal {}
