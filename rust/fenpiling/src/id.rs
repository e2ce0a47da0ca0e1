use crate::Refusal;
use std::fmt;

/// The id of a node, as any 64 bits: leaf (bit 63), types (55 to 62), mask (47 to 54), generation (32 to 46) and index (0 to 31).
///
/// An id holds nothing: the node it names may be gone, and [`Arena::hold`](crate::Arena::hold) then refuses it, but only for the next 32,765 recyclings of
/// its slot: after 32,766 it may match again, and then it names another node. So keep a [`Root`](crate::Root), not an id. Its text:
///
/// ```
/// use fenpiling::Id;
///
/// assert_eq!(Id::EMPTY.to_string(), "Id(EMPTY)");
/// assert_eq!(Id::new_leaf(1, 0)?.to_string(), "Id(L, i: 00000001, g: 0000)");
/// assert_eq!(Id::new_branch(2, 0, 1, 1)?.to_string(), "Id(B, i: 00000002, g: 0000, m: 01, t: 01)");
/// # Ok::<(), fenpiling::Refusal>(())
/// ```
#[derive(Clone, Copy, PartialEq, Eq, Hash)]
pub struct Id(u64);

impl Id {
    /// Nothing there: all bits 0.
    pub const EMPTY: Id = Id(0);

    /// No node: all bits 1.
    pub const INVALID: Id = Id(u64::MAX);

    /// The id of these bits.
    pub fn from_raw(raw: u64) -> Id {
        Id(raw)
    }

    /// The bits of the id.
    pub fn raw(self) -> u64 {
        self.0
    }

    /// The id of a leaf. Refusal: [`Generation`](Refusal::Generation).
    pub fn new_leaf(index: u32, generation: u16) -> Result<Id, Refusal> {
        let packed = fenpiling_sys::fenpiling_new_leaf(index, generation);
        Refusal::accept(packed.no)?;
        Ok(Id(packed.id))
    }

    /// The id of a branch. Refusal: [`Generation`](Refusal::Generation).
    pub fn new_branch(index: u32, generation: u16, types: u8, mask: u8) -> Result<Id, Refusal> {
        let packed = fenpiling_sys::fenpiling_new_branch(index, generation, types, mask);
        Refusal::accept(packed.no)?;
        Ok(Id(packed.id))
    }

    /// The number of the slot.
    pub fn index(self) -> u32 {
        fenpiling_sys::fenpiling_index(self.0)
    }

    /// How often the slot had been recycled.
    pub fn generation(self) -> u16 {
        fenpiling_sys::fenpiling_generation(self.0)
    }

    /// Bit i: child i is a leaf. 0 where bit 63 is set.
    pub fn types(self) -> u8 {
        fenpiling_sys::fenpiling_types(self.0)
    }

    /// Bit i: child i isn't EMPTY. 0 where bit 63 is set.
    pub fn mask(self) -> u8 {
        fenpiling_sys::fenpiling_mask(self.0)
    }

    /// Is the mask's bit for the child set? No for a child above 7.
    pub fn has_child(self, child: u8) -> bool {
        fenpiling_sys::fenpiling_has_child(self.0, child)
    }

    /// Is bit 63 set? It is in INVALID too.
    pub fn is_leaf(self) -> bool {
        fenpiling_sys::fenpiling_is_leaf(self.0)
    }

    /// Is bit 63 clear? It is in EMPTY too.
    pub fn is_branch(self) -> bool {
        fenpiling_sys::fenpiling_is_branch(self.0)
    }

    /// Is this EMPTY?
    pub fn is_empty(self) -> bool {
        fenpiling_sys::fenpiling_is_empty(self.0)
    }

    /// Is this INVALID?
    pub fn is_invalid(self) -> bool {
        fenpiling_sys::fenpiling_is_invalid(self.0)
    }

    /// Is this anything but INVALID?
    pub fn is_valid(self) -> bool {
        fenpiling_sys::fenpiling_is_valid(self.0)
    }
}

impl fmt::Display for Id {
    fn fmt(&self, f: &mut fmt::Formatter<'_>) -> fmt::Result {
        let text = fenpiling_sys::fenpiling_text(self.0);
        let bytes = text.bytes.iter().take(text.length);
        f.pad(&bytes.copied().map(char::from).collect::<String>())
    }
}

impl fmt::Debug for Id {
    fn fmt(&self, f: &mut fmt::Formatter<'_>) -> fmt::Result {
        fmt::Display::fmt(self, f)
    }
}
