//! Kinds of nodes: the types, and the document node.

use crate::bits;

/// The kind of the document node.
pub const DOCUMENT: u8 = 16;
/// How many kinds there are.
pub const KINDS: usize = 17;

/// A set of kinds: bit t for type t, bit 16 for the document node.
#[derive(Clone, Copy, PartialEq, Eq, Debug)]
pub struct Kinds(pub u32);

impl Kinds {
    pub const NONE: Kinds = Kinds(0);

    pub fn only(kind: u8) -> Kinds {
        Kinds(1 << kind)
    }

    pub fn has(self, kind: u8) -> bool {
        self.0 >> kind & 1 == 1
    }

    pub fn and_also(self, more: Kinds) -> Kinds {
        Kinds(self.0 | more.0)
    }

    pub fn in_both(self, other: Kinds) -> Kinds {
        Kinds(self.0 & other.0)
    }

    pub fn iter(self) -> impl Iterator<Item = u8> {
        bits::ones(self.0.into()).map(|kind| kind as u8)
    }

    /// The types among them, as a mask of 16 bits.
    pub fn types(self) -> u16 {
        self.0 as u16
    }
}
