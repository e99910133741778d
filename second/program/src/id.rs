//! An ID and its format.

use std::fmt;

/// "ID 0–2047".
pub const GREATEST_11: u16 = 2047;

/// Ticket 6: "a four-byte ID, 0 to 536,870,911".
pub const GREATEST_29: u32 = 536_870_911;

/// "11-bit identifiers (IDs)". Ticket 6: "ID 32 in one format is not ID 32 in
/// the other", so an ID is its format and its number, and never one without the
/// other. A number that is past the range of its format is an ID too, which no
/// row has.
///
/// Ticket 6: "Within a node 11-bit rows come before 29-bit ones, each in
/// ascending order": the formats stand here in that order, by which any two IDs
/// are compared.
#[derive(Clone, Copy, Debug, PartialEq, Eq, PartialOrd, Ord)]
pub enum Id {
    Bits11(u16),
    Bits29(u32),
}

/// A two-byte ID.
impl From<u16> for Id {
    fn from(number: u16) -> Id {
        Id::Bits11(number)
    }
}

impl Id {
    /// The number, which alone is no ID.
    pub fn number(self) -> u32 {
        match self {
            Id::Bits11(number) => u32::from(number),
            Id::Bits29(number) => number,
        }
    }

    pub fn is_29_bits(self) -> bool {
        matches!(self, Id::Bits29(_))
    }

    /// Whether the number is in the range of the format.
    pub fn is_in_range(self) -> bool {
        match self {
            Id::Bits11(number) => number <= GREATEST_11,
            Id::Bits29(number) => number <= GREATEST_29,
        }
    }
}

/// "numbers decimal". Ticket 6: "the bench puts `e` before such an ID."
impl fmt::Display for Id {
    fn fmt(&self, f: &mut fmt::Formatter) -> fmt::Result {
        match self {
            Id::Bits11(number) => write!(f, "{number}"),
            Id::Bits29(number) => write!(f, "e{number}"),
        }
    }
}
