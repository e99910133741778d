//! LIN: the protected identifier and the enhanced checksum.

use crate::id::Id;

/// Ticket 2: "IDs there run 0 to 59, sizes 1 to 8."
pub const GREATEST_ID: u16 = 59;
pub const LEAST_SIZE: usize = 1;

/// The number of an ID on a LIN node. Ticket 6: "5 for these on a LIN node", so
/// all of them are of 11 bits.
pub fn plain(id: Id) -> u16 {
    match id {
        Id::Bits11(number) => number,
        Id::Bits29(number) => unreachable!("the 29-bit ID {number} on a LIN node"),
    }
}

/// Ticket 2: "bit 6 is the exclusive or of ID bits 0, 1, 2 and 4; bit 7 the
/// inverse of that of bits 1, 3, 4 and 5." Bits above 5 of the ID are not
/// looked at.
pub fn protected_identifier(id: u16) -> u8 {
    let bit = |number: u16| (id >> number & 1) as u8;
    let bit_6 = bit(0) ^ bit(1) ^ bit(2) ^ bit(4);
    let bit_7 = 1 ^ (bit(1) ^ bit(3) ^ bit(4) ^ bit(5));
    (id & 0x3F) as u8 | bit_6 << 6 | bit_7 << 7
}

/// Ticket 2: "the carry-folded byte sum": a sum that does not fit into a byte
/// loses its 256 and gains 1.
pub fn folded_sum(bytes: &[u8]) -> u8 {
    let mut sum = 0;
    for byte in bytes {
        sum += u16::from(*byte);
        if sum >= 256 {
            sum = sum - 256 + 1;
        }
    }
    sum as u8
}

/// Ticket 2: "the enhanced checksum: the carry-folded byte sum of protected
/// identifier and all data, in a reception every byte handed in, inverted."
pub fn enhanced_checksum(id: u16, data: &[u8]) -> u8 {
    let mut bytes = vec![protected_identifier(id)];
    bytes.extend(data);
    !folded_sum(&bytes)
}
