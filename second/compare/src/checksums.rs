//! Checksums that could be taken for the right one of a response.

use second::lin::{enhanced_checksum, folded_sum, protected_identifier};

/// A response to a row: its ID, the row's size, the bytes handed in, and the
/// eight data bytes of its record.
pub struct Response<'r> {
    pub id: u16,
    pub size: usize,
    pub bytes: &'r [u8],
    pub data: &'r [u8; 8],
}

impl Response<'_> {
    pub fn right_checksum(&self) -> u8 {
        enhanced_checksum(self.id, self.bytes)
    }

    /// Another identifier before the bytes handed in.
    fn behind(&self, identifier: u8) -> Vec<u8> {
        let mut all = vec![identifier];
        all.extend(self.bytes);
        all
    }

    /// What the right checksum is of.
    fn summed(&self) -> Vec<u8> {
        self.behind(protected_identifier(self.id))
    }

    /// The sum without folding.
    fn sum(&self) -> u16 {
        self.summed().into_iter().map(u16::from).sum()
    }
}

type Checksum = fn(&Response) -> u8;

pub const OTHER_CHECKSUMS: [(&str, Checksum); 11] = [
    ("classic checksum", |r| !folded_sum(r.bytes)),
    ("checksum of the plain ID", |r| {
        !folded_sum(&r.behind(r.id as u8))
    }),
    ("checksum of the next ID", |r| {
        !folded_sum(&r.behind(protected_identifier(r.id + 1)))
    }),
    ("checksum of parity bits exchanged", |r| {
        let protected = protected_identifier(r.id);
        let exchanged = protected & 0x3F | (protected & 0x40) << 1 | (protected & 0x80) >> 1;
        !folded_sum(&r.behind(exchanged))
    }),
    ("checksum of bit 7 not inverted", |r| {
        !folded_sum(&r.behind(protected_identifier(r.id) ^ 0x80))
    }),
    ("checksum of the size's bytes", |r| {
        enhanced_checksum(r.id, &r.bytes[..r.size])
    }),
    ("checksum of all eight bytes", |r| {
        enhanced_checksum(r.id, r.data)
    }),
    ("checksum without carries", |r| !(r.sum() as u8)),
    ("checksum of carries folded once", |r| {
        let sum = r.sum();
        !((sum as u8).wrapping_add((sum >> 8) as u8))
    }),
    ("checksum of a sum by 255", |r| !((r.sum() % 255) as u8)),
    ("checksum not inverted", |r| folded_sum(&r.summed())),
];

/// For a response that this checksum would let in.
pub fn wrong_row(name: &str) -> String {
    format!("rx 3, {name}")
}

/// For a response that this checksum would keep out.
pub fn unlike_row(name: &str) -> String {
    format!("rx 0 unlike the {name}")
}

pub fn rows() -> Vec<String> {
    let wrong = OTHER_CHECKSUMS.map(|(name, _)| wrong_row(name));
    let unlike = OTHER_CHECKSUMS.map(|(name, _)| unlike_row(name));
    let mut rows = wrong.to_vec();
    rows.push("rx 3, checksum 0".to_string());
    rows.extend(unlike);
    rows.push("rx 0, checksum 0".to_string());
    rows
}
