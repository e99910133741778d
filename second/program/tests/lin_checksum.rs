//! The protected identifier and the enhanced checksum.

use second::lin::{enhanced_checksum, folded_sum, protected_identifier};

/// Ticket 2: "bit 6 is the exclusive or of ID bits 0, 1, 2 and 4; bit 7 the
/// inverse of that of bits 1, 3, 4 and 5."
#[test]
fn the_protected_identifier_of_each_id() {
    for id in 0..60u16 {
        let protected = protected_identifier(id);
        let ones = |mask: u16| (id & mask).count_ones();
        assert_eq!(u16::from(protected & 0x3F), id);
        assert_eq!(u32::from(protected >> 6 & 1), ones(0b01_0111) % 2);
        assert_eq!(u32::from(protected >> 7), (ones(0b11_1010) + 1) % 2);
    }
}

#[test]
fn the_known_protected_identifiers() {
    let known = [
        (0x00, 0x80),
        (0x01, 0xC1),
        (0x02, 0x42),
        (0x3C, 0x3C),
        (0x3D, 0x7D),
    ];
    for (id, protected) in known {
        assert_eq!(protected_identifier(id), protected, "ID {id:02X}");
    }
}

/// Ticket 2: "For folding and inverting alone, 4A 55 93 E5 gives E6."
#[test]
fn folding_and_inverting_alone() {
    assert_eq!(!folded_sum(&[0x4A, 0x55, 0x93, 0xE5]), 0xE6);
    assert_eq!(folded_sum(&[]), 0);
    assert_eq!(folded_sum(&[0xFF]), 0xFF);
    assert_eq!(folded_sum(&[0xFF, 0x01]), 0x01);
    // Two carries, of which the second comes from folding the first.
    assert_eq!(folded_sum(&[0xFF, 0xFF, 0x01]), 0x01);
    assert_eq!(folded_sum(&[0xFF; 9]), 0xFF);
}

#[test]
fn the_checksum_is_over_the_protected_identifier_and_the_data() {
    // ID 01 is C1 protected: C1 + 02 = C3, inverted 3C.
    assert_eq!(enhanced_checksum(0x01, &[0x02]), 0x3C);
    // 80 + 80 = 100, folded 01, inverted FE.
    assert_eq!(enhanced_checksum(0x00, &[0x80]), 0xFE);
    // 80 + 7F = FF, inverted 00.
    assert_eq!(enhanced_checksum(0x00, &[0x7F]), 0x00);
    assert_eq!(enhanced_checksum(0x00, &[]), 0x7F);
}

/// Appended to what it is of, the checksum makes the folded sum FF.
#[test]
fn a_checksum_completes_the_sum() {
    for id in 0..60 {
        for byte in 0..=255 {
            let data = [byte, 0x93, !byte];
            let mut all = vec![protected_identifier(id)];
            all.extend(data);
            all.push(enhanced_checksum(id, &data));
            assert_eq!(folded_sum(&all), 0xFF);
        }
    }
}
