//! Document 01's full listing, byte for byte.
//!
//! Ticket 4: "In 01's listing the line `rx 1` becomes `rx 1 1`."

mod common;

const PLAN: [u8; 39] = [
    0x01, 0x00, 0x02, 0x00, 0x03, 0x00, 0x01, 0x00, 0x02, 0x01, 0x03, 0x03, 0x02, 0x00, 0x00, 0x00,
    0x00, 0x00, 0x00, 0x00, 0x00, 0x04, 0x00, 0x00, 0x20, 0x01, 0x01, 0x02, 0x02, 0x01, 0x0F, 0x02,
    0x05, 0x02, 0x04, 0x06, 0x00, 0x00, 0x06,
];

const LISTING: &str = "\
plan ok 1 1 1
take none
rx 0
take 0 256 2 02c0 0
tick 0
tick 1
tick 0
take 0 256 2 02c1 0
tick 2
rx 0
take none
rx 1 1
rx 2
";

#[test]
fn the_listing_is_met_byte_for_byte() {
    let take = common::take(0);
    let reception = common::reception(0, 0x0020, &[0x2C]);
    let tick = common::TICK.to_vec();
    let events = common::join(&[
        take.clone(),
        reception.clone(),
        take.clone(),
        tick.clone(),
        tick.clone(),
        tick.clone(),
        take.clone(),
        tick,
        reception,
        take,
        common::reception(0, 0x0021, &[0x2C]),
        common::reception(0, 0x0020, &[]),
    ]);
    assert_eq!(second::run(&common::input(&PLAN, &events)), LISTING);
}
