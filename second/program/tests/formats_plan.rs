//! Plans with 29-bit IDs.
//!
//! Ticket 6: "Kinds 7 and 8 are Tx and Rx frames with a four-byte ID, 0 to
//! 536,870,911, otherwise as 3 and 4." "Refusals: 5 for these on a LIN node; 6
//! uses the new order and 2 begins past the new kinds."

mod common;

use common::{
    destination, join, plan_line, quiet_tx, rx, rx_29, signal, tx, tx_29, BIG, LIN_NODE, NODE,
};

const GREATEST: u32 = 536_870_911;

/// Nodes 0 and 1 are CAN, node 2 is LIN: records 0 to 3.
fn line(records: &[Vec<u8>]) -> String {
    let nodes = join(&[BIG, NODE, NODE, LIN_NODE]);
    plan_line(&join(&[nodes, join(records)]))
}

fn row(node: u8, id: u16) -> Vec<u8> {
    rx(node, id, 1, 1, 0, 0, 0, 0, 0)
}

fn row_29(node: u8, id: u32) -> Vec<u8> {
    rx_29(node, id, 1, 1, 0, 0, 0, 0, 0)
}

fn frame_29(node: u8, id: u32) -> Vec<u8> {
    tx_29(node, id, 1, 1, 0, 0, 0, [0; 8])
}

#[test]
fn ids_run_from_0_to_the_greatest() {
    assert_eq!((frame_29(0, 0).len(), row_29(0, 0).len()), (19, 13));
    for id in [0, 2047, 2048, 65_535, 65_536, 1 << 28, GREATEST] {
        assert_eq!(line(&[frame_29(0, id)]), "plan ok 3 1 0");
        assert_eq!(line(&[row_29(1, id)]), "plan ok 3 0 1");
    }
    for id in [GREATEST + 1, GREATEST + 2, 1 << 30, 1 << 31, u32::MAX] {
        assert_eq!(line(&[frame_29(0, id)]), "plan refused 5 4");
        assert_eq!(line(&[row_29(1, id)]), "plan refused 5 4");
    }
}

#[test]
fn the_other_fields_are_as_with_11_bits() {
    let tx_line = |record| line(&[record]);
    let good = tx_29(1, 9, 8, 20, 255, 255, 3, [255; 8]);
    assert_eq!(tx_line(good), "plan ok 3 1 0");
    let refused = "plan refused 5 4";
    assert_eq!(tx_line(tx_29(3, 9, 0, 1, 0, 0, 0, [0; 8])), refused);
    assert_eq!(tx_line(tx_29(0, 9, 9, 1, 0, 0, 0, [0; 8])), refused);
    assert_eq!(tx_line(tx_29(0, 9, 0, 3, 0, 0, 0, [0; 8])), refused);
    assert_eq!(tx_line(tx_29(0, 9, 0, 1, 0, 0, 4, [0; 8])), refused);
    let past = [0, 1, 0, 0, 0, 0, 0, 0];
    assert_eq!(tx_line(tx_29(0, 9, 1, 1, 0, 0, 0, past)), refused);
    assert_eq!(tx_line(tx_29(0, 9, 2, 1, 0, 0, 0, past)), "plan ok 3 1 0");

    let rx_line = |record| line(&[record]);
    let good = rx_29(1, 9, 8, 20, 255, 255, 0, 63, 15);
    assert_eq!(rx_line(good), "plan ok 3 0 1");
    assert_eq!(rx_line(rx_29(3, 9, 0, 1, 0, 0, 0, 0, 0)), refused);
    assert_eq!(rx_line(rx_29(0, 9, 9, 1, 0, 0, 0, 0, 0)), refused);
    assert_eq!(rx_line(rx_29(0, 9, 0, 0, 0, 0, 0, 0, 0)), refused);
    assert_eq!(rx_line(rx_29(0, 9, 0, 1, 0, 0, 2, 0, 0)), refused);
    assert_eq!(rx_line(rx_29(0, 9, 0, 1, 0, 0, 0, 64, 0)), refused);
    assert_eq!(rx_line(rx_29(0, 9, 0, 1, 0, 0, 0, 0, 16)), refused);
}

#[test]
fn no_29_bit_id_stands_on_a_lin_node() {
    for id in [0, 5, 59, 60, 2047, GREATEST] {
        assert_eq!(line(&[frame_29(2, id)]), "plan refused 5 4");
        assert_eq!(line(&[row_29(2, id)]), "plan refused 5 4");
    }
    assert_eq!(
        line(&[tx(2, 5, 1, 1, 0, 0, 0, [0; 8]), row(2, 5)]),
        "plan ok 3 1 1"
    );
}

#[test]
fn frames_of_both_formats_stand_in_any_turn() {
    let frames = [
        frame_29(0, 5),
        quiet_tx(1, 0),
        frame_29(1, 5),
        frame_29(0, 5),
    ];
    assert_eq!(line(&frames), "plan ok 3 4 0");
    let after_row = [row_29(0, 5), frame_29(0, 5)];
    assert_eq!(line(&after_row), "plan refused 3 5");
    assert_eq!(line(&[row_29(0, 5), NODE.to_vec()]), "plan refused 3 5");
    assert_eq!(line(&[frame_29(0, 5), NODE.to_vec()]), "plan refused 3 5");
    assert_eq!(line(&[frame_29(0, 5), signal(0, 1)]), "plan refused 3 5");
    assert_eq!(line(&[row_29(0, 5), destination(0, 0)]), "plan refused 3 5");
    assert_eq!(plan_line(&frame_29(0, 5)), "plan refused 3 0");
    assert_eq!(plan_line(&row_29(0, 5)), "plan refused 3 0");
}

#[test]
fn rows_of_11_bits_come_before_those_of_29() {
    let good = "plan ok 3 0 2";
    let refused = "plan refused 6 5";
    for id in [0, 31, 32, 33, 2047] {
        assert_eq!(line(&[row(0, 32), row_29(0, id)]), good, "{id}");
        assert_eq!(line(&[row_29(0, 32), row(0, id as u16)]), refused, "{id}");
        // The next node begins anew.
        assert_eq!(line(&[row_29(0, 32), row(1, id as u16)]), good, "{id}");
        assert_eq!(line(&[row_29(0, 32), row_29(1, id)]), good, "{id}");
        assert_eq!(line(&[row_29(1, 32), row_29(0, id)]), refused, "{id}");
        assert_eq!(line(&[row(1, 32), row_29(0, id)]), refused, "{id}");
    }
}

#[test]
fn rows_of_29_bits_rise() {
    for (before, after) in [
        (0, 1),
        (0xFFFF, 0x1_0000),
        (0x0FFF_FFFF, 0x1000_0000),
        (0x0001_00FF, 0x0002_0000),
        (GREATEST - 1, GREATEST),
    ] {
        assert_eq!(
            line(&[row_29(0, before), row_29(0, after)]),
            "plan ok 3 0 2"
        );
        assert_eq!(
            line(&[row_29(0, after), row_29(0, before)]),
            "plan refused 6 5"
        );
        assert_eq!(
            line(&[row_29(0, after), row_29(0, after)]),
            "plan refused 6 5"
        );
    }
}

#[test]
fn frames_of_both_formats_are_counted_together() {
    for (of_11, of_29) in [(0, 256), (1, 255), (255, 1), (100, 156)] {
        let mut frames = vec![quiet_tx(1, 0); of_11];
        frames.extend(vec![frame_29(0, 5); of_29]);
        assert_eq!(line(&frames), "plan ok 3 256 0");
        for more in [quiet_tx(1, 0), frame_29(0, 5)] {
            let frames = [frames.clone(), vec![more]].concat();
            assert_eq!(line(&frames), "plan refused 4 260");
        }
        let mut rows: Vec<Vec<u8>> = (0..of_11).map(|id| row(0, id as u16)).collect();
        rows.extend((0..of_29).map(|id| row_29(0, id as u32)));
        assert_eq!(line(&rows), "plan ok 3 0 256");
        for more in [row(1, 0), row_29(1, 0)] {
            let rows = [rows.clone(), vec![more]].concat();
            assert_eq!(line(&rows), "plan refused 4 260");
        }
    }
}

#[test]
fn a_cut_record_is_1_and_past_kind_8_is_2() {
    for (record, length) in [(frame_29(0, 5), 19), (row_29(0, 5), 13)] {
        for cut in 1..length {
            assert_eq!(line(&[record[..cut].to_vec()]), "plan refused 1 4");
        }
    }
    for kind in 9..=255 {
        assert_eq!(line(&[vec![kind; 20]]), "plan refused 2 4");
    }
}

#[test]
fn a_row_of_29_bits_has_signals_and_an_indicator() {
    let to = [tx_29(0, 7, 2, 1, 0, 0, 0, [0; 8])];
    let watched = |failure_position| rx_29(0, 7, 1, 1, 0, 0, 1, failure_position, 0);
    let after = |records: &[Vec<u8>]| line(&[to.to_vec(), records.to_vec()].concat());
    let all = |position, failure_position, at| {
        after(&[
            watched(failure_position),
            signal(position, 4),
            destination(0, at),
        ])
    };
    assert_eq!(all(4, 15, 0), "plan ok 3 1 1");
    assert_eq!(all(5, 15, 0), "plan refused 7 6");
    assert_eq!(all(4, 15, 13), "plan refused 7 7");
    assert_eq!(all(4, 3, 0), "plan refused 8 7");
    assert_eq!(all(4, 16, 0), "plan refused 9 7");
    // The missing follower names the row.
    assert_eq!(after(&[watched(15)]), "plan refused 9 5");
    assert_eq!(after(&[watched(15), row_29(0, 8)]), "plan refused 9 5");
    assert_eq!(after(&[watched(15), vec![8]]), "plan refused 9 5");
    assert_eq!(after(&[watched(15), vec![9]]), "plan refused 9 5");
    assert_eq!(after(&[watched(15), vec![5]]), "plan refused 1 6");
    let no_destination = [watched(15), signal(0, 4), frame_29(0, 5)];
    assert_eq!(after(&no_destination), "plan refused 9 5");
}

#[test]
fn the_order_of_the_tests() {
    let first = row_29(0, 5);
    // 5 before 6; 1 before 3, 5 and 6.
    let mut bad = row_29(0, 5);
    bad[6] = 9;
    assert_eq!(line(&[first.clone(), bad.clone()]), "plan refused 5 5");
    let cut = bad[..12].to_vec();
    assert_eq!(line(&[first.clone(), cut]), "plan refused 1 5");
    let cut = frame_29(9, 5)[..18].to_vec();
    assert_eq!(line(&[first.clone(), cut]), "plan refused 1 5");
    // 3 before 5.
    assert_eq!(line(&[first, frame_29(9, 5)]), "plan refused 3 5");
    // 4 before 5 and 6.
    let mut rows: Vec<Vec<u8>> = (0..256).map(|id| row_29(0, id)).collect();
    rows.push(bad);
    assert_eq!(line(&rows), "plan refused 4 260");
    // 5 although an 11-bit row, or one on a LIN node, would be 6.
    let on_lin = [row(2, 5), row_29(2, 4)];
    assert_eq!(line(&on_lin), "plan refused 5 5");
}
