//! The twelve cases of document 01, asked of this program.

mod common;

use common::{destination, input, join, lines, plan_line, signal, tx, BIG, LITTLE, NODE, TICK};
use second::gateway::Gateway;

/// Cases 1 to 4: byte 2C, position 2, size 4, to position 6 of two bytes.
fn copied(head: [u8; 2], kept: u8) -> String {
    let plan = join(&[
        head.to_vec(),
        NODE.to_vec(),
        tx(0, 1, 2, 1, 0, 0, 1, [kept, kept, 0, 0, 0, 0, 0, 0]),
        common::quiet_rx(2, 1),
        signal(2, 4),
        destination(0, 6),
    ]);
    let events = join(&[common::reception(0, 2, &[0x2C]), common::take(0)]);
    lines(&plan, &events)[2].clone()
}

#[test]
fn case_1_big_on_zeros() {
    assert_eq!(copied(BIG, 0x00), "take 0 1 2 02c0 0");
}

#[test]
fn case_2_little_on_zeros() {
    assert_eq!(copied(LITTLE, 0x00), "take 0 1 2 c002 0");
}

#[test]
fn case_3_big_on_ones() {
    assert_eq!(copied(BIG, 0xFF), "take 0 1 2 feff 0");
}

#[test]
fn case_4_little_on_ones() {
    assert_eq!(copied(LITTLE, 0xFF), "take 0 1 2 fffe 0");
}

#[test]
fn case_5_all_eight_bytes() {
    for head in [BIG, LITTLE] {
        let plan = join(&[
            head.to_vec(),
            NODE.to_vec(),
            common::quiet_tx(8, 2),
            common::quiet_rx(2, 8),
            signal(0, 64),
            destination(0, 0),
        ]);
        let payload = [0x01, 0x23, 0x45, 0x67, 0x89, 0xAB, 0xCD, 0xEF];
        let events = join(&[common::reception(0, 2, &payload), common::take(0)]);
        let expected = ["plan ok 1 1 1", "rx 0", "take 0 256 8 0123456789abcdef 0"];
        assert_eq!(lines(&plan, &events), expected);
    }
}

/// A gateway of a head alone after so many ticks.
fn counter_after(ticks: usize) -> u8 {
    let mut gateway = Gateway::open(&BIG).expect("a head alone is a plan");
    for _ in 0..ticks {
        gateway.tick(&mut []).expect("no Rx frame, no report");
    }
    gateway.tick_counter()
}

#[test]
fn case_6_counter_09_goes_to_10() {
    assert_eq!(counter_after(9), 0x09);
    assert_eq!(counter_after(10), 0x10);
}

#[test]
fn case_7_counter_f9_goes_to_00() {
    assert_eq!(counter_after(159), 0xF9);
    assert_eq!(counter_after(160), 0x00);
}

/// The ticks, numbered from 0, at which a timer that expires at each of its
/// handlings does so.
fn handled_ticks(prescaler: u8, ticks: usize) -> Vec<usize> {
    let plan = join(&[
        BIG.to_vec(),
        NODE.to_vec(),
        tx(0, 1, 0, prescaler, 1, 1, 0, [0; 8]),
    ]);
    let events = join(&vec![join(&[TICK.to_vec(), common::take(0)]); ticks]);
    let lines = lines(&plan, &events);
    (0..ticks)
        .filter(|tick| lines[2 + 2 * tick] == "take 0 1 0 - 0")
        .collect()
}

#[test]
fn case_8_prescaler_20() {
    let handled = handled_ticks(20, 200);
    assert_eq!(handled, [0, 20, 40, 60, 80, 100, 120, 140, 160, 180]);
}

#[test]
fn counter_and_mask_say_the_same_as_division() {
    for (prescaler, mask) in [(1, 0x00), (2, 0x01), (10, 0x0F), (20, 0x1F)] {
        let by_mask: Vec<usize> = (0..400).filter(|t| counter_after(*t) & mask == 0).collect();
        assert_eq!(handled_ticks(prescaler, 400), by_mask);
    }
}

#[test]
fn case_9_prescaler_10_and_5_loaded_between_ticks_3_and_4() {
    let plan = join(&[
        BIG.to_vec(),
        NODE.to_vec(),
        common::rx(0, 7, 0, 10, 5, 0, 0, 0, 0),
    ]);
    let events = join(&[
        join(&[TICK; 4]),
        common::reception(0, 7, &[]),
        join(&[TICK; 60]),
    ]);
    let lines = lines(&plan, &events);
    let reports: Vec<&String> = lines.iter().filter(|l| l.starts_with("tick")).collect();
    let expired: Vec<usize> = (0..64).filter(|t| reports[*t] == "tick 1").collect();
    assert_eq!(expired, [50]);
}

#[test]
fn case_10_position_60_in_8_bytes() {
    let start = join(&[BIG.to_vec(), NODE.to_vec(), common::quiet_rx(2, 8)]);
    assert_eq!(
        plan_line(&join(&[start.clone(), signal(60, 4)])),
        "plan ok 1 0 1"
    );
    assert_eq!(
        plan_line(&join(&[start, signal(60, 5)])),
        "plan refused 7 3"
    );
}

#[test]
fn case_11_rows() {
    let row = |node, id| common::rx(node, id, 0, 1, 0, 0, 0, 0, 0);
    let start = join(&[BIG, NODE, NODE]);
    let rising = join(&[start.clone(), row(0, 0x7FF), row(1, 0x000)]);
    assert_eq!(plan_line(&rising), "plan ok 2 0 2");
    let twice = join(&[start, row(0, 0x7FF), row(0, 0x7FF)]);
    assert_eq!(plan_line(&twice), "plan refused 6 4");
}

#[test]
fn case_12_empty_plan_and_head_alone() {
    assert_eq!(second::run(&input(&[], &[])), "plan refused 1 0\n");
    assert_eq!(second::run(&input(&BIG, &[])), "plan ok 0 0 0\n");
}
