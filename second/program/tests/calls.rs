//! The calls: answers, refusals and what they change.

mod common;

use common::{
    destination, join, lines, quiet_rx, quiet_tx, reception, reception_of_length, rx, signal, take,
    tx, BIG, NODE, TICK,
};
use second::gateway::{Answer, Gateway};
use second::refusal::Refusal;

fn head_and_nodes(nodes: usize) -> Vec<u8> {
    join(&[BIG.to_vec(), join(&vec![NODE; nodes])])
}

/// One node, a Tx frame of one byte, a row that copies its byte there.
fn one_byte(tx_record: Vec<u8>) -> Vec<u8> {
    join(&[
        head_and_nodes(1),
        tx_record,
        quiet_rx(5, 1),
        signal(0, 8),
        destination(0, 0),
    ])
}

#[test]
fn refusal_12_then_13() {
    let plan = one_byte(quiet_tx(1, 1));
    let events = join(&[
        reception(1, 5, &[1]),
        reception_of_length(1, 5, 9, [0; 8]),
        reception_of_length(0, 5, 9, [0; 8]),
        reception_of_length(0, 9999, 255, [0; 8]),
        reception(255, 5, &[1]),
        take(1),
        take(0),
    ]);
    let expected = [
        "plan ok 1 1 1",
        "rx refused 12",
        "rx refused 12",
        "rx refused 13",
        "rx refused 13",
        "rx refused 12",
        "take refused 12",
        "take none",
    ];
    assert_eq!(lines(&plan, &events), expected);
}

#[test]
fn refusal_14_and_the_further_bytes_of_a_report() {
    let plan = join(&[head_and_nodes(1), rx(0, 5, 0, 1, 2, 1, 0, 0, 0)]);
    let mut gateway = Gateway::open(&plan).expect("a good plan");
    assert_eq!(gateway.tick(&mut []), Err(Refusal::ReportTooShort));
    assert_eq!(Refusal::ReportTooShort.number(), 14);
    // The refused tick wrote nothing: the timer still holds 1.
    let mut report = [9, 9];
    assert_eq!(gateway.tick(&mut report), Ok(()));
    assert_eq!(report, [1, 9]);
    // The timer took 2 and now falls to 1.
    let mut report = [9, 9];
    assert_eq!(gateway.tick(&mut report), Ok(()));
    assert_eq!(report, [0, 9]);
}

#[test]
fn refusal_15_and_fullness() {
    let plan = join(&[
        head_and_nodes(1),
        quiet_tx(8, 0),
        quiet_tx(1, 0),
        common::watched_rx(5, 1, 63),
        signal(0, 3),
        destination(0, 0),
        destination(0, 7),
    ]);
    let gateway = Gateway::open(&plan).expect("a good plan");
    assert_eq!(gateway.fullness(0), Ok(7));
    assert_eq!(gateway.fullness(1), Ok(0));
    assert_eq!(gateway.fullness(2), Err(Refusal::NoSuchTxFrame));
    assert_eq!(Refusal::NoSuchTxFrame.number(), 15);
}

#[test]
fn a_reception_looks_at_its_own_node_only() {
    let plan = join(&[
        head_and_nodes(2),
        quiet_rx(0x20, 0),
        rx(1, 0x21, 0, 1, 0, 0, 0, 0, 0),
    ]);
    let no_row = |place| Ok(Answer::NoMatchingRow { place });
    let mut gateway = Gateway::open(&plan).expect("a good plan");
    assert_eq!(gateway.receive(0, 0x20, &[]), Ok(Answer::Accepted));
    assert_eq!(gateway.receive(1, 0x20, &[]), no_row(0));
    assert_eq!(gateway.receive(1, 0x21, &[]), Ok(Answer::Accepted));
    assert_eq!(gateway.receive(0, 0x820, &[]), no_row(1));
}

#[test]
fn a_longer_payload_is_accepted_and_a_shorter_one_changes_nothing() {
    let plan = one_byte(quiet_tx(1, 1));
    let events = join(&[
        reception(0, 5, &[]),
        take(0),
        reception(0, 5, &[0xAB, 0xCD, 0xEF]),
        take(0),
    ]);
    let expected = [
        "plan ok 1 1 1",
        "rx 2",
        "take none",
        "rx 0",
        "take 0 256 1 ab 0",
    ];
    assert_eq!(lines(&plan, &events), expected);
}

#[test]
fn send_on_change_needs_a_change_of_the_destination_bits() {
    let plan = one_byte(quiet_tx(1, 2));
    let events = join(&[
        reception(0, 5, &[0]),
        take(0),
        reception(0, 5, &[1]),
        take(0),
        reception(0, 5, &[1]),
        take(0),
    ]);
    let expected = [
        "plan ok 1 1 1",
        "rx 0",
        "take none",
        "rx 0",
        "take 0 256 1 01 0",
        "rx 0",
        "take none",
    ];
    assert_eq!(lines(&plan, &events), expected);
}

#[test]
fn a_take_hands_out_the_payload_kept_at_that_moment() {
    let plan = one_byte(quiet_tx(1, 1));
    let events = join(&[
        reception(0, 5, &[1]),
        reception(0, 5, &[2]),
        take(0),
        take(0),
    ]);
    let expected = [
        "plan ok 1 1 1",
        "rx 0",
        "rx 0",
        "take 0 256 1 02 0",
        "take none",
    ];
    assert_eq!(lines(&plan, &events), expected);
}

#[test]
fn scheduling_reloads_the_tx_timer_only_if_the_frame_did_not_wait() {
    // Period 3. The frame joins the queue before the first tick (timer 3), and
    // a second reception after tick 1 finds it waiting and leaves the timer.
    let plan = one_byte(tx(0, 9, 1, 1, 3, 1, 1, [0; 8]));
    let events = join(&[
        reception(0, 5, &[1]),
        TICK.to_vec(),
        TICK.to_vec(),
        reception(0, 5, &[2]),
        take(0),
        TICK.to_vec(),
        take(0),
    ]);
    let expected = [
        "plan ok 1 1 1",
        "rx 0",
        "tick 0",
        "tick 0",
        "rx 0",
        "take 0 9 1 02 0",
        "tick 0",
        "take 0 9 1 02 0",
    ];
    assert_eq!(lines(&plan, &events), expected);
}

#[test]
fn a_queue_is_first_in_first_out_and_counts_those_that_still_wait() {
    let timers = |timer| tx(0, timer, 0, 1, 0, timer as u8, 0, [0; 8]);
    let plan = join(&[head_and_nodes(1), timers(2), timers(1), timers(1)]);
    let tick = TICK.to_vec();
    let events = join(&[tick.clone(), tick, take(0), take(0), take(0), take(0)]);
    let expected = [
        "plan ok 1 3 0",
        "tick",
        "tick",
        "take 1 1 0 - 2",
        "take 2 1 0 - 1",
        "take 0 2 0 - 0",
        "take none",
    ];
    assert_eq!(lines(&plan, &events), expected);
}
