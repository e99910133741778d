//! Each plan refusal, and the order in which the tests are tried.

mod common;

use common::{
    destination, join, plan_line, quiet_rx, quiet_tx, rx, signal, tx, watched_rx, BIG, NODE,
};

/// Head, one node and one Tx frame of 2 bytes: records 0 to 2.
fn start() -> Vec<u8> {
    join(&[BIG.to_vec(), NODE.to_vec(), quiet_tx(2, 0)])
}

/// The line of `start` followed by these records, the first of them record 3.
fn after_start(records: &[Vec<u8>]) -> String {
    plan_line(&join(&[start(), join(records)]))
}

#[test]
fn refusal_1_for_a_cut_record() {
    for cut in 1..17 {
        let plan = join(&[BIG.to_vec(), NODE.to_vec(), quiet_tx(2, 0)[..cut].to_vec()]);
        assert_eq!(plan_line(&plan), "plan refused 1 2");
    }
    assert_eq!(plan_line(&[1]), "plan refused 1 0");
}

#[test]
fn refusal_2_for_an_unknown_kind_even_at_the_end() {
    for kind in [0, 9, 10, 255] {
        assert_eq!(plan_line(&[kind]), "plan refused 2 0");
        assert_eq!(after_start(&[vec![kind]]), "plan refused 2 3");
    }
}

#[test]
fn refusal_3_for_a_kind_out_of_place() {
    assert_eq!(plan_line(&NODE), "plan refused 3 0");
    assert_eq!(plan_line(&join(&[BIG, BIG])), "plan refused 3 1");
    assert_eq!(after_start(&[NODE.to_vec()]), "plan refused 3 3");
    assert_eq!(after_start(&[signal(0, 1)]), "plan refused 3 3");
    assert_eq!(after_start(&[destination(0, 0)]), "plan refused 3 3");
    let row = quiet_rx(1, 1);
    assert_eq!(
        after_start(&[row.clone(), destination(0, 0)]),
        "plan refused 3 4"
    );
    assert_eq!(after_start(&[row, quiet_tx(1, 0)]), "plan refused 3 4");
}

#[test]
fn refusal_4_for_each_count() {
    let nodes = |n: usize| join(&[BIG.to_vec(), join(&vec![NODE; n])]);
    assert_eq!(plan_line(&nodes(16)), "plan ok 16 0 0");
    assert_eq!(plan_line(&nodes(17)), "plan refused 4 17");

    let txs = |n: usize| join(&[nodes(1), join(&vec![quiet_tx(8, 0); n])]);
    assert_eq!(plan_line(&txs(256)), "plan ok 1 256 0");
    assert_eq!(plan_line(&txs(257)), "plan refused 4 258");

    let rows = |n: u16| {
        let rows: Vec<Vec<u8>> = (0..n).map(|id| quiet_rx(id, 8)).collect();
        join(&[nodes(1), join(&rows)])
    };
    assert_eq!(plan_line(&rows(256)), "plan ok 1 0 256");
    assert_eq!(plan_line(&rows(257)), "plan refused 4 258");

    let in_frame = |n: usize| join(&[rows(1), join(&vec![signal(3, 5); n])]);
    assert_eq!(plan_line(&in_frame(64)), "plan ok 1 0 1");
    assert_eq!(plan_line(&in_frame(65)), "plan refused 4 67");

    // 16 frames of 64 signals, then one more frame with one more signal.
    let full_frame = |id| join(&[quiet_rx(id, 8), join(&vec![signal(0, 1); 64])]);
    let frames: Vec<Vec<u8>> = (0..16).map(full_frame).collect();
    let all_signals = join(&[nodes(1), join(&frames), quiet_rx(16, 8)]);
    assert_eq!(plan_line(&all_signals), "plan ok 1 0 17");
    let one_more = join(&[all_signals, signal(0, 1)]);
    assert_eq!(plan_line(&one_more), "plan refused 4 1043");

    let for_signal = |n: u8| {
        let destinations: Vec<Vec<u8>> = (0..n).map(|q| destination(0, q)).collect();
        join(&[txs(1), quiet_rx(1, 1), signal(0, 1), join(&destinations)])
    };
    assert_eq!(plan_line(&for_signal(15)), "plan ok 1 1 1");
    assert_eq!(plan_line(&for_signal(16)), "plan refused 4 20");

    // 256 signals of 8 destinations, then one more signal and destination.
    let mut all_destinations = txs(256);
    for number in 0..256u16 {
        if number % 64 == 0 {
            all_destinations.extend(quiet_rx(number, 8));
        }
        all_destinations.extend(signal(0, 1));
        for position in 0..8 {
            all_destinations.extend(destination(number, position));
        }
    }
    all_destinations.extend(quiet_rx(300, 8));
    all_destinations.extend(signal(0, 1));
    assert_eq!(plan_line(&all_destinations), "plan ok 1 256 5");
    all_destinations.extend(destination(0, 8));
    assert_eq!(plan_line(&all_destinations), "plan refused 4 2568");
}

#[test]
fn refusal_5_for_each_field() {
    assert_eq!(plan_line(&[1, 2]), "plan refused 5 0");
    assert_eq!(plan_line(&[1, 0, 2, 2]), "plan refused 5 1");

    let tx_line = |record: Vec<u8>| plan_line(&join(&[BIG.to_vec(), NODE.to_vec(), record]));
    let refused = "plan refused 5 2";
    assert_eq!(
        tx_line(tx(0, 2047, 8, 20, 255, 255, 3, [255; 8])),
        "plan ok 1 1 0"
    );
    assert_eq!(tx_line(tx(1, 0, 0, 1, 0, 0, 0, [0; 8])), refused);
    assert_eq!(tx_line(tx(0, 2048, 0, 1, 0, 0, 0, [0; 8])), refused);
    assert_eq!(tx_line(tx(0, 0, 9, 1, 0, 0, 0, [0; 8])), refused);
    for prescaler in [0, 3, 9, 11, 19, 21, 255] {
        assert_eq!(tx_line(tx(0, 0, 0, prescaler, 0, 0, 0, [0; 8])), refused);
    }
    assert_eq!(tx_line(tx(0, 0, 0, 1, 0, 0, 4, [0; 8])), refused);
    let past = [0, 1, 0, 0, 0, 0, 0, 0];
    assert_eq!(tx_line(tx(0, 0, 1, 1, 0, 0, 0, past)), refused);
    assert_eq!(tx_line(tx(0, 0, 2, 1, 0, 0, 0, past)), "plan ok 1 1 0");

    let refused = "plan refused 5 3";
    assert_eq!(
        after_start(&[rx(0, 2047, 8, 20, 255, 255, 0, 63, 15)]),
        "plan ok 1 1 1"
    );
    assert_eq!(after_start(&[rx(1, 0, 0, 1, 0, 0, 0, 0, 0)]), refused);
    assert_eq!(after_start(&[rx(0, 2048, 0, 1, 0, 0, 0, 0, 0)]), refused);
    assert_eq!(after_start(&[rx(0, 0, 9, 1, 0, 0, 0, 0, 0)]), refused);
    assert_eq!(after_start(&[rx(0, 0, 0, 5, 0, 0, 0, 0, 0)]), refused);
    assert_eq!(after_start(&[rx(0, 0, 0, 1, 0, 0, 2, 0, 0)]), refused);
    assert_eq!(after_start(&[rx(0, 0, 0, 1, 0, 0, 0, 64, 0)]), refused);
    assert_eq!(after_start(&[rx(0, 0, 0, 1, 0, 0, 0, 0, 16)]), refused);

    let refused = "plan refused 5 4";
    let row = quiet_rx(1, 8);
    assert_eq!(after_start(&[row.clone(), signal(64, 1)]), refused);
    assert_eq!(after_start(&[row.clone(), signal(0, 0)]), refused);
    assert_eq!(after_start(&[row.clone(), signal(0, 65)]), refused);
    let line = after_start(&[row, signal(0, 1), destination(0, 64)]);
    assert_eq!(line, "plan refused 5 5");
}

#[test]
fn refusal_6_for_rows_that_do_not_rise() {
    assert_eq!(
        after_start(&[quiet_rx(5, 0), quiet_rx(5, 1)]),
        "plan refused 6 4"
    );
    assert_eq!(
        after_start(&[quiet_rx(5, 0), quiet_rx(4, 0)]),
        "plan refused 6 4"
    );
    assert_eq!(
        after_start(&[quiet_rx(5, 0), quiet_rx(6, 0)]),
        "plan ok 1 1 2"
    );
    let rows = [rx(1, 0, 0, 1, 0, 0, 0, 0, 0), rx(0, 9, 0, 1, 0, 0, 0, 0, 0)];
    let plan = join(&[BIG.to_vec(), NODE.to_vec(), NODE.to_vec(), join(&rows)]);
    assert_eq!(plan_line(&plan), "plan refused 6 4");
}

#[test]
fn refusal_7_for_data_passed_and_for_no_such_tx_frame() {
    let row = quiet_rx(1, 1);
    assert_eq!(after_start(&[row.clone(), signal(0, 8)]), "plan ok 1 1 1");
    assert_eq!(
        after_start(&[row.clone(), signal(1, 8)]),
        "plan refused 7 4"
    );
    let to = |tx_frame, position| {
        after_start(&[row.clone(), signal(0, 8), destination(tx_frame, position)])
    };
    assert_eq!(to(0, 8), "plan ok 1 1 1");
    assert_eq!(to(0, 9), "plan refused 7 5");
    assert_eq!(to(1, 0), "plan refused 7 5");
    assert_eq!(to(256, 0), "plan refused 7 5");
}

#[test]
fn refusal_8_for_two_owners() {
    let first = [quiet_rx(1, 1), signal(0, 4), destination(0, 4)];
    let second = |position| {
        let second = [signal(0, 4), destination(0, position)];
        after_start(&[join(&first), join(&second)])
    };
    assert_eq!(second(0), "plan ok 1 1 1");
    assert_eq!(second(1), "plan refused 8 7");
    assert_eq!(second(7), "plan refused 8 7");
    assert_eq!(second(8), "plan ok 1 1 1");
}

#[test]
fn refusal_8_for_the_failure_bit() {
    let watched = |failure_position, position| {
        after_start(&[
            watched_rx(1, 1, failure_position),
            signal(0, 4),
            destination(0, position),
        ])
    };
    assert_eq!(watched(4, 0), "plan ok 1 1 1");
    assert_eq!(watched(3, 0), "plan refused 8 5");
    // A later destination over the failure bit names that destination.
    let later = after_start(&[
        watched_rx(1, 1, 9),
        signal(0, 4),
        destination(0, 0),
        destination(0, 6),
    ]);
    assert_eq!(later, "plan refused 8 6");
}

#[test]
fn refusal_9_for_a_position_past_the_tx_data() {
    let watched = |failure_position| {
        let row = watched_rx(1, 1, failure_position);
        after_start(&[row, signal(0, 4), destination(0, 0)])
    };
    assert_eq!(watched(15), "plan ok 1 1 1");
    assert_eq!(watched(16), "plan refused 9 5");
    assert_eq!(watched(63), "plan refused 9 5");
}

#[test]
fn refusal_9_for_a_missing_follower_names_the_rx_frame() {
    let row = || watched_rx(1, 1, 9);
    let refused = "plan refused 9 3";
    // In place of the signal: the end, the next row, a bad kind, a cut record,
    // a kind that may not stand here.
    assert_eq!(after_start(&[row()]), refused);
    assert_eq!(after_start(&[row(), quiet_rx(2, 1)]), refused);
    assert_eq!(after_start(&[row(), vec![9]]), refused);
    assert_eq!(after_start(&[row(), vec![4, 0]]), refused);
    assert_eq!(after_start(&[row(), destination(0, 0)]), refused);
    assert_eq!(after_start(&[row(), BIG.to_vec()]), refused);
    // In place of the destination.
    assert_eq!(after_start(&[row(), signal(0, 4)]), refused);
    assert_eq!(after_start(&[row(), signal(0, 4), quiet_rx(2, 1)]), refused);
    assert_eq!(after_start(&[row(), signal(0, 4), signal(0, 4)]), refused);
    assert_eq!(after_start(&[row(), signal(0, 4), vec![0]]), refused);
    assert_eq!(after_start(&[row(), signal(0, 4), vec![3, 0]]), refused);
}

#[test]
fn followers_are_judged_by_kind_byte() {
    let row = || watched_rx(1, 1, 9);
    assert_eq!(after_start(&[row(), vec![5]]), "plan refused 1 4");
    assert_eq!(after_start(&[row(), signal(0, 0)]), "plan refused 5 4");
    assert_eq!(after_start(&[row(), signal(1, 8)]), "plan refused 7 4");
    assert_eq!(
        after_start(&[row(), signal(0, 4), vec![6]]),
        "plan refused 1 5"
    );
    let line = after_start(&[row(), signal(0, 4), destination(1, 0)]);
    assert_eq!(line, "plan refused 7 5");
}

#[test]
fn the_order_of_the_tests() {
    // 1 before 3, 3 before 5.
    assert_eq!(after_start(&[vec![2]]), "plan refused 1 3");
    assert_eq!(after_start(&[vec![2, 7]]), "plan refused 3 3");
    // 1 before 4, 3 before 4, 4 before 5.
    let sixteen = join(&[BIG.to_vec(), join(&[NODE; 16])]);
    let then = |rest: &[u8]| plan_line(&join(&[sixteen.as_slice(), rest]));
    assert_eq!(then(&[2]), "plan refused 1 17");
    assert_eq!(then(&[2, 9]), "plan refused 4 17");
    let tx_then_node = join(&[quiet_tx(1, 0), NODE.to_vec()]);
    assert_eq!(then(&tx_then_node), "plan refused 3 18");
    // 5 before 6.
    assert_eq!(
        after_start(&[quiet_rx(5, 0), quiet_rx(5, 9)]),
        "plan refused 5 4"
    );
    // 5 before 7.
    let row = quiet_rx(1, 1);
    assert_eq!(
        after_start(&[row.clone(), signal(64, 8)]),
        "plan refused 5 4"
    );
    let line = after_start(&[row.clone(), signal(0, 8), destination(7, 64)]);
    assert_eq!(line, "plan refused 5 5");
    // 7 before 8, for one destination.
    let twice = [row, signal(0, 8), destination(0, 8), destination(0, 9)];
    assert_eq!(after_start(&twice), "plan refused 7 6");
    // The destination's own 8 before the failure bit's 9.
    let line = after_start(&[
        quiet_rx(1, 1),
        signal(0, 8),
        destination(0, 0),
        watched_rx(2, 1, 63),
        signal(0, 8),
        destination(0, 7),
    ]);
    assert_eq!(line, "plan refused 8 8");
}
