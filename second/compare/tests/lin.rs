//! LIN nodes: their shapes meet every row, and the table counts what was met.

mod common;

use common::{assert_met_by, case_of, met_of, once, tally_of, Add};
use compare::events::{right_checksum, Events};
use compare::lines::too_old;
use compare::spec::{lin_node_record, node_record, Destination, Plan, Rx, Signal, Tx};
use compare::tally::{ages, lin_long_counters};
use compare::{checksums, lin_orders, lin_plans, lin_rows};

#[test]
fn a_round_meets_the_rows_of_lin_nodes_by_its_own_shapes() {
    let mut rows = lin_orders::rows();
    rows.extend(checksums::rows());
    rows.extend(lin_rows::rows());
    rows.extend(lin_long_counters());
    rows.extend(lin_plans::good_rows());
    let of_lin_sources = ages().into_iter();
    rows.extend(of_lin_sources.filter(|row| row.starts_with("LIN source, ")));
    assert_met_by(&["lin: "], &rows);
}

#[test]
fn a_round_meets_the_rows_of_refused_plans_by_its_own_shapes() {
    let starts = ["field: LIN ", "field: type ", "order: ", "records: LIN, "];
    assert_met_by(&starts, &lin_plans::refused_rows());
}

const DATA: [u8; 8] = [0x2C; 8];

/// A CAN node with row 7, and a LIN node with rows 7 and 9, of two bytes each.
/// LIN row 7 asks at every third tick.
fn plan() -> Plan {
    let mut asking = Rx::quiet(1, 7, 2);
    asking.timer = 3;
    asking.reload = 3;
    Plan {
        nodes: 2,
        lin: 1,
        tx: vec![Tx::quiet(1, 5, 2)],
        rx: vec![Rx::quiet(0, 7, 2), asking, Rx::quiet(1, 9, 2)],
        ..Plan::default()
    }
}

/// The rows of the list that are met by these events.
fn met(rows: Vec<String>, plan: &Plan, add: impl Fn(&mut Events)) -> Vec<(String, u64)> {
    let mut events = Events::new(plan);
    add(&mut events);
    met_of(rows, &tally_of([case_of(plan, &events)]))
}

/// The rows of the calls that are met.
fn calls(add: impl Fn(&mut Events)) -> Vec<(String, u64)> {
    met(lin_orders::rows(), &plan(), add)
}

fn right(id: u16, length: u8) -> u8 {
    right_checksum(id, length, &DATA)
}

#[test]
fn orders_of_tests_of_a_response_are_counted() {
    let response = |node, id, length, checksum| {
        let met = calls(|e| e.response(node, id, length, DATA, checksum));
        let rows = met.into_iter().map(|(row, _)| row);
        let rows = rows.filter(|row| !row.starts_with("responses of length"));
        rows.collect::<Vec<String>>()
    };
    assert_eq!(response(1, 7, 2, right(7, 2)), ["response: 0, of the size"]);
    let longer = ["response: 0, longer than the size"];
    assert_eq!(response(1, 7, 5, right(7, 5)), longer);
    assert_eq!(response(1, 7, 2, right(7, 2) ^ 1), ["response: 3"]);
    let too_short = ["response: 2, right checksum"];
    assert_eq!(response(1, 7, 1, right(7, 1)), too_short);
    let both = ["response: 2 before 3"];
    assert_eq!(response(1, 7, 1, right(7, 1) ^ 1), both);
    let too_long = ["response: 13, right checksum"];
    assert_eq!(response(1, 7, 9, right(7, 9)), too_long);
    let both = ["response: 13 before 3"];
    assert_eq!(response(1, 7, 9, right(7, 9) ^ 1), both);
    assert_eq!(response(2, 7, 2, 0), ["response: 12 before 16"]);
    let both = ["response: 12 before 16", "response: 12 before 13"];
    assert_eq!(response(2, 7, 9, 0), both);
    assert_eq!(
        response(1, 8, 9, 0),
        [
            "response: 16 before 13, no such row",
            "response: 16, no such row"
        ]
    );
    let row = ["response: 16, a CAN node with that row"];
    assert_eq!(response(0, 7, 2, 0), row);
    let row = ["response: 16, a CAN node without it"];
    assert_eq!(response(0, 9, 2, 0), row);
    let low_bits = [
        "response: 16, an ID above 59",
        "response: 16, the low 6 bits of a row",
    ];
    assert_eq!(response(1, 2048 + 7, 2, 0), low_bits);
    // 7 is 47 protected.
    let protected = [
        "response: 16, an ID above 59",
        "response: 16, the low 6 bits of a row",
        "response: 16, the protected identifier of a row",
    ];
    assert_eq!(response(1, 0x47, 2, 0), protected);
}

#[test]
fn lengths_of_responses_are_counted() {
    for (length, row) in [(0, "0"), (12, "12"), (13, "above 12"), (255, "above 12")] {
        let row = format!("responses of length {row}");
        let met = calls(|e| e.response(2, 7, length, DATA, 0));
        assert!(met.contains(&(row, 1)));
    }
}

#[test]
fn orders_of_tests_of_a_reception_are_counted() {
    let reception = |node, id, length| calls(|e| e.reception(node, id, length, DATA));
    assert_eq!(reception(2, 7, 9), once(&["reception: 12 before 16"]));
    assert_eq!(reception(1, 7, 9), once(&["reception: 16 before 13"]));
    assert_eq!(reception(1, 8, 1), once(&["reception: 16 before 1"]));
    assert_eq!(reception(1, 7, 1), once(&["reception: 16 before 2"]));
    let fits = ["reception: 16, a row that fits"];
    assert_eq!(reception(1, 7, 2), once(&fits));
    assert_eq!(reception(0, 7, 2), once(&[]));
}

#[test]
fn orders_of_tests_of_no_response_are_counted() {
    let silent = |node, id| calls(|e| e.no_response(node, id));
    assert_eq!(silent(1, 7), once(&["no response: 1"]));
    assert_eq!(silent(2, 7), once(&["no response: 12 before 16"]));
    let row = ["no response: 16, a CAN node with that row"];
    assert_eq!(silent(0, 7), once(&row));
    assert_eq!(silent(1, 8), once(&["no response: 16, no such row"]));
    assert_eq!(silent(1, 60), once(&["no response: 16, an ID above 59"]));
}

#[test]
fn other_checksums_are_counted() {
    let met = |checksum| {
        met(checksums::rows(), &plan(), |e| {
            e.response(1, 9, 2, DATA, checksum)
        })
    };
    // 9 is 49 protected: 49 + 2C + 2C = A1, inverted 5E.
    assert_eq!(right(9, 2), 0x5E);
    let rows = |checksum| {
        let rows = met(checksum).into_iter().map(|(row, _)| row);
        rows.filter(|row| row.starts_with("rx 3"))
            .collect::<Vec<_>>()
    };
    assert_eq!(rows(!0x58), ["rx 3, classic checksum"]);
    assert_eq!(rows(!0x61), ["rx 3, checksum of the plain ID"]);
    assert_eq!(rows(0xA1), ["rx 3, checksum not inverted"]);
    assert_eq!(rows(0x00), ["rx 3, checksum 0"]);
    assert_eq!(rows(0x5E), Vec::<String>::new());
    let unlike = met(0x5E);
    let without_carries = "rx 0 unlike the checksum without carries".to_string();
    assert!(unlike.contains(&("rx 0 unlike the classic checksum".to_string(), 1)));
    assert!(!unlike.contains(&(without_carries, 1)));
}

/// The rows of the requests that are met.
fn requests(plan: &Plan, add: impl Fn(&mut Events)) -> Vec<String> {
    let met = met(lin_rows::rows(), plan, add);
    met.into_iter().map(|(row, _)| row).collect()
}

fn has(met: &[String], row: &str) -> bool {
    met.iter().any(|met| met == row)
}

#[test]
fn what_comes_while_a_timer_is_under_way_is_counted() {
    let plan = plan();
    let others: [(&str, Add); 6] = [
        ("rx 0", |e| e.response(1, 7, 2, DATA, right(7, 2))),
        ("rx 2", |e| e.response(1, 7, 1, DATA, right(7, 1))),
        ("rx 3", |e| e.response(1, 7, 2, DATA, right(7, 2) ^ 1)),
        ("rx refused 13", |e| e.response(1, 7, 9, DATA, 0)),
        ("rx refused 16", |e| e.reception(1, 7, 2, DATA)),
        ("silent", |e| e.no_response(1, 7)),
    ];
    for (what, add) in others {
        let when_due = format!("requests when due despite {what}");
        let around = |before, after| {
            requests(&plan, |events| {
                events.ticks(before);
                add(events);
                events.ticks(after);
            })
        };
        assert!(has(&around(1, 2), &when_due));
        assert!(has(&around(2, 1), &when_due));
        // At the reload value a load changes nothing; not yet expired.
        assert!(!has(&around(0, 3), &when_due));
        assert!(!has(&around(3, 3), &when_due));
        assert!(!has(&around(1, 1), &when_due));

        let stayed = format!("requests taken despite {what}");
        let while_waiting = |ticks| {
            requests(&plan, |events| {
                events.ticks(ticks);
                add(events);
                events.ticks(3 - ticks);
                events.take(1);
            })
        };
        assert!(has(&while_waiting(3), &stayed));
        assert!(!has(&while_waiting(2), &stayed));
    }
}

#[test]
fn requests_and_their_takes_are_counted() {
    let plan = plan();
    let met = requests(&plan, |events| events.ticks(2));
    assert_eq!(met, Vec::<String>::new());
    let met = requests(&plan, |events| events.ticks(3));
    assert_eq!(met, ["requests by a timer of prescaler 1"]);
    let met = requests(&plan, |events| events.ticks(6));
    let twice = "expiries while the request waits";
    assert_eq!(met, [twice, "requests by a timer of prescaler 1"]);
    let met = requests(&plan, |events| {
        events.ticks(4);
        events.take(1);
        events.ticks(2);
    });
    assert!(has(&met, "requests again after their take"));
    assert!(has(&met, "requests when due despite their take"));
    assert!(has(&met, "takes of a request of 2 bytes"));
    assert!(!has(&met, twice));
}

#[test]
fn the_order_in_a_queue_is_counted() {
    let rows_of = |frame_timer, row_timers: [u8; 2]| {
        let mut plan = plan();
        plan.tx[0].timer = frame_timer;
        plan.rx[1].timer = row_timers[0];
        plan.rx[2].timer = row_timers[1];
        requests(&plan, |events| {
            events.ticks(3);
            events.take(1);
        })
    };
    let after_frames = "requests after frames of one tick";
    let several = "requests of one tick in number order";
    let behind_frame = "requests behind an older frame";
    let behind_request = "frames behind an older request";
    let frame_first = "takes of a frame before a request";
    let request_first = "takes of a request before a frame";
    let all = [
        after_frames,
        several,
        behind_frame,
        behind_request,
        frame_first,
        request_first,
    ];
    let met = |frame_timer, row_timers| {
        let met = rows_of(frame_timer, row_timers);
        let rows = all.into_iter().filter(|row| has(&met, row));
        rows.collect::<Vec<&str>>()
    };
    assert_eq!(met(1, [1, 0]), [after_frames, frame_first]);
    assert_eq!(met(0, [1, 1]), [several]);
    assert_eq!(met(1, [2, 0]), [behind_frame, frame_first]);
    assert_eq!(met(2, [1, 0]), [behind_request, request_first]);
    assert_eq!(
        met(2, [1, 3]),
        [behind_frame, behind_request, request_first]
    );
}

/// The rows of refused plans that these records meet.
fn refused(records: &[&[u8]]) -> Vec<(String, u64)> {
    let mut case = case_of(&Plan::default(), &Events::new(&Plan::default()));
    let mut plan = vec![1, 0];
    plan.extend(records.concat());
    case.input = (plan.len() as u16).to_be_bytes().to_vec();
    case.input.extend(plan);
    met_of(lin_plans::refused_rows(), &tally_of([case]))
}

#[test]
fn faults_of_nodes_are_counted() {
    let (can, lin) = (&node_record()[..], &lin_node_record()[..]);
    assert_eq!(
        refused(&[lin, can]),
        once(&["3: CAN node after a LIN node"])
    );
    assert_eq!(
        refused(&[lin, &[2, 2]]),
        once(&["5: type after a LIN node"])
    );
    assert_eq!(
        refused(&[&[2, 2], lin]),
        once(&["5: type before a LIN node"])
    );
    assert_eq!(refused(&[can, &[2, 2], can]), once(&[]));
    let row = "1 before 3: node after a LIN node";
    assert_eq!(refused(&[lin, &[2]]), once(&[row]));
    assert_eq!(refused(&[can, &[2]]), once(&[]));
    let sixteen = lin.repeat(16);
    let both = [
        "3: CAN node after a LIN node",
        "3 before 4: CAN node after a LIN node",
    ];
    assert_eq!(refused(&[&sixteen, can]), once(&both));
    let both = "4 before 5: type after a LIN node";
    assert_eq!(refused(&[&sixteen, &[2, 9]]), once(&[both]));
    assert_eq!(refused(&[&sixteen, lin]), once(&["4: LIN node"]));
}

#[test]
fn faults_of_frames_are_counted() {
    let nodes = [node_record(), lin_node_record()].concat();
    let frame = |record: Vec<u8>| refused(&[&nodes, &record]);
    let tx = |node, id, size| frame(Tx::quiet(node, id, size).record());
    let rx = |node, id, size| frame(Rx::quiet(node, id, size).record());
    assert_eq!(tx(1, 5, 0), once(&["5: LIN Tx frame, size 0"]));
    assert_eq!(rx(1, 5, 9), once(&["5: LIN Rx frame, size above 8"]));
    assert_eq!(tx(1, 60, 1), once(&["5: LIN Tx frame, ID 60 to 63"]));
    assert_eq!(rx(1, 2047, 1), once(&["5: LIN Rx frame, ID 64 to 2047"]));
    assert_eq!(rx(1, 2048, 1), once(&["5: LIN Rx frame, ID above 2047"]));
    assert_eq!(tx(0, 2048, 9), once(&[]));
    let cut = Tx::quiet(1, 60, 1).record()[..9].to_vec();
    assert_eq!(frame(cut), once(&["1 before 5: LIN Tx frame"]));
    let row = Rx::quiet(1, 5, 1).record();
    let twice = [row.clone(), row.clone()].concat();
    assert_eq!(frame(twice), once(&["6: LIN Rx frame"]));
    let falling = [row.clone(), Rx::quiet(1, 4, 0).record()].concat();
    let both = ["5: LIN Rx frame, size 0", "5 before 6: LIN Rx frame"];
    assert_eq!(frame(falling), once(&both));
    let missing = [
        Rx::watched(1, 5, 1, 0).record(),
        Rx::quiet(1, 6, 0).record(),
    ];
    assert_eq!(frame(missing.concat()), once(&["9 before 5: LIN Rx frame"]));
    let out_of_place = [row, Tx::quiet(1, 60, 1).record()].concat();
    assert_eq!(frame(out_of_place), once(&["3 before 5: LIN Tx frame"]));
}

/// A source on CAN node 0 or LIN node 1 with its failure bit at 15 of a frame on
/// node 0 that is due at every tick; r times p is 6.
fn source_on(node: u8) -> Plan {
    let signal = Signal {
        position: 2,
        size: 4,
        destinations: vec![Destination { tx: 0, position: 6 }],
    };
    Plan {
        nodes: 2,
        lin: 1,
        tx: vec![Tx {
            reload: 1,
            timer: 1,
            ..Tx::quiet(0, 256, 2)
        }],
        rx: vec![Rx {
            prescaler: 2,
            reload: 3,
            signals: vec![signal],
            ..Rx::watched(node, 7, 1, 15)
        }],
        ..Plan::default()
    }
}

/// Ticket 8's sentence is "For a CAN source".
#[test]
fn nothing_is_said_of_a_lin_source() {
    let is_too_old = |node, ticks| {
        let plan = source_on(node);
        let mut events = Events::new(&plan);
        events.received(node, 7, 1, DATA);
        events.ticks(ticks);
        events.take(0);
        let ticks = "tick 0\n".repeat(ticks);
        let lines = format!("plan ok 2 1 1\nrx 0\n{ticks}take 0 256 2 02c0 0\n");
        too_old(&plan.input(&events.bytes), lines.as_bytes()).is_some()
    };
    assert!(!is_too_old(0, 5) && is_too_old(0, 6));
    assert!(!is_too_old(1, 5) && !is_too_old(1, 6) && !is_too_old(1, 60));
}

#[test]
fn the_ages_of_a_lin_source_are_counted() {
    let plan = source_on(1);
    let met = |ticks, is_silent| {
        met(ages(), &plan, |events| {
            events.received(1, 7, 1, DATA);
            events.ticks(ticks);
            if is_silent {
                events.no_response(1, 7);
            }
            events.take(0);
        })
    };
    let before = ["LIN source, bit 0 before r p ticks"];
    assert_eq!(met(5, false), once(&before));
    let at = ["LIN source, bit 0 at r p ticks or more"];
    assert_eq!(met(6, false), once(&at));
    let silent = ["LIN source, bit 1 before r p ticks"];
    assert_eq!(met(5, true), once(&silent));
    assert_eq!(met(6, true), once(&[]));
}

/// The rows of the long counters that are met by silences around an event, for a
/// LIN row of long count 3 beside another.
fn silences(before: usize, add: Add, after: usize) -> Vec<(String, u64)> {
    let mut plan = plan();
    plan.rx[1].long_count = 3;
    met(lin_long_counters(), &plan, |events| {
        for _ in 0..before {
            events.no_response(1, 7);
        }
        add(events);
        for _ in 0..after {
            events.no_response(1, 7);
        }
    })
}

#[test]
fn long_timeouts_on_lin_are_counted() {
    let others: [(&str, Add); 9] = [
        ("a tick", |e| e.ticks(1)),
        ("rx 0 of another row", |e| {
            e.response(1, 9, 2, DATA, right(9, 2))
        }),
        ("rx 2", |e| e.response(1, 7, 1, DATA, right(7, 1))),
        ("rx 3", |e| e.response(1, 7, 2, DATA, right(7, 2) ^ 1)),
        ("rx refused 12", |e| e.response(2, 7, 2, DATA, right(7, 2))),
        ("rx refused 13", |e| e.response(1, 7, 9, DATA, 0)),
        ("rx refused 16", |e| e.reception(1, 7, 2, DATA)),
        ("silent refused 12", |e| e.no_response(2, 7)),
        ("silent refused 16", |e| e.no_response(1, 8)),
    ];
    for (what, add) in others {
        let row = format!("long timeouts despite {what}, LIN");
        assert_eq!(silences(1, add, 2), once(&[&row]));
        assert_eq!(silences(2, add, 1), once(&[&row]));
        assert_eq!(silences(0, add, 3), once(&[]), "{what}");
        assert_eq!(silences(1, add, 1), once(&[]), "{what}");
    }
    let accepted: Add = |e| e.response(1, 7, 2, DATA, right(7, 2));
    let restart = "restarts of a long counter under way, LIN";
    let put_off = "long timeouts put off by a restart, LIN";
    let after = "long timeouts after a restart, long count 3, LIN";
    assert_eq!(silences(1, accepted, 3), once(&[restart, put_off, after]));
    assert_eq!(silences(0, accepted, 3), once(&[]));
    // Three ticks queue a request, and each is a tick.
    let rows = [
        "long timeouts despite a tick, LIN",
        "long timeouts despite a request, LIN",
    ];
    assert_eq!(silences(1, |e| e.ticks(3), 2), once(&rows));
}
