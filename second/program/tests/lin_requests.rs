//! Requests: what the expiry of an Rx timer on a LIN node does, and takes.
//!
//! Ticket 2: "An Rx timer on such a node asks for the frame: expiry queues a
//! request, once while it waits; bit and long counter stay. A take answers a
//! request .. or a frame".

mod common;

use common::{
    destination, join, lines, no_response, response, rx, signal, take, tx, BIG, LIN_NODE, NODE,
    TICK,
};
use second::gateway::Gateway;
use second::id::Id;
use second::lin::enhanced_checksum;
use second::taken::{OnLin, Taken, TakenFrame, TakenRequest};

/// Node 0 is CAN, nodes 1 and 2 are LIN.
fn plan(records: &[Vec<u8>]) -> Vec<u8> {
    let nodes = join(&[BIG, NODE, LIN_NODE, LIN_NODE]);
    join(&[nodes, join(records)])
}

/// A row of two bytes whose timer expires once in so many ticks.
fn row(node: u8, id: u16, ticks: u8) -> Vec<u8> {
    rx(node, id, 2, 1, ticks, ticks, 0, 0, 0)
}

/// A Tx frame of one byte that falls due once in so many ticks.
fn frame(node: u8, id: u16, ticks: u8) -> Vec<u8> {
    tx(node, id, 1, 1, ticks, ticks, 0, [0; 8])
}

fn tick() -> Vec<u8> {
    TICK.to_vec()
}

/// The lines of these events, without that of the plan.
fn event_lines(records: &[Vec<u8>], events: &[Vec<u8>]) -> Vec<String> {
    lines(&plan(records), &join(events))[1..].to_vec()
}

#[test]
fn expiry_queues_a_request_and_reports_0() {
    let events = [tick(), take(1), tick(), take(1), take(1)];
    let expected = [
        "tick 0",
        "take none",
        "tick 0",
        "take request 0 17 2 0",
        "take none",
    ];
    assert_eq!(event_lines(&[row(1, 17, 2)], &events), expected);
}

#[test]
fn a_request_is_queued_once_while_it_waits() {
    let events = [tick(), tick(), tick(), take(1), take(1), tick(), take(1)];
    let expected = [
        "tick 0",
        "tick 0",
        "tick 0",
        "take request 0 17 2 0",
        "take none",
        "tick 0",
        "take request 0 17 2 0",
    ];
    assert_eq!(event_lines(&[row(1, 17, 1)], &events), expected);
}

#[test]
fn while_it_waits_the_timer_goes_on_and_reloads() {
    // Expiries at the third, the sixth and the ninth tick; the second one finds
    // the request waiting.
    let mut events = vec![tick(); 7];
    events.extend([take(1), tick(), take(1), tick(), take(1)]);
    let mut expected = vec!["tick 0"; 7];
    expected.extend(["take request 0 17 2 0", "tick 0", "take none"]);
    expected.extend(["tick 0", "take request 0 17 2 0"]);
    assert_eq!(event_lines(&[row(1, 17, 3)], &events), expected);
}

#[test]
fn a_stopped_timer_never_asks() {
    let events = [tick(), tick(), take(1)];
    let expected = ["tick 0", "tick 0", "take none"];
    assert_eq!(event_lines(&[row(1, 17, 0)], &events), expected);
    // An initial timer of 1 asks once and takes its reload value, 0.
    let once = rx(1, 17, 2, 1, 0, 1, 0, 0, 0);
    let events = [tick(), take(1), tick(), take(1)];
    let expected = ["tick 0", "take request 0 17 2 0", "tick 0", "take none"];
    assert_eq!(event_lines(&[once], &events), expected);
}

#[test]
fn requests_are_handled_by_the_prescaler() {
    for prescaler in [1, 2, 10, 20] {
        let row = rx(1, 17, 2, prescaler, 1, 1, 0, 0, 0);
        let mut gateway = Gateway::open(&plan(&[row])).expect("a good plan");
        for number in 0..200 {
            gateway.tick(&mut [9]).expect("a long enough report");
            let asks = gateway.take(1).expect("a node").is_some();
            assert_eq!(asks, number % usize::from(prescaler) == 0);
        }
    }
}

#[test]
fn requests_come_after_the_frames_that_expired_in_that_tick() {
    let records = [
        frame(1, 8, 1),
        frame(2, 9, 1),
        frame(1, 7, 1),
        row(1, 20, 1),
        row(1, 21, 1),
        row(2, 0, 1),
    ];
    let events = [tick(), take(1), take(1), take(1), take(1), take(2), take(2)];
    let expected = [
        "tick 0 0 0",
        "take 0 8 1 00 3",
        "take 2 7 1 00 2",
        "take request 0 20 2 1",
        "take request 1 21 2 0",
        "take 1 9 1 00 1",
        "take request 2 0 2 0",
    ];
    assert_eq!(event_lines(&records, &events), expected);
}

#[test]
fn a_queue_of_frames_and_requests_is_first_in_first_out() {
    // The request waits before the frame falls due.
    let records = [frame(1, 8, 2), row(1, 20, 1)];
    let events = [tick(), tick(), take(1), take(1), take(1)];
    let expected = [
        "tick 0",
        "tick 0",
        "take request 0 20 2 1",
        "take 0 8 1 00 0",
        "take none",
    ];
    assert_eq!(event_lines(&records, &events), expected);
}

#[test]
fn a_waiting_request_stays_when_a_response_comes_or_none_does() {
    let events = [
        tick(),
        response(1, 17, &[1, 2]),
        no_response(1, 17),
        take(1),
        take(1),
    ];
    let expected = [
        "tick 0",
        "rx 0",
        "silent 1",
        "take request 0 17 2 0",
        "take none",
    ];
    assert_eq!(event_lines(&[row(1, 17, 1)], &events), expected);
}

/// A frame with the failure bit of a row of long count 3.
fn watched() -> [Vec<u8>; 4] {
    [
        tx(0, 256, 2, 1, 1, 1, 0, [0; 8]),
        rx(1, 17, 1, 1, 1, 1, 1, 15, 3),
        signal(0, 8),
        destination(0, 0),
    ]
}

#[test]
fn a_request_leaves_the_failure_bit() {
    let events = [
        tick(),
        take(0),
        no_response(1, 17),
        tick(),
        take(0),
        response(1, 17, &[0xAB]),
        tick(),
        take(0),
    ];
    let expected = [
        "tick 0",
        "take 0 256 2 0000 0",
        "silent 1",
        "tick 0",
        "take 0 256 2 0001 0",
        "rx 0",
        "tick 0",
        "take 0 256 2 ab00 0",
    ];
    assert_eq!(event_lines(&watched(), &events), expected);
}

#[test]
fn a_request_leaves_the_long_counter() {
    let silent = || no_response(1, 17);
    let events = [silent(), tick(), take(1), silent(), tick(), silent()];
    let expected = [
        "silent 1",
        "tick 0",
        "take request 0 17 1 0",
        "silent 1",
        "tick 0",
        "silent 2",
    ];
    assert_eq!(event_lines(&watched(), &events), expected);
}

#[test]
fn rows_of_a_can_node_beside_it_time_out_as_before() {
    let records = [rx(0, 5, 1, 1, 1, 1, 0, 0, 2), row(1, 5, 1)];
    let events = [tick(), tick(), take(0), take(1)];
    let expected = ["tick 1 0", "tick 2 0", "take none", "take request 1 5 2 0"];
    assert_eq!(event_lines(&records, &events), expected);
}

/// Ticket 2: "a frame, with the protected identifier of LIN 2.x"; "A take of a
/// LIN Tx frame gives that of the payload it hands back."
#[test]
fn a_take_on_lin_carries_protected_identifier_and_checksum() {
    let records = [
        tx(1, 0x01, 2, 1, 1, 1, 0, [2, 3, 0, 0, 0, 0, 0, 0]),
        tx(0, 0x01, 2, 1, 1, 1, 0, [2, 3, 0, 0, 0, 0, 0, 0]),
        row(1, 0x02, 1),
        signal(0, 8),
        destination(0, 8),
    ];
    let mut gateway = Gateway::open(&plan(&records)).expect("a good plan");
    gateway.tick(&mut [9]).expect("a long enough report");
    // The payload is that of the take: byte 1 comes after the tick.
    let data = [0x55, 0x66];
    let checksum = enhanced_checksum(0x02, &data);
    gateway.response(1, 0x02, &data, checksum).expect("a row");
    let frame = |tx_frame, waiting, payload, on_lin| {
        Taken::Frame(TakenFrame {
            tx_frame,
            id: Id::Bits11(0x01),
            size: 2,
            waiting,
            payload,
            on_lin,
        })
    };
    let on_lin = OnLin {
        protected_identifier: 0xC1,
        // C1 + 02 + 55 = 118, folded 19, inverted E6.
        checksum: 0xE6,
    };
    let taken = frame(0, 1, vec![0x02, 0x55], Some(on_lin));
    assert_eq!(gateway.take(1), Ok(Some(taken)));
    let request = Taken::Request(TakenRequest {
        rx_frame: 0,
        id: 0x02,
        size: 2,
        waiting: 0,
        protected_identifier: 0x42,
    });
    assert_eq!(gateway.take(1), Ok(Some(request)));
    // A frame on a CAN node has neither.
    let taken = frame(1, 0, vec![0x02, 0x03], None);
    assert_eq!(gateway.take(0), Ok(Some(taken)));
}

#[test]
fn a_waiting_count_counts_frames_and_requests() {
    // 256 Tx frames and 60 requests on one node.
    let mut records = vec![frame(1, 5, 1); 256];
    records.extend((0..60).map(|id| row(1, id, 1)));
    let mut gateway = Gateway::open(&plan(&records)).expect("a good plan");
    gateway.tick(&mut [9; 60]).expect("a long enough report");
    for left in (0..316).rev() {
        let (is_frame, waiting) = match gateway.take(1) {
            Ok(Some(Taken::Frame(frame))) => (true, frame.waiting),
            Ok(Some(Taken::Request(request))) => (false, request.waiting),
            other => panic!("{other:?} with {left} left"),
        };
        assert_eq!((is_frame, waiting), (left >= 60, left));
    }
    assert_eq!(gateway.take(1), Ok(None));
}
