//! The place of a stranger.
//!
//! Ticket 4: "A lookup that finds nothing should say how many of that node's
//! rows have a smaller ID. Answer 1 carries this number and the bench prints
//! `rx 1 PLACE`."

mod common;

use common::{
    destination, join, lines, quiet_rx, quiet_tx, reception, reception_of_length, rx, signal, take,
    tx, BIG, NODE, TICK,
};
use second::gateway::{Answer, Gateway};

/// A row's node and ID.
type Key = (u8, u16);

/// Three nodes and what follows them.
fn plan(records: &[Vec<u8>]) -> Vec<u8> {
    join(&[BIG.to_vec(), join(&[NODE; 3]), join(records)])
}

/// Three nodes and rows of these keys.
fn plan_of(keys: &[Key]) -> Vec<u8> {
    let rows = keys
        .iter()
        .map(|(node, id)| rx(*node, *id, 0, 1, 0, 0, 0, 0, 0));
    plan(&rows.collect::<Vec<Vec<u8>>>())
}

/// The lines of these events, without that of the plan.
fn event_lines(plan: &[u8], events: &[Vec<u8>]) -> Vec<String> {
    lines(plan, &join(events))[1..].to_vec()
}

/// Each of these IDs, received on the node, is answered `rx 1 PLACE`.
fn assert_place(keys: &[Key], node: u8, ids: impl IntoIterator<Item = u16>, place: usize) {
    for id in ids {
        let lines = event_lines(&plan_of(keys), &[reception(node, id, &[])]);
        assert_eq!(lines, [format!("rx 1 {place}")], "ID {id}");
    }
}

/// The place that the call answers.
fn place(gateway: &mut Gateway, (node, id): Key) -> usize {
    match gateway.receive(node, id, &[]) {
        Ok(Answer::NoMatchingRow { place }) => place,
        other => panic!("{other:?} for ID {id} on node {node}"),
    }
}

const ROWS: [Key; 3] = [(0, 10), (0, 20), (0, 30)];

#[test]
fn below_the_first_row_the_place_is_0() {
    assert_place(&ROWS, 0, 0..10, 0);
    assert_place(&[(0, 1)], 0, [0], 0);
    assert_place(&[(0, 2047)], 0, 0..2047, 0);
}

#[test]
fn between_two_rows_the_place_counts_those_below() {
    assert_place(&ROWS, 0, 11..20, 1);
    assert_place(&ROWS, 0, 21..30, 2);
    assert_place(&[(0, 0), (0, 2047)], 0, 1..2047, 1);
}

#[test]
fn above_the_last_row_the_place_counts_all() {
    assert_place(&ROWS, 0, 31..2048, 3);
    assert_place(&[(0, 0)], 0, [1, 2047], 1);
    assert_place(&[(0, 2046)], 0, [2047], 1);
}

#[test]
fn an_id_above_2047_is_above_every_row() {
    for key in [(0, 0), (0, 10), (0, 2047)] {
        assert_place(&[key], 0, [2048, 4095, 4096, 32767, 32768, 65535], 1);
    }
    // IDs whose low 11 bits are those of a row, or belong elsewhere.
    assert_place(&ROWS, 0, [2048 + 10, 2048 + 20, 4096 + 30, 2048 + 15], 3);
}

#[test]
fn a_node_without_rows_has_place_0_only() {
    let ids = [0, 1, 10, 15, 2047, 2048, 65535];
    assert_place(&[(0, 10), (2, 0), (2, 10)], 1, ids, 0);
    assert_place(&ROWS, 1, ids, 0);
    assert_place(&[(2, 10), (2, 20)], 0, ids, 0);
    assert_place(&[], 2, ids, 0);
}

#[test]
fn rows_of_other_nodes_are_not_counted() {
    let keys = [(0, 1), (0, 2), (0, 3), (1, 20), (1, 40), (2, 1), (2, 30)];
    assert_place(&keys, 0, [4, 20, 50, 2047], 3);
    assert_place(&keys, 1, [0, 1, 2, 10], 0);
    assert_place(&keys, 1, [21, 30, 39], 1);
    assert_place(&keys, 1, [41, 2047, 2048 + 20], 2);
    assert_place(&keys, 2, [0], 0);
    assert_place(&keys, 2, [2, 20], 1);
    assert_place(&keys, 2, [31, 40, 65535], 2);
}

#[test]
fn tx_frames_signals_and_destinations_are_not_counted() {
    let plan = plan(&[
        quiet_tx(8, 0),
        tx(0, 5, 8, 1, 0, 0, 0, [0; 8]),
        tx(0, 15, 8, 1, 0, 0, 0, [0; 8]),
        quiet_rx(10, 1),
        signal(0, 4),
        destination(0, 0),
        destination(1, 0),
        signal(4, 4),
        quiet_rx(20, 1),
    ]);
    let events = [5, 6, 15, 16, 0x100].map(|id| reception(0, id, &[]));
    let expected = ["rx 1 0", "rx 1 0", "rx 1 1", "rx 1 1", "rx 1 2"];
    assert_eq!(event_lines(&plan, &events), expected);
}

#[test]
fn answers_0_and_2_and_refusals_carry_no_place() {
    let plan = plan(&[quiet_rx(10, 1), quiet_rx(20, 1)]);
    let events = [
        reception(0, 20, &[1]),
        reception(0, 20, &[]),
        reception(0, 15, &[]),
        reception_of_length(0, 15, 9, [0; 8]),
        reception(3, 15, &[]),
    ];
    let expected = ["rx 0", "rx 2", "rx 1 1", "rx refused 13", "rx refused 12"];
    assert_eq!(event_lines(&plan, &events), expected);
}

#[test]
fn the_place_is_the_same_for_every_length_and_whatever_came_before() {
    let plan = plan(&[
        tx(0, 7, 1, 1, 2, 2, 1, [0; 8]),
        rx(0, 10, 1, 1, 1, 1, 0, 0, 2),
        signal(0, 8),
        destination(0, 0),
        rx(0, 20, 1, 1, 1, 1, 0, 0, 2),
    ]);
    let before = [
        (reception(0, 10, &[1]), "rx 0"),
        (reception(0, 20, &[1]), "rx 0"),
        (reception(0, 20, &[]), "rx 2"),
        (reception(0, 5, &[]), "rx 1 0"),
        (TICK.to_vec(), "tick 1 1"),
        (TICK.to_vec(), "tick 2 2"),
        (take(0), "take 0 7 1 01 0"),
        (take(1), "take none"),
        (take(3), "take refused 12"),
    ];
    let mut events = Vec::new();
    let mut expected = Vec::new();
    for (length, (event, line)) in (0..).zip(before) {
        events.extend([event, reception_of_length(0, 15, length, [7; 8])]);
        expected.extend([line, "rx 1 1"]);
    }
    assert_eq!(event_lines(&plan, &events), expected);
}

#[test]
fn a_node_of_256_rows_has_places_0_to_256() {
    for node in 0..3 {
        // IDs 1, 3, 5, .., 511: each even ID up to 512 belongs beside them.
        let keys = (0..256).map(|number| (node, 2 * number + 1));
        let plan = plan_of(&keys.collect::<Vec<Key>>());
        let events = (0..=256).map(|number| reception(node, 2 * number, &[]));
        let expected = (0..=256).map(|place| format!("rx 1 {place}"));
        let lines = event_lines(&plan, &events.collect::<Vec<Vec<u8>>>());
        assert_eq!(lines, expected.collect::<Vec<String>>());
        let above = event_lines(&plan, &[reception(node, 2048, &[])]);
        assert_eq!(above, ["rx 1 256"]);
    }
}

/// "we want its place in the plan sheet": a row of the stranger, put after so
/// many of the node's rows, makes a good plan, and put elsewhere among them it
/// does not.
#[test]
fn a_row_put_at_its_place_makes_a_good_plan() {
    let ids: [&[u16]; 3] = [&[0, 3, 4, 9, 2047], &[], &[2, 3, 5, 6, 7, 20]];
    let of_node = |node: u8| ids[usize::from(node)].iter().map(move |id| (node, *id));
    let keys: Vec<Key> = (0..3).flat_map(of_node).collect();
    let mut gateway = Gateway::open(&plan_of(&keys)).expect("a good plan");
    for node in 0..3 {
        let first = keys.iter().filter(|key| key.0 < node).count();
        let strangers = (0..=2047).map(|id| (node, id));
        for stranger in strangers.filter(|key| !keys.contains(key)) {
            let place = place(&mut gateway, stranger);
            for put_after in 0..=of_node(node).count() {
                let mut with_it = keys.clone();
                with_it.insert(first + put_after, stranger);
                let is_good = Gateway::open(&plan_of(&with_it)).is_ok();
                assert_eq!(is_good, put_after == place, "{stranger:?}");
            }
        }
    }
}
