//! Receptions and takes with 29-bit IDs.
//!
//! Ticket 6: "A reception and a take say which format; the bench puts `e` before
//! such an ID. ID 32 in one format is not ID 32 in the other. Within a node
//! 11-bit rows come before 29-bit ones, each in ascending order, and the place of
//! Ticket 4 counts in that order. Bench event kind 19 is such a reception,
//! four-byte ID."

mod common;

use common::{
    destination, join, lines, reception, reception_29, reception_29_of_length, rx, rx_29, signal,
    take, tx, tx_29, BIG, LIN_NODE, NODE, TICK,
};
use second::gateway::{Answer, Gateway};
use second::id::Id;
use second::taken::{Taken, TakenFrame};

const GREATEST: u32 = 536_870_911;

/// Nodes 0 and 1 are CAN, node 2 is LIN.
fn plan(records: &[Vec<u8>]) -> Vec<u8> {
    let nodes = join(&[BIG, NODE, NODE, LIN_NODE]);
    join(&[nodes, join(records)])
}

/// Rows of no bytes: of these nodes and IDs.
fn plan_of(rows: &[(u8, Id)]) -> Vec<u8> {
    let record = |row: &(u8, Id)| match *row {
        (node, Id::Bits11(id)) => rx(node, id, 0, 1, 0, 0, 0, 0, 0),
        (node, Id::Bits29(id)) => rx_29(node, id, 0, 1, 0, 0, 0, 0, 0),
    };
    plan(&rows.iter().map(record).collect::<Vec<Vec<u8>>>())
}

/// The lines of these events, without that of the plan.
fn event_lines(plan: &[u8], events: &[Vec<u8>]) -> Vec<String> {
    lines(plan, &join(events))[1..].to_vec()
}

fn of(node: u8, id: Id) -> Vec<u8> {
    match id {
        Id::Bits11(id) => reception(node, id, &[]),
        Id::Bits29(id) => reception_29(node, id, &[]),
    }
}

#[test]
fn one_number_in_two_formats_is_two_ids() {
    let both = [(0, Id::Bits11(32)), (0, Id::Bits29(32))];
    for (rows, expected) in [
        (&both[..], ["rx 0", "rx 0"]),
        (&both[..1], ["rx 0", "rx 1 1"]),
        (&both[1..], ["rx 1 0", "rx 0"]),
        (&[], ["rx 1 0", "rx 1 0"]),
    ] {
        let events = [Id::Bits11(32), Id::Bits29(32)].map(|id| of(0, id));
        assert_eq!(event_lines(&plan_of(rows), &events), expected);
    }
}

#[test]
fn a_take_says_which_format() {
    let plan = plan(&[
        tx(0, 32, 1, 1, 1, 1, 0, [7, 0, 0, 0, 0, 0, 0, 0]),
        tx_29(0, 32, 0, 1, 1, 1, 0, [0; 8]),
        tx_29(0, 0, 1, 1, 1, 1, 0, [8, 0, 0, 0, 0, 0, 0, 0]),
        tx_29(0, GREATEST, 0, 1, 1, 1, 0, [0; 8]),
        tx_29(0, 167_248_128, 8, 1, 1, 1, 0, [0xAB; 8]),
        tx(2, 32, 1, 1, 1, 1, 0, [9, 0, 0, 0, 0, 0, 0, 0]),
    ]);
    let mut events = vec![TICK.to_vec()];
    events.extend([0, 0, 0, 0, 0, 0, 2].map(take));
    let expected = [
        "tick",
        "take 0 32 1 07 4",
        "take 1 e32 0 - 3",
        "take 2 e0 1 08 2",
        "take 3 e536870911 0 - 1",
        "take 4 e167248128 8 abababababababab 0",
        "take none",
        "take 5 32 1 09 0",
    ];
    assert_eq!(event_lines(&plan, &events), expected);

    let mut gateway = Gateway::open(&plan).expect("a good plan");
    gateway.tick(&mut []).expect("a long enough report");
    gateway.take(0).expect("a node");
    let taken = Taken::Frame(TakenFrame {
        tx_frame: 1,
        id: Id::Bits29(32),
        size: 0,
        waiting: 3,
        payload: Vec::new(),
        on_lin: None,
    });
    assert_eq!(gateway.take(0), Ok(Some(taken)));
}

#[test]
fn the_place_counts_11_bit_rows_first() {
    let rows = [
        (0, Id::Bits11(10)),
        (0, Id::Bits11(20)),
        (0, Id::Bits29(5)),
        (0, Id::Bits29(15)),
        (0, Id::Bits29(GREATEST - 1)),
        (1, Id::Bits11(3)),
        (1, Id::Bits29(4)),
    ];
    let plan = plan_of(&rows);
    for (id, place) in [
        (Id::Bits11(9), 0),
        (Id::Bits11(15), 1),
        (Id::Bits11(21), 2),
        (Id::Bits11(2047), 2),
        // "An 11-bit ID above 2047: its place counts the 11-bit rows only."
        (Id::Bits11(2048), 2),
        (Id::Bits11(2048 + 10), 2),
        (Id::Bits11(u16::MAX), 2),
        (Id::Bits29(0), 2),
        (Id::Bits29(10), 3),
        (Id::Bits29(20), 4),
        (Id::Bits29(GREATEST), 5),
        // Bits above 28: all rows of the node.
        (Id::Bits29(GREATEST + 1), 5),
        (Id::Bits29(GREATEST + 1 + 5), 5),
        (Id::Bits29(1 << 30), 5),
        (Id::Bits29((1 << 31) + 15), 5),
        (Id::Bits29(u32::MAX), 5),
    ] {
        assert_eq!(
            event_lines(&plan, &[of(0, id)]),
            [format!("rx 1 {place}")],
            "{id}"
        );
    }
    assert_eq!(event_lines(&plan, &[of(1, Id::Bits11(4))]), ["rx 1 1"]);
    assert_eq!(event_lines(&plan, &[of(1, Id::Bits29(3))]), ["rx 1 1"]);
}

/// "its place in the plan sheet": a row of the stranger, put after so many of the
/// node's rows, makes a good plan, and elsewhere it does not.
#[test]
fn a_row_put_at_its_place_makes_a_good_plan() {
    let rows = [1, 5, 6].map(|id| (0, Id::Bits11(id)));
    let rows = [rows, [0, 5, 8].map(|id| (0, Id::Bits29(id)))].concat();
    let ids = (0..10).map(Id::Bits11).chain((0..10).map(Id::Bits29));
    for id in ids.filter(|id| !rows.contains(&(0, *id))) {
        let mut gateway = Gateway::open(&plan_of(&rows)).expect("a good plan");
        let Ok(Answer::NoMatchingRow { place }) = gateway.receive(0, id, &[]) else {
            panic!("{id} has a row");
        };
        for put_after in 0..=rows.len() {
            let mut with_it = rows.clone();
            with_it.insert(put_after, (0, id));
            let is_good = Gateway::open(&plan_of(&with_it)).is_ok();
            assert_eq!(is_good, put_after == place, "{id}");
        }
    }
}

#[test]
fn every_bit_of_an_id_counts() {
    for row in [0, 0x1555_5555, 0x0AAA_AAAA, GREATEST] {
        let plan = plan_of(&[(0, Id::Bits29(row))]);
        assert_eq!(event_lines(&plan, &[reception_29(0, row, &[])]), ["rx 0"]);
        for bit in 0..32 {
            let id = row ^ 1 << bit;
            let place = usize::from(id > row);
            let line = format!("rx 1 {place}");
            assert_eq!(event_lines(&plan, &[reception_29(0, id, &[])]), [line]);
        }
    }
}

#[test]
fn a_reception_of_29_bits_is_tested_like_one_of_11() {
    let plan = plan(&[
        rx_29(0, 7, 2, 1, 0, 0, 0, 0, 0),
        rx(2, 7, 2, 1, 0, 0, 0, 0, 0),
    ]);
    let line = |node, id, length| {
        let event = reception_29_of_length(node, id, length, [0; 8]);
        event_lines(&plan, &[event]).concat()
    };
    assert_eq!(line(0, 7, 2), "rx 0");
    assert_eq!(line(0, 7, 8), "rx 0");
    assert_eq!(line(0, 7, 1), "rx 2");
    assert_eq!(line(0, 7, 9), "rx refused 13");
    assert_eq!(line(0, 8, 9), "rx refused 13");
    assert_eq!(line(0, u32::MAX, 255), "rx refused 13");
    // 16 before 13, whatever the ID, and 12 before both.
    for id in [7, 8, 60, GREATEST, u32::MAX] {
        assert_eq!(line(2, id, 2), "rx refused 16");
        assert_eq!(line(2, id, 9), "rx refused 16");
        assert_eq!(line(3, id, 2), "rx refused 12");
        assert_eq!(line(3, id, 9), "rx refused 12");
    }
}

#[test]
fn a_cut_event_19_is_bad_input() {
    let whole = reception_29(0, 7, &[1]);
    assert_eq!(whole.len(), 15);
    for cut in 1..15 {
        let lines = event_lines(&plan_of(&[]), &[whole[..cut].to_vec()]);
        assert_eq!(lines, ["input bad"]);
    }
}

/// Document 01's listing, once more with the other format on both sides.
#[test]
fn a_source_and_its_frame_of_29_bits() {
    let plan = join(&[
        BIG.to_vec(),
        NODE.to_vec(),
        tx_29(0, 0x100, 2, 1, 3, 3, 2, [0; 8]),
        rx_29(0, 0x20, 1, 1, 2, 2, 1, 15, 2),
        signal(2, 4),
        destination(0, 6),
    ]);
    let data = reception_29(0, 0x20, &[0x2C]);
    let events = [
        take(0),
        data.clone(),
        take(0),
        TICK.to_vec(),
        TICK.to_vec(),
        TICK.to_vec(),
        take(0),
        TICK.to_vec(),
        data,
        take(0),
        reception_29(0, 0x21, &[0x2C]),
        reception_29(0, 0x20, &[]),
        reception(0, 0x20, &[0x2C]),
    ];
    let expected = [
        "take none",
        "rx 0",
        "take 0 e256 2 02c0 0",
        "tick 0",
        "tick 1",
        "tick 0",
        "take 0 e256 2 02c1 0",
        "tick 2",
        "rx 0",
        "take none",
        "rx 1 1",
        "rx 2",
        "rx 1 0",
    ];
    assert_eq!(event_lines(&plan, &events), expected);
}
