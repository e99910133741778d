//! IDs of both formats: their shapes meet every row, the table counts what was
//! met, and the sentences of Tickets 8 and 14 are looked for on them too.

mod common;

use common::{assert_met_by, case_of, cases, met_of, once, tally_of};
use compare::events::Events;
use compare::lines::{out_of_turn, too_old};
use compare::shapes::Shapes;
use compare::spec::{lin_node_record, node_record, Destination, Plan, Rx, Signal, Tx};
use compare::{format_calls, format_faults, format_places, format_plans, format_rows};
use second::id::Id;

const GREATEST: u32 = 536_870_911;

const DATA: [u8; 8] = [0x2C; 8];

#[test]
fn a_round_meets_the_rows_of_both_formats_by_its_own_shapes() {
    let mut rows = format_plans::rows();
    rows.extend(format_calls::rows());
    rows.extend(format_places::rows());
    rows.extend(format_rows::rows());
    assert_met_by(&["formats: ", "input: 29-bit reception cut"], &rows);
}

#[test]
fn a_round_meets_the_rows_of_refused_plans_by_its_own_shapes() {
    let starts = ["field: 29 bits, ", "order: ", "records: 29 bits, "];
    assert_met_by(&starts, &format_faults::rows());
}

#[test]
fn about_a_third_of_the_plans_have_both_formats() {
    let shapes = Shapes::all();
    let both = "plans of both formats, Tx and Rx frames";
    for seed in 0..5 {
        let tally = tally_of(cases(&shapes, seed, 0..shapes.count()));
        let share = tally.count(both) as f64 / tally.count("plan ok") as f64;
        assert!((0.3..0.4).contains(&share), "seed {seed}: {share}");
    }
}

fn wide(number: u32) -> Id {
    Id::Bits29(number)
}

/// So many CAN nodes and then LIN nodes, and these rows of one byte.
fn plan_of(nodes: usize, lin: usize, rows: &[(u8, Id)]) -> Plan {
    Plan {
        nodes,
        lin,
        rx: rows
            .iter()
            .map(|(node, id)| Rx::quiet(*node, *id, 1))
            .collect(),
        ..Plan::default()
    }
}

/// The rows of the list that are met by these events, by name.
fn met(rows: Vec<String>, plan: &Plan, add: impl Fn(&mut Events)) -> Vec<String> {
    let mut events = Events::new(plan);
    add(&mut events);
    let met = met_of(rows, &tally_of([case_of(plan, &events)]));
    met.into_iter().map(|(row, _)| row).collect()
}

#[test]
fn good_plans_are_counted() {
    let of = |rows: &[(u8, Id)]| met(format_plans::rows(), &plan_of(2, 0, rows), |_| {});
    assert_eq!(of(&[(0, 5.into()), (0, 6.into())]), Vec::<String>::new());
    for (number, how) in [(4, "lower"), (5, "equal"), (6, "higher")] {
        let row = format!("29-bit row after an 11-bit one, number {how}");
        assert!(of(&[(0, 5.into()), (0, wide(number))]).contains(&row));
        assert!(!of(&[(0, 5.into()), (1, wide(number))]).contains(&row));
    }
    let in_both = "a number in both formats, Rx frames of a node".to_string();
    assert!(of(&[(0, 5.into()), (0, wide(5))]).contains(&in_both));
    assert!(!of(&[(0, 5.into()), (1, wide(5))]).contains(&in_both));
    let next = ["11-bit row after a 29-bit one, next node"];
    assert_eq!(of(&[(0, wide(5)), (1, 5.into())]), next);
    let next = ["29-bit row on the next node, number equal"];
    assert_eq!(of(&[(0, wide(5)), (1, wide(5))]), next);
    let next = ["29-bit row on the next node, number lower"];
    assert_eq!(of(&[(0, wide(5)), (1, wide(4))]), next);
    let rising = [
        "29-bit row one above the row before",
        "29-bit rows that rise, low 11 bits do not",
        "29-bit rows that rise, low 16 bits do not",
    ];
    assert_eq!(of(&[(0, wide(0x1_FFFF)), (0, wide(0x2_0000))]), rising);
    let ends = ["Rx frames of ID e0", "Rx frames of ID e536870911"];
    let met = of(&[(0, wide(0)), (0, wide(GREATEST))]);
    assert!(ends.iter().all(|end| met.contains(&end.to_string())));
}

/// The rows of refused plans that these records meet, after nodes 0 and 1 of CAN
/// and node 2 of LIN.
fn refused(records: &[Vec<u8>]) -> Vec<(String, u64)> {
    let mut case = case_of(&Plan::default(), &Events::new(&Plan::default()));
    let nodes = [node_record(), node_record(), lin_node_record()].concat();
    let plan = [vec![1, 0], nodes, records.concat()].concat();
    case.input = (plan.len() as u16).to_be_bytes().to_vec();
    case.input.extend(plan);
    met_of(format_faults::rows(), &tally_of([case]))
}

fn frame(node: u8, number: u32, size: u8) -> Vec<u8> {
    Tx::quiet(node, wide(number), size).record()
}

fn row(node: u8, number: u32, size: u8) -> Vec<u8> {
    Rx::quiet(node, wide(number), size).record()
}

fn watched(number: u32) -> Vec<u8> {
    Rx::watched(0, wide(number), 1, 9).record()
}

#[test]
fn fields_past_their_ranges_are_counted() {
    let tx = |record: Vec<u8>| refused(&[record]);
    let of = |how: &str| once(&[&format!("5: 29-bit Tx frame, {how}")]);
    assert_eq!(tx(frame(3, 5, 1)), of("no such node"));
    assert_eq!(tx(frame(0, GREATEST + 1, 1)), of("ID 536870912"));
    assert_eq!(tx(frame(0, GREATEST + 2, 1)), of("ID above it with bit 29"));
    assert_eq!(tx(frame(0, 1 << 30, 1)), of("ID with bit 30"));
    assert_eq!(tx(frame(0, 1 << 31 | 5, 1)), of("ID with bit 31"));
    assert_eq!(tx(frame(0, u32::MAX, 1)), of("ID 4294967295"));
    assert_eq!(tx(frame(2, 59, 1)), of("LIN node, ID below 60"));
    assert_eq!(tx(frame(2, 60, 1)), of("LIN node, ID of 60 or more"));
    assert_eq!(tx(frame(0, 5, 9)), of("size"));
    // Of two fields neither is known to have decided.
    assert_eq!(tx(frame(3, 5, 9)), once(&[]));
    let mut bad = Rx::quiet(0, wide(5), 1);
    bad.long_count = 16;
    let how = "5: 29-bit Rx frame, long count";
    assert_eq!(refused(&[bad.record()]), once(&[how]));
}

#[test]
fn faults_of_the_order_are_counted() {
    let below = "6: 29-bit row below the one before";
    let rows = |before: Vec<u8>, after: Vec<u8>| refused(&[before, after]);
    assert_eq!(rows(row(0, 5, 1), row(0, 4, 1)), once(&[below]));
    let equal = "6: 29-bit row equal to the one before";
    assert_eq!(rows(row(0, 5, 1), row(0, 5, 1)), once(&[equal]));
    let narrow = |number: u16| Rx::quiet(0, number, 1).record();
    for (number, how) in [(4, "lower"), (5, "equal"), (6, "higher")] {
        let how = format!("6: 11-bit row after a 29-bit one, {how}");
        assert_eq!(rows(row(0, 5, 1), narrow(number)), once(&[&how]));
    }
    let node = "6: 29-bit row of a node before";
    assert_eq!(rows(row(1, 5, 1), row(0, 6, 1)), once(&[node]));
    let met = rows(row(0, 0x2_0000, 1), row(0, 0x1_FFFF, 1));
    let low = [
        below,
        "6: 29-bit row below, low 11 bits above",
        "6: 29-bit row below, low 16 bits above",
    ];
    assert_eq!(met, once(&low));
}

#[test]
fn two_faults_of_a_record_are_counted() {
    let both = |records: &[Vec<u8>], row: &str| {
        let met = refused(records);
        assert!(met.contains(&(row.to_string(), 1)), "{row}: {met:?}");
    };
    let cut = |record: Vec<u8>| record[..record.len() - 1].to_vec();
    both(&[cut(frame(3, 5, 1))], "1 before 5: 29-bit Tx frame");
    both(
        &[row(0, 5, 1), cut(frame(0, 5, 1))],
        "1 before 3: 29-bit Tx frame",
    );
    both(
        &[row(0, 5, 1), frame(3, 5, 1)],
        "3 before 5: 29-bit Tx frame",
    );
    both(&[row(0, 5, 1), row(0, 4, 9)], "5 before 6: 29-bit Rx frame");
    both(
        &[row(0, 5, 1), cut(row(0, 4, 1))],
        "1 before 6: 29-bit Rx frame",
    );
    both(&[watched(5), row(0, 4, 1)], "9 before 6: 29-bit Rx frame");
    both(&[watched(5), frame(0, 4, 1)], "9 before 3: 29-bit Tx frame");
    both(
        &[watched(5), vec![9]],
        "9 before 2: a 29-bit row without a follower",
    );
    let mut bad = watched(5);
    bad[6] = 9;
    let follower = "5 before a missing follower: 29-bit Rx frame";
    both(&[bad], follower);
    let many = vec![frame(0, 5, 1); 256].concat();
    both(
        &[many.clone(), frame(3, 5, 1)],
        "4 before 5: 29-bit Tx frame",
    );
    let narrow = Tx::quiet(0, 5, 1).record();
    let other = "4: 11-bit Tx frame after 256 of the other";
    both(&[many, narrow.clone()], other);
    let mixed = [vec![frame(0, 5, 1); 255].concat(), narrow];
    let mixed = [mixed.concat(), frame(0, 5, 1)];
    both(&mixed, "4: 29-bit Tx frame after both formats");
}

#[test]
fn what_is_refused_under_a_frame_is_counted() {
    let signal = |position, size| vec![5, position, size];
    let to = |tx: u8, position| vec![6, 0, tx, position];
    let of = |records: &[Vec<u8>]| refused(&[vec![frame(0, 7, 2)], records.to_vec()].concat());
    let past = "7: signal past the data of a 29-bit row";
    assert_eq!(of(&[row(0, 5, 1), signal(1, 8)]), once(&[past]));
    let past = "7: destination past the data of a 29-bit frame";
    let narrow = Rx::quiet(0, 5, 1).record();
    assert_eq!(of(&[narrow, signal(0, 8), to(0, 9)]), once(&[past]));
    let none = "7: no such Tx frame, from a 29-bit row";
    assert_eq!(of(&[row(0, 5, 1), signal(0, 8), to(1, 0)]), once(&[none]));
    let twice = "8: destination in a 29-bit frame";
    let records = [row(0, 5, 1), signal(0, 8), to(0, 0), to(0, 0)];
    assert_eq!(of(&records), once(&[twice]));
    let bit = "8: failure bit of a 29-bit row";
    assert_eq!(of(&[watched(5), signal(0, 8), to(0, 8)]), once(&[bit]));
    let no_signal = ["9: no signal, 29-bit row"];
    assert_eq!(of(&[watched(5)]), once(&no_signal));
    let no_destination = ["9: no destination, 29-bit row"];
    assert_eq!(of(&[watched(5), signal(0, 8)]), once(&no_destination));
}

/// The rows of receptions and takes that a reception meets, but for its length.
fn reception(plan: &Plan, node: u8, id: Id, length: u8) -> Vec<String> {
    let mut met = met(format_calls::rows(), plan, |events| {
        events.reception(node, id, length, DATA)
    });
    met.retain(|row| !row.starts_with("event 19 of length"));
    met
}

#[test]
fn receptions_of_one_number_are_counted() {
    let mut plan = plan_of(2, 0, &[(0, 7.into()), (0, wide(7)), (1, wide(9))]);
    plan.rx[1].size = 2;
    let both = |format: &str| format!("rx 0, {format}, rows of both formats");
    let short = |format: &str| format!("rx 0, {format}, too short for the other row");
    let of = |node, id: Id, length| reception(&plan, node, id, length);
    let narrow = Id::Bits11(7);
    assert_eq!(of(0, narrow, 1), [both("11 bits"), short("11 bits")]);
    assert_eq!(of(0, narrow, 2), [both("11 bits")]);
    let not_short = "rx 2, 29 bits, not too short for the other row";
    assert_eq!(of(0, wide(7), 1), [not_short, "event 19: 2"]);
    let size = "event 19: 0, of the size".to_string();
    assert_eq!(of(0, wide(7), 2), [both("29 bits"), size]);
    let other = "rx 1, 11 bits, a row of the other format";
    assert_eq!(of(1, Id::Bits11(9), 1), [other]);
    assert_eq!(of(0, Id::Bits11(9), 1), Vec::<String>::new());
    let low = [
        "rx 1, 29 bits, the low 11 of a 29-bit row",
        "rx 1, 29 bits, the low 16 of a 29-bit row",
        "rx 1, 29 bits, the low 28 of a 29-bit row",
    ];
    assert_eq!(of(1, wide(9 | 1 << 28), 1), low);
    let ends = of(1, wide(GREATEST), 1);
    assert_eq!(ends, ["rx 1 of e536870911"]);
}

#[test]
fn orders_of_tests_of_event_19_are_counted() {
    let plan = plan_of(2, 1, &[(0, wide(7)), (0, wide(9)), (1, 5.into())]);
    let of = |node, id: u32, length| reception(&plan, node, wide(id), length);
    let no_node = ["event 19: 12", "event 19: 12 before 16"];
    assert_eq!(of(2, 7, 1), no_node);
    let no_node = [
        "event 19: 12",
        "event 19: 12 before 13",
        "event 19: 12 before 16",
    ];
    assert_eq!(of(2, 7, 9), no_node);
    assert_eq!(of(1, 5, 9), ["event 19: 16 before 13"]);
    assert_eq!(of(1, 5, 1), ["event 19: 16, an 11-bit row that fits"]);
    assert_eq!(of(1, 5, 0), ["event 19: 16 before 2, an 11-bit row"]);
    assert_eq!(of(1, 6, 1), ["event 19: 16 before 1"]);
    let above = ["event 19: 16 before 1, bits above 28"];
    assert_eq!(of(1, 1 << 29, 1), above);
    assert_eq!(of(0, 7, 9), ["event 19: 13, a row that fits"]);
    assert_eq!(of(0, 8, 9), ["event 19: 13 before 1"]);
    let above = ["event 19: 13 before 1, bits above 28"];
    assert_eq!(of(0, 1 << 31, 9), above);
    assert_eq!(of(0, 7, 1), ["event 19: 0, of the size"]);
    assert_eq!(of(0, 7, 8), ["event 19: 0, longer than the size"]);
    for (length, row) in [(0, "0"), (12, "12"), (13, "above 12"), (255, "above 12")] {
        let row = format!("event 19 of length {row}");
        let met = met(format_calls::rows(), &plan, |events| {
            events.reception(0, wide(7), length, DATA)
        });
        assert!(met.contains(&row));
    }
}

#[test]
fn a_cut_event_19_is_counted_by_its_length() {
    let plan = plan_of(1, 0, &[]);
    let count = |lengths: &[usize]| {
        let case = |length: &usize| {
            let mut events = Events::new(&plan);
            events.reception(0, wide(7), 1, DATA);
            events.bytes.truncate(1 + length);
            case_of(&plan, &events)
        };
        tally_of(lengths.iter().map(case)).count(format_calls::CUT_EVENT.0)
    };
    assert_eq!(count(&[0, 0, 5, 13]), 3);
    assert_eq!(count(&[14]), 0);
    assert_eq!(count(&(0..14).collect::<Vec<usize>>()), 14);
}

#[test]
fn places_of_both_formats_are_counted() {
    let both = [(0, 10.into()), (0, 20.into()), (0, wide(5)), (0, wide(15))];
    let plan = plan_of(4, 0, &[&both[..], &[(1, 7.into()), (2, wide(7))]].concat());
    let of = |node, id: Id| {
        let met = met(format_places::rows(), &plan, |events| {
            events.reception(node, id, 1, DATA)
        });
        let mut sides = met.into_iter().filter(|row| row.starts_with("places, "));
        sides.next().unwrap_or_default()
    };
    let narrow = Id::Bits11;
    assert_eq!(of(0, narrow(9)), "places, 11 bits, rows of both, before");
    assert_eq!(of(0, narrow(15)), "places, 11 bits, rows of both, between");
    assert_eq!(of(0, narrow(21)), "places, 11 bits, rows of both, after");
    let past = "places, 11 bits, rows of both, past the range";
    assert_eq!(of(0, narrow(2048)), past);
    assert_eq!(of(0, wide(0)), "places, 29 bits, rows of both, before");
    assert_eq!(of(0, wide(10)), "places, 29 bits, rows of both, between");
    assert_eq!(of(0, wide(20)), "places, 29 bits, rows of both, after");
    let past = "places, 29 bits, rows of both, past the range";
    assert_eq!(of(0, wide(1 << 29)), past);
    assert_eq!(of(1, wide(7)), "places, 29 bits, 11-bit rows");
    assert_eq!(of(1, narrow(8)), "places, 11 bits, 11-bit rows, after");
    assert_eq!(of(2, narrow(7)), "places, 11 bits, 29-bit rows");
    assert_eq!(of(2, wide(6)), "places, 29 bits, 29-bit rows, before");
    assert_eq!(of(3, wide(6)), "places, 29 bits, no rows");
    let past = "places, 11 bits, no rows, past the range";
    assert_eq!(of(3, narrow(2048)), past);
}

#[test]
fn other_counts_are_told_from_the_place() {
    let both = [(0, 10.into()), (0, 20.into()), (0, wide(5)), (0, wide(15))];
    let plan = plan_of(1, 0, &both);
    let of = |id: Id| {
        let mut met = met(format_places::rows(), &plan, |events| {
            events.reception(0, id, 1, DATA)
        });
        met.retain(|row| row.starts_with("unlike "));
        met
    };
    let unlike = |what: &str, format: &str| format!("unlike {what}, {format}");
    let of_both = ["the smaller numbers of both", "29-bit rows counted first"];
    let other = "the place in the other format";
    let all = of_both.map(|what| unlike(what, "11 bits"));
    assert_eq!(
        of(Id::Bits11(9)).as_slice(),
        [all.as_slice(), &[unlike(other, "11 bits")]].concat()
    );
    // Place 2, as many as have smaller numbers.
    let first = [
        unlike(of_both[1], "29 bits"),
        unlike(other, "29 bits"),
        unlike("the 29-bit rows alone", "29 bits"),
    ];
    let met = of(wide(11));
    assert!(first.iter().all(|row| met.contains(row)));
    let low = unlike("the place of the low 29 bits", "29 bits");
    assert!(of(wide(1 << 30)).contains(&low) && !met.contains(&low));
    let sign = unlike("the place of the ID with a sign", "29 bits");
    assert!(of(wide(1 << 31)).contains(&sign) && !of(wide(1 << 30)).contains(&sign));
}

/// A source of 29 bits and one of 11 with the same number, whose failure bits
/// stand at 15 and 14 of a frame of 29 bits that is due at every tick; r times p
/// is 3.
fn sources() -> Plan {
    let source = |id: Id, position, failure_position| Rx {
        reload: 3,
        long_count: 2,
        signals: vec![Signal {
            position: 2,
            size: 4,
            destinations: vec![Destination { tx: 0, position }],
        }],
        ..Rx::watched(0, id, 1, failure_position)
    };
    Plan {
        nodes: 1,
        tx: vec![Tx {
            reload: 1,
            timer: 1,
            ..Tx::quiet(0, wide(256), 2)
        }],
        rx: vec![source(7.into(), 0, 14), source(wide(7), 6, 15)],
        ..Plan::default()
    }
}

#[test]
fn the_age_of_a_29_bit_source_is_looked_at() {
    let plan = sources();
    let is_too_old = |ticks: usize, line: &str| {
        let mut events = Events::new(&plan);
        events.reception(0, wide(7), 1, DATA);
        events.ticks(ticks);
        // One of the other format, which is no acceptance of the source.
        events.reception(0, 7, 1, DATA);
        events.take(0);
        let ticks = "tick 0 0\n".repeat(ticks);
        let lines = format!("plan ok 1 1 2\nrx 0\n{ticks}rx 0\n{line}\n");
        too_old(&plan.input(&events.bytes), lines.as_bytes())
    };
    assert_eq!(is_too_old(2, "take 0 e256 2 b2c0 0"), None);
    assert_eq!(is_too_old(3, "take 0 e256 2 b2c1 0"), None);
    let said = is_too_old(3, "take 0 e256 2 b2c0 0").unwrap_or_default();
    assert!(said.contains("Rx frame 1: failure bit 0 at 3 ticks"));
    let said = is_too_old(2, "take 0 e256 2 b280 0").unwrap_or_default();
    assert!(said.contains("Rx frame 1: failure bit 0, but bit 9 is not bit 5"));
}

#[test]
fn the_turn_of_a_29_bit_frame_is_looked_at() {
    let due = |id: Id, timer| Tx {
        reload: 9,
        timer,
        ..Tx::quiet(0, id, 0)
    };
    let plan = Plan {
        nodes: 1,
        tx: vec![due(wide(7), 1), due(7.into(), 2)],
        ..Plan::default()
    };
    let mut events = Events::new(&plan);
    events.ticks(2);
    events.take(0);
    events.take(0);
    let input = plan.input(&events.bytes);
    let said = |first: &str, second: &str| {
        let lines = format!("plan ok 1 2 0\ntick\ntick\n{first}\n{second}\n");
        out_of_turn(&input, lines.as_bytes())
    };
    let (wide, narrow) = ("take 0 e7 0 -", "take 1 7 0 -");
    assert_eq!(said(&format!("{wide} 1"), &format!("{narrow} 0")), None);
    let early = said(&format!("{narrow} 1"), &format!("{wide} 0")).unwrap_or_default();
    assert!(early.contains("Tx frame 0 joined before it"));
    let again = said(&format!("{wide} 1"), &format!("{wide} 0")).unwrap_or_default();
    assert!(again.starts_with("queue room, line 5: take 0 e7 0 - 0"));
}

/// An accepted 29-bit reception schedules, as one of 11 bits does.
#[test]
fn a_frame_that_event_19_schedules_is_known_to_wait() {
    let mut plan = sources();
    plan.tx[0].timer = 0;
    plan.tx[0].reload = 0;
    plan.tx[0].flags = 1;
    let mut events = Events::new(&plan);
    events.reception(0, wide(7), 1, DATA);
    events.take(0);
    let input = plan.input(&events.bytes);
    let said = |line: &str| {
        let lines = format!("plan ok 1 1 2\nrx 0\n{line}\n");
        out_of_turn(&input, lines.as_bytes())
    };
    assert_eq!(said("take 0 e256 2 02c0 0"), None);
    let none = said("take none").unwrap_or_default();
    assert!(none.contains("none, but Tx frame 0 waits"));
}

#[test]
fn the_rest_of_the_rules_are_counted() {
    let plan = sources();
    let of = |add: fn(&mut Events)| met(format_rows::rows(), &plan, add);
    let has = |met: &[String], row: &str| met.iter().any(|met| met == row);
    let around = of(|events| {
        events.reception(0, wide(7), 1, DATA);
        events.ticks(1);
        events.reception(0, 7, 1, DATA);
        events.ticks(1);
        events.take(0);
        events.ticks(1);
        events.take(0);
    });
    for row in [
        "copied from 29 to 29 bits",
        "copied from 11 to 29 bits",
        "failure bit set, 29-bit row",
        "short timeouts of a 29-bit row",
        "bit 0 at r p - 1 ticks, 29-bit source",
        "bit 1 at r p ticks, 29-bit source",
        "bit 1 when due despite its number in the other format",
        "sent by a timer of prescaler 1, 29 bits",
        "timeouts of prescaler 1, 29 bits",
        "full: a node of 29-bit frames",
    ] {
        assert!(has(&around, row), "{row}");
    }
    let cleared = of(|events| {
        events.reception(0, wide(7), 1, DATA);
        events.ticks(3);
        events.reception(0, 7, 1, DATA);
        events.ticks(3);
        events.reception(0, wide(7), 1, DATA);
        events.ticks(3);
        events.reception(0, wide(7), 1, DATA);
        events.ticks(6);
    });
    for row in [
        "failure bit cleared, 29-bit row",
        "bit kept, its number in the other format",
        "long timeouts of a 29-bit row",
        "restarts of a long counter, 29-bit row",
        "long timeouts after a restart, 29-bit row",
        "long timeouts despite its number in the other format",
    ] {
        assert!(has(&cleared, row), "{row}");
    }
    assert!(!has(&around, "failure bit cleared, 29-bit row"));
}
