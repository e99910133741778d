//! The generator and the table: every row is met, cases can be made again from
//! their seeds, and the second program answers every input without a panic.

mod common;

use std::collections::BTreeSet;

use common::{assert_met_by, case_of, cases, met_of, once, tally_of, Add, OTHERS};
use compare::events::Events;
use compare::rng::Rng;
use compare::shapes::{Shapes, CASES, MOST_SHAPES};
use compare::spec::{Destination, Plan, Rx, Signal, Tx};
use compare::tally::{long_counters, places, Tally, COPIED, PLACES, SIDES};

#[test]
fn two_thousand_cases_meet_every_row_for_any_seed() {
    let shapes = Shapes::all();
    for seed in [0, 1, 2, 3, 77, 1_000_003, u64::MAX] {
        let tally = tally_of(cases(&shapes, seed, 0..CASES as usize));
        assert_eq!(tally.never_met(), Vec::<String>::new(), "seed {seed}");
    }
}

#[test]
fn a_round_copies_from_and_to_every_position_and_size() {
    let shapes = Shapes::all();
    let pairs = (1..=64).map(|size| 65 - size).sum();
    for seed in [0, 1, u64::MAX] {
        let tally = tally_of(cases(&shapes, seed, 0..shapes.count()));
        for [from, to, _] in COPIED {
            assert_eq!(tally.count(from), pairs, "seed {seed}: {from}");
            assert_eq!(tally.count(to), pairs, "seed {seed}: {to}");
        }
    }
}

/// A row of two bytes: a signal with a destination at its own offset and two
/// at others, and a signal without destinations.
fn three_destinations() -> Plan {
    let to = |position| Destination { tx: 0, position };
    let signal = |position, destinations| Signal {
        position,
        size: 5,
        destinations,
    };
    let mut row = Rx::quiet(0, 7, 2);
    row.signals = vec![
        signal(2, vec![to(10), to(17), to(24)]),
        signal(3, Vec::new()),
    ];
    Plan {
        order: 1,
        nodes: 1,
        tx: vec![Tx::quiet(0, 0, 8)],
        rx: vec![row],
        ..Plan::default()
    }
}

#[test]
fn pairs_count_once_and_where_a_reception_is_accepted() {
    let plan = three_destinations();
    let of_length = |length| {
        let mut events = Events::new(&plan);
        events.reception(0, 7, length, [1; 8]);
        events.reception(0, 7, length, [2; 8]);
        tally_of([case_of(&plan, &events)])
    };
    let counts = |tally: &Tally| COPIED.map(|rows| rows.map(|row| tally.count(row)));
    assert_eq!(counts(&of_length(1)), [[0; 3]; 2]);
    assert_eq!(counts(&of_length(2)), [[0; 3], [1, 3, 2]]);
    let mut tally = Tally::new();
    tally.add(&of_length(2));
    tally.add(&of_length(8));
    assert_eq!(counts(&tally), [[0; 3], [1, 3, 2]]);
    // One pair of all is not enough; of the last row it is.
    let never_met = tally.never_met();
    let [from, to, to_another_offset] = COPIED[1].map(String::from);
    assert!(never_met.contains(&from) && never_met.contains(&to));
    assert!(!never_met.contains(&to_another_offset));
}

#[test]
fn a_round_meets_the_rows_of_the_long_counters_by_its_own_shapes() {
    assert_met_by(&["restarts: "], &long_counters());
}

#[test]
fn a_round_meets_the_rows_of_the_places_by_its_own_shapes() {
    assert_met_by(&["places: "], &places());
}

/// A row of one byte that expires once in so many ticks.
fn expiring(reload: u8, long_count: u8) -> Rx {
    Rx {
        reload,
        timer: reload,
        long_count,
        ..Rx::quiet(0, 7, 1)
    }
}

const ACCEPTED: Add = |events| events.reception(0, 7, 1, [0; 8]);

/// The rows of the long counters that are met, with their counts, by ticks, the
/// added event and ticks, on a plan of this row and a stopped one.
fn met_around(row: Rx, before: usize, add: Add, after: usize) -> Vec<(String, u64)> {
    let plan = Plan {
        nodes: 1,
        rx: vec![row, Rx::quiet(0, 9, 1)],
        ..Plan::default()
    };
    let mut events = Events::new(&plan);
    events.ticks(before);
    add(&mut events);
    events.ticks(after);
    met_of(long_counters(), &tally_of([case_of(&plan, &events)]))
}

#[test]
fn restarts_and_what_they_put_off_are_counted() {
    let restart = "restarts of a long counter under way";
    let put_off = "long timeouts put off by a restart";
    let after_restart = "long timeouts after a restart, long count 3";
    let met = |before, after| met_around(expiring(1, 3), before, ACCEPTED, after);
    assert_eq!(met(1, 1), once(&[restart]));
    assert_eq!(met(1, 2), once(&[restart, put_off]));
    assert_eq!(met(1, 3), once(&[restart, put_off, after_restart]));
    assert_eq!(met(2, 1), once(&[restart, put_off]));
    // The counter is at its long count, so that there is nothing to restart.
    assert_eq!(met(0, 3), once(&[]));
    assert_eq!(met(3, 3), once(&[]));
}

#[test]
fn timeouts_of_long_counts_without_restarts_are_counted() {
    for long_count in [0, 1] {
        let met = |before, after| met_around(expiring(1, long_count), before, ACCEPTED, after);
        let row = format!("timeouts after rx 0, long count {long_count}");
        assert_eq!(met(2, 0), once(&[]));
        assert_eq!(met(2, 1), once(&[&row]));
    }
}

#[test]
fn long_timeouts_that_come_when_due_are_counted() {
    for (what, add) in OTHERS {
        let met = |before, after| met_around(expiring(1, 3), before, add, after);
        let row = format!("long timeouts despite {what}");
        assert_eq!(met(1, 2), once(&[&row]));
        assert_eq!(met(2, 1), once(&[&row]));
        // Not yet long; before the first expiry; after the last one.
        assert_eq!(met(1, 1), once(&[]), "{what}");
        assert_eq!(met(0, 3), once(&[]), "{what}");
        assert_eq!(met(3, 2), once(&[]), "{what}");
    }
    let row = "long timeouts despite a tick without an expiry";
    let met = |ticks| met_around(expiring(2, 2), ticks, |_| {}, 0);
    assert_eq!(met(3), once(&[]));
    assert_eq!(met(4), once(&[row]));
}

/// Node 0 has a Tx frame of ID 3 and rows 5 and 8, node 1 nothing, and node 2
/// row 6.
fn two_rows_none_and_one() -> Plan {
    Plan {
        nodes: 3,
        tx: vec![Tx::quiet(0, 3, 1)],
        rx: [(0, 5), (0, 8), (2, 6)]
            .map(|(node, id)| Rx::quiet(node, id, 1))
            .to_vec(),
        ..Plan::default()
    }
}

/// The rows of the places that receptions of this ID and of these lengths meet.
fn met_by(plan: &Plan, node: u8, id: u16, lengths: &[u8]) -> Vec<(String, u64)> {
    let mut events = Events::new(plan);
    for length in lengths {
        events.reception(node, id, *length, [0; 8]);
    }
    met_of(places(), &tally_of([case_of(plan, &events)]))
}

#[test]
fn the_sides_of_strangers_are_counted() {
    let plan = two_rows_none_and_one();
    let met = |node, id| met_by(&plan, node, id, &[1]);
    let [of_few_rows, _, sides] = PLACES.map(|(row, _)| row);
    let before = [
        "places before the node's rows",
        "places one below a row's ID",
        "places unlike the greater IDs of the node",
        "places unlike the smaller IDs of Tx frames",
        of_few_rows,
        sides,
    ];
    assert_eq!(met(0, 4), once(&before));
    let between = [
        "places between the node's rows",
        "places one below a row's ID",
        "places unlike the smaller IDs of all nodes",
        of_few_rows,
        sides,
    ];
    assert_eq!(met(0, 7), once(&between));
    let after = [
        "places after the node's rows",
        "places one above a row's ID",
        "places unlike the place in the whole plan",
        "places unlike the smaller IDs of all nodes",
        "places unlike the greater IDs of the node",
        "places unlike the smaller IDs of Tx frames",
        of_few_rows,
        sides,
    ];
    assert_eq!(met(2, 7), once(&after));
    let without_rows = [
        "places on a node without rows",
        "places unlike the place in the whole plan",
        "places unlike the smaller IDs of all nodes",
        of_few_rows,
    ];
    assert_eq!(met(1, 7), once(&without_rows));
}

#[test]
fn strangers_above_2047_are_counted() {
    let plan = two_rows_none_and_one();
    let met = |node, id| met_by(&plan, node, id, &[1]);
    let low_bits_elsewhere = [
        "places of an ID above 2047, with rows",
        "places unlike the smaller IDs of all nodes",
        "places unlike the greater IDs of the node",
        "places unlike the place of the low 11 bits",
        "places unlike the smaller IDs of Tx frames",
    ];
    assert_eq!(met(0, 2048 + 7), once(&low_bits_elsewhere));
    let negative = [
        "places of an ID above 2047, with rows",
        "places unlike the smaller IDs of all nodes",
        "places unlike the greater IDs of the node",
        "places unlike the place of the ID with a sign",
        "places unlike the smaller IDs of Tx frames",
    ];
    assert_eq!(met(0, u16::MAX), once(&negative));
    let without_rows = [
        "places of an ID above 2047, without rows",
        "places unlike the place in the whole plan",
        "places unlike the smaller IDs of all nodes",
    ];
    assert_eq!(met(1, 2048), once(&without_rows));
}

#[test]
fn places_of_no_rows_and_of_256_are_counted() {
    let [of_few_rows, of_256_rows, sides] = PLACES.map(|(row, _)| row);
    let mut plan = Plan {
        nodes: 1,
        ..Plan::default()
    };
    let no_rows = ["places in a plan without rows", of_few_rows];
    assert_eq!(met_by(&plan, 0, 7, &[1]), once(&no_rows));
    plan.rx = (0..256).map(|id| Rx::quiet(0, id, 1)).collect();
    let rows = [
        "places after the node's rows",
        "places above 255",
        "places unlike the greater IDs of the node",
        "places unlike the smaller IDs of Tx frames",
        of_256_rows,
        sides,
    ];
    assert_eq!(met_by(&plan, 0, 300, &[1]), once(&rows));
}

#[test]
fn a_pair_of_places_counts_once() {
    let plan = two_rows_none_and_one();
    let met = met_by(&plan, 0, 7, &[0, 1, 8]);
    let has_pairs = |row: &str| PLACES.iter().any(|(of_pairs, _)| *of_pairs == row);
    for (row, count) in met {
        assert_eq!(count, if has_pairs(&row) { 1 } else { 3 }, "{row}");
    }
}

#[test]
fn only_strangers_have_places() {
    let plan = two_rows_none_and_one();
    // Accepted, too short, too long; the last also where no row is.
    assert_eq!(met_by(&plan, 0, 8, &[1, 8, 0, 9]), once(&[]));
    assert_eq!(met_by(&plan, 0, 7, &[9]), once(&[]));
    assert_eq!(met_by(&plan, 3, 7, &[1]), once(&[]));
}

#[test]
fn every_shape_comes_at_least_twice_in_two_thousand_cases() {
    let shapes = Shapes::all();
    assert!(shapes.count() < MOST_SHAPES);
    assert!(2 * shapes.count() as u64 <= CASES);
    let mut names = BTreeSet::new();
    for index in 0..shapes.count() as u64 {
        names.insert(shapes.case(shapes.case_seed(5, index)).shape);
    }
    // Special shapes come once in a round, ordinary ones more often.
    assert!(names.len() > shapes.count() / 2);
}

#[test]
fn a_case_is_made_again_from_its_seed() {
    let shapes = Shapes::all();
    let mut seeds = BTreeSet::new();
    let mut inputs = BTreeSet::new();
    for index in 0..1000 {
        let case = shapes.case(shapes.case_seed(9, index));
        assert_eq!(case.input, Shapes::all().case(case.seed).input);
        seeds.insert(case.seed);
        inputs.insert(case.input);
    }
    assert_eq!(seeds.len(), 1000);
    // A few shapes, such as the empty input, have only one input.
    assert!(inputs.len() > 950);
}

/// How many lines of the output are this line or begin with it and a space.
fn lines_of(outputs: &[String], start: &str) -> u64 {
    let with_space = format!("{start} ");
    let lines = outputs.iter().flat_map(|output| output.lines());
    lines
        .filter(|line| *line == start || line.starts_with(&with_space))
        .count() as u64
}

#[test]
fn the_table_counts_what_the_lines_say() {
    let shapes = Shapes::all();
    let mut tally = Tally::new();
    let mut outputs = Vec::new();
    for index in 0..CASES {
        let case = shapes.case(shapes.case_seed(4, index));
        tally.observe(&case);
        outputs.push(second::run(&case.input));
    }
    let mut rows = vec!["plan ok", "take none", "rx 0", "rx 1", "rx 2", "rx 3"];
    rows.extend(["rx refused 12", "rx refused 13", "rx refused 16"]);
    rows.extend(["take refused 12", "silent 1", "silent 2"]);
    rows.extend(["silent refused 12", "silent refused 16"]);
    let refused: Vec<String> = (1..=9).map(|n| format!("plan refused {n}")).collect();
    rows.extend(refused.iter().map(String::as_str));
    for row in rows {
        assert_eq!(tally.count(row), lines_of(&outputs, row), "{row}");
    }
    let requests = lines_of(&outputs, "take request");
    assert_eq!(tally.count("take of a request"), requests);
    let of_256 = lines_of(&outputs, "rx 1 256");
    assert_eq!(tally.count("places above 255"), of_256);
    let strangers: u64 = SIDES.iter().map(|row| tally.count(row)).sum();
    assert_eq!(strangers, lines_of(&outputs, "rx 1"));
    let bad = lines_of(&outputs, "input bad");
    let alone = tally.count("input bad alone");
    let first = tally.count("input bad as the first event");
    assert_eq!(bad, alone + first + tally.count("input bad after events"));
}

#[test]
fn damaged_cases_never_panic() {
    let shapes = Shapes::all();
    let mut rng = Rng::new(20);
    for index in 0..2 * shapes.count() as u64 {
        let input = shapes.case(shapes.case_seed(8, index)).input;
        if input.len() > 5_000 {
            continue;
        }
        for _ in 0..10 {
            let mut damaged = input.clone();
            for _ in 0..rng.from_to(1, 3) {
                if !damaged.is_empty() {
                    let place = rng.below(damaged.len());
                    damaged[place] = rng.byte();
                }
            }
            if rng.once_in(4) {
                let length = rng.from_to(0, damaged.len());
                damaged.truncate(length);
            }
            let output = second::run(&damaged);
            assert!(output.starts_with("plan ") || output == "input bad\n");
        }
    }
}
