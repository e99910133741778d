//! Records with two faults at once: which refusal is given, and for which
//! record. The names say which test should come first; the comparison itself
//! only asks whether both programs say the same.

use super::limits::{self, layout, Counts};
use super::Shape;
use crate::events::ordinary;
use crate::rng::Rng;
use crate::spec::{self, Plan, Record, Rx, Tx};

/// Records that follow `start`.
type Tail = fn(&mut Rng) -> Vec<Record>;

/// Tails that end in a cut record or a kind byte alone.
const CUT_TAILS: [(&str, Tail); 10] = [
    ("9 before 2, no body", |rng| {
        vec![watched(), vec![rng.pick(&[0, 9, 255])]]
    }),
    ("9 before 1", |rng| vec![watched(), cut(rng, row(6))]),
    ("9 before 1, no body", |rng| {
        vec![watched(), vec![rng.pick(&[1, 2, 3, 4, 6, 7, 8])]]
    }),
    ("a cut signal before its missing destination", |rng| {
        vec![watched(), cut(rng, spec::signal_record(0, 1))]
    }),
    ("2 before 1", |rng| {
        vec![row(5), vec![rng.pick(&[0, 9, 16, 255])]]
    }),
    ("1 before 3, a Tx frame", |rng| {
        vec![row(5), cut(rng, Tx::quiet(0, 1, 1).record())]
    }),
    ("1 before 3, a destination", |rng| {
        vec![row(5), cut(rng, spec::destination_record(0, 0))]
    }),
    ("1 before 5", |rng| {
        let mut bad = row(5);
        bad[1] = 9;
        vec![cut(rng, bad)]
    }),
    ("1 before 6", |_| vec![row(5), row(5)[..10].to_vec()]),
    ("1 before 7", |_| vec![row(5), vec![5, 63]]),
];

/// Tails of whole records, which more records may follow.
const WHOLE_TAILS: [(&str, Tail); 17] = [
    ("9 before 2", |rng| {
        vec![watched(), vec![rng.pick(&[0, 9, 255]); 11]]
    }),
    ("9 before 3", |_| {
        vec![watched(), spec::destination_record(0, 0)]
    }),
    ("9 before 5", |rng| {
        let mut bad = row(6);
        bad[rng.pick(&[1, 4, 5, 8, 9, 10])] = 200;
        vec![watched(), bad]
    }),
    ("9 before 6", |rng| vec![watched(), row(rng.pick(&[4, 5]))]),
    ("a bad row before its missing follower", |rng| {
        let mut bad = watched();
        bad[rng.pick(&[1, 4, 5, 9, 10])] = 200;
        vec![bad, row(6)]
    }),
    ("a bad signal before its missing destination", |rng| {
        vec![watched(), spec::signal_record(rng.pick(&[1, 64]), 8)]
    }),
    ("a bad destination before 9 for its failure bit", |rng| {
        let position = rng.pick(&[14, 63, 64]);
        let to = spec::destination_record(0, position);
        vec![watched_at(63), spec::signal_record(0, 4), to]
    }),
    ("7 before 9, no such Tx frame", |rng| {
        let to = spec::destination_record(rng.pick(&[1, 256]), 0);
        vec![watched_at(63), spec::signal_record(0, 4), to]
    }),
    ("3 before 5", |rng| {
        let bad = rng.pick(&[[2, 9], [1, 9]]);
        vec![row(5), bad.to_vec()]
    }),
    ("3 before 5, a Tx frame", |_| {
        vec![row(5), Tx::quiet(9, 9999, 9).record()]
    }),
    ("3 before 5, a destination", |_| {
        vec![row(5), spec::destination_record(0, 64)]
    }),
    ("3 before 7, a signal", |_| {
        vec![spec::signal_record(63, 64)]
    }),
    ("3 before 7, a destination", |_| {
        vec![spec::destination_record(9, 0)]
    }),
    ("5 before 7, a destination", |rng| {
        let to = spec::destination_record(rng.pick(&[0, 1, 256]), 64);
        vec![row(5), spec::signal_record(0, 4), to]
    }),
    ("7 before 8", |rng| {
        let over = spec::destination_record(0, rng.pick(&[9, 15]));
        let to = spec::destination_record(0, 8);
        vec![row(5), spec::signal_record(0, 8), to, over]
    }),
    ("8 before 9 for the failure bit", |rng| {
        let position = rng.pick(&[0, 4, 7]);
        vec![
            row(5),
            spec::signal_record(0, 8),
            spec::destination_record(0, 0),
            Rx::watched(0, 6, 1, rng.pick(&[16, 63])).record(),
            spec::signal_record(0, 8),
            spec::destination_record(0, position),
        ]
    }),
    ("the first bad record decides", |rng| {
        vec![
            row(5),
            spec::signal_record(0, 8),
            spec::destination_record(0, 9),
            row(rng.pick(&[4, 5])),
            vec![0],
        ]
    }),
];

pub fn shapes() -> Vec<Shape> {
    let mut shapes = Vec::new();
    for (name, tail) in CUT_TAILS {
        shapes.push(Shape::new(&format!("order: {name}"), move |rng| {
            with_tail(tail(rng))
        }));
    }
    for (name, tail) in WHOLE_TAILS {
        shapes.push(Shape::new(&format!("order: {name}"), move |rng| {
            let mut records = tail(rng);
            if rng.once_in(2) {
                records.push(row(7));
            }
            with_tail(records)
        }));
    }
    // 5 before 6 for each field of a row but its key.
    for field in [4, 5, 8, 9, 10] {
        let name = format!("order: 5 before 6, byte {field}");
        shapes.push(Shape::new(&name, move |rng| {
            let mut bad = row(rng.pick(&[4, 5]));
            bad[field] = 200;
            with_tail(vec![row(5), bad])
        }));
    }
    for (position, size) in [(64, 1), (63, 65), (64, 64), (0, 65), (255, 255)] {
        let name = format!("order: 5 before 7, a signal of {position} {size}");
        shapes.push(Shape::new(&name, move |_| {
            with_tail(vec![row(5), spec::signal_record(position, size)])
        }));
    }
    shapes.extend(past_counts());
    shapes
}

/// Head, a node, a Tx frame of 2 bytes (records 0 to 2), then the tail.
fn with_tail(tail: Vec<Record>) -> Vec<u8> {
    let mut records = vec![
        spec::head_record(0),
        spec::node_record(),
        Tx::quiet(0, 256, 2).record(),
    ];
    records.extend(tail);
    spec::input(&records, &[17, 18, 0])
}

/// A part of the record, at least its kind.
fn cut(rng: &mut Rng, record: Record) -> Record {
    record[..rng.from_to(1, record.len() - 1)].to_vec()
}

/// A row of 1 byte on node 0.
fn row(id: u16) -> Record {
    Rx::quiet(0, id, 1).record()
}

/// A row of 1 byte on node 0, ID 5, with an enabled indicator.
fn watched() -> Record {
    watched_at(9)
}

fn watched_at(failure_position: u8) -> Record {
    Rx::watched(0, 5, 1, failure_position).record()
}

/// The second fault of a record that passes a count.
#[derive(Clone, Copy, Debug)]
enum SecondFault {
    /// Every field is 255: refusals 5 and 7.
    Fields,
    /// It is the same as the record before it: refusals 6 and 8.
    SameAgain,
    /// It is cut, and nothing comes after it: refusal 1.
    Cut,
}

/// The record that passes a count has a second fault.
fn past_counts() -> Vec<Shape> {
    type Make = fn(&mut Rng) -> Counts;
    let counts: [(&str, u8, Make); 5] = [
        ("nodes", spec::NODE, |rng| limits::nodes(rng, 17)),
        ("Tx frames", spec::TX, |rng| limits::tx_frames(rng, 257)),
        ("Rx frames", spec::RX, |_| Counts {
            nodes: 1,
            tx: 1,
            rows: vec![vec![]; 257],
        }),
        ("signals", spec::SIGNAL, |_| one_row(vec![0; 65])),
        ("destinations", spec::DESTINATION, |_| one_row(vec![16])),
    ];
    let faults = [
        SecondFault::Fields,
        SecondFault::SameAgain,
        SecondFault::Cut,
    ];
    let mut shapes = Vec::new();
    for (what, kind, make) in counts {
        for fault in faults {
            let name = format!("order: one of the {what} too many, {fault:?}");
            shapes.push(Shape::new(&name, move |rng| {
                let counts = make(rng);
                let plan = layout(rng, &counts);
                let mut records = without_indicators(plan.clone()).records();
                add_fault(rng, &mut records, kind, fault);
                spec::input(&records, &ordinary(rng, &plan, 5))
            }));
        }
    }
    shapes.push(Shape::new("order: 3 before 4, nodes", |rng| {
        let counts = limits::nodes(rng, 16);
        let mut records = layout(rng, &counts).records();
        let place = rng.from_to(18, records.len());
        records.insert(place, spec::node_record());
        spec::input(&records, &[17])
    }));
    shapes.push(Shape::new("order: 9 before 4, Rx frames", |rng| {
        let counts = Counts {
            nodes: 1,
            tx: 1,
            rows: vec![vec![]; 257],
        };
        let mut plan = layout(rng, &counts);
        plan.rx[255].enable = 1;
        plan.input(&[17])
    }));
    shapes
}

/// Adds the fault to the last record of the kind.
fn add_fault(rng: &mut Rng, records: &mut Vec<Record>, kind: u8, fault: SecondFault) {
    let places = spec::places_of(records, kind);
    let last = places[places.len() - 1];
    match fault {
        SecondFault::Fields => records[last][1..].fill(255),
        SecondFault::SameAgain => records[last] = records[last - 1].clone(),
        SecondFault::Cut => {
            records.truncate(last + 1);
            records[last] = cut(rng, records[last].clone());
        }
    }
}

fn one_row(destinations: Vec<usize>) -> Counts {
    Counts {
        nodes: 1,
        tx: 2,
        rows: vec![destinations],
    }
}

/// Without indicators, so that no follower is missing.
fn without_indicators(mut plan: Plan) -> Plan {
    for rx in &mut plan.rx {
        rx.enable = 0;
    }
    plan
}
