//! Plans with LIN nodes: their ranges and their places, at the ends and past
//! them, two faults at once, and damage.

use super::fields::any_of;
use super::records::{double_one, drop_one, one_bit, one_byte, swap_two};
use super::Shape;
use crate::events::ordinary;
use crate::good;
use crate::rng::Rng;
use crate::spec::{self, places_of, Plan, Record, Rx, Tx, NODE, RX, TX};

pub fn shapes() -> Vec<Shape> {
    let mut shapes = vec![
        Shape::new("lin: the ends of the ranges", ends_of_the_ranges),
        Shape::new("lin: LIN nodes alone", |rng| {
            let nodes = rng.from_to(1, 16);
            nodes_of_both_types(rng, nodes, nodes)
        }),
        Shape::new("lin: 16 nodes", |rng| {
            let lin = rng.from_to(1, 15);
            nodes_of_both_types(rng, 16, lin)
        }),
    ];
    shapes.extend(fields());
    shapes.extend(node_types());
    shapes.extend(orders());
    shapes.extend(damages());
    shapes
}

/// IDs 0 and 59 and sizes 1 and 8, for Tx and Rx frames.
fn ends_of_the_ranges(rng: &mut Rng) -> Vec<u8> {
    let mut plan = Plan {
        order: rng.below(2) as u8,
        nodes: 2,
        lin: 1,
        ..Plan::default()
    };
    for (id, size) in [(0, rng.pick(&[1, 8])), (59, 1), (59, 8)] {
        let timer = rng.from_to(1, 3) as u8;
        plan.tx.push(Tx {
            timer,
            flags: 3,
            ..Tx::quiet(1, id, size)
        });
    }
    for (id, size) in [(0, 1), (59, 8)] {
        let timer = rng.from_to(1, 3) as u8;
        plan.rx.push(Rx {
            timer,
            ..Rx::quiet(1, id, size)
        });
    }
    plan.input(&ordinary(rng, &plan, 20))
}

fn nodes_of_both_types(rng: &mut Rng, nodes: usize, lin: usize) -> Vec<u8> {
    let measure = good::Measure {
        nodes,
        lin,
        tx: rng.from_to(1, 20),
        rx: rng.from_to(1, 20),
        signals: 3,
        destinations: 3,
    };
    let plan = good::plan(rng, measure);
    plan.input(&ordinary(rng, &plan, 60))
}

/// A shape that damages the records of a plan with CAN and LIN nodes.
fn damaged(
    name: &str,
    damage: impl Fn(&mut Rng, &mut Vec<Record>) + Send + Sync + 'static,
) -> Shape {
    Shape::new(name, move |rng| {
        let plan = good::rich_lin_plan(rng);
        let mut records = plan.records();
        damage(rng, &mut records);
        spec::input(&records, &ordinary(rng, &plan, 15))
    })
}

/// Each field of a frame on a LIN node just outside its range or at the far end;
/// some of these are lawful on a CAN node.
fn fields() -> Vec<Shape> {
    let mut shapes = Vec::new();
    for (name, kind) in [("Tx", TX), ("Rx", RX)] {
        for size in [0, 9, 64, 255] {
            let name = format!("field: LIN {name} size {size}");
            shapes.push(damaged(&name, move |rng, records| {
                let record = on_lin(rng, records, kind);
                records[record][4] = size;
                if kind == TX && size == 0 {
                    records[record][9..].fill(0);
                }
            }));
        }
        for id in [60u16, 61, 63, 64, 128, 2047, 2048, 0xFFFF] {
            let name = format!("field: LIN {name} ID {id}");
            shapes.push(damaged(&name, move |rng, records| {
                let record = on_lin(rng, records, kind);
                records[record][2..4].copy_from_slice(&id.to_be_bytes());
            }));
        }
    }
    shapes
}

/// A record of the kind on a LIN node. A rich plan with LIN nodes has one.
fn on_lin(rng: &mut Rng, records: &[Record], kind: u8) -> usize {
    let nodes = places_of(records, NODE);
    let is_on_lin = |place: &usize| {
        let node = usize::from(records[*place][1]);
        records[nodes[node]] == spec::lin_node_record()
    };
    let mut places = places_of(records, kind);
    places.retain(is_on_lin);
    rng.pick(&places)
}

/// The place of the first LIN node.
fn first_lin(records: &[Record]) -> usize {
    let is_lin = |record: &Record| *record == spec::lin_node_record();
    records.iter().position(is_lin).unwrap_or(0)
}

/// Types that do not exist before and after a LIN node, and CAN nodes after it.
fn node_types() -> Vec<Shape> {
    let mut shapes = Vec::new();
    for node_type in [2, 3, 255] {
        let name = format!("field: type {node_type} before a LIN node");
        shapes.push(damaged(&name, move |_, records| {
            records.insert(first_lin(records), vec![NODE, node_type]);
        }));
        let name = format!("field: type {node_type} after a LIN node");
        shapes.push(damaged(&name, move |_, records| {
            records.insert(first_lin(records) + 1, vec![NODE, node_type]);
        }));
    }
    shapes.push(damaged(
        "records: LIN, a CAN node after a LIN node",
        |rng, records| {
            let lin = first_lin(records);
            let last = places_of(records, NODE)[places_of(records, NODE).len() - 1];
            records.insert(rng.from_to(lin, last) + 1, spec::node_record());
        },
    ));
    shapes.push(damaged("records: LIN, nodes exchanged", |rng, records| {
        let lin = first_lin(records);
        let can = rng.from_to(1, lin - 1);
        records.swap(can, lin);
    }));
    shapes.push(damaged(
        "records: LIN, the type of a node changed",
        |rng, records| {
            let node = any_of(rng, records, NODE);
            records[node][1] ^= 1;
        },
    ));
    shapes
}

type Tail = fn(&mut Rng) -> Vec<Record>;

/// Records that follow a head, a CAN node, a LIN node and a Tx frame of two bytes
/// on each: two faults at once.
const TAILS: [(&str, Tail); 11] = [
    ("1 before 5, a LIN Tx frame", |rng| {
        let bad = bad_tx(rng);
        vec![cut(rng, bad)]
    }),
    ("1 before 5, a LIN Rx frame", |rng| {
        let bad = bad_rx(rng, 7);
        vec![cut(rng, bad)]
    }),
    ("3 before 5, a LIN Tx frame", |rng| {
        vec![row(5), bad_tx(rng)]
    }),
    ("5 before 6, a LIN Rx frame", |rng| {
        let id = rng.pick(&[4, 5]);
        let size = rng.pick(&[0, 9]);
        vec![row(5), Rx::quiet(1, id, size).record()]
    }),
    ("9 before 5, a LIN Rx frame", |rng| {
        vec![Rx::watched(1, 5, 1, 9).record(), bad_rx(rng, 7)]
    }),
    ("3 before 5, a type after a LIN node", |rng| {
        vec![vec![NODE, rng.pick(&[2, 255])]]
    }),
    ("9 before 3, a CAN node after a LIN node", |_| {
        vec![Rx::watched(1, 5, 1, 9).record(), spec::node_record()]
    }),
    ("5 before 9, a LIN Rx frame", |rng| {
        let mut bad = Rx::watched(1, 5, 1, 9).record();
        bad[4] = rng.pick(&[0, 9]);
        vec![bad, row(7)]
    }),
    ("6 on LIN, rows that do not rise", |rng| {
        vec![row(5), row(rng.pick(&[0, 4, 5]))]
    }),
    ("7 on LIN, a signal past the data", |rng| {
        let size = rng.from_to(1, 7) as u8;
        vec![
            Rx::quiet(1, 5, size).record(),
            spec::signal_record(8 * size - 1, 2),
        ]
    }),
    ("8 on LIN, a bit with two owners", |rng| {
        let to = spec::destination_record(rng.pick(&[0, 1]), rng.below(8) as u8);
        vec![row(5), spec::signal_record(0, 8), to.clone(), to]
    }),
];

fn orders() -> Vec<Shape> {
    let mut shapes = Vec::new();
    for (name, tail) in TAILS {
        shapes.push(Shape::new(&format!("order: {name}"), move |rng| {
            let mut records = vec![
                spec::head_record(0),
                spec::node_record(),
                spec::lin_node_record(),
                Tx::quiet(0, 256, 2).record(),
                Tx::quiet(1, 5, 2).record(),
            ];
            records.extend(tail(rng));
            spec::input(&records, &[17, 18, 0])
        }));
    }
    shapes.push(Shape::new(
        "order: 1 before 3, a node after a LIN node",
        |_| {
            let records = [spec::head_record(0), spec::lin_node_record(), vec![NODE]];
            spec::input(&records, &[])
        },
    ));
    shapes.push(Shape::new(
        "order: 3 before 4, a CAN node after a LIN node",
        |rng| one_node_too_many(rng, 0),
    ));
    shapes.push(Shape::new(
        "order: 4 before 5, a type after a LIN node",
        |rng| {
            let node_type = rng.pick(&[2, 255]);
            one_node_too_many(rng, node_type)
        },
    ));
    shapes.push(Shape::new("order: 17 nodes, the last LIN", |rng| {
        one_node_too_many(rng, 1)
    }));
    for (kind, name) in [(TX, "Tx"), (RX, "Rx")] {
        let name = format!("order: 4 before 5, a LIN {name} frame");
        shapes.push(Shape::new(&name, move |rng| one_frame_too_many(rng, kind)));
    }
    shapes
}

/// Sixteen nodes, some of them LIN, and one more of this type.
fn one_node_too_many(rng: &mut Rng, node_type: u8) -> Vec<u8> {
    let plan = Plan {
        nodes: 16,
        lin: rng.from_to(1, 16),
        ..Plan::default()
    };
    let mut records = plan.records();
    records.push(vec![NODE, node_type]);
    spec::input(&records, &[17])
}

/// 256 frames on a CAN node, and one more on a LIN node that is out of range.
fn one_frame_too_many(rng: &mut Rng, kind: u8) -> Vec<u8> {
    let mut plan = Plan {
        nodes: 2,
        lin: 1,
        ..Plan::default()
    };
    match kind {
        TX => plan.tx = vec![Tx::quiet(0, 5, 1); 256],
        _ => plan.rx = (0..256).map(|id| Rx::quiet(0, id, 1)).collect(),
    }
    let mut records = plan.records();
    records.push(match kind {
        TX => bad_tx(rng),
        _ => bad_rx(rng, 7),
    });
    spec::input(&records, &[17])
}

/// A Tx frame on LIN node 1 whose ID or size a CAN node would take.
fn bad_tx(rng: &mut Rng) -> Record {
    let (id, size) = rng.pick(&[(5, 0), (60, 1), (2047, 8)]);
    Tx::quiet(1, id, size).record()
}

/// A row on LIN node 1 whose ID or size a CAN node would take.
fn bad_rx(rng: &mut Rng, id: u16) -> Record {
    let (id, size) = rng.pick(&[(id, 0), (60, 1), (2047, 8)]);
    Rx::quiet(1, id, size).record()
}

/// A row of one byte on LIN node 1.
fn row(id: u16) -> Record {
    Rx::quiet(1, id, 1).record()
}

/// A part of the record, at least up to its size.
fn cut(rng: &mut Rng, record: Record) -> Record {
    record[..rng.from_to(5, record.len() - 1)].to_vec()
}

fn damages() -> Vec<Shape> {
    let several = |rng: &mut Rng, records: &mut Vec<Record>| {
        for _ in 0..rng.from_to(2, 4) {
            match rng.below(5) {
                0 => one_byte(rng, records),
                1 => one_bit(rng, records),
                2 => double_one(rng, records),
                3 => swap_two(rng, records),
                _ => drop_one(rng, records),
            }
        }
    };
    vec![
        damaged("records: LIN, one byte changed", |rng, records| {
            one_byte(rng, records)
        }),
        damaged("records: LIN, one bit changed", |rng, records| {
            one_bit(rng, records)
        }),
        damaged("records: LIN, one dropped", drop_one),
        damaged("records: LIN, one doubled", double_one),
        damaged("records: LIN, two swapped", |rng, records| {
            swap_two(rng, records)
        }),
        damaged("records: LIN, several damages", several),
        damaged("records: LIN, a frame on another node", |rng, records| {
            let kind = rng.pick(&[TX, RX]);
            let record = any_of(rng, records, kind);
            records[record][1] = rng.below(places_of(records, NODE).len()) as u8;
        }),
    ]
}
