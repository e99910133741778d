//! A field set just outside its range, each field in turn.

use super::Shape;
use crate::events::ordinary;
use crate::good;
use crate::rng::Rng;
use crate::spec::{self, places_of, places_of_frames, size_place, Record};
use crate::spec::{DESTINATION, HEAD, NODE, RX, RX_29, SIGNAL, TX};

/// A field of one byte: its name, kind, place in the record, and values just
/// outside its range or at the far end.
const FIELDS: [(&str, u8, usize, &[u8]); 15] = [
    ("order", HEAD, 1, &[2, 255]),
    ("type", NODE, 1, &[2, 255]),
    ("Tx size", TX, 4, &[9, 64, 255]),
    ("Tx prescaler", TX, 5, &[0, 3, 4, 5, 9, 11, 19, 21, 255]),
    ("flags", TX, 8, &[4, 255]),
    ("Rx size", RX, 4, &[9, 64, 255]),
    ("Rx prescaler", RX, 5, &[0, 3, 4, 5, 9, 11, 19, 21, 255]),
    ("failure enable", RX, 8, &[2, 255]),
    ("failure position", RX, 9, &[64, 255]),
    ("long count", RX, 10, &[16, 255]),
    ("signal position", SIGNAL, 1, &[64, 255]),
    ("signal size below", SIGNAL, 2, &[0]),
    ("signal size above", SIGNAL, 2, &[65, 255]),
    ("destination position", DESTINATION, 3, &[64, 255]),
    ("Tx frame high byte", DESTINATION, 1, &[1, 255]),
];

pub fn shapes() -> Vec<Shape> {
    let mut shapes = Vec::new();
    for (name, kind, place, values) in FIELDS {
        for value in values {
            let name = format!("field: {name} {value}");
            shapes.push(damaged(&name, move |rng, records| {
                let record = any_of(rng, records, kind);
                records[record][place] = *value;
            }));
        }
    }
    for (name, kind) in [("Tx", TX), ("Rx", RX)] {
        let node = format!("field: {name} node");
        shapes.push(damaged(&node, move |rng, records| {
            let record = any_of(rng, records, kind);
            records[record][1] = places_of(records, NODE).len() as u8;
        }));
        for id in [0x0800u16, 0x0FFF, 0xFFFF] {
            let name = format!("field: {name} ID {id}");
            shapes.push(damaged(&name, move |rng, records| {
                let record = any_of(rng, records, kind);
                records[record][2..4].copy_from_slice(&id.to_be_bytes());
            }));
        }
    }
    shapes.push(damaged("field: payload past the size", |rng, records| {
        let record = any_of(rng, records, TX);
        let size = rng.from_to(0, 7);
        records[record][4] = size as u8;
        records[record][9 + size..].fill(0);
        let any = rng.from_to(size, 7);
        let past = rng.pick(&[size, 7, any]);
        records[record][9 + past] = rng.pick(&[1, 0x80, 0xFF]);
    }));
    shapes.push(damaged("field: Tx frame one too high", |rng, records| {
        let tx = places_of_frames(records).len() as u16;
        let record = any_of(rng, records, DESTINATION);
        records[record][1..3].copy_from_slice(&tx.to_be_bytes());
    }));
    shapes.push(damaged(
        "field: signal one bit past the data",
        |rng, records| {
            let record = any_of(rng, records, SIGNAL);
            let row = row_before(records, record);
            let bits = 8 * records[row][size_place(&records[row])];
            let size = records[record][2];
            records[record][1] = (bits + 1).saturating_sub(size).min(63);
        },
    ));
    shapes.push(damaged(
        "field: destination one bit past the data",
        |rng, records| {
            let record = any_of(rng, records, DESTINATION);
            let signal = last_before(records, record, SIGNAL);
            let size = records[signal][2];
            let number = usize::from(records[record][2]);
            let tx = places_of_frames(records)[number];
            let bits = 8 * records[tx][size_place(&records[tx])];
            records[record][3] = (bits + 1).saturating_sub(size).min(63);
        },
    ));
    shapes.push(damaged("field: frame one byte shorter", |rng, records| {
        let kind = rng.pick(&[TX, RX]);
        let record = any_of(rng, records, kind);
        records[record][4] = records[record][4].saturating_sub(1);
    }));
    shapes.push(damaged("field: at the end of its range", |rng, records| {
        let record = any_of(rng, records, TX);
        records[record][2..4].copy_from_slice(&2047u16.to_be_bytes());
        records[record][6] = 255;
        records[record][7] = 255;
        records[record][8] = 3;
        let record = any_of(rng, records, RX);
        records[record][6] = 255;
        records[record][7] = 255;
        records[record][10] = 15;
    }));
    shapes
}

/// A shape that damages the records of a rich plan.
pub fn damaged(
    name: &str,
    damage: impl Fn(&mut Rng, &mut Vec<Record>) + Send + Sync + 'static,
) -> Shape {
    Shape::new(name, move |rng| {
        let plan = good::rich_plan(rng);
        let mut records = plan.records();
        damage(rng, &mut records);
        spec::input(&records, &ordinary(rng, &plan, 15))
    })
}

/// The same of a rich plan that surely has both formats.
pub fn damaged_of_both(
    name: &str,
    damage: impl Fn(&mut Rng, &mut Vec<Record>) + Send + Sync + 'static,
) -> Shape {
    Shape::new(name, move |rng| {
        let plan = good::rich_plan_of_both(rng);
        let mut records = plan.records();
        damage(rng, &mut records);
        spec::input(&records, &ordinary(rng, &plan, 15))
    })
}

/// A record of the kind. A rich plan has records of every kind but, for most of
/// them, those of 29 bits.
pub fn any_of(rng: &mut Rng, records: &[Record], kind: u8) -> usize {
    rng.pick(&places_of(records, kind))
}

/// The row that a signal is of.
fn row_before(records: &[Record], place: usize) -> usize {
    last_before(records, place, RX).max(last_before(records, place, RX_29))
}

/// The nearest record of the kind before this one.
fn last_before(records: &[Record], place: usize, kind: u8) -> usize {
    (0..place)
        .rev()
        .find(|before| records[*before][0] == kind)
        .unwrap_or(0)
}
