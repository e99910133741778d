//! A missing follower of an enabled indicator's row, at every place.

use super::Shape;
use crate::events::ordinary;
use crate::good;
use crate::rng::Rng;
use crate::spec::{self, places_of_rows, Record, DESTINATION, SIGNAL};

/// What comes in place of the follower.
#[derive(Clone, Copy, Debug)]
enum Instead {
    End,
    NextRow,
    UnknownKind,
    CutRow,
    CutFollower,
    Head,
    Node,
    Tx,
    OtherFollower,
    FollowerOutOfRange,
    FollowerPastData,
    NextRecord,
}

const ALL: [Instead; 12] = [
    Instead::End,
    Instead::NextRow,
    Instead::UnknownKind,
    Instead::CutRow,
    Instead::CutFollower,
    Instead::Head,
    Instead::Node,
    Instead::Tx,
    Instead::OtherFollower,
    Instead::FollowerOutOfRange,
    Instead::FollowerPastData,
    Instead::NextRecord,
];

pub fn shapes() -> Vec<Shape> {
    let mut shapes = Vec::new();
    for follower in [SIGNAL, DESTINATION] {
        let wanted = match follower {
            SIGNAL => "signal",
            _ => "destination",
        };
        for instead in ALL {
            let name = format!("follower: {wanted}, {instead:?}");
            shapes.push(Shape::new(&name, move |rng| make(rng, follower, instead)));
        }
    }
    shapes
}

fn make(rng: &mut Rng, follower: u8, instead: Instead) -> Vec<u8> {
    let plan = good::rich_plan(rng);
    let records = plan.records();
    let row = rng.pick(&good::watched_rows(&plan));
    let row_place = places_of_rows(&records)[row];
    let place = match follower {
        SIGNAL => row_place + 1,
        _ => row_place + 2,
    };

    let mut damaged: Vec<Record> = records[..place].to_vec();
    damaged.extend(replacement(rng, follower, instead, &records));
    match instead {
        Instead::End | Instead::CutRow | Instead::CutFollower => {}
        Instead::NextRecord => damaged.extend_from_slice(&records[place + 1..]),
        _ => damaged.extend_from_slice(&records[place + rng.below(2)..]),
    }
    spec::input(&damaged, &ordinary(rng, &plan, 10))
}

fn replacement(
    rng: &mut Rng,
    follower: u8,
    instead: Instead,
    records: &[Record],
) -> Option<Record> {
    let last_row = spec::Rx::quiet(0, 2047, 8).record();
    let cut = |rng: &mut Rng, record: Record| record[..rng.from_to(1, record.len() - 1)].to_vec();
    let record = match (instead, follower) {
        (Instead::End | Instead::NextRecord, _) => return None,
        (Instead::NextRow, _) => last_row,
        (Instead::UnknownKind, _) => {
            let count = rng.below(4);
            let mut record = vec![rng.pick(&[0, 9, 10, 16, 255])];
            record.extend(rng.bytes(count));
            record
        }
        (Instead::CutRow, _) => cut(rng, last_row),
        (Instead::CutFollower, SIGNAL) => cut(rng, spec::signal_record(0, 1)),
        (Instead::CutFollower, _) => cut(rng, spec::destination_record(0, 0)),
        (Instead::Head, _) => records[0].clone(),
        (Instead::Node, _) => spec::node_record(),
        (Instead::Tx, _) => spec::Tx::quiet(0, 1, 1).record(),
        (Instead::OtherFollower, SIGNAL) => spec::destination_record(0, 0),
        (Instead::OtherFollower, _) => spec::signal_record(0, 1),
        (Instead::FollowerOutOfRange, SIGNAL) => {
            spec::signal_record(rng.pick(&[0, 64]), rng.pick(&[0, 65]))
        }
        (Instead::FollowerOutOfRange, _) => spec::destination_record(0, 64),
        (Instead::FollowerPastData, SIGNAL) => spec::signal_record(63, 64),
        (Instead::FollowerPastData, _) => spec::destination_record(rng.pick(&[0, 300]), 63),
    };
    Some(record)
}
