//! Damage to the bytes and records of a rich plan.

use second::id::{Id, GREATEST_29};

use super::fields::{any_of, damaged, damaged_of_both};
use super::Shape;
use crate::rng::Rng;
use crate::spec::{self, places_of, Record, RX};

pub fn shapes() -> Vec<Shape> {
    let mut shapes = vec![
        damaged("records: one byte changed", |rng, records| {
            one_byte(rng, records)
        }),
        damaged("records: one bit changed", |rng, records| {
            one_bit(rng, records)
        }),
        damaged("records: one byte one more or less", |rng, records| {
            let record = rng.below(records.len());
            let place = rng.below(records[record].len());
            let byte = &mut records[record][place];
            *byte = byte.wrapping_add(rng.pick(&[1, 255]));
        }),
        damaged("records: one dropped", drop_one),
        damaged("records: one doubled", double_one),
        damaged("records: neighbours swapped", |rng, records| {
            let place = rng.below(records.len() - 1);
            records.swap(place, place + 1);
        }),
        damaged("records: two swapped", |rng, records| {
            swap_two(rng, records)
        }),
        damaged("records: two of a kind swapped", |rng, records| {
            let kind = rng.from_to(2, 6) as u8;
            let one = any_of(rng, records, kind);
            let other = any_of(rng, records, kind);
            records.swap(one, other);
        }),
        damaged("records: cut at the end of a record", |rng, records| {
            let length = rng.below(records.len());
            records.truncate(length);
        }),
        damaged("records: a byte missing in the middle", |rng, records| {
            let place = rng.below(records.len());
            let byte = rng.below(records[place].len());
            records[place].remove(byte);
        }),
        damaged("records: a byte too many in the middle", |rng, records| {
            let place = rng.below(records.len());
            let byte = rng.from_to(0, records[place].len());
            let any = rng.byte();
            let value = rng.pick(&[0, 1, 2, 3, 4, 5, 6, 7, 8, 9, any]);
            records[place].insert(byte, value);
        }),
        damaged("records: an unknown kind inserted", |rng, records| {
            let place = rng.from_to(0, records.len());
            let kind = rng.pick(&[0, 9, 10, 16, 17, 255]);
            records.insert(place, vec![kind]);
        }),
        damaged("records: bytes after the end", |rng, records| {
            let count = rng.from_to(1, 12);
            let mut more = rng.bytes(count);
            more[0] = rng.below(11) as u8;
            records.push(more);
        }),
        damaged("records: a kind changed", |rng, records| {
            let place = rng.below(records.len());
            records[place][0] = rng.below(10) as u8;
        }),
        damaged("records: kinds exchanged", |rng, records| {
            let one = rng.below(records.len());
            let other = rng.below(records.len());
            let kind = records[one][0];
            records[one][0] = records[other][0];
            records[other][0] = kind;
        }),
        damaged("records: equal keys", |rng, records| {
            let (before, after) = two_rows(rng, records);
            let key = records[before][1..4].to_vec();
            records[after][1..4].copy_from_slice(&key);
        }),
        damaged("records: a falling ID", |rng, records| {
            let (before, after) = two_rows(rng, records);
            records[after][1] = records[before][1];
            let id = u16::from_be_bytes([records[before][2], records[before][3]]);
            let lower = id.saturating_sub(rng.pick(&[1, 1, 256]));
            records[after][2..4].copy_from_slice(&lower.to_be_bytes());
        }),
        damaged("records: a falling node", |rng, records| {
            let (before, after) = two_rows(rng, records);
            records[before][1] = 1;
            records[after][1] = 0;
        }),
        damaged("records: several damages", |rng, records| {
            for _ in 0..rng.from_to(2, 4) {
                match rng.below(5) {
                    0 => one_byte(rng, records),
                    1 => one_bit(rng, records),
                    2 => double_one(rng, records),
                    3 => swap_two(rng, records),
                    _ => drop_one(rng, records),
                }
            }
        }),
    ];
    for kind in 1..=8 {
        let name = format!("records: kind {kind} cut");
        shapes.push(damaged_of(&name, [kind], move |rng, records| {
            let place = any_of(rng, records, kind);
            records.truncate(place + 1);
            let length = rng.from_to(1, records[place].len() - 1);
            records[place].truncate(length);
        }));
        let name = format!("records: kind {kind} first");
        shapes.push(damaged_of(&name, [kind], move |rng, records| {
            let record = plausible(rng, kind);
            records.insert(0, record);
        }));
        for before in 1..=8 {
            let name = format!("records: kind {kind} after kind {before}");
            shapes.push(damaged_of(&name, [kind, before], move |rng, records| {
                let place = any_of(rng, records, before);
                let record = plausible(rng, kind);
                records.insert(place + 1, record);
            }));
        }
    }
    shapes
}

/// A shape that damages the records of a plan which has records of these kinds.
fn damaged_of<const N: usize>(
    name: &str,
    kinds: [u8; N],
    damage: impl Fn(&mut Rng, &mut Vec<Record>) + Send + Sync + 'static,
) -> Shape {
    match kinds.iter().any(|kind| *kind > spec::DESTINATION) {
        true => damaged_of_both(name, damage),
        false => damaged(name, damage),
    }
}

pub fn one_byte(rng: &mut Rng, records: &mut [Record]) {
    let record = rng.below(records.len());
    let place = rng.below(records[record].len());
    records[record][place] = rng.byte();
}

pub fn one_bit(rng: &mut Rng, records: &mut [Record]) {
    let record = rng.below(records.len());
    let place = rng.below(records[record].len());
    records[record][place] ^= 1 << rng.below(8);
}

pub fn drop_one(rng: &mut Rng, records: &mut Vec<Record>) {
    records.remove(rng.below(records.len()));
}

pub fn double_one(rng: &mut Rng, records: &mut Vec<Record>) {
    let place = rng.below(records.len());
    records.insert(place, records[place].clone());
}

pub fn swap_two(rng: &mut Rng, records: &mut [Record]) {
    let one = rng.below(records.len());
    let other = rng.below(records.len());
    records.swap(one, other);
}

/// Two rows, one directly before the other. A rich plan has two rows.
fn two_rows(rng: &mut Rng, records: &[Record]) -> (usize, usize) {
    let rows = places_of(records, RX);
    let number = rng.from_to(1, rows.len() - 1);
    (rows[number - 1], rows[number])
}

fn wide(rng: &mut Rng) -> Id {
    Id::Bits29(rng.below(GREATEST_29 as usize + 1) as u32)
}

/// A record whose fields are mostly in range.
fn plausible(rng: &mut Rng, kind: u8) -> Record {
    let id = rng.below(2048) as u16;
    match kind {
        spec::HEAD => spec::head_record(rng.below(2) as u8),
        spec::NODE => spec::node_record(),
        spec::TX => spec::Tx::quiet(0, id, rng.below(9) as u8).record(),
        spec::RX => {
            let mut rx = spec::Rx::quiet(rng.below(2) as u8, id, rng.below(9) as u8);
            rx.enable = rng.below(2) as u8;
            rx.record()
        }
        spec::SIGNAL => spec::signal_record(rng.below(16) as u8, rng.from_to(1, 8) as u8),
        spec::TX_29 => spec::Tx::quiet(0, wide(rng), rng.below(9) as u8).record(),
        spec::RX_29 => {
            let mut rx = spec::Rx::quiet(rng.below(2) as u8, wide(rng), rng.below(9) as u8);
            rx.enable = rng.below(2) as u8;
            rx.record()
        }
        _ => spec::destination_record(rng.below(3) as u16, rng.below(64) as u8),
    }
}
