//! Plans that are refused at a frame with a 29-bit ID, or under one: each field
//! past its range, each order of tests, each length of a cut record.

use second::id::{Id, GREATEST_29};

use super::Shape;
use crate::rng::Rng;
use crate::spec::{self, size_place, Record, Rx, Tx, TX_29};

const GREATEST: usize = GREATEST_29 as usize;

pub fn shapes() -> Vec<Shape> {
    let mut shapes = fields();
    shapes.extend(cuts());
    for (name, tail) in TAILS {
        shapes.push(Shape::new(&format!("order: 29 bits, {name}"), move |rng| {
            let mut records = start();
            records.extend(tail(rng));
            spec::input(&records, &[17, 18, 0])
        }));
    }
    for (name, records) in WITHOUT_START {
        let name = format!("order: 29 bits, {name}");
        shapes.push(Shape::new(&name, move |rng| {
            spec::input(&records(rng), &[17])
        }));
    }
    shapes.extend(one_too_many());
    shapes
}

/// Nodes 0 and 1 are CAN, node 2 is LIN; Tx frame 0 has a 29-bit ID, and Tx frame 1
/// one of 11 bits, of two bytes each.
fn start() -> Vec<Record> {
    vec![
        spec::head_record(0),
        spec::node_record(),
        spec::node_record(),
        spec::lin_node_record(),
        Tx::quiet(0, Id::Bits29(256), 2).record(),
        Tx::quiet(1, 256, 2).record(),
    ]
}

/// A Tx frame on node 0 in all ranges.
fn frame(rng: &mut Rng) -> Record {
    let id = Id::Bits29(rng.from_to(0, GREATEST) as u32);
    Tx::quiet(0, id, rng.below(9) as u8).record()
}

/// A row of one byte on node 0.
fn row(number: u32) -> Record {
    Rx::quiet(0, Id::Bits29(number), 1).record()
}

fn narrow_row(number: u16) -> Record {
    Rx::quiet(0, number, 1).record()
}

/// A row of one byte with an enabled indicator, on node 0.
fn watched(number: u32) -> Record {
    Rx::watched(0, Id::Bits29(number), 1, 9).record()
}

fn set_id(record: &mut Record, id: u32) {
    record[2..6].copy_from_slice(&id.to_be_bytes());
}

type Spoil = fn(&mut Rng, &mut Record);

/// One field past its range, of a Tx frame and of a row.
const BOTH: [(&str, Spoil); 10] = [
    ("node", |rng, r| r[1] = rng.pick(&[3, 16, 255])),
    ("ID 536870912", |_, r| set_id(r, 1 << 29)),
    ("ID with bit 29", |rng, r| {
        let any = rng.from_to(1, GREATEST) as u32;
        set_id(r, 1 << 29 | rng.pick(&[1, 256, any]));
    }),
    ("ID with bit 30", |rng, r| {
        let any = rng.below(1 << 30) as u32;
        set_id(r, 1 << 30 | rng.pick(&[0, 256, any]));
    }),
    ("ID with bit 31", |rng, r| {
        let any = rng.below(1 << 31) as u32;
        set_id(r, 1 << 31 | rng.pick(&[0, 256, any / 2]));
    }),
    ("ID 4294967295", |_, r| set_id(r, u32::MAX)),
    ("LIN node, ID below 60", |rng, r| {
        let any = rng.below(60) as u32;
        r[1] = 2;
        set_id(r, rng.pick(&[0, 59, any]));
    }),
    ("LIN node, ID of 60 or more", |rng, r| {
        let any = rng.from_to(60, GREATEST) as u32;
        r[1] = 2;
        set_id(r, rng.pick(&[60, 2047, any, GREATEST_29]));
    }),
    ("size", |rng, r| {
        r[6] = rng.pick(&[9, 64, 255]);
        if r[0] == TX_29 {
            r[11..].fill(0);
        }
    }),
    ("prescaler", |rng, r| {
        r[7] = rng.pick(&[0, 3, 4, 5, 9, 11, 19, 21, 255]);
    }),
];

const OF_TX: [(&str, Spoil); 2] = [
    ("flags", |rng, r| r[10] = rng.pick(&[4, 255])),
    ("payload past the size", |rng, r| {
        let size = rng.below(8);
        r[6] = size as u8;
        r[11..].fill(0);
        let any = rng.from_to(size, 7);
        r[11 + rng.pick(&[size, 7, any])] = rng.pick(&[1, 0x80, 0xFF]);
    }),
];

const OF_RX: [(&str, Spoil); 3] = [
    ("failure enable", |rng, r| r[10] = rng.pick(&[2, 255])),
    ("failure position", |rng, r| r[11] = rng.pick(&[64, 255])),
    ("long count", |rng, r| r[12] = rng.pick(&[16, 255])),
];

fn fields() -> Vec<Shape> {
    let tx = BOTH.into_iter().chain(OF_TX).map(|field| ("Tx", field));
    let rx = BOTH.into_iter().chain(OF_RX).map(|field| ("Rx", field));
    let shape = |(frame_of, (name, spoil)): (&'static str, (&str, Spoil))| {
        let name = format!("field: 29 bits, {frame_of} {name}");
        Shape::new(&name, move |rng| {
            let mut records = start();
            let mut record = match frame_of {
                "Tx" => frame(rng),
                _ => row(rng.from_to(0, GREATEST) as u32),
            };
            spoil(rng, &mut record);
            records.push(record);
            spec::input(&records, &[17])
        })
    };
    tx.chain(rx).map(shape).collect()
}

/// A Tx frame and a row, cut at each length. What is there of it may be bad.
fn cuts() -> Vec<Shape> {
    let mut shapes = Vec::new();
    for (frame_of, whole) in [("Tx", 19), ("Rx", 13)] {
        for length in 1..whole {
            let name = format!("records: 29 bits, {frame_of} frame of {length} bytes cut");
            shapes.push(Shape::new(&name, move |rng| {
                let mut records = start();
                let mut record = match frame_of {
                    "Tx" => frame(rng),
                    _ => row(rng.from_to(0, GREATEST) as u32),
                };
                if rng.once_in(2) {
                    let (_, spoil) = rng.pick(&BOTH);
                    spoil(rng, &mut record);
                }
                records.push(record[..length].to_vec());
                spec::input(&records, &[17])
            }));
        }
    }
    shapes
}

type Tail = fn(&mut Rng) -> Vec<Record>;

/// A part of the record, at least up to its size.
fn cut(rng: &mut Rng, record: Record) -> Record {
    let least = 1 + size_place(&record);
    record[..rng.from_to(least, record.len() - 1)].to_vec()
}

/// A Tx frame or a row with a field past its range, which stands before the end of
/// what `cut` leaves.
fn bad(rng: &mut Rng, mut record: Record) -> Record {
    let (_, spoil) = BOTH[rng.below(9)];
    spoil(rng, &mut record);
    record
}

fn bad_frame(rng: &mut Rng) -> Record {
    let record = frame(rng);
    bad(rng, record)
}

/// A row that is both past a range, not by its ID, and not above row 5.
fn bad_and_low(rng: &mut Rng) -> Record {
    let mut record = row(rng.pick(&[0, 4, 5]));
    record[rng.pick(&[6, 7, 10, 11, 12])] = 200;
    record
}

/// Records that follow `start`.
const TAILS: [(&str, Tail); 38] = [
    ("1 before 3, a Tx frame", |rng| {
        let frame = frame(rng);
        vec![row(5), cut(rng, frame)]
    }),
    ("1 before 5, a Tx frame", |rng| {
        let bad = bad_frame(rng);
        vec![cut(rng, bad)]
    }),
    ("3 before 5, a Tx frame", |rng| vec![row(5), bad_frame(rng)]),
    ("9 before 1, a Tx frame", |rng| {
        let frame = frame(rng);
        vec![watched(5), cut(rng, frame)]
    }),
    ("9 before 3, a Tx frame", |rng| vec![watched(5), frame(rng)]),
    ("9 before 3, a Tx frame after the signal", |rng| {
        vec![watched(5), spec::signal_record(0, 4), frame(rng)]
    }),
    ("9 before 5, a Tx frame", |rng| {
        vec![watched(5), bad_frame(rng)]
    }),
    ("1 before 5, a row", |rng| {
        let bad = bad(rng, row(5));
        vec![cut(rng, bad)]
    }),
    ("1 before 6, a row", |rng| {
        let number = rng.pick(&[4, 5]);
        vec![row(5), cut(rng, row(number))]
    }),
    ("5 before 6, a row", |rng| vec![row(5), bad_and_low(rng)]),
    ("9 before 1, a row", |rng| {
        vec![watched(5), cut(rng, row(6))]
    }),
    ("9 before 5, a row", |rng| {
        vec![watched(5), bad(rng, row(6))]
    }),
    ("9 before 6, a row", |rng| {
        vec![watched(5), row(rng.pick(&[4, 5]))]
    }),
    ("9 before 6, a row after the signal", |rng| {
        let signal = spec::signal_record(0, 4);
        vec![watched(5), signal, row(rng.pick(&[4, 5]))]
    }),
    ("5 before its missing follower", |rng| {
        let mut bad = watched(5);
        bad[rng.pick(&[6, 7, 11, 12])] = 200;
        vec![bad, row(6)]
    }),
    ("6 before its missing follower", |rng| {
        vec![row(5), watched(rng.pick(&[4, 5])), row(6)]
    }),
    ("6, an 11-bit row of a lower number", |rng| {
        vec![row(32), narrow_row(rng.from_to(0, 31) as u16)]
    }),
    ("6, an 11-bit row of the same number", |rng| {
        let number = rng.below(2048) as u16;
        vec![row(number.into()), narrow_row(number)]
    }),
    ("6, an 11-bit row of a higher number", |rng| {
        vec![row(32), narrow_row(rng.from_to(33, 2047) as u16)]
    }),
    ("6, a row twice", |rng| {
        let number = rng.from_to(0, GREATEST) as u32;
        vec![row(number), row(number)]
    }),
    ("6, a row of a node before", |rng| {
        let mut before = row(rng.below(2048) as u32);
        before[1] = 1;
        vec![before, row(rng.from_to(0, GREATEST) as u32)]
    }),
    ("6, a row one below", |rng| {
        let number = rng.from_to(1, GREATEST) as u32;
        vec![row(number), row(number - 1)]
    }),
    ("6, low 11 bits above", |rng| falling(rng, 11)),
    ("6, low 16 bits above", |rng| falling(rng, 16)),
    ("6, low 28 bits above", |rng| falling(rng, 28)),
    ("2, kind 0", |_| vec![vec![0; 19]]),
    ("2, kind 9", |rng| vec![vec![9; rng.pick(&[1, 12, 19])]]),
    ("2, a kind above", |rng| {
        vec![vec![rng.from_to(10, 254) as u8; 19]]
    }),
    ("2, kind 255", |rng| vec![vec![255; rng.pick(&[1, 19])]]),
    ("9 before 2, kind 9", |rng| {
        vec![watched(5), vec![rng.from_to(9, 255) as u8; 13]]
    }),
    ("7, a signal past the data", |rng| {
        vec![row(5), spec::signal_record(rng.from_to(1, 8) as u8, 8)]
    }),
    ("7, a destination past the data", |rng| {
        let to = spec::destination_record(0, rng.from_to(9, 16) as u8);
        vec![narrow_row(5), spec::signal_record(0, 8), to]
    }),
    ("7, no such Tx frame", |rng| {
        let to = spec::destination_record(rng.pick(&[2, 256]), 0);
        vec![row(5), spec::signal_record(0, 8), to]
    }),
    ("8, a bit with two owners", |rng| {
        let to = spec::destination_record(0, rng.below(9) as u8);
        vec![row(5), spec::signal_record(0, 8), to.clone(), to]
    }),
    ("8, the failure bit", |rng| {
        let to = spec::destination_record(rng.below(2) as u16, rng.from_to(2, 8) as u8);
        vec![watched(5), spec::signal_record(0, 8), to]
    }),
    ("9, the failure position past the data", |rng| {
        let watched = Rx::watched(0, Id::Bits29(5), 1, rng.from_to(16, 63) as u8);
        let to = spec::destination_record(0, rng.below(9) as u8);
        vec![watched.record(), spec::signal_record(0, 8), to]
    }),
    ("9, no signal", |rng| {
        let end = vec![watched(5)];
        let next = vec![watched(5), row(6)];
        [end, next][rng.below(2)].clone()
    }),
    ("9, no destination", |rng| {
        let mut records = vec![watched(5), spec::signal_record(0, 4)];
        if rng.once_in(2) {
            records.push(row(6));
        }
        records
    }),
];

/// A row whose number is below that of the row before, and above it in its low
/// bits.
fn falling(rng: &mut Rng, bits: u32) -> Vec<Record> {
    let high = rng.from_to(1, GREATEST >> bits) as u32;
    let low = rng.below((1 << bits) - 1) as u32;
    vec![row(high << bits | low), row((high - 1) << bits | (low + 1))]
}

/// Records without `start`.
const WITHOUT_START: [(&str, Tail); 4] = [
    ("1 before 3, a row first", |rng| vec![cut(rng, row(5))]),
    ("3 before 5, a row first", |rng| {
        vec![row(rng.from_to(0, GREATEST) as u32)]
    }),
    ("3, a Tx frame first", |rng| vec![frame(rng)]),
    ("5, no nodes", |rng| {
        let frame = frame(rng);
        let record = [frame, row(5)][rng.below(2)].clone();
        vec![spec::head_record(0), record]
    }),
];

/// How the 257th frame comes.
#[derive(Clone, Copy)]
struct TooMany {
    is_row: bool,
    /// How many of the 256 before it have 29-bit IDs; none if by chance.
    of_29: Option<usize>,
    is_29: bool,
    fault: &'static str,
}

fn one_too_many() -> Vec<Shape> {
    let mut all = Vec::new();
    for is_row in [false, true] {
        let too_many = |of_29, is_29, fault| TooMany {
            is_row,
            of_29,
            is_29,
            fault,
        };
        all.extend([
            too_many(None, true, "both formats"),
            too_many(None, false, "both formats"),
            too_many(Some(0), true, "the other format"),
            too_many(Some(256), false, "the other format"),
            too_many(None, true, "1 before 4"),
            too_many(None, true, "4 before 5"),
            too_many(None, true, "9 before 4"),
        ]);
        all.push(match is_row {
            true => too_many(None, true, "4 before 6"),
            false => too_many(None, true, "3 before 4"),
        });
    }
    let shape = |too_many: TooMany| {
        let what = if too_many.is_row { "row" } else { "Tx frame" };
        let format = if too_many.is_29 { 29 } else { 11 };
        let name = format!(
            "order: one {what} of {format} bits too many, {}",
            too_many.fault
        );
        Shape::new(&name, move |rng| too_many.input(rng))
    };
    all.into_iter().map(shape).collect()
}

impl TooMany {
    fn input(self, rng: &mut Rng) -> Vec<u8> {
        let mut records = vec![
            spec::head_record(rng.below(2) as u8),
            spec::node_record(),
            spec::node_record(),
        ];
        let of_29 = self.of_29.unwrap_or(rng.from_to(1, 255));
        let mut frames: Vec<Record> = Vec::new();
        for number in 0..256 {
            let is_29 = number >= 256 - of_29;
            frames.push(self.record(0, number as u16, is_29));
        }
        if !self.is_row {
            rng.shuffle(&mut frames);
        }
        records.extend(frames);
        // On the next node, where a row of either format may follow.
        let mut last = self.record(1, 5, self.is_29);
        match self.fault {
            "1 before 4" => last = cut(rng, last),
            "4 before 5" => last = bad(rng, last),
            "4 before 6" => last = row(rng.below(2) as u32),
            "3 before 4" => records.push(row(5)),
            "9 before 4" if self.is_row => {
                let before = records.len() - 1;
                let enable = 4 + size_place(&records[before]);
                records[before][enable] = 1;
            }
            "9 before 4" => records.push(watched(5)),
            _ => {}
        }
        records.push(last);
        spec::input(&records, &[17])
    }

    fn record(&self, node: u8, number: u16, is_29: bool) -> Record {
        let id = match is_29 {
            true => Id::Bits29(number.into()),
            false => Id::Bits11(number),
        };
        match self.is_row {
            true => Rx::quiet(node, id, 1).record(),
            false => Tx::quiet(node, id, 1).record(),
        }
    }
}
