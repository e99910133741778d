//! A plan as it is about to be written, its records, and the input of the
//! bench program. Nothing here is checked: plans may be wrong on purpose.

use second::id::Id;

#[derive(Clone, Debug, Default)]
pub struct Plan {
    pub order: u8,
    pub nodes: usize,
    /// How many of the nodes, the last ones, are LIN nodes.
    pub lin: usize,
    pub tx: Vec<Tx>,
    pub rx: Vec<Rx>,
}

#[derive(Clone, Debug)]
pub struct Tx {
    pub node: u8,
    pub id: Id,
    pub size: u8,
    pub prescaler: u8,
    pub reload: u8,
    pub timer: u8,
    pub flags: u8,
    pub payload: [u8; 8],
}

#[derive(Clone, Debug)]
pub struct Rx {
    pub node: u8,
    pub id: Id,
    pub size: u8,
    pub prescaler: u8,
    pub reload: u8,
    pub timer: u8,
    pub enable: u8,
    pub failure_position: u8,
    pub long_count: u8,
    pub signals: Vec<Signal>,
}

#[derive(Clone, Debug)]
pub struct Signal {
    pub position: u8,
    pub size: u8,
    pub destinations: Vec<Destination>,
}

#[derive(Clone, Copy, Debug)]
pub struct Destination {
    pub tx: u16,
    pub position: u8,
}

/// A kind byte and a body.
pub type Record = Vec<u8>;

pub const HEAD: u8 = 1;
pub const NODE: u8 = 2;
pub const TX: u8 = 3;
pub const RX: u8 = 4;
pub const SIGNAL: u8 = 5;
pub const DESTINATION: u8 = 6;
/// With 29-bit IDs.
pub const TX_29: u8 = 7;
pub const RX_29: u8 = 8;

/// The kind, the node and the ID of a frame; the kinds are those of the two
/// formats.
fn frame_start(kinds: [u8; 2], node: u8, id: Id) -> Record {
    let [of_11, of_29] = kinds;
    let mut record = match id {
        Id::Bits11(_) => vec![of_11, node],
        Id::Bits29(_) => vec![of_29, node],
    };
    record.extend(id_bytes(id));
    record
}

/// An ID as records and events have it, with the high byte first.
pub fn id_bytes(id: Id) -> Vec<u8> {
    match id {
        Id::Bits11(number) => number.to_be_bytes().to_vec(),
        Id::Bits29(number) => number.to_be_bytes().to_vec(),
    }
}

/// Where the size stands in the record of a frame.
pub fn size_place(record: &Record) -> usize {
    match record[0] {
        TX_29 | RX_29 => 6,
        _ => 4,
    }
}

impl Tx {
    /// A stopped Tx frame with an empty payload.
    pub fn quiet(node: u8, id: impl Into<Id>, size: u8) -> Tx {
        Tx {
            node,
            id: id.into(),
            size,
            prescaler: 1,
            reload: 0,
            timer: 0,
            flags: 0,
            payload: [0; 8],
        }
    }

    pub fn record(&self) -> Record {
        let mut record = frame_start([TX, TX_29], self.node, self.id);
        record.extend([self.size, self.prescaler, self.reload, self.timer]);
        record.push(self.flags);
        record.extend(self.payload);
        record
    }
}

impl Rx {
    /// A stopped Rx frame without an indicator.
    pub fn quiet(node: u8, id: impl Into<Id>, size: u8) -> Rx {
        Rx {
            node,
            id: id.into(),
            size,
            prescaler: 1,
            reload: 0,
            timer: 0,
            enable: 0,
            failure_position: 0,
            long_count: 0,
            signals: Vec::new(),
        }
    }

    /// A stopped Rx frame with an enabled indicator.
    pub fn watched(node: u8, id: impl Into<Id>, size: u8, failure_position: u8) -> Rx {
        Rx {
            enable: 1,
            failure_position,
            ..Rx::quiet(node, id, size)
        }
    }

    pub fn record(&self) -> Record {
        let mut record = frame_start([RX, RX_29], self.node, self.id);
        record.extend([self.size, self.prescaler, self.reload, self.timer]);
        record.extend([self.enable, self.failure_position, self.long_count]);
        record
    }
}

pub fn head_record(order: u8) -> Record {
    vec![HEAD, order]
}

pub fn node_record() -> Record {
    vec![NODE, 0]
}

pub fn lin_node_record() -> Record {
    vec![NODE, 1]
}

pub fn signal_record(position: u8, size: u8) -> Record {
    vec![SIGNAL, position, size]
}

pub fn destination_record(tx: u16, position: u8) -> Record {
    let [high, low] = tx.to_be_bytes();
    vec![DESTINATION, high, low, position]
}

impl Plan {
    /// Ticket 2: "LIN nodes follow all CAN nodes."
    pub fn is_lin(&self, node: u8) -> bool {
        (self.nodes - self.lin..self.nodes).contains(&usize::from(node))
    }

    /// Whether a frame has a 29-bit ID.
    pub fn has_29_bits(&self) -> bool {
        let tx = self.tx.iter().map(|tx| tx.id);
        let rx = self.rx.iter().map(|rx| rx.id);
        tx.chain(rx).any(Id::is_29_bits)
    }

    /// The numbers of the rows on LIN nodes.
    pub fn lin_rows(&self) -> Vec<usize> {
        let rows = 0..self.rx.len();
        rows.filter(|row| self.is_lin(self.rx[*row].node)).collect()
    }

    pub fn records(&self) -> Vec<Record> {
        let mut records = vec![head_record(self.order)];
        records.extend(vec![node_record(); self.nodes - self.lin]);
        records.extend(vec![lin_node_record(); self.lin]);
        records.extend(self.tx.iter().map(Tx::record));
        for rx in &self.rx {
            records.push(rx.record());
            for signal in &rx.signals {
                records.push(signal_record(signal.position, signal.size));
                for destination in &signal.destinations {
                    records.push(destination_record(destination.tx, destination.position));
                }
            }
        }
        records
    }

    pub fn input(&self, events: &[u8]) -> Vec<u8> {
        input(&self.records(), events)
    }
}

/// The input of the bench program for these records and events.
pub fn input(records: &[Record], events: &[u8]) -> Vec<u8> {
    let plan = records.concat();
    input_with_length(plan.len(), &plan, events)
}

/// The same, with a stated plan length that may be wrong.
pub fn input_with_length(length: usize, plan: &[u8], events: &[u8]) -> Vec<u8> {
    let mut bytes = (length as u16).to_be_bytes().to_vec();
    bytes.extend(plan);
    bytes.extend(events);
    bytes
}

/// The places of the rows of both formats.
pub fn places_of_rows(records: &[Record]) -> Vec<usize> {
    let mut places = places_of(records, RX);
    places.extend(places_of(records, RX_29));
    places.sort_unstable();
    places
}

/// The places of the Tx frames of both formats.
pub fn places_of_frames(records: &[Record]) -> Vec<usize> {
    let mut places = places_of(records, TX);
    places.extend(places_of(records, TX_29));
    places.sort_unstable();
    places
}

/// The places of the records of a kind.
pub fn places_of(records: &[Record], kind: u8) -> Vec<usize> {
    (0..records.len())
        .filter(|place| records[*place][0] == kind)
        .collect()
}
