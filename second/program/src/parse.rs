//! Reading and checking a plan.

use crate::bits::Order;
use crate::id::{Id, GREATEST_11, GREATEST_29};
use crate::lin;
use crate::plan::{Destination, NodeType, Plan, RxFrame, Signal, TxFrame};
use crate::refusal::{require, PlanRefusal, Refusal};

pub const HEAD: u8 = 1;
pub const NODE: u8 = 2;
pub const TX_FRAME: u8 = 3;
pub const RX_FRAME: u8 = 4;
pub const SIGNAL: u8 = 5;
pub const DESTINATION: u8 = 6;
// Ticket 6: "Kinds 7 and 8 are Tx and Rx frames with a four-byte ID .. otherwise
// as 3 and 4."
pub const TX_FRAME_29: u8 = 7;
pub const RX_FRAME_29: u8 = 8;

// "At most 16 nodes, 256 Tx frames, 256 Rx frames, 1,024 signals (64 in a
// frame), 2,048 destinations (15 for a signal)." Tx frames of both formats are
// counted together, and so are Rx frames.
pub const MOST_NODES: usize = 16;
pub const MOST_TX_FRAMES: usize = 256;
pub const MOST_RX_FRAMES: usize = 256;
pub const MOST_SIGNALS: usize = 1024;
pub const MOST_SIGNALS_IN_A_FRAME: usize = 64;
pub const MOST_DESTINATIONS: usize = 2048;
pub const MOST_DESTINATIONS_FOR_A_SIGNAL: usize = 15;

/// How many bytes follow the kind byte; nothing if "the kind is not 1–6", or
/// with Ticket 6 not 1–8.
pub fn body_length(kind: u8) -> Option<usize> {
    match kind {
        HEAD => Some(1),
        NODE => Some(1),
        TX_FRAME => Some(16),
        RX_FRAME => Some(10),
        SIGNAL => Some(2),
        DESTINATION => Some(3),
        TX_FRAME_29 => Some(18),
        RX_FRAME_29 => Some(12),
        _ => None,
    }
}

/// Reads the whole plan. "The first bad record decides."
pub fn parse(bytes: &[u8]) -> Result<Plan, PlanRefusal> {
    let mut so_far = SoFar::nothing();
    let mut rest = bytes;
    let mut record = 0;

    // "the input is empty"
    if bytes.is_empty() {
        let refusal = Refusal::PastTheEnd;
        return Err(PlanRefusal { refusal, record });
    }
    loop {
        // "At each record, or the end, the missing-follower half of 9 is tried
        // first and names the Rx frame's record".
        so_far.try_missing_follower(rest.first())?;
        if rest.is_empty() {
            return Ok(so_far.plan);
        }
        match so_far.read_record(rest, record) {
            Ok(length) => rest = &rest[length..],
            Err(refusal) => return Err(PlanRefusal { refusal, record }),
        }
        record += 1;
    }
}

/// The plan as far as it has been read.
struct SoFar {
    plan: Plan,
    kind_before: Option<u8>,
    /// The record number of the last Rx frame.
    rx_record: usize,
    signal_count: usize,
    destination_count: usize,
}

impl SoFar {
    fn nothing() -> SoFar {
        SoFar {
            plan: Plan {
                order: Order::Big,
                nodes: Vec::new(),
                tx_frames: Vec::new(),
                rx_frames: Vec::new(),
            },
            kind_before: None,
            rx_record: 0,
            signal_count: 0,
            destination_count: 0,
        }
    }

    /// Refusal 9: "an enabled indicator's Rx frame is not followed at once by
    /// a signal and a destination (judged by kind byte)".
    fn try_missing_follower(&self, next_kind: Option<&u8>) -> Result<(), PlanRefusal> {
        match self.awaited_follower() {
            Some(awaited) if next_kind != Some(&awaited) => Err(PlanRefusal {
                refusal: Refusal::BadIndicator,
                record: self.rx_record,
            }),
            _ => Ok(()),
        }
    }

    /// The kind that must come next for the sake of an enabled indicator.
    fn awaited_follower(&self) -> Option<u8> {
        let rx_frame = self.plan.rx_frames.last()?;
        if !rx_frame.failure_enabled {
            return None;
        }
        match rx_frame.signals.as_slice() {
            [] => Some(SIGNAL),
            [first] if first.destinations.is_empty() => Some(DESTINATION),
            _ => None,
        }
    }

    /// Reads the record that `rest` begins with and answers its length.
    ///
    /// The tests follow "then 2, 1, 3, 4, 5, 6, 7, 8".
    fn read_record(&mut self, rest: &[u8], record: usize) -> Result<usize, Refusal> {
        let kind = rest[0];
        let Some(body_length) = body_length(kind) else {
            return Err(Refusal::UnknownKind);
        };
        let length = 1 + body_length;
        require(rest.len() >= length, Refusal::PastTheEnd)?;
        let body = &rest[1..length];
        require(self.may_stand_here(kind, body), Refusal::KindNotHere)?;
        match kind {
            HEAD => self.read_head(body)?,
            NODE => self.read_node(body)?,
            TX_FRAME | TX_FRAME_29 => self.read_tx_frame(kind, body)?,
            RX_FRAME | RX_FRAME_29 => {
                self.read_rx_frame(kind, body)?;
                self.rx_record = record;
            }
            SIGNAL => self.read_signal(body)?,
            _ => self.read_destination(body)?,
        }
        self.kind_before = Some(kind);
        Ok(length)
    }

    /// "One head first, then nodes, then Tx frames, then Rx frames, each
    /// followed by its signals, each followed by its destinations." "None is a
    /// lawful count of each; a head alone is a plan." Frames of either format
    /// stand where the other's do, in any turn.
    fn may_stand_here(&self, kind: u8, body: &[u8]) -> bool {
        let Some(before) = self.kind_before else {
            return kind == HEAD;
        };
        match kind {
            HEAD => false,
            NODE => matches!(before, HEAD | NODE) && !self.is_can_after_lin(body),
            TX_FRAME | TX_FRAME_29 => {
                matches!(before, HEAD | NODE | TX_FRAME | TX_FRAME_29)
            }
            RX_FRAME | RX_FRAME_29 => true,
            SIGNAL => matches!(before, RX_FRAME | RX_FRAME_29 | SIGNAL | DESTINATION),
            _ => matches!(before, SIGNAL | DESTINATION),
        }
    }

    /// Ticket 2: "LIN nodes follow all CAN nodes"; "3 for a CAN node after a LIN
    /// node". A type that does not exist is no CAN node.
    fn is_can_after_lin(&self, body: &[u8]) -> bool {
        node_type(body[0]) == Some(NodeType::Can) && self.plan.nodes.contains(&NodeType::Lin)
    }

    /// "order: 0 big, 1 little"
    fn read_head(&mut self, body: &[u8]) -> Result<(), Refusal> {
        self.plan.order = match body[0] {
            0 => Order::Big,
            1 => Order::Little,
            _ => return Err(Refusal::OutsideRange),
        };
        Ok(())
    }

    /// "type: 0 CAN"
    fn read_node(&mut self, body: &[u8]) -> Result<(), Refusal> {
        require(self.plan.nodes.len() < MOST_NODES, Refusal::CountPassed)?;
        let node_type = node_type(body[0]).ok_or(Refusal::OutsideRange)?;
        self.plan.nodes.push(node_type);
        Ok(())
    }

    /// "node 1, ID 2, size 1, prescaler 1, reload 1, initial timer 1, flags 1
    /// (1 send on reception, 2 send on change, 3 both, 0 neither), initial
    /// payload 8"
    fn read_tx_frame(&mut self, kind: u8, body: &[u8]) -> Result<(), Refusal> {
        let tx_count = self.plan.tx_frames.len();
        require(tx_count < MOST_TX_FRAMES, Refusal::CountPassed)?;

        let (node, id, fields) = node_and_id(kind, body);
        let flags = fields[4];
        let mut initial_payload = [0; 8];
        initial_payload.copy_from_slice(&fields[5..13]);
        let tx_frame = TxFrame {
            node,
            id,
            size: usize::from(fields[0]),
            prescaler: fields[1],
            reload: fields[2],
            initial_timer: fields[3],
            send_on_reception: flags == 1 || flags == 3,
            send_on_change: flags == 2 || flags == 3,
            initial_payload,
            owned: [false; 64],
        };
        self.require_frame_ranges(tx_frame.node, tx_frame.id, tx_frame.size)?;
        require_prescaler(tx_frame.prescaler)?;
        require(flags <= 3, Refusal::OutsideRange)?;
        // "payload bytes past the size zero"
        let past_the_size = &initial_payload[tx_frame.size..];
        require(past_the_size.iter().all(|b| *b == 0), Refusal::OutsideRange)?;

        self.plan.tx_frames.push(tx_frame);
        Ok(())
    }

    /// "node 1, ID 2, size 1, prescaler 1, reload 1, initial timer 1, failure
    /// enable 1, failure position 1, long count 1"
    fn read_rx_frame(&mut self, kind: u8, body: &[u8]) -> Result<(), Refusal> {
        let rx_count = self.plan.rx_frames.len();
        require(rx_count < MOST_RX_FRAMES, Refusal::CountPassed)?;

        let (node, id, fields) = node_and_id(kind, body);
        let enable = fields[4];
        let rx_frame = RxFrame {
            node,
            id,
            size: usize::from(fields[0]),
            prescaler: fields[1],
            reload: fields[2],
            initial_timer: fields[3],
            failure_enabled: enable == 1,
            failure_position: usize::from(fields[5]),
            long_count: fields[6],
            signals: Vec::new(),
        };
        self.require_frame_ranges(rx_frame.node, rx_frame.id, rx_frame.size)?;
        require_prescaler(rx_frame.prescaler)?;
        require(enable <= 1, Refusal::OutsideRange)?;
        require(rx_frame.failure_position <= 63, Refusal::OutsideRange)?;
        require(rx_frame.long_count <= 15, Refusal::OutsideRange)?;

        // "an Rx frame's (node, ID) is not above that of the one before". Ticket
        // 6: "6 uses the new order".
        if let Some(before) = self.plan.rx_frames.last() {
            let above = (rx_frame.node, rx_frame.id) > (before.node, before.id);
            require(above, Refusal::NotAbove)?;
        }

        self.plan.rx_frames.push(rx_frame);
        Ok(())
    }

    /// "position, size"
    fn read_signal(&mut self, body: &[u8]) -> Result<(), Refusal> {
        let Some(rx_frame) = self.plan.rx_frames.last_mut() else {
            return Err(Refusal::KindNotHere);
        };
        require(self.signal_count < MOST_SIGNALS, Refusal::CountPassed)?;
        let in_frame = rx_frame.signals.len();
        require(in_frame < MOST_SIGNALS_IN_A_FRAME, Refusal::CountPassed)?;

        let position = usize::from(body[0]);
        let size = usize::from(body[1]);
        require(position <= 63, Refusal::OutsideRange)?;
        require((1..=64).contains(&size), Refusal::OutsideRange)?;

        // "a signal or destination passes its frame's data"
        require(position + size <= 8 * rx_frame.size, Refusal::PassesData)?;

        rx_frame.signals.push(Signal {
            position,
            size,
            destinations: Vec::new(),
        });
        self.signal_count += 1;
        Ok(())
    }

    /// "Tx frame 2, position 1"
    fn read_destination(&mut self, body: &[u8]) -> Result<(), Refusal> {
        let Some(rx_frame) = self.plan.rx_frames.last_mut() else {
            return Err(Refusal::KindNotHere);
        };
        let is_first_signal = rx_frame.signals.len() == 1;
        let Some(signal) = rx_frame.signals.last_mut() else {
            return Err(Refusal::KindNotHere);
        };
        let for_signal = signal.destinations.len();
        require(
            self.destination_count < MOST_DESTINATIONS,
            Refusal::CountPassed,
        )?;
        require(
            for_signal < MOST_DESTINATIONS_FOR_A_SIGNAL,
            Refusal::CountPassed,
        )?;

        let number = usize::from(two_byte_number(body[0], body[1]));
        let position = usize::from(body[2]);
        require(position <= 63, Refusal::OutsideRange)?;

        // "At a destination, 7 and 8 for itself, then 9 and 8 for the failure
        // bit, all naming the destination."
        let Some(tx_frame) = self.plan.tx_frames.get_mut(number) else {
            return Err(Refusal::PassesData);
        };
        let end = position + signal.size;
        require(end <= 8 * tx_frame.size, Refusal::PassesData)?;
        for bit in position..end {
            own(tx_frame, bit)?;
        }
        let is_first_of_all = is_first_signal && for_signal == 0;
        if rx_frame.failure_enabled && is_first_of_all {
            let bit = rx_frame.failure_position;
            require(bit < 8 * tx_frame.size, Refusal::BadIndicator)?;
            own(tx_frame, bit)?;
        }

        signal.destinations.push(Destination {
            tx_frame: number,
            position,
        });
        self.destination_count += 1;
        Ok(())
    }

    /// "node below the node count; ID 0–2047; size 0–8". Ticket 2: "IDs there
    /// run 0 to 59, sizes 1 to 8." Ticket 6: "0 to 536,870,911"; "5 for these on a
    /// LIN node".
    fn require_frame_ranges(&self, node: u8, id: Id, size: usize) -> Result<(), Refusal> {
        let (greatest_id, least_size) = match (self.plan.node_type(node), id) {
            (None, _) => return Err(Refusal::OutsideRange),
            (Some(NodeType::Can), Id::Bits11(_)) => (Id::Bits11(GREATEST_11), 0),
            (Some(NodeType::Can), Id::Bits29(_)) => (Id::Bits29(GREATEST_29), 0),
            (Some(NodeType::Lin), Id::Bits11(_)) => (Id::Bits11(lin::GREATEST_ID), lin::LEAST_SIZE),
            (Some(NodeType::Lin), Id::Bits29(_)) => return Err(Refusal::OutsideRange),
        };
        require(id <= greatest_id, Refusal::OutsideRange)?;
        require((least_size..=8).contains(&size), Refusal::OutsideRange)
    }
}

/// "node 1, ID 2", or Ticket 6: "a four-byte ID", and the fields after them.
fn node_and_id(kind: u8, body: &[u8]) -> (u8, Id, &[u8]) {
    match kind {
        TX_FRAME_29 | RX_FRAME_29 => {
            let id = Id::Bits29(four_byte_number(&body[1..5]));
            (body[0], id, &body[5..])
        }
        _ => {
            let id = Id::Bits11(two_byte_number(body[1], body[2]));
            (body[0], id, &body[3..])
        }
    }
}

/// "type: 0 CAN". Ticket 2: "Node type 1 is a LIN node".
fn node_type(number: u8) -> Option<NodeType> {
    match number {
        0 => Some(NodeType::Can),
        1 => Some(NodeType::Lin),
        _ => None,
    }
}

/// "prescaler 1, 2, 10 or 20"
fn require_prescaler(prescaler: u8) -> Result<(), Refusal> {
    let in_range = matches!(prescaler, 1 | 2 | 10 | 20);
    require(in_range, Refusal::OutsideRange)
}

/// "No bit has two owners."
fn own(tx_frame: &mut TxFrame, bit: usize) -> Result<(), Refusal> {
    require(!tx_frame.owned[bit], Refusal::TwoOwners)?;
    tx_frame.owned[bit] = true;
    Ok(())
}

/// "Two-byte numbers have the high byte first."
pub fn two_byte_number(high: u8, low: u8) -> u16 {
    u16::from(high) * 256 + u16::from(low)
}

/// Four-byte numbers too.
pub fn four_byte_number(bytes: &[u8]) -> u32 {
    let mut number = 0;
    for byte in bytes {
        number = number * 256 + u32::from(*byte);
    }
    number
}
