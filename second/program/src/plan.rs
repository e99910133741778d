//! What a good plan says.

use crate::bits::Order;
use crate::id::Id;

/// "One plan has one order." "Nodes, Tx and Rx frames are numbered from 0":
/// the number of a frame is its place in its vector.
#[derive(Clone, Debug)]
pub struct Plan {
    pub order: Order,
    pub nodes: Vec<NodeType>,
    pub tx_frames: Vec<TxFrame>,
    pub rx_frames: Vec<RxFrame>,
}

/// "type: 0 CAN". Ticket 2: "Node type 1 is a LIN node and we are its master".
#[derive(Clone, Copy, Debug, PartialEq, Eq)]
pub enum NodeType {
    Can,
    Lin,
}

#[derive(Clone, Debug)]
pub struct TxFrame {
    pub node: u8,
    pub id: Id,
    pub size: usize,
    pub prescaler: u8,
    pub reload: u8,
    pub initial_timer: u8,
    pub send_on_reception: bool,
    pub send_on_change: bool,
    pub initial_payload: [u8; 8],
    /// Which of the bits 0 to 63 have an owner.
    pub owned: [bool; 64],
}

#[derive(Clone, Debug)]
pub struct RxFrame {
    pub node: u8,
    pub id: Id,
    pub size: usize,
    pub prescaler: u8,
    pub reload: u8,
    pub initial_timer: u8,
    pub failure_enabled: bool,
    pub failure_position: usize,
    pub long_count: u8,
    pub signals: Vec<Signal>,
}

/// "A signal of size s at position p is bits p to p + s − 1."
#[derive(Clone, Debug)]
pub struct Signal {
    pub position: usize,
    pub size: usize,
    pub destinations: Vec<Destination>,
}

#[derive(Clone, Debug)]
pub struct Destination {
    pub tx_frame: usize,
    pub position: usize,
}

impl Plan {
    /// The type of the node, if it exists.
    pub fn node_type(&self, node: u8) -> Option<NodeType> {
        self.nodes.get(usize::from(node)).copied()
    }

    pub fn is_on_lin(&self, row: &RxFrame) -> bool {
        self.node_type(row.node) == Some(NodeType::Lin)
    }
}

impl RxFrame {
    /// The Tx frame and the position of the failure bit, if enabled.
    ///
    /// "An enabled failure indicator owns one bit, at its position, in the Tx
    /// frame of the first destination of its frame's first signal."
    pub fn failure_bit(&self) -> Option<(usize, usize)> {
        if !self.failure_enabled {
            return None;
        }
        let first = self.signals.first()?.destinations.first()?;
        Some((first.tx_frame, self.failure_position))
    }
}
