//! What a take hands back.

use crate::id::Id;

/// Ticket 2: "A take answers a request .. or a frame".
#[derive(Clone, Debug, PartialEq, Eq)]
pub enum Taken {
    Frame(TakenFrame),
    Request(TakenRequest),
}

/// "its Tx number, ID, size, how many still wait on that node, and its payload
/// of that size". Ticket 6: "A reception and a take say which format".
#[derive(Clone, Debug, PartialEq, Eq)]
pub struct TakenFrame {
    pub tx_frame: usize,
    pub id: Id,
    pub size: usize,
    pub waiting: usize,
    pub payload: Vec<u8>,
    /// On a LIN node.
    pub on_lin: Option<OnLin>,
}

/// Ticket 2: "a frame, with the protected identifier of LIN 2.x"; "A take of a
/// LIN Tx frame gives that of the payload it hands back", the checksum.
#[derive(Clone, Copy, Debug, PartialEq, Eq)]
pub struct OnLin {
    pub protected_identifier: u8,
    pub checksum: u8,
}

/// Ticket 2: "a request (Rx number, ID, size, waiting count, the empty part".
/// Requests are on LIN nodes, where an ID is of 11 bits.
#[derive(Clone, Copy, Debug, PartialEq, Eq)]
pub struct TakenRequest {
    pub rx_frame: usize,
    pub id: u16,
    pub size: usize,
    pub waiting: usize,
    pub protected_identifier: u8,
}
