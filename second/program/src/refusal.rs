//! The refusals, with the numbers of documents 01 and 02.
//!
//! Refusals 10 and 11 speak of the lent area. This program keeps its state in
//! plain structs and has no area, so they cannot be met here.

#[derive(Clone, Copy, Debug, PartialEq, Eq)]
pub enum Refusal {
    /// "the input is empty, or the record runs past its end"
    PastTheEnd = 1,
    /// "the kind is not 1–6". Ticket 6: "2 begins past the new kinds", so not 1–8.
    UnknownKind = 2,
    /// "the kind may not stand here"
    KindNotHere = 3,
    /// "a count above is passed"
    CountPassed = 4,
    /// "a field is outside its range". Ticket 6: "5 for these on a LIN node".
    OutsideRange = 5,
    /// "an Rx frame's (node, ID) is not above that of the one before". Ticket 6:
    /// "6 uses the new order".
    NotAbove = 6,
    /// "a signal or destination passes its frame's data, or the Tx frame does
    /// not exist"
    PassesData = 7,
    /// "a bit would have two owners"
    TwoOwners = 8,
    /// "an enabled indicator's Rx frame is not followed at once by a signal
    /// and a destination (judged by kind byte), or its position passes the Tx
    /// data"
    BadIndicator = 9,
    /// "no such node"
    NoSuchNode = 12,
    /// "a received payload is longer than 8 bytes"
    PayloadTooLong = 13,
    /// "the report is shorter than the Rx frame count"
    ReportTooShort = 14,
    /// "no such Tx frame"
    NoSuchTxFrame = 15,
    /// Ticket 2: "16 where the node is not LIN or has no such Rx frame"; "the
    /// old reception gives 16 on a LIN node"
    NotOfThisNode = 16,
}

impl Refusal {
    pub fn number(self) -> u8 {
        self as u8
    }
}

/// "Plan refusals carry the record's number from 0."
#[derive(Clone, Copy, Debug, PartialEq, Eq)]
pub struct PlanRefusal {
    pub refusal: Refusal,
    pub record: usize,
}

/// Goes on if the condition holds, and refuses otherwise.
pub fn require(condition: bool, refusal: Refusal) -> Result<(), Refusal> {
    if condition {
        Ok(())
    } else {
        Err(refusal)
    }
}
