//! The two calls for LIN nodes: a response, and no response.

use crate::gateway::{Answer, Gateway};
use crate::id::Id;
use crate::lin::enhanced_checksum;
use crate::plan::NodeType;
use crate::refusal::{require, Refusal};

impl Gateway {
    /// Ticket 2: "Responses come with the enhanced checksum".
    pub fn response(
        &mut self,
        node: u8,
        id: u16,
        payload: &[u8],
        checksum: u8,
    ) -> Result<Answer, Refusal> {
        let rx_number = self.require_lin_row(node, id)?;
        require(payload.len() <= 8, Refusal::PayloadTooLong)?;
        if self.is_too_short(rx_number, payload) {
            return Ok(Answer::TooShort);
        }
        // Ticket 2: "A wrong one received is answer 3, after 2, and changes
        // nothing."
        if checksum != enhanced_checksum(id, payload) {
            return Ok(Answer::WrongChecksum);
        }
        // Ticket 2: "Reception does not reload a LIN timer."
        self.accept(rx_number, payload);
        Ok(Answer::Accepted)
    }

    /// Ticket 2: "A driver call "no response" does to bit and long counter what
    /// a CAN expiry does, answers 1 or 2 as the report would".
    pub fn no_response(&mut self, node: u8, id: u16) -> Result<u8, Refusal> {
        let rx_number = self.require_lin_row(node, id)?;
        Ok(self.time_out(rx_number))
    }

    /// Ticket 2: "the new calls, by node and ID, give 11, 12, then 16 where the
    /// node is not LIN or has no such Rx frame". Answers the Rx number.
    fn require_lin_row(&self, node: u8, id: u16) -> Result<usize, Refusal> {
        self.require_node(node)?;
        require(self.is_of_type(node, NodeType::Lin), Refusal::NotOfThisNode)?;
        let row = self.find_row(node, Id::Bits11(id));
        row.ok_or(Refusal::NotOfThisNode)
    }
}
