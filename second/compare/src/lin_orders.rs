//! The calls on LIN nodes: which test decided although another would have
//! failed too, told from the plan and the event.
//!
//! Ticket 2: "the new calls, by node and ID, give 11, 12, then 16 where the
//! node is not LIN or has no such Rx frame, then 13; the old reception gives 16
//! on a LIN node, after 12." "A wrong one received is answer 3, after 2".

use second::bench::handed_on;
use second::gateway::Answer;
use second::id::Id;
use second::lin::{plain, protected_identifier, GREATEST_ID};
use second::plan::{NodeType, Plan, RxFrame};
use second::refusal::Refusal;

use crate::checksums::{unlike_row, wrong_row, Response, OTHER_CHECKSUMS};
use crate::tally::Tally;

/// Why a new call is refused 16.
const REASONS: [&str; 4] = [
    "a CAN node with that row",
    "a CAN node without it",
    "no such row",
    "an ID above 59",
];

/// IDs that could be taken for that of a row.
const MISTAKEN: [&str; 3] = [
    "a row of another node",
    "the low 6 bits of a row",
    "the protected identifier of a row",
];

pub fn rows() -> Vec<String> {
    let mut rows = [
        "reception: 12 before 16",
        "reception: 16 before 13",
        "reception: 16 before 1",
        "reception: 16 before 2",
        "reception: 16, a row that fits",
        "response: 12 before 16",
        "response: 12 before 13",
        "response: 13 before 3",
        "response: 13, right checksum",
        "response: 2 before 3",
        "response: 2, right checksum",
        "response: 3",
        "response: 0, of the size",
        "response: 0, longer than the size",
        "no response: 12 before 16",
        "no response: 1",
        "no response: 2",
    ]
    .map(String::from)
    .to_vec();
    rows.extend(REASONS.map(|why| format!("response: 16 before 13, {why}")));
    for call in ["response", "no response"] {
        rows.extend(REASONS.map(|why| format!("{call}: 16, {why}")));
        rows.extend(MISTAKEN.map(|what| format!("{call}: 16, {what}")));
    }
    rows.extend((0..=12).map(|length| format!("responses of length {length}")));
    rows.push("responses of length above 12".to_string());
    rows
}

impl Tally {
    pub fn reception_order(
        &mut self,
        plan: &Plan,
        (node, id): (u8, Id),
        length: u8,
        answer: Result<Answer, Refusal>,
    ) {
        match answer {
            Err(Refusal::NoSuchNode) if plan.nodes.contains(&NodeType::Lin) => {
                self.met("reception: 12 before 16");
            }
            Err(Refusal::NotOfThisNode) => self.met(match row(plan, node, id) {
                _ if length > 8 => "reception: 16 before 13",
                None => "reception: 16 before 1",
                Some(row) if usize::from(length) < row.size => "reception: 16 before 2",
                Some(_) => "reception: 16, a row that fits",
            }),
            _ => {}
        }
    }

    pub fn response_order(
        &mut self,
        plan: &Plan,
        (node, id): (u8, u16),
        (length, data, checksum): (u8, &[u8; 8], u8),
        answer: Result<Answer, Refusal>,
    ) {
        match length {
            0..=12 => self.met(&format!("responses of length {length}")),
            _ => self.met("responses of length above 12"),
        }
        let bytes = handed_on(length, data);
        let response = Response {
            id,
            size: row(plan, node, id).map_or(0, |row| row.size),
            bytes: &bytes,
            data,
        };
        let is_right = checksum == response.right_checksum();
        match answer {
            Err(Refusal::NoSuchNode) => {
                self.met("response: 12 before 16");
                if length > 8 {
                    self.met("response: 12 before 13");
                }
            }
            Err(Refusal::NotOfThisNode) => {
                self.not_of_this_node("response", plan, node, id);
                if length > 8 {
                    let why = reason(plan, node, id);
                    self.met(&format!("response: 16 before 13, {why}"));
                }
            }
            Err(_) if is_right => self.met("response: 13, right checksum"),
            Err(_) => self.met("response: 13 before 3"),
            Ok(Answer::TooShort) if is_right => self.met("response: 2, right checksum"),
            Ok(Answer::TooShort) => self.met("response: 2 before 3"),
            Ok(answer) => self.checksums(&response, checksum, answer),
        }
    }

    /// A response that is long enough.
    fn checksums(&mut self, response: &Response, checksum: u8, answer: Answer) {
        self.met(match answer {
            Answer::WrongChecksum => "response: 3",
            _ if response.bytes.len() == response.size => "response: 0, of the size",
            _ => "response: 0, longer than the size",
        });
        if checksum == 0 {
            self.met(&format!("rx {}, checksum 0", answer.number()));
        }
        let right = response.right_checksum();
        for (name, other) in OTHER_CHECKSUMS {
            let other = other(response);
            if other == right {
                continue;
            }
            match answer {
                Answer::WrongChecksum if checksum == other => self.met(&wrong_row(name)),
                Answer::Accepted => self.met(&unlike_row(name)),
                _ => {}
            }
        }
    }

    pub fn no_response_order(
        &mut self,
        plan: &Plan,
        (node, id): (u8, u16),
        answer: Result<u8, Refusal>,
    ) {
        match answer {
            Ok(answer) => self.met(&format!("no response: {answer}")),
            Err(Refusal::NoSuchNode) => self.met("no response: 12 before 16"),
            Err(_) => self.not_of_this_node("no response", plan, node, id),
        }
    }

    fn not_of_this_node(&mut self, call: &str, plan: &Plan, node: u8, id: u16) {
        let why = reason(plan, node, id);
        self.met(&format!("{call}: 16, {why}"));
        if plan.node_type(node) != Some(NodeType::Lin) {
            return;
        }
        let on_node = || plan.rx_frames.iter().filter(|row| row.node == node);
        let mistaken = [
            plan.rx_frames.iter().any(|row| row.id == Id::Bits11(id)),
            id > 63 && on_node().any(|row| row.id == Id::Bits11(id & 0x3F)),
            on_node().any(|row| u16::from(protected_identifier(plain(row.id))) == id),
        ];
        for (what, is_so) in MISTAKEN.into_iter().zip(mistaken) {
            if is_so {
                self.met(&format!("{call}: 16, {what}"));
            }
        }
    }
}

fn row(plan: &Plan, node: u8, id: impl Into<Id>) -> Option<&RxFrame> {
    let id = id.into();
    let mut rows = plan.rx_frames.iter();
    rows.find(|row| (row.node, row.id) == (node, id))
}

fn reason(plan: &Plan, node: u8, id: u16) -> &'static str {
    let is_lin = plan.node_type(node) == Some(NodeType::Lin);
    let [can_with, can_without, no_row, above] = REASONS;
    match (is_lin, row(plan, node, id)) {
        (false, Some(_)) => can_with,
        (false, None) => can_without,
        (true, _) if id > GREATEST_ID => above,
        (true, _) => no_row,
    }
}
