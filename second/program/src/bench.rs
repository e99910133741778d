//! The bench program: events in, lines out.

use crate::gateway::{Answer, Gateway};
use crate::id::Id;
use crate::parse::{four_byte_number, two_byte_number};
use crate::refusal::Refusal;
use crate::taken::{Taken, TakenFrame, TakenRequest};

/// "All input is at most 65,536 bytes."
pub const MOST_INPUT: usize = 65_536;

const INPUT_BAD: &str = "input bad";

/// One event record.
#[derive(Clone, Copy, Debug, PartialEq, Eq)]
pub enum Event {
    /// "kind 16 reception (node 1, ID 2, length 1, data 8)". Ticket 6: "Bench
    /// event kind 19 is such a reception, four-byte ID."
    Reception {
        node: u8,
        id: Id,
        length: u8,
        data: [u8; 8],
    },
    /// "17 tick (no body)"
    Tick,
    /// "18 take (node 1)"
    Take { node: u8 },
    /// Kind 20, a LIN response: node 1, ID 2, length 1, data 8, checksum 1.
    Response {
        node: u8,
        id: u16,
        length: u8,
        data: [u8; 8],
        checksum: u8,
    },
    /// Kind 21, no response: node 1, ID 2.
    NoResponse { node: u8, id: u16 },
}

/// The whole program: all of standard input in, all lines out.
pub fn run(input: &[u8]) -> String {
    let mut lines = Lines(String::new());
    // "input over 65,536 bytes, or too short for the plan length or its stated
    // plan, prints that line alone."
    let Some((plan, events)) = split_input(input) else {
        lines.add(INPUT_BAD);
        return lines.0;
    };
    let mut gateway = match Gateway::open(plan) {
        Ok(gateway) => gateway,
        // "`plan refused NO RECORD`, which ends it"
        Err(refused) => {
            let number = refused.refusal.number();
            lines.add(&format!("plan refused {number} {}", refused.record));
            return lines.0;
        }
    };
    lines.add(&plan_line(&gateway));

    let mut rest = events;
    while !rest.is_empty() {
        // "A cut or unknown event record prints `input bad` and ends".
        let Some((event, after)) = read_event(rest) else {
            lines.add(INPUT_BAD);
            break;
        };
        lines.add(&event_line(&mut gateway, event));
        rest = after;
    }
    lines.0
}

struct Lines(String);

impl Lines {
    fn add(&mut self, line: &str) {
        self.0.push_str(line);
        self.0.push('\n');
    }
}

/// "plan length (2 bytes), plan, then event records": answers the plan and the
/// bytes of the events, or nothing if the input is too long or too short.
pub fn split_input(input: &[u8]) -> Option<(&[u8], &[u8])> {
    if input.len() > MOST_INPUT || input.len() < 2 {
        return None;
    }
    let plan_length = usize::from(two_byte_number(input[0], input[1]));
    let rest = &input[2..];
    if rest.len() < plan_length {
        return None;
    }
    Some(rest.split_at(plan_length))
}

/// The event at the front and the bytes after it, or nothing if the record is
/// cut or its kind is unknown.
pub fn read_event(bytes: &[u8]) -> Option<(Event, &[u8])> {
    let kind = *bytes.first()?;
    let body_length = match kind {
        16 => 12,
        17 => 0,
        18 => 1,
        19 => 14,
        20 => 13,
        21 => 3,
        _ => return None,
    };
    let body = bytes.get(1..1 + body_length)?;
    let event = match kind {
        16 => Event::Reception {
            node: body[0],
            id: Id::Bits11(two_byte_number(body[1], body[2])),
            length: body[3],
            data: eight_bytes(&body[4..12]),
        },
        17 => Event::Tick,
        18 => Event::Take { node: body[0] },
        19 => Event::Reception {
            node: body[0],
            id: Id::Bits29(four_byte_number(&body[1..5])),
            length: body[5],
            data: eight_bytes(&body[6..14]),
        },
        20 => Event::Response {
            node: body[0],
            id: two_byte_number(body[1], body[2]),
            length: body[3],
            data: eight_bytes(&body[4..12]),
            checksum: body[12],
        },
        _ => Event::NoResponse {
            node: body[0],
            id: two_byte_number(body[1], body[2]),
        },
    };
    Some((event, &bytes[1 + body_length..]))
}

fn eight_bytes(bytes: &[u8]) -> [u8; 8] {
    let mut data = [0; 8];
    data.copy_from_slice(bytes);
    data
}

/// The payload that a reception or a response hands on: as many data bytes as
/// its length says. "A length above 8 is handed on as nine zero bytes, so that
/// 13 is met."
pub fn handed_on(length: u8, data: &[u8; 8]) -> Vec<u8> {
    if length > 8 {
        return vec![0; 9];
    }
    data[..usize::from(length)].to_vec()
}

/// "The first line is `plan ok NODES TX RX`".
fn plan_line(gateway: &Gateway) -> String {
    let plan = gateway.plan();
    let tx_count = plan.tx_frames.len();
    let rx_count = plan.rx_frames.len();
    format!("plan ok {} {tx_count} {rx_count}", plan.nodes.len())
}

/// "Then one line per event".
fn event_line(gateway: &mut Gateway, event: Event) -> String {
    match event {
        Event::Reception {
            node,
            id,
            length,
            data,
        } => match gateway.receive(node, id, &handed_on(length, &data)) {
            Ok(answer) => rx_line(answer),
            Err(refusal) => refused_line("rx", refusal),
        },
        Event::Tick => {
            let mut report = vec![0; gateway.plan().rx_frames.len()];
            match gateway.tick(&mut report) {
                Ok(()) => tick_line(&report),
                Err(refusal) => refused_line("tick", refusal),
            }
        }
        Event::Take { node } => match gateway.take(node) {
            Ok(Some(Taken::Frame(frame))) => frame_line(&frame),
            Ok(Some(Taken::Request(request))) => request_line(request),
            Ok(None) => "take none".to_string(),
            Err(refusal) => refused_line("take", refusal),
        },
        Event::Response {
            node,
            id,
            length,
            data,
            checksum,
        } => match gateway.response(node, id, &handed_on(length, &data), checksum) {
            Ok(answer) => rx_line(answer),
            Err(refusal) => refused_line("rx", refusal),
        },
        Event::NoResponse { node, id } => match gateway.no_response(node, id) {
            Ok(answer) => format!("silent {answer}"),
            Err(refusal) => refused_line("silent", refusal),
        },
    }
}

/// "A refused event prints its word, `refused` and the number."
fn refused_line(word: &str, refusal: Refusal) -> String {
    format!("{word} refused {}", refusal.number())
}

/// "`rx ANSWER`". Ticket 4: "the bench prints `rx 1 PLACE`."
fn rx_line(answer: Answer) -> String {
    let mut line = format!("rx {}", answer.number());
    if let Answer::NoMatchingRow { place } = answer {
        line.push_str(&format!(" {place}"));
    }
    line
}

/// "`tick` and the report bytes in decimal, single spaces between".
fn tick_line(report: &[u8]) -> String {
    let mut line = "tick".to_string();
    for byte in report {
        line.push_str(&format!(" {byte}"));
    }
    line
}

/// "`take TX ID SIZE PAYLOAD WAITING`, numbers decimal, payload lower-case
/// hex, `-` for size 0." Ticket 6: "the bench puts `e` before such an ID."
fn frame_line(taken: &TakenFrame) -> String {
    let mut payload = String::new();
    for byte in &taken.payload {
        payload.push_str(&format!("{byte:02x}"));
    }
    if taken.size == 0 {
        payload.push('-');
    }
    format!(
        "take {} {} {} {payload} {}",
        taken.tx_frame, taken.id, taken.size, taken.waiting
    )
}

/// Ticket 2: "bench: `take request RX ID SIZE WAITING`". The protected
/// identifier and the checksum are of the call alone, and ID is the plain one.
fn request_line(taken: TakenRequest) -> String {
    format!(
        "take request {} {} {} {}",
        taken.rx_frame, taken.id, taken.size, taken.waiting
    )
}
