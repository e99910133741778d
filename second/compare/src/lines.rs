//! The sentences of Tickets 8 and 14, looked for in the lines that a program
//! printed.

use second::bench::{read_event, split_input, Event};
use second::gateway::Waiting;
use second::id::Id;
use second::parse::parse;

use crate::ages::Ages;
use crate::queues::Queues;

/// The first line that breaks Ticket 8's sentence, with its number from 1.
pub fn too_old(input: &[u8], output: &[u8]) -> Option<String> {
    let [too_old, _] = broken(input, output);
    too_old
}

/// The first line that breaks one of Ticket 14's sentences, in the same way.
pub fn out_of_turn(input: &[u8], output: &[u8]) -> Option<String> {
    let [_, out_of_turn] = broken(input, output);
    out_of_turn
}

/// Both of them.
///
/// A line that is not what its event asks for is passed over: it differs from
/// the second program's.
pub fn broken(input: &[u8], output: &[u8]) -> [Option<String>; 2] {
    let mut found = [None, None];
    let Some((plan, mut rest)) = split_input(input) else {
        return found;
    };
    let Ok(plan) = parse(plan) else {
        return found;
    };
    let mut ages = Ages::new(&plan);
    let mut queues = Queues::new(&plan);
    let output = String::from_utf8_lossy(output);
    // The first line is the plan's.
    for (number, line) in (1..).zip(output.lines()).skip(1) {
        let Some((event, after)) = read_event(rest) else {
            break;
        };
        rest = after;
        let [too_old, out_of_turn] = &mut found;
        if too_old.is_none() {
            *too_old = of_the_age(&mut ages, event, line)
                .map(|how| format!("age of a fix, line {number}: {line}\n  {how}\n"));
        }
        if out_of_turn.is_none() {
            *out_of_turn = of_the_queue(&mut queues, event, line)
                .map(|how| format!("queue room, line {number}: {line}\n  {how}\n"));
        }
    }
    found
}

/// How the line breaks Ticket 8's sentence, if it does.
fn of_the_age(ages: &mut Ages, event: Event, line: &str) -> Option<String> {
    match event {
        Event::Reception { node, id, data, .. } if line == "rx 0" => ages.accept(node, id, data),
        Event::Response { node, id, data, .. } if line == "rx 0" => {
            ages.accept(node, Id::Bits11(id), data);
        }
        Event::Tick if is_unrefused_tick(line) => ages.tick(),
        Event::Take { .. } => {
            let (tx_number, payload) = taken_frame(line)?;
            for fix in ages.take(tx_number, payload) {
                if let Some(how) = fix.broken() {
                    return Some(format!("Rx frame {}: {how}", fix.number));
                }
            }
        }
        _ => {}
    }
    None
}

/// How the line breaks Ticket 14's sentences, if it does.
fn of_the_queue(queues: &mut Queues, event: Event, line: &str) -> Option<String> {
    match event {
        Event::Reception { node, id, .. } if line == "rx 0" => queues.accept(node, id),
        Event::Response { node, id, .. } if line == "rx 0" => {
            queues.accept(node, Id::Bits11(id));
        }
        Event::Tick if is_unrefused_tick(line) => queues.tick(),
        Event::Take { node } => {
            let how = queues.take(node, taken(line)?)?;
            return Some(format!("node {node}: {how}"));
        }
        _ => {}
    }
    None
}

/// "A refused event prints its word, `refused` and the number."
fn is_unrefused_tick(line: &str) -> bool {
    line.starts_with("tick") && !line.starts_with("tick refused")
}

/// The Tx number and the payload of "`take TX ID SIZE PAYLOAD WAITING`"; zeros
/// stand past the size. Of a request there is neither.
fn taken_frame(line: &str) -> Option<(usize, [u8; 8])> {
    let words: Vec<&str> = line.split(' ').collect();
    let ["take", tx_number, _, _, hex, _] = words[..] else {
        return None;
    };
    let mut payload = [0; 8];
    if hex != "-" {
        for (byte, digits) in payload.iter_mut().zip(hex.as_bytes().chunks(2)) {
            *byte = u8::from_str_radix(std::str::from_utf8(digits).ok()?, 16).ok()?;
        }
    }
    Some((tx_number.parse().ok()?, payload))
}

/// None of "`take none`"; of a frame or a "`take request RX ID SIZE WAITING`"
/// what it is and how many still wait.
fn taken(line: &str) -> Option<Option<(Waiting, usize)>> {
    let rest = line.strip_prefix("take ")?;
    if rest == "none" {
        return Some(None);
    }
    let (rest, waiting) = rest.rsplit_once(' ')?;
    let (is_request, rest) = match rest.strip_prefix("request ") {
        Some(rest) => (true, rest),
        None => (false, rest),
    };
    let (number, _) = rest.split_once(' ')?;
    let number = number.parse().ok()?;
    let entry = match is_request {
        true => Waiting::Request(number),
        false => Waiting::Frame(number),
    };
    Some(Some((entry, waiting.parse().ok()?)))
}
