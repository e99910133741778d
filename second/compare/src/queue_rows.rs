//! What the table counts of queues, told from them before and after each event:
//! their room, and the order in which frames and requests leave.

use second::gateway::{Answer, Gateway, Waiting};
use second::id::Id;
use second::plan::Plan;
use second::refusal::Refusal;
use second::taken::Taken;

use crate::leaving_rows::LeavingRows;
use crate::room_rows::RoomRows;
use crate::tally::Tally;

pub struct QueueRows<'p> {
    room: RoomRows,
    leaving: LeavingRows<'p>,
    /// How many wait on each node.
    waiting: Vec<usize>,
}

impl<'p> QueueRows<'p> {
    /// After opening.
    pub fn new(plan: &'p Plan) -> QueueRows<'p> {
        QueueRows {
            room: RoomRows::new(plan),
            leaving: LeavingRows::new(plan),
            waiting: vec![0; plan.nodes.len()],
        }
    }

    /// After a reception or a response.
    pub fn received(
        &mut self,
        tally: &mut Tally,
        gateway: &Gateway,
        (node, id): (u8, Id),
        answer: Result<Answer, Refusal>,
    ) {
        self.leaving.event(match answer {
            Ok(Answer::Accepted) => "rx 0",
            Ok(Answer::NoMatchingRow { .. }) => "rx 1",
            Ok(Answer::TooShort) => "rx 2",
            Ok(Answer::WrongChecksum) => "rx 3",
            Err(Refusal::NoSuchNode) => "rx refused 12",
            Err(Refusal::PayloadTooLong) => "rx refused 13",
            Err(_) => "rx refused 16",
        });
        if answer == Ok(Answer::Accepted) {
            self.leaving.accepted(node, id);
            self.joined(tally, gateway);
        }
    }

    /// After "no response".
    pub fn silent(&mut self, answer: Result<u8, Refusal>) {
        self.leaving.event(match answer {
            Ok(_) => "silent",
            Err(Refusal::NoSuchNode) => "silent refused 12",
            Err(_) => "silent refused 16",
        });
    }

    pub fn before_tick(&mut self, gateway: &Gateway) {
        self.leaving.before_tick(gateway);
    }

    pub fn tick(&mut self, tally: &mut Tally, gateway: &Gateway) {
        self.leaving.event("a tick");
        self.joined(tally, gateway);
    }

    /// Those that joined stand behind those that waited.
    fn joined(&mut self, tally: &mut Tally, gateway: &Gateway) {
        let mut joined = Vec::new();
        for (node, before) in self.waiting.iter_mut().enumerate() {
            let queue = gateway.queue(node);
            if queue.len() > *before {
                joined.extend(queue.range(*before..).map(|waiting| (node, *waiting)));
                self.leaving.joined(node, queue, *before);
                *before = queue.len();
            }
        }
        if !joined.is_empty() {
            self.room.joined(tally, &joined);
        }
    }

    /// After a take.
    pub fn take(&mut self, tally: &mut Tally, node: u8, answer: &Result<Option<Taken>, Refusal>) {
        let taken = match answer {
            Err(_) => return self.leaving.event("take refused 12"),
            Ok(None) => None,
            Ok(Some(Taken::Frame(frame))) => Some((Waiting::Frame(frame.tx_frame), frame.waiting)),
            Ok(Some(Taken::Request(request))) => {
                Some((Waiting::Request(request.rx_frame), request.waiting))
            }
        };
        let node = usize::from(node);
        self.leaving.event(match taken {
            None => "take none",
            Some(_) => "take",
        });
        self.room.take(tally, node, taken.is_some());
        self.leaving
            .take(tally, node, taken.map(|(waiting, _)| waiting));
        self.waiting[node] = taken.map_or(0, |(_, waiting)| waiting);
    }

    /// After the last event.
    pub fn end(&self, tally: &mut Tally) {
        self.leaving.end(tally);
    }
}
