//! Filling the table.
//!
//! Each case is played once more through the second program's own calls, and
//! what is seen there is counted. Only the last section of the table counts by
//! the shape: how the inputs were made.

use second::bench::{handed_on, read_event, split_input, Event};
use second::bits::Order;
use second::gateway::{Answer, Gateway};
use second::id::Id;
use second::plan::{Plan, Signal};
use second::refusal::Refusal;
use second::taken::Taken;

use crate::age_rows::AgeRows;
use crate::format_rows::{of_29_row, FormatRows, SCHEDULED};
use crate::lin_rows::LinRows;
use crate::long_counters::LongCounters;
use crate::queue_rows::QueueRows;
use crate::shapes::Case;
use crate::tally::{made_row, Tally, COPIED, INPUT_LENGTHS, LIMITS, PRESCALERS};

impl Tally {
    /// Counts what this case meets.
    pub fn observe(&mut self, case: &Case) {
        self.met(&made_row(&case.shape));
        let input = case.input.as_slice();
        if INPUT_LENGTHS.contains(&input.len()) {
            self.met(&format!("inputs of {} bytes", input.len()));
        }
        let Some((plan, events)) = split_input(input) else {
            self.met("input bad alone");
            return;
        };
        match Gateway::open(plan) {
            Err(refused) => self.refused_plan(plan, refused),
            Ok(gateway) => {
                self.good_plan(gateway.plan());
                self.events(gateway, events);
            }
        }
    }

    fn good_plan(&mut self, plan: &Plan) {
        self.met("plan ok");
        self.met(match plan.order {
            Order::Big => "plans in big order",
            Order::Little => "plans in little order",
        });
        let tx = plan.tx_frames.iter();
        let rx = plan.rx_frames.iter();
        let prescalers: Vec<u8> = tx
            .map(|t| t.prescaler)
            .chain(rx.map(|r| r.prescaler))
            .collect();
        for prescaler in PRESCALERS {
            if prescalers.contains(&prescaler) {
                self.met(&format!("plans with prescaler {prescaler}"));
            }
        }
        let tx = plan.tx_frames.iter();
        let rx = plan.rx_frames.iter();
        let tx = tx.flat_map(|t| [t.reload, t.initial_timer]);
        let rx = rx.flat_map(|r| [r.reload, r.initial_timer]);
        let timers: Vec<u8> = tx.chain(rx).collect();
        for value in [0, 1, 255] {
            if timers.contains(&value) {
                self.met(&format!("plans with timer value {value}"));
            }
        }
        for ((what, limit), count) in LIMITS.into_iter().zip(counts(plan)) {
            if count == limit {
                self.met(&format!("plans of {limit} {what}"));
            }
        }
        self.lin_plan(plan);
        self.format_plan(plan);
    }

    fn events(&mut self, mut gateway: Gateway, events: &[u8]) {
        let plan = gateway.plan().clone();
        let mut long_counters = LongCounters::new(&plan);
        let mut age_rows = AgeRows::new(&plan);
        let mut lin_rows = LinRows::new(&plan, &gateway);
        let mut queue_rows = QueueRows::new(&plan);
        let mut format_rows = FormatRows::new(&plan, &gateway);
        let mut ticks = 0;
        let mut rest = events;
        while !rest.is_empty() {
            let Some((event, after)) = read_event(rest) else {
                self.met(match rest.len() == events.len() {
                    true => "input bad as the first event",
                    false => "input bad after events",
                });
                self.format_bad_event(rest);
                break;
            };
            match event {
                Event::Reception {
                    node,
                    id,
                    length,
                    data,
                } => {
                    let handed_on = handed_on(length, &data);
                    let call = |gateway: &mut Gateway| gateway.receive(node, id, &handed_on);
                    let answer = self.received(&mut gateway, node, id, call);
                    self.length(length);
                    self.reception_order(&plan, (node, id), length, answer);
                    self.format_reception(&plan, (node, id), length, answer);
                    if let (Some(rows), Ok(Answer::Accepted)) = (&mut format_rows, answer) {
                        rows.accepted(self, &gateway, node, id);
                    }
                    long_counters.reception(self, node, id, answer);
                    age_rows.reception(node, id, data, answer);
                    queue_rows.received(self, &gateway, (node, id), answer);
                    if let Some(rows) = &mut lin_rows {
                        rows.received(self, &gateway, event, answer);
                    }
                }
                Event::Response {
                    node,
                    id,
                    length,
                    data,
                    checksum,
                } => {
                    let handed_on = handed_on(length, &data);
                    let call =
                        |gateway: &mut Gateway| gateway.response(node, id, &handed_on, checksum);
                    let plain = id;
                    let id = Id::Bits11(id);
                    let answer = self.received(&mut gateway, node, id, call);
                    self.response_order(&plan, (node, plain), (length, &data, checksum), answer);
                    if let (Some(rows), Ok(Answer::Accepted)) = (&mut format_rows, answer) {
                        rows.accepted(self, &gateway, node, id);
                    }
                    long_counters.reception(self, node, id, answer);
                    age_rows.reception(node, id, data, answer);
                    queue_rows.received(self, &gateway, (node, id), answer);
                    if let Some(rows) = &mut lin_rows {
                        rows.received(self, &gateway, event, answer);
                    }
                }
                Event::NoResponse { node, id } => {
                    let answer = self.silent(&mut gateway, node, id);
                    self.no_response_order(&plan, (node, id), answer);
                    let id = Id::Bits11(id);
                    long_counters.silent(self, node, id, answer);
                    queue_rows.silent(answer);
                    if let Some(rows) = &mut format_rows {
                        rows.silent(&gateway);
                    }
                    if let Some(rows) = &mut lin_rows {
                        rows.silent(self, &gateway, (node, id), answer);
                    }
                }
                Event::Tick => {
                    ticks += 1;
                    queue_rows.before_tick(&gateway);
                    let report = self.tick(&mut gateway);
                    queue_rows.tick(self, &gateway);
                    let requests = match &mut lin_rows {
                        Some(rows) => rows.tick(self, &gateway),
                        None => Vec::new(),
                    };
                    long_counters.tick(self, &report, &requests);
                    age_rows.tick();
                    if let Some(rows) = &mut format_rows {
                        rows.tick(self, &gateway, &report);
                    }
                }
                Event::Take { node } => {
                    let answer = self.take(&mut gateway, node);
                    queue_rows.take(self, node, &answer);
                    let is_refused = answer.is_err();
                    let taken = answer.ok().flatten();
                    let mut tx_number = None;
                    if let Some(Taken::Frame(frame)) = &taken {
                        tx_number = Some(frame.tx_frame);
                        age_rows.take(self, frame);
                        self.format_take(&plan, frame);
                    }
                    if let (Some(rows), false) = (&mut format_rows, is_refused) {
                        rows.take(self, &gateway, node, tx_number);
                    }
                    if let (Some(rows), Some(taken)) = (&mut lin_rows, &taken) {
                        rows.take(self, &gateway, node, taken);
                    }
                }
            }
            rest = after;
        }
        queue_rows.end(self);
        if ticks > 160 {
            self.met("cases of more than 160 ticks");
        }
    }

    fn length(&mut self, length: u8) {
        match length {
            0..=12 => self.met(&format!("receptions of length {length}")),
            _ => self.met("receptions of length above 12"),
        }
    }

    /// A reception or a response, as the call answers it.
    fn received(
        &mut self,
        gateway: &mut Gateway,
        node: u8,
        id: Id,
        call: impl Fn(&mut Gateway) -> Result<Answer, Refusal>,
    ) -> Result<Answer, Refusal> {
        let failure_bits_before = failure_bits(gateway);
        let waiting_before = waiting(gateway);
        let answer = call(gateway);
        match answer {
            Err(refusal) => self.met(&format!("rx refused {}", refusal.number())),
            Ok(answer) => {
                self.met(&format!("rx {}", answer.number()));
                match answer {
                    Answer::Accepted => {
                        self.accepted(gateway, node, id, &failure_bits_before, &waiting_before);
                    }
                    Answer::NoMatchingRow { place } => {
                        self.stranger(gateway.plan(), node, id, place);
                        self.format_stranger(gateway.plan(), node, id, place);
                    }
                    Answer::TooShort | Answer::WrongChecksum => {}
                }
            }
        }
        answer
    }

    fn accepted(
        &mut self,
        gateway: &Gateway,
        node: u8,
        id: Id,
        failure_bits_before: &[bool],
        waiting_before: &[bool],
    ) {
        for (before, now) in failure_bits_before.iter().zip(failure_bits(gateway)) {
            if *before && !now {
                self.met("failure bit cleared");
            }
        }
        let plan = gateway.plan();
        let rows = plan.rx_frames.iter();
        for row in rows.filter(|row| row.node == node && row.id == id) {
            self.copied(plan.order, &row.signals);
            let destinations = row.signals.iter().flat_map(|s| &s.destinations);
            for number in destinations.map(|d| d.tx_frame) {
                let tx = &plan.tx_frames[number];
                let waits = gateway.is_waiting(number);
                let [on_reception, changed, unchanged, again] = SCHEDULED;
                let how = match (tx.send_on_reception, tx.send_on_change) {
                    (true, _) if waiting_before[number] => again,
                    (true, false) if waits => on_reception,
                    (false, true) if waiting_before[number] => continue,
                    (false, true) if waits => changed,
                    (false, true) => unchanged,
                    _ => continue,
                };
                self.met(how);
                if tx.id.is_29_bits() {
                    self.met(&of_29_row(how));
                }
            }
        }
    }

    fn copied(&mut self, order: Order, signals: &[Signal]) {
        let [from, to, to_another_offset] = COPIED[order as usize];
        for signal in signals {
            for destination in &signal.destinations {
                self.met_pair(from, signal.position, signal.size);
                self.met_pair(to, destination.position, signal.size);
                if signal.position % 8 != destination.position % 8 {
                    self.met_pair(to_another_offset, destination.position, signal.size);
                }
            }
        }
    }

    /// Answers the report.
    fn tick(&mut self, gateway: &mut Gateway) -> Vec<u8> {
        let before = failure_bits(gateway);
        let waiting_before = waiting(gateway);
        let mut report = vec![0; gateway.plan().rx_frames.len()];
        if gateway.tick(&mut report).is_err() {
            return report;
        }
        if report.is_empty() {
            self.met("tick with an empty report");
        }
        for value in 0..=2 {
            if report.contains(&value) {
                self.met(&format!("tick with report byte {value}"));
            }
        }
        for (before, now) in before.iter().zip(failure_bits(gateway)) {
            if !*before && now {
                self.met("failure bit set");
            }
        }
        let plan = gateway.plan();
        for (row, byte) in plan.rx_frames.iter().zip(&report) {
            if *byte != 0 {
                self.met(&format!(
                    "timeouts by a timer of prescaler {}",
                    row.prescaler
                ));
            }
        }
        for (number, tx) in plan.tx_frames.iter().enumerate() {
            if !waiting_before[number] && gateway.is_waiting(number) {
                self.met(&format!(
                    "Tx frames sent by a timer of prescaler {}",
                    tx.prescaler
                ));
            }
        }
        report
    }

    /// Answers what the take answers.
    fn take(&mut self, gateway: &mut Gateway, node: u8) -> Result<Option<Taken>, Refusal> {
        let answer = gateway.take(node);
        match &answer {
            Err(refusal) => self.met(&format!("take refused {}", refusal.number())),
            Ok(None) => self.met("take none"),
            Ok(Some(Taken::Request(_))) => self.met("take of a request"),
            Ok(Some(Taken::Frame(taken))) => {
                self.met("take of a frame");
                self.met(&format!("takes of {} bytes", taken.size));
                if taken.waiting > 100 {
                    self.met("takes that leave more than 100 waiting");
                }
            }
        }
        answer
    }

    /// Answers what "no response" answers.
    fn silent(&mut self, gateway: &mut Gateway, node: u8, id: u16) -> Result<u8, Refusal> {
        let answer = gateway.no_response(node, id);
        match answer {
            Err(refusal) => self.met(&format!("silent refused {}", refusal.number())),
            Ok(answer) => self.met(&format!("silent {answer}")),
        }
        answer
    }
}

/// The failure bit of each row; false where there is none.
pub fn failure_bits(gateway: &Gateway) -> Vec<bool> {
    let rows = gateway.plan().rx_frames.iter();
    rows.map(|row| match row.failure_bit() {
        Some((tx_number, position)) => gateway.kept_bit(tx_number, position),
        None => false,
    })
    .collect()
}

/// Whether each Tx frame waits.
fn waiting(gateway: &Gateway) -> Vec<bool> {
    let count = gateway.plan().tx_frames.len();
    (0..count)
        .map(|number| gateway.is_waiting(number))
        .collect()
}

/// The counts of a good plan, in the order of `LIMITS`.
fn counts(plan: &Plan) -> [usize; 7] {
    let in_frames: Vec<usize> = plan.rx_frames.iter().map(|rx| rx.signals.len()).collect();
    let signals = plan.rx_frames.iter().flat_map(|rx| &rx.signals);
    let for_signals: Vec<usize> = signals.map(|signal| signal.destinations.len()).collect();
    [
        plan.nodes.len(),
        plan.tx_frames.len(),
        plan.rx_frames.len(),
        in_frames.iter().sum(),
        in_frames.iter().copied().max().unwrap_or(0),
        for_signals.iter().sum(),
        for_signals.iter().copied().max().unwrap_or(0),
    ]
}
