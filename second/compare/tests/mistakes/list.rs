//! The planted mistakes, as changes of text: file, old text, new text.

pub type Changes = &'static [(&'static str, &'static str, &'static str)];

pub struct Mistake {
    pub name: &'static str,
    pub changes: Changes,
    pub breaks: Option<Sentence>,
}

/// A ticket's sentence that the command's lines can break.
#[derive(Clone, Copy)]
pub struct Sentence {
    /// How the names of the shapes begin that are made for it.
    pub shapes: &'static [&'static str],
    /// How the comparison begins to say so.
    pub said: &'static str,
}

/// A fix can be too old, or a bit not that of the last acceptance.
const AGE: Sentence = Sentence {
    shapes: &["ages: "],
    said: "\nage of a fix, line ",
};

/// More wait than can, or one leaves out of turn.
const QUEUE: Sentence = Sentence {
    shapes: &["queues: ", "lin: 256 frames"],
    said: "\nqueue room, line ",
};

pub const fn mistake(name: &'static str, changes: Changes) -> Mistake {
    Mistake {
        name,
        changes,
        breaks: None,
    }
}

pub const fn of_the_age(name: &'static str, changes: Changes) -> Mistake {
    Mistake {
        breaks: Some(AGE),
        ..mistake(name, changes)
    }
}

pub const fn of_the_queue(name: &'static str, changes: Changes) -> Mistake {
    Mistake {
        breaks: Some(QUEUE),
        ..mistake(name, changes)
    }
}

/// How the second program counts a place.
pub const PLACE: &str = "rows.filter(|row| row.node == node && row.id < id).count()";

/// Gives the copy a function that cuts an ID to the bits of a mask, one for each
/// format.
pub const CUT: (&str, &str, &str) = (
    "gateway.rs",
    "pub struct Gateway {\n",
    "fn cut(id: Id, of_11: u16, of_29: u32) -> Id {
         match id {
             Id::Bits11(number) => Id::Bits11(number & of_11),
             Id::Bits29(number) => Id::Bits29(number & of_29),
         }
     }
     pub struct Gateway {\n",
);

pub const MISTAKES: &[Mistake] = &[
    // The errors that look right, in document 01's order.
    mistake(
        "searching all rows instead of the node's",
        &[(
            "gateway.rs",
            "row.node == node && row.id == id",
            "row.node < 16 && node < 16 && row.id == id",
        )],
    ),
    mistake(
        "clearing the payload at a timeout",
        &[(
            "gateway.rs",
            "        self.put_failure_bit(rx_number, true);\n",
            "        for signal in &self.plan.rx_frames[rx_number].signals {
                 for to in &signal.destinations {
                     for bit in to.position..to.position + signal.size {
                         let payload = &mut self.tx_states[to.tx_frame].payload;
                         bits::put(self.plan.order, payload, bit, false);
                     }
                 }
             }
             self.put_failure_bit(rx_number, true);\n",
        )],
    ),
    mistake(
        "reloading a waiting frame's Tx timer on reception",
        &[(
            "gateway.rs",
            "        if self.is_waiting(tx_number) {\n",
            "        if self.is_waiting(tx_number) {
                 self.tx_states[tx_number].timer.reload();\n",
        )],
    ),
    of_the_age(
        "copying the payload when the frame is queued",
        &[
            (
                "gateway.rs",
                "    payload: [u8; 8],\n    timer: Timer,",
                "    payload: [u8; 8],\n    queued: [u8; 8],\n    timer: Timer,",
            ),
            (
                "gateway.rs",
                "                payload: tx_frame.initial_payload,\n",
                "                payload: tx_frame.initial_payload,
                 queued: [0; 8],\n",
            ),
            (
                "gateway.rs",
                ".push_back(Waiting::Frame(tx_number));\n",
                ".push_back(Waiting::Frame(tx_number));
                 self.tx_states[tx_number].queued = self.tx_states[tx_number].payload;\n",
            ),
            (
                "gateway.rs",
                "let payload = self.tx_states[tx_number].payload[..tx_frame.size].to_vec();",
                "let payload = self.tx_states[tx_number].queued[..tx_frame.size].to_vec();",
            ),
        ],
    ),
    mistake(
        "handling a prescaled timer at the p-th tick after loading",
        &[
            (
                "gateway.rs",
                "    reload: u8,\n    count: u8,\n",
                "    reload: u16,\n    count: u16,\n",
            ),
            (
                "gateway.rs",
                "reload: tx_frame.reload,",
                "reload: u16::from(tx_frame.reload) * u16::from(tx_frame.prescaler),",
            ),
            (
                "gateway.rs",
                "count: tx_frame.initial_timer,",
                "count: u16::from(tx_frame.initial_timer) * u16::from(tx_frame.prescaler),",
            ),
            (
                "gateway.rs",
                "reload: rx_frame.reload,",
                "reload: u16::from(rx_frame.reload) * u16::from(rx_frame.prescaler),",
            ),
            (
                "gateway.rs",
                "count: rx_frame.initial_timer,",
                "count: u16::from(rx_frame.initial_timer) * u16::from(rx_frame.prescaler),",
            ),
            (
                "gateway.rs",
                "self.tick_number.is_multiple_of(u64::from(prescaler))",
                "prescaler > 0",
            ),
            (
                "gateway.rs",
                "pub fn rx_timer(&self, rx_number: usize) -> u8 {",
                "pub fn rx_timer(&self, rx_number: usize) -> u16 {",
            ),
            (
                "gateway.rs",
                "pub fn tx_timer(&self, tx_number: usize) -> u8 {",
                "pub fn tx_timer(&self, tx_number: usize) -> u16 {",
            ),
        ],
    ),
    // The calls.
    mistake(
        "long counter not taken up again",
        &[(
            "gateway.rs",
            "*long_counter = self.plan.rx_frames[rx_number].long_count;",
            "",
        )],
    ),
    mistake(
        "a long timeout reported as short",
        &[("gateway.rs", "return 2;", "return 1;")],
    ),
    mistake(
        "failure bit not cleared",
        &[("gateway.rs", "self.put_failure_bit(rx_number, false);", "")],
    ),
    of_the_age(
        "failure bit set at long timeouts only",
        &[
            (
                "gateway.rs",
                "        self.put_failure_bit(rx_number, true);\n",
                "",
            ),
            (
                "gateway.rs",
                "                return 2;",
                "                self.put_failure_bit(rx_number, true);\n return 2;",
            ),
        ],
    ),
    of_the_age(
        "failure bit in the last destination's frame",
        &[(
            "plan.rs",
            "self.signals.first()?.destinations.first()?",
            "self.signals.first()?.destinations.last()?",
        )],
    ),
    mistake(
        "a change of a failure bit schedules",
        &[(
            "gateway.rs",
            "        self.put_failure_bit(rx_number, true);\n",
            "        self.put_failure_bit(rx_number, true);
             if let Some((tx_number, _)) = self.plan.rx_frames[rx_number].failure_bit() {
                 if self.plan.tx_frames[tx_number].send_on_change {
                     self.schedule(tx_number);
                 }
             }\n",
        )],
    ),
    mistake(
        "a change judged by the last bit",
        &[(
            "bits.rs",
            "        if get(order, destination, q + k) != value {
            differed = true;
        }\n",
            "        differed = get(order, destination, q + k) != value;\n",
        )],
    ),
    mistake(
        "a change judged by the last byte",
        &[(
            "bits.rs",
            "        if get(order, destination, q + k) != value {\n",
            "        if get(order, destination, q + k) != value && (q + k) / 8 == (q + s - 1) / 8 {\n",
        )],
    ),
    mistake(
        "one position and size copied a bit short",
        &[(
            "bits.rs",
            "    for k in 0..s {\n",
            "    for k in 0..s - usize::from((p, s) == (11, 50)) {\n",
        )],
    ),
    mistake(
        "one position and size put a bit short",
        &[(
            "bits.rs",
            "    for k in 0..s {\n",
            "    for k in 0..s - usize::from((q, s) == (23, 38)) {\n",
        )],
    ),
    mistake(
        "send on change without a change",
        &[(
            "gateway.rs",
            "(tx_frame.send_on_change && differed)",
            "(tx_frame.send_on_change && (differed || signal.size == 64))",
        )],
    ),
    mistake(
        "scheduling leaves the Tx timer",
        &[(
            "gateway.rs",
            "        self.tx_states[tx_number].timer.reload();\n",
            "",
        )],
    ),
    mistake(
        "a waiting frame's Tx timer stands still",
        &[(
            "gateway.rs",
            "if handled && self.tx_states[tx_number].timer.handle()",
            "if handled && !self.is_waiting(tx_number) && self.tx_states[tx_number].timer.handle()",
        )],
    ),
    mistake(
        "an expired timer stops",
        &[(
            "gateway.rs",
            "        if expired {\n            self.reload();\n        }\n",
            "",
        )],
    ),
    mistake(
        "last in, first out",
        &[("gateway.rs", "queue.pop_front()", "queue.pop_back()")],
    ),
    mistake(
        "the taken frame counted as waiting",
        &[(
            "gateway.rs",
            "let waiting = queue.len();",
            "let waiting = queue.len() + 1;",
        )],
    ),
    mistake(
        "one queue of at most 200",
        &[(
            "gateway.rs",
            "        if self.is_waiting(tx_number) {\n",
            "        let node = self.plan.tx_frames[tx_number].node;
             if self.is_waiting(tx_number) || self.queues[usize::from(node)].len() == 200 {\n",
        )],
    ),
    of_the_age(
        "a short payload reloads the Rx timer",
        &[(
            "gateway.rs",
            "            return Ok(Answer::TooShort);\n",
            "            self.rx_states[rx_number].timer.reload();
             return Ok(Answer::TooShort);\n",
        )],
    ),
    mistake(
        "a longer payload answered 2",
        &[(
            "gateway.rs",
            "payload.len() < self.plan.rx_frames[rx_number].size",
            "payload.len() != self.plan.rx_frames[rx_number].size",
        )],
    ),
    mistake(
        "IDs cut to 11 bits",
        &[
            CUT,
            (
                "gateway.rs",
                "row.id == id)",
                "row.id == cut(id, 0x7FF, u32::MAX))",
            ),
        ],
    ),
    mistake(
        "13 before 12",
        &[(
            "gateway.rs",
            "        self.require_node(node)?;
        // Ticket 2",
            "        require(payload.len() <= 8, Refusal::PayloadTooLong)?;
        self.require_node(node)?;
        // Ticket 2",
        )],
    ),
    mistake(
        "13 after the lookup",
        &[
            (
                "gateway.rs",
                "        require(payload.len() <= 8, Refusal::PayloadTooLong)?;\n",
                "",
            ),
            (
                "gateway.rs",
                "        if self.is_too_short(rx_number, payload) {\n",
                "        require(payload.len() <= 8, Refusal::PayloadTooLong)?;
             if self.is_too_short(rx_number, payload) {\n",
            ),
        ],
    ),
    mistake(
        "the counter moves first",
        &[
            ("gateway.rs", "        self.tick_number += 1;\n", ""),
            (
                "gateway.rs",
                "Refusal::ReportTooShort)?;\n",
                "Refusal::ReportTooShort)?;\n        self.tick_number += 1;\n",
            ),
        ],
    ),
    mistake(
        "the counter wraps at 256",
        &[(
            "gateway.rs",
            "self.tick_number += 1;",
            "self.tick_number = (self.tick_number + 1) % 256;",
        )],
    ),
    mistake(
        "the counter wraps at 170",
        &[(
            "gateway.rs",
            "self.tick_number += 1;",
            "self.tick_number = (self.tick_number + 1) % 170;",
        )],
    ),
    of_the_age(
        "little order as big",
        &[(
            "bits.rs",
            "0x01 << (position % 8)",
            "0x80 >> (position % 8)",
        )],
    ),
    mistake(
        "every signal to its first destination only",
        &[(
            "gateway.rs",
            "for destination in &signal.destinations {",
            "for destination in signal.destinations.iter().take(1) {",
        )],
    ),
    mistake(
        "scheduling in Tx order after all copies",
        &[
            (
                "gateway.rs",
                "                    self.schedule(destination.tx_frame);\n",
                "                    due.push(destination.tx_frame);\n",
            ),
            (
                "gateway.rs",
                "        for signal in &row.signals {\n",
                "        let mut due = Vec::new();\n        for signal in &row.signals {\n",
            ),
            (
                "gateway.rs",
                "            }
        }
    }

    /// \"Lookup searches",
                "            }
        }
        due.sort();
        for tx_number in due {
            self.schedule(tx_number);
        }
    }

    /// \"Lookup searches",
            ),
        ],
    ),
    // Ticket 1: the long counter starts again at every accepted reception.
    mistake(
        "no restart",
        &[(
            "gateway.rs",
            "        self.rx_states[rx_number].long_counter = row.long_count;\n",
            "",
        )],
    ),
    mistake(
        "restart at a too short reception",
        &[(
            "gateway.rs",
            "            return Ok(Answer::TooShort);\n",
            "            let long_count = self.plan.rx_frames[rx_number].long_count;
             self.rx_states[rx_number].long_counter = long_count;
             return Ok(Answer::TooShort);\n",
        )],
    ),
    mistake(
        "restart of the node's rows at a reception that finds no row",
        &[(
            "gateway.rs",
            "            return Ok(Answer::NoMatchingRow { place });\n",
            "            for (row, state) in self.plan.rx_frames.iter().zip(&mut self.rx_states) {
                 if row.node == node {
                     state.long_counter = row.long_count;
                 }
             }
             return Ok(Answer::NoMatchingRow { place });\n",
        )],
    ),
    mistake(
        "restart at a reception refused 12",
        &[(
            "gateway.rs",
            "        self.require_node(node)?;
        // Ticket 2",
            "        for (row, state) in self.plan.rx_frames.iter().zip(&mut self.rx_states) {
                 if row.id == id && usize::from(node) >= self.plan.nodes.len() {
                     state.long_counter = row.long_count;
                 }
             }
             self.require_node(node)?;
             // Ticket 2",
        )],
    ),
    mistake(
        "restart at a reception refused 13",
        &[(
            "gateway.rs",
            "        require(payload.len() <= 8, Refusal::PayloadTooLong)?;\n",
            "        if let (Some(row), 9..) = (self.find_row(node, id), payload.len()) {
                 self.rx_states[row].long_counter = self.plan.rx_frames[row].long_count;
             }
             require(payload.len() <= 8, Refusal::PayloadTooLong)?;\n",
        )],
    ),
    mistake(
        "restart at every tick",
        &[(
            "gateway.rs",
            "            *report_byte = 0;\n",
            "            *report_byte = 0;
             let long_count = self.plan.rx_frames[rx_number].long_count;
             self.rx_states[rx_number].long_counter = long_count;\n",
        )],
    ),
    mistake(
        "restart at a tick without an expiry",
        &[(
            "gateway.rs",
            "                *report_byte = self.expiry(rx_number);
            }\n",
            "                *report_byte = self.expiry(rx_number);
             } else {
                 let long_count = self.plan.rx_frames[rx_number].long_count;
                 self.rx_states[rx_number].long_counter = long_count;
             }\n",
        )],
    ),
    mistake(
        "restart of row 0",
        &[(
            "gateway.rs",
            "self.rx_states[rx_number].long_counter = row.long_count;",
            "self.rx_states[0].long_counter = self.plan.rx_frames[0].long_count;",
        )],
    ),
    mistake(
        "restart of every row",
        &[(
            "gateway.rs",
            "        self.rx_states[rx_number].long_counter = row.long_count;\n",
            "        for (row, state) in self.plan.rx_frames.iter().zip(&mut self.rx_states) {
                 state.long_counter = row.long_count;
             }\n",
        )],
    ),
    mistake(
        "restart of every row of the ID",
        &[(
            "gateway.rs",
            "        self.rx_states[rx_number].long_counter = row.long_count;\n",
            "        let id = row.id;
             for (row, state) in self.plan.rx_frames.iter().zip(&mut self.rx_states) {
                 if row.id == id {
                     state.long_counter = row.long_count;
                 }
             }\n",
        )],
    ),
    mistake(
        "restart at 0",
        &[("gateway.rs", "long_counter = row.long_count;", "long_counter = 0;")],
    ),
    mistake(
        "restart at one less than the long count",
        &[(
            "gateway.rs",
            "long_counter = row.long_count;",
            "long_counter = row.long_count.saturating_sub(1);",
        )],
    ),
    mistake(
        "restart at the long count of row 0",
        &[(
            "gateway.rs",
            "long_counter = row.long_count;",
            "long_counter = self.plan.rx_frames[0].long_count;",
        )],
    ),
    mistake(
        "restart at 14 at most",
        &[(
            "gateway.rs",
            "long_counter = row.long_count;",
            "long_counter = row.long_count.min(14);",
        )],
    ),
    mistake(
        "restart at 1 at least",
        &[(
            "gateway.rs",
            "long_counter = row.long_count;",
            "long_counter = row.long_count.max(1);",
        )],
    ),
    mistake(
        "restart with an enabled indicator only",
        &[(
            "gateway.rs",
            "        self.rx_states[rx_number].long_counter = row.long_count;\n",
            "        if row.failure_enabled {
                 self.rx_states[rx_number].long_counter = row.long_count;
             }\n",
        )],
    ),
    mistake(
        "restart with a signal only",
        &[(
            "gateway.rs",
            "        self.rx_states[rx_number].long_counter = row.long_count;\n",
            "        if !row.signals.is_empty() {
                 self.rx_states[rx_number].long_counter = row.long_count;
             }\n",
        )],
    ),
    mistake(
        "restart at a payload of the row's size only",
        &[(
            "gateway.rs",
            "        self.rx_states[rx_number].long_counter = row.long_count;\n",
            "        if payload.len() == row.size {
                 self.rx_states[rx_number].long_counter = row.long_count;
             }\n",
        )],
    ),
    mistake(
        "restart before the last expiry of the long count only",
        &[(
            "gateway.rs",
            "        self.rx_states[rx_number].long_counter = row.long_count;\n",
            "        if self.rx_states[rx_number].long_counter == 1 {
                 self.rx_states[rx_number].long_counter = row.long_count;
             }\n",
        )],
    ),
    mistake(
        "no restart before the last expiry of the long count",
        &[(
            "gateway.rs",
            "        self.rx_states[rx_number].long_counter = row.long_count;\n",
            "        if self.rx_states[rx_number].long_counter > 1 {
                 self.rx_states[rx_number].long_counter = row.long_count;
             }\n",
        )],
    ),
    mistake(
        "after a long timeout each expiry is long",
        &[(
            "gateway.rs",
            "*long_counter = self.plan.rx_frames[rx_number].long_count;",
            "*long_counter = 1;",
        )],
    ),
    // Ticket 4: how many of that node's rows have a smaller ID.
    mistake(
        "no place",
        &[(
            "bench.rs",
            "line.push_str(&format!(\" {place}\"));",
            "let _ = place;",
        )],
    ),
    mistake(
        "no place where it is 0",
        &[(
            "bench.rs",
            "if let Answer::NoMatchingRow { place } = answer {",
            "if let Answer::NoMatchingRow { place: place @ 1.. } = answer {",
        )],
    ),
    mistake(
        "no place on a node without rows",
        &[(
            "bench.rs",
            "match gateway.receive(node, id, &handed_on(length, &data)) {\n",
            "match gateway.receive(node, id, &handed_on(length, &data)) {
             Ok(Answer::NoMatchingRow { .. })
                 if gateway.plan().rx_frames.iter().all(|row| row.node != node) =>
             {
                 \"rx 1\".to_string()
             }\n",
        )],
    ),
    mistake(
        "no place for an ID above 2047",
        &[(
            "bench.rs",
            "match gateway.receive(node, id, &handed_on(length, &data)) {\n",
            "match gateway.receive(node, id, &handed_on(length, &data)) {
             Ok(Answer::NoMatchingRow { .. })
                 if !id.is_29_bits() && !id.is_in_range() => \"rx 1\".to_string(),\n",
        )],
    ),
    mistake(
        "a place after answer 2",
        &[(
            "bench.rs",
            "        line.push_str(&format!(\" {place}\"));\n    }\n",
            "        line.push_str(&format!(\" {place}\"));
             } else if answer == Answer::TooShort {
                 line.push_str(\" 0\");
             }\n",
        )],
    ),
    mistake(
        "the place in hex",
        &[("bench.rs", "\" {place}\"", "\" {place:x}\"")],
    ),
    mistake(
        "places from 1",
        &[(
            "gateway.rs",
            PLACE,
            "1 + rows.filter(|row| row.node == node && row.id < id).count()",
        )],
    ),
    mistake(
        "the first row not counted",
        &[(
            "gateway.rs",
            PLACE,
            "rows.filter(|row| row.node == node && row.id < id).skip(1).count()",
        )],
    ),
    mistake(
        "the last row not counted",
        &[(
            "gateway.rs",
            PLACE,
            "let rows: Vec<_> = rows.filter(|row| row.node == node).collect();
             let counted = rows.iter().take(rows.len().saturating_sub(1));
             counted.filter(|row| row.id < id).count()",
        )],
    ),
    mistake(
        "a row of the next lower ID not counted",
        &[(
            "gateway.rs",
            PLACE,
            "let is_next = |row: Id| {
                 (row.is_29_bits(), row.number() + 1) == (id.is_29_bits(), id.number())
             };
             rows.filter(|row| row.node == node && row.id < id && !is_next(row.id)).count()",
        )],
    ),
    mistake(
        "rows of all nodes counted",
        &[(
            "gateway.rs",
            PLACE,
            "let _ = node;
             rows.filter(|row| row.id < id).count()",
        )],
    ),
    mistake(
        "the place in the whole plan",
        &[(
            "gateway.rs",
            PLACE,
            "rows.filter(|row| (row.node, row.id) < (node, id)).count()",
        )],
    ),
    mistake(
        "the place in the whole plan on a node without rows",
        &[(
            "gateway.rs",
            PLACE,
            "let has_rows = rows.clone().any(|row| row.node == node);
             rows.filter(|row| (row.node, row.id) < (node, id))
                 .filter(|row| row.node == node || !has_rows)
                 .count()",
        )],
    ),
    mistake(
        "rows with an equal or greater ID counted",
        &[(
            "gateway.rs",
            PLACE,
            "rows.filter(|row| row.node == node && row.id >= id).count()",
        )],
    ),
    mistake(
        "all rows of the node counted",
        &[(
            "gateway.rs",
            PLACE,
            "let _ = id;
             rows.filter(|row| row.node == node).count()",
        )],
    ),
    mistake(
        "Tx frames counted in place of rows",
        &[(
            "gateway.rs",
            "        let rows = self.plan.rx_frames.iter();\n",
            "        let rows = self.plan.tx_frames.iter();\n",
        )],
    ),
    mistake(
        "Tx frames counted with the rows",
        &[(
            "gateway.rs",
            PLACE,
            "let tx_frames = self.plan.tx_frames.iter();
             tx_frames.filter(|tx| tx.node == node && tx.id < id).count()
                 + rows.filter(|row| row.node == node && row.id < id).count()",
        )],
    ),
    mistake(
        "signals counted with the rows",
        &[(
            "gateway.rs",
            PLACE,
            "rows.filter(|row| row.node == node && row.id < id)
                 .map(|row| 1 + row.signals.len())
                 .sum()",
        )],
    ),
    mistake(
        "rows of a stopped timer not counted",
        &[(
            "gateway.rs",
            PLACE,
            "rows.zip(&self.rx_states)
                 .filter(|(row, state)| row.node == node && row.id < id && state.timer.count > 0)
                 .count()",
        )],
    ),
    mistake(
        "strangers counted as rows",
        &[
            (
                "gateway.rs",
                "    tick_number: u64,\n}\n",
                "    tick_number: u64,\n    strangers: Vec<(u8, Id)>,\n}\n",
            ),
            (
                "gateway.rs",
                "            tick_number: 0,\n",
                "            tick_number: 0,\n            strangers: Vec::new(),\n",
            ),
            (
                "gateway.rs",
                "            let place = self.place(node, id);\n",
                "            let before = self.strangers.iter();
             let before = before.filter(|stranger| stranger.0 == node && stranger.1 < id);
             let place = self.place(node, id) + before.count();
             self.strangers.push((node, id));\n",
            ),
        ],
    ),
    mistake(
        "an ID above 2047 at place 0",
        &[(
            "gateway.rs",
            PLACE,
            "let is_above = !id.is_29_bits() && !id.is_in_range();
             rows.filter(|row| row.node == node && row.id < id && !is_above).count()",
        )],
    ),
    mistake(
        "an ID above 2047 after the rows of all nodes",
        &[(
            "gateway.rs",
            PLACE,
            "let is_above = !id.is_29_bits() && !id.is_in_range();
             rows.filter(|row| (row.node == node || is_above) && row.id < id).count()",
        )],
    ),
    mistake(
        "the place of the low 11 bits",
        &[
            CUT,
            (
                "gateway.rs",
                PLACE,
                "let id = cut(id, 0x7FF, u32::MAX);
             rows.filter(|row| row.node == node && row.id < id).count()",
            ),
        ],
    ),
    mistake(
        "the place of the low 12 bits",
        &[
            CUT,
            (
                "gateway.rs",
                PLACE,
                "let id = cut(id, 0xFFF, u32::MAX);
             rows.filter(|row| row.node == node && row.id < id).count()",
            ),
        ],
    ),
    mistake(
        "the place of the ID with a sign",
        &[(
            "gateway.rs",
            PLACE,
            "let signed = |id: Id| match id {
                 Id::Bits11(number) => (0, i64::from(number as i16)),
                 Id::Bits29(number) => (1, i64::from(number)),
             };
             rows.filter(|row| row.node == node && signed(row.id) < signed(id)).count()",
        )],
    ),
    mistake(
        "the place in a byte",
        &[(
            "gateway.rs",
            PLACE,
            "rows.filter(|row| row.node == node && row.id < id).count() % 256",
        )],
    ),
    mistake(
        "the place 255 at most",
        &[(
            "gateway.rs",
            PLACE,
            "rows.filter(|row| row.node == node && row.id < id).count().min(255)",
        )],
    ),
    mistake(
        "the place in the half searched last",
        &[(
            "gateway.rs",
            PLACE,
            "fn in_part(ids: &[Id], id: Id) -> usize {
                 let middle = ids.len() / 2;
                 match ids.get(middle) {
                     None => 0,
                     Some(row) if id < *row => in_part(&ids[..middle], id),
                     Some(_) => in_part(&ids[middle + 1..], id),
                 }
             }
             let rows = rows.filter(|row| row.node == node);
             in_part(&rows.map(|row| row.id).collect::<Vec<Id>>(), id)",
        )],
    ),
    mistake(
        "the middle row not counted before the upper half",
        &[(
            "gateway.rs",
            PLACE,
            "fn in_part(ids: &[Id], id: Id) -> usize {
                 let middle = ids.len() / 2;
                 match ids.get(middle) {
                     None => 0,
                     Some(row) if id < *row => in_part(&ids[..middle], id),
                     Some(_) => middle + in_part(&ids[middle + 1..], id),
                 }
             }
             let rows = rows.filter(|row| row.node == node);
             in_part(&rows.map(|row| row.id).collect::<Vec<Id>>(), id)",
        )],
    ),
    mistake(
        "one place among 13 rows one too high",
        &[(
            "gateway.rs",
            PLACE,
            "let rows: Vec<_> = rows.filter(|row| row.node == node).collect();
             let place = rows.iter().filter(|row| row.id < id).count();
             place + usize::from((rows.len(), place) == (13, 7))",
        )],
    ),
    mistake(
        "one place among 256 rows one too high",
        &[(
            "gateway.rs",
            PLACE,
            "let rows: Vec<_> = rows.filter(|row| row.node == node).collect();
             let place = rows.iter().filter(|row| row.id < id).count();
             place + usize::from((rows.len(), place) == (256, 201))",
        )],
    ),
    mistake(
        "places between the rows of one node one too high",
        &[(
            "gateway.rs",
            PLACE,
            "let rows: Vec<_> = rows.filter(|row| row.node == node).collect();
             let place = rows.iter().filter(|row| row.id < id).count();
             place + usize::from(node == 11 && (1..rows.len()).contains(&place))",
        )],
    ),
    // The plan: counts.
    mistake(
        "15 nodes",
        &[(
            "parse.rs",
            "MOST_NODES: usize = 16",
            "MOST_NODES: usize = 15",
        )],
    ),
    mistake(
        "17 nodes",
        &[(
            "parse.rs",
            "MOST_NODES: usize = 16",
            "MOST_NODES: usize = 17",
        )],
    ),
    mistake(
        "255 Tx frames",
        &[(
            "parse.rs",
            "MOST_TX_FRAMES: usize = 256",
            "MOST_TX_FRAMES: usize = 255",
        )],
    ),
    mistake(
        "257 Tx frames",
        &[(
            "parse.rs",
            "MOST_TX_FRAMES: usize = 256",
            "MOST_TX_FRAMES: usize = 257",
        )],
    ),
    mistake(
        "255 Rx frames",
        &[(
            "parse.rs",
            "MOST_RX_FRAMES: usize = 256",
            "MOST_RX_FRAMES: usize = 255",
        )],
    ),
    mistake(
        "257 Rx frames",
        &[(
            "parse.rs",
            "MOST_RX_FRAMES: usize = 256",
            "MOST_RX_FRAMES: usize = 257",
        )],
    ),
    mistake(
        "1,023 signals",
        &[(
            "parse.rs",
            "MOST_SIGNALS: usize = 1024",
            "MOST_SIGNALS: usize = 1023",
        )],
    ),
    mistake(
        "1,025 signals",
        &[(
            "parse.rs",
            "MOST_SIGNALS: usize = 1024",
            "MOST_SIGNALS: usize = 1025",
        )],
    ),
    mistake(
        "63 signals in a frame",
        &[(
            "parse.rs",
            "IN_A_FRAME: usize = 64",
            "IN_A_FRAME: usize = 63",
        )],
    ),
    mistake(
        "65 signals in a frame",
        &[(
            "parse.rs",
            "IN_A_FRAME: usize = 64",
            "IN_A_FRAME: usize = 65",
        )],
    ),
    mistake(
        "2,047 destinations",
        &[(
            "parse.rs",
            "DESTINATIONS: usize = 2048",
            "DESTINATIONS: usize = 2047",
        )],
    ),
    mistake(
        "2,049 destinations",
        &[(
            "parse.rs",
            "DESTINATIONS: usize = 2048",
            "DESTINATIONS: usize = 2049",
        )],
    ),
    mistake(
        "14 destinations for a signal",
        &[(
            "parse.rs",
            "FOR_A_SIGNAL: usize = 15",
            "FOR_A_SIGNAL: usize = 14",
        )],
    ),
    mistake(
        "16 destinations for a signal",
        &[(
            "parse.rs",
            "FOR_A_SIGNAL: usize = 15",
            "FOR_A_SIGNAL: usize = 16",
        )],
    ),
    // The plan: refusals and their order.
    mistake(
        "refusal 9 named at the follower's record",
        &[(
            "parse.rs",
            "so_far.try_missing_follower(rest.first())?;",
            "so_far
                 .try_missing_follower(rest.first())
                 .map_err(|refused| PlanRefusal { record, ..refused })?;",
        )],
    ),
    mistake(
        "2 before 9",
        &[(
            "parse.rs",
            "so_far.try_missing_follower(rest.first())?;",
            "if rest.is_empty() || body_length(rest[0]).is_some() {
                 so_far.try_missing_follower(rest.first())?;
             }",
        )],
    ),
    mistake(
        "1 before 9",
        &[(
            "parse.rs",
            "so_far.try_missing_follower(rest.first())?;",
            "if rest.is_empty() || rest.len() > body_length(rest[0]).unwrap_or(0) {
                 so_far.try_missing_follower(rest.first())?;
             }",
        )],
    ),
    mistake(
        "a missing destination is not looked for",
        &[(
            "parse.rs",
            "[first] if first.destinations.is_empty() => Some(DESTINATION),",
            "",
        )],
    ),
    mistake(
        "3 before 1",
        &[(
            "parse.rs",
            "        require(rest.len() >= length, Refusal::PastTheEnd)?;\n",
            "        let body = rest.get(1..length).unwrap_or(&[2]);
        require(self.may_stand_here(kind, body), Refusal::KindNotHere)?;
        require(rest.len() >= length, Refusal::PastTheEnd)?;\n",
        )],
    ),
    mistake(
        "a node after a Tx frame",
        &[(
            "parse.rs",
            "matches!(before, HEAD | NODE) &&",
            "matches!(before, HEAD | NODE | TX_FRAME) &&",
        )],
    ),
    mistake(
        "a Tx frame needs a node before it",
        &[(
            "parse.rs",
            "matches!(before, HEAD | NODE | TX_FRAME | TX_FRAME_29)",
            "matches!(before, NODE | TX_FRAME | TX_FRAME_29)",
        )],
    ),
    mistake(
        "5 before 4 at a node",
        &[(
            "parse.rs",
            "        require(self.plan.nodes.len() < MOST_NODES, Refusal::CountPassed)?;
        let node_type = node_type(body[0]).ok_or(Refusal::OutsideRange)?;\n",
            "        let node_type = node_type(body[0]).ok_or(Refusal::OutsideRange)?;
        require(self.plan.nodes.len() < MOST_NODES, Refusal::CountPassed)?;\n",
        )],
    ),
    mistake(
        "6 before 5 for the long count",
        &[
            (
                "parse.rs",
                "        require(rx_frame.long_count <= 15, Refusal::OutsideRange)?;\n",
                "",
            ),
            (
                "parse.rs",
                "        self.plan.rx_frames.push(rx_frame);\n",
                "        require(rx_frame.long_count <= 15, Refusal::OutsideRange)?;
             self.plan.rx_frames.push(rx_frame);\n",
            ),
        ],
    ),
    mistake(
        "equal keys taken",
        &[(
            "parse.rs",
            "(rx_frame.node, rx_frame.id) > (before.node, before.id)",
            "(rx_frame.node, rx_frame.id) >= (before.node, before.id)",
        )],
    ),
    mistake(
        "keys by ID alone",
        &[(
            "parse.rs",
            "(rx_frame.node, rx_frame.id) > (before.node, before.id)",
            "rx_frame.id > before.id",
        )],
    ),
    mistake(
        "payload past the size not looked at",
        &[(
            "parse.rs",
            "past_the_size.iter().all(|b| *b == 0)",
            "past_the_size.len() < 9",
        )],
    ),
    mistake(
        "failure position of a disabled indicator not looked at",
        &[(
            "parse.rs",
            "require(rx_frame.failure_position <= 63,",
            "require(enable == 0 || rx_frame.failure_position <= 63,",
        )],
    ),
    mistake(
        "prescaler 3 taken",
        &[("parse.rs", "1 | 2 | 10 | 20", "1 | 2 | 3 | 10 | 20")],
    ),
    mistake(
        "Tx frame number by its low byte",
        &[(
            "parse.rs",
            "usize::from(two_byte_number(body[0], body[1]))",
            "usize::from(body[1])",
        )],
    ),
    mistake(
        "8 before 7 at a destination",
        &[
            (
                "parse.rs",
                "        require(end <= 8 * tx_frame.size, Refusal::PassesData)?;\n",
                "",
            ),
            (
                "parse.rs",
                "        for bit in position..end {
            own(tx_frame, bit)?;
        }\n",
                "        for bit in position..end.min(64) {
            own(tx_frame, bit)?;
        }
        require(end <= 8 * tx_frame.size, Refusal::PassesData)?;\n",
            ),
        ],
    ),
    mistake(
        "9 for the failure bit before 8 of the destination",
        &[
            (
                "parse.rs",
                "            require(bit < 8 * tx_frame.size, Refusal::BadIndicator)?;\n",
                "",
            ),
            (
                "parse.rs",
                "        for bit in position..end {\n",
                "        if rx_frame.failure_enabled && is_first_signal && for_signal == 0 {
                 let bit = rx_frame.failure_position;
                 require(bit < 8 * tx_frame.size, Refusal::BadIndicator)?;
             }
             for bit in position..end {\n",
            ),
        ],
    ),
    mistake(
        "a failure bit owns nothing",
        &[(
            "parse.rs",
            "            own(tx_frame, bit)?;
        }

        signal",
            "        }

        signal",
        )],
    ),
    mistake(
        "a failure bit past the data refused as 7",
        &[(
            "parse.rs",
            "require(bit < 8 * tx_frame.size, Refusal::BadIndicator)?;",
            "require(bit < 8 * tx_frame.size, Refusal::PassesData)?;",
        )],
    ),
    // The bench program.
    mistake(
        "65,537 bytes taken",
        &[("bench.rs", "usize = 65_536", "usize = 65_537")],
    ),
    mistake(
        "65,536 bytes not taken",
        &[("bench.rs", "usize = 65_536", "usize = 65_535")],
    ),
    mistake(
        "a length above 8 handed on as eight bytes",
        &[("bench.rs", "vec![0; 9]", "vec![0; 8]")],
    ),
    mistake(
        "a cut event is left out without a word",
        &[(
            "bench.rs",
            "            lines.add(INPUT_BAD);
            break;",
            "            if rest[0] != 16 {
                lines.add(INPUT_BAD);
            }
            break;",
        )],
    ),
    mistake(
        "a space after an empty report",
        &[(
            "bench.rs",
            "let mut line = \"tick\".to_string();",
            "let mut line = if report.is_empty() { \"tick \" } else { \"tick\" }.to_string();",
        )],
    ),
    mistake(
        "payload in capitals",
        &[("bench.rs", "{byte:02x}", "{byte:02X}")],
    ),
];
