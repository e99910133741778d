//! Ticket 8: mistakes that hand back a fix of failure bit 0 that is too old, or
//! a bit that is not that of the last acceptance.

use crate::list::{of_the_age, Mistake};

/// Where the second program reloads the Rx timer.
const RELOAD: &str = "        self.rx_states[rx_number].timer.reload();\n";

/// Where it clears the failure bit.
const CLEAR: &str = "        self.put_failure_bit(rx_number, false);\n";

/// Where it lets an Rx timer expire.
const EXPIRY: &str = "if handled && self.rx_states[rx_number].timer.handle() {";

/// Where it copies.
const COPY: &str = "                let differed = bits::copy(
                    self.plan.order,
                    payload,
                    signal.position,
                    signal.size,
                    &mut self.tx_states[destination.tx_frame].payload,
                    destination.position,
                );\n";

pub const AGES: &[Mistake] = &[
    // The timers.
    of_the_age(
        "an Rx timer takes one more than its reload value",
        &[(
            "gateway.rs",
            RELOAD,
            "        let timer = &mut self.rx_states[rx_number].timer;
             timer.count = timer.reload.saturating_add(u8::from(timer.reload > 0));\n",
        )],
    ),
    of_the_age(
        "a reload value above 127 stops the timer",
        &[(
            "gateway.rs",
            "        if self.count == 0 {\n",
            "        if self.count == 0 || self.count > 127 {\n",
        )],
    ),
    of_the_age(
        "the masks on a counter in hex",
        &[(
            "gateway.rs",
            "self.tick_number.is_multiple_of(u64::from(prescaler))",
            "self.tick_number.is_multiple_of(match prescaler {
                 10 => 16,
                 20 => 32,
                 _ => u64::from(prescaler),
             })",
        )],
    ),
    of_the_age(
        "ticks past 4,095 not counted",
        &[(
            "gateway.rs",
            "self.tick_number += 1;",
            "self.tick_number = (self.tick_number + 1).min(4_095);",
        )],
    ),
    of_the_age(
        "an Rx timer stands still while the frame of its failure bit waits",
        &[(
            "gateway.rs",
            EXPIRY,
            "let waits = self.plan.rx_frames[rx_number]
                 .failure_bit()
                 .is_some_and(|(tx_number, _)| self.is_waiting(tx_number));
             if handled && !waits && self.rx_states[rx_number].timer.handle() {",
        )],
    ),
    of_the_age(
        "a reception that finds no row reloads the node's Rx timers",
        &[(
            "gateway.rs",
            "            return Ok(Answer::NoMatchingRow { place });\n",
            "            for (row, state) in self.plan.rx_frames.iter().zip(&mut self.rx_states) {
                 if row.node == node {
                     state.timer.reload();
                 }
             }
             return Ok(Answer::NoMatchingRow { place });\n",
        )],
    ),
    of_the_age(
        "a reception refused 13 reloads the Rx timer",
        &[(
            "gateway.rs",
            "        require(payload.len() <= 8, Refusal::PayloadTooLong)?;\n",
            "        if let (Some(row), 9..) = (self.find_row(node, id), payload.len()) {
                 self.rx_states[row].timer.reload();
             }
             require(payload.len() <= 8, Refusal::PayloadTooLong)?;\n",
        )],
    ),
    of_the_age(
        "a reception reloads the Rx timers of all rows",
        &[(
            "gateway.rs",
            RELOAD,
            "        for state in &mut self.rx_states {
                 state.timer.reload();
             }\n",
        )],
    ),
    // The failure bits.
    of_the_age(
        "a take clears the failure bits of its frame",
        &[(
            "gateway.rs",
            "            Waiting::Frame(tx_number) => Taken::Frame(self.taken_frame(tx_number, waiting)),\n",
            "            Waiting::Frame(tx_number) => {
                 let taken = Taken::Frame(self.taken_frame(tx_number, waiting));
                 for row in 0..self.plan.rx_frames.len() {
                     let failure_bit = self.plan.rx_frames[row].failure_bit();
                     if failure_bit.is_some_and(|(frame, _)| frame == tx_number) {
                         self.put_failure_bit(row, false);
                     }
                 }
                 taken
             }\n",
        )],
    ),
    of_the_age(
        "a too short reception clears the failure bit",
        &[(
            "gateway.rs",
            "            return Ok(Answer::TooShort);\n",
            "            self.put_failure_bit(rx_number, false);
             return Ok(Answer::TooShort);\n",
        )],
    ),
    of_the_age(
        "a reception clears all failure bits of the frames it goes to",
        &[(
            "gateway.rs",
            CLEAR,
            "        for other in 0..self.plan.rx_frames.len() {
                 let failure_bit = self.plan.rx_frames[other].failure_bit();
                 let mut to = row.signals.iter().flat_map(|signal| &signal.destinations);
                 if failure_bit.is_some_and(|(frame, _)| to.any(|to| to.tx_frame == frame)) {
                     self.put_failure_bit(other, false);
                 }
             }\n",
        )],
    ),
    of_the_age(
        "failure bit set at the first expiry since opening only",
        &[
            (
                "gateway.rs",
                "    long_counter: u8,\n}",
                "    long_counter: u8,\n    has_expired: bool,\n}",
            ),
            (
                "gateway.rs",
                "                long_counter: rx_frame.long_count,\n",
                "                long_counter: rx_frame.long_count,
                 has_expired: false,\n",
            ),
            (
                "gateway.rs",
                "        self.put_failure_bit(rx_number, true);\n",
                "        if !self.rx_states[rx_number].has_expired {
                 self.put_failure_bit(rx_number, true);
             }
             self.rx_states[rx_number].has_expired = true;\n",
            ),
        ],
    ),
    // The bits from the source.
    of_the_age(
        "no copy into a waiting frame",
        &[(
            "gateway.rs",
            COPY,
            "                if self.is_waiting(destination.tx_frame) {
                     continue;
                 }
                 let differed = bits::copy(
                     self.plan.order,
                     payload,
                     signal.position,
                     signal.size,
                     &mut self.tx_states[destination.tx_frame].payload,
                     destination.position,
                 );\n",
        )],
    ),
    of_the_age(
        "the first reception after a timeout clears the failure bit only",
        &[(
            "gateway.rs",
            CLEAR,
            "        let failed = row.failure_bit().is_some_and(|(frame, at)| self.kept_bit(frame, at));
             self.put_failure_bit(rx_number, false);
             if failed {
                 return;
             }\n",
        )],
    ),
];
