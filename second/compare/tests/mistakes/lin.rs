//! Ticket 2: mistakes of LIN nodes, their requests, responses and checksums.

use crate::list::{mistake, Mistake};

/// Where the second program folds a carry.
const FOLD: &str = "        if sum >= 256 {
            sum = sum - 256 + 1;
        }\n";

/// Where it puts the protected identifier before the data.
const IDENTIFIER: &str = "let mut bytes = vec![protected_identifier(id)];";

/// Where it lets a request wait.
const JOIN: &str = ".push_back(Waiting::Request(rx_number));\n";

/// Where it queues a request.
const ASK: &str = "            self.request(rx_number);\n            return 0;\n";

/// Where it tests the payload of a response.
const TOO_LONG: &str = "        require(payload.len() <= 8, Refusal::PayloadTooLong)?;\n";

/// Where it tests the type of the node for the LIN calls.
const IS_LIN: &str =
    "        require(self.is_of_type(node, NodeType::Lin), Refusal::NotOfThisNode)?;\n";

/// Where it tests the type of the node for the old reception.
const IS_CAN: &str =
    "        require(self.is_of_type(node, NodeType::Can), Refusal::NotOfThisNode)?;\n";

/// Where it looks for the row of a LIN call.
const FIND: &str = "self.find_row(node, Id::Bits11(id))";

/// Where it accepts, for CAN and LIN rows alike.
const ACCEPT: &str = "        let row = self.plan.rx_frames[rx_number].clone();\n";

/// Where it tests the checksum.
const CHECKSUM: &str = "        if checksum != enhanced_checksum(id, payload) {
            return Ok(Answer::WrongChecksum);
        }\n";

/// Where it has the ranges of LIN.
const RANGES: &str = "(Id::Bits11(lin::GREATEST_ID), lin::LEAST_SIZE)";

/// The Tx timers of a tick.
const TX_TIMERS: &str = "        for tx_number in 0..self.plan.tx_frames.len() {
            let handled = self.is_handled(self.plan.tx_frames[tx_number].prescaler);
            if handled && self.tx_states[tx_number].timer.handle() {
                self.schedule(tx_number);
            }
        }\n";

/// The end of a tick.
const TICK_END: &str = "        // \"The counter moves on last.\"\n";

pub const LIN: &[Mistake] = &[
    // The protected identifier.
    mistake(
        "parity bits exchanged",
        &[(
            "lin.rs",
            "bit_6 << 6 | bit_7 << 7",
            "bit_6 << 7 | bit_7 << 6",
        )],
    ),
    mistake(
        "parity bit 7 not inverted",
        &[("lin.rs", "1 ^ (bit(1)", "(bit(1)")],
    ),
    mistake(
        "parity bit 6 inverted",
        &[("lin.rs", "bit(0) ^ bit(1)", "1 ^ bit(0) ^ bit(1)")],
    ),
    mistake(
        "parity bit 6 of bits 0, 1, 2 and 3",
        &[("lin.rs", "bit(2) ^ bit(4);", "bit(2) ^ bit(3);")],
    ),
    mistake(
        "parity bit 7 without bit 5",
        &[("lin.rs", "bit(3) ^ bit(4) ^ bit(5)", "bit(3) ^ bit(4)")],
    ),
    mistake(
        "the protected identifier of one ID wrong",
        &[(
            "lin.rs",
            "    (id & 0x3F) as u8 | bit_6 << 6",
            "    let bit_6 = bit_6 ^ u8::from(id == 47);
    (id & 0x3F) as u8 | bit_6 << 6",
        )],
    ),
    // The checksum.
    mistake(
        "the checksum without the identifier",
        &[("lin.rs", IDENTIFIER, "let _ = id; let mut bytes = vec![];")],
    ),
    mistake(
        "the checksum with the plain ID",
        &[("lin.rs", IDENTIFIER, "let mut bytes = vec![id as u8];")],
    ),
    mistake(
        "a carry dropped",
        &[("lin.rs", FOLD, "        sum %= 256;\n")],
    ),
    mistake(
        "carries folded once, at the end",
        &[
            ("lin.rs", FOLD, ""),
            ("lin.rs", "    sum as u8\n", "    (sum % 256 + sum / 256) as u8\n"),
        ],
    ),
    mistake(
        "a sum by 255",
        &[("lin.rs", FOLD, "        sum %= 255;\n")],
    ),
    mistake(
        "the checksum not inverted",
        &[("lin.rs", "!folded_sum(&bytes)", "folded_sum(&bytes)")],
    ),
    mistake(
        "the checksum of the row's size",
        &[(
            "responses.rs",
            "enhanced_checksum(id, payload)",
            "enhanced_checksum(id, &payload[..self.plan().rx_frames[rx_number].size])",
        )],
    ),
    mistake(
        "the checksum of all eight data bytes",
        &[
            (
                "bench.rs",
                "gateway.response(node, id, &handed_on(length, &data), checksum)",
                "gateway.response(node, id, &handed_on(length, &data), if checksum
                     == crate::lin::enhanced_checksum(id, &data) {
                     crate::lin::enhanced_checksum(id, &handed_on(length, &data))
                 } else {
                     checksum
                 })",
            ),
        ],
    ),
    mistake(
        "a checksum of 0 not looked at",
        &[(
            "responses.rs",
            "if checksum != enhanced_checksum(id, payload) {",
            "if checksum != 0 && checksum != enhanced_checksum(id, payload) {",
        )],
    ),
    mistake(
        "no checksum looked at",
        &[("responses.rs", CHECKSUM, "        let _ = (checksum, enhanced_checksum);\n")],
    ),
    mistake(
        "a wrong checksum answered 2",
        &[("responses.rs", "Ok(Answer::WrongChecksum)", "Ok(Answer::TooShort)")],
    ),
    mistake(
        "a wrong checksum restarts and clears the failure bit",
        &[(
            "responses.rs",
            "            return Ok(Answer::WrongChecksum);\n",
            "            self.accept(rx_number, payload);
             return Ok(Answer::WrongChecksum);\n",
        )],
    ),
    // Requests.
    mistake(
        "a second request while one waits",
        &[(
            "gateway.rs",
            "        if self.is_requested(rx_number) {\n",
            "        if self.is_requested(rx_number) && rx_number > 256 {\n",
        )],
    ),
    mistake(
        "a request never again",
        &[
            ("gateway.rs", "    long_counter: u8,\n}", "    long_counter: u8,\n    asked: bool,\n}"),
            (
                "gateway.rs",
                "                long_counter: rx_frame.long_count,\n",
                "                long_counter: rx_frame.long_count,\n                asked: false,\n",
            ),
            (
                "gateway.rs",
                "        if self.is_requested(rx_number) {\n",
                "        if std::mem::replace(&mut self.rx_states[rx_number].asked, true) {\n",
            ),
        ],
    ),
    mistake(
        "a request that sets the failure bit",
        &[(
            "gateway.rs",
            ASK,
            "            self.put_failure_bit(rx_number, true);
             self.request(rx_number);
             return 0;\n",
        )],
    ),
    mistake(
        "a request that clears the failure bit",
        &[(
            "gateway.rs",
            ASK,
            "            self.put_failure_bit(rx_number, false);
             self.request(rx_number);
             return 0;\n",
        )],
    ),
    mistake(
        "a request that lowers the long counter",
        &[(
            "gateway.rs",
            ASK,
            "            let long_counter = &mut self.rx_states[rx_number].long_counter;
             if *long_counter > 1 {
                 *long_counter -= 1;
             }
             self.request(rx_number);
             return 0;\n",
        )],
    ),
    mistake(
        "a request that restarts the long counter",
        &[(
            "gateway.rs",
            ASK,
            "            let long_count = self.plan.rx_frames[rx_number].long_count;
             self.rx_states[rx_number].long_counter = long_count;
             self.request(rx_number);
             return 0;\n",
        )],
    ),
    mistake(
        "a request reported as 1",
        &[(
            "gateway.rs",
            ASK,
            "            self.request(rx_number);\n            return 1;\n",
        )],
    ),
    mistake(
        "a LIN row that times out as a CAN row",
        &[(
            "gateway.rs",
            ASK,
            "            self.request(rx_number);\n",
        )],
    ),
    mistake(
        "requests before frames in a tick",
        &[
            ("gateway.rs", TX_TIMERS, ""),
            (
                "gateway.rs",
                TICK_END,
                "        for tx_number in 0..self.plan.tx_frames.len() {
                 let handled = self.is_handled(self.plan.tx_frames[tx_number].prescaler);
                 if handled && self.tx_states[tx_number].timer.handle() {
                     self.schedule(tx_number);
                 }
             }\n",
            ),
        ],
    ),
    mistake(
        "requests before all frames that wait",
        &[(
            "gateway.rs",
            JOIN,
            ".push_front(Waiting::Request(rx_number));\n",
        )],
    ),
    mistake(
        "requests taken after all frames",
        &[(
            "gateway.rs",
            "        let Some(oldest) = queue.pop_front() else {\n",
            "        let is_frame = |waiting: &Waiting| matches!(waiting, Waiting::Frame(_));
             let first = queue.iter().position(is_frame).unwrap_or(0);
             let Some(oldest) = queue.remove(first) else {\n",
        )],
    ),
    mistake(
        "requests of a tick in falling order",
        &[(
            "gateway.rs",
            JOIN,
            ".push_back(Waiting::Request(rx_number));
             let queue = &mut self.queues[usize::from(node)];
             let end = queue.len() - 1;
             if end > 0 && matches!(queue[end - 1], Waiting::Request(before) if before < rx_number) {
                 queue.swap(end - 1, end);
             }\n",
        )],
    ),
    mistake(
        "requests in the queue of the first node",
        &[
            ("gateway.rs", JOIN, ".len();\n        self.queues[0].push_back(Waiting::Request(rx_number));\n"),
        ],
    ),
    mistake(
        "a queue of at most 256",
        &[(
            "gateway.rs",
            "        if self.is_requested(rx_number) {\n",
            "        let node = self.plan.rx_frames[rx_number].node;
             if self.is_requested(rx_number) || self.queues[usize::from(node)].len() >= 256 {\n",
        )],
    ),
    mistake(
        "requests not counted as waiting",
        &[(
            "gateway.rs",
            "let waiting = queue.len();",
            "let is_frame = |waiting: &&Waiting| matches!(waiting, Waiting::Frame(_));
             let waiting = queue.iter().filter(is_frame).count();",
        )],
    ),
    mistake(
        "frames not counted as waiting behind a request",
        &[(
            "gateway.rs",
            "let waiting = queue.len();",
            "let waiting = match oldest {
                 Waiting::Frame(_) => queue.len(),
                 Waiting::Request(_) => {
                     let is_request = |waiting: &&Waiting| matches!(waiting, Waiting::Request(_));
                     queue.iter().filter(is_request).count()
                 }
             };",
        )],
    ),
    mistake(
        "the waiting count in a byte",
        &[(
            "gateway.rs",
            "let waiting = queue.len();",
            "let waiting = queue.len() % 256;",
        )],
    ),
    mistake(
        "one number for a frame and a request",
        &[(
            "gateway.rs",
            "        self.queues[usize::from(node)].contains(&Waiting::Request(rx_number))\n",
            "        let queue = &self.queues[usize::from(node)];
             queue.contains(&Waiting::Request(rx_number)) || queue.contains(&Waiting::Frame(rx_number))\n",
        )],
    ),
    // The timers.
    mistake(
        "a LIN timer that stands still while its request waits",
        &[(
            "gateway.rs",
            "if handled && self.rx_states[rx_number].timer.handle() {",
            "if handled && !self.is_requested(rx_number) && self.rx_states[rx_number].timer.handle() {",
        )],
    ),
    mistake(
        "a LIN timer that starts anew at the take of its request",
        &[(
            "gateway.rs",
            "            Waiting::Request(rx_number) => Taken",
            "            Waiting::Request(rx_number) if {
                 self.rx_states[rx_number].timer.reload();
                 false
             } => return Ok(None),
             Waiting::Request(rx_number) => Taken",
        )],
    ),
    mistake(
        "a response that reloads the LIN timer",
        &[(
            "gateway.rs",
            ACCEPT,
            "        let row = self.plan.rx_frames[rx_number].clone();
             self.rx_states[rx_number].timer.reload();\n",
        )],
    ),
    mistake(
        "no response that reloads the LIN timer",
        &[(
            "gateway.rs",
            "        self.put_failure_bit(rx_number, true);\n",
            "        self.put_failure_bit(rx_number, true);
             self.rx_states[rx_number].timer.reload();\n",
        )],
    ),
    // Responses and no response.
    mistake(
        "a response that takes the waiting request away",
        &[(
            "gateway.rs",
            ACCEPT,
            "        let row = self.plan.rx_frames[rx_number].clone();
             self.queues[usize::from(row.node)].retain(|w| *w != Waiting::Request(rx_number));\n",
        )],
    ),
    mistake(
        "no response that takes the waiting request away",
        &[(
            "gateway.rs",
            "        self.put_failure_bit(rx_number, true);\n",
            "        self.put_failure_bit(rx_number, true);
             let node = self.plan.rx_frames[rx_number].node;
             self.queues[usize::from(node)].retain(|w| *w != Waiting::Request(rx_number));\n",
        )],
    ),
    mistake(
        "an unasked response not accepted",
        &[(
            "responses.rs",
            "        self.accept(rx_number, payload);\n",
            "        if !self.is_requested(rx_number) {
                 return Ok(Answer::Accepted);
             }
             self.accept(rx_number, payload);\n",
        )],
    ),
    mistake(
        "no restart on LIN",
        &[(
            "gateway.rs",
            "        self.rx_states[rx_number].long_counter = row.long_count;\n",
            "        if !self.plan.is_on_lin(&row) {
                 self.rx_states[rx_number].long_counter = row.long_count;
             }\n",
        )],
    ),
    mistake(
        "failure bit not cleared on LIN",
        &[(
            "gateway.rs",
            "        self.put_failure_bit(rx_number, false);\n",
            "        if !self.plan.is_on_lin(&row) {
                 self.put_failure_bit(rx_number, false);
             }\n",
        )],
    ),
    mistake(
        "no response that always answers 1",
        &[(
            "responses.rs",
            "Ok(self.time_out(rx_number))",
            "Ok(self.time_out(rx_number).min(1))",
        )],
    ),
    mistake(
        "no response that leaves bit and long counter",
        &[(
            "responses.rs",
            "Ok(self.time_out(rx_number))",
            "Ok(1 + u8::from(self.plan().rx_frames[rx_number].long_count == 1))",
        )],
    ),
    mistake(
        "no response without an indicator answers 0",
        &[(
            "responses.rs",
            "Ok(self.time_out(rx_number))",
            "let enabled = self.plan().rx_frames[rx_number].failure_enabled;
             Ok(self.time_out(rx_number) * u8::from(enabled))",
        )],
    ),
    mistake(
        "no response schedules the frame of the failure bit",
        &[(
            "gateway.rs",
            "        self.put_failure_bit(rx_number, true);\n",
            "        self.put_failure_bit(rx_number, true);
             if self.plan.is_on_lin(&self.plan.rx_frames[rx_number]) {
                 if let Some((tx_number, _)) = self.plan.rx_frames[rx_number].failure_bit() {
                     self.schedule(tx_number);
                 }
             }\n",
        )],
    ),
    // The order of the tests.
    mistake(
        "3 tested before 2",
        &[
            ("responses.rs", CHECKSUM, ""),
            (
                "responses.rs",
                TOO_LONG,
                "        require(payload.len() <= 8, Refusal::PayloadTooLong)?;
             if checksum != enhanced_checksum(id, payload) {
                 return Ok(Answer::WrongChecksum);
             }\n",
            ),
        ],
    ),
    mistake(
        "3 tested before 13",
        &[(
            "responses.rs",
            TOO_LONG,
            "        if payload.len() > 8 && checksum != enhanced_checksum(id, payload) {
                 return Ok(Answer::WrongChecksum);
             }
             require(payload.len() <= 8, Refusal::PayloadTooLong)?;\n",
        )],
    ),
    mistake(
        "16 after 13, a response",
        &[(
            "responses.rs",
            "        let rx_number = self.require_lin_row(node, id)?;\n        require(",
            "        self.require_node(node)?;
             require(payload.len() <= 8, Refusal::PayloadTooLong)?;
             let rx_number = self.require_lin_row(node, id)?;
             require(",
        )],
    ),
    mistake(
        "12 after 13, a response",
        &[(
            "responses.rs",
            "        let rx_number = self.require_lin_row(node, id)?;\n        require(",
            "        require(payload.len() <= 8 || self.plan().node_type(node).is_some(), Refusal::PayloadTooLong)?;
             let rx_number = self.require_lin_row(node, id)?;
             require(",
        )],
    ),
    mistake(
        "16 before 12, the new calls",
        &[(
            "responses.rs",
            "        self.require_node(node)?;\n",
            "",
        )],
    ),
    mistake(
        "16 after 13, the old reception",
        &[
            ("gateway.rs", IS_CAN, ""),
            (
                "gateway.rs",
                TOO_LONG,
                "        require(payload.len() <= 8, Refusal::PayloadTooLong)?;
             require(self.is_of_type(node, NodeType::Can), Refusal::NotOfThisNode)?;\n",
            ),
        ],
    ),
    mistake(
        "16 after the lookup, the old reception",
        &[
            ("gateway.rs", IS_CAN, ""),
            (
                "gateway.rs",
                "        if self.is_too_short(rx_number, payload) {\n",
                "        require(self.is_of_type(node, NodeType::Can), Refusal::NotOfThisNode)?;
             if self.is_too_short(rx_number, payload) {\n",
            ),
        ],
    ),
    mistake(
        "the old reception taken on a LIN node",
        &[("gateway.rs", IS_CAN, "")],
    ),
    mistake(
        "the new calls taken on a CAN node",
        &[("responses.rs", IS_LIN, "        let _ = NodeType::Lin;\n")],
    ),
    mistake(
        "the low 6 bits of the ID looked for",
        &[(
            "responses.rs",
            FIND,
            "self.find_row(node, Id::Bits11(id & 0x3F))",
        )],
    ),
    mistake(
        "the protected identifier looked for too",
        &[(
            "responses.rs",
            FIND,
            "{
                 let plain = (60..256).contains(&id)
                     && crate::lin::protected_identifier(id) == id as u8;
                 self.find_row(node, Id::Bits11(if plain { id & 0x3F } else { id }))
             }",
        )],
    ),
    mistake(
        "rows of any node looked for",
        &[(
            "responses.rs",
            FIND,
            "(0..16).find_map(|any| self.find_row(any, Id::Bits11(id)))",
        )],
    ),
    // The plan.
    mistake(
        "CAN after LIN accepted",
        &[("parse.rs", " && !self.is_can_after_lin(body)", " || self.is_can_after_lin(body)")],
    ),
    mistake(
        "CAN after LIN refused as 5",
        &[
            ("parse.rs", " && !self.is_can_after_lin(body)", ""),
            (
                "parse.rs",
                "        self.plan.nodes.push(node_type);\n",
                "        require(!self.is_can_after_lin(body), Refusal::OutsideRange)?;
             self.plan.nodes.push(node_type);\n",
            ),
        ],
    ),
    mistake(
        "4 before 3, CAN after LIN",
        &[
            ("parse.rs", " && !self.is_can_after_lin(body)", ""),
            (
                "parse.rs",
                "        self.plan.nodes.push(node_type);\n",
                "        require(!self.is_can_after_lin(body), Refusal::KindNotHere)?;
             self.plan.nodes.push(node_type);\n",
            ),
        ],
    ),
    mistake(
        "a type that does not exist refused as 3 after LIN",
        &[(
            "parse.rs",
            "node_type(body[0]) == Some(NodeType::Can) &&",
            "node_type(body[0]) != Some(NodeType::Lin) &&",
        )],
    ),
    mistake(
        "CAN after LIN refused where the first node is LIN only",
        &[(
            "parse.rs",
            "self.plan.nodes.contains(&NodeType::Lin)",
            "self.plan.nodes.first() == Some(&NodeType::Lin)",
        )],
    ),
    mistake(
        "LIN after CAN refused",
        &[(
            "parse.rs",
            " && !self.is_can_after_lin(body)",
            " && !self.is_can_after_lin(body)
                 && (body[0] != 1 || !self.plan.nodes.contains(&NodeType::Can))",
        )],
    ),
    mistake(
        "node type 2 taken as LIN",
        &[("parse.rs", "        1 => Some(NodeType::Lin),", "        1 | 2 => Some(NodeType::Lin),")],
    ),
    mistake(
        "ID 60 taken on LIN",
        &[("parse.rs", RANGES, "(Id::Bits11(60), lin::LEAST_SIZE)")],
    ),
    mistake(
        "IDs to 63 taken on LIN",
        &[("parse.rs", RANGES, "(Id::Bits11(63), lin::LEAST_SIZE)")],
    ),
    mistake(
        "ID 59 not taken on LIN",
        &[("parse.rs", RANGES, "(Id::Bits11(58), lin::LEAST_SIZE)")],
    ),
    mistake(
        "IDs of CAN taken on LIN",
        &[("parse.rs", RANGES, "(Id::Bits11(2047), lin::LEAST_SIZE)")],
    ),
    mistake(
        "size 0 taken on LIN",
        &[("parse.rs", RANGES, "(Id::Bits11(lin::GREATEST_ID), 0)")],
    ),
    mistake(
        "size 1 not taken on LIN",
        &[("parse.rs", RANGES, "(Id::Bits11(lin::GREATEST_ID), 2)")],
    ),
    mistake(
        "size 0 of an Rx frame taken on LIN",
        &[(
            "parse.rs",
            "        self.require_frame_ranges(rx_frame.node, rx_frame.id, rx_frame.size)?;\n",
            "        self.require_frame_ranges(rx_frame.node, rx_frame.id, rx_frame.size.max(1))?;\n",
        )],
    ),
    // The bench program.
    mistake(
        "a response without its checksum byte",
        &[
            ("bench.rs", "        20 => 13,\n", "        20 => 12,\n"),
            ("bench.rs", "checksum: body[12],", "checksum: 0,"),
        ],
    ),
    mistake(
        "a cut response is left out without a word",
        &[(
            "bench.rs",
            "            lines.add(INPUT_BAD);
            break;",
            "            if rest[0] != 20 {
                lines.add(INPUT_BAD);
            }
            break;",
        )],
    ),
    mistake(
        "a cut no response is left out without a word",
        &[(
            "bench.rs",
            "            lines.add(INPUT_BAD);
            break;",
            "            if rest[0] != 21 {
                lines.add(INPUT_BAD);
            }
            break;",
        )],
    ),
    mistake(
        "a request printed with its protected identifier",
        &[(
            "bench.rs",
            "taken.rx_frame, taken.id, taken.size, taken.waiting",
            "taken.rx_frame, taken.protected_identifier, taken.size, taken.waiting",
        )],
    ),
    mistake(
        "a LIN frame printed with its protected identifier",
        &[(
            "bench.rs",
            "        taken.tx_frame, taken.id, taken.size, taken.waiting",
            "        taken.tx_frame,
             taken.on_lin.map_or(taken.id, |lin| Id::Bits11(lin.protected_identifier.into())),
             taken.size,
             taken.waiting",
        )],
    ),
];
