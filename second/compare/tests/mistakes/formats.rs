//! Ticket 6: mistakes of 29-bit IDs: lookup, places, takes, event 19, and the rules
//! that are those of 11-bit IDs.

use crate::list::{mistake, Mistake, Sentence, CUT, PLACE};

/// Where the second program compares the ID of a row.
const FIND: &str = "row.node == node && row.id == id)";

/// Where it prints an ID of 29 bits, and of 11.
const SHOW_29: &str = "write!(f, \"e{number}\")";
const SHOW_11: &str = "write!(f, \"{number}\")";

/// Where it reads the ID of event 19.
const EVENT_ID: &str = "id: Id::Bits29(four_byte_number(&body[1..5])),";

/// Where it tests the type of the node, and the length of a payload.
const IS_CAN: &str = "require(self.is_of_type(node, NodeType::Can), Refusal::NotOfThisNode)?;";
const TOO_LONG: &str = "        require(payload.len() <= 8, Refusal::PayloadTooLong)?;\n";

/// Where it accepts.
const RESTART: &str = "        self.rx_states[rx_number].long_counter = row.long_count;\n";
const CLEAR: &str = "        self.put_failure_bit(rx_number, false);\n";
const RELOAD: &str = "        self.rx_states[rx_number].timer.reload();\n";

/// Where it lets a frame wait.
const JOIN: &str = "self.queues[usize::from(node)].push_back(Waiting::Frame(tx_number));";

/// Where it takes the oldest.
const OLDEST: &str = "let Some(oldest) = queue.pop_front() else {";

/// The same sentences as in `list`, broken on frames of 29 bits.
const AGE: Sentence = Sentence {
    shapes: &["formats: "],
    said: "\nage of a fix, line ",
};
const QUEUE: Sentence = Sentence {
    shapes: &["formats: "],
    said: "\nqueue room, line ",
};

pub const FORMATS: &[Mistake] = &[
    // Lookup.
    mistake(
        "formats mixed in lookup",
        &[(
            "gateway.rs",
            FIND,
            "row.node == node && row.id.number() == id.number())",
        )],
    ),
    mistake(
        "a 29-bit reception taken by an 11-bit row, if there is no other",
        &[(
            "gateway.rs",
            "rows.iter().position(|row| row.node == node && row.id == id)",
            "let of = |id| rows.iter().position(|row| row.node == node && row.id == id);
             of(id).or_else(|| match id {
                 Id::Bits29(number) => of(Id::Bits11(u16::try_from(number).ok()?)),
                 Id::Bits11(_) => None,
             })",
        )],
    ),
    mistake(
        "an 11-bit reception taken by a 29-bit row, if there is no other",
        &[(
            "gateway.rs",
            "rows.iter().position(|row| row.node == node && row.id == id)",
            "let of = |id| rows.iter().position(|row| row.node == node && row.id == id);
             of(id).or_else(|| match id {
                 Id::Bits11(number) => of(Id::Bits29(number.into())),
                 Id::Bits29(_) => None,
             })",
        )],
    ),
    mistake(
        "29-bit rows never found",
        &[(
            "gateway.rs",
            FIND,
            "row.node == node && row.id == id && !id.is_29_bits())",
        )],
    ),
    mistake(
        "the last row of 29 bits never found",
        &[(
            "gateway.rs",
            FIND,
            "row.node == node && row.id == id && id != Id::Bits29(536_870_911))",
        )],
    ),
    mistake(
        "a received ID cut to 11 bits",
        &[
            CUT,
            (
                "gateway.rs",
                FIND,
                "row.node == node && row.id == cut(id, u16::MAX, 0x7FF))",
            ),
        ],
    ),
    mistake(
        "a received ID cut to 16 bits",
        &[
            CUT,
            (
                "gateway.rs",
                FIND,
                "row.node == node && row.id == cut(id, u16::MAX, 0xFFFF))",
            ),
        ],
    ),
    mistake(
        "a received ID cut to 28 bits",
        &[
            CUT,
            (
                "gateway.rs",
                FIND,
                "row.node == node && row.id == cut(id, u16::MAX, 0x0FFF_FFFF))",
            ),
        ],
    ),
    mistake(
        "a received ID cut to 29 bits",
        &[
            CUT,
            (
                "gateway.rs",
                FIND,
                "row.node == node && row.id == cut(id, u16::MAX, 0x1FFF_FFFF))",
            ),
        ],
    ),
    mistake(
        "rows compared by their low 16 bits",
        &[
            CUT,
            (
                "gateway.rs",
                FIND,
                "row.node == node
                     && cut(row.id, u16::MAX, 0xFFFF) == cut(id, u16::MAX, 0xFFFF))",
            ),
        ],
    ),
    mistake(
        "rows compared by their low 28 bits",
        &[
            CUT,
            (
                "gateway.rs",
                FIND,
                "row.node == node
                     && cut(row.id, u16::MAX, 0x0FFF_FFFF) == cut(id, u16::MAX, 0x0FFF_FFFF))",
            ),
        ],
    ),
    mistake(
        "29-bit IDs looked for on all nodes",
        &[(
            "gateway.rs",
            FIND,
            "(row.node == node || id.is_29_bits()) && row.id == id)",
        )],
    ),
    // Places.
    mistake(
        "the place among the rows of its format",
        &[(
            "gateway.rs",
            PLACE,
            "rows.filter(|row| row.node == node && row.id < id
                 && row.id.is_29_bits() == id.is_29_bits()).count()",
        )],
    ),
    mistake(
        "the place by number, whatever the format",
        &[(
            "gateway.rs",
            PLACE,
            "rows.filter(|row| row.node == node && row.id.number() < id.number()).count()",
        )],
    ),
    mistake(
        "the place with 29-bit rows first",
        &[(
            "gateway.rs",
            PLACE,
            "let key = |id: Id| (!id.is_29_bits(), id);
             rows.filter(|row| row.node == node && key(row.id) < key(id)).count()",
        )],
    ),
    mistake(
        "an 11-bit ID above 2047 after all rows",
        &[(
            "gateway.rs",
            PLACE,
            "rows.filter(|row| row.node == node
                 && (row.id < id || !id.is_29_bits() && !id.is_in_range())).count()",
        )],
    ),
    mistake(
        "an 11-bit ID after all 29-bit rows, if it has a higher number",
        &[(
            "gateway.rs",
            PLACE,
            "rows.filter(|row| row.node == node
                 && (row.id < id || !id.is_29_bits() && row.id.number() < id.number())).count()",
        )],
    ),
    mistake(
        "a 29-bit ID past its range at the first 29-bit row",
        &[(
            "gateway.rs",
            PLACE,
            "rows.filter(|row| row.node == node && row.id < id
                 && (id.is_in_range() || !row.id.is_29_bits() || !id.is_29_bits())).count()",
        )],
    ),
    mistake(
        "a 29-bit ID past its range at place 0",
        &[(
            "gateway.rs",
            PLACE,
            "rows.filter(|row| row.node == node && row.id < id
                 && (id.is_in_range() || !id.is_29_bits())).count()",
        )],
    ),
    mistake(
        "the place of the low 29 bits",
        &[
            CUT,
            (
                "gateway.rs",
                PLACE,
                "let id = cut(id, u16::MAX, 0x1FFF_FFFF);
                 rows.filter(|row| row.node == node && row.id < id).count()",
            ),
        ],
    ),
    mistake(
        "the place of the low 28 bits",
        &[
            CUT,
            (
                "gateway.rs",
                PLACE,
                "let id = cut(id, u16::MAX, 0x0FFF_FFFF);
                 rows.filter(|row| row.node == node && row.id < id).count()",
            ),
        ],
    ),
    mistake(
        "the place of the low 16 bits",
        &[
            CUT,
            (
                "gateway.rs",
                PLACE,
                "let id = cut(id, u16::MAX, 0xFFFF);
                 rows.filter(|row| row.node == node && row.id < id).count()",
            ),
        ],
    ),
    mistake(
        "the place of a 29-bit ID with a sign",
        &[(
            "gateway.rs",
            PLACE,
            "let key = |id: Id| match id {
                 Id::Bits11(number) => (0, i64::from(number)),
                 Id::Bits29(number) => (1, i64::from(number as i32)),
             };
             rows.filter(|row| row.node == node && key(row.id) < key(id)).count()",
        )],
    ),
    mistake(
        "the place of a 29-bit ID in the whole plan",
        &[(
            "gateway.rs",
            PLACE,
            "rows.filter(|row| row.id < id && (row.node == node
                 || id.is_29_bits() && row.node < node)).count()",
        )],
    ),
    // The lines of takes.
    mistake("`e` missing", &[("id.rs", SHOW_29, SHOW_11)]),
    mistake(
        "`e` before an 11-bit ID too",
        &[("id.rs", SHOW_11, SHOW_29)],
    ),
    mistake(
        "`e` before the wrong one",
        &[
            ("id.rs", SHOW_29, "write!(f, \"{}\", number)"),
            ("id.rs", SHOW_11, SHOW_29),
        ],
    ),
    mistake(
        "`e` by the number",
        &[(
            "id.rs",
            SHOW_29,
            "match number {
                 0..=2047 => write!(f, \"{number}\"),
                 _ => write!(f, \"e{number}\"),
             }",
        )],
    ),
    mistake(
        "a space after `e`",
        &[("id.rs", SHOW_29, "write!(f, \"e {number}\")")],
    ),
    mistake(
        "`e` after the number",
        &[("id.rs", SHOW_29, "write!(f, \"{number}e\")")],
    ),
    mistake(
        "a 29-bit ID in hex",
        &[("id.rs", SHOW_29, "write!(f, \"e{number:x}\")")],
    ),
    mistake(
        "a 29-bit ID with leading zeros",
        &[("id.rs", SHOW_29, "write!(f, \"e{number:09}\")")],
    ),
    mistake(
        "a taken ID cut to 16 bits",
        &[("id.rs", SHOW_29, "write!(f, \"e{}\", number & 0xFFFF)")],
    ),
    mistake(
        "a taken ID cut to 28 bits",
        &[("id.rs", SHOW_29, "write!(f, \"e{}\", number & 0x0FFF_FFFF)")],
    ),
    // Event 19.
    mistake(
        "event 19 unknown",
        &[("bench.rs", "        19 => 14,\n", "")],
    ),
    mistake(
        "event 19 with a byte more",
        &[("bench.rs", "        19 => 14,\n", "        19 => 15,\n")],
    ),
    mistake(
        "a cut event 19 is left out without a word",
        &[(
            "bench.rs",
            "            lines.add(INPUT_BAD);
            break;",
            "            if rest[0] != 19 {
                lines.add(INPUT_BAD);
            }
            break;",
        )],
    ),
    mistake(
        "event 19 with its data cut by a byte is taken",
        &[(
            "bench.rs",
            "    let body = bytes.get(1..1 + body_length)?;\n",
            "    let mut padded = bytes.to_vec();
             padded.push(0);
             if kind == 19 && padded.len() == 15 && bytes.len() == 14 {
                 return read_event(Vec::leak(padded));
             }
             let body = bytes.get(1..1 + body_length)?;\n",
        )],
    ),
    mistake(
        "event 19 as a reception of 11 bits",
        &[(
            "bench.rs",
            EVENT_ID,
            "id: Id::Bits11(four_byte_number(&body[1..5]) as u16),",
        )],
    ),
    mistake(
        "event 16 as a reception of 29 bits",
        &[(
            "bench.rs",
            "id: Id::Bits11(two_byte_number(body[1], body[2])),",
            "id: Id::Bits29(two_byte_number(body[1], body[2]).into()),",
        )],
    ),
    mistake(
        "event 19 with its format by the number",
        &[(
            "bench.rs",
            EVENT_ID,
            "id: match four_byte_number(&body[1..5]) {
                 number @ 0..=2047 => Id::Bits11(number as u16),
                 number => Id::Bits29(number),
             },",
        )],
    ),
    mistake(
        "bit 31 of event 19 left out",
        &[(
            "bench.rs",
            EVENT_ID,
            "id: Id::Bits29(four_byte_number(&body[1..5]) & 0x7FFF_FFFF),",
        )],
    ),
    mistake(
        "the ID of event 19 with the low byte first",
        &[(
            "bench.rs",
            EVENT_ID,
            "id: Id::Bits29(four_byte_number(&body[1..5]).swap_bytes()),",
        )],
    ),
    mistake(
        "the length of event 19 at the wrong byte",
        &[(
            "bench.rs",
            "            length: body[5],\n",
            "            length: body[4],\n",
        )],
    ),
    mistake(
        "the data of event 19 one byte early",
        &[(
            "bench.rs",
            "eight_bytes(&body[6..14])",
            "eight_bytes(&body[5..13])",
        )],
    ),
    mistake(
        "event 19 taken on a LIN node",
        &[(
            "gateway.rs",
            IS_CAN,
            "require(
                 self.is_of_type(node, NodeType::Can) || id.is_29_bits(),
                 Refusal::NotOfThisNode,
             )?;",
        )],
    ),
    mistake(
        "13 before 16 at event 19",
        &[(
            "gateway.rs",
            IS_CAN,
            "require(payload.len() <= 8 || !id.is_29_bits(), Refusal::PayloadTooLong)?;
             require(self.is_of_type(node, NodeType::Can), Refusal::NotOfThisNode)?;",
        )],
    ),
    mistake(
        "13 before 12 at event 19",
        &[(
            "gateway.rs",
            "        self.require_node(node)?;
        // Ticket 2",
            "        require(payload.len() <= 8 || !id.is_29_bits(), Refusal::PayloadTooLong)?;
             self.require_node(node)?;
        // Ticket 2",
        )],
    ),
    mistake(
        "1 before 13 at event 19",
        &[(
            "gateway.rs",
            TOO_LONG,
            "        require(
                 payload.len() <= 8 || id.is_29_bits() && self.find_row(node, id).is_none(),
                 Refusal::PayloadTooLong,
             )?;\n",
        )],
    ),
    mistake(
        "1 before 13 at event 19 past the range",
        &[(
            "gateway.rs",
            TOO_LONG,
            "        require(
                 payload.len() <= 8 || id.is_29_bits() && !id.is_in_range(),
                 Refusal::PayloadTooLong,
             )?;\n",
        )],
    ),
    mistake(
        "16 for event 19 on a node without 29-bit rows",
        &[(
            "gateway.rs",
            TOO_LONG,
            "        let mut rows = self.plan.rx_frames.iter();
             let has_any = rows.any(|row| row.node == node && row.id.is_29_bits());
             require(has_any || !id.is_29_bits(), Refusal::NotOfThisNode)?;
             require(payload.len() <= 8, Refusal::PayloadTooLong)?;\n",
        )],
    ),
    // The rest of the rules.
    mistake(
        "the long counter not started again by 29 bits",
        &[(
            "gateway.rs",
            RESTART,
            "        if !row.id.is_29_bits() {
                 self.rx_states[rx_number].long_counter = row.long_count;
             }\n",
        )],
    ),
    mistake(
        "the long counter of the other format started again too",
        &[(
            "gateway.rs",
            RESTART,
            "        for (other, state) in self.plan.rx_frames.iter().zip(&mut self.rx_states) {
                 if (other.node, other.id.number()) == (row.node, row.id.number()) {
                     state.long_counter = other.long_count;
                 }
             }\n",
        )],
    ),
    Mistake {
        breaks: Some(AGE),
        ..mistake(
            "the failure bit of the other format cleared too",
            &[(
                "gateway.rs",
                CLEAR,
                "        for other in 0..self.plan.rx_frames.len() {
                     let of_other = &self.plan.rx_frames[other];
                     if (of_other.node, of_other.id.number()) == (row.node, row.id.number()) {
                         self.put_failure_bit(other, false);
                     }
                 }\n",
            )],
        )
    },
    mistake(
        "the failure bit not cleared by 29 bits",
        &[(
            "gateway.rs",
            CLEAR,
            "        if !row.id.is_29_bits() {
                 self.put_failure_bit(rx_number, false);
             }\n",
        )],
    ),
    Mistake {
        breaks: Some(AGE),
        ..mistake(
            "the timer of the other format loaded too",
            &[(
                "gateway.rs",
                RELOAD,
                "        for (row, state) in self.plan.rx_frames.iter().zip(&mut self.rx_states) {
                     if (row.node, row.id.number()) == (node, id.number()) {
                         state.timer.reload();
                     }
                 }\n",
            )],
        )
    },
    mistake(
        "the timer not loaded by 29 bits",
        &[(
            "gateway.rs",
            RELOAD,
            "        if !id.is_29_bits() {
                 self.rx_states[rx_number].timer.reload();
             }\n",
        )],
    ),
    Mistake {
        breaks: Some(AGE),
        ..mistake(
            "29-bit rows never time out",
            &[(
                "gateway.rs",
                "if handled && self.rx_states[rx_number].timer.handle() {",
                "let is_29 = self.plan.rx_frames[rx_number].id.is_29_bits();
                 if handled && !is_29 && self.rx_states[rx_number].timer.handle() {",
            )],
        )
    },
    Mistake {
        breaks: Some(AGE),
        ..mistake(
            "the signals of a 29-bit row not copied",
            &[(
                "gateway.rs",
                "        for signal in &row.signals {\n",
                "        for signal in row.signals.iter().filter(|_| !row.id.is_29_bits()) {\n",
            )],
        )
    },
    mistake(
        "29-bit frames not sent on change",
        &[(
            "gateway.rs",
            "(tx_frame.send_on_change && differed)",
            "(tx_frame.send_on_change && differed && !tx_frame.id.is_29_bits())",
        )],
    ),
    mistake(
        "29-bit frames not sent by their timers",
        &[(
            "gateway.rs",
            "if handled && self.tx_states[tx_number].timer.handle() {",
            "let is_29 = self.plan.tx_frames[tx_number].id.is_29_bits();
             if handled && !is_29 && self.tx_states[tx_number].timer.handle() {",
        )],
    ),
    Mistake {
        breaks: Some(QUEUE),
        ..mistake(
            "29-bit frames join in front",
            &[(
                "gateway.rs",
                JOIN,
                "match self.plan.tx_frames[tx_number].id {
                     Id::Bits29(_) => {
                         self.queues[usize::from(node)].push_front(Waiting::Frame(tx_number));
                     }
                     Id::Bits11(_) => {
                         self.queues[usize::from(node)].push_back(Waiting::Frame(tx_number));
                     }
                 }",
            )],
        )
    },
    Mistake {
        breaks: Some(QUEUE),
        ..mistake(
            "the lowest ID leaves first, as on the bus",
            &[(
                "gateway.rs",
                OLDEST,
                "let frames = &self.plan.tx_frames;
                 let id = |waiting: &Waiting| match waiting {
                     Waiting::Frame(number) => frames[*number].id,
                     Waiting::Request(_) => Id::Bits11(0),
                 };
                 let lowest = (0..queue.len()).min_by_key(|place| id(&queue[*place]));
                 let Some(oldest) = lowest.and_then(|place| queue.remove(place)) else {",
            )],
        )
    },
    Mistake {
        breaks: Some(QUEUE),
        ..mistake(
            "a frame of the same number waits already",
            &[(
                "gateway.rs",
                "        if self.is_waiting(tx_number) {\n",
                "        let of = &self.plan.tx_frames[tx_number];
                 let has_number = |waiting: &Waiting| match waiting {
                     Waiting::Frame(other) => {
                         self.plan.tx_frames[*other].id.number() == of.id.number()
                             && self.plan.tx_frames[*other].id != of.id
                     }
                     Waiting::Request(_) => false,
                 };
                 let queue = &self.queues[usize::from(of.node)];
                 if self.is_waiting(tx_number) || queue.iter().any(has_number) {\n",
            )],
        )
    },
];
