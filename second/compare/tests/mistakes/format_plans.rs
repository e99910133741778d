//! Ticket 6: mistakes of plans with 29-bit IDs: kinds, ranges, the order of rows,
//! counts and followers.

use crate::list::{mistake, Mistake};

/// Where the second program compares a row with the one before.
const ABOVE: &str = "(rx_frame.node, rx_frame.id) > (before.node, before.id)";

/// Where it has the range of 29 bits, and refuses these IDs on LIN.
const RANGE: &str = "(Id::Bits29(GREATEST_29), 0)";
const ON_LIN: &str = "(Some(NodeType::Lin), Id::Bits29(_)) => return Err(Refusal::OutsideRange),";

/// Where it reads the ID of a record.
const RECORD_ID: &str = "let id = Id::Bits29(four_byte_number(&body[1..5]));";

/// Where it tests counts.
const TX_COUNT: &str = "        require(tx_count < MOST_TX_FRAMES, Refusal::CountPassed)?;\n";
const RX_COUNT: &str = "        require(rx_count < MOST_RX_FRAMES, Refusal::CountPassed)?;\n";

pub const FORMAT_PLANS: &[Mistake] = &[
    // The order of rows.
    mistake(
        "29-bit rows before 11-bit ones",
        &[(
            "id.rs",
            "    Bits11(u16),\n    Bits29(u32),\n",
            "    Bits29(u32),\n    Bits11(u16),\n",
        )],
    ),
    mistake(
        "29-bit rows before 11-bit ones in a plan alone",
        &[(
            "parse.rs",
            ABOVE,
            "(rx_frame.node, !rx_frame.id.is_29_bits(), rx_frame.id)
                 > (before.node, !before.id.is_29_bits(), before.id)",
        )],
    ),
    mistake(
        "rows by number, whatever the format",
        &[(
            "parse.rs",
            ABOVE,
            "(rx_frame.node, rx_frame.id.number()) > (before.node, before.id.number())",
        )],
    ),
    mistake(
        "rows by number, then by format",
        &[(
            "parse.rs",
            ABOVE,
            "(rx_frame.node, rx_frame.id.number(), rx_frame.id)
                 > (before.node, before.id.number(), before.id)",
        )],
    ),
    mistake(
        "rows by format, then by node",
        &[(
            "parse.rs",
            ABOVE,
            "(rx_frame.id.is_29_bits(), rx_frame.node, rx_frame.id)
                 > (before.id.is_29_bits(), before.node, before.id)",
        )],
    ),
    mistake(
        "an 11-bit row of a higher number after a 29-bit one",
        &[(
            "parse.rs",
            ABOVE,
            "((rx_frame.node, rx_frame.id) > (before.node, before.id)
                 || !rx_frame.id.is_29_bits() && before.node == rx_frame.node
                     && rx_frame.id.number() > before.id.number())",
        )],
    ),
    mistake(
        "a row taken twice if it has 29 bits",
        &[(
            "parse.rs",
            ABOVE,
            "((rx_frame.node, rx_frame.id) > (before.node, before.id)
                 || rx_frame.id.is_29_bits()
                     && (rx_frame.node, rx_frame.id) == (before.node, before.id))",
        )],
    ),
    mistake(
        "29-bit rows in any order",
        &[(
            "parse.rs",
            ABOVE,
            "((rx_frame.node, rx_frame.id) > (before.node, before.id)
                 || rx_frame.node == before.node && rx_frame.id.is_29_bits()
                     && before.id.is_29_bits() && rx_frame.id != before.id)",
        )],
    ),
    mistake(
        "29-bit rows ordered by their low 16 bits",
        &[(
            "parse.rs",
            ABOVE,
            "match (rx_frame.id, before.id) {
                 (Id::Bits29(a), Id::Bits29(b)) if rx_frame.node == before.node => {
                     a & 0xFFFF > b & 0xFFFF
                 }
                 _ => (rx_frame.node, rx_frame.id) > (before.node, before.id),
             }",
        )],
    ),
    mistake(
        "29-bit rows ordered by their low 28 bits",
        &[(
            "parse.rs",
            ABOVE,
            "match (rx_frame.id, before.id) {
                 (Id::Bits29(a), Id::Bits29(b)) if rx_frame.node == before.node => {
                     a & 0x0FFF_FFFF > b & 0x0FFF_FFFF
                 }
                 _ => (rx_frame.node, rx_frame.id) > (before.node, before.id),
             }",
        )],
    ),
    // The plan: kinds and ranges.
    mistake(
        "kinds 7 and 8 exchanged",
        &[
            (
                "parse.rs",
                "pub const TX_FRAME_29: u8 = 7;",
                "pub const TX_FRAME_29: u8 = 8;",
            ),
            (
                "parse.rs",
                "pub const RX_FRAME_29: u8 = 8;",
                "pub const RX_FRAME_29: u8 = 7;",
            ),
        ],
    ),
    mistake(
        "kind 9 known",
        &[(
            "parse.rs",
            "        RX_FRAME_29 => Some(12),\n",
            "        RX_FRAME_29 => Some(12),\n        9 => Some(12),\n",
        )],
    ),
    mistake(
        "kind 8 unknown",
        &[("parse.rs", "        RX_FRAME_29 => Some(12),\n", "")],
    ),
    mistake(
        "a byte more in kind 7",
        &[(
            "parse.rs",
            "TX_FRAME_29 => Some(18)",
            "TX_FRAME_29 => Some(19)",
        )],
    ),
    mistake(
        "a byte more in kind 8",
        &[(
            "parse.rs",
            "RX_FRAME_29 => Some(12)",
            "RX_FRAME_29 => Some(13)",
        )],
    ),
    mistake(
        "four-byte numbers with the low byte first",
        &[(
            "parse.rs",
            "    for byte in bytes {\n",
            "    for byte in bytes.iter().rev() {\n",
        )],
    ),
    mistake(
        "IDs of a plan cut to 16 bits",
        &[(
            "parse.rs",
            RECORD_ID,
            "let id = Id::Bits29(four_byte_number(&body[1..5]) & 0xFFFF);",
        )],
    ),
    mistake(
        "IDs of a plan cut to 28 bits",
        &[(
            "parse.rs",
            RECORD_ID,
            "let id = Id::Bits29(four_byte_number(&body[1..5]) & 0x0FFF_FFFF);",
        )],
    ),
    mistake(
        "IDs of a plan cut to 29 bits",
        &[(
            "parse.rs",
            RECORD_ID,
            "let id = Id::Bits29(four_byte_number(&body[1..5]) & 0x1FFF_FFFF);",
        )],
    ),
    mistake(
        "kinds 7 and 8 with 11-bit IDs",
        &[(
            "parse.rs",
            RECORD_ID,
            "let number = four_byte_number(&body[1..5]);
             let id = match number {
                 0..=2047 => Id::Bits11(number as u16),
                 _ => Id::Bits29(number),
             };",
        )],
    ),
    mistake(
        "the greatest ID not taken",
        &[("parse.rs", RANGE, "(Id::Bits29(GREATEST_29 - 1), 0)")],
    ),
    mistake(
        "one ID more taken",
        &[("parse.rs", RANGE, "(Id::Bits29(GREATEST_29 + 1), 0)")],
    ),
    mistake(
        "IDs of 30 bits taken",
        &[("parse.rs", RANGE, "(Id::Bits29(0x3FFF_FFFF), 0)")],
    ),
    mistake(
        "IDs of 32 bits taken",
        &[("parse.rs", RANGE, "(Id::Bits29(u32::MAX), 0)")],
    ),
    mistake(
        "IDs of bit 31 taken",
        &[(
            "parse.rs",
            "        require(id <= greatest_id, Refusal::OutsideRange)?;\n",
            "        let is_marked = id.is_29_bits() && id.number() >> 29 == 4;
             require(id <= greatest_id || is_marked, Refusal::OutsideRange)?;\n",
        )],
    ),
    mistake(
        "IDs of 29 bits to 2047 only",
        &[("parse.rs", RANGE, "(Id::Bits29(2047), 0)")],
    ),
    mistake(
        "29-bit IDs above 2047 only",
        &[(
            "parse.rs",
            "        require(id <= greatest_id, Refusal::OutsideRange)?;\n",
            "        require(id <= greatest_id, Refusal::OutsideRange)?;
             require(!id.is_29_bits() || id.number() > 2047, Refusal::OutsideRange)?;\n",
        )],
    ),
    mistake(
        "29-bit IDs below 60 taken on LIN",
        &[(
            "parse.rs",
            ON_LIN,
            "(Some(NodeType::Lin), Id::Bits29(_)) => (Id::Bits29(59), lin::LEAST_SIZE),",
        )],
    ),
    mistake(
        "29-bit IDs taken on LIN",
        &[(
            "parse.rs",
            ON_LIN,
            "(Some(NodeType::Lin), Id::Bits29(_)) => (Id::Bits29(GREATEST_29), lin::LEAST_SIZE),",
        )],
    ),
    mistake(
        "29-bit IDs above 59 taken on LIN",
        &[(
            "parse.rs",
            ON_LIN,
            "(Some(NodeType::Lin), Id::Bits29(0..60)) => return Err(Refusal::OutsideRange),
             (Some(NodeType::Lin), Id::Bits29(_)) => (Id::Bits29(GREATEST_29), lin::LEAST_SIZE),",
        )],
    ),
    mistake(
        "3 for a 29-bit ID on LIN",
        &[(
            "parse.rs",
            ON_LIN,
            "(Some(NodeType::Lin), Id::Bits29(_)) => return Err(Refusal::KindNotHere),",
        )],
    ),
    mistake(
        "flags of kind 7 not tested",
        &[(
            "parse.rs",
            "        require(flags <= 3, Refusal::OutsideRange)?;\n",
            "        require(flags <= 3 || kind == TX_FRAME_29, Refusal::OutsideRange)?;\n",
        )],
    ),
    mistake(
        "the long count of kind 8 not tested",
        &[(
            "parse.rs",
            "require(rx_frame.long_count <= 15, Refusal::OutsideRange)?;",
            "require(rx_frame.long_count <= 15 || id.is_29_bits(), Refusal::OutsideRange)?;",
        )],
    ),
    mistake(
        "size 0 not taken with 29 bits",
        &[("parse.rs", RANGE, "(Id::Bits29(GREATEST_29), 1)")],
    ),
    // The plan: places of records, counts, followers.
    mistake(
        "no 11-bit Tx frame after one of 29 bits",
        &[(
            "parse.rs",
            "matches!(before, HEAD | NODE | TX_FRAME | TX_FRAME_29)",
            "matches!(before, HEAD | NODE | TX_FRAME)
                 || before == TX_FRAME_29 && kind == TX_FRAME_29",
        )],
    ),
    mistake(
        "no 29-bit Tx frame after one of 11 bits",
        &[(
            "parse.rs",
            "matches!(before, HEAD | NODE | TX_FRAME | TX_FRAME_29)",
            "matches!(before, HEAD | NODE | TX_FRAME_29)
                 || before == TX_FRAME && kind == TX_FRAME",
        )],
    ),
    mistake(
        "a 29-bit Tx frame after a row",
        &[(
            "parse.rs",
            "matches!(before, HEAD | NODE | TX_FRAME | TX_FRAME_29)",
            "matches!(before, HEAD | NODE | TX_FRAME | TX_FRAME_29)
                 || before == RX_FRAME && kind == TX_FRAME_29",
        )],
    ),
    mistake(
        "a node after a 29-bit Tx frame",
        &[(
            "parse.rs",
            "matches!(before, HEAD | NODE) &&",
            "matches!(before, HEAD | NODE | TX_FRAME_29) &&",
        )],
    ),
    mistake(
        "no signals under a 29-bit row",
        &[(
            "parse.rs",
            "matches!(before, RX_FRAME | RX_FRAME_29 | SIGNAL | DESTINATION)",
            "matches!(before, RX_FRAME | SIGNAL | DESTINATION)",
        )],
    ),
    mistake(
        "a signal under a 29-bit Tx frame",
        &[
            (
                "parse.rs",
                "matches!(before, RX_FRAME | RX_FRAME_29 | SIGNAL | DESTINATION)",
                "matches!(before, TX_FRAME_29 | RX_FRAME | RX_FRAME_29 | SIGNAL | DESTINATION)",
            ),
            (
                "parse.rs",
                "        let Some(rx_frame) = self.plan.rx_frames.last_mut() else {
            return Err(Refusal::KindNotHere);
        };
        require(self.signal_count",
                "        let Some(rx_frame) = self.plan.rx_frames.last_mut() else {
            return Ok(());
        };
        require(self.signal_count",
            ),
        ],
    ),
    mistake(
        "256 Tx frames of each format",
        &[
            (
                "parse.rs",
                TX_COUNT,
                "        let is_29 = kind == TX_FRAME_29;
             let of_format = self.plan.tx_frames.iter().filter(|tx| tx.id.is_29_bits() == is_29);
             require(of_format.count() < MOST_TX_FRAMES, Refusal::CountPassed)?;\n",
            ),
            (
                "parse.rs",
                "        let tx_count = self.plan.tx_frames.len();\n",
                "",
            ),
        ],
    ),
    mistake(
        "256 Rx frames of each format",
        &[
            (
                "parse.rs",
                RX_COUNT,
                "        let is_29 = kind == RX_FRAME_29;
             let of_format = self.plan.rx_frames.iter().filter(|rx| rx.id.is_29_bits() == is_29);
             require(of_format.count() < MOST_RX_FRAMES, Refusal::CountPassed)?;\n",
            ),
            (
                "parse.rs",
                "        let rx_count = self.plan.rx_frames.len();\n",
                "",
            ),
        ],
    ),
    mistake(
        "the 257th frame taken if it has 29 bits",
        &[(
            "parse.rs",
            TX_COUNT,
            "        let most = MOST_TX_FRAMES + usize::from(kind == TX_FRAME_29);
             require(tx_count < most, Refusal::CountPassed)?;\n",
        )],
    ),
    mistake(
        "5 before 4 at kind 7",
        &[
            (
                "parse.rs",
                TX_COUNT,
                "        let is_29 = kind == TX_FRAME_29;
                 require(is_29 || tx_count < MOST_TX_FRAMES, Refusal::CountPassed)?;\n",
            ),
            (
                "parse.rs",
                "        self.plan.tx_frames.push(tx_frame);\n",
                "        require(tx_count < 256, Refusal::CountPassed)?;
                 self.plan.tx_frames.push(tx_frame);\n",
            ),
        ],
    ),
    mistake(
        "5 before 4 at kind 8",
        &[
            (
                "parse.rs",
                RX_COUNT,
                "        let is_29 = kind == RX_FRAME_29;
                 require(is_29 || rx_count < MOST_RX_FRAMES, Refusal::CountPassed)?;\n",
            ),
            (
                "parse.rs",
                "        // \"an Rx frame's (node, ID) is not above",
                "        require(rx_count < 256, Refusal::CountPassed)?;
                 // \"an Rx frame's (node, ID) is not above",
            ),
        ],
    ),
    mistake(
        "6 before 4 at kind 8",
        &[(
            "parse.rs",
            RX_COUNT,
            "        let (node, id, _) = node_and_id(kind, body);
                 if let (Some(before), RX_FRAME_29) = (self.plan.rx_frames.last(), kind) {
                     require((node, id) > (before.node, before.id), Refusal::NotAbove)?;
                 }
                 require(rx_count < MOST_RX_FRAMES, Refusal::CountPassed)?;\n",
        )],
    ),
    mistake(
        "6 before 5 at kind 8",
        &[(
            "parse.rs",
            "        let enable = fields[4];\n",
            "        if let (Some(before), RX_FRAME_29) = (self.plan.rx_frames.last(), kind) {
                 require((node, id) > (before.node, before.id), Refusal::NotAbove)?;
             }
             let enable = fields[4];\n",
        )],
    ),
    mistake(
        "3 before 1 at kind 7",
        &[(
            "parse.rs",
            "        require(rest.len() >= length, Refusal::PastTheEnd)?;\n",
            "        let may_stand = kind != TX_FRAME_29 || self.may_stand_here(kind, &[]);
             require(may_stand, Refusal::KindNotHere)?;
             require(rest.len() >= length, Refusal::PastTheEnd)?;\n",
        )],
    ),
    mistake(
        "3 before 1 at kind 8",
        &[(
            "parse.rs",
            "        require(rest.len() >= length, Refusal::PastTheEnd)?;\n",
            "        let may_stand = kind != RX_FRAME_29 || self.may_stand_here(kind, &[]);
             require(may_stand, Refusal::KindNotHere)?;
             require(rest.len() >= length, Refusal::PastTheEnd)?;\n",
        )],
    ),
    mistake(
        "1 before 9 at kind 8",
        &[(
            "parse.rs",
            "        so_far.try_missing_follower(rest.first())?;\n",
            "        if rest.first() != Some(&RX_FRAME_29) || rest.len() > 12 {
                 so_far.try_missing_follower(rest.first())?;
             }\n",
        )],
    ),
    mistake(
        "no follower needed by a 29-bit row",
        &[(
            "parse.rs",
            "        if !rx_frame.failure_enabled {\n",
            "        if !rx_frame.failure_enabled || rx_frame.id.is_29_bits() {\n",
        )],
    ),
    mistake(
        "a 29-bit row taken for a follower",
        &[(
            "parse.rs",
            "Some(awaited) if next_kind != Some(&awaited) =>",
            "Some(awaited) if next_kind != Some(&awaited) && next_kind != Some(&RX_FRAME_29) =>",
        )],
    ),
    mistake(
        "9 names the 11-bit row before",
        &[(
            "parse.rs",
            "                self.rx_record = record;\n",
            "                if kind == RX_FRAME {
                     self.rx_record = record;
                 }\n",
        )],
    ),
    mistake(
        "no indicator on a 29-bit row",
        &[(
            "parse.rs",
            "failure_enabled: enable == 1,",
            "failure_enabled: enable == 1 && kind == RX_FRAME,",
        )],
    ),
    mistake(
        "the failure bit of a 29-bit row not owned",
        &[(
            "parse.rs",
            "if rx_frame.failure_enabled && is_first_of_all {",
            "if rx_frame.failure_enabled && is_first_of_all && !rx_frame.id.is_29_bits() {",
        )],
    ),
];
