//! Ticket 14: mistakes of the room of a queue, and of the order in which frames
//! and requests leave it.

use crate::list::{of_the_queue, Mistake};

/// Where the second program tells whether a frame waits already.
const WAITS: &str = "        if self.is_waiting(tx_number) {\n";

/// Where it takes the oldest.
const OLDEST: &str = "let Some(oldest) = queue.pop_front() else {";

/// Where a take begins.
const TAKE: &str = "        let queue = &mut self.queues[usize::from(node)];\n";

/// Changes that count the entries which joined on each node, and let each one
/// join in this way.
macro_rules! joining {
    ($body:literal) => {
        joining!($body,)
    };
    ($body:literal, $(($old:expr, $new:expr)),*) => {
        &[
            (
                "gateway.rs",
                "    queues: Vec<VecDeque<Waiting>>,\n",
                "    queues: Vec<VecDeque<Waiting>>,\n    joined: Vec<usize>,\n",
            ),
            (
                "gateway.rs",
                "            queues: vec![VecDeque::new(); plan.nodes.len()],\n",
                "            queues: vec![VecDeque::new(); plan.nodes.len()],
                 joined: vec![0; plan.nodes.len()],\n",
            ),
            (
                "gateway.rs",
                "self.queues[usize::from(node)].push_back(Waiting::Frame(tx_number));",
                "self.join(node.into(), Waiting::Frame(tx_number));",
            ),
            (
                "gateway.rs",
                "self.queues[usize::from(node)].push_back(Waiting::Request(rx_number));",
                "self.join(node.into(), Waiting::Request(rx_number));",
            ),
            (
                "gateway.rs",
                "    fn taken_request(&self",
                concat!(
                    "fn frames(&self, node: usize) -> usize {
                         let frames = self.plan.tx_frames.iter();
                         frames.filter(|tx| usize::from(tx.node) == node).count()
                     }
                     fn room(&self, node: usize) -> usize {
                         let rows = self.plan.rx_frames.iter();
                         let asking = rows.filter(|row| self.plan.is_on_lin(row));
                         let requests = asking.filter(|row| usize::from(row.node) == node);
                         self.frames(node) + requests.count()
                     }
                     /// Puts the entry to this place of a ring, if one waits there.
                     fn overwrite(&mut self, node: Option<usize>, place: usize, entry: Waiting) {
                         let Some(node) = node else { return };
                         let oldest = self.joined[node] - self.queues[node].len();
                         let room = self.room(node);
                         for (index, other) in self.queues[node].iter_mut().enumerate() {
                             if (oldest + index) % room == place {
                                 *other = entry;
                             }
                         }
                     }
                     fn join(&mut self, node: usize, entry: Waiting) {
                         let waiting = self.queues[node].len();
                         let room = self.room(node);
                         let joined = self.joined[node];
                         let with_room = |node: &usize| self.room(*node) > 0;
                         let next = (node + 1..self.queues.len()).find(with_room);
                         let before = (0..node).rev().find(with_room);
                         let _ = (waiting, room, joined, next, before);
                         self.joined[node] += 1;
                         ",
                    $body,
                    "
                     }
                     fn taken_request(&self"
                ),
            ),
            $(("gateway.rs", $old, $new)),*
        ]
    };
}

pub const QUEUES: &[Mistake] = &[
    // The room.
    of_the_queue(
        "room one less, the newest lost",
        joining!(
            "if room == 1 || waiting + 1 < room {
                 self.queues[node].push_back(entry);
             }"
        ),
    ),
    of_the_queue(
        "room one less, the oldest overwritten",
        joining!(
            "if waiting > 0 && waiting + 1 == room {
                 self.queues[node].pop_front();
             }
             self.queues[node].push_back(entry);"
        ),
    ),
    of_the_queue(
        "room one less once the ring has wrapped",
        joining!(
            "if joined < room || room == 1 || waiting + 1 < room {
                 self.queues[node].push_back(entry);
             }"
        ),
    ),
    of_the_queue(
        "no room for requests beside frames",
        joining!(
            "if self.frames(node) == 0 || waiting < self.frames(node) {
                 self.queues[node].push_back(entry);
             }"
        ),
    ),
    of_the_queue(
        "room for one request at most",
        joining!(
            "let is_request = |waiting: &Waiting| matches!(waiting, Waiting::Request(_));
             if !is_request(&entry) || !self.queues[node].iter().any(is_request) {
                 self.queues[node].push_back(entry);
             }"
        ),
    ),
    of_the_queue(
        "a ring of at most 255",
        joining!(
            "if waiting < 255 {
                 self.queues[node].push_back(entry);
             }"
        ),
    ),
    of_the_queue(
        "a ring of at most 315",
        joining!(
            "if waiting < 315 {
                 self.queues[node].push_back(entry);
             }"
        ),
    ),
    of_the_queue(
        "a ring whose last place is the first of the next",
        joining!(
            "self.queues[node].push_back(entry);
             if joined % room + 1 == room {
                 self.overwrite(next, 0, entry);
             }"
        ),
    ),
    of_the_queue(
        "a ring whose first place is the last of the one before",
        joining!(
            "self.queues[node].push_back(entry);
             if joined % room == 0 {
                 self.overwrite(before, before.map_or(0, |node| self.room(node) - 1), entry);
             }"
        ),
    ),
    of_the_queue(
        "wrapped one place too late, into the next ring",
        joining!(
            "self.queues[node].push_back(entry);
             if joined % (room + 1) == room {
                 self.overwrite(next, 0, entry);
             }"
        ),
    ),
    of_the_queue(
        "wrapped one place too late, the entry lost",
        joining!(
            "if joined % (room + 1) != room {
                 self.queues[node].push_back(entry);
             }"
        ),
    ),
    of_the_queue(
        "wrapped one place too soon",
        joining!(
            "self.queues[node].push_back(entry);
             if joined % room + 1 == room {
                 self.overwrite(Some(node), 0, entry);
             }"
        ),
    ),
    of_the_queue(
        "a full queue stops the next one",
        joining!(
            "let is_full = |node: usize| self.queues[node].len() == self.room(node);
             if room == 1 || !before.is_some_and(is_full) {
                 self.queues[node].push_back(entry);
             }"
        ),
    ),
    // The leaving order.
    of_the_queue(
        "the newest first once the ring has wrapped",
        joining!(
            "self.queues[node].push_back(entry);",
            (
                OLDEST,
                "let is_wrapped = self.joined[usize::from(node)] > 20;
                 let Some(oldest) = (match is_wrapped {
                     true => queue.pop_back(),
                     false => queue.pop_front(),
                 }) else {"
            )
        ),
    ),
    of_the_queue(
        "the newest first on LIN",
        &[(
            "gateway.rs",
            OLDEST,
            "let Some(oldest) = (match self.plan.nodes[usize::from(node)] {
                 NodeType::Lin => queue.pop_back(),
                 NodeType::Can => queue.pop_front(),
             }) else {",
        )],
    ),
    of_the_queue(
        "a take that passes over a request",
        &[(
            "gateway.rs",
            OLDEST,
            "let passed_over = match queue.front() {
                 Some(Waiting::Request(_)) if queue.len() > 1 => 1,
                 _ => 0,
             };
             let Some(oldest) = queue.remove(passed_over) else {",
        )],
    ),
    of_the_queue(
        "a take that drops a request before a frame",
        &[(
            "gateway.rs",
            OLDEST,
            "if let (Some(Waiting::Request(_)), Some(Waiting::Frame(_))) = (queue.front(), queue.get(1)) {
                 queue.pop_front();
             }
             let Some(oldest) = queue.pop_front() else {",
        )],
    ),
    of_the_queue(
        "a request before the newest frame",
        joining!(
            "self.queues[node].push_back(entry);
             if let (Waiting::Request(_), true) = (entry, waiting > 0) {
                 if let Waiting::Frame(_) = self.queues[node][waiting - 1] {
                     self.queues[node].swap(waiting - 1, waiting);
                 }
             }"
        ),
    ),
    of_the_queue(
        "a frame scheduled while it waits moves to the end",
        &[(
            "gateway.rs",
            WAITS,
            "        if self.is_waiting(tx_number) {
                 let queue = &mut self.queues[usize::from(self.plan.tx_frames[tx_number].node)];
                 queue.retain(|waiting| *waiting != Waiting::Frame(tx_number));
                 queue.push_back(Waiting::Frame(tx_number));\n",
        )],
    ),
    of_the_queue(
        "a request asked for while it waits moves to the end",
        &[(
            "gateway.rs",
            "        if self.is_requested(rx_number) {\n",
            "        if self.is_requested(rx_number) {
                 let queue = &mut self.queues[usize::from(self.plan.rx_frames[rx_number].node)];
                 queue.retain(|waiting| *waiting != Waiting::Request(rx_number));
                 queue.push_back(Waiting::Request(rx_number));\n",
        )],
    ),
    of_the_queue(
        "a take takes from the next node too",
        &[(
            "gateway.rs",
            TAKE,
            "        if let Some(next) = self.queues.get_mut(usize::from(node) + 1) {
                 next.pop_front();
             }
             let queue = &mut self.queues[usize::from(node)];\n",
        )],
    ),
    of_the_queue(
        "a take on a node without room takes from the node before",
        joining!(
            "self.queues[node].push_back(entry);",
            (
                TAKE,
                "        if node > 0 && self.room(node.into()) == 0 {
                     self.queues[usize::from(node) - 1].pop_front();
                 }
                 let queue = &mut self.queues[usize::from(node)];\n"
            )
        ),
    ),
    of_the_queue(
        "a refused take takes from the last node",
        &[(
            "gateway.rs",
            "        self.require_node(node)?;\n        let queue",
            "        if let (Err(refusal), Some(last)) = (self.require_node(node), self.queues.last_mut()) {
                 last.pop_front();
                 return Err(refusal);
             }
             self.require_node(node)?;\n        let queue",
        )],
    ),
    of_the_queue(
        "a tick moves the oldest to the end",
        &[(
            "gateway.rs",
            "        self.tick_number += 1;\n",
            "        self.tick_number += 1;
             for queue in self.queues.iter_mut().filter(|queue| queue.len() > 1) {
                 queue.rotate_left(1);
             }\n",
        )],
    ),
];
