//! Small words for writing plans and inputs in the tests.
#![allow(dead_code)]

use second::lin::enhanced_checksum;

pub const BIG: [u8; 2] = [1, 0];
pub const LITTLE: [u8; 2] = [1, 1];
pub const NODE: [u8; 2] = [2, 0];
pub const LIN_NODE: [u8; 2] = [2, 1];
pub const TICK: [u8; 1] = [17];

/// A Tx frame record: node, ID, size, prescaler, reload, timer, flags, payload.
#[allow(clippy::too_many_arguments)]
pub fn tx(
    node: u8,
    id: u16,
    size: u8,
    prescaler: u8,
    reload: u8,
    timer: u8,
    flags: u8,
    payload: [u8; 8],
) -> Vec<u8> {
    let [high, low] = id.to_be_bytes();
    let mut record = vec![3, node, high, low, size, prescaler, reload, timer, flags];
    record.extend(payload);
    record
}

/// An Rx frame record: node, ID, size, prescaler, reload, timer, enable,
/// failure position, long count.
#[allow(clippy::too_many_arguments)]
pub fn rx(
    node: u8,
    id: u16,
    size: u8,
    prescaler: u8,
    reload: u8,
    timer: u8,
    enable: u8,
    failure_position: u8,
    long_count: u8,
) -> Vec<u8> {
    let [high, low] = id.to_be_bytes();
    vec![
        4,
        node,
        high,
        low,
        size,
        prescaler,
        reload,
        timer,
        enable,
        failure_position,
        long_count,
    ]
}

/// The same with a 29-bit ID.
#[allow(clippy::too_many_arguments)]
pub fn tx_29(
    node: u8,
    id: u32,
    size: u8,
    prescaler: u8,
    reload: u8,
    timer: u8,
    flags: u8,
    payload: [u8; 8],
) -> Vec<u8> {
    let record = tx(node, 0, size, prescaler, reload, timer, flags, payload);
    with_29_bits(7, &record, id)
}

/// An Rx frame record with a 29-bit ID.
#[allow(clippy::too_many_arguments)]
pub fn rx_29(
    node: u8,
    id: u32,
    size: u8,
    prescaler: u8,
    reload: u8,
    timer: u8,
    enable: u8,
    failure_position: u8,
    long_count: u8,
) -> Vec<u8> {
    let record = rx(
        node,
        0,
        size,
        prescaler,
        reload,
        timer,
        enable,
        failure_position,
        long_count,
    );
    with_29_bits(8, &record, id)
}

/// The record as one of this kind, with a four-byte ID in place of its own.
fn with_29_bits(kind: u8, record: &[u8], id: u32) -> Vec<u8> {
    let mut wide = vec![kind, record[1]];
    wide.extend(id.to_be_bytes());
    wide.extend(&record[4..]);
    wide
}

/// A Tx frame with nothing special: node 0, ID 256, stopped, empty payload.
pub fn quiet_tx(size: u8, flags: u8) -> Vec<u8> {
    tx(0, 0x100, size, 1, 0, 0, flags, [0; 8])
}

/// An Rx frame with nothing special: node 0, stopped, no indicator.
pub fn quiet_rx(id: u16, size: u8) -> Vec<u8> {
    rx(0, id, size, 1, 0, 0, 0, 0, 0)
}

/// An Rx frame on node 0 with an enabled indicator.
pub fn watched_rx(id: u16, size: u8, failure_position: u8) -> Vec<u8> {
    rx(0, id, size, 1, 0, 0, 1, failure_position, 0)
}

pub fn signal(position: u8, size: u8) -> Vec<u8> {
    vec![5, position, size]
}

pub fn destination(tx_frame: u16, position: u8) -> Vec<u8> {
    let [high, low] = tx_frame.to_be_bytes();
    vec![6, high, low, position]
}

pub fn reception(node: u8, id: u16, payload: &[u8]) -> Vec<u8> {
    let mut data = [0; 8];
    data[..payload.len()].copy_from_slice(payload);
    reception_of_length(node, id, payload.len() as u8, data)
}

pub fn reception_of_length(node: u8, id: u16, length: u8, data: [u8; 8]) -> Vec<u8> {
    let [high, low] = id.to_be_bytes();
    let mut record = vec![16, node, high, low, length];
    record.extend(data);
    record
}

pub fn reception_29(node: u8, id: u32, payload: &[u8]) -> Vec<u8> {
    let mut data = [0; 8];
    data[..payload.len()].copy_from_slice(payload);
    reception_29_of_length(node, id, payload.len() as u8, data)
}

pub fn reception_29_of_length(node: u8, id: u32, length: u8, data: [u8; 8]) -> Vec<u8> {
    let mut record = vec![19, node];
    record.extend(id.to_be_bytes());
    record.push(length);
    record.extend(data);
    record
}

/// A LIN response with its right checksum.
pub fn response(node: u8, id: u16, payload: &[u8]) -> Vec<u8> {
    let checksum = enhanced_checksum(id, payload);
    response_with(node, id, payload, checksum)
}

/// A LIN response with this checksum.
pub fn response_with(node: u8, id: u16, payload: &[u8], checksum: u8) -> Vec<u8> {
    let mut data = [0; 8];
    data[..payload.len()].copy_from_slice(payload);
    response_of_length(node, id, payload.len() as u8, data, checksum)
}

pub fn response_of_length(node: u8, id: u16, length: u8, data: [u8; 8], checksum: u8) -> Vec<u8> {
    let [high, low] = id.to_be_bytes();
    let mut record = vec![20, node, high, low, length];
    record.extend(data);
    record.push(checksum);
    record
}

pub fn no_response(node: u8, id: u16) -> Vec<u8> {
    let [high, low] = id.to_be_bytes();
    vec![21, node, high, low]
}

pub fn take(node: u8) -> Vec<u8> {
    vec![18, node]
}

/// Records one after the other.
pub fn join<R: AsRef<[u8]>>(records: &[R]) -> Vec<u8> {
    let mut bytes = Vec::new();
    for record in records {
        bytes.extend(record.as_ref());
    }
    bytes
}

/// The input of the bench program.
pub fn input(plan: &[u8], events: &[u8]) -> Vec<u8> {
    let mut bytes = (plan.len() as u16).to_be_bytes().to_vec();
    bytes.extend(plan);
    bytes.extend(events);
    bytes
}

/// The lines of a run.
pub fn lines(plan: &[u8], events: &[u8]) -> Vec<String> {
    let output = second::run(&input(plan, events));
    output.lines().map(String::from).collect()
}

/// The line of a plan.
pub fn plan_line(plan: &[u8]) -> String {
    lines(plan, &[]).join("|")
}
