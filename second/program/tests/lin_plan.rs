//! LIN nodes in a plan.
//!
//! Ticket 2: "Node type 1 is a LIN node and we are its master; LIN nodes follow
//! all CAN nodes. IDs there run 0 to 59, sizes 1 to 8." "Refusals: 3 for a CAN
//! node after a LIN node; 5 for the new ranges".

mod common;

use common::{join, plan_line, rx, tx, BIG, LIN_NODE, NODE};
use second::gateway::Gateway;
use second::plan::NodeType;

/// The line of a head and these records.
fn line(records: &[&[u8]]) -> String {
    plan_line(&join(&[&BIG[..], &join(records)]))
}

/// The line of a CAN node, a LIN node and this record, which is record 3.
fn on_lin(record: &[u8]) -> String {
    line(&[&NODE, &LIN_NODE, record])
}

fn tx_of(node: u8, id: u16, size: u8) -> Vec<u8> {
    tx(node, id, size, 1, 0, 0, 0, [0; 8])
}

fn rx_of(node: u8, id: u16, size: u8) -> Vec<u8> {
    rx(node, id, size, 1, 0, 0, 0, 0, 0)
}

#[test]
fn lin_nodes_follow_all_can_nodes() {
    assert_eq!(line(&[&LIN_NODE]), "plan ok 1 0 0");
    assert_eq!(line(&[&NODE, &NODE, &LIN_NODE, &LIN_NODE]), "plan ok 4 0 0");
    assert_eq!(line(&[&LIN_NODE, &NODE]), "plan refused 3 2");
    assert_eq!(line(&[&NODE, &LIN_NODE, &NODE]), "plan refused 3 3");
    assert_eq!(line(&[&LIN_NODE, &LIN_NODE, &NODE]), "plan refused 3 3");
}

#[test]
fn the_types_of_the_nodes_are_kept() {
    let plan = join(&[BIG, NODE, LIN_NODE, LIN_NODE]);
    let gateway = Gateway::open(&plan).expect("a good plan");
    let types = [NodeType::Can, NodeType::Lin, NodeType::Lin];
    assert_eq!(gateway.plan().nodes, types);
}

#[test]
fn a_type_that_does_not_exist_is_5_also_after_a_lin_node() {
    for node_type in [2, 3, 255] {
        assert_eq!(line(&[&[2, node_type]]), "plan refused 5 1");
        assert_eq!(line(&[&NODE, &[2, node_type]]), "plan refused 5 2");
        assert_eq!(line(&[&LIN_NODE, &[2, node_type]]), "plan refused 5 2");
    }
}

#[test]
fn a_can_node_after_a_lin_node_is_3_after_1_and_before_4() {
    // Without its type the node is cut, whatever it would have been.
    assert_eq!(line(&[&LIN_NODE, &[2]]), "plan refused 1 2");
    let sixteen = join(&[LIN_NODE; 16]);
    assert_eq!(line(&[&sixteen]), "plan ok 16 0 0");
    assert_eq!(line(&[&sixteen, &LIN_NODE]), "plan refused 4 17");
    assert_eq!(line(&[&sixteen, &NODE]), "plan refused 3 17");
    // A type that does not exist passes the count before its range.
    assert_eq!(line(&[&sixteen, &[2, 2]]), "plan refused 4 17");
}

#[test]
fn ids_on_lin_run_0_to_59() {
    for id in [0, 1, 58, 59] {
        assert_eq!(on_lin(&tx_of(1, id, 1)), "plan ok 2 1 0");
        assert_eq!(on_lin(&rx_of(1, id, 1)), "plan ok 2 0 1");
    }
    for id in [60, 61, 63, 64, 128, 256, 2047, 2048, 65535] {
        assert_eq!(on_lin(&tx_of(1, id, 1)), "plan refused 5 3");
        assert_eq!(on_lin(&rx_of(1, id, 1)), "plan refused 5 3");
    }
}

#[test]
fn sizes_on_lin_run_1_to_8() {
    for size in 1..=8 {
        assert_eq!(on_lin(&tx_of(1, 0, size)), "plan ok 2 1 0");
        assert_eq!(on_lin(&rx_of(1, 0, size)), "plan ok 2 0 1");
    }
    for size in [0, 9, 255] {
        assert_eq!(on_lin(&tx_of(1, 0, size)), "plan refused 5 3");
        assert_eq!(on_lin(&rx_of(1, 0, size)), "plan refused 5 3");
    }
}

#[test]
fn the_ranges_of_a_can_node_beside_it_stay() {
    for (id, size) in [(60, 0), (63, 0), (2047, 0), (2047, 8)] {
        assert_eq!(on_lin(&tx_of(0, id, size)), "plan ok 2 1 0");
        assert_eq!(on_lin(&rx_of(0, id, size)), "plan ok 2 0 1");
    }
    assert_eq!(on_lin(&tx_of(2, 0, 1)), "plan refused 5 3");
    assert_eq!(on_lin(&rx_of(2, 0, 1)), "plan refused 5 3");
}

#[test]
fn the_new_ranges_stand_where_5_stands() {
    let cut = &tx_of(1, 60, 0)[..16];
    assert_eq!(on_lin(cut), "plan refused 1 3");
    let twice = join(&[rx_of(1, 5, 1), rx_of(1, 5, 0)]);
    assert_eq!(on_lin(&twice), "plan refused 5 4");
    let after_a_row = join(&[rx_of(1, 5, 1), tx_of(1, 60, 0)]);
    assert_eq!(on_lin(&after_a_row), "plan refused 3 4");
    let one_too_many = join(&[join(&vec![tx_of(1, 0, 1); 256]), tx_of(1, 60, 0)]);
    assert_eq!(on_lin(&one_too_many), "plan refused 4 259");
}

#[test]
fn rows_of_can_and_lin_nodes_rise_alike() {
    let rising = join(&[rx_of(0, 2047, 1), rx_of(1, 0, 1), rx_of(1, 59, 1)]);
    assert_eq!(on_lin(&rising), "plan ok 2 0 3");
    let falling = join(&[rx_of(1, 5, 1), rx_of(1, 4, 1)]);
    assert_eq!(on_lin(&falling), "plan refused 6 4");
    let equal = join(&[rx_of(1, 5, 1), rx_of(1, 5, 1)]);
    assert_eq!(on_lin(&equal), "plan refused 6 4");
}
