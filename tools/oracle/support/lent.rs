//! The rows lent to a run of the copy `rooms`: the tests that this copy makes before each row, and the stop at the first
//! unmet one.

use std::cell::Cell;
use std::panic::resume_unwind;

/// The most nodes that a layer may have.
const LAYER_PLACES: usize = 1024;

/// How many rows the node table and the edge table have.
#[derive(Debug, Clone, Copy)]
pub struct Rows {
    pub nodes: usize,
    pub edges: usize,
}

/// The number of the refusal that stopped a run: 10, 11 or 12.
#[derive(Debug, Clone, Copy, PartialEq, Eq)]
pub struct Refusal(pub u8);

thread_local! {
    // Kept here since most places of clean.rs that write a row are given nothing that could carry it.
    static LENT: Cell<Rows> = const { Cell::new(Rows { nodes: 0, edges: 0 }) };
}

/// Sets what is lent to the runs that follow.
pub fn lend(rows: Rows) {
    LENT.with(|lent| lent.set(rows));
}

/// Before a node row, with `used` node rows written.
pub fn node_row(used: usize) {
    stop_unless(used < LENT.with(Cell::get).nodes, Refusal(11));
}

/// Before an edge row, with `used` edge rows written.
pub fn edge_row(used: usize) {
    stop_unless(used < LENT.with(Cell::get).edges, Refusal(12));
}

/// Before a merged row, in a layer that has `in_layer` rows.
pub fn merged_row(in_layer: usize, nodes_used: usize) {
    stop_unless(in_layer < LAYER_PLACES, Refusal(10));
    node_row(nodes_used);
}

/// Before a child with a state of its own, which needs a node row and an edge row and is written whole or not at all.
pub fn child(in_layer: usize, nodes_used: usize, edges_used: usize) {
    merged_row(in_layer, nodes_used);
    edge_row(edges_used);
}

/// Leaves the run by unwinding: no signature of clean.rs has to change, and what it has written stays as it is.
fn stop_unless(met: bool, refusal: Refusal) {
    if !met {
        resume_unwind(Box::new(refusal)); // unlike a panic, without a message on standard error
    }
}
