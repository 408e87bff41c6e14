//! How to read the words of tables and record lists.

use std::array::from_fn;

use crate::Record;

/// Words to a node row, to an edge row, and to a record.
pub const NODE_WORDS: usize = 8;
pub const EDGE_WORDS: usize = 5;
pub const RECORD_WORDS: usize = 68;

/// How many words a record list of so many places has.
pub const fn record_words(places: usize) -> usize {
    places * RECORD_WORDS
}

/// A node's flags.
pub const IS_EXACT: u64 = 1;
pub const IS_RELAXED: u64 = 2;
pub const IS_MARKED: u64 = 4;
pub const IS_CUTSET: u64 = 8;
pub const IS_DELETED: u64 = 16;

/// A node row, with its values from the top and from the bottom. Edges are numbers of edge rows.
#[derive(Debug, Clone, Copy, PartialEq, Eq)]
pub struct Node {
    pub capacity: u64,
    pub depth: u64,
    pub top: i64,
    pub bottom: i64,
    pub best_edge: Option<u64>,
    pub newest_edge: Option<u64>,
    pub fast_bound: i64,
    pub flags: u64,
}

/// An edge row: the node rows that it comes from and ends in, its decision's byte, its cost, and the next older edge into the same node.
#[derive(Debug, Clone, Copy, PartialEq, Eq)]
pub struct Edge {
    pub from: u64,
    pub to: u64,
    pub decision: u64,
    pub cost: u64,
    pub next_older: Option<u64>,
}

/// The rows of a node table.
pub fn nodes(words: &[u64]) -> impl Iterator<Item = Node> + '_ {
    words.chunks_exact(NODE_WORDS).map(|w| Node {
        capacity: w[0],
        depth: w[1],
        top: number(w[2]),
        bottom: number(w[3]),
        best_edge: edge(w[4]),
        newest_edge: edge(w[5]),
        fast_bound: number(w[6]),
        flags: w[7],
    })
}

/// The rows of an edge table.
pub fn edges(words: &[u64]) -> impl Iterator<Item = Edge> + '_ {
    words.chunks_exact(EDGE_WORDS).map(|w| Edge { from: w[0], to: w[1], decision: w[2], cost: w[3], next_older: edge(w[4]) })
}

/// The records of a record list: `records(words).nth(place)` is the one in a place, `None` behind the last whole place.
pub fn records(words: &[u64]) -> impl Iterator<Item = Record> + '_ {
    words.chunks_exact(RECORD_WORDS).map(|w| Record {
        capacity: w[0],
        value: number(w[1]),
        bound: number(w[2]),
        depth: w[3],
        path: from_fn(|place| w[4 + place] as u8), // a byte to a word
    })
}

/// An i64 stands in a word as its number + 2^63.
fn number(word: u64) -> i64 {
    (word ^ 1 << 63) as i64
}

/// An edge stands in a word as its row + 1, and none as 0.
fn edge(word: u64) -> Option<u64> {
    word.checked_sub(1)
}
