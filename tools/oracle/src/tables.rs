//! The tables of a diagram, read from its `Debug` text: they are private, and this way clean.rs needs no accessor.

use std::fmt::Debug;
use std::str::FromStr;

use ddo::{Decision, NodeFlags, Variable};

/// Stored layers, node rows and edge rows.
pub struct Tables {
    pub layers: Vec<Layer>,
    pub nodes: Vec<NodeRow>,
    pub edges: Vec<EdgeRow>,
}

/// The rows from `from` up to, but not including, `to`.
pub struct Layer {
    pub from: usize,
    pub to: usize,
}

/// A node. Edges are numbered from 1 here, 0 stands for none.
pub struct NodeRow {
    pub capacity: usize,
    pub depth: usize,
    pub value: isize,
    pub bottom: isize,
    pub best: usize,
    pub newest: usize,
    pub fast_bound: isize,
    pub flags: NodeFlags,
}

/// An edge. `next` is numbered as in `NodeRow`: the edge that was its child's newest one before.
pub struct EdgeRow {
    pub from: usize,
    pub to: usize,
    pub decision: Decision,
    pub cost: isize,
    pub next: usize,
}

/// A cell of clean.rs's edge lists.
enum Cell {
    Nil,
    Cons { head: usize, tail: usize },
}

impl Tables {
    /// The tables of a diagram of any copy of clean.rs.
    ///
    /// Panics if the text isn't that of the `Mdd` which SHA256SUMS fixes: then no answer can be trusted.
    pub fn of(diagram: &impl Debug) -> Tables {
        let text = format!("{diagram:?}");
        let mut text = Text { rest: &text };
        text.skip("Mdd { layers: ");
        let layers = text.list(layer);
        text.skip(", nodes: ");
        let mut nodes = text.list(node);
        text.skip(", edges: ");
        let mut edges = text.list(edge);
        text.skip(", edgelists: ");
        let cells = text.list(cell);
        text.skip(", prev_l: ");
        link(&mut nodes, &mut edges, &cells);
        Tables { layers, nodes, edges }
    }
}

/// Replaces cell numbers by edge numbers: clean.rs links edges by cells beside them, document 01 by numbers in the edges.
fn link(nodes: &mut [NodeRow], edges: &mut [EdgeRow], cells: &[Cell]) {
    let edge_at = |cell: usize| match cells[cell] {
        Cell::Nil => 0,
        Cell::Cons { head, .. } => head + 1,
    };
    for node in nodes {
        node.newest = edge_at(node.newest);
    }
    for cell in cells {
        if let Cell::Cons { head, tail } = *cell {
            edges[head].next = edge_at(tail);
        }
    }
}

fn layer(text: &mut Text) -> Layer {
    let from = text.number_after("Layer { from: ");
    let to = text.number_after(", to: ");
    text.skip(" }");
    Layer { from, to }
}

/// A node row; its newest edge is still a cell's number.
fn node(text: &mut Text) -> NodeRow {
    let capacity = text.number_after("Node { state: State { capacity: ");
    let state_depth: usize = text.number_after(", depth: ");
    let value = text.number_after(" }, value_top: ");
    let bottom = text.number_after(", value_bot: ");
    let best = text.option_after(", best: ", "EdgeId(", ")").map_or(0, |edge: usize| edge + 1);
    let newest = text.number_after(", inbound: EdgesListId(");
    let fast_bound = text.number_after("), rub: ");
    let _threshold: Option<isize> = text.option_after(", theta: ", "", "");
    let flags = flags(text.number_after(", flags: NodeFlags("));
    let depth = text.number_after("), depth: ");
    text.skip(" }");
    assert_eq!(depth, state_depth, "a node and its state are of one depth");
    NodeRow { capacity, depth, value, bottom, best, newest, fast_bound, flags }
}

/// The flags with exactly these bits, so that ddo's own tests can read them.
fn flags(bits: u8) -> NodeFlags {
    let mut flags = NodeFlags::default();
    flags.remove(u8::MAX);
    flags.add(bits);
    flags
}

/// An edge row, its next edge still unknown.
fn edge(text: &mut Text) -> EdgeRow {
    let from = text.number_after("Edge { from: NodeId(");
    let to = text.number_after("), to: NodeId(");
    let variable = Variable(text.number_after("), decision: Decision { variable: Variable("));
    let value = text.number_after("), value: ");
    let cost = text.number_after(" }, cost: ");
    text.skip(" }");
    EdgeRow { from, to, decision: Decision { variable, value }, cost, next: 0 }
}

fn cell(text: &mut Text) -> Cell {
    if text.skipped("Nil") {
        return Cell::Nil;
    }
    let head = text.number_after("Cons { head: EdgeId(");
    let tail = text.number_after("), tail: EdgesListId(");
    text.skip(") }");
    Cell::Cons { head, tail }
}

/// The part of a `Debug` text that is still to be read.
struct Text<'a> {
    rest: &'a str,
}

impl Text<'_> {
    /// Goes past `words` if they come next, and says whether they did.
    fn skipped(&mut self, words: &str) -> bool {
        let rest = self.rest.strip_prefix(words);
        self.rest = rest.unwrap_or(self.rest);
        rest.is_some()
    }

    /// Goes past `words`, which must come next.
    fn skip(&mut self, words: &str) {
        if !self.skipped(words) {
            let found: String = self.rest.chars().take(80).collect();
            panic!("the Debug text has '{found}' where '{words}' is due");
        }
    }

    fn number_after<N: FromStr>(&mut self, words: &str) -> N {
        self.skip(words);
        let end = self.rest.find(|c: char| c != '-' && !c.is_ascii_digit()).unwrap_or(self.rest.len());
        let (digits, rest) = self.rest.split_at(end);
        self.rest = rest;
        digits.parse().unwrap_or_else(|_| panic!("the Debug text has '{digits}' for a number after '{words}'"))
    }

    /// `None`, or a number between `open` and `close`.
    fn option_after<N: FromStr>(&mut self, words: &str, open: &str, close: &str) -> Option<N> {
        self.skip(words);
        if self.skipped("None") {
            return None;
        }
        self.skip("Some(");
        let number = self.number_after(open);
        self.skip(close);
        self.skip(")");
        Some(number)
    }

    fn list<T>(&mut self, read: fn(&mut Self) -> T) -> Vec<T> {
        let mut all = vec![];
        self.skip("[");
        while !self.skipped("]") {
            if !all.is_empty() {
                self.skip(", ");
            }
            all.push(read(self));
        }
        all
    }
}
