//! Our side: the proved code, over tables and lists that are lent once and used again and again.

use jambtulip::tables::{record_words, EDGE_WORDS, NODE_WORDS};
use jambtulip::{compile, pick, start, Found, Items, Lists, Question, Record, Refusal, Search, Tables, Terms};

use crate::blocks::Blocks;

/// How many records can be open.
const OPEN_PLACES: usize = 1 << 16;

pub struct Ours<'a> {
    items: Items<'a>,
    nodes: Vec<u64>,
    edges: Vec<u64>,
    pub open: Vec<Record>,
    pub scratch: Vec<u64>,
}

impl<'a> Ours<'a> {
    /// With the room that is always enough for a diagram of this width: docs/GUIDE.md, 'What to lend'.
    pub fn new(blocks: &'a Blocks, width: usize) -> Ours<'a> {
        let (items, most) = (blocks.weights.len(), width.max(2));
        let rows = 1 + items * (2 * most + 1);
        Ours {
            items: Items { weights: &blocks.weights, profits: &blocks.profits },
            nodes: vec![0; rows * NODE_WORDS],
            edges: vec![0; items * 4 * most * EDGE_WORDS],
            open: vec![Record::EMPTY; OPEN_PLACES],
            scratch: vec![0; record_words(rows)],
        }
    }

    /// Clears all that a compile is lent.
    pub fn clear(&mut self) {
        self.nodes.fill(0);
        self.edges.fill(0);
        self.scratch.fill(0);
    }

    /// Compiles; the drained records stand in `scratch`.
    pub fn compile(&mut self, question: Question) -> Found {
        let mut tables = Tables { nodes: &mut self.nodes, edges: &mut self.edges };
        accepted(compile(self.items, &mut tables, &mut self.scratch, question))
    }

    pub fn start(&mut self, terms: Terms) -> Search {
        accepted(start(self.items, terms, i64::MIN, &mut self.open))
    }

    pub fn pick(&mut self, terms: Terms, place: usize, search: &mut Search) {
        let mut tables = Tables { nodes: &mut self.nodes, edges: &mut self.edges };
        let mut lists = Lists { open: &mut self.open, scratch: &mut self.scratch };
        accepted(pick(self.items, &mut tables, &mut lists, terms, place, search));
    }

    /// A whole search, the largest bound first.
    pub fn search(&mut self, terms: Terms) -> Search {
        let mut search = self.start(terms);
        while let Some(place) = self.next(&search) {
            self.pick(terms, place, &mut search);
        }
        search
    }

    /// The open record to pick.
    pub fn next(&self, search: &Search) -> Option<usize> {
        largest(self.open[..search.opened].iter().map(|record| record.bound))
    }
}

/// The place of the largest bound, the lowest on a tie.
pub fn largest(bounds: impl Iterator<Item = i64>) -> Option<usize> {
    let first = |best: (usize, i64), next: (usize, i64)| if next.1 > best.1 { next } else { best };
    bounds.enumerate().reduce(first).map(|(place, _)| place)
}

/// The benchmark lends enough and asks nothing that is refused.
fn accepted<T>(answer: Result<T, Refusal>) -> T {
    answer.unwrap_or_else(|Refusal(number)| panic!("refused by {number}"))
}
