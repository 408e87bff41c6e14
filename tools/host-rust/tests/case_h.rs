//! That this crate's structs and its reading of tables and record lists agree with what the library writes, on case H.

use jambtulip::tables::{edges, nodes, record_words, records, Edge, Node, IS_CUTSET, IS_DELETED, IS_EXACT, IS_MARKED, IS_RELAXED};
use jambtulip::{compile, pick, start, Cut, Found, Items, Lists, Mode, Question, Record, Refusal, Tables, Terms};

const ITEMS: Items = Items { weights: &[1, 1, 1], profits: &[4, 3, 2] };

const ASKED: Question =
    Question { page: 2, width: 1, mode: Mode::Relaxed, cut: Cut::LastExactLayer, lower: i64::MIN, root: Record::root(2) };

/// Words of a record list with two places.
const WORDS: usize = record_words(2);

struct Compiled {
    answer: Result<Found, Refusal>,
    nodes: [u64; 72],
    edges: [u64; 60],
    records: [u64; WORDS],
}

/// A compile that is lent so many words of the record list.
fn compiled_in(words: usize, question: Question) -> Compiled {
    let (mut nodes, mut edges, mut records) = ([7; 72], [7; 60], [7; WORDS]);
    let answer = compile(ITEMS, &mut Tables { nodes: &mut nodes, edges: &mut edges }, &mut records[..words], question);
    Compiled { answer, nodes, edges, records }
}

fn compiled(question: Question) -> Compiled {
    compiled_in(WORDS, question)
}

/// The bytes, and zeros behind them.
fn path(bytes: &[u8]) -> [u8; 64] {
    let mut path = [0; 64];
    path[..bytes.len()].copy_from_slice(bytes);
    path
}

fn rows(numbers: [usize; 4]) -> [usize; 65] {
    let mut rows = [0; 65];
    rows[..4].copy_from_slice(&numbers);
    rows
}

#[test]
fn the_answer() {
    let due = Found {
        exact: 0,
        has_best: 1,
        best: 9,
        path: path(&[5, 3, 1]),
        has_best_exact: 0,
        best_exact: 0,
        exact_path: path(&[]),
        nodes: 9,
        edges: 12,
        drained: 2,
        layers: 4,
        from: rows([0, 1, 3, 7]),
        to: rows([1, 3, 7, 9]),
    };
    assert_eq!(compiled(ASKED).answer, Ok(due));
}

fn drained() -> [Record; 2] {
    let first = Record { capacity: 1, value: 4, bound: 9, depth: 1, path: path(&[1]) };
    let second = Record { capacity: 2, value: 0, bound: 5, depth: 1, path: path(&[0]) };
    [first, second]
}

#[test]
fn the_records() {
    let words = compiled(ASKED).records;
    assert_eq!(records(&words).collect::<Vec<_>>(), drained());
    assert_eq!(records(&words[..WORDS - 1]).nth(1), None);
}

/// The first pick of a search drains the same records, and opens both.
#[test]
fn the_open_records() {
    let terms = Terms { page: ASKED.page, width: ASKED.width, cut: ASKED.cut };
    let (mut nodes, mut edges, mut open, mut scratch) = ([7; 72], [7; 60], [Record::EMPTY; 2], [7; WORDS]);
    let mut search = start(ITEMS, terms, i64::MIN, &mut open).unwrap();
    assert_eq!(open, [Record::root(2), Record::EMPTY]);
    let mut lists = Lists { open: &mut open, scratch: &mut scratch };
    assert_eq!(pick(ITEMS, &mut Tables { nodes: &mut nodes, edges: &mut edges }, &mut lists, terms, 0, &mut search), Ok(()));
    assert_eq!((search.opened, open, scratch), (2, drained(), compiled(ASKED).records));
}

fn node(capacity: u64, depth: u64, values: [i64; 2], edges: [Option<u64>; 2], fast_bound: i64, flags: u64) -> Node {
    Node { capacity, depth, top: values[0], bottom: values[1], best_edge: edges[0], newest_edge: edges[1], fast_bound, flags }
}

#[test]
fn the_nodes() {
    let all: Vec<Node> = nodes(&compiled(ASKED).nodes).collect();
    assert_eq!(all.len(), 9);
    assert_eq!(all[0], node(2, 0, [0, 9], [None, None], 9, IS_EXACT | IS_MARKED));
    assert_eq!(all[1], node(1, 1, [4, 5], [Some(0), Some(0)], 5, IS_EXACT | IS_MARKED | IS_CUTSET));
    assert_eq!(all[3], node(1, 2, [4, i64::MIN], [Some(5), Some(5)], i64::MAX, IS_EXACT | IS_DELETED));
    assert_eq!(all[6], node(2, 2, [7, 2], [Some(6), Some(9)], 2, IS_RELAXED | IS_MARKED));
}

#[test]
fn the_edges() {
    let all: Vec<Edge> = edges(&compiled(ASKED).edges).collect();
    assert_eq!(all.len(), 12);
    assert_eq!(all[0], Edge { from: 0, to: 1, decision: 1, cost: 4, next_older: None });
    assert_eq!(all[8], Edge { from: 2, to: 6, decision: 3, cost: 3, next_older: Some(7) });
    assert_eq!(all[11], Edge { from: 6, to: 8, decision: 4, cost: 0, next_older: None });
}

#[test]
fn a_refusal() {
    let wide = compiled(Question { width: 257, ..ASKED });
    assert_eq!(wide.answer, Err(Refusal(6)));
    assert_eq!((wide.nodes, wide.edges, wide.records), ([7; 72], [7; 60], [7; WORDS]));
}

#[test]
fn a_record_list_a_word_short() {
    let short = compiled_in(WORDS - 1, ASKED);
    assert_eq!((short.answer, short.records), (Err(Refusal(13)), [7; WORDS]));
}
