//! The border to libhost.a: `#[repr(C)]` structs, their sizes and offsets asserted, and the only unsafe code of this crate.

use std::mem::{offset_of, size_of};

use crate::{Items, Lists, Tables};

/// A record: its path is the first `depth` of the bytes, a decision each, 2 × item + 1 for take and 2 × item for skip.
#[repr(C)]
#[derive(Debug, Clone, Copy, PartialEq, Eq)]
pub struct Record {
    pub capacity: u64,
    pub value: i64,
    pub bound: i64,
    pub depth: u64,
    pub path: [u8; 64],
}

/// Which cutset a relaxed run has.
#[repr(u64)]
#[derive(Debug, Clone, Copy, PartialEq, Eq)]
pub enum Cut {
    LastExactLayer = 0,
    Frontier = 1,
}

/// How a compile keeps a layer within the width.
#[repr(u64)]
#[derive(Debug, Clone, Copy, PartialEq, Eq)]
pub enum Mode {
    Exact = 0,
    Restricted = 1,
    Relaxed = 2,
}

/// How a search is asked.
#[repr(C)]
#[derive(Debug, Clone, Copy, PartialEq, Eq)]
pub struct Terms {
    pub page: u64,
    pub width: u64,
    pub cut: Cut,
}

/// What a compile is asked.
#[repr(C)]
#[derive(Debug, Clone, Copy, PartialEq, Eq)]
pub struct Question {
    pub page: u64,
    pub width: u64,
    pub mode: Mode,
    pub cut: Cut,
    pub lower: i64,
    pub root: Record,
}

/// What a compile found. A flag is 1 or 0; a value whose flag is 0 is 0, and so is its path.
#[repr(C)]
#[derive(Debug, Clone, Copy, PartialEq, Eq)]
pub struct Found {
    pub exact: u64,
    pub has_best: u64,
    pub best: i64,
    pub path: [u8; 64],
    pub has_best_exact: u64,
    pub best_exact: i64,
    pub exact_path: [u8; 64],
    pub nodes: usize,
    pub edges: usize,
    pub drained: usize,
    pub layers: usize,
    pub from: [usize; 65],
    pub to: [usize; 65],
}

/// A search: a path is held unless `held` is 0. The records open are the first `opened` of the list.
#[repr(C)]
#[derive(Debug, Clone, Copy, PartialEq, Eq)]
pub struct Search {
    pub best: i64,
    pub held: u64,
    pub path: [u8; 64],
    pub opened: usize,
    pub picks: u64,
}

/// A job's answer: its first `count` bytes; the bytes behind them are 0.
#[repr(C)]
#[derive(Debug, Clone, Copy, PartialEq, Eq)]
pub struct Page {
    pub count: usize,
    pub bytes: [u8; 671],
    pub end: u8,
}

/// Asserts, when this crate is compiled, the size of a struct and where each of its fields stands.
macro_rules! stands {
    ($type:ty, $size:literal: $($field:ident $at:literal),+) => {
        const _: () = {
            assert!(size_of::<$type>() == $size);
            $(assert!(offset_of!($type, $field) == $at);)+
        };
    };
}

const _: () = assert!(size_of::<usize>() == 8);
stands!(Record, 96: capacity 0, value 8, bound 16, depth 24, path 32);
stands!(Terms, 24: page 0, width 8, cut 16);
stands!(Question, 136: page 0, width 8, mode 16, cut 24, lower 32, root 40);
stands!(Found, 1240: exact 0, has_best 8, best 16, path 24, has_best_exact 88, best_exact 96, exact_path 104,
    nodes 168, edges 176, drained 184, layers 192, from 200, to 720);
stands!(Search, 96: best 0, held 8, path 16, opened 80, picks 88);
stands!(Page, 680: count 0, bytes 8, end 679);

impl Record {
    /// A place of a list that nothing was written to yet.
    pub const EMPTY: Record = Record { capacity: 0, value: 0, bound: 0, depth: 0, path: [0; 64] };

    /// The record that a search of this page starts from.
    pub const fn root(page: u64) -> Record {
        Record { capacity: page, bound: i64::MAX, ..Record::EMPTY }
    }
}

impl Found {
    /// What a refused compile answers.
    pub(crate) const NOTHING: Found = Found {
        exact: 0,
        has_best: 0,
        best: 0,
        path: [0; 64],
        has_best_exact: 0,
        best_exact: 0,
        exact_path: [0; 64],
        nodes: 0,
        edges: 0,
        drained: 0,
        layers: 0,
        from: [0; 65],
        to: [0; 65],
    };
}

impl Search {
    /// A search with no record open, for a start to write over.
    pub(crate) const NOTHING: Search = Search { best: 0, held: 0, path: [0; 64], opened: 0, picks: 0 };
}

impl Page {
    /// A page without text, for a job to write over.
    pub const BLANK: Page = Page { count: 0, bytes: [0; 671], end: 0 };

    /// The answer's text.
    pub fn text(&self) -> &[u8] {
        &self.bytes[..self.count]
    }
}

extern "C" {
    fn jambtulip_compile(
        weights: *const u64, weights_len: usize, profits: *const u64, profits_len: usize,
        nodes: *mut u64, nodes_len: usize, edges: *mut u64, edges_len: usize,
        records: *mut u64, records_len: usize,
        question: Question, found: *mut Found,
    ) -> u64;

    fn jambtulip_start(
        weights: *const u64, weights_len: usize, profits: *const u64, profits_len: usize,
        terms: Terms, bound: i64,
        list: *mut Record, list_len: usize, search: *mut Search,
    ) -> u64;

    fn jambtulip_pick(
        weights: *const u64, weights_len: usize, profits: *const u64, profits_len: usize,
        nodes: *mut u64, nodes_len: usize, edges: *mut u64, edges_len: usize,
        list: *mut Record, list_len: usize, scratch: *mut u64, scratch_len: usize,
        terms: Terms, place: usize, search: *mut Search,
    ) -> u64;

    fn jambtulip_run_job(
        text: *const u8, text_len: usize,
        nodes: *mut u64, nodes_len: usize, edges: *mut u64, edges_len: usize,
        list: *mut Record, list_len: usize, scratch: *mut u64, scratch_len: usize,
        page: *mut Page,
    ) -> u64;
}

// SAFETY, of each call below: a slice's pointer is not null, aligned and good for its length, even for length 0; what is lent mutably overlaps
// nothing else that is lent; the library answers every input, keeps no pointer, and writes only what is lent, in which every bit pattern is a value.

pub fn compile(items: Items, tables: &mut Tables, records: &mut [u64], question: Question, found: &mut Found) -> u64 {
    let Items { weights, profits } = items;
    let Tables { nodes, edges } = tables;
    unsafe {
        jambtulip_compile(
            weights.as_ptr(), weights.len(), profits.as_ptr(), profits.len(),
            nodes.as_mut_ptr(), nodes.len(), edges.as_mut_ptr(), edges.len(),
            records.as_mut_ptr(), records.len(),
            question, found,
        )
    }
}

pub fn start(items: Items, terms: Terms, bound: i64, list: &mut [Record], search: &mut Search) -> u64 {
    let Items { weights, profits } = items;
    unsafe {
        jambtulip_start(
            weights.as_ptr(), weights.len(), profits.as_ptr(), profits.len(),
            terms, bound,
            list.as_mut_ptr(), list.len(), search,
        )
    }
}

pub fn pick(items: Items, tables: &mut Tables, lists: &mut Lists, terms: Terms, place: usize, search: &mut Search) -> u64 {
    let Items { weights, profits } = items;
    let Tables { nodes, edges } = tables;
    let Lists { open, scratch } = lists;
    unsafe {
        jambtulip_pick(
            weights.as_ptr(), weights.len(), profits.as_ptr(), profits.len(),
            nodes.as_mut_ptr(), nodes.len(), edges.as_mut_ptr(), edges.len(),
            open.as_mut_ptr(), open.len(), scratch.as_mut_ptr(), scratch.len(),
            terms, place, search,
        )
    }
}

pub fn run_job(text: &[u8], tables: &mut Tables, lists: &mut Lists, page: &mut Page) -> u64 {
    let Tables { nodes, edges } = tables;
    let Lists { open, scratch } = lists;
    unsafe {
        jambtulip_run_job(
            text.as_ptr(), text.len(),
            nodes.as_mut_ptr(), nodes.len(), edges.as_mut_ptr(), edges.len(),
            open.as_mut_ptr(), open.len(), scratch.as_mut_ptr(), scratch.len(),
            page,
        )
    }
}
