//! The calls of libhost.a for a Rust host on x86-64 Linux: the structs that cross the border, and safe functions over lent slices.
//!
//! `include/jambtulip.h` says the same to C; docs/GUIDE.md says what each field means and when each refusal is given.

mod border;
pub mod tables;

pub use border::{Cut, Found, Mode, Page, Question, Record, Search, Terms};

/// The number of the first refusal that applies, 1 to 15.
#[derive(Debug, Clone, Copy, PartialEq, Eq)]
pub struct Refusal(pub u64);

/// The items in order. Slices of different lengths are refusal 1.
#[derive(Debug, Clone, Copy)]
pub struct Items<'a> {
    pub weights: &'a [u64],
    pub profits: &'a [u64],
}

/// The lent tables: 8 words to a node row, 5 to an edge row.
pub struct Tables<'a> {
    pub nodes: &'a mut [u64],
    pub edges: &'a mut [u64],
}

/// The lent lists of a search: the open records, and the record list of a pick's compile, 68 words to a record.
pub struct Lists<'a> {
    pub open: &'a mut [Record],
    pub scratch: &'a mut [u64],
}

/// Compiles `question.root` into the tables and a record list, 68 words to a record. The drained records are the first `drained` that
/// `tables::records` reads there; refused, the list stays as it is.
pub fn compile(items: Items, tables: &mut Tables, records: &mut [u64], question: Question) -> Result<Found, Refusal> {
    let mut found = Found::NOTHING;
    accepted(border::compile(items, tables, records, question, &mut found)).map(|()| found)
}

/// Starts a search at that bound: the root record stands in the list's first place. Refused, the list stays as it is.
pub fn start(items: Items, terms: Terms, bound: i64, list: &mut [Record]) -> Result<Search, Refusal> {
    let mut search = Search::NOTHING;
    accepted(border::start(items, terms, bound, list, &mut search)).map(|()| search)
}

/// Picks the open record in that place. Refused, search and open list stay as they are.
pub fn pick(items: Items, tables: &mut Tables, lists: &mut Lists, terms: Terms, place: usize, search: &mut Search) -> Result<(), Refusal> {
    accepted(border::pick(items, tables, lists, terms, place, search))
}

/// Answers a job's text. `page` is written, accepted or refused.
pub fn run_job(text: &[u8], tables: &mut Tables, lists: &mut Lists, page: &mut Page) -> Result<(), Refusal> {
    accepted(border::run_job(text, tables, lists, page))
}

fn accepted(number: u64) -> Result<(), Refusal> {
    match number {
        0 => Ok(()),
        _ => Err(Refusal(number)),
    }
}
