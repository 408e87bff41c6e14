//! A Rust host: answers a job by picks of its own, or hands the whole text to the library with --run-job.

mod job;

use std::cmp::Reverse;
use std::env::args_os;
use std::ffi::{OsStr, OsString};
use std::fs::File;
use std::io::{self, stdin, stdout, Read, Write};
use std::process::exit;

use jambtulip::tables::{record_words, EDGE_WORDS, NODE_WORDS};
use jambtulip::{pick, run_job, start, Items, Lists, Page, Record, Refusal, Search, Tables};

use job::Job;

/// What the program `page` lends, document 01's sizes, in rows and places.
const NODE_ROWS: usize = 1_024;
const EDGE_ROWS: usize = 1_792;
const OPEN_PLACES: usize = 384;
const SCRATCH_PLACES: usize = 128;

/// The refusal of a text outside the grammar.
const NO_JOB: Refusal = Refusal(15);

fn main() {
    let mut words: Vec<OsString> = args_os().skip(1).collect();
    let whole = words.first().is_some_and(|word| word == "--run-job");
    let names = words.split_off(usize::from(whole));
    if names.len() > 1 {
        eprintln!("usage: host-rust [--run-job] [JOB FILE]");
        exit(2);
    }
    let name = names.first().map(OsString::as_os_str);
    if let Err(fault) = run(name, whole) {
        eprintln!("{}: {fault}", name.unwrap_or("standard input".as_ref()).to_string_lossy());
        exit(1);
    }
}

/// Reads the job, and writes its answer.
fn run(name: Option<&OsStr>, whole: bool) -> io::Result<()> {
    let text = text_of(name)?;
    let answer = if whole { answer_whole(&text) } else { answer(&text) };
    stdout().write_all(&answer)
}

/// The text of the file, or of standard input, up to one byte more than a job's text may have.
fn text_of(name: Option<&OsStr>) -> io::Result<Vec<u8>> {
    let source: Box<dyn Read> = match name {
        Some(name) => Box::new(File::open(name)?),
        None => Box::new(stdin()),
    };
    let mut text = vec![];
    source.take(job::MOST_BYTES as u64 + 1).read_to_end(&mut text)?;
    Ok(text)
}

/// The answer by picks of its own.
fn answer(text: &[u8]) -> Vec<u8> {
    let page = job::read(text).ok_or(NO_JOB).and_then(|job| page_of(&job));
    page.unwrap_or_else(|Refusal(number)| format!("refused\t{number}\n")).into_bytes()
}

/// The answer by the library alone.
fn answer_whole(text: &[u8]) -> Vec<u8> {
    let mut page = Page::BLANK;
    let _ = lending(|tables, lists| run_job(text, tables, lists, &mut page)); // a refusal's number is in the text
    page.text().to_vec()
}

/// What `act` gives over fresh tables and lists.
fn lending<T>(act: impl FnOnce(&mut Tables, &mut Lists) -> T) -> T {
    let (mut nodes, mut edges) = (vec![0; NODE_ROWS * NODE_WORDS], vec![0; EDGE_ROWS * EDGE_WORDS]);
    let (mut open, mut scratch) = (vec![Record::EMPTY; OPEN_PLACES], vec![0; record_words(SCRATCH_PLACES)]);
    act(&mut Tables { nodes: &mut nodes, edges: &mut edges }, &mut Lists { open: &mut open, scratch: &mut scratch })
}

/// A search from start to end, with no bound to beat.
fn run_search(job: &Job) -> Result<Search, Refusal> {
    let items = Items { weights: &job.weights, profits: &job.profits };
    lending(|tables, lists| {
        let mut search = start(items, job.terms, i64::MIN, lists.open)?;
        while let Some(place) = largest_bound(&lists.open[..search.opened]) {
            pick(items, tables, lists, job.terms, place, &mut search)?;
        }
        Ok(search)
    })
}

/// The place to pick: the largest bound, the lowest place on a tie.
fn largest_bound(open: &[Record]) -> Option<usize> {
    (0..open.len()).max_by_key(|&place| (open[place].bound, Reverse(place)))
}

/// The page of a job whose search ends.
fn page_of(job: &Job) -> Result<String, Refusal> {
    let search = run_search(job)?;
    let items = job.weights.len();
    let path = &search.path[..items]; // names each item once
    let taken = |item: usize| path.iter().any(|&byte| usize::from(byte) == 2 * item + 1);
    let lines: String = (0..items).map(|item| format!("item\t{item}\t{}\n", u8::from(taken(item)))).collect();
    Ok(format!("best\t{}\n{lines}picks\t{}\n", search.best, search.picks))
}
