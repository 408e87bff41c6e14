//! A request and the reading of it from its line; README.md has the format.

use std::str::{FromStr, SplitAsciiWhitespace};
use std::sync::Arc;

use ddo::lent::Rows;
use ddo::{CompilationType, Decision, State, SubProblem};

use crate::knapsack::{decision_of, Item, Knapsack};

/// The copy of clean.rs that is to run.
#[derive(Debug, Clone, Copy)]
pub enum Variant {
    Unpatched,
    Tie,
    Rooms,
}

/// The cutset kind of a relaxed diagram.
#[derive(Debug, Clone, Copy)]
pub enum Cut {
    LastExactLayer,
    Frontier,
}

/// One compilation.
pub struct Request {
    pub variant: Variant,
    pub mode: CompilationType,
    pub cut: Cut,
    pub width: usize,
    pub lower_bound: isize,
    pub record: SubProblem<State>,
    pub lent: Rows,
    pub problem: Knapsack,
}

impl Request {
    /// Reads a line: all ten fields, in their order.
    pub fn parse(line: &str) -> Result<Request, String> {
        let mut fields = Fields(line.split_ascii_whitespace());
        let variant = variant(fields.next("variant")?)?;
        let mode = mode(fields.next("mode")?)?;
        let cut = cut(fields.next("cut")?)?;
        let width = number(fields.next("width")?)?;
        let page = number(fields.next("page")?)?;
        let lower_bound = number(fields.next("lower")?)?;
        let record = record(fields.next("record")?)?;
        let lent = Rows { nodes: number(fields.next("node_room")?)?, edges: number(fields.next("edge_room")?)? };
        let items = list(fields.next("items")?, ',', item)?;
        fields.end()?;
        let problem = Knapsack { page, items };
        Ok(Request { variant, mode, cut, width, lower_bound, record, lent, problem })
    }
}

/// The fields of a line that are still to be read.
struct Fields<'a>(SplitAsciiWhitespace<'a>);

impl<'a> Fields<'a> {
    /// The value of the next field, which must have this name.
    fn next(&mut self, name: &str) -> Result<&'a str, String> {
        let field = self.0.next().unwrap_or("");
        let value = field.strip_prefix(name).and_then(|rest| rest.strip_prefix('='));
        value.ok_or_else(|| format!("expected {name}=, found '{field}'"))
    }

    fn end(&mut self) -> Result<(), String> {
        match self.0.next() {
            None => Ok(()),
            Some(field) => Err(format!("one field too many: '{field}'")),
        }
    }
}

fn variant(text: &str) -> Result<Variant, String> {
    match text {
        "unpatched" => Ok(Variant::Unpatched),
        "tie" => Ok(Variant::Tie),
        "rooms" => Ok(Variant::Rooms),
        _ => Err(format!("no variant: '{text}'")),
    }
}

fn mode(text: &str) -> Result<CompilationType, String> {
    match text {
        "exact" => Ok(CompilationType::Exact),
        "restricted" => Ok(CompilationType::Restricted),
        "relaxed" => Ok(CompilationType::Relaxed),
        _ => Err(format!("no mode: '{text}'")),
    }
}

fn cut(text: &str) -> Result<Cut, String> {
    match text {
        "lel" => Ok(Cut::LastExactLayer),
        "frontier" => Ok(Cut::Frontier),
        _ => Err(format!("no cutset kind: '{text}'")),
    }
}

fn number<N: FromStr>(text: &str) -> Result<N, String> {
    text.parse().map_err(|_| format!("no number of its kind: '{text}'"))
}

/// The parts of a list; `-` is the empty one.
fn list<T>(text: &str, mark: char, read: fn(&str) -> Result<T, String>) -> Result<Vec<T>, String> {
    match text {
        "-" => Ok(vec![]),
        _ => text.split(mark).map(read).collect(),
    }
}

fn record(text: &str) -> Result<SubProblem<State>, String> {
    let parts: Vec<&str> = text.split(':').collect();
    let [capacity, value, bound, depth, path] = parts[..] else {
        return Err(format!("no record of five parts: '{text}'"));
    };
    let state = State { capacity: number(capacity)?, depth: number(depth)? };
    Ok(SubProblem {
        value: number(value)?,
        ub: number(bound)?,
        depth: state.depth,
        path: list(path, '.', decision)?,
        state: Arc::new(state),
    })
}

fn decision(text: &str) -> Result<Decision, String> {
    number(text).map(decision_of)
}

fn item(text: &str) -> Result<Item, String> {
    let (weight, profit) = text.split_once(':').ok_or_else(|| format!("no weight and profit: '{text}'"))?;
    Ok(Item { weight: number(weight)?, profit: number(profit)? })
}
