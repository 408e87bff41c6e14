//! Writes an outcome as its answer line; README.md has the format.

use std::fmt::{Display, Formatter, Result};

use ddo::{Decision, State, SubProblem};

use crate::knapsack::number_of;
use crate::run::{Best, Found, Outcome};
use crate::tables::{EdgeRow, Layer, NodeRow, Tables};

impl Display for Outcome {
    fn fmt(&self, f: &mut Formatter) -> Result {
        match self {
            Outcome::Compiled(found, tables) => write!(f, "ok {found} {tables}"),
            Outcome::Refused(refusal, tables) => write!(f, "refused number={} {tables}", refusal.0),
            Outcome::Panicked(message) => write!(f, "panic {}", message.replace('\n', " ")),
        }
    }
}

impl Display for Found {
    fn fmt(&self, f: &mut Formatter) -> Result {
        write!(f, "exact={}", u8::from(self.exact))?;
        write!(f, " best={} path={}", value(&self.best), path_of(&self.best))?;
        write!(f, " exact_best={} exact_path={}", value(&self.best_exact), path_of(&self.best_exact))?;
        write!(f, " records={}", list(&self.drained, ",", record))
    }
}

impl Display for Tables {
    fn fmt(&self, f: &mut Formatter) -> Result {
        write!(f, "nodes={} edges={}", self.nodes.len(), self.edges.len())?;
        write!(f, " layers={}", list(&self.layers, ",", layer))?;
        write!(f, " node_rows={}", list(&self.nodes, ",", node))?;
        write!(f, " edge_rows={}", list(&self.edges, ",", edge))
    }
}

/// The parts of a list; `-` is the empty one.
fn list<T>(all: &[T], mark: &str, write: fn(&T) -> String) -> String {
    match all {
        [] => "-".to_string(),
        _ => all.iter().map(write).collect::<Vec<_>>().join(mark),
    }
}

fn value(best: &Option<Best>) -> String {
    best.as_ref().map_or("none".to_string(), |best| best.value.to_string())
}

fn path_of(best: &Option<Best>) -> String {
    best.as_ref().map_or("none".to_string(), |best| path(&best.path))
}

fn path(decisions: &[Decision]) -> String {
    list(decisions, ".", |decision| number_of(*decision).to_string())
}

fn record(record: &SubProblem<State>) -> String {
    let SubProblem { state, value, path: decisions, ub, depth } = record;
    format!("{}:{value}:{ub}:{depth}:{}", state.capacity, path(decisions))
}

fn layer(layer: &Layer) -> String {
    format!("{}:{}", layer.from, layer.to)
}

fn node(row: &NodeRow) -> String {
    let NodeRow { capacity, depth, value, bottom, best, newest, fast_bound, flags } = row;
    let [exact, relaxed, marked, cutset, deleted] =
        [flags.is_exact(), flags.is_relaxed(), flags.is_marked(), flags.is_cutset(), flags.is_deleted()].map(u8::from);
    format!("{capacity}:{depth}:{value}:{bottom}:{best}:{newest}:{fast_bound}:{exact}:{relaxed}:{marked}:{cutset}:{deleted}")
}

fn edge(row: &EdgeRow) -> String {
    let EdgeRow { from, to, decision, cost, next } = row;
    format!("{from}:{to}:{}:{cost}:{next}", number_of(*decision))
}
