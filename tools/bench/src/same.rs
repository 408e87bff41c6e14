//! That both sides do the same work, asserted before anything is timed.

use std::fmt::Debug;

use ddo::{Decision, DecisionDiagram, Solution, State, SubProblem};
use jambtulip::tables::records;
use jambtulip::{Found, Mode, Question, Record, Terms};

use crate::knapsack::number_of;
use crate::ours::Ours;
use crate::tables::Tables;
use crate::theirs::{Compiled, Theirs};

/// A record of theirs as ours.
fn record_of(theirs: &SubProblem<State>) -> Record {
    Record {
        capacity: theirs.state.capacity as u64,
        value: theirs.value as i64,
        bound: theirs.ub as i64,
        depth: theirs.depth as u64,
        path: path_of(&theirs.path),
    }
}

fn path_of(decisions: &[Decision]) -> [u8; 64] {
    let mut path = [0; 64];
    for (byte, decision) in path.iter_mut().zip(decisions) {
        *byte = number_of(*decision) as u8;
    }
    path
}

/// Flag, value and path of theirs as in ours.
fn value_of(best: &Option<(isize, Solution)>) -> (u64, i64, [u8; 64]) {
    best.as_ref().map_or((0, 0, [0; 64]), |(value, path)| (1, *value as i64, path_of(path)))
}

/// Asserts that a compile answered the same and made as many nodes, edges and layers, and gives the number of nodes.
pub fn compiled<D: Debug>(found: &Found, drained: &[u64], theirs: &Theirs<D>, answer: &Compiled) -> usize {
    let tables = Tables::of(&theirs.diagram);
    assert_eq!(found.exact, u64::from(answer.exact));
    assert_eq!((found.has_best, found.best, found.path), value_of(&answer.best));
    assert_eq!((found.has_best_exact, found.best_exact, found.exact_path), value_of(&answer.best_exact));
    assert_eq!((found.nodes, found.edges, found.layers), (tables.nodes.len(), tables.edges.len(), tables.layers.len()));
    let drained: Vec<Record> = records(drained).take(found.drained).collect();
    let due: Vec<Record> = answer.drained.iter().map(record_of).collect();
    assert_eq!(drained, due);
    found.nodes
}

/// What a search took.
pub struct Taken {
    pub picks: u64,
    pub nodes: usize,
}

/// Runs a search on both sides, pick by pick, and asserts that each pick does the same. `None` if it takes more picks than `most`.
pub fn searched<D>(ours: &mut Ours, theirs: &mut Theirs<D>, terms: Terms, most: u64) -> Option<Taken>
where
    D: DecisionDiagram<State = State> + Default + Debug,
{
    let (mut search, mut their_search) = (ours.start(terms), theirs.start());
    let mut nodes = 0;
    while let Some(place) = ours.next(&search) {
        if search.picks == most {
            return None;
        }
        let (root, lower) = (ours.open[place], search.best);
        ours.pick(terms, place, &mut search);
        let place = their_search.next().expect("as many records are open");
        let compiles = theirs.pick(terms.width as usize, place, &mut their_search);
        assert_eq!(compiles, root.bound > lower);
        if compiles {
            let Terms { page, width, cut } = terms;
            let found = ours.compile(Question { page, width, mode: Mode::Relaxed, cut, lower, root });
            assert_eq!(found.nodes, Tables::of(&theirs.diagram).nodes.len());
            nodes += found.nodes;
        }
        let open: Vec<Record> = their_search.open.iter().map(record_of).collect();
        assert_eq!(ours.open[..search.opened], open);
        assert_eq!((search.best, search.picks), (their_search.best as i64, their_search.picks));
        assert_eq!(search.path, their_search.path.as_deref().map_or([0; 64], path_of));
    }
    Some(Taken { picks: search.picks, nodes })
}
