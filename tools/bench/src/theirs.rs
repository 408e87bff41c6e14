//! Their side: clean.rs as it was published, over a diagram whose memory is used again and again, as ddo's own solvers do.

use std::sync::Arc;

use ddo::{ByCapacity, CompilationInput, CompilationType, DecisionDiagram, EmptyCache, NoCutoff, Solution, State, SubProblem};

use crate::blocks::Blocks;
use crate::knapsack::{Item, Knapsack};
use crate::ours::largest;

pub struct Theirs<D> {
    pub diagram: D,
    problem: Knapsack,
}

/// What a compile answers: all that ours answers in one call, but for the tables.
pub struct Compiled {
    pub exact: bool,
    pub best: Option<(isize, Solution)>,
    pub best_exact: Option<(isize, Solution)>,
    pub drained: Vec<SubProblem<State>>,
}

pub struct Search {
    pub best: isize,
    pub path: Option<Solution>,
    pub open: Vec<SubProblem<State>>,
    pub picks: u64,
}

impl<D: DecisionDiagram<State = State> + Default> Theirs<D> {
    pub fn new(blocks: &Blocks) -> Theirs<D> {
        let pairs = blocks.weights.iter().zip(&blocks.profits);
        let items = pairs.map(|(&weight, &profit)| Item { weight: weight as usize, profit: profit as isize }).collect();
        Theirs { diagram: D::default(), problem: Knapsack { page: blocks.page as usize, items } }
    }

    /// The record that a search starts from.
    pub fn root(&self) -> SubProblem<State> {
        let state = Arc::new(State { capacity: self.problem.page, depth: 0 });
        SubProblem { state, value: 0, path: vec![], ub: isize::MAX, depth: 0 }
    }

    pub fn compile(&mut self, comp_type: CompilationType, max_width: usize, best_lb: isize, residual: &SubProblem<State>) -> Compiled {
        let input = CompilationInput {
            comp_type,
            problem: &self.problem,
            relaxation: &self.problem,
            ranking: &ByCapacity,
            cutoff: &NoCutoff,
            max_width,
            residual,
            best_lb,
            cache: &EmptyCache,
            dominance: &ByCapacity,
        };
        self.diagram.compile(&input).expect("there is no cutoff");
        let mut drained = vec![];
        self.diagram.drain_cutset(|record| drained.push(record));
        Compiled {
            exact: self.diagram.is_exact(),
            best: self.diagram.best_value().zip(self.diagram.best_solution()),
            best_exact: self.diagram.best_exact_value().zip(self.diagram.best_exact_solution()),
            drained,
        }
    }

    pub fn start(&self) -> Search {
        Search { best: isize::MIN, path: None, open: vec![self.root()], picks: 0 }
    }

    /// Document 01's pick. Says whether anything was compiled.
    pub fn pick(&mut self, width: usize, place: usize, search: &mut Search) -> bool {
        let record = search.open.remove(place);
        search.picks += 1;
        if record.ub <= search.best {
            return false;
        }
        let found = self.compile(CompilationType::Relaxed, width, search.best, &record);
        if let Some((value, path)) = found.best_exact.filter(|(value, _)| *value > search.best) {
            search.best = value;
            search.path = Some(path);
        }
        if !found.exact {
            search.open.extend(found.drained.into_iter().filter(|record| record.ub > search.best));
        }
        true
    }

    /// A whole search, the largest bound first.
    pub fn search(&mut self, width: usize) -> Search {
        let mut search = self.start();
        while let Some(place) = search.next() {
            self.pick(width, place, &mut search);
        }
        search
    }
}

impl Search {
    /// The open record to pick.
    pub fn next(&self) -> Option<usize> {
        largest(self.open.iter().map(|record| record.ub as i64))
    }
}
