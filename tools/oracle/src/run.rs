//! Runs the copy of clean.rs that a request names and collects what it answers, writes and drains.

use std::any::Any;
use std::fmt::Debug;
use std::panic::{catch_unwind, AssertUnwindSafe};

use ddo::lent::{lend, Refusal};
use ddo::{rooms, tie, unpatched};
use ddo::{ByCapacity, CompilationInput, DecisionDiagram, EmptyCache, NoCutoff, Solution, State, SubProblem};
use ddo::{FRONTIER, LAST_EXACT_LAYER};

use crate::request::{Cut, Request, Variant};
use crate::tables::Tables;

/// How a run ended.
pub enum Outcome {
    Compiled(Found, Tables),
    /// Stopped by 10, 11 or 12, with the tables as written until then.
    Refused(Refusal, Tables),
    /// clean.rs panicked, with this message.
    Panicked(String),
}

/// What a finished diagram answers.
pub struct Found {
    pub exact: bool,
    pub best: Option<Best>,
    pub best_exact: Option<Best>,
    pub drained: Vec<SubProblem<State>>,
}

/// A value and the path that earns it.
pub struct Best {
    pub value: isize,
    pub path: Solution,
}

/// Runs the request with a diagram of its variant and cutset kind.
pub fn run(request: &Request) -> Outcome {
    match (request.variant, request.cut) {
        (Variant::Unpatched, Cut::LastExactLayer) => drive::<unpatched::Mdd<State, LAST_EXACT_LAYER>>(request),
        (Variant::Unpatched, Cut::Frontier) => drive::<unpatched::Mdd<State, FRONTIER>>(request),
        (Variant::Tie, Cut::LastExactLayer) => drive::<tie::Mdd<State, LAST_EXACT_LAYER>>(request),
        (Variant::Tie, Cut::Frontier) => drive::<tie::Mdd<State, FRONTIER>>(request),
        (Variant::Rooms, Cut::LastExactLayer) => drive::<rooms::Mdd<State, LAST_EXACT_LAYER>>(request),
        (Variant::Rooms, Cut::Frontier) => drive::<rooms::Mdd<State, FRONTIER>>(request),
    }
}

/// Compiles a fresh diagram and reads its tables, however the run ended.
fn drive<D>(request: &Request) -> Outcome
where
    D: DecisionDiagram<State = State> + Default + Debug,
{
    let mut diagram = D::default();
    lend(request.lent); // only the copy `rooms` looks at it
    let ended = catch_unwind(AssertUnwindSafe(|| compile(&mut diagram, request)));
    let tables = || Tables::of(&diagram);
    match ended {
        Ok(found) => Outcome::Compiled(found, tables()),
        Err(cause) => match cause.downcast_ref::<Refusal>() {
            Some(refusal) => Outcome::Refused(*refusal, tables()),
            None => Outcome::Panicked(message_of(cause.as_ref())),
        },
    }
}

fn compile<D>(diagram: &mut D, request: &Request) -> Found
where
    D: DecisionDiagram<State = State>,
{
    let input = CompilationInput {
        comp_type: request.mode,
        problem: &request.problem,
        relaxation: &request.problem,
        ranking: &ByCapacity,
        cutoff: &NoCutoff,
        max_width: request.width,
        residual: &request.record,
        best_lb: request.lower_bound,
        cache: &EmptyCache,
        dominance: &ByCapacity,
    };
    diagram.compile(&input).expect("there is no cutoff");

    let mut drained = vec![];
    diagram.drain_cutset(|record| drained.push(record));
    Found {
        exact: diagram.is_exact(),
        best: best_of(diagram.best_value(), diagram.best_solution()),
        best_exact: best_of(diagram.best_exact_value(), diagram.best_exact_solution()),
        drained,
    }
}

/// Value and path, which clean.rs has both or neither.
fn best_of(value: Option<isize>, path: Option<Solution>) -> Option<Best> {
    value.zip(path).map(|(value, path)| Best { value, path })
}

/// The text of a panic.
fn message_of(cause: &(dyn Any + Send)) -> String {
    let text = cause.downcast_ref::<&str>().map(|text| text.to_string());
    text.or_else(|| cause.downcast_ref::<String>().cloned()).unwrap_or_default()
}
