//! The block problem: a 0/1 knapsack whose item d is decided at depth d, and its relaxation.

use ddo::{Decision, DecisionCallback, Problem, Relaxation, State, Variable};

const TAKE: isize = 1;
const SKIP: isize = 0;

/// A block: what it needs of the page, and what it earns.
#[derive(Debug, Clone, Copy)]
pub struct Item {
    pub weight: usize,
    pub profit: isize,
}

/// The page's capacity and the items in their given order.
#[derive(Debug)]
pub struct Knapsack {
    pub page: usize,
    pub items: Vec<Item>,
}

impl Problem for Knapsack {
    type State = State;

    fn nb_variables(&self) -> usize {
        self.items.len()
    }

    fn initial_state(&self) -> State {
        State { capacity: self.page, depth: 0 }
    }

    fn initial_value(&self) -> isize {
        0
    }

    fn transition(&self, state: &State, decision: Decision) -> State {
        let used = match decision.value {
            TAKE => self.items[decision.variable.id()].weight,
            _ => 0,
        };
        State { capacity: state.capacity - used, depth: state.depth + 1 }
    }

    fn transition_cost(&self, _: &State, _: &State, decision: Decision) -> isize {
        match decision.value {
            TAKE => self.items[decision.variable.id()].profit,
            _ => 0,
        }
    }

    fn next_variable(&self, depth: usize, _: &mut dyn Iterator<Item = &State>) -> Option<Variable> {
        (depth < self.items.len()).then_some(Variable(depth))
    }

    /// Take first, only if the item fits, then skip: the order in which children are made is part of the diagram.
    fn for_each_in_domain(&self, variable: Variable, state: &State, f: &mut dyn DecisionCallback) {
        if self.items[variable.id()].weight <= state.capacity {
            f.apply(Decision { variable, value: TAKE });
        }
        f.apply(Decision { variable, value: SKIP });
    }
}

impl Relaxation for Knapsack {
    type State = State;

    /// The largest capacity; merged states are of one layer and so have one depth.
    fn merge(&self, states: &mut dyn Iterator<Item = &State>) -> State {
        *states.max_by_key(|state| state.capacity).expect("clean.rs merges at least one state")
    }

    fn relax(&self, _: &State, _: &State, _: &State, _: Decision, cost: isize) -> isize {
        cost
    }

    /// The profits of all undecided items that fit alone. Only the state can say which items are undecided.
    fn fast_upper_bound(&self, state: &State) -> isize {
        let undecided = self.items.iter().skip(state.depth);
        undecided.filter(|item| item.weight <= state.capacity).map(|item| item.profit).sum()
    }
}

/// A decision as document 01's number: 2 × item + 1 for take, 2 × item for skip.
pub fn number_of(decision: Decision) -> usize {
    2 * decision.variable.id() + usize::from(decision.value == TAKE)
}

/// The decision that a number stands for.
pub fn decision_of(number: usize) -> Decision {
    Decision { variable: Variable(number / 2), value: if number % 2 == 1 { TAKE } else { SKIP } }
}
