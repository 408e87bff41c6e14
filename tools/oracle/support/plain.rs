//! The knapsack's state, and the plainest parts that clean.rs can be run with: nothing cached, nothing dominated, no cutoff,
//! order by capacity.

use std::cmp::Ordering;
use std::sync::Arc;

use crate::{Cache, Cutoff, DominanceCheckResult, DominanceChecker, StateRanking, Threshold};

/// The capacity left after the items below `depth` are decided.
///
/// The depth is here for the fast bound alone, which is given no depth but that of the state. States of one layer have
/// one depth, so it makes no two states differ that have the same capacity.
#[derive(Debug, Clone, Copy, PartialEq, Eq, Hash)]
pub struct State {
    pub capacity: usize,
    pub depth: usize,
}

/// A cache that never holds anything.
pub struct EmptyCache;

impl Cache for EmptyCache {
    type State = State;

    fn get_threshold(&self, _: &State, _: usize) -> Option<Threshold> {
        None
    }

    fn update_threshold(&self, _: Arc<State>, _: usize, _: isize, _: bool) {}
}

/// Never stops a run.
pub struct NoCutoff;

impl Cutoff for NoCutoff {
    fn must_stop(&self) -> bool {
        false
    }
}

/// Ranking and dominance check in one: both compare by capacity, and no state dominates another.
///
/// Capacities differ within a layer, so both orders are total and the hash map's order never shows in them.
pub struct ByCapacity;

impl StateRanking for ByCapacity {
    type State = State;

    fn compare(&self, a: &State, b: &State) -> Ordering {
        a.capacity.cmp(&b.capacity)
    }
}

impl DominanceChecker for ByCapacity {
    type State = State;

    fn is_dominated_or_insert(&self, _: Arc<State>, _: usize, _: isize) -> DominanceCheckResult {
        DominanceCheckResult { dominated: false, threshold: None }
    }

    fn cmp(&self, a: &State, _: isize, b: &State, _: isize) -> Ordering {
        a.capacity.cmp(&b.capacity)
    }
}
