//! The traits and types that clean.rs and mdd.rs import and whose files are not at hand, with just the parts that they use.

use std::cmp::Ordering;
use std::sync::Arc;

use crate::{Decision, Threshold};

/// The decisions of a path, in the order in which clean.rs lists them.
pub type Solution = Vec<Decision>;

/// Says which of two states is the more promising one.
pub trait StateRanking {
    type State;

    /// `Greater` means that `a` is kept rather than `b`.
    fn compare(&self, a: &Self::State, b: &Self::State) -> Ordering;
}

/// Says when to give up.
pub trait Cutoff {
    fn must_stop(&self) -> bool;
}

/// What earlier compilations found out about states.
pub trait Cache {
    type State;

    fn get_threshold(&self, state: &Self::State, depth: usize) -> Option<Threshold>;
    fn update_threshold(&self, state: Arc<Self::State>, depth: usize, value: isize, explored: bool);
}

/// The outcome of a dominance check.
pub struct DominanceCheckResult {
    pub dominated: bool,
    pub threshold: Option<isize>,
}

/// Finds dominated states. Its order is the order in which clean.rs expands a layer that it doesn't squash.
pub trait DominanceChecker {
    type State;

    fn is_dominated_or_insert(&self, state: Arc<Self::State>, depth: usize, value: isize) -> DominanceCheckResult;

    /// `Greater` means that `a` comes before `b`.
    fn cmp(&self, a: &Self::State, val_a: isize, b: &Self::State, val_b: isize) -> Ordering;
}
