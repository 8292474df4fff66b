//! Steps of actions, and progression of knowledge states by them.
//!
//! Every action has an effect and then a reply that is true in the state after
//! it. A change's reply says nothing; a probe's effect changes nothing.

use crate::sheet::{Action, Sheet};
use crate::states::{states, State, StateSet};
use crate::truth::{holds, holds_between};

/// Whether the action's effect may lead from one state to the other.
pub fn effect(action: &Action, before: State, after: State) -> bool {
    match action {
        Action::Change(theory) => holds_between(theory, before, after),
        Action::Probe(_) => before == after,
    }
}

/// Whether the action has this reply and it is true in the state after the effect.
pub fn replies(action: &Action, reply: u8, after: State) -> bool {
    match action {
        Action::Change(_) => reply == 0,
        Action::Probe(formulas) => formulas
            .get(usize::from(reply))
            .is_some_and(|formula| holds(formula, after)),
    }
}

/// Whether the action may lead from one state to the other with this reply.
pub fn step(action: &Action, reply: u8, before: State, after: State) -> bool {
    effect(action, before, after) && replies(action, reply, after)
}

/// The initial knowledge state.
pub fn start_states(sheet: &Sheet) -> StateSet {
    states(sheet)
        .filter(|&state| holds(&sheet.start, state))
        .collect()
}

/// All states that the action's effect may lead to from the given ones.
pub fn gather(sheet: &Sheet, action: &Action, possible: &StateSet) -> StateSet {
    match action {
        Action::Change(_) => states(sheet)
            .filter(|&after| possible.iter().any(|before| effect(action, before, after)))
            .collect(),
        Action::Probe(_) => *possible,
    }
}

/// What one pass over the possible states tells of a reply.
#[derive(Clone, Copy, Debug, PartialEq, Eq)]
pub struct Passed {
    /// The states in which the reply is true.
    pub kept: StateSet,
    /// Whether there is such a state.
    pub possible: bool,
    /// How often the reply was evaluated.
    pub evaluations: usize,
}

/// One pass over the possible states when a reply comes in: it is evaluated once in
/// each, in increasing order.
pub fn pass(possible: &StateSet, is_true: impl Fn(State) -> bool) -> Passed {
    let mut passed = Passed {
        kept: StateSet::default(),
        possible: false,
        evaluations: 0,
    };
    for state in possible.iter() {
        let holds = is_true(state);
        passed.evaluations += 1;
        if holds {
            passed.kept.insert(state);
            passed.possible = true;
        }
    }
    passed
}

/// The states after the effect in which the reply is true: what a pass keeps, for a
/// search, which tries each reply and needs no count.
pub fn keep(action: &Action, reply: u8, gathered: &StateSet) -> StateSet {
    gathered
        .iter()
        .filter(|&after| replies(action, reply, after))
        .collect()
}
