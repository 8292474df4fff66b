//! Truth of objective and epistemic formulas.

use crate::sheet::{Epistemic, Objective};
use crate::states::{State, StateSet};

/// Whether a theory holds of a transition between two states.
pub fn holds_between(formula: &Objective, before: State, after: State) -> bool {
    match formula {
        Objective::False => false,
        Objective::True => true,
        Objective::Fact(number) => before >> number & 1 == 1,
        Objective::New(number) => after >> number & 1 == 1,
        Objective::Not(part) => !holds_between(part, before, after),
        Objective::And(left, right) => {
            holds_between(left, before, after) && holds_between(right, before, after)
        }
        Objective::Or(left, right) => {
            holds_between(left, before, after) || holds_between(right, before, after)
        }
        Objective::Iff(left, right) => {
            holds_between(left, before, after) == holds_between(right, before, after)
        }
    }
}

/// Whether a formula without new facts holds in a state.
pub fn holds(formula: &Objective, state: State) -> bool {
    holds_between(formula, state, state)
}

/// Whether an epistemic formula holds, given which objective formulas are known.
pub fn holds_given<K>(formula: &Epistemic, known: &K) -> bool
where
    K: Fn(&Objective) -> bool,
{
    match formula {
        Epistemic::Known(part) => known(part),
        Epistemic::NotKnown(part) => !known(part),
        Epistemic::And(left, right) => holds_given(left, known) && holds_given(right, known),
        Epistemic::Or(left, right) => holds_given(left, known) || holds_given(right, known),
    }
}

/// Whether an epistemic formula holds in a knowledge state.
pub fn holds_knowing(formula: &Epistemic, possible: &StateSet) -> bool {
    holds_given(formula, &|part| {
        possible.iter().all(|state| holds(part, state))
    })
}
