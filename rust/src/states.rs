//! States, the state space and sets of states.

use crate::sheet::{Objective, Sheet};
use crate::truth::holds;

/// A valuation of the facts: fact i has weight 2^i.
pub type State = u8;

/// The state space of a sheet, in increasing order: the valuations of its facts
/// that satisfy its constraint.
pub fn states(sheet: &Sheet) -> impl Iterator<Item = State> + '_ {
    let last = ((1u16 << sheet.facts) - 1) as u8;
    (0..=last).filter(|&state| holds(&sheet.constraint, state))
}

/// Whether a byte is one of the sheet's states.
pub fn is_state(sheet: &Sheet, byte: u8) -> bool {
    states(sheet).any(|state| state == byte)
}

/// The valuations of a sheet's facts that its constraint excludes, in increasing order.
pub fn excluded(sheet: &Sheet) -> Vec<State> {
    let free = sheet.clone().constrained(Objective::True);
    let outside = |&state: &State| !is_state(sheet, state);
    states(&free).filter(outside).collect()
}

/// A set of states: state s has weight 2^(s mod 64) in word s div 64.
#[derive(Clone, Copy, Debug, Default, PartialEq, Eq)]
pub struct StateSet([u64; 4]);

impl StateSet {
    pub fn insert(&mut self, state: State) {
        self.0[usize::from(state / 64)] |= 1 << (state % 64);
    }

    pub fn contains(&self, state: State) -> bool {
        self.0[usize::from(state / 64)] >> (state % 64) & 1 == 1
    }

    pub fn is_empty(&self) -> bool {
        self.0 == [0; 4]
    }

    /// The members, in increasing order.
    pub fn iter(&self) -> impl Iterator<Item = State> + '_ {
        self.0.iter().enumerate().flat_map(|(index, &word)| {
            let mut left = word;
            std::iter::from_fn(move || {
                let bit = left.trailing_zeros();
                left &= left.checked_sub(1)?;
                Some((64 * index as u32 + bit) as u8)
            })
        })
    }
}

impl FromIterator<State> for StateSet {
    fn from_iter<I: IntoIterator<Item = State>>(members: I) -> StateSet {
        let mut set = StateSet::default();
        for state in members {
            set.insert(state);
        }
        set
    }
}
