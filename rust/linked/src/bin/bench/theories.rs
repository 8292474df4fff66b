//! Formulas for the sheets.

use reference::random::Random;
use reference::sheet::{Epistemic, Objective};

pub fn stays(facts: u8) -> Objective {
    all((0..facts).map(stays_one))
}

fn stays_one(fact: u8) -> Objective {
    Objective::New(fact).iff(Objective::Fact(fact))
}

pub fn toggles(facts: u8) -> Objective {
    all((0..facts).map(|i| Objective::New(i).iff(Objective::Fact(i).negate())))
}

/// Each fact stays, or the old state was 0: every next state serves state 0 too.
pub fn stays_or_zero(facts: u8) -> Objective {
    let zero = all((0..facts).map(|i| Objective::Fact(i).negate()));
    stays(facts).or(zero)
}

/// Each fact stays, where a wrong next state shows early, before the last part.
pub fn denied_early(facts: u8, last: Objective) -> Objective {
    let parts = (0..facts).rev().map(stays_one);
    parts.fold(last, |rest, part| part.and(rest))
}

/// To the last state alone.
pub fn only_last(facts: u8) -> Objective {
    all((0..facts).map(Objective::New))
}

/// In all states but the last.
pub fn not_last(facts: u8) -> Objective {
    all((0..facts).map(Objective::Fact)).negate()
}

/// A part that always holds, and that a reader with short circuits needn't look into.
pub fn unneeded(long: Objective) -> Objective {
    Objective::True.or(long)
}

/// So many times "true", in a tree of few levels: the most nodes that the bits can hold.
pub fn trues(leaves: usize) -> Objective {
    tree(&vec![Objective::True; leaves], Objective::and)
}

/// So many new facts in no order, which took longer to tell apart than in any.
pub fn news(facts: u8, count: usize) -> Vec<Objective> {
    let mut random = Random::new(1);
    let new = |_| Objective::New(random.below(facts.into()) as u8);
    (0..count).map(new).collect()
}

/// The formulas joined by "and": seven each, one behind the other, and these in a
/// tree of few levels.
pub fn sevens(formulas: &[Objective]) -> Objective {
    let groups = formulas.chunks(7).map(|group| all(group.iter().cloned()));
    tree(&groups.collect::<Vec<_>>(), Objective::and)
}

/// An equivalence of so many pairs of a new fact and a fact.
pub fn parity(pairs: u8) -> Objective {
    (1..pairs).fold(Objective::Fact(0), |formula, i| {
        Objective::New(i % 8)
            .iff(Objective::Fact((i + 1) % 8))
            .iff(formula)
    })
}

pub fn all(parts: impl Iterator<Item = Objective>) -> Objective {
    parts.reduce(Objective::and).unwrap()
}

/// The formulas joined by "and", in a tree of few levels.
pub fn balanced(formulas: &[Epistemic]) -> Epistemic {
    tree(formulas, Epistemic::and)
}

/// The formulas joined in a tree of few levels.
pub fn tree<F: Clone>(formulas: &[F], join: fn(F, F) -> F) -> F {
    match formulas {
        [formula] => formula.clone(),
        _ => {
            let (left, right) = formulas.split_at(formulas.len() / 2);
            join(tree(left, join), tree(right, join))
        }
    }
}
