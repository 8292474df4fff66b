//! Sheets that verify slowly: so many histories as the budget allows come to
//! different places, so that nothing that the search remembers helps, and a goal of
//! as many atoms as then fit is tested at every end.

use reference::random::Random;
use reference::read::read;
use reference::sheet::{Action, Epistemic, Objective, Sheet};
use reference::states::State;
use reference::truth::holds;

use linked::straight::sequence;

use crate::sheets::most;
use crate::theories::balanced;

/// Different probes with so many replies, asked in turn, and a goal.
#[derive(Clone, Copy)]
pub struct Shape {
    pub replies: usize,
    pub probes: usize,
    /// How many probes are asked in all.
    pub asked: usize,
    pub reply: Reply,
    pub goal: Goal,
}

/// What the replies are: a fact or its negation, an "or" of two or three of these by
/// chance, with "true" for the first or not; or "or" of two different facts, the
/// second negated or not, no two replies of a sheet the same.
#[derive(Clone, Copy, Debug)]
pub enum Reply {
    Literals,
    Pairs,
    TrueAndPairs,
    Triples,
    DifferentPairs,
}

/// How the goal's atoms are joined, and what they are.
#[derive(Clone, Copy, Debug)]
pub enum Goal {
    /// "Known true", in a tree of few levels, or in one that is divided by chance.
    Tree,
    ByChance,
    /// In chains of 6, and these in a tree of few levels.
    Left,
    Right,
    /// The same, to the left, with "or" and "and" taking turns.
    ByTurns,
    /// Pairs of "known false" or "known true", or of a fact or "known true".
    Or,
    Fact,
}

/// The first of `slow_sheets`: no two of its replies are alike.
pub fn slowest_sheet() -> Sheet {
    let (_, sheet) = slow_sheets().next().unwrap();
    sheet
}

pub fn slow_sheets() -> impl Iterator<Item = (String, Sheet)> {
    let shape = |replies, probes, asked, reply, goal| Shape {
        replies,
        probes,
        asked,
        reply,
        goal,
    };
    let shapes = [
        shape(8, 7, 7, Reply::DifferentPairs, Goal::Tree),
        shape(8, 7, 7, Reply::Literals, Goal::Tree),
        shape(8, 7, 7, Reply::Pairs, Goal::Tree),
        shape(8, 7, 7, Reply::TrueAndPairs, Goal::Tree),
        shape(8, 7, 7, Reply::Triples, Goal::Tree),
        shape(8, 5, 7, Reply::DifferentPairs, Goal::Tree),
        shape(8, 3, 7, Reply::DifferentPairs, Goal::Tree),
        shape(8, 2, 7, Reply::DifferentPairs, Goal::Tree),
        shape(6, 8, 8, Reply::DifferentPairs, Goal::Tree),
        shape(4, 10, 10, Reply::TrueAndPairs, Goal::Tree),
        shape(3, 12, 12, Reply::TrueAndPairs, Goal::Tree),
        shape(8, 7, 7, Reply::DifferentPairs, Goal::ByChance),
        shape(8, 7, 7, Reply::DifferentPairs, Goal::Left),
        shape(8, 7, 7, Reply::DifferentPairs, Goal::Right),
        shape(8, 7, 7, Reply::DifferentPairs, Goal::ByTurns),
        shape(8, 7, 7, Reply::DifferentPairs, Goal::Or),
        shape(8, 7, 7, Reply::DifferentPairs, Goal::Fact),
    ];
    let named = |shape: Shape| (format!("{shape:?}"), shape.sheet());
    shapes.into_iter().map(named)
}

impl std::fmt::Debug for Shape {
    fn fmt(&self, f: &mut std::fmt::Formatter) -> std::fmt::Result {
        let Shape {
            replies,
            probes,
            asked,
            reply,
            goal,
        } = self;
        write!(
            f,
            "{asked} times one of {probes} probes of {replies}: {reply:?}; {goal:?}"
        )
    }
}

impl Shape {
    fn sheet(self) -> Sheet {
        let actions = self.probes();
        let asked: Vec<u8> = (0..self.asked).map(|i| (i % self.probes) as u8).collect();
        let sheet = |atoms| Sheet {
            edition: 1,
            facts: 8,
            constraint: Objective::True,
            actions: actions.clone(),
            start: Objective::True,
            goal: self.goal.of(atoms),
            program: sequence(&asked),
        };
        read(&most(1300, sheet)).unwrap()
    }

    /// Probes of which one reply is true in each state.
    fn probes(self) -> Vec<Action> {
        let mut random = Random::new(3);
        loop {
            let mut unused = different_pairs(&mut random);
            let mut reply = |i| self.reply(&mut random, &mut unused, i);
            let probes: Vec<Vec<Objective>> = (0..self.probes)
                .map(|_| (0..self.replies).map(&mut reply).collect())
                .collect();
            let told = |state| {
                let mut probes = probes.iter();
                probes.all(|replies| replies.iter().any(|reply| holds(reply, state)))
            };
            if (0..=State::MAX).all(told) {
                return probes.into_iter().map(Action::Probe).collect();
            }
        }
    }

    fn reply(
        self,
        random: &mut Random,
        unused: &mut [Vec<Objective>; 2],
        number: usize,
    ) -> Objective {
        let mut literal = || {
            let fact = Objective::Fact(random.below(8) as u8);
            match random.below(2) {
                0 => fact,
                _ => fact.negate(),
            }
        };
        match self.reply {
            Reply::TrueAndPairs if number == 0 => Objective::True,
            Reply::Pairs | Reply::TrueAndPairs => literal().or(literal()),
            Reply::Literals => literal(),
            Reply::Triples => literal().or(literal()).or(literal()),
            Reply::DifferentPairs => unused[number % 2].pop().unwrap(),
        }
    }
}

/// "Or" of any two facts, in no order; and the same with the second negated.
fn different_pairs(random: &mut Random) -> [Vec<Objective>; 2] {
    [false, true].map(|negated| {
        let second = |j| match negated {
            false => Objective::Fact(j),
            true => Objective::Fact(j).negate(),
        };
        let pairs = (0..8).flat_map(|j| (0..j).map(move |i| (i, j)));
        let mut pairs: Vec<Objective> = pairs
            .map(|(i, j)| Objective::Fact(i).or(second(j)))
            .collect();
        for last in (1..pairs.len()).rev() {
            pairs.swap(last, random.below(last + 1));
        }
        pairs
    })
}

impl Goal {
    fn of(self, atoms: usize) -> Epistemic {
        let passes = || Epistemic::Known(Objective::True);
        let chains = |chain: Epistemic| balanced(&vec![chain; atoms.div_ceil(6)]);
        let chain = |more: fn(Epistemic, Epistemic) -> Epistemic| {
            (1..6).fold(passes(), |formula, _| more(formula, passes()))
        };
        let mut random = Random::new(4);
        let mut pairs = |first: &mut dyn FnMut(&mut Random) -> Objective| {
            let pair = |_| Epistemic::Known(first(&mut random)).or(passes());
            let pairs: Vec<Epistemic> = (0..atoms.div_ceil(2)).map(pair).collect();
            balanced(&pairs)
        };
        match self {
            Goal::Tree => balanced(&vec![passes(); atoms]),
            Goal::ByChance => by_chance(&mut random, atoms),
            Goal::Left => chains(chain(|formula, atom| formula.and(atom))),
            Goal::Right => chains(chain(|formula, atom| atom.and(formula))),
            Goal::ByTurns => chains(turns_left(6)),
            Goal::Or => pairs(&mut |_| Objective::False),
            Goal::Fact => pairs(&mut |random| Objective::Fact(random.below(8) as u8)),
        }
    }
}

/// So many atoms, the first part of each "and" having between two and three fifths
/// of them.
fn by_chance(random: &mut Random, atoms: usize) -> Epistemic {
    if atoms == 1 {
        return Epistemic::Known(Objective::True);
    }
    let first = (atoms * 2 / 5 + random.below(atoms / 5 + 1)).max(1);
    by_chance(random, first).and(by_chance(random, atoms - first))
}

/// A chain to the right of so many atoms, an even number, in which "or" and "and" take
/// turns, "or" outermost. It holds and every atom is tested: the last atom decides.
pub fn turns_right(count: usize) -> Epistemic {
    let last = Epistemic::Known(Objective::True);
    (1..count).fold(last, |formula, i| match i % 2 {
        0 => Epistemic::Known(Objective::True).and(formula),
        _ => Epistemic::Known(Objective::False).or(formula),
    })
}

/// The same to the left: what stands before an atom doesn't decide.
pub fn turns_left(count: usize) -> Epistemic {
    let first = Epistemic::Known(Objective::False);
    (1..count).fold(first, |formula, i| match i % 2 {
        0 => formula.and(Epistemic::Known(Objective::False)),
        _ => formula.or(Epistemic::Known(Objective::True)),
    })
}

/// How many atoms a formula has.
pub fn atoms(formula: &Epistemic) -> usize {
    match formula {
        Epistemic::Known(_) | Epistemic::NotKnown(_) => 1,
        Epistemic::And(left, right) | Epistemic::Or(left, right) => atoms(left) + atoms(right),
    }
}
