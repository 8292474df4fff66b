//! Routines to verify.

use std::cmp::Reverse;

use linked::straight::{counted, seldom_told, sequence};
use linked::Verdict;
use reference::encode::encode;
use reference::random::{Random, Size};
use reference::read::read;
use reference::sheet::{Action, Epistemic, Objective, Program, Sheet, MAX_ACTION_NODES, MAX_TRACE};

use crate::sheets::{goal_of_atoms, most, unconstrained};
use crate::slowest::slowest_sheet;
use crate::theories::{all, balanced, stays, toggles};
use crate::{BUDGET, SAMPLE_1};

/// Probes of each fact, one that tells nothing, some that overlap, and changes
/// with few and with many next states.
pub struct Routine {
    pub actions: Vec<Action>,
}

impl Routine {
    /// The probe of a fact.
    pub const FACT: u8 = 0;
    /// A probe with two replies that are always true.
    pub const NOTHING: u8 = 8;
    /// A probe of which two or three of three replies are true, in most states.
    pub const OVERLAP: u8 = 9;
    /// Changes: each fact stays, is toggled; four facts are free; all are.
    pub const STAY: u8 = 17;
    const TOGGLE: u8 = 18;
    const FREE_FOUR: u8 = 19;
    const FREE: u8 = 20;

    pub fn new() -> Routine {
        let fact = |i: u8| Objective::Fact(i % 8);
        let mut actions = Vec::new();
        for i in 0..8 {
            actions.push(Action::Probe(vec![fact(i), fact(i).negate()]));
        }
        actions.push(Action::Probe(vec![Objective::True; 2]));
        for i in 0..8 {
            actions.push(Action::Probe(vec![
                fact(i).or(fact(i + 1)),
                fact(i).negate().or(fact(i + 2)),
                fact(i + 1).and(fact(i + 3)).negate(),
            ]));
        }
        actions.push(Action::Change(stays(8)));
        actions.push(Action::Change(toggles(8)));
        actions.push(Action::Change(stays(4)));
        actions.push(Action::Change(Objective::True));
        assert_eq!(actions.len(), usize::from(Routine::FREE) + 1);
        Routine { actions }
    }

    pub fn sheet(&self, goal: Epistemic, program: Program) -> Sheet {
        Sheet {
            edition: 1,
            facts: 8,
            constraint: Objective::True,
            actions: self.actions.clone(),
            start: Objective::True,
            goal,
            program,
        }
    }

    /// Valid, since the goal always holds.
    pub fn valid(&self, numbers: &[u8]) -> Sheet {
        let goal = Epistemic::Known(Objective::True);
        self.sheet(goal, sequence(numbers))
    }
}

/// After each probe of a fact a branch of four atoms, of which either side has a
/// probe of its own.
pub fn branching(facts: u8) -> Program {
    let known = |i: u8| Epistemic::Known(Objective::Fact(i % 8));
    let unknown = |i: u8| Epistemic::NotKnown(Objective::Fact(i % 8).negate());
    (0..facts).rev().fold(Program::End, |rest, i| {
        let condition = known(i)
            .and(unknown(i + 1))
            .or(known(i + 2).and(unknown(i + 3)));
        let branch = Program::branch(
            condition,
            sequence(&[Routine::OVERLAP + i % 8]),
            sequence(&[Routine::NOTHING, Routine::NOTHING]),
            rest,
        );
        Program::act(Routine::FACT + i % 8, branch)
    })
}

pub fn verified_sheets() -> Vec<(&'static str, Sheet)> {
    let routine = Routine::new();
    let each: Vec<u8> = (0..8).map(|i| Routine::FACT + i).collect();
    let overlaps: Vec<u8> = (0..8).map(|i| Routine::OVERLAP + i).collect();
    let nothing = |count| vec![Routine::NOTHING; count];
    let after = |facts: usize, rest: Vec<u8>| [&each[..facts], &rest].concat();
    let freeing = |i| [Routine::FACT + i, Routine::FREE_FOUR, Routine::OVERLAP + i];
    let forgetting = |i| [Routine::FREE, Routine::FACT + i, Routine::FACT + i + 1];
    // The last of the 256 leaves is the one where no fact holds.
    let none = all((0..8).map(|i| Objective::Fact(i).negate()));
    let decided = |i| {
        let fact = Objective::Fact(i);
        Epistemic::Known(fact.clone()).or(Epistemic::Known(fact.negate()))
    };
    vec![
        ("18 probes that tell nothing", routine.valid(&nothing(18))),
        (
            "8 facts probed, 10 probes that tell nothing",
            routine.valid(&after(8, nothing(10))),
        ),
        (
            "12 overlapping probes of 3 replies",
            routine.valid(&[&overlaps[..], &overlaps[..4]].concat()),
        ),
        (
            "8 facts probed, 6 changes to 1 state, 6 probes",
            routine.valid(&after(8, [Routine::TOGGLE, Routine::NOTHING].repeat(6))),
        ),
        (
            "6 facts probed, 7 changes of 4 states, 7 probes",
            routine.valid(&after(6, [Routine::STAY, Routine::NOTHING].repeat(7))),
        ),
        (
            "6 changes to 16 states each, 12 probes",
            routine.valid(&(0..6).flat_map(freeing).collect::<Vec<u8>>()),
        ),
        (
            "7 changes to any state, 14 probes",
            routine.valid(&(0..7).flat_map(forgetting).collect::<Vec<u8>>()),
        ),
        (
            "7 branches of 4 atoms, 28 probes, a goal of 14 atoms",
            routine.sheet(
                balanced(&(0..7).map(decided).collect::<Vec<_>>()),
                branching(7),
            ),
        ),
        (
            "8 facts probed, 9 probes, the last leaf of 256 fails",
            routine.sheet(Epistemic::NotKnown(none), sequence(&after(8, nothing(9)))),
        ),
        (
            "64 probes, the first history fails",
            routine.sheet(
                Epistemic::Known(Objective::Fact(0)),
                sequence(&nothing(MAX_ACTION_NODES)),
            ),
        ),
        (
            "30 probes, stopped by the budget",
            routine.valid(&nothing(30)),
        ),
        ("a random routine", random_routine(5000)),
        ("sample 1, 1 fact", read(&SAMPLE_1).unwrap()),
    ]
}

/// One action, and so many states possible when its reply comes in. Little is read and
/// written before, so that what the reply costs shows.
pub fn reported_sheets() -> Vec<(&'static str, Sheet)> {
    let sheet = |action, free: u8| {
        let others = (free..8).map(|i| Objective::Fact(i).negate());
        Sheet {
            edition: 1,
            facts: 8,
            constraint: Objective::True,
            actions: vec![action],
            start: others.reduce(Objective::and).unwrap_or(Objective::True),
            goal: Epistemic::Known(Objective::True),
            program: sequence(&[0]),
        }
    };
    let last = Objective::Fact(7);
    let probe = || Action::Probe(vec![last.clone().negate(), last.clone()]);
    vec![
        ("1 probe, 1 possible state", sheet(probe(), 0)),
        ("1 probe, 16 possible states", sheet(probe(), 4)),
        ("1 probe, 128 possible states", sheet(probe(), 7)),
        ("1 probe, 256 possible states", sheet(probe(), 8)),
        (
            "1 change to any state, 256 possible states",
            sheet(Action::Change(Objective::True), 8),
        ),
    ]
}

/// Sheets of 8 facts without an action: the program is its end.
pub fn without_action() -> [(&'static str, Sheet); 2] {
    let longest = read(&most(2000, goal_of_atoms)).unwrap();
    [
        ("no action, a goal of 1 atom", goal_of_atoms(1)),
        ("no action, a goal of the most atoms", longest),
    ]
}

/// Routines with more to do than those before, or a greater count.
pub fn later_sheets() -> Vec<(String, Sheet, u32)> {
    let mut sheets = vec![
        (
            "7 probes of 8 replies, the most atoms in the goal".to_string(),
            long_goal(),
            BUDGET,
        ),
        (
            "the same, no two of the 56 replies alike".to_string(),
            slowest_sheet(),
            BUDGET,
        ),
    ];
    let routine = Routine::new();
    let mut greatest = |name: String, sheet| sheets.push((name, sheet, u32::MAX));
    for probes in [30, 64] {
        let sheet = routine.valid(&vec![Routine::NOTHING; probes]);
        greatest(format!("{probes} probes that tell nothing"), sheet);
    }
    greatest(
        "16 probes that seldom tell, 1 fact".to_string(),
        seldom_told(16),
    );
    for (name, count) in ["2^32 - 2", "2^32 - 1", "2^32", "2^32 + 1"]
        .into_iter()
        .zip((1 << 32) - 2..)
    {
        greatest(format!("{name} histories, 1 fact"), counted(count));
    }
    let long = Size {
        sequence: (40, 60),
        ..Size::LARGE
    };
    for (kind, size, of, chosen) in [
        ("random routine", &Size::LARGE, 200, 3),
        ("long random routine", &long, 50, 3),
    ] {
        for (place, sheet) in (1..).zip(most_histories(size, of, chosen)) {
            greatest(
                format!("{kind}, number {place} of {of} by histories"),
                sheet,
            );
        }
    }
    sheets
}

/// Nothing is told, and each end of the 8^7 takes as many tests as fit a sheet.
fn long_goal() -> Sheet {
    let sheet = |atoms| Sheet {
        edition: 1,
        facts: 8,
        constraint: Objective::True,
        actions: vec![Action::Probe(vec![Objective::True; 8])],
        start: Objective::True,
        goal: balanced(&vec![Epistemic::Known(Objective::True); atoms]),
        program: sequence(&[0; 7]),
    };
    read(&most(2000, sheet)).unwrap()
}

/// Of 40 random routines of 8 facts the one with the most histories up to a limit.
fn random_routine(limit: u32) -> Sheet {
    let mut random = Random::new(9);
    let sheets = (0..40).map(|_| unconstrained(&mut random, &Size::LARGE));
    sheets.max_by_key(|sheet| count(sheet, limit)).unwrap()
}

/// Of so many random routines the valid ones with the most histories, within the
/// greatest budget.
fn most_histories(size: &Size, of: usize, chosen: usize) -> Vec<Sheet> {
    let mut random = Random::new(10);
    let sheets = (0..of).map(|_| unconstrained(&mut random, size));
    let valid = sheets.filter_map(|sheet| {
        match linked::verify(&encode(&sheet), u32::MAX, &mut [0; MAX_TRACE]) {
            Ok(Verdict::Valid { count }) => Some((count, sheet)),
            _ => None,
        }
    });
    let mut counted: Vec<(u32, Sheet)> = valid.collect();
    counted.sort_by_key(|&(count, _)| Reverse(count));
    let sheets = counted.into_iter().map(|(_, sheet)| sheet);
    sheets.take(chosen).collect()
}

/// How many histories a sheet has, up to the first that fails; 0 if more than the limit.
fn count(sheet: &Sheet, limit: u32) -> u32 {
    match linked::verify(&encode(sheet), limit, &mut [0; MAX_TRACE]) {
        Ok(Verdict::Valid { count } | Verdict::Invalid { count, .. }) => count,
        _ => 0,
    }
}
