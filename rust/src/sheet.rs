//! A sheet as data: facts, constraint, actions, start formula, goal and program.
//!
//! The types also hold values that no accepted sheet has (a wrong edition, fact
//! numbers out of range, new facts outside theories), so that refused sheets
//! can be built from them.

/// Longest sheet, in bytes.
pub const MAX_BYTES: usize = 1024;
/// Greatest number of facts.
pub const MAX_FACTS: u8 = 8;
/// Greatest number of replies to a probe.
pub const MAX_REPLIES: u8 = 8;
/// Depth of the deepest formula; its first node has depth 1.
pub const MAX_DEPTH: u32 = 16;
/// Greatest number of action nodes in a program, hence of steps in a run.
pub const MAX_ACTION_NODES: usize = 64;
/// Greatest number of branch nodes in a program.
pub const MAX_BRANCH_NODES: usize = 63;
/// Length of the longest trace, in bytes: a start state, two bytes for each step.
pub const MAX_TRACE: usize = 1 + 2 * MAX_ACTION_NODES;

/// Whether sheets of this edition are read.
pub fn edition_is_known(edition: u8) -> bool {
    edition == 1 || has_constraint(edition)
}

/// Whether sheets of this edition say their constraint; in others it is true.
pub fn has_constraint(edition: u8) -> bool {
    edition == 2
}

/// A formula about facts. In theories, `New` is a fact's value after the change.
#[derive(Clone, Debug, PartialEq, Eq)]
pub enum Objective {
    False,
    True,
    Fact(u8),
    New(u8),
    Not(Box<Objective>),
    And(Box<Objective>, Box<Objective>),
    Or(Box<Objective>, Box<Objective>),
    Iff(Box<Objective>, Box<Objective>),
}

/// A formula about what is known.
#[derive(Clone, Debug, PartialEq, Eq)]
pub enum Epistemic {
    Known(Objective),
    NotKnown(Objective),
    And(Box<Epistemic>, Box<Epistemic>),
    Or(Box<Epistemic>, Box<Epistemic>),
}

/// A while-free knowledge-based program.
#[derive(Clone, Debug, PartialEq, Eq)]
pub enum Program {
    End,
    Act {
        action: u8,
        rest: Box<Program>,
    },
    Branch {
        condition: Epistemic,
        then: Box<Program>,
        otherwise: Box<Program>,
        rest: Box<Program>,
    },
}

/// An action: an ontic one with its theory, or an epistemic one with its replies.
#[derive(Clone, Debug, PartialEq, Eq)]
pub enum Action {
    Change(Objective),
    Probe(Vec<Objective>),
}

/// A routine with its planning problem.
#[derive(Clone, Debug, PartialEq, Eq)]
pub struct Sheet {
    pub edition: u8,
    pub facts: u8,
    /// What holds in every state. Only some editions can say it.
    pub constraint: Objective,
    pub actions: Vec<Action>,
    pub start: Objective,
    pub goal: Epistemic,
    pub program: Program,
}

impl Objective {
    pub fn negate(self) -> Objective {
        Objective::Not(Box::new(self))
    }

    pub fn and(self, other: Objective) -> Objective {
        Objective::And(Box::new(self), Box::new(other))
    }

    pub fn or(self, other: Objective) -> Objective {
        Objective::Or(Box::new(self), Box::new(other))
    }

    pub fn iff(self, other: Objective) -> Objective {
        Objective::Iff(Box::new(self), Box::new(other))
    }
}

impl Epistemic {
    pub fn and(self, other: Epistemic) -> Epistemic {
        Epistemic::And(Box::new(self), Box::new(other))
    }

    pub fn or(self, other: Epistemic) -> Epistemic {
        Epistemic::Or(Box::new(self), Box::new(other))
    }
}

impl Program {
    /// `action`, then `rest`.
    pub fn act(action: u8, rest: Program) -> Program {
        Program::Act {
            action,
            rest: Box::new(rest),
        }
    }

    /// If `condition` then `then` else `otherwise`; afterwards `rest`.
    pub fn branch(
        condition: Epistemic,
        then: Program,
        otherwise: Program,
        rest: Program,
    ) -> Program {
        Program::Branch {
            condition,
            then: Box::new(then),
            otherwise: Box::new(otherwise),
            rest: Box::new(rest),
        }
    }
}

impl Sheet {
    /// The sheet in the edition that says its constraint, with this one.
    pub fn constrained(self, constraint: Objective) -> Sheet {
        Sheet {
            edition: 2,
            constraint,
            ..self
        }
    }
}

impl Action {
    /// How many replies the action has; a change has the one reply 0.
    pub fn reply_count(&self) -> u8 {
        match self {
            Action::Change(_) => 1,
            Action::Probe(replies) => replies.len() as u8,
        }
    }
}
