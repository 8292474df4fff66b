//! Sheets at and around every limit of the format, and with several faults at once.
//!
//! Random damage seldom meets a limit exactly, or two faults whose order matters.

use crate::encode::{encode, encode_with_layout, overwrite, set_bit};
use crate::sheet::{
    Action, Epistemic, Objective, Program, Sheet, MAX_ACTION_NODES, MAX_BRANCH_NODES, MAX_BYTES,
    MAX_DEPTH, MAX_FACTS,
};

/// The sheets of all kinds below, none twice.
pub fn edges() -> Vec<Vec<u8>> {
    let mut sheets = vec![vec![]];
    sheets.extend((0..=255).map(|byte| vec![byte]));
    sheets.extend(fields());
    sheets.extend(ends());
    sheets.extend(depths());
    sheets.extend(constraints());
    sheets.extend(nodes());
    sheets.extend(numbers());
    sheets.extend(faults());
    sheets.extend(lengths());
    sheets.sort();
    sheets.dedup();
    sheets
}

/// Every field of a sheet with every kind of node, and of one with a constraint, at
/// every value.
fn fields() -> Vec<Vec<u8>> {
    let mut sheets = Vec::new();
    for sheet in [varied(), constrained()] {
        let (bytes, fields) = encode_with_layout(&sheet);
        for field in &fields {
            for value in 0..1 << field.width {
                let mut sheet = bytes.clone();
                overwrite(&mut sheet, field, value);
                sheets.push(sheet);
            }
        }
    }
    sheets
}

/// Sheets cut after every byte, with spare bytes, and with every padding bit set.
fn ends() -> Vec<Vec<u8>> {
    let mut sheets = Vec::new();
    sheets.extend(prefixes(&encode(&varied())));
    sheets.extend(prefixes(&encode(&constrained())));
    let padded = (0..8).map(|negations| Sheet {
        start: negated(2 * negations, Objective::True),
        ..varied()
    });
    for sheet in padded.chain([constrained()]) {
        let (bytes, fields) = encode_with_layout(&sheet);
        let end = fields
            .last()
            .map_or(0, |field| field.position + field.width);
        for bit in end..8 * bytes.len() {
            let mut sheet = bytes.clone();
            set_bit(&mut sheet, bit, true);
            sheets.push(sheet);
        }
        for spare in [0x00, 0x01, 0x80] {
            sheets.push([&bytes[..], &[spare]].concat());
        }
    }
    sheets
}

/// Formulas of depth 15 to 18 in every place, also with a fault at their end.
fn depths() -> Vec<Vec<u8>> {
    let mut sheets = Vec::new();
    for depth in MAX_DEPTH as usize - 1..=MAX_DEPTH as usize + 2 {
        for leaf in [Objective::True, Objective::New(0), Objective::Fact(7)] {
            let chain = negated(depth - 1, leaf.clone());
            let under = negated(depth - 2, leaf);
            let theory = Action::Change(chain.clone().or(Objective::True));
            let reply = Action::Probe(vec![Objective::True, chain.clone()]);
            sheets.push(encode(&plain().constrained(chain.clone())));
            sheets.push(encode(&Sheet {
                start: chain,
                ..plain()
            }));
            sheets.push(encode(&Sheet {
                actions: vec![theory],
                ..plain()
            }));
            sheets.push(encode(&Sheet {
                actions: vec![reply],
                ..plain()
            }));
            for atom in [Epistemic::Known, Epistemic::NotKnown] {
                let goal = atom(under.clone());
                let program = fork(goal.clone(), Program::End);
                sheets.push(encode(&Sheet { goal, ..plain() }));
                sheets.push(encode(&Sheet { program, ..plain() }));
            }
        }
        let atom = || Epistemic::Known(Objective::True);
        let goal = (0..depth - 2).fold(atom(), |right, _| atom().or(right));
        sheets.extend(prefixes(&encode(&Sheet { goal, ..plain() })));
    }
    // Cut after seven bytes, the constraint ends with its sixteenth negation.
    let deepest = negated(MAX_DEPTH as usize, Objective::True);
    let bytes = encode(&plain().constrained(deepest));
    sheets.extend([6, 7, 8].map(|length| bytes[..length].to_vec()));
    sheets
}

/// Constraints with facts around n, with one state or none, and with actions that are
/// stuck or silent inside them, or only outside.
fn constraints() -> Vec<Vec<u8>> {
    let [fact, new] = [Objective::Fact, Objective::New];
    let of = |facts| Sheet { facts, ..plain() };
    let mut sheets = Vec::new();
    for facts in 1..=MAX_FACTS {
        for number in [facts - 1, facts.min(7)] {
            sheets.push(of(facts).constrained(fact(number).or(Objective::False)));
        }
        let all = (1..facts).fold(fact(0), |all, number| all.and(fact(number)));
        let none = all.clone().and(fact(facts - 1).negate());
        sheets.extend([all, none].map(|constraint| of(facts).constrained(constraint)));
    }
    let both = || fact(0).and(fact(1));
    let never_both = || both().negate();
    let leaving = || Action::Change(new(0).and(new(1)));
    let silent = || Action::Probe(vec![fact(0).and(fact(1).negate()), fact(1)]);
    for (start, action) in [
        // Stuck only outside, and in state 0 too.
        (Objective::True, Action::Change(never_both().and(new(0)))),
        (
            Objective::True,
            Action::Change(fact(0).iff(fact(1).negate()).and(new(0))),
        ),
        // Next states inside and outside, only outside, only outside from states 1 and 2.
        (Objective::True, Action::Change(new(0))),
        (Objective::True, leaving()),
        (
            Objective::True,
            Action::Change(new(0).and(new(1).or(fact(0).or(fact(1)).negate()))),
        ),
        // Silent only outside, and in state 0 too.
        (
            Objective::True,
            Action::Probe(vec![fact(0).negate(), fact(1).negate()]),
        ),
        (Objective::True, silent()),
        // A start formula that is true only outside, and nowhere.
        (both(), leaving()),
        (both(), silent()),
        (Objective::False, leaving()),
        (Objective::False, silent()),
    ] {
        let sheet = Sheet {
            actions: vec![action],
            start,
            ..of(2)
        };
        sheets.push(sheet.constrained(never_both()));
    }
    sheets.iter().map(encode).collect()
}

/// A sheet cut after every byte, and whole.
fn prefixes(bytes: &[u8]) -> impl Iterator<Item = Vec<u8>> + '_ {
    (0..=bytes.len()).map(|length| bytes[..length].to_vec())
}

/// Programs at and around the limits of nodes, with and without a fault behind them.
fn nodes() -> Vec<Vec<u8>> {
    let condition = || Epistemic::Known(Objective::True);
    let last = || {
        [
            Program::End,
            Program::act(0, Program::End),
            Program::act(31, Program::End),
            fork(condition(), Program::End),
            fork(Epistemic::Known(Objective::New(0)), Program::End),
        ]
    };
    let mut sheets = Vec::new();
    for (acts, branches) in [
        (MAX_ACTION_NODES - 1, 0),
        (MAX_ACTION_NODES, 0),
        (0, MAX_BRANCH_NODES - 1),
        (0, MAX_BRANCH_NODES),
        (MAX_ACTION_NODES, MAX_BRANCH_NODES),
    ] {
        for last in last() {
            let tail = (0..branches).fold(last, |rest, _| fork(condition(), rest));
            let program = (0..acts).fold(tail, |rest, _| Program::act(0, rest));
            let sheet = Sheet {
                actions: vec![Action::Change(Objective::True)],
                program,
                ..plain()
            };
            let (mut bytes, fields) = encode_with_layout(&sheet);
            sheets.push(bytes.clone());
            // The last program tag says loop.
            let tag = fields.last().expect("a field");
            overwrite(&mut bytes, tag, (1 << tag.width) - 1);
            sheets.push(bytes);
        }
    }
    sheets
}

/// Every number of facts with every fact number, numbers of actions around A, and every m.
fn numbers() -> Vec<Vec<u8>> {
    let mut sheets = Vec::new();
    for facts in 1..=MAX_FACTS {
        for number in 0..8 {
            let start = Objective::Fact(number).or(Objective::True);
            sheets.push(encode(&Sheet {
                facts,
                start,
                ..plain()
            }));
        }
    }
    for actions in [0, 1, 2, 31] {
        for action in [0, 1, 2, 30, 31] {
            sheets.push(encode(&Sheet {
                actions: vec![Action::Change(Objective::True); actions],
                program: Program::act(action, Program::End),
                ..plain()
            }));
        }
    }
    for replies in 0..16 {
        let probe = Action::Probe(vec![Objective::True; replies]);
        sheets.push(encode(&Sheet {
            actions: vec![probe],
            ..plain()
        }));
    }
    sheets
}

/// Every choice among the faults that are looked for after the fields, the actions in both orders.
fn faults() -> Vec<Vec<u8>> {
    let mut sheets = Vec::new();
    // The order of actions doesn't matter where no state satisfies the constraint.
    for chosen in 0..48 {
        let with = |fault: usize| chosen >> fault & 1 == 1;
        let stuck = match with(0) {
            true => Action::Change(Objective::Fact(0).and(Objective::New(0))),
            false => Action::Change(Objective::New(0)),
        };
        let silent = match with(1) {
            true => Action::Probe(vec![Objective::Fact(0)]),
            false => Action::Probe(vec![Objective::True]),
        };
        let mut actions = vec![stuck, silent];
        if with(4) {
            actions.reverse();
        }
        let start = match with(2) {
            true => Objective::False,
            false => Objective::True,
        };
        let mut sheet = Sheet {
            actions,
            start,
            ..plain()
        };
        if with(5) {
            sheet = sheet.constrained(Objective::False);
        }
        let mut bytes = encode(&sheet);
        let padded = 8 * bytes.len() - 1;
        if with(3) {
            set_bit(&mut bytes, padded, true);
        }
        sheets.push(bytes);
    }
    sheets
}

/// The longest sheets, good and bad, and longer ones.
fn lengths() -> Vec<Vec<u8>> {
    let mut sheets = Vec::new();
    for length in [MAX_BYTES - 1, MAX_BYTES, MAX_BYTES + 1] {
        for first in [0x11, 0x21, 0x41] {
            let mut bytes = encode(&plain());
            bytes.resize(length, 0);
            bytes[0] = first;
            sheets.push(bytes);
        }
    }
    sheets
}

/// One fact, nothing to do, and the goal reached.
pub fn plain() -> Sheet {
    Sheet {
        edition: 1,
        facts: 1,
        constraint: Objective::True,
        actions: vec![],
        start: Objective::True,
        goal: Epistemic::Known(Objective::True),
        program: Program::End,
    }
}

/// A sheet with every kind of node.
fn varied() -> Sheet {
    let fact = Objective::Fact(1);
    let theory = Objective::New(0).iff(fact.clone()).and(Objective::New(1));
    Sheet {
        edition: 1,
        facts: 2,
        constraint: Objective::True,
        actions: vec![
            Action::Change(theory),
            Action::Probe(vec![fact.clone(), fact.clone().negate()]),
        ],
        start: Objective::True.or(Objective::False),
        goal: Epistemic::Known(fact.clone()).or(Epistemic::NotKnown(Objective::True)),
        program: Program::act(
            1,
            Program::branch(
                Epistemic::Known(fact.clone()).and(Epistemic::NotKnown(fact.negate())),
                Program::act(0, Program::End),
                Program::End,
                Program::act(0, Program::End),
            ),
        ),
    }
}

/// A sheet with a constraint of every kind of node, and a part of each kind.
fn constrained() -> Sheet {
    let fact = Objective::Fact(1);
    let never_both = Objective::Fact(0).and(fact.clone()).negate();
    let truth = Objective::False.or(Objective::True);
    Sheet {
        facts: 2,
        actions: vec![
            Action::Change(Objective::New(0)),
            Action::Probe(vec![fact.clone(), fact.clone().negate()]),
        ],
        goal: Epistemic::Known(fact),
        program: Program::act(1, Program::End),
        ..plain()
    }
    .constrained(never_both.iff(truth))
}

fn negated(count: usize, formula: Objective) -> Objective {
    (0..count).fold(formula, |formula, _| formula.negate())
}

/// A branch with empty sides.
fn fork(condition: Epistemic, rest: Program) -> Program {
    Program::branch(condition, Program::End, Program::End, rest)
}
