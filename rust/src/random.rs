//! Seeded generation of sheets, good and damaged ones.

use crate::edges::plain;
use crate::encode::{encode, encode_with_layout, overwrite, set_bit, Field, Kind};
use crate::read::read;
use crate::sheet::{Action, Epistemic, Objective, Program, Sheet, MAX_BYTES, MAX_TRACE};
use crate::truth::holds;
use crate::verify::{verify, Answer};

/// A deterministic source of random numbers (xorshift, multiplied).
pub struct Random(u64);

impl Random {
    pub fn new(seed: u64) -> Random {
        // The state must not be 0; small seeds are spread over all bits.
        Random(seed.wrapping_add(1).wrapping_mul(0x9e37_79b9_7f4a_7c15) | 1)
    }

    pub fn bits(&mut self) -> u64 {
        self.0 ^= self.0 >> 12;
        self.0 ^= self.0 << 25;
        self.0 ^= self.0 >> 27;
        self.0.wrapping_mul(0x2545_f491_4f6c_dd1d) >> 11
    }

    /// A number from 0 to below `limit`.
    pub fn below(&mut self, limit: usize) -> usize {
        (self.bits() % limit as u64) as usize
    }

    /// A number from `low` to `high`, both included.
    pub fn between(&mut self, low: usize, high: usize) -> usize {
        low + self.below(high - low + 1)
    }

    /// True in `part` of `whole` cases.
    pub fn chance(&mut self, part: usize, whole: usize) -> bool {
        self.below(whole) < part
    }

    pub fn pick<'a, T>(&mut self, from: &'a [T]) -> &'a T {
        &from[self.below(from.len())]
    }
}

/// How large generated sheets are. Ranges include both ends.
#[derive(Clone, Debug)]
pub struct Size {
    pub facts: (usize, usize),
    pub actions: (usize, usize),
    /// Greatest number of replies to a probe.
    pub replies: usize,
    pub action_nodes: usize,
    pub branch_nodes: usize,
    /// Length of the program's main sequence, counting actions and branches.
    pub sequence: (usize, usize),
    /// Depth of random formulas before they are combined.
    pub depth: usize,
}

impl Size {
    /// Few runs, so that all of them can be listed.
    pub const SMALL: Size = Size {
        facts: (1, 2),
        actions: (1, 4),
        replies: 3,
        action_nodes: 5,
        branch_nodes: 4,
        sequence: (1, 5),
        depth: 2,
    };

    /// The numbers of facts between those of the others, up to all 31 actions,
    /// and programs so short that they are verified quickly.
    pub const MEDIUM: Size = Size {
        facts: (3, 7),
        actions: (4, 31),
        replies: 8,
        action_nodes: 5,
        branch_nodes: 4,
        sequence: (1, 4),
        depth: 3,
    };

    /// All eight facts and long programs.
    pub const LARGE: Size = Size {
        facts: (8, 8),
        actions: (8, 16),
        replies: 4,
        action_nodes: 64,
        branch_nodes: 30,
        sequence: (12, 30),
        depth: 3,
    };
}

/// A sheet that the reader accepts; every other one has a constraint, mostly one that
/// excludes states.
pub fn good(random: &mut Random, size: &Size) -> Sheet {
    loop {
        let sheet = Maker::new(random, size).sheet();
        if read(&encode(&sheet)).is_ok() {
            return sheet;
        }
    }
}

/// The sheet with a constraint that excludes states; as it was if it would then be
/// refused.
pub fn constrained(random: &mut Random, sheet: Sheet) -> Sheet {
    let size = Size {
        facts: (sheet.facts.into(), sheet.facts.into()),
        ..Size::SMALL
    };
    for _ in 0..8 {
        let constraint = Maker::new(random, &size).excluding();
        let changed = sheet.clone().constrained(constraint);
        if read(&encode(&changed)).is_ok() {
            return changed;
        }
    }
    sheet
}

/// The bytes of a sheet with one or two faults; a few are accepted nevertheless.
pub fn damaged(random: &mut Random, size: &Size) -> Vec<u8> {
    let mut sheet = good(random, size);
    let faults = random.between(1, 2);
    let in_data = random.between(0, faults);
    for _ in 0..in_data {
        spoil_data(random, &mut sheet);
    }
    let (mut bytes, fields) = encode_with_layout(&sheet);
    for _ in in_data..faults {
        spoil_bytes(random, &mut bytes, &fields);
    }
    bytes
}

struct Maker<'a> {
    random: &'a mut Random,
    size: &'a Size,
    facts: usize,
    /// Edition, number of facts and constraint of the sheet, which has nothing else yet.
    frame: Sheet,
    /// Whether actions may lack a next state or a reply in excluded states.
    relies: bool,
    /// Formulas worth asking about: facts and replies.
    topics: Vec<Objective>,
    action_nodes: usize,
    branch_nodes: usize,
}

impl Maker<'_> {
    fn new<'a>(random: &'a mut Random, size: &'a Size) -> Maker<'a> {
        let facts = random.between(size.facts.0, size.facts.1);
        Maker {
            random,
            size,
            facts,
            frame: Sheet {
                facts: facts as u8,
                ..plain()
            },
            relies: false,
            topics: (0..facts as u8).map(Objective::Fact).collect(),
            action_nodes: size.action_nodes,
            branch_nodes: size.branch_nodes,
        }
    }

    fn sheet(&mut self) -> Sheet {
        if self.random.chance(1, 2) {
            let constraint = match self.random.chance(1, 8) {
                true => Objective::True,
                false => self.excluding(),
            };
            self.frame = self.frame.clone().constrained(constraint);
            self.relies = self.random.chance(1, 2);
        }
        let mut count = self
            .random
            .between(self.size.actions.0, self.size.actions.1);
        if self.random.chance(1, 16) {
            count = 0;
        }
        let actions: Vec<Action> = (0..count).map(|_| self.action()).collect();
        let start = if self.random.chance(1, 2) {
            Objective::True
        } else {
            self.objective(self.size.depth, false)
        };
        let length = self
            .random
            .between(self.size.sequence.0, self.size.sequence.1);
        let program = self.program(length, actions.len());
        let goal = self.epistemic(2);
        let sheet = Sheet {
            actions,
            start,
            goal,
            program,
            ..self.frame.clone()
        };
        self.with_goal(sheet)
    }

    /// A constraint that excludes some states but not all, and seldom all but one.
    fn excluding(&mut self) -> Objective {
        loop {
            let [one, other, third] = [(); 3].map(|()| self.literal());
            let never =
                |one: &Objective, other: &Objective| one.clone().and(other.clone()).negate();
            let constraint = match self.random.below(6) {
                0 | 1 => never(&one, &other),
                2 => never(&one, &other).and(never(&one, &third).and(never(&other, &third))),
                3 => one.or(other),
                4 => one.iff(self.objective(self.size.depth, false)),
                _ => self.objective(self.size.depth + 1, false),
            };
            let all = 1u16 << self.facts;
            let left = (0..all).filter(|&state| holds(&constraint, state as u8));
            let left = left.count();
            let few = self.facts == 1 || self.random.chance(1, 8);
            if left < all.into() && (left > 1 || left == 1 && few) {
                return constraint;
            }
        }
    }

    fn literal(&mut self) -> Objective {
        let fact = Objective::Fact(self.random.below(self.facts) as u8);
        match self.random.chance(1, 3) {
            true => fact.negate(),
            false => fact,
        }
    }

    /// Random goals mostly fail somewhere, so half of the sheets look for one
    /// that does not.
    fn with_goal(&mut self, mut sheet: Sheet) -> Sheet {
        let wants_valid = self.random.chance(1, 2);
        for _ in 0..8 {
            let answer = verify(&encode(&sheet), 1000, &mut [0; MAX_TRACE]);
            if wants_valid != matches!(answer, Answer::Invalid { .. }) {
                break;
            }
            sheet.goal = self.epistemic(2);
        }
        sheet
    }

    /// Not all theories and replies suit the constraint, so there are several tries.
    fn action(&mut self) -> Action {
        let change = self.random.chance(1, 2);
        for _ in 0..16 {
            let action = match change {
                true => Action::Change(self.theory()),
                false => Action::Probe(self.replies()),
            };
            let alone = Sheet {
                actions: vec![action.clone()],
                ..self.frame.clone()
            };
            if read(&encode(&alone)).is_ok() {
                if let Action::Probe(replies) = &action {
                    self.topics.extend(replies.iter().cloned());
                }
                return action;
            }
        }
        Action::Change(Objective::True)
    }

    /// Mostly a clause for each fact, where omitted clauses free their facts.
    fn theory(&mut self) -> Objective {
        let mut clauses = Vec::new();
        for number in 0..self.facts as u8 {
            let new = Objective::New(number);
            let fact = Objective::Fact(number);
            match self.random.below(8) {
                0 => clauses.push(new),
                1 => clauses.push(new.negate()),
                2 => clauses.push(new.iff(fact.negate())),
                3 => clauses.push(new.iff(self.objective(self.size.depth, false))),
                4 => {}
                5 if self.frame.constraint != Objective::True => {}
                _ => clauses.push(new.iff(fact)),
            }
        }
        let clauses = self
            .combine(clauses, Objective::and)
            .unwrap_or(Objective::True);
        match self.random.below(8) {
            0 => clauses.or(self.objective(self.size.depth, true)),
            1 if self.facts <= 3 => self.objective(self.size.depth + 1, true),
            // Stuck in the states that are excluded.
            2 | 3 if self.relies => self.frame.constraint.clone().and(clauses),
            _ => clauses,
        }
    }

    /// Replies that leave no state without one, or perhaps do where the sheet relies on
    /// its constraint, whether or not they overlap.
    fn replies(&mut self) -> Vec<Objective> {
        let most = self.random.between(1, self.size.replies);
        let mut replies: Vec<Objective> = (1..most)
            .map(|_| self.objective(self.size.depth, false))
            .collect();
        match self.random.below(4) {
            0 => {
                let place = self.random.between(0, replies.len());
                replies.insert(place, Objective::True);
                replies
            }
            1 => {
                let mut other = self
                    .combine(replies.clone(), Objective::or)
                    .map_or(Objective::True, Objective::negate);
                if self.relies {
                    other = self.frame.constraint.clone().and(other);
                }
                replies.push(other);
                replies
            }
            2 if self.relies && most > 1 => replies,
            _ => {
                let topic = self.random.pick(&self.topics).clone();
                vec![topic.clone(), topic.negate()]
            }
        }
    }

    /// Combines the parts in order, splitting at random.
    fn combine(
        &mut self,
        mut parts: Vec<Objective>,
        join: fn(Objective, Objective) -> Objective,
    ) -> Option<Objective> {
        while parts.len() > 1 {
            let place = self.random.below(parts.len() - 1);
            let right = parts.remove(place + 1);
            let left = parts.remove(place);
            parts.insert(place, join(left, right));
        }
        parts.pop()
    }

    fn objective(&mut self, depth: usize, in_theory: bool) -> Objective {
        let number = self.random.below(self.facts) as u8;
        let kinds = if depth > 1 { 14 } else { 8 };
        match self.random.below(kinds) {
            0 => Objective::False,
            1 => Objective::True,
            2..=4 if in_theory => Objective::New(number),
            2..=7 => Objective::Fact(number),
            8 | 9 => self.objective(depth - 1, in_theory).negate(),
            10 | 11 => self
                .objective(depth - 1, in_theory)
                .and(self.objective(depth - 1, in_theory)),
            12 => self
                .objective(depth - 1, in_theory)
                .or(self.objective(depth - 1, in_theory)),
            _ => self
                .objective(depth - 1, in_theory)
                .iff(self.objective(depth - 1, in_theory)),
        }
    }

    fn topic(&mut self) -> Objective {
        let topic = if self.random.chance(1, 4) {
            self.objective(self.size.depth, false)
        } else {
            self.random.pick(&self.topics).clone()
        };
        if self.random.chance(1, 3) {
            topic.negate()
        } else {
            topic
        }
    }

    fn epistemic(&mut self, depth: usize) -> Epistemic {
        match self.random.below(if depth > 1 { 8 } else { 4 }) {
            0..=2 => Epistemic::Known(self.topic()),
            3 => Epistemic::NotKnown(self.topic()),
            4 => {
                let topic = self.topic();
                Epistemic::Known(topic.clone()).or(Epistemic::Known(topic.negate()))
            }
            5 => self.epistemic(depth - 1).and(self.epistemic(depth - 1)),
            _ => self.epistemic(depth - 1).or(self.epistemic(depth - 1)),
        }
    }

    /// A sequence of actions and branches, as far as the node limits allow.
    fn program(&mut self, length: usize, actions: usize) -> Program {
        if length == 0 {
            return Program::End;
        }
        if self.branch_nodes > 0 && self.random.chance(1, 3) {
            self.branch_nodes -= 1;
            let condition = self.epistemic(2);
            let mut side = |most| {
                let length = self.random.between(0, most);
                self.program(length, actions)
            };
            let (then, otherwise) = (side(2), side(2));
            return Program::branch(
                condition,
                then,
                otherwise,
                self.program(length - 1, actions),
            );
        }
        if self.action_nodes > 0 && actions > 0 {
            self.action_nodes -= 1;
            let action = self.random.below(actions) as u8;
            return Program::act(action, self.program(length - 1, actions));
        }
        self.program(length - 1, actions)
    }
}

/// Puts a fault into the data.
fn spoil_data(random: &mut Random, sheet: &mut Sheet) {
    match random.below(20) {
        0 => sheet.edition = random.below(16) as u8,
        1 => sheet.facts = *random.pick(&[0, 1, 9, 10, 15]),
        2 => sheet.start = deep(random, sheet.start.clone()),
        3 => {
            let goal = sheet.goal.clone();
            sheet.goal = goal.and(Epistemic::Known(deep(random, Objective::True)));
        }
        4 => {
            let condition = Epistemic::NotKnown(deep(random, Objective::Fact(0)));
            sheet.program =
                Program::branch(condition, Program::End, Program::End, sheet.program.clone());
        }
        5 => sheet.program = many_nodes(random, sheet.program.clone()),
        6 => sheet.start = Objective::False,
        7 => {
            sheet.start = sheet
                .start
                .clone()
                .or(Objective::New(random.below(8) as u8))
        }
        8 => {
            let action = random.below(32) as u8;
            sheet.program = Program::act(action, sheet.program.clone());
        }
        9..=13 => {
            let constraint = spoilt_constraint(random, sheet);
            *sheet = sheet.clone().constrained(constraint);
        }
        _ => {
            let number = random.between(0, usize::from(sheet.facts.min(7))) as u8;
            let action = spoilt_action(random, number);
            let place = random.between(0, sheet.actions.len());
            sheet.actions.insert(place, action);
            // The 5-bit field holds no greater number of them.
            sheet.actions.truncate(31);
        }
    }
}

/// A constraint that no state satisfies, one that is badly formed, or another one.
fn spoilt_constraint(random: &mut Random, sheet: &Sheet) -> Objective {
    let constraint = sheet.constraint.clone();
    let number = random.below(8) as u8;
    match random.below(8) {
        0 => Objective::False,
        1 => constraint.clone().and(constraint.negate()),
        2 => constraint.and(Objective::New(number)),
        3 => Objective::Fact(sheet.facts.min(7)).or(constraint),
        4 => Objective::Fact(number).iff(constraint),
        5 => deep(random, constraint),
        6 => Objective::Fact(0),
        _ => Objective::Fact(0).negate().and(constraint),
    }
}

/// The formula at the end of a chain of negations, around the depth limit.
fn deep(random: &mut Random, mut formula: Objective) -> Objective {
    for _ in 0..random.between(12, 17) {
        formula = formula.negate();
    }
    formula
}

/// The program after so many nodes that the limits are near.
fn many_nodes(random: &mut Random, mut program: Program) -> Program {
    let actions = random.chance(1, 2);
    for _ in 0..random.between(60, 66) {
        program = if actions {
            Program::act(0, program)
        } else {
            let never = Epistemic::NotKnown(Objective::True);
            Program::branch(never, Program::End, Program::End, program)
        };
    }
    program
}

/// An action that some state gets stuck in, or one that is badly formed.
fn spoilt_action(random: &mut Random, number: u8) -> Action {
    match random.below(7) {
        0 => Action::Probe(vec![]),
        1 => Action::Probe(vec![Objective::True; random.between(8, 15)]),
        2 => Action::Probe(vec![Objective::New(number)]),
        3 => Action::Probe(vec![Objective::Fact(number), Objective::Fact(0).negate()]),
        4 => Action::Change(Objective::Fact(number).and(Objective::New(0))),
        5 => Action::Change(deep(random, Objective::New(0))),
        _ => Action::Probe(vec![Objective::Fact(0), deep(random, Objective::Fact(0))]),
    }
}

/// Puts a fault into the bytes. The fields may no longer be those of the bytes,
/// or lie past their end.
fn spoil_bytes(random: &mut Random, bytes: &mut Vec<u8>, fields: &[Field]) {
    let bits = 8 * bytes.len();
    match random.below(13) {
        0 | 1 => bytes.truncate(random.between(0, bytes.len())),
        2 => bytes.extend((0..random.between(1, 3)).map(|_| random.chance(1, 2) as u8)),
        3 if bits > 0 => set_bit(bytes, bits - 1, true),
        4 | 5 if bits > 0 => {
            for _ in 0..random.between(1, 3) {
                set_bit(bytes, random.below(bits), random.chance(1, 2));
            }
        }
        6 if random.chance(1, 4) => {
            bytes.resize(random.between(MAX_BYTES - 1, MAX_BYTES + 2), 0);
        }
        7 => spoil_field(random, bytes, fields, |kind| kind == Kind::ProgramTag),
        8 => spoil_field(random, bytes, fields, |kind| kind == Kind::Replies),
        9 => spoil_field(random, bytes, fields, |kind| kind == Kind::FactNumber),
        // Editions 1 and 2 change places.
        10 if bits > 0 => bytes[0] ^= 0x30,
        _ => spoil_field(random, bytes, fields, |_| true),
    }
}

/// Overwrites one of the chosen fields.
fn spoil_field(
    random: &mut Random,
    bytes: &mut [u8],
    fields: &[Field],
    chosen: impl Fn(Kind) -> bool,
) {
    let chosen: Vec<&Field> = fields
        .iter()
        .filter(|field| chosen(field.kind) && field.position + field.width <= 8 * bytes.len())
        .collect();
    if !chosen.is_empty() {
        let field = random.pick(&chosen);
        overwrite(bytes, field, random.below(1 << field.width));
    }
}
