//! Sheets of all kinds, and what the Rust implementation says of them; no single
//! test file uses all of it.
#![allow(dead_code)]

pub mod process;

use std::collections::{BTreeSet, HashMap};

use linked::plain::{self, SLOT_WORDS};
use linked::straight::{counted, histories, reply_counts, sequence, straight};
use linked::{settle, Place, Tables, Verdict, Words, MEMO_WORDS};
use reference::edges::{self, edges};
use reference::encode::encode;
use reference::figures::{figures_by, Figures};
use reference::print::lines;
use reference::random::{constrained, damaged, good, Random, Size};
use reference::read::read;
use reference::records::wide;
use reference::sheet::{Action, Epistemic, Objective, Program, Sheet, MAX_BYTES, MAX_TRACE};
use reference::states::excluded;
use reference::verify::{verify, Answer};

/// The budget of `planverify`.
pub const BUDGET: u32 = 1_000_000;

/// A budget with which the Rust verifier takes little time on any sheet.
pub const FEW: u32 = 300;

/// A sheet's bytes, its data if it is accepted, and the Rust verifier's answer
/// with the budget `FEW`.
pub struct Case {
    pub bytes: Vec<u8>,
    pub sheet: Option<Sheet>,
    pub answer: Answer,
}

impl Case {
    pub fn new(bytes: Vec<u8>) -> Case {
        Case {
            sheet: read(&bytes).ok(),
            answer: verify(&bytes, FEW, &mut [0; MAX_TRACE]),
            bytes,
        }
    }

    /// What the proved verifier is compared with. Up to `FEW` histories or a budget
    /// of `FEW` that is `reference::verify`, by the sheet's tree. Beyond, where the
    /// tree may take long, it is `plain::verify`, over the same kind of tables as the
    /// proved one, but through every history. There `many_histories_by_the_tree` and
    /// `counts_around_a_million` in `verifier.rs` compare the proved verifier with
    /// the tree too, as far as that is quick.
    pub fn verify(&self, budget: u32, memory: &mut [u8]) -> Answer {
        match (self.answer, &self.sheet) {
            (Answer::Stopped { .. }, Some(sheet)) if budget > FEW && memory.len() >= MAX_TRACE => {
                let mut tables = Tables::zeroed();
                let start = plain::prepare(sheet, &mut tables);
                answer(plain::verify(&tables, &start, budget, memory))
            }
            _ => verify(&self.bytes, budget, memory),
        }
    }

    /// What `planverify` has to print.
    pub fn lines(&self) -> Vec<u8> {
        let mut memory = [0; MAX_TRACE];
        let answer = self.verify(BUDGET, &mut memory);
        lines(&answer, &memory)
    }
}

/// What the Rust implementation answers with the budget of `planverify`, each sheet being
/// verified once.
#[derive(Clone, Default)]
pub struct Answers(HashMap<Vec<u8>, Answer>);

impl Answers {
    pub fn to(&mut self, sheet: &[u8]) -> Answer {
        if let Some(answer) = self.0.get(sheet) {
            return *answer;
        }
        let answer = Case::new(sheet.to_vec()).verify(BUDGET, &mut [0; MAX_TRACE]);
        self.0.insert(sheet.to_vec(), answer);
        answer
    }

    pub fn figures(&mut self, stream: &[u8]) -> Figures {
        figures_by(|sheet| self.to(sheet), stream)
    }
}

pub fn answer(verdict: Verdict) -> Answer {
    match verdict {
        Verdict::Valid { count } => Answer::Valid { count },
        Verdict::Invalid { count, length } => Answer::Invalid { count, length },
        Verdict::Stopped { budget } => Answer::Stopped { budget },
    }
}

/// Whether it is an accepted sheet with a constraint that excludes a state.
pub fn excludes(sheet: &[u8]) -> bool {
    read(sheet).is_ok_and(|sheet| !excluded(&sheet).is_empty())
}

pub fn bytes(random: &mut Random, length: usize) -> Vec<u8> {
    (0..length).map(|_| random.bits() as u8).collect()
}

/// More histories than any of the sheets has, as far as they are searched.
const WRONG: u64 = 77_777_777;

/// A memo full of any numbers; for a routine with an action, in the slot of its first
/// one, with what would let every search pass, and whether that is in it.
pub fn misleading_memo(
    random: &mut Random,
    tables: &Tables,
    start: &Words,
) -> ([u64; MEMO_WORDS], bool) {
    let mut memo = [0; MEMO_WORDS].map(|_: u64| random.bits());
    let Place::Act { node, action } = settle(tables, start, 0) else {
        return (memo, false);
    };
    let slot = SLOT_WORDS * plain::slot_number(start, node + 1);
    let [a, b, c, d] = *start;
    let words = [node as u64 + 1, action as u64, 64, WRONG, a, b, c, d];
    memo[slot..slot + SLOT_WORDS].copy_from_slice(&words);
    (memo, true)
}

/// Different sheets: at the limits, random ones of every size, damaged and cut
/// ones, random bytes, and those of `choices`, `many` and `longest`.
pub fn sheets(seed: u64) -> BTreeSet<Vec<u8>> {
    let mut random = Random::new(seed);
    let mut sheets: BTreeSet<Vec<u8>> = edges().into_iter().collect();
    for (count, size) in [(2000, Size::SMALL), (500, Size::MEDIUM), (25, Size::LARGE)] {
        sheets.extend((0..count).map(|_| encode(&good(&mut random, &size))));
    }
    for (count, size) in [(2000, Size::SMALL), (300, Size::MEDIUM), (10, Size::LARGE)] {
        sheets.extend((0..count).map(|_| damaged(&mut random, &size)));
    }
    for _ in 0..30 {
        let sheet = encode(&good(&mut random, &Size::SMALL));
        sheets.extend((0..sheet.len()).map(|length| sheet[..length].to_vec()));
    }
    for _ in 0..500 {
        let length = random.between(0, 40);
        let mut sheet = bytes(&mut random, length);
        if let Some(first) = sheet.first_mut() {
            *first = random.pick(&[0x10, 0x20]) + *first % 10;
        }
        sheets.insert(sheet);
    }
    sheets.extend((0..500).map(|_| encode(&choices(&mut random))));
    sheets.extend((0..120).map(|_| encode(&many(&mut random))));
    sheets.extend(longest());
    sheets
}

/// A failing routine in which changes leave facts free and probes tell them
/// later, so that the least next state is often a wrong one; every other one has a
/// constraint, if it is still accepted then.
pub fn choices(random: &mut Random) -> Sheet {
    let most = if random.chance(1, 8) { 8 } else { 4 };
    let facts = random.between(1, most) as u8;
    let fact = |random: &mut Random| Objective::Fact(random.below(facts.into()) as u8);
    let mut actions = Vec::new();
    for _ in 0..3 {
        let mut theory = Objective::True;
        for number in 0..facts {
            let new = Objective::New(number);
            match random.below(6) {
                0 => theory = theory.and(new.iff(fact(random))),
                1 | 2 => theory = theory.and(new.iff(Objective::Fact(number))),
                _ => {}
            }
        }
        actions.push(Action::Change(theory));
    }
    for _ in 0..3 {
        let told = match random.below(3) {
            0 => fact(random).and(fact(random)),
            1 => fact(random).negate(),
            _ => fact(random),
        };
        actions.push(Action::Probe(vec![told, Objective::True]));
    }
    let length = random.between(2, 8);
    let numbers: Vec<u8> = (0..length)
        .map(|_| random.below(actions.len()) as u8)
        .collect();
    let sheet = Sheet {
        facts,
        actions,
        goal: Epistemic::NotKnown(Objective::True),
        program: sequence(&numbers),
        ..edges::plain()
    };
    match random.chance(1, 2) {
        true => constrained(random, sheet),
        false => sheet,
    }
}

/// A routine with hundreds to millions of histories: overlapping probes, changes
/// and branches, and a goal that fails seldom.
pub fn many(random: &mut Random) -> Sheet {
    let facts = random.between(3, 8) as u8;
    let fact = |random: &mut Random| Objective::Fact(random.below(facts.into()) as u8);
    let mut actions = Vec::new();
    for _ in 0..3 {
        let clauses = (0..facts).map(|number| {
            let new = Objective::New(number);
            match random.below(4) {
                0 => Objective::True,
                1 => new.iff(Objective::Fact(number).negate()),
                _ => new.iff(Objective::Fact(number)),
            }
        });
        actions.push(Action::Change(clauses.reduce(Objective::and).unwrap()));
    }
    for _ in 0..5 {
        let first = fact(random).or(fact(random));
        let second = fact(random).and(first.clone()).negate();
        let mut replies = vec![first, second];
        if random.chance(1, 2) {
            replies.insert(random.between(0, 2), fact(random));
        }
        actions.push(Action::Probe(replies));
    }
    let mut program = Program::End;
    for _ in 0..random.between(10, 18) {
        let act = |random: &mut Random, rest| {
            let action = match random.chance(1, 5) {
                true => random.below(3),
                false => random.between(3, 7),
            };
            Program::act(action as u8, rest)
        };
        program = match random.chance(1, 5) {
            true => {
                let condition = Epistemic::Known(fact(random)).or(Epistemic::NotKnown(
                    fact(random).or(fact(random).negate().and(fact(random))),
                ));
                let then = act(random, Program::End);
                Program::branch(condition, then, Program::End, program)
            }
            false => act(random, program),
        };
    }
    let half = (0..facts).step_by(2).map(Objective::Fact);
    let unlikely = half.reduce(Objective::and);
    let goal = match random.chance(1, 2) {
        true => Epistemic::NotKnown(unlikely.unwrap()),
        false => Epistemic::Known(Objective::True),
    };
    Sheet {
        facts,
        actions,
        goal,
        program,
        ..edges::plain()
    }
}

/// A routine that comes to the same sets again and again, at one depth or at
/// another: probes that tell little, detours of different lengths behind which all
/// but fact 0 is forgotten, and a goal that fails seldom. It has at most so many
/// facts, and so many actions and branches in a row.
pub fn repeating(random: &mut Random, facts: usize, row: usize) -> Sheet {
    let facts = random.between(1, facts) as u8;
    let number = |random: &mut Random| random.below(facts.into()) as u8;
    let fact = |random: &mut Random| match random.chance(1, 2) {
        true => Objective::Fact(number(random)),
        false => Objective::Fact(number(random)).negate(),
    };
    let known = |random: &mut Random| match random.chance(2, 3) {
        true => Epistemic::Known(fact(random)),
        false => Epistemic::NotKnown(fact(random)),
    };
    let all = |parts: Vec<Objective>| parts.into_iter().reduce(Objective::and);
    let free = number(random);
    let kept = |number| Objective::New(number).iff(Objective::Fact(number));
    let toggled = |number| Objective::New(number).iff(Objective::Fact(number).negate());
    let freeing = (0..facts).filter(|&number| number != free).map(kept);
    let of = |told: Objective| Action::Probe(vec![told.clone(), told.negate()]);
    let told = fact(random);
    let mut actions = vec![
        Action::Change(kept(0)),
        Action::Change(all((0..facts).map(toggled).collect()).unwrap()),
        Action::Change(all(freeing.collect()).unwrap_or(Objective::True)),
        of(Objective::Fact(0)),
        of(told.clone()),
    ];
    for _ in 0..3 {
        let mut replies = match random.below(3) {
            0 => vec![Objective::True; 2],
            1 => vec![fact(random).or(fact(random)), fact(random), Objective::True],
            _ => vec![fact(random), Objective::True],
        };
        if random.chance(1, 2) {
            replies.reverse();
        }
        actions.push(Action::Probe(replies));
    }
    let act = |random: &mut Random, rest| {
        let action = match random.chance(1, 4) {
            true => random.below(3),
            false => random.between(4, 7),
        };
        Program::act(action as u8, rest)
    };
    let mut program = Program::End;
    for _ in 0..random.between(2, row) {
        let mut side = |most| {
            let length = random.between(0, most);
            (0..length).fold(Program::End, |rest, _| act(random, rest))
        };
        // Behind a longer side that is searched first the same places come sooner.
        let (longer, shorter) = (side(4), side(1));
        let (then, otherwise) = match random.chance(2, 3) {
            true => (longer, shorter),
            false => (shorter, longer),
        };
        program = match random.below(6) {
            0..=2 => {
                let condition = Epistemic::Known(told.clone());
                let rest = Program::act(0, program);
                Program::act(4, Program::branch(condition, then, otherwise, rest))
            }
            3 => Program::branch(known(random), then, otherwise, program),
            _ => act(random, program),
        };
    }
    let goal = match random.below(3) {
        0 => known(random).or(known(random)),
        _ => Epistemic::NotKnown(all((0..facts).map(|_| fact(random)).collect()).unwrap()),
    };
    // Often nothing fails where fact 0 holds, or nothing where it does not.
    let (goal, program) = match random.below(4) {
        0 => (goal, program),
        1 => (
            Epistemic::NotKnown(Objective::Fact(0)).or(goal),
            Program::act(3, program),
        ),
        _ => (
            Epistemic::Known(Objective::Fact(0)).or(goal),
            Program::act(3, program),
        ),
    };
    Sheet {
        facts,
        actions,
        goal,
        program,
        ..edges::plain()
    }
}

/// The longest sheet, accepted, and the longest trace, of a history that fails.
pub fn longest() -> [Vec<u8>; 2] {
    let sheet = encode(&Sheet {
        start: wide(1362),
        ..edges::plain()
    });
    assert_eq!(sheet.len(), MAX_BYTES);
    let trace = encode(&Sheet {
        actions: vec![Action::Change(Objective::True)],
        goal: Epistemic::Known(Objective::Fact(0)),
        program: sequence(&[0; 64]),
        ..edges::plain()
    });
    [sheet, trace]
}

/// A valid routine with a branch: a probe of the fact, so many histories on the one
/// side, so many on the other.
pub fn branched(then: u64, otherwise: u64) -> Sheet {
    let mut sheet = counted(then);
    put_behind_a_probe(&mut sheet, counted(otherwise).program);
    sheet
}

/// Puts a probe of fact 0 before the program, which is then for the case that the
/// fact holds; the other program is for the case that it does not.
fn put_behind_a_probe(sheet: &mut Sheet, otherwise: Program) {
    let fact = Objective::Fact(0);
    let probe = sheet.actions.len() as u8;
    sheet
        .actions
        .push(Action::Probe(vec![fact.clone(), fact.clone().negate()]));
    let then = std::mem::replace(&mut sheet.program, Program::End);
    let branch = Program::branch(Epistemic::Known(fact), then, otherwise, Program::End);
    sheet.program = Program::act(probe, branch);
}

/// A routine with so many histories up to the first that fails, and its trace:
/// a probe of fact 0; where that holds, histories that pass; else probes with these
/// numbers of replies, of which the last history alone fails, as in `last_fails`.
pub fn fails_behind(count: u64, replies: &[u8]) -> (Sheet, Vec<u8>) {
    // The probe's two replies, and what is behind the second.
    let failing = 2 + histories(replies) as u64;
    let mut sheet = counted(count - failing);
    let probe = sheet.actions.len() as u8;
    let numbers: Vec<u8> = (probe + 1..).take(replies.len()).collect();
    put_behind_a_probe(&mut sheet, sequence(&numbers));
    sheet.goal = Epistemic::Known(Objective::Fact(0));
    add_telling(&mut sheet, replies);
    // All facts are false throughout.
    let mut trace = vec![0, 8 * probe + 1, 0];
    for (number, most) in numbers.iter().zip(replies) {
        trace.extend([8 * number + most - 1, 0]);
    }
    (sheet, trace)
}

/// Adds probes with these numbers of replies, of which the last tells that a new
/// fact is false and the others tell nothing, if there are others; the goal then
/// holds also where one of them didn't give its last.
fn add_telling(sheet: &mut Sheet, replies: &[u8]) {
    for &most in replies {
        let mut told = vec![Objective::True; most.into()];
        if most > 1 {
            let fact = Objective::Fact(sheet.facts).negate();
            sheet.facts += 1;
            sheet.goal = Epistemic::NotKnown(fact.clone()).or(sheet.goal.clone());
            told[usize::from(most) - 1] = fact;
        }
        sheet.actions.push(Action::Probe(told));
    }
}

/// A routine with so many histories, of which the last alone fails: where every
/// probe gave its last reply, which alone tells the probe's fact.
pub fn last_fails(count: u32) -> Sheet {
    let replies = reply_counts(count.into());
    let numbers: Vec<u8> = (0..).take(replies.len()).collect();
    let mut sheet = Sheet {
        facts: 0,
        goal: Epistemic::Known(Objective::False),
        program: sequence(&numbers),
        ..edges::plain()
    };
    add_telling(&mut sheet, &replies);
    sheet
}

/// What `planverify` has to print for a sheet with so many histories that is valid,
/// or for `last_fails`.
pub fn counted_lines(count: u32, fails: bool) -> String {
    if count > BUDGET {
        return format!("stopped {BUDGET}\n");
    }
    if !fails {
        return format!("valid {count}\n");
    }
    // All facts are false throughout.
    let replies = reply_counts(count.into());
    let events = replies.iter().zip((0..).step_by(8));
    let steps: String = events
        .map(|(most, action)| format!(" {:02x} 00", action + most - 1))
        .collect();
    format!("invalid {count} {}\n00{steps}\n", replies.len())
}

/// Sheets with around a million histories, with their numbers, and whether the last
/// alone fails.
pub fn around_a_million() -> Vec<(Vec<u8>, u32, bool)> {
    let mut sheets = Vec::new();
    for count in [999_998, 999_999, 1_000_000, 1_000_001, 1_000_002] {
        sheets.push((counted(count.into()), count, false));
    }
    for count in [999_999, 1_000_000, 1_000_001] {
        // A tail of changes on the other side of a branch, and a large number there.
        for otherwise in [0, 1, 5, 262_142] {
            let then = count - 2 - otherwise;
            sheets.push((branched(then.into(), otherwise.into()), count, false));
        }
        sheets.push((last_fails(count), count, true));
    }
    let twos = |count: usize| vec![2; count];
    for replies in [
        twos(18),
        twos(19),
        [&twos(18)[..], &[1]].concat(),
        [&twos(17)[..], &[3]].concat(),
        [&[3], &twos(17)[..]].concat(),
        vec![3; 12],
        [&[3; 12][..], &[1]].concat(),
        [&[1, 1, 1], &twos(18)[..], &[1]].concat(),
        vec![8; 6],
        vec![8; 7],
        // Above 32 bits; the number is cut there.
        twos(64),
        vec![8; 64],
    ] {
        let count = u32::try_from(histories(&replies)).unwrap_or(u32::MAX);
        sheets.push((straight(&replies), count, false));
    }
    sheets
        .into_iter()
        .map(|(sheet, count, fails)| (encode(&sheet), count, fails))
        .collect()
}
