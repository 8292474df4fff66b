//! Helpers shared by the tests; no single test file uses all of them.
#![allow(dead_code)]

use std::fs;
use std::path::PathBuf;

use reference::sheet::{Action, Epistemic, Objective, Program, Sheet, MAX_TRACE};
use reference::verify::{verify, Answer};

/// The bytes of hexadecimal digits; white space is skipped.
pub fn unhex(text: &str) -> Vec<u8> {
    let digits: Vec<u32> = text
        .chars()
        .filter(|digit| !digit.is_whitespace())
        .map(|digit| digit.to_digit(16).expect("a hexadecimal digit"))
        .collect();
    assert_eq!(digits.len() % 2, 0, "half a byte");
    digits
        .chunks(2)
        .map(|pair| (16 * pair[0] + pair[1]) as u8)
        .collect()
}

/// The bytes of a sample sheet.
pub fn sample(name: &str) -> Vec<u8> {
    let directory = PathBuf::from(env!("CARGO_MANIFEST_DIR")).join("../samples");
    let path = directory.join(format!("{name}.hex"));
    unhex(&fs::read_to_string(path).expect("a text file"))
}

/// The bytes of binary digits, padded with zeros; white space is skipped.
pub fn unbits(text: &str) -> Vec<u8> {
    let bits: Vec<u8> = text
        .chars()
        .filter(|digit| !digit.is_whitespace())
        .map(|digit| digit.to_digit(2).expect("a binary digit") as u8)
        .collect();
    bits.chunks(8)
        .map(|chunk| {
            let byte = chunk.iter().fold(0, |byte, bit| byte << 1 | bit);
            byte << (8 - chunk.len())
        })
        .collect()
}

pub fn fact(number: u8) -> Objective {
    Objective::Fact(number)
}

pub fn new(number: u8) -> Objective {
    Objective::New(number)
}

/// The fact keeps its value.
pub fn stays(number: u8) -> Objective {
    new(number).iff(fact(number))
}

pub fn known(formula: Objective) -> Epistemic {
    Epistemic::Known(formula)
}

pub fn not_known(formula: Objective) -> Epistemic {
    Epistemic::NotKnown(formula)
}

/// The formula is known or its negation is.
pub fn decided(formula: Objective) -> Epistemic {
    known(formula.clone()).or(known(formula.negate()))
}

/// The probe for the truth of a formula.
pub fn test(formula: Objective) -> Action {
    Action::Probe(vec![formula.clone(), formula.negate()])
}

/// The actions one after the other.
pub fn sequence(actions: &[u8]) -> Program {
    actions
        .iter()
        .rev()
        .fold(Program::End, |rest, &action| Program::act(action, rest))
}

/// The formula under so many negations.
pub fn nots(count: usize, formula: Objective) -> Objective {
    (0..count).fold(formula, |formula, _| formula.negate())
}

/// A balanced conjunction with so many leaves; as the start formula of the plain
/// sheet, 1,362 leaves make 1,024 bytes.
pub fn wide(leaves: usize) -> Objective {
    match leaves {
        1 => Objective::True,
        _ => wide(leaves / 2).and(wide(leaves - leaves / 2)),
    }
}

/// A sheet of one fact that does nothing and reaches its goal.
pub fn plain() -> Sheet {
    Sheet {
        edition: 1,
        facts: 1,
        constraint: Objective::True,
        actions: vec![],
        start: Objective::True,
        goal: known(Objective::True),
        program: Program::End,
    }
}

/// The verifier's answer and the trace it shows, if any.
pub fn verdict(bytes: &[u8], budget: u32) -> (Answer, Option<Vec<u8>>) {
    let mut memory = [0; MAX_TRACE];
    let answer = verify(bytes, budget, &mut memory);
    let trace = match answer {
        Answer::Invalid { length, .. } => Some(memory[..1 + 2 * length].to_vec()),
        _ => None,
    };
    (answer, trace)
}
