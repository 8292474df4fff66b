//! The sample sheets: their bytes, their verdicts and the files that hold them.

mod common;

use std::fs;
use std::path::PathBuf;
use std::process::Command;

use common::{
    decided, fact, known, new, not_known, nots, plain, sequence, stays, test, unbits, unhex,
    verdict,
};
use reference::encode::encode;
use reference::figures::{figures, stream_of};
use reference::print::lines;
use reference::read::read;
use reference::refusal::Refusal;
use reference::sheet::{Action, Epistemic, Objective, Program, Sheet, MAX_TRACE};
use reference::verify::{verify, Answer};

const BUDGET: u32 = 1_000_000;

fn case_1() -> Sheet {
    Sheet {
        actions: vec![test(fact(0))],
        goal: decided(fact(0)),
        program: sequence(&[0]),
        ..plain()
    }
}

fn case_2() -> Sheet {
    Sheet {
        goal: known(fact(0)),
        ..case_1()
    }
}

/// Example 1 of the 2012 paper; x1 is fact 0, x2 is fact 1.
fn example_2012(goal: Epistemic) -> Sheet {
    let equal = fact(0).iff(fact(1));
    let both = fact(0).and(fact(1));
    let switch = new(0).iff(fact(0).negate()).and(stays(1));
    Sheet {
        facts: 2,
        actions: vec![
            test(equal.clone()),
            test(both.clone()),
            Action::Change(switch),
        ],
        goal,
        program: Program::act(
            0,
            Program::branch(
                known(equal),
                sequence(&[1]),
                sequence(&[2, 1]),
                Program::End,
            ),
        ),
        ..plain()
    }
}

fn case_9() -> Sheet {
    example_2012(decided(fact(0).and(fact(1))))
}

fn case_10() -> Sheet {
    example_2012(known(fact(0).and(fact(1))))
}

fn case_11() -> Sheet {
    Sheet {
        goal: known(fact(0)),
        ..plain()
    }
}

/// Example 1 of the 2013 paper; ok1, ok2, ok3 are facts 0, 1, 2. Actions 0 to 2
/// repair them and actions 3 to 5 test them.
fn case_12() -> Sheet {
    let repair = |ok: u8| {
        let clause = |number| {
            if number == ok {
                new(number)
            } else {
                stays(number)
            }
        };
        Action::Change(clause(0).and(clause(1)).and(clause(2)))
    };
    let unless_decided = |ok: u8, rest| {
        let undecided = not_known(fact(ok)).and(not_known(fact(ok).negate()));
        Program::branch(undecided, sequence(&[3 + ok]), Program::End, rest)
    };
    let component = |ok: u8, rest| {
        let broken = known(fact(ok).negate());
        unless_decided(
            ok,
            Program::branch(broken, sequence(&[ok]), Program::End, rest),
        )
    };
    let first_is_both = fact(0).iff(fact(1).and(fact(2)));
    let not_both = fact(1).negate().or(fact(2).negate());
    Sheet {
        facts: 3,
        actions: vec![
            repair(0),
            repair(1),
            repair(2),
            test(fact(0)),
            test(fact(1)),
            test(fact(2)),
        ],
        start: first_is_both.and(not_both),
        goal: known(fact(0)).and(known(fact(1))).and(known(fact(2))),
        program: component(0, component(1, component(2, Program::End))),
        ..plain()
    }
}

fn case_13() -> Vec<u8> {
    let mut bytes = encode(&case_1());
    bytes.resize(1025, 0);
    bytes
}

fn case_14(depth: usize) -> Sheet {
    // The innermost formula makes the whole one true.
    let innermost = if depth % 2 == 1 {
        Objective::True
    } else {
        Objective::False
    };
    Sheet {
        start: nots(depth - 1, innermost),
        ..plain()
    }
}

fn case_15() -> Sheet {
    Sheet {
        start: Objective::False,
        ..case_1()
    }
}

fn case_16() -> Sheet {
    Sheet {
        actions: vec![Action::Probe(vec![fact(0)])],
        ..case_1()
    }
}

/// The number of histories, 2^21 - 2, exceeds the budget.
fn twenty_probes() -> Sheet {
    Sheet {
        actions: vec![Action::Probe(vec![Objective::True; 2])],
        program: sequence(&[0; 20]),
        ..plain()
    }
}

/// Trunk live is fact 0 and standby live fact 1. Action 0 probes the trunk, action 1
/// makes it live and says nothing of the standby.
fn trunk_and_standby(constraint: Objective) -> Sheet {
    Sheet {
        facts: 2,
        actions: vec![test(fact(0)), Action::Change(new(0))],
        goal: known(fact(0)).and(known(fact(1).negate())),
        program: Program::act(
            0,
            Program::branch(known(fact(0)), Program::End, sequence(&[1]), Program::End),
        ),
        ..plain()
    }
    .constrained(constraint)
}

fn never_both_live() -> Sheet {
    trunk_and_standby(fact(0).and(fact(1)).negate())
}

fn both_may_be_live() -> Sheet {
    trunk_and_standby(Objective::True)
}

fn no_state() -> Sheet {
    Sheet {
        start: Objective::False,
        ..plain()
    }
    .constrained(fact(0).and(fact(0).negate()))
}

/// One fact, one action, which is done, and the goal that the fact is known.
fn one_action(constraint: Objective, action: Action) -> Sheet {
    Sheet {
        actions: vec![action],
        ..case_2()
    }
    .constrained(constraint)
}

fn stuck_outside() -> Sheet {
    one_action(fact(0), Action::Change(fact(0)))
}

fn leads_outside() -> Sheet {
    one_action(fact(0).negate(), Action::Change(new(0)))
}

fn silent_outside() -> Sheet {
    one_action(fact(0), Action::Probe(vec![fact(0)]))
}

fn silent_inside() -> Sheet {
    one_action(fact(0).negate(), Action::Probe(vec![fact(0)]))
}

/// Each case's name, bytes and output.
fn cases() -> Vec<(&'static str, Vec<u8>, &'static str)> {
    let with = |mut bytes: Vec<u8>, last: u8| {
        *bytes.last_mut().expect("a last byte") = last;
        bytes
    };
    let first = encode(&case_1());
    vec![
        ("01", first.clone(), "valid 2\n"),
        ("02", encode(&case_2()), "invalid 2 1\n00 01 00\n"),
        ("03", with(first.clone(), 1), "refused 12\n"),
        ("04", [first, vec![0]].concat(), "refused 12\n"),
        ("05", vec![], "refused 2\n"),
        ("06", vec![0x41], "refused 3\n"),
        ("07", vec![0x10], "refused 4\n"),
        ("08", vec![0x19], "refused 4\n"),
        ("09", encode(&case_9()), "valid 7\n"),
        ("10", encode(&case_10()), "invalid 3 2\n00 00 00 09 00\n"),
        ("11", encode(&case_11()), "invalid 0 0\n00\n"),
        ("12", encode(&case_12()), "valid 8\n"),
        ("13", case_13(), "refused 1\n"),
        ("14a", encode(&case_14(16)), "valid 0\n"),
        ("14b", encode(&case_14(17)), "refused 8\n"),
        ("15", encode(&case_15()), "refused 13\n"),
        ("16", encode(&case_16()), "refused 15\n"),
        (
            "twenty-probes",
            encode(&twenty_probes()),
            "stopped 1000000\n",
        ),
        ("never-both-live", encode(&never_both_live()), "valid 3\n"),
        (
            "both-may-be-live",
            encode(&both_may_be_live()),
            "invalid 1 1\n01 00 01\n",
        ),
        ("no-state", encode(&no_state()), "refused 16\n"),
        ("cut-constraint", vec![0x21], "refused 2\n"),
        ("stuck-outside", encode(&stuck_outside()), "valid 1\n"),
        ("leads-outside", encode(&leads_outside()), "refused 14\n"),
        ("silent-outside", encode(&silent_outside()), "valid 1\n"),
        ("silent-inside", encode(&silent_inside()), "refused 15\n"),
    ]
}

#[test]
fn printed_bytes() {
    assert_eq!(encode(&case_1()), unhex("11 0C 90 88 1C 40 88 20 00"));
    assert_eq!(encode(&case_2()), unhex("11 0C 90 88 11 04 00"));
    let head = "0010 0010";
    let never = "100 101 010 000 010 001";
    let rest = "00010 1 0010 010 000 100 010 000 0 011 000 001 10 00 010 000 00 100 010 001
        01 00000 10 00 010 000 00 01 00001 00 00";
    let bits = [head, never, rest].concat();
    assert_eq!(encode(&never_both_live()), unbits(&bits));
    let bits = [head, "001", rest].concat();
    assert_eq!(encode(&both_may_be_live()), unbits(&bits));
}

/// The same sheets with the constraint true.
#[test]
fn without_the_constraint() {
    let free =
        |sheet: Sheet| verdict(&encode(&sheet.clone().constrained(Objective::True)), BUDGET).0;
    assert_eq!(free(stuck_outside()), Answer::Refused(Refusal::NoNextState));
    assert_eq!(free(silent_outside()), Answer::Refused(Refusal::NoReply));
    assert_eq!(free(no_state()), Answer::Refused(Refusal::NoStartState));
    assert_eq!(free(leads_outside()), Answer::Valid { count: 1 });
    assert_eq!(free(silent_inside()), Answer::Refused(Refusal::NoReply));
}

#[test]
fn outputs() {
    for (name, bytes, output) in cases() {
        let mut memory = [0; MAX_TRACE];
        let answer = verify(&bytes, BUDGET, &mut memory);
        let printed = String::from_utf8(lines(&answer, &memory)).expect("ASCII");
        assert_eq!(printed, output, "case {name}");
    }
}

#[test]
fn small_budgets() {
    let first = encode(&case_1());
    assert_eq!(verdict(&first, 2).0, Answer::Valid { count: 2 });
    assert_eq!(verdict(&first, 1).0, Answer::Stopped { budget: 1 });
    let tenth = encode(&case_10());
    let shown = Some(unhex("00 00 00 09 00"));
    let (count, length) = (3, 2);
    assert_eq!(
        verdict(&tenth, 3),
        (Answer::Invalid { count, length }, shown)
    );
    assert_eq!(verdict(&tenth, 2), (Answer::Stopped { budget: 2 }, None));
}

#[test]
fn accepted_cases_read_back() {
    let sheets = [
        case_1(),
        case_2(),
        case_9(),
        case_10(),
        case_11(),
        case_12(),
        case_14(16),
        twenty_probes(),
        never_both_live(),
        both_may_be_live(),
        stuck_outside(),
        silent_outside(),
    ];
    for sheet in sheets {
        assert_eq!(read(&encode(&sheet)), Ok(sheet));
    }
}

/// The goal that the 2012 paper gives its Example 1: all is known at the end.
#[test]
fn example_2012_with_its_own_goal() {
    let sheet = example_2012(decided(fact(0)).and(decided(fact(1))));
    assert_eq!(
        verdict(&encode(&sheet), BUDGET).0,
        Answer::Valid { count: 7 }
    );
}

fn directory() -> PathBuf {
    PathBuf::from(env!("CARGO_MANIFEST_DIR")).join("../samples")
}

fn file(name: &str) -> String {
    let path = directory().join(name);
    fs::read_to_string(&path).unwrap_or_else(|error| panic!("{}: {error}", path.display()))
}

#[test]
fn sample_files() {
    for (name, bytes, output) in cases() {
        assert_eq!(unhex(&file(&format!("{name}.hex"))), bytes, "case {name}");
        assert_eq!(file(&format!("{name}.out")), output, "case {name}");
    }
}

/// What `samples/stream` writes for these cases.
fn written_stream(names: &[&str]) -> Vec<u8> {
    let output = Command::new(directory().join("stream"))
        .args(names)
        .output()
        .expect("a script");
    assert!(output.status.success(), "{}", output.status);
    output.stdout
}

#[test]
fn sample_stream() {
    let mut cases = cases();
    cases.sort();
    let sheets = |cases: &[(&str, Vec<u8>, &str)]| {
        let sheets = cases.iter().map(|(_, bytes, _)| bytes);
        stream_of(sheets)
    };
    let stream = sheets(&cases);
    assert_eq!(written_stream(&[]), stream);
    let some: Vec<_> = cases.iter().step_by(3).cloned().collect();
    let names: Vec<&str> = some.iter().map(|(name, _, _)| *name).collect();
    assert_eq!(written_stream(&names), sheets(&some));

    let line = |stream| String::from_utf8(figures(stream).line()).expect("ASCII");
    assert_eq!(line(&stream), "7 4 1 14 1000028 2\n");
    assert_eq!(line(&stream), file("stream.out"));
    let cut = &stream[..stream.len() - 1];
    assert_eq!(line(cut), "7 4 0 15 28 2\n");
    assert_eq!(line(cut), file("cut-stream.out"));
}
