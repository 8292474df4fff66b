//! Sheets on which a wrong reading of the definitions would be seen.

mod common;

use common::{decided, fact, known, new, not_known, plain, sequence, stays, test, verdict};
use reference::check::{check, Checked};
use reference::encode::encode;
use reference::refusal::Refusal;
use reference::runner::Record;
use reference::runs::Listing;
use reference::sheet::{Action, Objective, Program, Sheet};
use reference::verify::Answer;

const BUDGET: u32 = 1_000_000;

/// The answer on which both verifiers agree.
#[track_caller]
fn agreed(sheet: &Sheet, budget: u32) -> (Answer, Option<Vec<u8>>) {
    let answer = verdict(&encode(sheet), budget);
    let listing = Listing::new(sheet, 100_000).expect("few runs");
    assert_eq!(answer, listing.answer(budget));
    answer
}

#[track_caller]
fn assert_valid(sheet: &Sheet, count: u32) {
    assert_eq!(agreed(sheet, BUDGET), (Answer::Valid { count }, None));
}

#[track_caller]
fn assert_invalid(sheet: &Sheet, count: u32, trace: &[u8]) {
    let length = trace.len() / 2;
    let expected = (Answer::Invalid { count, length }, Some(trace.to_vec()));
    assert_eq!(agreed(sheet, BUDGET), expected);
    assert_eq!(check(&encode(sheet), trace), Checked::Yes);
}

#[test]
fn else_is_taken_when_the_condition_is_not_known() {
    // Nothing is known, so the else-program makes the fact true.
    let sheet = Sheet {
        actions: vec![Action::Change(new(0))],
        goal: known(fact(0)),
        program: Program::branch(known(fact(0)), Program::End, sequence(&[0]), Program::End),
        ..plain()
    };
    assert_valid(&sheet, 1);
}

#[test]
fn a_fact_not_mentioned_as_new_is_free() {
    let sheet = |theory| Sheet {
        facts: 2,
        actions: vec![Action::Change(theory)],
        start: fact(1),
        goal: known(fact(1)),
        program: sequence(&[0]),
        ..plain()
    };
    assert_invalid(&sheet(new(0)), 1, &[2, 0, 1]);
    assert_valid(&sheet(new(0).and(stays(1))), 1);
    // A fact that is only mentioned as it was before is free, too.
    let before_only = new(0).and(fact(1).or(fact(1).negate()));
    assert_invalid(&sheet(before_only), 1, &[2, 0, 1]);
}

#[test]
fn known_or_is_not_split() {
    let sheet = Sheet {
        facts: 2,
        start: fact(0).or(fact(1)),
        goal: known(fact(0).or(fact(1))),
        ..plain()
    };
    assert_valid(&sheet, 0);
    let split = Sheet {
        goal: known(fact(0)).or(known(fact(1))),
        ..sheet
    };
    assert_invalid(&split, 0, &[1]);
}

#[test]
fn the_goal_is_about_knowledge() {
    // In the shown run the fact is true at the end, yet it is not known.
    let sheet = Sheet {
        actions: vec![Action::Probe(vec![Objective::True])],
        goal: known(fact(0)),
        program: sequence(&[0]),
        ..plain()
    };
    assert_invalid(&sheet, 1, &[0, 0, 0]);
    assert_eq!(check(&encode(&sheet), &[1, 0, 1]), Checked::Yes);
    let not = Sheet {
        goal: not_known(fact(0)),
        ..sheet
    };
    assert_valid(&not, 1);
}

#[test]
fn a_reply_is_accepted_if_one_possible_state_allows_it() {
    let sheet = Sheet {
        actions: vec![test(fact(0))],
        program: sequence(&[0]),
        ..plain()
    };
    for reply in 0..2 {
        let (record, _) = Record::load(&encode(&sheet));
        assert_eq!(record.report(reply).1, Ok(()));
    }
}

#[test]
fn overlapping_replies_exclude_nothing() {
    // Reply 1 is true in both states, also in the one where reply 0 is.
    let sheet = Sheet {
        actions: vec![Action::Probe(vec![fact(0), Objective::True])],
        goal: decided(fact(0)),
        program: sequence(&[0]),
        ..plain()
    };
    assert_invalid(&sheet, 2, &[0, 1, 0]);
    assert_eq!(check(&encode(&sheet), &[1, 1, 1]), Checked::Yes);
    assert_eq!(check(&encode(&sheet), &[1, 0, 1]), Checked::No);
}

#[test]
fn histories_are_counted_not_runs() {
    // Each change has four runs from each state, but one history.
    let sheet = Sheet {
        facts: 2,
        actions: vec![Action::Change(Objective::True)],
        program: sequence(&[0, 0, 0]),
        ..plain()
    };
    assert_valid(&sheet, 3);
}

#[test]
fn impossible_replies_are_not_counted() {
    let sheet = Sheet {
        actions: vec![test(fact(0))],
        start: fact(0),
        program: sequence(&[0, 0]),
        ..plain()
    };
    assert_valid(&sheet, 2);
}

#[test]
fn the_rest_follows_either_side() {
    let change = |theory| Action::Change(theory);
    let sheet = |start| Sheet {
        facts: 2,
        actions: vec![
            change(new(0).and(stays(1))),
            change(new(0).negate().and(stays(1))),
            change(new(1).and(stays(0))),
        ],
        start,
        goal: known(fact(0)).and(known(fact(1))),
        program: Program::branch(
            known(fact(0)),
            sequence(&[1, 0]),
            sequence(&[0]),
            sequence(&[2]),
        ),
        ..plain()
    };
    assert_valid(&sheet(fact(0)), 3);
    assert_valid(&sheet(fact(0).negate()), 2);
    assert_valid(&sheet(Objective::True), 2);
}

#[test]
fn a_branch_is_decided_once() {
    // The then-program makes the condition false; the rest is still its rest.
    let sheet = Sheet {
        actions: vec![Action::Change(new(0).negate()), Action::Change(new(0))],
        start: fact(0),
        goal: known(fact(0).negate()),
        program: Program::branch(known(fact(0)), sequence(&[0]), sequence(&[1]), Program::End),
        ..plain()
    };
    assert_valid(&sheet, 1);
}

#[test]
fn the_least_state_list_is_not_found_greedily() {
    // State 0 may stay or go to 1; only from 1 is the second reply possible.
    let sheet = Sheet {
        actions: vec![
            Action::Change(fact(0).negate().or(new(0))),
            Action::Probe(vec![fact(0), fact(0).negate()]),
        ],
        goal: known(fact(0).negate()),
        program: sequence(&[0, 1]),
        ..plain()
    };
    // The least next state of 0 is 0, but reply 0 needs 1.
    assert_invalid(&sheet, 2, &[0, 0, 1, 8, 1]);
    // The least start state is 0, but it leads nowhere.
    let kept = Sheet {
        actions: vec![Action::Change(stays(0)), test(fact(0))],
        ..sheet
    };
    assert_invalid(&kept, 2, &[1, 0, 1, 8, 1]);
}

#[test]
fn replies_come_before_states_in_the_order() {
    // Start state 0 fails with reply 1, start state 1 with reply 0.
    let sheet = Sheet {
        actions: vec![test(fact(0))],
        goal: not_known(Objective::True),
        program: sequence(&[0]),
        ..plain()
    };
    assert_invalid(&sheet, 1, &[1, 0, 1]);
}

/// The sheet with two facts that are never both true.
fn never_both(sheet: Sheet) -> Sheet {
    let sheet = Sheet { facts: 2, ..sheet };
    sheet.constrained(fact(0).and(fact(1)).negate())
}

/// The same with the constraint true.
fn perhaps_both(sheet: Sheet) -> Sheet {
    never_both(sheet).constrained(Objective::True)
}

#[test]
fn excluded_states_are_not_possible_at_the_start() {
    let sheet = || Sheet {
        start: fact(0),
        goal: known(fact(1).negate()),
        ..plain()
    };
    assert_valid(&never_both(sheet()), 0);
    assert_invalid(&perhaps_both(sheet()), 0, &[1]);
    let open = || Sheet {
        goal: known(fact(0)),
        ..plain()
    };
    // The fact is not known, so every state is the start of a failing run; 3 is none.
    let (with, without) = (never_both(open()), perhaps_both(open()));
    for state in 0..4 {
        let expected = match state {
            3 => Checked::No,
            _ => Checked::Yes,
        };
        assert_eq!(check(&encode(&with), &[state]), expected);
        assert_eq!(check(&encode(&without), &[state]), Checked::Yes);
    }
}

#[test]
fn a_change_does_not_lead_to_excluded_states() {
    // From state 2, where fact 1 alone holds, fact 0 becomes true: fact 1 no longer is.
    let sheet = || Sheet {
        actions: vec![Action::Change(new(0))],
        start: fact(1).and(fact(0).negate()),
        goal: known(fact(1).negate()),
        program: sequence(&[0]),
        ..plain()
    };
    assert_valid(&never_both(sheet()), 1);
    assert_invalid(&perhaps_both(sheet()), 1, &[2, 0, 1]);
    let failing = never_both(Sheet {
        goal: not_known(fact(0)),
        ..sheet()
    });
    assert_invalid(&failing, 1, &[2, 0, 1]);
    assert_eq!(check(&encode(&failing), &[2, 0, 3]), Checked::No);
    assert_eq!(check(&encode(&failing), &[3, 0, 1]), Checked::No);
}

#[test]
fn the_least_trace_has_no_excluded_state() {
    // Fact 0 or fact 1; state 0 would be the least at the start and after the change.
    let sheet = Sheet {
        facts: 2,
        actions: vec![Action::Change(Objective::True), test(fact(0))],
        goal: known(fact(0)),
        program: sequence(&[0, 1]),
        ..plain()
    };
    let some = sheet.clone().constrained(fact(0).or(fact(1)));
    assert_invalid(&some, 3, &[1, 0, 2, 9, 2]);
    assert_invalid(&sheet, 3, &[0, 0, 0, 9, 0]);
}

#[test]
fn replies_true_only_in_excluded_states_are_impossible() {
    let both = fact(0).and(fact(1));
    let sheet = || Sheet {
        actions: vec![Action::Probe(vec![both.clone(), Objective::True])],
        program: sequence(&[0, 0]),
        ..plain()
    };
    assert_valid(&never_both(sheet()), 2);
    assert_valid(&perhaps_both(sheet()), 6);
    let (record, _) = Record::load(&encode(&never_both(sheet())));
    assert_eq!(record.report(0).1, Err(Refusal::Impossible));
    let (record, _) = Record::load(&encode(&perhaps_both(sheet())));
    assert_eq!(record.report(0).1, Ok(()));
}

#[test]
fn what_the_constraint_says_is_known() {
    // The condition holds by the constraint alone, so the then-program is taken.
    let sheet = || Sheet {
        actions: vec![Action::Change(new(0).and(new(1).negate()))],
        goal: known(fact(0)),
        program: Program::branch(
            known(fact(0).and(fact(1)).negate()),
            sequence(&[0]),
            Program::End,
            Program::End,
        ),
        ..plain()
    };
    assert_valid(&never_both(sheet()), 1);
    assert_invalid(&perhaps_both(sheet()), 0, &[0]);
}

#[test]
fn budgets_without_actions() {
    assert_eq!(agreed(&plain(), 0).0, Answer::Valid { count: 0 });
    let failing = Sheet {
        start: fact(0),
        goal: known(fact(0).negate()),
        ..plain()
    };
    let (count, length) = (0, 0);
    let expected = (Answer::Invalid { count, length }, Some(vec![1]));
    assert_eq!(agreed(&failing, 0), expected);
    // A branch that leads to nothing is no action either.
    let branch = Sheet {
        program: Program::branch(known(fact(0)), Program::End, Program::End, Program::End),
        ..failing
    };
    assert_eq!(agreed(&branch, 0), expected);
    let one = Sheet {
        actions: vec![Action::Change(new(0))],
        program: sequence(&[0]),
        ..plain()
    };
    assert_eq!(agreed(&one, 0).0, Answer::Stopped { budget: 0 });
    assert_eq!(agreed(&one, 1).0, Answer::Valid { count: 1 });
}

#[test]
fn deep_nesting_of_branches() {
    // 63 branches, each in the else-program of the one before, and an action in
    // the innermost; then the rests do nothing.
    let program = (0..63).fold(sequence(&[0]), |inner, _| {
        Program::branch(known(fact(0)), Program::End, inner, Program::End)
    });
    let sheet = Sheet {
        actions: vec![Action::Change(new(0))],
        goal: known(fact(0)),
        program,
        ..plain()
    };
    assert_valid(&sheet, 1);
}
