//! One pass over the possible states when a reply comes in, by the words that ask for
//! it.

mod common;

use std::cell::RefCell;

use common::{fact, plain, sequence};
use reference::encode::encode;
use reference::execute::Execution;
use reference::random::{good, Random, Size};
use reference::refusal::Refusal;
use reference::runner::Record;
use reference::sheet::{Action, Objective, Sheet};
use reference::states::{State, StateSet};
use reference::step::{gather, keep, pass, replies, start_states, Passed};

/// Of so many states in 8 each is in the set by chance; of 0 none is, of 8 all are.
fn random_set(random: &mut Random, density: usize) -> StateSet {
    let chosen = |_: &State| random.chance(density, 8);
    (0..=State::MAX).filter(chosen).collect()
}

/// What the pass tells, with the states in which it evaluated the reply, in order.
fn evaluated(set: &StateSet, is_true: impl Fn(State) -> bool) -> (Passed, Vec<State>) {
    let calls = RefCell::new(Vec::new());
    let passed = pass(set, |state| {
        calls.borrow_mut().push(state);
        is_true(state)
    });
    (passed, calls.into_inner())
}

/// Asserts what is asked of the pass, state by state.
#[track_caller]
fn assert_passed(set: &StateSet, is_true: impl Fn(State) -> bool) -> Passed {
    let (passed, calls) = evaluated(set, &is_true);
    let members: Vec<State> = (0..=State::MAX).filter(|&s| set.contains(s)).collect();
    assert_eq!(calls, members, "evaluated once in each state");
    assert_eq!(passed.evaluations, members.len());
    for state in 0..=State::MAX {
        let kept = set.contains(state) && is_true(state);
        assert_eq!(passed.kept.contains(state), kept, "state {state}");
    }
    assert_eq!(passed.possible, members.into_iter().any(is_true));
    assert_eq!(passed.possible, !passed.kept.is_empty());
    passed
}

/// "for any set of states and any reply"
#[test]
fn any_set_and_any_reply() {
    let mut random = Random::new(91);
    let (mut possible, mut impossible) = (0, 0);
    for density in 0..=8 {
        for truth in 0..=8 {
            for _ in 0..40 {
                let set = random_set(&mut random, density);
                let reply = random_set(&mut random, truth);
                let passed = assert_passed(&set, |state| reply.contains(state));
                match passed.possible {
                    true => possible += 1,
                    false => impossible += 1,
                }
            }
        }
    }
    assert!(possible >= 2000 && impossible >= 500);
}

#[test]
fn single_states() {
    for state in 0..=State::MAX {
        let set = [state].into_iter().collect();
        assert!(assert_passed(&set, |_| true).possible);
        assert!(!assert_passed(&set, |_| false).possible);
        assert!(!assert_passed(&set, |other| other != state).possible);
        let all = (0..=State::MAX).collect();
        let passed = assert_passed(&all, |other| other == state);
        assert_eq!((passed.kept, passed.evaluations), (set, 256));
    }
}

#[test]
fn no_state() {
    let nothing = Passed {
        kept: StateSet::default(),
        possible: false,
        evaluations: 0,
    };
    for answer in [false, true] {
        let (passed, calls) = evaluated(&StateSet::default(), |_| answer);
        assert_eq!((passed, calls), (nothing, vec![]));
    }
}

/// A probe of two facts: a reply that some states deny, one that all do, one that none
/// does, and one that it hasn't.
#[test]
fn replies_of_a_probe() {
    let both = fact(0).and(fact(1));
    let probe = Action::Probe(vec![both, Objective::False, Objective::True]);
    let set = |members: &[State]| members.iter().copied().collect::<StateSet>();
    let of = |reply, states: &[State]| pass(&set(states), |s| replies(&probe, reply, s));
    let passed = |kept: &[State], possible, evaluations| Passed {
        kept: set(kept),
        possible,
        evaluations,
    };
    assert_eq!(of(0, &[0, 1, 2, 3]), passed(&[3], true, 4));
    assert_eq!(of(0, &[0, 1, 2]), passed(&[], false, 3));
    assert_eq!(of(1, &[0, 1, 2, 3]), passed(&[], false, 4));
    assert_eq!(of(2, &[1, 3]), passed(&[1, 3], true, 2));
    assert_eq!(of(3, &[1, 3]), passed(&[], false, 2));
    let change = Action::Change(Objective::True);
    assert!(pass(&set(&[7]), |s| replies(&change, 0, s)).possible);
    assert!(!pass(&set(&[7]), |s| replies(&change, 1, s)).possible);
}

/// What was met along the runs.
#[derive(Debug, Default)]
struct Met {
    possible: usize,
    impossible: usize,
    /// Possible though a state that was possible denies the reply.
    denied: usize,
    no_such_reply: usize,
    most: usize,
}

/// Along a random run: "Report" accepts a reply exactly if the pass over the states
/// possible after the effect says that it is possible, for every reply that there is.
fn assert_reports(random: &mut Random, sheet: &Sheet, met: &mut Met) {
    let mut execution = Execution::new(sheet);
    let mut record = Record::load(&encode(sheet)).0;
    let mut possible = start_states(sheet);
    while let Some(number) = execution.next() {
        let action = &sheet.actions[usize::from(number)];
        let gathered = gather(sheet, action, &possible);
        met.most = met.most.max(gathered.iter().count());
        let mut accepted = Vec::new();
        for reply in 0..=action.reply_count() {
            let passed = assert_passed(&gathered, |state| replies(action, reply, state));
            assert_eq!(passed.kept, keep(action, reply, &gathered));
            let answer = record.clone().report(reply).1;
            if reply == action.reply_count() {
                assert_eq!(answer, Err(Refusal::NoSuchReply));
                assert!(!passed.possible);
                met.no_such_reply += 1;
            } else if passed.possible {
                assert_eq!(answer, Ok(()));
                met.possible += 1;
                met.denied += usize::from(passed.kept != gathered);
                accepted.push((reply, passed.kept));
            } else {
                assert_eq!(answer, Err(Refusal::Impossible));
                met.impossible += 1;
            }
        }
        let (reply, kept) = *random.pick(&accepted);
        execution.take(reply).unwrap();
        record = record.report(reply).0;
        possible = kept;
    }
}

#[test]
fn reports_along_runs() {
    let mut random = Random::new(92);
    let mut met = Met::default();
    for (count, size) in [(1500, Size::SMALL), (150, Size::MEDIUM), (1, Size::LARGE)] {
        for _ in 0..count {
            let sheet = good(&mut random, &size);
            assert_reports(&mut random, &sheet, &mut met);
        }
    }
    // All 256 states are possible.
    let sheet = Sheet {
        facts: 8,
        actions: vec![Action::Probe(vec![fact(7), Objective::True])],
        program: sequence(&[0, 0]),
        ..plain()
    };
    assert_reports(&mut random, &sheet, &mut met);
    assert!(met.possible >= 3000, "{met:?}");
    assert!(met.impossible >= 800, "{met:?}");
    assert!(met.denied >= 800, "{met:?}");
    assert!(met.no_such_reply >= 3000, "{met:?}");
    assert_eq!(met.most, 256, "{met:?}");
}
