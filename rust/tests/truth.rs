//! Truth of formulas and steps of actions, by their tables.

mod common;

use common::{fact, known, new, not_known, plain, stays};
use reference::sheet::{Action, Objective, Sheet};
use reference::states::{excluded, is_state, states, StateSet};
use reference::step::{effect, gather, keep, replies, start_states, step};
use reference::truth::{holds, holds_between, holds_knowing};

fn set(members: &[u8]) -> StateSet {
    members.iter().copied().collect()
}

/// The states of two facts, from 0, in which the formula holds.
fn models(formula: &Objective) -> Vec<u8> {
    (0..4).filter(|&state| holds(formula, state)).collect()
}

#[test]
fn connectives() {
    assert_eq!(models(&Objective::False), []);
    assert_eq!(models(&Objective::True), [0, 1, 2, 3]);
    assert_eq!(models(&fact(0)), [1, 3]);
    assert_eq!(models(&fact(1)), [2, 3]);
    assert_eq!(models(&fact(0).negate()), [0, 2]);
    assert_eq!(models(&fact(0).and(fact(1))), [3]);
    assert_eq!(models(&fact(0).or(fact(1))), [1, 2, 3]);
    assert_eq!(models(&fact(0).iff(fact(1))), [0, 3]);
}

#[test]
fn new_facts_are_those_after() {
    assert!(holds_between(&fact(7), 0x80, 0));
    assert!(!holds_between(&fact(7), 0, 0x80));
    assert!(holds_between(&new(7), 0, 0x80));
    assert!(!holds_between(&new(7), 0x80, 0));
}

#[test]
fn knowledge() {
    let both = set(&[1, 3]);
    assert!(holds_knowing(&known(fact(0)), &both));
    assert!(!holds_knowing(&known(fact(1)), &both));
    assert!(!holds_knowing(&known(fact(1).negate()), &both));
    assert!(holds_knowing(&not_known(fact(1)), &both));
    assert!(!holds_knowing(&not_known(fact(0)), &both));
    let mixed = known(fact(0)).and(known(fact(1)));
    assert!(!holds_knowing(&mixed, &both));
    let either = known(fact(0)).or(known(fact(1)));
    assert!(holds_knowing(&either, &both));
}

#[test]
fn a_change_frees_what_it_does_not_mention() {
    let sheet = Sheet {
        facts: 2,
        ..plain()
    };
    let make = Action::Change(new(0));
    assert_eq!(gather(&sheet, &make, &set(&[0])), set(&[1, 3]));
    let make_only = Action::Change(new(0).and(stays(1)));
    assert_eq!(gather(&sheet, &make_only, &set(&[0])), set(&[1]));
    assert_eq!(gather(&sheet, &make_only, &set(&[0, 2])), set(&[1, 3]));
}

#[test]
fn a_change_leads_to_states_only() {
    let sheet = Sheet {
        facts: 2,
        ..plain()
    };
    let sheet = sheet.constrained(fact(0).and(fact(1)).negate());
    let make = Action::Change(new(0));
    assert_eq!(gather(&sheet, &make, &set(&[0, 2])), set(&[1]));
    let free = Action::Change(Objective::True);
    assert_eq!(gather(&sheet, &free, &set(&[2])), set(&[0, 1, 2]));
}

#[test]
fn a_probe_keeps_states() {
    let sheet = Sheet {
        facts: 2,
        ..plain()
    };
    let probe = Action::Probe(vec![fact(0), fact(1), Objective::True]);
    let all = set(&[0, 1, 2, 3]);
    assert_eq!(gather(&sheet, &probe, &all), all);
    assert_eq!(keep(&probe, 0, &all), set(&[1, 3]));
    assert_eq!(keep(&probe, 1, &all), set(&[2, 3]));
    assert_eq!(keep(&probe, 2, &all), all);
    assert!(keep(&probe, 3, &all).is_empty());
    assert!(keep(&probe, 0, &set(&[2])).is_empty());
}

#[test]
fn steps() {
    let probe = Action::Probe(vec![fact(0), Objective::True]);
    assert!(step(&probe, 0, 1, 1));
    assert!(!step(&probe, 0, 0, 0));
    assert!(step(&probe, 1, 0, 0));
    assert!(!step(&probe, 1, 0, 1));
    assert!(!replies(&probe, 2, 1));
    let change = Action::Change(new(0));
    assert!(step(&change, 0, 0, 1));
    assert!(!step(&change, 1, 0, 1));
    assert!(!effect(&change, 1, 0));
}

#[test]
fn spaces_and_sets() {
    for facts in 1..=8 {
        let sheet = Sheet { facts, ..plain() };
        let last = (1u16 << facts) - 1;
        let expected: Vec<u8> = (0..=last as u8).collect();
        assert_eq!(states(&sheet).collect::<Vec<u8>>(), expected);
        assert_eq!(start_states(&sheet).iter().collect::<Vec<u8>>(), expected);
        for byte in 0..=255 {
            assert_eq!(is_state(&sheet, byte), u16::from(byte) <= last);
        }
    }
    let two = Sheet {
        facts: 2,
        ..plain()
    };
    for (constraint, expected, out) in [
        (Objective::True, &[0, 1, 2, 3][..], &[][..]),
        (Objective::False, &[], &[0, 1, 2, 3]),
        (fact(0).and(fact(1)).negate(), &[0, 1, 2], &[3]),
        (fact(0).or(fact(1)), &[1, 2, 3], &[0]),
        (fact(0).iff(fact(1)), &[0, 3], &[1, 2]),
        (fact(1), &[2, 3], &[0, 1]),
    ] {
        let sheet = two.clone().constrained(constraint);
        assert_eq!(states(&sheet).collect::<Vec<u8>>(), expected);
        assert_eq!(start_states(&sheet).iter().collect::<Vec<u8>>(), expected);
        assert_eq!(excluded(&sheet), out);
        for byte in 0..=255 {
            assert_eq!(is_state(&sheet, byte), expected.contains(&byte));
        }
    }
    let scattered = set(&[255, 0, 64, 63, 127]);
    assert_eq!(scattered.iter().collect::<Vec<u8>>(), [0, 63, 64, 127, 255]);
    assert!(scattered.contains(63) && !scattered.contains(62));
    assert!(set(&[]).is_empty() && !set(&[200]).is_empty());
}
