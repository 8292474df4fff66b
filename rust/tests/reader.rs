//! The reader: every refusal, and which of two faults decides.

mod common;

use common::{fact, known, new, not_known, nots, plain, sequence, stays, unbits, wide};
use reference::encode::encode;
use reference::random::{damaged, good, Random, Size};
use reference::read::read;
use reference::refusal::Refusal;
use reference::sheet::{Action, Epistemic, Objective, Program, Sheet};

/// Edition 1, one fact, no action.
const HEAD: &str = "0001 0001 00000";
/// Edition 1, one fact, one action.
const HEAD_ONE: &str = "0001 0001 00001";
/// Edition 2, one fact; the constraint follows.
const HEAD_TWO: &str = "0010 0001";
/// Start true, goal known true.
const TRUE_GOAL: &str = "001 00 001";

fn refused(bytes: &[u8]) -> Option<Refusal> {
    read(bytes).err()
}

#[track_caller]
fn assert_bits(fields: &[&str], expected: Refusal) {
    assert_eq!(refused(&unbits(&fields.concat())), Some(expected));
}

/// The fields must fill their bytes, so that the input ends right after them.
#[track_caller]
fn assert_cut(fields: &[&str], expected: Refusal) {
    let text = fields.concat();
    let bits = text.chars().filter(|digit| !digit.is_whitespace()).count();
    assert_eq!(bits % 8, 0, "{bits} bits");
    assert_bits(fields, expected);
}

#[track_caller]
fn assert_sheet(sheet: &Sheet, expected: Option<Refusal>) {
    assert_eq!(refused(&encode(sheet)), expected);
}

fn with_start(start: Objective) -> Sheet {
    Sheet { start, ..plain() }
}

fn with_goal(goal: Epistemic) -> Sheet {
    Sheet { goal, ..plain() }
}

fn with_actions(actions: Vec<Action>) -> Sheet {
    Sheet { actions, ..plain() }
}

fn with_program(program: Program) -> Sheet {
    Sheet {
        actions: vec![Action::Change(stays(0))],
        program,
        ..plain()
    }
}

/// A branch with empty sides.
fn fork(rest: Program) -> Program {
    let condition = known(Objective::True);
    Program::branch(condition, Program::End, Program::End, rest)
}

fn times(count: usize, node: fn(Program) -> Program, last: Program) -> Program {
    (0..count).fold(last, |rest, _| node(rest))
}

fn act(rest: Program) -> Program {
    Program::act(0, rest)
}

#[test]
fn shortest_sheet() {
    assert_eq!(read(&unbits("000100010000000100001000")), Ok(plain()));
    assert_eq!(encode(&plain()), [0x11, 0x01, 0x08]);
}

#[test]
fn generated_sheets_read_back() {
    let mut random = Random::new(1);
    for round in 0..600 {
        let size = if round % 20 == 0 {
            Size::LARGE
        } else {
            Size::SMALL
        };
        let sheet = good(&mut random, &size);
        assert_eq!(read(&encode(&sheet)), Ok(sheet));
    }
}

/// A sheet cut at any place has lost part of a field, or a whole one.
#[test]
fn prefixes_are_cut_short() {
    let mut random = Random::new(2);
    for _ in 0..300 {
        let bytes = encode(&good(&mut random, &Size::SMALL));
        for length in 0..bytes.len() {
            assert_eq!(refused(&bytes[..length]), Some(Refusal::CutShort));
        }
    }
}

#[test]
fn longest_sheet() {
    let sheet = with_start(wide(1362));
    let mut bytes = encode(&sheet);
    assert_eq!(bytes.len(), 1024);
    assert_eq!(read(&bytes), Ok(sheet));
    bytes.push(0);
    assert_eq!(refused(&bytes), Some(Refusal::TooLong));
    assert_sheet(&with_start(wide(1364)), Some(Refusal::TooLong));
}

#[test]
fn too_long_comes_first() {
    assert_eq!(refused(&[0x41; 1025]), Some(Refusal::TooLong));
    assert_eq!(refused(&[0x41; 1024]), Some(Refusal::Edition));
    assert_eq!(refused(&[0; 5000]), Some(Refusal::TooLong));
}

#[test]
fn edition_then_facts() {
    for byte in 0..=255u8 {
        let expected = match (byte >> 4, byte & 15) {
            (1 | 2, 1..=8) => Refusal::CutShort,
            (1 | 2, _) => Refusal::Facts,
            _ => Refusal::Edition,
        };
        assert_eq!(refused(&[byte]), Some(expected), "{byte:02x}");
    }
}

#[test]
fn number_of_replies() {
    for count in 0..16u8 {
        let replies = vec![Objective::True; usize::from(count)];
        let expected = match count {
            1..=8 => None,
            _ => Some(Refusal::Replies),
        };
        assert_sheet(&with_actions(vec![Action::Probe(replies)]), expected);
    }
    // The number decides before the replies, here cut or faulty, are looked at.
    assert_bits(&[HEAD_ONE, "1 0000"], Refusal::Replies);
    assert_bits(&[HEAD_ONE, "1 1001"], Refusal::Replies);
    assert_bits(&[HEAD_ONE, "1 1111 011 000"], Refusal::Replies);
    assert_bits(&[HEAD_ONE, "1 1000"], Refusal::CutShort);
}

#[test]
fn fact_numbers() {
    for facts in 1..=8 {
        for number in 0..8 {
            let expected = (number >= facts).then_some(Refusal::FactNumber);
            let sheet = |start, theory| Sheet {
                facts,
                start,
                actions: vec![Action::Change(theory)],
                ..plain()
            };
            let either = fact(number).or(fact(0).negate());
            assert_sheet(&sheet(either, Objective::True), expected);
            assert_sheet(&sheet(Objective::True, new(number)), expected);
        }
    }
    let useless = Objective::True.or(Objective::False.and(fact(7)));
    assert_sheet(&with_start(useless.clone()), Some(Refusal::FactNumber));
    assert_sheet(
        &with_goal(known(useless.clone())),
        Some(Refusal::FactNumber),
    );
    let probe = Action::Probe(vec![useless]);
    assert_sheet(&with_actions(vec![probe]), Some(Refusal::FactNumber));
}

#[test]
fn new_facts_stand_in_theories_only() {
    let expected = Some(Refusal::NewFact);
    assert_sheet(&with_start(new(0)), expected);
    assert_sheet(&with_start(Objective::True.or(new(0))), expected);
    assert_sheet(&with_goal(known(new(0))), expected);
    assert_sheet(&with_goal(not_known(nots(3, new(0)))), expected);
    assert_sheet(&with_actions(vec![Action::Probe(vec![new(0)])]), expected);
    let fork = Program::branch(known(new(0)), Program::End, Program::End, Program::End);
    assert_sheet(&with_program(fork), expected);
    assert_sheet(&with_actions(vec![Action::Change(new(0))]), None);
    assert_sheet(&with_actions(vec![Action::Change(nots(2, new(0)))]), None);
}

#[test]
fn new_fact_before_its_number() {
    assert_sheet(&with_start(new(7)), Some(Refusal::NewFact));
    // The input ends after the tag.
    assert_cut(&[HEAD, "011"], Refusal::NewFact);
    assert_cut(&[HEAD, "010"], Refusal::CutShort);
}

#[test]
fn depth_of_each_formula() {
    let too_deep = Some(Refusal::TooDeep);
    let truth = |negations: usize| match negations % 2 {
        0 => nots(negations, Objective::True),
        _ => nots(negations, Objective::False),
    };
    assert_sheet(&with_start(truth(15)), None);
    assert_sheet(&with_start(truth(16)), too_deep);
    let theory = |negations| with_actions(vec![Action::Change(truth(negations))]);
    assert_sheet(&theory(15), None);
    assert_sheet(&theory(16), too_deep);
    let reply = |negations| {
        let formulas = vec![Objective::True, truth(negations)];
        with_actions(vec![Action::Probe(formulas)])
    };
    assert_sheet(&reply(15), None);
    assert_sheet(&reply(16), too_deep);
    // Known and not known are nodes, so one level less is left under them.
    for atom in [known, not_known] {
        assert_sheet(&with_goal(atom(truth(14))), None);
        assert_sheet(&with_goal(atom(truth(15))), too_deep);
        assert_sheet(
            &with_goal(known(Objective::True).and(atom(truth(13)))),
            None,
        );
        assert_sheet(
            &with_goal(atom(truth(14)).or(known(Objective::True))),
            too_deep,
        );
        let condition = |negations| {
            let condition = atom(truth(negations));
            with_program(Program::branch(
                condition,
                Program::End,
                Program::End,
                Program::End,
            ))
        };
        assert_sheet(&condition(14), None);
        assert_sheet(&condition(15), too_deep);
    }
}

#[test]
fn depth_of_epistemic_formulas() {
    // A chain of conjunctions whose last atom's formula lies at depth 2 + count.
    let chain = |count| {
        let atom = || known(Objective::True);
        with_goal((0..count).fold(atom(), |right, _| atom().and(right)))
    };
    assert_sheet(&chain(14), None);
    assert_sheet(&chain(15), Some(Refusal::TooDeep));
    assert_sheet(&chain(16), Some(Refusal::TooDeep));
}

#[test]
fn each_kind_of_node_has_a_depth() {
    let leaf = || Objective::True;
    for join in [Objective::and, Objective::or, Objective::iff] {
        let left = |count| (0..count).fold(leaf(), |part, _| join(part, leaf()));
        let right = |count| (0..count).fold(leaf(), |part, _| join(leaf(), part));
        for (count, expected) in [(15, None), (16, Some(Refusal::TooDeep))] {
            assert_sheet(&with_start(left(count)), expected);
            assert_sheet(&with_start(right(count)), expected);
        }
    }
}

#[test]
fn too_deep_before_the_tag() {
    // Depth 17 begins where the input ends: fourteen negations, a conjunction
    // with left part true, one more negation.
    let deep = ["100".repeat(14), "101 001 100".into()].concat();
    assert_cut(&[HEAD, &deep], Refusal::TooDeep);
    // One level less: the tag that is missing would be allowed.
    let allowed = ["100".repeat(13), "101 001 101 001".into()].concat();
    assert_cut(&[HEAD, &allowed], Refusal::CutShort);
    // A new fact at depth 17.
    assert_bits(&[HEAD, &"100".repeat(16), "011"], Refusal::TooDeep);
    // An epistemic formula at depth 17, its tag cut: 13 + 3 + 16 * 2 bits.
    assert_cut(&[HEAD, "001", &"10".repeat(16)], Refusal::TooDeep);
    assert_cut(&[HEAD, "001", &"10".repeat(12)], Refusal::CutShort);
}

#[test]
fn left_part_before_right_part() {
    let deep = || nots(16, Objective::True);
    let left = with_start(fact(7).and(deep()));
    assert_sheet(&left, Some(Refusal::FactNumber));
    let right = with_start(deep().and(fact(7)));
    assert_sheet(&right, Some(Refusal::TooDeep));
}

/// The plain sheet with a constraint.
fn with_constraint(constraint: Objective) -> Sheet {
    plain().constrained(constraint)
}

#[test]
fn the_constraint_stands_before_the_number_of_actions() {
    let bits = [HEAD_TWO, "100 010 000", "00000", TRUE_GOAL, "00"].concat();
    let sheet = with_constraint(fact(0).negate());
    assert_eq!(encode(&sheet), unbits(&bits));
    assert_eq!(read(&unbits(&bits)), Ok(sheet));
    // Only edition 2 has one.
    for edition in (0..16).filter(|&edition| edition != 2) {
        let with = |constraint| Sheet {
            edition,
            constraint,
            ..plain()
        };
        let bytes = encode(&with(Objective::False));
        assert_eq!(bytes, [16 * edition + 1, 0x01, 0x08]);
        let expected = match edition {
            1 => Ok(with(Objective::True)),
            _ => Err(Refusal::Edition),
        };
        assert_eq!(read(&bytes), expected);
    }
}

#[test]
fn faults_in_the_constraint() {
    for facts in 1..=8 {
        for number in 0..8 {
            let sheet = Sheet { facts, ..plain() };
            let constraint = fact(number).or(Objective::True);
            let expected = (number >= facts).then_some(Refusal::FactNumber);
            assert_sheet(&sheet.clone().constrained(constraint), expected);
            let constraint = Objective::True.or(new(number));
            assert_sheet(&sheet.constrained(constraint), Some(Refusal::NewFact));
        }
    }
    // Depth 17, with a fault at its end.
    for leaf in [Objective::True, new(0), fact(7)] {
        let sheet = with_constraint(nots(16, leaf));
        assert_sheet(&sheet, Some(Refusal::TooDeep));
    }
    assert_sheet(&with_constraint(nots(15, Objective::False)), None);
    assert_sheet(&with_constraint(nots(14, Objective::True)), None);
    assert_sheet(&with_constraint(nots(15, new(0))), Some(Refusal::NewFact));
    let absent = with_constraint(nots(15, fact(1)));
    assert_sheet(&absent, Some(Refusal::FactNumber));
}

#[test]
fn the_constraint_is_cut() {
    assert_cut(&[HEAD_TWO], Refusal::CutShort);
    // A tag is cut; and where a fact's number begins, and a new fact's.
    assert_cut(&[HEAD_TWO, "100 100 10"], Refusal::CutShort);
    let nots = |count: usize| "100".repeat(count);
    assert_cut(&[HEAD_TWO, &nots(7), "010"], Refusal::CutShort);
    assert_cut(&[HEAD_TWO, &nots(7), "011"], Refusal::NewFact);
    // The input ends after 16 levels, and after 8.
    assert_cut(&[HEAD_TWO, &nots(16)], Refusal::TooDeep);
    assert_cut(&[HEAD_TWO, &nots(8)], Refusal::CutShort);
    // The constraint is whole, and the number of actions is cut.
    assert_cut(&[HEAD_TWO, "001 00000"], Refusal::CutShort);
    assert_cut(&[HEAD_TWO, "100 001 00"], Refusal::CutShort);
}

#[test]
fn the_constraint_in_reading_order() {
    // The number of facts before it, the replies, the start formula and the rest behind.
    assert_bits(&["0010 0000 011"], Refusal::Facts);
    assert_bits(&["0010 1001 011"], Refusal::Facts);
    assert_bits(&["0011 0001 011"], Refusal::Edition);
    let faulty = Sheet {
        actions: vec![Action::Probe(vec![])],
        start: new(0),
        program: sequence(&[31]),
        ..plain()
    };
    let deep = || nots(16, Objective::True);
    for (constraint, expected) in [
        (new(0), Refusal::NewFact),
        (fact(1), Refusal::FactNumber),
        (deep(), Refusal::TooDeep),
        (fact(7).and(deep()), Refusal::FactNumber),
        (deep().and(fact(7)), Refusal::TooDeep),
        (Objective::False, Refusal::Replies),
    ] {
        assert_sheet(&faulty.clone().constrained(constraint), Some(expected));
    }
}

#[test]
fn longest_constraint() {
    let sheet = with_constraint(wide(1362));
    let bytes = encode(&sheet);
    assert_eq!(bytes.len(), 1024);
    assert_eq!(read(&bytes), Ok(sheet));
    assert_sheet(&with_constraint(wide(1363)), Some(Refusal::TooLong));
}

#[test]
fn action_numbers() {
    let none = Sheet {
        program: sequence(&[0]),
        ..plain()
    };
    assert_sheet(&none, Some(Refusal::ActionNumber));
    for actions in [1, 2, 31] {
        for number in 0..32u8 {
            let sheet = Sheet {
                actions: vec![Action::Change(stays(0)); actions],
                program: sequence(&[0, number]),
                ..plain()
            };
            let expected = (usize::from(number) >= actions).then_some(Refusal::ActionNumber);
            assert_sheet(&sheet, expected);
        }
    }
    // 13 + 8 + 2 + 1 bits: the number is cut, though it is already too large.
    assert_cut(&[HEAD, TRUE_GOAL, "01 1"], Refusal::CutShort);
}

#[test]
fn loops() {
    assert_bits(&[HEAD, TRUE_GOAL, "11"], Refusal::Loop);
    // The input ends with the tag.
    assert_cut(&[HEAD, "001 00 100 100 100 001", "11"], Refusal::Loop);
    let condition = "00 001";
    assert_bits(&[HEAD, TRUE_GOAL, "10", condition, "11"], Refusal::Loop);
    assert_bits(&[HEAD, TRUE_GOAL, "10", condition, "00 11"], Refusal::Loop);
    assert_bits(
        &[HEAD, TRUE_GOAL, "10", condition, "00 00 11"],
        Refusal::Loop,
    );
}

#[test]
fn node_limits() {
    let too_many = Some(Refusal::TooManyNodes);
    assert_sheet(&with_program(times(64, act, Program::End)), None);
    assert_sheet(&with_program(times(65, act, Program::End)), too_many);
    assert_sheet(&with_program(times(63, fork, Program::End)), None);
    assert_sheet(&with_program(times(64, fork, Program::End)), too_many);
    let both = times(63, fork, times(64, act, Program::End));
    assert_sheet(&with_program(both), None);
}

#[test]
fn node_limits_reach_over_the_whole_text() {
    let condition = || known(Objective::True);
    let split = |then, otherwise, rest| {
        let acts = |count| times(count, act, Program::End);
        Program::branch(condition(), acts(then), acts(otherwise), acts(rest))
    };
    assert_sheet(&with_program(split(30, 30, 4)), None);
    let too_many = Some(Refusal::TooManyNodes);
    assert_sheet(&with_program(split(30, 30, 5)), too_many);
    assert_sheet(&with_program(split(0, 65, 0)), too_many);
    let nested = |count| {
        (0..count).fold(Program::End, |inner, _| {
            Program::branch(condition(), inner, Program::End, Program::End)
        })
    };
    assert_sheet(&with_program(nested(63)), None);
    assert_sheet(&with_program(nested(64)), too_many);
}

#[test]
fn too_many_nodes_when_the_tag_is_known() {
    let change = "0 111 011 000 010 000";
    let head = [HEAD_ONE, change, TRUE_GOAL].concat();
    let acts = "01 00000".repeat(64);
    // The number of the 65th action is cut, or too large.
    assert_bits(&[&head, &acts, "01"], Refusal::TooManyNodes);
    assert_bits(&[&head, &acts, "01 11111"], Refusal::TooManyNodes);
    assert_bits(&[&head, &acts, "11"], Refusal::Loop);
    assert_bits(
        &[&head, &"01 00000".repeat(63), "01 11111"],
        Refusal::ActionNumber,
    );
    // The condition of the 64th branch is cut, or has a new fact.
    let forks = "10 00 001 00 00".repeat(63);
    assert_bits(&[&head, &forks, "10"], Refusal::TooManyNodes);
    assert_bits(&[&head, &forks, "10 00 011 000"], Refusal::TooManyNodes);
    assert_bits(
        &[&head, &forks, "10 00 001 00 00 00"],
        Refusal::TooManyNodes,
    );
    // The tag read first decides.
    assert_bits(
        &[&head, &forks, &acts, "01 00000 10"],
        Refusal::TooManyNodes,
    );
    assert_bits(&[&head, &forks, &acts, "11 01"], Refusal::Loop);
}

#[test]
fn padding() {
    let bytes = encode(&plain());
    let good = [HEAD, TRUE_GOAL, "00"].concat();
    assert_eq!(read(&unbits(&good)), Ok(plain()));
    assert_bits(&[&good, "1"], Refusal::Padding);
    for spare in 0..=255 {
        let longer = [&bytes[..], &[spare]].concat();
        assert_eq!(refused(&longer), Some(Refusal::Padding));
    }
    let many = [&bytes[..], &[0; 1021]].concat();
    assert_eq!(refused(&many), Some(Refusal::Padding));

    // Every padding bit counts. Each leaf added to the start formula has nine
    // bits, which moves the end of the fields through all places of a byte.
    let mut widths = std::collections::BTreeSet::new();
    for leaves in 1..=8 {
        let start = (1..leaves).fold(fact(0), |formula, _| formula.or(fact(0)));
        let sheet = with_start(start);
        let bytes = encode(&sheet);
        let width = 8 * bytes.len() - (13 + 6 + 9 * (leaves - 1) + 5 + 2);
        assert!(width < 8);
        widths.insert(width);
        assert_eq!(read(&bytes), Ok(sheet));
        let spare = [&bytes[..], &[0]].concat();
        assert_eq!(refused(&spare), Some(Refusal::Padding));
        for bit in 0..width {
            let mut spoilt = bytes.clone();
            *spoilt.last_mut().expect("a last byte") |= 1 << bit;
            assert_eq!(refused(&spoilt), Some(Refusal::Padding));
        }
    }
    assert_eq!(widths.len(), 8);
}

/// A probe with no reply in state 0.
fn mute() -> Action {
    Action::Probe(vec![fact(0)])
}

/// A change with no next state from state 0.
fn stuck() -> Action {
    Action::Change(fact(0))
}

#[test]
fn tests_on_states() {
    assert_sheet(&with_start(Objective::False), Some(Refusal::NoStartState));
    let contradiction = fact(0).and(fact(0).negate());
    assert_sheet(&with_start(contradiction), Some(Refusal::NoStartState));
    assert_sheet(&with_actions(vec![stuck()]), Some(Refusal::NoNextState));
    assert_sheet(&with_actions(vec![mute()]), Some(Refusal::NoReply));
    let freeing = Action::Change(Objective::True);
    assert_sheet(&with_actions(vec![freeing]), None);
}

#[test]
fn every_state_is_tested() {
    // Each state in turn is the only one without a next state, or a reply.
    for facts in [1, 3, 8] {
        for bad in 0..1u16 << facts {
            let literal = |number: u8| match bad >> number & 1 {
                1 => fact(number),
                _ => fact(number).negate(),
            };
            let others = (1..facts)
                .fold(literal(0), |all, number| all.and(literal(number)))
                .negate();
            let sheet = |action| Sheet {
                facts,
                ..with_actions(vec![action])
            };
            let change = Action::Change(others.clone());
            assert_sheet(&sheet(change), Some(Refusal::NoNextState));
            let probe = Action::Probe(vec![others]);
            assert_sheet(&sheet(probe), Some(Refusal::NoReply));
        }
    }
}

#[test]
fn only_states_are_tested() {
    // Weights of absent facts are no states: neither fact 0 nor its negation
    // leaves out a state of one fact.
    let covering = Action::Probe(vec![fact(0), fact(0).negate()]);
    assert_sheet(&with_actions(vec![covering]), None);
    // A next state must be a state, too.
    for facts in 1..8 {
        let change = Action::Change(new(facts - 1));
        let sheet = Sheet {
            facts,
            ..with_actions(vec![change])
        };
        assert_sheet(&sheet, None);
    }
}

/// Each state in turn is the only one that is excluded.
#[test]
fn only_states_of_the_constraint_are_tested() {
    for facts in [1, 3, 8] {
        for state in 0..1u16 << facts {
            let is = |fact: fn(u8) -> Objective, state: u16| {
                let literal = |number: u8| match state >> number & 1 {
                    1 => fact(number),
                    _ => fact(number).negate(),
                };
                (1..facts).fold(literal(0), |all, number| all.and(literal(number)))
            };
            let sheet = |excluded, action| {
                let sheet = Sheet {
                    facts,
                    ..with_actions(vec![action])
                };
                sheet.constrained(is(fact, excluded).negate())
            };
            let other = state ^ 1;
            // No next state, and no reply, in this state.
            let stuck = || Action::Change(is(fact, state).negate());
            assert_sheet(&sheet(state, stuck()), None);
            assert_sheet(&sheet(other, stuck()), Some(Refusal::NoNextState));
            let mute = || Action::Probe(vec![is(fact, state).negate()]);
            assert_sheet(&sheet(state, mute()), None);
            assert_sheet(&sheet(other, mute()), Some(Refusal::NoReply));
            // This state is the only next state.
            let to = || Action::Change(is(new, state));
            assert_sheet(&sheet(state, to()), Some(Refusal::NoNextState));
            assert_sheet(&sheet(other, to()), None);
            // It is the only start state.
            let starting = |excluded| Sheet {
                start: is(fact, state),
                ..sheet(excluded, Action::Change(Objective::True))
            };
            assert_sheet(&starting(state), Some(Refusal::NoStartState));
            assert_sheet(&starting(other), None);
        }
    }
}

#[test]
fn padding_before_the_tests_on_states() {
    let starts = [Objective::False, Objective::True];
    for start in starts {
        for action in [stuck(), mute()] {
            let mut bytes = encode(&Sheet {
                start: start.clone(),
                ..with_actions(vec![action])
            });
            bytes.push(0);
            assert_eq!(refused(&bytes), Some(Refusal::Padding));
        }
    }
}

#[test]
fn a_state_before_all_other_tests_on_states() {
    let contradiction = || fact(0).and(fact(0).negate());
    for constraint in [Objective::False, contradiction(), nots(15, Objective::True)] {
        for start in [Objective::False, Objective::True] {
            for actions in [vec![], vec![stuck()], vec![mute()], vec![mute(), stuck()]] {
                let sheet = Sheet {
                    start: start.clone(),
                    ..with_actions(actions)
                };
                let sheet = sheet.constrained(constraint.clone());
                assert_sheet(&sheet, Some(Refusal::NoState));
                let padded = [&encode(&sheet)[..], &[0]].concat();
                assert_eq!(refused(&padded), Some(Refusal::Padding));
            }
        }
    }
}

#[test]
fn start_before_actions_inside_the_constraint() {
    // States 0, 1 and 2; the start formula is true in state 3 alone.
    let sheet = |start, action| {
        let sheet = Sheet {
            facts: 2,
            start,
            ..with_actions(vec![action])
        };
        sheet.constrained(fact(0).and(fact(1)).negate())
    };
    for action in [stuck(), mute()] {
        let both = fact(0).and(fact(1));
        assert_sheet(&sheet(both, action), Some(Refusal::NoStartState));
    }
    assert_sheet(&sheet(fact(0), stuck()), Some(Refusal::NoNextState));
    assert_sheet(&sheet(fact(0), mute()), Some(Refusal::NoReply));
}

#[test]
fn start_before_actions() {
    for action in [stuck(), mute()] {
        let sheet = Sheet {
            start: Objective::False,
            ..with_actions(vec![action])
        };
        assert_sheet(&sheet, Some(Refusal::NoStartState));
    }
}

#[test]
fn faulty_actions_by_number() {
    let fine = || Action::Change(stays(0));
    let no_next = Some(Refusal::NoNextState);
    let no_reply = Some(Refusal::NoReply);
    assert_sheet(&with_actions(vec![stuck(), mute()]), no_next);
    assert_sheet(&with_actions(vec![mute(), stuck()]), no_reply);
    assert_sheet(&with_actions(vec![fine(), mute(), stuck()]), no_reply);
    assert_sheet(&with_actions(vec![fine(), stuck(), mute()]), no_next);
    // The program uses another action only.
    let unused = Sheet {
        program: sequence(&[0]),
        ..with_actions(vec![fine(), mute()])
    };
    assert_sheet(&unused, no_reply);
}

#[test]
fn damaged_sheets_reach_every_refusal() {
    let mut random = Random::new(3);
    let mut reached = std::collections::BTreeSet::new();
    for _ in 0..20_000 {
        let bytes = damaged(&mut random, &Size::SMALL);
        match read(&bytes) {
            // What was accepted must be just what the bytes say.
            Ok(sheet) => assert_eq!(encode(&sheet), bytes),
            Err(refusal) => {
                reached.insert(refusal.number());
            }
        }
    }
    assert!(reached.into_iter().eq(1..=16));
}
