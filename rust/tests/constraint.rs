//! Sheets with a constraint beside the same sheets without one, and what generated
//! constraints do.

mod common;

use std::collections::BTreeMap;

use common::{unbits, verdict};
use reference::check::{check, Checked};
use reference::edges::edges;
use reference::encode::encode;
use reference::random::{damaged, good, Random, Size};
use reference::read::read;
use reference::refusal::Refusal;
use reference::runner::{Record, Told};
use reference::runs::{Listing, Run};
use reference::sheet::{Action, Objective, Sheet, MAX_BYTES};
use reference::states::{excluded, is_state};
use reference::step::{effect, replies};
use reference::truth::holds;
use reference::verify::Answer;

const BUDGET: u32 = 300;

/// The sheet in edition 2 with the constraint true.
fn free(sheet: &Sheet) -> Sheet {
    sheet.clone().constrained(Objective::True)
}

/// Walks through both routines by every reply; what is told and answered must be the
/// same. Gives the number of accepted replies.
fn same_talks(one: &Record, other: &Record) -> usize {
    assert_eq!(one.clone().next().1, other.clone().next().1);
    let mut accepted = 0;
    for reply in 0..=8 {
        let (longer, answer) = one.clone().report(reply);
        let (other_longer, other_answer) = other.clone().report(reply);
        assert_eq!(answer, other_answer);
        if answer.is_ok() {
            accepted += 1 + same_talks(&longer, &other_longer);
        }
    }
    accepted
}

/// The same verdicts, counts and traces, and the same talks with the runner.
fn assert_alike(one: &Sheet, other: &Sheet) -> Answer {
    let [bytes, others] = [one, other].map(encode);
    let answer = verdict(&bytes, BUDGET);
    assert_eq!(answer, verdict(&others, BUDGET), "{one:?}");
    match answer.0 {
        Answer::Valid { count } | Answer::Invalid { count, .. } => {
            for budget in [0, count.saturating_sub(1), count] {
                assert_eq!(verdict(&bytes, budget), verdict(&others, budget));
            }
        }
        Answer::Stopped { .. } => return answer.0,
        Answer::Refused(_) => panic!("{answer:?}"),
    }
    let [record, other_record] = [&bytes, &others].map(|bytes| Record::load(bytes).0);
    same_talks(&record, &other_record);
    if let (_, Some(trace)) = &answer {
        for bytes in [&bytes, &others] {
            assert_eq!(check(bytes, trace), Checked::Yes);
        }
    }
    answer.0
}

/// How many sheets were valid and invalid.
#[derive(Debug, Default)]
struct Verdicts {
    valid: usize,
    invalid: usize,
}

impl Verdicts {
    fn add(&mut self, answer: Answer) {
        match answer {
            Answer::Valid { .. } => self.valid += 1,
            Answer::Invalid { .. } => self.invalid += 1,
            _ => {}
        }
    }
}

#[test]
fn a_true_constraint_is_none() {
    let mut random = Random::new(71);
    let mut verdicts = Verdicts::default();
    for _ in 0..2000 {
        let sheet = good(&mut random, &Size::SMALL);
        let one = Sheet {
            edition: 1,
            ..free(&sheet)
        };
        let [data, data_two] = [&one, &free(&sheet)].map(|sheet| read(&encode(sheet)));
        assert_eq!(
            data_two,
            data.clone().map(|data| Sheet { edition: 2, ..data })
        );
        if data.is_ok() {
            verdicts.add(assert_alike(&one, &free(&sheet)));
        }
    }
    assert!(verdicts.valid >= 500, "{verdicts:?}");
    assert!(verdicts.invalid >= 500, "{verdicts:?}");
}

/// The formula with the facts after a change for those before.
fn after(formula: &Objective) -> Objective {
    match formula {
        Objective::False | Objective::True => formula.clone(),
        Objective::Fact(number) | Objective::New(number) => Objective::New(*number),
        Objective::Not(part) => after(part).negate(),
        Objective::And(left, right) => after(left).and(after(right)),
        Objective::Or(left, right) => after(left).or(after(right)),
        Objective::Iff(left, right) => after(left).iff(after(right)),
    }
}

/// An edition 1 sheet that says the constraint in its start formula and in every
/// theory. From excluded states anything follows, and they have reply 0, so that it is
/// accepted; no run comes there.
fn written_out(sheet: &Sheet) -> Sheet {
    let constraint = &sheet.constraint;
    let outside = || constraint.clone().negate();
    let action = |action: &Action| match action {
        Action::Change(theory) => {
            Action::Change(outside().or(theory.clone().and(after(constraint))))
        }
        Action::Probe(formulas) => {
            let mut formulas = formulas.clone();
            formulas[0] = outside().or(formulas[0].clone());
            Action::Probe(formulas)
        }
    };
    Sheet {
        edition: 1,
        constraint: Objective::True,
        actions: sheet.actions.iter().map(action).collect(),
        start: constraint.clone().and(sheet.start.clone()),
        ..sheet.clone()
    }
}

#[test]
fn the_constraint_written_out() {
    let mut random = Random::new(72);
    for (size, least) in [(Size::SMALL, 1500), (Size::MEDIUM, 60)] {
        let mut verdicts = Verdicts::default();
        let mut compared = 0;
        while compared < least {
            let sheet = good(&mut random, &size);
            let written = written_out(&sheet);
            // Some are too deep or too long then.
            match read(&encode(&written)) {
                Err(Refusal::TooDeep | Refusal::TooLong) => continue,
                refusal => assert_eq!(refusal.as_ref().err(), None),
            }
            if excluded(&sheet).is_empty() {
                continue;
            }
            compared += 1;
            verdicts.add(assert_alike(&sheet, &written));
        }
        assert!(4 * verdicts.valid >= least, "{verdicts:?}");
        assert!(4 * verdicts.invalid >= least, "{verdicts:?}");
    }
}

/// What the constraints of accepted sheets do.
#[derive(Debug, Default)]
struct Bites {
    /// With a constraint; with one that excludes a state.
    constrained: usize,
    excluding: usize,
    /// The start formula is true in an excluded state.
    starts: usize,
    /// From a state some change would lead to an excluded one.
    leaves: usize,
    /// In an excluded state some change is stuck; some probe is silent.
    stuck: usize,
    silent: usize,
    /// Without the constraint the sheet is refused; it is accepted, and the answer or
    /// the trace is another.
    refused: usize,
    differs: usize,
}

fn bites(random: &mut Random, size: &Size, count: usize) -> Bites {
    let mut bites = Bites::default();
    for _ in 0..count {
        let sheet = good(random, size);
        if sheet.edition == 1 {
            assert_eq!(sheet.constraint, Objective::True);
            continue;
        }
        bites.constrained += 1;
        let outside = excluded(&sheet);
        if outside.is_empty() {
            continue;
        }
        bites.excluding += 1;
        let all = 0..=((1u16 << sheet.facts) - 1) as u8;
        let some = |such: &dyn Fn(u8) -> bool| usize::from(outside.iter().any(|&out| such(out)));
        let some_action = |such: &dyn Fn(&Action, u8) -> bool| {
            some(&|out| sheet.actions.iter().any(|action| such(action, out)))
        };
        bites.starts += some(&|out| holds(&sheet.start, out));
        bites.leaves += some_action(&|action, out| {
            let mut inside = all.clone().filter(|&state| is_state(&sheet, state));
            inside.any(|state| effect(action, state, out))
        });
        bites.stuck +=
            some_action(&|action, out| !all.clone().any(|next| effect(action, out, next)));
        bites.silent +=
            some_action(&|action, out| !(0..8).any(|reply| replies(action, reply, out)));
        let [answer, answer_free] = [&sheet, &free(&sheet)].map(|it| verdict(&encode(it), BUDGET));
        match answer_free.0 {
            Answer::Refused(_) => bites.refused += 1,
            _ => bites.differs += usize::from(answer != answer_free),
        }
    }
    bites
}

#[test]
fn generated_constraints_bite() {
    let mut random = Random::new(73);
    let small = bites(&mut random, &Size::SMALL, 2000);
    assert!((800..1200).contains(&small.constrained), "{small:?}");
    assert!(small.excluding >= 600, "{small:?}");
    assert!(small.constrained - small.excluding >= 50, "{small:?}");
    assert!(small.starts >= 400 && small.leaves >= 250, "{small:?}");
    assert!(small.stuck >= 80 && small.silent >= 40, "{small:?}");
    assert!(small.refused >= 100 && small.differs >= 200, "{small:?}");
    let medium = bites(&mut random, &Size::MEDIUM, 200);
    assert!(medium.excluding >= 60, "{medium:?}");
    assert!(medium.starts >= 50 && medium.leaves >= 50, "{medium:?}");
    assert!(medium.stuck >= 20 && medium.silent >= 10, "{medium:?}");
    assert!(medium.refused >= 20 && medium.differs >= 5, "{medium:?}");
    let large = bites(&mut random, &Size::LARGE, 40);
    assert!(large.excluding >= 10 && large.leaves >= 10, "{large:?}");
    assert!(large.stuck >= 4 && large.silent >= 3, "{large:?}");
}

/// Where the constraint that stands at a bit ends, or its refusal.
fn constraint_ends(bytes: &[u8], facts: u8, at: usize, depth: usize) -> Result<usize, u8> {
    let bit = |place: usize| match bytes.get(place / 8) {
        Some(byte) => Ok(byte >> (7 - place % 8) & 1),
        None => Err(2),
    };
    let field = |at| -> Result<u8, u8> { Ok(4 * bit(at)? + 2 * bit(at + 1)? + bit(at + 2)?) };
    let part = |at| constraint_ends(bytes, facts, at, depth + 1);
    if depth > 16 {
        return Err(8);
    }
    match field(at)? {
        0 | 1 => Ok(at + 3),
        2 if field(at + 3)? >= facts => Err(6),
        2 => Ok(at + 6),
        3 => Err(7),
        4 => part(at + 3),
        _ => part(part(at + 3)?),
    }
}

#[test]
fn damaged_constraints() {
    let mut random = Random::new(74);
    let mut faults: BTreeMap<u8, usize> = BTreeMap::new();
    let (mut no_state, mut taken) = (0, 0);
    for _ in 0..20_000 {
        let bytes = damaged(&mut random, &Size::SMALL);
        let Some(facts @ 0x21..=0x28) = bytes.first() else {
            continue;
        };
        if bytes.len() > MAX_BYTES {
            continue;
        }
        let number = read(&bytes).map_or_else(|refusal| refusal.number(), |_| 0);
        match constraint_ends(&bytes, facts % 16, 8, 1) {
            Err(expected) => {
                assert_eq!(number, expected, "{bytes:02x?}");
                *faults.entry(number).or_default() += 1;
            }
            Ok(_) if number == 16 => no_state += 1,
            Ok(_) if number == 0 => taken += 1,
            Ok(_) => {}
        }
    }
    assert!(faults.keys().copied().eq([2, 6, 7, 8]), "{faults:?}");
    assert!(faults.values().all(|&count| count >= 50), "{faults:?}");
    assert!(no_state >= 200 && taken >= 200, "{no_state} {taken}");
}

#[test]
fn traces_through_excluded_states() {
    let mut random = Random::new(75);
    let [mut failing, mut other, mut still, mut no_more] = [0; 4];
    for _ in 0..6000 {
        let sheet = good(&mut random, &Size::SMALL);
        if excluded(&sheet).is_empty() {
            continue;
        }
        let free = free(&sheet);
        let listings = [&sheet, &free].map(|sheet| Listing::new(sheet, 100));
        let [Some(listing), Some(listing_free)] = listings else {
            continue;
        };
        let [bytes, bytes_free] = [&sheet, &free].map(encode);
        let outside = |run: &Run| run.states.iter().any(|&state| !is_state(&sheet, state));
        for run in listing_free.runs.iter().filter(|run| outside(run)) {
            assert_eq!(check(&bytes, &run.trace()), Checked::No);
            match check(&bytes_free, &run.trace()) {
                Checked::Yes => failing += 1,
                _ => other += 1,
            }
        }
        // Through states alone some are no failing runs any more, since more is known.
        let fails = listing.failing();
        for run in listing_free.failing() {
            if outside(run) {
                continue;
            }
            let (expected, count) = match fails.contains(&run) {
                true => (Checked::Yes, &mut still),
                false => (Checked::No, &mut no_more),
            };
            assert_eq!(check(&bytes, &run.trace()), expected, "{run:?} {sheet:?}");
            *count += 1;
        }
    }
    let counts = [failing, other, still, no_more];
    assert!(counts.iter().all(|&count| count >= 500), "{counts:?}");
}

/// What the runner tells and accepts is what the listed runs say, also where those of the
/// sheet with the constraint true say something else.
#[test]
fn the_runner_knows_the_constraint() {
    let mut random = Random::new(76);
    let [mut impossible, mut met, mut missed, mut ways] = [0; 4];
    for _ in 0..16_000 {
        let sheet = good(&mut random, &Size::SMALL);
        let free = free(&sheet);
        if excluded(&sheet).is_empty() || read(&encode(&free)).is_err() {
            continue;
        }
        let listings = [&sheet, &free].map(|sheet| Listing::new(sheet, 100));
        let [Some(listing), Some(listing_free)] = listings else {
            continue;
        };
        let histories_free = listing_free.histories();
        for history in listing.histories() {
            let mut record = Record::load(&encode(&sheet)).0;
            let mut so_far = Vec::new();
            for event in history {
                so_far.push(event.reply);
                record = record.report(event.reply).0;
            }
            let told = record.clone().next().1;
            assert_eq!(Some(told), listing.told(&so_far), "{so_far:?} {sheet:?}");
            let mut only_free = 0;
            for reply in 0..=8 {
                let longer = [&so_far[..], &[reply]].concat();
                let answer = record.clone().report(reply).1;
                let accepted = listing.accepts(&longer);
                assert_eq!(answer.is_ok(), accepted, "{longer:?} {sheet:?}");
                let refused = answer == Err(Refusal::Impossible);
                only_free += usize::from(refused && listing_free.accepts(&longer));
            }
            // Where both went the same way so far.
            if !histories_free.contains(&history) {
                continue;
            }
            match (told, listing_free.told(&so_far).expect("replies of a run")) {
                (Told::Action(one), Told::Action(other)) if one == other => impossible += only_free,
                (Told::Action(_), Told::Action(_) | Told::End { .. }) => ways += 1,
                (Told::End { .. }, Told::Action(_)) => ways += 1,
                (Told::End { goal }, Told::End { goal: goal_free }) => {
                    met += usize::from(goal && !goal_free);
                    missed += usize::from(!goal && goal_free);
                }
                (Told::Refused(_), _) | (_, Told::Refused(_)) => panic!("{told:?} {sheet:?}"),
            }
        }
    }
    let counts = [impossible, met, missed, ways];
    assert!(counts.iter().all(|&count| count >= 100), "{counts:?}");
}

/// The sheets at the limits have these.
#[test]
fn edges_of_the_constraint() {
    let edges = edges();
    // Edition 2, one fact; no action, start true, goal known true, empty program.
    let (head, rest) = ("0010 0001", "00000 001 00 001 00");
    // No next state from state 0; no reply in it; likewise but with start false.
    let (stuck, mute) = ("0 101 010 000 011 000", "1 0001 010 000");
    let two = |start| ["00010", stuck, mute, start, "00 001 00"].concat();
    let nots = |count: usize| "100".repeat(count);
    for (bits, number) in [
        (head.to_string(), 2),
        ("0100 0001".to_string(), 3),
        ("0011 0001".to_string(), 3),
        ("0010 0000".to_string(), 4),
        ("0010 1001".to_string(), 4),
        ([head, &nots(14), "001", rest].concat(), 0),
        ([head, &nots(15), "001", rest].concat(), 16),
        ([head, &nots(16), "001", rest].concat(), 8),
        ([head, &nots(17), "001", rest].concat(), 8),
        ([head, &nots(15), "011 000", rest].concat(), 7),
        ([head, &nots(16), "011 000", rest].concat(), 8),
        ([head, &nots(15), "010 111", rest].concat(), 6),
        ([head, &nots(16), "010 111", rest].concat(), 8),
        ([head, &nots(16)].concat(), 8),
        ([head, "000", &two("001")].concat(), 16),
        ([head, "000", &two("000")].concat(), 16),
    ] {
        let bytes = unbits(&bits);
        assert!(edges.contains(&bytes), "{bits}");
        let refusal = read(&bytes).map_or_else(|refusal| refusal.number(), |_| 0);
        assert_eq!(refusal, number, "{bits}");
    }
    // A padding bit comes before the test for a state.
    let mut padded = unbits(&[head, "000", &two("000")].concat());
    *padded.last_mut().expect("a last byte") |= 1;
    assert!(edges.contains(&padded));
    assert_eq!(read(&padded), Err(Refusal::Padding));

    // Two facts, never both, and one action.
    let sheet = |action: &str| {
        let parts = [
            "0010 0010 100 101 010 000 010 001 00001",
            action,
            &rest[5..],
        ];
        unbits(&parts.concat())
    };
    for (action, number) in [
        ("0 101 100 101 010 000 010 001 011 000", 0),
        ("0 011 000", 0),
        ("0 101 011 000 011 001", 14),
        ("1 0010 100 010 000 100 010 001", 0),
        ("1 0010 101 010 000 100 010 001 010 001", 15),
    ] {
        let bytes = sheet(action);
        assert!(edges.contains(&bytes), "{action}");
        let refusal = read(&bytes).map_or_else(|refusal| refusal.number(), |_| 0);
        assert_eq!(refusal, number, "{action}");
    }
}
