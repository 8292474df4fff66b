//! The proved runner against the Rust runner: every answer, and after every call
//! every byte of the record and both lengths. Each call is made in lent tables too,
//! full of what earlier calls left there, at first of any numbers.

mod common;

use std::cell::RefCell;
use std::collections::BTreeMap;

use common::{bytes, choices, excludes, longest, many, FEW};
use linked::straight::sequence;
use linked::{plain, Tables, Verdict, REPLIES, SHEET};
use reference::edges::{self, edges};
use reference::encode::encode;
use reference::execute::Execution;
use reference::random::{damaged, good, Random, Size};
use reference::read::read;
use reference::records::{some_record, DAMAGES};
use reference::refusal::Refusal;
use reference::runner::{Record, Told};
use reference::sheet::{Action, Objective, Program, Sheet, MAX_TRACE};
use reference::step::{gather, keep, start_states};

/// What "Next" leaves where it refuses.
const BEFORE: [usize; 2] = [usize::MAX, 12_345];

thread_local! {
    /// The tables that are lent.
    static LENT: RefCell<Tables> = RefCell::new(any_tables(&mut Random::new(60)));
}

/// Tables full of any numbers.
fn any_tables(random: &mut Random) -> Tables {
    Tables::filled(|| random.bits())
}

/// How often each answer was given.
#[derive(Debug, Default)]
struct Counts {
    actions: usize,
    goals_met: usize,
    goals_missed: usize,
    next_refused: usize,
    /// Of reports, by their numbers; 0 is "accepted".
    reports: BTreeMap<u8, usize>,
}

impl Counts {
    fn least(&self) -> usize {
        let next = [
            self.actions,
            self.goals_met,
            self.goals_missed,
            self.next_refused,
        ];
        let report =
            [0, 31, 32, 33, 34].map(|number| self.reports.get(&number).copied().unwrap_or(0));
        next.into_iter().chain(report).min().unwrap()
    }
}

/// A record that both runners keep.
#[derive(Clone)]
struct Both {
    proved: linked::Record,
    rust: Record,
}

/// The Rust record as memory.
fn memory(record: &Record) -> linked::Record {
    linked::Record {
        sheet: record.sheet,
        replies: record.replies,
        lengths: [record.length, record.count],
    }
}

/// Any bytes and lengths.
fn any_memory(random: &mut Random) -> linked::Record {
    linked::Record {
        sheet: bytes(random, SHEET).try_into().unwrap(),
        replies: bytes(random, REPLIES).try_into().unwrap(),
        lengths: [random.bits() as usize, random.bits() as usize],
    }
}

impl Both {
    fn new(record: Record) -> Both {
        Both {
            proved: memory(&record),
            rust: record,
        }
    }

    /// Loads a sheet over any memory.
    fn load(random: &mut Random, sheet: &[u8]) -> Both {
        let mut proved = any_memory(random);
        let number = linked::load(sheet, &mut proved);
        let mut in_lent = any_memory(random);
        let again = LENT.with_borrow_mut(|tables| linked::load_in(sheet, &mut in_lent, tables));
        assert_eq!(again, number, "load in lent tables: {sheet:02x?}");
        assert!(in_lent == proved, "load in lent tables: {sheet:02x?}");
        let (rust, answer) = Record::load(sheet);
        assert_eq!(number, number_of(answer), "sheet {sheet:02x?}");
        let both = Both { proved, rust };
        both.assert_same("load");
        both
    }

    #[track_caller]
    fn assert_same(&self, call: &str) {
        assert!(
            self.proved == memory(&self.rust),
            "{call}: {:02x?}, in Rust {:02x?}",
            self.proved,
            self.rust
        );
    }

    fn next(&mut self, counts: &mut Counts) -> Told {
        let before = self.rust.clone();
        let mut told = BEFORE;
        let number = linked::next(&self.proved, &mut told);
        let mut again = BEFORE;
        let in_lent =
            LENT.with_borrow_mut(|tables| linked::next_in(&self.proved, &mut again, tables));
        assert_eq!((in_lent, again), (number, told), "next: {before:02x?}");
        let (rust, answer) = before.clone().next();
        let expected = match answer {
            Told::Action(action) => (0, [0, usize::from(action)]),
            Told::End { goal } => (0, [1, usize::from(goal)]),
            Told::Refused(refusal) => (refusal.number(), BEFORE),
        };
        assert_eq!((number, told), expected, "next: {before:02x?}");
        self.rust = rust;
        self.assert_same("next");
        *match answer {
            Told::Action(_) => &mut counts.actions,
            Told::End { goal: true } => &mut counts.goals_met,
            Told::End { goal: false } => &mut counts.goals_missed,
            Told::Refused(refusal) => {
                assert_eq!(refusal, Refusal::Record);
                &mut counts.next_refused
            }
        } += 1;
        answer
    }

    fn report(&mut self, reply: u8, counts: &mut Counts) -> Result<(), Refusal> {
        let before = self.rust.clone();
        let mut again = self.proved.clone();
        let number = linked::report(&mut self.proved, reply);
        let in_lent = LENT.with_borrow_mut(|tables| linked::report_in(&mut again, reply, tables));
        assert_eq!(in_lent, number, "report of {reply}: {before:02x?}");
        assert!(again == self.proved, "report of {reply}: {before:02x?}");
        let (rust, answer) = before.clone().report(reply);
        assert_eq!(
            number,
            number_of(answer),
            "report of {reply}: {before:02x?}"
        );
        self.rust = rust;
        self.assert_same("report");
        assert_eq!(answer.is_err(), self.rust == before);
        *counts.reports.entry(number).or_insert(0) += 1;
        answer
    }
}

fn number_of(answer: Result<(), Refusal>) -> u8 {
    answer.map_or_else(Refusal::number, |()| 0)
}

/// Sheets of all kinds. Most are accepted and have a probe and a branch.
fn sheets(random: &mut Random) -> Vec<Vec<u8>> {
    let mut sheets: Vec<Vec<u8>> = longest().into();
    while sheets.len() < 5000 {
        let sheet = good(random, &Size::SMALL);
        if probes_and_branches(&sheet) || random.chance(1, 8) {
            sheets.push(encode(&sheet));
        }
    }
    sheets.extend(edges().into_iter().step_by(3));
    sheets.extend((0..600).map(|_| damaged(random, &Size::SMALL)));
    sheets.extend((0..200).map(|_| few_facts(random, choices)));
    sheets.extend((0..100).map(|_| few_facts(random, many)));
    for (count, size) in [(30, Size::MEDIUM), (2, Size::LARGE)] {
        sheets.extend((0..count).map(|_| encode(&good(random, &size))));
    }
    sheets
}

/// With up to five facts, so that the Rust runner is quick.
fn few_facts(random: &mut Random, make: fn(&mut Random) -> Sheet) -> Vec<u8> {
    loop {
        let sheet = make(random);
        if sheet.facts <= 5 {
            return encode(&sheet);
        }
    }
}

fn probes_and_branches(sheet: &Sheet) -> bool {
    let probe = |program: &Program| match program {
        Program::Act { action, .. } => {
            matches!(sheet.actions[usize::from(*action)], Action::Probe(_))
        }
        _ => false,
    };
    let branch = |program: &Program| matches!(program, Program::Branch { .. });
    has(&sheet.program, &probe) && has(&sheet.program, &branch)
}

/// Whether some node of a program is such a one.
fn has(program: &Program, such: &dyn Fn(&Program) -> bool) -> bool {
    such(program)
        || match program {
            Program::End => false,
            Program::Act { rest, .. } => has(rest, such),
            Program::Branch {
                then,
                otherwise,
                rest,
                ..
            } => [then, otherwise, rest]
                .into_iter()
                .any(|part| has(part, such)),
        }
}

/// Whether the reply is false in a state that is possible after the action that
/// the replies so far come to.
fn denied(sheet: &Sheet, so_far: &[u8], reply: u8) -> bool {
    let mut execution = Execution::new(sheet);
    let mut possible = start_states(sheet);
    let next = |execution: &Execution| &sheet.actions[usize::from(execution.next().unwrap())];
    for &reply in so_far {
        let action = next(&execution);
        possible = keep(action, reply, &gather(sheet, action, &possible));
        execution.take(reply).unwrap();
    }
    let action = next(&execution);
    let after = gather(sheet, action, &possible);
    keep(action, reply, &after) != after
}

/// A reply that the action may have, or any.
fn some_reply(random: &mut Random, sheet: Option<&Sheet>, told: Told) -> u8 {
    let most = match (told, sheet) {
        (Told::Action(action), Some(sheet)) => sheet.actions[usize::from(action)].reply_count(),
        _ => 2,
    };
    match random.below(16) {
        0 => random.bits() as u8,
        1 => most,
        2 => random.between(0, 9) as u8,
        _ => random.below(usize::from(most)) as u8,
    }
}

#[test]
fn lists_of_calls() {
    let mut random = Random::new(61);
    let mut counts = Counts::default();
    let (mut lists, mut lively, mut refused, mut denials, mut all_replies) = (0, 0, 0, 0, 0);
    let (mut longest_sheet, mut longest_list, mut excluding) = (0, 0, 0);
    for bytes in sheets(&mut random) {
        let mut both = Both::load(&mut random, &bytes);
        let sheet = read(&bytes).ok();
        let small = sheet.as_ref().filter(|sheet| sheet.facts <= 5);
        lists += 1;
        lively += usize::from(sheet.as_ref().is_some_and(probes_and_branches));
        refused += usize::from(sheet.is_none());
        excluding += usize::from(excludes(&bytes));
        // Some calls, or all up to the end and a few behind it; the first two sheets
        // are the longest and the one of the longest run.
        let mut left = match sheet {
            Some(_) if lists <= 2 => 200,
            Some(_) => *random.pick(&[3, 10, 100]),
            None => 3,
        };
        let every = random.chance(1, 60);
        let mut told = both.next(&mut counts);
        while left > 0 {
            left -= 1;
            if every && small.is_some() {
                for reply in 0..=255 {
                    both.clone().report(reply, &mut counts).ok();
                }
                all_replies += 1;
            }
            if random.chance(1, 5) {
                assert_eq!(both.next(&mut counts), told);
                continue;
            }
            let reply = some_reply(&mut random, sheet.as_ref(), told);
            let before = both.rust.clone();
            let accepted = both.report(reply, &mut counts).is_ok();
            if let (true, Some(sheet)) = (accepted, small) {
                let so_far = &before.replies[..before.count];
                denials += usize::from(denied(sheet, so_far, reply));
            }
            told = both.next(&mut counts);
            if !matches!(told, Told::Action(_)) {
                left = left.min(3);
            }
        }
        longest_sheet = longest_sheet.max(both.rust.length);
        longest_list = longest_list.max(both.rust.count);
    }
    assert!(lists - refused >= 5000, "{lists} lists, {refused} refused");
    assert!(3 * lively > 2 * lists, "{lively} of {lists}");
    assert!(refused >= 300, "{refused} refused");
    assert!(excluding >= 1500, "{excluding} exclude a state");
    assert!(denials >= 1000, "{denials} accepted though denied");
    assert!(all_replies >= 100, "{all_replies}");
    assert!(counts.least() >= 500, "{counts:?}");
    assert_eq!([longest_sheet, longest_list], [SHEET, REPLIES]);
}

#[test]
fn damaged_records() {
    let mut random = Random::new(62);
    let mut counts = Counts::default();
    let (mut refused, mut taken) = (BTreeMap::new(), BTreeMap::new());
    let mut excluding = 0;
    for _ in 0..1000 {
        let record = some_record(&mut random);
        excluding += usize::from(excludes(&record.sheet[..record.length]));
        Both::new(record.clone()).next(&mut Counts::default());
        for &(name, always, damage) in DAMAGES {
            let mut bad = record.clone();
            damage(&mut random, &mut bad);
            let mut both = Both::new(bad.clone());
            let told = both.next(&mut counts);
            let is_refused = told == Told::Refused(Refusal::Record);
            for reply in [0, random.between(1, 8) as u8, random.bits() as u8] {
                let mut both = Both::new(bad.clone());
                let answer = both.report(reply, &mut counts);
                assert_eq!(answer == Err(Refusal::Record), is_refused, "{name}");
                both.next(&mut counts);
            }
            assert!(is_refused || !always, "{name}: {bad:02x?}");
            let tally = match is_refused {
                true => &mut refused,
                false => &mut taken,
            };
            *tally.entry(name).or_insert(0) += 1;
        }
    }
    for (name, always, _) in DAMAGES {
        assert!(refused[name] >= 20, "{name}: {refused:?}");
        assert!(*always || taken[name] >= 20, "{name}: {taken:?}");
    }
    assert!(counts.least() >= 50, "{counts:?}");
    assert!(excluding >= 250, "{excluding} exclude a state");
}

/// Visits the lists of accepted replies, in order, up to the first after which the
/// goal fails, and counts them; gives the length of that one.
fn failing(both: &mut Both, calls: &mut Counts, count: &mut u32) -> Option<usize> {
    match both.next(calls) {
        Told::End { goal: true } => None,
        Told::End { goal: false } => Some(both.proved.lengths[1]),
        Told::Action(_) => (0..=8).find_map(|reply| {
            let mut after = both.clone();
            after.report(reply, calls).ok()?;
            *count += 1;
            failing(&mut after, calls, count)
        }),
        Told::Refused(refusal) => panic!("{refusal:?}"),
    }
}

#[test]
fn full_runs_end_as_the_verdict_says() {
    let mut random = Random::new(63);
    let mut calls = Counts::default();
    let [mut valid, mut invalid, mut excluding] = [0; 3];
    let mut most = 0;
    while valid + invalid < 3000 {
        let bytes = match random.below(20) {
            0 => few_facts(&mut random, choices),
            _ => encode(&good(&mut random, &Size::SMALL)),
        };
        let verdict = linked::verify(&bytes, FEW, &mut [0; MAX_TRACE]).unwrap();
        if let Verdict::Stopped { .. } = verdict {
            continue;
        }
        let mut both = Both::load(&mut random, &bytes);
        let mut count = 0;
        let expected = match failing(&mut both, &mut calls, &mut count) {
            None => Verdict::Valid { count },
            Some(length) => Verdict::Invalid { count, length },
        };
        assert_eq!(verdict, expected, "sheet {bytes:02x?}");
        match verdict {
            Verdict::Valid { .. } => valid += 1,
            _ => invalid += 1,
        }
        excluding += usize::from(excludes(&bytes));
        most = most.max(count);
    }
    assert!(valid >= 1000 && invalid >= 1000, "{valid} {invalid}");
    assert!(excluding >= 800, "{excluding} exclude a state");
    assert!(most >= 100, "{most}");
    assert!(calls.goals_met >= 2000 && calls.goals_missed >= 1000);
    assert!(calls.reports[&33] >= 1000 && calls.reports[&34] >= 1000);
}

/// How often a reply that the action has was possible, impossible, and possible though
/// a state denies it.
#[derive(Debug, Default)]
struct Judged {
    possible: usize,
    impossible: usize,
    denied: usize,
    most_states: u64,
}

/// Along a random run: "Report" accepts each reply that the action has exactly if one
/// pass over the states possible after the effect says that it is possible, and else
/// answers 34. The pass writes none of the tables.
fn judge_replies(random: &mut Random, bytes: &[u8], sheet: &Sheet, judged: &mut Judged) {
    let (mut tables, mut record) = (Tables::zeroed(), any_memory(random));
    assert_eq!(linked::prepare(bytes, &mut tables, &mut [0; 4]), 0);
    assert_eq!(linked::load(bytes, &mut record), 0);
    let before = tables.clone();
    let mut possible = start_states(sheet);
    loop {
        let mut told = BEFORE;
        assert_eq!(linked::next(&record, &mut told), 0);
        let [0, number] = told else {
            break;
        };
        let action = &sheet.actions[number];
        let after = gather(sheet, action, &possible);
        let all = plain::words(after.iter());
        let mut accepted = Vec::new();
        for reply in 0..action.reply_count() {
            let (mut kept, mut evaluations) = (all, [u64::MAX]);
            let is_possible =
                linked::pass(&tables, &mut kept, number, reply.into(), &mut evaluations);
            let mut longer = record.clone();
            let answer = linked::report(&mut longer, reply);
            assert_eq!(answer, if is_possible { 0 } else { 34 }, "{bytes:02x?}");
            judged.most_states = judged.most_states.max(evaluations[0]);
            if is_possible {
                judged.possible += 1;
                judged.denied += usize::from(kept != all);
                accepted.push((reply, longer));
            } else {
                judged.impossible += 1;
            }
        }
        let (reply, longer) = random.pick(&accepted).clone();
        possible = keep(action, reply, &after);
        record = longer;
    }
    assert!(tables == before, "{bytes:02x?}");
}

#[test]
fn reports_as_the_pass_says() {
    let mut random = Random::new(66);
    let mut judged = Judged::default();
    // All 256 states are possible.
    let all_states = encode(&Sheet {
        facts: 8,
        actions: vec![Action::Probe(vec![Objective::Fact(7), Objective::True])],
        program: sequence(&[0, 0]),
        ..edges::plain()
    });
    let some = sheets(&mut random).into_iter().step_by(2);
    for bytes in some.chain([all_states]) {
        if let Ok(sheet) = read(&bytes) {
            judge_replies(&mut random, &bytes, &sheet, &mut judged);
        }
    }
    assert!(judged.possible >= 5000, "{judged:?}");
    assert!(judged.impossible >= 1500, "{judged:?}");
    assert!(judged.denied >= 1500, "{judged:?}");
    assert_eq!(judged.most_states, 256, "{judged:?}");
}

#[test]
fn the_record_of_zeros() {
    let mut both = Both::new(Record::ZERO);
    let mut counts = Counts::default();
    assert_eq!(both.next(&mut counts), Told::Refused(Refusal::Record));
    for reply in 0..=255 {
        let answer = both.report(reply, &mut counts);
        assert_eq!(answer, Err(Refusal::Record));
        assert!(both.rust == Record::ZERO);
    }
}

/// What is in lent tables after a call on a record: its sheet's tables, or what was
/// there if a byte past the sheet isn't 0 or the sheet is refused.
fn tables_after(record: &linked::Record, before: &Tables) -> Tables {
    let mut after = before.clone();
    let length = record.lengths[0];
    if length <= SHEET && record.sheet[length..].iter().all(|&byte| byte == 0) {
        linked::prepare(&record.sheet[..length], &mut after, &mut [0; 4]);
    }
    after
}

#[test]
fn what_lent_tables_hold() {
    let mut random = Random::new(64);
    let (mut written, mut left) = (0, 0);
    let mut before = any_tables(&mut random);
    for round in 0..60 {
        if round % 10 == 0 {
            before = any_tables(&mut random);
        }
        let good = some_record(&mut random);
        let mut records = vec![memory(&good)];
        for &(_, _, damage) in DAMAGES {
            let mut bad = good.clone();
            damage(&mut random, &mut bad);
            records.push(memory(&bad));
        }
        for record in records {
            let after = tables_after(&record, &before);
            let mut tables = before.clone();
            linked::next_in(&record, &mut [0; 2], &mut tables);
            assert!(tables == after, "next: {record:02x?}");
            let mut tables = before.clone();
            linked::report_in(&mut record.clone(), random.below(3) as u8, &mut tables);
            assert!(tables == after, "report: {record:02x?}");
            *if after == before {
                &mut left
            } else {
                &mut written
            } += 1;
        }
    }
    for bytes in sheets(&mut random).into_iter().step_by(40) {
        let mut after = before.clone();
        linked::prepare(&bytes, &mut after, &mut [0; 4]);
        let mut tables = before.clone();
        linked::load_in(&bytes, &mut any_memory(&mut random), &mut tables);
        assert!(tables == after, "load: {bytes:02x?}");
    }
    assert!(written >= 500 && left >= 500, "{written} {left}");
}
