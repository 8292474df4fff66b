//! Prints generated small sheets with the answers of all parts, one sheet a line.
//!
//! `rows SEED COUNT` prints COUNT lines of six fields separated by `;`:
//!
//! - the sheet in hexadecimal
//! - a budget
//! - the verifier's answer, as `planverify` words it
//! - after `invalid` the trace in hexadecimal, else nothing
//! - for accepted sheets a list, separated by `,`, of talks with the runner:
//!   `REPLIES:REPLY:TOLD:REPORT` with the replies accepted one after the other
//!   (a digit each), one further reply, what "Next" tells before it (`a` and the
//!   action, `e1` or `e0` for the end with the goal holding or not) and what its
//!   report gives (`ok` or the refusal)
//! - a list, separated by `,`, of `TRACE:ANSWER` with a trace in hexadecimal and
//!   what the trace checker says: `yes`, `no` or the refusal
//!
//! Each answer is compared with what the listed runs say before it is printed.

use std::env;
use std::io::{self, BufWriter, Write};
use std::process::ExitCode;

use reference::check::{check, Checked};
use reference::encode::encode;
use reference::print::lines;
use reference::random::{damaged, good, Random, Size};
use reference::read::read;
use reference::refusal::Refusal;
use reference::runner::{Record, Told};
use reference::runs::{Listing, Run};
use reference::sheet::{Objective, Sheet, MAX_TRACE};
use reference::states::{excluded, is_state, State};
use reference::verify::{verify, Answer};

/// Limits that keep the listing of runs cheap, even for a slow evaluator.
const MOST_RUNS: usize = 1000;
const MOST_HISTORIES: usize = 60;
const LONGEST_HISTORY: usize = 6;

fn main() -> ExitCode {
    let numbers: Vec<u64> = env::args().skip(1).flat_map(|text| text.parse()).collect();
    let &[seed, count] = &numbers[..] else {
        eprintln!("usage: rows SEED COUNT");
        return ExitCode::FAILURE;
    };
    match print_rows(seed, count) {
        Ok(()) => ExitCode::SUCCESS,
        Err(error) => {
            eprintln!("rows: {error}");
            ExitCode::FAILURE
        }
    }
}

fn print_rows(seed: u64, count: u64) -> io::Result<()> {
    let mut random = Random::new(seed);
    let mut output = BufWriter::new(io::stdout().lock());
    for _ in 0..count {
        let row = loop {
            if let Some(row) = row(&mut random) {
                break row;
            }
        };
        writeln!(output, "{row}")?;
    }
    output.flush()
}

/// A row for a new sheet, unless the sheet has too many runs.
fn row(random: &mut Random) -> Option<String> {
    let mut size = Size::SMALL;
    if random.chance(1, 8) {
        size.facts = (3, 3);
    }
    let bytes = if random.chance(2, 3) {
        encode(&good(random, &size))
    } else {
        damaged(random, &size)
    };
    let (budget, answer, memory, talks, checks);
    match read(&bytes) {
        Err(refusal) => {
            budget = *random.pick(&[1_000_000, 0, 7]);
            (answer, memory) = run_verifier(&bytes, budget);
            assert_eq!(answer, Answer::Refused(refusal));
            talks = Vec::new();
            checks = vec![refused_check(random, &bytes, refusal)];
        }
        Ok(sheet) => {
            let listing = Listing::new(&sheet, MOST_RUNS)?;
            let histories = listing.histories();
            if histories.len() > MOST_HISTORIES
                || histories
                    .iter()
                    .any(|history| history.len() > LONGEST_HISTORY)
            {
                return None;
            }
            budget = some_budget(random, listing.count() as u32);
            (answer, memory) = compared_answer(&bytes, budget, &listing);
            talks = (0..random.between(2, 4))
                .map(|_| talk(random, &bytes, &listing))
                .collect();
            checks = trace_checks(random, &bytes, &sheet, &listing);
        }
    }
    let trace = match answer {
        Answer::Invalid { length, .. } => hex(&memory[..1 + 2 * length]),
        _ => String::new(),
    };
    let lines = String::from_utf8(lines(&answer, &memory)).expect("the lines are ASCII");
    Some(format!(
        "{};{budget};{};{trace};{};{}",
        hex(&bytes),
        lines.lines().next().unwrap_or_default(),
        talks.join(","),
        checks.join(",")
    ))
}

fn hex(bytes: &[u8]) -> String {
    bytes.iter().map(|byte| format!("{byte:02x}")).collect()
}

/// Mostly budgets near the count, where the answer changes.
fn some_budget(random: &mut Random, count: u32) -> u32 {
    match random.below(8) {
        0..=3 => 1_000_000,
        4 => 0,
        5 => count.saturating_sub(1),
        6 => count,
        _ => random.between(0, count as usize + 1) as u32,
    }
}

fn run_verifier(bytes: &[u8], budget: u32) -> (Answer, [u8; MAX_TRACE]) {
    let mut memory = [0; MAX_TRACE];
    let answer = verify(bytes, budget, &mut memory);
    (answer, memory)
}

/// The verifier's answer, after both verifiers agreed on several budgets.
fn compared_answer(bytes: &[u8], budget: u32, listing: &Listing) -> (Answer, [u8; MAX_TRACE]) {
    let count = listing.count() as u32;
    for budget in [budget, 0, count.saturating_sub(1), count, 1_000_000] {
        let (answer, memory) = run_verifier(bytes, budget);
        let (expected, trace) = listing.answer(budget);
        let mut expected_memory = [0; MAX_TRACE];
        if let Some(trace) = trace {
            expected_memory[..trace.len()].copy_from_slice(&trace);
        }
        assert_eq!((answer, memory), (expected, expected_memory));
    }
    run_verifier(bytes, budget)
}

/// A random walk through the routine, and one report more.
fn talk(random: &mut Random, bytes: &[u8], listing: &Listing) -> String {
    let (mut record, loaded) = Record::load(bytes);
    assert_eq!(loaded, Ok(()));
    let mut replies = Vec::new();
    for _ in 0..random.between(0, LONGEST_HISTORY) {
        let possible: Vec<u8> = (0..8)
            .filter(|&reply| goes_on(listing, &replies, reply))
            .collect();
        if possible.is_empty() {
            break;
        }
        let reply = *random.pick(&possible);
        let (after, reported) = record.report(reply);
        assert_eq!(reported, Ok(()));
        record = after;
        replies.push(reply);
    }
    let (record, told) = record.next();
    assert_eq!(Some(told), listing.told(&replies));
    let told = match told {
        Told::Action(action) => format!("a{action}"),
        Told::End { goal } => format!("e{}", u8::from(goal)),
        Told::Refused(refusal) => panic!("refused {}", refusal.number()),
    };
    let most = if random.chance(1, 2) { 2 } else { 9 };
    let reply = random.between(0, most) as u8;
    let (_, reported) = record.report(reply);
    assert_eq!(reported.is_ok(), goes_on(listing, &replies, reply));
    let reported = match reported {
        Ok(()) => "ok".to_string(),
        Err(refusal) => refusal.number().to_string(),
    };
    let digits: String = replies.iter().map(|reply| reply.to_string()).collect();
    format!("{digits}:{reply}:{told}:{reported}")
}

fn goes_on(listing: &Listing, replies: &[u8], reply: u8) -> bool {
    listing.accepts(&[replies, &[reply]].concat())
}

fn refused_check(random: &mut Random, bytes: &[u8], refusal: Refusal) -> String {
    let trace: Vec<u8> = (0..random.below(6)).map(|_| random.bits() as u8).collect();
    assert_eq!(check(bytes, &trace), Checked::Refused(refusal));
    format!("{}:{}", hex(&trace), refusal.number())
}

/// The shown trace, if any, and traces of other runs, some of them damaged, or runs only
/// without the constraint.
fn trace_checks(
    random: &mut Random,
    bytes: &[u8],
    sheet: &Sheet,
    listing: &Listing,
) -> Vec<String> {
    let failing: Vec<Vec<u8>> = listing.failing().into_iter().map(Run::trace).collect();
    let mut traces: Vec<Vec<u8>> = failing.first().cloned().into_iter().collect();
    for _ in 0..random.between(1, 2) {
        let mut trace = if !failing.is_empty() && random.chance(1, 2) {
            random.pick(&failing).clone()
        } else {
            random.pick(&listing.runs).trace()
        };
        if random.chance(1, 2) {
            spoil(random, &mut trace, &excluded(sheet));
        }
        traces.push(trace);
    }
    traces.extend(outside_trace(random, sheet));
    let compared = |trace: &Vec<u8>| {
        let fails = failing.contains(trace);
        let expected = if fails { Checked::Yes } else { Checked::No };
        assert_eq!(check(bytes, trace), expected);
        format!("{}:{}", hex(trace), if fails { "yes" } else { "no" })
    };
    traces.iter().map(compared).collect()
}

/// The trace of a run through a state that the constraint excludes, if there is one: a
/// run that fails the goal where nothing is excluded, or else another.
fn outside_trace(random: &mut Random, sheet: &Sheet) -> Option<Vec<u8>> {
    let free = sheet.clone().constrained(Objective::True);
    let listing = Listing::new(&free, MOST_RUNS)?;
    let outside = |run: &&Run| run.states.iter().any(|&state| !is_state(sheet, state));
    let failing: Vec<&Run> = listing.failing().into_iter().filter(outside).collect();
    let others: Vec<&Run> = listing.runs.iter().filter(outside).collect();
    let runs = [failing, others]
        .into_iter()
        .find(|runs| !runs.is_empty())?;
    Some(random.pick(&runs).trace())
}

fn spoil(random: &mut Random, trace: &mut Vec<u8>, excluded: &[State]) {
    let last = trace.len() - 1;
    match random.below(7) {
        0 => trace.truncate(random.between(0, last)),
        1 => trace.push(0),
        2 => trace.extend([0, trace[last]]),
        3 if random.chance(1, 8) => trace.resize(MAX_TRACE + 2, 0),
        4 if !excluded.is_empty() => trace[random.below(last + 1) / 2 * 2] = *random.pick(excluded),
        _ => trace[random.between(0, last)] ^= 1 << random.below(8),
    }
}
