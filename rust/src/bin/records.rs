//! Prints generated records with the answers of the runner, one record a line.
//!
//! `records SEED TIMES` prints the records at the limits and, TIMES times for each
//! kind of damage, a record of a small sheet and the record so damaged, each as
//! seven fields separated by `;`:
//!
//! - `record`
//! - the sheet's bytes in hexadecimal, without the zeros at their end
//! - its length
//! - the replies' bytes, likewise
//! - their count
//! - what "Next" tells (`a` and the action, `e1` or `e0` for the end with the goal
//!   holding or not), or the refusal
//! - a list, separated by `,`, of `REPLY:REPORT` with one further reply and what its
//!   report gives: `ok` or the refusal
//!
//! Each answer is compared with what the listed runs say before it is printed.

use std::env;
use std::io::{self, BufWriter, Write};
use std::process::ExitCode;

use reference::random::Random;
use reference::read::read;
use reference::records::{fullest, some_record, DAMAGES};
use reference::refusal::Refusal;
use reference::runner::{Record, Told};
use reference::runs::{Listing, Run};
use reference::sheet::{Sheet, MAX_ACTION_NODES};

/// Limits that keep the listing of runs cheap, even for a slow evaluator.
const MOST_RUNS: usize = 300;
const LONGEST_HISTORY: usize = 6;

fn main() -> ExitCode {
    let numbers: Vec<u64> = env::args().skip(1).flat_map(|text| text.parse()).collect();
    let &[seed, times] = &numbers[..] else {
        eprintln!("usage: records SEED TIMES");
        return ExitCode::FAILURE;
    };
    match print_records(seed, times) {
        Ok(()) => ExitCode::SUCCESS,
        Err(error) => {
            eprintln!("records: {error}");
            ExitCode::FAILURE
        }
    }
}

fn print_records(seed: u64, times: u64) -> io::Result<()> {
    let mut random = Random::new(seed);
    let mut output = BufWriter::new(io::stdout().lock());
    for record in at_limits() {
        let row = row(&mut random, &record, MAX_ACTION_NODES).expect("few runs");
        writeln!(output, "{row}")?;
    }
    for _ in 0..times {
        for (_, _, damage) in DAMAGES {
            let [good, bad] = loop {
                let record = some_record(&mut random);
                let mut bad = record.clone();
                damage(&mut random, &mut bad);
                if let [Some(good), Some(bad)] =
                    [&record, &bad].map(|it| row(&mut random, it, LONGEST_HISTORY))
                {
                    break [good, bad];
                }
            };
            writeln!(output, "{good}\n{bad}")?;
        }
    }
    output.flush()
}

/// The fullest records, and those with a length or count of one more or less.
fn at_limits() -> Vec<Record> {
    let [sheet, replies] = fullest();
    let near = |more| {
        let length = sheet.length.saturating_add_signed(more);
        let count = replies.count.saturating_add_signed(more);
        let (sheet, replies) = (sheet.clone(), replies.clone());
        [Record { length, ..sheet }, Record { count, ..replies }]
    };
    [0, 1, -1].into_iter().flat_map(near).collect()
}

/// The line for a record, unless its sheet has too many runs or too long ones.
fn row(random: &mut Random, record: &Record, longest: usize) -> Option<String> {
    let bytes = &record.sheet[..record.length.min(record.sheet.len())];
    let sheet = read(bytes).ok();
    let listing = match &sheet {
        Some(sheet) => Some(short_listing(sheet, longest)?),
        None => None,
    };
    let held = listing.as_ref().filter(|_| is_padded(record));
    let replies = &record.replies[..record.count.min(record.replies.len())];
    let (after, told) = record.clone().next();
    assert_eq!(&after, record);
    let expected = held.and_then(|listing| listing.told(replies));
    assert_eq!(told, expected.unwrap_or(Told::Refused(Refusal::Record)));
    let told = match told {
        Told::Action(action) => format!("a{action}"),
        Told::End { goal } => format!("e{}", u8::from(goal)),
        Told::Refused(refusal) => refusal.number().to_string(),
    };
    let reports = [random.below(2) as u8, *random.pick(&[1, 2, 3, 8, 255])].map(|reply| {
        let (after, answer) = record.clone().report(reply);
        let accepted = held.is_some_and(|listing| listing.accepts(&[replies, &[reply]].concat()));
        let mut expected = record.clone();
        if accepted {
            expected.replies[expected.count] = reply;
            expected.count += 1;
        }
        assert_eq!((after, answer.is_ok()), (expected, accepted));
        match answer {
            Ok(()) => format!("{reply}:ok"),
            Err(refusal) => format!("{reply}:{}", refusal.number()),
        }
    });
    Some(format!(
        "record;{};{};{};{};{told};{}",
        hex(&record.sheet),
        record.length,
        hex(&record.replies),
        record.count,
        reports.join(",")
    ))
}

fn short_listing(sheet: &Sheet, longest: usize) -> Option<Listing<'_>> {
    let listing = Listing::new(sheet, MOST_RUNS)?;
    let short = |run: &Run| run.history.len() <= longest;
    listing.runs.iter().all(short).then_some(listing)
}

/// Lengths that fit, and only zeros past them.
fn is_padded(record: &Record) -> bool {
    let past = |bytes: &[u8], length| bytes.iter().skip(length).all(|&byte| byte == 0);
    record.length <= record.sheet.len()
        && record.count <= record.replies.len()
        && past(&record.sheet, record.length)
        && past(&record.replies, record.count)
}

/// In hexadecimal, without the zeros at the end.
fn hex(bytes: &[u8]) -> String {
    let length = bytes
        .iter()
        .rposition(|&byte| byte != 0)
        .map_or(0, |last| last + 1);
    bytes[..length]
        .iter()
        .map(|byte| format!("{byte:02x}"))
        .collect()
}
