//! The commands as a user runs them.

mod common;

use std::fs;
use std::io::Write;
use std::path::PathBuf;
use std::process::{Command, Stdio};

use common::{unhex, verdict};
use reference::check::{check, Checked};
use reference::encode::encode;
use reference::figures::{parts, Part};
use reference::print::lines;
use reference::read::read;
use reference::refusal::Refusal;
use reference::sheet::{Objective, MAX_BYTES};
use reference::states::excluded;
use reference::verify::Answer;

fn reference(sheet: &[u8]) -> String {
    reference_with(&[], sheet)
}

fn reference_with(arguments: &[&str], bytes: &[u8]) -> String {
    printed(env!("CARGO_BIN_EXE_reference"), arguments, bytes)
}

/// What a command prints with these bytes on its standard input.
fn printed(command: &str, arguments: &[&str], bytes: &[u8]) -> String {
    let mut child = Command::new(command)
        .args(arguments)
        .stdin(Stdio::piped())
        .stdout(Stdio::piped())
        .spawn()
        .expect("it starts");
    let mut input = child.stdin.take().expect("a pipe");
    input.write_all(bytes).expect("it reads its input");
    drop(input);
    let output = child.wait_with_output().expect("it ends");
    assert!(output.status.success());
    String::from_utf8(output.stdout).expect("ASCII")
}

#[test]
fn printed_lines() {
    let memory = [0x0a, 0xff, 0xb0, 0x00, 0x9c, 0x77];
    let lines = |answer| String::from_utf8(lines(&answer, &memory)).expect("ASCII");
    let (count, length) = (u32::MAX, 2);
    assert_eq!(
        lines(Answer::Invalid { count, length }),
        "invalid 4294967295 2\n0a ff b0 00 9c\n"
    );
    assert_eq!(lines(Answer::Valid { count: 10 }), "valid 10\n");
    assert_eq!(lines(Answer::Stopped { budget: 0 }), "stopped 0\n");
    assert_eq!(lines(Answer::Refused(Refusal::TraceMemory)), "refused 30\n");
}

#[test]
fn samples_through_the_command() {
    let directory = PathBuf::from(env!("CARGO_MANIFEST_DIR")).join("../samples");
    let mut checked = 0;
    for entry in fs::read_dir(directory).expect("a directory") {
        let path = entry.expect("an entry").path();
        if path.extension().is_some_and(|extension| extension == "hex") {
            let sheet = unhex(&fs::read_to_string(&path).expect("a text file"));
            let expected = fs::read_to_string(path.with_extension("out")).expect("a text file");
            assert_eq!(reference(&sheet), expected, "{}", path.display());
            checked += 1;
        }
    }
    assert_eq!(checked, 26);
}

#[test]
fn figures_of_a_stream() {
    let figures = |stream: &[u8]| reference_with(&["figures"], stream);
    assert_eq!(figures(&[]), "0 0 0 0 0 0\n");
    let stream = unhex("0009 110C90881C40882000 0007 110C9088110400 0000");
    assert_eq!(figures(&stream), "1 1 0 1 4 1\n");
    assert_eq!(figures(&stream[..stream.len() - 1]), "1 1 0 1 4 1\n");
    assert_eq!(figures(&stream[..stream.len() - 2]), "1 1 0 0 4 1\n");
}

#[test]
fn reference_knows_one_word() {
    for arguments in [&["verdict"][..], &["figures", "figures"], &[""]] {
        let output = Command::new(env!("CARGO_BIN_EXE_reference"))
            .args(arguments)
            .stdin(Stdio::null())
            .output()
            .expect("reference runs");
        assert!(!output.status.success(), "{arguments:?}");
        assert!(output.stdout.is_empty(), "{arguments:?}");
    }
}

#[test]
fn long_input() {
    assert_eq!(reference(&vec![0x11; 300_000]), "refused 1\n");
}

#[test]
fn stopped_names_the_budget() {
    // A probe with two replies "true", done 20 times: 2^21 - 2 histories.
    let head = "0001 0001 00001 1 0010 001 001 001 00 001";
    let program = ["01 00000".repeat(20), "00".into()].concat();
    let sheet = common::unbits(&[head, &program].concat());
    assert!(read(&sheet).is_ok());
    assert_eq!(reference(&sheet), "stopped 1000000\n");
}

fn rows(seed: &str, count: &str) -> String {
    let output = Command::new(env!("CARGO_BIN_EXE_rows"))
        .args([seed, count])
        .output()
        .expect("rows runs");
    assert!(output.status.success());
    String::from_utf8(output.stdout).expect("ASCII")
}

#[test]
fn rows_hold_what_the_verifier_says() {
    let text = rows("5", "500");
    assert_eq!(text.lines().count(), 500);
    assert_eq!(text, rows("5", "500"));
    assert_ne!(text, rows("6", "500"));
    for row in text.lines() {
        let fields: Vec<&str> = row.split(';').collect();
        let &[sheet, budget, answer, trace, talks, checks] = &fields[..] else {
            panic!("not six fields: {row}");
        };
        let (expected, shown) = verdict(&unhex(sheet), budget.parse().expect("a number"));
        let expected_answer = match expected {
            Answer::Valid { count } => format!("valid {count}"),
            Answer::Invalid { count, length } => format!("invalid {count} {length}"),
            Answer::Stopped { budget } => format!("stopped {budget}"),
            Answer::Refused(refusal) => format!("refused {}", refusal.number()),
        };
        assert_eq!(answer, expected_answer);
        assert_eq!(unhex(trace), shown.unwrap_or_default());
        let refused = matches!(expected, Answer::Refused(_));
        assert_eq!(talks.is_empty(), refused);
        assert!(talks
            .split(',')
            .all(|talk| refused || talk.split(':').count() == 4));
        assert!(checks.split(',').all(|check| check.split(':').count() == 2));
    }
}

/// Sheets that exclude states, and traces that would be good ones if they did not.
#[test]
fn rows_have_constraints() {
    let (mut accepted, mut outside, mut would_fail) = (0, 0, 0);
    let mut no_state = 0;
    for row in rows("7", "600").lines() {
        let fields: Vec<&str> = row.split(';').collect();
        let sheet = match read(&unhex(fields[0])) {
            Ok(sheet) => sheet,
            Err(refusal) => {
                no_state += usize::from(refusal == Refusal::NoState);
                continue;
            }
        };
        let excluded = excluded(&sheet);
        accepted += usize::from(!excluded.is_empty());
        let free = encode(&sheet.constrained(Objective::True));
        for checked in fields[5].split(',') {
            let (trace, answer) = checked.split_once(':').expect("a checked trace");
            let trace = unhex(trace);
            if trace
                .iter()
                .step_by(2)
                .any(|state| excluded.contains(state))
            {
                assert_eq!(answer, "no");
                outside += 1;
                would_fail += usize::from(check(&free, &trace) == Checked::Yes);
            }
        }
    }
    assert!(accepted >= 120, "{accepted}");
    assert!(outside >= 100 && would_fail >= 40, "{outside} {would_fail}");
    assert!(no_state >= 3, "{no_state}");
}

/// Streams of the sheets of rows, with the line that the command prints for each.
#[test]
fn streams_hold_the_figures() {
    let rows = rows("5", "500");
    let from: Vec<Vec<u8>> = rows.lines().map(|row| sheet_of(row)).collect();
    let streams = |seed| {
        let command = env!("CARGO_BIN_EXE_streams");
        printed(command, &[seed, "10"], rows.as_bytes())
    };
    let text = streams("5");
    assert_eq!(text.lines().count(), 80);
    assert_eq!(text, streams("5"));
    assert_ne!(text, streams("6"));
    let [mut cut_length, mut no_sheet, mut cut_sheet, mut cut_long] = [0; 4];
    let [mut whole, mut empty, mut long] = [0; 3];
    for line in text.lines() {
        let fields: Vec<&str> = line.split(';').collect();
        let &["stream", stream, figures] = &fields[..] else {
            panic!("not a stream: {line}");
        };
        let stream = unhex(stream);
        assert_eq!(
            reference_with(&["figures"], &stream),
            format!("{figures}\n")
        );
        let mut rest = &stream[..];
        let mut sheets = 0;
        for part in parts(&stream) {
            let Part::Sheet(sheet) = part else {
                break;
            };
            empty += usize::from(sheet.is_empty());
            long += usize::from(sheet.len() > MAX_BYTES);
            sheets += usize::from(from.iter().any(|one| one == sheet));
            rest = &rest[2 + sheet.len()..];
        }
        assert!((3..=7).contains(&sheets), "{line}");
        match rest {
            [] => whole += 1,
            [_] => cut_length += 1,
            [_, _] => no_sheet += 1,
            [0..=3, ..] => cut_sheet += 1,
            _ => cut_long += 1,
        }
    }
    assert_eq!([cut_length, no_sheet, cut_sheet, cut_long], [10; 4]);
    assert_eq!([whole, long], [40, 10]);
    assert!(empty >= 10, "{empty}");
}

/// The sheet of a line of rows.
fn sheet_of(row: &str) -> Vec<u8> {
    unhex(row.split(';').next().expect("a field"))
}

#[test]
fn generators_want_two_numbers() {
    for command in [env!("CARGO_BIN_EXE_rows"), env!("CARGO_BIN_EXE_streams")] {
        for arguments in [&[][..], &["1"], &["1", "x"], &["1", "2", "3"]] {
            let status = Command::new(command)
                .args(arguments)
                .stdin(Stdio::null())
                .stderr(Stdio::null())
                .status()
                .expect("it runs");
            assert!(!status.success());
        }
    }
}
