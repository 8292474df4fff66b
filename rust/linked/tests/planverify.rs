//! The proved `planverify` as a process, against what the Rust implementation prints.

mod common;

use std::collections::BTreeMap;
use std::fs::{self, File};
use std::io::{self, PipeReader, PipeWriter, Read, Write};
use std::os::unix::process::ExitStatusExt;
use std::path::Path;
use std::process::{Command, Output, Stdio};
use std::sync::atomic::{AtomicUsize, Ordering};
use std::sync::{LazyLock, Mutex};
use std::thread;
use std::time::Duration;

use common::process::{
    self, non_blocking, output_on, printed, root, said, sample, sample_file, sockets,
    stop_for_a_moment, Program,
};
use common::{around_a_million, counted_lines, excludes, longest, sheets, Case};
use reference::random::Random;
use reference::sheet::MAX_BYTES;

/// Processes at a time.
const THREADS: usize = 4;

/// Different sheets of all kinds.
static SHEETS: LazyLock<Vec<Vec<u8>>> = LazyLock::new(|| sheets(51).into_iter().collect());

const PLANVERIFY: Program = Program("planverify");

/// What it says on standard error where a read or a write fails.
const UNREAD: &str = "planverify: the input could not be read\n";
const UNWRITTEN: &str = "planverify: the answer could not be written\n";

fn expected(sheet: &[u8]) -> String {
    String::from_utf8(Case::new(sheet.to_vec()).lines()).expect("ASCII")
}

/// Runs the program on each sheet, several at a time; gives what it printed for each.
fn compare_all(sheets: &[Vec<u8>]) -> Vec<String> {
    let next = AtomicUsize::new(0);
    let printed = Mutex::new(vec![String::new(); sheets.len()]);
    thread::scope(|scope| {
        for _ in 0..THREADS {
            scope.spawn(|| loop {
                let index = next.fetch_add(1, Ordering::Relaxed);
                let Some(sheet) = sheets.get(index) else {
                    break;
                };
                let lines = PLANVERIFY.printed(sheet);
                assert_eq!(lines, expected(sheet), "sheet {sheet:02x?}");
                printed.lock().unwrap()[index] = lines;
            });
        }
    });
    printed.into_inner().unwrap()
}

/// The different first words, with their numbers.
fn words(printed: &[String]) -> BTreeMap<&str, usize> {
    let mut counts = BTreeMap::new();
    for lines in printed {
        *counts.entry(lines.split(' ').next().unwrap()).or_insert(0) += 1;
    }
    counts
}

/// The sample sheets and what has to be printed for them.
fn samples() -> Vec<(Vec<u8>, String)> {
    let samples = process::samples().into_iter();
    let with_lines = |(name, sheet)| (sheet, sample_file(&format!("{name}.out")));
    samples.map(with_lines).collect()
}

#[test]
fn sample_sheets() {
    for (sheet, lines) in samples() {
        assert_eq!(PLANVERIFY.printed(&sheet), lines, "sheet {sheet:02x?}");
    }
}

#[test]
fn sheets_of_all_kinds() {
    assert!(SHEETS.len() >= 5000, "{} sheets", SHEETS.len());
    let printed = compare_all(&SHEETS);
    let counts = words(&printed);
    let all = ["invalid", "refused", "stopped", "valid"];
    assert!(counts.keys().eq(all.iter()), "{counts:?}");
    for word in ["valid", "invalid", "refused"] {
        assert!(counts[word] >= 1000, "{counts:?}");
    }
    let mut refused = [0; 17];
    for lines in &printed {
        if let Some(number) = lines.strip_prefix("refused ") {
            refused[number.trim_end().parse::<usize>().unwrap()] += 1;
        }
    }
    assert!(refused[1..].iter().all(|&count| count > 0), "{refused:?}");
    let excluding = SHEETS.iter().filter(|sheet| excludes(sheet)).count();
    assert!(excluding >= 1000, "{excluding} exclude a state");
}

#[test]
fn counts_around_a_million() {
    let (sheets, lines): (Vec<Vec<u8>>, Vec<String>) = around_a_million()
        .into_iter()
        .map(|(sheet, count, fails)| (sheet, counted_lines(count, fails)))
        .unzip();
    assert_eq!(compare_all(&sheets), lines);
    let words: Vec<&str> = words(&lines).into_keys().collect();
    assert_eq!(words, ["invalid", "stopped", "valid"]);
}

#[test]
fn cut_anywhere() {
    let mut sheets = Vec::new();
    for (sheet, _) in samples() {
        // The sample of 1,025 bytes is cut near its end and now and then before.
        let short = |length: &usize| *length < 40 || length.is_multiple_of(97) || *length > 1020;
        let lengths = (0..=sheet.len()).filter(short);
        sheets.extend(lengths.map(|length| sheet[..length].to_vec()));
    }
    sheets.sort();
    sheets.dedup();
    let printed = compare_all(&sheets);
    let counts = words(&printed);
    for word in ["valid", "invalid", "refused"] {
        assert!(counts.contains_key(word), "{counts:?}");
    }
}

#[test]
fn nothing_on_standard_input() {
    assert_eq!(PLANVERIFY.printed(&[]), "refused 2\n");
    assert_eq!(
        printed(PLANVERIFY.output_from(Stdio::null())),
        "refused 2\n"
    );
}

#[test]
fn in_pieces() {
    let mut random = Random::new(52);
    let long = vec![0x11; MAX_BYTES + 1];
    let some = SHEETS.iter().step_by(200);
    for (index, sheet) in some.chain([&long]).enumerate() {
        let lines = expected(sheet);
        let bytes = sheet.chunks(1);
        assert_eq!(
            PLANVERIFY.printed_in_pieces(bytes, None),
            lines,
            "{sheet:02x?}"
        );
        let length = random.between(1, 50);
        let pieces = sheet.chunks(length);
        assert_eq!(
            PLANVERIFY.printed_in_pieces(pieces, None),
            lines,
            "{sheet:02x?}"
        );
        if index % 8 == 0 {
            let pause = Some(Duration::from_millis(3));
            let pieces = sheet.chunks(sheet.len() / 20 + 1);
            assert_eq!(
                PLANVERIFY.printed_in_pieces(pieces, pause),
                lines,
                "{sheet:02x?}"
            );
        }
    }
}

/// Every byte comes alone: the samples and the longest sheet.
#[test]
fn byte_by_byte() {
    let [longest, _] = longest();
    let lines = expected(&longest);
    let mut sheets = samples();
    sheets.retain(|(sheet, _)| sheet.len() <= MAX_BYTES);
    sheets.push((longest, lines));
    for (sheet, lines) in sheets {
        let pause = Some(Duration::from_millis(3));
        let printed = PLANVERIFY.printed_in_pieces(sheet.chunks(1), pause);
        assert_eq!(printed, lines, "{sheet:02x?}");
    }
}

#[test]
fn long_input() {
    let mut accepted = 0;
    for sheet in SHEETS.iter().filter(|sheet| sheet.len() == MAX_BYTES) {
        let lines = PLANVERIFY.printed(sheet);
        assert_eq!(lines, expected(sheet));
        accepted += usize::from(lines.starts_with("valid"));
        for more in [1, 2, 3 * MAX_BYTES, 1 << 20] {
            let mut longer = sheet.clone();
            longer.resize(sheet.len() + more, 0);
            assert_eq!(PLANVERIFY.printed(&longer), "refused 1\n");
        }
    }
    assert!(accepted > 0);
    for byte in [0x00, 0x11, 0xff] {
        assert_eq!(
            PLANVERIFY.printed(&vec![byte; MAX_BYTES + 1]),
            "refused 1\n"
        );
        assert_eq!(PLANVERIFY.printed(&vec![byte; 1 << 20]), "refused 1\n");
    }
    // It leaves what it needn't read.
    let (mut reader, mut writer) = io::pipe().expect("a pipe");
    writer.write_all(&[0; MAX_BYTES + 10]).expect("room");
    drop(writer);
    let input = reader.try_clone().expect("the pipe");
    assert_eq!(printed(PLANVERIFY.output_from(input)), "refused 1\n");
    let mut rest = Vec::new();
    reader.read_to_end(&mut rest).expect("the rest");
    assert_eq!(rest.len(), 9);
}

/// A pipe that holds the sheet of case 1, for which `valid 2` is printed, without its
/// last `left` bytes and with the other end still open.
fn filled_pipe(left: usize) -> (PipeReader, PipeWriter) {
    let sheet = sample("01");
    let (reader, mut writer) = io::pipe().expect("a pipe");
    let length = sheet.len() - left;
    writer.write_all(&sheet[..length]).expect("room");
    (reader, writer)
}

#[test]
fn non_blocking_pipe() {
    let length = sample("01").len();
    for left in [0, 1, length] {
        let (reader, mut writer) = filled_pipe(left);
        let output = PLANVERIFY.output_from(non_blocking(&reader));
        assert_eq!(said(output), ["", UNREAD], "{left} bytes left");
        // It was no end: one byte more arrives.
        writer.write_all(&[0]).expect("room");
    }
    // All bytes and the end are there, or more bytes than a sheet may have.
    let (reader, writer) = filled_pipe(0);
    drop(writer);
    assert_eq!(
        printed(PLANVERIFY.output_from(non_blocking(&reader))),
        "valid 2\n"
    );
    let (reader, mut writer) = filled_pipe(0);
    writer.write_all(&[0; MAX_BYTES]).expect("room");
    assert_eq!(
        printed(PLANVERIFY.output_from(non_blocking(&reader))),
        "refused 1\n"
    );
}

#[test]
fn socket_with_a_receive_timeout() {
    let timeout = Duration::from_millis(50);
    let (mut ours, theirs) = sockets(timeout);
    ours.write_all(&sample("01")).expect("room");
    assert_eq!(said(PLANVERIFY.output_from(theirs)), ["", UNREAD]);
    let (mut ours, theirs) = sockets(timeout);
    ours.write_all(&sample("01")).expect("room");
    drop(ours);
    assert_eq!(printed(PLANVERIFY.output_from(theirs)), "valid 2\n");
}

#[test]
fn input_that_cannot_be_read() {
    let directory = File::open(root()).expect("a directory");
    assert_eq!(said(PLANVERIFY.output_from(directory)), ["", UNREAD]);
    let write_only = File::options().write(true).open("/dev/null");
    assert_eq!(
        said(PLANVERIFY.output_from(write_only.unwrap())),
        ["", UNREAD]
    );
    let closed = PLANVERIFY
        .shell("exec \"$0\" <&-")
        .output()
        .expect("sh starts");
    assert_eq!(said(closed), ["", UNREAD]);
    let closed = PLANVERIFY
        .shell("exec \"$0\" <&- 2>&-")
        .output()
        .expect("sh starts");
    assert_eq!(said(closed), ["", ""]);
}

/// A shell's output with the sheet of a sample on its standard input.
fn on_sample(shell: Command, number: &str) -> Output {
    output_on(shell, &sample(number))
}

#[test]
fn output_that_cannot_be_written() {
    for number in ["01", "02"] {
        for to in [">&-", ">/dev/full", "1</dev/null"] {
            let output = on_sample(PLANVERIFY.shell(&format!("exec \"$0\" {to}")), number);
            assert_eq!(said(output), ["", UNWRITTEN], "{to}");
        }
        let neither = on_sample(
            PLANVERIFY.shell("exec \"$0\" >/dev/full 2>/dev/full"),
            number,
        );
        assert_eq!(said(neither), ["", ""]);
    }
    let unread = PLANVERIFY.shell("exec \"$0\" <&- >/dev/full").output();
    assert_eq!(said(unread.expect("sh starts")), ["", UNREAD]);
}

#[test]
fn pipe_that_nobody_reads() {
    let unread = || io::pipe().expect("a pipe").1;
    let mut ignoring = PLANVERIFY.shell("trap '' PIPE; exec \"$0\"");
    ignoring.stdout(unread());
    assert_eq!(said(on_sample(ignoring, "01")), ["", UNWRITTEN]);
    // The system ends it, so that its status tells, unless whoever runs the test
    // ignores the signal.
    const SIGPIPE: i32 = 13;
    let mut plain = PLANVERIFY.shell("exec \"$0\"");
    plain.stdout(unread());
    let output = on_sample(plain, "01");
    let ended = output.status.signal() == Some(SIGPIPE);
    assert!(ended || said(output) == ["", UNWRITTEN]);
}

#[test]
fn limited_file_size() {
    let path = Path::new(env!("CARGO_TARGET_TMPDIR")).join("limited");
    for (number, lines) in [("01", "valid 2\n"), ("02", "invalid 2 1\n00 01 00\n")] {
        for room in 0..=lines.len() {
            let (output, written) =
                PLANVERIFY.limited(&sample(number), room, "trap '' XFSZ;", &path);
            let message = if room < lines.len() { UNWRITTEN } else { "" };
            assert_eq!(said(output), ["", message], "room for {room} bytes");
            assert_eq!(written, lines[..room]);
        }
        for room in [0, 7] {
            // The system ends it, unless whoever runs the test ignores the signal.
            const SIGXFSZ: i32 = 25;
            let (output, written) = PLANVERIFY.limited(&sample(number), room, "", &path);
            let ended = output.status.signal() == Some(SIGXFSZ);
            assert!(ended || said(output) == ["", UNWRITTEN]);
            assert_eq!(written, lines[..room]);
        }
    }
    fs::remove_file(&path).expect("the file");
}

/// As README.md says.
#[test]
fn asked_by_a_script() {
    const ASK: &str = "\"$0\" | grep -q '^valid '";
    let mut valid = 0;
    for (sheet, lines) in samples() {
        let mut child = PLANVERIFY
            .shell(ASK)
            .stdin(Stdio::piped())
            .spawn()
            .expect("sh starts");
        let mut input = child.stdin.take().expect("a pipe");
        // It may have gone after 1,025 bytes.
        let _ = input.write_all(&sheet);
        drop(input);
        let status = child.wait().expect("sh ends");
        assert_eq!(status.success(), lines.starts_with("valid "));
        valid += usize::from(status.success());
    }
    assert!((1..17).contains(&valid));
    let (reader, _writer) = filled_pipe(0);
    let output = PLANVERIFY.shell(ASK).stdin(non_blocking(&reader)).output();
    assert!(!output.expect("sh starts").status.success());
}

/// A stop interrupts no read of a pipe. It interrupts one of a socket with a
/// timeout, which counts as failed.
#[test]
fn stopped_and_continued() {
    let mut child = PLANVERIFY.started();
    let mut input = child.stdin.take().expect("a pipe");
    for byte in sample("01") {
        stop_for_a_moment(&child);
        input.write_all(&[byte]).expect("room");
    }
    drop(input);
    let output = child.wait_with_output().expect("it ends");
    assert_eq!(printed(output), "valid 2\n");

    let (mut ours, theirs) = sockets(Duration::from_secs(100));
    ours.write_all(&sample("01")).expect("room");
    let mut child = PLANVERIFY.started_from(theirs);
    while child.try_wait().expect("a child").is_none() {
        stop_for_a_moment(&child);
    }
    let output = child.wait_with_output().expect("it ends");
    assert_eq!(said(output), ["", UNREAD]);
}
