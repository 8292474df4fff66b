//! The proved `planfigures` as a process, against what the Rust implementation prints.

mod common;

use std::fs::{self, File};
use std::io::{self, PipeReader, PipeWriter, Write};
use std::os::unix::process::ExitStatusExt;
use std::path::Path;
use std::process::{Child, Command, Output, Stdio};
use std::thread;
use std::time::{Duration, Instant};

use common::process::{
    non_blocking, output_on, printed, root, said, sample, sample_file, samples, sockets,
    stop_for_a_moment, Program,
};
use common::{bytes, sheets, Answers};
use reference::figures::{stream_of, MAX_LENGTHS};
use reference::random::Random;

const PLANFIGURES: Program = Program("planfigures");

/// What it says on standard error where a read or a write fails.
const UNREAD: &str = "planfigures: the input could not be read\n";
const UNWRITTEN: &str = "planfigures: the answer could not be written\n";

/// What the Rust implementation prints.
fn expected(stream: &[u8], answers: &mut Answers) -> String {
    String::from_utf8(answers.figures(stream).line()).expect("ASCII")
}

/// The stream of sample sheets.
fn stream_of_samples(names: &[&str]) -> Vec<u8> {
    stream_of(names.iter().map(|name| sample(name)))
}

/// A stream of few bytes, and the line for it.
fn small() -> (Vec<u8>, &'static str) {
    let stream = stream_of_samples(&["01", "02", "05", "10"]);
    (stream, "1 2 0 1 7 2\n")
}

/// So many lengths of 0.
fn empty_sheets(count: usize) -> Vec<u8> {
    vec![0; 2 * count]
}

#[test]
fn sample_stream() {
    let mut all = samples();
    all.sort();
    let stream = stream_of(all.iter().map(|(_, sheet)| sheet));
    assert_eq!(PLANFIGURES.printed(&stream), sample_file("stream.out"));
    let cut = &stream[..stream.len() - 1];
    assert_eq!(PLANFIGURES.printed(cut), sample_file("cut-stream.out"));
    let script = root().join("samples/stream");
    let written = Command::new(script).output().expect("a script");
    assert_eq!(written.stdout, stream);
}

#[test]
fn hundreds_of_sheets() {
    let mut random = Random::new(100);
    let mut answers = Answers::default();
    let all: Vec<Vec<u8>> = sheets(101).into_iter().collect();
    let path = Path::new(env!("CARGO_TARGET_TMPDIR")).join("stream");
    for offset in 0..4 {
        let mut line: Vec<Vec<u8>> = all.iter().skip(offset).step_by(17).cloned().collect();
        line.push(sample("twenty-probes"));
        line.extend([1025, 65_535].map(|length| bytes(&mut random, length)));
        assert!(line.len() >= 300, "{} sheets", line.len());
        let stream = stream_of(&line);
        let figures = answers.figures(&stream).numbers();
        assert!(figures.iter().all(|&figure| figure > 0), "{figures:?}");
        let line = expected(&stream, &mut answers);
        assert_eq!(PLANFIGURES.printed(&stream), line);
        let cut = &stream[..stream.len() - random.between(1, 65_000)];
        let line_of_cut = expected(cut, &mut answers);
        assert_eq!(PLANFIGURES.printed(cut), line_of_cut);
        // From a file, and in pieces.
        fs::write(&path, &stream).expect("a file");
        let file = File::open(&path).expect("the file");
        assert_eq!(printed(PLANFIGURES.output_from(file)), line);
        for most in [1, 100, 70_000] {
            let pieces = stream.chunks(random.between(1, most));
            assert_eq!(PLANFIGURES.printed_in_pieces(pieces, None), line);
        }
    }
    fs::remove_file(&path).expect("the file");
}

#[test]
fn nothing_on_standard_input() {
    assert_eq!(PLANFIGURES.printed(&[]), "0 0 0 0 0 0\n");
    let output = PLANFIGURES.output_from(Stdio::null());
    assert_eq!(printed(output), "0 0 0 0 0 0\n");
}

#[test]
fn cut_anywhere() {
    let (stream, line) = small();
    let mut answers = Answers::default();
    for length in 0..=stream.len() {
        let stream = &stream[..length];
        let line = expected(stream, &mut answers);
        assert_eq!(PLANFIGURES.printed(stream), line, "{length} bytes");
    }
    assert_eq!(PLANFIGURES.printed(&stream), line);
}

/// Every byte comes alone, and pieces that end anywhere.
#[test]
fn pieces_with_pauses() {
    let (stream, line) = small();
    let pause = Some(Duration::from_millis(3));
    for length in [1, 2, 3, 7, 20] {
        let pieces = stream.chunks(length);
        assert_eq!(PLANFIGURES.printed_in_pieces(pieces, pause), line);
    }
    // A sheet of the greatest length, and one that is too long.
    let mut random = Random::new(102);
    let long = [1024, 1025, 3000].map(|length| bytes(&mut random, length));
    let stream = [stream, stream_of(long), stream_of_samples(&["09"])].concat();
    let line = "2 2 0 4 14 2\n";
    assert_eq!(expected(&stream, &mut Answers::default()), line);
    for length in [97, 1024, 1025, 1026] {
        let pieces = stream.chunks(length);
        assert_eq!(PLANFIGURES.printed_in_pieces(pieces, pause), line);
    }
}

#[test]
fn long_sheets() {
    let valid = stream_of_samples(&["01"]);
    let cut = [&valid[..], &[255, 255], &valid, &valid].concat();
    assert_eq!(PLANFIGURES.printed(&cut), "1 0 0 1 2 0\n");
    let whole = [&[255, 255][..], &[17; 65_535], &valid].concat();
    assert_eq!(PLANFIGURES.printed(&whole), "1 0 0 1 2 0\n");
    assert_eq!(PLANFIGURES.printed(&whole.repeat(20)), "20 0 0 20 40 0\n");
}

/// It never holds the input: memory of 32 MB is enough for 64 MB of it.
#[test]
fn long_input_in_little_memory() {
    let limited = || PLANFIGURES.shell("ulimit -v 32768; exec \"$0\"");
    let mut few = limited();
    few.stdout(Stdio::piped());
    let (stream, line) = small();
    assert_eq!(printed(output_on(few, &stream)), line);
    let stream = stream_of(vec![[17; 65_535]; 1024]);
    let mut many = limited();
    many.stdout(Stdio::piped());
    assert_eq!(printed(output_on(many, &stream)), "0 0 0 1024 0 0\n");
}

/// The program on a pipe whose other end is ours, and that end.
fn on_open_pipe() -> (Child, PipeWriter) {
    let (reader, writer) = io::pipe().expect("a pipe");
    (PLANFIGURES.started_from(reader), writer)
}

/// Whether the program ends within this time.
fn ends_within(child: &mut Child, limit: Duration) -> bool {
    let start = Instant::now();
    while start.elapsed() < limit {
        if child.try_wait().expect("a child").is_some() {
            return true;
        }
        thread::sleep(Duration::from_millis(2));
    }
    false
}

/// What it prints for a stream, of which the last bytes come after a pause, while the
/// other end of the pipe stays open.
fn printed_on_open_pipe(stream: &[u8], last: usize) -> String {
    let (mut child, mut writer) = on_open_pipe();
    let (first, last) = stream.split_at(stream.len() - last);
    writer.write_all(first).expect("it reads");
    thread::sleep(Duration::from_millis(20));
    // It may have gone, if it looks at none of these.
    let _ = writer.write_all(last);
    if !ends_within(&mut child, Duration::from_secs(20)) {
        child.kill().expect("it is there");
        panic!("it waits for more than 65,535 lengths and their sheets");
    }
    let output = child.wait_with_output().expect("it ends");
    drop(writer);
    printed(output)
}

/// After the sheet of the last length it waits for nothing.
#[test]
fn most_lengths() {
    let before = empty_sheets(MAX_LENGTHS - 1);
    let behind = stream_of_samples(&["09", "10"]);
    for (last, line) in [
        (stream_of_samples(&["01"]), "1 0 0 65534 2 0\n"),
        (stream_of_samples(&["02"]), "0 1 0 65534 2 1\n"),
        (stream_of_samples(&["05"]), "0 0 0 65535 0 0\n"),
        (stream_of_samples(&["13"]), "0 0 0 65535 0 0\n"),
        (stream_of([[7; 65_535]]), "0 0 0 65535 0 0\n"),
    ] {
        let whole = [&before[..], &last].concat();
        for late in [0, 1, last.len()] {
            let found = printed_on_open_pipe(&whole, late);
            assert_eq!(found, line, "{late} bytes late");
        }
        let more = [&whole[..], &behind].concat();
        assert_eq!(printed_on_open_pipe(&more, behind.len()), line);
        assert_eq!(printed_on_open_pipe(&more, behind.len() + 1), line);
        // With the end of the input, too.
        assert_eq!(PLANFIGURES.printed(&whole), line);
        assert_eq!(PLANFIGURES.printed(&more), line);
    }
    let valid = stream_of_samples(&["01"]);
    let sheets = valid.repeat(MAX_LENGTHS);
    let line = "65535 0 0 0 131070 0\n";
    assert_eq!(printed_on_open_pipe(&sheets, 0), line);
    assert_eq!(PLANFIGURES.printed(&[sheets, valid].concat()), line);
}

/// Before that it waits for the end of the input.
#[test]
fn waits_for_the_end() {
    let before = empty_sheets(MAX_LENGTHS - 1);
    let valid = stream_of_samples(&["01"]);
    let cut = &valid[..valid.len() - 1];
    for (stream, line) in [
        (vec![], "0 0 0 0 0 0\n"),
        (vec![0], "0 0 0 1 0 0\n"),
        (small().0, small().1),
        (before.clone(), "0 0 0 65534 0 0\n"),
        ([&before[..], &[0]].concat(), "0 0 0 65535 0 0\n"),
        ([&before[..], cut].concat(), "0 0 0 65535 0 0\n"),
    ] {
        let (mut child, mut writer) = on_open_pipe();
        writer.write_all(&stream).expect("it reads");
        let early = ends_within(&mut child, Duration::from_millis(150));
        assert!(!early, "after {} bytes", stream.len());
        drop(writer);
        let output = child.wait_with_output().expect("it ends");
        assert_eq!(printed(output), line);
    }
}

/// A pipe that holds the small stream without its last `left` bytes, with the other end
/// still open.
fn filled_pipe(left: usize) -> (PipeReader, PipeWriter) {
    let (stream, _) = small();
    let (reader, mut writer) = io::pipe().expect("a pipe");
    let length = stream.len() - left;
    writer.write_all(&stream[..length]).expect("room");
    (reader, writer)
}

/// No line for a part of the input, be it one of whole sheets.
#[test]
fn non_blocking_pipe() {
    let (stream, line) = small();
    for left in [0, 1, stream.len() - 11, stream.len()] {
        let (reader, mut writer) = filled_pipe(left);
        let output = PLANFIGURES.output_from(non_blocking(&reader));
        assert_eq!(said(output), ["", UNREAD], "{left} bytes left");
        // It was no end: one byte more arrives.
        writer.write_all(&[0]).expect("room");
    }
    let (reader, writer) = filled_pipe(0);
    drop(writer);
    let output = PLANFIGURES.output_from(non_blocking(&reader));
    assert_eq!(printed(output), line);
}

#[test]
fn socket_with_a_receive_timeout() {
    let (stream, line) = small();
    let timeout = Duration::from_millis(50);
    let (mut ours, theirs) = sockets(timeout);
    ours.write_all(&stream).expect("room");
    assert_eq!(said(PLANFIGURES.output_from(theirs)), ["", UNREAD]);
    let (mut ours, theirs) = sockets(timeout);
    ours.write_all(&stream).expect("room");
    drop(ours);
    assert_eq!(printed(PLANFIGURES.output_from(theirs)), line);
}

#[test]
fn input_that_cannot_be_read() {
    let directory = File::open(root()).expect("a directory");
    assert_eq!(said(PLANFIGURES.output_from(directory)), ["", UNREAD]);
    let write_only = File::options().write(true).open("/dev/null").unwrap();
    assert_eq!(said(PLANFIGURES.output_from(write_only)), ["", UNREAD]);
    for (streams, message) in [
        ("<&-", UNREAD),
        ("<&- 2>&-", ""),
        ("<&- >/dev/full", UNREAD),
    ] {
        let mut shell = PLANFIGURES.shell(&format!("exec \"$0\" {streams}"));
        assert_eq!(said(shell.output().expect("sh starts")), ["", message]);
    }
}

/// A shell's output with the small stream on its standard input.
fn on_small(shell: Command) -> Output {
    output_on(shell, &small().0)
}

#[test]
fn output_that_cannot_be_written() {
    for to in [">&-", ">/dev/full", "1</dev/null"] {
        let output = on_small(PLANFIGURES.shell(&format!("exec \"$0\" {to}")));
        assert_eq!(said(output), ["", UNWRITTEN], "{to}");
    }
    let neither = on_small(PLANFIGURES.shell("exec \"$0\" >/dev/full 2>/dev/full"));
    assert_eq!(said(neither), ["", ""]);
}

#[test]
fn pipe_that_nobody_reads() {
    let unread = || io::pipe().expect("a pipe").1;
    let mut ignoring = PLANFIGURES.shell("trap '' PIPE; exec \"$0\"");
    ignoring.stdout(unread());
    assert_eq!(said(on_small(ignoring)), ["", UNWRITTEN]);
    // The system ends it, so that its status tells, unless whoever runs the test
    // ignores the signal.
    const SIGPIPE: i32 = 13;
    let mut plain = PLANFIGURES.shell("exec \"$0\"");
    plain.stdout(unread());
    let output = on_small(plain);
    let ended = output.status.signal() == Some(SIGPIPE);
    assert!(ended || said(output) == ["", UNWRITTEN]);
}

#[test]
fn limited_file_size() {
    let path = Path::new(env!("CARGO_TARGET_TMPDIR")).join("limited figures");
    let (stream, line) = small();
    for room in 0..=line.len() {
        let (output, written) = PLANFIGURES.limited(&stream, room, "trap '' XFSZ;", &path);
        let message = if room < line.len() { UNWRITTEN } else { "" };
        assert_eq!(said(output), ["", message], "room for {room} bytes");
        assert_eq!(written, line[..room]);
    }
    fs::remove_file(&path).expect("the file");
}

/// A stop interrupts no read of a pipe. It interrupts one of a socket with a timeout,
/// which counts as failed.
#[test]
fn stopped_and_continued() {
    let (stream, line) = small();
    let mut child = PLANFIGURES.started();
    let mut input = child.stdin.take().expect("a pipe");
    for piece in stream.chunks(5) {
        stop_for_a_moment(&child);
        input.write_all(piece).expect("room");
    }
    drop(input);
    assert_eq!(printed(child.wait_with_output().expect("it ends")), line);

    let (mut ours, theirs) = sockets(Duration::from_secs(100));
    ours.write_all(&stream).expect("room");
    let mut child = PLANFIGURES.started_from(theirs);
    while child.try_wait().expect("a child").is_none() {
        stop_for_a_moment(&child);
    }
    let output = child.wait_with_output().expect("it ends");
    assert_eq!(said(output), ["", UNREAD]);
}
