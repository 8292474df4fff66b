//! Prints generated streams of sheets with their figures, one stream a line.
//!
//! `streams SEED TIMES` reads the lines of `rows` from standard input and prints, TIMES
//! times for each kind of stream, three fields separated by `;`:
//!
//! - `stream`
//! - a stream of three to six of those sheets, and what the kind adds, in hexadecimal
//! - the line that `planfigures` prints for it
//!
//! The figures are compared with what the listed runs say before they are printed.

use std::env;
use std::io::{self, BufRead, BufWriter, Write};
use std::process::ExitCode;

use reference::figures::{figures, figures_by, stream_of, BUDGET};
use reference::random::Random;
use reference::read::read;
use reference::runs::Listing;
use reference::sheet::MAX_BYTES;
use reference::verify::Answer;

/// As many runs as a sheet of `rows` may have.
const MOST_RUNS: usize = 1000;

/// Adds sheets to those of a stream, and gives what stands behind them.
type Kind = fn(&mut Random, &[Vec<u8>], &mut Vec<Vec<u8>>) -> Vec<u8>;

const KINDS: [Kind; 8] = [
    |_, _, _| vec![],
    // Among the others: no byte, a sheet that is refused, one that is too long.
    |random, _, sheets| insert(random, sheets, vec![]),
    |random, from, sheets| {
        let refused: Vec<_> = from.iter().filter(|sheet| read(sheet).is_err()).collect();
        let sheet = random.pick(&refused).to_vec();
        insert(random, sheets, sheet)
    },
    |random, _, sheets| {
        let long = vec![0x11; MAX_BYTES + random.between(1, 9)];
        insert(random, sheets, long)
    },
    // A length that is cut, one whose sheet is missing, and a sheet that is cut.
    |random, _, _| vec![random.below(2) as u8],
    |random, from, _| cut(random, from, 2, 2),
    |random, from, _| cut(random, from, 3, usize::MAX),
    // A sheet that is too long, and cut behind what would be others.
    |random, from, _| {
        let length = random.between(MAX_BYTES + 1, 0xffff) as u16;
        let others = (0..2).map(|_| random.pick(from));
        [&length.to_be_bytes()[..], &stream_of(others)].concat()
    },
];

fn insert(random: &mut Random, sheets: &mut Vec<Vec<u8>>, sheet: Vec<u8>) -> Vec<u8> {
    sheets.insert(random.between(0, sheets.len()), sheet);
    vec![]
}

/// A sheet behind its length, of which so many bytes are left, and not all.
fn cut(random: &mut Random, from: &[Vec<u8>], least: usize, most: usize) -> Vec<u8> {
    let longer: Vec<_> = from.iter().filter(|sheet| sheet.len() > 1).collect();
    let mut whole = stream_of([random.pick(&longer)]);
    whole.truncate(random.between(least, most.min(whole.len() - 1)));
    whole
}

fn main() -> ExitCode {
    let numbers: Vec<u64> = env::args().skip(1).flat_map(|text| text.parse()).collect();
    let &[seed, times] = &numbers[..] else {
        eprintln!("usage: streams SEED TIMES");
        return ExitCode::FAILURE;
    };
    match print_streams(seed, times) {
        Ok(()) => ExitCode::SUCCESS,
        Err(error) => {
            eprintln!("streams: {error}");
            ExitCode::FAILURE
        }
    }
}

fn print_streams(seed: u64, times: u64) -> io::Result<()> {
    let rows: Vec<String> = io::stdin().lock().lines().collect::<Result<_, _>>()?;
    let from: Vec<Vec<u8>> = rows.iter().map(|row| sheet_of(row)).collect();
    let mut random = Random::new(seed);
    let mut output = BufWriter::new(io::stdout().lock());
    for _ in 0..times {
        for kind in KINDS {
            let stream = stream(&mut random, &from, kind);
            let digits: String = stream.iter().map(|byte| format!("{byte:02x}")).collect();
            let line = String::from_utf8(compared_line(&stream)).expect("the line is ASCII");
            write!(output, "stream;{digits};{line}")?;
        }
    }
    output.flush()
}

/// The sheet of a line of `rows`.
fn sheet_of(row: &str) -> Vec<u8> {
    let digits = row.split(';').next().unwrap_or_default();
    (0..digits.len() / 2)
        .map(|i| u8::from_str_radix(&digits[2 * i..2 * i + 2], 16).expect("hexadecimal"))
        .collect()
}

fn stream(random: &mut Random, from: &[Vec<u8>], kind: Kind) -> Vec<u8> {
    let count = random.between(3, 6);
    let mut sheets: Vec<Vec<u8>> = (0..count).map(|_| random.pick(from).clone()).collect();
    let behind = kind(random, from, &mut sheets);
    [stream_of(sheets), behind].concat()
}

fn compared_line(stream: &[u8]) -> Vec<u8> {
    let by_runs = |bytes: &[u8]| match read(bytes) {
        Err(refusal) => Answer::Refused(refusal),
        Ok(sheet) => {
            let listing = Listing::new(&sheet, MOST_RUNS).expect("few runs");
            listing.answer(BUDGET).0
        }
    };
    let figures = figures(stream);
    assert_eq!(figures, figures_by(by_runs, stream));
    figures.line()
}
