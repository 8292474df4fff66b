//! The figures of streams that are fed in pieces, by the proved library beside Rust: the
//! same framing, with two of the verifiers of `verifying`, `reference::verify::verify`
//! over the sheet's tree (data) and `plain::verify_remembering` over tables that the
//! proved `prepare` makes in its time (memory). Streams of one kind are the same sheets in
//! the same memory, once or several times, so that nothing else grows with them.

use std::hint::black_box;

use linked::{
    figures_end, figures_feed, plain, Stream, Tables, Verdict, FIGURES, MEMO_WORDS, SHEET,
};
use reference::encode::encode;
use reference::figures::{stream_of, Figures, MAX_LENGTHS};
use reference::random::{good, Random, Size};
use reference::refusal::Refusal;
use reference::sheet::MAX_TRACE;
use reference::verify::{verify, Answer};

use crate::{least, shown, Call, BUDGET, SAMPLE_1};

/// How many bytes a piece has.
const PIECE: usize = 65_536;

/// The different sheets of a stream, and how often they stand in it.
const SHEETS: usize = 250;
const TIMES: [usize; 4] = [1, 2, 4, 8];

/// Sheets of one kind, and the most of them that are verified over the tree, where that
/// may take long.
struct Kind {
    name: &'static str,
    sheets: Vec<Vec<u8>>,
    most_over_tree: usize,
}

fn kinds() -> Vec<Kind> {
    let all = |sheet: Vec<u8>| vec![sheet; SHEETS];
    let random = |size: &Size| {
        let mut random = Random::new(20);
        let sheets = (0..SHEETS).map(|_| encode(&good(&mut random, size)));
        sheets.collect::<Vec<_>>()
    };
    let kind = |name, sheets, most_over_tree| Kind {
        name,
        sheets,
        most_over_tree,
    };
    vec![
        kind("sample 1", all(SAMPLE_1.to_vec()), usize::MAX),
        kind("routines of 1 or 2 facts", random(&Size::SMALL), usize::MAX),
        kind("routines of 3 to 7 facts", random(&Size::MEDIUM), 500),
        kind("routines of 8 facts", random(&Size::LARGE), 0),
        kind("no byte, refused", all(vec![]), usize::MAX),
        kind("1,025 bytes, passed over", all(vec![17; 1025]), usize::MAX),
        kind(
            "65,535 bytes, passed over",
            all(vec![17; 65_535]),
            usize::MAX,
        ),
    ]
}

pub fn rows() {
    println!(
        "{:<26} {:>6} {:>11} {:>11} {:>11} {:>11} {:>7} {:>9} {:>9} {:>10} {:>9}",
        "sheets",
        "number",
        "bytes",
        "proved ms",
        "data ms",
        "memory ms",
        "growth",
        "to data",
        "to memory",
        "sheets/s",
        "MB/s"
    );
    for kind in kinds() {
        let mut first = None;
        let once = stream_of(&kind.sheets);
        for times in TIMES {
            let sheets = SHEETS * times;
            let bytes = once.len() * times;
            let stream = Repeated { once: &once, times };
            let over_tree = sheets <= kind.most_over_tree;
            let [proved, data, memory] = time_figures(&stream, sheets, over_tree);
            let nanos = proved.unwrap();
            let ratio = |other: Option<f64>| shown(other.map(|other| nanos / other), 3);
            let millis = |time: Option<f64>| shown(time.map(|time| time / 1e6), 4);
            println!(
                "{:<26} {sheets:>6} {bytes:>11} {:>11} {:>11} {:>11} {:>7.2} {:>9} {:>9} {:>10.0} {:>9.3}",
                kind.name,
                millis(proved),
                millis(data),
                millis(memory),
                nanos / *first.get_or_insert(nanos),
                ratio(data),
                ratio(memory),
                sheets as f64 / nanos * 1e9,
                bytes as f64 / nanos * 1e3
            );
        }
    }
}

/// A stream several times over.
struct Repeated<'a> {
    once: &'a [u8],
    times: usize,
}

impl Repeated<'_> {
    fn pieces(&self) -> impl Iterator<Item = &[u8]> {
        (0..self.times).flat_map(|_| self.once.chunks(PIECE))
    }
}

/// The times of the proved library, over the tree and with a memory; asserts that all give
/// the same figures, and that these are of so many sheets.
fn time_figures(stream: &Repeated, sheets: usize, over_tree: bool) -> [Option<f64>; 3] {
    let [mut tables, mut tables_memory] = [(); 2].map(|()| Tables::zeroed());
    let mut memo = Box::new([0; MEMO_WORDS]);
    let mut proved = || {
        let mut state = Stream::empty();
        for piece in black_box(stream).pieces() {
            figures_feed(piece, &mut state, &mut tables, &mut memo);
        }
        let mut figures = [0; FIGURES];
        figures_end(&state, &mut figures);
        figures
    };
    let expected = proved();
    assert_eq!(expected[..4].iter().sum::<u64>(), sheets as u64);
    let by_tree = |sheet: &[u8]| verify(sheet, BUDGET, &mut [0; MAX_TRACE]);
    let mut remembering = |sheet: &[u8]| {
        let mut start = [0; 4];
        if linked::prepare(sheet, &mut tables_memory, &mut start) != 0 {
            // Which of them makes no difference to the figures.
            return Answer::Refused(Refusal::CutShort);
        }
        let memory = &mut [0; MAX_TRACE];
        match plain::verify_remembering(&tables_memory, &start, BUDGET, memory) {
            Verdict::Valid { count } => Answer::Valid { count },
            Verdict::Invalid { count, length } => Answer::Invalid { count, length },
            Verdict::Stopped { budget } => Answer::Stopped { budget },
        }
    };
    let proved: Call = Box::new(|| assert_eq!(proved(), expected));
    let data: Call = Box::new(|| assert_eq!(figures(black_box(stream), by_tree), expected));
    let memory: Call =
        Box::new(|| assert_eq!(figures(black_box(stream), &mut remembering), expected));
    least([Some(proved), Some(data).filter(|_| over_tree), Some(memory)])
}

/// The figures of a stream in pieces, with these answers, as a plain Rust program finds
/// them.
fn figures(stream: &Repeated, mut answer: impl FnMut(&[u8]) -> Answer) -> [u64; FIGURES] {
    let mut framing = Framing::default();
    for piece in stream.pieces() {
        framing.feed(piece, &mut answer);
    }
    framing.end().numbers()
}

/// A stream that is fed in pieces.
#[derive(Default)]
struct Framing {
    figures: Figures,
    lengths: usize,
    /// The length and the bytes of a sheet that is begun.
    begun: Vec<u8>,
    /// How many bytes are still to be passed over, of a sheet that is too long.
    over: usize,
}

impl Framing {
    fn feed(&mut self, piece: &[u8], answer: &mut impl FnMut(&[u8]) -> Answer) {
        let mut rest = piece;
        loop {
            let passed = self.over.min(rest.len());
            self.over -= passed;
            rest = &rest[passed..];
            if rest.is_empty() || self.lengths == MAX_LENGTHS {
                return;
            }
            let wanted = match self.begun[..] {
                [high, low, ..] => 2 + usize::from(u16::from_be_bytes([high, low])),
                _ => 2,
            };
            let taken = (wanted - self.begun.len()).min(rest.len());
            self.begun.extend(&rest[..taken]);
            rest = &rest[taken..];
            let [high, low, ref sheet @ ..] = self.begun[..] else {
                continue;
            };
            let length = usize::from(u16::from_be_bytes([high, low]));
            if length > SHEET {
                self.figures.count(Answer::Refused(Refusal::TooLong));
                self.over = length;
            } else if sheet.len() == length {
                self.figures.count(answer(sheet));
            } else {
                continue;
            }
            self.lengths += 1;
            self.begun.clear();
        }
    }

    fn end(mut self) -> Figures {
        self.figures.refused += u64::from(!self.begun.is_empty());
        self.figures
    }
}
