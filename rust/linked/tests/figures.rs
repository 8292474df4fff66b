//! The figures of a stream of sheets that the proved library is fed in pieces, against
//! the Rust implementation, and the state after a piece, good or damaged before, against
//! a plain model.

mod common;

use std::collections::{BTreeSet, HashMap};
use std::iter::repeat;
use std::sync::LazyLock;

use common::{around_a_million, bytes, excludes, many, misleading_memo, sheets, Answers, BUDGET};
use linked::straight::seldom_told;
use linked::{
    figures_end, figures_feed, figures_print, prepare, Stream, Tables, BEGUN, FIGURES, LINES,
    MEMO_WORDS, SHEET,
};
use reference::encode::encode;
use reference::figures::{figures_by, stream_of, Figures, MAX_LENGTHS};
use reference::random::{damaged, good, Random, Size};
use reference::read::read;
use reference::records::wide;
use reference::sheet::{has_constraint, Sheet, MAX_TRACE};
use reference::verify::{verify, Answer};

/// A product line: hundreds of sheets of all kinds in no order, empty ones and too long
/// ones among them, and the answers to them.
struct Line {
    sheets: Vec<Vec<u8>>,
    stream: Vec<u8>,
    answers: Answers,
}

impl Line {
    fn of(mut sheets: Vec<Vec<u8>>, random: &mut Random) -> Line {
        shuffle(&mut sheets, random);
        let mut answers = Answers::default();
        for sheet in &sheets {
            answers.to(sheet);
        }
        Line {
            stream: stream_of(&sheets),
            sheets,
            answers,
        }
    }

    fn answers(&self) -> Vec<Answer> {
        let mut answers = self.answers.clone();
        self.sheets.iter().map(|sheet| answers.to(sheet)).collect()
    }
}

static LINE: LazyLock<Line> = LazyLock::new(|| {
    let mut random = Random::new(81);
    let mut line: Vec<Vec<u8>> = sheets(80).into_iter().step_by(15).collect();
    line.extend((0..40).map(|_| encode(&many(&mut random))));
    line.extend(around_a_million().into_iter().map(|(sheet, ..)| sheet));
    line.extend((16..26).map(|probes| encode(&seldom_told(probes))));
    line.extend([1025, 1026, 1100, 4097].map(|length| bytes(&mut random, length)));
    line.extend(vec![vec![]; 5]);
    Line::of(line, &mut random)
});

/// The same of sheets that are verified quickly.
static QUICK: LazyLock<Line> = LazyLock::new(|| {
    let mut random = Random::new(82);
    let mut line = Vec::new();
    line.extend((0..160).map(|_| encode(&good(&mut random, &Size::SMALL))));
    line.extend((0..80).map(|_| damaged(&mut random, &Size::SMALL)));
    line.extend((0..20).map(|k| encode(&seldom_told(13 + k % 3))));
    line.extend([1025, 1026, 1200].map(|length| bytes(&mut random, length)));
    line.extend(vec![vec![]; 20]);
    Line::of(line, &mut random)
});

fn shuffle<T>(elements: &mut [T], random: &mut Random) {
    for index in (1..elements.len()).rev() {
        elements.swap(index, random.between(0, index));
    }
}

/// How many answers there are of each kind.
fn kinds(answers: &[Answer]) -> [usize; 4] {
    let mut kinds = [0; 4];
    for answer in answers {
        let kind = match answer {
            Answer::Valid { .. } => 0,
            Answer::Invalid { .. } => 1,
            Answer::Stopped { .. } => 2,
            Answer::Refused(_) => 3,
        };
        kinds[kind] += 1;
    }
    kinds
}

/// The memory that is lent beside the state, with any numbers in it.
struct Lent {
    tables: Tables,
    memo: Box<[u64; MEMO_WORDS]>,
}

impl Lent {
    fn any(random: &mut Random) -> Lent {
        Lent {
            tables: Tables::filled(|| random.bits()),
            memo: Box::new([0; MEMO_WORDS].map(|_: u64| random.bits())),
        }
    }

    fn feed(&mut self, piece: &[u8], stream: &mut Stream) -> bool {
        figures_feed(piece, stream, &mut self.tables, &mut self.memo)
    }

    /// The figures of a stream that is fed in these pieces.
    fn figures<'a>(&mut self, pieces: impl IntoIterator<Item = &'a [u8]>) -> [u64; FIGURES] {
        let mut stream = Stream::empty();
        for piece in pieces {
            self.feed(piece, &mut stream);
        }
        ended(&stream)
    }

    /// The line for a stream that is fed in one piece.
    fn line(&mut self, stream: &[u8]) -> String {
        let mut out = [0; LINES];
        let length = figures_print(&self.figures([stream]), &mut out);
        String::from_utf8(out[..length].to_vec()).expect("ASCII")
    }
}

/// The figures of a stream that ends in this state.
fn ended(stream: &Stream) -> [u64; FIGURES] {
    let mut figures = [7; FIGURES];
    figures_end(stream, &mut figures);
    figures
}

/// What a piece leads to.
struct After {
    stream: Stream,
    /// Whether nothing more is looked at.
    done: bool,
    /// The sheets that were verified.
    sheets: Vec<Vec<u8>>,
}

/// What a piece leads to from a state, whatever its numbers: what is begun and the piece
/// are one list of bytes, which is taken apart anew.
fn after(before: &Stream, piece: &[u8], answers: &mut Answers) -> After {
    let [figures @ .., lengths, held] = before.numbers;
    let said = 256 * u64::from(before.begun[0]) + u64::from(before.begun[1]);
    let held = held.min(2 + said) as usize;
    let begun = before.begun.iter().copied().chain(repeat(0)).take(held);
    let all: Vec<u8> = begun.chain(piece.iter().copied()).collect();

    let left = (MAX_LENGTHS as u64).saturating_sub(lengths);
    let (sheets, rest) = whole_sheets(&all, left);
    let rest = match sheets.len() as u64 == left {
        true => &[],
        false => rest,
    };
    let [mut valid, mut invalid, mut stopped, mut refused, mut sum, mut greatest]: [u64; 6] =
        figures;
    let answers: Vec<Answer> = sheets.iter().map(|sheet| answers.to(sheet)).collect();
    let [more_valid, more_invalid, more_stopped, more_refused] = kinds(&answers);
    for (number, more) in [
        (&mut valid, more_valid),
        (&mut invalid, more_invalid),
        (&mut stopped, more_stopped),
        (&mut refused, more_refused),
    ] {
        *number = number.wrapping_add(more as u64);
    }
    for answer in answers {
        match answer {
            Answer::Valid { count } => sum = sum.wrapping_add(count.into()),
            Answer::Stopped { .. } => sum = sum.wrapping_add(BUDGET.into()),
            Answer::Invalid { count, length } => {
                sum = sum.wrapping_add(count.into());
                greatest = greatest.max(length as u64);
            }
            Answer::Refused(_) => {}
        }
    }
    let lengths = lengths + sheets.len() as u64;
    let begun = rest.len() as u64;
    let numbers = [
        valid, invalid, stopped, refused, sum, greatest, lengths, begun,
    ];
    let mut kept = rest.to_vec();
    // Of a sheet that is too long only the length is kept; its first byte may tell.
    let said = kept
        .iter()
        .chain(&[0, 0])
        .take(2)
        .fold(0, |n, &b| 256 * n + usize::from(b));
    if said > SHEET {
        kept.truncate(2);
    }
    kept.resize(BEGUN, 0);
    After {
        stream: Stream {
            numbers,
            begun: kept.try_into().unwrap(),
        },
        done: lengths >= MAX_LENGTHS as u64,
        sheets: sheets.iter().map(|sheet| sheet.to_vec()).collect(),
    }
}

/// The sheets that are whole, at most so many, and the bytes behind them.
fn whole_sheets(bytes: &[u8], most: u64) -> (Vec<&[u8]>, &[u8]) {
    let mut sheets = Vec::new();
    let mut rest = bytes;
    while (sheets.len() as u64) < most {
        let [high, low, behind @ ..] = rest else {
            break;
        };
        let length = 256 * usize::from(*high) + usize::from(*low);
        if behind.len() < length {
            break;
        }
        let (sheet, others) = behind.split_at(length);
        sheets.push(sheet);
        rest = others;
    }
    (sheets, rest)
}

#[test]
fn hundreds_of_sheets() {
    let mut lent = Lent::any(&mut Random::new(83));
    for line in [&*LINE, &*QUICK] {
        let mut answers = line.answers.clone();
        let expected = answers.figures(&line.stream);
        assert_eq!(lent.figures([&line.stream[..]]), expected.numbers());
        assert_eq!(lent.line(&line.stream).into_bytes(), expected.line());
        assert!(line.sheets.len() >= 280, "{} sheets", line.sheets.len());
        let kinds = kinds(&line.answers());
        assert!(kinds.iter().all(|&count| count >= 20), "{kinds:?}");
        let figures = expected.numbers();
        assert_eq!(figures[..4], kinds.map(|kind| kind as u64));
        assert!(figures[4] > 15_000_000 && figures[5] > 2, "{figures:?}");
        let long = line.sheets.iter().filter(|sheet| sheet.len() > SHEET);
        let empty = line.sheets.iter().filter(|sheet| sheet.is_empty());
        assert!(long.count() >= 3 && empty.count() >= 5);
        let excluding = line.sheets.iter().filter(|sheet| excludes(sheet)).count();
        let first = line.sheets.iter().flat_map(|sheet| read(sheet));
        let first = first.filter(|sheet| !has_constraint(sheet.edition)).count();
        assert!(excluding >= 50 && first >= 50, "{excluding} {first}");
    }
}

/// All answers by the Rust implementation's tree, each sheet being verified once.
#[test]
fn answers_by_the_tree() {
    let mut lent = Lent::any(&mut Random::new(97));
    let mut answers = HashMap::new();
    let expected = figures_by(
        |sheet| {
            let answer = || verify(sheet, BUDGET, &mut [0; MAX_TRACE]);
            *answers.entry(sheet.to_vec()).or_insert_with(answer)
        },
        &QUICK.stream,
    );
    assert_eq!(lent.figures([&QUICK.stream[..]]), expected.numbers());
    assert!(expected.stopped >= 20, "{expected:?}");
}

/// The state after every piece, from the state before and from all bytes so far, and the
/// figures at the end.
#[test]
fn in_pieces() {
    let mut random = Random::new(84);
    let mut lent = Lent::any(&mut random);
    let mut compared = [0; 3];
    for (line, often) in [(&*LINE, 500), (&*QUICK, 20)] {
        let mut answers = line.answers.clone();
        let expected = answers.figures(&line.stream).numbers();
        for pieces in [
            in_equal_pieces(&line.stream, 1),
            in_equal_pieces(&line.stream, 2),
            in_equal_pieces(&line.stream, 3),
            in_random_pieces(&line.stream, 40, &mut random),
            in_random_pieces(&line.stream, 3000, &mut random),
        ] {
            let mut stream = Stream::empty();
            let mut fed = 0;
            for piece in pieces {
                let model = after(&stream, piece, &mut answers);
                let done = lent.feed(piece, &mut stream);
                fed += piece.len();
                assert_eq!((&stream, done), (&model.stream, false), "{fed} bytes");
                compared[0] += 1;
                compared[1] += usize::from(piece.is_empty());
                if random.chance(1, often) {
                    let model = after(&Stream::empty(), &line.stream[..fed], &mut answers);
                    assert_eq!(stream, model.stream, "{fed} bytes");
                    compared[2] += 1;
                }
            }
            assert_eq!(fed, line.stream.len());
            assert_eq!(ended(&stream), expected);
        }
    }
    let [pieces, empty, from_the_start] = compared;
    assert!(pieces >= 50_000, "{compared:?}");
    assert!(empty >= 200 && from_the_start >= 500, "{compared:?}");
}

fn in_equal_pieces(stream: &[u8], length: usize) -> Vec<&[u8]> {
    stream.chunks(length).collect()
}

/// Pieces of up to so many bytes, some of none.
fn in_random_pieces<'a>(stream: &'a [u8], most: usize, random: &mut Random) -> Vec<&'a [u8]> {
    let mut pieces = vec![&stream[..0]];
    let mut rest = stream;
    while !rest.is_empty() {
        let length = match random.chance(1, 5) {
            true => 0,
            false => random.between(1, most).min(rest.len()),
        };
        let (piece, others) = rest.split_at(length);
        pieces.push(piece);
        rest = others;
    }
    pieces.push(rest);
    pieces
}

/// At each of the last two thousand bytes, and behind none and one.
#[test]
fn cut_anywhere() {
    let mut lent = Lent::any(&mut Random::new(85));
    let mut answers = QUICK.answers.clone();
    let stream = &QUICK.stream;
    let first = stream.len() - 2000;
    let [mut cut, mut whole] = [0; 2];
    for length in [0, 1].into_iter().chain(first..=stream.len()) {
        let stream = &stream[..length];
        let expected = answers.figures(stream).numbers();
        assert_eq!(lent.figures([stream]), expected, "{length} bytes");
        match whole_sheets(stream, u64::MAX).1 {
            [] => whole += 1,
            _ => cut += 1,
        }
    }
    assert!(cut >= 1500 && whole >= 30, "{cut} {whole}");
    // The other stream from a state that is kept, near its end.
    let mut answers = LINE.answers.clone();
    let (before, rest) = LINE.stream.split_at(LINE.stream.len() - 2000);
    let mut kept = Stream::empty();
    assert!(!lent.feed(before, &mut kept));
    for length in (0..=rest.len()).step_by(7) {
        let mut stream = kept.clone();
        assert!(!lent.feed(&rest[..length], &mut stream));
        let all = &LINE.stream[..before.len() + length];
        let expected = answers.figures(all).numbers();
        assert_eq!(ended(&stream), expected, "{} bytes", all.len());
    }
}

/// A valid sheet with two histories, and one that is invalid after two, with one action.
const VALID: [u8; 9] = [0x11, 0x0c, 0x90, 0x88, 0x1c, 0x40, 0x88, 0x20, 0x00];
const INVALID: [u8; 7] = [0x11, 0x0c, 0x90, 0x88, 0x11, 0x04, 0x00];

#[test]
fn no_input() {
    let mut lent = Lent::any(&mut Random::new(86));
    assert_eq!(lent.figures([]), [0; FIGURES]);
    let mut stream = Stream::empty();
    for _ in 0..3 {
        assert!(!lent.feed(&[], &mut stream));
        assert_eq!(stream, Stream::empty());
    }
    assert_eq!(lent.line(&[]), "0 0 0 0 0 0\n");
}

#[test]
fn few_bytes() {
    let mut lent = Lent::any(&mut Random::new(87));
    let [valid, invalid] = [stream_of([VALID]), stream_of([INVALID])];
    for (parts, expected) in [
        (vec![&valid[..]], "1 0 0 0 2 0\n"),
        (vec![&invalid], "0 1 0 0 2 1\n"),
        (vec![&valid, &invalid, &valid], "2 1 0 0 6 1\n"),
        // One byte of a length, and a length alone.
        (vec![&[0]], "0 0 0 1 0 0\n"),
        (vec![&[255]], "0 0 0 1 0 0\n"),
        (vec![&invalid, &[0]], "0 1 0 1 2 1\n"),
        (vec![&[0, 1]], "0 0 0 1 0 0\n"),
        // Sheets without a byte.
        (vec![&[0, 0]], "0 0 0 1 0 0\n"),
        (vec![&[0, 0], &valid, &[0, 0], &[0]], "1 0 0 3 2 0\n"),
        // A length of 65,535, cut.
        (vec![&[255, 255]], "0 0 0 1 0 0\n"),
        (vec![&[255, 255], &valid, &valid], "0 0 0 1 0 0\n"),
        (vec![&valid, &[255, 255], &[0; 65_534]], "1 0 0 1 2 0\n"),
        // The same whole, and what stands behind it.
        (vec![&[255, 255], &[0; 65_535]], "0 0 0 1 0 0\n"),
        (vec![&[255, 255], &[0; 65_535], &valid], "1 0 0 1 2 0\n"),
        // Lengths around that of the longest sheet.
        (vec![&[4, 0], &[0; 1024], &valid], "1 0 0 1 2 0\n"),
        (vec![&[4, 1], &[0; 1025], &valid], "1 0 0 1 2 0\n"),
        (vec![&[4, 1], &[0; 1024]], "0 0 0 1 0 0\n"),
        (vec![&[4, 2], &[0; 1025], &valid], "0 0 0 2 0 0\n"),
    ] {
        let stream = parts.concat();
        assert_eq!(lent.line(&stream), expected, "{parts:?}");
        let figures = Answers::default().figures(&stream);
        assert_eq!(figures.line(), expected.as_bytes());
    }
}

/// Lengths around those at which a sheet is too long, or its length has another first
/// byte, with sheets that are valid where they may be; cut at every byte.
#[test]
fn lengths_around_limits() {
    let mut random = Random::new(88);
    let mut lent = Lent::any(&mut random);
    let mut answers = Answers::default();
    let mut valid = 0;
    for length in [255, 256, 257, 1022, 1023, 1024, 1025, 1026, 1027] {
        let leaves = (1..1500).map(|leaves| {
            encode(&Sheet {
                start: wide(leaves),
                ..reference::edges::plain()
            })
        });
        let mut sheets = leaves.filter(|sheet| sheet.len() == length);
        let sheet = sheets.next().expect("a sheet of each length");
        let all = stream_of([&sheet[..], &VALID]);
        valid += answers.figures(&all).valid;
        for cut in 0..=all.len() {
            let mut stream = Stream::empty();
            let (first, second) = all.split_at(cut);
            for piece in [first, second] {
                let model = after(&stream, piece, &mut answers);
                lent.feed(piece, &mut stream);
                assert_eq!(stream, model.stream, "{cut} of {length} bytes");
            }
            assert_eq!(ended(&stream), answers.figures(&all).numbers());
        }
    }
    // With the one behind each.
    assert_eq!(valid, 9 + 6);
}

/// The sheet of the last length is still read; what stands behind it is not looked at, in
/// whatever piece it comes.
#[test]
fn most_lengths() {
    let mut random = Random::new(89);
    let mut lent = Lent::any(&mut random);
    let mut answers = Answers::default();
    let short: Vec<Vec<u8>> = (0..MAX_LENGTHS - 1)
        .map(|index| match index % 100 {
            0 => VALID.to_vec(),
            1 => INVALID.to_vec(),
            2 => vec![0x41],
            _ => vec![],
        })
        .collect();
    let short = stream_of(&short);
    let wide = encode(&Sheet {
        start: wide(1362),
        ..reference::edges::plain()
    });
    let behind = stream_of([&VALID[..], &INVALID, &[]]);
    for last in [
        &[][..],
        &VALID,
        &INVALID,
        &wide,
        &[0x11; SHEET + 1],
        &[0x11; 5000],
    ] {
        let last = stream_of([last]);
        let whole = [&short[..], &last].concat();
        let expected = answers.figures(&whole).numbers();
        assert_eq!(expected[..4].iter().sum::<u64>(), 65_535);
        let more = [&whole[..], &behind].concat();
        assert_eq!(answers.figures(&more).numbers(), expected);
        assert_eq!(lent.figures([&whole[..]]), expected);
        assert_eq!(lent.figures([&more[..]]), expected);
        for pieces in [
            more.chunks(65_536).collect(),
            in_random_pieces(&more, 20_000, &mut random),
        ] {
            assert_eq!(lent.figures(pieces), expected);
        }

        // It is done with the last byte and not before.
        let mut stream = Stream::empty();
        assert!(!lent.feed(&short, &mut stream));
        for (index, byte) in last.iter().enumerate() {
            let mut ending = ended(&stream);
            // Cut here, the last counts as refused, but nothing of it is begun at first.
            ending[3] += u64::from(index == 0);
            assert_eq!(ending[..4].iter().sum::<u64>(), 65_535);
            let model = after(&stream, &[*byte], &mut answers);
            let done = lent.feed(&[*byte], &mut stream);
            assert_eq!((&stream, done), (&model.stream, index + 1 == last.len()));
        }
        assert_eq!(ended(&stream), expected);
        // Then nothing changes any more.
        let read = stream.clone();
        for piece in [&behind[..], &behind[..1], &[], &whole] {
            let (tables, memo) = (lent.tables.clone(), lent.memo.clone());
            assert!(lent.feed(piece, &mut stream));
            assert_eq!(stream, read);
            assert!(lent.tables == tables && lent.memo == memo);
        }
        assert_eq!(ended(&stream), expected);
    }
}

#[test]
fn sums_above_32_bits() {
    let mut lent = Lent::any(&mut Random::new(90));
    let mut answers = Answers::default();
    let stopped = encode(&seldom_told(64));
    for count in [4294, 4295, 6000] {
        let stream = stream_of(vec![&stopped; count]);
        let expected = [0, 0, count as u64, 0, 1_000_000 * count as u64, 0];
        assert_eq!(answers.figures(&stream).numbers(), expected);
        assert_eq!(lent.figures(stream.chunks(65_536)), expected);
    }
    assert!(6000 * u64::from(BUDGET) > u32::MAX.into());
}

/// The figures of a stream of whole sheets and of one behind it are the sums, and the
/// greater of the last.
#[test]
fn one_stream_behind_another() {
    let mut random = Random::new(91);
    let mut lent = Lent::any(&mut random);
    let all = lent.figures([&QUICK.stream[..]]);
    for _ in 0..100 {
        let count = random.between(0, QUICK.sheets.len());
        let (first, second) = QUICK.sheets.split_at(count);
        let [one, other] = [first, second].map(|sheets| lent.figures([&stream_of(sheets)[..]]));
        let mut sums = [0, 1, 2, 3, 4, 5].map(|i| one[i] + other[i]);
        sums[5] = one[5].max(other[5]);
        assert_eq!(sums, all);
    }
}

/// A number of 64 bits, often one at which something ends.
fn any_number(random: &mut Random) -> u64 {
    match random.below(4) {
        0 => random.below(5) as u64,
        1 => u64::MAX - random.below(5) as u64,
        2 => u64::MAX - random.below(3_000_000) as u64,
        _ => random.bits() ^ random.bits() << 11,
    }
}

/// A state with any numbers, often ones that a good state has or almost has; and a piece
/// to be fed, often with what would be the rest of what is begun.
fn any_state(random: &mut Random) -> (Stream, Vec<u8>) {
    let sheet = match random.below(8) {
        0 => vec![],
        1 => {
            let length = *random.pick(&[1023, 1024, 1025, 1026, 3000, 65_535]);
            bytes(random, length)
        }
        2 => random.pick(&LINE.sheets).clone(),
        _ => random.pick(&QUICK.sheets).clone(),
    };
    let whole = stream_of([&sheet]);
    let mut begun = match random.below(4) {
        0 => bytes(random, BEGUN),
        _ => whole.clone(),
    };
    begun.truncate(BEGUN);
    if random.chance(1, 2) {
        let more = BEGUN - begun.len();
        begun.extend(bytes(random, more));
    }
    begun.resize(BEGUN, 0);
    let begun: [u8; BEGUN] = begun.try_into().unwrap();

    let mut numbers = [0; 8].map(|_: u64| any_number(random));
    numbers[5] = match random.chance(1, 2) {
        true => random.below(70) as u64,
        false => numbers[5],
    };
    let most = MAX_LENGTHS as u64;
    numbers[6] = match random.below(6) {
        0 => numbers[6],
        1 => most - random.below(5) as u64,
        2 => most + *random.pick(&[0, 0, 1, 2, 65_535, 65_536, 1 << 32]),
        _ => random.below(most as usize) as u64,
    };
    let said = 2 + 256 * u64::from(begun[0]) + u64::from(begun[1]);
    numbers[7] = match random.below(8) {
        0 => numbers[7],
        1 => random.below(4) as u64,
        2 => said - random.below(3) as u64,
        3 => said + *random.pick(&[1, 2, 1 << 16, 1 << 32, u64::MAX / 2]),
        4 => 1024 + random.below(5) as u64,
        _ => random.between(0, said as usize) as u64,
    };
    let stream = Stream { numbers, begun };

    let held = numbers[7].min(said) as usize;
    let mut piece = match random.below(4) {
        0 => vec![],
        1 => {
            let length = random.between(0, 200);
            bytes(random, length)
        }
        // The rest of the sheet, or as many bytes as its length asks for.
        _ => match held < whole.len() && whole[..2] == begun[..2] {
            true => whole[held..].to_vec(),
            false => bytes(random, said as usize - held),
        },
    };
    if random.chance(1, 4) && !piece.is_empty() {
        piece.truncate(random.below(piece.len()));
    }
    if random.chance(2, 3) {
        let more = (0..random.between(0, 6)).map(|_| random.pick(&QUICK.sheets));
        piece.extend(stream_of(more));
    }
    (stream, piece)
}

/// States with any numbers; and what a call leaves in the lent tables and memo, whatever
/// was there: the tables of the last sheet that it accepted and zeros, else what was there.
#[test]
fn damaged_states() {
    let mut random = Random::new(92);
    let mut lent = Lent::any(&mut random);
    let mut tables = lent.tables.clone();
    let mut answers = LINE.answers.clone();
    for sheet in &QUICK.sheets {
        answers.to(sheet);
    }
    let [mut done, mut at_last, mut accepted, mut several, mut none] = [0; 5];
    let [mut kept, mut passed_over, mut wrapped, mut misleading] = [0; 4];
    for _ in 0..6000 {
        let (before, piece) = any_state(&mut random);
        let model = after(&before, &piece, &mut answers);
        let prepared = model.sheets.iter().filter(|sheet| read(sheet).is_ok());
        let mut memo = [0; MEMO_WORDS].map(|_: u64| random.bits());
        let mut count = 0;
        for sheet in prepared {
            let mut start = [0; 4];
            assert_eq!(prepare(sheet, &mut tables, &mut start), 0);
            count += 1;
            if count == 1 {
                let misled;
                (memo, misled) = misleading_memo(&mut random, &tables, &start);
                misleading += usize::from(misled);
            }
        }
        *lent.memo = memo;
        if count > 0 {
            memo = [0; MEMO_WORDS];
        }

        let mut stream = before.clone();
        let found = lent.feed(&piece, &mut stream);
        assert_eq!((&stream, found), (&model.stream, model.done), "{before:?}");
        assert!(lent.tables == tables, "{before:?}");
        assert!(*lent.memo == memo, "{before:?}");

        let sheets = model.sheets.len();
        done += usize::from(model.done && sheets == 0);
        at_last += usize::from(model.done && sheets > 0);
        accepted += usize::from(count > 0);
        several += usize::from(count > 1);
        none += usize::from(count == 0 && sheets > 0);
        kept += usize::from((1..=1026).contains(&stream.numbers[7]));
        passed_over += usize::from(stream.numbers[7] > 1026);
        wrapped += usize::from(stream.numbers[4] < before.numbers[4]);
    }
    let counts = [
        done,
        at_last,
        accepted,
        several,
        none,
        kept,
        passed_over,
        wrapped,
        misleading,
    ];
    assert!(counts.iter().all(|&count| count >= 100), "{counts:?}");
}

/// States with any numbers; which bytes are begun makes no difference, only whether any
/// are.
#[test]
fn ends() {
    let mut random = Random::new(93);
    for _ in 0..2000 {
        let mut numbers = [0; 8].map(|_: u64| any_number(&mut random));
        numbers[7] = match random.chance(1, 2) {
            true => *random.pick(&[0, 0, 0, 1, 1 << 32, u64::MAX]),
            false => numbers[7],
        };
        let [figures @ .., _, begun] = numbers;
        let mut expected = figures;
        expected[3] = expected[3].wrapping_add(u64::from(begun > 0));
        let any = bytes(&mut random, BEGUN);
        for kept in [vec![0; BEGUN], any, vec![255; BEGUN]] {
            let stream = Stream {
                numbers,
                begun: kept.try_into().unwrap(),
            };
            let mut found = [0; FIGURES].map(|_: u64| random.bits());
            figures_end(&stream, &mut found);
            assert_eq!(found, expected, "{stream:?}");
        }
    }
}

/// Any six numbers; behind the line the memory keeps its bytes.
#[test]
fn printed_lines() {
    let mut random = Random::new(94);
    let tens = (0..20).map(|power| 10_u64.pow(power));
    let ends = [u32::MAX.into(), 1 << 32, 1 << 63, u64::MAX, u64::MAX - 1];
    let around = |number: u64| [number - 1, number, number.saturating_add(1)];
    let numbers: BTreeSet<u64> = tens.chain(ends).flat_map(around).collect();
    let numbers: Vec<u64> = numbers.into_iter().collect();
    let mut compare = |figures: [u64; FIGURES]| {
        let before: [u8; LINES] = bytes(&mut random, LINES).try_into().unwrap();
        let mut out = before;
        let length = figures_print(&figures, &mut out);
        let [valid, invalid, stopped, refused, sum, greatest] = figures;
        let line = format!("{valid} {invalid} {stopped} {refused} {sum} {greatest}\n");
        let mut expected = before;
        expected[..line.len()].copy_from_slice(line.as_bytes());
        assert_eq!(length, line.len(), "{line}");
        assert_eq!(out, expected, "{line}");
        let figures = Figures {
            valid,
            invalid,
            stopped,
            refused,
            sum,
            greatest,
        };
        assert_eq!(line.as_bytes(), figures.line());
        length
    };
    for &number in &numbers {
        for index in 0..FIGURES {
            let mut figures = [0; FIGURES];
            figures[index] = number;
            compare(figures);
        }
        compare([number; FIGURES]);
    }
    assert_eq!(compare([0; FIGURES]), 12);
    assert_eq!(compare([u64::MAX; FIGURES]), 126);
    let mut random = Random::new(95);
    for _ in 0..2000 {
        compare([0; FIGURES].map(|_: u64| *random.pick(&numbers)));
        compare([0; FIGURES].map(|_: u64| any_number(&mut random) >> random.below(64)));
    }
    assert!([0, 9, 10, 1 << 32, u64::MAX]
        .iter()
        .all(|number| numbers.contains(number)));
}

/// Stack that the tables don't fit on.
const SMALL_STACK: usize = 1 << 17;

#[test]
fn on_a_small_stack() {
    let mut lent = Lent::any(&mut Random::new(96));
    let expected = LINE.answers.clone().figures(&LINE.stream).numbers();
    let calls = move || lent.figures(LINE.stream.chunks(65_536));
    let thread = std::thread::Builder::new().stack_size(SMALL_STACK);
    assert_eq!(thread.spawn(calls).unwrap().join().unwrap(), expected);
}
