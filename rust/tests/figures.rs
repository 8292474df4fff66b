//! The figures of streams of sheets, by the words that ask for them.

mod common;

use std::collections::HashMap;

use common::{plain, sample, sequence, unhex, verdict, wide};
use reference::encode::encode;
use reference::figures::{
    figures, figures_by, parts, stream_of, Figures, Part, BUDGET, MAX_LENGTHS,
};
use reference::random::{damaged, good, Random, Size};
use reference::refusal::Refusal;
use reference::sheet::{Action, Objective, Sheet, MAX_BYTES};
use reference::verify::Answer;

/// The line that is printed for a stream.
fn line(stream: &[u8]) -> String {
    String::from_utf8(figures(stream).line()).expect("ASCII")
}

/// The stream of sample sheets.
fn samples(names: &[&str]) -> Vec<u8> {
    stream_of(names.iter().map(|name| sample(name)))
}

/// Streams one behind the other.
fn behind(streams: &[&[u8]]) -> Vec<u8> {
    streams.concat()
}

/// A straight program of probes with these numbers of replies, all of them true.
fn straight(replies: &[u8]) -> Vec<u8> {
    let probe = |&replies: &u8| Action::Probe(vec![Objective::True; replies.into()]);
    let numbers: Vec<u8> = (0..).take(replies.len()).collect();
    encode(&Sheet {
        actions: replies.iter().map(probe).collect(),
        program: sequence(&numbers),
        ..plain()
    })
}

/// "... up to the end of the input, which may be empty."
#[test]
fn empty_input() {
    assert_eq!(line(&[]), "0 0 0 0 0 0\n");
    assert_eq!(parts(&[]), []);
}

/// "Sheets ..., each after a 16-bit length, most significant byte first."
#[test]
fn lengths() {
    assert_eq!(stream_of([[]; 0]), []);
    assert_eq!(stream_of([[7; 0]]), [0, 0]);
    assert_eq!(stream_of([&[7, 8][..], &[9]]), [0, 2, 7, 8, 0, 1, 9]);
    let long = [7; 0x1234];
    let stream = stream_of([long]);
    assert_eq!(stream[..3], [0x12, 0x34, 7]);
    assert_eq!(stream.len(), 2 + 0x1234);
    assert_eq!(parts(&stream), [Part::Sheet(&long)]);
    let two = unhex("0002 0102 0001 0a");
    let sheets = [[1, 2].as_slice(), &[10]];
    assert_eq!(parts(&two), sheets.map(Part::Sheet));
    // A valid sheet of 0x102 bytes and one of 0x201, as wide as it takes.
    for length in [0x102_u16, 0x201] {
        let sheets = (1..1000).map(|leaves| Sheet {
            start: wide(leaves),
            ..plain()
        });
        let sheet = sheets
            .map(|sheet| encode(&sheet))
            .find(|bytes| bytes.len() == length.into());
        let stream = behind(&[&length.to_be_bytes(), &sheet.unwrap(), &samples(&["01"])]);
        assert_eq!(line(&stream), "2 0 0 0 2 0\n");
    }
}

/// Each answer by itself, as document 01 gives it.
#[test]
fn one_sheet() {
    for (name, expected) in [
        ("01", "1 0 0 0 2 0\n"),
        ("02", "0 1 0 0 2 1\n"),
        ("03", "0 0 0 1 0 0\n"),
        ("05", "0 0 0 1 0 0\n"),
        ("09", "1 0 0 0 7 0\n"),
        ("10", "0 1 0 0 3 2\n"),
        ("11", "0 1 0 0 0 0\n"),
        ("12", "1 0 0 0 8 0\n"),
        ("13", "0 0 0 1 0 0\n"),
        ("14a", "1 0 0 0 0 0\n"),
        ("14b", "0 0 0 1 0 0\n"),
        ("15", "0 0 0 1 0 0\n"),
        ("16", "0 0 0 1 0 0\n"),
        ("never-both-live", "1 0 0 0 3 0\n"),
        ("twenty-probes", "0 0 1 0 1000000 0\n"),
    ] {
        assert_eq!(line(&samples(&[name])), expected, "case {name}");
    }
}

/// Counts add up, lengths of failing histories don't: the greatest is kept, wherever it
/// stands.
#[test]
fn several_sheets() {
    for (names, expected) in [
        (&["01", "01", "01"][..], "3 0 0 0 6 0\n"),
        (&["02", "02"], "0 2 0 0 4 1\n"),
        (&["02", "10", "11"], "0 3 0 0 5 2\n"),
        (&["10", "02", "11"], "0 3 0 0 5 2\n"),
        (&["11", "11"], "0 2 0 0 0 0\n"),
        (&["twenty-probes", "twenty-probes"], "0 0 2 0 2000000 0\n"),
        (
            &["01", "02", "05", "09", "twenty-probes", "10", "11", "15"],
            "2 3 1 2 1000014 2\n",
        ),
    ] {
        assert_eq!(line(&samples(names)), expected, "{names:?}");
        let turned: Vec<&str> = names.iter().rev().copied().collect();
        assert_eq!(line(&samples(&turned)), expected, "{turned:?}");
    }
}

/// "Each gets budget 1,000,000": so many histories are valid, one more is stopped. It adds
/// its budget.
#[test]
fn budget() {
    // 1 (1 + 5 (1 + ..)) from the end on.
    let million = [8, 7, 8, 1, 5, 5, 8, 5, 1];
    let count = |replies: &[u8]| {
        let replies = replies.iter().rev();
        replies.fold(0, |behind, &replies| u32::from(replies) * (1 + behind))
    };
    assert_eq!(count(&million), 1_000_000);
    let more = [&[1], &million[..]].concat();
    assert_eq!(count(&more), 1_000_001);
    let stream = stream_of([straight(&million)]);
    assert_eq!(line(&stream), "1 0 0 0 1000000 0\n");
    let stream = behind(&[&stream, &stream_of([straight(&more)])]);
    assert_eq!(line(&stream), "1 0 1 0 2000000 0\n");
}

/// "A length or sheet cut by the end of input counts as one refused."
#[test]
fn cut_anywhere() {
    let stream = samples(&["01", "02", "05", "10"]);
    // Where a sheet ends, and the figures up to there.
    let ends = [
        (0, [0, 0, 0, 0, 0, 0]),
        (11, [1, 0, 0, 0, 2, 0]),
        (20, [1, 1, 0, 0, 4, 1]),
        (22, [1, 1, 0, 1, 4, 1]),
        (49, [1, 2, 0, 1, 7, 2]),
    ];
    assert_eq!(stream.len(), 49);
    for length in 0..=stream.len() {
        let (end, mut expected) = *ends.iter().rfind(|(end, _)| *end <= length).unwrap();
        expected[3] += u64::from(end < length);
        let found = figures(&stream[..length]);
        assert_eq!(found.numbers(), expected, "{length} bytes");
    }
    // A length's first byte, whatever it is.
    for byte in 0..=255 {
        assert_eq!(line(&[byte]), "0 0 0 1 0 0\n");
        let stream = behind(&[&samples(&["02"]), &[byte]]);
        assert_eq!(line(&stream), "0 1 0 1 2 1\n");
    }
}

/// A length of 0 is that of the empty sheet, which is whole.
#[test]
fn length_of_0() {
    assert_eq!(line(&[0, 0]), "0 0 0 1 0 0\n");
    assert_eq!(line(&[0; 10]), "0 0 0 5 0 0\n");
    assert_eq!(parts(&[0, 0]), [Part::Sheet(&[])]);
    let stream = behind(&[&[0, 0], &samples(&["01"]), &[0, 0]]);
    assert_eq!(line(&stream), "1 0 0 2 2 0\n");
}

/// Above 1,024 bytes a sheet is refused, and the next length stands behind it.
#[test]
fn long_sheets() {
    let longest = encode(&Sheet {
        start: wide(1362),
        ..plain()
    });
    assert_eq!(longest.len(), MAX_BYTES);
    let next = samples(&["02"]);
    let stream = behind(&[&stream_of([&longest]), &next]);
    assert_eq!(line(&stream), "1 1 0 0 2 1\n");
    for length in [1025, 1026, 2048, 0x8000, 65_535] {
        // The bytes are those of a valid sheet and of the streams of such.
        let mut sheet = behind(&[&sample("01"), &next.repeat(8000)]);
        sheet.truncate(length);
        let stream = stream_of([sheet]);
        assert_eq!(stream.len(), 2 + length);
        assert_eq!(line(&stream), "0 0 0 1 0 0\n");
        assert_eq!(line(&behind(&[&stream, &next])), "0 1 0 1 2 1\n");
        // One refused too where it is cut, even before a sheet would be too long.
        for cut in [1, 2, 3, 11, 1025, 1026, 1027, length, length + 1] {
            assert_eq!(line(&stream[..cut]), "0 0 0 1 0 0\n", "{cut} of {length}");
        }
    }
    let cut = behind(&[&next, &[0xff, 0xff], &next, &samples(&["01"])]);
    assert_eq!(line(&cut), "0 1 0 1 2 1\n");
    assert_eq!(parts(&cut).last(), Some(&Part::Cut));
}

/// "Reading ends after 65,535 lengths": the sheet of the last is still read, and nothing
/// behind it.
#[test]
fn most_lengths() {
    let [first, last] = [samples(&["01"]), samples(&["02"])];
    let before = |count: usize| vec![0; 2 * count];
    let whole = behind(&[&before(65_534), &last]);
    assert_eq!(line(&whole), "0 1 0 65534 2 1\n");
    let one_less = behind(&[&before(65_533), &last]);
    assert_eq!(line(&one_less), "0 1 0 65533 2 1\n");
    assert_eq!(
        line(&behind(&[&one_less, &samples(&["10"])])),
        "0 2 0 65533 5 2\n"
    );
    for more in [
        &first[..],
        &samples(&["10"]),
        &samples(&["10", "01"]),
        &[0, 0],
        &[0],
        &[0xff],
        &[0xff, 0xff],
        &[0xff, 0xff, 1, 2, 3],
        &first[..5],
        &before(65_535),
    ] {
        assert_eq!(line(&behind(&[&whole, more])), "0 1 0 65534 2 1\n");
    }
    // The last sheet is cut, or its length.
    for cut in 1..last.len() {
        let stream = behind(&[&before(65_534), &last[..cut]]);
        assert_eq!(line(&stream), "0 0 0 65535 0 0\n", "{cut} bytes");
    }
    // The last is too long, whole or cut.
    let long = stream_of([[0; 1025]]);
    for cut in [3, 1026, 1027] {
        let stream = behind(&[&before(65_534), &long[..cut]]);
        assert_eq!(line(&stream), "0 0 0 65535 0 0\n", "{cut} bytes");
    }
    let stream = behind(&[&before(65_534), &long, &first]);
    assert_eq!(line(&stream), "0 0 0 65535 0 0\n");
    // Sheets that are longer than none.
    assert_eq!(line(&first.repeat(65_535)), "65535 0 0 0 131070 0\n");
    assert_eq!(line(&first.repeat(65_536)), "65535 0 0 0 131070 0\n");
}

/// The verifier's answers, each sheet verified once.
#[derive(Default)]
struct Answers(HashMap<Vec<u8>, Answer>);

impl Answers {
    fn to(&mut self, sheet: &[u8]) -> Answer {
        let answer = || verdict(sheet, BUDGET).0;
        *self.0.entry(sheet.to_vec()).or_insert_with(answer)
    }
}

#[test]
fn sums_above_32_bits() {
    let mut answers = Answers::default();
    let mut numbers = |stream: &[u8]| figures_by(|sheet| answers.to(sheet), stream).numbers();
    let stopped = samples(&["twenty-probes"]);
    for count in [4294, 4295, 5000, 65_535] {
        let sum = count as u64 * 1_000_000;
        let stream = stopped.repeat(count);
        assert_eq!(numbers(&stream), [0, 0, count as u64, 0, sum, 0]);
    }
    let stream = behind(&[&stopped.repeat(60_000), &samples(&["10", "01"])]);
    assert_eq!(numbers(&stream), [1, 1, 60_000, 0, 60_000_000_005, 2]);
}

/// What counts in an answer: nothing of a refused one, no length in the sum, and no other
/// length than an invalid one's.
#[test]
fn answers_by_hand() {
    let answers = [
        Answer::Valid { count: u32::MAX },
        Answer::Invalid {
            count: u32::MAX,
            length: 64,
        },
        Answer::Stopped { budget: u32::MAX },
        Answer::Refused(Refusal::NoState),
    ];
    let by_number = |sheet: &[u8]| answers[usize::from(sheet[0])];
    let numbers = |sheets: &[u8]| {
        let sheets = sheets.iter().map(|&number| [number]);
        figures_by(by_number, &stream_of(sheets)).numbers()
    };
    let most = u64::from(u32::MAX);
    assert_eq!(numbers(&[0]), [1, 0, 0, 0, most, 0]);
    assert_eq!(numbers(&[1]), [0, 1, 0, 0, most, 64]);
    assert_eq!(numbers(&[2]), [0, 0, 1, 0, most, 0]);
    assert_eq!(numbers(&[3]), [0, 0, 0, 1, 0, 0]);
    assert_eq!(numbers(&[1, 0, 2, 3, 3]), [1, 1, 1, 2, 3 * most, 64]);
}

/// "It prints one line of six decimal numbers with single spaces."
#[test]
fn lines() {
    let figures = Figures {
        valid: 1,
        invalid: 20,
        stopped: 300,
        refused: 65_535,
        sum: u64::MAX,
        greatest: 64,
    };
    assert_eq!(figures.line(), b"1 20 300 65535 18446744073709551615 64\n");
    assert_eq!(Figures::default().line(), b"0 0 0 0 0 0\n");
}

/// Generated sheets: good and damaged ones, the empty one, and ones that are too long.
fn generated(random: &mut Random, count: usize) -> Vec<Vec<u8>> {
    let sheet = |_| match random.below(10) {
        0..5 => encode(&good(random, &Size::SMALL)),
        5 => encode(&good(random, &Size::MEDIUM)),
        6 | 7 => damaged(random, &Size::SMALL),
        8 => vec![0x11; random.between(1025, 3000)],
        _ => vec![],
    };
    (0..count).map(sheet).collect()
}

/// "The four figures add up to the number of lengths begun, and the sum is that of the
/// verifier's own answers."
#[test]
fn generated_streams() {
    let mut random = Random::new(70);
    let mut seen = [0; 6];
    let mut cuts = 0;
    for _ in 0..300 {
        let count = random.between(0, 12);
        let sheets = generated(&mut random, count);
        let stream = stream_of(&sheets);
        let cut = random.between(0, stream.len());
        for stream in [&stream[..], &stream[..cut]] {
            // The lengths that are begun: each where the sheet before it ends.
            let ends = sheets.iter().scan(0, |end, sheet| {
                *end += 2 + sheet.len();
                Some(*end)
            });
            let starts = [0].into_iter().chain(ends.clone());
            let begun = starts.take(count).filter(|&start| start < stream.len());
            let begun = begun.count();
            let whole = ends.filter(|&end| end <= stream.len()).count();
            cuts += usize::from(whole < begun);

            let answers = sheets[..whole].iter().map(|sheet| verdict(sheet, BUDGET).0);
            let answers: Vec<Answer> = answers.collect();
            let counts = answers.iter().map(|&answer| match answer {
                Answer::Valid { count } | Answer::Invalid { count, .. } => u64::from(count),
                Answer::Stopped { budget } => u64::from(budget),
                Answer::Refused(_) => 0,
            });
            let lengths = answers.iter().map(|&answer| match answer {
                Answer::Invalid { length, .. } => length as u64,
                _ => 0,
            });
            let number = |kind: fn(&&Answer) -> bool| answers.iter().filter(kind).count() as u64;
            let found = figures(stream).numbers();
            let expected = [
                number(|answer| matches!(answer, Answer::Valid { .. })),
                number(|answer| matches!(answer, Answer::Invalid { .. })),
                number(|answer| matches!(answer, Answer::Stopped { .. })),
                number(|answer| matches!(answer, Answer::Refused(_))) + (begun - whole) as u64,
                counts.sum(),
                lengths.max().unwrap_or(0),
            ];
            assert_eq!(found, expected);
            assert_eq!(found[..4].iter().sum::<u64>(), begun as u64);
            for (seen, found) in seen.iter_mut().zip(found) {
                *seen += found;
            }
        }
    }
    let [valid, invalid, _, refused, sum, greatest] = seen;
    let seen = [valid, invalid, refused, sum, greatest];
    assert!(seen.iter().all(|&seen| seen >= 200), "{seen:?}");
    assert!(cuts >= 100, "{cuts}");
}

/// The figures of a stream of whole sheets and of a stream behind it are the sums, and the
/// greater of the last.
#[test]
fn one_stream_behind_another() {
    let mut random = Random::new(71);
    let mut greater = [0; 2];
    for _ in 0..200 {
        let [first, mut second] = [(); 2].map(|()| {
            let count = random.between(0, 8);
            stream_of(generated(&mut random, count))
        });
        if random.chance(1, 2) {
            second.truncate(random.between(0, second.len()));
        }
        let [one, other] = [&first, &second].map(|stream| figures(stream).numbers());
        let mut expected = [0, 1, 2, 3, 4, 5].map(|i| one[i] + other[i]);
        expected[5] = one[5].max(other[5]);
        let together = figures(&behind(&[&first, &second]));
        assert_eq!(together.numbers(), expected);
        greater[0] += usize::from(one[5] > other[5]);
        greater[1] += usize::from(one[5] < other[5]);
    }
    assert!(greater.iter().all(|&count| count >= 30), "{greater:?}");
}

/// The limit counts lengths, not sheets that are whole; the parts say where it is.
#[test]
fn parts_up_to_the_limit() {
    let whole = vec![0; 2 * MAX_LENGTHS + 7];
    let parts_of = |length: usize| {
        let parts = parts(&whole[..length]);
        let cut = parts.iter().filter(|part| **part == Part::Cut).count();
        (parts.len(), cut)
    };
    assert_eq!(parts_of(2 * 65_534), (65_534, 0));
    assert_eq!(parts_of(2 * 65_534 + 1), (65_535, 1));
    assert_eq!(parts_of(2 * 65_535), (65_535, 0));
    assert_eq!(parts_of(2 * 65_535 + 1), (65_535, 0));
    assert_eq!(parts_of(whole.len()), (65_535, 0));
}
