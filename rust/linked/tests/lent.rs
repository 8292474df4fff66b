//! The proved verifier and trace checker in lent tables and a lent memo, against
//! those in memory of their own and the Rust implementation; and all lent forms on
//! a small stack.

mod common;

use common::{misleading_memo, sheets, Case, BUDGET, FEW};
use linked::{
    check, check_in, load_in, next_in, prepare, report_in, verify_words, verify_words_in, Record,
    Tables, Verdict, MEMO_WORDS, REPLIES, SHEET,
};
use reference::check::Checked;
use reference::random::Random;
use reference::sheet::MAX_TRACE;
use reference::verify::Answer;

/// Memory for a trace, of too few bytes, just enough and more.
const LENGTHS: [usize; 3] = [MAX_TRACE - 1, MAX_TRACE, 200];

#[test]
fn verdicts_in_lent_memory() {
    let mut random = Random::new(60);
    let [mut valid, mut invalid, mut stopped, mut refused, mut misleading] = [0; 5];
    let mut short = 0;
    for case in sheets(61).into_iter().step_by(3).map(Case::new) {
        let mut tables = Tables::filled(|| random.bits());
        for budget in [0, FEW, BUDGET] {
            let length = *random.pick(&LENGTHS);
            let before = common::bytes(&mut random, length);
            let [mut lent, mut own, mut trace] = [(); 3].map(|()| before.clone());
            let words = [0; 3].map(|_: u64| random.bits());
            let [mut own_verdict, mut verdict] = [words; 2];

            // The tables that are expected behind the call.
            let (mut made, mut start) = (tables.clone(), [0; 4]);
            let number = prepare(&case.bytes, &mut made, &mut start);
            let (mut memo, misled) = misleading_memo(&mut random, &made, &start);
            let mut left = memo;
            if length < MAX_TRACE || number != 0 {
                made = tables.clone();
            } else {
                left = [0; MEMO_WORDS];
                misleading += usize::from(misled);
            }

            let answer = case.verify(budget, &mut lent);
            let own_number = verify_words(&case.bytes, budget, &mut own, &mut own_verdict);
            let number = verify_words_in(
                &case.bytes,
                budget,
                &mut trace,
                &mut verdict,
                &mut tables,
                &mut memo,
            );
            let expected = match answer {
                Answer::Valid { count } => (0, [0, count.into(), 0]),
                Answer::Invalid { count, length } => (0, [1, count.into(), length as u64]),
                Answer::Stopped { budget } => (0, [2, budget.into(), 0]),
                Answer::Refused(refusal) => (refusal.number(), words),
            };
            let shown = format!("budget {budget}, sheet {:02x?}", case.bytes);
            assert_eq!((number, verdict), expected, "{shown}");
            assert_eq!((own_number, own_verdict), expected, "{shown}");
            assert_eq!(trace, lent, "{shown}");
            assert_eq!(own, lent, "{shown}");
            assert!(tables == made, "{shown}");
            assert!(memo == left, "{shown}");
            match answer {
                Answer::Valid { .. } => valid += 1,
                Answer::Invalid { .. } => invalid += 1,
                Answer::Stopped { .. } => stopped += 1,
                Answer::Refused(_) if length < MAX_TRACE => short += 1,
                Answer::Refused(_) => refused += 1,
            }
        }
    }
    let counts = [valid, invalid, stopped, refused, short, misleading];
    assert!(counts.iter().all(|&count| count >= 300), "{counts:?}");
}

#[test]
fn traces_in_lent_tables() {
    let mut random = Random::new(62);
    let [mut yes, mut no, mut refused] = [0; 3];
    let mut tables = Tables::filled(|| random.bits());
    for case in sheets(63).into_iter().step_by(3).map(Case::new) {
        if random.between(0, 3) == 0 {
            tables = Tables::filled(|| random.bits());
        }
        let mut memory = [0; MAX_TRACE];
        let length = match linked::verify(&case.bytes, FEW, &mut memory) {
            Ok(Verdict::Invalid { length, .. }) => 1 + 2 * length,
            _ => random.between(0, MAX_TRACE),
        };
        let mut other = memory;
        other[random.between(0, length.max(1) - 1)] ^= 1 << random.between(0, 7);
        for trace in [
            &memory[..length],
            &other[..length],
            &memory[..length.saturating_sub(1)],
        ] {
            let mut made = tables.clone();
            prepare(&case.bytes, &mut made, &mut [0; 4]);
            let expected = match reference::check::check(&case.bytes, trace) {
                Checked::Yes => Ok(true),
                Checked::No => Ok(false),
                Checked::Refused(refusal) => Err(refusal.number()),
            };
            let shown = format!("trace {trace:02x?}, sheet {:02x?}", case.bytes);
            assert_eq!(
                check_in(&case.bytes, trace, &mut tables),
                expected,
                "{shown}"
            );
            assert_eq!(check(&case.bytes, trace), expected, "{shown}");
            assert!(tables == made, "{shown}");
            match expected {
                Ok(true) => yes += 1,
                Ok(false) => no += 1,
                Err(_) => refused += 1,
            }
        }
    }
    let counts = [yes, no, refused];
    assert!(counts.iter().all(|&count| count >= 300), "{counts:?}");
}

/// Stack that no table fits on.
const SMALL_STACK: usize = 1 << 16;

#[test]
fn lent_calls_on_a_small_stack() {
    let cases: Vec<Vec<u8>> = sheets(64).into_iter().step_by(9).collect();
    let mut tables = Tables::zeroed();
    let mut memo = Box::new([0; MEMO_WORDS]);
    let calls = move || {
        let mut memory = [0; MAX_TRACE];
        let mut reported = 0;
        for bytes in &cases {
            let verdict = linked::verify_in(bytes, FEW, &mut memory, &mut tables, &mut memo);
            if let Ok(Verdict::Invalid { length, .. }) = verdict {
                let trace = &memory[..1 + 2 * length];
                assert_eq!(check_in(bytes, trace, &mut tables), Ok(true));
            }
            let mut record = Record {
                sheet: [0; SHEET],
                replies: [0; REPLIES],
                lengths: [0; 2],
            };
            let loaded = load_in(bytes, &mut record, &mut tables);
            let told = next_in(&record, &mut [0; 2], &mut tables);
            assert_eq!(
                (loaded == 0, told),
                (told == 0, if loaded == 0 { 0 } else { 31 })
            );
            reported += usize::from(report_in(&mut record, 0, &mut tables) == 0);
        }
        assert!(reported >= 100, "{reported}");
        cases.len()
    };
    let thread = std::thread::Builder::new().stack_size(SMALL_STACK);
    assert!(thread.spawn(calls).unwrap().join().unwrap() >= 500);
}
