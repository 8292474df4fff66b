//! The trace checker against all failing runs and their neighbours.

mod common;

use std::collections::HashSet;

use common::{fact, known, plain, sequence, test, unhex};
use reference::check::{check, Checked};
use reference::encode::encode;
use reference::random::{damaged, good, Random, Size};
use reference::read::read;
use reference::runs::{Listing, Run};
use reference::sheet::Sheet;

fn answer(yes: bool) -> Checked {
    if yes {
        Checked::Yes
    } else {
        Checked::No
    }
}

/// The traces of all failing full runs.
fn failing_traces(listing: &Listing) -> HashSet<Vec<u8>> {
    listing.failing().into_iter().map(Run::trace).collect()
}

#[test]
fn all_runs_and_their_neighbours() {
    let mut random = Random::new(31);
    let (mut sheets, mut yes) = (0, 0);
    while sheets < 250 {
        let sheet = good(&mut random, &Size::SMALL);
        let Some(listing) = Listing::new(&sheet, 60) else {
            continue;
        };
        sheets += 1;
        let bytes = encode(&sheet);
        let failing = failing_traces(&listing);
        let assert_checked = |trace: &[u8]| {
            assert_eq!(
                check(&bytes, trace),
                answer(failing.contains(trace)),
                "{trace:02x?}"
            );
        };
        yes += failing.len();
        for trace in &failing {
            assert_eq!(check(&bytes, trace), Checked::Yes);
        }
        for run in &listing.runs {
            let trace = run.trace();
            assert_checked(&trace);
            for length in 0..trace.len() {
                assert_checked(&trace[..length]);
            }
            for place in 0..trace.len() {
                for byte in (0..40).chain([64, 128, 255, trace[place] ^ 4, trace[place] ^ 32]) {
                    let mut other = trace.clone();
                    other[place] = byte;
                    assert_checked(&other);
                }
            }
            for byte in 0..20 {
                assert_checked(&[&trace[..], &[byte]].concat());
                let last = trace[trace.len() - 1];
                assert_checked(&[&trace[..], &[byte, last]].concat());
            }
        }
    }
    assert!(yes > 300);
}

/// Every trace of up to two steps over bytes that reach past all limits.
#[test]
fn all_short_traces() {
    let mut random = Random::new(32);
    let size = Size {
        facts: (1, 1),
        actions: (1, 2),
        sequence: (1, 3),
        ..Size::SMALL
    };
    let mut sheets = 0;
    while sheets < 100 {
        let sheet = good(&mut random, &size);
        let Some(listing) = Listing::new(&sheet, 500) else {
            continue;
        };
        sheets += 1;
        let bytes = encode(&sheet);
        let failing = failing_traces(&listing);
        let mut traces: Vec<Vec<u8>> = (0..4).map(|start| vec![start]).collect();
        for _ in 0..3 {
            for trace in &traces {
                assert_eq!(check(&bytes, trace), answer(failing.contains(trace)));
            }
            traces = traces
                .iter()
                .flat_map(|trace| {
                    let longer = |event, state| [&trace[..], &[event, state]].concat();
                    (0..=8 * sheet.actions.len() as u8)
                        .flat_map(move |event| (0..3).map(move |state| longer(event, state)))
                })
                .collect();
        }
    }
}

#[test]
fn lengths() {
    let probing = |count: usize| {
        encode(&Sheet {
            actions: vec![test(fact(0))],
            goal: known(fact(0)),
            program: sequence(&vec![0; count]),
            ..plain()
        })
    };
    let trace = |steps| [&[0][..], &[1, 0].repeat(steps)].concat();
    let full = probing(64);
    assert_eq!(check(&full, &trace(64)), Checked::Yes);
    for steps in [0, 1, 63, 65, 66, 1000] {
        assert_eq!(check(&full, &trace(steps)), Checked::No);
    }
    let none = probing(0);
    assert_eq!(check(&none, &[0]), Checked::Yes);
    assert_eq!(check(&none, &[1]), Checked::Yes);
    assert_eq!(check(&none, &[2]), Checked::No);
    assert_eq!(check(&none, &[]), Checked::No);
    assert_eq!(check(&none, &[0, 0]), Checked::No);
}

#[test]
fn any_failing_run_will_do() {
    // Example 1 of the 2012 paper with goal "x1 and x2" known.
    let bytes = unhex(
        "12 1c ba 08 ce 82 32 a8 23 2a 08 af 62 21 d9 44
         95 04 50 47 41 14 22 24 20",
    );
    for failing in ["00 00 00 09 00", "01 01 01 10 00 09 00"] {
        assert_eq!(check(&bytes, &unhex(failing)), Checked::Yes, "{failing}");
    }
    // The goal holds; the reply is false; a probe changed a fact; the action is
    // another one; the routine isn't at its end.
    for other in [
        "03 00 03 08 03",
        "01 00 01 09 01",
        "00 00 03 09 03",
        "00 00 00 01 00",
        "00 00 00",
    ] {
        assert_eq!(check(&bytes, &unhex(other)), Checked::No, "{other}");
    }
}

#[test]
fn a_refused_sheet_comes_first() {
    let mut random = Random::new(33);
    for _ in 0..2000 {
        let bytes = damaged(&mut random, &Size::SMALL);
        let Err(refusal) = read(&bytes) else {
            continue;
        };
        for trace in [&[][..], &[0], &[0, 0], &[0; 129], &[0; 500]] {
            assert_eq!(check(&bytes, trace), Checked::Refused(refusal));
        }
    }
}
