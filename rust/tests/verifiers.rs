//! The two verifiers against each other, and the verifier's use of its memory.

mod common;

use common::{fact, known, plain, sequence, test, unhex};
use reference::check::{check, Checked};
use reference::encode::encode;
use reference::execute::Execution;
use reference::random::{damaged, good, Random, Size};
use reference::read::read;
use reference::refusal::Refusal;
use reference::runs::Listing;
use reference::sheet::{Objective, Sheet, MAX_TRACE};
use reference::verify::{verify, Answer};

const MOST_RUNS: usize = 3000;

/// A memory with bytes that no call would leave by chance.
fn filled(random: &mut Random, length: usize) -> Vec<u8> {
    (0..length).map(|_| random.bits() as u8).collect()
}

#[test]
fn both_verifiers_agree() {
    let mut random = Random::new(11);
    let (mut compared, mut valid, mut invalid, mut later) = (0, 0, 0, 0);
    while compared < 6000 {
        let mut size = Size::SMALL;
        if random.chance(1, 10) {
            size.facts = (3, 3);
        }
        let sheet = good(&mut random, &size);
        let Some(listing) = Listing::new(&sheet, MOST_RUNS) else {
            continue;
        };
        compared += 1;
        let bytes = encode(&sheet);
        let count = listing.count() as u32;
        let budgets = [
            0,
            count.saturating_sub(1),
            count,
            count + 1,
            1_000_000,
            u32::MAX,
        ];
        for budget in budgets {
            let length = *random.pick(&[MAX_TRACE, MAX_TRACE + 1, 500]);
            let before = filled(&mut random, length);
            let mut memory = before.clone();
            let answer = verify(&bytes, budget, &mut memory);
            let (expected, trace) = listing.answer(budget);
            assert_eq!(answer, expected, "{bytes:02x?}");
            let trace = trace.unwrap_or_default();
            assert_eq!(memory, [&trace, &before[trace.len()..]].concat());
        }
        match listing.answer(count).0 {
            Answer::Valid { .. } => valid += 1,
            Answer::Invalid { .. } => invalid += 1,
            _ => panic!("stopped within the budget"),
        }
        later += u32::from(listing.failing().len() > 1);
    }
    // Both verdicts and the choice among several failing runs must be met often.
    assert!(valid > 1500 && invalid > 1500 && later > 1000);
}

#[test]
fn refused_sheets_leave_the_memory() {
    let mut random = Random::new(12);
    for _ in 0..3000 {
        let bytes = damaged(&mut random, &Size::SMALL);
        let Err(refusal) = read(&bytes) else {
            continue;
        };
        let before = filled(&mut random, MAX_TRACE);
        let mut memory = before.clone();
        let answer = verify(&bytes, 1_000_000, &mut memory);
        assert_eq!(answer, Answer::Refused(refusal));
        assert_eq!(memory, before);
    }
}

#[test]
fn short_memory_comes_before_all_else() {
    let mut random = Random::new(13);
    let sheets = [
        encode(&plain()),
        encode(&Sheet {
            goal: known(fact(0)),
            ..plain()
        }),
        vec![],
        vec![0; 1025],
        unhex("21"),
        unhex("41"),
    ];
    for bytes in sheets {
        for length in [0, 1, 32, MAX_TRACE - 1] {
            let before = filled(&mut random, length);
            let mut memory = before.clone();
            let answer = verify(&bytes, 1_000_000, &mut memory);
            assert_eq!(answer, Answer::Refused(Refusal::TraceMemory));
            assert_eq!(memory, before);
        }
        let answer = verify(&bytes, 1_000_000, &mut [0; MAX_TRACE]);
        assert_ne!(answer, Answer::Refused(Refusal::TraceMemory));
    }
}

#[test]
fn longest_trace_fills_the_memory() {
    let sheet = Sheet {
        actions: vec![test(fact(0))],
        goal: known(fact(0)),
        program: sequence(&[0; 64]),
        ..plain()
    };
    let mut memory = [0xff; MAX_TRACE];
    let answer = verify(&encode(&sheet), 1_000_000, &mut memory);
    // All 64 replies "true", then the same with reply "false".
    let (count, length) = (128, 64);
    assert_eq!(answer, Answer::Invalid { count, length });
    let expected = [&[0][..], &[1, 0].repeat(64)].concat();
    assert_eq!(memory[..], expected);
    assert_eq!(check(&encode(&sheet), &memory), Checked::Yes);
}

/// Visits all histories by executing them from the start, one after the other.
fn visit(sheet: &Sheet, replies: &mut Vec<u8>, visited: &mut Visited) {
    let mut execution = Execution::new(sheet);
    for &reply in &*replies {
        assert_eq!(execution.take(reply), Ok(()));
    }
    if execution.next().is_none() && !execution.goal_holds() {
        visited.failing.get_or_insert(visited.histories.len());
    }
    for reply in 0..8 {
        if visited.failing.is_some() || visited.histories.len() > visited.most {
            return;
        }
        let mut longer = Execution::new(sheet);
        replies
            .iter()
            .for_each(|&reply| longer.take(reply).unwrap());
        if longer.take(reply).is_ok() {
            replies.push(reply);
            visited.histories.push(replies.clone());
            visit(sheet, replies, visited);
            replies.pop();
        }
    }
}

struct Visited {
    most: usize,
    /// The non-empty histories up to the first failing one, by their replies.
    histories: Vec<Vec<u8>>,
    /// The number of histories when the goal was first found to fail.
    failing: Option<usize>,
}

/// Larger sheets have too many runs to be listed, but not too many histories.
#[test]
fn the_verifier_agrees_with_execution() {
    let mut random = Random::new(14);
    let size = Size {
        facts: (3, 8),
        action_nodes: 20,
        sequence: (6, 14),
        ..Size::LARGE
    };
    let (mut stopped, mut valid, mut invalid) = (0, 0, 0);
    for _ in 0..200 {
        let sheet = good(&mut random, &size);
        let budget = 60;
        let mut visited = Visited {
            most: budget,
            histories: Vec::new(),
            failing: None,
        };
        visit(&sheet, &mut Vec::new(), &mut visited);
        let bytes = encode(&sheet);
        let mut memory = [0; MAX_TRACE];
        let answer = verify(&bytes, budget as u32, &mut memory);
        let count = visited.histories.len() as u32;
        if visited.histories.len() > budget {
            assert_eq!(answer, Answer::Stopped { budget: 60 });
            stopped += 1;
        } else if visited.failing.is_some() {
            let replies = visited.histories.last().cloned().unwrap_or_default();
            let length = replies.len();
            assert_eq!(answer, Answer::Invalid { count, length });
            let trace = &memory[..1 + 2 * length];
            let shown = trace[1..].iter().step_by(2).map(|event| event % 8);
            assert!(shown.eq(replies));
            assert_eq!(check(&bytes, trace), Checked::Yes);
            invalid += 1;
        } else {
            assert_eq!(answer, Answer::Valid { count });
            valid += 1;
        }
    }
    assert!(
        stopped > 10 && valid > 10 && invalid > 10,
        "{stopped} {valid} {invalid}"
    );
}

#[test]
fn stops_early_in_an_enormous_routine() {
    // Two overlapping replies double the histories at each of 64 actions.
    let truth = || Objective::True;
    let sheet = |goal| Sheet {
        actions: vec![reference::sheet::Action::Probe(vec![truth(), truth()])],
        goal: known(goal),
        program: sequence(&[0; 64]),
        ..plain()
    };
    let mut memory = [7; MAX_TRACE];
    let answer = verify(&encode(&sheet(truth())), 100_000, &mut memory);
    assert_eq!(answer, Answer::Stopped { budget: 100_000 });
    assert_eq!(memory, [7; MAX_TRACE]);
    // The first full history fails: within the budget, and just past it.
    let failing = encode(&sheet(fact(0)));
    let (count, length) = (64, 64);
    let answer = verify(&failing, 64, &mut memory);
    assert_eq!(answer, Answer::Invalid { count, length });
    let answer = verify(&failing, 63, &mut memory);
    assert_eq!(answer, Answer::Stopped { budget: 63 });
}
