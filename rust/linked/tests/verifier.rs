//! The proved verifier, trace checker and printed lines against the Rust
//! implementation.

mod common;

use std::collections::BTreeSet;
use std::sync::LazyLock;

use common::{
    around_a_million, branched, bytes, counted_lines, fails_behind, many, repeating, sheets, Case,
    BUDGET, FEW,
};
use linked::plain::{self, Counts};
use linked::straight::{counted, histories, reply_counts, seldom_told, straight};
use linked::{check, print, verify, verify_words, Place, Tables, Verdict, Words, LINES};
use reference::check::Checked;
use reference::encode::encode;
use reference::execute::Execution;
use reference::print::lines;
use reference::random::Random;
use reference::read::read;
use reference::refusal::Refusal;
use reference::sheet::{Epistemic, Objective, Sheet, MAX_TRACE};
use reference::states::{excluded, is_state, states, State};
use reference::step::{effect, replies, start_states, step};
use reference::verify::Answer;

static CASES: LazyLock<Vec<Case>> =
    LazyLock::new(|| sheets(41).into_iter().map(Case::new).collect());

/// The accepted ones.
fn accepted() -> impl Iterator<Item = (&'static Case, &'static Sheet)> {
    CASES
        .iter()
        .filter_map(|case| case.sheet.as_ref().map(|sheet| (case, sheet)))
}

/// The sheets on which the search goes beyond `FEW` histories, and more such ones
/// of `many` with a goal that can fail.
fn beyond() -> impl Iterator<Item = &'static Case> {
    static MORE: LazyLock<Vec<Case>> = LazyLock::new(|| {
        let mut random = Random::new(40);
        let sheets = (0..400).map(|_| many(&mut random));
        let failing = sheets.filter(|sheet| matches!(sheet.goal, Epistemic::NotKnown(_)));
        failing.map(|sheet| Case::new(encode(&sheet))).collect()
    });
    let cases = CASES.iter().chain(MORE.iter());
    cases.filter(|case| matches!(case.answer, Answer::Stopped { .. }))
}

/// The ones invalid within `FEW` histories, with the least failing trace.
fn invalid() -> impl Iterator<Item = (&'static Case, &'static Sheet, Vec<u8>)> {
    accepted().filter_map(|(case, sheet)| {
        let mut memory = [0; MAX_TRACE];
        match case.verify(FEW, &mut memory) {
            Answer::Invalid { length, .. } => Some((case, sheet, memory[..1 + 2 * length].into())),
            _ => None,
        }
    })
}

/// The three words of a verdict and the number 0, or the words that were there
/// and the number of the refusal.
fn numbers(answer: Answer, before: [u64; 3]) -> (u8, [u64; 3]) {
    match answer {
        Answer::Valid { count } => (0, [0, count.into(), 0]),
        Answer::Invalid { count, length } => (0, [1, count.into(), length as u64]),
        Answer::Stopped { budget } => (0, [2, budget.into(), 0]),
        Answer::Refused(refusal) => (refusal.number(), before),
    }
}

/// Compares the answers and every byte of the memory; gives the answer.
fn compare(case: &Case, budget: u32, length: usize, random: &mut Random) -> Answer {
    let expected = |memory: &mut [u8]| case.verify(budget, memory);
    compare_with(expected, &case.bytes, budget, length, random)
}

/// The same by the sheet's tree, however many histories there are.
fn compare_by_tree(sheet: &[u8], budget: u32, random: &mut Random) -> Answer {
    let expected = |memory: &mut [u8]| reference::verify::verify(sheet, budget, memory);
    compare_with(expected, sheet, budget, MAX_TRACE, random)
}

fn compare_with(
    expected: impl Fn(&mut [u8]) -> Answer,
    sheet: &[u8],
    budget: u32,
    length: usize,
    random: &mut Random,
) -> Answer {
    let before = bytes(random, length);
    let [mut lent, mut memory] = [before.clone(), before];
    let words = [0; 3].map(|_: u64| random.bits());
    let mut verdict = words;
    let answer = expected(&mut lent);
    let number = verify_words(sheet, budget, &mut memory, &mut verdict);
    assert_eq!(
        (number, verdict),
        numbers(answer, words),
        "budget {budget}, sheet {sheet:02x?}"
    );
    assert_eq!(memory, lent, "budget {budget}, sheet {sheet:02x?}");
    answer
}

fn budgets(case: &Case) -> BTreeSet<u32> {
    match case.verify(BUDGET, &mut [0; MAX_TRACE]) {
        Answer::Valid { count } | Answer::Invalid { count, .. } => {
            let below = count.saturating_sub(1);
            BTreeSet::from([0, 1, below, count, count + 1, u32::MAX])
        }
        Answer::Stopped { .. } => BTreeSet::from([0, 1, FEW, BUDGET - 1, BUDGET]),
        Answer::Refused(_) => BTreeSet::from([0, u32::MAX]),
    }
}

#[test]
fn verdicts_and_memory() {
    let mut random = Random::new(42);
    let [mut valid, mut invalid, mut stopped] = [0; 3];
    let mut refused = [0; 17];
    let mut facts = BTreeSet::new();
    let mut excluding = BTreeSet::new();
    let mut many = 0;
    for case in CASES.iter() {
        many += usize::from(matches!(case.answer, Answer::Stopped { .. }));
        for budget in budgets(case) {
            let length = *random.pick(&[129, 130, 200]);
            match compare(case, budget, length, &mut random) {
                Answer::Valid { .. } => valid += 1,
                Answer::Invalid { .. } => invalid += 1,
                Answer::Stopped { .. } => stopped += 1,
                Answer::Refused(refusal) => refused[usize::from(refusal.number())] += 1,
            }
        }
        facts.extend(case.sheet.as_ref().map(|sheet| sheet.facts));
        let bites = |sheet: &&Sheet| !excluded(sheet).is_empty();
        excluding.extend(case.sheet.as_ref().filter(bites).map(|sheet| sheet.facts));
    }
    assert!(CASES.len() >= 5000, "{} sheets", CASES.len());
    let counts = [valid, invalid, stopped];
    assert!(counts.iter().all(|&count| count >= 2000), "{counts:?}");
    assert!(refused[1..].iter().all(|&count| count > 0), "{refused:?}");
    assert!(facts.iter().copied().eq(1..=8), "{facts:?}");
    assert!(excluding.iter().copied().eq(1..=8), "{excluding:?}");
    assert!(many >= 50, "{many} sheets have more than {FEW} histories");
}

#[test]
fn short_memory_comes_before_all_else() {
    let mut random = Random::new(43);
    for case in CASES.iter() {
        for length in [0, 1, random.between(2, 127), 128] {
            let budget = *random.pick(&[0, 1, BUDGET, u32::MAX]);
            let answer = compare(case, budget, length, &mut random);
            assert_eq!(answer, Answer::Refused(Refusal::TraceMemory));
        }
    }
}

#[test]
fn a_verdict_in_words() {
    let mut seen = BTreeSet::new();
    for case in CASES.iter().step_by(7) {
        let expected = match case.answer {
            Answer::Valid { count } => Ok(Verdict::Valid { count }),
            Answer::Invalid { count, length } => Ok(Verdict::Invalid { count, length }),
            Answer::Stopped { budget } => Ok(Verdict::Stopped { budget }),
            Answer::Refused(refusal) => Err(refusal.number()),
        };
        assert_eq!(verify(&case.bytes, FEW, &mut [0; MAX_TRACE]), expected);
        seen.insert(expected.map_or(3, |verdict| match verdict {
            Verdict::Valid { .. } => 0,
            Verdict::Invalid { .. } => 1,
            Verdict::Stopped { .. } => 2,
        }));
    }
    assert_eq!(seen.len(), 4);
}

/// The Rust verifiers with the same tables, which the benchmark times.
#[test]
fn verdicts_over_plain_tables() {
    let mut random = Random::new(44);
    let mut tables = Tables::zeroed();
    let mut seen = Counts::default();
    for (case, sheet) in accepted() {
        let start = plain::prepare(sheet, &mut tables);
        let before = bytes(&mut random, MAX_TRACE);
        let mut expected = before.clone();
        let answer = reference::verify::verify(&case.bytes, FEW, &mut expected);
        let [mut all, mut remembering, mut counting] = [(); 3].map(|()| before.clone());
        let (verdict, counts) = plain::verify_counting(&tables, &start, FEW, &mut counting);
        let verdicts = [
            plain::verify(&tables, &start, FEW, &mut all),
            plain::verify_remembering(&tables, &start, FEW, &mut remembering),
            verdict,
        ];
        assert_eq!(
            verdicts.map(common::answer),
            [answer; 3],
            "{:02x?}",
            case.bytes
        );
        for memory in [all, remembering, counting] {
            assert_eq!(memory, expected, "{:02x?}", case.bytes);
        }
        // A place has histories behind it, which are visited where no look-up hits.
        match answer {
            Answer::Valid { count } | Answer::Invalid { count, .. } => {
                assert_eq!(counts.visited == count.into(), counts.hits == 0)
            }
            _ => assert!(counts.visited <= FEW.into()),
        }
        add(&mut seen, counts);
    }
    assert!(seen.hits >= 2000 && seen.looked >= 10_000, "{seen:?}");
}

/// The places that the search comes to are found by a search that forgets none of
/// them, and here one by one.
#[test]
fn places_one_by_one() {
    fn visit(tables: &Tables, set: &Words, at: usize, all: &mut BTreeSet<(usize, Words)>) {
        let Place::Act { node, action } = plain::settle(tables, set, at) else {
            return;
        };
        all.insert((node, *set));
        for reply in 0..8 {
            let mut after = *set;
            plain::step(tables, &mut after, action, reply);
            if after != [0; 4] {
                visit(tables, &after, node + 1, all);
            }
        }
    }
    let mut tables = Tables::zeroed();
    let (mut compared, mut fewer) = (0, 0);
    for (case, sheet) in accepted() {
        let Answer::Valid { count } = case.answer else {
            continue;
        };
        let start = plain::prepare(sheet, &mut tables);
        let mut all = BTreeSet::new();
        visit(&tables, &start, 0, &mut all);
        assert_eq!(plain::places(&tables, &start, FEW), all.len());
        compared += 1;
        fewer += usize::from(2 * all.len() < count as usize);
    }
    assert!(compared >= 1000 && fewer >= 100, "{compared} {fewer}");
}

/// As long as a routine has fewer places than there are slots, few of them are
/// searched twice, also where their sets and nodes are small numbers.
#[test]
fn few_places_are_searched_again() {
    let mut random = Random::new(58);
    let (mut tables, mut memory) = (Tables::zeroed(), [0; MAX_TRACE]);
    let mut sheets: Vec<Sheet> = (1..=64).map(seldom_told).collect();
    sheets.extend((0..2000).map(|_| repeating(&mut random, 3, 16)));
    let (mut compared, mut most) = (0, 0);
    for sheet in &sheets {
        let start = plain::prepare(sheet, &mut tables);
        let places = plain::places(&tables, &start, u32::MAX) as u64;
        let (_, counts) = plain::verify_counting(&tables, &start, u32::MAX, &mut memory);
        if places > 128 || counts.misses_below > 0 {
            continue;
        }
        let searched = counts.looked - counts.hits;
        assert!(searched <= 3 * places, "{searched} for {places}: {sheet:?}");
        compared += 1;
        most = most.max(places);
    }
    assert!(compared >= 500 && most >= 100, "{compared} {most}");
}

fn add(sum: &mut Counts, counts: Counts) {
    sum.visited += counts.visited;
    sum.looked += counts.looked;
    sum.hits += counts.hits;
    sum.hits_above += counts.hits_above;
    sum.misses_below += counts.misses_below;
}

/// Beyond `FEW` histories, as far as the tree is quick.
#[test]
fn many_histories_by_the_tree() {
    let mut random = Random::new(50);
    let [mut valid, mut invalid, mut stopped] = [0; 3];
    for case in beyond() {
        let few_facts = case.sheet.as_ref().is_some_and(|sheet| sheet.facts <= 6);
        let most = if few_facts { 20_000 } else { 1_000 };
        let answer = compare_by_tree(&case.bytes, most, &mut random);
        let count = match answer {
            Answer::Valid { count } => count,
            Answer::Invalid { count, .. } => count,
            Answer::Stopped { .. } => {
                stopped += 1;
                continue;
            }
            Answer::Refused(_) => panic!("{answer:?}"),
        };
        assert!(count > FEW, "{answer:?}");
        for budget in [FEW + 1, count - 1, count, u32::MAX] {
            let expected = match budget < count {
                true => Answer::Stopped { budget },
                false => answer,
            };
            let again = compare_by_tree(&case.bytes, budget, &mut random);
            assert_eq!(again, expected, "budget {budget}");
        }
        match answer {
            Answer::Invalid { .. } => invalid += 1,
            _ => valid += 1,
        }
    }
    let counts = [valid, invalid, stopped];
    assert!(valid >= 100 && invalid >= 15 && stopped >= 50, "{counts:?}");
}

#[test]
fn counts_around_a_million() {
    let mut random = Random::new(45);
    let mut below = 0;
    let mut above = 0;
    for (sheet, count, fails) in around_a_million() {
        for budget in [999_999, 1_000_000, 1_000_001] {
            let answer = compare_by_tree(&sheet, budget, &mut random);
            match answer {
                Answer::Stopped { .. } => assert!(count > budget),
                Answer::Valid { count: all } => assert_eq!((all, fails), (count, false)),
                Answer::Invalid { count: all, .. } => assert_eq!((all, fails), (count, true)),
                Answer::Refused(_) => panic!("{answer:?}"),
            }
            below += usize::from(count <= budget);
            above += usize::from(count > budget);
        }
    }
    assert!(below >= 20 && above >= 20, "{below} {above}");
}

/// Compares the proved verifier with the tree at every budget up to the count and
/// some beyond; gives the answer with the greatest.
fn compare_every_budget(sheet: &[u8], count: u32, random: &mut Random) -> Answer {
    for budget in 0..count {
        let answer = compare_by_tree(sheet, budget, random);
        assert_eq!(answer, Answer::Stopped { budget });
    }
    let answers = (count..=count + 2).map(|budget| compare_by_tree(sheet, budget, random));
    let answers: Vec<Answer> = answers.collect();
    assert_eq!(answers, [answers[0]; 3]);
    answers[0]
}

/// Where most histories are behind places and sets that were searched before.
#[test]
fn every_budget_of_repeated_sets() {
    let mut random = Random::new(52);
    for replies in [
        &[2; 7][..],
        &[3, 1, 2, 2, 1, 3],
        &[1; 20],
        &[8, 8, 2],
        &[2, 8, 1, 8],
    ] {
        let count = histories(replies) as u32;
        let sheet = encode(&straight(replies));
        let answer = compare_every_budget(&sheet, count, &mut random);
        assert_eq!(answer, Answer::Valid { count });
    }
    // Places come to at other depths, sooner or later than before, and goals that
    // fail behind what is remembered.
    let mut tables = Tables::zeroed();
    let mut seen = Counts::default();
    let [mut valid, mut invalid] = [0; 2];
    for _ in 0..6000 {
        let sheet = repeating(&mut random, 3, 9);
        let start = plain::prepare(&sheet, &mut tables);
        let memory = &mut [0; MAX_TRACE];
        let (verdict, counts) = plain::verify_counting(&tables, &start, FEW, memory);
        let (Verdict::Valid { count } | Verdict::Invalid { count, .. }) = verdict else {
            continue;
        };
        let fails = matches!(verdict, Verdict::Invalid { .. });
        if counts.hits_above + counts.misses_below == 0 || !fails && valid >= 300 {
            continue;
        }
        match compare_every_budget(&encode(&sheet), count, &mut random) {
            Answer::Invalid { .. } => invalid += 1,
            _ => valid += 1,
        }
        add(&mut seen, counts);
    }
    assert!(valid == 300 && invalid >= 50, "{valid} {invalid}");
    assert!(seen.hits_above >= 100, "{seen:?}");
    assert!(seen.misses_below >= 100, "{seen:?}");
    // Budgets in between, where a goal can fail behind some sets.
    let [mut valid, mut invalid, mut stopped] = [0; 3];
    let few_facts = |case: &&Case| case.sheet.as_ref().is_some_and(|sheet| sheet.facts <= 6);
    for case in beyond().filter(few_facts).take(100) {
        for _ in 0..6 {
            let budget = random.between(FEW as usize, 6_000) as u32;
            match compare_by_tree(&case.bytes, budget, &mut random) {
                Answer::Stopped { .. } => stopped += 1,
                Answer::Valid { .. } => valid += 1,
                Answer::Invalid { .. } => invalid += 1,
                Answer::Refused(refusal) => panic!("{refusal:?}"),
            }
        }
    }
    let counts = [valid, invalid, stopped];
    assert!(counts.iter().all(|&count| count >= 20), "{counts:?}");
}

/// Sheets on which the search recalls what is behind a place and then comes to a
/// history that fails, behind it in the order. (The look-ups are counted in the
/// Rust search with the same memory; the proved one doesn't tell its own.)
#[test]
fn failures_behind_remembered_places() {
    let mut random = Random::new(55);
    let mut tables = Tables::zeroed();
    let mut sheets = BTreeSet::new();
    let mut seen = Counts::default();
    let mut lengths = BTreeSet::new();
    for _ in 0..80_000 {
        let (facts, row) = *random.pick(&[(2, 8), (2, 8), (2, 8), (3, 10), (4, 14), (6, 16)]);
        let sheet = repeating(&mut random, facts, row);
        let bytes = encode(&sheet);
        if reference::read::read(&bytes).is_err() {
            continue;
        }
        let start = plain::prepare(&sheet, &mut tables);
        let memory = &mut [7; MAX_TRACE];
        let (verdict, counts) = plain::verify_counting(&tables, &start, 1000, memory);
        let Verdict::Invalid { count, length } = verdict else {
            continue;
        };
        if counts.hits == 0 || !sheets.insert(bytes.clone()) {
            continue;
        }
        let expected = Answer::Invalid { count, length };
        let stopped = Answer::Stopped { budget: count - 1 };
        for (budget, expected) in [
            (count - 1, stopped),
            (count, expected),
            (count + 1, expected),
            (u32::MAX, expected),
        ] {
            assert_eq!(compare_by_tree(&bytes, budget, &mut random), expected);
            let mut shown = [7; MAX_TRACE];
            let verdict = plain::verify_remembering(&tables, &start, budget, &mut shown);
            assert_eq!(common::answer(verdict), expected);
            // What was counted was the search that is compared.
            assert_eq!(shown == *memory, budget >= count);
        }
        add(&mut seen, counts);
        lengths.insert(length);
    }
    assert!(sheets.len() >= 5000, "{}", sheets.len());
    assert!(lengths.len() >= 20, "{lengths:?}");
    // At a depth at which what is remembered serves, and at one where it does not.
    assert!(seen.hits >= 15_000, "{seen:?}");
    assert!(seen.hits_above >= 1000, "{seen:?}");
    assert!(seen.misses_below >= 2000, "{seen:?}");
}

/// Counts that no search one by one gets through, up to the greatest budget:
/// n probes of two replies have 2 + 4 + .. + 2^n histories.
#[test]
fn counts_up_to_the_greatest_budget() {
    let mut random = Random::new(56);
    for probes in 20..=64 {
        let sheet = straight(&vec![2; probes]);
        let count = (1u128 << (probes + 1)) - 2;
        for budget in [1_000_000, 2_147_483_646, u32::MAX - 1, u32::MAX] {
            compare_count(&sheet, count, budget, None, &mut random);
        }
    }
}

/// Compares the verifiers that remember, the proved one and the one in Rust, with
/// what they must answer for a sheet of so many histories, or for one with so many
/// up to the first that fails, which has this trace.
fn compare_count(
    sheet: &Sheet,
    count: u128,
    budget: u32,
    fails: Option<&[u8]>,
    random: &mut Random,
) -> Answer {
    let expected = |memory: &mut [u8]| match (u32::try_from(count), fails) {
        (Ok(count), None) if count <= budget => Answer::Valid { count },
        (Ok(count), Some(trace)) if count <= budget => {
            memory[..trace.len()].copy_from_slice(trace);
            let length = trace.len() / 2;
            Answer::Invalid { count, length }
        }
        _ => Answer::Stopped { budget },
    };
    let [mut lent, mut memory] = [[7; MAX_TRACE]; 2];
    let mut tables = Tables::zeroed();
    let start = plain::prepare(sheet, &mut tables);
    let verdict = plain::verify_remembering(&tables, &start, budget, &mut memory);
    assert_eq!(common::answer(verdict), expected(&mut lent), "{sheet:?}");
    assert_eq!(memory, lent, "{sheet:?}");
    compare_with(expected, &encode(sheet), budget, MAX_TRACE, random)
}

/// Sheets with so many histories, none of which fails.
fn passing(count: u64) -> Vec<Sheet> {
    let changes_first = [&[1; 30], &reply_counts(count - 30)[..]].concat();
    let sides = [0, 1, 5, 100, count / 2, count - 7];
    let mut sheets = vec![counted(count), straight(&changes_first)];
    sheets.extend(sides.map(|otherwise| branched(count - 2 - otherwise, otherwise)));
    sheets
}

/// Sheets with so many histories up to the first that fails, and its trace.
fn failing(count: u64) -> Vec<(Sheet, Vec<u8>)> {
    let sides = [&[][..], &[1], &[1; 10], &[2, 1, 3], &[3, 2, 2, 1], &[2; 7]];
    sides.map(|side| fails_behind(count, side)).into()
}

#[test]
fn counts_around_the_greatest_budget() {
    let mut random = Random::new(57);
    // By the tree first, as far as that goes.
    for count in [300, 301, 1000, 1023] {
        let budget = count as u32;
        for sheet in passing(count) {
            let answer = compare_by_tree(&encode(&sheet), budget, &mut random);
            assert_eq!(answer, Answer::Valid { count: budget });
            compare_count(&sheet, count.into(), budget, None, &mut random);
        }
        for (sheet, trace) in failing(count) {
            let answer = compare_by_tree(&encode(&sheet), budget, &mut random);
            let length = trace.len() / 2;
            let count = budget;
            assert_eq!(answer, Answer::Invalid { count, length });
            compare_count(&sheet, count.into(), budget, Some(&trace), &mut random);
        }
    }
    let mut answers = [0; 3];
    for count in (1 << 32) - 3..=(1u64 << 32) + 1 {
        let passing = passing(count).into_iter().map(|sheet| (sheet, None));
        let failing = failing(count).into_iter();
        let failing = failing.map(|(sheet, trace)| (sheet, Some(trace)));
        for (sheet, trace) in passing.chain(failing) {
            for budget in u32::MAX - 4..=u32::MAX {
                let trace = trace.as_deref();
                let answer = compare_count(&sheet, count.into(), budget, trace, &mut random);
                answers[match answer {
                    Answer::Valid { .. } => 0,
                    Answer::Invalid { .. } => 1,
                    _ => 2,
                }] += 1;
            }
            if let Some(trace) = trace {
                assert_eq!(checked(&encode(&sheet), &trace), Checked::Yes);
            }
        }
    }
    // Of five budgets 3, 2 and 1 are not below the first three of the counts.
    assert_eq!(answers, [8 * 6, 6 * 6, 14 * (25 - 6)]);
}

/// The trace with this history that begins in a state and always goes on in the
/// least next state; none if it comes to a state without one.
fn greedy(sheet: &Sheet, trace: &[u8]) -> Option<Vec<u8>> {
    let mut state = trace[0];
    let mut shown = vec![state];
    for &event in trace[1..].iter().step_by(2) {
        let action = &sheet.actions[usize::from(event / 8)];
        let before = state;
        state = states(sheet).find(|&after| step(action, event % 8, before, after))?;
        shown.extend([event, state]);
    }
    Some(shown)
}

#[test]
fn least_traces_are_not_greedy() {
    let (mut stuck, mut same) = (0, 0);
    for (case, sheet, trace) in invalid() {
        let mut memory = [0; MAX_TRACE];
        assert!(verify(&case.bytes, u32::MAX, &mut memory).is_ok());
        assert_eq!(memory[..trace.len()], trace, "{:02x?}", case.bytes);
        match greedy(sheet, &trace) {
            None => stuck += 1,
            // What never gets stuck from the same start is the least.
            Some(shown) => {
                assert_eq!(shown, trace, "{:02x?}", case.bytes);
                same += 1;
            }
        }
    }
    assert!(stuck >= 100, "{stuck} and {same}");
    assert!(same >= 500, "{stuck} and {same}");
}

/// Compares the checkers, and gives their answer.
fn checked(sheet: &[u8], trace: &[u8]) -> Checked {
    let expected = reference::check::check(sheet, trace);
    let answer = match expected {
        Checked::Yes => Ok(true),
        Checked::No => Ok(false),
        Checked::Refused(refusal) => Err(refusal.number()),
    };
    assert_eq!(
        check(sheet, trace),
        answer,
        "trace {trace:02x?}, sheet {sheet:02x?}"
    );
    expected
}

/// Traces that differ little from this one, some by an excluded state, or are of
/// another length.
fn damaged_traces(
    random: &mut Random,
    trace: &[u8],
    most: usize,
    excluded: &[State],
) -> Vec<Vec<u8>> {
    let mut traces = vec![vec![]];
    let mut places: Vec<usize> = (0..trace.len()).collect();
    while places.len() > most {
        places.swap_remove(random.below(places.len()));
    }
    for &place in &places {
        traces.push(trace[..place].to_vec());
        let any = random.bits() as u8;
        let mut bytes = vec![trace[place] ^ 1, trace[place].wrapping_add(8), any, 255];
        if place % 2 == 0 && !excluded.is_empty() {
            bytes.push(*random.pick(excluded));
        }
        for byte in bytes {
            let mut other = trace.to_vec();
            other[place] = byte;
            traces.push(other);
        }
    }
    let last = trace[trace.len() - 1];
    let event = trace[trace.len().saturating_sub(2)];
    for more in [&[0][..], &[last], &[0, last], &[event, last]] {
        traces.push([trace, more].concat());
    }
    for length in [MAX_TRACE - 1, MAX_TRACE, MAX_TRACE + 1, MAX_TRACE + 2, 1000] {
        let mut longer = trace.to_vec();
        while longer.len() < length {
            longer.extend([event, last]);
        }
        longer.truncate(length);
        traces.push(longer);
    }
    traces.retain(|other| other != trace);
    traces
}

/// Compares the checkers on a trace that has to fail and on ones near it, of which
/// there are few if `most` is small; gives how many of those fail and do not.
fn checked_nearby(random: &mut Random, sheet: &[u8], trace: &[u8], most: usize) -> [usize; 2] {
    assert_eq!(checked(sheet, trace), Checked::Yes);
    let [mut yes, mut no] = [0; 2];
    let excluded = excluded(&read(sheet).unwrap());
    for other in damaged_traces(random, trace, most, &excluded) {
        match checked(sheet, &other) {
            Checked::Yes => yes += 1,
            Checked::No => no += 1,
            Checked::Refused(_) => panic!("refused"),
        }
        if other.len() % 2 == 0 || other.len() > MAX_TRACE {
            assert_eq!(check(sheet, &other), Ok(false));
        }
    }
    [yes, no]
}

#[test]
fn checked_traces_and_their_neighbours() {
    let mut random = Random::new(46);
    let (mut shown, mut yes, mut no) = (0, 0, 0);
    let mut longest = 0;
    for (case, sheet, trace) in invalid() {
        // Reading takes long where there are many facts.
        let most = if sheet.facts <= 4 { MAX_TRACE } else { 3 };
        let counts = checked_nearby(&mut random, &case.bytes, &trace, most);
        shown += 1;
        longest = longest.max(trace.len());
        yes += counts[0];
        no += counts[1];
    }
    assert!(shown >= 1000, "{shown}");
    assert!(yes >= 500 && no >= 20_000, "{yes} {no}");
    assert_eq!(longest, MAX_TRACE);
}

/// The traces that the proved verifier shows for failures after more than `FEW`
/// histories.
#[test]
fn checked_traces_of_late_failures() {
    let mut random = Random::new(53);
    let (mut late, mut latest, mut yes, mut no) = (0, 0, 0, 0);
    let last = around_a_million()
        .into_iter()
        .filter(|&(_, _, fails)| fails);
    let sheets = beyond().map(|case| case.bytes.clone());
    for sheet in sheets.chain(last.map(|(sheet, ..)| sheet)) {
        let mut memory = [0; MAX_TRACE];
        match verify(&sheet, BUDGET + 1, &mut memory) {
            Ok(Verdict::Invalid { count, length }) => {
                assert!(count > FEW);
                let trace = &memory[..1 + 2 * length];
                let counts = checked_nearby(&mut random, &sheet, trace, 10);
                late += 1;
                latest += usize::from(count >= 999_999);
                yes += counts[0];
                no += counts[1];
            }
            verdict => assert!(verdict.is_ok(), "{verdict:?}"),
        }
    }
    assert!(late >= 20 && latest >= 3, "{late} {latest}");
    assert!(yes >= 10 && no >= 500, "{yes} {no}");
}

/// The trace of a run that follows the routine to its end, and whether the goal fails there.
fn random_run(random: &mut Random, sheet: &Sheet) -> (Vec<u8>, bool) {
    let starts: Vec<State> = start_states(sheet).iter().collect();
    let mut execution = Execution::new(sheet);
    let mut state = *random.pick(&starts);
    let mut trace = vec![state];
    while let Some(number) = execution.next() {
        let action = &sheet.actions[usize::from(number)];
        let next: Vec<State> = states(sheet)
            .filter(|&after| effect(action, state, after))
            .collect();
        state = *random.pick(&next);
        let told: Vec<u8> = (0..action.reply_count())
            .filter(|&reply| replies(action, reply, state))
            .collect();
        let reply = *random.pick(&told);
        execution.take(reply).unwrap();
        trace.extend([8 * number + reply, state]);
    }
    (trace, !execution.goal_holds())
}

#[test]
fn any_failing_run_will_do() {
    let mut random = Random::new(47);
    let (mut least, mut other, mut reached) = (0, 0, 0);
    for (case, sheet) in accepted() {
        let mut memory = [0; MAX_TRACE];
        let first = case.verify(FEW, &mut memory);
        for _ in 0..3 {
            let (trace, fails) = random_run(&mut random, sheet);
            let expected = if fails { Checked::Yes } else { Checked::No };
            assert_eq!(checked(&case.bytes, &trace), expected);
            match first {
                _ if !fails => reached += 1,
                Answer::Invalid { length, .. } if memory[..1 + 2 * length] == trace => least += 1,
                _ => other += 1,
            }
        }
    }
    assert!(least >= 100, "{least} {other} {reached}");
    assert!(other >= 1000, "{least} {other} {reached}");
    assert!(reached >= 1000, "{least} {other} {reached}");
}

/// Runs that there would be if the constraint excluded no state.
#[test]
fn runs_through_excluded_states() {
    let mut random = Random::new(54);
    let (mut sheets, mut failing, mut reached) = (0, 0, 0);
    for (case, sheet) in accepted() {
        let free = sheet.clone().constrained(Objective::True);
        if excluded(sheet).is_empty() || read(&encode(&free)).is_err() {
            continue;
        }
        sheets += 1;
        for _ in 0..4 {
            let (trace, fails) = random_run(&mut random, &free);
            if trace.iter().step_by(2).all(|&state| is_state(sheet, state)) {
                continue;
            }
            assert_eq!(checked(&case.bytes, &trace), Checked::No);
            match fails {
                true => failing += 1,
                false => reached += 1,
            }
        }
    }
    assert!(sheets >= 500, "{sheets}");
    assert!(failing >= 300 && reached >= 300, "{failing} {reached}");
}

#[test]
fn a_refused_sheet_comes_before_its_trace() {
    let mut random = Random::new(48);
    let mut refused = [0; 17];
    for case in CASES.iter().filter(|case| case.sheet.is_none()) {
        let length = *random.pick(&[0, 1, 2, 3, 128, 129, 130, 131, 1000]);
        let trace = bytes(&mut random, length);
        match checked(&case.bytes, &trace) {
            Checked::Refused(refusal) => refused[usize::from(refusal.number())] += 1,
            answer => panic!("{answer:?}"),
        }
    }
    assert!(refused[1..].iter().all(|&count| count > 0), "{refused:?}");
}

/// Compares the printed lines; the bytes behind them stay. Gives their first word.
fn compare_print(bytes: &[u8], expected: &[u8], random: &mut Random) -> String {
    let before: [u8; LINES] = [0; LINES].map(|_: u8| random.bits() as u8);
    let mut out = before;
    let length = print(bytes, &mut out);
    let text = String::from_utf8_lossy;
    assert_eq!(length, expected.len(), "sheet {bytes:02x?}");
    assert_eq!(text(&out[..length]), text(expected), "sheet {bytes:02x?}");
    assert_eq!(out[length..], before[length..], "sheet {bytes:02x?}");
    let printed = text(expected).into_owned();
    printed.split(' ').next().unwrap().to_string()
}

#[test]
fn printed_lines() {
    let mut random = Random::new(49);
    let mut counts = std::collections::BTreeMap::new();
    for case in CASES.iter() {
        let word = compare_print(&case.bytes, &case.lines(), &mut random);
        *counts.entry(word).or_insert(0) += 1;
    }
    for (bytes, count, fails) in around_a_million() {
        let case = Case::new(bytes);
        let expected = case.lines();
        let word = compare_print(&case.bytes, &expected, &mut random);
        let printed = String::from_utf8(expected).unwrap();
        assert_eq!(printed, counted_lines(count, fails));
        *counts.entry(word).or_insert(0) += 1;
    }
    let words = ["invalid", "refused", "stopped", "valid"];
    assert!(counts.keys().eq(words.iter()), "{counts:?}");
    assert!(counts.values().all(|&count| count >= 10), "{counts:?}");
    assert!(counts["invalid"] >= 1000 && counts["valid"] >= 1000);
    // The longest: 64 steps.
    let longest = CASES.iter().map(|case| case.lines().len()).max();
    let most = lines(
        &Answer::Invalid {
            count: 64,
            length: 64,
        },
        &[0; MAX_TRACE],
    );
    assert_eq!(longest, Some(most.len()));
}
