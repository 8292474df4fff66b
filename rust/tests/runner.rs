//! The runner against the listed runs.

mod common;

use common::{fact, known, plain, sequence, test, unhex, wide};
use reference::encode::encode;
use reference::random::{damaged, good, Random, Size};
use reference::read::read;
use reference::refusal::Refusal;
use reference::runner::{Record, Told};
use reference::runs::Listing;
use reference::sheet::{Sheet, MAX_ACTION_NODES, MAX_BYTES};
use reference::verify::Answer;

const MOST_RUNS: usize = 2000;

fn loaded(bytes: &[u8]) -> Record {
    let (record, answer) = Record::load(bytes);
    assert_eq!(answer, Ok(()));
    record
}

/// The record that loading and the accepted replies must give.
fn record_of(bytes: &[u8], replies: &[u8]) -> Record {
    let mut record = Record {
        sheet: [0; MAX_BYTES],
        length: bytes.len(),
        replies: [0; MAX_ACTION_NODES],
        count: replies.len(),
    };
    record.sheet[..bytes.len()].copy_from_slice(bytes);
    record.replies[..replies.len()].copy_from_slice(replies);
    record
}

/// What a report must answer after these replies, by the listed runs.
fn expected_report(
    sheet: &Sheet,
    listing: &Listing,
    replies: &[u8],
    reply: u8,
) -> Result<(), Refusal> {
    match listing.told(replies).expect("replies of a run") {
        _ if listing.accepts(&[replies, &[reply]].concat()) => Ok(()),
        Told::Action(action) if reply < sheet.actions[usize::from(action)].reply_count() => {
            Err(Refusal::Impossible)
        }
        Told::Action(_) => Err(Refusal::NoSuchReply),
        _ => Err(Refusal::AtEnd),
    }
}

/// One "Next" on the record, checked against the runs.
fn next(record: Record, bytes: &[u8], listing: &Listing, replies: &[u8]) -> Record {
    let (after, told) = record.next();
    assert_eq!(Some(told), listing.told(replies));
    assert_eq!(after, record_of(bytes, replies));
    after
}

/// One "Report" on the record, checked against the runs; adds accepted replies.
fn report(
    record: Record,
    bytes: &[u8],
    (sheet, listing): (&Sheet, &Listing),
    replies: &mut Vec<u8>,
    reply: u8,
) -> Record {
    let (after, answer) = record.report(reply);
    assert_eq!(answer, expected_report(sheet, listing, replies, reply));
    if answer.is_ok() {
        replies.push(reply);
    }
    assert_eq!(after, record_of(bytes, replies));
    after
}

/// Visits every list of accepted replies; tells whether the goal fails after one.
fn walk(
    record: Record,
    bytes: &[u8],
    parts: (&Sheet, &Listing),
    replies: &mut Vec<u8>,
    goal_fails: &mut bool,
) {
    let record = next(record, bytes, parts.1, replies);
    *goal_fails |= record.clone().next().1 == Told::End { goal: false };
    for reply in (0..=9).chain([128, 255]) {
        let length = replies.len();
        let after = report(record.clone(), bytes, parts, replies, reply);
        if replies.len() > length {
            walk(after, bytes, parts, replies, goal_fails);
            replies.pop();
        }
    }
}

/// Small accepted sheets, and some that came out of damage.
fn some_sheet(random: &mut Random) -> Sheet {
    if random.chance(3, 4) {
        return good(random, &Size::SMALL);
    }
    loop {
        if let Ok(sheet) = read(&damaged(random, &Size::SMALL)) {
            return sheet;
        }
    }
}

#[test]
fn all_reply_lists() {
    let mut random = Random::new(21);
    let (mut sheets, mut failing) = (0, 0);
    while sheets < 1500 {
        let sheet = some_sheet(&mut random);
        let Some(listing) = Listing::new(&sheet, MOST_RUNS) else {
            continue;
        };
        if listing.histories().len() > 80 {
            continue;
        }
        sheets += 1;
        let bytes = encode(&sheet);
        let mut goal_fails = false;
        walk(
            loaded(&bytes),
            &bytes,
            (&sheet, &listing),
            &mut Vec::new(),
            &mut goal_fails,
        );
        let (answer, _) = listing.answer(1_000_000);
        assert_eq!(goal_fails, !matches!(answer, Answer::Valid { .. }));
        failing += u32::from(goal_fails);
    }
    assert!(failing > 300 && sheets - failing > 300);
}

#[test]
fn random_lists_of_calls() {
    let mut random = Random::new(22);
    let mut sheets = 0;
    while sheets < 2000 {
        let sheet = some_sheet(&mut random);
        let Some(listing) = Listing::new(&sheet, MOST_RUNS) else {
            continue;
        };
        sheets += 1;
        let bytes = encode(&sheet);
        let mut record = loaded(&bytes);
        let mut replies = Vec::new();
        for _ in 0..20 {
            record = if random.chance(1, 3) {
                next(record, &bytes, &listing, &replies)
            } else {
                let most = if random.chance(1, 8) { 255 } else { 2 };
                let reply = random.between(0, most) as u8;
                report(record, &bytes, (&sheet, &listing), &mut replies, reply)
            };
        }
    }
}

#[test]
fn loading() {
    let mut random = Random::new(23);
    for _ in 0..2000 {
        let bytes = damaged(&mut random, &Size::SMALL);
        let (record, answer) = Record::load(&bytes);
        match read(&bytes) {
            Ok(_) => {
                assert_eq!(answer, Ok(()));
                assert_eq!(record, record_of(&bytes, &[]));
            }
            Err(refusal) => {
                assert_eq!(answer, Err(refusal));
                assert_eq!(record, record_of(&[], &[]));
            }
        }
    }
    assert_eq!(Record::ZERO, record_of(&[], &[]));
}

#[test]
fn loading_the_longest_sheet() {
    let sheet = Sheet {
        start: wide(1362),
        ..plain()
    };
    let bytes = encode(&sheet);
    assert_eq!(bytes.len(), MAX_BYTES);
    let record = loaded(&bytes);
    assert_eq!(record, record_of(&bytes, &[]));
    assert_eq!(record.next().1, Told::End { goal: true });
    let (record, answer) = Record::load(&[&bytes[..], &[0]].concat());
    assert_eq!(answer, Err(Refusal::TooLong));
    assert_eq!(record, Record::ZERO);
}

/// Both calls refuse the record and give it back.
#[track_caller]
fn assert_refused(record: &Record) {
    let (after, told) = record.clone().next();
    assert_eq!(told, Told::Refused(Refusal::Record));
    assert_eq!(after, *record);
    for reply in [0, 1, 8, 255] {
        let (after, answer) = record.clone().report(reply);
        assert_eq!(answer, Err(Refusal::Record));
        assert_eq!(after, *record);
    }
}

/// The first sample: one fact, probe it.
fn probing() -> Vec<u8> {
    unhex("11 0C 90 88 1C 40 88 20 00")
}

#[test]
fn zero_record() {
    assert_refused(&Record::ZERO);
}

#[test]
fn record_with_a_bad_length() {
    let good = record_of(&probing(), &[0]);
    let unused = record_of(&probing(), &[]);
    let far = [1023, 1024, 1025, 32768, 65535, 65536 + 9, usize::MAX];
    for length in (0..9).chain(10..30).chain(far) {
        for record in [&good, &unused] {
            let record = Record {
                length,
                ..record.clone()
            };
            assert_refused(&record);
        }
    }
}

#[test]
fn record_with_a_bad_count() {
    let good = record_of(&probing(), &[0]);
    for count in (2..=66).chain([128, 255, 256 + 1, 65536 + 1, usize::MAX]) {
        let record = Record {
            count,
            ..good.clone()
        };
        assert_refused(&record);
    }
    // The reply 0 that is no longer counted can't be told from a zero past it.
    let fewer = Record { count: 0, ..good };
    assert_eq!(fewer.next().1, Told::Action(0));
    let other = record_of(&probing(), &[1]);
    assert_refused(&Record { count: 0, ..other });
}

#[test]
fn record_with_bytes_past_its_lengths() {
    let bytes = probing();
    for replies in [&[][..], &[1][..]] {
        let good = record_of(&bytes, replies);
        for place in bytes.len()..MAX_BYTES {
            let mut record = good.clone();
            record.sheet[place] = 1 << (place % 8);
            assert_refused(&record);
        }
        for place in replies.len()..MAX_ACTION_NODES {
            let mut record = good.clone();
            record.replies[place] = 1 << (place % 8);
            assert_refused(&record);
        }
    }
}

#[test]
fn record_with_other_replies() {
    // One reply has been reported; every other value of the two bytes and count.
    let bytes = probing();
    for first in 0..=255 {
        let record = record_of(&bytes, &[first]);
        if first < 2 {
            assert_eq!(record.clone().next().1, Told::End { goal: true });
            assert_eq!(record.report(0).1, Err(Refusal::AtEnd));
        } else {
            assert_refused(&record);
        }
        assert_refused(&record_of(&bytes, &[0, first]));
    }
}

#[test]
fn a_full_record() {
    // 64 actions fill the record; the 65th report finds the routine at its end.
    let sheet = Sheet {
        actions: vec![test(fact(0))],
        goal: known(fact(0)),
        program: sequence(&[0; 64]),
        ..plain()
    };
    let bytes = encode(&sheet);
    for reply in 0..2 {
        let mut record = loaded(&bytes);
        for done in 0..64 {
            assert_eq!(record.clone().next().1, Told::Action(0));
            // Only the first probe leaves the choice.
            let expected = match done {
                0 => Ok(()),
                _ => Err(Refusal::Impossible),
            };
            assert_eq!(record.clone().report(1 - reply).1, expected);
            let (after, answer) = record.report(reply);
            assert_eq!(answer, Ok(()));
            record = after;
        }
        assert_eq!(record, record_of(&bytes, &[reply; 64]));
        let goal = reply == 0;
        assert_eq!(record.clone().next().1, Told::End { goal });
        for reply in [0, 1, 2, 255] {
            let (after, answer) = record.clone().report(reply);
            assert_eq!(answer, Err(Refusal::AtEnd));
            assert_eq!(after, record);
        }
    }
}

/// Random damage to records, judged by the parts of the rule one by one.
#[test]
fn damaged_records() {
    let mut random = Random::new(24);
    let (mut refused, mut taken) = (0, 0);
    while refused + taken < 6000 {
        let sheet = some_sheet(&mut random);
        let Some(listing) = Listing::new(&sheet, 500) else {
            continue;
        };
        let bytes = encode(&sheet);
        let mut record = record_of(&bytes, &random.pick(&listing.runs).replies());
        match random.below(6) {
            0 => record.sheet[random.below(bytes.len() + 1)] ^= 1 << random.below(8),
            1 => record.length = random.between(0, 2 * bytes.len()),
            2 => record.count = random.between(0, 8),
            3 => record.replies[random.below(6)] = random.below(4) as u8,
            4 => {
                record.replies[random.below(6)] = random.below(3) as u8;
                record.count = random.between(0, 6);
            }
            _ => record.replies[random.below(64)] ^= 1 << random.below(8),
        }
        let (inside, past) = record.sheet.split_at(record.length);
        let (replies, past_replies) = record.replies.split_at(record.count);
        let sheet = read(inside);
        let listing = match &sheet {
            Ok(sheet) => match Listing::new(sheet, 5000) {
                Some(listing) => Some(listing),
                None => continue,
            },
            Err(_) => None,
        };
        let expected = listing
            .filter(|_| past.iter().chain(past_replies).all(|&byte| byte == 0))
            .and_then(|listing| listing.told(replies));
        match expected {
            Some(told) => {
                assert_eq!(record.clone().next(), (record, told));
                taken += 1;
            }
            None => {
                assert_refused(&record);
                refused += 1;
            }
        }
    }
    assert!(refused > 1500 && taken > 500);
}
