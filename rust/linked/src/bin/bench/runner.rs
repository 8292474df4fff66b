//! Loading, "Next" and "Report" of the proved runner, in tables of their own and in lent
//! ones (`_in`), beside those of an earlier commit, if that is linked, and two in Rust:
//! `reference::runner`, which reads the sheet and steps over its tree (data), and
//! `plain::follow` and a step over the tables that the proved `prepare` makes in its time.

use std::hint::black_box;

use linked::{plain, Place, Tables};
use reference::encode::encode;
use reference::runner::{Record, Told};

use crate::routines::{reported_sheets, verified_sheets};
use crate::{least, shown, Call};

/// The calls of a proved runner. Those in tables of their own don't use the lent ones.
#[derive(Clone, Copy)]
struct Runner {
    load: fn(&[u8], &mut linked::Record, &mut Tables) -> u8,
    next: fn(&linked::Record, &mut [usize; 2], &mut Tables) -> u8,
    report: fn(&mut linked::Record, u8, &mut Tables) -> u8,
}

/// In tables of their own, and in lent ones.
const PROVED: [Runner; 2] = [
    Runner {
        load: |bytes, record, _| linked::load(bytes, record),
        next: |record, told, _| linked::next(record, told),
        report: |record, reply, _| linked::report(record, reply),
    },
    Runner {
        load: linked::load_in,
        next: linked::next_in,
        report: linked::report_in,
    },
];

/// The same of an earlier commit; in its own tables both times if it has no lent ones.
#[cfg(not(feature = "before"))]
const BEFORE: Option<[Runner; 2]> = None;
#[cfg(all(feature = "before", lent_before))]
const BEFORE: Option<[Runner; 2]> = Some([OWN_BEFORE, LENT_BEFORE]);
#[cfg(all(feature = "before", not(lent_before)))]
const BEFORE: Option<[Runner; 2]> = Some([OWN_BEFORE; 2]);

#[cfg(feature = "before")]
const OWN_BEFORE: Runner = Runner {
    load: |bytes, record, _| linked::load_before(bytes, record),
    next: |record, told, _| linked::next_before(record, told),
    report: |record, reply, _| linked::report_before(record, reply),
};
#[cfg(lent_before)]
const LENT_BEFORE: Runner = Runner {
    load: linked::load_in_before,
    next: linked::next_in_before,
    report: linked::report_in_before,
};

pub fn rows() {
    println!(
        "{:<54} {:>7} {:>9} {:>10} {:>10} {:>10} {:>10} {:>9} {:>8} {:>9}",
        "sheet",
        "replies",
        "call",
        "proved us",
        "before us",
        "data us",
        "tables us",
        "to before",
        "to data",
        "to tables"
    );
    let wanted = [
        "6 changes to 16 states each, 12 probes",
        "64 probes, the first history fails",
        "a random routine",
        "sample 1, 1 fact",
    ];
    for (name, sheet) in verified_sheets() {
        if wanted.contains(&name) {
            sheet_rows(name, &encode(&sheet));
        }
    }
    let more: Vec<_> = reported_sheets()
        .into_iter()
        .map(|(name, sheet)| (name, more_than_next(sheet_rows(name, &encode(&sheet)))))
        .collect();
    println!("\nwhat \"Report\" takes more than \"Next\", in lent tables");
    println!(
        "{:<54} {:>9} {:>9} {:>9}",
        "sheet", "proved ns", "before ns", "more"
    );
    for (name, [proved, before]) in more {
        let more = proved.zip(before).map(|(proved, before)| proved - before);
        println!(
            "{name:<54} {:>9} {:>9} {:>9}",
            shown(proved, 0),
            shown(before, 0),
            shown(more, 0)
        );
    }
}

/// The times in lent tables of loading, "Next" and "Report", proved and before.
type Lent = [[Option<f64>; 2]; 3];

/// How much longer a report takes than "Next". The loop over the record's bytes is in both:
/// where the linker puts it makes more of a difference than a reply.
fn more_than_next([_, next, report]: Lent) -> [Option<f64>; 2] {
    [0, 1].map(|i| report[i].zip(next[i]).map(|(report, next)| report - next))
}

/// Prints the rows of a sheet, at the last action of the run by the least replies.
fn sheet_rows(name: &str, bytes: &[u8]) -> Lent {
    let (record, reply) = last_action(bytes);
    let replies = &record.replies[..record.count];
    let lent = linked::Record {
        sheet: record.sheet,
        replies: record.replies,
        lengths: [record.length, record.count],
    };
    let load = |runner: Runner, tables: &mut Tables| {
        let mut loaded = black_box(&lent).clone();
        assert_eq!((runner.load)(black_box(bytes), &mut loaded, tables), 0);
        loaded
    };
    let next = |runner: Runner, tables: &mut Tables| {
        let mut told = [0; 2];
        assert_eq!((runner.next)(black_box(&lent), &mut told, tables), 0);
        told
    };
    let report = |runner: Runner, tables: &mut Tables| {
        let mut after = black_box(&lent).clone();
        assert_eq!((runner.report)(&mut after, reply, tables), 0);
        after
    };
    let follow = |tables: &mut Tables| {
        let mut start = [0; 4];
        linked::prepare(black_box(bytes), tables, &mut start);
        let (mut set, place) = plain::follow(tables, &start, replies).unwrap();
        let Place::Act { action, .. } = place else {
            unreachable!()
        };
        plain::step(tables, &mut set, action, reply.into());
        (action, set)
    };
    let mut tables = Tables::zeroed();
    let (action, _) = follow(&mut tables);
    assert_eq!(record.clone().next().1, Told::Action(action as u8));
    let count = record.clone().report(reply).0.count;
    for runner in PROVED.into_iter().chain(BEFORE.into_iter().flatten()) {
        assert_eq!(load(runner, &mut tables).lengths, [bytes.len(), 0]);
        assert_eq!(next(runner, &mut tables), [0, action]);
        assert_eq!(report(runner, &mut tables).lengths, [bytes.len(), count]);
    }
    // Each call by a runner in tables for it, over data and over tables.
    type By<'a> = &'a dyn Fn(Runner, &mut Tables);
    let calls: [(&str, By, &dyn Fn(), bool); 3] = [
        (
            "load",
            &|runner, tables| {
                black_box(load(runner, tables));
            },
            &|| {
                black_box(Record::load(black_box(bytes)).0);
            },
            false,
        ),
        (
            "next",
            &|runner, tables| {
                black_box(next(runner, tables));
            },
            &|| {
                black_box(black_box(&record).clone().next().0);
            },
            true,
        ),
        (
            "report",
            &|runner, tables| {
                black_box(report(runner, tables));
            },
            &|| {
                black_box(black_box(&record).clone().report(reply).0);
            },
            true,
        ),
    ];
    calls.map(|(call, by, data, follows)| {
        let timed = |runner: Runner| -> Call {
            let mut tables = Tables::zeroed();
            Box::new(move || by(runner, &mut tables))
        };
        let [own, lent] = PROVED.map(timed);
        let [own_before, lent_before] = match BEFORE {
            Some(runners) => runners.map(|runner| Some(timed(runner))),
            None => [None, None],
        };
        let over_data: Call = Box::new(data);
        let over_tables: Call = Box::new(|| {
            black_box(follow(&mut tables));
        });
        let [own, lent, own_before, lent_before, data, tables] = least([
            Some(own),
            Some(lent),
            own_before,
            lent_before,
            Some(over_data),
            Some(over_tables).filter(|_| follows),
        ]);
        for (form, proved, before) in [("", own, own_before), ("_in", lent, lent_before)] {
            let micros = |time: Option<f64>| shown(time.map(|time| time / 1e3), 2);
            let ratio = |other: Option<f64>| proved.zip(other).map(|(time, other)| time / other);
            println!(
                "{name:<54} {:>7} {:>9} {:>10} {:>10} {:>10} {:>10} {:>9} {:>8} {:>9}",
                record.count,
                format!("{call}{form}"),
                micros(proved),
                micros(before),
                micros(data),
                micros(tables),
                shown(ratio(before), 2),
                shown(ratio(data), 4),
                shown(ratio(tables), 2)
            );
        }
        [lent, lent_before]
    })
}

/// The record at the last action of the run by the least replies, and the least reply to it.
fn last_action(bytes: &[u8]) -> (Record, u8) {
    let mut record = Record::load(bytes).0;
    loop {
        let taken = |&reply: &u8| record.clone().report(reply).1.is_ok();
        let reply = (0..8).find(taken).unwrap();
        let after = record.clone().report(reply).0;
        match after.clone().next().1 {
            Told::Action(_) => record = after,
            _ => return (record, reply),
        }
    }
}
