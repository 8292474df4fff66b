//! The proved verifier beside the one of an earlier commit, if that is linked, and
//! three in Rust: `reference::verify::verify`, which carries sets of states forward
//! over the sheet's tree (data), `plain::verify` over the same tables, which visits
//! all histories, and `plain::verify_remembering`, with the same memory. The proved
//! `prepare` makes their tables in their time, so that the search itself is compared.

use std::hint::black_box;

use linked::{plain, Tables, Verdict};
use reference::encode::encode;
use reference::sheet::MAX_TRACE;
use reference::verify::{verify, Answer};

use crate::routines::{later_sheets, verified_sheets, without_action};
use crate::slowest::{atoms, slow_sheets};
use crate::{least, shown, time, Call, BUDGET};

pub type Verify = fn(&[u8], u32, &mut [u8]) -> Result<Verdict, u8>;

/// The proved verifier of an earlier commit.
#[cfg(feature = "before")]
pub const BEFORE: Option<Verify> = Some(linked::verify_before);
#[cfg(not(feature = "before"))]
pub const BEFORE: Option<Verify> = None;

/// With more histories a search one by one would take more than some seconds, and
/// isn't run; the earlier commit is to be one whose search remembers. (Over the tree a history takes up to some 50 µs; the sheets of the
/// sum are searched up to `BUDGET`, being quicker than that or having few.)
const MOST_OVER_TABLES: u32 = 500_000_000;
const MOST_OVER_TREE: u32 = 100_000;

/// How many histories were counted, and times in nanoseconds.
#[derive(Clone, Copy)]
struct Row {
    count: f64,
    /// Of the proved one, the one before, and those over data, over tables and with
    /// a memory; of those that were run.
    times: [Option<f64>; 5],
    /// Of the proved reading and tables alone, which are in all but that of the data.
    prepare: f64,
}

impl Row {
    fn add(&mut self, row: Row) {
        self.count += row.count;
        for (sum, time) in self.times.iter_mut().zip(row.times) {
            *sum = sum.zip(time).map(|(sum, time)| sum + time);
        }
        self.prepare += row.prepare;
    }
}

pub fn rows() {
    println!(
        "{:<73} {:>21} {:>32} {:>39} {:>21}",
        "", "proved, ms", "Rust, ms", "ratio of proved", "search, ns a history"
    );
    println!(
        "{:<54} {:>7} {:>10} {:>10} {:>10} {:>10} {:>10} {:>10} {:>9} {:>9} {:>9} {:>9} {:>10} {:>10}",
        "sheet",
        "verdict",
        "count",
        "now",
        "before",
        "data",
        "tables",
        "memory",
        "to before",
        "to data",
        "to tables",
        "to memory",
        "proved",
        "tables"
    );
    let nothing = Row {
        count: 0.0,
        times: [Some(0.0); 5],
        prepare: 0.0,
    };
    let [mut all, mut of_8_facts] = [nothing; 2];
    for (name, sheet) in verified_sheets() {
        let (verdict, row) = time_verifying(&encode(&sheet), BUDGET, BUDGET);
        print_row(name, verdict, row);
        all.add(row);
        if sheet.facts == 8 {
            of_8_facts.add(row);
        }
    }
    print_row("all of 8 facts", "", of_8_facts);
    print_row("all", "", all);
    assert!(all.count >= 1e6);
    for (name, sheet) in without_action() {
        let (verdict, row) = time_verifying(&encode(&sheet), BUDGET, BUDGET);
        print_row(name, verdict, row);
    }
    for (name, sheet, budget) in later_sheets() {
        let (verdict, row) = time_verifying(&encode(&sheet), budget, MOST_OVER_TREE);
        print_row(&name, verdict, row);
    }
}

/// The proved verifier on sheets that defeat its memory, and what it did there; of three
/// times each, the least.
pub fn slowest() {
    println!(
        "{:<60} {:>5} {:>7} {:>8} {:>9} {:>10} {:>10} {:>9} {:>9}",
        "sheet",
        "atoms",
        "verdict",
        "count",
        "visited",
        "now ms",
        "before ms",
        "to before",
        "ns/atom"
    );
    let mut together = [Some(0.0); 2];
    for (name, sheet) in slow_sheets() {
        let bytes = &encode(&sheet);
        let atoms = atoms(&sheet.goal);
        let (mut tables, mut start) = (Tables::zeroed(), [0; 4]);
        assert_eq!(linked::prepare(bytes, &mut tables, &mut start), 0);
        let (verdict, counts) =
            plain::verify_counting(&tables, &start, BUDGET, &mut [0; MAX_TRACE]);
        let call = |verify: Verify| -> Call {
            Box::new(move || {
                let found = verify(black_box(bytes), BUDGET, &mut [0; MAX_TRACE]);
                assert_eq!(found, Ok(verdict));
            })
        };
        let mut calls = [Some(call(linked::verify)), BEFORE.map(call)];
        let mut times = [None; 2];
        // Both are timed equally often, however long they take; see `least`.
        for round in 0..3 {
            let mut pairs: Vec<_> = calls.iter_mut().zip(&mut times).collect();
            if round == 1 {
                pairs.reverse();
            }
            for (call, least) in pairs {
                *least = lesser(*least, call.as_mut().map(time));
            }
        }
        let [now, before] = times;
        together = [added(together[0], now), added(together[1], before)];
        let (word, count) = match verdict {
            Verdict::Valid { count } => ("valid", count),
            Verdict::Invalid { count, .. } => ("invalid", count),
            Verdict::Stopped { budget } => ("stopped", budget),
        };
        println!(
            "{name:<60} {atoms:>5} {word:>7} {count:>8} {:>9} {:>10} {:>10} {:>9} {:>9}",
            counts.visited,
            shown(now.map(|time| time / 1e6), 2),
            shown(before.map(|time| time / 1e6), 2),
            shown(now.zip(before).map(|(now, before)| now / before), 2),
            shown(
                now.map(|time| time / (counts.visited as f64 * atoms as f64)),
                2
            )
        );
    }
    let [now, before] = together;
    println!(
        "{:<93} {:>10} {:>10} {:>9}",
        "together",
        shown(now.map(|time| time / 1e6), 2),
        shown(before.map(|time| time / 1e6), 2),
        shown(now.zip(before).map(|(now, before)| now / before), 2)
    );
}

/// The lesser of two times, if there are any.
fn lesser(one: Option<f64>, other: Option<f64>) -> Option<f64> {
    [one, other].into_iter().flatten().reduce(f64::min)
}

/// The sum of two times, if there are both.
fn added(one: Option<f64>, other: Option<f64>) -> Option<f64> {
    one.zip(other).map(|(one, other)| one + other)
}

fn print_row(name: &str, verdict: &str, row: Row) {
    let [proved, before, data, tables, memory] = row.times;
    print!("{name:<54} {verdict:>7} {:>10}", row.count);
    for time in row.times {
        print!(" {:>10}", shown(time.map(|time| time / 1e6), 4));
    }
    for other in [before, data, tables, memory] {
        let ratio = proved.zip(other).map(|(proved, other)| proved / other);
        print!(" {:>9}", shown(ratio, 4));
    }
    for time in [proved, tables] {
        let search = time.map(|time| (time - row.prepare) / row.count);
        // A difference of times tells nothing where there is little to search.
        let search = search.filter(|_| row.count >= 10_000.0);
        print!(" {:>10}", shown(search, 2));
    }
    println!();
}

/// The verdict in a word, and the times; asserts that all give the same verdict
/// and memory. The tree is searched for up to so many histories.
fn time_verifying(bytes: &[u8], budget: u32, most_over_tree: u32) -> (&'static str, Row) {
    let verdict = linked::verify(bytes, budget, &mut [0; MAX_TRACE]).unwrap();
    let (word, count, answer) = match verdict {
        Verdict::Valid { count } => ("valid", count, Answer::Valid { count }),
        Verdict::Invalid { count, length } => ("invalid", count, Answer::Invalid { count, length }),
        Verdict::Stopped { budget } => ("stopped", budget, Answer::Stopped { budget }),
    };
    let mut memories = [[7; MAX_TRACE]; 5];
    let [lent, lent_before, lent_data, lent_tables, lent_memory] = &mut memories;
    let [mut tables, mut tables_memory, mut tables_alone] = [(); 3].map(|()| Tables::zeroed());
    let proved: Call =
        Box::new(|| assert_eq!(linked::verify(black_box(bytes), budget, lent), Ok(verdict)));
    let before = BEFORE.map(|verify| -> Call {
        Box::new(move || assert_eq!(verify(black_box(bytes), budget, lent_before), Ok(verdict)))
    });
    let data: Call = Box::new(|| assert_eq!(verify(black_box(bytes), budget, lent_data), answer));
    let over_tables: Call = Box::new(|| {
        let mut start = [0; 4];
        linked::prepare(black_box(bytes), &mut tables, &mut start);
        assert_eq!(plain::verify(&tables, &start, budget, lent_tables), verdict);
    });
    let remembering: Call = Box::new(|| {
        let mut start = [0; 4];
        linked::prepare(black_box(bytes), &mut tables_memory, &mut start);
        let found = plain::verify_remembering(&tables_memory, &start, budget, lent_memory);
        assert_eq!(found, verdict);
    });
    let prepare: Call = Box::new(|| {
        linked::prepare(black_box(bytes), &mut tables_alone, &mut [0; 4]);
    });
    let [proved, before, data, tables, memory, prepare] = least([
        Some(proved),
        before,
        Some(data).filter(|_| count <= most_over_tree),
        Some(over_tables).filter(|_| count <= MOST_OVER_TABLES),
        Some(remembering),
        Some(prepare),
    ]);
    let times = [proved, before, data, tables, memory];
    for (memory, time) in memories.iter().zip(times) {
        assert!(time.is_none() || *memory == memories[0]);
    }
    let row = Row {
        count: f64::from(count),
        times,
        prepare: prepare.unwrap(),
    };
    (word, row)
}
