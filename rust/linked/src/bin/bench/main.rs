//! Times the proved functions beside Rust, on the same sheets in the same run.
//!
//! Each line gives the least time of a call for each, and the quotients. Run it
//! in release mode; an argument chooses one of the sections "reading", "tables",
//! "steps", "pass", "verifying", "slowest", "lent", "growth", "runner" and "figures". Behind
//! "growth" the path of a picture to write may follow. With the feature `before` the proved
//! reader, tables, steps, settling, verifier and runner of an earlier commit are timed
//! too.

mod before;
mod figures;
mod growth;
mod lent;
mod pass;
mod picture;
mod reading;
mod routines;
mod runner;
mod sheets;
mod slowest;
mod steps;
mod theories;
mod verifying;

use std::hint::black_box;
use std::time::{Duration, Instant};

use linked::{plain, Tables};
use reference::read::read;

use before::Before;

/// The budget of `planverify`.
const BUDGET: u32 = 1_000_000;

const SAMPLE_1: [u8; 9] = [0x11, 0x0c, 0x90, 0x88, 0x1c, 0x40, 0x88, 0x20, 0x00];

fn main() {
    let section = std::env::args().nth(1);
    let wanted = |name: &str| section.as_deref().is_none_or(|section| section == name);
    if wanted("reading") {
        println!("reading, 8 facts where none are named");
        reading::rows();
    }
    if wanted("tables") {
        println!("\nreading and tables");
        prepare_rows();
    }
    if wanted("steps") {
        println!("\nsteps and places, 8 facts");
        steps::rows();
    }
    if wanted("pass") {
        println!("\none pass over the possible states when a reply comes in, 8 facts");
        pass::rows();
    }
    if wanted("verifying") {
        println!("\nverifying, 8 facts where none are named");
        verifying::rows();
    }
    if wanted("slowest") {
        println!("\nsheets that verify slowly, 8 facts, a budget of 1,000,000");
        verifying::slowest();
    }
    if wanted("lent") {
        println!("\ntables of the call's own and lent ones, 8 facts where none are named");
        lent::rows();
    }
    if wanted("growth") {
        println!("\ngrowth of the search, 8 facts where none are named");
        growth::rows(std::env::args().nth(2));
    }
    if wanted("runner") {
        println!("\nthe runner at the last action of a run, 8 facts where none are named");
        runner::rows();
    }
    if wanted("figures") {
        println!("\nthe figures of a stream, fed in pieces of 65,536 bytes");
        figures::rows();
    }
}

fn prepare_rows() {
    println!(
        "{:<66} {:>5} {:>6} {:>11} {:>11} {:>11} {:>9} {:>7}",
        "sheet", "bytes", "sets", "proved ns", "before ns", "Rust ns", "to before", "to Rust"
    );
    let rows = sheets::prepared_sheets().into_iter();
    let times: Vec<_> = rows
        .map(|(name, bytes)| prepare_row(&name, &bytes))
        .collect();
    let proved: f64 = times.iter().map(|row| row.0).sum();
    let before: Option<f64> = times.iter().map(|row| row.1).sum();
    println!(
        "{:<66} {:>5} {:>6} {proved:>11.0} {:>11} {:>11} {:>9}",
        "all",
        "",
        "",
        shown(before, 0),
        "",
        shown(before.map(|before| proved / before), 3)
    );
}

/// Prints the row of a sheet, and gives the times of the proved function now and before.
fn prepare_row(name: &str, bytes: &[u8]) -> (f64, Option<f64>) {
    let (mut tables, mut start) = (Tables::zeroed(), [0; 4]);
    assert_eq!(linked::prepare(bytes, &mut tables, &mut start), 0);
    let mut expected = Tables::zeroed();
    assert_eq!(plain::prepare(&read(bytes).unwrap(), &mut expected), start);
    assert!(tables == expected);
    let mut earlier = Before::of(bytes);
    if let Some(tables) = &mut earlier {
        let mut start_before = [0; 4];
        assert_eq!(tables.prepare(bytes, &mut start_before), 0);
        assert_eq!(start_before, start);
    }
    let sets = 1 + last_set(&tables);
    let mut proved = f64::INFINITY;
    let mut before = None;
    let mut rust = f64::INFINITY;
    for _ in 0..7 {
        proved = proved.min(time(|| {
            u64::from(linked::prepare(black_box(bytes), &mut tables, &mut start))
        }));
        before = earlier.as_mut().map(|tables| {
            let time = time(|| u64::from(tables.prepare(black_box(bytes), &mut start)));
            time.min(before.unwrap_or(f64::INFINITY))
        });
        rust = rust.min(time(|| {
            let sheet = read(black_box(bytes)).unwrap();
            plain::prepare(&sheet, &mut expected)[0]
        }));
    }
    println!(
        "{name:<66} {:>5} {sets:>6} {proved:>11.0} {:>11} {rust:>11.0} {:>9} {:>7.3}",
        bytes.len(),
        shown(before, 0),
        shown(before.map(|before| proved / before), 3),
        proved / rust
    );
    (proved, before)
}

/// The last set that a node "known" or "not known" names: these sets are the last.
fn last_set(tables: &Tables) -> u16 {
    let atoms = tables.nodes.chunks(3).filter(|node| node[0] == plain::ATOM);
    atoms.map(|node| node[1]).max().unwrap()
}

/// A call to be timed.
type Call<'a> = Box<dyn FnMut() + 'a>;

/// What takes so many nanoseconds is timed once.
const LONG: f64 = 1e8;

/// The least of seven times of each call, taken in turns, in nanoseconds.
fn least<const N: usize>(mut calls: [Option<Call>; N]) -> [Option<f64>; N] {
    let mut least = [None; N];
    for round in 0..7 {
        let mut pairs: Vec<_> = calls.iter_mut().zip(&mut least).collect();
        // What runs before a call has a part in its time.
        if round % 2 == 1 {
            pairs.reverse();
        }
        for (call, least) in pairs {
            match (call, &least) {
                (None, _) => {}
                (Some(_), Some(LONG..)) => {}
                (Some(call), _) => *least = Some(time(call).min(least.unwrap_or(f64::INFINITY))),
            }
        }
    }
    least
}

/// So many digits of a number, if there is one.
fn shown(number: Option<f64>, digits: usize) -> String {
    number.map_or("-".to_string(), |number| format!("{number:.digits$}"))
}

/// Nanoseconds of one call, over at least 30 milliseconds; the clock is read
/// after twice as many calls each time, so that it costs nothing.
fn time<T>(mut call: impl FnMut() -> T) -> f64 {
    let start = Instant::now();
    let mut calls = 0;
    let mut more = 1;
    while start.elapsed() < Duration::from_millis(30) {
        for _ in 0..more {
            black_box(call());
        }
        calls += more;
        more *= 2;
    }
    start.elapsed().as_nanos() as f64 / f64::from(calls)
}
