//! One pass over the possible states when a reply comes in, beside Rust, over the sheet's
//! tree (data) and on the same tables; and beside the proved step by the same reply of the
//! probe, which keeps the same states, word by word and uncounted. (An earlier commit isn't
//! timed: before the pass "Report" kept states as a step does.)

use std::hint::black_box;

use linked::{plain, Tables, Words};
use reference::encode::encode;
use reference::sheet::{Action, Epistemic, Objective, Program, Sheet};
use reference::step::{pass, replies};

use crate::steps::{spread, tables_of};
use crate::{least, shown, Call};

/// Replies of a probe of 8 facts: true in every other state, in half of them without a
/// pattern, and in none.
fn timed_replies() -> [(&'static str, Objective); 3] {
    let fact = Objective::Fact;
    let even = (1..8).fold(fact(0), |formula, i| formula.iff(fact(i)));
    [
        ("fact 0 is false", fact(0).negate()),
        ("an even number of facts is false", even),
        ("false", Objective::False),
    ]
}

pub fn rows() {
    println!(
        "{:<34} {:>6} {:>5} {:>9} {:>9} {:>9} {:>9} {:>9} {:>9} {:>9}",
        "reply",
        "states",
        "kept",
        "proved ns",
        "data",
        "tables",
        "step",
        "to data",
        "to tables",
        "to step"
    );
    let (names, mut formulas): (Vec<_>, Vec<_>) = timed_replies().into_iter().unzip();
    // In each state some reply must be true.
    formulas.push(Objective::True);
    let probe = Action::Probe(formulas);
    let tables = tables_of(&encode(&Sheet {
        edition: 1,
        facts: 8,
        constraint: Objective::True,
        actions: vec![probe.clone()],
        start: Objective::True,
        goal: Epistemic::Known(Objective::True),
        program: Program::End,
    }));
    for (reply, name) in (0..).zip(names) {
        for count in [1, 16, 128, 256] {
            row(name, count, &probe, reply, &tables);
        }
    }
}

/// A pass over tables.
type Pass = fn(&Tables, &mut Words, usize, usize, &mut [u64; 1]) -> bool;

fn row(name: &str, count: usize, probe: &Action, reply: u8, tables: &Tables) {
    let (possible, first) = spread(count);
    // The set that is kept, whether it has a state, and the number of evaluations.
    let over_tables = |pass: Pass| {
        let (mut set, mut evaluations) = (black_box(first), [0]);
        let is_possible = pass(
            black_box(tables),
            &mut set,
            0,
            reply.into(),
            &mut evaluations,
        );
        (set, is_possible, evaluations[0])
    };
    let data = || pass(black_box(&possible), |state| replies(probe, reply, state));
    let step = || {
        let mut set = black_box(first);
        linked::step(black_box(tables), &mut set, 0, reply.into());
        set
    };
    let (kept, is_possible, evaluations) = over_tables(linked::pass);
    assert_eq!(evaluations, count as u64);
    assert_eq!(over_tables(plain::pass), (kept, is_possible, evaluations));
    assert_eq!(plain::words(data().kept.iter()), kept);
    assert_eq!(data().possible, is_possible);
    assert_eq!(data().evaluations, count);
    assert_eq!(step(), kept);
    let proved: Call = Box::new(|| {
        black_box(over_tables(linked::pass));
    });
    let in_data: Call = Box::new(|| {
        black_box(data());
    });
    let in_tables: Call = Box::new(|| {
        black_box(over_tables(plain::pass));
    });
    let a_step: Call = Box::new(|| {
        black_box(step());
    });
    let calls = [proved, in_data, in_tables, a_step];
    let [proved, data, tables, step] = least(calls.map(Some));
    let ratio = |other: Option<f64>| proved.zip(other).map(|(proved, other)| proved / other);
    println!(
        "{name:<34} {count:>6} {:>5} {:>9} {:>9} {:>9} {:>9} {:>9} {:>9} {:>9}",
        kept.iter().map(|word| word.count_ones()).sum::<u32>(),
        shown(proved, 1),
        shown(data, 1),
        shown(tables, 1),
        shown(step, 1),
        shown(ratio(data), 4),
        shown(ratio(tables), 2),
        shown(ratio(step), 2)
    );
}
