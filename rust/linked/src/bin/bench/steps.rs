//! Steps and settling beside Rust, over the sheet's tree (data) and on the same
//! tables, and beside the proved ones of an earlier commit, if that is linked.

use std::hint::black_box;

use linked::{plain, Place, Tables, Words};
use reference::encode::encode;
use reference::read::read;
use reference::sheet::{Action, Epistemic, Objective, Program, Sheet};
use reference::states::{State, StateSet};
use reference::step::{gather, keep};
use reference::truth::holds_knowing;

use crate::before::Before;
use crate::sheets::{goal_of_atoms, most};
use crate::slowest::{atoms, turns_left, turns_right};
use crate::theories::{balanced, stays};
use crate::{shown, time};

pub fn rows() {
    println!(
        "{:<28} {:>6} {:>9} {:>9} {:>11} {:>9} {:>9} {:>9} {:>9}",
        "step",
        "states",
        "proved ns",
        "before",
        "Rust data",
        "tables",
        "to before",
        "to data",
        "to tables"
    );
    step_rows();
    settle_rows();
    println!("\nsettling by formula, 256 states");
    println!(
        "{:<46} {:>5} {:>9} {:>9} {:>9} {:>9} {:>9}",
        "formula", "atoms", "proved ns", "before", "tables", "to before", "to tables"
    );
    formula_rows();
}

/// A condition's or the goal's atom, which is always known.
fn known(i: u8) -> Epistemic {
    let fact = Objective::Fact(i % 8);
    Epistemic::Known(fact.clone().or(fact.negate()))
}

/// A sheet of 8 facts: a probe, a change, a program of one branch, and a goal.
fn stepped_sheet(condition: Epistemic, goal: Epistemic) -> Sheet {
    let probe = Action::Probe(vec![Objective::Fact(0), Objective::Fact(0).negate()]);
    Sheet {
        edition: 1,
        facts: 8,
        constraint: Objective::True,
        actions: vec![probe, Action::Change(stays(8))],
        start: Objective::True,
        goal,
        program: Program::branch(
            condition,
            Program::act(0, Program::End),
            Program::act(1, Program::End),
            Program::End,
        ),
    }
}

pub fn tables_of(bytes: &[u8]) -> Tables {
    let mut tables = Tables::zeroed();
    let answer = linked::prepare(bytes, &mut tables, &mut [0; 4]);
    assert_eq!(answer, 0);
    tables
}

/// The node of the branch of such a sheet and that of its end, or of the end of a
/// program without nodes: behind a jump and the goal. A branch has its condition, an
/// action, a jump and an action behind it.
fn places(sheet: &Sheet) -> [usize; 2] {
    let nodes = |formula| 2 * atoms(formula) - 1;
    let first = 1 + nodes(&sheet.goal);
    match &sheet.program {
        Program::Branch { condition, .. } => [first, first + 1 + nodes(condition) + 3],
        _ => [first, first],
    }
}

/// The same places in the tables of the earlier commit: a test for each atom, and
/// the goal's tests in the place of the end.
fn places_before(sheet: &Sheet) -> [usize; 2] {
    match &sheet.program {
        Program::Branch { condition, .. } => [0, atoms(condition) + 3],
        _ => [0, 0],
    }
}

/// What both libraries must say of a place: the action, or whether the goal holds.
fn action_or_goal(place: Place) -> Result<usize, bool> {
    match place {
        Place::Act { action, .. } => Ok(action),
        Place::End { goal } => Err(goal),
    }
}

/// So many states, evenly spread.
pub fn spread(count: usize) -> (StateSet, Words) {
    let members = || (0..count).map(|i| (i * (256 / count)) as State);
    (members().collect(), plain::words(members()))
}

fn step_rows() {
    let sheet = stepped_sheet(known(0), known(0));
    let bytes = encode(&sheet);
    let tables = tables_of(&bytes);
    let earlier = Before::of(&bytes);
    for (name, number) in [("a probe", 0), ("a change", 1)] {
        let action = &sheet.actions[number];
        for count in [1, 16, 128, 256] {
            let (possible, first) = spread(count);
            // The probe's second reply: all the sets have a state without fact 0.
            let reply = action.reply_count() - 1;
            let proved = || {
                let mut set = black_box(first);
                linked::step(black_box(&tables), &mut set, number, usize::from(reply));
                set
            };
            let before = earlier.as_ref().map(|tables| {
                move || {
                    let mut set = black_box(first);
                    black_box(tables).step(&mut set, number, usize::from(reply));
                    set
                }
            });
            let data = || {
                let gathered = gather(&sheet, action, black_box(&possible));
                keep(action, reply, &gathered)
            };
            let rust = || {
                let mut set = black_box(first);
                plain::step(black_box(&tables), &mut set, number, usize::from(reply));
                set
            };
            assert_eq!(proved(), plain::words(data().iter()));
            assert_eq!(proved(), rust());
            assert!(before.as_ref().is_none_or(|before| before() == proved()));
            assert!(!data().is_empty());
            step_row(name, count, proved, before, data, rust);
        }
    }
}

fn settle_rows() {
    let goal: Vec<Epistemic> = (0..30).map(known).collect();
    let sheet = stepped_sheet(known(0), balanced(&goal));
    let bytes = encode(&sheet);
    let tables = tables_of(&bytes);
    let earlier = Before::of(&bytes);
    let Program::Branch { condition, .. } = &sheet.program else {
        unreachable!()
    };
    let names = [
        ("a branch of one atom", condition),
        ("a goal of 30 atoms", &sheet.goal),
    ];
    let nodes = places(&sheet).into_iter().zip(places_before(&sheet));
    for ((name, formula), (at, at_before)) in names.into_iter().zip(nodes) {
        for count in [1, 16, 128, 256] {
            let (possible, set) = spread(count);
            let proved = || linked::settle(black_box(&tables), black_box(&set), at);
            let before = earlier
                .as_ref()
                .map(|tables| move || black_box(tables).settle(black_box(&set), at_before));
            let data = || holds_knowing(black_box(formula), black_box(&possible));
            let rust = || plain::settle(black_box(&tables), black_box(&set), at);
            assert!(data());
            let expected = if formula == condition {
                Place::Act {
                    node: at + 2,
                    action: 0,
                }
            } else {
                Place::End { goal: true }
            };
            assert_eq!(proved(), expected);
            assert_eq!(rust(), expected);
            if let Some(before) = &before {
                assert_eq!(action_or_goal(before()), action_or_goal(expected));
            }
            let proved = || proved().number();
            let before = before.map(|before| move || before().number());
            let rust = || rust().number();
            step_row(name, count, proved, before, data, rust);
        }
    }
}

fn step_row<P, B, D, R>(
    name: &str,
    count: usize,
    proved: impl Fn() -> P,
    before: Option<impl Fn() -> B>,
    data: impl Fn() -> D,
    rust: impl Fn() -> R,
) {
    let mut least = [f64::INFINITY; 4];
    for _ in 0..7 {
        let times = [
            time(&proved),
            before.as_ref().map_or(f64::INFINITY, time),
            time(&data),
            time(&rust),
        ];
        for (least, time) in least.iter_mut().zip(times) {
            *least = least.min(time);
        }
    }
    let [proved, before, data, rust] = least;
    let before = Some(before).filter(|before| before.is_finite());
    println!(
        "{name:<28} {count:>6} {proved:>9.1} {:>9} {data:>11.1} {rust:>9.1} {:>9} {:>9.4} {:>9.2}",
        shown(before, 1),
        shown(before.map(|before| proved / before), 2),
        proved / data,
        proved / rust
    );
}

/// Settling at branches and goals of so many atoms, all of which are tested.
fn formula_rows() {
    // Of two levels, so that chains of 15 are within the depth.
    let holds = || Epistemic::Known(Objective::True);
    let fails = || Epistemic::Known(Objective::False);
    let tree = |count| balanced(&vec![holds(); count]);
    let right = |count| (1..count).fold(holds(), |formula, _| holds().and(formula));
    let left = |count| (1..count).fold(holds(), |formula, _| formula.and(holds()));
    let pairs = |count: usize| balanced(&vec![fails().or(holds()); count / 2]);
    let longest = read(&most(2000, goal_of_atoms)).unwrap();
    let goal = |goal| Sheet {
        goal,
        ..longest.clone()
    };
    let branch = |condition| stepped_sheet(condition, holds());
    let rows = [
        ("a branch of one atom", branch(holds())),
        ("a branch, a tree", branch(tree(4))),
        ("a branch, a chain to the right", branch(right(4))),
        ("a branch, a chain to the left", branch(left(4))),
        ("a branch, by turns to the right", branch(turns_right(4))),
        ("a branch, by turns to the left", branch(turns_left(4))),
        (
            "a branch, pairs joined by \"and\", these by \"or\"",
            branch(holds().and(fails()).or(holds().and(holds()))),
        ),
        (
            "a branch, pairs joined by \"or\", these by \"and\"",
            branch(pairs(4)),
        ),
        ("a goal of one atom", goal(holds())),
        ("a goal, a tree", goal(tree(4))),
        ("a goal, a chain to the right", goal(right(4))),
        ("a goal, a chain to the left", goal(left(4))),
        ("a goal, a tree", goal(tree(14))),
        ("a goal, a chain to the right", goal(right(14))),
        ("a goal, a chain to the left", goal(left(14))),
        (
            "a goal, \"or\" to the right, the last holds",
            goal((1..14).fold(holds(), |formula, _| fails().or(formula))),
        ),
        ("a goal, by turns to the right", goal(turns_right(14))),
        ("a goal, by turns to the left", goal(turns_left(14))),
        ("a goal, a tree of pairs joined by \"or\"", goal(pairs(14))),
        ("a goal, a tree of pairs joined by \"or\"", goal(pairs(30))),
        ("a goal, a tree", goal(tree(30))),
        (
            "a goal, a tree of chains of 6 to the right",
            goal(balanced(&vec![right(6); 5])),
        ),
        (
            "a goal, a tree of chains of 6 to the left",
            goal(balanced(&vec![left(6); 5])),
        ),
        ("a goal of the most atoms, a tree", longest.clone()),
    ];
    let mut sums = [[0.0; 2]; 2];
    for (name, sheet) in &rows {
        let formula = match &sheet.program {
            Program::Branch { condition, .. } => condition,
            _ => &sheet.goal,
        };
        let count = atoms(formula);
        let (proved, before) = formula_row(name, count, sheet);
        for sum in &mut sums[usize::from(count > 1000)..] {
            sum[0] += proved;
            sum[1] += before.unwrap_or(f64::NAN);
        }
    }
    for (name, [proved, before]) in ["all but the last", "all"].into_iter().zip(sums) {
        let before = Some(before).filter(|before| before.is_finite());
        let ratio = before.map(|before| proved / before);
        println!(
            "{name:<46} {:>5} {proved:>9.1} {:>9} {:>9} {:>9}",
            "",
            shown(before, 1),
            "",
            shown(ratio, 2)
        );
    }
}

/// Prints a row for a place, and gives the times of the proved function now and before.
fn formula_row(name: &str, count: usize, sheet: &Sheet) -> (f64, Option<f64>) {
    let bytes = encode(sheet);
    let tables = tables_of(&bytes);
    let earlier = Before::of(&bytes);
    let [at, at_before] = [places(sheet)[0], places_before(sheet)[0]];
    let (_, set) = spread(256);
    let proved = || linked::settle(black_box(&tables), black_box(&set), at);
    let before = earlier
        .as_ref()
        .map(|tables| move || black_box(tables).settle(black_box(&set), at_before));
    let rust = || plain::settle(black_box(&tables), black_box(&set), at);
    let expected = match sheet.program {
        Program::Branch { .. } => Ok(0),
        _ => Err(true),
    };
    assert_eq!(action_or_goal(proved()), expected);
    assert_eq!(action_or_goal(rust()), expected);
    if let Some(before) = &before {
        assert_eq!(action_or_goal(before()), expected);
    }
    let proved = || proved().number();
    let before = before.map(|before| move || before().number());
    let rust = || rust().number();
    let mut least = [f64::INFINITY; 3];
    // Short calls are disturbed easily: more batches than elsewhere.
    for _ in 0..21 {
        let times = [
            time(proved),
            before.as_ref().map_or(f64::INFINITY, time),
            time(rust),
        ];
        for (least, time) in least.iter_mut().zip(times) {
            *least = least.min(time);
        }
    }
    let [proved, before, rust] = least;
    let before = Some(before).filter(|before| before.is_finite());
    println!(
        "{name:<46} {count:>5} {proved:>9.1} {:>9} {rust:>9.1} {:>9} {:>9.2}",
        shown(before, 1),
        shown(before.map(|before| proved / before), 2),
        proved / rust
    );
    (proved, before)
}
