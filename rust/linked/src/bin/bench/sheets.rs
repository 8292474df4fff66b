//! Sheets to read, and to make tables of.

use reference::encode::encode;
use reference::random::{good, Random, Size};
use reference::read::read;
use reference::sheet::{has_constraint, Action, Epistemic, Objective, Program, Sheet, MAX_BYTES};

use crate::theories::{
    all, balanced, denied_early, news, not_last, only_last, parity, sevens, stays, stays_or_zero,
    toggles, tree, trues, unneeded,
};
use crate::SAMPLE_1;

type Named = (String, Vec<u8>);

/// The most changes that a sheet has.
const MOST: usize = 31;

pub fn prepared_sheets() -> Vec<Named> {
    let sheets = [
        ("sample 1", SAMPLE_1.to_vec()),
        (
            "the longest of 20 random routines of 8 facts",
            random_routine(),
        ),
        ("31 probes of 8 replies", probes()),
        (
            "31 changes: each fact stays",
            longest(8, MOST, |k| stays(8).and(trues(k))),
        ),
        (
            "31 changes: each fact is toggled",
            longest(8, MOST, |k| toggles(8).and(trues(k))),
        ),
        (
            "31 changes: to the last state alone",
            longest(8, MOST, |k| trues(k).and(only_last(8))),
        ),
        (
            "31 changes: to any state, short theories",
            changes(8, MOST, Objective::True),
        ),
        ("31 changes of 1 fact: it stays", changes(1, MOST, stays(1))),
        ("the most atoms in the goal", most(2000, goal_of_atoms)),
        (
            "64 actions and 63 branches, long conditions",
            most(40, long_program),
        ),
    ];
    let mut sheets = named("", sheets);
    sheets.extend(constrained());
    sheets
}

/// Sheets with constraints; an earlier commit need not read them.
fn constrained() -> Vec<Named> {
    if cfg!(feature = "before") {
        return vec![];
    }
    let fact = Objective::Fact;
    let pairs = (0..4).map(|i| fact(2 * i).and(fact(2 * i + 1)).negate());
    let never_both = all(pairs);
    let stay = longest_of(|k| {
        let theories = vec![stays(8).and(trues(k)); MOST];
        sheet_of(8, theories).constrained(never_both.clone())
    });
    let long = longest_of(|k| sheet_of(8, vec![stays(8); 10]).constrained(trues(k)));
    named(
        "",
        [
            ("31 changes: each fact stays, 81 states", stay),
            ("10 changes: each fact stays, a long constraint", long),
        ],
    )
}

fn named<const N: usize>(before: &str, sheets: [(&str, Vec<u8>); N]) -> Vec<Named> {
    let named = |(name, bytes)| (format!("{before}{name}"), bytes);
    sheets.map(named).into()
}

fn random_routine() -> Vec<u8> {
    let mut random = Random::new(8);
    let routines = (0..20).map(|_| encode(&unconstrained(&mut random, &Size::LARGE)));
    routines.max_by_key(Vec::len).unwrap()
}

/// A random routine that an earlier commit reads too.
pub fn unconstrained(random: &mut Random, size: &Size) -> Sheet {
    loop {
        let sheet = good(random, size);
        if !has_constraint(sheet.edition) {
            return sheet;
        }
    }
}

pub fn read_sheets() -> Vec<Named> {
    let mut sheets = named(
        "",
        [
            ("sample 1", SAMPLE_1.to_vec()),
            ("the longest of 20 random routines", random_routine()),
            ("31 probes of 8 replies", probes()),
        ],
    );
    sheets.extend(many_changes());
    sheets.extend((1..=8).flat_map(by_facts));
    sheets.extend([4, 5, 6, 8].into_iter().flat_map(one_change));
    sheets.extend((1..=8).map(worst_ratio));
    sheets.extend(worst_times());
    sheets.extend(constrained());
    sheets.extend(refused());
    sheets
}

fn many_changes() -> Vec<Named> {
    let sheet = |theory: fn(usize) -> Objective| longest(8, MOST, theory);
    named(
        "31 changes: ",
        [
            ("each fact stays", sheet(|k| stays(8).and(trues(k)))),
            (
                "each fact stays, denied early",
                sheet(|k| denied_early(8, trues(k))),
            ),
            (
                "each fact stays, or the old state was 0",
                sheet(|k| stays_or_zero(8).and(trues(k))),
            ),
            ("each fact is toggled", sheet(|k| toggles(8).and(trues(k)))),
            (
                "an equivalence of facts and new facts",
                sheet(|k| parity(k.min(14) as u8)),
            ),
            ("true, or a long formula", sheet(|k| unneeded(trues(k)))),
            (
                "to the last state alone",
                sheet(|k| trues(k).and(only_last(8))),
            ),
            (
                "to the last state alone, a long part unneeded",
                sheet(|k| only_last(8).and(unneeded(trues(k)))),
            ),
        ],
    )
}

fn by_facts(facts: u8) -> Vec<Named> {
    let early = |k| denied_early(facts, unneeded(trues(k)));
    let long = longest(facts, MOST, early);
    let stuck = stays(facts).and(not_last(facts));
    named(
        &format!("{facts} facts, 31 changes: "),
        [
            ("to any state", changes(facts, MOST, Objective::True)),
            ("each fact stays", changes(facts, MOST, stays(facts))),
            ("each fact stays, a long part unneeded", long.clone()),
            (
                "the same, refused in the last state of the last",
                with_last(&long, stuck),
            ),
        ],
    )
}

/// One theory, as long as can be.
fn one_change(facts: u8) -> Vec<Named> {
    let sheet = |theory: fn(u8, usize) -> Objective| longest(facts, 1, |k| theory(facts, k));
    named(
        &format!("{facts} facts, 1 change: "),
        [
            ("each fact stays", sheet(|n, k| stays(n).and(trues(k)))),
            (
                "each fact stays, or the old state was 0",
                sheet(|n, k| stays_or_zero(n).and(trues(k))),
            ),
            (
                "each fact stays, a long part unneeded",
                sheet(|n, k| stays(n).and(unneeded(trues(k)))),
            ),
            (
                "to the last state alone",
                sheet(|n, k| trues(k).and(only_last(n))),
            ),
            (
                "to the last state alone, a long part unneeded",
                sheet(|n, k| only_last(n).and(unneeded(trues(k)))),
            ),
            ("true, or a long formula", sheet(|_, k| unneeded(trues(k)))),
        ],
    )
}

/// The worst found for the ratio to Rust: state 0 always follows, which Rust finds
/// by the first part; and the shape is the one that costs the proved reader most.
fn worst_ratio(facts: u8) -> Named {
    let theory = |k| unneeded(sevens(&news(facts, k)));
    let name = format!("{facts} facts, 1 change: true, or new facts in no order");
    (name, longest(facts, 1, theory))
}

/// The worst found for the time: short theories by which the first next state comes
/// late, and a long one.
fn worst_times() -> Vec<Named> {
    let late = all((4..8).rev().map(Objective::New));
    let sheet = |join| {
        longest_of(|k| {
            let long = only_last(8).and(unneeded(tree(&news(8, k), join)));
            let mut theories = vec![late.clone(); MOST - 1];
            theories.push(long);
            sheet_of(8, theories)
        })
    };
    named(
        "30 short changes to the last 16 states, ",
        [
            ("1 long: an \"and\"", sheet(Objective::and)),
            ("1 long: an equivalence", sheet(Objective::iff)),
        ],
    )
}

/// Refused as late as can be: after the fields, or by the last state of the last
/// action; and others.
fn refused() -> Vec<Named> {
    let long = longest(8, MOST, |k| stays(8).and(trues(k)));
    let mut unpadded = long.clone();
    let last = unpadded.len() - 1;
    assert_eq!(unpadded[last] & 1, 0);
    unpadded[last] |= 1;
    let mut no_start = read(&long).unwrap();
    no_start.start = Objective::False;
    let to_last = longest(8, MOST, |k| trues(k).and(only_last(8)));
    let ands = |k| tree(&news(8, k), Objective::and);
    let stuck_late = |k| not_last(8).and(unneeded(ands(k)));
    let stuck_early = |k| Objective::False.and(ands(k));
    named(
        "refused: ",
        [
            ("a padding bit behind 31 changes", unpadded),
            ("no start state behind 31 changes", encode(&no_start)),
            (
                "the last of 31 changes, in its last state",
                with_last(&long, stays(8).and(not_last(8))),
            ),
            (
                "the last of 31 changes, in its first state",
                with_last(&to_last, Objective::False),
            ),
            (
                "1 long change, a part unneeded, in its last state",
                longest(8, 1, stuck_late),
            ),
            (
                "1 long change, a part unneeded, in its first state",
                longest(8, 1, stuck_early),
            ),
            ("longer than 1,024 bytes", vec![0x11; MAX_BYTES + 1]),
        ],
    )
}

fn sheet_of(facts: u8, theories: Vec<Objective>) -> Sheet {
    Sheet {
        edition: 1,
        facts,
        constraint: Objective::True,
        actions: theories.into_iter().map(Action::Change).collect(),
        start: Objective::True,
        goal: Epistemic::Known(Objective::True),
        program: Program::End,
    }
}

fn changes(facts: u8, count: usize, theory: Objective) -> Vec<u8> {
    encode(&sheet_of(facts, vec![theory; count]))
}

/// So many changes with the longest theory of a series that fits.
fn longest(facts: u8, count: usize, theory: impl Fn(usize) -> Objective) -> Vec<u8> {
    longest_of(|k| sheet_of(facts, vec![theory(k); count]))
}

/// The longest of a series of sheets that has at most 1,024 bytes.
fn longest_of(sheet: impl Fn(usize) -> Sheet) -> Vec<u8> {
    // No more leaves fit a sheet: each takes a tag, and so does what joins it.
    let sheets = (2..8 * MAX_BYTES / 6).map(|k| encode(&sheet(k)));
    let fitting = sheets.take_while(|bytes| bytes.len() <= MAX_BYTES);
    let longest = fitting.last().unwrap();
    // Its theories are tested, none of them being too deep.
    assert!([0, 14].contains(&linked::read(&longest)));
    longest
}

/// The sheet with another theory for its last action.
fn with_last(bytes: &[u8], theory: Objective) -> Vec<u8> {
    let mut sheet = read(bytes).unwrap();
    *sheet.actions.last_mut().unwrap() = Action::Change(theory);
    encode(&sheet)
}

fn probes() -> Vec<u8> {
    let reply = |i: u8| {
        Objective::Fact(i)
            .iff(Objective::Fact((i + 1) % 8))
            .and(trues(3))
    };
    let mut replies: Vec<Objective> = (0..7).map(reply).collect();
    replies.push(Objective::True);
    let mut sheet = sheet_of(8, vec![]);
    sheet.actions = vec![Action::Probe(replies); 31];
    encode(&sheet)
}

/// The largest sheet of a series that is accepted.
pub fn most(limit: usize, sheet: impl Fn(usize) -> Sheet) -> Vec<u8> {
    let sheets = (1..=limit).rev().map(|k| encode(&sheet(k)));
    let mut accepted = sheets.filter(|bytes| read(bytes).is_ok());
    accepted.next().unwrap()
}

pub fn goal_of_atoms(count: usize) -> Sheet {
    let mut sheet = sheet_of(8, vec![]);
    sheet.goal = balanced(&vec![Epistemic::Known(Objective::True); count]);
    sheet
}

/// 63 branches, each inside the one before, and 64 actions; conditions of so many facts.
fn long_program(facts: usize) -> Sheet {
    let mut sheet = sheet_of(8, vec![]);
    sheet.actions = vec![Action::Probe(vec![
        Objective::Fact(0),
        Objective::Fact(0).negate(),
    ])];
    let condition = |i: usize| {
        let parts = (0..facts).map(|j| Objective::Fact(((i + j) % 8) as u8));
        Epistemic::Known(all(parts))
    };
    sheet.program = (0..63).fold(Program::act(0, Program::End), |inner, i| {
        let then = Program::act(0, inner);
        Program::branch(condition(i), then, Program::End, Program::End)
    });
    sheet
}
