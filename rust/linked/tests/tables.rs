//! The proved tables, steps, passes over the possible states, places and known formulas
//! against the Rust implementation, and against a model of their definitions on memory
//! with any numbers.

use std::collections::{BTreeMap, BTreeSet, VecDeque};
use std::sync::LazyLock;

use linked::{known, pass, plain, prepare, settle, step, Place, Tables, Words};
use reference::edges::edges;
use reference::encode::encode;
use reference::execute::Execution;
use reference::random::{damaged, good, Random, Size};
use reference::read::read;
use reference::sheet::{Action, Epistemic, Program, Sheet};
use reference::states::{excluded, State, StateSet};
use reference::step::{gather, replies, start_states, Passed};
use reference::truth::holds_knowing;

/// Different accepted sheets of all sizes and at the limits, with their bytes.
static ACCEPTED: LazyLock<BTreeMap<Vec<u8>, Sheet>> = LazyLock::new(|| {
    let mut random = Random::new(21);
    let mut sheets = edges();
    for (count, size) in [(2000, Size::SMALL), (1200, Size::MEDIUM), (60, Size::LARGE)] {
        sheets.extend((0..count).map(|_| encode(&good(&mut random, &size))));
    }
    sheets
        .into_iter()
        .filter_map(|bytes| read(&bytes).ok().map(|sheet| (bytes, sheet)))
        .collect()
});

/// Memory with numbers that no sheet has on purpose.
fn pattern(seed: u64) -> (Tables, Words) {
    let mut random = Random::new(seed);
    let tables = Tables::filled(|| word(&mut random));
    let start = [0; 4].map(|_: u64| word(&mut random));
    (tables, start)
}

fn word(random: &mut Random) -> u64 {
    random.bits() << 32 ^ random.bits()
}

fn members(set: &Words) -> StateSet {
    (0..=State::MAX)
        .filter(|&state| member(set, usize::from(state)))
        .collect()
}

fn member(set: &Words, state: usize) -> bool {
    set[state / 64] >> (state % 64) & 1 == 1
}

/// What one pass keeps, whether that is a state, and how often it evaluated the reply,
/// from any number in the memory for that. Nothing around the two memories is written.
fn passed(
    tables: &Tables,
    set: &Words,
    action: usize,
    reply: usize,
    evaluations: u64,
) -> (Words, bool, u64) {
    const MARK: u64 = 0xa5a5_5a5a_0f0f_f0f0;
    let [a, b, c, d] = *set;
    let mut memory = [MARK, a, b, c, d, MARK, evaluations, MARK];
    let (left, right) = memory.split_at_mut(6);
    let lent = (&mut left[1..5]).try_into().unwrap();
    let lent_count = (&mut right[..1]).try_into().unwrap();
    let possible = pass(tables, lent, action, reply, lent_count);
    let [first, a, b, c, d, middle, evaluations, last] = memory;
    assert_eq!([first, middle, last], [MARK; 3]);
    ([a, b, c, d], possible, evaluations)
}

#[test]
fn refused_sheets_leave_the_memory_as_it_was() {
    let mut random = Random::new(22);
    let mut sheets = edges();
    for (count, size) in [(6000, Size::SMALL), (2000, Size::MEDIUM), (60, Size::LARGE)] {
        sheets.extend((0..count).map(|_| damaged(&mut random, &size)));
    }
    for length in [0, 1, 1024, 1025, 1 << 20] {
        sheets.push(vec![0x11; length]);
    }
    let (before, before_start) = pattern(23);
    let (mut tables, mut start) = (before.clone(), before_start);
    let mut refused: [BTreeSet<Vec<u8>>; 17] = Default::default();
    for bytes in sheets {
        let Err(refusal) = read(&bytes) else {
            continue;
        };
        let number = prepare(&bytes, &mut tables, &mut start);
        assert_eq!(number, refusal.number(), "sheet {bytes:02x?}");
        assert!(tables == before, "sheet {bytes:02x?}");
        assert_eq!(start, before_start, "sheet {bytes:02x?}");
        refused[usize::from(number)].insert(bytes);
    }
    let counts = refused.map(|sheets| sheets.len());
    assert!(counts[1..].iter().all(|&count| count > 0), "{counts:?}");
    assert!(counts.iter().sum::<usize>() >= 4000, "{counts:?}");
}

/// What a sheet needs is written, and the rest of the memory keeps its numbers.
#[test]
fn accepted_sheets_are_written_over_any_memory() {
    let (before, before_start) = pattern(24);
    let mut facts = BTreeMap::new();
    let mut excluding = BTreeMap::new();
    for (bytes, sheet) in ACCEPTED.iter() {
        let (mut tables, mut start) = (before.clone(), before_start);
        let mut expected = before.clone();
        let expected_start = plain::prepare(sheet, &mut expected);
        let answer = prepare(bytes, &mut tables, &mut start);
        assert_eq!(answer, 0, "sheet {bytes:02x?}");
        assert!(tables == expected, "sheet {bytes:02x?}");
        assert_eq!(start, expected_start, "sheet {bytes:02x?}");
        *facts.entry(sheet.facts).or_insert(0) += 1;
        if !excluded(sheet).is_empty() {
            *excluding.entry(sheet.facts).or_insert(0) += 1;
        }
    }
    assert!(ACCEPTED.len() >= 3000, "{} sheets", ACCEPTED.len());
    assert!(facts.keys().copied().eq(1..=8), "{facts:?}");
    assert!(excluding.keys().copied().eq(1..=8), "{excluding:?}");
    assert!(
        excluding.values().all(|&count| count >= 15),
        "{excluding:?}"
    );
}

/// What was compared on the way through routines.
#[derive(Debug, Default)]
struct Compared {
    actions: usize,
    goals_met: usize,
    goals_missed: usize,
    probed: usize,
    changed: usize,
    impossible: usize,
    no_such_reply: usize,
    /// Sheets of which every history was compared.
    whole: usize,
    longest: usize,
}

/// A point of a history: the replies so far, the next node, the possible states by both.
#[derive(Clone)]
struct Point {
    replies: Vec<u8>,
    at: usize,
    set: Words,
    possible: StateSet,
}

impl Compared {
    /// The sheet's tables and the point before its first action.
    fn start(&mut self, bytes: &[u8], sheet: &Sheet) -> (Tables, Point) {
        let (mut tables, mut set) = pattern(25);
        assert_eq!(prepare(bytes, &mut tables, &mut set), 0);
        let possible = start_states(sheet);
        assert_eq!(members(&set), possible, "sheet {bytes:02x?}");
        let point = Point {
            replies: Vec::new(),
            at: 0,
            set,
            possible,
        };
        (tables, point)
    }

    /// Compares where the routine stands; gives the node and the action.
    fn place(
        &mut self,
        tables: &Tables,
        point: &Point,
        execution: &Execution,
    ) -> Option<(usize, usize)> {
        self.longest = self.longest.max(point.replies.len());
        match settle(tables, &point.set, point.at) {
            Place::Act { node, action } => {
                assert_eq!(execution.next().map(usize::from), Some(action));
                self.actions += 1;
                Some((node, action))
            }
            Place::End { goal } => {
                assert_eq!(execution.next(), None);
                assert_eq!(execution.goal_holds(), goal);
                if goal {
                    self.goals_met += 1;
                } else {
                    self.goals_missed += 1;
                }
                None
            }
        }
    }

    /// Compares the possible states after each reply, and one more than there
    /// are, by a step and by a pass over those after the effect; gives the points that
    /// a run reaches.
    fn steps(
        &mut self,
        sheet: &Sheet,
        tables: &Tables,
        point: &Point,
        node: usize,
        number: usize,
    ) -> Vec<Point> {
        let action = &sheet.actions[number];
        let gathered = gather(sheet, action, &point.possible);
        let after = plain::words(gathered.iter());
        let mut points = Vec::new();
        for reply in 0..=action.reply_count() {
            let mut set = point.set;
            step(tables, &mut set, number, usize::from(reply));
            let Passed {
                kept,
                possible,
                evaluations,
            } = reference::step::pass(&gathered, |after| replies(action, reply, after));
            assert_eq!(members(&set), kept, "after {:?}", point.replies);
            let found = passed(tables, &after, number, reply.into(), u64::MAX);
            let expected = (set, possible, evaluations as u64);
            assert_eq!(found, expected, "after {:?}", point.replies);
            if reply == action.reply_count() {
                self.no_such_reply += 1;
            } else if !possible {
                self.impossible += 1;
            } else {
                match action {
                    Action::Probe(_) => self.probed += 1,
                    Action::Change(_) => self.changed += 1,
                }
                let mut replies = point.replies.clone();
                replies.push(reply);
                points.push(Point {
                    replies,
                    at: node + 1,
                    set,
                    possible: kept,
                });
            }
        }
        points
    }
}

fn replayed<'a>(sheet: &'a Sheet, replies: &[u8]) -> Execution<'a> {
    let mut execution = Execution::new(sheet);
    for &reply in replies {
        execution.take(reply).unwrap();
    }
    execution
}

/// All histories of each routine, shorter ones first, as far as a limit.
#[test]
fn short_histories() {
    let mut compared = Compared::default();
    for (bytes, sheet) in ACCEPTED.iter() {
        let (tables, start) = compared.start(bytes, sheet);
        let mut left = 60;
        let mut queue = VecDeque::from([start]);
        while let Some(point) = queue.pop_front() {
            if left == 0 {
                break;
            }
            left -= 1;
            let execution = replayed(sheet, &point.replies);
            if let Some((node, action)) = compared.place(&tables, &point, &execution) {
                queue.extend(compared.steps(sheet, &tables, &point, node, action));
            }
        }
        compared.whole += usize::from(left > 0);
    }
    assert!(compared.whole >= 3000, "{compared:?}");
    assert!(compared.actions >= 10_000, "{compared:?}");
    assert!(compared.goals_met >= 3000, "{compared:?}");
    assert!(compared.goals_missed >= 3000, "{compared:?}");
    assert!(compared.probed >= 10_000, "{compared:?}");
    assert!(compared.changed >= 5000, "{compared:?}");
    assert!(compared.impossible >= 3000, "{compared:?}");
    assert_eq!(compared.no_such_reply, compared.actions, "{compared:?}");
}

/// Random histories of each routine, to its end.
#[test]
fn full_histories() {
    let mut compared = Compared::default();
    let mut random = Random::new(26);
    for (bytes, sheet) in ACCEPTED.iter() {
        let (tables, start) = compared.start(bytes, sheet);
        for _ in 0..2 {
            let mut point = start.clone();
            let mut execution = Execution::new(sheet);
            while let Some((node, action)) = compared.place(&tables, &point, &execution) {
                let points = compared.steps(sheet, &tables, &point, node, action);
                point = random.pick(&points).clone();
                execution.take(*point.replies.last().unwrap()).unwrap();
            }
        }
    }
    let ends = compared.goals_met + compared.goals_missed;
    assert_eq!(ends, 2 * ACCEPTED.len(), "{compared:?}");
    assert!(compared.goals_met >= 1000, "{compared:?}");
    assert!(compared.goals_missed >= 1000, "{compared:?}");
    assert!(compared.longest >= 20, "{compared:?}");
}

/// The formulas that a sheet asks to be known, or not, in reading order.
fn asked(sheet: &Sheet) -> Vec<Epistemic> {
    fn of_formula(formula: &Epistemic, atoms: &mut Vec<Epistemic>) {
        match formula {
            Epistemic::Known(part) | Epistemic::NotKnown(part) => {
                atoms.push(Epistemic::Known(part.clone()))
            }
            Epistemic::And(left, right) | Epistemic::Or(left, right) => {
                of_formula(left, atoms);
                of_formula(right, atoms);
            }
        }
    }
    fn of_program(program: &Program, atoms: &mut Vec<Epistemic>) {
        match program {
            Program::End => {}
            Program::Act { rest, .. } => of_program(rest, atoms),
            Program::Branch {
                condition,
                then,
                otherwise,
                rest,
            } => {
                of_formula(condition, atoms);
                for part in [then, otherwise, rest] {
                    of_program(part, atoms);
                }
            }
        }
    }
    let mut atoms = Vec::new();
    of_formula(&sheet.goal, &mut atoms);
    of_program(&sheet.program, &mut atoms);
    atoms
}

/// Each formula that the sheet asks for, by the set that its node names, at each
/// point of a random history.
#[test]
fn known_formulas() {
    let mut compared = Compared::default();
    let mut random = Random::new(29);
    let mut counts = [0; 2];
    for (bytes, sheet) in ACCEPTED.iter() {
        let (tables, mut point) = compared.start(bytes, sheet);
        let sets = tables.nodes.chunks_exact(3).filter(|node| node[0] == 4);
        let atoms: Vec<(Epistemic, usize)> = asked(sheet)
            .into_iter()
            .zip(sets.map(|node| usize::from(node[1])))
            .collect();
        let mut execution = Execution::new(sheet);
        loop {
            for (formula, k) in &atoms {
                let expected = holds_knowing(formula, &point.possible);
                let found = known(&tables, &point.set, *k);
                assert_eq!(found, expected, "{formula:?} after {:?}", point.replies);
                counts[usize::from(expected)] += 1;
            }
            let Some((node, action)) = compared.place(&tables, &point, &execution) else {
                break;
            };
            let points = compared.steps(sheet, &tables, &point, node, action);
            point = random.pick(&points).clone();
            execution.take(*point.replies.last().unwrap()).unwrap();
        }
    }
    assert!(counts.iter().all(|&count| count >= 10_000), "{counts:?}");
}

/// The node from which on the goal stands.
const GOAL: usize = 1;

/// Steps and places as `progression/specs/Machine` and `routine/specs/Memory` define them.
mod machine {
    use super::{member, GOAL};
    use linked::{Place, Tables, Words};

    const HEADS: usize = 31;
    const NODES: usize = 4096;
    const LEVELS: usize = 16;
    const SETS: usize = 10_240;

    pub fn set_at(tables: &Tables, k: usize) -> Words {
        if k >= SETS {
            return [0; 4];
        }
        [0, 1, 2, 3].map(|i| tables.sets[4 * k + i])
    }

    fn head_at(tables: &Tables, a: usize) -> [usize; 3] {
        if a >= HEADS {
            return [0; 3];
        }
        [0, 1, 2].map(|i| usize::from(tables.heads[3 * a + i]))
    }

    fn set_of(test: impl Fn(usize) -> bool) -> Words {
        let mut words = [0; 4];
        for state in (0..256).filter(|&state| test(state)) {
            words[state / 64] |= 1 << (state % 64);
        }
        words
    }

    fn gathered(tables: &Tables, first: usize, set: &Words) -> Words {
        let rows: Vec<Words> = (0..256)
            .filter(|&state| member(set, state))
            .map(|state| set_at(tables, first + state))
            .collect();
        set_of(|next| rows.iter().any(|row| member(row, next)))
    }

    pub fn has_rows(tables: &Tables, action: usize) -> bool {
        let [rows, replies, _] = head_at(tables, action);
        rows < replies
    }

    /// Whether an action has a reply, by its head.
    pub fn has_reply(tables: &Tables, action: usize, reply: usize) -> bool {
        let [_, _, count] = head_at(tables, action);
        reply < count
    }

    /// The states in which a reply of an action is true: none if it hasn't the reply.
    fn told_in(tables: &Tables, action: usize, reply: usize) -> Words {
        if !has_reply(tables, action, reply) {
            return [0; 4];
        }
        let [_, replies, _] = head_at(tables, action);
        set_at(tables, replies + reply)
    }

    pub fn stepped(tables: &Tables, set: &Words, action: usize, reply: usize) -> Words {
        let [rows, replies, _] = head_at(tables, action);
        let effect = if rows < replies {
            gathered(tables, rows, set)
        } else {
            *set
        };
        let told = told_in(tables, action, reply);
        set_of(|state| member(&effect, state) && member(&told, state))
    }

    /// The states of a set in which a reply is true, whether there is one, and how often
    /// the reply was evaluated.
    pub fn passed(tables: &Tables, set: &Words, action: usize, reply: usize) -> (Words, bool, u64) {
        let told = told_in(tables, action, reply);
        let kept = set_of(|state| member(set, state) && member(&told, state));
        let states = || (0..256).filter(|&state| member(set, state));
        let possible = states().any(|state| member(&told, state));
        (kept, possible, states().count() as u64)
    }

    fn node_at(tables: &Tables, node: usize) -> [usize; 3] {
        if node >= NODES {
            return [5, 0, 0];
        }
        [0, 1, 2].map(|i| usize::from(tables.nodes[3 * node + i]))
    }

    pub fn known_by(tables: &Tables, set: &Words, k: usize) -> bool {
        let told = set_at(tables, k);
        (0..256).all(|state| !member(set, state) || member(&told, state))
    }

    /// Whether the formula at a node holds.
    fn holds_at(tables: &Tables, set: &Words, at: usize, met: &mut Met) -> bool {
        match node_at(tables, at) {
            [3, size, flag] => parts_hold(tables, set, LEVELS - 1, flag == 1, size, at + 1, met),
            [4, k, flag] => known_by(tables, set, k) == (flag == 1),
            _ => false,
        }
    }

    /// Whether all parts, or one of them, hold that stand in so many nodes from a
    /// node on. Each part is evaluated, also one that no longer decides.
    fn parts_hold(
        tables: &Tables,
        set: &Words,
        left: usize,
        all: bool,
        size: usize,
        from: usize,
        met: &mut Met,
    ) -> bool {
        if left == 0 {
            met.too_deep += 1;
            return false;
        }
        let end = from + size;
        let mut parts = Vec::new();
        let mut skip = 0;
        for node in from..end {
            if skip > 0 {
                skip -= 1;
                continue;
            }
            match node_at(tables, node) {
                [3, _, flag] if (flag == 1) == all => met.alike += 1,
                [3, inner, _] => {
                    skip = inner;
                    let inside = inner.min(end - node - 1);
                    met.cut += usize::from(inside < inner);
                    parts.push(parts_hold(
                        tables,
                        set,
                        left - 1,
                        !all,
                        inside,
                        node + 1,
                        met,
                    ));
                }
                [4, k, flag] => {
                    let holds = known_by(tables, set, k) == (flag == 1);
                    if left == 1 {
                        met.deepest[usize::from(holds)] += 1;
                    }
                    parts.push(holds);
                }
                _ => {
                    met.no_part += 1;
                    parts.push(false);
                    break;
                }
            }
        }
        // Where a node is no part nothing holds, unless an earlier part decides.
        let parts = parts.into_iter();
        let holds = if all {
            parts.fold(true, |holds, part| holds && part)
        } else {
            parts.fold(false, |holds, part| holds || part)
        };
        let counts = if all { &mut met.all } else { &mut met.any };
        counts[usize::from(holds)] += 1;
        holds
    }

    /// What was met on the way.
    #[derive(Debug, Default)]
    pub struct Met {
        pub branches: [usize; 2],
        pub all: [usize; 2],
        pub any: [usize; 2],
        pub alike: usize,
        pub cut: usize,
        pub no_part: usize,
        /// Atoms at the last level, failing and holding; and parts behind it.
        pub deepest: [usize; 2],
        pub too_deep: usize,
        /// Nodes of a formula that the program comes to, the goal failing and holding.
        pub formula_ends: [usize; 2],
    }

    /// The place, and whether it was told by a node, or is behind the last.
    pub fn settled(tables: &Tables, set: &Words, at: usize, met: &mut Met) -> (Place, bool) {
        let mut skip = at;
        for node in 0..NODES {
            if skip > 0 {
                skip -= 1;
                continue;
            }
            let [kind, operand, second] = node_at(tables, node);
            skip = match kind {
                0 => {
                    let place = Place::Act {
                        node,
                        action: operand,
                    };
                    return (place, true);
                }
                1 => {
                    let holds = holds_at(tables, set, node + 1, met);
                    met.branches[usize::from(holds)] += 1;
                    if holds {
                        operand
                    } else {
                        second
                    }
                }
                2 => operand,
                _ => {
                    let goal = holds_at(tables, set, GOAL, met);
                    if (kind == 3 || kind == 4) && node != at {
                        met.formula_ends[usize::from(goal)] += 1;
                    }
                    return (Place::End { goal }, true);
                }
            };
        }
        (Place::End { goal: false }, false)
    }
}

/// A set from none to all of the states, or few of them.
fn random_set(random: &mut Random) -> Words {
    match random.below(6) {
        0 => [0; 4],
        1 => [u64::MAX; 4],
        2 => plain::words([random.bits() as State, random.bits() as State]),
        3 => [0; 4].map(|_: u64| word(random) & word(random) & word(random)),
        4 => [0; 4].map(|_: u64| word(random) | word(random) | word(random)),
        _ => [0; 4].map(|_: u64| word(random)),
    }
}

/// A number below the limit, around it, or any.
fn random_index(random: &mut Random, limit: usize) -> usize {
    match random.below(8) {
        0 => random.between(limit - 2, limit + 2),
        1 => word(random) as usize,
        2 => usize::MAX - random.below(3),
        _ => random.below(limit),
    }
}

/// Writes a node, if it is one of the memory.
fn put_node(tables: &mut Tables, node: usize, cells: [u16; 3]) {
    if let Some(place) = tables.nodes.get_mut(3 * node..3 * node + 3) {
        place.copy_from_slice(&cells);
    }
}

/// 1 for "and" and "known", 0 for the others, now and then any number.
fn flag(random: &mut Random) -> u16 {
    match random.below(16) {
        0 => random.bits() as u16,
        _ => random.below(2) as u16,
    }
}

/// Writes an atom and gives the node behind it.
fn put_atom(random: &mut Random, tables: &mut Tables, at: usize) -> usize {
    let set = random.below(10_300) as u16;
    put_node(tables, at, [4, set, flag(random)]);
    at + 1
}

/// Writes a formula of at most so many levels, or one with long chains, and gives the
/// node behind it; now and then its parts don't end where the node says.
fn put_formula(random: &mut Random, tables: &mut Tables, at: usize, left: usize) -> usize {
    if random.chance(1, 32) {
        // One part in the other, "and" of "or" of "and", around an atom: that decides
        // up to the depth that is allowed, and nothing holds beyond it.
        let [size, first] = [random.between(14, 19), random.below(2)];
        for level in 0..size {
            let behind = (size - level) as u16;
            put_node(
                tables,
                at + level,
                [3, behind, ((first + level) % 2) as u16],
            );
        }
        return put_atom(random, tables, at + size);
    }
    if left == 1 || random.chance(3, 5) {
        return put_atom(random, tables, at);
    }
    let second = put_formula(random, tables, at + 1, left - 1);
    let behind = put_formula(random, tables, second, left - 1);
    let size = if random.chance(1, 64) {
        random.bits() as u16
    } else {
        (behind - (at + 1)) as u16
    };
    put_node(tables, at, [3, size, flag(random)]);
    behind
}

/// Memory with any numbers, in most of which a program goes some way and steps
/// find sets.
fn random_tables(random: &mut Random) -> Tables {
    let mut tables = Tables::filled(|| word(random));
    if random.chance(1, 8) {
        return tables;
    }
    for cell in tables.heads.iter_mut() {
        if random.chance(7, 8) {
            *cell = random.below(10_300) as u16;
        }
    }
    let farthest = *random.pick(&[1, 1, 3, 40, 1000]);
    let mut next = put_formula(random, &mut tables, GOAL, 18);
    while next < tables.nodes.len() / 3 {
        let node = next;
        let far = random.below(farthest) as u16;
        let cells = match random.below(64) {
            0..=2 => [0, random.below(40) as u16, 0],
            3..=5 => [*random.pick(&[5, 6, 65535]), 0, 0],
            6 => [*random.pick(&[3, 4]), far, 0],
            7..=20 => [2, far, 0],
            _ => {
                next = put_formula(random, &mut tables, node + 1, 18);
                let size = (next - node - 1) as u16;
                [1, size + far, size + random.below(farthest) as u16]
            }
        };
        put_node(&mut tables, node, cells);
        next = next.max(node + 1);
    }
    for words in tables.sets.chunks_exact_mut(4) {
        words.copy_from_slice(&random_set(random));
    }
    tables
}

/// An action and a reply to it, of which the memory has heads or not.
fn random_reply(random: &mut Random) -> (usize, usize) {
    let action = random_index(random, 31);
    let reply = match random.below(4) {
        0 => random.below(8),
        1 => random_index(random, 65_536),
        _ => random.below(4000),
    };
    (action, reply)
}

#[test]
fn steps_on_any_memory() {
    let mut random = Random::new(27);
    let (mut gathered, mut kept, mut empty, mut past) = (0, 0, 0, 0);
    for _ in 0..200 {
        let tables = random_tables(&mut random);
        for _ in 0..40 {
            let before = random_set(&mut random);
            let (action, reply) = random_reply(&mut random);
            let expected = machine::stepped(&tables, &before, action, reply);
            let mut set = before;
            step(&tables, &mut set, action, reply);
            assert_eq!(set, expected, "action {action} reply {reply} {before:x?}");
            match (expected == [0; 4], machine::has_rows(&tables, action)) {
                (false, true) => gathered += 1,
                (false, false) => kept += 1,
                (true, _) => empty += 1,
            }
            past += usize::from(action >= 31);
        }
    }
    let counts = [gathered, kept, empty, past];
    assert!(counts.iter().all(|&count| count >= 500), "{counts:?}");
}

#[test]
fn passes_on_any_memory() {
    let mut random = Random::new(31);
    let (mut possible, mut impossible, mut no_such_reply, mut past) = (0, 0, 0, 0);
    for _ in 0..200 {
        let tables = random_tables(&mut random);
        let before = tables.clone();
        for _ in 0..80 {
            let set = random_set(&mut random);
            let (action, reply) = random_reply(&mut random);
            let old = word(&mut random);
            let found = passed(&tables, &set, action, reply, old);
            let expected = machine::passed(&tables, &set, action, reply);
            assert_eq!(found, expected, "action {action} reply {reply} {set:x?}");
            match (expected.1, machine::has_reply(&tables, action, reply)) {
                (true, _) => possible += 1,
                (false, true) => impossible += usize::from(set != [0; 4]),
                (false, false) => no_such_reply += usize::from(set != [0; 4]),
            }
            past += usize::from(action >= 31);
        }
        assert!(tables == before);
    }
    let counts = [possible, impossible, no_such_reply, past];
    assert!(counts.iter().all(|&count| count >= 500), "{counts:?}");
}

/// Tables of zeros but for the head of one action and the set of one of its replies,
/// with rows before it, in which no state follows, or none.
fn tables_of_one_reply(random: &mut Random, told: &Words) -> (Tables, usize, usize) {
    let mut tables = Tables::zeroed();
    let (action, reply) = (random.below(31), random.below(8));
    let number = random.between(reply + 1, 10_239);
    let replies = number - reply;
    let rows = *random.pick(&[0, replies]);
    let count = random.between(reply + 1, 8);
    let head = [rows, replies, count].map(|cell| cell as u16);
    tables.heads[3 * action..3 * action + 3].copy_from_slice(&head);
    tables.sets[4 * number..4 * number + 4].copy_from_slice(told);
    (tables, action, reply)
}

/// Of so many states in 8 each is in the set by chance; of 0 none is, of 8 all are.
fn set_of_density(random: &mut Random, density: usize) -> Words {
    let chosen = |_: &State| random.chance(density, 8);
    plain::words((0..=State::MAX).filter(chosen))
}

#[test]
fn passes_by_density() {
    let mut random = Random::new(32);
    let mut counts = [0; 2];
    for truth in 0..=8 {
        for _ in 0..8 {
            let told = set_of_density(&mut random, truth);
            let (tables, action, reply) = tables_of_one_reply(&mut random, &told);
            let before = tables.clone();
            let mut sets: Vec<Words> = (0..=8)
                .map(|density| set_of_density(&mut random, density))
                .collect();
            sets.extend((0..=State::MAX).map(|state| plain::words([state])));
            sets.extend([told, told.map(|word| !word)]);
            for set in sets {
                let kept = [0, 1, 2, 3].map(|i| set[i] & told[i]);
                let states: u32 = set.iter().map(|word| word.count_ones()).sum();
                let expected = (kept, kept != [0; 4], u64::from(states));
                // Whatever stood where the number of evaluations is written.
                for old in [0, 1, 256, u64::MAX, word(&mut random)] {
                    let found = passed(&tables, &set, action, reply, old);
                    assert_eq!(found, expected, "{set:x?} {told:x?} over {old}");
                }
                counts[usize::from(expected.1)] += 1;
            }
            assert!(tables == before);
        }
    }
    assert!(counts.iter().all(|&count| count >= 5000), "{counts:?}");
}

/// A reply that is true in one state alone, or in all but one.
#[test]
fn passes_to_one_state() {
    let mut random = Random::new(33);
    let all = [u64::MAX; 4];
    for state in 0..=State::MAX {
        let one = plain::words([state]);
        let others = one.map(|word| !word);
        let (tables, action, reply) = tables_of_one_reply(&mut random, &one);
        let of = |set| passed(&tables, set, action, reply, 7);
        assert_eq!(of(&all), (one, true, 256));
        assert_eq!(of(&one), (one, true, 1));
        assert_eq!(of(&others), ([0; 4], false, 255));
        assert_eq!(of(&[0; 4]), ([0; 4], false, 0));
        let (tables, action, reply) = tables_of_one_reply(&mut random, &others);
        let of = |set| passed(&tables, set, action, reply, 7);
        assert_eq!(of(&all), (others, true, 256));
        assert_eq!(of(&one), ([0; 4], false, 1));
        assert_eq!(of(&others), (others, true, 255));
        // Every state is looked at also for a reply that the action hasn't.
        for (action, reply) in [
            (action, 8),
            (action, usize::MAX),
            (31, reply),
            (usize::MAX, 0),
        ] {
            let found = passed(&tables, &all, action, reply, 7);
            assert_eq!(found, ([0; 4], false, 256), "action {action} reply {reply}");
        }
    }
}

#[test]
fn places_on_any_memory() {
    let mut random = Random::new(28);
    let (mut acts, mut met, mut missed, mut past) = (0, 0, 0, 0);
    let mut on_the_way = machine::Met::default();
    for _ in 0..800 {
        let tables = random_tables(&mut random);
        for _ in 0..40 {
            let set = random_set(&mut random);
            let mut at = random_index(&mut random, 4096);
            while random.chance(7, 8) && at < 4096 && (3..=4).contains(&tables.nodes[3 * at]) {
                at += 1;
            }
            let (expected, told) = machine::settled(&tables, &set, at, &mut on_the_way);
            assert_eq!(settle(&tables, &set, at), expected, "from {at} {set:x?}");
            match (expected, told) {
                (Place::Act { .. }, _) => acts += 1,
                (Place::End { goal: true }, _) => met += 1,
                (Place::End { goal: false }, true) => missed += 1,
                (Place::End { goal: false }, false) => past += 1,
            }
        }
    }
    let counts = [acts, met, missed, past];
    assert!(counts.iter().all(|&count| count >= 300), "{counts:?}");
    let met = [on_the_way.branches, on_the_way.all, on_the_way.any].concat();
    assert!(met.iter().all(|&count| count >= 1000), "{on_the_way:?}");
    let rare = [
        on_the_way.alike,
        on_the_way.cut,
        on_the_way.no_part,
        on_the_way.too_deep,
    ];
    let rare = [&rare[..], &on_the_way.deepest, &on_the_way.formula_ends].concat();
    assert!(rare.iter().all(|&count| count >= 100), "{on_the_way:?}");
}

#[test]
fn known_on_any_memory() {
    let mut random = Random::new(30);
    let (mut yes, mut one_denies, mut no, mut past) = (0, 0, 0, 0);
    for _ in 0..200 {
        let tables = random_tables(&mut random);
        for _ in 0..40 {
            let k = random_index(&mut random, 10_240);
            let told = machine::set_at(&tables, k);
            let any = random_set(&mut random);
            let mut set = [0, 1, 2, 3].map(|i| told[i] & any[i]);
            let (of_told, one_more) = (random.chance(3, 4), random.chance(1, 2));
            if !of_told {
                set = any;
            } else if one_more {
                let state = random.below(256);
                set[state / 64] |= 1 << (state % 64);
            }
            let expected = machine::known_by(&tables, &set, k);
            assert_eq!(known(&tables, &set, k), expected, "set {k} {set:x?}");
            match (expected, of_told) {
                (true, _) => yes += usize::from(set != [0; 4]),
                (false, true) => one_denies += 1,
                (false, false) => no += 1,
            }
            past += usize::from(k >= 10_240);
        }
    }
    let counts = [yes, one_denies, no, past];
    assert!(counts.iter().all(|&count| count >= 500), "{counts:?}");
}
