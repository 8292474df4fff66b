//! A sheet's tables, steps over them, where the program settles and the verdict,
//! as a plain Rust program does it: what the proved functions are compared with.

use std::collections::HashMap;

use reference::sheet::{Action, Epistemic, Objective, Program, Sheet, MAX_ACTION_NODES, MAX_TRACE};
use reference::states::{states, State, StateSet};
use reference::step::start_states;
use reference::truth::{holds, holds_between};

use crate::{Place, Tables, Verdict, Words};

/// A set's words.
pub fn words(members: impl IntoIterator<Item = State>) -> Words {
    let mut words = [0; 4];
    for state in members {
        words[usize::from(state / 64)] |= 1 << (state % 64);
    }
    words
}

/// Writes the tables of an accepted sheet, and gives its start set.
pub fn prepare(sheet: &Sheet, tables: &mut Tables) -> Words {
    let mut filling = Filling {
        tables,
        nodes: 0,
        sets: 0,
        acts: 0,
    };
    for (number, action) in sheet.actions.iter().enumerate() {
        filling.action(sheet, number, action);
    }
    filling.node([JUMP, size_of(&sheet.goal) as u16, 0]);
    filling.formula(&sheet.goal);
    filling.program(&sheet.program);
    filling.node([END, filling.acts, 0]);
    words(start_states(sheet).iter())
}

/// The kinds of nodes: those of a program, and those of a formula.
const ACT: u16 = 0;
const BRANCH: u16 = 1;
const JUMP: u16 = 2;
const JOIN: u16 = 3;
pub const ATOM: u16 = 4;
const END: u16 = 5;

/// The node from which on the goal stands.
const GOAL: usize = 1;

/// Tables with so many nodes, sets and action nodes written.
struct Filling<'a> {
    tables: &'a mut Tables,
    nodes: usize,
    sets: usize,
    acts: u16,
}

impl Filling<'_> {
    fn set(&mut self, members: impl Iterator<Item = State>) {
        let place = 4 * self.sets;
        self.tables.sets[place..place + 4].copy_from_slice(&words(members));
        self.sets += 1;
    }

    fn node(&mut self, cells: [u16; 3]) {
        let place = 3 * self.nodes;
        self.tables.nodes[place..place + 3].copy_from_slice(&cells);
        self.nodes += 1;
    }

    fn action(&mut self, sheet: &Sheet, number: usize, action: &Action) {
        let rows = self.sets;
        if let Action::Change(theory) = action {
            let space: StateSet = states(sheet).collect();
            for before in 0..=State::MAX {
                let next =
                    |&after: &State| space.contains(before) && holds_between(theory, before, after);
                self.set(space.iter().filter(next));
            }
        }
        let replies = self.sets;
        match action {
            Action::Change(_) => self.set(0..=State::MAX),
            Action::Probe(formulas) => {
                for formula in formulas {
                    self.set((0..=State::MAX).filter(|&state| holds(formula, state)));
                }
            }
        }
        let head = [rows, replies, usize::from(action.reply_count())];
        self.tables.heads[3 * number..3 * number + 3].copy_from_slice(&head.map(|x| x as u16));
    }

    /// The nodes of a formula in reading order, and the sets of its atoms.
    fn formula(&mut self, formula: &Epistemic) {
        match formula {
            Epistemic::Known(part) => self.atom(true, part),
            Epistemic::NotKnown(part) => self.atom(false, part),
            Epistemic::And(left, right) => self.pair(true, left, right),
            Epistemic::Or(left, right) => self.pair(false, left, right),
        }
    }

    fn atom(&mut self, known: bool, part: &Objective) {
        self.node([ATOM, self.sets as u16, known.into()]);
        self.set((0..=State::MAX).filter(|&state| holds(part, state)));
    }

    fn pair(&mut self, and: bool, left: &Epistemic, right: &Epistemic) {
        self.node([JOIN, (size_of(left) + size_of(right)) as u16, and.into()]);
        self.formula(left);
        self.formula(right);
    }

    fn program(&mut self, program: &Program) {
        match program {
            Program::End => {}
            Program::Act { action, rest } => {
                self.node([ACT, u16::from(*action), self.acts]);
                self.acts += 1;
                self.program(rest);
            }
            Program::Branch {
                condition,
                then,
                otherwise,
                rest,
            } => {
                let met = size_of(condition);
                let unmet = met + size(then) + 1;
                self.node([BRANCH, met as u16, unmet as u16]);
                self.formula(condition);
                self.program(then);
                self.node([JUMP, size(otherwise) as u16, 0]);
                self.program(otherwise);
                self.program(rest);
            }
        }
    }
}

/// How many nodes a formula takes.
fn size_of(formula: &Epistemic) -> usize {
    match formula {
        Epistemic::Known(_) | Epistemic::NotKnown(_) => 1,
        Epistemic::And(left, right) | Epistemic::Or(left, right) => {
            1 + size_of(left) + size_of(right)
        }
    }
}

/// How many nodes a program takes.
fn size(program: &Program) -> usize {
    match program {
        Program::End => 0,
        Program::Act { rest, .. } => 1 + size(rest),
        Program::Branch {
            condition,
            then,
            otherwise,
            rest,
        } => 1 + size_of(condition) + size(then) + 1 + size(otherwise) + size(rest),
    }
}

fn set_at(tables: &Tables, number: usize) -> &[u64] {
    &tables.sets[4 * number..4 * number + 4]
}

/// The places of an action's rows and replies, and how many replies it has.
fn head_at(tables: &Tables, action: usize) -> [usize; 3] {
    [0, 1, 2].map(|i| usize::from(tables.heads[3 * action + i]))
}

/// Replaces the possible states by those after an action and its reply, over the
/// tables of a sheet.
#[inline(never)]
pub fn step(tables: &Tables, set: &mut Words, action: usize, reply: usize) {
    advance(tables, set, action, reply);
}

fn advance(tables: &Tables, set: &mut Words, action: usize, reply: usize) {
    let [rows, replies, count] = head_at(tables, action);
    if reply >= count {
        *set = [0; 4];
        return;
    }
    if rows < replies {
        let mut gathered = [0; 4];
        for (index, &word) in set.iter().enumerate() {
            let mut left = word;
            while left != 0 {
                let state = 64 * index + left.trailing_zeros() as usize;
                left &= left - 1;
                for (all, next) in gathered.iter_mut().zip(set_at(tables, rows + state)) {
                    *all |= next;
                }
            }
        }
        *set = gathered;
    }
    for (kept, told) in set.iter_mut().zip(set_at(tables, replies + reply)) {
        *kept &= told;
    }
}

/// Keeps the states of a set in which an action's reply is true, over the tables of a
/// sheet, by one look in each state; writes how many looks that were, and tells whether
/// a state is kept.
#[inline(never)]
pub fn pass(
    tables: &Tables,
    set: &mut Words,
    action: usize,
    reply: usize,
    evaluations: &mut [u64; 1],
) -> bool {
    let [_, replies, count] = head_at(tables, action);
    let told = match reply < count {
        true => set_at(tables, replies + reply),
        false => &[0; 4],
    };
    let mut looks = 0;
    for (word, told) in set.iter_mut().zip(told) {
        let mut left = *word;
        let mut kept = 0;
        while left != 0 {
            let state = left.trailing_zeros();
            left &= left - 1;
            looks += 1;
            if told >> state & 1 == 1 {
                kept |= 1 << state;
            }
        }
        *word = kept;
    }
    *evaluations = [looks];
    *set != [0; 4]
}

/// Where the program settles from a node on, over the tables of a sheet.
#[inline]
pub fn settle(tables: &Tables, set: &Words, at: usize) -> Place {
    Place::of_number(settled_number(tables, set, at))
}

/// The call that is timed beside the proved one gives a number, as that does.
#[inline(never)]
fn settled_number(tables: &Tables, set: &Words, at: usize) -> u64 {
    settled(tables, set, at).number()
}

fn settled(tables: &Tables, set: &Words, at: usize) -> Place {
    let mut node = at;
    loop {
        let [kind, operand, second] = node_at(tables, node);
        let skip = match kind {
            ACT => {
                return Place::Act {
                    node,
                    action: operand.into(),
                }
            }
            BRANCH if formula_holds(tables, set, node + 1) => operand,
            BRANCH => second,
            JUMP => operand,
            _ => {
                return Place::End {
                    goal: formula_holds(tables, set, GOAL),
                }
            }
        };
        node += 1 + usize::from(skip);
    }
}

fn node_at(tables: &Tables, node: usize) -> [u16; 3] {
    tables.nodes[3 * node..3 * node + 3].try_into().unwrap()
}

/// Whether the formula at a node holds where the states of a set are possible.
fn formula_holds(tables: &Tables, set: &Words, at: usize) -> bool {
    let [kind, operand, flag] = node_at(tables, at);
    let first = at + 1;
    match kind {
        ATOM => is_known(tables, set, operand.into()) == (flag == 1),
        _ => parts_hold(tables, set, flag, first, first + usize::from(operand)),
    }
}

/// Whether all parts (`all` is 1), or one of them, hold that stand in the nodes from
/// `at` to `end`. A part that is joined in the same way is its parts.
fn parts_hold(tables: &Tables, set: &Words, all: u16, mut at: usize, end: usize) -> bool {
    while at < end {
        let [kind, operand, flag] = node_at(tables, at);
        at += 1;
        let holds = match kind {
            ATOM => is_known(tables, set, operand.into()) == (flag == 1),
            _ if flag == all => continue,
            _ => {
                let first = at;
                at += usize::from(operand);
                parts_hold(tables, set, flag, first, at)
            }
        };
        if holds != (all == 1) {
            return holds;
        }
    }
    all == 1
}

/// Whether every state of a set is in the set of a number.
fn is_known(tables: &Tables, set: &Words, number: usize) -> bool {
    let words = set.iter().zip(set_at(tables, number));
    words.fold(0, |out, (state, told)| out | (state & !told)) == 0
}

/// The states possible after replies and where the program then settles, over the
/// tables of a sheet; nothing if the replies are not those of a run.
pub fn follow(tables: &Tables, start: &Words, replies: &[u8]) -> Option<(Words, Place)> {
    let mut set = *start;
    let mut at = 0;
    for &reply in replies {
        let Place::Act { node, action } = settled(tables, &set, at) else {
            return None;
        };
        advance(tables, &mut set, action, reply.into());
        if set == [0; 4] {
            return None;
        }
        at = node + 1;
    }
    Some((set, settled(tables, &set, at)))
}

/// The verdict over the tables of a sheet and its start set, with every history
/// visited. The least failing trace is written to the front of `memory`.
pub fn verify(tables: &Tables, start: &Words, budget: u32, memory: &mut [u8]) -> Verdict {
    verify_with(tables, start, budget, memory, &mut Forgetful)
}

/// The same, where the histories behind a place that was searched before are not
/// visited again, as long as it is remembered.
pub fn verify_remembering(
    tables: &Tables,
    start: &Words,
    budget: u32,
    memory: &mut [u8],
) -> Verdict {
    verify_with(tables, start, budget, memory, &mut Slots::new())
}

/// The same, with what the search did.
pub fn verify_counting(
    tables: &Tables,
    start: &Words,
    budget: u32,
    memory: &mut [u8],
) -> (Verdict, Counts) {
    let mut counting = Counting {
        slots: Slots::new(),
        counts: Counts::default(),
    };
    let verdict = verify_with(tables, start, budget, memory, &mut counting);
    (verdict, counting.counts)
}

/// How many different places the search with this budget comes to, each an action
/// node and a set. Nothing is forgotten, since no other places are behind a place
/// when it is come to again.
pub fn places(tables: &Tables, start: &Words, budget: u32) -> usize {
    let mut all = Unforgetful::default();
    verify_with(tables, start, budget, &mut [0; MAX_TRACE], &mut all);
    all.0.len()
}

fn verify_with<M: Remember>(
    tables: &Tables,
    start: &Words,
    budget: u32,
    memory: &mut [u8],
    remembered: &mut M,
) -> Verdict {
    let mut search = Search {
        tables,
        budget,
        count: 0,
        path: [(0, 0); MAX_ACTION_NODES],
        remembered,
    };
    match search.visit(start, 0, 0) {
        Ok(()) => Verdict::Valid {
            count: search.count,
        },
        Err(Halt::OverBudget) => Verdict::Stopped { budget },
        Err(Halt::GoalFails { length }) => {
            show(tables, start, &search.path[..length], memory);
            Verdict::Invalid {
                count: search.count,
                length,
            }
        }
    }
}

/// After `depth` actions, the states of a set being possible, an action comes
/// whose replies lead on to a node.
struct Reached<'a> {
    onward: usize,
    action: usize,
    depth: usize,
    set: &'a Words,
}

/// What a search remembers of places from which every history passed.
trait Remember {
    /// How many histories are behind a place with this slot, if that is remembered.
    fn recall(&mut self, slot: usize, place: &Reached) -> Option<u64>;

    fn remember(&mut self, slot: usize, place: &Reached, behind: u64);

    /// A history is visited.
    fn visited(&mut self) {}
}

/// Remembers nothing.
struct Forgetful;

impl Remember for Forgetful {
    fn recall(&mut self, _: usize, _: &Reached) -> Option<u64> {
        None
    }

    fn remember(&mut self, _: usize, _: &Reached, _: u64) {}
}

/// How many places are remembered at a time.
const SLOTS: usize = 256;

/// The words of each.
pub const SLOT_WORDS: usize = 8;

/// In each slot a place's node, action, depth, the number of histories behind it
/// and its set; no place leads on to node 0.
struct Slots([[u64; SLOT_WORDS]; SLOTS]);

impl Slots {
    fn new() -> Slots {
        Slots([[0; SLOT_WORDS]; SLOTS])
    }

    /// At which depth a place was remembered, and with how many histories behind it.
    fn found(&self, slot: usize, place: &Reached) -> Option<(usize, u64)> {
        let [onward, action, depth, behind, ref set @ ..] = self.0[slot];
        let same = onward == place.onward as u64 && action == place.action as u64;
        (same && set == place.set).then_some((depth as usize, behind))
    }
}

impl Remember for Slots {
    fn recall(&mut self, slot: usize, place: &Reached) -> Option<u64> {
        match self.found(slot, place) {
            Some((depth, behind)) if place.depth <= depth => Some(behind),
            _ => None,
        }
    }

    fn remember(&mut self, slot: usize, place: &Reached, behind: u64) {
        let [onward, action, depth] = [place.onward, place.action, place.depth].map(|x| x as u64);
        let [a, b, c, d] = *place.set;
        self.0[slot] = [onward, action, depth, behind, a, b, c, d];
    }
}

/// The slot for a set and a node. It is `slot_number` of the proved search
/// (`crates/verifier/src/memo.rt`), so that like is compared with like; nothing
/// checks that, and they change together.
pub fn slot_number(set: &Words, onward: usize) -> usize {
    let joined = |a: u64, b: u64| a.wrapping_add(b.wrapping_mul(2));
    let x = joined(set[0], set[1]);
    let y = joined(set[2], set[3]).wrapping_add(onward as u64);
    let low = |word: u64| word % (1 << 32);
    let high = |word: u64| word / (1 << 32);
    let mixed = (low(x) * 0x9e37_79b1)
        ^ (high(x) * 0x85eb_ca6b)
        ^ (low(y) * 0xc2b2_ae35)
        ^ (high(y) * 0x27d4_eb2f);
    (mixed / (1 << 24)) as usize % SLOTS
}

/// What a search with slots did.
#[derive(Clone, Copy, Debug, Default, PartialEq, Eq)]
pub struct Counts {
    /// Histories visited one by one.
    pub visited: u64,
    /// Action nodes come to, each a look-up.
    pub looked: u64,
    /// Look-ups that told how many histories are behind the place.
    pub hits: u64,
    /// Those hits at which the place was remembered at a greater depth.
    pub hits_above: u64,
    /// Look-ups that told nothing since the place was remembered at a smaller depth.
    pub misses_below: u64,
}

struct Counting {
    slots: Slots,
    counts: Counts,
}

impl Remember for Counting {
    fn recall(&mut self, slot: usize, place: &Reached) -> Option<u64> {
        let depth = self.slots.found(slot, place).map(|(depth, _)| depth);
        let recalled = self.slots.recall(slot, place);
        let counts = &mut self.counts;
        counts.looked += 1;
        counts.hits += u64::from(recalled.is_some());
        counts.hits_above += u64::from(depth.is_some_and(|depth| place.depth < depth));
        counts.misses_below += u64::from(depth.is_some_and(|depth| place.depth > depth));
        recalled
    }

    fn remember(&mut self, slot: usize, place: &Reached, behind: u64) {
        self.slots.remember(slot, place, behind);
    }

    fn visited(&mut self) {
        self.counts.visited += 1;
    }
}

/// All places come to, with the number of histories behind them once that is known.
#[derive(Default)]
struct Unforgetful(HashMap<(usize, Words), Option<u64>>);

impl Remember for Unforgetful {
    fn recall(&mut self, _: usize, place: &Reached) -> Option<u64> {
        *self.0.entry((place.onward, *place.set)).or_default()
    }

    fn remember(&mut self, _: usize, place: &Reached, behind: u64) {
        self.0.insert((place.onward, *place.set), Some(behind));
    }
}

/// Why the search ends early.
enum Halt {
    OverBudget,
    GoalFails { length: usize },
}

struct Search<'a, M> {
    tables: &'a Tables,
    budget: u32,
    /// Number of non-empty histories counted so far.
    count: u32,
    /// The actions and replies of the history at hand.
    path: [(u8, u8); MAX_ACTION_NODES],
    remembered: &'a mut M,
}

impl<M: Remember> Search<'_, M> {
    /// Visits all histories that continue the one at hand, of so many actions, in order.
    fn visit(&mut self, set: &Words, at: usize, length: usize) -> Result<(), Halt> {
        let (node, action) = match settled(self.tables, set, at) {
            Place::End { goal: true } => return Ok(()),
            Place::End { goal: false } => return Err(Halt::GoalFails { length }),
            Place::Act { node, action } => (node, action),
        };
        let slot = slot_number(set, node + 1);
        let place = Reached {
            onward: node + 1,
            action,
            depth: length,
            set,
        };
        if let Some(behind) = self.remembered.recall(slot, &place) {
            if u64::from(self.budget - self.count) < behind {
                return Err(Halt::OverBudget);
            }
            self.count += behind as u32;
            return Ok(());
        }
        let before = self.count;
        let [_, _, replies] = head_at(self.tables, action);
        for reply in 0..replies {
            let mut after = *set;
            advance(self.tables, &mut after, action, reply);
            if after == [0; 4] {
                continue;
            }
            if self.count == self.budget {
                return Err(Halt::OverBudget);
            }
            self.count += 1;
            self.remembered.visited();
            self.path[length] = (action as u8, reply as u8);
            self.visit(&after, node + 1, length + 1)?;
        }
        let behind = u64::from(self.count - before);
        self.remembered.remember(slot, &place, behind);
        Ok(())
    }
}

/// Writes the trace of the run with the least state list along a path.
fn show(tables: &Tables, start: &Words, path: &[(u8, u8)], memory: &mut [u8]) {
    // Only states from which the rest of the path can be gone may be chosen.
    let mut open = [[u64::MAX; 4]; MAX_ACTION_NODES + 1];
    for (index, &(action, reply)) in path.iter().enumerate().rev() {
        open[index] = back(tables, &open[index + 1], action, reply);
    }
    let mut state = least(start, &open[0]);
    memory[0] = state;
    for (index, &(action, reply)) in path.iter().enumerate() {
        let mut after = words([state]);
        advance(tables, &mut after, action.into(), reply.into());
        state = least(&after, &open[index + 1]);
        memory[2 * index + 1] = 8 * action + reply;
        memory[2 * index + 2] = state;
    }
}

/// The states from which an action with its reply leads into a set.
fn back(tables: &Tables, later: &Words, action: u8, reply: u8) -> Words {
    let [rows, replies, _] = head_at(tables, action.into());
    let mut told = *later;
    for (kept, true_in) in told
        .iter_mut()
        .zip(set_at(tables, replies + usize::from(reply)))
    {
        *kept &= true_in;
    }
    if rows == replies {
        return told;
    }
    let meets = |&state: &State| {
        let row = set_at(tables, rows + usize::from(state));
        row.iter().zip(&told).any(|(next, told)| next & told != 0)
    };
    words((0..=State::MAX).filter(meets))
}

/// The least state in both sets, which have one.
fn least(some: &Words, others: &Words) -> State {
    let common = [0, 1, 2, 3].map(|i| some[i] & others[i]);
    let index = common.iter().position(|&word| word != 0).unwrap();
    (64 * index as u32 + common[index].trailing_zeros()) as State
}
