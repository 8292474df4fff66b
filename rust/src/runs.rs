//! A second verifier, for small sheets: lists the runs one by one.
//!
//! It follows the definition of runs literally. What is known after a history is
//! found by looking at the last state of every run with that history; no set of
//! states is carried forward.

use std::collections::{HashMap, HashSet};

use crate::runner::Told;
use crate::sheet::{Objective, Program, Sheet};
use crate::states::{states, State};
use crate::step::step;
use crate::truth::{holds, holds_given};
use crate::verify::{Answer, Event};

/// A start state and a state after each event of the history.
#[derive(Clone, Debug, PartialEq, Eq)]
pub struct Run {
    pub history: Vec<Event>,
    pub states: Vec<State>,
}

impl Run {
    /// The bytes that show the run.
    pub fn trace(&self) -> Vec<u8> {
        let mut trace = vec![self.states[0]];
        for (event, state) in self.history.iter().zip(&self.states[1..]) {
            trace.extend([8 * event.action + event.reply, *state]);
        }
        trace
    }

    pub fn replies(&self) -> Vec<u8> {
        replies(&self.history)
    }

    fn last(&self) -> State {
        self.states[self.states.len() - 1]
    }

    fn then(&self, event: Event, state: State) -> Run {
        let mut longer = self.clone();
        longer.history.push(event);
        longer.states.push(state);
        longer
    }
}

fn replies(history: &[Event]) -> Vec<u8> {
    history.iter().map(|event| event.reply).collect()
}

/// All runs that follow the routine of a sheet.
pub struct Listing<'a> {
    sheet: &'a Sheet,
    /// Full runs and others, shorter ones first.
    pub runs: Vec<Run>,
    /// For each history of these runs, the action that comes next; none if full.
    next: HashMap<Vec<Event>, Option<u8>>,
}

impl<'a> Listing<'a> {
    /// Lists the runs, unless there are more than `most`.
    pub fn new(sheet: &'a Sheet, most: usize) -> Option<Listing<'a>> {
        let mut listing = Listing {
            sheet,
            runs: runs_with(sheet, &[]),
            next: HashMap::new(),
        };
        let mut index = 0;
        while index < listing.runs.len() {
            if listing.runs.len() > most {
                return None;
            }
            let run = listing.runs[index].clone();
            let next = *listing
                .next
                .entry(run.history.clone())
                .or_insert_with(|| next_action(sheet, &run.history));
            if let Some(action) = next {
                listing.runs.extend(continuations(sheet, &run, action));
            }
            index += 1;
        }
        Some(listing)
    }

    /// The histories, one standing before its extensions and a smaller reply
    /// before a larger.
    pub fn histories(&self) -> Vec<&[Event]> {
        let distinct: HashSet<&[Event]> = self.runs.iter().map(|run| &run.history[..]).collect();
        let mut histories: Vec<&[Event]> = distinct.into_iter().collect();
        histories.sort_by_key(|history| replies(history));
        histories
    }

    /// Whether the history is that of a full run.
    pub fn is_full(&self, history: &[Event]) -> bool {
        self.next.get(history) == Some(&None)
    }

    /// The full runs that fail the goal, in the order of their traces: by reply
    /// list, then by state list.
    pub fn failing(&self) -> Vec<&Run> {
        let failing: HashSet<&[Event]> = self.failing_histories().into_iter().collect();
        let mut runs: Vec<&Run> = self
            .runs
            .iter()
            .filter(|run| failing.contains(&run.history[..]))
            .collect();
        runs.sort_by_key(|run| (run.replies(), run.states.clone()));
        runs
    }

    fn failing_histories(&self) -> Vec<&[Event]> {
        let mut histories = self.histories();
        histories.retain(|history| self.is_full(history) && !self.goal_after(history));
        histories
    }

    fn goal_after(&self, history: &[Event]) -> bool {
        holds_given(&self.sheet.goal, &|part| known(self.sheet, part, history))
    }

    /// The number of non-empty histories: up to the first failing one, or all.
    pub fn count(&self) -> usize {
        let histories = self.histories();
        let counted = match self.failing_histories().first() {
            None => &histories[..],
            Some(first) => {
                let end = histories.iter().position(|history| history == first);
                &histories[..=end.expect("a failing history is a history")]
            }
        };
        counted.iter().filter(|history| !history.is_empty()).count()
    }

    /// The verifier's answer, and the trace to be shown with "invalid".
    pub fn answer(&self, budget: u32) -> (Answer, Option<Vec<u8>>) {
        let count = self.count() as u32;
        if count > budget {
            return (Answer::Stopped { budget }, None);
        }
        match self.failing().first() {
            None => (Answer::Valid { count }, None),
            Some(least) => {
                let length = least.history.len();
                (Answer::Invalid { count, length }, Some(least.trace()))
            }
        }
    }

    /// Whether some run following the routine has just these replies.
    pub fn accepts(&self, replies: &[u8]) -> bool {
        self.runs.iter().any(|run| run.replies() == replies)
    }

    /// What "Next" must tell after these replies, if some run has them.
    pub fn told(&self, replies: &[u8]) -> Option<Told> {
        let run = self.runs.iter().find(|run| run.replies() == replies)?;
        if self.is_full(&run.history) {
            let goal = self.goal_after(&run.history);
            return Some(Told::End { goal });
        }
        let mut longer = self
            .runs
            .iter()
            .filter(|run| run.history.len() > replies.len() && run.replies().starts_with(replies))
            .map(|run| run.history[replies.len()].action);
        let action = longer.next().expect("no state is without a step");
        assert!(longer.all(|other| other == action));
        Some(Told::Action(action))
    }
}

/// All runs with this history, whether they follow the routine or not.
fn runs_with(sheet: &Sheet, history: &[Event]) -> Vec<Run> {
    let Some((event, earlier)) = history.split_last() else {
        return states(sheet)
            .filter(|&state| holds(&sheet.start, state))
            .map(|state| Run {
                history: Vec::new(),
                states: vec![state],
            })
            .collect();
    };
    runs_with(sheet, earlier)
        .iter()
        .flat_map(|run| with_event(sheet, run, *event))
        .collect()
}

/// The runs that continue this one by one event.
fn with_event(sheet: &Sheet, run: &Run, event: Event) -> Vec<Run> {
    let action = &sheet.actions[usize::from(event.action)];
    states(sheet)
        .filter(|&after| step(action, event.reply, run.last(), after))
        .map(|after| run.then(event, after))
        .collect()
}

/// The runs that continue this one by the action, whatever the reply.
fn continuations(sheet: &Sheet, run: &Run, action: u8) -> Vec<Run> {
    (0..sheet.actions[usize::from(action)].reply_count())
        .flat_map(|reply| with_event(sheet, run, Event { action, reply }))
        .collect()
}

/// Whether the formula holds in the last state of every run with this history.
fn known(sheet: &Sheet, formula: &Objective, history: &[Event]) -> bool {
    runs_with(sheet, history)
        .iter()
        .all(|run| holds(formula, run.last()))
}

/// The program's next action after a history of a run that follows the routine;
/// none if nothing is left. Each branch is decided after the events before it.
fn next_action(sheet: &Sheet, history: &[Event]) -> Option<u8> {
    let mut left = vec![&sheet.program];
    let mut done = 0;
    while let Some(program) = left.pop() {
        match program {
            Program::End => {}
            Program::Act { action, .. } if done == history.len() => return Some(*action),
            Program::Act { action, rest } => {
                assert_eq!(history[done].action, *action);
                done += 1;
                left.push(rest);
            }
            Program::Branch {
                condition,
                then,
                otherwise,
                rest,
            } => {
                let holds = holds_given(condition, &|part| known(sheet, part, &history[..done]));
                left.push(rest);
                left.push(if holds { then } else { otherwise });
            }
        }
    }
    assert_eq!(done, history.len());
    None
}
