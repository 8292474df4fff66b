//! The verifier: carries knowledge states forward through the program.

use crate::read::read;
use crate::refusal::Refusal;
use crate::sheet::{Program, Sheet, MAX_TRACE};
use crate::states::{states, State, StateSet};
use crate::step::{gather, keep, start_states, step};
use crate::truth::holds_knowing;

/// What the verifier answers.
#[derive(Clone, Copy, Debug, PartialEq, Eq)]
pub enum Answer {
    Valid { count: u32 },
    Invalid { count: u32, length: usize },
    Stopped { budget: u32 },
    Refused(Refusal),
}

/// One step of a history.
#[derive(Clone, Copy, Debug, PartialEq, Eq, Hash)]
pub struct Event {
    pub action: u8,
    pub reply: u8,
}

/// Verifies that every full run of the routine ends with the goal known to hold.
/// The least failing trace is written to the front of `memory`; otherwise and
/// elsewhere the memory keeps its bytes.
pub fn verify(bytes: &[u8], budget: u32, memory: &mut [u8]) -> Answer {
    if memory.len() < MAX_TRACE {
        return Answer::Refused(Refusal::TraceMemory);
    }
    match read(bytes) {
        Err(refusal) => Answer::Refused(refusal),
        Ok(sheet) => verify_sheet(&sheet, budget, memory),
    }
}

fn verify_sheet(sheet: &Sheet, budget: u32, memory: &mut [u8]) -> Answer {
    let mut search = Search {
        sheet,
        budget,
        count: 0,
        history: Vec::new(),
    };
    match search.visit(&sheet.program, None, &start_states(sheet)) {
        Ok(()) => Answer::Valid {
            count: search.count,
        },
        Err(Halt::OverBudget) => Answer::Stopped { budget },
        Err(Halt::GoalFails) => {
            let trace = least_trace(sheet, &search.history);
            memory[..trace.len()].copy_from_slice(&trace);
            Answer::Invalid {
                count: search.count,
                length: search.history.len(),
            }
        }
    }
}

/// Why the search ends early.
enum Halt {
    OverBudget,
    GoalFails,
}

/// What is left to do after the program at hand.
struct Rest<'a> {
    program: &'a Program,
    rest: Option<&'a Rest<'a>>,
}

struct Search<'a> {
    sheet: &'a Sheet,
    budget: u32,
    /// Number of non-empty histories visited so far.
    count: u32,
    /// The history at hand; after a failure, the first failing one.
    history: Vec<Event>,
}

impl Search<'_> {
    /// Visits all histories that continue the one at hand, in order.
    fn visit(
        &mut self,
        program: &Program,
        rest: Option<&Rest>,
        possible: &StateSet,
    ) -> Result<(), Halt> {
        match (program, rest) {
            (Program::End, Some(rest)) => self.visit(rest.program, rest.rest, possible),
            (Program::End, None) => {
                if holds_knowing(&self.sheet.goal, possible) {
                    Ok(())
                } else {
                    Err(Halt::GoalFails)
                }
            }
            (
                Program::Branch {
                    condition,
                    then,
                    otherwise,
                    rest: after,
                },
                _,
            ) => {
                let side = if holds_knowing(condition, possible) {
                    then
                } else {
                    otherwise
                };
                let rest = Rest {
                    program: after,
                    rest,
                };
                self.visit(side, Some(&rest), possible)
            }
            (
                Program::Act {
                    action,
                    rest: after,
                },
                _,
            ) => self.act(*action, after, rest, possible),
        }
    }

    /// Visits the histories that continue with the action, reply by reply.
    fn act(
        &mut self,
        number: u8,
        program: &Program,
        rest: Option<&Rest>,
        possible: &StateSet,
    ) -> Result<(), Halt> {
        let action = &self.sheet.actions[usize::from(number)];
        let gathered = gather(self.sheet, action, possible);
        for reply in 0..action.reply_count() {
            let kept = keep(action, reply, &gathered);
            if kept.is_empty() {
                continue;
            }
            if self.count == self.budget {
                return Err(Halt::OverBudget);
            }
            self.count += 1;
            self.history.push(Event {
                action: number,
                reply,
            });
            self.visit(program, rest, &kept)?;
            self.history.pop();
        }
        Ok(())
    }
}

/// The trace of the run with the least state list among those with this history.
fn least_trace(sheet: &Sheet, history: &[Event]) -> Vec<u8> {
    // Only states from which the rest of the history can be run may be chosen.
    let mut open = vec![states(sheet).collect::<StateSet>()];
    for event in history.iter().rev() {
        let later = open[open.len() - 1];
        let action = &sheet.actions[usize::from(event.action)];
        let earlier = states(sheet)
            .filter(|&before| {
                later
                    .iter()
                    .any(|after| step(action, event.reply, before, after))
            })
            .collect();
        open.push(earlier);
    }
    open.reverse();

    let starts = start_states(sheet);
    let mut state = least(&open[0], |state| starts.contains(state));
    let mut trace = vec![state];
    for (event, open) in history.iter().zip(&open[1..]) {
        let action = &sheet.actions[usize::from(event.action)];
        let before = state;
        state = least(open, |after| step(action, event.reply, before, after));
        trace.extend([8 * event.action + event.reply, state]);
    }
    trace
}

fn least(set: &StateSet, condition: impl Fn(State) -> bool) -> State {
    set.iter()
        .find(|&state| condition(state))
        .expect("the history is that of a run")
}
