//! The trace checker.

use crate::execute::Execution;
use crate::read::read;
use crate::refusal::Refusal;
use crate::sheet::{Sheet, MAX_TRACE};
use crate::states::is_state;
use crate::step::step;
use crate::truth::holds;

/// What the checker answers.
#[derive(Clone, Copy, Debug, PartialEq, Eq)]
pub enum Checked {
    Yes,
    No,
    Refused(Refusal),
}

/// Whether the trace is that of a full run of the routine that fails the goal.
pub fn check(bytes: &[u8], trace: &[u8]) -> Checked {
    match read(bytes) {
        Err(refusal) => Checked::Refused(refusal),
        Ok(sheet) if trace.len() <= MAX_TRACE && fails(&sheet, trace) => Checked::Yes,
        Ok(_) => Checked::No,
    }
}

fn fails(sheet: &Sheet, trace: &[u8]) -> bool {
    let Some((&start, steps)) = trace.split_first() else {
        return false;
    };
    if !is_state(sheet, start) || !holds(&sheet.start, start) {
        return false;
    }
    let mut execution = Execution::new(sheet);
    let mut before = start;
    for pair in steps.chunks(2) {
        let &[event, after] = pair else {
            return false;
        };
        let (number, reply) = (event / 8, event % 8);
        let follows = execution.next() == Some(number)
            && is_state(sheet, after)
            && step(&sheet.actions[usize::from(number)], reply, before, after)
            && execution.take(reply).is_ok();
        if !follows {
            return false;
        }
        before = after;
    }
    execution.next().is_none() && !execution.goal_holds()
}
