//! Execution of a routine along one history.

use crate::refusal::Refusal;
use crate::sheet::{Program, Sheet};
use crate::states::StateSet;
use crate::step::{gather, pass, replies, start_states};
use crate::truth::holds_knowing;

/// A routine at the point reached by the replies so far.
pub struct Execution<'a> {
    sheet: &'a Sheet,
    possible: StateSet,
    /// Programs still to be done, the next one last. It never ends in an empty
    /// program or a branch: the knowledge state decides those at once.
    agenda: Vec<&'a Program>,
}

impl<'a> Execution<'a> {
    /// The routine before its first action.
    pub fn new(sheet: &'a Sheet) -> Execution<'a> {
        let mut execution = Execution {
            sheet,
            possible: start_states(sheet),
            agenda: vec![&sheet.program],
        };
        execution.settle();
        execution
    }

    /// The action to do next; nothing at the end.
    pub fn next(&self) -> Option<u8> {
        match self.agenda.last() {
            Some(Program::Act { action, .. }) => Some(*action),
            _ => None,
        }
    }

    /// Whether the goal holds in the knowledge state reached.
    pub fn goal_holds(&self) -> bool {
        holds_knowing(&self.sheet.goal, &self.possible)
    }

    /// Does the next action with this reply. After a refusal nothing has changed.
    pub fn take(&mut self, reply: u8) -> Result<(), Refusal> {
        let Some(Program::Act { action, rest }) = self.agenda.last() else {
            return Err(Refusal::AtEnd);
        };
        let action = &self.sheet.actions[usize::from(*action)];
        if reply >= action.reply_count() {
            return Err(Refusal::NoSuchReply);
        }
        let gathered = gather(self.sheet, action, &self.possible);
        let passed = pass(&gathered, |after| replies(action, reply, after));
        if !passed.possible {
            return Err(Refusal::Impossible);
        }
        self.possible = passed.kept;
        self.agenda.pop();
        self.agenda.push(rest);
        self.settle();
        Ok(())
    }

    fn settle(&mut self) {
        while let Some(program) = self.agenda.pop() {
            match program {
                Program::End => {}
                Program::Act { .. } => {
                    self.agenda.push(program);
                    return;
                }
                Program::Branch {
                    condition,
                    then,
                    otherwise,
                    rest,
                } => {
                    self.agenda.push(rest);
                    self.agenda
                        .push(if holds_knowing(condition, &self.possible) {
                            then
                        } else {
                            otherwise
                        });
                }
            }
        }
    }
}
