//! The runner: steps a routine by the replies reported.

use crate::execute::Execution;
use crate::read::read;
use crate::refusal::Refusal;
use crate::sheet::{Sheet, MAX_ACTION_NODES, MAX_BYTES};

/// A loaded sheet and the replies reported so far; bytes past the lengths are 0.
#[derive(Clone, Debug, PartialEq, Eq)]
pub struct Record {
    pub sheet: [u8; MAX_BYTES],
    pub length: usize,
    pub replies: [u8; MAX_ACTION_NODES],
    pub count: usize,
}

/// What "Next" tells.
#[derive(Clone, Copy, Debug, PartialEq, Eq)]
pub enum Told {
    Action(u8),
    End { goal: bool },
    Refused(Refusal),
}

impl Record {
    /// The record of zeros, which a refused loading gives.
    pub const ZERO: Record = Record {
        sheet: [0; MAX_BYTES],
        length: 0,
        replies: [0; MAX_ACTION_NODES],
        count: 0,
    };

    /// A record of the sheet with no replies.
    pub fn load(sheet: &[u8]) -> (Record, Result<(), Refusal>) {
        let mut record = Record::ZERO;
        if let Err(refusal) = read(sheet) {
            return (record, Err(refusal));
        }
        record.sheet[..sheet.len()].copy_from_slice(sheet);
        record.length = sheet.len();
        (record, Ok(()))
    }

    /// Tells the action to do, or that the routine is at its end.
    pub fn next(self) -> (Record, Told) {
        let told = match self.resume(told) {
            Ok(told) => told,
            Err(refusal) => Told::Refused(refusal),
        };
        (self, told)
    }

    /// Adds the reply to the action done. A refused report adds nothing.
    pub fn report(mut self, reply: u8) -> (Record, Result<(), Refusal>) {
        let answer = self
            .resume(|mut execution| execution.take(reply))
            .and_then(|taken| taken);
        if answer.is_ok() {
            self.replies[self.count] = reply;
            self.count += 1;
        }
        (self, answer)
    }

    /// What `look` says of the execution that the record describes.
    fn resume<T>(&self, look: impl FnOnce(Execution) -> T) -> Result<T, Refusal> {
        let sheet = self.read_sheet().ok_or(Refusal::Record)?;
        let replies = written(&self.replies, self.count).ok_or(Refusal::Record)?;
        let mut execution = Execution::new(&sheet);
        for &reply in replies {
            execution.take(reply).map_err(|_| Refusal::Record)?;
        }
        Ok(look(execution))
    }

    fn read_sheet(&self) -> Option<Sheet> {
        read(written(&self.sheet, self.length)?).ok()
    }
}

fn told(execution: Execution) -> Told {
    match execution.next() {
        Some(action) => Told::Action(action),
        None => Told::End {
            goal: execution.goal_holds(),
        },
    }
}

/// The bytes up to the length, if the length fits and only zeros follow.
fn written(bytes: &[u8], length: usize) -> Option<&[u8]> {
    let (written, past) = bytes.split_at_checked(length)?;
    past.iter().all(|&byte| byte == 0).then_some(written)
}
