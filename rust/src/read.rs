//! The reader: packed bytes to data, or the reason for refusing them.

use crate::refusal::Refusal;
use crate::sheet::{
    edition_is_known, has_constraint, Action, Epistemic, Objective, Program, Sheet,
    MAX_ACTION_NODES, MAX_BRANCH_NODES, MAX_BYTES, MAX_DEPTH, MAX_FACTS, MAX_REPLIES,
};
use crate::states::{states, State};
use crate::step::{effect, replies, start_states};

/// Reads a sheet. The first fault in reading order decides; the tests on states
/// come after all fields and the padding.
pub fn read(bytes: &[u8]) -> Result<Sheet, Refusal> {
    if bytes.len() > MAX_BYTES {
        return Err(Refusal::TooLong);
    }
    let mut reader = Reader {
        bytes,
        position: 0,
        facts: 0,
        actions: 0,
        action_nodes: 0,
        branch_nodes: 0,
    };
    let sheet = reader.sheet()?;
    reader.padding()?;
    test_states(&sheet)?;
    Ok(sheet)
}

struct Reader<'a> {
    bytes: &'a [u8],
    /// Number of bits read so far.
    position: usize,
    facts: u8,
    actions: u8,
    action_nodes: usize,
    branch_nodes: usize,
}

impl Reader<'_> {
    /// The next field of at most eight bits, most significant bit first.
    fn field(&mut self, width: usize) -> Result<u8, Refusal> {
        if self.position + width > 8 * self.bytes.len() {
            return Err(Refusal::CutShort);
        }
        let mut value = 0;
        for _ in 0..width {
            let byte = self.bytes[self.position / 8];
            value = value << 1 | byte >> (7 - self.position % 8) & 1;
            self.position += 1;
        }
        Ok(value)
    }

    fn sheet(&mut self) -> Result<Sheet, Refusal> {
        let edition = self.field(4)?;
        if !edition_is_known(edition) {
            return Err(Refusal::Edition);
        }
        self.facts = self.field(4)?;
        if !(1..=MAX_FACTS).contains(&self.facts) {
            return Err(Refusal::Facts);
        }
        let constraint = match has_constraint(edition) {
            true => self.objective(1, false)?,
            false => Objective::True,
        };
        self.actions = self.field(5)?;
        let mut actions = Vec::new();
        for _ in 0..self.actions {
            actions.push(self.action()?);
        }
        Ok(Sheet {
            edition,
            facts: self.facts,
            constraint,
            actions,
            start: self.objective(1, false)?,
            goal: self.epistemic(1)?,
            program: self.program()?,
        })
    }

    fn action(&mut self) -> Result<Action, Refusal> {
        if self.field(1)? == 0 {
            return Ok(Action::Change(self.objective(1, true)?));
        }
        let count = self.field(4)?;
        if !(1..=MAX_REPLIES).contains(&count) {
            return Err(Refusal::Replies);
        }
        let mut formulas = Vec::new();
        for _ in 0..count {
            formulas.push(self.objective(1, false)?);
        }
        Ok(Action::Probe(formulas))
    }

    fn objective(&mut self, depth: u32, in_theory: bool) -> Result<Objective, Refusal> {
        if depth > MAX_DEPTH {
            return Err(Refusal::TooDeep);
        }
        let tag = self.field(3)?;
        if tag == 3 && !in_theory {
            return Err(Refusal::NewFact);
        }
        let mut part = || self.objective(depth + 1, in_theory);
        Ok(match tag {
            0 => Objective::False,
            1 => Objective::True,
            2 => Objective::Fact(self.fact_number()?),
            3 => Objective::New(self.fact_number()?),
            4 => part()?.negate(),
            5 => part()?.and(part()?),
            6 => part()?.or(part()?),
            _ => part()?.iff(part()?),
        })
    }

    fn fact_number(&mut self) -> Result<u8, Refusal> {
        let number = self.field(3)?;
        if number >= self.facts {
            return Err(Refusal::FactNumber);
        }
        Ok(number)
    }

    fn epistemic(&mut self, depth: u32) -> Result<Epistemic, Refusal> {
        if depth > MAX_DEPTH {
            return Err(Refusal::TooDeep);
        }
        Ok(match self.field(2)? {
            0 => Epistemic::Known(self.objective(depth + 1, false)?),
            1 => Epistemic::NotKnown(self.objective(depth + 1, false)?),
            2 => self.epistemic(depth + 1)?.and(self.epistemic(depth + 1)?),
            _ => self.epistemic(depth + 1)?.or(self.epistemic(depth + 1)?),
        })
    }

    fn program(&mut self) -> Result<Program, Refusal> {
        match self.field(2)? {
            0 => Ok(Program::End),
            1 => {
                count_node(&mut self.action_nodes, MAX_ACTION_NODES)?;
                let action = self.field(5)?;
                if action >= self.actions {
                    return Err(Refusal::ActionNumber);
                }
                Ok(Program::act(action, self.program()?))
            }
            2 => {
                count_node(&mut self.branch_nodes, MAX_BRANCH_NODES)?;
                Ok(Program::branch(
                    self.epistemic(1)?,
                    self.program()?,
                    self.program()?,
                    self.program()?,
                ))
            }
            _ => Err(Refusal::Loop),
        }
    }

    /// Only zero bits may follow, and only up to the end of the byte.
    fn padding(&mut self) -> Result<(), Refusal> {
        let width = 8 * self.bytes.len() - self.position;
        if width >= 8 || self.field(width)? != 0 {
            return Err(Refusal::Padding);
        }
        Ok(())
    }
}

fn count_node(count: &mut usize, limit: usize) -> Result<(), Refusal> {
    if *count == limit {
        return Err(Refusal::TooManyNodes);
    }
    *count += 1;
    Ok(())
}

/// There must be a state, and one that satisfies the start formula; in every state
/// each change must have a next state and each probe a reply, used in the program
/// or not.
fn test_states(sheet: &Sheet) -> Result<(), Refusal> {
    let states: Vec<State> = states(sheet).collect();
    if states.is_empty() {
        return Err(Refusal::NoState);
    }
    if start_states(sheet).is_empty() {
        return Err(Refusal::NoStartState);
    }
    sheet
        .actions
        .iter()
        .try_for_each(|action| test_action(&states, action))
}

fn test_action(states: &[State], action: &Action) -> Result<(), Refusal> {
    'states: for &before in states {
        for &after in states {
            if effect(action, before, after) {
                continue 'states;
            }
        }
        return Err(Refusal::NoNextState);
    }
    for &state in states {
        if !(0..action.reply_count()).any(|reply| replies(action, reply, state)) {
            return Err(Refusal::NoReply);
        }
    }
    Ok(())
}
