//! The builder of sheets: data to packed bytes.
//!
//! It writes whatever it is given, refused sheets included, and tells where
//! each field lies, so that single fields can be overwritten.

use crate::sheet::{has_constraint, Action, Epistemic, Objective, Program, Sheet};

/// What a field says.
#[derive(Clone, Copy, Debug, PartialEq, Eq)]
pub enum Kind {
    Edition,
    Facts,
    Actions,
    ActionKind,
    Replies,
    ObjectiveTag,
    FactNumber,
    EpistemicTag,
    ProgramTag,
    ActionNumber,
}

/// A field of an encoded sheet: its first bit, counted from 0, and its width.
#[derive(Clone, Copy, Debug)]
pub struct Field {
    pub kind: Kind,
    pub position: usize,
    pub width: usize,
}

/// The packed bytes of a sheet, padded with zero bits. A constraint that its edition
/// can't say is left out.
pub fn encode(sheet: &Sheet) -> Vec<u8> {
    encode_with_layout(sheet).0
}

/// The packed bytes of a sheet and its fields in reading order.
pub fn encode_with_layout(sheet: &Sheet) -> (Vec<u8>, Vec<Field>) {
    let mut writer = Writer::default();
    writer.field(Kind::Edition, 4, usize::from(sheet.edition));
    writer.field(Kind::Facts, 4, usize::from(sheet.facts));
    if has_constraint(sheet.edition) {
        writer.objective(&sheet.constraint);
    }
    writer.field(Kind::Actions, 5, sheet.actions.len());
    for action in &sheet.actions {
        writer.action(action);
    }
    writer.objective(&sheet.start);
    writer.epistemic(&sheet.goal);
    writer.program(&sheet.program);
    (writer.bytes, writer.fields)
}

/// Puts another value into a field.
pub fn overwrite(bytes: &mut [u8], field: &Field, value: usize) {
    for offset in 0..field.width {
        let bit = value >> (field.width - 1 - offset) & 1 == 1;
        set_bit(bytes, field.position + offset, bit);
    }
}

/// Sets or clears a bit; bit 0 is the most significant one of the first byte.
pub fn set_bit(bytes: &mut [u8], position: usize, bit: bool) {
    let mask = 0x80 >> (position % 8);
    if bit {
        bytes[position / 8] |= mask;
    } else {
        bytes[position / 8] &= !mask;
    }
}

#[derive(Default)]
struct Writer {
    bytes: Vec<u8>,
    position: usize,
    fields: Vec<Field>,
}

impl Writer {
    fn field(&mut self, kind: Kind, width: usize, value: usize) {
        assert!(value < 1 << width, "{kind:?} {value} needs more bits");
        let field = Field {
            kind,
            position: self.position,
            width,
        };
        self.position += width;
        self.bytes.resize(self.position.div_ceil(8), 0);
        overwrite(&mut self.bytes, &field, value);
        self.fields.push(field);
    }

    fn action(&mut self, action: &Action) {
        match action {
            Action::Change(theory) => {
                self.field(Kind::ActionKind, 1, 0);
                self.objective(theory);
            }
            Action::Probe(replies) => {
                self.field(Kind::ActionKind, 1, 1);
                self.field(Kind::Replies, 4, replies.len());
                for reply in replies {
                    self.objective(reply);
                }
            }
        }
    }

    fn objective(&mut self, formula: &Objective) {
        let tag = match formula {
            Objective::False => 0,
            Objective::True => 1,
            Objective::Fact(_) => 2,
            Objective::New(_) => 3,
            Objective::Not(_) => 4,
            Objective::And(..) => 5,
            Objective::Or(..) => 6,
            Objective::Iff(..) => 7,
        };
        self.field(Kind::ObjectiveTag, 3, tag);
        match formula {
            Objective::False | Objective::True => {}
            Objective::Fact(number) | Objective::New(number) => {
                self.field(Kind::FactNumber, 3, usize::from(*number));
            }
            Objective::Not(part) => self.objective(part),
            Objective::And(left, right)
            | Objective::Or(left, right)
            | Objective::Iff(left, right) => {
                self.objective(left);
                self.objective(right);
            }
        }
    }

    fn epistemic(&mut self, formula: &Epistemic) {
        let tag = match formula {
            Epistemic::Known(_) => 0,
            Epistemic::NotKnown(_) => 1,
            Epistemic::And(..) => 2,
            Epistemic::Or(..) => 3,
        };
        self.field(Kind::EpistemicTag, 2, tag);
        match formula {
            Epistemic::Known(part) | Epistemic::NotKnown(part) => self.objective(part),
            Epistemic::And(left, right) | Epistemic::Or(left, right) => {
                self.epistemic(left);
                self.epistemic(right);
            }
        }
    }

    fn program(&mut self, program: &Program) {
        match program {
            Program::End => self.field(Kind::ProgramTag, 2, 0),
            Program::Act { action, rest } => {
                self.field(Kind::ProgramTag, 2, 1);
                self.field(Kind::ActionNumber, 5, usize::from(*action));
                self.program(rest);
            }
            Program::Branch {
                condition,
                then,
                otherwise,
                rest,
            } => {
                self.field(Kind::ProgramTag, 2, 2);
                self.epistemic(condition);
                self.program(then);
                self.program(otherwise);
                self.program(rest);
            }
        }
    }
}
