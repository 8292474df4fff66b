//! The figures of a stream of sheets, each after its length: how many answers of each
//! kind there are, and what they come to.

use crate::sheet::MAX_TRACE;
use crate::verify::{verify, Answer};

/// The budget that each sheet gets.
pub const BUDGET: u32 = 1_000_000;

/// Reading ends after so many lengths, with the sheet of the last.
pub const MAX_LENGTHS: usize = 65_535;

/// What a stream has for each length that is begun.
#[derive(Clone, Copy, Debug, PartialEq, Eq)]
pub enum Part<'a> {
    /// As many bytes as the length says, be it none or more than a sheet may have.
    Sheet(&'a [u8]),
    /// The end of the input cuts the length or the sheet.
    Cut,
}

/// The figures, in the order in which they are printed.
#[derive(Clone, Copy, Debug, Default, PartialEq, Eq)]
pub struct Figures {
    pub valid: u64,
    pub invalid: u64,
    pub stopped: u64,
    pub refused: u64,
    /// The sum of the counts in the answers.
    pub sum: u64,
    /// The greatest length among the invalid, 0 if there is none.
    pub greatest: u64,
}

/// The figures of a stream.
pub fn figures(stream: &[u8]) -> Figures {
    figures_by(|sheet| verify(sheet, BUDGET, &mut [0; MAX_TRACE]), stream)
}

/// The same with these answers to the sheets.
pub fn figures_by(mut answer: impl FnMut(&[u8]) -> Answer, stream: &[u8]) -> Figures {
    let mut figures = Figures::default();
    for part in parts(stream) {
        match part {
            Part::Sheet(sheet) => figures.count(answer(sheet)),
            Part::Cut => figures.refused += 1,
        }
    }
    figures
}

/// The parts of a stream, in order.
pub fn parts(stream: &[u8]) -> Vec<Part<'_>> {
    let mut parts = Vec::new();
    let mut rest = stream;
    while !rest.is_empty() && parts.len() < MAX_LENGTHS {
        match first_sheet(rest) {
            Some((sheet, behind)) => {
                parts.push(Part::Sheet(sheet));
                rest = behind;
            }
            None => {
                parts.push(Part::Cut);
                break;
            }
        }
    }
    parts
}

/// The sheet after the length with which the bytes begin, and what stands behind it; none
/// if the bytes end before.
fn first_sheet(bytes: &[u8]) -> Option<(&[u8], &[u8])> {
    let (length, rest) = bytes.split_first_chunk()?;
    rest.split_at_checked(u16::from_be_bytes(*length).into())
}

/// The stream of these sheets.
pub fn stream_of<S: AsRef<[u8]>>(sheets: impl IntoIterator<Item = S>) -> Vec<u8> {
    let mut stream = Vec::new();
    for sheet in sheets {
        let sheet = sheet.as_ref();
        let length = u16::try_from(sheet.len()).expect("a length of 16 bits");
        stream.extend(length.to_be_bytes());
        stream.extend(sheet);
    }
    stream
}

impl Figures {
    /// Takes one answer more into account.
    pub fn count(&mut self, answer: Answer) {
        match answer {
            Answer::Valid { count } => {
                self.valid += 1;
                self.sum += u64::from(count);
            }
            Answer::Invalid { count, length } => {
                self.invalid += 1;
                self.sum += u64::from(count);
                self.greatest = self.greatest.max(length as u64);
            }
            Answer::Stopped { budget } => {
                self.stopped += 1;
                self.sum += u64::from(budget);
            }
            Answer::Refused(_) => self.refused += 1,
        }
    }

    pub fn numbers(&self) -> [u64; 6] {
        [
            self.valid,
            self.invalid,
            self.stopped,
            self.refused,
            self.sum,
            self.greatest,
        ]
    }

    /// The line that `planfigures` prints.
    pub fn line(&self) -> Vec<u8> {
        let decimals = self.numbers().map(|number| number.to_string());
        format!("{}\n", decimals.join(" ")).into_bytes()
    }
}
