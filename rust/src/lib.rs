//! Recovery routines: knowledge-based programs without loops, packed into sheets.
//!
//! A sheet is read into data ([`read`]), verified as a plan ([`verify`], by
//! progression; [`runs`], by listing runs), executed step by step ([`runner`]),
//! and its failing traces can be checked ([`check`]). A stream of sheets has its
//! figures ([`figures`]). [`encode`], [`random`] and [`edges`] make sheets, good and
//! damaged ones; [`records`] such records.

pub mod check;
pub mod edges;
pub mod encode;
pub mod execute;
pub mod figures;
pub mod print;
pub mod random;
pub mod read;
pub mod records;
pub mod refusal;
pub mod runner;
pub mod runs;
pub mod sheet;
pub mod states;
pub mod step;
pub mod truth;
pub mod verify;
