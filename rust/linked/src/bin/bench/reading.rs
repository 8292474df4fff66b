//! The proved reader beside the one of an earlier commit, if that is linked, and
//! `reference::read::read`, which builds the sheet's tree and evaluates theories for
//! each state and next state, with short circuits.

use std::hint::black_box;

use reference::read::read;

use crate::sheets::read_sheets;
use crate::{least, shown, Call};

/// 0 for an accepted sheet, else the number of its refusal.
type Read = fn(&[u8]) -> u8;

/// The proved reader of an earlier commit.
#[cfg(feature = "before")]
const BEFORE: Option<Read> = Some(linked::read_before);
#[cfg(not(feature = "before"))]
const BEFORE: Option<Read> = None;

pub fn rows() {
    println!(
        "{:<72} {:>5} {:>6} {:>11} {:>11} {:>11} {:>9} {:>9}",
        "sheet", "bytes", "answer", "proved ns", "before ns", "Rust ns", "to before", "to Rust"
    );
    for (name, bytes) in read_sheets() {
        row(&name, &bytes);
    }
}

/// Times the readers, which must give the same answer.
fn row(name: &str, bytes: &[u8]) {
    let answer = linked::read(bytes);
    let call =
        |read: Read| -> Call { Box::new(move || assert_eq!(read(black_box(bytes)), answer)) };
    let times = least([
        Some(call(linked::read)),
        BEFORE.map(call),
        Some(call(read_rust)),
    ]);
    let [proved, before, rust] = times;
    print!("{name:<72} {:>5} {answer:>6}", bytes.len());
    for time in times {
        print!(" {:>11}", shown(time, 0));
    }
    for other in [before, rust] {
        let ratio = proved.zip(other).map(|(proved, other)| proved / other);
        print!(" {:>9}", shown(ratio, 4));
    }
    println!();
}

fn read_rust(bytes: &[u8]) -> u8 {
    read(bytes).map_or_else(|refusal| refusal.number(), |_| 0)
}
