//! The proved verifier and trace checker in tables of their own, which a call
//! clears first, beside the same in lent ones.

use std::hint::black_box;

use linked::{Tables, Verdict, MEMO_WORDS};
use reference::encode::encode;
use reference::sheet::MAX_TRACE;

use crate::routines::verified_sheets;
use crate::{least, shown, Call, BUDGET};

pub fn rows() {
    println!(
        "{:<54} {:>6} {:>10} {:>10} {:>10} {:>7}",
        "sheet", "call", "own us", "lent us", "prepare us", "ratio"
    );
    let wanted = [
        "sample 1, 1 fact",
        "a random routine",
        "64 probes, the first history fails",
    ];
    for (name, sheet) in verified_sheets() {
        if wanted.contains(&name) {
            row(name, &encode(&sheet));
        }
    }
}

fn row(name: &str, bytes: &[u8]) {
    let mut memory = [0; MAX_TRACE];
    let verdict = linked::verify(bytes, BUDGET, &mut memory).unwrap();
    let length = match verdict {
        Verdict::Invalid { length, .. } => 1 + 2 * length,
        _ => 1,
    };
    let trace = &memory[..length];
    let yes = linked::check(bytes, trace);
    let [mut tables, mut tables_check, mut tables_alone] = [(); 3].map(|()| Tables::zeroed());
    let mut memo = [0; MEMO_WORDS];
    let [mut lent, mut lent_in] = [[0; MAX_TRACE]; 2];
    let verify: Call = Box::new(|| {
        let found = linked::verify(black_box(bytes), BUDGET, &mut lent);
        assert_eq!(found, Ok(verdict));
    });
    let verify_in: Call = Box::new(|| {
        let found = linked::verify_in(
            black_box(bytes),
            BUDGET,
            &mut lent_in,
            &mut tables,
            &mut memo,
        );
        assert_eq!(found, Ok(verdict));
    });
    let check: Call = Box::new(|| assert_eq!(linked::check(black_box(bytes), trace), yes));
    let check_in: Call = Box::new(|| {
        let found = linked::check_in(black_box(bytes), trace, &mut tables_check);
        assert_eq!(found, yes);
    });
    let prepare: Call = Box::new(|| {
        linked::prepare(black_box(bytes), &mut tables_alone, &mut [0; 4]);
    });
    let calls = [verify, verify_in, check, check_in, prepare];
    let [verify, verify_in, check, check_in, prepare] = least(calls.map(Some));
    for (call, own, lent) in [("verify", verify, verify_in), ("check", check, check_in)] {
        let micros = |time: Option<f64>| shown(time.map(|time| time / 1e3), 2);
        println!(
            "{name:<54} {call:>6} {:>10} {:>10} {:>10} {:>7}",
            micros(own),
            micros(lent),
            micros(prepare),
            shown(lent.zip(own).map(|(lent, own)| lent / own), 3)
        );
    }
}
