//! Prints how many bytes of stack a call of each proved function takes, on the
//! sheet that needs the most of those below: formulas of every mix of levels up
//! to the depth limit and one beyond it, where the sheet is refused, in every
//! place, the longest programs, nested in every way, and the longest failing
//! histories. Then the same on a sheet of 9 bytes.
//!
//! A call runs on a stack of our own, painted before: what it takes is what is
//! no longer painted, less what an empty call takes. x86-64 only, like the
//! library.

use std::arch::asm;

use linked::{Record, Stream, Tables, Verdict, Words, FIGURES, LINES, MEMO_WORDS, REPLIES, SHEET};
use reference::encode::encode;
use reference::figures::stream_of;
use reference::read::read;
use reference::sheet::{
    Action, Epistemic, Objective, Program, Sheet, MAX_ACTION_NODES, MAX_BRANCH_NODES, MAX_DEPTH,
    MAX_TRACE,
};

/// The size of the painted stack, and how much of it must stay painted.
const STACK: usize = 1 << 20;
const UNTOUCHED: usize = 1 << 16;

const SAMPLE_1: [u8; 9] = [0x11, 0x0c, 0x90, 0x88, 0x1c, 0x40, 0x88, 0x20, 0x00];

fn main() {
    let depths = [MAX_DEPTH, MAX_DEPTH + 1];
    let mut sheets: Vec<(String, Sheet)> = depths.into_iter().flat_map(sheets).collect();
    for action in 0..plain().actions.len() as u8 {
        let program =
            (0..MAX_ACTION_NODES).fold(Program::End, |rest, _| Program::act(action, rest));
        let goal = Epistemic::Known(Objective::False);
        let sheet = Sheet {
            goal,
            program,
            ..plain()
        };
        sheets.push((format!("64 times action {action}, failing"), sheet));
    }
    let mut tables = Tables::zeroed();
    let mut most = Needs::default();
    let mut refused = 0;
    for (name, sheet) in &sheets {
        if !most.add(name, &encode(sheet), &mut tables) {
            refused += 1;
        }
    }
    println!("{} sheets, {refused} of them refused", sheets.len());
    println!("{:<22} {:>11}  sheet", "function", "stack bytes");
    most.print();
    let mut tiny = Needs::default();
    tiny.add("sample 1, 9 bytes", &SAMPLE_1, &mut tables);
    tiny.print();
}

/// The most stack of each function; of those that have a form in lent tables, of both.
#[derive(Default)]
struct Needs {
    read: Need,
    prepare: Need,
    step: Need,
    pass: Need,
    settle: Need,
    known: Need,
    print: Need,
    verify: [Need; 2],
    check: [Need; 2],
    load: [Need; 2],
    next: [Need; 2],
    report: [Need; 2],
    feed: Need,
    end: Need,
    line: Need,
}

impl Needs {
    /// Calls all functions on a sheet, and tells whether it is accepted.
    fn add(&mut self, name: &str, bytes: &[u8], tables: &mut Tables) -> bool {
        let sheet = read(bytes);
        let expected = sheet
            .as_ref()
            .map_or_else(|refusal| refusal.number(), |_| 0);
        let mut start: Words = [0; 4];
        let mut answers = [255; 2];
        self.read
            .add(name, &mut || answers[0] = linked::read(bytes));
        self.prepare.add(name, &mut || {
            answers[1] = linked::prepare(bytes, tables, &mut start)
        });
        assert_eq!(answers, [expected; 2], "{name}");
        if let Ok(sheet) = &sheet {
            self.add_steps(name, sheet, tables, start);
        }
        let mut out = [0; LINES];
        let mut length = 0;
        self.print
            .add(name, &mut || length = linked::print(bytes, &mut out));
        assert!(length > 0, "{name}");
        let [verify, check] = [&mut self.verify, &mut self.check];
        verifier_calls(name, bytes, expected, tables, verify, check);
        let [load, next, report] = [&mut self.load, &mut self.next, &mut self.report];
        runner_calls(name, bytes, expected, tables, load, next, report);
        self.add_figures(name, bytes, expected, tables);
        expected == 0
    }

    fn add_steps(&mut self, name: &str, sheet: &Sheet, tables: &Tables, start: Words) {
        for action in 0..sheet.actions.len() {
            let mut set = start;
            self.step
                .add(name, &mut || linked::step(tables, &mut set, action, 0));
            assert_ne!(set, [0; 4], "{name}");
            let (mut possible, mut evaluations) = (false, [0]);
            self.pass.add(name, &mut || {
                possible = linked::pass(tables, &mut set, action, 0, &mut evaluations)
            });
            assert!(possible && evaluations[0] > 0, "{name}");
        }
        for set in [start, [0; 4]] {
            let mut place = None;
            self.settle
                .add(name, &mut || place = Some(linked::settle(tables, &set, 0)));
            assert!(place.is_some(), "{name}");
        }
        let mut known = false;
        self.known
            .add(name, &mut || known = linked::known(tables, &[0; 4], 0));
        assert!(known, "{name}");
    }

    /// The calls on a stream of the sheet alone, which comes in two pieces.
    fn add_figures(&mut self, name: &str, bytes: &[u8], expected: u8, tables: &mut Tables) {
        let whole = stream_of([bytes]);
        let (first, second) = whole.split_at(whole.len() / 2);
        let mut memo = [0; MEMO_WORDS];
        let mut stream = Stream::empty();
        for piece in [first, second] {
            let before = stream.clone();
            self.feed.add(name, &mut || {
                // Not as a whole, which would take some of this stack.
                stream.numbers.copy_from_slice(&before.numbers);
                stream.begun.copy_from_slice(&before.begun);
                linked::figures_feed(piece, &mut stream, tables, &mut memo);
            });
        }
        let (mut figures, mut out, mut length) = ([0; FIGURES], [0; LINES], 0);
        self.end
            .add(name, &mut || linked::figures_end(&stream, &mut figures));
        self.line.add(name, &mut || {
            length = linked::figures_print(&figures, &mut out)
        });
        let [valid, invalid, stopped, refused, ..] = figures;
        assert_eq!(
            valid + invalid + stopped,
            u64::from(expected == 0),
            "{name}"
        );
        assert_eq!(refused, u64::from(expected != 0), "{name}");
        assert!(length > 0, "{name}");
    }

    fn print(&self) {
        self.read.print("recovery_read");
        self.prepare.print("recovery_prepare");
        self.step.print("recovery_step");
        self.pass.print("recovery_pass");
        self.settle.print("recovery_settle");
        self.known.print("recovery_known");
        self.print.print("recovery_print");
        for (name, forms) in [
            ("recovery_verify", &self.verify),
            ("recovery_check", &self.check),
            ("recovery_load", &self.load),
            ("recovery_next", &self.next),
            ("recovery_report", &self.report),
        ] {
            forms[0].print(name);
            forms[1].print(&format!("{name}_in"));
        }
        self.feed.print("recovery_figures_feed");
        self.end.print("recovery_figures_end");
        self.line.print("recovery_figures_print");
    }
}

/// The calls of the verifier and of the trace checker, and each in lent tables.
fn verifier_calls(
    name: &str,
    bytes: &[u8],
    expected: u8,
    tables: &mut Tables,
    verifying: &mut [Need; 2],
    checking: &mut [Need; 2],
) {
    let mut memory = [0; MAX_TRACE];
    let mut memo = [0; MEMO_WORDS];
    let mut verdicts = [Err(255); 2];
    verifying[0].add(name, &mut || {
        verdicts[0] = linked::verify(bytes, u32::MAX, &mut memory)
    });
    verifying[1].add(name, &mut || {
        verdicts[1] = linked::verify_in(bytes, u32::MAX, &mut memory, tables, &mut memo)
    });
    assert_eq!(verdicts[0], verdicts[1], "{name}");
    assert_eq!(verdicts[0].err().unwrap_or(0), expected, "{name}");
    let trace = match verdicts[0] {
        Ok(Verdict::Invalid { length, .. }) => &memory[..1 + 2 * length],
        _ => &memory,
    };
    let mut answers = [Err(255); 2];
    checking[0].add(name, &mut || answers[0] = linked::check(bytes, trace));
    checking[1].add(name, &mut || {
        answers[1] = linked::check_in(bytes, trace, tables)
    });
    assert_eq!(answers[0], answers[1], "{name}");
    assert_eq!(answers[0].err().unwrap_or(0), expected, "{name}");
}

/// The calls of the runner, and each in lent tables.
fn runner_calls(
    name: &str,
    bytes: &[u8],
    expected: u8,
    tables: &mut Tables,
    loading: &mut [Need; 2],
    telling: &mut [Need; 2],
    reporting: &mut [Need; 2],
) {
    let mut record = Record {
        sheet: [0; SHEET],
        replies: [0; REPLIES],
        lengths: [0; 2],
    };
    let mut answers = [255; 2];
    loading[0].add(name, &mut || answers[0] = linked::load(bytes, &mut record));
    loading[1].add(name, &mut || {
        answers[1] = linked::load_in(bytes, &mut record, tables)
    });
    assert_eq!(answers, [expected; 2], "{name}");
    let mut told = [0; 2];
    telling[0].add(name, &mut || answers[0] = linked::next(&record, &mut told));
    telling[1].add(name, &mut || {
        answers[1] = linked::next_in(&record, &mut told, tables)
    });
    let at_end = told[0] == 1;
    let telling = if expected == 0 { 0 } else { 31 };
    assert_eq!(answers, [telling; 2], "{name}");
    reporting[0].add(name, &mut || {
        record.lengths[1] = 0;
        answers[0] = linked::report(&mut record, 0);
    });
    reporting[1].add(name, &mut || {
        record.lengths[1] = 0;
        answers[1] = linked::report_in(&mut record, 0, tables);
    });
    let reported = if expected == 0 && at_end { 32 } else { telling };
    assert_eq!(answers, [reported; 2], "{name}");
}

/// The most stack that a call took, and with which sheet.
#[derive(Default)]
struct Need {
    bytes: usize,
    sheet: String,
}

impl Need {
    fn add(&mut self, sheet: &str, call: &mut dyn FnMut()) {
        // A byte that happens to be written with one paint's value isn't with the other's.
        let bytes = [0xa5, 0x5a].map(|paint| taken(paint, call) - taken(paint, &mut || {}));
        let bytes = bytes[0].max(bytes[1]);
        if bytes > self.bytes {
            self.bytes = bytes;
            self.sheet = sheet.to_string();
        }
    }

    fn print(&self, name: &str) {
        println!("{name:<22} {:>11}  {}", self.bytes, self.sheet);
    }
}

/// How many bytes of a stack with this paint a call changes.
fn taken(paint: u8, mut call: &mut dyn FnMut()) -> usize {
    extern "C" fn run(call: &mut &mut dyn FnMut()) {
        call()
    }
    let mut stack = vec![paint; STACK];
    // The calling convention wants a multiple of 16.
    let top = stack.as_mut_ptr_range().end as usize & !15;
    // SAFETY: the calls don't unwind, and take less than the whole stack, as is asserted. r12
    // is kept by the callee.
    unsafe {
        asm!(
            "mov r12, rsp",
            "mov rsp, {top}",
            "call {run}",
            "mov rsp, r12",
            top = in(reg) top,
            run = sym run,
            in("rdi") &mut call,
            out("r12") _,
            clobber_abi("C"),
        );
    }
    let untouched = stack.iter().take_while(|&&byte| byte == paint).count();
    assert!(untouched >= UNTOUCHED);
    STACK - untouched
}

fn sheets(depth: u32) -> Vec<(String, Sheet)> {
    let mut sheets = Vec::new();
    for (shape, theory) in objectives(depth, Objective::New(0)) {
        let mut sheet = plain();
        sheet.actions.push(Action::Change(theory));
        sheets.push((format!("depth {depth}, a theory, {shape}"), sheet));
    }
    for (shape, formula) in objectives(depth, Objective::Fact(0)) {
        let mut sheet = plain();
        let replies = vec![Objective::True, formula.clone()];
        sheet.actions.push(Action::Probe(replies));
        sheets.push((format!("depth {depth}, a reply, {shape}"), sheet));
        let sheet = Sheet {
            start: formula.clone(),
            ..plain()
        };
        sheets.push((format!("depth {depth}, the start formula, {shape}"), sheet));
        let sheet = plain().constrained(formula);
        sheets.push((format!("depth {depth}, the constraint, {shape}"), sheet));
    }
    for levels in 1..depth {
        for (inner, part) in objectives(depth - levels, Objective::Fact(0)) {
            for (outer, formula) in epistemics(levels, &part) {
                let shape =
                    format!("depth {depth}, {levels} epistemic levels {outer}, then {inner}");
                for (nesting, program) in programs(&formula) {
                    let sheet = Sheet { program, ..plain() };
                    sheets.push((format!("a program nested in {nesting}, {shape}"), sheet));
                }
                let sheet = Sheet {
                    goal: formula,
                    ..plain()
                };
                sheets.push((format!("the goal, {shape}"), sheet));
            }
        }
    }
    sheets
}

fn plain() -> Sheet {
    Sheet {
        edition: 1,
        facts: 8,
        constraint: Objective::True,
        actions: vec![
            Action::Probe(vec![Objective::True]),
            Action::Change(Objective::New(0)),
        ],
        start: Objective::True,
        goal: Epistemic::Known(Objective::True),
        program: Program::End,
    }
}

/// A leaf at this depth, on each side of each kind of node.
fn objectives(depth: u32, leaf: Objective) -> [(&'static str, Objective); 5] {
    let chain = |more: fn(Objective) -> Objective| {
        (1..depth).fold(leaf.clone(), |formula, _| more(formula))
    };
    [
        ("not", chain(Objective::negate)),
        ("and, to the left", chain(|f| f.and(Objective::True))),
        ("and, to the right", chain(|f| Objective::True.and(f))),
        ("iff, to the left", chain(|f| f.iff(Objective::True))),
        ("or, to the right", chain(|f| Objective::False.or(f))),
    ]
}

/// A formula's "known" or "not known" at this level, on each side of each kind of node,
/// and of both kinds by turns: only a part that is joined the other way is settled by a
/// call of its own.
fn epistemics(levels: u32, part: &Objective) -> [(&'static str, Epistemic); 5] {
    let chain = |first: Epistemic, more: fn(Epistemic) -> Epistemic| {
        (1..levels).fold(first, |formula, _| more(formula))
    };
    let by_turns = |and: fn(Epistemic) -> Epistemic, or: fn(Epistemic) -> Epistemic| {
        let first = Epistemic::Known(part.clone());
        (1..levels).fold(first, |formula, level| match level % 2 {
            0 => or(formula),
            _ => and(formula),
        })
    };
    [
        (
            "and, to the left",
            chain(Epistemic::Known(part.clone()), |f| {
                f.and(Epistemic::Known(Objective::True))
            }),
        ),
        (
            "and, to the right",
            chain(Epistemic::Known(part.clone()), |f| {
                Epistemic::Known(Objective::True).and(f)
            }),
        ),
        (
            "or, to the right",
            chain(Epistemic::NotKnown(part.clone()), |f| {
                Epistemic::Known(Objective::True).or(f)
            }),
        ),
        (
            "and, or by turns, to the left",
            by_turns(
                |f| f.and(Epistemic::Known(Objective::True)),
                |f| f.or(Epistemic::Known(Objective::True)),
            ),
        ),
        // What stands before a part doesn't decide.
        (
            "and, or by turns, to the right",
            by_turns(
                |f| Epistemic::Known(Objective::True).and(f),
                |f| Epistemic::Known(Objective::False).or(f),
            ),
        ),
    ]
}

/// All actions and branches that a program may have, one inside the other in
/// each way, with a condition inside them all.
fn programs(condition: &Epistemic) -> [(&'static str, Program); 3] {
    let innermost = || {
        let last = Program::branch(condition.clone(), Program::End, Program::End, Program::End);
        let spare = MAX_ACTION_NODES - (MAX_BRANCH_NODES - 1);
        (0..spare).fold(last, |program, _| Program::act(0, program))
    };
    let nested = |around: fn(Epistemic, Program) -> Program| {
        (1..MAX_BRANCH_NODES).fold(innermost(), |program, _| {
            Program::act(0, around(Epistemic::Known(Objective::True), program))
        })
    };
    [
        (
            "then-programs",
            nested(|f, p| Program::branch(f, p, Program::End, Program::End)),
        ),
        (
            "else-programs",
            nested(|f, p| Program::branch(f, Program::End, p, Program::End)),
        ),
        (
            "rests",
            nested(|f, p| Program::branch(f, Program::End, Program::End, p)),
        ),
    ]
}
