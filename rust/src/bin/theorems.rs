//! Turns the lines of `rows`, `edges`, `records` and `streams` into claims that the
//! prover evaluates.
//!
//! `theorems DIR` reads the lines from standard input and writes a crate of
//! definitions to DIR: one claim for each verdict, printed line, talk with the
//! runner, checked trace, refusal, call on a record, and line of figures, each to be
//! proved by evaluation. A claim whose answer differs from the definitions' is
//! refused, and its name has the line's number. The number of claims is printed.

use std::env;
use std::fmt::Write;
use std::fs;
use std::io::{self, BufRead};
use std::path::Path;

/// Lines a module, so that no file gets too long for the prover.
const LINES: usize = 20;

const CLAIMS: &str = "\
-- The forms of the claims on generated sheets.
use Rattle.std.specs.Prelude.{ℕ, List, [], ◌≡◌}
use Rattle.format.specs.Syntax.{Sheet}
use Rattle.format.specs.Format.{Answer, gives, refused, on_accepted, reading}
use Rattle.semantics.specs.Verdict.{Verdict, Verified, verified}
use Rattle.semantics.specs.Replies.{Told, told, reported}
use Rattle.semantics.specs.Cases.{memory_with}

abbrev pub Verifies : (bytes : List ℕ) (budget : ℕ) → Answer Verdict → (shown : List ℕ) → Type 0
Verifies bytes budget answer shown = verified bytes budget (memory_with []) ≡ record { answer = answer; memory = memory_with shown }

abbrev pub Talks : (bytes rs : List ℕ) (r : ℕ) → Told → Answer (List ℕ) → Type 0
Talks bytes rs r t a =
    (on_accepted (λ sheet. gives (told sheet rs)) (reading bytes) ≡ gives t) × (on_accepted (λ sheet. reported sheet rs r) (reading bytes) ≡ a)

-- The number of a refusal, 0 for an accepted sheet.
unfoldable pub refusal_of : Answer Sheet → ℕ
refusal_of (refused r) = r
refusal_of (gives sheet) = 0
";

const HEAD: &str = "\
-- Claims on generated sheets.
use Rattle.std.specs.Prelude.{ℕ, List, [], ◌∷◌, ◌≡◌, true, false}
use mathlib.Core.Path.{refl}
use Rattle.format.specs.Format.{gives, refused, on_accepted, most_bytes, most_acts, reading}
use Rattle.semantics.specs.Verdict.{valid, invalid, stopped, verified}
use Rattle.semantics.specs.Replies.{to_do, at_end, told, reported}
use Rattle.semantics.specs.Checker.{checked}
use Rattle.semantics.specs.Printing.{printed}
use Rattle.semantics.specs.Figures.{figures_line}
use Rattle.runner.specs.Records.{padded, next_on, report_on, record_after}
use Rattle.compared.specs.Claims.{Verifies, Talks, refusal_of}
";

fn main() -> io::Result<()> {
    let dir = env::args().nth(1).expect("usage: theorems DIR");
    let dir = Path::new(&dir);
    fs::create_dir_all(dir.join("src"))?;
    fs::create_dir_all(dir.join("specs"))?;
    fs::write(
        dir.join("src/lib.rt"),
        "// No code: claims on generated sheets.\n#![tactic(auto)]\n",
    )?;
    fs::write(dir.join("specs/Claims.antt"), CLAIMS)?;

    let rows: Vec<String> = io::stdin().lock().lines().collect::<Result<_, _>>()?;
    let mut claims = 0;
    let mut root = String::from("pub mod Claims\n");
    for (number, part) in rows.chunks(LINES).enumerate() {
        let mut module = Module {
            text: String::from(HEAD),
            claims: 0,
        };
        for (index, row) in part.iter().enumerate() {
            module.row(number * LINES + index + 1, row);
        }
        claims += module.claims;
        fs::write(dir.join(format!("specs/Rows{number}.antt")), module.text)?;
        writeln!(root, "pub mod Rows{number}").unwrap();
    }
    fs::write(dir.join("specs/Lib.antt"), root)?;
    println!("{claims}");
    Ok(())
}

/// A module of claims.
struct Module {
    text: String,
    claims: usize,
}

impl Module {
    fn claim(&mut self, name: String, statement: String, unfolding: &str, proof: &str) {
        write!(
            self.text,
            "\npub {name} : {statement}\nunfolding {unfolding}\n{name} = {proof}\n"
        )
        .unwrap();
        self.claims += 1;
    }

    /// The claims of one line.
    fn row(&mut self, number: usize, row: &str) {
        let fields: Vec<&str> = row.split(';').collect();
        match fields[..] {
            [sheet, refusal] => {
                let statement = format!("refusal_of (reading {}) ≡ {refusal}", byte_list(sheet));
                let name = format!("reads_{number}");
                self.claim(name, statement, "reading refusal_of", "refl");
            }
            [sheet, budget, answer, trace, talks, checks] => {
                let sheet = byte_list(sheet);
                self.verdict(number, &sheet, budget, answer, trace);
                self.talks(number, &sheet, talks);
                self.checks(number, &sheet, checks);
            }
            ["record", sheet, length, replies, count, told, reports] => {
                let record = Record {
                    sheet: byte_list(sheet),
                    length,
                    replies: bytes(replies),
                    count: count.parse().expect("a count"),
                };
                self.record(number, &record, told, reports);
            }
            ["stream", stream, line] => {
                let line = numbers(format!("{line}\n").bytes());
                let statement = format!("figures_line {} ≡ {line}", byte_list(stream));
                self.claim(
                    format!("figures_{number}"),
                    statement,
                    "figures_line",
                    "refl",
                );
            }
            _ => panic!("not a line of rows, edges, records or streams: {row}"),
        }
    }

    fn verdict(&mut self, number: usize, sheet: &str, budget: &str, answer: &str, trace: &str) {
        let statement = format!(
            "Verifies {sheet} {budget} {} {}",
            verdict(answer),
            byte_list(trace)
        );
        self.claim(format!("verdict_{number}"), statement, "verified", "refl");
        if budget == "1000000" {
            let lines = numbers(printed(answer, trace).bytes());
            let statement = format!("printed {sheet} ≡ {lines}");
            self.claim(format!("lines_{number}"), statement, "printed", "refl");
        }
    }

    fn talks(&mut self, number: usize, sheet: &str, talks: &str) {
        for (index, talk) in parts(talks) {
            let fields: Vec<&str> = talk.split(':').collect();
            let [replies, reply, told, report] = fields[..] else {
                panic!("not a talk: {talk}");
            };
            let mut replies: Vec<u8> = replies.bytes().map(|digit| digit - b'0').collect();
            let before = numbers(replies.iter().copied());
            let told = telling(told);
            let report = match report {
                "ok" => {
                    replies.push(reply.parse().expect("a reply"));
                    format!("(gives {})", numbers(replies.into_iter()))
                }
                refusal => format!("(refused {refusal})"),
            };
            self.claim(
                format!("talk_{number}_{index}"),
                format!("Talks {sheet} {before} {reply} {told} {report}"),
                "on_accepted told reported reading",
                "(refl, refl)",
            );
        }
    }

    fn checks(&mut self, number: usize, sheet: &str, checks: &str) {
        for (index, check) in parts(checks) {
            let (trace, said) = check.split_once(':').expect("a checked trace");
            let said = match said {
                "yes" => "gives true".to_string(),
                "no" => "gives false".to_string(),
                refusal => format!("refused {refusal}"),
            };
            self.claim(
                format!("check_{number}_{index}"),
                format!("checked {sheet} {} ≡ {said}", byte_list(trace)),
                "checked",
                "refl",
            );
        }
    }

    fn record(&mut self, number: usize, record: &Record, told: &str, reports: &str) {
        let before = record.text();
        let told = match told.parse::<u8>() {
            Ok(refusal) => format!("refused {refusal}"),
            Err(_) => format!("gives {}", telling(told)),
        };
        self.claim(
            format!("next_{number}"),
            format!("next_on {before} ≡ {told}"),
            "next_on padded",
            "refl",
        );
        for (index, report) in parts(reports) {
            let (reply, report) = report.split_once(':').expect("a report");
            let (answer, after) = match report {
                "ok" => {
                    let after = record.with(reply.parse().expect("a reply"));
                    let replies = numbers(after.replies.iter().copied());
                    (format!("gives {replies}"), after.text())
                }
                refusal => (format!("refused {refusal}"), before.clone()),
            };
            self.claim(
                format!("report_{number}_{index}"),
                format!("report_on {before} {reply} ≡ {answer}"),
                "report_on padded",
                "refl",
            );
            self.claim(
                format!("after_{number}_{index}"),
                format!("record_after {before} {reply} ≡ {after}"),
                "record_after padded",
                "refl",
            );
        }
    }
}

/// A record; zeros follow the bytes.
struct Record<'a> {
    sheet: String,
    length: &'a str,
    replies: Vec<u8>,
    count: usize,
}

impl Record<'_> {
    /// With one reply more, behind those that the record has.
    fn with(&self, reply: u8) -> Record<'_> {
        let mut replies = self.replies.clone();
        replies.resize(self.count, 0);
        replies.push(reply);
        Record {
            sheet: self.sheet.clone(),
            count: replies.len(),
            replies,
            ..*self
        }
    }

    fn text(&self) -> String {
        format!(
            "(record {{ sheet = padded most_bytes {}; len = {}; replies = padded most_acts {}; count = {} }})",
            self.sheet,
            self.length,
            numbers(self.replies.iter().copied()),
            self.count
        )
    }
}

/// The parts of a list, with their numbers.
fn parts(list: &str) -> impl Iterator<Item = (usize, &str)> {
    list.split(',').filter(|part| !part.is_empty()).enumerate()
}

/// What "Next" tells.
fn telling(told: &str) -> String {
    match told {
        "e1" => "(at_end true)".to_string(),
        "e0" => "(at_end false)".to_string(),
        action => format!("(to_do {})", &action[1..]),
    }
}

fn verdict(answer: &str) -> String {
    match answer.split_once(' ').expect("an answer") {
        ("refused", number) => format!("(refused {number})"),
        (verdict, values) => format!("(gives ({verdict} {values}))"),
    }
}

/// What `planverify` prints for an answer and its trace.
fn printed(answer: &str, trace: &str) -> String {
    let bytes: Vec<&str> = (0..trace.len() / 2)
        .map(|i| &trace[2 * i..2 * i + 2])
        .collect();
    match bytes.is_empty() {
        true => format!("{answer}\n"),
        false => format!("{answer}\n{}\n", bytes.join(" ")),
    }
}

fn bytes(hex: &str) -> Vec<u8> {
    (0..hex.len() / 2)
        .map(|i| u8::from_str_radix(&hex[2 * i..2 * i + 2], 16).expect("hexadecimal"))
        .collect()
}

fn byte_list(hex: &str) -> String {
    numbers(bytes(hex).into_iter())
}

fn numbers(values: impl Iterator<Item = u8>) -> String {
    let mut list = String::from("(");
    for value in values {
        write!(list, "{value} ∷ ").unwrap();
    }
    list + "[])"
}
