//! Verifies the sheet on standard input and prints the verdict; `reference figures`
//! verifies the stream of sheets there and prints its figures.

use std::env;
use std::io::{self, Read, Write};
use std::process::ExitCode;

use reference::figures::{figures, BUDGET};
use reference::print::lines;
use reference::sheet::MAX_TRACE;
use reference::verify::verify;

fn main() -> io::Result<ExitCode> {
    let arguments: Vec<String> = env::args().skip(1).collect();
    let answer: fn(&[u8]) -> Vec<u8> = match arguments.as_slice() {
        [] => verdict,
        [word] if word == "figures" => |stream| figures(stream).line(),
        _ => {
            eprintln!("usage: reference [figures]");
            return Ok(ExitCode::FAILURE);
        }
    };
    let mut input = Vec::new();
    io::stdin().read_to_end(&mut input)?;
    io::stdout().write_all(&answer(&input))?;
    Ok(ExitCode::SUCCESS)
}

fn verdict(sheet: &[u8]) -> Vec<u8> {
    let mut memory = [0; MAX_TRACE];
    let answer = verify(sheet, BUDGET, &mut memory);
    lines(&answer, &memory)
}
