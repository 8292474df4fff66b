//! Prints the sheets at the limits of the format, one a line: the sheet in
//! hexadecimal, `;`, and the number of its refusal, 0 if it is accepted.

use std::io::{self, BufWriter, Write};

use reference::edges::edges;
use reference::read::read;

fn main() -> io::Result<()> {
    let mut output = BufWriter::new(io::stdout().lock());
    for sheet in edges() {
        let digits: String = sheet.iter().map(|byte| format!("{byte:02x}")).collect();
        let number = read(&sheet).map_or_else(|refusal| refusal.number(), |_| 0);
        writeln!(output, "{digits};{number}")?;
    }
    output.flush()
}
