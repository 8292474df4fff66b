//! The lines that `planverify` prints.

use crate::verify::Answer;

/// The lines for an answer; `memory` is the trace memory after the call.
pub fn lines(answer: &Answer, memory: &[u8]) -> Vec<u8> {
    match answer {
        Answer::Valid { count } => format!("valid {count}\n"),
        Answer::Invalid { count, length } => {
            let trace: Vec<String> = memory[..1 + 2 * length]
                .iter()
                .map(|byte| format!("{byte:02x}"))
                .collect();
            format!("invalid {count} {length}\n{}\n", trace.join(" "))
        }
        Answer::Stopped { budget } => format!("stopped {budget}\n"),
        Answer::Refused(refusal) => format!("refused {}\n", refusal.number()),
    }
    .into_bytes()
}
