//! The whole program as a function from a text to its output.

use crate::memory::{needed, Memory};
use crate::reader::{read, Tables};
use crate::tables::{solve, Blame, Outcome, LIMIT};

/// How many bytes of a text are judged.
pub const JUDGED: usize = 32_768;

/// What a run of the solver leaves for a text. A text that is refused leaves
/// nothing in memory, and the place of the outcome is that of a frame.
#[derive(Clone, Debug, PartialEq, Eq)]
pub struct Run {
    pub outcome: Outcome,
    pub memory: Memory,
}

/// Runs the solver with memory of exactly the needed size.
pub fn solve_tables(tables: &Tables, blame: Blame) -> Run {
    let input = tables.input();
    let mut memory = Memory::new(needed(input.n, input.m, input.q), || 0);
    let outcome = solve(&input, blame, &mut memory.lent());
    Run { outcome, memory }
}

/// Reads a text and runs the solver on its tables.
pub fn solve_text(text: &[u8], blame: Blame) -> Run {
    match read(text, [LIMIT; 3]) {
        Ok(tables) => solve_tables(&tables, blame),
        Err(refusal) => refused(refusal.number, refusal.frame),
    }
}

/// What a refused text leaves.
pub fn refused(number: u8, place: u16) -> Run {
    Run {
        outcome: Outcome::Refused { number, place },
        memory: Memory::default(),
    }
}

/// The program's output for a text; its first 32,768 bytes are judged. The
/// program asks for blame.
pub fn run(text: &[u8]) -> Vec<u8> {
    frames(&solve_text(&text[..text.len().min(JUDGED)], Blame::Asked))
}

/// What the program writes for a run.
pub fn frames(run: &Run) -> Vec<u8> {
    let memory = &run.memory;
    let mut out = String::new();
    match run.outcome {
        Outcome::Refused { number, place } => {
            return format!("A4{number:02X}{place:04X}\n").into_bytes()
        }
        Outcome::Satisfiable => {
            out.push_str("A000\n");
            let labels = memory.representatives.iter().zip(&memory.offsets);
            for (t, (representative, offset)) in labels.enumerate() {
                out.push_str(&format!("A1{t:04X}{representative:04X}{offset:016X}\n"));
            }
        }
        Outcome::Contradiction => {
            out.push_str("A001\n");
            for (p, &mark) in memory.marks.iter().enumerate() {
                if mark == 1 {
                    out.push_str(&format!("A2{p:04X}\n"));
                }
            }
        }
    }
    for (k, answer) in memory.answers.iter().enumerate() {
        out.push_str(&format!("A3{k:04X}{answer:02X}\n"));
    }
    out.into_bytes()
}
