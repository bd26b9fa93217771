//! Case files. A case file is a text file of lines ended by LF:
//! - A line that begins with `#` is reasoning and is skipped, wherever it is.
//! - Lines before the first block must be empty or reasoning.
//! - `input:` opens a block of frames. Each line of the block, with its LF, is part of the text that is judged; an empty line is an empty
//!   frame. A block without lines is the empty text.
//! - `input-hex:` opens a block of hexadecimal byte values, two digits each in either case, with spaces and line ends between them skipped.
//!   Together they are the bytes of the text. A case has one of the two input blocks.
//! - `output:` opens the block of expected frames, read as those of `input:`.
//! - `pairs:`, which may be left out, opens a block of lines `i j` (decimal) that lists exactly the pairs whose bit is 1. The whole bit
//!   table, unused bits included, is compared with it. The text must be accepted.
//!
//! In the reasoning, a, b, c and so on are auxiliaries 1, 2, 3 and so on, and &k is the address of variable k, unless a case says
//! otherwise.

use crate::calls::bytes;
use crate::proved;
use second_solver::program::{self, Run};
use second_solver::tables::{pair_bytes, Blame, Outcome};

pub struct Case {
    text: Vec<u8>,
    output: Vec<u8>,
    pairs: Option<Vec<(usize, usize)>>,
}

/// The lines of each block, after its name.
type Blocks<'a> = Vec<(&'a str, Vec<&'a str>)>;

fn blocks(content: &str) -> Result<Blocks<'_>, String> {
    let mut blocks = Blocks::new();
    for (k, line) in content.split_terminator('\n').enumerate() {
        match (line, blocks.last_mut()) {
            _ if line.starts_with('#') => {}
            ("input:" | "input-hex:" | "output:" | "pairs:", _) => {
                if blocks.iter().any(|(name, _)| *name == line) {
                    return Err(format!("two blocks {line}"));
                }
                blocks.push((line, Vec::new()));
            }
            (_, Some((_, lines))) => lines.push(line),
            ("", None) => {}
            _ => return Err(format!("line {} is not part of a case", k + 1)),
        }
    }
    Ok(blocks)
}

/// Each line with its LF.
fn ended(lines: &[&str]) -> Vec<u8> {
    lines.iter().flat_map(|line| [line, "\n"]).collect::<String>().into_bytes()
}

fn pair(line: &str) -> Result<(usize, usize), String> {
    let numbers = line.split_once(' ').and_then(|(i, j)| Some((i.parse().ok()?, j.parse().ok()?)));
    numbers.ok_or_else(|| format!("no pair: {line:?}"))
}

impl Case {
    pub fn parse(content: &str) -> Result<Case, String> {
        let blocks = blocks(content)?;
        let block = |wanted: &str| blocks.iter().find(|(name, _)| *name == wanted).map(|(_, lines)| lines);
        let text = match (block("input:"), block("input-hex:")) {
            (Some(lines), None) => ended(lines),
            (None, Some(lines)) => bytes(&lines.concat().replace(' ', "")).ok_or("not hexadecimal byte values")?,
            (None, None) => return Err("no input block".into()),
            _ => return Err("two input blocks".into()),
        };
        let pairs = block("pairs:").map(|lines| lines.iter().map(|line| pair(line)).collect());
        Ok(Case { text, output: ended(block("output:").ok_or("no output block")?), pairs: pairs.transpose()? })
    }

    /// Runs a solver on the case: the output for its text, the same frames from its tables, the pair bits, and the same without blame but
    /// for the marks.
    pub fn judge(&self, solver: &Solver) -> Result<(), String> {
        same_frames("output", &self.output, &(solver.run)(&self.text))?;
        let run = (solver.solve_text)(&self.text, Blame::Asked);
        same_frames("tables", &self.output, &program::frames(&run))?;
        let without = (solver.solve_text)(&self.text, Blame::NotAsked);
        if without != (Run { outcome: run.outcome, memory: run.memory.without_marks() }) {
            return Err("without blame more than the marks differs, or a mark is not 0".into());
        }
        self.pairs.as_ref().map_or(Ok(()), |pairs| same_pairs(pairs, &run))
    }
}

pub struct Solver {
    pub name: &'static str,
    run: fn(&[u8]) -> Vec<u8>,
    solve_text: fn(&[u8], Blame) -> Run,
}

pub const SOLVERS: [Solver; 2] = [
    Solver { name: "proved code", run: proved::run, solve_text: proved::solve_text },
    Solver { name: "second solver", run: program::run, solve_text: program::solve_text },
];

fn same_frames(of: &str, wanted: &[u8], given: &[u8]) -> Result<(), String> {
    let lines =
        |output: &[u8]| -> Vec<String> { output.split(|&byte| byte == b'\n').map(|line| line.escape_ascii().to_string()).collect() };
    let (wanted, given) = (lines(wanted), lines(given));
    let line = |lines: &[String], k: usize| lines.get(k).map_or("no line".into(), |line| format!("{line:?}"));
    match (0..wanted.len().max(given.len())).find(|&k| wanted.get(k) != given.get(k)) {
        None => Ok(()),
        Some(k) => Err(format!("{of}, line {k}: expected {}, got {}", line(&wanted, k), line(&given, k))),
    }
}

fn same_pairs(pairs: &[(usize, usize)], run: &Run) -> Result<(), String> {
    if let Outcome::Refused { number, .. } = run.outcome {
        return Err(format!("pairs of a text refused with {number}"));
    }
    let (n, given) = (run.memory.representatives.len(), &run.memory.pair_bits);
    let mut wanted = vec![0u8; pair_bytes(n)];
    for &(i, j) in pairs {
        if i >= n || j >= n {
            return Err(format!("pair {i} {j} names no term"));
        }
        wanted[(i * n + j) / 8] |= 1 << ((i * n + j) % 8);
    }
    let bit = |table: &[u8], k: usize| table[k / 8] >> (k % 8) & 1;
    match (0..8 * wanted.len()).find(|&k| bit(&wanted, k) != bit(given, k)) {
        None => Ok(()),
        Some(k) if k >= n * n => Err(format!("unused pair bit {k} is 1")),
        Some(k) => Err(format!("pair {} {}: expected {}, got {}", k / n, k % n, bit(&wanted, k), bit(given, k))),
    }
}
