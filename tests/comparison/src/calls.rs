//! Calls of the solver and of the reader as files, so that one can be run alone. A file can hold any tables, counts, lengths and bytes.
//!
//! The first line is `solve` or `read`. The others are words with one space between. Numbers are decimal, but kinds, seeds and bytes are
//! hexadecimal. What is left out is 0.
//! - `seed S`: the content of the lent memory or tables is drawn from it.
//! - `counts N M Q`, of a solve: terms, propositions and questions.
//! - `term KIND NUMBER OFFSET`, `proposition KIND LEFT OFFSET RIGHT`, `question LEFT OFFSET RIGHT`, of a solve: a record of a table.
//! - `blame K`, of a solve: the number for blame; 0 does not ask for it.
//! - `more K`, of a solve: so many cells of each array are lent beyond those needed.
//! - `missing A B C D E`, of a solve: where not 0, so many of the needed cells are not lent, of representatives, offsets, marks, pair bits
//!   and answers.
//! - `room A B C`, of a read: the records of the lent tables.
//! - `bytes B`, of a read: bytes of the text after those before.

use crate::count::{command, first_lines, keep, keep_text};
use second_solver::support::Set;
use second_solver::tables::{Proposition, Question, Term};
use std::fmt::{Display, Formatter, Result as Written};
use std::path::Path;
use std::str::FromStr;

/// What a call is given.
#[derive(Clone, Debug, PartialEq)]
pub enum Given {
    Set { set: Set, more: usize, blame: usize },
    Text { text: Vec<u8>, room: [usize; 3] },
}

#[derive(Clone, Debug, PartialEq)]
pub struct Call {
    pub seed: u64,
    pub given: Given,
}

impl Display for Call {
    fn fmt(&self, f: &mut Formatter) -> Written {
        let Call { seed, given } = self;
        match given {
            Given::Set { set, more, blame } => {
                writeln!(f, "solve\nseed {seed:X}\ncounts {} {} {}\nmore {more}\nblame {blame}", set.n, set.m, set.q)?;
                write_records(f, set)?;
                let [a, b, c, d, e] = set.missing;
                writeln!(f, "missing {a} {b} {c} {d} {e}")
            }
            Given::Text { text, room: [a, b, c] } => {
                writeln!(f, "read\nseed {seed:X}\nroom {a} {b} {c}")?;
                for line in text.split_inclusive(|&byte| byte == b'\n') {
                    let digits: String = line.iter().map(|byte| format!("{byte:02X}")).collect();
                    writeln!(f, "bytes {digits}")?;
                }
                Ok(())
            }
        }
    }
}

fn write_records(f: &mut Formatter, set: &Set) -> Written {
    for Term { kind, number, offset } in &set.tables.terms {
        writeln!(f, "term {kind:X} {number} {offset}")?;
    }
    for Proposition { kind, left, offset, right } in &set.tables.propositions {
        writeln!(f, "proposition {kind:X} {left} {offset} {right}")?;
    }
    for Question { left, offset, right } in &set.tables.questions {
        writeln!(f, "question {left} {offset} {right}")?;
    }
    Ok(())
}

fn number<A: FromStr>(word: &str) -> Option<A> {
    word.parse().ok()
}

fn hexadecimal(word: &str) -> Option<u64> {
    u64::from_str_radix(word, 16).ok()
}

fn numbers<const N: usize>(words: &[&str]) -> Option<[usize; N]> {
    let all: Option<Vec<usize>> = words.iter().map(|word| number(word)).collect();
    all?.try_into().ok()
}

/// Bytes of two hexadecimal digits each.
pub fn bytes(word: &str) -> Option<Vec<u8>> {
    let pairs = word.as_bytes().chunks(2);
    pairs.map(|pair| u8::from_str_radix(std::str::from_utf8(pair).ok().filter(|pair| pair.len() == 2)?, 16).ok()).collect()
}

impl Call {
    /// The call of a file; where it is none, a line that is not part of one.
    pub fn parse(content: &str) -> Result<Call, String> {
        let mut lines = content.lines();
        let given = match lines.next() {
            Some("solve") => Given::Set { set: Set::default(), more: 0, blame: 0 },
            Some("read") => Given::Text { text: Vec::new(), room: [0; 3] },
            first => return Err(format!("a call begins with solve or read and not with {first:?}")),
        };
        let mut call = Call { seed: 0, given };
        for line in lines {
            let words: Vec<&str> = line.split(' ').collect();
            call.take(&words).ok_or_else(|| format!("not part of a call: {line}"))?;
        }
        Ok(call)
    }

    fn take(&mut self, words: &[&str]) -> Option<()> {
        match (words, &mut self.given) {
            (["seed", seed], _) => self.seed = hexadecimal(seed)?,
            (["counts", counts @ ..], Given::Set { set, .. }) => [set.n, set.m, set.q] = numbers(counts)?,
            (["more", cells], Given::Set { more, .. }) => *more = number(cells)?,
            (["blame", asks], Given::Set { blame, .. }) => *blame = number(asks)?,
            (["missing", cells @ ..], Given::Set { set, .. }) => set.missing = numbers(cells)?,
            (["term", kind, of, z], Given::Set { set, .. }) => {
                set.tables.terms.push(Term { kind: hexadecimal(kind)?, number: number(of)?, offset: number(z)? });
            }
            (["proposition", kind, left, z, right], Given::Set { set, .. }) => {
                let (kind, left, offset, right) = (hexadecimal(kind)?, number(left)?, number(z)?, number(right)?);
                set.tables.propositions.push(Proposition { kind, left, offset, right });
            }
            (["question", left, z, right], Given::Set { set, .. }) => {
                set.tables.questions.push(Question { left: number(left)?, offset: number(z)?, right: number(right)? });
            }
            (["room", records @ ..], Given::Text { room, .. }) => *room = numbers(records)?,
            (["bytes", digits], Given::Text { text, .. }) => text.extend(bytes(digits)?),
            _ => return None,
        }
        Some(())
    }

    /// Keeps the call, shows it and says how it is run alone; as a text too, where there is one.
    pub fn keep(&self, stem: &Path) -> String {
        let content = self.to_string();
        let path = keep(stem, "call", content.as_bytes());
        let alone = format!("  alone: {} {path}", command("compare"));
        match &self.given {
            Given::Set { set, .. } if set.fits() => format!("{alone}\n{}", keep_text(stem, &set.text(), "")),
            Given::Text { text, .. } => format!("{alone}\n{}", keep_text(stem, text, "")),
            _ => format!("  no text can hold the set; as a call:\n{}{alone}", first_lines(content.as_bytes())),
        }
    }
}
