//! The reader of the text form.

use crate::tables::{
    Input, Proposition, Question, Term, AUXILIARY, BLOCK_DISEQUALITY, DEREFERENCE, DISEQUALITY,
    EQUALITY, LIMIT, VARIABLE,
};
use std::collections::HashSet;
use std::ops::Range;

const QUESTION: u64 = 0x21;

/// The tables read from a text.
#[derive(Clone, Debug, Default, PartialEq, Eq)]
pub struct Tables {
    pub terms: Vec<Term>,
    pub propositions: Vec<Proposition>,
    pub questions: Vec<Question>,
}

impl Tables {
    /// How many terms, propositions and questions there are.
    pub fn counts(&self) -> [usize; 3] {
        [
            self.terms.len(),
            self.propositions.len(),
            self.questions.len(),
        ]
    }

    /// The tables as input of the solver, with the counts read.
    pub fn input(&self) -> Input<'_> {
        let [n, m, q] = self.counts();
        Input {
            n,
            m,
            q,
            terms: &self.terms,
            propositions: &self.propositions,
            questions: &self.questions,
        }
    }
}

/// A refusal: its number, the number of the faulty frame from 0, and where the
/// faulty line stands in the text, without its LF.
#[derive(Clone, Debug, PartialEq, Eq)]
pub struct Refusal {
    pub number: u8,
    pub frame: u16,
    pub part: Range<usize>,
}

/// Reads a text into tables that have room for the given numbers of terms,
/// propositions and questions.
pub fn read(text: &[u8], room: [usize; 3]) -> Result<Tables, Refusal> {
    if room.iter().any(|&records| records < LIMIT) {
        return Err(Refusal {
            number: 8,
            frame: 0,
            part: 0..0,
        });
    }
    let mut tables = Tables::default();
    let mut atoms = HashSet::new();
    let mut group = 0;
    let mut start = 0;
    let mut frame = 0;
    while start < text.len() {
        let (end, ended) = match text[start..].iter().position(|&b| b == b'\n') {
            Some(length) => (start + length, true),
            None => (text.len(), false),
        };
        let judged = if ended {
            take(&text[start..end], &mut tables, &mut atoms, &mut group)
        } else {
            Err(9)
        };
        if let Err(number) = judged {
            return Err(Refusal {
                number,
                frame,
                part: start..end,
            });
        }
        start = end + 1;
        frame += 1;
    }
    Ok(tables)
}

/// Judges one line without its LF and adds its record to the tables.
fn take(
    line: &[u8],
    tables: &mut Tables,
    atoms: &mut HashSet<(u64, u64)>,
    group: &mut usize,
) -> Result<(), u8> {
    // 9: digits, kind and length.
    let bytes = decode(line).ok_or(9)?;
    let kind = u64::from(*bytes.first().ok_or(9)?);
    let (length, own_group) = match kind {
        VARIABLE | AUXILIARY => (3, 0),
        DEREFERENCE => (7, 0),
        EQUALITY | DISEQUALITY => (9, 1),
        BLOCK_DISEQUALITY => (5, 1),
        QUESTION => (9, 2),
        _ => return Err(9),
    };
    if bytes.len() != length {
        return Err(9);
    }
    // 10: order of the groups.
    if own_group < *group {
        return Err(10);
    }
    *group = own_group;
    // 1 to 3: room in the table.
    let n = tables.terms.len();
    let (number, count) = match own_group {
        0 => (1, n),
        1 => (2, tables.propositions.len()),
        _ => (3, tables.questions.len()),
    };
    if count >= LIMIT {
        return Err(number);
    }
    // 4 to 7: names of terms and atoms.
    let first = number_at(&bytes, 1);
    match kind {
        VARIABLE | AUXILIARY => {
            if !atoms.insert((kind, first)) {
                return Err(5);
            }
            tables.terms.push(Term {
                kind,
                number: first,
                offset: 0,
            });
        }
        DEREFERENCE => {
            if first >= n as u64 {
                return Err(4);
            }
            tables.terms.push(Term {
                kind,
                number: first,
                offset: offset_at(&bytes, 3),
            });
        }
        _ => {
            let (offset, second) = if kind == BLOCK_DISEQUALITY {
                (0, number_at(&bytes, 3))
            } else {
                (offset_at(&bytes, 3), number_at(&bytes, 7))
            };
            if first >= n as u64 || second >= n as u64 {
                return Err(if kind == QUESTION { 7 } else { 6 });
            }
            if kind == QUESTION {
                tables.questions.push(Question {
                    left: first,
                    offset,
                    right: second,
                });
            } else {
                tables.propositions.push(Proposition {
                    kind,
                    left: first,
                    offset,
                    right: second,
                });
            }
        }
    }
    Ok(())
}

/// The bytes of a line of upper-case hexadecimal digits.
fn decode(line: &[u8]) -> Option<Vec<u8>> {
    fn digit(b: u8) -> Option<u8> {
        match b {
            b'0'..=b'9' => Some(b - b'0'),
            b'A'..=b'F' => Some(b - b'A' + 10),
            _ => None,
        }
    }
    if line.len() % 2 != 0 {
        return None;
    }
    line.chunks(2)
        .map(|two| Some(digit(two[0])? << 4 | digit(two[1])?))
        .collect()
}

fn number_at(bytes: &[u8], at: usize) -> u64 {
    u64::from(bytes[at]) << 8 | u64::from(bytes[at + 1])
}

fn offset_at(bytes: &[u8], at: usize) -> i64 {
    i32::from_be_bytes([bytes[at], bytes[at + 1], bytes[at + 2], bytes[at + 3]]).into()
}
