//! What the tests of this package and the comparisons share: numbers from a
//! seed, and sets built record by record.

use crate::memory::needed;
use crate::reader::Tables;
use crate::tables::{
    Input, Proposition, Question, Term, AUXILIARY, BLOCK_DISEQUALITY, DEREFERENCE, DISEQUALITY,
    EQUALITY, LIMIT, VARIABLE,
};
use std::collections::HashMap;

/// A generator of numbers (xorshift). It holds its seed, which is not 0.
#[derive(Clone, Copy, Debug, PartialEq, Eq)]
pub struct Numbers(pub u64);

impl Numbers {
    pub fn next(&mut self) -> u64 {
        self.0 ^= self.0 << 13;
        self.0 ^= self.0 >> 7;
        self.0 ^= self.0 << 17;
        self.0
    }

    pub fn below(&mut self, n: usize) -> usize {
        (self.next() >> 11) as usize % n
    }

    pub fn one_in(&mut self, n: usize) -> bool {
        self.below(n) == 0
    }

    pub fn one_of<A: Copy>(&mut self, all: &[A]) -> A {
        all[self.below(all.len())]
    }

    pub fn offset(&mut self) -> i32 {
        if self.one_in(8) {
            self.next() as i32
        } else {
            self.one_of(&[0, 0, 0, 1, -1, 4, i32::MIN, i32::MAX])
        }
    }
}

/// Most terms, propositions or questions for which memory is lent.
pub const MOST: usize = 515;

/// The tables of a set with its counts, and how many cells of each lent array
/// are missing.
#[derive(Clone, Debug, Default, PartialEq, Eq)]
pub struct Set {
    pub n: usize,
    pub m: usize,
    pub q: usize,
    pub tables: Tables,
    pub missing: [usize; 5],
}

impl Set {
    pub fn term(&mut self, kind: u64, number: usize, offset: i32) -> usize {
        self.tables.terms.push(Term {
            kind,
            number: number as u64,
            offset: offset.into(),
        });
        self.n += 1;
        self.n - 1
    }

    pub fn proposition(&mut self, kind: u64, left: usize, offset: i32, right: usize) {
        self.tables.propositions.push(Proposition {
            kind,
            left: left as u64,
            offset: offset.into(),
            right: right as u64,
        });
        self.m += 1;
    }

    pub fn question(&mut self, left: usize, offset: i32, right: usize) {
        self.tables.questions.push(Question {
            left: left as u64,
            offset: offset.into(),
            right: right as u64,
        });
        self.q += 1;
    }

    pub fn input(&self) -> Input<'_> {
        Input {
            n: self.n,
            m: self.m,
            q: self.q,
            ..self.tables.input()
        }
    }

    /// The lines of the set, each with its LF, if it `fits`.
    pub fn lines(&self) -> Vec<Vec<u8>> {
        let mut lines = Vec::new();
        for Term {
            kind,
            number,
            offset,
        } in &self.tables.terms
        {
            lines.push(match *kind {
                DEREFERENCE => format!("03{number:04X}{:08X}\n", *offset as i32),
                _ => format!("{kind:02X}{number:04X}\n"),
            });
        }
        for Proposition {
            kind,
            left,
            offset,
            right,
        } in &self.tables.propositions
        {
            lines.push(match *kind {
                BLOCK_DISEQUALITY => format!("13{left:04X}{right:04X}\n"),
                _ => format!("{kind:02X}{left:04X}{:08X}{right:04X}\n", *offset as i32),
            });
        }
        for question in &self.tables.questions {
            let (left, z, right) = (question.left, question.offset as i32, question.right);
            lines.push(format!("21{left:04X}{z:08X}{right:04X}\n"));
        }
        lines.into_iter().map(String::into_bytes).collect()
    }

    /// The set as a text.
    pub fn text(&self) -> Vec<u8> {
        self.lines().concat()
    }

    /// Whether frames can hold the set: each table as long as its count, every
    /// field in the range of its frame. A set that fits may be refused.
    pub fn fits(&self) -> bool {
        let number = |x: u64| x <= 0xFFFF;
        let offset = |frame_has_one, z: i64| z == 0 || frame_has_one && i32::try_from(z).is_ok();
        let kinds = [VARIABLE, AUXILIARY, DEREFERENCE];
        let term = |t: &Term| {
            kinds.contains(&t.kind) && number(t.number) && offset(t.kind == DEREFERENCE, t.offset)
        };
        let kinds = [EQUALITY, DISEQUALITY, BLOCK_DISEQUALITY];
        let proposition = |p: &Proposition| {
            let offset = offset(p.kind != BLOCK_DISEQUALITY, p.offset);
            kinds.contains(&p.kind) && number(p.left) && offset && number(p.right)
        };
        let question = |q: &Question| number(q.left) && offset(true, q.offset) && number(q.right);
        [self.n, self.m, self.q] == self.tables.counts()
            && self.tables.terms.iter().all(term)
            && self.tables.propositions.iter().all(proposition)
            && self.tables.questions.iter().all(question)
    }

    /// The cells to lend of each array: `more` than are needed, or fewer where
    /// some are missing. Where a count is refused, those of a lower count.
    pub fn cells(&self, more: usize) -> [usize; 5] {
        let [n, m, q] = [self.n, self.m, self.q].map(|count| count.min(MOST));
        let mut cells = needed(n, m, q);
        for (cells, missing) in cells.iter_mut().zip(self.missing) {
            *cells = match missing {
                0 => *cells + more,
                _ => cells.saturating_sub(missing),
            };
        }
        cells
    }
}

/// What holds in a random model of few blocks, so that differences between
/// what is read and differences between addresses lead to each other: each term
/// has a block and a position below `range`, and most are tied to the first
/// term of their block, so dereferences are among the members of few classes.
/// Disequalities are between blocks. With few positions many distances are the
/// same.
pub fn mixed(
    r: &mut Numbers,
    size: usize,
    blocks: usize,
    range: usize,
    disequalities: usize,
) -> Set {
    let mut set = Set::default();
    let (mut values, mut memory) = (Vec::new(), HashMap::new());
    for k in 0..size {
        let any = (r.below(blocks), r.below(range) as i32);
        values.push(if k < blocks {
            set.term(AUXILIARY, k, 0);
            (k, 0)
        } else if r.one_in(4) {
            set.term(AUXILIARY, k, 0);
            any
        } else {
            let (inner, offset) = (r.below(k), r.below(range) as i32);
            set.term(DEREFERENCE, inner, offset);
            let (block, position): (usize, i32) = values[inner];
            *memory.entry((block, position + offset)).or_insert(any)
        });
        let (block, position) = values[k];
        if k >= blocks && !r.one_in(8) {
            set.proposition(EQUALITY, k, position, block);
        }
    }
    for _ in 0..disequalities {
        let (left, right) = (r.below(size), r.below(size));
        if values[left].0 != values[right].0 && set.m < LIMIT {
            let offset = r.below(2 * range) as i32 - range as i32;
            set.proposition(DISEQUALITY, left, offset, right);
        }
    }
    set
}

/// Damages a text in one place, with one of the bytes or a line of its own;
/// some damages leave it acceptable.
pub fn damage_text(r: &mut Numbers, text: &mut Vec<u8>, bytes: &[u8]) {
    let at = r.below(text.len() + 1);
    let byte = r.one_of(bytes);
    match r.below(4) {
        0 => text.insert(at, byte),
        1 if at < text.len() => text[at] = byte,
        2 if at < text.len() => (text.remove(at), ()).1,
        _ => {
            // a line again at the end
            let from = text[..at]
                .iter()
                .rposition(|&b| b == b'\n')
                .map_or(0, |k| k + 1);
            let line: Vec<u8> = text[from..]
                .iter()
                .copied()
                .take_while(|&b| b != b'\n')
                .chain([b'\n'])
                .collect();
            text.extend(line);
        }
    }
}
