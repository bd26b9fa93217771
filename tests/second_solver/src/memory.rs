//! The arrays that are lent to the solver, held together.

use crate::tables::{pair_bytes, Lent};

#[derive(Clone, Debug, Default, PartialEq, Eq)]
pub struct Memory {
    pub representatives: Vec<u32>,
    pub offsets: Vec<i64>,
    pub marks: Vec<u8>,
    pub pair_bits: Vec<u8>,
    pub answers: Vec<u8>,
}

/// The cells of each array that n terms, m propositions and q questions need.
pub fn needed(n: usize, m: usize, q: usize) -> [usize; 5] {
    [n, n, m, pair_bytes(n), q]
}

impl Memory {
    /// So many cells of each array, their content drawn from `next`.
    pub fn new(cells: [usize; 5], mut next: impl FnMut() -> u64) -> Memory {
        let mut bytes = |n: usize| (0..n).map(|_| next() as u8).collect::<Vec<u8>>();
        Memory {
            marks: bytes(cells[2]),
            pair_bits: bytes(cells[3]),
            answers: bytes(cells[4]),
            representatives: (0..cells[0]).map(|_| next() as u32).collect(),
            offsets: (0..cells[1]).map(|_| next() as i64).collect(),
        }
    }

    pub fn lent(&mut self) -> Lent<'_> {
        self.lent_after(0)
    }

    /// The arrays without their first cells.
    pub fn lent_after(&mut self, first: usize) -> Lent<'_> {
        Lent {
            representatives: &mut self.representatives[first..],
            offsets: &mut self.offsets[first..],
            marks: &mut self.marks[first..],
            pair_bits: &mut self.pair_bits[first..],
            answers: &mut self.answers[first..],
        }
    }

    /// The same with every mark 0.
    pub fn without_marks(&self) -> Memory {
        Memory {
            marks: vec![0; self.marks.len()],
            ..self.clone()
        }
    }

    /// Keeps so many cells of each array and returns those after them.
    pub fn split_off(&mut self, cells: [usize; 5]) -> Memory {
        Memory {
            representatives: self.representatives.split_off(cells[0]),
            offsets: self.offsets.split_off(cells[1]),
            marks: self.marks.split_off(cells[2]),
            pair_bits: self.pair_bits.split_off(cells[3]),
            answers: self.answers.split_off(cells[4]),
        }
    }

    /// The name and the cells of each array.
    pub fn shown(&self) -> [(&'static str, Vec<String>); 5] {
        fn all<A: ToString>(cells: &[A]) -> Vec<String> {
            cells.iter().map(A::to_string).collect()
        }
        [
            ("representatives", all(&self.representatives)),
            ("offsets", all(&self.offsets)),
            ("marks", all(&self.marks)),
            ("pair bits", all(&self.pair_bits)),
            ("answers", all(&self.answers)),
        ]
    }
}
