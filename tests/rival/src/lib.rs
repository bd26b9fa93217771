//! A plain solver of Bucketmonk, written from the papers to be fast: the
//! measure for the proved solver's time. It is not proved. It gives what the
//! proved solver gives without blame, over the same tables and lent memory.
//!
//! - `refusals`: what is refused.
//! - `closure`: congruence closure over a union-find that keeps offsets.
//! - `differences`: the pair bits and the answers.
//! - `distances`: pairs of places of two large classes by their distance.
//!
//! It uses arrays of fixed size. Only `distances` uses the heap, and only for
//! sets with many differences between large classes.

#![forbid(unsafe_code)]

mod closure;
mod differences;
mod distances;
mod refusals;

use closure::Closure;
use differences::{Differences, NO_MASKS};
use second_solver::tables::{pair_bytes, Input, Lent, Outcome, CONTRADICTORY, LIMIT};

/// A cell for each term.
type Column<T> = [T; LIMIT];

/// The verdict alone. Refusals are those of `solve` where no memory is lent.
pub fn verdict(input: &Input) -> Outcome {
    if let Some(refused) = refusals::of_tables(input).or_else(|| refusals::of_records(input)) {
        return refused;
    }
    if Closure::new().close(input) {
        Outcome::Satisfiable
    } else {
        Outcome::Contradiction
    }
}

/// Solves the set and fills the lent memory, without blame: all marks are 0.
pub fn solve(input: &Input, lent: &mut Lent) -> Outcome {
    if let Some(refused) = refusals::of_tables(input)
        .or_else(|| refusals::of_lent(input, lent))
        .or_else(|| refusals::of_records(input))
    {
        return refused;
    }
    let (n, m, q) = (input.n, input.m, input.q);
    lent.marks[..m].fill(0);
    let pair_bits = &mut lent.pair_bits[..pair_bytes(n)];
    let answers = &mut lent.answers[..q];
    let mut closure = Closure::new();
    if closure.close(input) {
        for t in 0..n {
            lent.representatives[t] = closure.root(t) as u32;
            lent.offsets[t] = closure.offset(t);
        }
        let mut masks = NO_MASKS;
        let mut differences = Differences::new(&closure, &mut masks);
        differences.find(input);
        differences.write_pairs(n, pair_bits);
        differences.answer(input, answers);
        Outcome::Satisfiable
    } else {
        for t in 0..n {
            lent.representatives[t] = t as u32;
        }
        lent.offsets[..n].fill(0);
        pair_bits.fill(0);
        answers.fill(CONTRADICTORY);
        Outcome::Contradiction
    }
}
