//! The exported functions of the static library, as `include/bucketmonk.h` declares them.

use crate::memory::any_tables;
use second_solver::memory::{needed, Memory};
use second_solver::program::{refused, Run};
use second_solver::reader::Tables;
use second_solver::support::Numbers;
use second_solver::tables::{Blame, Input, Lent, Outcome, Proposition, Question, Term, LIMIT};
use std::ops::Range;

extern "C" {
    fn bucketmonk_solve(
        n: usize,
        terms: *const Term,
        terms_length: usize,
        m: usize,
        propositions: *const Proposition,
        propositions_length: usize,
        q: usize,
        questions: *const Question,
        questions_length: usize,
        blame: usize,
        representatives: *mut u32,
        representatives_length: usize,
        offsets: *mut i64,
        offsets_length: usize,
        marks: *mut u8,
        marks_length: usize,
        pairs: *mut u8,
        pairs_length: usize,
        answers: *mut u8,
        answers_length: usize,
    ) -> usize;

    fn bucketmonk_verdict(
        n: usize,
        terms: *const Term,
        terms_length: usize,
        m: usize,
        propositions: *const Proposition,
        propositions_length: usize,
    ) -> usize;

    fn bucketmonk_read(
        text: *const u8,
        text_length: usize,
        terms: *mut Term,
        terms_length: usize,
        propositions: *mut Proposition,
        propositions_length: usize,
        questions: *mut Question,
        questions_length: usize,
    ) -> usize;

    fn bucketmonk_output(text: *const u8, text_length: usize, out: *mut u8, out_length: usize) -> usize;

    fn bucketmonk_faulty_line(
        text: *const u8,
        text_length: usize,
        terms: usize,
        propositions: usize,
        questions: usize,
        start: *mut usize,
    ) -> usize;
}

/// The stack that a call needs at most, as the header states.
pub const STACK: usize = 256 * 1024;
/// The stack that a call of `output` needs at most.
pub const OUTPUT_STACK: usize = 360 * 1024;

/// A call on a stack of so many bytes.
pub fn on_stack<A: Send>(bytes: usize, call: impl FnOnce() -> A + Send) -> A {
    std::thread::scope(|scope| {
        let thread = std::thread::Builder::new().stack_size(bytes).spawn_scoped(scope, call);
        thread.expect("a thread").join().expect("a result")
    })
}

fn outcome(code: usize) -> Outcome {
    match code {
        0 => Outcome::Satisfiable,
        1 => Outcome::Contradiction,
        _ => Outcome::Refused { number: (code >> 16) as u8, place: (code & 0xFFFF) as u16 },
    }
}

/// The header's numbers for blame.
pub const NO_BLAME: usize = 0;
pub const BLAME: usize = 1;

/// What a number for blame means: `NO_BLAME` does not ask for it, any other does.
pub fn blame(number: usize) -> Blame {
    match number {
        NO_BLAME => Blame::NotAsked,
        _ => Blame::Asked,
    }
}

fn blame_number(blame: Blame) -> usize {
    match blame {
        Blame::NotAsked => NO_BLAME,
        Blame::Asked => BLAME,
    }
}

/// Solves the set with the proved solver, with this number for blame.
pub fn solve(input: &Input, blame: usize, lent: &mut Lent) -> Outcome {
    // SAFETY: each pointer comes with the length of its slice, and the lent slices are exclusive.
    let code = unsafe {
        bucketmonk_solve(
            input.n,
            input.terms.as_ptr(),
            input.terms.len(),
            input.m,
            input.propositions.as_ptr(),
            input.propositions.len(),
            input.q,
            input.questions.as_ptr(),
            input.questions.len(),
            blame,
            lent.representatives.as_mut_ptr(),
            lent.representatives.len(),
            lent.offsets.as_mut_ptr(),
            lent.offsets.len(),
            lent.marks.as_mut_ptr(),
            lent.marks.len(),
            lent.pair_bits.as_mut_ptr(),
            lent.pair_bits.len(),
            lent.answers.as_mut_ptr(),
            lent.answers.len(),
        )
    };
    outcome(code)
}

/// The verdict alone on the set, without its questions.
pub fn verdict(input: &Input) -> Outcome {
    // SAFETY: each pointer comes with the length of its slice.
    let code = unsafe {
        bucketmonk_verdict(
            input.n,
            input.terms.as_ptr(),
            input.terms.len(),
            input.m,
            input.propositions.as_ptr(),
            input.propositions.len(),
        )
    };
    outcome(code)
}

/// The tables that a text is read into.
pub struct Room<'a> {
    pub terms: &'a mut [Term],
    pub propositions: &'a mut [Proposition],
    pub questions: &'a mut [Question],
}

/// All of the tables as room.
pub fn room(tables: &mut Tables) -> Room<'_> {
    Room { terms: &mut tables.terms, propositions: &mut tables.propositions, questions: &mut tables.questions }
}

/// Reads a text into the tables: the counts of terms, propositions and questions, or the number of the refusal and its frame.
pub fn read(text: &[u8], room: &mut Room) -> Result<[usize; 3], (u8, usize)> {
    // SAFETY: each pointer comes with the length of its slice, and the lent tables are exclusive.
    let code = unsafe {
        bucketmonk_read(
            text.as_ptr(),
            text.len(),
            room.terms.as_mut_ptr(),
            room.terms.len(),
            room.propositions.as_mut_ptr(),
            room.propositions.len(),
            room.questions.as_mut_ptr(),
            room.questions.len(),
        )
    };
    match code >> 48 {
        0 => Ok([code >> 32, code >> 16, code].map(|count| count & 0xFFFF)),
        number => Err((number as u8, code & 0xFFFF_FFFF_FFFF)),
    }
}

/// Most bytes that the program writes: A000, 512 frames A1 and 512 frames A3.
pub const LARGEST_OUTPUT: usize = 5 + 512 * 27 + 512 * 9;

/// Writes to `out` what the proved program writes for a text. Returns how many bytes; 0 where `out` has no room for the largest
/// output.
pub fn output(text: &[u8], out: &mut [u8]) -> usize {
    // SAFETY: each pointer comes with the length of its slice, and `out` is exclusive.
    unsafe { bucketmonk_output(text.as_ptr(), text.len(), out.as_mut_ptr(), out.len()) }
}

/// What the proved program writes for a text.
pub fn run(text: &[u8]) -> Vec<u8> {
    let mut out = vec![0; LARGEST_OUTPUT];
    let written = output(text, &mut out);
    out.truncate(written);
    out
}

/// Reads a text and runs the proved solver on its tables, with memory of exactly the needed size.
pub fn solve_text(text: &[u8], blame: Blame) -> Run {
    let mut r = Numbers(7);
    let mut tables = any_tables(&mut r, [LIMIT; 3]);
    match read(text, &mut room(&mut tables)) {
        Ok([n, m, q]) => {
            let mut memory = Memory::new(needed(n, m, q), || r.next());
            let outcome = solve(&Input { n, m, q, ..tables.input() }, blame_number(blame), &mut memory.lent());
            Run { outcome, memory }
        }
        Err((number, frame)) => refused(number, frame.try_into().expect("a frame of 16 bits")),
    }
}

/// Where the faulty line of a text stands, for tables with room for so many terms, propositions and questions.
pub fn faulty_line(text: &[u8], room: [usize; 3]) -> Range<usize> {
    let mut start = 0;
    // SAFETY: the pointer comes with the length of its slice, and the lent number is exclusive.
    let length = unsafe { bucketmonk_faulty_line(text.as_ptr(), text.len(), room[0], room[1], room[2], &mut start) };
    start..start + length
}
