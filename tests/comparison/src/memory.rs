//! Memory for calls: arrays and tables to lend, and copies of them that end at a closed page, so that a read or a write past the end of
//! one ends the process.

use crate::proved::Room;
use second_solver::memory::Memory;
use second_solver::reader::Tables;
use second_solver::support::{Numbers, MOST};
use second_solver::tables::{pair_bytes, Input, Lent, Proposition, Question, Term};
use std::ffi::c_void;

/// Cells before each lent array.
pub const GUARD: usize = 3;

/// So many cells of each array to lend, after cells that are not lent, with any content.
pub fn guarded(r: &mut Numbers, cells: [usize; 5]) -> Memory {
    Memory::new(cells.map(|n| n + GUARD), || r.next())
}

/// Tables of so many records with any content.
pub fn any_tables(r: &mut Numbers, room: [usize; 3]) -> Tables {
    let mut tables = Tables::default();
    tables.terms.resize_with(room[0], || Term { kind: r.next(), number: r.next(), offset: r.next() as i64 });
    tables.propositions.resize_with(room[1], || Proposition { kind: r.next(), left: r.next(), offset: r.next() as i64, right: r.next() });
    tables.questions.resize_with(room[2], || Question { left: r.next(), offset: r.next() as i64, right: r.next() });
    tables
}

extern "C" {
    fn mmap(address: *mut c_void, length: usize, protection: i32, flags: i32, file: i32, offset: i64) -> *mut c_void;
    fn mprotect(address: *mut c_void, length: usize, protection: i32) -> i32;
}

const PAGE: usize = 4096;
const CLOSED: i32 = 0;
const READ_AND_WRITE: i32 = 3;
const PRIVATE_AND_ANONYMOUS: i32 = 0x22;

/// Cells before a closed page.
struct Pages<T> {
    end: *mut T,
    cells: usize,
}

impl<T: Copy> Pages<T> {
    fn new(cells: usize) -> Pages<T> {
        let bytes = (cells * size_of::<T>()).next_multiple_of(PAGE);
        // SAFETY: the mapping is new, and no slice reaches into its last page.
        let end = unsafe {
            let start = mmap(std::ptr::null_mut(), bytes + PAGE, READ_AND_WRITE, PRIVATE_AND_ANONYMOUS, -1, 0);
            assert_ne!(start as isize, -1, "no pages");
            let end = start.byte_add(bytes);
            assert_eq!(mprotect(end, PAGE, CLOSED), 0);
            end.cast()
        };
        Pages { end, cells }
    }

    /// A copy of the cells, the last one right before the closed page.
    fn hold(&mut self, cells: &[T]) -> &mut [T] {
        assert!(cells.len() <= self.cells);
        // SAFETY: the cells before `end` are mapped, aligned as `end` is, and borrowed with `self`.
        let held = unsafe { std::slice::from_raw_parts_mut(self.end.sub(cells.len()), cells.len()) };
        held.copy_from_slice(cells);
        held
    }
}

/// Pages for all that a call is given.
pub struct Held {
    text: Pages<u8>,
    terms: Pages<Term>,
    propositions: Pages<Proposition>,
    questions: Pages<Question>,
    representatives: Pages<u32>,
    offsets: Pages<i64>,
    marks: Pages<u8>,
    pair_bits: Pages<u8>,
    answers: Pages<u8>,
}

impl Default for Held {
    fn default() -> Held {
        let most = 2 * MOST;
        Held {
            text: Pages::new(65_536),
            terms: Pages::new(most),
            propositions: Pages::new(most),
            questions: Pages::new(most),
            representatives: Pages::new(most),
            offsets: Pages::new(most),
            marks: Pages::new(most),
            pair_bits: Pages::new(pair_bytes(most)),
            answers: Pages::new(most),
        }
    }
}

impl Held {
    /// A call of a solver on copies of the tables and the memory. Returns its result and whether the tables are unchanged.
    pub fn solve<A>(&mut self, input: &Input, memory: &mut Memory, call: impl FnOnce(&Input, &mut Lent) -> A) -> (A, bool) {
        let terms = &*self.terms.hold(input.terms);
        let propositions = &*self.propositions.hold(input.propositions);
        let questions = &*self.questions.hold(input.questions);
        let representatives = self.representatives.hold(&memory.representatives);
        let offsets = self.offsets.hold(&memory.offsets);
        let marks = self.marks.hold(&memory.marks);
        let pair_bits = self.pair_bits.hold(&memory.pair_bits);
        let answers = self.answers.hold(&memory.answers);
        let mut lent = Lent {
            representatives: &mut representatives[GUARD..],
            offsets: &mut offsets[GUARD..],
            marks: &mut marks[GUARD..],
            pair_bits: &mut pair_bits[GUARD..],
            answers: &mut answers[GUARD..],
        };
        let result = call(&Input { terms, propositions, questions, ..*input }, &mut lent);
        memory.representatives.copy_from_slice(representatives);
        memory.offsets.copy_from_slice(offsets);
        memory.marks.copy_from_slice(marks);
        memory.pair_bits.copy_from_slice(pair_bits);
        memory.answers.copy_from_slice(answers);
        (result, (terms, propositions, questions) == (input.terms, input.propositions, input.questions))
    }

    /// A call of a reader on copies of the text and the tables. Returns its result and whether the text is unchanged.
    pub fn read<A>(&mut self, text: &[u8], tables: &mut Tables, call: impl FnOnce(&[u8], &mut Room) -> A) -> (A, bool) {
        let held = &*self.text.hold(text);
        let terms = self.terms.hold(&tables.terms);
        let propositions = self.propositions.hold(&tables.propositions);
        let questions = self.questions.hold(&tables.questions);
        let result = call(held, &mut Room { terms, propositions, questions });
        tables.terms.copy_from_slice(terms);
        tables.propositions.copy_from_slice(propositions);
        tables.questions.copy_from_slice(questions);
        (result, held == text)
    }
}
