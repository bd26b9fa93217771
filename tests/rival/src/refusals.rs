//! What is refused: numbers and places.

use second_solver::tables::{
    pair_bytes, Input, Lent, Outcome, AUXILIARY, BLOCK_DISEQUALITY, DEREFERENCE, DISEQUALITY,
    EQUALITY, LIMIT, VARIABLE,
};

fn refused(number: u8, place: usize) -> Option<Outcome> {
    let place = place as u16;
    Some(Outcome::Refused { number, place })
}

/// Counts above the limit, and tables that are too short.
pub fn of_tables(input: &Input) -> Option<Outcome> {
    for (number, count) in [(1, input.n), (2, input.m), (3, input.q)] {
        if count > LIMIT {
            return refused(number, LIMIT);
        }
    }
    let short = input.terms.len() < input.n
        || input.propositions.len() < input.m
        || input.questions.len() < input.q;
    short.then(|| refused(8, 0)).flatten()
}

/// Lent memory that is too short.
pub fn of_lent(input: &Input, lent: &Lent) -> Option<Outcome> {
    let short = lent.representatives.len() < input.n
        || lent.offsets.len() < input.n
        || lent.marks.len() < input.m
        || lent.pair_bits.len() < pair_bytes(input.n)
        || lent.answers.len() < input.q;
    short.then(|| refused(8, 0)).flatten()
}

fn in_range(offset: i64) -> bool {
    offset == i64::from(offset as i32)
}

/// Faulty records. The tables are long enough.
pub fn of_records(input: &Input) -> Option<Outcome> {
    let n = input.n as u64;
    let mut atoms = Atoms([0; SLOTS]);
    for (t, record) in input.terms[..input.n].iter().enumerate() {
        match record.kind {
            DEREFERENCE if !in_range(record.offset) => return refused(9, t),
            DEREFERENCE if record.number >= t as u64 => return refused(4, t),
            DEREFERENCE => {}
            VARIABLE | AUXILIARY if record.number < 1 << 16 && record.offset == 0 => {
                if !atoms.add((record.kind << 16 | record.number) as u32) {
                    return refused(5, t);
                }
            }
            _ => return refused(9, t),
        }
    }
    for (p, record) in input.propositions[..input.m].iter().enumerate() {
        let formed = match record.kind {
            EQUALITY | DISEQUALITY => in_range(record.offset),
            BLOCK_DISEQUALITY => record.offset == 0,
            _ => false,
        };
        if !formed {
            return refused(9, p);
        }
        if record.left >= n || record.right >= n {
            return refused(6, p);
        }
    }
    for (k, record) in input.questions[..input.q].iter().enumerate() {
        if !in_range(record.offset) {
            return refused(9, k);
        }
        if record.left >= n || record.right >= n {
            return refused(7, k);
        }
    }
    None
}

const SLOTS: usize = 2 * LIMIT;

/// The atoms listed so far, in a hash table. No atom is 0, an empty slot.
struct Atoms([u32; SLOTS]);

impl Atoms {
    /// False if the atom is there already.
    fn add(&mut self, atom: u32) -> bool {
        let mut slot = (atom.wrapping_mul(0x9e37_79b1) >> 22) as usize;
        while self.0[slot] != 0 {
            if self.0[slot] == atom {
                return false;
            }
            slot = (slot + 1) % SLOTS;
        }
        self.0[slot] = atom;
        true
    }
}
