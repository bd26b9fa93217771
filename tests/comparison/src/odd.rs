//! Odd values in every field of every table: at and beside powers of two, and such that only the low bits look good.

use crate::sets;
use second_solver::support::{Numbers, Set};

/// A field of the records of one kind; a question has no kind.
#[derive(Clone, Copy)]
pub struct Field {
    table: usize,
    kind: u64,
    record: &'static str,
    field: &'static str,
}

/// Every field of every kind of record.
pub fn fields() -> Vec<Field> {
    const TERM: &[&str] = &["kind", "number", "offset"];
    const PROPOSITION: &[&str] = &["kind", "left", "offset", "right"];
    const QUESTION: &[&str] = &["left", "offset", "right"];
    let records = [
        (0, 1, "variable", TERM),
        (0, 2, "auxiliary", TERM),
        (0, 3, "dereference", TERM),
        (1, 0x11, "equality", PROPOSITION),
        (1, 0x12, "disequality", PROPOSITION),
        (1, 0x13, "block disequality", PROPOSITION),
        (2, 0, "question", QUESTION),
    ];
    let of = |(table, kind, record, names): (_, _, _, &'static [&str])| names.iter().map(move |field| Field { table, kind, record, field });
    records.into_iter().flat_map(of).collect()
}

impl Field {
    pub fn name(&self) -> String {
        format!("{} {}", self.record, self.field)
    }

    /// The number that a record is refused with where this field alone is out of range.
    pub fn refusal(&self) -> usize {
        match (self.table, self.kind, self.field) {
            (_, _, "kind" | "offset") | (_, 1 | 2, "number") => 9,
            (0, ..) => 4,
            (1, ..) => 6,
            _ => 7,
        }
    }

    /// The records of the kind, by their numbers.
    fn places(&self, set: &Set) -> Vec<usize> {
        match self.table {
            0 => (0..set.tables.terms.len()).filter(|&k| set.tables.terms[k].kind == self.kind).collect(),
            1 => (0..set.tables.propositions.len()).filter(|&k| set.tables.propositions[k].kind == self.kind).collect(),
            _ => (0..set.tables.questions.len()).collect(),
        }
    }

    /// Changes the bits of the field in a record.
    fn change(&self, set: &mut Set, k: usize, to: impl Fn(u64) -> u64) {
        let number = |x: &mut u64| *x = to(*x);
        let offset = |z: &mut i64| *z = to(*z as u64) as i64;
        match (self.table, self.field) {
            (0, "kind") => number(&mut set.tables.terms[k].kind),
            (0, "number") => number(&mut set.tables.terms[k].number),
            (0, _) => offset(&mut set.tables.terms[k].offset),
            (1, "kind") => number(&mut set.tables.propositions[k].kind),
            (1, "left") => number(&mut set.tables.propositions[k].left),
            (1, "right") => number(&mut set.tables.propositions[k].right),
            (1, _) => offset(&mut set.tables.propositions[k].offset),
            (_, "left") => number(&mut set.tables.questions[k].left),
            (_, "right") => number(&mut set.tables.questions[k].right),
            _ => offset(&mut set.tables.questions[k].offset),
        }
    }
}

const POWERS: [u32; 13] = [0, 1, 2, 3, 4, 8, 9, 16, 31, 32, 33, 62, 63];
const WAYS: usize = 9;

/// How many odd values there are.
pub const VALUES: usize = POWERS.len() * WAYS;

/// An odd value by its number, in the place of another value.
fn odd(value: usize, old: u64, any: u64) -> u64 {
    let (power, way) = (1u64 << POWERS[value / WAYS], (value % WAYS) as u64);
    match way {
        0..=2 => power - 1 + way,
        3..=5 => (power - 1 + (way - 3)).wrapping_neg(),
        // the bits below the power stay
        6 => old.wrapping_add(power),
        7 => old.wrapping_sub(power),
        _ => old % power + any / power * power,
    }
}

/// A small set that is acceptable but for an odd value in one field of one record.
pub fn one(r: &mut Numbers, field: Field, value: usize) -> Set {
    loop {
        let mut set = sets::small(r);
        let places = field.places(&set);
        if !places.is_empty() {
            let (k, any) = (places[r.below(places.len())], r.next());
            field.change(&mut set, k, |old| odd(value, old, any));
            return set;
        }
    }
}

/// Puts odd values in up to four fields of a set.
pub fn several(r: &mut Numbers, set: &mut Set) {
    let fields = fields();
    for _ in 0..1 + r.below(4) {
        let field = fields[r.below(fields.len())];
        let places = field.places(set);
        if !places.is_empty() {
            let (k, value, any) = (places[r.below(places.len())], r.below(VALUES), r.next());
            field.change(set, k, |old| odd(value, old, any));
        }
    }
}
