//! The pairs of terms that are different, and the answers to questions.
//!
//! Differences follow equalities, so they are told by classes: a fact
//! (c1, c2, e) says r1 ≠ e + r2 of the two representatives, and t1 is different
//! from z + t2 by it where e = z + offset t2 − offset t1. The terms of a class
//! at one offset are a place, named by the lowest of them; their rows of the
//! pair table are the same.

use crate::closure::Closure;
use crate::distances::Distances;
use crate::Column;
use second_solver::tables::{
    Input, BLOCK_DISEQUALITY, DIFFERENT, DISEQUALITY, EQUAL, LIMIT, NEITHER, VARIABLE,
};

const NONE: u16 = u16::MAX;
const WORDS: usize = LIMIT / 64;

/// A set of terms.
type Mask = [u64; WORDS];

/// Room for the masks of `Differences`, which is not moved: it is large.
pub type Masks = [Column<Mask>; 7];
pub const NO_MASKS: Masks = [[[0; WORDS]; LIMIT]; 7];

fn add(mask: &mut Mask, t: usize) {
    mask[t / 64] |= 1 << (t % 64);
}

fn has(mask: &Mask, t: usize) -> bool {
    mask[t / 64] >> (t % 64) & 1 == 1
}

fn add_all(mask: &mut Mask, other: &Mask) {
    for w in 0..WORDS {
        mask[w] |= other[w];
    }
}

fn without(mask: &Mask, other: &Mask) -> Mask {
    std::array::from_fn(|w| mask[w] & !other[w])
}

/// Slots of the hash tables. Most of what is looked up is not there, so most
/// are empty.
const SLOTS: usize = 8 * LIMIT;

fn slot_of(key: u64) -> usize {
    (key.wrapping_mul(0x9e37_79b9_7f4a_7c15) >> (64 - SLOTS.ilog2())) as usize
}

/// A class and an offset, which takes less than 48 bits, in one number.
fn key_of(class: usize, offset: i64) -> u64 {
    ((class as u64) << 48) | (offset as u64 & ((1 << 48) - 1))
}

pub struct Differences<'a> {
    closure: &'a Closure,
    /// By class: its terms, and those of the classes apart from it.
    members: &'a mut Column<Mask>,
    apart: &'a mut Column<Mask>,
    /// By term: its place.
    place: Column<u16>,
    /// By place: its terms, whether it has one alone, the row of the pair table,
    /// the next place of the class, the first dereference with its value there.
    terms: &'a mut Column<Mask>,
    single: Column<bool>,
    row: &'a mut Column<Mask>,
    next_place: Column<u16>,
    first_read: Column<u16>,
    /// By class: the number of its places, the first after the representative's,
    /// the lowest and the highest offset.
    places: Column<u16>,
    first_place: Column<u16>,
    lowest: Column<i64>,
    highest: Column<i64>,
    /// Places at offsets other than 0, plus one, in open addressing, and their
    /// keys.
    place_slots: [u16; SLOTS],
    place_key: Column<u64>,
    /// One dereference for each address that is read.
    reads: Mask,
    /// By such a dereference: the address, the next with its value at the same
    /// place, and those with which it has been compared.
    address_class: Column<u16>,
    address: Column<i64>,
    next_read: Column<u16>,
    compared: &'a mut Column<Mask>,
    /// By class: the dereferences over it, and those over classes that are
    /// neither it nor apart from it.
    over: &'a mut Column<Mask>,
    others: &'a mut Column<Mask>,
    /// Places with new bits in their rows that may lead to further facts.
    fresh: Mask,
    /// The listed facts, and the slot of each in open addressing.
    listed: [(u16, u16, i64); LIMIT],
    listed_count: usize,
    listed_slots: [u16; SLOTS],
    distances: Distances,
}

impl Differences<'_> {
    /// No differences; all masks are empty.
    #[inline(always)]
    pub fn new<'a>(closure: &'a Closure, masks: &'a mut Masks) -> Differences<'a> {
        let [members, apart, terms, row, compared, over, others] = masks;
        Differences {
            closure,
            members,
            apart,
            place: [0; LIMIT],
            terms,
            single: [false; LIMIT],
            row,
            next_place: [NONE; LIMIT],
            first_read: [NONE; LIMIT],
            places: [0; LIMIT],
            first_place: [NONE; LIMIT],
            lowest: [0; LIMIT],
            highest: [0; LIMIT],
            place_slots: [0; SLOTS],
            place_key: [0; LIMIT],
            reads: [0; WORDS],
            address_class: [0; LIMIT],
            address: [0; LIMIT],
            next_read: [NONE; LIMIT],
            compared,
            over,
            others,
            fresh: [0; WORDS],
            listed: [(0, 0, 0); LIMIT],
            listed_count: 0,
            listed_slots: [0; SLOTS],
            distances: Distances::new(),
        }
    }

    /// Finds all pairs of terms that are different.
    pub fn find(&mut self, input: &Input) {
        self.note_places(input.n);
        self.note_apart(input);
        for p in 0..input.n {
            if usize::from(self.place[p]) == p {
                let c = self.closure.root(p);
                self.row[p] = without(&self.members[c], &self.terms[p]);
                add_all(&mut self.row[p], &self.apart[c]);
            }
        }
        self.note_listed(input);
        let mut w = 0;
        while w < WORDS {
            if self.fresh[w] == 0 {
                w += 1;
                continue;
            }
            while self.fresh[w] != 0 {
                let p = 64 * w + self.fresh[w].trailing_zeros() as usize;
                self.fresh[w] &= self.fresh[w] - 1;
                self.lead_on(p);
            }
            w = 0;
        }
    }

    fn note_places(&mut self, n: usize) {
        for t in 0..n {
            let (c, offset) = (self.closure.root(t), self.closure.offset(t));
            add(&mut self.members[c], t);
            let p = match self.seek(c, offset) {
                Ok(p) => p,
                Err(slot) => {
                    self.place_slots[slot] = t as u16 + 1;
                    self.place_key[t] = key_of(c, offset);
                    self.next_place[t] = std::mem::replace(&mut self.first_place[c], t as u16);
                    self.lowest[c] = self.lowest[c].min(offset);
                    self.highest[c] = self.highest[c].max(offset);
                    t
                }
            };
            self.place[t] = p as u16;
            add(&mut self.terms[p], t);
            self.single[p] = p == t;
            self.places[c] += u16::from(p == t);
        }
        self.distances.number(&self.places[..n]);
    }

    /// The place at an offset of a class, or the slot for it.
    fn seek(&self, c: usize, offset: i64) -> Result<usize, usize> {
        if offset == 0 {
            return Ok(c);
        }
        let key = key_of(c, offset);
        let mut slot = slot_of(key);
        loop {
            match self.place_slots[slot] {
                0 => return Err(slot),
                p if self.place_key[usize::from(p) - 1] == key => return Ok(usize::from(p) - 1),
                _ => slot = (slot + 1) % SLOTS,
            }
        }
    }

    /// Notes the dereferences, and which classes are apart.
    fn note_apart(&mut self, input: &Input) {
        self.note_reads(input);
        let (mut of_variables, mut over_variables) = ([0; WORDS], [0; WORDS]);
        let variables = || (0..input.n).filter(|&t| input.terms[t].kind == VARIABLE);
        for t in variables() {
            let c = self.closure.root(t);
            add_all(&mut of_variables, &self.members[c]);
            add_all(&mut over_variables, &self.over[c]);
        }
        for c in 0..input.n {
            self.others[c] = without(&self.reads, &self.over[c]);
        }
        for t in variables() {
            let c = self.closure.root(t);
            self.apart[c] = without(&of_variables, &self.members[c]);
            self.others[c] = without(&self.reads, &over_variables);
        }
        for record in &input.propositions[..input.m] {
            if record.kind == BLOCK_DISEQUALITY {
                let c1 = self.closure.root(record.left as usize);
                let c2 = self.closure.root(record.right as usize);
                for (c1, c2) in [(c1, c2), (c2, c1)] {
                    add_all(&mut self.apart[c1], &self.members[c2]);
                    self.others[c1] = without(&self.others[c1], &self.over[c2]);
                }
            }
        }
    }

    /// Notes the dereferences, one for each address, and those over each class.
    fn note_reads(&mut self, input: &Input) {
        for c in 0..input.n {
            if self.closure.root(c) != c {
                continue;
            }
            for d in self.closure.reads(c) {
                let record = &input.terms[d];
                self.address_class[d] = c as u16;
                self.address[d] = record.offset + self.closure.offset(record.number as usize);
                let p = usize::from(self.place[d]);
                self.next_read[d] = std::mem::replace(&mut self.first_read[p], d as u16);
                add(&mut self.reads, d);
                add(&mut self.over[c], d);
                add(&mut self.fresh, p);
            }
        }
    }

    /// Learns from the listed disequalities.
    fn note_listed(&mut self, input: &Input) {
        for record in &input.propositions[..input.m] {
            if record.kind != DISEQUALITY {
                continue;
            }
            let (t1, t2) = (record.left as usize, record.right as usize);
            let (c1, c2, e) = self.fact(t1, record.offset, t2);
            if c1 == c2 || has(&self.apart[c1], c2) {
                continue;
            }
            if let Err(slot) = self.seek_listed(c1, c2, e) {
                self.listed[self.listed_count] = (c1 as u16, c2 as u16, e);
                self.listed_count += 1;
                self.listed_slots[slot] = self.listed_count as u16;
                self.learn(c1, c2, e);
            }
        }
    }

    /// What t1 against z + t2 is on classes, the lower class first.
    fn fact(&self, t1: usize, z: i64, t2: usize) -> (usize, usize, i64) {
        let (c1, c2) = (self.closure.root(t1), self.closure.root(t2));
        let e = z + self.closure.offset(t2) - self.closure.offset(t1);
        if c1 <= c2 {
            (c1, c2, e)
        } else {
            (c2, c1, -e)
        }
    }

    /// Whether the fact is listed; if not, the slot for it.
    fn seek_listed(&self, c1: usize, c2: usize, e: i64) -> Result<(), usize> {
        let mut slot = slot_of(key_of(c1, e).wrapping_add((c2 as u64) << 39));
        loop {
            match self.listed_slots[slot] {
                0 => return Err(slot),
                k if self.listed[usize::from(k) - 1] == (c1 as u16, c2 as u16, e) => return Ok(()),
                _ => slot = (slot + 1) % SLOTS,
            }
        }
    }

    /// Draws conclusions from the row of a place: where the values of two
    /// dereferences are different, so are their addresses.
    fn lead_on(&mut self, p: usize) {
        let mut a = self.first_read[p];
        while a != NONE {
            let d1 = usize::from(a);
            let (c1, address) = (usize::from(self.address_class[d1]), self.address[d1]);
            // the pair is found from its lower dereference
            let mut above = u64::MAX << (d1 % 64) << 1;
            for w in d1 / 64..WORDS {
                let known = self.others[c1][w] & !self.compared[d1][w];
                let mut new = self.row[p][w] & known & above;
                above = u64::MAX;
                self.compared[d1][w] |= new;
                while new != 0 {
                    let d2 = 64 * w + new.trailing_zeros() as usize;
                    new &= new - 1;
                    let c2 = usize::from(self.address_class[d2]);
                    self.learn(c1, c2, self.address[d2] - address);
                }
            }
            a = self.next_read[d1];
        }
    }

    /// Tells the pairs of places that are different by a fact on two classes,
    /// which are neither the same nor apart.
    fn learn(&mut self, c1: usize, c2: usize, e: i64) {
        if self.places[c1] == 1 {
            if let Some(p2) = self.place_at(c2, e) {
                self.tell(c1, p2);
            }
        } else if self.places[c2] == 1 {
            if let Some(p1) = self.place_at(c1, -e) {
                self.tell(p1, c2);
            }
        } else if self.lowest[c2] - self.highest[c1] <= e && e <= self.highest[c2] - self.lowest[c1]
        {
            self.follow(c1, c2, e);
        }
    }

    fn place_at(&self, c: usize, offset: i64) -> Option<usize> {
        if self.places[c] == 1 {
            (offset == 0).then_some(c)
        } else {
            self.seek(c, offset).ok()
        }
    }

    /// As `learn`, where both classes have several places. Pairs at one distance
    /// are told together.
    fn follow(&mut self, c1: usize, c2: usize, e: i64) {
        if c1 > c2 {
            return self.follow(c2, c1, -e);
        }
        if let Some(table) = self.distances.table(c1, c2) {
            let mut pair = self.distances.pair(table, e, None);
            while let Some(of) = pair {
                if !self.tell(of.first.into(), of.second.into()) {
                    return;
                }
                pair = self.distances.pair(table, e, pair);
            }
            return;
        }
        let swapped = self.places[c1] > self.places[c2];
        let (few, many, e) = if swapped { (c2, c1, -e) } else { (c1, c2, e) };
        let (mut p1, mut steps) = (few, 1);
        loop {
            if let Some(p2) = self.place_at(many, self.closure.offset(p1) + e) {
                if !self.tell(p1, p2) {
                    break;
                }
            }
            let Some(next) = self.next_place(few, p1) else {
                break;
            };
            (p1, steps) = (next, steps + 1);
        }
        let pairs = usize::from(self.places[c1]) * usize::from(self.places[c2]);
        if self.distances.count(c1, c2, steps, pairs) {
            self.tabulate(c1, c2);
        }
    }

    /// Fills the table of two classes.
    fn tabulate(&mut self, c1: usize, c2: usize) {
        let mut first = Some(c1);
        while let Some(p1) = first {
            let mut second = Some(c2);
            while let Some(p2) = second {
                let distance = self.closure.offset(p2) - self.closure.offset(p1);
                self.distances.add(distance, p1, p2);
                second = self.next_place(c2, p2);
            }
            first = self.next_place(c1, p1);
        }
    }

    /// The place of a class after this one. The first is the representative's.
    fn next_place(&self, c: usize, p: usize) -> Option<usize> {
        let next = if p == c {
            self.first_place[c]
        } else {
            self.next_place[p]
        };
        (next != NONE).then_some(next.into())
    }

    /// The terms at two places are different; false if that was known.
    fn tell(&mut self, p1: usize, p2: usize) -> bool {
        if has(&self.row[p1], p2) {
            return false;
        }
        for (p1, p2) in [(p1, p2), (p2, p1)] {
            if self.single[p2] {
                add(&mut self.row[p1], p2);
            } else {
                add_all(&mut self.row[p1], &self.terms[p2]);
            }
        }
        if self.first_read[p1] != NONE && self.first_read[p2] != NONE {
            add(&mut self.fresh, p1);
            add(&mut self.fresh, p2);
        }
        true
    }

    /// Writes the pair bits: row i begins at bit i × n.
    pub fn write_pairs(&self, n: usize, bytes: &mut [u8]) {
        let mut bits = Bits {
            bytes,
            at: 0,
            held: 0,
            count: 0,
        };
        for t in 0..n {
            let row = &self.row[usize::from(self.place[t])];
            for &word in &row[..n / 64] {
                bits.push(word, 64);
            }
            if n % 64 > 0 {
                bits.push(row[n / 64], n % 64);
            }
        }
        bits.end();
    }

    pub fn answer(&self, input: &Input, answers: &mut [u8]) {
        for (record, answer) in input.questions.iter().zip(answers) {
            let (t1, z, t2) = (record.left as usize, record.offset, record.right as usize);
            let (c1, c2, e) = self.fact(t1, z, t2);
            let different = if c1 == c2 {
                e != 0
            } else if z == 0 || has(&self.apart[c1], c2) {
                has(&self.row[usize::from(self.place[t1])], t2)
            } else {
                self.is_fact(c1, c2, e)
            };
            *answer = match different {
                true => DIFFERENT,
                false if c1 == c2 => EQUAL,
                false => NEITHER,
            };
        }
    }

    /// Whether a fact is listed, or the values at two addresses so far apart
    /// are different.
    fn is_fact(&self, c1: usize, c2: usize, e: i64) -> bool {
        self.seek_listed(c1, c2, e).is_ok()
            || self.closure.reads(c1).any(|d1| {
                let other = self.closure.read_at(c2, self.address[d1] + e);
                other.is_some_and(|d2| has(&self.row[usize::from(self.place[d1])], d2))
            })
    }
}

/// Bits written one after another.
struct Bits<'a> {
    bytes: &'a mut [u8],
    /// Bytes written so far, and bits that are not yet.
    at: usize,
    held: u64,
    count: usize,
}

impl Bits<'_> {
    /// Writes the low bits of a word, whose other bits are 0.
    fn push(&mut self, word: u64, count: usize) {
        self.held |= word << self.count;
        if self.count + count < 64 {
            self.count += count;
            return;
        }
        self.bytes[self.at..self.at + 8].copy_from_slice(&self.held.to_le_bytes());
        self.at += 8;
        self.held = if self.count == 0 {
            0
        } else {
            word >> (64 - self.count)
        };
        self.count = self.count + count - 64;
    }

    fn end(self) {
        let rest = &mut self.bytes[self.at..];
        rest.copy_from_slice(&self.held.to_le_bytes()[..rest.len()]);
    }
}
