//! The 200 full sets of request R-11: 512 terms, propositions and questions each, with two chains of at least 200 dereferences that E4
//! alone makes equal. They are made from fixed seeds and pinned: `full_sets.txt` has a digest of each set's text.
//!
//! All but two propositions at the ends of the chains hold in a model: a block and a position for each term, and for each address what is
//! read there. The starts of the chains are equal by one proposition. Without it every set is satisfiable; with it a quarter of them are
//! contradictory, in four ways: by a disequality, by two offsets, by two variables, by a block disequality.

use second_solver::support::{Numbers, Set};
use second_solver::tables::{AUXILIARY, BLOCK_DISEQUALITY, DEREFERENCE, DISEQUALITY, EQUALITY, LIMIT, VARIABLE};
use std::collections::HashMap;

pub const COUNT: usize = 200;
/// One set of so many is contradictory.
const PER_CLASH: usize = 4;
/// Least dereferences of a chain.
pub const LEAST: usize = 200;

pub struct Full {
    pub set: Set,
    /// The terms of each chain: its start, and dereferences each of which reads from the term before.
    pub chains: [Vec<usize>; 2],
    /// The number of the proposition by which the starts are equal.
    pub at_starts: usize,
}

/// A block and a position.
type Value = (usize, i64);

/// The model in which the propositions hold, and the terms listed so far.
struct Model {
    r: Numbers,
    set: Set,
    values: Vec<Value>,
    memory: HashMap<Value, Value>,
    blocks: usize,
    /// Terms that are free to be named: neither in a chain nor at its end.
    free: Vec<usize>,
}

/// Blocks that many values share.
const SHARED: usize = 8;

impl Model {
    fn new_block(&mut self) -> usize {
        self.blocks += 1;
        self.blocks - 1
    }

    /// Any value: one time in `new` in a new block, else in one of the first or in that of any term.
    fn any(&mut self, new: usize) -> Value {
        let block = match self.r.below(4) {
            _ if self.r.one_in(new) => self.new_block(),
            0 => self.r.below(self.blocks),
            _ => self.r.below(SHARED),
        };
        (block, 4 * self.r.below(16) as i64)
    }

    fn atom(&mut self, kind: u64) -> usize {
        let value = if kind == VARIABLE { (self.new_block(), 0) } else { self.any(4) };
        self.values.push(value);
        self.set.term(kind, self.set.n, 0)
    }

    fn dereference(&mut self, inner: usize, z: i32) -> usize {
        let (block, position) = self.values[inner];
        let read = self.any(2);
        self.values.push(*self.memory.entry((block, position + i64::from(z))).or_insert(read));
        self.set.term(DEREFERENCE, inner, z)
    }

    /// A further term: an atom, or a dereference of a term listed before, of a chain or not.
    fn further(&mut self) {
        let t = match self.r.below(8) {
            0 => self.atom(VARIABLE),
            1 | 2 => self.atom(AUXILIARY),
            3 => {
                let (inner, z) = (2 + self.r.below(self.set.n - 2), self.r.offset());
                self.dereference(inner, z)
            }
            _ => {
                let (inner, z) = (self.r.one_of(&self.free), 4 * self.r.below(4) as i32);
                self.dereference(inner, z)
            }
        };
        self.free.push(t);
    }

    /// The distance of two terms of one block.
    fn distance(&self, left: usize, right: usize) -> Option<i32> {
        let ((block, position), (other, origin)) = (self.values[left], self.values[right]);
        i32::try_from(position - origin).ok().filter(|_| block == other)
    }

    /// A proposition that holds, of one of four kinds, by these weights.
    fn propose(&mut self, weights: [usize; 4]) {
        let mut choice = self.r.below(weights.iter().sum());
        let kind = weights.iter().position(|&weight| choice < weight || { choice -= weight; false });
        let (left, right) = (self.r.one_of(&self.free), self.r.one_of(&self.free));
        let (any, other) = (self.nameable(), self.nameable());
        match kind.expect("a kind") {
            0 => {
                if let Some(z) = self.distance(left, right) {
                    self.set.proposition(EQUALITY, left, z, right);
                }
            }
            1 => {
                let z = self.r.one_of(&[0, 0, 0, 4, -4, i32::MIN, i32::MAX]);
                if self.distance(any, other) != Some(z) {
                    self.set.proposition(DISEQUALITY, any, z, other);
                }
            }
            2 => {
                if self.values[any].0 != self.values[other].0 {
                    self.set.proposition(BLOCK_DISEQUALITY, any, 0, other);
                }
            }
            _ => match self.r.below(3) {
                0 => self.set.proposition(EQUALITY, left, 0, left),
                1 => self.set.proposition(DISEQUALITY, any, 1, any),
                _ => {
                    // one that is listed, again
                    let again = self.r.one_of(&self.set.tables.propositions);
                    self.set.tables.propositions.push(again);
                    self.set.m += 1;
                }
            },
        }
    }

    /// A free term, or one of a chain.
    fn nameable(&mut self) -> usize {
        if self.r.one_in(2) {
            return self.r.one_of(&self.free);
        }
        // the first two and the last two stand at the ends of the chains
        2 + self.r.below(self.set.n - 4)
    }

    /// The start of a chain, so that the first is z + the second.
    fn start(&mut self, chain: usize, other: Option<usize>, z: i32) -> usize {
        let choice = self.r.below(3);
        let Some(other) = other else {
            return match choice {
                0 => self.atom(AUXILIARY),
                1 => self.atom(VARIABLE),
                _ => {
                    let inner = self.r.one_of(&self.free);
                    self.dereference(inner, 1 << 20)
                }
            };
        };
        let (block, position) = self.values[other];
        let value = (block, if chain == 0 { position + i64::from(z) } else { position - i64::from(z) });
        let inner = self.r.one_of(&self.free);
        let (inner_block, inner_position) = self.values[inner];
        let address = (inner_block, inner_position + (1 << 21));
        if choice == 0 && !self.memory.contains_key(&address) {
            self.memory.insert(address, value);
            return self.dereference(inner, 1 << 21);
        }
        let t = self.atom(AUXILIARY);
        self.values[t] = value;
        t
    }

    /// A question: about terms of one depth in both chains, about free terms, about any, or as a proposition has it.
    fn ask(&mut self, chains: &[Vec<usize>; 2]) {
        let depth = self.r.below(chains[0].len() - 1) + 1;
        let (left, right) = (self.r.one_of(&self.free), self.r.one_of(&self.free));
        let (any, other) = (self.nameable(), self.nameable());
        let small = 4 * self.r.below(9) as i32 - 16;
        match self.r.below(6) {
            0 => self.set.question(chains[0][depth], 0, chains[1][depth]),
            1 => self.set.question(chains[1][depth], small, chains[0][depth]),
            2 => {
                let z = self.distance(left, right).unwrap_or(small);
                self.set.question(left, z, right);
            }
            3 => self.set.question(any, 0, other),
            4 => self.set.question(any, small, other),
            _ => {
                let named = self.r.one_of(&self.set.tables.propositions);
                self.set.question(named.right as usize, named.offset.wrapping_neg() as i32, named.left as usize);
            }
        }
    }
}

/// The distance of the starts, where the first chain's first dereference reads at this offset: the second's reads that much further on.
fn start_distance(r: &mut Numbers, first: i32) -> i32 {
    let z = r.one_of(&[0, 4, -12, i32::MIN, i32::MAX, 1 << 30]);
    if first.checked_add(z).is_some() { z } else { 0 }
}

/// Where a chain reads, by its style.
fn chain_offset(r: &mut Numbers, style: usize) -> i32 {
    match style {
        0 => 0,
        1 => 8,
        2 => 4 * r.below(16) as i32 - 32,
        3 => r.one_of(&[i32::MIN, i32::MAX, -1, 0]),
        _ => r.next() as i32,
    }
}

/// Which chain the next term belongs to, 0 or 1, or 2 for a further term, where so many of each are left.
fn next_in_order(r: &mut Numbers, order: usize, run: &mut usize, left: &[usize; 3]) -> usize {
    let chains = left[0] + left[1];
    let further = match order / 6 % 3 {
        0 => left[2] > 0,
        1 => chains == 0,
        _ => r.below(chains + left[2]) < left[2],
    };
    if further {
        return 2;
    }
    let chain = match order % 6 {
        // one after the other
        0 => 0,
        1 => 1,
        // by turns
        2 => usize::from(left[1] > left[0]),
        3 => usize::from(left[1] >= left[0]),
        // by runs of any length
        4 => {
            *run = if r.one_in(12) { 1 - *run } else { *run };
            *run
        }
        _ => r.below(2),
    };
    if left[chain] > 0 { chain } else { 1 - chain }
}

/// Two propositions at the ends of the chains, `ends` being the last terms and `reads` what is read from them; `atoms` are named by no
/// other. Where they do not clash, they nearly do.
fn at_ends(way: usize, clash: bool, ends: [usize; 2], reads: [usize; 2], atoms: [usize; 2]) -> [(u64, usize, i32, usize); 2] {
    let [a, b] = atoms;
    match (way, clash) {
        (0, _) => [(DISEQUALITY, ends[0], if clash { 0 } else { 4 }, ends[1]), (DISEQUALITY, a, 0, b)],
        (1, _) => [(EQUALITY, reads[0], 4, a), (EQUALITY, reads[1], if clash { 0 } else { 4 }, a)],
        (2, _) => [(EQUALITY, reads[0], 8, a), (EQUALITY, reads[1], 8, if clash { b } else { a })],
        _ => [(BLOCK_DISEQUALITY, ends[0], 0, if clash { ends[1] } else { a }), (BLOCK_DISEQUALITY, a, 0, b)],
    }
}

/// The set of this number.
pub fn full(number: usize) -> Full {
    let mut r = Numbers((number as u64 + 1).wrapping_mul(0x9E37_79B9_7F4A_7C15));
    let (clash, way) = (number % PER_CLASH == PER_CLASH - 1, number / PER_CLASH % 4);
    let (length, order, style) = (LEAST + r.below(26), r.below(18), r.below(5));
    let offsets: Vec<i32> = (0..length).map(|_| chain_offset(&mut r, style)).collect();
    let z = start_distance(&mut r, offsets[0]);
    let mut model = Model { r, set: Set::default(), values: Vec::new(), memory: HashMap::new(), blocks: SHARED, free: Vec::new() };

    let kind = if way == 2 { VARIABLE } else { AUXILIARY };
    let atoms = [model.atom(kind), model.atom(kind)];
    for k in 0..6 {
        let t = model.atom(if k == 5 { VARIABLE } else { AUXILIARY });
        model.free.push(t);
    }
    let mut left = [length + 1, length + 1, LIMIT - model.set.n - 2 * (length + 1) - 2];
    let (mut chains, mut run) = ([Vec::new(), Vec::new()], 0);
    while left != [0; 3] {
        let next = next_in_order(&mut model.r, order, &mut run, &left);
        left[next] -= 1;
        if next == 2 {
            model.further();
            continue;
        }
        let t = match chains[next].last() {
            None => model.start(next, chains[1 - next].first().copied(), z),
            // the starts are z apart, and so are the two offsets from them
            Some(&inner) if chains[next].len() == 1 && next == 1 => model.dereference(inner, offsets[0] + z),
            Some(&inner) => model.dereference(inner, offsets[chains[next].len() - 1]),
        };
        chains[next].push(t);
    }
    let ends = [chains[0][length], chains[1][length]];
    let reads = ends.map(|t| model.dereference(t, 16));

    let weights = model.r.one_of(&[[8, 4, 1, 1], [2, 8, 1, 1], [4, 2, 6, 1], [1, 1, 0, 6], [6, 6, 0, 0], [10, 1, 1, 0]]);
    model.set.proposition(DISEQUALITY, model.free[0], 1, model.free[0]);
    while model.set.m < LIMIT - 3 {
        model.propose(weights);
    }
    for (kind, left, z, right) in at_ends(way, clash, ends, reads, atoms) {
        let at = model.r.below(model.set.m + 1);
        insert(&mut model.set, at, kind, left, z, right);
    }
    let at_starts = model.r.one_of(&[0, 1, 255, 510, 511]);
    insert(&mut model.set, at_starts, EQUALITY, chains[0][0], z, chains[1][0]);

    while model.set.q < LIMIT {
        model.ask(&chains);
    }
    Full { set: model.set, chains, at_starts }
}

/// Lists a proposition before those from this number on.
fn insert(set: &mut Set, at: usize, kind: u64, left: usize, z: i32, right: usize) {
    set.proposition(kind, left, z, right);
    set.tables.propositions[at..].rotate_right(1);
}

/// A digest of a text (FNV-1a).
pub fn digest(text: &[u8]) -> u64 {
    text.iter().fold(0xCBF2_9CE4_8422_2325, |digest, &byte| (digest ^ u64::from(byte)).wrapping_mul(0x100_0000_01B3))
}
