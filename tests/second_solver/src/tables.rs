//! The table level: tables of records in, lent memory out.

use std::collections::HashMap;
use std::hash::{BuildHasherDefault, Hasher};
use std::ops::Range;

/// Most records a table may have.
pub const LIMIT: usize = 512;

/// Kinds of term records.
pub const VARIABLE: u64 = 1;
pub const AUXILIARY: u64 = 2;
pub const DEREFERENCE: u64 = 3;

/// Kinds of proposition records.
pub const EQUALITY: u64 = 0x11;
pub const DISEQUALITY: u64 = 0x12;
pub const BLOCK_DISEQUALITY: u64 = 0x13;

/// Values of an answer byte.
pub const NEITHER: u8 = 0;
pub const EQUAL: u8 = 1;
pub const DIFFERENT: u8 = 2;
pub const CONTRADICTORY: u8 = 3;

/// A record of the table of terms. The three records have their fields laid
/// out as in C, for the comparison with a library for C.
#[repr(C)]
#[derive(Clone, Copy, Debug, Default, PartialEq, Eq)]
pub struct Term {
    pub kind: u64,
    /// Atom number, or for a dereference the number of the term inside.
    pub number: u64,
    /// The z of a dereference; 0 for an atom.
    pub offset: i64,
}

/// A record of the table of propositions.
#[repr(C)]
#[derive(Clone, Copy, Debug, Default, PartialEq, Eq)]
pub struct Proposition {
    pub kind: u64,
    pub left: u64,
    /// 0 for a block disequality.
    pub offset: i64,
    pub right: u64,
}

/// A record of the table of questions.
#[repr(C)]
#[derive(Clone, Copy, Debug, Default, PartialEq, Eq)]
pub struct Question {
    pub left: u64,
    pub offset: i64,
    pub right: u64,
}

/// The three input tables. The counts are given apart from the tables, which
/// may be longer than their count; a shorter one is refused.
#[derive(Clone, Copy, Debug)]
pub struct Input<'a> {
    /// Number of terms.
    pub n: usize,
    /// Number of propositions.
    pub m: usize,
    /// Number of questions.
    pub q: usize,
    pub terms: &'a [Term],
    pub propositions: &'a [Proposition],
    pub questions: &'a [Question],
}

/// The lent memory. Slices may be longer than needed; cells beyond the needed
/// ones are never touched.
#[derive(Debug)]
pub struct Lent<'a> {
    pub representatives: &'a mut [u32],
    pub offsets: &'a mut [i64],
    pub marks: &'a mut [u8],
    pub pair_bits: &'a mut [u8],
    pub answers: &'a mut [u8],
}

/// Whether the caller asks for the blame of a contradiction.
#[derive(Clone, Copy, Debug, PartialEq, Eq)]
pub enum Blame {
    Asked,
    NotAsked,
}

#[derive(Clone, Copy, Debug, PartialEq, Eq)]
pub enum Outcome {
    Satisfiable,
    Contradiction,
    Refused { number: u8, place: u16 },
}

/// Number of bytes of the pair bits of n terms.
pub fn pair_bytes(n: usize) -> usize {
    (n * n).div_ceil(8)
}

/// The verdict alone. Refusals are those of `solve` where no memory is lent.
pub fn verdict_only(input: &Input) -> Outcome {
    if let Some(refused) = check_counts(input)
        .or_else(|| check_tables(input))
        .or_else(|| check_records(input))
    {
        return refused;
    }
    let mut closure = Closure::new(input);
    if closure.consistent(input, &vec![true; input.m]) {
        Outcome::Satisfiable
    } else {
        Outcome::Contradiction
    }
}

/// Solves the set and fills the lent memory. On contradiction all marks are 0
/// unless blame is asked for.
pub fn solve(input: &Input, blame: Blame, lent: &mut Lent) -> Outcome {
    if let Some(refused) = check_counts(input)
        .or_else(|| check_tables(input))
        .or_else(|| check_lent(input, lent))
        .or_else(|| check_records(input))
    {
        return refused;
    }
    let (n, m, q) = (input.n, input.m, input.q);
    let mut closure = Closure::new(input);
    let mut kept = vec![true; m];
    if closure.consistent(input, &kept) {
        let classes = Classes::new(input, &closure);
        lent.representatives[..n].copy_from_slice(&classes.representative);
        lent.offsets[..n].copy_from_slice(&classes.offset);
        lent.marks[..m].fill(0);
        let differences = Differences::new(input, &classes);
        let bytes = &mut lent.pair_bits[..pair_bytes(n)];
        for (byte, pairs) in bytes.iter_mut().zip(differences.pairs.chunks(8)) {
            *byte = pairs
                .iter()
                .rev()
                .fold(0, |byte, &set| byte << 1 | set as u8);
        }
        differences.answer(input, &mut lent.answers[..q]);
        Outcome::Satisfiable
    } else {
        if blame == Blame::Asked {
            for p in (0..m).rev() {
                kept[p] = false;
                if closure.consistent(input, &kept) {
                    kept[p] = true;
                }
            }
        } else {
            kept.fill(false);
        }
        for t in 0..n {
            lent.representatives[t] = t as u32;
            lent.offsets[t] = 0;
        }
        for p in 0..m {
            lent.marks[p] = kept[p] as u8;
        }
        lent.pair_bits[..pair_bytes(n)].fill(0);
        lent.answers[..q].fill(CONTRADICTORY);
        Outcome::Contradiction
    }
}

// Refusals

fn refused(number: u8, place: usize) -> Option<Outcome> {
    Some(Outcome::Refused {
        number,
        place: place as u16,
    })
}

fn check_counts(input: &Input) -> Option<Outcome> {
    for (number, count) in [(1, input.n), (2, input.m), (3, input.q)] {
        if count > LIMIT {
            return refused(number, LIMIT);
        }
    }
    None
}

fn check_tables(input: &Input) -> Option<Outcome> {
    let short = input.terms.len() < input.n
        || input.propositions.len() < input.m
        || input.questions.len() < input.q;
    if short {
        refused(8, 0)
    } else {
        None
    }
}

fn check_lent(input: &Input, lent: &Lent) -> Option<Outcome> {
    let short = lent.representatives.len() < input.n
        || lent.offsets.len() < input.n
        || lent.marks.len() < input.m
        || lent.pair_bits.len() < pair_bytes(input.n)
        || lent.answers.len() < input.q;
    if short {
        refused(8, 0)
    } else {
        None
    }
}

/// Whether an offset takes no more than the signed 32-bit range.
fn in_range(offset: i64) -> bool {
    (-2_147_483_648..=2_147_483_647).contains(&offset)
}

fn check_records(input: &Input) -> Option<Outcome> {
    let n = input.n as u64;
    // Atoms listed so far, one bit per kind and number.
    let mut listed = vec![0u64; 2 * 65536 / 64];
    for (t, record) in input.terms[..input.n].iter().enumerate() {
        match record.kind {
            VARIABLE | AUXILIARY => {
                if record.number > 65535 || record.offset != 0 {
                    return refused(9, t);
                }
                let bit = ((record.kind - VARIABLE) * 65536 + record.number) as usize;
                if listed[bit / 64] >> (bit % 64) & 1 == 1 {
                    return refused(5, t);
                }
                listed[bit / 64] |= 1 << (bit % 64);
            }
            DEREFERENCE => {
                if !in_range(record.offset) {
                    return refused(9, t);
                }
                if record.number >= t as u64 {
                    return refused(4, t);
                }
            }
            _ => return refused(9, t),
        }
    }
    for (p, record) in input.propositions[..input.m].iter().enumerate() {
        let formed = match record.kind {
            EQUALITY | DISEQUALITY => in_range(record.offset),
            BLOCK_DISEQUALITY => record.offset == 0,
            _ => false,
        };
        if !formed {
            return refused(9, p);
        }
        if record.left >= n || record.right >= n {
            return refused(6, p);
        }
    }
    for (k, record) in input.questions[..input.q].iter().enumerate() {
        if !in_range(record.offset) {
            return refused(9, k);
        }
        if record.left >= n || record.right >= n {
            return refused(7, k);
        }
    }
    None
}

// Congruence closure

/// A multiplicative hasher for small integer keys.
#[derive(Default)]
struct KeyHasher(u64);

impl KeyHasher {
    fn mix(&mut self, value: u64) {
        self.0 = (self.0.rotate_left(5) ^ value).wrapping_mul(0x517c_c1b7_2722_0a95);
    }
}

impl Hasher for KeyHasher {
    fn finish(&self) -> u64 {
        self.0 ^ (self.0 >> 32)
    }
    fn write(&mut self, bytes: &[u8]) {
        for &b in bytes {
            self.mix(b as u64);
        }
    }
    fn write_u32(&mut self, value: u32) {
        self.mix(value as u64);
    }
    fn write_i64(&mut self, value: i64) {
        self.mix(value as u64);
    }
}

type Transitions = HashMap<(u32, i64), u32, BuildHasherDefault<KeyHasher>>;

const NONE: u32 = u32::MAX;

/// A term that is a dereference: the term inside and z.
fn dereference(input: &Input, t: usize) -> Option<(usize, i64)> {
    let record = &input.terms[t];
    if record.kind == DEREFERENCE {
        Some((record.number as usize, record.offset))
    } else {
        None
    }
}

/// Classes of terms with offsets, closed under congruence. Every term t holds
/// its root directly, with t ≡ offset[t] + root[t]. A join relabels the
/// smaller class. The members of a class and the dereferences over its members
/// are linked lists. `transitions` maps (root, z + offset of the inner term)
/// to one dereference over that class; entries under a former root stay behind
/// and are never looked up again.
struct Closure {
    root: Vec<u32>,
    offset: Vec<i64>,
    size: Vec<u32>,
    next_member: Vec<u32>,
    last_member: Vec<u32>,
    first_use: Vec<u32>,
    last_use: Vec<u32>,
    next_use: Vec<u32>,
    transitions: Transitions,
    pending: Vec<(u32, i64, u32)>,
    /// Per root: whether the class has the address of a variable.
    has_variable: Vec<bool>,
}

impl Closure {
    fn new(input: &Input) -> Closure {
        let n = input.n;
        Closure {
            root: vec![0; n],
            offset: vec![0; n],
            size: vec![0; n],
            next_member: vec![NONE; n],
            last_member: vec![0; n],
            first_use: vec![NONE; n],
            last_use: vec![NONE; n],
            next_use: vec![NONE; n],
            transitions: HashMap::with_capacity_and_hasher(2 * n, Default::default()),
            pending: Vec::new(),
            has_variable: vec![false; n],
        }
    }

    /// Every term alone in its class; a dereference listed again is pending.
    fn reset(&mut self, input: &Input) {
        for t in 0..input.n {
            self.root[t] = t as u32;
            self.last_member[t] = t as u32;
        }
        self.offset.fill(0);
        self.size.fill(1);
        self.next_member.fill(NONE);
        self.first_use.fill(NONE);
        self.last_use.fill(NONE);
        self.next_use.fill(NONE);
        self.transitions.clear();
        self.pending.clear();
        self.has_variable.fill(false);
        for d in 0..input.n {
            if let Some((inner, z)) = dereference(input, d) {
                self.append_use(inner, d as u32, d as u32);
                self.size[inner] += 1;
                self.enter(inner as u32, z, d as u32);
            }
        }
    }

    /// Appends a list of dereferences to those over the class of `root`.
    fn append_use(&mut self, root: usize, first: u32, last: u32) {
        if self.first_use[root] == NONE {
            self.first_use[root] = first;
        } else {
            self.next_use[self.last_use[root] as usize] = first;
        }
        self.last_use[root] = last;
    }

    /// Enters d as the dereference at (root, z); if there is one already, the
    /// two are equal at 0 by E4.
    fn enter(&mut self, root: u32, z: i64, d: u32) {
        let first = *self.transitions.entry((root, z)).or_insert(d);
        if first != d {
            self.pending.push((d, 0, first));
        }
    }

    /// Adds t1 ≡ z + t2 and all that follows by E4. Returns false where some
    /// term would be equal to itself at an offset other than 0.
    fn add(&mut self, input: &Input, t1: u32, z: i64, t2: u32) -> bool {
        self.pending.push((t1, z, t2));
        self.drain(input)
    }

    fn drain(&mut self, input: &Input) -> bool {
        while let Some((t1, z, t2)) = self.pending.pop() {
            if !self.join(input, t1 as usize, z, t2 as usize) {
                return false;
            }
        }
        true
    }

    fn join(&mut self, input: &Input, t1: usize, z: i64, t2: usize) -> bool {
        let (r1, r2) = (self.root[t1] as usize, self.root[t2] as usize);
        // t1 ≡ z + t2 reads r1 ≡ shift + r2.
        let shift = z + self.offset[t2] - self.offset[t1];
        if r1 == r2 {
            return shift == 0;
        }
        if self.size[r1] <= self.size[r2] {
            self.move_class(input, r1, shift, r2);
        } else {
            self.move_class(input, r2, -shift, r1);
        }
        true
    }

    /// Moves the class of root `from` into that of root `to`, where
    /// from ≡ shift + to.
    fn move_class(&mut self, input: &Input, from: usize, shift: i64, to: usize) {
        let mut t = from as u32;
        while t != NONE {
            self.root[t as usize] = to as u32;
            self.offset[t as usize] += shift;
            t = self.next_member[t as usize];
        }
        self.next_member[self.last_member[to] as usize] = from as u32;
        self.last_member[to] = self.last_member[from];
        self.size[to] += self.size[from];

        let first = self.first_use[from];
        let mut d = first;
        while d != NONE {
            let (inner, z) =
                dereference(input, d as usize).expect("only dereferences are in a list of uses");
            self.enter(to as u32, z + self.offset[inner], d);
            d = self.next_use[d as usize];
        }
        if first != NONE {
            self.append_use(to, first, self.last_use[from]);
        }
    }

    /// Closes the kept propositions; false on contradiction.
    fn consistent(&mut self, input: &Input, kept: &[bool]) -> bool {
        self.reset(input);
        if !self.drain(input) {
            return false;
        }
        for (record, &kept) in input.propositions.iter().zip(kept) {
            if kept && record.kind == EQUALITY {
                let (t1, t2) = (record.left as u32, record.right as u32);
                if !self.add(input, t1, record.offset, t2) {
                    return false;
                }
            }
        }
        for t in 0..input.n {
            if input.terms[t].kind == VARIABLE {
                let class = self.root[t] as usize;
                if self.has_variable[class] {
                    return false;
                }
                self.has_variable[class] = true;
            }
        }
        for (record, &kept) in input.propositions.iter().zip(kept) {
            if !kept || record.kind == EQUALITY {
                continue;
            }
            let (t1, t2) = (record.left as usize, record.right as usize);
            if self.root[t1] == self.root[t2]
                && (record.kind == BLOCK_DISEQUALITY
                    || self.offset[t1] - self.offset[t2] == record.offset)
            {
                return false;
            }
        }
        true
    }
}

// What a satisfiable set leaves

/// The classes of a satisfiable set, by lowest-numbered representatives.
struct Classes {
    representative: Vec<u32>,
    /// t ≡ offset[t] + representative[t].
    offset: Vec<i64>,
    /// Number of the class of each term, from 0.
    class: Vec<usize>,
    count: usize,
}

impl Classes {
    fn new(input: &Input, closure: &Closure) -> Classes {
        let n = input.n;
        let mut lowest = vec![NONE; n];
        let mut number = vec![0usize; n];
        let mut representative = Vec::with_capacity(n);
        let mut offset = Vec::with_capacity(n);
        let mut class = Vec::with_capacity(n);
        let mut count = 0;
        for t in 0..n {
            let root = closure.root[t] as usize;
            if lowest[root] == NONE {
                lowest[root] = t as u32;
                number[root] = count;
                count += 1;
            }
            let low = lowest[root];
            representative.push(low);
            offset.push(closure.offset[t] - closure.offset[low as usize]);
            class.push(number[root]);
        }
        Classes {
            representative,
            offset,
            class,
            count,
        }
    }

    /// For each ordered pair of classes SAME, APART or 0.
    fn between(&self, input: &Input) -> Vec<u16> {
        let mut between = vec![0; self.count * self.count];
        let variables: Vec<usize> = (0..input.n)
            .filter(|&t| input.terms[t].kind == VARIABLE)
            .map(|t| self.class[t])
            .collect();
        for &c1 in &variables {
            for &c2 in &variables {
                between[c1 * self.count + c2] = APART;
            }
        }
        for record in &input.propositions[..input.m] {
            if record.kind == BLOCK_DISEQUALITY {
                let c1 = self.class[record.left as usize];
                let c2 = self.class[record.right as usize];
                between[c1 * self.count + c2] = APART;
                between[c2 * self.count + c1] = APART;
            }
        }
        for c in 0..self.count {
            between[c * self.count + c] = SAME;
        }
        between
    }
}

/// What is known of a pair of classes; a number from TABLED to below APART is
/// TABLED + that of its table, and a lower one how many distances were learnt.
const SAME: u16 = u16::MAX;
const APART: u16 = u16::MAX - 1;
const TABLED: u16 = 1 << 15;

/// A search among the points of a class takes about so many steps.
const SEARCH: usize = 8;

/// The terms of one class at one offset, and what the dereferences among them
/// read.
struct Point {
    offset: i64,
    terms: Range<usize>,
    reads: Range<usize>,
}

/// Some dereference reads `address` + the representative of `class`, and its
/// value is at `point`, in class `value`. The fields are in the order in which
/// reads are sorted.
#[derive(Clone, PartialEq, Eq, PartialOrd, Ord)]
struct Read {
    point: usize,
    value: usize,
    class: usize,
    address: i64,
}

/// All pairs of points of two classes by their distance: the first pair of each
/// slot, and each with the next of its slot.
struct Table {
    first: Vec<u32>,
    pairs: Vec<(u16, u16, u32)>,
    shift: u32,
}

impl Table {
    fn slot(&self, d: i64) -> usize {
        ((d as u64).wrapping_mul(0x9e37_79b9_7f4a_7c15) >> self.shift) as usize
    }
}

/// All differences. As they follow equalities, those between two classes are
/// told by distances d, where the representatives r1 and r2 satisfy r1 ≠ d + r2:
/// t1 is different from z + t2 if it is so for d = z + offset t2 − offset t1
/// (the sign as the scope paper corrects it). Inside a class and between
/// classes that are apart, none is learnt, since all that can be are known.
struct Differences<'a> {
    classes: &'a Classes,
    /// At i × n + j: term i is different from 0 + term j.
    pairs: Vec<bool>,
    between: Vec<u16>,
    /// Whether the distance is learnt, by pair of classes c1 × count + c2,
    /// c1 < c2. Those of questions are here from the start, and all that are
    /// learnt within the span of the points until the classes have a table.
    distances: HashMap<(u32, i64), bool, BuildHasherDefault<KeyHasher>>,
    tables: Vec<Table>,
    /// The last distance that was learnt; often it is learnt again at once.
    last: (usize, i64),
    /// Pairs of points whose terms are different, but what follows for the
    /// addresses that they read is not learnt yet.
    pending: Vec<(usize, usize)>,
    /// Terms by class and offset.
    terms: Vec<usize>,
    points: Vec<Point>,
    /// The points of each class, by offset.
    of_class: Vec<Range<usize>>,
    reads: Vec<Read>,
}

impl Differences<'_> {
    fn new<'a>(input: &Input, classes: &'a Classes) -> Differences<'a> {
        let mut all = Differences {
            classes,
            pairs: Vec::with_capacity(input.n * input.n),
            between: classes.between(input),
            distances: HashMap::default(),
            tables: Vec::new(),
            last: (usize::MAX, 0),
            pending: Vec::new(),
            terms: (0..input.n).collect(),
            points: Vec::new(),
            of_class: Vec::with_capacity(classes.count),
            reads: Vec::new(),
        };
        all.note_pairs(input.n);
        all.note_points(input);
        for record in &input.questions[..input.q] {
            let (t1, t2) = (record.left as usize, record.right as usize);
            if let Some(key) = all.key(t1, record.offset, t2) {
                all.distances.insert(key, false);
            }
        }
        for record in &input.propositions[..input.m] {
            if record.kind == DISEQUALITY {
                let (t1, t2) = (record.left as usize, record.right as usize);
                let d = record.offset + classes.offset[t2] - classes.offset[t1];
                all.learn(classes.class[t1], classes.class[t2], d);
            }
        }
        all.learn_from_classes();
        while let Some((p1, p2)) = all.pending.pop() {
            for k in all.points[p1].reads.clone() {
                for l in all.points[p2].reads.clone() {
                    let (x, y) = (&all.reads[k], &all.reads[l]);
                    all.learn(x.class, y.class, y.address - x.address);
                }
            }
        }
        all
    }

    /// The pairs of terms that are different by their classes alone.
    fn note_pairs(&mut self, n: usize) {
        let Classes {
            class,
            offset,
            count,
            ..
        } = self.classes;
        for i in 0..n {
            let row = &self.between[class[i] * count..][..*count];
            self.pairs.extend((0..n).map(|j| match row[class[j]] {
                SAME => offset[i] != offset[j],
                between => between == APART,
            }));
        }
    }

    fn note_points(&mut self, input: &Input) {
        let Classes { class, offset, .. } = self.classes;
        self.terms.sort_unstable_by_key(|&t| (class[t], offset[t]));
        for (k, &t) in self.terms.iter().enumerate() {
            if self.of_class.len() == class[t] {
                self.of_class.push(self.points.len()..self.points.len());
            }
            let points = &mut self.of_class[class[t]];
            if points.start == points.end || self.points[points.end - 1].offset != offset[t] {
                points.end += 1;
                self.points.push(Point {
                    offset: offset[t],
                    terms: k..k,
                    reads: 0..0,
                });
            }
            let point = self.points.len() - 1;
            self.points[point].terms.end = k + 1;
            if let Some((inner, z)) = dereference(input, t) {
                self.reads.push(Read {
                    point,
                    value: class[t],
                    class: class[inner],
                    address: z + offset[inner],
                });
            }
        }
        self.reads.sort_unstable();
        self.reads.dedup();
        let mut start = 0;
        for (point, of_point) in self.points.iter_mut().enumerate() {
            let reads = self.reads[start..].iter();
            let end = start + reads.take_while(|read| read.point == point).count();
            of_point.reads = start..end;
            start = end;
        }
    }

    /// What two reads tell whose values are different by their classes alone.
    fn learn_from_classes(&mut self) {
        let count = self.classes.count;
        let mut by_class = self.reads.clone();
        by_class.sort_by_key(|read| read.class);
        let of_class: Vec<&[Read]> = by_class.chunk_by(|x, y| x.class == y.class).collect();
        for (k, reads1) in of_class.iter().enumerate() {
            for reads2 in &of_class[k + 1..] {
                if self.between[reads1[0].class * count + reads2[0].class] == APART {
                    continue;
                }
                for x in *reads1 {
                    for y in *reads2 {
                        let different = match self.between[x.value * count + y.value] {
                            SAME => x.point != y.point,
                            between => between == APART,
                        };
                        if different {
                            self.learn(x.class, y.class, y.address - x.address);
                        }
                    }
                }
            }
        }
    }

    /// r1 ≠ d + r2 for the representatives of the two classes.
    fn learn(&mut self, c1: usize, c2: usize, d: i64) {
        if c1 > c2 {
            return self.learn(c2, c1, -d);
        }
        let pair = c1 * self.classes.count + c2;
        if self.last == (pair, d) || self.between[pair] >= APART {
            return;
        }
        self.last = (pair, d);
        let first = |c: usize| self.points[self.of_class[c].start].offset;
        let last = |c: usize| self.points[self.of_class[c].end - 1].offset;
        let in_span = first(c2) - last(c1) <= d && d <= last(c2) - first(c1);
        let key = (pair as u32, d);
        if self.between[pair] < TABLED && in_span {
            if !std::mem::replace(self.distances.entry(key).or_insert(false), true) {
                self.follow(c1, c2, d);
            }
        } else {
            if let Some(learnt) = self.distances.get_mut(&key) {
                *learnt = true;
            }
            if in_span {
                self.follow_in_table(usize::from(self.between[pair] - TABLED), d);
            }
        }
    }

    /// Moves r1 ≠ d + r2 to the terms of the two classes.
    fn follow(&mut self, c1: usize, c2: usize, d: i64) {
        let (points1, points2) = (self.of_class[c1].clone(), self.of_class[c2].clone());
        let (m1, m2) = (points1.len(), points2.len());
        let steps = (SEARCH * m1.min(m2)).min(m1 + m2);
        if SEARCH * m1 < m2 {
            for p1 in points1 {
                if let Some(p2) = self.point(c2, self.points[p1].offset + d) {
                    self.tell(p1, p2);
                }
            }
        } else if SEARCH * m2 < m1 {
            for p2 in points2 {
                if let Some(p1) = self.point(c1, self.points[p2].offset - d) {
                    self.tell(p1, p2);
                }
            }
        } else {
            let mut p2 = points2.start;
            for p1 in points1 {
                let offset = self.points[p1].offset + d;
                while p2 < points2.end && self.points[p2].offset < offset {
                    p2 += 1;
                }
                if p2 < points2.end && self.points[p2].offset == offset {
                    self.tell(p1, p2);
                }
            }
        }
        // A table takes about 4 steps for each pair of points; it is made once
        // as many have been taken without it.
        let between = &mut self.between[c1 * self.classes.count + c2];
        *between = (*between + 1).min(TABLED - 1);
        let room = self.tables.len() < usize::from(APART - TABLED);
        if usize::from(*between) * steps > 4 * m1 * m2 && room {
            *between = TABLED + self.tables.len() as u16;
            self.tabulate(c1, c2);
        }
    }

    fn point(&self, c: usize, offset: i64) -> Option<usize> {
        let range = self.of_class[c].clone();
        let found = self.points[range.clone()].binary_search_by_key(&offset, |p| p.offset);
        found.ok().map(|k| range.start + k)
    }

    fn distance(&self, p1: usize, p2: usize) -> i64 {
        self.points[p2].offset - self.points[p1].offset
    }

    fn tabulate(&mut self, c1: usize, c2: usize) {
        let (points1, points2) = (self.of_class[c1].clone(), self.of_class[c2].clone());
        let bits = (2 * points1.len() * points2.len()).ilog2();
        let mut table = Table {
            first: vec![NONE; 1 << bits],
            pairs: Vec::with_capacity(points1.len() * points2.len()),
            shift: 64 - bits,
        };
        for p1 in points1 {
            for p2 in points2.clone() {
                let slot = table.slot(self.distance(p1, p2));
                let next = std::mem::replace(&mut table.first[slot], table.pairs.len() as u32);
                table.pairs.push((p1 as u16, p2 as u16, next));
            }
        }
        self.tables.push(table);
    }

    fn follow_in_table(&mut self, table: usize, d: i64) {
        let mut k = self.tables[table].first[self.tables[table].slot(d)];
        while k != NONE {
            let (p1, p2, next) = self.tables[table].pairs[k as usize];
            let (p1, p2) = (p1.into(), p2.into());
            // Pairs at one distance are told together.
            if self.distance(p1, p2) == d && !self.tell(p1, p2) {
                return;
            }
            k = next;
        }
    }

    /// Terms at the two points are different; false if that was known.
    fn tell(&mut self, p1: usize, p2: usize) -> bool {
        let n = self.terms.len();
        let (of_p1, of_p2) = (&self.points[p1], &self.points[p2]);
        if self.pairs[self.terms[of_p1.terms.start] * n + self.terms[of_p2.terms.start]] {
            return false;
        }
        for &t1 in &self.terms[of_p1.terms.clone()] {
            for &t2 in &self.terms[of_p2.terms.clone()] {
                self.pairs[t1 * n + t2] = true;
                self.pairs[t2 * n + t1] = true;
            }
        }
        if of_p1.reads.start < of_p1.reads.end && of_p2.reads.start < of_p2.reads.end {
            self.pending.push((p1, p2));
        }
        true
    }

    /// Where t1 against z + t2 stands in `distances`; none inside a class and
    /// between classes that are apart.
    fn key(&self, t1: usize, z: i64, t2: usize) -> Option<(u32, i64)> {
        let Classes {
            class,
            offset,
            count,
            ..
        } = self.classes;
        let (c1, c2) = (class[t1], class[t2]);
        let d = z + offset[t2] - offset[t1];
        match self.between[c1 * count + c2] {
            SAME | APART => None,
            _ if c1 < c2 => Some(((c1 * count + c2) as u32, d)),
            _ => Some(((c2 * count + c1) as u32, -d)),
        }
    }

    fn answer(&self, input: &Input, answers: &mut [u8]) {
        let Classes { class, offset, .. } = self.classes;
        for (record, answer) in input.questions.iter().zip(answers) {
            let (t1, z, t2) = (record.left as usize, record.offset, record.right as usize);
            *answer = match self.key(t1, z, t2) {
                None if class[t1] == class[t2] && offset[t1] - offset[t2] == z => EQUAL,
                Some(key) if !self.distances[&key] => NEITHER,
                _ => DIFFERENT,
            };
        }
    }
}
