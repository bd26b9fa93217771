//! Random sets, whole and damaged, and full sets of several kinds.

use second_solver::support::{mixed, Numbers, Set};
use std::collections::HashMap;

fn kind_of_proposition(r: &mut Numbers) -> u64 {
    [0x11, 0x11, 0x11, 0x12, 0x12, 0x13][r.below(6)]
}

fn propose(r: &mut Numbers, set: &mut Set, count: usize) {
    for _ in 0..count {
        let kind = kind_of_proposition(r);
        let offset = if kind == 0x13 { 0 } else { r.offset() };
        let (left, right) = (r.below(set.n), r.below(set.n));
        set.proposition(kind, left, offset, right);
    }
}

fn ask(r: &mut Numbers, set: &mut Set, count: usize) {
    for _ in 0..count {
        let (left, offset, right) = (r.below(set.n), r.offset(), r.below(set.n));
        set.question(left, offset, right);
    }
}

/// A small set: atoms and dereferences, few propositions and questions.
pub fn small(r: &mut Numbers) -> Set {
    let mut set = Set::default();
    let terms = r.below(10);
    let mut atoms = 0;
    for _ in 0..terms {
        if set.n > 0 && !r.one_in(3) {
            let (inner, offset) = (r.below(set.n), r.offset());
            set.term(3, inner, offset);
        } else {
            let kind = if r.one_in(4) { 1 } else { 2 };
            set.term(kind, atoms, 0);
            atoms += if r.one_in(3) { 4096 } else { 1 };
        }
    }
    if set.n > 0 {
        let count = r.below(8);
        propose(r, &mut set, count);
        let count = r.below(8);
        ask(r, &mut set, count);
    }
    set
}

fn cut<A>(r: &mut Numbers, table: &mut Vec<A>) {
    if r.one_in(2) {
        table.pop();
    } else {
        table.clear();
    }
}

fn too_many(r: &mut Numbers) -> usize {
    [513, 514, 515, 65_536, 1 << 32, usize::MAX][r.below(6)]
}

/// Damages a set in one place; some damages leave it acceptable.
pub fn damage(r: &mut Numbers, set: &mut Set) {
    match r.below(13) {
        0 => set.n = too_many(r),
        1 => set.m = too_many(r),
        2 => set.q = too_many(r),
        3 => cut(r, &mut set.tables.terms),
        4 => cut(r, &mut set.tables.propositions),
        5 => cut(r, &mut set.tables.questions),
        6 => {
            let k = r.below(5);
            set.missing[k] = if r.one_in(2) { 1 } else { usize::MAX };
        }
        7 if set.n > 0 => {
            let k = r.below(set.n);
            set.tables.terms[k].kind = r.next() % 5;
        }
        8 if set.n > 0 => {
            let k = r.below(set.n);
            set.tables.terms[k].number = if r.one_in(2) { r.below(set.n + 1) } else { 65_535 + r.below(2) } as u64;
        }
        9 if set.n > 0 => {
            let k = r.below(set.n);
            set.tables.terms[k].offset = r.offset().into();
        }
        10 if set.m > 0 => {
            let k = r.below(set.m);
            match r.below(4) {
                0 => set.tables.propositions[k].kind = 0x10 + r.below(5) as u64,
                1 => set.tables.propositions[k].left = set.n as u64,
                2 => set.tables.propositions[k].right = r.next(),
                _ => set.tables.propositions[k].offset = r.offset().into(),
            }
        }
        11 if set.q > 0 => {
            let k = r.below(set.q);
            if r.one_in(2) {
                set.tables.questions[k].left = set.n as u64;
            } else {
                set.tables.questions[k].right = r.next();
            }
        }
        _ if set.n > 1 => {
            let (from, to) = (r.below(set.n), r.below(set.n));
            set.tables.terms[to] = set.tables.terms[from];
        }
        _ => {}
    }
}

/// Two chains of dereferences whose starts are equal, so that E4 alone makes the rest equal.
pub fn chains(size: usize) -> Set {
    let mut set = Set::default();
    let (mut a, mut b) = (set.term(2, 0, 0), set.term(2, 1, 0));
    set.proposition(0x11, a, 0, b);
    while set.n + 1 < size {
        a = set.term(3, a, 8);
        b = set.term(3, b, 8);
    }
    set
}

/// As `chains`, each chain also tied to the other through an earlier term.
pub fn tied_chains(size: usize) -> Set {
    let mut set = Set::default();
    let length = size / 4;
    let first: Vec<usize> = (0..length).map(|k| set.term(2, k, 0)).collect();
    let second: Vec<usize> = (0..length).map(|k| set.term(2, length + k, 0)).collect();
    let read_first: Vec<usize> = first.iter().rev().map(|t| (*t, set.term(3, *t, 0)).1).collect();
    let read_second: Vec<usize> = second.iter().rev().map(|t| (*t, set.term(3, *t, 0)).1).collect();
    set.proposition(0x11, first[0], 0, second[0]);
    for k in 1..length {
        set.proposition(0x11, first[k], 4, read_first[length - k]);
        set.proposition(0x11, second[k], 4, read_second[length - k]);
    }
    set
}

/// A contradictory cycle of 100 atoms after two chains: the cycle ends a verdict early, and each set without one of its equalities does
/// not.
pub fn cycle_beside_chains(size: usize) -> Set {
    let atoms = 100;
    let mut set = chains(size - atoms);
    let first = set.n;
    for k in 0..atoms {
        set.term(2, 2 + k, 0);
    }
    for k in 1..atoms {
        set.proposition(0x11, first + k - 1, 4, first + k);
    }
    set.proposition(0x11, first, 0, first + atoms - 1);
    set
}

/// Classes of four terms, with disequalities between them.
pub fn classes(r: &mut Numbers, size: usize) -> Set {
    let mut set = Set::default();
    for k in 0..size {
        set.term(if k % 8 == 0 { 1 } else { 2 }, k, 0);
    }
    for k in 0..size {
        if k % 4 != 0 && set.m < 512 {
            set.proposition(0x11, k, 4, k - 1);
        }
    }
    while set.m < size {
        let (left, right) = (r.below(size), r.below(size));
        if left / 4 != right / 4 {
            let offset = r.offset();
            set.proposition(0x12, left, offset, right);
        }
    }
    set
}

/// One class of all terms, at the ends of the range of offsets.
pub fn one_class(size: usize) -> Set {
    let mut set = Set::default();
    for k in 0..size {
        set.term(2, k, 0);
        if k > 0 {
            set.proposition(0x11, k, i32::MIN, k - 1);
        }
    }
    set
}

/// What holds in a random model: a block and a position for each atom, and for each address what is read there. About half of
/// the propositions are equalities.
pub fn model(r: &mut Numbers, size: usize) -> Set {
    let blocks = size / 16;
    let mut set = Set::default();
    let (mut values, mut memory) = (Vec::new(), HashMap::new());
    for k in 0..size {
        let any = (r.below(blocks), 4 * r.below(8) as i32);
        values.push(if k < blocks {
            set.term(1, k, 0);
            (k, 0)
        } else if r.one_in(4) {
            set.term(2, k, 0);
            any
        } else {
            let (inner, offset) = (r.below(k), 4 * r.below(4) as i32);
            set.term(3, inner, offset);
            let (block, position): (usize, i32) = values[inner];
            *memory.entry((block, position + offset)).or_insert(any)
        });
    }
    while set.m < size {
        let (left, right) = (r.below(size), r.below(size));
        let distance = values[left].1 - values[right].1;
        if values[left].0 == values[right].0 {
            set.proposition(0x11, left, distance, right);
        } else if r.one_in(2 * blocks) {
            set.proposition(0x12, left, distance, right);
        } else if r.one_in(2 * blocks) {
            set.proposition(0x13, left, 0, right);
        }
    }
    set
}

/// Atoms joined in a star, each read: all read one address.
pub fn star(size: usize) -> Set {
    let mut set = Set::default();
    let atoms = size / 2;
    for k in 0..atoms {
        set.term(2, k, 0);
        if k > 0 {
            set.proposition(0x11, k, 4 * k as i32, 0);
        }
    }
    for k in 0..atoms {
        set.term(3, k, -4 * k as i32);
    }
    set
}

/// Atoms, each read, where each read is the atom before. The last two atoms are equal, and E4 leads back from them to the first.
pub fn leading_back(size: usize) -> Set {
    let mut set = Set::default();
    let atoms = size / 2;
    for k in 0..atoms {
        set.term(2, k, 0);
    }
    for k in 0..atoms {
        let read = set.term(3, k, 0);
        if k > 0 {
            set.proposition(0x11, read, 0, k - 1);
        }
    }
    set.proposition(0x11, atoms - 1, 0, atoms - 2);
    set
}

/// Atoms, each read, and as many disequalities as terms.
pub fn disequalities(r: &mut Numbers, size: usize) -> Set {
    let mut set = Set::default();
    for k in 0..size / 2 {
        set.term(2, k, 0);
    }
    for k in 0..size / 2 {
        set.term(3, k, 0);
    }
    while set.m < size {
        let (left, offset, right) = (r.below(size), 4 * r.below(4) as i32, r.below(size));
        if left != right {
            set.proposition(0x12, left, offset, right);
        }
    }
    set
}

/// Dereferences of two atoms, each listed twice. Each first listing is tied to the second listing before it, so that E4 makes one class
/// of them.
pub fn listed_twice(size: usize) -> Set {
    let mut set = Set::default();
    set.term(2, 0, 0);
    set.term(2, 1, 0);
    while set.n + 1 < size {
        let (atom, offset) = (set.n / 2 % 2, 4 * set.n as i32);
        let listing = set.term(3, atom, offset);
        set.term(3, atom, offset);
        if listing > 2 {
            set.proposition(0x11, listing, 4, listing - 1);
        }
    }
    set
}

/// As `listed_twice`, closed to a contradictory cycle.
pub fn listed_twice_in_a_cycle(size: usize) -> Set {
    let mut set = listed_twice(size);
    set.proposition(0x11, 2, 0, set.n - 1);
    set
}

/// Two equal atoms, each read at the same offsets, whose searches in the closure's table of addresses all start at one slot.
pub fn one_slot(size: usize) -> Set {
    let mut set = Set::default();
    set.term(2, 0, 0);
    set.term(2, 1, 0);
    let offsets: Vec<u32> = (0..).filter(|&offset| first_slot(offset) == 0).take(size / 2 - 1).collect();
    for atom in 0..2 {
        for &offset in &offsets {
            set.term(3, atom, offset as i32);
        }
    }
    set.proposition(0x11, 0, 0, 1);
    set
}

/// The slot at which the closure starts to look for the address at an offset of class 0, from 0 to 2^31.
fn first_slot(offset: u32) -> u64 {
    let product = u64::from(offset) * 2246822519;
    ((product ^ (product >> 32)) & 0xFFFF_FFFF) >> 20
}

/// Variables, each apart from one auxiliary of its own too.
pub fn apart_from_one(size: usize) -> Set {
    let mut set = Set::default();
    for k in 0..size {
        set.term(if k < size / 2 { 1 } else { 2 }, k, 0);
    }
    for k in 0..size / 2 {
        set.proposition(0x13, k, 0, size / 2 + k);
    }
    set
}

/// Variables, each read at three offsets, into one class: all values are different, and lead to nothing, as the variables are apart.
pub fn variables_read(size: usize) -> Set {
    let mut set = Set::default();
    let variables = size / 4;
    for k in 0..variables {
        set.term(1, k, 0);
    }
    for k in 0..size - variables {
        let read = set.term(3, k % variables, 8 * (k / variables) as i32);
        if k > 0 {
            set.proposition(0x11, read, 4, read - 1);
        }
    }
    set
}

/// Variables, each apart from one auxiliary of its own too, and all of these read into one class: no two variables are apart from the same.
pub fn apart_from_one_read(size: usize) -> Set {
    let mut set = Set::default();
    let variables = size / 4;
    for k in 0..2 * variables {
        set.term(if k < variables { 1 } else { 2 }, k, 0);
    }
    for k in 0..variables {
        set.proposition(0x13, k, 0, variables + k);
    }
    for k in 0..size - 2 * variables {
        let read = set.term(3, k % (2 * variables), 0);
        if k > 0 {
            set.proposition(0x11, read, 4, read - 1);
        }
    }
    set
}

/// Two classes of two points each, read at many offsets into one class: all values are different, and next to none leads on.
pub fn two_points_read(size: usize) -> Set {
    let mut set = Set::default();
    for k in 0..4 {
        set.term(2, k, 0);
    }
    set.proposition(0x11, 2, 4, 0);
    set.proposition(0x11, 3, 12, 1);
    for k in 0..size - 4 {
        let read = set.term(3, k % 2, 64 * k as i32);
        if k > 0 {
            set.proposition(0x11, read, 4, read - 1);
        }
    }
    set
}

/// Random terms and propositions, contradictory as a rule.
pub fn tangle(r: &mut Numbers, size: usize) -> Set {
    let mut set = Set::default();
    for k in 0..size {
        if k > 0 && !r.one_in(3) {
            let (inner, offset) = (r.below(k), r.offset());
            set.term(3, inner, offset);
        } else {
            set.term(if r.one_in(6) { 1 } else { 2 }, k, 0);
        }
    }
    propose(r, &mut set, size);
    set
}

// Sets in which differences lead on: from what is read to addresses, and along equalities

/// Two chains of dereferences with a disequality at their ends, from which the difference walks down to their starts. Each dereference
/// is listed so many times.
pub fn walked_chains(size: usize, times: usize) -> Set {
    let mut set = Set::default();
    let (mut a, mut b) = (set.term(2, 0, 0), set.term(2, 1, 0));
    while set.n + 2 * times <= size {
        let (inner_a, inner_b) = (a, b);
        for _ in 0..times {
            a = set.term(3, inner_a, 8);
            b = set.term(3, inner_b, 8);
        }
    }
    set.proposition(0x12, a, 0, b);
    set
}

/// As `walked_chains`, each dereference reading from an atom that is equal to the one before it, so that the difference goes on from the
/// atoms along equalities. It ends where the offsets of the two atoms are not the same, which they are not in one step of `broken`.
pub fn chains_through_atoms(r: &mut Numbers, size: usize, broken: usize) -> Set {
    let mut set = Set::default();
    let (mut a, mut b) = (set.term(2, 0, 0), set.term(2, 1, 0));
    while set.n + 4 <= size {
        let (offset, other) = (4 * r.below(4) as i32, if r.one_in(broken) { 4 } else { 0 });
        let (through_a, through_b) = (set.term(2, set.n, 0), set.term(2, set.n + 1, 0));
        set.proposition(0x11, through_a, offset, a);
        set.proposition(0x11, through_b, offset + other, b);
        a = set.term(3, through_a, 8);
        b = set.term(3, through_b, 8);
    }
    set.proposition(0x12, a, 0, b);
    set
}

/// Two arrays, where what is read lies at regular offsets in the classes of the two: p_i = *(8 (i + 1) + p) = 8 i + p and q_j = *(8 j + q)
/// = 8 j + q. Each distance between p and q leads to the one that is lower by 8.
pub fn two_arrays(size: usize) -> Set {
    let mut set = Set::default();
    let (p, q) = (set.term(2, 0, 0), set.term(2, 1, 0));
    let length = (size as i32 - 2) / 2;
    for k in 0..length {
        let (of_p, of_q) = (set.term(3, p, 8 * (k + 1)), set.term(3, q, 8 * k));
        set.proposition(0x11, of_p, 8 * k, p);
        set.proposition(0x11, of_q, 8 * k, q);
    }
    set.proposition(0x12, p, 8 * (length - 1), q);
    set
}

/// Dereferences over one class at many offsets, with disequalities between what they read.
pub fn one_class_read(r: &mut Numbers, size: usize) -> Set {
    let mut set = Set::default();
    let atoms = size / 4;
    for k in 0..atoms {
        set.term(2, k, 0);
        if k > 0 {
            set.proposition(0x11, k, 4 * k as i32, 0);
        }
    }
    for k in atoms..size {
        let inner = r.below(atoms);
        set.term(3, inner, (8 * k) as i32 - (4 * inner) as i32);
    }
    while set.m < size {
        let (left, right) = (atoms + r.below(size - atoms), atoms + r.below(size - atoms));
        if left != right {
            set.proposition(0x12, left, 0, right);
        }
    }
    set
}

/// Few classes, each of one dereference that is listed again and again, and as many disequalities between them as terms.
pub fn listed_again(r: &mut Numbers, size: usize, classes: usize) -> Set {
    let mut set = Set::default();
    for k in 0..classes {
        set.term(2, k, 0);
    }
    for k in classes..size {
        set.term(3, k % classes, 0);
    }
    while set.m < size {
        let (left, right) = (classes + r.below(size - classes), classes + r.below(size - classes));
        let offset = 4 * r.below(size) as i32 - 2 * size as i32;
        if left % classes != right % classes {
            set.proposition(0x12, left, offset, right);
        }
    }
    set
}

/// Few classes of atoms at random offsets, with disequalities between them. The atoms are read. A quarter of the propositions or more are
/// disequalities.
pub fn few_classes(r: &mut Numbers, size: usize, classes: usize) -> Set {
    let mut set = Set::default();
    let atoms = size / 2;
    for k in 0..atoms {
        set.term(2, k, 0);
        if k >= classes {
            let offset = 4 * r.below(size) as i32;
            set.proposition(0x11, k, offset, k % classes);
        }
    }
    for k in atoms..size {
        let offset = 4 * r.below(size) as i32;
        set.term(3, k - atoms, offset);
    }
    while set.m < size {
        let (left, right) = (r.below(atoms), r.below(atoms));
        let offset = 4 * r.below(size) as i32 - 2 * size as i32;
        if left % classes != right % classes {
            set.proposition(0x12, left, offset, right);
        }
    }
    set
}

/// Two classes of atoms at random offsets, each read, where all that is read lies in a third class, at offsets of its own: each two that
/// are read tell a distance between the classes. With a wide `gap` between addresses few distances are the same.
pub fn read_into_one_class(r: &mut Numbers, size: usize, gap: usize) -> Set {
    let mut set = Set::default();
    let atoms = size / 2;
    let offsets: Vec<usize> = (0..atoms).map(|k| if k < 2 { 0 } else { r.below(size * gap) }).collect();
    for (k, &offset) in offsets.iter().enumerate() {
        set.term(2, k, 0);
        if k >= 2 {
            set.proposition(0x11, k, offset as i32, k % 2);
        }
    }
    for (k, &offset) in offsets.iter().enumerate() {
        let address = k * gap + r.below(gap);
        let read = set.term(3, k, address as i32 - offset as i32);
        if k > 0 {
            set.proposition(0x11, read, k as i32, atoms);
        }
    }
    set
}

/// A set of one of these families in turn, where differences meet again: few classes, few offsets.
fn leading(r: &mut Numbers, k: usize, size: usize) -> Set {
    let range = 1 + r.below(8.max(size / 8));
    let disequalities = 1 + r.below(8);
    match k % 6 {
        0 => mixed(r, size, 2, range, disequalities),
        1 => mixed(r, size, 3, range, disequalities),
        2 => mixed(r, size, 2 + size / 32, range, 4 * disequalities),
        3 => chains_through_atoms(r, size, 4 + size / 8),
        4 => two_arrays(size),
        _ => read_into_one_class(r, size, 1 + range / 4),
    }
}

/// How many small and full sets are compared.
pub const LEADING_SMALL: usize = 6_000;
pub const LEADING_FULL: usize = 60;

/// A small set in which differences lead on, with questions at small offsets. In one of 16 a last equality is added, which may be a
/// contradiction.
pub fn leading_small(r: &mut Numbers, k: usize) -> Set {
    let size = 6 + r.below(20);
    let mut set = leading(r, k, size);
    if r.one_in(16) {
        let (left, offset, right) = (r.below(set.n), r.below(4) as i32, r.below(set.n));
        set.proposition(0x11, left, offset, right);
    }
    for _ in 0..24 {
        let (left, offset, right) = (r.below(set.n), r.below(17) as i32 - 8, r.below(set.n));
        set.question(left, offset, right);
    }
    set
}

/// A full set in which differences lead on.
pub fn leading_full(r: &mut Numbers, k: usize) -> Set {
    let mut set = leading(r, k, 512);
    while set.q < 512 {
        let (left, offset, right) = (r.below(set.n), r.below(2049) as i32 - 1024, r.below(set.n));
        set.question(left, offset, right);
    }
    set
}

/// Fills a set's questions up to `size`.
pub fn questions(r: &mut Numbers, set: &mut Set, size: usize) {
    let count = size - set.q;
    ask(r, set, count);
}

/// As many terms, propositions and questions as `size`, of the longest lines: dereferences after one atom, or atoms alone.
pub fn long_lines(r: &mut Numbers, size: usize, atoms: bool) -> Set {
    let mut set = Set::default();
    for k in 0..size {
        if atoms || k == 0 {
            set.term(2, k, 0);
        } else {
            let offset = r.offset();
            set.term(3, k - 1, offset);
        }
    }
    for _ in 0..size {
        let (left, offset, right) = (r.below(size), r.offset(), r.below(size));
        set.proposition(0x12, left, offset, right);
    }
    questions(r, &mut set, size);
    set
}
