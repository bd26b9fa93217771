//! The rival gives what the second solver gives without blame.

use second_solver::memory::Memory;
use second_solver::support::{mixed, Numbers, Set};
use second_solver::tables::{self, Blame};

fn compare(r: &mut Numbers, set: &Set) {
    let before = Memory::new(set.cells(2), || r.next());
    let (mut left, mut right) = (before.clone(), before);
    let ours = rival::solve(&set.input(), &mut left.lent());
    let theirs = tables::solve(&set.input(), Blame::NotAsked, &mut right.lent());
    assert_eq!((ours, &left), (theirs, &right), "{set:?}");
    assert_eq!(
        rival::verdict(&set.input()),
        tables::verdict_only(&set.input())
    );
}

/// Terms, propositions and questions drawn at random. Most offsets are small.
fn any(r: &mut Numbers, terms: usize) -> Set {
    let mut set = Set::default();
    let offset = |r: &mut Numbers| {
        if r.one_in(8) {
            r.offset()
        } else {
            r.below(5) as i32 - 2
        }
    };
    for k in 0..terms {
        if k > 0 && !r.one_in(3) {
            let (inner, z) = (r.below(k), offset(r));
            set.term(3, inner, z);
        } else {
            set.term(if r.one_in(4) { 1 } else { 2 }, k, 0);
        }
    }
    for _ in 0..if terms > 0 { r.below(terms) } else { 0 } {
        let kind = r.one_of(&[0x11, 0x11, 0x12, 0x12, 0x13]);
        let z = if kind == 0x13 { 0 } else { offset(r) };
        let (left, right) = (r.below(terms), r.below(terms));
        set.proposition(kind, left, z, right);
    }
    for _ in 0..if terms > 0 { 2 * terms } else { 0 } {
        let (left, z, right) = (r.below(terms), offset(r), r.below(terms));
        set.question(left, z, right);
    }
    set
}

#[test]
fn on_small_sets() {
    let mut r = Numbers(1);
    for _ in 0..50_000 {
        let terms = r.below(16);
        let set = any(&mut r, terms);
        compare(&mut r, &set);
    }
}

#[test]
fn on_sets_of_every_size() {
    let mut r = Numbers(2);
    for size in 2..256 {
        let set = mixed(&mut r, size, 1 + size / 20, 1 + size / 8, size / 4);
        compare(&mut r, &set);
    }
}

#[test]
fn on_full_sets() {
    let mut r = Numbers(3);
    for k in 0..60 {
        let (blocks, range) = (2 + k % 20, [64, 4096, 1 << 20][k % 3]);
        let mut set = mixed(&mut r, 512, blocks, range, 32);
        while set.q < 512 {
            let (left, z, right) = (r.below(512), r.below(64) as i32 - 32, r.below(512));
            set.question(left, z, right);
        }
        compare(&mut r, &set);
    }
}
