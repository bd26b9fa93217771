//! Sets in which differences lead on: in many of them a pair of terms is different only because derived differences follow equalities.

use comparison::sets;
use second_solver::memory::Memory;
use second_solver::support::{Numbers, Set};
use second_solver::tables::{solve, Blame, Outcome, DEREFERENCE, DISEQUALITY};
use std::collections::HashSet;

/// The pairs that are different if listed disequalities alone follow equalities. A dereference has a higher number than the term inside,
/// so one pass from the highest numbers down settles each pair before it is used. The set has no variables and no block disequalities.
fn pairs_of_listed(set: &Set, memory: &Memory) -> Vec<bool> {
    let (n, root, offset) = (set.n, &memory.representatives, &memory.offsets);
    let mut listed = HashSet::new();
    for p in set.tables.propositions.iter().filter(|p| p.kind == DISEQUALITY) {
        let (t1, t2) = (p.left as usize, p.right as usize);
        let z = p.offset + offset[t2] - offset[t1];
        listed.extend([(root[t1], z, root[t2]), (root[t2], -z, root[t1])]);
    }
    let mut pairs = vec![false; n * n];
    for i in (0..n).rev() {
        for j in (0..i).rev() {
            let z = offset[j] - offset[i];
            let alone = if root[i] == root[j] { z != 0 } else { listed.contains(&(root[i], z, root[j])) };
            if alone || pairs[i * n + j] {
                let (x, y) = (&set.tables.terms[i], &set.tables.terms[j]);
                let mut both = vec![(i, j)];
                if x.kind == DEREFERENCE && y.kind == DEREFERENCE && x.offset == y.offset {
                    both.push((x.number as usize, y.number as usize));
                }
                for (t1, t2) in both {
                    pairs[t1 * n + t2] = true;
                    pairs[t2 * n + t1] = true;
                }
            }
        }
    }
    pairs
}

/// How many of the sets are satisfiable, and how many have a pair that is different, but not if listed disequalities alone follow
/// equalities.
fn counts(count: usize, mut build: impl FnMut(usize) -> Set) -> [usize; 2] {
    let mut counts = [0; 2];
    for k in 0..count {
        let set = build(k);
        let mut memory = Memory::new(set.cells(0), || 0);
        if solve(&set.input(), Blame::NotAsked, &mut memory.lent()) == Outcome::Satisfiable {
            let pairs = pairs_of_listed(&set, &memory);
            let bit = |k: usize| memory.pair_bits[k / 8] >> (k % 8) & 1 == 1;
            assert!((0..pairs.len()).all(|k| bit(k) || !pairs[k]), "a pair of listed disequalities is missing");
            counts[0] += 1;
            counts[1] += usize::from((0..pairs.len()).any(|k| bit(k) && !pairs[k]));
        }
    }
    println!("{count} sets, {} satisfiable, {} with a pair by a derived difference that is moved", counts[0], counts[1]);
    counts
}

#[test]
fn derived_differences_are_moved_in_many_sets() {
    let mut r = Numbers(3);
    let [satisfiable, moved] = counts(sets::LEADING_SMALL, |k| sets::leading_small(&mut r, k));
    assert!(satisfiable > sets::LEADING_SMALL * 9 / 10 && moved > sets::LEADING_SMALL / 3);
    let [satisfiable, moved] = counts(sets::LEADING_FULL, |k| sets::leading_full(&mut r, k));
    assert!(satisfiable == sets::LEADING_FULL && moved > sets::LEADING_FULL / 2);
}
