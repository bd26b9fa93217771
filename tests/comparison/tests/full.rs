//! The 200 full sets are what they are meant to be, and stay what they are.

use comparison::full::{digest, full, Full, COUNT, LEAST};
use second_solver::memory::Memory;
use second_solver::support::Set;
use second_solver::tables::{solve, Blame, Outcome, DEREFERENCE, DIFFERENT, EQUAL, EQUALITY, LIMIT, NEITHER};

fn solved(set: &Set) -> (Outcome, Memory) {
    let mut memory = Memory::new(set.cells(0), || 0);
    let outcome = solve(&set.input(), Blame::NotAsked, &mut memory.lent());
    (outcome, memory)
}

fn all() -> impl Iterator<Item = Full> {
    (0..COUNT).map(full)
}

/// The set with some of its propositions.
fn with(set: &Set, keep: impl Fn(usize) -> bool) -> Set {
    let mut set = set.clone();
    let mut number = 0..;
    set.tables.propositions.retain(|_| keep(number.next().expect("a number")));
    set.m = set.tables.propositions.len();
    set
}

/// Whether the last terms of the chains have the same label.
fn ends_are_equal(full: &Full, memory: &Memory) -> bool {
    let label = |chain: &Vec<usize>| {
        let t = *chain.last().expect("a last term");
        (memory.representatives[t], memory.offsets[t])
    };
    label(&full.chains[0]) == label(&full.chains[1])
}

/// Each line of the file: the number of a set, its verdict and the digest of its text.
#[test]
fn pinned() {
    let lines: Vec<&str> = include_str!("../full_sets.txt").lines().collect();
    let mut made = Vec::new();
    for (number, Full { set, .. }) in all().enumerate() {
        let verdict = match solved(&set).0 {
            Outcome::Satisfiable => "satisfiable",
            Outcome::Contradiction => "contradictory",
            refused => panic!("set {number}: {refused:?}"),
        };
        made.push(format!("{number} {verdict} {:016X}", digest(&set.text())));
    }
    assert!(lines == made, "the sets have changed; as they are now:\n{}", made.join("\n"));
}

#[test]
fn full_in_every_table() {
    for Full { set, .. } in all() {
        assert_eq!([set.n, set.m, set.q], [LIMIT; 3]);
        assert!(set.fits());
    }
}

#[test]
fn all_unlike() {
    let mut texts: Vec<Vec<u8>> = all().map(|full| full.set.text()).collect();
    texts.sort();
    texts.dedup();
    assert_eq!(texts.len(), COUNT);
}

#[test]
fn enough_of_both_verdicts() {
    let satisfiable = all().filter(|full| solved(&full.set).0 == Outcome::Satisfiable).count();
    assert_eq!([satisfiable, COUNT - satisfiable], [150, 50]);
}

/// Each chain has at least 200 dereferences, each of the one before, and no equality names one of them.
#[test]
fn two_chains() {
    for Full { set, chains, .. } in all() {
        for chain in &chains {
            assert!(chain.len() > LEAST);
            for pair in chain.windows(2) {
                let record = &set.tables.terms[pair[1]];
                assert_eq!((record.kind, record.number as usize), (DEREFERENCE, pair[0]));
            }
        }
        assert!(chains[0].iter().all(|t| !chains[1].contains(t)));
        let in_chain = |t: u64| chains.iter().any(|chain| chain[1..].contains(&(t as usize)));
        for record in &set.tables.propositions {
            assert!(record.kind != EQUALITY || !in_chain(record.left) && !in_chain(record.right));
        }
    }
}

/// By the proposition at the starts alone the ends of the chains are equal; by all others they are not, and these are satisfiable.
#[test]
fn equal_by_e4_alone() {
    for full in all() {
        let at_starts = &full.set.tables.propositions[full.at_starts];
        assert_eq!([at_starts.left as usize, at_starts.right as usize], [full.chains[0][0], full.chains[1][0]]);
        let (outcome, memory) = solved(&with(&full.set, |p| p == full.at_starts));
        assert_eq!(outcome, Outcome::Satisfiable);
        assert!(ends_are_equal(&full, &memory));
        let (outcome, memory) = solved(&with(&full.set, |p| p != full.at_starts));
        assert_eq!(outcome, Outcome::Satisfiable);
        assert!(!ends_are_equal(&full, &memory));
    }
}

#[test]
fn every_answer_in_each_satisfiable_set() {
    for Full { set, .. } in all() {
        let (outcome, memory) = solved(&set);
        for answer in [EQUAL, DIFFERENT, NEITHER] {
            let given = memory.answers.iter().filter(|&&byte| byte == answer).count();
            assert!(outcome == Outcome::Contradiction || given >= 32, "{given} of {answer}");
        }
    }
}
