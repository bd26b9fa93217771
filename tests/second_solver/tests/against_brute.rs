//! Compares module `tables` with the naive reference on random small sets.

use second_solver::brute::{self, Moved, Proposition, Term};
use second_solver::memory::Memory;
use second_solver::program::Run;
use second_solver::support::{mixed, Numbers, Set};
use second_solver::tables::{
    self, solve, verdict_only, Blame, Outcome, Question, AUXILIARY, BLOCK_DISEQUALITY, DEREFERENCE,
    DISEQUALITY, EQUALITY, LIMIT, VARIABLE,
};
use std::collections::HashSet;

/// How a random set is drawn.
#[derive(Clone, Copy)]
struct Style {
    most_terms: usize,
    most_propositions: usize,
    /// Offsets of dereferences and propositions are drawn from these.
    offsets: &'static [i32],
    /// Chances in 10: a term is a dereference, an atom is a variable.
    dereference: usize,
    variable: usize,
    /// Chances in 10: a proposition is an equality, a block disequality.
    equality: usize,
    block: usize,
}

fn draw(r: &mut Numbers, style: &Style) -> Set {
    let mut set = Set::default();
    let n = 1 + r.below(style.most_terms);
    for t in 0..n {
        if t > 0 && r.below(10) < style.dereference {
            let z = r.one_of(style.offsets);
            set.term(DEREFERENCE, r.below(t), z);
        } else if r.below(10) < style.variable {
            set.term(VARIABLE, t, 0);
        } else {
            set.term(AUXILIARY, t, 0);
        }
    }
    for _ in 0..r.below(style.most_propositions + 1) {
        let (t1, t2) = (r.below(n), r.below(n));
        let z = r.one_of(style.offsets);
        let pick = r.below(10);
        if pick < style.equality {
            set.proposition(EQUALITY, t1, z, t2);
        } else if pick < style.equality + style.block {
            set.proposition(BLOCK_DISEQUALITY, t1, 0, t2);
        } else {
            set.proposition(DISEQUALITY, t1, z, t2);
        }
    }
    ask(r, &mut set, style.offsets);
    set
}

/// Every ordered pair at 0 and at some other offsets.
fn ask(r: &mut Numbers, set: &mut Set, offsets: &[i32]) {
    for t1 in 0..set.n {
        for t2 in 0..set.n {
            let (z1, z2) = (r.one_of(offsets), r.one_of(offsets));
            for z in [0, z1, z1.saturating_sub(z2)] {
                if set.q < LIMIT {
                    set.question(t1, z, t2);
                }
            }
        }
    }
}

/// A set as the reference takes it.
struct Plain {
    terms: Vec<Term>,
    propositions: Vec<Proposition>,
    questions: Vec<(usize, i64, usize)>,
}

fn plain(set: &Set) -> Plain {
    let term = |t: &tables::Term| match t.kind {
        VARIABLE => Term::Variable(t.number as u32),
        AUXILIARY => Term::Auxiliary(t.number as u32),
        _ => Term::Dereference {
            z: t.offset,
            t: t.number as usize,
        },
    };
    let proposition = |p: &tables::Proposition| {
        let (t1, z, t2) = (p.left as usize, p.offset, p.right as usize);
        match p.kind {
            EQUALITY => Proposition::Equality(t1, z, t2),
            DISEQUALITY => Proposition::Disequality(t1, z, t2),
            _ => Proposition::BlockDisequality(t1, t2),
        }
    };
    let question = |q: &Question| (q.left as usize, q.offset, q.right as usize);
    Plain {
        terms: set.tables.terms.iter().map(term).collect(),
        propositions: set.tables.propositions.iter().map(proposition).collect(),
        questions: set.tables.questions.iter().map(question).collect(),
    }
}

/// Runs `tables`, and checks that it leaves the cells beyond those needed, and
/// that without blame every mark is 0 and all else the same.
fn solve_set(set: &Set) -> Run {
    // Tables longer than their counts hold records that would be refused.
    let mut longer = set.clone();
    longer.tables.terms.push(tables::Term {
        kind: 77,
        number: u64::MAX,
        offset: 1,
    });
    longer.tables.propositions.push(tables::Proposition {
        kind: 78,
        ..tables::Proposition::default()
    });
    longer.tables.questions.push(Question {
        left: u64::MAX,
        offset: i64::MIN,
        right: 0,
    });
    let input = longer.input();
    let mut r = Numbers(1);
    let mut before = Memory::new(set.cells(2), || r.next());
    let [mut memory, mut unmarked] = [before.clone(), before.clone()];
    let outcome = solve(&input, Blame::Asked, &mut memory.lent());
    let without = solve(&input, Blame::NotAsked, &mut unmarked.lent());
    assert_eq!(outcome, without);
    assert_eq!(outcome, verdict_only(&input));
    let needed = set.cells(0);
    let beyond = before.split_off(needed);
    assert_eq!(memory.split_off(needed), beyond);
    assert_eq!(unmarked.split_off(needed), beyond);
    assert_eq!(unmarked, memory.without_marks());
    Run { outcome, memory }
}

/// What was seen over many sets, so that a test can tell it was not vacuous.
#[derive(Default)]
struct Seen {
    satisfiable: usize,
    contradictory: usize,
    answers: [usize; 4],
    /// Joins that no single listed equality names.
    joins: usize,
    dropped: usize,
    /// Sets with a pair of terms that would not be different if listed
    /// disequalities alone moved along equalities.
    moved: usize,
}

fn compare(set: &Set, seen: &mut Seen) {
    let Run { outcome, memory } = solve_set(set);
    let Plain {
        terms,
        propositions,
        questions,
    } = plain(set);
    let want = brute::solve(&terms, &propositions, &questions);
    let about = || String::from_utf8(set.text()).unwrap();
    let verdicts = [Outcome::Satisfiable, Outcome::Contradiction];
    let verdict = verdicts[usize::from(want.contradiction)];
    assert_eq!(outcome, verdict, "\n{}", about());
    let representatives: Vec<usize> = memory.representatives.iter().map(|&r| r as usize).collect();
    assert_eq!(representatives, want.representatives, "\n{}", about());
    assert_eq!(memory.offsets, want.offsets, "\n{}", about());
    let marks: Vec<u8> = want.marks.iter().map(|&mark| mark.into()).collect();
    assert_eq!(memory.marks, marks, "\n{}", about());
    let mut bytes = vec![0u8; (set.n * set.n).div_ceil(8)];
    for (bit, &set) in want.pairs.iter().enumerate() {
        bytes[bit / 8] |= u8::from(set) << (bit % 8);
    }
    assert_eq!(memory.pair_bits, bytes, "\n{}", about());
    assert_eq!(memory.answers, want.answers, "\n{}", about());
    for answer in memory.answers {
        seen.answers[answer as usize] += 1;
    }
    if want.contradiction {
        seen.contradictory += 1;
        seen.dropped += want.marks.iter().filter(|&&mark| !mark).count();
    } else {
        seen.satisfiable += 1;
        seen.joins += (0..set.n).filter(|&t| representatives[t] != t).count();
        let listed = brute::solve_moved(&terms, &propositions, &questions, Moved::Listed);
        let more = |(&is, &was): (&bool, &bool)| is && !was;
        seen.moved += usize::from(want.pairs.iter().zip(&listed.pairs).any(more));
        let (blocks, positions) = (&representatives, &memory.offsets);
        let assigned = brute::is_assignment(&terms, &propositions, blocks, positions);
        assert!(assigned, "\n{}", about());
    }
}

fn run(seed: u64, count: usize, style: Style) -> Seen {
    let mut r = Numbers(seed);
    let mut seen = Seen::default();
    for _ in 0..count {
        let set = draw(&mut r, &style);
        compare(&set, &mut seen);
    }
    assert!(seen.satisfiable > count / 20);
    assert!(seen.contradictory > count / 20);
    assert!(seen.answers.iter().all(|&kind| kind > count / 20));
    assert!(seen.joins > count / 20);
    assert!(seen.dropped > count / 20);
    seen
}

const SMALL: Style = Style {
    most_terms: 7,
    most_propositions: 5,
    offsets: &[-1, 0, 0, 0, 1, 2],
    dereference: 6,
    variable: 3,
    equality: 5,
    block: 2,
};

#[test]
fn mixed_sets() {
    run(1, 20_000, SMALL);
}

#[test]
fn sets_of_dereferences() {
    run(
        2,
        20_000,
        Style {
            offsets: &[0, 0, 0, 1],
            dereference: 8,
            variable: 1,
            equality: 4,
            block: 1,
            ..SMALL
        },
    );
}

#[test]
fn sets_of_disequalities() {
    run(
        3,
        20_000,
        Style {
            offsets: &[0, 0, 1],
            dereference: 7,
            variable: 1,
            equality: 3,
            block: 1,
            most_propositions: 6,
            ..SMALL
        },
    );
}

#[test]
fn contradictory_sets() {
    run(
        4,
        8_000,
        Style {
            offsets: &[-1, 0, 0, 0, 0, 1],
            most_propositions: 10,
            equality: 6,
            ..SMALL
        },
    );
}

#[test]
fn extreme_offsets() {
    run(
        5,
        8_000,
        Style {
            offsets: &[i32::MIN, i32::MIN + 1, -1, 0, 0, 0, 1, i32::MAX],
            ..SMALL
        },
    );
}

#[test]
fn larger_sets() {
    run(
        6,
        1_500,
        Style {
            most_terms: 13,
            most_propositions: 9,
            offsets: &[0, 0, 0, 0, 1],
            dereference: 7,
            ..SMALL
        },
    );
}

/// Sets in which differences lead from values to addresses, along equalities to
/// other terms of the classes, and from values among those on to addresses. In
/// some a last equality is added, between any two terms.
fn run_mixed(seed: u64, count: usize, most_terms: usize, most_disequalities: usize) -> Seen {
    let mut r = Numbers(seed);
    let mut seen = Seen::default();
    for k in 0..count {
        let size = 4 + r.below(most_terms - 3);
        let (blocks, range) = (2 + r.below(2), 1 + r.below(5));
        let disequalities = r.below(most_disequalities + 1);
        let mut set = mixed(&mut r, size, blocks, range, disequalities);
        if k % 4 == 0 {
            let (t1, z, t2) = (r.below(size), r.below(range), r.below(size));
            set.proposition(EQUALITY, t1, z as i32, t2);
        }
        ask(&mut r, &mut set, &[-3, -2, -1, 0, 1, 2, 3]);
        compare(&set, &mut seen);
    }
    assert!(seen.satisfiable > count / 2);
    assert!(seen.contradictory > count / 20);
    assert!(seen.moved > count / 10, "{} of {count}", seen.moved);
    seen
}

#[test]
fn differences_lead_to_each_other() {
    run_mixed(8, 4_000, 9, 4);
}

/// Here there are more distances between two classes than offsets in them.
#[test]
fn many_differences_between_few_classes() {
    run_mixed(9, 400, 14, 40);
}

/// The differences of a larger set, from the labels that are left for it: whole
/// rounds over all pairs of dereferences, until one adds nothing. Sets have no
/// variables and no block disequalities.
fn by_rounds(set: &Set, memory: &Memory) -> impl Fn(usize, i64, usize) -> bool {
    let (root, offset) = (memory.representatives.clone(), memory.offsets.clone());
    let between =
        move |t1: usize, z: i64, t2: usize| (root[t1], z + offset[t2] - offset[t1], root[t2]);
    let mut known = HashSet::new();
    let is = move |known: &HashSet<(u32, i64, u32)>, (r1, d, r2): (u32, i64, u32)| {
        r1 == r2 && d != 0 || known.contains(&(r1, d, r2))
    };
    for p in &set.tables.propositions {
        if p.kind == DISEQUALITY {
            let (t1, t2) = (p.left as usize, p.right as usize);
            known.insert(between(t1, p.offset, t2));
            known.insert(between(t2, -p.offset, t1));
        }
    }
    let terms = set.tables.terms.iter().enumerate();
    let reads: Vec<_> = terms.filter(|(_, t)| t.kind == DEREFERENCE).collect();
    loop {
        let before = known.len();
        for (d1, x) in &reads {
            for (d2, y) in &reads {
                if is(&known, between(*d1, 0, *d2)) {
                    let (t1, t2) = (x.number as usize, y.number as usize);
                    known.insert(between(t1, y.offset - x.offset, t2));
                }
            }
        }
        if known.len() == before {
            return move |t1, z, t2| is(&known, between(t1, z, t2));
        }
    }
}

#[test]
fn larger_sets_by_rounds() {
    let mut r = Numbers(10);
    let mut answers = [0; 3];
    for k in 0..300 {
        let size = r.one_of(&[20, 40, 80, 160]);
        let (blocks, range) = (2 + r.below(4), r.one_of(&[2, 8, 64, 1024]));
        let disequalities = r.one_of(&[1, 4, 40, 300]);
        let mut set = mixed(&mut r, size, blocks, range, disequalities);
        for _ in 0..LIMIT {
            let (t1, z, t2) = (r.below(size), r.below(range) as i32, r.below(size));
            set.question(t1, if r.one_in(2) { z } else { -z }, t2);
        }
        let Run { outcome, memory } = solve_set(&set);
        assert_eq!(outcome, Outcome::Satisfiable);
        let different = by_rounds(&set, &memory);
        for bit in 0..size * size {
            let given = memory.pair_bits[bit / 8] >> (bit % 8) & 1 == 1;
            assert_eq!(given, different(bit / size, 0, bit % size), "{k}: {bit}");
        }
        for (q, &answer) in set.tables.questions.iter().zip(&memory.answers) {
            let is = different(q.left as usize, q.offset, q.right as usize);
            assert_eq!(answer == 2, is, "{k}: {q:?}");
            answers[answer as usize] += 1;
        }
    }
    assert!(answers.iter().all(|&count| count > 1_000), "{answers:?}");
}

/// Searches all assignments with few blocks and positions: a contradictory set
/// has none, and what is equal or different is so in each of them.
#[test]
fn answers_hold_in_assignments() {
    const BLOCKS: usize = 3;
    const POSITIONS: usize = 3;
    let style = Style {
        most_terms: 5,
        offsets: &[-1, 0, 0, 0, 1],
        most_propositions: 4,
        ..SMALL
    };
    let mut r = Numbers(7);
    let mut found = 0;
    for _ in 0..400 {
        let set = draw(&mut r, &style);
        let n = set.n;
        let left = solve_set(&set);
        let plain = plain(&set);
        for code in 0..(BLOCKS * POSITIONS).pow(n as u32) {
            let place = |t: usize| code / (BLOCKS * POSITIONS).pow(t as u32);
            let block: Vec<usize> = (0..n).map(|t| place(t) % BLOCKS).collect();
            let position: Vec<i64> = (0..n)
                .map(|t| (place(t) / BLOCKS % POSITIONS) as i64)
                .collect();
            if !brute::is_assignment(&plain.terms, &plain.propositions, &block, &position) {
                continue;
            }
            found += 1;
            assert_eq!(left.outcome, Outcome::Satisfiable);
            for (&(t1, z, t2), &answer) in plain.questions.iter().zip(&left.memory.answers) {
                let holds = block[t1] == block[t2] && position[t1] == z + position[t2];
                assert!(answer == 0 || (answer == 1) == holds);
            }
        }
    }
    assert!(found > 10_000);
}
