//! Refusals of the table level: numbers, places, precedence, and that lent
//! memory stays unchanged.

use second_solver::memory::Memory;
use second_solver::reader::Tables;
use second_solver::support::{Numbers, Set};
use second_solver::tables::{solve, verdict_only, Blame, Outcome, Proposition, Question, Term};

type TermFields = (u64, u64, i64);
type PropositionFields = (u64, u64, i64, u64);
type QuestionFields = (u64, i64, u64);

fn set_of(
    terms: &[TermFields],
    propositions: &[PropositionFields],
    questions: &[QuestionFields],
) -> Set {
    let term = |&(kind, number, offset): &_| Term {
        kind,
        number,
        offset,
    };
    let proposition = |&(kind, left, offset, right): &_| Proposition {
        kind,
        left,
        offset,
        right,
    };
    let question = |&(left, offset, right): &_| Question {
        left,
        offset,
        right,
    };
    let tables = Tables {
        terms: terms.iter().map(term).collect(),
        propositions: propositions.iter().map(proposition).collect(),
        questions: questions.iter().map(question).collect(),
    };
    let [n, m, q] = tables.counts();
    Set {
        n,
        m,
        q,
        tables,
        missing: [0; 5],
    }
}

fn run(set: &Set) -> Outcome {
    let mut r = Numbers(1);
    let before = Memory::new(set.cells(0), || r.next());
    let [outcome, without] = [Blame::Asked, Blame::NotAsked].map(|blame| {
        let mut memory = before.clone();
        let outcome = solve(&set.input(), blame, &mut memory.lent());
        if let Outcome::Refused { .. } = outcome {
            assert_eq!(memory, before);
        }
        outcome
    });
    assert_eq!(outcome, without);
    if set.missing == [0; 5] {
        assert_eq!(outcome, verdict_only(&set.input()));
    }
    outcome
}

fn refused(number: u8, place: u16) -> Outcome {
    Outcome::Refused { number, place }
}

fn terms(count: u64) -> Vec<TermFields> {
    (0..count).map(|k| (2, k, 0)).collect()
}

/// Offsets that 32 bits do not hold; the low bits of some would be accepted.
const FAR: [i64; 10] = [
    1 << 31,
    (1 << 31) + 1,
    -(1 << 31) - 1,
    (1 << 32) - 1,
    1 << 32,
    (1 << 32) + 5,
    -(1 << 32),
    1 << 62,
    i64::MIN,
    i64::MAX,
];

/// What is added to a good field so that its low 8, 16 or 32 bits stay good.
const HIGH: [u64; 6] = [1 << 8, 1 << 16, 1 << 31, 1 << 32, 1 << 63, u64::MAX << 32];

#[test]
fn nothing_is_accepted() {
    assert_eq!(run(&Set::default()), Outcome::Satisfiable);
}

#[test]
fn the_limits_are_accepted() {
    let set = set_of(
        &terms(512),
        &[(0x11, 511, 0, 0); 512],
        &[(511, -1, 511); 512],
    );
    assert_eq!(run(&set), Outcome::Satisfiable);
    let set = set_of(
        &[(1, 65535, 0), (2, 65535, 0), (3, 1, -2_147_483_648)],
        &[(0x11, 2, -2_147_483_648, 0), (0x12, 2, 2_147_483_647, 1)],
        &[(0, -2_147_483_648, 1), (0, 2_147_483_647, 1)],
    );
    assert_eq!(run(&set), Outcome::Satisfiable);
}

#[test]
fn counts_come_first() {
    let mut set = set_of(&terms(2), &[(0x11, 9, 0, 0)], &[(0, 0, 9)]);
    set.tables.terms.pop();
    set.missing[4] = 1;
    set.q = 513;
    assert_eq!(run(&set), refused(3, 512));
    set.m = usize::MAX;
    assert_eq!(run(&set), refused(2, 512));
    set.n = usize::MAX;
    assert_eq!(run(&set), refused(1, 512));
}

#[test]
fn every_short_slice_is_refused() {
    let records = (
        [(1, 0, 0), (1, 0, 0), (3, 9, 0)],
        [(0x99, 9, 0, 9)],
        [(9, 0, 9)],
    );
    let whole = set_of(&records.0, &records.1, &records.2);
    assert_eq!(run(&whole), refused(5, 1));
    for k in 0..8 {
        let mut set = whole.clone();
        match k {
            0 => drop(set.tables.terms.pop()),
            1 => drop(set.tables.propositions.pop()),
            2 => drop(set.tables.questions.pop()),
            _ => set.missing[k - 3] = 1,
        }
        assert_eq!(run(&set), refused(8, 0), "slice {k}");
    }
}

#[test]
fn term_records() {
    let after = |record| {
        let mut records = terms(3);
        records.push(record);
        // Later faults must not matter.
        records.push((0, 0, 0));
        run(&set_of(&records, &[(0, 0, 0, 0)], &[(99, 0, 0)]))
    };
    assert_eq!(after((0, 0, 0)), refused(9, 3));
    assert_eq!(after((4, 0, 0)), refused(9, 3));
    assert_eq!(after((1, 65536, 0)), refused(9, 3));
    assert_eq!(after((2, 65536, 0)), refused(9, 3));
    assert_eq!(after((1, 7, 1)), refused(9, 3));
    assert_eq!(after((2, 1, -1)), refused(9, 3));
    assert_eq!(after((2, 1, 0)), refused(5, 3));
    assert_eq!(after((3, 3, 0)), refused(4, 3));
    assert_eq!(after((3, 65536, 0)), refused(4, 3));
    assert_eq!(after((3, u64::MAX, -2_147_483_648)), refused(4, 3));
    for high in HIGH {
        assert_eq!(after((1 + high, 7, 0)), refused(9, 3));
        assert_eq!(after((2 + high, 7, 0)), refused(9, 3));
        assert_eq!(after((3 + high, 0, 0)), refused(9, 3));
        assert_eq!(after((3, high, 0)), refused(4, 3));
        assert_eq!(after((1, 7, high as i64)), refused(9, 3));
    }
    for high in &HIGH[1..] {
        assert_eq!(after((1, 7 + high, 0)), refused(9, 3));
        assert_eq!(after((2, 1 + high, 0)), refused(9, 3));
    }
    for offset in FAR {
        assert_eq!(after((3, 0, offset)), refused(9, 3));
        // 9 comes before 4.
        assert_eq!(after((3, 3, offset)), refused(9, 3));
        assert_eq!(after((2, 7, offset)), refused(9, 3));
    }
    // Accepted records: the next one, of unknown kind, is refused.
    assert_eq!(after((1, 1, 0)), refused(9, 4));
    assert_eq!(after((2, 65535, 0)), refused(9, 4));
    assert_eq!(after((3, 2, -2_147_483_648)), refused(9, 4));
    assert_eq!(after((3, 2, 2_147_483_647)), refused(9, 4));
}

#[test]
fn proposition_records() {
    let after = |record| {
        let propositions = [(0x11, 0, 5, 1), record, (0x12, 3, 0, 0)];
        run(&set_of(&terms(3), &propositions, &[(99, 0, 0)]))
    };
    assert_eq!(after((0x10, 9, 0, 9)), refused(9, 1));
    assert_eq!(after((0x21, 0, 0, 0)), refused(9, 1));
    assert_eq!(after((0x13, 9, 1, 9)), refused(9, 1));
    assert_eq!(after((0x13, 3, 0, 0)), refused(6, 1));
    assert_eq!(after((0x11, 0, 0, 3)), refused(6, 1));
    assert_eq!(after((0x12, u64::MAX, 0, 0)), refused(6, 1));
    for kind in [0x11, 0x12, 0x13] {
        for high in HIGH {
            assert_eq!(after((kind + high, 0, 0, 0)), refused(9, 1));
            assert_eq!(after((kind, high, 0, 0)), refused(6, 1));
            assert_eq!(after((kind, 0, 0, 2 + high)), refused(6, 1));
        }
        for offset in FAR {
            assert_eq!(after((kind, 0, offset, 0)), refused(9, 1));
            // 9 comes before 6.
            assert_eq!(after((kind, 3, offset, 3)), refused(9, 1));
        }
    }
    assert_eq!(after((0x13, 0, 0, 2)), refused(6, 2));
    assert_eq!(after((0x11, 0, -2_147_483_648, 2)), refused(6, 2));
    assert_eq!(after((0x12, 0, 2_147_483_647, 2)), refused(6, 2));
}

#[test]
fn question_records() {
    let with = |records: &[QuestionFields]| run(&set_of(&terms(3), &[(0x11, 0, 1, 0)], records));
    assert_eq!(with(&[(0, 0, 2), (3, 0, 0)]), refused(7, 1));
    assert_eq!(with(&[(0, 0, 2), (0, 0, 3)]), refused(7, 1));
    assert_eq!(with(&[(0, 0, u64::MAX)]), refused(7, 0));
    for high in HIGH {
        assert_eq!(with(&[(0, 0, 2), (high, 0, 0)]), refused(7, 1));
        assert_eq!(with(&[(0, 0, 2), (0, 0, 2 + high)]), refused(7, 1));
    }
    for offset in FAR {
        assert_eq!(with(&[(0, 0, 2), (0, offset, 0)]), refused(9, 1));
        // 9 comes before 7, but not before 7 of an earlier question.
        assert_eq!(with(&[(0, 0, 2), (3, offset, 3)]), refused(9, 1));
        assert_eq!(with(&[(0, 0, 3), (0, offset, 0)]), refused(7, 0));
    }
    assert_eq!(with(&[(0, 0, 2)]), Outcome::Contradiction);
}
