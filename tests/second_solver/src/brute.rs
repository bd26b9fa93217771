//! A naive reference for the tests of this package. It saturates the rules of
//! the scope paper as they are written, over sets of triples, with no classes
//! and no representatives inside the rules. It is only fit for a few terms.

#[derive(Clone, Copy, Debug, PartialEq, Eq)]
pub enum Term {
    Variable(u32),
    Auxiliary(u32),
    /// *(z + t).
    Dereference {
        z: i64,
        t: usize,
    },
}

#[derive(Clone, Copy, Debug, PartialEq, Eq)]
pub enum Proposition {
    /// t1 = z + t2
    Equality(usize, i64, usize),
    /// t1 ≠ z + t2
    Disequality(usize, i64, usize),
    /// bl(t1) ≠ bl(t2)
    BlockDisequality(usize, usize),
}

/// What the reference says of a set.
#[derive(Clone, Debug, PartialEq, Eq)]
pub struct Result {
    pub contradiction: bool,
    pub representatives: Vec<usize>,
    pub offsets: Vec<i64>,
    pub marks: Vec<bool>,
    /// At i × n + j: term i is different from 0 + term j.
    pub pairs: Vec<bool>,
    pub answers: Vec<u8>,
}

/// All z with t1 ≡ z + t2, for each pair of terms.
type Equal = Vec<Vec<Vec<i64>>>;

fn add(equal: &mut Equal, t1: usize, z: i64, t2: usize) -> bool {
    if equal[t1][t2].contains(&z) {
        return false;
    }
    equal[t1][t2].push(z);
    true
}

/// Whether some t ≡ z + t with z not 0.
fn displaced(equal: &Equal) -> bool {
    (0..equal.len()).any(|t| equal[t][t].iter().any(|&z| z != 0))
}

/// E0 to E4 to a fixpoint. The relation is infinite only if some term is equal
/// to itself at an offset other than 0, so the saturation stops there.
fn saturate_equal(terms: &[Term], propositions: &[Proposition]) -> Equal {
    let n = terms.len();
    let mut equal: Equal = vec![vec![Vec::new(); n]; n];
    for p in propositions {
        if let Proposition::Equality(t1, z, t2) = *p {
            add(&mut equal, t1, z, t2); // E0
        }
    }
    for t in 0..n {
        add(&mut equal, t, 0, t); // E1
    }
    loop {
        let before = equal.clone();
        let mut grown = false;
        for t1 in 0..n {
            for t2 in 0..n {
                for &z in &before[t1][t2] {
                    grown |= add(&mut equal, t2, -z, t1); // E2
                }
            }
        }
        for t1 in 0..n {
            for t2 in 0..n {
                for &z1 in &before[t1][t2] {
                    for t3 in 0..n {
                        for &z2 in &before[t2][t3] {
                            grown |= add(&mut equal, t1, z1 + z2, t3); // E3
                        }
                    }
                }
            }
        }
        for d1 in 0..n {
            for d2 in 0..n {
                if let (Term::Dereference { z: z1, t: t1 }, Term::Dereference { z: z2, t: t2 }) =
                    (terms[d1], terms[d2])
                {
                    if before[t1][t2].contains(&(z2 - z1)) {
                        grown |= add(&mut equal, d1, 0, d2); // E4
                    }
                }
            }
        }
        if !grown || displaced(&equal) {
            return equal;
        }
    }
}

/// B0 to B3 to a fixpoint, for each pair of terms.
fn saturate_apart(terms: &[Term], propositions: &[Proposition], equal: &Equal) -> Vec<Vec<bool>> {
    let n = terms.len();
    let mut apart = vec![vec![false; n]; n];
    for p in propositions {
        if let Proposition::BlockDisequality(t1, t2) = *p {
            apart[t1][t2] = true;
        }
    }
    for t1 in 0..n {
        for t2 in 0..n {
            if let (Term::Variable(x), Term::Variable(y)) = (terms[t1], terms[t2]) {
                if x != y {
                    apart[t1][t2] = true;
                }
            }
        }
    }
    loop {
        let before = apart.clone();
        for t1 in 0..n {
            for t2 in 0..n {
                if !before[t1][t2] {
                    continue;
                }
                apart[t2][t1] = true;
                for u in 0..n {
                    for v in 0..n {
                        if !equal[u][t1].is_empty() && !equal[v][t2].is_empty() {
                            apart[u][v] = true;
                        }
                    }
                }
            }
        }
        if apart == before {
            return apart;
        }
    }
}

/// Which differences move along equalities.
#[derive(Clone, Copy, Debug, PartialEq, Eq)]
pub enum Moved {
    /// All of them, as request R-3 asks.
    All,
    /// Listed disequalities alone, as before that request.
    Listed,
}

/// The rules of "different" to a fixpoint, for each pair of terms and every z
/// that is asked. The zs asked are closed under the rules that lead from a z to
/// another, and inverse dereferencing reads its premise at 0, so nothing that
/// is not asked is missed.
struct Different {
    asked: Vec<Vec<Vec<i64>>>,
    holds: Vec<Vec<Vec<i64>>>,
}

impl Different {
    fn get(&self, t1: usize, z: i64, t2: usize) -> bool {
        assert!(self.asked[t1][t2].contains(&z));
        self.holds[t1][t2].contains(&z)
    }
    fn put(&mut self, t1: usize, z: i64, t2: usize) -> bool {
        self.asked[t1][t2].contains(&z) && add(&mut self.holds, t1, z, t2)
    }
}

/// All (u, z + a − b, v) with u ≡ a + t1 and v ≡ b + t2.
fn moved(equal: &Equal, t1: usize, z: i64, t2: usize) -> Vec<(usize, i64, usize)> {
    let mut all = Vec::new();
    for u in 0..equal.len() {
        for v in 0..equal.len() {
            for &a in &equal[u][t1] {
                for &b in &equal[v][t2] {
                    all.push((u, z + a - b, v));
                }
            }
        }
    }
    all
}

/// 0 for each pair of terms, the questions, and what they come from.
fn asked(equal: &Equal, questions: &[(usize, i64, usize)]) -> Vec<Vec<Vec<i64>>> {
    let n = equal.len();
    let mut asked = vec![vec![Vec::new(); n]; n];
    let zeros = (0..n * n).map(|k| (k / n, 0, k % n));
    let mut open: Vec<(usize, i64, usize)> = zeros.chain(questions.iter().copied()).collect();
    while let Some((t1, z, t2)) = open.pop() {
        if add(&mut asked, t1, z, t2) {
            open.push((t2, -z, t1));
            open.extend(moved(equal, t1, z, t2));
        }
    }
    asked
}

fn saturate_different(
    terms: &[Term],
    propositions: &[Proposition],
    equal: &Equal,
    apart: &[Vec<bool>],
    questions: &[(usize, i64, usize)],
    which: Moved,
) -> Different {
    let n = terms.len();
    let mut different = Different {
        asked: asked(equal, questions),
        holds: vec![vec![Vec::new(); n]; n],
    };
    loop {
        let before = different.holds.clone();
        let mut grown = false;
        for p in propositions {
            if let Proposition::Disequality(t1, z, t2) = *p {
                for (u, z, v) in moved(equal, t1, z, t2) {
                    grown |= different.put(u, z, v);
                }
            }
        }
        for t1 in 0..n {
            for t2 in 0..n {
                for &z in &before[t1][t2] {
                    grown |= different.put(t2, -z, t1);
                    if which == Moved::All {
                        for (u, z, v) in moved(equal, t1, z, t2) {
                            grown |= different.put(u, z, v);
                        }
                    }
                }
                for z in different.asked[t1][t2].clone() {
                    if apart[t1][t2] || equal[t1][t2].iter().any(|&y| y != z) {
                        grown |= different.put(t1, z, t2);
                    }
                }
            }
        }
        for d1 in 0..n {
            for d2 in 0..n {
                if let (Term::Dereference { z: z1, t: t1 }, Term::Dereference { z: z2, t: t2 }) =
                    (terms[d1], terms[d2])
                {
                    if before[d1][d2].contains(&0) {
                        grown |= different.put(t1, z2 - z1, t2);
                    }
                }
            }
        }
        if !grown {
            return different;
        }
    }
}

/// Whether the set is contradictory.
pub fn contradictory(terms: &[Term], propositions: &[Proposition]) -> bool {
    let equal = saturate_equal(terms, propositions);
    if displaced(&equal) {
        return true;
    }
    for p in propositions {
        if let Proposition::Disequality(t1, z, t2) = *p {
            if equal[t1][t2].contains(&z) {
                return true;
            }
        }
    }
    let apart = saturate_apart(terms, propositions, &equal);
    let n = terms.len();
    (0..n).any(|t1| (0..n).any(|t2| apart[t1][t2] && !equal[t1][t2].is_empty()))
}

/// Everything a run leaves.
pub fn solve(
    terms: &[Term],
    propositions: &[Proposition],
    questions: &[(usize, i64, usize)],
) -> Result {
    solve_moved(terms, propositions, questions, Moved::All)
}

/// The same with these differences moved.
pub fn solve_moved(
    terms: &[Term],
    propositions: &[Proposition],
    questions: &[(usize, i64, usize)],
    which: Moved,
) -> Result {
    let n = terms.len();
    if contradictory(terms, propositions) {
        let mut kept = vec![true; propositions.len()];
        for p in (0..propositions.len()).rev() {
            let without: Vec<Proposition> = (0..propositions.len())
                .filter(|&k| kept[k] && k != p)
                .map(|k| propositions[k])
                .collect();
            if contradictory(terms, &without) {
                kept[p] = false;
            }
        }
        return Result {
            contradiction: true,
            representatives: (0..n).collect(),
            offsets: vec![0; n],
            marks: kept,
            pairs: vec![false; n * n],
            answers: vec![3; questions.len()],
        };
    }
    let equal = saturate_equal(terms, propositions);
    let apart = saturate_apart(terms, propositions, &equal);
    let different = saturate_different(terms, propositions, &equal, &apart, questions, which);
    let representatives: Vec<usize> = (0..n)
        .map(|t| (0..n).find(|&r| !equal[t][r].is_empty()).unwrap())
        .collect();
    let offsets = (0..n).map(|t| equal[t][representatives[t]][0]).collect();
    let mut pairs = Vec::new();
    for i in 0..n {
        for j in 0..n {
            pairs.push(different.get(i, 0, j));
        }
    }
    let answers = questions
        .iter()
        .map(|&(t1, z, t2)| {
            let (is, isnt) = (equal[t1][t2].contains(&z), different.get(t1, z, t2));
            assert!(!(is && isnt), "equal and different in a satisfiable set");
            if is {
                1
            } else if isnt {
                2
            } else {
                0
            }
        })
        .collect();
    Result {
        contradiction: false,
        representatives,
        offsets,
        marks: vec![false; propositions.len()],
        pairs,
        answers,
    }
}

/// Whether the given blocks and positions are an assignment of the set, by the
/// scope paper's definition.
pub fn is_assignment(
    terms: &[Term],
    propositions: &[Proposition],
    block: &[usize],
    position: &[i64],
) -> bool {
    let n = terms.len();
    let same =
        |t1: usize, z: i64, t2: usize| block[t1] == block[t2] && position[t1] == z + position[t2];
    for t1 in 0..n {
        for t2 in 0..n {
            match (terms[t1], terms[t2]) {
                (Term::Variable(x), Term::Variable(y)) => {
                    if x != y && block[t1] == block[t2] {
                        return false;
                    }
                }
                (Term::Dereference { z: z1, t: u1 }, Term::Dereference { z: z2, t: u2 }) => {
                    let one = block[u1] == block[u2] && z1 + position[u1] == z2 + position[u2];
                    if one && !same(t1, 0, t2) {
                        return false;
                    }
                }
                _ => {}
            }
        }
    }
    propositions.iter().all(|p| match *p {
        Proposition::Equality(t1, z, t2) => same(t1, z, t2),
        Proposition::Disequality(t1, z, t2) => !same(t1, z, t2),
        Proposition::BlockDisequality(t1, t2) => block[t1] != block[t2],
    })
}
