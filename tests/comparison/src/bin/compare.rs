//! Compares the proved solver with the second solver: small sets, whole, damaged and with odd values in every field, small and full sets
//! in which differences lead on, the 200 full sets with long chains, and other full sets, each with blame and without. Every returned value
//! and every lent cell is compared, and so are the cells before those lent, the tables and the verdict alone; past each table and lent
//! array is a closed page. The rival is compared with the second solver on each set, too, without blame. Then both readers on small texts,
//! whole and damaged, and full ones. Last line: "N passed, M failed".
//!
//! `compare FILE` makes the one call of a call file and prints what both leave.

use comparison::calls::{Call, Given};
use comparison::count::{watched, Count};
use comparison::memory::{any_tables, guarded, Held, GUARD};
use comparison::odd::{self, Field};
use comparison::{full, proved, sets};
use second_solver::memory::Memory;
use second_solver::reader::{self, Tables};
use second_solver::support::{damage_text, Numbers, Set};
use second_solver::tables::{self, Input, Lent, Outcome};
use std::ops::Range;
use std::process::ExitCode;

/// Numbers that ask for blame: the header's, and others.
const ASKING: [usize; 8] = [proved::BLAME, proved::BLAME, 2, 0xFF, 0x100, 1 << 32, 1 << 63, usize::MAX];

/// The proved solver and the verdict alone; for full sets on the stack that the header states.
fn solve_proved(input: &Input, blame: usize, lent: &mut Lent) -> [Outcome; 2] {
    let mut call = || [proved::solve(input, blame, lent), proved::verdict(input)];
    if input.n == 512 {
        proved::on_stack(proved::STACK, call)
    } else {
        call()
    }
}

/// What a reader leaves that finds the tables in lent ones.
fn written(found: &Tables, mut lent: Tables) -> Tables {
    lent.terms[..found.terms.len()].copy_from_slice(&found.terms);
    lent.propositions[..found.propositions.len()].copy_from_slice(&found.propositions);
    lent.questions[..found.questions.len()].copy_from_slice(&found.questions);
    lent
}

fn full_of_a_kind(r: &mut Numbers, k: usize) -> Set {
    let mut set = match k % 6 {
        0 => sets::chains(512),
        1 => sets::tied_chains(512),
        2 => sets::classes(r, 512),
        3 => sets::one_class(512),
        4 => sets::tangle(r, 512),
        _ => sets::classes(r, 512),
    };
    // the last proposition of some sets is a contradiction or an equality between classes
    if k % 12 >= 6 {
        let (left, offset, right) = (r.below(512), r.offset(), r.below(512));
        if set.m == 512 {
            set.m -= 1;
            set.tables.propositions.pop();
        }
        set.proposition(0x11, left % set.n, offset, right % set.n);
    }
    while set.m < 512 {
        let (left, right) = (r.below(set.n), r.below(set.n));
        set.proposition(0x12, left, i32::MAX - (set.m as i32), right);
    }
    sets::questions(r, &mut set, 512);
    set
}

/// What a solver leaves: its outcome and that of the verdict alone, and the lent memory after cells that are not lent.
#[derive(PartialEq)]
struct Solved {
    outcomes: [Outcome; 2],
    memory: Memory,
}

/// What a reader leaves: the counts or the refusal, where the faulty line stands, and the lent tables.
#[derive(PartialEq)]
struct Read {
    result: Result<[usize; 3], (u8, usize)>,
    faulty: Range<usize>,
    tables: Tables,
}

/// Something that a call leaves, as it is shown: its name, the number of its first cell, and its cells.
type Part = (&'static str, isize, Vec<String>);

trait Shown {
    /// All that a call leaves.
    fn shown(&self) -> Vec<Part>;
}

impl Shown for Solved {
    fn shown(&self) -> Vec<Part> {
        let [outcome, alone] = self.outcomes.map(|outcome| vec![format!("{outcome:?}")]);
        let mut all = vec![("outcome", 0, outcome), ("verdict alone", 0, alone)];
        all.extend(self.memory.shown().map(|(name, cells)| (name, -(GUARD as isize), cells)));
        all
    }
}

impl Shown for Read {
    fn shown(&self) -> Vec<Part> {
        fn all<A: std::fmt::Debug>(records: &[A]) -> Vec<String> {
            records.iter().map(|record| format!("{record:?}")).collect()
        }
        vec![
            ("counts or refusal", 0, vec![format!("{:?}", self.result)]),
            ("faulty line", 0, vec![format!("{:?}", self.faulty)]),
            ("terms", 0, all(&self.tables.terms)),
            ("propositions", 0, all(&self.tables.propositions)),
            ("questions", 0, all(&self.tables.questions)),
        ]
    }
}

/// All that a solver and the second leave, each part once where it is the same.
fn in_full(solver: &str, ours: &impl Shown, theirs: &impl Shown) -> String {
    let line = |whose: &str, (name, first, cells): &Part| {
        let from = if cells.len() == 1 { "".into() } else { format!(" from {first}") };
        format!("{whose}, {name}{from}: {}\n", cells.join(" "))
    };
    let both = |(ours, theirs)| match ours == theirs {
        true => line("both", &ours),
        false => line(solver, &ours) + &line("second", &theirs),
    };
    ours.shown().into_iter().zip(theirs.shown()).map(both).collect()
}

/// The first unlike cell of each part.
fn unlike(solver: &str, ours: &impl Shown, theirs: &impl Shown) -> Vec<String> {
    let mut unlike = Vec::new();
    for ((name, first, ours), (_, _, theirs)) in ours.shown().into_iter().zip(theirs.shown()) {
        if let Some(k) = (0..ours.len()).find(|&k| ours[k] != theirs[k]) {
            let at = if ours.len() == 1 { "".into() } else { format!(" {}", first + k as isize) };
            unlike.push(format!("{name}{at}: {solver} {}, second {}", ours[k], theirs[k]));
        }
    }
    unlike
}

struct Run {
    count: Count,
    /// Whether one call is made alone, so that all it leaves is printed.
    alone: bool,
    held: Held,
    verdicts: [usize; 2],
    refusals: [usize; 11],
    texts: [usize; 11],
}

impl Run {
    fn new(count: Count, alone: bool) -> Run {
        Run { count, alone, held: Held::default(), verdicts: [0; 2], refusals: [0; 11], texts: [0; 11] }
    }

    /// Counts a call as passed if a solver leaves the same as the second and nothing else is wrong.
    fn judge<A: Shown + PartialEq>(
        &mut self,
        name: &str,
        [(solver, ours), (_, theirs)]: [(&str, &A); 2],
        wrong: Option<&str>,
        call: impl FnOnce() -> Call,
    ) {
        if self.alone {
            print!("{}", in_full(solver, ours, theirs));
        }
        let result = match wrong {
            None if ours == theirs => Ok(()),
            _ => Err(wrong.map(String::from).into_iter().chain(unlike(solver, ours, theirs)).collect::<Vec<_>>().join("; ")),
        };
        self.count.add(name, result, |stem| call().keep(stem));
    }

    /// The solvers on a set, with `more` cells lent beyond what is needed, without blame and with it, on the same lent memory. Returns
    /// the number of the refusal or 0.
    fn set(&mut self, r: &mut Numbers, name: &str, set: &Set, more: usize) -> usize {
        let asking = r.one_of(&ASKING);
        self.call(&mut r.clone(), &format!("{name} set without blame"), set, more, proved::NO_BLAME);
        let outcome = self.call(r, &format!("{name} set"), set, more, asking);
        let number = match outcome {
            Outcome::Refused { number, .. } => usize::from(number),
            Outcome::Satisfiable => (self.verdicts[0] += 1, 0).1,
            Outcome::Contradiction => (self.verdicts[1] += 1, 0).1,
        };
        self.refusals[number] += 1;
        number
    }

    /// The solvers on a set, with this number for blame; the rival if it asks for none. Returns the outcome.
    fn call(&mut self, r: &mut Numbers, name: &str, set: &Set, more: usize, blame: usize) -> Outcome {
        let seed = r.0;
        let call = || Call { seed, given: Given::Set { set: set.clone(), more, blame } };
        self.count.record(|stem| call().keep(stem));
        let before = guarded(r, set.cells(more));
        let [mut left, mut right, mut third] = [before.clone(), before.clone(), before.clone()];
        let solve = |input: &Input, lent: &mut Lent| solve_proved(input, blame, lent);
        let (outcomes, tables_kept) = self.held.solve(&set.input(), &mut left, solve);
        let outcome = tables::solve(&set.input(), proved::blame(blame), &mut right.lent_after(GUARD));
        let unasked = Input { q: 0, ..set.input() };
        let alone = tables::verdict_only(&unasked);
        let refused = matches!(outcome, Outcome::Refused { .. });
        let wrong = match () {
            _ if !tables_kept => Some("the tables are changed"),
            _ if refused && left != before => Some("a refused call changes memory"),
            _ => None,
        };
        let (ours, theirs) = (Solved { outcomes, memory: left }, Solved { outcomes: [outcome, alone], memory: right });
        self.judge(name, [("proved", &ours), ("second", &theirs)], wrong, call);
        if blame == proved::NO_BLAME {
            let outcomes = [rival::solve(&set.input(), &mut third.lent_after(GUARD)), rival::verdict(&unasked)];
            let rivals = Solved { outcomes, memory: third };
            self.judge(&format!("{name}, rival"), [("rival", &rivals), ("second", &theirs)], None, call);
        }
        outcome
    }

    /// Odd values in one field, each in a few sets.
    fn odd(&mut self, r: &mut Numbers, field: Field) {
        let mut numbers = [0; 11];
        for k in 0..8 * odd::VALUES {
            let set = odd::one(r, field, k % odd::VALUES);
            numbers[self.set(r, "odd", &set, 0)] += 1;
        }
        let [accepted, _, _, _, four, five, six, seven, _, nine, _] = numbers;
        println!("{:<26} {accepted:>8} {four:>4} {five:>4} {six:>4} {seven:>4} {nine:>4}", field.name());
        let only = [4, 6, 7, 9].iter().all(|&number| number == field.refusal() || numbers[number] == 0);
        self.count.show("the refusal of the field, often", numbers[field.refusal()] > 3 * odd::VALUES);
        self.count.show("no other refusal", only || field.name().ends_with("kind"));
    }

    /// Both readers on a text, with room for so many records.
    fn text(&mut self, r: &mut Numbers, text: &[u8], room: [usize; 3]) {
        let seed = r.0;
        let call = || Call { seed, given: Given::Text { text: text.to_vec(), room } };
        self.count.record(|stem| call().keep(stem));
        let before = any_tables(r, room);
        let mut tables = before.clone();
        let ((result, faulty), text_kept) =
            self.held.read(text, &mut tables, |text, tables| (proved::read(text, tables), proved::faulty_line(text, room)));
        let ours = Read { result, faulty, tables };
        let theirs = match reader::read(text, room) {
            Ok(found) => Read { result: Ok(found.counts()), faulty: 0..0, tables: written(&found, before) },
            Err(refusal) => Read { result: Err((refusal.number, refusal.frame.into())), faulty: refusal.part, tables: before },
        };
        self.texts[theirs.result.map_or_else(|(number, _)| number.into(), |_| 0)] += 1;
        let wrong = Some("the text is changed").filter(|_| !text_kept);
        self.judge("text", [("proved", &ours), ("second", &theirs)], wrong, call);
    }
}

fn compare_sets(run: &mut Run, r: &mut Numbers) {
    for k in 0..20_000 {
        let mut set = sets::small(r);
        if k % 3 == 0 {
            sets::damage(r, &mut set);
        }
        let more = r.below(3);
        run.set(r, "small", &set, more);
    }
    println!("{:<26} {:>8} {:>4} {:>4} {:>4} {:>4} {:>4}", "odd values in", "accepted", 4, 5, 6, 7, 9);
    for field in odd::fields() {
        run.odd(r, field);
    }
    for k in 0..20_000 {
        let mut set = sets::small(r);
        odd::several(r, &mut set);
        if k % 4 == 0 {
            sets::damage(r, &mut set);
        }
        run.set(r, "several odd", &set, 0);
    }
    for k in 0..sets::LEADING_SMALL {
        let set = sets::leading_small(r, k);
        run.set(r, "small leading", &set, 0);
    }
    for k in 0..sets::LEADING_FULL {
        let set = sets::leading_full(r, k);
        run.set(r, "full leading", &set, 0);
    }
    for k in 0..full::COUNT {
        run.set(&mut Numbers(1 + k as u64), "full with chains", &full::full(k).set, 0);
    }
    for k in 0..200 {
        let mut set = full_of_a_kind(r, k);
        run.set(r, "full", &set, 0);
        odd::several(r, &mut set);
        run.set(r, "full odd", &set, 0);
    }
    println!("satisfiable {}, contradictory {}, refused by number {:?}", run.verdicts[0], run.verdicts[1], &run.refusals[1..]);
    for number in 1..10 {
        run.count.show(&format!("refusal {number}"), run.refusals[number] > 0);
    }
}

fn compare_texts(run: &mut Run, r: &mut Numbers) {
    for k in 0..20_020 {
        let set = if k < 20 { sets::long_lines(r, 512, k % 4 < 2) } else { sets::small(r) };
        let mut text = set.text();
        if k % 2 == 1 {
            damage_text(r, &mut text, b"0123456789ABCDEFa\r\n ");
        }
        let room = [0; 3].map(|_| if r.one_in(100) { 511 } else { 512 + r.below(3) });
        run.text(r, &text, room);
    }
    println!("texts accepted {}, refused by number {:?}", run.texts[0], &run.texts[1..]);
}

fn compare_all() -> ExitCode {
    let mut r = Numbers(0x9E37_79B9_7F4A_7C15);
    let mut run = Run::new(Count::keeping("compare"), false);
    compare_sets(&mut run, &mut r);
    compare_texts(&mut run, &mut r);
    run.count.end()
}

fn compare_one(file: &str) -> ExitCode {
    let content = std::fs::read_to_string(file).map_err(|error| error.to_string());
    let mut run = Run::new(Count::plain(), true);
    match content.and_then(|content| Call::parse(&content)) {
        Ok(Call { seed, given: Given::Set { set, more, blame } }) => drop(run.call(&mut Numbers(seed), "the set", &set, more, blame)),
        Ok(Call { seed, given: Given::Text { text, room } }) => run.text(&mut Numbers(seed), &text, room),
        Err(error) => run.count.fail(&format!("{file}: {error}")),
    }
    run.count.end()
}

fn main() -> ExitCode {
    match std::env::args().nth(1) {
        None => watched("compare", compare_all),
        Some(file) => compare_one(&file),
    }
}
