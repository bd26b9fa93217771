//! The proved solver beside the rival, in one run: the total over the 200 full sets; the time of each on sets of 39 families, its ratio and
//! how it grows from 128 to 256 to 512 terms, for a whole solve without blame and for the verdict alone; contradictory full sets with blame
//! and without, as multiples of one verdict on them; and the proved reader beside the second solver's on full texts.
//!
//! `bench` prints it, as tables in Markdown. `bench --write`, from the root of the repository, also writes it into `docs/BENCHMARK.md` and
//! draws `docs/benchmark.svg`.

use comparison::memory::any_tables;
use comparison::plot::{svg, Chart};
use comparison::{full, proved, sets};
use second_solver::memory::Memory;
use second_solver::reader;
use second_solver::support::{mixed, Numbers, Set};
use second_solver::tables::{Input, Outcome};
use std::hint::black_box;
use std::process::ExitCode;
use std::time::Instant;

/// A set, and memory to lend.
type Job = (Set, Memory);
/// The seconds of the proved solver and of the rival.
type Times = [f64; 2];
/// A call of the proved solver and the same of the rival.
type Calls = [fn(&mut Job) -> Outcome; 2];

const SOLVE: Calls = [
    |(set, memory)| proved::solve(&set.input(), proved::NO_BLAME, &mut memory.lent()),
    |(set, memory)| rival::solve(&set.input(), &mut memory.lent()),
];
const VERDICT: Calls = [|(set, _)| proved::verdict(&set.input()), |(set, _)| rival::verdict(&Input { q: 0, ..set.input() })];

fn memory(set: &Set) -> Memory {
    let mut r = Numbers(7);
    Memory::new(set.cells(0), || r.next())
}

fn job(set: Set) -> Job {
    let memory = memory(&set);
    (set, memory)
}

/// How many propositions are marked.
fn blamed(memory: &Memory) -> usize {
    memory.marks.iter().filter(|&&mark| mark == 1).count()
}

/// How many sets of a family are solved by turns, so that a processor cannot learn the branches of one set.
const SETS: usize = 8;
const ROUNDS: usize = 20;
const SIZES: [usize; 3] = [128, 256, 512];

/// Makes both calls on a set and keeps the fastest time of each.
fn time(job: &mut Job, calls: Calls, best: &mut Times) {
    let outcomes = [0, 1].map(|k| {
        let start = Instant::now();
        let outcome = black_box(calls[k](black_box(job)));
        best[k] = best[k].min(start.elapsed().as_secs_f64());
        outcome
    });
    assert_eq!(outcomes[0], outcomes[1]);
}

/// The mean, over the sets, of the fastest call on a set, in 20 rounds over all sets.
fn by_turns(jobs: &mut [Job], calls: Calls) -> Times {
    let mut best = vec![[f64::MAX; 2]; jobs.len()];
    for _ in 0..ROUNDS {
        for (job, best) in jobs.iter_mut().zip(&mut best) {
            time(job, calls, best);
        }
    }
    mean(&best)
}

/// The same, where each set is solved 20 times in a row by one solver and then by the other.
fn alone(jobs: &mut [Job], calls: Calls) -> Times {
    let mut best = vec![[f64::MAX; 2]; jobs.len()];
    for (job, best) in jobs.iter_mut().zip(&mut best) {
        for k in [0, 1] {
            for _ in 0..ROUNDS {
                let start = Instant::now();
                black_box(calls[k](black_box(job)));
                best[k] = best[k].min(start.elapsed().as_secs_f64());
            }
        }
    }
    mean(&best)
}

fn mean(all: &[Times]) -> Times {
    [0, 1].map(|k| all.iter().map(|times| times[k]).sum::<f64>() / all.len() as f64)
}

fn microseconds(seconds: f64) -> String {
    format!("{:.*}", usize::from(seconds < 99.95e-6), seconds * 1e6)
}

/// A table in Markdown, its columns as wide as their longest cell; numbers stand on the right.
fn table(head: &[&str], rows: &[Vec<String>]) -> String {
    let width = |k: usize| rows.iter().map(|row| row[k].chars().count()).chain([head[k].chars().count()]).max().unwrap_or(0);
    let cells = |row: Vec<String>| -> String {
        let cell = |(k, cell): (usize, &String)| match k {
            0 => format!("| {cell:<0$} ", width(k)),
            _ => format!("| {cell:>0$} ", width(k)),
        };
        row.iter().enumerate().map(cell).collect::<String>() + "|\n"
    };
    let rule = |k: usize| format!("|{}{}", "-".repeat(width(k) + 1), if k == 0 { "-" } else { ":" });
    let rules: String = (0..head.len()).map(rule).collect();
    cells(head.iter().map(|cell| cell.to_string()).collect()) + &rules + "|\n" + &rows.iter().cloned().map(cells).collect::<String>()
}

/// The total over the 200 full sets.
fn total() -> String {
    let mut jobs: Vec<Job> = (0..full::COUNT).map(|k| job(full::full(k).set)).collect();
    let mut row = |name: &str, calls| {
        let times = by_turns(&mut jobs, calls).map(|mean| mean * full::COUNT as f64);
        let [ours, theirs] = times.map(|seconds| format!("{:.2}", seconds * 1e3));
        vec![name.into(), ours, theirs, format!("{:.2}", times[0] / times[1])]
    };
    let rows = [row("whole solve without blame", SOLVE), row("verdict alone", VERDICT)];
    table(&["200 full sets, total", "proved, ms", "rival, ms", "ratio"], &rows)
}

/// What is measured of one call on a family: the number of terms, and the times by turns and alone.
struct Measured {
    terms: usize,
    by_turns: Times,
    alone: Times,
}

struct Family {
    name: &'static str,
    solve: Vec<Measured>,
    verdict: Vec<Measured>,
}

impl Family {
    fn measure(&(name, build): &(&'static str, fn(&mut Numbers, usize) -> Set)) -> Family {
        let mut family = Family { name, solve: Vec::new(), verdict: Vec::new() };
        for size in SIZES {
            let made = |k| {
                let mut r = Numbers(7 + 1000 * k as u64);
                let mut set = build(&mut r, size);
                sets::questions(&mut r, &mut set, size);
                job(set)
            };
            let mut jobs: Vec<Job> = (0..SETS).map(made).collect();
            let terms = jobs[0].0.n;
            let mut measured = |calls| Measured { terms, by_turns: by_turns(&mut jobs, calls), alone: alone(&mut jobs, calls) };
            family.solve.push(measured(SOLVE));
            family.verdict.push(measured(VERDICT));
        }
        family
    }
}

/// The row of a family: times and ratio of the largest sets, and the growth of each solver, by turns and alone.
fn row(name: &str, measured: &[Measured]) -> Vec<String> {
    let growth = |solver: usize, times: fn(&Measured) -> Times| {
        let growth = |pair: &[Measured]| format!("{:.1}", times(&pair[1])[solver] / times(&pair[0])[solver]);
        measured.windows(2).map(growth).collect::<Vec<_>>().join(", ")
    };
    let [ours, theirs] = measured[measured.len() - 1].by_turns;
    vec![
        name.into(),
        microseconds(ours),
        microseconds(theirs),
        format!("{:.2}", ours / theirs),
        growth(0, |measured| measured.by_turns),
        growth(1, |measured| measured.by_turns),
        growth(0, |measured| measured.alone),
        growth(1, |measured| measured.alone),
    ]
}

fn families_table(call: &str, families: &[Family], of: fn(&Family) -> &[Measured]) -> String {
    let rows: Vec<_> = families.iter().map(|family| row(family.name, of(family))).collect();
    let head = [call, "proved, µs", "rival, µs", "ratio", "growth, proved", "growth, rival", "alone, proved", "alone, rival"];
    table(&head, &rows)
}

const FAMILIES: [(&str, fn(&mut Numbers, usize) -> Set); 39] = [
    ("chains", |_, size| sets::chains(size)),
    ("tied chains", |_, size| sets::tied_chains(size)),
    ("classes", sets::classes),
    ("one class", |_, size| sets::one_class(size)),
    ("random model", sets::model),
    ("star, read", |_, size| sets::star(size)),
    ("leading back", |_, size| sets::leading_back(size)),
    ("disequalities", sets::disequalities),
    ("listed twice", |_, size| sets::listed_twice(size)),
    ("twice, in cycle", |_, size| sets::listed_twice_in_a_cycle(size)),
    ("one slot", |_, size| sets::one_slot(size)),
    ("apart from one", |_, size| sets::apart_from_one(size)),
    ("variables read", |_, size| sets::variables_read(size)),
    ("one apart, read", |_, size| sets::apart_from_one_read(size)),
    ("two points read", |_, size| sets::two_points_read(size)),
    // differences that lead on
    ("walked chains", |_, size| sets::walked_chains(size, 1)),
    ("walked, twice", |_, size| sets::walked_chains(size, 2)),
    ("through atoms", |r, size| sets::chains_through_atoms(r, size, usize::MAX)),
    ("two arrays", |_, size| sets::two_arrays(size)),
    ("one class, read", sets::one_class_read),
    ("into one class", |r, size| sets::read_into_one_class(r, size, 1)),
    ("into one, wide", |r, size| sets::read_into_one_class(r, size, 1 << 10)),
    ("listed again 2", |r, size| sets::listed_again(r, size, 2)),
    ("listed again 4", |r, size| sets::listed_again(r, size, 4)),
    ("listed again 16", |r, size| sets::listed_again(r, size, 16)),
    ("few classes 2", |r, size| sets::few_classes(r, size, 2)),
    ("few classes 4", |r, size| sets::few_classes(r, size, 4)),
    ("few classes 16", |r, size| sets::few_classes(r, size, 16)),
    ("mixed 2", |r, size| mixed(r, size, 2, 8 * size, size / 16)),
    ("mixed 4", |r, size| mixed(r, size, 4, 8 * size, size / 16)),
    ("mixed 6", |r, size| mixed(r, size, 6, 8 * size, size / 16)),
    ("mixed 16", |r, size| mixed(r, size, 16, 8 * size, size / 16)),
    ("mixed 2, sparse", |r, size| mixed(r, size, 2, size * size / 8, size / 16)),
    ("mixed 4, narrow", |r, size| mixed(r, size, 4, size / 8, size / 16)),
    ("mixed 6, narrow", |r, size| mixed(r, size, 6, size / 8, size / 16)),
    ("mixed 16, narrow", |r, size| mixed(r, size, 16, size / 8, size / 16)),
    ("mixed 24, narrow", |r, size| mixed(r, size, 24, size / 8, size / 16)),
    ("mixed 2, wide", |r, size| mixed(r, size, 2, 1 << 20, size / 16)),
    ("mixed 2, narrow", |r, size| mixed(r, size, 2, size / 8, size / 16)),
];

/// The families that are drawn.
const DRAWN: [&str; 12] = [
    "chains",
    "random model",
    "one class",
    "star, read",
    "leading back",
    "disequalities",
    "listed twice",
    "classes",
    "one slot",
    "walked chains",
    "two arrays",
    "mixed 4",
];

fn drawn(families: &[Family]) -> String {
    let family = |name: &&str| families.iter().find(|family| family.name == *name).expect("a family that is drawn");
    let times = |measured: &Measured| (measured.terms, measured.by_turns);
    let chart = |family: &Family| Chart { name: family.name.into(), times: family.solve.iter().map(times).collect() };
    let charts: Vec<Chart> = DRAWN.iter().map(|name| chart(family(name))).collect();
    svg("Whole solve without blame: the proved solver and the rival", &charts)
}

fn median(values: impl Iterator<Item = f64>) -> f64 {
    let mut values: Vec<f64> = values.collect();
    values.sort_by(f64::total_cmp);
    values[values.len() / 2]
}

/// The median seconds of so many calls of each, made by turns.
fn medians<const N: usize>(calls: usize, mut all: [&mut dyn FnMut(); N]) -> [f64; N] {
    let mut times = [(); N].map(|_| Vec::new());
    for _ in 0..calls {
        for (call, times) in all.iter_mut().zip(&mut times) {
            let start = Instant::now();
            call();
            times.push(start.elapsed().as_secs_f64());
        }
    }
    times.map(|times| median(times.into_iter()))
}

/// A contradictory set with 512 questions, with blame and without, beside one verdict on it. Blame makes a verdict for the set and more on
/// parts of it, 512 where all propositions are blamed, at most 40 where two are; without it there is one verdict.
fn blame(name: &str, mut set: Set) -> Vec<String> {
    sets::questions(&mut Numbers(7), &mut set, 512);
    let mut memory = memory(&set);
    assert_eq!(proved::verdict(&set.input()), Outcome::Contradiction);
    let alone = &mut || {
        black_box(proved::verdict(black_box(&set.input())));
    };
    let without = &mut || {
        black_box(proved::solve(black_box(&set.input()), proved::NO_BLAME, &mut memory.lent()));
    };
    let [one, without] = medians(1001, [alone, without]);
    assert_eq!(blamed(&memory), 0);
    let with = &mut || {
        black_box(proved::solve(black_box(&set.input()), proved::BLAME, &mut memory.lent()));
    };
    // Each call with blame beside verdicts made just before it: the processor's clock changes between one and the next.
    let rounds: Vec<[f64; 2]> = (0..11).map(|_| [medians(101, [alone])[0], medians(1, [with])[0]]).collect();
    let [whole, verdicts] = [|round: &[f64; 2]| round[1], |round: &[f64; 2]| round[1] / round[0]].map(|value| median(rounds.iter().map(value)));
    vec![
        name.into(),
        set.n.to_string(),
        set.m.to_string(),
        blamed(&memory).to_string(),
        microseconds(one),
        format!("{:.2}", without / one),
        microseconds(whole),
        format!("{verdicts:.0}"),
    ]
}

fn blames() -> String {
    let mut two = sets::one_class(511);
    two.term(2, 511, 0);
    two.proposition(0x11, 0, 1, 1);
    let mut cycle = sets::one_class(512);
    cycle.proposition(0x11, 0, 0, 511);
    let rows = [
        blame("of few", two),
        blame("of all", cycle),
        blame("beside chains", sets::cycle_beside_chains(512)),
        blame("listed twice", sets::listed_twice_in_a_cycle(512)),
    ];
    let head =
        ["blame", "terms", "propositions", "blamed", "one verdict, µs", "without blame, verdicts", "with blame, µs", "with blame, verdicts"];
    table(&head, &rows)
}

/// Both readers on a text that fills all tables.
fn reading(name: &str, set: &Set) -> Vec<String> {
    let text = set.text();
    let mut lent = any_tables(&mut Numbers(7), [512; 3]);
    let counts = proved::read(&text, &mut proved::room(&mut lent));
    assert_eq!(counts, Ok([512, 512, 512]));
    assert_eq!(reader::read(&text, [512; 3]), Ok(lent.clone()));
    let ours = &mut || {
        black_box(proved::read(black_box(&text), &mut proved::room(&mut lent))).ok();
    };
    let theirs = &mut || {
        black_box(reader::read(black_box(&text), [512; 3])).ok();
    };
    let [ours, theirs] = medians(101, [ours, theirs]);
    vec![name.into(), text.len().to_string(), microseconds(ours), microseconds(theirs), format!("{:.2}", ours / theirs)]
}

fn readers() -> String {
    // 512 lines of 15 bytes and 1,024 of 19 are 27,136 bytes. Term 0 has no earlier term to read from, so the longest accepted text has
    // an atom of 7 bytes there: 27,128.
    let longest = reading("longest text", &sets::long_lines(&mut Numbers(7), 512, false));
    let atoms = reading("512 atoms", &sets::long_lines(&mut Numbers(7), 512, true));
    table(&["reader", "bytes", "proved, µs", "second, µs", "ratio"], &[longest, atoms])
}

/// The processor's name and the number of its cores.
fn machine() -> String {
    let about = std::fs::read_to_string("/proc/cpuinfo").unwrap_or_default();
    let name = about.lines().find_map(|line| line.strip_prefix("model name")?.split_once(": "));
    let name = name.map_or("unknown processor", |(_, name)| name);
    let cores = std::thread::available_parallelism().map_or(1, usize::from);
    format!("Measured on {cores} cores of: {name}.\n")
}

const PAGE: &str = "docs/BENCHMARK.md";
const PICTURE: &str = "docs/benchmark.svg";
/// The lines of the page between which the tables stand.
const BEGIN: &str = "<!-- written by the benchmark: begin -->\n";
const END: &str = "<!-- written by the benchmark: end -->\n";

/// The page with other tables.
fn with_tables(page: &str, tables: &str) -> Option<String> {
    let (before, rest) = page.split_once(BEGIN)?;
    let (_, after) = rest.split_once(END)?;
    Some(format!("{before}{BEGIN}\n{tables}\n{END}{after}"))
}

fn write(tables: &str, picture: &str) -> Result<(), String> {
    let page = std::fs::read_to_string(PAGE).map_err(|error| format!("{PAGE}: {error}"))?;
    let page = with_tables(&page, tables).ok_or(format!("{PAGE} has no place for the tables"))?;
    std::fs::write(PAGE, page).map_err(|error| format!("{PAGE}: {error}"))?;
    std::fs::write(PICTURE, picture).map_err(|error| format!("{PICTURE}: {error}"))
}

fn main() -> ExitCode {
    let arguments: Vec<String> = std::env::args().skip(1).collect();
    let writes = arguments == ["--write"];
    if !writes && !arguments.is_empty() {
        eprintln!("usage: bench [--write]");
        return ExitCode::from(2);
    }
    let mut parts = vec![machine()];
    let mut show = |part: String| {
        println!("{part}");
        parts.push(part);
    };
    show(total());
    let families: Vec<Family> = FAMILIES.iter().map(Family::measure).collect();
    show(families_table("whole solve", &families, |family| &family.solve));
    show(families_table("verdict alone", &families, |family| &family.verdict));
    show(blames());
    show(readers());
    match if writes { write(&parts.join("\n"), &drawn(&families)) } else { Ok(()) } {
        Ok(()) => ExitCode::SUCCESS,
        Err(error) => {
            eprintln!("{error}");
            ExitCode::FAILURE
        }
    }
}
