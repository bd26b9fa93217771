//! Compares the output of the proved program with that of the second solver's program, byte for byte, on texts of several groups.
//! Of each call also: `out` beyond the output, the cells beyond `out`, and the text with what stands around it are unchanged. Some
//! calls have an `out` too short: they return 0 and write nothing. Last line: "N passed, M failed".
//!
//! `texts FILE [CALLS]` compares both on the text of a file, with the memory that the call after so many has, and prints what both write.
//! If a file of the same name with the extension `out` is beside it, that is the output that is wanted.

use comparison::count::{keep, keep_text, watched, Count};
use comparison::proved::{self, LARGEST_OUTPUT};
use comparison::texts::{self, Text, DAMAGES};
use second_solver::program::{self, JUDGED};
use second_solver::support::Numbers;
use second_solver::tables::Blame;
use std::collections::hash_map::DefaultHasher;
use std::collections::HashSet;
use std::hash::{Hash, Hasher};
use std::path::Path;
use std::process::ExitCode;

/// Cells beyond `out`, and bytes before the text.
const GUARD: usize = 16;
/// What stands in memory after the text: a reader that goes too far would find the end of a line or another frame.
const AFTER: [&[u8]; 4] = [b"\n0000000000000000000", b"020FED\n020FEE\n", b"210000000000000000\n", b"0\n0\n0\n0\n0\n"];

/// What the texts and outputs are.
#[derive(Default)]
struct Seen {
    /// Hashes of the texts; two with one hash would only lower the count.
    distinct: HashSet<u64>,
    short: usize,
    verdicts: [usize; 2],
    blamed: usize,
    answers: [usize; 4],
    refusals: [usize; 11],
    largest: usize,
}

impl Seen {
    fn note(&mut self, text: &[u8], output: &[u8]) {
        let mut hasher = DefaultHasher::new();
        text.hash(&mut hasher);
        self.distinct.insert(hasher.finish());
        self.largest = self.largest.max(output.len());
        for line in output.split(|&byte| byte == b'\n') {
            let number = |from: usize| -> usize {
                let digits = std::str::from_utf8(&line[from..from + 2]).expect("digits");
                usize::from_str_radix(digits, 16).expect("a number")
            };
            match line.get(..2) {
                Some(b"A0") => self.verdicts[number(2)] += 1,
                Some(b"A2") => self.blamed += 1,
                Some(b"A3") => self.answers[number(6)] += 1,
                Some(b"A4") => self.refusals[number(2)] += 1,
                _ => {}
            }
        }
    }

    fn print(&self) {
        println!(
            "satisfiable {}, contradictory {}, blamed propositions {}, answers by number {:?}, refused by number {:?}",
            self.verdicts[0],
            self.verdicts[1],
            self.blamed,
            self.answers,
            &self.refusals[1..]
        );
        println!("{} distinct texts, {} calls with out too short", self.distinct.len(), self.short);
    }
}

struct Run {
    count: Count,
    /// Two contents of `out` before a call, each byte unlike in both.
    before: [Vec<u8>; 2],
    out: Vec<u8>,
    calls: usize,
    seen: Seen,
}

/// The proved function; for longer texts on the stack that the header states.
fn output_proved(text: &[u8], out: &mut [u8]) -> usize {
    if text.len() < 4096 {
        proved::output(text, out)
    } else {
        proved::on_stack(proved::OUTPUT_STACK, || proved::output(text, out))
    }
}

/// Keeps a text that failed in the call after so many, with the output that is wanted where it is known.
fn keep_failed(stem: &Path, text: &Text, calls: usize) -> String {
    if let Some(wanted) = &text.wanted {
        keep(stem, "out", wanted);
    }
    keep_text(stem, &text.bytes, &format!(" {calls}"))
}

impl Run {
    fn new(count: Count) -> Run {
        let mut r = Numbers(0x0123_4567_89AB_CDEF);
        let one: Vec<u8> = (0..LARGEST_OUTPUT + 1000 + GUARD).map(|_| r.next() as u8).collect();
        let other = one.iter().map(|byte| !byte).collect();
        Run { count, out: one.clone(), before: [one, other], calls: 0, seen: Seen::default() }
    }

    /// Calls the proved function with the first `length` cells of `out`; says what is wrong, `expected` being what is to be written.
    fn call(&mut self, text: &[u8], length: usize, expected: &[u8]) -> Result<(), String> {
        self.calls += 1;
        let before = &self.before[self.calls % 2];
        self.out.copy_from_slice(before);
        let around = [&[b'\n'; GUARD], text, AFTER[self.calls / 2 % AFTER.len()]].concat();
        let memory = around.clone();
        let written = output_proved(&memory[GUARD..GUARD + text.len()], &mut self.out[..length]);
        if memory != around {
            return Err("the text, or what stands around it, is changed".into());
        }
        if written != expected.len() {
            let start = &self.out[..written.min(60).min(length)];
            return Err(format!("the proved program writes {written} bytes and not {}: {}", expected.len(), start.escape_ascii()));
        }
        if let Some(k) = (0..written).find(|&k| self.out[k] != expected[k]) {
            let line = expected[..k].iter().filter(|&&byte| byte == b'\n').count();
            let frame = |output: &[u8]| output.split(|&byte| byte == b'\n').nth(line).unwrap_or(b"").escape_ascii().to_string();
            return Err(format!("line {line}: proved {}, second {}", frame(&self.out[..written]), frame(expected)));
        }
        if let Some(k) = (written..self.out.len()).find(|&k| self.out[k] != before[k]) {
            return Err(format!("cell {k} of out is changed, {written} bytes are written of {length} lent"));
        }
        Ok(())
    }

    fn text(&mut self, group: &str, text: &Text) {
        let (bytes, calls) = (&text.bytes, self.calls);
        self.count.record(|stem| keep_failed(stem, text, calls));
        let expected = program::run(bytes);
        self.seen.note(bytes, &expected);
        let mut result = match &text.wanted {
            Some(wanted) if *wanted != expected => {
                let shown = |output: &[u8]| output[..output.len().min(60)].escape_ascii().to_string();
                Err(format!("the second solver writes {} and not {}", shown(&expected), shown(wanted)))
            }
            _ => Ok(()),
        };
        // judging the first 32,768 bytes gives the same answer as judging all
        if bytes.len() > JUDGED && result.is_ok() && program::frames(&program::solve_text(bytes, Blame::Asked)) != expected {
            result = Err("the second solver judges the whole text otherwise".into());
        }
        let more = [0, 1, 1000][self.calls % 3];
        let result = result.and_then(|()| self.call(bytes, LARGEST_OUTPUT + more, &expected));
        self.count.add(group, result, |stem| keep_failed(stem, text, calls));
        if self.calls % 17 == 0 {
            let length = [LARGEST_OUTPUT - 1, 0, LARGEST_OUTPUT - 1, self.calls * 7 % LARGEST_OUTPUT][self.calls / 17 % 4];
            let result = self.call(bytes, length, b"");
            self.seen.short += 1;
            self.count.add("out too short", result, |stem| keep_failed(stem, text, calls));
        }
    }

    fn group(&mut self, group: &str, texts: &[Text]) {
        for text in texts {
            self.text(group, text);
        }
        println!("{group}: {} texts", texts.len());
    }

    fn groups(&mut self, r: &mut Numbers) {
        let sets: Vec<Vec<Vec<u8>>> = (0..3000).map(|_| texts::accepted(r).lines()).collect();
        let whole: Vec<Text> = sets.iter().map(|lines| Text { bytes: lines.concat(), wanted: None }).collect();
        self.group("accepted", &whole);
        let Seen { refusals, verdicts, blamed, .. } = &self.seen;
        self.count.show("accepted sets are accepted", refusals.iter().sum::<usize>() == 0);
        self.count.show("accepted sets of both verdicts, with blame", verdicts.iter().all(|&times| times > 500) && *blamed > 500);
        for (way, name) in DAMAGES.iter().enumerate() {
            let damaged = sets.iter().filter_map(|lines| texts::damage(r, lines, way));
            let damaged: Vec<Text> = damaged.map(|bytes| Text { bytes, wanted: None }).collect();
            self.group(name, &damaged);
            self.count.show("many texts with this damage", damaged.len() > 1500);
        }
        self.group("large", &texts::large(r));
        self.group("limits", &texts::limits());
        self.group("orders of refusals", &texts::orders());
        self.group("first of two faults", &texts::first_faults());
        self.group("long", &texts::long(r));
        self.group("strange bytes", &texts::strange(r));
        let every = texts::every_byte();
        self.group("every byte at every place", &every);
        self.count.show("24,832 texts with every byte at every place", every.len() == 256 * (7 + 7 + 15 + 19 + 19 + 11 + 19));
    }

    /// What the texts have to show in all.
    fn show(&mut self) {
        let (seen, count) = (&self.seen, &mut self.count);
        count.show("20,000 distinct texts", seen.distinct.len() >= 20_000);
        count.show("calls with out too short", seen.short >= 1000);
        count.show("the largest output", seen.largest == LARGEST_OUTPUT);
        count.show("every answer", seen.answers.iter().all(|&times| times > 0));
        for number in [1, 2, 3, 4, 5, 6, 7, 9, 10] {
            count.show(&format!("refusal {number}"), seen.refusals[number] > 0);
        }
        count.show("no refusal 8", seen.refusals[8] == 0);
    }
}

fn compare_all() -> ExitCode {
    let mut run = Run::new(Count::keeping("texts"));
    run.groups(&mut Numbers(0x9E37_79B9_7F4A_7C15));
    run.seen.print();
    run.show();
    run.count.end()
}

fn compare_one(file: &str, calls: usize) -> ExitCode {
    let mut run = Run::new(Count::plain());
    run.calls = calls;
    match std::fs::read(file) {
        Ok(bytes) => {
            for (whose, output) in [("proved program", proved::run(&bytes)), ("second solver", program::run(&bytes))] {
                println!("the {whose} writes:\n{}", String::from_utf8_lossy(&output));
            }
            run.text(file, &Text { bytes, wanted: std::fs::read(Path::new(file).with_extension("out")).ok() });
        }
        Err(error) => run.count.fail(&format!("{file}: {error}")),
    }
    run.count.end()
}

fn main() -> ExitCode {
    let arguments: Vec<String> = std::env::args().skip(1).collect();
    match &arguments[..] {
        [] => watched("texts", compare_all),
        [file] => compare_one(file, 0),
        [file, calls, ..] => compare_one(file, calls.parse().expect("a number of calls")),
    }
}
