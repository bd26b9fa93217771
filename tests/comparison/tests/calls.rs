//! Call files and texts hold the calls and sets that are written to them.

use comparison::calls::{Call, Given};
use comparison::{odd, sets};
use second_solver::memory::Memory;
use second_solver::reader::read;
use second_solver::support::{Numbers, Set};
use second_solver::tables::{solve, Blame, Outcome};

/// A set of any kind: whole, damaged, with odd values, or both.
fn any_set(r: &mut Numbers) -> Set {
    let mut set = sets::small(r);
    if r.one_in(2) {
        odd::several(r, &mut set);
    }
    if r.one_in(2) {
        sets::damage(r, &mut set);
    }
    set
}

#[test]
fn calls_are_parsed_as_they_are_written() {
    let mut r = Numbers(1);
    let (mut odd, mut missing) = (0, 0);
    for k in 0..20_000 {
        let given = if k % 4 == 0 {
            let text = (0..r.below(40)).map(|_| if r.one_in(4) { b'\n' } else { r.next() as u8 }).collect();
            Given::Text { text, room: [0; 3].map(|_| r.next() as usize) }
        } else {
            let (set, more, blame) = (any_set(&mut r), r.below(3), r.next() as usize);
            odd += usize::from(!set.fits());
            missing += usize::from(set.missing != [0; 5]);
            Given::Set { set, more, blame }
        };
        let call = Call { seed: r.next(), given };
        assert_eq!(Call::parse(&call.to_string()), Ok(call));
    }
    assert!(odd > 1000 && missing > 100);
}

#[test]
fn other_lines_are_not_part_of_a_call() {
    for file in ["", "\n", "solved\n", "term 1 0 0\n"] {
        assert!(Call::parse(file).is_err(), "{file:?}");
    }
    let of_lent = ["counts 1 2 3", "more 1", "blame 18446744073709551615", "missing 0 0 0 0 1"];
    let of_records = ["term 1 0 0", "proposition 11 0 -1 0", "question 0 0 0"];
    let of_solve = [&of_lent[..], &of_records].concat();
    let of_read = ["room 1 2 3", "bytes 0aF0"];
    for (call, own, other) in [("solve", &of_solve[..], &of_read[..]), ("read", &of_read, &of_solve)] {
        for line in own.iter().chain(&["seed FFFFFFFFFFFFFFFF"]) {
            assert!(Call::parse(&format!("{call}\n{line}\n")).is_ok(), "{call} {line}");
            let (all_but_one, _) = line.rsplit_once(' ').expect("two words");
            for bad in [format!("{line} 0"), format!("{line}x"), all_but_one.into(), format!(" {line}"), line.to_uppercase()] {
                assert!(Call::parse(&format!("{call}\n{bad}\n")).is_err(), "{call} {bad}");
            }
        }
        for line in other {
            assert!(Call::parse(&format!("{call}\n{line}\n")).is_err(), "{call} {line}");
        }
    }
    for line in ["bytes 0", "bytes 0G", "bytes 012", "seed 10000000000000000"] {
        assert!(Call::parse(&format!("read\n{line}\n")).is_err(), "{line}");
    }
}

/// A set that is accepted fits into a text, and a text that a set is written to is read as that set.
#[test]
fn sets_that_fit_are_read_from_their_texts() {
    let mut r = Numbers(2);
    let (mut accepted, mut refused) = (0, 0);
    for _ in 0..20_000 {
        let set = any_set(&mut r);
        let mut memory = Memory::new(set.cells(0), || 0);
        let outcome = solve(&set.input(), Blame::NotAsked, &mut memory.lent());
        if !set.fits() {
            assert!(matches!(outcome, Outcome::Refused { .. }), "{set:?}");
            continue;
        }
        // too little memory is refused before the records are looked at
        let refusal = match outcome {
            Outcome::Refused { number, .. } => Some(number).filter(|&number| number != 8),
            _ => None,
        };
        match read(&set.text(), [512; 3]) {
            Ok(tables) => {
                accepted += 1;
                assert_eq!(refusal, None, "{set:?}");
                assert_eq!(tables, set.tables);
            }
            Err(of_text) => {
                refused += 1;
                assert!(set.missing != [0; 5] || refusal == Some(of_text.number), "{set:?}");
            }
        }
    }
    assert!(accepted > 1000 && refused > 500);
}
