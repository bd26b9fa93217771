//! Case files: what is a case, and that each block of one is judged.

use comparison::cases::{Case, SOLVERS};

const INPUT: &str = "input:\n010000\n010001\n020000\n210000000000000001\n";
const HEX: &str =
    "input-hex:\n30 31 30 30 30 30 0A 303130 303031\n0a3032303030300a\n# so far the terms\n3231303030303030303030303030303030310A\n";
const OUTPUT: &str = "output:\nA000\nA1000000000000000000000000\nA1000100010000000000000000\nA1000200020000000000000000\nA3000002\n";
const PAIRS: &str = "pairs:\n0 1\n1 0\n";

/// What both solvers say of the case.
fn judged(content: &str) -> [Result<(), String>; 2] {
    let case = Case::parse(content).expect("a case");
    [0, 1].map(|k| case.judge(&SOLVERS[k]))
}

#[test]
fn cases_pass() {
    for content in [
        [INPUT, OUTPUT, PAIRS].concat(),
        [PAIRS, OUTPUT, HEX].concat(),
        ["\n# reasoning\n", INPUT, "# more\n", OUTPUT].concat(),
        ["input:\n", "output:\nA000\n", "pairs:\n"].concat(),
        ["input:\n\n", "output:\nA4090000\n"].concat(),
        ["input-hex:\nFF\n", "output:\nA4090000\n"].concat(),
    ] {
        assert_eq!(judged(&content), [Ok(()), Ok(())], "{content}");
    }
}

#[test]
fn each_block_is_judged() {
    let refused = "input:\n1300000000\noutput:\nA4060000\n";
    for (content, reason) in [
        ([INPUT, &OUTPUT.replace("A3000002", "A3000001"), PAIRS].concat(), "output, line 4: "),
        ([INPUT, OUTPUT, "A3000102\n", PAIRS].concat(), "output, line 5: "),
        ([INPUT, "020001\n", OUTPUT, PAIRS].concat(), "output, line 0: "),
        ([INPUT, OUTPUT, "pairs:\n0 1\n"].concat(), "pair 1 0: "),
        ([INPUT, OUTPUT, PAIRS, "2 0\n"].concat(), "pair 2 0: "),
        ([INPUT, OUTPUT, PAIRS, "0 3\n"].concat(), "pair 0 3 names no term"),
        ([refused, "pairs:\n"].concat(), "pairs of a text refused with 6"),
    ] {
        for result in judged(&content) {
            assert!(result.as_ref().is_err_and(|told| told.starts_with(reason)), "{result:?} of {content}");
        }
    }
}

#[test]
fn other_files_are_no_cases() {
    for content in [
        String::new(),
        OUTPUT.into(),
        INPUT.into(),
        [INPUT, HEX, OUTPUT].concat(),
        [INPUT, OUTPUT, INPUT].concat(),
        [INPUT, OUTPUT, PAIRS, OUTPUT].concat(),
        [INPUT, OUTPUT, PAIRS, PAIRS].concat(),
        ["no block\n", INPUT, OUTPUT].concat(),
        [HEX, "0\n", OUTPUT].concat(),
        [HEX, "0G\n", OUTPUT].concat(),
        [INPUT, OUTPUT, PAIRS, "\n"].concat(),
        [INPUT, OUTPUT, PAIRS, "1\n"].concat(),
        [INPUT, OUTPUT, PAIRS, "1 -1\n"].concat(),
    ] {
        assert!(Case::parse(&content).is_err(), "{content}");
    }
}
