//! The reader and the program on texts.

use second_solver::program::run;
use second_solver::reader::{read, Refusal};
use second_solver::support::{damage_text, Numbers};

const ROOM: [usize; 3] = [512; 3];

fn refused(text: &[u8]) -> (u8, u16, &[u8]) {
    let Refusal {
        number,
        frame,
        part,
    } = read(text, ROOM).unwrap_err();
    let output = format!("A4{number:02X}{frame:04X}\n");
    assert_eq!(run(text), output.into_bytes());
    (number, frame, &text[part])
}

#[test]
fn room_is_tested_first() {
    for room in [[511, 512, 512], [512, 0, 512], [513, 512, 511]] {
        let refusal = Refusal {
            number: 8,
            frame: 0,
            part: 0..0,
        };
        assert_eq!(read(b"\n\n", room), Err(refusal.clone()));
        assert_eq!(read(b"", room), Err(refusal));
    }
    assert!(read(b"", [512, 513, usize::MAX]).is_ok());
}

#[test]
fn records() {
    let tables = read(b"01FFFF\n02FFFF\n0300018000000\n", ROOM);
    assert_eq!(tables.unwrap_err().number, 9);
    let tables = read(
        b"01FFFF\n02FFFF\n03000180000000\n1100027FFFFFFF0000\n1300010002\n210000FFFFFFFF0002\n",
        ROOM,
    )
    .unwrap();
    let terms: Vec<_> = tables
        .terms
        .iter()
        .map(|r| (r.kind, r.number, r.offset))
        .collect();
    assert_eq!(
        terms,
        [(1, 65535, 0), (2, 65535, 0), (3, 1, -2_147_483_648)]
    );
    let propositions: Vec<_> = tables
        .propositions
        .iter()
        .map(|r| (r.kind, r.left, r.offset, r.right))
        .collect();
    assert_eq!(propositions, [(0x11, 2, 2_147_483_647, 0), (0x13, 1, 0, 2)]);
    let questions: Vec<_> = tables
        .questions
        .iter()
        .map(|r| (r.left, r.offset, r.right))
        .collect();
    assert_eq!(questions, [(0, -1, 2)]);
}

#[test]
fn badly_formed_lines() {
    assert_eq!(refused(b"\n"), (9, 0, &b""[..]));
    assert_eq!(refused(b"010001\n\n010002\n"), (9, 1, &b""[..]));
    assert_eq!(refused(b"010001"), (9, 0, &b"010001"[..]));
    assert_eq!(refused(b"010001\n02"), (9, 1, &b"02"[..]));
    assert_eq!(refused(b"010001\r\n"), (9, 0, &b"010001\r"[..]));
    assert_eq!(refused(b"01000a\n"), (9, 0, &b"01000a"[..]));
    assert_eq!(refused(b"01 0001\n"), (9, 0, &b"01 0001"[..]));
    assert_eq!(refused(b"0100010\n"), (9, 0, &b"0100010"[..]));
    assert_eq!(refused(b"01000100\n"), (9, 0, &b"01000100"[..]));
    assert_eq!(refused(b"0\n"), (9, 0, &b"0"[..]));
    assert_eq!(refused(b"00\n"), (9, 0, &b"00"[..]));
    assert_eq!(refused(b"A00000\n"), (9, 0, &b"A00000"[..]));
    assert_eq!(refused(b"01000\x00\n"), (9, 0, &b"01000\x00"[..]));
    assert_eq!(refused(b"01000\xff\n"), (9, 0, &b"01000\xff"[..]));
    // The one faulty frame is told, also behind accepted ones.
    assert_eq!(refused(b"010001\n010002\nG\n010001\n"), (9, 2, &b"G"[..]));
}

#[test]
fn groups_and_precedence() {
    let (term, equality, question) = ("020001\n", "110000000000000000\n", "210000000000000000\n");
    let texts = |parts: &[&str]| parts.concat().into_bytes();
    // 10: an earlier group after a later one.
    for (text, frame) in [
        (texts(&[term, equality, "020002\n"]), 2),
        (texts(&[term, question, "020002\n"]), 2),
        (texts(&[term, question, equality]), 2),
        (
            texts(&[term, equality, question, question, "1300000000\n"]),
            4,
        ),
    ] {
        let (number, place, _) = refused(&text);
        assert_eq!((number, place), (10, frame));
    }
    // 9 before 10, 10 before 4 to 7.
    assert_eq!(refused(&texts(&[term, equality, "02\n"])).0, 9);
    assert_eq!(refused(&texts(&[term, equality, term])).0, 10);
    assert_eq!(refused(&texts(&[term, equality, "03000900000000\n"])).0, 10);
    assert_eq!(refused(&texts(&[term, question, "1300000009\n"])).0, 10);
    // 10 before 1 and 2, these before 4 to 6.
    let terms: String = (0..512).map(|k| format!("02{k:04X}\n")).collect();
    assert_eq!(
        refused(&texts(&[&terms, equality, "030000FFFFFFFF\n"])).0,
        10
    );
    assert_eq!(refused(&texts(&[&terms, term])).0, 1);
    assert_eq!(refused(&texts(&[&terms, "03FFFF00000000\n"])).0, 1);
    let equalities = equality.repeat(512);
    assert_eq!(refused(&texts(&[term, &equalities, "1300000001\n"])).0, 2);
    assert_eq!(
        refused(&texts(&[term, &equalities, question, equality])).0,
        10
    );
    let questions = question.repeat(512);
    assert_eq!(
        refused(&texts(&[term, &questions, "210001000000000001\n"])).0,
        3
    );
    // The first faulty frame decides.
    assert_eq!(refused(&texts(&[term, term, "\n"])), (5, 1, &b"020001"[..]));
    assert_eq!(refused(b"03000000000000\n\n").0, 4);
    assert_eq!(refused(b"1300000000\n").0, 6);
    assert_eq!(refused(b"210000000000000000\n").0, 7);
}

#[test]
fn long_texts() {
    // 513 terms, a question too many, and a line that never ends.
    let mut text = Vec::new();
    for k in 0..513 {
        text.extend(format!("01{k:04X}\n").bytes());
    }
    assert_eq!(refused(&text), (1, 512, &b"010200"[..]));
    text.truncate(512 * 7);
    for _ in 0..512 {
        text.extend(b"130000FFFF\n");
    }
    assert_eq!(refused(&text), (6, 512, &b"130000FFFF"[..]));

    // Longest accepted text, and what judging only the first bytes gives.
    let mut text = b"010000\n".to_vec();
    for _ in 0..511 {
        text.extend(b"03000000000000\n");
    }
    for _ in 0..512 {
        text.extend(b"110000000000000000\n");
    }
    for _ in 0..512 {
        text.extend(b"210000000000000000\n");
    }
    assert_eq!(text.len(), 27_136 - 8);
    let output = run(&text);
    assert!(output.starts_with(b"A000\n"));
    let mut long = text.clone();
    long.extend(vec![b'0'; 100_000]);
    assert_eq!(refused(&text[..text.len() - 1]).0, 9);
    assert_eq!(run(&long), b"A4090600\n");
    assert_eq!(read(&long, ROOM).unwrap_err().frame, 0x600);
    let mut more = text.clone();
    for _ in 0..1000 {
        more.extend(b"210000000000000000\n");
    }
    assert_eq!(refused(&more), (3, 1536, &b"210000000000000000"[..]));
}

#[test]
fn random_bytes_are_judged() {
    // Random edits of a valid text: the reader never fails otherwise than by a
    // refusal whose part is a whole line.
    let base =
        b"010001\n020001\n03000000000000\n110001FFFFFFFC0000\n1300000002\n210003000000000002\n";
    let mut r = Numbers(1);
    let mut numbers = [0; 11];
    for _ in 0..20_000 {
        let mut text = base.to_vec();
        for _ in 0..1 + r.below(3) {
            damage_text(&mut r, &mut text, b"0123ADEFa\r\n\n \x00G");
        }
        if let Err(refusal) = read(&text, ROOM) {
            let before = &text[..refusal.part.start];
            assert_eq!(
                before.iter().filter(|&&b| b == b'\n').count(),
                refusal.frame as usize
            );
            assert!(before.is_empty() || before.ends_with(b"\n"));
            assert!(!text[refusal.part.clone()].contains(&b'\n'));
            assert!(matches!(text.get(refusal.part.end), None | Some(b'\n')));
            numbers[refusal.number as usize] += 1;
        } else {
            numbers[0] += 1;
        }
        let output = run(&text);
        assert!(output.starts_with(b"A0") || output.starts_with(b"A4"));
    }
    assert!([0, 4, 5, 6, 7, 9].iter().all(|&k| numbers[k] > 0));
}
