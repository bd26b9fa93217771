//! Texts for the program: accepted, damaged, at the limits, long, and with every byte value at every place of a frame.

use crate::sets;
use second_solver::support::{Numbers, Set};

/// A text. `wanted` is the output where it is known from how the text was made, without either solver.
pub struct Text {
    pub bytes: Vec<u8>,
    pub wanted: Option<Vec<u8>>,
}

fn plain(bytes: Vec<u8>) -> Text {
    Text { bytes, wanted: None }
}

fn refused(bytes: Vec<u8>, number: u8, place: usize) -> Text {
    Text { bytes, wanted: Some(format!("A4{number:02X}{place:04X}\n").into_bytes()) }
}

// Accepted sets

/// Atoms of both kinds with equal numbers and numbers at the ends, dereferences listed again, propositions listed again, questions
/// close to the propositions.
fn close_set(r: &mut Numbers) -> Set {
    const ATOMS: [usize; 6] = [0, 1, 255, 256, 65_534, 65_535];
    let mut set = Set::default();
    let mut free: Vec<(u64, usize)> = ATOMS.iter().flat_map(|&number| [(1, number), (2, number), (2, number ^ 2)]).collect();
    for _ in 0..1 + r.below(9) {
        let dereferences: Vec<usize> = (0..set.n).filter(|&t| set.tables.terms[t].kind == 3).collect();
        if set.n == 0 || r.one_in(3) {
            let (kind, number) = free.swap_remove(r.below(free.len()));
            set.term(kind, number, 0);
        } else if !dereferences.is_empty() && r.one_in(3) {
            let again = set.tables.terms[dereferences[r.below(dereferences.len())]];
            set.term(3, again.number as usize, again.offset as i32);
        } else {
            let inner = if r.one_in(2) { set.n - 1 } else { r.below(set.n) };
            let z = if r.one_in(2) { 0 } else { r.offset() };
            set.term(3, inner, z);
        }
    }
    for _ in 0..r.below(7) {
        if set.m > 0 && r.one_in(4) {
            let again = set.tables.propositions[r.below(set.m)];
            set.proposition(again.kind, again.left as usize, again.offset as i32, again.right as usize);
        } else {
            let kind = [0x11, 0x11, 0x12, 0x12, 0x12, 0x13][r.below(6)];
            let (left, right) = (r.below(set.n), r.below(set.n));
            let z = if kind == 0x13 || r.one_in(2) { 0 } else { r.offset() };
            set.proposition(kind, left, z, right);
        }
    }
    questions_close(r, &mut set);
    set
}

/// Questions that ask for a proposition, for its reverse, beside it, or for any two terms.
fn questions_close(r: &mut Numbers, set: &mut Set) {
    for _ in 0..r.below(7) {
        if set.m > 0 && !r.one_in(3) {
            let near = set.tables.propositions[r.below(set.m)];
            let (left, z, right) = (near.left as usize, near.offset as i32, near.right as usize);
            match r.below(3) {
                0 => set.question(left, z, right),
                1 => set.question(right, z.wrapping_neg(), left),
                _ => set.question(left, z ^ 1, right),
            }
        } else {
            let (left, z, right) = (r.below(set.n), r.offset(), r.below(set.n));
            set.question(left, z, right);
        }
    }
}

/// Two chains of dereferences of the same addresses, with a disequality, a block disequality or nothing between their ends, and
/// propositions about a third atom between.
fn chain_set(r: &mut Numbers) -> Set {
    let mut set = Set::default();
    let z = r.offset();
    let (mut a, mut b) = (set.term(2, 0, 0), set.term(if r.one_in(2) { 1 } else { 2 }, 1, 0));
    let aside = set.term(1, 7, 0);
    let starts = (a, b);
    let mut shift = z;
    for _ in 0..1 + r.below(6) {
        // a is shift + b, so *(inner + a) and *(inner + shift + b) are one term
        let inner = [0, 1, -1, 8][r.below(4)];
        let Some(other) = shift.checked_add(inner) else { break };
        a = set.term(3, a, inner);
        b = set.term(3, b, other);
        shift = 0;
    }
    set.proposition(0x12, aside, r.offset(), starts.0);
    if !r.one_in(4) {
        set.proposition(0x11, starts.0, z, starts.1);
    }
    set.proposition(0x12, starts.0, 1, starts.0);
    match r.below(4) {
        0 => set.proposition(0x12, a, 0, b),
        1 => set.proposition(0x13, b, 0, a),
        2 => set.proposition(0x12, a, 5, b),
        _ => {}
    }
    set.question(a, 0, b);
    set.question(starts.0, z, starts.1);
    questions_close(r, &mut set);
    set
}

/// A class of terms that stand at the ends of the range of offsets from each other, closed or not.
fn wide_set(r: &mut Numbers) -> Set {
    let mut set = Set::default();
    let size = 2 + r.below(7);
    for k in 0..size {
        set.term(2, k, 0);
        if k > 0 {
            let z = [i32::MIN, i32::MAX][r.below(2)];
            if r.one_in(2) {
                set.proposition(0x11, k, z, k - 1);
            } else {
                set.proposition(0x11, k - 1, z, k);
            }
        }
    }
    if r.one_in(3) {
        set.proposition(0x11, size - 1, r.offset(), 0);
    }
    questions_close(r, &mut set);
    set
}

/// A random accepted set.
pub fn accepted(r: &mut Numbers) -> Set {
    match r.below(8) {
        0..=2 => sets::small(r),
        3..=5 => close_set(r),
        6 => chain_set(r),
        _ => wide_set(r),
    }
}

/// Full and large sets, satisfiable ones for the most part. The first has the largest output.
pub fn large(r: &mut Numbers) -> Vec<Text> {
    let mut all = vec![sets::one_class(512), sets::chains(512), sets::tied_chains(512), sets::classes(r, 512)];
    all.extend((0..12).map(|k| sets::tangle(r, 16 + 4 * k)));
    for set in &mut all {
        sets::questions(r, set, 512);
    }
    let mut refuted = sets::chains(100);
    let last = refuted.n - 1;
    refuted.proposition(0x13, last, 0, last - 1);
    sets::questions(r, &mut refuted, 512);
    all.push(refuted);
    all.iter().map(|set| plain(set.text())).collect()
}

// Damages

/// What is done to a text by `damage`.
pub const DAMAGES: [&str; 10] = [
    "a character dropped",
    "a character added",
    "a character changed",
    "a letter lower-cased",
    "CR before LF",
    "last LF missing",
    "an empty line",
    "two lines swapped",
    "a line doubled",
    "cut anywhere",
];

fn character(r: &mut Numbers) -> u8 {
    const OTHER: [u8; 10] = [b'\n', b'\r', b' ', b'a', b'f', b'G', b'/', b':', 0, 0xC1];
    if r.one_in(3) {
        OTHER[r.below(OTHER.len())]
    } else {
        b"0123456789ABCDEF"[r.below(16)]
    }
}

/// Damages a text of lines in the way of that number; nothing where the text has no place for it.
pub fn damage(r: &mut Numbers, lines: &[Vec<u8>], way: usize) -> Option<Vec<u8>> {
    let mut text = lines.concat();
    let mut lines = lines.to_vec();
    let count = lines.len();
    if count == 0 && way != 1 && way != 6 {
        return None;
    }
    match way {
        0 => {
            text.remove(r.below(text.len()));
        }
        1 => text.insert(r.below(text.len() + 1), character(r)),
        2 => {
            let at = r.below(text.len());
            let old = text[at];
            while text[at] == old {
                text[at] = character(r);
            }
        }
        3 => {
            let letters: Vec<usize> = (0..text.len()).filter(|&k| text[k].is_ascii_uppercase()).collect();
            if letters.is_empty() {
                return None;
            }
            let at = letters[r.below(letters.len())];
            text[at] = text[at].to_ascii_lowercase();
        }
        4 => {
            let line = &mut lines[r.below(count)];
            line.insert(line.len() - 1, b'\r');
            text = lines.concat();
        }
        5 => {
            text.pop();
        }
        6 => {
            lines.insert(r.below(count + 1), vec![b'\n']);
            text = lines.concat();
        }
        7 => {
            if count < 2 {
                return None;
            }
            let one = r.below(count);
            let other = (one + 1 + r.below(count - 1)) % count;
            lines.swap(one, other);
            text = lines.concat();
        }
        8 => {
            let one = r.below(count);
            lines.insert(one, lines[one].clone());
            text = lines.concat();
        }
        _ => text.truncate(r.below(text.len())),
    }
    Some(text)
}

// Limits and refusals

/// A satisfiable text of n terms, m propositions, q questions: term 0 is &0, the others are auxiliaries by their numbers; every
/// proposition is term 0 ≠ 1 + term 0; every question asks for term 0 against 0 + term 0.
fn base(n: usize, m: usize, q: usize) -> Vec<u8> {
    let mut text = String::from(if n > 0 { "010000\n" } else { "" });
    for t in 1..n {
        text += &format!("02{t:04X}\n");
    }
    text += &"120000000000010000\n".repeat(m);
    text += &"210000000000000000\n".repeat(q);
    text.into_bytes()
}

/// What the program writes for `base`.
fn base_output(n: usize, q: usize) -> Vec<u8> {
    let mut output = String::from("A000\n");
    for t in 0..n {
        output += &format!("A1{t:04X}{t:04X}0000000000000000\n");
    }
    for k in 0..q {
        output += &format!("A3{k:04X}01\n");
    }
    output.into_bytes()
}

fn with(text: &[u8], more: &str) -> Vec<u8> {
    [text, more.as_bytes()].concat()
}

/// Which name in a frame is wrong.
#[derive(Clone, Copy, PartialEq)]
enum Wrong {
    Nothing,
    Left,
    Right,
}

/// A frame of the kind after `base` with n terms, with a name that is wrong or none. A right name is the highest there is.
fn frame(kind: u8, n: usize, wrong: Wrong) -> String {
    let left = if wrong == Wrong::Left { n } else { n - 1 };
    let right = if wrong == Wrong::Right { n } else { n - 1 };
    let (listed, new) = (kind as usize - 1, 0xFFFF);
    match kind {
        1 | 2 => format!("{kind:02X}{:04X}", if wrong == Wrong::Left { listed } else { new }),
        3 => format!("03{left:04X}80000000"),
        0x13 => format!("13{left:04X}{right:04X}"),
        _ => format!("{kind:02X}{left:04X}7FFFFFFF{right:04X}"),
    }
}

const KINDS: [u8; 7] = [1, 2, 3, 0x11, 0x12, 0x13, 0x21];

/// The group of a kind and the number of refusal for a wrong name.
fn group(kind: u8) -> (usize, u8) {
    match kind {
        1 | 2 => (0, 5),
        3 => (0, 4),
        0x21 => (2, 7),
        _ => (1, 6),
    }
}

/// Every frame, well and badly formed, with right and wrong names, after texts of each group with few and with 512 records; as the
/// last frame and before another fault. What is wanted follows from the order 9, 10, 1 to 3, 4 to 7.
pub fn orders() -> Vec<Text> {
    let mut states = vec![];
    for n in [2, 512] {
        states.push((n, 0, 0));
        for m in [1, 512] {
            states.push((n, m, 0));
        }
        for m in [0, 1, 512] {
            states.extend([(n, m, 1), (n, m, 512)]);
        }
    }
    let mut texts = vec![];
    for (n, m, q) in states {
        let text = base(n, m, q);
        let reached = if q > 0 { 2 } else { usize::from(m > 0) };
        for kind in KINDS {
            let (own, wrong_name) = group(kind);
            let full = [n, m, q][own] == 512;
            for wrong in [Wrong::Nothing, Wrong::Left, Wrong::Right] {
                if wrong == Wrong::Right && own == 0 {
                    continue;
                }
                let good = frame(kind, n, wrong);
                let number = if own < reached {
                    10
                } else if full {
                    1 + own as u8
                } else if wrong != Wrong::Nothing {
                    wrong_name
                } else {
                    0
                };
                for tail in ["", "0\n", "010000\n"] {
                    let bytes = with(&text, &format!("{good}\n{tail}"));
                    texts.push(if number > 0 { refused(bytes, number, n + m + q) } else { plain(bytes) });
                }
                let short = &good[..good.len() - 1];
                for bad in [format!("{short}g\n"), format!("{short}\n"), format!("{good}00\n"), format!("{good}\r\n"), good.clone()] {
                    texts.push(refused(with(&text, &bad), 9, n + m + q));
                }
            }
        }
    }
    texts
}

/// Each fault before each other fault that can stand in the same place, with nothing and with a good frame between: the first counts.
pub fn first_faults() -> Vec<Text> {
    let after: [((usize, usize, usize), &[(u8, &str)], &str); 3] = [
        (
            (2, 0, 0),
            &[
                (4, "03000300000000"),
                (5, "020001"),
                (6, "110000000000000003"),
                (7, "210003000000000000"),
                (9, ""),
                (9, "02000g"),
                (9, "A000"),
            ],
            "020002",
        ),
        (
            (2, 1, 0),
            &[
                (6, "1300020000"),
                (6, "120000000000000002"),
                (7, "210000000000000002"),
                (9, "22"),
                (9, "130000000000000000"),
                (10, "020002"),
                (10, "010000"),
                (10, "03000200000000"),
            ],
            "1300000001",
        ),
        (
            (2, 1, 1),
            &[
                (7, "210002000000000000"),
                (7, "21FFFF00000000FFFF"),
                (9, "2100000000000000"),
                (9, "1"),
                (10, "020001"),
                (10, "110000000000000000"),
                (10, "1300020002"),
            ],
            "210000000000000001",
        ),
    ];
    let mut texts = vec![];
    for ((n, m, q), faults, good) in after {
        let text = base(n, m, q);
        for (number, first) in faults {
            for (_, second) in faults {
                texts.push(refused(with(&text, &format!("{first}\n{second}\n")), *number, n + m + q));
                texts.push(refused(with(&text, &format!("{first}\n{good}\n{second}\n")), *number, n + m + q));
                texts.push(refused(with(&text, &format!("{good}\n{first}\n{second}\n")), *number, n + m + q + 1));
            }
        }
    }
    texts
}

/// Texts at and one past each limit.
pub fn limits() -> Vec<Text> {
    let mut texts = vec![];
    // counts
    for n in [0, 1, 2, 511, 512] {
        for (m, q) in [(0, 0), (511, 0), (512, 0), (0, 511), (0, 512), (512, 512)] {
            if n > 0 || m + q == 0 {
                texts.push(Text { bytes: base(n, m, q), wanted: Some(base_output(n, q)) });
            }
        }
    }
    for n in [1, 2, 511, 512] {
        for m in [0, 1, 511, 512] {
            texts.push(refused(base(n, 513, m), 2, n + 512));
            texts.push(refused(base(n, m, 513), 3, n + m + 512));
        }
        texts.push(refused(base(513, n, n), 1, 512));
        texts.push(refused(base(513, 513, 513), 1, 512));
    }
    for m in [0, 1, 512] {
        texts.push(refused(base(0, m, 1), if m > 0 { 6 } else { 7 }, 0));
    }
    // numbers of atoms; the two kinds do not meet
    for number in [0, 1, 255, 256, 0x7FFF, 0x8000, 0xFFFE, 0xFFFF] {
        let both = format!("01{number:04X}\n02{number:04X}\n");
        texts.push(Text { bytes: both.clone().into_bytes(), wanted: Some(base_output(2, 0)) });
        for kind in 1..3 {
            texts.push(refused(format!("{both}{kind:02X}{number:04X}\n").into_bytes(), 5, 2));
            texts.push(refused(format!("{both}03000100000000\n{kind:02X}{number:04X}\n").into_bytes(), 5, 3));
        }
    }
    // names of terms
    for n in [1, 2, 255, 256, 257, 511, 512] {
        for kind in KINDS {
            let (own, number) = group(kind);
            if kind < 3 || (own == 0 && n == 512) {
                continue;
            }
            for wrong in [Wrong::Nothing, Wrong::Left, Wrong::Right] {
                if wrong == Wrong::Right && own == 0 {
                    continue;
                }
                let bytes = with(&base(n, 0, 0), &format!("{}\n", frame(kind, n, wrong)));
                texts.push(if wrong == Wrong::Nothing { plain(bytes) } else { refused(bytes, number, n) });
            }
            let far = frame(kind, 0x10000, Wrong::Nothing);
            texts.push(refused(with(&base(n, 0, 0), &format!("{far}\n")), number, n));
        }
    }
    // offsets: a = z + b, asked as it stands, at the next offset and the other way round
    for z in [i32::MIN, i32::MIN + 1, -65_536, -1, 0, 1, 65_535, i32::MAX - 1, i32::MAX] {
        let next = z.wrapping_add(1);
        let back = i64::from(z).wrapping_neg();
        let given = format!("020000\n020001\n110000{z:08X}0001\n");
        let asked = format!("210000{z:08X}0001\n210000{next:08X}0001\n210001{z:08X}0000\n");
        let mut wanted = format!("A000\nA1000000000000000000000000\nA100010000{back:016X}\nA3000001\nA3000102\n");
        wanted += if z == 0 { "A3000201\n" } else { "A3000202\n" };
        texts.push(Text { bytes: with(given.as_bytes(), &asked), wanted: Some(wanted.into_bytes()) });
        // the same as disequality: different there, neither beside it; the other way round different at 0 only
        let given = format!("020000\n020001\n120000{z:08X}0001\n");
        let last = if z == 0 { "02" } else { "00" };
        let wanted = with(&base_output(2, 0), &format!("A3000002\nA3000100\nA30002{last}\n"));
        texts.push(Text { bytes: with(given.as_bytes(), &asked), wanted: Some(wanted) });
        // as the offset of a dereference: *(z + a) and *(z + b) are equal where a and b are
        let given = format!("020000\n020001\n030000{z:08X}\n030001{z:08X}\n110000000000000001\n210002000000000003\n");
        let wanted = "A000\nA1000000000000000000000000\nA1000100000000000000000000\nA1000200020000000000000000\n\
                      A1000300020000000000000000\nA3000001\n";
        texts.push(Text { bytes: given.into_bytes(), wanted: Some(wanted.into()) });
    }
    texts
}

// Long texts, and texts of strange bytes

/// A longest accepted text: an auxiliary, 511 dereferences, 512 disequalities and 512 questions, 27,128 bytes.
fn longest() -> Vec<u8> {
    let mut text = String::from("020000\n");
    for t in 0..511 {
        text += &format!("03{t:04X}00000004\n");
    }
    text += &"120000000000010000\n".repeat(512);
    text += &"210000000000000000\n".repeat(512);
    text.into_bytes()
}

fn filled(mut text: Vec<u8>, length: usize, mut filler: impl FnMut(usize) -> u8) -> Vec<u8> {
    while text.len() < length {
        text.push(filler(text.len()));
    }
    text.truncate(length);
    text
}

/// Long texts, most of 50,000 bytes, and texts around 32,768 bytes.
pub fn long(r: &mut Numbers) -> Vec<Text> {
    let mut texts = vec![];
    let whole = b"010001\n020001\n03000000000000\n03000100000004\n110001FFFFFFFC0000\n210003000000000002\n".to_vec();
    let small = base(3, 2, 2);
    let longest = longest();
    assert_eq!(longest.len(), 27_128);
    texts.push(Text { bytes: longest.clone(), wanted: Some(base_output(512, 512)) });
    texts.push(refused(longest[..27_127].to_vec(), 9, 1535));
    for (text, frames) in [(Vec::new(), 0), (whole, 6), (small, 7), (longest, 1536)] {
        for length in [32_767, 32_768, 32_769, 50_000] {
            // one byte again and again: an endless line, or empty lines
            for byte in [b'0', b'A', b'F', b'g', b' ', b'\n', b'\r', 0, 0x7F, 0x80, 0xFF] {
                texts.push(refused(filled(text.clone(), length, |_| byte), 9, frames));
            }
            // an endless line that ends with the text
            texts.push(refused(filled(text.clone(), length, |k| if k + 1 < length { b'0' } else { b'\n' }), 9, frames));
            // digits of good frames without LF
            texts.push(refused(filled(text.clone(), length, |k| b"020000"[k % 6]), 9, frames));
            // an LF at each place around byte 32,768
            for at in 32_765..32_771 {
                if at < length {
                    texts.push(refused(filled(text.clone(), length, |k| if k == at { b'\n' } else { b'1' }), 9, frames));
                }
            }
            // any bytes after a character that is no digit
            for _ in 0..3 {
                texts.push(refused(filled(with(&text, "x"), length, |_| r.next() as u8), 9, frames));
                texts.push(plain(filled(text.clone(), length, |_| r.next() as u8)));
                texts.push(plain(filled(text.clone(), length, |_| character(r))));
            }
        }
        // good frames on and on
        let atoms: String = (0x1000..0x9000).map(|k| format!("02{k:04X}\n")).collect();
        let more = [
            atoms,
            "03000000000004\n".repeat(4000),
            "110000000000000000\n".repeat(3000),
            "120000000000010000\n".repeat(3000),
            "1300010000\n".repeat(5000),
            "210000000000000000\n".repeat(3000),
        ];
        for frames_again in &more {
            for length in [32_767, 32_768, 32_769, 50_000] {
                texts.push(plain(with(&text, frames_again)[..length].to_vec()));
            }
        }
        if frames == 1536 {
            for (k, number) in [10, 10, 10, 10, 10, 3].into_iter().enumerate() {
                texts.push(refused(with(&text, &more[k])[..50_000].to_vec(), number, 1536));
            }
        }
    }
    // good frames past a limit, from the start of a text
    for (first, again, number, place) in [
        ("", "", 1, 512),
        ("020000\n", "03000000000000\n", 1, 512),
        ("020000\n", "110000000000000000\n", 2, 513),
        ("020000\n", "120000000000010000\n", 2, 513),
        ("020000\n020001\n", "1300000001\n", 2, 514),
        ("020000\n", "210000000000000000\n", 3, 513),
        ("", "010000\n", 5, 1),
        ("", "03000000000000\n", 4, 0),
    ] {
        let mut text = first.to_owned();
        let mut k = 0;
        while text.len() < 50_000 {
            text += &if again.is_empty() { format!("01{k:04X}\n") } else { again.to_owned() };
            k += 1;
        }
        texts.push(refused(text.as_bytes()[..50_000].to_vec(), number, place));
        texts.push(refused(text.into_bytes(), number, place));
    }
    texts
}

/// The empty text, every text of one byte, every byte value after and within a frame that lacks its LF, and texts of strange bytes.
pub fn strange(r: &mut Numbers) -> Vec<Text> {
    let mut texts = vec![Text { bytes: vec![], wanted: Some(b"A000\n".to_vec()) }];
    for byte in 0..=255u8 {
        texts.push(refused(vec![byte], 9, 0));
        texts.push(refused(vec![b'\n', byte], 9, 0));
        if byte != b'\n' {
            texts.push(refused([b"020001", &[byte][..]].concat(), 9, 0));
            texts.push(refused([b"020001", &[byte][..], b"\n"].concat(), 9, 0));
        }
        texts.push(refused([b"020001\n", &[byte][..]].concat(), 9, 1));
    }
    for _ in 0..500 {
        let length = 1 + r.below(60);
        texts.push(plain((0..length).map(|_| r.next() as u8).collect()));
        texts.push(plain((0..length).map(|_| character(r)).collect()));
    }
    texts
}

/// Every byte value at every place, LF included, of one frame of each kind, within a set that is accepted otherwise.
pub fn every_byte() -> Vec<Text> {
    let lines = [
        "010001\n",
        "020001\n",
        "010002\n",
        "03000100000004\n",
        "03000000000000\n",
        "110001FFFFFFFC0000\n",
        "120003000000010002\n",
        "1300030002\n",
        "110003000000000004\n",
        "210003000000000004\n",
        "210001FFFFFFFC0000\n",
    ];
    let text = lines.concat().into_bytes();
    let mut texts = vec![];
    // one line of each kind
    for chosen in [2, 1, 3, 5, 6, 7, 9] {
        let start: usize = lines[..chosen].iter().map(|line| line.len()).sum();
        for at in start..start + lines[chosen].len() {
            for byte in 0..=255 {
                let mut bytes = text.clone();
                bytes[at] = byte;
                texts.push(plain(bytes));
            }
        }
    }
    texts
}
