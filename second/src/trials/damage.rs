//! Lines that are no forms, or nearly not: a form with one kind of damage, and junk.

use crate::random::Random;
use crate::tables::{ASM1_NAMES, DIGESTER_NAMES};

/// Names that begin alike, names in capitals and names that nothing has.
const NEAR_NAMES: [&str; 24] = [
    "", "s", "x", "si", "sin", "sic", "xs", "xsu", "ss", "ssu", "sn", "sno", "snoo", "c", "co",
    "cn", "cnn", "SI", "Ss", "salk", "salkk", "sal", "xproo", "k",
];

/// Words that a form might begin with.
const WORDS: [&str; 14] = [
    "receive", "feed", "settle", "return", "release", "held", "ok", "no", "", "Feed", "feeds",
    "receiv", "releas e", "settle 0",
];

/// Words near those of the forms that came later: recycle, draw and accept. They stand apart from
/// `WORDS`, so that the benchmark's session, which `damage` has a part in, stays of the kind that
/// it was before there were these forms.
const NEAR_LATER: [&str; 27] = [
    "recycle",
    "recycl",
    "recycles",
    "Recycle",
    "rec",
    "recycle 0",
    "recycle 1000",
    "re cycle",
    "receivecycle",
    "draw",
    "dra",
    "draws",
    "Draw",
    "drawn",
    "draw 0",
    "draw 1000",
    "d raw",
    "withdraw",
    "accept",
    "accept 0",
    "accept 7",
    "accept 10000000000000001",
    "accept 18446744073709551616",
    "accept n2",
    "accepts",
    "Accept",
    "except 0",
];

/// Numbers that a number may be replaced by; some of them are still numbers.
const NUMBERS: [&str; 26] = [
    "",
    "0",
    "00",
    "01",
    "007",
    "+1",
    "-1",
    "-0",
    "1.0",
    "1e3",
    "0x1",
    "1_0",
    "1,0",
    "a",
    "1a",
    "1 ",
    "18446744073709551614",
    "18446744073709551615",
    "18446744073709551616",
    "18446744073709551625",
    "18446744073709551620",
    "36893488147419103232",
    "99999999999999999999",
    "100000000000000000000",
    "018446744073709551615",
    "00000000000000000000000000000000000000000000000001",
];

/// Bytes that no form holds, or that it holds elsewhere.
const BYTES: &[u8] = b"\t\r\0\x0b\x0c\x1b \x7f\x80\xa0\xc2\xff()09:/+-,.;'\"\\azAZ_\n";

/// The places where such a byte stands.
fn places(line: &[u8], wanted: impl Fn(u8) -> bool) -> Vec<usize> {
    (0..line.len()).filter(|&place| wanted(line[place])).collect()
}

/// The first and last place of each number: digits with a space before them.
fn numbers(line: &[u8]) -> Vec<(usize, usize)> {
    let first =
        |place: &usize| line[*place].is_ascii_digit() && *place > 0 && line[place - 1] == b' ';
    let last = |place: usize| {
        let digits = line[place..].iter().take_while(|byte| byte.is_ascii_digit()).count();
        (place, place + digits)
    };
    (0..line.len()).filter(first).map(last).collect()
}

/// The first and last place of each field's name: what follows ` (` up to a space.
fn names(line: &[u8]) -> Vec<(usize, usize)> {
    let first = |place: &usize| *place > 1 && &line[place - 2..*place] == b" (";
    let last = |place: usize| {
        let letters = line[place..].iter().take_while(|&&byte| byte != b' ').count();
        (place, place + letters)
    };
    (0..line.len()).filter(first).map(last).collect()
}

/// Puts these bytes where that part of the line was.
fn replace(line: &mut Vec<u8>, part: (usize, usize), bytes: &[u8]) {
    line.splice(part.0..part.1, bytes.iter().copied());
}

/// Puts this byte before one of these places, if there is one.
fn insert_at_one(random: &mut Random, line: &mut Vec<u8>, places: &[usize], byte: u8) {
    if !places.is_empty() {
        line.insert(random.one_of(places), byte);
    }
}

/// Takes away one of these places, if there is one.
fn remove_one(random: &mut Random, line: &mut Vec<u8>, places: &[usize]) {
    if !places.is_empty() {
        line.remove(random.one_of(places));
    }
}

/// Does one kind of damage to a form; seldom it stays a form.
pub fn damage(random: &mut Random, line: &mut Vec<u8>) {
    match random.below(5) {
        0 => damage_spaces(random, line),
        1 => damage_brackets(random, line),
        2 => damage_numbers(random, line),
        3 => damage_names(random, line),
        _ => damage_bytes(random, line),
    }
}

/// A space too many, one too few, or something else in its place.
fn damage_spaces(random: &mut Random, line: &mut Vec<u8>) {
    let spaces = places(line, |byte| byte == b' ');
    let ends = places(line, |byte| byte == b')');
    let after: Vec<usize> =
        places(line, |byte| byte == b'(').iter().map(|place| place + 1).collect();
    match random.below(7) {
        0 => insert_at_one(random, line, &spaces, b' '),
        1 => insert_at_one(random, line, &ends, b' '),
        2 => insert_at_one(random, line, &after, b' '),
        3 => remove_one(random, line, &spaces),
        4 => line.insert(0, b' '),
        5 => line.push(b' '),
        _ => {
            if !spaces.is_empty() {
                line[random.one_of(&spaces)] = random.one_of(b"\t\r\0\xa0(");
            }
        }
    }
}

/// A bracket missing, one too many, or one of another kind.
fn damage_brackets(random: &mut Random, line: &mut Vec<u8>) {
    let brackets = places(line, |byte| byte == b'(' || byte == b')');
    match random.below(6) {
        0 => remove_one(random, line, &brackets),
        1 => insert_at_one(random, line, &brackets, b'('),
        2 => insert_at_one(random, line, &brackets, b')'),
        3 => line.push(b')'),
        4 => line[random.one_of(&brackets)] = random.one_of(b"()[]{}<>"),
        _ => {
            line.pop();
        }
    }
}

/// A number replaced by one of `NUMBERS`, or by one of very many digits.
fn damage_numbers(random: &mut Random, line: &mut Vec<u8>) {
    let numbers = numbers(line);
    if numbers.is_empty() {
        return line.push(b'0');
    }
    let part = random.one_of(&numbers);
    match random.below(8) {
        0 => line.insert(part.0, b'0'),
        1 => replace(
            line,
            part,
            &vec![random.one_of(b"0179"); random.one_of(&[19, 20, 21, 40, 900])],
        ),
        _ => replace(line, part, random.one_of(&NUMBERS).as_bytes()),
    }
}

/// A name replaced, a field given twice, or another word in front.
fn damage_names(random: &mut Random, line: &mut Vec<u8>) {
    let names = names(line);
    if names.is_empty() || random.percent(15) {
        return replace_word(line, random.one_of(&WORDS));
    }
    let part = random.one_of(&names);
    match random.below(4) {
        0 => replace(line, part, random.one_of(&NEAR_NAMES).as_bytes()),
        1 => replace(line, part, random.one_of(&ASM1_NAMES).as_bytes()),
        2 => replace(line, part, random.one_of(&DIGESTER_NAMES).as_bytes()),
        _ => {
            let name = line[part.0..part.1].to_vec();
            let number = random.one_of(&[&b"0"[..], b"1"]);
            let again = [&b" ("[..], &name, b" ", number, b")"].concat();
            let end = line.len() - 1;
            replace(line, (end, end), &again);
        }
    }
}

/// Puts this word in the place of a form's own.
fn replace_word(line: &mut Vec<u8>, word: &str) {
    let end = line.iter().position(|&byte| byte == b' ').unwrap_or(line.len() - 1);
    replace(line, (1, end.max(1)), word.as_bytes());
}

/// Another word in front, one that is nearly `recycle`, `draw` or `accept`; a form of one number,
/// or of ASM1 fields, may become one of theirs.
pub fn near_word(random: &mut Random, line: &mut Vec<u8>) {
    replace_word(line, random.one_of(&NEAR_LATER));
}

/// A byte changed, doubled, lost, put in or put behind; a line cut, joined or made long.
fn damage_bytes(random: &mut Random, line: &mut Vec<u8>) {
    let place = random.index(line.len());
    let last = line.len() - 1;
    match random.below(12) {
        0 | 1 => line.insert(place, random.one_of(BYTES)),
        2 => line[place] = random.one_of(BYTES),
        3 => line[place] ^= 1 << random.below(8),
        4 => {
            let byte = line[place];
            line.insert(place, byte);
        }
        5 => remove_one(random, line, &[place]),
        6 => line.truncate(place),
        7 => line.push(random.one_of(BYTES)),
        8 => line.swap(place, (place + 1).min(last)),
        9 => line.extend_from_within(..),
        10 => line.extend_from_slice(b"\r"),
        _ => lengthen(random, line),
    }
}

/// Lengths at which a reader might go wrong.
const LENGTHS: [usize; 10] = [511, 512, 1022, 1023, 1024, 1025, 1026, 2048, 4097, 8193];

/// Makes a line as long as one of `LENGTHS`, with bytes put behind it, within it or before it.
pub fn lengthen(random: &mut Random, line: &mut Vec<u8>) {
    let missing = random.one_of(&LENGTHS).saturating_sub(line.len());
    let filling = vec![random.one_of(b" 0(x)\0\xff"); missing];
    let place = random.one_of(&[0, line.len() - 1, line.len()]);
    replace(line, (place, place), &filling);
}

/// A line that was never a form: empty, of spaces, of any bytes, or very long.
pub fn junk(random: &mut Random) -> Vec<u8> {
    match random.below(40) {
        0..=14 => Vec::new(),
        15..=17 => vec![b' '; 1 + random.index(3)],
        18..=29 => (0..random.below(40)).map(|_| any_byte(random)).collect(),
        30..=35 => vec![random.one_of(b" (x0"); random.one_of(&LENGTHS)],
        36..=38 => behind_junk(random),
        _ => vec![random.one_of(b" (x\0"); random.one_of(&[65535, 65536, 65537, 70_000])],
    }
}

/// Any byte but the newline.
fn any_byte(random: &mut Random) -> u8 {
    match random.below(256) as u8 {
        b'\n' => b'(',
        byte => byte,
    }
}

/// A form behind bytes that make its line too long.
fn behind_junk(random: &mut Random) -> Vec<u8> {
    let mut line = vec![random.one_of(b" (x)"); random.one_of(&LENGTHS)];
    line.extend_from_slice(random.one_of(&[
        &b"(feed 1000)"[..],
        b"(receive (ss 1))",
        b"(release 1)",
        b"(recycle 1000)",
        b"(draw 1000)",
        b"(accept 5)",
    ]));
    line
}
