//! Request E11 of document 02: for a list of lines from a record it is told how many bytes
//! `sludgeline` would print for those of its first 1,000 lines, and how many lines are behind
//! them. What is told is held against what is printed: document 01's session, every kind of
//! answer, every count of digits, every number of lines that matters, empty and over-long lines,
//! records that are refused, previews, long lists in parts, and random lists.

mod named;

use named::{asm1, digester, with_digester, with_sludge};
use second::balances::numbers_in;
use second::figures::{Figures, HOUSE};
use second::lengths::{answer_bytes, Length, MOST_LINES};
use second::plant::{Call, Plant};
use second::random::Random;
use second::tables::*;
use second::trials::lists;
use second::trials::previews::{nested, preview};
use second::{lines, numbers, session};

/// What a session from this record prints.
fn printed(plant: &Plant, input: &[u8]) -> Vec<u8> {
    let mut out = Vec::new();
    session::run_on(*plant, &mut &input[..], &mut out).unwrap();
    out
}

/// The lines of an input that count, as an input of their own, and how many lines are behind them.
fn counted(input: &[u8]) -> (&[u8], u64) {
    let is_end = |&end: &usize| input[end - 1] == b'\n' || end == input.len();
    let ends: Vec<usize> = (1..=input.len()).filter(is_end).collect();
    match ends.get(999) {
        Some(&end) => (&input[..end], ends.len() as u64 - 1000),
        None => (input, 0),
    }
}

/// What is told of an input from this record; it has to be what is printed for its counted lines.
fn told(plant: &Plant, input: &[u8]) -> [u64; 2] {
    let (alone, uncounted) = counted(input);
    let expected = [printed(plant, alone).len() as u64, uncounted];
    let told = answer_bytes(plant, input).numbers();
    assert_eq!(told, expected, "{} bytes, {plant:?}", input.len());
    told
}

/// The answer to one line on a record.
fn answer(plant: &mut Plant, line: &[u8]) -> Vec<u8> {
    lines::answer(plant, line, &mut [0; 512]).to_vec()
}

/// The held line of a record, with its newline.
fn held(plant: &Plant) -> u64 {
    lines::held(plant, &mut [0; 512]).len() as u64 + 1
}

/// The held line of an empty record: 38 bytes with its newline.
const HELD: &str = "(held cod 0 tkn 0 oxygen 0 nitrate 0)\n";

/// The session of document 01.
const SESSION: &str = "(receive (ss 10000) (xs 30000) (so 5000) (sno 100000000))\n(feed 1000)\n\
    (feed 0)\n(return 1000)\n(release 1000)\n";

/// What it prints before the held line.
const ANSWERS: &str = "(ok receive)\n\
    (ok feed burnt 33572 oxygen 5000 nitrate 100000000 warn 0)\n\
    (no 2)\n\
    (ok return stripped 0)\n\
    (ok release (si 0) (ss 0) (xi 0) (xs 6428) (xbh 0) (xba 0) (xp 0) (so 0) (sno 0) (snh 0) \
    (snd 0) (xnd 0) (salk 0))\n";

/// The session of document 01, also without its last newline: 217 bytes and the held line's 38.
#[test]
fn session_of_document_01() {
    assert_eq!((ANSWERS.len(), HELD.len()), (217, 38));
    assert_eq!(told(&Plant::FRESH, SESSION.as_bytes()), [255, 0]);
    assert_eq!(told(&Plant::FRESH, SESSION.trim_end().as_bytes()), [255, 0]);
    assert_eq!(answer_bytes(&Plant::FRESH, b""), Length { bytes: 38, uncounted: 0 });
}

/// A list without lines has the held line alone, on any record.
#[test]
fn no_lines() {
    assert_eq!(told(&Plant::FRESH, b""), [38, 0]);
    let most = Plant { sludge: ASM1_CEILINGS, digester: DIGESTER_CEILINGS, ..Plant::FRESH };
    // TKN in 10^12: 30,000, 2 × 880 and 2 × 880 in the sludge; 10,000, 280, 2 × 280, 2 × 980 and
    // 7 × 875 in the digester.
    let held = "(held cod 29000000000000 tkn 52445000000000000 oxygen 2000000000000 \
        nitrate 20000000000000000)\n";
    assert_eq!(String::from_utf8(printed(&most, b"")).unwrap(), held);
    assert_eq!(told(&most, b""), [held.len() as u64, 0]);
    assert_eq!(told(&with_sludge(&[("so", COD_CEILING + 1)]), b""), [7, 0]);
    let no_figures = Figures::from_numbers(&[0; 9]);
    assert_eq!(told(&Plant { figures: no_figures, ..most }, b""), [8, 0]);
}

/// Checks a line by its answer, and its preview; and a list of the line twice, the second time
/// on the record as it is then.
fn long_as(plant: Plant, line: &str, expected: &str) {
    let (mut after, length) = (plant, expected.len() as u64 + 1);
    assert_eq!(String::from_utf8(answer(&mut after, line.as_bytes())).unwrap(), expected, "{line}");
    assert_eq!(told(&plant, line.as_bytes()), [length + held(&after), 0], "{line}");
    let preview = preview(line.as_bytes());
    assert_eq!(told(&plant, &preview), [length + held(&plant), 0], "{line}");
    let both = [&preview, line.as_bytes()].join(&b'\n');
    assert_eq!(told(&plant, &both), [2 * length + held(&after), 0], "{line}");
    let again = answer(&mut after, line.as_bytes()).len() as u64 + 1;
    let twice = format!("{line}\n{line}\n");
    assert_eq!(told(&plant, twice.as_bytes()), [length + again + held(&after), 0], "{line}");
}

/// Each of the eight calls, accepted: few digits and many.
#[test]
fn accepted_calls() {
    long_as(Plant::FRESH, "(receive)", "(ok receive)");
    long_as(Plant::FRESH, "(receive (ss 1000000000000) (xnd 99))", "(ok receive)");
    let told = "(ok feed burnt 0 oxygen 0 nitrate 0 warn 0)";
    long_as(Plant::FRESH, "(feed 1000)", told);
    let sludge = [("xba", 1), ("sno", 3501)];
    let told = "(ok feed burnt 1 oxygen 0 nitrate 3500 warn 1)";
    long_as(with_sludge(&sludge), "(feed 1000)", told);
    let sludge = [("ss", COD_CEILING), ("xs", COD_CEILING), ("so", 999_999_999_999)];
    let full = with_sludge(&[&sludge[..], &[("sno", TICK_CEILING)]].concat());
    let told = "(ok feed burnt 2000000000000 oxygen 999999999999 nitrate 3500000000003500 warn 1)";
    long_as(full, "(feed 1000)", told);
    long_as(with_digester(&[("ssu", 5)]), "(settle 4 (sac 1))", "(ok settle)");
    long_as(Plant::FRESH, "(return 1)", "(ok return stripped 0)");
    let gases = [("sh2", COD_CEILING), ("sch4", COD_CEILING)];
    long_as(with_digester(&gases), "(return 1000)", "(ok return stripped 2000000000000)");
    let reject = Plant { reject: asm1(&[("ss", 9)]), ..Plant::FRESH };
    long_as(reject, "(recycle 1000)", "(ok recycle)");
    long_as(Plant::FRESH, "(accept 0)", "(ok accept n2 0)");
    long_as(Plant::FRESH, "(accept 25 (ss 9) (sno 3))", "(ok accept n2 10)");
    long_as(Plant::FRESH, "(accept 9999999999999999)", "(ok accept n2 4000000000000000)");
}

/// A release and a draw of nothing, of a full tank, and of columns that all have their own number
/// of digits.
#[test]
fn releases_and_draws() {
    let answer_of = |word: &str, v: &Asm1| {
        let fields = ASM1_NAMES.iter().zip(v).map(|(name, n)| format!(" ({name} {n})"));
        format!("(ok {word}{})", fields.collect::<String>())
    };
    let growing: Asm1 = std::array::from_fn(|column| 10u64.pow(column as u32));
    let (full, halves) = (ASM1_CEILINGS, ASM1_CEILINGS.map(|ceiling| ceiling / 2));
    let all = [[0; 13], full, growing, growing.map(|n| n - 1)].map(|v| (v, 1000, v));
    for (reject, k, v) in all.into_iter().chain([(full, 500, halves)]) {
        for word in ["release", "draw"] {
            let plant = Plant { reject, ..Plant::FRESH };
            long_as(plant, &format!("({word} {k})"), &answer_of(word, &v));
        }
    }
    // The longest answer of all, and that of a draw.
    assert_eq!(["release", "draw"].map(|word| answer_of(word, &full).len()), [283, 280]);
}

/// Every refusal that a line can get.
#[test]
fn refused_lines() {
    let above = with_digester(&[("cn", TICK_CEILING + 1)]);
    long_as(above, "(feed 1000)", "(no 1)");
    long_as(Plant::FRESH, "(feed 1001)", "(no 2)");
    long_as(Plant::FRESH, "(receive (ss 1000000000001))", "(no 3)");
    long_as(Plant::FRESH, "(accept 10000000000000001)", "(no 3)");
    long_as(with_sludge(&[("si", 1), ("snh", 279)]), "(feed 1000)", "(no 4)");
    long_as(with_digester(&[("xi", 1), ("sin", 599)]), "(return 1000)", "(no 5)");
    long_as(with_digester(&[("ssu", 5)]), "(settle 0 (ssu 4))", "(no 7)");
    long_as(with_digester(&[("sin", 5)]), "(settle 0 (sin 4))", "(no 8)");
    long_as(with_digester(&[("co", 2)]), "(settle 0)", "(no 9)");
    long_as(with_sludge(&[("ss", COD_CEILING)]), "(receive (ss 1))", "(no 10)");
    long_as(with_sludge(&[("sno", TICK_CEILING)]), "(accept 2)", "(no 10)");
    long_as(Plant::FRESH, "(receive (xs 1) (ss 1))", "(no 11)");
    long_as(above, "(feed)", "(no 11)");
    let no_figures = Plant { figures: Figures::from_numbers(&[10_001; 9]), ..above };
    long_as(no_figures, "(release 0)", "(no 15)");
}

/// Numbers of each count of digits in every answer and in the held line.
#[test]
fn counts_of_digits() {
    let lists = [
        "(feed 1000)\n(return 1000)\n(release 1000)\n",
        "(draw 500)\n(accept 7)\n",
        "(preview (release 1))",
        "",
    ];
    for amount in (0..17).flat_map(|power| [10u64.pow(power) - 1, 10u64.pow(power)]) {
        let v = ASM1_CEILINGS.map(|ceiling| amount.min(ceiling));
        let d: Digester = DIGESTER_CEILINGS.map(|ceiling| amount.min(ceiling));
        for column in 0..26 {
            let one = |place: usize, amount: u64| if place == column { amount } else { 0 };
            let sludge = std::array::from_fn(|place| one(place, v[place]));
            let digester = std::array::from_fn(|place| one(place, d[place]));
            let alone = Plant { sludge, digester, reject: sludge, figures: HOUSE };
            let filled = Plant { sludge: v, digester: d, reject: v, figures: HOUSE };
            for (plant, input) in [alone, filled].iter().flat_map(|plant| lists.map(|l| (plant, l)))
            {
                told(plant, input.as_bytes());
            }
        }
        told(&Plant::FRESH, format!("(accept {amount})\n(accept {})", v[8] / 2).as_bytes());
    }
}

/// So many times the same line, each with its newline.
fn repeated(line: &[u8], number: usize) -> Vec<u8> {
    [line, b"\n"].concat().repeat(number)
}

/// The numbers of lines at which something changes, and others.
const NUMBERS: [usize; 13] = [0, 1, 2, 3, 10, 998, 999, 1000, 1001, 1002, 1999, 2000, 5000];

/// Up to 1,000 lines all count; of more 1,000 do, and the others are told by their number, with
/// and without a newline at the end.
#[test]
fn numbers_of_lines() {
    assert_eq!(MOST_LINES, 1000);
    let recycle = ("(recycle 1)", 13);
    for (line, length) in
        [("(receive (ss 0))", 13), ("(feed 0)", 7), ("(", 8), recycle, ("(accept 1)", 17)]
    {
        for number in NUMBERS {
            let input = repeated(line.as_bytes(), number);
            let expected =
                [number.min(1000) as u64 * length + 38, number.saturating_sub(1000) as u64];
            assert_eq!(told(&Plant::FRESH, &input), expected, "{line} {number}");
            let unended = input.strip_suffix(b"\n").unwrap_or(b"");
            assert_eq!(told(&Plant::FRESH, unended), expected, "{line} {number}");
        }
    }
}

/// Empty lines are lines, each refused by 11; a newline ends one and begins none.
#[test]
fn empty_lines() {
    for number in NUMBERS {
        let [count, behind] = [number.min(1000) as u64, number.saturating_sub(1000) as u64];
        let newlines = vec![b'\n'; number];
        assert_eq!(told(&Plant::FRESH, &newlines), [8 * count + 38, behind], "{number}");
        let last = [&newlines[..], b"(feed 0)"].concat();
        let [bytes, uncounted] = told(&Plant::FRESH, &last);
        match number {
            0..1000 => assert_eq!([bytes, uncounted], [8 * count + 7 + 38, 0]),
            _ => assert_eq!([bytes, uncounted], [8 * 1000 + 38, behind + 1]),
        }
    }
    assert_eq!(told(&Plant::FRESH, b"(feed 1)\n\n"), [44 + 8 + 38, 0]);
    assert_eq!(told(&Plant::FRESH, b"\n(feed 1)"), [8 + 44 + 38, 0]);
    assert_eq!(told(&Plant::FRESH, b"(feed 1)\r\n"), [8 + 38, 0]);
    assert_eq!(told(&Plant::FRESH, b"\r"), [8 + 38, 0]);
    assert_eq!(told(&Plant::FRESH, b"\0\n \n"), [8 + 8 + 38, 0]);
}

/// The 1,000th line still changes the record that is held, and the next one no more.
#[test]
fn lines_that_do_not_count() {
    // 999999 mg of oxygen have five digits more than none.
    for (before, bytes) in [(999, 999 * 8 + 13 + 38 + 5), (1000, 1000 * 8 + 38)] {
        for behind in [&b""[..], b"\n", b"\n(receive (xnd 7))\n(feed 1000)", b"\n\n\n\n"] {
            let input = [&vec![b'\n'; before][..], b"(receive (so 999999))", behind].concat();
            assert_eq!(told(&Plant::FRESH, &input)[0], bytes, "{before} {behind:?}");
        }
    }
    let counted = repeated(b"(preview (feed 1000))", 1000);
    let [alone, none] = told(&Plant::FRESH, &counted);
    assert_eq!(none, 0);
    let long = vec![b'x'; 5000];
    for (more, lines) in [(&b"x"[..], 1), (b"\n", 1), (b"\n\n(feed", 3), (&long, 1)] {
        let input = [&counted, more].concat();
        assert_eq!(told(&Plant::FRESH, &input), [alone, lines]);
    }
}

/// A line of more than 1,024 bytes is one line, refused by 11, wherever it stands and whatever
/// it is made of; one of 1,024 bytes is no form either.
#[test]
fn over_long_lines() {
    for length in [1022, 1023, 1024, 1025, 1026, 2048, 65_535, 65_536, 65_537, 70_000, 1_000_000] {
        for (form, byte) in [(&b""[..], b'x'), (b"(receive (ss 5))", b' '), (b"(feed 1", b'0')] {
            let mut long = form.to_vec();
            long.resize(length, byte);
            let list = |lines: [&[u8]; 3]| lines.join(&b'\n');
            let one = b"(receive (ss 7))";
            assert_eq!(told(&Plant::FRESH, &long), [8 + 38, 0], "{length}");
            for lines in [[&long[..], one, one], [one, &long, one], [one, one, &long]] {
                let expected = [13 + 13 + 8 + 39, 0];
                assert_eq!(told(&Plant::FRESH, &list(lines)), expected, "{length}");
                let ended = [&list(lines)[..], b"\n"].concat();
                assert_eq!(told(&Plant::FRESH, &ended), expected, "{length}");
            }
            let many = [repeated(&long, 3), repeated(b"(feed 0)", 997), long].concat();
            assert_eq!(told(&Plant::FRESH, &many), [3 * 8 + 997 * 7 + 38, 1], "{length}");
        }
    }
}

/// The longest form, and the same with bytes behind it up to 1,024 and past them.
#[test]
fn longest_form() {
    let fields: String =
        DIGESTER_NAMES.iter().map(|name| format!(" ({name} {})", u64::MAX)).collect();
    let form = format!("(preview (settle {}{fields}))", u64::MAX).into_bytes();
    assert_eq!(told(&Plant::FRESH, &form), [7 + 38, 0]);
    for length in [form.len() + 1, 1023, 1024, 1025, 1026] {
        let mut long = form.clone();
        long.resize(length, b' ');
        assert_eq!(told(&Plant::FRESH, &long), [8 + 38, 0], "{length}");
    }
}

/// On a record above its ceiling every form gets 1 and every other line 11, and so does the held
/// line; where its figures are out of bounds, 15 and 11.
#[test]
fn refused_records() {
    let above = [
        with_sludge(&[("ss", COD_CEILING + 1)]),
        with_digester(&[("sin", u64::MAX)]),
        Plant { reject: asm1(&[("sno", TICK_CEILING + 1)]), ..Plant::FRESH },
        Plant { sludge: [u64::MAX; 13], digester: [u64::MAX; 26], ..Plant::FRESH },
    ];
    let list = b"(receive (ss 1))\n(feed 1000)\n\n(preview (release 1))\n(feed)\n(recycle 0)";
    for plant in above {
        assert_eq!(told(&plant, list), [4 * 7 + 2 * 8 + 7, 0]);
        assert_eq!(told(&plant, &repeated(b"(feed 1000)", 1200)), [7000 + 7, 200]);
        for numbers in [[0; 9], [u64::MAX; 9]] {
            let none = Plant { figures: Figures::from_numbers(&numbers), ..plant };
            assert_eq!(told(&none, list), [4 * 8 + 2 * 8 + 8, 0]);
            assert_eq!(told(&none, &vec![b'\n'; 1200]), [8000 + 8, 200]);
        }
    }
    let full = Plant { sludge: ASM1_CEILINGS, digester: DIGESTER_CEILINGS, ..Plant::FRESH };
    assert!(told(&full, b"")[0] > 50);
}

/// A preview before each line of a session doubles its answers and leaves the held line; with
/// previews alone each line is answered on the record that the list begins from.
#[test]
fn previews_count_and_change_nothing() {
    let lines = SESSION.lines();
    let doubled: String = lines.map(|line| format!("(preview {line})\n{line}\n")).collect();
    assert_eq!(told(&Plant::FRESH, doubled.as_bytes()), [2 * 217 + 38, 0]);
    let alone: String = SESSION.lines().map(|line| format!("(preview {line})\n")).collect();
    // Nothing is fed or released: 15 digits of the feed and 3 of the release fewer.
    assert_eq!(told(&Plant::FRESH, alone.as_bytes()), [217 - 15 - 3 + 38, 0]);
    let full = Plant { reject: ASM1_CEILINGS, ..Plant::FRESH };
    let released = told(&full, b"(preview (release 1000))")[0] - held(&full);
    assert_eq!(released, 284);
    let many = repeated(b"(preview (release 1000))", 1001);
    assert_eq!(told(&full, &many), [1000 * 284 + held(&full), 1]);
    for depth in [2, 3, 10, 90, 101, 102] {
        let line = nested(b"(release 1000)", depth);
        assert_eq!(told(&full, &line), [8 + held(&full), 0], "{depth}");
    }
}

/// Each call changes the record that the lines behind it, and the held line, are answered on.
#[test]
fn each_line_on_the_record_before_it() {
    let full = Plant {
        sludge: asm1(&[("ss", 1_234_567), ("snh", 89)]),
        digester: digester(&[("sac", 765_432), ("sch4", 10)]),
        reject: asm1(&[("xs", 123_456), ("salk", 9)]),
        figures: HOUSE,
    };
    let words = ["feed", "return", "release", "recycle", "draw", "accept"];
    for first in words {
        for second in words {
            let list = format!("({first} 999)\n({second} 500)\n({second} 500)");
            let mut plant = full;
            let lengths = list.lines().map(|line| answer(&mut plant, line.as_bytes()).len() + 1);
            let answers = lengths.sum::<usize>() as u64;
            assert_eq!(told(&full, list.as_bytes()), [answers + held(&plant), 0], "{list}");
        }
    }
}

/// What a host does: memory of the told length is filled to its last byte by the answers to the
/// lines one by one, their newlines, and the held line.
#[test]
fn reserved_memory() {
    let [length, _] = told(&Plant::FRESH, SESSION.as_bytes());
    let (mut plant, mut memory) = (Plant::FRESH, Vec::new());
    for line in SESSION.lines() {
        memory.extend(answer(&mut plant, line.as_bytes()));
        memory.push(b'\n');
    }
    memory.extend(lines::held(&plant, &mut [0; 512]));
    memory.push(b'\n');
    assert_eq!(memory.len() as u64, length);
    assert_eq!(String::from_utf8(memory).unwrap(), format!("{ANSWERS}{HELD}"));
}

/// A list of more lines than count, asked for in parts: each part from the record that those
/// before it lead to. The parts have the whole output's bytes, and a held line each.
#[test]
fn long_list_in_parts() {
    let input: Vec<u8> = (0..5003)
        .flat_map(|n| {
            match n % 4 {
                0 => format!("(receive (xs {n}) (xnd {}))\n", 1000 * n),
                1 => "(feed 700)\n".into(),
                2 => "(return 900)\n".into(),
                _ => format!("(release {n})\n"),
            }
            .into_bytes()
        })
        .collect();
    let (mut plant, mut rest, mut bytes) = (Plant::FRESH, &input[..], 0);
    for behind in [4003, 3003, 2003, 1003, 3, 0] {
        let [length, uncounted] = told(&plant, rest);
        assert_eq!(uncounted, behind);
        let (part, _) = counted(rest);
        for line in part.split_inclusive(|&byte| byte == b'\n') {
            answer(&mut plant, line.strip_suffix(b"\n").unwrap());
        }
        bytes += length - held(&plant);
        rest = &rest[part.len()..];
    }
    assert!(rest.is_empty());
    assert_eq!(bytes + held(&plant), printed(&Plant::FRESH, &input).len() as u64);
}

/// By numbers, as a host in C asks: both numbers are written, whatever stood there, and a record
/// of any 61 numbers is taken.
#[test]
fn by_numbers() {
    for told_before in [0, 7, u64::MAX] {
        let mut told = [told_before; 2];
        numbers::answer_bytes(&Plant::FRESH.columns(), SESSION.as_bytes(), &mut told);
        assert_eq!(told, [255, 0]);
        numbers::answer_bytes(&[u64::MAX; 61], &vec![b'\n'; 1001], &mut told);
        assert_eq!(told, [8008, 1]);
    }
}

/// How often a random list had a line of each call accepted, by itself and as a preview, each
/// refusal, and each refusal of the record; and lists by their number of lines.
#[derive(Default, Debug)]
struct Met {
    accepted: [[u32; 8]; 2],
    refused: [u32; 17],
    held: [u32; 17],
    lists: [u32; 4],
}

/// The number in a refusal's answer; 0 where it is none.
fn refusal(answer: &[u8]) -> usize {
    match answer.starts_with(b"(no ") {
        true => numbers_in(answer)[0] as usize,
        false => 0,
    }
}

/// The place of a call among the eight.
fn place(call: &Call) -> usize {
    match call {
        Call::Receive(_) => 0,
        Call::Feed(_) => 1,
        Call::Settle(..) => 2,
        Call::Return(_) => 3,
        Call::Release(_) => 4,
        Call::Recycle(_) => 5,
        Call::Draw(_) => 6,
        Call::Accept(..) => 7,
    }
}

impl Met {
    /// Counts a list by its counted lines.
    fn count(&mut self, start: &Plant, counted: &[u8]) {
        let (mut plant, mut number) = (*start, 0);
        for line in counted.split_inclusive(|&byte| byte == b'\n') {
            let line = line.strip_suffix(b"\n").unwrap_or(line);
            match (refusal(&answer(&mut plant, line)), lines::read(line)) {
                (0, Some(lines::Asked::Call(call))) => self.accepted[0][place(&call)] += 1,
                (0, Some(lines::Asked::Preview(call))) => self.accepted[1][place(&call)] += 1,
                (refusal, _) => self.refused[refusal] += 1,
            }
            number += 1;
        }
        self.held[refusal(lines::held(&plant, &mut [0; 512]))] += 1;
        self.lists[[0, 1, 999].iter().filter(|&&least| number > least).count()] += 1;
    }
}

/// Random lists, of lines of every kind and on records of every kind.
#[test]
fn random_lists() {
    let (mut met, mut longer) = (Met::default(), 0);
    for number in 0..4000 {
        let lists::Lines { start, bytes } = lists::any(&mut Random::nth(35, number));
        longer += u32::from(told(&start, &bytes)[1] > 0);
        met.count(&start, counted(&bytes).0);
    }
    let refused = [1, 2, 3, 4, 5, 7, 8, 9, 10, 11, 15].map(|number| met.refused[number]);
    let mut lines = met.accepted.iter().flatten().chain(&refused);
    assert!(lines.all(|&count| count > 50), "{met:?}");
    let held = [0, 1, 15].map(|number| met.held[number]);
    let mut lists = held.iter().chain(&met.lists).chain([&longer]);
    assert!(lists.all(|&count| count > 30), "{met:?} {longer}");
}
