//! Request E3 of document 02: a preview answers as its call would on a copy of the record,
//! and the record remains the one handed in. Document 01's session with previews, each of
//! the eight calls, the refusals by a preview, lines that are no previews, nested previews,
//! the longest lines, the lent buffer, the balances, and random lists with previews.

mod named;

use named::{asm1, digester, with_digester, with_sludge};
use second::balances::{numbers_in, Balances};
use second::figures::HOUSE;
use second::lines::{Asked, LONGEST_LINE};
use second::plant::{Call, Plant};
use second::random::Random;
use second::tables::*;
use second::trials::previews::{nested, preview};
use second::trials::Trial;
use second::{lines, session};

/// The answer to one line on a record.
fn answer(plant: &mut Plant, line: &[u8]) -> Vec<u8> {
    let mut buffer = [0; 512];
    lines::answer(plant, line, &mut buffer).to_vec()
}

/// Checks that a line is answered by this and leaves the record as it was.
fn answered(plant: Plant, line: &[u8], expected: &str) {
    let mut after = plant;
    let answer = String::from_utf8(answer(&mut after, line)).unwrap();
    assert_eq!((answer.as_str(), after), (expected, plant), "{}", line.escape_ascii());
}

/// What a whole input prints.
fn printed(input: &[u8]) -> String {
    let mut out = Vec::new();
    session::run(&mut &input[..], &mut out).unwrap();
    String::from_utf8(out).unwrap()
}

/// The session of document 01, each line with its answer.
const SESSION: [(&str, &str); 5] = [
    ("(receive (ss 10000) (xs 30000) (so 5000) (sno 100000000))", "(ok receive)"),
    ("(feed 1000)", "(ok feed burnt 33572 oxygen 5000 nitrate 100000000 warn 0)"),
    ("(feed 0)", "(no 2)"),
    ("(return 1000)", "(ok return stripped 0)"),
    (
        "(release 1000)",
        "(ok release (si 0) (ss 0) (xi 0) (xs 6428) (xbh 0) (xba 0) (xp 0) (so 0) (sno 0) \
        (snh 0) (snd 0) (xnd 0) (salk 0))",
    ),
];

/// With a preview in front of every line each answer comes twice, and the held line stays.
#[test]
fn session_of_document_01_doubled() {
    let held = "(held cod 0 tkn 0 oxygen 0 nitrate 0)\n";
    let input: String =
        SESSION.iter().map(|(line, _)| format!("(preview {line})\n{line}\n")).collect();
    let expected: String =
        SESSION.iter().map(|(_, answer)| format!("{answer}\n{answer}\n")).collect();
    assert_eq!(printed(input.as_bytes()), format!("{expected}{held}"));
    assert_eq!(printed(&input.as_bytes()[..input.len() - 1]), format!("{expected}{held}"));
}

/// With previews alone nothing is ever there to be fed, returned or released.
#[test]
fn session_of_previews_alone() {
    let input: String = SESSION.iter().map(|(line, _)| format!("(preview {line})\n")).collect();
    let zeros: String = ASM1_NAMES.iter().map(|name| format!(" ({name} 0)")).collect();
    let expected = format!(
        "(ok receive)\n(ok feed burnt 0 oxygen 0 nitrate 0 warn 0)\n(no 2)\n\
        (ok return stripped 0)\n(ok release{zeros})\n(held cod 0 tkn 0 oxygen 0 nitrate 0)\n"
    );
    assert_eq!(printed(input.as_bytes()), expected);
}

/// Checks that previews of a form are answered as the form is, which alone changes the record.
fn seen(before: Plant, form: &str, expected: &str, after: Plant) {
    let seen = preview(form.as_bytes());
    answered(before, &seen, expected);
    let mut plant = before;
    for line in [&seen[..], &seen, form.as_bytes()] {
        assert_eq!(answer(&mut plant, line), expected.as_bytes(), "{form}");
    }
    assert_eq!(plant, after, "{form}");
    assert_ne!(before, after, "{form}");
}

/// A receive, a feed and a settle, seen and then made.
#[test]
fn receive_feed_and_settle() {
    let after = with_sludge(&[("ss", 10), ("xi", 1), ("snh", 40)]);
    seen(with_sludge(&[("xi", 1)]), "(receive (ss 10) (snh 40))", "(ok receive)", after);
    let fed = with_digester(&[("sin", 880), ("cn", 1)]);
    let told = "(ok feed burnt 1 oxygen 0 nitrate 3500 warn 1)";
    seen(with_sludge(&[("xba", 1), ("sno", 3501)]), "(feed 1000)", told, fed);
    let before = with_digester(&[("ssu", 12), ("xpr", 1), ("sic", 9), ("co", 2)]);
    let form = "(settle 4 (sch4 6) (xli 3) (sin 980) (sic 5) (co 2))";
    let after = with_digester(&[("sch4", 6), ("xli", 3), ("sin", 980), ("sic", 5), ("co", 2)]);
    seen(before, form, "(ok settle)", after);
}

/// A return and a recycle, seen and then made.
#[test]
fn return_and_recycle() {
    let before = with_digester(&[("sh2", 3), ("sch4", 4), ("xi", 8), ("xc", 2), ("sin", 6000)]);
    let reject = asm1(&[("xi", 8), ("xs", 2), ("snh", 1760)]);
    let after = Plant { reject, ..Plant::FRESH };
    seen(before, "(return 1000)", "(ok return stripped 7)", after);
    let before = Plant { reject: asm1(&[("ss", 9), ("snh", 7)]), ..Plant::FRESH };
    let reject = asm1(&[("ss", 5), ("snh", 4)]);
    let after = Plant { reject, ..with_sludge(&[("ss", 4), ("snh", 3)]) };
    seen(before, "(recycle 500)", "(ok recycle)", after);
}

/// A preview of a release prints the vector and leaves the tank full; so does every further one.
#[test]
fn release_leaves_the_tank() {
    let answer_of = |columns: Asm1| {
        let fields = ASM1_NAMES.iter().zip(columns).map(|(name, n)| format!(" ({name} {n})"));
        format!("(ok release{})", fields.collect::<String>())
    };
    let reject = std::array::from_fn(|column| 2 * column as u64 + 1);
    let before = Plant { sludge: [7; 13], digester: [5; 26], reject, figures: HOUSE };
    let half = std::array::from_fn(|column| column as u64);
    let after = Plant { reject: half.map(|column| column + 1), ..before };
    seen(before, "(release 500)", &answer_of(half), after);
    seen(before, "(release 1000)", &answer_of(reject), Plant { reject: [0; 13], ..before });
    let emptied = Plant { reject: [0; 13], ..before };
    answered(emptied, b"(preview (release 1000))", &answer_of([0; 13]));
}

/// Checks that a form and its preview are refused by this number and leave the record as it was.
fn refused(plant: Plant, form: &str, number: u64) {
    for line in [form.into(), preview(form.as_bytes())] {
        answered(plant, &line, &format!("(no {number})"));
    }
}

/// A form of each call that a fresh record accepts.
const FORMS: [&str; 8] = [
    "(receive (ss 1))",
    "(feed 1000)",
    "(settle 0)",
    "(return 1)",
    "(release 1000)",
    "(recycle 9)",
    "(draw 1000)",
    "(accept 5 (ss 1))",
];

/// A record above a ceiling in any tank is refused and stays, also where another refusal applies.
#[test]
fn refusal_1() {
    let reject = asm1(&[("sno", u64::MAX)]);
    for above in [
        with_sludge(&[("ss", COD_CEILING + 1)]),
        with_digester(&[("cn", TICK_CEILING + 1)]),
        Plant { reject, ..Plant::FRESH },
    ] {
        let others = ["(feed 0)", "(receive (ss 1000000000001))", "(settle 1)", "(recycle 1001)"];
        let later =
            ["(draw 0)", "(accept 10000000000000001)", "(accept 0 (sno 10000000000000001))"];
        for form in FORMS.iter().chain(&others).chain(&later) {
            refused(above, form, 1);
        }
    }
    for form in FORMS.map(str::as_bytes) {
        assert!(answer(&mut Plant::FRESH.clone(), &preview(form)).starts_with(b"(ok "));
    }
}

/// The other refusals by a preview: the small examples of document 01, and each call's own.
#[test]
fn refusals_2_to_10() {
    for word in ["feed", "return", "release", "recycle", "draw"] {
        for k in [0, 1001, u64::MAX] {
            refused(Plant::FRESH, &format!("({word} {k})"), 2);
        }
    }
    refused(Plant::FRESH, "(receive (ss 1000000000001))", 3);
    refused(Plant::FRESH, "(settle 0 (cn 10000000000000001))", 3);
    refused(Plant::FRESH, "(accept 0 (ss 1000000000001))", 3);
    refused(Plant::FRESH, "(accept 10000000000000001)", 3);
    refused(with_sludge(&[("si", 1), ("snh", 279)]), "(feed 1000)", 4);
    refused(with_digester(&[("xi", 1), ("sin", 599)]), "(return 1000)", 5);
    refused(with_digester(&[("ssu", 5)]), "(settle 0 (ssu 4))", 7);
    refused(with_digester(&[("sin", 5)]), "(settle 0 (sin 4))", 8);
    refused(with_digester(&[("co", 2)]), "(settle 0)", 9);
    let full = with_sludge(&[("ss", COD_CEILING)]);
    refused(full, "(receive (ss 1))", 10);
    refused(full, "(accept 0 (ss 1))", 10);
    refused(with_sludge(&[("sno", TICK_CEILING)]), "(accept 2)", 10);
    refused(Plant { reject: asm1(&[("ss", 1)]), ..full }, "(recycle 1000)", 10);
    let sludge = asm1(&[("ss", 1)]);
    refused(Plant { sludge, ..with_digester(&[("ssu", COD_CEILING)]) }, "(feed 1000)", 10);
    let reject = asm1(&[("ss", COD_CEILING)]);
    refused(Plant { reject, ..with_digester(&[("sac", 1)]) }, "(return 1000)", 10);
}

/// Where several refusals apply a preview gives the first by number, as its call does.
#[test]
fn refusals_in_order() {
    let full = with_sludge(&[("ss", COD_CEILING)]);
    refused(full, "(receive (ss 1) (xs 1000000000001))", 3);
    refused(full, "(accept 10000000000000001 (ss 1))", 3);
    let open = with_digester(&[("ssu", 5), ("sin", 5), ("co", 1)]);
    refused(open, "(settle 0)", 7);
    refused(open, "(settle 5)", 8);
    refused(open, "(settle 5 (sin 5))", 9);
    let short = Plant { digester: digester(&[("ssu", COD_CEILING)]), ..Plant::FRESH };
    let short = Plant { sludge: asm1(&[("si", 1), ("ss", 1)]), ..short };
    refused(short, "(feed 1000)", 4);
    refused(short, "(feed 0)", 2);
}

/// Each call's form in a preview is read as the preview of that call.
#[test]
fn lines_that_are_previews() {
    let reads = |line: &str, call| {
        assert_eq!(lines::read(line.as_bytes()), Some(Asked::Preview(call)));
    };
    reads("(preview (receive))", Call::Receive([0; 13]));
    let v = asm1(&[("si", 0), ("so", 7), ("xnd", u64::MAX)]);
    let line = "(preview (receive (si 0) (so 7) (xnd 18446744073709551615)))";
    reads(line, Call::Receive(v));
    reads("(preview (feed 18446744073709551615))", Call::Feed(u64::MAX));
    reads("(preview (settle 0))", Call::Settle(0, [0; 26]));
    let v = digester(&[("si", 2), ("xsu", 4), ("sin", 1)]);
    reads("(preview (settle 9 (si 2) (xsu 4) (sin 1)))", Call::Settle(9, v));
    reads("(preview (return 0))", Call::Return(0));
    reads("(preview (release 10))", Call::Release(10));
    reads("(preview (recycle 1000))", Call::Recycle(1000));
    reads("(preview (draw 0))", Call::Draw(0));
    reads("(preview (accept 18446744073709551615))", Call::Accept([0; 13], u64::MAX));
    let v = asm1(&[("ss", 0), ("sno", 7), ("salk", 1)]);
    reads("(preview (accept 0 (ss 0) (sno 7) (salk 1)))", Call::Accept(v, 0));
}

/// Lines with the word, or nearly so, that are no forms.
const BROKEN: [&str; 63] = [
    "preview",
    "preview (feed 1)",
    "(preview)",
    "(preview )",
    "(preview  )",
    "(preview 1)",
    "(preview feed 1)",
    "(preview feed)",
    "(preview(feed 1))",
    "(preview  (feed 1))",
    "(preview\t(feed 1))",
    "(preview (feed 1) )",
    "(preview (feed 1)",
    "(preview (feed 1)))",
    "(preview ((feed 1)))",
    "((preview (feed 1)))",
    " (preview (feed 1))",
    "( preview (feed 1))",
    "(preview (feed 1)) ",
    "(preview (feed 1))\r",
    "(preview (feed 1))\0",
    "(preview (feed 1))(feed 1)",
    "(preview (feed 1)) (feed 1)",
    "(preview (feed 1) (feed 1))",
    "(preview (feed 1)(feed 1))",
    "(preview (feed 1) 1)",
    "(preview 1 (feed 1))",
    "(feed 1 (preview (feed 1)))",
    "(previews (feed 1))",
    "(previe (feed 1))",
    "(Preview (feed 1))",
    "(PREVIEW (feed 1))",
    "(pre view (feed 1))",
    "(feed (feed 1))",
    "(preview [feed 1])",
    "(preview (feed))",
    "(preview (feed ))",
    "(preview (feed 01))",
    "(preview (feed  1))",
    "(preview (feed 1 ))",
    "(preview ( feed 1))",
    "(preview (feed 18446744073709551616))",
    "(preview (feeds 1))",
    "(preview (receive (xs 1) (ss 1)))",
    "(preview (receive (ss 1) (ss 1)))",
    "(preview (receive (sin 1)))",
    "(preview (receive ))",
    "(preview (receive) (ss 1))",
    "(preview (settle))",
    "(preview (settle 0 (xi 1) (sac 2)))",
    "(preview (settle 0 (ss 1)))",
    "(preview (draw))",
    "(preview (draw 01))",
    "(preview (draw 1 (ss 1)))",
    "(preview (accept))",
    "(preview (accept (ss 1)))",
    "(preview (accept 5 (xs 1) (ss 1)))",
    "(preview (accept 5 (sin 1)))",
    "(preview ())",
    "(preview ( ))",
    "(preview (held))",
    "(preview (ok receive))",
    "(ok preview)",
];

/// Each of them is refused by 11, on any record and before all other refusals but 12.
#[test]
fn lines_that_are_no_previews() {
    let above = with_sludge(&[("ss", COD_CEILING + 1)]);
    for line in BROKEN {
        answered(Plant { sludge: [9; 13], ..Plant::FRESH }, line.as_bytes(), "(no 11)");
        answered(above, line.as_bytes(), "(no 11)");
    }
}

/// A preview inside a preview is refused by 11, however deep, and whatever its form would get.
#[test]
fn previews_inside_previews() {
    let above = with_sludge(&[("ss", COD_CEILING + 1)]);
    for form in FORMS.iter().chain(&["(feed 0)", "(feed)", ""]).map(|form| form.as_bytes()) {
        for depth in [2, 3, 4, 10, 100, 101] {
            let line = nested(form, depth);
            answered(Plant::FRESH, &line, "(no 11)");
            answered(above, &line, "(no 11)");
        }
    }
    for line in ["(preview (preview))", "(preview (preview ))", "(preview preview (feed 1))"] {
        answered(Plant::FRESH, line.as_bytes(), "(no 11)");
    }
}

/// The greatest preview: every column of a settle with the greatest number.
fn greatest() -> Vec<u8> {
    let fields: String =
        DIGESTER_NAMES.iter().map(|name| format!(" ({name} {})", u64::MAX)).collect();
    format!("(preview (settle {}{fields}))", u64::MAX).into_bytes()
}

/// The greatest preview is far below the longest line, so that whatever makes one as long as
/// that, or a byte longer, makes it no form.
#[test]
fn lines_of_1024_and_1025_bytes() {
    let greatest = greatest();
    assert_eq!(
        lines::read(&greatest),
        Some(Asked::Preview(Call::Settle(u64::MAX, [u64::MAX; 26])))
    );
    answered(Plant::FRESH, &greatest, "(no 3)");
    assert_eq!(LONGEST_LINE, 1024);
    for line in [&b"(preview (feed 1000))"[..], &greatest] {
        for length in [1023, 1024, 1025, 1026] {
            let ends = [0, 1, 8, 9, 10, line.len() - 2, line.len() - 1, line.len()];
            for (place, byte) in ends.iter().flat_map(|place| b" 0(x)".map(|byte| (place, byte))) {
                let (before, behind) = line.split_at(*place);
                let long = [before, &vec![byte; length - line.len()], behind].concat();
                assert_eq!(long.len(), length);
                answered(Plant::FRESH, &long, "(no 11)");
            }
        }
    }
}

/// A preview that is too long is one line of an input, and the ones behind it are read.
#[test]
fn long_lines_of_an_input() {
    for length in [1023, 1024, 1025, 1026, 65_535, 65_536, 65_537, 200_000] {
        let mut input = b"(preview (receive (ss 5)))".to_vec();
        input.resize(length, b' ');
        input.extend_from_slice(b"\n(preview (receive (ss 6)))\n(receive (ss 7))");
        let expected = "(no 11)\n(ok receive)\n(ok receive)\n";
        let held = "(held cod 7 tkn 0 oxygen 0 nitrate 0)\n";
        assert_eq!(printed(&input), format!("{expected}{held}"), "{length}");
    }
}

/// A buffer under 512 bytes is refused before all else; one of 512 has room for every preview,
/// and the bytes behind the answer keep their values.
#[test]
fn lent_buffer() {
    let full = Plant { reject: ASM1_CEILINGS, ..Plant::FRESH };
    let mut plant = full;
    for line in [&b"(preview (release 1000))"[..], b"(preview (feed 0))", b"(preview )"] {
        for length in [0, 1, 511] {
            let mut buffer = vec![0xa5; length];
            assert!(lines::answer(&mut plant, line, &mut buffer).is_empty());
            assert_eq!((&buffer, plant), (&vec![0xa5; length], full));
        }
        let mut buffer = [0xa5; 512];
        let length = lines::answer(&mut plant, line, &mut buffer).len();
        assert!(buffer[length..].iter().all(|&byte| byte == 0xa5));
        let mut called = [0xa5; 512];
        let form = lines::previewed(line).unwrap();
        assert_eq!(lines::answer(&mut full.clone(), form, &mut called).len(), length);
        assert_eq!((buffer, plant), (called, full));
    }
}

/// A list with every call, each line with its answer.
const WORKED: [(&str, &str); 11] = [
    ("(receive (ss 10) (so 4) (sno 300) (snh 7))", "(ok receive)"),
    ("(feed 1000)", "(ok feed burnt 5 oxygen 4 nitrate 300 warn 0)"),
    ("(settle 2 (ssu 1) (sch4 2) (sin 7))", "(ok settle)"),
    ("(settle 1)", "(no 7)"),
    ("(return 1000)", "(ok return stripped 2)"),
    ("(recycle 500)", "(ok recycle)"),
    (
        "(draw 500)",
        "(ok draw (si 0) (ss 0) (xi 0) (xs 0) (xbh 0) (xba 0) (xp 0) (so 0) (sno 0) (snh 2) \
        (snd 0) (xnd 0) (salk 0))",
    ),
    ("(accept 8 (snh 1))", "(ok accept n2 4)"),
    ("(accept 10000000000000001)", "(no 3)"),
    (
        "(release 1000)",
        "(ok release (si 0) (ss 1) (xi 0) (xs 0) (xbh 0) (xba 0) (xp 0) (so 0) (sno 0) (snh 2) \
        (snd 0) (xnd 0) (salk 0))",
    ),
    ("(receive (ss 0))", "(ok receive)"),
];

/// The balances of a worked list are the same with a preview in front of each line; a preview
/// by itself leaves them as they were.
#[test]
fn previews_count_for_nothing() {
    let (mut plant, mut balances) = (Plant::FRESH, Balances::default());
    for (line, expected) in WORKED {
        let (seen, before) = (preview(line.as_bytes()), balances);
        answered(plant, &seen, expected);
        balances.count_line(&seen, expected.as_bytes());
        assert_eq!(balances, before, "{line}");
        assert_eq!(answer(&mut plant, line.as_bytes()), expected.as_bytes());
        balances.count_line(line.as_bytes(), expected.as_bytes());
    }
    // COD: burnt 5, gas 2, stripped 2, released 1. TKN: released 2, drawn 2, and 3 are recycled.
    // Nitrate: 300 are reduced; of 8 ticks of nitrite 4 are N2.
    assert_eq!(balances.received, [10, 8, 4, 308]);
    assert_eq!(balances.left, [10, 4, 4, 304]);
    assert_eq!(plant, with_sludge(&[("sno", 4), ("snh", 4)]));
    assert_eq!(balances.check([0, 4, 0, 4]), Ok(()));
}

/// The place of a call among the eight.
fn place(call: &Call) -> usize {
    match call {
        Call::Receive(_) => 0,
        Call::Feed(_) => 1,
        Call::Settle(..) => 2,
        Call::Return(_) => 3,
        Call::Release(_) => 4,
        Call::Recycle(_) => 5,
        Call::Draw(_) => 6,
        Call::Accept(..) => 7,
    }
}

/// How many previews were accepted of each call, and how many were refused by each number.
#[derive(Default, Debug)]
struct Met {
    accepted: [u32; 8],
    refused: [u32; 16],
}

impl Met {
    /// Counts a preview by the line that it is of.
    fn count(&mut self, line: &[u8], answer: &[u8]) {
        match (lines::read(line), answer.starts_with(b"(ok ")) {
            (Some(Asked::Call(call)), true) => self.accepted[place(&call)] += 1,
            _ => self.refused[numbers_in(answer)[0] as usize] += 1,
        }
    }

    /// Asks that each was met so often, and 6, which is not used again, never.
    fn ask(&self, often: u32) {
        let refused = [1, 2, 3, 4, 5, 7, 8, 9, 10, 11, 15].map(|number| self.refused[number]);
        assert!(self.accepted.iter().chain(&refused).all(|&count| count >= often), "{self:?}");
        assert_eq!(self.refused[6], 0);
    }
}

/// Random lines, damaged ones and previews among them: the preview of each is answered as the
/// line itself, by 11 where that is a preview, and leaves the record as it was.
#[test]
fn random_lines() {
    let (mut met, mut previews) = (Met::default(), 0);
    for number in 0..1000 {
        let mut trial = Trial::new(Random::nth(17, number));
        let mut plant = trial.record();
        for _ in 0..100 {
            let (before, line) = (plant, trial.line(&plant));
            let seen = answer(&mut plant, &preview(&line));
            assert_eq!(plant, before, "{}", line.escape_ascii());
            let made = answer(&mut plant, &line);
            if let Some(Asked::Preview(_)) = lines::read(&line) {
                previews += 1;
                assert_eq!((&seen[..], plant), (&b"(no 11)"[..], before));
            } else {
                assert_eq!(seen, made, "{}", line.escape_ascii());
            }
            met.count(&line, &seen);
        }
    }
    met.ask(50);
    assert!(previews > 10_000, "{previews}");
}

/// A random list of lines without previews on this record.
fn list_on(trial: &mut Trial, mut plant: Plant) -> Vec<Vec<u8>> {
    let mut list = Vec::new();
    while list.len() < 60 {
        let line = trial.line(&plant);
        let is_preview = matches!(lines::read(&line), Some(Asked::Preview(_)));
        if !is_preview && !line.contains(&b'\n') {
            answer(&mut plant, &line);
            list.push(line);
        }
    }
    list
}

/// The list with previews thrown in anywhere, of the next line or of any; each line with the one
/// that it is the preview of, where it is one.
fn thrown_in(random: &mut Random, list: &[Vec<u8>]) -> (Vec<Vec<u8>>, Vec<Option<Vec<u8>>>) {
    let mut mixed = Vec::new();
    for next in 0..=list.len() {
        for _ in 0..random.one_of(&[0, 0, 1, 2]) {
            let other = random.index(list.len());
            let line = list.get(next).filter(|_| random.percent(50)).unwrap_or(&list[other]);
            mixed.push((preview(line), Some(line.clone())));
        }
        mixed.extend(list.get(next).map(|line| (line.clone(), None)));
    }
    mixed.into_iter().unzip()
}

/// What a list leads to: the record, its held line, the balances, and each line's answer.
type Outcome = (Plant, Vec<u8>, Balances, Vec<Vec<u8>>);

/// Makes the calls of a list, with this look at each line, the record before it, and its answer.
fn run(start: Plant, list: &[Vec<u8>], mut look: impl FnMut(usize, &Plant, &[u8])) -> Outcome {
    let (mut plant, mut balances, mut answers) = (start, Balances::on(&start), Vec::new());
    for (number, line) in list.iter().enumerate() {
        let before = plant;
        let answer = answer(&mut plant, line);
        balances.count_line(line, &answer);
        look(number, &before, &answer);
        answers.push(answer);
    }
    let mut buffer = [0; 512];
    (plant, lines::held(&plant, &mut buffer).to_vec(), balances, answers)
}

/// A list with previews thrown in anywhere leads to the same record, held line and balances as
/// without them, and its other lines to the same answers; each preview's answer is the one that
/// its call gets on a copy of the record.
#[test]
fn random_lists() {
    let mut met = Met::default();
    for number in 0..1000 {
        let mut trial = Trial::new(Random::nth(18, number));
        let start = trial.record();
        let list = list_on(&mut trial, start);
        let without = run(start, &list, |_, _, _| {});
        if let Ok(held) = without.0.held() {
            assert_eq!(without.2.check(held.numbers()), Ok(()));
        }
        let (mixed, of) = thrown_in(&mut trial.random, &list);
        let mut with = run(start, &mixed, |number, before, seen| {
            if let Some(line) = &of[number] {
                assert_eq!(seen, answer(&mut before.clone(), line), "{}", line.escape_ascii());
                met.count(line, seen);
            }
        });
        let mut of = of.iter();
        with.3.retain(|_| of.next().is_some_and(Option::is_none));
        assert_eq!(with, without);
    }
    met.ask(30);
}

/// The same through whole sessions: without the previews' answers as much is printed.
#[test]
fn random_sessions() {
    for number in 0..200 {
        let mut trial = Trial::new(Random::nth(19, number));
        let list = list_on(&mut trial, Plant::FRESH);
        let (mixed, of) = thrown_in(&mut trial.random, &list);
        let ended = |lines: &[Vec<u8>]| [&lines.join(&b'\n')[..], b"\n"].concat();
        let (without, with) = (printed(&ended(&list)), printed(&ended(&mixed)));
        let (answers, held) = with.split_at(with.find("(held").unwrap());
        assert_eq!(answers.lines().count(), of.len());
        let kept = answers.lines().zip(&of).filter(|(_, of)| of.is_none());
        let kept: String = kept.map(|(answer, _)| format!("{answer}\n")).collect();
        assert_eq!(format!("{kept}{held}"), without);
    }
}
