//! Request E2 of document 02: the fields of a receive or settle stand in the column order
//! of document 01, and a line in another order gets 11. Worked lines of both words, every
//! pair of columns, all columns at once, the columns that both tables have, the place of
//! 11 among the refusals, and random calls written in order and out of it.

mod named;

use named::{asm1, digester, with_digester, with_sludge};
use second::lines::Asked;
use second::plant::{Call, Plant};
use second::random::Random;
use second::tables::*;
use second::trials::{form, order, Trial};
use second::{lines, session};

/// The columns of an ASM1 vector, as document 01 has them.
const ASM1: &str = "si ss xi xs xbh xba xp so sno snh snd xnd salk";

/// The columns of a digester vector, as document 01 has them.
const DIGESTER: &str = "si ssu saa sfa sva sbu spro sac sh2 sch4 xi xc xch xpr xli xsu xaa xfa \
    xc4 xpro xac xh2 sin sic co cn";

/// A field: its name and number.
type Field = (&'static str, u64);

/// What a line with fields begins with, and the columns that they may name.
type Word = (&'static str, &'static str);

/// Both words.
const WORDS: [Word; 2] = [("receive", ASM1), ("settle 7", DIGESTER)];

/// All columns of a table as fields, each with a number of its own.
fn all_fields(columns: &'static str) -> Vec<Field> {
    columns.split_whitespace().zip((1..).map(|place| 1000 + place)).collect()
}

/// The line of this word with these fields, in the order given.
fn line(word: &str, fields: &[Field]) -> String {
    let fields: String = fields.iter().map(|(name, n)| format!(" ({name} {n})")).collect();
    format!("({word}{fields})")
}

/// The call of this word with these fields, whatever their order.
fn call(word: &str, fields: &[Field]) -> Asked {
    Asked::Call(match word {
        "receive" => Call::Receive(asm1(fields)),
        _ => Call::Settle(7, digester(fields)),
    })
}

/// The answer to one line on a record, as text.
fn answer(plant: &mut Plant, line: &str) -> String {
    let mut buffer = [0; 512];
    String::from_utf8(lines::answer(plant, line.as_bytes(), &mut buffer).to_vec()).unwrap()
}

/// Checks that a line is refused by this number and leaves the record as it was.
fn refused(mut plant: Plant, line: &str, number: u64) {
    let before = plant;
    assert_eq!(answer(&mut plant, line), format!("(no {number})"), "{line}");
    assert_eq!(plant, before, "{line}");
}

/// Checks that a line is no form.
fn no_form(line: &str) {
    assert_eq!(lines::read(line.as_bytes()), None, "{line}");
}

/// The same fields of a receive in order, reversed, with neighbours swapped, with one doubled.
#[test]
fn receive_in_order_alone() {
    let mut plant = with_sludge(&[("xi", 1)]);
    let in_order = "(receive (ss 10) (xi 20) (so 30) (snh 40))";
    assert_eq!(answer(&mut plant, in_order), "(ok receive)");
    assert_eq!(plant, with_sludge(&[("ss", 10), ("xi", 21), ("so", 30), ("snh", 40)]));
    for other in [
        "(receive (snh 40) (so 30) (xi 20) (ss 10))",
        "(receive (xi 20) (ss 10) (so 30) (snh 40))",
        "(receive (ss 10) (so 30) (xi 20) (snh 40))",
        "(receive (ss 10) (xi 20) (snh 40) (so 30))",
        "(receive (ss 10) (ss 10) (xi 20) (so 30) (snh 40))",
        "(receive (ss 10) (xi 20) (xi 0) (so 30) (snh 40))",
        "(receive (ss 10) (xi 20) (so 30) (snh 40) (snh 40))",
        "(receive (ss 10) (xi 20) (so 30) (snh 40) (ss 10))",
        "(receive (snh 40) (ss 10) (xi 20) (so 30) (snh 40))",
    ] {
        refused(plant, other, 11);
    }
}

/// The same fields of a settle in order, reversed, with neighbours swapped, with one doubled.
#[test]
fn settle_in_order_alone() {
    let before = with_digester(&[("ssu", 12), ("xpr", 1), ("co", 2), ("sic", 9)]);
    let mut plant = before;
    let in_order = "(settle 4 (sch4 6) (xli 3) (sin 980) (sic 5) (co 2))";
    assert_eq!(answer(&mut plant, in_order), "(ok settle)");
    let after = [("sch4", 6), ("xli", 3), ("sin", 980), ("sic", 5), ("co", 2)];
    assert_eq!(plant, with_digester(&after));
    for other in [
        "(settle 4 (co 2) (sic 5) (sin 980) (xli 3) (sch4 6))",
        "(settle 4 (xli 3) (sch4 6) (sin 980) (sic 5) (co 2))",
        "(settle 4 (sch4 6) (sin 980) (xli 3) (sic 5) (co 2))",
        "(settle 4 (sch4 6) (xli 3) (sic 5) (sin 980) (co 2))",
        "(settle 4 (sch4 6) (xli 3) (sin 980) (co 2) (sic 5))",
        "(settle 4 (sch4 6) (sch4 6) (xli 3) (sin 980) (sic 5) (co 2))",
        "(settle 4 (sch4 6) (xli 3) (sin 980) (sin 0) (sic 5) (co 2))",
        "(settle 4 (sch4 6) (xli 3) (sin 980) (sic 5) (co 2) (co 2))",
        "(settle 4 (sch4 6) (xli 3) (sin 980) (sic 5) (co 2) (sch4 6))",
        "(settle 4 (co 2) (sch4 6) (xli 3) (sin 980) (sic 5) (co 2))",
    ] {
        refused(before, other, 11);
    }
}

/// All thirteen columns of a receive are accepted with their numbers.
#[test]
fn all_columns_received() {
    let mut plant = Plant::FRESH;
    assert_eq!(answer(&mut plant, &line("receive", &all_fields(ASM1))), "(ok receive)");
    let sludge = std::array::from_fn(|column| 1001 + column as u64);
    assert_eq!(plant, Plant { sludge, ..Plant::FRESH });
}

/// All 26 columns of a settle are accepted with their numbers: ssu falls by the gas, sic is free.
#[test]
fn all_columns_settled() {
    let proposed: Digester = std::array::from_fn(|column| 1001 + column as u64);
    let mut plant = Plant { digester: proposed, ..Plant::FRESH };
    plant.digester[digester::SSU] += 7;
    plant.digester[digester::SIC] = 0;
    assert_eq!(answer(&mut plant, &line("settle 7", &all_fields(DIGESTER))), "(ok settle)");
    assert_eq!(plant, Plant { digester: proposed, ..Plant::FRESH });
}

/// With all columns in the line, each swap of two neighbours is refused, each doubled field,
/// wherever it stands again, and all of them reversed.
#[test]
fn all_columns_out_of_order() {
    for (word, columns) in WORDS {
        let fields = all_fields(columns);
        assert_eq!(lines::read(line(word, &fields).as_bytes()), Some(call(word, &fields)));
        for place in 1..fields.len() {
            let mut swapped = fields.clone();
            swapped.swap(place - 1, place);
            refused(Plant::FRESH, &line(word, &swapped), 11);
        }
        for (field, again) in fields.iter().flat_map(|f| (0..=fields.len()).map(move |n| (f, n))) {
            let mut doubled = fields.clone();
            doubled.insert(again, *field);
            refused(Plant::FRESH, &line(word, &doubled), 11);
        }
        let reversed: Vec<Field> = fields.iter().rev().copied().collect();
        refused(Plant::FRESH, &line(word, &reversed), 11);
    }
}

/// Two fields are a form exactly where the second one's column stands behind the first one's.
#[test]
fn every_pair_of_columns() {
    for (word, columns) in WORDS {
        let fields = all_fields(columns);
        for (first, one) in fields.iter().enumerate() {
            for (second, other) in fields.iter().enumerate() {
                let pair = [*one, *other];
                let expected = (first < second).then(|| call(word, &pair));
                let line = line(word, &pair);
                assert_eq!(lines::read(line.as_bytes()), expected, "{line}");
            }
        }
    }
}

/// Any choice of columns is a form in order, and none reversed: every choice of a receive's
/// columns, and as many of a settle's.
#[test]
fn any_choice_of_columns() {
    let mut random = Random::new(14);
    for (word, columns) in WORDS {
        let fields = all_fields(columns);
        for number in 0..1 << 13 {
            let chosen = if word == "receive" { number } else { random.below(1 << 26) };
            let is_chosen = |(place, _): &(usize, &Field)| chosen >> place & 1 == 1;
            let some = fields.iter().enumerate().filter(is_chosen);
            let mut some: Vec<Field> = some.map(|(_, field)| *field).collect();
            assert_eq!(lines::read(line(word, &some).as_bytes()), Some(call(word, &some)));
            if some.len() > 1 {
                some.reverse();
                no_form(&line(word, &some));
            }
        }
    }
}

/// Each word has the order of its own table: si and xi stand in both, at other places, and
/// neither order is that of the alphabet.
#[test]
fn each_word_by_its_own_table() {
    assert_eq!(ASM1_NAMES.join(" "), ASM1);
    assert_eq!(DIGESTER_NAMES.join(" "), DIGESTER);
    let in_order = [
        ("(receive (xi 1) (xs 2))", "(receive (xs 2) (xi 1))"),
        ("(receive (xi 1) (so 2))", "(receive (so 2) (xi 1))"),
        ("(receive (xbh 1) (xba 2))", "(receive (xba 2) (xbh 1))"),
        ("(receive (si 1) (ss 2) (xi 3))", "(receive (si 1) (xi 3) (ss 2))"),
        ("(receive (xnd 1) (salk 2))", "(receive (salk 2) (xnd 1))"),
        ("(settle 0 (sac 1) (xi 2))", "(settle 0 (xi 1) (sac 2))"),
        ("(settle 0 (ssu 1) (xi 2))", "(settle 0 (xi 1) (ssu 2))"),
        ("(settle 0 (sch4 1) (xi 2) (xc 3))", "(settle 0 (xi 2) (sch4 1) (xc 3))"),
        ("(settle 0 (si 1) (sch4 2) (xi 3))", "(settle 0 (si 1) (xi 3) (sch4 2))"),
        ("(settle 0 (si 1) (sin 2) (sic 3))", "(settle 0 (si 1) (sic 3) (sin 2))"),
        ("(settle 0 (xsu 1) (sin 2))", "(settle 0 (sin 2) (xsu 1))"),
        ("(settle 0 (xh2 1) (co 2) (cn 3))", "(settle 0 (co 2) (cn 3) (xh2 1))"),
    ];
    for (line, other) in in_order {
        assert!(lines::read(line.as_bytes()).is_some(), "{line}");
        no_form(other);
    }
    let v = digester(&[("sac", 1), ("xi", 2)]);
    let settle = |v| Some(Asked::Call(Call::Settle(0, v)));
    assert_eq!(lines::read(b"(settle 0 (sac 1) (xi 2))"), settle(v));
    let v = digester(&[("xsu", 1), ("sin", 2)]);
    assert_eq!(lines::read(b"(settle 0 (xsu 1) (sin 2))"), settle(v));
}

/// The order is asked of zeros too, before 1, 3, 7 and 10, and behind 12.
#[test]
fn eleven_among_the_refusals() {
    let above = with_sludge(&[("ss", COD_CEILING + 1)]);
    let full = with_sludge(&[("ss", COD_CEILING)]);
    let open = with_digester(&[("ssu", 5)]);
    for (plant, in_order, number, other) in [
        (above, "(receive (ss 0) (xs 0))", 1, "(receive (xs 0) (ss 0))"),
        (
            Plant::FRESH,
            "(receive (ss 1) (so 1000000000001))",
            3,
            "(receive (so 1000000000001) (ss 1))",
        ),
        (full, "(receive (ss 1) (xs 1))", 10, "(receive (xs 1) (ss 1))"),
        (above, "(settle 0 (co 1) (cn 1))", 1, "(settle 0 (cn 1) (co 1))"),
        (open, "(settle 0 (ssu 4) (sin 0))", 7, "(settle 0 (sin 0) (ssu 4))"),
    ] {
        refused(plant, in_order, number);
        refused(plant, other, 11);
    }
    refused(Plant::FRESH, "(receive (xs 0) (ss 0))", 11);
    refused(Plant::FRESH, "(receive (ss 0) (ss 0))", 11);
    refused(Plant::FRESH, "(settle 0 (sin 0) (ssu 0))", 11);
    let (mut plant, mut buffer) = (Plant::FRESH, [0xa5; 511]);
    assert!(lines::answer(&mut plant, b"(receive (xs 0) (ss 0))", &mut buffer).is_empty());
    assert_eq!((plant, buffer), (Plant::FRESH, [0xa5; 511]));
}

/// Lines out of order between others move nothing.
#[test]
fn session_with_other_orders() {
    let input = b"(receive (xs 30) (ss 10))\n(receive (ss 10) (xs 30))\n(feed 1000)\n\
        (settle 30 (xi 0) (ssu 10))\n(settle 30 (ssu 10) (xi 0))\n(return 1000)\n\
        (receive (ss 1) (ss 1))";
    let expected = "(no 11)\n(ok receive)\n(ok feed burnt 0 oxygen 0 nitrate 0 warn 0)\n\
        (no 11)\n(ok settle)\n(ok return stripped 0)\n(no 11)\n\
        (held cod 10 tkn 0 oxygen 0 nitrate 0)\n";
    let mut printed = Vec::new();
    session::run(&mut &input[..], &mut printed).unwrap();
    assert_eq!(String::from_utf8(printed).unwrap(), expected);
}

/// Random calls are written in order and read as themselves; put out of order, each line gets
/// 11 and leaves the record as it was.
#[test]
fn random_calls() {
    let mut met = [0; 2];
    for number in 0..200 {
        let mut trial = Trial::new(Random::nth(15, number));
        let mut plant = trial.record();
        for _ in 0..100 {
            let call = trial.call(&plant);
            let mut line = form(&mut trial.random, &call);
            let asked = Some(Asked::Call(call.clone()));
            assert_eq!(lines::read(&line), asked, "{}", line.escape_ascii());
            if order::disorder(&mut trial.random, &mut line) {
                met[usize::from(line.starts_with(b"(settle"))] += 1;
                refused(plant, std::str::from_utf8(&line).unwrap(), 11);
            }
            let _ = plant.call(&call);
        }
    }
    assert!(met.iter().all(|&count| count > 2000), "{met:?}");
}
