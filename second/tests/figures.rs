//! Request E7 of document 02: the nine figures of a record, chosen when it is made and never
//! changed after. Document 01's plants a to k by a dairy's set, worked by hand, and plants at the
//! ceilings by extreme sets; a session and its balances; the bounds, the making of a record, the
//! place of 15 among the refusals; and over random sets the rules of both conversions in whole
//! numbers without a ceiling, the four balances, and that every call leaves the figures alone.

mod named;

use named::{asm1, digester, with_digester, with_sludge};
use second::balances::{numbers_in, Balances};
use second::closing::Gap;
use second::figures::{Figures, HOUSE};
use second::plant::{Call, Plant, Record, Refusal};
use second::random::Random;
use second::tables::*;
use second::trials::figures::{just_outside, outside, permitted, DAIRY, EXTREMES};
use second::trials::{form, leachate, sheets, Trial};
use second::{convert, lines, numbers, session};

/// The extreme sets by their names.
const LEAST_FCH: Figures = EXTREMES[0];
const LEAST_FLI: Figures = EXTREMES[1];
const GREATEST: Figures = EXTREMES[2];

/// A million million, the ceiling of a COD column; and that of a column of ticks.
const COD: u64 = COD_CEILING;
const TICKS: u64 = TICK_CEILING;

/// The answer to one line on a record, as text.
fn answer(plant: &mut Plant, line: &str) -> String {
    let mut buffer = [0; 512];
    String::from_utf8(lines::answer(plant, line.as_bytes(), &mut buffer).to_vec()).unwrap()
}

/// Checks a worked feed by these figures: told numbers (burnt, oxygen, nitrate, warn), the
/// digester, both balances; the same by numbers; and the same of a record, or 10 where a column
/// passes its ceiling.
fn fed(figures: &Figures, v: Asm1, told: [u64; 4], expected: &[(&str, u64)]) {
    let (out, t) = convert::feed(figures, &v).unwrap();
    assert_eq!(t.numbers(), told);
    assert_eq!(out, digester(expected));
    assert_eq!(cod_asm1(&v), cod_digester(&out) + u128::from(t.burnt));
    assert_eq!(figures.tkn_asm1(&v), figures.tkn_digester(&out));
    let (mut d, mut four) = ([9; 26], [9; 4]);
    assert_eq!(numbers::asm_to_adm(&figures.numbers(), &v, &mut d, &mut four), 0);
    assert_eq!((d, four), (out, told));
    let mut plant = Plant { sludge: v, ..Plant::fresh(*figures) };
    let after = match within(&out, &DIGESTER_CEILINGS) {
        true => (Ok(t), Plant { digester: out, ..Plant::fresh(*figures) }),
        false => (Err(Refusal::DestinationAboveCeiling), plant),
    };
    assert_eq!((plant.feed(1000), plant), after);
}

/// Checks a worked return by these figures in the same way; told is the COD stripped.
fn returned(figures: &Figures, d: Digester, stripped: u64, expected: &[(&str, u64)]) {
    let (out, told) = convert::give_back(figures, &d).unwrap();
    assert_eq!((out, told), (asm1(expected), stripped));
    assert_eq!(cod_digester(&d), cod_asm1(&out) + u128::from(told));
    assert_eq!(figures.tkn_digester(&d), figures.tkn_asm1(&out));
    let (mut v, mut one) = ([9; 13], [9]);
    assert_eq!(numbers::adm_to_asm(&figures.numbers(), &d, &mut v, &mut one), 0);
    assert_eq!((v, one), (out, [stripped]));
    let mut plant = Plant { digester: d, ..Plant::fresh(*figures) };
    let after = match within(&out, &ASM1_CEILINGS) {
        true => (Ok(stripped), Plant { reject: out, ..Plant::fresh(*figures) }),
        false => (Err(Refusal::DestinationAboveCeiling), plant),
    };
    assert_eq!((plant.give_back(1000), plant), after);
}

/// Plants a, b and g: stage 1 has no figures. b: 6428 are left, 1200 × 6428 / 7000 = 1101.9.
#[test]
fn dairy_a_b_g() {
    let a = asm1(&[("ss", 40000), ("so", 5000), ("sno", 100_000_000)]);
    fed(&DAIRY, a, [33572, 5000, 100_000_000, 0], &[("ssu", 6428)]);
    let b = asm1(&[("ss", 10000), ("xs", 30000), ("so", 5000), ("sno", 100_000_000)]);
    fed(&DAIRY, b, [33572, 5000, 100_000_000, 0], &[("xch", 1101), ("xli", 5327)]);
    let g = asm1(&[("xs", 5), ("so", 7), ("sno", 100)]);
    fed(&DAIRY, g, [5, 5, 0, 1], &[("co", 2), ("cn", 100)]);
}

/// c: 10000 / 1120 = 8, and 10000 - 8 × 1120 = 1040. d: 10000 - 5 × 1120 = 4400.
#[test]
fn dairy_c_d() {
    let c = asm1(&[("ss", 100), ("snd", 10000)]);
    fed(&DAIRY, c, [0; 4], &[("saa", 8), ("ssu", 92), ("sin", 1040)]);
    let d = asm1(&[("ss", 5), ("snd", 10000)]);
    fed(&DAIRY, d, [0; 4], &[("saa", 5), ("sin", 4400)]);
}

/// e: the pool is 10 × 640 = 6400; xi is 7350 × 10 / 10000 = 7 and needs 7 × 220 = 1540; xc is
/// the 3 that are left, and 6400 - 1540 - 3 × 410 = 3630. f: si needs 220.
#[test]
fn dairy_e_f() {
    let e = asm1(&[("xi", 10)]);
    fed(&DAIRY, e, [0; 4], &[("xi", 7), ("xc", 3), ("sin", 3630)]);
    fed(&DAIRY, asm1(&[("si", 1), ("snh", 220)]), [0; 4], &[("si", 1)]);
    let short = convert::feed(&DAIRY, &asm1(&[("si", 1), ("snh", 219)]));
    assert_eq!(short.unwrap_err(), Refusal::FeedNitrogenShort);
}

/// h: the burnt biomass leaves 850. i: 4110 / 410 = 10, and 10 ticks are left; of the other 90,
/// 1200 × 90 / 7000 = 15.4.
#[test]
fn dairy_h_i() {
    let h = asm1(&[("xba", 1), ("sno", 3501)]);
    fed(&DAIRY, h, [1, 0, 3500, 1], &[("cn", 1), ("sin", 850)]);
    let i = asm1(&[("xs", 100), ("xnd", 4110)]);
    fed(&DAIRY, i, [0; 4], &[("xc", 10), ("xch", 15), ("xli", 75), ("sin", 10)]);
}

/// A plant with every column. A = 265: oxygen takes 20 and 3000 ticks of nitrate 0.857, so that
/// 21 are burnt, of ss. 30000 / 1120 = 26 of the 29 left. Of snd 880 ticks are left, and the pool
/// is 880 + 7000 + 15 × 850 + 60 × 640 = 59030. xi is 7350 × 60 / 10000 = 44.1, the need
/// 47 × 220 = 10340, and 48690 are left. R = 200 + 10 + 5 + 60 - 44 = 231: xc is 48690 / 410 =
/// 118.8, of the other 113 xch is 1200 × 113 / 7000 = 19.4, and sin is 1000 + 48690 - 118 × 410
/// = 1310.
#[test]
fn dairy_with_every_column() {
    let v = [3, 50, 40, 200, 10, 5, 20, 20, 3000, 1000, 30000, 7000, 9];
    let soluble = [("si", 3), ("ssu", 3), ("saa", 26), ("sin", 1310), ("sic", 9)];
    let particulate = [("xi", 44), ("xc", 118), ("xch", 19), ("xli", 94)];
    fed(&DAIRY, v, [21, 20, 3000, 0], &[&soluble[..], &particulate].concat());
}

/// j: xnd begins with 3 × 410 + 7 × 220 = 2770; the inerts take it and 7 × 640 - 2770 = 1710 of
/// sin. k: 640 - 220 = 420.
#[test]
fn dairy_j_k() {
    let j = digester(&[("xi", 7), ("xc", 3), ("sin", 3630)]);
    returned(&DAIRY, j, 0, &[("xi", 7), ("xs", 3), ("snh", 1920)]);
    returned(&DAIRY, digester(&[("xi", 1), ("sin", 420)]), 0, &[("xi", 1)]);
    let short = convert::give_back(&DAIRY, &digester(&[("xi", 1), ("sin", 419)]));
    assert_eq!(short.unwrap_err(), Refusal::ReturnNitrogenShort);
}

/// A return of every kind of column. xnd: 2 × 410 + 5 × 1120 + 7 × 910 + 6 × 220 = 14110, less
/// 6 × 640; snd: 10 × 1120 + 4 × 220.
#[test]
fn dairy_return_of_every_kind() {
    let mut d = digester(&[("si", 4), ("ssu", 1), ("saa", 10), ("sh2", 8), ("sch4", 9), ("xi", 6)]);
    (d[digester::XC], d[digester::XPR]) = (2, 5);
    d[digester::DEGRADERS].fill(1);
    d[digester::SIN..].copy_from_slice(&[100, 7, 3, 2]);
    let cod = [("si", 4), ("ss", 11), ("xi", 6), ("xs", 14)];
    let others = [("so", 3), ("sno", 2), ("snh", 100), ("snd", 12080), ("xnd", 10270), ("salk", 7)];
    returned(&DAIRY, d, 17, &[&cod[..], &others].concat());
}

/// Every column at its ceiling, by the greatest figures. Nitrate burns 10^16 / 3500, rounded
/// up: of 4 × 10^12, 142,857,142,857 of xba are left. The pool is 10^16 × (1 + 1 + 2 + 2), the
/// need 10^4 × 3 × 10^12; all that is not inert becomes xc, and sin is 10^16 + 3 × 10^16 less
/// 10^4 for each of it.
#[test]
fn greatest_feed_of_full_columns() {
    let told = [3_857_142_857_143, COD, TICKS, 0];
    let inert = [("si", COD), ("xi", 2 * COD), ("sic", COD)];
    let others = [("xc", 142_857_142_857), ("sin", 38_571_428_571_430_000)];
    fed(&GREATEST, ASM1_CEILINGS, told, &[&inert[..], &others].concat());
}

/// The same without oxygen and nitrate: all of ss becomes saa with all of snd, the pool is
/// 5 × 10^16 and the need 3 × 10^16, so that of 3 × 10^12 two become xc; the third is halved.
#[test]
fn greatest_feed_that_burns_nothing() {
    let mut v = ASM1_CEILINGS;
    (v[asm1::SO], v[asm1::SNO]) = (0, 0);
    let inert = [("si", COD), ("xi", 2 * COD), ("sic", COD)];
    let half = COD / 2;
    let others = [("saa", COD), ("xc", 2 * COD), ("xch", half), ("xli", half), ("sin", TICKS)];
    fed(&GREATEST, v, [0; 4], &[&inert[..], &others].concat());
}

/// Full columns returned by the greatest figures: xnd has 10^16 each of xc, xpr, xi and seven
/// degraders, less 10^16; snd of saa and si.
#[test]
fn greatest_return_of_full_columns() {
    let cod = [("si", COD), ("ss", 7 * COD), ("xi", COD), ("xs", 11 * COD), ("so", COD)];
    let ticks = [("sno", TICKS), ("snh", TICKS), ("snd", 2 * TICKS), ("xnd", 9 * TICKS)];
    let expected = [&cod[..], &ticks, &[("salk", COD)]].concat();
    returned(&GREATEST, DIGESTER_CEILINGS, 2 * COD, &expected);
}

/// Where nitrogen just suffices at the ceilings: 10^4 × 10^12 = 10^16.
#[test]
fn greatest_shortages() {
    let feed = |snh: u64| convert::feed(&GREATEST, &asm1(&[("si", COD), ("snh", snh)]));
    assert_eq!(feed(TICKS).unwrap().0, digester(&[("si", COD)]));
    assert_eq!(feed(TICKS - 1).unwrap_err(), Refusal::FeedNitrogenShort);
    let owing = Figures { ixe: 10_000, ..LEAST_FCH };
    let back = |sin: u64| convert::give_back(&owing, &digester(&[("xi", COD), ("sin", sin)]));
    assert_eq!(back(TICKS), Ok((asm1(&[("xi", COD)]), 0)));
    assert_eq!(back(TICKS - 1), Err(Refusal::ReturnNitrogenShort));
}

/// Full columns by the least figures: no inerts stay, nothing needs nitrogen, each mg of xc takes
/// one tick. xc is 142,857,142,857 + 2 × 10^12, and sin 3 × 10^16 less as much.
#[test]
fn least_feed_of_full_columns() {
    let told = [3_857_142_857_143, COD, TICKS, 0];
    let expected =
        [("si", COD), ("xc", 2_142_857_142_857), ("sin", 29_997_857_142_857_143), ("sic", COD)];
    fed(&LEAST_FCH, ASM1_CEILINGS, told, &expected);
    fed(&LEAST_FLI, ASM1_CEILINGS, told, &expected);
}

/// Small amounts by the least figures: carbohydrate alone, or lipid alone; one tick a mg for amino
/// acids; and inerts that neither hold nor need nitrogen.
#[test]
fn least_small_amounts() {
    let xs = asm1(&[("xs", COD), ("xnd", 3)]);
    fed(&LEAST_FCH, xs, [0; 4], &[("xc", 3), ("xch", COD - 3)]);
    fed(&LEAST_FLI, xs, [0; 4], &[("xc", 3), ("xli", COD - 3)]);
    for figures in [LEAST_FCH, LEAST_FLI] {
        let v = asm1(&[("si", 1), ("ss", 9), ("snd", 7)]);
        fed(&figures, v, [0; 4], &[("si", 1), ("saa", 7), ("ssu", 2)]);
        fed(&figures, asm1(&[("ss", 5), ("snd", 7)]), [0; 4], &[("saa", 5), ("sin", 2)]);
        let d = [("si", 9), ("saa", 2), ("xi", COD), ("xc", 4), ("xpr", 3), ("xh2", 8), ("sin", 1)];
        let cod = [("si", 9), ("ss", 2), ("xi", COD), ("xs", 15)];
        let expected = [&cod[..], &[("snh", 1), ("snd", 2), ("xnd", 7)]].concat();
        returned(&figures, digester(&d), 0, &expected);
    }
}

/// What three tanks hold together by their figures: one mg or tick in every column; and full
/// tanks by the greatest figures, which hold 10^16 × (7 + 13 + 7) ticks.
#[test]
fn held_by_the_figures() {
    let mut plant = Plant { sludge: [1; 13], digester: [1; 26], reject: [1; 13], figures: DAIRY };
    let mut buffer = [0; 512];
    // Twice 3 + 2 × 850 + 2 × 640, and 1 + 410 + 2 × 220 + 2 × 1120 + 7 × 910.
    let expected = "(held cod 36 tkn 15427 oxygen 3 nitrate 3)";
    assert_eq!(lines::held(&plant, &mut buffer), expected.as_bytes());
    let (sludge, reject) = (ASM1_CEILINGS, ASM1_CEILINGS);
    plant = Plant { sludge, digester: DIGESTER_CEILINGS, reject, figures: GREATEST };
    let held = plant.held().unwrap().numbers();
    assert_eq!(held, [36 * COD, 27 * TICKS, 3 * COD, 3 * TICKS]);
}

/// Closing by the dairy's set: 10 mg protein hold 11200 ticks, of which two acetate degraders and
/// three composites take 1820 and 1230; by the house set other sums close.
#[test]
fn closing_by_the_figures() {
    let plant = Plant { figures: DAIRY, ..with_digester(&[("xpr", 10), ("sin", 5)]) };
    let proposal = digester(&[("xac", 2), ("xc", 3), ("sch4", 4)]);
    let mut closed = proposal;
    closed[digester::SIN] = 11205 - 1820 - 1230;
    assert_eq!(plant.close(&proposal), Ok((closed, 1)));
    assert_eq!(plant.clone().settle(1, &closed), Ok(()));
    closed[digester::SIN] += 1;
    assert_eq!(plant.clone().settle(1, &closed), Err(Refusal::TknDiffers));
    // 13 mg of degraders hold 11830: 625 too much.
    let open = digester(&[("xh2", 13)]);
    assert_eq!(plant.gap(&open), Ok(Gap { cod: 3, tkn: 625, sin: 0 }));
    let house = Plant { figures: HOUSE, ..plant };
    closed[digester::SIN] = 9805 - 1750 - 840;
    assert_eq!(house.close(&proposal), Ok((closed, 1)));
}

/// At the ceilings by the greatest figures: composites become protein, which hold as much.
#[test]
fn closing_at_the_ceilings() {
    let mut old = DIGESTER_CEILINGS;
    old[digester::XPR] = 0;
    let mut new = DIGESTER_CEILINGS;
    new[digester::XC] = 0;
    let mut plant = Plant { digester: old, ..Plant::fresh(GREATEST) };
    assert_eq!(plant.close(&new), Ok((new, 0)));
    new[digester::SIN] -= 1;
    assert_eq!(plant.settle(0, &new), Err(Refusal::TknDiffers));
    new[digester::SIN] += 1;
    assert_eq!(plant.settle(0, &new), Ok(()));
    assert_eq!(plant.gap(&[0; 26]), Ok(Gap { cod: 0, tkn: 0, sin: 11 * TICKS }));
    // Twelve columns hold 10^16 each, as eleven and sin did.
    assert_eq!(plant.gap(&DIGESTER_CEILINGS), Ok(Gap { cod: COD, tkn: 0, sin: 0 }));
    plant.digester[digester::SIN] -= 1;
    assert_eq!(plant.gap(&DIGESTER_CEILINGS), Ok(Gap { cod: COD, tkn: 1, sin: 0 }));
}

/// A session by the dairy's set, each line with its answer. The feed: 12000 / 1120 = 10, the pool
/// 800 + 4 × 850 + 10 × 640 = 10600, xi 7, the need 9 × 220, xc 8620 / 410 = 21, xch 1200 × 86
/// / 7000 = 14, sin 510. The settle: 22300 - 20 × 410 - 9 × 220 - 5 × 1120 - 5 × 910 = 1970. The
/// return: xnd 20 × 410 + 5 × 910 + 7 × 220 - 7 × 640 = 9810, snd 5 × 1120 + 2 × 220 = 6040.
const DAIRY_SESSION: [(&str, &str); 8] = [
    (
        "(receive (si 2) (ss 50) (xi 10) (xs 100) (xbh 4) (snh 500) (snd 12000) (salk 3))",
        "(ok receive)",
    ),
    ("(feed 1000)", "(ok feed burnt 0 oxygen 0 nitrate 0 warn 0)"),
    (
        "(settle 13 (si 2) (ssu 30) (saa 5) (sch4 10) (xi 7) (xc 20) (xch 14) (xli 60) (xsu 2) \
        (xac 3) (sin 1971) (sic 8))",
        "(no 8)",
    ),
    (
        "(settle 13 (si 2) (ssu 30) (saa 5) (sch4 10) (xi 7) (xc 20) (xch 14) (xli 60) (xsu 2) \
        (xac 3) (sin 1970) (sic 8))",
        "(ok settle)",
    ),
    ("(return 1000)", "(ok return stripped 10)"),
    (
        "(preview (release 1000))",
        "(ok release (si 2) (ss 35) (xi 7) (xs 99) (xbh 0) (xba 0) (xp 0) (so 0) (sno 0) \
        (snh 1970) (snd 6040) (xnd 9810) (salk 8))",
    ),
    ("(recycle 500)", "(ok recycle)"),
    (
        "(release 1000)",
        "(ok release (si 1) (ss 18) (xi 4) (xs 50) (xbh 0) (xba 0) (xp 0) (so 0) (sno 0) \
        (snh 985) (snd 3020) (xnd 4905) (salk 4))",
    ),
];

/// What is held after it: 985 + 3020 + 4905 + 3 × 640 ticks.
const DAIRY_HELD: &str = "(held cod 70 tkn 10830 oxygen 0 nitrate 0)";

/// The session's lines as an input, and what is to be printed for it.
fn dairy_session() -> (String, String) {
    let input = DAIRY_SESSION.iter().map(|(line, _)| format!("{line}\n")).collect();
    let answers: String = DAIRY_SESSION.iter().map(|(_, answer)| format!("{answer}\n")).collect();
    (input, format!("{answers}{DAIRY_HELD}\n"))
}

/// Its answers, and its balances: COD leaves by 13 of gas, 10 stripped and 73 released, TKN by the
/// release's 985 + 3020 + 4905 + 4 × 640. By the house set the settle is refused, and the dairy's
/// answers would leave TKN open.
#[test]
fn session_by_the_dairys_set() {
    let (input, expected) = dairy_session();
    let (mut printed, mut by_house) = (Vec::new(), Vec::new());
    session::run_on(Plant::fresh(DAIRY), &mut input.as_bytes(), &mut printed).unwrap();
    assert_eq!(String::from_utf8(printed).unwrap(), expected);
    session::run(&mut input.as_bytes(), &mut by_house).unwrap();
    assert_ne!(String::from_utf8(by_house).unwrap(), expected);
    let (mut balances, mut other) = (Balances::on(&Plant::fresh(DAIRY)), Balances::default());
    for (line, answer) in DAIRY_SESSION {
        balances.count_line(line.as_bytes(), answer.as_bytes());
        other.count_line(line.as_bytes(), answer.as_bytes());
    }
    assert_eq!(balances.received, [166, 22300, 0, 0]);
    assert_eq!(balances.left, [96, 11470, 0, 0]);
    let held: [u64; 4] = numbers_in(DAIRY_HELD.as_bytes()).try_into().unwrap();
    assert_eq!(balances.check(held), Ok(()));
    assert!(other.check(held).is_err());
}

/// Runs the program `second` with these words on the dairy's session; gives what it printed, on
/// standard output and on standard error, and whether its status was 0.
fn second_with(words: &[&str]) -> (String, String, bool) {
    use std::io::Write;
    use std::process::{Command, Stdio};
    let mut command = Command::new(env!("CARGO_BIN_EXE_second"));
    command.args(words).stdin(Stdio::piped()).stdout(Stdio::piped()).stderr(Stdio::piped());
    let mut child = command.spawn().unwrap();
    // A program that refuses its words leaves the input unread.
    let _ = child.stdin.take().unwrap().write_all(dairy_session().0.as_bytes());
    let output = child.wait_with_output().unwrap();
    let text = |bytes| String::from_utf8(bytes).unwrap();
    (text(output.stdout), text(output.stderr), output.status.success())
}

/// The program makes its record of the words behind `--figures`; refused ones get a message.
#[test]
fn program_with_figures() {
    let dairy = ["--figures", "850", "640", "410", "220", "1120", "910", "7350", "1200", "5800"];
    let house = ["--figures", "880", "880", "280", "280", "980", "875", "8000", "2000", "2500"];
    assert_eq!(second_with(&dairy), (dairy_session().1, String::new(), true));
    assert_eq!(second_with(&house), second_with(&[]));
    let with = |place: usize, word| {
        let mut words = dairy;
        words[place] = word;
        words
    };
    let ten = [&dairy[..], &["0"]].concat();
    for words in [
        &dairy[..9],
        &dairy[..1],
        &ten,
        &dairy[1..],
        &with(1, "10001"),
        &with(3, "0"),
        &with(5, "0"),
        &with(8, "18446744073709551616"),
        &with(7, ""),
        &with(2, "0640"),
        &with(9, "+5800"),
        &with(4, "-1"),
        &with(0, "--figure"),
    ] {
        let (printed, message, is_zero) = second_with(words);
        assert!(printed.is_empty() && message.starts_with("second: ") && is_zero, "{words:?}");
    }
}

/// Each figure from 0 to 10000 and not 10001, but nxc and naa from 1; fch or fli from 1, each with
/// the other one at 0.
#[test]
fn bounds() {
    for place in 0..9 {
        for base in [HOUSE, DAIRY] {
            let with = |number| {
                let mut numbers = base.numbers();
                numbers[place] = number;
                Figures::from_numbers(&numbers).permitted()
            };
            assert_eq!(with(0), place != 2 && place != 4);
            assert!([1, 2, 9999, 10_000].into_iter().all(with));
            let above = [10_001, 10_002, 1 << 32, 1 << 63, u64::MAX - 1, u64::MAX];
            assert!(!above.into_iter().any(with));
        }
    }
    let parts = |fch, fli| Figures { fch, fli, ..HOUSE }.permitted();
    assert!(!parts(0, 0) && parts(1, 0) && parts(0, 1) && parts(10_000, 10_000));
    assert!(!parts(u64::MAX, 1) && !parts(u64::MAX, 2) && !parts(1 << 63, 1 << 63));
}

/// Making a record by these nine numbers on the place of what was there.
fn made(figures: &Figures, before: &Record) -> (u64, Record) {
    let mut record = *before;
    (numbers::make(&mut record, &figures.numbers()), record)
}

/// Whatever stood there, a making writes all of a record: fresh, with its figures behind the 52
/// columns; a refused one writes a fresh record of the house set, and so does `fresh`.
#[test]
fn making_a_record() {
    let house = [880, 880, 280, 280, 980, 875, 8000, 2000, 2500];
    let of = |figures: [u64; 9]| -> Record {
        std::array::from_fn(|place| place.checked_sub(52).map_or(0, |place| figures[place]))
    };
    for before in [[0; 61], [u64::MAX; 61], of(DAIRY.numbers()), std::array::from_fn(|n| n as u64)]
    {
        let dairy = [850, 640, 410, 220, 1120, 910, 7350, 1200, 5800];
        assert_eq!(made(&DAIRY, &before), (0, of(dairy)));
        for figures in EXTREMES.iter().chain(&[HOUSE]) {
            assert_eq!(made(figures, &before), (0, of(figures.numbers())));
            for outside in just_outside(figures) {
                assert_eq!(made(&outside, &before), (15, of(house)), "{outside:?}");
            }
        }
        let mut record = before;
        numbers::fresh(&mut record);
        assert_eq!(record, of(house));
    }
    assert_eq!(Plant::make(DAIRY), Ok(Plant::fresh(DAIRY)));
    assert_eq!(Plant::FRESH.columns(), of(house));
}

/// A record of 61 zeros is none that a making gives: nxc is zero.
#[test]
fn record_of_zeros() {
    let mut record = [0; 61];
    assert_eq!(numbers::receive(&mut record, &[0; 13]), 15);
    assert_eq!(numbers::recycle(&mut record, 1000), 15);
    assert_eq!(record, [0; 61]);
}

/// Sets out of bounds: by one, by much, all zero, and with a sum that passes 64 bits.
fn sets_outside() -> Vec<Figures> {
    let wrapped = Figures { fch: u64::MAX, fli: 2, ..HOUSE };
    let others = [wrapped, Figures::from_numbers(&[0; 9]), Figures::from_numbers(&[u64::MAX; 9])];
    [HOUSE, DAIRY].iter().flat_map(just_outside).chain(others).collect()
}

/// A column above its ceiling in any tank, or none.
fn tanks() -> [Plant; 4] {
    let full = Plant { sludge: ASM1_CEILINGS, reject: ASM1_CEILINGS, ..Plant::FRESH };
    let full = Plant { digester: DIGESTER_CEILINGS, ..full };
    let reject = asm1(&[("sno", u64::MAX)]);
    [Plant::FRESH, full, with_sludge(&[("ss", COD + 1)]), Plant { reject, ..full }]
}

/// Records whose figures are out of bounds, with columns above and without.
fn records_outside() -> Vec<Plant> {
    let with = |figures| tanks().map(|tanks| Plant { figures, ..tanks });
    sets_outside().into_iter().flat_map(with).collect()
}

/// By numbers 15 comes before every other refusal of a call; zeros are told, and the record and a
/// proposal stay as they were.
#[test]
fn fifteen_before_one_by_numbers() {
    for plant in records_outside() {
        let mut record = plant.columns();
        for v in [[0; 13], [u64::MAX; 13]] {
            assert_eq!(numbers::receive(&mut record, &v), 15);
        }
        for k in [0, 1, 1000, 1001, u64::MAX] {
            let (mut four, mut one, mut v) = ([9; 4], [9], [9; 13]);
            assert_eq!((numbers::feed(&mut record, k, &mut four), four), (15, [0; 4]));
            assert_eq!((numbers::give_back(&mut record, k, &mut one), one), (15, [0]));
            assert_eq!((numbers::release(&mut record, k, &mut v), v), (15, [0; 13]));
            assert_eq!(numbers::recycle(&mut record, k), 15);
            let (mut one, mut v) = ([9], [9; 13]);
            assert_eq!((numbers::draw(&mut record, k, &mut v), v), (15, [0; 13]));
            let nothing = [0; 13];
            assert_eq!((numbers::accept(&mut record, &nothing, k, &mut one), one), (15, [0]));
        }
        for proposal in [plant.digester, [u64::MAX; 26]] {
            let (mut four, mut three, mut one, mut d) = ([9; 4], [9; 3], [9], proposal);
            assert_eq!(numbers::settle(&mut record, 0, &d), 15);
            assert_eq!((numbers::close(&record, &mut d, &mut one), one), (15, [0]));
            assert_eq!((numbers::gap(&record, &d, &mut three), three), (15, [0; 3]));
            assert_eq!((numbers::totals(&record, &mut four), four), (15, [0; 4]));
            assert_eq!(d, proposal);
        }
        assert_eq!(record, plant.columns());
    }
}

/// In lines 12 and 11 come first, then 15 before 1 and all others, in previews too; the held line
/// is (no 15). With permitted figures the same records are refused by 1.
#[test]
fn fifteen_among_lines() {
    let forms = ["(receive)", "(feed 1000)", "(settle 0)", "(return 1)", "(release 1)"];
    let forms = forms.into_iter().chain(["(recycle 1)", "(draw 1)", "(accept 5)"]);
    let others = ["(feed 0)", "(receive (ss 1000000000001))", "(settle 1)", "(draw 0)"];
    let others = others.into_iter().chain(["(accept 10000000000000001)"]);
    let forms: Vec<&str> = forms.chain(others).collect();
    for plant in records_outside() {
        let (mut after, mut buffer) = (plant, [0xa5; 512]);
        for form in &forms {
            assert_eq!(answer(&mut after, form), "(no 15)");
            assert_eq!(answer(&mut after, &format!("(preview {form})")), "(no 15)");
            assert!(lines::answer(&mut after, form.as_bytes(), &mut buffer[..511]).is_empty());
        }
        for line in ["", "(feed)", "(receive (xs 0) (ss 0))", "(preview (preview (feed 1)))"] {
            assert_eq!(answer(&mut after, line), "(no 11)");
        }
        assert!(lines::held(&plant, &mut buffer[..511]).is_empty());
        assert_eq!((after, buffer), (plant, [0xa5; 512]));
        assert_eq!(lines::held(&plant, &mut buffer), b"(no 15)");
    }
    for above in &tanks()[2..] {
        let mut after = Plant { figures: DAIRY, ..*above };
        assert_eq!(answer(&mut after, "(feed 0)"), "(no 1)");
        assert_eq!(lines::held(&after, &mut [0; 512]), b"(no 1)");
    }
}

/// A sheet's own 13 and 14 come before 15, and 15 before 1 and 10.
#[test]
fn fifteen_among_sheets() {
    let mut told = [9; 4];
    for plant in records_outside() {
        let mut record = plant.columns();
        for (value, refusal) in [(1.0, 15), (0.0, 15), (-1.0, 13), (f32::NAN, 13), (2e9, 14)] {
            let mut values = [0.25; 13];
            values[12] = value;
            assert_eq!(numbers::sheet(&mut record, &[0; 13], &values, &mut told), refusal);
            assert_eq!(numbers::sheet(&mut record, &[1; 13], &values, &mut told), refusal);
            assert_eq!((told, record), ([0; 4], plant.columns()));
        }
        assert_eq!(numbers::sheet(&mut record, &[2; 13], &[f32::NAN; 13], &mut told), 15);
        assert_eq!(numbers::sheet(&mut record, &[3; 13], &[0.0; 13], &mut told), 13);
    }
}

/// The conversions by themselves test their figures first, then 3, then the nitrogen.
#[test]
fn fifteen_among_conversions() {
    let refuse = |figures: &Figures, v: &Asm1, refusal: u64| {
        let (mut d, mut four) = ([9; 26], [9; 4]);
        assert_eq!(numbers::asm_to_adm(&figures.numbers(), v, &mut d, &mut four), refusal);
        assert_eq!((d, four), ([0; 26], [0; 4]));
    };
    let refuse_back = |figures: &Figures, d: &Digester, refusal: u64| {
        let (mut v, mut one) = ([9; 13], [9]);
        assert_eq!(numbers::adm_to_asm(&figures.numbers(), d, &mut v, &mut one), refusal);
        assert_eq!((v, one), ([0; 13], [0]));
    };
    let short = asm1(&[("si", 1), ("snh", 219)]);
    let short_back = digester(&[("xi", 1), ("sin", 419)]);
    for figures in sets_outside() {
        for v in [[0; 13], [u64::MAX; 13], short] {
            refuse(&figures, &v, 15);
        }
        for d in [[0; 26], [u64::MAX; 26], short_back] {
            refuse_back(&figures, &d, 15);
        }
    }
    let above = |mut v: Asm1| {
        v[asm1::SALK] = COD + 1;
        v
    };
    refuse(&DAIRY, &above(short), 3);
    refuse(&DAIRY, &short, 4);
    refuse_back(&DAIRY, &digester(&[("xi", 1), ("sin", 419), ("cn", TICKS + 1)]), 3);
    refuse_back(&DAIRY, &short_back, 5);
}

/// The feed of a vector by the rules of document 01, as E9 and E13 amend them, in whole numbers
/// without a ceiling: digester columns and told numbers, or none where inert nitrogen is short.
fn feed_by_rules(figures: &Figures, v: &Asm1) -> Option<(Vec<u128>, [u128; 4])> {
    let [ixb, ixe, nxc, ni, naa, _, fxi, fch, fli] = figures.numbers().map(u128::from);
    let [si, ss, xi, xs, xbh, xba, xp, so, sno, snh, snd, xnd, salk] = v.map(u128::from);
    let a = ss + xs + xbh + xba;
    let o = so.min(a);
    let r = sno.min(3500 * (a - o));
    let burnt = o + r.div_ceil(3500);
    let (mut owed, mut left) = (burnt, [ss, xs, xbh, xba]);
    for column in &mut left {
        let taken = owed.min(*column);
        (*column, owed) = (*column - taken, owed - taken);
    }
    let saa = left[0].min(snd / naa);
    let pool = snd - naa * saa + xnd + ixb * (xbh + xba) + ixe * (xi + xp);
    let inert = fxi * (xi + xp) / 10_000;
    let need = ni * (si + inert);
    let lacking = need.saturating_sub(pool + snh);
    let given = lacking.div_ceil(naa);
    let saa = saa.checked_sub(given)?;
    let nitrogen = pool + snh + naa * given - need;
    let pool_left = if given > 0 { nitrogen } else { pool.saturating_sub(need) };
    let rest = left[1] + left[2] + left[3] + xi + xp - inert;
    let xc = rest.min(pool_left / nxc);
    let xch = fch * (rest - xc) / (fch + fli);
    let mut d = vec![0; 26];
    (d[0], d[1], d[2], d[10]) = (si, left[0] - saa, saa, inert);
    (d[11], d[12], d[14]) = (xc, xch, rest - xc - xch);
    (d[22], d[23], d[24], d[25]) = (nitrogen - nxc * xc, salk, so - o, sno - r);
    let warn = u128::from(d[24] + d[25] > 0);
    Some((d, [burnt, o, r, warn]))
}

/// The return of a vector by the rules, in whole numbers without a ceiling: ASM1 columns, or none
/// where inert nitrogen is short.
fn return_by_rules(figures: &Figures, d: &Digester) -> Option<Vec<u128>> {
    let [_, ixe, nxc, ni, naa, nbac, ..] = figures.numbers().map(u128::from);
    let d = d.map(u128::from);
    let degraders: u128 = d[15..22].iter().sum();
    let (owed, xnd) = (ixe * d[10], nxc * d[11] + naa * d[13] + nbac * degraders + ni * d[10]);
    let snd = naa * d[2] + ni * d[0];
    (xnd + snd + d[22]).checked_sub(owed)?;
    let behind_xnd = owed.saturating_sub(xnd);
    let behind_snd = behind_xnd.saturating_sub(snd);
    let (soluble, particulate) = (d[1..8].iter().sum(), d[11..22].iter().sum());
    let cod = [d[0], soluble, d[10], particulate, 0, 0, 0];
    let nitrogen = [d[22] - behind_snd, snd.saturating_sub(behind_xnd), xnd.saturating_sub(owed)];
    Some([&cod[..], &[d[24], d[25]], &nitrogen, &[d[23]]].concat())
}

/// Columns in whole numbers without a ceiling.
fn wide(columns: &[u64]) -> Vec<u128> {
    columns.iter().map(|&column| u128::from(column)).collect()
}

/// How often a conversion was accepted and refused, how often amino acids gave way in it, and how
/// often the result had composites, carbohydrate, lipid, amino acids and inerts.
#[derive(Default, Debug)]
struct Met {
    fed: [u32; 2],
    gave_way: u32,
    returned: [u32; 2],
    columns: [u32; 5],
}

impl Met {
    /// Checks both conversions against the rules.
    fn check(&mut self, figures: &Figures, v: &Asm1, d: &Digester) {
        let fed = convert::asm_to_adm(figures, v).ok();
        let told = fed.map(|(out, told)| (wide(&out), told.numbers().map(u128::from)));
        assert_eq!(told, feed_by_rules(figures, v), "{figures:?} {v:?}");
        self.fed[usize::from(fed.is_none())] += 1;
        self.gave_way += u32::from(leachate::gives_way(figures, v));
        let returned = convert::adm_to_asm(figures, d).ok();
        let told = returned.map(|(out, _)| wide(&out));
        assert_eq!(told, return_by_rules(figures, d), "{figures:?} {d:?}");
        self.returned[usize::from(returned.is_none())] += 1;
        if let Some((out, _)) = fed {
            for (count, column) in self.columns.iter_mut().zip([11, 12, 14, 2, 10]) {
                *count += u32::from(out[column] > 0);
            }
        }
    }
}

/// Both conversions by the rules: of full columns by random permitted sets, and of random vectors
/// at the edges of theirs.
#[test]
fn conversions_by_the_rules() {
    let mut met = Met::default();
    let mut random = Random::new(30);
    for _ in 0..2000 {
        let figures = permitted(&mut random);
        met.check(&figures, &ASM1_CEILINGS, &DIGESTER_CEILINGS);
        let mut unburnt = ASM1_CEILINGS;
        (unburnt[asm1::SO], unburnt[asm1::SNO]) = (random.below(COD), 0);
        met.check(&figures, &unburnt, &DIGESTER_CEILINGS);
    }
    for number in 0..20_000 {
        let mut trial = Trial::new(Random::nth(31, number));
        let plant = Plant { figures: permitted(&mut trial.random), ..trial.record() };
        let (v, d) = (trial.asm1(&plant), trial.digester(&plant));
        if within(&v, &ASM1_CEILINGS) && within(&d, &DIGESTER_CEILINGS) {
            met.check(&plant.figures, &v, &d);
        }
    }
    let all = met.fed.iter().chain(&met.returned).chain(&met.columns).chain([&met.gave_way]);
    assert!(all.min() >= Some(&400), "{met:?}");
}

/// How often each call was accepted in random lists, and how often refused by each number.
#[derive(Default, Debug)]
struct Answers {
    accepted: [u32; 9],
    refused: [u32; 16],
}

impl Answers {
    /// Counts the answer to the call of this place.
    fn count(&mut self, place: usize, refusal: u64) {
        match refusal {
            0 => self.accepted[place] += 1,
            _ => self.refused[refusal as usize] += 1,
        }
    }
}

/// The place of a call among the eight.
fn place(call: &Call) -> usize {
    match call {
        Call::Receive(_) => 0,
        Call::Feed(_) => 1,
        Call::Settle(..) => 2,
        Call::Return(_) => 3,
        Call::Release(_) => 4,
        Call::Recycle(_) => 5,
        Call::Draw(_) => 6,
        Call::Accept(..) => 7,
    }
}

/// Makes a call on a record, as a line, and counts it; its figures stay, and all of it where the
/// call is refused.
fn one_call(trial: &mut Trial, plant: &mut Plant, balances: &mut Balances, met: &mut Answers) {
    let (before, call) = (*plant, trial.call(plant));
    let line = form(&mut trial.random, &call);
    let mut buffer = [0; 512];
    let answer = lines::answer(plant, &line, &mut buffer);
    balances.count_line(&line, answer);
    let refusal = if answer.starts_with(b"(no ") { numbers_in(answer)[0] } else { 0 };
    met.count(place(&call), refusal);
    assert_eq!(plant.figures, before.figures);
    assert!(refusal == 0 || *plant == before);
}

/// The same for a sheet.
fn one_sheet(trial: &mut Trial, plant: &mut Plant, balances: &mut Balances, met: &mut Answers) {
    let (before, sheet) = (*plant, sheets::sheet(&mut trial.random));
    let refusal = plant.sheet(&sheet).err();
    met.count(8, refusal.map_or(0, |refusal| refusal as u64));
    assert_eq!(plant.figures, before.figures);
    match refusal {
        None => balances.count(&Call::Receive(sheet.read().unwrap().0), &[]),
        Some(_) => assert_eq!(*plant, before),
    }
}

/// Makes a list of calls and sheets on a fresh record of these figures; the balances close.
fn one_list(mut trial: Trial, figures: Figures, met: &mut Answers) {
    let mut plant = Plant::fresh(figures);
    let mut balances = Balances::on(&plant);
    for _ in 0..150 {
        match trial.random.percent(12) {
            true => one_sheet(&mut trial, &mut plant, &mut balances, met),
            false => one_call(&mut trial, &mut plant, &mut balances, met),
        }
    }
    match plant.held() {
        Ok(held) => assert_eq!(balances.check(held.numbers()), Ok(()), "{figures:?}"),
        Err(refusal) => assert_eq!((refusal as u64, plant), (15, Plant::fresh(figures))),
    }
}

/// Random lists on records of random permitted sets, each set by itself: the four balances close,
/// no call changes the figures, and every call and refusal has been met.
#[test]
fn random_lists_balance() {
    let mut met = Answers::default();
    for number in 0..1500 {
        let mut random = Random::nth(32, number);
        let figures = permitted(&mut random);
        one_list(Trial::new(random), figures, &mut met);
    }
    assert!(met.accepted.iter().all(|&count| count > 3000), "{met:?}");
    let refused = [2, 3, 4, 5, 7, 8, 9, 10, 13, 14].map(|number| met.refused[number]);
    assert!(refused.iter().all(|&count| count > 80), "{met:?}");
    assert_eq!([1, 6, 11, 12, 15].map(|number| met.refused[number]), [0; 5]);
}

/// On a record whose figures are out of bounds no call of a random list is accepted.
#[test]
fn random_lists_outside() {
    let mut met = Answers::default();
    for number in 0..200 {
        let mut random = Random::nth(33, number);
        let figures = outside(&mut random);
        one_list(Trial::new(random), figures, &mut met);
    }
    assert_eq!(met.accepted, [0; 9]);
    assert!(met.refused[15] > 20_000 && met.refused[13] > 500 && met.refused[14] > 200, "{met:?}");
    assert_eq!([13, 14, 15].map(|number| met.refused[number]).iter().sum::<u32>(), 30_000);
}

/// `close`, `gap` and the totals leave a record as it was, figures included, whatever they are;
/// what closes is settled by the record's figures, and by no others that hold other nitrogen.
#[test]
fn random_proposals() {
    let (mut closes, mut others) = (0, 0);
    for number in 0..4000 {
        let mut trial = Trial::new(Random::nth(34, number));
        let mut plant = trial.record();
        let proposal = trial.to_close(&mut plant);
        let (mut d, mut told) = (proposal, [9]);
        let record = plant.columns();
        let refusal = numbers::close(&record, &mut d, &mut told);
        assert_eq!(refusal == 15, !plant.figures.permitted());
        if refusal == 0 {
            closes += 1;
            assert_eq!(plant.clone().settle(told[0], &d), Ok(()));
            let mut other = Plant { figures: permitted(&mut trial.random), ..plant };
            let figures = other.figures;
            let same = figures.tkn_digester(&plant.digester) == figures.tkn_digester(&d);
            let expected = if same { Ok(()) } else { Err(Refusal::TknDiffers) };
            assert_eq!(other.settle(told[0], &d), expected);
            assert_eq!(other.figures, figures);
            others += u32::from(!same);
        }
    }
    assert!(closes > 1000 && others > 500, "{closes} {others}");
}
