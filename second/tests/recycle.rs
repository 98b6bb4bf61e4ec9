//! Request E1 of document 02: k thousandths of the reject tank go back to the sludge
//! tank. The draw, the refusals 1, 2 and 10 in their order, the line, the call by
//! numbers, a list that feeds the same water several times, and over random lists the
//! rule by itself and the four balances.

mod named;

use named::{asm1, digester, with_digester, with_sludge};
use second::balances::{numbers_in, Balances};
use second::figures::HOUSE;
use second::lines::Asked;
use second::plant::{Call, Plant, Refusal, Told};
use second::random::Random;
use second::tables::*;
use second::trials::{form, Trial};
use second::{lines, numbers, session};

/// A fresh record whose reject tank is this.
fn with_reject(named: &[(&str, u64)]) -> Plant {
    Plant { reject: asm1(named), ..Plant::FRESH }
}

/// The answer to one line on a record, as text.
fn answer(plant: &mut Plant, line: &str) -> String {
    let mut buffer = [0; 512];
    String::from_utf8(lines::answer(plant, line.as_bytes(), &mut buffer).to_vec()).unwrap()
}

/// Checks that a recycle is refused by this number, as a line and by numbers, and that the
/// record stays as it was.
fn refused(plant: Plant, k: u64, number: u64) {
    let mut by_line = plant;
    assert_eq!(answer(&mut by_line, &format!("(recycle {k})")), format!("(no {number})"));
    let mut record = plant.columns();
    assert_eq!(numbers::recycle(&mut record, k), number);
    assert_eq!((by_line, record), (plant, plant.columns()));
}

/// The floor of each reject column goes to the same sludge column; the rest, and the digester,
/// stay where they are.
#[test]
fn moves_column_by_column() {
    let reject = std::array::from_fn(|column| 1000 * column as u64 + 999);
    let start = Plant { sludge: [7; 13], digester: [5; 26], reject, figures: HOUSE };
    let mut plant = start;
    assert_eq!(plant.call(&Call::Recycle(500)), Ok(Told::Recycled));
    let sludge = std::array::from_fn(|column| 7 + 500 * column as u64 + 499);
    let reject = std::array::from_fn(|column| 500 * column as u64 + 500);
    assert_eq!(plant, Plant { sludge, reject, ..start });
}

/// One thousandth to all of them; neither none nor more.
#[test]
fn thousandths_at_their_edges() {
    let start = Plant { reject: [1999; 13], ..Plant::FRESH };
    for (k, drawn) in [(1, 1), (999, 1997), (1000, 1999)] {
        let mut plant = start;
        assert_eq!(answer(&mut plant, &format!("(recycle {k})")), "(ok recycle)");
        let moved = Plant { sludge: [drawn; 13], reject: [1999 - drawn; 13], ..Plant::FRESH };
        assert_eq!(plant, moved);
    }
    for k in [0, 1001, u64::MAX] {
        refused(start, k, 2);
        refused(Plant::FRESH, k, 2);
    }
}

/// A reject tank that gives nothing is recycled all the same.
#[test]
fn nothing_to_move() {
    let mut plant = with_sludge(&[("ss", COD_CEILING), ("snh", TICK_CEILING)]);
    plant.reject = asm1(&[("ss", 1), ("snh", 999)]);
    let before = plant;
    assert_eq!(plant.recycle(1), Ok(()));
    assert_eq!(plant, before);
    assert_eq!(Plant::FRESH.clone().recycle(1000), Ok(()));
}

/// Every sludge column may reach its ceiling and not pass it, each by itself.
#[test]
fn sludge_at_its_ceiling() {
    for (column, ceiling) in ASM1_CEILINGS.into_iter().enumerate() {
        let mut plant = Plant::FRESH;
        plant.reject[column] = 9;
        plant.sludge[column] = ceiling - 4;
        let mut fits = plant;
        assert_eq!(fits.recycle(500), Ok(()));
        assert_eq!((fits.sludge[column], fits.reject[column]), (ceiling, 5));
        plant.sludge[column] = ceiling - 3;
        refused(plant, 500, 10);
    }
}

/// All of the greatest reject tank fits an empty sludge tank; a full one takes nothing.
#[test]
fn full_tanks() {
    let mut plant = Plant { reject: ASM1_CEILINGS, ..Plant::FRESH };
    assert_eq!(plant.recycle(1000), Ok(()));
    assert_eq!(plant, Plant { sludge: ASM1_CEILINGS, ..Plant::FRESH });
    let full = Plant { sludge: ASM1_CEILINGS, reject: ASM1_CEILINGS, ..Plant::FRESH };
    for k in [1, 999, 1000] {
        refused(full, k, 10);
    }
}

/// A column above its ceiling in any tank is refused, and 1 comes before 2, and 2 before 10.
#[test]
fn refusals_in_order() {
    let above = COD_CEILING + 1;
    let sludge = with_sludge(&[("si", above)]);
    let records =
        [sludge, with_digester(&[("xh2", above)]), with_reject(&[("sno", TICK_CEILING + 1)])];
    for record in records {
        for k in [0, 1, 1000, 1001, u64::MAX] {
            refused(record, k, 1);
        }
    }
    refused(Plant { reject: [1; 13], ..sludge }, 1000, 1);
    refused(with_reject(&[("ss", u64::MAX)]), u64::MAX, 1);
    let full = Plant { sludge: ASM1_CEILINGS, reject: ASM1_CEILINGS, ..Plant::FRESH };
    for k in [0, 1001, u64::MAX] {
        refused(full, k, 2);
    }
}

/// The line, and lines that are nearly one.
#[test]
fn the_line() {
    let recycle = |k| Some(Asked::Call(Call::Recycle(k)));
    assert_eq!(lines::read(b"(recycle 0)"), recycle(0));
    assert_eq!(lines::read(b"(recycle 18446744073709551615)"), recycle(u64::MAX));
    let broken = [
        "(recycle)",
        "(recycle )",
        "(recycle  1)",
        "(recycle 1 )",
        "(recycle 01)",
        "(recycle 1 2)",
        "(recycle 1 (ss 1))",
        "(recycle (ss 1))",
        "(recycle 18446744073709551616)",
        "(recycle -1)",
        "(recycle 1",
        "(recycle 1)x",
        "(recycle1)",
        "(recycl 1)",
        "(recycles 1)",
        "(Recycle 1)",
        "recycle 1",
        "(ok recycle)",
    ];
    for line in broken {
        assert_eq!(answer(&mut with_reject(&[("ss", 5)]), line), "(no 11)", "{line}");
    }
}

/// The call by numbers, between others.
#[test]
fn by_numbers() {
    let mut record = with_digester(&[("ssu", 9), ("sin", 7)]).columns();
    assert_eq!(numbers::give_back(&mut record, 1000, &mut [0]), 0);
    assert_eq!(numbers::recycle(&mut record, 500), 0);
    let reject = asm1(&[("ss", 5), ("snh", 4)]);
    let sludge = asm1(&[("ss", 4), ("snh", 3)]);
    assert_eq!(Plant::from_columns(&record), Plant { sludge, reject, ..Plant::FRESH });
    assert_eq!(numbers::feed(&mut record, 1000, &mut [0; 4]), 0);
    let fed = digester(&[("ssu", 4), ("sin", 3)]);
    assert_eq!(Plant::from_columns(&record), Plant { digester: fed, reject, ..Plant::FRESH });
}

/// The same water three times round, each line with its answer.
const SAME_WATER: [(&str, &str); 15] = [
    ("(receive (xi 10) (xs 5) (so 7) (sno 100) (salk 3))", "(ok receive)"),
    ("(feed 1000)", "(ok feed burnt 5 oxygen 5 nitrate 0 warn 1)"),
    ("(return 1000)", "(ok return stripped 0)"),
    ("(recycle 1000)", "(ok recycle)"),
    ("(feed 1000)", "(ok feed burnt 2 oxygen 2 nitrate 0 warn 1)"),
    ("(return 1000)", "(ok return stripped 0)"),
    ("(recycle 500)", "(ok recycle)"),
    ("(receive (ss 4))", "(ok receive)"),
    ("(feed 1000)", "(ok feed burnt 1 oxygen 0 nitrate 50 warn 0)"),
    ("(settle 2 (sch4 3) (xi 2) (sin 3840))", "(ok settle)"),
    ("(return 1000)", "(ok return stripped 3)"),
    ("(recycle 1001)", "(no 2)"),
    ("(recycle 999)", "(ok recycle)"),
    (
        "(release 1000)",
        "(ok release (si 0) (ss 0) (xi 1) (xs 1) (xbh 0) (xba 0) (xp 0) (so 0) (sno 1) (snh 5) \
        (snd 0) (xnd 0) (salk 1))",
    ),
    ("", "(no 11)"),
];

/// What is held after it.
const SAME_WATER_HELD: &str = "(held cod 4 tkn 7915 oxygen 0 nitrate 49)";

/// Its answers by hand, and its four balances from the lines and answers: a recycle adds nothing.
#[test]
fn same_water_several_times() {
    let input: String = SAME_WATER.iter().map(|(line, _)| format!("{line}\n")).collect();
    let expected: String = SAME_WATER.iter().map(|(_, answer)| format!("{answer}\n")).collect();
    let mut printed = Vec::new();
    session::run(&mut input.as_bytes(), &mut printed).unwrap();
    assert_eq!(String::from_utf8(printed).unwrap(), format!("{expected}{SAME_WATER_HELD}\n"));
    let mut balances = Balances::default();
    for (line, answer) in SAME_WATER {
        balances.count_line(line.as_bytes(), answer.as_bytes());
    }
    // COD: gas 2, stripped 3, burnt 5 + 2 + 1, released 2. TKN: released 5 + 880.
    assert_eq!(balances.received, [19, 8800, 7, 100]);
    assert_eq!(balances.left, [15, 885, 7, 51]);
    let held: [u64; 4] = numbers_in(SAME_WATER_HELD.as_bytes()).try_into().unwrap();
    assert_eq!(balances.check(held), Ok(()));
    assert!(balances.check([4, 7915, 0, 50]).is_err());
}

/// The refusals of a recycle that apply, in whole numbers without a ceiling.
fn applying(plant: &Plant, k: u64) -> Vec<u64> {
    let columns = plant.sludge.iter().zip(&plant.reject).zip(&ASM1_CEILINGS);
    let passes = |((sludge, reject), ceiling): ((&u64, &u64), &u64)| {
        let drawn = u128::from(*reject) * u128::from(k) / 1000;
        u128::from(*sludge) + drawn > u128::from(*ceiling)
    };
    let outside = !plant.figures.permitted();
    let above = !within(&plant.sludge, &ASM1_CEILINGS)
        || !within(&plant.digester, &DIGESTER_CEILINGS)
        || !within(&plant.reject, &ASM1_CEILINGS);
    let tests =
        [(15, outside), (1, above), (2, k == 0 || k > 1000), (10, columns.into_iter().any(passes))];
    tests.into_iter().filter(|(_, applies)| *applies).map(|(number, _)| number).collect()
}

/// Refusals that apply together.
const PAIRS: [[u64; 2]; 5] = [[15, 1], [15, 2], [1, 2], [1, 10], [2, 10]];

/// How often each answer to a recycle was met (0 accepted), each pair of refusals that apply
/// together, each k at an edge, and a sludge column just filled.
#[derive(Default, Debug)]
struct Met {
    answers: [u32; 16],
    pairs: [u32; 5],
    edges: [u32; 6],
    just_filled: u32,
}

impl Met {
    /// Checks a recycle against the rule, from the record before it, and counts it.
    fn check(&mut self, before: &Plant, k: u64, after: &Plant, result: Result<Told, Refusal>) {
        let apply = applying(before, k);
        let number = result.as_ref().map_or_else(|refusal| *refusal as u64, |_| 0);
        assert_eq!(number, apply.first().copied().unwrap_or(0), "{before:?} {k}");
        self.answers[number as usize] += 1;
        for (pair, count) in PAIRS.iter().zip(&mut self.pairs) {
            *count += u32::from(pair.iter().all(|refusal| apply.contains(refusal)));
        }
        for (edge, count) in [0, 1, 999, 1000, 1001, u64::MAX].iter().zip(&mut self.edges) {
            *count += u32::from(k == *edge);
        }
        if number != 0 {
            return assert_eq!(after, before);
        }
        assert_eq!((after.digester, after.figures), (before.digester, before.figures));
        let drawn: Asm1 = before.reject.map(|column| column * k / 1000);
        for column in 0..13 {
            assert_eq!(after.sludge[column], before.sludge[column] + drawn[column]);
            assert_eq!(after.reject[column] + drawn[column], before.reject[column]);
            let full = after.sludge[column] == ASM1_CEILINGS[column];
            self.just_filled += u32::from(full && drawn[column] > 0);
        }
    }
}

/// Makes calls on a random record, checks each recycle among them, and then the four balances
/// from the calls' lines and answers. Gives how many recycles were accepted.
fn random_list(number: u64, met: &mut Met) -> u32 {
    let mut trial = Trial::new(Random::nth(11, number));
    let mut plant = trial.record();
    let mut balances = plant.held().ok().map(|_| Balances::on(&plant));
    let accepted = met.answers[0];
    for _ in 0..100 {
        let call = trial.call(&plant);
        let (before, line) = (plant, form(&mut trial.random, &call));
        let mut buffer = [0; 512];
        let answer = lines::answer(&mut plant, &line, &mut buffer);
        if let Some(balances) = &mut balances {
            balances.count_line(&line, answer);
        }
        if let Call::Recycle(k) = call {
            met.check(&before, k, &plant, before.clone().call(&call));
        }
    }
    if let Some(balances) = balances {
        assert_eq!(balances.check(plant.held().unwrap().numbers()), Ok(()));
    }
    met.answers[0] - accepted
}

/// Over random lists every recycle is answered by the rule, the balances close with recycles
/// among the calls, and every answer, pair of refusals and edge has been met.
#[test]
fn random_lists_balance() {
    let mut met = Met::default();
    let recycling = (0..2500).filter(|&number| random_list(number, &mut met) > 1).count();
    assert!(recycling >= 1000, "{recycling} lists, {met:?}");
    for refusal in [0, 1, 2, 10, 15] {
        assert!(met.answers[refusal] >= 400, "{met:?}");
    }
    let asked = [0, 1, 2, 10, 15].map(|number| met.answers[number]);
    assert_eq!(met.answers.iter().sum::<u32>(), asked.iter().sum());
    let rare = met.pairs.iter().chain(&met.edges).chain([&met.just_filled]);
    assert!(rare.min() >= Some(&20), "{met:?}");
}
