//! Request E6 of document 02: a laboratory's sheet of single-precision grams is counted and
//! received. What counts as none and as one, the greatest amounts that fit, what is no amount,
//! the first bad column of two, the kinds, the told numbers by worked sums, refusals 1 and 10
//! behind 13 and 14; random amounts against their exact decimal digits, the table of
//! `exact_sheets.py`, and the four balances over lists with sheets among the calls.

mod named;

use named::{asm1, digester, with_digester, with_sludge};
use second::balances::Balances;
use second::figures::HOUSE;
use second::plant::{Call, Plant, Record, Refusal, Told};
use second::random::Random;
use second::sheets::{count, Sheet, BELOW, MEASURED, NOT_SAMPLED};
use second::tables::*;
use second::trials::sheets::{at_the_ceilings, sheet as any_sheet, GREATEST};
use second::trials::{table, Trial};
use second::{lines, numbers};

/// Infinities and what is no number, quiet and signalling, of both signs.
const NO_NUMBERS: [u32; 12] = [
    0x7f80_0000,
    0xff80_0000,
    0x7f80_0001,
    0xff80_0001,
    0x7fa0_0000,
    0x7fbf_ffff,
    0xffbf_ffff,
    0x7fc0_0000,
    0xffc0_0000,
    0x7fd5_aa55,
    0x7fff_ffff,
    0xffff_ffff,
];

/// Below zero: the smallest, some others, and the greatest.
const NEGATIVE: [f32; 6] = [-1e-45, -1e-10, -0.0001, -1.0, -1e10, f32::MIN];

/// The floats before and behind a positive one.
fn neighbours(amount: f32) -> [f32; 2] {
    [-1, 1].map(|step| f32::from_bits(amount.to_bits().wrapping_add_signed(step)))
}

/// A sheet with the same entry in every column.
fn every(kind: u8, value: f32) -> Sheet {
    Sheet { kinds: [kind; 13], values: [value; 13] }
}

/// A sheet with these entries, by their columns; the others are measured, a quarter gram each.
fn only(entries: &[(usize, u8, f32)]) -> Sheet {
    let mut sheet = every(MEASURED, 0.25);
    for &(column, kind, value) in entries {
        (sheet.kinds[column], sheet.values[column]) = (kind, value);
    }
    sheet
}

/// A sheet with these entries, by their columns' names; the others are not sampled.
fn sampled(entries: &[(&str, u8, f32)]) -> Sheet {
    let mut sheet = every(NOT_SAMPLED, f32::NAN);
    for &(name, kind, value) in entries {
        let column = asm1_column(name.as_bytes()).unwrap();
        (sheet.kinds[column], sheet.values[column]) = (kind, value);
    }
    sheet
}

/// The call by numbers on a copy of a record: the refusal, what is told, and the record then.
fn sent(record: &Record, sheet: &Sheet) -> (u64, [u64; 4], Record) {
    let (mut record, mut told) = (*record, [9; 4]);
    let refusal = numbers::sheet(&mut record, &sheet.kinds, &sheet.values, &mut told);
    (refusal, told, record)
}

/// Checks that a sheet is accepted on a fresh record, with these counts and these told numbers.
fn accepted(sheet: Sheet, counts: Asm1, told: [u64; 4]) {
    let after = Plant { sludge: counts, ..Plant::FRESH };
    assert_eq!(sent(&Plant::FRESH.columns(), &sheet), (0, told, after.columns()), "{sheet:?}");
}

/// Checks that a sheet is refused by this number on a record, which stays as it was.
fn refused_on(plant: Plant, sheet: Sheet, refusal: Refusal) {
    let record = plant.columns();
    assert_eq!(sent(&record, &sheet), (refusal as u64, [0; 4], record), "{sheet:?}");
}

/// A record of the house set with every column at its ceiling.
fn full() -> Plant {
    let (digester, reject) = (DIGESTER_CEILINGS, ASM1_CEILINGS);
    Plant { sludge: ASM1_CEILINGS, digester, reject, figures: HOUSE }
}

/// Checks that a sheet is refused by this number whatever the record is: fresh, full, above, or
/// of figures out of bounds.
fn refused(sheet: Sheet, refusal: Refusal) {
    let above = Plant::from_columns(&[u64::MAX; 61]);
    let above = Plant { figures: HOUSE, ..above };
    let outside = Plant::from_columns(&[u64::MAX; 61]);
    for plant in [Plant::FRESH, full(), above, outside, Plant::from_columns(&[0; 61])] {
        refused_on(plant, sheet, refusal);
    }
}

/// Thirteen columns: this number for milligrams, oxygen and millimoles, that one for ticks.
fn columns(cod: u64, ticks: u64) -> Asm1 {
    ASM1_CEILINGS.map(|ceiling| if ceiling == TICK_CEILING { ticks } else { cod })
}

/// Checks what an amount counts as in every column, measured and as a limit.
fn counts_as(amount: f32, cod: u64, ticks: u64) {
    accepted(every(MEASURED, amount), columns(cod, ticks), [0; 4]);
    accepted(every(BELOW, amount), [0; 13], [8 * cod, 4 * ticks, cod, 0]);
}

/// Zero and minus zero count as zero.
#[test]
fn zero_and_minus_zero() {
    counts_as(0.0, 0, 0);
    counts_as(-0.0, 0, 0);
    assert_eq!((-0.0f32).to_bits(), 0x8000_0000);
}

/// Subnormal amounts count as zero, from the smallest to the greatest.
#[test]
fn subnormal_amounts() {
    for bits in [1, 2, 0x0040_0000, 0x007f_ffff, 0x0080_0000] {
        counts_as(f32::from_bits(bits), 0, 0);
    }
}

/// The first amounts that count as one, of each scale, and the floats beside them: 0.001 and
/// 10^-7 are both a little more as floats than they are.
#[test]
fn none_and_one() {
    let [before, behind] = neighbours(0.001);
    counts_as(before, 0, 9999);
    counts_as(0.001, 1, 10_000);
    counts_as(behind, 1, 10_000);
    let [before, behind] = neighbours(1e-7);
    counts_as(before, 0, 0);
    counts_as(1e-7, 0, 1);
    counts_as(behind, 0, 1);
}

/// A decimal that is a little less as a float counts as one less; nothing is rounded up.
#[test]
fn decimals_that_are_less() {
    counts_as(0.009, 8, 89_999);
    counts_as(0.7, 699, 6_999_999);
    counts_as(0.003, 3, 30_000);
    counts_as(31.56, 31_559, 315_599_994);
    counts_as(0.000_999_9, 0, 9999);
    counts_as(1.9e-7, 0, 1);
    counts_as(16_777.217, 16_777_216, 167_772_167_968);
}

/// Whole counts are reached exactly, and the float before one of them is less.
#[test]
fn whole_counts() {
    for (amount, cod, ticks) in [(0.125, 125, 1_250_000), (1.0, 1000, 10_000_000)] {
        counts_as(amount, cod, ticks);
        counts_as(neighbours(amount)[0], cod - 1, ticks - 1);
    }
    let [before, behind] = neighbours(0.0078125);
    counts_as(before, 7, 78_124);
    counts_as(0.0078125, 7, 78_125);
    counts_as(behind, 7, 78_125);
    let [before, _] = neighbours(65_536.0);
    counts_as(before, 65_535_996, 655_359_960_937);
}

/// A million kilograms is the ceiling of every column; the next float passes it, as a value and
/// as a limit, in each column by itself.
#[test]
fn greatest_amounts() {
    counts_as(GREATEST, COD_CEILING, TICK_CEILING);
    let [before, behind] = neighbours(GREATEST);
    counts_as(before, COD_CEILING - 64_000, TICK_CEILING - 640_000_000);
    assert_eq!((GREATEST.to_bits(), behind), (0x4e6e_6b28, 1_000_000_064.0));
    let powers = [30, 32, 57, 61, 64, 96, 127].map(|power| 2f32.powi(power));
    for amount in powers.into_iter().chain([behind, f32::MAX]) {
        for column in 0..13 {
            for kind in [MEASURED, BELOW] {
                let (sheet, above) = (only(&[(column, kind, amount)]), Refusal::CountAboveCeiling);
                assert_eq!(count(column, amount), Err(above));
                refused(sheet, above);
            }
        }
    }
}

/// What is infinite, no number or negative is turned away by 13, as a value and as a limit, in
/// each column by itself; also where it would be above the ceiling without its sign.
#[test]
fn no_amounts() {
    let negative = NEGATIVE.map(f32::to_bits);
    assert_eq!(negative[0], 0x8000_0001);
    for bits in NO_NUMBERS.into_iter().chain(negative) {
        let value = f32::from_bits(bits);
        assert_eq!(value.to_bits(), bits);
        for column in 0..13 {
            for kind in [MEASURED, BELOW] {
                refused(only(&[(column, kind, value)]), Refusal::NoAmount);
            }
        }
    }
}

/// Nothing beside an entry that was not sampled is read.
#[test]
fn not_sampled() {
    let values = NO_NUMBERS.map(f32::from_bits).into_iter().chain(NEGATIVE);
    for value in values.chain([0.0, 1.0, GREATEST, f32::MAX]) {
        accepted(every(NOT_SAMPLED, value), [0; 13], [0, 0, 0, 13]);
        for column in 0..13 {
            let mut counts = columns(250, 2_500_000);
            counts[column] = 0;
            accepted(only(&[(column, NOT_SAMPLED, value)]), counts, [0, 0, 0, 1]);
        }
    }
}

/// Any other kind is turned away by 13 in its column, whatever stands beside it.
#[test]
fn other_kinds() {
    for kind in 3..=255 {
        for (column, value) in [(0, 0.0), (7, 1.0), (8, f32::NAN), (12, GREATEST)] {
            refused(only(&[(column, kind, value)]), Refusal::NoAmount);
        }
    }
    for column in 0..13 {
        for kind in [3, 255] {
            refused(only(&[(column, kind, 2e9)]), Refusal::NoAmount);
        }
    }
}

/// Entries that are turned away, with their refusals.
const BAD: [(u8, f32, Refusal); 8] = [
    (MEASURED, -1.0, Refusal::NoAmount),
    (BELOW, -1.0, Refusal::NoAmount),
    (MEASURED, f32::NAN, Refusal::NoAmount),
    (BELOW, f32::INFINITY, Refusal::NoAmount),
    (3, 0.0, Refusal::NoAmount),
    (255, 2e9, Refusal::NoAmount),
    (MEASURED, 2e9, Refusal::CountAboveCeiling),
    (BELOW, 2e9, Refusal::CountAboveCeiling),
];

/// Of two bad columns the first decides: every pair of columns, every pair of bad entries.
#[test]
fn first_bad_column() {
    for first in 0..13 {
        for second in first + 1..13 {
            for (kind, value, refusal) in BAD {
                for (other, behind, _) in BAD {
                    refused(only(&[(first, kind, value), (second, other, behind)]), refusal);
                }
            }
        }
    }
}

/// A worked sheet: what was measured is received, and what was below its limit is told.
#[test]
fn worked_sheet() {
    let sheet = sampled(&[
        ("si", MEASURED, 30.0),    // 30,000 mg
        ("ss", BELOW, 0.5),        // 500 mg
        ("xs", MEASURED, 202.3),   // 202.30000305..: 202,300 mg
        ("xp", BELOW, 0.0625),     // 62.5: 62 mg
        ("so", BELOW, 0.009),      // 8.99..: 8 mg
        ("sno", BELOW, 0.05),      // 500000.0074..: 500,000 ticks
        ("snh", MEASURED, 31.56),  // 315599994.65..: 315,599,994 ticks
        ("xnd", BELOW, 0.0000005), // 4.99..: 4 ticks
        ("salk", BELOW, 0.0625),   // 62.5: 62 mmol
    ]);
    let counts = asm1(&[("si", 30_000), ("xs", 202_300), ("snh", 315_599_994)]);
    accepted(sheet, counts, [570, 500_004, 62, 4]);
}

/// Each column's count goes to its own column, and each limit to its own total.
#[test]
fn each_column() {
    for column in 0..13 {
        let mut sheet = every(NOT_SAMPLED, 0.0);
        (sheet.kinds[column], sheet.values[column]) = (MEASURED, 2.5);
        let mut counts = [0; 13];
        counts[column] = columns(2500, 25_000_000)[column];
        accepted(sheet, counts, [0, 0, 0, 12]);
        sheet.kinds[column] = BELOW;
        let told = match ASM1_NAMES[column] {
            "sno" | "snh" | "snd" | "xnd" => [0, 25_000_000, 0, 12],
            "salk" => [0, 0, 2500, 12],
            _ => [2500, 0, 0, 12],
        };
        accepted(sheet, [0; 13], told);
    }
}

/// A sheet is added to what the sludge tank has; the other tanks stay as they are.
#[test]
fn added_to_the_sludge() {
    let digester = digester(&[("ssu", 5), ("sin", 9)]);
    let before = Plant { sludge: [7; 13], digester, reject: [3; 13], figures: HOUSE };
    let mut plant = before;
    let told = plant.sheet(&only(&[(1, BELOW, 2.0), (2, NOT_SAMPLED, 0.0)])).unwrap();
    assert_eq!(told.numbers(), [2000, 0, 0, 1]);
    let mut sludge = columns(257, 2_500_007);
    (sludge[1], sludge[2]) = (7, 7);
    assert_eq!(plant, Plant { sludge, ..before });
}

/// A record above a ceiling is refused by 1 behind 13 and 14, and before 10.
#[test]
fn record_above() {
    for (column, ceiling) in full().columns().into_iter().enumerate().take(52) {
        let mut record = Plant { sludge: ASM1_CEILINGS, ..Plant::FRESH }.columns();
        record[column] = ceiling + 1;
        let plant = Plant::from_columns(&record);
        refused_on(plant, only(&[]), Refusal::RecordAboveCeiling);
        refused_on(plant, every(NOT_SAMPLED, 0.0), Refusal::RecordAboveCeiling);
        refused_on(plant, only(&[(12, BELOW, -1.0)]), Refusal::NoAmount);
        refused_on(plant, only(&[(12, BELOW, 2e9)]), Refusal::CountAboveCeiling);
    }
}

/// Every sludge column may reach its ceiling and not pass it; a limit fills no tank.
#[test]
fn sludge_at_its_ceiling() {
    for (column, ceiling) in ASM1_CEILINGS.into_iter().enumerate() {
        let (mut plant, counts) = (Plant::FRESH, columns(250, 2_500_000));
        plant.sludge[column] = ceiling - counts[column];
        let mut fits = plant;
        assert!(fits.sheet(&only(&[])).is_ok());
        assert_eq!(fits.sludge[column], ceiling);
        refused_on(fits, only(&[]), Refusal::DestinationAboveCeiling);
        plant.sludge[column] += 1;
        refused_on(plant, only(&[]), Refusal::DestinationAboveCeiling);
        assert!(plant.sheet(&only(&[(column, BELOW, 0.25)])).is_ok());
        refused_on(plant, only(&[(12, MEASURED, f32::NAN)]), Refusal::NoAmount);
        refused_on(plant, only(&[(12, MEASURED, 2e9)]), Refusal::CountAboveCeiling);
    }
    let full = Plant { sludge: ASM1_CEILINGS, ..Plant::FRESH };
    assert_eq!(
        full.clone().sheet(&every(BELOW, GREATEST)).map(|told| told.ticks),
        Ok(4 * TICK_CEILING)
    );
    refused_on(full, only(&[]), Refusal::DestinationAboveCeiling);
}

/// The count of an amount by its decimal digits, all of which are written: the point is moved
/// and what is behind it is cut away. None where no ceiling has so many digits.
fn by_digits(amount: f32, places: usize) -> Option<u64> {
    let text = format!("{:.149}", amount.abs());
    let (whole, fraction) = text.split_once('.').unwrap();
    format!("{whole}{}", &fraction[..places]).parse().ok()
}

/// Checks an amount in a column of each scale, with its own digits as the only rule.
fn check_digits(bits: u32) {
    let amount = f32::from_bits(bits);
    for (column, places, ceiling) in [(4, 3, COD_CEILING), (10, 7, TICK_CEILING)] {
        let expected = match by_digits(amount, places) {
            _ if amount < 0.0 => Err(Refusal::NoAmount),
            Some(count) if count <= ceiling => Ok(count),
            _ => Err(Refusal::CountAboveCeiling),
        };
        assert_eq!(count(column, amount), expected, "{bits:08x}");
    }
}

/// Every exponent with the mantissas at its edges, and random amounts of it, count by their digits.
#[test]
fn counts_by_digits() {
    let mut random = Random::new(25);
    for exponent in 0..255 {
        let edges = [0, 1, 0x3f_ffff, 0x40_0000, 0x7f_fffe, 0x7f_ffff];
        let others = (0..200).map(|_| random.below(1 << 23) as u32);
        for mantissa in edges.into_iter().chain(others.collect::<Vec<u32>>()) {
            check_digits(exponent << 23 | mantissa);
        }
    }
    for _ in 0..1000 {
        check_digits(0x8000_0000 | random.below(0x7f80_0000) as u32);
    }
}

/// Each row of the table of `exact_sheets.py` on each of its records; it has rows of every answer.
#[test]
fn exact_table() {
    let (mut answers, mut own) = ([0; 16], [0; 16]);
    let rows = table::rows(table::KEPT).unwrap();
    for row in &rows {
        own[row.refusal as usize] += 1;
        for case in row.cases() {
            let expected = (case.refusal, case.told, case.after);
            assert_eq!(sent(&case.before, &row.sheet), expected, "{row:?}");
            answers[case.refusal as usize] += 1;
        }
    }
    assert!([0, 13, 14].iter().all(|&refusal| own[refusal] >= 50), "{own:?}");
    assert!([0, 1, 10, 13, 14, 15].iter().all(|&number| answers[number] >= 100), "{answers:?}");
    assert_eq!(own.iter().sum::<usize>(), rows.len());
}

/// A list by hand: the balances begin with the counts of its sheets, and not with their limits.
#[test]
fn worked_balances() {
    let (mut plant, mut balances) = (Plant::FRESH, Balances::default());
    let sheets = [
        sampled(&[("ss", MEASURED, 0.009), ("so", MEASURED, 0.0025), ("sno", MEASURED, 0.00035)]),
        sampled(&[("ss", BELOW, 0.5), ("xi", MEASURED, 0.001), ("snd", MEASURED, 0.0001)]),
    ];
    for (sheet, told) in sheets.iter().zip([[0, 0, 0, 10], [500, 0, 0, 10]]) {
        assert_eq!(plant.sheet(sheet).unwrap().numbers(), told);
        balances.count(&Call::Receive(sheet.read().unwrap().0), &[]);
    }
    // 0.0025 and 0.00035 are a little less as floats: 2 mg, and 3,499 ticks; 0.0001 is less too.
    let sludge = [("ss", 8), ("xi", 1), ("so", 2), ("sno", 3499), ("snd", 999)];
    assert_eq!(plant, with_sludge(&sludge));
    assert_eq!(balances.received, [9, 880 + 999, 2, 3499]);
    let Ok(Told::Fed(fed)) = plant.call(&Call::Feed(1000)) else { panic!("no feed") };
    balances.count(&Call::Feed(1000), &fed.numbers());
    assert_eq!(plant, with_digester(&[("saa", 1), ("ssu", 4), ("xc", 1), ("sin", 619)]));
    assert_eq!(balances.left, [3, 0, 2, 3499]);
    assert_eq!(balances.check(plant.held().unwrap().numbers()), Ok(()));
}

/// Makes calls on a random record with sheets among them, and asks for the four balances at the
/// end; counts the sheets by their answers.
fn random_list(number: u64, answers: &mut [u32; 16]) {
    let mut trial = Trial::new(Random::nth(26, number));
    let mut plant = trial.record();
    let start = Balances::on(&plant);
    let mut balances = start;
    for _ in 0..60 {
        if trial.random.percent(70) {
            let line = trial.line(&plant);
            let mut buffer = [0; 512];
            let answer = lines::answer(&mut plant, &line, &mut buffer);
            balances.count_line(&line, answer);
            continue;
        }
        let (before, sheet) = (plant, any_sheet(&mut trial.random));
        let result = plant.sheet(&sheet);
        answers[result.err().map_or(0, |refusal| refusal as usize)] += 1;
        match result {
            Ok(_) => balances.count(&Call::Receive(sheet.read().unwrap().0), &[]),
            Err(_) => assert_eq!(plant, before),
        }
    }
    match plant.held() {
        Ok(held) => assert_eq!(balances.check(held.numbers()), Ok(())),
        Err(_) => assert_eq!(balances, start),
    }
}

/// Over random lists the balances close with sheets among the calls, and every answer is met.
#[test]
fn random_lists_balance() {
    let mut answers = [0; 16];
    (0..1000).for_each(|number| random_list(number, &mut answers));
    let met = [0, 1, 10, 13, 14, 15].map(|refusal| answers[refusal]);
    assert!(met.iter().all(|&count| count >= 300), "{answers:?}");
    assert_eq!(met.iter().sum::<u32>(), answers.iter().sum());
}

/// A sheet is its counts received, with what is told beside them: on random records, and on
/// those that it just fits or passes by one.
#[test]
fn received_as_counts() {
    let mut answers = [0; 16];
    for number in 0..5000 {
        let mut trial = Trial::new(Random::nth(27, number));
        let plant = trial.record();
        let sheet = any_sheet(&mut trial.random);
        for (sheet, plant) in [(sheet, plant), at_the_ceilings(&mut trial.random, &plant)] {
            let (refusal, told, after) = sent(&plant.columns(), &sheet);
            answers[refusal as usize] += 1;
            let Ok((counts, unseen)) = sheet.read() else {
                refused(sheet, sheet.read().unwrap_err());
                continue;
            };
            let mut record = plant.columns();
            assert_eq!(refusal, numbers::receive(&mut record, &counts));
            assert_eq!(after, record);
            assert_eq!(told, if refusal == 0 { unseen.numbers() } else { [0; 4] });
        }
    }
    let met = [0, 1, 10, 13, 14, 15].map(|refusal| answers[refusal]);
    assert!(met.iter().all(|&count| count >= 100), "{answers:?}");
    assert_eq!(met.iter().sum::<u32>(), 10_000);
}
