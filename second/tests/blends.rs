//! Request E10 of document 02: up to eight hauled loads, each drawn by its own k, are added to
//! the sludge tank in one call, and what is left of them stays in their slice. Worked blends,
//! the lengths of both slices, the refusals 15, 1, 16, 2, 3, 10 in their order with nothing
//! changed, loads in every order, random blends by the rule in whole numbers without a ceiling,
//! and the four balances over lists with blends among the calls.

mod named;

use named::{asm1, digester, with_digester, with_sludge};
use second::balances::Balances;
use second::blends::MOST_LOADS;
use second::figures::{Figures, HOUSE};
use second::plant::{Call, Plant, Refusal, Told};
use second::random::Random;
use second::tables::*;
use second::trials::blends::{fair, order, Blend};
use second::trials::{amounts, figures, Trial};
use second::{lines, numbers};

/// A blend on a copy of a record, made by numbers: the refusal, the loads and the record then.
fn blended(plant: &Plant, loads: &[u64], ks: &[u64]) -> (u64, Vec<u64>, Plant) {
    let (mut record, mut loads) = (plant.columns(), loads.to_vec());
    let refusal = numbers::blend(&mut record, &mut loads, ks);
    (refusal, loads, Plant::from_columns(&record))
}

/// What a blend that is accepted leaves of its loads, and its record.
fn accepted(plant: &Plant, loads: &[u64], ks: &[u64]) -> (Vec<u64>, Plant) {
    let (refusal, rests, after) = blended(plant, loads, ks);
    assert_eq!(refusal, 0, "{plant:?} {loads:?} {ks:?}");
    (rests, after)
}

/// Checks that a blend is refused by this number, and that record and loads stay as they were.
fn refused(plant: &Plant, loads: &[u64], ks: &[u64], refusal: Refusal) {
    let expected = (refusal as u64, loads.to_vec(), *plant);
    assert_eq!(blended(plant, loads, ks), expected, "{loads:?} {ks:?}");
}

/// Loads behind one another.
fn behind(loads: &[Asm1]) -> Vec<u64> {
    loads.concat()
}

/// So many loads that have something in every column, all of them different.
fn full_enough(number: usize) -> Vec<u64> {
    (0..13 * number as u64).map(|place| 1000 + 17 * place).collect()
}

/// Every order of so many places.
fn orders(number: usize) -> Vec<Vec<usize>> {
    let Some(last) = number.checked_sub(1) else { return vec![Vec::new()] };
    let put = |shorter: &Vec<usize>, place: usize| {
        let mut order = shorter.clone();
        order.insert(place, last);
        order
    };
    let shorter = orders(last);
    shorter.iter().flat_map(|order| (0..number).map(move |place| put(order, place))).collect()
}

/// Three loads on a tank that has something: the floor of each column by its load's k goes to
/// the sludge, the rest stays with its load, and the other tanks are as they were.
#[test]
fn worked_blend() {
    let before = Plant {
        digester: digester(&[("ssu", 5), ("sin", 9)]),
        reject: [3; 13],
        ..with_sludge(&[("ss", 5), ("xp", 8)])
    };
    let loads = [
        asm1(&[("ss", 1001), ("xi", 7), ("snh", 15)]),
        asm1(&[("ss", 10), ("so", 4), ("salk", 3)]),
        asm1(&[("ss", 3999), ("snh", 999), ("xnd", 2000)]),
    ];
    let (rests, after) = accepted(&before, &behind(&loads), &[500, 1000, 1]);
    // ss 5 + 500 + 10 + 3, snh 7 + 0.
    let sludge =
        [("ss", 518), ("xi", 3), ("xp", 8), ("so", 4), ("snh", 7), ("xnd", 2), ("salk", 3)];
    assert_eq!(after, Plant { sludge: asm1(&sludge), ..before });
    let left = [
        asm1(&[("ss", 501), ("xi", 4), ("snh", 8)]),
        [0; 13],
        asm1(&[("ss", 3996), ("snh", 999), ("xnd", 1998)]),
    ];
    assert_eq!(rests, behind(&left));
}

/// Each column is drawn by its load's k and goes to its own column, whichever load it is of.
#[test]
fn each_column_of_each_load() {
    for (place, k) in [125, 250, 500, 1000, 1, 999, 333, 2].into_iter().enumerate() {
        for column in 0..13 {
            let (mut loads, mut ks) = (vec![0; 13 * MOST_LOADS], [7; MOST_LOADS]);
            (loads[13 * place + column], ks[place]) = (2999, k);
            let (rests, after) = accepted(&Plant::FRESH, &loads, &ks);
            let drawn = 2999 * k / 1000;
            let mut sludge = [0; 13];
            sludge[column] = drawn;
            assert_eq!(after, Plant { sludge, ..Plant::FRESH });
            loads[13 * place + column] = 2999 - drawn;
            assert_eq!(rests, loads);
        }
    }
}

/// A blend of one load: one thousandth to all of it, and no other k.
#[test]
fn one_load() {
    for (k, drawn) in [(1, 1), (500, 999), (999, 1997), (1000, 1999)] {
        let (rests, after) = accepted(&Plant::FRESH, &[1999; 13], &[k]);
        assert_eq!(rests, [1999 - drawn; 13]);
        assert_eq!(after, Plant { sludge: [drawn; 13], ..Plant::FRESH });
    }
    for k in [0, 1001, 1 << 32, u64::MAX] {
        refused(&Plant::FRESH, &[1999; 13], &[k], Refusal::ThousandthsOutOfRange);
    }
}

/// Eight loads, each with another k.
#[test]
fn eight_loads() {
    let ks = [125, 250, 375, 500, 625, 750, 875, 1000];
    let loads: Vec<u64> = (0..8).flat_map(|load| [8000 + load; 13]).collect();
    let (rests, after) = accepted(&with_sludge(&[("ss", 1)]), &loads, &ks);
    // 1000, 2000, 3000, 4001, 5002, 6003, 7005, 8007: the floors of 8001 * 0.25 and so on.
    let mut sludge = [36_018; 13];
    sludge[1] += 1;
    assert_eq!(after.sludge, sludge);
    let left = [7000, 6001, 5002, 4002, 3002, 2002, 1001, 0];
    assert_eq!(rests, left.map(|left| [left; 13]).concat());
}

/// No loads, nine and more are turned away by 16, whatever stands in them; one to eight are not.
#[test]
fn none_nine_and_more() {
    for number in [0, 9, 10, 16, 100, 1000] {
        for k in [0, 1, 1000, u64::MAX] {
            let ks = vec![k; number];
            refused(&Plant::FRESH, &full_enough(number), &ks, Refusal::NoBlend);
            refused(&Plant::FRESH, &vec![u64::MAX; 13 * number], &ks, Refusal::NoBlend);
            refused(&Plant::FRESH, &vec![0; 13 * number], &ks, Refusal::NoBlend);
        }
    }
    for number in 1..=8 {
        accepted(&Plant::FRESH, &full_enough(number), &vec![1; number]);
    }
}

/// Slices that do not fit each other are turned away by 16: by one or by a load either way, one
/// of them empty, one in the other's place, and every pair of lengths up to ten loads.
#[test]
fn lengths_that_do_not_fit() {
    let (columns, ks) = (full_enough(11), [1000; 131]);
    for number in 1..=8 {
        let whole = 13 * number;
        let off = [whole - 13, whole - 1, whole + 1, whole + 13, 0, number];
        for loads in off {
            refused(&Plant::FRESH, &columns[..loads], &ks[..number], Refusal::NoBlend);
        }
        for others in [number - 1, number + 1, 0, whole] {
            refused(&Plant::FRESH, &columns[..whole], &ks[..others], Refusal::NoBlend);
        }
    }
    let mut fitting = 0;
    for (loads, number) in (0..=140).flat_map(|loads| (0..=11).map(move |ks| (loads, ks))) {
        match blended(&Plant::FRESH, &columns[..loads], &ks[..number]).0 {
            0 => fitting += 1,
            refusal => assert_eq!(refusal, 16, "{loads} {number}"),
        }
    }
    assert_eq!(fitting, 8);
}

/// A k out of range among good ones is refused by 2, at each place and for each number of loads.
#[test]
fn a_bad_k_at_each_place() {
    for (number, place) in (1..=8).flat_map(|number| (0..number).map(move |place| (number, place)))
    {
        for k in [0, 1001, 1 << 16, (1 << 32) + 1, (1 << 63) + 500, u64::MAX] {
            let mut ks = vec![500; number];
            ks[place] = k;
            refused(&Plant::FRESH, &full_enough(number), &ks, Refusal::ThousandthsOutOfRange);
            // A load that is empty needs a k all the same.
            refused(&Plant::FRESH, &vec![0; 13 * number], &ks, Refusal::ThousandthsOutOfRange);
        }
    }
}

/// A column above its ceiling among good ones is refused by 3, each column at each place.
#[test]
fn a_bad_column_at_each_place() {
    for number in 1..=8 {
        for place in 0..13 * number {
            let ceiling = ASM1_CEILINGS[place % 13];
            for above in [ceiling + 1, 2 * ceiling, u64::MAX] {
                let mut loads = full_enough(number);
                loads[place] = above;
                let ks = vec![500; number];
                refused(&Plant::FRESH, &loads, &ks, Refusal::ColumnAboveCeiling);
            }
        }
    }
}

/// A column above its ceiling is refused by 3 also where its draw would fit the tank; at its
/// ceiling it is not.
#[test]
fn above_though_its_draw_fits() {
    for (column, ceiling) in ASM1_CEILINGS.into_iter().enumerate() {
        let mut load = [0; 13];
        load[column] = ceiling + 1;
        for k in [1, 999] {
            refused(&Plant::FRESH, &load, &[k], Refusal::ColumnAboveCeiling);
        }
        load[column] = ceiling;
        let (rests, after) = accepted(&Plant::FRESH, &load, &[1]);
        assert_eq!((after.sludge[column], rests[column]), (ceiling / 1000, ceiling / 1000 * 999));
    }
}

/// Draws of which each fits are refused by 10 where they pass a ceiling together: in each column
/// eight that just fill an empty tank, and one count more in any of them.
#[test]
fn together_above_a_ceiling() {
    for (column, ceiling) in ASM1_CEILINGS.into_iter().enumerate() {
        let mut loads = vec![0; 13 * 8];
        (0..8).for_each(|place| loads[13 * place + column] = ceiling / 8);
        let (rests, after) = accepted(&Plant::FRESH, &loads, &[1000; 8]);
        assert_eq!((after.sludge[column], rests), (ceiling, vec![0; 13 * 8]));
        for place in 0..8 {
            let mut more = loads.clone();
            more[13 * place + column] += 1;
            refused(&Plant::FRESH, &more, &[1000; 8], Refusal::DestinationAboveCeiling);
            // By 999 thousandths the loads draw less, and fit again.
            let mut ks = [1000; 8];
            ks[7 - place] = 999;
            accepted(&Plant::FRESH, &more, &ks);
        }
    }
}

/// Every sludge column may reach its ceiling and not pass it, each by itself.
#[test]
fn sludge_at_its_ceiling() {
    for (column, ceiling) in ASM1_CEILINGS.into_iter().enumerate() {
        let mut loads = [[0; 13]; 2];
        (loads[0][column], loads[1][column]) = (9, 3);
        let mut plant = Plant::FRESH;
        plant.sludge[column] = ceiling - 5;
        let (rests, after) = accepted(&plant, &behind(&loads), &[500, 500]);
        assert_eq!(after.sludge[column], ceiling);
        assert_eq!((rests[column], rests[13 + column]), (5, 2));
        plant.sludge[column] += 1;
        refused(&plant, &behind(&loads), &[500, 500], Refusal::DestinationAboveCeiling);
        refused(&after, &rests, &[1000, 1], Refusal::DestinationAboveCeiling);
    }
}

/// Eight full loads fill an empty tank by 125 thousandths of each; the greatest draws, all of
/// eight full loads, do not wrap.
#[test]
fn full_loads() {
    let full = ASM1_CEILINGS.repeat(8);
    let (rests, after) = accepted(&Plant::FRESH, &full, &[125; 8]);
    assert_eq!(after, Plant { sludge: ASM1_CEILINGS, ..Plant::FRESH });
    assert_eq!(rests, ASM1_CEILINGS.map(|ceiling| ceiling / 8 * 7).repeat(8));
    for place in 0..8 {
        let mut ks = [125; 8];
        ks[place] = 126;
        refused(&Plant::FRESH, &full, &ks, Refusal::DestinationAboveCeiling);
    }
    refused(&Plant::FRESH, &full, &[1000; 8], Refusal::DestinationAboveCeiling);
    refused(&after, &full, &[1000; 8], Refusal::DestinationAboveCeiling);
}

/// Empty loads are accepted by any number of them and any k, and change nothing; so are those
/// of which so few thousandths are none.
#[test]
fn nothing_to_draw() {
    let full = Plant {
        sludge: ASM1_CEILINGS,
        digester: DIGESTER_CEILINGS,
        reject: ASM1_CEILINGS,
        figures: HOUSE,
    };
    for plant in [Plant::FRESH, full] {
        for number in 1..=8 {
            for (amount, k) in [(0, 1), (0, 500), (0, 1000), (999, 1), (1, 999), (2, 499)] {
                let (loads, ks) = (vec![amount; 13 * number], vec![k; number]);
                assert_eq!(accepted(&plant, &loads, &ks), (loads, plant));
            }
        }
    }
}

/// A record above a ceiling, in each of its columns, is refused by 1 before all but 15.
#[test]
fn record_above() {
    let ceilings = [&ASM1_CEILINGS[..], &DIGESTER_CEILINGS, &ASM1_CEILINGS].concat();
    for (column, ceiling) in ceilings.into_iter().enumerate() {
        let mut record = Plant::FRESH.columns();
        record[column] = ceiling + 1;
        let plant = Plant::from_columns(&record);
        refused(&plant, &[0; 13], &[1], Refusal::RecordAboveCeiling);
        refused(&plant, &[], &[], Refusal::RecordAboveCeiling);
        refused(&plant, &[u64::MAX; 13], &[0], Refusal::RecordAboveCeiling);
    }
    for figures in figures::just_outside(&HOUSE) {
        let plant = Plant { sludge: [u64::MAX; 13], ..Plant::fresh(figures) };
        refused(&plant, &[], &[], Refusal::FiguresOutOfBounds);
        refused(&Plant::fresh(figures), &[0; 13], &[1], Refusal::FiguresOutOfBounds);
    }
}

/// The refusals in their order.
const IN_ORDER: [Refusal; 6] = [
    Refusal::FiguresOutOfBounds,
    Refusal::RecordAboveCeiling,
    Refusal::NoBlend,
    Refusal::ThousandthsOutOfRange,
    Refusal::ColumnAboveCeiling,
    Refusal::DestinationAboveCeiling,
];

/// A record and a blend of three loads with these faults, in the order of the refusals: the
/// blend's lengths are off in one of four ways, a k and a column at one of three places.
fn faulty(faults: [bool; 6], way: usize, place: usize) -> (Plant, Blend) {
    let (mut plant, mut loads, mut ks) = (Plant::FRESH, full_enough(3), vec![500; 3]);
    if faults[0] {
        plant.figures = Figures { naa: 0, ..HOUSE };
    }
    if faults[1] {
        plant.reject[12] = COD_CEILING + 1;
    }
    if faults[3] {
        ks[place] = 1001;
    }
    if faults[4] {
        loads[13 * place + 4] = COD_CEILING + 1;
    }
    if faults[5] {
        plant.sludge[9] = TICK_CEILING;
    }
    match way {
        _ if !faults[2] => {}
        0 => loads.push(1000),
        1 => ks.push(500),
        2 => drop(loads.pop()),
        _ => (loads, ks) = (loads.repeat(3), ks.repeat(3)),
    }
    (plant, Blend { loads, ks })
}

/// Of every combination of the six faults the first in order is told, and neither record nor
/// loads change; without any the blend is accepted.
#[test]
fn refusals_in_order() {
    for combination in 0..64 {
        let faults = std::array::from_fn(|fault| combination >> fault & 1 == 1);
        for (way, place) in (0..4).flat_map(|way| (0..3).map(move |place| (way, place))) {
            let (plant, Blend { loads, ks }) = faulty(faults, way, place);
            match faults.iter().position(|&fault| fault) {
                Some(first) => refused(&plant, &loads, &ks, IN_ORDER[first]),
                None => drop(accepted(&plant, &loads, &ks)),
            }
        }
    }
}

/// Checks that a blend in this order of its loads gives the same record, and leaves of each load
/// what it leaves of it otherwise.
fn same_in_order(plant: &Plant, blend: &Blend, order: &[usize]) {
    let (refusal, rests, after) = blended(plant, &blend.loads, &blend.ks);
    let (other, rest) = (blend.in_order(order), Blend { loads: rests, ks: blend.ks.clone() });
    let expected = (refusal, rest.in_order(order).loads, after);
    assert_eq!(blended(plant, &other.loads, &other.ks), expected, "{blend:?} {order:?}");
}

/// One to four loads in each of their orders give the same sludge tank, accepted and refused.
#[test]
fn loads_in_every_order() {
    assert_eq!([0, 1, 2, 3, 4].map(|number| orders(number).len()), [1, 1, 2, 6, 24]);
    for number in 1..=4 {
        let ks = vec![1, 333, 999, 500][..number].to_vec();
        let blend = Blend { loads: full_enough(number), ks };
        let (mut bad_k, mut bad_column) = (blend.clone(), blend.clone());
        bad_k.ks[number / 2] = 0;
        bad_column.loads[13 * number - 1] = u64::MAX;
        let full = Plant { sludge: ASM1_CEILINGS, ..Plant::FRESH };
        for order in orders(number) {
            same_in_order(&Plant::FRESH, &blend, &order);
            same_in_order(&full, &blend, &order);
            same_in_order(&Plant::FRESH, &bad_k, &order);
            same_in_order(&Plant::FRESH, &bad_column, &order);
        }
    }
}

/// Random blends of every number of loads, shuffled, give the same sludge tank, also where it is
/// just filled or passed by one.
#[test]
fn shuffled_loads() {
    let mut eights = 0;
    for number in 0..2000 {
        let mut trial = Trial::new(Random::nth(41, number));
        let plant = trial.record();
        let (filling, filled) = trial.blend_at_the_ceilings(&plant);
        for (plant, blend) in [(plant, trial.blend(&plant)), (filled, filling)] {
            if blend.whole() {
                let order = order(&mut trial.random, blend.ks.len());
                same_in_order(&plant, &blend, &order);
                eights += u32::from(blend.ks.len() == 8);
            }
        }
    }
    assert!(eights > 1000, "{eights}");
}

/// A blend that is accepted is its draws received one after another; where it is refused by 10,
/// so is one of these.
#[test]
fn draws_received_one_by_one() {
    let mut answers = [0; 2];
    for number in 0..2000 {
        let mut trial = Trial::new(Random::nth(42, number));
        let (blend, plant) = trial.blend_at_the_ceilings(&Plant::FRESH);
        let (mut one_by_one, mut refusals) = (plant, Vec::new());
        for (load, &k) in blend.loads.chunks(13).zip(&blend.ks) {
            let drawn = std::array::from_fn(|column| load[column] * k / 1000);
            refusals.extend(one_by_one.receive(&drawn).err());
        }
        let (refusal, _, after) = blended(&plant, &blend.loads, &blend.ks);
        answers[usize::from(refusal > 0)] += 1;
        match refusal {
            0 => assert_eq!((after, refusals), (one_by_one, vec![])),
            _ => assert_eq!(refusals.first(), Some(&Refusal::DestinationAboveCeiling)),
        }
    }
    assert!(answers.iter().all(|&count| count > 300), "{answers:?}");
}

/// Loads that are drawn again and again, and at last whole, come to the tank to the last count.
#[test]
fn drawn_to_the_last() {
    let mut random = Random::new(43);
    for _ in 0..500 {
        let scale = amounts::Scale::any(&mut random, HOUSE);
        let Blend { mut loads, ks } = fair(&mut random, &scale);
        // An eighth of each, so that all of them fit.
        loads.iter_mut().for_each(|amount| *amount /= 8);
        let whole: Asm1 = std::array::from_fn(|column| loads.iter().skip(column).step_by(13).sum());
        let mut plant = Plant::FRESH;
        for _ in 0..5 {
            let ks: Vec<u64> = ks.iter().map(|_| 1 + random.below(1000)).collect();
            (loads, plant) = accepted(&plant, &loads, &ks);
        }
        (loads, plant) = accepted(&plant, &loads, &vec![1000; ks.len()]);
        assert!(loads.iter().all(|&amount| amount == 0));
        assert_eq!(plant, Plant { sludge: whole, ..Plant::FRESH });
    }
}

/// The call by numbers, between others; what is left of a load goes with the next blend.
#[test]
fn by_numbers() {
    let mut record = with_digester(&[("ssu", 9), ("sin", 7)]).columns();
    let mut loads = behind(&[asm1(&[("ss", 10), ("snh", 5)]), asm1(&[("ss", 3)])]);
    assert_eq!(numbers::blend(&mut record, &mut loads, &[500, 1000]), 0);
    assert_eq!(numbers::give_back(&mut record, 1000, &mut [0]), 0);
    assert_eq!(numbers::blend(&mut record, &mut loads, &[1000]), 16);
    assert_eq!(numbers::blend(&mut record, &mut loads, &[1000, 1001]), 2);
    assert_eq!(numbers::blend(&mut record, &mut loads, &[1000, 1]), 0);
    assert_eq!(numbers::blend(&mut record, &mut [], &[]), 16);
    let (sludge, reject) = (asm1(&[("ss", 13), ("snh", 5)]), asm1(&[("ss", 9), ("snh", 7)]));
    assert_eq!(Plant::from_columns(&record), Plant { sludge, reject, ..Plant::FRESH });
    assert_eq!(loads, [0; 26]);
}

/// The refusals of a blend that apply, in whole numbers without a ceiling.
fn applying(plant: &Plant, Blend { loads, ks }: &Blend) -> Vec<u64> {
    let above = !within(&plant.sludge, &ASM1_CEILINGS)
        || !within(&plant.digester, &DIGESTER_CEILINGS)
        || !within(&plant.reject, &ASM1_CEILINGS);
    let no_blend = ks.is_empty() || ks.len() > 8 || loads.len() != 13 * ks.len();
    let mut sums = plant.sludge.map(u128::from);
    for (place, &amount) in loads.iter().enumerate() {
        let k = ks.get(place / 13).copied().unwrap_or(0);
        sums[place % 13] += u128::from(amount) * u128::from(k) / 1000;
    }
    let passes = sums.iter().zip(&ASM1_CEILINGS).any(|(&sum, &ceiling)| sum > ceiling.into());
    let column_above =
        loads.iter().enumerate().any(|(place, &amount)| amount > ASM1_CEILINGS[place % 13]);
    let tests = [
        (15, !plant.figures.permitted()),
        (1, above),
        (16, no_blend),
        (2, ks.iter().any(|&k| k == 0 || k > 1000)),
        (3, column_above),
        (10, passes),
    ];
    tests.into_iter().filter(|(_, applies)| *applies).map(|(number, _)| number).collect()
}

/// Refusals that apply together.
const PAIRS: [[u64; 2]; 12] = [
    [15, 1],
    [15, 16],
    [15, 2],
    [15, 10],
    [1, 16],
    [1, 2],
    [1, 3],
    [16, 2],
    [16, 3],
    [2, 3],
    [2, 10],
    [3, 10],
];

/// How often each answer to a blend was met (0 accepted), each pair of refusals that apply
/// together, each number of loads that were accepted, and a sludge column just filled.
#[derive(Default, Debug)]
struct Met {
    answers: [u32; 17],
    pairs: [u32; 12],
    loads: [u32; 9],
    just_filled: u32,
}

impl Met {
    /// Checks a blend against the rule, and counts it.
    fn check(&mut self, before: &Plant, blend: &Blend) {
        let (number, rests, after) = blended(before, &blend.loads, &blend.ks);
        let apply = applying(before, blend);
        assert_eq!(number, apply.first().copied().unwrap_or(0), "{before:?} {blend:?}");
        self.answers[number as usize] += 1;
        for (pair, count) in PAIRS.iter().zip(&mut self.pairs) {
            *count += u32::from(pair.iter().all(|refusal| apply.contains(refusal)));
        }
        match number {
            0 => self.check_accepted(before, blend, &rests, &after),
            _ => assert_eq!((&rests, &after), (&blend.loads, before)),
        }
    }

    /// Checks where every count of a blend that is accepted went.
    fn check_accepted(&mut self, before: &Plant, blend: &Blend, rests: &[u64], after: &Plant) {
        let mut sludge = before.sludge;
        for (place, (&amount, &rest)) in blend.loads.iter().zip(rests).enumerate() {
            let drawn = u128::from(amount) * u128::from(blend.ks[place / 13]) / 1000;
            assert_eq!(u128::from(amount), drawn + u128::from(rest));
            sludge[place % 13] += drawn as u64;
        }
        assert_eq!(*after, Plant { sludge, ..*before });
        self.loads[blend.ks.len()] += 1;
        let fills = |column: usize| {
            sludge[column] == ASM1_CEILINGS[column] && sludge[column] > before.sludge[column]
        };
        self.just_filled += u32::from((0..13).any(fills));
    }
}

/// 20,000 random blends are answered by the rule; every answer, pair of refusals and number of
/// loads has been met.
#[test]
fn random_blends() {
    let mut met = Met::default();
    for number in 0..10_000 {
        let mut trial = Trial::new(Random::nth(44, number));
        let plant = trial.record();
        let blend = trial.blend(&plant);
        met.check(&plant, &blend);
        let (blend, plant) = trial.blend_at_the_ceilings(&plant);
        met.check(&plant, &blend);
    }
    let asked = [0, 1, 2, 3, 10, 15, 16].map(|number| met.answers[number]);
    assert!(asked.iter().all(|&count| count >= 400), "{met:?}");
    assert_eq!(asked.iter().sum::<u32>(), 20_000);
    assert!(met.pairs.iter().all(|&count| count >= 20), "{met:?}");
    assert!(met.loads[1..].iter().chain([&met.just_filled]).all(|&count| count >= 300), "{met:?}");
}

/// A list by hand: the balances begin with what a blend draws, and not with what is left.
#[test]
fn worked_balances() {
    let (mut plant, mut balances) = (Plant::FRESH, Balances::default());
    let loads = [
        asm1(&[("ss", 17), ("so", 5), ("sno", 7000)]),
        asm1(&[("xi", 3), ("snd", 1998), ("salk", 1)]),
    ];
    let (mut loads, ks) = (behind(&loads), [500, 500]);
    balances.count_blend(&loads, &ks);
    assert_eq!(plant.blend(&mut loads, &ks), Ok(()));
    let sludge = [("ss", 8), ("xi", 1), ("so", 2), ("sno", 3500), ("snd", 999)];
    assert_eq!(plant, with_sludge(&sludge));
    let left = [
        asm1(&[("ss", 9), ("so", 3), ("sno", 3500)]),
        asm1(&[("xi", 2), ("snd", 999), ("salk", 1)]),
    ];
    assert_eq!(loads, behind(&left));
    assert_eq!(balances.received, [9, 880 + 999, 2, 3500]);
    let Ok(Told::Fed(fed)) = plant.call(&Call::Feed(1000)) else { panic!("no feed") };
    balances.count(&Call::Feed(1000), &fed.numbers());
    assert_eq!(plant, with_digester(&[("saa", 1), ("ssu", 4), ("xc", 1), ("sin", 619)]));
    assert_eq!(balances.left, [3, 0, 2, 3500]);
    assert_eq!(balances.check(plant.held().unwrap().numbers()), Ok(()));
    assert_eq!(plant.blend(&mut loads, &[500]), Err(Refusal::NoBlend));
    assert_eq!(balances.check(plant.held().unwrap().numbers()), Ok(()));
    balances.count_blend(&loads, &[1000, 1]);
    assert!(balances.check(plant.held().unwrap().numbers()).is_err());
    assert_eq!(plant.blend(&mut loads, &[1000, 1]), Ok(()));
    assert_eq!(balances.check(plant.held().unwrap().numbers()), Ok(()));
}

/// Makes calls on a random record with blends among them, and asks for the four balances at the
/// end; counts the blends by their answers.
fn random_list(number: u64, answers: &mut [u32; 17]) {
    let mut trial = Trial::new(Random::nth(45, number));
    let mut plant = trial.record();
    let start = Balances::on(&plant);
    let mut balances = start;
    for _ in 0..60 {
        if trial.random.percent(70) {
            let line = trial.line(&plant);
            let mut buffer = [0; 512];
            let answer = lines::answer(&mut plant, &line, &mut buffer);
            balances.count_line(&line, answer);
            continue;
        }
        let (before, blend) = (plant, trial.blend(&plant));
        let mut loads = blend.loads.clone();
        let result = plant.blend(&mut loads, &blend.ks);
        answers[result.err().map_or(0, |refusal| refusal as usize)] += 1;
        match result {
            Ok(()) => balances.count_blend(&blend.loads, &blend.ks),
            Err(_) => assert_eq!((plant, loads), (before, blend.loads)),
        }
    }
    match plant.held() {
        Ok(held) => assert_eq!(balances.check(held.numbers()), Ok(())),
        Err(_) => assert_eq!(balances, start),
    }
}

/// Over random lists the balances close with blends among the calls, and every answer is met.
#[test]
fn random_lists_balance() {
    let mut answers = [0; 17];
    (0..1000).for_each(|number| random_list(number, &mut answers));
    let met = [0, 1, 2, 3, 10, 15, 16].map(|refusal| answers[refusal]);
    assert!(met.iter().all(|&count| count >= 300), "{answers:?}");
    assert_eq!(met.iter().sum::<u32>(), answers.iter().sum());
}
