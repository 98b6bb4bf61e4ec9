//! What document 01 has no line for: the conversions of a vector by itself, `close` and
//! `gap`, each by worked numbers; the calls by numbers; and, over random records and
//! proposals, that settle accepts what closes and nothing else would do.

mod named;

use named::{asm1, digester, with_digester, with_sludge};
use second::closing::Gap;
use second::figures::HOUSE;
use second::plant::{Plant, Refusal};
use second::random::Random;
use second::tables::*;
use second::trials::Trial;
use second::{convert, numbers};

/// A column just above the ceiling of COD, oxygen and millimoles.
const ABOVE_COD: u64 = COD_CEILING + 1;

/// A column just above the ceiling of ticks.
const ABOVE_TICKS: u64 = TICK_CEILING + 1;

/// A record with a column above its ceiling, far from sludge and digester.
fn above() -> Plant {
    Plant { reject: asm1(&[("salk", ABOVE_COD)]), ..Plant::FRESH }
}

/// The conversions by themselves are those of the feed and the return.
#[test]
fn conversions_of_a_vector() {
    let (d, told) = convert::asm_to_adm(&HOUSE, &asm1(&[("xba", 1), ("sno", 3501)])).unwrap();
    assert_eq!(d, digester(&[("cn", 1), ("sin", 880)]));
    assert_eq!(told.numbers(), [1, 0, 3500, 1]);
    let d = digester(&[("xi", 8), ("xc", 2), ("sin", 6000), ("sh2", 3), ("sch4", 4)]);
    let v = asm1(&[("xi", 8), ("xs", 2), ("snh", 1760)]);
    assert_eq!(convert::adm_to_asm(&HOUSE, &d), Ok((v, 7)));
}

/// A vector above a ceiling is refused by 3, before the shortages of nitrogen.
#[test]
fn conversions_refused() {
    let feed =
        |named: &[(&str, u64)]| convert::asm_to_adm(&HOUSE, &asm1(named)).map(|_| ()).unwrap_err();
    assert_eq!(feed(&[("si", 1), ("snh", 279)]), Refusal::FeedNitrogenShort);
    assert_eq!(feed(&[("si", 1), ("salk", ABOVE_COD)]), Refusal::ColumnAboveCeiling);
    assert_eq!(feed(&[("xnd", ABOVE_TICKS)]), Refusal::ColumnAboveCeiling);
    assert_eq!(feed(&[("ss", u64::MAX), ("xs", u64::MAX)]), Refusal::ColumnAboveCeiling);
    let back = |named: &[(&str, u64)]| convert::adm_to_asm(&HOUSE, &digester(named)).unwrap_err();
    assert_eq!(back(&[("xi", 1), ("sin", 599)]), Refusal::ReturnNitrogenShort);
    assert_eq!(back(&[("xi", 1), ("co", ABOVE_COD)]), Refusal::ColumnAboveCeiling);
    assert_eq!(back(&[("cn", ABOVE_TICKS)]), Refusal::ColumnAboveCeiling);
    assert_eq!(back(&[("xh2", u64::MAX), ("xac", u64::MAX)]), Refusal::ColumnAboveCeiling);
}

/// The result of a conversion may stand above its ceilings; on a record that is refusal 10.
#[test]
fn conversions_above_the_ceilings_of_their_result() {
    let v = [("xs", COD_CEILING), ("xbh", COD_CEILING), ("xnd", TICK_CEILING)];
    let (d, _) = convert::asm_to_adm(&HOUSE, &asm1(&v)).unwrap();
    let sin = TICK_CEILING + (880 - 2 * 280) * COD_CEILING;
    assert_eq!(d, digester(&[("xc", 2 * COD_CEILING), ("sin", sin)]));
    assert_eq!(with_sludge(&v).feed(1000), Err(Refusal::DestinationAboveCeiling));
    let d = [("sva", COD_CEILING), ("sac", COD_CEILING)];
    let (v, _) = convert::adm_to_asm(&HOUSE, &digester(&d)).unwrap();
    assert_eq!(v, asm1(&[("ss", 2 * COD_CEILING)]));
    assert_eq!(with_digester(&d).give_back(1000), Err(Refusal::DestinationAboveCeiling));
}

/// Protein is turned to acetate degraders and methane: gas, sin, co and cn close.
#[test]
fn closes() {
    let old = [("xpr", 10), ("sin", 5), ("sic", 9), ("co", 1), ("cn", 2)];
    let proposal = [("sch4", 6), ("xac", 1), ("sin", 77), ("sic", 3), ("co", 40), ("cn", 50)];
    let closed = [("sch4", 6), ("xac", 1), ("sin", 9805 - 875), ("sic", 3), ("co", 1), ("cn", 2)];
    let plant = with_digester(&old);
    assert_eq!(plant.close(&digester(&proposal)), Ok((digester(&closed), 3)));
    assert_eq!(plant.clone().settle(3, &digester(&closed)), Ok(()));
    assert_eq!(plant.gap(&digester(&proposal)), Ok(Gap { cod: 0, tkn: 0, sin: 0 }));
    assert_eq!(plant.close(&plant.digester), Ok((plant.digester, 0)));
}

/// Checks how a proposal is refused: by this number, and with these gaps where there are any.
fn open(plant: &Plant, proposal: &[(&str, u64)], number: Refusal, gaps: Option<[u64; 3]>) {
    let proposal = digester(proposal);
    assert_eq!(plant.close(&proposal), Err(number), "{proposal:?}");
    let gap = gaps.map(|[cod, tkn, sin]| Gap { cod, tkn, sin }).ok_or(number);
    assert_eq!(plant.gap(&proposal), gap, "{proposal:?}");
}

/// A record or a proposal above a ceiling is refused, also in the columns that are replaced.
#[test]
fn columns_above_are_not_closed() {
    open(&above(), &[], Refusal::RecordAboveCeiling, None);
    let plant = with_digester(&[("ssu", 5), ("sin", 5)]);
    let columns = [("ssu", ABOVE_COD), ("sic", ABOVE_COD), ("sin", ABOVE_TICKS), ("co", ABOVE_COD)];
    for column in columns.into_iter().chain([("cn", ABOVE_TICKS)]) {
        open(&plant, &[column], Refusal::ColumnAboveCeiling, None);
    }
    let at = [("sic", COD_CEILING), ("sin", TICK_CEILING), ("co", COD_CEILING)];
    let closed = digester(&[("sic", COD_CEILING), ("sin", 5)]);
    assert_eq!(plant.close(&digester(&at)), Ok((closed, 5)));
}

/// The sin that closes may reach its ceiling and not pass it.
#[test]
fn sin_at_its_ceiling() {
    let plant = with_digester(&[("xc", 2), ("sin", TICK_CEILING)]);
    open(&plant, &[("xc", 1)], Refusal::ColumnAboveCeiling, Some([0, 0, 280]));
    open(&plant, &[], Refusal::ColumnAboveCeiling, Some([0, 0, 560]));
    let closed = digester(&[("si", 2), ("sin", TICK_CEILING)]);
    assert_eq!(plant.close(&digester(&[("si", 2)])), Ok((closed, 0)));
    let plant = with_digester(&[("xc", 2), ("sin", TICK_CEILING - 279)]);
    open(&plant, &[("xi", 1)], Refusal::ColumnAboveCeiling, Some([0, 0, 1]));
}

/// More COD than the digester has is refused by 7, down to one mg.
#[test]
fn cod_too_much() {
    let plant = with_digester(&[("ssu", 3), ("sfa", 2)]);
    open(&plant, &[("xli", 6)], Refusal::CodOpen, Some([1, 0, 0]));
    assert_eq!(plant.close(&digester(&[("xli", 5)])), Ok((digester(&[("xli", 5)]), 0)));
}

/// More nitrogen than the digester has is refused by 8, down to one tick; sin does not count.
#[test]
fn nitrogen_too_much() {
    let plant = with_digester(&[("ssu", 1), ("sin", 279)]);
    open(&plant, &[("xc", 1)], Refusal::TknDiffers, Some([0, 1, 0]));
    let plant = with_digester(&[("ssu", 1), ("sin", 280)]);
    let closed = digester(&[("xc", 1)]);
    assert_eq!(plant.close(&digester(&[("xc", 1), ("sin", TICK_CEILING)])), Ok((closed, 0)));
}

/// Where several refusals apply the first by number is given; the gaps stand side by side.
#[test]
fn closing_refusals_in_order() {
    open(&above(), &[("ssu", ABOVE_COD)], Refusal::RecordAboveCeiling, None);
    open(&above(), &[("xc", 1)], Refusal::RecordAboveCeiling, None);
    let proposal = [("xc", 1), ("co", ABOVE_COD)];
    open(&Plant::FRESH, &proposal, Refusal::ColumnAboveCeiling, None);
    open(&Plant::FRESH, &[("xc", 3), ("ssu", 2)], Refusal::CodOpen, Some([5, 840, 0]));
    let plant = with_digester(&[("xc", 1), ("sin", TICK_CEILING)]);
    open(&plant, &[("ssu", 4)], Refusal::ColumnAboveCeiling, Some([3, 0, 280]));
}

/// Calls by numbers on a record: what is told where they are accepted, zeros where they are not.
#[test]
fn calls_on_a_record() {
    let mut record = [u64::MAX; 61];
    numbers::fresh(&mut record);
    assert_eq!(record[..52], [0; 52]);
    assert_eq!(record[52..], [880, 880, 280, 280, 980, 875, 8000, 2000, 2500]);
    assert_eq!(numbers::receive(&mut record, &asm1(&[("xba", 3), ("sno", 3501)])), 0);
    let (mut four, mut one, mut v) = ([9; 4], [9], [9; 13]);
    assert_eq!((numbers::feed(&mut record, 1001, &mut four), four), (2, [0; 4]));
    assert_eq!((numbers::feed(&mut record, 1000, &mut four), four), (0, [2, 0, 3501, 0]));
    assert_eq!(Plant::from_columns(&record).digester, digester(&[("xc", 1), ("sin", 2360)]));
    let d = digester(&[("sch4", 1), ("sin", 2640)]);
    assert_eq!(numbers::settle(&mut record, 1, &d), 7);
    assert_eq!(numbers::settle(&mut record, 0, &d), 0);
    assert_eq!((numbers::give_back(&mut record, 0, &mut one), one), (2, [0]));
    assert_eq!((numbers::give_back(&mut record, 1000, &mut one), one), (0, [1]));
    assert_eq!((numbers::totals(&record, &mut four), four), (0, [0, 2640, 0, 0]));
    assert_eq!((numbers::release(&mut record, 0, &mut v), v), (2, [0; 13]));
    let released = asm1(&[("snh", 2640)]);
    assert_eq!((numbers::release(&mut record, 1000, &mut v), v), (0, released));
    assert_eq!(record, Plant::FRESH.columns());
}

/// On a record above a ceiling every call by numbers gives 1 and zeros, and changes nothing.
#[test]
fn calls_on_a_record_above() {
    let mut record = above().columns();
    let (mut four, mut three, mut one, mut v) = ([9; 4], [9; 3], [9], [9; 13]);
    let mut d = digester(&[("ssu", 7)]);
    assert_eq!(numbers::receive(&mut record, &[0; 13]), 1);
    assert_eq!((numbers::feed(&mut record, 0, &mut four), four), (1, [0; 4]));
    assert_eq!(numbers::settle(&mut record, 0, &d), 1);
    assert_eq!((numbers::give_back(&mut record, 0, &mut one), one), (1, [0]));
    assert_eq!((numbers::release(&mut record, 0, &mut v), v), (1, [0; 13]));
    let (mut four, mut one) = ([9; 4], [9]);
    assert_eq!((numbers::totals(&record, &mut four), four), (1, [0; 4]));
    assert_eq!((numbers::close(&record, &mut d, &mut one), one), (1, [0]));
    assert_eq!((numbers::gap(&record, &d, &mut three), three), (1, [0; 3]));
    assert_eq!((record, d), (above().columns(), digester(&[("ssu", 7)])));
}

/// The conversions, `close` and `gap` by numbers: all that they write, accepted and refused.
#[test]
fn vectors_by_numbers() {
    let (mut d, mut v, mut four, mut one) = ([9; 26], [9; 13], [9; 4], [9]);
    assert_eq!(
        numbers::asm_to_adm(&HOUSE.numbers(), &asm1(&[("xi", 10), ("so", 2)]), &mut d, &mut four),
        0
    );
    assert_eq!(d, digester(&[("xi", 8), ("xc", 2), ("sin", 6000), ("co", 2)]));
    assert_eq!(four, [0, 0, 0, 1]);
    assert_eq!(numbers::asm_to_adm(&HOUSE.numbers(), &asm1(&[("si", 1)]), &mut d, &mut four), 4);
    assert_eq!((d, four), ([0; 26], [0; 4]));
    let inert = digester(&[("xi", 1), ("sin", 600), ("sh2", 5)]);
    assert_eq!(numbers::adm_to_asm(&HOUSE.numbers(), &inert, &mut v, &mut one), 0);
    assert_eq!((v, one), (asm1(&[("xi", 1)]), [5]));
    assert_eq!(numbers::adm_to_asm(&HOUSE.numbers(), &digester(&[("xi", 1)]), &mut v, &mut one), 5);
    assert_eq!((v, one), ([0; 13], [0]));
    let record = with_digester(&[("ssu", 5), ("sin", 7), ("cn", 3)]).columns();
    let (mut d, mut three) = (digester(&[("sac", 4), ("sin", 1)]), [9; 3]);
    assert_eq!((numbers::gap(&record, &d, &mut three), three), (0, [0; 3]));
    assert_eq!((numbers::close(&record, &mut d, &mut one), one), (0, [1]));
    assert_eq!(d, digester(&[("sac", 4), ("sin", 7), ("cn", 3)]));
    let mut d = digester(&[("sac", 6), ("xc", 1)]);
    let mut one = [9];
    assert_eq!((numbers::gap(&record, &d, &mut three), three), (0, [2, 273, 0]));
    assert_eq!((numbers::close(&record, &mut d, &mut one), one), (7, [0]));
    assert_eq!(d, digester(&[("sac", 6), ("xc", 1)]));
}

/// Checks what closes: settle accepts it, no column but sin, co and cn is another, no gap is told.
fn check_closed(plant: &Plant, proposal: &Digester, (closed, gas): (Digester, u64)) {
    assert_eq!(plant.clone().settle(gas, &closed), Ok(()));
    for column in 0..digester::SIN {
        assert_eq!(closed[column], proposal[column]);
    }
    assert_eq!(closed[digester::SIC], proposal[digester::SIC]);
    assert_eq!(plant.gap(proposal), Ok(Gap { cod: 0, tkn: 0, sin: 0 }));
}

/// Checks a proposal that does not close by its gaps: the first of them gives the refusal, and
/// settle accepts no gas and no sin of those that come nearest.
fn check_open(plant: &Plant, proposal: &Digester, refusal: Refusal, gap: Gap) {
    let expected = match gap {
        Gap { sin: 1.., .. } => Refusal::ColumnAboveCeiling,
        Gap { cod: 1.., .. } => Refusal::CodOpen,
        Gap { tkn: 1.., .. } => Refusal::TknDiffers,
        _ => panic!("refused by {refusal:?} without a gap: {proposal:?}"),
    };
    assert_eq!(refusal, expected);
    let old = &plant.digester;
    let gas = cod_digester(old).wrapping_sub(cod_digester(proposal)) as u64;
    let bound = plant.figures.tkn_but_sin(proposal);
    let sin = plant.figures.tkn_digester(old).wrapping_sub(bound) as u64;
    let mut nearest = *proposal;
    nearest[digester::CO] = old[digester::CO];
    nearest[digester::CN] = old[digester::CN];
    for sin in [sin, 0, TICK_CEILING] {
        nearest[digester::SIN] = sin;
        for gas in [gas, 0, u64::MAX] {
            assert!(plant.clone().settle(gas, &nearest).is_err(), "{nearest:?}");
        }
    }
}

/// How often each refusal (0 accepted) and each edge was met.
#[derive(Default, Debug)]
struct Met {
    refusals: [u32; 16],
    /// A gap of one count: COD, TKN, sin.
    gaps_of_one: [u32; 3],
    /// What closes just so: no gas, no sin, and sin at its ceiling.
    closed_just: [u32; 3],
}

impl Met {
    /// Closes one proposal, checks what comes of it and counts it.
    fn try_one(&mut self, plant: &Plant, proposal: &Digester) {
        match (plant.close(proposal), plant.gap(proposal)) {
            (Ok((closed, gas)), _) => {
                check_closed(plant, proposal, (closed, gas));
                let sin = closed[digester::SIN];
                let just = [gas == 0, sin == 0, sin == TICK_CEILING];
                just.iter().zip(&mut self.closed_just).for_each(|(&is, n)| *n += u32::from(is));
                self.refusals[0] += 1;
            }
            (Err(refusal), Ok(gap)) => {
                check_open(plant, proposal, refusal, gap);
                let ones = [gap.cod == 1, gap.tkn == 1, gap.sin == 1];
                ones.iter().zip(&mut self.gaps_of_one).for_each(|(&is, n)| *n += u32::from(is));
                self.refusals[refusal as usize] += 1;
            }
            (Err(refusal), Err(other)) => {
                assert_eq!(refusal, other);
                assert!(matches!(refusal as u64, 15 | 1 | 3));
                self.refusals[refusal as usize] += 1;
            }
        }
    }
}

/// Over random records and proposals settle accepts what closes, a proposal closes exactly where
/// no gap is told, and every refusal and edge has been met.
#[test]
fn settle_accepts_what_closes() {
    let mut met = Met::default();
    for number in 0..8000 {
        let mut trial = Trial::new(Random::nth(6, number));
        let mut plant = trial.record();
        let proposal = trial.to_close(&mut plant);
        met.try_one(&plant, &proposal);
    }
    for refusal in [0, 1, 3, 7, 8, 15] {
        assert!(met.refusals[refusal] >= 200, "{met:?}");
    }
    assert_eq!(met.refusals.iter().sum::<u32>(), 8000);
    let edges = met.gaps_of_one.iter().chain(&met.closed_just);
    assert!(edges.min() >= Some(&100), "{met:?}");
}
