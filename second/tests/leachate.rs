//! Request E13 of document 02: where the nitrogen that inerts need is neither in the pool nor in
//! ammonia, amino acids give way to sugars. The example and others by hand: shortages of none and
//! of one tick, of what some amino acids hold and all of them, each with a tick less and more, by
//! the house set, a dairy's and extreme ones; no amino acids; what is left over, placed in
//! composites; the ceilings. On a grid and on random vectors by a rule of its own, beside stage 4
//! as it was before, with the balances, and with refusal 4 exactly where the drawn TKN is less than
//! the inerts need. A list that is worked by hand, and random lists, with their four balances.

mod named;

use named::{asm1, digester, with_digester, with_sludge};
use second::balances::{numbers_in, Balances};
use second::figures::{Figures, HOUSE};
use second::lengths::answer_bytes;
use second::plant::{draw, Call, Plant, Refusal};
use second::random::Random;
use second::tables::*;
use second::trials::amounts::{self, Scale};
use second::trials::figures::{permitted, DAIRY, EXTREMES};
use second::trials::{leachate, Trial};
use second::{convert, lines, numbers, session};

/// A million million, the ceiling of a COD column; and that of a column of ticks.
const COD: u64 = COD_CEILING;
const TICKS: u64 = TICK_CEILING;

/// The greatest figures.
const GREATEST: Figures = EXTREMES[2];

/// The answer to one line on a record, as text.
fn answer(plant: &mut Plant, line: &[u8]) -> String {
    let mut buffer = [0; 512];
    String::from_utf8(lines::answer(plant, line, &mut buffer).to_vec()).unwrap()
}

/// Makes a feed of all of this sludge in every way: as a line, previewed before, by numbers, and as
/// a conversion by itself. All of them give the same; gives the told numbers and the digester, or
/// the refusal.
fn fed_every_way(figures: &Figures, v: &Asm1) -> Result<(Digester, [u64; 4]), u64> {
    let plant = Plant { sludge: *v, ..Plant::fresh(*figures) };
    let (mut record, mut told) = (plant.columns(), [9; 4]);
    let refusal = numbers::feed(&mut record, 1000, &mut told);
    let (mut d, mut alone) = ([9; 26], [9; 4]);
    assert_eq!(numbers::asm_to_adm(&figures.numbers(), v, &mut d, &mut alone), refusal);
    let after = match refusal {
        0 => Plant { digester: d, ..Plant::fresh(*figures) },
        _ => plant,
    };
    assert_eq!((record, told), (after.columns(), alone));
    let [burnt, oxygen, nitrate, warn] = told;
    let expected = match refusal {
        0 => format!("(ok feed burnt {burnt} oxygen {oxygen} nitrate {nitrate} warn {warn})"),
        _ => format!("(no {refusal})"),
    };
    let mut by_line = plant;
    assert_eq!(answer(&mut by_line, b"(preview (feed 1000))"), expected);
    assert_eq!(by_line, plant);
    assert_eq!(answer(&mut by_line, b"(feed 1000)"), expected);
    assert_eq!(by_line, after);
    let mut held = [0; 512];
    let bytes = expected.len() + lines::held(&after, &mut held).len() + 2;
    assert_eq!(answer_bytes(&plant, b"(feed 1000)").bytes, bytes as u64);
    match refusal {
        0 => Ok((d, told)),
        _ => {
            assert_eq!((d, told), ([0; 26], [0; 4]));
            Err(refusal)
        }
    }
}

/// Checks a worked feed by these figures, and its balances of COD and TKN.
fn fed(figures: &Figures, sludge: &[(&str, u64)], told: [u64; 4], expected: &[(&str, u64)]) {
    let v = asm1(sludge);
    let d = digester(expected);
    assert_eq!(fed_every_way(figures, &v), Ok((d, told)), "{sludge:?}");
    assert_eq!(cod_asm1(&v), cod_digester(&d) + u128::from(told[0]));
    assert_eq!(figures.tkn_asm1(&v), figures.tkn_digester(&d));
}

/// Checks that a feed by these figures is refused by 4.
fn refused(figures: &Figures, sludge: &[(&str, u64)]) {
    assert_eq!(fed_every_way(figures, &asm1(sludge)), Err(4), "{sludge:?}");
}

/// The example of the request: 280 of 980 ticks stay with si, the others are ammonia.
#[test]
fn the_example() {
    let sludge = [("si", 1), ("ss", 1), ("snd", 980)];
    fed(&HOUSE, &sludge, [0; 4], &[("si", 1), ("ssu", 1), ("sin", 700)]);
    // By the dairy's set it is 220 of 1120.
    let sludge = [("si", 1), ("ss", 1), ("snd", 1120)];
    fed(&DAIRY, &sludge, [0; 4], &[("si", 1), ("ssu", 1), ("sin", 900)]);
}

/// Three amino acids hold 2940 ticks, eleven si need 3080. With 140 of ammonia all three give way
/// and nothing is left over; with a tick more it is left, and with a tick less they do not suffice.
#[test]
fn all_amino_acids() {
    let sludge = |snh| [("si", 11), ("ss", 5), ("snh", snh), ("snd", 2940)];
    fed(&HOUSE, &sludge(140), [0; 4], &[("si", 11), ("ssu", 5)]);
    fed(&HOUSE, &sludge(141), [0; 4], &[("si", 11), ("ssu", 5), ("sin", 1)]);
    refused(&HOUSE, &sludge(139));
    // The same with the ticks in xnd, and with those that are too few for a fourth in snd.
    let sludge = |snd, xnd| [("si", 11), ("ss", 5), ("snd", snd), ("xnd", xnd)];
    for (snd, xnd) in [(2940, 140), (3000, 80), (3080, 0)] {
        fed(&HOUSE, &sludge(snd, xnd), [0; 4], &[("si", 11), ("ssu", 5)]);
        fed(&HOUSE, &sludge(snd, xnd + 1), [0; 4], &[("si", 11), ("ssu", 5), ("sin", 1)]);
        refused(&HOUSE, &sludge(snd - 1, xnd));
    }
}

/// 280 ticks of ammonia just suffice for one si; where one is missing, a whole mg gives way, and 979
/// are left over.
#[test]
fn a_tick_short() {
    let sludge = |snh| [("si", 1), ("ss", 5), ("snh", snh), ("snd", 3920)];
    fed(&HOUSE, &sludge(281), [0; 4], &[("si", 1), ("saa", 4), ("ssu", 1), ("sin", 1)]);
    fed(&HOUSE, &sludge(280), [0; 4], &[("si", 1), ("saa", 4), ("ssu", 1)]);
    fed(&HOUSE, &sludge(279), [0; 4], &[("si", 1), ("saa", 3), ("ssu", 2), ("sin", 979)]);
    // With a single one, and with the missing tick in snd that no amino acid holds.
    let sludge = |snd| [("si", 1), ("ss", 1), ("snd", snd)];
    fed(&HOUSE, &sludge(1260), [0; 4], &[("si", 1), ("saa", 1)]);
    fed(&HOUSE, &sludge(1259), [0; 4], &[("si", 1), ("ssu", 1), ("sin", 979)]);
}

/// Four amino acids, of which as many give way as the shortage asks for: 980 ticks are one of them,
/// 981 two. Si need 280 × 14 = 3920.
#[test]
fn some_amino_acids() {
    for gave_way in 1..=4 {
        let just = 3920 - 980 * gave_way;
        let sludge = |snh| [("si", 14), ("ss", 4), ("snh", snh), ("snd", 3920)];
        let after =
            |gave_way, sin| [("si", 14), ("saa", 4 - gave_way), ("ssu", gave_way), ("sin", sin)];
        fed(&HOUSE, &sludge(just), [0; 4], &after(gave_way, 0));
        fed(&HOUSE, &sludge(just + 1), [0; 4], &after(gave_way, 1));
        fed(&HOUSE, &sludge(just + 979), [0; 4], &after(gave_way, 979));
        fed(&HOUSE, &sludge(just + 980), [0; 4], &after(gave_way - 1, 0));
        match just.checked_sub(1) {
            Some(less) => fed(&HOUSE, &sludge(less), [0; 4], &after(gave_way + 1, 979)),
            None => refused(&HOUSE, &[("si", 14), ("ss", 4), ("snd", 3919)]),
        }
    }
}

/// Without amino acids it is as before: 4 as soon as pool and ammonia are short. There are none
/// without ss, where all of it is burnt, without snd, and with too little of it.
#[test]
fn no_amino_acids() {
    for none in [&[][..], &[("ss", 9)], &[("snd", 979)], &[("ss", 9), ("snd", 979)]] {
        let more = |last| [none, &[("si", 4), ("snh", 100)], &[("xnd", last)]].concat();
        let snd = none.iter().filter(|(name, _)| *name == "snd").map(|(_, snd)| snd).sum::<u64>();
        let missing = 1120 - 100 - snd;
        let ssu = none.iter().filter(|(name, _)| *name == "ss").map(|(_, ss)| ss).sum();
        fed(&HOUSE, &more(missing), [0; 4], &[("si", 4), ("ssu", ssu)]);
        refused(&HOUSE, &more(missing - 1));
    }
    // Burnt ss becomes none, so that snd is in the pool.
    let burnt = |snd| [("si", 1), ("ss", 5), ("so", 5), ("snd", snd)];
    fed(&HOUSE, &burnt(980), [5, 5, 0, 0], &[("si", 1), ("sin", 700)]);
    refused(&HOUSE, &burnt(279));
}

/// Amino acids are of the ss that stage 1 leaves: 2 mg are burnt by oxygen, 1 by 3500 ticks of
/// nitrate, and 7 are left.
#[test]
fn behind_the_burning() {
    let sludge = [("si", 1), ("ss", 10), ("so", 2), ("sno", 3500), ("snd", 6860), ("salk", 3)];
    let expected = [("si", 1), ("saa", 6), ("ssu", 1), ("sin", 700), ("sic", 3)];
    fed(&HOUSE, &sludge, [3, 2, 3500, 0], &expected);
}

/// What is left over is placed in composites: 700 ticks in at most two of them. Of the others xch is
/// 2000 parts of 4500.
#[test]
fn left_over_in_composites() {
    let sludge = |xs| [("si", 1), ("ss", 1), ("xs", xs), ("snd", 980)];
    let (si, ssu) = (("si", 1), ("ssu", 1));
    fed(&HOUSE, &sludge(1), [0; 4], &[si, ssu, ("xc", 1), ("sin", 420)]);
    fed(&HOUSE, &sludge(2), [0; 4], &[si, ssu, ("xc", 2), ("sin", 140)]);
    fed(&HOUSE, &sludge(3), [0; 4], &[si, ssu, ("xc", 2), ("xli", 1), ("sin", 140)]);
    fed(&HOUSE, &sludge(11), [0; 4], &[si, ssu, ("xc", 2), ("xch", 4), ("xli", 5), ("sin", 140)]);
    // 840 are for three; 560 for two, and 559 for one; 280 for one, and 279 for none.
    let sludge = |xs, snd| [("si", 1), ("ss", 1), ("snh", 140), ("xs", xs), ("snd", snd)];
    fed(&HOUSE, &sludge(9, 980), [0; 4], &[si, ssu, ("xc", 3), ("xch", 2), ("xli", 4)]);
    let si = ("si", 2);
    let sludge = |snh| [si, ("ss", 1), ("xs", 3), ("snh", snh), ("snd", 980)];
    fed(&HOUSE, &sludge(140), [0; 4], &[si, ssu, ("xc", 2), ("xli", 1)]);
    fed(&HOUSE, &sludge(139), [0; 4], &[si, ssu, ("xc", 1), ("xli", 2), ("sin", 279)]);
    let sludge = |snh| [("si", 3), ("ss", 1), ("xs", 1), ("snh", snh), ("snd", 980)];
    fed(&HOUSE, &sludge(140), [0; 4], &[("si", 3), ssu, ("xc", 1)]);
    fed(&HOUSE, &sludge(139), [0; 4], &[("si", 3), ssu, ("xli", 1), ("sin", 279)]);
}

/// With particulate inerts: the pool is 10 × 880, si and xi need (50 + 8) × 280 = 16240, and 7440
/// are short. Eight of ten amino acids hold 7840; 400 are left over for one of two composites.
#[test]
fn particulate_inerts() {
    let sludge = [("si", 50), ("ss", 10), ("xi", 4), ("xp", 6), ("snd", 9800)];
    let soluble = [("si", 50), ("ssu", 8), ("saa", 2)];
    let others = [("xi", 8), ("xc", 1), ("xli", 1), ("sin", 120)];
    fed(&HOUSE, &sludge, [0; 4], &[&soluble[..], &others].concat());
}

/// Where a mg of amino acids holds one tick, as many give way as ticks are short.
#[test]
fn one_tick_a_mg() {
    let figures = Figures { ni: 3, naa: 1, nxc: 1, ..HOUSE };
    let sludge = |si, snh| [("si", si), ("ss", 9), ("xs", 2), ("snh", snh), ("snd", 7)];
    let after = |si, saa| [("si", si), ("saa", saa), ("ssu", 9 - saa), ("xli", 2)];
    fed(&figures, &sludge(0, 0), [0; 4], &[("saa", 7), ("ssu", 2), ("xli", 2)]);
    fed(&figures, &sludge(1, 2), [0; 4], &after(1, 6));
    fed(&figures, &sludge(1, 0), [0; 4], &after(1, 4));
    fed(&figures, &sludge(2, 0), [0; 4], &after(2, 1));
    fed(&figures, &sludge(3, 2), [0; 4], &after(3, 0));
    refused(&figures, &sludge(3, 1));
}

/// Where a mg holds 10000 ticks and one is short, 9999 are left over: composites of one tick each
/// take them all, or a part of them, or are fewer.
#[test]
fn ten_thousand_ticks_a_mg() {
    let figures = Figures { ni: 1, naa: 10_000, nxc: 1, ..HOUSE };
    let sludge = |xs| [("si", 1), ("ss", 2), ("xs", xs), ("snd", 20_000)];
    let after =
        |xc, xli, sin| [("si", 1), ("saa", 1), ("ssu", 1), ("xc", xc), ("xli", xli), ("sin", sin)];
    fed(&figures, &sludge(0), [0; 4], &after(0, 0, 9999));
    fed(&figures, &sludge(9998), [0; 4], &after(9998, 0, 1));
    fed(&figures, &sludge(9999), [0; 4], &after(9999, 0, 0));
    fed(&figures, &sludge(10_000), [0; 4], &after(9999, 1, 0));
    let figures = Figures { ni: 10_000, ..figures };
    let sludge = |snh| [("si", 2), ("ss", 2), ("snh", snh), ("snd", 20_000)];
    fed(&figures, &sludge(0), [0; 4], &[("si", 2), ("ssu", 2)]);
    fed(&figures, &sludge(9999), [0; 4], &[("si", 2), ("ssu", 2), ("sin", 9999)]);
    fed(&figures, &sludge(10_000), [0; 4], &[("si", 2), ("saa", 1), ("ssu", 1)]);
    refused(&figures, &[("si", 2), ("ss", 2), ("snd", 19_999)]);
}

/// Inerts without nitrogen are never short of it.
#[test]
fn inerts_without_nitrogen() {
    let figures = Figures { ni: 0, ..HOUSE };
    let sludge = [("si", COD), ("ss", 1), ("snd", 980)];
    fed(&figures, &sludge, [0; 4], &[("si", COD), ("saa", 1)]);
}

/// The greatest columns by the greatest figures: 10^12 mg of amino acids hold 10^16 ticks, and as
/// many si need just these; a tick less is too little, wherever it is taken.
#[test]
fn at_the_ceilings() {
    let sludge = |snh, snd| [("si", COD), ("ss", COD), ("snh", snh), ("snd", snd)];
    fed(&GREATEST, &sludge(0, TICKS), [0; 4], &[("si", COD), ("ssu", COD)]);
    let left_over = [("si", COD), ("saa", 1), ("ssu", COD - 1)];
    fed(&GREATEST, &sludge(10_000, TICKS), [0; 4], &left_over);
    let left_over = [("si", COD), ("ssu", COD), ("sin", 9999)];
    fed(&GREATEST, &sludge(9999, TICKS), [0; 4], &left_over);
    refused(&GREATEST, &sludge(0, TICKS - 1));
    fed(&GREATEST, &sludge(1, TICKS - 1), [0; 4], &[("si", COD), ("ssu", COD)]);
    refused(&GREATEST, &sludge(0, TICKS - 10_000));
    fed(&GREATEST, &sludge(10_000, TICKS - 10_000), [0; 4], &[("si", COD), ("ssu", COD)]);
}

/// The greatest need, 3 × 10^16 of full si, xi and xp, with all of it in the amino acids of one
/// column and two full columns of the pool; and a tick less.
#[test]
fn the_greatest_need() {
    let figures = Figures { ixe: 0, ..GREATEST };
    let sludge = |xnd| {
        let cod = [("si", COD), ("ss", COD), ("xi", COD), ("xp", COD)];
        [&cod[..], &[("snh", TICKS), ("snd", TICKS), ("xnd", xnd)]].concat()
    };
    let expected = [("si", COD), ("ssu", COD), ("xi", 2 * COD)];
    let v = asm1(&sludge(TICKS));
    let (d, told) = convert::asm_to_adm(&figures, &v).unwrap();
    assert_eq!((d, told.numbers()), (digester(&expected), [0; 4]));
    assert_eq!(figures.tkn_asm1(&v), figures.tkn_digester(&d));
    // On a record the digester's xi passes its ceiling.
    let mut plant = Plant { sludge: v, ..Plant::fresh(figures) };
    assert_eq!(plant.feed(1000), Err(Refusal::DestinationAboveCeiling));
    refused(&figures, &sludge(TICKS - 1));
}

/// The tank that ssu rises in may reach its ceiling and not pass it; saa that gave way needs no
/// room. Refusal 4 comes before 10.
#[test]
fn destinations_at_their_ceiling() {
    let Plant { sludge, .. } = with_sludge(&[("si", 1), ("ss", 1), ("snd", 980)]);
    let with = |named: &[(&str, u64)]| Plant { sludge, ..with_digester(named) };
    assert!(with(&[("ssu", COD - 1)]).feed(1000).is_ok());
    assert_eq!(with(&[("ssu", COD)]).feed(1000), Err(Refusal::DestinationAboveCeiling));
    let mut plant = with(&[("saa", COD), ("sin", TICKS - 700)]);
    assert!(plant.feed(1000).is_ok());
    let full = digester(&[("si", 1), ("ssu", 1), ("saa", COD), ("sin", TICKS)]);
    assert_eq!(plant, Plant { digester: full, ..Plant::FRESH });
    assert_eq!(with(&[("sin", TICKS - 699)]).feed(1000), Err(Refusal::DestinationAboveCeiling));
    let mut short = with(&[("ssu", COD)]);
    short.sludge[asm1::SI] = 4;
    assert_eq!(short.feed(1000), Err(Refusal::FeedNitrogenShort));
    assert_eq!(short.feed(0), Err(Refusal::ThousandthsOutOfRange));
}

/// It is the drawn vector that is short or not. All of 14 si need the 3920 ticks that stand beside
/// them, and the half of it has 1959 for 1960. All of 11 si lack a tick, and of the half 5 si need
/// 1400, of which one amino acid, 490 in the pool and 69 of ammonia leave 139.
#[test]
fn drawn_by_thousandths() {
    let fed = |sludge: &[(&str, u64)], k| {
        let mut plant = with_sludge(sludge);
        plant.feed(k).map(|_| plant.digester)
    };
    let whole = [("si", 14), ("ss", 4), ("snh", 1), ("snd", 3919)];
    assert_eq!(fed(&whole, 1000), Ok(digester(&[("si", 14), ("ssu", 4)])));
    assert_eq!(fed(&whole, 500), Err(Refusal::FeedNitrogenShort));
    let half = [("si", 11), ("ss", 4), ("snh", 139), ("snd", 2940)];
    assert_eq!(fed(&half, 1000), Err(Refusal::FeedNitrogenShort));
    assert_eq!(fed(&half, 500), Ok(digester(&[("si", 5), ("ssu", 2), ("sin", 139)])));
}

/// Columns and told numbers, in whole numbers without a ceiling.
type Wide = (Vec<u128>, [u128; 4]);

/// A conversion's result in whole numbers without a ceiling, or none where it is refused by 4.
fn converted(figures: &Figures, v: &Asm1) -> Option<Wide> {
    match convert::asm_to_adm(figures, v) {
        Ok((d, told)) => Some((d.map(u128::from).to_vec(), told.numbers().map(u128::from))),
        Err(refusal) => {
            assert_eq!(refusal, Refusal::FeedNitrogenShort);
            None
        }
    }
}

/// Stages 1 and 2 of a vector, and the inerts of stage 4: what is burnt and reduced, what is left of
/// the four columns that burn, the amino acids, and the inerts that stay inert.
struct Stages {
    told: [u128; 4],
    left: [u128; 4],
    saa: u128,
    xi: u128,
}

/// Stages 1 and 2 as document 01 and E9 have them, and xi.
fn stages(figures: &Figures, v: &Asm1) -> Stages {
    let [naa, fxi] = [figures.naa, figures.fxi].map(u128::from);
    let [_, ss, xi, xs, xbh, xba, xp, so, sno, _, snd, ..] = v.map(u128::from);
    let a = ss + xs + xbh + xba;
    let o = so.min(a);
    let r = sno.min(3500 * (a - o));
    let burnt = o + r.div_ceil(3500);
    let mut left = [ss, xs, xbh, xba];
    let mut before = 0;
    for column in &mut left {
        let all = *column;
        *column = all - burnt.saturating_sub(before).min(all);
        before += all;
    }
    let warn = u128::from(so > o || sno > r);
    let saa = left[0].min(snd / naa);
    Stages { told: [burnt, o, r, warn], left, saa, xi: fxi * (xi + xp) / 10_000 }
}

/// Stage 5, and the columns that go over: a digester vector by its amino acids and by the nitrogen
/// that is left of the pool and of ammonia.
fn placed(figures: &Figures, v: &Asm1, stages: &Stages, saa: u128, left: [u128; 2]) -> Wide {
    let [nxc, fch, fli] = [figures.nxc, figures.fch, figures.fli].map(u128::from);
    let [si, _, xi, _, _, _, xp, so, sno, _, _, _, salk] = v.map(u128::from);
    let [_, o, r, _] = stages.told;
    let [pool, ammonia] = left;
    let rest = stages.left[1..].iter().sum::<u128>() + xi + xp - stages.xi;
    let xc = rest.min(pool / nxc);
    let xch = fch * (rest - xc) / (fch + fli);
    let mut d = vec![0; 26];
    (d[0], d[1], d[2], d[10]) = (si, stages.left[0] - saa, saa, stages.xi);
    (d[11], d[12], d[14]) = (xc, xch, rest - xc - xch);
    (d[22], d[23], d[24], d[25]) = (ammonia + pool - nxc * xc, salk, so - o, sno - r);
    (d, stages.told)
}

/// The feed as it was before E13, stage 4 from document 01 by its words: the need is taken from the
/// pool, then from snh, and 4 is given exactly when it is more than both.
fn former(figures: &Figures, v: &Asm1) -> Option<Wide> {
    let stages = stages(figures, v);
    let [ixb, ixe, ni, naa] = [figures.ixb, figures.ixe, figures.ni, figures.naa].map(u128::from);
    let [si, _, xi, _, xbh, xba, xp, _, _, snh, snd, xnd, _] = v.map(u128::from);
    let p = snd - naa * stages.saa + xnd + ixb * (xbh + xba) + ixe * (xi + xp);
    let q = ni * (si + stages.xi);
    if q > p + snh {
        return None;
    }
    let pool_left = p.saturating_sub(q);
    let ammonia_left = snh - q.saturating_sub(p);
    Some(placed(figures, v, &stages, stages.saa, [pool_left, ammonia_left]))
}

/// The feed since E13, by a rule of its own. What TKN the inerts do not need is spare; 4 where the
/// drawn TKN is less. The most amino acids that stage 2 makes and the spare TKN holds stay; where
/// that is fewer than stage 2 makes, the rest of the spare TKN is the pool, and no ammonia is left.
fn by_spare_nitrogen(figures: &Figures, v: &Asm1) -> Option<Wide> {
    let stages = stages(figures, v);
    let [ni, naa] = [figures.ni, figures.naa].map(u128::from);
    let need = ni * (u128::from(v[asm1::SI]) + stages.xi);
    let spare = figures.tkn_asm1(v).checked_sub(need)?;
    if spare < naa * stages.saa {
        return Some(placed(figures, v, &stages, spare / naa, [spare % naa, 0]));
    }
    let free = spare - naa * stages.saa;
    let ammonia = free.min(v[asm1::SNH].into());
    Some(placed(figures, v, &stages, stages.saa, [free - ammonia, ammonia]))
}

/// What refusal 4 says of a refused vector: each digester vector with its si and xi, these random
/// ones too, has more TKN than it.
fn no_digester_vector_has_its_nitrogen(random: &mut Random, figures: &Figures, v: &Asm1) {
    let tkn = figures.tkn_asm1(v);
    let mut d = [0; 26];
    d[digester::SI] = v[asm1::SI];
    d[digester::XI] = stages(figures, v).xi as u64;
    for _ in 0..3 {
        assert!(figures.tkn_digester(&d) > tkn, "{figures:?} {v:?}");
        let scale = Scale::any(random, *figures);
        let other = amounts::digester(random, &scale);
        (0..26).filter(|at| ![0, 10].contains(at)).for_each(|column| d[column] = other[column]);
    }
}

/// How often a vector was accepted as before, amino acids gave way, and it was refused; and of those
/// that gave way how often all did, one tick was short, none was left over, it was placed in
/// composites, and composites took all of it.
#[derive(Default, Debug)]
struct Met {
    as_before: u32,
    gave_way: u32,
    refused: u32,
    all: u32,
    a_tick: u32,
    nothing_left: u32,
    composites: u32,
    all_in_composites: u32,
    /// Pool and ammonia just suffice beside amino acids; a tick too little with all of them.
    just_enough: u32,
    just_refused: u32,
}

impl Met {
    /// Checks the conversion of a vector by both rules, and counts it.
    fn check(&mut self, random: &mut Random, figures: &Figures, v: &Asm1) {
        let now = converted(figures, v);
        let before = former(figures, v);
        assert_eq!(now, by_spare_nitrogen(figures, v), "{figures:?} {v:?}");
        let stages = stages(figures, v);
        let need = u128::from(figures.ni) * (u128::from(v[asm1::SI]) + stages.xi);
        let tkn = figures.tkn_asm1(v);
        assert_eq!(now.is_none(), need > tkn, "{figures:?} {v:?}");
        let acids = u128::from(figures.naa) * stages.saa;
        let gives_way = leachate::gives_way(figures, v);
        match (&now, &before) {
            (Some(now), Some(former)) => {
                assert_eq!(now, former, "{figures:?} {v:?}");
                self.as_before += 1;
                self.just_enough += u32::from(need > 0 && acids > 0 && need + acids == tkn);
            }
            (Some(now), None) => self.count_given(figures, v, &stages, now, need + acids - tkn),
            (None, None) => {
                no_digester_vector_has_its_nitrogen(random, figures, v);
                self.refused += 1;
                self.just_refused += u32::from(acids > 0 && need == tkn + 1);
            }
            (None, Some(_)) => panic!("4 is new for {figures:?} {v:?}"),
        }
        assert_eq!(gives_way, now.is_some() && before.is_none());
        if now.is_some() {
            check_balances(figures, v);
        }
    }

    /// Checks a vector whose amino acids gave way by the words of the request, and counts it.
    fn count_given(
        &mut self,
        figures: &Figures,
        v: &Asm1,
        stages: &Stages,
        (d, told): &Wide,
        short: u128,
    ) {
        let (naa, nxc) = (u128::from(figures.naa), u128::from(figures.nxc));
        let falls = short.div_ceil(naa);
        assert_eq!(d[2], stages.saa - falls, "{figures:?} {v:?}");
        assert_eq!(d[1], stages.left[0] - stages.saa + falls);
        let pool = naa * falls - short;
        assert!(pool < naa && d[22] + nxc * d[11] == pool);
        // Amino acids are left by the burning only where nothing is carried.
        assert_eq!((d[24], d[25], told[3]), (0, 0, 0));
        self.gave_way += 1;
        self.all += u32::from(falls == stages.saa);
        self.a_tick += u32::from(short == 1);
        self.nothing_left += u32::from(pool == 0);
        self.composites += u32::from(d[11] > 0);
        self.all_in_composites += u32::from(d[11] > 0 && d[22] == 0);
    }

    /// Asks that each was met so often.
    fn ask(&self, often: u32) {
        let accepted = [self.as_before, self.gave_way, self.refused, self.all, self.a_tick];
        let left = [self.nothing_left, self.composites, self.all_in_composites];
        let just = [self.just_enough, self.just_refused];
        let rare = accepted.iter().chain(&left).chain(&just).min();
        assert!(rare >= Some(&often), "{self:?}");
    }
}

/// Checks COD and TKN of a conversion, its result as counts of any size.
fn check_balances(figures: &Figures, v: &Asm1) {
    let (d, told) = convert::asm_to_adm(figures, v).unwrap();
    assert_eq!(cod_asm1(v), cod_digester(&d) + u128::from(told.burnt), "{figures:?} {v:?}");
    assert_eq!(figures.tkn_asm1(v), figures.tkn_digester(&d), "{figures:?} {v:?}");
    assert_eq!(v[asm1::SI], d[digester::SI]);
    assert_eq!([v[asm1::SO], v[asm1::SNO]], [told.oxygen + d[24], told.nitrate + d[25]]);
}

/// All vectors of a few mg and ticks, by all figures of a few ticks.
#[test]
fn on_a_grid() {
    let (mut met, mut random) = (Met::default(), Random::new(60));
    let sizes = [4, 4, 2, 2, 2, 3, 5, 2];
    for number in 0..3 * 4 * 2 * 2 * 2_u64 {
        let [naa, ni, nxc, ixe, fxi] = digits(number, [3, 4, 2, 2, 2]);
        let (naa, nxc, fxi) = (naa + 1, nxc + 1, fxi * 10_000);
        let figures = Figures { naa, ni, nxc, ixe, fxi, ..HOUSE };
        for number in 0..sizes.iter().product() {
            let [si, ss, xi, xs, so, snh, snd, xnd] = digits(number, sizes);
            let v = [si, ss, xi, xs, 0, 0, 0, so, 0, snh, snd, xnd, 1];
            met.check(&mut random, &figures, &v);
        }
    }
    met.ask(1000);
}

/// A number in places of these sizes.
fn digits<const W: usize>(mut number: u64, sizes: [u64; W]) -> [u64; W] {
    sizes.map(|size| {
        let digit = number % size;
        number /= size;
        digit
    })
}

/// Random vectors that are short of nitrogen, nearly so or not at all, by random permitted sets: a
/// vector that was accepted before is converted as before, and another one by the request's words.
#[test]
fn random_vectors() {
    let mut met = Met::default();
    for number in 0..40_000 {
        let mut random = Random::nth(61, number);
        let figures = permitted(&mut random);
        let scale = Scale::any(&mut random, figures);
        let v = leachate::receive(&mut random, &scale, &[0; 13]);
        met.check(&mut random, &figures, &v);
        let any = amounts::lowered(&amounts::asm1(&mut random, &scale), &ASM1_CEILINGS);
        met.check(&mut random, &figures, &any);
    }
    met.ask(400);
}

/// The house set by itself, with the vectors that the trials convert; those of all sizes are met.
#[test]
fn random_vectors_of_the_house_set() {
    let mut met = Met::default();
    for number in 0..20_000 {
        let mut trial = Trial::new(Random::nth(62, number));
        let plant = Plant { figures: HOUSE, ..trial.record() };
        for v in [trial.asm1(&plant), trial.asm1(&plant)] {
            if within(&v, &ASM1_CEILINGS) {
                met.check(&mut trial.random, &HOUSE, &v);
            }
        }
    }
    met.ask(100);
}

/// Leachate that is fed, in part and as a whole, returned, recycled and fed again, each line with
/// its answer.
///
/// The first feed: 5 saa hold 4900, 15 si need 4200 and snh has 100. All 5 give way: 800 are left,
/// of them 560 for two of 3 mg. The second: 2 saa, 490 of snd are in the pool, 7 si need 1960, and
/// 1420 are short; 540 are left, 280 of them for the 1 mg. The third: 8 si need 2240, 1700 are
/// short, and 260 are left, too few for a composite. The fourth has nothing to feed.
///
/// 9 si with 1540 of ammonia need one amino acid just so, and with a tick less it is too little
/// until a tick is received.
///
/// The return: xnd 3 × 280, snd 48 × 280, snh 760. When that is fed, 12 saa hold 11760, the pool
/// 1680 + 840, and of 13440 there are 10160 short. 11 give way; of 620 left over 560 are for two of
/// 6 mg, and xch is 2000 × 4 / 4500. The settle turns 4 of ssu to gas; the last return has 2 × 280
/// in xnd and 980 + 13440 in snd.
const LIST: [(&str, &str); 18] = [
    ("(receive (si 30) (ss 10) (xs 6) (snh 200) (snd 9800) (salk 3))", "(ok receive)"),
    ("(preview (feed 500))", "(ok feed burnt 0 oxygen 0 nitrate 0 warn 0)"),
    ("(feed 500)", "(ok feed burnt 0 oxygen 0 nitrate 0 warn 0)"),
    ("(feed 500)", "(ok feed burnt 0 oxygen 0 nitrate 0 warn 0)"),
    ("(feed 1000)", "(ok feed burnt 0 oxygen 0 nitrate 0 warn 0)"),
    ("(feed 1000)", "(ok feed burnt 0 oxygen 0 nitrate 0 warn 0)"),
    ("(receive (si 9) (ss 1) (snh 1540) (snd 980))", "(ok receive)"),
    ("(feed 1000)", "(ok feed burnt 0 oxygen 0 nitrate 0 warn 0)"),
    ("(receive (si 9) (ss 1) (snh 1539) (snd 980))", "(ok receive)"),
    ("(feed 1000)", "(no 4)"),
    ("(receive (snh 1))", "(ok receive)"),
    ("(feed 1000)", "(ok feed burnt 0 oxygen 0 nitrate 0 warn 0)"),
    ("(return 1000)", "(ok return stripped 0)"),
    ("(recycle 1000)", "(ok recycle)"),
    ("(feed 1000)", "(ok feed burnt 0 oxygen 0 nitrate 0 warn 0)"),
    ("(settle 4 (si 48) (ssu 7) (saa 1) (xc 2) (xch 1) (xli 3) (sin 60))", "(ok settle)"),
    ("(return 1000)", "(ok return stripped 0)"),
    (
        "(release 500)",
        "(ok release (si 24) (ss 4) (xi 0) (xs 3) (xbh 0) (xba 0) (xp 0) (so 0) (sno 0) \
        (snh 30) (snd 7210) (xnd 280) (salk 0))",
    ),
];

/// What is held after it.
const LIST_HELD: &str = "(held cod 31 tkn 7520 oxygen 0 nitrate 0)";

/// The digester behind some of its lines, by their place: after the three feeds, after the two that
/// need all amino acids, and after the one of what was recycled.
const LIST_DIGESTERS: [(usize, &[(&str, u64)]); 6] = [
    (2, &[("si", 15), ("ssu", 5), ("xc", 2), ("xli", 1), ("sin", 240), ("sic", 1)]),
    (3, &[("si", 22), ("ssu", 7), ("xc", 3), ("xli", 1), ("sin", 500), ("sic", 2)]),
    (5, &[("si", 30), ("ssu", 10), ("xc", 3), ("xli", 3), ("sin", 760), ("sic", 3)]),
    (7, &[("si", 39), ("ssu", 11), ("xc", 3), ("xli", 3), ("sin", 760), ("sic", 3)]),
    (11, &[("si", 48), ("ssu", 12), ("xc", 3), ("xli", 3), ("sin", 760), ("sic", 3)]),
    (
        14,
        &[
            ("si", 48),
            ("ssu", 11),
            ("saa", 1),
            ("xc", 2),
            ("xch", 1),
            ("xli", 3),
            ("sin", 60),
            ("sic", 3),
        ],
    ),
];

/// Its answers by hand, how long they are told to be, its digesters, and its balances. COD: received
/// 46 + 10 + 10, gas 4, released 31. TKN: received 10000 + 2520 + 2519 + 1, released 7520.
#[test]
fn a_list_of_leachate() {
    let input: String = LIST.iter().map(|(line, _)| format!("{line}\n")).collect();
    let answers: String = LIST.iter().map(|(_, answer)| format!("{answer}\n")).collect();
    let mut printed = Vec::new();
    session::run(&mut input.as_bytes(), &mut printed).unwrap();
    assert_eq!(answer_bytes(&Plant::FRESH, input.as_bytes()).bytes, printed.len() as u64);
    assert_eq!(String::from_utf8(printed).unwrap(), format!("{answers}{LIST_HELD}\n"));
    let (mut plant, mut balances) = (Plant::FRESH, Balances::default());
    for (place, (line, expected)) in LIST.iter().enumerate() {
        assert_eq!(answer(&mut plant, line.as_bytes()), *expected);
        balances.count_line(line.as_bytes(), expected.as_bytes());
        assert_eq!(balances.check(plant.held().unwrap().numbers()), Ok(()));
        if let Some((_, named)) = LIST_DIGESTERS.iter().find(|(at, _)| *at == place) {
            assert_eq!(plant.digester, digester(named), "{line}");
        }
    }
    assert_eq!(balances.received, [66, 15040, 0, 0]);
    assert_eq!(balances.left, [35, 7520, 0, 0]);
    let held: [u64; 4] = numbers_in(LIST_HELD.as_bytes()).try_into().unwrap();
    assert_eq!(balances.check(held), Ok(()));
}

/// Random lists from records of every kind: each feed in which amino acids give way is converted by
/// the rule and leaves the four balances closed right behind it, and so does the list.
#[test]
fn random_lists_balance() {
    let (mut gave_way, mut lists, mut met) = (0, 0, Met::default());
    for number in 0..1500 {
        let mut trial = Trial::new(Random::nth(63, number));
        let mut plant = trial.record();
        let (start, before) = (Balances::on(&plant), gave_way);
        let mut balances = start;
        for _ in 0..120 {
            let (tanks, line) = (plant, trial.line(&plant));
            let answer = answer(&mut plant, &line);
            balances.count_line(&line, answer.as_bytes());
            let Some(lines::Asked::Call(Call::Feed(k))) = lines::read(&line) else { continue };
            if leachate::gives_way_in_feed(&tanks, k) && answer.starts_with("(ok ") {
                met.check(&mut trial.random, &tanks.figures, &draw(&tanks.sludge, k));
                assert_eq!(balances.check(plant.held().unwrap().numbers()), Ok(()));
                gave_way += 1;
            }
        }
        lists += u32::from(gave_way > before);
        match plant.held() {
            Ok(held) => assert_eq!(balances.check(held.numbers()), Ok(())),
            Err(_) => assert_eq!(balances, start),
        }
    }
    assert_eq!(met.gave_way, gave_way);
    assert!(gave_way > 1000 && lists > 500, "{gave_way} {lists}");
    let rare = [met.all, met.a_tick, met.nothing_left, met.composites, met.all_in_composites];
    assert!(rare.iter().all(|&count| count > 50), "{met:?}");
}
