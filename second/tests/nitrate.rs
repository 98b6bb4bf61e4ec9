//! Requests E4, E8 and E9 of document 02: three facts of stage 1, with A the COD that could be
//! burnt and o the oxygen reduced. No more than A is burnt. Where sno is at most 3500 × (A - o),
//! the nitrate is covered: all of it is reduced. Where it is more, the nitrate is short: all of A
//! is burnt. By worked numbers, on a grid, and on the vectors of the random trials, where equality
//! has to be met as well.

use second::convert;
use second::figures::{Figures, HOUSE};
use second::plant::{draw, Call};
use second::random::Random;
use second::tables::asm1::*;
use second::tables::*;
use second::trials::Trial;

/// An ASM1 vector with these columns.
fn vector(columns: &[(usize, u64)]) -> Asm1 {
    let mut v = [0; 13];
    columns.iter().for_each(|&(column, number)| v[column] = number);
    v
}

/// What a feed of a vector tells: burnt, oxygen, nitrate and warn.
fn told(v: &Asm1) -> [u64; 4] {
    convert::feed(&HOUSE, v).unwrap().1.numbers()
}

/// What a feed tells of so much COD beside this oxygen, all of which is reduced, and this nitrate.
fn told_beside(oxygen: u64, cod: u64, sno: u64) -> [u64; 4] {
    let (third, rest) = (cod / 3, cod - cod / 3 * 2);
    told(&vector(&[(SS, rest), (XS, third), (XBH, third), (XBA, oxygen), (SO, oxygen), (SNO, sno)]))
}

/// Equality: both are used up. A tick more is carried; up to 3,499 ticks less still take all the
/// COD; with one mg less 3,500 ticks are carried.
#[test]
fn at_equality() {
    for cod in [1, 2, 3, 143, 1000, 1_000_003, 2_857_142_857_142] {
        for oxygen in [0, 1, 3499, 3500, COD_CEILING] {
            let sno = 3500 * cod;
            let all = oxygen + cod;
            assert_eq!(told_beside(oxygen, cod, sno), [all, oxygen, sno, 0]);
            assert_eq!(told_beside(oxygen, cod, sno + 1), [all, oxygen, sno, 1]);
            assert_eq!(told_beside(oxygen, cod, sno - 1), [all, oxygen, sno - 1, 0]);
            assert_eq!(told_beside(oxygen, cod, sno - 3499), [all, oxygen, sno - 3499, 0]);
            assert_eq!(told_beside(oxygen, cod, sno - 3500), [all - 1, oxygen, sno - 3500, 0]);
            assert_eq!(told_beside(oxygen, cod - 1, sno), [all - 1, oxygen, sno - 3500, 1]);
        }
    }
}

/// Where oxygen leaves no COD, all of A is burnt and all the nitrate, if there is any, is carried.
#[test]
fn no_cod_left() {
    for (cod, so) in [(0, 0), (0, 7), (5, 5), (5, 7), (COD_CEILING, COD_CEILING)] {
        let warn = u64::from(so > cod);
        for column in [SS, XS, XBH, XBA] {
            let mut v = vector(&[(column, cod), (SO, so)]);
            assert_eq!(told(&v), [cod, cod, 0, warn]);
            for sno in [1, 3500, TICK_CEILING] {
                v[SNO] = sno;
                assert_eq!(told(&v), [cod, cod, 0, 1]);
            }
        }
    }
}

/// The greatest nitrate is just covered by 10^16 / 3500 rounded up, and not by one less, where
/// 3,000 ticks are carried; all columns at their ceilings cover it.
#[test]
fn at_the_ceilings() {
    let just = 2_857_142_857_143;
    for oxygen in [0, 1, COD_CEILING] {
        let (all, sno) = (oxygen + just, TICK_CEILING);
        assert_eq!(told_beside(oxygen, just, sno), [all, oxygen, sno, 0]);
        assert_eq!(told_beside(oxygen, just + 1, sno), [all, oxygen, sno, 0]);
        assert_eq!(told_beside(oxygen, just - 1, sno), [all - 1, oxygen, sno - 3000, 1]);
        assert_eq!(told_beside(oxygen, just - 1, sno - 3000), [all - 1, oxygen, sno - 3000, 0]);
    }
    let all = COD_CEILING + just;
    assert_eq!(told(&ASM1_CEILINGS), [all, COD_CEILING, TICK_CEILING, 0]);
}

/// How often each case was met: nitrate covered, at equality and short, a tick below and above
/// equality, and no COD left, without nitrate and with it.
#[derive(Default, Debug)]
struct Met {
    covered: u32,
    equal: u32,
    short: u32,
    below: u32,
    above: u32,
    nothing: u32,
    no_cod: u32,
}

impl Met {
    /// Checks the three facts on a vector within its ceilings, and what the feed makes by them, in
    /// whole numbers without a ceiling; counts the vector.
    fn check(&mut self, figures: &Figures, v: &Asm1) {
        let available: u128 = [SS, XS, XBH, XBA].map(|column| u128::from(v[column])).iter().sum();
        let most = 3500 * available.saturating_sub(v[SO].into());
        let nitrate = u128::from(v[SNO]);
        let burn = convert::burn(v);
        assert!(u128::from(burn.burnt) <= available, "{v:?}");
        let fed = convert::feed(figures, v).ok().map(|(out, _)| out);
        if nitrate <= most {
            assert_eq!(burn.nitrate, v[SNO], "{v:?}");
            assert!(fed.is_none_or(|out| out[digester::CN] == 0), "{v:?}");
        } else {
            assert_eq!(u128::from(burn.burnt), available, "{v:?}");
            let inert = u128::from(v[SI] + v[XI] + v[XP]);
            assert!(fed.is_none_or(|out| cod_digester(&out) == inert), "{v:?}");
        }
        self.count(most, nitrate);
    }

    /// Counts a vector by the nitrate that its COD can reduce, and the nitrate that it has.
    fn count(&mut self, most: u128, nitrate: u128) {
        match (most, nitrate) {
            (0, 0) => self.nothing += 1,
            (0, _) => self.no_cod += 1,
            _ if nitrate == most => self.equal += 1,
            _ if nitrate < most => self.covered += 1,
            _ => self.short += 1,
        }
        self.below += u32::from(most > 0 && nitrate + 1 == most);
        self.above += u32::from(most > 0 && nitrate == most + 1);
    }

    /// Checks that each case was met so many times.
    fn at_least(&self, times: u32) {
        let cases = [self.covered, self.equal, self.short, self.below, self.above];
        let rare = cases.into_iter().chain([self.nothing, self.no_cod]).min();
        assert!(rare >= Some(times), "{self:?}");
    }
}

/// COD in one of the four columns or in all, oxygen and nitrate of all sizes up to the ceilings,
/// with nitrate around the edge.
#[test]
fn on_a_grid() {
    let sizes = [0, 1, 2, 3, 7, 143, 3499, 3500, 1_000_001, 143_000_000];
    let sizes = sizes.into_iter().chain([COD_CEILING - 143, COD_CEILING - 1, COD_CEILING]);
    let mut met = Met::default();
    for columns in [&[SS][..], &[XS], &[XBH], &[XBA], &[SS, XS, XBH, XBA]] {
        for (cod, so) in sizes.clone().flat_map(|cod| sizes.clone().map(move |so| (cod, so))) {
            let mut v = vector(&[(SO, so)]);
            columns.iter().for_each(|&column| v[column] = cod);
            let most = 3500 * (cod * columns.len() as u64).saturating_sub(so);
            let around = [most.saturating_sub(1), most, most + 1];
            for sno in around.into_iter().chain([0, 1, TICK_CEILING - 1, TICK_CEILING]) {
                v[SNO] = sno.min(TICK_CEILING);
                met.check(&HOUSE, &v);
            }
        }
    }
    met.at_least(100);
}

/// Over random lists: every vector that a feed draws, and as many vectors to be converted by
/// themselves; each case is met often among both.
#[test]
fn on_random_vectors() {
    let (mut drawn, mut whole) = (Met::default(), Met::default());
    for number in 0..4000 {
        let mut trial = Trial::new(Random::nth(14, number));
        let mut plant = trial.record();
        for _ in 0..100 {
            let call = trial.call(&plant);
            if let (Call::Feed(k @ 1..=1000), Ok(())) = (&call, plant.test_record()) {
                drawn.check(&plant.figures, &draw(&plant.sludge, *k));
                let v = trial.asm1(&plant);
                if within(&v, &ASM1_CEILINGS) {
                    whole.check(&plant.figures, &v);
                }
            }
            let _ = plant.call(&call);
        }
    }
    drawn.at_least(500);
    whole.at_least(500);
}
