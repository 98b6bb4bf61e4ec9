//! The side-stream reactor: what its host hands back, vectors with nitrite of every size, also
//! above its ceiling; water that was drawn and then treated; and sludge tanks that it just fits,
//! passes by one, or passes by its nitrite alone.

use super::amounts::{self, Scale};
use super::sheets;
use crate::plant::Plant;
use crate::random::Random;
use crate::reactor::{shares, with_nitrate, NITRITE_CEILING};
use crate::tables::*;

/// What the host hands back: a vector, and ticks of nitrite.
pub type Back = (Asm1, u64);

/// Ticks of nitrite: none, few, of a scale, near a multiple of five, near the ceiling or above it.
pub fn nitrite(random: &mut Random, scale: &Scale) -> u64 {
    match random.below(12) {
        0 => 0,
        1 | 2 => random.below(20),
        3 | 4 => (5 * random.sized(scale.ticks / 5) + random.below(3)).saturating_sub(1),
        5 => NITRITE_CEILING - random.below(6),
        6 if random.percent(60) => amounts::above(random, NITRITE_CEILING),
        _ => random.sized(scale.ticks),
    }
}

/// What the host hands back: any vector of a scale with any nitrite.
pub fn back(random: &mut Random, scale: &Scale) -> Back {
    (amounts::asm1(random, scale), nitrite(random, scale))
}

/// The same, not turned away for itself.
pub fn fair(random: &mut Random, scale: &Scale) -> Back {
    let (v, nitrite) = back(random, scale);
    (amounts::lowered(&v, &ASM1_CEILINGS), nitrite.min(NITRITE_CEILING))
}

/// What becomes of water that was drawn: some of its ammonia is nitrite, and some of that was
/// nitrate already; some of its COD is gone.
pub fn treated(random: &mut Random, drawn: &Asm1) -> Back {
    let mut v = *drawn;
    let nitrite = random.below(v[asm1::SNH] + 1);
    v[asm1::SNH] -= nitrite;
    let nitrate = random.sized(nitrite);
    v[asm1::SNO] += nitrate;
    v[asm1::SS] -= random.sized(v[asm1::SS]);
    (v, nitrite - nitrate)
}

/// Fills a sludge tank for what is handed back: it just fits, or passes a column by one; half the
/// times nitrate just fits, or nitrite alone brings it past its ceiling.
pub fn fill(random: &mut Random, sludge: &mut Asm1, (v, nitrite): &mut Back) {
    let (nitrate, _) = shares(*nitrite);
    v[asm1::SNO] = v[asm1::SNO].min(TICK_CEILING - nitrate);
    sheets::fill(random, sludge, &with_nitrate(v, nitrate));
    if random.percent(50) {
        let room = TICK_CEILING - v[asm1::SNO];
        let off = random.one_of(&[0, 1, 2, 1 + nitrate / 2, nitrate]);
        sludge[asm1::SNO] = (room - nitrate + off).min(room);
    }
}

/// A vector to receive so that what is handed back then just fits the sludge's nitrate, passes its
/// ceiling by one, or passes it by its nitrite alone; both are within their ceilings.
pub fn receive_before(random: &mut Random, sludge: &Asm1, (back, nitrite): &Back) -> Asm1 {
    let (nitrate, _) = shares(*nitrite);
    let off = random.one_of(&[0, 1, nitrate]);
    let mut v = [0; 13];
    v[asm1::SNO] =
        (TICK_CEILING + off).saturating_sub(sludge[asm1::SNO] + back[asm1::SNO] + nitrate);
    v
}

/// What is handed back, not turned away for itself, and this record with a sludge tank that it
/// just fits or passes.
pub fn at_the_ceilings(random: &mut Random, scale: &Scale, plant: &Plant) -> (Back, Plant) {
    let (mut back, mut plant) = (fair(random, scale), *plant);
    fill(random, &mut plant.sludge, &mut back);
    (back, plant)
}

#[cfg(test)]
mod tests {
    use super::*;
    use crate::figures::HOUSE;
    use crate::plant::Refusal;

    /// Random nitrite has all that matters among it: none, each rest by five, the ceiling, what is
    /// just above it and far above.
    #[test]
    fn nitrite_of_every_kind() {
        let (mut random, mut rests, mut met) = (Random::new(37), [0; 5], [0; 5]);
        for _ in 0..20_000 {
            let scale = Scale::any(&mut random, HOUSE);
            let nitrite = nitrite(&mut random, &scale);
            rests[(nitrite % 5) as usize] += 1;
            let kinds = [0..=0, 1..=9, NITRITE_CEILING..=NITRITE_CEILING];
            let above = [NITRITE_CEILING + 1..=NITRITE_CEILING + 1, NITRITE_CEILING + 2..=u64::MAX];
            for (kind, count) in kinds.iter().chain(&above).zip(&mut met) {
                *count += u32::from(kind.contains(&nitrite));
            }
        }
        assert!(rests.iter().all(|&count| count > 1000), "{rests:?}");
        assert!(met.iter().all(|&count| count > 200), "{met:?}");
    }

    /// Treated water has the nitrogen that it had before, and often nitrite.
    #[test]
    fn treated_water() {
        let (mut random, mut with_nitrite) = (Random::new(38), 0);
        for _ in 0..5000 {
            let scale = Scale::any(&mut random, HOUSE);
            let (drawn, _) = fair(&mut random, &scale);
            let (v, nitrite) = treated(&mut random, &drawn);
            let all = |v: &Asm1| u128::from(v[asm1::SNO]) + u128::from(v[asm1::SNH]);
            assert_eq!(all(&v) + u128::from(nitrite), all(&drawn));
            with_nitrite += u32::from(nitrite > 0);
        }
        assert!(with_nitrite > 1500, "{with_nitrite}");
    }

    /// Filled tanks have no column above its ceiling, and take what is handed back or refuse it by
    /// 10; often it is nitrite alone that passes the ceiling.
    #[test]
    fn filled_tanks() {
        let (mut random, mut answers, mut alone) = (Random::new(39), [0; 2], 0);
        for _ in 0..10_000 {
            let scale = Scale::any(&mut random, HOUSE);
            let ((v, nitrite), mut plant) = at_the_ceilings(&mut random, &scale, &Plant::FRESH);
            assert_eq!(plant.test_record(), Ok(()));
            let without = plant.clone().accept(&v, 0);
            match plant.accept(&v, nitrite) {
                Ok(_) => answers[0] += 1,
                Err(refusal) => {
                    assert_eq!(refusal, Refusal::DestinationAboveCeiling);
                    answers[1] += 1;
                    alone += u32::from(without.is_ok());
                }
            }
        }
        assert!(answers.iter().chain([&alone]).all(|&count| count > 1000), "{answers:?} {alone}");
    }
}
