//! Leachate: vectors with so much soluble inert that pool and ammonia lack nitrogen for it, which
//! stands in amino acids. They lack nothing, one tick, what some of the amino acids hold or all of
//! them, a tick more or less, or so much that what is left over is just enough for some composites;
//! or any other number.

use super::amounts::{self, Scale};
use super::edges::{bring, nudged};
use crate::convert::{self, Before, Covered};
use crate::figures::Figures;
use crate::plant::{draw, test_thousandths, Plant};
use crate::random::Random;
use crate::tables::*;

/// How many amino acids give way in the conversion of a vector, and what is left of its nitrogen;
/// none where it is refused.
fn covered(figures: &Figures, v: &Asm1) -> Option<Covered> {
    if !figures.permitted() || !within(v, &ASM1_CEILINGS) {
        return None;
    }
    let Before { saa, inerts, .. } = convert::before_covering(figures, v);
    convert::cover(figures, &inerts, v[asm1::SNH], saa).ok()
}

/// Whether amino acids give way in the conversion of a vector.
pub fn gives_way(figures: &Figures, v: &Asm1) -> bool {
    covered(figures, v).is_some_and(|covered| covered.gave_way > 0)
}

/// Whether they do in a feed of k thousandths.
pub fn gives_way_in_feed(plant: &Plant, k: u64) -> bool {
    plant.test_record().is_ok()
        && test_thousandths(k).is_ok()
        && gives_way(&plant.figures, &draw(&plant.sludge, k))
}

/// Both vectors together; they are within their ceilings, or not far above.
fn together(sludge: &Asm1, v: &Asm1) -> Asm1 {
    std::array::from_fn(|column| sludge[column] + v[column])
}

/// A vector to receive into this sludge so that a feed of all of it is short of nitrogen, or nearly
/// so, where ceilings and figures allow it.
pub fn receive(random: &mut Random, scale: &Scale, sludge: &Asm1) -> Asm1 {
    let mut v = amounts::lowered(&amounts::asm1(random, scale), &ASM1_CEILINGS);
    if within(sludge, &ASM1_CEILINGS) {
        thin(random, &mut v);
        add_acids(random, scale, &mut v, sludge);
        make_short(random, &scale.figures, &mut v, sludge);
    }
    amounts::lowered(&v, &ASM1_CEILINGS)
}

/// Takes away most of what would burn the amino acids' COD or cover the inerts, and now and then
/// the COD that composites are made of.
fn thin(random: &mut Random, v: &mut Asm1) {
    use asm1::*;
    let groups = [(&[SO, SNO][..], 85), (&[SNH], 50), (&[XND], 70), (&[XI, XP, XBH, XBA], 60)];
    for (columns, chance) in groups.into_iter().chain([(&[XS][..], 40)]) {
        if random.percent(chance) {
            columns.iter().for_each(|&column| v[column] = 0);
        }
    }
}

/// Adds COD and nitrogen that become amino acids.
fn add_acids(random: &mut Random, scale: &Scale, v: &mut Asm1, sludge: &Asm1) {
    let (figures, naa) = (&scale.figures, scale.figures.naa);
    let sum = together(sludge, v);
    let burnt = convert::burn(&sum).burnt;
    bring(v, &sum, asm1::SS, burnt + 1 + random.sized(scale.cod));
    let sum = together(sludge, v);
    let left = convert::before_covering(figures, &sum).left[0];
    let acids = left.min(1 + random.sized(left.saturating_sub(1)));
    let more = match random.percent(50) {
        true => 0,
        false => random.below(naa),
    };
    bring(v, &sum, asm1::SND, naa * acids + more);
}

/// Adds soluble inerts until the nitrogen is short, and then ammonia or particulate nitrogen until
/// it is short by the number that is aimed at; half the times also COD for about as many composites
/// as this leaves nitrogen for.
fn make_short(random: &mut Random, figures: &Figures, v: &mut Asm1, sludge: &Asm1) {
    let sum = together(sludge, v);
    let Before { left, saa, inerts, .. } = convert::before_covering(figures, &sum);
    let (short, composites) = aim(random, figures, saa);
    let wanted = inerts.pool + sum[asm1::SNH] + short;
    let more = match figures.ni {
        0 => 0,
        ni => wanted.saturating_sub(inerts.need).div_ceil(ni).min(COD_CEILING),
    };
    let more = more + random.one_of(&[0, 0, 1, 20]);
    v[asm1::SI] += more;
    let over = (inerts.need + figures.ni * more).saturating_sub(wanted);
    v[random.one_of(&[asm1::SNH, asm1::XND])] += over;
    if random.percent(50) {
        let rest = convert::rest(&sum, &left, inerts.xi);
        v[asm1::XS] += nudged(random, composites).saturating_sub(rest);
    }
}

/// By how many ticks the nitrogen is to be short where there are so many amino acids, and how many
/// composites what is left over then has nitrogen for.
fn aim(random: &mut Random, figures: &Figures, saa: u64) -> (u64, u64) {
    let Figures { nxc, naa, .. } = *figures;
    let some = naa * saa.min(1 + random.sized(saa.saturating_sub(1)));
    match random.below(9) {
        0 => (random.below(2), 0),
        1 => (random.below(naa * saa + 2), 0),
        2..=4 => (nudged(random, naa * saa), 0),
        5 => (nudged(random, some), 0),
        _ => {
            let composites = random.below((naa - 1) / nxc + 1);
            let left_over = nxc * composites + random.one_of(&[0, 0, 1, nxc - 1]);
            (some.saturating_sub(left_over.min(naa - 1)), composites)
        }
    }
}

/// Thousandths, and how many times a column has to hold what they are to draw of it.
const PARTS: [(u64, u64); 8] =
    [(1000, 1), (500, 2), (250, 4), (200, 5), (125, 8), (100, 10), (8, 125), (1, 1000)];

/// A sludge of which k thousandths are a leachate by itself, and k; where it would pass a ceiling,
/// the leachate itself, and all of it.
pub fn sludge(random: &mut Random, scale: &Scale) -> (Asm1, u64) {
    let v = receive(random, scale, &[0; 13]);
    let (k, times) = random.one_of(&PARTS);
    let more = v.map(|column| times * column + random.below(times));
    match within(&more, &ASM1_CEILINGS) {
        true => (more, k),
        false => (v, 1000),
    }
}

#[cfg(test)]
mod tests {
    use super::*;
    use crate::trials::figures;

    /// How often amino acids gave way; with nitrogen that just suffices; how often it was short by a
    /// tick, by a tick less than all of them hold, by just as much, and by a tick more; by what
    /// whole mg of some hold, a tick less and a tick more; and how often what was left over was
    /// nitrogen for just all of the COD, for some of it, or a tick too little for one composite.
    #[derive(Default, Debug)]
    struct Met {
        gave_way: u32,
        enough: u32,
        a_tick: u32,
        all: [u32; 3],
        some: [u32; 3],
        composites: [u32; 3],
    }

    impl Met {
        /// Counts a vector.
        fn count(&mut self, figures: &Figures, v: &Asm1) {
            let Before { left, saa, inerts, .. } = convert::before_covering(figures, v);
            let have = inerts.pool + v[asm1::SNH];
            self.enough += u32::from(saa > 0 && inerts.need > 0 && have == inerts.need);
            let Some(short @ 1..) = inerts.need.checked_sub(have) else { return };
            self.a_tick += u32::from(saa > 0 && short == 1);
            let all = figures.naa * saa;
            for (off, count) in [all - u64::from(saa > 0), all, all + 1].iter().zip(&mut self.all) {
                *count += u32::from(saa > 0 && short == *off);
            }
            if short > all {
                return;
            }
            self.gave_way += 1;
            for (off, count) in [1, 0, figures.naa - 1].iter().zip(&mut self.some) {
                let pool = short.next_multiple_of(figures.naa) - short;
                *count += u32::from(pool == *off && short + pool < all);
            }
            self.count_composites(figures, v, &left, inerts.xi);
        }

        /// Counts a vector whose amino acids give way by its composites.
        fn count_composites(&mut self, figures: &Figures, v: &Asm1, left: &[u64; 4], xi: u64) {
            let pool = covered(figures, v).unwrap().pool;
            let (rest, most) = (convert::rest(v, left, xi), pool / figures.nxc);
            self.composites[0] += u32::from(rest > 0 && rest == most);
            self.composites[1] += u32::from(most > 0 && rest > most);
            self.composites[2] += u32::from(rest > most && (pool + 1) % figures.nxc == 0);
        }

        /// Asks that each was met so often, and that amino acids gave way in so many.
        fn ask(&self, often: u32, gave_way: u32) {
            let all = self.all.iter().chain(&self.some).chain(&self.composites);
            let rare = all.chain([&self.enough, &self.a_tick]).min();
            assert!(rare >= Some(&often) && self.gave_way >= gave_way, "{self:?}");
        }
    }

    /// Vectors by themselves, and received into a sludge; each edge is met often.
    #[test]
    fn shortages_of_every_kind() {
        let (mut random, mut alone, mut received) =
            (Random::new(50), Met::default(), Met::default());
        for _ in 0..20_000 {
            let figures = figures::any(&mut random);
            let scale = Scale::any(&mut random, figures);
            let v = receive(&mut random, &scale, &[0; 13]);
            assert!(within(&v, &ASM1_CEILINGS));
            alone.count(&figures, &v);
            let tank = amounts::record_within(&mut random, &scale).sludge;
            let sum = together(&tank, &receive(&mut random, &scale, &tank));
            if within(&sum, &ASM1_CEILINGS) {
                received.count(&figures, &sum);
            }
        }
        alone.ask(300, 8000);
        received.ask(100, 3000);
    }

    /// What is drawn of a sludge is a leachate, by every k.
    #[test]
    fn sludges_to_draw_of() {
        let (mut random, mut met) = (Random::new(51), PARTS.map(|_| Met::default()));
        for _ in 0..40_000 {
            let figures = figures::any(&mut random);
            let scale = Scale::any(&mut random, figures);
            let (tank, k) = sludge(&mut random, &scale);
            let plant = Plant { sludge: tank, ..Plant::fresh(figures) };
            let part = PARTS.iter().position(|(part, _)| *part == k).unwrap();
            met[part].count(&figures, &draw(&tank, k));
            let given = covered(&figures, &draw(&tank, k)).map_or(0, |covered| covered.gave_way);
            assert_eq!(gives_way_in_feed(&plant, k), given > 0);
        }
        met.iter().for_each(|met| met.ask(30, 1000));
    }
}
