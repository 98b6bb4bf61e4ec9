//! What the floating-point link loses. The same random plants are run twice: by the
//! proved link, through its C library, and by the formulas of source document 004 in
//! double precision, as simulators do it. For each balance it is counted how many runs
//! do not close.
//!
//!     floating [--seed N] [--runs N] [--calls N] [--recycles N] [--reactor N] [--leachate N]
//!
//! The double-precision link takes document 01's stages (as document 02 amends them) and
//! house figures, with 004's real divisions where document 01 has floors and E13 whole mg, and
//! real units: COD and oxygen in g (a count is 0.001 g), nitrogen and nitrate in g N (a tick is
//! 10^-7 g). It has no ceilings, so a call that the proved link refuses by 10 goes through.
//!
//! Here: 004's formulas, the plant in double precision, the plant of the C library, a
//! run of both, the table, the options.

use second::figures::HOUSE;
use second::host;
use second::plant::{Call, Plant, Record};
use second::random::Random;
use second::tables::{self, asm1, digester, Asm1};
use second::trials::leachate::gives_way_in_feed;
use std::process::ExitCode;

/// An ASM1 vector in g.
type RealAsm1 = [f64; 13];

/// A digester vector in g.
type RealDigester = [f64; 26];

/// Nitrogen fractions in g N per g COD; a tick per mg is 10^-4 of that.
const I_XB: f64 = 0.088;
const I_XE: f64 = 0.088;
const N_XC: f64 = 0.028;
const N_I: f64 = 0.028;
const N_AA: f64 = 0.098;
const N_BAC: f64 = 0.0875;

/// The COD that nitrate burns, in g COD per g N.
const COD_NITRATE: f64 = 40.0 / 14.0;

/// Parts of one.
const F_XI: f64 = 0.8;
const F_CH: f64 = 0.2;
const F_LI: f64 = 0.25;

/// The counts in one g of each balance: COD and oxygen in mg, TKN and nitrate in ticks.
const COUNTS: [f64; 4] = [1e3, 1e7, 1e3, 1e7];

/// The balances' names, and the unit of their counts.
const BALANCES: [(&str, &str); 4] =
    [("COD", "mg"), ("TKN", "ticks"), ("oxygen", "mg"), ("nitrate", "ticks")];

/// An ASM1 vector of counts in g.
fn real(v: &Asm1) -> RealAsm1 {
    std::array::from_fn(|column| match column {
        asm1::SNO | asm1::SNH | asm1::SND | asm1::XND => v[column] as f64 / 1e7,
        _ => v[column] as f64 / 1e3,
    })
}

/// 004, ASM1: COD_t = COD_s + COD_p.
fn cod_asm1(v: &RealAsm1) -> f64 {
    v[asm1::SI..=asm1::XP].iter().sum()
}

/// 004, ASM1: TKN = S_nh + S_nd + X_nd + i_xb (X_bh + X_ba) + i_xe (X_i + X_p).
fn tkn_asm1(v: &RealAsm1) -> f64 {
    use asm1::*;
    v[SNH] + v[SND] + v[XND] + I_XB * (v[XBH] + v[XBA]) + I_XE * (v[XI] + v[XP])
}

/// 004, ADM1: COD_t = COD_s + COD_p.
fn cod_digester(v: &RealDigester) -> f64 {
    v[digester::COD].iter().sum()
}

/// 004, ADM1: TKN_t = S_in + N_xc X_c + N_i (S_i + X_i) + N_aa (X_pr + S_aa) + N_bac (degraders).
fn tkn_digester(v: &RealDigester) -> f64 {
    use digester::*;
    let degraders: f64 = v[DEGRADERS].iter().sum();
    v[SIN] + N_XC * v[XC] + N_I * (v[SI] + v[XI]) + N_AA * (v[XPR] + v[SAA]) + N_BAC * degraders
}

/// What leaves the tanks with a feed or return: COD, and oxygen and nitrate reduced.
#[derive(Clone, Copy, Default)]
struct Gone {
    cod: f64,
    oxygen: f64,
    nitrate: f64,
}

/// 004, COD demand and Figure 3: the COD left of S_s, X_s, X_bh, X_ba, and what is reduced.
fn burn(v: &RealAsm1) -> ([f64; 4], Gone) {
    use asm1::*;
    let available = v[SS] + v[XS] + v[XBH] + v[XBA];
    // "The reduction of oxygen is first carried out and then as much nitrate as possible".
    let oxygen = v[SO].min(available);
    let nitrate = v[SNO].min((available - oxygen) / COD_NITRATE);
    // COD_demand = S_o + 2.86 S_no, with 40/14 for 2.86 (request E9 of document 02).
    let demand = oxygen + COD_NITRATE * nitrate;
    let mut owed = demand;
    let left = [SS, XS, XBH, XBA].map(|column| {
        let taken = v[column].min(owed);
        owed -= taken;
        v[column] - taken
    });
    (left, Gone { cod: demand, oxygen, nitrate })
}

/// 004, ASM1 → ADM1, on a drawn vector; none where the inerts' nitrogen is short (refusal 4).
fn feed(v: &RealAsm1) -> Option<(RealDigester, Gone)> {
    use digester::*;
    let (left, gone) = burn(v);
    let mut out = [0.0; 26];
    // ReqCOD_s = S_nd / N_aa; S_aa = ReqCOD_s or S_s, the rest of S_s to S_su.
    out[SAA] = left[0].min(v[asm1::SND] / N_AA);
    out[SSU] = left[0] - out[SAA];
    // The organic nitrogen pool: S_nd − S_aa N_aa, X_nd, biomass and inerts.
    let biomass = I_XB * (v[asm1::XBH] + v[asm1::XBA]);
    let inert = v[asm1::XI] + v[asm1::XP];
    let pool = v[asm1::SND] - N_AA * out[SAA] + v[asm1::XND] + biomass + I_XE * inert;
    // S_i,ADM1 = S_i; X_i,ADM1 = f_xi (X_p + X_i).
    out[SI] = v[asm1::SI];
    out[XI] = F_XI * inert;
    // ReqOrgN_s + ReqOrgN_X = N_i S_i + N_i f_xi (X_p + X_i).
    let need = N_I * (out[SI] + out[XI]);
    let ammonia = v[asm1::SNH];
    let [pool_left, ammonia_left] = cover(&mut out, need, pool, ammonia)?;
    let remain = left[1] + left[2] + left[3] + inert - out[XI];
    partition(&mut out, remain, pool_left, ammonia_left);
    out[SIC] = v[asm1::SALK];
    // Excess oxygen and nitrate pass through the digester.
    out[CO] = v[asm1::SO] - gone.oxygen;
    out[CN] = v[asm1::SNO] - gone.nitrate;
    Some((out, gone))
}

/// 004, the nitrogen of the inerts, from the pool, then from S_nh, and then from S_aa, as much of
/// which as holds it gives way to S_su (request E13 of document 02); gives what is left of pool and
/// S_nh, and none where S_aa holds less.
fn cover(out: &mut RealDigester, need: f64, pool: f64, ammonia: f64) -> Option<[f64; 2]> {
    use digester::*;
    if need <= pool + ammonia {
        return Some([(pool - need).max(0.0), ammonia - (need - pool).max(0.0)]);
    }
    let gives_way = (need - (pool + ammonia)) / N_AA;
    if gives_way > out[SAA] {
        return None;
    }
    out[SAA] -= gives_way;
    out[SSU] += gives_way;
    Some([0.0, 0.0])
}

/// 004, partitioning of remaining COD and TKN: X_c, X_ch, X_li and S_in.
fn partition(out: &mut RealDigester, remain: f64, pool_left: f64, ammonia_left: f64) {
    use digester::*;
    // X_c = ReqCOD_Xc = OrgN_remain,C / N_xc, or all of COD_remain,C.
    out[XC] = remain.min(pool_left / N_XC);
    // X_ch and X_li in the proportions of X_c disintegration.
    out[XCH] = F_CH / (F_CH + F_LI) * (remain - out[XC]);
    out[XLI] = F_LI / (F_CH + F_LI) * (remain - out[XC]);
    // S_in = S_nh,in + (OrgN_remain,C − X_c N_xc).
    out[SIN] = ammonia_left + (pool_left - out[XC] * N_XC);
}

/// 004, ADM1 → ASM1, on a drawn vector; none where the inerts' nitrogen is short (refusal 5).
fn give_back(v: &RealDigester) -> Option<(RealAsm1, Gone)> {
    use digester::*;
    let degraders: f64 = v[DEGRADERS].iter().sum();
    // X_nd = N_bac (degraders) + N_i X_i + N_xc X_c + N_aa X_pr, less i_xe X_i below;
    // S_nd = S_i N_i + S_aa N_aa; S_nh = S_in.
    let particulate = N_BAC * degraders + N_I * v[XI] + N_XC * v[XC] + N_AA * v[XPR];
    let mut stores = [particulate, v[SI] * N_I + v[SAA] * N_AA, v[SIN]];
    let mut owed = I_XE * v[XI];
    for store in &mut stores {
        let taken = store.min(owed);
        *store -= taken;
        owed -= taken;
    }
    if owed > 0.0 {
        return None;
    }
    let mut out = [0.0; 13];
    // S_i and X_i as they are; S_s and X_s are the sums of the rest.
    out[asm1::SI] = v[SI];
    out[asm1::XI] = v[XI];
    out[asm1::SS] = v[SOLUBLE].iter().sum();
    out[asm1::XS] = v[PARTICULATE].iter().sum();
    [out[asm1::XND], out[asm1::SND], out[asm1::SNH]] = stores;
    out[asm1::SO] = v[CO];
    out[asm1::SNO] = v[CN];
    // S_alk = S_ic.
    out[asm1::SALK] = v[SIC];
    // COD_conserved = COD_t,anaerobic − S_h2 − S_ch4.
    Some((out, Gone { cod: v[SH2] + v[SCH4], ..Gone::default() }))
}

/// The plant in double precision, with the balances' incomings and outgoings so far.
struct RealPlant {
    sludge: RealAsm1,
    digester: RealDigester,
    reject: RealAsm1,
    received: [f64; 4],
    out: [f64; 4],
}

/// COD, TKN, oxygen and nitrate of an ASM1 vector in g.
fn measures(v: &RealAsm1) -> [f64; 4] {
    [cod_asm1(v), tkn_asm1(v), v[asm1::SO], v[asm1::SNO]]
}

/// Adds the columns of one vector to another's.
fn add<const W: usize>(to: &mut [f64; W], v: &[f64; W]) {
    to.iter_mut().zip(v).for_each(|(column, more)| *column += more);
}

/// Takes the columns of one vector from another's.
fn take<const W: usize>(from: &mut [f64; W], v: &[f64; W]) {
    from.iter_mut().zip(v).for_each(|(column, less)| *column -= less);
}

impl RealPlant {
    /// The fresh plant.
    fn fresh() -> RealPlant {
        let (sludge, digester, reject) = ([0.0; 13], [0.0; 26], [0.0; 13]);
        RealPlant { sludge, digester, reject, received: [0.0; 4], out: [0.0; 4] }
    }

    /// Makes a call; false where nitrogen is short.
    fn call(&mut self, call: &Call) -> bool {
        match call {
            Call::Receive(v) => self.receive(&real(v)),
            Call::Feed(k) => return self.feed(*k as f64 / 1000.0),
            Call::Return(k) => return self.give_back(*k as f64 / 1000.0),
            Call::Release(k) => self.release(*k as f64 / 1000.0),
            Call::Recycle(k) => self.recycle(*k as f64 / 1000.0),
            Call::Draw(k) => self.release(*k as f64 / 1000.0),
            Call::Accept(v, nitrite) => self.accept(&real(v), *nitrite as f64 / COUNTS[3]),
            Call::Settle(..) => unreachable!("a run settles nothing"),
        }
        true
    }

    /// Adds a vector to the sludge.
    fn receive(&mut self, v: &RealAsm1) {
        add(&mut self.sludge, v);
        add(&mut self.received, &measures(v));
    }

    /// Draws this part of the sludge, converts it and adds it to the digester.
    fn feed(&mut self, part: f64) -> bool {
        let drawn = self.sludge.map(|column| column * part);
        let Some((converted, gone)) = feed(&drawn) else { return false };
        take(&mut self.sludge, &drawn);
        add(&mut self.digester, &converted);
        add(&mut self.out, &[gone.cod, 0.0, gone.oxygen, gone.nitrate]);
        true
    }

    /// Draws this part of the digester, converts it and adds it to reject.
    fn give_back(&mut self, part: f64) -> bool {
        let drawn = self.digester.map(|column| column * part);
        let Some((converted, gone)) = give_back(&drawn) else { return false };
        take(&mut self.digester, &drawn);
        add(&mut self.reject, &converted);
        add(&mut self.out, &[gone.cod, 0.0, 0.0, 0.0]);
        true
    }

    /// Draws this part of reject and hands it out.
    fn release(&mut self, part: f64) {
        let drawn = self.reject.map(|column| column * part);
        take(&mut self.reject, &drawn);
        add(&mut self.out, &measures(&drawn));
    }

    /// Draws this part of reject and adds it to the sludge; nothing comes in or goes out.
    fn recycle(&mut self, part: f64) {
        let drawn = self.reject.map(|column| column * part);
        take(&mut self.reject, &drawn);
        add(&mut self.sludge, &drawn);
    }

    /// Adds a vector and nitrite to the sludge: 0.6 of it as nitrate, and the rest goes out as N2.
    fn accept(&mut self, v: &RealAsm1, nitrite: f64) {
        self.receive(v);
        self.sludge[asm1::SNO] += 0.6 * nitrite;
        add(&mut self.received, &[0.0, 0.0, 0.0, nitrite]);
        add(&mut self.out, &[0.0, 0.0, 0.0, 0.4 * nitrite]);
    }

    /// Received less what is held and what went out, for each balance, in g.
    fn gaps(&self) -> [f64; 4] {
        let v = &self.digester;
        let mut held = measures(&self.sludge);
        add(&mut held, &[cod_digester(v), tkn_digester(v), v[digester::CO], v[digester::CN]]);
        add(&mut held, &measures(&self.reject));
        std::array::from_fn(|which| self.received[which] - (held[which] + self.out[which]))
    }
}

/// The plant of the C library, with the balances' incomings and outgoings so far, in counts.
struct ProvedPlant {
    record: Record,
    received: [u128; 4],
    out: [u128; 4],
    accepted: u64,
}

/// COD, TKN, oxygen and nitrate of an ASM1 vector in counts.
fn exact_measures(v: &Asm1) -> [u128; 4] {
    [tables::cod_asm1(v), HOUSE.tkn_asm1(v), v[asm1::SO].into(), v[asm1::SNO].into()]
}

/// COD, TKN, oxygen and nitrate in counts that an accepted call brings in.
fn brought_in(call: &Call) -> [u128; 4] {
    match call {
        Call::Receive(v) => exact_measures(v),
        Call::Accept(v, nitrite) => {
            let [cod, tkn, oxygen, nitrate] = exact_measures(v);
            [cod, tkn, oxygen, nitrate + u128::from(*nitrite)]
        }
        _ => [0; 4],
    }
}

/// Adds four counts to four others.
fn add_counts(to: &mut [u128; 4], more: [u128; 4]) {
    to.iter_mut().zip(more).for_each(|(count, more)| *count += more);
}

impl ProvedPlant {
    /// The fresh plant.
    fn fresh() -> ProvedPlant {
        let mut record = [u64::MAX; 61];
        host::jilghvani_fresh(&mut record);
        ProvedPlant { record, received: [0; 4], out: [0; 4], accepted: 0 }
    }

    /// Makes a call; false where it is refused.
    fn call(&mut self, call: &Call) -> bool {
        let (refusal, out) = match call {
            Call::Receive(v) => (host::jilghvani_receive(&mut self.record, v), [0; 4]),
            Call::Feed(k) => self.feed(*k),
            Call::Return(k) => self.give_back(*k),
            Call::Release(k) => self.release(*k),
            Call::Recycle(k) => (host::jilghvani_recycle(&mut self.record, *k), [0; 4]),
            Call::Draw(k) => self.draw(*k),
            Call::Accept(v, nitrite) => self.accept(v, *nitrite),
            Call::Settle(..) => unreachable!("a run settles nothing"),
        };
        if refusal != 0 {
            return false;
        }
        add_counts(&mut self.received, brought_in(call));
        add_counts(&mut self.out, out);
        self.accepted += 1;
        true
    }

    /// Feeds; gives the refusal and what leaves the tanks.
    fn feed(&mut self, k: u64) -> (u64, [u128; 4]) {
        let mut told = [0; 4];
        let refusal = host::jilghvani_feed(&mut self.record, k, &mut told);
        let [burnt, oxygen, nitrate, _] = told.map(u128::from);
        (refusal, [burnt, 0, oxygen, nitrate])
    }

    /// Returns; gives the refusal and what leaves the tanks.
    fn give_back(&mut self, k: u64) -> (u64, [u128; 4]) {
        let mut told = [0];
        let refusal = host::jilghvani_return(&mut self.record, k, &mut told);
        (refusal, [told[0].into(), 0, 0, 0])
    }

    /// Releases; gives the refusal and what leaves the tanks.
    fn release(&mut self, k: u64) -> (u64, [u128; 4]) {
        let mut v = [0; 13];
        let refusal = host::jilghvani_release(&mut self.record, k, &mut v);
        (refusal, exact_measures(&v))
    }

    /// Draws for the reactor; gives the refusal and what leaves the tanks.
    fn draw(&mut self, k: u64) -> (u64, [u128; 4]) {
        let mut v = [0; 13];
        let refusal = host::jilghvani_draw(&mut self.record, k, &mut v);
        (refusal, exact_measures(&v))
    }

    /// Accepts from the reactor; gives the refusal and what leaves as N2.
    fn accept(&mut self, v: &Asm1, nitrite: u64) -> (u64, [u128; 4]) {
        let mut told = [0];
        let refusal = host::jilghvani_accept(&mut self.record, v, nitrite, &mut told);
        (refusal, [0, 0, 0, told[0].into()])
    }

    /// Received less what is held and what went out, for each balance, in counts.
    fn gaps(&self) -> [i128; 4] {
        let mut held = [0; 4];
        let refusal = host::jilghvani_totals(&self.record, &mut held);
        assert_eq!(refusal, 0, "a record that calls gave is within its ceilings");
        std::array::from_fn(|which| {
            self.received[which] as i128 - (u128::from(held[which]) + self.out[which]) as i128
        })
    }
}

/// A size of plant: its name and the greatest received column, in mg and in ticks.
struct Size {
    name: &'static str,
    cod: u64,
    ticks: u64,
}

/// From a jar in the laboratory to the ceilings.
const SIZES: [Size; 3] = [
    Size { name: "a jar, columns up to 10 g COD and 1 g N", cod: 10_000, ticks: 10_000_000 },
    Size {
        name: "a works, columns up to 10 t COD and 1 t N",
        cod: 10_000_000_000,
        ticks: 10_000_000_000_000,
    },
    Size {
        name: "near the ceilings, columns up to 25 t COD and 25 t N",
        cod: 25_000_000_000,
        ticks: 250_000_000_000_000,
    },
];

/// A vector to receive; soluble inerts are kept small enough that nitrogen is seldom short.
fn received(random: &mut Random, size: &Size) -> Asm1 {
    std::array::from_fn(|column| match column {
        asm1::SI => random.below(size.cod / 20 + 1),
        asm1::SO => random.below(size.cod / 5 + 1),
        asm1::SNO | asm1::SNH | asm1::SND | asm1::XND => random.below(size.ticks + 1),
        _ => random.below(size.cod + 1),
    })
}

/// A leachate to receive: soluble alone but for xs, with about as much nitrogen as its inerts need.
fn leachate(random: &mut Random, size: &Size) -> Asm1 {
    std::array::from_fn(|column| match column {
        asm1::SI | asm1::SS | asm1::XS => random.below(size.cod + 1),
        asm1::SNH | asm1::SND => random.below(200 * size.cod + 1),
        _ => 0,
    })
}

/// How many calls of a run there are; how many of a hundred stand in the place of a release:
/// recycles, draws for the reactor, and as many accepts from it; and how many of a hundred receives
/// are of leachate.
#[derive(Clone, Copy)]
struct Calls {
    number: u64,
    recycles: u64,
    reactor: u64,
    leachate: u64,
}

/// The next call of a run.
fn next_call(random: &mut Random, size: &Size, calls: &Calls) -> Call {
    let (k, draws) = (1 + random.below(1000), 80 + calls.recycles);
    match random.below(100) {
        0..=34 if calls.leachate > 0 && random.percent(calls.leachate) => {
            Call::Receive(leachate(random, size))
        }
        0..=34 => Call::Receive(received(random, size)),
        35..=59 => Call::Feed(k),
        60..=79 => Call::Return(k),
        number if number < draws => Call::Recycle(k),
        number if number < draws + calls.reactor => Call::Draw(k),
        number if number < draws + 2 * calls.reactor => {
            Call::Accept(received(random, size), random.below(size.ticks + 1))
        }
        _ => Call::Release(k),
    }
}

/// What is counted for one balance over all runs of a size.
#[derive(Clone, Copy, Default)]
struct Row {
    not_zero: u64,
    off: u64,
    greatest: f64,
    proved_open: u64,
}

/// What is counted over all runs of a size.
#[derive(Default)]
struct Report {
    rows: [Row; 4],
    accepted: u64,
    judged_apart: u64,
    gave_way: u64,
}

impl Report {
    /// Counts one run's gaps: the real ones in g, those of the proved link in counts.
    fn add(&mut self, gaps: [f64; 4], proved: [i128; 4]) {
        for (which, row) in self.rows.iter_mut().enumerate() {
            let counts = gaps[which] * COUNTS[which];
            row.not_zero += u64::from(gaps[which] != 0.0);
            row.off += u64::from(counts.round() != 0.0);
            row.greatest = row.greatest.max(counts.abs());
            row.proved_open += u64::from(proved[which] != 0);
        }
    }

    /// Prints the rows of one size, and where leachate was asked for how often it was met.
    fn print(&self, size: &Size, runs: u64, calls: &Calls) {
        println!("{} ({} accepted calls)", size.name, self.accepted);
        println!(
            "  balance {:>9} {:>14} {:>15} {:>16} {:>20}",
            "runs", "not exactly 0", "off by a count", "greatest gap", "proved: not closed"
        );
        for ((name, unit), row) in BALANCES.iter().zip(&self.rows) {
            let Row { not_zero, off, greatest, proved_open } = row;
            print!("  {name:<8} {runs:>8} {not_zero:>14} {off:>15}");
            println!(" {greatest:>10.2e} {unit:<5} {proved_open:>20}");
        }
        println!("  calls that one link accepts and the other refuses: {}", self.judged_apart);
        if calls.leachate > 0 {
            println!("  feeds in which amino acids gave way: {}", self.gave_way);
        }
    }
}

/// Whether a call is a feed of this record in which amino acids give way.
fn gives_way(call: &Call, record: &Record) -> bool {
    let plant = || Plant::from_columns(record);
    matches!(call, Call::Feed(k) if gives_way_in_feed(&plant(), *k))
}

/// Runs one plant by both links, with the same calls.
fn one_run(random: &mut Random, size: &Size, calls: &Calls, report: &mut Report) {
    let (mut plant, mut proved) = (RealPlant::fresh(), ProvedPlant::fresh());
    for _ in 0..calls.number {
        let call = next_call(random, size, calls);
        let gives_way = gives_way(&call, &proved.record);
        let accepted = proved.call(&call);
        report.gave_way += u64::from(gives_way && accepted);
        report.judged_apart += u64::from(plant.call(&call) != accepted);
    }
    report.accepted += proved.accepted;
    report.add(plant.gaps(), proved.gaps());
}

/// The options' names.
const OPTIONS: [&str; 6] = ["--seed", "--runs", "--calls", "--recycles", "--reactor", "--leachate"];

/// Reads the options: seed, runs of each size, calls of each run; in a hundred calls recycles, and
/// draws and as many accepts, in all at most 20 and by default none; and in a hundred receives
/// those of leachate, by default none.
fn options() -> Result<[u64; 6], String> {
    let mut options: [u64; 6] = [4, 1000, 100, 0, 0, 0];
    let mut words = std::env::args().skip(1);
    while let Some(word) = words.next() {
        let which = OPTIONS.iter().position(|name| *name == word);
        let value = words.next().and_then(|value| value.parse().ok());
        match (which, value) {
            (Some(which), Some(value)) => options[which] = value,
            _ => return Err(format!("{word}: unknown, or without its number")),
        }
    }
    let [.., recycles, reactor, leachate] = options;
    match (recycles.saturating_add(reactor.saturating_mul(2)), leachate) {
        (21.., _) => Err("--recycles N --reactor M: N + 2 M is at most 20".into()),
        (_, 101..) => Err("--leachate N: N is at most 100".into()),
        _ => Ok(options),
    }
}

/// Runs every size and prints its table; gives how many balances of the proved link are open.
fn run([seed, runs, number, recycles, reactor, leachate]: [u64; 6]) -> u64 {
    println!("What the floating-point link loses: seed {seed}, {runs} runs of {number} calls each");
    if recycles > 0 {
        println!("{recycles} of a hundred calls recycle in the place of a release");
    }
    if reactor > 0 {
        println!(
            "{reactor} of a hundred calls draw and {reactor} accept in the place of a release"
        );
    }
    if leachate > 0 {
        println!("{leachate} of a hundred receives are of leachate");
    }
    let calls = Calls { number, recycles, reactor, leachate };
    let mut open = 0;
    for (number, size) in SIZES.iter().enumerate() {
        let mut report = Report::default();
        for run in 0..runs {
            let mut random = Random::nth(seed, run * SIZES.len() as u64 + number as u64);
            one_run(&mut random, size, &calls, &mut report);
        }
        report.print(size, runs, &calls);
        open += report.rows.iter().map(|row| row.proved_open).sum::<u64>();
    }
    open
}

/// Ends with status 0 where every run of the proved link closes, 1 where one does not, and 2
/// on a wrong command line.
fn main() -> ExitCode {
    match options().map(run) {
        Ok(0) => ExitCode::SUCCESS,
        Ok(_) => ExitCode::FAILURE,
        Err(error) => {
            eprintln!("floating: {error}");
            ExitCode::from(2)
        }
    }
}
