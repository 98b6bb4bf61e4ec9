//! What the tools try on the link. Everything is drawn from a `Random`.
//!
//! - `figures`: sets of figures, permitted and out of bounds;
//! - `amounts`: columns, vectors and records of every size;
//! - `edges`: vectors and records at the points where the rules branch;
//! - `leachate`: vectors whose inerts need the nitrogen of amino acids;
//! - `proposals`: settles that close or just do not, and proposals to be closed;
//! - `damage`: lines that are no forms any more, or nearly not;
//! - `order`: lines whose fields stand in another order than their columns;
//! - `previews`: lines as previews, or nearly so;
//! - `writing`: calls to be written as lines, and the buffers lent for them;
//! - `sheets`: laboratory sheets, and sludge tanks that they just fit or pass;
//! - `blends`: hauled loads with their ks, and sludge tanks that they just fit or pass;
//! - `reactor`: vectors with nitrite, and sludge tanks that they just fit or pass;
//! - `lists`: lists of lines in one slice, with the records that they begin from;
//! - `table`: the sheets of `exact_sheets.py` with their answers;
//! - here: a call written as a line, and the choice of the next record, line, call, vector
//!   and blend.

pub mod amounts;
pub mod blends;
pub mod damage;
pub mod edges;
pub mod figures;
pub mod leachate;
pub mod lists;
pub mod order;
pub mod previews;
pub mod proposals;
pub mod reactor;
pub mod sheets;
pub mod table;
pub mod writing;

use crate::figures::HOUSE;
use crate::plant::{draw, Call, Plant};
use crate::random::Random;
use crate::reactor::NITRITE_CEILING;
use crate::tables::*;
use amounts::Scale;
use blends::Blend;
use reactor::Back;
use std::collections::VecDeque;
use std::io::Write;

/// A line that follows from the one before it, so that together they reach an edge.
enum Step {
    Feed(u64),
    Settle,
    ReturnAll,
    Recycle(u64),
    /// Draws for the reactor, and has what it draws accepted next.
    ThroughReactor,
    Accept(Asm1, u64),
    /// Receives ammonia until the digester's TKN would be this far from a multiple of ixe.
    ReceiveToMultiple(i64),
    /// Settles as much COD as inerts as the digester's TKN can return, and this many more.
    SettleInerts(i64),
}

/// A source of lines for one record.
pub struct Trial {
    pub random: Random,
    scale: Scale,
    steps: VecDeque<Step>,
    /// The line that the last one was the preview of, where it comes next.
    behind: Option<Vec<u8>>,
}

/// Writes a call as a line, its fields in the order of their columns and its zeros now and then.
pub fn form(random: &mut Random, call: &Call) -> Vec<u8> {
    let mut line = Vec::new();
    let written = match call {
        Call::Receive(v) => {
            line.extend_from_slice(b"(receive");
            write_fields(random, &ASM1_NAMES, v, &mut line);
            write!(line, ")")
        }
        Call::Settle(gas, v) => {
            line.extend_from_slice(format!("(settle {gas}").as_bytes());
            write_fields(random, &DIGESTER_NAMES, v, &mut line);
            write!(line, ")")
        }
        Call::Feed(k) => write!(line, "(feed {k})"),
        Call::Return(k) => write!(line, "(return {k})"),
        Call::Release(k) => write!(line, "(release {k})"),
        Call::Recycle(k) => write!(line, "(recycle {k})"),
        Call::Draw(k) => write!(line, "(draw {k})"),
        Call::Accept(v, nitrite) => {
            line.extend_from_slice(format!("(accept {nitrite}").as_bytes());
            write_fields(random, &ASM1_NAMES, v, &mut line);
            write!(line, ")")
        }
    };
    written.expect("a vector takes every byte");
    line
}

/// Writes the fields of a vector in the order of its columns.
fn write_fields(random: &mut Random, names: &[&str], v: &[u64], line: &mut Vec<u8>) {
    let zeros = random.percent(10);
    for (name, number) in names.iter().zip(v).filter(|(_, &number)| zeros || number > 0) {
        line.extend_from_slice(format!(" ({name} {number})").as_bytes());
    }
}

/// Thousandths to draw: all, any, or one at the edges.
pub fn thousandths(random: &mut Random) -> u64 {
    match random.below(10) {
        0..=3 => 1000,
        4..=7 => 1 + random.below(1000),
        8 => random.one_of(&[1, 2, 500, 998, 999]),
        _ => random.one_of(&[0, 1, 999, 1000, 1001, 1 << 32, u64::MAX]),
    }
}

/// The accept of what the reactor's host hands back.
fn accept((v, nitrite): Back) -> Call {
    Call::Accept(v, nitrite)
}

impl Trial {
    /// A source of lines whose ordinary amounts are of one scale. They go by the house set until
    /// a record has other figures.
    pub fn new(mut random: Random) -> Trial {
        let scale = Scale::any(&mut random, HOUSE);
        Trial { random, scale, steps: VecDeque::new(), behind: None }
    }

    /// A record to begin with or to go on with: of any size, at an edge, or above a ceiling; of the
    /// house set, of another permitted set, or now and then of figures out of bounds.
    pub fn record(&mut self) -> Plant {
        self.scale.figures = figures::any(&mut self.random);
        let mut plant = match self.random.below(12) {
            0 => Plant::fresh(self.scale.figures),
            1 => amounts::record_above(&mut self.random, &self.scale),
            2..=4 => edges::record_at_edge(&mut self.random, &self.scale),
            5 => self.record_to_recycle(),
            6 => self.record_to_accept(),
            7 => self.record_to_feed(),
            _ => amounts::record(&mut self.random, &self.scale),
        };
        if self.random.percent(4) {
            plant.figures = figures::outside(&mut self.random);
        }
        plant
    }

    /// Goes by the figures of this record from now on, where they are permitted.
    fn follow(&mut self, plant: &Plant) {
        if plant.figures.permitted() {
            self.scale.figures = plant.figures;
        }
    }

    /// A record with a sludge tank that the recycle asked for next just fits, or passes by one;
    /// now and then a record above a ceiling, or thousandths at an edge.
    fn record_to_recycle(&mut self) -> Plant {
        let (random, scale) = (&mut self.random, &self.scale);
        let k = edges::drawable(random);
        let mut plant = amounts::record_within(random, scale);
        edges::full_sludge(random, &mut plant, k);
        if random.percent(10) {
            amounts::put_above(random, &mut plant.reject, &ASM1_CEILINGS);
        }
        let asked = match random.percent(20) {
            true => random.one_of(&[0, 1, 999, 1000, 1001, u64::MAX]),
            false => k,
        };
        self.steps.push_front(Step::Recycle(asked));
        plant
    }

    /// A record with a sludge tank that the accept asked for next just fits, or passes; now and
    /// then a record above a ceiling, or a vector or nitrite above its own.
    fn record_to_accept(&mut self) -> Plant {
        let (random, scale) = (&mut self.random, &self.scale);
        let within = amounts::record_within(random, scale);
        let ((mut v, mut nitrite), mut plant) = reactor::at_the_ceilings(random, scale, &within);
        match random.below(10) {
            0 => amounts::put_above(random, &mut plant.reject, &ASM1_CEILINGS),
            1 => amounts::put_above(random, &mut v, &ASM1_CEILINGS),
            2 => nitrite = amounts::above(random, NITRITE_CEILING),
            _ => {}
        }
        self.steps.push_front(Step::Accept(v, nitrite));
        plant
    }

    /// A record with a sludge tank of which the feed asked for next draws a leachate.
    fn record_to_feed(&mut self) -> Plant {
        let (random, scale) = (&mut self.random, &self.scale);
        let within = amounts::record_within(random, scale);
        let (sludge, k) = leachate::sludge(random, scale);
        self.steps.push_front(Step::Feed(k));
        Plant { sludge, ..within }
    }

    /// The next line for this record, without its newline. In twenty, two come behind their own
    /// preview, one as its preview alone, and one as nearly a preview.
    pub fn line(&mut self, plant: &Plant) -> Vec<u8> {
        if let Some(line) = self.behind.take() {
            return line;
        }
        let line = self.call_line(plant);
        match self.random.below(20) {
            0 | 1 => previews::preview(self.behind.insert(line)),
            2 => previews::preview(&line),
            3 => previews::near(&mut self.random, &line),
            _ => line,
        }
    }

    /// The next line that is no preview. Of those with two fields or more one in eight has them
    /// out of order.
    fn call_line(&mut self, plant: &Plant) -> Vec<u8> {
        if self.random.percent(4) {
            return damage::junk(&mut self.random);
        }
        let call = self.call(plant);
        let mut line = form(&mut self.random, &call);
        if self.random.below(8) == 0 && order::disorder(&mut self.random, &mut line) {
            return line;
        }
        match self.random.below(100) {
            0..=14 => damage::damage(&mut self.random, &mut line),
            15 | 16 => damage::near_word(&mut self.random, &mut line),
            _ => {}
        }
        line
    }

    /// The next call for this record.
    pub fn call(&mut self, plant: &Plant) -> Call {
        self.follow(plant);
        let figures = &self.scale.figures;
        match self.steps.pop_front() {
            Some(Step::Feed(k)) => Call::Feed(k),
            Some(Step::Settle) => proposals::settle(&mut self.random, figures, &plant.digester),
            Some(Step::ReturnAll) => Call::Return(1000),
            Some(Step::Recycle(k)) => Call::Recycle(k),
            Some(Step::ThroughReactor) => self.through_reactor(plant),
            Some(Step::Accept(v, nitrite)) => Call::Accept(v, nitrite),
            Some(Step::ReceiveToMultiple(off)) => {
                Call::Receive(edges::ammonia_to_multiple(figures, &plant.digester, off))
            }
            Some(Step::SettleInerts(more)) => {
                Call::Settle(0, proposals::inert_heavy(figures, &plant.digester, more))
            }
            None => self.free_call(plant),
        }
    }

    /// An ASM1 vector to be converted by itself: the sludge, one at an edge of the feed, a leachate,
    /// one with a column above its ceiling, or any.
    pub fn asm1(&mut self, plant: &Plant) -> Asm1 {
        self.follow(plant);
        let (random, scale) = (&mut self.random, &self.scale);
        let mut v = match random.below(10) {
            0 | 1 => plant.sludge,
            2..=4 => edges::receive_to_edge(random, scale, &[0; 13]),
            5 | 6 => leachate::receive(random, scale, &[0; 13]),
            _ => amounts::asm1(random, scale),
        };
        if random.percent(5) {
            amounts::put_above(random, &mut v, &ASM1_CEILINGS);
        }
        v
    }

    /// A digester vector to be converted by itself: the digester's, one at the edge of the
    /// return, one with a column above its ceiling, or any.
    pub fn digester(&mut self, plant: &Plant) -> Digester {
        self.follow(plant);
        let (random, scale) = (&mut self.random, &self.scale);
        let mut v = match random.percent(30) {
            true => plant.digester,
            false => amounts::digester(random, scale),
        };
        if random.percent(40) {
            edges::short_return(random, &scale.figures, &mut v);
        }
        if random.percent(5) {
            amounts::put_above(random, &mut v, &DIGESTER_CEILINGS);
        }
        v
    }

    /// A proposal for this record to be closed. The digester's own sin is changed where that
    /// brings the proposal to an edge.
    pub fn to_close(&mut self, plant: &mut Plant) -> Digester {
        self.follow(plant);
        proposals::to_close(&mut self.random, &self.scale.figures, &mut plant.digester)
    }

    /// A blend of hauled loads for this record.
    pub fn blend(&mut self, plant: &Plant) -> Blend {
        self.follow(plant);
        blends::any(&mut self.random, &self.scale)
    }

    /// A blend that is not turned away for itself, and this record with a sludge tank that it
    /// just fits or passes by one.
    pub fn blend_at_the_ceilings(&mut self, plant: &Plant) -> (Blend, Plant) {
        self.follow(plant);
        blends::at_the_ceilings(&mut self.random, &self.scale, plant)
    }

    /// What the reactor's host hands back, not turned away for itself, and this record with a
    /// sludge tank that it just fits or passes.
    pub fn accept_at_the_ceilings(&mut self, plant: &Plant) -> (Back, Plant) {
        self.follow(plant);
        reactor::at_the_ceilings(&mut self.random, &self.scale, plant)
    }

    /// A call that no step before it asks for.
    fn free_call(&mut self, plant: &Plant) -> Call {
        let random = &mut self.random;
        match random.below(112) {
            0..=16 => Call::Receive(amounts::asm1(random, &self.scale)),
            17..=23 => {
                self.steps.push_back(Step::Feed(1000));
                Call::Receive(leachate::receive(random, &self.scale, &plant.sludge))
            }
            24..=37 => {
                self.steps.push_back(Step::Feed(1000));
                Call::Receive(edges::receive_to_edge(random, &self.scale, &plant.sludge))
            }
            38..=52 => Call::Feed(thousandths(random)),
            53..=71 => proposals::settle(random, &self.scale.figures, &plant.digester),
            72..=82 => Call::Return(thousandths(random)),
            83..=90 => Call::Release(thousandths(random)),
            91..=96 if random.percent(5) => self.recycle_edge(plant),
            91..=96 => Call::Recycle(thousandths(random)),
            97 => self.same_water(),
            98 | 99 => self.return_edge(),
            100..=103 => Call::Draw(thousandths(random)),
            104 | 105 => self.through_reactor(plant),
            _ if random.percent(5) => self.accept_edge(plant),
            _ => accept(reactor::back(random, &self.scale)),
        }
    }

    /// Receives what lets the recycle behind it just fit the sludge tank, or pass it by one.
    fn recycle_edge(&mut self, plant: &Plant) -> Call {
        let k = edges::drawable(&mut self.random);
        if plant.test_record().is_err() {
            return Call::Recycle(k);
        }
        self.steps.push_back(Step::Recycle(k));
        Call::Receive(edges::receive_before_recycle(&mut self.random, plant, k))
    }

    /// Draws for the reactor; what is drawn comes back next, where the record gives some.
    fn through_reactor(&mut self, plant: &Plant) -> Call {
        let k = edges::drawable(&mut self.random);
        if plant.test_record().is_ok() {
            let drawn = draw(&plant.reject, k);
            let (v, nitrite) = reactor::treated(&mut self.random, &drawn);
            self.steps.push_front(Step::Accept(v, nitrite));
        }
        Call::Draw(k)
    }

    /// Receives what lets the accept behind it just fit the sludge's nitrate, or pass it.
    fn accept_edge(&mut self, plant: &Plant) -> Call {
        let back = reactor::fair(&mut self.random, &self.scale);
        if plant.test_record().is_err() {
            return accept(back);
        }
        self.steps.push_back(Step::Accept(back.0, back.1));
        Call::Receive(reactor::receive_before(&mut self.random, &plant.sludge, &back))
    }

    /// Starts the steps that feed, settle, return and recycle the same water several times; some of
    /// it goes through the reactor now and then.
    fn same_water(&mut self) -> Call {
        for _ in 0..self.random.one_of(&[2, 3, 5]) {
            let k = thousandths(&mut self.random);
            self.steps.extend([Step::Feed(1000), Step::Settle, Step::ReturnAll]);
            if self.random.percent(40) {
                self.steps.push_back(Step::ThroughReactor);
            }
            self.steps.push_back(Step::Recycle(k));
        }
        Call::Receive(amounts::asm1(&mut self.random, &self.scale))
    }

    /// Starts the steps that bring a return to the edge of refusal 5.
    fn return_edge(&mut self) -> Call {
        let off = self.random.one_of(&[-1, 0, 0, 1]);
        let more = self.random.one_of(&[0, 0, 0, 1]);
        self.steps.push_back(Step::ReceiveToMultiple(off));
        self.steps.push_back(Step::Feed(1000));
        self.steps.push_back(Step::SettleInerts(more));
        self.steps.push_back(Step::ReturnAll);
        Call::Feed(1000)
    }
}
