//! How many answers of each kind were accepted, and refused by each number.

use second::lines::{self, Asked};
use second::plant::{Call, Plant};
use second::trials::leachate::gives_way_in_feed;
use second::trials::order::is_out_of_order;
use second::trials::previews::is_nested;
use std::ops::RangeInclusive;

/// The kinds of answers: lines by the call they ask or preview, below feeds those in which amino
/// acids give way, or where they are no forms, apart those that are none for the order of their
/// fields alone and previews inside previews; the held line; the sets behind `--figures`; the functions that are called by numbers; sheets that are
/// made for their record and those of the table stand below the others; so do blends of one load
/// and of eight, those whose lengths are turned away, those that are made for their record, and
/// those in another order; feeds and conversions in which amino acids give way; and accepts that are
/// made for their record; a gap that is told stands
/// by where it is; the functions that write a call's line, below each the same for its preview;
/// and lengths of answers by the refusal of the record that a list begins from, below the lists
/// whose lines all count the longer ones and the sessions of the program.
const KINDS: [&str; 76] = [
    "receive",
    "feed",
    "  acids give way",
    "settle",
    "return",
    "release",
    "recycle",
    "draw",
    "accept",
    "preview of receive",
    "preview of feed",
    "  acids would give way",
    "preview of settle",
    "preview of return",
    "preview of release",
    "preview of recycle",
    "preview of draw",
    "preview of accept",
    "out of order",
    "preview in a preview",
    "no form",
    "held",
    "--figures",
    "jilghvani_make",
    "jilghvani_fresh",
    "jilghvani_receive",
    "jilghvani_sheet",
    "  sheet at the ceilings",
    "  sheet of the table",
    "jilghvani_blend",
    "  one load",
    "  eight loads",
    "  no loads",
    "  nine loads and more",
    "  loads of other lengths",
    "  blend at the ceilings",
    "  in another order",
    "jilghvani_feed",
    "  feed, acids give way",
    "jilghvani_settle",
    "jilghvani_return",
    "jilghvani_release",
    "jilghvani_recycle",
    "jilghvani_draw",
    "jilghvani_accept",
    "  accept at the ceilings",
    "jilghvani_totals",
    "jilghvani_asm_to_adm",
    "  alone, acids give way",
    "jilghvani_adm_to_asm",
    "jilghvani_close",
    "  settle of what closed",
    "jilghvani_gap",
    "  gap in COD",
    "  gap in TKN",
    "  gap in sin",
    "jilghvani_write_receive",
    "  receive's preview",
    "jilghvani_write_feed",
    "  feed's preview",
    "jilghvani_write_settle",
    "  settle's preview",
    "jilghvani_write_return",
    "  return's preview",
    "jilghvani_write_release",
    "  release's preview",
    "jilghvani_write_recycle",
    "  recycle's preview",
    "jilghvani_write_draw",
    "  draw's preview",
    "jilghvani_write_accept",
    "  accept's preview",
    "jilghvani_answer_bytes",
    "  of a longer list",
    "  of a session",
    "  of a longer session",
];

/// Which kind a line with this call is, and which one its preview.
fn kinds_of_call(call: &Call) -> (&'static str, &'static str) {
    match call {
        Call::Receive(_) => ("receive", "preview of receive"),
        Call::Feed(_) => ("feed", "preview of feed"),
        Call::Settle(..) => ("settle", "preview of settle"),
        Call::Return(_) => ("return", "preview of return"),
        Call::Release(_) => ("release", "preview of release"),
        Call::Recycle(_) => ("recycle", "preview of recycle"),
        Call::Draw(_) => ("draw", "preview of draw"),
        Call::Accept(..) => ("accept", "preview of accept"),
    }
}

/// Which kind a line is that is answered on this record.
pub fn kind_of(line: &[u8], plant: &Plant) -> &'static str {
    match lines::read(line) {
        Some(Asked::Call(Call::Feed(k))) if gives_way_in_feed(plant, k) => "  acids give way",
        Some(Asked::Preview(Call::Feed(k))) if gives_way_in_feed(plant, k) => {
            "  acids would give way"
        }
        Some(Asked::Call(call)) => kinds_of_call(&call).0,
        Some(Asked::Preview(call)) => kinds_of_call(&call).1,
        None if is_out_of_order(line) => "out of order",
        None if is_nested(line) => "preview in a preview",
        None => "no form",
    }
}

/// Which kind a line that is written is.
pub fn kind_of_written(asked: &Asked) -> &'static str {
    use Call::*;
    match asked {
        Asked::Call(Receive(_)) => "jilghvani_write_receive",
        Asked::Call(Feed(_)) => "jilghvani_write_feed",
        Asked::Call(Settle(..)) => "jilghvani_write_settle",
        Asked::Call(Return(_)) => "jilghvani_write_return",
        Asked::Call(Release(_)) => "jilghvani_write_release",
        Asked::Call(Recycle(_)) => "jilghvani_write_recycle",
        Asked::Call(Draw(_)) => "jilghvani_write_draw",
        Asked::Call(Accept(..)) => "jilghvani_write_accept",
        Asked::Preview(Receive(_)) => "  receive's preview",
        Asked::Preview(Feed(_)) => "  feed's preview",
        Asked::Preview(Settle(..)) => "  settle's preview",
        Asked::Preview(Return(_)) => "  return's preview",
        Asked::Preview(Release(_)) => "  release's preview",
        Asked::Preview(Recycle(_)) => "  recycle's preview",
        Asked::Preview(Draw(_)) => "  draw's preview",
        Asked::Preview(Accept(..)) => "  accept's preview",
    }
}

/// The refusal that an answer's bytes give: 0 accepted, 12 where there are none.
pub fn refusal_of(answer: &[u8]) -> usize {
    match answer.strip_prefix(b"(no ").and_then(|rest| rest.strip_suffix(b")")) {
        Some([unit]) => usize::from(unit - b'0'),
        Some([ten, unit]) => usize::from(10 * (ten - b'0') + unit - b'0'),
        _ if answer.is_empty() => 12,
        _ => 0,
    }
}

/// The greatest number of a refusal.
pub const LAST_REFUSAL: usize = 16;

/// How often each outcome was met; outcome 0 is accepted.
type Outcomes = [u64; LAST_REFUSAL + 1];

/// How many answers of each kind had each outcome.
pub struct Tally([Outcomes; KINDS.len()]);

impl Default for Tally {
    /// Nothing counted.
    fn default() -> Tally {
        Tally([Outcomes::default(); KINDS.len()])
    }
}

impl Tally {
    /// Counts one answer of this kind.
    pub fn add(&mut self, kind: &str, refusal: usize) {
        let row = KINDS.iter().position(|name| *name == kind);
        self.0[row.expect("the kind has a row")][refusal] += 1;
    }

    /// Adds another tally to this one.
    pub fn join(&mut self, other: &Tally) {
        for (kind, outcomes) in other.0.iter().enumerate() {
            for (refusal, count) in outcomes.iter().enumerate() {
                self.0[kind][refusal] += count;
            }
        }
    }

    /// All answers with these outcomes.
    pub fn count(&self, refusals: RangeInclusive<usize>) -> u64 {
        self.0.iter().map(|outcomes| outcomes[refusals.clone()].iter().sum::<u64>()).sum()
    }

    /// Prints the sums and a table: a row for each kind, a column for each outcome.
    pub fn print(&self, title: &str) {
        let (accepted, refused) = (self.count(0..=0), self.count(1..=LAST_REFUSAL));
        let total = accepted + refused;
        println!("{title}: {total} answers compared, {accepted} accepted, {refused} refused");
        let numbers: String = (1..=LAST_REFUSAL).map(|number| format!("{number:>8}")).collect();
        println!("  {:<24}{:>9}{numbers}   by refusal", "", "accepted");
        for (name, outcomes) in KINDS.iter().zip(&self.0) {
            if outcomes.iter().any(|&count| count > 0) {
                print_row(name, outcomes);
            }
        }
        print_row("all", &std::array::from_fn(|refusal| self.count(refusal..=refusal)));
    }
}

/// Prints a name and how often each outcome was met.
fn print_row(name: &str, outcomes: &Outcomes) {
    let counts: String = outcomes[1..].iter().map(|count| format!("{count:>8}")).collect();
    println!("  {name:<24}{:>9}{counts}", outcomes[0]);
}
