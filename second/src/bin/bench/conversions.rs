//! One feed and one conversion by itself, by this build's shared library, by an earlier one's and
//! by Rust, in turn on three sets of records.

use crate::calls::{rust_feed, time_calls, PASSES};
use crate::in_turn;
use crate::libraries::{Conversion, Functions};
use crate::sets::{self, Set, RECORDS};
use second::numbers;
use second::plant::Plant;
use second::tables::{Asm1, Digester};

/// One Rust conversion, kept from being drawn into the loop that times it.
#[inline(never)]
extern "C" fn rust_asm_to_adm(
    figures: &[u64; 9],
    v: &Asm1,
    d: &mut Digester,
    told: &mut [u64; 4],
) -> u64 {
    numbers::asm_to_adm(figures, v, d, told)
}

/// What a call gives on each input: its refusal, what it tells, and the input behind it.
fn answers<R: Copy>(
    inputs: &[R],
    thousandths: &[u64],
    call: impl Fn(&mut R, u64, &mut [u64; 4]) -> u64,
) -> Vec<(u64, [u64; 4], R)> {
    let one = |(input, &k): (&R, &u64)| {
        let (mut input, mut told) = (*input, [7; 4]);
        (call(&mut input, k, &mut told), told, input)
    };
    inputs.iter().zip(thousandths).map(one).collect()
}

/// Compares what three calls give on a set, times them in turn, and prints a row of the table.
fn row<R: Copy + PartialEq>(
    name: String,
    rounds: usize,
    inputs: &[R],
    thousandths: &[u64],
    calls: [impl Fn(&mut R, u64, &mut [u64; 4]) -> u64; 3],
) -> Result<(), String> {
    let [now, before, rust] = calls.each_ref().map(|call| answers(inputs, thousandths, call));
    if now != rust || before != rust {
        return Err(format!("{name}: the two libraries and Rust do not give the same"));
    }
    let time = |which: usize| Ok(time_calls(inputs, thousandths, &calls[which]));
    let times = in_turn(rounds, calls.len(), time)?;
    let (now, before, rust) = (times[0], times[1], times[2]);
    println!(
        "  {name:<20}{:>9.1}{:>9.1}{:>11.1}{:>9.1}{:>11.1}{:>13.3}{:>9.3}",
        now.0,
        now.1,
        before.0,
        before.1,
        rust.0,
        now.0 / before.0,
        now.1 / before.1
    );
    Ok(())
}

/// Prints how many of a set's drawn vectors have their nitrate covered, and how many feeds refuse.
fn print_set(set: &Set) {
    let drawn = set.drawn();
    let covered = drawn.iter().filter(|v| sets::is_covered(v)).count();
    let feed = |plant: &mut Plant, k: u64, told: &mut [u64; 4]| rust_feed(plant, k, told);
    let fed = answers(&set.plants, &set.thousandths, feed);
    let refused = fed.iter().filter(|(refusal, _, _)| *refusal != 0).count();
    println!(
        "  {:<8} nitrate covered in {covered}, short in {}; {refused} feeds refused",
        set.name,
        drawn.len() - covered
    );
}

/// Prints the head of the table.
fn print_head(rounds: usize) {
    println!(
        "{:<22}{:>18}{:>20}{:>11}{:>22}",
        format!("{rounds} rounds, in turn"),
        "this build",
        "earlier build",
        "Rust",
        "this over earlier"
    );
    println!(
        "{:<22}{:>9}{:>9}{:>11}{:>9}{:>11}{:>13}{:>9}",
        "  ns for one, set", "median", "least", "median", "least", "median", "medians", "least"
    );
}

/// Times feeds and conversions by both libraries and by Rust, and prints the table.
pub fn bench(rounds: usize, now: Functions, before: Functions) -> Result<(), String> {
    let asm_to_adm = Conversion::ByFigures(rust_asm_to_adm);
    let three = [now, before, Functions { feed: rust_feed, asm_to_adm }];
    let sets = [sets::any(), sets::covered(), sets::short()];
    println!("feeds and conversions by both libraries, {PASSES} passes a run,");
    println!("on three sets of {RECORDS} records, the first of them that of the feeds above:");
    sets.iter().for_each(print_set);
    print_head(rounds);
    for set in &sets {
        let name = format!("feed, {}", set.name);
        let calls = three.map(|one| {
            move |plant: &mut Plant, k: u64, told: &mut [u64; 4]| (one.feed)(plant, k, told)
        });
        row(name, rounds, &set.plants, &set.thousandths, calls)?;
    }
    for set in &sets {
        let name = format!("asm_to_adm, {}", set.name);
        let inputs: Vec<(Asm1, Digester)> = set.drawn().into_iter().map(|v| (v, [7; 26])).collect();
        let calls = three.map(|one| {
            move |(v, d): &mut (Asm1, Digester), _: u64, told: &mut [u64; 4]| {
                one.asm_to_adm.convert(v, d, told)
            }
        });
        row(name, rounds, &inputs, &set.thousandths, calls)?;
    }
    println!("in every row the two libraries and Rust give the same");
    Ok(())
}
