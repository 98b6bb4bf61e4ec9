//! One feed and one recycle of the C library that is linked in against those in Rust, in turn on
//! the same records; and how a call is timed.

use crate::sets::{self, RECORDS};
use crate::{in_turn, SEED};
use second::host;
use second::plant::{Plant, Record};
use std::hint::black_box;
use std::time::Instant;

/// How many passes make one timed run.
pub const PASSES: usize = 400;

/// One Rust feed, kept from being drawn into the loop that times it.
#[inline(never)]
pub extern "C" fn rust_feed(plant: &mut Plant, k: u64, told: &mut [u64; 4]) -> u64 {
    match plant.feed(k) {
        Ok(t) => {
            *told = t.numbers();
            0
        }
        Err(refusal) => {
            *told = [0; 4];
            refusal as u64
        }
    }
}

/// One Rust recycle, kept from being drawn into the loop that times it; it tells nothing.
#[inline(never)]
fn rust_recycle(plant: &mut Plant, k: u64, _told: &mut [u64; 4]) -> u64 {
    plant.recycle(k).err().map_or(0, |refusal| refusal as u64)
}

/// Calls on each record once, pass after pass from the same start; gives nanoseconds per call.
pub fn time_calls<R: Copy>(
    start: &[R],
    thousandths: &[u64],
    call: impl Fn(&mut R, u64, &mut [u64; 4]) -> u64,
) -> f64 {
    let mut work = start.to_vec();
    let mut seconds = 0.0;
    let mut told = [0; 4];
    for _ in 0..PASSES {
        work.copy_from_slice(start);
        let begin = Instant::now();
        for (record, &k) in work.iter_mut().zip(thousandths) {
            black_box(call(record, k, &mut told));
            black_box(&told);
        }
        seconds += begin.elapsed().as_secs_f64();
        black_box(&work);
    }
    seconds * 1e9 / (PASSES * start.len()) as f64
}

/// Whether both feeds give the same record, refusal and told numbers, and how many refuse.
fn feeds_alike(plants: &[Plant], thousandths: &[u64]) -> (bool, usize) {
    let mut refused = 0;
    let alike = plants.iter().zip(thousandths).all(|(plant, &k)| {
        let (mut ours, mut theirs) = (*plant, plant.columns());
        let (mut told, mut their_told) = ([7; 4], [9; 4]);
        let refusal = rust_feed(&mut ours, k, &mut told);
        refused += usize::from(refusal != 0);
        let same = host::jilghvani_feed(&mut theirs, k, &mut their_told) == refusal;
        same && told == their_told && ours.columns() == theirs
    });
    (alike, refused)
}

/// Times one feed of the library and of Rust, in turn, and prints both.
pub fn bench_feeds(rounds: usize) -> Result<(), String> {
    let set = sets::any();
    let (alike, refused) = feeds_alike(&set.plants, &set.thousandths);
    println!(
        "feeds of {RECORDS} records of seed {}, {refused} refused, {PASSES} passes a run",
        SEED + 1
    );
    println!("both give the same: {}", if alike { "yes" } else { "NO" });
    let records: Vec<Record> = set.plants.iter().map(Plant::columns).collect();
    let times = in_turn(rounds, 2, |which| {
        Ok(match which {
            0 => time_calls(&records, &set.thousandths, |record, k, told| {
                host::jilghvani_feed(record, k, told)
            }),
            _ => time_calls(&set.plants, &set.thousandths, |plant, k, told| {
                rust_feed(plant, k, told)
            }),
        })
    })?;
    print_times("feed", rounds, &times);
    match alike {
        true => Ok(()),
        false => Err("the two feeds differ".into()),
    }
}

/// Prints median and least of the times of one call by both, and the ratios.
fn print_times(call: &str, rounds: usize, times: &[(f64, f64)]) {
    let (library, rust) = (times[0], times[1]);
    println!("{rounds} rounds, in turn     median ns    least ns   (for one {call})");
    println!("  {:<20} {:>8.1}    {:>8.1}", format!("jilghvani_{call}"), library.0, library.1);
    println!("  {:<20} {:>8.1}    {:>8.1}", format!("Rust {call}"), rust.0, rust.1);
    println!(
        "time of jilghvani_{call} over time of Rust {call}: {:.3} by medians, {:.3} by least",
        library.0 / rust.0,
        library.1 / rust.1
    );
}

/// Times one recycle of the library and of Rust on the same records, in turn, and prints both.
pub fn bench_recycles(rounds: usize) -> Result<(), String> {
    let set = sets::any();
    let alike = set.plants.iter().zip(&set.thousandths).all(|(plant, &k)| {
        let (mut ours, mut theirs) = (*plant, plant.columns());
        let refusal = rust_recycle(&mut ours, k, &mut [0; 4]);
        host::jilghvani_recycle(&mut theirs, k) == refusal && ours.columns() == theirs
    });
    println!("recycles of the same {RECORDS} records");
    println!("both give the same: {}", if alike { "yes" } else { "NO" });
    let records: Vec<Record> = set.plants.iter().map(Plant::columns).collect();
    let times = in_turn(rounds, 2, |which| {
        Ok(match which {
            0 => time_calls(&records, &set.thousandths, |record, k, _| {
                host::jilghvani_recycle(record, k)
            }),
            _ => time_calls(&set.plants, &set.thousandths, rust_recycle),
        })
    })?;
    print_times("recycle", rounds, &times);
    match alike {
        true => Ok(()),
        false => Err("the two recycles differ".into()),
    }
}
