//! Runs of elements between guards, to be lent to the library, and their comparison.

use crate::Difference;
use std::fmt::Debug;
use std::hint::black_box;

/// A run of elements with a guard on both sides; the guards must keep their values.
#[derive(Clone)]
pub struct Guarded<T> {
    all: Vec<T>,
    length: usize,
}

/// How many elements each guard has.
const GUARD: usize = 64;

impl<T: Copy + PartialEq + Debug> Guarded<T> {
    /// These elements between two guards; each guard repeats its own pattern.
    pub fn new(elements: &[T], guard: impl Fn(usize) -> T) -> Self {
        let before = (0..GUARD).map(&guard);
        let behind = (GUARD..2 * GUARD).map(&guard);
        let all = before.chain(elements.iter().copied()).chain(behind).collect();
        Guarded { all, length: elements.len() }
    }

    /// The elements between the guards, to be handed to the library.
    pub fn inner(&mut self) -> &mut [T] {
        &mut self.all[GUARD..GUARD + self.length]
    }

    /// The same as an array.
    pub fn array<const N: usize>(&mut self) -> &mut [T; N] {
        self.inner().try_into().expect("the run has this length")
    }

    /// Elements and guards as they stand in memory now. Without `black_box` the compiler may
    /// rely on it that a function writes nothing to what it is lent to be read.
    fn all(&self) -> &[T] {
        black_box(&self.all)
    }

    /// The same run with each element turned into another, those of the guards too.
    pub fn map<U>(&self, turn: impl Fn(T) -> U) -> Guarded<U> {
        let all = self.all().iter().map(|&element| turn(element)).collect();
        Guarded { all, length: self.length }
    }

    /// Compares this run, the second implementation's, with what the library left.
    pub fn compare(&self, what: &str, found: &Self) -> Result<(), Difference> {
        let (expected, found) = (self.all(), found.all());
        match expected == found {
            true => Ok(()),
            false => Err(first_place(what, expected, found)),
        }
    }
}

/// Says where two runs differ.
fn first_place<T: PartialEq + Debug>(what: &str, expected: &[T], found: &[T]) -> String {
    let place = expected.iter().zip(found).position(|(e, f)| e != f).unwrap_or(expected.len());
    let show =
        |run: &[T]| run.get(place).map_or("nothing".into(), |element| format!("{element:?}"));
    let (second, library) = (show(expected), show(found));
    let (signed, length) = (place as i64 - GUARD as i64, expected.len() - 2 * GUARD);
    format!("{what} at {signed} (lent is 0..{length}): second {second}, library {library}")
}

/// A pattern of bytes in which no two neighbours are alike.
pub fn byte_pattern(salt: u64) -> impl Fn(usize) -> u8 {
    move |place| (place as u64).wrapping_mul(37).wrapping_add(salt) as u8
}

/// A pattern of numbers, all of them above every ceiling.
pub fn number_pattern(salt: u64) -> impl Fn(usize) -> u64 {
    move |place| !(place as u64).wrapping_mul(0x9e37).wrapping_add(salt & 0xffff)
}

/// A pattern of floats, none of them a number.
pub fn float_pattern(salt: u64) -> impl Fn(usize) -> f32 {
    let bits = number_pattern(salt);
    move |place| f32::from_bits(bits(place) as u32)
}
