//! The program's words: without any its record is of the house set, behind `--figures` of the
//! nine numbers that stand there, each as a line has it.

use crate::figures::{Figures, FIGURE_NAMES};
use crate::lines::whole_number;
use crate::plant::Plant;

/// The word before the nine numbers.
pub const WORD: &[u8] = b"--figures";

/// The record that the words ask for, or in words why there is none.
pub fn record(words: &[impl AsRef<[u8]>]) -> Result<Plant, String> {
    match words.split_first() {
        None => Ok(Plant::FRESH),
        Some((first, numbers)) if first.as_ref() == WORD => made_with(numbers),
        Some((first, _)) => Err(format!("{}: unknown", first.as_ref().escape_ascii())),
    }
}

/// The record that is made with these nine words.
fn made_with(words: &[impl AsRef<[u8]>]) -> Result<Plant, String> {
    let mut numbers = [0; 9];
    if words.len() != numbers.len() {
        return Err(format!("--figures: {} words behind it and not nine", words.len()));
    }
    for (place, word) in words.iter().map(AsRef::as_ref).enumerate() {
        let no_number = || format!("{}: {} is no number", FIGURE_NAMES[place], word.escape_ascii());
        numbers[place] = whole_number(word).ok_or_else(no_number)?;
    }
    Plant::make(Figures::from_numbers(&numbers)).map_err(|refusal| {
        let number = refusal as u64;
        format!("refusal {number}: each figure is 0 to 10000, nxc, naa and fch + fli at least 1")
    })
}
