//! Trials of the program's arguments. Behind `--figures` the nine figures of a permitted set are
//! those of the record; with any other argument the input is left unread.

use super::inputs::{mixed_lines_on, right_output_on, steady_lines};
use super::output::device;
use super::watched::Watched;
use super::*;
use crate::figures::{Figures, HOUSE};
use crate::plant::Plant;
use crate::trials::figures::{self, just_outside, DAIRY, EXTREMES, NO_NUMBERS};
use std::ffi::OsString;
use std::io::Seek;
use std::os::unix::ffi::OsStringExt;

/// The trials of arguments.
pub const TRIALS: &[Trial] = &[
    ("help", help),
    ("help-to-full-device", help_to_full_device),
    ("version", version),
    ("unknown-word", unknown_word),
    ("empty-word", |program| refuses(program, words(&[""]))),
    ("long-word", |program| refuses(program, vec!["x".repeat(LONGEST_WORD).into()])),
    ("two-words", two_words),
    ("many-words", |program| refuses(program, vec!["x".repeat(100).into(); 2000])),
    ("figures", permitted_figures),
    ("figures-through-a-pipe", figures_through_a_pipe),
    ("figures-of-another-count", figures_of_another_count),
    ("figures-that-are-no-numbers", figures_that_are_no_numbers),
    ("figures-out-of-bounds", figures_out_of_bounds),
    ("figures-behind-another-word", figures_behind_another_word),
    ("nearly-figures", nearly_figures),
];

/// The most bytes that Linux takes in one word.
const LONGEST_WORD: usize = 131_071;

/// These words as arguments.
fn words(words: &[&str]) -> Vec<OsString> {
    words.iter().map(OsString::from).collect()
}

/// Runs the program with these words on an input that is to be left unread.
fn run_with(program: &Program, words: Vec<OsString>) -> Result<Came, Trouble> {
    let mut file = program.file_with(&steady_lines(100))?;
    let mut command = program.command();
    command.args(words).stdin(file.try_clone()?);
    let came = program.run(command, b"")?;
    let read = file.stream_position()?;
    match read {
        0 => Ok(came),
        _ => failed(format!("it read {read} bytes of input, and wrote {}", shown(&came.0))),
    }
}

/// Asks that these words get a message, and nothing on standard output.
fn refuses(program: &Program, words: Vec<OsString>) -> Verdict {
    gives_message_only(&run_with(program, words)?, ARGUMENTS)
}

/// What these words are answered with, as text; a message is not.
fn text_for(program: &Program, word: &str) -> Result<String, Trouble> {
    let (came, ended) = run_with(program, words(&[word]))?;
    ended_well(&ended)?;
    ask(came.ends_with(b"\n"), || format!("no line came but {}", shown(&came)))?;
    String::from_utf8(came).or_else(|_| failed("what came is no text"))
}

/// The words that the help must have: the forms', and the numbers of the refusals that the
/// program gives.
fn must_have() -> Vec<String> {
    let calls = ["receive", "feed", "settle", "return", "release", "recycle", "draw", "accept"];
    let numbers = (1..=5).chain(7..=12).chain([15]).map(|number| number.to_string());
    calls.into_iter().chain(["preview"]).map(String::from).chain(numbers).collect()
}

/// Help: every form and refusal, and `--figures`, on one screen.
fn help(program: &Program) -> Verdict {
    let text = text_for(program, "--help")?;
    let has: Vec<&str> = text.split(|letter: char| !letter.is_alphanumeric()).collect();
    for word in must_have() {
        ask(has.contains(&word.as_str()), || format!("{word} is not in it"))?;
    }
    ask(!has.contains(&"6"), || "6, which is not used again, is in it".into())?;
    ask(text.contains("--figures"), || "--figures is not in it".into())?;
    let (lines, longest) =
        (text.lines().count(), text.lines().map(|line| line.chars().count()).max());
    ask(lines <= 24, || format!("{lines} lines"))?;
    ask(longest <= Some(80), || format!("a line of {} columns", longest.unwrap_or(0)))
}

/// Help that cannot be written: a message.
fn help_to_full_device(program: &Program) -> Verdict {
    let mut command = program.command();
    command.arg("--help").stdout(device()?);
    ended_with_message(&Watched::start(command)?.end(), OUTPUT)
}

/// The version: one line that begins with the name.
fn version(program: &Program) -> Verdict {
    let text = text_for(program, "--version")?;
    let behind = text.strip_prefix("sludgeline ").unwrap_or("");
    let right = text.lines().count() == 1 && !behind.trim().is_empty();
    ask(right, || format!("it is {}", shown(text.as_bytes())))
}

/// Words that are nearly the known ones, and others.
fn unknown_word(program: &Program) -> Verdict {
    let near = ["--hel", "--helpp", "--help ", "--HELP", "-help", "-h", "help", "--version1", "-v"];
    let other = ["-", "--", "x", "(feed 1)", "crates/sludgeline/stdin", "\n"];
    for word in near.iter().chain(&other) {
        refuses(program, words(&[word]))?;
    }
    refuses(program, vec![OsString::from_vec(vec![0xff, 0x80])])
}

/// Two words, known ones among them.
fn two_words(program: &Program) -> Verdict {
    for pair in [["a", "b"], ["--help", "--version"], ["--version", ""], ["", "--help"]] {
        refuses(program, words(&pair))?;
    }
    Ok(())
}

/// The words of a set behind `--figures`.
fn set(figures: &Figures) -> Vec<OsString> {
    figures::words(figures).into_iter().map(OsString::from).collect()
}

/// The words of the dairy's set with this word at the place of one of its numbers.
fn dairy_with(place: usize, word: impl Into<OsString>) -> Vec<OsString> {
    let mut words = set(&DAIRY);
    words[1 + place] = word.into();
    words
}

/// Asks that such a set gets a message, nothing on standard output, and status 0.
fn refuses_set(program: &Program, words: Vec<OsString>) -> Verdict {
    let shown = format!("{:.200}", format!("{words:?}"));
    let came = run_with(program, words)?;
    gives_message_only(&came, ARGUMENTS)?;
    ask(came.1.status.success(), || format!("{shown}: it ended with {}", came.1.status))
}

/// Runs the program with these figures on an input in a file, and asks for the whole output.
fn through_file(program: &Program, figures: &Figures, input: &[u8]) -> Verdict {
    let right = right_output_on(Plant::fresh(*figures), input);
    let mut command = program.command_on(input)?;
    command.args(set(figures));
    gives_all(&right, &program.run(command, &right)?)
}

/// Permitted sets: the house set as without an argument, a dairy's and the extreme ones.
fn permitted_figures(program: &Program) -> Verdict {
    for figures in [HOUSE, DAIRY].iter().chain(&EXTREMES) {
        through_file(program, figures, b"")?;
        through_file(program, figures, b"(receive (xi 7) (snd 9000))\n(feed 1000)")?;
        let input = mixed_lines_on(Plant::fresh(*figures), 10, 3000);
        through_file(program, figures, &input)?;
    }
    Ok(())
}

/// A dairy's set and an input that comes through a pipe.
fn figures_through_a_pipe(program: &Program) -> Verdict {
    let plant = Plant::fresh(DAIRY);
    let input = mixed_lines_on(plant, 11, 2000);
    let right = right_output_on(plant, &input);
    let mut command = program.command();
    command.args(set(&DAIRY)).stdin(Stdio::piped());
    let mut running = Watched::start(command)?;
    hand(running.take_input(), &input, 4000, milliseconds(1));
    let came = collected(running.take_output(), &right);
    gives_all(&right, &(came, running.end()))
}

/// None to eight and ten numbers, and many more; an empty word in the place of a missing one.
fn figures_of_another_count(program: &Program) -> Verdict {
    let all = set(&DAIRY);
    for count in (1..10).chain([11, 12, 19, 2001]) {
        let words = all.iter().chain(all[1..].iter().cycle()).take(count);
        refuses_set(program, words.cloned().collect())?;
    }
    refuses_set(program, all.into_iter().chain([OsString::new()]).collect())
}

/// A word that is no number in the place of each figure, and all nine in one word.
fn figures_that_are_no_numbers(program: &Program) -> Verdict {
    for (number, word) in NO_NUMBERS.iter().enumerate() {
        refuses_set(program, dairy_with(number % 9, word))?;
    }
    for place in 0..9 {
        refuses_set(program, dairy_with(place, ""))?;
        refuses_set(program, dairy_with(place, format!("0{}", DAIRY.numbers()[place])))?;
        refuses_set(program, dairy_with(place, "18446744073709551616"))?;
    }
    refuses_set(program, dairy_with(4, OsString::from_vec(vec![b'1', 0xff])))?;
    refuses_set(program, dairy_with(4, "1".repeat(LONGEST_WORD)))?;
    refuses_set(program, words(&["--figures", "850 640 410 220 1120 910 7350 1200 5800"]))
}

/// Each bound passed by one, the greatest number in each place, and a sum that passes 64 bits.
fn figures_out_of_bounds(program: &Program) -> Verdict {
    for figures in [HOUSE, DAIRY].iter().chain(&EXTREMES) {
        for outside in just_outside(figures) {
            refuses_set(program, set(&outside))?;
        }
    }
    for place in 0..9 {
        refuses_set(program, dairy_with(place, u64::MAX.to_string()))?;
        refuses_set(program, dairy_with(place, (1 << 32 | DAIRY.numbers()[place]).to_string()))?;
    }
    let wrapped = Figures { fch: u64::MAX, fli: 2, ..DAIRY };
    refuses_set(program, set(&wrapped))?;
    refuses_set(program, set(&Figures::from_numbers(&[0; 9])))
}

/// A permitted set that is not in front.
fn figures_behind_another_word(program: &Program) -> Verdict {
    for first in ["--help", "--version", "--figures", "", "-", "x"] {
        let words = [first.into()].into_iter().chain(set(&HOUSE)).collect();
        refuses(program, words)?;
    }
    let mut behind = set(&HOUSE);
    behind.rotate_left(1);
    refuses(program, behind)
}

/// Words that are nearly the one before a permitted set.
fn nearly_figures(program: &Program) -> Verdict {
    let numbers = &set(&HOUSE)[1..];
    for first in ["--figure", "--figuress", "--Figures", "-figures", "figures", "--figures ", "--"]
    {
        let words = [first.into()].into_iter().chain(numbers.iter().cloned());
        refuses(program, words.collect())?;
    }
    let joined = [OsString::from("--figures=880")].into_iter().chain(numbers[1..].iter().cloned());
    refuses(program, joined.collect())?;
    refuses(program, numbers.to_vec())
}
