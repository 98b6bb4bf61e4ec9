//! Trials in which nothing goes wrong: all of the right output is asked for, and no
//! message. Inputs come from a file and through a pipe.

use super::inputs::{lines_up_to, mixed_lines, right_output, steady_lines};
use super::watched::Watched;
use super::{ask, difference, gives_all, milliseconds, Program, Trial, Verdict};
use std::io::{BufRead, BufReader, Read, Write};
use std::process::Stdio;
use std::time::Duration;

/// The trials of plain inputs.
pub const TRIALS: &[Trial] = &[
    ("no-input", |program| both_ways(program, b"")),
    ("one-newline", |program| both_ways(program, b"\n")),
    ("unended-receive", |program| both_ways(program, b"(feed 1)\n(receive (ss 7) (snh 5))")),
    ("blocks-of-65535", |program| in_blocks(program, BLOCK - 1)),
    ("blocks-of-65536", |program| in_blocks(program, BLOCK)),
    ("blocks-of-65537", |program| in_blocks(program, BLOCK + 1)),
    ("line-across-blocks", line_across_blocks),
    ("line-of-1024", |program| with_line_of(program, 1024)),
    ("line-of-1025", |program| with_line_of(program, 1025)),
    ("line-of-70000", |program| with_line_of(program, 70_000)),
    ("line-by-line", line_by_line),
    ("megabytes", megabytes),
];

/// The bytes that the program asks for in one read.
const BLOCK: usize = 65_536;

/// Hands an input over as a file and through a pipe.
fn both_ways(program: &Program, input: &[u8]) -> Verdict {
    program.through_file(input)?;
    program.through_pipe(input, input.len().max(1), Duration::ZERO)
}

/// Three blocks of this size, the last one ending in a receive, with a newline or without.
fn in_blocks(program: &Program, size: usize) -> Verdict {
    let last = b"(receive (ss 7) (snh 5))\n";
    for unended in [0, 1] {
        let mut input = lines_up_to(3 * size + unended - last.len());
        input.extend_from_slice(&last[..last.len() - unended]);
        program.through_file(&input)?;
        program.through_pipe(&input, size, milliseconds(5))?;
        program.through_file(&input[2 * size..])?;
    }
    Ok(())
}

/// A line that begins at each byte before a block's end, and just behind it.
fn line_across_blocks(program: &Program) -> Verdict {
    let line = b"(receive (ss 7) (snh 5))\n";
    for end in [BLOCK, 2 * BLOCK] {
        for before in 0..=line.len() + 1 {
            let mut input = lines_up_to(end + 1 - before);
            input.extend_from_slice(line);
            input.extend_from_slice(b"(feed 1000)\n");
            program.through_file(&input)?;
        }
    }
    Ok(())
}

/// A line of this many bytes between others, and as the last one without its newline.
fn with_line_of(program: &Program, length: usize) -> Verdict {
    let mut line = b"(receive (ss 7))".to_vec();
    line.resize(length, b' ');
    let mut input = steady_lines(20);
    input.extend_from_slice(&line);
    both_ways(program, &input)?;
    input.push(b'\n');
    input.extend_from_slice(&steady_lines(20));
    both_ways(program, &input)
}

/// How many lines end in these bytes.
fn lines_in(bytes: &[u8]) -> usize {
    bytes.iter().filter(|&&byte| byte == b'\n').count()
}

/// A host that writes a line and the first bytes of the next, and waits for the answer to the
/// whole one, which has to come before the program reads on. The deadline ends the waiting.
fn line_by_line(program: &Program) -> Verdict {
    let input = steady_lines(60);
    let right = right_output(&input);
    let mut command = program.command();
    command.stdin(Stdio::piped());
    let mut running = Watched::start(command)?;
    let (mut to, mut from) = (running.take_input(), BufReader::new(running.take_output()));
    let (mut came, mut place, mut given) = (Vec::new(), 0, 0);
    for line in input.split_inclusive(|&byte| byte == b'\n') {
        place += line.len();
        let more = input.len().min(place + 5);
        to.write_all(&input[given..more])?;
        given = more;
        from.read_until(b'\n', &mut came)?;
        ask(came.ends_with(b"\n"), || format!("line {} got no answer", 1 + lines_in(&came)))?;
        ask(right.starts_with(&came), || difference(&right, &came))?;
    }
    drop(to);
    from.read_to_end(&mut came)?;
    gives_all(&right, &(came, running.end()))
}

/// Some megabytes of lines of every kind.
fn megabytes(program: &Program) -> Verdict {
    both_ways(program, &mixed_lines(6, 50_000))
}
