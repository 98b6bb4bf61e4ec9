//! The text layer: a line in brackets read as a call or its preview, and its answer
//! written into a buffer that the caller lends.

use crate::convert::FeedTold;
use crate::plant::{Call, Held, Plant, Refusal, Told};
use crate::tables::*;

/// The most bytes a line may have before its newline.
pub const LONGEST_LINE: usize = 1024;

/// The fewest bytes a lent answer buffer may have.
pub const SHORTEST_BUFFER: usize = 512;

/// What a line asks for.
#[derive(Clone, Debug, PartialEq, Eq)]
pub enum Asked {
    Call(Call),
    Preview(Call),
}

/// Reads one line, without its newline; `None` is refusal 11.
pub fn read(line: &[u8]) -> Option<Asked> {
    if line.len() > LONGEST_LINE {
        return None;
    }
    match previewed(line) {
        Some(form) => read_call(form).map(Asked::Preview),
        None => read_call(line).map(Asked::Call),
    }
}

/// What a preview's brackets hold behind its word, whatever it is; `None` without that word.
pub fn previewed(line: &[u8]) -> Option<&[u8]> {
    line.strip_prefix(b"(preview ")?.strip_suffix(b")")
}

/// Reads the form of a call; a preview is none.
fn read_call(form: &[u8]) -> Option<Call> {
    let inner = form.strip_prefix(b"(")?.strip_suffix(b")")?;
    if let Some(rest) = inner.strip_prefix(b"receive") {
        return fields(rest, asm1_column).map(Call::Receive);
    }
    if let Some(rest) = inner.strip_prefix(b"feed ") {
        return whole_number(rest).map(Call::Feed);
    }
    if let Some(rest) = inner.strip_prefix(b"settle ") {
        let (gas, rest) = leading_number(rest)?;
        return fields(rest, digester_column).map(|v| Call::Settle(gas, v));
    }
    if let Some(rest) = inner.strip_prefix(b"return ") {
        return whole_number(rest).map(Call::Return);
    }
    if let Some(rest) = inner.strip_prefix(b"release ") {
        return whole_number(rest).map(Call::Release);
    }
    if let Some(rest) = inner.strip_prefix(b"recycle ") {
        return whole_number(rest).map(Call::Recycle);
    }
    if let Some(rest) = inner.strip_prefix(b"draw ") {
        return whole_number(rest).map(Call::Draw);
    }
    let (nitrite, rest) = leading_number(inner.strip_prefix(b"accept ")?)?;
    fields(rest, asm1_column).map(|v| Call::Accept(v, nitrite))
}

/// Reads none or more fields, each ` (name N)`, in the order of their columns: each one names
/// a column behind the last one named, so that none stands twice.
fn fields<const W: usize>(
    mut rest: &[u8],
    column_of: impl Fn(&[u8]) -> Option<usize>,
) -> Option<[u64; W]> {
    let mut vector = [0; W];
    let mut last = None;
    while !rest.is_empty() {
        rest = rest.strip_prefix(b" (")?;
        let space = rest.iter().take(5).position(|&byte| byte == b' ')?;
        let column = column_of(&rest[..space])?;
        if last.is_some_and(|last| column <= last) {
            return None;
        }
        last = Some(column);
        let (number, behind) = leading_number(&rest[space + 1..])?;
        vector[column] = number;
        rest = behind.strip_prefix(b")")?;
    }
    Some(vector)
}

/// Reads a number that fills the whole slice.
pub(crate) fn whole_number(bytes: &[u8]) -> Option<u64> {
    match leading_number(bytes)? {
        (number, []) => Some(number),
        _ => None,
    }
}

/// Reads the number a slice begins with: decimal, no leading zero, at most 2^64 − 1.
/// Gives it with the bytes behind its last digit.
fn leading_number(bytes: &[u8]) -> Option<(u64, &[u8])> {
    let mut number: u64 = 0;
    let mut length = 0;
    for &byte in bytes {
        let digit = byte.wrapping_sub(b'0');
        if digit > 9 {
            break;
        }
        number = match length < 19 {
            true => number * 10 + u64::from(digit),
            false => number.checked_mul(10)?.checked_add(u64::from(digit))?,
        };
        length += 1;
    }
    let leading_zero = length > 1 && bytes[0] == b'0';
    match length == 0 || leading_zero {
        true => None,
        false => Some((number, &bytes[length..])),
    }
}

/// Writes bytes one after another into a lent buffer and leaves those behind as they are.
pub(crate) struct Writer<'b> {
    buffer: &'b mut [u8],
    filled: usize,
}

impl<'b> Writer<'b> {
    /// Starts at the buffer's first byte.
    pub(crate) fn new(buffer: &'b mut [u8]) -> Writer<'b> {
        Writer { buffer, filled: 0 }
    }

    /// Writes these bytes.
    pub(crate) fn text(&mut self, bytes: &[u8]) {
        let end = self.filled + bytes.len();
        self.buffer[self.filled..end].copy_from_slice(bytes);
        self.filled = end;
    }

    /// Writes a number in decimal.
    fn number(&mut self, mut number: u64) {
        let mut digits = [0u8; 20];
        let mut first = digits.len();
        while number >= 100 {
            first -= 2;
            let pair = 2 * (number % 100) as usize;
            digits[first..first + 2].copy_from_slice(&PAIRS[pair..pair + 2]);
            number /= 100;
        }
        first -= 1;
        digits[first] = b'0' + (number % 10) as u8;
        if number >= 10 {
            first -= 1;
            digits[first] = b'0' + (number / 10) as u8;
        }
        self.text(&digits[first..]);
    }

    /// Writes a label and then a number.
    pub(crate) fn labelled(&mut self, label: &[u8], number: u64) {
        self.text(label);
        self.number(number);
    }

    /// Hands back the filled part of the buffer.
    pub(crate) fn filled(self) -> &'b [u8] {
        &self.buffer[..self.filled]
    }
}

/// The numbers 00 to 99, two digits each.
const PAIRS: [u8; 200] = {
    let mut pairs = [0; 200];
    let mut number = 0;
    while number < 100 {
        pairs[2 * number] = b'0' + (number / 10) as u8;
        pairs[2 * number + 1] = b'0' + (number % 10) as u8;
        number += 1;
    }
    pairs
};

/// How each column that is handed out is introduced: the bracket, its name and a space.
const LABELS: [&[u8]; 13] = [
    b" (si ", b" (ss ", b" (xi ", b" (xs ", b" (xbh ", b" (xba ", b" (xp ", b" (so ", b" (sno ",
    b" (snh ", b" (snd ", b" (xnd ", b" (salk ",
];

/// Writes what a feed tells.
fn write_fed(out: &mut Writer, told: &FeedTold) {
    out.labelled(b"(ok feed burnt ", told.burnt);
    out.labelled(b" oxygen ", told.oxygen);
    out.labelled(b" nitrate ", told.nitrate);
    out.labelled(b" warn ", told.warn);
    out.text(b")");
}

/// Writes what a call tells that hands a vector out: what the answer begins with, and all thirteen
/// columns.
fn write_handed_out(out: &mut Writer, begin: &[u8], v: &Asm1) {
    out.text(begin);
    for (label, &column) in LABELS.iter().zip(v) {
        out.labelled(label, column);
        out.text(b")");
    }
    out.text(b")");
}

/// Writes an answer; the buffer has at least 512 bytes, which every answer fits in.
fn write<'b>(answer: &Result<Told, Refusal>, buffer: &'b mut [u8]) -> &'b [u8] {
    let mut out = Writer::new(buffer);
    match answer {
        Ok(Told::Received) => out.text(b"(ok receive)"),
        Ok(Told::Fed(told)) => write_fed(&mut out, told),
        Ok(Told::Settled) => out.text(b"(ok settle)"),
        Ok(Told::Returned(stripped)) => {
            out.labelled(b"(ok return stripped ", *stripped);
            out.text(b")");
        }
        Ok(Told::Released(v)) => write_handed_out(&mut out, b"(ok release", v),
        Ok(Told::Recycled) => out.text(b"(ok recycle)"),
        Ok(Told::Drawn(v)) => write_handed_out(&mut out, b"(ok draw", v),
        Ok(Told::Accepted(n2)) => {
            out.labelled(b"(ok accept n2 ", *n2);
            out.text(b")");
        }
        Err(refusal) => write_refusal(&mut out, *refusal),
    }
    out.filled()
}

/// Writes a refusal's number.
fn write_refusal(out: &mut Writer, refusal: Refusal) {
    out.labelled(b"(no ", refusal as u64);
    out.text(b")");
}

/// What one line on the record leads to, which its answer tells.
pub(crate) fn outcome(plant: &mut Plant, line: &[u8]) -> Result<Told, Refusal> {
    match read(line) {
        Some(Asked::Call(call)) => plant.call(&call),
        Some(Asked::Preview(call)) => plant.preview(&call),
        None => Err(Refusal::NoForm),
    }
}

/// Answers one line on the record: the filled part of the buffer, empty under refusal 12.
pub fn answer<'b>(plant: &mut Plant, line: &[u8], buffer: &'b mut [u8]) -> &'b [u8] {
    if buffer.len() < SHORTEST_BUFFER {
        return &[];
    }
    write(&outcome(plant, line), buffer)
}

/// Writes the held line of the record, or its refusal; empty under refusal 12.
pub fn held<'b>(plant: &Plant, buffer: &'b mut [u8]) -> &'b [u8] {
    if buffer.len() < SHORTEST_BUFFER {
        return &[];
    }
    let mut out = Writer::new(buffer);
    match plant.held() {
        Ok(held) => write_held(&mut out, &held),
        Err(refusal) => write_refusal(&mut out, refusal),
    }
    out.filled()
}

/// Writes what is held.
fn write_held(out: &mut Writer, held: &Held) {
    let [cod, tkn, oxygen, nitrate] = held.numbers();
    out.labelled(b"(held cod ", cod);
    out.labelled(b" tkn ", tkn);
    out.labelled(b" oxygen ", oxygen);
    out.labelled(b" nitrate ", nitrate);
    out.text(b")");
}
