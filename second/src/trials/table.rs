//! The table of `exact_sheets.py`: sheets with the answers that rational arithmetic gives, and
//! what follows from these on other records than a fresh one.

use super::figures::just_outside;
use crate::plant::{Plant, Record, Refusal, TANKS};
use crate::sheets::Sheet;
use crate::tables::*;
use std::str::FromStr;

/// The table that is kept beside the script.
pub const KEPT: &str = include_str!("../../data/sheets.txt");

/// A sheet with its answer on a fresh record.
#[derive(Clone, Debug)]
pub struct Row {
    pub sheet: Sheet,
    pub refusal: u64,
    pub told: [u64; 4],
    pub counts: Asm1,
}

/// A record, and what a sheet gives on it: the refusal, what is told, and the record then.
#[derive(Clone, Debug)]
pub struct Case {
    pub before: Record,
    pub refusal: u64,
    pub told: [u64; 4],
    pub after: Record,
}

/// As many words as the array has places, each read; none where it is another number of them.
fn words<T, const W: usize>(text: &str, read: impl Fn(&str) -> Option<T>) -> Option<[T; W]> {
    let all: Option<Vec<T>> = text.split_whitespace().map(read).collect();
    all?.try_into().ok()
}

/// Reads a whole number.
fn number<T: FromStr>(word: &str) -> Option<T> {
    word.parse().ok()
}

/// Reads an entry, its kind and its bits.
fn entry(word: &str) -> Option<(u8, f32)> {
    let (kind, bits) = word.split_once(':')?;
    Some((number(kind)?, f32::from_bits(u32::from_str_radix(bits, 16).ok()?)))
}

/// Reads a row.
fn row(line: &str) -> Option<Row> {
    let parts: Vec<&str> = line.split('|').collect();
    let &[entries, refusal, told, counts] = &parts[..] else {
        return None;
    };
    let entries: [(u8, f32); 13] = words(entries, entry)?;
    let sheet = Sheet { kinds: entries.map(|(kind, _)| kind), values: entries.map(|(_, v)| v) };
    let (told, counts) = (words(told, number)?, words(counts, number)?);
    Some(Row { sheet, refusal: number(refusal.trim())?, told, counts })
}

/// The rows of a table, or the line that is none.
pub fn rows(text: &str) -> Result<Vec<Row>, String> {
    let lines = text.lines().filter(|line| !line.starts_with('#'));
    lines.map(|line| row(line).ok_or(format!("no row of a table: {line}"))).collect()
}

impl Row {
    /// What the sheet gives on this record, where it is not turned away for itself: this refusal,
    /// or none, and then the counts are in the sludge tank.
    fn case(&self, before: Plant, refusal: Option<Refusal>) -> Case {
        let mut after = before;
        let refusal = match self.refusal {
            0 => refusal.map_or(0, |refusal| refusal as u64),
            own => own,
        };
        if refusal == 0 {
            after.sludge =
                std::array::from_fn(|column| before.sludge[column] + self.counts[column]);
        }
        let told = if refusal == 0 { self.told } else { [0; 4] };
        Case { before: before.columns(), refusal, told, after: after.columns() }
    }

    /// The answers on a fresh record; on one with a column above its ceiling, each in its turn; on
    /// the same with figures out of bounds, each of them in its turn; on full tanks with room for
    /// just these counts; and on the same, fuller by one in a column that counts, each in its turn.
    pub fn cases(&self) -> Vec<Case> {
        let room = std::array::from_fn(|column| ASM1_CEILINGS[column] - self.counts[column]);
        let (digester, reject) = (DIGESTER_CEILINGS, ASM1_CEILINGS);
        let full = Plant { sludge: room, digester, reject, ..Plant::FRESH };
        let mut cases = vec![self.case(Plant::FRESH, None), self.case(full, None)];
        for column in 0..TANKS {
            let mut above = full.columns();
            above[column] = TICK_CEILING + 1;
            let above = Plant::from_columns(&above);
            cases.push(self.case(above, Some(Refusal::RecordAboveCeiling)));
            let figures = just_outside(&full.figures)[column % 12];
            let outside = Plant { figures, ..above };
            cases.push(self.case(outside, Some(Refusal::FiguresOutOfBounds)));
        }
        for column in (0..13).filter(|&column| self.counts[column] > 0) {
            let mut fuller = full;
            fuller.sludge[column] += 1;
            cases.push(self.case(fuller, Some(Refusal::DestinationAboveCeiling)));
        }
        cases
    }
}

#[cfg(test)]
mod tests {
    use super::*;

    /// A row is read with every part of it; a line with another number of parts or words, or with
    /// what is no number, is none.
    #[test]
    fn rows_are_read() {
        let entries = "1:80000001 ".to_owned() + &"0:3f800000 ".repeat(11) + "255:7f800001";
        let counts = "5 6 7 8 9 10 11 12 13 14 15 16 17";
        let line = format!("{entries} | 13 | 1 2 3 4 | {counts}");
        let row = row(&line).unwrap();
        assert_eq!(row.sheet.kinds, [1, 0, 0, 0, 0, 0, 0, 0, 0, 0, 0, 0, 255]);
        let bits = row.sheet.values.map(f32::to_bits);
        assert_eq!((bits[0], bits[1], bits[12]), (0x8000_0001, 0x3f80_0000, 0x7f80_0001));
        assert_eq!((row.refusal, row.told), (13, [1, 2, 3, 4]));
        assert_eq!(row.counts, std::array::from_fn(|column| column as u64 + 5));
        let broken = ["", " 18", " x", " | 1", " |"].map(|end| format!("{line}{end}"));
        assert_eq!(rows(&format!("# {line}\n{}\n", broken[0])).map(|rows| rows.len()), Ok(1));
        assert!(broken[1..].iter().all(|line| rows(line).is_err()));
        assert!(rows(&line.replacen("0:3f800000 ", "", 1)).is_err());
        assert!(rows(&line.replacen("0:3f800000", "256:3f800000", 1)).is_err());
        assert!(rows(&line.replacen("0:3f800000", "0:3f80000g", 1)).is_err());
    }
}
