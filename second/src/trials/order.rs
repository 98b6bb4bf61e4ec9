//! Lines whose fields stand in another order than their columns: all reversed, two
//! neighbours swapped, one doubled, or shuffled. Each of them is refused by 11.

use crate::lines::{self, Asked};
use crate::random::Random;
use crate::tables::{ASM1_NAMES, DIGESTER_NAMES};

/// What stands before the fields of a line, and the fields, each with its space and brackets.
fn cut(line: &[u8]) -> Option<(&[u8], Vec<&[u8]>)> {
    let inner = line.strip_suffix(b")")?;
    let first = inner.windows(2).position(|pair| pair == b" (")?;
    let (head, fields) = inner.split_at(first);
    Some((head, fields.split_inclusive(|&byte| byte == b')').collect()))
}

/// The line with these fields.
fn joined(head: &[u8], fields: &[&[u8]]) -> Vec<u8> {
    [head, &fields.concat(), b")"].concat()
}

/// Puts the fields of a form out of order; false where it has fewer than two and stays.
pub fn disorder(random: &mut Random, line: &mut Vec<u8>) -> bool {
    let Some((head, mut fields)) = cut(line).filter(|(_, fields)| fields.len() > 1) else {
        return false;
    };
    match random.below(4) {
        0 => fields.reverse(),
        1 => swap_neighbours(random, &mut fields),
        2 => double_one(random, &mut fields),
        _ => shuffle(random, &mut fields),
    }
    *line = joined(head, &fields);
    true
}

/// Swaps two fields that stand side by side.
fn swap_neighbours(random: &mut Random, fields: &mut [&[u8]]) {
    let place = random.index(fields.len() - 1);
    fields.swap(place, place + 1);
}

/// Puts a field a second time, beside itself or anywhere.
fn double_one(random: &mut Random, fields: &mut Vec<&[u8]>) {
    let place = random.index(fields.len());
    let again = match random.percent(50) {
        true => place,
        false => random.index(fields.len() + 1),
    };
    fields.insert(again, fields[place]);
}

/// Puts the fields in any order but the one they have.
fn shuffle(random: &mut Random, fields: &mut [&[u8]]) {
    let before = fields.to_vec();
    random.shuffle(fields);
    if fields == before {
        fields.reverse();
    }
}

/// The place of a field's column among these names; behind all of them where it has none.
fn column(names: &[&str], field: &[u8]) -> usize {
    let named = |name: &&str| field.starts_with(format!(" ({name} ").as_bytes());
    names.iter().position(named).unwrap_or(names.len())
}

/// Whether a line is no form for the order of its fields alone: with each column's first field,
/// and these in the order of their columns, it is one. The line may be a preview.
pub fn is_out_of_order(line: &[u8]) -> bool {
    let form = lines::previewed(line).unwrap_or(line);
    let Some((head, mut fields)) = cut(form).filter(|_| lines::read(form).is_none()) else {
        return false;
    };
    let names: &[&str] = if head.starts_with(b"(settle ") { &DIGESTER_NAMES } else { &ASM1_NAMES };
    fields.sort_by_key(|field| column(names, field));
    fields.dedup_by_key(|field| column(names, field));
    matches!(lines::read(&joined(head, &fields)), Some(Asked::Call(_)))
}

#[cfg(test)]
mod tests {
    use super::*;
    use crate::plant::Plant;
    use crate::trials::Trial;

    /// A line is out of order where it would be a form in order, and not where it is one
    /// already or is none for another reason too.
    #[test]
    fn lines_out_of_order() {
        let out = [
            "(receive (xs 1) (ss 2))",
            "(receive (ss 1) (ss 2))",
            "(settle 0 (xi 1) (sac 2))",
            "(accept 5 (xs 1) (ss 2))",
            "(accept 5 (ss 1) (ss 2))",
            "(preview (receive (xs 1) (ss 2)))",
            "(preview (settle 0 (xi 1) (sac 2)))",
            "(preview (accept 0 (salk 1) (si 2)))",
        ];
        assert!(out.iter().all(|line| is_out_of_order(line.as_bytes())));
        let not = [
            "",
            "(feed 1)",
            "(receive)",
            "(receive (ss 1))",
            "(receive (ss 1) (xs 2))",
            "(settle 0 (sac 1) (xi 2))",
            "(receive (xs 1) (ss 02))",
            "(receive (xs 1) (sac 2))",
            "(settle (xi 1) (sac 2))",
            "(accept 5 (ss 1) (xs 2))",
            "(accept 5 (xi 1) (sac 2))",
            "(accept (xs 1) (ss 2))",
            "(feed (xi 1) (sac 2))",
            "(preview (receive (ss 1) (xs 2)))",
            "(preview (receive (xs 1) (ss 02)))",
            "(preview (feed 1) (feed 1))",
            "(preview (preview (feed 1) (feed 1)))",
            "(preview (preview (receive (xs 1) (ss 2))))",
        ];
        assert!(not.iter().all(|line| !is_out_of_order(line.as_bytes())));
    }

    /// Each kind of disorder makes a line that is out of order, also of two fields.
    #[test]
    fn disorder_breaks_the_order() {
        let mut random = Random::new(12);
        let settle = "(settle 7 (sac 1) (xi 2) (sin 3) (cn 4))";
        for form in ["(receive (ss 1) (xs 2))", settle, "(accept 7 (ss 1) (xs 2) (snh 3))"] {
            for _ in 0..1000 {
                let mut line = form.as_bytes().to_vec();
                assert!(disorder(&mut random, &mut line));
                assert!(is_out_of_order(&line), "{}", line.escape_ascii());
            }
        }
        let few = ["(receive)", "(receive (ss 1))", "(settle 7)", "(settle 7 (sin 1))"];
        for form in few.into_iter().chain(["(accept 7)", "(accept 7 (ss 1))", "(feed 1)"]) {
            let mut line = form.as_bytes().to_vec();
            assert!(!disorder(&mut random, &mut line));
            assert_eq!(line, form.as_bytes());
        }
    }

    /// Of random lines some are out of order, each is answered by 11, and the record stays;
    /// most lines are accepted all the same.
    #[test]
    fn random_lines_out_of_order() {
        let (mut out, mut accepted) = (0, 0);
        for number in 0..200 {
            let mut trial = Trial::new(Random::nth(12, number));
            let (mut plant, mut buffer) = (Plant::FRESH, [0; 512]);
            for _ in 0..100 {
                let (before, line) = (plant, trial.line(&plant));
                let answer = lines::answer(&mut plant, &line, &mut buffer);
                accepted += u32::from(answer.starts_with(b"(ok "));
                if is_out_of_order(&line) {
                    out += 1;
                    assert_eq!((answer, plant), (&b"(no 11)"[..], before));
                }
            }
        }
        assert!(out > 800 && accepted > 10_000, "{out} out of order, {accepted} accepted");
    }
}
