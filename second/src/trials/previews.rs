//! Lines as previews: calls that are accepted or refused, and lines that are damaged or out
//! of order. And lines that are nearly previews: nested, without the form's brackets or with
//! other bytes around it, without a form, damaged, or made long.

use super::damage;
use crate::lines::{self, Asked};
use crate::random::Random;

/// What nearly makes a form its preview: what stands before it, and behind it.
const AROUND: [(&str, &str); 20] = [
    ("(preview", ")"),
    ("(preview  ", ")"),
    ("( preview ", ")"),
    (" (preview ", ")"),
    ("(preview ", " )"),
    ("(preview ", ") "),
    ("(preview ", ")\r"),
    ("(preview ", ""),
    ("(preview ", "))"),
    ("(preview (", "))"),
    ("((preview ", "))"),
    ("preview ", ""),
    ("(preview\t", ")"),
    ("(Preview ", ")"),
    ("(previews ", ")"),
    ("(previe ", ")"),
    ("(preview 1 ", ")"),
    ("(preview (feed 1) ", ")"),
    ("(preview ", " (feed 1))"),
    ("(preview ", " 1)"),
];

/// Lines with the word and without a form.
const NO_FORM: [&str; 9] = [
    "(preview)",
    "(preview )",
    "(preview 1)",
    "(preview ())",
    "(preview (held))",
    "(preview (feed))",
    "(preview (preview))",
    "(preview (preview ))",
    "(preview (preview ()))",
];

/// The preview of a line.
pub fn preview(line: &[u8]) -> Vec<u8> {
    [b"(preview ", line, b")"].concat()
}

/// A line that is nearly the preview of this one; seldom it still is.
pub fn near(random: &mut Random, line: &[u8]) -> Vec<u8> {
    let mut near = preview(line);
    match random.below(7) {
        0 | 1 => near = nested(line, random.one_of(&[2, 2, 3, 10, 101])),
        2 => near = around(random, line),
        3 => near = random.one_of(&NO_FORM).into(),
        4 => near = preview(inside(line)),
        5 => damage::damage(random, &mut near),
        _ => damage::lengthen(random, &mut near),
    }
    near
}

/// So many previews, each inside the next one, around a line.
pub fn nested(line: &[u8], depth: usize) -> Vec<u8> {
    (0..depth).fold(line.to_vec(), |inner, _| preview(&inner))
}

/// A line with what nearly makes it a preview around it.
fn around(random: &mut Random, line: &[u8]) -> Vec<u8> {
    let (before, behind) = random.one_of(&AROUND);
    [before.as_bytes(), line, behind.as_bytes()].concat()
}

/// A line without its first and last byte, which are the brackets of a form.
fn inside(line: &[u8]) -> &[u8] {
    line.get(1..line.len().saturating_sub(1)).unwrap_or(line)
}

/// Whether a line is a preview inside a preview, of a form, at any depth.
pub fn is_nested(line: &[u8]) -> bool {
    lines::previewed(line).is_some_and(|inner| {
        matches!(lines::read(inner), Some(Asked::Preview(_))) || is_nested(inner)
    })
}

#[cfg(test)]
mod tests {
    use super::*;
    use crate::trials::Trial;

    /// A form of each call.
    const FORMS: [&str; 8] = [
        "(receive (ss 1) (xs 2))",
        "(feed 1000)",
        "(settle 7 (sac 1) (xi 2))",
        "(return 1000)",
        "(release 1)",
        "(recycle 500)",
        "(draw 20)",
        "(accept 5 (ss 1) (sno 2))",
    ];

    /// Whether a line is a form.
    fn is_form(line: &[u8]) -> bool {
        lines::read(line).is_some()
    }

    /// The preview of a form is one, and what is nearly its preview is not.
    #[test]
    fn near_previews_are_no_forms() {
        for form in FORMS.map(str::as_bytes) {
            assert!(is_form(form) && is_form(&preview(form)) && !is_form(&preview(inside(form))));
            for (before, behind) in AROUND {
                let line = [before.as_bytes(), form, behind.as_bytes()].concat();
                assert!(!is_form(&line), "{}", line.escape_ascii());
            }
        }
        assert!(NO_FORM.iter().all(|line| !is_form(line.as_bytes())));
    }

    /// Only a preview whose form is a preview is nested, however deep.
    #[test]
    fn nested_previews() {
        for form in FORMS.map(str::as_bytes) {
            assert!(!is_nested(form) && !is_nested(&preview(form)));
            for depth in [2, 3, 10, 101] {
                let line = nested(form, depth);
                assert!(is_nested(&line) && !is_form(&line), "{}", line.escape_ascii());
                assert_eq!(line.len(), form.len() + 10 * depth);
            }
        }
        for line in NO_FORM.iter().chain(&["(preview (preview (feed 01)))", "(previews (feed 1))"])
        {
            assert!(!is_nested(line.as_bytes()), "{line}");
        }
    }

    /// How often random lines were a preview that is accepted or refused, nested, nearly a
    /// preview, as long as a line may be and a byte longer, and a line behind its own preview.
    #[derive(Default, Debug)]
    struct Met {
        accepted: u32,
        refused: u32,
        nested: u32,
        near: u32,
        longest: u32,
        too_long: u32,
        behind: u32,
    }

    impl Met {
        /// Counts a line, with the one before it.
        fn count(&mut self, last: &[u8], line: &[u8], answer: &[u8]) {
            let has_word = line.starts_with(b"(preview ");
            let counted = match lines::read(line) {
                Some(Asked::Preview(_)) if answer.starts_with(b"(ok ") => &mut self.accepted,
                Some(Asked::Preview(_)) => &mut self.refused,
                None if is_nested(line) => &mut self.nested,
                None if has_word && line.len() == lines::LONGEST_LINE => &mut self.longest,
                None if has_word && line.len() == lines::LONGEST_LINE + 1 => &mut self.too_long,
                None if has_word => &mut self.near,
                _ if *last == preview(line) => &mut self.behind,
                _ => return,
            };
            *counted += 1;
        }
    }

    /// Random lines have all of these among them, and none of them moves the record.
    #[test]
    fn random_lines_with_previews() {
        let mut met = Met::default();
        for number in 0..500 {
            let mut trial = Trial::new(Random::nth(16, number));
            let (mut plant, mut last) = (trial.record(), Vec::new());
            for _ in 0..100 {
                let (before, line, mut buffer) = (plant, trial.line(&plant), [0; 512]);
                let answer = lines::answer(&mut plant, &line, &mut buffer);
                met.count(&last, &line, answer);
                assert!(plant == before || !line.starts_with(b"(preview "));
                last = line;
            }
        }
        let Met { accepted, refused, nested, near, longest, too_long, behind } = met;
        assert!(accepted > 3000 && refused > 1000 && behind > 3000, "{met:?}");
        assert!(nested > 300 && near > 500 && longest > 10 && too_long > 10, "{met:?}");
    }
}
