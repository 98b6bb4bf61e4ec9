//! Request E12 of document 02: the side-stream reactor. Water is drawn for it as a release hands
//! water out, and a vector comes back with ticks of nitrite, of which floor(3n / 5) join the
//! sludge's nitrate and the rest is told as N2. Nitrite of each kind, the refusals 15, 1, 3 and 10
//! in their order, nitrate that passes its ceiling by nitrite alone, draws beside releases, lines,
//! previews, written lines, lengths of answers, worked lists with their balances, and random lists
//! by the rule in whole numbers without a ceiling. Outside the lists each call is made by numbers,
//! as its written line and as the preview of that.

mod named;

use named::{asm1, with_digester, with_sludge};
use second::balances::{numbers_in, Balances};
use second::figures::{Figures, HOUSE};
use second::lengths::answer_bytes;
use second::lines::{self, Asked};
use second::plant::{Call, Plant, Refusal, Told};
use second::random::Random;
use second::tables::*;
use second::trials::figures::{just_outside, DAIRY};
use second::trials::previews::nested;
use second::trials::{reactor, writing as written_calls, Trial};
use second::{numbers, session, writing};

/// The ceiling of nitrite, and of every column of ticks.
const MOST: u64 = 10_000_000_000_000_000;

/// A record with every column at its ceiling.
const FULL: Plant = Plant {
    sludge: ASM1_CEILINGS,
    digester: DIGESTER_CEILINGS,
    reject: ASM1_CEILINGS,
    figures: HOUSE,
};

/// A fresh record whose reject tank is this.
fn with_reject(reject: Asm1) -> Plant {
    Plant { reject, ..Plant::FRESH }
}

/// The answer to one line on a record, as text.
fn answer(plant: &mut Plant, line: &[u8]) -> String {
    String::from_utf8(lines::answer(plant, line, &mut [0; 512]).to_vec()).unwrap()
}

/// The line that is written for this, without its newline; it is read back.
fn written(asked: &Asked) -> Vec<u8> {
    let mut buffer = [0; 1025];
    let length = writing::write(asked, &mut buffer).unwrap();
    let line = buffer[..length].strip_suffix(b"\n").unwrap();
    assert_eq!(lines::read(line).as_ref(), Some(asked), "{}", line.escape_ascii());
    line.to_vec()
}

/// Checks the written line of a call, which leads to this record, and that of its preview, which
/// changes nothing: both are answered so, and as long an answer is told ahead.
fn as_lines(before: &Plant, call: &Call, expected: &str, after: &Plant) {
    for (preview, after) in [(0, after), (1, before)] {
        let line = written(&writing::asked(call.clone(), preview));
        let mut plant = *before;
        assert_eq!(answer(&mut plant, &line), expected, "{}", line.escape_ascii());
        assert_eq!(&plant, after, "{}", line.escape_ascii());
        let held = lines::held(after, &mut [0; 512]).len();
        let length = (expected.len() + 1 + held + 1) as u64;
        assert_eq!(answer_bytes(before, &line).numbers(), [length, 0], "{expected}");
    }
}

/// A refusal as an answer, or what an accepted call is answered with.
fn said(refusal: u64, accepted: String) -> String {
    match refusal {
        0 => accepted,
        _ => format!("(no {refusal})"),
    }
}

/// An accept on a copy of a record: the refusal, the N2 that is told, and the record then.
fn accept(plant: &Plant, v: &Asm1, nitrite: u64) -> (u64, u64, Plant) {
    let (mut record, mut told) = (plant.columns(), [u64::MAX]);
    let refusal = numbers::accept(&mut record, v, nitrite, &mut told);
    let after = Plant::from_columns(&record);
    let expected = said(refusal, format!("(ok accept n2 {})", told[0]));
    as_lines(plant, &Call::Accept(*v, nitrite), &expected, &after);
    (refusal, told[0], after)
}

/// Checks an accept that leads to this sludge tank and tells so much N2.
fn accepted(plant: &Plant, v: &Asm1, nitrite: u64, n2: u64, sludge: Asm1) {
    let expected = (0, n2, Plant { sludge, ..*plant });
    assert_eq!(accept(plant, v, nitrite), expected, "{v:?} {nitrite}");
}

/// Checks that an accept is refused by this number, tells zero and changes nothing.
fn refused(plant: &Plant, v: &Asm1, nitrite: u64, refusal: Refusal) {
    let expected = (refusal as u64, 0, *plant);
    assert_eq!(accept(plant, v, nitrite), expected, "{plant:?} {v:?} {nitrite}");
}

/// A draw on a copy of a record: the refusal, the vector that is handed out, and the record then.
fn draw(plant: &Plant, k: u64) -> (u64, Asm1, Plant) {
    let (mut record, mut v) = (plant.columns(), [u64::MAX; 13]);
    let refusal = numbers::draw(&mut record, k, &mut v);
    let after = Plant::from_columns(&record);
    let columns = ASM1_NAMES.iter().zip(v).map(|(name, n)| format!(" ({name} {n})"));
    let expected = said(refusal, format!("(ok draw{})", columns.collect::<String>()));
    as_lines(plant, &Call::Draw(k), &expected, &after);
    (refusal, v, after)
}

/// Checks that a draw is the release of as many thousandths by another word.
fn draw_as_release(plant: &Plant, k: u64) {
    let (mut record, mut v) = (plant.columns(), [7; 13]);
    let refusal = numbers::release(&mut record, k, &mut v);
    assert_eq!(draw(plant, k), (refusal, v, Plant::from_columns(&record)), "{plant:?} {k}");
    let (mut by_release, mut by_draw) = (*plant, *plant);
    let released = answer(&mut by_release, format!("(release {k})").as_bytes());
    let drawn = answer(&mut by_draw, format!("(draw {k})").as_bytes());
    assert_eq!(drawn, released.replacen("(ok release ", "(ok draw ", 1));
    assert_eq!(by_draw, by_release);
}

/// An empty vector, and one with so much nitrate.
const NOTHING: Asm1 = [0; 13];

fn nitrate(sno: u64) -> Asm1 {
    asm1(&[("sno", sno)])
}

/// None to nine ticks of nitrite: what joins the nitrate, and the N2.
#[test]
fn few_ticks() {
    let shares = [(0, 0), (0, 1), (1, 1), (1, 2), (2, 2), (3, 2), (3, 3), (4, 3), (4, 4), (5, 4)];
    for (nitrite, (joins, n2)) in (0..).zip(shares) {
        assert_eq!(joins + n2, nitrite);
        accepted(&Plant::FRESH, &NOTHING, nitrite, n2, nitrate(joins));
        let held = with_sludge(&[("ss", 3), ("sno", 70)]);
        let sludge = asm1(&[("ss", 3), ("sno", 75 + joins), ("snh", 2)]);
        accepted(&held, &asm1(&[("sno", 5), ("snh", 2)]), nitrite, n2, sludge);
    }
}

/// The greatest nitrite, and the five below it.
#[test]
fn nitrite_at_its_ceiling() {
    let (joins, n2) = (6_000_000_000_000_000, 4_000_000_000_000_000);
    let below = [(0, 0), (1, 0), (2, 0), (2, 1), (3, 1), (3, 2)];
    for (less, (joins_less, n2_less)) in (0..).zip(below) {
        let sludge = nitrate(joins - joins_less);
        accepted(&Plant::FRESH, &NOTHING, MOST - less, n2 - n2_less, sludge);
    }
    let room = with_sludge(&[("sno", n2)]);
    accepted(&room, &NOTHING, MOST, n2, nitrate(MOST));
    accepted(&Plant::FRESH, &nitrate(n2), MOST, n2, nitrate(MOST));
}

/// Nitrite above its ceiling gets 3: by one, by much, where three times it passes 64 bits and
/// where it is small again then.
#[test]
fn nitrite_above_its_ceiling() {
    let third = u64::MAX / 3;
    let above = [MOST + 1, MOST + 2, 2 * MOST, 1 << 54, 1 << 63, third, third + 1, third + 2];
    for nitrite in above.into_iter().chain([2 * third + 1, u64::MAX - 1, u64::MAX]) {
        refused(&Plant::FRESH, &NOTHING, nitrite, Refusal::ColumnAboveCeiling);
        refused(&Plant::FRESH, &[1; 13], nitrite, Refusal::ColumnAboveCeiling);
        refused(&FULL, &NOTHING, nitrite, Refusal::ColumnAboveCeiling);
    }
}

/// Every column goes to its own; digester and reject stay as they are, and so do the figures.
#[test]
fn column_by_column() {
    let before = Plant { sludge: [100; 13], digester: [5; 26], reject: [3; 13], figures: DAIRY };
    let v = std::array::from_fn(|column| 10 + column as u64);
    let mut sludge = std::array::from_fn(|column| 110 + column as u64);
    accepted(&before, &v, 0, 0, sludge);
    sludge[asm1::SNO] += 607;
    accepted(&before, &v, 1012, 405, sludge);
    for column in 0..13 {
        let mut one = NOTHING;
        one[column] = 7;
        let mut sludge = before.sludge;
        sludge[column] += 7;
        accepted(&before, &one, 1, 1, sludge);
        sludge[asm1::SNO] += 1;
        accepted(&before, &one, 3, 2, sludge);
    }
}

/// Every sludge column may reach its ceiling and not pass it, each by itself.
#[test]
fn sludge_at_its_ceiling() {
    for (column, ceiling) in ASM1_CEILINGS.into_iter().enumerate() {
        let (mut plant, mut v) = (Plant::FRESH, NOTHING);
        (plant.sludge[column], v[column]) = (ceiling - 9, 9);
        let mut sludge = NOTHING;
        sludge[column] = ceiling;
        accepted(&plant, &v, 1, 1, sludge);
        v[column] = 10;
        refused(&plant, &v, 0, Refusal::DestinationAboveCeiling);
        (plant.sludge[column], v[column]) = (0, ceiling);
        accepted(&plant, &v, 0, 0, sludge);
        plant.sludge[column] = 1;
        refused(&plant, &v, 0, Refusal::DestinationAboveCeiling);
    }
}

/// Nitrate that fits without the nitrite gets 10 where the nitrite's share passes the ceiling, and
/// not for its N2: with room for so many ticks, the greatest nitrite that fits and the next one.
#[test]
fn nitrate_above_by_its_nitrite_alone() {
    let fits = [(0, 1), (1, 3), (2, 4), (3, 6), (4, 8), (5, 9), (6, 11), (600, 1001)];
    let great = [(4_000_000_000_000_000, 6_666_666_666_666_668)];
    for (room, nitrite) in fits.into_iter().chain(great) {
        for held in [0, 1, 12_345, (MOST - room) / 2, MOST - room - 1, MOST - room] {
            let (plant, v) = (with_sludge(&[("sno", held)]), nitrate(MOST - room - held));
            accepted(&plant, &v, 0, 0, nitrate(MOST - room));
            let n2 = nitrite - room;
            accepted(&plant, &v, nitrite, n2, nitrate(MOST));
            refused(&plant, &v, nitrite + 1, Refusal::DestinationAboveCeiling);
            refused(&plant, &v, MOST, Refusal::DestinationAboveCeiling);
        }
    }
}

/// Tank, vector and nitrite at their ceilings together do not wrap; a full tank takes nothing but
/// what has no share.
#[test]
fn full_tanks() {
    refused(&FULL, &ASM1_CEILINGS, MOST, Refusal::DestinationAboveCeiling);
    refused(&Plant::FRESH, &ASM1_CEILINGS, MOST, Refusal::DestinationAboveCeiling);
    refused(&Plant::FRESH, &ASM1_CEILINGS, 2, Refusal::DestinationAboveCeiling);
    accepted(&Plant::FRESH, &ASM1_CEILINGS, 1, 1, ASM1_CEILINGS);
    for nitrite in [0, 1] {
        accepted(&FULL, &NOTHING, nitrite, nitrite, ASM1_CEILINGS);
    }
    refused(&FULL, &NOTHING, 2, Refusal::DestinationAboveCeiling);
}

/// A column of the vector above its ceiling gets 3, each by itself, whatever the nitrite; nitrate
/// within its ceiling does not, though with its share it is above.
#[test]
fn column_above_its_ceiling() {
    for (column, ceiling) in ASM1_CEILINGS.into_iter().enumerate() {
        for above in [ceiling + 1, 2 * ceiling, u64::MAX] {
            let mut v = [1; 13];
            v[column] = above;
            for nitrite in [0, 1, 2, MOST, MOST + 1, u64::MAX] {
                refused(&Plant::FRESH, &v, nitrite, Refusal::ColumnAboveCeiling);
            }
        }
    }
    refused(&Plant::FRESH, &nitrate(MOST), MOST, Refusal::DestinationAboveCeiling);
}

/// Records of which each column is above its ceiling, by one and at the greatest number.
fn records_above() -> impl Iterator<Item = Plant> {
    let ceilings = [&ASM1_CEILINGS[..], &DIGESTER_CEILINGS, &ASM1_CEILINGS].concat();
    let above = |(column, ceiling): (usize, u64)| {
        [ceiling + 1, u64::MAX].map(|above| {
            let mut record = FULL.columns();
            record[column] = above;
            Plant::from_columns(&record)
        })
    };
    ceilings.into_iter().enumerate().flat_map(above)
}

/// A record above a ceiling is refused by 1, before 2, 3 and 10; with figures out of bounds by 15.
#[test]
fn refused_records() {
    for plant in records_above() {
        for (v, nitrite) in [(NOTHING, 0), (NOTHING, MOST + 1), ([u64::MAX; 13], 2)] {
            refused(&plant, &v, nitrite, Refusal::RecordAboveCeiling);
        }
        for k in [0, 1, 1000, 1001] {
            assert_eq!(draw(&plant, k), (1, NOTHING, plant));
        }
    }
    for figures in just_outside(&HOUSE) {
        for plant in records_above().chain([Plant::FRESH]).map(|plant| Plant { figures, ..plant }) {
            refused(&plant, &NOTHING, 0, Refusal::FiguresOutOfBounds);
            refused(&plant, &[u64::MAX; 13], u64::MAX, Refusal::FiguresOutOfBounds);
            assert_eq!(draw(&plant, 1000), (15, NOTHING, plant));
            assert_eq!(draw(&plant, 0), (15, NOTHING, plant));
        }
    }
}

/// Of every combination of the faults of an accept the first in order is told.
#[test]
fn refusals_of_an_accept_in_order() {
    for faults in 0..32u32 {
        let has = |fault: u32| faults >> fault & 1 == 1;
        let (mut plant, mut v, mut nitrite) = (Plant::FRESH, [4; 13], 9);
        plant.figures.nxc *= u64::from(!has(0));
        plant.digester[digester::SIC] = COD_CEILING + u64::from(has(1));
        v[asm1::SALK] += COD_CEILING * u64::from(has(2));
        nitrite += MOST * u64::from(has(3));
        // Nitrite within its ceiling has a share of 5.
        plant.sludge[asm1::SNO] = MOST - 4 - 5 + u64::from(has(4));
        let order = [15, 1, 3, 3, 10];
        let first = (0..5).find(|&fault| has(fault)).map_or(0, |fault| order[fault as usize]);
        let (refusal, n2, after) = accept(&plant, &v, nitrite);
        assert_eq!(refusal, first, "{faults:05b}");
        match refusal {
            0 => assert_eq!((n2, after.sludge[asm1::SNO]), (4, MOST)),
            _ => assert_eq!((n2, after), (0, plant)),
        }
    }
}

/// Of every combination of the faults of a draw the first in order is told.
#[test]
fn refusals_of_a_draw_in_order() {
    for (faults, k) in (0..8u32).flat_map(|faults| [0, 1001, u64::MAX].map(|k| (faults, k))) {
        let has = |fault: u32| faults >> fault & 1 == 1;
        let mut plant = with_reject([2000; 13]);
        plant.figures.naa *= u64::from(!has(0));
        plant.sludge[asm1::XND] = MOST + u64::from(has(1));
        let k = if has(2) { k } else { 500 };
        let first = (0..3).find(|&fault| has(fault)).map(|fault| [15, 1, 2][fault as usize]);
        let (refusal, v, after) = draw(&plant, k);
        assert_eq!(refusal, first.unwrap_or(0), "{faults:03b} {k}");
        match refusal {
            0 => assert_eq!((v, after), ([1000; 13], Plant { reject: [1000; 13], ..plant })),
            _ => assert_eq!((v, after), (NOTHING, plant)),
        }
    }
}

/// The floor of each reject column is handed out; the rest, and the other tanks, stay.
#[test]
fn draws_floor() {
    let reject = std::array::from_fn(|column| 1000 * column as u64 + 999);
    let before = Plant { sludge: [7; 13], digester: [5; 26], reject, figures: HOUSE };
    let half = std::array::from_fn(|column| 500 * column as u64 + 499);
    let rest = std::array::from_fn(|column| 500 * column as u64 + 500);
    assert_eq!(draw(&before, 500), (0, half, Plant { reject: rest, ..before }));
    assert_eq!(draw(&before, 1000), (0, reject, Plant { reject: NOTHING, ..before }));
    let plant = with_reject([1999; 13]);
    for (k, drawn) in [(1, 1), (999, 1997), (1000, 1999)] {
        assert_eq!(draw(&plant, k), (0, [drawn; 13], with_reject([1999 - drawn; 13])));
    }
    assert_eq!(draw(&FULL, 1000), (0, ASM1_CEILINGS, Plant { reject: NOTHING, ..FULL }));
    assert_eq!(draw(&Plant::FRESH, 1000), (0, NOTHING, Plant::FRESH));
}

/// Each k from 0 to 1,002 and greater ones, on tanks of all sizes: a draw is a release by another
/// word.
#[test]
fn draws_beside_releases() {
    let growing: Asm1 = std::array::from_fn(|column| 7 * 11u64.pow(column as u32) % 1_000_000);
    let no_figures = Plant { figures: Figures { fch: 0, fli: 0, ..HOUSE }, ..FULL };
    let above = with_reject(asm1(&[("salk", COD_CEILING + 1)]));
    let plants =
        [Plant::FRESH, with_reject([1; 13]), with_reject(growing), FULL, above, no_figures];
    for plant in plants {
        for k in (0..=1002).chain([1 << 32, (1 << 32) + 1, 1 << 63, u64::MAX]) {
            draw_as_release(&plant, k);
        }
    }
}

/// Lines that are forms, with the call each is.
#[test]
fn lines_that_are_forms() {
    let reads = |line: &str, call: Call| {
        assert_eq!(lines::read(line.as_bytes()), Some(Asked::Call(call.clone())), "{line}");
        let preview = format!("(preview {line})");
        assert_eq!(lines::read(preview.as_bytes()), Some(Asked::Preview(call)), "{line}");
    };
    reads("(draw 0)", Call::Draw(0));
    reads("(draw 1000)", Call::Draw(1000));
    reads("(draw 18446744073709551615)", Call::Draw(u64::MAX));
    reads("(accept 0)", Call::Accept(NOTHING, 0));
    reads("(accept 18446744073709551615)", Call::Accept(NOTHING, u64::MAX));
    reads("(accept 5 (ss 0))", Call::Accept(NOTHING, 5));
    let v = asm1(&[("si", 1), ("sno", u64::MAX), ("salk", 3)]);
    reads("(accept 9 (si 1) (sno 18446744073709551615) (salk 3))", Call::Accept(v, 9));
    let v = std::array::from_fn(|column| 20 + column as u64);
    let all =
        "(accept 10000000000000000 (si 20) (ss 21) (xi 22) (xs 23) (xbh 24) (xba 25) (xp 26) \
        (so 27) (sno 28) (snh 29) (snd 30) (xnd 31) (salk 32))";
    reads(all, Call::Accept(v, MOST));
}

/// Two fields of an accept are a form exactly where the second one's column stands behind the
/// first one's; names of digester columns are none.
#[test]
fn fields_in_order() {
    for (first, one) in ASM1_NAMES.iter().enumerate() {
        for (second, other) in ASM1_NAMES.iter().enumerate() {
            let line = format!("(accept 7 ({one} 1) ({other} 2))");
            let call = Call::Accept(asm1(&[(one, 1), (other, 2)]), 7);
            let expected = (first < second).then_some(Asked::Call(call));
            assert_eq!(lines::read(line.as_bytes()), expected, "{line}");
        }
    }
    for name in DIGESTER_NAMES.iter().filter(|name| !ASM1_NAMES.contains(name)) {
        assert_eq!(lines::read(format!("(accept 7 ({name} 1))").as_bytes()), None, "{name}");
    }
}

/// Lines that are no forms, each of them nearly one.
const BROKEN: [&str; 66] = [
    "(draw)",
    "(draw )",
    "(draw  1)",
    "(draw 1 )",
    "( draw 1)",
    "(draw\t1)",
    "(draw 01)",
    "(draw 00)",
    "(draw 1 2)",
    "(draw 1 (ss 1))",
    "(draw (ss 1))",
    "(draw 18446744073709551616)",
    "(draw -1)",
    "(draw +1)",
    "(draw 1.0)",
    "(draw 1",
    "(draw 1))",
    "(draw 1)x",
    "(draw1)",
    "(dra 1)",
    "(draws 1)",
    "(drawn 1)",
    "(Draw 1)",
    "draw 1",
    "(ok draw)",
    "(accept)",
    "(accept )",
    "(accept (ss 1))",
    "(accept (ss 1) 5)",
    "(accept  5)",
    "(accept 5 )",
    "(accept 05)",
    "(accept 00)",
    "(accept 5 5)",
    "(accept 5(ss 1))",
    "(accept 5  (ss 1))",
    "(accept 5 (ss 1) )",
    "(accept 5 (ss 1)(xs 1))",
    "(accept 5 (xs 1) (ss 1))",
    "(accept 5 (ss 1) (ss 1))",
    "(accept 5 (ss 0) (ss 0))",
    "(accept 5 (n2 1))",
    "(accept 5 (N 1))",
    "(accept 5 (SS 1))",
    "(accept 5 (ss))",
    "(accept 5 (ss 01))",
    "(accept 5 (ss 1)",
    "(accept 5 ss 1)",
    "(accept n2 5)",
    "(accept N)",
    "(accept 18446744073709551616)",
    "(accept 99999999999999999999)",
    "(accept 5 (ss 18446744073709551616))",
    "(accept -5)",
    "(accept 5.0)",
    "(accept 5",
    "(accept 5))",
    "((accept 5))",
    "(accept5)",
    "(accepts 5)",
    "(accep 5)",
    "(accepted 5)",
    "(Accept 5)",
    "accept 5",
    "(ok accept n2 5)",
    " (accept 5)",
];

/// Each of them gets 11, and so does its preview, on any record.
#[test]
fn lines_that_are_no_forms() {
    let above = with_sludge(&[("ss", COD_CEILING + 1)]);
    let no_figures = Plant { figures: Figures { naa: 0, ..HOUSE }, ..above };
    for plant in [Plant::FRESH, FULL, above, no_figures] {
        for line in BROKEN {
            for line in [line.into(), format!("(preview {line})"), format!("{line}\r")] {
                let mut after = plant;
                assert_eq!(answer(&mut after, line.as_bytes()), "(no 11)", "{line}");
                assert_eq!(after, plant);
            }
        }
    }
    for form in [&b"(draw 1000)"[..], b"(accept 5 (ss 1))"] {
        for depth in [2, 3, 10] {
            assert_eq!(answer(&mut FULL.clone(), &nested(form, depth)), "(no 11)");
        }
    }
}

/// A buffer of 511 bytes is refused before all else and stays as it was; in one of 512 the bytes
/// behind the answer keep their values.
#[test]
fn lent_buffer() {
    let bytes = |length: usize| vec![0xa5u8; length];
    for line in [&b"(draw 1000)"[..], b"(accept 5)", b"(preview (draw 1))", b"(accept)"] {
        for length in [0, 1, 511] {
            let (mut plant, mut buffer) = (FULL, bytes(length));
            assert!(lines::answer(&mut plant, line, &mut buffer).is_empty());
            assert_eq!((plant, buffer), (FULL, bytes(length)));
        }
        let mut buffer = bytes(512);
        let length = lines::answer(&mut FULL.clone(), line, &mut buffer).len();
        assert!(length > 0 && buffer[length - 1] == b')');
        assert!(buffer[length..].iter().all(|&byte| byte == 0xa5));
    }
}

/// Both calls by numbers, between others; what is told is written whatever stood there.
#[test]
fn by_numbers() {
    let mut record = with_digester(&[("ssu", 9), ("sin", 7), ("cn", 5)]).columns();
    let (mut v, mut n2) = ([u64::MAX; 13], [u64::MAX]);
    assert_eq!(numbers::give_back(&mut record, 1000, &mut [0]), 0);
    assert_eq!(numbers::draw(&mut record, 500, &mut v), 0);
    assert_eq!(v, asm1(&[("ss", 4), ("sno", 2), ("snh", 3)]));
    assert_eq!(numbers::accept(&mut record, &v, 8, &mut n2), 0);
    assert_eq!(n2, [4]);
    let sludge = asm1(&[("ss", 4), ("sno", 6), ("snh", 3)]);
    let reject = asm1(&[("ss", 5), ("sno", 3), ("snh", 4)]);
    assert_eq!(Plant::from_columns(&record), Plant { sludge, reject, ..Plant::FRESH });
    assert_eq!(numbers::draw(&mut record, 0, &mut v), 2);
    assert_eq!(numbers::accept(&mut record, &v, MOST + 1, &mut n2), 3);
    assert_eq!((v, n2), (NOTHING, [0]));
    let mut plant = Plant { sludge, reject, ..Plant::FRESH };
    assert_eq!(plant.call(&Call::Draw(1000)), Ok(Told::Drawn(reject)));
    assert_eq!(plant.call(&Call::Accept(reject, 1)), Ok(Told::Accepted(1)));
    assert_eq!(plant, with_sludge(&[("ss", 9), ("sno", 9), ("snh", 7)]));
}

/// What is told of an answer: its numbers alone, and n2 is a word.
#[test]
fn numbers_of_answers() {
    assert_eq!(numbers_in(b"(ok accept n2 0)"), [0]);
    assert_eq!(numbers_in(b"(ok accept n2 4000000000000000)"), [4_000_000_000_000_000]);
    let (mut plant, columns) = (with_reject([22; 13]), [11; 13]);
    assert_eq!(numbers_in(answer(&mut plant, b"(draw 500)").as_bytes()), columns);
    assert_eq!(numbers_in(b"(no 10)"), [10]);
    assert_eq!(numbers_in(b"(held cod 1 tkn 20 oxygen 300 nitrate 4000)"), [1, 20, 300, 4000]);
}

/// A plant whose reject water goes through the reactor, each line with its answer.
const THROUGH_THE_REACTOR: [(&str, &str); 13] = [
    ("(receive (xi 10) (so 7) (sno 100) (snh 50) (salk 3))", "(ok receive)"),
    ("(feed 1000)", "(ok feed burnt 0 oxygen 0 nitrate 0 warn 1)"),
    ("(return 1000)", "(ok return stripped 0)"),
    (
        "(draw 500)",
        "(ok draw (si 0) (ss 0) (xi 4) (xs 1) (xbh 0) (xba 0) (xp 0) (so 3) (sno 50) (snh 905) \
        (snd 0) (xnd 0) (salk 1))",
    ),
    ("(preview (accept 603 (xi 4) (sno 50) (snh 302)))", "(ok accept n2 242)"),
    ("(accept 603 (xi 4) (sno 50) (snh 302))", "(ok accept n2 242)"),
    ("(accept 10000000000000001)", "(no 3)"),
    ("(draw 0)", "(no 2)"),
    ("(receive (ss 2))", "(ok receive)"),
    ("(feed 1000)", "(ok feed burnt 1 oxygen 0 nitrate 411 warn 0)"),
    (
        "(draw 1000)",
        "(ok draw (si 0) (ss 0) (xi 4) (xs 1) (xbh 0) (xba 0) (xp 0) (so 4) (sno 50) (snh 905) \
        (snd 0) (xnd 0) (salk 2))",
    ),
    ("(accept 9 (so 1))", "(ok accept n2 4)"),
    (
        "(release 1000)",
        "(ok release (si 0) (ss 0) (xi 0) (xs 0) (xbh 0) (xba 0) (xp 0) (so 0) (sno 0) (snh 0) \
        (snd 0) (xnd 0) (salk 0))",
    ),
];

/// What is held after it: ssu 1, xi 3, xc 1 and sin 2702 in the digester, so 1 and sno 5 in the
/// sludge tank.
const THROUGH_THE_REACTOR_HELD: &str = "(held cod 5 tkn 3822 oxygen 1 nitrate 5)";

/// Its answers by hand, how long they are told to be, and its four balances.
///
/// COD: received 10, accepted 4, received 2; drawn twice 5, burnt 1. TKN: received 50 + 10 × 880,
/// accepted 302 + 4 × 880; drawn twice 905 + 4 × 880. Oxygen: received 7, accepted 1; drawn 3 and
/// 4. Nitrate: received 100, accepted 50 with 603 ticks of nitrite, and 9 more; drawn twice 50,
/// reduced 411, N2 242 and 4.
#[test]
fn through_the_reactor() {
    let lines = THROUGH_THE_REACTOR.map(|(line, _)| line);
    let input = lines.join("\n");
    let answers: String =
        THROUGH_THE_REACTOR.iter().map(|(_, answer)| format!("{answer}\n")).collect();
    let mut printed = Vec::new();
    session::run(&mut input.as_bytes(), &mut printed).unwrap();
    assert_eq!(answer_bytes(&Plant::FRESH, input.as_bytes()).bytes, printed.len() as u64);
    let expected = format!("{answers}{THROUGH_THE_REACTOR_HELD}\n");
    assert_eq!(String::from_utf8(printed).unwrap(), expected);
    let mut balances = Balances::default();
    for (line, answer) in THROUGH_THE_REACTOR {
        balances.count_line(line.as_bytes(), answer.as_bytes());
    }
    assert_eq!(balances.received, [10 + 4 + 2, 8850 + 3822, 7 + 1, 100 + 50 + 603 + 9]);
    assert_eq!(balances.left, [2 * 5 + 1, 2 * 4425, 3 + 4, 2 * 50 + 411 + 242 + 4]);
    let held: [u64; 4] = numbers_in(THROUGH_THE_REACTOR_HELD.as_bytes()).try_into().unwrap();
    assert_eq!((held, balances.check(held)), ([5, 3822, 1, 5], Ok(())));
}

/// A tank that is filled with nitrite to the last tick. 3 × 6666666666666666 / 5 is
/// 3999999999999999.6.
const TO_THE_LAST_TICK: [(&str, &str); 9] = [
    ("(accept 10000000000000000)", "(ok accept n2 4000000000000000)"),
    ("(accept 10000000000000000)", "(no 10)"),
    ("(accept 6666666666666669)", "(no 10)"),
    ("(accept 6666666666666666)", "(ok accept n2 2666666666666667)"),
    ("(accept 4)", "(no 10)"),
    ("(accept 3)", "(ok accept n2 2)"),
    ("(accept 2)", "(no 10)"),
    ("(accept 1)", "(ok accept n2 1)"),
    ("(accept 0 (sno 1))", "(no 10)"),
];

/// Its answers by hand, and its balance of nitrate.
#[test]
fn filled_to_the_last_tick() {
    let (mut plant, mut balances) = (Plant::FRESH, Balances::default());
    for (line, expected) in TO_THE_LAST_TICK {
        assert_eq!(answer(&mut plant, line.as_bytes()), expected, "{line}");
        balances.count_line(line.as_bytes(), expected.as_bytes());
    }
    assert_eq!(plant, with_sludge(&[("sno", MOST)]));
    assert_eq!(balances.received, [0, 0, 0, 16_666_666_666_666_670]);
    assert_eq!(balances.left, [0, 0, 0, 6_666_666_666_666_670]);
    assert_eq!(balances.check([0, 0, 0, MOST]), Ok(()));
}

/// A dairy's water: TKN of what is drawn and accepted goes by the record's figures. Returned are
/// xs 3 and xi 7 with 3630 + 3 × 410 + 7 × 220 - 7 × 640 ticks of ammonia; drawn are 2 × 640 in xi
/// and 576, accepted 2 × 640 and 80.
#[test]
fn by_a_dairys_figures() {
    let list = [
        ("(receive (xi 10))", "(ok receive)"),
        ("(feed 1000)", "(ok feed burnt 0 oxygen 0 nitrate 0 warn 0)"),
        ("(return 1000)", "(ok return stripped 0)"),
        (
            "(draw 300)",
            "(ok draw (si 0) (ss 0) (xi 2) (xs 0) (xbh 0) (xba 0) (xp 0) (so 0) (sno 0) (snh 576) \
            (snd 0) (xnd 0) (salk 0))",
        ),
        ("(accept 101 (xi 2) (snh 80))", "(ok accept n2 41)"),
    ];
    let mut plant = Plant::fresh(DAIRY);
    let mut balances = Balances::on(&plant);
    for (line, expected) in list {
        assert_eq!(answer(&mut plant, line.as_bytes()), expected, "{line}");
        balances.count_line(line.as_bytes(), expected.as_bytes());
    }
    assert_eq!(balances.received, [12, 6400 + 1280 + 80, 0, 101]);
    assert_eq!(balances.left, [2, 1280 + 576, 0, 41]);
    assert_eq!(balances.check([10, 5904, 0, 60]), Ok(()));
    assert_eq!(plant.held().unwrap().numbers(), [10, 5904, 0, 60]);
}

/// A balance in which a part is left away is open: the nitrite, the N2, the accepted vector, or the
/// drawn one.
#[test]
fn balances_that_would_be_open() {
    let v = asm1(&[("ss", 5), ("so", 2), ("sno", 30), ("snh", 4)]);
    let mut plant = with_reject(v);
    let start = Balances::on(&plant);
    assert_eq!(plant.accept(&v, 7), Ok(3));
    assert_eq!(plant.draw(1000), Ok(v));
    let held = plant.held().unwrap().numbers();
    let counted = |calls: &[(Call, &[u64])]| {
        let mut balances = start;
        calls.iter().for_each(|(call, told)| balances.count(call, told));
        balances.check(held)
    };
    let (draw, accept) = (|| (Call::Draw(1000), &v[..]), |n| (Call::Accept(v, n), &[3][..]));
    assert_eq!(counted(&[draw(), accept(7)]), Ok(()));
    assert!(counted(&[draw(), accept(0)]).is_err());
    assert!(counted(&[draw(), (Call::Accept(v, 7), &[0])]).is_err());
    assert!(counted(&[draw(), (Call::Receive(v), &[])]).is_err());
    assert!(counted(&[accept(7)]).is_err());
    assert!(counted(&[draw()]).is_err());
    assert_eq!(counted(&[(Call::Release(1000), &v), accept(7)]), Ok(()));
}

/// The greatest nitrite again and again, drawn off each time: N2 and received nitrate together
/// pass 64 bits, and the balance closes.
#[test]
fn sums_past_64_bits() {
    let (mut plant, mut balances) = (Plant::FRESH, Balances::default());
    for _ in 0..5000 {
        for line in ["(accept 10000000000000000)", "(feed 1000)", "(return 1000)", "(draw 1000)"] {
            let answer = answer(&mut plant, line.as_bytes());
            assert!(answer.starts_with("(ok "), "{line}");
            balances.count_line(line.as_bytes(), answer.as_bytes());
        }
    }
    let (most, each) = (u128::from(MOST), u128::from(MOST / 5));
    assert_eq!(balances.received, [0, 0, 0, 5000 * most]);
    assert_eq!(balances.left, [0, 0, 0, 5000 * (2 * each + 3 * each)]);
    assert_eq!((plant, balances.check([0; 4])), (Plant::FRESH, Ok(())));
}

/// The refusals of an accept that apply, in whole numbers without a ceiling.
fn applying(plant: &Plant, v: &Asm1, nitrite: u64) -> Vec<u64> {
    let above = !within(&plant.sludge, &ASM1_CEILINGS)
        || !within(&plant.digester, &DIGESTER_CEILINGS)
        || !within(&plant.reject, &ASM1_CEILINGS);
    let mut sums: [u128; 13] =
        std::array::from_fn(|column| u128::from(plant.sludge[column]) + u128::from(v[column]));
    sums[8] += u128::from(nitrite) * 3 / 5;
    let tests = [
        (15, !plant.figures.permitted()),
        (1, above),
        (3, !within(v, &ASM1_CEILINGS) || nitrite > MOST),
        (10, sums.iter().zip(ASM1_CEILINGS).any(|(&sum, ceiling)| sum > ceiling.into())),
    ];
    tests.into_iter().filter(|(_, applies)| *applies).map(|(number, _)| number).collect()
}

/// Refusals that apply together.
const PAIRS: [[u64; 2]; 6] = [[15, 1], [15, 3], [15, 10], [1, 3], [1, 10], [3, 10]];

/// How often each answer to an accept was met (0 accepted), each pair of refusals that apply
/// together, each rest of the nitrite by five, 3 by nitrite alone, 10 by nitrite alone, and a tank
/// just filled with nitrate; and how often each answer to a draw.
#[derive(Default, Debug)]
struct Met {
    answers: [u32; 16],
    pairs: [u32; 6],
    rests: [u32; 5],
    three_by_nitrite: u32,
    ten_by_nitrite: u32,
    just_filled: u32,
    draws: [u32; 16],
}

impl Met {
    /// Checks an accept against the rule, and counts it.
    fn check(&mut self, before: &Plant, v: &Asm1, nitrite: u64) {
        let (refusal, n2, after) = accept(before, v, nitrite);
        let apply = applying(before, v, nitrite);
        assert_eq!(refusal, apply.first().copied().unwrap_or(0), "{before:?} {v:?} {nitrite}");
        self.answers[refusal as usize] += 1;
        for (pair, count) in PAIRS.iter().zip(&mut self.pairs) {
            *count += u32::from(pair.iter().all(|refusal| apply.contains(refusal)));
        }
        let without = applying(before, v, 0).is_empty();
        self.three_by_nitrite += u32::from(refusal == 3 && without);
        self.ten_by_nitrite += u32::from(refusal == 10 && without);
        match refusal {
            0 => self.check_accepted(before, v, nitrite, n2, &after),
            _ => assert_eq!((n2, &after), (0, before)),
        }
    }

    /// Checks where every count of an accept went.
    fn check_accepted(&mut self, before: &Plant, v: &Asm1, nitrite: u64, n2: u64, after: &Plant) {
        let joins = u128::from(nitrite) * 3 / 5;
        assert_eq!(u128::from(n2) + joins, u128::from(nitrite));
        let mut sludge: Asm1 = std::array::from_fn(|column| before.sludge[column] + v[column]);
        sludge[8] += joins as u64;
        assert_eq!(*after, Plant { sludge, ..*before });
        self.rests[(nitrite % 5) as usize] += 1;
        self.just_filled += u32::from(sludge[8] == MOST && joins > 0);
    }

    /// Checks a draw against a release, and counts it.
    fn check_draw(&mut self, before: &Plant, k: u64) {
        draw_as_release(before, k);
        self.draws[draw(before, k).0 as usize] += 1;
    }

    /// Asks that each was met so often, and each pair.
    fn ask(&self, often: u32, pairs: u32) {
        let answers = [0, 1, 3, 10, 15].map(|number| self.answers[number]);
        assert_eq!(answers.iter().sum::<u32>(), self.answers.iter().sum());
        let alone = [self.three_by_nitrite, self.ten_by_nitrite, self.just_filled];
        let all = answers.iter().chain(&self.rests).chain(&alone);
        assert!(all.min() >= Some(&often), "{self:?}");
        assert!(self.pairs.iter().all(|&count| count >= pairs), "{self:?}");
    }
}

/// 20,000 random accepts are answered by the rule, on records of every kind and on those that
/// they just fit or pass.
#[test]
fn random_accepts() {
    let mut met = Met::default();
    for number in 0..10_000 {
        let mut trial = Trial::new(Random::nth(46, number));
        let plant = trial.record();
        let ((v, nitrite), filled) = trial.accept_at_the_ceilings(&plant);
        met.check(&filled, &v, nitrite);
        let above = trial.random.percent(20);
        met.check(&plant, &v, if above { nitrite.saturating_add(MOST) } else { nitrite });
    }
    met.ask(500, 50);
}

/// Makes the calls of a random list as lines, checks each draw and accept among them, and asks for
/// the four balances of the lines and their answers at the end.
fn random_list(number: u64, met: &mut Met) -> bool {
    let mut trial = Trial::new(Random::nth(47, number));
    let mut plant = trial.record();
    let (start, accepted) = (Balances::on(&plant), met.answers[0]);
    let mut balances = start;
    for _ in 0..120 {
        let (before, line) = (plant, trial.line(&plant));
        let answer = answer(&mut plant, &line);
        balances.count_line(&line, answer.as_bytes());
        match lines::read(&line) {
            Some(Asked::Call(Call::Accept(v, nitrite))) => met.check(&before, &v, nitrite),
            Some(Asked::Call(Call::Draw(k))) => met.check_draw(&before, k),
            _ => {}
        }
    }
    match plant.held() {
        Ok(held) => assert_eq!(balances.check(held.numbers()), Ok(())),
        Err(_) => assert_eq!(balances, start),
    }
    met.answers[0] > accepted
}

/// Over 1,000 random lists every draw and accept is answered by the rule, and the balances close.
#[test]
fn random_lists_balance() {
    let mut met = Met::default();
    let with_accepts = (0..1000).filter(|&number| random_list(number, &mut met)).count();
    assert!(with_accepts > 700, "{with_accepts}");
    met.ask(20, 1);
    let draws = [0, 1, 2, 15].map(|number| met.draws[number]);
    assert!(draws.iter().all(|&count| count > 80), "{met:?}");
    assert_eq!(draws.iter().sum::<u32>(), met.draws.iter().sum());
}

/// Random lines of both words, and of their previews, are written and read back; each column that
/// is not zero stands in it, and no other.
#[test]
fn written_lines_read_back() {
    let (mut random, mut met) = (Random::new(48), [0; 2]);
    for _ in 0..20_000 {
        let call = written_calls::call(&mut random);
        let line = match &call {
            Call::Draw(k) => format!("(draw {k})"),
            Call::Accept(v, nitrite) => {
                let named = ASM1_NAMES.iter().zip(v).filter(|(_, &n)| n > 0);
                let fields: String = named.map(|(name, n)| format!(" ({name} {n})")).collect();
                format!("(accept {nitrite}{fields})")
            }
            _ => continue,
        };
        met[usize::from(matches!(call, Call::Draw(_)))] += 1;
        let preview = format!("(preview {line})");
        for (number, line) in [(0, line), (1, preview)] {
            let asked = writing::asked(call.clone(), number);
            assert_eq!(String::from_utf8(written(&asked)).unwrap(), line);
        }
    }
    assert!(met.iter().all(|&count| count > 500), "{met:?}");
}

/// Water that is drawn, treated and accepted, round after round: what the reactor hands back is
/// never more nitrogen than it took, and the balances close after each call.
#[test]
fn round_after_round() {
    let (mut random, mut told) = (Random::new(49), 0);
    let reject = asm1(&[("ss", 40_000), ("sno", 7000), ("snh", 90_000_000), ("salk", 12)]);
    let mut plant = with_reject(reject);
    let mut balances = Balances::on(&plant);
    for k in (1..=1000).step_by(7) {
        let v = plant.draw(k).unwrap();
        balances.count(&Call::Draw(k), &v);
        assert_eq!(balances.check(plant.held().unwrap().numbers()), Ok(()));
        let (back, nitrite) = reactor::treated(&mut random, &v);
        let n2 = plant.accept(&back, nitrite).unwrap();
        balances.count(&Call::Accept(back, nitrite), &[n2]);
        assert_eq!(balances.check(plant.held().unwrap().numbers()), Ok(()));
        told += n2;
    }
    let nitrogen = |v: &Asm1| v[asm1::SNO] + v[asm1::SNH];
    assert_eq!(nitrogen(&plant.sludge) + nitrogen(&plant.reject) + told, nitrogen(&reject));
    assert!(told > 1_000_000, "{told}");
}
