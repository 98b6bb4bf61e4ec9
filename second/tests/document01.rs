//! Document 01's own examples: the worked plants a to k, the session, the small
//! example of each refusal, the grammar of a line (with the order of fields that request
//! E2 asks for, see `order.rs`), the buffer and the cutting of an input into lines.

mod named;

use named::{asm1, digester, with_digester, with_sludge};
use second::figures::HOUSE;
use second::lines::Asked;
use second::plant::{Call, Plant, Refusal, Told};
use second::tables::*;
use second::{convert, lines, session};

/// The answer to one line on a record, as text.
fn answer(plant: &mut Plant, line: &str) -> String {
    let mut buffer = [0; 512];
    String::from_utf8(lines::answer(plant, line.as_bytes(), &mut buffer).to_vec()).unwrap()
}

/// What a whole input prints.
fn printed(input: &[u8]) -> String {
    let mut out = Vec::new();
    session::run(&mut &input[..], &mut out).unwrap();
    String::from_utf8(out).unwrap()
}

/// Checks a worked feed: told numbers (burnt, oxygen, nitrate, warn), the digester, both balances.
fn fed(sludge: &[(&str, u64)], told: [u64; 4], expected: &[(&str, u64)]) {
    let v = asm1(sludge);
    let (out, t) = convert::feed(&HOUSE, &v).unwrap();
    assert_eq!(t.numbers(), told);
    assert_eq!(out, digester(expected));
    assert_eq!(cod_asm1(&v), cod_digester(&out) + u128::from(t.burnt));
    assert_eq!(HOUSE.tkn_asm1(&v), HOUSE.tkn_digester(&out));
}

/// Oxygen and nitrate are reduced by ss, then xs; carbohydrate and lipid share one floor.
#[test]
fn plants_a_and_b_burn() {
    let acceptors = [33572, 5000, 100_000_000, 0];
    let a = [("ss", 40000), ("so", 5000), ("sno", 100_000_000)];
    fed(&a, acceptors, &[("ssu", 6428)]);
    let b = [("ss", 10000), ("xs", 30000), ("so", 5000), ("sno", 100_000_000)];
    fed(&b, acceptors, &[("xch", 2856), ("xli", 3572)]);
}

/// Soluble organic nitrogen becomes amino acids, and its leftover stays nitrogen.
#[test]
fn plants_c_and_d_amino_acids() {
    let c = [("saa", 10), ("ssu", 90), ("sin", 200)];
    fed(&[("ss", 100), ("snd", 10000)], [0; 4], &c);
    fed(&[("ss", 5), ("snd", 10000)], [0; 4], &[("saa", 5), ("sin", 5100)]);
}

/// Inerts take their nitrogen from the pool, then from ammonia, or are refused.
#[test]
fn plants_e_and_f_inerts() {
    fed(&[("xi", 10)], [0; 4], &[("xi", 8), ("xc", 2), ("sin", 6000)]);
    fed(&[("si", 1), ("snh", 280)], [0; 4], &[("si", 1)]);
    let short = convert::feed(&HOUSE, &asm1(&[("si", 1), ("snh", 279)]));
    assert_eq!(short.unwrap_err(), Refusal::FeedNitrogenShort);
}

/// Oxygen and nitrate that nothing reduces are carried; burnt biomass leaves its nitrogen.
#[test]
fn plants_g_and_h_acceptors_left() {
    fed(&[("xs", 5), ("so", 7), ("sno", 100)], [5, 5, 0, 1], &[("co", 2), ("cn", 100)]);
    fed(&[("xba", 1), ("sno", 3501)], [1, 0, 3500, 1], &[("cn", 1), ("sin", 880)]);
}

/// Composites take what nitrogen there is.
#[test]
fn plant_i_composites() {
    let i = [("xc", 10), ("xch", 40), ("xli", 50), ("sin", 10)];
    fed(&[("xs", 100), ("xnd", 2810)], [0; 4], &i);
}

/// Returned inerts take their nitrogen in turn, or are refused.
#[test]
fn plants_j_and_k_return() {
    let j = convert::give_back(&HOUSE, &digester(&[("xi", 8), ("xc", 2), ("sin", 6000)]));
    assert_eq!(j.unwrap(), (asm1(&[("xi", 8), ("xs", 2), ("snh", 1760)]), 0));
    let k = convert::give_back(&HOUSE, &digester(&[("xi", 1), ("sin", 600)]));
    assert_eq!(k.unwrap(), (asm1(&[("xi", 1)]), 0));
    let short = convert::give_back(&HOUSE, &digester(&[("xi", 1), ("sin", 599)]));
    assert_eq!(short.unwrap_err(), Refusal::ReturnNitrogenShort);
}

/// The return's groups: every column counted once, the gases stripped.
#[test]
fn return_sums_its_groups() {
    let v: Digester = std::array::from_fn(|column| 1 << column);
    let (out, stripped) = convert::give_back(&HOUSE, &v).unwrap();
    assert_eq!(stripped, (1 << 8) + (1 << 9));
    assert_eq!(out[asm1::SS], (1 << 8) - (1 << 1));
    assert_eq!(out[asm1::XS], (1 << 22) - (1 << 11));
    assert_eq!([out[asm1::SI], out[asm1::XI]], [1, 1 << 10]);
    assert_eq!([out[asm1::SALK], out[asm1::SO], out[asm1::SNO]], [1 << 23, 1 << 24, 1 << 25]);
    assert_eq!(HOUSE.tkn_asm1(&out), HOUSE.tkn_digester(&v));
}

/// The session of document 01, with and without its final newline.
#[test]
fn session_of_document_01() {
    let input = b"(receive (ss 10000) (xs 30000) (so 5000) (sno 100000000))\n(feed 1000)\n\
        (feed 0)\n(return 1000)\n(release 1000)\n";
    let expected = "(ok receive)\n\
        (ok feed burnt 33572 oxygen 5000 nitrate 100000000 warn 0)\n\
        (no 2)\n\
        (ok return stripped 0)\n\
        (ok release (si 0) (ss 0) (xi 0) (xs 6428) (xbh 0) (xba 0) (xp 0) (so 0) (sno 0) \
        (snh 0) (snd 0) (xnd 0) (salk 0))\n\
        (held cod 0 tkn 0 oxygen 0 nitrate 0)\n";
    assert_eq!(printed(input), expected);
    assert_eq!(printed(&input[..input.len() - 1]), expected);
}

/// Checks that a line is refused by this number and leaves the record as it was.
fn refused(mut plant: Plant, line: &str, number: u64) {
    let before = plant;
    assert_eq!(answer(&mut plant, line), format!("(no {number})"), "{line}");
    assert_eq!(plant, before, "{line}");
}

/// The small examples of the refusal table.
#[test]
fn refusal_table() {
    let above = with_sludge(&[("ss", 1_000_000_000_001)]);
    refused(above, "(receive)", 1);
    refused(above, "(feed 0)", 1);
    refused(above, "(settle 0 (co 1))", 1);
    refused(above, "(return 1)", 1);
    refused(above, "(release 0)", 1);
    refused(above, "(release)", 11);
    refused(Plant::FRESH, "(feed 0)", 2);
    refused(Plant::FRESH, "(feed 1001)", 2);
    refused(Plant::FRESH, "(receive (ss 1000000000001))", 3);
    refused(with_sludge(&[("si", 1), ("snh", 279)]), "(feed 1000)", 4);
    refused(with_digester(&[("xi", 1), ("sin", 599)]), "(return 1000)", 5);
    refused(with_digester(&[("ssu", 5)]), "(settle 0 (ssu 4))", 7);
    refused(with_digester(&[("sin", 5)]), "(settle 0 (sin 4))", 8);
    refused(with_digester(&[("co", 2)]), "(settle 0)", 9);
    refused(with_digester(&[("cn", 2)]), "(settle 0 (cn 3))", 9);
    refused(with_sludge(&[("ss", COD_CEILING)]), "(receive (ss 1))", 10);
    refused(Plant::FRESH, "", 11);
}

/// Where several refusals apply, the first by number is given.
#[test]
fn refusals_in_order() {
    let full = with_sludge(&[("ss", COD_CEILING)]);
    refused(full, "(receive (ss 1) (xs 1000000000001))", 3);
    refused(with_digester(&[("ssu", 5), ("sin", 5), ("co", 1)]), "(settle 0)", 7);
    refused(with_digester(&[("ssu", 5), ("sin", 5), ("co", 1)]), "(settle 5)", 8);
    refused(with_digester(&[("ssu", 5), ("sin", 5), ("co", 1)]), "(settle 5 (sin 5))", 9);
    refused(Plant::FRESH, "(settle 1 (ssu 1000000000001))", 3);
    refused(Plant::FRESH, "(settle 18446744073709551615 (ssu 1))", 7);
    let mut short = with_sludge(&[("si", 1), ("ss", 1)]);
    short.digester[digester::SSU] = COD_CEILING;
    refused(short, "(feed 1000)", 4);
    refused(short, "(feed 0)", 2);
    let mut short = with_digester(&[("xi", 1), ("ssu", 1)]);
    short.reject[asm1::SS] = COD_CEILING;
    refused(short, "(return 1000)", 5);
}

/// A destination may reach its ceiling and not pass it, in every call that adds.
#[test]
fn destinations_at_their_ceiling() {
    let mut plant = with_sludge(&[("snh", TICK_CEILING - 1)]);
    assert_eq!(answer(&mut plant, "(receive (snh 1))"), "(ok receive)");
    refused(plant, "(receive (snh 1))", 10);
    let mut plant = with_sludge(&[("ss", 1)]);
    plant.digester[digester::SSU] = COD_CEILING - 1;
    assert!(answer(&mut plant.clone(), "(feed 1000)").starts_with("(ok feed"));
    plant.digester[digester::SSU] = COD_CEILING;
    refused(plant, "(feed 1000)", 10);
    let mut plant = with_digester(&[("sva", 1), ("sac", 1)]);
    plant.reject[asm1::SS] = COD_CEILING - 2;
    assert!(answer(&mut plant.clone(), "(return 1000)").starts_with("(ok return"));
    plant.reject[asm1::SS] = COD_CEILING - 1;
    refused(plant, "(return 1000)", 10);
}

/// A settle that closes replaces the digester; sic is free, gas counts.
#[test]
fn settle_replaces() {
    let mut plant = with_digester(&[("xpr", 10), ("sin", 5), ("co", 1), ("cn", 2)]);
    let line = "(settle 4 (sch4 6) (sin 9805) (sic 1000000000000) (co 1) (cn 2))";
    assert_eq!(answer(&mut plant, line), "(ok settle)");
    let sic = ("sic", COD_CEILING);
    let after = digester(&[("sch4", 6), ("sin", 9805), sic, ("co", 1), ("cn", 2)]);
    assert_eq!(plant, Plant { digester: after, ..Plant::FRESH });
    assert_eq!(answer(&mut plant, "(return 500)"), "(ok return stripped 3)");
}

/// Drawing takes the floor of each column and leaves the rest.
#[test]
fn draws_floor() {
    let mut plant = Plant { reject: [1999; 13], ..Plant::FRESH };
    assert_eq!(plant.call(&Call::Release(1)), Ok(Told::Released([1; 13])));
    assert_eq!(plant.call(&Call::Release(999)), Ok(Told::Released([1996; 13])));
    assert_eq!(plant.reject, [2; 13]);
    let mut full = Plant { reject: ASM1_CEILINGS, ..Plant::FRESH };
    assert_eq!(full.call(&Call::Release(1000)), Ok(Told::Released(ASM1_CEILINGS)));
}

/// Lines that are forms, with the call each is.
#[test]
fn lines_that_are_forms() {
    let max = u64::MAX;
    let reads = |line: &str, call| {
        assert_eq!(lines::read(line.as_bytes()), Some(Asked::Call(call)));
    };
    reads("(receive)", Call::Receive([0; 13]));
    let v = asm1(&[("si", 0), ("so", 7), ("xnd", max)]);
    let line = "(receive (si 0) (so 7) (xnd 18446744073709551615))";
    reads(line, Call::Receive(v));
    reads("(feed 18446744073709551615)", Call::Feed(max));
    reads("(settle 0)", Call::Settle(0, [0; 26]));
    let v = digester(&[("si", 2), ("xsu", 4), ("sin", 1), ("sic", 3)]);
    reads("(settle 9 (si 2) (xsu 4) (sin 1) (sic 3))", Call::Settle(9, v));
    reads("(return 0)", Call::Return(0));
    reads("(release 10)", Call::Release(10));
}

/// Lines that are no forms.
const BROKEN: [&str; 82] = [
    "",
    " ",
    "(",
    ")",
    "()",
    "feed 1",
    "(feed 1",
    "feed 1)",
    "((feed 1))",
    "(feed)",
    "(feed )",
    "(feed  1)",
    " (feed 1)",
    "(feed 1) ",
    "(feed 1 )",
    "( feed 1)",
    "(feed\t1)",
    "(feed 1\r)",
    "(feed 1)\r",
    "(feed 1)\0",
    "(feed 1)\n",
    "(feed 01)",
    "(feed 00)",
    "(feed +1)",
    "(feed -1)",
    "(feed 1.0)",
    "(feed 1_0)",
    "(feed 0x1)",
    "(feed 18446744073709551616)",
    "(Feed 1)",
    "(feed 99999999999999999999)",
    "(feed 100000000000000000000)",
    "(feed 1 2)",
    "(feed (k 1))",
    "(feeds 1)",
    "(receive )",
    "(receive 1)",
    "(receive(ss 1))",
    "(receive (ss 1)(xs 1))",
    "(receive (ss 1)  (xs 1))",
    "(receive (ss 1) )",
    "(receive ( ss 1))",
    "(receive (ss  1))",
    "(receive (ss 1 ))",
    "(receive (ss))",
    "(receive (ss ))",
    "(receive ())",
    "(receive ( 1))",
    "(receive (ss 1) (ss 1))",
    "(receive (ss 1) (xs 2) (ss 0))",
    "(receive (s 1))",
    "(receive (sin 1))",
    "(receive (sic 1))",
    "(receive (xsu 1))",
    "(receive (SS 1))",
    "(receive (ss 01))",
    "(receive (ss 1)))",
    "(receive ((ss 1)))",
    "(receive (ss 1)",
    "(receive (ss 18446744073709551616))",
    "(receive (ss 1) x)",
    "(receive ss 1)",
    "(settle)",
    "(settle )",
    "(settle (si 1))",
    "(settle 0 )",
    "(settle 00)",
    "(settle 0(si 1))",
    "(settle 0 (ss 1))",
    "(settle 0 (so 1))",
    "(settle 0 (sn 1))",
    "(settle 0 (si 1) (si 1))",
    "(settle 0 (salk 1))",
    "(settle 0 0)",
    "(return)",
    "(return 1",
    "(release)",
    "(release 1)x",
    "(held)",
    "(ok receive)",
    "(no 2)",
    "(receive (ss \u{661}))",
];

/// Each of them is refused by 11.
#[test]
fn lines_that_are_no_forms() {
    for line in BROKEN {
        refused(Plant::FRESH, line, 11);
    }
}

/// A buffer under 512 bytes is refused before all else and stays untouched.
#[test]
fn buffer_of_511() {
    let mut plant = with_sludge(&[("ss", 1)]);
    for length in [0, 1, 511] {
        let mut buffer = vec![0xa5; length];
        assert!(lines::answer(&mut plant, b"(feed 1000)", &mut buffer).is_empty());
        assert!(lines::held(&plant, &mut buffer).is_empty());
        assert_eq!(buffer, vec![0xa5; length]);
        assert_eq!(plant, with_sludge(&[("ss", 1)]));
    }
}

/// Bytes behind an answer keep their values, and the longest release fits 512 bytes.
#[test]
fn bytes_behind_the_answer() {
    let mut plant = Plant { reject: ASM1_CEILINGS, ..Plant::FRESH };
    for line in [&b"(release 1)"[..], b"(release 1000)", b"(feed 1)", b"x"] {
        let mut buffer = [0xa5; 512];
        let length = lines::answer(&mut plant, line, &mut buffer).len();
        assert!(buffer[length..].iter().all(|&byte| byte == 0xa5));
        assert_eq!(buffer[length - 1], b')');
    }
    let names = plant.call(&Call::Release(1)).map(|_| answer(&mut plant, "(release 1)")).unwrap();
    let expected: String = ASM1_NAMES.iter().map(|name| format!(" ({name} 0)")).collect();
    assert_eq!(names, format!("(ok release{expected})"));
}

/// The held line, and that of a record that is itself refused.
#[test]
fn held_line() {
    let mut plant =
        Plant { sludge: [1; 13], digester: [10; 26], reject: [100; 13], figures: HOUSE };
    let mut buffer = [0; 512];
    let tkn = 101 * (3 + 4 * 880) + 10 * (1 + 280 + 560 + 1960 + 7 * 875);
    let expected = format!("(held cod {} tkn {tkn} oxygen 111 nitrate 111)", 101 * 7 + 220);
    assert_eq!(lines::held(&plant, &mut buffer), expected.as_bytes());
    plant.reject[asm1::SALK] = COD_CEILING + 1;
    assert_eq!(lines::held(&plant, &mut buffer), b"(no 1)");
}

/// How an input is cut into lines.
#[test]
fn input_into_lines() {
    let held = "(held cod 0 tkn 0 oxygen 0 nitrate 0)\n";
    assert_eq!(printed(b""), held);
    assert_eq!(printed(b"\n"), format!("(no 11)\n{held}"));
    assert_eq!(printed(b"\n\n"), format!("(no 11)\n(no 11)\n{held}"));
    assert_eq!(printed(b"(receive)"), format!("(ok receive)\n{held}"));
    assert_eq!(printed(b"(receive)\n\n"), format!("(ok receive)\n(no 11)\n{held}"));
    assert_eq!(printed(b"(receive)\r\n"), format!("(no 11)\n{held}"));
    for length in [1023, 1024, 1025, 1026, 65535, 65536, 65537, 70_000, 200_000] {
        let mut input = vec![b'x'; length];
        input.extend_from_slice(b"(receive)\n(receive)");
        assert_eq!(printed(&input), format!("(no 11)\n(ok receive)\n{held}"), "{length}");
        input[length..length + 1].fill(b'\n');
        assert_eq!(printed(&input), format!("(no 11)\n(no 11)\n(ok receive)\n{held}"), "{length}");
        input.truncate(length);
        assert_eq!(printed(&input), format!("(no 11)\n{held}"), "{length}");
    }
}

/// Hands its bytes out a few at a time.
struct Dribble<'a>(&'a [u8], usize);

impl std::io::Read for Dribble<'_> {
    /// Hands out at most so many bytes as were asked at the start.
    fn read(&mut self, space: &mut [u8]) -> std::io::Result<usize> {
        let length = self.1.min(space.len()).min(self.0.len());
        space[..length].copy_from_slice(&self.0[..length]);
        self.0 = &self.0[length..];
        Ok(length)
    }
}

/// However the input falls into blocks, the same is printed.
#[test]
fn blocks_do_not_matter() {
    let mut input = b"(receive (ss 5) (sno 77))\n\n(feed 500)\n".repeat(4000);
    input.extend(vec![b'('; 3000]);
    input.extend_from_slice(b"\n(return 100)\n(release 7)");
    let whole = printed(&input);
    for size in [1, 2, 7, 1023, 1024, 1025, 4096, 65536, 100_000] {
        let mut out = Vec::new();
        session::run(&mut Dribble(&input, size), &mut out).unwrap();
        assert_eq!(String::from_utf8(out).unwrap(), whole, "{size}");
    }
}

/// A sink that counts what has reached it.
struct Counted(std::rc::Rc<std::cell::Cell<usize>>);

impl std::io::Write for Counted {
    /// Takes everything and counts its newlines.
    fn write(&mut self, bytes: &[u8]) -> std::io::Result<usize> {
        let newlines = bytes.iter().filter(|&&byte| byte == b'\n').count();
        self.0.set(self.0.get() + newlines);
        Ok(bytes.len())
    }

    /// Has nothing to flush.
    fn flush(&mut self) -> std::io::Result<()> {
        Ok(())
    }
}

/// An input that, at each read, sees every answer to the lines handed out so far.
struct Waiting(std::rc::Rc<std::cell::Cell<usize>>, usize);

impl std::io::Read for Waiting {
    /// Hands out one line and a half, after looking at what has been answered.
    fn read(&mut self, space: &mut [u8]) -> std::io::Result<usize> {
        assert_eq!(self.0.get(), self.1);
        if self.1 == 100 {
            return Ok(0);
        }
        let part: &[u8] = if self.1 == 99 { b" 1)\n" } else { b" 1)\n(feed" };
        let part = if self.1 == 0 { b"(feed 1)\n(feed" } else { part };
        space[..part.len()].copy_from_slice(part);
        self.1 += 1;
        Ok(part.len())
    }
}

/// Answers to whole lines that have been read are out before the next read.
#[test]
fn answers_before_the_next_read() {
    let seen = std::rc::Rc::new(std::cell::Cell::new(0));
    session::run(&mut Waiting(seen.clone(), 0), &mut Counted(seen.clone())).unwrap();
    assert_eq!(seen.get(), 101);
}
