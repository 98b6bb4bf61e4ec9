//! Request E5 of document 02: a call or its preview is written as its line and a newline into
//! a lent buffer, columns in order and zero columns left away; reading the line yields the
//! call, and no other line that names no zero column does. Each call by worked bytes, the
//! longest and the shortest lines, numbers by their count of digits, the lent buffer, lines
//! that are nearly the written one, and random calls through whole sessions.

mod named;

use named::{asm1, digester, with_digester, with_sludge};
use second::lines::{self, Asked};
use second::plant::{Call, Plant, Record, Refusal};
use second::random::Random;
use second::tables::*;
use second::trials::{form, previews, writing as trials, Trial};
use second::writing::{self, asked, write};
use second::{numbers, session};

/// What is written into a buffer that is just long enough; the bytes behind keep their values.
fn written(asked: &Asked) -> Vec<u8> {
    let mut buffer = [0xa5; 1025];
    let length = write(asked, &mut buffer).unwrap();
    assert!(buffer[length..].iter().all(|&byte| byte == 0xa5), "{asked:?}");
    buffer[..length].to_vec()
}

/// The line that is written, without its newline.
fn line_of(asked: &Asked) -> Vec<u8> {
    let mut line = written(asked);
    assert_eq!(line.pop(), Some(b'\n'), "{asked:?}");
    line
}

/// Checks that a call is written so, and its preview as the preview of that; both are read back.
fn writes(call: Call, form: &str) {
    let preview = format!("(preview {form})");
    for (asked, line) in [(asked(call.clone(), 0), form), (asked(call, 1), &preview)] {
        assert_eq!(String::from_utf8(written(&asked)).unwrap(), format!("{line}\n"));
        assert_eq!(lines::read(line.as_bytes()), Some(asked));
    }
}

/// A call of each kind that has nothing to be left away.
fn calls() -> [Call; 8] {
    [
        Call::Receive([1; 13]),
        Call::Feed(1000),
        Call::Settle(7, [1; 26]),
        Call::Return(500),
        Call::Release(1),
        Call::Recycle(u64::MAX),
        Call::Draw(20),
        Call::Accept([1; 13], 7),
    ]
}

/// Each of the eight calls, with one space between items and none elsewhere.
#[test]
fn each_call() {
    let v = asm1(&[("ss", 10000), ("xs", 30000), ("so", 5000), ("sno", 100_000_000)]);
    writes(Call::Receive(v), "(receive (ss 10000) (xs 30000) (so 5000) (sno 100000000))");
    writes(Call::Feed(1000), "(feed 1000)");
    let v = digester(&[("cn", 8), ("xsu", 9), ("si", 20), ("sch4", 1)]);
    writes(Call::Settle(42, v), "(settle 42 (si 20) (sch4 1) (xsu 9) (cn 8))");
    writes(Call::Return(7), "(return 7)");
    writes(Call::Release(999), "(release 999)");
    writes(Call::Recycle(1), "(recycle 1)");
    writes(Call::Draw(300), "(draw 300)");
    let v = asm1(&[("snh", 5), ("si", 3), ("sno", 4)]);
    writes(Call::Accept(v, 77), "(accept 77 (si 3) (sno 4) (snh 5))");
}

/// A call's own number is written also where it is 0; a vector of zeros is not.
#[test]
fn own_number_zero() {
    writes(Call::Feed(0), "(feed 0)");
    writes(Call::Return(0), "(return 0)");
    writes(Call::Release(0), "(release 0)");
    writes(Call::Recycle(0), "(recycle 0)");
    writes(Call::Draw(0), "(draw 0)");
    writes(Call::Settle(0, [0; 26]), "(settle 0)");
    writes(Call::Settle(0, digester(&[("xi", 3)])), "(settle 0 (xi 3))");
    writes(Call::Settle(9, [0; 26]), "(settle 9)");
    writes(Call::Receive([0; 13]), "(receive)");
    writes(Call::Accept([0; 13], 0), "(accept 0)");
    writes(Call::Accept(asm1(&[("xi", 3)]), 0), "(accept 0 (xi 3))");
    writes(Call::Accept([0; 13], 9), "(accept 9)");
}

/// Numbers above every ceiling, and thousandths that no call takes, are written as they are.
#[test]
fn numbers_above_ceilings() {
    let most = u64::MAX;
    for k in [1001, 1 << 32, most] {
        writes(Call::Feed(k), &format!("(feed {k})"));
        writes(Call::Return(k), &format!("(return {k})"));
        writes(Call::Release(k), &format!("(release {k})"));
        writes(Call::Recycle(k), &format!("(recycle {k})"));
        writes(Call::Draw(k), &format!("(draw {k})"));
    }
    let v = asm1(&[("si", COD_CEILING + 1), ("salk", most)]);
    writes(Call::Receive(v), &format!("(receive (si 1000000000001) (salk {most}))"));
    for nitrite in [TICK_CEILING, TICK_CEILING + 1, most] {
        let form = format!("(accept {nitrite} (si 1000000000001) (salk {most}))");
        writes(Call::Accept(v, nitrite), &form);
    }
    let v = digester(&[("sin", TICK_CEILING + 1), ("cn", most)]);
    writes(Call::Settle(most, v), &format!("(settle {most} (sin 10000000000000001) (cn {most}))"));
}

/// The fields of these names, each with this number.
fn fields(names: &[&str], number: u64) -> String {
    names.iter().map(|name| format!(" ({name} {number})")).collect()
}

/// Each column by itself, and all of them but one.
#[test]
fn one_column_and_all_but_one() {
    for (column, name) in ASM1_NAMES.iter().enumerate() {
        let alone = std::array::from_fn(|other| 5 * u64::from(other == column));
        writes(Call::Receive(alone), &format!("(receive ({name} 5))"));
        let rest: Vec<&str> = ASM1_NAMES.into_iter().filter(|other| other != name).collect();
        let all_but_one = alone.map(|number| 5 - number);
        writes(Call::Receive(all_but_one), &format!("(receive{})", fields(&rest, 5)));
        writes(Call::Accept(alone, 6), &format!("(accept 6 ({name} 5))"));
        writes(Call::Accept(all_but_one, 6), &format!("(accept 6{})", fields(&rest, 5)));
    }
    for (column, name) in DIGESTER_NAMES.iter().enumerate() {
        let alone = std::array::from_fn(|other| 5 * u64::from(other == column));
        writes(Call::Settle(6, alone), &format!("(settle 6 ({name} 5))"));
        let rest: Vec<&str> = DIGESTER_NAMES.into_iter().filter(|other| other != name).collect();
        let all_but_one = alone.map(|number| 5 - number);
        writes(Call::Settle(6, all_but_one), &format!("(settle 6{})", fields(&rest, 5)));
    }
}

/// Each column with a number of its own, so that two columns in each other's place are seen.
#[test]
fn all_columns_in_order() {
    let v = std::array::from_fn(|column| 10 + column as u64);
    let columns = " (si 10) (ss 11) (xi 12) (xs 13) (xbh 14) (xba 15) (xp 16) (so 17) (sno 18) \
        (snh 19) (snd 20) (xnd 21) (salk 22)";
    writes(Call::Receive(v), &format!("(receive{columns})"));
    writes(Call::Accept(v, 9), &format!("(accept 9{columns})"));
    let v = std::array::from_fn(|column| 10 + column as u64);
    let expected = "(settle 9 (si 10) (ssu 11) (saa 12) (sfa 13) (sva 14) (sbu 15) (spro 16) \
        (sac 17) (sh2 18) (sch4 19) (xi 20) (xc 21) (xch 22) (xpr 23) (xli 24) (xsu 25) (xaa 26) \
        (xfa 27) (xc4 28) (xpro 29) (xac 30) (xh2 31) (sin 32) (sic 33) (co 34) (cn 35))";
    writes(Call::Settle(9, v), expected);
}

/// Every number at 2^64 − 1, and none but what is always written: the bytes, and their count
/// with the newline, for the call and for its preview.
#[test]
fn longest_and_shortest() {
    let most = u64::MAX;
    let receive = format!("(receive{})", fields(&ASM1_NAMES, most));
    let settle = format!("(settle {most}{})", fields(&DIGESTER_NAMES, most));
    let accept = format!("(accept {most}{})", fields(&ASM1_NAMES, most));
    for (call, form, count) in [
        (Call::Receive([most; 13]), receive, 356),
        (Call::Feed(most), "(feed 18446744073709551615)".into(), 28),
        (Call::Settle(most, [most; 26]), settle, 730),
        (Call::Return(most), "(return 18446744073709551615)".into(), 30),
        (Call::Release(most), "(release 18446744073709551615)".into(), 31),
        (Call::Recycle(most), "(recycle 18446744073709551615)".into(), 31),
        (Call::Draw(most), "(draw 18446744073709551615)".into(), 28),
        (Call::Accept([most; 13], most), accept, 376),
        (Call::Receive([0; 13]), "(receive)".into(), 10),
        (Call::Feed(0), "(feed 0)".into(), 9),
        (Call::Settle(0, [0; 26]), "(settle 0)".into(), 11),
        (Call::Return(0), "(return 0)".into(), 11),
        (Call::Release(0), "(release 0)".into(), 12),
        (Call::Recycle(0), "(recycle 0)".into(), 12),
        (Call::Draw(0), "(draw 0)".into(), 9),
        (Call::Accept([0; 13], 0), "(accept 0)".into(), 11),
    ] {
        writes(call.clone(), &form);
        assert_eq!(written(&asked(call.clone(), 0)).len(), count);
        assert_eq!(written(&asked(call, 1)).len(), count + 10);
    }
}

/// The preview of the longest settle is the longest line: 739 bytes and its newline. It is read
/// back, and answered by the refusal of its call.
#[test]
fn preview_of_the_longest_settle() {
    let longest = Asked::Preview(Call::Settle(u64::MAX, [u64::MAX; 26]));
    let bytes = written(&longest);
    assert_eq!(bytes.len(), 740);
    assert!(bytes.starts_with(b"(preview (settle 18446744073709551615 (si 18446744073709551615) "));
    assert!(bytes.ends_with(b" (co 18446744073709551615) (cn 18446744073709551615)))\n"));
    assert_eq!(bytes.iter().filter(|&&byte| byte == b'\n').count(), 1);
    assert_eq!(lines::read(&bytes[..739]), Some(longest));
    assert_eq!(lines::read(&bytes), None);
    let mut printed = Vec::new();
    session::run(&mut &bytes[..], &mut printed).unwrap();
    assert_eq!(printed, b"(no 3)\n(held cod 0 tkn 0 oxygen 0 nitrate 0)\n");
}

/// Writes the line of a call and of its preview; the answer has to be the one that is expected, and
/// the record after the call, and not after its preview, `after`.
fn assert_answered(before: Plant, call: &Call, expected: &str, after: Plant) {
    for (preview, after) in [(0, after), (1, before)] {
        let (mut plant, mut buffer) = (before, [0; 512]);
        let line = line_of(&asked(call.clone(), preview));
        assert_eq!(lines::answer(&mut plant, &line, &mut buffer), expected.as_bytes());
        assert_eq!(plant, after);
    }
}

/// The written line of a refused call is answered with its refusal and leaves the record.
#[test]
fn written_lines_are_refused() {
    let open = with_digester(&[("sin", 5)]);
    for (call, expected) in [
        (Call::Accept([0; 13], TICK_CEILING + 1), "(no 3)"),
        (Call::Draw(1001), "(no 2)"),
        (Call::Settle(0, [0; 26]), "(no 8)"),
        (Call::Release(0), "(no 2)"),
    ] {
        assert_answered(open, &call, expected, open);
    }
}

/// A written line is answered as its call is and moves the record so, and its preview's does not.
#[test]
fn written_lines_are_answered() {
    let received = asm1(&[("ss", 10), ("snh", 40)]);
    let settled = [("sch4", 6), ("xli", 3), ("sin", 980), ("sic", 5), ("co", 2)];
    for (before, call, expected, after) in [
        (
            with_sludge(&[("xi", 1)]),
            Call::Receive(received),
            "(ok receive)",
            with_sludge(&[("ss", 10), ("xi", 1), ("snh", 40)]),
        ),
        (
            with_sludge(&[("xba", 1), ("sno", 3501)]),
            Call::Feed(1000),
            "(ok feed burnt 1 oxygen 0 nitrate 3500 warn 1)",
            with_digester(&[("sin", 880), ("cn", 1)]),
        ),
        (
            with_digester(&[("ssu", 12), ("xpr", 1), ("sic", 9), ("co", 2)]),
            Call::Settle(4, digester(&settled)),
            "(ok settle)",
            with_digester(&settled),
        ),
        (
            with_sludge(&[("sno", 2)]),
            Call::Accept(asm1(&[("sno", 1), ("salk", 4)]), 9),
            "(ok accept n2 4)",
            with_sludge(&[("sno", 8), ("salk", 4)]),
        ),
    ] {
        assert_answered(before, &call, expected, after);
    }
}

/// Numbers of each count of digits, the least and the greatest, as a call's own and as a column.
#[test]
fn numbers_of_each_length() {
    for digits in 1..=20u32 {
        let least = 10u64.pow(digits - 1);
        let greatest = least.checked_mul(10).map_or(u64::MAX, |next| next - 1);
        for number in [least, least + 1, greatest - 1, greatest] {
            assert_eq!(number.to_string().len(), digits as usize);
            writes(Call::Recycle(number), &format!("(recycle {number})"));
            let v = asm1(&[("xp", number), ("so", 1)]);
            writes(Call::Receive(v), &format!("(receive (xp {number}) (so 1))"));
            writes(Call::Accept(v, number), &format!("(accept {number} (xp {number}) (so 1))"));
            let v = digester(&[("xh2", number)]);
            writes(Call::Settle(number, v), &format!("(settle {number} (xh2 {number}))"));
        }
    }
}

/// The number 0 asks for a call's line, any other one for its preview's.
#[test]
fn number_that_asks_for_a_preview() {
    for call in calls() {
        assert_eq!(asked(call.clone(), 0), Asked::Call(call.clone()));
        for preview in [1, 2, 255, 256, 1 << 32, 1 << 63, u64::MAX] {
            assert_eq!(asked(call.clone(), preview), Asked::Preview(call.clone()));
        }
    }
}

/// Every call above, and its preview.
fn calls_and_previews() -> impl Iterator<Item = Asked> {
    calls().into_iter().flat_map(|call| [asked(call.clone(), 0), asked(call, 1)])
}

/// Two buffers that have no byte in common: whatever is written changes one of them.
fn fillings() -> [Vec<u8>; 2] {
    [0, 0xff].map(|salt| (0..5000u32).map(|place| (37 * place) as u8 ^ salt).collect())
}

/// A buffer of 1,024 bytes or fewer gets 12 and stays as it was, whatever is to be written; and
/// so do the bytes behind it.
#[test]
fn short_buffers() {
    assert_eq!((Refusal::BufferShort as u64, writing::SHORTEST_BUFFER), (12, 1025));
    for filling in fillings() {
        let mut bytes = filling.clone();
        for asked in calls_and_previews() {
            for length in 0..=1024 {
                assert_eq!(write(&asked, &mut bytes[..length]), Err(Refusal::BufferShort));
            }
            assert_eq!(bytes, filling, "{asked:?}");
        }
    }
}

/// In a buffer of 1,025 bytes, and in longer ones, the line and its newline stand first and all
/// bytes behind them keep their values, also those behind the buffer.
#[test]
fn long_enough_buffers() {
    let longest = Asked::Preview(Call::Settle(u64::MAX, [u64::MAX; 26]));
    let shortest = Asked::Call(Call::Feed(0));
    for asked in calls_and_previews().chain([longest, shortest]) {
        for filling in fillings() {
            for length in [1025, 1026, 4096] {
                let mut bytes = filling.clone();
                let count = write(&asked, &mut bytes[..length]).unwrap();
                assert_eq!(bytes[..count], written(&asked));
                assert_eq!(bytes[count..], filling[count..]);
            }
        }
    }
}

/// Whether a line names a column with the number 0.
fn names_a_zero(line: &[u8]) -> bool {
    let is_zero = |field: &[u8], name: &str| {
        field.strip_prefix(name.as_bytes()).is_some_and(|rest| rest.starts_with(b" 0)"))
    };
    let mut fields = line.split(|&byte| byte == b'(');
    fields.any(|field| ASM1_NAMES.iter().chain(&DIGESTER_NAMES).any(|name| is_zero(field, name)))
}

/// What a line is that differs from the written one.
#[derive(Clone, Copy, Debug, PartialEq, Eq)]
enum Outcome {
    NoForm,
    Another,
    TheSame,
}

/// Checks a line that differs from the one that is written for this: where it is read as the
/// same it names a zero column; where it names none it is what is written for what it is read as.
fn check(asked: &Asked, other: &[u8]) -> Outcome {
    let Some(read) = lines::read(other) else {
        return Outcome::NoForm;
    };
    let zero = names_a_zero(other);
    assert!(zero || line_of(&read) == other, "{}", other.escape_ascii());
    match read == *asked {
        false => Outcome::Another,
        true if zero => Outcome::TheSame,
        true => panic!("{} is read as the same", other.escape_ascii()),
    }
}

/// A form cut up: what stands before its fields, and its fields with their spaces and brackets.
struct Cut {
    head: Vec<u8>,
    fields: Vec<Vec<u8>>,
    preview: bool,
}

impl Cut {
    /// Cuts up a written line.
    fn new(line: &[u8]) -> Cut {
        let inner = lines::previewed(line);
        let form = inner.unwrap_or(line).strip_suffix(b")").unwrap();
        let first = form.windows(2).position(|pair| pair == b" (").unwrap_or(form.len());
        let (head, fields) = form.split_at(first);
        let fields = fields.split_inclusive(|&byte| byte == b')').map(<[u8]>::to_vec).collect();
        Cut { head: head.to_vec(), fields, preview: inner.is_some() }
    }

    /// The names that its fields may have.
    fn names(&self) -> &'static [&'static str] {
        match &self.head[..] {
            b"(receive" => &ASM1_NAMES,
            head if head.starts_with(b"(accept ") => &ASM1_NAMES,
            head if head.starts_with(b"(settle ") => &DIGESTER_NAMES,
            _ => &[],
        }
    }

    /// The line that it is of.
    fn joined(&self) -> Vec<u8> {
        let form = [&self.head[..], &self.fields.concat(), b")"].concat();
        match self.preview {
            true => previews::preview(&form),
            false => form,
        }
    }
}

/// Makes a line that may differ from this one.
type Mutation = fn(&mut Random, &[u8]) -> Vec<u8>;

/// The line without one of the bytes that are wanted, or with another byte before it.
fn at_one(
    random: &mut Random,
    line: &[u8],
    wanted: impl Fn(usize) -> bool,
    insert: Option<u8>,
) -> Vec<u8> {
    let places: Vec<usize> = (0..line.len()).filter(|&place| wanted(place)).collect();
    let mut other = line.to_vec();
    if !places.is_empty() {
        let place = random.one_of(&places);
        other.splice(place..place + usize::from(insert.is_none()), insert);
    }
    other
}

/// Swaps two fields that stand side by side.
fn swap_neighbours(random: &mut Random, line: &[u8]) -> Vec<u8> {
    let mut cut = Cut::new(line);
    if cut.fields.len() > 1 {
        let place = random.index(cut.fields.len() - 1);
        cut.fields.swap(place, place + 1);
    }
    cut.joined()
}

/// Names one more column, as zero: at its place among the columns, now and then anywhere.
fn add_a_zero(random: &mut Random, line: &[u8]) -> Vec<u8> {
    let mut cut = Cut::new(line);
    let names = cut.names();
    let named = |column: usize, fields: &[Vec<u8>]| {
        fields.iter().any(|field| field.starts_with(format!(" ({} ", names[column]).as_bytes()))
    };
    let missing: Vec<usize> =
        (0..names.len()).filter(|&column| !named(column, &cut.fields)).collect();
    if missing.is_empty() {
        return line.to_vec();
    }
    let column = random.one_of(&missing);
    let place = match random.percent(80) {
        true => (0..column).filter(|&before| named(before, &cut.fields)).count(),
        false => random.index(cut.fields.len() + 1),
    };
    cut.fields.insert(place, format!(" ({} 0)", names[column]).into_bytes());
    cut.joined()
}

/// Puts a zero before the first digit of a number.
fn leading_zero(random: &mut Random, line: &[u8]) -> Vec<u8> {
    let first = |place: usize| line[place].is_ascii_digit() && line[place - 1] == b' ';
    at_one(random, line, first, Some(b'0'))
}

/// Doubles a space.
fn double_a_space(random: &mut Random, line: &[u8]) -> Vec<u8> {
    at_one(random, line, |place| line[place] == b' ', Some(b' '))
}

/// Makes a preview its call.
fn drop_the_preview(_: &mut Random, line: &[u8]) -> Vec<u8> {
    lines::previewed(line).unwrap_or(line).to_vec()
}

/// Takes a bracket away.
fn drop_a_bracket(random: &mut Random, line: &[u8]) -> Vec<u8> {
    at_one(random, line, |place| b"()".contains(&line[place]), None)
}

/// A byte: most often one that forms have, else any.
fn byte(random: &mut Random) -> u8 {
    match random.percent(70) {
        true => random.one_of(b"() 0123456789abcdefhiklnoprstuvwxy\n"),
        false => random.any() as u8,
    }
}

/// Changes one byte.
fn change_a_byte(random: &mut Random, line: &[u8]) -> Vec<u8> {
    let mut other = line.to_vec();
    other[random.index(line.len())] = byte(random);
    other
}

/// Takes one byte away.
fn delete_a_byte(random: &mut Random, line: &[u8]) -> Vec<u8> {
    at_one(random, line, |_| true, None)
}

/// Puts one byte in, or behind.
fn insert_a_byte(random: &mut Random, line: &[u8]) -> Vec<u8> {
    let mut other = line.to_vec();
    other.insert(random.index(line.len() + 1), byte(random));
    other
}

/// Every mutation, with how many of 20,000 lines at least are no form, another one and the same.
const MUTATIONS: [(&str, Mutation, [u32; 3]); 9] = [
    ("swap neighbours", swap_neighbours, [9000, 0, 0]),
    ("add a zero", add_a_zero, [500, 0, 8000]),
    ("leading zero", leading_zero, [18_000, 0, 0]),
    ("double a space", double_a_space, [19_000, 0, 0]),
    ("drop the preview", drop_the_preview, [0, 10_000, 0]),
    ("drop a bracket", drop_a_bracket, [20_000, 0, 0]),
    ("change a byte", change_a_byte, [10_000, 1000, 0]),
    ("delete a byte", delete_a_byte, [5000, 5000, 0]),
    ("insert a byte", insert_a_byte, [10_000, 1000, 0]),
];

/// Mutants of random written lines: whichever differs and is read as the same call or preview
/// with the same vector names a zero column, and only a zero that was added leads to one.
#[test]
fn mutants() {
    for (number, (name, mutation, least)) in MUTATIONS.into_iter().enumerate() {
        let (mut random, mut met) = (Random::nth(22, number as u64), [0; 3]);
        for _ in 0..20_000 {
            let asked = asked(trials::call(&mut random), trials::preview(&mut random));
            let line = line_of(&asked);
            let mutant = mutation(&mut random, &line);
            if mutant != line {
                met[check(&asked, &mutant) as usize] += 1;
            }
        }
        assert!(met.iter().zip(least).all(|(&met, least)| met >= least), "{name}: {met:?}");
        assert!(met[2] == 0 || name == "add a zero", "{name}: {met:?}");
    }
}

/// Every line that is one byte away from this one: a byte taken away, put in, or changed.
fn neighbours(line: &[u8]) -> impl Iterator<Item = Vec<u8>> + '_ {
    let with = |place: usize, bytes: &[u8], from: usize| {
        [&line[..place], bytes, line.get(from..).unwrap_or(&[])].concat()
    };
    let bytes = (0..=line.len()).flat_map(|place| (0..=255).map(move |byte: u8| (place, byte)));
    let deleted = (0..line.len()).map(move |place| with(place, &[], place + 1));
    let inserted = bytes.clone().map(move |(place, byte)| with(place, &[byte], place));
    let other = |(place, byte): &(usize, u8)| line.get(*place).is_some_and(|old| old != byte);
    let changed = bytes.filter(other).map(move |(place, byte)| with(place, &[byte], place + 1));
    deleted.chain(inserted).chain(changed)
}

/// No line that is one byte away from a written one is read as the same.
#[test]
fn one_byte_away() {
    let receive = Call::Receive(asm1(&[("si", 1), ("sno", 20), ("salk", 7)]));
    let settle = Call::Settle(0, digester(&[("si", 10), ("sic", 3), ("cn", 1)]));
    let accept = Call::Accept(asm1(&[("si", 1), ("sno", 20), ("salk", 7)]), 0);
    let others = [Call::Receive([0; 13]), Call::Settle(10, [0; 26]), Call::Feed(0)];
    let others = others.into_iter().chain([Call::Accept([0; 13], 10)]);
    let [.., back, released, recycled, drawn, _] = calls();
    let own = [back, released, recycled, drawn, receive, settle, accept];
    for call in own.into_iter().chain(others) {
        for asked in [asked(call.clone(), 0), asked(call, 1)] {
            for other in neighbours(&line_of(&asked)) {
                let outcome = check(&asked, &other);
                assert_ne!(outcome, Outcome::TheSame, "{}", other.escape_ascii());
            }
        }
    }
}

/// Lines of random calls as the trials write them, now and then with their zero columns: where
/// one names none it has the same bytes, and where it names some it is read as the same call.
#[test]
fn lines_written_otherwise() {
    let (mut random, mut met) = (Random::new(23), [0; 2]);
    for _ in 0..20_000 {
        let call = trials::call(&mut random);
        let line = form(&mut random, &call);
        for (line, preview) in [(previews::preview(&line), 1), (line, 0)] {
            let asked = asked(call.clone(), preview);
            assert_eq!(lines::read(&line).as_ref(), Some(&asked));
            let zero = names_a_zero(&line);
            assert_eq!(line_of(&asked) == line, !zero, "{}", line.escape_ascii());
            met[usize::from(zero)] += 1;
        }
    }
    assert!(met[0] > 20_000 && met[1] > 1000, "{met:?}");
}

/// An accepted call's answer, or the refusal's.
fn said(refusal: u64, accepted: String) -> String {
    match refusal {
        0 => accepted,
        _ => format!("(no {refusal})"),
    }
}

/// The answer to a call that is made by numbers on this record.
fn by_numbers(record: &mut Record, call: &Call) -> String {
    let (mut told1, mut told4, mut v) = ([0; 1], [0; 4], [0; 13]);
    let columns = |v: [u64; 13]| -> String {
        ASM1_NAMES.iter().zip(v).map(|(name, n)| format!(" ({name} {n})")).collect()
    };
    match call {
        Call::Receive(v) => said(numbers::receive(record, v), "(ok receive)".into()),
        Call::Feed(k) => {
            let refusal = numbers::feed(record, *k, &mut told4);
            let [burnt, oxygen, nitrate, warn] = told4;
            let told = format!("burnt {burnt} oxygen {oxygen} nitrate {nitrate} warn {warn}");
            said(refusal, format!("(ok feed {told})"))
        }
        Call::Settle(gas, d) => said(numbers::settle(record, *gas, d), "(ok settle)".into()),
        Call::Return(k) => {
            let refusal = numbers::give_back(record, *k, &mut told1);
            said(refusal, format!("(ok return stripped {})", told1[0]))
        }
        Call::Release(k) => {
            let refusal = numbers::release(record, *k, &mut v);
            said(refusal, format!("(ok release{})", columns(v)))
        }
        Call::Recycle(k) => said(numbers::recycle(record, *k), "(ok recycle)".into()),
        Call::Draw(k) => {
            let refusal = numbers::draw(record, *k, &mut v);
            said(refusal, format!("(ok draw{})", columns(v)))
        }
        Call::Accept(back, nitrite) => {
            let refusal = numbers::accept(record, back, *nitrite, &mut told1);
            said(refusal, format!("(ok accept n2 {})", told1[0]))
        }
    }
}

/// The held line by the totals.
fn held(record: &Record) -> String {
    let mut told = [0; 4];
    assert_eq!(numbers::totals(record, &mut told), 0);
    let [cod, tkn, oxygen, nitrate] = told;
    format!("(held cod {cod} tkn {tkn} oxygen {oxygen} nitrate {nitrate})\n")
}

/// A session of calls by numbers: each one's line is written behind the others, and its answer
/// is noted; a preview is made on a copy of the record. Gives both, and how many were accepted.
fn session_of(trial: &mut Trial, calls: u32) -> (Vec<u8>, String, u32) {
    let (mut record, mut accepted) = (Plant::FRESH.columns(), 0);
    let (mut input, mut expected) = (Vec::new(), String::new());
    for _ in 0..calls {
        let call = match trial.random.percent(75) {
            true => trial.call(&Plant::from_columns(&record)),
            false => trials::call(&mut trial.random),
        };
        let preview = trials::preview(&mut trial.random) * u64::from(trial.random.percent(50));
        let asked = asked(call.clone(), preview);
        let line = line_of(&asked);
        assert_eq!(lines::read(&line), Some(asked), "{}", line.escape_ascii());
        input.extend_from_slice(&line);
        input.push(b'\n');
        let answer = match preview {
            0 => by_numbers(&mut record, &call),
            _ => by_numbers(&mut record.clone(), &call),
        };
        accepted += u32::from(answer.starts_with("(ok "));
        expected += &format!("{answer}\n");
    }
    (input, expected + &held(&record), accepted)
}

/// 20,000 random calls are written and read back; the written lines, as the input of whole
/// sessions, give the answers that the calls give by numbers.
#[test]
fn random_sessions() {
    let mut all_accepted = 0;
    for number in 0..200 {
        let mut trial = Trial::new(Random::nth(24, number));
        let (input, expected, accepted) = session_of(&mut trial, 100);
        let mut printed = Vec::new();
        session::run(&mut &input[..], &mut printed).unwrap();
        assert_eq!(String::from_utf8(printed).unwrap(), expected);
        all_accepted += accepted;
    }
    assert!((5000..15_000).contains(&all_accepted), "{all_accepted}");
}
