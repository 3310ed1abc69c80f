//! Lines that are no calls: each way in which a line can fail to read, made from the line of a
//! call or from nothing. A few of them read after all, as another call.

use draw::random::Random;

/// Bytes that some readers take for a space, for the end of a line or for nothing.
const BLANKS: [&[u8]; 9] = [
    b" ",
    b"\t",
    b"\r",
    b"\x0b",
    b"\x0c",
    b"\0",
    b"\x7f",
    "\u{a0}".as_bytes(),
    "\u{feff}".as_bytes(),
];

/// What some readers take for a number.
const NO_NUMBERS: [&str; 20] = [
    "", "-", "-0", "-1", "+1", "00", "0x1", "1.0", "1e1", "1_0", "1,000", "a", "1a", "O",
    "\u{ff11}", "\u{663}", "\u{b2}", "1/", "1:", "\"1\"",
];

/// Numbers next to 2^32, 2^63 and 2^64. The first is the greatest that reads.
const EDGES: [&str; 12] = [
    "4294967295",
    "4294967296",
    "4294967297",
    "4294967299",
    "4294967300",
    "5000000000",
    "9999999999",
    "42949672950",
    "9223372036854775808",
    "18446744073709551615",
    "18446744073709551616",
    "18446744073709551618",
];

/// No line that reads is longer.
const LONGEST: &[u8] = b"m 4294967295 4294967295 4294967295 4294967295";

const COMMANDS: [&[u8]; 14] =
    [b"", b"M", b"C", b"D", b"Q", b"x", b"0", b"mm", b"cd", b"\"c\"", b"#", b"=", b"ok", b"\xffd"];

/// A hostile line, made from the line of a call.
pub fn line(random: &mut Random, call: &[u8]) -> Vec<u8> {
    match random.below(12) {
        0..=2 => with_blank(random, call),
        3..=6 => with_number(random, call),
        7 => with_command(random, call),
        8 => with_fields(random, call),
        9 => with_byte(random, call),
        10 if random.one_in(4) => longest(random),
        10 => Vec::new(),
        _ => garbage(random, call),
    }
}

/// A byte or a blank too many after the longest line, for readers that cut lines.
fn longest(random: &mut Random) -> Vec<u8> {
    let end: &[u8] = random.pick(&[b"", b"0", b" ", b" 0", b"\r"]);
    [LONGEST, end].concat()
}

/// A blank too many, or another one in the place of a space.
fn with_blank(random: &mut Random, call: &[u8]) -> Vec<u8> {
    let blank = random.pick(&BLANKS);
    let mut line = call.to_vec();
    let spaces = (0..call.len()).filter(|place| call[*place] == b' ');
    let places: Vec<usize> = spaces.collect();
    let space = random.pick(&places);
    let any = random.below(call.len() as u64) as usize;
    let replaced = match random.below(6) {
        0 => 0..0,
        1..=2 => call.len()..call.len(),
        3 => space..space + 1,
        4 => space..space,
        _ => any..any,
    };
    line.splice(replaced, blank.iter().copied());
    line
}

/// One of the numbers replaced by what is none, or is too large.
fn with_number(random: &mut Random, call: &[u8]) -> Vec<u8> {
    let mut fields: Vec<Vec<u8>> = fields(call);
    let place = 1 + random.below(fields.len() as u64 - 1) as usize;
    let digits = String::from_utf8_lossy(&fields[place]).into_owned();
    let value: u128 = digits.parse().unwrap_or(0);
    let long = random.pick(&[2, 10, 20, 40, 400, 5_000]);
    let number = match random.below(12) {
        0..=1 => format!("0{digits}"),
        2 => format!("{}{digits}", "0".repeat(long)),
        3 => format!("{digits}{}", "0".repeat(long)),
        4 => format!("1{}", "9".repeat(long)),
        // A reader whose numbers wrap would take these for the call itself.
        5 => format!("{}", value + (1 << 32)),
        6 => format!("{}", value + (1 << 64)),
        7 => format!("{digits}{}", random.pick(&["a", "-", ".", ";", "\u{b2}"])),
        8..=9 => random.pick(&NO_NUMBERS).to_string(),
        _ => random.pick(&EDGES).to_string(),
    };
    fields[place] = number.into_bytes();
    fields.join(&b' ')
}

fn with_command(random: &mut Random, call: &[u8]) -> Vec<u8> {
    let mut fields = fields(call);
    match random.below(4) {
        // Another call's letter, so that mostly the count of numbers is wrong.
        0 => fields[0] = random.pick(&[b"m", b"c", b"d", b"q"]).to_vec(),
        1 => fields[0].extend(random.pick(&COMMANDS)),
        _ => fields[0] = random.pick(&COMMANDS).to_vec(),
    }
    fields.join(&b' ')
}

/// Fields too many, too few, or without spaces between them.
fn with_fields(random: &mut Random, call: &[u8]) -> Vec<u8> {
    let mut fields = fields(call);
    match random.below(6) {
        0 => fields.truncate(1),
        1 => drop(fields.pop()),
        2 => fields.push(b"0".to_vec()),
        3 => fields.push(Vec::new()),
        4 => drop(fields.remove(0)),
        _ => return fields.concat(),
    }
    fields.join(&b' ')
}

/// One byte replaced, put in or taken out.
fn with_byte(random: &mut Random, call: &[u8]) -> Vec<u8> {
    let mut line = call.to_vec();
    let place = random.below(call.len() as u64) as usize;
    let byte = any_byte(random);
    match random.below(3) {
        0 => line[place] = byte,
        1 => line.insert(place, byte),
        _ => drop(line.remove(place)),
    }
    line
}

/// Thousands of bytes, some of them after the line of a call. A few lines are longer than any
/// usual chunk of a reader.
fn garbage(random: &mut Random, call: &[u8]) -> Vec<u8> {
    let usual = random.between(1_000, 6_000) as usize;
    let length = if random.one_in(20) { 70_000 } else { usual };
    let mut line = random.pick(&[call, LONGEST, b"", b"d", b"c "]).to_vec();
    let byte = random.pick(b" 0c9\0\r\xff");
    match random.below(3) {
        0 => line.extend(std::iter::repeat_n(byte, length)),
        1 => line.extend((0..length).map(|_| any_byte(random))),
        _ => line.extend(b" 1".repeat(length / 2)),
    }
    line
}

/// Any byte but the newline, which would part the line.
fn any_byte(random: &mut Random) -> u8 {
    match random.below(256) as u8 {
        b'\n' => b'\r',
        byte => byte,
    }
}

fn fields(call: &[u8]) -> Vec<Vec<u8>> {
    call.split(|byte| *byte == b' ').map(<[u8]>::to_vec).collect()
}
