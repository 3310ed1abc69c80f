//! The line protocol (document 01, "The bench program").

use std::io::{self, BufRead, Write};

use crate::calls::{perform, Answer, Call, Reply};
use crate::shape::Shape;

/// Words of the program's buffer.
pub const BUFFER_WORDS: usize = 14_836;

/// The output line for an input line that is no call.
pub const UNREAD: &str = "unread";

/// The buffer and the shape of the last accepted make.
pub struct Bench {
    buffer: Vec<u32>,
    shape: Option<Shape>,
}

/// A zero buffer, before any make.
impl Default for Bench {
    fn default() -> Bench {
        Bench { buffer: vec![0; BUFFER_WORDS], shape: None }
    }
}

impl Bench {
    /// One call on as many words as it is given.
    pub fn perform(&mut self, call: Call) -> Reply {
        let asked = match call {
            Call::Make { k, n, m, g } => Shape::new(k, n, m, g),
            _ => self.shape,
        };
        let needed = asked.map_or(BUFFER_WORDS, Shape::book_length);
        let borrowed = needed.min(BUFFER_WORDS);
        let answer = perform(&mut self.buffer[..borrowed], call)?;
        // Only an accepted make can change the shape here.
        self.shape = asked;
        Ok(answer)
    }

    /// The output line for one input line, both without their newlines.
    pub fn line(&mut self, line: &[u8]) -> String {
        match parse(line) {
            Some(call) => answer(self.perform(call)),
            None => UNREAD.to_string(),
        }
    }
}

/// Answers an input line by line, each answer as soon as its line has ended.
pub fn run(mut input: impl BufRead, mut output: impl Write) -> io::Result<()> {
    let mut bench = Bench::default();
    let mut line = Vec::new();
    while input.read_until(b'\n', &mut line)? > 0 {
        let content = line.strip_suffix(b"\n").unwrap_or(&line);
        writeln!(output, "{}", bench.line(content))?;
        output.flush()?;
        line.clear();
    }
    Ok(())
}

/// The output line for the answer of a call. It does not tell the splits of a delivery.
pub fn answer(reply: Reply) -> String {
    match reply {
        Ok(Answer::Done | Answer::Splits(_)) => "ok".to_string(),
        Ok(Answer::Sum(sum)) => format!("= {sum}"),
        Err(number) => format!("refused {number}"),
    }
}

/// The line of a call without its newline.
pub fn line(call: Call) -> String {
    match call {
        Call::Make { k, n, m, g } => format!("m {k} {n} {m} {g}"),
        Call::Clock { clock } => format!("c {clock}"),
        Call::Delivery { grade, stamp, volume } => format!("d {grade} {stamp} {volume}"),
        Call::Query { grade, window } => format!("q {grade} {window}"),
    }
}

/// The call of a line without its newline, or nothing where it does not read as one.
pub fn parse(line: &[u8]) -> Option<Call> {
    let mut fields = line.split(|byte| *byte == b' ');
    let command = fields.next()?;
    let numbers: Vec<u32> = fields.map(number).collect::<Option<_>>()?;
    match (command, &numbers[..]) {
        (b"m", &[k, n, m, g]) => Some(Call::Make { k, n, m, g }),
        (b"c", &[clock]) => Some(Call::Clock { clock }),
        (b"d", &[grade, stamp, volume]) => Some(Call::Delivery { grade, stamp, volume }),
        (b"q", &[grade, window]) => Some(Call::Query { grade, window }),
        _ => None,
    }
}

/// A decimal number of 32 bits without leading zeros.
fn number(digits: &[u8]) -> Option<u32> {
    if digits.is_empty() || (digits[0] == b'0' && digits.len() > 1) {
        return None;
    }
    digits.iter().try_fold(0u32, |value, byte| {
        let digit = byte.checked_sub(b'0').filter(|digit| *digit <= 9)?;
        value.checked_mul(10)?.checked_add(digit.into())
    })
}
