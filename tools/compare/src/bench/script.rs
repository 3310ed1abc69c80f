//! Random scripts: lines one after another, drawn around the book that they leave.

use draw::calls::Source;
use draw::pace::Pace;
use draw::shapes::{within, Makes, EXAMPLE};
use reference::calls::Call;
use reference::ledger::Ledger;
use reference::protocol::{self, parse, BUFFER_WORDS};

use super::hostile;

const LONG_SCRIPT: u64 = 1_000;
const MAKES: Makes = Makes::UpTo(BUFFER_WORDS);

/// A script of so many lines; equal seeds give equal scripts.
pub fn script(seed: u64, lines: u64) -> Vec<u8> {
    let mut writer = Writer::new(seed);
    // A long script shows what a bench without a book answers.
    if lines >= LONG_SCRIPT {
        writer.lines_without_book += 8;
    }
    for _ in 0..lines {
        writer.add_line();
    }
    writer.finish()
}

struct Writer {
    source: Source,
    /// The book; before the first accepted make calls are drawn around an empty one.
    ledger: Ledger,
    has_book: bool,
    lines_without_book: u64,
    text: Vec<u8>,
}

impl Writer {
    fn new(seed: u64) -> Writer {
        let mut source = Source::new(seed, MAKES);
        Writer {
            lines_without_book: source.random.pick(&[0, 0, 2, 4]),
            source,
            ledger: Ledger::new(within(EXAMPLE)),
            has_book: false,
            text: Vec::new(),
        }
    }

    fn add_line(&mut self) {
        let mut line = protocol::line(self.call()).into_bytes();
        if self.source.random.one_in(20) {
            line = hostile::line(&mut self.source.random, &line);
        }
        // A hostile line can still be a call.
        if let Some(call) = parse(&line) {
            self.follow(call);
        }
        self.text.extend(line);
        self.text.push(b'\n');
    }

    fn call(&mut self) -> Call {
        let mut caller = self.source.caller(&self.ledger);
        if self.has_book {
            return caller.call();
        }
        if self.lines_without_book == 0 {
            return caller.make();
        }
        self.lines_without_book -= 1;
        match caller.random.below(4) {
            0 => caller.refused_make(),
            1 => caller.refused(),
            2 => caller.question(),
            _ => caller.delivery(),
        }
    }

    /// Keeps the ledger in step with what the script has done so far.
    fn follow(&mut self, call: Call) {
        if let Call::Make { k, n, m, g } = call {
            if let Some(shape) = MAKES.shape(self.ledger.shape(), [k, n, m, g]) {
                self.ledger = Ledger::new(shape);
                self.has_book = true;
                self.source.pace = Pace::draw(&mut self.source.random);
            }
        } else if self.has_book {
            // A refused call leaves the ledger as it is, so its answer does not matter here.
            let _ = self.ledger.perform(call, self.ledger.shape().book_length());
        }
    }

    /// The last line may lack its newline, unless it would be no line at all without it.
    fn finish(mut self) -> Vec<u8> {
        let empty = self.text.is_empty() || self.text == b"\n" || self.text.ends_with(b"\n\n");
        if !empty && self.source.random.one_in(3) {
            self.text.pop();
        }
        self.text
    }
}
