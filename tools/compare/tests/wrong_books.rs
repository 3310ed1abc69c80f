//! A usual run finds wrong calls and grounds: one for each thing that is compared, and kinds of mistakes that no
//! edit of the proofs shows.

mod stand_in;

use compare::bench;
use compare::books::BOOKS;
use compare::difference::{Of, What};
use compare::implementation::{Archive, Implementation};
use compare::merges::MERGES;
use compare::replays::REPLAYS;
use reference::calls::{perform, Answer, Call, Reply};
use reference::ground::{ground, Ground};
use reference::layout;
use reference::soundness::{block_is_sound, sound_head};
use reference::words::{decode_block, decode_head};
use stand_in::{assert_found, Performing};

/// The second program itself.
struct Same;

impl Implementation for Same {}

/// The second program, but this gives its grounds another limit.
struct Limiting(fn(u64) -> u64);

impl Implementation for Limiting {
    fn ground(&self, book: &[u32], grade: u32, window: u32) -> Result<Ground, u32> {
        let right = ground(book, grade, window)?;
        let limit = (self.0)(right.limit);
        Ok(Ground { limit, ..right })
    }
}

/// What stand-ins differ in is then their change.
#[test]
fn nothing_changed() {
    for (comparison, trials) in [(&BOOKS, 2_500), (&REPLAYS, 5_000), (&MERGES, 12_000)] {
        for (name, one) in [("same", &Same as &dyn Implementation), ("archive", &Archive)] {
            let summary = comparison.run(one, 3, 0..trials);
            let summary = summary.unwrap_or_else(|failure| panic!("{name}: {failure:?}"));
            assert_eq!(summary.trials(), trials);
            assert_eq!(summary.faults(false), Vec::<String>::new(), "{summary}");
        }
    }
}

/// A usual run that misses a kind is no success, a short one may miss all.
#[test]
fn every_kind_must_be_met() {
    let summaries = [&BOOKS, &REPLAYS, &MERGES].map(|comparison| (comparison.summary)());
    for summary in summaries.into_iter().chain([bench::summary()]) {
        assert_eq!(summary.faults(false), ["nothing was compared"]);
        let faults = summary.faults(true);
        for tally in summary.names() {
            let start = format!("{tally}: never occurred: ");
            assert!(faults.iter().any(|fault| fault.starts_with(&start)), "{tally}");
        }
    }
}

/// Numbers that are right only modulo a power of two.
#[test]
fn arithmetic_that_wraps() {
    let assert_found = |name: &str, stand_in: fn(&mut [u32], Call) -> Reply| {
        assert_found(&BOOKS, name, &Performing(stand_in), What::Answer);
    };
    assert_found("a shift by k modulo 32", |book, call| masked(book, call, 0));
    assert_found("a shift by M modulo 32", |book, call| masked(book, call, 2));
    assert_found("words of slots", |book, call| {
        let reply = perform(book, call);
        let (Err(11), Call::Query { grade, .. }) = (reply, call) else {
            return reply;
        };
        let (shape, _) = sound_head(decode_head(book)).expect("11 comes after 7");
        let mut block = decode_block(shape, &book[shape.block(grade)]);
        for level in block.iter_mut().flat_map(|half| &mut half.levels) {
            level.count = u64::from((level.count as u32).wrapping_mul(3) / 3);
        }
        if block_is_sound(shape, &block) {
            return Ok(Answer::Sum(0));
        }
        reply
    });
    assert_found("the length of a make", |book, call| match (perform(book, call), call) {
        (Err(1), Call::Make { k: 2..=20, n, m, g }) if wrapped_length(n, m, g) == book.len() => {
            Ok(Answer::Done)
        }
        (reply, _) => reply,
    });
    assert_found("the length of a book", |book, call| match perform(book, call) {
        Err(7) => {
            let [_, n, m, g] = decode_head(book).shape;
            Err(if wrapped_length(n, m, g) == book.len() { 11 } else { 7 })
        }
        reply => reply,
    });
    assert_found("the start of a block", |book, call| match (perform(book, call), call) {
        (Err(3), Call::Delivery { grade, .. }) => {
            let (shape, _) = sound_head(decode_head(book)).expect("3 comes after 7");
            let start = grade.wrapping_mul(shape.block_length() as u32) as usize;
            let inside = start < book.len() - layout::HEAD_WORDS;
            if inside {
                Ok(Answer::Splits(0))
            } else {
                Err(3)
            }
        }
        (reply, _) => reply,
    });
}

/// The second program, but a word of the head is taken modulo 32.
fn masked(book: &mut [u32], call: Call, word: usize) -> Reply {
    let mut masked = book.to_vec();
    if let Some(number) = masked.get_mut(word) {
        *number %= 32;
    }
    match perform(book, call) {
        Err(7) => perform(&mut masked, call),
        reply => reply,
    }
}

/// The length that 32-bit arithmetic gives for a shape of any numbers.
fn wrapped_length(n: u32, m: u32, g: u32) -> usize {
    let slots = n.wrapping_mul(layout::SLOT_WORDS as u32);
    let level = slots.wrapping_add(layout::LEVEL_HEAD_WORDS as u32);
    let levels = m.wrapping_add(1).wrapping_mul(2).wrapping_mul(level);
    let block = levels.wrapping_add(layout::BOOK.block_head_words() as u32);
    g.wrapping_mul(block).wrapping_add(layout::HEAD_WORDS as u32) as usize
}

#[test]
fn wrong_calls() {
    type Perform = fn(&mut [u32], Call) -> Reply;
    let stand_ins: [(&str, What, Perform); 5] = [
        ("every block looked at", What::Answer, |book, call| {
            let before = book.to_vec();
            let reply = perform(book, call);
            let (Ok(_), Call::Delivery { .. }) = (reply, call) else {
                return reply;
            };
            let (shape, _) = sound_head(decode_head(&before)).expect("an accepted call");
            let blocks = (0..shape.g()).map(|grade| &before[shape.block(grade)]);
            let mut blocks = blocks.map(|words| decode_block(shape, words));
            if blocks.all(|block| block_is_sound(shape, &block)) {
                return reply;
            }
            book.copy_from_slice(&before);
            Err(11)
        }),
        ("the splits of one level", What::Answer, |book, call| {
            let before = book.to_vec();
            let answer = perform(book, call)?;
            let Call::Delivery { grade, stamp, volume } = call else {
                return Ok(answer);
            };
            let (shape, _) = sound_head(decode_head(&before)).expect("an accepted call");
            let block = decode_block(shape, &before[shape.block(grade)]);
            let mut half = block[shape.parity(stamp.into())].histogram();
            let offset = shape.offset(stamp.into());
            let splits = half.levels[1].insert(shape, 1, offset, volume.into());
            Ok(Answer::Splits(splits))
        }),
        ("window 0 of a bad head", What::Answer, |book, call| {
            let is_window_0 = matches!(call, Call::Query { window: 0, .. });
            match perform(book, call) {
                Err(7) if is_window_0 => Ok(Answer::Sum(0)),
                reply => reply,
            }
        }),
        ("a refusal that writes", What::Word(Of::Book), |book, call| {
            let reply = perform(book, call);
            if let (Err(_), Some(last)) = (reply, book.last_mut()) {
                *last ^= 1;
            }
            reply
        }),
        ("a question that writes", What::Word(Of::Book), |book, call| {
            let answer = perform(book, call)?;
            if let Answer::Sum(_) = answer {
                book[layout::CLOCK] ^= 1;
            }
            Ok(answer)
        }),
    ];
    for (name, what, stand_in) in stand_ins {
        assert_found(&BOOKS, name, &Performing(stand_in), what);
    }
}

/// In lists the ledger contradicts them.
#[test]
fn wrong_grounds() {
    let too_low = Limiting(|limit| limit / 2);
    assert_found(&BOOKS, "half the limit", &too_low, What::Ground);
    assert_found(&REPLAYS, "half the limit", &too_low, What::Limit);
}
