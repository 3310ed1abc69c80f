//! Books below the bench protocol, which can hand over no damaged one: grown books, sound books that no run
//! of calls made and damaged ones, lent whole, short, long or not at all, with a handful of calls on each. The
//! ground of each question is asked for as well.

use std::collections::HashSet;

use draw::book::{lent, Book, Kind};
use draw::calls::Source;
use draw::damage::KINDS;
use draw::pace::Pace;
use draw::random::Random;
use draw::shapes::Makes;
use draw::tally::Tally;
use draw::view::{View, Words};
use draw::{edges, grounds};
use reference::calls::{perform, Answer, Call, Reply};
use reference::shape::Shape;
use reference::soundness::{block_faults, sound_head, Fault};
use reference::words::{decode_block, decode_head};
use reference::{layout, protocol, refusal};

use crate::desk::{words_before, Desk, TAIL};
use crate::difference::Difference;
use crate::implementation::Implementation;
use crate::run::{Comparison, Summary};

/// The comparison on books.
pub const BOOKS: Comparison = Comparison { name: "books", usual: 24_000, summary, trial };

/// A run of so many books must show every kind of book, of damage and of answer.
const BOOKS_FOR_ALL: u64 = 2_000;
/// So many calls at edges of windows and of lateness must show every kind of them, and so many grounds.
const KINDS_FOR_ALL: u64 = 8_000;
/// So many blocks in which a single condition of soundness fails must show each of them alone.
const FAULTS_FOR_ALL: u64 = 3_000;

/// Long books have so many words.
const LONG: usize = 1_000;

/// The conditions of soundness that can fail alone. The last one, on F at level 0, cannot: where F is outside
/// the interval, either a bucket lies below it or a slot is free.
const ALONE: [Fault; 17] = [
    Fault::Total,
    Fault::Count,
    Fault::Unused,
    Fault::Excess,
    Fault::Missing,
    Fault::Spare,
    Fault::Order,
    Fault::Offset,
    Fault::Tick,
    Fault::Weightless,
    Fault::Empty,
    Fault::Start,
    Fault::Gap,
    Fault::End,
    Fault::Alignment,
    Fault::Heavy,
    Fault::Light,
];

/// Refusals with later ones that hold as well, so that their order shows.
const HIDING: [(u32, u32); 12] = [
    (1, 2),
    (3, 4),
    (3, 5),
    (3, 8),
    (4, 8),
    (4, 9),
    (4, 11),
    (5, 11),
    (6, 11),
    (8, 11),
    (9, 11),
    (10, 11),
];

fn summary() -> Summary {
    let books = ["grown", "built", "damaged"];
    let damage = KINDS.map(|(name, _)| name);
    let alone = ALONE.map(|fault| format!("{fault:?}"));
    let hiding = HIDING.map(|(first, later)| format!("{first} before {later}"));
    Summary::new([
        ("books", Tally::new(books, BOOKS_FOR_ALL)),
        // Half of the books are damaged.
        ("damage", Tally::new(damage, BOOKS_FOR_ALL / 2)),
        ("faults alone", Tally::new(alone, FAULTS_FOR_ALL)),
        // Each book gets several calls.
        ("calls", Tally::of_answers(refusal::CALLS, &[], 4 * BOOKS_FOR_ALL)),
        ("refusals", Tally::new(hiding, KINDS_FOR_ALL)),
        ("deliveries", Tally::of_splits(BOOKS_FOR_ALL)),
        ("grounds", Tally::new(grounds::all(), KINDS_FOR_ALL)),
        ("edges", Tally::new(edges::all(), KINDS_FOR_ALL)),
        ("ticks told", Tally::new(edges::all_telling(), KINDS_FOR_ALL)),
    ])
}

fn trial(
    implementation: &dyn Implementation,
    random: &mut Random,
    number: u64,
    summary: &mut Summary,
) -> Result<(), Difference> {
    let Book { kind, shape, words } = Book::draw(random, number);
    add_book(summary, kind);
    let mut desk = surrounded(implementation, random, &words);
    let (growing, probing) = (Pace::growing(random), Pace::probing(random));
    // Grown books go on to grow, a long one by fewer calls.
    let calls = match kind {
        Kind::Grown if words.len() < LONG => 12 + random.below(60),
        _ => 4 + random.below(6),
    };
    let mut source =
        Source { random: random.clone(), pace: probing, makes: Makes::Length(words.len()) };
    for number in 0..calls {
        source.pace = match kind {
            Kind::Grown if number + 8 < calls => growing,
            _ => probing,
        };
        let before = Words::new(shape, desk.book());
        let (current, clock) = (before.shape(), before.clock());
        let call = source.call(&before);
        let lent = lent(&mut source.random, call, words.len(), TAIL);
        let reply = compare(&mut desk, lent, call, summary).map_err(|difference| {
            let numbers = shape.numbers();
            difference.of(format!("{kind} book of shape {numbers:?}, call {number}"))
        })?;
        summary.tally("calls").add_answer(&protocol::answer(reply));
        summary.tally("deliveries").add_splits(reply);
        summary.add_all("edges", edges::kinds(current, clock, call, reply));
        summary.add_all("ticks told", edges::telling(desk.lent(lent), call, reply));
        summary.add_all("faults alone", fault_alone(desk.lent(lent), call, reply));
        summary.add_all("refusals", hidden(desk.lent(lent), call, reply));
    }
    Ok(())
}

fn add_book(summary: &mut Summary, kind: Kind) {
    match kind {
        Kind::Grown => summary.add("books", "grown"),
        Kind::Built => summary.add("books", "built"),
        Kind::Damaged(name) => {
            summary.add("books", "damaged");
            summary.add("damage", name);
        }
    }
}

/// One call by both sides, and the ground of a question. A question gets the sum of its ground and is refused
/// as its ground is; since the sides agree in both, this holds for either.
fn compare(
    desk: &mut Desk,
    lent: usize,
    call: Call,
    summary: &mut Summary,
) -> Result<Reply, Difference> {
    let reply = desk.call(lent, call)?;
    if let Call::Query { grade, window } = call {
        let ground = desk.ground(lent, grade, window)?;
        let asked = ground.map(|ground| Answer::Sum(ground.sum));
        assert_eq!(asked, reply, "the second program: {call:?}");
        let kinds = grounds::kinds(desk.lent(lent), grade, window, ground);
        summary.add_all("grounds", kinds);
    }
    Ok(reply)
}

/// The condition of soundness that alone makes a block unsound for which a delivery or a question was refused.
fn fault_alone(book: &[u32], call: Call, reply: Reply) -> Option<String> {
    let (Call::Delivery { grade, .. } | Call::Query { grade, .. }, Err(refusal::BLOCK)) =
        (call, reply)
    else {
        return None;
    };
    let (shape, _) = sound_head(decode_head(book)).expect("11 comes after 7");
    let block = decode_block(shape, &book[shape.block(grade)]);
    let faults: HashSet<Fault> = block_faults(shape, &block).into_iter().collect();
    let alone = faults.iter().next().filter(|_| faults.len() == 1)?;
    Some(format!("{alone:?}"))
}

/// The refusal of a call, with another one that holds as well: that of the call without the first one's cause.
fn hidden(book: &[u32], mut call: Call, reply: Reply) -> Option<String> {
    // A long book takes long to be looked at again.
    let first = reply.err().filter(|_| book.len() < LONG)?;
    match (&mut call, first) {
        (Call::Make { k, n, m, g }, 1) => (*k, *n, *m, *g) = (2, 2, 1, 1),
        (Call::Clock { clock }, 6 | 10) => *clock = book[layout::CLOCK],
        (Call::Delivery { grade, .. } | Call::Query { grade, .. }, 3) => *grade = 0,
        (Call::Delivery { volume, .. }, 4) => *volume = Shape::VOLUME_MAX,
        (Call::Delivery { stamp, .. }, 8 | 9) => *stamp = book[layout::CLOCK],
        (Call::Query { window, .. }, 5) => *window = 0,
        _ => return None,
    }
    let later = perform(&mut book.to_vec(), call).err()?;
    let is_listed = HIDING.contains(&(first, later));
    is_listed.then(|| format!("{first} before {later}"))
}

/// The book between other words; zeros often follow it.
fn surrounded<'i>(
    implementation: &'i dyn Implementation,
    random: &mut Random,
    book: &[u32],
) -> Desk<'i> {
    let before = words_before(random);
    let zeros = random.one_in(2);
    let after = [(); TAIL].map(|()| if zeros { 0 } else { random.word() });
    Desk::between(implementation, random.clone(), [&before, book, &after])
}
