//! What the ledger contradicts in a list's answers, and of which kind a question is. A wrong answer would also
//! differ from the second program, so this is tried apart.

use compare::desk::Answered;
use compare::difference::What;
use compare::list::check;
use compare::quiet::{all, kinds};
use reference::calls::{Answer, Call, Reply};
use reference::ground::{Finer, Ground};
use reference::ledger::Ledger;
use reference::shape::Shape;

/// A ledger at a clock, with ten decilitres of a grade at each (grade, stamp).
fn ledger([k, n, m, g]: [u32; 4], clock: u32, deliveries: &[(u32, u32)]) -> Ledger {
    let shape = Shape::new(k, n, m, g).unwrap();
    let mut ledger = Ledger::new(shape);
    let delivery = |&(grade, stamp): &(u32, u32)| Call::Delivery { grade, stamp, volume: 10 };
    let calls = [Call::Clock { clock }].into_iter();
    for call in calls.chain(deliveries.iter().map(delivery)) {
        ledger.perform(call, shape.book_length()).unwrap();
    }
    ledger
}

/// At clock 15, the last tick of an interval, with n = 10 and so many stamps up to the clock. The bound is
/// twice the exact sum.
fn with_stamps(stamps: u32) -> Ledger {
    let deliveries: Vec<_> = (0..stamps).map(|back| (0, 15 - back)).collect();
    ledger([4, 10, 9, 1], 15, &deliveries)
}

fn sum(sum: u64) -> Reply {
    Ok(Answer::Sum(sum))
}

fn ground(sum: u64) -> Option<Result<Ground, u32>> {
    Some(Ok(Ground { sum, level: 1, limit: 10, finer: Finer::First(15) }))
}

/// What the ledger contradicts, if anything.
fn contradicted(
    ledger: &Ledger,
    call: Call,
    expected: Reply,
    reply: Reply,
    ground: Option<Result<Ground, u32>>,
) -> Option<What> {
    let answered = Answered { call, reply, ground };
    let difference = check(ledger, expected, answered).err();
    difference.map(|difference| difference.what)
}

/// For the ledger's 100 decilitres of ten stamps in window 16 the bound is 200 more, and the limit of the ground 10.
#[test]
fn answers_and_grounds() {
    let ledger = with_stamps(10);
    let (grade, window) = (0, 16);
    let question = Call::Query { grade, window };
    let contradicted =
        |expected, reply, ground| contradicted(&ledger, question, expected, reply, ground);
    assert_eq!(contradicted(sum(100), sum(100), ground(100)), None);
    assert_eq!(contradicted(Err(5), Err(5), Some(Err(5))), None);
    for (expected, reply, ground, what) in [
        (sum(100), sum(301), ground(301), What::Ledger),
        (sum(100), Err(5), Some(Err(5)), What::Ledger),
        (Err(5), sum(100), ground(100), What::Ledger),
        (Err(5), Err(3), Some(Err(3)), What::Ledger),
        (sum(100), sum(111), ground(111), What::Limit),
        (sum(100), sum(100), ground(99), What::Limit),
        (sum(100), sum(100), Some(Err(5)), What::Limit),
        (sum(100), sum(100), None, What::Limit),
        (Err(5), Err(5), Some(Err(3)), What::Limit),
        (Err(5), Err(5), ground(100), What::Limit),
        (sum(100), sum(110), ground(110), What::Inexact),
    ] {
        assert_eq!(contradicted(expected, reply, ground), Some(what), "{reply:?}, {ground:?}");
    }
}

/// Only questions have a ground. A ledger does not count splits.
#[test]
fn other_calls() {
    let (ledger, clock) = (with_stamps(1), Call::Clock { clock: 16 });
    let contradicted =
        |expected, reply, ground| contradicted(&ledger, clock, expected, reply, ground);
    let done = Ok(Answer::Done);
    for found in [done, Ok(Answer::Splits(0)), Ok(Answer::Splits(7))] {
        assert_eq!(contradicted(done, found, None), None);
        assert_eq!(contradicted(Err(8), found, None), Some(What::Ledger));
        assert_eq!(contradicted(done, found, ground(0)), Some(What::Limit));
    }
    assert_eq!(contradicted(done, Err(8), None), Some(What::Ledger));
    assert_eq!(contradicted(Err(8), Err(9), None), Some(What::Ledger));
}

/// Only the promise of request Seven tells such a sum from the exact one.
#[test]
fn wrong_sums_within_the_bound_and_the_limit() {
    for (stamps, window, is_promised) in [
        (16, 10, true),
        (16, 1, true),
        (9, 16, true),
        (10, 16, true),
        (10, 11, true),
        (11, 16, false),
        (11, 11, false),
        (16, 16, false),
    ] {
        let (ledger, question) = (with_stamps(stamps), Call::Query { grade: 0, window });
        let exact = ledger.window_sum(0, window);
        for found in [exact, exact + 1, exact - 1, exact + 10] {
            let is_wrong = is_promised && found != exact;
            let expected = is_wrong.then_some(What::Inexact);
            let found = contradicted(&ledger, question, sum(exact), sum(found), ground(found));
            assert_eq!(found, expected, "{stamps} stamps, window {window}");
        }
    }
}

/// The kinds of a question for n = 2 and intervals of eight ticks, with the exact sum and with another one.
fn both_kinds(clock: u32, deliveries: &[(u32, u32)], window: u32) -> [Vec<&'static str>; 2] {
    let ledger = ledger([3, 2, 9, 2], clock, deliveries);
    let exact = ledger.window_sum(0, window);
    [exact, exact + 1].map(|sum| kinds(&ledger, 0, window, sum))
}

#[test]
fn kinds_of_questions() {
    let named: [&str; 12] = all().try_into().unwrap();
    let [short, of_n, fewer, as_many, one_more @ .., _, _, _, _, _, _] = named;
    let [_, _, _, _, _, _, _, _, earlier, grades, current, repeats] = named;
    assert_eq!(one_more, ["over n + 1 stamps, exact", "over n + 1 stamps, off"]);
    let more = ["over more stamps, exact", "over more stamps, off"];
    type Row<'r> = (u32, &'r [(u32, u32)], u32, &'r [&'r str]);
    let rows: [Row; 15] = [
        (7, &[], 0, &[short]),
        (7, &[(0, 5), (0, 6), (0, 7)], 1, &[short]),
        (7, &[(0, 5), (0, 6), (0, 7)], 2, &[of_n]),
        (7, &[], 3, &[fewer]),
        (7, &[(0, 6)], 8, &[fewer]),
        (7, &[(0, 6), (0, 7)], 3, &[as_many]),
        (7, &[(0, 6), (0, 7), (0, 6)], 3, &[as_many, repeats]),
        (7, &[(0, 6), (0, 6), (0, 4)], 3, &[fewer]),
        (7, &[(0, 4), (0, 6)], 3, &[fewer]),
        (7, &[(0, 0), (0, 4), (0, 6)], 3, &[fewer, earlier]),
        (7, &[(0, 6), (1, 6), (1, 7)], 3, &[fewer]),
        (7, &[(0, 6), (1, 5), (1, 7)], 3, &[fewer, grades]),
        (10, &[(0, 7), (0, 10)], 4, &[fewer]),
        (10, &[(0, 7), (0, 9), (0, 10)], 4, &[fewer, current]),
        (
            10,
            &[(0, 3), (0, 6), (0, 7), (0, 10), (1, 5), (1, 8)],
            6,
            &[as_many, earlier, grades, current],
        ),
    ];
    for (clock, deliveries, window, kinds) in rows {
        let found = both_kinds(clock, deliveries, window);
        assert_eq!(found, [kinds, kinds], "{deliveries:?}, window {window}");
    }
    let busy = [(0, 7), (0, 6), (0, 5), (0, 4)];
    assert_eq!(both_kinds(7, &busy, 3), one_more.map(|kind| vec![kind]));
    assert_eq!(both_kinds(7, &busy, 4), more.map(|kind| vec![kind]));
}
