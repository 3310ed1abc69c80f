//! The layout of a trace: what is one, and where words that are none break it.

use reference::calls::Call;
use reference::trace::{call, days, lay_out, record, Fault, Record, Why};

const CLOCK: Record = [1, 3, 0, 0];
const DELIVERY: Record = [2, 0, 3, 1];
const QUERY: Record = [3, 0, 2, 0];

/// Days of 2, 0 and 1 records.
fn three() -> Vec<u32> {
    lay_out(&[[CLOCK, DELIVERY].concat(), vec![], QUERY.to_vec()])
}

/// The three days after words were set.
fn found(set: &[(usize, u32)]) -> Result<usize, Fault> {
    let mut trace = three();
    for (word, value) in set {
        trace[*word] = *value;
    }
    count(&trace)
}

fn count(trace: &[u32]) -> Result<usize, Fault> {
    days(trace).map(|days| days.len())
}

fn whole(word: usize, why: Why) -> Result<usize, Fault> {
    let day = None;
    Err(Fault { word, day, why })
}

fn of_day(day: usize, word: usize, why: Why) -> Result<usize, Fault> {
    let day = Some(day);
    Err(Fault { word, day, why })
}

#[test]
fn days_stand_one_after_another() {
    let trace = three();
    assert_eq!(trace[..7], [3, 7, 8, 15, 0, 15, 4]);
    assert_eq!(trace[7..], [CLOCK, DELIVERY, QUERY].concat());
    assert_eq!(days(&trace), Ok(vec![7..15, 15..15, 15..19]));
}

#[test]
fn fewest_and_most_days() {
    assert_eq!(count(&[0]), Ok(0));
    for day in [vec![], QUERY.to_vec()] {
        for number in [1, 2, 63, 64] {
            assert_eq!(count(&lay_out(&vec![day.clone(); number])), Ok(number));
        }
        let more = lay_out(&vec![day; 65]);
        assert_eq!(count(&more), whole(0, Why::Count(65)));
    }
}

#[test]
fn too_few_words() {
    assert_eq!(count(&[]), whole(0, Why::Empty));
    assert_eq!(count(&[1]), whole(3, Why::Pairs));
    assert_eq!(count(&[1, 3]), whole(3, Why::Pairs));
    assert_eq!(count(&[64; 128]), whole(129, Why::Pairs));
    assert_eq!(count(&[u32::MAX]), whole(0, Why::Count(u32::MAX)));
    let trace = three();
    for length in 7..trace.len() {
        let (day, end) = if length < 15 { (0, 15) } else { (2, 19) };
        let expected = of_day(day, 2 + 2 * day, Why::End(end));
        assert_eq!(count(&trace[..length]), expected, "{length}");
    }
}

#[test]
fn words_too_many() {
    for more in 1..9 {
        let mut trace = three();
        trace.resize(19 + more, 0);
        assert_eq!(count(&trace), whole(19, Why::Follows));
    }
    assert_eq!(count(&[0, 0]), whole(1, Why::Follows));
}

#[test]
fn offsets_elsewhere() {
    for offset in [0, 6, 8, 11, 15, u32::MAX] {
        let expected = of_day(0, 1, Why::Offset(offset, 7));
        assert_eq!(found(&[(1, offset)]), expected);
    }
    // Two days exchanged, and one that overlaps the first.
    let exchanged = found(&[(1, 15), (2, 4), (5, 7), (6, 8)]);
    assert_eq!(exchanged, of_day(0, 1, Why::Offset(15, 7)));
    let overlapping = found(&[(5, 11), (6, 8)]);
    assert_eq!(overlapping, of_day(2, 5, Why::Offset(11, 15)));
}

#[test]
fn lengths_that_do_not_fit() {
    for length in [1, 2, 3, 5, 7, 9, u32::MAX] {
        let expected = of_day(0, 2, Why::Length(length));
        assert_eq!(found(&[(2, length)]), expected);
    }
    let most = u32::MAX - 3;
    let end = Why::End(7 + u64::from(most));
    assert_eq!(found(&[(2, most)]), of_day(0, 2, end));
}

/// Lengths that come out right together modulo 2^32.
#[test]
fn sums_do_not_wrap() {
    for more in [1 << 31, 1 << 30, u32::MAX - 11] {
        let first = 8u32.wrapping_add(more);
        let next = 15u32.wrapping_add(more);
        let last = 4u32.wrapping_sub(more);
        let wrapped = found(&[(2, first), (3, next), (5, next), (6, last)]);
        let day = wrapped.unwrap_err().day;
        assert!(matches!(day, Some(0 | 1)), "{more}: {wrapped:?}");
    }
}

#[test]
fn kinds_and_rests() {
    for kind in [0, 4, 257, 65_537, (1 << 31) + 1, u32::MAX] {
        assert_eq!(found(&[(11, kind)]), of_day(0, 11, Why::Kind(kind)));
    }
    for (day, word) in [(0, 9), (0, 10), (2, 18)] {
        for rest in [1, 1 << 31, u32::MAX] {
            let expected = of_day(day, word, Why::Rest(rest));
            assert_eq!(found(&[(word, rest)]), expected);
        }
    }
    // Every other word of a record is a number of its call, and may be anything.
    for word in [8, 12, 13, 14, 16, 17] {
        assert_eq!(found(&[(word, u32::MAX)]), Ok(3), "{word}");
    }
    // The first record that does not read is told.
    let first = found(&[(18, 1), (11, 9), (10, 1)]);
    assert_eq!(first, of_day(0, 10, Why::Rest(1)));
}

#[test]
fn records_are_calls() {
    for words in [CLOCK, DELIVERY, QUERY] {
        assert_eq!(call(&words).map(record), Ok(Some(words)));
    }
    assert_eq!(call(&[1, 7, 0, 0]), Ok(Call::Clock { clock: 7 }));
    let (k, n, m, g) = (2, 2, 4, 1);
    assert_eq!(record(Call::Make { k, n, m, g }), None);
    assert_eq!(call(&[0, 0, 0, 0]), Err(0));
    assert_eq!(call(&[1, 7, 1, 1]), Err(2));
    assert_eq!(call(&[1, 7, 0, 1]), Err(3));
    assert_eq!(call(&[3, 7, 7, 7]), Err(3));
}

#[test]
fn faults_in_words() {
    let of_days = [
        ((0, 65), "word 0: 65 days, at most 64"),
        ((5, 9), "word 5: day 2 starts at 9, not 15"),
        ((6, 3), "word 6: day 2 has 3 words, no whole records"),
        ((6, 8), "word 6: day 2 ends at 23, after the trace"),
        ((6, 0), "word 15: it follows the last day"),
        ((7, 4), "word 7: day 0 has a record of kind 4"),
        ((10, 5), "word 10: day 0 has a record with 5 in place of 0"),
    ];
    for (set, text) in of_days {
        assert_eq!(found(&[set]).unwrap_err().to_string(), text);
    }
    let of_words: [(&[u32], &str); 2] = [
        (&[], "there is no word, not even a count of days"),
        (&[2, 5], "the pairs end at word 5, after the trace"),
    ];
    for (trace, text) in of_words {
        assert_eq!(days(trace).unwrap_err().to_string(), text);
    }
}
