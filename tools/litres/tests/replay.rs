//! Traces through the archive: the week of docs/SPECIFICATION.md, 18. Drawn traces are replayed through the same
//! calls by `compare replays`.

mod books;

use books::made;
use draw::trace::EXAMPLE;
use litres::{find_day, replay, Refused};

#[test]
fn the_example() {
    let mut book = made(books::EXAMPLE);
    let mut answers = [7; 11];
    assert_eq!(replay(&mut book, &EXAMPLE, 1, &mut answers), Ok(()));
    assert_eq!(answers, [0, 0, 0, 0, 0, 0, 0, 0, 0, 1, 7]);
    let mut second = made(books::EXAMPLE);
    reference::replay::replay(&mut second, &EXAMPLE, 1, &mut [7; 10]).unwrap();
    assert_eq!(book, second);
}

/// The last day is given out of a function in which only the trace is borrowed, so it lives as long as the
/// trace does; a copy of its words, or a borrow of the number, could not be.
fn last_day(trace: &[u32]) -> &[u32] {
    let day = trace[0] - 1;
    let found = find_day(trace, day);
    found.unwrap()
}

#[test]
fn a_day_is_a_part_of_the_trace() {
    let trace = EXAMPLE.to_vec();
    assert!(std::ptr::eq(last_day(&trace), &trace[5..]));
    assert!(std::ptr::eq(find_day(&trace, 0).unwrap(), &trace[5..5]));
    for day in [2, 64, 1 << 31, u32::MAX] {
        assert_eq!(find_day(&trace, day), Err(Refused::DAY));
    }
}

/// Every word of the example is looked at, but for the numbers of its calls.
#[test]
fn a_word_changed() {
    let numbers = [6, 10, 11, 12, 14, 15, 16, 18, 19, 20, 22, 23];
    for word in 0..EXAMPLE.len() {
        let mut trace = EXAMPLE;
        trace[word] = trace[word].wrapping_sub(1);
        // The question becomes a delivery, which has no word that must be 0.
        let accepted = numbers.contains(&word) || word == 21;
        assert_eq!(find_day(&trace, 1).is_ok(), accepted, "{word}");
        assert_eq!(find_day(&trace, 0).is_ok(), accepted, "{word}");
        let cut = find_day(&EXAMPLE[..word], 0);
        assert_eq!(cut, Err(Refused::TRACE), "{word}");
    }
}

#[test]
fn an_empty_day_needs_no_room() {
    let mut book = made(books::EXAMPLE);
    assert_eq!(replay(&mut book, &EXAMPLE, 0, &mut []), Ok(()));
    assert_eq!(book, made(books::EXAMPLE));
    assert_eq!(replay(&mut [], &EXAMPLE, 0, &mut []), Ok(()));
    assert_eq!(replay(&mut [], &[0], 0, &mut []), Err(Refused::DAY));
    assert_eq!(replay(&mut [], &[], 0, &mut []), Err(Refused::TRACE));
}
