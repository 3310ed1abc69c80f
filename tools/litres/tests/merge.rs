//! Merges through the archive. No test here depends on the order of records at an equal clock. Drawn days are
//! merged through the same calls by `compare merges`.

use litres::{merge, Refused};
use reference::trace::{lay_out, Record};

const CLOCK_1: Record = [1, 1, 0, 0];
const CLOCK_2: Record = [1, 2, 0, 0];
const CLOCK_3: Record = [1, 3, 0, 0];
const DELIVERY: Record = [2, 0, 1, 5];
const QUERY: Record = [3, 0, 2, 0];

/// What is never written.
const BEFORE: u32 = 99;

/// What a merge leaves of an output of so many words, where it is not refused.
fn merged(first: (&[u32], u32), second: (&[u32], u32), room: usize) -> Result<Vec<u32>, Refused> {
    let mut out = vec![BEFORE; room];
    let reply = merge(first.0, first.1, second.0, second.1, &mut out);
    if reply.is_err() {
        assert_eq!(out, vec![BEFORE; room], "a refused merge writes");
    }
    reply.map(|()| out)
}

/// Each delivery and question stays at its clock, on whichever side its day is named.
#[test]
fn clocks_of_both_days_in_turn() {
    let odd = lay_out(&[[CLOCK_1, DELIVERY, CLOCK_3, QUERY].concat()]);
    let even = lay_out(&[vec![], [CLOCK_2, QUERY].concat()]);
    let expected = [CLOCK_1, DELIVERY, CLOCK_2, QUERY, CLOCK_3, QUERY].concat();
    let (odd, even) = ((&odd[..], 0), (&even[..], 1));
    assert_eq!(merged(odd, even, 24), Ok(expected.clone()));
    assert_eq!(merged(even, odd, 24), Ok(expected));
}

#[test]
fn empty_days() {
    let day = [CLOCK_1, DELIVERY].concat();
    let week = lay_out(&[&[][..], &day, &[]]);
    let at = |day| (&week[..], day);
    assert_eq!(merged(at(0), at(2), 0), Ok(vec![]));
    assert_eq!(merged(at(0), at(0), 0), Ok(vec![]));
    assert_eq!(merged(at(0), at(1), 8), Ok(day.clone()));
    assert_eq!(merged(at(1), at(2), 8), Ok(day));
    assert_eq!(merged(at(2), at(0), 1), Err(Refused::OUTPUT));
}
