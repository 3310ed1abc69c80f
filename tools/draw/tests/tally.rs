//! Counts by kind, and what a long run must show.

use draw::tally::Tally;
use reference::calls::Answer;

fn tally(answers: &[&str]) -> Tally {
    let mut tally = Tally::of_answers(1..=3, &["unread"], 7);
    answers.iter().for_each(|answer| tally.add_answer(answer));
    tally
}

#[test]
fn answers_are_counted_by_kind() {
    let tally = tally(&["ok", "= 0", "= 4294967295", "refused 1", "refused 12"]);
    let shown = "ok: 1, =: 2, unread: 0, refused 1: 1, refused 2: 0, refused 3: 0, refused 12: 1";
    assert_eq!(tally.to_string(), shown);
    assert_eq!(tally.total(), 5);
}

#[test]
fn long_run_must_show_every_kind() {
    let mut tally = tally(&["= 1", "unread", "refused 1", "refused 2", "refused 3", "= 7"]);
    assert!(tally.faults().is_empty());
    tally.add_answer("= 7");
    assert_eq!(tally.faults(), ["never occurred: ok"]);
    tally.add_answer("ok");
    assert!(tally.faults().is_empty());
}

#[test]
fn kinds_that_cannot_occur_are_faults() {
    for answer in ["refused 0", "refused 4", "", "OK", "=1", "ok "] {
        let faults = tally(&["ok", answer]).faults();
        assert_eq!(faults, [format!("unexpected: {answer}")]);
    }
}

#[test]
fn splits_of_accepted_deliveries_are_counted() {
    let mut tally = Tally::of_splits(4);
    let splits = [0, 2, 0, 480].map(|splits| Ok(Answer::Splits(splits)));
    for reply in [Ok(Answer::Done), Ok(Answer::Sum(1)), Err(12)] {
        tally.add_splits(reply);
    }
    splits.into_iter().for_each(|reply| tally.add_splits(reply));
    let shown = "no split: 2, one split: 0, several splits: 2";
    assert_eq!(tally.to_string(), shown);
    assert_eq!(tally.faults(), ["never occurred: one split"]);
    assert_eq!(tally.faults_below(2), ["never occurred: one split"]);
    let rare = ["only 2: no split", "never occurred: one split", "only 2: several splits"];
    assert_eq!(tally.faults_below(3), rare);
}
