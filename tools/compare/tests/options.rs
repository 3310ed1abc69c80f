//! What is read from a command line, and what is wrong with one.

use compare::options::{Trials, Words};

fn words(text: &str) -> Words {
    Words::new(text.split_whitespace())
}

#[test]
fn options_stand_in_any_order() {
    for text in [
        "run --seed 7 --twice PROGRAM",
        "run PROGRAM --twice --seed 7",
        "run --twice PROGRAM --seed 7",
    ] {
        let mut words = words(text);
        assert_eq!(words.subcommand(), Some("run".into()));
        assert_eq!(words.number("--seed"), Ok(Some(7)));
        assert_eq!(words.number("--lines"), Ok(None));
        assert!(words.flag("--twice") && !words.flag("--twice"));
        assert_eq!(words.operands(["PROGRAM"]), Ok(["PROGRAM".into()]));
    }
    assert_eq!(words("").subcommand(), None);
}

#[test]
fn a_number_is_decimal_and_of_64_bits() {
    let number = |text: &str| words(text).number("--seed");
    assert_eq!(number("--seed 18446744073709551615"), Ok(Some(u64::MAX)));
    for wrong in ["", "x", "-1", "18446744073709551616", "0x1", "--twice"] {
        let trouble = "--seed needs a number".to_string();
        assert_eq!(number(&format!("--seed {wrong}")), Err(trouble), "{wrong}");
    }
}

#[test]
fn words_missing_or_left_over() {
    let trouble = |text: &str| words(text).operands(["PROGRAM", "FILE"]).unwrap_err();
    assert_eq!(trouble(""), "PROGRAM is missing");
    assert_eq!(trouble("a"), "FILE is missing");
    assert_eq!(trouble("a b c"), "one word too many: c");
    assert_eq!(trouble("a b --other"), "unknown or twice: --other");
    assert_eq!(words("-").operands(["FILE"]), Ok(["-".into()]));
    let mut twice = words("--seed 1 a --seed 2");
    assert_eq!(twice.number("--seed"), Ok(Some(1)));
    assert_eq!(twice.rest().unwrap_err(), "unknown or twice: --seed");
}

#[test]
fn a_file_follows_its_option() {
    let mut all = words("make -o out a b");
    assert_eq!(all.file("-o"), Ok(Some("out".into())));
    assert_eq!(all.file("-o"), Ok(None));
    assert_eq!(all.rest(), Ok(["make", "a", "b"].map(Into::into).to_vec()));
    let trouble = "-o needs a file".to_string();
    assert_eq!(words("make a -o").file("-o"), Err(trouble));
}

#[test]
fn trials_are_all_or_one() {
    let read = |text: &str| {
        let mut words = words(text);
        let trials = Trials::read(&mut words, 24)?;
        let [] = words.operands([])?;
        Ok((trials.seed, trials.count, trials.numbers))
    };
    assert_eq!(read(""), Ok((1, 24, 0..24)));
    assert_eq!(read("--trials 12 --seed 7"), Ok((7, 12, 0..12)));
    assert_eq!(read("--trial 5"), Ok((1, 24, 5..6)));
    for wrong in ["--seed", "--trials many", "--trials 0", "--lines 3", "7"] {
        assert!(read(wrong).is_err(), "{wrong}");
    }
    let (last, most) = (u64::MAX - 1, u64::MAX);
    assert_eq!(read(&format!("--trial {last}")), Ok((1, 24, last..most)));
    let trouble = format!("--trial needs a number below {most}");
    assert_eq!(read(&format!("--trial {most}")), Err(trouble));
}
