//! The line protocol: which lines are read, what each one is given, and the program itself.

mod books;

use std::io::{BufRead, BufReader, Write};
use std::process::{Child, ChildStdin, ChildStdout, Command, Stdio};
use std::sync::mpsc::channel;
use std::time::Duration;

use books::delivery;
use draw::calls::{call_of, Source};
use draw::shapes::{within, Makes, EXAMPLE};
use reference::calls::Call;
use reference::ledger::Ledger;
use reference::protocol::{line, parse, run, Bench, BUFFER_WORDS};

fn output(input: &[u8]) -> String {
    let mut output = Vec::new();
    run(input, &mut output).unwrap();
    String::from_utf8(output).unwrap()
}

/// Answers to lines, both without newlines.
fn answers(lines: &[&str]) -> Vec<String> {
    let text = output(lines.join("\n").as_bytes());
    text.lines().map(str::to_string).collect()
}

/// Lines, each with its answer behind an arrow.
fn assert_answers(lines: &str) {
    let pairs = lines.split("; ").map(|pair| pair.split_once(" > ").unwrap());
    let (lines, expected): (Vec<_>, Vec<_>) = pairs.unzip();
    assert_eq!(answers(&lines), expected);
}

/// Lines parted by bars, none of which is a call.
fn assert_unread(lines: &str) {
    for line in lines.split('|') {
        assert_eq!(parse(line.as_bytes()), None, "{line:?}");
    }
}

#[test]
fn every_command_is_read() {
    assert_eq!(parse(b"m 2 3 4 5"), Some(call_of([2, 3, 4, 5])));
    let last = delivery(0, 10, 4_294_967_295);
    assert_eq!(parse(b"d 0 10 4294967295"), Some(last));
    let (grade, window) = (1, 20);
    assert_eq!(parse(b"q 1 20"), Some(Call::Query { grade, window }));
    for clock in [0, 1, 10, 17, 4_294_967_295] {
        let line = format!("c {clock}");
        assert_eq!(parse(line.as_bytes()), Some(Call::Clock { clock }));
    }
}

#[test]
fn numbers_are_strict() {
    assert_unread("c 00|c 01|c 007|c 4294967296|c 4294967300|c 9999999999");
    assert_unread("c 18446744073709551616|c 18446744073709551617|c +1|c -1|c 1.0|c 1e3|c 0x1");
    assert_unread("c 1_000|c 1,000|c one|c 1a|c a1|c \u{0661}|c /|c :");
}

#[test]
fn spaces_are_strict() {
    assert_unread("c  1| c 1|c 1 |c1|c\t1|c 1\t|\tc 1|c 1\r|c\r1|c 1\u{b}|c\u{a0}1|c 1\0|c\0 1");
    assert_unread(" |  |q 0  2|q  0 2|q 0 2 ");
    assert_eq!(parse(b"c \xff"), None);
    assert_eq!(parse(b"\xff 1"), None);
}

#[test]
fn fields_are_counted() {
    assert_unread("|m|m |m 2|m 2 2|m 2 2 4|m 2 2 4 1 1|c|c |c 1 2|d|d 0|d 0 0|d 0 0 1 1");
    assert_unread("q|q 0|q 0 1 2|1|1 2");
}

#[test]
fn commands_are_single_small_letters() {
    assert_unread("M 2 2 4 1|C 3|D 0 0 1|Q 0 1|clock 3|cc 3|x 3|k 3|= 3|\u{fe}\u{ff}c 3");
}

#[test]
fn very_long_lines_are_unread() {
    let zeros = format!("c {}", "0".repeat(1 << 20));
    let nines = format!("c {}", "9".repeat(1 << 20));
    let fields = format!("c{}", " 1".repeat(1 << 18));
    let spaces = " ".repeat(1 << 20);
    let letters = "c".repeat(1 << 20);
    let lines: [&str; 6] = [&zeros, &nines, &fields, &spaces, &letters, "m 2 2 4 1"];
    let expected = ["unread", "unread", "unread", "unread", "unread", "ok"];
    assert_eq!(answers(&lines), expected);
}

#[test]
fn newlines_end_lines() {
    assert_eq!(output(b""), "");
    assert_eq!(output(b"\n"), "unread\n");
    assert_eq!(output(b"\n\n"), "unread\nunread\n");
    assert_eq!(output(b"m 2 2 4 1"), "ok\n");
    assert_eq!(output(b"m 2 2 4 1\n"), "ok\n");
    assert_eq!(output(b"m 2 2 4 1\n\n"), "ok\nunread\n");
    assert_eq!(output(b"m 2 2 4 1\nc 1\nc"), "ok\nok\nunread\n");
    assert_eq!(output(b"m 2 2 4 1\r\nc 1\r\n"), "unread\nunread\n");
    assert_eq!(output(b"m 2 2 4 1\0\nm 2 2 4 1\n"), "unread\nok\n");
}

#[test]
fn head_is_unsound_before_the_first_make() {
    assert_answers("c 0 > refused 7; d 0 0 1 > refused 7; q 0 0 > refused 7; x > unread");
    assert_answers("c 4294967295 > refused 7; d 9 9 0 > refused 7");
    // A refused make changes nothing.
    assert_answers(
        "m 1 2 4 1 > refused 1; c 0 > refused 7; m 20 441 24 1 > refused 2; c 0 > refused 7; \
         m 2 2 4 1 > ok; c 0 > ok",
    );
}

#[test]
fn make_may_need_all_of_the_buffer_and_no_more() {
    // 117 slots on 21 levels take all 14,836 words, and so do two grades of 72 slots on 17.
    for line in ["m 20 117 20 1", "m 5 72 16 2"] {
        assert_eq!(answers(&[line, "c 3", "d 0 3 1", "q 0 1"])[3], "= 1");
    }
    // 224 slots on 11 levels take two words more than there are.
    assert_eq!(BUFFER_WORDS, 14_836);
    for line in ["m 20 224 10 1", "m 20 118 20 1", "m 20 117 20 2"] {
        assert_eq!(answers(&[line]), ["refused 2"]);
    }
    assert_eq!(answers(&["m 20 1024 24 8"]), ["refused 2"]);
}

#[test]
fn refused_make_keeps_the_book() {
    assert_answers(
        "m 2 2 4 1 > ok; c 3 > ok; d 0 3 2 > ok; m 20 441 24 1 > refused 2; q 0 1 > = 2; \
         m 1 1 1 1 > refused 1; q 0 1 > = 2; c 2 > refused 10",
    );
}

#[test]
fn later_make_may_be_longer_or_shorter() {
    assert_answers(
        "m 2 2 4 1 > ok; d 0 0 3 > ok; q 0 1 > = 3; m 3 50 10 2 > ok; q 1 8 > = 0; \
         d 1 0 5 > ok; q 1 1 > = 5; m 2 2 1 1 > ok; q 1 1 > refused 3; q 0 1 > = 0; \
         m 3 50 10 2 > ok; q 1 8 > = 0",
    );
}

#[test]
fn every_refusal_that_the_protocol_can_show() {
    assert_answers(
        "q 0 0 > refused 7; m 0 2 4 1 > refused 1; m 20 1024 24 8 > refused 2; m 2 2 4 1 > ok; \
         q 1 0 > refused 3; d 0 0 0 > refused 4; q 0 5 > refused 5; c 2000000001 > refused 6; \
         d 0 1 1 > refused 8; c 9 > ok; d 0 5 1 > refused 9; c 8 > refused 10; \
         d 0 9 17 > refused 12",
    );
}

/// The program itself, with its two ends.
fn started() -> (Child, ChildStdin, ChildStdout) {
    let mut child = Command::new(env!("CARGO_BIN_EXE_reference"))
        .stdin(Stdio::piped())
        .stdout(Stdio::piped())
        .spawn()
        .unwrap();
    let (stdin, stdout) = (child.stdin.take(), child.stdout.take());
    (child, stdin.unwrap(), stdout.unwrap())
}

/// What the program prints for this input.
fn program(input: Vec<u8>) -> String {
    let (mut child, mut stdin, stdout) = started();
    // Its own thread, since the program may wait for its output to be read.
    let writer = std::thread::spawn(move || stdin.write_all(&input).unwrap());
    let output = std::io::read_to_string(stdout).unwrap();
    writer.join().unwrap();
    assert!(child.wait().unwrap().success());
    output
}

#[test]
fn lines_cross_the_chunks_of_the_program() {
    assert_eq!(program(vec![]), "");
    let mut input = b"m 2 2 4 1\n".to_vec();
    let mut expected = "ok\n".to_string();
    for clock in 0..20_000 {
        input.extend(format!("c {clock}\nq 0 1\n\n").bytes());
        expected.push_str("ok\n= 0\nunread\n");
    }
    // The last line has no newline.
    input.extend(b"d 0 19999 2\nq 0 1");
    expected.push_str("ok\n= 2\n");
    assert_eq!(program(input), expected);
}

/// A program that waits for more lines before it answers one would never be given them.
#[test]
fn every_line_is_answered_before_the_next() {
    let (mut child, mut stdin, stdout) = started();
    let (sender, answers) = channel();
    let reader = std::thread::spawn(move || {
        let mut lines = BufReader::new(stdout).lines();
        lines.try_for_each(|line| sender.send(line.unwrap()))
    });
    let (mut bench, mut ledger) = (Bench::default(), Ledger::new(within(EXAMPLE)));
    let mut source = Source::new(1, Makes::Same);
    for _ in 0..2_000 {
        let call = source.call(&ledger);
        // Refused calls are part of a run.
        let _ = ledger.perform(call, within(EXAMPLE).book_length());
        let line = line(call);
        writeln!(stdin, "{line}").unwrap();
        let answer = answers.recv_timeout(Duration::from_secs(20)).unwrap();
        assert_eq!(answer, bench.line(line.as_bytes()), "{line}");
    }
    drop(stdin);
    reader.join().unwrap().unwrap();
    assert!(child.wait().unwrap().success());
}
