//! The comparison of scripts: equal sides pass, a difference is found where it is, and a child process that does
//! not answer is told. Readers that are wrong in a single byte or number are edits of the proofs.

use std::ffi::OsStr;
use std::fs;
use std::process::{Command, Output};
use std::time::Duration;

use compare::bench::plan::Plan;
use compare::bench::program::{output_one_by_one, program_output};
use compare::bench::{first_difference, lines, output, run, LINES, LINES_PER_SCRIPT};

/// The scripts of a usual run with their numbers.
fn usual_plan() -> impl Iterator<Item = (u64, Vec<u8>)> {
    (0..).zip(Plan::new(1, LINES, LINES / LINES_PER_SCRIPT))
}

#[test]
fn the_second_program_equals_itself_and_meets_everything() {
    let summary = run(usual_plan(), output).unwrap();
    assert_eq!(summary.faults(true), Vec::<String>::new());
    let long = (0..).zip(Plan::new(1, LINES / 2, 1));
    let mut summary = run(long, output).unwrap();
    assert_eq!(summary.tally("lines").faults(), Vec::<String>::new());
}

#[test]
fn a_plan_keeps_to_its_numbers() {
    for (asked, scripts) in [(0, 1), (0, 5), (1, 3), (999, 1), (1_000, 7), (50, 200)] {
        let all = |seed| Plan::new(seed, asked, scripts).collect::<Vec<_>>();
        assert_eq!(all(5), all(5));
        assert!(asked < 50 || all(5) != all(6));
        assert_eq!(all(5).len(), scripts as usize);
        let written: usize = all(5).iter().map(|script| lines(script).count()).sum();
        assert_eq!(written, asked as usize);
    }
}

#[test]
fn some_scripts_are_empty_and_some_end_without_a_newline() {
    let scripts: Vec<_> = usual_plan().map(|(_, script)| script).collect();
    let count = |is: fn(&[u8]) -> bool| scripts.iter().filter(|script| is(script)).count();
    let (empty, ended) = (count(<[u8]>::is_empty), count(|s| s.ends_with(b"\n")));
    assert!(empty >= 3, "{empty}");
    assert!(ended >= scripts.len() / 3, "{ended}");
    assert!(scripts.len() - ended - empty >= scripts.len() / 6, "{ended}, {empty}");
}

#[test]
fn every_kind_of_changed_output_is_a_difference() {
    for (output, line) in [
        ("ok\n= 1\n", 1),
        ("ok\n= 00\n", 1),
        ("ok\n= 0 \n", 1),
        ("OK\n= 0\n", 0),
        ("ok\r\n= 0\n", 0),
        ("ok\n\n= 0\n", 1),
        ("ok\n= 0", 1),
        ("ok\n", 1),
        ("", 0),
        ("ok\n= 0\n\n", 2),
        ("ok\n= 0\nok\n", 2),
    ] {
        let found = first_difference(b"ok\n= 0\n", output.as_bytes());
        assert_eq!(found, Some(line), "{output:?}");
    }
    assert_eq!(first_difference(b"ok\n= 0\n", b"ok\n= 0\n"), None);
    assert_eq!(first_difference(b"", b""), None);
    assert_eq!(first_difference(b"", b"\n"), Some(0));
}

/// What lies below the proofs: how a program's input comes to its reader.
#[test]
fn programs_that_cut_their_input_are_caught() {
    let parted = |line: &[u8]| line.chunks(1 << 16).collect::<Vec<_>>().join(&b'\n');
    let in_chunks = |script: &[u8]| output(&lines(script).map(parted).collect::<Vec<_>>().concat());
    assert!(run(usual_plan(), in_chunks).is_err());
    let of_one_chunk = |script: &[u8]| output(&script[..script.len().min(1 << 16)]);
    assert!(run(usual_plan(), of_one_chunk).is_err());
}

#[test]
fn large_scripts_pass_through_a_child() {
    // More than both pipes hold, so that writing before reading would never end.
    let script = b"d 0 0 1\n".repeat(1 << 17);
    assert!(program_output(OsStr::new("cat"), &script) == script);
    assert_eq!(program_output(OsStr::new("cat"), b""), b"");
}

/// Long enough for a program that answers, short enough to wait for one that does not.
const LONG: Duration = Duration::from_secs(20);
const SHORT: Duration = Duration::from_millis(300);

#[test]
fn lines_pass_one_by_one_through_a_child() {
    let cat = |script: &[u8]| output_one_by_one(OsStr::new("cat"), script, LONG);
    for script in [&b""[..], b"\n", b"a\n\nb", &b"d 0 0 1\n".repeat(500)] {
        assert!(cat(script) == script);
    }
    // Lines that no pipe holds.
    let long = [b"d 0 0 1".repeat(1 << 15), b"q".repeat(1 << 17)].join(&b'\n');
    assert!(cat(&long) == long);
}

#[test]
fn a_child_that_fails_is_told() {
    let script = b"m 2 2 4 1\n".repeat(1 << 16);
    for (program, told) in [
        ("true", ""),
        ("false", "(program ended with "),
        ("./no-such-program", "(program could not be run: "),
    ] {
        let program = OsStr::new(program);
        for output in
            [program_output(program, &script), output_one_by_one(program, b"a\nb\n", LONG)]
        {
            assert!(output.starts_with(told.as_bytes()), "{program:?}");
            assert_eq!(output.is_empty(), told.is_empty(), "{program:?}");
        }
    }
}

#[test]
fn a_child_without_an_answer_or_an_end_is_told() {
    let output = |program: &str, script: &[u8], patience| {
        let output = output_one_by_one(OsStr::new(program), script, patience);
        String::from_utf8(output).unwrap()
    };
    // It prints what it has read, all of it after the end of the input.
    assert_eq!(output("tac", b"ok\nok\n", SHORT), "(no answer within 300ms)\n");
    // A single line without its newline is the end of the input as well.
    assert_eq!(output("tac", b"ok", LONG), "ok");
    let endless = output("yes", b"a\n", LONG);
    assert_eq!(endless, "y\ny\n(an answer to no line)\n");
    let idle = script_file("idle", "exec sleep 60");
    let long = b"d".repeat(1 << 20);
    assert_eq!(output(&idle, &long, SHORT), "(no answer within 300ms)\n");
    assert_eq!(output(&idle, b"", SHORT), "(no end within 300ms)\n");
    // It answers and closes its output, but stays.
    let stays = script_file("stays", "read line; echo ok; exec sleep 60 >&-");
    let seconds = Duration::from_secs(3);
    assert_eq!(output(&stays, b"a\n", seconds), "ok\n(no end within 3s)\n");
}

/// A program of the shell, among the files of the build. Another process writes it, because a file
/// that a child of this one may still have open cannot be run.
fn script_file(name: &str, commands: &str) -> String {
    let path = format!("{}/{name}", env!("CARGO_TARGET_TMPDIR"));
    let write = r#"printf '#!/bin/sh\n%s\n' "$1" > "$0" && chmod 755 "$0""#;
    let arguments = ["-c", write, &path, commands];
    let status = Command::new("sh").args(arguments).status().unwrap();
    assert!(status.success());
    path
}

/// Runs the program, with its temporary files among those of the build. It gives the exit status and what
/// it told.
fn compare(arguments: &str) -> (Option<i32>, String) {
    let command = Command::new(env!("CARGO_BIN_EXE_compare"))
        .args(arguments.split_whitespace())
        .env("TMPDIR", env!("CARGO_TARGET_TMPDIR"))
        .output();
    let Output { status, stdout, stderr } = command.unwrap();
    let told = String::from_utf8([stdout, stderr].concat()).unwrap();
    (status.code(), told)
}

#[test]
fn a_difference_is_told_and_its_script_kept() {
    for arguments in ["--lines 500 --trials 1", "--one-by-one", "--trial 3"] {
        let (status, told) = compare(&format!("bench cat {arguments}"));
        assert_eq!(status, Some(1));
        let number = if arguments == "--trial 3" { 3 } else { 0 };
        let (first, rest) = told.split_once('\n').unwrap();
        assert!(
            first.starts_with("bench --") && first.ends_with(&format!(" --trial {number}: Line"))
        );
        assert!(rest.starts_with("line 1\ninput: "));
        let path = told.lines().last().unwrap().strip_prefix("script in: ");
        let kept = fs::read(path.unwrap()).unwrap();
        fs::remove_file(path.unwrap()).unwrap();
        let first = lines(&kept).next().unwrap().escape_ascii().to_string();
        assert!(told.contains(&format!("input:   \"{first}\"\n")), "{told}");
    }
}

/// A program that has the right answers to the only script of a run of two lines.
fn right_program(seed: u64) -> String {
    let script = Plan::new(seed, 2, 1).next().unwrap();
    let answers = script_file("answers", "");
    fs::write(&answers, output(&script)).unwrap();
    let one_by_one = format!("exec 3< {answers}; while read a; do read b <&3; echo $b; done");
    script_file("right", &one_by_one)
}

#[test]
fn success_is_one_line() {
    let bench = format!("bench {} --lines 2 --trials 1", right_program(1));
    for (arguments, name) in [
        (&bench[..], "bench --seed 1 --lines 2 --trials 1"),
        (&format!("{bench} --one-by-one"), "bench --one-by-one --seed 1 --lines 2 --trials 1"),
        ("books --trials 3", "books --seed 1"),
        ("replays --seed 2 --trial 3", "replays --seed 2"),
        ("merges --trials 3", "merges --seed 1"),
    ] {
        let (status, told) = compare(arguments);
        assert_eq!(status, Some(0), "{told}");
        assert!(told.starts_with(&format!("{name}: all equal; trials ")), "{told}");
        assert_eq!(told.lines().count(), 1);
    }
}

/// An empty script is answered rightly by a program that says nothing.
#[test]
fn a_run_without_a_line_is_no_success() {
    let empty = usual_plan().find(|(_, script)| script.is_empty());
    let (number, _) = empty.unwrap();
    let (status, told) = compare(&format!("bench true --trial {number}"));
    assert_eq!(status, Some(1));
    assert!(told.ends_with(": nothing was compared\n"), "{told}");
}

#[test]
fn wrong_usage_is_told() {
    for arguments in [
        "",
        "bench",
        "bench a b",
        "bench a --other",
        "bench a --trials 0",
        "bench a --trial 100",
        "bench a --lines -1",
        "bench a --lines 0",
        "book",
        "books --lines 3",
        "books 7",
    ] {
        let (status, told) = compare(arguments);
        assert_eq!(status, Some(2), "{arguments}");
        assert!(told.contains("\n\nusage: compare bench PROGRAM"), "{told}");
    }
    assert_eq!(compare("--help").0, Some(0));
}
