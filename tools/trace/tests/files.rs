//! The program on files: a trace made from lines, printed again, two days merged, and what is wrong with any
//! of this.

use std::path::PathBuf;
use std::process::Command;
use std::{env, fs, process};

use draw::trace::EXAMPLE;
use litres::Refused;

/// A folder of this test's own, removed at its end.
struct Folder(PathBuf);

impl Folder {
    fn new(name: &str) -> Folder {
        let path = env::temp_dir().join(format!("trace-{name}-{}", process::id()));
        fs::create_dir_all(&path).expect("a new folder");
        Folder(path)
    }

    fn write(&self, name: &str, content: impl AsRef<[u8]>) {
        fs::write(self.0.join(name), content).expect("a new file");
    }

    fn read(&self, name: &str) -> Vec<u8> {
        fs::read(self.0.join(name)).expect("a written file")
    }

    /// Runs the program on files of the folder, with the words of a line: its exit status, standard output and
    /// standard error.
    fn run(&self, line: &str) -> (Option<i32>, Vec<u8>, String) {
        let mut command = Command::new(env!("CARGO_BIN_EXE_trace"));
        command.args(line.split_whitespace()).current_dir(&self.0);
        let output = command.output().expect("the program runs");
        let trouble = String::from_utf8(output.stderr).expect("text");
        (output.status.code(), output.stdout, trouble)
    }

    /// Standard output of a run that succeeds.
    fn printed(&self, line: &str) -> Vec<u8> {
        let (status, output, trouble) = self.run(line);
        assert_eq!((status, &*trouble), (Some(0), ""), "{line}");
        output
    }

    /// What a run that fails says.
    fn trouble(&self, line: &str, expected: i32) -> String {
        let (status, output, trouble) = self.run(line);
        assert_eq!((status, output), (Some(expected), vec![]), "{line}");
        trouble
    }
}

impl Drop for Folder {
    fn drop(&mut self) {
        // What is left in a temporary folder harms nobody.
        let _ = fs::remove_dir_all(&self.0);
    }
}

/// The bytes of words.
fn bytes(words: &[u32]) -> Vec<u8> {
    words.iter().flat_map(|word| word.to_le_bytes()).collect()
}

#[test]
fn the_example_there_and_back() {
    let folder = Folder::new("example");
    let lines = "c 3\nd 0 0 3\nd 0 3 1\nd 0 1 1\nq 0 2\n";
    folder.write("0.txt", "");
    folder.write("1.txt", lines);
    assert_eq!(folder.printed("make -o trace 0.txt 1.txt"), b"");
    assert_eq!(folder.read("trace"), bytes(&EXAMPLE));
    assert_eq!(folder.printed("make 0.txt 1.txt"), bytes(&EXAMPLE));
    let head = "days 2, words 25\nday 0: start 5, words 0\nday 1: start 5, words 20\n";
    let expected = format!("{head}{lines}");
    assert_eq!(folder.printed("print trace"), expected.as_bytes());
    // The last newline may be missing.
    folder.write("day", "c 3\nq 0 2");
    let made = bytes(&[1, 3, 8, 1, 3, 0, 0, 3, 0, 2, 0]);
    assert_eq!(folder.printed("make day"), made);
}

#[test]
fn lines_that_are_no_records() {
    let folder = Folder::new("lines");
    folder.write("good", "c 1\n");
    let unread = ["c", "c 03", "d 0 0 4294967296", "q 0 2 ", "", "c 3\r"];
    let unread = unread.map(|line| (line, "no line of the bench protocol"));
    let make = ("m 2 2 4 1", "a trace records no make");
    for (line, reason) in unread.into_iter().chain([make]) {
        folder.write("bad", format!("c 1\n{line}\nc 2\n"));
        let expected = format!("bad, line 2: {reason}\n");
        assert_eq!(folder.trouble("make good bad", 1), expected, "{line}");
    }
}

#[test]
fn most_days() {
    let folder = Folder::new("days");
    folder.write("day", "c 1\n");
    let line = |days| format!("make{}", " day".repeat(days));
    assert_eq!(folder.printed(&line(64))[..4], [64, 0, 0, 0]);
    assert_eq!(folder.trouble(&line(65), 1), "65 days, at most 64\n");
}

#[test]
fn broken_layouts_are_explained() {
    let folder = Folder::new("broken");
    let with = |word: usize, value| {
        let mut words = EXAMPLE;
        words[word] = value;
        bytes(&words)
    };
    let half = &bytes(&EXAMPLE)[..98];
    for (content, reason) in [
        (with(3, 6), "word 3: day 1 starts at 6, not 5"),
        (with(9, 4), "word 9: day 1 has a record of kind 4"),
        (with(24, 7), "word 24: day 1 has a record with 7 in place of 0"),
        (half.to_vec(), "98 bytes are no whole 32-bit words"),
        (vec![], "there is no word, not even a count of days"),
    ] {
        folder.write("trace", content);
        let said = folder.trouble("print trace", 1);
        assert_eq!(said, format!("trace: {reason}\n"));
    }
}

/// No clock is in both days, so that they have one merged day.
#[test]
fn two_days_merged() {
    let folder = Folder::new("merge");
    folder.write("empty", "");
    folder.write("odd.txt", "c 1\nd 0 1 5\nc 3\nq 0 2\n");
    folder.write("even.txt", "c 2\nd 0 0 7\n");
    folder.printed("make -o odd empty odd.txt");
    folder.printed("make -o even empty even.txt");
    assert_eq!(folder.printed("merge -o merged odd 1 even 1"), b"");
    let expected = "days 1, words 27\nday 0: start 3, words 24\n\
        c 1\nd 0 1 5\nc 2\nd 0 0 7\nc 3\nq 0 2\n";
    assert_eq!(folder.printed("print merged"), expected.as_bytes());
    let merged = folder.read("merged");
    for (line, expected) in [
        ("merge odd 1 even 1", &merged),
        ("merge even 1 odd 1", &merged),
        ("merge even 0 odd 0", &bytes(&[1, 3, 0])),
    ] {
        assert_eq!(&folder.printed(line), expected, "{line}");
    }
}

/// The refusal is the merge's own, which looks at both traces before it looks for a day. Both days are told
/// where both are at fault.
#[test]
fn days_that_are_not_merged() {
    let folder = Folder::new("refused");
    folder.write("trace", bytes(&EXAMPLE));
    folder.write("broken", bytes(&EXAMPLE[..24]));
    folder.write("disorder", bytes(&[1, 3, 4, 3, 0, 2, 0]));
    folder.write("half", &bytes(&EXAMPLE)[..98]);
    let both = &["disorder, day 1", "trace, day 2"];
    for (line, named, number) in [
        ("merge trace 2 broken 1", &["broken, day 1"][..], 13),
        ("merge disorder 0 trace 2", &["trace, day 2"], 14),
        ("merge trace 1 disorder 0", &["disorder, day 0"], 16),
        ("merge disorder 1 trace 2", both, 14),
    ] {
        let told = |day| format!("{day}: refused {number}, {}\n", Refused(number));
        let expected: String = named.iter().map(told).collect();
        assert_eq!(folder.trouble(line, 1), expected);
    }
    let said = folder.trouble("merge trace 0 half 0", 1);
    assert_eq!(said, "half: 98 bytes are no whole 32-bit words\n");
}

#[test]
fn wrong_command_lines() {
    let folder = Folder::new("usage");
    for (line, reason) in [
        ("", "make, merge or print is missing"),
        ("make", "DAY is missing"),
        ("print", "FILE is missing"),
        ("print a b", "one word too many: b"),
        ("print -o a b", "-o goes with make and merge"),
        ("merge", "FIRST is missing"),
        ("merge a", "I is missing"),
        ("merge a 0 b", "J is missing"),
        ("merge a 0 b 1 c", "one word too many: c"),
        ("merge a 0 b c", "no number of a day: c"),
        ("merge a 4294967296 b 0", "no number of a day: 4294967296"),
        ("make -o", "-o needs a file"),
        ("make --other a", "unknown or twice: --other"),
        ("show a", "neither make nor merge nor print: show"),
    ] {
        let said = folder.trouble(line, 2);
        assert!(said.starts_with(&format!("{reason}\n\nusage: ")), "{said}");
    }
}

#[test]
fn files_that_cannot_be_read_or_written() {
    let folder = Folder::new("missing");
    folder.write("day", "c 1\n");
    for (line, file) in [
        ("make missing", "missing"),
        ("print missing", "missing"),
        ("make -o missing/trace day", "missing/trace"),
    ] {
        let said = folder.trouble(line, 1);
        assert!(said.starts_with(&format!("{file}: ")), "{said}");
    }
}
