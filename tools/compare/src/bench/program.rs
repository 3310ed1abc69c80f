//! A program under comparison, run as a child process: on a whole script at once, or on one line
//! after another.
//!
//! Where the program could not be run, did not answer or ended with a failure, a line at the end of
//! its output says so. No answer reads like it, so that it counts as a difference.

use std::ffi::OsStr;
use std::io::{self, BufRead, BufReader, Read, Write};
use std::process::{Child, Command, Output, Stdio};
use std::sync::mpsc::{channel, sync_channel, Receiver, RecvTimeoutError, Sender, SyncSender};
use std::thread;
use std::time::{Duration, Instant};

use super::lines;

/// How often a child that should end is looked at.
const GLANCE: Duration = Duration::from_millis(5);

/// The program's output for a script.
pub fn program_output(program: &OsStr, script: &[u8]) -> Vec<u8> {
    match output(program, script) {
        Ok(output) if output.status.success() => output.stdout,
        Ok(mut output) => {
            let note = format!("(program ended with {})\n", output.status);
            output.stdout.extend(note.bytes());
            output.stdout
        }
        Err(error) => not_run(&error),
    }
}

fn not_run(error: &io::Error) -> Vec<u8> {
    format!("(program could not be run: {error})\n").into_bytes()
}

fn start(program: &OsStr) -> io::Result<Child> {
    Command::new(program).stdin(Stdio::piped()).stdout(Stdio::piped()).spawn()
}

fn output(program: &OsStr, script: &[u8]) -> io::Result<Output> {
    let mut child = start(program)?;
    let input = child.stdin.take();
    thread::scope(|scope| {
        // Its own thread, since the program may wait for its output to be read. A program that
        // stops reading breaks the pipe; its output then shows what it left out.
        scope.spawn(move || input.map(|mut input| input.write_all(script)));
        child.wait_with_output()
    })
}

/// The program's output for a script of which it gets each line only once it has answered the one
/// before. It must answer each line, and end after the last, within the given time.
pub fn output_one_by_one(program: &OsStr, script: &[u8], patience: Duration) -> Vec<u8> {
    match start(program) {
        Ok(child) => Dialogue::new(child, patience).run(script),
        Err(error) => not_run(&error),
    }
}

/// A running program, and what it has said so far.
struct Dialogue {
    child: Child,
    patience: Duration,
    said: Vec<u8>,
}

impl Dialogue {
    fn new(child: Child, patience: Duration) -> Dialogue {
        Dialogue { child, patience, said: Vec::new() }
    }

    fn run(mut self, script: &[u8]) -> Vec<u8> {
        let (input, output) = (self.child.stdin.take(), self.child.stdout.take());
        let (asked, questions) = channel();
        // Room for one line, so that a program that never stops talking has to wait.
        let (answered, answers) = sync_channel(1);
        thread::scope(|scope| {
            // Their own threads, so that a program that does not read or answer stops neither.
            scope.spawn(move || input.map(|input| write(input, &questions)));
            scope.spawn(move || output.map(|output| read(output, &answered)));
            let trouble = self.talk(script, asked, &answers).err();
            // Without a receiver the reading thread ends.
            drop(answers);
            if trouble.is_some() {
                // It may have ended already.
                let _ = self.child.kill();
            }
            let trouble = trouble.or_else(|| self.end().err());
            // A child that was killed is awaited as well, so that none is left behind.
            let _ = self.child.wait();
            let note = trouble.map(|trouble| format!("({trouble})\n"));
            self.said.extend(note.unwrap_or_default().bytes());
            self.said
        })
    }

    /// Asks line by line, then closes the input; there should be no more then.
    fn talk<'a>(
        &mut self,
        script: &'a [u8],
        asked: Sender<&'a [u8]>,
        answers: &Receiver<Vec<u8>>,
    ) -> Result<(), String> {
        let mut asked = Some(asked);
        for line in lines(script) {
            if let Some(asked) = &asked {
                // Where the program has stopped reading, the missing answer tells.
                let _ = asked.send(line);
            }
            if !line.ends_with(b"\n") {
                // Only the end of the input ends this line.
                asked = None;
            }
            match answers.recv_timeout(self.patience) {
                Ok(answer) => self.said.extend(answer),
                Err(RecvTimeoutError::Timeout) => {
                    return Err(format!("no answer within {:?}", self.patience))
                }
                Err(RecvTimeoutError::Disconnected) => return Ok(()),
            }
        }
        drop(asked);
        match answers.recv_timeout(self.patience) {
            Ok(more) => {
                self.said.extend(more);
                Err("an answer to no line".to_string())
            }
            Err(RecvTimeoutError::Timeout) => Err(format!("no end within {:?}", self.patience)),
            Err(RecvTimeoutError::Disconnected) => Ok(()),
        }
    }

    /// Waits for the program's end, which should be a success.
    fn end(&mut self) -> Result<(), String> {
        let deadline = Instant::now() + self.patience;
        loop {
            match self.child.try_wait() {
                Ok(Some(status)) if status.success() => return Ok(()),
                Ok(Some(status)) => return Err(format!("program ended with {status}")),
                Ok(None) if Instant::now() < deadline => thread::sleep(GLANCE),
                Ok(None) => {
                    let _ = self.child.kill();
                    return Err(format!("no end within {:?}", self.patience));
                }
                Err(error) => return Err(format!("program could not be awaited: {error}")),
            }
        }
    }
}

/// Hands lines on to a program as long as it reads; the end of the lines is the end of its input.
fn write(mut input: impl Write, questions: &Receiver<&[u8]>) {
    for line in questions {
        if input.write_all(line).and_then(|()| input.flush()).is_err() {
            return;
        }
    }
}

/// Hands a program's lines on, each as soon as it is there.
fn read(output: impl Read, answered: &SyncSender<Vec<u8>>) {
    let mut output = BufReader::new(output);
    loop {
        let mut line = Vec::new();
        match output.read_until(b'\n', &mut line) {
            Ok(length) if length > 0 && answered.send(line).is_ok() => {}
            _ => return,
        }
    }
}
