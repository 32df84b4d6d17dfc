//! A program's standard streams: what it prints and what it says on standard error, where a read or a write fails and where none does.

use crate::compare::{deliver, read};
use crate::ends::{Input, Sink};
use crate::show::{difference, excerpt};
use crate::text::Text;
use std::io::{Error, Read};
use std::process::{Child, Command, Output, Stdio};
use std::thread;
use std::time::{Duration, Instant};

/// Document 01's example.
const SAMPLE: &[u8] = include_bytes!("../../examples/document01.lesson");

/// A program that runs longer is ended.
const LONGEST_RUN: Duration = Duration::from_secs(20);

// Linux's numbers for what goes wrong.
const BAD_DESCRIPTOR: i32 = 9;
const WOULD_BLOCK: i32 = 11;
const IS_DIRECTORY: i32 = 21;
const NO_SPACE: i32 = 28;
const BROKEN_PIPE: i32 = 32;
const CONNECTION_RESET: i32 = 104;

/// What comes of a run, with the system's number for what goes wrong.
#[derive(Clone, Copy)]
enum Outcome {
    Orderly,
    ReadFails(i32),
    WriteFails(i32),
}

/// A run of the program on the example repeated to so many bytes.
struct Case {
    name: &'static str,
    input: Input,
    bytes: usize,
    sink: Sink,
    outcome: Outcome,
}

const fn into(sink: Sink, name: &'static str, input: Input, bytes: usize, outcome: Outcome) -> Case {
    Case { name, input, bytes, sink, outcome }
}

const fn orderly(name: &'static str, input: Input, bytes: usize) -> Case {
    into(Sink::Pipe, name, input, bytes, Outcome::Orderly)
}

const fn failing_read(name: &'static str, input: Input, bytes: usize, error: i32) -> Case {
    into(Sink::Pipe, name, input, bytes, Outcome::ReadFails(error))
}

/// Those of both programs.
const CASES: [Case; 31] = [
    orderly("/dev/null", Input::Null, 0),
    orderly("the empty file", Input::File, 0),
    orderly("a pipe without a byte", Input::Pipe, 0),
    orderly("a sample in a file", Input::File, 30),
    orderly("a cut sample in a file", Input::File, 29),
    orderly("a sample through a pipe in pieces", Input::PipeInPieces, 30),
    orderly("a cut sample through a pipe in pieces", Input::PipeInPieces, 40),
    orderly("60,000 bytes in a file", Input::File, 60_000),
    orderly("60,000 bytes through a pipe", Input::Pipe, 60_000),
    orderly("60,000 bytes through a pipe in pieces", Input::PipeInPieces, 60_000),
    orderly("60,001 bytes in a file", Input::File, 60_001),
    orderly("60,001 bytes through a pipe in pieces", Input::PipeInPieces, 60_001),
    orderly("60,001 bytes through a pipe, the last one late", Input::LatePipe, 60_001),
    orderly("a silent pipe behind 60,001 bytes", Input::SilentPipe, 60_001),
    orderly("1,000,000 bytes in a file", Input::File, 1_000_000),
    orderly("1,000,000 bytes through a pipe", Input::Pipe, 1_000_000),
    failing_read("standard input closed", Input::Closed, 0, BAD_DESCRIPTOR),
    failing_read("standard input a directory", Input::Directory, 0, IS_DIRECTORY),
    failing_read("a silent pipe", Input::SilentPipe, 0, WOULD_BLOCK),
    failing_read("a silent pipe behind part of a sample", Input::SilentPipe, 10, WOULD_BLOCK),
    failing_read("a silent pipe behind a sample", Input::SilentPipe, 30, WOULD_BLOCK),
    failing_read("a silent pipe behind a sample and part of another", Input::SilentPipe, 40, WOULD_BLOCK),
    failing_read("a silent pipe behind 60,000 bytes", Input::SilentPipe, 60_000, WOULD_BLOCK),
    failing_read("a silent socket", Input::SilentSocket, 0, WOULD_BLOCK),
    failing_read("a silent socket behind a sample", Input::SilentSocket, 30, WOULD_BLOCK),
    failing_read("a broken socket behind a sample", Input::BrokenSocket, 30, CONNECTION_RESET),
    into(Sink::Full, "/dev/full for the empty file", Input::File, 0, Outcome::WriteFails(NO_SPACE)),
    into(Sink::Full, "/dev/full for a sample", Input::File, 30, Outcome::WriteFails(NO_SPACE)),
    into(Sink::Closed, "standard output closed", Input::File, 30, Outcome::WriteFails(BAD_DESCRIPTOR)),
    into(Sink::Stuffed, "a pipe without room", Input::File, 30, Outcome::WriteFails(WOULD_BLOCK)),
    into(Sink::Abandoned, "a socket that nobody reads", Input::File, 30, Outcome::WriteFails(BROKEN_PIPE)),
];

/// The lesson program writes its header after a failed read too, and its text may be long.
const OF_LESSONS: [Case; 2] = [
    into(Sink::Full, "/dev/full, standard input closed", Input::Closed, 0, Outcome::WriteFails(NO_SPACE)),
    into(Sink::Crowded, "a pipe with room for a part", Input::File, 60_000, Outcome::WriteFails(WOULD_BLOCK)),
];

/// The report program writes nothing after a failed read, so no write fails, and its text is always short.
const OF_REPORTS: [Case; 4] = [
    into(Sink::Full, "/dev/full, standard input closed", Input::Closed, 0, Outcome::ReadFails(BAD_DESCRIPTOR)),
    into(Sink::Full, "/dev/full, a silent pipe behind a sample", Input::SilentPipe, 30, Outcome::ReadFails(WOULD_BLOCK)),
    into(Sink::Closed, "standard output closed, standard input a directory", Input::Directory, 0, Outcome::ReadFails(IS_DIRECTORY)),
    into(Sink::Crowded, "a pipe with room for a part of a long text", Input::File, 60_000, Outcome::Orderly),
];

/// The output of a program that is running.
fn finish(mut child: Child) -> Output {
    let (mut stdout, mut stderr) = (Vec::new(), Vec::new());
    let (out, err) = (child.stdout.take(), child.stderr.take());
    let status = thread::scope(|scope| {
        scope.spawn(|| out.map(|mut out| out.read_to_end(&mut stdout).expect("standard output")));
        scope.spawn(|| err.map(|mut err| err.read_to_end(&mut stderr).expect("standard error")));
        let end = Instant::now() + LONGEST_RUN;
        loop {
            match child.try_wait().expect("the program's status") {
                Some(status) => return status,
                None if Instant::now() > end => child.kill().expect("a running program"),
                None => thread::sleep(Duration::from_millis(1)),
            }
        }
    });
    Output { status, stdout, stderr }
}

impl Case {
    fn file(&self) -> Vec<u8> {
        SAMPLE.iter().copied().cycle().take(self.bytes).collect()
    }

    /// The shell's command, with the program in place of $0. Only a shell closes a stream.
    fn command(&self) -> &'static str {
        match (self.input, self.sink) {
            (Input::Closed, _) => "exec \"$0\" <&-",
            (_, Sink::Closed) => "exec \"$0\" >&-",
            _ => "exec \"$0\"",
        }
    }

    fn run(&self, program: &str, file: &[u8]) -> Output {
        let (input, _other_end) = self.input.open(file);
        let (output, crowded) = self.sink.open();
        let mut command = Command::new("sh");
        command.args(["-c", self.command(), program]).stdin(input).stdout(output).stderr(Stdio::piped());
        let mut child = command.spawn().expect("a shell");
        let pipe = child.stdin.take();
        let mut output = thread::scope(|scope| {
            scope.spawn(|| pipe.map(|pipe| deliver(pipe, file, self.input.delivery())));
            finish(child)
        });
        output.stdout.extend(crowded.map(|pipe| self.sink.added(pipe)).unwrap_or_default());
        output
    }

    /// After a failed read the lesson program's header or nothing, after a failed write what there was room for: of a long text a part.
    fn printed(&self, text: Text, file: &[u8], room: usize) -> Vec<u8> {
        let whole = text.of(&read(file));
        match self.outcome {
            Outcome::Orderly => whole,
            Outcome::ReadFails(_) if text == Text::Lesson => text.of(&read(&[])),
            Outcome::WriteFails(_) if self.sink == Sink::Crowded => whole[..room.clamp(1, whole.len() - 1)].to_vec(),
            Outcome::ReadFails(_) | Outcome::WriteFails(_) => Vec::new(),
        }
    }

    /// One line with the program's name and the system's words for what fails, or nothing.
    fn said(&self, text: Text) -> String {
        let (stream, error) = match self.outcome {
            Outcome::Orderly => return String::new(),
            Outcome::ReadFails(error) => ("input", error),
            Outcome::WriteFails(error) => ("output", error),
        };
        let description = Error::from_raw_os_error(error).to_string();
        let words = description.trim_end_matches(&format!(" (os error {error})"));
        let program = if text == Text::Lesson { "lesson_program" } else { "report_program" };
        format!("{program}: standard {stream}: {words}\n")
    }

    /// What is wrong with the program's run.
    fn fault(&self, text: Text, program: &str) -> Option<String> {
        let file = self.file();
        let output = self.run(program, &file);
        let mut fault = difference(&output.stdout, &self.printed(text, &file, output.stdout.len())).unwrap_or_default();
        if output.status.code() != Some(0) {
            fault += &format!("  {}\n", output.status);
        }
        let said = self.said(text);
        if output.stderr != said.as_bytes() {
            fault += &format!("  standard error {}\n  should be      {said:?}\n", excerpt(&output.stderr, 0));
        }
        Some(fault).filter(|fault| !fault.is_empty())
    }
}

/// Runs the program on each case.
pub fn is_right(text: Text, program: &str) -> bool {
    assert_eq!(SAMPLE.len(), 30, "the example of document 01");
    let (mut orderly, mut reads, mut writes, mut wrong) = (0, 0, 0, 0);
    let more = if text == Text::Lesson { &OF_LESSONS[..] } else { &OF_REPORTS };
    for case in CASES.iter().chain(more) {
        *match case.outcome {
            Outcome::Orderly => &mut orderly,
            Outcome::ReadFails(_) => &mut reads,
            Outcome::WriteFails(_) => &mut writes,
        } += 1;
        if let Some(fault) = case.fault(text, program) {
            wrong += 1;
            eprintln!("{}:\n{fault}", case.name);
        }
    }
    println!("streams of {}: {orderly} orderly runs, {reads} failing reads, {writes} failing writes, {wrong} wrong", text.name());
    wrong == 0 && orderly > 0 && reads > 0 && writes > 0
}
