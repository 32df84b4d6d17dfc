//! A program under test, the lesson program or the report program, compared byte for byte with what it should print.

use crate::draw::Dice;
use crate::lesson::{lesson, Lesson, MOST_WORDS};
use crate::show::{difference, excerpt, hex};
use crate::tally::Tally;
use crate::text::Text;
use std::collections::BTreeSet;
use std::io::{ErrorKind, Write};
use std::process::{ChildStdin, Command, Output, Stdio};
use std::sync::atomic::{AtomicUsize, Ordering};
use std::sync::Mutex;
use std::thread;
use std::time::Duration;

/// Fewer made files than this say too little.
const FEWEST_FILES: usize = 5_000;

/// After so many differences the rest is not tried.
const MOST_DIFFERENCES: usize = 10;

/// How the bytes of a file go through the pipe.
pub enum Delivery {
    AtOnce,
    LastByteLate,
    InPieces(Dice),
}

/// A program may stop reading before the end of a long file.
fn write(input: &mut ChildStdin, bytes: &[u8]) -> bool {
    match input.write_all(bytes).and_then(|()| input.flush()) {
        Ok(()) => true,
        Err(error) if error.kind() == ErrorKind::BrokenPipe => false,
        Err(error) => panic!("the program's standard input: {error}"),
    }
}

pub fn deliver(mut input: ChildStdin, file: &[u8], delivery: Delivery) {
    let mut dice = match delivery {
        Delivery::AtOnce => {
            write(&mut input, file);
            return;
        }
        Delivery::LastByteLate => {
            let (front, last) = file.split_at(file.len() - 1);
            write(&mut input, front);
            thread::sleep(Duration::from_millis(50));
            write(&mut input, last);
            return;
        }
        Delivery::InPieces(dice) => dice,
    };
    let longest = 5.max(file.len() as u64 / 8);
    let mut rest = file;
    while !rest.is_empty() {
        let (piece, later) = rest.split_at(rest.len().min(dice.between(1, longest) as usize));
        if !write(&mut input, piece) {
            return;
        }
        thread::sleep(Duration::from_micros(dice.between(20, 300)));
        rest = later;
    }
}

/// The program's output with the file on its standard input, which is written while the output is read.
fn run(program: &str, file: &[u8], delivery: Delivery) -> Output {
    let mut command = Command::new(program);
    let piped = command.stdin(Stdio::piped()).stdout(Stdio::piped()).stderr(Stdio::piped());
    let mut child = piped.spawn().unwrap_or_else(|error| panic!("{program}: {error}"));
    let input = child.stdin.take().expect("a pipe");
    thread::scope(|scope| {
        scope.spawn(|| deliver(input, file, delivery));
        child.wait_with_output().expect("the program's output")
    })
}

/// What is wrong with the program's run on a file.
fn fault(output: &Output, want: &[u8]) -> Option<String> {
    let mut text = difference(&output.stdout, want).unwrap_or_default();
    if output.status.code() != Some(0) {
        text += &format!("  {}\n", output.status);
    }
    if !output.stderr.is_empty() {
        text += &format!("  standard error {}\n", excerpt(&output.stderr, 0));
    }
    if text.is_empty() {
        None
    } else {
        Some(text)
    }
}

/// What a program should read of a file. Its word buffer starts as 1,792 zeros.
pub fn read(file: &[u8]) -> Lesson {
    lesson(file, &mut [0; MOST_WORDS as usize])
}

/// A file with the output that is stored for it.
struct Case {
    name: String,
    file: Vec<u8>,
    output: Vec<u8>,
}

/// The stored output is the program's and the one worked out. Answers how many cases are wrong.
fn wrong_cases(text: Text, program: &str, cases: &[Case]) -> usize {
    let mut wrong = 0;
    for case in cases {
        let run = fault(&run(program, &case.file, Delivery::AtOnce), &case.output);
        let worked_out = difference(&text.of(&read(&case.file)), &case.output);
        for (what, fault) in [("the program", run), ("worked out", worked_out)] {
            if let Some(fault) = fault {
                wrong += 1;
                eprintln!("{}, {what}:{}\n{fault}", case.name, hex(&case.file));
            }
        }
    }
    wrong
}

fn byte_of(digits: &str) -> Option<u8> {
    let upper = digits.len() == 2 && digits.bytes().all(|digit| digit.is_ascii_digit() || (b'A'..=b'F').contains(&digit));
    u8::from_str_radix(digits, 16).ok().filter(|_| upper)
}

/// A line `in` with the bytes in hex, then a line `out` for each line of the output. Blank lines and lines that begin with # are comments.
fn stored_cases(path: &str) -> Vec<Case> {
    let text = std::fs::read_to_string(path).unwrap_or_else(|error| panic!("{path}: {error}"));
    let mut cases: Vec<Case> = Vec::new();
    for (number, line) in text.lines().enumerate() {
        let name = format!("{path} line {}", number + 1);
        if line.is_empty() || line.starts_with('#') {
            continue;
        } else if let Some(output) = line.strip_prefix("out ") {
            let case = cases.last_mut().unwrap_or_else(|| panic!("{name}: out before in"));
            case.output.extend(output.bytes().chain([b'\n']));
        } else {
            let mut fields = line.split(' ');
            assert_eq!(fields.next(), Some("in"), "{name}: neither in nor out");
            let file = fields.map(|digits| byte_of(digits).unwrap_or_else(|| panic!("{name}: {digits:?} is no byte in hex"))).collect();
            cases.push(Case { name, file, output: Vec::new() });
        }
    }
    assert!(!cases.is_empty(), "{path} stores nothing");
    cases
}

/// For each name NAME.lesson with the lesson program's text in NAME.txt or the report in NAME.report.
fn example_cases(text: Text, folder: &str) -> Vec<Case> {
    let mut names = BTreeSet::new();
    for entry in std::fs::read_dir(folder).unwrap_or_else(|error| panic!("{folder}: {error}")) {
        let file_name = entry.expect("a folder entry").file_name().into_string().expect("a name in UTF-8");
        match file_name.rsplit_once('.') {
            Some((name, "lesson" | "txt" | "report")) => names.insert(name.to_string()),
            // Programs in C stand there too.
            Some((_, "c")) => continue,
            _ => panic!("{folder}: {file_name} is no lesson and no text of one"),
        };
    }
    assert!(!names.is_empty(), "{folder} is empty");
    let read = |name: &str, ending: &str| {
        let path = format!("{folder}/{name}.{ending}");
        std::fs::read(&path).unwrap_or_else(|error| panic!("{path}: {error}"))
    };
    let ending = if text == Text::Lesson { "txt" } else { "report" };
    names.into_iter().map(|name| Case { file: read(&name, "lesson"), output: read(&name, ending), name }).collect()
}

/// Some of the short files and more of the long ones go through the pipe in small pieces.
fn delivery(seed: u64, number: usize, file: &[u8]) -> Delivery {
    let mut dice = Dice::new(!seed, number as u64);
    if dice.one_in(if file.len() < 10_000 { 50 } else { 8 }) {
        Delivery::InPieces(dice)
    } else {
        Delivery::AtOnce
    }
}

/// Files made from a seed, shared out by number.
struct Made<'a> {
    text: Text,
    program: &'a str,
    seed: u64,
    count: usize,
    next: AtomicUsize,
    differences: AtomicUsize,
    tally: Mutex<Tally>,
}

impl Made<'_> {
    /// Takes the next number until none is left.
    fn compare(&self) {
        while self.differences.load(Ordering::SeqCst) < MOST_DIFFERENCES {
            let number = self.next.fetch_add(1, Ordering::SeqCst);
            if number >= self.count {
                break;
            }
            let (kind, file) = self.text.made_file(self.seed, number);
            let lesson = read(&file);
            let output = run(self.program, &file, delivery(self.seed, number, &file));
            if let Some(fault) = fault(&output, &self.text.of(&lesson)) {
                if self.differences.fetch_add(1, Ordering::SeqCst) < MOST_DIFFERENCES {
                    eprintln!("seed {}, file {number} ({kind}, {} bytes):{}\n{fault}", self.seed, file.len(), hex(&file));
                }
            }
            self.tally.lock().expect("the tally").count(&lesson, file.len());
        }
    }
}

/// Answers how many files made from the seed are wrong, and how much they should have met and did not.
fn wrong_made_files(text: Text, program: &str, seed: u64, count: usize) -> usize {
    let (next, differences) = (AtomicUsize::new(0), AtomicUsize::new(0));
    let made = Made { text, program, seed, count, next, differences, tally: Mutex::new(Tally::new(text)) };
    thread::scope(|scope| {
        scope.spawn(|| made.compare());
        made.compare();
    });
    let differences = made.differences.into_inner();
    if differences >= MOST_DIFFERENCES {
        eprintln!("{MOST_DIFFERENCES} differences, the rest is not tried");
        return differences;
    }
    differences + made.tally.into_inner().expect("the tally").print()
}

/// Compares the program with the stored cases, the examples and the files made from a seed.
pub fn is_right(text: Text, program: &str, stored: &str, examples: &str, seed: u64, count: usize) -> bool {
    if count < FEWEST_FILES {
        eprintln!("{count} files are too few, at least {FEWEST_FILES} are made");
        return false;
    }
    let (stored, examples) = (stored_cases(stored), example_cases(text, examples));
    let wrong = wrong_cases(text, program, &stored) + wrong_cases(text, program, &examples) + wrong_made_files(text, program, seed, count);
    println!("{}: {} stored cases, {} examples, {count} made files, {wrong} wrong", text.name(), stored.len(), examples.len());
    wrong == 0
}
