//! A second reading of documents 01 and 02, written from the pages alone and sharing no code with the library or its programs.
//!
//! - `reference exam FILE` works out the lines of the exam's sheet.
//! - `reference lessons PROGRAM STORED EXAMPLES SEED COUNT` works out what the lesson program prints, `reference reports` with the same what the
//!   report program does.
//! - `reference streams lessons PROGRAM` tries the lesson program where reading or writing fails, of which the pages say nothing (docs/DECISIONS.md
//!   does), and where it does not; `reference streams reports PROGRAM` the report program.
//! - `reference example SET SEED` writes a lesson for a published parameter set. The folder of examples holds those of sets 1 to 7, each
//!   made with the seed 2026.

mod calls;
mod compare;
mod draw;
mod ends;
mod exam;
mod example;
mod files;
mod kinds;
mod lesson;
mod report;
mod report_files;
mod report_met;
mod samples;
mod show;
mod streams;
mod tally;
mod text;

use std::io::Write;
use std::process::exit;
use text::Text;

fn number(text: &str) -> u64 {
    text.parse().unwrap_or_else(|_| panic!("{text:?} is no number"))
}

/// By the name of its comparison.
fn named(name: &str) -> Text {
    [Text::Lesson, Text::Report].into_iter().find(|text| text.name() == name).unwrap_or_else(|| panic!("{name} is neither lessons nor reports"))
}

fn write_example(set: u64, seed: u64) -> bool {
    std::io::stdout().write_all(&example::example(set, seed)).expect("standard output");
    true
}

fn main() {
    let arguments: Vec<String> = std::env::args().skip(1).collect();
    let arguments: Vec<&str> = arguments.iter().map(String::as_str).collect();
    report::check_pairs();
    let right = match &arguments[..] {
        ["exam", file] => exam::is_right(file),
        ["streams", name, program] => streams::is_right(named(name), program),
        ["example", set, seed] => write_example(number(set), number(seed)),
        [name, program, stored, examples, seed, count] => {
            compare::is_right(named(name), program, stored, examples, number(seed), number(count) as usize)
        }
        _ => panic!("exam FILE, lessons or reports PROGRAM STORED EXAMPLES SEED COUNT, streams lessons or reports PROGRAM, or example SET SEED"),
    };
    if !right {
        exit(1);
    }
}
