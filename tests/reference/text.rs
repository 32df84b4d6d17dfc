//! The two texts of a lesson file, and what each of them is compared on.

use crate::files::{self, Kind};
use crate::lesson::Lesson;
use crate::{report, report_files, report_met};

#[derive(Clone, Copy, Debug, PartialEq, Eq)]
pub enum Text {
    /// The lesson program's, of document 01.
    Lesson,
    /// The class report, of document 02.
    Report,
}

impl Text {
    /// What the tests call the comparison.
    pub fn name(self) -> &'static str {
        match self {
            Text::Lesson => "lessons",
            Text::Report => "reports",
        }
    }

    /// The text for what is read of a file.
    pub fn of(self, lesson: &Lesson) -> Vec<u8> {
        match self {
            Text::Lesson => lesson.text(),
            Text::Report => report::text(lesson),
        }
    }

    fn kinds(self) -> Vec<Kind> {
        match self {
            Text::Lesson => files::KINDS.to_vec(),
            Text::Report => [&files::KINDS[..], &report_files::KINDS].concat(),
        }
    }

    /// The file of a number, and its kind.
    pub fn made_file(self, seed: u64, number: usize) -> (&'static str, Vec<u8>) {
        files::made(&self.kinds(), seed, number)
    }

    /// What the made files are to meet besides refusals, n and k.
    pub fn to_meet(self) -> Vec<String> {
        match self {
            Text::Lesson => vec![],
            Text::Report => report_met::to_meet(),
        }
    }

    /// What one file meets of that.
    pub fn met(self, lesson: &Lesson) -> Vec<String> {
        match self {
            Text::Lesson => vec![],
            Text::Report => report_met::met(lesson),
        }
    }
}
