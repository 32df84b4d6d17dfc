//! A call of the library with its inputs, and what it should leave behind, worked out from the documents.

use crate::calls::{centre, coefficients, convert_bit, mask, open_residue, open_string, parameter_set, sample, weight_difference, Verdict};
use crate::lent::{guarded, unguarded, GUARDS};
use crate::lesson::{lesson, MOST_BYTES, MOST_WORDS};
use crate::noise::split;
use crate::show::{difference, hex};
use crate::steps::sample_steps;
use crate::text::Text;
use crate::value::convert_value;

#[derive(Clone, Copy, Debug, PartialEq, Eq, PartialOrd, Ord)]
pub enum Function {
    Mask,
    OpenString,
    OpenResidue,
    Centred,
    WeightDifference,
    ParameterSet,
    ConvertBit,
    ConvertValue,
    Sample,
    SampleSteps,
    SamplePolynomial,
    SplitNoise,
    LessonText,
    ReportText,
}

pub const FUNCTIONS: [Function; 14] = [
    Function::Mask,
    Function::OpenString,
    Function::OpenResidue,
    Function::Centred,
    Function::WeightDifference,
    Function::ParameterSet,
    Function::ConvertBit,
    Function::ConvertValue,
    Function::Sample,
    Function::SampleSteps,
    Function::SamplePolynomial,
    Function::SplitNoise,
    Function::LessonText,
    Function::ReportText,
];

/// A function's name, the names of its numbers and lists in their order, and its refusals, each with the last place that it can have, which for
/// 9 is counted from the start.
pub struct Form {
    pub name: &'static str,
    pub numbers: &'static [&'static str],
    pub lists: &'static [&'static str],
    pub refusals: &'static [(u64, u64)],
}

const fn form(name: &'static str, numbers: &'static [&'static str], lists: &'static [&'static str], refusals: &'static [(u64, u64)]) -> Form {
    Form { name, numbers, lists, refusals }
}

/// The place of a name.
fn place_of(names: &[&str], name: &str) -> Option<usize> {
    names.iter().position(|other| *other == name)
}

impl Function {
    pub const fn form(self) -> Form {
        match self {
            Function::Mask => form("tp_mask", &["n", "k", "value"], &["masks", "out"], &[(1, 0), (2, 0), (12, 0), (13, 0), (14, 6), (10, 0)]),
            Function::OpenString => form("tp_open_string", &["n", "k"], &["shares"], &[(1, 0), (2, 0), (4, 0), (6, 7)]),
            Function::OpenResidue => form("tp_open_residue", &["n", "q"], &["shares"], &[(1, 0), (3, 0), (15, 0), (16, 7)]),
            Function::Centred => form("tp_centred", &["q", "r"], &[], &[(3, 0), (17, 0)]),
            Function::WeightDifference => form("tp_weight_difference", &["k", "x", "y"], &[], &[(2, 0), (12, 1)]),
            Function::ParameterSet => form("tp_parameter_set", &["number"], &[], &[(22, 0)]),
            Function::ConvertBit => {
                let refusals = &[(1, 0), (3, 0), (4, 0), (6, 7), (8, 0), (9, 55), (10, 0)];
                form("tp_convert_bit", &["n", "q", "start"], &["bits", "words", "out"], refusals)
            }
            Function::ConvertValue => {
                let refusals = &[(1, 0), (2, 0), (3, 0), (4, 0), (6, 7), (8, 0), (9, 895), (10, 0)];
                form("tp_convert_value", &["n", "k", "q"], &["shares", "words", "out"], refusals)
            }
            Function::Sample => {
                let refusals = &[(1, 0), (2, 0), (3, 0), (4, 0), (5, 0), (6, 7), (7, 7), (8, 0), (9, 1_791), (10, 0), (11, 0)];
                form("tp_sample", &["n", "k", "q", "start"], &["x", "y", "words", "out", "work"], refusals)
            }
            Function::SampleSteps => {
                let refusals = &[(1, 0), (2, 0), (3, 0), (4, 0), (5, 0), (6, 7), (7, 7), (8, 0), (9, 1_791), (10, 0), (11, 0), (26, 0)];
                form("tp_sample_steps", &["n", "k", "q"], &["x", "y", "words", "out", "work", "records"], refusals)
            }
            Function::SamplePolynomial => {
                let refusals = &[(1, 0), (2, 0), (3, 0), (23, 0), (4, 0), (5, 0), (6, 2_047), (7, 2_047), (8, 0), (9, 458_751), (10, 0), (11, 0)];
                form("tp_sample_polynomial", &["n", "k", "q", "m"], &["x", "y", "words", "out", "work"], refusals)
            }
            Function::SplitNoise => form("tp_split_noise", &["n", "set"], &["bytes", "x", "y"], &[(1, 0), (22, 0), (24, 0), (25, 0), (10, 0)]),
            Function::LessonText => form("tp_lesson_text", &[], &["file", "words", "text"], &[(8, 0), (10, 0)]),
            Function::ReportText => form("tp_report_text", &[], &["file", "words", "text"], &[(8, 0), (10, 0)]),
        }
    }

    /// What it writes of a lesson file, where it takes one.
    pub const fn text(self) -> Option<Text> {
        match self {
            Function::LessonText => Some(Text::Lesson),
            Function::ReportText => Some(Text::Report),
            _ => None,
        }
    }
}

/// The three numbers of an answer: the code; the count, place or k; what was opened, the value or q. One that an answer lacks is 0.
#[derive(Clone, Copy, Debug, PartialEq, Eq)]
pub struct Answer {
    pub code: u64,
    pub place: u64,
    pub value: i64,
}

/// Accepted with a place and a value, or refused with a number and a place.
pub fn judged<T>(verdict: Verdict<T>, accepted: impl Fn(T) -> (u64, i64)) -> Answer {
    match verdict {
        Ok(result) => {
            let (place, value) = accepted(result);
            Answer { code: 0, place, value }
        }
        Err((number, place)) => Answer { code: number, place: place as u64, value: 0 },
    }
}

/// Accepted with a count, or with the place after the last word.
pub fn counted(verdict: Verdict<u64>) -> Answer {
    judged(verdict, |count| (count, 0))
}

/// How a call ends: its answer, and each list with its guard elements.
#[derive(PartialEq, Eq)]
pub struct Outcome {
    pub answer: Answer,
    pub guarded: Vec<Vec<u64>>,
}

impl Outcome {
    /// A list without its guard elements.
    pub fn list(&self, place: usize) -> &[u64] {
        unguarded(&self.guarded[place])
    }
}

/// A text of a lesson file in front of the text buffer, with the room for it that the header asks for.
fn write_text(text: Text, file: &[u64], words: &mut [u64], out: &mut [u64]) -> Verdict<u64> {
    if (words.len() as u64) < MOST_WORDS {
        return Err((8, 0));
    }
    if out.len() < text_room(text, file.len()) {
        return Err((10, 0));
    }
    let printed = text.of(&lesson(&bytes(file), words));
    for (place, byte) in printed.iter().enumerate() {
        out[place] = *byte as u64;
    }
    Ok(printed.len() as u64)
}

/// The bytes that a text buffer must have for a file of so many.
pub fn text_room(text: Text, file_len: usize) -> usize {
    match text {
        Text::Lesson if file_len > MOST_BYTES => 45,
        Text::Lesson => 3 * file_len + 45,
        Text::Report => 1_200,
    }
}

pub fn bytes(list: &[u64]) -> Vec<u8> {
    list.iter().map(|x| *x as u8).collect()
}

#[derive(Clone)]
pub struct Call {
    pub function: Function,
    pub numbers: Vec<u64>,
    pub lists: Vec<Vec<u64>>,
}

impl Call {
    /// The number of a name, where the function has it.
    pub fn number(&self, name: &str) -> Option<u64> {
        place_of(self.function.form().numbers, name).map(|place| self.numbers[place])
    }

    /// The place of a list that the function has.
    pub fn list_place(&self, name: &str) -> usize {
        place_of(self.function.form().lists, name).expect("a list of this name")
    }

    pub fn list(&self, name: &str) -> &[u64] {
        &self.lists[self.list_place(name)]
    }

    pub fn set_number(&mut self, name: &str, number: u64) {
        let place = place_of(self.function.form().numbers, name).expect("a number of this name");
        self.numbers[place] = number;
    }

    pub fn expected(&self) -> Outcome {
        let mut lists = self.lists.clone();
        let answer = match (self.function, &self.numbers[..], &mut lists[..]) {
            (Function::Mask, &[n, k, value], [masks, out]) => counted(mask(n, k, value, masks, out)),
            (Function::OpenString, &[n, k], [shares]) => judged(open_string(n, k, shares), |opened| (0, opened as i64)),
            (Function::OpenResidue, &[n, q], [shares]) => judged(open_residue(n, q, shares), |opened| (0, opened as i64)),
            (Function::Centred, &[q, r], []) => judged(centre(q, r), |value| (0, value)),
            (Function::WeightDifference, &[k, x, y], []) => judged(weight_difference(k, x, y), |value| (0, value)),
            (Function::ParameterSet, &[number], []) => judged(parameter_set(number), |(k, q)| (k, q as i64)),
            (Function::ConvertBit, &[n, q, start], [bits, words, out]) => counted(convert_bit(n, q, bits, words, start, out)),
            (Function::ConvertValue, &[n, k, q], [shares, words, out]) => counted(convert_value([n, k, q], shares, words, out)),
            (Function::Sample, &[n, k, q, start], [x, y, words, out, work]) => counted(sample([n, k, q], [x, y], words, start, out, work)),
            (Function::SampleSteps, &[n, k, q], [x, y, words, out, work, records]) => {
                counted(sample_steps([n, k, q], [x, y], words, out, work, records))
            }
            (Function::SamplePolynomial, &[n, k, q, m], [x, y, words, out, work]) => counted(coefficients([n, k, q, m], [x, y], words, 0, out, work)),
            (Function::SplitNoise, &[n, set], [bytes, x, y]) => counted(split(n, set, bytes, x, y)),
            (function, [], [file, words, out]) => {
                let text = function.text().expect("a function that takes a file");
                counted(write_text(text, file, words, out))
            }
            _ => panic!("the inputs of another function"),
        };
        Outcome { answer, guarded: lists.iter().map(|list| guarded(list)).collect() }
    }

    /// The inputs by name, long lists in part.
    pub fn show(&self) -> String {
        let form = self.function.form();
        let mut text = form.name.to_string();
        for (name, number) in form.numbers.iter().zip(&self.numbers) {
            text += &format!(" {name} {number}");
        }
        for (name, list) in form.lists.iter().zip(&self.lists) {
            let elements = if ["file", "bytes", "records"].contains(name) { hex(&bytes(list)) } else { some(list) };
            text += &format!("\n  {name}, {} elements:{elements}", list.len());
        }
        text
    }

    /// Where two outcomes of the call differ. Places count from the start of a list, so that guard elements before it are negative.
    pub fn show_difference(&self, found: &Outcome, want: &Outcome) -> String {
        let mut text = format!("  answered  {:?}\n  should be {:?}\n", found.answer, want.answer);
        for (place, name) in self.function.form().lists.iter().enumerate() {
            let (whole, right) = (&found.guarded[place], &want.guarded[place]);
            if let Some(first) = (0..right.len()).find(|i| whole[*i] != right[*i]) {
                let shown = first as i64 - GUARDS as i64;
                text += &format!("  {name} from {shown} on:{}\n  should be:{}\n", some(&whole[first..]), some(&right[first..]));
                if *name == "text" {
                    text += &difference(&bytes(found.list(place)), &bytes(want.list(place))).unwrap_or_default();
                }
            }
        }
        text
    }
}

/// The first elements of a list.
fn some(list: &[u64]) -> String {
    let shown: String = list.iter().take(60).map(|x| format!(" {x}")).collect();
    shown + if list.len() > 60 { " .." } else { "" }
}
