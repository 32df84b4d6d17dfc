//! A good call, made from a seed, and what can be made wrong with it.

use crate::call::{text_room, Call, Function};
use crate::calls::{bit_words, parameter_set, words_needed};
use crate::centred;
use crate::draw::{modulus, random_words, shares, too_high, too_wide, unjudged_word, Dice};
use crate::lesson::MOST_WORDS;
use crate::noise;
use crate::splits;
use crate::start;
use crate::steps_drawn;
use crate::text::Text;
use crate::values;
use crate::work;
use std::ops::Range;
use Fault::*;

/// What can be wrong with a call, by the name of the number or list concerned.
#[derive(Clone, Copy, PartialEq)]
pub enum Fault {
    N,
    K,
    Q,
    M,
    Set,
    /// A set that is not for noise.
    OtherSet,
    /// A list that must have an exact length has another.
    Length(&'static str),
    /// A list has fewer elements than the call needs.
    Short(&'static str),
    /// The start is too far on in the word list.
    Start,
    /// A share of a list, or a number, has more than k bits.
    Wide(&'static str),
    /// A word of those that the call needs, or a number, is not below q.
    High(&'static str),
}

/// Whether q is asked to be above 2k.
fn samples(function: Function) -> bool {
    matches!(function, Function::Sample | Function::SampleSteps | Function::SamplePolynomial)
}

/// A call, n, k, q, m and start as it was made with them, and how many elements of each list it needs, of the words from the start on.
pub struct Draft {
    pub call: Call,
    n: u64,
    k: u64,
    q: u64,
    m: u64,
    start: u64,
    needed: Vec<usize>,
}

/// A list at least as long as needed, with any content.
fn room(dice: &mut Dice, needed: u64, most_more: u64, bound: u64) -> Vec<u64> {
    let more = if dice.one_in(2) { 0 } else { dice.between(1, most_more) };
    (0..needed + more).map(|_| dice.below(bound)).collect()
}

fn words_room(dice: &mut Dice, needed: u64) -> Vec<u64> {
    room(dice, needed, 40, 65_536)
}

/// Words below q from the start on. Those before it, and at times more behind them, are not judged.
fn words_lent(dice: &mut Dice, q: u64, start: u64, needed: u64) -> Vec<u64> {
    let mut words: Vec<u64> = (0..start).map(|_| unjudged_word(dice, q)).collect();
    words.extend(random_words(dice, q, needed));
    let more = if dice.one_in(2) { 0 } else { dice.between(1, 20) };
    words.extend((0..more).map(|_| unjudged_word(dice, q)));
    words
}

/// A string of k bits, often at an end.
fn string(dice: &mut Dice, k: u64) -> u64 {
    shares(dice, 1, k)[0]
}

/// The file of a number, and buffers for its words and its text; and how many elements of each are needed.
fn lesson_lists(dice: &mut Dice, seed: u64, turn: usize, text: Text) -> (Vec<Vec<u64>>, Vec<u64>) {
    let file = text.made_file(seed, turn).1;
    let needed = vec![file.len() as u64, MOST_WORDS, text_room(text, file.len()) as u64];
    (vec![file.into_iter().map(u64::from).collect(), words_room(dice, MOST_WORDS), room(dice, needed[2], 40, 256)], needed)
}

/// The numbers and lists of a call, and how many elements of each list are needed.
pub type Drawn = (Vec<u64>, Vec<Vec<u64>>, Vec<u64>);

/// A sample, or a polynomial of m coefficients.
fn coefficients(dice: &mut Dice, function: Function, [n, k, q, m]: [u64; 4]) -> Drawn {
    let needed = vec![m * n, m * n, m * words_needed(n, k), m * n, n];
    let [x, y] = [(); 2].map(|()| (0..m).flat_map(|_| shares(dice, n, k)).collect());
    let start = if function == Function::Sample { start::fitting(dice, needed[2]) } else { 0 };
    let lists = vec![x, y, words_lent(dice, q, start, needed[2]), words_room(dice, needed[3]), work::fitting(dice, n, k)];
    (vec![n, k, q, if function == Function::Sample { start } else { m }], lists, needed)
}

/// A good call. If n and k are unfit, nothing else is.
pub fn good(dice: &mut Dice, seed: u64, turn: usize, function: Function, [n, k, m]: [u64; 3]) -> Draft {
    let q = modulus(dice, if samples(function) { k } else { 1 });
    let (numbers, lists, needed) = match function {
        Function::Mask => {
            let lists = vec![shares(dice, n - 1, k), words_room(dice, n)];
            (vec![n, k, string(dice, k)], lists, vec![n - 1, n])
        }
        Function::OpenString => (vec![n, k], vec![shares(dice, n, k)], vec![n]),
        Function::OpenResidue => (vec![n, q], vec![random_words(dice, q, n)], vec![n]),
        Function::Centred => centred::drawn(dice, q),
        Function::WeightDifference => (vec![k, string(dice, k), string(dice, k)], vec![], vec![]),
        Function::ParameterSet => (vec![dice.between(1, 7)], vec![], vec![]),
        Function::ConvertBit => {
            let (needed, start) = (bit_words(n), start::fitting(dice, bit_words(n)));
            let lists = vec![shares(dice, n, 1), words_lent(dice, q, start, needed), words_room(dice, n)];
            (vec![n, q, start], lists, vec![n, needed, n])
        }
        Function::ConvertValue => values::drawn(dice, n, k),
        Function::SampleSteps => steps_drawn::drawn(dice, n, k),
        Function::Sample | Function::SamplePolynomial => coefficients(dice, function, [n, k, q, m]),
        // Set 1 has k 2, set 2 has k 3.
        Function::SplitNoise => {
            let needed = vec![splits::fitting_length(n, k), m * n, m * n];
            let lists = vec![noise::drawn(dice, needed[0]), words_room(dice, needed[1]), words_room(dice, needed[2])];
            (vec![n, k - 1], lists, needed)
        }
        Function::LessonText | Function::ReportText => {
            let (lists, needed) = lesson_lists(dice, seed, turn, function.text().expect("one of two texts"));
            (vec![], lists, needed)
        }
    };
    let k = if function == Function::ConvertBit { 1 } else { k };
    let call = Call { function, numbers, lists };
    let (q, start) = (call.number("q").unwrap_or(q), call.number("start").unwrap_or(0));
    Draft { call, n, k, q, m, start, needed: needed.into_iter().map(|count| count as usize).collect() }
}

/// The first, the last or any of so many places.
fn place(dice: &mut Dice, count: usize) -> usize {
    let any = dice.below(count as u64) as usize;
    dice.pick(&[0, count - 1, any, any])
}

impl Draft {
    /// The call with the words that it takes and no others.
    pub fn alone(mut self) -> Call {
        let (words, needed) = self.list("words");
        *words = words[needed].to_vec();
        self.set("start", 0);
        self.call
    }

    fn set(&mut self, name: &str, number: u64) {
        self.call.set_number(name, number);
    }

    /// The list of a name, and the places in it that the call needs.
    fn list(&mut self, name: &str) -> (&mut Vec<u64>, Range<usize>) {
        let place = self.call.list_place(name);
        let from = if name == "words" { self.start as usize } else { 0 };
        (&mut self.call.lists[place], from..from + self.needed[place])
    }

    /// Changes the number of the name, or one or two needed elements of the list of the name, where it has any.
    fn change(&mut self, dice: &mut Dice, name: &str, change: impl Fn(&mut Dice, u64) -> u64) {
        if let Some(number) = self.call.number(name) {
            self.set(name, change(dice, number));
            return;
        }
        let by_bits = matches!(self.call.function, Function::ConvertValue | Function::SampleSteps) && name == "words";
        let (n, (list, needed)) = (self.n, self.list(name));
        let judged = needed.start..list.len().min(needed.end);
        let places = if judged.is_empty() { 0 } else { dice.between(1, 2) };
        for _ in 0..places {
            let place = judged.start + if by_bits { values::word_place(dice, n, judged.len()) } else { place(dice, judged.len()) };
            list[place] = change(dice, list[place]);
        }
    }

    fn start_too_far(&mut self, dice: &mut Dice) {
        let (fitting, (list, needed)) = (self.start, self.list("words"));
        let start = start::too_far(dice, list.len() as u64, needed.len() as u64, fitting);
        self.set("start", start);
    }

    /// A list that must have an exact length gets another.
    fn change_length(&mut self, dice: &mut Dice, name: &str) {
        let (function, n, k, (list, Range { end, .. })) = (self.call.function, self.n, self.k, self.list(name));
        let (any, element) = (dice.between(end as u64 + 1, end as u64 + 20) as usize, list.first().copied().unwrap_or(0));
        let len = match function {
            Function::SplitNoise => splits::unfit_length(dice, n, k) as usize,
            Function::ConvertValue | Function::SampleSteps => values::unfit_length(dice, n) as usize,
            _ => dice.pick(&[end.saturating_sub(1), end + 1, 0, any]),
        };
        list.resize(len, element);
    }

    /// A list gets fewer elements than the call needs.
    fn shorten(&mut self, dice: &mut Dice, name: &str) {
        let (list, Range { start, end }) = self.list(name);
        let any = dice.below(end.max(1) as u64) as usize;
        let most = end.saturating_sub(1);
        list.truncate(dice.pick(&[most, most, start, 0, any, any]));
    }

    /// An unfit n. Where all sizes of noise are 0 or wrap to it, mostly with empty lists.
    fn spoil_shares(&mut self, dice: &mut Dice) {
        let (function, n) = (self.call.function, self.n);
        let n = match function {
            Function::SplitNoise => splits::unfit_shares(dice, n),
            Function::ConvertValue => values::unfit_shares(dice, n),
            Function::SampleSteps => steps_drawn::unfit_shares(dice, n),
            _ => dice.pick(&[0, 1, 9, 10, 255, 258, 65_538, 1 << 32 | 2, 1 << 63 | 2, u64::MAX - 1, u64::MAX]),
        };
        self.set("n", n);
        if function == Function::SplitNoise && n % (1 << 58) == 0 && !dice.one_in(3) {
            self.empty_lists();
        }
        self.empty_for_largest(dice, n);
    }

    fn empty_lists(&mut self) {
        self.call.lists.iter_mut().for_each(Vec::clear);
    }

    /// With step records and the largest n or k the lists are at times empty.
    fn empty_for_largest(&mut self, dice: &mut Dice, number: u64) {
        if self.call.function == Function::SampleSteps && number == u64::MAX && dice.one_in(2) {
            self.empty_lists();
        }
    }

    fn spoil_bits(&mut self, dice: &mut Dice) {
        let k = match self.call.function {
            Function::ConvertValue => values::unfit_bits(dice, self.k),
            Function::SampleSteps => steps_drawn::unfit_bits(dice, self.k),
            _ => dice.pick(&[0, 17, 18, 32, 64, 65, 257, 65_537, 1 << 32 | 1, 1 << 63 | 1, u64::MAX - 1, u64::MAX]),
        };
        self.set("k", k);
        self.empty_for_largest(dice, k);
    }

    /// A set that is not for noise, at times with as many bytes as its k asks for.
    fn choose_other_set(&mut self, dice: &mut Dice) {
        let set = dice.between(3, 7);
        self.set("set", set);
        if dice.one_in(2) {
            let (k, _) = parameter_set(set).expect("a set of the table");
            let len = splits::fitting_length(self.n, k) as usize;
            self.list("bytes").0.resize(len, 0);
        }
    }

    pub fn spoil(&mut self, dice: &mut Dice, fault: Fault) {
        let (k, q, m) = (self.k, self.q, self.m);
        let noise = self.call.function == Function::SplitNoise;
        match fault {
            N if (2..=8).contains(&self.n) => self.spoil_shares(dice),
            K if (1..=16).contains(&k) => self.spoil_bits(dice),
            // The call was made with an unfit n or k.
            N | K => (),
            Q => {
                let least = if samples(self.call.function) { 2 * k + 1 } else { 3 };
                let any = dice.below(least);
                self.set("q", dice.pick(&[0, 1, 2.min(least - 1), least - 1, least - 1, any]))
            }
            // The lists fit those that wrap around or lose high bits.
            M => {
                let any = dice.between(257, 1_000);
                self.set("m", dice.pick(&[0, 257, any, 1 << 16 | m, 1 << 32 | m, 1 << 62 | m, 1 << 63 | m, u64::MAX - 1, u64::MAX]))
            }
            Set if noise => self.set("set", splits::unfit_set(dice, k - 1)),
            OtherSet => self.choose_other_set(dice),
            Set => self.set("number", dice.pick(&[0, 8, 9, 255, 257, 65_537, 1 << 32 | 1, 1 << 63 | 1, u64::MAX])),
            Length(name) => self.change_length(dice, name),
            Short("records") => {
                let len = steps_drawn::too_few(dice, self.n, k) as usize;
                self.list("records").0.truncate(len);
            }
            Short(name) => self.shorten(dice, name),
            Start => self.start_too_far(dice),
            Wide(name) if k < 16 => self.change(dice, name, |dice, share| too_wide(dice, share, k)),
            // No share has more than 16 bits.
            Wide(_) => (),
            High(name) => self.change(dice, name, |dice, _| too_high(dice, q)),
        }
    }
}
