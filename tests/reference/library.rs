//! The library, called through its C interface and through the Rust bindings, compared with the second reading of the documents that this
//! folder holds.
//!
//! `library SEED COUNT` compares so many calls made from the seed, step records worked out by hand, and residues as FIPS 204 shows them, makes the
//! noise of ML-KEM keys, and counts the secrecy rule through the library.

mod call;
mod calls;
mod centred;
mod centred_held;
mod draft;
mod draw;
mod files;
mod found;
mod inputs;
mod keccak;
mod key;
mod kinds;
mod lent;
mod lesson;
mod met;
mod noise;
mod polynomial;
mod report;
mod report_files;
mod report_met;
mod samples;
mod secrecy;
mod show;
mod splits;
mod start;
mod steps;
mod steps_drawn;
mod steps_held;
mod steps_met;
mod tally;
mod text;
mod value;
mod value_met;
mod values;
mod walk;
mod way;
mod work;

use call::{bytes, Call, Function, Outcome};
use centred_held::Shown;
use draw::Dice;
use found::Layer;
use key::Keys;
use lesson::{lesson, MOST_WORDS};
use met::Met;
use noise::Coefficient;
use std::process::exit;
use steps_held::Held;
use tally::Tally;
use text::Text;
use value::Relations;
use walk::Walk;
use way::Ways;

/// Fewer made calls than this say too little.
const FEWEST_CALLS: usize = 100_000;

/// After so many made calls there is a walk.
const CALLS_TO_A_WALK: usize = 150;

/// After so many differences the rest is not tried.
const MOST_DIFFERENCES: usize = 5;

struct Comparison {
    seed: u64,
    compared: usize,
    differences: usize,
    through_c: Met,
    through_slices: Met,
    lessons: Tally,
    reports: Tally,
    walks: usize,
    ways: Ways,
    keys: Keys,
    values: Relations,
    steps: Held,
    shown: Shown,
}

impl Comparison {
    fn new(seed: u64) -> Comparison {
        let (through_c, through_slices) = (Met::default(), Met::default());
        let (lessons, reports, ways, keys) = (Tally::new(Text::Lesson), Tally::new(Text::Report), Ways::default(), Keys::default());
        let (values, steps, shown) = (Relations::new(), Held::new(), Shown::new());
        Comparison { seed, compared: 0, differences: 0, through_c, through_slices, lessons, reports, walks: 0, ways, keys, values, steps, shown }
    }

    fn differs(&mut self, call: &Call, text: &str) {
        self.differences += 1;
        eprintln!("{}\n{text}", call.show());
    }

    /// What the next call goes through: each layer for one half, drawn from the seed.
    fn layer(&self) -> Layer {
        let mut dice = Dice::new(!self.seed, self.compared as u64);
        dice.pick(&[Layer::C { null: false }, Layer::C { null: true }, Layer::Slices, Layer::Slices])
    }

    /// What the library makes of the call, which is what it should.
    fn compare(&mut self, call: &Call) -> Outcome {
        let layer = self.layer();
        let (found, want) = (call.found(layer), call.expected());
        self.compared += 1;
        let met = if layer == Layer::Slices { &mut self.through_slices } else { &mut self.through_c };
        met.count(call, want.answer);
        if found != want {
            self.differs(call, &format!("  through {layer:?}\n{}", call.show_difference(&found, &want)));
        }
        found
    }

    /// The value that a call without buffers to write answers.
    fn value(&mut self, function: Function, numbers: &[u64], lists: &[&[u64]]) -> i64 {
        let call = Call { function, numbers: numbers.to_vec(), lists: lists.iter().map(|list| list.to_vec()).collect() };
        self.compare(&call).answer.value
    }

    /// The shares of each accepted coefficient open to the weight difference of its opened strings. A sample has one. Answers what was opened.
    fn open_coefficients(&mut self, call: &Call, outcome: &Outcome) -> Vec<Coefficient> {
        let [n, k, q] = <[u64; 3]>::try_from(&call.numbers[..3]).expect("n, k and q");
        let [x, y, shares] = [&call.lists[0], &call.lists[1], outcome.list(3)].map(|list| list.chunks_exact(n as usize));
        x.zip(y).zip(shares).map(|((x, y), shares)| self.open_sample(call, [n, k, q], [x, y], shares)).collect()
    }

    fn open_sample(&mut self, call: &Call, [n, k, q]: [u64; 3], [x, y]: [&[u64]; 2], shares: &[u64]) -> Coefficient {
        let strings = [x, y].map(|list| self.value(Function::OpenString, &[n, k], &[list]) as u64);
        let difference = self.value(Function::WeightDifference, &[k, strings[0], strings[1]], &[]);
        let residue = self.value(Function::OpenResidue, &[n, q], &[shares]) as u64;
        let centred = self.value(Function::Centred, &[q, residue], &[]);
        self.keep_off_half(call, q, residue);
        if !calls::adds_up(q, [x, y], shares) || centred != difference {
            self.differs(call, &format!("  the shares {shares:?} open to {centred}, not to {difference}"));
        }
        [strings[0], strings[1], residue]
    }

    /// The shares of an accepted masking call open to the value.
    fn open_mask(&mut self, call: &Call, outcome: &Outcome) {
        let [n, k, value] = <[u64; 3]>::try_from(&call.numbers[..]).expect("n, k and the value");
        let shares = &outcome.list(1)[..n as usize];
        if self.value(Function::OpenString, &[n, k], &[shares]) != value as i64 {
            self.differs(call, &format!("  the shares {shares:?} do not open to {value}"));
        }
    }

    /// What an accepted split wrote, sampled as a polynomial and opened, is what FIPS 203 has for the opened bytes. Answers it.
    fn go_all_the_way(&mut self, split: &Call, outcome: &Outcome) -> Vec<Coefficient> {
        let mut dice = Dice::new(self.seed.wrapping_add(2), self.compared as u64);
        let polynomial = way::polynomial(&mut dice, split, outcome);
        let sampled = self.compare(&polynomial);
        let opened = if sampled.answer.code == 0 { self.open_coefficients(&polynomial, &sampled) } else { vec![] };
        if let Some(text) = way::difference(split, &opened) {
            self.differs(split, &text);
        }
        opened
    }

    /// One made call more, and what must hold of an accepted one.
    fn take(&mut self, call: &Call) {
        let (before, outcome) = (self.differences, self.compare(call));
        if self.differences == before {
            self.convert_as_bit(call, &outcome);
            self.sample_as_steps(call, &outcome);
        }
        match call.function {
            _ if outcome.answer.code != 0 || self.differences > before => (),
            Function::Sample | Function::SampleSteps | Function::SamplePolynomial => drop(self.open_coefficients(call, &outcome)),
            Function::SplitNoise if self.ways.is_due(call) => drop(self.go_all_the_way(call, &outcome)),
            Function::ConvertValue => self.open_value(call, &outcome),
            Function::Mask => self.open_mask(call, &outcome),
            Function::LessonText => count_file(&mut self.lessons, call),
            Function::ReportText => count_file(&mut self.reports, call),
            _ => (),
        }
    }

    /// Each call starts where the one before answers that it ends, and does what it does with its own words alone.
    fn walk(&mut self, walk: &Walk) {
        let (mut start, mut end) = (walk.first, walk.first);
        for alone in &walk.calls {
            let within = walk.within(alone, start);
            let (mut by_itself, mut on_the_way) = (self.compare(alone), self.compare(&within));
            end += alone.list("words").len() as u64;
            start = on_the_way.answer.place;
            for outcome in [&mut by_itself, &mut on_the_way] {
                outcome.guarded.remove(alone.list_place("words"));
            }
            if start != end || by_itself.guarded != on_the_way.guarded {
                self.differs(&within, &format!("  ends at {start}, not at {end}, or differs from the call with its own words alone"));
            }
        }
        self.walks += 1;
    }

    /// Prints what the calls met. Answers how much they should have met and did not.
    fn print(&self, made: usize) -> usize {
        println!("library: {made} calls made, {} compared with those that follow from them", self.compared);
        println!("  {} walks through one list of words, by calls that hand the position on", self.walks);
        let relations = self.ways.print() + self.values.print() + self.steps.print() + self.shown.print();
        let calls = self.through_c.print("the C functions") + self.through_slices.print("the Rust bindings");
        let gaps = relations + calls + self.lessons.print() + self.reports.print();
        self.keys.print();
        gaps
    }
}

/// The file of an accepted call.
fn count_file(tally: &mut Tally, call: &Call) {
    let file = bytes(call.list("file"));
    tally.count(&lesson(&file, &mut [0; MOST_WORDS as usize]), file.len());
}

/// Whether the library agrees on every call made from the seed.
fn agrees(seed: u64, count: usize) -> bool {
    if count < FEWEST_CALLS {
        eprintln!("{count} calls are too few, at least {FEWEST_CALLS} are made");
        return false;
    }
    report::check_pairs();
    keccak::check();
    let mut comparison = Comparison::new(seed);
    comparison.compare_by_hand();
    comparison.compare_largest();
    comparison.compare_residues();
    comparison.compare_halves();
    for number in 0..count {
        comparison.take(&inputs::made(seed, number));
        if number % CALLS_TO_A_WALK == 0 {
            comparison.walk(&walk::made(seed, number));
        }
        if comparison.differences >= MOST_DIFFERENCES {
            eprintln!("{MOST_DIFFERENCES} differences, the last at call {number} of seed {seed}; the rest is not tried");
            return false;
        }
    }
    key::generations().iter().for_each(|generation| comparison.make_keys(generation));
    let gaps = comparison.print(count);
    println!("library: {} differences, {gaps} gaps", comparison.differences);
    comparison.differences + gaps == 0
}

fn main() {
    let arguments: Vec<String> = std::env::args().skip(1).collect();
    let numbers: Vec<u64> = arguments.iter().map(|text| text.parse().unwrap_or_else(|_| panic!("{text:?} is no number"))).collect();
    let [seed, count] = <[u64; 2]>::try_from(numbers).expect("SEED COUNT");
    if !(agrees(seed, count as usize) && secrecy::holds()) {
        exit(1);
    }
}
