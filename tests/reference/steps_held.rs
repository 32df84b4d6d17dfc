//! What must hold of step records besides: those worked out by hand, those of the largest samples, and a sample without records beside each call.

use crate::call::{Call, Function, Outcome};
use crate::draw::{random_words, shares, Dice};
use crate::found::Layer;
use crate::kinds::{print_gaps, Kinds};
use crate::lent::guarded;
use crate::value::ending;
use crate::Comparison;

const STORED: &str = include_str!("../steps.stored");

/// A value of document 01: its letter, n, k and q, x, y, the words, the shares, and how many records it has.
type Value = (&'static str, [u64; 3], [&'static [u64]; 2], &'static [u64], &'static [u64], usize);

const VALUES: [Value; 2] = [
    ("a", [2, 1, 17], [&[1, 0], &[1, 1]], &[5, 3, 10, 16], &[7, 11], 24),
    ("d", [3, 1, 17], [&[1, 0, 1], &[0, 0, 0]], &[1, 2, 3, 4, 5, 6, 0, 0, 0, 0, 0, 0], &[12, 4, 1], 54),
];

const LAYERS: [Layer; 3] = [Layer::C { null: false }, Layer::C { null: true }, Layer::Slices];

/// Moduli of the largest samples.
const MODULI: [u64; 6] = [33, 34, 64, 3_329, 32_768, 65_535];

/// The records of n 8 and k 16, and how many of each kind they are: 32 bits, each with 8 shares, 35 values B, as many products and C, two for each
/// of 28 pairs, and 8 output shares.
const LARGEST: usize = 5_664;
const OF_KINDS: [usize; 6] = [256, 1_120, 1_120, 1_120, 1_792, 256];

/// Fewer calls that end in one way say too little.
const FEWEST_AS_SAMPLE: usize = 20;

/// How many records worked out by hand and how many largest samples agreed, and how calls ended, each as the sample without records did.
pub struct Held {
    by_hand: usize,
    largest: usize,
    as_sample: Kinds,
}

impl Held {
    pub fn new() -> Held {
        let refused = Function::SampleSteps.form().refusals.iter().map(|refusal| refusal.0);
        Held { by_hand: 0, largest: 0, as_sample: Kinds::new([0].into_iter().chain(refused).map(ending).collect()) }
    }

    /// Prints the counts, and what is missing. Answers how much that is.
    pub fn print(&self) -> usize {
        let Held { by_hand, largest, as_sample } = self;
        println!("  {by_hand} step records as worked out by hand, {largest} samples with the most records: {LARGEST}");
        println!("  step records that leave what a sample does: {}", as_sample.lines().collect::<Vec<_>>().join(", "));
        let mut gaps: Vec<String> = as_sample.gaps("a sample with step records", FEWEST_AS_SAMPLE).collect();
        if *by_hand != LAYERS.len() * VALUES.iter().map(|value| value.5).sum::<usize>() || *largest != LAYERS.len() * MODULI.len() {
            gaps.push("step records worked out by hand or of the largest samples are not compared".to_string());
        }
        print_gaps(&gaps)
    }
}

/// The bytes of the stored records of a value.
fn stored(letter: &str) -> Vec<u64> {
    let lines = STORED.lines().filter(|line| !line.is_empty() && !line.starts_with('#'));
    let of_value = lines.skip_while(|line| *line != format!("value {letter}")).skip(1).take_while(|line| !line.starts_with("value"));
    of_value.flat_map(bytes_of_line).collect()
}

/// The record of a stored line.
fn bytes_of_line(line: &str) -> [u64; 8] {
    let numbers: Vec<u16> = line.split_whitespace().take(5).map(|text| text.parse().unwrap_or_else(|_| panic!("{line:?} is no record"))).collect();
    let [bit, round, share, kind, value] = <[u16; 5]>::try_from(numbers).expect("five numbers");
    let [low, high] = value.to_le_bytes().map(u16::from);
    [b'S'.into(), b'T'.into(), bit, round, share, kind, low, high].map(u64::from)
}

/// A call with just the lists that it needs.
fn call([n, k, q]: [u64; 3], [x, y]: [&[u64]; 2], words: &[u64], records: usize) -> Call {
    let [out, work] = [(); 2].map(|()| vec![40_000; n as usize]);
    let lists = vec![x.to_vec(), y.to_vec(), words.to_vec(), out, work, vec![170; 8 * records]];
    Call { function: Function::SampleSteps, numbers: vec![n, k, q], lists }
}

/// How many records of each kind there are among the bytes.
fn of_kinds(bytes: &[u64]) -> [usize; 6] {
    let kinds: Vec<u64> = bytes.chunks_exact(8).map(|record| record[5]).collect();
    [0, 1, 2, 3, 4, 5].map(|kind| kinds.iter().filter(|other| **other == kind).count())
}

impl Comparison {
    /// The records of values a and d are those worked out by hand: here, and in the library through each layer.
    pub fn compare_by_hand(&mut self) {
        for (letter, numbers, strings, words, shares, count) in VALUES {
            let (call, records) = (call(numbers, strings, words, count), guarded(&stored(letter)));
            let mut is_right = |text: &str, outcome: Outcome| {
                let right = outcome.answer.code == 0 && outcome.guarded[5] == records && outcome.list(3) == shares;
                if !right {
                    self.differs(&call, &format!("  {text}: other records or shares of value {letter} than those worked out by hand"));
                }
                right
            };
            if !is_right("here", call.expected()) {
                continue;
            }
            let agreed = LAYERS.into_iter().filter(|layer| is_right(&format!("through {layer:?}"), call.found(*layer))).count();
            self.steps.by_hand += agreed * count;
        }
    }

    /// The samples with the most records, through each layer.
    pub fn compare_largest(&mut self) {
        let mut dice = Dice::new(self.seed.wrapping_add(4), 0);
        for q in MODULI {
            let [x, y] = [(); 2].map(|()| shares(&mut dice, 8, 16));
            let words = random_words(&mut dice, q, 1_792);
            let call = call([8, 16, q], [&x, &y], &words, LARGEST);
            let want = call.expected();
            for layer in LAYERS {
                let found = call.found(layer);
                if found != want || of_kinds(found.list(5)) != OF_KINDS || found.answer.place != 1_792 {
                    self.differs(&call, &format!("  through {layer:?}\n{}", call.show_difference(&found, &want)));
                } else {
                    self.steps.largest += 1;
                }
            }
        }
    }

    /// A call with records answers and leaves what the sample without them does, but where only their room is short. Then the sample is accepted.
    pub fn sample_as_steps(&mut self, call: &Call, outcome: &Outcome) {
        if call.function != Function::SampleSteps {
            return;
        }
        let (numbers, lists) = ([&call.numbers[..], &[0]].concat(), call.lists[..5].to_vec());
        let sample = self.compare(&Call { function: Function::Sample, numbers, lists });
        let same = match outcome.answer.code {
            26 => sample.answer.code == 0,
            _ => sample.answer == outcome.answer && sample.guarded[..] == outcome.guarded[..5],
        };
        if !same {
            self.differs(call, "  ends in another way than the sample without records does");
        }
        self.steps.as_sample.count(&[ending(outcome.answer.code)]);
    }
}
