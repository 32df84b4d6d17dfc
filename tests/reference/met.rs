//! What the compared calls met: which function accepted or refused, why and at which places.

use crate::call::{Answer, Call, Form, Function, FUNCTIONS};
use crate::kinds::{print_gaps, Kinds};
use crate::{centred, polynomial, splits, start, steps_met, value_met, work};
use std::collections::{BTreeMap, BTreeSet};

/// A kind of call that is met less often says too little.
const FEWEST_OF_A_KIND: usize = 10;

/// Counts over the calls of one function.
struct Counts {
    by_code: BTreeMap<u64, usize>,
    /// The places of each refusal, for 9 counted from the start.
    places: BTreeMap<u64, BTreeSet<u64>>,
    /// The n and k of the accepted calls, of those with a work area only where it has n places.
    pairs: BTreeSet<(u64, u64)>,
    /// What else the calls met, and how often.
    kinds: Kinds,
}

/// What else the calls of a function are to meet.
fn kinds_to_meet(function: Function) -> Vec<String> {
    match function {
        Function::Centred => centred::to_meet(),
        Function::ConvertBit => start::to_meet(function),
        Function::ConvertValue => value_met::to_meet(),
        Function::Sample => [start::to_meet(function), work::to_meet(function)].concat(),
        Function::SampleSteps => [steps_met::to_meet(), work::to_meet(function)].concat(),
        Function::SamplePolynomial => [polynomial::to_meet(), work::to_meet(function)].concat(),
        Function::SplitNoise => splits::to_meet(),
        _ => vec![],
    }
}

/// What one call meets of that.
fn kinds_met(call: &Call, answer: Answer) -> Vec<String> {
    match call.function {
        Function::Centred => centred::met(call, answer),
        Function::ConvertBit => start::met(call, answer),
        Function::ConvertValue => value_met::met(call, answer),
        Function::Sample => [start::met(call, answer), work::met(call, answer)].concat(),
        Function::SampleSteps => [steps_met::met(call, answer), work::met(call, answer)].concat(),
        Function::SamplePolynomial => [polynomial::met(call, answer), work::met(call, answer)].concat(),
        Function::SplitNoise => splits::met(call, answer),
        _ => vec![],
    }
}

/// Whether every n and k are to be accepted.
fn has_pairs(form: &Form) -> bool {
    form.numbers.starts_with(&["n", "k"])
}

/// Counts over all calls of a layer.
#[derive(Default)]
pub struct Met {
    functions: BTreeMap<Function, Counts>,
}

impl Met {
    /// One call more.
    pub fn count(&mut self, call: &Call, answer: Answer) {
        let counts = self.functions.entry(call.function).or_insert_with(|| Counts::new(call.function));
        *counts.by_code.entry(answer.code).or_default() += 1;
        counts.kinds.count(&kinds_met(call, answer));
        if answer.code != 0 {
            let from = if answer.code == 9 { call.number("start").unwrap_or(0) } else { 0 };
            counts.places.entry(answer.code).or_default().insert(answer.place - from);
        } else if let (Some(n), Some(k), true) = (call.number("n"), call.number("k"), work::is_least(call)) {
            counts.pairs.insert((n, k));
        }
    }

    /// Prints what the calls went through and a line for each function, and what is missing. Answers how much that is.
    pub fn print(&self, layer: &str) -> usize {
        println!("  {} calls through {layer}:", self.functions.values().map(Counts::all).sum::<usize>());
        let mut gaps = Vec::new();
        for function in FUNCTIONS {
            let none = Counts::new(function);
            let counts = self.functions.get(&function).unwrap_or(&none);
            println!("  {}", counts.line(function));
            gaps.extend(counts.gaps(function).into_iter().map(|gap| format!("{layer}: {gap}")));
        }
        print_gaps(&gaps)
    }
}

impl Counts {
    fn new(function: Function) -> Counts {
        Counts { by_code: BTreeMap::new(), places: BTreeMap::new(), pairs: BTreeSet::new(), kinds: Kinds::new(kinds_to_meet(function)) }
    }

    fn all(&self) -> usize {
        self.by_code.values().sum()
    }

    fn times(&self, code: u64) -> usize {
        self.by_code.get(&code).copied().unwrap_or(0)
    }

    fn places(&self, number: u64) -> BTreeSet<u64> {
        self.places.get(&number).cloned().unwrap_or_default()
    }

    fn line(&self, function: Function) -> String {
        let form = function.form();
        let refusal = |(number, last): &(u64, u64)| {
            let places = if *last == 0 { String::new() } else { format!(" at {} places", self.places(*number).len()) };
            format!("{number}: {}{places}", self.times(*number))
        };
        let refusals: Vec<String> = form.refusals.iter().map(refusal).collect();
        let kinds: String = self.kinds.lines().map(|line| format!("; {line}")).collect();
        let pairs = if has_pairs(&form) { format!(" with {} pairs of n and k", self.pairs.len()) } else { String::new() };
        format!("{} {}, accepted {}{pairs}, refused {}{kinds}", form.name, self.all(), self.times(0), refusals.join(", "))
    }

    /// What the calls should have met and did not: each refusal, at the first and the last place, acceptance with every n and k, with n places
    /// of work area where there is one, and often enough each kind that the function has besides.
    fn gaps(&self, function: Function) -> Vec<String> {
        let form = function.form();
        let mut gaps = Vec::new();
        if self.times(0) == 0 {
            gaps.push(format!("{} accepts nothing", form.name));
        }
        for (number, last) in form.refusals {
            for place in BTreeSet::from([0, *last]) {
                if !self.places(*number).contains(&place) {
                    gaps.push(format!("{} is never refused with {number} {place}", form.name));
                }
            }
        }
        if has_pairs(&form) && self.pairs.len() != 7 * 16 {
            gaps.push(format!("{} accepts only {} pairs of n and k", form.name, self.pairs.len()));
        }
        gaps.extend(self.kinds.gaps(form.name, FEWEST_OF_A_KIND));
        gaps
    }
}
