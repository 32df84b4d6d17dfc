//! Shared noise all the way: split, sampled as a polynomial and opened. What comes out is the polynomial that FIPS 203 has for the opened bytes.

use crate::call::{Call, Function, Outcome};
use crate::calls::{parameter_set, words_needed};
use crate::draw::{random_words, Dice};
use crate::kinds::print_gaps;
use crate::noise::{self, Coefficient, COEFFICIENTS};
use crate::work;
use std::collections::BTreeMap;

/// One of so many accepted splits with a set and an n goes all the way.
const SPLITS_TO_A_WAY: usize = 16;

/// Fewer ways with a set and an n say too little.
const FEWEST_WAYS: usize = 10;

/// n, and k and q of the set.
fn size(split: &Call) -> [u64; 3] {
    let [n, set] = <[u64; 2]>::try_from(&split.numbers[..]).expect("n and the set");
    let (k, q) = parameter_set(set).expect("a set of the table");
    [n, k, q]
}

/// A split of n strings with nothing past what it writes.
pub fn split(n: u64, set: u64, bytes: Vec<u64>) -> Call {
    let places = vec![0; COEFFICIENTS * n as usize];
    Call { function: Function::SplitNoise, numbers: vec![n, set], lists: vec![bytes, places.clone(), places] }
}

/// The polynomial of the shares that an accepted split wrote.
pub fn polynomial(dice: &mut Dice, split: &Call, outcome: &Outcome) -> Call {
    let [n, k, q] = size(split);
    let shares = COEFFICIENTS * n as usize;
    let [x, y] = [1, 2].map(|list| outcome.list(list)[..shares].to_vec());
    let words = random_words(dice, q, COEFFICIENTS as u64 * words_needed(n, k));
    let lists = vec![x, y, words, vec![0; shares], work::fitting(dice, n, k)];
    Call { function: Function::SamplePolynomial, numbers: vec![n, k, q, COEFFICIENTS as u64], lists }
}

/// Where the coefficients that came out differ from those of FIPS 203.
pub fn difference(split: &Call, found: &[Coefficient]) -> Option<String> {
    let [n, k, _] = size(split);
    let want = noise::polynomial(k as usize, &noise::opened(n, &split.lists[0]));
    let t = (0..COEFFICIENTS).find(|t| found.get(*t) != want.get(*t))?;
    Some(format!("  coefficient {t} opens to x, y and residue {:?}, not to {:?}", found.get(t), want[t]))
}

/// How many accepted splits there were with each set and n, and how many of them went all the way.
#[derive(Default)]
pub struct Ways {
    times: BTreeMap<(u64, u64), (usize, usize)>,
}

impl Ways {
    /// Counts an accepted split. Answers whether it is to go all the way.
    pub fn is_due(&mut self, split: &Call) -> bool {
        let (splits, ways) = self.times.entry((split.numbers[1], split.numbers[0])).or_default();
        let due = *splits % SPLITS_TO_A_WAY == 0;
        *splits += 1;
        *ways += usize::from(due);
        due
    }

    /// Prints the counts, and what is missing. Answers how much that is.
    pub fn print(&self) -> usize {
        let all: usize = self.times.values().map(|times| times.1).sum();
        let each = self.times.iter().map(|((set, n), (splits, ways))| format!("set {set} n {n}: {ways} of {splits}"));
        println!("  {all} splits of noise all the way to the polynomial of the opened bytes, {}", each.collect::<Vec<_>>().join(", "));
        let sizes = [1, 2].into_iter().flat_map(|set| (2..=8).map(move |n| (set, n)));
        let ways = |size: &(u64, u64)| self.times.get(size).map_or(0, |times| times.1);
        let few = sizes.filter(|size| ways(size) < FEWEST_WAYS);
        let gap = |size: (u64, u64)| format!("noise of set {} and n {} goes all the way only {} times", size.0, size.1, ways(&size));
        print_gaps(&few.map(gap).collect::<Vec<_>>())
    }
}
