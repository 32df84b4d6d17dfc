//! The class report of document 02, A.4: what it should print for what is read of a lesson file.

use crate::calls::weight_difference;
use crate::lesson::Lesson;
use std::collections::{BTreeMap, BTreeSet};
use std::ops::RangeInclusive;

/// The greatest k.
pub const MOST_BITS: u64 = 16;

/// Up to this k the pairs of strings are also looked at one by one.
const MOST_BITS_COUNTED: u64 = 6;

/// The ways to choose so many places of all.
fn choices(all: u64, chosen: u64) -> u64 {
    (0..chosen).fold(1, |ways, i| ways * (all - i) / (i + 1))
}

/// The pairs of k-bit strings with the difference d: the ones of x and the zeros of y are k + d places of the 2k, and any k + d are.
fn pairs(k: u64, d: i64) -> u64 {
    choices(2 * k, (k as i64 + d) as u64)
}

/// 4 to the power k.
fn all_pairs(k: u64) -> u64 {
    4u64.pow(k as u32)
}

/// From the lowest to the highest that k-bit strings can have.
pub fn differences(k: u64) -> RangeInclusive<i64> {
    -(k as i64)..=k as i64
}

/// How many pairs of k-bit strings have each difference, by all pairs.
fn pairs_counted(k: u64) -> BTreeMap<i64, u64> {
    let mut counted = BTreeMap::new();
    for x in 0..1 << k {
        for y in 0..1 << k {
            *counted.entry(weight_difference(k, x, y).expect("two strings of k bits")).or_default() += 1;
        }
    }
    counted
}

/// The numbers of pairs are those that are counted, and for every k they are 4 to the power k together.
pub fn check_pairs() {
    for k in 1..=MOST_BITS {
        let numbers: BTreeMap<i64, u64> = differences(k).map(|d| (d, pairs(k, d))).collect();
        assert_eq!(numbers.values().sum::<u64>(), all_pairs(k), "the pairs of {k}-bit strings");
        if k <= MOST_BITS_COUNTED {
            assert_eq!(numbers, pairs_counted(k), "the pairs of {k}-bit strings by difference");
        }
    }
}

/// The k of all samples, where there are any and they share one.
pub fn shared_k(lesson: &Lesson) -> Option<u64> {
    let all: BTreeSet<u64> = lesson.accepted.iter().map(|sample| sample.k).collect();
    all.iter().next().copied().filter(|_| all.len() == 1)
}

/// How many times each centred sample came, from lowest to highest.
pub fn counts(lesson: &Lesson) -> BTreeMap<i64, u64> {
    let mut counts = BTreeMap::new();
    for sample in &lesson.accepted {
        *counts.entry(sample.centred).or_default() += 1;
    }
    counts
}

/// The sum of the samples and the sum of their squares.
pub fn sums(lesson: &Lesson) -> (i64, i64) {
    let samples = lesson.accepted.iter().map(|sample| sample.centred);
    (samples.clone().sum(), samples.map(|sample| sample * sample).sum())
}

/// A line for each centred sample that occurs, and a line with the sums and the total; at a refusal its line alone.
pub fn text(lesson: &Lesson) -> Vec<u8> {
    if let Some(refusal) = lesson.refusal {
        return refusal.line().into_bytes();
    }
    let k = shared_k(lesson);
    let beside = |sample| k.map_or(String::new(), |k| format!(" {} {}", pairs(k, sample), all_pairs(k)));
    let lines: String = counts(lesson).into_iter().map(|(sample, count)| format!("{sample} {count}{}\n", beside(sample))).collect();
    let (sum, squares) = sums(lesson);
    format!("{lines}{sum} {squares} {}\n", lesson.accepted.len()).into_bytes()
}
