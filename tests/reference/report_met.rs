//! What the reports of the made files are to meet.

use crate::kinds::chosen;
use crate::lesson::{Accepted, Lesson};
use crate::report::{counts, shared_k, sums, MOST_BITS};

/// Of complete files.
const COMPLETE: [&str; 19] = [
    "empty",
    "of one sample",
    "of 2,000 samples",
    "of one k and different n",
    "of one k and different q",
    "of mixed k",
    "of mixed k, of which the first sample alone has another",
    "of mixed k, of which the last sample alone has another",
    "of mixed k with a sample that two of them have",
    "of one centred sample that comes more than once",
    "of 33 different centred samples",
    "with a sample left out between two others",
    "with a sample of -16",
    "with a sample of 16",
    "with a count of 10 or more",
    "with a count of 1,000 or more",
    "with a sum below 0",
    "with a sum of 0 and other squares",
    "with a sum above 0",
];

/// Of refused files.
const REFUSED: [&str; 3] = ["behind samples of one k", "behind samples of mixed k", "behind 33 different centred samples"];

fn complete(kind: &str) -> String {
    format!("complete, {kind}")
}

fn refused(kind: &str) -> String {
    format!("refused {kind}")
}

fn of_k(k: u64) -> String {
    format!("of k {k}")
}

fn all_differences(k: u64) -> String {
    format!("with every difference of k {k}")
}

/// All of it.
pub fn to_meet() -> Vec<String> {
    let of_every_k = (1..=MOST_BITS).flat_map(|k| [complete(&of_k(k)), complete(&all_differences(k))]);
    COMPLETE.into_iter().map(complete).chain(of_every_k).chain(REFUSED.into_iter().map(refused)).collect()
}

/// Whether a number of the samples is not the same for all.
fn differ(samples: &[Accepted], number: impl Fn(&Accepted) -> u64) -> bool {
    samples.iter().any(|sample| number(sample) != number(&samples[0]))
}

/// The sample that is alone, and two or more others of one k that it does not have.
fn alone(sample: &Accepted, others: &[Accepted]) -> bool {
    others.len() > 1 && !differ(others, |other| other.k) && sample.k != others[0].k
}

/// Some centred sample comes with two different k.
fn shared(samples: &[Accepted]) -> bool {
    samples.iter().any(|a| samples.iter().any(|b| a.centred == b.centred && a.k != b.k))
}

/// Which of those of complete files it is.
fn complete_kinds(lesson: &Lesson) -> [bool; 19] {
    let samples = &lesson.accepted[..];
    let (counts, one_k, (sum, squares)) = (counts(lesson), shared_k(lesson).is_some(), sums(lesson));
    let mixed = !one_k && !samples.is_empty();
    let (lowest, highest) = (counts.keys().next().copied().unwrap_or(0), counts.keys().last().copied().unwrap_or(0));
    let most = counts.values().max().copied().unwrap_or(0);
    [
        samples.is_empty(),
        samples.len() == 1,
        samples.len() == 2_000,
        one_k && differ(samples, |sample| sample.n),
        one_k && differ(samples, |sample| sample.q),
        mixed,
        mixed && alone(&samples[0], &samples[1..]),
        mixed && alone(&samples[samples.len() - 1], &samples[..samples.len() - 1]),
        mixed && shared(samples),
        counts.len() == 1 && most > 1,
        counts.len() == 33,
        highest - lowest >= counts.len() as i64 && !samples.is_empty(),
        lowest == -16,
        highest == 16,
        most >= 10,
        most >= 1_000,
        sum < 0,
        sum == 0 && squares > 0,
        sum > 0,
    ]
}

/// What one file meets.
pub fn met(lesson: &Lesson) -> Vec<String> {
    let (k, lines) = (shared_k(lesson), counts(lesson).len());
    if lesson.refusal.is_some() {
        let mixed = k.is_none() && lines > 0;
        return chosen(&REFUSED, [k.is_some(), mixed, lines == 33]).map(refused).collect();
    }
    let of_one_k = k.into_iter().flat_map(|k| {
        let every = Some(all_differences(k)).filter(|_| lines as u64 == 2 * k + 1);
        [Some(of_k(k)), every]
    });
    chosen(&COMPLETE, complete_kinds(lesson)).map(complete).chain(of_one_k.flatten().map(|kind| complete(&kind))).collect()
}
