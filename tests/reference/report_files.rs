//! Lesson files made from a seed for reports: many samples of one k, mixed k, and refusals behind many samples.

use crate::draw::Dice;
use crate::files::{self, Kind, Maker};
use crate::lesson::MOST_BYTES;
use crate::report::{differences, MOST_BITS};
use crate::samples::{good, masked, Sample};

/// k bits, so many of them ones.
fn string_of_weight(dice: &mut Dice, k: u64, weight: u64) -> u64 {
    let mut places: Vec<u64> = (0..k).collect();
    (0..weight).map(|_| 1u64 << places.remove(dice.below(places.len() as u64) as usize)).sum()
}

/// A good sample whose centred value is d.
fn of_difference(dice: &mut Dice, n: u64, k: u64, d: i64) -> Sample {
    let (lowest, highest) = (d.max(0), k as i64 + d.min(0));
    let x_weight = dice.between(lowest as u64, highest as u64);
    let y_weight = (x_weight as i64 - d) as u64;
    let (x, y) = (string_of_weight(dice, k, x_weight), string_of_weight(dice, k, y_weight));
    Sample { x: masked(dice, n, k, x), y: masked(dice, n, k, y), ..good(dice, n, k) }
}

/// Every difference is as likely as another.
fn any_difference(dice: &mut Dice, k: u64) -> i64 {
    dice.below(2 * k + 1) as i64 - k as i64
}

/// A sample of two shares with any difference.
fn short(dice: &mut Dice, k: u64) -> Vec<u8> {
    let d = any_difference(dice, k);
    of_difference(dice, 2, k, d).bytes()
}

fn shorts(dice: &mut Dice, k: u64, count: u64) -> Vec<u8> {
    (0..count).flat_map(|_| short(dice, k)).collect()
}

/// One k after the other.
fn k_of(turn: usize) -> u64 {
    1 + turn as u64 % MOST_BITS
}

/// Another k, often a neighbour.
fn other_k(dice: &mut Dice, k: u64) -> u64 {
    let any = 1 + (k + dice.below(MOST_BITS - 1)) % MOST_BITS;
    dice.pick(&[any, any, if k < MOST_BITS { k + 1 } else { 1 }, if k > 1 { k - 1 } else { MOST_BITS }])
}

// Files of one k.

fn many_of_one_k(dice: &mut Dice, turn: usize) -> Vec<u8> {
    let count = dice.between(2, 200);
    shorts(dice, k_of(turn), count)
}

/// Every difference in any order, some of them more than once. Every third file has k 16.
fn every_difference(dice: &mut Dice, turn: usize) -> Vec<u8> {
    let k = if turn % 3 == 0 { MOST_BITS } else { 1 + (turn - turn / 3 - 1) as u64 % (MOST_BITS - 1) };
    let mut rest: Vec<i64> = differences(k).collect();
    rest.extend((0..dice.below(30)).map(|_| any_difference(dice, k)));
    let mut file = Vec::new();
    while !rest.is_empty() {
        let d = rest.remove(dice.below(rest.len() as u64) as usize);
        file.extend(of_difference(dice, 2, k, d).bytes());
    }
    file
}

/// Every n with every k.
fn one_sample(dice: &mut Dice, turn: usize) -> Vec<u8> {
    let (n, k) = (2 + turn as u64 % 7, k_of(turn / 7));
    let d = any_difference(dice, k);
    of_difference(dice, n, k, d).bytes()
}

/// Samples of several n, and mostly of several q.
fn other_n_and_q(dice: &mut Dice, turn: usize) -> Vec<u8> {
    let (k, fewest) = (k_of(turn), dice.between(2, 7));
    let sample = |n: u64| {
        let d = any_difference(dice, k);
        of_difference(dice, n, k, d).bytes()
    };
    (fewest..=8).chain(2..=fewest).flat_map(sample).collect()
}

/// One difference many times, or it and its opposite in turn.
fn one_difference(dice: &mut Dice, turn: usize) -> Vec<u8> {
    let (k, count) = (dice.between(1, MOST_BITS), dice.between(2, 200));
    let d = any_difference(dice, k);
    let opposite = if turn % 2 == 0 { d } else { -d };
    (0..count).flat_map(|i| of_difference(dice, 2, k, if i % 2 == 0 { d } else { opposite }).bytes()).collect()
}

/// With k 1 they are 2,000. The sums are any, or the highest or the lowest.
fn as_many_as_fit(dice: &mut Dice, turn: usize) -> Vec<u8> {
    let k = if turn % 2 == 0 { 1 } else { k_of(turn / 2) };
    let end = k as i64;
    let ends = dice.pick(&[None, Some(end), Some(-end)]);
    let mut file = Vec::new();
    loop {
        let d = ends.unwrap_or_else(|| any_difference(dice, k));
        let sample = of_difference(dice, 2, k, d).bytes();
        if file.len() + sample.len() > MOST_BYTES {
            return file;
        }
        file.extend(sample);
    }
}

// Files of mixed k.

fn mixed(dice: &mut Dice, turn: usize) -> Vec<u8> {
    let k = k_of(turn);
    let other = other_k(dice, k);
    let count = dice.below(40);
    let mut samples = vec![short(dice, k), short(dice, other)];
    for _ in 0..count {
        let any = dice.between(1, MOST_BITS);
        let k = dice.pick(&[k, other, any]);
        samples.push(short(dice, k));
    }
    samples.concat()
}

/// One sample of another k before or behind samples of one k.
fn one_of_another_k(dice: &mut Dice, turn: usize) -> Vec<u8> {
    let (k, count) = (k_of(turn / 2), dice.between(2, 60));
    let other = other_k(dice, k);
    let (one, many) = (short(dice, other), shorts(dice, k, count));
    if turn % 2 == 0 {
        [one, many].concat()
    } else {
        [many, one].concat()
    }
}

// Refused files.

/// Damaged files, some with samples of any k before the damage.
const DAMAGES: [Maker; 8] = [
    files::unfit_parameters,
    files::wide_shares,
    files::few_words,
    files::high_words,
    files::wrong_marks,
    files::cut_after_every_byte,
    files::high_counts,
    files::bytes_behind,
];

/// A refusal behind every difference, behind many samples of one k or behind mixed k.
fn refused_behind_many(dice: &mut Dice, turn: usize) -> Vec<u8> {
    let good: [Maker; 3] = [every_difference, many_of_one_k, mixed];
    let before = good[turn % 3](dice, turn / 3);
    let damaged = DAMAGES[turn / 3 % 8](dice, turn / 24);
    [before, damaged].concat()
}

/// A round of these and of all lesson files has 164, which 5 does not divide: where the faults of calls go round by 5, every kind meets each fault.
pub const KINDS: [Kind; 9] = [
    ("many samples of one k", 8, many_of_one_k),
    ("every difference", 8, every_difference),
    ("one sample", 4, one_sample),
    ("one k, other n and q", 6, other_n_and_q),
    ("one difference", 2, one_difference),
    ("as many samples as fit", 3, as_many_as_fit),
    ("mixed k", 5, mixed),
    ("one sample of another k", 8, one_of_another_k),
    ("refused behind many samples", 6, refused_behind_many),
];
