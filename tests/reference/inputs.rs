//! Calls made from a seed: good ones, and ones with a fault or with several, so that the order of the checks shows.

use crate::call::{Call, Function};
use crate::draft::{self, Fault, Fault::*};
use crate::draw::Dice;

const RECORDS: Fault = Short("records");

/// The functions, how many calls of each in a round, and their faults in the order of the checks.
const KINDS: [(Function, usize, &[Fault]); 14] = [
    (Function::Mask, 12, &[N, K, Wide("value"), Length("masks"), Wide("masks"), Short("out")]),
    (Function::OpenString, 8, &[N, K, Length("shares"), Wide("shares")]),
    (Function::OpenResidue, 8, &[N, Q, Length("shares"), High("shares")]),
    (Function::Centred, 5, &[Q, High("r")]),
    (Function::WeightDifference, 5, &[K, Wide("x"), Wide("y")]),
    (Function::ParameterSet, 2, &[Set]),
    (Function::ConvertBit, 15, &[N, Q, Length("bits"), Wide("bits"), Short("words"), Start, High("words"), Short("out")]),
    (Function::ConvertValue, 8, &[N, K, Q, Length("shares"), Wide("shares"), Short("words"), High("words"), Short("out")]),
    (
        Function::Sample,
        40,
        &[N, K, Q, Length("x"), Length("y"), Wide("x"), Wide("y"), Short("words"), Start, High("words"), Short("out"), Short("work")],
    ),
    (
        Function::SampleSteps,
        7,
        // The room of the records stands twice, since it is short in many ways.
        &[N, K, Q, Length("x"), Length("y"), Wide("x"), Wide("y"), Short("words"), High("words"), Short("out"), Short("work"), RECORDS, RECORDS],
    ),
    (
        Function::SamplePolynomial,
        8,
        &[N, K, Q, M, Length("x"), Length("y"), Wide("x"), Wide("y"), Short("words"), High("words"), Short("out"), Short("work")],
    ),
    (Function::SplitNoise, 6, &[N, Set, OtherSet, Length("bytes"), Short("x"), Short("y")]),
    (Function::LessonText, 5, &[Short("words"), Short("text")]),
    (Function::ReportText, 5, &[Short("words"), Short("text")]),
];

/// No fault, each alone, each two together, and any three.
fn faults(dice: &mut Dice, turn: usize, all: &[Fault]) -> Vec<Fault> {
    let (form, round) = (turn % 5, turn / 5);
    let pairs: Vec<(usize, usize)> = (0..all.len()).flat_map(|second| (0..second).map(move |first| (first, second))).collect();
    match form {
        0 | 1 => vec![],
        3 if !pairs.is_empty() => {
            let (first, second) = pairs[round % pairs.len()];
            vec![all[first], all[second]]
        }
        4 if all.len() > 2 => (0..3).map(|_| dice.pick(all)).collect(),
        _ => vec![all[round % all.len()]],
    }
}

/// The function of a number, its faults, and how many of its calls came before.
fn kind(number: usize) -> (Function, &'static [Fault], usize) {
    let round: usize = KINDS.iter().map(|kind| kind.1).sum();
    let mut place = number % round;
    for (function, times, faults) in KINDS {
        if place < times {
            return (function, faults, number / round * times + place);
        }
        place -= times;
    }
    unreachable!("a place inside the round")
}

/// The coefficients of a polynomial: mostly few, since many take long.
fn coefficients(dice: &mut Dice) -> u64 {
    match dice.below(16) {
        0 => dice.pick(&[255, 256]),
        1 => dice.between(3, 254),
        2 | 3 => 1,
        4..=6 => 2,
        _ => dice.between(3, 6),
    }
}

/// n, k and m. Only the largest polynomial has the last place of a share or word, and only the largest value or sample that of a word. Noise has
/// the k of set 1 or 2.
fn size(dice: &mut Dice, function: Function, turn: usize, faults: &[Fault]) -> [u64; 3] {
    let (n, k) = if dice.one_in(6) { dice.pick(&[(2, 1), (8, 1), (2, 16), (8, 16)]) } else { (dice.between(2, 8), dice.between(1, 16)) };
    // The number of a call without faults: they are two of five.
    let good = (turn / 5 * 2 + turn % 5) as u64;
    let by_size = matches!(function, Function::ConvertValue | Function::SampleSteps);
    match faults {
        [] if function == Function::SplitNoise => [2 + good % 7, 2 + good / 7 % 2, 256],
        _ if function == Function::SplitNoise => [n, dice.between(2, 3), 256],
        // One pair of n and k after the other.
        [] if by_size => [2 + good % 7, 1 + good / 7 % 16, 1],
        [High(_)] if by_size && dice.one_in(4) => [8, 16, 1],
        _ if function != Function::SamplePolynomial => [n, k, 1],
        [] => [2 + good % 7, 1 + good / 7 % 16, coefficients(dice)],
        [Wide(_)] if dice.one_in(2) => [8, 1, 256],
        [High(_)] if dice.one_in(2) => [8, 16, 256],
        _ => [n, k, coefficients(dice)],
    }
}

/// The call of a number. Where n or k is to be unfit, the lists may have been made for it.
pub fn made(seed: u64, number: usize) -> Call {
    let (function, all, turn) = kind(number);
    let mut dice = Dice::new(seed, number as u64);
    let faults = faults(&mut dice, turn, all);
    let [mut n, mut k, m] = size(&mut dice, function, turn, &faults);
    if faults.contains(&N) && dice.one_in(2) {
        n = dice.pick(&[1, 9]);
    }
    if faults.contains(&K) && dice.one_in(4) {
        k = 0;
    }
    let mut draft = draft::good(&mut dice, seed, turn, function, [n, k, m]);
    for fault in faults {
        draft.spoil(&mut dice, fault);
    }
    draft.call
}
