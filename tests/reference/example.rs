//! Lessons for the published parameter sets.

use crate::calls::{parameter_set, weight_difference, words_needed};
use crate::draw::Dice;
use crate::samples::{masked, Sample};

/// Two strings of k bits whose weight difference has the sign asked for.
fn strings_of_sign(dice: &mut Dice, k: u64, sign: i64) -> (u64, u64) {
    loop {
        let (x, y) = (dice.below(1 << k), dice.below(1 << k));
        if weight_difference(k, x, y).expect("strings of k bits").signum() == sign {
            return (x, y);
        }
    }
}

/// A lesson for a published parameter set: three to six samples with different n; negative, zero and positive ones among them.
pub fn example(set: u64, seed: u64) -> Vec<u8> {
    let (k, q) = parameter_set(set).expect("a set number from 1 to 7");
    let mut dice = Dice::new(seed, set);
    let mut numbers_of_shares: Vec<u64> = (2..=8).collect();
    let mut file = Vec::new();
    for place in 0..dice.between(3, 6) {
        let n = numbers_of_shares.remove(dice.below(numbers_of_shares.len() as u64) as usize);
        let (x, y) = strings_of_sign(&mut dice, k, [-1, 0, 1][place as usize % 3]);
        let (x, y, x_first) = (masked(&mut dice, n, k, x), masked(&mut dice, n, k, y), dice.one_in(2));
        let words: Vec<u64> = (0..words_needed(n, k)).map(|_| dice.below(q)).collect();
        file.extend(Sample { n, k, q, x, y, x_first, count: words.len() as u64, words }.bytes());
    }
    file
}
