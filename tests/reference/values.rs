//! Calls that convert a shared string: how they are drawn.

use crate::calls::bit_words;
use crate::draft::Drawn;
use crate::draw::{random_words, shares, unjudged_word, Dice};
use crate::splits::unfit;
use crate::value::value_words;

/// A modulus for a string of such a number: often a power of two, or about the number or a part of it.
fn modulus(dice: &mut Dice, number: u64) -> u64 {
    let (power, any) = (1 << dice.between(2, 15), dice.between(3, 65_535));
    let near = [number.saturating_sub(1), number, number, number + 1, number / dice.between(2, 9)];
    let (listed, near) = (dice.pick(&[3, 4, 5, 16, 17, 65_535]), dice.pick(&near));
    dice.pick(&[listed, power, near, any]).clamp(3, 65_535)
}

/// n shares of a string of k bits, at times of one with a single bit.
fn string(dice: &mut Dice, n: u64, k: u64) -> Vec<u64> {
    let mut list = shares(dice, n, k);
    if k > 0 && dice.one_in(4) {
        let bit = dice.below(k);
        list[0] ^= opened(&list) ^ 1 << dice.pick(&[0, k - 1, bit]);
    }
    list
}

pub fn opened(shares: &[u64]) -> u64 {
    shares.iter().fold(0, |number, share| number ^ share)
}

/// A length that suffices. Seldom its low 16 bits do not.
pub fn length(dice: &mut Dice, needed: u64) -> u64 {
    if dice.one_in(100) {
        return 65_536 + dice.below(needed.max(1));
    }
    let any = dice.between(needed, needed + 20);
    dice.pick(&[needed, needed, needed, needed + 1, 2 * needed, any])
}

/// A good call, with q and the lists.
pub fn drawn(dice: &mut Dice, n: u64, k: u64) -> Drawn {
    let (shares, needed) = (string(dice, n, k), value_words(n, k));
    let q = modulus(dice, opened(&shares));
    let mut words = random_words(dice, q, needed);
    words.extend((needed..length(dice, needed)).map(|_| unjudged_word(dice, q)));
    let out = (0..length(dice, n)).map(|_| dice.below(65_536)).collect();
    (vec![n, k, q], vec![shares, words, out], vec![n, needed, n])
}

/// A number of shares that is not from 2 to 8.
pub fn unfit_shares(dice: &mut Dice, n: u64) -> u64 {
    unfit(dice, n, &[0, 1, 9, 10, 255, 1 << 63 | n, u64::MAX - 1, u64::MAX])
}

/// A number of bits that is not from 1 to 16.
pub fn unfit_bits(dice: &mut Dice, k: u64) -> u64 {
    unfit(dice, k, &[0, 0, 17, 18, 32, 64, 1 << 63 | k, u64::MAX - 1, u64::MAX])
}

/// Not n shares. At times n is in the low 16 bits.
pub fn unfit_length(dice: &mut Dice, n: u64) -> u64 {
    if dice.one_in(20) {
        return 65_536 + n;
    }
    let any = dice.between(n + 1, n + 20);
    dice.pick(&[n.saturating_sub(1), n + 1, 0, any])
}

/// The place of one of so many words: at an end, at an end of a bit, or any.
pub fn word_place(dice: &mut Dice, n: u64, count: usize) -> usize {
    let (any, row) = (dice.below(count as u64) as usize, bit_words(n) as usize);
    let of_bit = any / row * row;
    dice.pick(&[0, count - 1, count - 1, row - 1, of_bit, of_bit + row - 1, any]).min(count - 1)
}
