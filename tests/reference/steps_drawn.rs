//! Calls that sample with step records: how they are drawn.

use crate::calls::words_needed;
use crate::draft::Drawn;
use crate::draw::{self, random_words, shares, unjudged_word, Dice};
use crate::steps::{bit_bytes, bytes_needed, RECORD};
use crate::values::length;
use crate::work;

/// A modulus above 2k, more often a power of two than other samples have it.
fn modulus(dice: &mut Dice, k: u64) -> u64 {
    if dice.one_in(4) {
        let least = (1..16).find(|exponent| 1 << exponent > 2 * k).expect("a power above 2k");
        return 1 << dice.between(least, 15);
    }
    draw::modulus(dice, k)
}

/// So many bytes for the records, or more. Seldom the low 16 bits of the number do not suffice.
fn room(dice: &mut Dice, needed: u64) -> u64 {
    if dice.one_in(60) {
        return 65_536 + dice.below(needed.max(1));
    }
    let any = dice.between(needed, needed + 40);
    let twice = if dice.one_in(4) { 2 * needed } else { needed };
    dice.pick(&[needed, needed, needed, needed + 1, needed + RECORD - 1, needed + RECORD, any, twice])
}

/// Too few bytes for the records of n shares of k bits, where there are any.
pub fn too_few(dice: &mut Dice, n: u64, k: u64) -> u64 {
    let needed = bytes_needed(n, k);
    let less = |bytes: u64| needed.saturating_sub(bytes);
    let any = dice.below(needed.max(1));
    let near = [less(1), less(RECORD - 1), less(RECORD), less(bit_bytes(n))];
    let far = [0, 1, needed / RECORD, bytes_needed(n.max(1) - 1, k), any];
    dice.pick(&[&near[..], &far].concat()).min(less(1))
}

/// A good call, with q and the lists.
pub fn drawn(dice: &mut Dice, n: u64, k: u64) -> Drawn {
    let (q, count) = (modulus(dice, k), words_needed(n, k));
    let needed = vec![n, n, count, n, n, bytes_needed(n, k)];
    let [x, y] = [(); 2].map(|()| shares(dice, n, k));
    let mut words = random_words(dice, q, count);
    words.extend((count..length(dice, count)).map(|_| unjudged_word(dice, q)));
    let out = (0..length(dice, n)).map(|_| dice.below(65_536)).collect();
    let work = work::fitting(dice, n, k);
    let room = room(dice, needed[5]) as usize;
    let records = dice.bytes(room).into_iter().map(u64::from).collect();
    (vec![n, k, q], vec![x, y, words, out, work, records], needed)
}

/// A number of shares that is not from 2 to 8.
pub fn unfit_shares(dice: &mut Dice, n: u64) -> u64 {
    dice.pick(&[0, 1, 9, 10, u64::MAX - 1, u64::MAX, u64::MAX, 1 << 8 | n, 1 << 16 | n, 1 << 32 | n, 1 << 63 | n])
}

/// A number of bits that is not from 1 to 16.
pub fn unfit_bits(dice: &mut Dice, k: u64) -> u64 {
    dice.pick(&[0, 17, 18, 64, u64::MAX - 1, u64::MAX, u64::MAX, 1 << 8 | k, 1 << 16 | k, 1 << 32 | k, 1 << 60 | k, 1 << 63 | k])
}
