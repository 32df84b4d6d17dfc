//! The samples that lesson files are made of.

use crate::calls::{mask, words_needed};
use crate::draw::{modulus, random_words, shares, unjudged_word, Dice};
use crate::lesson::MOST_WORDS;

/// Two bytes a word, the low byte first.
fn bytes_of(words: &[u64]) -> Vec<u8> {
    words.iter().flat_map(|word| (*word as u16).to_le_bytes()).collect()
}

/// The fields of a sample's records. RW's count stands by itself, as it may be wrong.
pub struct Sample {
    pub n: u64,
    pub k: u64,
    pub q: u64,
    pub x: Vec<u64>,
    pub y: Vec<u64>,
    pub x_first: bool,
    pub count: u64,
    pub words: Vec<u64>,
}

impl Sample {
    /// The four records in the order of the file.
    pub fn records(&self) -> [Vec<u8>; 4] {
        let parameters = [b"PM", &[self.n as u8, self.k as u8][..], &bytes_of(&[self.q])].concat();
        let x = [&b"XB"[..], &bytes_of(&self.x)].concat();
        let y = [&b"YB"[..], &bytes_of(&self.y)].concat();
        let random = [&b"RW"[..], &bytes_of(&[self.count]), &bytes_of(&self.words)].concat();
        if self.x_first {
            [parameters, x, y, random]
        } else {
            [parameters, y, x, random]
        }
    }

    pub fn bytes(&self) -> Vec<u8> {
        self.records().concat()
    }

    /// The words and their right count.
    pub fn set_words(&mut self, words: Vec<u64>) {
        self.count = words.len() as u64;
        self.words = words;
    }

    /// The list that comes first in the file.
    pub fn first_list(&mut self) -> &mut Vec<u64> {
        if self.x_first {
            &mut self.x
        } else {
            &mut self.y
        }
    }
}

/// A good sample with exactly W words.
pub fn good(dice: &mut Dice, n: u64, k: u64) -> Sample {
    let q = modulus(dice, k);
    let (x, y, x_first) = (shares(dice, n, k), shares(dice, n, k), dice.one_in(2));
    let words = random_words(dice, q, words_needed(n, k));
    Sample { n, k, q, x, y, x_first, count: words.len() as u64, words }
}

/// Words past W are not judged and may be q or more.
pub fn lengthen(dice: &mut Dice, sample: &mut Sample, count: u64) {
    while sample.count < count {
        sample.words.push(unjudged_word(dice, sample.q));
        sample.count += 1;
    }
}

/// A good sample, mostly a short one.
pub fn any_good(dice: &mut Dice) -> Sample {
    let wide = dice.one_in(8);
    let (n, k) = if wide { (dice.between(2, 8), dice.between(1, 16)) } else { (dice.between(2, 4), dice.between(1, 3)) };
    let mut sample = good(dice, n, k);
    if dice.one_in(6) {
        let count = dice.between(sample.count, MOST_WORDS.min(sample.count + 20));
        lengthen(dice, &mut sample, count);
    }
    sample
}

/// A good sample whose shares have bits that must be zero.
pub fn narrow_good(dice: &mut Dice) -> Sample {
    let (n, k) = (dice.between(2, 5), dice.pick(&[1, 2, 3, 8, 15]));
    good(dice, n, k)
}

/// n shares of a string: masks drawn evenly, and the string XOR all masks.
pub fn masked(dice: &mut Dice, n: u64, k: u64, string: u64) -> Vec<u64> {
    let masks: Vec<u64> = (1..n).map(|_| dice.below(1 << k)).collect();
    let mut out = vec![0; n as usize];
    mask(n, k, string, &masks, &mut out).expect("a string of k bits");
    out
}
