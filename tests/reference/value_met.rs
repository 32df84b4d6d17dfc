//! What calls that convert a shared string are to meet.

use crate::call::{Answer, Call};
use crate::calls::bit_words;
use crate::kinds::chosen;
use crate::values::opened;

/// Moduli that are met one by one, besides the powers of two from 4 up.
const MODULI: [u64; 4] = [3, 5, 17, 65_535];

const STRINGS: [&str; 10] = [
    "a string below q",
    "a string equal to q",
    "a string above q",
    "a string of twice q or more",
    "a string of zeros",
    "a string of ones",
    "bit 0 alone of several",
    "the highest bit alone of several",
    "a factor above q",
    "a factor that is 0 modulo q",
];

const LISTS: [&str; 10] = [
    "just the words that it takes",
    "one word more",
    "the words of 2k bits",
    "a word not below q behind the last",
    "words whose number's low 16 bits do not suffice",
    "n places of output for several bits",
    "n + 1 places of output",
    "2n places of output",
    "places of output whose number's low 16 bits do not suffice",
    "words that are all q - 1",
];

const SHARES: [&str; 9] = [
    "n 0",
    "n 1 and the lists of one share",
    "n 9 and the lists of nine shares",
    "the largest n but one",
    "the largest n",
    "an n whose low 8 bits fit",
    "an n whose low 16 bits fit",
    "an n whose low 32 bits fit",
    "an n whose low 63 bits fit",
];

const BITS: [&str; 9] = [
    "k 0",
    "k 17",
    "the largest k but one",
    "the largest k",
    "a k whose low 8 bits fit",
    "a k whose low 16 bits fit",
    "a k whose low 32 bits fit",
    "a k whose low 63 bits fit",
    "a k with which the words needed wrap to those lent",
];

pub const SMALL: [&str; 3] = ["q 0", "q 1", "q 2"];

pub const LENGTHS: [&str; 5] =
    ["one share too few", "one share too many", "no shares", "ten shares too many or more", "shares whose number's low 16 bits are n"];

pub const WIDE: [&str; 6] = ["the first share", "a middle share", "the last share", "bit k alone", "bit 15 alone", "a share with a later one"];

pub const FEW: [&str; 4] = ["one word too few", "no words", "half the words or fewer", "the words of all bits but one, or more"];

pub const HIGH: [&str; 9] = [
    "the first word",
    "the last word",
    "the last word of the first bit of several",
    "the first word of a later bit",
    "a word of q",
    "a word above q",
    "a word of 65,535",
    "a word with a later one",
    "the last word with one behind it",
];

pub const ROOMS: [&str; 2] = ["one place too few", "no places"];

/// The numbers in the order of the checks.
const ORDER: [u64; 8] = [1, 2, 3, 4, 6, 8, 9, 10];

pub fn of_modulus(q: u64) -> String {
    format!("q {q}")
}

pub fn accepted(kind: &str) -> String {
    format!("accepted with {kind}")
}

pub fn refused(number: u64, kind: &str) -> String {
    format!("refused with {number} for {kind}")
}

pub fn before(number: u64, other: u64) -> String {
    format!("refused with {number} where {other} is due too")
}

/// All that the calls are to meet.
pub fn to_meet() -> Vec<String> {
    let moduli = MODULI.into_iter().chain((2..16).map(|exponent| 1 << exponent)).map(|q| accepted(&of_modulus(q)));
    let mut kinds: Vec<String> = moduli.chain(STRINGS.map(accepted)).chain(LISTS.map(accepted)).collect();
    let refusals: [(u64, &[&str]); 8] = [(1, &SHARES), (2, &BITS), (3, &SMALL), (4, &LENGTHS), (6, &WIDE), (8, &FEW), (9, &HIGH), (10, &ROOMS)];
    for (number, of_number) in refusals {
        kinds.extend(of_number.iter().map(|kind| refused(number, kind)));
    }
    for (place, number) in ORDER.iter().enumerate() {
        kinds.extend(ORDER[place + 1..].iter().map(|other| before(*number, *other)));
    }
    kinds
}

/// A call's numbers and lists, of the output its length.
#[derive(Clone, Copy)]
pub struct Value<'a> {
    pub n: u64,
    pub k: u64,
    pub q: u64,
    pub shares: &'a [u64],
    pub words: &'a [u64],
    pub out: u64,
}

/// What one call meets of that.
pub fn met(call: &Call, answer: Answer) -> Vec<String> {
    let [n, k, q] = <[u64; 3]>::try_from(&call.numbers[..]).expect("n, k and q");
    let value = Value { n, k, q, shares: call.list("shares"), words: call.list("words"), out: call.list("out").len() as u64 };
    let (place, refused) = (answer.place as usize, |kind: &str| refused(answer.code, kind));
    let mut met: Vec<String> = match answer.code {
        0 => value.accepted(),
        1 => chosen(&SHARES, value.unfit_shares()).map(refused).collect(),
        2 => chosen(&BITS, value.unfit_bits()).map(refused).collect(),
        3 => chosen(&SMALL, [q == 0, q == 1, q == 2]).map(refused).collect(),
        4 => chosen(&LENGTHS, value.lengths()).map(refused).collect(),
        6 => chosen(&WIDE, value.wide(place)).map(refused).collect(),
        8 => chosen(&FEW, value.few()).map(refused).collect(),
        9 => chosen(&HIGH, value.high(place)).map(refused).collect(),
        _ => chosen(&ROOMS, [value.out + 1 == n, value.out == 0]).map(refused).collect(),
    };
    let later = ORDER.iter().skip_while(|number| **number != answer.code).skip(1);
    met.extend(later.filter(|number| value.is_due(**number)).map(|number| before(answer.code, *number)));
    met
}

impl Value<'_> {
    /// The words that the call takes.
    pub fn needed(&self) -> u128 {
        let [n, k] = [self.n, self.k].map(u128::from);
        k.saturating_mul(n).saturating_mul(n.saturating_sub(1))
    }

    pub fn is_high(&self, place: usize) -> bool {
        self.words.get(place).map_or(false, |word| *word >= self.q)
    }

    /// Whether a number would come if none came before it.
    pub fn is_due(&self, number: u64) -> bool {
        let (shares, words) = (self.shares.len() as u64, self.words.len() as u128);
        match number {
            1 => !(2..=8).contains(&self.n),
            2 => !(1..=16).contains(&self.k),
            3 => self.q < 3,
            4 => shares != self.n,
            6 => self.k < 16 && self.shares.iter().any(|share| share >> self.k != 0),
            8 => words < self.needed(),
            9 => (0..words.min(self.needed()) as usize).any(|place| self.is_high(place)),
            _ => self.out < self.n,
        }
    }

    /// Whether no number is due from one of them on.
    fn is_good_from(&self, first: u64) -> bool {
        ORDER.iter().skip_while(|number| **number != first).all(|number| !self.is_due(*number))
    }

    fn accepted(&self) -> Vec<String> {
        let modulus = of_modulus(self.q);
        let modulus = if MODULI.contains(&self.q) || self.q.is_power_of_two() { Some(&modulus[..]) } else { None };
        let kinds = chosen(&STRINGS, self.strings()).chain(chosen(&LISTS, self.lists())).chain(modulus);
        kinds.map(accepted).collect()
    }

    fn strings(&self) -> [bool; 10] {
        let (q, number, ones, highest, several) = (self.q, opened(self.shares), (1 << self.k) - 1, 1 << (self.k - 1), self.k > 1);
        [
            number < q,
            number == q,
            number > q,
            number >= 2 * q,
            number == 0,
            number == ones,
            several && number == 1,
            several && number == highest,
            highest > q,
            highest % q == 0,
        ]
    }

    fn lists(&self) -> [bool; 10] {
        let (n, needed, len) = (self.n, self.needed() as usize, self.words.len());
        [
            len == needed,
            len == needed + 1,
            len == 2 * needed,
            self.is_high(needed),
            len % 65_536 < needed,
            self.out == n && self.k > 1,
            self.out == n + 1,
            self.out == 2 * n,
            self.out % 65_536 < n,
            self.words[..needed].iter().all(|word| word + 1 == self.q),
        ]
    }

    fn unfit_shares(&self) -> [bool; 9] {
        let (n, others_fit) = (self.n, self.is_good_from(2));
        let fits_cut = |bits: u32| n >> bits != 0 && Value { n: n % (1 << bits), ..*self }.is_good_from(1);
        let cut = [8, 16, 32, 63].map(fits_cut);
        [n == 0, n == 1 && others_fit, n == 9 && others_fit, n == u64::MAX - 1, n == u64::MAX, cut[0], cut[1], cut[2], cut[3]]
    }

    fn unfit_bits(&self) -> [bool; 9] {
        let (k, row) = (self.k, bit_words(self.n));
        let fits_cut = |bits: u32| k >> bits != 0 && Value { k: k % (1 << bits), ..*self }.is_good_from(2);
        let cut = [8, 16, 32, 63].map(fits_cut);
        let wraps = k.checked_mul(row).is_none() && k.wrapping_mul(row) <= self.words.len() as u64;
        [k == 0, k == 17, k == u64::MAX - 1, k == u64::MAX, cut[0], cut[1], cut[2], cut[3], wraps]
    }

    pub fn lengths(&self) -> [bool; 5] {
        let (n, len) = (self.n, self.shares.len() as u64);
        [len + 1 == n, len == n + 1, len == 0, len >= n + 10, len > n && len % 65_536 == n]
    }

    pub fn wide(&self, place: usize) -> [bool; 6] {
        let (k, last) = (self.k, self.shares.len() - 1);
        let over = self.shares[place] >> k << k;
        let later = self.shares[place + 1..].iter().any(|share| share >> k != 0);
        [place == 0, 0 < place && place < last, place == last, over == 1 << k, over == 1 << 15, later]
    }

    pub fn few(&self) -> [bool; 4] {
        let (needed, len) = (self.needed() as u64, self.words.len() as u64);
        [len + 1 == needed, len == 0, 2 * len <= needed, self.k > 1 && len + bit_words(self.n) >= needed]
    }

    pub fn high(&self, place: usize) -> [bool; 9] {
        let (needed, row, word) = (self.needed() as usize, bit_words(self.n) as usize, self.words[place]);
        let later = (place + 1..needed).any(|other| self.is_high(other));
        let (last, behind) = (place + 1 == needed, self.is_high(needed));
        let [first_bit, later_bit] = [self.k > 1 && place + 1 == row, place > 0 && place % row == 0];
        [place == 0, last, first_bit, later_bit, word == self.q, word == self.q + 1, word == 65_535, later, last && behind]
    }
}
