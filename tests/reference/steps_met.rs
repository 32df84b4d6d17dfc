//! What calls that sample with step records are to meet, besides what they are to meet of the work area.

use crate::call::{Answer, Call};
use crate::kinds::chosen;
use crate::steps::{bit_bytes, bytes_needed, RECORD};
use crate::value_met::{accepted, before, refused, Value, FEW, HIGH, LENGTHS, ROOMS, WIDE};
use crate::values::opened;

const MODULI: [&str; 9] =
    ["q 2k + 1", "q 2k + 2", "another even q", "another odd q", "q a power of two", "q 3,329", "q 32,768", "q 65,535", "q of 256 or less"];

const STRINGS: [&str; 5] = ["x and y of zeros", "x of ones", "y of ones", "shares that are all ones", "k 16 and n 8"];

const LISTS: [&str; 8] = [
    "just the words that it takes",
    "one word more",
    "a word not below q behind the last",
    "words whose number's low 16 bits do not suffice",
    "words that are all 0",
    "words that are all q - 1",
    "n places of output",
    "n + 1 places of output",
];

const RECORDS: [&str; 6] = [
    "just the bytes of the records",
    "one byte more",
    "seven bytes more",
    "the bytes of one record more",
    "twice the bytes",
    "bytes whose number's low 16 bits do not suffice",
];

const SHARES: [&str; 9] = [
    "n 0",
    "n 1 and shares of one",
    "n 9 and shares of nine",
    "the largest n but one",
    "the largest n",
    "the largest n and empty lists",
    "an n whose low 8 or 16 bits fit",
    "an n whose low 32 bits fit",
    "an n whose low 63 bits fit",
];

const BITS: [&str; 9] = [
    "k 0",
    "k 17",
    "the largest k but one",
    "the largest k",
    "the largest k and empty lists",
    "a k whose low 8 or 16 bits fit",
    "a k whose low 32 bits fit",
    "a k whose low 63 bits fit",
    "a k with which the bytes needed wrap to those lent",
];

const SMALL: [&str; 4] = ["q 0", "q 1", "q 2", "q 2k"];

const ROOM: [&str; 8] = [
    "one byte too few",
    "seven bytes too few",
    "one record too few",
    "no bytes",
    "one byte alone",
    "as many bytes as records",
    "the records of all bits but one",
    "the records of one share less",
];

/// The numbers in the order of the checks.
const ORDER: [u64; 12] = [1, 2, 3, 4, 5, 6, 7, 8, 9, 10, 11, 26];

/// All that the calls are to meet.
pub fn to_meet() -> Vec<String> {
    let good = [&MODULI[..], &STRINGS, &LISTS, &RECORDS].concat();
    let mut kinds: Vec<String> = good.into_iter().map(accepted).collect();
    let shares: [(u64, &[&str]); 7] = [(1, &SHARES), (2, &BITS), (3, &SMALL), (4, &LENGTHS), (5, &LENGTHS), (6, &WIDE), (7, &WIDE)];
    let rooms: [(u64, &[&str]); 4] = [(8, &FEW), (9, &HIGH), (10, &ROOMS), (26, &ROOM)];
    for (number, of_number) in shares.into_iter().chain(rooms) {
        kinds.extend(of_number.iter().map(|kind| refused(number, kind)));
    }
    for (place, number) in ORDER.iter().enumerate() {
        kinds.extend(ORDER[place + 1..].iter().map(|other| before(*number, *other)));
    }
    kinds
}

/// A call's numbers, its shares of x and of y as if each were converted, and its words as those of a string of 2k bits; of the other lists their
/// lengths.
struct Steps<'a> {
    n: u64,
    k: u64,
    q: u64,
    x: Value<'a>,
    y: Value<'a>,
    words: Value<'a>,
    out: u64,
    work: u64,
    records: u64,
}

/// What one call meets of that.
pub fn met(call: &Call, answer: Answer) -> Vec<String> {
    let steps = Steps::of(call);
    let (place, refused) = (answer.place as usize, |kind: &str| refused(answer.code, kind));
    let mut met: Vec<String> = match answer.code {
        0 => steps.accepted(),
        1 => chosen(&SHARES, steps.unfit_shares()).map(refused).collect(),
        2 => chosen(&BITS, steps.unfit_bits()).map(refused).collect(),
        3 => chosen(&SMALL, [0, 1, 2, 2 * steps.k].map(|q| steps.q == q)).map(refused).collect(),
        4 => chosen(&LENGTHS, steps.x.lengths()).map(refused).collect(),
        5 => chosen(&LENGTHS, steps.y.lengths()).map(refused).collect(),
        6 => chosen(&WIDE, steps.x.wide(place)).map(refused).collect(),
        7 => chosen(&WIDE, steps.y.wide(place)).map(refused).collect(),
        8 => chosen(&FEW, steps.words.few()).map(refused).collect(),
        9 => chosen(&HIGH, steps.words.high(place)).map(refused).collect(),
        10 => chosen(&ROOMS, [steps.out + 1 == steps.n, steps.out == 0]).map(refused).collect(),
        26 => chosen(&ROOM, steps.room()).map(refused).collect(),
        _ => vec![],
    };
    let later = ORDER.iter().skip_while(|number| **number != answer.code).skip(1);
    met.extend(later.filter(|number| steps.is_due(**number)).map(|number| before(answer.code, *number)));
    met
}

/// A number that fits once only so many low bits are left.
fn fits_cut(number: u64, bits: u32, most: u64, least: u64) -> bool {
    number >> bits != 0 && (least..=most).contains(&(number % (1 << bits)))
}

impl Steps<'_> {
    fn of(call: &Call) -> Steps<'_> {
        let [n, k, q] = <[u64; 3]>::try_from(&call.numbers[..]).expect("n, k and q");
        let [out, work, records] = ["out", "work", "records"].map(|name| call.list(name).len() as u64);
        let [x, y] = ["x", "y"].map(|name| Value { n, k, q, shares: call.list(name), words: call.list("words"), out });
        Steps { n, k, q, x, y, words: Value { k: k.saturating_mul(2), ..x }, out, work, records }
    }

    /// The bytes that the records take.
    fn needed(&self) -> u128 {
        let [n, k] = [self.n, self.k].map(u128::from);
        let bit = (n.saturating_mul(n + 1).saturating_mul(5) / 2).saturating_sub(3);
        bit.saturating_mul(2 * k).saturating_mul(RECORD as u128)
    }

    /// Whether a number would come if none came before it.
    fn is_due(&self, number: u64) -> bool {
        match number {
            3 => (self.q as u128) < 2 * self.k as u128 + 1,
            5 => self.y.is_due(4),
            7 => self.y.is_due(6),
            8 | 9 => self.words.is_due(number),
            11 => self.work < self.n,
            26 => (self.records as u128) < self.needed(),
            _ => self.x.is_due(number),
        }
    }

    fn accepted(&self) -> Vec<String> {
        let kinds = chosen(&MODULI, self.moduli()).chain(chosen(&STRINGS, self.strings()));
        kinds.chain(chosen(&LISTS, self.lists())).chain(chosen(&RECORDS, self.records())).map(accepted).collect()
    }

    fn moduli(&self) -> [bool; 9] {
        let (q, least) = (self.q, 2 * self.k + 1);
        let other = q > least + 1;
        let listed = [3_329, 32_768, 65_535].map(|listed| q == listed);
        let (even, odd) = (other && q % 2 == 0, other && q % 2 == 1);
        [q == least, q == least + 1, even, odd, q.is_power_of_two(), listed[0], listed[1], listed[2], q <= 256]
    }

    fn strings(&self) -> [bool; 5] {
        let (ones, [x, y]) = ((1 << self.k) - 1, [&self.x, &self.y].map(|value| opened(value.shares)));
        let all_ones = self.x.shares.iter().chain(self.y.shares).all(|share| *share == ones);
        [x == 0 && y == 0, x == ones, y == ones, all_ones, self.k == 16 && self.n == 8]
    }

    fn lists(&self) -> [bool; 8] {
        let (words, needed) = (self.words.words, self.words.needed() as usize);
        let (taken, len) = (&words[..needed], words.len());
        [
            len == needed,
            len == needed + 1,
            self.words.is_high(needed),
            len % 65_536 < needed,
            taken.iter().all(|word| *word == 0),
            taken.iter().all(|word| word + 1 == self.q),
            self.out == self.n,
            self.out == self.n + 1,
        ]
    }

    fn records(&self) -> [bool; 6] {
        let (len, needed) = (self.records, self.needed() as u64);
        [len == needed, len == needed + 1, len == needed + RECORD - 1, len == needed + RECORD, len == 2 * needed, len % 65_536 < needed]
    }

    fn is_empty(&self) -> bool {
        [self.x.shares, self.y.shares, self.x.words].iter().all(|list| list.is_empty()) && self.out + self.work + self.records == 0
    }

    fn unfit_shares(&self) -> [bool; 9] {
        let (n, largest) = (self.n, self.n == u64::MAX);
        let of_length = |len: usize| n == len as u64 && [&self.x, &self.y].iter().all(|value| value.shares.len() == len);
        let [low_8, low_16, low_32, low_63] = [8, 16, 32, 63].map(|bits| fits_cut(n, bits, 8, 2));
        [n == 0, of_length(1), of_length(9), n == u64::MAX - 1, largest, largest && self.is_empty(), low_8 || low_16, low_32, low_63]
    }

    fn unfit_bits(&self) -> [bool; 9] {
        let (k, largest) = (self.k, self.k == u64::MAX);
        let [low_8, low_16, low_32, low_63] = [8, 16, 32, 63].map(|bits| fits_cut(k, bits, 16, 1));
        let wraps = self.needed() >> 64 != 0 && self.needed() as u64 <= self.records;
        [k == 0, k == 17, k == u64::MAX - 1, largest, largest && self.is_empty(), low_8 || low_16, low_32, low_63, wraps]
    }

    fn room(&self) -> [bool; 8] {
        let (n, k, len, needed) = (self.n, self.k, self.records, self.needed() as u64);
        [
            len + 1 == needed,
            len + RECORD - 1 == needed,
            len + RECORD == needed,
            len == 0,
            len == 1,
            len == needed / RECORD,
            len + bit_bytes(n) == needed,
            len == bytes_needed(n - 1, k),
        ]
    }
}
