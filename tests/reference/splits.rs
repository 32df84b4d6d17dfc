//! Calls that split noise: how unfit ones are drawn, and what the calls are to meet.

use crate::call::{Answer, Call};
use crate::calls::parameter_set;
use crate::draw::Dice;
use crate::kinds::chosen;
use crate::noise::COEFFICIENTS;

/// The bytes of n strings.
pub fn fitting_length(n: u64, k: u64) -> u64 {
    64 * k * n
}

/// One of the others, or the number with a high bit set, which is right again where that bit is lost.
pub fn unfit(dice: &mut Dice, number: u64, others: &[u64]) -> u64 {
    if dice.one_in(3) {
        return dice.pick(others);
    }
    1 << dice.pick(&[8, 16, 32, 58, 62, 63]) | number
}

/// A number of shares that is not from 2 to 8. The lists of n shares fit some where a product wraps around.
pub fn unfit_shares(dice: &mut Dice, n: u64) -> u64 {
    unfit(dice, n, &[0, 1, 9, 10, 255, 1 << 58, 1 << 63, u64::MAX - 1, u64::MAX])
}

/// A number of no set.
pub fn unfit_set(dice: &mut Dice, set: u64) -> u64 {
    unfit(dice, set, &[0, 8, 9, 255, u64::MAX - 1, u64::MAX])
}

/// Not the bytes of n strings.
pub fn unfit_length(dice: &mut Dice, n: u64, k: u64) -> u64 {
    let (right, string) = (fitting_length(n, k), fitting_length(1, k));
    let (fewer, more) = (dice.below(right), dice.between(right + 1, 2 * right));
    let near = [right - 1, right + 1, right - string, right + string, fitting_length(n, 5 - k)];
    let far = [0, right / 2, 2 * right, right + 256, right + 65_536, fewer, more];
    dice.pick(&[&near[..], &far].concat())
}

const ACCEPTED: [&str; 7] = [
    "with places past the last share in x alone",
    "with places past the last share in y alone",
    "with no place past the last share",
    "with all bits 0",
    "with all bits 1",
    "with one bit 1",
    "with one bit 0",
];

const SHARES: [&str; 10] = [
    "n 0",
    "n 0 and empty lists",
    "n 1 and the lists of one share",
    "n 9 and the lists of nine shares",
    "the largest n",
    "an n with which all sizes wrap to 0, and empty lists",
    "an n with which all sizes wrap to those of the lists",
    "an n whose low 8 bits fit",
    "an n whose low 32 bits fit",
    "an n whose low 63 bits fit",
];

const SETS: [&str; 7] = [
    "set 0",
    "set 8",
    "the largest set",
    "a set whose low 8 bits fit",
    "a set whose low 32 bits fit",
    "a set whose low 58 bits fit",
    "a set whose low 63 bits fit",
];

const OTHER_SETS: [&str; 7] = ["set 3", "set 4", "set 5", "set 6", "set 7", "the bytes of its own k", "bytes of another k"];

const LENGTHS: [&str; 9] = [
    "one byte too few",
    "one byte too many",
    "no bytes",
    "the bytes of the other set",
    "one string too few",
    "one string too many",
    "half the bytes",
    "256 bytes too many",
    "65,536 bytes too many",
];

const ROOMS: [&str; 7] = [
    "x alone",
    "y alone",
    "x and y",
    "x alone with one place too few",
    "y alone with one place too few",
    "x alone without places",
    "y alone without places",
];

/// A number that is asked about before another.
const ORDER: [(u64, u64); 9] = [(1, 22), (1, 24), (1, 25), (1, 10), (22, 25), (22, 10), (24, 25), (24, 10), (25, 10)];

fn of_size(set: u64, n: u64) -> String {
    format!("accepted with set {set} and n {n}")
}

fn accepted(kind: &str) -> String {
    format!("accepted {kind}")
}

fn refused(number: u64, kind: &str) -> String {
    format!("refused with {number} for {kind}")
}

fn before((number, other): (u64, u64)) -> String {
    format!("refused with {number} where {other} is due too")
}

/// All that the calls are to meet.
pub fn to_meet() -> Vec<String> {
    let mut kinds: Vec<String> = [1, 2].into_iter().flat_map(|set| (2..=8).map(move |n| of_size(set, n))).collect();
    kinds.extend(ACCEPTED.map(accepted));
    for (number, of_number) in [(1, &SHARES[..]), (22, &SETS), (24, &OTHER_SETS), (25, &LENGTHS), (10, &ROOMS)] {
        kinds.extend(of_number.iter().map(|kind| refused(number, kind)));
    }
    kinds.extend(ORDER.map(before));
    kinds
}

/// A call's numbers, and the lengths of its lists.
struct Split<'a> {
    n: u64,
    set: u64,
    list: &'a [u64],
    bytes: u64,
    x: u64,
    y: u64,
}

/// What one call meets of that.
pub fn met(call: &Call, answer: Answer) -> Vec<String> {
    let [n, set] = <[u64; 2]>::try_from(&call.numbers[..]).expect("n and the set");
    let [bytes, x, y] = [0, 1, 2].map(|list| call.lists[list].len() as u64);
    let split = Split { n, set, list: &call.lists[0], bytes, x, y };
    let refused = |kind: &str| refused(answer.code, kind);
    let mut met: Vec<String> = match answer.code {
        0 => chosen(&ACCEPTED, split.accepted()).map(accepted).chain([of_size(set, n)]).collect(),
        1 => chosen(&SHARES, split.shares()).map(refused).collect(),
        22 => chosen(&SETS, split.sets()).map(refused).collect(),
        24 => chosen(&OTHER_SETS, split.other_sets()).map(refused).collect(),
        25 => chosen(&LENGTHS, split.lengths()).map(refused).collect(),
        _ => chosen(&ROOMS, split.rooms()).map(refused).collect(),
    };
    met.extend(ORDER.into_iter().filter(|(number, other)| *number == answer.code && split.is_due(*other)).map(before));
    met
}

impl Split<'_> {
    /// The k of the set, where there is one.
    fn k(&self) -> Option<u64> {
        parameter_set(self.set).ok().map(|(k, _)| k)
    }

    /// The places of x and of y that n shares take.
    fn places(&self) -> u128 {
        COEFFICIENTS as u128 * self.n as u128
    }

    fn accepted(&self) -> [bool; 7] {
        let [more_x, more_y] = [self.x, self.y].map(|len| len as u128 > self.places());
        let (bits, ones) = (8 * self.bytes, self.list.iter().map(|byte| byte.count_ones() as u64).sum::<u64>());
        [more_x && !more_y, more_y && !more_x, !more_x && !more_y, ones == 0, ones == bits, ones == 1, ones + 1 == bits]
    }

    /// Whether all lists are those of so many shares.
    fn fits(&self, n: u64) -> bool {
        let bytes = self.k().map(|k| fitting_length(n, k));
        bytes == Some(self.bytes) && self.x.min(self.y) >= COEFFICIENTS as u64 * n
    }

    fn shares(&self) -> [bool; 10] {
        let (n, empty) = (self.n, self.bytes + self.x + self.y == 0);
        let fits_cut = |bits: u32| n >> bits != 0 && (2..=8).contains(&(n % (1 << bits))) && self.fits(n % (1 << bits));
        // With 58 low bits left, 64n is as before, and with it 64kn and 256n.
        [
            n == 0,
            n == 0 && empty,
            n == 1 && self.fits(1),
            n == 9 && self.fits(9),
            n == u64::MAX,
            n > 0 && n % (1 << 58) == 0 && empty,
            fits_cut(58),
            fits_cut(8),
            fits_cut(32),
            fits_cut(63),
        ]
    }

    fn sets(&self) -> [bool; 7] {
        let set = self.set;
        let fits_cut = |bits: u32| set >> bits != 0 && Split { set: set % (1 << bits), ..*self }.is_good();
        [set == 0, set == 8, set == u64::MAX, fits_cut(8), fits_cut(32), fits_cut(58), fits_cut(63)]
    }

    /// Whether the call with such lists is accepted.
    fn is_good(&self) -> bool {
        (2..=8).contains(&self.n) && [1, 2].contains(&self.set) && self.fits(self.n)
    }

    fn other_sets(&self) -> [bool; 7] {
        let (set, fits) = (self.set, self.fits(self.n));
        [set == 3, set == 4, set == 5, set == 6, set == 7, fits, !fits]
    }

    fn lengths(&self) -> [bool; 9] {
        let (n, k, len) = (self.n, self.k().expect("a set with a k"), self.bytes);
        let right = fitting_length(n, k);
        [
            len + 1 == right,
            len == right + 1,
            len == 0,
            len == fitting_length(n, 5 - k),
            len == fitting_length(n - 1, k),
            len == fitting_length(n + 1, k),
            2 * len == right,
            len == right + 256,
            len == right + 65_536,
        ]
    }

    fn rooms(&self) -> [bool; 7] {
        let [x, y] = [self.x, self.y].map(|len| self.places() - self.places().min(len as u128));
        let [x_alone, y_alone] = [x > 0 && y == 0, y > 0 && x == 0];
        [x_alone, y_alone, x > 0 && y > 0, x_alone && x == 1, y_alone && y == 1, x_alone && self.x == 0, y_alone && self.y == 0]
    }

    /// Whether a number would come if none came before it: 25 in a set without k where the bytes fit neither 2 nor 3.
    fn is_due(&self, number: u64) -> bool {
        let length = |k: u64| 64 * k as u128 * self.n as u128;
        match number {
            22 => self.k().is_none(),
            24 => (3..=7).contains(&self.set),
            25 => self.k().map_or(vec![2, 3], |k| vec![k]).into_iter().all(|k| self.bytes as u128 != length(k)),
            _ => (self.x.min(self.y) as u128) < self.places(),
        }
    }
}
